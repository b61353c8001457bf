"""The text of the proved library's LLVM module: whether it can be compiled for another processor, and the text for that.

The toolchain lowers the proved crate for x86-64. What its exported functions take and return is then compared, for each target, with what
clang's own C makes of nafelode.h for that target: C's convention there, as LLVM is told it. What was considered:

- A struct that is returned, or passed, is lowered by the rules of one processor. No exported function has one: each takes pointers, numbers
  of 32 bits and lengths of 64 bits, and returns a number of 32 bits. Anything else is refused here, by its name.
- x86-64, AArch64: an i32 is in the lower half of a register, and the upper half is anybody's; callers do not look at it. Nothing to add.
- RISC-V 64: C wants each i32, also an unsigned one, sign-extended to 64 bits, and callers rely on it: clang's compare the whole register
  (gcc 12's extend it once more). LLVM extends a result only where it is told to: `signext`. C's declarations have it there, and it is put
  on the module's functions, results and parameters. Without it the offset that nafelode_view answers is a sum of 64 bits
  (test_target.py).
- WebAssembly: i32, i64 and pointers (i32) are types of the machine; a call that disagrees is refused when it is linked or loaded.
- ARM (AAPCS): an i32 or a pointer is in one register, an i64 in two, the first of them with an even number, or on the stack at a multiple
  of 8. The back end does that for each i64, whoever wrote it: the header's lengths have 64 bits everywhere, so that C passes i64, too.
- 32-bit processors: the module's places in memory are those of x86-64, a pointer at its start of 8 bytes. Bytes are counted out in the
  module, so that is as good as any, as long as no pointer is made of a number or the other way round, no memory cell that is
  declared as one pointer, which has 4 bytes there, is used for anything else, no pointer is loaded or stored behind other fields at once, and
  there is no constant data with pointers in it.
"""
import re

NUMBERS = {'ptr', 'i32', 'i64'}
EXTENDED = {'signext', 'zeroext'}
NAME = r'@(?P<name>"[^"]*"|[\w.$]+)'


# A constant of a single byte, as the code compares a block's type with: it holds no pointer and no number that a processor would order otherwise. What is built
# has none left (target.py).
BYTES = r'@static\.\d+ = private unnamed_addr constant \[1 x i8\] (?:c"[^"]*"|zeroinitializer), align 1'


class Refused(Exception):
    pass


def typed(text, name):
    """A type with its attributes, as (type, how C wants it extended); of `noundef` nothing is to be said."""
    words = [word for word in text.split() if word != 'noundef' and not word.startswith('%')]
    types = [word for word in words if word in NUMBERS | {'void'}]
    extended = [word for word in words if word in EXTENDED]
    if len(types) != 1 or len(extended) > 1 or len(words) != 1 + len(extended):
        raise Refused(f'{name}: `{text.strip()}` is neither a pointer nor a number of 32 or 64 bits')
    return types[0], ' '.join(extended)


def signature(line, word):
    """The name of a function, and the types of its result and its parameters."""
    found = re.match(word + r' (?P<result>[^@]*?)' + NAME + r'\((?P<parameters>.*?)\)(?: #\d+)?(?: \{)?$', line)
    if not found:
        raise Refused(f'not understood: {line}')
    name = found['name']
    result = typed(found['result'].replace('dso_local', ''), name)
    if result[0] not in ('i32', 'void'):
        raise Refused(f'{name}: it returns `{result[0]}`, no number of 32 bits')
    parameters = [typed(part, name) for part in found['parameters'].split(',')] if found['parameters'] else []
    if any(kind == 'void' for kind, _ in parameters):
        raise Refused(f'{name}: not understood: {line}')
    return name, (result, parameters)


def exported(line):
    return line.startswith('define ') and not line.startswith('define internal ')


def signatures(text, word):
    """Of every function that is defined for others, or declared: name and types."""
    wanted = exported if word == 'define' else lambda line: line.startswith('declare ') and '@llvm.' not in line
    return dict(signature(line, word) for line in text.splitlines() if wanted(line))


def bare(types):
    (result, _), parameters = types
    return result, [kind for kind, _ in parameters]


def shown(types):
    result, parameters = bare(types)
    return f'{result}({", ".join(parameters)})'


def with_convention(text, declared, names):
    """The module in which each exported function has what C's declaration of it has: the same types, extended as C wants them."""
    defined, wanted = signatures(text, 'define'), signatures(declared, 'declare')
    for one, where in ((set(names) - set(defined), 'not defined in the module'), (set(defined) - set(names), 'not exported by the source'),
                       (set(names) - set(wanted), 'not declared in the header')):
        if one:
            raise Refused(f'{min(one)}: {where}')
    for name in names:
        if bare(defined[name]) != bare(wanted[name]):
            raise Refused(f'{name}: the module has {shown(defined[name])}, C has {shown(wanted[name])}')

    def extended(line):
        name, _ = signature(line, 'define')
        (result, how), parameters = wanted[name]
        words = [f'{kind} noundef {more} %a{i}' for i, (kind, more) in enumerate(parameters)]
        return ' '.join(f'define {how} {result} @{name}({", ".join(words)})'.split()) + line[line.rindex(')') + 1:]

    return '\n'.join(extended(line) if exported(line) else line for line in text.splitlines()) + '\n'


def functions(text):
    return re.findall(r'^define .*?^\}$', text, re.M | re.S)


def check_pointers(text):
    """Nothing in the module needs a pointer to have 8 bytes."""
    if found := re.search(r'.*\b(ptrtoint|ptrtoaddr|inttoptr|addrspacecast)\b.*', text):
        raise Refused(f'a pointer is no number here: {found[0].strip()}')
    for line in re.findall(r'^.*\b(?:load|store) \{[^}]*\bptr\b[^}]*\}.*$', text, re.M):
        if not re.match(r'  %\w+ = load \{ ptr, i64 \}', line):
            raise Refused(f'a pointer beside other fields, whose place depends on its size: {line.strip()}')
    for line in re.findall(r'^@.*', text, re.M):
        if not re.fullmatch(BYTES, line):
            raise Refused(f'data of its own: {line}')
    for function in functions(text):
        name = re.search(NAME, function)['name']
        for cell in re.findall(r'^  (%\w+) = alloca ptr,', function, re.M):
            at = re.escape(cell)
            for line in re.findall(rf'^.*{at}\b.*$', function, re.M):
                if not re.fullmatch(rf'  (?:{at} = alloca ptr|%\w+ = load ptr, ptr {at}|store ptr (?:%\w+|@static\.\d+), ptr {at})(?:, align \d+)?(?:, !noundef !\d+)?', line):
                    raise Refused(f'{name}: a cell of one pointer is used otherwise: {line.strip()}')


def for_target(text, declared):
    """The module with a target's layout and triple, as clang's C has them; the processor is what clang is told."""
    for word in ('datalayout', 'triple'):
        line = re.compile(rf'^target {word} = ".*"$', re.M)
        new = line.search(declared)
        text, times = line.subn(lambda _, new=new: new[0], text)
        if times != 1:
            raise Refused(f'the module has {times} lines `target {word}`')
    processor = r' "target-cpu"="[^"]*"' # once for each set of attributes: a function that is inlined always, or never, has one of its own
    names = set(re.findall(processor, text))
    if len(names) != 1:
        raise Refused(f'the module names {len(names)} processors')
    text = re.sub(processor, '', text)
    return text
