#!/usr/bin/env python3
"""Makes nafelode.h from the exported crate's source and the numbers of crates/block_type, so that they cannot disagree, with the version that the file VERSION names.

usage: header.py LIB.RT > nafelode.h      the header
       header.py --names LIB.RT           the exported functions, one a line
       header.py --table LIB.RT           the table of functions that docs/C.md has
"""
import os
import re
import sys
import textwrap

NUMBER = {'u32': 'uint32_t'}  # what is passed and answered alone
IN_SLICES = {'u8': 'uint8_t'}
LENGTH = 'uint64_t'  # of a slice, on every machine: the proved module's
COMMENT = r'(?P<comment>(?:^//[^\n]*\n)*)'
FUNCTION = re.compile(COMMENT + r'^#\[unsafe\(no_mangle\)\]\n^pub extern "C" fn (?P<name>\w+)\((?P<args>[^)]*)\) -> (?P<result>\w+)$', re.M)
REFERENCE = re.compile(r'&(?P<mut>mut )?(?:(?P<slice>\[(?P<of_slice>\w+)\])|\[(?P<of_array>\w+); (?P<count>[\w:]+)\]|(?P<of_one>\w+))')
CONSTANT = re.compile(r'^(?P<own>    )?pub const (?P<name>\w+): \w+ = (?P<number>\d+);', re.M)


def type_of(text, known=None):
    """A number's type in C. Numbers and pointers alone are passed and answered: each machine returns structs in its own way."""
    known = known or NUMBER
    if text not in known:
        sys.exit(f'header.py: `{text}` does not go in or out here: {", ".join(known)} does')
    return known[text]


def arguments_of(function):
    """The arguments, each with its name and the kind that the source gives it."""
    return [tuple(side.strip() for side in part.split(':', 1)) for part in function['args'].split(',') if part.strip()]


def parameters(function):
    """A slice is a pointer and a length in C; of a variable of the caller's, or an array of them, a pointer is passed."""
    found = []
    for name, kind in arguments_of(function):
        reference = REFERENCE.fullmatch(kind)
        if not reference:
            found.append(f'{type_of(kind)} {name}')
            continue
        const = '' if reference['mut'] else 'const '
        if reference['slice']:
            found += [f'{const}{type_of(reference["of_slice"], IN_SLICES)} *{name}', f'{LENGTH} {name}_length']
        elif reference['of_array']:
            found.append(f'{const}{type_of(reference["of_array"])} {name}[{constant(reference["count"])}]')
        else:
            found.append(f'{const}{type_of(reference["of_one"])} *{name}')
    return found


def values(function):
    """The values: variables of the caller's that the call writes, but for the walker, which is the caller's own and goes in, too."""
    found = ((name, REFERENCE.fullmatch(kind)) for name, kind in arguments_of(function))
    return [name for name, reference in found if reference and reference['mut'] and not reference['slice'] and name != 'walker']


def paragraphs_of(text):
    """The paragraphs of a comment; a line that does not end a sentence goes on in the next."""
    paragraphs = []
    for line in (line[2:].strip() for line in text.splitlines()):
        if paragraphs and not paragraphs[-1].endswith(('.', ':')):
            paragraphs[-1] += ' ' + line
        else:
            paragraphs.append(line)
    return paragraphs


def comment(text):
    """A comment as C's."""
    paragraphs = paragraphs_of(text)
    lines = [line for p in paragraphs for line in textwrap.wrap(p, 96, subsequent_indent='  ')]
    if not lines:
        sys.exit('header.py: a function has no comment')
    return '/* ' + '\n * '.join(lines) + ' */'


def declaration(result, name, arguments):
    line = f'{result} {name}({", ".join(arguments)});'
    if len(line) <= 100:
        return line
    whole = ', '.join(argument.replace(' ', '\0') for argument in arguments)  # no argument is broken
    return f'{result} {name}(\n' + '\n'.join(textwrap.wrap(whole, 92, initial_indent='    ', subsequent_indent='    ')).replace('\0', ' ') + ');'


def read(*path):
    """A file of the repository."""
    with open(os.path.join(os.path.dirname(os.path.abspath(__file__)), *path), encoding='utf-8') as file:
        return file.read()


def numbers():
    """The numbers of crates/block_type by their names."""
    found = CONSTANT.finditer(read('..', 'crates', 'block_type', 'src', 'lib.rt'))
    return {('BlockType::' if c['own'] else '') + c['name']: c['number'] for c in found}


def with_numbers(text):
    """A text with the numbers of crates/block_type where it names them: @LONGEST_ZONE@, @BlockType::FIXED_LIMIT@."""
    known = numbers()

    def number(place):
        if place[1] not in known:
            sys.exit(f'header.py: crates/block_type has no constant {place[1]}')
        return known[place[1]] + 'u'
    return re.sub(r'@([\w:]+)@', number, text)


def constant(count):
    """The header's constant for an array's length, which is one of crates/block_type."""
    name = count.removeprefix('block_type::')
    if name == count or f'#define NAFELODE_{name} @{name}@' not in read('header.txt'):
        sys.exit(f'header.py: an array of {count} numbers, which is no constant of crates/block_type that header.txt has')
    return f'NAFELODE_{name}'


def row(function):
    """A function's row: its arguments, its comment's first sentence, the values that go through pointers, the refusals; or, where it
    answers no refusal number, how a refusal is told."""
    paragraphs = paragraphs_of(function['comment'])
    arguments = [re.search(r'(\w+)(?:\[\w+\])?$', argument)[1] for argument in parameters(function)]
    told = ', '.join(f'`{name}`' for name in values(function))
    refused = [p.removeprefix('Refused: ') for p in paragraphs if p.startswith('Refused: ')]
    causes = re.findall(r'(?:^|, )(\d+) (?=[a-z])', refused[0]) if refused else []
    if 'no refusal number' in ' '.join(paragraphs):
        said = 'never; answers yes or no' if 'Never refused.' in ' '.join(paragraphs) else 'answers an offset; 0 when refused'
    else:
        said = ', '.join(causes)
    return f'| `{function["name"]}({", ".join(arguments)})` | {re.split("(?<=[.]) ", paragraphs[0])[0]} | {told} | {said} |'


def version():
    return f'/* The library\'s version. */\n#define NAFELODE_VERSION "{read("..", "VERSION").strip()}"'


def main():
    words = sys.argv[1:]
    asked = words[0] if words[:1] in (['--names'], ['--table']) else None
    if len(words) != 1 + bool(asked):
        sys.exit(__doc__)
    with open(words[-1], encoding='utf-8') as file:
        source = file.read()
    functions = list(FUNCTION.finditer(source))
    # a layout that the pattern does not know must not drop a declaration
    if not functions or source.count('extern "C"') != len(functions):
        sys.exit('header.py: not every exported function was understood')
    if asked == '--names':
        print('\n'.join(f['name'] for f in functions))
        return
    if asked == '--table':
        print('\n'.join(['| function | what it does | values | refused with |', '|---|---|---|---|', *(row(f) for f in functions)]))
        return
    declared = [comment(f['comment']) + '\n' + declaration(type_of(f['result']), f['name'], parameters(f)) for f in functions]
    out = [version(), *declared]
    print(with_numbers(read('header.txt').replace('@DECLARATIONS@', '\n\n'.join(out))), end='')


main()
