"""An upper bound for the stack that a call of the library takes on another processor: the functions' frames, along the calls that the machine
code's relocations name. LLVM notes frames in the archive; in WebAssembly they are what a function takes off the stack pointer. What the
memory functions use that the library wants from outside is not in it."""
import re

TAKEN = re.compile(r'global\.get.*\n.*__stack_pointer.*\n.*i32\.const\s+(\d+)\n.*i32\.sub')


class Unknown(Exception):
    pass


def functions(text):
    """The text of each function of a disassembly, with the labels (`.L..`) that stand within it."""
    parts = re.split(r'^[0-9a-f]+ <(?!\.L)(.*)>:$', text, flags=re.M)
    return dict(zip(parts[1::2], parts[2::2]))


def callees(text):
    """The symbols that a function refers to. Each has a section of its own, by which it may be named."""
    return {name.removeprefix('.text.').removesuffix('+0') for name in re.findall(r'^\s+[0-9a-f]+:\s+R_\w+\s+(.+)', text, re.M)}


def taken(name, text):
    found = TAKEN.findall(text)
    if len(found) != text.count('global.get') or len(found) > 1:
        raise Unknown(f'{name}: the stack pointer is moved in a way that is not read here')
    return int(found[0]) if found else 0


def frames(kit, archive, code):
    if any('R_WASM_' in text for text in code.values()):
        return {name: taken(name, text) for name, text in code.items()}
    rows = re.findall(r'^ +(\d+) +(.+)$', kit.run('llvm-readelf', '--stack-sizes', archive), re.M)
    return {name: int(size) for size, name in rows}


def bound(kit, archive, names):
    """The most bytes that one of the functions takes, and which it is."""
    code = functions(kit.run('llvm-objdump', '-dr', '--no-show-raw-insn', archive))
    sizes = frames(kit, archive, code)
    unknown = set(sizes) ^ set(code) | set(names) - set(sizes)
    if unknown:
        raise Unknown(f'{", ".join(sorted(unknown))}: no frame is known, or no code')

    def of(name, above=()):
        if name in above:
            raise Unknown(f'{name} calls itself')
        return sizes[name] + max((of(callee, (*above, name)) for callee in callees(code[name]) & set(sizes)), default=0)
    return max((of(name), name) for name in names)
