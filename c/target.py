#!/usr/bin/env python3
"""Compiles the proved library's LLVM module for another processor, with the toolchain's own clang.

usage: target.py --list                 the targets, one a line
       target.py --known NAME           status 0 if NAME is a target; else one line, and status 2
       target.py --backend MODULE       the line BACKEND of the library for x86-64, which the toolchain itself compiles
       target.py NAME MODULE FOLDER     writes FOLDER/libnafelode.a (wasm32: and nafelode.wasm), FOLDER/nafelode.h and FOLDER/BACKEND

MODULE is what c/module keeps, with the words beside it (.words for .bc).
"""
import hashlib
import pathlib
import re
import shutil
import subprocess
import sys
import tempfile

import module_text

HERE = pathlib.Path(__file__).resolve().parent
SOURCE = HERE.parent / 'crates' / 'nafelode_c' / 'src' / 'lib.rt'
WASM_STACK = 8192  # NAFELODE_STACK and some more, to a multiple of 16


class Target:
    """What clang is told beside the toolchain's own words, and what is put into the module's text."""

    def __init__(self, triple, cpu, words, bits, text=''):
        self.triple, self.cpu, self.words, self.bits, self.text = triple, cpu, [f'--target={triple}', *words], bits, text


FRAMES = '-fstack-size-section'  # each function's frame is noted in the archive, beside the code (frames.py)
TARGETS = {
    'aarch64-linux-gnu': Target('aarch64-unknown-linux-gnu', 'generic', ['-mcpu=generic', '-fPIC', FRAMES], 64),
    'riscv64-linux-gnu': Target('riscv64-unknown-linux-gnu', 'rv64gc', ['-march=rv64gc', '-mabi=lp64d', '-fPIC', FRAMES], 64),
    'wasm32': Target('wasm32-unknown-unknown', 'generic', ['-mcpu=generic'], 32),
    # no floating point: any Cortex-M4, with a unit for it or without. The attribute (Tag_ABI_VFP_args: 'compatible with both') says that no
    # function takes or returns a floating-point number, so that programs of either convention for these can link it
    'thumbv7em': Target('thumbv7em-unknown-none-eabi', 'cortex-m4', ['-mcpu=cortex-m4', '-mfloat-abi=soft', FRAMES], 32,
                        'module asm ".eabi_attribute 28, 3"\n'),
}


def fail(text, status=1):
    print(f'target.py: {text}', file=sys.stderr)
    sys.exit(status)


class Kit:
    """The toolchain's clang, which is each of LLVM's tools by the name that it is run under, and its words for x86-64."""

    def __init__(self, module, work):
        found = subprocess.run([HERE / 'kit'], stdout=subprocess.PIPE, text=True, check=False)
        if found.returncode:
            sys.exit(1)  # it has said what is missing
        self.clang = pathlib.Path(found.stdout.rstrip('\n')) / 'toolchain' / 'bin' / 'clang'
        self.module, self.work = pathlib.Path(module), pathlib.Path(work)
        words = self.module.with_suffix('.words')
        for file in (self.module, words):
            if not file.is_file():
                fail(f'no {file}: c/module keeps it')
        self.words = words.read_text().splitlines()

    def run(self, tool, *words):
        """Runs one of LLVM's tools; whatever it has to say is shown, and a tool that fails ends all."""
        path = self.work / tool
        if not path.is_symlink():
            path.symlink_to(self.clang)
        done = subprocess.run([path, *map(str, words)], stdout=subprocess.PIPE, text=True, check=False)
        if done.returncode:
            fail(f'{tool} {" ".join(map(str, words))}: status {done.returncode}')
        return done.stdout

    def value(self, start):
        found = [word[len(start):] for word in self.words if word.startswith(start)]
        if len(found) != 1:
            fail(f'the toolchain gave its clang no single word {start}')
        return found[0]

    def kept_words(self):
        """The toolchain's words but for target, processor and files: another target is compiled with the same."""
        out, rest = [], iter(self.words)
        for word in rest:
            if word in ('-x', '-o'):
                next(rest)
            elif word not in ('-c', '-fPIC') and not word.startswith(('--target=', '-march=', '--sysroot=')) and not word.endswith('.bc'):
                out.append(word)
        return out

    def text(self):
        """The module as text, no pass run on it."""
        return self.run('clang', *self.kept_words(), f'--target={self.value("--target=")}', '-S', '-emit-llvm',
                        '-Xclang', '-disable-llvm-passes', '-x', 'ir', self.module, '-o', '-')

    def declared(self, header, words, names):
        """What clang's C makes of the header's declarations for a target: text of LLVM. The toolchain has no headers of C, so the two
        that nafelode.h includes are made of clang's own types."""
        (self.work / 'stddef.h').write_text('typedef __SIZE_TYPE__ size_t;\n#define NULL ((void *)0)\n')
        (self.work / 'stdint.h').write_text(''.join(f'typedef __UINT{n}_TYPE__ uint{n}_t;\n' for n in (8, 16, 32, 64)))
        users = ''.join(f'void *use_{name}(void) {{ return (void *){name}; }}\n' for name in names)
        (self.work / 'declared.c').write_text(f'#include "{header}"\n{users}')
        return self.run('clang', *words, '--no-default-config', '-Werror', '-nostdinc', f'-I{self.work}', '-S', '-emit-llvm', '-O0',
                        self.work / 'declared.c', '-o', '-')

    def backend(self, triple, cpu):
        version = self.run('clang', '--version').split('\n')[0]
        rt = subprocess.run(['rt', 'version'], stdout=subprocess.PIPE, text=True, check=True).stdout.strip()
        level = [word for word in self.words if word.startswith('-O')]
        digest = hashlib.sha256(self.module.read_bytes()).hexdigest()
        library = (HERE.parent / 'VERSION').read_text().strip()
        return f'{version}, {triple}, {cpu}, {" ".join(level)}; module SHA-256 {digest}; nafelode {library}; {rt}\n'


def from_source(*words):
    """What header.py makes of the exported crate: the header, or the functions' names."""
    done = subprocess.run([sys.executable, HERE / 'header.py', *words, SOURCE], stdout=subprocess.PIPE, text=True, check=False)
    if done.returncode:
        fail('header.py does not understand the exported functions')
    return done.stdout


def prepared(kit, text, target, header):
    """The module's text for a target, its convention checked and completed."""
    names = from_source('--names').split()
    declared = kit.declared(header, target.words, names)
    try:
        if target.bits == 32:
            module_text.check_pointers(text)
        return module_text.for_target(module_text.with_convention(text, declared, names), declared) + target.text
    except module_text.Refused as refused:
        return fail(f'{target.triple}: {refused}')


def compiled(kit, target, header):
    """The library's one object."""
    ready, out = kit.work / 'nafelode.ll', kit.work / 'nafelode.o'
    ready.write_text(prepared(kit, kit.text(), target, header))
    kit.run('clang', *kit.kept_words(), *target.words, '-c', '-x', 'ir', ready, '-o', out)
    return out


def data_left(said):
    """The constant data that an object has, by what llvm-readobj says of its sections (WebAssembly: segments), but for what LLVM makes of code: tables of a choice,
    constants of vectors."""
    names = re.findall(r'^ +Segment \{\n +Name: (.*)$', said, re.M) + re.findall(r'^ +Name: (\.rodata\S*) \(\d+\)$', said, re.M)
    return [name for name in names if not re.match(r'\.rodata(\.\.Lswitch\.table\.|\.cst\d+$)', name)]


def linked(kit, archive, out):
    """nafelode.wasm: every function and the memory exported, with the place from which on memory is the caller's. The stack lies below all
    else, so that one that is too short traps. Copying and filling are instructions of WebAssembly: no function is wanted."""
    names = [*from_source('--names').split(), '__heap_base']
    kit.run('wasm-ld', '--no-entry', '--stack-first', '-z', f'stack-size={WASM_STACK}', '--strip-all', '--fatal-warnings',
            *(f'--export={name}' for name in names), archive, '-o', out)


def build(name, module, folder):
    """All is made in a folder of its own first: none is left where a part fails."""
    target = TARGETS[name]
    with tempfile.TemporaryDirectory() as work:
        kit = Kit(module, work)
        made = pathlib.Path(work) / 'made'
        made.mkdir()
        (made / 'nafelode.h').write_text(from_source())
        library = compiled(kit, target, made / 'nafelode.h')
        if left := data_left(kit.run('llvm-readobj', '--sections', library)):
            fail(f'{name}: data of its own: {", ".join(left)}')
        kit.run('llvm-ar', 'rcsD', made / 'libnafelode.a', library)
        if name == 'wasm32':
            linked(kit, made / 'libnafelode.a', made / 'nafelode.wasm')
        (made / 'BACKEND').write_text(kit.backend(target.triple, target.cpu))
        pathlib.Path(folder).mkdir(parents=True, exist_ok=True)
        for file in made.iterdir():
            shutil.copy(file, folder)


def main():
    words = sys.argv[1:]
    if words == ['--list']:
        print('\n'.join(TARGETS))
    elif len(words) == 2 and words[0] == '--known':
        if words[1] not in TARGETS:
            fail(f'no target {words[1]}: there are {", ".join(TARGETS)}', 2)
    elif len(words) == 2 and words[0] == '--backend':
        with tempfile.TemporaryDirectory() as work:
            kit = Kit(words[1], work)
            print(kit.backend(kit.value('--target='), kit.value('-march=')), end='')
    elif len(words) == 3 and words[0] in TARGETS:
        build(*words)
    else:
        sys.exit(__doc__)


if __name__ == '__main__':
    main()
