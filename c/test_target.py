#!/usr/bin/env python3
"""Tests the library for other processors as far as the toolchain alone allows: what is refused in a module, that every target builds from
the module that was proved last, and what the files that are built export, want and hold. c/targets runs them.

usage: c/test_target.py     after ./c-library, which keeps the module
"""
import pathlib
import re
import subprocess
import sys
import tempfile
import unittest

import frames
import module_text
import target

HERE = pathlib.Path(__file__).resolve().parent
ROOT = HERE.parent
MODULE = ROOT / 'crates' / 'nafelode_c' / 'out' / 'nafelode_c.bc'
NAMES = target.from_source('--names').split()
WANTED = {'memcpy', 'memmove', 'memset', 'memcmp'}
# docs/C.md names them
WANTED_BY = {'thumbv7em': {f'__aeabi_{name}' for name in ('memcpy', 'memmove', 'memclr', 'memclr4', 'memclr8')}, 'wasm32': {'__stack_pointer'}}

DECLARED = 'declare signext i32 @call(ptr noundef, i64 noundef, i32 noundef signext) #1\n'
DEFINED = 'define noundef i32 @call(ptr noundef %a0, i64 noundef %a1, i32 noundef %a2) #0 {\n'
BODY = 'start:\n  %r0 = alloca ptr, align 8\n  store ptr %a0, ptr %r0, align 8\n  %r1 = load ptr, ptr %r0, align 8, !noundef !1\n  ret i32 0\n}\n'


class Refused(unittest.TestCase):
    def refused(self, defined, *words, declared=DECLARED):
        with self.assertRaises(module_text.Refused) as caught:
            module_text.with_convention(defined + BODY, declared, ['call'])
        for word in ('call', *words):
            self.assertIn(word, str(caught.exception))

    def test_result(self):
        for result in ('i64', 'i16', '{ i64, i32 }', 'ptr', 'double', '%struct.told'):
            self.refused(DEFINED.replace('i32 @', f'{result} @'))
            self.refused(DEFINED, declared=DECLARED.replace('i32 @', f'{result} @'))
            self.refused(DEFINED.replace('i32 @', f'{result} @'), declared=DECLARED.replace('i32 @', f'{result} @'))

    def test_parameters(self):
        for kind in ('i8', 'i128', 'float', '[2 x i64]', '{ ptr, i64 }', 'ptr byval([8 x i8]) align 4', 'ptr sret([80 x i8]) align 4', 'i32 inreg'):
            self.refused(DEFINED.replace('i64', kind))
            self.refused(DEFINED, declared=DECLARED.replace('i64', kind))
            self.refused(DEFINED.replace('i64', kind), declared=DECLARED.replace('i64', kind))

    def test_another_convention(self):
        self.refused(DEFINED.replace('define ', 'define fastcc '))
        self.refused(DEFINED.replace(') #0', ', ...) #0'))

    def test_not_what_c_declares(self):
        self.refused(DEFINED, 'i32(ptr, i64, i32)', 'i32(ptr, i32, i32)', declared=DECLARED.replace('i64', 'i32'))  # a length of 32 bits
        self.refused(DEFINED.replace(', i32 noundef %a2', ''), 'i32(ptr, i64)')
        self.refused(DEFINED.replace('noundef i32 @', 'void @'), 'void(')

    def test_names(self):
        self.refused(DEFINED.replace('@call', '@recall'), 'not defined')
        self.refused(DEFINED + BODY + DEFINED.replace('@call', '@recall'), 'recall', 'not exported')
        self.refused(DEFINED, 'not declared', declared='')

    def test_pointers_of_four_bytes(self):
        module_text.check_pointers(DEFINED + BODY)
        for line in ('%r2 = load i64, ptr %r0, align 8', 'store i64 %a1, ptr %r0, align 8', '%r2 = getelementptr i8, ptr %r0, i64 4',
                     'call void @llvm.memmove.p0.p0.i64(ptr %r0, ptr %a0, i64 8, i1 false)', '%r2 = ptrtoint ptr %a0 to i64', '%r2 = ptrtoaddr ptr %a0 to i64', '%r2 = inttoptr i64 %a1 to ptr', '%r2 = load { i32, ptr }, ptr %a0, align 8', '%r2 = load { i8, ptr }, ptr %a0, align 8',
                     'store { i8, ptr } %x, ptr %a0, align 8'):
            with self.assertRaises(module_text.Refused, msg=line):
                module_text.check_pointers(DEFINED + BODY.replace('  ret', f'  {line}\n  ret'))
        with self.assertRaises(module_text.Refused):
            module_text.check_pointers('@table = constant [1 x ptr] [ptr null]\n' + DEFINED + BODY)
        module_text.check_pointers('@static.0 = private unnamed_addr constant [1 x i8] c"\\02", align 1\n' + DEFINED + BODY)
        with self.assertRaises(module_text.Refused):
            module_text.check_pointers('@static.0 = private unnamed_addr constant [16 x i8] zeroinitializer, align 1\n' + DEFINED + BODY)

    def test_data_that_is_left(self):
        elf = '  Section {\n    Index: 7\n    Name: {} (12)\n    Type: SHT_PROGBITS (0x1)\n'
        for name in ('.rodata', '.rodata..L__unnamed_1', '.rodata.static.0'):
            self.assertEqual(target.data_left(elf.replace('{}', name)), [name])
        for name in ('.text.call', '.rodata.cst16', '.rodata..Lswitch.table.call'):
            self.assertEqual(target.data_left(elf.replace('{}', name)), [])
        self.assertEqual(target.data_left('  Segment {\n      Name: .rodata.static.0\n'), ['.rodata.static.0'])

    def test_extended_as_c_wants(self):
        told = module_text.with_convention(DEFINED + BODY, DECLARED, ['call'])
        self.assertEqual(told, 'define signext i32 @call(ptr noundef %a0, i64 noundef %a1, i32 noundef signext %a2) #0 {\n' + BODY)


def exports_and_imports(wasm):
    """The names in a file of WebAssembly, each with its kind."""
    data, found = wasm.read_bytes(), {2: [], 7: []}
    place = 8

    def number():
        nonlocal place
        value = shift = 0
        while True:
            byte, place = data[place], place + 1
            value, shift = value | (byte & 127) << shift, shift + 7
            if byte < 128:
                return value

    def name():
        nonlocal place
        length = number()
        place += length
        return data[place - length:place].decode()
    while place < len(data):
        section, length = number(), number()
        end = place + length
        if section == 2 and number():
            found[2].append(name())
        for _ in range(number() if section == 7 else 0):
            found[7].append((name(), 'function table memory global'.split()[number()]))
            number()
        place = end
    return found[7], found[2]


class Said:
    """A kit whose tools say what they are told to."""

    def __init__(self, **said):
        self.said = said

    def run(self, tool, *_):
        return self.said[tool.removeprefix('llvm-')]


class Frames(unittest.TestCase):
    CODE = ('0000000000000000 <outer>:\n       0:\taddi\tsp, sp, -0x10\n\n0000000000000002 <.Lpcrel_hi0>:\n       2:\tauipc\ta0, 0x0\n'
            '\t\t0000000000000002:  R_RISCV_PCREL_HI20\t.Lswitch.table.outer\n       6:\tauipc\tra, 0x0\n\t\t0000000000000006:  R_RISCV_CALL_PLT\tinner\n'
            '0000000000000000 <inner>:\n       0:\tret\n')

    def bound(self, sizes):
        return frames.bound(Said(objdump=self.CODE, readelf=sizes), 'archive', ['outer'])

    def test_a_label_ends_no_function(self):
        self.assertEqual(self.bound('           16     outer\n           32     inner\n'), (48, 'outer'))

    def test_a_frame_that_is_not_noted(self):
        for sizes in '           16     outer\n', '           32     inner\n', '':
            with self.assertRaises(frames.Unknown):
                self.bound(sizes)


class Built(unittest.TestCase):
    @classmethod
    def setUpClass(cls):
        holder = tempfile.TemporaryDirectory()
        cls.addClassCleanup(holder.cleanup)
        cls.place = pathlib.Path(holder.name)
        (cls.place / 'work').mkdir()
        cls.kit = target.Kit(MODULE, cls.place / 'work')
        cls.header = cls.place / 'nafelode.h'
        cls.header.write_text(target.from_source())
        for name in target.TARGETS:
            target.build(name, MODULE, cls.place / name)

    def test_the_same_road_leads_to_the_proved_library(self):
        """For x86-64 the text of the module, checked and changed as for the other targets, compiles to the very object that the toolchain made."""
        own = target.Target(self.kit.value('--target='), '', [f'-march={self.kit.value("-march=")}', '-fPIC'], 32)  # 32: its pointers are checked, too
        compiled = target.compiled(self.kit, own, self.header)
        archive = MODULE.with_name('libnafelode_c.a')
        self.assertEqual(compiled.read_bytes(), subprocess.run(['ar', 'p', archive], stdout=subprocess.PIPE, check=True).stdout)

    def test_what_an_archive_has(self):
        for name in target.TARGETS:
            archive = self.place / name / 'libnafelode.a'
            lines = [line.split() for line in self.kit.run('llvm-nm', '-g', archive).splitlines()]
            self.assertEqual({line[-1] for line in lines if 'T' in line[:-1]}, set(NAMES), name)
            self.assertLessEqual({line[-1] for line in lines if 'U' in line[:-1]}, WANTED_BY.get(name, WANTED), name)
            code, data, zeros = self.kit.run('llvm-size', archive).splitlines()[1].split()[:3]
            self.assertTrue(int(code) > 0 and zeros == '0' and (data == '0' or name == 'wasm32'), f'{name} has data of its own')
            # LLVM's tables of a choice stand beside the code, but in WebAssembly in memory
            said = self.kit.run('llvm-readobj', '--sections', archive)
            self.assertEqual(target.data_left(said), [], name)
            self.assertTrue(name != 'wasm32' or ('Segment {' in said) == (data != '0'), name)

    def test_header_and_backend(self):
        for name, one in target.TARGETS.items():
            self.assertEqual((self.place / name / 'nafelode.h').read_text(), self.header.read_text())
            self.assertRegex((self.place / name / 'BACKEND').read_text(),
                             rf'\Aclang version \S+, {one.triple}, {one.cpu}, -O3; module SHA-256 [0-9a-f]{{64}}; nafelode \S+; \S+ logic [0-9a-f]+\n\Z')

    def test_wasm(self):
        exports, imports = exports_and_imports(self.place / 'wasm32' / 'nafelode.wasm')
        self.assertEqual(sorted(exports), sorted([('memory', 'memory'), ('__heap_base', 'global'), *((name, 'function') for name in NAMES)]))
        self.assertEqual(imports, [])

    def test_either_floating_point(self):
        """The linker is told that the Cortex-M4's functions fit both conventions for floating point: none is passed."""
        said = self.kit.run('llvm-readelf', '-A', self.place / 'thumbv7em' / 'libnafelode.a')
        self.assertRegex(said, r'Tag: 28\s+Value: 3\s+TagName: ABI_VFP_args')
        self.assertNotRegex(said, r'TagName: FP_arch')

    def test_results_are_extended_on_riscv(self):
        """clang's callers there compare all 64 bits of a register. Without `signext` the offset that nafelode_view answers is a sum of 64 bits."""
        riscv = target.TARGETS['riscv64-linux-gnu']
        text = target.prepared(self.kit, self.kit.text(), riscv, self.header)
        for line in filter(module_text.exported, text.splitlines()):
            self.assertRegex(line, r'^define signext i32 @\w+\((?:(?:ptr noundef|i64 noundef|i32 noundef signext) %a\d+(?:, )?)+\) #0 \{$')
        code = {}
        for how, lines in (('with', text), ('without', text.replace('define signext ', 'define '))):
            ready, out = self.place / f'{how}.ll', self.place / f'{how}.o'
            ready.write_text(lines)
            self.kit.run('clang', *self.kit.kept_words(), *riscv.words, '-c', '-x', 'ir', ready, '-o', out)
            code[how] = self.kit.run('llvm-objdump', '-d', '--no-show-raw-insn', '--disassemble-symbols=nafelode_view', out)
        self.assertRegex(code['with'], r'\taddw\ta0, a0, ')
        self.assertNotRegex(code['without'], r'\taddw\ta0, a0, |\tsext\.w\ta0, a0')

    def test_stack(self):
        promised = int(re.search(r'^#define NAFELODE_STACK (\d+)u$', self.header.read_text(), re.M)[1])
        for name in target.TARGETS:
            most, function = frames.bound(self.kit, self.place / name / 'libnafelode.a', NAMES)
            print(f'{name}: at most {most} bytes of stack ({function}), the header says {promised}')
            self.assertTrue(0 < most <= promised, name)
        self.assertGreater(target.WASM_STACK, promised)


class Commands(unittest.TestCase):
    def test_no_such_target(self):
        for command in (ROOT / 'c-library', '--target', 'sparc'), (ROOT / 'c' / 'targets', 'sparc'):
            done = subprocess.run(command, stdout=subprocess.PIPE, stderr=subprocess.PIPE, text=True, check=False)
            self.assertEqual((done.returncode, done.stdout, done.stderr.count('\n')), (2, '', 1), done.stderr)
            self.assertIn('no target sparc', done.stderr)

    def test_no_module(self):
        done = subprocess.run([HERE / 'target.py', 'wasm32', '/nowhere/module.bc', '/nowhere'], stdout=subprocess.PIPE, stderr=subprocess.PIPE, text=True, check=False)
        self.assertEqual((done.returncode, done.stdout, done.stderr), (1, '', 'target.py: no /nowhere/module.bc: c/module keeps it\n'))


if __name__ == '__main__':
    if not MODULE.is_file():
        sys.exit('c/test_target.py: no module: ./c-library keeps it')
    unittest.main()
