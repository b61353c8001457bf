#!/usr/bin/env python3
"""Reads the archive's machine code: what it exports and wants, its data, its instructions, its stack.

usage: archive.py ARCHIVE STACK NAME...    NAME: what it must export; STACK: the bytes that the header promises
"""
import re
import subprocess
import sys

WANTED = {'memcpy', 'memmove', 'memset', 'memcmp'}
# what x86-64's first processors lack: wide registers, and the mnemonics of SSE3 and later
LATER = re.compile(
    r'%[yz]mm|%k[0-7]\b|^v[a-z]|^(popcnt|lzcnt|movbe|crc32|andn|bextr|bls|bzhi|pdep|pext[^r]|rorx|sarx|shlx|shrx|mulx|adcx|adox|aes|sha|pclmul'
    r'|pshufb|palignr|pabs|phadd|phsub|pmulhrs|pmaddubs|psign|pblend|blend|pextr[bdq]|pinsr[bdq]|pminsb|pminsd|pminu[wd]|pmaxsb|pmaxsd|pmaxu[wd]'
    r'|pmov[sz]x|ptest|round|dpp|mpsad|packusdw|pcmpeqq|pcmpgtq|pcmp.str|lddqu|mov[ds][dhl]*dup|hadd|hsub|addsub|insertps|extractps|movntdqa'
    r'|cmpxchg16b|rdrand|rdseed|xsave|xgetbv)')


def say(*words):
    return subprocess.run(words, check=True, capture_output=True, text=True).stdout


def fail(text):
    sys.exit(f'archive.py: {text}')


def symbols(archive, names):
    defined = {line.split()[-1] for line in say('nm', '-g', '--defined-only', archive).splitlines() if len(line.split()) == 3}
    wanted = {line.split()[-1] for line in say('nm', '-u', archive).splitlines() if len(line.split()) == 2} - defined
    if defined != set(names):
        fail(f'exported, but not in the source: {sorted(defined - set(names))}; in the source, but not exported: {sorted(set(names) - defined)}')
    if not wanted <= WANTED:
        fail(f'wants {sorted(wanted - WANTED)} from outside')
    return wanted


def no_writable_data(archive):
    rows = re.findall(r'^ *\d+ (\S+) +([0-9a-f]+) .* 2\*\*\d+ +(.*)$', say('objdump', '-h', '-w', archive), re.M)
    if not any(name.startswith('.text') for name, _, _ in rows):
        fail('no code was found')
    for name, size, flags in rows:
        constant = 'READONLY' in flags or name.startswith('.data.rel.ro')  # the loader fills in addresses there, once
        if 'ALLOC' in flags and int(size, 16) and not constant:
            fail(f'section {name} holds {int(size, 16)} writable bytes')


def disassemble(archive):
    """For each function its instructions, each with the symbol that its relocation names."""
    functions, current, section = {}, None, None
    for line in say('objdump', '-dr', '--no-show-raw-insn', archive).splitlines():
        if m := re.match(r'Disassembly of section (\S+):', line):
            section = m[1]
        elif m := re.match(r'[0-9a-f]+ <(.*)>:', line):
            current = functions.setdefault(m[1], [])
            functions.setdefault(section, current)  # a relocation may name the section
        elif m := re.match(r'\s+[0-9a-f]+: R_X86_64_\w+\s+(.+?)([-+]0x[0-9a-f]+)?$', line):
            current[-1][1] = m[1]
        elif m := re.match(r'\s+[0-9a-f]+:\s+(.*?)\s*$', line):
            current.append([m[1], None])
    return functions


def aliases(archive, functions):
    """Two names of one place: the code stands under one of them."""
    places = {}
    for line in say('objdump', '-t', archive).splitlines():
        if m := re.match(r'([0-9a-f]+) .{5}.F (\S+)\s+\S+ (?:\.hidden )?(.+)$', line):
            places.setdefault((m[2], m[1]), []).append(m[3])
    for names in places.values():
        for code in [functions[n] for n in names if n in functions]:
            functions.update({n: code for n in names if n not in functions})


class Stack:
    """An upper bound for each function: every push and every subtraction counts, whichever way the code takes."""

    def __init__(self, functions):
        self.functions, self.known = functions, {}

    def of(self, name, above=()):
        if name in above:
            fail(f'{name} calls itself, so its stack has no bound that can be read off')
        if name not in self.known:
            self.known[name] = self.read(name, above + (name,))
        return self.known[name]

    def read(self, name, above):
        own = below = red = 0
        for text, symbol in self.functions[name]:
            word = text.replace('notrack ', '').replace('rep ', '').split()[0]
            if word.startswith('push'):
                own += 8
            elif m := re.match(r'(?:sub +\$|add +\$-|lea +-)0x([0-9a-f]+)(?:\(%rsp\))?,%rsp$', text):
                own += int(m[1], 16)
            elif re.match(r'(add +\$0x|lea +0x|pop|mov +%rbp,%rsp|leave)', text):
                pass
            elif re.search(r',%rsp$', text) and word.startswith('cmp'):
                fail(f'{name}: `{text}` ends a loop that takes the stack piece by piece, which is not read here')
            elif re.search(r',%rsp$', text) and not word.startswith('test'):
                fail(f'{name}: `{text}` moves the stack in a way that is not read here')
            elif word.startswith('call') or word.startswith('j') and (symbol or '<' in text):
                callee = symbol or re.search(r'<(.*?)(?:\+0x[0-9a-f]+)?>$', text)[1]
                inside = not symbol and self.functions.get(callee) is self.functions[name] and word != 'call'
                if '*' in text and not symbol:
                    fail(f'{name}: an indirect call, `{text}`')
                if not inside and callee not in WANTED:
                    if callee not in self.functions:
                        fail(f'{name}: calls {callee}, which is not in the archive')
                    below = max(below, self.of(callee, above) + 8 * word.startswith('call'))
                elif not inside:
                    below = max(below, 8)
            red = max([red] + [int(k, 16) for k in re.findall(r'-0x([0-9a-f]+)\(%rsp', text)])
        return own + max(below, red)


def main():
    if len(sys.argv) < 4:
        sys.exit(__doc__)
    archive, promised, names = sys.argv[1], int(sys.argv[2]), sys.argv[3:]
    wanted = symbols(archive, names)
    no_writable_data(archive)
    functions = disassemble(archive)
    aliases(archive, functions)
    for name, code in functions.items():
        for text, _ in code:
            if LATER.search(text):
                fail(f'{name}: `{text}` is no instruction of every x86-64 processor')
    stack = Stack(functions)
    bounds = {name: 8 + stack.of(name) for name in names}
    most = max(bounds.values())
    print(f'archive: wants {", ".join(sorted(wanted)) or "nothing"}; no writable data; SSE2 at most; at most {most} bytes of stack'
          f' ({max(bounds, key=bounds.get)}), the header says {promised}')
    if most > promised:
        fail('the header promises less stack than the code may use: raise NAFELODE_STACK in c/header.txt')


main()
