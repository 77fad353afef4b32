"""Rule 6.4, that a rounding divides once: counted in the compiled code.

    python3 tests/divisions.py --check    builds the archive of bench_rounding, and counts in it and in that of the library,
                                          which embed/run builds

A contract says what a function gives, and not how often it divides, so the machine's instructions are read. The count of
a function is the most division instructions on any way through it, with what it calls. It must be 1 for each rounding,
as bench_rounding exports it, and at most 1 for each function of `rounding` and `division` that stands by itself in the
library; where the compiler has put a rounding into another function, there is none to count. A second division
instruction fails the test, and so do one in a loop, and a jump or a call that can't be followed. The counting is tried
first on code of which the count is known, and on an export that rounds twice.
"""
import re
import subprocess
import sys
from pathlib import Path

import commands

ROOT = Path(__file__).parent.parent
# embed/run builds it.
SHIPPED = ROOT / 'crates' / 'kuyeshan' / 'out' / 'libkuyeshan.a'

# Code with the most divisions on any way through it, or the reason why there is no such number.
KNOWN = [
    ('never', 'mov %rdi, %rax; ret', 0),
    ('once', 'div %rcx; ret', 1),
    ('twice', 'div %rcx; mov %rdx, %rax; idivl %ecx; ret', 2),
    ('with_a_prefix', 'div %rcx; .byte 0x65; divl 8(%rsp); ret', 2),
    ('in_either_branch', 'je 1f; div %rcx; ret; 1: divl 8(%rsp); ret', 1),
    ('in_a_branch_and_after', 'je 1f; div %rcx; 1: div %rcx; ret', 2),
    ('before_a_loop', 'div %rcx; 1: dec %rax; jne 1b; ret', 1),
    ('in_a_loop', '1: div %rcx; dec %rsi; jne 1b; ret', 'it divides in a loop'),
    ('by_calls', 'call once; call never; call once; ret', 2),
    ('by_a_last_jump', 'div %rcx; jmp once', 2),
    ('by_a_jump_of_a_branch', 'je once; div %rcx; ret', 1),
    ('by_a_jump_into_another', 'div %rcx; jmp twice + 3', '.text.of_twice-0x1 is not here'),
    ('by_another_library', 'call __udivti3; ret', '__udivti3 is not here'),
    ('by_an_address', 'div %rcx; jmp *%rax', 'it goes where an address says'),
    ('by_itself', 'div %rcx; call by_itself; ret', 'it calls itself'),
    ('past_its_end', 'div %rcx', 'it goes on past its end'),
]


class Uncounted(Exception):
    """Why there is no count."""


def said(*command, **more):
    """What a command writes; where it fails, that is the end."""
    ran = subprocess.run([*map(str, command)], stdout=subprocess.PIPE, stderr=subprocess.PIPE, text=True, **more)
    if ran.returncode:
        sys.exit(f'divisions: {command[0]} fails\n{ran.stdout}{ran.stderr}')
    return ran.stdout


# ---- what objdump shows

PREFIX = re.compile(r'addr32|bnd|[c-g]s|ss|data16|lock|notrack|rep\w*|rex\S*')


class Instruction:
    """Its place and its name, and where it leads: to a place, in a function, or where an address says."""

    def __init__(self, place, text):
        words = [word for word in text.split() if not PREFIX.fullmatch(word)] or ['']
        named = re.search(r' ([0-9a-f]+) <([^>]+)>$', text)
        self.place, self.name = place, words[0]
        self.target, self.function = (int(named[1], 16), named[2]) if named else (None, None)
        self.by_address = len(words) > 1 and words[1].startswith('*')

    def relocated(self, symbol):
        """The linker is to fill in where it leads: the start of a function or of a section, less 4."""
        self.target, self.function = None, symbol.removesuffix('-0x4')

    def divides(self):
        return 'div' in self.name

    def calls(self):
        return 'call' in self.name

    def jumps(self):
        return self.name.startswith(('j', 'ljmp', 'loop', 'xbegin'))

    def goes_on(self):
        """The next instruction may come after it."""
        return not self.name.startswith(('ret', 'jmp', 'ljmp', 'ud2', 'hlt'))


def functions_of(path):
    """The instructions of each function of an object or an archive; a section leads to the function that it begins with."""
    functions, firsts, section, code = {}, {}, '', []
    for line in said('objdump', '-dr', '--no-show-raw-insn', path).splitlines():
        if begun := re.match(r'Disassembly of section (.+):$', line):
            section = begun[1]
        elif start := re.match(r'([0-9a-f]+) <(.+)>:$', line):
            if start[2] in functions or section in firsts and int(start[1], 16) == 0:
                sys.exit(f'divisions: {path} has {start[2]} twice, or two functions at the start of {section}')
            code = functions[start[2]] = []
            if int(start[1], 16) == 0:
                firsts[section] = start[2]
        elif 'R_X86_64_' in line:
            code[-1].relocated(line.rsplit('\t', 1)[1])
        elif found := re.match(r' *([0-9a-f]+):\t(.*?)\s*$', line):
            code.append(Instruction(int(found[1], 16), found[2]))
    for instruction in (instruction for code in functions.values() for instruction in code):
        instruction.function = firsts.get(instruction.function, instruction.function)
    return functions


# ---- counting

PAST_THE_END = 10**9


def places_of(code):
    return {instruction.place: at for at, instruction in enumerate(code)}


def leaves_for(instruction, places):
    """The function that it calls, or jumps to out of its own; '' where it does neither."""
    if not instruction.calls() and not instruction.jumps():
        return ''
    if instruction.by_address:
        raise Uncounted('it goes where an address says')
    return '' if instruction.jumps() and instruction.target in places else str(instruction.function)


def most_divisions(functions, name, callers=()):
    """The most divisions on any way from the function's entry to its return."""
    if name in callers:
        raise Uncounted('it calls itself')
    if name not in functions:
        raise Uncounted(f'{name} is not here')
    code, places = functions[name], places_of(functions[name])

    # Of each instruction: the divisions in it or in what it calls, the divisions where it jumps out, and what may follow it here.
    own, out, after = [], [], []
    for at, instruction in enumerate(code):
        other = leaves_for(instruction, places)
        elsewhere = most_divisions(functions, other, (*callers, name)) if other else 0
        own.append(instruction.divides() + (elsewhere if instruction.calls() else 0))
        out.append(elsewhere if instruction.jumps() else 0)
        after.append([at + 1] if instruction.goes_on() else [])
        if instruction.jumps() and not other:
            after[at].append(places[instruction.target])

    # From the last instruction to the first, until nothing changes: only a division in a loop adds more each time.
    most = [0] * len(code) + [PAST_THE_END]
    for _ in range(len(code) + 1):
        before = list(most)
        for at in reversed(range(len(code))):
            most[at] = own[at] + max([out[at], *(most[following] for following in after[at])])
        if most == before:
            break
    else:
        raise Uncounted('it divides in a loop')
    if most[0] >= PAST_THE_END:
        raise Uncounted('it goes on past its end')
    return most[0]


def count(functions, name):
    """The same, or the reason why there is no such number."""
    try:
        return most_divisions(functions, name)
    except Uncounted as why:
        return str(why)


def reached(functions, name):
    """The function, and those that it and they leave for."""
    others = {leaves_for(instruction, places_of(functions[name])) for instruction in functions[name]} - {''}
    return {name}.union(*(reached(functions, other) for other in others))


def instructions(functions, name):
    """The division instructions of all that it may run."""
    return sum(instruction.divides() for each in reached(functions, name) for instruction in functions[each])


def hold(functions, name, allowed):
    if count(functions, name) not in allowed:
        sys.exit(f'divisions: the count of {name} is to be {" or ".join(map(str, allowed))}, and is: {count(functions, name)}')


# ---- what is counted

def try_known():
    """Each piece of code stands in a section of its own, as the compiler has it."""
    made = ROOT / 'target' / 'divisions.o'
    made.parent.mkdir(exist_ok=True)
    code = ''.join(f'.section .text.of_{name}, "ax", @progbits\n{name}: {code}\n' for name, code, _ in KNOWN)
    said('as', '--64', '-o', made, '-', input=code)
    functions = functions_of(made)
    for name, _, known in KNOWN:
        hold(functions, name, [known])


def roundings():
    """The names of the roundings that `rounding` has for its callers."""
    source = (ROOT / 'crates' / 'rounding' / 'src' / 'lib.rt').read_text()
    return re.findall(r'^pub fn (\w+)\(', source, re.MULTILINE)


def check():
    said(ROOT / 'bin' / 'need', 'objdump', 'binutils')
    try_known()
    exported = functions_of(commands.built('bench_rounding'))
    hold(exported, 'bench_rounding_rounded_twice', [2])
    for name in roundings():
        hold(exported, f'bench_rounding_{name}', [1])
    shipped = functions_of(SHIPPED)
    alone = [name for name in shipped if name.startswith(('rounding::', 'division::'))]
    for name in alone:
        hold(shipped, name, [0, 1])
    if not roundings() or not alone:
        sys.exit('divisions: there is no rounding to count, or none in the library')
    counts = [f'{name} {instructions(exported, f"bench_rounding_{name}")}' for name in roundings()]
    print(f'at most one division on any way through a rounding, and in the library through {", ".join(alone)}; '
          f'division instructions in all: {", ".join(counts)}')


if __name__ == '__main__':
    if sys.argv[1:] != ['--check']:
        sys.exit(__doc__)
    check()
