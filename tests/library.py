"""What the library must answer to a program in C: embed/answers.c held to the oracles, for the tests that give it cases.

All cases go through one process of target/embed/answers-c, which embed/run builds: nothing of one may be left for the
next.
"""
import struct
import subprocess
from collections import Counter
from functools import lru_cache
from pathlib import Path

import commands
from case_oracle import accepting, reading
from oracle import AGES, refusal
from rooms import AFTER, buffer, given, outcome
from value_oracle import valued_lines
from writing_oracle import written

PROGRAM = Path(__file__).parent.parent / 'target' / 'embed' / 'answers-c'
# The exports that value a case file: one of the engines by the count of members, the plain one, the shared one.
VALUING = 'value', 'value_plain', 'value_shared'
# What the program fills the figures with before a call.
NO_FIGURES = [2**64 - 1 - j for j in range(4)]
NONE = 0, 0
# What it paints a buffer for a case file with, as far as one may reach.
PAINT = bytes(128 + place % 127 for place in range(70000 + AFTER))


def asked_file(case, room):
    """A case file with a buffer, as embed/cases.h reads it."""
    return b'f' + given(case, room)


def asked_member(case):
    """Plain values, with room for no more amendments than there are."""
    return b'm' + case.packed()


def asked_values(values, room):
    """All values of a case file, with a buffer for it."""
    plan, amendments, rows, members = values
    return b''.join([struct.pack('<cI', b'w', room), numbers(plan), listed(amendments),
                     *(struct.pack('<4I', *rows[age]) for age in AGES), listed(members)])


def listed(entries):
    return b''.join([numbers([len(entries)]), *map(numbers, entries)])


def numbers(fields):
    return struct.pack(f'<{len(fields)}Q', *fields)


@lru_cache(maxsize=1)
def before_valuing(case):
    """What reading and accepting answer. One is kept, as with the lines: the buffers tried with one file come together."""
    return reading(case) or NONE, accepting(case) or NONE


class Answers:
    """What the program must write, case by case, and how often each number is answered."""

    def __init__(self):
        self.asked, self.expected = [], []
        self.read, self.accepted, self.valued, self.members = Counter(), Counter(), Counter(), Counter()
        self.written = Counter()

    def file(self, case, room):
        read, accepted = before_valuing(case)
        valued, written = outcome(valued_lines, case, room)
        for counter, (number, _) in (self.read, read), (self.accepted, accepted), (self.valued, valued):
            counter[number] += 1
        self.asked.append(asked_file(case, room))
        self.expect((case, room), 'read=%d,%d\naccept=%d,%d\n' % (*read, *accepted))
        for export in VALUING:
            said = '%s=%d,%d,%d\n' % (export, *valued, len(written))
            self.expect((export, case, room), said, buffer(written, room))

    def member(self, case):
        number = refusal(*case)
        self.members[number] += 1
        self.asked.append(asked_member(case))
        self.expect(case, 'member=%d,%d,%d,%d,%d\n' % (number, *(NO_FIGURES if number else case.figures())))

    def values(self, values, room):
        """What is written of them, if anything, and then what stood in the buffer before. Answers what the oracle says."""
        (number, _), text = outcome(written, values, room)
        self.written[number] += 1
        self.asked.append(asked_values(values, room))
        said = 'write=%d,%d\n' % (number, len(text))
        self.expect((values, room), said, text + PAINT[len(text):room + AFTER])
        return number, text

    def expect(self, asked, said, bytes=b''):
        self.expected.append((asked, said.encode() + bytes))

    def hold(self, name):
        """Holds all that the program writes to what it must write, byte by byte."""
        said = subprocess.run([PROGRAM], input=b''.join(self.asked), stdout=subprocess.PIPE, check=True).stdout
        commands.hold(name, self.expected, said)
