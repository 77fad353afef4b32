"""What is printed of a case file into buffers of every length: the program test_case_prints held to tests/value_oracle.py.

    python3 tests/case_prints.py --write    writes stdin and stdout of crates/test_case_prints
    python3 tests/case_prints.py --check    builds and runs crates/test_case_prints on files and buffers, and compares

The program answers with a line, and then with the bytes of the buffer and of what follows it (tests/rooms.py).
"""
import sys
from collections import Counter
from pathlib import Path

import commands
from rooms import about_printed, buffer, files_with_rooms, given, outcome, small
from value_oracle import lines

ROOT = Path(__file__).parent.parent
CRATE = ROOT / 'crates' / 'test_case_prints'
PROGRAM = 'test_case_prints'


def answer(case, room):
    """What the program must write."""
    refusal, written = outcome(lines, case, room)
    said = f'refused={refusal[0]},{refusal[1]}' if refusal[0] else f'written={len(written)}'
    return said.encode() + b'\n' + buffer(written, room)


def stored_files():
    cases = [(case, room) for case in small() for room in sorted(about_printed(case)) if room < 1000]
    return {
        CRATE / 'stdin': b''.join(given(case, room) for case, room in cases),
        CRATE / 'stdout': b''.join(answer(case, room) for case, room in cases),
    }


def kind(answer):
    """What is written, by the answer."""
    said, rest = answer.split(b'\n', 1)
    if said.startswith(b'refused='):
        return 'nothing'
    return 'the line of a refusal' if rest.startswith(b'refused=') else 'all lines'


def check():
    cases = files_with_rooms()
    expected = [((case, room), answer(case, room)) for case, room in cases]
    # The last case lacks a byte, so that it is no case.
    asked = b''.join(given(case, room) for case, room in cases + cases[:1])[:-1]
    said = commands.said(PROGRAM, asked)
    commands.hold('case_prints', expected, said)
    kinds = Counter(kind(answer) for _, answer in expected)
    if len(kinds) != 3:
        sys.exit(f'case_prints: what is written is always {kinds}')
    print(f'case_prints: {len(cases)} buffers hold what is printed: {commands.counted(kinds)}')


if __name__ == '__main__':
    commands.run('case_prints', __doc__, stored_files, check)
