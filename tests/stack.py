"""How much stack each export of the library takes: held to what embed/kuyeshan.h promises.

    python3 tests/stack.py --check    runs target/embed/stack-c, which embed/run builds

Nothing is proved of the stack, so it is tried: on files of 1,000 members by each method, with the buffers of
tests/rooms.py, most of them so short that the lines are measured too; on the files that are there, of which many are
refused; and on plain values, of a member and of a whole file. The promise is read from the header.
"""
import random
import re
import subprocess
import sys
from pathlib import Path

from case_oracle import walk
from library import asked_file, asked_member, asked_values
from library_answers import plain_values
from oracle import METHODS
from rooms import files, rooms
from shared_files import of_many
from value_files import case_file
from value_oracle import ROOM
from writing_oracle import Values

ROOT = Path(__file__).parent.parent
PROGRAM = ROOT / 'target' / 'embed' / 'stack-c'
HEADER = ROOT / 'embed' / 'kuyeshan.h'


def promised():
    """In bytes."""
    kibibytes, = re.findall(r'A call takes less than (\d+) KiB of stack', HEADER.read_text())
    return 1024 * int(kibibytes)


def cases(rng):
    for method in METHODS:
        case = case_file(*of_many(rng, method))
        yield from (asked_file(case, room) for room in rooms(case))
        yield from (asked_values(Values(*walk(case, True)), room) for room in (0, ROOM))
    yield from (asked_file(case, ROOM) for case in files(rng))
    yield from map(asked_member, plain_values(rng))


def check():
    asked = [*cases(random.Random(14))]
    ran = subprocess.run([PROGRAM, str(promised())], input=b''.join(asked), stdout=subprocess.PIPE)
    said = f'stack: of {len(asked)} cases {ran.stdout.decode().strip()}'
    if ran.returncode:
        sys.exit(said)
    print(said)


if __name__ == '__main__':
    if sys.argv[1:] != ['--check']:
        sys.exit(__doc__)
    check()
