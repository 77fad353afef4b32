"""Which engine each export that values takes, by the time that it takes: the bytes are the same by each.

    python3 tests/engines.py --check    runs target/embed/engines-c, which embed/run builds, on files of many members

The plain engine works the factors anew for each member, so on a file of 1,000 it takes many times as long as the shared
one, which kuyeshan_value has to take there. How many times as long it must take is about half of what is measured, for a
busy machine to pass.
"""
import random
import subprocess
import sys
from pathlib import Path

from case_oracle import MOST_MEMBERS
from oracle import AB, CD, METHOD_NAMES
from shared_files import of_many
from value_files import case_file

PROGRAM = Path(__file__).parent.parent / 'target' / 'embed' / 'engines-c'
# By AB the engines share least, G alone; by CD also T, for each end age.
LEAST = {CD: 6, AB: 4}


def timed(method):
    """What the program says of a file by this method."""
    case = case_file(*of_many(random.Random(13), method))
    ran = subprocess.run([PROGRAM, str(LEAST[method])], input=case, stdout=subprocess.PIPE)
    said = f'by {METHOD_NAMES[method]} {ran.stdout.decode().strip()}'
    if ran.returncode:
        sys.exit(f'engines: {said}')
    return said


def check():
    print(f'engines: of {MOST_MEMBERS} members {"; ".join(map(timed, LEAST))}')


if __name__ == '__main__':
    if sys.argv[1:] != ['--check']:
        sys.exit(__doc__)
    check()
