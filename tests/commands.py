"""What test programs share: the input and output that a crate stores, written or compared, the two commands, what is
built, and what a program writes, compared and counted."""
import functools
import subprocess
import sys
from collections import Counter
from pathlib import Path

BUILD = Path(__file__).parent.parent / 'bin' / 'build'


@functools.cache
def built(name):
    """The path of a program or of a static library of the repository, once it is proved and built."""
    ran = subprocess.run([BUILD, name], stdin=subprocess.DEVNULL, stdout=subprocess.PIPE, stderr=subprocess.PIPE, text=True)
    if ran.returncode:
        sys.exit(f'{name} is not proved and built\n{ran.stderr}')
    return ran.stdout.rstrip('\n')


def said(name, given):
    """What a program of the repository writes on this input."""
    return subprocess.run([built(name)], input=given, stdout=subprocess.PIPE, check=True).stdout


def run(name, usage, files, check):
    """--write stores the files, bytes by path; --check compares what is stored with them, and then checks more."""
    if sys.argv[1:] == ['--write']:
        for path, made in files().items():
            path.write_bytes(made)
    elif sys.argv[1:] == ['--check']:
        for path, made in files().items():
            if path.read_bytes() != made:
                sys.exit(f'{name}: {path} differs from what this program makes')
        check()
    else:
        sys.exit(usage)


def numbers_of(lines):
    """How often each number is given, where lines are refusals."""
    return Counter(int(line[8:].split(',')[0]) for line in lines if line.startswith('refused='))


def counted(numbers):
    return ', '.join(f'{number}: {numbers[number]}' for number in sorted(numbers))


def hold(name, expected, said):
    """Holds all that a program writes to what it must write for each case in turn, pairs of a case and its bytes."""
    at = 0
    for case, answer in expected:
        got = said[at:at + len(answer)]
        if got != answer:
            about = shown_about(answer, got)
            sys.exit(f'{name}: {case}\n{answer[about]} is expected, and the program writes {got[about]}')
        at += len(answer)
    if at != len(said):
        sys.exit(f'{name}: the program writes too much')


def shown_about(answer, got):
    """Some bytes before the first that differs, and some after it: an answer can be longer than a reader wants to see."""
    first = next((place for place, both in enumerate(zip(answer, got)) if both[0] != both[1]), len(got))
    return slice(max(0, first - 100), first + 100)
