"""What the library answers to a program in C: embed/answers.c held to the oracles.

    python3 tests/library_answers.py --check    runs target/embed/answers-c, which embed/run builds, and compares

kuyeshan_read, kuyeshan_accept and the three exports that value a case file get every file of tests/value_files.py and the
plans stored by tests/halves.py and tests/accuracy_found.py, with an output buffer that just fits, and the files and buffers
of tests/rooms.py; kuyeshan_value_member gets plain values, accepted and refused ones, with lists of up to 1,000
amendments.
"""
import random
import sys
from itertools import product

import accuracy_found
import commands
import halves
import value_files
from amendments import chain, side_by_side
from case_files import ACCEPTING, READING
from library import VALUING, Answers
from member_figures import (REFUSALS, all_extreme, at_edges, at_extremes, at_some_edges, drawn_accepted, drawn_case,
                            drawn_spoiled, known)
from rooms import files_with_rooms
from value_oracle import lines


# The longest list that embed/cases.h has room for.
MOST_LISTED = 1000


def long_lists(rng):
    """As many as a list may have, and more: the first fault is given, and what is after it doesn't count."""
    for count, listed in product((20, 21, 22, 23, 64, 999, MOST_LISTED), (chain, side_by_side)):
        case = drawn_accepted(rng)
        made = listed([0] * count)
        yield case._replace(amendments=tuple(made))
        for place in {0, min(20, count - 1), count - 1}:
            wrong = made[place]._replace(struck=2)
            yield case._replace(amendments=(*made[:place], wrong, *made[place + 1:]))


def plain_values(rng):
    yield from (case for case, _ in known())
    yield from long_lists(rng)
    for _ in range(3):
        case = drawn_accepted(rng)
        yield from at_edges(case)
        yield from all_extreme(case)
    yield from (at_some_edges(rng, drawn_accepted(rng)) for _ in range(200))
    yield from (at_extremes(rng, drawn_accepted(rng)) for _ in range(200))
    yield from (drawn_spoiled(rng) for _ in range(200))
    yield from (drawn_case(rng) for _ in range(200))


# ---- the stored plans

def of_halves():
    """A plan, its rows and its members: one, or none."""
    return [(one.plan, one.rows(), one.members()) for one in halves.read()]


def of_farthest():
    return [(plan, rows, [member]) for plan, rows, member in (one.case() for one in accuracy_found.read())]


def once_and_twice(plan, rows, members):
    """The file; and, where it has a member, one with the same twice, as two persons: kuyeshan_value takes the shared engine
    for it."""
    yield value_files.case_file(plan, rows, members)
    if members:
        again = members[0]._replace(id=members[0].id + 1, person=members[0].person + 1)
        yield value_files.case_file(plan, rows, [*members, again])


def files_of(plans):
    return [case for plan in plans for case in once_and_twice(*plan)]


# ---- comparing

def give_whole(answers, cases):
    for case in cases:
        answers.file(case, len(lines(case)))


def give_stored(answers, cases):
    """Each of them must be accepted."""
    accepted = answers.accepted[0]
    give_whole(answers, cases)
    if answers.accepted[0] != accepted + len(cases):
        sys.exit('library_answers: a stored plan is refused')


def check_numbers(answers):
    """Every number that an export can answer is answered."""
    for counter, numbers in ((answers.read, READING), (answers.accepted, ACCEPTING), (answers.valued, ACCEPTING | {30}),
                             (answers.members, REFUSALS)):
        if set(counter) != numbers | {0}:
            sys.exit(f'library_answers: an export answers {sorted(counter)} only, or a number that is not due')


def check():
    answers, half, farthest = Answers(), files_of(of_halves()), files_of(of_farthest())
    give_stored(answers, half + farthest)
    give_whole(answers, value_files.files(random.Random(value_files.SEED), value_files.DRAWN))
    whole = answers.read.total()
    for case, room in files_with_rooms():
        answers.file(case, room)
    for case in plain_values(random.Random(8)):
        answers.member(case)
    answers.hold('library_answers')
    check_numbers(answers)
    print(f'library_answers: {whole} whole files, {len(half)} of them of the exact halves and {len(farthest)} of the '
          f'farthest found, with one member and with two, and {answers.read.total() - whole} files and buffers are '
          f'answered alike (read {commands.counted(answers.read)}; accepted {commands.counted(answers.accepted)}; by each of '
          f'{", ".join(VALUING)} {commands.counted(answers.valued)}), and {answers.members.total()} members '
          f'({commands.counted(answers.members)})')


if __name__ == '__main__':
    commands.run('library_answers', __doc__, dict, check)
