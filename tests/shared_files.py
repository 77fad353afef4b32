"""Files whose members share factors: what the library's exports that value answer, held to tests/value_oracle.py.

    python3 tests/shared_files.py --check    runs target/embed/answers-c, which embed/run builds, and compares

The plain engine works each member's factors anew. The shared one works G once a plan and T or Z once for each end age,
when a member first needs it. So here are files, by each method, in which a factor is needed first by one member or by
another, or long after others, or by all; and both engines get each of them, with buffers that its lines just fit, that
are a byte short or a byte longer, that are empty, and that are just long enough, or just not, for nothing to be measured.
"""
import random
import sys
from collections import defaultdict
from itertools import permutations, product
from typing import NamedTuple

import commands
from accuracy_search import largest_salary
from amendments import drawn_amended
from annuity_factors import kinds_of_rates
from case_oracle import MOST_MEMBERS
from library import VALUING, Answers
from member_figures import drawn_plan
from oracle import AGES, FIRST, METHOD_NAMES, METHODS, MILLION, Factors, Member, Plan, amended, nearest, table
from rooms import about, about_measured
from value_files import case_file
from value_oracle import lines

RETIREMENTS = 50, 65, 75
FEW = range(13)
ORDERS = RISING, FALLING, MIXED = 'rising', 'falling', 'mixed'


class File(NamedTuple):
    """A plan, its rows, its members and its amendments, all accepted."""
    plan: Plan
    rows: dict
    members: list
    amendments: tuple


# ---- the entry age and the age of each member, in the order of a file

def every_pair(r):
    """That a member can have, by its age and then by its entry age."""
    return [(y, x) for x in range(FIRST, r + 1) for y in range(FIRST, min(x, r - 1) + 1)]


def every_pair_in_files(rng, r):
    """In each order, and in as many files as that takes."""
    pairs = every_pair(r)
    count = -(-len(pairs) // MOST_MEMBERS)
    for ordered in (pairs, pairs[::-1], rng.sample(pairs, len(pairs))):
        yield from (ordered[j::count] for j in range(count))


def much_in_common(rng, r):
    """The entry age, with every age, many times; the entry age and the age; x = y; x = r."""
    for y in (FIRST, r // 2, r - 1):
        pairs = [(y, x) for x in range(y, r + 1)] * 5
        yield rng.sample(pairs, len(pairs))
    yield [(30, 45)] * MOST_MEMBERS
    yield [(y, y) for y in range(FIRST, r)]
    yield [(y, r) for y in range(FIRST, r)]


def few(rng, r):
    """About the count from which kuyeshan_value takes the shared engine: none, each end of the ages, two of them in either
    order; from three on, others after the ends."""
    ends = [(FIRST, FIRST), (FIRST, r - 1), (FIRST, r), (r - 1, r - 1), (r - 1, r)]
    for count in (0, 1, 2):
        yield from permutations(ends, count)
    for count in (*FEW[3:], *FEW[3:]):
        yield rng.sample(ends, 3) + rng.sample(every_pair(r), count - 3)


# ---- files

def file_of(rng, plan, rates, weights, ages):
    """Salaries are near the largest, for each figure to be large; so each member is another person. Half of the plans have
    amendments."""
    plan, amendments = drawn_amended(rng, plan)
    valued, rows, members = amended(plan, amendments), table(rates, weights), []
    for id, (y, x) in enumerate(ages, 1):
        member = Member(id, id, y, x, 1)
        largest = largest_salary(valued, rows, member)
        members.append(member._replace(salary=rng.randint(largest // 2, largest)))
    return File(plan, rows, members, amendments)


def jump(rng):
    """Weights that rise a hundredfold, at one age."""
    at = rng.randrange(FIRST + 1, RETIREMENTS[0])
    return lambda k: 1000 if k < at else 100000


def climb(rng):
    """Weights that rise a hundredfold, by steps of any size."""
    steps = sorted(rng.randint(1000, 100000) for _ in AGES)
    return lambda k: 1000 if k == FIRST else 100000 if k >= RETIREMENTS[0] - 1 else steps[k - FIRST]


def of_many(rng, method):
    """By a method, as many members as a file may have, of any ages: for tests/engines.py and tests/stack.py."""
    plan = drawn_plan(rng)._replace(method=method)
    ages = rng.choices(every_pair(plan.retire), k=MOST_MEMBERS)
    return file_of(rng, plan, kinds_of_rates(rng)['light'], climb(rng), ages)


def files(rng):
    """Each way that ages can be shared, where few leave; and some members, where the plan and its rows are extreme."""
    for method, r in product(METHODS, RETIREMENTS):
        for ages in (*every_pair_in_files(rng, r), *much_in_common(rng, r), *few(rng, r)):
            plan = drawn_plan(rng)._replace(method=method, retire=r)
            yield file_of(rng, plan, kinds_of_rates(rng)['light'], rng.choice([jump, climb])(rng), ages)
    for method, r, interest, weights in product(METHODS, RETIREMENTS, (0, 2000), (jump, climb)):
        for rates in ('none', 'all leave', 'light, all leave at single ages'):
            plan = drawn_plan(rng)._replace(method=method, retire=r, interest=interest)
            ages = rng.sample(every_pair(r), 60)
            yield file_of(rng, plan, kinds_of_rates(rng)[rates], weights(rng), ages)


# ---- what the files must have among them, by each method

KINDS = ['one entry age with every age', 'one entry age and one age', 'x = y', 'x = r', 'interest 0', 'interest 2000',
         'pay 1', 'pay 12', 'weights that rise a hundredfold', 'nobody leaves', 'all leave', '1000 members',
         'no amendments', 'amendments that add something']
COUNTS = [f'{count} members' for count in FEW]
PAIRS = [(order, r, *pair) for order, r in product(ORDERS, RETIREMENTS) for pair in every_pair(r)]


def kinds(plan, rows, members, amendments):
    """Of a file: those of KINDS and COUNTS that it is of."""
    r, ages, entries = plan.retire, [m.age for m in members], [m.entry for m in members]
    staying = {Factors(plan, rows, nearest).P(k) for k in range(FIRST, r)}
    yield from (f'{len(members)} members', f'interest {plan.interest}', f'pay {plan.pay}')
    if len(set(entries)) == 1 and len(ages) > len(set(ages)) == r + 1 - entries[0]:
        yield 'one entry age with every age'
    if len(members) > 1 and len(set(entries)) == len(set(ages)) == 1:
        yield 'one entry age and one age'
    if entries == ages == [*range(FIRST, r)]:
        yield 'x = y'
    if entries == [*range(FIRST, r)] and set(ages) == {r}:
        yield 'x = r'
    if rows[r - 1][3] == 100 * rows[FIRST][3]:
        yield 'weights that rise a hundredfold'
    if staying == {MILLION}:
        yield 'nobody leaves'
    if staying == {0}:
        yield 'all leave'
    if not amendments:
        yield 'no amendments'
    if amended(plan, amendments).unit > plan.unit:
        yield 'amendments that add something'


def ordered_pairs(plan, _, members, *__):
    """Of a file of many members: its pairs of ages, each with the order of the ages and with r."""
    ages = [m.age for m in members]
    rising = sorted(ages)
    order = RISING if ages == rising else FALLING if ages == rising[::-1] else MIXED
    return {(order, plan.retire, m.entry, m.age) for m in members} if len(members) > 100 else set()


def check_kinds(made):
    seen = defaultdict(set)
    for file in made:
        seen[file.plan.method].update(kinds(*file), ordered_pairs(*file))
    for method, name in METHOD_NAMES.items():
        missing = {*KINDS, *COUNTS, *PAIRS} - seen[method]
        if missing:
            sys.exit(f'shared_files: {name}: of {len(missing)} kinds there is no file, as of {missing.pop()}')


# ---- comparing

def check():
    made, answers = [*files(random.Random(12))], Answers()
    check_kinds(made)
    for file in made:
        case = case_file(*file)
        for room in sorted({0} | about(lines(case)) | about_measured(case)):
            answers.file(case, room)
    answers.hold('shared_files')
    if answers.valued != {0: 4 * len(made), 30: 2 * len(made)}:
        sys.exit(f'shared_files: not four buffers of each file fit and two do not: {commands.counted(answers.valued)}')
    print(f'shared_files: {len(made)} files of {sum(len(file.members) for file in made)} members, in '
          f'{answers.valued.total()} buffers by each of {", ".join(VALUING)} ({commands.counted(answers.valued)}); by each '
          f'method every pair of ages for r = {", ".join(map(str, RETIREMENTS))}, the ages {", ".join(ORDERS)}; '
          f'{COUNTS[0]} to {COUNTS[-1]}; {"; ".join(KINDS)}')


if __name__ == '__main__':
    commands.run('shared_files', __doc__, dict, check)
