"""Quotients that lie just halfway between two whole numbers (rule 6.1), found by a search: where each of them goes.

    python3 tests/halves.py --write    searches, and stores what it finds in tests/halves.tsv
    python3 tests/halves.py --check    holds the compiled programs to the stored ones

With each pay there are two for each place in which something is rounded, but for the two of staying (tests/staying.py):
one with an even number below the half, which is where it goes, and one with an odd number below, from which it goes up.
They are a year step of each factor, the benefit, V, the N and the L of each method, and the supplemental payment, below 0
and above. Where a half must go is worked here from the quotient itself, and the whole answer of the program by
tests/oracle.py.
"""
import random
import sys
from fractions import Fraction
from itertools import product
from math import gcd
from pathlib import Path
from typing import NamedTuple

import annuity_factors
import member_figures
import value_files
import value_oracle
from oracle import (CAREER, FINAL, FIRST, FLAT, METHOD_NAMES, METHODS, MILLION, MOST_SALARY, PAYS, S, Costs, Factors,
                    Member, Plan, certain, exact_benefit, nearest, refusal, table)

STORED = Path(__file__).parent / 'halves.tsv'
STEPS = 'A', 'G', 'T', 'Z'
PAYMENTS = {'supplemental above 0': 1, 'supplemental below 0': -1}
FIGURES = {f'{METHOD_NAMES[method]} {figure}': (figure, method) for method in METHODS for figure in 'NL'}
PLACES = [*(f'step of {letter}' for letter in STEPS), 'step of C', 'B', 'V', *FIGURES, *PAYMENTS]
# A place, a pay, and 1 where the number below is odd.
KINDS = [*product(PLACES, PAYS, (0, 1))]


class Found(NamedTuple):
    """A place, and the plan and the member whose quotient there is a half. At ages below r so many die as `death` says,
    and at r all do; the weight rises once, to `jump` times, at r - 1. A step is that of the member's age."""
    place: str
    plan: Plan
    member: Member
    death: int
    jump: int

    def rows(self):
        r = self.plan.retire
        return table(lambda k: (self.death if k < r else MILLION, 0, 0), lambda k: 1000 * (self.jump if k >= r - 1 else 1))

    def case(self):
        return member_figures.Case(self.plan, self.rows(), self.member)

    def members(self):
        """Of the case file: none where nothing is owed."""
        return [] if PAYMENTS.get(self.place) == -1 else [self.member]


class Quotients:
    """Rounds as the oracle does, and keeps the last quotient as it was before."""

    def __call__(self, n, d):
        self.last = Fraction(n, d)
        return nearest(n, d)


def quotient(found):
    """What is rounded at the place."""
    plan, rows, member = found.case().valued()
    kept = Quotients()
    factors = Factors(plan, rows, kept)
    if found.place == 'B':
        return exact_benefit(plan, rows, member, plan.retire)
    if found.place in PAYMENTS:
        return Fraction(unfunded(found) * S, certain(plan.interest, plan.years, nearest))
    if found.place == 'step of C':
        certain(plan.interest, plan.years, kept)
    elif found.place.startswith('step of '):
        factors.step(member.age, factors_of(factors, found)[member.age + 1])
    elif found.place == 'V':
        Costs(plan, rows, member, factors).V(member.age)
    else:
        Costs(plan, rows, member, factors).figure(*FIGURES[found.place], member.age)
    return kept.last


def factors_of(factors, found):
    letter = found.place[-1]
    return getattr(factors, letter)(*[found.plan.retire] if letter in 'TZ' else [])


def unfunded(found):
    return value_oracle.valued(found.plan, found.rows(), found.members()).unfunded()


def stands(found, number):
    """Whether it is an accepted one, and its quotient a half of the sign that the place has."""
    sign = PAYMENTS.get(found.place, 1)
    return number.denominator == 2 and (number > 0) == (sign > 0) and refusal(*found.case()) == 0


def below(number):
    """Of the size, the whole number below it."""
    return abs(number) // 1


def to_even(number):
    """Where a half goes: its size to the even one of two, and then its sign."""
    size = below(number)
    return (size + size % 2) * (-1 if number < 0 else 1)


# ---- the search

# With these a factor keeps few digits, or a year's discount has an even divisor: halves are frequent.
INTERESTS = 0, 0, 240, 400, 1000, 1200, 2000
DEATHS = 0, 200000, 500000, 600000, 625000, 750000, 800000, 875000, 900000, 960000


def drawn(rng, place, pay):
    """Halves of B come from the salary, and all others from the factors."""
    r = rng.randint(50, 75)
    y = rng.randint(max(FIRST, r - rng.choice([2, 4, 8, 20])), r - 1)
    x = rng.randint(y, r - 1)
    formula = rng.choice([CAREER, FINAL]) if place == 'B' else FLAT
    plan = Plan(
        interest=rng.choice(INTERESTS),
        retire=r,
        pay=pay,
        formula=formula,
        unit=rng.randint(1, 100000 if formula == FLAT else 500),
        average=rng.randint(1, 10) if formula == FINAL else 0,
        method=FIGURES[place][1] if place in FIGURES else rng.choice(METHODS),
        assets=0,
        years=rng.randint(2, 40))
    member = Member(1, 1, y, x, rng.randint(1, MOST_SALARY) if formula != FLAT else 0)
    return Found(place, plan, member, death=rng.choice(DEATHS), jump=rng.choice([1, 1, 2, 3, 5]))


def drawn_payment(rng, place, pay):
    """With the assets that leave an odd part of C unfunded. Below 0 there are no members; above 0 the assets are less than
    the liability of one."""
    one = drawn(rng, place, pay)
    plan = one.plan._replace(interest=rng.randint(0, 2000))
    c = certain(plan.interest, plan.years, nearest)
    cents = c // gcd(c, 2 * S) * rng.randrange(1, 1000, 2)
    if PAYMENTS[place] < 0:
        return one._replace(plan=plan._replace(assets=cents))
    owed = value_oracle.valued(plan, one.rows(), [one.member]).total('liability')
    return one._replace(plan=plan._replace(assets=max(0, owed - cents)))


def found_one(rng, place, pay, parity):
    """The first drawn one that has a half there, with such a number below it, and one above 1."""
    draw = drawn_payment if place in PAYMENTS else drawn
    while True:
        one = draw(rng, place, pay)
        number = quotient(one)
        if below(number) > 1 and below(number) % 2 == parity and stands(one, number):
            return one


def search(seed=7):
    rng = random.Random(seed)
    for kind in KINDS:
        one = found_one(rng, *kind)
        print(*kind, quotient(one), one, flush=True)
        yield one


HEADING = 'place', *Plan._fields, *Member._fields, 'death', 'jump'


def write(found):
    lines = [HEADING, *((one.place, *one.plan, *one.member, one.death, one.jump) for one in found)]
    STORED.write_text(''.join('\t'.join(map(str, line)) + '\n' for line in lines))


def read():
    heading, *lines = (line.split('\t') for line in STORED.read_text().splitlines())
    assert tuple(heading) == HEADING
    for place, *numbers in lines:
        *numbers, death, jump = map(int, numbers)
        plan, member = numbers[:len(Plan._fields)], numbers[len(Plan._fields):]
        yield Found(place, Plan(*plan), Member(*member), death, jump)


# ---- checking

def answered(found):
    """The rounded number at the place, as the compiled programs give it."""
    if found.place in PAYMENTS:
        return value_files.dollars(printed(found).split('supplemental=')[1])
    if found.place.startswith('step of '):
        return stepped(found)
    _, _, figures = member_figures.answers([found.case()])[0]
    fields = figures.removeprefix('figures=').split(',')
    return int(fields['BVNL'.index(found.place[-1])])


def printed(found):
    """What value prints, held to the oracle to the last byte."""
    case = value_files.case_file(found.plan, found.rows(), found.members())
    said = value_files.answer(case)
    if said != value_oracle.lines(case):
        sys.exit(f'halves: {found}: value prints {said}, the oracle {value_oracle.lines(case)}')
    return said.decode()


def stepped(found):
    """The step alone: of the factor that the program writes, what isn't added by the year."""
    letter = found.place[-1]
    plan, rows, age = found.plan, found.rows(), found.member.age
    case = annuity_factors.Case(plan.interest, plan.retire, plan.pay, plan.retire, plan.years, rows)
    lines, = annuity_factors.answers([case])
    if lines != case.lines():
        sys.exit(f'halves: {found}: the factors are not those of the oracle')
    factors = next(line.split()[1:] for line in lines if line[0] == letter)
    factor = int(factors[0 if letter == 'C' else age - FIRST])
    added = {'G': 0, 'Z': rows[age][3] * S}
    return factor - added.get(letter, S)


def check():
    found = list(read())
    kinds = []
    for one in found:
        number = quotient(one)
        if not stands(one, number):
            sys.exit(f'halves: {one}: {number} is no such half, or the case is refused')
        if answered(one) != to_even(number):
            sys.exit(f'halves: {one}: {number} is rounded to {answered(one)}')
        printed(one)
        kinds.append((one.place, one.plan.pay, below(number) % 2))
    if kinds != KINDS:
        sys.exit(f'halves: {STORED.name} has not one of each parity for each place and pay, in order')
    print(f'halves: {len(found)} halves go to the even one of two, in two cases with each pay at each of {len(PLACES)} '
          'places')


if __name__ == '__main__':
    if sys.argv[1:] == ['--write']:
        write(list(search()))
    elif sys.argv[1:] == ['--check']:
        check()
    else:
        sys.exit(__doc__)
