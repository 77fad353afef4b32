"""The plans and members whose figures were found farthest from their exact fractions, by pension: stored ones.

    python3 tests/accuracy_found.py --check    works each anew in exact fractions, and holds it to its proved limit

tests/accuracy_search.py finds them, and stores each in a line of tests/accuracy_found.tsv: the yearly pension about
which it looked, the figure, how far it strays, and all that makes the plan, its rows and the member.
"""
import sys
from fractions import Fraction
from itertools import product
from pathlib import Path
from typing import NamedTuple

from oracle import (AGES, CD, FINAL, LAST, METHOD_NAMES, METHODS, MOST_BENEFIT, L, Member, N, Plan, V, benefit,
                    exact_costs, refusal, rounded_costs, sharp_limit, stray, table)

STORED = Path(__file__).parent / 'accuracy_found.tsv'
# Yearly pensions, in cents.
PENSIONS = 1000000, 5000000, 20000000, MOST_BENEFIT
# What is looked for. V is the same by every method, so one method stands for all.
TARGETS = [(V, CD), *product((N, L), METHODS)]


class Shape(NamedTuple):
    """A plan and a member but for the death rates and the salary. The weight rises once, to `jump` times, at r - 1."""
    interest: int
    retire: int
    pay: int
    entry: int
    age: int
    jump: int

    def plan(self, method):
        # With this formula the benefit reaches its limit even after two years, where pay rises with the weight.
        return Plan(self.interest, self.retire, self.pay, FINAL, 500, 1, method, 0, 1)

    def weight(self, k):
        return 1000 * self.jump if k >= self.retire - 1 else 1000

    def rows(self, deaths):
        return table(lambda k: (deaths.get(k, 0), 0, 0), self.weight)

    def member(self, salary):
        return Member(1, 1, self.entry, self.age, salary)


class Found(NamedTuple):
    """A figure of a plan and a member, and by how many cents it strays, or W(x) / W(y) cents for the N of CP."""
    pension: int
    figure: str
    method: int
    far: Fraction
    shape: Shape
    salary: int
    deaths: dict

    def case(self):
        return self.shape.plan(self.method), self.shape.rows(self.deaths), self.shape.member(self.salary)

    def benefit(self):
        return benefit(*self.case(), self.shape.retire)

    def worked(self):
        case = self.case()
        return stray(rounded_costs(*case), exact_costs(*case), self.figure, self.method, self.shape.age)

    def limit(self):
        return sharp_limit(self.figure, self.method, self.benefit())

    def name(self):
        return named(self.figure, self.method)

    def text(self):
        return f'{self.name()} at {self.pension // 100:,}: {ten_thousandths(self.far)} of {float(self.limit()):.4f} cents'


def named(figure, method):
    return figure if figure == V else f'{METHOD_NAMES[method]} {figure}'


def reached(pension, paid):
    """Whether a pension counts as one of this size: it is no more, and no more than a hundredth less."""
    return 99 * pension <= 100 * paid <= 100 * pension


def farthest(found):
    return max(found, key=lambda one: one.far)


# ---- the stored ones

HEADING = 'pension', 'figure', 'cents', *Shape._fields, 'salary in cents', 'death rates from age 15'


def ten_thousandths(far):
    """Cut, so that what is written was reached."""
    return f'{int(far * 10000) / 10000:.4f}'


def write(found):
    lines = [HEADING]
    for one in found:
        rates = ','.join(str(one.deaths.get(k, 0)) for k in AGES if k < LAST)
        lines.append((one.pension // 100, one.name(), ten_thousandths(one.far), *one.shape, one.salary, rates))
    STORED.write_text(''.join('\t'.join(map(str, line)) + '\n' for line in lines))


def read():
    by_name = {named(*target): target for target in TARGETS}
    heading, *lines = (line.split('\t') for line in STORED.read_text().splitlines())
    assert tuple(heading) == HEADING
    for pension, name, cents, *shape, salary, rates in lines:
        deaths = dict(zip(AGES, map(int, rates.split(','))))
        yield Found(100 * int(pension), *by_name[name], Fraction(cents), Shape(*map(int, shape)), int(salary), deaths)


# ---- checking

def fault(one):
    """What is wrong with a stored one, or nothing."""
    worked = one.worked()
    if refusal(*one.case()) != 0:
        return 'it is refused'
    if not reached(one.pension, one.benefit()):
        return f'its pension is {one.benefit()} cents'
    if ten_thousandths(worked) != ten_thousandths(one.far):
        return f'it strays by {ten_thousandths(worked)} cents'
    return worked > one.limit() and f'its limit is {float(one.limit()):.4f} cents'


def check():
    found = list(read())
    if [(one.pension, one.figure, one.method) for one in found] != [(p, *t) for p, t in product(PENSIONS, TARGETS)]:
        sys.exit(f'accuracy_found: {STORED.name} has not one line for each pension and figure, in order')
    for one in found:
        wrong = fault(one)
        if wrong:
            sys.exit(f'accuracy_found: {one.text()}: {wrong}')
    near = max(found, key=lambda one: one.far / one.limit())
    print(f'accuracy_found: {len(found)} figures stray as far as stored, and none beyond its limit; nearest {near.text()}')


if __name__ == '__main__':
    if sys.argv[1:] != ['--check']:
        sys.exit(__doc__)
    check()
