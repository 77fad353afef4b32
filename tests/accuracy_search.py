"""Searches for plans whose printed V, N and L stray as far as they can from their exact fractions, by pension.

    python3 tests/accuracy_search.py [ROUNDS [SEED]]    prints, by pension and figure, the farthest found
    python3 tests/accuracy_search.py --write            stores those too that are farther than the ones of
                                                        tests/accuracy_found.tsv, in their place: some minutes

Random plans stray little, since their roundings go up as often as down. Here the death rates are chosen age by age from
120 down: of some hundred rates, the one with which the year steps of that age round farthest the wanted way. Of the
salaries that give the pension, or just less, the one is kept whose last roundings go that way too. Beside what is found
stands the proved limit, in cents; for the N of CP both are in W(x) / W(y) cents. It exits 1 where something found is
over its limit. Plans and figures are those of tests/oracle.py.
"""
import random
import sys
from collections.abc import Callable
from dataclasses import dataclass
from fractions import Fraction
from itertools import product

import accuracy_found
from accuracy_found import PENSIONS, TARGETS, Found, Shape, farthest, reached
from oracle import (BD, BP, CD, CP, FIRST, FLAT, LAST, MILLION, MOST_BENEFIT, MOST_SALARY, PAYS, S, Costs, Factors, L,
                    N, benefit, exact_benefit, nearest, rounded_costs, stray)

# The rates tried lie below this one: the fewer leave, the larger is what is valued, and the less an error shrinks on
# its way down.
HIGHEST_RATE = 600
TRIED_RATES = 300
# Just below the largest: they move the last roundings, and little else.
TRIED_SALARIES = 150
# How many shapes are tried once each way, and with how many of these the search goes on.
TRIED_SHAPES = 24
KEPT_SHAPES = 3


def largest_salary(plan, rows, member, most=MOST_BENEFIT):
    """The largest that this member may have for a B(r) that, before its rounding, is no more than `most`."""
    if plan.formula == FLAT or plan.unit == 0:
        return MOST_SALARY
    for_one_cent = exact_benefit(plan, rows, member._replace(salary=1), plan.retire)
    return min(MOST_SALARY, most // for_one_cent)


def shapes():
    """Short and long service, at its ends and within, level weights and a jump, no interest and the least, each pay."""
    for interest, r, pay, jump in product((0, 1), (50, 60, 75), PAYS, (1, 2, 5, 10, 20, 100)):
        for y in sorted({FIRST, r - 35, r - 20, r - 10, r - 5, r - 4, r - 3, r - 2, r - 1}):
            for x in sorted({y, y + 1, (y + r) // 2, max(y, r - 2), r - 1, r}):
                yield Shape(interest, r, pay, y, x, jump)


# ---- the factors on which a figure rests

@dataclass
class Part:
    """A factor that multiplies the figure, or divides it where `power` is -1, carried down from `end` to `last`.

    `size` is about what it comes to there: by it an error becomes a part of the figure.
    """
    power: int
    end: int
    last: int
    factor: int
    amount: Callable
    size: int


def deferred(shape, last):
    """G(last), with A above r."""
    r, later = shape.retire, Factors(shape.plan(CD), None, nearest).later()
    return Part(1, LAST, last, S, lambda k: 0 if k < r else S - later if k == r else S, (LAST + 1 - r) * S - later)


def working(shape, power, end):
    """T(y, end)."""
    return Part(power, end, shape.entry, 0, lambda k: S, (end - shape.entry) * S)


def paying(shape, power, end):
    """Z(y, end)."""
    size = sum(shape.weight(k) for k in range(shape.entry, end)) * S
    return Part(power, end, shape.entry, 0, lambda k: shape.weight(k) * S, size)


def parts(shape, figure, method):
    r, y, x = shape.retire, shape.entry, shape.age
    annuity = working if method == CD else paying
    prorated = method in (CD, CP)
    if prorated and figure == N:
        return [deferred(shape, y), annuity(shape, -1, r)]
    # At r the two annuities of L are the same one, and at y the first is 0.
    if prorated and figure == L and y < x < r:
        return [deferred(shape, x), annuity(shape, 1, x), annuity(shape, -1, r)]
    return [deferred(shape, x)]


def salary_for(shape, pension):
    return largest_salary(shape.plan(CD), shape.rows({}), shape.member(0), pension)


def pays(shape, pension):
    """Whether a member of this shape can have the pension: after one year it is a twentieth of the pay at most."""
    member = shape.member(salary_for(shape, pension))
    return reached(pension, benefit(shape.plan(CD), shape.rows({}), member, shape.retire))


def reach(shape, pension, figure, method):
    """About how far the figure could stray, were each rounding a half the wanted way: year steps, V, the figure."""
    plan, rows, member = shape.plan(method), shape.rows({}), shape.member(salary_for(shape, pension))
    costs = rounded_costs(plan, rows, member)
    amount, value = costs.figure(figure, method, shape.age), costs.V(shape.age)
    steps = amount * sum(Fraction(part.end - part.last, 2 * part.size) for part in parts(shape, figure, method))
    # V's own half counts where the figure is a part of V. A figure that is all of V is not rounded once more.
    of_value = method in (BD, BP, CP) or (figure, method) == (L, CD)
    last = Fraction(1, 2) + (Fraction(amount, 2 * value) if of_value and amount != value else 0)
    unit = Fraction(shape.weight(shape.age), shape.weight(shape.entry)) if (figure, method) == (N, CP) else 1
    return (steps + last) / unit


# ---- rates that push a figure one way

def shift(n, d):
    """By how much n / d grows where it is rounded."""
    return (nearest(n, d) * d - n) / d


def pushing_deaths(shape, parts, sign, rng):
    """The death rates by age with which the figure grows most by its roundings, or, where `sign` is -1, falls most."""
    d = 100 * (10000 + shape.interest)
    deaths = {}
    for k in reversed(range(min(part.last for part in parts), LAST)):
        carried = [part for part in parts if part.last <= k < part.end]
        pulls = [(part.factor, sign * part.power / part.size) for part in carried]
        rates = rng.sample(range(HIGHEST_RATE), TRIED_RATES)
        deaths[k] = max(rates, key=lambda q: sum(pull * shift(f * (MILLION - q), d) for f, pull in pulls))
        for part in carried:
            part.factor = part.amount(k) + nearest(part.factor * (MILLION - deaths[k]), d)
    return deaths


# ---- the search

def farthest_salary(shape, pension, figure, method, deaths):
    """The farthest over salaries just below the one that gives the pension."""
    plan, rows = shape.plan(method), shape.rows(deaths)
    rounded, exact = Factors(plan, rows, nearest), Factors(plan, rows, Fraction)
    found = []
    most = salary_for(shape, pension)
    for salary in range(most, max(0, most - TRIED_SALARIES), -1):
        member = shape.member(salary)
        both = Costs(plan, rows, member, rounded), Costs(plan, rows, member, exact)
        if reached(pension, both[0].B(plan.retire)):
            far = stray(*both, figure, method, shape.age)
            found.append(Found(pension, figure, method, far, shape, salary, deaths))
    return farthest(found)


def pushed(shape, pension, figure, method, sign, rng):
    """How far rates that push the figure of this shape one way bring it."""
    deaths = pushing_deaths(shape, parts(shape, figure, method), sign, rng)
    return farthest_salary(shape, pension, figure, method, deaths)


def search(pension, figure, method, rounds, rng):
    """The farthest that the figure of such a pension was found to stray by this method."""
    of = pension, figure, method
    promising = sorted((shape for shape in shapes() if pays(shape, pension)), key=lambda shape: reach(shape, *of))
    tried = {(shape, sign): pushed(shape, *of, sign, rng)
             for shape, sign in product(promising[-TRIED_SHAPES:], (1, -1))}
    kept = sorted(tried, key=lambda one: tried[one].far)[-KEPT_SHAPES:]
    again = [pushed(shape, *of, sign, rng) for shape, sign in kept for _ in range(rounds)]
    return farthest([*tried.values(), *again])


def all_found(rounds=30, seed=1):
    rng = random.Random(seed)
    for pension, target in product(PENSIONS, TARGETS):
        found = search(pension, *target, rounds, rng)
        print(found.text(), found.shape, flush=True)
        wrong = accuracy_found.fault(found)
        if wrong:
            sys.exit(f'accuracy_search: {wrong}: {found}')
        yield found


if __name__ == '__main__':
    given = sys.argv[1:]
    if given == ['--write']:
        accuracy_found.write([max(both, key=Found.worked) for both in zip(accuracy_found.read(), all_found())])
    elif len(given) <= 2 and all(map(str.isdecimal, given)):
        for _ in all_found(*map(int, given)):
            pass
    else:
        sys.exit(__doc__)
