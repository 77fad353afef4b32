"""Staying, from rates for one cause alone (rule 8.2): the P(k) that the compiled annuities rest on.

    python3 tests/staying.py --check

The program test_annuity_factors shows it. At no interest, paid yearly, and where everybody dies at the next age, its G(k)
is a thousand times P(k) for an age k below r, and its A(k) less S the same for an age from r on. So P is read off for
rows at every edge, for rows whose products end in exactly half a millionth, and for drawn ones. What P must be is worked
here in fractions, with Python's own round of them, which takes a half to the even one of two; tests/oracle.py is held to
it too.
"""
import random
import sys
from collections import Counter
from fractions import Fraction
from itertools import product
from types import SimpleNamespace

from annuity_factors import Case, answers, any_rates, one_takes_all
from oracle import FIRST, MILLION, S, YEARLY, Factors, nearest, table

AGE = 60
EDGES = 0, 1, 499999, 500000, 500001, 999999, MILLION


# ---- the rule

def able(death, disability):
    """a, before its rounding: in millionths, those whom neither cause takes."""
    return (1 - Fraction(death, MILLION)) * (1 - Fraction(disability, MILLION)) * MILLION


def serving(a, withdrawal):
    """Staying below r, before its rounding."""
    return a * (1 - Fraction(withdrawal, MILLION))


def staying(death, withdrawal, disability):
    """Below r, and from r on."""
    return round(serving(round(able(death, disability)), withdrawal)), MILLION - death


# ---- rows

def odd(rng, most):
    return rng.randrange(1, most, 2)


def with_a_half(rng):
    """a lies at a half: death × disability is an odd number of half millions."""
    return 500 * odd(rng, 2000), rng.randint(0, MILLION), 1000 * odd(rng, 1000)


def rates(rng):
    yield from product(EDGES, repeat=3)
    yield from ((400000, 300000, 300001), (1000, 1000, 500))  # rules 14.19 and 14.20
    for _ in range(500):
        yield any_rates(rng)
        yield any_rates(rng, 60000)
        yield one_takes_all(rng)
        yield with_a_half(rng)
        # Half of those withdraw of whom there is an odd number.
        death, _, disability = any_rates(rng)
        yield death, MILLION // 2, disability


def kinds(death, withdrawal, disability):
    """What a row tries: its halves, with the number below them even or odd, and its other edges."""
    a = able(death, disability)
    for name, number in (('a', a), ('staying', serving(round(a), withdrawal))):
        if number.denominator == 2:
            yield name, 'odd below' if number // 1 % 2 else 'even below'
    if death + withdrawal + disability > MILLION:
        yield 'sum', 'over a million'
    for name, rate in (('death', death), ('withdrawal', withdrawal), ('disability', disability)):
        if rate == MILLION:
            yield name, 'alone' if death + withdrawal + disability == MILLION else 'with others'
    if not death + withdrawal + disability:
        yield 'no', 'rates'
    one = nearest((MILLION - death) * (MILLION - withdrawal) * (MILLION - disability), MILLION**2)
    if one != staying(death, withdrawal, disability)[0]:
        yield 'two roundings', 'are not one'
    if staying(death, disability, withdrawal) != staying(death, withdrawal, disability):
        yield 'withdrawal and disability', 'are not alike'


KINDS = {*product(('a', 'staying'), ('even below', 'odd below')),
         *product(('death', 'withdrawal', 'disability'), ('alone', 'with others')), ('sum', 'over a million'),
         ('no', 'rates'), ('two roundings', 'are not one'), ('withdrawal and disability', 'are not alike')}


# ---- comparing

def cases(row):
    """With r an age later, and at the row's age."""
    dying = table(lambda k: (MILLION, 0, 0), lambda k: 1000)
    return [Case(0, r, YEARLY, FIRST, 0, {**dying, AGE: (*row, 1000)}) for r in (AGE + 1, AGE)]


def shown(below, from_r):
    """The two P that two answers of the program show, each a line for A, G, T, Z and C."""
    factors = [dict(zip('AGTZC', (list(map(int, line.split()[1:])) for line in lines))) for lines in (below, from_r)]
    thousands = factors[0]['G'][AGE - FIRST], factors[1]['A'][AGE - FIRST] - S
    assert all(number % 1000 == 0 for number in thousands)
    return tuple(number // 1000 for number in thousands)


def both_answers(rows):
    said = answers([case for row in rows for case in cases(row)])
    return zip(said[::2], said[1::2])


def oracle(row):
    return tuple(Factors(SimpleNamespace(interest=0, retire=r, pay=YEARLY), {AGE: (*row, 1000)}, nearest).P(AGE)
                 for r in (AGE + 1, AGE))


def check():
    rows = list(rates(random.Random(8)))
    tried = Counter()
    for row, said in zip(rows, both_answers(rows)):
        if not staying(*row) == shown(*said) == oracle(row):
            sys.exit(f'staying: of {row} stay {staying(*row)}; the program has {shown(*said)}, the oracle {oracle(row)}')
        tried.update(kinds(*row))
    if set(tried) != KINDS:
        sys.exit(f'staying: the rows try {sorted(tried)}')
    halves = sum(count for (_, kind), count in tried.items() if kind.endswith(' below'))
    print(f'staying: below r and from r on, of {len(rows)} rows; {halves} halves; {tried["sum", "over a million"]} rows sum '
          f'to over a million; in {tried["two roundings", "are not one"]} two roundings are not one')


if __name__ == '__main__':
    if sys.argv[1:] != ['--check']:
        sys.exit(__doc__)
    check()
