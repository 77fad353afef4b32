"""The annuity factors of RULES section 8, as tests/oracle.py works them, held to crates/test_annuity_factors.

    python3 tests/annuity_factors.py --write    writes stdin and stdout of crates/test_annuity_factors
    python3 tests/annuity_factors.py --check    builds and runs crates/test_annuity_factors on generated tables and compares

A case is the interest i, the age r, how often a year a pension is paid, the age e, the payments m, and the rows. It goes
to the program as bytes, a number's little end first, and the program answers with a line for each of A(15..120),
G(15..r), T(15..e,e), Z(15..e,e), C(m). It takes any pay that a byte holds, and all but 12 as 1.
"""
import random
import struct
import sys
from itertools import product
from pathlib import Path
from types import SimpleNamespace

import commands
from oracle import (AGES, FIRST, LAST, MILLION, MONTHLY, NO_PAYS, PAYS, YEARLY, Factors, certain, level_table, nearest,
                    short_table, table)

ROOT = Path(__file__).parent.parent
CRATE = ROOT / 'crates' / 'test_annuity_factors'
PROGRAM = 'test_annuity_factors'


class Case:
    """Rows are a dictionary from each age to its death, withdrawal, disability and weight."""

    def __init__(self, i, r, pay, e, m, rows):
        self.i, self.r, self.pay, self.e, self.m, self.rows = i, r, pay, e, m, rows

    def bytes(self):
        return struct.pack('<HBBBB', self.i, self.r, self.pay, self.e, self.m) + b''.join(
            struct.pack('<4I', *self.rows[k]) for k in AGES)

    def lines(self):
        """The lines that the program must write."""
        of = Factors(SimpleNamespace(interest=self.i, retire=self.r, pay=self.pay), self.rows, nearest)
        factors = dict(A=of.A(), G=of.G(), T=of.T(self.e), Z=of.Z(self.e), C={0: certain(self.i, self.m, nearest)})
        return [' '.join([letter] + [str(by_age[k]) for k in sorted(by_age)]) for letter, by_age in factors.items()]


# ---- tables

def any_rates(rng, most=MILLION):
    """Each for itself, whatever they sum to."""
    return tuple(rng.randint(0, most) for _ in range(3))


def one_takes_all(rng):
    """One cause alone leaves nobody; the others are above 0 as a rule."""
    rates = list(any_rates(rng))
    rates[rng.randrange(3)] = MILLION
    return tuple(rates)


def kinds_of_rates(rng):
    """How a table's three rates are drawn. Where half stay and there is no interest, steps come to exact halves."""
    single = set(rng.sample(AGES, 6))

    def light(k):
        return rng.randint(0, 2000), rng.randint(0, 60000), rng.randint(0, 3000)

    def heavy(k):
        return any_rates(rng)

    return {
        'none': lambda k: (0, 0, 0),
        'half die': lambda k: (MILLION // 2, 0, 0),
        'light': light,
        'heavy': heavy,
        'light, all leave at single ages': lambda k: one_takes_all(rng) if k in single else light(k),
        'heavy, all die at single ages': lambda k: (MILLION, 0, 0) if k in single else heavy(k),
        'all leave': lambda k: one_takes_all(rng),
        'all die': lambda k: (MILLION, 0, 0),
    }


def kinds_of_weights(rng):
    rising = sorted(rng.randint(1000, 100000) for _ in AGES)
    return {'least': lambda k: 1000, 'most': lambda k: 100000, 'rising': lambda k: rising[k - FIRST]}


def generated(rng):
    """Each kind of rates with each kind of weights and each pay, at both ends of the ranges of i and r and between them;
    and other pays, each of which counts as yearly."""
    interests = [lambda: 0, lambda: 2000, lambda: rng.randint(0, 2000)]
    retires = [lambda: 50, lambda: 75, lambda: rng.randint(50, 75)]
    cases = []
    for interest, retire, pay in product(interests, retires, PAYS):
        for rates, weights in product(kinds_of_rates(rng).values(), kinds_of_weights(rng).values()):
            r = retire()
            e = rng.choice([FIRST, r, rng.randint(FIRST, r)])
            m = rng.choice([0, 1, 40, rng.randint(0, 40)])
            cases.append(Case(interest(), r, pay, e, m, table(rates, weights)))
    return cases + [Case(1000, 65, pay, 65, 2, short_table()) for pay in (*NO_PAYS, 255)]


def skipped():
    """Cases of which one number is just out of the range that the annuity functions take."""
    cases = [Case(*numbers, short_table())
             for numbers in [(2001, 65, 1, 65, 2), (1000, 14, 1, 15, 2), (1000, 121, 12, 65, 2), (1000, 65, 1, 14, 2),
                             (1000, 65, 12, 121, 2), (1000, 65, 12, 65, 41)]]
    for row in [(MILLION + 1, 0, 0, 1000), (0, MILLION + 1, 0, 1000), (0, 0, MILLION + 1, 1000), (2**32 - 1, 1, 0, 1000),
                (0, 0, 0, 100001)]:
        for age in (FIRST, 64, LAST):
            cases.append(Case(1000, 65, YEARLY, 65, 2, {**short_table(), age: row}))
    return cases


def stored():
    """The cases of the gate: the short table with each pay, no removals at no interest, heavy removals at the highest
    interest."""
    rng = random.Random(1)
    heavy, rising = kinds_of_rates(rng)['heavy'], kinds_of_weights(rng)['rising']
    return [
        Case(1000, 65, YEARLY, 65, 2, short_table()),
        Case(1000, 65, MONTHLY, 65, 2, short_table()),
        Case(0, 75, MONTHLY, 60, 40, level_table()),
        Case(2000, 50, YEARLY, 50, 17, table(heavy, rising)),
    ]


def answers(cases):
    """The lines that the program writes for each of these, which it doesn't skip."""
    given = b''.join(case.bytes() for case in cases)
    lines = commands.said(PROGRAM, given).decode().splitlines()
    if len(lines) != 5 * len(cases):
        sys.exit(f'annuity_factors: the program writes {len(lines)} lines for {len(cases)} cases')
    return [lines[at:at + 5] for at in range(0, len(lines), 5)]


def text(lines):
    return ''.join(f'{line}\n' for line in lines)


def stored_files():
    cases = stored()
    return {
        CRATE / 'stdin': b''.join(case.bytes() for case in cases),
        CRATE / 'stdout': text(line for case in cases for line in case.lines()).encode(),
    }


def check():
    good, bad = stored() + generated(random.Random(2)), skipped()
    expected = [(f'case {n}', line) for n, case in enumerate(good) for line in case.lines()]
    expected += [(f'skipped case {n}', 'skipped') for n in range(len(bad))]
    # The last case lacks a byte, so that it is no case.
    given = b''.join(case.bytes() for case in good + bad + good[:1])[:-1]
    said = commands.said(PROGRAM, given).decode()
    for (name, line), answer in zip(expected, said.split('\n')):
        if line != answer:
            sys.exit(f'annuity_factors: {name}:\n  {line}\nis expected, and the program writes\n  {answer}')
    if said != text(line for _, line in expected):
        sys.exit('annuity_factors: the program writes too many lines, or too few')
    numbers = sum(line.count(' ') for _, line in expected)
    print(f'annuity_factors: {numbers} numbers of {len(good)} tables agree; {len(bad)} more tables are skipped')


if __name__ == '__main__':
    commands.run('annuity_factors', __doc__, stored_files, check)
