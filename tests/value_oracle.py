"""What the program value prints for a case file, RULES section 13, in Python: another program, written from the rules.

    python3 tests/value_oracle.py < FILE    prints it

The file is read and accepted by case_oracle.py, and its members are valued by oracle.py.
"""
import sys
from fractions import Fraction
from functools import lru_cache
from typing import NamedTuple

from case_oracle import Refused, walk
from oracle import Costs, Factors, Plan, S, amended, certain, nearest

ROOM = 65536


def amount(cents):
    """Rule 13.4: as in a case file. Only what is below zero has a sign."""
    dollars, rest = divmod(abs(cents), 100)
    return f'{"-" if cents < 0 else ""}{dollars}.{rest:02}'


# ---- the plan's figures: RULES section 11

def supplemental(plan, unfunded):
    """Rule 11.3, (7.8b), in whole cents."""
    return nearest(unfunded * S, certain(plan.interest, plan.years, nearest))


def exact_supplemental(plan, unfunded):
    """Rule 11.4: the same equation as a fraction, from the printed unfunded."""
    return Fraction(unfunded * S) / certain(plan.interest, plan.years, Fraction)


def supplemental_limit(unfunded):
    """Rule 11.4, how far the printed one may lie from the exact one: half a cent, a two-billionth of the unfunded."""
    return Fraction(1, 2) + Fraction(abs(unfunded), 2 * S)


class Valuation(NamedTuple):
    plan: Plan
    members: list
    figures: list

    def total(self, field):
        return sum(getattr(figures, field) for figures in self.figures)

    def unfunded(self):
        return self.total('liability') - self.plan.assets

    def lines(self):
        for member, figures in zip(self.members, self.figures):
            yield f'member={member.id},' + ','.join(map(amount, figures))
        totals = [self.total(field) for field in ('value', 'cost', 'liability')]
        yield f'total={len(self.members)},' + ','.join(map(amount, totals))
        yield f'unfunded={amount(self.unfunded())}'
        yield f'supplemental={amount(supplemental(self.plan, self.unfunded()))}'


def valued(plan, rows, members):
    """The valuation of an accepted plan, as it is amended, and its members, by the plan's method and at each member's own
    age."""
    factors = Factors(plan, rows, nearest)
    return Valuation(plan, members, [Costs(plan, rows, m, factors).figures(plan.method, m.age) for m in members])


# ---- what is printed

@lru_cache(maxsize=1)
def accepted_lines(case):
    """The lines of an accepted case file. The buffers tried with one file come one after another, so one is kept."""
    plan, amendments, rows, members = walk(case, True)
    return ended(valued(amended(plan, amendments), rows, members).lines())


def fitting(lines, room, refusal):
    """The lines; or, where they are longer than the buffer, the refusal."""
    if len(lines) > room:
        raise refusal
    return lines


def valued_lines(case, room=ROOM):
    """What valuing writes to a buffer of so many bytes. A refusal writes nothing."""
    return fitting(accepted_lines(case), room, Refused(30, 0))


def lines(case, room=ROOM):
    """What is printed of a case file: its lines or the line of its refusal, rules 13.2 and 13.3. Where that one doesn't
    fit the buffer either, it is the refusal that is answered."""
    try:
        return valued_lines(case, room)
    except Refused as refusal:
        return fitting(ended(['refused=%d,%d' % refusal.args]), room, refusal)


def ended(lines):
    return ''.join(f'{line}\n' for line in lines).encode()


if __name__ == '__main__':
    sys.stdout.buffer.write(lines(sys.stdin.buffer.read()))
