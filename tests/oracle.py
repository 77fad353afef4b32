"""The rules (docs/RULES.md) worked in Python's own integers and fractions: another program, written from them alone.

It is what the tests compare the Rattle programs with, so it follows the rules' words and letters and takes nothing
from the crates but the codes of plain values, of crates/plan, and the sharper limits, of crates/costs.

Money is in cents. Rows are a dictionary from each age to its death, withdrawal, disability and weight.
"""
from collections import Counter
from fractions import Fraction
from functools import cache, partial
from typing import NamedTuple

FIRST, LAST = 15, 120
AGES = range(FIRST, LAST + 1)
MILLION = 1000000
S = 1000000000
MOST_ASSETS = 99999999999999  # 999999999999.99
MOST_SALARY = 100000000  # 1000000.00
MOST_BENEFIT = 100000000  # 1000000.00
MOST_NUMBER = 999999999  # of an id and of a person
MOST_AMENDMENTS = 20
MOST_AMENDMENT = 999  # of an amendment's number, and of the one that it rests on
MOST_ADDITION = 100000

# How many times a year a pension is paid, and the numbers next to these.
PAYS = YEARLY, MONTHLY = 1, 12
NO_PAYS = 0, 2, 11, 13
FORMULAS = FLAT, CAREER, FINAL = 1, 2, 3
METHODS = AB, BD, BP, CD, CP = 1, 2, 3, 4, 5
FORMULA_NAMES = {FLAT: 'flat', CAREER: 'career', FINAL: 'final'}
METHOD_NAMES = {AB: 'AB', BD: 'BD', BP: 'BP', CD: 'CD', CP: 'CP'}


class Plan(NamedTuple):
    interest: int
    retire: int
    pay: int
    formula: int
    unit: int
    average: int
    method: int
    assets: int
    years: int


class Amendment(NamedTuple):
    """Rule 2.11: its number, that of the one that it rests on or 0, what it adds to the unit, and 1 where it is struck."""
    number: int
    rests: int
    add: int
    struck: int


class Member(NamedTuple):
    id: int
    person: int
    entry: int
    age: int
    salary: int


class Figures(NamedTuple):
    """Rule 9.11: B(r), V, N and L; whole cents, or fractions of a cent."""
    benefit: int
    value: Fraction
    cost: Fraction
    liability: Fraction


# ---- rows

def table(rates, weights):
    """Rows from the three rates and the weight of each age. At 120 all die (rule 3.4)."""
    rows = {k: (*rates(k), weights(k)) for k in AGES}
    rows[LAST] = (MILLION, 0, 0, weights(LAST))
    return rows


def short_table():
    return table(lambda k: (0 if k <= 64 else MILLION, 0, 0), lambda k: 1000 if k <= 63 else 1100)


def level_table():
    """No removals before 120, equal weights."""
    return table(lambda k: (0, 0, 0), lambda k: 1000)


# ---- rounding: RULES section 6

def nearest(n, d):
    """Rule 6.1, n / d to the nearest whole, and where two are as near, to the even one of them; rule 6.2, below 0 the size
    is rounded and the sign put back."""
    below = abs(n) // d
    above = below + 1
    to_below, to_above = abs(n) - below * d, above * d - abs(n)
    if to_below == to_above:
        size = below if below % 2 == 0 else above
    else:
        size = below if to_below < to_above else above
    return -size if n < 0 else size


# ---- acceptance: the number of a refusal of RULES section 12, or 0 for none

def outside(value, least, most, number):
    return 0 if least <= value <= most else number


def most_unit(formula):
    """Rule 2.5: the end of a unit's range."""
    return 100000 if formula == FLAT else 500


def refusals_of_head(plan):
    """Of the plan's own lines, in their order: rules 2.2, 2.3, 2.10 and 2.4 to 2.9, and rule 5.4 for a code. The unit is
    the heading's, whatever the amendments add to it."""
    yield outside(plan.interest, 0, 2000, 11)
    yield outside(plan.retire, 50, 75, 11)
    yield 0 if plan.pay in PAYS else 11
    yield 0 if plan.formula in FORMULAS else 10
    yield outside(plan.unit, 0, most_unit(plan.formula), 11)
    yield outside(plan.average, 1, 10, 12) if plan.formula == FINAL else outside(plan.average, 0, 0, 12)
    yield 0 if plan.method in METHODS else 10
    yield outside(plan.assets, 0, MOST_ASSETS, 11)
    yield outside(plan.years, 1, 40, 11)


def refusal_of_row(rows, k):
    """Of the row of age k, rules 3.2, 3.4 and 3.5: the least number of those that it gives."""
    death, withdrawal, disability, weight = rows[k]
    if any(outside(rate, 0, MILLION, 11) for rate in (death, withdrawal, disability)):
        return 11
    if k == LAST and death != MILLION:
        return 14
    falling = k > FIRST and weight < rows[k - 1][3]
    return 15 if falling else outside(weight, 1000, 100000, 15)


def refusals_of_amendment(one, before):
    """Rule 2.11, of an amendment after these, in the order of rule 12.4."""
    yield outside(one.number, 1, MOST_AMENDMENT, 11)
    yield outside(one.rests, 0, MOST_AMENDMENT, 11)
    yield outside(one.add, 0, MOST_ADDITION, 11)
    yield outside(one.struck, 0, 1, 11)
    rises = not before or one.number > before[-1].number
    yield 0 if rises and len(before) < MOST_AMENDMENTS else 53
    yield 0 if one.rests == 0 or one.rests in [other.number for other in before] else 54


def refusal_of_unit(plan, amendments):
    """Rule 2.13, after the last amendment of a list: the range of the unit that is valued."""
    return outside(unit_valued(plan, amendments), 0, most_unit(plan.formula), 55)


def refusals_of_amendments(plan, amendments):
    """Rule 5.6, of a list in plain values."""
    for place, one in enumerate(amendments):
        yield from refusals_of_amendment(one, amendments[:place])
    if amendments:
        yield refusal_of_unit(plan, amendments)


def refusal_of_plan(plan, rows, amendments=()):
    """Of the plan, its amendments and its rows, in the order of their lines (rules 5.3 and 5.6)."""
    return (first(refusals_of_head(plan)) or first(refusals_of_amendments(plan, amendments))
            or first(refusal_of_row(rows, k) for k in AGES))


def refusals_of_member(plan, rows, member, id_before):
    """Rules 4.2, 4.7, 4.3 to 4.5 and 7.8, in the order of rule 12.4, under an accepted plan, as it is amended. The benefit
    is worked only where the others are 0. Rule 7.10 is for all lines of a person: MembersBefore has it."""
    yield outside(member.id, id_before + 1, MOST_NUMBER, 21)
    yield outside(member.person, 1, MOST_NUMBER, 28)
    yield outside(member.entry, FIRST, plan.retire - 1, 22)
    yield outside(member.age, member.entry, plan.retire, 23)
    yield outside(member.salary, 0, MOST_SALARY, 24)
    yield outside(benefit(plan, rows, member, plan.retire), 0, MOST_BENEFIT, 25)


def refusal_of_member(plan, rows, member, id_before=0):
    """Rule 5.5: nobody stands before a lone member, and 0 is the id of nobody. Its benefit is all that its person has."""
    return first(refusals_of_member(plan, rows, member, id_before))


class MembersBefore:
    """What counts of the members before one (rule 12.4), under an accepted plan, as it is amended: the last id, and what
    each person's benefits come to, each B(r) in whole cents. How many they are is for others to ask."""

    def __init__(self, plan, rows):
        self.plan, self.rows, self.id, self.benefits = plan, rows, 0, Counter()

    def refusal(self, member):
        """Of a member after these, which is one of them from then on. After a refusal no other is asked for."""
        number = refusal_of_member(self.plan, self.rows, member, self.id)
        if number:
            return number
        self.id = member.id
        self.benefits[member.person] += benefit(self.plan, self.rows, member, self.plan.retire)
        return outside(self.benefits[member.person], 0, MOST_BENEFIT, 29)


def first(refusals):
    return next((number for number in refusals if number), 0)


def refusal(plan, rows, member, amendments=()):
    """Of a plan, its amendments and a lone member handed in as plain values: rules 5.3 to 5.6."""
    return refusal_of_plan(plan, rows, amendments) or refusal_of_member(amended(plan, amendments), rows, member)


# ---- the unit: rules 2.12 and 2.13, for a list in which each rests on an earlier one

def in_force(one, amendments):
    """Rule 2.12: it isn't struck, and if it rests on another, that one is in force."""
    return one.struck == 0 and (one.rests == 0 or in_force(rested_on(one, amendments), amendments))


def rested_on(one, amendments):
    base, = [other for other in amendments if other.number == one.rests]
    return base


def unit_valued(plan, amendments):
    """Rule 2.13: the heading's unit, and what the amendments in force add to it."""
    return plan.unit + sum(one.add for one in amendments if in_force(one, amendments))


def amended(plan, amendments):
    """The plan as it is valued: all that follows is of this one, and knows no other unit."""
    return plan._replace(unit=unit_valued(plan, amendments))


# ---- pay and benefit: RULES section 7

def pay(rows, member, ages):
    """Rule 7.2: the pay of these ages, each s × W(j) / W(x), summed and exact."""
    return Fraction(member.salary * sum(rows[j][3] for j in ages), rows[member.age][3])


def exact_benefit(plan, rows, member, k):
    """Rules 7.3 to 7.6: B(k) before its one rounding."""
    u, n, y = plan.unit, plan.average, member.entry
    if k == y:
        return Fraction(0)
    if plan.formula == FLAT:
        return Fraction(u * (k - y))
    if plan.formula == CAREER:
        return Fraction(u, 10000) * pay(rows, member, range(y, k))
    last = range(max(y, k - n), k)
    return Fraction(u, 10000) * (k - y) * pay(rows, member, last) / len(last)


def benefit(plan, rows, member, k):
    """Rule 7.7: B(k), in whole cents."""
    B = exact_benefit(plan, rows, member, k)
    return nearest(B.numerator, B.denominator)


# ---- factors: RULES section 8

class Factors:
    """The factors of a plan's interest, retirement age and pay and of its rows, in billionths: rules 8.2 to 8.7.

    `quotient` says what a division gives: `nearest` for the rounded factors, `Fraction` for the exact ones. Each letter
    gives its factors as a dictionary by age, from 15 up to the age that it starts from, and works them once.
    """

    def __init__(self, plan, rows, quotient):
        self.i, self.r, self.pay, self.rows, self.quotient = plan.interest, plan.retire, plan.pay, rows, quotient
        self.G, self.T, self.Z = cache(self.G), cache(self.T), cache(self.Z)

    def W(self, k):
        return self.rows[k][3]

    def P(self, k):
        """Rule 8.2, staying, of rates for one cause alone. It is in whole millionths whether the factors are exact or not."""
        death, withdrawal, disability, _ = self.rows[k]
        if k >= self.r:
            return MILLION - death
        able = nearest((MILLION - death) * (MILLION - disability), MILLION)
        return nearest(able * (MILLION - withdrawal), MILLION)

    def step(self, k, factor):
        """Rule 8.3: the factor of age k+1 as it counts at age k."""
        return self.quotient(factor * self.P(k), 100 * (10000 + self.i))

    def down(self, end, start, amount):
        """`start` at the age `end`, and at each age below it its amount and the step of what follows."""
        factors = {end: start}
        for k in reversed(range(FIRST, end)):
            factors[k] = amount(k) + self.step(k, factors[k + 1])
        return factors

    def A(self):
        return self.down(LAST, S, lambda k: S)

    def later(self):
        """By how much G is below A at r, for what is paid later than at a year's start: monthly 11/24, and rounded
        458333333 (rules 8.5 and 10.1)."""
        return self.quotient(11 * S, 24) if self.pay == MONTHLY else 0

    def G(self):
        return self.down(self.r, self.A()[self.r] - self.later(), lambda k: 0)

    def T(self, e):
        return self.down(e, 0, lambda k: S)

    def Z(self, e):
        return self.down(e, 0, lambda k: self.W(k) * S)


def certain(i, m, quotient):
    """Rule 8.8: C, like T over m years in which nobody leaves."""
    c = 0
    for _ in range(m):
        c = S + quotient(c * MILLION, 100 * (10000 + i))
    return c


# ---- figures: RULES section 9

class Costs:
    """V, N and L of an accepted member at any age k from y through r, by any of the five methods.

    They are the rounded ones of rules 9.1 to 9.9 or the exact fractions of rule 10.1, as the factors are.
    """

    def __init__(self, plan, rows, member, factors):
        self.plan, self.rows, self.member, self.factors = plan, rows, member, factors
        self.r, self.y = plan.retire, member.entry
        self.G, self.T, self.Z, self.W = factors.G(), factors.T, factors.Z, factors.W
        self.quotient = factors.quotient
        self.B = cache(lambda k: benefit(plan, rows, member, k))

    def weights(self, start, end):
        """The weights of the ages from `start` to the one before `end`, summed."""
        return sum(self.W(j) for j in range(start, end))

    def V(self, k):
        return self.quotient(self.B(self.r) * self.G[k], S)

    def N(self, method, k):
        r, y, quotient = self.r, self.y, self.quotient
        if k == r:
            return 0
        if method == AB:
            return quotient((self.B(k + 1) - self.B(k)) * self.G[k], S)
        if method == BD:
            return quotient(self.V(k), r - y)
        if method == BP:
            return quotient(self.V(k) * self.W(k), self.weights(y, r))
        if method == CD:
            return quotient(self.B(r) * self.G[y], self.T(r)[y])
        return quotient(self.V(y) * self.W(k) * S, self.Z(r)[y])

    def L(self, method, k):
        r, y, quotient = self.r, self.y, self.quotient
        if method == AB:
            return quotient(self.B(k) * self.G[k], S)
        if method == BD:
            return quotient(self.V(k) * (k - y), r - y)
        if method == BP:
            return quotient(self.V(k) * self.weights(y, k), self.weights(y, r))
        if method == CD:
            return quotient(self.V(k) * self.T(k)[y], self.T(r)[y])
        return quotient(self.V(k) * self.Z(k)[y], self.Z(r)[y])

    def figure(self, figure, method, k):
        return {V: self.V, N: partial(self.N, method), L: partial(self.L, method)}[figure](k)

    def figures(self, method, k):
        return Figures(self.B(self.r), self.V(k), self.N(method, k), self.L(method, k))

    def future_cost_form(self, method, k):
        """Rule 10.7, what the benefits are worth beyond the normal costs to come: L again, where the factors are exact."""
        future, staying = 0, 1
        for j in range(k, self.r):
            future += self.N(method, j) * staying
            staying = self.factors.step(j, staying)
        return self.V(k) - future


def rounded_costs(plan, rows, member):
    return Costs(plan, rows, member, Factors(plan, rows, nearest))


def exact_costs(plan, rows, member):
    return Costs(plan, rows, member, Factors(plan, rows, Fraction))


# ---- how far the printed figures stray from the exact ones

# Rule 10.9.
LIMIT = 15
FIGURES = V, N, L = 'V', 'N', 'L'
# The sharper limits are not among the rules: crates/costs/specs/Demand3.antt states them. Each is what the last roundings
# can add, in cents, and so many cents for each S cents of the benefit at retirement. V is the same by every method.
SHARP = {
    V: dict.fromkeys(METHODS, ('0.5', '53')),
    N: {AB: ('0.5', '53'), BD: ('1', '53'), BP: ('1', '53'), CD: ('0.5', '88.5'), CP: ('1', '53.0355')},
    L: {AB: ('0.5', '53'), BD: ('1', '53'), BP: ('1', '53'), CD: ('1', '124'), CP: ('1', '53.071')},
}


def sharp_limit(figure, method, benefit):
    """How far the figure can stray for this B(r); of the N of CP in W(k) / W(y) cents."""
    last, growth = map(Fraction, SHARP[figure][method])
    return last + growth * Fraction(benefit, S)


def stray(rounded, exact, figure, method, k):
    """How far a figure is from the exact one, in cents; for the N of CP in W(k) / W(y) cents, as its limits are."""
    unit = Fraction(exact.W(k), exact.W(exact.y)) if (figure, method) == (N, CP) else 1
    return abs(rounded.figure(figure, method, k) - exact.figure(figure, method, k)) / unit
