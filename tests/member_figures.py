"""The figures of lone members, handed in as plain values: the program test_member_figures held to tests/oracle.py.

    python3 tests/member_figures.py --write    writes stdin and stdout of crates/test_member_figures
    python3 tests/member_figures.py --check    builds and runs crates/test_member_figures on generated members and compares

A case is a plan, its amendments, its rows and a member. It goes to the program as bytes, a number's little end first, with
room for 22 amendments after their count, and the program answers with three lines: what accepting the plan says, what
accepting the member says, and its figures in cents, or the number of a refusal. The check also holds each V, N and L to
the limits on their distance from the exact fractions (N and L: rule 10.9), each exact L to its future-cost form (rule
10.8), and each benefit to that of the age before (rule 7.9).
"""
import random
import struct
import sys
from fractions import Fraction
from itertools import product
from pathlib import Path
from typing import NamedTuple

import accuracy_found
import commands
from accuracy_found import TARGETS, named
from accuracy_search import largest_salary
from amendments import chain, drawn_amended, drawn_list, side_by_side, spoiled
from annuity_factors import any_rates, one_takes_all
from oracle import (AB, AGES, CAREER, CD, CP, FIGURES, FINAL, FIRST, FLAT, FORMULAS, LAST, LIMIT, METHOD_NAMES, METHODS,
                    MILLION, MONTHLY, MOST_ADDITION, MOST_AMENDMENT, MOST_AMENDMENTS, MOST_ASSETS, MOST_BENEFIT,
                    MOST_NUMBER, MOST_SALARY, NO_PAYS, PAYS, S, YEARLY, Amendment, Factors, Member, Plan, amended,
                    benefit, exact_benefit, exact_costs, level_table, most_unit, nearest, refusal, refusal_of_plan,
                    rounded_costs, sharp_limit, short_table, stray, table)

ROOT = Path(__file__).parent.parent
CRATE = ROOT / 'crates' / 'test_member_figures'
PROGRAM = 'test_member_figures'
OF_PLAN = {10, 11, 12, 14, 15, 53, 54, 55}
REFUSALS = OF_PLAN | {21, 22, 23, 24, 25, 28}
# How many amendments the program has room for; and what stands where a list has ended: amendments that would be in force,
# numbers that no amendment can have, and zeros.
PLACES = 22
UNUSED = [Amendment(MOST_AMENDMENT, 0, 1, 0), Amendment(*[2**64 - 1] * 4), Amendment(0, 0, 0, 0)] * PLACES


class Case(NamedTuple):
    plan: Plan
    rows: dict
    member: Member
    amendments: tuple = ()

    def bytes(self):
        return self.packed(PLACES)

    def packed(self, places=0):
        """With so many places for the amendments at least."""
        count = len(self.amendments)
        listed = [*self.amendments, *UNUSED[:max(0, places - count)]]
        return b''.join([struct.pack('<9QQ', *self.plan, count), *(struct.pack('<4Q', *one) for one in listed),
                         *(struct.pack('<4I', *self.rows[k]) for k in AGES), struct.pack('<5Q', *self.member)])

    def valued(self):
        """The plan with the unit that is valued, the rows and the member, where the list is accepted."""
        return amended(self.plan, self.amendments), self.rows, self.member

    def figures(self):
        return rounded_costs(*self.valued()).figures(self.plan.method, self.member.age)

    def lines(self):
        """The lines that the program must write: of the plan, of the member, and of its figures."""
        of_plan, of_member = refusal_of_plan(self.plan, self.rows, self.amendments), refusal(*self)
        yield f'refused={of_plan},0' if of_plan else 'accepted'
        yield f'refused={of_member},0' if of_member else 'accepted'
        yield f'refused={of_member},0' if of_member else 'figures=' + ','.join(map(str, self.figures()))


# ---- the cases worked by hand: RULES section 14

def dollars(text):
    return int(text.replace('.', ''))


# The short case paid yearly and monthly, rules 14.2 to 14.5 and 14.22: V at 64 and at 63, N and L at 64 by each method,
# and the N of CP at 63.
SHORT_CASE = {
    YEARLY: ('181.82', '165.29', dict(
        AB=('90.91', '90.91'), BD=('90.91', '90.91'), BP=('95.24', '86.58'), CD=('86.58', '95.24'),
        CP=('90.91', '90.91')), '82.64'),
    MONTHLY: ('98.48', '89.53', dict(
        AB=('49.24', '49.24'), BD=('49.24', '49.24'), BP=('51.58', '46.90'), CD=('46.90', '51.58'),
        CP=('49.24', '49.24')), '44.76'),
}


def worked():
    """Each case with what the rules say of it: some of its figures, or its refusal."""
    plan = Plan(1000, 65, YEARLY, FLAT, 10000, 0, CD, 2000, 2)
    for pay, (at_64, at_63, said, cost_of_cp) in SHORT_CASE.items():
        for method, name in METHOD_NAMES.items():
            case = Case(plan._replace(pay=pay, method=method), short_table(), Member(7, 1, 63, 64, 0))
            cost, liability = said[name]
            yield case, dict(benefit='200.00', value=at_64, cost=cost, liability=liability)
            cost = dict(cost=cost_of_cp) if method == CP else {}
            yield case._replace(member=Member(7, 1, 63, 63, 0)), dict(value=at_63, liability='0.00', **cost)
    yield from worked_benefits(plan)
    yield from worked_level()
    yield from worked_bounds(plan)
    yield from worked_pays(plan)
    yield from worked_persons(plan)
    yield from worked_amendments()


def worked_benefits(plan):
    career = Case(plan._replace(formula=CAREER, unit=200), short_table(), Member(7, 1, 63, 64, dollars('10000.00')))
    yield career, dict(benefit='381.82')
    final = plan._replace(formula=FINAL, unit=200, average=2)
    yield career._replace(plan=final), dict(benefit='381.82')
    # Only AB's figures show the B(64) of this plan.
    yield career._replace(plan=final._replace(method=AB)), dict(benefit='381.82')
    yield career._replace(plan=final._replace(average=1)), dict(benefit='400.00')


def worked_level():
    for method in METHODS:
        case = Case(Plan(0, 65, YEARLY, FLAT, 10000, 0, method, 0, 1), level_table(), Member(1, 1, 35, 45, 0))
        yield case, dict(value='168000.00', cost='5600.00', liability='56000.00')


def worked_bounds(plan):
    for retire, number in ((49, 11), (50, 0), (75, 0), (76, 11)):
        yield Case(plan._replace(retire=retire), level_table(), Member(7, 1, 40, 45, 0)), number or {}
    for retire, answer in ((65, dict(benefit='50000.00', value='13363.59')), (64, dict(benefit='49000.00', value='75727.27'))):
        crowded = {**short_table(), 64: (400000, 300000, 300001, 1100)}
        yield Case(plan._replace(retire=retire, unit=100000), crowded, Member(7, 1, FIRST, 64, 0)), answer
    yield Case(plan, {**short_table(), FIRST: (0, 0, 0, 999)}, Member(7, 1, 63, 64, 0)), 15
    for service, answer in ((20, dict(benefit='1000000.00')), (21, 25)):
        final = plan._replace(formula=FINAL, unit=500, average=1)
        yield Case(final, level_table(), Member(7, 1, 65 - service, 60, MOST_SALARY)), answer
    for salary, answer in (('666666.67', dict(benefit='1000000.00')), ('666666.68', 25)):
        final = plan._replace(retire=60, formula=FINAL, unit=500, average=1)
        yield Case(final, short_table(), Member(7, 1, 30, 40, dollars(salary))), answer


def worked_pays(plan):
    """Rules 2.10 and 14.23: a wrong pay, alone and before a wrong formula."""
    for pay in NO_PAYS:
        for others in (dict(), dict(formula=4)):
            yield Case(plan._replace(pay=pay, **others), short_table(), Member(7, 1, 63, 64, 0)), 11


def worked_persons(plan):
    """Rules 4.7, 5.5, 12.4 and 14.25: a person's number at its bounds and beyond them, alone and beside other faults: 28
    comes after 21 and before 22. A lone member may have all that a person may."""
    final = plan._replace(retire=60, formula=FINAL, unit=500, average=1)
    case = Case(final, short_table(), Member(7, 1, 30, 40, dollars('666666.67')))

    def of(**fields):
        return case._replace(member=case.member._replace(**fields))

    for person in (1, 999999999):
        yield of(person=person), dict(benefit='1000000.00')
        yield of(person=person, salary=dollars('666666.68')), 25
    for person in (0, 1000000000, 2**32 + 1, 2**64 - 1):
        yield of(person=person), 28
        yield of(id=0, person=person), 21
        for other in (dict(entry=14), dict(age=61), dict(salary=MOST_SALARY + 1), dict(salary=dollars('666666.68'))):
            yield of(person=person, **other), 28


def listed(*amendments, **terms):
    """The short case with such a list, and other terms."""
    case, _ = next(worked())
    plan = case.plan._replace(method=CD, **terms)
    return case._replace(plan=plan, amendments=tuple(Amendment(*one) for one in amendments))


def worked_amendments():
    """Rules 2.11 to 2.13 and 5.6: the short case once more, where the heading's unit and the additions in force come to the
    10000 of it; and each refusal of a list."""
    said = dict(benefit='200.00', value='181.82', cost='86.58', liability='95.24')
    yield listed((1, 0, 5000, 0), (2, 1, 1000, 0), unit=4000), said
    yield listed((1, 0, 5000, 1), (2, 1, 1000, 0), (3, 0, 6000, 0), (4, 2, 1, 0), unit=4000), said
    yield listed((998, 0, 10000, 0), (999, 998, 100000, 1), unit=0), said
    yield listed((1, 0, 100000, 1), (2, 1, 100000, 0), (9, 2, 100000, 0)), said
    yield listed(*chain([500] * MOST_AMENDMENTS), unit=0), said
    yield listed(*chain([500] * 10 + [100000] * 10, struck=[10]), unit=5000), said
    yield listed(*side_by_side([500] * MOST_AMENDMENTS), unit=0), said
    # The largest unit, and 1 more.
    for add, answer in ((90000, {}), (90001, 55)):
        yield listed((1, 0, add, 0), (2, 1, 0, 1), (3, 2, 100000, 0)), answer
    for formula, average in ((CAREER, 0), (FINAL, 1)):
        for add, answer in ((300, {}), (301, 55)):
            yield listed((1, 0, add, 0), formula=formula, average=average, unit=200), answer
    yield listed((1, 0, 90001, 0), (1, 1, 0, 2)), 11
    yield listed((1, 0, 90001, 0), (1, 9, 0, 0)), 53
    yield listed((1, 0, 90001, 0), (2, 2, 0, 0)), 54
    yield listed(*chain([0] * (MOST_AMENDMENTS + 1))), 53
    # What the additions alone make too large, by the bound of rule 14.17.
    for salary, answer in (('666666.67', dict(benefit='1000000.00')), ('666666.68', 25)):
        for struck, said in ((0, answer), (1, {})):
            case = listed((1, 0, 60, struck), (2, 1, 40, 0), retire=60, formula=FINAL, average=1, unit=400)
            yield case._replace(member=Member(7, 1, 30, 40, dollars(salary))), said


def worked_lists():
    """More of what is refused of a list, and which refusal comes first beside those of other parts."""
    yield from refused_fields()
    for wrong in ((5, 0, 0, 0), (4, 0, 0, 0), (1, 1, 0, 0)):
        yield listed((5, 0, 100000, 0), wrong), 53
    yield listed((2, 0, 0, 0), (9, 0, 0, 1), (5, 2, 0, 0)), 53
    for rests in (1, 4, 6, 7, 999):
        yield listed((5, 0, 100000, 0), (6, rests, 0, 0), (7, 0, 0, 0)), 54
    twenty = chain([0] * MOST_AMENDMENTS)
    yield listed(*twenty), {}
    for more in ([(21, 0, 0, 0)], [(20, 0, 0, 0)], [(21, 21, 0, 0)], [(21, 0, 100000, 0)], [(21, 0, 0, 0), (22, 0, 0, 0)],
                 [(21, 0, 0, 0), (22, 0, 0, 2)], [(21, 0, 0, 1), (1, 0, 0, 0)]):
        yield listed(*twenty, *more), 53
    for last in ((0, 0, 0, 0), (21, 1000, 0, 0), (21, 0, 100001, 0), (21, 0, 0, 2), (20, 99, 0, 2)):
        yield listed(*twenty, last), 11
    yield from beside_others()


def refused_fields():
    """A field beyond its range, also where 32 bits of it are within; alone, and between two others that are wrong."""
    top = 2**64 - 1
    for wrong in ((0, 0, 0, 0), (1000, 0, 0, 0), (7, 1000, 0, 0), (7, 0, 100001, 0), (7, 0, 0, 2), (top, 0, 0, 0),
                  (7, top, 0, 0), (7, 0, top, 0), (7, 0, 0, top), (2**32 + 7, 0, 0, 0), (7, 2**32 + 5, 0, 0),
                  (7, 0, 2**32, 0), (7, 0, 0, 2**32), (7, 0, 0, 2**32 + 1), (5, 9, 0, 2)):
        yield listed(wrong), 11
        yield listed((5, 0, 100000, 0), wrong, (9, 9, 0, 0)), 11


def beside_others():
    """A list comes after all terms of the heading and before all rows, and the member last."""
    rows, member = {**short_table(), FIRST: (0, 0, 0, 999)}, Member(0, 1, 63, 64, 0)
    for amendments, number in (([(2, 0, 0, 0), (1, 0, 0, 0)], 53), ([(1, 1, 0, 0)], 54), ([(1, 0, 90001, 0)], 55),
                               ([(1, 0, 0, 2)], 11), ([(1, 0, 0, 0)], 15)):
        yield listed(*amendments)._replace(rows=rows), number
        yield listed(*amendments)._replace(rows=rows, member=member), number
        for field, value, of_heading in (('method', 6, 10), ('average', 1, 12), ('unit', 100001, 11), ('years', 41, 11)):
            case = listed(*amendments)._replace(rows=rows)
            yield case._replace(plan=case.plan._replace(**{field: value})), of_heading
    yield listed((1, 0, 0, 0))._replace(member=member), 21


def known():
    yield from worked()
    yield from worked_lists()


def check_worked():
    """The oracle gives what is worked by hand."""
    for case, said in known():
        if isinstance(said, int):
            agrees = refusal(*case) == said
        else:
            figures = refusal(*case) == 0 and case.figures()._asdict()
            agrees = figures and all(figures[field] == dollars(amount) for field, amount in said.items())
        if not agrees:
            differ(case, f'the rules say {said}', f'the oracle {[*case.lines()]}')
    check_worked_parts()


def check_worked_parts():
    """What is worked by hand beside the figures of a member: rules 14.3, 14.4, 14.7, 14.17, 14.19, 14.20, 14.22 and
    14.24."""
    plan, rows, member = next(worked())[0].valued()

    def before_rounding(salary):
        final = plan._replace(retire=60, formula=FINAL, unit=500, average=1)
        return exact_benefit(final, rows, Member(7, 1, 30, 40, dollars(salary)), 60)

    final = plan._replace(formula=FINAL, unit=200, average=2), rows, member._replace(salary=dollars('10000.00'))
    factors, costs = Factors(plan, rows, nearest), rounded_costs(plan, rows, member)
    monthly_plan = plan._replace(pay=MONTHLY)
    monthly = Factors(monthly_plan, rows, nearest)
    parts = {
        'G(64)': (factors.G()[64], 909090909),
        'G(63)': (factors.G()[63], 826446281),
        'T(63,65)': (factors.T(65)[63], 1909090909),
        'A(65), paid monthly': (monthly.A()[65], S),
        'G(65), paid monthly': (monthly.G()[65], 541666667),
        'G(64), paid monthly': (monthly.G()[64], 492424243),
        'G(63), paid monthly': (monthly.G()[63], 447658403),
        'the exact G(65), paid monthly': (Factors(monthly_plan, rows, Fraction).G()[65], Fraction(13 * S, 24)),
        'N of CP at 63 before rounding': (Fraction(costs.V(63) * 1000 * S, factors.Z(65)[63]), Fraction('8264.5')),
        'B(64)': (benefit(*final, 64), dollars('181.82')),
        'B(65)': (benefit(*final, 65), dollars('381.82')),
        'B(60) before rounding': (before_rounding('666666.67'), Fraction('100000000.5')),
        'B(60) of a spell before rounding': (before_rounding('333333.33'), Fraction('49999999.5')),
        'B(60) of another spell before rounding': (before_rounding('333333.35'), Fraction('50000002.5')),
        'P(64) of a crowded row': (staying(plan, 64, (400000, 300000, 300001)), 293999),
        'P(65) of a crowded row': (staying(plan, 65, (400000, 300000, 300001)), 600000),
        'P(64) of a row with two halves': (staying(plan, 64, (1000, 1000, 500)), 997502),
    }
    for name, (made, said) in parts.items():
        if made != said:
            sys.exit(f'member_figures: the rules say {name} is {said}, the oracle {made}')


def staying(plan, age, rates):
    return Factors(plan, {age: (*rates, 1000)}, nearest).P(age)


# ---- drawn cases

def drawn_rates(rng):
    """By age. Where hardly anyone leaves, roundings add up most; where all leave, nothing may be divided by staying."""
    gaps = set(rng.sample(AGES, 4))

    def none(k):
        return 0, 0, 0

    def tiny(k):
        return any_rates(rng, 100)

    def light(k):
        return rng.randint(0, 2000), rng.randint(0, 60000), rng.randint(0, 3000)

    def heavy(k):
        return any_rates(rng)

    def gapped(k):
        return one_takes_all(rng) if k in gaps else light(k)

    return rng.choice([none, tiny, tiny, light, light, heavy, gapped])


def drawn_weights(rng):
    rising = sorted(rng.randint(1000, 100000) for _ in AGES)
    jump = rng.choice(AGES)
    return rng.choice([
        lambda k: 1000,
        lambda k: 100000,
        lambda k: rising[k - FIRST],
        lambda k: 1000 if k < jump else 100000,
        lambda k: int(1000 * 1.04**(k - FIRST)),
    ])


def drawn_plan(rng):
    formula = rng.choice(FORMULAS)
    most = most_unit(formula)
    return Plan(
        interest=rng.choice([0, 1, 2000, rng.randint(0, 2000)]),
        retire=rng.choice([50, 75, rng.randint(50, 75)]),
        pay=rng.choice(PAYS),
        formula=formula,
        unit=rng.choice([most, rng.randint(0, most)]),
        average=rng.choice([1, 10, rng.randint(1, 10)]) if formula == FINAL else 0,
        method=rng.choice(METHODS),
        assets=rng.choice([0, MOST_ASSETS, rng.randint(0, MOST_ASSETS)]),
        years=rng.randint(1, 40))


def drawn_number(rng):
    """An id or a person."""
    return rng.choice([1, MOST_NUMBER, rng.randint(1, MOST_NUMBER)])


def drawn_member(rng, plan, rows):
    r = plan.retire
    y = rng.choice([FIRST, r - 1, *rng.choices(range(FIRST, r), k=6)])
    x = rng.choice([y, r, *rng.choices(range(y, r), k=6)])
    member = Member(drawn_number(rng), drawn_number(rng), y, x, 1)
    largest = largest_salary(plan, rows, member)
    over = min(largest + 1, MOST_SALARY)
    salaries = [largest, largest, over, rng.randint(0, largest), rng.randint(0, MOST_SALARY)]
    return member._replace(salary=rng.choice(salaries))


def drawn_case(rng):
    plan, amendments = drawn_amended(rng, drawn_plan(rng))
    rows = table(drawn_rates(rng), drawn_weights(rng))
    return Case(plan, rows, drawn_member(rng, amended(plan, amendments), rows), amendments)


def drawn_accepted(rng):
    while True:
        case = drawn_case(rng)
        if refusal(*case) == 0:
            return case


def drawn_spoiled(rng):
    """With some faults in its list, or with a list whose additions in force are too much by 1."""
    case = drawn_accepted(rng)
    if not case.amendments:
        return case._replace(amendments=(*drawn_list(rng, most_unit(case.plan.formula) - case.plan.unit + 1, 3),))
    made, _, _ = spoiled(rng, case.amendments, rng.choice([1, 1, 2, 4]))
    return case._replace(amendments=tuple(made))


# ---- cases at the bounds

class Change(NamedTuple):
    """Other values for some fields of the plan, for the rows of some ages, for some fields of the member, and for some
    fields of the amendments at some places."""
    plan: dict = {}
    rows: dict = {}
    member: dict = {}
    amendments: dict = {}


def changed(case, changes):
    for change in changes:
        amendments = [one._replace(**change.amendments.get(place, {})) for place, one in enumerate(case.amendments)]
        case = Case(case.plan._replace(**change.plan), {**case.rows, **change.rows},
                    case.member._replace(**change.member), tuple(amendments))
    return case


def edges(least, most, largest):
    """Both sides of each bound of a range, and the largest number that the field holds."""
    return [value for value in (least - 1, least, most, most + 1, largest) if value >= 0]


def plan_edges(case):
    flat, final = case.plan.formula == FLAT, case.plan.formula == FINAL
    ranges = dict(
        interest=(0, 2000),
        retire=(50, 75),
        formula=(1, 3),
        unit=(0, 100000 if flat else 500),
        average=(1, 10) if final else (0, 0),
        method=(1, 5),
        assets=(0, MOST_ASSETS),
        years=(1, 40))
    values = {field: edges(*of, 2**64 - 1) for field, of in ranges.items()}
    values['pay'] = [*PAYS, *NO_PAYS, 2**64 - 1]
    return [Change(plan={field: value}) for field, of_field in values.items() for value in of_field]


def row_edges(case):
    """At the ends of the table and about the retirement age."""
    ages = FIRST, 40, case.plan.retire - 1, case.plan.retire, LAST - 1, LAST
    return [Change(rows={k: row}) for k in ages for row in rows_at_edges(case.rows, k)]


def rows_at_edges(rows, k):
    *rates, weight = rows[k]
    for place in range(3):
        for rate in edges(0, MILLION, 2**32 - 1):
            yield (*rates[:place], rate, *rates[place + 1:], weight)
    for three in (MILLION - 2, 2, 1), (MILLION, 1, 1), (1, MILLION, 1), (1, 1, MILLION), (MILLION,) * 3, (MILLION - 1, 0, 0):
        yield (*three, weight)
    before = rows[k - 1][3] if k > FIRST else 1000
    for weight in edges(1000, 100000, 2**32 - 1) + [before - 1, before]:
        yield (*rates, weight)


def member_edges(case):
    r, y = case.plan.retire, case.member.entry
    ranges = dict(id=(1, MOST_NUMBER), person=(1, MOST_NUMBER), entry=(FIRST, r - 1), age=(y, r), salary=(0, MOST_SALARY))
    return [Change(member={field: value}) for field, of in ranges.items() for value in edges(*of, 2**64 - 1)]


def amendment_edges(case):
    """Of the first and of the last: also those of the order of their numbers, and of what can be rested on."""
    ranges = dict(number=(1, MOST_AMENDMENT), rests=(0, MOST_AMENDMENT), add=(0, MOST_ADDITION), struck=(0, 1))
    values = {field: edges(*of, 2**64 - 1) for field, of in ranges.items()}
    for place in sorted({0, len(case.amendments) - 1}) if case.amendments else ():
        numbers = [number for one in case.amendments for number in (one.number - 1, one.number, one.number + 1)]
        more = dict(number=numbers, rests=numbers)
        for field, of_field in values.items():
            yield from (Change(amendments={place: {field: value}}) for value in of_field + more.get(field, []))


def all_edges(case):
    """By what they are of. A case that has no list has none of its own."""
    kinds = plan_edges(case), [*amendment_edges(case)], row_edges(case), member_edges(case)
    return [kind for kind in kinds if kind]


def at_edges(case):
    return [changed(case, [change]) for kind in all_edges(case) for change in kind]


def at_some_edges(rng, case):
    """Two fields or three at their bounds, so that the order of the refusals counts."""
    kinds = rng.choices(all_edges(case), k=rng.choice([2, 3]))
    return changed(case, [rng.choice(kind) for kind in kinds])


def at_extremes(rng, case):
    """Some fields at an end of what they hold, where sums would wrap; or good but for a bit that a narrower field lacks."""
    def extreme(good, bits):
        return rng.choice([0, 1, good ^ 2**(bits // 2), good ^ 2**(bits - 1), 2**bits - 2, 2**bits - 1])

    def of_plan():
        field = rng.choice(Plan._fields)
        return Change(plan={field: extreme(getattr(case.plan, field), 64)})

    def of_row():
        age, place = rng.choice(AGES), rng.randrange(4)
        row = case.rows[age]
        return Change(rows={age: (*row[:place], extreme(row[place], 32), *row[place + 1:])})

    def of_member():
        field = rng.choice(Member._fields)
        return Change(member={field: extreme(getattr(case.member, field), 64)})

    def of_amendments():
        if not case.amendments:
            return Change()
        place, field = rng.randrange(len(case.amendments)), rng.choice(Amendment._fields)
        return Change(amendments={place: {field: extreme(getattr(case.amendments[place], field), 64)}})

    # Mostly of the member: its fault is seen only where the plan has none.
    kinds = rng.choices([of_plan, of_row, of_member, of_amendments], [1, 1, 4, 1], k=rng.choice([1, 2, 3]))
    return changed(case, [kind() for kind in kinds])


def all_extreme(case):
    """All fields of the plan, of each amendment, of each row or of the member as large as they can be."""
    plan, member = Plan(*[2**64 - 1] * len(Plan._fields)), Member(*[2**64 - 1] * len(Member._fields))
    rows, amendments = dict.fromkeys(AGES, (2**32 - 1,) * 4), (Amendment(*[2**64 - 1] * 4),) * PLACES
    return [Case(plan, rows, member, amendments), case._replace(plan=plan), case._replace(amendments=amendments),
            case._replace(rows=rows, member=member), case._replace(rows=rows), case._replace(member=member)]


def at_largest_benefit():
    """About B(r) = 1000000.00, with equal weights and one year's pay: 25 goes by the rounded benefit, and half a cent over
    is rounded off."""
    # Years of service at 5 percent, and a salary for which B(r) before its rounding is 100000000 cents and the tenths.
    for service, salary, tenths in ((26, 76923077, 1), (24, 83333333, -4), (30, 66666667, 5),
                                    (33, 60606061, 6.5), (24, 83333334, 8)):
        for method in METHODS:
            plan = Plan(0, 50, YEARLY, FINAL, 500, 1, method, 0, 1)
            case = Case(plan, level_table(), Member(1, 1, 50 - service, 40, salary))
            assert 10 * (exact_benefit(*case.valued(), 50) - MOST_BENEFIT) == tenths
            yield case


def extreme_cases():
    """No decrements, no interest, the largest benefit, the longest service, at the ends of the member's ages."""
    for r in (50, 75):
        for weights in (lambda k: 1000, lambda k: 100000, lambda k: 1000 if k < r - 1 else 100000):
            rows = table(lambda k: (0, 0, 0), weights)
            for method, pay in product(METHODS, PAYS):
                for y in (FIRST, r - 1):
                    for x in sorted({y, y + 1, r - 1, r}):
                        plan = Plan(0, r, pay, FINAL, 500, 1, method, MOST_ASSETS, 40)
                        member = Member(1, 1, y, x, 0)
                        yield Case(plan, rows, member._replace(salary=largest_salary(plan, rows, member)))


def at_ends():
    """Each end of the ranges of interest and retirement age with each pay, where few leave and where all die at r: there
    a pension is worth no more than a year's payments."""
    for i, r, pay, method in product((0, 2000), (50, 75), PAYS, METHODS):
        plan = Plan(i, r, pay, CAREER, 500, 0, method, 0, 40)
        for last in (LAST, r):
            rows = table(lambda k: (1000, 2000, 3000) if k < last else (MILLION, 0, 0), lambda k: 1000 + 10 * k)
            member = Member(1, 1, 30, 40, 0)
            yield Case(plan, rows, member._replace(salary=largest_salary(plan, rows, member)))


def straying_cases():
    """The farthest from their exact fractions that a search found."""
    return [Case(*found.case()) for found in accuracy_found.read()]


def generated(rng):
    cases = [*at_largest_benefit(), *extreme_cases(), *at_ends(), *straying_cases()]
    for formula in FORMULAS:
        case = drawn_accepted(rng)
        while case.plan.formula != formula or not case.amendments:
            case = drawn_accepted(rng)
        cases += at_edges(case)
        cases += all_extreme(case)
    cases += [at_some_edges(rng, drawn_accepted(rng)) for _ in range(1000)]
    cases += [at_extremes(rng, drawn_accepted(rng)) for _ in range(500)]
    cases += [drawn_spoiled(rng) for _ in range(500)]
    return cases + [drawn_case(rng) for _ in range(2500)]


# ---- comparing

# Working every age by every method takes long in fractions: one member in so many is held to it.
EVERYWHERE = 150

def stored_files():
    cases = [case for case, _ in worked()]
    return {
        CRATE / 'stdin': b''.join(case.bytes() for case in cases),
        CRATE / 'stdout': ''.join(f'{line}\n' for case in cases for line in case.lines()).encode(),
    }


def differ(case, expected, said):
    sys.exit(f'member_figures: {case.plan}\n{case.amendments}\n{case.member}\n{case.rows}\n{expected}\n{said}')


def answers(cases):
    """What the program writes for each. A last case lacks a byte, so that it is no case."""
    given = b''.join(case.bytes() for case in cases) + cases[0].bytes()[:-1]
    said = commands.said(PROGRAM, given).decode()
    lines = said.split('\n')
    if len(lines) != 3 * len(cases) + 1 or lines.pop() != '':
        sys.exit(f'member_figures: the program writes {said.count(chr(10))} lines for {len(cases)} cases')
    return list(zip(lines[::3], lines[1::3], lines[2::3]))


def check_exact(case, farthest, everywhere):
    """Holds a valued member to the limits and to the two forms of L, and keeps the farthest of each figure: at its own
    age by the plan's method, or `everywhere`, at each age from entry to retirement by each of the five."""
    rounded, exact = rounded_costs(*case.valued()), exact_costs(*case.valued())
    at = [(case.plan.method, case.member.age)]
    if everywhere:
        at = product(METHODS, range(case.member.entry, case.plan.retire + 1))
    for method, k in at:
        for figure in FIGURES:
            far = stray(rounded, exact, figure, method, k)
            if far > min(LIMIT, sharp_limit(figure, method, rounded.B(rounded.r))):
                differ(case, f'{named(figure, method)} at {k} strays by {float(far)} cents', 'over its limit')
            farthest[named(figure, method)] = max(farthest[named(figure, method)], far)
        if exact.L(method, k) != exact.future_cost_form(method, k):
            differ(case, f'{METHOD_NAMES[method]} at {k}', 'the exact L is not the exact V less the future normal costs')


def falls(case):
    """Whether the benefit is below that of the age before, at an age from entry to retirement."""
    B = [benefit(*case.valued(), k) for k in range(case.member.entry, case.plan.retire + 1)]
    return any(after < before for before, after in zip(B, B[1:]))


def check_rising(cases):
    """Rule 7.9 by the oracle: no member that is accepted, or refused with 25, has a benefit that falls. With the weights
    the other way round some have, so that this check can fail. How many it looked at."""
    kept = [case for case in cases if refusal(*case) in (0, 25)]
    for case in filter(falls, kept):
        differ(case, 'the benefit falls', 'by rule 7.9 none does')
    if not any(falls(case._replace(rows=turned(case.rows))) for case in kept):
        sys.exit('member_figures: no benefit falls with weights that do')
    return len(kept)


def turned(rows):
    """The rows with the weights of the ages in reverse."""
    return {k: (*rows[k][:3], rows[FIRST + LAST - k][3]) for k in AGES}


def check():
    check_worked()
    cases = [case for case, _ in known()] + generated(random.Random(3))
    said, farthest = answers(cases), {named(*target): 0 for target in TARGETS}
    for place, (case, lines) in enumerate(zip(cases, said)):
        expected = tuple(case.lines())
        if lines != expected:
            differ(case, f'the oracle gives {expected}', f'the program {lines}')
        if refusal(*case) == 0:
            check_exact(case, farthest, place % EVERYWHERE == 0)
    of_plan = commands.numbers_of(line for line, _, _ in said)
    refused = commands.numbers_of(line for _, line, _ in said)
    if set(of_plan) != OF_PLAN or set(refused) != REFUSALS:
        sys.exit(f'member_figures: the plans give the refusals {sorted(of_plan)}, the members {sorted(refused)}')
    rising = check_rising(cases)
    report(len(cases), of_plan, refused, rising, farthest)


def report(count, of_plan, refused, rising, farthest):
    cents = ', '.join(f'{name} {float(far):.2f}' for name, far in farthest.items())
    print(f'member_figures: {count - of_plan.total()} plans accepted; {count - refused.total()} members accepted and '
          f'valued; {refused.total()} refused ({commands.counted(refused)}); of {rising} members no benefit falls; at most so '
          f'many cents from exact, and none beyond the limit for its benefit: {cents}')


if __name__ == '__main__':
    commands.run('member_figures', __doc__, stored_files, check)
