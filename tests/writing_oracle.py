"""The case file of plain values, or their first refusal, in Python: another program, written from the rules.

    python3 tests/writing_oracle.py < FILE    prints an accepted case file again, from the values that stand in it

A plan, its amendments, its rows and its members come as plain values (rules 5.3, 5.4 and 5.6). The plan is judged first;
then how many members there are; then they themselves, each after those before it; and last whether the buffer has room for
the file. No refusal has a line.
"""
import sys
from typing import NamedTuple

from case_oracle import MOST_MEMBERS, Refused, walk
from oracle import AGES, FORMULA_NAMES, METHOD_NAMES, MembersBefore, Plan, amended, first, outside, refusal_of_plan
from value_oracle import amount, ended, fitting


class Values(NamedTuple):
    """The plan has the heading's unit."""
    plan: Plan
    amendments: tuple
    rows: dict
    members: list


# ---- the text: RULES sections 1 to 4

def line(key, *fields):
    return f'{key}={",".join(map(str, fields))}'


def heading(plan):
    """Rule 2.1: the keys are the names of a plan's terms, and stand in their order."""
    texts = plan._replace(formula=FORMULA_NAMES[plan.formula], method=METHOD_NAMES[plan.method],
                          assets=amount(plan.assets))
    return [line(key, text) for key, text in texts._asdict().items()]


def lines_of(values):
    yield from heading(values.plan)
    yield from (line('amend', *one) for one in values.amendments)
    yield from (line('row', age, *values.rows[age]) for age in AGES)
    yield from (line('member', *fields, amount(salary)) for *fields, salary in values.members)
    yield line('end', len(values.members))


def case_file(values):
    """Of any values whose codes are words of a case file, accepted or not."""
    return ended(lines_of(values))


# ---- what is refused

def refusals(values):
    """In their order, 0 for none; the next one is worked only where those before it are 0. Members are judged by the unit
    valued."""
    plan, amendments, rows, members = values
    yield refusal_of_plan(plan, rows, amendments)
    yield outside(len(members), 0, MOST_MEMBERS, 27)
    before = MembersBefore(amended(plan, amendments), rows)
    yield from map(before.refusal, members)


def written(values, room):
    """What is written to a buffer of so many bytes. A refusal writes nothing."""
    number = first(refusals(values))
    if number:
        raise Refused(number, 0)
    return fitting(case_file(values), room, Refused(30, 0))


if __name__ == '__main__':
    sys.stdout.buffer.write(case_file(Values(*walk(sys.stdin.buffer.read(), True))))
