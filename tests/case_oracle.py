"""The case file of RULES sections 1 to 5, read and accepted in Python: another program, written from the rules alone.

An answer is None where the file is read, or accepted, and else the refusal's number and line (RULES section 12).
"""
import re

from oracle import (AGES, MOST_AMENDMENTS, Amendment, Member, MembersBefore, Plan, amended, first, refusal_of_row,
                    refusal_of_unit, refusals_of_amendment, refusals_of_head)

MOST_BYTES = 65536
MOST_MEMBERS = 1000
WHOLE = rb'(0|[1-9][0-9]{0,11})'
AMOUNT = WHOLE + rb'\.([0-9]{2})'
WORDS = {b'flat': 1, b'career': 2, b'final': 3, b'AB': 1, b'BD': 2, b'BP': 3, b'CD': 4, b'CP': 5}
HEADING = [
    (b'interest=', WHOLE), (b'retire=', WHOLE), (b'pay=', WHOLE), (b'formula=', rb'(flat|career|final)'),
    (b'unit=', WHOLE), (b'average=', WHOLE), (b'method=', rb'(AB|BD|BP|CD|CP)'), (b'assets=', AMOUNT),
    (b'years=', WHOLE),
]
AMENDMENT_KEY = b'amend='
AMENDMENT = AMENDMENT_KEY + rb','.join([WHOLE] * 4)
ROW = rb'row=' + rb','.join([WHOLE] * 5)
MEMBER = rb'member=' + rb','.join([WHOLE] * 4 + [AMOUNT])


class Refused(Exception):
    pass


class Lines:
    """The lines in turn (rule 1.2). Where the bytes end before a line does, it is refused with 2."""

    def __init__(self, case):
        self.case, self.at, self.number = case, 0, 0

    def next(self):
        self.number += 1
        end = self.case.find(b'\n', self.at)
        if end < 0:
            raise Refused(2, self.number)
        line, self.at = self.case[self.at:end], end + 1
        return line

    def begin(self, key):
        """Whether the next bytes are these, be they of a whole line or not."""
        return self.case.startswith(key, self.at)

    def refuse(self, number):
        if number:
            raise Refused(number, self.number)


def heading(lines, ranges):
    values = []
    for place, (key, form) in enumerate(HEADING):
        found = re.fullmatch(key + form, lines.next())
        if not found:
            lines.refuse(10)
        word = found[1]
        values.append(WORDS[word] if word in WORDS else int(b''.join(found.groups())))
        if ranges:
            so_far = Plan(*values, *[0] * (len(HEADING) - len(values)))
            lines.refuse(list(refusals_of_head(so_far))[place])
    return Plan(*values)


def amendments(lines, plan, ranges):
    """Rule 2.11, a line for each as long as lines begin with the key. Without the ranges, only their count is limited. The
    unit is judged at the line after which no other follows (rule 2.13)."""
    found = []
    while lines.begin(AMENDMENT_KEY):
        form = re.fullmatch(AMENDMENT, lines.next())
        if not form:
            lines.refuse(10)
        one = Amendment(*map(int, form.groups()))
        if ranges:
            lines.refuse(first(refusals_of_amendment(one, found)))
        elif len(found) == MOST_AMENDMENTS:
            lines.refuse(53)
        found.append(one)
        if ranges and not lines.begin(AMENDMENT_KEY):
            lines.refuse(refusal_of_unit(plan, found))
    return found


def table(lines, ranges):
    rows = {}
    for age in AGES:
        found = re.fullmatch(ROW, lines.next())
        if not found or int(found[1]) != age:
            lines.refuse(10)
        rows[age] = tuple(map(int, found.groups()[1:]))
        if ranges:
            lines.refuse(refusal_of_row(rows, age))
    return rows


def members(lines, plan, rows, ranges):
    found, before = [], MembersBefore(plan, rows)
    while True:
        line = lines.next()
        if line.startswith(b'member='):
            if len(found) == MOST_MEMBERS:
                lines.refuse(27)
            form = re.fullmatch(MEMBER, line)
            if not form:
                lines.refuse(20)
            id, person, entry, age, dollars, cents = map(int, form.groups())
            member = Member(id, person, entry, age, 100 * dollars + cents)
            if ranges:
                lines.refuse(before.refusal(member))
            found.append(member)
            continue
        form = re.fullmatch(rb'end=' + WHOLE, line)
        if not form:
            lines.refuse(20)
        if int(form[1]) != len(found):
            lines.refuse(4)
        if lines.at < len(lines.case):
            raise Refused(3, lines.number + 1)
        return found


def walk(case, ranges):
    """Rule 1.7: the plan with the heading's unit, the amendments, the rows and the members."""
    if len(case) > MOST_BYTES:
        raise Refused(1, 0)
    lines = Lines(case)
    plan = heading(lines, ranges)
    listed = amendments(lines, plan, ranges)
    rows = table(lines, ranges)
    # Where no ranges are asked for, a list may rest on nothing, and no unit counts.
    return plan, listed, rows, members(lines, amended(plan, listed) if ranges else plan, rows, ranges)


def answer(case, ranges):
    try:
        walk(case, ranges)
    except Refused as refusal:
        return refusal.args
    return None


def reading(case):
    return answer(case, False)


def accepting(case):
    return answer(case, True)
