"""Case files, good and damaged: the program test_case_answers held to tests/case_oracle.py.

    python3 tests/case_files.py --write    writes stdin and stdout of crates/test_case_answers
    python3 tests/case_files.py --check    builds and runs crates/test_case_answers on every file and compares

A file goes to the program after its length in 4 bytes, the little end first. The program answers with two lines: what
reading says of it, and what accepting says, with what it hands on.
"""
import random
import struct
import sys
from collections import defaultdict
from itertools import product
from pathlib import Path
from typing import NamedTuple

import commands
from case_oracle import Refused, accepting, reading, walk
from oracle import AGES, FIRST, LAST, MOST_AMENDMENTS, NO_PAYS, PAYS, level_table, short_table

ROOT = Path(__file__).parent.parent
CRATE = ROOT / 'crates' / 'test_case_answers'
PROGRAM = 'test_case_answers'
PRIME = 1000003
READING = {1, 2, 3, 4, 10, 20, 27, 53}
ACCEPTING = READING | {11, 12, 14, 15, 21, 22, 23, 24, 25, 28, 29, 54, 55}
# The refusals of one line in their order (rule 12.4).
ON_ONE_LINE = 2, 27, 3, 4, 10, 11, 12, 14, 15, 53, 54, 55, 20, 21, 28, 22, 23, 24, 25, 29
# The last line of the heading's terms, and that of the table in a file without amendments: each of these moves it down by
# a line (rules 2.1, 2.11 and 3.1).
HEADING_END, TABLE_END = 9, 115
# A field of 32 bits loses it: a good number with this added is good again there.
LOST = 2**32
# Some persons; the ends of their range; and numbers beyond these that a file can have.
ONE, ANOTHER, THIRD = 7, 4103, 999999999
PERSONS = 1, 999999999
NO_PERSONS = 0, 1000000000, LOST + ONE, 999999999999

# What a field is replaced by.
DAMAGES = [b'', b'0', b'00', b'01', b'-1', b'+1', b' 1', b'1 ', b'999999999999', b'9999999999999', b'1.00', b'1.0',
           b'1.000', b'1..00', b'1.00.00', b'.00', b'a', b'1a', b'\x00', b'\xff', b'1\r', b'4125.50.75']


# ---- files

def heading(**changed):
    terms = dict(interest='1000', retire='65', pay='1', formula='flat', unit='10000', average='0', method='CD',
                 assets='20.00', years='2')
    return [f'{key}={value}'.encode() for key, value in {**terms, **changed}.items()]


def final_heading(**changed):
    """5 percent of the last year's pay for each year of service, as in rules 14.13 and 14.17."""
    return heading(**{'formula': 'final', 'unit': '500', 'average': '1', **changed})


def rows(table):
    return [f'row={age},{",".join(map(str, table[age]))}'.encode() for age in AGES]


def amend(number, rests=0, add=0, struck=0):
    return f'amend={number},{rests},{add},{struck}'.encode()


def file(head, table, members):
    """The head is the heading, and after it the amendments."""
    return b''.join(line + b'\n' for line in head + rows(table) + members + [b'end=%d' % len(members)])


def member(id, entry=63, age=64, salary='0.00', person=1):
    return f'member={id},{person},{entry},{age},{salary}'.encode()


def good_files():
    """Of each formula and each pay, with no, one and some amendments, and with no, one and some members, of whom two lines
    that aren't neighbours are one person's. The units valued are 10000, 200 and 500."""
    table = short_table()
    rising = {age: (death, 10 * age if death == 0 else 0, 0, 1000 + age) for age, (death, *_, _) in table.items()}
    return [
        file(heading(), table, [member(7)]),
        file(heading(), table, []),
        file(heading(pay='12', formula='career', unit='150', method='BP') +
             [amend(3, 0, 30), amend(4, 3, 20), amend(11, 3, 100000, 1), amend(12, 11, 300)], rising,
             [member(1, 20, 40, '10000.00'), member(2, 64, 64, '1000000.00', person=999999999),
              member(999999999, 15, 65, '0.01')]),
        file(heading(formula='final', unit='499', average='10', method='CP', interest='0', retire='75', years='40',
                     assets='999999999999.99') + [amend(999, 0, 1)], rising, [member(5, 15, 15, '12345.67')]),
    ]


def ranges():
    """A number just inside its range, and just outside it; some also far outside, where 32 bits of them are inside."""
    level, final = level_table(), final_heading()
    return [
        *(file(heading(retire=str(r)), level, []) for r in (49, 50, 75, 76)),
        *(file(heading(interest=str(i)), level, []) for i in (2000, 2001)),
        *(file(heading(pay=str(pay)), level, []) for pay in (*PAYS, *NO_PAYS)),
        *(file(heading(unit=0) + [amend(number)], level, []) for number in (0, 1, 999, 1000, LOST + 1)),
        *(file(heading(unit=0) + [amend(1), amend(2, rests)], level, []) for rests in (0, 1, 2, 999, 1000, LOST + 1)),
        *(file(heading(unit=0) + [amend(1, 0, add)], level, []) for add in (100000, 100001, LOST)),
        *(file(heading(unit=0) + [amend(1, 0, 0, struck)], level, []) for struck in (0, 1, 2, LOST + 1)),
        *(file(heading(unit=unit) + [amend(1, 0, 1)], level, []) for unit in (99999, 100000)),
        *(file(final_heading(unit=unit) + [amend(1, 0, 1)], level, []) for unit in (499, 500)),
        *(file(heading(), {**level, 30: (*row, 1000)}, []) for most in (1000000, 1000001)
          for row in ((most, 1, 1), (1, most, 1), (1, 1, most), (most, most, most))),
        *(file(heading(), {**level, 15: (0, 0, 0, weight)}, []) for weight in (999, 1000, 1001)),
        *(file(heading(), level, [member(id)]) for id in (0, 1, 999999999, 1000000000, LOST + 1)),
        *(file(heading(), level, [member(7), member(id)]) for id in (6, 7, 8, LOST + 8)),
        *(file(heading(), level, [member(7, person=person)]) for person in (*PERSONS, *NO_PERSONS)),
        *(file(heading(), level, [member(7, entry, 64)]) for entry in (14, 15, 64, 65)),
        *(file(heading(), level, [member(7, 30, age)]) for age in (29, 30, 65, 66)),
        *(file(heading(), level, [member(7, salary=salary)]) for salary in ('1000000.00', '1000000.01')),
        *(file(final, level, [member(7, entry, 64, '1000000.00')]) for entry in (45, 44)),
        *(file(final, level, [member(7, 45, 64, '999999.99'), member(8, 45, 64, more)]) for more in ('0.01', '0.02')),
    ]


def many(count, **terms):
    """So many lines, all of one person and as short as they can be: by flat each earns two units."""
    return file(heading(**terms), short_table(), [member(j + 1) for j in range(count)])


def after_a_thousand():
    """What can stand where line 1,116 is due. Rule 12.4: 2 comes before 27, and 27 before 20."""
    full = many(1000)
    full = full[:full.rindex(b'end=')]
    return [full + rest for rest in (b'member=junk\n', b'member=\n', b'member=1001,1,63,64,0.00', b'member=', b'membe',
                                     b'x\n', b'', b'end=1000', b'end=1000\n', b'end=1001\n', b'end=x\n')]


def worked():
    """The refusals worked by hand (RULES section 14) and others like them, each with what reading and accepting must say."""
    level = level_table()
    yield b'', (2, 1), (2, 1)
    yield file(heading(), level, []), None, None
    yield file(heading(retire='49'), level, []), None, (11, 2)
    yield file(heading(retire='76'), level, []), None, (11, 2)
    yield file(heading(), {**level, 15: (0, 0, 0, 999)}, []), None, (15, 10)
    yield file(heading(), {**level, 30: (400000, 300000, 300001, 1000)}, []), None, None
    yield file(heading(), level, [member(7, salary='4125.50.75')]), (20, 116), (20, 116)
    yield file(final_heading(), level, [member(7, 44, 64, '1000000.00')]), None, (25, 116)
    yield from worked_pays(level)
    yield from worked_amendments(level)
    yield from worked_persons()
    yield from worked_widths()


def worked_pays(level):
    """Line 3, rules 2.10 and 14.23: what it says, and what is refused where the line before or after it is wrong too."""
    def of(**terms):
        return file(heading(**terms), level, [])

    for pay in PAYS:
        yield of(pay=pay), None, None
    for pay in NO_PAYS:
        yield of(pay=pay), None, (11, 3)
        yield of(retire=49, pay=pay), None, (11, 2)
        yield of(pay=pay, unit=100001), None, (11, 3)
        yield of(retire='065', pay=pay), (10, 2), (10, 2)
        yield of(pay=pay, formula='Flat'), (10, 4), (11, 3)
    for pay in ('', '012', '01', '+1', '-1', ' 1', '1 ', '1.00', '12.00', '1,12', '9999999999999', 'monthly'):
        yield of(pay=pay), (10, 3), (10, 3)
        yield of(retire=49, pay=pay), (10, 3), (11, 2)
        yield of(retire='065', pay=pay), (10, 2), (10, 2)
        yield of(pay=pay, formula='Flat'), (10, 3), (10, 3)
    yield from misplaced_pays(of())


def misplaced_pays(case):
    """A good file without its line 3, as files were before there was one; with it a line late; with another one in its
    place; with it twice; and cut before it and within it."""
    interest, retire, pay, formula, *rest = case.split(b'\n')
    others = b'', b'Pay=1', b'pays=1', b'pay1', retire
    for lines in ([formula], [formula, pay], *([other, formula] for other in others)):
        yield b'\n'.join([interest, retire, *lines, *rest]), (10, 3), (10, 3)
    yield b'\n'.join([interest, retire, pay, pay, formula, *rest]), (10, 4), (10, 4)
    start = case.index(pay)
    for size in range(start, start + len(pay) + 1):
        yield case[:size], (2, 3), (2, 3)
        yield case[:size].replace(b'retire=65', b'retire=49'), (2, 3), (11, 2)


def worked_amendments(level):
    """Rules 2.11 to 2.13 in a few files; tests/amendments.py has many more."""
    def of(*amendments, unit=99000, **terms):
        return file(heading(unit=unit, **terms) + [amend(*one) for one in amendments], level, [])

    yield of((1, 0, 1000, 0)), None, None
    yield of((1, 0, 1001, 0)), None, (55, 10)
    # What is struck adds nothing, nor what rests on it, near or far; and what rests on none of these does.
    struck, resting, far, other = (1, 0, 1001, 1), (2, 1, 1001, 0), (3, 2, 1001, 0), (4, 0, 1000, 0)
    yield of(struck, resting, far, other), None, None
    yield of(struck, resting, far, (4, 0, 1001, 0)), None, (55, 13)
    yield of((1, 0, 0, 0), resting, far, other), None, (55, 13)
    yield of((1, 0, 1001, 0), (2, 1, 0, 1), (3, 2, 0, 0), (4, 3, 0, 0)), None, (55, 13)
    # Beyond its range from the first line on, the unit is refused at the last one.
    yield of((1, 0, 1001, 0), (2, 0, 0, 0), (3, 0, 0, 1)), None, (55, 12)
    for formula, average in (('career', 0), ('final', 1)):
        yield of((1, 0, 1, 0), formula=formula, average=average, unit=499), None, None
        yield of((1, 0, 2, 0), formula=formula, average=average, unit=499), None, (55, 10)
        yield of((1, 0, 100000, 1), formula=formula, average=average, unit=500), None, None
    # Each field beyond its range; the numbers; what is rested on.
    for wrong in ((0, 0, 0, 0), (1000, 0, 0, 0), (7, 1000, 0, 0), (7, 0, 100001, 0), (7, 0, 0, 2)):
        yield of(wrong), None, (11, 10)
    for number in (5, 4, 1):
        yield of((5, 0, 0, 0), (number, 0, 0, 0)), None, (53, 11)
    for rests in (4, 6, 7, 999):
        yield of((5, 0, 0, 0), (6, rests, 0, 0), (7, 0, 0, 0)), None, (54, 11)
    twenty = [(number, 0, 0, 0) for number in range(1, MOST_AMENDMENTS + 1)]
    yield of(*twenty), None, None
    yield of(*twenty, (21, 0, 0, 0)), (53, 30), (53, 30)
    yield of(*twenty, (21, 0, 0, 2)), (53, 30), (11, 30)
    yield of(*twenty, (21, 0, 0, '00')), (10, 30), (10, 30)


# ---- one person on several lines

# Salaries, and B(60) by them under the plan of rule 14.17: 500000.00, from 499999.995; 500000.01; 1000000.00, from
# 1000000.005; 1000000.02, which is too much.
HALF, OVER_HALF, FULL, OVER_FULL = '333333.33', '333333.34', '666666.67', '666666.68'


def spells(*lines):
    """A file of such lines by the plan of rule 14.17, where B(60) is 1.5 times the salary."""
    return file(final_heading(retire='60'), short_table(), list(lines))


def spell(id, person, salary, entry=30, age=40):
    return member(id, entry, age, salary, person)


def worked_persons():
    yield from worked_spells()
    yield from worked_orders()
    yield from worked_forms()
    yield from worked_thousands()


def worked_spells():
    """Rules 7.10 and 14.24: the rounded B(r) of a person's lines are summed, wherever these stand."""
    def of(*lines):
        return spells(*(spell(id, *line) for id, line in enumerate(lines, 1)))

    yield of((ONE, HALF), (ONE, HALF)), None, None
    yield of((ONE, HALF), (ONE, OVER_HALF)), None, (29, 117)
    # The first is 500000.02, from 500000.025: exactly, the two are over the ceiling.
    yield of((ONE, '333333.35'), (ONE, '333333.32')), None, None
    # Each is half a cent more than it is exactly: the six come to 1000000.02, and exactly to 999999.99.
    yield of(*[(ONE, '111111.09')] * 5, (ONE, '111111.21')), None, (29, 121)
    yield of((ONE, FULL), (ANOTHER, FULL)), None, None
    third = of((ONE, FULL), (ANOTHER, FULL), (ONE, '0.01'))
    yield third, None, (29, 118)
    yield third.replace(b'end=3', b'end=4'), (4, 119), (29, 118)
    # Where nothing is left for a person, a line that earns nothing is none too many.
    yield of((ONE, FULL), (ONE, '0.00')), None, None
    yield of((ONE, FULL), (ONE, '0.01')), None, (29, 117)
    yield of((ONE, '0.01'), (ONE, FULL)), None, (29, 117)
    # One that earned nothing is this person's first all the same.
    yield of((ONE, '0.00'), (ONE, FULL), (ONE, '0.01')), None, (29, 118)
    # Lines between them, and a person before and after others.
    yield of((ONE, HALF), (ANOTHER, FULL), (ONE, HALF)), None, None
    yield of((ONE, HALF), (ANOTHER, FULL), (ONE, OVER_HALF)), None, (29, 118)
    three = (ONE, HALF), (ANOTHER, HALF), (THIRD, HALF)
    yield of(*three, *three), None, None
    yield of(*three, *three, (ANOTHER, '0.01'), (ONE, '0.01')), None, (29, 122)
    for place, (person, _) in enumerate(three):
        over = *three[:place], (person, OVER_HALF), *three[place + 1:]
        yield of(*three, *over), None, (29, 119 + place)
        yield of(*over, *three), None, (29, 119 + place)


def worked_orders():
    """Rules 12.4 and 14.25: 28 comes after 21 and before 22, and 29 after 25; an earlier line before a later one."""
    first = spell(1, ONE, HALF)
    for person, before in product(NO_PERSONS, ([], [first])):
        id, line = len(before) + 1, TABLE_END + 1 + len(before)
        yield spells(*before, spell(id, person, HALF)), None, (28, line)
        yield spells(*before, spell(id - 1, person, HALF)), None, (21, line)
        yield spells(*before, spell(id, person, HALF, entry=14)), None, (28, line)
    yield spells(spell(1, 0, HALF, age=61)), None, (28, 116)
    yield spells(spell(1, 0, '1000000.01')), None, (28, 116)
    yield spells(spell(1, 0, OVER_FULL)), None, (28, 116)
    yield spells(spell(1, ONE, OVER_FULL), spell(2, ONE, FULL)), None, (25, 116)
    # A second line that is over the ceiling of its person, and wrong by itself; and then a third one that is.
    second = dict(id=2, person=ONE, salary=OVER_HALF)
    wrong = {21: dict(id=1), 28: dict(person=0), 22: dict(entry=14), 23: dict(age=61), 24: dict(salary='1000000.01'),
             25: dict(salary=OVER_FULL)}
    for number, fields in wrong.items():
        yield spells(first, spell(**{**second, **fields})), None, (number, 117)
        yield spells(first, spell(**second), spell(**{**second, 'id': 3, **fields})), None, (29, 117)


def worked_forms():
    """The form of a person, and 29 beside faults of form: reading gives neither 28 nor 29."""
    for line in (b'member=1,30,40,333333.33', b'member=1,7,30,40,333333.33,7', b'member=1,7,7,30,40,333333.33',
                 b'member=1,7,30,40', b'member=1,7,30,333333.33,40'):
        yield spells(line), (20, 116), (20, 116)
    first, over = spell(1, ONE, HALF), spell(2, ONE, OVER_HALF)
    for person in ('', '01', '1.00', '+1', '-1', ' 1', '1 ', '1,1', '9999999999999'):
        yield spells(spell(1, person, HALF)), (20, 116), (20, 116)
        yield spells(spell(0, person, HALF)), (20, 116), (20, 116)
        yield spells(first, over, spell(3, person, HALF)), (20, 118), (29, 117)
    case = spells(first, over)
    yield case.replace(b'end=2', b'end=3'), (4, 118), (29, 117)
    yield case.replace(b'end=2', b'end=02'), (20, 118), (29, 117)
    yield case + b'more', (3, 119), (29, 117)
    yield case[:case.index(b'end=')], (2, 118), (29, 117)
    yield case.replace(over, over + b'5'), (20, 117), (20, 117)
    start = case.index(over)
    for size in range(start, start + len(over) + 1):
        yield case[:size], (2, 117), (2, 117)


def worked_thousands():
    """As many lines as a file may have, all of one person, and one more."""
    # Each earns 1000.00, so that a thousand are just what a person may have.
    yield many(1000, unit='50000'), None, None
    yield many(1001, unit='50000'), (27, 1116), (27, 1116)
    # The last of a thousand earns 1500.00.
    for count, read in ((1000, None), (1001, (27, 1116))):
        yield many(count, unit='50000').replace(member(1000), member(1000, entry=62)), read, (29, 1115)
    # Of 2000.00 each 500 are all, and the line over a thousand comes long after.
    yield many(1001, unit='100000'), (27, 1116), (29, 616)


def filled(size):
    """A file of just so many bytes, which is no case for what follows its end."""
    case = good_files()[0]
    return case + b'x' * (size - len(case))


# ---- damages

def fields(line):
    """Where each field of a line starts and ends."""
    start = line.index(b'=') + 1
    for end in range(start, len(line) + 1):
        if end == len(line) or line[end:end + 1] == b',':
            yield start, end
            start = end + 1


def damaged_fields(lines):
    for place, line in enumerate(lines):
        for start, end in fields(line):
            for damage in DAMAGES:
                yield lines[:place] + [line[:start] + damage + line[end:]] + lines[place + 1:]


def damaged_lines(lines):
    for place, line in enumerate(lines):
        rest = lines[place + 1:]
        yield lines[:place] + rest
        yield lines[:place] + [line, line] + rest
        yield lines[:place] + [b''] + rest
        yield lines[:place] + [line + b',0'] + rest
        yield lines[:place] + [line[1:]] + rest
        if rest:
            yield lines[:place] + [rest[0], line] + rest[1:]


def damaged(case):
    lines = case.split(b'\n')[:-1]
    for changed in (*damaged_fields(lines), *damaged_lines(lines)):
        yield b''.join(line + b'\n' for line in changed)


def cut(case):
    """Cut at every byte."""
    return [case[:size] for size in range(len(case))]


def stray_bytes(case, rng, count):
    """One byte changed anywhere."""
    for _ in range(count):
        at = rng.randrange(len(case))
        yield case[:at] + bytes([rng.choice(b'\n0159,=.-x\x00\xff')]) + case[at + 1:]


# ---- two faults, one of range and one of form

# What is no whole number, and no amount, whatever the range.
NO_WHOLE = [b'', b'00', b'01', b'012', b'-1', b'+1', b' 1', b'1 ', b'9999999999999', b'1.00', b'12.00', b'1a', b'a',
            b'\x00', b'\xff', b'1,1']
NO_AMOUNT = [b'', b'0', b'1.0', b'1.000', b'.00', b'01.00', b'-1.00', b'1.00.00', b'4125.50.75', b'1,00',
             b'9999999999999.00']
# By the key of a line, what is given for each of its numbers that is too large. No assets are.
TOO_LARGE = {b'interest': [11], b'retire': [11], b'pay': [11], b'unit': [11], b'average': [12], b'years': [11],
             b'amend': [11, 11, 11, 11], b'row': [10, 11, 11, 11, 15], b'member': [21, 28, 22, 23, 24], b'end': [4]}


class Fault(NamedTuple):
    """A part of a line, its key being part 0, that is another one; and the refusal that it gives. `cuts`: the part is as
    it was, and the bytes end after it."""
    line: int
    part: int
    text: bytes
    number: int
    cuts: bool = False


def first_of(faults):
    """The number and the line of the first, rule 12.4: by lines, and for one line in their order."""
    first = min(faults, key=lambda fault: (fault.line, ON_ONE_LINE.index(fault.number)))
    return first.number, first.line


def two_fault_bases():
    """Each formula, with members that are far from every bound, the first and the last of them one person; the rates of a
    row sum to more than a million, and the weights rise, so that one can fall. Some have amendments, the last of which is
    in force; by career and final the unit valued is the largest."""
    some = [amend(10, 0, 100), amend(20, 10, 100), amend(30, 20, 400, 1), amend(40, 30, 500), amend(50, 20, 0)]
    rising = {age: (400000, 700000, 10, 1000 + age) if age < 120 else (1000000, 0, 0, 1120) for age in AGES}
    members = [member(10, 20, 40, '500.00', ONE), member(20, 30, 50, '600.00', ANOTHER),
               member(30, 25, 60, '700.00', ONE)]
    for terms, amendments in ((dict(unit='900'), some), (dict(pay='12', formula='career', unit='500'), []),
                              (dict(formula='final', unit='450', average='3'), [amend(7, 0, 50)]),
                              (dict(formula='career', unit='300'), some)):
        yield file(heading(**terms) + amendments, rising, members).split(b'\n')[:-1]


def lines_of(lines, key):
    """The numbers of the lines with this key."""
    return [number for number, line in enumerate(lines, 1) if parts_of(line)[0] == key]


def kind_of(lines, line):
    """Whether it is of the heading, of the amendments, of the table, of the members, or from the end line on."""
    key = parts_of(lines[line - 1])[0] if line < len(lines) else b'end'
    return key if key in (b'amend', b'row', b'member', b'end') else b'heading'


def parts_of(line):
    key, values = line.split(b'=')
    return [key, *values.split(b',')]


def range_faults(lines):
    """No amount is over the bound of the assets, so these have none."""
    formula = lines[3].split(b'=')[1]
    head = [(1, b'2001', 11), (1, b'999999999999', 11), (2, b'49', 11), (2, b'76', 11), (2, b'0', 11),
            *((3, b'%d' % pay, 11) for pay in NO_PAYS), (5, b'100001' if formula == b'flat' else b'501', 11),
            *((6, text, 12) for text in ((b'0', b'11') if formula == b'final' else (b'1', b'10'))),
            (9, b'0', 11), (9, b'41', 11)]
    yield from (Fault(line, 1, text, number) for line, text, number in head)
    for line in lines_of(lines, b'amend'):
        yield from amendment_range_faults(lines, line)
    for line in lines_of(lines, b'row'):
        yield from row_range_faults(lines, line)
    for line in lines_of(lines, b'member'):
        yield from member_range_faults(lines, line)
    yield from too_large_benefits(lines, formula)
    yield from (fault for fault in wide_faults(lines) if fault.number not in READING)


def too_large_benefits(lines, formula):
    """Of the first member; and of the last, whose own comes to 999400.00 or so and is its person's second, after more than
    1100.00. By flat none is too large."""
    salary = {b'career': b'507150.00', b'final': b'498300.00'}.get(formula)
    first, *_, last = lines_of(lines, b'member')
    return [Fault(first, 5, b'1000000.00', 25), Fault(last, 5, salary, 29)] if salary else []


def amendment_range_faults(lines, line):
    """The last one is in force, and so its addition alone can make the unit too large; in another line that is no fault of
    the line."""
    numbers = [parts_of(lines[other - 1])[1] for other in lines_of(lines, b'amend')]
    place = line - HEADING_END - 1
    said = [(1, b'0', 11), (1, b'1000', 11), (2, b'1000', 11), (3, b'100001', 11), (4, b'2', 11), (4, b'999999999999', 11),
            *((1, before, 53) for before in numbers[:place]), *((2, rests, 54) for rests in (b'999', *numbers[place:]))]
    if place + 1 == len(numbers):
        said.append((3, b'100000', 55))
    return [Fault(line, part, text, number) for part, text, number in said]


def row_range_faults(lines, line):
    _, age, *_, weight = parts_of(lines[line - 1])
    for part in (2, 3, 4):
        yield from (Fault(line, part, text, 11) for text in (b'1000001', b'999999999999'))
    yield from (Fault(line, 5, text, 15) for text in (b'0', b'999', b'100001'))
    if int(age) > FIRST:
        yield Fault(line, 5, b'%d' % (int(weight) - 2), 15)
    if int(age) == LAST:
        yield Fault(line, 2, b'999999', 14)


def member_range_faults(lines, line):
    entry = int(parts_of(lines[line - 1])[3])
    key, before, *_ = parts_of(lines[line - 2])
    before = before if key == b'member' else b'0'
    said = [(1, b'0', 21), (1, b'1000000000', 21), (1, before, 21), *((2, b'%d' % person, 28) for person in NO_PERSONS),
            (3, b'14', 22), (3, b'65', 22), (3, b'0', 22), (4, b'%d' % (entry - 1), 23), (4, b'66', 23),
            (5, b'1000000.01', 24), (5, b'999999999999.99', 24)]
    return [Fault(line, part, text, number) for part, text, number in said]


def wide_faults(lines):
    """Each number so far above its range that 32 bits of it are within. The age of a row and the count of the end line are
    for reading to refuse."""
    for line, (key, *values) in enumerate(map(parts_of, lines), 1):
        for part, (value, number) in enumerate(zip(values, TOO_LARGE.get(key, [])), 1):
            yield Fault(line, part, widened(value), number)


def widened(value):
    """An amount is so in cents."""
    more = b'%d' % (int(value.replace(b'.', b'')) + LOST)
    return more[:-2] + b'.' + more[-2:] if b'.' in value else more


def worked_widths():
    """Each of these alone."""
    lines = next(two_fault_bases())
    for fault in wide_faults(lines):
        said = first_of([fault])
        yield with_faults(lines, [fault]), said if fault.number in READING else None, said


def form_faults(lines):
    for line, text in enumerate(lines, 1):
        key, *values = parts_of(text)
        number = 20 if key in (b'member', b'end') else 10
        yield from (Fault(line, 0, wrong, number) for wrong in (key[1:], key.upper(), b' ' + key, b''))
        for part, value in enumerate(values, 1):
            yield from (Fault(line, part, wrong, number) for wrong in no_values(key, value))
            yield Fault(line, part, value, 2, cuts=True)
        if key == b'row':
            yield from (Fault(line, 1, b'%d' % age, 10) for age in (int(values[0]) - 1, int(values[0]) + 1))
    yield from (fault for fault in wide_faults(lines) if fault.number in READING)
    end = len(lines)
    yield Fault(end, 1, b'2', 4)
    # Bytes after the end line are the fault of the line after it.
    yield from (Fault(end + 1, 0, text, 3) for text in (b'x', b'end', b'member'))


def no_values(key, value):
    """What can't stand in the place of a value, whatever its range."""
    if key in (b'formula', b'method'):
        return [b'', value.swapcase(), value + b' ', value[:-1]]
    return NO_AMOUNT if b'.' in value else NO_WHOLE


def with_faults(lines, faults):
    """The file with these faults, one that cuts being the last of them."""
    changed, end = [parts_of(line) for line in lines], b'\n'
    for fault in faults:
        if fault.cuts:
            del changed[fault.line:], changed[-1][fault.part + 1:]
            end = b''
        elif fault.line > len(lines):
            changed.append([fault.text, b'3'])
        else:
            changed[fault.line - 1][fault.part] = fault.text
    return b'\n'.join(key + b'=' + b','.join(values) for key, *values in changed) + end


def both_faults(lines, of_range, of_form):
    """The file with both, and what reading and accepting must say. Reading sees the form alone."""
    return with_faults(lines, [of_range, of_form]), first_of([of_form]), first_of([of_range, of_form])


def grouped(lines, faults):
    """Lists of them, by the kind of their line and by their number."""
    groups = defaultdict(list)
    for fault in faults:
        groups[kind_of(lines, fault.line), fault.number].append(fault)
    return groups.values()


def drawn_pairs(rng, of_range, of_form, count):
    """So many of a fault of range with one of form in another line, and as many with one in the same line where there are
    any."""
    for fault in rng.choices(of_range, k=count):
        elsewhere = [other for other in of_form if other.line != fault.line]
        beside = [other for other in of_form if other.line == fault.line and (other.cuts or other.part != fault.part)]
        yield from ((fault, rng.choice(others)) for others in (elsewhere, beside) if others)


def two_faults(count, seed=6):
    """Some files with too many members or amendments, one that is too long. Then, of each base, so many pairs of each kind
    and number of a fault of range with each of a fault of form: drawn from all of them alike, 25 and 29 would hardly
    occur."""
    lines = many(1001).split(b'\n')[:-1]
    surplus = Fault(1116, 0, b'member', 27)
    for of_range in (Fault(2, 1, b'49', 11), Fault(3, 1, b'13', 11), Fault(115, 2, b'999999', 14),
                     Fault(116, 1, b'0', 21), Fault(1115, 2, b'0', 28), Fault(1115, 3, b'14', 22),
                     Fault(1116, 1, b'0', 21), Fault(1116, 2, b'0', 28), Fault(1116, 5, b'1000000.01', 24)):
        yield both_faults(lines, of_range, surplus)
    yield with_faults(lines[:200], [Fault(1, 1, b'2001', 11)]).ljust(70000, b'x'), (1, 0), (1, 0)
    yield from too_many_amendments()
    rng = random.Random(seed)
    for lines in two_fault_bases():
        for of_range, of_form in product(grouped(lines, range_faults(lines)), grouped(lines, form_faults(lines))):
            yield from (both_faults(lines, *pair) for pair in drawn_pairs(rng, of_range, of_form, count))


def too_many_amendments():
    """The twenty-first stands on line 30. It is refused before the unit is, which 20 of them bring to 20000 here."""
    amendments = [amend(number, number - 1, 500) for number in range(1, MOST_AMENDMENTS + 2)]
    lines = file(heading() + amendments, level_table(), [member(7)]).split(b'\n')[:-1]
    surplus = Fault(HEADING_END + MOST_AMENDMENTS + 1, 0, b'amend', 53)
    for of_range in (Fault(5, 1, b'100001', 11), Fault(9, 1, b'41', 11), Fault(10, 2, b'1', 54), Fault(11, 1, b'1', 53),
                     Fault(29, 1, b'1000', 11), Fault(29, 2, b'20', 54), Fault(30, 1, b'0', 11), Fault(30, 2, b'1000', 11),
                     Fault(30, 3, b'100001', 11), Fault(30, 4, b'2', 11), Fault(30, 2, b'21', 54),
                     Fault(30, 3, b'100000', 55), Fault(31, 5, b'999', 15), Fault(137, 1, b'0', 21)):
        yield both_faults(lines, of_range, surplus)


def all_files():
    rng = random.Random(5)
    small, *others = good_files()
    files = good_files() + ranges() + [b'', b'\n', small + b'\n', small + b'end=1\n', small[:-1] + b'\r\n']
    files += cut(small)
    for case in (small, *others[1:]):
        files += damaged(case)
        files += stray_bytes(case, rng, 300)
    files += [many(count) for count in (2, 999, 1000, 1001, 1002)] + after_a_thousand()
    files += [case for case, _, _ in worked()]
    files += [filled(size) for size in (65535, 65536, 65537, 70000)]
    return files


# ---- comparing

def sum_of(numbers):
    total = 0
    for number in numbers:
        total = (total * 31 + number) % PRIME
    return total


def answers(case):
    """The two lines that the program must write."""
    said = reading(case)
    yield 'refused=%d,%d' % said if said else 'read'
    try:
        plan, amendments, table, members = walk(case, True)
    except Refused as refusal:
        yield 'refused=%d,%d' % refusal.args
        return
    checks = [sum_of(number for numbers in each for number in numbers)
              for each in (amendments, (table[age] for age in AGES), members)]
    yield 'accepted=' + ','.join(map(str, (*plan, len(amendments), len(members), *checks)))


def given(files):
    return b''.join(struct.pack('<I', len(case)) + case for case in files)


def stored_files():
    worked = [case for case, _, _ in (*worked_amendments(level_table()), *worked_spells(), *worked_orders())]
    cases = good_files() + worked + [b'', many(1001)] + cut(good_files()[0])[:40]
    return {
        CRATE / 'stdin': given(cases),
        CRATE / 'stdout': ''.join(f'{line}\n' for case in cases for line in answers(case)).encode(),
    }


def hold_oracle(name, files):
    """Holds the oracle to what reading and accepting must say of each."""
    for case, *said in files:
        if [reading(case), accepting(case)] != said:
            sys.exit(f'{name}: {case}\n{said} is due, and the oracle says {[reading(case), accepting(case)]}')


def hold(name, files):
    """Holds what the program writes to the oracle, and counts the numbers that reading and accepting give."""
    said = commands.said(PROGRAM, given(files)).decode().split('\n')
    expected = [line for case in files for line in answers(case)]
    for place, (line, answer) in enumerate(zip(expected, said)):
        if line != answer:
            sys.exit(f'{name}: {files[place // 2]}\n{line} is expected, and the program writes {answer}')
    if len(said) != len(expected) + 1:
        sys.exit(f'{name}: the program writes too many lines, or too few')
    return commands.numbers_of(expected[::2]), commands.numbers_of(expected[1::2])


def check():
    faulty = list(two_faults(3))
    hold_oracle('case_files', [*worked(), *faulty])
    # 53 is reading's too, for a twenty-first: here it is for the order, where reading gives another number.
    undecided = (ACCEPTING - READING | {53}) - {number for _, (read, _), (number, _) in faulty if number != read}
    if undecided:
        sys.exit(f'case_files: no file with two faults is refused with {sorted(undecided)}')
    files = all_files() + [case for case, _, _ in faulty]
    read, accepted = hold('case_files', files)
    if set(read) != READING or set(accepted) != ACCEPTING:
        sys.exit(f'case_files: reading gives {sorted(read)}, accepting {sorted(accepted)}')
    print(f'case_files: {len(files)} files agree, {len(faulty)} of them with two faults; reading refuses {read.total()}, '
          f'accepting {accepted.total()}, with each number that can occur')


if __name__ == '__main__':
    commands.run('case_files', __doc__, stored_files, check)
