"""Amendments that rest on others (rules 2.11 to 2.13): the program test_case_answers held to what is known of each file.

    python3 tests/amendments.py --check    builds and runs crates/test_case_answers on every file and compares

What reading and accepting must say stands beside each file. Which amendments are in force is found here in another way
than in tests/oracle.py: from the struck ones on, what rests on one that is out goes out too. The additions of the others
come to the largest unit, so that the file is accepted, and isn't where one more is counted; or to 1 more, which is
refused, and isn't where one is forgotten. A list that adds nothing changes no answer but for its line.
"""
import random
import sys
from collections import Counter
from itertools import cycle, product

import commands
from case_files import (FULL, HALF, HEADING_END, LOST, NO_WHOLE, ON_ONE_LINE, ONE, OVER_FULL, OVER_HALF, TABLE_END, amend,
                        file, filled, final_heading, heading, hold, hold_oracle, many, member, spell, worked)
from case_oracle import MOST_BYTES
from oracle import MOST_ADDITION, MOST_AMENDMENT, MOST_AMENDMENTS, Amendment, level_table, most_unit, short_table

# The line of the first amendment. The amendment at a place, counted from 0, stands so many lines below it.
START = HEADING_END + 1
# By formula: its terms, and the largest unit.
FORMULAS = {'flat': ({}, 100000), 'career': (dict(formula='career'), 500),
            'final': (dict(formula='final', average='3'), 500)}
DRAWN = 1500
# How often each number must be answered at least, 0 for none: of the files of which it is known, and of the drawn ones.
LEAST_KNOWN = {0: 300, 2: 150, 10: 700, 11: 300, 20: 25, 25: 5, 29: 40, 53: 200, 54: 60, 55: 400}
LEAST_DRAWN = dict.fromkeys((0, 2, 11, 53, 54, 55), DRAWN // 30)


def case_of(amendments, unit=0, formula='flat'):
    """A file with a list and no members. An amendment is its numbers, or its line."""
    terms, _ = FORMULAS[formula]
    return file(heading(unit=unit, **terms) + lines_of(amendments), level_table(), [])


def lines_of(amendments):
    return [one if isinstance(one, bytes) else amend(*one) for one in amendments]


def refused(number, place):
    """At the line of the amendment at this place."""
    return number, START + place


# ---- lists

def chain(adds, struck=()):
    """Each rests on the one before; those at some places are struck."""
    return [Amendment(number, number - 1, add, int(number - 1 in struck)) for number, add in enumerate(adds, 1)]


def side_by_side(adds):
    return [Amendment(number, 0, add, 0) for number, add in enumerate(adds, 1)]


# In none of these is an addition in force: a struck one; some that add 0; a struck one and others that rest on it; as many
# as there may be, which rest on a struck one by one.
IDLE = [[Amendment(1, 0, 100000, 1)], [Amendment(4, 0, 0, 0), Amendment(9, 4, 0, 0), Amendment(10, 0, 77, 1)],
        [Amendment(2, 0, 500, 1), Amendment(3, 2, 1, 0), Amendment(5, 2, 100000, 0), Amendment(999, 5, 100000, 0)],
        chain([100000] * MOST_AMENDMENTS, struck=[0])]


def out_of_force(amendments):
    """The numbers of those that aren't in force: the struck ones, then those that rest on one of them, and so on."""
    out = {one.number for one in amendments if one.struck}
    while more := {one.number for one in amendments if one.rests in out} - out:
        out |= more
    return out


def added(amendments):
    out = out_of_force(amendments)
    return sum(one.add for one in amendments if one.number not in out)


def drawn_numbers(rng, count):
    """The least ones, the largest ones, or any."""
    any_ones = sorted(rng.sample(range(1, MOST_AMENDMENT + 1), count))
    return rng.choice([range(1, count + 1), range(MOST_AMENDMENT + 1 - count, MOST_AMENDMENT + 1), any_ones])


def drawn_parts(rng, total, count):
    """So many numbers that come to the total, some of them 0."""
    cuts = sorted(rng.choice([0, total, *rng.choices(range(total + 1), k=2)]) for _ in range(count - 1))
    return [end - start for start, end in zip([0, *cuts], [*cuts, total])]


def drawn_list(rng, room, count):
    """So many amendments, each of which rests on none, on the one before, on the first or on any; few or many are struck.
    The additions in force come to `room`, if one is in force; what the others would add is anything."""
    choose = rng.choice([lambda before: 0, lambda before: before[-1], lambda before: before[0], rng.choice,
                         lambda before: rng.choice([0, *before])])
    struck = rng.choice([0, 0.1, 0.3, 0.6])
    made = []
    for number in drawn_numbers(rng, count):
        rests = choose([one.number for one in made]) if made else 0
        made.append(Amendment(number, rests, 0, int(rng.random() < struck)))
    out = out_of_force(made)
    parts = iter(drawn_parts(rng, room, count - len(out)) if len(out) < count else [])
    return [one._replace(add=rng.choice([1, MOST_ADDITION, rng.randint(0, MOST_ADDITION)]) if one.number in out
                         else next(parts)) for one in made]


def drawn_amended(rng, plan):
    """The plan with a unit up to its own, and a list by which it is valued with one up to the largest. Half of them have
    none."""
    if rng.randrange(2):
        return plan, ()
    unit = rng.choice([plan.unit, rng.randint(0, plan.unit)])
    most = most_unit(plan.formula) - unit
    room = rng.choice([most, rng.randint(0, most)])
    count = rng.choice([1, 2, 3, MOST_AMENDMENTS, rng.randint(1, MOST_AMENDMENTS)])
    return plan._replace(unit=unit), tuple(drawn_list(rng, room, count))


def list_faults(rng, amendments):
    """Of each amendment one for each number: its place, a field, what that is replaced by, and the number."""
    for place, one in enumerate(amendments):
        before = [other.number for other in amendments[:place]]
        outside = dict(number=[0, MOST_AMENDMENT + 1, LOST + one.number, 999999999999],
                       rests=[MOST_AMENDMENT + 1, LOST, LOST + one.rests],
                       add=[MOST_ADDITION + 1, LOST, LOST + one.add], struck=[2, 999, LOST, LOST + one.struck])
        field = rng.choice([*outside])
        yield place, field, rng.choice(outside[field]), 11
        if before:
            yield place, 'number', rng.choice([*before, before[-1], rng.randint(1, before[-1])]), 53
        unlisted = [number for number in range(1, MOST_AMENDMENT + 1) if number not in before]
        later = [other.number for other in amendments[place:]]
        yield place, 'rests', rng.choice([one.number, rng.choice(later), rng.choice(unlisted)]), 54


def spoiled(rng, amendments, count):
    """The list with so many faults at most, no two of one field, and the number and the place of the first of them. What is
    before that place is as it was, and so it is this fault that is given."""
    faults = {fault[:2]: fault for fault in rng.choices([*list_faults(rng, amendments)], k=count)}
    made = [*amendments]
    for place, field, value, _ in faults.values():
        made[place] = made[place]._replace(**{field: value})
    place, *_, number = min(faults.values(), key=lambda fault: (fault[0], ON_ONE_LINE.index(fault[3])))
    return made, number, place


# ---- the form of a line

# Lines with the key of an amendment that aren't one, and lines that have another key.
WRONG_FORMS = [b'amend=' + values for values in (
    b'', b'7', b'7,0', b'7,0,0', b'7,0,0,', b'7,0,0,0,', b'7,0,0,0,0', b',', b',,,', b',0,0,0', b'7;0;0;0', b'7.0.0.0',
    b'=7,0,0,0', b'amend=7,0,0,0', b'7,0,0,0\r', b'7,0,0,0.00', b'x,0,0,0', b'7,0,0,0x', b'7,0,0,\x000', b'7,0,0,0' * 3000)]
WRONG_FORMS += [amend(*fields).replace(b'?', wrong) for wrong in NO_WHOLE
                for fields in (('?', 0, 0, 0), (7, '?', 0, 0), (7, 0, '?', 0), (7, 0, 0, '?'))]
OTHER_KEYS = [b'', b'amend', b'amends=7,0,0,0', b'amendment=7,0,0,0', b'amend 7,0,0,0', b'amend:7,0,0,0',
              b'amend\x00=7,0,0,0', b'Amend=7,0,0,0', b'AMEND=7,0,0,0', b' amend=7,0,0,0', b'mend=7,0,0,0', b'amen=7,0,0,0',
              b'7,0,0,0', b'years=2', b'row=14,0,0,0,1000', b'member=7,1,63,64,0.00', b'end=0']
TWENTY = side_by_side([5000] * MOST_AMENDMENTS)


def forms():
    """First in a list, after an amendment that leaves the unit within its range and after one that doesn't, and after
    twenty: with the key the line counts as an amendment, so that the unit is not judged before it."""
    within, beyond = (5, 0, 1, 0), (5, 0, 100000, 0)
    for line in (*WRONG_FORMS, *OTHER_KEYS):
        yield case_of([line], unit=1), refused(10, 0), refused(10, 0)
        yield case_of([within, line], unit=1), refused(10, 1), refused(10, 1)
        yield case_of([*TWENTY, line]), refused(10, MOST_AMENDMENTS), refused(10, MOST_AMENDMENTS)
    for line in WRONG_FORMS:
        yield case_of([beyond, line], unit=1), refused(10, 1), refused(10, 1)
        yield case_of([*TWENTY, line], unit=1), refused(10, MOST_AMENDMENTS), refused(10, MOST_AMENDMENTS)
    for line in OTHER_KEYS:
        yield case_of([beyond, line], unit=1), refused(10, 1), refused(55, 0)
        yield case_of([*TWENTY, line], unit=1), refused(10, MOST_AMENDMENTS), refused(55, MOST_AMENDMENTS - 1)


# ---- ranges, numbers, what is rested on

def fields():
    """Each field at the ends of its range and beyond them, also where 32 bits of it are within, and where another field
    gives 53, 54 or 55."""
    for one in ((1, 0, 0, 0), (999, 0, 0, 0), (7, 0, 100000, 0), (7, 0, 0, 1), (7, 0, 100000, 1)):
        yield case_of([one]), None, None
    for formula in ('career', 'final'):
        yield case_of([(7, 0, 100000, 1)], 500, formula), None, None
    for rests in (0, 999):
        yield case_of([(998, 0, 0, 0), (999, rests, 0, 0)]), None, refused(54, 1) if rests else None
    wrong = dict(number=(0, 1000, 999999, LOST, LOST + 7, 999999999999), rests=(1000, LOST, LOST + 5, 999999999999),
                 add=(100001, LOST, LOST + 1, 999999999999), struck=(2, 3, 10, 11, 100, LOST, LOST + 1, 999999999999))
    for field, values in wrong.items():
        for value, others in product(values, ({}, dict(number=5), dict(rests=6), dict(add=100000))):
            one = Amendment(7, 0, 0, 0)._replace(**others)._replace(**{field: value})
            yield case_of([one], unit=1), None, refused(11, 0)
            yield case_of([(5, 0, 0, 0), one], unit=1), None, refused(11, 1)
            # Refused here already, the unit is beyond its range before and after.
            yield case_of([(5, 0, 100000, 0), one, (8, 0, 0, 0)], unit=1), None, refused(11, 1)


def numbers():
    """53: the same number again, whatever the first one is, and a smaller one, which others before it may be below."""
    for first in ((5, 0, 0, 0), (5, 0, 100000, 0), (5, 0, 100000, 1)):
        for number in (1, 4, 5):
            yield case_of([first, (number, 0, 0, 0)], unit=1), None, refused(53, 1)
            # What it rests on comes after its number, and the unit after both.
            for rests in (number, 5, 6, 999):
                yield case_of([first, (number, rests, 0, 0), (9, 0, 0, 0)], unit=1), None, refused(53, 1)
        for number in (6, 999):
            yield case_of([first, (number, 0, 0, 0)]), None, None
    for third in (1, 2, 3, 8, 9):
        yield case_of([(2, 0, 0, 0), (9, 0, 0, 1), (third, 0, 0, 0)]), None, refused(53, 2)
    yield case_of([(999, 0, 0, 0), (999, 0, 0, 0)]), None, refused(53, 1)
    yield case_of([(2, 0, 0, 1), (9, 2, 0, 0), (9, 2, 0, 0)]), None, refused(53, 2)


def rests():
    """54: the own number, a later one, one that isn't listed, also at the first place; and every earlier number will do,
    struck or out of force or not."""
    for rests in (1, 2, 3, 999):
        yield case_of([(2, rests, 0, 0)]), None, refused(54, 0)
        yield case_of([(2, rests, 0, 1), (3, 0, 0, 0)], unit=1), None, refused(54, 0)
    for rests in (1, 3, 5, 6, 7, 10, 11, 998):
        yield case_of([(4, 0, 0, 0), (6, rests, 0, 0), (10, 0, 0, 0)]), None, refused(54, 1)
        yield case_of([(4, 0, 100000, 0), (6, rests, 0, 1), (10, 0, 0, 0)], unit=1), None, refused(54, 1)
    # The numbers from 2 to 40 that are even; 2 is struck, and 4 to 20 rest on it one by one.
    listed = [(2, 0, 0, 1), *((number, number - 2, 0, 0) for number in range(4, 22, 2)),
              *((number, 0, 0, 0) for number in range(22, 40, 2))]
    for rests in range(42):
        stands = rests % 2 == 0 and rests < 40
        yield case_of([*listed, (40, rests, 0, 0)]), None, None if stands else refused(54, 19)


def two_faults():
    """A later line's fault is given where the unit is beyond its range, and an earlier line's before it."""
    beyond, after = (5, 0, 100000, 0), (9, 0, 0, 0)
    for wrong, number in (((0, 0, 0, 0), 11), ((7, 0, 0, 2), 11), ((5, 0, 0, 0), 53), ((7, 7, 0, 0), 54),
                          ((7, 8, 0, 0), 54)):
        for others in ([], [after], [after, (10, 0, 0, 0)]):
            yield case_of([beyond, wrong, *others], unit=1), None, refused(number, 1)
            yield case_of([beyond, (6, 0, 0, 1), wrong, *others], unit=1), None, refused(number, 2)
        yield case_of([beyond, wrong, b'amend='], unit=1), refused(10, 2), refused(number, 1)
        yield case_of([beyond, wrong, b'x'], unit=1), refused(10, 2), refused(number, 1)
    # The heading's own unit is judged at its line.
    for listed in ([], [(1, 0, 0, 0)], [(1, 0, 0, 2)], [(1, 0, 1, 1)]):
        yield case_of(listed, unit=100001), None, (11, 5)
        yield case_of(listed, unit=501, formula='career'), None, (11, 5)
    yield case_of([b'amend='], unit=100001), refused(10, 0), (11, 5)


# ---- how many

def counts():
    """Up to twenty. A twenty-first is refused by reading too: after its form, and in accepting after its ranges."""
    for count in range(1, MOST_AMENDMENTS + 1):
        yield case_of(chain([0] * count)), None, None
        yield case_of(side_by_side([0] * count)), None, None
    at = MOST_AMENDMENTS
    for twenty, unit in ((chain([0] * at), 0), (TWENTY, 0), (TWENTY, 1), (chain([5000] * at, struck=[0]), 100000)):
        # In order; not above the one before; resting on its own number, a later one, none that is listed; struck; a unit
        # that is beyond its range with it, or before it already.
        for last in ((21, 0, 0, 0), (999, 20, 0, 0), (20, 0, 0, 0), (1, 0, 0, 0), (21, 21, 0, 0), (21, 22, 0, 0),
                     (21, 999, 0, 0), (21, 0, 0, 1), (21, 0, 100000, 0)):
            for others in ([], [(22, 0, 0, 0)], [b'amend='], [b'x']):
                yield case_of([*twenty, last, *others], unit), refused(53, at), refused(53, at)
        for last in ((0, 0, 0, 0), (1000, 0, 0, 0), (21, 1000, 0, 0), (21, 0, 100001, 0), (21, 0, 0, 2), (20, 21, 0, 2)):
            yield case_of([*twenty, last], unit), refused(53, at), refused(11, at)
        yield case_of([*twenty[:5], (5, 0, 0, 0), *twenty[6:], (21, 0, 0, 0)], unit), refused(53, at), refused(53, 5)
        # Cut, it is no line: nor is the unit judged before it.
        case = case_of([*twenty, (21, 0, 0, 0)], unit)
        start = case.index(b'amend=21,')
        for size in range(len(b'amend='), len(b'amend=21,0,0,0') + 1):
            yield case[:start + size], refused(2, at), refused(2, at)


# ---- what is in force

def chains():
    """Twenty that rest on one another, of which one is struck or none: those before it come to the largest unit, or to one
    more, and each of the others would add so much that it is seen."""
    at = MOST_AMENDMENTS
    for formula, (_, largest) in FORMULAS.items():
        for struck in range(at + 1):
            adds = [largest // at] * struck + [largest] * (at - struck)
            unit = largest - struck * (largest // at)
            places = [struck] if struck < at else []
            yield case_of(chain(adds, places), unit, formula), None, None
            # One more in the heading, and in the first, the last and a middle one of those in force.
            if struck:
                yield case_of(chain(adds, places), unit + 1, formula), None, refused(55, at - 1)
            for place in {0, struck // 2, struck - 1} if struck else ():
                more = [add + (j == place) for j, add in enumerate(adds)]
                yield case_of(chain(more, places), unit, formula), None, refused(55, at - 1)
            # A second one that is struck, further down, changes nothing.
            if struck < at - 1:
                yield case_of(chain(adds, [struck, at - 1]), unit, formula), None, None


def branches():
    """Five, of which two rest on the first, one on the second and one on that, with any of them struck. Each adds another
    power of 10, so that the unit tells which are in force: it is accepted with that much room, and refused with 1 less.
    No number is its place in the list, and that of the first is the place of another."""
    numbers = first, second, _, fourth, _ = 3, 20, 21, 500, 999
    for struck in product((0, 1), repeat=5):
        bases = 0, first, first, second, fourth
        listed = [Amendment(number, rests, 10**place, out)
                  for place, (number, rests, out) in enumerate(zip(numbers, bases, struck))]
        # By hand: the first stands alone, the second and the third rest on it, the fourth on the second, the fifth on that.
        one, two, three, four, five = (not out for out in struck)
        stand = one, one and two, one and three, one and two and four, one and two and four and five
        sum_of = sum(10**place for place, stands in enumerate(stand) if stands)
        yield case_of(listed, 100000 - sum_of), None, None
        if sum_of:
            yield case_of(listed, 100001 - sum_of), None, refused(55, 4)


def units():
    """At the largest unit and above it: by the heading, by one addition or by several; refused at the last line, though an
    earlier one was too much already."""
    for formula, (_, most) in FORMULAS.items():
        yield case_of([], most, formula), None, None
        for unit, add, struck, said in ((most, 0, 0, None), (most, 1, 0, 55), (most, 1, 1, None), (most - 1, 1, 0, None),
                                        (most - 1, 2, 0, 55), (0, most, 0, None), (1, most, 0, 55), (1, most, 1, None),
                                        (0, min(most + 1, MOST_ADDITION), 0, 55 if most < MOST_ADDITION else None)):
            yield case_of([(1, 0, add, struck)], unit, formula), None, said and refused(said, 0)
            for others in ([(2, 0, 0, 0)], [(2, 1, 0, 0), (3, 0, 0, 1)], [(2, 1, 0, 1), (3, 2, most, 0), (4, 3, 1, 0)]):
                yield case_of([(1, 0, add, struck), *others], unit, formula), None, said and refused(said, len(others))
        for adds in ([most, 1], [1, most], [most, most, most], [most // 2 + 1] * 2):
            yield case_of(side_by_side(adds), 0, formula), None, refused(55, len(adds) - 1)
            yield case_of(chain(adds), 0, formula), None, refused(55, len(adds) - 1)
    # All that a list can add.
    yield case_of(side_by_side([MOST_ADDITION] * MOST_AMENDMENTS), 100000), None, refused(55, MOST_AMENDMENTS - 1)
    # A row or a member line after it that is wrong too.
    case = case_of([(1, 0, 1, 0)], 100000)
    yield case.replace(b'row=15,', b'row=16,'), refused(10, 1), refused(55, 0)
    yield case.replace(b'row=15,0,0,0,1000', b'row=15,0,0,0,999'), None, refused(55, 0)
    yield case.replace(b'end=0', b'end=1'), (4, 117), refused(55, 0)


# ---- the bytes after a list

def cut_off():
    """Cut at every byte from the first amendment to the first row, where the unit is within its range after each line, and
    where it is beyond after each or after the first alone: then the lines up to the cut are the list. What begins with the
    key is a further line of it."""
    for adds, too_much in (([0, 0, 0], [False] * 3), ([2, 0, 0], [True] * 3), ([0, 2, 0], [False, True, True])):
        lines = lines_of(side_by_side(adds))
        case = case_of(lines, 99999)
        start = case.index(lines[0])
        for size in range(start, case.index(b'row=16,')):
            whole, rest = case[start:size].count(b'\n'), case[start:size].split(b'\n')[-1]
            listed = min(whole, len(lines))
            judged = listed > 0 and too_much[listed - 1] and not rest.startswith(b'amend=')
            yield case[:size], refused(2, whole), refused(55, listed - 1) if judged else refused(2, whole)
    # Up to the last byte that a file may have.
    case = case_of([(1, 0, 2, 0)], 99999)
    case = case[:case.index(b'row=15,')] + b'amend='
    yield case.ljust(MOST_BYTES, b'9'), refused(2, 1), refused(2, 1)
    yield case.ljust(MOST_BYTES + 1, b'9'), (1, 0), (1, 0)


# ---- where amendments can't stand

def places():
    """Before each line of a file, with and without a list. It is one of the list in one place; where a term or a row is
    due it is refused with 10, where a member is with 20, and after the end line with 3."""
    line = amend(998)
    for listed in ([], lines_of([(1, 0, 0, 0), (2, 1, 0, 0)])):
        lines = file(heading() + listed, short_table(), [member(7)]).split(b'\n')[:-1]
        first_row, last = HEADING_END + len(listed) + 1, len(lines)
        for at in (*range(1, HEADING_END + 1), *range(first_row, last + 2)):
            made = b''.join(one + b'\n' for one in (*lines[:at - 1], line, *lines[at - 1:]))
            number = 0 if at == first_row else 10 if at < last - 1 else 20 if at <= last else 3
            said = (number, at) if number else None
            yield made, said, said


# ---- lists that add nothing

def with_list(case, amendments):
    """The file with a list after its ninth line."""
    lines = case.split(b'\n')
    return b'\n'.join([*lines[:HEADING_END], *lines_of(amendments), *lines[HEADING_END:]])


def moved(said, count):
    """What is said where so many lines stand after the ninth."""
    if said is None or said[1] <= HEADING_END:
        return said
    number, line = said
    return number, line + count


def idle():
    """Each file that is worked by hand and has at least nine lines and no list gets one, and the same answers: a refusal
    after the heading as many lines further down."""
    for (case, read, accepted), amendments in zip(worked(), cycle(IDLE)):
        made = with_list(case, amendments)
        if case.count(b'\n') >= HEADING_END and b'\namend=' not in case and len(made) <= MOST_BYTES:
            yield made, moved(read, len(amendments)), moved(accepted, len(amendments))
    # Its bytes count among those of the file.
    for amendments, more in product(IDLE, (0, 1)):
        size = MOST_BYTES + more - len(b''.join(line + b'\n' for line in lines_of(amendments)))
        said = (1, 0) if more else (3, TABLE_END + 3 + len(amendments))
        yield with_list(filled(size), amendments), said, said


# ---- benefits that are too large by the additions alone

def benefits():
    """Rules 7.8 and 7.10 go by the unit valued: with the one of rules 14.13, 14.17 and 14.24, made of the heading's and of
    additions, a line or a person is at the ceiling or beyond it, and with the heading's alone it isn't."""
    level, added, none = level_table(), [amend(1, 0, 60), amend(2, 1, 40)], [amend(1, 0, 60, 1), amend(2, 1, 40)]
    head = final_heading(unit=400)
    for entry, said in ((45, None), (44, (25, TABLE_END + 3))):
        for listed, answer in ((added, said), (none, None)):
            yield file(head + listed, level, [member(7, entry, 64, '1000000.00')]), None, answer
    head = final_heading(unit=400, retire=60)
    for salaries, said in (((FULL,), None), ((OVER_FULL,), (25, TABLE_END + 3)), ((HALF, HALF), None),
                           ((HALF, OVER_HALF), (29, TABLE_END + 4)), ((FULL, '0.01'), (29, TABLE_END + 4))):
        lines = [spell(id, ONE, salary) for id, salary in enumerate(salaries, 1)]
        for listed, answer in ((added, said), (none, None)):
            yield file(head + listed, short_table(), lines), None, answer
    # By flat, 1,000 lines of a person at 1000.00 each, and at 1000.02.
    for unit, add, struck, said in ((49999, 1, 0, None), (50000, 1, 0, 29), (50000, 1, 1, None), (0, 50000, 0, None)):
        listed = [Amendment(1, 0, add, struck)]
        yield with_list(many(1000, unit=unit), listed), None, said and (said, TABLE_END + 1001)
    # What the heading's unit alone would refuse, no list mends.
    yield with_list(many(1000, unit=50001), IDLE[2]), None, (29, TABLE_END + 1000 + len(IDLE[2]))


def known():
    """All these."""
    for files in (forms, fields, numbers, rests, two_faults, counts, chains, branches, units, cut_off, places, idle,
                  benefits):
        yield from files()


def some(rng):
    """A few of these, for the tests of whole files."""
    return [*benefits(), *rng.sample([*branches(), *chains(), *units()], 60), *rng.sample([*known()], 120)]


# ---- drawn lists

def drawn_file(rng):
    """The additions in force come to just the largest unit, if there are any; then one of them is 1 more, or some fields
    are wrong, or the file is cut within the list."""
    formula, (_, largest) = rng.choice([*FORMULAS.items()])
    unit = rng.choice([0, rng.randint(0, largest), rng.randint(0, largest), largest])
    made = drawn_list(rng, largest - unit, rng.choice([2, 3, MOST_AMENDMENTS, rng.randint(1, MOST_AMENDMENTS)]))
    assert added(made) in (0, largest - unit)
    kind = rng.choices(['as it is', 'one more', 'spoiled', 'cut'], [2, 2, 3, 1])[0]
    if kind == 'one more':
        return one_more(rng, made, largest - added(made), formula)
    if kind == 'spoiled':
        made, number, place = spoiled(rng, made, rng.choice([1, 1, 2, 4]))
        return case_of(made, unit, formula), None, refused(number, place)
    case = case_of(made, unit, formula)
    if kind == 'cut':
        place = rng.randrange(len(made))
        line = lines_of(made)[place]
        return case[:case.index(line) + rng.randint(len(b'amend='), len(line))], refused(2, place), refused(2, place)
    return case, None, None


def one_more(rng, made, unit, formula):
    """In the heading, where that may be; or in an addition that is in force, where there is one."""
    last = refused(55, len(made) - 1)
    out = out_of_force(made)
    able = [place for place, one in enumerate(made) if one.number not in out and one.add < MOST_ADDITION]
    if able:
        place = rng.choice(able)
        made[place] = made[place]._replace(add=made[place].add + 1)
        return case_of(made, unit, formula), None, last
    _, largest = FORMULAS[formula]
    return case_of(made, unit + 1, formula), None, last if unit < largest else (11, 5)


# ---- comparing

def hold_counts(answers, least):
    """Each number is answered as often as this at least, 0 for none."""
    said = Counter(number for number, _ in (answer or (0, 0) for answer in answers))
    if any(said[number] < count for number, count in least.items()):
        sys.exit(f'amendments: files are refused so often: {commands.counted(said)}, and should be so often at least: '
                 f'{commands.counted(least)}')


def check():
    rng = random.Random(16)
    files, drawn = [*known()], [drawn_file(rng) for _ in range(DRAWN)]
    hold_oracle('amendments', files + drawn)
    hold_counts((accepted for _, _, accepted in files), LEAST_KNOWN)
    hold_counts((accepted for _, _, accepted in drawn), LEAST_DRAWN)
    read, refused = hold('amendments', [case for case, _, _ in files + drawn])
    print(f'amendments: {len(files)} files of which it is known agree, and {DRAWN} drawn ones; reading refuses '
          f'{commands.counted(read)}; accepting refuses {commands.counted(refused)}')


if __name__ == '__main__':
    commands.run('amendments', __doc__, dict, check)
