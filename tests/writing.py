"""Plain values written as their case file: what kuyeshan_write_case answers, held to tests/writing_oracle.py.

    python3 tests/writing.py --check    runs target/embed/answers-c, which embed/run builds, and compares

Accepted values, drawn ones and those at the ends of their ranges, must be written as the oracle writes them, and the
same bytes must be read, accepted and valued by the library. Refused ones break each rule, alone or with others, so that
the order decides; which number is due stands beside them. The files of other tests are taken apart by
tests/case_oracle.py: an accepted one must come back byte by byte, and the values of another must be refused with its
number. Every byte of a buffer is compared, and some after it: buffers just fit, are a byte short or longer, or are empty.
"""
import random
import sys
from itertools import chain, combinations, cycle, islice, product

import amendments
import case_files
import commands
import persons
import shared_files
import value_files
from case_files import ANOTHER, FULL, HALF, ONE, OVER_FULL, OVER_HALF
from case_oracle import MOST_MEMBERS, Refused, accepting, walk
from library import Answers
from library_answers import plain_values
from member_figures import REFUSALS, dollars
from oracle import (AB, AGES, CAREER, CD, CP, FINAL, FIRST, FLAT, LAST, METHODS, MILLION, MONTHLY, MOST_ADDITION,
                    MOST_AMENDMENT, MOST_AMENDMENTS, MOST_ASSETS, MOST_NUMBER, MOST_SALARY, PAYS, YEARLY, Amendment,
                    Member, Plan, level_table, short_table)
from value_oracle import lines
from writing_oracle import Values, case_file

# No file is longer: that of longest().
LONGEST = 48624
# A buffer that every file of few members fits.
SOME_ROOM = 6000
# The largest numbers of a row's field and of any other.
TOP_OF_ROW, TOP = 2**32 - 1, 2**64 - 1
# How often each number must be answered at least, 0 for none; and how many files of other tests must come back, and how
# many be refused.
LEAST = {**dict.fromkeys(REFUSALS | {27, 29, 30}, 40), 0: 1000}
LEAST_BACK, LEAST_REFUSED = 1200, 1400


# ---- accepted values

def longest():
    """Each line as long as it can be, and as many of them as there may be. The lines of the one person come to just the
    ceiling."""
    numbers = range(MOST_AMENDMENT - 19, MOST_AMENDMENT + 1)
    listed = [Amendment(number, numbers[0] if place else 0, MOST_ADDITION, 1) for place, number in enumerate(numbers)]
    members = [Member(MOST_NUMBER - 999 + place, MOST_NUMBER, 74, 75, MOST_SALARY) for place in range(MOST_MEMBERS)]
    return Values(Plan(2000, 75, MONTHLY, FLAT, 100000, 0, CP, MOST_ASSETS, 40), listed,
                  dict.fromkeys(AGES, (MILLION, MILLION, MILLION, 100000)), members)


def shortest():
    return Values(Plan(0, 50, YEARLY, FLAT, 0, 0, AB, 0, 1), [], level_table(), [])


def about_tens(least, most):
    """The ends of a range, the powers of ten in it, and their neighbours: a number of each length."""
    near = {10**digits + more for digits in range(15) for more in (-1, 0, 1)}
    return sorted(number for number in near | {least, most} if least <= number <= most)


def terms():
    """Each term of a plan at such numbers, and each word with each other."""
    values = shortest()
    ranges = dict(interest=(0, 2000), retire=(50, 75), unit=(0, 100000), assets=(0, MOST_ASSETS), years=(1, 40))
    for field, ends in ranges.items():
        yield from (term(**{field: number})(values) for number in about_tens(*ends))
    averages = (FLAT, 0), (CAREER, 0), *((FINAL, years) for years in range(1, 11))
    for (formula, average), method, pay in product(averages, METHODS, PAYS):
        yield term(formula=formula, average=average, method=method, pay=pay)(values)


def tabled():
    """Rows that have such rates and weights, each rate in each column."""
    rates, weights = cycle(about_tens(0, MILLION)), about_tens(1000, 100000)
    rows = {age: (*islice(rates, 3), weights[(age - FIRST) * len(weights) // len(AGES)]) for age in AGES}
    return shortest()._replace(rows={**rows, LAST: (MILLION, *rows[LAST][1:])})


def lists():
    """Amendments that have such numbers and additions. Where all are struck, none counts."""
    numbers, adds = about_tens(1, MOST_AMENDMENT), cycle(about_tens(0, MOST_ADDITION))
    for _ in range(5):
        listed = [Amendment(*fields, 1) for fields in zip(numbers, [0, *numbers], adds)]
        yield shortest()._replace(amendments=listed)
    yield shortest()._replace(amendments=amendments.chain([5000] * 20))


def listed_members():
    """Members that have such ids, persons and salaries, and every number of cents, with dollars and without."""
    ids, salaries = about_tens(1, MOST_NUMBER), cycle(about_tens(0, MOST_SALARY))
    yield [Member(id, person, 15, 50, salary) for id, person, salary in zip(ids, reversed(ids), salaries)]
    yield [Member(1 + cents, 1, 49, 49, cents) for cents in range(100)]
    yield [Member(1 + cents, 1, 30, 40, 1230000 + cents) for cents in range(100)]


def made():
    """The ends of all that can be written, and numbers of each length."""
    yield from (longest(), shortest(), tabled(), *terms(), *lists())
    yield from (term(unit=10)(shortest())._replace(members=members) for members in listed_members())


def drawn(rng):
    for count in [0, 1, 2, 3] * 40 + [8] * 20 + [100, 100, MOST_MEMBERS]:
        plan, rows, members, listed = value_files.drawn_valued(rng, count)
        yield Values(plan, listed, rows, members)


# ---- faults: what makes other values of these

def term(**terms):
    return lambda values: values._replace(plan=values.plan._replace(**terms))


def in_place(entries, place, fields):
    return [*entries[:place], entries[place]._replace(**fields), *entries[place + 1:]]


def amendment(place, **fields):
    return lambda values: values._replace(amendments=in_place(values.amendments, place, fields))


def row(age, *fields):
    return lambda values: values._replace(rows={**values.rows, age: fields})


def member(place, **fields):
    return lambda values: values._replace(members=in_place(values.members, place, fields))


def twenty_first(values):
    """One amendment more than there may be, none of them in force that wasn't."""
    more = [Amendment(number, 0, 0, 1) for number in range(MOST_AMENDMENT - 20, MOST_AMENDMENT + 1)]
    return values._replace(amendments=[*values.amendments, *more][:MOST_AMENDMENTS + 1])


def as_they_are(values):
    return values


def crowd(count):
    """So many lines of one person by the plan of rule 14.17, where B(60) is 1.5 times the salary; a part of the unit is in
    amendments. All are far from the ceiling together."""
    plan = Plan(1000, 60, YEARLY, FINAL, 400, 1, CD, 2000, 2)
    listed = [Amendment(1, 0, 60, 0), Amendment(2, 1, 40, 0), Amendment(3, 0, 0, 1)]
    return Values(plan, listed, short_table(), [Member(10 + place, ONE, 30, 40, 10000) for place in range(count)])


# Of the plan of a crowd, each with its number, in the order in which they are given (rules 5.3 and 5.6).
OF_TERMS = [(11, term(interest=2001)), (11, term(retire=76)), (11, term(pay=2)), (10, term(formula=4)),
            (11, term(unit=501)), (12, term(average=0)), (10, term(method=6)), (11, term(assets=MOST_ASSETS + 1)),
            (11, term(years=0))]
OF_LIST = [(11, amendment(0, struck=2)), (53, amendment(1, number=1)), (54, amendment(1, rests=2)),
           (11, amendment(2, add=MOST_ADDITION + 1)), (53, twenty_first), (55, amendment(1, add=41))]
OF_ROWS = [(11, row(FIRST, 0, 0, MILLION + 1, 1000)), (15, row(64, 0, 0, 0, 999)), (14, row(LAST, 999999, 0, 0, 1100))]
PLAN_FAULTS = OF_TERMS + OF_LIST + OF_ROWS
NO_FAULT = 0, as_they_are


def member_faults(place):
    """Of a member of a crowd that isn't its first, each with its number, in the order in which they are given: the fields
    of one that is replaced."""
    return [(21, dict(id=9 + place)), (28, dict(person=0)), (22, dict(entry=60)), (23, dict(age=61)),
            (24, dict(salary=MOST_SALARY + 1)), (25, dict(salary=dollars(OVER_FULL))), (29, dict(salary=dollars(FULL)))]


def wrong_members(place):
    return [(number, member(place, **fields)) for number, fields in member_faults(place)]


# ---- refused values, each with the number that is due

def two_of_plan():
    for (number, fault), (_, other) in combinations(PLAN_FAULTS, 2):
        yield other(fault(crowd(2))), number


def two_of_members():
    """Of one member the first number in order; of two the first one's, whatever the number."""
    values = crowd(4)
    for (number, fields), (_, others) in combinations(member_faults(2), 2):
        if fields.keys() != others.keys():
            yield member(2, **fields, **others)(values), number
    for (number, fault), (_, other) in product(wrong_members(1), wrong_members(3)):
        yield other(fault(values)), number


def of_kinds():
    """A fault of the plan or none, with and without too many members, with and without a wrong one."""
    for (of_plan, fault), count, (of_member, wrong) in product([NO_FAULT, *PLAN_FAULTS], (3, MOST_MEMBERS + 1),
                                                               [NO_FAULT, *wrong_members(2)]):
        too_many = 27 if count > MOST_MEMBERS else 0
        yield wrong(fault(crowd(count))), of_plan or too_many or of_member


def of_counts():
    """Up to 1,000 members, and more; a wrong one at some places, which counts where they aren't too many."""
    for count in (0, 1, 999, 1000):
        yield crowd(count), 0
    for place, count in product((1, 500, 999), (1000, 1001)):
        for number, wrong in wrong_members(place):
            yield wrong(crowd(count)), number if count == MOST_MEMBERS else 27
    for count in (1001, 1002, 1999, 2000):
        yield crowd(count), 27
        yield from ((wrong(crowd(count)), 27) for _, wrong in wrong_members(count - 1))


def in_turn(*salaries):
    """A line for each, of two persons in turn."""
    members = [Member(place, person, 30, 40, dollars(salary))
               for place, person, salary in zip(range(1, MOST_NUMBER), cycle([ONE, ANOTHER]), salaries)]
    return crowd(0)._replace(members=members)


def of_persons():
    """Rules 7.10 and 14.24: each of two persons has just the ceiling; or one of them a cent more, which is too much by the
    unit valued and not by a lower one."""
    yield in_turn(HALF, HALF, HALF, HALF), 0
    yield in_turn('333333.35', HALF, '333333.32', HALF), 0
    for place in range(4):
        over = member(place, salary=dollars(OVER_HALF))(in_turn(HALF, HALF, HALF, HALF))
        yield over, 29
        yield from ((amendment(at, struck=1)(over), 0) for at in (0, 1))


def known():
    return chain(two_of_plan(), two_of_members(), of_kinds(), of_counts(), of_persons())


# ---- each field in turn, at its ends

def at_ends(values):
    for field, end in product(Plan._fields, (0, TOP)):
        yield term(**{field: end})(values)
    for place, field, end in product(range(len(values.amendments)), Amendment._fields, (0, TOP)):
        yield amendment(place, **{field: end})(values)
    for age, place, end in product(AGES, range(4), (0, TOP_OF_ROW)):
        yield row(age, *(end if at == place else number for at, number in enumerate(values.rows[age])))(values)
    for place, field, end in product(range(len(values.members)), Member._fields, (0, TOP)):
        yield member(place, **{field: end})(values)


def lone(case):
    return Values(case.plan, case.amendments, case.rows, [case.member])


def undecided(rng):
    """What is due isn't known of these but by the oracle: fields at their ends, and lone members of other tests."""
    yield from at_ends(crowd(3))
    yield from at_ends(term(formula=FLAT, unit=90000, average=0)(crowd(2)))
    yield from map(lone, plain_values(rng))


# ---- the files of other tests

def files(rng):
    """All whose answer is known beforehand, and some of the drawn ones: working those takes longer than comparing them."""
    yield from value_files.files(rng, 60)
    for cases in (amendments.known(), persons.known(rng), case_files.worked()):
        yield from (case for case, *_ in cases)
    shared = [*islice(shared_files.files(rng), 30), *(shared_files.of_many(rng, method) for method in METHODS)]
    yield from (value_files.case_file(*one) for one in shared)


def readable(cases):
    """Those of the right form, each with the values that stand in it and with what accepting says. Where a number is too
    large for a row's field, there are no such values."""
    for case in cases:
        try:
            values = Values(*walk(case, False))
        except Refused:
            continue
        if max(chain(*values.rows.values())) <= TOP_OF_ROW:
            yield case, values, accepting(case)


# ---- comparing

def give(answers, values, room, number, case=b''):
    """Holds the oracle to the number and the file that are due."""
    said = answers.values(values, room)
    if said != (number, case):
        sys.exit(f'writing: {values}, in a buffer of {room} bytes\n{number}, {case} is due, and the oracle says {said}')


def give_valued(answers, cases):
    """Accepted values, in buffers that are too short, that just fit and that are longer. What is written goes to the
    exports that value."""
    for values in cases:
        case = case_file(values)
        for room in (0, len(case) - 1):
            give(answers, values, room, 30)
        for room in (len(case), len(case) + 1):
            give(answers, values, room, 0, case)
        answers.file(case, len(lines(case)))


def give_known(answers, cases):
    """In no room and in some: 30 is the last of all refusals."""
    for values, number in cases:
        give(answers, values, 0, number or 30)
        if number:
            give(answers, values, SOME_ROOM, number)
        else:
            give(answers, values, LONGEST, 0, case_file(values))


def give_undecided(answers, cases):
    for values in cases:
        answers.values(values, SOME_ROOM)


def give_back(answers, cases):
    """How many files come back as they are, and of how many the values are refused."""
    back, refused = 0, 0
    for case, values, accepted in readable(cases):
        if accepted:
            give(answers, values, len(case), accepted[0])
            refused += 1
        else:
            give(answers, values, len(case), 0, case)
            back += 1
    return back, refused


def check_longest():
    if len(case_file(longest())) != LONGEST or accepting(case_file(longest())):
        sys.exit(f'writing: the longest file has {len(case_file(longest()))} bytes, or is refused')


def check_counts(answers, back, refused):
    said = answers.written
    if set(said) != set(LEAST) or any(said[number] < count for number, count in LEAST.items()):
        sys.exit(f'writing: answers are {commands.counted(said)}, and should be so often at least: '
                 f'{commands.counted(LEAST)}')
    if back < LEAST_BACK or refused < LEAST_REFUSED:
        sys.exit(f'writing: of the files of other tests only {back} are accepted and {refused} refused')
    if any({*counter} != {0} for counter in (answers.read, answers.accepted, answers.valued)):
        sys.exit('writing: a file that is written is refused, or none is written')


def check():
    check_longest()
    answers = Answers()
    give_valued(answers, chain(made(), drawn(random.Random(17))))
    give_known(answers, known())
    give_undecided(answers, undecided(random.Random(18)))
    back, refused = give_back(answers, files(random.Random(19)))
    answers.hold('writing')
    check_counts(answers, back, refused)
    print(f'writing: {answers.written.total()} values and buffers are answered alike '
          f'({commands.counted(answers.written)}); {answers.valued[0]} written files are valued alike; of the files of '
          f'other tests {back} come back byte by byte, and the values of {refused} are refused with their numbers')


if __name__ == '__main__':
    commands.run('writing', __doc__, dict, check)
