"""Whole case files: what the program value prints, held to tests/value_oracle.py byte by byte.

    python3 tests/value_files.py --check [--files N] [--seed K]

The program is run once for each file: those worked by hand (RULES section 14), those at a bound, damaged ones, those
with two faults, those with a person on several lines, those with amendments, and N drawn ones. What it prints as
supplemental is also held to its limit (rule 11.4), a member's line must not hang on the other members (rule 11.5), and
amendments must count by their sum alone (rule 2.13). tests/library_answers.py gives the same files to the library.
"""
import argparse
import random
import re
import sys
from collections import Counter, defaultdict
from itertools import zip_longest
from pathlib import Path

import amendments
import case_oracle
import commands
import persons
import writing_oracle
from accuracy_search import largest_salary
from case_files import (ACCEPTING, FULL, HALF, OVER_HALF, amend, cut, damaged, file, filled, final_heading, good_files,
                        heading, many, member, ranges, spell, spells, stray_bytes, two_faults, worked_amendments,
                        worked_persons)
from member_figures import (SHORT_CASE, at_ends, at_largest_benefit, dollars, drawn_member, drawn_number, drawn_plan,
                            drawn_rates, drawn_weights, extreme_cases, straying_cases)
from oracle import (BD, FINAL, METHOD_NAMES, MOST_AMENDMENTS, MOST_ASSETS, MOST_BENEFIT, MOST_NUMBER, MOST_SALARY,
                    NO_PAYS, PAYS, YEARLY, Member, Plan, amended, benefit, level_table, most_unit, short_table, table)
from value_oracle import exact_supplemental, lines, supplemental_limit, valued
from writing_oracle import Values

ROOT = Path(__file__).parent.parent
PROGRAM = 'value'
EXAMPLES = ROOT / 'examples'
# Those with tables that are like real ones. In the short table all live to 65 and nobody longer, and two-spells and amended
# have the table of final-pay.
REAL = 'final-pay.case', 'textbook.case'
# No output is longer. A member line has an id of 9 digits, a B(r) of up to 1000000.00, and a V, N and L of less than
# 100000000.00 each, since A(50) is at most 71: 64 bytes. So the lines fit the program's buffer, and 30 can't occur.
LONGEST = 64112
# The files of a run, where nothing else is said: how many are drawn, and from which seed.
DRAWN, SEED = 2000, 11


def case_file(plan, rows, members, listed=()):
    """The case file of plain values, `listed` being the amendments. The plan has the heading's unit."""
    return writing_oracle.case_file(Values(plan, listed, rows, members))


def answer(case):
    """What the program writes for a file."""
    return commands.said(PROGRAM, case)


# ---- the cases worked by hand: RULES section 14

def worked():
    """By name, each with the lines that its output begins with by the rules: `*` is a field that they leave out."""
    short, level = short_table(), level_table()
    yield 'the short table', file(heading(), short, [member(7)]), (
        b'member=7,200.00,181.82,86.58,95.24\ntotal=1,181.82,86.58,95.24\nunfunded=75.24\nsupplemental=39.41\n')
    yield 'the short table, paid monthly', file(heading(pay=12), short, [member(7)]), (
        b'member=7,200.00,98.48,46.90,51.58\ntotal=1,98.48,46.90,51.58\nunfunded=31.58\nsupplemental=16.54\n')
    yield 'unfunded -100.00, years 2', file(heading(assets='100.00'), short, []), (
        b'total=0,0.00,0.00,0.00\nunfunded=-100.00\nsupplemental=-52.38\n')
    yield 'the empty file', b'', b'refused=2,1\n'
    yield 'end=0', file(heading(), short, []), b'total=0,0.00,0.00,0.00\n'
    yield 'salary 4125.50.75', file(heading(), short, [member(7, salary='4125.50.75')]), b'refused=20,116\n'
    for assets, payment in (('0.01', b'0.00'), ('0.03', b'-0.02'), ('0.05', b'-0.02')):
        yield f'interest 0, {assets} too much in 2 years', file(heading(interest=0, assets=assets), short, []), (
            b'total=0,0.00,0.00,0.00\nunfunded=-%s\nsupplemental=%s\n' % (assets.encode(), payment))
    yield from worked_methods(short, level)
    yield from worked_benefits(short)
    yield from worked_bounds(short, level)
    yield from worked_spells()
    yield from worked_lists(short)


def worked_methods(short, level):
    for pay, (at_64, at_63, figures, cost_of_cp) in SHORT_CASE.items():
        for method, (cost, liability) in figures.items():
            case = file(heading(pay=pay, method=method), short, [member(7)])
            yield f'{method} at 64, pay {pay}', case, f'member=7,200.00,{at_64},{cost},{liability}\n'.encode()
            case = file(heading(pay=pay, method=method), short, [member(7, 63, 63)])
            cost = cost_of_cp if method == 'CP' else '*'
            yield f'{method} at 63, pay {pay}', case, f'member=7,200.00,{at_63},{cost},0.00\n'.encode()
    for method in METHOD_NAMES.values():
        case = file(heading(interest=0, method=method), level, [member(1, 35, 45)])
        yield f'{method}, interest 0', case, b'member=1,*,168000.00,5600.00,56000.00\n'


def worked_benefits(short):
    paid = [member(7, salary='10000.00')]
    yield 'career', file(heading(formula='career', unit=200), short, paid), b'member=7,381.82,'
    for average, said in ((2, b'member=7,381.82,'), (1, b'member=7,400.00,')):
        yield f'final, average {average}', file(heading(formula='final', unit=200, average=average), short, paid), said


def worked_bounds(short, level):
    stands = b'total=0,0.00,0.00,0.00\n'
    for retire, said in ((49, b'refused=11,2\n'), (50, stands), (75, stands), (76, b'refused=11,2\n')):
        yield f'retire {retire}', file(heading(retire=retire), short, []), said
    for pay in (*PAYS, *NO_PAYS):
        yield f'pay {pay}', file(heading(pay=pay), short, []), stands if pay in PAYS else b'refused=11,3\n'
    for retire, said in ((65, b'member=7,50000.00,13363.59,'), (64, b'member=7,49000.00,75727.27,')):
        crowded = {**short, 64: (400000, 300000, 300001, 1100)}
        case = file(heading(retire=retire, unit=100000), crowded, [member(7, 15, 64)])
        yield f'rates that sum to 1000001 at 64, retire {retire}', case, said
    yield 'weight 999', file(heading(), {**short, 15: (0, 0, 0, 999)}, []), b'refused=15,10\n'
    final = final_heading()
    for service, said in ((20, b'member=7,1000000.00,'), (21, b'refused=25,116\n')):
        members = [member(7, 65 - service, 60, '1000000.00')]
        yield f'salary 1000000.00, {service} years', file(final, level, members), said
    final = final_heading(retire=60)
    for salary, said in (('666666.67', b'member=7,1000000.00,'), ('666666.68', b'refused=25,116\n')):
        yield f'salary {salary}, 30 years', file(final, short, [member(7, 30, 40, salary)]), said


def worked_spells():
    """Rule 14.24: of each line its own benefit is printed, with its id and without its person."""
    for salaries, benefits in (((HALF, HALF), ('500000.00', '500000.00')),
                               (('333333.35', '333333.32'), ('500000.02', '499999.98'))):
        said = ''.join(f'member={id},{benefit},*,*,*\n' for id, benefit in enumerate(benefits, 7))
        case = spells(*(spell(id, 1, salary) for id, salary in enumerate(salaries, 7)))
        yield f'two spells, {benefits}', case, said.encode()
    yield 'two spells, a cent too much', spells(spell(7, 1, HALF), spell(8, 1, OVER_HALF)), b'refused=29,117\n'
    yield 'two persons', spells(spell(7, 1, FULL), spell(8, 2, FULL)), (
        b'member=7,1000000.00,*,*,*\nmember=8,1000000.00,*,*,*\n')


def worked_lists(short):
    """Rules 2.11 to 2.13: the short case, where the heading's unit and the additions in force come to the 10000 of it; and
    what is printed of a list that is refused."""
    said = b'member=7,200.00,181.82,86.58,95.24\ntotal=1,181.82,86.58,95.24\nunfunded=75.24\nsupplemental=39.41\n'
    for unit, listed in ((4000, [(1, 0, 5000, 0), (2, 1, 1000, 0)]), (0, [(999, 0, 10000, 0)]),
                         (4000, [(1, 0, 5000, 1), (2, 1, 1000, 0), (3, 0, 6000, 0), (4, 2, 1, 0)]),
                         (10000, [(1, 0, 100000, 1), (2, 1, 100000, 0), (3, 2, 100000, 0)]),
                         (0, amendments.chain([500] * MOST_AMENDMENTS)),
                         (5000, amendments.chain([500] * 10 + [100000] * 10, struck=[10]))):
        case = file(heading(unit=unit) + [amend(*one) for one in listed], short, [member(7)])
        yield f'unit {unit} and {listed}', case, said
    for listed, said in (([(1, 0, 90001, 0)], b'refused=55,10\n'), ([(1, 1, 0, 0)], b'refused=54,10\n'),
                         ([(2, 0, 0, 0), (1, 0, 0, 0)], b'refused=53,11\n'), ([(1, 0, 0, 2)], b'refused=11,10\n'),
                         (amendments.chain([0] * 21), b'refused=53,30\n'), ([(1, 0, '', 0)], b'refused=10,10\n')):
        yield f'the list {listed}', file(heading() + [amend(*one) for one in listed], short, [member(7)]), said


def check_worked():
    """The oracle prints what is worked by hand, and what is stored beside the examples."""
    for name, case, said in worked():
        if not re.match(re.escape(said).replace(rb'\*', rb'[^,\n]*'), lines(case)):
            differ(case, f'{name}: the rules say {said}', f'the oracle {lines(case)}')
    for example in examples():
        stored = example.with_suffix('.lines').read_bytes()
        if lines(example.read_bytes()) != stored:
            sys.exit(f'value_files: the lines of {example.name} are not what the oracle prints')


def examples():
    return sorted(EXAMPLES.glob('*.case'))


# ---- files at bounds

def bounds():
    """Of a number's range, of the file's length and of the count of members."""
    small, short = good_files()[0], short_table()
    return [*good_files(), *ranges(), b'\n', small[:-1], small + b'\n', small.replace(b'end=1', b'end=2'),
            file(heading(average=1), short, []), file(heading(), {**short, 120: (999999, 1, 0, 1100)}, []),
            *map(many, (999, 1000, 1001)), *map(filled, (65536, 65537, 300000))]


def largest_figures():
    """One member each: the largest benefits, the ends of a member's ages and of a plan's terms, and every rounding
    pushing one way."""
    cases = [*at_largest_benefit(), *extreme_cases(), *at_ends(), *straying_cases()]
    return [case_file(case.plan, case.rows, [case.member], case.amendments) for case in cases]


def longest():
    """Each line as long as it can be: pay rises a hundredfold before retirement, nobody leaves before 120, and each member
    is another person."""
    rows = table(lambda k: (0, 0, 0), lambda k: 1000 if k < 49 else 100000)
    members = [Member(id, id, 46, 48, dollars('50000.00')) for id in range(999999000, 1000000000)]
    case = case_file(Plan(0, 50, YEARLY, FINAL, 500, 1, BD, MOST_ASSETS, 1), rows, members)
    assert len(lines(case)) == LONGEST and lines(case, LONGEST - 1) == b'refused=30,0\n'
    return case


def balanced(rng):
    """So many cents unfunded, or over; some of these make a supplemental of 0.00, which has no sign."""
    for interest, years in ((0, 1), (0, 2), (0, 3), (0, 40), (1000, 2), (2000, 40)):
        plan = drawn_plan(rng)._replace(interest=interest, years=years)
        rows = drawn_rows(rng)
        members = list(drawn_members(rng, plan, rows, 3))
        liability = valued(plan, rows, members).total('liability')
        for cents in (0, 1, 2, 3, 20, 10000):
            yield case_file(plan._replace(assets=liability + cents), rows, members)
            yield case_file(plan._replace(assets=max(0, liability - cents)), rows, members)


# ---- damaged files

def damaged_files(rng):
    """Half of them outside the rows, which are most of a file."""
    small, *others = good_files()
    files = rng.sample(cut(small), 50)
    for case in (small, *others[1:]):
        made = list(damaged(case))
        rows = case[case.index(b'row='):case.rindex(b'row=')]
        files += rng.sample(made, 75) + rng.sample([one for one in made if rows in one], 75)
        files += stray_bytes(case, rng, 25)
    return files


# ---- drawn files

def drawn_rows(rng):
    """Drawn ones; or those of an example, which are like real ones."""
    if rng.random() < 0.8:
        return table(drawn_rates(rng), drawn_weights(rng))
    _, _, rows, _ = case_oracle.walk((EXAMPLES / rng.choice(REAL)).read_bytes(), True)
    return rows


def drawn_person(rng, earlier):
    """Every third time one of the earlier ones, where there are any."""
    return rng.choice(earlier) if earlier and rng.randrange(3) == 0 else rng.randint(1, MOST_NUMBER)


def drawn_members(rng, plan, rows, count):
    """Accepted ones of a plan, as it is amended, some of them further lines of a person: the salary is the largest where it
    would be over it, by what is left for the person."""
    left = defaultdict(lambda: MOST_BENEFIT)
    for id in sorted(rng.sample(range(1, MOST_NUMBER + 1), count)):
        drawn = drawn_member(rng, plan, rows)
        age = rng.choice([drawn.age, drawn.age, drawn.age, plan.retire - 1])
        # By flat no salary makes the benefit less.
        least = benefit(plan, rows, drawn._replace(age=age, salary=0), plan.retire)
        person = drawn_person(rng, [one for one, cents in left.items() if cents >= least])
        drawn = drawn._replace(id=id, person=person, age=age)
        drawn = drawn._replace(salary=min(drawn.salary, largest_salary(plan, rows, drawn, left[person])))
        left[person] -= benefit(plan, rows, drawn, plan.retire)
        yield drawn


def drawn_valued(rng, count):
    """A plan, rows, so many members and amendments, all accepted. Half of the plans have no amendments."""
    plan, listed = amendments.drawn_amended(rng, drawn_plan(rng))
    rows = drawn_rows(rng)
    return plan, rows, list(drawn_members(rng, amended(plan, listed), rows, count)), listed


def drawn_file(rng, count):
    """With assets about the liability in most, so that the unfunded has either sign. Some have a fault."""
    plan, rows, members, listed = drawn_valued(rng, count)
    liability = valued(amended(plan, listed), rows, members).total('liability')
    assets = rng.choice([0, plan.assets, rng.randint(0, 2 * liability), max(0, liability + rng.randint(-9, 9))])
    plan = plan._replace(assets=assets)
    fault = rng.choices([None, 'pay', 'list', 'member', 'persons', 'byte'], [75, 2, 5, 5, 8, 10])[0]
    if fault == 'pay':
        plan = plan._replace(pay=rng.choice(NO_PAYS))
    if fault == 'list':
        listed = faulty_list(rng, plan, listed)
    if fault == 'member':
        members.append(faulty_member(rng, amended(plan, listed), rows))
    if fault == 'persons':
        members = with_few_persons(rng, members)
    case = case_file(plan, rows, members, listed)
    return next(stray_bytes(case, rng, 1)) if fault == 'byte' else case


def faulty_list(rng, plan, listed):
    """With a field that is wrong, or, where there was no list, additions that are 1 too much."""
    if listed:
        return amendments.spoiled(rng, listed, 1)[0]
    return amendments.drawn_list(rng, most_unit(plan.formula) - plan.unit + 1, 3)


def faulty_member(rng, plan, rows):
    """A last member, with one field over its bound or a salary that makes the benefit too large."""
    last = drawn_member(rng, plan, rows)._replace(id=999999999)
    faults = [dict(id=0), dict(id=1000000000), dict(person=0), dict(person=1000000000), dict(entry=14),
              dict(entry=plan.retire), dict(age=last.entry - 1), dict(age=plan.retire + 1), dict(salary=MOST_SALARY),
              dict(salary=MOST_SALARY + 1)]
    return last._replace(**rng.choice(faults))


def with_few_persons(rng, members):
    """The same as lines of one person or two, whatever these come to."""
    few = [drawn_number(rng) for _ in range(rng.choice([1, 2]))]
    return [one._replace(person=rng.choice(few)) for one in members]


def drawn_files(rng, count):
    for _ in range(count):
        members, = rng.choices([0, 1, 2, 3, 8, 100], [10, 40, 20, 20, 9, 1])
        yield drawn_file(rng, members)


def files(rng, count):
    yield from (case for _, case, _ in worked())
    yield from (example.read_bytes() for example in examples())
    yield from bounds()
    yield longest()
    yield from largest_figures()
    yield from balanced(rng)
    yield from damaged_files(rng)
    yield from (case for case, _, _ in two_faults(2))
    yield from (case for case, _, _ in (*worked_persons(), *persons.some(rng)))
    yield from (case for case, _, _ in (*worked_amendments(level_table()), *amendments.some(rng)))
    yield from (case_file(*drawn_valued(rng, 1000)) for _ in range(5))
    yield from drawn_files(rng, count)


# ---- comparing

def differ(case, *said):
    sys.exit('\n'.join(['value_files: the file', case.decode(errors='backslashreplace'), *said]))


def hold(case, refused, signs):
    """Holds what the program writes to the oracle, and counts it: by the refusal's number, or by the plan's signs."""
    expected, said = lines(case), answer(case)
    if said != expected:
        pairs = zip_longest(expected.split(b'\n'), said.split(b'\n'))
        place, (line, wrong) = next((at, both) for at, both in enumerate(pairs, 1) if both[0] != both[1])
        differ(case, f'line {place} of the output: {line} is expected, and the program writes {wrong}')
    if said.startswith(b'refused='):
        refused[int(said[8:].split(b',')[0])] += 1
    else:
        signs[hold_supplemental(case, said)] += 1


def hold_supplemental(case, said):
    """Holds it to its limit. The answer is the signs of the unfunded and of the supplemental."""
    plan = case_oracle.heading(case_oracle.Lines(case), False)
    unfunded, supplemental = (dollars(line.split('=')[1]) for line in said.decode().split('\n')[-3:-1])
    if abs(supplemental - exact_supplemental(plan, unfunded)) > supplemental_limit(unfunded):
        differ(case, f'unfunded {unfunded}, supplemental {supplemental}: it is over its limit')
    return sign(unfunded), sign(supplemental)


def sign(number):
    return (number > 0) - (number < 0)


def check_independence(rng, pairs):
    """Rule 11.5: a member's line stays as it is when the other members change, also where its person has more lines in one
    of two files and none in the other."""
    several = 0
    for _ in range(pairs):
        plan, rows, members, listed = drawn_valued(rng, 5)
        kept = rng.choice(members)
        several += [one.person for one in members].count(kept.person) > 1
        others = [other for other in drawn_members(rng, amended(plan, listed), rows, 4)
                  if other.id != kept.id and other.person != kept.person]
        both = [case_file(plan, rows, sorted(group), listed) for group in (members, [kept, *others])]
        printed = [[line for line in answer(case).split(b'\n') if line.startswith(b'member=%d,' % kept.id)]
                   for case in both]
        if len(printed[0]) != 1 or printed[0] != printed[1]:
            differ(both[0], f'member {kept.id} is printed {printed[0]} here, and {printed[1]} among others')
    if several < pairs // 10:
        sys.exit(f'value_files: in only {several} of {pairs} files the person of the kept line has another one')


def check_amended(rng, pairs):
    """Rule 2.13: amendments count by what those in force add to the unit, and in nothing else. So a file prints what the
    one without a list does that has the sum in its heading; and with a list that adds nothing the same again."""
    for _ in range(pairs):
        listed = ()
        while not listed:
            plan, rows, members, listed = drawn_valued(rng, rng.choice([1, 3]))
        in_heading = plan._replace(unit=plan.unit + amendments.added(listed))
        said = answer(case_file(plan, rows, members, listed))
        for more in ((), *amendments.IDLE):
            case = case_file(in_heading, rows, members, more)
            if answer(case) != said or said.startswith(b'refused='):
                differ(case, f'the program writes {answer(case)} here', f'and {said} with unit {plan.unit} and {listed}')


def check(count, seed):
    check_worked()
    rng, refused, signs = random.Random(seed), Counter(), Counter()
    for case in files(rng, count):
        hold(case, refused, signs)
    check_independence(rng, 50)
    check_amended(rng, 50)
    if set(refused) != ACCEPTING:
        sys.exit(f'value_files: the files give the refusals {sorted(refused)}')
    if set(signs) != {(1, 1), (1, 0), (0, 0), (-1, 0), (-1, -1)}:
        sys.exit(f'value_files: the signs of unfunded and supplemental are {sorted(signs)}')
    print(f'value_files: {refused.total() + signs.total()} files agree; {signs.total()} valued, '
          f'{refused.total()} refused ({commands.counted(refused)})')


def main():
    parser = argparse.ArgumentParser(description=__doc__, formatter_class=argparse.RawDescriptionHelpFormatter)
    parser.add_argument('--check', action='store_true', required=True)
    parser.add_argument('--files', type=int, default=DRAWN, help='how many drawn ones')
    parser.add_argument('--seed', type=int, default=SEED)
    chosen = parser.parse_args()
    check(chosen.files, chosen.seed)


if __name__ == '__main__':
    main()
