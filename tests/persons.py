"""One person on several lines (rules 4.7 and 7.10): the program test_case_answers held to what is known of each file.

    python3 tests/persons.py --check    builds and runs crates/test_case_answers on every file and compares

The lines of each person come to 1000000.00 and not a cent less, so that the file is accepted, and isn't where two persons
are taken for one or a line is counted twice; or those of one person come to a cent more, which is refused at its last
line, and isn't where a line is forgotten. The persons are such as a search by their numbers could confuse, or take long
for: they differ in one bit, or in the high bits alone, or come one after the other. Their lines stand together or apart.
Of drawn files that isn't known: they are held to tests/case_oracle.py, and so are all others.
"""
import random
import sys
from collections import Counter
from itertools import product

import commands
from case_files import ANOTHER, NO_PERSONS, ONE, PERSONS, TABLE_END, file, final_heading, hold, hold_oracle, member
from case_oracle import MOST_MEMBERS, accepting
from oracle import MOST_BENEFIT, MOST_NUMBER, level_table
from value_oracle import amount

# How many persons there are in most of the files, each with two lines.
SOME = 60
DRAWN = 1500
# How often each number must be answered at least, 0 for none: of the files of which it is known, and of the drawn ones.
LEAST_KNOWN = {0: 120, 29: 370}
LEAST_DRAWN = dict.fromkeys((0, 25, 28, 29), DRAWN // 50)


def case_of(lines, entry=45):
    """A file of lines, each a person and the cents of its benefit: with 20 years of service, equal weights and 5 percent of
    the last pay for each year the benefit is the salary (rule 14.13)."""
    members = [member(id, entry, 60, amount(cents), person) for id, (person, cents) in enumerate(lines, 1)]
    return file(final_heading(), level_table(), members)


# ---- persons

def within(numbers):
    """Those that a person can have, each once."""
    return [*dict.fromkeys(number for number in numbers if 1 <= number <= MOST_NUMBER)]


def but_for_one_bit(number):
    """Each that differs from the number in one bit, the lowest first, and then the number itself. The later one of two is
    like the last in more of the low bits."""
    return within([*(number ^ 2**bit for bit in range(30)), number])


def alike_in_low_bits(rng, bits, count):
    """So many that differ above the low bits alone, or as many as there are."""
    low = rng.randrange(1, 2**bits)
    high = range((MOST_NUMBER - low) // 2**bits + 1)
    return [low + 2**bits * number for number in rng.sample(high, min(count, len(high)))]


def crowds(rng):
    yield [*PERSONS]
    yield [*range(1, SOME + 1)]
    yield [*range(MOST_NUMBER, MOST_NUMBER - SOME, -1)]
    yield within(2**bit for bit in range(30))
    yield within(2**bit - 1 for bit in range(31))
    for _ in range(3):
        yield but_for_one_bit(rng.randint(1, MOST_NUMBER))
    for bits in (1, 4, 8, 12, 13, 16, 20, 24, 28):
        yield alike_in_low_bits(rng, bits, SOME)
        yield sorted(alike_in_low_bits(rng, bits, SOME))
    yield [12345 + 1000000 * high for high in range(SOME)]
    yield [1 + 4096 * high for high in range(SOME)]
    yield rng.sample(range(1, MOST_NUMBER + 1), SOME)


# ---- the order of lines

def together(persons):
    return [person for person in persons for _ in range(2)]


def apart(persons):
    return [*persons, *persons]


def there_and_back(persons):
    return [*persons, *reversed(persons)]


ORDERS = together, apart, there_and_back


def shares(rng, count):
    """The ceiling in so many parts, in cents, each above 1."""
    cuts = sorted(rng.sample(range(2, MOST_BENEFIT // 2), count - 1))
    return [2 * (end - start) for start, end in zip([0, *cuts], [*cuts, MOST_BENEFIT // 2])]


def lines_of(rng, order):
    """The lines of the persons in this order, by which those of each come to the ceiling."""
    parts = {person: shares(rng, count) for person, count in Counter(order).items()}
    return [(person, parts[person].pop()) for person in order]


def one_cent_more(lines, person):
    """The same with a cent more in the person's first line, which is refused at its last one: no part is of one cent."""
    places = [place for place, (one, _) in enumerate(lines) if one == person]
    more = [(one, cents + (place == places[0])) for place, (one, cents) in enumerate(lines)]
    return case_of(more), None, (29, TABLE_END + 1 + places[-1])


# ---- files, each with what reading and accepting must say

def in_order(rng, order):
    """Accepted; and with a cent more of the first of those on several lines, of the last of them and of another."""
    lines = lines_of(rng, order)
    yield case_of(lines), None, None
    several = [person for person, count in Counter(order).items() if count > 1]
    if several:
        yield from (one_cent_more(lines, person) for person in (several[0], several[-1], rng.choice(several)))


def crowded(rng):
    """Each crowd in each order."""
    for persons in crowds(rng):
        for order in (*ORDERS, lambda persons: rng.sample(together(persons), 2 * len(persons))):
            yield from in_order(rng, order(persons))


def full(rng):
    """As many lines as a file may have: of one person; of three; of as many persons, and of as many but one; of half as
    many, with much in common; and of one after others that are like it in more and more bits."""
    anyone, half = range(1, MOST_NUMBER + 1), MOST_MEMBERS // 2
    yield from in_order(rng, [ONE] * MOST_MEMBERS)
    yield from in_order(rng, [*PERSONS, ANOTHER, ANOTHER] * (MOST_MEMBERS // 4))
    yield from in_order(rng, rng.sample(anyone, MOST_MEMBERS))
    yield from in_order(rng, [ANOTHER, *rng.sample(anyone, MOST_MEMBERS - 2), ANOTHER])
    for bits, order in product((12, 20), ORDERS):
        yield from in_order(rng, order(alike_in_low_bits(rng, bits, half)))
    chain = but_for_one_bit(ANOTHER)
    yield from in_order(rng, chain + [chain[-1]] * (MOST_MEMBERS - len(chain)))


def known(rng):
    yield from crowded(rng)
    yield from full(rng)


def some(rng):
    """A few of these, for the tests of whole files."""
    return rng.sample([*crowded(rng)], 40) + rng.sample([*full(rng)], 3)


# ---- drawn files

def drawn_line(rng, pool, most):
    """Now and then the person is out of range, or the line has all that a person may have."""
    person = rng.choice(pool) if rng.randrange(50) else rng.choice(NO_PERSONS)
    return person, rng.randint(0, min(most, MOST_BENEFIT)) if rng.randrange(30) else MOST_BENEFIT


def drawn_file(rng):
    """Of few persons, whose lines come to about the ceiling; with 21 years of service some benefits are over it by
    themselves."""
    pool = within(rng.choice([*PERSONS, ONE, ANOTHER, rng.randint(1, MOST_NUMBER)]) for _ in range(rng.randint(1, 5)))
    count = rng.randint(1, 6 * len(pool))
    lines = [drawn_line(rng, pool, 3 * MOST_BENEFIT * len(pool) // (2 * count)) for _ in range(count)]
    return case_of(lines, entry=rng.choice([45, 45, 45, 44]))


def counted(answers, least):
    """How often each number is answered, 0 for none; no others than these are, and each as often at least."""
    said = Counter(number for number, _ in (answer or (0, 0) for answer in answers))
    if set(said) != set(least) or any(said[number] < count for number, count in least.items()):
        sys.exit(f'persons: files are refused so often: {commands.counted(said)}, and should be {commands.counted(least)}')
    return said


def check():
    rng = random.Random(15)
    files = [*known(rng)]
    hold_oracle('persons', files)
    counted((accepted for _, _, accepted in files), LEAST_KNOWN)
    drawn = [drawn_file(rng) for _ in range(DRAWN)]
    said = counted(map(accepting, drawn), LEAST_DRAWN)
    read, refused = hold('persons', [case for case, _, _ in files] + drawn)
    if read:
        sys.exit(f'persons: reading refuses {commands.counted(read)}')
    print(f'persons: {len(files)} files of which it is known agree, and {DRAWN} drawn ones, {said[0]} of them accepted; '
          f'accepting refuses {commands.counted(refused)}')


if __name__ == '__main__':
    commands.run('persons', __doc__, dict, check)
