"""Case files with output buffers of some length each: what two test programs hold the entries that write to.

A buffer is filled with one byte, and so are some bytes after it; what they hold then is compared too. A file goes to the
programs after its length and the length of its buffer, 4 bytes each, the little end first.
"""
import random
import struct

import amendments
from case_files import amend, damaged, file, filled, good_files, heading, many, member, ranges, two_faults
from case_oracle import Refused
from oracle import short_table
from value_files import drawn_files, examples, longest
from value_oracle import ROOM, ended, lines

FILL = b'\xa5'
AFTER = 16
# The longest lines, that of a member and the plan's three: where these fit, crates/fitting measures none.
LONGEST_LINE, LONGEST_PLAN_LINES = 64, 145


def given(case, room):
    return struct.pack('<II', len(case), room) + case


def buffer(written, room):
    """What a buffer of so many bytes holds, and what follows it, after these were written at its start."""
    return written + FILL * (room + AFTER - len(written))


def outcome(entry, case, room):
    """What an entry that writes gives: the refusal's number and line, 0 for none, and what it writes."""
    try:
        return (0, 0), entry(case, room)
    except Refused as refusal:
        return refusal.args, b''


def about(text):
    """A buffer that the text just fits, one that is a byte short, and one that has a byte left."""
    return {len(text) - 1, len(text), len(text) + 1}


def about_printed(case):
    """About the length of what is printed, and about that of the line of a refusal for want of room."""
    return {0, 1, ROOM} | about(lines(case)) | about(ended(['refused=30,0']))


def about_measured(case):
    """The longest buffer for which the lines of so many members are measured, and the shortest for which they aren't."""
    surely = LONGEST_LINE * case.count(b'\nmember=') + LONGEST_PLAN_LINES
    return {surely - 1, surely}


def rooms(case):
    """All these, the shortest first."""
    return sorted(about_printed(case) | about_measured(case))


def small():
    """A few files, for what the crate stores: accepted with one member, paid monthly, with none, and with amendments, and
    refused."""
    case = file(heading(pay='12'), short_table(), [member(7)])
    listed = file(heading(unit='9000') + [amend(1, 0, 800), amend(4, 1, 5), amend(9, 0, 50, 1)], short_table(), [member(7)])
    return [case, file(heading(), short_table(), []), listed, b'', case[:9], case.replace(b'retire=65', b'retire=49')]


def files(rng):
    yield from good_files()
    yield from ranges()
    yield from (example.read_bytes() for example in examples())
    yield from (longest(), many(1000), many(1001), filled(65536), filled(65537), b'')
    yield from rng.sample([*damaged(good_files()[2])], 60)
    yield from (case for case, _, _ in rng.sample([*two_faults(1)], 60))
    yield from (case for case, _, _ in rng.sample(amendments.some(rng), 40))
    yield from drawn_files(rng, 100)


def files_with_rooms():
    return [(case, room) for case in files(random.Random(7)) for room in rooms(case)]
