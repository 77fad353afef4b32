"""The desk's command bin/value: its standard output, its standard error and its exit status, each held byte by byte.

    python3 tests/desk.py --check

Good and bad input goes to the command as it stands in the repository, over the proved program. What a broken program or
a changed source does is tried in a copy of the command, where a small script takes the place of rt and another one that
of the program. The words of the refusals are those of bin/refusals.tsv, in README.md and embed/kuyeshan.h too; and who
mends them is also that of docs/RULES.md. The case that README.md shows, and what is printed of it, are the example's.
"""
import errno
import os
import pty
import re
import resource
import shutil
import signal
import subprocess
import sys
import tempfile
from itertools import zip_longest
from pathlib import Path

from amendments import with_list
from case_files import ACCEPTING, HALF, OVER_HALF, filled, many, spell, spells
from value_oracle import lines

ROOT = Path(__file__).resolve().parent.parent
COMMAND = ROOT / 'bin' / 'value'
EXAMPLES = ROOT / 'examples'
TABLE = ROOT / 'bin' / 'refusals.tsv'
README = (ROOT / 'README.md').read_text(encoding='utf-8')
# What the rules list. No file gives 30, since the program's buffer holds all outputs.
RULES = ACCEPTING | {30}
# What they listed once. These stand in no list again, and the command doesn't take one for an answer.
RETIRED = {13, 26}
SENDER, ACTUARY, PAYROLL = 'the sender of the file', 'the plan actuary', 'the payroll office'
# In the order in which the words of the refusals are listed.
MENDERS = SENDER, ACTUARY, PAYROLL, 'the calling program'
CR = 'the line ends in CR, byte 13; save the file with line ends LF'
MARK = 'the file begins with a byte-order mark; save it as plain text without one'
UTF8 = b'\xef\xbb\xbf'
USAGE = 'usage: value [FILE | DIR | -]..\n'
NOBODY = 65534

GOOD = (EXAMPLES / 'short.case').read_bytes()
GOOD_LINES = (EXAMPLES / 'short.lines').read_bytes()
BAD = GOOD.replace(b'member=7,1,63,64,0.00', b'member=7,1,63,64,4125.50.75')
BAD_SAID = (':116: refused 20, neither a member nor an end line, or its form is wrong: "member=7,1,63,64,4125.50.75" '
            '(the payroll office mends it)\n')
held, left_out = [], []


# ---- running and comparing

def run(*names, command=COMMAND, stdin=b'', **more):
    """Runs the command. What it reads is bytes, or a file or descriptor."""
    if isinstance(stdin, bytes):
        more['input'] = stdin
    else:
        more['stdin'] = stdin
    return subprocess.run([command, *names], **{'stdout': subprocess.PIPE, 'stderr': subprocess.PIPE, **more})


def with_path(folder):
    """The environment, where commands are looked for in a folder first."""
    return {**os.environ, 'PATH': f'{folder}:{os.environ["PATH"]}'}


def hold(what, ran, status, out=b'', err=''):
    for kind, expected, got in (('exit status', status, ran.returncode), ('standard output', out, ran.stdout or b''),
                                ('standard error', err.encode(), ran.stderr or b'')):
        if got != expected:
            sys.exit(f'desk: {what}: {kind}\n{got!r} where it should be\n{expected!r}')
    held.append(what)


def unread(name, number):
    return f"{name}: can't be read: {os.strerror(number)}\n"


def unwritten(number):
    return f"value: standard output can't be written: {os.strerror(number)}\n"


def unbuilt(number, path):
    return f"value: the program can't be built: [Errno {number}] {os.strerror(number)}: '{path}'\n"


# ---- good input

def check_valued(desk):
    for example in sorted(EXAMPLES.glob('*.case')):
        hold(example.name, run(example), 0, example.with_suffix('.lines').read_bytes())
    hold('no name', run(stdin=GOOD), 0, GOOD_LINES)
    hold('the name -', run('-', stdin=GOOD), 0, GOOD_LINES)
    hold('a file and not standard input', run('good.case', cwd=desk, stdin=BAD), 0, GOOD_LINES)
    os.mkdir(desk / '-')
    hold('the name - where a folder has it too', run('-', cwd=desk, stdin=GOOD), 0, GOOD_LINES)
    os.rmdir(desk / '-')


def check_links(desk):
    (desk / 'link').symlink_to(os.path.relpath(COMMAND, desk))
    (desk / 'away').mkdir()
    (desk / 'away' / 'value').symlink_to('../link')
    hold('a link', run('good.case', command=desk / 'link', cwd=desk), 0, GOOD_LINES)
    hold('a link to a link', run('../good.case', command='./value', cwd=desk / 'away'), 0, GOOD_LINES)
    hold('a link on the PATH', run('good.case', command='value', cwd=desk, env=with_path(desk / 'away')), 0, GOOD_LINES)


# ---- refusals

def edited(**changed):
    """The short case with some of its lines replaced: l2='retire=49' is line 2."""
    made = GOOD.split(b'\n')
    for place, text in changed.items():
        made[int(place[1:]) - 1] = text.encode()
    return b'\n'.join(made)


def faults():
    """A file for each refusal that a file can give, and more of some: the number, the line, who mends it, the file."""
    yield 1, 0, SENDER, filled(65537)
    yield 1, 0, SENDER, filled(300000)
    yield 2, 1, SENDER, b''
    yield 2, 117, SENDER, GOOD[:-1]
    yield 2, 117, SENDER, GOOD[:GOOD.index(b'end=')]
    yield 3, 118, SENDER, GOOD + b'more\n'
    yield 3, 118, SENDER, filled(65536)
    yield 4, 117, SENDER, edited(l117='end=2')
    yield 10, 1, ACTUARY, edited(l1='intrest=1000')
    yield 10, 3, ACTUARY, edited(l3='pay=monthly')
    yield 10, 3, ACTUARY, GOOD.replace(b'pay=1\n', b'')
    yield 10, 4, ACTUARY, edited(l4='')
    yield 10, 10, ACTUARY, edited(l10='row=16,0,0,0,1000')
    yield 11, 2, ACTUARY, edited(l2='retire=49')
    yield 11, 3, ACTUARY, edited(l3='pay=4')
    yield 12, 6, ACTUARY, edited(l6='average=1')
    yield 14, 115, ACTUARY, edited(l115='row=120,999999,0,0,1100')
    yield 15, 10, ACTUARY, edited(l10='row=15,0,0,0,999')
    yield 10, 10, ACTUARY, with_list(GOOD, [b'amend=1,0,0'])
    yield 11, 10, ACTUARY, with_list(GOOD, [(1, 0, 100001, 0)])
    yield 15, 12, ACTUARY, with_list(edited(l10='row=15,0,0,0,999'), [(1, 0, 50, 0), (2, 1, 50, 0)])
    yield 53, 11, ACTUARY, with_list(GOOD, [(5, 0, 0, 0), (5, 0, 0, 0)])
    yield 53, 30, ACTUARY, with_list(GOOD, [(number, 0, 0, 0) for number in range(1, 22)])
    yield 54, 11, ACTUARY, with_list(GOOD, [(5, 0, 0, 0), (6, 4, 0, 0)])
    yield 55, 11, ACTUARY, with_list(GOOD, [(5, 0, 90000, 0), (6, 5, 1, 0)])
    yield 20, 116, PAYROLL, BAD
    yield 20, 116, PAYROLL, edited(l116='member=7,63,64,0.00')
    yield 20, 117, PAYROLL, edited(l117='end=01')
    yield 21, 116, PAYROLL, edited(l116='member=0,1,63,64,0.00')
    yield 22, 116, PAYROLL, edited(l116='member=7,1,65,65,0.00')
    yield 23, 116, PAYROLL, edited(l116='member=7,1,63,66,0.00')
    yield 24, 116, PAYROLL, edited(l116='member=7,1,63,64,1000000.01')
    yield 25, 116, PAYROLL, edited(l4='formula=final', l5='unit=500', l6='average=1', l116='member=7,1,15,64,1000000.00')
    yield 27, 1116, PAYROLL, many(1001)
    yield 28, 116, PAYROLL, edited(l116='member=7,0,63,64,0.00')
    yield 28, 116, PAYROLL, edited(l116='member=7,1000000000,63,64,0.00')
    yield 29, 117, PAYROLL, spells(spell(7, 1, HALF), spell(8, 1, OVER_HALF))


def quoted(case, line):
    """As the message has it. A line of which not one byte is there can't be quoted."""
    found = case.split(b'\n')
    text = found[line - 1].decode()
    if line == len(found) and not text:
        return ''
    return f': "{text}"' if len(text) <= 80 else f': "{text[:80]}".. of {len(text)} bytes'


def check_refused(desk, table):
    numbers = set()
    for number, line, who, case in faults():
        (desk / 'tried.case').write_bytes(case)
        where = f':{line}: refused {number}, {table[number][1]}{quoted(case, line)}' if line else (
            f': refused {number}, {table[number][1]}')
        said = f'refused={number},{line}\n'.encode()
        assert lines(case) == said
        for name, shown, stdin in (('tried.case', 'tried.case', b''), ('-', 'standard input', case)):
            hold(f'refusal {number} of {shown}', run(name, cwd=desk, stdin=stdin), 1, said,
                 f'{shown}{where} ({who} mends it)\n')
        numbers.add(number)
    if numbers != ACCEPTING:
        sys.exit(f'desk: the files give the refusals {sorted(numbers)}')
    hold("the issue's example", run('bad.case', cwd=desk), 1, b'refused=20,116\n', 'bad.case' + BAD_SAID)
    hold('an input with no end', run('/dev/zero'), 1, b'refused=1,0\n',
         f'/dev/zero: refused 1, over 65,536 bytes ({SENDER} mends it)\n')


def check_hints(table):
    """Bytes that a program put in on the file's way: the sender is told, and nobody else is blamed."""
    ended = GOOD.replace(b'\n', b'\r\n')
    first = 'interest=1000'
    for what, case, number, line, quote, hint in (
            ('CR LF', ended, 10, 1, rf'"{first}\r"', CR),
            ('CR alone', GOOD.replace(b'\n', b'\r'), 2, 1,
             '"' + GOOD[:80].decode().replace('\n', r'\r') + f'".. of {len(GOOD)} bytes', CR),
            ('CR LF after an amendment', with_list(GOOD, [b'amend=1,0,0,0\r']), 10, 10, r'"amend=1,0,0,0\r"', CR),
            ('CR LF after a row', edited(l10='row=15,0,0,0,1000\r'), 10, 10, r'"row=15,0,0,0,1000\r"', CR),
            ('CR LF after a member', edited(l116='member=7,1,63,64,0.00\r'), 20, 116, r'"member=7,1,63,64,0.00\r"', CR),
            ('CR LF at the end', edited(l117='end=1\r'), 20, 117, r'"end=1\r"', CR),
            ('a byte-order mark', UTF8 + GOOD, 10, 1, rf'"\xef\xbb\xbf{first}"', MARK),
            ('both', UTF8 + ended, 10, 1, rf'"\xef\xbb\xbf{first}\r"', f'{CR}; {MARK}'),
            ('two bytes a letter', b'\xff\xfe' + GOOD.decode().encode('utf-16-le'), 10, 1,
             r'"\xff\xfe' + ''.join(letter + r'\x00' for letter in first) + '"', MARK),
            ('two bytes a letter, the other way', b'\xfe\xff' + GOOD.decode().encode('utf-16-be'), 10, 1,
             r'"\xfe\xff' + ''.join(r'\x00' + letter for letter in first) + r'\x00"', MARK)):
        hold(what, run(stdin=case), 1, f'refused={number},{line}\n'.encode(),
             f'standard input:{line}: refused {number}, {table[number][1]}: {quote} ({SENDER} mends it: {hint})\n')


def check_besides(table):
    """The same bytes where they aren't the cause: who can mend that is still named."""
    crowd = many(1001).split(b'\n')
    last = crowd[1115]
    crowd[1115] += b'\r'
    for what, case, number, who, where, quote, hint in (
            ('CR after a member too many', b'\n'.join(crowd), 27, PAYROLL, ':1116', rf': "{last.decode()}\r"', CR),
            ('CR after the end line', GOOD + b'\r', 3, SENDER, ':118', r': "\r"', CR),
            ('a byte-order mark and too many bytes', UTF8 + filled(65536), 1, SENDER, '', '', MARK)):
        hold(what, run(stdin=case), 1, f'refused={number},{where[1:] or 0}\n'.encode(),
             f'standard input{where}: refused {number}, {table[number][1]}{quote} ({who} mends it; also, {hint})\n')


def check_quotes():
    """What a terminal would act on is never shown as it is."""
    begins = 'standard input:116: refused 20, neither a member nor an end line, or its form is wrong: '
    for text, shown in ((b'\x1b[31m\x00\xff\x7f\t', r'"\x1b[31m\x00\xff\x7f\t"'), (b'say "\\n"', r'"say \"\\n\""'),
                        (b'm' * 80, '"' + 'm' * 80 + '"'), (b'm' * 81, '"' + 'm' * 80 + '".. of 81 bytes'),
                        (b'm' * 60000, '"' + 'm' * 80 + '".. of 60000 bytes')):
        case = GOOD.replace(b'member=7,1,63,64,0.00', text)
        hold(f'the line {shown}', run(stdin=case), 1, b'refused=20,116\n', f'{begins}{shown} ({PAYROLL} mends it)\n')


# ---- several files, and folders

def headed(*pairs):
    return b''.join(b'==> %s <==\n%s' % pair for pair in pairs)


def check_several(desk):
    good, bad = (b'good.case', GOOD_LINES), (b'bad.case', b'refused=20,116\n')
    missing = unread('missing.case', errno.ENOENT)
    hold('two', run('good.case', 'good.case', cwd=desk), 0, headed(good, good))
    hold('one refused', run('bad.case', 'good.case', cwd=desk), 1, headed(bad, good), 'bad.case' + BAD_SAID)
    hold('one missing', run('missing.case', 'good.case', cwd=desk), 2, headed(good), missing)
    hold('a refusal and one missing', run('bad.case', 'missing.case', 'good.case', cwd=desk), 2, headed(bad, good),
         'bad.case' + BAD_SAID + missing)
    hold('- among others', run('good.case', '-', cwd=desk, stdin=GOOD), 0,
         headed(good, (b'standard input', GOOD_LINES)))


def check_names(desk):
    """No name can end its line, and one that can be shown is written as it is, whatever letters the locale knows."""
    ascii_only = {**os.environ, 'LC_ALL': 'C', 'PYTHONUTF8': '0', 'PYTHONCOERCECLOCALE': '0'}
    for name, shown in ((b'two\nlines.case', rb'two\nlines.case'), (b'byte\xff.case', rb'byte\xff.case'),
                        ('Öl.case'.encode(), 'Öl.case'.encode()), (b'==> x <==', b'==> x <==')):
        (desk / os.fsdecode(name)).write_bytes(GOOD)
        for env in (os.environ, ascii_only):
            hold(f'the name {shown}', run(name, 'good.case', cwd=desk, env=env), 0,
                 headed((shown, GOOD_LINES), (b'good.case', GOOD_LINES)))


def check_folders(desk):
    folder = desk / 'folder'
    folder.mkdir()
    none = "folder: can't be read: there is no file *.case in it\n"
    hold('an empty folder', run('folder', cwd=desk), 2, b'', none)
    for name in ('notes.txt', '.hidden.case', 'case'):
        (folder / name).write_bytes(BAD)
    (folder / 'inner.case').mkdir()
    (folder / 'inner.case' / 'deep.case').write_bytes(BAD)
    hold('a folder with no case file', run('folder', cwd=desk), 2, b'', none)
    hold('and a file', run('folder', 'good.case', cwd=desk), 2, headed((b'good.case', GOOD_LINES)), none)
    (folder / 'b.case').write_bytes(GOOD)
    hold('a folder with one', run('folder', cwd=desk), 0, headed((b'folder/b.case', GOOD_LINES)))
    (folder / 'a.case').write_bytes(BAD)
    both = headed((b'folder/a.case', b'refused=20,116\n'), (b'folder/b.case', GOOD_LINES))
    hold('a folder with two', run('folder', cwd=desk), 1, both, 'folder/a.case' + BAD_SAID)
    (folder / 'c.case').symlink_to('nowhere')
    hold('a folder with three', run('folder/', cwd=desk), 2, both,
         'folder/a.case' + BAD_SAID + unread('folder/c.case', errno.ENOENT))
    many_files = desk / 'many'
    many_files.mkdir()
    for name in 'gcajebhdif':
        (many_files / f'{name}.case').write_bytes(GOOD)
    hold('a folder with ten', run('many', cwd=desk), 0,
         headed(*((b'many/%c.case' % name, GOOD_LINES) for name in b'abcdefghij')))


# ---- what can't be read

def check_unread(desk):
    hold('a missing file', run('missing.case', cwd=desk), 2, b'', unread('missing.case', errno.ENOENT))
    hold('an empty name', run(''), 2, b'', unread("''", errno.ENOENT))
    hold('a read that fails', run('/proc/self/mem'), 2, b'', unread('/proc/self/mem', errno.EIO))
    with open('/proc/self/mem', 'rb') as broken:
        hold('standard input that fails', run(stdin=broken), 2, b'', unread('standard input', errno.EIO))
    closed = run(stdin=None, preexec_fn=lambda: os.close(0))
    hold('standard input that is closed', closed, 2, b'', unread('standard input', errno.EBADF))
    folder = os.open(desk, os.O_RDONLY)
    hold('standard input that is a folder', run(stdin=folder), 2, b'', unread('standard input', errno.EBADF))
    hold('and is not wanted', run('good.case', cwd=desk, stdin=folder), 0, GOOD_LINES)
    hold('and is wanted too', run('good.case', '-', cwd=desk, stdin=folder), 2, headed((b'good.case', GOOD_LINES)),
         unread('standard input', errno.EBADF))
    os.close(folder)
    reading, writing = os.pipe()
    os.set_blocking(reading, False)
    # A whole case, which would be valued if the failure counted as its end.
    os.write(writing, GOOD)
    hold('a read that fails after a part', run(stdin=reading), 2, b'', unread('standard input', errno.EAGAIN))
    os.close(reading)
    os.close(writing)


def can_run(copy, who):
    """The way to the copy, or to Python, may be closed to nobody."""
    try:
        return copy.run('--help', **who).returncode == 0
    except PermissionError:
        return False


def check_forbidden(copy):
    """Root may read all: then nobody runs the command."""
    who = dict(user=NOBODY, group=NOBODY, extra_groups=[]) if os.geteuid() == 0 else {}
    if not can_run(copy, who):
        left_out.append('what may not be read, since nobody can come to the command')
        return
    copy.answers(GOOD_LINES)
    copy.run(stdin=GOOD)
    locked = copy.folder / 'locked.case'
    locked.write_bytes(GOOD)
    locked.chmod(0)
    hold('a file that may not be read', copy.run('locked.case', cwd=copy.folder, **who), 2, b'',
         unread('locked.case', errno.EACCES))
    folder = copy.source.parent / 'locked'
    folder.mkdir()
    (folder / 'more.rt').touch()
    # In the second one names can be read, and no files.
    for mode, path in ((0, folder), (0o444, folder / 'more.rt')):
        folder.chmod(mode)
        hold('a source that may not be read', copy.run(stdin=GOOD, **who), 2, b'', unbuilt(errno.EACCES, path))
    folder.chmod(0o755)
    shutil.rmtree(folder)


# ---- what can't be written

def check_unwritten(desk):
    with open('/dev/full', 'wb') as full:
        hold('a full disk', run('good.case', cwd=desk, stdout=full), 2, b'', unwritten(errno.ENOSPC))
        hold('a full disk for a refusal', run('bad.case', cwd=desk, stdout=full), 2, b'', unwritten(errno.ENOSPC))
        hold('a full disk for the help', run('--help', stdout=full), 2, b'', unwritten(errno.ENOSPC))
        hold('a full disk for the message', run('bad.case', cwd=desk, stderr=full), 2, b'refused=20,116\n')
    with open(desk / 'out', 'wb') as out:
        filling = run('good.case', cwd=desk, stdout=out,
                      preexec_fn=lambda: resource.setrlimit(resource.RLIMIT_FSIZE, (50, 50)))
    hold('a disk that fills', filling, 2, b'', unwritten(errno.EFBIG))
    if (desk / 'out').read_bytes() != GOOD_LINES[:50]:
        sys.exit('desk: the disk that fills was to be written in part')
    hold('standard output that is closed', run('good.case', cwd=desk, stdout=None, preexec_fn=lambda: os.close(1)), 2,
         b'', unwritten(errno.EBADF))
    folder = os.open(desk, os.O_RDONLY)
    hold('standard output that is a folder', run('good.case', cwd=desk, stdout=folder), 2, b'', unwritten(errno.EBADF))
    hold('standard error that is a folder', run('good.case', cwd=desk, stderr=folder), 0, GOOD_LINES)
    hold('and is wanted', run('bad.case', cwd=desk, stderr=folder), 2, b'refused=20,116\n')
    os.close(folder)
    reading, writing = os.pipe()
    os.close(reading)
    hold('a reader that left', run('good.case', 'bad.case', cwd=desk, stdout=writing), 2)
    os.close(writing)


# ---- use

def check_use():
    helped = run('--help', stdin=b'')
    if helped.returncode or helped.stderr or not helped.stdout.startswith(USAGE.encode()):
        sys.exit(f'desk: --help gives {helped}')
    held.append('--help')
    hold('-h', run('-h', 'missing.case'), 0, helped.stdout)
    for name, shown in (('--version', '--version'), ('-x', '-x'), ('--', '--'), ('-\x1b[31m', r'-\x1b[31m')):
        hold(f'the option {shown}', run(name, stdin=GOOD), 2, b'', f'value: there is no option {shown}\n{USAGE}')
    hold('- twice', run('-', '-', stdin=GOOD), 2, b'', f'value: standard input can be read once\n{USAGE}')
    ours, terminal = pty.openpty()
    hold('no name at a terminal', run(stdin=terminal, timeout=60), 2, b'',
         f'value: nothing is named, and standard input is a terminal\n{USAGE}')
    os.close(ours)
    os.close(terminal)


# ---- a copy of the command, over stand-ins

BUILDING = 'value: proving and building the program, some minutes the first time ..\n'


class Copy:
    """A repository of the command and one source. In place of rt a script notes its calls, and then does what it is
    told; the program that it builds answers what it is told."""

    def __init__(self, folder):
        self.folder, self.repository, self.calls = folder, folder / 'repository', folder / 'calls'
        self.input = folder / 'input'
        self.source, self.program = self.repository / 'crates/value/src/main.rt', self.repository / 'crates/value/out/value'
        self.command, self.env = self.repository / 'bin/value', with_path(folder / 'path')
        for made in (self.source.parent, self.repository / 'bin', folder / 'path'):
            made.mkdir(parents=True)
        for name in ('value', 'value.py', 'refusals.tsv'):
            shutil.copy(ROOT / 'bin' / name, self.repository / 'bin')
        (self.repository / 'crates.txt').write_text('value:\n')
        self.source.write_text('fn main() {}\n')
        self.calls.touch()
        # nobody has to come to the command.
        folder.chmod(0o755)
        self.rt_does('')

    def rt_does(self, more, build='mkdir -p out && cp ../../../program out/value'):
        self.script(self.folder / 'path' / 'rt', f'echo "$PWD $*" >> "{self.calls}"\n{build}\n{more}')

    def answers(self, answer, then=''):
        """The next build's program keeps its input and writes these bytes."""
        (self.folder / 'answer').write_bytes(answer)
        self.script(self.folder / 'program', f'cat > "{self.input}"\ncat "{self.folder / "answer"}"\n{then}')

    @staticmethod
    def script(path, body):
        path.write_text(f'#!/bin/sh\n{body}\n')
        path.chmod(0o755)

    def run(self, *names, **more):
        return run(*names, **{'command': self.command, 'env': self.env, **more})

    def hold_calls(self, what, count):
        """So many calls since the last time, each the one that builds the program."""
        calls = self.calls.read_text(encoding='utf-8')
        if calls != f'{self.repository}/crates/value run\n' * count:
            sys.exit(f'desk: {what}: rt is called\n{calls}and should be {count} times')
        self.calls.write_text('')


def check_rebuilt(copy):
    def hold_built(what, count):
        hold(what, copy.run(stdin=GOOD), 0, GOOD_LINES, BUILDING * count)
        copy.hold_calls(what, count)

    copy.answers(GOOD_LINES)
    missing = copy.run('missing.case')
    hold('a missing file, with nothing built', missing, 2, b'', unread('missing.case', errno.ENOENT))
    copy.hold_calls('a missing file, with nothing built', 0)
    hold_built('nothing is built', 1)
    hold_built('all is built', 0)
    copy.source.write_text('fn main() { }\n')
    hold_built('a source changed', 1)
    hold_built('and is built', 0)
    os.utime(copy.source, (0, 0))
    hold_built('a source of another time', 0)
    copy.source.write_text('fn main() {  }\n')
    os.utime(copy.source, (0, 0))
    hold_built('a source that changed at no later time', 1)
    (copy.source.parent / '.#main.rt').symlink_to('nowhere')
    hold_built("an editor's lock", 0)
    (copy.source.parent / 'more.rt').write_text('')
    hold_built('a new source', 1)
    (copy.source.parent / 'more.rt').rename(copy.source.parent / 'other.rt')
    hold_built('a source of another name', 1)
    (copy.source.parent / 'other.rt').unlink()
    hold_built('a source that is gone', 1)
    (copy.source.parent / 'other.rt').write_text('fn other() {}\n')
    hold_built('two sources', 1)
    # The same bytes in the same order, in one file.
    copy.source.write_bytes(copy.source.read_bytes() + b'crates/value/src/other.rt\0fn other() {}\n')
    (copy.source.parent / 'other.rt').unlink()
    hold_built('one source that reads as two', 1)
    (copy.repository / 'crates.txt').write_text('value: io\n')
    hold_built('crates.txt changed', 1)
    copy.program.write_text('another one, built from other sources since\n')
    hold_built('another program', 1)
    copy.program.unlink()
    hold_built('the program is gone', 1)
    shutil.rmtree(copy.repository / 'target')
    hold_built('target/ is gone', 1)
    hold_built('and is built again', 0)
    (copy.program.parent / 'incremental').write_text('of rt\n')
    hold_built('what rt keeps', 0)


def check_edit_meanwhile(copy):
    """What is edited while rt runs isn't proved: the next command has rt look again."""
    copy.source.write_text('fn main() { 1; }\n')
    copy.rt_does('echo "fn main() { 2; }" > src/main.rt')
    hold('an edit while it is proved', copy.run(stdin=GOOD), 0, GOOD_LINES, BUILDING)
    copy.rt_does('')
    hold('after that edit', copy.run(stdin=GOOD), 0, GOOD_LINES, BUILDING)
    copy.hold_calls('an edit while it is proved', 2)


def check_while_built(copy):
    """rt takes nothing of standard input, and an interrupt says nothing."""
    copy.rt_does('cat > /dev/null')
    copy.source.write_text('fn main() { 5; }\n')
    (copy.folder / 'good.case').write_bytes(GOOD)
    hold('rt reads', copy.run('good.case', '-', cwd=copy.folder, stdin=GOOD), 0,
         headed((b'good.case', GOOD_LINES), (b'standard input', GOOD_LINES)), BUILDING)
    if copy.input.read_bytes() != GOOD:
        sys.exit('desk: rt reads: the program has not all of standard input')
    copy.rt_does('kill -INT $PPID')
    copy.source.write_text('fn main() { 6; }\n')
    hold('an interrupt', copy.run(stdin=GOOD), -signal.SIGINT, b'', BUILDING)
    copy.hold_calls('while it is built', 2)
    copy.rt_does('')


def check_at_once(copy):
    """One builds, and the others wait for it."""
    copy.rt_does('sleep 1')
    copy.source.write_text('fn main() { 3; }\n')
    started = [subprocess.Popen([copy.command, copy.folder / 'good.case'], env=copy.env, stdout=subprocess.PIPE,
                                stderr=subprocess.DEVNULL) for _ in range(3)]
    for one in started:
        out, _ = one.communicate()
        hold('three commands at once', subprocess.CompletedProcess(one.args, one.returncode, out), 0, GOOD_LINES)
    copy.hold_calls('three commands at once', 1)
    copy.rt_does('')


def check_not_built(copy):
    copy.source.write_text('fn main() { 4; }\n')
    copy.rt_does('echo not proved; echo at all >&2; exit 1', build='')
    for again in ('not proved', 'not proved, once more'):
        hold(again, copy.run('-', 'missing.case', stdin=GOOD), 2, b'',
             BUILDING + 'not proved\nat all\nvalue: the program is not proved and built: rt run in crates/value failed\n')
    copy.hold_calls('not proved', 2)
    copy.rt_does('', build='rm -rf out')
    hold('proved, and no program', copy.run(stdin=GOOD), 2, b'',
         f'{BUILDING}value: rt counts the program as built, but it is gone: remove the folder crates/value/out/ and try again\n')
    copy.hold_calls('proved, and no program', 1)
    copy.rt_does('')
    crates = copy.repository / 'crates'
    crates.rename(copy.folder / 'crates')
    hold('no sources', copy.run(stdin=GOOD), 2, b'', unbuilt(errno.ENOENT, crates))
    copy.hold_calls('no sources', 0)
    (copy.folder / 'crates').rename(crates)


def check_bare_path(copy):
    """Commands that are missing or unfit."""
    bare = copy.folder / 'bare'
    bare.mkdir()
    python, no_python = shutil.which('python3'), "value: python3 is missing, can't start or is older than 3.9\n"

    def hold_bare(what, err, **more):
        hold(what, copy.run(stdin=GOOD, env={'PATH': str(bare), **more}), 2, b'', err)

    for name in ('readlink', 'dirname'):
        (bare / name).symlink_to(shutil.which(name))
    hold_bare('no python3', no_python)
    copy.script(bare / 'python3', 'before="import sys; sys.version_info = 3, 8, 20"\n'
                f'[ "$1" = -c ] && exec "{python}" -c "$before; $2"\nexec "{python}" "$@"')
    hold_bare('an old python3', no_python)
    (bare / 'python3').unlink()
    (bare / 'python3').symlink_to(python)
    hold_bare('a python3 that breaks', no_python, PYTHONHOME=str(copy.folder / 'missing'))
    hold_bare('no rt', "value: the program has to be proved and built, and the Rattle toolchain's command rt is not on "
              'the PATH\n')


def check_broken_program(copy, table):
    """An answer that isn't whole is never handed on."""
    def hold_answer(what, answer, status, out, err, then=''):
        copy.answers(answer, then)
        copy.program.unlink(missing_ok=True)
        hold(what, copy.run(stdin=GOOD), status, out, BUILDING + err)

    broken = "standard input: the program failed: what it wrote isn't whole, and is left out\n"
    for answer in (b'', b'\n', GOOD_LINES[:-1], GOOD_LINES[:-7], GOOD_LINES[:GOOD_LINES.index(b'supplemental')],
                   b'member=7,200.00', b'refused=20,116', b'refused=20\n', b'refused=99,1\n',
                   *(f'refused={number},116\n'.encode() for number in RETIRED),
                   b'refused=20,116\nmore\n', GOOD_LINES + b'more'):
        hold_answer(f'the answer {answer}', answer, 2, b'', broken)
    hold_answer('a program that fails', GOOD_LINES, 2, b'', broken, 'exit 1')
    hold_answer('a program that is killed', GOOD_LINES, 2, b'', broken, f'kill -{int(signal.SIGKILL)} $$')
    # No file gives 30.
    who, what = table[30]
    hold_answer('refusal 30', b'refused=30,0\n', 1, b'refused=30,0\n',
                f'standard input: refused 30, {what} ({who} mends it)\n')
    copy.program.chmod(0o644)
    hold('a program that may not be run', copy.run(stdin=GOOD), 2, b'',
         f"standard input: the program can't be run: {os.strerror(errno.EACCES)}\n")
    copy.program.chmod(0o755)
    table_file = copy.repository / 'bin' / 'refusals.tsv'
    table_file.unlink()
    unread_words = "value: the words of the refusals can't be read: "
    hold('no words', copy.run(stdin=GOOD), 2, b'',
         f"{unread_words}[Errno {errno.ENOENT}] {os.strerror(errno.ENOENT)}: '{table_file}'\n")
    for what, more, why in (
            ('a blank line among the words', b'\n', 'not enough values to unpack (expected 3, got 1)'),
            ('a byte among the words that is no letter', b'\xff',
             f"'utf-8' codec can't decode byte 0xff in position {len(TABLE.read_bytes())}: invalid start byte")):
        table_file.write_bytes(TABLE.read_bytes() + more)
        hold(what, copy.run(stdin=GOOD), 2, b'', f'{unread_words}{why}\n')


def check_own_fault(copy):
    """A fault that nobody foresaw is no refusal."""
    command = copy.repository / 'bin' / 'value.py'
    begins = b'def main(names):\n'
    command.write_bytes(command.read_bytes().replace(begins, begins + b"    raise ValueError('unforeseen')\n"))
    ran = copy.run(stdin=GOOD)
    first, *_, last = ran.stderr.splitlines(keepends=True)
    ran.stderr = first + last
    hold("a fault of the command's own", ran, 2, b'', "value: a fault of this command's own\nValueError: unforeseen\n")


# ---- the words

def words():
    """By number, who mends it and what is wrong; in the order of the table, which has together what one can mend."""
    if RETIRED & RULES:
        sys.exit(f'desk: {RETIRED & RULES} was retired, and is in use again')
    first, *rest = [line.split('\t') for line in TABLE.read_text(encoding='utf-8').splitlines()]
    ordered = sorted(rest, key=lambda line: (MENDERS.index(line[1]), int(line[0])))
    if first != ['number', 'who mends it', 'what is wrong'] or ordered != rest:
        sys.exit(f'desk: {TABLE.name} is out of order')
    table = {int(number): (who, what) for number, who, what in rest}
    if len(table) != len(rest) or set(table) != RULES:
        sys.exit(f'desk: {TABLE.name} has the refusals {[line[0] for line in rest]}')
    return table


def part_of_readme(title):
    return README.split(f'\n## {title}\n')[1].split('\n## ')[0]


def said_in_readme():
    """The rows of its table. One without a name has that of the row above."""
    who = ''
    rows = re.findall(r'^\| (.*?) ?\| ([0-9]+) \| (.*) \|$', part_of_readme('When a file is refused'), re.MULTILINE)
    for named, number, what in rows:
        who = named or who
        yield int(number), (who, what)


def said_in_header():
    """A line that ends in `mends:`, and after it the numbers that this one can mend."""
    who = ''
    for line in (ROOT / 'embed' / 'kuyeshan.h').read_text(encoding='utf-8').split('*/')[0].splitlines():
        if named := re.fullmatch(r' \*   (the .*) mends:', line):
            who = named[1]
        elif found := re.fullmatch(r' \*     ([0-9]+) +(.*)', line):
            yield int(found[1]), (who, found[2])


def menders_in_rules():
    """Rule 12.3 has its own words for what is wrong."""
    part = (ROOT / 'docs' / 'RULES.md').read_text(encoding='utf-8').split('- **12.3**')[1].split('- **12.4**')[0]
    for number, who in re.findall(r'^\| ([0-9]+) \| .* \| (.*) \| .* \|$', part, re.MULTILINE):
        yield int(number), who


def check_example():
    """README.md shows lines of a case file, `  ..` being some that are left out, and then all that is printed of it."""
    shown, printed = re.findall(r'^```\n(.*?)^```$', part_of_readme('From file to lines'), re.MULTILINE | re.DOTALL)
    case = r'(?:.+\n)+'.join(map(re.escape, shown.split('  ..\n')))
    if not re.fullmatch(case, (EXAMPLES / 'final-pay.case').read_text(encoding='utf-8')):
        sys.exit("desk: README.md's case isn't that of examples/final-pay.case")
    if printed != (EXAMPLES / 'final-pay.lines').read_text(encoding='utf-8'):
        sys.exit("desk: README.md's output isn't that of examples/final-pay.lines")


def check_words(table):
    if f'june.case{BAD_SAID}' not in README:
        sys.exit("desk: README.md's example isn't what the command says")
    check_example()
    menders = [(number, who) for number, (who, _) in table.items()]
    for place, said, wanted in (('README.md', said_in_readme(), table.items()),
                                ('embed/kuyeshan.h', said_in_header(), table.items()),
                                ('docs/RULES.md', menders_in_rules(), menders)):
        for found, expected in zip_longest(said, wanted):
            if found != expected:
                sys.exit(f'desk: {place} says {found}, and {TABLE.name} {expected}')


def check():
    table = words()
    check_words(table)
    with tempfile.TemporaryDirectory() as made:
        desk, folder = Path(made).resolve() / 'desk', Path(made).resolve() / 'copy'
        for one in (desk, folder):
            one.mkdir()
        os.chmod(made, 0o755)
        (desk / 'good.case').write_bytes(GOOD)
        (desk / 'bad.case').write_bytes(BAD)
        # The gate builds the program by itself: the first command then has rt look at it once, and says so.
        run(desk / 'good.case')
        check_valued(desk)
        check_links(desk)
        check_refused(desk, table)
        check_hints(table)
        check_besides(table)
        check_quotes()
        check_several(desk)
        check_names(desk)
        check_folders(desk)
        check_unread(desk)
        check_unwritten(desk)
        check_use()
        copy = Copy(folder)
        check_rebuilt(copy)
        check_edit_meanwhile(copy)
        check_while_built(copy)
        check_at_once(copy)
        check_not_built(copy)
        check_bare_path(copy)
        check_forbidden(copy)
        check_broken_program(copy, table)
        check_own_fault(copy)
    print(f'desk: {len(held)} uses of the command hold; {len(table)} refusals have the same words in each place',
          *left_out, sep='; left out is ')


if __name__ == '__main__':
    if sys.argv[1:] != ['--check']:
        sys.exit(__doc__)
    check()
