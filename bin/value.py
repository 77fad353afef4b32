"""usage: value [FILE | DIR | -]..

Values each case file by the proved program. DIR stands for the files *.case in it, in the order of their names; - for
standard input, which is also read where nothing is named. A name that begins with - is given as ./-name.

Standard output: a file's lines, or its one line refused=NUMBER,LINE. Where a DIR or several names are given, a line
==> FILE <== comes before each.
Standard error: for each refusal the file and line, what is wrong and who mends it; and what can't be read or written.
Exit status: 0 all are valued, 1 one is refused, 2 one can't be read or written, or wrong use; of several the largest.

The program is proved and built first, by the Rattle toolchain's command rt, where that isn't done yet or a source has
changed: some minutes the first time.
"""
import codecs
import errno
import fcntl
import functools
import hashlib
import os
import re
import shutil
import signal
import subprocess
import sys
import traceback
from pathlib import Path

ROOT = Path(__file__).resolve().parent.parent
WORDS = ROOT / 'bin' / 'refusals.tsv'
CRATE = ROOT / 'crates' / 'value'
PROGRAM = CRATE / 'out' / 'value'
# Tells which sources were proved and built, into which program.
STAMP = ROOT / 'target' / 'value.built'

VALUED, REFUSED, FAILED = 0, 1, 2
MOST_BYTES = 65536
MOST_SHOWN = 80
REFUSAL = re.compile(rb'refused=([0-9]+),([0-9]+)\n')
MARKS = codecs.BOM_UTF8, codecs.BOM_UTF16_LE, codecs.BOM_UTF16_BE
# The refusals that bytes put in on the file's way bring about, and one that its sender mends.
OF_FORM = 2, 10, 20
OF_SENDER = 2


# ---- reading and writing: a failure is an error, and never a shorter file

def read_case(name):
    """Its bytes. One more than a case file may have are enough for the program to refuse it, however long it is."""
    given = name == '-'
    with open(0 if given else name, 'rb', buffering=0, closefd=not given) as file:
        case = b''
        # Not file.read: that answers with a part where no more bytes are there yet.
        while part := os.read(file.fileno(), MOST_BYTES + 1 - len(case)):
            case += part
    return case


def write_whole(descriptor, data):
    while data:
        data = data[os.write(descriptor, data):]


def say(text):
    try:
        write_whole(2, f'{text}\n'.encode(errors='backslashreplace'))
    except OSError:
        raise SystemExit(FAILED)


def stop(text):
    say(f'value: {text}')
    raise SystemExit(FAILED)


def put(data):
    try:
        write_whole(1, data)
    except BrokenPipeError:
        # The reader has enough, as `head` has: there is nobody to tell.
        raise SystemExit(FAILED)
    except OSError as error:
        stop(f"standard output can't be written: {error.strerror}")


def close_output():
    """Some disks say only here that they are full."""
    try:
        os.close(1)
    except OSError as error:
        stop(f"standard output can't be written: {error.strerror}")


# ---- the proved program

def fail(error):
    raise error


def sources():
    """Every file of every crate: which of them the program rests on is rt's matter, and rt is quick to tell."""
    yield ROOT / 'crates.txt'
    # By itself os.walk passes over a folder that can't be read.
    for folder, folders, files in os.walk(ROOT / 'crates', onerror=fail):
        # What rt makes of a crate, in its out/, is no source.
        made = {'out'} if Path(folder).parent == ROOT / 'crates' else set()
        folders[:] = sorted(set(folders) - made)
        for path in (os.path.join(folder, file) for file in sorted(files)):
            # An editor may lock a file by a link to nowhere, which is none.
            if os.path.exists(path) or not os.path.islink(path):
                yield path


def digest_of_sources():
    digest = hashlib.sha256()
    for path in sources():
        with open(path, 'rb') as file:
            content = file.read()
        # No name has a byte 0, and with the length it is known where the next one begins.
        digest.update(b'%s\0%d\0%s' % (os.fsencode(os.path.relpath(path, ROOT)), len(content), content))
    return digest.hexdigest()


def stamp(digest):
    """The program belongs to it: another command may have built it from other sources since."""
    return f'{digest} {hashlib.sha256(PROGRAM.read_bytes()).hexdigest()}\n'.encode()


def is_built():
    return PROGRAM.exists() and STAMP.exists() and STAMP.read_bytes() == stamp(digest_of_sources())


def build():
    # Taken before the proof: an edit while it runs must not count as proved.
    digest = digest_of_sources()
    rt = shutil.which('rt')
    if rt is None:
        stop("the program has to be proved and built, and the Rattle toolchain's command rt is not on the PATH")
    say('value: proving and building the program, some minutes the first time ..')
    # rt builds a program in order to run it: on an empty input, whose answer nobody wants.
    run = subprocess.run([rt, 'run'], cwd=CRATE, stdin=subprocess.DEVNULL, stdout=subprocess.PIPE,
                         stderr=subprocess.STDOUT)
    if run.returncode != 0:
        say(run.stdout.decode(errors='backslashreplace').rstrip('\n'))
        stop('the program is not proved and built: rt run in crates/value failed')
    if not PROGRAM.exists():
        stop('rt counts the program as built, but it is gone: remove the folder crates/value/out/ and try again')
    STAMP.write_bytes(stamp(digest))


@functools.cache
def program():
    """Its path, once it is proved and built from the sources as they are."""
    try:
        if not is_built():
            STAMP.parent.mkdir(exist_ok=True)
            # Of several commands at once one builds, and the others wait for it.
            with open(STAMP, 'a') as lock:
                fcntl.flock(lock, fcntl.LOCK_EX)
                if not is_built():
                    build()
    except OSError as error:
        stop(f"the program can't be built: {error}")
    return PROGRAM


def answer(case):
    """What the program writes for a case, or None where it fails or what it writes isn't whole."""
    run = subprocess.run([program()], input=case, stdout=subprocess.PIPE)
    return run.stdout if run.returncode == 0 and is_whole(run.stdout) else None


def is_whole(written):
    refusal = REFUSAL.fullmatch(written)
    if refusal:
        return int(refusal[1]) in words()
    return written.endswith(b'\n') and written.split(b'\n')[-2].startswith(b'supplemental=')


# ---- what a refusal means

@functools.cache
def words():
    """By number: who mends it, and what is wrong."""
    try:
        lines = [line.split('\t') for line in WORDS.read_text(encoding='utf-8').splitlines()[1:]]
        return {int(number): (who, what) for number, who, what in lines}
    except (OSError, ValueError) as error:
        stop(f"the words of the refusals can't be read: {error}")


def escaped(data):
    """Bytes as a terminal can show them."""
    return data.decode('latin-1').encode('unicode_escape').decode()


def quoted(line):
    """A line, and not too much of it."""
    text = escaped(line[:MOST_SHOWN]).replace('"', '\\"')
    return f'"{text}"' if len(line) <= MOST_SHOWN else f'"{text}".. of {len(line)} bytes'


def hints(case, line):
    """What a program did to the file on its way. No actuary and no payroll office wrote these bytes."""
    if line.endswith(b'\r'):
        yield 'the line ends in CR, byte 13; save the file with line ends LF'
    if case.startswith(MARKS):
        yield 'the file begins with a byte-order mark; save it as plain text without one'


def mended(number, hint):
    """Who mends a refusal. Where the hint isn't its cause, it is what is wrong besides."""
    if hint and number in OF_FORM:
        return f'{words()[OF_SENDER][0]} mends it: {hint}'
    return f'{words()[number][0]} mends it' + (f'; also, {hint}' if hint else '')


def explained(name, case, number, place):
    """A refusal in words. Its line is quoted where it has one, and where that line has begun."""
    _, what = words()[number]
    lines = case.split(b'\n')
    line = b''.join(lines[place - 1:place])
    where = f'{name}:{place}' if place else name
    quote = f': {quoted(line)}' if place and (line or place < len(lines)) else ''
    return f'{where}: refused {number}, {what}{quote} ({mended(number, "; ".join(hints(case, line)))})'


# ---- the command

def shown(name):
    """A file's name in a line of its own: no byte of it may end that line."""
    if name == '-':
        return 'standard input'
    if name.isprintable():
        return name or "''"
    return escaped(os.fsencode(name))


def failed(name, why):
    say(f'{shown(name)}: {why}')
    return FAILED


def is_folder(name):
    return name != '-' and os.path.isdir(name)


def files_of(name):
    """The files that an argument stands for."""
    if not is_folder(name):
        return [name]
    paths = [os.path.join(name, file) for file in sorted(os.listdir(name))
             if file.endswith('.case') and not file.startswith('.')]
    files = [path for path in paths if not os.path.isdir(path)]
    if not files:
        raise FileNotFoundError(errno.ENOENT, 'there is no file *.case in it')
    return files


def value_file(name, headed):
    """Writes what the program writes for a file, and says what a refusal means. Gives the exit status."""
    try:
        case = read_case(name)
    except OSError as error:
        return failed(name, f"can't be read: {error.strerror}")
    try:
        written = answer(case)
    except OSError as error:
        return failed(name, f"the program can't be run: {error.strerror}")
    if written is None:
        return failed(name, "the program failed: what it wrote isn't whole, and is left out")
    put((b'==> %s <==\n' % os.fsencode(shown(name)) if headed else b'') + written)
    refusal = REFUSAL.fullmatch(written)
    if not refusal:
        return VALUED
    say(explained(shown(name), case, *map(int, refusal.groups())))
    return REFUSED


def value_name(name, headed):
    try:
        files = files_of(name)
    except OSError as error:
        return failed(name, f"can't be read: {error.strerror}")
    return max(value_file(file, headed) for file in files)


def wrong_use(names):
    """What is wrong with the arguments, if anything is."""
    options = [name for name in names if name.startswith('-') and name != '-']
    if options:
        return f'there is no option {shown(options[0])}'
    if names.count('-') > 1:
        return 'standard input can be read once'
    if not names and os.isatty(0):
        return 'nothing is named, and standard input is a terminal'
    return None


def main(names):
    if '--help' in names or '-h' in names:
        put(__doc__.encode())
        close_output()
        return VALUED
    wrong = wrong_use(names)
    if wrong:
        stop(f'{wrong}\n{__doc__.splitlines()[0]}')
    names = names or ['-']
    headed = len(names) > 1 or is_folder(names[0])
    status = max(value_name(name, headed) for name in names)
    close_output()
    return status


if __name__ == '__main__':
    # An interrupt ends this command as it ends others, with no words of Python's.
    signal.signal(signal.SIGINT, signal.SIG_DFL)
    try:
        sys.exit(main(sys.argv[1:]))
    except Exception:
        # Python's own status would be 1, and 1 means a refusal.
        stop(f"a fault of this command's own\n{traceback.format_exc().rstrip()}")
