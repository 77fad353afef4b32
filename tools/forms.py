#!/usr/bin/env python3
"""Counts the places of older forms in crates/*/src, in the checkout or at a commit: docs/DESIGN-PASS.md has the counts.

tools/forms.py [--list] [COMMIT]     the count of each form; with --list also each place
"""
import collections
import pathlib
import re
import subprocess
import sys

ROOT = pathlib.Path(__file__).resolve().parent.parent

ENUMS = "1 own enums with a refusal, or with one value and nothing else"
BESIDE = "1 a value written beside an answer"
NUMBERS = "1 functions that answer a refusal's number"
NAMES = "1 numbers as names of refusals"
ALIKE = "2 functions whose bodies differ in names and numbers alone"
COUNTING = "3 loops that count an index by hand"
LOOPS = "3 other while and loop"
CONVERSIONS = "4 conversions by hand"
CASTS = "4 widening casts"
LOGIC = "4 and, or and least by hand"
COMPANY = "5 parameters that always travel together"
COUNTED = "6 arrays with a count beside"
FLAGS = "7 switches on a step"
SETTLED = "7 a rule asked for where ranges are settled, written out"

FORMS = (ENUMS, BESIDE, NUMBERS, NAMES, ALIKE, COUNTING, LOOPS, CONVERSIONS, CASTS, LOGIC, COMPANY, COUNTED, FLAGS, SETTLED)

# Parameters that come together.
COMPANIES = (("columns", "marks"), ("cells", "sums"), ("unfunded", "supplemental"), ("out", "at"), ("rows", "r", "i"), ("p", "rows", "m"))


def run(*command):
    return subprocess.run(command, cwd=ROOT, check=True, capture_output=True, text=True).stdout


def sources(commit):
    """The source files, by path."""
    if commit is None:
        return {str(f.relative_to(ROOT)): f.read_text() for f in sorted(ROOT.glob("crates/*/src/*.rt"))}
    names = run("git", "ls-tree", "-r", "--name-only", commit, "crates").split()
    return {n: run("git", "show", f"{commit}:{n}") for n in names if re.fullmatch(r"crates/\w+/src/\w+\.rt", n)}


def functions(text):
    """Each function: its name, the line it begins at, its parameters and result, and its body."""
    for m in re.finditer(r"\bfn ([a-z_0-9]+)(?:<[^(]*>)?\(([^)]*)\)([^{\n]*)", text):
        # Clauses have braces too: the body's stands alone on its line, or ends the signature's line.
        body, depth = [], None
        for line in text[m.start():].split("\n"):
            if depth is None:
                clause = "ensures" in line or "requires" in line
                if re.fullmatch(r"\s*\{", line) or (line.rstrip().endswith("{") and not clause):
                    depth = len(line) - len(line.lstrip())
                continue
            if re.fullmatch(r"\s{%d}\}" % depth, line) or line == "}":
                break
            body.append(line)
        yield m.group(1), text.count("\n", 0, m.start()) + 1, m.group(2), m.group(3), "\n".join(body)


def shape(body):
    """A body without its names and numbers, to find bodies that differ in nothing else."""
    body = re.sub(r"//[^\n]*", "", body)
    body = re.sub(r"b?\"[^\"]*\"", "T", body)
    body = re.sub(r"[A-Za-z_][A-Za-z_0-9:]*", "x", body)
    body = re.sub(r"\b[0-9][0-9_a-z]*\b", "0", body)
    return re.sub(r"\s+", "", body)


def forms_of(name, parameters, result, body):
    """The forms of one function, each with what is said of it."""
    flat = re.sub(r"\s+", " ", body).strip()
    names = re.findall(r"(\w+): ", parameters)
    if "values: &mut Read" in parameters:
        yield BESIDE, name
    rule = re.search(r"(_rule|_refusal|^unless|^or_else|^unless_between|^surplus)", name) or name == "add"
    if re.search(r"-> u64\b", result) and rule:
        yield NUMBERS, name
    if re.search(r"while (\w+) (<|<=) ", body) and re.search(r"\b(\w+) \+= 1;", body) or re.search(r"while 0 < (\w+) \{", body):
        yield COUNTING, name
    elif re.search(r"^\s*(while |loop \{)", body, re.M):
        yield LOOPS, name
    by_field = (r"(let \w+ = [\w.\[\]& ]+; )?[A-Z]\w+ \{( \w+: \w+\[[\w ]+\],)+ \}", r"\[( ?\w+\.\w+,?)+ ?\]",
                r"(let \w+ = word\([^)]*\); )+[A-Z]\w+ \{.*\}")
    if name != "from" and any(re.fullmatch(pattern, flat) for pattern in by_field):
        yield CONVERSIONS, name
    if re.fullmatch(r"(if code == \d \{ return [A-Z]\w+::\w+; \} )+[A-Z]\w+::\w+", flat):
        yield CONVERSIONS, name
    if flat == "x as u64":
        yield CASTS, name
    if flat in ("if a { b } else { false }", "if a { true } else { b }", "if a <= b { a } else { b }", "if a == 0 { b } else { a }"):
        yield LOGIC, name
    for company in COMPANIES:
        if all(n in names for n in company):
            yield COMPANY, f"{name} ({', '.join(company)})"
    for array, count in (("members", "count"), ("list", "n"), ("worked", "count")):
        if array in names and count in names:
            yield COUNTED, f"{name} ({array}, {count})"
    for switch in re.findall(r"(engine: EngineChoice|method: bool|amount: bool|full: bool|ranges: bool)", parameters):
        yield FLAGS, f"{name} ({switch})"
    if re.search(r"if !?ranges \{", flat):
        yield SETTLED, name


def found(files):
    """The places of each form."""
    places = collections.OrderedDict((form, []) for form in FORMS)
    shapes = collections.defaultdict(list)
    for path, text in files.items():
        def add(form, line, what):
            places[form].append(f"{path}:{line}: {what}")
        for m in re.finditer(r"^(?:pub )?enum (\w+) \{\n(.*?)^\}", text, re.M | re.S):
            # An error enum stands in a Result: its variants carry nothing.
            if re.search(r"^    \w+\(", m.group(2), re.M):
                add(ENUMS, text.count("\n", 0, m.start()) + 1, m.group(1))
        for m in re.finditer(r"^pub const ([A-Z_]+): u64 = \d+;", text, re.M):
            if path.endswith("refusals.rt"):
                add(NAMES, text.count("\n", 0, m.start()) + 1, m.group(1))
        for name, line, parameters, result, body in functions(text):
            for form, what in forms_of(name, parameters, result, body):
                add(form, line, what)
            if body.count("\n") >= 2:
                shapes[shape(body)].append(f"{path}:{line}: {name}")
    for same in shapes.values():
        if len(same) > 1:
            places[ALIKE] += same
    return places


def main():
    arguments = [a for a in sys.argv[1:] if a != "--list"]
    for form, where in found(sources(arguments[0] if arguments else None)).items():
        print(f"{len(where):4} {form}")
        if "--list" in sys.argv:
            for place in where:
                print("       " + place)


main()
