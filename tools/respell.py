#!/usr/bin/env python3
"""Brings this repository's own names in specs/, proofs/ and contracts to the spelling of today's Rattle.

usage: python3 tools/respell.py [--dry]      at the top, once, right after the port.py of the kit

A word is in snake case (fieldOf and field-of become field_of), a type in upper camel case (Half-Even becomes HalfEven), a prime is an apostrophe.
Changed are names that a file of specs/ or proofs/ declares or binds; functions of src/, what a check makes, the library's names, strings, inputs and
outputs stay. Of comments only what stands between backticks is changed, and in one word names. Two names that would fall together in one file keep
apart by RENAMED below; --dry lists those that still would.
"""
import collections
import os
import re
import sys

os.chdir(os.path.join(os.path.dirname(os.path.abspath(__file__)), ".."))

# Names whose plain spelling is another's, a function's of src/ or a tactic's.
RENAMED = {
    "Valued-Alike": "AllValuedAlike",
    "A-Accuracy": "AccuracyOfA",
    "C-Accuracy": "AccuracyOfC",
    "G-Accuracy": "AccuracyOfG",
    "T-Accuracy": "AccuracyOfT",
    "Z-Accuracy": "AccuracyOfZ",
    "first_of": "first_among",
    "too_large": "too_large_number",
    "all_digits": "all_digits_lem",
    "is_digit": "is_digit_lem",
    "amend-form": "amend_form_lem",
    "amounts-line": "amounts_line_lem",
    "case-lines": "case_lines_lem",
    "closed-lines": "closed_lines_lem",
    "even-of": "even_of_lem",
    "in-turn": "in_turn_lem",
    "last-id": "last_id_lem",
    "last-number": "last_number_lem",
    "lines-of": "lines_of_lem",
    "plan-lines": "plan_lines_lem",
    "row-form": "row_form_lem",
    "starts-of": "starts_of_lem",
    "term-form": "term_form_lem",
    "walk-of": "walk_of_lem",
}

NAME = re.compile(r"[^\s(){},;.\[\]⌜⌝`\"|]+")
DECLARED = re.compile(r"\s*((?:(?:abbrev|unfoldable|pub)\s+)*)([^\s:(){},.=|;]+)\s*:(?:\s|$)(.*)")
TYPE = re.compile(r"\s*(?:(?:abbrev|unfoldable|pub)\s+)*(?:record|data)\s+(\S+)")


def files(*endings):
    for folder, dirs, names in os.walk("crates"):
        dirs[:] = sorted(d for d in dirs if d != "out")
        for f in sorted(names):
            if f.endswith(endings):
                yield os.path.join(folder, f)


def is_odd(name):
    dashed = re.search(r"[\w'*~]-[\w*~]", name) or "′" in name
    return bool(dashed or re.search(r"[a-z0-9]ℤ", name) or not name[:1].isupper() and re.search(r"[a-z0-9][A-Z]", name))


def snake(name):
    name = name.replace("′", "'").replace("-", "_")
    return re.sub(r"([a-z0-9])([A-Zℤ])", lambda m: m.group(1) + "_" + (m.group(2).lower() if m.group(2) != "ℤ" else "ℤ"), name)


def camel(name):
    return "".join(p[:1].upper() + p[1:] for p in name.replace("′", "'").split("-"))


def own_names():
    """Each odd name that a proof or a spec declares or binds, and whether it is a type."""
    types, words, declared, lent = set(), set(), set(), set()
    crates = set(os.listdir("crates"))
    for path in files(".antt", ".rt"):
        text = open(path, encoding="utf-8").read()
        for m in re.finditer(r"^(?:ghost )?use ([\w.+]+)\.\{([^}]*)\}", text, re.M):
            if m.group(1).split(".")[0] != "Rattle" or m.group(1).split(".")[1] not in crates:
                lent.update(n.strip() for n in m.group(2).split(","))
        if path.endswith(".rt"):
            continue
        for line in text.split("\n"):
            if line.strip().startswith("--") or line.startswith("use "):
                continue
            m = TYPE.match(line)
            if m:
                types.add(m.group(1))
                continue
            m = DECLARED.match(line)
            if m:
                (types if re.search(r"Type\s+\d\s*$", m.group(3)) else words).add(m.group(2))
                declared.add(m.group(2))
            for m in re.finditer(r"\blet ([^\s:(){},.=|;]+)\s*[:=]", line):
                words.add(m.group(1))
            for m in re.finditer(r"[({]([^():{}]+?) : ", line):
                words.update(m.group(1).split())
            for m in re.finditer(r"λ ([^.()]+)\.", line):
                words.update(m.group(1).split())
            # a pattern's variables: the words left of a clause's =
            m = re.match(r"\s*([^\s:(){},.=|;]+(?:\s+[^:=]+?)?)\s+=(?:\s|$)", line)
            if m:
                words.update(w for w in NAME.findall(m.group(1)))
    # what a library lends keeps its name, where no file here declares one of that name
    words -= lent - declared
    both = types & words
    new = {}
    for n in types | words:
        if n in RENAMED or is_odd(n):
            new[n] = RENAMED.get(n) or (camel(n) if n in types else snake(n))
    return {o: n for o, n in new.items() if o != n}, types, both, types | words


def modules():
    """Names of files and folders, which stay."""
    return {os.path.splitext(os.path.basename(p))[0] for p in files(".antt", ".rt")}


def respell(text, new, path):
    out = []
    rust = path.endswith(".rt")
    if rust:
        # a function of src/ keeps its name, also where a lemma of that name gets another
        new = {o: n for o, n in new.items() if not re.search(r"\bfn " + re.escape(o) + r"\b", text)}
    for line in text.split("\n"):
        mark = "//" if rust else "--"
        at = -1
        if line.lstrip().startswith(mark):
            at = len(line) - len(line.lstrip())
        else:
            m = re.search(r"(?:^|\s)" + re.escape(mark) + r"\s", line)
            at = m.start() if m else -1
        code, said = (line, "") if at < 0 else (line[:at], line[at:])
        code = "".join(piece if i % 2 else NAME.sub(lambda m: word(m.group(0), new), piece) for i, piece in enumerate(re.split(r'("[^"]*")', code)))
        said = re.sub(r"`[^`]*`", lambda m: NAME.sub(lambda w: word(w.group(0), new), m.group(0)), said)
        said = re.sub(r"\b[a-z]+[A-Z]\w*\b", lambda m: word(m.group(0), new), said)
        out.append(code + said)
    return "\n".join(out)


def word(token, new):
    return new.get(token, token)


def pages(new, types):
    """The names in README and docs/, between backticks: those above, and those that port.py itself brought to this spelling."""
    declared = own_names()[3]

    def now(token):
        for name in (new.get(token), RENAMED.get(snake(token)), snake(token), camel(token)):
            if name and is_odd(token) and name in declared:
                return name
        return token

    for path in ["README.md"] + [os.path.join(d, f) for d, _, fs in os.walk("docs") for f in sorted(fs) if f.endswith(".md")]:
        text = open(path, encoding="utf-8").read()
        done = re.sub(r"`[^`\n]*`", lambda m: NAME.sub(lambda w: now(w.group(0)), m.group(0)), text)
        if done != text:
            open(path, "w", encoding="utf-8").write(done)


def main():
    dry = "--dry" in sys.argv
    new, types, both, _ = own_names()
    stay = modules()
    for n in stay & set(new):
        if n not in types:
            print("module and word:", n)
        del new[n]
    fell = collections.defaultdict(set)
    for path in files(".antt"):
        tokens = set()
        for line in open(path, encoding="utf-8"):
            if line.strip().startswith("--"):
                continue
            tokens |= set(NAME.findall(re.sub(r"\s-- .*", "", line)))
        by = collections.defaultdict(set)
        for t in tokens:
            by[new.get(t, t)].add(t)
        for n, olds in by.items():
            if len(olds) > 1:
                fell[(n, tuple(sorted(olds)))].add(path)
    for (n, olds), where in sorted(fell.items()):
        print("fall together:", n, olds, len(where), sorted(where)[:3])
    if both:
        print("a type and a word:", sorted(both)[:20])
    if dry:
        print(len(new), "names")
        return
    for path in list(files(".antt", ".rt")):
        text = open(path, encoding="utf-8").read()
        done = respell(text, new, path)
        if done != text:
            open(path, "w", encoding="utf-8").write(done)
    pages(new, types)


main()
