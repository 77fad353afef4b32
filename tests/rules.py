"""The rules that the sources, the tests and the documents cite, held to docs/RULES.md.

    python3 tests/rules.py --check

A citation is 'rule 8.3', 'rules 8.4 to 8.7, 9.1 and 9.2', 'RULES section 8' or 'RULES sections 1 to 5 and 12', also
where it goes on in the next line. It fails where docs/RULES.md has no such rule or section, or has a number twice.
"""
import os
import re
import sys
from pathlib import Path

ROOT = Path(__file__).parent.parent
RULES = ROOT / 'docs' / 'RULES.md'
PLACES = ['README.md', 'bench', 'crates', 'docs', 'embed', 'tests']
SUFFIXES = {'.antt', '.c', '.edit', '.h', '.md', '.py', '.rs', '.rt'}

BETWEEN = r'(?:,?\s+and\s+|\s+to\s+|,\s*)'
RULE = r'\d+\.\d+'
RULE_LIST = re.compile(rf'\brules?\s+({RULE}(?:{BETWEEN}{RULE})*)', re.IGNORECASE)
# A row of the table of refusals, whose last cell has the rules that it guards.
REFUSAL = re.compile(r'^\| \d+ \|.*\| ([\d., ;]+) \|$', re.MULTILINE)
SECTION_LIST = re.compile(rf'\bRULES\s+sections?\s+(\d+(?:{BETWEEN}\d+)*)')


# ---- what stands in docs/RULES.md

def once(numbers, what):
    twice = {number for number in numbers if numbers.count(number) > 1}
    if twice:
        sys.exit(f'rules: docs/RULES.md has {what} {", ".join(sorted(twice))} twice')
    return set(numbers)


def standing():
    """The numbers of its rules and of its sections."""
    text = RULES.read_text()
    rules = once(re.findall(rf'^- \*\*({RULE})\*\* ', text, re.MULTILINE), 'rule')
    sections = once(re.findall(r'^## (\d+) ', text, re.MULTILINE), 'section')
    strays = {rule for rule in rules if rule.split('.')[0] not in sections}
    if strays or not rules:
        sys.exit(f'rules: docs/RULES.md has no section for {", ".join(sorted(strays)) or "any rule"}')
    return rules, sections


# ---- what is cited

def joined(text):
    """The lines of a text as one, without what marks a line as a comment."""
    return re.sub(r'\s*\n\s*(?:--|//[/!]?|#|\*)?[ \t]*', ' ', text)


def spread(cited):
    """The numbers of a list: those of 'a to b' are a, b and all between."""
    numbers = re.split(BETWEEN, cited)
    for before, words, after in zip(numbers, re.findall(BETWEEN, cited), numbers[1:]):
        if words.strip() == 'to':
            *section, first = before.split('.')
            *section_after, last = after.split('.')
            if section != section_after or int(first) >= int(last):
                yield f'{before} to {after}'
            yield from ('.'.join([*section, str(number)]) for number in range(int(first), int(last)))
    yield from numbers


def citations(path):
    text = joined(path.read_text())
    for found in RULE_LIST.finditer(text):
        yield from (('rule', number) for number in spread(found[1]))
    for found in SECTION_LIST.finditer(text):
        yield from (('section', number) for number in spread(found[1]))
    if path == RULES:
        for row in REFUSAL.finditer(path.read_text()):
            yield from (('rule', number) for number in re.findall(RULE, row[1]))


def files():
    for place in PLACES:
        paths = [ROOT / place] if (ROOT / place).is_file() else sorted(below(ROOT / place))
        yield from (path for path in paths if path.suffix in SUFFIXES)


def below(place):
    """The files of a folder. What rt makes of a crate, in its out/, is not the repository's."""
    for folder, folders, names in os.walk(place):
        if Path(folder).parent == ROOT / 'crates' and 'out' in folders:
            folders.remove('out')
        yield from (Path(folder) / name for name in names)


def check():
    rules, sections = standing()
    stand = {*(('rule', number) for number in rules), *(('section', number) for number in sections)}
    cited, wrong = [], []
    for path in files():
        found = list(citations(path))
        cited += found
        wrong += [f'{path.relative_to(ROOT)} cites {" ".join(each)}' for each in found if each not in stand]
    if wrong:
        sys.exit('\n'.join([*wrong, f'rules: {len(wrong)} citations of what docs/RULES.md does not have']))
    if not cited:
        sys.exit('rules: nothing is cited')
    print(f'{len(cited)} citations of {len(set(cited))} rules and sections, and docs/RULES.md has each')


if __name__ == '__main__':
    if sys.argv[1:] != ['--check']:
        sys.exit(__doc__)
    check()
