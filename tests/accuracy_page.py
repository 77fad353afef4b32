"""The tables of docs/ACCURACY.md and its picture docs/accuracy.svg, made from the limits and from what was found.

    python3 tests/accuracy_page.py --write    writes them
    python3 tests/accuracy_page.py --check    holds what is stored to them

The limits are those of tests/oracle.py, which are held to the ones that are proved; the found ones are those of
tests/accuracy_found.tsv. A table of the page stands between a mark that names it and a mark that ends it; the words
around it are the page's own.
"""
import re
import sys
from fractions import Fraction
from math import ceil, floor, log
from pathlib import Path
from typing import NamedTuple

import accuracy_found
import commands
from accuracy_found import PENSIONS
from oracle import AB, BD, BP, CD, CP, LIMIT, METHOD_NAMES, METHODS, MOST_BENEFIT, SHARP, L, N, V, sharp_limit

ROOT = Path(__file__).parent.parent
DOCS = ROOT / 'docs'
PROVED = ROOT / 'crates' / 'costs' / 'specs' / 'Demand3.antt'
PAGE, PICTURE = DOCS / 'ACCURACY.md', DOCS / 'accuracy.svg'
WORDS = {V: 'present value', N: 'normal cost', L: 'liability'}
# The weight of the age over that of entry: level pay, a usual scale, and the most that the rules allow.
RATIOS = 1, 6, 100


def dollars(cents):
    return f'{cents // 100:,}'


def up(number):
    """A limit in hundredths, never less than it is."""
    return f'{ceil(100 * number) / 100:.2f}'


def down(number):
    """What was found in hundredths, never more than it was."""
    return f'{floor(100 * number) / 100:.2f}'


# ---- the limits as they are proved

NUMBER = r'(?:whole (\d+)|(\d+) over (\d+))'
WEIGHTS = r'(\) ⊗ W c k over W c c\.y)'
STATED = re.compile(rf'^([VNL])_limit c ?([A-Z]{{2}})?(?: k)? = \(?{NUMBER} ⊕ {NUMBER} ⊗ b c{WEIGHTS}?$', re.MULTILINE)


def ratio(whole, upper, lower):
    return Fraction(int(whole)) if whole else Fraction(int(upper), int(lower))


def proved_limits():
    """By figure and method: the cents, the cents for each S of the benefit, and whether it is times the weights."""
    for figure, method, *numbers, weights in STATED.findall(PROVED.read_text(encoding='utf-8')):
        for code in METHODS:
            if method in ('', METHOD_NAMES[code]):
                yield (figure, code), (ratio(*numbers[:3]), ratio(*numbers[3:]), weights != '')


def check_proved():
    ours = {(figure, method): (*map(Fraction, SHARP[figure][method]), (figure, method) == (N, CP))
            for figure in SHARP for method in METHODS}
    if dict(proved_limits()) != ours:
        sys.exit(f'accuracy_page: the limits of tests/oracle.py are not those of {PROVED.name}')


# ---- the tables

def formula(figure, method):
    """With p for the pension in hundreds of thousands of dollars, which is a hundredth of S in cents."""
    last, growth = SHARP[figure][method]
    plain = f'{last} + {float(growth) / 100:.6f}'.rstrip('0') + ' p'
    return f'({plain}) × W(x) / W(y)' if (figure, method) == (N, CP) else plain


def rows(found):
    """Each figure with its name, its limit and what was found of it."""
    figures = [(V, CD), *((figure, method) for method in METHODS for figure in (N, L))]
    for figure, method in figures:
        name = WORDS[figure] if figure == V else f'{METHOD_NAMES[method]}, {WORDS[figure]}'
        cells = [f'{up(sharp_limit(figure, method, pension))} ({down(found[pension, figure, method])})'
                 for pension in PENSIONS]
        yield name, formula(figure, method), *cells


def table(*lines):
    heading, *others = lines
    return ''.join('| ' + ' | '.join(cells) + ' |\n' for cells in (heading, ['---'] * len(heading), *others))


def limits_table(found):
    return table(('figure', 'limit in cents', *map(dollars, PENSIONS)), *rows(found))


def scales_table():
    """The limits of the N of CP, in dollars."""
    def line(ratio):
        limits = [sharp_limit(N, CP, pension) for pension in PENSIONS]
        return str(ratio), *(up(ratio * limit / 100) for limit in (Fraction(LIMIT), *limits))
    return table(('W(x) / W(y)', 'the promise', *map(dollars, PENSIONS)), *map(line, RATIOS))


def page(found):
    text = PAGE.read_text()
    for name, made in (('limits', limits_table(found)), ('scales', scales_table())):
        mark = re.compile(rf'(<!-- {name}: [^>]*-->\n).*?(<!-- end -->)', re.DOTALL)
        text, count = mark.subn(rf'\g<1>\n{made}\n\g<2>', text)
        if count != 1:
            sys.exit(f'accuracy_page: {PAGE.name} has {count} places for the table {name}')
    return text


# ---- the picture

class Limit(NamedTuple):
    """The limit of a figure, as it is drawn. Its numbers stand above the curve, or below."""
    figure: str
    method: int
    name: str
    colour: str
    below: bool = False


class Mark(NamedTuple):
    """What was found of a figure, as it is drawn."""
    figure: str
    method: int
    shape: str
    colour: str
    filled: bool = True


class Panel(NamedTuple):
    title: str
    limits: list
    marks: list


BLUE, RED, GREEN, INK, PALE = '#1f4e8c', '#c2491d', '#2e7d4f', '#222222', '#d9d9d9'
PANELS = [
    Panel('present value V, and method AB', [Limit(V, CD, 'limit of all three', INK)], [
        Mark(V, CD, 'diamond', BLUE), Mark(N, AB, 'circle', RED), Mark(L, AB, 'square', GREEN)]),
    Panel('methods BD and BP', [Limit(L, BD, 'limit of all four', INK)], [
        Mark(N, BD, 'circle', RED), Mark(L, BD, 'square', GREEN),
        Mark(N, BP, 'circle', RED, filled=False), Mark(L, BP, 'square', GREEN, filled=False)]),
    Panel('method CD', [Limit(N, CD, 'limit of N', RED, below=True), Limit(L, CD, 'limit of L', GREEN)], [
        Mark(N, CD, 'circle', RED), Mark(L, CD, 'square', GREEN)]),
    # The two limits of CP differ by less than the curve is thick.
    Panel('method CP, its N in W(x) / W(y) cents', [Limit(L, CP, 'limit of both', INK)], [
        Mark(N, CP, 'circle', RED), Mark(L, CP, 'square', GREEN)]),
]
WIDTH, HEIGHT = 940, 800
# A panel's drawing: its size, where the first one stands, and how far it is to the next.
WIDE, HIGH, LEFT, TOP = 380, 270, 70, 110
NEXT_LEFT, NEXT_TOP = 460, 350
# The ends of the scales: cents, and pensions with room for the marks and numbers beside them.
LEAST, MOST = Fraction('0.4'), 22
NARROWEST, WIDEST = PENSIONS[0] * 5 // 8, PENSIONS[-1] * 2


def across(pension):
    return WIDE * log(pension / NARROWEST) / log(WIDEST / NARROWEST)


def above(cents):
    return HIGH - HIGH * log(cents / LEAST) / log(MOST / LEAST)


def text(x, y, words, size=12, anchor='middle', colour=INK, weight='normal'):
    return (f'<text x="{x:.1f}" y="{y:.1f}" font-size="{size}" text-anchor="{anchor}" fill="{colour}" '
            f'font-weight="{weight}">{words}</text>')


def line(x1, y1, x2, y2, colour, dashes='none'):
    return (f'<line x1="{x1:.1f}" y1="{y1:.1f}" x2="{x2:.1f}" y2="{y2:.1f}" stroke="{colour}" '
            f'stroke-dasharray="{dashes}"/>')


def drawn(mark, x, y):
    style = f'fill="{mark.colour if mark.filled else "white"}" stroke="{mark.colour}" stroke-width="1.6"'
    if mark.shape == 'circle':
        return f'<circle cx="{x:.1f}" cy="{y:.1f}" r="4.5" {style}/>'
    if mark.shape == 'square':
        return f'<rect x="{x - 4:.1f}" y="{y - 4:.1f}" width="8" height="8" {style}/>'
    return f'<path d="M {x:.1f} {y - 6:.1f} l 6 6 l -6 6 l -6 -6 z" {style}/>'


def axes():
    yield f'<rect x="0" y="0" width="{WIDE}" height="{HIGH}" fill="none" stroke="{INK}"/>'
    for pension in PENSIONS:
        yield line(across(pension), 0, across(pension), HIGH, PALE)
        yield text(across(pension), HIGH + 17, dollars(pension))
    for cents in (Fraction('0.5'), 1, 2, 5, 10):
        yield line(0, above(cents), WIDE, above(cents), PALE)
        yield text(-8, above(cents) + 4, f'{float(cents):g}', anchor='end')
    yield line(0, above(LIMIT), WIDE, above(LIMIT), INK, '6 4')
    yield text(-8, above(LIMIT) + 4, str(LIMIT), anchor='end')
    yield text(8, above(LIMIT) - 5, 'the promise for N and L: 15', anchor='start')


def limit_curve(limit):
    """The curve, with its value at each pension."""
    def height(pension):
        return above(sharp_limit(limit.figure, limit.method, pension))

    steps = 60
    pensions = [round(PENSIONS[0] * (MOST_BENEFIT / PENSIONS[0])**(j / steps)) for j in range(steps + 1)]
    points = ' '.join(f'{across(pension):.1f},{height(pension):.1f}' for pension in pensions)
    yield f'<polyline points="{points}" fill="none" stroke="{limit.colour}" stroke-width="1.8"/>'
    for pension in PENSIONS:
        cents = up(sharp_limit(limit.figure, limit.method, pension))
        # Above, it stands clear of the line of the promise where the curve is steep.
        x, y = (9, 17) if limit.below else (-10, 2) if pension == PENSIONS[-1] else (-2, -8)
        yield text(across(pension) + x, height(pension) + y, cents, 11, 'start' if limit.below else 'end', limit.colour)


def legend(panel):
    for j, limit in enumerate(panel.limits):
        yield line(8, 54 + 18 * j, 24, 54 + 18 * j, limit.colour)
        yield text(30, 58 + 18 * j, limit.name, 12, 'start')
    for j, mark in enumerate(panel.marks, len(panel.limits)):
        yield drawn(mark, 16, 54 + 18 * j)
        yield text(30, 58 + 18 * j, f'{accuracy_found.named(mark.figure, mark.method)}, found', 12, 'start')


def is_drawn(panel, mark):
    """Whether a curve of the panel is the limit of the mark, to a hundredth of a cent at both ends."""
    def apart(limit, pension):
        return abs(sharp_limit(*limit[:2], pension) - sharp_limit(mark.figure, mark.method, pension))
    return any(max(apart(limit, PENSIONS[0]), apart(limit, PENSIONS[-1])) < 0.01 for limit in panel.limits)


def panel_drawn(panel, found):
    assert all(is_drawn(panel, mark) for mark in panel.marks), f'{panel.title}: a limit has no curve'
    yield text(0, -10, panel.title, 14, 'start', weight='bold')
    yield from axes()
    for limit in panel.limits:
        yield from limit_curve(limit)
    for j, mark in enumerate(panel.marks):
        for pension in PENSIONS:
            # Side by side, so that none hides another, and to the right, where no curve falls.
            yield drawn(mark, across(pension) + 11 * j, above(found[pension, mark.figure, mark.method]))
    yield from legend(panel)


def picture(found):
    parts = [
        f'<svg xmlns="http://www.w3.org/2000/svg" viewBox="0 0 {WIDTH} {HEIGHT}" font-family="sans-serif">',
        '<title>How far a printed figure can lie from the exact one</title>',
        f'<rect width="{WIDTH}" height="{HEIGHT}" fill="white"/>',
        text(30, 36, 'How far a printed figure can lie from the exact one, in cents', 20, 'start', weight='bold'),
        text(30, 60, 'Lines: the proved limits. Marks: the farthest found, those of one pension side by side, right of '
             'its line. Both scales are logarithmic.', 12, 'start'),
    ]
    for j, panel in enumerate(PANELS):
        parts.append(f'<g transform="translate({LEFT + NEXT_LEFT * (j % 2)} {TOP + NEXT_TOP * (j // 2)})">')
        parts += panel_drawn(panel, found)
        parts.append('</g>')
    parts += [text(WIDTH / 2, HEIGHT - 14, 'yearly pension at retirement, in dollars', 13), '</svg>', '']
    return '\n'.join(parts)


def files():
    found = {(one.pension, one.figure, one.method): one.far for one in accuracy_found.read()}
    return {PAGE: page(found).encode(), PICTURE: picture(found).encode()}


def check():
    check_proved()
    print(f'accuracy_page: the limits are the proved ones; the tables of {PAGE.name} and {PICTURE.name} are made from '
          f'them and from what was found')


if __name__ == '__main__':
    commands.run('accuracy_page', __doc__, files, check)
