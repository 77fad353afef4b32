"""What the program test_rounding_edges must write, worked out with Python's own integers.

    python3 tests/rounding_edges.py            writes the text
    python3 tests/rounding_edges.py --check    compares it with crates/test_rounding_edges/stdout

A line has its factors and its divisor d; then the two words of the factors' product, where it fits two words; then
quotient and remainder, where the quotient fits one; and then the rounded quotient, where that fits one. A line of two
factors a and b ends with the rounded quotient of -a and b. A space follows each number.
"""
import sys
from fractions import Fraction
from itertools import product
from math import prod
from pathlib import Path

WORD = 2**64
# Many quotients lie halfway, and show where a half goes: `check` sees to it that there are such of products of one word and
# of two, over a divisor below 2^32 and one that isn't, and of three factors, from an even number below and from an odd one.
EDGES = [0, 1, 2, 3, 2**31, 2**32 - 1, 2**32, 2**32 + 1, 2**63 + 1, 2**64 - 1]
FACTORS = [1, 2, 3, 2**32 + 1, 2**63 + 1]


def nearest(n, d):
    """Rule 6.1: n / d to the nearest whole, and halfway to the even one of two. So does Python's own round."""
    return round(Fraction(n, d))


def divided(n, d):
    """The numbers that a product n and a divisor d put on a line, and whether the last of them is rounded."""
    if n >= WORD**2:
        return [], False
    words = [n // WORD, n % WORD]
    if d == 0 or n // d >= WORD:
        return words, False
    numbers = words + [n // d, n % d]
    if nearest(n, d) >= WORD:
        return numbers, False
    return numbers + [nearest(n, d)], True


def two_factors(a, b, d):
    numbers, rounded = divided(a * b, d)
    # Rule 6.2, the size is rounded and the sign put back: an integer's zero has none.
    minus = [-nearest(a * b, d)] if rounded else []
    return [a, b, d] + numbers + minus


def three_factors(a, b, c, d):
    return [a, b, c, d] + divided(a * b * c, d)[0]


def text():
    lines = [two_factors(*line) for line in product(EDGES, repeat=3)]
    lines += [three_factors(*line) for line in product(FACTORS, repeat=4)]
    return ''.join(''.join(f'{number} ' for number in line) + '\n' for line in lines)


def halves():
    """Of the rounded quotients that lie halfway: how many factors, words of the product, and words of 32 bits of the
    divisor there are, and whether the number below is odd."""
    for *factors, d in [*product(EDGES, repeat=3), *product(FACTORS, repeat=4)]:
        n = prod(factors)
        if divided(n, d)[1] and 2 * (n % d) == d:
            yield len(factors), 1 if n < WORD else 2, 1 if d < 2**32 else 2, n // d % 2


def check():
    wanted = {(2, *two, odd) for two in ((1, 1), (2, 1), (2, 2)) for odd in (0, 1)} | {(3, 2, 1, 0), (3, 2, 1, 1)}
    if not wanted <= set(halves()):
        sys.exit(f'rounding_edges: there are no halves of {wanted - set(halves())}')
    stored = Path(__file__).parent.parent / 'crates' / 'test_rounding_edges' / 'stdout'
    if stored.read_text() != text():
        sys.exit('rounding_edges: crates/test_rounding_edges/stdout is not what this program makes')
    print('rounding_edges: crates/test_rounding_edges/stdout is what this program makes')


if __name__ == '__main__':
    if sys.argv[1:] == ['--check']:
        check()
    else:
        sys.stdout.write(text())
