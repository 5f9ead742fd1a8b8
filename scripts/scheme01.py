"""Basis, reading and digits of document 01, and what an error word counts as (T-01), over whole numbers.

Written from the formulas of documents 01 and 02 alone. The proved code is compared
with what these definitions give, so they share nothing with it.

Imported by the other scripts that make vectors.
"""

import sys
from collections import namedtuple
from itertools import product
from pathlib import Path

ROOT = Path(__file__).resolve().parent.parent

# A word taken apart: digits are signed, lowest level first.
Parts = namedtuple("Parts", "reading epsilon digits")


class Refusal(Exception):
    """Carries the refusal number of document 01."""

    def __init__(self, number):
        super().__init__(number)
        self.number = number


def value_bits(q):
    """Trailing zeros of a power of two, else the bit width."""
    width = q.bit_length()
    return width - 1 if q == 2 ** (width - 1) else width


def nearest(q, w):
    """T-01: a word w counts as w when w ≤ q/2, otherwise as w − q; compared as whole numbers, so that q/2 is not cut down."""
    return w if 2 * w <= q else w - q


class Basis:
    """A checked basis; attributes bear the letters of document 01."""

    def __init__(self, modulus, base_log, levels=None):
        """A modulus of None is native; levels of None are left open."""
        if base_log < 2 or base_log > 31:
            raise Refusal(1)
        B = 2**base_log
        if modulus is not None and modulus < 4:
            raise Refusal(2)
        if modulus is not None and modulus < B:
            raise Refusal(3)
        q = 2**32 if modulus is None else modulus
        k = value_bits(q)
        full = k // base_log
        if full == 0:
            raise Refusal(4)
        L = full if levels is None else levels
        if L == 0 or L > full:
            raise Refusal(5)

        self.modulus, self.base_log, self.full = modulus, base_log, full
        self.q, self.B, self.k, self.L = q, B, k, L
        self.d = d = k - L * base_log
        self.step = 2**d
        self.weights = [2**d * B**j for j in range(L)]
        self.H = 2 ** (d - 1) if d > 0 else 0
        self.P = (B // 2 - 1) * (B**L - 1) // (B - 1)
        self.T = self.P * 2**d + max(self.H, 1)

    def parts(self, a):
        """Reading, epsilon and digits of the word a."""
        if a >= self.q:
            raise Refusal(14)
        lifted = a if a < self.T else a - self.q
        # Python's // is the floor, also below zero.
        r = (lifted + self.H) // self.step
        reading = r * self.step
        epsilon = lifted - reading
        assert abs(epsilon) <= self.H
        digits = self.balanced(r)
        assert sum(x * w for x, w in zip(digits, self.weights)) == reading
        return Parts(reading, epsilon, digits)

    def balanced(self, r):
        """The L numbers in -B/2 .. B/2-1 that stand for r in base B."""
        half, digits = self.B // 2, []
        for _ in range(self.L):
            digit = (r + half) % self.B - half
            digits.append(digit)
            r = (r - digit) // self.B
        assert r == 0 and all(-half <= x < half for x in digits)
        return digits

    def stored(self, digits):
        """Digits as words: a negative one is q + digit."""
        return [x if x >= 0 else self.q + x for x in digits]

    def all_digits(self):
        """Every choice of L digits, listed by its sum; for small bases only."""
        listed = {}
        for digits in product(range(-self.B // 2, self.B // 2), repeat=self.L):
            total = sum(x * w for x, w in zip(digits, self.weights))
            listed.setdefault(total, []).append(list(digits))
        return listed


def refusal_of(call, *arguments):
    """(result, 0) of an accepted call, else (None, refusal number)."""
    try:
        return call(*arguments), 0
    except Refusal as refusal:
        return None, refusal.number


class Draw:
    """Fixed pseudo-random numbers, the same under every Python release."""

    def __init__(self, seed):
        self.state = seed

    def below(self, bound):
        """A number from 0 to bound - 1, for bounds up to 2^32."""
        self.state = (self.state * 6364136223846793005 + 1442695040888963407) % 2**64
        return (self.state >> 32) * bound >> 32

    def choose(self, items):
        return items[self.below(len(items))]


def write_or_check(files, words=None):
    """Writes path -> bytes, or with --check exits 1 where a file differs; words are those of the command."""
    words = sys.argv[1:] if words is None else words
    if words not in ([], ["--check"]):
        sys.exit(f"usage: {Path(sys.argv[0]).name} [--check]")
    check = words == ["--check"]
    different = 0
    for name, content in files.items():
        path = ROOT / name
        if not check:
            path.parent.mkdir(parents=True, exist_ok=True)
            path.write_bytes(content)
        elif not path.is_file() or path.read_bytes() != content:
            print(f"differs: {name}")
            different = 1
    total = sum(map(len, files.values()))
    verb = "checked" if check else "wrote"
    print(f"{verb} {len(files)} files, {total} bytes")
    sys.exit(different)
