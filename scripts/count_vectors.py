"""Test vectors for the counts of words by their digits (T-13), computed from documents 01 and 02.

    python3 scripts/count_vectors.py          write the file
    python3 scripts/count_vectors.py --check  compare with the stored file

Writes crates/count_vectors/data/counts.bin: records without padding, numbers
little-endian, each record starting with its tag.

    1 counts  modulus u32 (0 native), base log u32, levels u32 (0 left open),
              room u8 (words lent), refusal u8 (0 accepted), 17 counts u32
    2 counts  modulus u32, base log u8, levels u8, 5 counts u32; room is for levels + 1
    0 end of file

Words are counted one by one, by the digits that scheme01.py gives each. Where q = 2^k has too many, every choice
of L digits is counted, level by level: each stands for 2^d words. What is not there is 0.
"""

import struct
import sys
from itertools import product

sys.dont_write_bytecode = True  # importing must leave no file in the repository

from scheme01 import Basis, refusal_of, write_or_check

COUNTS = struct.Struct("<BIIIBB17I")
SHORT = struct.Struct("<BIBB5I")

# "checked after 5" (26), then 11
ORDER = [1, 2, 3, 5, 26, 11]

# Every word of these is counted, under these bases: base log, levels (0 left open).
WALKED_MODULI = [65535, 65536, 65521, 32769, 12289]
WALKED_BASES = [(2, 0), (2, 1), (2, 5), (3, 0), (4, 3), (8, 0), (15, 0)]

# Too many words to count one by one.
POWERS = [None, 2**31, 2**30, 2**17, 2**16]

JUDGED_MODULI = [None, 1, 3, 4, 5, 17, 65535, 65536, 65537, 100000, 2**17 - 1, 2**17, 2**31 - 1, 2**31, 2**31 + 1, 2**32 - 1]
JUDGED_BASE_LOGS = [0, 1, 2, 3, 8, 16, 17, 31, 32, 2**32 - 1]
JUDGED_LEVELS = [0, 1, 2, 5, 16, 17, 2**32 - 1]


def filled(numbers, length):
    return list(numbers) + [0] * (length - len(numbers))


def is_power(q):
    return q & (q - 1) == 0


def walked(basis):
    """The L + 1 counts, word by word."""
    counts = [0] * (basis.L + 1)
    for a in range(basis.q):
        counts[sum(digit != 0 for digit in basis.parts(a).digits)] += 1
    return counts


def chosen(basis):
    """The L + 1 counts of a power of two: each choice of L digits stands for 2^d words."""
    counts = [basis.step] + [0] * basis.L
    for _ in range(basis.L):
        for j in range(basis.L, 0, -1):
            counts[j] += counts[j - 1] * (basis.B - 1)
    return counts


def record(modulus, base_log, levels, room, refusal, counts):
    return COUNTS.pack(1, modulus or 0, base_log, levels, room, refusal, *filled(counts, 17))


def counted(modulus, base_log, levels, count):
    """The record of an accepted basis, whose words `count` counts."""
    basis = Basis(modulus, base_log, levels or None)
    counts = count(basis)
    assert sum(counts) == basis.q and all(n < 2**32 for n in counts)
    return record(modulus, base_log, levels, basis.L + 1, 0, counts)


def small_moduli():
    """Every accepted basis of q = 4 .. 300, and every word of it."""
    for q in range(4, 301):
        for base_log in range(2, q.bit_length()):
            for levels in range(1, Basis(q, base_log).full + 1):
                basis = Basis(q, base_log, levels)
                counts = walked(basis)
                assert sum(counts) == q and (not is_power(q) or counts == chosen(basis))
                yield SHORT.pack(2, q, base_log, levels, *filled(counts, 5))


def large_moduli():
    for modulus, (base_log, levels) in product(WALKED_MODULI, WALKED_BASES):
        if refusal_of(Basis, modulus, base_log, levels or None)[1] == 0:
            yield counted(modulus, base_log, levels, walked)
    for modulus, base_log in product(POWERS, range(2, 32)):
        basis, refusal = refusal_of(Basis, modulus, base_log)
        for levels in range(0, basis.full + 1 if refusal == 0 else 0):
            yield counted(modulus, base_log, levels, chosen)


def applying(modulus, base_log, levels, room):
    """The numbers that apply to a call, each by itself."""
    q = 2**32 if modulus is None else modulus
    k = q.bit_length() - is_power(q)
    full = k // base_log if base_log else 0
    L = levels or full
    holds = {
        1: base_log < 2 or base_log > 31,
        2: modulus is not None and modulus < 4,
        3: modulus is not None and (base_log > 31 or modulus < 2**base_log),
        5: L == 0 or L > full,
        26: modulus is not None and modulus > 65536 and not is_power(modulus),
        11: room != L + 1,
    }
    return [number for number in ORDER if holds[number]]


def refused():
    """Calls in which every choice of numbers that can apply together does: each alone, in pairs and more, three calls of each."""
    found = {}
    for modulus, base_log, levels in product(JUDGED_MODULI, JUDGED_BASE_LOGS, JUDGED_LEVELS):
        for room in range(0, 20):
            numbers = tuple(applying(modulus, base_log, levels, room))
            if numbers:
                found.setdefault(numbers, []).append((modulus, base_log, levels, room))
    for numbers in ORDER:
        # a modulus below 4 is below every base
        assert numbers == 2 or (numbers,) in found, numbers
    for numbers, calls in sorted(found.items()):
        for at in sorted({0, len(calls) // 2, len(calls) - 1}):
            modulus, base_log, levels, room = calls[at]
            yield record(modulus, base_log, levels, room, numbers[0], [])


def main():
    # "q = 16 gives 1, 6, 9 and q = 17 gives 2, 8, 7"
    assert walked(Basis(16, 2)) == [1, 6, 9] and walked(Basis(17, 2)) == [2, 8, 7]
    records = [*small_moduli(), *large_moduli(), *refused(), b"\0"]
    write_or_check({"crates/count_vectors/data/counts.bin": b"".join(records)})


if __name__ == "__main__":
    main()
