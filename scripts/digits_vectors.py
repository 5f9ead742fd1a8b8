"""Test vectors for bases and digits, computed from document 01.

    python3 scripts/digits_vectors.py          write the file
    python3 scripts/digits_vectors.py --check  compare with the stored file

Writes crates/digit_vectors/data/digits.bin: records without padding, numbers
little-endian, each record starting with its tag.

    1 basis  modulus kind u8 (1 explicit), modulus u32, base log u32,
             levels kind u8 (1 given), levels u64, refusal u8 (0 accepted),
             k u8, L u8, d u8, H u32, T u32, 16 weights u32
    2 word   word u32, refusal u8 (0 or 14), reading i64, epsilon i64,
             16 stored digits u32
    3 word   word u32, reading i32, epsilon i32, 4 stored digits u32
    0 end of file

A word is taken under the last accepted basis. What a refusal or a missing
level leaves without a value is 0.
"""

import struct
import sys

sys.dont_write_bytecode = True  # importing must leave no file in the repository

from scheme01 import Basis, Draw, refusal_of, write_or_check

BASIS = struct.Struct("<BBIIBQBBBBII16I")
WORD = struct.Struct("<BIBqq16I")
SHORT_WORD = struct.Struct("<BIii4I")

LARGE_MODULI = [
    None, 2**31, 2**31 - 1, 2**31 + 1, 2**32 - 1, 2**32 - 5, 65536, 65537,
    65535, 2**30, 1000003, 12289, 3221225473,
]
LARGE_BASE_LOGS = [2, 3, 4, 5, 7, 8, 10, 11, 15, 16, 20, 29, 30, 31]

CHECKED_MODULI = [
    None, 0, 1, 2, 3, 4, 5, 7, 8, 15, 16, 17, 2**31 - 1, 2**31, 2**32 - 1,
]
CHECKED_BASE_LOGS = [0, 1, 2, 31, 32, 33, 63, 64, 2**32 - 1]
# 257 and 2^32 + 1 would pass if they were cut down to one or four bytes.
CHECKED_LEVELS = [None, 0, 1, 2, 3, 257, 2**32, 2**32 + 1, 2**64 - 1]


def filled(numbers, length):
    return list(numbers) + [0] * (length - len(numbers))


def basis_record(modulus, base_log, levels):
    basis, refusal = refusal_of(Basis, modulus, base_log, levels)
    call = [modulus is not None, modulus or 0, base_log, levels is not None, levels or 0]
    if basis is None:
        return BASIS.pack(1, *call, refusal, *[0] * 21)
    derived = [basis.k, basis.L, basis.d, basis.H, basis.T]
    return BASIS.pack(1, *call, 0, *derived, *filled(basis.weights, 16))


def word_record(basis, a):
    parts, refusal = refusal_of(basis.parts, a)
    if parts is None:
        return WORD.pack(2, a, refusal, *[0] * 18)
    stored = filled(basis.stored(parts.digits), 16)
    return WORD.pack(2, a, 0, parts.reading, parts.epsilon, *stored)


def short_word_record(basis, a):
    parts = basis.parts(a)
    stored = filled(basis.stored(parts.digits), 4)
    return SHORT_WORD.pack(3, a, parts.reading, parts.epsilon, *stored)


def small_moduli():
    """Every accepted basis of q = 4 .. 72, and every word of it."""
    for q in range(4, 73):
        for base_log in range(2, q.bit_length()):
            full = Basis(q, base_log).full
            yield basis_record(q, base_log, None)
            if base_log == 2:
                for a in (q, q + 1, 2**32 - 1):
                    yield word_record(Basis(q, base_log), a)
            for levels in range(1, full + 1):
                basis = Basis(q, base_log, levels)
                yield basis_record(q, base_log, levels)
                choices = basis.all_digits()
                for a in range(q):
                    parts = basis.parts(a)
                    assert choices[parts.reading] == [parts.digits]
                    yield short_word_record(basis, a)


def edge_words(basis, draw):
    """Words below q where the reading, its sign or a digit turns over."""
    q, T, H, step = basis.q, basis.T, basis.H, basis.step
    words = {0, 1, q - 2, q - 1}
    words.update(range(T - 2, T + 3))
    words.update(range(q // 2 - 1, q // 2 + 2))
    # One multiple of 2^d at an end and one anywhere; the draw picks the side of 0.
    places = [
        draw.choose([basis.P * step, q - step]),
        draw.choose([draw.below(basis.P + 1) * step, q - draw.below((q - T) // step + 1) * step]),
    ]
    for place in places:
        for shift in (0, 1, H - 1, H, H + 1):
            words.update((place - shift, place + shift))
    words.update(draw.below(q) for _ in range(12))
    return sorted(a for a in words if 0 <= a < q)


def large_moduli():
    """Edge words of chosen bases over the native and large moduli."""
    draw = Draw(1)
    for modulus in LARGE_MODULI:
        for base_log in LARGE_BASE_LOGS:
            open_basis, _ = refusal_of(Basis, modulus, base_log)
            if open_basis is None:
                continue
            full = open_basis.full
            for levels in sorted({1, min(2, full), max(full - 1, 1), full}):
                basis = Basis(modulus, base_log, levels)
                yield basis_record(modulus, base_log, levels)
                for a in edge_words(basis, draw):
                    yield word_record(basis, a)
                if modulus is not None:
                    yield word_record(basis, modulus)


def checked_bases():
    """Calls that meet one or more of the checks 1 to 5, and their neighbours."""
    for modulus in CHECKED_MODULI:
        for base_log in CHECKED_BASE_LOGS:
            levels = list(CHECKED_LEVELS)
            basis, _ = refusal_of(Basis, modulus, base_log)
            if basis is not None:
                levels += [n for n in (basis.full, basis.full + 1) if n not in levels]
            for count in levels:
                yield basis_record(modulus, base_log, count)


def check_cases():
    """The cases that document 01 itself lists for bases and digits."""
    listed = {
        (17, 2, None): {0: (0, 0, [0, 0]), 10: (10, 0, [1, 1]), 11: (-6, 0, [1, -1]),
                        12: (-4, -1, [-2, 0]), 16: (0, -1, [0, 0])},
        (16, 2, None): {5: (5, 0, [1, 1]), 6: (-10, 0, [-2, -2]), 15: (-1, 0, [-1, 0])},
        (16, 2, 1): {5: (4, 1, [1]), 6: (-8, -2, [-2])},
    }
    for call, words in listed.items():
        for a, expected in words.items():
            assert Basis(*call).parts(a) == expected
    native = Basis(None, 31)
    assert (native.L, native.d) == (1, 1)
    assert Basis(4, 2).L == 1
    for call, number in (((None, 32), 1), ((3, 2), 2), ((17, 2, 3), 5)):
        assert refusal_of(Basis, *call) == (None, number)


def main():
    check_cases()
    records = [*small_moduli(), *large_moduli(), *checked_bases(), b"\0"]
    for tag, name in ((1, "bases"), (2, "words"), (3, "short words"), (0, "end")):
        print(f"tag {tag} ({name}): {sum(r[0] == tag for r in records)}")
    write_or_check({"crates/digit_vectors/data/digits.bin": b"".join(records)})


if __name__ == "__main__":
    main()
