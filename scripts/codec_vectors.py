"""Test vectors for the rounded codec, computed from document 01, with any t below q (T-10).

    python3 scripts/codec_vectors.py          write the file
    python3 scripts/codec_vectors.py --check  compare with the stored file

Writes crates/codec_vectors/data/codec.bin: records without padding, numbers
little-endian, each record starting with its tag.

    1 value  modulus kind u8 (1 explicit), modulus u32, t u32, x u32,
             accumulator u32; then refusal u8 and answers u32 of:
             the codec (none), x encoded (Unsigned, Centered), x added
             Centered to the accumulator (sum), x decoded (message)
    2 slice  modulus kind u8, modulus u32, t u32, call u8, embedding u8
             (1 Centered), messages or words n u8, buffer m u8, refusal u8,
             6 words lent, 6 words of the buffer before, 6 after
    0 end of file

A slice call is lent the first n words, and the first m of its buffer; a call in
place has its words in the buffer. Calls: 1 encode_slice_to, 2 encode_slice_assign,
3 add_encode_slice_assign, 4 decode_slice_to and 5 decode_slice_assign of the codec,
6 and 7 the same of the decoder. What a refusal leaves without a value is 0.
"""

import struct
import sys
from math import gcd

sys.dont_write_bytecode = True  # importing must leave no file in the repository

from scheme01 import Draw, Refusal, refusal_of, write_or_check

VALUE = struct.Struct("<BBIIIIBBIIBIBI")
SLICE = struct.Struct("<BBIIBBBBB6I6I6I")

SMALL_MODULI = range(4, 33)
LARGE_MODULI = [
    None, 2**31 - 1, 2**31, 2**31 + 1, 2**32 - 1, 2**32 - 5, 3221225473, 65537, 65538, 12289,
]
LARGE_PLAIN = [
    2, 3, 4, 5, 7, 16, 255, 256, 257, 1000, 12288, 32768, 65535, 65536, 65537, 1000003, 2**20, 2**24 - 1, 2**31 - 1, 2**31,
    2**31 + 1, 3000000001, 2**32 - 6, 2**32 - 2,
]
CHECKED_MODULI = [None, 0, 1, 2, 3, 4, 5, 65535, 65536, 65537, 65538, 2**31, 2**32 - 1]
CHECKED_PLAIN = [0, 1, 2, 3, 4, 5, 65535, 65536, 65537, 65538, 2**31 - 1, 2**31, 2**32 - 2, 2**32 - 1]


class Codec:
    """A checked codec; attributes bear the letters of document 01."""

    def __init__(self, modulus, t):
        """A modulus of None is native."""
        if modulus is not None and modulus < 4:
            raise Refusal(2)
        if t < 2:
            raise Refusal(7)
        if modulus is not None and modulus <= t:
            raise Refusal(8)
        self.q, self.t = 2**32 if modulus is None else modulus, t

    def encode(self, m):
        return (2 * m * self.q + self.t) // (2 * self.t)

    def embed(self, m, centered):
        """Message m below t, Unsigned or Centered."""
        if m >= self.t:
            raise Refusal(16)
        start = -(-self.t // 2)
        word = self.q - self.encode(self.t - m) if centered and m >= start else self.encode(m)
        assert 0 <= word < self.q
        assert self.decode(word) == m
        return word

    def decode(self, p):
        if p >= self.q:
            raise Refusal(14)
        return (2 * p * self.t + self.q) // (2 * self.q) % self.t

    def add(self, a, m, centered):
        if a >= self.q:
            raise Refusal(14)
        return (a + self.embed(m, centered)) % self.q


def judged(modulus, t, call):
    """(answer or 0, refusal) of a call on the codec, which is judged first."""
    answer, refusal = refusal_of(lambda: call(Codec(modulus, t)))
    return answer or 0, refusal


def value_record(modulus, t, x, a):
    _, codec = judged(modulus, t, lambda c: 0)
    unsigned, encoding = judged(modulus, t, lambda c: c.embed(x, False))
    centered, _ = judged(modulus, t, lambda c: c.embed(x, True))
    total, adding = judged(modulus, t, lambda c: c.add(a, x, True))
    message, decoding = judged(modulus, t, lambda c: c.decode(x))
    return VALUE.pack(1, modulus is not None, modulus or 0, t, x, a, codec, encoding, unsigned,
                      centered, adding, total, decoding, message)


def small_moduli():
    """Every t of q = 4 .. 32, with every message and every phase, and one of each beyond."""
    draw = Draw(3)
    for q in SMALL_MODULI:
        for t in range(2, q):
            for x in range(q + 2):
                yield value_record(q, t, x, draw.below(q + 1))


def ties(q, t):
    """The first three messages whose scaled value lies midway between two words: 2mq + t is a multiple of 2t."""
    g = gcd(q, t)
    if t // 2 % g or t % 2:
        return []
    step = t // g
    first = t // 2 // g * pow(q // g, -1, step) % step
    found = [m for m in range(first, min(t, first + 3 * step), step)]
    assert all((2 * m * q + t) % (2 * t) == 0 for m in found)
    return found


def edges(q, t, draw):
    """Messages and phases where a rounding, the embedding or the final mod t turns over."""
    numbers = {0, 1, t - 1, t, q - 2, q - 1, q, q // 2, (t + 1) // 2 - 1, (t + 1) // 2, t // 2}
    for k in {0, 1, t // 2, t - 2, t - 1, draw.below(t)}:
        half = ((2 * k + 1) * q + 2 * t - 1) // (2 * t)  # the first phase that rounds up to k + 1
        numbers.update((half - 1, half, half + 1))
    numbers.update(ties(q, t))
    numbers.update(draw.below(t) for _ in range(4))
    numbers.update(draw.below(q) for _ in range(4))
    return sorted(x for x in numbers if 0 <= x < 2**32)


def large_moduli():
    draw = Draw(4)
    for modulus in LARGE_MODULI:
        q = 2**32 if modulus is None else modulus
        for t in LARGE_PLAIN + [q - 1]:
            if t >= q:
                continue
            for x in edges(q, t, draw):
                yield value_record(modulus, t, x, min(draw.choose([0, q - 1, q, draw.below(q)]), 2**32 - 1))


def checked_moduli():
    """Calls that meet one or more of the checks 2, 7, 8, 14, 16, and their neighbours."""
    for modulus in CHECKED_MODULI:
        for t in CHECKED_PLAIN:
            for x in (0, 1, 2, 3, 65535, 65536, 2**32 - 1):
                yield value_record(modulus, t, x, x)


def padded(words):
    return list(words) + [7] * (6 - len(words))


def slice_record(modulus, t, call, centered, lent, before):
    codec = Codec(modulus, t)

    def answer():
        if call in (2, 5, 7):
            words = before
        elif len(before) != len(lent):
            raise Refusal(11)
        else:
            words = lent
        # All words are judged before all messages, and both before anything is written.
        if call == 3 and any(a >= codec.q for a in before):
            raise Refusal(14)
        if call >= 4:
            return [codec.decode(p) for p in words]
        if call == 3:
            return [codec.add(a, m, centered) for a, m in zip(before, words)]
        return [codec.embed(m, centered) for m in words]

    after, refusal = refusal_of(answer)
    after = before if refusal else after
    return SLICE.pack(2, modulus is not None, modulus or 0, t, call, centered, len(lent), len(before),
                      refusal, *padded(lent), *padded(before), *padded(after))


def slices():
    draw = Draw(5)
    for modulus, t in ((17, 4), (17, 16), (5, 4), (4, 3), (None, 2), (None, 65536), (65537, 65536),
                       (2**32 - 1, 1000), (2**31, 255), (12289, 2), (None, 2**32 - 1), (2**32 - 5, 1000003)):
        q = 2**32 if modulus is None else modulus
        word = lambda: draw.choose([0, q - 1, draw.below(q)])
        message = lambda: draw.choose([0, t - 1, t // 2, draw.below(t)])
        for call in range(1, 8):
            for centered in (0, 1):
                lent = message if call <= 3 else word
                buffer = {2: message, 3: word, 5: word, 7: word}.get(call, lambda: 9)
                bad_lent = t if call <= 3 else min(q, 2**32 - 1)
                bad_buffer = {2: t, 3: min(q, 2**32 - 1), 5: min(q, 2**32 - 1), 7: min(q, 2**32 - 1)}.get(call)
                for n in range(7):
                    yield slice_record(modulus, t, call, centered, [lent() for _ in range(n)], [buffer() for _ in range(n)])
                for n, m in ((3, 4), (4, 3), (0, 1), (1, 0), (6, 5)):
                    yield slice_record(modulus, t, call, centered, [lent() for _ in range(n)], [buffer() for _ in range(m)])
                for place in (0, 2, 4):
                    words, before = [lent() for _ in range(5)], [buffer() for _ in range(5)]
                    words[place] = bad_lent
                    yield slice_record(modulus, t, call, centered, words, before)
                    yield slice_record(modulus, t, call, centered, words, before[:4])
                    if bad_buffer is not None:
                        before[4 - place] = bad_buffer
                        yield slice_record(modulus, t, call, centered, words, before)


def check_cases():
    """The cases that document 01 itself lists for the codec, and one that takes 65 bits as it stands (T-10)."""
    codec = Codec(17, 4)
    assert codec.embed(2, False) == 9 and codec.embed(2, True) == 8 and codec.decode(16) == 0
    assert Codec(None, 2**32 - 1).decode(2**32 - 1) == 4294967294
    for q in range(4, 60):
        for t in range(2, q):
            assert ties(q, t) == [m for m in range(t) if (2 * m * q + t) % (2 * t) == 0][:3]


def main():
    check_cases()
    records = [*small_moduli(), *large_moduli(), *checked_moduli(), *slices(), b"\0"]
    for tag, name in ((1, "values"), (2, "slices"), (0, "end")):
        print(f"tag {tag} ({name}): {sum(r[0] == tag for r in records)}")
    write_or_check({"crates/codec_vectors/data/codec.bin": b"".join(records)})


if __name__ == "__main__":
    main()
