"""Test vectors for LWE ciphertexts, computed from document 01, with any t below q (T-10), errors of either form (T-01) and
c, the number of encryptions summed (T-02).

    python3 scripts/lwe_vectors.py          write the file
    python3 scripts/lwe_vectors.py --check  compare with the stored file

Writes crates/lwe_vectors/data/lwe.bin: records of one call each, without padding, numbers
little-endian. A record is a head of 60 bytes and the words that its lengths announce:

    kind u8 (0 ends the file; 128 more where errors are words), modulus kind u8 (1 explicit), modulus u32, n u64, t u32, E u32,
    embedding u8 (1 Centered), refusal u8, value u32, answer u32,
    lengths u16 of a, b, c (words), d, e (signed numbers; e words where errors are) and of the buffer, m u64, base log u32, levels u32;
    a, b, c, d, e, the buffer before the call, and, where it is not refused, the buffer after it

The class of each call says what it takes from value, a .. e and the buffer. The answer is what an accepted
call gives beside the buffer. After a refusal the answer is 0 and the buffer is what it was.

Where a call is lent tags, or answers one that the record says, c goes on with them: four words for each tag that is lent, where it
comes from, the low and the high word of the tally, and c; then, where the call is not refused, three words for each tag that it
answers or leaves: the tally, 2^64 - 1 for none, and c. A refused call leaves the tags that it is lent.

How document 01 is read, where it leaves a choice:
- A number applies exactly when the call takes the operand that it speaks of; the lowest that applies is the
  answer, over the whole call. An opening takes no E, so it has no 13.
- 9 and 10 speak of what is read, 11 of what is written, 12 of what is lent for randomness.
- A dimension is judged by its kind, before the call that is to take it. So no record has 2 and 6 both.
- A plaintext is a word (14); a message has 16 only, also where it is not below q.
- A given tally above 2^32 is refused by 17 even where the other ciphertext has none, and so is a c above 65,536; c 0 is served.
- A tally saved without c is not kept.
- An error word not below q has 14, and what it counts as has 15 too where it lies outside ±E: then 14 is the answer.
"""

import struct
import sys
from collections import namedtuple
from copy import copy
from dataclasses import dataclass, field, replace
from math import gcd

sys.dont_write_bytecode = True  # importing must leave no file in the repository

from codec_vectors import Codec
from scheme01 import Draw, nearest, write_or_check

HEAD = struct.Struct("<BBIQIIBBII6HQII")

# Native, a power of two, small and large, and primes, the last two near 2^31 and 2^32.
MODULI = [17, 16, 65536, 2**31 - 1, 2**32 - 5, None]
EDGE_MODULI = [4, 5, 2**31, 2**31 + 1, 2**32 - 1]
LOWEST, HIGHEST = -(2**31), 2**31 - 1
WORD_MAX = 2**32 - 1
LIMIT = 1048576
# A plaintext modulus for money in cents (T-10).
CENTS = 1000003
# What the kind of a call has more where its errors are words.
WORDED = 128
# The words that the program has room for.
ROOMS = [8192, 8192, 8192, 2048, 2048, 8192]


@dataclass(frozen=True)
class Case:
    """What one call is given; modulus None is native."""

    modulus: int
    n: int
    t: int = 0
    E: int = 0
    centered: bool = False
    value: int = 0
    a: list = field(default_factory=list)
    b: list = field(default_factory=list)
    c: list = field(default_factory=list)
    d: list = field(default_factory=list)
    e: list = field(default_factory=list)
    out: list = field(default_factory=list)
    tags: list = field(default_factory=list)
    carried: list = field(default_factory=list)
    # of key switching only: switch_vectors.py
    m: int = 0
    base_log: int = 0
    levels: int = 0

    @property
    def q(self):
        return 2**32 if self.modulus is None else self.modulus


# --- The definitions of document 01 ---


def inner(a, s):
    return sum(x * y for x, y in zip(a, s))


def encrypted(q, a, s, e, p):
    """b = <a, s> + e + p."""
    return list(a) + [(inner(a, s) + e + p) % q]


def phase_of(q, x, s):
    """b - <a, s>, of the n + 1 words x."""
    return (x[-1] - inner(x[:-1], s)) % q


def rotated(n, a, s, i):
    """What body i of a packed ciphertext uses."""
    return inner(a[: n - i], s[i:]) - inner(a[n - i : n], s[:i])


def packed(q, n, a, s, errors, plain):
    return list(a) + [(rotated(n, a, s, i) + e + p) % q for i, (e, p) in enumerate(zip(errors, plain))]


def packed_phases(q, n, x, s):
    return [(b - rotated(n, x, s, i)) % q for i, b in enumerate(x[n:])]


def rows_of(words, width):
    return [words[i : i + width] for i in range(0, len(words), width)]


def encrypted_rows(q, n, masks, s, errors, plain):
    rows = zip(rows_of(masks, n), errors, plain)
    return [w for mask, e, p in rows for w in encrypted(q, mask, s, e, p)]


def public_encrypted(q, n, key, errors, coefficients, p):
    """n + 1 errors, p added to the body, row i added or subtracted by coefficient i."""
    words = list(errors)
    words[n] += p
    for r, row in zip(coefficients, rows_of(key, n + 1)):
        words = [w + r * x for w, x in zip(words, row)]
    return [w % q for w in words]


def extracted(q, n, x, i):
    """A ciphertext of one message: <mask, s> is what body i uses, for every s."""
    mask = [0] * n
    for j in range(n):
        if j < n - i:
            mask[j + i] += x[j]
        else:
            mask[j - n + i] -= x[j]
    return [w % q for w in mask] + [x[n + i]]


# --- What a ciphertext carries: document 01, with c (T-02) ---

NO_TALLY = 2**64 - 1

# A call that gives no tally; an encryption, whose tally is E; saved data with c, and without; saved data with c, then switched.
NONE, FRESH, GIVEN, ABSENT, KEPT = range(5)

# A tally of None is none; c.
Carried = namedtuple("Carried", "tally count")


@dataclass(frozen=True)
class Tag:
    """Where a tag comes from, and the numbers that are given there."""

    source: int
    tally: int = 0
    count: int = 1

    def words(self):
        return [self.source, self.tally % 2**32, self.tally >> 32, self.count]


def carried_of(tag):
    """c is 1 when fresh and kept by a switch; what was saved without it is read as c 1 with no tally."""
    held = tag.source in (FRESH, GIVEN) and tag.tally != NO_TALLY
    return Carried(tag.tally if held else None, tag.count if tag.source in (GIVEN, KEPT) else 1)


def carried_words(x):
    tally = NO_TALLY if x.tally is None else x.tally
    return [tally % 2**32, tally >> 32, x.count]


def summed(x, y):
    """A sum with one that has no tally has none; c is added in any case."""
    return Carried(None if None in (x.tally, y.tally) else x.tally + y.tally, x.count + y.count)


def kept(x):
    """After a switch, and of a body taken out of a packed ciphertext."""
    return Carried(None, x.count)


def exceeds(x):
    return (x.tally is not None and x.tally > 2**32) or x.count > 65536


def good(q, t, x):
    return x.tally is not None and 2 * t * x.tally + x.count * t < q


# --- What each number says ---


def outside(limit, numbers):
    return any(abs(c) >= limit for c in numbers)


def words_fail(q, words):
    return any(w >= q for w in words)


def common(k):
    yield 2, k.modulus is not None and k.modulus < 4
    yield 6, k.n == 0 or k.n > 2048


def plaintext_rows(k):
    yield 7, k.t < 2
    yield 8, k.modulus is not None and k.modulus <= k.t


def bound_rows(k):
    yield 13, k.E > LIMIT or k.E >= k.q


# --- Random operands ---


class Pick:
    """Operands that are accepted with the modulus, and its edges among them."""

    def __init__(self, draw, modulus, n, E=None, t=None):
        self.draw, self.modulus, self.n = draw, modulus, n
        self.q = q = 2**32 if modulus is None else modulus
        most = min(q - 1, LIMIT) if q else 0
        self.E = min(draw.choose([0, 1, 3, most, draw.below(most + 1)]), most) if E is None else E
        most = max(q - 1, 2)
        plain = [x for x in (2, 3, 4, 7, 16, 256, 1000, 65536, CENTS, 2**31, most) if x <= most]
        self.t = draw.choose(plain) if t is None else t
        self.centered = draw.below(2) == 1

    def base(self, **operands):
        return Case(self.modulus, self.n, E=self.E, **operands)

    def word(self):
        q = self.q
        return self.draw.choose([0, q - 1, self.draw.below(q), self.draw.below(q)]) if q else 0

    def words(self, count):
        return [self.word() for _ in range(count)]

    def between(self, low, high):
        return low + self.draw.below(high - low + 1)

    def secret(self, signed):
        if not signed:
            return self.words(self.n)
        low, high = max(-(self.q - 1), LOWEST), min(self.q - 1, HIGHEST)
        return [
            self.draw.choose([low, high, max(low, -1), 0, min(high, 1), self.between(low, high)]) for _ in range(self.n)
        ]

    def errors(self, count):
        E = self.E
        return [self.draw.choose([-E, E, self.between(-E, E)]) for _ in range(count)]

    def coefficients(self, count):
        return [self.between(-1, 1) for _ in range(count)]

    def message(self):
        return self.draw.choose([0, self.t - 1, self.draw.below(self.t)])

    def room(self, count):
        """A buffer that is only written: any words, also words not below q."""
        return [self.draw.choose([7, WORD_MAX, self.draw.below(2**32)]) for _ in range(count)]

    def codec(self):
        return Codec(self.modulus, self.t)


# --- Faults, for the calls here and those of switch_vectors.py ---


def replaced(k, name, bad, draw):
    """A bad number in the first place, in the last and in any."""
    words = getattr(k, name)
    if not words:
        return
    for w in bad:
        for place in sorted({0, len(words) - 1, draw.below(len(words))}):
            yield replace(k, **{name: words[:place] + [w] + words[place + 1 :]})


def other_lengths(k, names):
    """One number too many, one too few, none."""
    for name in names:
        words = getattr(k, name)
        yield replace(k, **{name: words + [0]})
        if words:
            yield replace(k, **{name: words[:-1]})
            yield replace(k, **{name: []})


def words_not_below_q(k, name, draw):
    """Words, or in d signed numbers, of q and more."""
    bad, low, high = ((k.q, -k.q, LOWEST, HIGHEST), LOWEST, HIGHEST) if name == "d" else ((k.q, WORD_MAX), 0, WORD_MAX)
    yield from replaced(k, name, [w for w in bad if abs(w) >= k.q and low <= w <= high], draw)


# --- The calls ---


class Call:
    """kind and name; what the lengths and numbers of its operands are judged by."""

    takes_t = False
    takes_E = False
    # The fields that 9 to 12, 14, 15 and 16 speak of.
    fields = {}

    @property
    def numbers(self):
        numbers = {2, 6, *self.fields}
        numbers |= {7, 8} if self.takes_t else set()
        numbers |= {13} if self.takes_E else set()
        return sorted(numbers)

    def rows(self, k):
        yield from common(k)
        if self.takes_t:
            yield from plaintext_rows(k)
        if self.takes_E:
            yield from bound_rows(k)
        yield from self.own_rows(k)

    def applying(self, k):
        return {number for number, applies in self.rows(k) if applies}

    def errors(self, k):
        """The signed values of the errors lent."""
        return k.e

    def lent(self, p, count):
        """Errors to lend."""
        return p.errors(count)

    def errors_outside(self, k):
        """Errors to lend that lie outside ±E."""
        return [c for c in (k.E + 1, -k.E - 1, LOWEST, HIGHEST) if LOWEST <= c <= HIGHEST and abs(c) > k.E]

    def operands(self, p, **more):
        """The parameters that the call takes, with its own operands."""
        k = p.base(**more)
        if self.takes_t:
            k = replace(k, t=p.t, centered=p.centered)
        return k if self.takes_E else replace(k, E=0)

    def faults(self, k, number, draw):
        """Cases like k to which the number also applies, where this is possible."""
        q = k.q
        if number == 2:
            yield from (replace(k, modulus=m) for m in (0, 1, 2, 3))
        elif number == 6:
            yield from (replace(k, n=n) for n in (0, 2049, 2**32 + 1))
        elif number == 7:
            yield from (replace(k, t=t) for t in (0, 1))
            # Under t = 1 a message of 0 is not refused by 16 besides.
            zeros = {"value": 0} if "value" in self.fields.get(16, ()) else {"c": [0] * len(k.c)}
            if 16 in self.fields:
                yield replace(k, t=1, **zeros)
        elif number == 8:
            yield from (replace(k, t=t) for t in (q, q + 1, WORD_MAX) if q <= t <= WORD_MAX)
        elif number == 13:
            yield from (replace(k, E=E) for E in (LIMIT + 1, WORD_MAX, q, q + 1) if E <= WORD_MAX)
        elif number in (9, 10, 11, 12):
            yield from other_lengths(k, self.fields[number])
        elif number == 14:
            for name in self.fields[14]:
                if name == "value":
                    yield from (replace(k, value=w) for w in (q, WORD_MAX) if q <= w <= WORD_MAX)
                else:
                    yield from words_not_below_q(k, name, draw)
        elif number == 15:
            for name in self.fields[15]:
                bad = self.errors_outside(k) if name == "e" else [2, -2, LOWEST, HIGHEST]
                yield from replaced(k, name, bad, draw)
        elif number == 16:
            bad = [w for w in (k.t, k.t + 1, q, WORD_MAX) if k.t <= w <= WORD_MAX]
            for name in self.fields[16]:
                if name == "value":
                    yield from (replace(k, value=w) for w in bad)
                else:
                    yield from replaced(k, name, bad, draw)


class ErrorWords:
    """A call whose errors e are words below q (T-01): each counts as the number that is nearest."""

    def errors(self, k):
        return [nearest(k.q, w) for w in k.e]

    def own_rows(self, k):
        yield from super().own_rows(k)
        yield 14, words_fail(k.q, k.e)

    def lent(self, p, count):
        """Words of numbers within ±E. At E = q/2 that is every word, and no word stands for -q/2."""
        low, high = -min(p.E, (p.q - 1) // 2), min(p.E, p.q // 2)
        return [p.draw.choose([low, high, p.between(low, high)]) % p.q for _ in range(count)]

    def errors_outside(self, k):
        """Next to E on either side, and about q/2."""
        near = sorted({k.E + 1, k.q // 2, k.q // 2 + 1, k.q - k.E - 1})
        return [w for w in near if 0 <= w < k.q and abs(nearest(k.q, w)) > k.E]


def worded(call):
    """The call with words for its errors."""
    signed = type(call)
    fields = {**signed.fields, 14: (*signed.fields[14], "e")}
    members = {"kind": signed.kind + WORDED, "name": f"{signed.name}, errors as words", "fields": fields}
    return type(f"{signed.__name__}Words", (ErrorWords, signed), members)()


class Dimension(Call):
    """LweDimension::try_new(n); the answer 1 says that it is n."""

    kind, name = 1, "dimension"
    numbers = [6]

    def rows(self, k):
        yield from (row for row in common(k) if row[0] == 6)

    def result(self, k):
        return 1, []


class EncryptionParameters(Call):
    """LweEncryptionParameters::try_new(n, modulus, E); the answer 1 says that its fields are these."""

    kind, name = 2, "encryption parameters"
    takes_E = True

    def own_rows(self, k):
        return ()

    def make(self, p):
        return self.operands(p)

    def result(self, k):
        return 1, []


class Parameters(EncryptionParameters):
    """LweParameters::try_new(n, modulus, t, E); the answer 1 says that its fields are these."""

    kind, name = 3, "parameters"
    takes_t = True


class Tagged:
    """A call that is lent tags; given what these say, `afterwards` is what those say that it answers or leaves."""

    # Tags to which 17 applies, for one call each.
    bad_tags = ()

    def afterwards(self, given):
        return []

    def tagged(self, k, *tags):
        return replace(k, tags=[*tags], carried=self.afterwards([carried_of(x) for x in tags]))

    def tag_rows(self, k):
        yield 17, any(map(exceeds, [*map(carried_of, k.tags), *k.carried]))

    def faults(self, k, number, draw):
        if number == 17:
            yield from (self.tagged(k, *tags) for tags in self.placed(k))
        else:
            yield from super().faults(k, number, draw)

    def placed(self, k):
        """The tags to lend, one list for each fault."""
        return self.bad_tags


TALLIES = [
    Tag(NONE), Tag(ABSENT), Tag(FRESH, 0), Tag(FRESH, 1), Tag(FRESH, LIMIT), Tag(FRESH, WORD_MAX), Tag(GIVEN, 0),
    Tag(GIVEN, 1), Tag(GIVEN, 2**31), Tag(GIVEN, 2**31 + 1), Tag(GIVEN, 2**32 - 1), Tag(GIVEN, 2**32),
    Tag(GIVEN, 2**32 + 1), Tag(GIVEN, 2**63), Tag(GIVEN, 2**64 - 2**32), Tag(GIVEN, NO_TALLY),
]

# Tags with a c that a switch and a sample keep,
KEPT_TAGS = [
    Tag(NONE), Tag(FRESH, 3), Tag(FRESH, WORD_MAX), Tag(ABSENT, 7),
    *(Tag(GIVEN, tally, c) for c in (0, 1, 2, 65536) for tally in (0, 2**32, NO_TALLY)),
    *(Tag(KEPT, 5, c) for c in (0, 1, 2, 65536)),
]

# and those that 17 refuses: by c, by the tally, and by both.
BAD_TAGS = [
    *(Tag(GIVEN, tally, c) for c in (65537, 131072, 2**31, WORD_MAX) for tally in (0, NO_TALLY)),
    Tag(KEPT, 5, 65537), Tag(GIVEN, 2**32 + 1, 1), Tag(GIVEN, 2**63, 0), Tag(GIVEN, NO_TALLY - 1, 65536),
    Tag(GIVEN, 2**32 + 1, 65537),
]


def drawn_tags(k, count):
    """Tags for a call that keeps c, drawn apart from its words."""
    draw = Draw((sum(k.b) + k.n) % 2**32)
    return [draw.choose(KEPT_TAGS) for _ in range(count)]


class TagSum(Tagged, Call):
    """add_assign of zeros with two tags: that of the sum."""

    kind, name = 4, "tally sum"
    numbers = [17]

    def rows(self, k):
        yield from self.tag_rows(k)

    def afterwards(self, given):
        return [summed(*given)]

    def make(self, x, y):
        return self.tagged(Case(None, 1), x, y)

    def result(self, k):
        return 0, []


class Mark(Tagged, Call):
    """LweTag::is_good(modulus, t) of a tag; the answer is 1 where it is marked good."""

    kind, name = 5, "mark"
    numbers = [2, 7, 8, 17]
    takes_t = True
    bad_tags = [[Tag(GIVEN, x)] for x in (2**32 + 1, 2**63, NO_TALLY)]

    def rows(self, k):
        yield 2, k.modulus is not None and k.modulus < 4
        yield from plaintext_rows(k)
        yield from self.tag_rows(k)

    def make(self, p):
        return Case(p.modulus, 1, t=p.t, tags=[Tag(p.draw.choose([NONE, FRESH, GIVEN]), p.draw.below(2**20))])

    def result(self, k):
        return int(good(k.q, k.t, carried_of(*k.tags))), []


class Add(Tagged, Call):
    """add_assign(modulus, n, x, y): x is the buffer, y is b; two tags are lent, that of x and that of y."""

    kind, name = 6, "sum"
    fields = {10: ("out", "b"), 14: ("out", "b"), 17: ("tags",)}
    bad_tags = [
        [Tag(GIVEN, 2**32 + 1), Tag(NONE)], [Tag(FRESH, 7), Tag(GIVEN, 2**63)], [Tag(GIVEN, 2**32), Tag(FRESH, 1)],
    ]

    def own_rows(self, k):
        yield 10, len(k.out) != k.n + 1 or len(k.b) != k.n + 1
        yield 14, words_fail(k.q, k.out) or words_fail(k.q, k.b)
        yield from self.tag_rows(k)

    def afterwards(self, given):
        return [summed(*given)]

    def make(self, p):
        k = self.operands(p, out=p.words(p.n + 1), b=p.words(p.n + 1))
        draw = Draw(sum(k.b) % 2**32)
        served = [x for x in TALLIES if not exceeds(carried_of(x))]
        tags = [draw.choose(served), draw.choose(served)]
        k = self.tagged(k, *(replace(x, count=draw.choose([0, 1, 2, 1000, 32768])) for x in tags))
        return self.tagged(k, Tag(FRESH, 1), Tag(FRESH, 2)) if 17 in {n for n, holds in self.own_rows(k) if holds} else k

    def result(self, k):
        return 0, [(x + y) % k.q for x, y in zip(k.out, k.b)]


class Extract(Tagged, Call):
    """extract_lwe_at(modulus, n, b, its tag, value, buffer): the sample of body `value`, which keeps c."""

    kind, name = 7, "sample"
    fields = {10: ("b",), 11: ("out",), 14: ("b",)}
    bad_tags = [[x] for x in BAD_TAGS]

    def own_rows(self, k):
        yield 10, len(k.b) < k.n or len(k.b) > 2 * k.n or len(k.b) <= k.n + k.value
        yield 11, len(k.out) != k.n + 1
        yield 14, words_fail(k.q, k.b)
        yield from self.tag_rows(k)

    def afterwards(self, given):
        return [*map(kept, given)]

    def make(self, p, count=None):
        count = 1 + p.draw.below(p.n) if count is None else count
        index = p.draw.choose([0, count - 1, p.draw.below(count)])
        k = self.operands(p, b=p.words(p.n + count), value=index, out=p.room(p.n + 1))
        return self.tagged(k, *drawn_tags(k, 1))

    def faults(self, k, number, draw):
        yield from super().faults(k, number, draw)
        if number == 10:
            yield replace(k, b=k.b + [0] * (2 * k.n + 1 - len(k.b)))
            yield from (replace(k, value=i) for i in (len(k.b) - k.n, WORD_MAX) if i >= 0)

    def result(self, k):
        return 0, extracted(k.q, k.n, k.b, k.value)


class Secret(Call):
    """Calls under a secret key: words in a, or signed numbers in d."""

    takes_E = True
    signed = False

    def key(self, p):
        return {"d" if self.signed else "a": p.secret(self.signed)}

    def secret(self, k):
        return k.d if self.signed else k.a

    def key_rows(self, k):
        yield 9, len(self.secret(k)) != k.n
        yield 14, words_fail(k.q, k.a) or outside(k.q, k.d)


class EncryptEncoded(Secret):
    """encrypt_encoded_to: mask b, error e, plaintext value, ciphertext in the buffer."""

    kind, name = 8, "encryption"
    fields = {9: ("a",), 11: ("out",), 12: ("b", "e"), 14: ("a", "b", "value"), 15: ("e",)}

    def own_rows(self, k):
        yield from self.key_rows(k)
        yield 11, len(k.out) != k.n + 1
        yield 12, len(k.b) != k.n or len(k.e) != 1
        yield 14, words_fail(k.q, k.b) or k.value >= k.q
        yield 15, outside(k.E + 1, self.errors(k))

    def make(self, p):
        return self.operands(p, **self.key(p), b=p.words(p.n), e=self.lent(p, 1), value=p.word(), out=p.room(p.n + 1))

    def result(self, k):
        (error,) = self.errors(k)
        x = encrypted(k.q, k.b, self.secret(k), error, k.value)
        assert phase_of(k.q, x, self.secret(k)) == (error + k.value) % k.q
        return 0, x


class EncryptEncodedSigned(EncryptEncoded):
    kind, name = 9, "encryption, signed key"
    signed = True
    fields = {**EncryptEncoded.fields, 9: ("d",), 14: ("d", "b", "value")}


class Phase(Secret):
    """decrypt_phase: ciphertext b; the answer is the phase."""

    kind, name = 10, "phase"
    takes_E = False
    fields = {9: ("a",), 10: ("b",), 14: ("a", "b")}

    def own_rows(self, k):
        yield from self.key_rows(k)
        yield 10, len(k.b) != k.n + 1
        yield 14, words_fail(k.q, k.b)

    def make(self, p):
        return self.operands(p, **self.key(p), b=p.words(p.n + 1))

    def result(self, k):
        return phase_of(k.q, k.b, self.secret(k)), []


class PhaseSigned(Phase):
    kind, name = 11, "phase, signed key"
    signed = True
    fields = {**Phase.fields, 9: ("d",), 14: ("d", "b")}


class EncryptMessage(Secret):
    """encrypt_message_to: mask b, error e, message value, ciphertext in the buffer."""

    kind, name = 12, "message"
    takes_t = True
    fields = {9: ("a",), 11: ("out",), 12: ("b", "e"), 14: ("a", "b"), 15: ("e",), 16: ("value",)}

    def own_rows(self, k):
        yield from self.key_rows(k)
        yield 11, len(k.out) != k.n + 1
        yield 12, len(k.b) != k.n or len(k.e) != 1
        yield 14, words_fail(k.q, k.b)
        yield 15, outside(k.E + 1, self.errors(k))
        yield 16, k.value >= k.t

    def make(self, p):
        return self.operands(p, **self.key(p), b=p.words(p.n), e=self.lent(p, 1), value=p.message(), out=p.room(p.n + 1))

    def result(self, k):
        codec, s = Codec(k.modulus, k.t), self.secret(k)
        x = encrypted(k.q, k.b, s, *self.errors(k), codec.embed(k.value, k.centered))
        if 2 * k.t * k.E + k.t < k.q:
            assert codec.decode(phase_of(k.q, x, s)) == k.value
        return 0, x


class EncryptMessageSigned(EncryptMessage):
    kind, name = 13, "message, signed key"
    signed = True
    fields = {**EncryptMessage.fields, 9: ("d",), 14: ("d", "b")}


class Open(Phase):
    """decrypt_message: ciphertext b; the answer is the message."""

    kind, name = 14, "opening"
    takes_t = True

    def make(self, p):
        """A ciphertext of a message, a sum of two, or any words."""
        key = self.key(p)
        (s,) = key.values()
        x, y = (
            encrypted(p.q, p.words(p.n), s, p.errors(1)[0], p.codec().embed(p.message(), p.centered))
            if p.q >= 4
            else p.words(p.n + 1)
            for _ in range(2)
        )
        total = [(u + v) % p.q for u, v in zip(x, y)]
        return self.operands(p, **key, b=p.draw.choose([x, total, p.words(p.n + 1)]))

    def result(self, k):
        return Codec(k.modulus, k.t).decode(phase_of(k.q, k.b, self.secret(k))), []


class OpenSigned(Open):
    kind, name = 15, "opening, signed key"
    signed = True
    fields = PhaseSigned.fields


class PackEncoded(Secret):
    """encrypt_encoded_packed: mask b, errors e, plaintexts c, ciphertext in the buffer."""

    kind, name = 16, "packed encryption"
    fields = {9: ("a",), 10: (), 11: ("out",), 12: ("b", "e"), 14: ("a", "b", "c"), 15: ("e",)}

    def own_rows(self, k):
        yield from self.key_rows(k)
        count = len(k.c)
        yield 10, count > k.n
        yield 11, len(k.out) != k.n + count
        yield 12, len(k.b) != k.n or len(k.e) != count
        yield 14, words_fail(k.q, k.b)
        yield 15, outside(k.E + 1, self.errors(k))
        yield from self.plain_rows(k)

    def plain_rows(self, k):
        yield 14, words_fail(k.q, k.c)

    def plain(self, p, count):
        return p.words(count)

    def make(self, p, count=None):
        count = p.draw.choose([p.n, p.draw.below(p.n + 1)]) if count is None else count
        return self.operands(
            p, a=p.words(p.n), b=p.words(p.n), c=self.plain(p, count), e=self.lent(p, count), out=p.room(p.n + count)
        )

    def faults(self, k, number, draw):
        yield from super().faults(k, number, draw)
        if number == 10 and k.n <= 2048:
            more = k.n + 1 - len(k.c)
            yield replace(k, c=k.c + [0] * more, e=k.e + [0] * more, out=k.out + [7] * more)

    def words(self, k):
        return k.c

    def result(self, k):
        plain, errors = self.words(k), self.errors(k)
        x = packed(k.q, k.n, k.b, k.a, errors, plain)
        assert packed_phases(k.q, k.n, x, k.a) == [(e + p) % k.q for e, p in zip(errors, plain)]
        return 0, x


class PackMessages(PackEncoded):
    """encrypt_message_packed: the same with messages c."""

    kind, name = 19, "packed messages"
    takes_t = True
    fields = {**PackEncoded.fields, 14: ("a", "b"), 16: ("c",)}

    def plain_rows(self, k):
        yield 16, words_fail(k.t, k.c)

    def plain(self, p, count):
        return [p.message() for _ in range(count)]

    def words(self, k):
        codec = Codec(k.modulus, k.t)
        return [codec.embed(m, k.centered) for m in k.c]


class PackPhases(Secret):
    """decrypt_phase_packed: packed ciphertext b, phases in the buffer."""

    kind, name = 17, "packed phases"
    takes_E = False
    fields = {9: ("a",), 10: ("b",), 11: ("out",), 14: ("a", "b")}

    def own_rows(self, k):
        yield from self.key_rows(k)
        yield 10, len(k.b) < k.n or len(k.b) > 2 * k.n
        yield 11, len(k.out) != max(len(k.b) - k.n, 0)
        yield 14, words_fail(k.q, k.b)

    def make(self, p, count=None):
        count = p.draw.choose([p.n, p.draw.below(p.n + 1)]) if count is None else count
        return self.operands(p, a=p.words(p.n), b=p.words(p.n + count), out=p.room(count))

    def faults(self, k, number, draw):
        if number == 10:
            # n + 1 bodies with as many words of output; fewer than n words.
            if k.n <= 2048:
                more = 2 * k.n + 1 - len(k.b)
                yield replace(k, b=k.b + [0] * more, out=k.out + [7] * more)
                yield replace(k, b=k.b[: max(k.n, 1) - 1])
                yield replace(k, b=[])
        else:
            yield from super().faults(k, number, draw)

    def result(self, k):
        return 0, packed_phases(k.q, k.n, k.b, k.a)


class PackOpen(PackPhases):
    """decrypt_message_packed: packed ciphertext b, messages in the buffer."""

    kind, name = 20, "packed openings"
    takes_t = True

    def result(self, k):
        codec = Codec(k.modulus, k.t)
        return 0, [codec.decode(p) for p in packed_phases(k.q, k.n, k.b, k.a)]


class BatchMessages(Secret):
    """encrypt_message_batch_to: masks b, errors e, messages c, a run of ciphertexts in the buffer."""

    kind, name = 21, "batch of messages"
    takes_t = True
    fields = {9: ("a",), 11: ("out",), 12: ("b", "e"), 14: ("a", "b"), 15: ("e",), 16: ("c",)}

    def own_rows(self, k):
        yield from self.key_rows(k)
        count = len(k.c)
        yield 11, len(k.out) != count * (k.n + 1)
        yield 12, len(k.b) != count * k.n or len(k.e) != count
        yield 14, words_fail(k.q, k.b)
        yield 15, outside(k.E + 1, self.errors(k))
        yield 16, words_fail(k.t, k.c)

    def make(self, p, count=None):
        count = p.draw.choose([0, 1, 2, 3, 5]) if count is None else count
        return self.operands(
            p,
            a=p.words(p.n),
            b=p.words(count * p.n),
            c=[p.message() for _ in range(count)],
            e=self.lent(p, count),
            out=p.room(count * (p.n + 1)),
        )

    def result(self, k):
        codec = Codec(k.modulus, k.t)
        plain = [codec.embed(m, k.centered) for m in k.c]
        return 0, encrypted_rows(k.q, k.n, k.b, k.a, self.errors(k), plain)


class BatchPhases(Secret):
    """decrypt_phase_batch_to: a run of ciphertexts b, phases in the buffer."""

    kind, name = 18, "batch of phases"
    takes_E = False
    fields = {9: ("a",), 10: (), 11: ("out",), 14: ("a", "b")}

    def own_rows(self, k):
        yield from self.key_rows(k)
        yield 10, len(k.b) % (k.n + 1) != 0
        yield 11, len(k.out) != len(k.b) // (k.n + 1)
        yield 14, words_fail(k.q, k.b)

    def make(self, p, count=None):
        count = p.draw.choose([0, 1, 2, 3, 5]) if count is None else count
        return self.operands(p, a=p.words(p.n), b=p.words(count * (p.n + 1)), out=p.room(count))

    def faults(self, k, number, draw):
        yield from super().faults(k, number, draw)
        if number == 10:
            yield replace(k, b=k.b + [0])
            if k.b:
                yield replace(k, b=k.b[:-1])

    def result(self, k):
        return 0, [phase_of(k.q, x, k.a) for x in rows_of(k.b, k.n + 1)]


class BatchOpen(BatchPhases):
    """decrypt_message_batch_to: a run of ciphertexts b, messages in the buffer."""

    kind, name = 22, "batch of openings"
    takes_t = True

    def result(self, k):
        codec = Codec(k.modulus, k.t)
        return 0, [codec.decode(phase_of(k.q, x, k.a)) for x in rows_of(k.b, k.n + 1)]


class Generate(Secret):
    """LwePublicKey::generate: masks b, errors e, the key in the buffer."""

    kind, name = 23, "public key"
    fields = {9: ("a",), 11: ("out",), 12: ("b", "e"), 14: ("a", "b"), 15: ("e",)}

    def own_rows(self, k):
        yield from self.key_rows(k)
        yield 11, len(k.out) != k.n * (k.n + 1)
        yield 12, len(k.b) != k.n * k.n or len(k.e) != k.n
        yield 14, words_fail(k.q, k.b)
        yield 15, outside(k.E + 1, self.errors(k))

    def make(self, p):
        n = p.n
        return self.operands(p, **self.key(p), b=p.words(n * n), e=self.lent(p, n), out=p.room(n * (n + 1)))

    def result(self, k):
        return 0, encrypted_rows(k.q, k.n, k.b, self.secret(k), self.errors(k), [0] * k.n)


class GenerateSigned(Generate):
    kind, name = 24, "public key, signed key"
    signed = True
    fields = {**Generate.fields, 9: ("d",), 14: ("d", "b")}


class PublicEncoded(Call):
    """LwePublicKey::encrypt_encoded_to: key a, errors e, coefficients d, plaintext value; ciphertext in the buffer."""

    kind, name = 25, "public-key encryption"
    takes_E = True
    fields = {9: ("a",), 11: ("out",), 12: ("e", "d"), 14: ("a", "value"), 15: ("e", "d")}

    def own_rows(self, k):
        yield 9, len(k.a) != k.n * (k.n + 1)
        yield 11, len(k.out) != k.n + 1
        yield 12, len(k.e) != k.n + 1 or len(k.d) != k.n
        yield 14, words_fail(k.q, k.a)
        yield 15, outside(k.E + 1, self.errors(k)) or outside(2, k.d)
        yield from self.plain_rows(k)

    def plain_rows(self, k):
        yield 14, k.value >= k.q

    def plain(self, p):
        return p.word()

    def make(self, p):
        """The key is made from a secret, or is any words."""
        n = p.n
        key = p.words(n * (n + 1))
        if p.q and p.draw.below(2) and n:
            s, errors, f, r, plain = p.words(n), p.errors(n), p.errors(n + 1), p.coefficients(n), p.word()
            key = encrypted_rows(p.q, n, p.words(n * n), s, errors, [0] * n)
            law = plain + f[n] - inner(f, s) + inner(r, errors)
            assert phase_of(p.q, public_encrypted(p.q, n, key, f, r, plain), s) == law % p.q
        return self.operands(
            p, a=key, e=self.lent(p, n + 1), d=p.coefficients(n), value=self.plain(p), out=p.room(n + 1)
        )

    def word(self, k):
        return k.value

    def result(self, k):
        return 0, public_encrypted(k.q, k.n, k.a, self.errors(k), k.d, self.word(k))


class PublicMessage(PublicEncoded):
    """LwePublicKey::encrypt_message_to: the same with message value."""

    kind, name = 26, "public-key message"
    takes_t = True
    fields = {**PublicEncoded.fields, 14: ("a",), 16: ("value",)}

    def plain_rows(self, k):
        yield 16, k.value >= k.t

    def plain(self, p):
        return p.message()

    def word(self, k):
        return Codec(k.modulus, k.t).embed(k.value, k.centered)


class Saved(Tagged, Call):
    """LweTag::fresh, untallied, saved and without_tally: what the tag says."""

    kind, name = 33, "tags"

    def rows(self, k):
        return ()

    def afterwards(self, given):
        return given

    def result(self, k):
        return 0, []


@dataclass(frozen=True)
class Single:
    """One encryption of a total."""

    E: int
    centered: bool
    message: int
    error: int


class Total(Secret):
    """Messages encrypted to the places 0, 1, .. of the buffer, `value` of them with masks b and errors e, then `m` additions of the
    ciphertext at one place to that at another, with the tags that the calls answer; what is at place 0 is the total, and the answer is
    what it opens to. c is E, embedding and message of each encryption, the places of each addition, where the sum stands first, and 1
    where the total is marked good, 0 where it is not; the total's tag follows."""

    kind, name = 34, "total"
    takes_t, takes_E = True, False
    fields = {14: (), 15: ()}

    def own_rows(self, k):
        return ()

    def of(self, p, singles, additions):
        held, sums = [Carried(x.E, 1) for x in singles], [x.message for x in singles]
        for i, j in additions:
            held[i], sums[i] = summed(held[i], held[j]), sums[i] + sums[j]
        marked = good(p.q, p.t, held[0])
        c = [w for x in singles for w in (x.E, x.centered, x.message)]
        c += [place for pair in additions for place in pair]
        count = len(singles)
        k = self.operands(
            p, **self.key(p), b=p.words(count * p.n), c=c + [marked], e=[self.lent_as(p.q, x.error) for x in singles],
            value=count, m=len(additions), out=p.room(count * (p.n + 1)), carried=[held[0]],
        )
        assert not any(map(exceeds, held)) and (not marked or self.result(k)[0] == sums[0] % p.t)
        return k

    def lent_as(self, q, error):
        return error if self.kind < WORDED else error % q

    def result(self, k):
        codec, s, numbers = Codec(k.modulus, k.t), self.secret(k), rows_of(k.c[: 3 * k.value], 3)
        plain = [codec.embed(message, centered) for _, centered, message in numbers]
        rows = rows_of(encrypted_rows(k.q, k.n, k.b, s, self.errors(k), plain), k.n + 1)
        for i, j in rows_of(k.c[3 * k.value : -1], 2):
            rows[i] = [(x + y) % k.q for x, y in zip(rows[i], rows[j])]
        return codec.decode(phase_of(k.q, rows[0], s)), [w for row in rows for w in row]


class TotalSigned(Total):
    kind, name = 35, "total, signed key"
    signed = True


# --- Records ---


def record(call, k):
    applying = call.applying(k)
    assert call.kind % WORDED > 26 or not {2, 6} <= applying
    refusal = min(applying, default=0)
    answer, after = (0, k.out) if refusal else call.result(k)
    if not refusal and call.kind > 5:
        assert not words_fail(k.q, after) and answer < k.q
    return written(call.kind, k, refusal, answer, after)


def written(kind, k, refusal, answer, after):
    """The record of a call of this kind, with what it answered."""
    assert len(after) == len(k.out) and all(0 <= w < 2**32 for w in after)
    carried = [] if refusal else [w for x in k.carried for w in carried_words(x)]
    tags = [w for x in k.tags for w in x.words()]
    lists = (k.a, k.b, k.c + tags + carried, k.d, k.e, k.out)
    assert all(len(words) <= room for words, room in zip(lists, ROOMS))
    head = HEAD.pack(
        kind, k.modulus is not None, k.modulus or 0, k.n, k.t, k.E, k.centered, refusal, k.value, answer,
        *map(len, lists), k.m, k.base_log, k.levels,
    )
    signed = [w % 2**32 for w in k.d + k.e]
    words = [*k.a, *k.b, *lists[2], *signed, *k.out, *([] if refusal else after)]
    assert len(words) <= 16384
    return head + struct.pack(f"<{len(words)}I", *words)


def most(call):
    """Public keys have n rows: smaller dimensions keep the file small."""
    return 5 if call.kind % WORDED >= 23 else 8


def accepted(call):
    """Calls that are not refused, of every modulus."""
    draw = Draw(call.kind)
    for modulus in MODULI + EDGE_MODULI:
        many = modulus in MODULI
        for n in [1, 2, 3, 4, most(call)] if many else [1 + draw.below(3)]:
            for _ in range(2 if n < 4 else 1):
                yield call.make(Pick(draw, modulus, n))
    yield call.make(Pick(draw, 2**32 - 5, 16))


def embeddings(call):
    """Messages of t/2 where q is odd and t even: Centered is one less than Unsigned."""
    if 16 not in call.fields:
        return
    draw = Draw(700 + call.kind)
    for modulus in (17, 2**31 - 1, 2**32 - 5):
        for t in (2, 4, 16):
            k = call.make(Pick(draw, modulus, 2, t=t))
            message = {"c": [t // 2] * len(k.c)} if "c" in call.fields[16] else {"value": t // 2}
            yield from (replace(k, centered=centered, **message) for centered in (False, True))


def bounds(call):
    """E at its limits, with errors of ±E."""
    if not call.takes_E:
        return
    draw = Draw(100 + call.kind)
    for modulus, E in (
        (None, LIMIT), (None, LIMIT + 1), (2**31 - 1, LIMIT), (2**31 - 1, LIMIT + 1), (LIMIT + 1, LIMIT),
        (LIMIT, LIMIT), (17, 16), (17, 17), (16, 15), (16, 16), (4, 3), (4, 4), (65536, 65535), (65536, 65536),
    ):
        yield call.make(Pick(draw, modulus, 2, E=E))


def signed_keys(call):
    """c = -2^31, and |c| = q - 1, q."""
    if not getattr(call, "signed", False):
        return
    draw = Draw(200 + call.kind)
    for modulus, c in (
        (None, LOWEST), (None, HIGHEST), (2**31, LOWEST), (2**31, HIGHEST), (2**31, -HIGHEST), (2**31 + 1, LOWEST),
        (2**31 - 1, HIGHEST), (2**31 - 1, -HIGHEST), (2**31 - 1, HIGHEST - 1), (2**31 - 1, LOWEST),
        (17, 16), (17, -16), (17, 17), (17, -17), (16, 15), (16, 16), (16, -16), (4, -3), (4, -4),
    ):
        k = call.make(Pick(draw, modulus, 3))
        for place in range(3):
            yield replace(k, d=k.d[:place] + [c] + k.d[place + 1 :])


def counts(call):
    """Packed counts 0, 1, n and n + 1; batches of 0 rows and of several, one word too long or too short."""
    draw = Draw(300 + call.kind)
    for modulus in (17, None):
        for n in (1, 3, 4):
            p = Pick(draw, modulus, n)
            if isinstance(call, (PackEncoded, PackPhases)):
                yield from (call.make(p, count) for count in (0, 1, n, n + 1))
            elif isinstance(call, Extract):
                yield from (replace(call.make(p, n), value=index) for index in range(n + 1))
                yield replace(call.make(p, 1), value=1)
            elif isinstance(call, (BatchMessages, BatchPhases)):
                for count in (0, 1, 8, 9):
                    yield call.make(p, count)
                # An empty batch is judged whole.
                for number in {9, 11, 13, 14} & {*call.numbers}:
                    yield from call.faults(call.make(p, 0), number, draw)
            if isinstance(call, BatchPhases):
                for count in (0, 1, 4):
                    k = call.make(p, count)
                    yield from (replace(k, b=k.b + [1]), replace(k, b=k.b[:-1]))


def refused(call, chosen, draw, tries=200):
    """A case to which the chosen numbers apply, or None."""
    for _ in range(tries):
        modulus = draw.choose(MODULI)
        if {7, 8} <= set(chosen):
            modulus = 1  # q ≤ t < 2: then 2 applies too
        elif 2 in chosen and draw.below(2):
            modulus = 3 if call.takes_t else draw.choose([1, 2, 3])
        n = 1 + draw.below(min(4, most(call)))
        k = call.make(Pick(draw, modulus, n))
        for number in sorted(sorted(chosen), key=lambda _: draw.below(100)):
            if number not in call.applying(k):
                options = list(call.faults(k, number, draw))
                if options:
                    k = draw.choose(options)
        if set(chosen) <= call.applying(k):
            return k
    return None


def alone(call):
    """Every fault of each number, alone."""
    draw = Draw(400 + call.kind)
    for number in call.numbers:
        seen = 0
        moduli = [3] if call.takes_t else [1, 2, 3]
        if number == 2:
            bases = [call.make(Pick(draw, modulus, n)) for modulus in moduli for n in (1, 3)]
        elif number == 6:
            bases = [call.make(Pick(draw, modulus, 0)) for modulus in (17, None) if not isinstance(call, Extract)]
        else:
            bases = []
            for modulus in (17, 2**31 - 1, *draw.choose([(17, None), (16, 2**31 - 1), (65536, 2**32 - 5)])):
                k = call.make(Pick(draw, modulus, 2 + draw.below(2)))
                bases += call.faults(k, number, draw)
        for k in bases:
            if call.applying(k) == {number}:
                seen += 1
                yield k
        assert seen or (number == 6 and isinstance(call, Extract)), (call.name, number)


def pairs(call):
    """Every two numbers, and several: the lowest is the answer."""
    draw = Draw(500 + call.kind)
    numbers = call.numbers
    for x in numbers:
        for y in numbers:
            if x < y and (x, y) != (2, 6):
                for _ in range(2):
                    k = refused(call, (x, y), draw)
                    assert k is not None, (call.name, x, y)
                    yield k
    if len(numbers) > 3:
        for _ in range(16):
            chosen = {draw.choose(numbers) for _ in range(3 + draw.below(3))} - {6}
            k = refused(call, chosen, draw, 20)
            if k is not None:
                yield k


# Moduli with an E: the word of q/2 and the next within ±E, just outside, and far outside.
HALVES = [
    (4, 0), (4, 1), (4, 2), (4, 3), (5, 1), (5, 2), (5, 4), (16, 3), (16, 7), (16, 8), (16, 15), (17, 0), (17, 7), (17, 8), (17, 16),
    (65536, 32767), (65536, 32768), (2 * LIMIT, LIMIT), (2 * LIMIT + 1, LIMIT), (2 * LIMIT + 2, LIMIT), (2 * LIMIT + 3, LIMIT),
    (2**31 - 1, LIMIT), (2**31, 3), (2**31 + 1, LIMIT), (2**32 - 5, LIMIT), (2**32 - 1, 1), (None, 0), (None, 1), (None, LIMIT),
]


def about_half(modulus, E):
    """Error words about 0, E, q/2 and q."""
    q = Case(modulus, 1).q
    words = {0, E, E + 1, (q - 1) // 2, q // 2, q // 2 + 1, q - E - 1, q - E, q - 1, q, q + E}
    return sorted(w for w in words if 0 <= w <= WORD_MAX)


def with_word(k, w, draw):
    """The case with w for one of its errors."""
    place = draw.below(len(k.e))
    return replace(k, e=k.e[:place] + [w] + k.e[place + 1 :])


def lending(call, draw, modulus, n, E):
    """A case that lends errors, if only one."""
    while True:
        k = call.make(Pick(draw, modulus, n, E=E))
        if k.e:
            return k


def halves(call):
    """Each of those words in a call: it is refused where the word counts as more than E, or is not below q."""
    draw = Draw(800 + call.kind)
    for modulus, E in HALVES:
        for w in about_half(modulus, E):
            yield with_word(lending(call, draw, modulus, 1 + draw.below(2), E), w, draw)


def narrowed(call, words, errors):
    """The call with faults of 14 and of 15 in these operands alone."""
    only = copy(call)
    only.fields = {**call.fields, 14: words, 15: errors}
    return only


def error_pairs(call):
    """14 and 15 by an error word, with every other number; then 14 before 15 over the whole call, whichever operand has it."""
    draw = Draw(1000 + call.kind)
    only = narrowed(call, ("e",), ("e",))
    for number in (14, 15):
        for other in call.numbers:
            if other != number:
                yield refused(only, (number, other), draw)
    for name in call.fields[14]:
        yield refused(narrowed(call, (name,), ("e",)), (14, 15), draw)
    if "d" in call.fields[15]:
        yield refused(narrowed(call, ("e",), ("d",)), (14, 15), draw)
    for modulus, E in ((17, 3), (65536, 5), (2**31 - 1, LIMIT)):
        k = lending(call, draw, modulus, 3, E)
        if len(k.e) > 1:
            yield from (replace(k, e=[x, *k.e[1:-1], y]) for x, y in ((E + 1, modulus), (modulus, E + 1)))


def long_cases():
    """Dimension 2,048, and larger public keys."""
    draw = Draw(600)
    for call, modulus, *count in (
        (Add, 2**32 - 5), (Extract, 65536, 2048), (EncryptEncoded, 2**32 - 5), (EncryptEncodedSigned, None),
        (Phase, None), (PhaseSigned, 2**31 - 1), (OpenSigned, 2**32 - 5), (PackEncoded, 2**32 - 5, 2048),
        (PackPhases, None, 2048), (BatchPhases, 2**31 - 1, 1), (PackOpen, 17, 3),
    ):
        yield call, call().make(Pick(draw, modulus, 2048), *count)
    # The dimension alone is refused.
    yield Extract, Extract().make(Pick(draw, 17, 2049), 1)
    yield Generate, Generate().make(Pick(draw, 2**32 - 5, 32))
    yield PublicEncoded, PublicEncoded().make(Pick(draw, None, 63))


def marks():
    """Tallies about the equality 2t x tally + t = q, and the largest."""
    for t, tally in (
        (2, 0), (2, 1), (3, 1), (4, 2), (5, 3), (16, 1000), (255, 7), (65536, 1), (65536, 32767), (65535, 32768),
        (65537, 1), (CENTS, 0), (CENTS, 2146), (2**30, 1), (2**31 - 1, 0), (2**31, 0), (2**32 - 3, 0), (2**32 - 2, 0),
    ):
        equal = 2 * t * tally + t
        for modulus in (equal - 1, equal, equal + 1):
            if modulus < 2**32:
                for a in sorted({max(tally - 1, 0), tally, tally + 1}):
                    yield Case(modulus, 1, t=t, tags=[Tag(GIVEN, a)])
                    yield Case(modulus, 1, t=t, tags=[Tag(FRESH, a)])
    for modulus in MODULI:
        for t in (2, 4, 15, 65536, CENTS, 2**31, 2**32 - 1):
            for a in TALLIES:
                yield Case(modulus, 1, t=t, tags=[a])
            edge = ((2**32 if modulus is None else modulus) - t) // (2 * t)
            for a in sorted({max(edge - 1, 0), max(edge, 0), max(edge + 1, 0)}):
                yield Case(modulus, 1, t=t, tags=[Tag(GIVEN, a)])


def cents():
    """Three shops' counts in cents, summed and opened: call -> cases. The sum is marked good and opens to the sum."""
    made = {kind: [] for kind in (EncryptMessage, Add, Mark, Open)}
    draw = Draw(900)
    for modulus in (2**32 - 5, None):
        p = Pick(draw, modulus, 4, E=3, t=CENTS)
        counts, secret = [199999, 1234567 % CENTS, 1000002], p.words(4)
        rows = [
            replace(EncryptMessage().make(p), a=secret, value=m, centered=centered)
            for m, centered in zip(counts, (False, True, False))
        ]
        words = [EncryptMessage().result(k)[1] for k in rows]
        total, held = words[0], Tag(FRESH, 3)
        for row in words[1:]:
            k = Add().tagged(Case(modulus, 4, out=total, b=row), held, Tag(FRESH, 3))
            made[Add].append(k)
            total, held = Add().result(k)[1], Tag(GIVEN, *k.carried[0])
        opening = Case(modulus, 4, t=CENTS, a=secret, b=total)
        mark = Case(modulus, 1, t=CENTS, tags=[held])
        assert Open().result(opening)[0] == sum(counts) % CENTS and Mark().result(mark)[0] == 1
        made[EncryptMessage] += rows
        made[Mark].append(mark)
        made[Open].append(opening)
    return made


# Two c that are summed: served up to 65,536, and 0 too; refused above, given or summed, and where 32 bits would wrap.
COUNT_PAIRS = [
    (1, 1), (0, 0), (0, 1), (65535, 1), (1, 65535), (32768, 32768), (65536, 0), (0, 65536), (65536, 1), (1, 65536), (65535, 2),
    (65537, 0), (0, 65537), (WORD_MAX, 0), (0, WORD_MAX), (WORD_MAX, 1), (1, WORD_MAX), (WORD_MAX, 2), (2**31, 2**31),
    (WORD_MAX, 65537), (2**31, 2**31 + 65536), (WORD_MAX, WORD_MAX),
]
TALLY_PAIRS = [
    (0, 0), (7, 2**32 - 7), (2**32, 0), (NO_TALLY, NO_TALLY), (5, NO_TALLY), (NO_TALLY, 2**32), (2**31, 2**31 + 1), (2**32 + 1, NO_TALLY),
]


def tag_pairs():
    """Each two c with each two tallies; then c beside tags that are given none."""
    for c, d in COUNT_PAIRS:
        yield from ([Tag(GIVEN, x, c), Tag(GIVEN, y, d)] for x, y in TALLY_PAIRS)
    for others in (Tag(NONE), Tag(FRESH, 3), Tag(ABSENT, 7), Tag(ABSENT, 2**32 + 1), Tag(ABSENT, NO_TALLY)):
        for c in (0, 1, 65535, 65536):
            yield from ([others, x] for x in (Tag(GIVEN, 4, c), Tag(KEPT, 4, c)))
            yield [Tag(KEPT, 2**40, c), others]


# t, tally and c; 2t x tally + c x t is below 2^32 but for the pairs of numbers whose product 32 bits do not hold.
ABOUT_EQUAL = [
    (3, 0, 6), (3, 0, 3), (2, 0, 2), (2, 1, 0), (3, 1, 2), (5, 0, 7), (5, 9, 0), (16, 1000, 65536), (255, 7, 300), (2, 0, 65536),
    (65535, 0, 65536), (65536, 0, 65535), (65536, 0, 65536), (65536, 32767, 2), (65536, 32768, 0), (65537, 32767, 1),
    (CENTS, 2000, 294), (CENTS, 0, 4294), (2**31 - 1, 0, 2), (2**31, 0, 2), (2**31, 1, 0), (2**30, 1, 2), (2**30, 0, 4), (2**30, 2, 0),
]


def equal_marks():
    """q next to 2t x tally + c x t and the same, and native; c and one beside it."""
    for t, tally, c in ABOUT_EQUAL:
        equal = 2 * t * tally + c * t
        moduli = [None if q == 2**32 else q for q in (equal - 1, equal, equal + 1, 2**32) if t < q <= 2**32]
        for modulus in moduli:
            yield from (Case(modulus, 1, t=t, tags=[Tag(GIVEN, tally, d)]) for d in (abs(c - 1), c, c + 1))


def wide_marks():
    """Where 32 or 64 bits are too few."""
    tallies, counts = (0, 1, 2**30 - 1, 2**30, 2**31, 2**32, 2**32 + 1, NO_TALLY), (0, 1, 2, 65535, 65536, 65537, WORD_MAX)
    for modulus in (None, 2**32 - 1):
        for t in (2, 3, 65535, 65536, 65537, 2**31, 2**32 - 2, 2**32 - 1):
            yield from (Case(modulus, 1, t=t, tags=[Tag(GIVEN, tally, c)]) for tally in tallies for c in counts)


def count_marks():
    """Marks with a c that is not 1: of q 10 and t 3, about q, where words are too small, and of any source."""
    yield from (Case(10, 1, t=3, tags=[Tag(GIVEN, 0, c)]) for c in (0, 1, 3, 4, 6))
    yield from equal_marks()
    yield from wide_marks()
    yield from (Case(modulus, 1, t=2, tags=[x]) for x in KEPT_TAGS for modulus in (5, 2**31, None))


def given_tags(call):
    """Every tag that a call keeps or sums, and refuses: on words, which a refused call leaves."""
    draw = Draw(1200 + call.kind)
    lists = list(tag_pairs()) if isinstance(call, Add) else [[x] for x in KEPT_TAGS + BAD_TAGS]
    for tags in lists:
        yield from (call.tagged(call.make(Pick(draw, modulus, 1 + draw.below(3))), *tags) for modulus in (17, None))


def tag_refusals(call, bad_tags):
    """17 by these tags, alone and with every other number."""
    draw = Draw(1100 + call.kind)
    only = copy(call)
    only.fields, only.bad_tags = {**call.fields, 17: ("tags",)}, bad_tags
    for modulus in (16, 2**32 - 5):
        yield from only.faults(only.make(Pick(draw, modulus, 2)), 17, draw)
    for other in only.numbers:
        for _ in range(6 if other != 17 else 0):
            k = refused(only, (other, 17), draw)
            assert k is not None, (call.name, other)
            yield k


def tags_of_each():
    """Where a tag can come from, with any numbers."""
    yield Tag(NONE)
    yield from (Tag(FRESH, E) for E in (0, 1, 3, LIMIT, WORD_MAX))
    for tally in (0, 1, 2**32 - 1, 2**32, 2**32 + 1, 2**63, NO_TALLY - 1, NO_TALLY):
        yield Tag(ABSENT, tally)
        for source in (GIVEN, KEPT):
            yield from (Tag(source, tally, c) for c in (0, 1, 2, 65535, 65536, 65537, WORD_MAX))


# --- Totals, from the encryptions to what they open to ---


def chain(count):
    return [(0, i) for i in range(1, count)]


def backwards(count):
    return [(i - 1, i) for i in range(count - 1, 0, -1)]


def halving(count):
    steps = [2**i for i in range(count.bit_length()) if 2**i < count]
    return [(i, i + step) for step in steps for i in range(0, count - step, 2 * step)]


def any_tree(draw, count):
    """Any two places that are left, until only the first is."""
    left, additions = list(range(count)), []
    while len(left) > 1:
        j = left.pop(1 + draw.below(len(left) - 1))
        additions.append((draw.choose(left), j))
    return additions


def repeated(x, y):
    """Two places that are added to each other until they hold x and y encryptions, which have no common factor; then both together."""
    additions = [(0, 1)]
    while x != y:
        additions.append((0, 1) if x > y else (1, 0))
        x, y = (x - y, y) if x > y else (x, y - x)
    assert x == 1
    return additions[::-1]


def rounding(q, t, message, centered):
    """t times what encoding adds to m x q / t."""
    return nearest(q * t, (Codec(q, t).embed(message, centered) * t - message * q) % (q * t))


def worst(draw, q, t):
    """The choices of a message and an embedding that are rounded down the most, and those that are rounded up the most."""
    messages = range(t) if t <= 300 else {0, t - 1, t // 2, *(draw.below(t) for _ in range(20))}
    if t > 300 and gcd(q, t) == 1:
        # m x q is about half of t, from below or above, modulo t
        messages |= {half * pow(q, -1, t) % t for half in (t // 2, -(t // 2), (t - 1) // 2, -((t - 1) // 2))}
    rounded = {(m, centered): rounding(q, t, m, centered) for m in sorted(messages) for centered in (False, True)}
    return [[x for x, r in rounded.items() if r == end] for end in (min(rounded.values()), max(rounded.values()))]


def single(draw, choices, E=0, error=0):
    message, centered = draw.choose(choices)
    return Single(E, centered, message, error)


def trees(draw, count):
    return draw.choose([chain, backwards, halving, lambda n: any_tree(draw, n)])(count)


# E of each encryption of a total.
LIMITS = [
    [0], [1], [0, 0], [0, 0, 0], [1, 0, 2], [3] * 5, [0] * 7, [2, 2, 0, 1], [0] * 16, [5, 0, 0, 7, 1, 1], [100, 0, 4096], [LIMIT, LIMIT],
]
TIGHT_MODULI = [10, 16, 17, 33, 97, 100, 257, 65536, 65537, 2**31 - 1, 2**31, 2**32 - 5, 2**32 - 1, None]


def tight_totals(draw):
    """The largest t, and one less, at which a total is marked good, with every error and rounding at its extreme, and the same with one
    encryption more, which often opens wrongly."""
    for modulus in TIGHT_MODULI:
        q = Case(modulus, 1).q
        for limits in LIMITS:
            most = (q - 1) // (2 * sum(limits) + len(limits))
            for t in (most, most - 1):
                if 2 <= t < q and max(limits) < q // 2:
                    yield from extreme_totals(draw, modulus, t, limits)


def extreme_totals(draw, modulus, t, limits):
    for sign, choices in zip((-1, 1), worst(draw, Case(modulus, 1).q, t)):
        singles = [single(draw, choices, E, sign * E) for E in (*limits, 0)]
        for count in (len(limits), len(limits) + 1):
            p = Pick(draw, modulus, 1 + draw.below(3), t=t)
            yield p, singles[:count], trees(draw, count)


def mixed_totals(draw):
    """Any messages with either embedding, any errors, in any tree."""
    for modulus in (97, 1000, 65536, 65537, 2**31 - 1, 2**32 - 5, None):
        for t in (2, 3, 7, 10, 16, 1000, 65535, CENTS):
            count = 1 + draw.below(12)
            E = draw.choose([0, 1, 3, 40])
            if max(t, E) < (modulus or 2**32):
                p = Pick(draw, modulus, 1 + draw.below(4), t=t)
                limits = [draw.choose([0, E, draw.below(E + 1)]) for _ in range(count)]
                singles = [Single(x, draw.below(2) == 1, p.message(), p.between(-x, x)) for x in limits]
                yield p, singles, trees(draw, count)


def repeated_totals(draw):
    """Many encryptions, up to 65,536, by adding sums to each other."""
    for modulus, t, x, y in (
        (None, 65535, 40503, 25033), (None, 65535, 1, 2), (2**32 - 5, 65534, 40503, 25033), (None, 65536, 40503, 25033),
        (None, 65521, 25, 16), (2**31 - 1, 46337, 28657, 17711), (2**31 - 1, 46368, 28657, 17711), (None, 7, 40503, 25033),
    ):
        p = Pick(draw, modulus, 2, t=t)
        for choices in worst(draw, p.q, t):
            yield p, [single(draw, choices), single(draw, choices)], repeated(x, y)
            yield p, [single(draw, choices), Single(1, False, 1, -1)], repeated(x, y)


def ten():
    """By hand: q 10, t 3, encryptions of 1, each a 3. Six are 18, which is 8 and opens to 2; three are 9, which opens to 0."""
    p = Pick(Draw(1300), 10, 1, t=3)
    for count, marked, opened in ((6, False, 2), (3, True, 0)):
        for centered in (False, True):
            for tree in (chain, backwards, halving):
                singles = [Single(0, centered, 1, 0)] * count
                k = Total().of(p, singles, tree(count))
                assert k.c[-1] == marked and Total().result(k)[0] == opened
                yield p, singles, tree(count)


def totals():
    """Calls with their cases; key and errors are words or signed numbers in turn."""
    draw = Draw(1400)
    made = [(call, []) for call in TOTAL_CALLS]
    asked = [*ten(), *tight_totals(draw), *mixed_totals(draw), *repeated_totals(draw)]
    for number, (p, singles, additions) in enumerate(asked):
        call, cases = made[number % 4]
        cases.append(call.of(p, singles, additions))
    return made


def check_totals(made):
    """Many totals are marked good within t of q, and many that are not open wrongly."""
    cases = [(call, k) for call, cases in made for k in cases]
    tight = [k for _, k in cases if k.c[-1] and not good(k.q - k.t, k.t, k.carried[0])]
    wrong = [k for call, k in cases if call.result(k)[0] != opened_to(k)]
    assert len(tight) > 100 and len(wrong) > 100 and not any(k.c[-1] for k in wrong)
    print(f"totals: {len(cases)}, marked good within t of q {len(tight)}, not good and open wrongly {len(wrong)}")


def opened_to(k):
    """The sum of the messages modulo t."""
    sums = k.c[2 : 3 * k.value : 3]
    for i, j in rows_of(k.c[3 * k.value : -1], 2):
        sums[i] += sums[j]
    return sums[0] % k.t


def dimensions():
    # 65,537 and 2^32 + 1 would pass if they were cut down to two or four bytes.
    for n in (0, 1, 2, 2047, 2048, 2049, 65536, 65537, 2**31, WORD_MAX, 2**32, 2**32 + 1, 2**64 - 1):
        yield Case(None, n)


CALLS = [
    Dimension(), EncryptionParameters(), Parameters(), TagSum(), Mark(), Add(), Extract(), EncryptEncoded(),
    EncryptEncodedSigned(), Phase(), PhaseSigned(), EncryptMessage(), EncryptMessageSigned(), Open(), OpenSigned(),
    PackEncoded(), PackPhases(), BatchPhases(), PackMessages(), PackOpen(), BatchMessages(), BatchOpen(), Generate(),
    GenerateSigned(), PublicEncoded(), PublicMessage(),
]


WORDED_CALLS = [worded(call) for call in CALLS if 15 in call.fields]

TOTAL_CALLS = [Total(), worded(TotalSigned()), worded(Total()), TotalSigned()]

# Tags to which 17 applies by c, or by c and a tally.
COUNT_FAULTS = {
    Add: [tags for tags in tag_pairs() if exceeds(summed(*map(carried_of, tags)))],
    Mark: [[x] for x in BAD_TAGS],
    Extract: Extract.bad_tags,
}


def cases(call):
    if isinstance(call, Dimension):
        yield from dimensions()
        return
    if isinstance(call, TagSum):
        yield from (call.make(x, y) for x in TALLIES for y in TALLIES)
        yield from (call.make(x, y) for x, y in tag_pairs())
        return
    if isinstance(call, Mark):
        yield from marks()
    yield from cents().get(type(call), ())
    yield from accepted(call)
    yield from embeddings(call)
    yield from bounds(call)
    yield from signed_keys(call)
    yield from counts(call)
    yield from alone(call)
    yield from pairs(call)
    if call in WORDED_CALLS:
        yield from halves(call)
        yield from error_pairs(call)


def tag_cases(call):
    """Those of T-02, after all that stood before."""
    if isinstance(call, Mark):
        yield from count_marks()
    if isinstance(call, (Add, Extract)):
        yield from given_tags(call)
    if type(call) in COUNT_FAULTS:
        yield from tag_refusals(call, COUNT_FAULTS[type(call)])


def check_definitions():
    """A few values by hand, and the law of a sample."""
    for q, numbers in ((16, [0, 1, 8, -7, -1]), (17, [0, 1, 8, -8, -1]), (2**32, [0, 1, 2**31, 1 - 2**31, -1])):
        assert [nearest(q, w) for w in (0, 1, q // 2, q // 2 + 1, q - 1)] == numbers
    assert encrypted(17, [3], [1], 0, 2) == [3, 5]
    assert phase_of(17, [9, 12], [1]) == 3
    assert packed(17, 2, [3, 5], [1, 2], [0, 0], [0, 0]) == [3, 5, 13, 1]
    draw = Draw(1)
    for n in range(1, 7):
        p = Pick(draw, 97, n)
        x, s = p.words(2 * n), p.words(n)
        samples = [phase_of(97, extracted(97, n, x, i), s) for i in range(n)]
        assert samples == packed_phases(97, n, x, s)


def main():
    check_definitions()
    longest = list(long_cases())
    asked = [(call, [*cases(call), *(k for kind, k in longest if kind is type(call)), *tag_cases(call)]) for call in CALLS + WORDED_CALLS]
    asked.append((Saved(), [Saved().tagged(Case(None, 1), x) for x in tags_of_each()]))
    asked += totals()
    check_totals(asked[-4:])
    records = []
    for call, given in asked:
        made = [record(call, k) for k in given]
        size, refusals = sum(map(len, made)), sum(r[HEAD_REFUSAL] != 0 for r in made)
        print(f"kind {call.kind} ({call.name}): {len(made)}, refused {refusals}, {size} bytes")
        records += made
    write_or_check({"crates/lwe_vectors/data/lwe.bin": b"".join(records) + bytes(HEAD.size)})


HEAD_REFUSAL = 23

if __name__ == "__main__":
    main()
