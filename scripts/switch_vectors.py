"""Test vectors for key switching, computed from document 01, with errors of either form (T-01) and c, which a switch keeps (T-02).

    python3 scripts/switch_vectors.py          write the file
    python3 scripts/switch_vectors.py --check  compare with the stored file

Writes crates/lwe_vectors/data/switch.bin, records of one call each, as lwe_vectors.py describes them; levels of 2^32 - 1
are left open. The class of each call says what it takes from a .. e, value, t and the buffer.

How document 01 is read, where it leaves a choice: the lowest number that applies is the answer, over the whole call;
9 and 10 speak of what is read, 11 of what is written, 12 of what is lent for randomness. Base log and dimensions are judged
by their kinds, and 1 to 6 stand before all the others, so this is their order too. A batch is lent one tag for each ciphertext of its
input, and another number of them is 12; a c above 65,536 and a tally above 2^32 are 17.
"""

import sys
from copy import copy
from dataclasses import dataclass, replace

sys.dont_write_bytecode = True  # importing must leave no file in the repository

import lwe_vectors
from lwe_vectors import BAD_TAGS, FRESH, GIVEN, KEPT, KEPT_TAGS, Tag, Tagged, drawn_tags, kept
from lwe_vectors import HALVES, HEAD, HIGHEST, LIMIT, LOWEST, WORD_MAX, about_half, encrypted, narrowed, other_lengths, outside
from lwe_vectors import phase_of, record, replaced, rows_of, with_word, worded, words_fail, words_not_below_q, written
from scheme01 import Basis, Draw, nearest, value_bits, write_or_check

OPEN = WORD_MAX
MISSING = WORD_MAX


@dataclass(frozen=True)
class Case(lwe_vectors.Case):
    """What one call is given; modulus None is native."""

    @property
    def full(self):
        return value_bits(self.q) // self.base_log if self.base_log and self.q else 0

    @property
    def L(self):
        return self.full if self.levels == OPEN else self.levels

    def basis(self):
        return Basis(self.modulus, self.base_log, None if self.levels == OPEN else self.levels)


# --- The definitions of document 01 ---


def generated(basis, n, s, t, errors, masks):
    """Entry (i, j) encrypts s_i x weight j under t; masks and errors in order of i, then j."""
    m, q, L = len(t), basis.q, basis.L
    plain = [x * w for x in s for w in basis.weights]
    rows = zip(rows_of(masks, m), errors, plain)
    return [w for mask, e, p in rows for w in encrypted(q, mask, t, e, p)]


def switched(basis, n, m, key, x):
    """(0, b) minus the sum of digit(i, j) x entry(i, j)."""
    entries = rows_of(key, m + 1)
    out = [0] * m + [x[n]]
    for i in range(n):
        for j, digit in enumerate(basis.parts(x[i]).digits):
            out = [w - digit * y for w, y in zip(out, entries[i * basis.L + j])]
    return [w % basis.q for w in out]


def obeys(basis, n, m, s, t, errors, E, key, x):
    """The phase law and the bound, for a generated key."""
    q, L = basis.q, basis.L
    parts = [basis.parts(w) for w in x[:n]]
    for numbers in (s, [nearest(q, w % q) for w in s]):
        error = sum(c * p.epsilon for c, p in zip(numbers, parts))
        error -= sum(d * errors[i * L + j] for i, p in enumerate(parts) for j, d in enumerate(p.digits))
        y = switched(basis, n, m, key, x)
        assert (phase_of(q, y, t) - phase_of(q, x, s) - error) % q == 0
        assert abs(error) <= basis.H * sum(map(abs, numbers)) + n * L * (basis.B // 2) * E


# --- What each number says ---


def common(k):
    yield 1, k.base_log < 2 or k.base_log > 31
    yield 2, k.modulus is not None and k.modulus < 4
    yield 3, k.modulus is not None and k.modulus.bit_length() <= k.base_log  # q < 2^base log
    yield 5, k.L == 0 or k.L > k.full
    yield 6, any(x == 0 or x > 2048 for x in (k.n, k.m))


class Call:
    fields = {}

    @property
    def numbers(self):
        return sorted({1, 2, 3, 5, 6, *self.fields} | ({13} if self.takes_E else set()))

    takes_E = False

    def rows(self, k):
        yield from common(k)
        if self.takes_E:
            yield 13, k.E > LIMIT or k.E >= k.q
        yield from self.own_rows(k)

    def own_rows(self, k):
        return ()

    def errors(self, k):
        """The signed values of the errors lent."""
        return k.e

    def lent(self, p, count):
        """Errors to lend."""
        return p.errors(count)

    def errors_outside(self, k):
        """Errors to lend that lie outside ±E."""
        return [c for c in (k.E + 1, -k.E - 1, LOWEST) if abs(c) > k.E and LOWEST <= c <= HIGHEST]

    def applying(self, k):
        return {number for number, applies in self.rows(k) if applies}

    def faults(self, k, number, draw):
        """Cases like k to which the number also applies, where this is possible."""
        q = k.q
        if number == 1:
            yield from (replace(k, base_log=x) for x in (0, 1, 32, WORD_MAX))
        elif number == 2:
            yield from (replace(k, modulus=x) for x in (0, 1, 2, 3))
        elif number == 3 and k.base_log < 32 and 2**k.base_log > 4:
            yield from (replace(k, modulus=x) for x in (4, 2**k.base_log - 1))
        elif number == 5:
            yield from (replace(k, levels=x) for x in (0, k.full + 1, OPEN - 1))
        elif number == 6:
            yield from (replace(k, n=x) for x in (0, 2049, 2**32 + 1))
            yield from (replace(k, m=x) for x in (0, 2049, 2**64 - 1))
        elif number == 13:
            yield from (replace(k, E=x) for x in (LIMIT + 1, WORD_MAX, q) if x <= WORD_MAX)
        elif number in (9, 10, 11, 12):
            yield from other_lengths(k, self.fields[number])
        elif number == 14:
            for name in self.fields[14]:
                yield from words_not_below_q(k, name, draw)
        elif number == 15:
            yield from replaced(k, "e", self.errors_outside(k), draw)


class Parameters(Call):
    """LweKeySwitchingParameters::try_new of the basis, n and m."""

    kind, name = 27, "parameters"

    def make(self, p):
        return p.base()

    def result(self, k):
        return 0, []


class Generate(Call):
    """LweKeySwitchingKey::generate: input secret a, output secret c, masks b, errors e, key in the buffer."""

    kind, name = 28, "generation"
    signed = False
    takes_E = True
    fields = {9: ("a", "c"), 11: ("out",), 12: ("b", "e"), 14: ("a", "c", "b"), 15: ("e",)}

    def secret(self, k):
        return k.d if self.signed else k.a

    def own_rows(self, k):
        count = k.n * k.L
        yield 9, len(self.secret(k)) != k.n or len(k.c) != k.m
        yield 11, len(k.out) != count * (k.m + 1)
        yield 12, len(k.b) != count * k.m or len(k.e) != count
        yield 14, words_fail(k.q, k.a + k.b + k.c) or outside(k.q, k.d)
        yield 15, outside(k.E + 1, self.errors(k))

    def make(self, p):
        count = p.n * p.L
        key = {"d": p.numbers(p.n)} if self.signed else {"a": p.words(p.n)}
        return p.base(
            E=p.E, **key, c=p.words(p.m), b=p.words(count * p.m), e=self.lent(p, count), out=p.room(count * (p.m + 1))
        )

    def result(self, k):
        basis, s, errors = k.basis(), self.secret(k), self.errors(k)
        key = generated(basis, k.n, s, k.c, errors, k.b)
        draw = Draw(k.n * 97 + k.m)
        for _ in range(4):
            x = [draw.below(k.q) for _ in range(k.n + 1)]
            obeys(basis, k.n, k.m, s, k.c, errors, k.E, key, x)
        return 0, key


class GenerateSigned(Generate):
    kind, name = 29, "generation, signed key"
    signed = True
    fields = {**Generate.fields, 9: ("d", "c"), 14: ("d", "c", "b")}


class Switch(Tagged, Call):
    """key_switch_to: key a, ciphertext b with a tag, ciphertext in the buffer."""

    kind, name = 30, "switch"
    fields = {9: ("a",), 10: ("b",), 11: ("out",), 14: ("a", "b")}
    bad_tags = [[x] for x in BAD_TAGS]

    def own_rows(self, k):
        yield 9, len(k.a) != k.n * k.L * (k.m + 1)
        yield 10, len(k.b) != k.n + 1
        yield 11, len(k.out) != k.m + 1
        yield 14, words_fail(k.q, k.a + k.b)
        yield from self.tag_rows(k)

    def afterwards(self, given):
        return [*map(kept, given)]

    def make(self, p):
        k = p.base(a=p.key(), b=p.words(p.n + 1), out=p.room(p.m + 1))
        return self.tagged(k, *drawn_tags(k, 1))

    def result(self, k):
        return 0, switched(k.basis(), k.n, k.m, k.a, k.b)


class Batch(Tagged, Call):
    """key_switch_batch_to: key a, batch b with `value` tags, batch in the buffer."""

    kind, name = 31, "batch"
    fields = {9: ("a",), 10: ("b",), 11: ("out",), 14: ("a", "b")}

    def own_rows(self, k):
        yield 9, len(k.a) != k.n * k.L * (k.m + 1)
        yield 10, len(k.b) % (k.n + 1) != 0
        yield 11, len(k.out) != len(k.b) // (k.n + 1) * (k.m + 1)
        yield 12, len(k.tags) != len(k.b) // (k.n + 1)
        yield 14, words_fail(k.q, k.a + k.b)
        yield from self.tag_rows(k)

    def afterwards(self, given):
        return [*map(kept, given)]

    def tagged(self, k, *tags):
        return replace(super().tagged(k, *tags), value=len(tags))

    def placed(self, k):
        """A bad tag in the first place, in the middle and in the last."""
        places = sorted({0, len(k.tags) // 2, len(k.tags) - 1}) if k.tags else []
        return [[*k.tags[:i], bad, *k.tags[i + 1 :]] for bad in BAD_TAGS for i in places]

    def make(self, p, count=None):
        count = p.draw.choose([1, 2, 3]) if count is None else count
        k = p.base(a=p.key(), b=p.words(count * (p.n + 1)), out=p.room(count * (p.m + 1)))
        return self.tagged(k, *drawn_tags(k, count))

    def faults(self, k, number, draw):
        if number == 12:
            yield from (self.tagged(k, *tags) for tags in ([*k.tags, Tag(FRESH, 3)], k.tags[:-1], [], k.tags * 2) if len(tags) != len(k.tags))
        elif number == 10:
            # one word too many, one too few; the output as for whole rows
            yield from (replace(k, b=k.b + [0] * x) for x in sorted({1, min(k.n, 5)}) if x % (k.n + 1))
            if len(k.b) > 1:
                yield replace(k, b=k.b[:-1])
        else:
            yield from super().faults(k, number, draw)

    def result(self, k):
        basis = k.basis()
        return 0, [w for x in rows_of(k.b, k.n + 1) for w in switched(basis, k.n, k.m, k.a, x)]


class Entry(Call):
    """LweKeySwitchingKey::entry and entry_words(key a, place value, level t): the answer is where the entry begins, or MISSING where
    there is none, and the entry's words are in the buffer."""

    kind, name = 32, "entry"
    fields = {9: ("a",)}

    def own_rows(self, k):
        yield 9, len(k.a) != k.n * k.L * (k.m + 1)

    def make(self, p, i=0, j=0):
        key = p.key()
        held = i < p.n and j < p.L
        return p.base(a=key, value=i, t=j, out=p.room(p.m + 1 if held else 0))

    def result(self, k):
        if k.value >= k.n or k.t >= k.L:
            return MISSING, []
        at = (k.value * k.L + k.t) * (k.m + 1)
        return at, k.a[at : at + k.m + 1]

    def record(self, k):
        """A place is no word: it may lie at or above q."""
        refusal = min(self.applying(k), default=0)
        answer, after = (0, k.out) if refusal else self.result(k)
        return written(self.kind, k, refusal, answer, after)


CALLS = [Parameters(), Generate(), GenerateSigned(), Switch(), Batch()]
WORDED_CALLS = [worded(Generate()), worded(GenerateSigned())]


class Pick:
    """Operands that are accepted, with the edges of their ranges among them."""

    def __init__(self, draw, modulus, base_log, levels, n, m):
        self.draw, self.modulus, self.base_log, self.levels, self.n, self.m = draw, modulus, base_log, levels, n, m
        basis = Basis(modulus, base_log, None if levels == OPEN else levels)
        self.basis, self.q, self.L = basis, basis.q, basis.L
        self.E = draw.choose([0, 1, 3, min(self.q - 1, LIMIT), draw.below(min(self.q - 1, LIMIT) + 1)])

    def base(self, **operands):
        return Case(self.modulus, self.n, m=self.m, base_log=self.base_log, levels=self.levels, **operands)

    def word(self):
        """Any word, the edges, and what lies about the threshold T."""
        q, T = self.q, self.basis.T
        return self.draw.choose([0, q - 1, T - 1, T % q, (T + 1) % q, self.draw.below(q), self.draw.below(q)]) % q

    def words(self, count):
        return [self.word() for _ in range(count)]

    def between(self, low, high):
        return low + self.draw.below(high - low + 1)

    def numbers(self, count):
        low, high = max(-(self.q - 1), LOWEST), min(self.q - 1, HIGHEST)
        return [self.draw.choose([low, high, -1, 0, 1, self.between(low, high)]) for _ in range(count)]

    def errors(self, count):
        return [self.draw.choose([-self.E, self.E, self.between(-self.E, self.E)]) for _ in range(count)]

    def key(self):
        """An arbitrary key: the switch takes any words below q."""
        return self.words(self.n * self.L * (self.m + 1))

    def room(self, count):
        return [self.draw.choose([7, WORD_MAX, self.draw.below(2**32)]) for _ in range(count)]


# Native, powers of two, primes small and near 2^31 and 2^32; base logs with their edges.
BASES = [
    (None, 2, OPEN), (None, 2, 1), (None, 4, OPEN), (None, 4, 5), (None, 8, 3), (None, 31, OPEN),
    (4, 2, OPEN), (16, 2, OPEN), (16, 2, 1), (65536, 4, OPEN), (65536, 4, 2), (2**31, 31, OPEN), (2**31, 2, OPEN),
    (5, 2, OPEN), (17, 2, OPEN), (17, 2, 1), (17, 4, OPEN), (257, 3, OPEN), (65537, 4, OPEN),
    (2**31 - 1, 4, OPEN), (2**31 - 1, 30, OPEN), (2**31 - 1, 2, 1), (2**32 - 5, 4, OPEN), (2**32 - 5, 31, 1), (2**32 - 5, 2, OPEN),
]
SIZES = [(1, 1), (1, 9), (2, 3), (3, 2), (8, 8), (9, 7), (16, 1), (17, 4)]


def refused_cases(draw, call, basis):
    pairs = set()
    for first in call.numbers:
        p = Pick(draw, *basis, *draw.choose([(1, 1), (2, 1), (1, 2), (2, 3)]))
        for k in call.faults(call.make(p), first, draw):
            yield k
            for second in (x for x in call.numbers if x > first and (first, x) not in pairs):
                both = [x for x in call.faults(k, second, draw) if {first, second} <= call.applying(x)]
                if both:
                    pairs.add((first, second))
                    yield draw.choose(both)


def stated_records():
    """Document 01's own cases: entries (3, 5) and (4, 13); (9, 12) and (10, 12) both give (10, 11)."""
    for b in ([9, 12], [10, 12]):
        k = Case(17, 1, m=1, base_log=2, levels=OPEN, a=[3, 5, 4, 13], b=b, out=[0, 0])
        assert Switch().result(k) == (0, [10, 11])
        yield record(Switch(), Switch().tagged(k, Tag(FRESH, 1)))
    k = Case(17, 1, m=1, base_log=2, levels=OPEN, E=1, a=[1], c=[1], b=[3, 4], e=[0, 1], out=[0] * 4)
    assert Generate().result(k) == (0, [3, 5, 4, 13])
    yield record(Generate(), k)


def single_records(draw):
    for basis in BASES:
        for n, m in SIZES:
            if n * m > 9 and draw.below(3):
                continue
            p = Pick(draw, *basis, n, m)
            yield record(Parameters(), Parameters().make(p))
            if n * p.L * (m + 1) <= 600:
                yield from (record(call, call.make(p)) for call in (Generate(), GenerateSigned()))
            yield record(Switch(), Switch().make(p))


def batch_records(draw):
    """Rows around a tile of eight, and more than one."""
    for basis in BASES:
        for count in (0, 1, 7, 8, 9, 17):
            n, m = draw.choose([(1, 1), (2, 1), (1, 3), (3, 2), (5, 4)])
            yield record(Batch(), Batch().make(Pick(draw, *basis, n, m), count))
    for basis in ((None, 2, OPEN), (2**32 - 5, 4, OPEN), (65536, 4, OPEN)):
        yield record(Batch(), Batch().make(Pick(draw, *basis, 20, 18), 17))


def refused_records(draw):
    """Every refusal alone, and each pair that can be had together."""
    for basis in ((None, 4, OPEN), (17, 2, OPEN), (65536, 4, 2), (2**31 - 1, 30, OPEN)):
        for call in CALLS:
            yield from (record(call, k) for k in refused_cases(draw, call, basis))


def largest_records(draw):
    for pick in ((17, 4, 1, 2048, 1), (None, 31, 1, 1, 2048)):
        yield record(Switch(), Switch().make(Pick(draw, *pick)))


def entry_records(draw):
    """Each entry of a key, the places and levels past the last, and keys that are refused."""
    for basis in ((None, 4, OPEN), (17, 2, OPEN), (65536, 4, 2)):
        p = Pick(draw, *basis, 2, 3)
        for i in (0, 1, 2, WORD_MAX):
            yield from (Entry().record(Entry().make(p, i, j)) for j in (0, p.L - 1, p.L, WORD_MAX))
        yield from (Entry().record(k) for k in refused_cases(draw, Entry(), basis))


def worded_records(draw):
    """Generation with words for its errors; then each word about 0, E, q/2 and q, one in a key."""
    for basis in BASES:
        for call in WORDED_CALLS:
            yield from (record(call, call.make(Pick(draw, *basis, n, m))) for n, m in ((1, 1), (2, 3)))
    for modulus, E in HALVES:
        for w in about_half(modulus, E):
            p, call = Pick(draw, modulus, 2, 1, draw.choose([1, 3]), 1), draw.choose(WORDED_CALLS)
            p.E = E
            yield record(call, with_word(call.make(p), w, draw))


def worded_refusals(draw):
    """Every refusal again; 14 and 15 by an error word with every other number; and 14 by each operand before 15."""
    for call in WORDED_CALLS:
        yield from (record(call, k) for k in refused_cases(draw, call, (17, 2, OPEN)))
        for basis in ((None, 4, OPEN), (17, 2, OPEN), (65536, 4, 2), (2**31 - 1, 30, OPEN)):
            only = narrowed(call, ("e",), ("e",))
            yield from (record(call, k) for k in refused_cases(draw, only, basis))
        for name in call.fields[14]:
            only, p = narrowed(call, (name,), ("e",)), Pick(draw, 65536, 4, OPEN, 2, 1)
            p.E = draw.below(100)
            for k in only.faults(call.make(p), 14, draw):
                yield record(call, draw.choose([x for x in only.faults(k, 15, draw) if {14, 15} <= call.applying(x)]))


def tagged_records(draw):
    """Each tag that is kept by a switch and by a batch, at any place of it; and every row's own c."""
    for basis in ((None, 4, OPEN), (17, 2, OPEN)):
        for x in KEPT_TAGS:
            p = Pick(draw, *basis, *draw.choose(SIZES[:4]))
            yield record(Switch(), Switch().tagged(Switch().make(p), x))
            k = Batch().make(p, 4)
            place = draw.below(4)
            yield record(Batch(), Batch().tagged(k, *k.tags[:place], x, *k.tags[place + 1 :]))
        for count in (2, 8, 9, 17):
            k = Batch().make(Pick(draw, *basis, 2, 1), count)
            yield record(Batch(), Batch().tagged(k, *(Tag(draw.choose([FRESH, GIVEN, KEPT]), i, 3 * i) for i in range(count))))


def tag_faults(call, number):
    """The call with faults of 12 and 17 in its tags alone."""
    only = copy(call)
    only.fields = {**call.fields, 17: ("tags",), **({12: ("tags",)} if number == 12 or isinstance(call, Batch) else {})}
    return only


def tag_refusals(draw):
    """12 and 17 by tags, alone and with every other number; a refused call leaves its words and its tags."""
    for basis in ((2**32 - 5, 4, OPEN), (65536, 4, 2), (2**31 - 1, 30, OPEN)):
        for call, number, count in ((Switch(), 17, ()), (Batch(), 17, (3,)), (Batch(), 12, (3,)), (Batch(), 12, (0,))):
            only = tag_faults(call, number)
            k = only.make(Pick(draw, *basis, 2, 1), *count)
            yield from (record(only, x) for x in only.faults(k, number, draw))
            yield from (record(only, x) for x in tag_pairs(only, k, number, draw))


def tag_pairs(call, k, number, draw):
    """Two cases to which this number and another apply, for each other; an empty batch has no tag and no word of its input at fault."""
    for other in call.numbers:
        both = [x for y in call.faults(k, other, draw) for x in call.faults(y, number, draw) if {number, other} <= call.applying(x)]
        assert both or other == number or not k.tags, (call.name, number, other)
        if other != number and both:
            yield from (draw.choose(both) for _ in range(3))


def files():
    draw = Draw(20261116)
    out = list(stated_records())
    for records in (single_records, batch_records, refused_records, largest_records, entry_records):
        out.extend(records(draw))
    draw = Draw(20261127)
    for records in (worded_records, worded_refusals):
        out.extend(records(draw))
    draw = Draw(20261128)
    for records in (tagged_records, tag_refusals):
        out.extend(records(draw))
    return {"crates/lwe_vectors/data/switch.bin": b"".join(out) + bytes(HEAD.size)}


if __name__ == "__main__":
    write_or_check(files())
