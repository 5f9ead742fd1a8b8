"""The supplied Rust beside document 01, word for word.

    python3 oracle/compare.py PROGRAM SEED

PROGRAM is what scripts/oracle.sh builds; oracle/README.md has its calls. Three comparisons:

- the stored vectors under crates/*/data that the gate compares the proved code with, through the Rust: what
  they hold of accepted calls is what both sides write when they are fed the same words;
- digits of every word, for every q up to 200, every base log and every level count;
- random key-switching keys, switches and batches against 01's formulas, from SEED on.

The proved library itself is put beside the Rust by oracle/random.rs.

The last lines say what the Rust did with calls that 01 refuses; docs/DIFFERENCES.md is about those.
"""

import struct
import subprocess
import sys
from collections import Counter
from pathlib import Path

sys.dont_write_bytecode = True  # importing must leave no file in the repository
ROOT = Path(__file__).resolve().parent.parent
sys.path.insert(0, str(ROOT / "scripts"))

from codec_vectors import SLICE, VALUE
from digits_vectors import BASIS, SHORT_WORD, WORD
from lwe_vectors import HEAD, WORDED, Pick
from scheme01 import Basis, Draw, nearest
from switch_vectors import OPEN, generated, switched

ANSWERED, REFUSED, PANICKED, MALFORMED = range(4)
SAID = {ANSWERED: "answered", REFUSED: "refused", PANICKED: "panicked"}


class Program:
    """Calls by record: a list operand is a run, other operands are words; signed numbers are wrapped."""

    def __init__(self, path):
        self.process = subprocess.Popen([path], stdin=subprocess.PIPE, stdout=subprocess.PIPE)
        self.calls = 0

    def say(self, call, modulus, *operands):
        """(status, words)."""
        words = [call, modulus or 0]
        for operand in operands:
            words += [len(operand), *operand] if isinstance(operand, list) else [operand]
        words = [w % 2**32 for w in words]
        self.process.stdin.write(struct.pack(f"<{len(words) + 1}I", len(words), *words))
        self.process.stdin.flush()
        (count,) = struct.unpack("<I", self.process.stdout.read(4))
        status, *answer = struct.unpack(f"<{count}I", self.process.stdout.read(4 * count))
        if status == MALFORMED:
            raise SystemExit(f"malformed call {call}, modulus {modulus}")
        self.calls += 1
        return status, answer

    def words(self, *record):
        """The answer of a call that has to have one."""
        status, answer = self.say(*record)
        if status != ANSWERED:
            raise SystemExit(f"the Rust {SAID[status]} an admitted call: {record}")
        return answer


class Tally:
    def __init__(self):
        self.compared, self.different = Counter(), 0
        self.refusals = Counter()

    def same(self, name, record, expected, got):
        self.compared[name] += 1
        if expected != got:
            self.different += 1
            if self.different <= 10:
                print(f"differs: {name} {record}\n  expected {expected}\n  the Rust {got}")

    def refused(self, number, status):
        self.refusals[number, status] += 1


def modulus_of(kind, value):
    return value if kind else None


def expressible(modulus):
    """In a record the modulus 0 is native."""
    return modulus is None or modulus > 0


def digit_records(data):
    """Each record's form, and its fields."""
    at = 0
    while data[at]:
        form = {1: BASIS, 2: WORD}.get(data[at], SHORT_WORD)
        yield form, form.unpack_from(data, at)
        at += form.size


def stored_basis(rust, tally, fields):
    """The operands and L of a basis, or None where 01 refuses it."""
    _, kind, q, log, given, levels, refusal, _, L, d, H, _, *weights = fields
    modulus = modulus_of(kind, q)
    sayable = expressible(modulus) and levels < 2**32 and not (given and levels == 0)
    record = (modulus, log, levels if given else 0)
    if refusal == 0:
        tally.same("bases", record, [L, d, H, *weights[:L]], rust.words(1, *record))
        return record, L
    if sayable:
        tally.refused(refusal, rust.say(1, *record)[0])
    return None


def same_digits(rust, tally, basis, L, words, expected):
    """All words of a basis at once: a run of words gives a run of digits for each level."""
    runs = [digits[j] for j in range(L) for digits in expected]
    for call, name in ((2, "digits of words, by slices"), (3, "digits of words, one by one")):
        tally.same(name, basis, runs, rust.words(call, *basis, words))
        tally.compared[name] += len(words) - 1


def stored_digits(rust, tally):
    data = (ROOT / "crates/digit_vectors/data/digits.bin").read_bytes()
    basis, L, words, expected = None, 0, [], []
    for form, fields in digit_records(data):
        if form is BASIS:
            if words:
                same_digits(rust, tally, basis, L, words, expected)
            basis, L = stored_basis(rust, tally, fields) or (basis, L)
            words, expected = [], []
        elif form is WORD and fields[2]:
            tally.refused(fields[2], rust.say(3, *basis, [fields[1]])[0])
        else:
            words.append(fields[1])
            expected.append(fields[5 if form is WORD else 4 :][:L])
    if words:
        same_digits(rust, tally, basis, L, words, expected)


def stored_codec(rust, tally):
    data = (ROOT / "crates/codec_vectors/data/codec.bin").read_bytes()
    at = 0

    def compare(name, number, expected, *record):
        if number == 0:
            tally.same(name, record, expected, rust.words(*record))
        elif expressible(record[1]):
            tally.refused(number, rust.say(*record)[0])

    while data[at]:
        if data[at] == 1:
            (_, kind, q, t, x, a, _, encoding, unsigned, centered, adding, total, decoding, message) = VALUE.unpack_from(data, at)
            at += VALUE.size
            modulus = modulus_of(kind, q)
            compare("encodings", encoding, [unsigned], 10, modulus, t, 0, [x])
            compare("encodings, Centered", encoding, [centered], 10, modulus, t, 1, [x])
            compare("encodings added", adding, [total], 12, modulus, t, 1, [a], [x])
            compare("decodings", decoding, [message], 11, modulus, t, [x])
        else:
            _, kind, q, t, call, embedding, n, m, number, *words = SLICE.unpack_from(data, at)
            at += SLICE.size
            modulus = modulus_of(kind, q)
            lent, before, after = words[:n], words[6 : 6 + m], words[12 : 12 + m]
            # Calls 2, 5 and 7 work in place; 11 is a wrong length, which a record of calls 10 and 11 cannot have.
            inner = before if call in (2, 5, 7) else lent
            if number == 11 and call != 3:
                continue
            if call in (1, 2):
                compare("encoded slices", number, after, 10, modulus, t, embedding, inner)
            elif call == 3:
                compare("slices encoded and added", number, after, 12, modulus, t, embedding, before, inner)
            else:
                compare("decoded slices", number, after, 11, modulus, t, inner)


def rust_answer(say, kind, modulus, n, t, embedding, value, a, b, c, d, e):
    """(status, words) of the Rust for an accepted record of lwe.bin, of a kind that NAMES lists."""
    secret = [1, d] if kind in (9, 11, 13, 15, 24) else [0, a]
    if kind == 7:
        return say(34, modulus, n, value, b)
    if kind in (8, 9):
        return say(20, modulus, *secret, b, e[0], value)
    if kind in (10, 11):
        return say(23, modulus, *secret, b)
    if kind == 12:
        return say(21, modulus, t, embedding, a, b, e, [value])
    if kind == 13:
        status, word = say(10, modulus, t, embedding, [value])
        return (status, word) if status else say(20, modulus, *secret, b, e[0], *word)
    if kind == 14:
        return say(24, modulus, t, a, b)
    if kind == 15:
        status, phase = say(23, modulus, *secret, b)
        return (status, phase) if status else say(11, modulus, t, phase)
    if kind == 16:
        return say(30, modulus, a, b, e, c)
    if kind == 17:
        return say(32, modulus, a, b)
    if kind == 19:
        return say(31, modulus, t, embedding, a, b, e, c)
    if kind == 20:
        return say(33, modulus, t, a, b)
    if kind == 21:
        return say(22, modulus, t, embedding, a, b, e, c)
    if kind == 22:
        return say(25, modulus, t, a, b)
    if kind in (23, 24):
        return say(40, modulus, *secret, b, e)
    if kind == 25:
        return say(41, modulus, n, a, e, d, value)
    assert kind == 26
    status, word = say(10, modulus, t, embedding, [value])
    return (status, word) if status else say(41, modulus, n, a, e, d, *word)


# Left out: what 01 adds (1 to 6) and batches of phases (18), whose file was not supplied.
NAMES = {
    7: "samples of packed ciphertexts", 8: "encryptions", 9: "encryptions, signed key", 10: "phases", 11: "phases, signed key",
    12: "messages", 13: "messages, signed key", 14: "openings", 15: "openings, signed key", 16: "packed encryptions",
    17: "packed phases", 19: "packed messages", 20: "packed openings", 21: "batches of messages", 22: "batches of openings",
    23: "public keys", 24: "public keys, signed key", 25: "public-key encryptions", 26: "public-key messages",
}


def stored_calls(name):
    """The accepted records of a file of lwe_vectors.py's form: kind, head, operands a .. e, the buffer after the call, and what to add to a
    name. Errors that are words go to the Rust as the numbers that they count as; its sampler makes words of them again."""
    data = (ROOT / "crates/lwe_vectors/data" / name).read_bytes()
    at = 0
    while data[at]:
        head = HEAD.unpack_from(data, at)
        at += HEAD.size
        refusal, lengths = head[7], list(head[10:16])
        lists = []
        for count in lengths + ([] if refusal else lengths[-1:]):
            lists.append(list(struct.unpack_from(f"<{count}I", data, at)))
            at += 4 * count
        if not refusal:
            kind, explicit, q = head[:3]
            worded = kind > WORDED
            if worded:
                lists[4] = [nearest(q if explicit else 2**32, w) for w in lists[4]]
            yield kind % WORDED, head, lists[:5], lists[6], ", errors as words" if worded else ""


def stored_lwe(rust, tally):
    for kind, head, operands, after, form in stored_calls("lwe.bin"):
        _, explicit, q, n, t, _, embedding, _, value, answer = head[:10]
        if kind in NAMES:
            expected = after or ([answer] if kind in (10, 11, 14, 15) else [])
            got = rust_answer(rust.say, kind, modulus_of(explicit, q), n, t, embedding, value, *operands)
            tally.same(NAMES[kind] + form, (head, operands), (ANSWERED, expected), got)


def stored_switches(rust, tally):
    for kind, head, (a, b, c, d, e), after, form in stored_calls("switch.bin"):
        _, explicit, q, n = head[:4]
        m, log, levels = head[16:]
        basis = (modulus_of(explicit, q), log, 0 if levels == OPEN else levels)
        if kind in (28, 29):
            name, record = "stored switching keys", (50, *basis, kind - 28, d if kind == 29 else a, c, b, e)
        elif kind in (30, 31):
            name, record = "stored single switches" if kind == 30 else "stored batches", (kind + 21, *basis, n, m, a, b)
        else:
            continue
        tally.same(name + form, record, after, rust.words(*record))


def every_word(rust, tally, most):
    """Digits of every word of every basis of small moduli."""
    for q in range(4, most + 1):
        for log in range(2, q.bit_length()):
            for levels in range(1, Basis(q, log).full + 1):
                basis = Basis(q, log, levels)
                stored = [basis.stored(basis.parts(a).digits) for a in range(q)]
                runs = [digits[j] for j in range(levels) for digits in stored]
                tally.same("bases of small moduli, every word", (q, log, levels), runs, rust.words(2, q, log, levels, list(range(q))))


def random_basis(draw):
    bits = 3 + draw.below(30)
    modulus = draw.choose([None, 2 ** (bits - 1), 17, 2**31 - 1, 2**32 - 1 - draw.below(5), max(4, draw.below(2**bits - 1))])
    q = 2**32 if modulus is None else modulus
    log = 2 + draw.below(min(31, q.bit_length() - 1) - 1)
    full = Basis(modulus, log).full
    return modulus, log, draw.choose([0, 1, full, 1 + draw.below(full)])


def switches(rust, tally, seed, rounds):
    example = Basis(17, 2)
    assert switched(example, 1, 1, [3, 5, 4, 13], [9, 12]) == switched(example, 1, 1, [3, 5, 4, 13], [10, 12]) == [10, 11]
    draw = Draw(seed)
    for _ in range(rounds):
        modulus, log, levels = random_basis(draw)
        basis = Basis(modulus, log, levels or None)
        n, m, count = 1 + draw.below(5), 1 + draw.below(6), draw.below(20)
        pick = Pick(draw, modulus, n)
        signed = draw.below(2) == 1
        s, target = pick.secret(signed), pick.words(m)
        masks, errors = pick.words(n * basis.L * m), pick.errors(n * basis.L)
        record = (modulus, log, levels)
        key = generated(basis, n, s, target, errors, masks)
        got = rust.words(50, *record, int(signed), s, target, masks, errors)
        tally.same("switching keys", (*record, s, target, masks, errors), key, got)
        if draw.below(2):
            key = pick.words(len(key))
        rows = [pick.words(n + 1) for _ in range(count)]
        expected = [switched(basis, n, m, key, x) for x in rows]
        if rows:
            got = rust.words(51, *record, n, m, key, rows[0])
            tally.same("single switches", (*record, n, m, key, rows[0]), expected[0], got)
        batch = [52, *record, n, m, key, [w for x in rows for w in x]]
        tally.same("batches", batch, [w for x in expected for w in x], rust.words(*batch))


def main():
    if len(sys.argv) != 3:
        sys.exit("usage: compare.py PROGRAM SEED")
    rust, seed, tally = Program(sys.argv[1]), int(sys.argv[2]), Tally()
    stored_digits(rust, tally)
    stored_codec(rust, tally)
    stored_lwe(rust, tally)
    stored_switches(rust, tally)
    every_word(rust, tally, 200)
    switches(rust, tally, seed, 2000)
    for name, count in tally.compared.items():
        print(f"{count:8} {name}")
    print(f"{sum(tally.compared.values())} compared, {tally.different} different\n")
    for number in sorted({number for number, _ in tally.refusals}):
        said = ", ".join(f"{SAID[s]} {tally.refusals[number, s]}" for s in SAID if tally.refusals[number, s])
        print(f"refused by {number} in document 01: the Rust {said}")
    sys.exit(tally.different != 0)


if __name__ == "__main__":
    main()
