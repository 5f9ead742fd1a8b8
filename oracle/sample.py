"""A sample of the Rust's own answers, which the gate's vector programs replay.

    python3 oracle/sample.py PROGRAM            write the files
    python3 oracle/sample.py PROGRAM --check    ask again and compare with the stored files

PROGRAM is what scripts/oracle.sh builds (`scripts/oracle.sh sample` does both). Writes oracle.bin beside the files
that are made from document 01: crates/digit_vectors/data, crates/codec_vectors/data, crates/lwe_vectors/data, in
the forms that digits_vectors.py, codec_vectors.py and lwe_vectors.py describe. Operands come from those scripts;
every answer is what the Rust gave, and all calls are accepted ones. What the Rust does not have is put so:

- the reading of a word is the sum of the Rust's digits by the Rust's weights, its error what is missing to the word;
- k is d + L x base log, and T is document 01's;
- messages under a signed or a public key are encoded by the Rust's codec, then encrypted as words; openings under a
  signed key are phases, then decoded; a batch of phases is one phase after another.
"""

import sys

sys.dont_write_bytecode = True  # importing must leave no file in the repository

from compare import NAMES, Program, rust_answer

import codec_vectors
import lwe_vectors
import switch_vectors
from digits_vectors import BASIS, LARGE_BASE_LOGS, LARGE_MODULI, WORD, edge_words, filled
from lwe_vectors import HEAD, MODULI, EDGE_MODULI, written
from scheme01 import Basis, Draw, refusal_of, write_or_check
from switch_vectors import BASES, OPEN

# --- Digits ---


def basis_record(rust, modulus, log, levels):
    """The record, the weights and H by the Rust."""
    L, d, H, *weights = rust.words(1, modulus, log, levels)
    T = Basis(modulus, log, levels).T
    head = [modulus is not None, modulus or 0, log, 1, levels, 0]
    return BASIS.pack(1, *head, d + L * log, L, d, H, T, *filled(weights, 16)), weights, H


def word_record(rust, basis, weights, H, word):
    stored = rust.words(3, basis.modulus, basis.base_log, basis.L, [word])
    signed = [x if x < basis.B // 2 else x - basis.q for x in stored]
    reading = sum(x * w for x, w in zip(signed, weights))
    epsilon = word - reading if abs(word - reading) <= H else word - basis.q - reading
    return WORD.pack(2, word, 0, reading, epsilon, *filled(stored, 16))


def digit_bases():
    """Small moduli whole, and large ones at their edges."""
    for q in (4, 5, 7, 8, 16, 17):
        for log in range(2, q.bit_length()):
            for levels in range(1, Basis(q, log).full + 1):
                yield Basis(q, log, levels), range(q)
    draw = Draw(71)
    for modulus in LARGE_MODULI:
        for log in LARGE_BASE_LOGS:
            basis, refusal = refusal_of(Basis, modulus, log, 1)
            if refusal == 0:
                basis = Basis(modulus, log, draw.choose([1, basis.full, 1 + draw.below(basis.full)]))
                edges = edge_words(basis, draw)
                yield basis, sorted({edges[0], edges[-1], basis.T - 1, basis.T % basis.q, draw.choose(edges), draw.choose(edges)})


def digits(rust):
    for basis, words in digit_bases():
        record, weights, H = basis_record(rust, basis.modulus, basis.base_log, basis.L)
        yield record
        yield from (word_record(rust, basis, weights, H, word) for word in words)
    yield b"\0"


# --- Codec ---


def value_record(rust, modulus, t, x, a):
    """x below t: a message, and a phase too."""
    (unsigned,), (centered,) = rust.words(10, modulus, t, 0, [x]), rust.words(10, modulus, t, 1, [x])
    (total,), (message,) = rust.words(12, modulus, t, 1, [a], [x]), rust.words(11, modulus, t, [x])
    return codec_vectors.VALUE.pack(
        1, modulus is not None, modulus or 0, t, x, a, 0, 0, unsigned, centered, 0, total, 0, message
    )


def slice_record(rust, modulus, t, call, centered, lent, before):
    """Calls 2, 5 and 7 have their numbers in the buffer."""
    numbers = before if call in (2, 5, 7) else lent
    if call == 3:
        after = rust.words(12, modulus, t, centered, before, lent)
    elif call < 3:
        after = rust.words(10, modulus, t, centered, numbers)
    else:
        after = rust.words(11, modulus, t, numbers)
    return codec_vectors.SLICE.pack(
        2, modulus is not None, modulus or 0, t, call, centered, len(lent), len(before), 0,
        *map_padded(lent, before, after),
    )


def map_padded(*lists):
    return [word for words in lists for word in codec_vectors.padded(words)]


def codec(rust):
    draw = Draw(72)
    for q in range(4, 12):
        for t in range(2, q):
            yield from (value_record(rust, q, t, x, draw.below(q)) for x in range(t))
    for modulus in codec_vectors.LARGE_MODULI:
        q = 2**32 if modulus is None else modulus
        for t in codec_vectors.LARGE_PLAIN:
            if t < q:
                phases = [w for w in codec_vectors.edges(q, t, draw) if w < q]
                for x in sorted({0, t - 1, t // 2, draw.below(t)}):
                    yield value_record(rust, modulus, t, x, draw.choose([0, q - 1, draw.below(q)]))
                yield from (codec_slice(rust, draw, modulus, t, call, phases) for call in range(1, 8))
    yield b"\0"


def codec_slice(rust, draw, modulus, t, call, phases):
    """Up to six numbers: messages for calls 1 to 3, phases for the others."""
    count = draw.below(7)
    messages = [draw.choose([0, t - 1, t // 2, draw.below(t)]) for _ in range(count)]
    words = [draw.choose(phases) for _ in range(count)]
    numbers = messages if call < 4 else words
    before = {2: messages, 3: words, 5: words, 7: words}.get(call, [9] * count)
    return slice_record(rust, modulus, t, call, draw.below(2), numbers, before)


# --- Encryption ---


def lwe_record(rust, call, k):
    """The answer beside the buffer is the phase or the message of one ciphertext."""
    words = asked(rust, call.kind, k)
    alone = call.kind in (10, 11, 14, 15)
    return written(call.kind, k, 0, words[0] if alone else 0, [] if alone else words)


def asked(rust, kind, k):
    if kind == 18:
        rows = lwe_vectors.rows_of(k.b, k.n + 1)
        return [rust.words(23, k.modulus, 0, k.a, row)[0] for row in rows]
    status, words = rust_answer(
        rust.say, kind, k.modulus, k.n, k.t, int(k.centered), k.value, k.a, k.b, k.c, k.d, k.e
    )
    assert status == 0, (kind, k)
    return words


def lwe(rust):
    calls = [call for call in lwe_vectors.CALLS if call.kind in {*NAMES, 18}]
    for call in calls:
        draw = Draw(7300 + call.kind)
        for modulus in MODULI + EDGE_MODULI:
            for n in (1, 2 + draw.below(lwe_vectors.most(call) - 1)):
                yield lwe_record(rust, call, call.make(lwe_vectors.Pick(draw, modulus, n)))
        yield lwe_record(rust, call, call.make(lwe_vectors.Pick(draw, None, 16)))


def switch_record(rust, call, k):
    basis = (k.modulus, k.base_log, 0 if k.levels == OPEN else k.levels)
    if call.kind in (28, 29):
        secret = (1, k.d) if call.kind == 29 else (0, k.a)
        words = rust.words(50, *basis, *secret, k.c, k.b, k.e)
    else:
        words = rust.words(call.kind + 21, *basis, k.n, k.m, k.a, k.b)
    return written(call.kind, k, 0, 0, words)


def switches(rust):
    draw = Draw(74)
    generate, signed, one, batch = switch_vectors.CALLS[1:]
    for basis in BASES:
        for call, n, m in ((generate, 1, 1), (signed, 2, 3), (generate, 3, 2), (one, 5, 4), (one, 1, 1)):
            yield switch_record(rust, call, call.make(switch_vectors.Pick(draw, *basis, n, m)))
        for count in (0, 1, 7, 8, 9, 17)[:: draw.choose([2, 3])]:
            n, m = draw.choose([(1, 1), (2, 1), (1, 3)])
            yield switch_record(rust, batch, batch.make(switch_vectors.Pick(draw, *basis, n, m), count))


def main():
    if len(sys.argv) < 2:
        sys.exit("usage: sample.py PROGRAM [--check]")
    rust = Program(sys.argv[1])
    encryption = [*lwe(rust), *switches(rust)]
    files = {
        "crates/digit_vectors/data/oracle.bin": list(digits(rust)),
        "crates/codec_vectors/data/oracle.bin": list(codec(rust)),
        "crates/lwe_vectors/data/oracle.bin": [*encryption, bytes(HEAD.size)],
    }
    for name, records in files.items():
        print(f"{name}: {len(records) - 1} records, {sum(map(len, records))} bytes")
    write_or_check({name: b"".join(records) for name, records in files.items()}, sys.argv[2:])


if __name__ == "__main__":
    main()
