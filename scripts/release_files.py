"""The saved files of the releases, and the files that the pooling box is run on, computed from document 01.

    python3 scripts/release_files.py          write the files
    python3 scripts/release_files.py --check  compare with the stored files

docs/FILES.md has the layout. Random words come from fixed seeds, in the order in which they are drawn here;
scripts/release_files.c writes the files of the releases once more, from the same seeds, through the library's C calls.

    crates/release_files/data/RELEASE/SETTING/NAME          a saved key or ciphertext
    crates/release_files/data/RELEASE/SETTING/NAME.opens    the messages that it opens to
    crates/pooling_box/data/NAME                            the box's files: some are damaged on purpose

Release 3 is the first that serves plaintext moduli above 65,536 (T-10): its files count in cents. Release 6 is the first that saves
with each ciphertext the number c of encryptions summed in it (T-02); its t divides no q, so that messages are rounded.

The files of a release are never written anew: a later release adds its own beside them.
"""

import struct
import sys

sys.dont_write_bytecode = True  # importing must leave no file in the repository

from codec_vectors import Codec
from lwe_vectors import encrypted_rows, packed, packed_phases, phase_of, public_encrypted, rows_of
from scheme01 import Basis, Draw, write_or_check
from switch_vectors import generated, obeys, switched

SECRET, SIGNED_SECRET, SWITCHING_KEY, PUBLIC_KEY, CIPHERTEXTS, PACKED, MESSAGES = range(1, 8)

# folder, modulus (None is native), t, seed, whether c is saved
SETTINGS = [
    ("release_1/native", None, 256, 101, False), ("release_1/prime", 132120577, 256, 102, False), ("release_1/power", 2**27, 256, 103, False),
    ("release_3/native", None, 1000003, 105, False), ("release_3/prime", 2**32 - 5, 1000003, 106, False),
    ("release_6/native", None, 1000, 107, True), ("release_6/prime", 132120577, 1000, 108, True), ("release_6/power", 2**27, 1000, 109, True),
]
N, M, BASE_LOG, E = 24, 16, 4, 3


def saved(kind, modulus, words, n=0, m=0, base_log=0, levels=0, t=0, bound=0, count=0, tallies=None, counts=None):
    """A file: the head of 64 bytes, the words, the tallies, the numbers c."""
    beside = (0 if tallies is None else 1) + (0 if counts is None else 2)
    head = struct.pack(
        "<4s15I", b"SGLN", 1, kind, modulus or 0, n, m, base_log, levels, t, bound, count, len(words), beside, 0, 0, 0,
    )
    body = b"".join(struct.pack("<I", w % 2**32) for w in words)
    tail = b"".join(struct.pack("<Q", x) for x in tallies or []) + b"".join(struct.pack("<I", c) for c in counts or [])
    return head + body + tail


class Drawn:
    """Random operands under one modulus, in a fixed order."""

    def __init__(self, modulus, seed):
        self.modulus, self.q, self.draw = modulus, modulus or 2**32, Draw(seed)

    def ternary(self, count):
        return [self.draw.below(3) - 1 for _ in range(count)]

    def words(self, count):
        return [self.draw.below(self.q) for _ in range(count)]

    def errors(self, count, bound):
        return [self.draw.below(2 * bound + 1) - bound for _ in range(count)]

    def messages(self, count, t):
        """The least, the greatest, and then any."""
        return [0, t - 1] + [self.draw.below(t) for _ in range(count - 2)]


class Setting(Drawn):
    """The files of one modulus, name -> bytes. Most methods draw: the order of the calls decides what is stored."""

    def __init__(self, modulus, t, seed, counted):
        super().__init__(modulus, seed)
        self.t, self.basis, self.codec, self.files = t, Basis(modulus, BASE_LOG), Codec(modulus, t), {}
        self.counted = counted

    def put(self, name, kind, words, **more):
        self.files[name] = saved(kind, self.modulus, words, **more)

    def put_messages(self, name, messages):
        self.put(name + ".opens", MESSAGES, messages, t=self.t, count=len(messages))

    def put_ciphertexts(self, name, rows, secret, messages, counts, tallied=True):
        """Each with its number c of encryptions, and with c times E as its tally where it has one."""
        assert [self.codec.decode(phase_of(self.q, row, secret)) for row in rows] == messages
        words = [w for row in rows for w in row]
        beside = dict(tallies=[c * E for c in counts] if tallied else None, counts=counts if self.counted else None)
        self.put(name, CIPHERTEXTS, words, n=len(secret), t=self.t, bound=E, count=len(rows), **beside)
        self.put_messages(name, messages)

    def secrets(self):
        secret = [x % self.q for x in self.ternary(N)]
        signed = self.ternary(N)
        group = [x % self.q for x in self.ternary(M)]
        self.put("secret", SECRET, secret, n=N)
        self.put("signed_secret", SIGNED_SECRET, signed, n=N)
        self.put("group_secret", SECRET, group, n=M)
        return secret, signed, group

    def switching_key(self, name, secret, group):
        L = self.basis.L
        masks, errors = self.words(N * L * M), self.errors(N * L, E)
        key = generated(self.basis, N, secret, group, errors, masks)
        obeys(self.basis, N, M, secret, group, errors, E, key, Drawn(self.modulus, 0).words(N + 1))
        self.put(name, SWITCHING_KEY, key, n=N, m=M, base_log=BASE_LOG, levels=L, bound=E)
        return key

    def public_key(self, secret):
        masks, errors = self.words(N * N), self.errors(N, E)
        key = encrypted_rows(self.q, N, masks, secret, errors, [0] * N)
        self.put("public_key", PUBLIC_KEY, key, n=N, bound=E)
        return key

    def fresh(self, name, secret, centered):
        masks, errors, messages = self.words(4 * N), self.errors(4, E), self.messages(4, self.t)
        plain = [self.codec.embed(x, centered) for x in messages]
        rows = rows_of(encrypted_rows(self.q, N, masks, secret, errors, plain), N + 1)
        self.put_ciphertexts(name, rows, secret, messages, [1] * len(rows))
        return rows, messages

    def sums(self, name, secret, rows, messages, counts):
        """At place i the sum of counts[i] fresh ciphertexts, from the one at i on, round."""
        runs = [[(i + k) % len(rows) for k in range(c)] for i, c in enumerate(counts)]
        sums = [[sum(column) % self.q for column in zip(*(rows[k] for k in run))] for run in runs]
        opened = [sum(messages[k] for k in run) % self.t for run in runs]
        self.put_ciphertexts(name, sums, secret, opened, counts)
        return sums, opened, counts

    def packed(self, secret):
        mask, errors, messages = self.words(N), self.errors(N // 2, E), self.messages(N // 2, self.t)
        words = packed(self.q, N, mask, secret, errors, [self.codec.embed(x, False) for x in messages])
        assert [self.codec.decode(p) for p in packed_phases(self.q, N, words, secret)] == messages
        self.put("packed", PACKED, words, n=N, t=self.t, bound=E, count=len(messages), counts=[1] if self.counted else None)
        self.put_messages("packed", messages)

    def public(self, secret, key):
        rows, messages = [], self.messages(3, self.t)
        for message in messages:
            errors, coefficients = self.errors(N + 1, E), self.ternary(N)
            rows.append(public_encrypted(self.q, N, key, errors, coefficients, self.codec.embed(message, False)))
        self.put_ciphertexts("public", rows, secret, messages, [1] * len(rows), tallied=False)

    def switched(self, name, key, group, rows, messages, counts):
        self.put_ciphertexts(name, [switched(self.basis, N, M, key, x) for x in rows], group, messages, counts, tallied=False)


def setting(modulus, t, seed, counted):
    """The files of one modulus: name -> bytes."""
    s = Setting(modulus, t, seed, counted)
    secret, signed, group = s.secrets()
    key = s.switching_key("switching_key", secret, group)
    signed_key = s.switching_key("signed_switching_key", signed, group)
    public = s.public_key(secret)
    fresh = s.fresh("fresh", secret, False)
    signed_fresh = s.fresh("signed_fresh", signed, True)
    summed = s.sums("summed", secret, *fresh, [2, 2, 2, 2])
    s.packed(secret)
    s.public(secret, public)
    s.switched("switched", key, group, *summed)
    s.switched("signed_switched", signed_key, group, *signed_fresh, [1, 1, 1, 1])
    if counted:
        total = s.sums("total", secret, *fresh, [1, 4, 7, 3])
        s.switched("switched_total", key, group, *total)
    return s.files


# --- The pooling box: counts of four castings from each shop, under the shops' key ---

BOX_MODULUS, BOX_T, BOX_E, BOX_SEED = 2**32 - 5, 1024, 3, 104
COUNTS = {
    "shop_1": [12, 0, 31, 7], "shop_2": [5, 18, 0, 7], "shop_3": [9, 9, 9, 9], "shop_4": [40, 2, 11, 3],
    "shop_5": [8, 1, 0, 0], "shop_6": [6, 6, 1, 2], "shop_7": [3, 3, 3, 3], "shop_8": [20, 4, 2, 60], "shop_9": [1, 1, 1, 1],
}


def replaced(content, at, piece):
    return content[:at] + piece + content[at + len(piece) :]


def word_place(i):
    return 64 + 4 * i


def box(t=BOX_T, rows=COUNTS):
    """The box's files. The shops' secret is drawn here and stored nowhere."""
    d = Drawn(BOX_MODULUS, BOX_SEED)
    q, basis, codec = d.q, Basis(BOX_MODULUS, BASE_LOG), Codec(BOX_MODULUS, t)
    secret, group = [x % q for x in d.ternary(N)], [x % q for x in d.ternary(M)]
    masks, errors = d.words(N * basis.L * M), d.errors(N * basis.L, BOX_E)
    key = generated(basis, N, secret, group, errors, masks)
    shape = dict(n=N, m=M, base_log=BASE_LOG, levels=basis.L, bound=BOX_E)
    files = {
        "switching_key": saved(SWITCHING_KEY, BOX_MODULUS, key, **shape),
        "group_secret": saved(SECRET, BOX_MODULUS, group, n=M),
    }
    for name, counts in rows.items():
        n = N - 4 if name == "shop_5" else N
        masks, errors = d.words(4 * n), d.errors(4, BOX_E)
        words = encrypted_rows(q, n, masks, secret[:n], errors, [codec.encode(x) for x in counts])
        shape = dict(n=n, t=t, bound=BOX_E, count=4, tallies=[BOX_E] * 4, counts=[1] * 4)
        files[name] = saved(CIPHERTEXTS, BOX_MODULUS, words, **shape)

    # damaged in different ways; shop_5 has another dimension, see above
    files["shop_3"] = files["shop_3"][:-10]
    files["shop_4"] = replaced(files["shop_4"], word_place(70), struct.pack("<I", q))
    files["shop_6"] = replaced(files["shop_6"], word_place(4 * (N + 1)) + 8 * 2, struct.pack("<Q", 2**32 + 1))
    files["shop_7"] = replaced(files["shop_7"], 0, b"\x89PNG")
    files["shop_9"] = replaced(files["shop_9"], 32, struct.pack("<I", 512))
    return files


def main():
    files = {f"crates/pooling_box/data/{name}": content for name, content in box().items()}
    for folder, modulus, t, seed, counted in SETTINGS:
        for file, content in setting(modulus, t, seed, counted).items():
            files[f"crates/release_files/data/{folder}/{file}"] = content
    write_or_check(files)


if __name__ == "__main__":
    main()
