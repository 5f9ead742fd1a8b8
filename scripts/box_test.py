"""Runs the pooling box on folders of damaged and odd files, and compares what it writes and how long it takes.

    python3 scripts/box_test.py PROGRAM       PROGRAM is a built pooling_box; scripts/box_test.sh builds it first

The files are those of scripts/release_files.py, changed case by case. docs/FILES.md says what each case must give.
"""

import struct
import subprocess
import sys
import tempfile
import time
from pathlib import Path

sys.dont_write_bytecode = True  # importing must leave no file in the repository

from codec_vectors import Codec
from lwe_vectors import encrypted_rows
from release_files import BASE_LOG, BOX_E, BOX_MODULUS, BOX_T, CIPHERTEXTS, COUNTS, SECRET, SWITCHING_KEY
from release_files import Drawn, N, box, replaced, saved, word_place
from scheme01 import Basis
from switch_vectors import generated

ROOT = Path(__file__).resolve().parent.parent
BROKEN = "refused 19: not a whole file of this layout: cut off, too long or another one"
MISSING = "refused 19: there is no such file, or it cannot be opened"
OTHER = "refused 19: a file of another kind, modulus or plaintext modulus"
LENGTH = "refused 10: ciphertexts have the wrong length or dimension"
TALLY = "refused 17: a tally, given or summed, is above 2^32, or a number of encryptions above 65536"
PLAINTEXT = "refused 7: the plaintext modulus is below 2"
SHOPS = [f"shop_{i}" for i in range(1, 10)]
# counts in cents (T-10), modulo t
CENTS = 1000003
MONEY = {name: [(1000 * x + 37 * i) % CENTS for i, x in enumerate(COUNTS[name])] for name in SHOPS}
# seconds for one folder: an accepted one takes some hundredths, and refusing takes no longer than the bytes that are there
LIMIT = 2


def number(at, value):
    """A change of the head: four bytes."""
    return lambda content: replaced(content, at, struct.pack("<I", value))


# where the tallies of four ciphertexts begin, and their numbers c
TALLIES = word_place(4 * (N + 1))
COUNTED = TALLIES + 4 * 8


def tally(i, value):
    return lambda content: replaced(content, TALLIES + 8 * i, struct.pack("<Q", value))


def encryptions(i, value):
    """A change of the number c of a ciphertext."""
    return lambda content: replaced(content, COUNTED + 4 * i, struct.pack("<I", value))


def uncounted(content):
    """The file as a release before the sixth saved it: tallies, and no c."""
    return number(48, 1)(content)[:COUNTED]


def untallied(content):
    """A c, and no tally: as a switched ciphertext is saved."""
    return number(48, 2)(content)[:TALLIES] + content[COUNTED:]


def bare(content):
    return number(48, 0)(content)[:TALLIES]


class Box:
    """A folder of files, and what the program writes about it."""

    def __init__(self, program, files, *words):
        self.command, self.files = [program, *words], dict(files)

    def change(self, name, how):
        self.files[name] = how(self.files[name])
        return self

    def drop(self, *names):
        for name in names:
            del self.files[name]
        return self

    def run(self):
        with tempfile.TemporaryDirectory() as folder:
            for name, content in self.files.items():
                Path(folder, name).write_bytes(content)
            start = time.monotonic()
            run = subprocess.run(self.command, cwd=folder, stdout=subprocess.PIPE, stderr=subprocess.DEVNULL, timeout=60)
            self.seconds = time.monotonic() - start
        assert run.returncode == 0, run.returncode
        return run.stdout.decode().splitlines()


def opened(lines):
    """The counts that the buyers open, or none."""
    start = "the buyers open it with the group's secret:"
    if start not in lines:
        return None
    at = lines.index(start) + 1
    return [int(line.split(": ")[1]) for line in lines[at : at + 4]]


def sums(names, rows=COUNTS):
    return [sum(rows[name][i] for name in names) for i in range(4)]


def wide():
    """A box whose switching key has 65,536 bytes, the most that the program takes: 66 × 8 entries of 31 words."""
    n, m = 66, 30
    d, basis, codec = Drawn(BOX_MODULUS, 105), Basis(BOX_MODULUS, BASE_LOG), Codec(BOX_MODULUS, BOX_T)
    secret, group = [x % d.q for x in d.ternary(n)], [x % d.q for x in d.ternary(m)]
    key = generated(basis, n, secret, group, d.errors(n * basis.L, BOX_E), d.words(n * basis.L * m))
    rows = encrypted_rows(d.q, n, d.words(4 * n), secret, d.errors(4, BOX_E), [codec.encode(x) for x in COUNTS["shop_1"]])
    files = {
        "switching_key": saved(SWITCHING_KEY, BOX_MODULUS, key, n=n, m=m, base_log=BASE_LOG, levels=basis.L, bound=BOX_E),
        "group_secret": saved(SECRET, BOX_MODULUS, group, n=m),
        "shop_1": saved(CIPHERTEXTS, BOX_MODULUS, rows, n=n, t=BOX_T, bound=BOX_E, count=4, tallies=[BOX_E] * 4, counts=[1] * 4),
    }
    assert len(files["switching_key"]) == 65536
    return files


class Cases:
    def __init__(self, program):
        self.program, self.failed, self.count = program, 0, 0

    def box(self):
        return Box(self.program, box())

    def expect(self, title, good, seen):
        self.count += 1
        if not good:
            self.failed += 1
            print(f"box_test: {title}: FAILED\n  " + "\n  ".join(seen))

    def case(self, title, b, told=(), counts=None, alike=None):
        """Lines that must be there, the counts that must be opened (None: any), and a run that must be the same in every line."""
        lines = b.run()
        self.expect(title, all(line in lines for line in told), lines)
        if counts is not None:
            self.expect(title + ": the total", opened(lines) == counts, lines)
        if alike is not None:
            self.expect(title + ": the whole output", lines == alike, lines)
        self.expect(title + f": {b.seconds:.2f} s, at most {LIMIT}", b.seconds <= LIMIT, lines)

    def lengths(self):
        """Files that are longer or shorter than their heads say."""
        claim = saved(CIPHERTEXTS, BOX_MODULUS, [], n=N, t=BOX_T, bound=BOX_E, count=4)
        claim = number(44, 2**32 - 1)(claim)
        refused = [f"{name}: {BROKEN}" for name in SHOPS]
        b = self.box()
        b.files.update({name: claim for name in SHOPS})
        self.case("nine heads that claim 2^32 - 1 words", b, refused)
        b.files.update({name: number(48, 1)(number(40, 2**32 - 1)(claim)) for name in SHOPS})
        self.case("nine heads that claim as many tallies too", b, refused)
        b.files.update({name: number(48, 3)(number(40, 2**32 - 1)(claim)) for name in SHOPS})
        self.case("nine heads that claim as many tallies and numbers c", b, refused)
        full = saved(CIPHERTEXTS, BOX_MODULUS, [0] * 16368, n=N, t=BOX_T, bound=BOX_E, count=4)
        more = saved(CIPHERTEXTS, BOX_MODULUS, [0] * 16369, n=N, t=BOX_T, bound=BOX_E, count=4)
        b = self.box().drop("shop_4")
        b.files.update({"shop_1": full, "shop_2": full + b"\0", "shop_3": more})
        told = [f"shop_1: {LENGTH}", f"shop_2: {BROKEN}", f"shop_3: {BROKEN}", f"shop_4: {MISSING}"]
        self.case("a row of 65,536 bytes, and one more", b, told, COUNTS["shop_8"])
        self.case("a switching key of 65,536 bytes", Box(self.program, wide()), ["shop_1: accepted"], COUNTS["shop_1"])
        for extra in (b"\0", b"\0\0\0\0"):
            b = Box(self.program, wide()).change("switching_key", lambda content: content + extra)
            self.case(f"{len(extra)} more behind it", b, alike=[f"switching_key: {BROKEN}"])

    def missing(self):
        stored = self.box().run()
        told = [line.replace("shop_5: " + LENGTH, "shop_5: " + MISSING) for line in stored]
        self.case("a row that is not there", self.box().drop("shop_5"), alike=told)
        self.case("no switching key", self.box().drop("switching_key"), alike=[f"switching_key: {MISSING}"])
        b = self.box().drop("group_secret")
        self.case("no secret of the group", b, alike=stored[: stored.index("the buyers open it with the group's secret:")] + [f"group_secret: {MISSING}"])
        self.case("nothing", Box(self.program, {}), alike=[f"switching_key: {MISSING}"])

    def heads(self):
        """Numbers of the head that are left open, or not read."""
        stored = self.box().run()
        self.case("levels 0: left open", self.box().change("switching_key", number(28, 0)), alike=stored)
        self.case("levels 0, told by the next number", self.box().change("switching_key", number(28, 9)), ["switching_key: refused 5: the level count is 0 or more than fit"])
        for limit in (0, 2**20 + 1, 2**32 - 1):
            b = self.box().change("shop_1", number(36, limit)).change("switching_key", number(36, limit))
            self.case(f"E = {limit} in the heads", b, alike=stored)
        flipped = lambda content: replaced(content, word_place(3), bytes([content[word_place(3)] ^ 1]))
        self.case("a word with a bit flipped: another word", self.box().change("shop_1", flipped), ["shop_1: accepted", "rows added: 3"])

    def first_rows(self):
        """The total is the first accepted row, whichever that is."""
        for name in ("shop_1", "shop_2", "shop_8"):
            others = [other for other in SHOPS if other != name]
            told = [f"{name}: accepted", "rows added: 1"] + [f"  casting {i}: tally 3, c 1, marked good" for i in range(1, 5)]
            self.case(f"{name} alone", self.box().drop(*others), told, COUNTS[name])
        told = [f"  casting {i}: no tally, c 3, not marked good" for i in range(1, 5)]
        for name in ("shop_1", "shop_8"):
            for what, how in (("tallies and c", bare), ("tallies", untallied), ("c", uncounted)):
                self.case(f"{name} without {what}", self.box().change(name, how), told, sums(["shop_1", "shop_2", "shop_8"]))
        b = self.box().change("shop_1", tally(1, 2**32))
        told = ["shop_1: accepted", f"shop_2: {TALLY}", f"shop_8: {TALLY}", "  casting 2: tally 4294967296, c 1, not marked good"]
        self.case("a first tally of 2^32", b, told, COUNTS["shop_1"])
        for value in (2**32 + 1, 2**64 - 2, 2**64 - 1):
            b = self.box().change("shop_1", tally(1, value))
            self.case(f"a first tally of {value}", b, [f"shop_1: {TALLY}", "shop_2: accepted"], sums(["shop_2", "shop_8"]))
        b = self.box().drop(*[name for name in SHOPS if name in ("shop_1", "shop_2", "shop_8")])
        self.case("no row in order", b, [f"shop_9: {OTHER}", "rows added: 0", "no row was accepted, so there is nothing to send"])

    def numbers_of_encryptions(self):
        """c, as saved and summed: 17 from 65,537 on, and the mark counts a rounding for each."""
        three = sums(["shop_1", "shop_2", "shop_8"])
        for value in (65537, 2**31, 2**32 - 1):
            b = self.box().change("shop_1", encryptions(1, value))
            self.case(f"a first c of {value}", b, [f"shop_1: {TALLY}", "shop_2: accepted", "  casting 2: tally 6, c 2, marked good"], sums(["shop_2", "shop_8"]))
            b = self.box().change("shop_8", encryptions(3, value))
            self.case(f"a c of {value}, added", b, ["shop_2: accepted", f"shop_8: {TALLY}", "rows added: 2", "  casting 4: tally 6, c 2, marked good"], sums(["shop_1", "shop_2"]))
            b = self.box().change("shop_1", encryptions(1, value)).change("shop_1", uncounted)
            self.case(f"a c of {value}, cut off: bit 1 alone", b, ["shop_1: accepted", "rows added: 3", "  casting 2: no tally, c 3, not marked good"], three)
        b = self.box().change("shop_1", encryptions(1, 65536))
        told = ["shop_1: accepted", f"shop_2: {TALLY}", f"shop_8: {TALLY}", "rows added: 1", "  casting 1: tally 3, c 1, marked good", "  casting 2: tally 3, c 65536, marked good"]
        self.case("a first c of 65,536", b, told, COUNTS["shop_1"])
        b = self.box().change("shop_1", encryptions(1, 65535))
        told = ["shop_2: accepted", f"shop_8: {TALLY}", "rows added: 2", "  casting 1: tally 6, c 2, marked good", "  casting 2: tally 6, c 65536, marked good"]
        self.case("c of 65,536 in the sum, and one more", b, told, sums(["shop_1", "shop_2"]))
        b = self.box().change("shop_1", encryptions(0, 65535)).change("shop_2", encryptions(0, 65536))
        told = ["shop_1: accepted", f"shop_2: {TALLY}", "shop_8: accepted", "  casting 1: tally 6, c 65536, marked good"]
        self.case("c above 65,536 in the sum, each given below it", b, told, sums(["shop_1", "shop_8"]))
        b = self.box().change("shop_1", encryptions(0, 0)).change("shop_2", encryptions(0, 0)).change("shop_8", encryptions(0, 0))
        told = ["  casting 1: tally 9, c 0, marked good", "  casting 2: tally 9, c 3, marked good"]
        self.case("c = 0", b, told, three)
        # q is 2^32 − 5: with t = 1,000,003 a tally of 9 leaves room for 4,276 roundings, 2t × 9 + c × t < q
        money, total = box(CENTS, MONEY), [x % CENTS for x in sums(["shop_1", "shop_2", "shop_8"], MONEY)]
        most = (BOX_MODULUS - 1 - 2 * CENTS * 9) // CENTS
        assert most == 4276
        for c, mark in ((most, "marked good"), (most + 1, "not marked good")):
            b = Box(self.program, money, str(CENTS)).change("shop_8", encryptions(0, c - 2))
            self.case(f"{c} roundings", b, [f"  casting 1: tally 9, c {c}, {mark}", "  casting 2: tally 9, c 3, marked good"], total)

    def beside(self):
        """Bits that stand for what is not there, or for what a later release saves."""
        for bits in (0, 1, 2, 4, 5, 6, 7, 8, 2**31):
            b = self.box().change("shop_1", number(48, bits))
            self.case(f"bits {bits} beside words, tallies and c", b, [f"shop_1: {BROKEN}", "shop_2: accepted", "rows added: 2"], sums(["shop_2", "shop_8"]))
        for size in (1, 4, 16):
            b = self.box().change("shop_1", lambda content: content[:-size])
            self.case(f"{size} bytes of the numbers c cut off", b, [f"shop_1: {BROKEN}", "rows added: 2"], sums(["shop_2", "shop_8"]))

    def plaintext_moduli(self):
        """t is the argument, or 1,024."""
        stored = self.box().run()
        self.case("t = 1,024 as the argument", Box(self.program, box(), "1024"), alike=stored)
        money = box(CENTS, MONEY)
        told = ["shop_1: accepted", f"shop_9: {OTHER}", "rows added: 3", "  casting 1: tally 9, c 3, marked good"]
        total = [x % CENTS for x in sums(["shop_1", "shop_2", "shop_8"], MONEY)]
        self.case("counts in cents", Box(self.program, money, str(CENTS)), told, total)
        self.case("counts in cents, t left out", Box(self.program, money), [f"shop_1: {OTHER}", "rows added: 0"])
        self.case("t = q", Box(self.program, money, str(BOX_MODULUS)), [f"shop_1: {OTHER}"])
        large = Box(self.program, box(2**32 - 6, {name: [2**31] * 4 for name in SHOPS}), str(2**32 - 6))
        self.case("t = q - 1: the mark says what it is worth", large, ["rows added: 3", "  casting 1: tally 9, c 3, not marked good"])
        for word in ("0", "1", "", "x", "-2", "1024 ", "4294967296", "18446744073709552640", "10000000000000000000000"):
            told = [f"shop_1: {OTHER}"]
            self.case(f"t = '{word}'", Box(self.program, money, word), told)
            headed = {name: number(32, int(word) if word in ("0", "1") else 0)(money[name]) for name in ("shop_1", "shop_2")}
            self.case(f"t = '{word}' in the heads too", Box(self.program, {**money, **headed}, word), [f"shop_1: {PLAINTEXT}", f"shop_2: {PLAINTEXT}"])


def main():
    cases = Cases(str(Path(sys.argv[1]).resolve()))
    cases.case("the stored files", cases.box(), alike=(ROOT / "crates/pooling_box/stdout").read_text().splitlines())
    cases.lengths()
    cases.missing()
    cases.heads()
    cases.first_rows()
    cases.numbers_of_encryptions()
    cases.beside()
    cases.plaintext_moduli()
    print(f"box_test: {cases.count - cases.failed} passed, {cases.failed} failed")
    sys.exit(1 if cases.failed else 0)


if __name__ == "__main__":
    main()
