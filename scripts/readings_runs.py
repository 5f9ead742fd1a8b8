"""Input and expected output of the program `readings`, from document 01.

    python3 scripts/readings_runs.py          write the files
    python3 scripts/readings_runs.py --check  compare with the stored files

Writes crates/readings_runs/data/run01, run02, .. (input bytes) and
crates/readings_runs/stdout (for each run a line `run NN`, then its output);
also the sample of document 01 as crates/readings/stdin and stdout.
"""

import sys

sys.dont_write_bytecode = True  # importing must leave no file in the repository

from scheme01 import ROOT, Basis, Draw, refusal_of, write_or_check

SAMPLE_INPUT = bytes.fromhex("01 11 00 00 00 02 00 02 09 00 00 00 02 11 00 00 00")
SAMPLE_OUTPUT = """\
basis 17 5 2 2 1 1 11
word 9 10 -1 1 1
refused 14
"""

OPERAND_BYTES = {1: 6, 2: 4}


def basis_line(operands):
    """The basis, or None, and the line of a whole basis command."""
    modulus = int.from_bytes(operands[:4], "little")
    base_log, levels = operands[4], operands[5]
    # In a command, 0 stands for the native modulus and for open levels.
    basis, refusal = refusal_of(Basis, modulus or None, base_log, levels or None)
    if basis is None:
        return None, f"refused {refusal}"
    numbers = (modulus, basis.k, base_log, basis.L, basis.d, basis.H, basis.T)
    return basis, " ".join(["basis", *map(str, numbers)])


def word_line(basis, operands):
    if basis is None:
        return "refused 18"
    a = int.from_bytes(operands, "little")
    parts, refusal = refusal_of(basis.parts, a)
    if parts is None:
        return f"refused {refusal}"
    numbers = (a, parts.reading, parts.epsilon, *parts.digits)
    return " ".join(["word", *map(str, numbers)])


def output_of(data):
    """Everything the program prints for this input."""
    basis, lines, at = None, [], 0
    while at < len(data):
        command = data[at]
        end = at + 1 + OPERAND_BYTES.get(command, 0)
        if command not in OPERAND_BYTES or end > len(data):
            lines.append("refused 19")
            break
        operands = data[at + 1 : end]
        if command == 1:
            accepted, line = basis_line(operands)
            basis = accepted or basis
        else:
            line = word_line(basis, operands)
        lines.append(line)
        at = end
    return "".join(line + "\n" for line in lines)


def basis(modulus, base_log, levels=0):
    return b"\x01" + modulus.to_bytes(4, "little") + bytes([base_log, levels])


def words(*numbers):
    return b"".join(b"\x02" + a.to_bytes(4, "little") for a in numbers)


def turning_words(modulus, base_log, levels=0):
    """A basis and words around T, q/2, 0 and q, where readings change sign."""
    made = Basis(modulus or None, base_log, levels or None)
    q, T, H = made.q, made.T, made.H
    chosen = [0, 1, H, H + 1, *range(T - 2, T + 3), q // 2 - 1, q // 2, q // 2 + 1]
    chosen += [q - H - 1, q - H, q - 2, q - 1]
    return basis(modulus, base_log, levels) + words(*(a for a in chosen if 0 <= a < q))


def random_run(commands):
    """A long mix, mostly accepted; only whole known commands, so it runs to its end."""
    draw, current, data = Draw(2), None, b""
    for _ in range(commands):
        if current is None or draw.below(10) == 0:
            modulus = draw.choose([0, 4 + draw.below(300), 2 ** draw.below(32), draw.below(2**32)])
            base_log = draw.below(33) if draw.below(4) == 0 else 2 + draw.below(7)
            levels = draw.below(5)
            data += basis(modulus, base_log, levels)
            made, _ = refusal_of(Basis, modulus or None, base_log, levels or None)
            current = made or current
        else:
            near_T = max(current.T + draw.below(7) - 3, 0)
            chosen = [draw.below(current.q)] * 6 + [near_T] * 2 + [draw.below(2**32)]
            data += words(draw.choose(chosen))
    return data


def cut_off(command):
    """The command without its last operand bytes, every way."""
    return [command[:length] for length in range(1, len(command))]


Q17 = basis(17, 2)


def unreadable_runs():
    """Unknown commands, and commands cut off."""
    for byte in (0x00, 0x03, 0xFF):
        unknown = bytes([byte]) + Q17 + words(9)
        yield f"unknown {byte:02x} first, rest ignored", unknown
        yield f"unknown {byte:02x} after a basis, rest ignored", Q17 + words(9) + unknown
    # The operand bytes are commands themselves, should a reader slip by one.
    for command in (b"\x01\x01\x02\x01\x02\x02\x01", b"\x02\x02\x01\x00\x00"):
        for part in cut_off(command):
            title = f"{part[0]:02x} cut off after {len(part) - 1} operand bytes"
            yield f"{title}, no basis", part
            yield f"{title}, after a basis", Q17 + words(12) + part


def refused_runs():
    """Bases and words that are refused; the run goes on."""
    kept = words(9, 10, 11, 12, 16)
    yield "refused bases 1 2 3 5 keep the earlier one", Q17 + kept + b"".join(
        refused + kept
        for refused in (basis(17, 1), basis(17, 32), basis(3, 2), basis(17, 5), basis(17, 2, 3))
    )
    yield "two checks fail, the lower number is given", Q17 + b"".join(
        (basis(3, 0, 9), basis(3, 255, 9), basis(1, 31), basis(3, 2, 9), basis(17, 5, 9),
         basis(0, 32, 9), basis(0, 31, 2), basis(0, 16, 255))
    ) + kept
    yield "refused bases only, words get 18", b"".join(
        refused + words(0)
        for refused in (basis(0, 1), basis(2, 2), basis(7, 3), basis(16, 2, 3))
    )
    yield "words not below q, going on", Q17 + words(16, 17, 18, 2**31, 2**32 - 1, 11) + (
        basis(2**32 - 1, 8) + words(2**32 - 2, 2**32 - 1, 0)
    )


def large_runs():
    """Native and large explicit moduli, words where readings change sign."""
    yield "native, base logs 2 4 31, open", words(0) + b"".join(
        turning_words(0, base_log) for base_log in (2, 4, 31)
    )
    yield "native, base logs 2 4 31, levels given", b"".join(
        turning_words(0, base_log, levels)
        for base_log, levels in ((2, 16), (2, 15), (2, 1), (4, 8), (4, 3), (31, 1))
    )
    yield "native, readings below -2^31", basis(0, 2) + words(
        *range(1431655763, 1431655770), 2**31 - 1, 2**31, 2**31 + 1
    )
    yield "large explicit moduli", b"".join(
        turning_words(q, base_log, levels)
        for q in (2**32 - 1, 2**31 + 1, 2**32 - 5)
        for base_log, levels in ((2, 0), (2, 5), (7, 0), (8, 3), (31, 0))
    )


def runs():
    yield "sample of 01", SAMPLE_INPUT
    yield "empty input", b""
    yield "words before any basis, then a basis", words(0, 2**32 - 1) + Q17 + words(9, 16)
    yield from unreadable_runs()
    yield from refused_runs()
    yield "every word of q 16 and 17, levels open and given", b"".join(
        basis(q, 2, levels) + words(*range(q)) for q in (16, 17) for levels in (0, 1, 2)
    )
    yield from large_runs()
    yield "several bases in turn", b"".join(
        basis(q, base_log, levels) + words(3, 1000, 40000, 2**31)
        for q, base_log, levels in (
            (0, 8, 0), (4, 2, 0), (65537, 4, 2), (65536, 4, 2), (1000003, 10, 1), (2**31, 31, 0),
            (0, 8, 4))
    )
    yield "about 3000 drawn commands", random_run(3000)


def main():
    files, printed = {}, ""
    for number, (title, data) in enumerate(runs(), 1):
        files[f"crates/readings_runs/data/run{number:02}"] = data
        printed += f"run {number:02}\n" + output_of(data)
        print(f"run {number:02}: {title} ({len(data)} bytes)")
    assert output_of(SAMPLE_INPUT) == SAMPLE_OUTPUT
    assert len(files) <= 40
    for path in (ROOT / "crates/readings_runs/data").glob("run*"):
        if str(path.relative_to(ROOT)) not in files:
            sys.exit(f"not one of the runs: {path.relative_to(ROOT)}")
    files["crates/readings_runs/stdout"] = printed.encode()
    files["crates/readings/stdin"] = SAMPLE_INPUT
    files["crates/readings/stdout"] = SAMPLE_OUTPUT.encode()
    write_or_check(files)


if __name__ == "__main__":
    main()
