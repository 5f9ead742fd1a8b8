#!/usr/bin/env python3
"""The tables of docs/DESIGN-PASS.md, "Old and new side by side": python3 tools/design_changes.py OLD NEW, two checkouts.

Signatures, clauses and definitions by /opt/rattle/port/contracts.py; lemmas of proofs/ by their statements."""
import json
import pathlib
import re
import subprocess
import sys

PROGRAMS = {"codec_vectors", "digit_vectors", "lwe_vectors", "message_example", "pooling_box", "programs", "readings", "readings_runs", "release_files", "saved_files"}


def line(text):
    return re.sub(r"\s+", " ", text).strip()


def cell(text):
    return "`" + line(text).replace("|", "\\|") + "`"


def table(head, rows):
    print(f"| {head} | old | new |\n|---|---|---|")
    for name, old, new in rows:
        print(f"| {name} | {old} | {new} |")
    print()


def lemmas(tree):
    """crate, name -> statements, of every public lemma but answers and invariants"""
    found = {}
    for f in sorted(pathlib.Path(tree).glob("crates/*/proofs/**/*.antt")):
        if f.name in ("Invariants.antt", "Lib.antt") or "Goals as goal" in f.read_text():
            continue
        crate = f.relative_to(pathlib.Path(tree) / "crates").parts[0]
        text = re.sub(r"^\s*--.*$", "", f.read_text(), flags=re.M)
        for m in re.finditer(r"^( *)(?:pub )(?:(?:abbrev|unfoldable|record) )*(?:pub )?([^\s:]+) (.*?)(?=^\1(?!  )\S|^\S|\Z)", text, re.M | re.S):
            found.setdefault((crate, m.group(2)), []).append(line("pub " + m.group(2) + " " + m.group(3)))
    return found


def clauses(requires, ensures):
    return [("requires", c) for c in requires] + [("ensures", c) for c in ensures]


def clause(kind, named):
    name, text = named
    return cell(" ".join(w for w in (kind, name, text) if w))


def changed(d):
    rows = []
    for name, old_requires, old_ensures, new_requires, new_ensures in d["contracts changed"]:
        crate, _, *fn = name.split(" ")
        if crate in PROGRAMS:
            continue
        old, new = clauses(old_requires, old_ensures), clauses(new_requires, new_ensures)
        gone, came = [c for c in old if c not in new], [c for c in new if c not in old]
        rows.append((" ".join([crate, *fn]), "; ".join(clause(*c) for c in gone) or "–", "; ".join(clause(*c) for c in came) or "–"))
    return rows


def main(old, new):
    printed = subprocess.run(["python3", "/opt/rattle/port/contracts.py", old, new, "--json"], capture_output=True, text=True, check=True).stdout
    d = json.loads(printed)
    for key in ("ensures all gone", "fewer ensures", "more requires", "a new Wait or Threads"):
        print(f"{key}: {len(d[key])}", d[key] or "", file=sys.stderr)
    print("### Signatures\n")
    rows = [(n.split(" "), o, w) for n, o, w in d["signatures changed"]]
    table("function", [(" ".join([n[0], *n[2:]]), cell(o), cell(w)) for n, o, w in rows if n[0] not in PROGRAMS])
    print("### Clauses\n")
    table("function", changed(d))
    print("### Definitions\n")
    defs = d["definitions"]
    table("definition", [(f"{c} `{n}`", "; ".join(cell(x) for x in o), "; ".join(cell(x) for x in w)) for c, n, o, w in defs["changed"]])
    print("Gone: " + ", ".join(f"{c} `{n}`" for c, n in defs["gone"]) + ": see \"What went\".\n")
    print("### Lemmas\n")
    before, after = lemmas(old), lemmas(new)
    moved = {n for _, n in after}
    table("lemma", [(f"{c} `{n}`", "; ".join(cell(x) for x in before[c, n]), "; ".join(cell(x) for x in after[c, n]))
                    for c, n in sorted(before) if (c, n) in after and sorted(before[c, n]) != sorted(after[c, n])])
    print("Lemmas that went, by crate (their promise is stated where \"What went\" says):\n")
    gone = {}
    for c, n in sorted(before):
        if (c, n) not in after and n not in moved:
            gone.setdefault(c, []).append(f"`{n}`")
    print("\n".join(f"- {c}: " + ", ".join(ns) for c, ns in gone.items()))
    print("\nFunctions that are not found again under their name, by crate:\n")
    gone = {}
    for n in d["functions not found again"]:
        crate, _, fn = re.match(r"(\S+) (\S+) (.*?) \(", n).groups()
        gone.setdefault(crate, []).append(f"`{fn.replace(' ', '::')}`")
    print("\n".join(f"- {c}: " + ", ".join(ns) for c, ns in sorted(gone.items())))


if __name__ == "__main__":
    main(*sys.argv[1:])
