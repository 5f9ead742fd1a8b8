"""Spells the repository's own definitions and lemmas as the library spells its: snake case for words, a dash only between two names.

    python3 tools/spell_names.py          writes
    python3 tools/spell_names.py --check  only says what would fall together

A name that specs/ or a lemma file of proofs/ declares turns from camel case to snake case; a dash stays where both sides are names of
definitions, and is `_` elsewhere. Types and constructors keep their capitals. It goes over the code of .antt files and their comments,
the clauses and `ghost use` items of .rt files, and code spans of .md files. What falls together is listed and stops it.
"""

import re
import sys
from pathlib import Path

ROOT = Path(__file__).resolve().parent.parent
WORD = re.compile(r'[^\s(){}.;,@"«»\[\]|:\\]+')
DECLARED = re.compile(r"(?m)^ *(?:(?:pub|abbrev|unfoldable|where|do|let) +)*([^\s:(){}«».]+)(?: *\{[^{}\n]*\})* :(?= |$)")
USED = re.compile(r"(?m)^ *(?:pub )?use ([^\s{]+?)\.\{([^}]*)\}")
# names of the library that a lemma's name may be joined of
PLAIN = set("length take drop map append sum get_or zip_with pick zero suc pos negsuc mul add sub mod div pow max min".split())
# what Rattle makes of a function: never the repository's own
MADE = re.compile(r"(?:-spec|_spec)$")
BLOCK = re.compile(r"\b(?:requires|ensures)\s*\*?\s*(?:\w+\s*)?\{|ghost\s*(?:\w+\s*(?::\s*|=\s*))?\{")
# names whose regular spelling would fall together with another
OTHERWISE = {
    **{
        n: snake_lem
        for n in (
            "first-carry carry-in entry-missing place-tag batch-phase shown-digit basis-of entry-word state-at generated-entry "
            "switch-bound public-phase reading-of base_word one_more signed_word same_digits"
        ).split()
        for snake_lem in [n.replace("-", "_") + "_lem"]
    },
    "valueBits": "value_bits_of",
    "levelCount": "level_count_of",
}


def lemma_files():
    for path in sorted(ROOT.glob("crates/*/specs/**/*.antt")) + sorted(ROOT.glob("crates/*/proofs/*.antt")):
        if path.name != "Lib.antt" and "out" not in path.parts:
            yield path


def all_files(*kinds):
    for path in sorted(ROOT.glob("crates/**/*")):
        if path.suffix in kinds and "out" not in path.relative_to(ROOT).parts:
            yield path


def no_comments(text):
    return re.sub(r"(?m)(?<![^\s(){}])--(?=\s|$)[^\n]*", "", text)


def snake(part):
    if part == "getD":
        return "get_or"
    if part[:1].isupper():
        return part
    part = re.sub(r"(?<=[a-z0-9₁₂₃])([A-Z])", lambda m: "_" + m[1].lower(), part)
    return re.sub(r"(?<=[a-z])([ℕℤ])", r"_\1", part)


def spelled(name, known):
    if name in OTHERWISE:
        return OTHERWISE[name]
    parts = [snake(p) for p in name.split("-")]
    out = parts[0]
    for left, right in zip(parts, parts[1:]):
        out += ("-" if left in known and right in known else "_") + right
    return out


def table():
    declared, definitions = {}, set()
    for path in lemma_files():
        text = no_comments(path.read_text())
        for m in DECLARED.finditer(text):
            name = m[1]
            if MADE.search(name) or "--" in name or not re.match(r"[a-z]", name):
                continue
            declared.setdefault(name, path)
            if "specs" in path.parts:
                definitions.add(snake(name) if "-" not in name else name)
    known = definitions | PLAIN
    return {n: s for n in declared if (s := spelled(n, known)) != n}, declared.keys() - OTHERWISE.keys()


def clash(names, declared):
    """Names that would fall together: two that turn to one, one that is there already, or both words in one file."""
    bad = []
    turned = {}
    for old, new in names.items():
        turned.setdefault(new, []).append(old)
    for new, olds in turned.items():
        if len(olds) > 1:
            bad.append(f"{' and '.join(olds)} would both be {new}")
        if new in declared:
            bad.append(f"{olds[0]} would be {new}, which is declared")
    for path in list(all_files(".antt")):
        # a path and a field are no words of their own
        text = re.sub(r"Rattle\.[\w.]+|\.[\w-]+", "", no_comments(path.read_text()))
        words = {w for line in text.splitlines() for w in WORD.findall(line)}
        for old in words & names.keys():
            if names[old] in words and names[old] not in names:
                bad.append(f"{path.relative_to(ROOT)}: {old} and {names[old]} are both there")
    return bad


def turn(text, names):
    return WORD.sub(lambda m: names.get(m[0], m[0]), text)


def turn_antt(text, names):
    code = {w for w in WORD.findall(no_comments(text))}
    here = {o: n for o, n in names.items() if o in code}
    return turn(text, here)


def turn_rt(text, names):
    out, at = [], 0
    spans = [(m.start(), m.end()) for m in re.finditer(r"ghost\s+use\b[^;]*;", text)]
    for m in BLOCK.finditer(text):
        deep, k = 1, m.end()
        while k < len(text) and deep:
            deep += (text[k] == "{") - (text[k] == "}")
            k += 1
        spans.append((m.end(), k))
    for a, b in sorted(spans):
        if a < at:
            continue
        out += [text[at:a], turn(text[a:b], names)]
        at = b
    text = "".join(out) + text[at:]
    return re.sub(r"(?m)//[^\n]*", lambda m: re.sub(r"`[^`\n]+`", lambda s: turn(s[0], names), m[0]), text)


def turn_md(text, names):
    return re.sub(r"`[^`\n]+`", lambda m: "`" + turn(m[0][1:-1], names) + "`", text)


def main():
    names, declared = table()
    bad = clash(names, declared)
    print("\n".join(bad))
    print(f"{len(names)} names turn, {len(bad)} fall together")
    if "--check" in sys.argv:
        for old, new in sorted(names.items()):
            print(f"  {old} {new}")
        return
    if bad:
        sys.exit(1)
    for path in all_files(".antt", ".rt"):
        text = path.read_text()
        new = (turn_antt if path.suffix == ".antt" else turn_rt)(text, names)
        if new != text:
            path.write_text(new)
    for path in [ROOT / "README.md", *sorted(ROOT.glob("docs/**/*.md")), *sorted(ROOT.glob("oracle/*.md"))]:
        text = path.read_text()
        if (new := turn_md(text, names)) != text:
            path.write_text(new)


main()
