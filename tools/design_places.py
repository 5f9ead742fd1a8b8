#!/usr/bin/env python3
"""Counts the places of docs/DESIGN-PASS.md in src/ (and proofs/): python3 tools/design_places.py [COMMIT] [--list POINT]

With a commit the files as they stood there, else those of the working tree."""
import collections
import re
import subprocess
import sys


def files(commit):
    if commit:
        names = subprocess.run(["git", "ls-tree", "-r", "--name-only", commit], capture_output=True, text=True, check=True).stdout.split("\n")
    else:
        names = subprocess.run(["git", "ls-files", "-co", "--exclude-standard"], capture_output=True, text=True, check=True).stdout.split("\n")
    for name in names:
        if re.fullmatch(r"crates/\w+/(src|proofs)/.*\.(rt|antt)", name):
            if commit:
                yield name, subprocess.run(["git", "show", f"{commit}:{name}"], capture_output=True, text=True, check=True).stdout
            else:
                try:
                    yield name, open(name).read()
                except FileNotFoundError:
                    pass


def code(text):
    return re.sub(r"//[^\n]*", "", text)


def past(text, i, open_, close):
    """Past the bracket that closes the one before i."""
    depth = 1
    while depth:
        depth += {open_: 1, close: -1}.get(text[i], 0)
        i += 1
    return i


def functions(text):
    """(name, comment, parameters, result, clauses, body) of each function."""
    pattern = re.compile(r"((?:^[ \t]*//[^\n]*\n)*)((?:^[ \t]*#\[[^\n]*\n)*)^[ \t]*(?:pub(?:\(crate\))? )?(?:extern \"C\" )?fn (\w+)(?:<[^>]*>)?\(", re.M)
    for m in pattern.finditer(text):
        i = past(text, m.end(), "(", ")")
        parameters = text[m.end():i - 1]
        rest = text[i:]
        head = re.match(r"\s*(?:->\s*([^\n{]+?))?\s*(?=requires|ensures|\{|where|;)", rest)
        result = (head.group(1) or "").strip() if head else ""
        # clauses: braces of requires and ensures; then the body
        j, clauses = i + (head.end() if head else 0), []
        while True:
            c = re.match(r"\s*(requires|ensures)( \w+)? \{", text[j:])
            if not c:
                break
            k = past(text, j + c.end(), "{", "}")
            clauses.append((c.group(1), re.sub(r"\s+", " ", text[j + c.end():k - 1]).strip()))
            j = k
        b = re.match(r"\s*\{", text[j:])
        if not b:
            continue
        k = past(text, j + b.end(), "{", "}")
        yield m.group(3), m.group(1), parameters, result, clauses, text[j + b.end():k - 1]


def places(commit):
    found = collections.OrderedDict((p, []) for p in
        ["1a", "1b", "1c", "2a", "2b", "2c", "3", "4", "5a", "5b", "6", "7", "8a", "8b"])
    facts, groups, bodies, names = collections.defaultdict(list), collections.defaultdict(list), collections.defaultdict(list), collections.defaultdict(set)
    for name, text in files(commit):
        where = name[len("crates/"):]
        crate = where.split("/")[0]
        if name.endswith(".antt"):
            if where.endswith("/Answers.antt"):
                for m in re.finditer(r"^pub (\S+) : goal\.", text, re.M):
                    found["8a"].append(f"{where} {m.group(1)}")
            for m in re.finditer(r"^pub (\S+) :", text, re.M):
                if not where.endswith(("/Answers.antt", "/Invariants.antt")):
                    found["8b"].append(f"{where} {m.group(1)}")
            continue
        for m in re.finditer(r"enum (\w+)(?:<[^>]*>)? \{(.*?)\n\}", code(text), re.S):
            variants = re.findall(r"^\s+(\w+)(\([^\n]*\))?,", m.group(2), re.M)
            if any(v == "Refused" for v, _ in variants) or (len(variants) == 2 and sum(bool(p) for _, p in variants) == 1):
                found["1a"].append(f"{where} {m.group(1)}")
        for m in re.finditer(r"struct (\w+)(?:<[^>]*>)? \{(.*?)\n\}", code(text), re.S):
            fields = re.findall(r"(\w+): ([^\n,]+),", m.group(2))
            if fields and not all(t == "bool" for _, t in fields):
                found["1c"] += [f"{where} {m.group(1)}.{f}" for f, t in fields if t == "bool"]
        for n, line in enumerate(code(text).split("\n"), 1):
            if re.search(r"\bwhile\b", line):
                found["3"].append(f"{where}:{n}")
        for fn, comment, parameters, result, clauses, body in functions(text):
            at = f"{where} {fn}"
            if result == "u32" and (re.search(r"refus|first of|first number", comment, re.I) or "refusal" in fn):
                found["1b"].append(at)
            if re.fullmatch(r"from|from_\w+|given|number|eq|ne|cmp|partial_cmp|clone|to_\w+", fn) and "impl From" not in text[:text.find(f"fn {fn}(")][-200:]:
                found["4"].append(at)
            for kind, clause in clauses:
                if kind == "requires":
                    for fact in clause.split("×"):
                        fact = fact.strip()
                        while fact.startswith("(") and fact.endswith(")"):
                            fact = fact[1:-1].strip()
                        facts[re.sub(r"\.(now|old)\b", "", fact)].append(at)
            ps = re.findall(r"(\w+): ([^,\n]+)", parameters)
            keys = tuple(p for p, _ in ps)
            for size in (3,):
                for k in range(len(keys) - size + 1):
                    groups[keys[k:k + size]].append(at)
            slices = [p for p, t in ps if re.match(r"&(mut )?\[", t)]
            sizes = [p for p, t in ps if t.strip() == "usize"]
            wants = " ".join(c for k, c in clauses if k == "requires")
            if any(re.search(rf"length {s}\.(now|old)", wants) and any(re.search(rf"\b{z}\b", wants) for z in sizes) for s in slices):
                found["6"].append(at)
            plain = re.sub(r"\b(u8|u16|u32|u64|i32|i64|usize)\b", "T", re.sub(r"\b\d[\w_]*\b", "N", re.sub(r"\s+", " ", body))).strip()
            if plain.count(";") >= 2 or plain.count("=>") >= 2:
                bodies[plain].append(at)
            if re.fullmatch(rf"\s*\w+::{fn}\([^()]*\)\s*", body):
                found["2c"].append(at)
            names[crate].add(fn)
            for m in re.finditer(r"match (\w+) \{\s*(\w+)::", body):
                if m.group(2) in ("Coding", "Packing", "KeyForm"):
                    found["7"].append(at)
    for crate, fns in names.items():
        for fn in sorted(fns):
            base = re.sub(r"_(signed|native|explicit)\b|\b(signed|native|explicit)_|_(signed|native|explicit)(?=_)", "", fn)
            others = {base, *(o for o in fns if o != fn and re.sub(r"_(signed|native|explicit)\b|\b(signed|native|explicit)_|_(signed|native|explicit)(?=_)", "", o) == base)}
            if base != fn and any(o in fns and o != fn for o in others):
                found["2a"].append(f"{crate} {fn}")
    found["2b"] = [" = ".join(v) for v in bodies.values() if len(v) > 1]
    found["5a"] = [f"{k}  ({len(set(v))})" for k, v in facts.items() if len(set(v)) >= 3]
    found["5b"] = [f"{', '.join(k)}  ({len(set(v))})" for k, v in groups.items() if len(set(v)) >= 3]
    return found


WHAT = {
    "1a": "own enums of the shape of Option or Result",
    "1b": "functions that answer a refusal as a number",
    "1c": "flags with a value beside them in a struct",
    "2a": "functions named as another but for signed, native or explicit",
    "2b": "groups of functions whose bodies differ in a type or a number alone",
    "2c": "functions that only call one of the same name in another crate",
    "3": "loops by `while`",
    "4": "conversions and comparisons written by hand",
    "5a": "facts that three or more functions require",
    "5b": "three parameters that stand together in three or more functions",
    "6": "slices with a length beside them, by a `requires`",
    "7": "matches on which step to run",
    "8a": "answers in proof files",
    "8b": "lemmas of our own",
}

if __name__ == "__main__":
    arguments = sys.argv[1:]
    listed = arguments[arguments.index("--list") + 1] if "--list" in arguments else None
    commits = [a for a in arguments if not a.startswith("--") and a != listed]
    found = places(commits[0] if commits else None)
    for point, at in found.items():
        if listed in (None, point):
            print(f"{point:3} {len(at):5}  {WHAT[point]}")
            if listed:
                print("\n".join("    " + a for a in at))
