#!/usr/bin/env python3
"""Brings the names that this repository's specs/ and proofs/ declare to the library's spelling.

usage: python3 tools/respell.py        at the top, once, after the kit's own scripts

Words are in snake case, types and facts in camel case, and a prime is an apostrophe: 'told-kind' becomes 'told_kind', 'Some-of' becomes 'SomeOf'.
Names that the check makes (goals, steps, invariants) are left alone, and so is what stands in comments, strings and code. Names that would fall together with
another name of the same file are printed, and nothing is written then.
"""

import glob
import re
import sys

TOKEN = re.compile(r"[^\s(){}\[\]⌜⌝λ.,;:@\"`]+")
DECLARED = re.compile(r"^\s*(?:(?:abbrev|unfoldable|pub|record|data|ruleset|opaque)\s+)*(" + TOKEN.pattern + r"(?:\s+" + TOKEN.pattern + r")*?)\s*(?:[({][^=]*)?(?::(?!:)|\bwhere\b)(.*)$")
ALIAS = re.compile(r"\bas\s+(" + TOKEN.pattern + r")\s*(?:[,}]|$)", re.M)
DERIVED = re.compile(r"deriving\s+\w+\s+as\s+(" + TOKEN.pattern + ")")
# names whose words are run together, or whose new spelling would be that of another name
OTHERWISE = {"constraint-isSet": "constraint_is_set", "rows_of_lem": "rows_of", "end_None": "end_none", "End-row": "end_row"}
OLD_WORDS = {"getD": "get_or", "isSet": "is_set", "isSome": "is_some"}


def files():
    found = []
    for folder in ("specs", "proofs"):
        found += glob.glob(f"crates/*/{folder}/**/*.antt", recursive=True)
    return sorted(found)


def spelled(name):
    if name in OTHERWISE:
        return OTHERWISE[name]
    name = name.replace("′", "'")
    if "-" not in name and not re.fullmatch(r"[A-Z][A-Za-z0-9]*(?:_[A-Za-z0-9]+)+", name):
        return name
    words = [OLD_WORDS.get(w, w) for w in re.split("[-_]" if name[0].isupper() else "-", name)]
    if not all(re.fullmatch(r"[A-Za-z_0-9']+", w) for w in words):
        return name
    if name[0].isupper():
        return "".join(w[:1].upper() + w[1:] for w in words)
    return "_".join(words)


def declared(paths):
    names = {}
    for path in paths:
        for line in open(path, encoding="utf-8"):
            if line.lstrip().startswith("--"):
                continue
            for name in DERIVED.findall(line) + (ALIAS.findall(line) if re.match(r"\s*(?:ghost\s+|pub\s+)?use\b", line) else []):
                names[name] = spelled(name)
            m = DECLARED.match(line)
            if not m or re.search(r"\bgoal\.", m.group(2)):
                continue
            for name in m.group(1).split():
                names[name] = spelled(name)
    made = set()
    for path in paths:
        made |= set(re.findall(r"\bgoal\.(" + TOKEN.pattern + ")", open(path, encoding="utf-8").read()))
    return {old: new for old, new in names.items() if old != new and old not in made}


def aliases(paths):
    return {name for path in paths for name in ALIAS.findall(open(path, encoding="utf-8").read())}


def borrowed(text):
    """What a file takes from a library, under the name that it has there: such a name is not this repository's."""
    found = set()
    for items in re.findall(r"\buse\s+(?:Rattle\.std|borrow|logic|Prim)\b[^{;\n]*\{([^}]*)\}", text):
        found |= {i.strip() for i in items.split(",") if " as " not in i}
    return found


def turned(text, names, comment):
    """The text with the names respelled, comments and strings left as they are."""
    out = []
    for line in text.split("\n"):
        code, mark, rest = line, "", ""
        at = line.find(comment)
        if at >= 0:
            code, rest = line[:at], line[at:]
        parts = code.split('"')
        for i in range(0, len(parts), 2):
            parts[i] = TOKEN.sub(lambda m: names.get(m.group(0), m.group(0)), parts[i])
        out.append('"'.join(parts) + rest)
    return "\n".join(out)


def clauses_turned(text, names):
    """Rust-like code: only clauses, ghost items and ghost imports have names of specs/."""
    out, depth, inside = [], 0, False
    for line in text.split("\n"):
        start = re.match(r"\s*(?:pub\s+)?(?:ghost\b|requires\b|ensures\b)", line)
        if start or inside:
            out.append(turned(line, names, "//"))
            depth += line.count("{") - line.count("}")
            inside = depth > 0
            if not inside:
                depth = 0
        else:
            out.append(re.sub(r"^(.*?\b(?:requires|ensures)\b.*)$", lambda m: turned(m.group(1), names, "//"), line) if re.search(r"\b(?:requires|ensures)\b", line) else line)
    return "\n".join(out)


def main():
    paths = files()
    sources = sorted(glob.glob("crates/*/src/**/*.rt", recursive=True))
    names = declared(paths) | {old: new for old, new in declared(sources).items() if old in aliases(sources)}
    texts = {p: open(p, encoding="utf-8").read() for p in paths + sources}
    new_names = {}
    for old, new in names.items():
        new_names.setdefault(new, []).append(old)
    bad = [f"{' and '.join(olds)} would both be {new}" for new, olds in new_names.items() if len(olds) > 1]
    for path, text in texts.items():
        if path.endswith(".rt"):
            used = set(TOKEN.findall(text))
            for old in used & set(names):
                if re.search(r"[(,]\s*(?:mut\s+)?" + re.escape(names[old]) + r"\s*:", text):
                    bad.append(f"{path}: a parameter is called {names[old]}, as {old} would be")
            continue
        used = set()
        for line in text.split("\n"):
            used |= set(TOKEN.findall(re.sub(r"\bRattle(?:\.[\w+]+)+", "", line.split("--")[0])))
        for old in used & set(names):
            if names[old] in used:
                bad.append(f"{path}: {old} would fall together with {names[old]}")
    if "--list" in sys.argv:
        for old, new in sorted(names.items()):
            print(old, new)
        return
    if bad:
        print("\n".join(sorted(bad)))
        sys.exit(1)
    for path, text in texts.items():
        kept = borrowed(text)
        own = {old: new for old, new in names.items() if old not in kept}
        new = clauses_turned(text, own) if path.endswith(".rt") else turned(text, own, "--")
        if new != text:
            with open(path, "w", encoding="utf-8") as f:
                f.write(new)
    print(f"{len(names)} names respelled")


main()
