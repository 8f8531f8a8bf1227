#!/usr/bin/env python3
"""Brings this repository's own names to the spelling of today's Rattle, behind the kit's port.py: run once, at the top of the checkout.

    lowerCamel words of definitions, lemmas, fields and variables  ->  lower_camel
    fields and constructors with a dash                            ->  with an underscore
    an import under a dotted name, as Gate·input                   ->  gate_input

Functions, types and fields of src/ keep their names, and so do lemmas whose parts a dash joins. Where two names would fall together, the names in
ASIDE step aside first. Sources, definitions, proofs, must-fail edits and pages are turned; it prints what would fall together and then turns nothing.
"""
import os
import re
import sys

WORD = r'[^\s(){}.;,@"«»\[\]\\`|:?!\'’“”…]+'
# A name that would fall together with a definition that comes to it, or else needs another: in which files, the name, and what it is called from now on.
ASIDE = [
    (r"crates/(gate_order|demands)/proofs/", "test_at", "test_at_lem"),
    (r"crates/reading/proofs/", "as_read", "as_read_lem"),
    (r"crates/drawn_tree/proofs/", "as_read", "as_read_lem"),
    (r"crates/demands/proofs/Report\.antt", "load_line", "load_line_lem"),
    (r"crates/writing/proofs/Longest\.antt", "component_bytes", "size_of_component"),
    # This one the kit's script spelled by halves.
    (r"crates/", "get_d_tabulate", "get_or-tabulate"),
]
# Members that would fall together with a definition by the rule.
MEMBERS = {"no-gates": "without_gates", "no-gate": "no_gate_behind", "first-breach": "is_first_breach", "as-given": "is_as_given"}
# English in comments that is written like the name of a member.
ENGLISH = r"(?!well-drawn trees?\b)"
# A word of the older library in the names of lemmas about it, as today's library calls it.
OLDER = re.compile(r"\bgetD[-_](?=\w)")


def files():
    for folder, dirs, names in os.walk("."):
        dirs[:] = sorted(d for d in dirs if d not in (".git", "out", "target", "harness", "tools", "studies"))
        for name in sorted(names):
            path = os.path.relpath(os.path.join(folder, name))
            if name.endswith((".antt", ".rt", ".edit")) or (name.endswith(".md") and not path.startswith("docs/PORT")):
                yield path


def is_proof_text(path):
    return path.startswith("crates/") and path.endswith((".antt", ".rt"))


def bare(text):
    return re.sub(r"(--|//)[^\n]*", "", text)


def snake(word):
    if word[0].isupper():
        return word
    return re.sub(r"(?<=[A-Za-z0-9])[A-Z]", lambda m: "_" + m[0].lower(), word)


def turned(word):
    word = OLDER.sub("get_or-", word)
    if "·" in word:
        return "_".join(snake(p[0].lower() + p[1:]) for p in word.split("·"))
    return "-".join(snake(p) if p else p for p in word.split("-"))


def dashed_members(text):
    """The fields of records and the constructors of data types whose names have a dash."""
    found, inside, depth = set(), False, 0
    for line in text.split("\n"):
        head = re.match(r"(\s*)(?:pub )?(?:record|data) ", line)
        indent = len(line) - len(line.lstrip())
        if head:
            inside, depth = True, len(head[1])
        elif inside and line.strip() and indent <= depth:
            inside = False
        elif inside:
            names = line.strip().removeprefix("pub ").partition(" :")[0].split()
            if " :" in line and all(re.fullmatch(WORD, w) for w in names):
                found |= {w for w in names if "-" in w}
    return found


def main():
    texts = {path: open(path, encoding="utf-8").read() for path in files()}
    for path in texts:
        for place, old, new in ASIDE:
            if re.match(place, path) and path.endswith(".antt"):
                texts[path] = re.sub(rf"(?<![\w.·-]){old}(?![\w·-])", new, texts[path])
    words, members = set(), set()
    for path, text in texts.items():
        if is_proof_text(path):
            words |= set(re.findall(WORD, bare(text)))
            members |= dashed_members(bare(text)) if path.endswith(".antt") else set()
    lower = {w for w in words if re.search(r"(?:^|-)[a-z]\w*[a-z0-9][A-Z]", w) and not re.search(r"[/=<>]", w)}
    dotted = {w for w in words if re.fullmatch(r"[A-Z]\w*·[a-z]\w*", w)}
    new = {w: turned(w) for w in lower | dotted}
    new |= {w: MEMBERS.get(w, turned(w).replace("-", "_")) for w in members}
    together = {}
    for old, now in new.items():
        together.setdefault(now, []).append(old)
    falls = {now: olds for now, olds in together.items() if len(olds) > 1}
    if falls:
        print("these would fall together:", falls)
        return 1
    each = re.compile(r"(?<![\w·′-])" + ENGLISH + r"(" + "|".join(sorted(map(re.escape, new), key=len, reverse=True)) + r")(?![\w·′-])")
    changed = 0
    for path, text in texts.items():
        now = each.sub(lambda m: new[m[1]], text)
        if now != open(path, encoding="utf-8").read():
            changed += 1
            with open(path, "w", encoding="utf-8") as file:
                file.write(now)
    print(f"{len(new)} names, {changed} files")
    return 0


if __name__ == "__main__":
    sys.exit(main())
