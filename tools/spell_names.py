#!/usr/bin/env python3
"""Spells the definitions and lemmas that this repository declares as today's library does: types in upper camel case, all else in snake case.

usage: python3 tools/spell_names.py [ROOT]

Names come from specs/ and proofs/ of each crate. A goal that the toolchain names is left as it is, and so is every name of the library and of src/.
A name whose new spelling stands somewhere already keeps the old one, and a line says so.
It is run once, right after the toolchain's own script.
"""

import os
import re
import sys

LETTER = r'[^\s(){}.;,@"«»`]'
MARKS = r"(?:(?:unfoldable|abbrev|pub|pattern|data|record) )*"
SIGNATURE = re.compile(rf"(?m)^( *)({MARKS})({LETTER}+)((?: \{{[^{{}}\n]*\}}| \([^()\n]*(?:\([^()\n]*\)[^()\n]*)*\))*) : (.*)$")
WORDS = {"use", "mod", "module", "unfolding", "let", "in", "elim", "λ"}
TURNED = (".antt", ".rt", ".edit", ".md")
# Names that the rule would leave as they are, since the new spelling stands already: as a method's that the word mirrors, or as another word's.
CHOSEN = {
    "Round-trip": "RoundTrip",
    "addsTo": "adds_to",
    "allStill": "all_still",
    "blankBook": "empty_book",
    "mayAdd": "may_add",
    "mayRemove": "may_remove",
    "no-row": "no_row",
    "none-trusted": "nobody_trusted",
    "with-edge": "with_edges",
    "withEdge": "with_edge",
    "allRoles": "all_roles",
    "bit-and": "bit-bit_and",
    "bit-or": "bit-bit_or",
    "fixedSide": "fixed_side",
    "in-range": "in_range_lem",
    "in-set": "in_set",
    "isRoleNode": "is_role_node",
    "isUsed": "is_used",
    "nothing-lost": "nothing_lost_lem",
    "semi-static": "is_semi_static",
    "semiStatic": "semi_static",
}
# A lemma that would have its function's name.
LEMMAS = ["acts-by", "all-still", "as-condition", "has-given", "in-test", "member-test", "no-role", "no-rule", "role-of", "state-at", "user-step", "whole-needs"]
CHOSEN |= {name: name.replace("-", "_") + "_lem" for name in LEMMAS}


def files(root):
    for folder, dirs, names in os.walk(root):
        dirs[:] = sorted(d for d in dirs if d not in ("out", ".git", "target", "tools"))
        for name in sorted(names):
            if name.endswith(TURNED):
                yield os.path.join(folder, name)


def is_type(result):
    return re.fullmatch(r"(.*→ )?Type [01]( where)?", result.strip()) is not None


def turned(name, typed):
    """The name in today's spelling."""
    if typed or name[:1].isupper():
        return "".join(p[:1].upper() + p[1:] for p in name.split("-"))
    return re.sub(r"(?<=[a-z0-9])([A-Z])", lambda m: "_" + m[1].lower(), name).replace("-", "_")


def declared(texts):
    found = {}
    for path, text in texts.items():
        if path.endswith((".md", ".edit")):
            continue
        bare = re.sub(r"--[^\n]*" if path.endswith(".antt") else r"//[^\n]*", "", text)
        if path.endswith(".rt"):
            bare = "\n".join(line for line in bare.split("\n") if line.startswith("ghost use "))
        for m in SIGNATURE.finditer(bare):
            indent, marks, name, _, result = m.groups()
            if name in WORDS or result.strip().startswith("goal.") or not name[:1].isalpha():
                continue
            top = not indent or marks
            found[name] = found.get(name, False) or bool(top and is_type(result) and not ("data" not in marks and "record" not in marks and indent and "abbrev" not in marks))
        for name in re.findall(rf"(?m)^(?:ghost )?use .*$", bare):
            found.update((n, False) for n in re.findall(rf" as ({LETTER}+)", name) if n[:1].islower() and n not in found and n != "goal")
    return found


def is_prose(path, text, m):
    """A plain word of a comment, a page or a string, or a step of a function, which only looks like a name."""
    line = text[text.rfind("\n", 0, m.start()) + 1 : m.start()]
    if path.endswith(".rt") and line.count('"') % 2:
        return True
    if path.endswith("Answers.antt") and line.endswith(" c."):
        return True
    spoken = path.endswith(".md") and line.count("`") % 2 == 0
    spoken = spoken or ("--" in line if path.endswith(".antt") else "//" in line and not path.endswith(".md"))
    return spoken and m[0].islower()


def main():
    root = os.path.abspath(sys.argv[1] if len(sys.argv) > 1 else ".")
    texts = {}
    for path in files(root):
        with open(path, encoding="utf-8") as f:
            texts[path] = f.read()
    tokens = set()
    for path, text in texts.items():
        if path.endswith((".antt", ".rt")):
            tokens.update(re.findall(LETTER + "+", text))
    table, kept = {}, []
    for name, typed in sorted(declared(texts).items()):
        if name in CHOSEN:
            table[name] = CHOSEN[name]
            continue
        new = turned(name, typed)
        if new == name:
            continue
        if new in tokens or new in table.values():
            kept.append((name, new))
        else:
            table[name] = new
    pattern = re.compile(rf"(?<!{LETTER})(?:{'|'.join(re.escape(n) for n in sorted(table, key=len, reverse=True))})(?!{LETTER})")
    library = re.compile(r"use (?!Rattle\.(?:%s)\.)[^;{\n]*\{([^}]*)\}" % "|".join(os.listdir(os.path.join(root, "crates"))))
    places = 0
    for path, text in texts.items():
        lent = {n.strip() for m in library.finditer(text) for n in m[1].split(",")}
        new, n = pattern.subn(lambda m: m[0] if m[0] in lent or is_prose(path, text, m) else table[m[0]], text)
        places += n
        if new != text:
            with open(path, "w", encoding="utf-8") as f:
                f.write(new)
    for name, new in kept:
        print(f"kept: {name}, since {new} stands already")
    print(f"{len(table)} names turned, in {places} places")
    if "--table" in sys.argv:
        for name in sorted(table):
            print(name, table[name])


main()
