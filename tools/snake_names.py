#!/usr/bin/env python3
"""Brings the names that this repository's specs/ and proofs/ declare to one spelling: words in snake case, types and facts in camel case.

usage: tools/snake_names.py [--dry]     at the top, once, right after the kit's port.py

A definition or lemma such as `newlineIn` or `length-on` becomes `newline_in`, `length_on`; a statement such as
`More-marks-mark-more` becomes `MoreMarksMarkMore`. Names of src/, goals that the kit makes and strings keep their spelling.
EXCEPT holds the names for which that would meet another name. The library's AllByRecursion is used under its own name, and not as All.
"""

import glob
import re
import sys

N = r"[^\s(){}.;,@\"«»:]+"
DECLARED = re.compile(
    r"^(?P<indent>\s*)(?:abbrev |unfoldable |pub |data |record |mutual )*(?P<name>"
    + N
    + r")(?: \{[^{}\n]*\}| \([^()\n]*\))* :(?!:)\s*(?P<type>.*)$"
)
EXCEPT = {
    # a field of the code is called matches_newline
    "matchesNewline": "has_newline",
    # functions and a field of the code have the plain names
    "faultAtEnd": "final_fault",
    "ifNamed": "capturing_if",
    "lookaroundDepth": "depth_in_lookaround",
    # lemmas beside a definition of that name
    "blank-more": "blank_more_lem",
    "entries-size": "entries_size_lem",
    "first-unit": "first_unit_lem",
    "goes-from": "goes_from_lem",
    "grammar-of": "grammar_of_lem",
    "in-last": "in_last_lem",
    "is-pop": "is_pop_lem",
    "items-size": "items_size_lem",
    "linked-pair": "linked_pair_lem",
    "named-pair": "named_pair_lem",
    "same-scope": "same_scope_lem",
    "number-of": "number_of_lem",
    # a definition beside a lemma of that name
    "noneAfter": "has_none_after",
}


# declared by a `deriving .. as`, ghost members of a trait, bound names
ALSO = {"value-discrete", "placeCount", "pairCount", "pairAt", "room-places", "room-pairs", "noNewlines", "characterOf"}


def is_old(name):
    return "-" in name or (not name[0].isupper() and re.search(r"[a-z0-9][A-Z]", name))


def respelled(name):
    if name in EXCEPT:
        return EXCEPT[name]
    if name[0].isupper():
        return "".join(w[0].upper() + w[1:] for w in name.split("-"))
    return re.sub(r"(?<=[a-z0-9])[A-Z]", lambda m: "_" + m[0].lower(), name).replace("-", "_")


def antt_files():
    return sorted(
        glob.glob("crates/*/specs/**/*.antt", recursive=True)
        + glob.glob("crates/*/proofs/**/*.antt", recursive=True)
    )


def declared():
    names = set(ALSO)
    for path in antt_files():
        for line in open(path, encoding="utf-8"):
            if re.match(r"\s*(use|open)\s|\s*--", line):
                continue
            m = DECLARED.match(line)
            if m and not re.match(r"goal\.", m["type"]) and is_old(m["name"]):
                names.add(m["name"])
    return names


def pattern(names):
    alternatives = "|".join(sorted(map(re.escape, names), key=len, reverse=True))
    return re.compile(r"(?<![^\s(){}.;,@\"«»:`⌜])(?:" + alternatives + r")(?![^\s(){}.;,@\"«»:`⌝])")


def files():
    return antt_files() + sorted(glob.glob("crates/*/src/**/*.rt", recursive=True))


def library_names():
    # All is another word of the library's
    for path in files():
        text = open(path, encoding="utf-8").read()
        if "AllByRecursion as All" not in text:
            continue
        text = text.replace("AllByRecursion as All", "AllByRecursion")
        text = re.sub(r"(?<![\w\-'])All(?![\w'\-])", "AllByRecursion", text)
        if "--dry" not in sys.argv:
            open(path, "w", encoding="utf-8").write(text)


def main():
    library_names()
    names = declared()
    table = {n: respelled(n) for n in names}
    seen = {}
    for old, new in sorted(table.items()):
        if new in seen:
            print(f"look: {old} and {seen[new]} both become {new}")
        seen[new] = old
    words = re.compile(N)
    it = pattern(names)
    changed = 0
    for path in files():
        text = open(path, encoding="utf-8").read()
        here = set(words.findall(text))
        own = {n for n in names if n in here}
        for old in sorted(own):
            if table[old] in here:
                print(f"look: {path}: {old} becomes {table[old]}, which stands there")
        out = it.sub(lambda m: table[m[0]], text)
        if out != text:
            changed += 1
            if "--dry" not in sys.argv:
                open(path, "w", encoding="utf-8").write(out)
    print(f"{len(names)} names, {changed} files")


main()
