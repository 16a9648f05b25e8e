#!/usr/bin/env python3
"""Lists the places in src/ of the older forms that docs/DESIGN-PASS.md counts, point by point.

    tools/count_forms.py [-v] [FOLDER]

Without -v only the counts are printed. It goes by the text: a place that it lists may be right as it is, and then the
page or a line beside it says why.
"""

import pathlib
import re
import sys

VERBOSE = "-v" in sys.argv
ARGS = [a for a in sys.argv[1:] if a != "-v"]
ROOT = pathlib.Path(ARGS[0] if ARGS else ".")

CLAUSE = re.compile(r"^\s*(requires|ensures|ghost)\b|^\s*//")
WIDTH = r"(?:u8|u16|u32|u64|usize|i64)"

LINES = {
    "1 a flag or a refusal beside a value": r"-> \(.*\b(?:Option|bool)\b.*\)",
    "1 a number for a kind": r"\bkind (?:==|!=|<|>|<=|>=) \d|push_node\((?:\d|if )|Some\(\(\d|-> Option<\(u32|kind: u32|from_number",
    "1 a number for a verdict or a fault": r"(?:number|verdict): u8|-> u8\b",
    "3 a place counted by hand": r"^\s*(?:let mut )?(?:i|place|end|line|count|length|key|child|done|from|next|index|depth) (?:\+=|=) (?!.*\bmatch\b).*;",
    "3 a while over a place": r"\bwhile (?!let).*(?:<|is_empty)",
    "3 a for over numbers of a slice": r"\bfor \w+ in \w+\.\.\w+(?:\.len\(\))?",
    "3 a match that a method says": r"Ok\(\(\)\) => Ok\(\(\)\)|None => None|Some\(\w+\) => Some|Ok\(\w+\) => Ok\(|Err\(_\) => Err|Err\(\w+\) => Err|None => Ok\(\(\)\)",
    "3 a let-else that `?` says": r"\} else \{ return|else \{$",
    "4 words, conversions and comparisons by hand": r"\bfn (?:\w+_words?|kind_word|from_number|number|is_same\w*|starts_with|placed|hex_digit|behind)\b",
    "6 vectors side by side": r"^\s*(?:pub(?:\(crate\))? )?(?:heads|nexts|nodes|text|keys|open|ends|queue|places|pairs): ",
    "7 a switch on the step": r"match self\.(?:wants|class|state)\b|match \(self\.state",
}


def sources():
    for path in sorted(ROOT.glob("crates/*/src/**/*.rt")):
        yield path, path.read_text().splitlines()


def by_line(name, pattern):
    found = []
    for path, lines in sources():
        if path.parts[-3].endswith("_tests") or path.name == "tests.rt":
            continue
        for number, line in enumerate(lines, 1):
            if CLAUSE.match(line):
                continue
            if re.search(pattern, line):
                if name.startswith("3 a let-else") and not re.match(r"\s*let (?:Some|Ok)\(", line):
                    continue
                found.append((path, number, line.strip()))
    return found


def loops():
    """Loops that write to a buffer and take back what they wrote."""
    found = []
    for path, lines in sources():
        for number, line in enumerate(lines, 1):
            if ".truncate(before)" in line or re.search(r"^\s*entries\.clear\(\);", line):
                found.append((path, number, line.strip()))
    return found


def repeated_clauses():
    """The text of a `requires` that stands in three or more functions of a crate."""
    found = []
    crates = {}
    for path, lines in sources():
        crate = path.relative_to(ROOT).parts[1]
        for number, line in enumerate(lines, 1):
            match = re.match(r"\s*requires (?:\w+ )?\{ (.*) \}", line)
            if match:
                crates.setdefault((crate, match.group(1)), []).append((path, number))
    for (crate, text), places in sorted(crates.items()):
        if len(places) >= 3:
            for path, number in places:
                found.append((path, number, text))
    return found


def travelling():
    """Two or more parameters that three or more functions of a crate share."""
    heads = {}
    for path, lines in sources():
        crate = path.relative_to(ROOT).parts[1]
        text = "\n".join(lines)
        for match in re.finditer(r"\bfn (\w+)(?:<[^{(]*?>)?\(([^)]*)\)", text):
            names = re.findall(r"(\w+): ", match.group(2))
            number = text[: match.start()].count("\n") + 1
            for i, one in enumerate(names):
                for other in names[i + 1 :]:
                    heads.setdefault((crate, one, other), []).append((path, number, match.group(1)))
    found = []
    for (crate, one, other), places in sorted(heads.items()):
        if len(places) >= 3:
            found.append((places[0][0], places[0][1], f"{one}, {other} in {len(places)} functions"))
    return found


def show(name, found):
    print(f"{len(found):4}  {name}")
    if VERBOSE:
        for path, number, line in found:
            print(f"        {path.relative_to(ROOT)}:{number}: {line}")


def main():
    for name, pattern in LINES.items():
        show(name, by_line(name, pattern))
        if name.startswith("1 a number for a verdict"):
            show("2 loops that write and take back", loops())
        if name.startswith("4"):
            show("5 a requires in three or more functions", repeated_clauses())
            show("5 parameters that travel together (pairs of names)", travelling())


main()
