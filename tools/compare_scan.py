#!/usr/bin/env python3
"""Compares what `patterns` writes with what syntect's own functions answer, and explains every difference.

usage: compare_scan.py PATTERNS ORACLE [FILE.sublime-syntax ...]

PATTERNS is the built program, ORACLE a program that, run as `ORACLE scan`, reads a JSON string a line and answers
for each a JSON object with what syntect makes of it: `newlines`, `no_newlines`, `consuming`, `backref`.
The texts are all those of up to five bytes over ( ) ? < > = [ ] \\ 1, texts drawn from fragments that the rules speak of
(always the same), and the patterns (the values of `match`, `escape` and of variables) of the grammars that are named.

A small model of the rules stands below, written from docs/RULES.md, with a switch for each kind of difference that
docs/DIFFERENCES.md lists. With no switch on it must answer as `patterns` does, with all of them on as syntect does, for every
text; so no difference has a cause that is not listed. What fails either is printed and makes the run fail.
"""
import itertools, json, random, re, subprocess, sys

ALPHABET = "()?<>=[]\\1"
FRAGMENTS = ["(", ")", "?", ":", "[", "]", "^", "\\", "n", "$", "#", "+", "*", "<", ">", "=", "!", "'", "P", "1", "_", "a", "\u00e9", "\u0661",
             "[:alpha:]", "[:alnum:]", "[:lower:]", "[:upper:]", "[:digit:]", "[:space:]", "(?:\\n)?", "(?#", "\\n", "(?<n>", "(?P<n>", "(?=", "(?<!"]
PROPERTIES = {"[:alpha:]": "\\p{L}", "[:alnum:]": "\\p{L}\\p{N}", "[:lower:]": "\\p{Ll}", "[:upper:]": "\\p{Lu}", "[:digit:]": "\\p{Nd}"}

# ---- the texts


def short_texts():
    for n in range(6):
        for t in itertools.product(ALPHABET, repeat=n):
            yield "".join(t)


def drawn_texts(count, seed=20261117):
    draw = random.Random(seed)
    for _ in range(count):
        yield "".join(draw.choice(FRAGMENTS) for _ in range(draw.randint(1, 9)))


def grammar_texts(paths):
    import yaml

    def walk(node):
        if isinstance(node, dict):
            for key, value in node.items():
                if key in ("match", "escape") and isinstance(value, str):
                    yield value
                elif key == "variables" and isinstance(value, dict):
                    yield from (v for v in value.values() if isinstance(v, str))
                else:
                    yield from walk(value)
        elif isinstance(node, list):
            for value in node:
                yield from walk(value)

    for path in paths:
        with open(path, encoding="utf-8") as f:
            text = f.read().replace("\t", "    ")
        try:
            yield from (t for t in walk(yaml.safe_load(text)) if "\n" not in t and "\t" not in t)
        except yaml.YAMLError as e:
            print("not read:", path, str(e).splitlines()[0])


# ---- the model: characters stand for bytes, since no rule cuts a character in two

KINDS = ["escaped backslash", "digit beyond ASCII", "named groups", "comments", "POSIX brackets", "(?:\\n)?"]


def class_end(t, i):
    """Behind the class whose `[` stands at i, and whether it matches a newline."""
    i += 1
    negated = t[i:i + 1] == "^"
    i += negated
    i += t[i:i + 1] == "]"
    depth, newline = 0, False
    while i < len(t):
        c = t[i]
        if c == "\\":
            newline |= t[i + 1:i + 2] == "n" and not negated and depth == 0
            i += 2
            continue
        i += 1
        if c == "[":
            depth += 1
        elif c == "]":
            if depth == 0:
                break
            depth -= 1
    return min(i, len(t)), newline


def token_end(t, i, on):
    """Behind the token at i, and what it is."""
    if t[i] == "\\":
        return min(i + 2, len(t)), "escape"
    if t[i] == "[":
        return class_end(t, i)[0], "class"
    if t.startswith("(?#", i) and "comments" not in on:
        j = i + 3
        while j < len(t) and t[j] != ")":
            j += 2 if t[j] == "\\" else 1
        return min(j + 1, len(t)), "comment"
    return i + 1, "plain"


def properties(t, on):
    if "POSIX brackets" in on:
        for bracket, property_ in PROPERTIES.items():
            t = t.replace(bracket, property_)
        return t
    out, i = [], 0
    while i < len(t):
        j, kind = token_end(t, i, on)
        if kind == "class":
            inner = re.sub(r"\\.|" + "|".join(map(re.escape, PROPERTIES)), lambda m: PROPERTIES.get(m.group(), m.group()), t[i + 1:j], flags=re.S)
            out.append("[" + inner)
        else:
            out.append(t[i:j])
        i = j
    return "".join(out)


def newlines(t, on):
    out, i = [], 0
    while i < len(t):
        j, kind = token_end(t, i, on)
        out.append("(?m:$)" if t[i:j] == "$" and kind == "plain" else t[i:j])
        i = j
    return "".join(out)


def no_newlines(t, on):
    if "(?:\\n)?" in on:
        t = t.replace("(?:\\n)?", "(?:$|)")
    out, i = [], 0
    while i < len(t):
        if t.startswith("(?:\\n)?", i):
            out.append("(?:$|)")
            i += 7
            continue
        j, kind = token_end(t, i, on)
        if t[i:j] == "\\n" and t[j:j + 1] not in ("?", "+", "*"):
            out.append("$")
        elif kind == "class" and class_end(t, i)[1] and t[j:j + 1] != "?":
            out.append("(?:" + t[i:j] + "|$)")
        else:
            out.append(t[i:j])
        i = j
    return "".join(out)


NAME = r"[A-Za-z0-9_\x80-\U0010ffff]+"


def captures(t, on):
    found, groups, number, i = [0], [], 0, 0
    while i < len(t):
        j, kind = token_end(t, i, on)
        if kind == "plain" and t[i] == "(":
            behind = t[i + 1:]
            lookaround = bool(re.match(r"\?(=|!|<=|<!)", behind))
            named = bool(re.match(rf"\?(<{NAME}>|'{NAME}')", behind)) and "named groups" not in on
            capturing = (behind[:1] not in ("", "?")) or behind.startswith("?P<") or named
            if capturing:
                number += 1
                if not any(groups):
                    found.append(number)
            groups.append(lookaround)
            j = i + 1 if behind[:1] != "?" else i + (4 if re.match(r"\?<[=!]", behind) else 3)
        elif kind == "plain" and t[i] == ")" and groups:
            groups.pop()
        i = j
    return ",".join(map(str, found))


def backref(t, on):
    i = 0
    while i < len(t):
        if t[i] != "\\":
            i += 1
            continue
        d = t[i + 1:i + 2]
        if d != "" and (d in "0123456789" or ("digit beyond ASCII" in on and d.isdecimal())):
            return "backref"
        i += 1 if "escaped backslash" in on else 2
    return "-"


def model(t, on):
    posix = properties(t, on)
    return [newlines(posix, on), no_newlines(posix, on), captures(t, on), backref(t, on)]


# ---- the two programs


def ours(program, texts):
    out = subprocess.run([program], input="".join(t + "\n" for t in texts).encode(), capture_output=True, check=True).stdout
    lines = out.decode().split("\n")[:-1]
    assert len(lines) == len(texts), (len(lines), len(texts))
    for text, line in zip(texts, lines):
        fields = line.split("\t")
        assert fields[0] == text and fields[5] == "ok", fields
        yield fields[1:5]


def theirs(program, texts):
    out = subprocess.run([program, "scan"], input="".join(json.dumps(t) + "\n" for t in texts).encode(), capture_output=True, check=True).stdout
    for line in out.decode().splitlines():
        a = json.loads(line)
        yield [a["newlines"], a["no_newlines"], ",".join(map(str, a["consuming"])), "backref" if a["backref"] else "-"]


FIELDS = ["with newlines", "without newlines", "captures", "backreference"]


def main():
    program, oracle, grammars = sys.argv[1], sys.argv[2], sys.argv[3:]
    short = list(short_texts())
    drawn = [t for t in dict.fromkeys(drawn_texts(200_000))]
    real = list(dict.fromkeys(grammar_texts(grammars)))
    failed = 0
    for name, texts in (("short", short), ("drawn", drawn), (f"of {len(grammars)} grammars", real)):
        counts, differ = {}, 0
        for text, mine, rust in zip(texts, ours(program, texts), theirs(oracle, texts)):
            plain, odd = model(text, set()), model(text, set(KINDS))
            if mine != plain or rust != odd:
                print("UNEXPLAINED", json.dumps(text), "ours", mine, "model", plain, "theirs", rust, "model", odd)
                failed += 1
            if mine == rust:
                continue
            differ += 1
            causes = [k for k in KINDS if model(text, {k}) != plain or model(text, set(KINDS) - {k}) != odd]
            for field, a, b in zip(FIELDS, mine, rust):
                for k in causes:
                    if a != b and (model(text, {k})[FIELDS.index(field)] != a or model(text, set(KINDS) - {k})[FIELDS.index(field)] != b):
                        counts[field, k] = counts.get((field, k), 0) + 1
        print(f"{len(texts)} texts {name}: {differ} differ")
        for (field, kind), n in sorted(counts.items()):
            print(f"{n:8}  {field}: {kind}")
    print("unexplained:", failed)
    sys.exit(1 if failed else 0)


main()
