#!/usr/bin/env python3
"""Brings this repository's own definitions and lemmas to today's spelling, once, right after port.py.

usage: python3 tools/respell.py         at the top of the repository, or with a folder as its argument
       python3 tools/respell.py --list  prints what it would rename, a line each, and changes nothing

A definition, a lemma, a field, a constructor and a local name is in snake case, and a prime is an apostrophe: `sqrtOf`
becomes `sqrt_of`, `the-nearest` `the_nearest`, and a lemma that would then have its definition's name gets `_lem`. What begins with a capital (types, records, statements, modules) stays.
Names of the library stay, and so do the names that the check makes of a function's source (goals, steps): in a file
below proofs/F/ only names that stand in a file outside such a folder are turned.
"""
import os
import re
import sys

# a name of antt: whatever stands between spaces, brackets and dots
NAME = re.compile(r"[^\s(){}\[\],;.:\"«»@|`]+")
HUMP = re.compile(r"(?<=[a-z0-9])([A-Z])")
USE = re.compile(r"(?:pub )?(?:ghost )?use ([\w.·'+-]+)\.\{([^}]*)\}", re.S)


def turned(name):
    """The name in today's spelling."""
    if not re.match(r"[a-z]", name) or not re.fullmatch(r"[\w'′₀-₉-]+", name):
        return name
    return HUMP.sub(lambda m: "_" + m.group(1).lower(), name).replace("-", "_").replace("′", "'")


def sources(root):
    for folder, dirs, files in os.walk(os.path.join(root, "crates")):
        dirs[:] = sorted(d for d in dirs if d not in ("out", "must-fail"))
        for f in sorted(files):
            if f.endswith((".antt", ".rt")):
                yield os.path.join(folder, f)


def read(path):
    with open(path, encoding="utf-8") as f:
        return f.read()


def crates(root):
    with open(os.path.join(root, "crates.txt"), encoding="utf-8") as f:
        return {line.split(":")[0].split()[0] for line in f if ":" in line and not line.startswith("#")}


def imported(text, own):
    """Names that a file takes from the library."""
    names = set()
    for path, items in USE.findall(text):
        parts = path.split(".")
        if parts[0] == "Rattle" and len(parts) > 1 and parts[1] in own:
            continue
        for item in items.split(","):
            for word in item.replace(" as ", " ").split():
                names.add(word)
    return names


def of_a_function(path):
    """Whether the file lies in a folder of proofs/ that is named after a function."""
    return re.search(r"/proofs/.+/", path) is not None


def declared(text):
    """Names that a file of antt declares: before `:`, as a field, a constructor, a parameter, in a `where`."""
    names = set()
    for line in text.splitlines():
        line = line.split("--")[0]
        m = re.match(r"\s*(?:abbrev |unfoldable )?(?:pub )?(?:abbrev |unfoldable )?((?:[^\s(){}:]+ )+): ", line)
        if m:
            names.update(m.group(1).split())
        for group in re.findall(r"[({]((?:[^\s(){}:]+ )+): ", line):
            names.update(group.split())
        for group in re.findall(r"λ ((?:[^\s(){}:.]+ ?)+)\.", line):
            names.update(group.split())
        names.update(re.findall(r"\blet ([^\s:=]+) ", line))
        m = re.match(r"([^\s(){}:=]+) ([^=:]*)=", line)
        if m:
            names.update(NAME.findall(m.group(2)))
    return names


def table(root):
    own = crates(root)
    mine, theirs = set(), set()
    for path in sources(root):
        text = read(path)
        theirs |= imported(text, own)
        if path.endswith(".antt") and not of_a_function(path):
            mine |= declared(text)
    names = {n: turned(n) for n in sorted(mine) if turned(n) != n}
    # a parameter has the name `to_end`; and where port.py took a lemma for a word of the library, its name is now its
    # definition's
    names |= {"toEnd": "order_to_end", "leaves_by": "leaves_by_lem", "deep_in": "deep_in_lem", "is-nan": "is_nan_lem"}
    # a lemma that would have its definition's name gets `_lem`
    for name in [n for n in names if "-" in n]:
        if names[name] in mine or any(other != name and new == names[name] for other, new in names.items()):
            names[name] += "_lem"
    return names, theirs, own


def pages(root):
    """The pages and scripts that speak of names."""
    yield os.path.join(root, "README.md")
    for folder in ("docs", "bindings", "compare", "tests", ".ci"):
        for where, dirs, files in os.walk(os.path.join(root, folder)):
            for f in sorted(files):
                if f.endswith(".md") or folder == ".ci":
                    yield os.path.join(where, f)


def code(text, names):
    return NAME.sub(lambda m: names.get(m.group(), m.group()), text)


def comment(text, names):
    """A comment's names stand between backquotes."""
    return re.sub(r"`[^`]*`", lambda m: code(m.group(), names), text)


def respelled(path, text, names):
    lines = []
    if path.endswith(".antt"):
        for line in text.split("\n"):
            body, mark, rest = line.partition("--")
            lines.append(code(body, names) + mark + comment(rest, names))
        return "\n".join(lines)
    # code of Rust has no such names: what a source file has of them stands in its clauses and imports
    for line in text.split("\n"):
        body, mark, rest = line.partition("//")
        lines.append(code(body, names) + mark + comment(rest, names))
    return "\n".join(lines)


def main(argv):
    only_list = "--list" in argv
    rest = [a for a in argv if a != "--list"]
    root = rest[0] if rest else "."
    if os.path.exists(os.path.join(root, "docs", "PORT.md")):
        sys.exit("respell: docs/PORT.md is there, so the names of this tree are turned already")
    names, theirs, own = table(root)
    if only_list:
        for old, new in names.items():
            print(old, new, "(also of the library)" if old in theirs else "")
        return 0
    for path in sources(root):
        text = read(path)
        kept = imported(text, own)
        here = {old: new for old, new in names.items() if old not in kept}
        before = set(NAME.findall(text))
        for old, new in here.items():
            if old in before and new in before:
                print(f"fall together: {path}: {old} and {new}")
        out = respelled(path, text, here)
        if out != text:
            with open(path, "w", encoding="utf-8") as f:
                f.write(out)
    for path in pages(root):
        text = read(path)
        out = code(text, names) if path.endswith("every-demand") else comment(text, names)
        if out != text:
            with open(path, "w", encoding="utf-8") as f:
                f.write(out)
    return 0


if __name__ == "__main__":
    raise SystemExit(main(sys.argv[1:]))
