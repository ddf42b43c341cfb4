#!/usr/bin/env python3
"""Respells this repository's own definitions and lemmas: words joined by dashes become words joined by underscores.

usage: python3 tools/snake_case_names.py          at the top of the checkout, once

It reads which names the files of specs/ and proofs/ define, and leaves other names as they are: those of the library, and
those of goals, unless one is spelled like a name that is defined. Where two of its names would fall together it writes
nothing; where the new spelling of one stands somewhere already, as in the path of a proof, it says so and goes on. Code,
strings and comments keep their words: of a .rt file only clauses, ghost items and ghost imports are turned.
"""

import os
import re
import sys

# what may stand in a name, so that a name is not found inside a longer one
PART = r"\w\-'′≢≡≤<≥∷⊎◌"
DASHED = r"([a-zA-Z][\w'′]*(?:-[\w'′]+)+)"
DEFINED = re.compile(rf"^\s*(?:(?:pub|abbrev|unfoldable|rec|data|record)\s+)*{DASHED}\s*:(?!=)")
LOCAL = re.compile(rf"\blet\s+{DASHED}\s*[:=]")
GOAL = re.compile(r"\s:\s*goal\.")


def files(root, ending):
    for folder, dirs, names in os.walk(os.path.join(root, "crates")):
        dirs[:] = sorted(d for d in dirs if d != "out")
        for name in sorted(names):
            if name.endswith(ending):
                yield os.path.join(folder, name)


def read(path):
    with open(path, encoding="utf-8") as f:
        return f.read()


def own_names(root):
    """The names with dashes that are defined here and are no goal's name."""
    names = set()
    for path in files(root, ".antt"):
        text = read(path)
        for line in text.splitlines():
            if GOAL.search(line):
                continue
            found = DEFINED.match(line)
            if found:
                names.add(found.group(1))
            names.update(LOCAL.findall(line))
    return names


def whole(name):
    return re.compile(rf"(?<![{PART}]){re.escape(name)}(?![{PART}])")


def code_parts(line):
    """The line without its comment, and the comment."""
    at = line.find("//")
    return (line, "") if at < 0 else (line[:at], line[at:])


def turned_source(text, turn):
    """A .rt file with its ghost parts turned: ghost items and imports, and what stands between braces of a clause."""
    out, depth, inside = [], 0, False
    for line in text.split("\n"):
        code, comment = code_parts(line)
        starts = re.match(r"\s*(ghost\b|requires\b|ensures\b|pub ghost\b)", code)
        if starts or inside:
            code = turn(code)
            depth += code.count("{") - code.count("}")
            inside = depth > 0
            if not inside:
                depth = 0
        out.append(code + comment)
    return "\n".join(out)


def turned_proof(text, turn):
    """An .antt file with its code turned and its comments as they are."""
    out = []
    for line in text.split("\n"):
        at = line.find("--")
        code, comment = (line, "") if at < 0 else (line[:at], line[at:])
        out.append(turn(code) + comment)
    return "\n".join(out)


def main():
    root = os.getcwd()
    names = own_names(root)
    every = "\n".join(read(p) for p in files(root, ".antt"))
    for name in sorted(names):
        if whole(name.replace("-", "_")).search(every):
            print(f"stands already: {name.replace('-', '_')}, from {name}", file=sys.stderr)
    spelled = {}
    for name in names:
        spelled.setdefault(name.replace("-", "_"), []).append(name)
    together = [v for v in spelled.values() if len(v) > 1]
    if together:
        sys.exit(f"names would fall together: {together}")
    patterns = [(whole(n), n.replace("-", "_")) for n in sorted(names, key=len, reverse=True)]

    def turn(code):
        for pattern, new in patterns:
            code = pattern.sub(new, code)
        return code

    changed = 0
    for ending, turned in ((".antt", turned_proof), (".rt", turned_source)):
        for path in files(root, ending):
            old = read(path)
            new = turned(old, turn)
            if new != old:
                with open(path, "w", encoding="utf-8") as f:
                    f.write(new)
                changed += 1
    print(f"{len(names)} names, {changed} files")


if __name__ == "__main__":
    main()
