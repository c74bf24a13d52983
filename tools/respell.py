#!/usr/bin/env python3
"""Brings the names that this repository declares in specs/ and proofs/ to one spelling: words in snake case, types in camel case.

usage: python3 tools/respell.py     at the top of the repository, once, on files that the kit's own port.py has turned

A definition, lemma, field or bound name of specs/*.antt and proofs/*.antt with a dash in it is respelled: first-bad becomes
first_bad, Back-to-back becomes BackToBack. Names of the library, names that the check makes of a function's code, functions,
strings and inputs stay as they are. Where two names would fall together nothing is written.
"""

import os
import re
import sys

NAME = re.compile(r"(?<![\w'-])[A-Za-z]\w*'*(?:-\w+'*)+(?![\w'-])")
DECLARED = re.compile(r"^(?:  )?(?:(?:abbrev|unfoldable|pub|data|record) )*([A-Za-z][\w'-]*)[^:]*:(?:\s|$)")
IMPORT = re.compile(r"^\s*(?:ghost |pub )*use (\S+?)\.\{([^}]*)\}")
STRING = re.compile(r'"(?:[^"\\]|\\.)*"')


def files():
    for folder, below, names in os.walk("crates"):
        below[:] = sorted(b for b in below if b not in ("out", "must-fail", "data"))
        for name in sorted(names):
            if name.endswith((".antt", ".rt")):
                yield os.path.join(folder, name)


def is_own(path):
    """Whether the file is one of specs/ or a lemma file of proofs/, as opposed to the answers of one function."""
    return path.endswith(".antt") and os.path.basename(os.path.dirname(path)) in ("specs", "proofs")


def respelled(name):
    parts = name.split("-")
    if name[0].isupper():
        return parts[0] + "".join(p[0].upper() + p[1:] for p in parts[1:])
    return "_".join(parts)


def code_of(path, line):
    """The line cut into (is code, text): what is a comment or a string is not code."""
    mark = "--" if path.endswith(".antt") else "//"
    cut = re.search(r"(?:(?<=\s)|^)" + mark, line)
    code, comment = (line[: cut.start()], line[cut.start() :]) if cut else (line, "")
    pieces, at = [], 0
    for s in STRING.finditer(code):
        pieces += [(True, code[at : s.start()]), (False, s.group())]
        at = s.end()
    return pieces + [(True, code[at:])], comment


def imported(lines):
    """The names that a file imports from elsewhere than this repository's own crates."""
    found = set()
    for line in lines:
        m = IMPORT.match(line)
        if m and m.group(1).split(".")[:2][-1] in OWN:
            continue
        if m:
            for name in m.group(2).split(","):
                found.update(w.strip() for w in name.split(" as "))
    return found


OWN = {c for c in os.listdir("crates") if os.path.isdir(os.path.join("crates", c))}


def main():
    texts = {}
    for path in files():
        with open(path, encoding="utf-8") as f:
            texts[path] = f.read().split("\n")

    declared, present = set(), set()
    for path, lines in texts.items():
        outside = imported(lines)
        for line in lines:
            pieces, _ = code_of(path, line)
            for is_code, text in pieces:
                if is_code:
                    present.update(re.findall(r"[A-Za-z][\w'-]*", text))
                    if is_own(path):
                        declared.update(n for n in NAME.findall(text) if n not in outside)
            m = DECLARED.match(line)
            if is_own(path) and m and "-" in m.group(1):
                declared.add(m.group(1))

    new = {name: respelled(name) for name in declared}
    clashes = sorted(n for n, to in new.items() if to in present or list(new.values()).count(to) > 1)
    for name in clashes:
        print(f"{name} would fall together with {new[name]}", file=sys.stderr)
    if clashes:
        return 1

    for path, lines in texts.items():
        outside = imported(lines)

        def turn(m):
            return m.group() if m.group() in outside else new.get(m.group(), m.group())

        out = []
        for line in lines:
            pieces, comment = code_of(path, line)
            code = "".join(NAME.sub(turn, text) if is_code else text for is_code, text in pieces)
            out.append(code + re.sub(r"`[^`]*`", lambda q: NAME.sub(turn, q.group()), comment))
        if out != lines:
            with open(path, "w", encoding="utf-8") as f:
                f.write("\n".join(out))
    for name in sorted(new):
        print(f"{name} -> {new[name]}")
    return 0


if __name__ == "__main__":
    sys.exit(main())
