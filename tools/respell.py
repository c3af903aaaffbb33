#!/usr/bin/env python3
"""Spells this repository's own definitions and lemmas in snake case, as the libraries are spelled.

usage: python3 tools/respell.py      at the top of the repository, once, straight after the kit's port.py

The names are those that specs/*.antt and proofs/*.antt declare. camelCase and dashes become underscores, and a name that begins
with a capital stays. Where a lemma would meet a definition, the lemma ends in _lem. Functions of src/, their fields and labels stay.
Names of the proofs of one function, below proofs/F/, are that function's own and stay too.
"""

import os
import re

NAME = r'[^\s(){}.;,@"«»]+'
DECLARED = re.compile(rf"^ *(?:(?:abbrev|unfoldable|pub|ruleset) +)*(?:(?:record|data) +)?({NAME})(?: *\{{[^{{}}\n]*\}})* +:(?: |$)")
# Lemmas that would meet a definition of the same words.
LEMMAS = {
    "cycle-from", "earliest-of", "first-full", "flow-links", "gaps-right", "is-job", "is_open", "job-part", "latest-of", "link-of",
    "link-part", "no-starts", "normal-records", "rest-fits", "starts-number",
}
# The variants of an enum under one name, which a definition is called as well.
MODULES = {"pass-read": "pass_reading", "job_read": "job_reading"}


def snake(name):
    return re.sub(r"(?<=[a-z0-9])([A-Z])", lambda m: "_" + m[1].lower(), name).replace("-", "_")


def files(root, *ends):
    for folder, dirs, names in os.walk(root):
        dirs[:] = sorted(d for d in dirs if d != "out")
        for name in sorted(names):
            if name.endswith(ends):
                yield os.path.join(folder, name)


def is_own(path):
    return re.search(r"/(specs|proofs)/[^/]+\.antt$", path) is not None


def code(line):
    """The line without its comment, and the comment."""
    at = re.search(r"(^|\s)--(\s|$)", line)
    return (line[: at.start()], line[at.start() :]) if at else (line, "")


def declared():
    names = set()
    for path in files("crates", ".antt"):
        if is_own(path):
            with open(path, encoding="utf-8") as f:
                for line in f:
                    m = DECLARED.match(code(line)[0])
                    if m:
                        names.add(m[1])
    return names


def lent(text):
    """The names that a file imports from the libraries."""
    crates = os.listdir("crates")
    names = set()
    for m in re.finditer(r"(?m)^use ([^\s{]+)\.\{([^}]*)\}", text):
        if not any(m[1].startswith(f"Rattle.{crate}.") for crate in crates):
            names |= set(re.findall(NAME, m[2]))
    return names


def turn():
    new = {}
    for name in declared():
        if name in LEMMAS:
            new[name] = snake(name) + "_lem"
        elif not name[0].isupper() and snake(name) != name:
            new[name] = snake(name)
    new |= MODULES

    def in_antt(text, inner):
        def one(m):
            # Below proofs/F/ a name behind a dot is a step or a label of Rattle's, or a name of a module of the repository's own.
            if inner and text[: m.start()].endswith(".") and not re.search(r"\b[A-Z]\w*\.$|\b(gaps|windows)\.$", text[: m.start()]):
                return m[0]
            return new.get(m[0], m[0])

        return re.sub(NAME, one, text)

    def in_words(text):
        """Names in camel case anywhere in a comment or a page, and the others between backticks."""
        text = re.sub(r"`([^`\n]+)`", lambda m: "`" + in_antt(m[1], False) + "`", text)
        return re.sub(r"(?<![\w-])[a-z]+[A-Z]\w*", lambda m: new.get(m[0], m[0]), text)

    def in_ghost(text):
        """Rust has no camel case that begins small, and no dash in a name."""
        return re.sub(r"(?<![\w.-])([a-z]\w*(?:-\w+)*)(?![\w-])|(?<=\b(?:gaps)\.)(\w+)|(?<=\bwindows\.)(\w+)", lambda m: new.get(m[0], m[0]) if re.search(r"[A-Z-]", m[0]) else m[0], text)

    for path in files("crates", ".antt"):
        with open(path, encoding="utf-8") as f:
            old = f.read()
        kept = {name: new.pop(name) for name in lent(old) if name in new}
        lines = []
        for line in old.split("\n"):
            text, comment = code(line)
            lines.append(in_antt(text, not is_own(path)) + in_words(comment))
        new |= kept
        write(path, old, "\n".join(lines))
    for path in files("crates", ".rt"):
        with open(path, encoding="utf-8") as f:
            old = f.read()
        write(path, old, "\n".join(in_words(l) if l.lstrip().startswith("//") else in_ghost(l) for l in old.split("\n")))
    print(f"respell: {len(new)} names")


def write(path, old, text):
    if text != old:
        with open(path, "w", encoding="utf-8") as f:
            f.write(text)


if __name__ == "__main__":
    turn()
