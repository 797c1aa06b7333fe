#!/usr/bin/env python3
"""Spells the definitions and lemmas of specs/ and proofs/ in snake case: a capital or a dash inside a name becomes an underscore.

usage: tools/respell.py      at the top of the repository; docs/PORT.md says where it stood in the order of the port

What is respelled is what a file of crates/*/specs or a file directly in crates/*/proofs declares and what a function's proof declares
for itself; a name that Rattle makes for a goal of a function is declared there too, as `name : tie.Need-..`, and stays.
Two names of one file that would fall together are printed, and nothing is written.
"""

import os
import re
import sys

WORD = r"[^\s(){}.;,@\"«»]+"
DECLARED = re.compile(r"^ *(?:(?:abbrev|pub|unfoldable|record|data|ruleset) )*(" + WORD + r")(?: [({][^\n]*?[)}])* :(?: (.*))?$")
MADE = re.compile(r"(?:tie|goal)\.|Statement|statement")
# Names of the toolchain's library that a file of the repository imports stay as they are.
IMPORT = re.compile(r"^\s*(?:ghost |pub )*use ([\w.'+-]+)\.\{([^}]*)\}", re.M)


# A name whose spelling in snake case is another's already.
GIVEN = {"readBack": "machine_back"}


# Variables inside a definition or a proof.
VARIABLES = ["borrowOrCarry", "mIs1", "oldQ", "qIs0", "overflowsOf", "rnStepped"]


def snake(name):
    words = re.sub(r"([a-z0-9])([A-Z])", r"\1_\2", name)
    words = re.sub(r"([A-Z])([A-Z][a-z])", r"\1_\2", words)
    return GIVEN.get(name) or words.lower().replace("-", "_")


def is_ours(name):
    return ("-" in name or re.search(r"[a-z0-9][A-Z]", name)) and re.match(r"[a-zμ]", name) and snake(name) != name


def files():
    for folder, dirs, names in os.walk("crates"):
        dirs[:] = sorted(d for d in dirs if d != "out")
        for name in sorted(names):
            if name.endswith((".antt", ".rt", ".edit")):
                yield os.path.join(folder, name)


def declared(path, text):
    made = set()
    ours = set()
    for line in text.splitlines():
        m = DECLARED.match(line)
        if not m:
            continue
        if m[2] and MADE.match(m[2]):
            made.add(m[1])
        else:
            ours.add(m[1])
    return ours - made


def met(text, name):
    """Whether the text declares or imports the name: a file, a folder or a Rust function of that name stands in a path alone."""
    word = re.escape(name)
    imported = any(name in [it.strip().split(" as ")[0] for it in m[2].split(",")] for m in IMPORT.finditer(text))
    return imported or re.search(rf"(?m)^ *(?:(?:abbrev|pub|unfoldable|record|data) )*{word} ", text)


def pages(ours):
    """In README and docs/ a word between backticks that is a declared name, in the older spelling or in port.py's, is respelled."""
    known = set(ours.values())
    for path in files():
        if path.endswith(".antt"):
            with open(path, encoding="utf-8") as f:
                known |= {m[1] for m in map(DECLARED.match, f.read().splitlines()) if m}

    def new(m):
        return "`" + re.sub(WORD, lambda w: snake(w[0]) if is_ours(w[0]) and snake(w[0]) in known else w[0], m[1]) + "`"

    for folder, _, names in [(".", [], ["README.md"]), *os.walk("docs")]:
        for name in sorted(names):
            path = os.path.join(folder, name)
            if name.endswith(".md") and name != "PORT.md":
                with open(path, encoding="utf-8") as f:
                    text = f.read()
                with open(path, "w", encoding="utf-8") as f:
                    f.write(re.sub(r"`([^`\n]+)`", new, text))


def main():
    texts = {}
    for path in files():
        with open(path, encoding="utf-8") as f:
            texts[path] = f.read()
    ours = {name: snake(name) for name in VARIABLES}
    for path, text in texts.items():
        if path.endswith(".antt") and not path.endswith("/Proof.antt"):
            for name in declared(path, text):
                if is_ours(name):
                    ours[name] = snake(name)
    bad = 0
    changed = {}
    for path, text in texts.items():
        names = dict(ours)
        for m in IMPORT.finditer(text):
            if not m[1].startswith("Rattle.") or m[1].startswith("Rattle.std"):
                for it in m[2].split(","):
                    names.pop(it.strip().split(" as ")[0], None)
        function = path.endswith("/Proof.antt")
        if function:
            for name in declared(path, text):
                if is_ours(name):
                    names[name] = snake(name)
            for line in text.splitlines():
                m = DECLARED.match(line)
                if m and m[2] and MADE.match(m[2]):
                    names.pop(m[1], None)
        before = set(re.findall(WORD, text))
        for old, new in names.items():
            if old in before and new in before and met(text, new):
                print(f"{path}: {old} and {new} would fall together")
                bad += 1

        def new(m):
            word = m[0]
            if word not in names:
                return word
            # A field behind `c.` in a function's proof is a label that Rattle makes.
            if function and re.search(r"(?<![\w.])[a-z]\w*\.(?:[^\s(){};,]*\.)?$", text[: m.start()][-200:]):
                return word
            return names[word]

        after = re.sub(WORD, new, text)
        if after != text:
            changed[path] = after
    if bad:
        return 1
    for path, text in changed.items():
        with open(path, "w", encoding="utf-8") as f:
            f.write(text)
    print(f"{len(ours)} names, {len(changed)} files")
    pages(ours)
    return 0


if __name__ == "__main__":
    sys.exit(main())
