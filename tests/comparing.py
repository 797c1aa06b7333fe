"""What the tests share: the built programs, the reference, and corpora of images."""

import difflib
import os
import subprocess
from pathlib import Path

ROOT = Path(__file__).resolve().parent.parent
TARGET = ROOT / "target"
REFERENCE = TARGET / "reference"


def program(name):
    """The words that start a built program; an environment variable of its name in capitals names another one."""
    other = os.environ.get(name.upper())
    return other.split() if other else [str(ROOT / "tools" / "program"), name]


def build_reference():
    TARGET.mkdir(exist_ok=True)
    source = ROOT / "tests" / "reference" / "main.rs"
    subprocess.run(["rustc", "-O", "--edition", "2021", str(source), "-o", str(REFERENCE)], check=True)


def reference(words, given=None):
    return subprocess.run([str(REFERENCE), *words], input=given, stdout=subprocess.PIPE, check=True).stdout


def images(corpus):
    """The images of a corpus: tests/corpus/README.md has its form."""
    at = 4
    for _ in range(int.from_bytes(corpus[:4], "big")):
        length = int.from_bytes(corpus[at:at + 4], "big")
        yield corpus[at + 4:at + 4 + length]
        at += 4 + length


def reports(output):
    """The reports of a corpus, without the lines that number them."""
    parts = ("\n" + output.decode(errors="replace")).split("\nimage ")[1:]
    return [part.partition("\n")[2].rstrip("\n") + "\n" for part in parts]


def difference(expected, found):
    """The lines in which two reports differ, indented."""
    lines = difflib.unified_diff(expected.splitlines(), found.splitlines(), "expected", "found", lineterm="", n=0)
    return "\n".join(f"  {line}" for line in lines)
