"""Writes the corpus and the list of its cases: make_corpus.py CORPUS CASES

Each family yields (name, image); an image's number is its place in the corpus, from 1.
"""

import sys

sys.dont_write_bytecode = True

import family_branches
import family_exceptions
import family_memory
import family_multiply
import family_programs
import family_random
import family_registers
import family_runner
import family_words

FAMILIES = [
    family_runner,
    family_registers,
    family_memory,
    family_multiply,
    family_branches,
    family_exceptions,
    family_programs,
    family_random,
    family_words,
]


def images():
    for family in FAMILIES:
        for name, image in family.cases():
            yield name, bytes(image if isinstance(image, bytes) else image.bytes)


def write(corpus_path, cases_path):
    cases = list(images())
    with open(corpus_path, "wb") as corpus:
        corpus.write(len(cases).to_bytes(4, "big"))
        for _, image in cases:
            corpus.write(len(image).to_bytes(4, "big") + image)
    with open(cases_path, "w") as listing:
        for number, (name, _) in enumerate(cases, 1):
            listing.write(f"{number} {name}\n")


if __name__ == "__main__":
    if len(sys.argv) != 3:
        sys.exit(__doc__)
    write(sys.argv[1], sys.argv[2])
