"""Straight programs of words drawn from the code table, out of and in slots, faults included."""

from assembler import fill
from codes import CODES, REWRITES_PC
from layout import DATA, LENGTH, Numbers, handled

# The numbers left out give programs that write over their handlers and run on for ever.
SEEDS = [seed for seed in range(28) if seed not in (0, 3, 21, 25)]
LEFT_OUT = REWRITES_PC | {"SLEEP"}
USABLE = [(pattern, text) for pattern, text in CODES
          if text.split(" ")[0] not in LEFT_OUT and not text.endswith("VBR")]


def drawn(numbers):
    """A word whose registers are R0 to R11, so that the handlers keep theirs."""
    pattern, _ = numbers.pick(USABLE)
    fields = {}
    for letter in "nmdi":
        if letter in pattern:
            limit = 12 if letter in "nm" else 1 << pattern.count(letter)
            fields[letter] = numbers.below(limit)
    return fill(pattern, fields)


def start_value(numbers):
    kind = numbers.below(10)
    if kind < 6:
        return DATA + 4 * numbers.below(12)
    if kind < 7:
        return numbers.below(LENGTH)
    return numbers.long()


def program(seed):
    numbers = Numbers(1_000 + seed)
    lines = f"LOAD {DATA - 4 * numbers.below(8)},R1\nLDC R1,GBR\nLOAD {numbers.long()},R1\nLDS R1,MACL\n"
    lines += "".join(f"LOAD {start_value(numbers)},R{number}\n" for number in range(1, 12))
    lines += f"LOAD {4 * numbers.below(8)},R0\n"
    for place in range(100):
        word = drawn(numbers)
        slot = numbers.below(4) == 0
        lines += f"BRA to{place}\n.word {word}\nto{place}:\n" if slot else f".word {word}\n"
        lines += "TRAPA #32\n" if place % 4 == 3 else ""
    return handled(lines + "BRA finish\nNOP\n.pool\n")


def cases():
    for seed in SEEDS:
        yield f"random program {seed}", program(seed)
