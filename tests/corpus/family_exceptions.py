"""Exceptions: what is saved, the stops at the ends of memory, vectors that move or are hit, RTE and TRAPA."""

from family_branches import ending
from layout import LENGTH, Image, handled

# Each kind: its vector number and the lines that raise it.
KINDS = {
    "general illegal": (4, ".word 0xFFFF"),
    "undefined word in a slot": (6, "BRA to\n.word 0x0000\nNOP\nto:\nSLEEP"),
    "branch in a slot": (6, "BSR to\nBT to\nNOP\nto:\nSLEEP"),
    "data address error": (9, "MOV #-1,R7\nMOV.W @R7+,R6"),
    "data address error in a slot": (9, "MOV #-1,R7\nBRA to\nMOV.L R7,@-R7\nNOP\nto:\nSLEEP"),
    "fetch at an odd address": (9, "MOV #31,R7\nJMP @R7\nMOV #5,R6"),
    "fetch outside in a slot": (9, "BRA end\nMOV #6,R6\n.pool\n.org 0x3FE\nend:\n.word 0xAF80"),
    "TRAPA": (32, "TRAPA #32"),
}

BAD_STACKS = [0, 0x3FE, 0x201, 0xFFFFFFFC, 0x80000000, 3, 0x3E2, LENGTH + 8]
GOOD_STACKS = [8, 12, LENGTH, LENGTH - 4]


def raised(kind, stack=0x3E0, base=None):
    """The kind of exception with a stack and, if given, a vector base."""
    number, lines = KINDS[kind]
    before = "" if base is None else f"LOAD {base & 0xFFFFFFFF},R5\nLDC R5,VBR\nMOV #0,R5\n"
    image = ending(before + lines, stack=stack)
    vector = None if base is None else base + 4 * number & 0xFFFFFFFF
    if vector is not None and vector % 4 == 0 and 8 <= vector < LENGTH and not any(image.bytes[vector:vector + 4]):
        image.long(vector, image.labels["trap"])
    return image


def stack_cases():
    for place, kind in enumerate(KINDS):
        good = [GOOD_STACKS[place % 2], GOOD_STACKS[2 + place // 2 % 2]]
        for stack in [4, LENGTH + 4, BAD_STACKS[place]] + good:
            yield f"{kind} with R15 H'{stack:X}", raised(kind, stack)


def base_cases():
    """VBR so that the vector is the last long, just outside, misaligned, or comes round to 0 or below."""
    for place, (kind, (number, _)) in enumerate(KINDS.items()):
        last = LENGTH - 4 - 4 * number
        round_zero = -4 * number - 4 * (place % 2)
        for base in (last, last + 4, last - 1 - place % 3, round_zero):
            yield f"{kind} with VBR H'{base & 0xFFFFFFFF:X}", raised(kind, base=base)
    for kind, base in (("TRAPA", 0x40000000), ("general illegal", 0x7FFFFFFC)):
        yield f"{kind} with VBR H'{base:X}", raised(kind, base=base)


def both_bad_cases():
    for kind, stack, base in [("TRAPA", 2, 1), ("general illegal", 4, LENGTH), ("branch in a slot", LENGTH + 4, 3)]:
        yield f"{kind} with R15 H'{stack:X} and VBR H'{base:X}", raised(kind, stack, base)


def hit_vector_cases():
    """The pushes hit the vector, which is read afterwards: SR or the saved PC leads on."""
    for kind, (number, _) in KINDS.items():
        for stored, offset in (("SR", 4), ("saved PC", 8)):
            image = raised(kind, stack=4 * number + offset)
            image.code(0xF0, "MOV #9,R9\nSLEEP\n")
            yield f"{kind}, its vector overwritten by {stored}", image


def vector_contents_cases():
    """A bad PC in the vector is the next step's own address error, to the last long of the stack."""
    for content, kind in [(0x101, "general illegal"), (LENGTH, "TRAPA"), (0xFFFFFFFE, "branch in a slot"),
                          (0x101, "data address error"), (LENGTH, "fetch at an odd address")]:
        number, lines = KINDS[kind]
        image = ending(lines)
        image.long(4 * number, content)
        yield f"{kind}, its vector holds H'{content:X}", image
    image = ending(".word 0xFFFF", stack=0x3F0)
    image.long(16, 0x100)
    yield "an illegal word whose handler is itself", image


def reset_cases():
    for pc in (0x101, LENGTH, LENGTH - 1, 0xFFFFFFFF, 0xFFFFFFFE, 0x80000000, 0x01000000):
        yield f"reset with PC H'{pc:X}", ending("SLEEP", pc=pc)
    yield "reset with PC 0 and R15 0", Image(pc=0, stack=0)
    yield "reset with PC 2, where the vectors are code", ending("SLEEP", pc=2)
    yield "all bytes H'FF", bytes(b"\xFF" * LENGTH)
    yield "all bytes zero", bytes(LENGTH)


def rte_lines(status, slot):
    """RTE to `to` from a frame with an SR, with a slot that sees SR, R15 or both."""
    return f"LOAD {status},R1\nMOV.L R1,@-R15\nLOAD to,R1\nMOV.L R1,@-R15\nRTE\n{slot}\nNOP\nto:\n"


def rte_cases():
    for status, slot in [(0xFFFFFFFF, "STC SR,R2"), (0, "MOV R15,R2"), (0x3F3, "MOVT R2"),
                         (0xFFFFFC0C, "STC SR,R2"), (0x101, "ROTCL R2"), (2, "LDC R1,SR")]:
        text = rte_lines(status, slot) + "STC SR,R3\nTRAPA #32\n"
        yield f"RTE to SR H'{status:X}, slot {slot}", handled(text)
    for stack in (LENGTH, LENGTH - 4, LENGTH - 8, 0, 0x3E2, 0x3E1, 0xFFFFFFFC, LENGTH + 4, 0x80000000):
        yield f"RTE with R15 H'{stack:X}", ending("RTE\nMOV #5,R5\nMOV #6,R6\nSLEEP\n", stack=stack)


TRAPS = [(0, 0x100), (0, 0), (1, 0), (255, 0), (255, 4), (255, -0x3FC), (128, 0x200 - 4), (0x7F, 0x80)]


def trapa_cases():
    """Immediates at the ends of their range, and vectors inside, outside and come round."""
    for number, base in TRAPS:
        base &= 0xFFFFFFFF
        text = f"LOAD {base},R5\nLDC R5,VBR\nTRAPA #{number}\nSLEEP\n.org 0x140\nMOV #1,R1\nSLEEP\n"
        image = ending(text)
        vector = base + 4 * number & 0xFFFFFFFF
        if 0x150 <= vector < LENGTH:
            image.long(vector, 0x140)
        yield f"TRAPA #{number} with VBR H'{base:X}", image


NESTED = """
    LOAD 0x200,R5
    LDC R5,VBR
    MOV #1,R1
    TRAPA #40
    ADD #1,R0
    SLEEP
outer:
    MOV.L @R1,R2
    TRAPA #41
    RTE
    ADD #1,R3
inner:
    .word 0xFFFF
    BRA back
    .word 0xFFFF
back:
    RTE
    ADD #2,R4
address:
    ADD #1,R6
    RTE
    STC SR,R7
illegal:
    MOV.L @R15,R8
    ADD #2,R8
    MOV.L R8,@R15
    RTE
    ADD #1,R9
slot:
    RTE
    ADD #1,R10
"""


def nested():
    """A trap whose handler faults and traps again, and the way back through all of them."""
    image = Image(stack=0x3F0).code(0x100, NESTED)
    for number, label in [(40, "outer"), (41, "inner"), (9, "address"), (4, "illegal"), (6, "slot")]:
        image.long(0x200 + 4 * number, image.labels[label])
    return image


def cases():
    yield from stack_cases()
    yield from base_cases()
    yield from both_bad_cases()
    yield from hit_vector_cases()
    yield from vector_contents_cases()
    yield from reset_cases()
    yield from rte_cases()
    yield from trapa_cases()
    yield "exceptions within exceptions, and back", nested()
