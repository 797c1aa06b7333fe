"""The runner's edges: lengths it refuses and accepts, and runs that end with the budget."""

from family_branches import ending

BUDGET = 1_000_000
LENGTHS = [0, 1, 2, 3, 4, 8, 1_020, 1_021, 1_022, 1_023, 1_024, 1_025, 1_026, 1_028, 2_048, 65_537, 65_540]


def example(length):
    """Document 01's example, cut or lengthened with zeros."""
    whole = bytearray(max(length, 1_024))
    whole[:8] = bytes([0, 0, 2, 0, 0, 0, 4, 0])
    whole[0x200:0x204] = bytes([0xE0, 0x05, 0x00, 0x1B])
    return bytes(whole[:length])


def end_of(length):
    """The last long of a memory is written and read, and the one after it fails."""
    text = f"""
    LOAD {length},R1
    LOAD 0x87654321,R2
    MOV.L R2,@-R1
    MOV.B @(3,R1),R0
    MOV.L @R1+,R3
    MOV.B @R1,R4
    """
    return ending(text, length=length, stack=length - 8)


LOOPS = {
    "a loop of two steps": """
again:
    BRA again
    ADD #1,R0
""",
    "the slot of a loop of two steps": """
    NOP
again:
    BRA again
    ADD #1,R0
""",
    "the slot of a loop of three steps": """
    NOP
    NOP
again:
    ADD #1,R1
    BRA again
    ADD #1,R0
""",
    "the slot of BF/S": """
    NOP
again:
    ADD #1,R1
    DT R2
    ADD #3,R3
    BF/S again
    ADD #1,R0
""",
    "the slot of RTS": """
    LOAD sub,R1
again:
    JSR @R1
    ADD #1,R0
    BRA again
    ADD #1,R2
sub:
    RTS
    ADD #1,R3
""",
    "the slot of RTE": """
    LOAD 132,R1
    LOAD sub,R2
    MOV.L R2,@R1
again:
    TRAPA #33
    BRA again
    ADD #1,R3
sub:
    RTE
    ADD #1,R4
""",
}


def aligned_loops():
    """NOPs before a loop shift the step at which the budget ends."""
    for name, text in LOOPS.items():
        yield f"budget ends in {name}", ending(text)


def counted(last, late=0):
    """A loop that brings `last` to the step of the budget, or to the one after it."""
    count = (BUDGET - 4) // 2
    loop = f"LOAD {count},R0\nLOAD 0x87654321,R1\nNOP\nagain:\nDT R0\nBF again\n"
    return loop + "NOP\n" * late + last + "\n"


def exact_ends():
    yield "SLEEP with the last step", ending(counted("SLEEP"))
    yield "SLEEP one step behind the budget", ending(counted("SLEEP", late=1))
    yield "a stop with the last step", ending(counted(".word 0xFFFF"), stack=6)
    yield "a jump to an odd address with the last step", ending(counted("JMP @R1"))
    yield "an exception with the last step", ending(counted(".word 0xFFFF"))


def cases():
    for length in LENGTHS:
        yield f"the example with {length} bytes", example(length)
    yield "the end of 1,028 bytes", end_of(1_028)
    yield "the end of 4,096 bytes", end_of(4_096)
    yield from aligned_loops()
    yield from exact_ends()
