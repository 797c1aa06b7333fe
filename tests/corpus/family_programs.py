"""Whole programs: divisions, the manual's sequences, small algorithms, and code that changes itself."""

from family_branches import ending
from layout import FINISH, gather, gather_control, handled

DIVISIONS = [(0, 100, 7), (1, 0, 3), (6, 0xFFFFFFFF, 7), (0, 100, 0)]
MORE_DIVISIONS = DIVISIONS + [
    (0, 0, 1), (0xFFFFFFFE, 0xFFFFFFFF, 0xFFFFFFFF), (0x7FFFFFFF, 0, 0x80000000), (0x12345678, 0x9ABCDEF0, 0),
    (0, 1, 1), (0x55, 0xAAAAAAAA, 0x56), (5, 5, 5), (0xFFFFFFFF, 1, 2), (0x80000000, 0, 0x80000001),
]


def repeat(count, lines):
    return lines * count


def unsigned_64(low, high, divisor):
    """Document 01, "The division, in full": 66 words."""
    return "DIV0U\n" + repeat(32, f"ROTCL R{low}\nDIV1 R{divisor},R{high}\n") + f"ROTCL R{low}\n"


def single_divisions():
    for high, low, divisor in DIVISIONS:
        text = f"LOAD {high},R1\nLOAD {low},R2\nLOAD {divisor},R0\n" + unsigned_64(2, 1, 0) + "SLEEP\n"
        yield f"{high:X}:{low:X} / {divisor:X}", ending(text)


def over_table(rows, loads, body):
    """The body run for each row of a table at R14, counted in R11."""
    table = "".join(f".long {entry}\n" for row in rows for entry in row)
    text = f"LOAD table,R14\nMOV #{len(rows)},R11\nagain:\n{loads}\n{body}\nDT R11\nBT finish\nBRA again\nNOP\n"
    return handled(text + FINISH + ".align\ntable:\n" + table, tail="", below=0x3C8)


def division_tables():
    for low, high, divisor in [(2, 1, 0), (0, 7, 9), (4, 5, 5), (3, 3, 6), (8, 10, 10)]:
        loads = f"MOV.L @R14+,R{high}\nMOV.L @R14+,R{low}\nMOV.L @R14+,R{divisor}\n"
        body = unsigned_64(low, high, divisor) + gather_control("SR") + gather(f"R{low}", f"R{high}", f"R{divisor}")
        yield f"divisions with low R{low}, high R{high}, divisor R{divisor}", over_table(MORE_DIVISIONS, loads, body)


# Document 000, section 6.19, examples 1, 3 and 4.
UNSIGNED_16 = "SHLL16 R0\nDIV0U\n" + repeat(16, "DIV1 R0,R1\n") + "ROTCL R1\nEXTU.W R1,R2\n"
SIGNED_16 = ("SHLL16 R0\nEXTS.W R1,R1\nXOR R2,R2\nMOV R1,R3\nROTCL R3\nSUBC R2,R1\nDIV0S R0,R1\n"
             + repeat(16, "DIV1 R0,R1\n") + "EXTS.W R1,R1\nROTCL R1\nADDC R2,R1\nEXTS.W R1,R1\n")
SIGNED_32 = ("MOV R2,R3\nROTCL R3\nSUBC R1,R1\nXOR R3,R3\nSUBC R3,R2\nDIV0S R0,R1\n"
             + repeat(32, "ROTCL R2\nDIV1 R0,R1\n") + "ROTCL R2\nADDC R3,R2\n")

PAIRS = [(100, 7), (0xFFFFFF9C, 7), (100, 0xFFFFFFF9), (0xFFFFFF9C, 0xFFFFFFF9), (0x7FFFFFFF, 3), (0x80000000, 5),
         (0, 9), (1, 0x7FFF), (0x12345678, 0x1234), (0xFFFF8000, 0xFFFFFFFF), (5, 0), (0x4321, 0x21)]


def manual_divisions():
    see = gather_control("SR") + gather("R0", "R1", "R2", "R3")
    for name, dividend, body in [("unsigned 32 / 16", 1, UNSIGNED_16), ("signed 16 / 16", 1, SIGNED_16),
                                 ("signed 32 / 32", 2, SIGNED_32)]:
        loads = f"MOV.L @R14+,R{dividend}\nMOV.L @R14+,R0\n"
        yield f"the manual's {name} division", over_table(PAIRS, loads, body + see)


PROGRAMS = {
    "CRC-32 of the first 64 bytes": """
    LOAD 0xEDB88320,R1
    MOV #-1,R2
    MOV #0,R3
    MOV #64,R4
byte:
    MOV.B @R3+,R5
    EXTU.B R5,R5
    XOR R5,R2
    MOV #8,R6
bit:
    SHLR R2
    BF clear
    XOR R1,R2
clear:
    DT R6
    BF bit
    DT R4
    BF byte
    NOT R2,R2
    """,
    "Fibonacci by recursion": """
    MOV #11,R4
    BSR fibonacci
    NOP
    BRA finish
    NOP
fibonacci:
    MOV #2,R5
    CMP/GE R5,R4
    BT/S deeper
    MOV R4,R0
    RTS
    NOP
deeper:
    STS.L PR,@-R15
    MOV.L R4,@-R15
    BSR fibonacci
    ADD #-1,R4
    MOV.L @R15,R4
    MOV.L R0,@R15
    BSR fibonacci
    ADD #-2,R4
    MOV.L @R15+,R1
    LDS.L @R15+,PR
    RTS
    ADD R1,R0
    """,
    "sorting the data": """
    LOAD 0x3A0,R1
    MOV #11,R2
pass:
    MOV R1,R3
    MOV R2,R4
pair:
    MOV.L @R3+,R5
    MOV.L @R3,R6
    CMP/GT R6,R5
    BF ordered
    MOV.L R5,@R3
    MOV R3,R7
    MOV.L R6,@-R7
ordered:
    DT R4
    BF pair
    DT R2
    BF pass
    """,
    "copying bytes over themselves": """
    LOAD 0x3A0,R1
    LOAD 0x3A3,R2
    MOV #33,R3
copy:
    MOV.B @R1+,R4
    MOV.B R4,@R2
    DT R3
    BF/S copy
    ADD #1,R2
    """,
    "64-bit product and sum": """
    LOAD 0x89ABCDEF,R1
    LOAD 0x76543210,R2
    MOV #20,R3
    MOV #0,R4
    MOV #0,R5
more:
    DMULU.L R1,R2
    STS MACH,R6
    STS MACL,R7
    CLRT
    ADDC R7,R4
    ADDC R6,R5
    SWAP.W R1,R1
    SWAP.B R2,R2
    XTRCT R1,R2
    DMULS.L R1,R2
    STS MACH,R6
    STS MACL,R7
    CLRT
    SUBC R7,R4
    SUBC R6,R5
    NEGC R4,R4
    NEGC R5,R5
    DT R3
    BF more
    """,
    "greatest common divisor by subtraction": """
    LOAD 123456,R1
    LOAD 7890,R2
next:
    CMP/EQ R1,R2
    BT finish
    CMP/HI R1,R2
    BT/S second
    NOP
    BRA next
    SUB R2,R1
second:
    BRA next
    SUB R1,R2
    """,
    "a string's length and a test-and-set": """
    LOAD 0x40414243,R3
    MOV #0,R1
    MOV #0,R4
seek:
    MOV.L @R1+,R2
    CMP/STR R2,R3
    ADD #1,R4
    BT found
    TST R1,R1
    BF seek
found:
    LOAD 0x0C,R5
    TAS.B @R5
    MOVT R6
    TAS.B @R5
    MOVT R7
    """,
}

CHANGING = {
    "a store over the next word": """
    MOV #0x71,R1
    SHLL8 R1
    ADD #5,R1
    LOAD next,R2
    MOV.W R1,@R2
next:
    ADD #1,R1
    TRAPA #32
    """,
    "a store over its own word": """
    LOAD own,R2
    MOV #9,R1
    MOV #2,R3
own:
    MOV.W R1,@R2
    TRAPA #32
    ADD #1,R1
    DT R3
    BF own
    """,
    "a slot that writes the target": """
    LOAD 0xE37B,R1
    LOAD target,R2
    BRA target
    MOV.W R1,@R2
    NOP
target:
    MOV #1,R3
    TRAPA #32
    """,
    "a branch whose slot was just written": """
    LOAD 0x7405,R1
    LOAD place,R2
    MOV.W R1,@R2
    BRA out
place:
    .word 0xFFFF
out:
    TRAPA #32
    """,
    "a loop that counts in its own immediate": """
    LOAD place,R2
    MOV #20,R3
loop:
    MOV.W @R2,R1
    ADD #3,R1
    MOV.W R1,@R2
place:
    MOV #0,R4
    ADD R4,R5
    DT R3
    BF loop
    TRAPA #32
    """,
    "a slot that writes over itself, then runs changed": """
    LOAD place,R2
    LOAD 0x7603,R1
    MOV #2,R3
again:
    BRA over
place:
    MOV.W R1,@R2
over:
    DT R3
    BF again
    TRAPA #32
    """,
    "a byte store into the literal that was loaded": """
    LOAD literal,R2
    MOV #-86,R1
    MOV.L @(1,PC),R3
    BRA over
    NOP
    .align
literal:
    .long 0x11223344
over:
    MOV.B R1,@R2
    MOV.L @R2,R4
    TRAPA #32
    """,
}


PUSHED = """
    LOAD 0x0009E205,R1
    LDC R1,SR
    TRAPA #33
    MOV #1,R3
    .org 0x140
handler:
    MOV #3,R4
    MOV #4,R5
    MOV #5,R6
    MOV #6,R7
    SLEEP
"""


def pushed_code():
    """An exception's pushes land on the words that run next."""
    image = ending(PUSHED, stack=0x148)
    image.long(4 * 33, image.labels["handler"])
    return image


def cases():
    yield from single_divisions()
    yield from division_tables()
    yield from manual_divisions()
    for name, text in PROGRAMS.items():
        yield name, handled(text)
    for name, text in CHANGING.items():
        yield f"self-changing: {name}", handled(text)
    yield "self-changing: an exception's pushes over the code that follows", pushed_code()
