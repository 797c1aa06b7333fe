"""Every word: all 65,536 in a slot, and every undefined one out of a slot too.

In a slot a word either has its effect on sixteen different registers or is an illegal slot,
whose handler changes R7 and R8. SLEEP alone is left out, as it would end the run.
"""

from codes import undefined_words
from layout import Image, gather

SLEEP = 0x001B
RANGES = [(0, SLEEP), (SLEEP + 1, 0x2000)] + [(first, first + 0x2000) for first in range(0x2000, 0x10000, 0x2000)]

# Registers apart from one another, all sums of two inside the memory and multiples of 8.
REGISTERS = [0x400 + 8 * number for number in range(16)]
GBR = 0x600
LENGTH = 0xC00
SCRATCH = 0x3F0


def chain():
    """Sums all registers into R15; R0 is free for the others after the first sum."""
    lines = "ADD R0,R1\nSTC SR,R0\nROTL R1\nADD R0,R1\n"
    for store in ("STC GBR", "STC VBR", "STS MACH", "STS MACL", "STS PR"):
        lines += f"{store},R0\nROTL R1\nADD R0,R1\n"
    for number in range(1, 15):
        lines += f"ROTL R{number}\nADD R{number},R{number + 1}\n"
    return lines


def set_up():
    """SR and MACL from the word's number in R2, the rest fixed."""
    lines = f"LDC R2,SR\nLDS R2,MACL\nLOAD {GBR},R1\nLDC R1,GBR\nLDS R1,PR\nLDS R1,MACH\nMOV #0,R1\nLDC R1,VBR\n"
    return lines + "".join(f"LOAD {value},R{number}\n" for number, value in enumerate(REGISTERS))


EACH = """
again:
    LOAD current,R1
    MOV.L @R1,R2
    LOAD place,R3
    MOV.W R2,@R3
    ADD #1,R2
    MOV.L R2,@R1
    {set_up}
    BRA over
place:
    NOP
over:
    {chain}
    LOAD sum,R1
    MOV.L @R1,R2
    ROTL R2
    ADD R15,R2
    MOV.L R2,@R1
    LOAD current,R1
    MOV.L @R1,R3
    LOAD {limit},R4
    CMP/EQ R3,R4
    BT done
    BRA again
    NOP
done:
    LOAD {scratch},R1
    LOAD {longs},R5
    MOV #0,R4
more:
    MOV.L @R1+,R3
    ROTL R4
    ADD R3,R4
    DT R5
    BF more
    SLEEP
    .align
current:
    .long {first}
sum:
    .long 0
"""


def each_in_a_slot(first, limit):
    """Writes each word behind a BRA, runs it, and sums the registers; at the end R2 and R4 hold the sums."""
    text = EACH.format(set_up=set_up(), chain=chain(), first=first, limit=limit, scratch=SCRATCH,
                       longs=(LENGTH - SCRATCH) // 4)
    image = Image(LENGTH, stack=REGISTERS[15]).code(0x100, text, below=SCRATCH)
    image.code(0x80, "NOT R7,R7\nRTE\nADD #13,R8\n")
    for number in (4, 6, 9):
        image.long(4 * number, 0x80)
    for at in range(SCRATCH, LENGTH, 4):
        image.long(at, 0x9E3779B9 * at)
    return image


UNDEFINED = """
    LOAD table,R1
    LOAD {count},R2
    LOAD place,R3
    LOAD slot_place,R4
again:
    MOV.W @R1+,R5
    MOV.W R5,@R3
    MOV.W R5,@R4
    BRA place
    NOP
place:
    .word 0
    BRA over
slot_place:
    .word 0
over:
    DT R2
    BF again
    SLEEP
illegal:
    MOV.L @R15,R7
    """ + gather("R7") + """
    ADD #2,R7
    MOV.L R7,@R15
    RTE
    ADD #1,R8
slot:
    MOV.L @R15,R7
    """ + gather("R7") + """
    RTE
    ADD #1,R9
    .pool
    .org 0x8000
table:
"""


def each_undefined():
    """All undefined words in the longest memory, out of and in a slot; R8 and R9 count them."""
    words = undefined_words()
    text = UNDEFINED.format(count=len(words)) + "".join(f".word {word}\n" for word in words)
    image = Image(0x10000, stack=0x10000).code(0x100, text)
    image.long(16, image.labels["illegal"])
    image.long(24, image.labels["slot"])
    return image


def cases():
    for first, limit in RANGES:
        yield f"the words H'{first:04X} to H'{limit - 1:04X} in a slot", each_in_a_slot(first, limit)
    yield "the undefined words, in 65,536 bytes", each_undefined()
