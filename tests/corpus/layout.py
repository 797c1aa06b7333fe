"""The parts that most images share: where things lie, the handlers, the observation, the end.

The report shows registers only, so a program gathers what it sees in R13: ROTL R13 and
ADD Rx,R13 for each value. R12 is for passing use. An exception's handler gathers the saved PC
and the number and returns; TRAPA #32 gathers every register; `finish` sums the memory into R9.
"""

from assembler import Assembly

LENGTH = 1024
CODE = 0x100
DATA = 0x3A0      # to H'3CF
STACK = 0x3F0     # down to H'3D0; the sixteen bytes above are for accesses at the end
ILLEGAL, SLOT, ADDRESS, OBSERVE = 4, 6, 9, 32


class Image:
    def __init__(self, length=LENGTH, pc=CODE, stack=STACK):
        self.bytes = bytearray(length)
        self.labels = {}
        self.long(0, pc)
        self.long(4, stack)

    def put(self, at, piece):
        if at + len(piece) > len(self.bytes):
            raise ValueError(f"H'{at:X} lies outside the image")
        self.bytes[at:at + len(piece)] = piece

    def word(self, at, number):
        self.put(at, (number & 0xFFFF).to_bytes(2, "big"))

    def long(self, at, number):
        self.put(at, (number & 0xFFFFFFFF).to_bytes(4, "big"))

    def code(self, at, text, below=None):
        """Assembles text at an address; the pool must end below a limit."""
        assembly = Assembly(at, text)
        if assembly.at > (below or len(self.bytes)):
            raise ValueError(f"code ends at H'{assembly.at:X}")
        for address, piece in assembly.pieces():
            self.put(address, piece)
        self.labels.update(assembly.labels)
        return self


def gather(*registers):
    return "".join(f"ROTL R13\nADD {register},R13\n" for register in registers)


def gather_control(*names):
    """System and control registers through R12."""
    stores = {"SR": "STC", "GBR": "STC", "VBR": "STC", "MACH": "STS", "MACL": "STS", "PR": "STS"}
    return "".join(f"{stores[name]} {name},R12\n" + gather("R12") for name in names)


HANDLERS = """
illegal:                ; returns behind the illegal word
    MOV.L @R15,R12
    ADD #2,R12
    MOV.L R12,@R15
    BRA saved
    MOV #4,R12
slot:
    BRA saved
    MOV #6,R12
address:
    MOV #9,R12
saved:
""" + gather("R12") + """
    MOV.L @R15,R12
""" + gather("R12") + """
    RTE
    NOP
"""

OBSERVER = """
observe:
""" + gather(*(f"R{number}" for number in range(12))) + gather_control("MACH", "MACL", "PR", "GBR", "VBR") + """
    MOV.L @(1,R15),R12
""" + gather("R12", "R15") + """
    RTE
    NOP
"""

FINISH = """
finish:
    STC SR,R12
    MOV #0,R8
    MOV #0,R9
    MOV #1,R11
    SHLL8 R11
sum:
    MOV.L @R8+,R10
    ROTL R9
    ADD R10,R9
    DT R11
    BF sum
    SLEEP
"""


def handled(text, stack=STACK, tail=FINISH, below=DATA):
    """An image of 1,024 bytes with the handlers, a program and its end."""
    image = Image(stack=stack)
    image.code(0x28, HANDLERS, below=4 * OBSERVE)
    image.code(4 * OBSERVE + 4, OBSERVER, below=CODE)
    vectors = [(ILLEGAL, "illegal"), (SLOT, "slot"), (ADDRESS, "address"), (OBSERVE, "observe")]
    for number, label in vectors:
        image.long(4 * number, image.labels[label])
    for at in range(DATA, LENGTH, 4):
        image.long(at, 0x01234567 + 0x1F3D5B79 * at)
    image.code(CODE, text + tail, below)
    return image


class Numbers:
    """A fixed sequence of numbers that look random (splitmix64), so that the corpus never changes."""

    def __init__(self, seed):
        self.state = seed

    def next(self):
        mask = (1 << 64) - 1
        self.state = self.state + 0x9E3779B97F4A7C15 & mask
        mixed = (self.state ^ self.state >> 30) * 0xBF58476D1CE4E5B9 & mask
        mixed = (mixed ^ mixed >> 27) * 0x94D049BB133111EB & mask
        return mixed ^ mixed >> 31

    def below(self, limit):
        return self.next() % limit

    def long(self):
        return self.next() & 0xFFFFFFFF

    def pick(self, choices):
        return choices[self.below(len(choices))]
