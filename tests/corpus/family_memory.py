"""Instructions that access memory: each over good addresses and over every fault, out of and in a slot."""

import re

from codes import CODES
from layout import DATA, LENGTH, handled

OTHER_FAMILIES = ("MAC", "JMP", "JSR", "MOVA")


def size_of(text):
    """Bytes of one access; LDC.L, LDS.L, STC.L and STS.L are longs, TAS.B and the like bytes."""
    return {"B": 1, "W": 2, "L": 4}[text.split(" ")[0][-1]]


def instructions():
    for _, text in CODES:
        if "@" in text and "PC" not in text and not text.startswith(OTHER_FAMILIES):
            yield text


class Access:
    """One instruction with its registers chosen, and how to point it at an address."""

    def __init__(self, text, index):
        self.text, self.size = text, size_of(text)
        self.n = 1 + index * 3 % 7
        self.m = 1 + (index * 3 + 2 + index % 4) % 7
        self.displacement = [0, 1, 15, 7][index % 4]
        self.both = "Rm" in text and "Rn" in text

    def word(self, same=False):
        m = self.n if same else self.m
        line = self.text.replace("Rm", f"R{m}").replace("Rn", f"R{self.n}")
        return line.replace("disp", str(self.displacement)).replace("#imm", "#0x5A") + "\n"

    def base(self, same):
        """The register of the memory operand, which holds the address."""
        letter = re.search(r"@[-(]?(?:disp,|R0,)?R([mn])", self.text).group(1)
        return self.n if same or letter == "n" else self.m

    def point(self, address, index, same=False):
        """Lines that make `address` the effective address; index goes to R0 where R0 is added."""
        if "disp,GBR" in self.text:
            return self.load_gbr(address - self.displacement * self.size)
        if "R0,GBR" in self.text:
            return f"LOAD {index},R0\n" + self.load_gbr(address - index)
        register = f"R{self.base(same)}"
        if "disp" in self.text:
            return self.load(address - self.displacement * self.size, register)
        if "(R0," in self.text:
            return f"LOAD {index},R0\n" + self.load(address - index, register)
        if "@-" in self.text:
            return self.load(address + self.size, register)
        return self.load(address, register)

    def load(self, number, register):
        return f"LOAD {number & 0xFFFFFFFF},{register}\n"

    def load_gbr(self, number):
        return self.load(number, "R8") + "LDC R8,GBR\n"


def good_addresses(size):
    """Within the data, at the memory's first bytes and at its last."""
    inner = [DATA + 8, DATA + 12 + size] + ([DATA + 17, DATA + 19] if size == 1 else [])
    return inner + [0x0C, LENGTH - size]


def bad_addresses(size):
    misaligned = [DATA + offset for offset in range(1, size)] + ([LENGTH - 1] if size > 1 else [])
    return misaligned + [LENGTH, -size, 0x80000000]


def used_later(access):
    """Values of the registers that are not the address, and of the system registers."""
    lines = f"LOAD 0x8A9BACBD,R{access.m}\nLOAD 0x71F2E3D4,R{access.n}\nLOAD 0xFEDCBA98,R0\n"
    if "MAC" in access.text or "PR" in access.text:
        lines += f"LDS R{access.m},MACH\nLDS R{access.n},MACL\nLDS R0,PR\n"
    if "GBR,@" in access.text:
        lines += "LDC R0,GBR\n"
    if "SR,@" in access.text:
        lines += "LDC R0,SR\n"
    return lines


def observe(access):
    """A loaded VBR would lead the observation astray, so it is shown in R8 and cleared first."""
    shown = "STC VBR,R8\nMOV #0,R9\nLDC R9,VBR\n" if access.text == "LDC.L @Rm+,VBR" else ""
    return shown + "TRAPA #32\n"


def tests(access, addresses, indexes):
    """For each address the instruction out of a slot, then in one, each followed by TRAPA #32."""
    lines = used_later(access)
    for place, address in enumerate(addresses):
        index = indexes[place % len(indexes)]
        point = access.point(address, index)
        lines += point + access.word() + observe(access)
        lines += f"{point}BRA over{place}\n{access.word()}over{place}:\n" + observe(access)
    return lines


def same_register(access, address):
    if not access.both or "(R0," in access.text:
        return ""
    point = access.point(address, 0, same=True)
    return f"{point}{access.word(same=True)}TRAPA #32\n"


def successes(text, index):
    access = Access(text, index)
    lines = tests(access, good_addresses(access.size), [0, 4, -4, 0x100])
    return handled(lines + same_register(access, DATA + 0x10))


def faults(text, index):
    access = Access(text, index)
    return handled(tests(access, bad_addresses(access.size), [0, 4, -4, 0x100]))


def pc_relative(name, displacements):
    """MOV.W and MOV.L @(disp,PC),Rn at both alignments, out of and in a slot."""
    lines = ""
    for place, displacement in enumerate(displacements):
        move = f"{name} @({displacement},PC),R{1 + place}\n"
        lines += move + "TRAPA #32\n" + move + "NOP\nTRAPA #32\n"
        lines += f"BRA a{place}\n{move}a{place}:\nTRAPA #32\nNOP\nBRA b{place}\n{move}b{place}:\nTRAPA #32\n"
    return lines


def pc_relative_cases():
    for name in ("MOV.W", "MOV.L"):
        near = pc_relative(name, [0, 1, 2, 5, 0x20])
        yield f"{name} @(disp,PC),Rn", handled(near)
        far = f"LOAD code,R1\nJMP @R1\nNOP\n.org 0x280\ncode:\n" + pc_relative(name, [0x7F, 0xFF])
        yield f"{name} @(disp,PC),Rn at and outside the end", handled(far)


def cases():
    for index, text in enumerate(instructions()):
        yield f"{text}, good addresses", successes(text, index)
        yield f"{text}, misaligned and outside", faults(text, index)
    yield from pc_relative_cases()
