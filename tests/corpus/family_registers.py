"""Instructions on registers alone: each over a table of operands, out of and in a slot."""

from codes import CODES
from layout import FINISH, Numbers, gather, gather_control, handled

BOUNDARIES = [
    0, 1, 2, 3, 0x7F, 0x80, 0xFF, 0x7FFF, 0x8000, 0xFFFF, 0x10000, 0x12345678, 0x55555555,
    0x7FFFFFFE, 0x7FFFFFFF, 0x80000000, 0x80000001, 0xAAAAAAAA, 0xFFFF8000, 0xFFFFFF80, 0xFFFFFFFE,
    0xFFFFFFFF,
]
T, S, Q, M = 1, 2, 0x100, 0x200
STATUSES = [0, T, Q, Q | T, M, M | T, M | Q, M | Q | T, S | 0xF0, S | T, 0xFFFFFFFF, 0x3F3]

NONE = ["CLRT", "SETT", "CLRMAC", "DIV0U", "NOP"]
CONTROL = [("LDC", "STC", "SR"), ("LDC", "STC", "GBR"), ("LDC", "STC", "VBR"),
           ("LDS", "STS", "MACH"), ("LDS", "STS", "MACL"), ("LDS", "STS", "PR")]
IMMEDIATES = [0, 1, 0x55, 0x7F, -0x80, -0x7F, -2, -1]


def names(shape):
    """The mnemonics of all instructions with these operands, memory operands excluded."""
    return [text.split(" ")[0] for _, text in CODES if text.split(" ")[1:] == [shape]]


def operands(index):
    """36 pairs: boundaries with one another, pairs with a byte in common, and mixed ones."""
    numbers = Numbers(index)
    count = len(BOUNDARIES)
    pairs = [(BOUNDARIES[row], BOUNDARIES[(7 * row + 5 * index) % count]) for row in range(count)]
    for place in (0, 8, 16, 24):
        one = numbers.long()
        pairs.append((one, one ^ 0x5AA5C33C & ~(0xFF << place)))
    pairs += [(0x12345678, 0x78123456), (same := numbers.long(), same)]
    pairs += [(numbers.pick(BOUNDARIES), numbers.long()) for _ in range(3)]
    pairs += [(numbers.long(), numbers.long()) for _ in range(5)]
    return pairs


def looped(body, table, row_text):
    """A program that loads each row of a table by row_text and runs the body over it."""
    width = row_text.count("@R14+")
    rows = "".join(f".long {entry}\n" for row in table for entry in row)
    text = f"""
    LOAD table,R14
    MOV #{len(table)},R11
again:
    {row_text}
    {body}
    DT R11
    BT finish
    BRA again
    NOP
    """ + FINISH + ".align\ntable:\n" + rows
    assert all(len(row) == width for row in table)
    return handled(text, tail="", below=0x400)


def in_slot(instruction, label):
    return f"BRA {label}\n{instruction}\n{label}:\n"


def two_registers(name, index):
    n = index * 5 % 11
    m = (n + 1 + index * 3 % 10) % 11
    table = [pair + (STATUSES[row % len(STATUSES)],) for row, pair in enumerate(operands(index))]
    load = f"MOV.L @R14+,R{m}\nMOV.L @R14+,R{n}\nLDC.L @R14+,SR\n"
    see = gather_control("SR", "MACH", "MACL") + gather(f"R{n}", f"R{m}")
    plain = f"{name} R{m},R{n}\n"
    same = f"{name} R{n},R{n}\n"
    body = plain + see + in_slot(plain, "over") + see + same + see + in_slot(same, "past") + see
    return f"{name} Rm,Rn, also with m = n", looped(body, table, load)


def one_register(name, index):
    n = index * 7 % 11
    table = [(first, STATUSES[row % 8]) for row, (first, _) in enumerate(operands(100 + index))]
    load = f"MOV.L @R14+,R{n}\nLDC.L @R14+,SR\n"
    see = gather_control("SR") + gather(f"R{n}")
    plain = f"{name} R{n}\n"
    return f"{name} Rn", looped(plain + see + in_slot(plain, "over") + see, table, load)


def immediate(name, register, index):
    numbers = Numbers(200 + index)
    table = [(numbers.pick(BOUNDARIES), STATUSES[row % 4]) for row in range(16)]
    table += [(entry & 0xFFFFFFFF, T) for entry in IMMEDIATES]
    load = f"MOV.L @R14+,R{register}\nLDC.L @R14+,SR\n"
    see = gather_control("SR") + gather(f"R{register}")
    body = ""
    for place, entry in enumerate(IMMEDIATES):
        one = f"{name} #{entry},R{register}\n"
        body += (in_slot(one, f"over{place}") if place % 2 else one) + see
    return f"{name} #imm,R{register}", looped(body, table, load)


def no_operand(name):
    table = [(0x12345678, 0x9ABCDEF0, status) for status in STATUSES] + [(0, 0xFFFFFFFF, 0)]
    load = "LDS.L @R14+,MACH\nLDS.L @R14+,MACL\nLDC.L @R14+,SR\n"
    see = gather_control("SR", "MACH", "MACL")
    return name, looped(f"{name}\n" + see + "LDC R12,SR\n" + in_slot(name, "over") + see, table, load)


def control(load, store, register, index):
    table = [(entry, 0xFFFFFFFF - entry) for entry in BOUNDARIES]
    m, n = index, 9 - index
    move = f"{load} R{m},{register}\n"
    back = f"{store} {register},R{n}\n"
    body = move + back + gather(f"R{n}") + f"MOV R10,R{m}\n"
    body += in_slot(move, "over") + in_slot(back, "past") + gather(f"R{n}", f"R{m}") + gather_control("SR")
    row = f"MOV.L @R14+,R{m}\nMOV.L @R14+,R10\n"
    return f"{load} Rm,{register} and {store} {register},Rn", looped(body, table, row)


def pc_relative():
    """MOVA at both alignments, out of and in a slot, inside and outside the memory."""
    text = ""
    for place, displacement in enumerate([0, 1, 2, 0x7F, 0x80, 0xFF]):
        move = f"MOVA @({displacement},PC),R0\n"
        text += move + gather("R0") + move + "NOP\n" + gather("R0")
        text += in_slot(move, f"a{place}") + gather("R0") + "NOP\n" + in_slot(move, f"b{place}") + gather("R0")
    return "MOVA @(disp,PC),R0", handled(text)


def cases():
    for index, name in enumerate(names("Rm,Rn")):
        yield two_registers(name, index)
    for index, name in enumerate(names("Rn")):
        yield one_register(name, index)
    for index, name in enumerate(names("#imm,R0")):
        yield immediate(name, 0, index)
    for index, name in enumerate(names("#imm,Rn")):
        yield immediate(name, 5 + index, 10 + index)
    for name in NONE:
        yield no_operand(name)
    for index, (load, store, register) in enumerate(CONTROL):
        yield control(load, store, register, index)
    yield pc_relative()
