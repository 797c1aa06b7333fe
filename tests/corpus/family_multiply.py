"""MAC.W and MAC.L: sums and saturation, m = n, in a slot, and a fault at each of the two accesses."""

from layout import DATA, FINISH, LENGTH, Numbers, handled

LONGS = [0, 1, 2, 0x7FFFFFFF, 0x80000000, 0xFFFFFFFF, 0xFFFFFFFE, 0x12345678, 0x8000]
WORDS = [0, 1, 2, 0x7FFF, 0x8000, 0xFFFF, 0xFFFE, 0x1234, 0x80]

# MACH:MACL around the limits of 32, 48 and 64 bits, and with bits 63 to 48 against the sign.
SUMS = [
    (0, 0), (0, 1), (0, 0x7FFFFFFF), (0, 0x80000000), (0, 0xFFFFFFFF), (0xFFFFFFFF, 0xFFFFFFFF),
    (0x7FFF, 0xFFFFFFFF), (0x7FFF, 0xFFFFFFFE), (0xFFFF8000, 0), (0xFFFF8000, 1), (0x8000, 0),
    (0x7FFFFFFF, 0xFFFFFFFF), (0x80000000, 0), (0x12347FFF, 0xFFFFFFFF), (0xABCD8000, 5), (0xFFFF, 0xFFFFFFFF),
]


def rows(numbers, size, status):
    """MACH, MACL, SR and the two operands, in 20 bytes for longs and 16 for words."""
    choices = LONGS if size == 4 else WORDS
    for place in range(24 if size == 4 else 28):
        high, low = SUMS[place % len(SUMS)]
        if place >= 20:
            high, low = numbers.long(), numbers.long()
        a, b = numbers.pick(choices), numbers.pick(choices)
        data = f".long {a}\n.long {b}\n" if size == 4 else f".word {a}\n.word {b}\n"
        yield f".long {high}\n.long {low}\n.long {status | place % 2}\n{data}"


def summed(name, size, status, how, seed):
    """A loop over the rows; `how` is the pair of registers and whether in a slot."""
    m, n, slot = how
    table = list(rows(Numbers(seed), size, status))
    step = f"{name} @R{m}+,@R{n}+\n"
    step = f"BRA over\n{step}over:\n" if slot else step
    apart = "" if m == n else f"MOV R14,R{m}\nADD #{size},R{m}\n"
    text = f"""
    LOAD table,R14
    MOV #{len(table)},R11
again:
    LDS.L @R14+,MACH
    LDS.L @R14+,MACL
    LDC.L @R14+,SR
    MOV R14,R{n}
    {apart}
    {step}
    TRAPA #32
    ADD #{2 * size},R14
    DT R11
    BF again
    """ + FINISH + ".align\ntable:\n" + "".join(table)
    return handled(text, tail="", below=DATA)


def sums(name, size):
    ways = [("", (1, 2, False)), (" in a slot", (5, 3, True)), (" with m = n", (4, 4, False)),
            (" with m = n in a slot", (6, 6, True))]
    for seed, (words, how) in enumerate(ways):
        for status in (0, 2):
            yield f"{name}{words}, S = {status // 2}", summed(name, size, status, how, 10 * size + seed + status)


def fault_lines(name, size):
    """Each access misaligned, outside above and below, alone and both; then m = n at the end."""
    good, end = DATA + 16, LENGTH
    bad = [DATA + 1, end, end - size + 1, -size] + ([DATA + 2] if size == 4 else [])
    pairs = [(good, wrong) for wrong in bad] + [(wrong, good) for wrong in bad] + [(end, DATA + 1)]
    for m, n in pairs:
        yield f"LOAD {m & 0xFFFFFFFF},R1\nLOAD {n & 0xFFFFFFFF},R2\n", f"{name} @R1+,@R2+\n"
    for address in (end, end - size, DATA + 1):
        yield f"LOAD {address},R3\n", f"{name} @R3+,@R3+\n"


def faults(name, size, slot):
    lines = "LOAD 0x12345678,R4\nLDS R4,MACH\nLOAD 0x9ABCDEF0,R4\nLDS R4,MACL\n"
    for place, (load, step) in enumerate(fault_lines(name, size)):
        step = f"BRA over{place}\n{step}over{place}:\n" if slot else step
        lines += load + step + "TRAPA #32\n"
    return handled(lines)


def ends(name, size):
    """Both operands at the last places of memory; Rm and Rn meet there."""
    last = LENGTH - size
    lines = ""
    for m, n in [(last, DATA), (DATA, last), (last, last), (0, 0), (0, last)]:
        lines += f"LOAD {m},R1\nLOAD {n},R2\n{name} @R1+,@R2+\nTRAPA #32\n"
    return handled(lines + f"LOAD {last - size},R3\n{name} @R3+,@R3+\nTRAPA #32\n")


def cases():
    for name, size in (("MAC.W", 2), ("MAC.L", 4)):
        yield from sums(name, size)
        yield f"{name}, each access failing", faults(name, size, False)
        yield f"{name}, each access failing in a slot", faults(name, size, True)
        yield f"{name} at the ends of memory", ends(name, size)
