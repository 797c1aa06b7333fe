"""Branches: where they lead, what they leave in PR, what their slot sees, and illegal slots."""

from assembler import encode
from codes import CODES, REWRITES_PC
from layout import LENGTH, Image, handled

CONDITIONAL = [("BF", "CLRT", "SETT"), ("BT", "SETT", "CLRT"), ("BF/S", "CLRT", "SETT"), ("BT/S", "SETT", "CLRT")]
UNDEFINED = [0x0000, 0xFFFF, 0x0109, 0x010B, 0x402C, 0x0038, 0x8200, 0xF000]

# Each delayed branch: the lines before it, and itself, to a label.
HOSTS = {
    "BRA": ("", "BRA {label}"),
    "BSR": ("", "BSR {label}"),
    "BF/S": ("CLRT", "BF/S {label}"),
    "BT/S": ("SETT", "BT/S {label}"),
    "BRAF": ("LOAD {label}-here{place}-4,R1", "BRAF R1"),
    "BSRF": ("LOAD {label}-here{place}-4,R2", "BSRF R2"),
    "JMP": ("LOAD {label},R3", "JMP @R3"),
    "JSR": ("LOAD {label},R4", "JSR @R4"),
    "RTS": ("LOAD {label},R5\nLDS R5,PR", "RTS"),
    "RTE": ("LOAD {label},R6\nSTC.L SR,@-R15\nMOV.L R6,@-R15", "RTE"),
}


def delayed(host, slot, place, label):
    """The host's lines with a slot word, to a label that the caller places."""
    before, branch = (text.format(label=label, place=place) for text in HOSTS[host])
    return f"{before}\nhere{place}:\n{branch}\n{slot}\n"


def illegal_slots(host):
    """Every word that rewrites the PC, and undefined ones, in the host's slot."""
    words = [encode(text.replace("Rm", "R7").replace("label", "4").replace("#imm", "#32"))
             for _, text in CODES if text.split(" ")[0] in REWRITES_PC]
    lines = ""
    for place, word in enumerate(words + UNDEFINED):
        lines += delayed(host, f".word {word}", place, f"to{place}") + f"to{place}:\n"
    return handled(lines + "TRAPA #32\n")


def conditional(name, taken, untaken):
    """Both conditions, forward and backward."""
    text = f"""
    {untaken}
    {name} wrong
    ADD #1,R0
    {taken}
    {name} ahead
    ADD #2,R0
wrong:
    ADD #64,R0
back:
    ADD #4,R0
    TRAPA #32
    BRA out
    ADD #8,R0
ahead:
    TRAPA #32
    {taken}
    {name} back
    ADD #16,R0
    ADD #32,R0
out:
    TRAPA #32
    """
    return f"{name}, taken and not, forward and backward", handled(text)


def farthest(name, taken):
    """The extreme displacements: + 127 and - 128 words."""
    text = f"""
    BRA first
    {taken}
    .org 0x140
landed:
    TRAPA #32
    BRA finish
    NOP
    .org 0x180
first:
    {encoded(name, 127)}
    ADD #1,R0
    .org 0x200
    {taken}
middle:
    ADD #2,R0
    TRAPA #32
    {encoded(name, -128)}
    ADD #4,R0
    .org {0x184 + 254}
    BRA middle
    {taken}
    .org {0x206 + 4 - 256}
    TRAPA #32
    BRA landed
    NOP
    .org 0x2C0
    """
    return f"{name} with its extreme displacements", handled(text)


def encoded(name, displacement):
    code = {"BF": 0x8B00, "BT": 0x8900, "BF/S": 0x8F00, "BT/S": 0x8D00}[name]
    return f".word {code | displacement & 0xFF}"


def unconditional(host):
    """Forward and backward, the slot seeing PR, R15 and SR, and changing what the branch read."""
    text = delayed(host, "STS PR,R8", 0, "one") + "ADD #1,R0\none:\nTRAPA #32\n"
    text += "BRA two\nNOP\nback:\nTRAPA #32\nBRA out\nSTC SR,R9\ntwo:\n"
    text += delayed(host, "MOV R15,R8", 1, "back") + "ADD #1,R0\nout:\nTRAPA #32\n"
    for place, slot in enumerate(["MOV #2,R1", "MOV #2,R2", "MOV #2,R3", "MOV #2,R4", "LDS R0,PR", "SETT"]):
        text += delayed(host, slot, 10 + place, f"changed{place}") + f"ADD #1,R0\nchanged{place}:\nTRAPA #32\n"
    return f"{host}, forward, backward, and the slot changing its register", handled(text)


def bad_targets(host, target):
    """The slot runs, then the fetch fails; the address error saves the target."""
    lines = {"RTE": "LOAD {0},R6\nSTC.L SR,@-R15\nMOV.L R6,@-R15", "RTS": "LOAD {0},R5\nLDS R5,PR",
             "JMP": "LOAD {0},R3", "JSR": "LOAD {0},R4", "BRAF": "LOAD {0}-here-4,R1",
             "BSRF": "LOAD {0}-here-4,R2"}[host].format(target)
    branch = HOSTS[host][1]
    return ending(f"{lines}\nhere:\n{branch}\nMOV #77,R8\n")


ENDING_HANDLERS = """
illegal:
    BRA seen
    MOV #4,R10
slot:
    BRA seen
    MOV #6,R10
address:
    BRA seen
    MOV #9,R10
trap:
    MOV #32,R10
seen:
    STC SR,R14
    MOV.L @R15,R11
    MOV.L @(1,R15),R12
    SLEEP
"""


def ending(text, length=LENGTH, pc=0x100, stack=0x3F0, at=0x100):
    """An image whose exceptions show their number in R10, the saved PC in R11 and SR in R12, and sleep."""
    image = Image(length, pc, stack)
    image.code(0xC0, ENDING_HANDLERS)
    for number, label in [(4, "illegal"), (6, "slot"), (9, "address"), (32, "trap")]:
        image.long(4 * number, image.labels[label])
    return image.code(at, text)


def far_displacement(name, displacement):
    """BRA and BSR lead outside: forwards past the end, backwards below 0."""
    code = {"BRA": 0xA000, "BSR": 0xB000}[name] | displacement & 0xFFF
    return ending(f".word {code}\nMOV #77,R8\n")


def last_word(line, before="NOP"):
    """A branch in the memory's last word: its slot, or the next word, lies outside."""
    return ending(f"{before}\n{line}\n", pc=LENGTH - 4, at=LENGTH - 4)


def at_the_end_cases():
    branches = [("BRA", ".word 0xAF00"), ("BSR", ".word 0xBF00"), ("RTS", "RTS"), ("JMP", "JMP @R15"),
                ("BF taken", ".word 0x8B10"), ("BF/S taken", ".word 0x8F80"), ("BRAF", "BRAF R0"),
                ("NOP", "NOP"), ("RTE", "RTE"), ("undefined word", ".word 0xFFFF"), ("SLEEP", "SLEEP"),
                ("TRAPA", "TRAPA #32")]
    for name, line in branches:
        yield f"{name} in the last word", last_word(line)
    for name, line in [("BF not taken", ".word 0x8B10"), ("BF/S not taken", ".word 0x8F80")]:
        yield f"{name} in the last word", last_word(line, "SETT")


def sleep_cases():
    for host in ("BRA", "JSR", "RTE"):
        text = delayed(host, "SLEEP", 0, "to") + "ADD #1,R0\nto:\nADD #2,R0\nSLEEP\n"
        yield f"SLEEP in the slot of {host}", ending(text)


def cases():
    for name, taken, untaken in CONDITIONAL:
        yield conditional(name, taken, untaken)
        yield farthest(name, taken)
    for host in HOSTS:
        if host not in ("BF/S", "BT/S"):
            yield unconditional(host)
    for host in HOSTS:
        yield f"illegal words in the slot of {host}", illegal_slots(host)
    for host, target in [("JMP", 0x181), ("JSR", LENGTH), ("RTS", 0xFFFFFFFF), ("RTE", 0x80000000), ("BRAF", 0x103),
                         ("BSRF", 0xFFFFFFFE), ("RTE", 0x101), ("JMP", LENGTH - 2)]:
        yield f"{host} to H'{target:X}", bad_targets(host, target)
    for name, displacement in [("BRA", 2047), ("BRA", -2048), ("BSR", 2047), ("BSR", -2048), ("BRA", -1), ("BRA", 0)]:
        yield f"{name} with displacement {displacement}", far_displacement(name, displacement)
    yield from at_the_end_cases()
    yield from sleep_cases()
