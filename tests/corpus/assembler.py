"""A small assembler: lines of text, written as in document 000, become words of an image.

A line is an instruction, `label:`, `.word VALUE`, `.long VALUE`, `.org ADDRESS`, `.align`, or
`LOAD VALUE,Rn`, which is MOV.L @(disp,PC),Rn from a pool placed after the last line or at `.pool`.
The lines from `.rept N` to `.endr` stand N times. A number may be hexadecimal as H'1F or 0x1F.
Displacements are written before scaling, as the manual does; a branch names its label.
"""

import re

from codes import CODES

OPERANDS = {
    "Rm": r"R(?P<m>\d+)",
    "Rn": r"R(?P<n>\d+)",
    "#imm": r"#(?P<i>[^,]+)",
    "disp": r"(?P<d>[^,R]+)",
    "label": r"(?P<label>\S+)",
}


def template(text):
    """The regular expression of an instruction's text, its operands as groups."""
    parts = re.split(r"(Rm|Rn|#imm|disp|label)", text)
    return re.compile("".join(OPERANDS.get(part) or re.escape(part) for part in parts))


TEMPLATES = [(template(text), pattern) for pattern, text in CODES]


def fill(pattern, fields):
    """A pattern's word with the fields in place of its letters."""
    word = pattern
    for letter, value in fields.items():
        width = pattern.count(letter)
        if not -(1 << width - 1) <= value < 1 << width:
            raise ValueError(f"{letter} = {value} does not fit {pattern}")
        digits = format(value & (1 << width) - 1, f"0{width}b")
        word = word.replace(letter * width, digits)
    return int(word, 2)


def find(line):
    for expression, pattern in TEMPLATES:
        match = expression.fullmatch(line)
        if match:
            return pattern, match.groupdict()
    raise ValueError(f"no such instruction: {line}")


def encode(line, address=0, labels=None):
    """The word of an instruction at an address."""
    pattern, operands = find(line)
    fields = {}
    for name, text in operands.items():
        if name == "label":
            fields["d"] = (value(text, labels) - address - 4) // 2
        elif text is not None:
            fields[name] = value(text, labels)
    return fill(pattern, fields)


def value(text, labels=None):
    """A number, a label, or a sum or difference of them."""
    total, sign = 0, 1
    for part in re.findall(r"[+-]|[^+-]+", text.replace(" ", "")):
        if part in "+-":
            sign = -1 if part == "-" else 1
        else:
            total += sign * (labels[part] if labels and part in labels else literal(part))
            sign = 1
    return total


def literal(text):
    return int(text[2:], 16) if text.startswith("H'") else int(text, 0)


def repeat(text):
    """The text with what stands from each `.rept N` to its `.endr` written N times."""
    return re.sub(r"\.rept (\d+).*\n((?s:.*?))\.endr", lambda found: found[2] * int(found[1]), text)


class Assembly:
    """Lines laid out from a start address: bytes by address, and the labels."""

    def __init__(self, start, text):
        self.labels, self.placed, self.pool = {}, [], {}
        self.at = start
        for line in repeat(text).splitlines():
            line = line.split(";")[0].strip()
            if line:
                self.lay(line)
        self.lay_pool()

    def lay(self, line):
        word, _, rest = line.partition(" ")
        if line.endswith(":"):
            self.labels[line[:-1]] = self.at
        elif word == ".org":
            self.at = value(rest)
        elif word == ".align":
            self.at += -self.at % 4
        elif word == ".pool":
            self.lay_pool()
        else:
            self.placed.append((self.at, line))
            self.at += 4 if word == ".long" else 2
            if word == "LOAD":
                self.pool.setdefault(rest.rsplit(",", 1)[0], None)

    def lay_pool(self):
        waiting = [text for text, address in self.pool.items() if address is None]
        if waiting:
            self.lay(".align")
        for text in waiting:
            self.pool[text] = self.at
            self.lay(f".long {text}")

    def pieces(self):
        """(address, bytes) for every line."""
        for address, line in self.placed:
            word, _, rest = line.partition(" ")
            if word in (".word", ".long"):
                size = 2 if word == ".word" else 4
                number = value(rest, self.labels) & (1 << 8 * size) - 1
            else:
                size, number = 2, self.instruction(address, line)
            yield address, number.to_bytes(size, "big")

    def instruction(self, address, line):
        word, _, rest = line.partition(" ")
        if word != "LOAD":
            return encode(line, address, self.labels)
        text, register = rest.rsplit(",", 1)
        displacement = (self.pool[text] - (address + 4 & ~3)) // 4
        return encode(f"MOV.L @({displacement},PC),{register}")
