"""A second reader of S-record text, in the words of request One of document 02.

judge(text, size) is the refusal's number and the line that it is about for a memory of size bytes, (0, 0) for a text that
is accepted; load(text, memory) is the same, and writes an accepted text's data. The memory's own length, refusals 1 and 2,
is not looked at. record_line(kind, address, data) is a line with its check byte.
"""

ADDRESS_BYTES = {b"S0": 2, b"S1": 2, b"S2": 3, b"S3": 4, b"S5": 2, b"S7": 4, b"S8": 3, b"S9": 2}
DATA, COUNT, CLOSING = (b"S1", b"S2", b"S3"), b"S5", (b"S7", b"S8", b"S9")
DIGITS = b"0123456789ABCDEFabcdef"


def lines(text):
    """The text cut behind each line feed; what no line feed ends is a line too."""
    *ended, rest = text.split(b"\n")
    return [line + b"\n" for line in ended] + ([rest] if rest else [])


def spelled(line):
    """The two parts of a line, its type and its bytes, or None where a letter, the type or the line end is bad."""
    if not line.endswith(b"\n"):
        return None
    body = line[:-2] if line.endswith(b"\r\n") else line[:-1]
    kind, digits = body[:2], body[2:]
    if kind not in ADDRESS_BYTES or len(digits) % 2 or any(digit not in DIGITS for digit in digits):
        return None
    return kind, bytes.fromhex(digits.decode())


def record(line):
    """Type, address, data, and whether the check byte is right; None for refusal 10."""
    if (parts := spelled(line)) is None:
        return None
    kind, whole = parts
    start = 1 + ADDRESS_BYTES[kind]  # where the data begins, behind count and address
    if len(whole) < start + 1 or whole[0] != len(whole) - 1:
        return None
    data = whole[start:-1]
    if data and (kind == COUNT or kind in CLOSING):
        return None
    return kind, int.from_bytes(whole[1:start], "big"), data, sum(whole) % 256 == 0xFF


def record_line(kind, address, data=b"", end=b"\n"):
    body = address.to_bytes(ADDRESS_BYTES[kind], "big") + data
    counted = bytes([len(body) + 1]) + body
    return kind + (counted + bytes([0xFF - sum(counted) % 256])).hex().upper().encode() + end


class Text:
    """What the lines so far have left: the bytes that they write, how many data lines, and whether the last one has come."""

    def __init__(self, size):
        self.size, self.written, self.data_lines, self.closed = size, {}, 0, False

    def refusal(self, line):
        """The number for which the next line is refused, or 0; the first in the request's order."""
        parts = None if self.closed else record(line)
        if parts is None:
            return 10
        kind, address, data, checked = parts
        named = range(address, address + len(data)) if kind in DATA else range(0)
        if not checked:
            return 11
        if any(at >= self.size for at in named):
            return 12
        if any(at in self.written for at in named):
            return 13
        if kind == COUNT and address != self.data_lines:
            return 14
        self.written.update(zip(named, data))
        self.data_lines += kind in DATA
        self.closed = kind in CLOSING
        return 0


def read(text, size):
    """Number, line, and the bytes by address that the text writes: none if it is refused."""
    so_far = Text(size)
    for number, line in enumerate(lines(text), 1):
        if refusal := so_far.refusal(line):
            return refusal, number, {}
    return (0, 0, so_far.written) if so_far.closed else (15, 0, {})


def judge(text, size):
    return read(text, size)[:2]


def load(text, memory):
    number, line, written = read(text, len(memory))
    for address, byte in written.items():
        memory[address] = byte
    return number, line
