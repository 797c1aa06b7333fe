"""Random S-record texts that are accepted, and damage to a text: what tests/srecords compares the program and the second reader over."""

from srecord_reader import ADDRESS_BYTES, CLOSING, COUNT, DATA, DIGITS, lines, record, record_line, spelled

SIZE = 65536  # bytes of memory
LETTERS = DIGITS + b"SGsg .:\r\n\x00\x80\xff"


def places(draw):
    """Address and length of data that does not overlap: close together or apart, at the memory's begin, its end or between."""
    lengths = [draw.choice((0, 1, 2, 16, draw.randrange(40), draw.randrange(200))) for _ in range(draw.randrange(9))]
    gaps = [draw.choice((0, 0, 1, draw.randrange(5000))) for _ in lengths]
    free = SIZE - sum(lengths) - sum(gaps)
    at = draw.choice((0, free, draw.randrange(free)))
    for length, gap in zip(lengths, gaps):
        yield at, length
        at += length + gap


def data_line(draw, address, length):
    """Type, address and data; without data the address may be any."""
    kind = draw.choice(DATA)
    return kind, address if length else any_address(draw, kind), draw.randbytes(length)


def any_address(draw, kind):
    return draw.randrange(256 ** ADDRESS_BYTES[kind])


def other_lines(draw, data_lines):
    """Now and then S0 and S5 lines, as they may stand behind so many data lines."""
    while draw.random() < 0.2:
        yield draw.choice(((b"S0", any_address(draw, b"S0"), draw.randbytes(draw.randrange(20))), (COUNT, data_lines, b"")))


def records(draw):
    """Type, address and data of each line of a text that is accepted."""
    data = [data_line(draw, *place) for place in places(draw)]
    if draw.random() < 0.5:
        draw.shuffle(data)
    for number, line in enumerate(data):
        yield from other_lines(draw, number)
        yield line
    yield from other_lines(draw, len(data))
    kind = draw.choice(CLOSING)
    yield kind, draw.choice((0, any_address(draw, kind))), b""


def in_some_case(draw, line):
    digits = line[2:].decode()
    mixed = "".join(draw.choice((digit.upper(), digit.lower())) for digit in digits)
    return line[:2] + draw.choice((digits, digits.lower(), mixed)).encode()


def accepted_text(draw):
    ends = draw.choice(((b"\n",), (b"\r\n",), (b"\n", b"\r\n")))
    return b"".join(in_some_case(draw, record_line(*parts, draw.choice(ends))) for parts in records(draw))


def rechecked(line, error):
    """The line with the check byte that its other bytes ask for, or by so much another; a line that has no bytes stays."""
    parts = spelled(line)
    if parts is None or not parts[1]:
        return line
    body = line.rstrip(b"\r\n")
    return body[:-2] + b"%02X" % ((0xFF - sum(parts[1][:-1]) + error) % 256) + line[len(body):]


def put(text, at, length, letters):
    """The text with letters in the place of so many of its own."""
    return text[:at] + letters + text[at + length:]


def place(draw, text):
    return draw.randrange(len(text) + 1)


def letter(draw):
    return bytes([draw.choice(LETTERS)])


def in_one_line(damage):
    """Damage to a line as damage to a text: some line of it, with the check byte right for the most part."""
    def in_text(draw, text):
        all_lines = lines(text) or [b""]
        at = draw.randrange(len(all_lines))
        error = draw.choice((0, 0, 0, 0, draw.randrange(256)))
        all_lines[at] = rechecked(damage(draw, all_lines[at], all_lines), error)
        return b"".join(all_lines)
    return in_text


def readdressed(line, address):
    """A line with another address; a line that is none stays."""
    parts = record(line)
    if parts is None:
        return line
    kind, _, data, _ = parts
    return record_line(kind, address % 256 ** ADDRESS_BYTES[kind], data, line[len(line.rstrip(b"\r\n")):])


# Damage to a line, given with all lines of its text.

def digit_changed(draw, line, _):
    return put(line, draw.randrange(2, max(len(line) - 1, 3)), 1, bytes([draw.choice(DIGITS)]))


def moved_onto_another(draw, line, all_lines):
    other = record(draw.choice(all_lines))
    return readdressed(line, (other[1] if other else 0) + draw.randrange(-20, 21))


def moved_out(draw, line, _):
    return readdressed(line, draw.choice((SIZE - draw.randrange(40), SIZE + draw.randrange(40), draw.randrange(2**32), 2**32 - 1)))


def miscounted(draw, line, all_lines):
    """An S5 line in the line's place: with the number of all lines, or of data lines, or about that."""
    count = sum(line[:2] in DATA for line in all_lines)
    return record_line(COUNT, max(0, draw.choice((len(all_lines), count, count - 1, count + 1))))


def retyped(draw, line, _):
    return put(line, 1, 1, b"%d" % draw.randrange(10))


def recounted(draw, line, _):
    """Another count of bytes, or a digit or byte too few or too many."""
    return draw.choice((
        put(line, 2, 2, b"%02X" % draw.randrange(256)),
        put(line, 4, draw.choice((1, 2)), b""),
        put(line, 4, 0, draw.choice((b"0", b"00"))),
    ))


def given_data(draw, line, _):
    parts = record(line)
    return record_line(*parts[:2], draw.randbytes(draw.randrange(1, 4))) if parts else line


# Damage to a text.

def letter_changed(draw, text):
    return put(text, place(draw, text), 1, letter(draw))


def letter_dropped(draw, text):
    return put(text, place(draw, text), 1, b"")


def letter_inserted(draw, text):
    return put(text, place(draw, text), 0, letter(draw))


def line_dropped(draw, text):
    all_lines = lines(text)
    return b"".join(put(all_lines, draw.randrange(len(all_lines)), 1, [])) if all_lines else text


def line_doubled(draw, text):
    all_lines = lines(text)
    return b"".join(put(all_lines, draw.randrange(len(all_lines) + 1), 0, [draw.choice(all_lines)])) if all_lines else text


def lines_exchanged(draw, text):
    all_lines = lines(text)
    if all_lines:
        one, other = (draw.randrange(len(all_lines)) for _ in range(2))
        all_lines[one], all_lines[other] = all_lines[other], all_lines[one]
    return b"".join(all_lines)


def line_feed_removed(draw, text):
    at = text.find(b"\n", place(draw, text))
    return put(text, at, 1, b"") if at >= 0 else text[:-1]


def carriage_return_inserted(draw, text):
    at = place(draw, text)
    return put(text, draw.choice((at, max(text.find(b"\n", at), 0))), 0, b"\r")


def line_added(draw, text):
    """A line behind the closing one: blank, or sound, or with a fault of its own."""
    kind = draw.choice(list(ADDRESS_BYTES))
    line = record_line(kind, any_address(draw, kind), draw.choice((b"", b"x")))
    return text + draw.choice((b"\n", b"\r\n", b" ", line, rechecked(line, 1)))


def end_overwritten(draw, text):
    """The memory's last bytes written, and a line that writes them again or begins beside them and goes on."""
    all_lines, last = lines(text), draw.randrange(1, 20)
    for address, length in (SIZE - last, last), (SIZE - draw.randrange(1, 40), draw.randrange(1, 40)):
        all_lines.insert(draw.randrange(len(all_lines) + 1), record_line(draw.choice(DATA), address, draw.randbytes(length)))
    return b"".join(all_lines)


def cut(draw, text):
    return text[:place(draw, text)]


def left(draw, text):
    return text


DAMAGES = [in_one_line(damage) for damage in (
    digit_changed, moved_onto_another, moved_onto_another, moved_out, miscounted, retyped, recounted, given_data,
)] + [
    letter_changed, letter_dropped, letter_inserted, line_dropped, line_doubled, lines_exchanged, line_feed_removed,
    carriage_return_inserted, line_added, end_overwritten, cut, left,
]


def damaged(draw, text):
    for _ in range(draw.choice((1, 1, 1, 2, 3))):
        text = draw.choice(DAMAGES)(draw, text)
    return text
