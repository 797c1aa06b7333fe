"""Makes crates/division_runs/stdout: python3 tests/division.py > crates/division_runs/stdout

The results come from Python's own integers: for high < divisor the quotient and remainder of the 64-bit number (document 01, "The
division, in full"), for divisor 0 the complement; for the other inputs, which "fall under the step rules alone", DIV1's rule of document
01 ("Instructions with corners") applied 32 times. The first four cases are document 01's, and what it says of them is asserted here.
"""

MASK = 0xFFFFFFFF
DOCUMENT_01 = [
    (0, 100, 7, (14, 0xFFFFFFFB, 1)),
    (1, 0, 3, (0x55555555, 1, 0)),
    (6, 0xFFFFFFFF, 7, (0xFFFFFFFF, 6, 0)),
    (0, 100, 0, (0xFFFFFFFF, 100, 0)),
]
MORE = [
    (0, 0, 1), (0, 0xFFFFFFFF, 1), (0, 1, 1), (0, 12345678, 1),
    (6, 0, 7), (0x7FFFFFFE, 0xFFFFFFFF, 0x7FFFFFFF), (0xFFFFFFFD, 0x89ABCDEF, 0xFFFFFFFE), (0x7FFFFFFF, 5, 0x80000000),
    (0, 0, 0xFFFFFFFF), (0xFFFFFFFE, 0, 0xFFFFFFFF), (0xFFFFFFFE, 0xFFFFFFFF, 0xFFFFFFFF), (0x12345678, 0x9ABCDEF0, 0xFFFFFFFF),
    (0, 0, 0), (1, 0, 0), (0xFFFFFFFF, 0xFFFFFFFF, 0), (0x80000000, 0x7FFFFFFF, 0), (0x12345678, 0x9ABCDEF0, 0),
    (7, 100, 7), (0xFFFFFFFF, 0xFFFFFFFF, 1), (0x80000000, 0, 3), (0xFFFFFFFF, 0, 0xFFFFFFFF), (5, 0xFFFFFFFF, 2),
    (0x0000ABCD, 0x12345678, 0x0000ABCE), (0, 86400, 3600),
]


def by_steps(high, low, divisor):
    q = t = 0
    for _ in range(32):
        low, t = low << 1 & MASK | t, low >> 31
        old, q = q, high >> 31
        high = high << 1 & MASK | t
        if old == 0:
            borrow, high = int(high < divisor), high - divisor & MASK
        else:
            borrow, high = int(high + divisor > MASK), high + divisor & MASK
        q ^= borrow
        t = int(q == 0)
    return low << 1 & MASK | t, high, q, low >> 31


def expected(high, low, divisor):
    if divisor == 0:
        return ~high & MASK, low, high & 1, 0
    if high < divisor:
        quotient, rest = divmod(high << 32 | low, divisor)
        return quotient, rest if quotient % 2 else rest - divisor & MASK, 1 - quotient % 2, 0
    return by_steps(high, low, divisor)


def main():
    for high, low, divisor, stated in DOCUMENT_01:
        assert expected(high, low, divisor)[:3] == stated
    cases = [case[:3] for case in DOCUMENT_01] + MORE
    for high, low, divisor in cases:
        if divisor == 0 or high < divisor:
            assert by_steps(high, low, divisor) == expected(high, low, divisor)
        for cut in range(4):
            numbers = "%08x %08x %x %x" % expected(high, low, divisor)
            print("%08x:%08x / %08x cut %d: %s 66" % (high, low, divisor, cut, numbers))


main()
