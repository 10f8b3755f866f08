"""The figures of document 01 and the standards by another way, for selftest.py alone.

Nothing here comes from tables.py or coding.py. Polynomials are numbers whose bit i is the coefficient of degree i,
patterns are drawn, and places are found from where an entry lands, not from where it starts.
"""

import zlib

# ---- polynomials mod 2


def product(p, q):
    total = 0
    while q:
        if q & 1:
            total ^= p
        p, q = p << 1, q >> 1
    return total


def remainder(p, divisor):
    degree = divisor.bit_length() - 1
    while p >> degree:
        p ^= divisor << (p.bit_length() - 1 - degree)
    return p


def number(bits):
    """The first bit on top."""
    return int("".join(map(str, bits)) or "0", 2)


def digits(value, n):
    """The top bit first."""
    return [int(digit) for digit in format(value, "0%db" % n)] if n else []


# ---- check register: X^16 + X^12 + X^5 + 1

CHECK = 1 << 16 | 1 << 12 | 1 << 5 | 1


def register(start, bits):
    """The start stands on top of the first sixteen bits of the data times X^16."""
    return remainder(start << len(bits) ^ number(bits) << 16, CHECK)


def checked(data):
    return data + digits(0xFFFF ^ register(0xFFFF, data), 16)


# ---- scrambling: 392, 8.2.5.2 has c(X) with the powers of the 32-bit check polynomial that zlib uses
# 32, 26, 23, 22, 16, 12, 11, 10, 8, 7, 5, 4, 2, 1, 0; output k is the sum of the outputs i before it, for each power i over 0.

BACK = (1, 2, 4, 5, 7, 8, 10, 11, 12, 16, 22, 23, 26, 32)


def powers_in_zlib():
    """What one byte 0x80 leaves in zlib's register is its polynomial without the 32, the coefficient of degree 0 on top."""
    left = zlib.crc32(b"\x80", 0xFFFFFFFF) ^ 0xFFFFFFFF
    return tuple(degree for degree in range(1, 32) if left >> (31 - degree) & 1) + (32,)


def scrambling(start, n):
    """The start's bit 31 counts as the output just before the first, its bit 0 as the one 32 before it."""
    outputs = [start >> i & 1 for i in range(32)]
    for _ in range(n):
        outputs.append(sum(outputs[-i] for i in BACK) % 2)
    return outputs[32:]


# ---- Reed-Muller (30, 14): the words of the fourteen data bits, as the original prints them beside the table

ROWS = (
    0x20009B60, 0x10002DE0, 0x0800FC20, 0x0400E03C, 0x0200983A, 0x01005436, 0x00802C2E, 0x0040FFDF, 0x00208339,
    0x001042B5, 0x000821AD, 0x00041273, 0x0002096B, 0x000104E7,
)

# ---- speech classes: 395, table 4, by what the bits are
# A frame has 26 bits for the filter (fields of 8, 9 and 9) and four parts. The first part has 30 bits and the others 27, for
# they have three bits fewer for the pitch; counted from the end of the parts all four are alike. `at` is a place in the
# last 27 bits of a part, from 0.


def parts(at, first=True):
    return [begin + at for begin in ((30,) if first else ()) + (57, 84, 111)]


def speech_classes():
    zero = []
    for begin in (30, 57, 84, 111):
        zero += [begin + at for at in range(4 if begin > 30 else 5, 14)] + [begin + 17, begin + 18, begin + 26]
    one = parts(1, False) + parts(24) + parts(20) + parts(15) + parts(25)
    one += [5, 13, 34, 8, 16, 17] + list(range(22, 27)) + [6, 14, 7, 15]
    one += parts(3, False) + parts(16) + parts(14) + [33] + parts(19) + parts(2, False) + parts(0, False)
    two = list(range(18, 22)) + [31, 32] + parts(23)
    two += list(range(1, 5)) + list(range(9, 13)) + list(range(27, 31)) + parts(22) + parts(21)
    return zero, one, two


def codec_places():
    """For each channel entry its codec entry, from 0: the first frame's, then the second's."""
    return [place - 1 + frame for each in speech_classes() for place in each for frame in (0, 137)]


# ---- mother codes: the generators as polynomials in D

CONTROL = (0b10011, 0b11101, 0b10111, 0b11011)
SPEECH = (0b11111, 0b11011, 0b10101)


def mother(generators, bits):
    """Every output is a product of polynomials; the first bit has degree 0."""
    word = number(bits[::-1])
    outputs = [product(word, generator) for generator in generators]
    return [output >> step & 1 for step in range(len(bits)) for output in outputs]


# ---- puncturing: a period of each mode as it is drawn, a step's outputs together, 1 for kept; and which of the kept ones is
# left out again, counted from 1

PATTERNS = (
    ("1100 1000", None),
    ("1110 1110", None),
    ("1100 1000", 66),
    ("1110 1110", 36),
    ("110 100", None),
    ("111 110 110 110", None),
    ("111 110 110 110 110 110 110 110", None),
)


def kept(mode, length):
    """The mother positions, from 1 to length, that are kept."""
    pattern, left_out = PATTERNS[mode]
    pattern = pattern.replace(" ", "")
    places = [place for place in range(1, length + 1) if pattern[(place - 1) % len(pattern)] == "1"]
    return [place for turn, place in enumerate(places, 1) if left_out is None or turn % left_out]


# ---- speech check


def speech_check(data):
    """The powers of X from the seventh on, each X times the one before it, by X^7 = X^3 + 1."""
    power, total = 0b0001001, 0
    for bit in data:
        total ^= bit * power
        power <<= 1
        if power >> 7:
            power ^= 0b10001001
    remainder_bits = [total >> degree & 1 for degree in range(7)]
    return remainder_bits + [(sum(data) + sum(remainder_bits)) % 2]


# ---- chains

# Kind: data bits, and the number that times `a` leaves 1 when divided by the air count:
# 11 * 11 = 120 + 1, 13 * 13 = 168 + 1, 101 * 77 = 36 * 216 + 1, 103 * 151 = 36 * 432 + 1.
KINDS = {1: (60, 11), 2: (92, 13), 3: (124, 77), 4: (268, 151)}


def control_air(kind, start, data):
    count, back = KINDS[kind]
    assert len(data) == count
    word = checked(data) + [0, 0, 0, 0]
    outputs = mother(CONTROL, word)
    sent = [outputs[place - 1] for place in kept(0, len(outputs))]
    air = len(sent)
    # Air place q, from 0, holds what was at place i with a i = q, that is i = back q; the one that leaves 0 was last.
    mixed = [sent[(back * place % air or air) - 1] for place in range(air)]
    return [bit ^ output for bit, output in zip(mixed, scrambling(start, air))]


def speech_air(start, codec):
    channel = [codec[place] for place in codec_places()]
    coded = channel[102:] + speech_check(channel[214:]) + [0, 0, 0, 0]
    outputs = mother(SPEECH, coded)
    first, second = outputs[:336], outputs[336:]
    slot = channel[:102] + [first[place - 1] for place in kept(4, 336)] + [second[place - 1] for place in kept(5, 216)]
    mixed = [entry for column in range(18) for entry in slot[column::18]]
    return [bit ^ output for bit, output in zip(mixed, scrambling(start, 432))]


def access_air(start, data):
    word = 0
    for row, bit in zip(ROWS, data):
        word ^= bit * row
    return [bit ^ output for bit, output in zip(digits(word, 30), scrambling(start, 30))]
