"""The figures that document 01 names or prints: tables, limits, refusal numbers.

The Reed-Muller parity part (EN 300 392-2, 8.2.3.2) and the class tables of the speech bits
(EN 300 395-2, table 4) are named there and printed in the original; the rest is printed there.
"""

LIMIT, SHORT, ROOM, BIT, SHUFFLE, WORD, FIELD, KIND = range(1, 9)  # 9 is retired: a new refusal takes the next number from 10 on

MOST_STEPS = 864
MOST_ENTRIES = 4096
MOST_MULTIPLIER = 65535

SCRAMBLING_TAPS = (0, 6, 9, 10, 16, 20, 21, 22, 24, 25, 27, 28, 30, 31)

# Each generator as the delays that it sums.
CONTROL = ((0, 1, 4), (0, 2, 3, 4), (0, 1, 2, 4), (0, 1, 3, 4))
CONTROL_THIRD = CONTROL[:3]
SPEECH = ((0, 1, 2, 3, 4), (0, 1, 3, 4), (0, 2, 4))

# Mode: outputs kept in a period, mother positions of a period, outputs after which one is skipped, kept positions.
MODES = (
    (3, 8, None, (1, 2, 5)),
    (6, 8, None, (1, 2, 3, 5, 6, 7)),
    (3, 8, 65, (1, 2, 5)),
    (6, 8, 35, (1, 2, 3, 5, 6, 7)),
    (3, 6, None, (1, 2, 4)),
    (9, 12, None, (1, 2, 3, 4, 5, 7, 8, 10, 11)),
    (17, 24, None, (1, 2, 3, 4, 5, 7, 8, 10, 11, 13, 14, 16, 17, 19, 20, 22, 23)),
)

# Kind: data, word, air, multiplier.
KINDS = {
    1: (60, 80, 120, 11),
    2: (92, 112, 168, 13),
    3: (124, 144, 216, 101),
    4: (268, 288, 432, 103),
}

CLASS_0 = (
    35, 36, 37, 38, 39, 40, 41, 42, 43, 47, 48, 56, 61, 62, 63, 64, 65, 66, 67, 68, 69, 70, 74, 75, 83, 88,
    89, 90, 91, 92, 93, 94, 95, 96, 97, 101, 102, 110, 115, 116, 117, 118, 119, 120, 121, 122, 123, 124,
    128, 129, 137,
)
CLASS_1 = (
    58, 85, 112, 54, 81, 108, 135, 50, 77, 104, 131, 45, 72, 99, 126, 55, 82, 109, 136, 5, 13, 34, 8, 16,
    17, 22, 23, 24, 25, 26, 6, 14, 7, 15, 60, 87, 114, 46, 73, 100, 127, 44, 71, 98, 125, 33, 49, 76, 103,
    130, 59, 86, 113, 57, 84, 111,
)
CLASS_2 = (
    18, 19, 20, 21, 31, 32, 53, 80, 107, 134, 1, 2, 3, 4, 9, 10, 11, 12, 27, 28, 29, 30, 52, 79, 106, 133,
    51, 78, 105, 132,
)

REED_MULLER = (
    "1001101101100000",
    "0010110111100000",
    "1111110000100000",
    "1110000000111100",
    "1001100000111010",
    "0101010000110110",
    "0010110000101110",
    "1111111111011111",
    "1000001100111001",
    "0100001010110101",
    "0010000110101101",
    "0001001001110011",
    "0000100101101011",
    "0000010011100111",
)
