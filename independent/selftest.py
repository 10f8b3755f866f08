"""Holds coding.py against document 01, the standards and byhand.py, which reaches their figures by another way.

    python3 independent/selftest.py              all tests
    python3 independent/selftest.py --planted    each number of tables.py and coding.py changed by one, each entry of the
                                                 Reed-Muller table, each two refusals in the other order, each "below"
                                                 made "up to": the tests must fail every time
    python3 independent/selftest.py --planted tables.py    the same for one of the two files
"""

import ast
import binascii
import os
import random
import sys
import types

sys.dont_write_bytecode = True
import byhand

HERE = os.path.dirname(os.path.abspath(__file__))
LIMIT, SHORT, ROOM, BIT, SHUFFLE, WORD, FIELD, KIND = 1, 2, 3, 4, 5, 6, 7, 8
KEPT = 7  # what a target holds before: no bit and no erasure

tests = 0


class Wrong(Exception):
    pass


def same(what, got, expected):
    global tests
    tests += 1
    if got != expected:
        raise Wrong("%s: %.300r, and not %.300r" % (what, got, expected))


def bits(text):
    return [int(digit) for digit in text.replace(" ", "")]


# Answers as they stand in coding.py: case, value, number, state.


def answered(case, value=0, number=0, state=None):
    return case, value, number, state


def done(value=0):
    return answered("done", value)


def refused(number, state=None):
    return answered("refused", 0, number, state)


def drawn(chance, n):
    return [chance.randrange(2) for _ in range(n)]


def writes(what, entry, arguments, expected, trellis=None, answer=("done", 0, 0), spare=3):
    """The entry leaves what is expected at the front of the target, nothing behind it, and zeros in the used trellis."""
    target, used = [KEPT] * (len(expected) + spare), [KEPT] * ((trellis or 0) + spare)
    said = entry(*arguments, target) if trellis is None else entry(*arguments, target, used)
    same(what, tuple(said[:3]), answer)
    same(what, target, list(expected) + [KEPT] * spare)
    same(what + ": trellis", used, [0] * (trellis or 0) + [KEPT] * spare)


# ---- the figures, each decided by a value of its own


def check_register(c):
    same("no bits", c.crc_register(0xFFFF, []), 0xFFFF)
    same("bit 0", c.crc_register(0xFFFF, [0]), 0xEFDF)
    same("bit 1", c.crc_register(0xFFFF, [1]), 0xFFFE)
    same("the top alone", c.crc_register(0x8000, [0]), 0x1021)
    nine = b"123456789"  # the text that check registers are published with
    same("123456789", c.crc16_itut_bytes(0xFFFF, 72, nine), done(0x29B1))
    same("123456789 from 0", c.crc16_itut_bytes(0, 72, nine), done(0x31C3))
    chance = random.Random(4)
    for n in (0, 1, 2, 17):
        text, start = bytes(chance.randrange(256) for _ in range(n)), chance.randrange(65536)
        same("bytes", c.crc16_itut_bytes(start, 8 * n, text), done(binascii.crc_hqx(text, start)))
        same("a bit too many", c.crc16_itut_bytes(start, 8 * n + 1, text), refused(SHORT))
    for n in (1, 3, 8, 15, 16, 60, 61):
        data, start = drawn(chance, n), chance.randrange(65536)
        same("bits", c.crc_register(start, data), byhand.register(start, data))
        same("check", data + c.control_check(data), byhand.checked(data))
        lowest = [bit + 2 * chance.randrange(128) for bit in data]
        same("lowest bits", c.crc16_itut_bits(start, n - 1, lowest), done(byhand.register(start, data[:-1])))
        same("all there are", c.crc16_itut_bits(start, n + 1, lowest), done(byhand.register(start, data)))
        same("from 0xffff", c.crc16_ccitt_bits(n, lowest), done(byhand.register(0xFFFF, data)))
        same("0x1d0f", c.crc_register(0xFFFF, data + c.control_check(data)), 0x1D0F)


def scrambling(c):
    same("powers", byhand.powers_in_zlib(), byhand.BACK)
    same("scrambling from 3", c.scrambling_bits(3, 6), bits("101111"))
    same("scrambling from 0", c.scrambling_bits(0, 40), [0] * 40)
    for bit in range(32):
        same("from bit %d" % bit, c.scrambling_bits(1 << bit, 1), [1 if 32 - bit in byhand.BACK else 0])
    for start in (0x400107, 0xFFFFFFFF):
        outputs = byhand.scrambling(start, 70)
        same("outputs", c.scrambling_bits(start, 70), outputs)
        lent = [9] * 70
        same("get_bits", (c.tetra_scramb_get_bits(start, lent), lent), (done(), outputs))
        lent = [0, 1] * 35
        expected = [i % 2 ^ output for i, output in enumerate(outputs)]
        same("sending", (c.tetra_scramb_bits(start, lent), lent), (done(), expected))
        same("receiving", (c.tetra_descramb_bits(start, lent), lent), (done(), [0, 1] * 35))
        lent = [1, 0, 2]
        same("a 2", (c.tetra_scramb_bits(start, lent), lent), (refused(BIT), [1, 0, 2]))
        same("a gap", (c.tetra_descramb_bits(start, lent), lent), (done(), [1 ^ outputs[0], outputs[1], 0xFF]))


def start_values(c):
    for fields, expected in (
        ((1, 1, 1), 0x400107), ((0, 0, 1), 7), ((0, 0, 63), 0xFF), ((0, 1, 1), 0x107), ((0, 16383, 1), 0x3FFF07),
        ((1, 0, 1), 0x400007), ((1023, 0, 1), 0xFFC00007), ((1023, 16383, 63), 0xFFFFFFFF), ((5, 5, 0), 0),
    ):
        same("start of %r" % (fields,), c.tetra_scramb_get_init(*fields), done(expected))
    for fields in ((1024, 0, 0), (0, 16384, 0), (0, 0, 64)):
        same("start of %r" % (fields,), c.tetra_scramb_get_init(*fields), refused(FIELD))


def interleaving(c):
    writes("k 6, a 5", c.block_interleave, (6, 5, list(b"abcdefg")), b"fedcba")
    writes("k 5, a 2", c.block_interleave, (5, 2, list(b"abcde")), b"ecadb")
    writes("k 5, a 2, back", c.block_deinterleave, (5, 2, list(b"ecadb")), b"abcde", spare=0)
    writes("k 1, a 0", c.block_interleave, (1, 0, [9]), [9])
    writes("2 by 3", c.matrix_interleave, (2, 3, list(b"abcdefg")), b"adbecf")
    writes("2 by 3, back", c.matrix_deinterleave, (2, 3, list(b"adbecf")), b"abcdef", spare=0)
    long = [i % 251 for i in range(4096)]
    for entry in (c.block_interleave, c.block_deinterleave):
        # 65,535 leaves 4,095 when divided by 4,096, which is one step back at each place.
        writes("the limits", entry, (4096, 65535, long), long[::-1])
    for entry in (c.matrix_interleave, c.matrix_deinterleave):
        for lines, columns in ((1, 4096), (4096, 1)):
            writes("the limits", entry, (lines, columns, long), long)
        writes("nothing of many", entry, (0, 4096, []), [])
        writes("nothing of many", entry, (4096, 0, []), [])


def reed_muller(c):
    for i, row in enumerate(byhand.ROWS):
        same("row %d" % (i + 1), c.tetra_rm3014_compute(1 << (13 - i)), done(row))
        # The code of 32 places that this one is cut from is its own dual, and counts of ones in its words divide by 4.
        same("ones in row %d" % (i + 1), c.rm_word(1 << (13 - i)).bit_count() % 4, 0)
        for j in range(i):
            same("rows %d and %d" % (i + 1, j + 1), (c.rm_word(1 << (13 - i)) & c.rm_word(1 << (13 - j))).bit_count() % 2, 0)
    every = 0
    for row in byhand.ROWS:
        every ^= row
    same("all rows", c.tetra_rm3014_compute(0x3FFF), done(every))
    same("one too many", c.tetra_rm3014_compute(0x4000), refused(WORD))
    for entry in (c.tetra_rm3014_decode_naive, c.compute_syndrome, c.tetra_rm3014_decode_limited_ecc):
        same("2^30", entry(1 << 30), refused(WORD))
    same("naive", c.tetra_rm3014_decode_naive(0x3FFFFFFF), done(0x3FFF))
    same("clean", c.tetra_rm3014_decode_limited_ecc(every), answered("clean", 0x3FFF))
    same("no syndrome", c.compute_syndrome(every), done(0))
    for place in range(1, 31):
        wrong = every ^ 1 << (30 - place)
        same("one wrong bit", c.tetra_rm3014_decode_limited_ecc(wrong), answered("mended", 0x3FFF, place))
        if place > 14:
            same("syndrome", c.compute_syndrome(wrong), done(1 << (place - 15)))
    same("syndrome of a row", c.compute_syndrome(1 << 29), done(int("1001101101100000"[::-1], 2)))
    same("RM 0x30009b61", c.rm_verdict(0x30009B61), answered("beyond", 0x3000))


def speech_order(c):
    for name, got, expected in zip("012", (c.CLASS_0, c.CLASS_1, c.CLASS_2), byhand.speech_classes()):
        same("class " + name, list(got), expected)
    places = byhand.codec_places()
    codec = [(3 * i + i // 256) % 256 for i in range(274)]
    writes("to channel", c.codec_to_channel, (codec + [1],), [codec[place] for place in places])
    writes("to codec", c.channel_to_codec, ([codec[place] for place in places],), codec, spare=0)


def mother_codes(c):
    impulse = bits("10000")
    for entry, text in (
        (c.encode, "1111 1011 0110 0101 1111"), (c.encode_rate1_3, "111 101 011 010 111"), (c.encode_speech, "111 110 101 110 111"),
    ):
        target = [KEPT] * len(bits(text))
        same("10000", (entry([0] * 4, impulse, target), target), (answered("done", 0, 0, [0] * 4), bits(text)))
        held = [KEPT] * 3
        same("no input", (entry([9, 0, 5, 1], [], held), held), (answered("done", 0, 0, [9, 0, 5, 1]), [KEPT] * 3))
    word = drawn(random.Random(5), 40)
    for entry, code in ((c.encode, byhand.CONTROL), (c.encode_speech, byhand.SPEECH)):
        n = len(code)
        first, second = [KEPT] * (n * 17), [KEPT] * (n * 23)
        state = entry([0] * 4, word[:17], first).state
        same("delays", state, word[13:17][::-1])
        entry(state, word[17:], second)
        same("two calls", first + second, byhand.mother(code, word))
    long = drawn(random.Random(6), 4096)
    target = [KEPT] * (4 * 4096)
    same("4,096 bits", (c.encode([0] * 4, long, target).case, target), ("done", byhand.mother(byhand.CONTROL, long)))


def puncturing(c):
    for mode in range(7):
        kept = byhand.kept(mode, 1200)
        mother_word = [(7 * i + i // 256) % 256 for i in range(1, kept[-1] + 1)]
        outputs = [mother_word[place - 1] for place in kept]
        writes("mode %d" % mode, c.get_punctured_rate, (mode, len(kept), mother_word), outputs)
        back = [KEPT] * len(mother_word)
        for place, output in zip(kept, outputs):
            back[place - 1] = output
        writes("mode %d, back" % mode, c.tetra_rcpc_depunct, (mode, len(kept), outputs), back)
        short = mother_word[:-1]
        same("mode %d, one short" % mode, c.get_punctured_rate(mode, len(kept), short, [0] * 999).number, SHORT)
        for entry in (c.get_punctured_rate, c.tetra_rcpc_depunct):
            same("mode %d, none" % mode, entry(mode, 0, [], []), done())
            same("mode %d, one" % mode, entry(mode, 1, [], []), refused(SHORT))
        same("mode %d, one" % mode, c.tetra_rcpc_depunct(mode, 1, [1], []), refused(ROOM))
        for entry in (c.get_punctured_rate, c.tetra_rcpc_depunct):
            same("mode %d, 4,096" % mode, entry(mode, 4096, [1] * 14000, [0] * 14000), done())
    same("k(66) in 292_432", c.kept_position(2, 66), 177)
    same("bit 44 in 2_3", [place for place in byhand.kept(0, 200) if (place - 1) // 4 + 1 == 44], [173])
    same("173 in 292_432", 173 in byhand.kept(2, 200), False)


def comparing(c):
    for sent, received, expected in (
        ("", "", ("matched", 0)), ("01", "01", ("matched", 2)), ("01", "00", ("differs", 0)), ("010", "01", ("matched", 2)),
        ("01", "011", ("matched", 2)),
    ):
        same("compared", c.mother_memcmp(bits(sent), bits(received))[:2], expected)
    same("a gap received", c.mother_memcmp([0, 1, 1], [0xFF, 1, 0xFF])[:2], ("matched", 1))
    same("a gap sent", c.mother_memcmp([0xFF, 1], [0, 1])[:2], ("differs", 0))


def speech_check(c):
    writes("bit 0", c.speech_crc, ([1] + [0] * 59,), bits("1001 0001"), spare=0)
    # X^7 = X^3 + 1, so X^8 = X^4 + X, X^16 = X^8 + X^2 = X^4 + X^2 + X, X^32 = X^8 + X^4 + X^2 = X^2 + X, X^64 = X^4 + X^2, and
    # the last data bit's X^66 is X^6 + X^4; byhand.py has the powers between.
    writes("bit 59", c.speech_crc, ([0] * 59 + [1],), bits("0000 1011"), spare=0)
    chance = random.Random(7)
    for place in range(60):
        data = [int(i == place) for i in range(60)]
        writes("bit %d" % place, c.speech_crc, (data,), byhand.speech_check(data))
    data = drawn(chance, 60)
    odd = [bit + 2 * chance.randrange(128) for bit in data]
    writes("lowest bits", c.speech_crc, (odd + [1],), byhand.speech_check(data))


def chains_sent(c):
    chance = random.Random(8)
    for kind, (count, _) in byhand.KINDS.items():
        start, data = chance.randrange(2**32), drawn(chance, count)
        writes("kind %d" % kind, c.encode_cp, (kind, start, data + [2]), byhand.control_air(kind, start, data), spare=kind % 2)
    start, codec = chance.randrange(2**32), drawn(chance, 274)
    air = byhand.speech_air(start, codec)
    writes("speech", c.encode_tp, (start, codec + [2]), air)
    writes("second half", c.encode_tp_half, (start, codec + [2]), air[216:], spare=0)
    start, data = chance.randrange(2**32), drawn(chance, 14)
    writes("access field", c.encode_aach, (start, data + [2]), byhand.access_air(start, data), spare=0)


# ---- what is received


def damaged(air, wrong, erased):
    return [0xFF if i in erased else symbol ^ (i in wrong) for i, symbol in enumerate(air)]


def control_received(c):
    chance = random.Random(9)
    for kind, (count, _) in byhand.KINDS.items():
        start, data = chance.randrange(2**32), drawn(chance, count)
        word = byhand.checked(data) + [0] * 4
        air = damaged(byhand.control_air(kind, start, data), {40}, {7})
        writes("kind %d" % kind, c.decode_cp, (kind, start, air + [9]), word, len(word), ("good", 1, 0))
    for flip in (0, 60, 75):
        # A word whose check does not fit it, sent as it stands.
        odd = [bit ^ (i == flip) for i, bit in enumerate(byhand.checked([0] * 60) + [0] * 4)]
        writes("bit %d" % flip, c.decode_cp, (1, 0x400107, as_control(1, 0x400107, odd)), odd, 80, ("bad", 0, 0))


def landed(entry):
    """Where an entry of the slot, from 0, is on the air."""
    return entry % 18 * 24 + entry // 18


def speech_received(c):
    chance = random.Random(12)
    start, codec = chance.randrange(2**32), drawn(chance, 274)
    codec[byhand.codec_places()[101]] = 1
    air = byhand.speech_air(start, codec)
    unread = list(codec)
    unread[byhand.codec_places()[101]] = 0
    # The first and the last symbol of class 1 and the last of class 2 are wrong, the last uncoded one is missing.
    wrong = damaged(air, {landed(102), landed(269), landed(431)}, {landed(101)})
    writes("speech, three wrong, a gap", c.decode_tp, (start, wrong + [9]), unread, 184, ("good", 3, 0))
    half = [KEPT] * 277
    same("second half", c.decode_tp_half(start, air[216:], half, [KEPT] * 184), answered("good"))
    writes("second half and 216 gaps", c.decode_tp, (start, [0xFF] * 216 + air[216:]), half[:274], 184, ("good", 0, 0))
    same("behind it", half[274:], [KEPT] * 3)


def speech_tail(c):
    """What stands on the air is the word whose only 1 is the first of the four last bits, which no candidate has."""
    sent = [0] * 180 + [1, 0, 0, 0]
    second = byhand.mother(byhand.SPEECH, sent)[336:]
    known = [second[place - 1] for place in byhand.kept(5, 216)]
    slot = [0xFF] * 270 + [symbol if i >= 150 else 0xFF for i, symbol in enumerate(known)]
    air = [slot[place] for place in sorted(range(432), key=landed)]
    least = min(
        sum(s != y for s, y in zip(slot[420:], [other[place - 1] for place in byhand.kept(5, 216)][150:]))
        for number in range(256)
        for other in [byhand.mother(byhand.SPEECH, [0] * 172 + byhand.digits(number, 8) + [0] * 4)[336:]]
    )
    same("least", least > 0, True)
    same("tail", c.decode_tp(0, air, [KEPT] * 274, [KEPT] * 184)[1], least)


def access_received(c):
    chance = random.Random(13)
    start, data = chance.randrange(2**32), drawn(chance, 14)
    air = byhand.access_air(start, data)
    same("access field", c.decode_aach(start, air + [9]), answered("clean", byhand.number(data)))
    same("one wrong", c.decode_aach(start, damaged(air, {13}, ())), answered("mended", byhand.number(data), 14))


def as_control(kind, start, word):
    """A whole word on the air, whatever its check says: the way of byhand.control_air without its first step."""
    outputs = byhand.mother(byhand.CONTROL, word)
    sent = [outputs[place - 1] for place in byhand.kept(0, len(outputs))]
    back = byhand.KINDS[kind][1]
    mixed = [sent[(back * place % len(sent) or len(sent)) - 1] for place in range(len(sent))]
    return [bit ^ output for bit, output in zip(mixed, byhand.scrambling(start, len(sent)))]


def speech_verdict(c):
    """A slot whose check bits do not fit its class 2: each of the eight in turn."""
    data = drawn(random.Random(10), 60)
    for flip in range(8):
        check = [bit ^ (i == flip) for i, bit in enumerate(byhand.speech_check(data))]
        outputs = byhand.mother(byhand.SPEECH, [0] * 112 + data + check + [0] * 4)
        first, second = outputs[:336], outputs[336:]
        slot = [0] * 102 + [first[place - 1] for place in byhand.kept(4, 336)] + [second[place - 1] for place in byhand.kept(5, 216)]
        air = [entry for column in range(18) for entry in slot[column::18]]
        codec = [0] * 274
        for place, bit in zip(byhand.codec_places()[214:], data):
            codec[place] = bit
        writes("check bit %d" % flip, c.decode_tp, (0, air), codec, 184, ("bad", 0, 0))


def decoders(c):
    only_fifth = [c.ERASED] * 4 + [1] + [c.ERASED] * 19
    writes("six steps", c.dec_sb1, (6, only_fifth + [0]), bits("100000"), 6)
    same("010000 ties", c.disagreements(c.CONTROL, only_fifth, bits("010000")), 0)
    for entry, code in ((c.dec_sb1, byhand.CONTROL), (c.dec_speech, byhand.SPEECH)):
        for n in (0, 1, 3, 4, 5, 9, 10, 25):
            word = drawn(random.Random(n), max(n - 4, 0)) + [0] * min(n, 4)
            sent = byhand.mother(code, word)
            if n > 4:
                sent[2] ^= 1
            writes("%d steps" % n, entry, (n, sent), word, n, ("done", int(n > 4), 0), spare=n % 2)


def long_runs(c):
    for entry, rate in ((c.dec_sb1, 4), (c.dec_speech, 3)):
        writes("864 steps", entry, (864, [0] * (rate * 864)), [0] * 864, 864)


def nearest_words(c, most, turns):
    """Both ways to the nearest word, up to so many steps."""
    chance = random.Random(2)
    for n in range(most + 1):
        for code in (c.CONTROL, c.SPEECH):
            for symbols in ([0, 1], [0, 1, 255], [0, 1, 255, 255, 255, 2, 254], [0, 255, 255, 255], [255]):
                for _ in range(turns if n < 10 else 8):
                    received = [chance.choice(symbols) for _ in range(len(code) * n)]
                    same("nearest", c.nearest_by_steps(code, n, received), c.nearest_by_trial(code, n, received))


def nearest_short_words(c):
    nearest_words(c, 8, 3)


def nearest_words_up_to_twelve(c):
    nearest_words(c, 12, 60)


def walk_back(code, n, symbols, others):
    """The score of state 0 after n steps, the bits that the walk back from there gives, and the state in which it ends. A state is the four
    newest bits, the newest of weight 8. The states other than 0 begin with the score `others`, or without one."""
    scores = {0: 0} if others is None else {state: others if state else 0 for state in range(16)}
    steps = []
    for step in range(n):
        received, ways = symbols[len(code) * step: len(code) * (step + 1)], {}
        for state in range(16):
            for before in (state % 8 * 2, state % 8 * 2 + 1):
                if before in scores:
                    window = [state >> 3 & 1] + [before >> i & 1 for i in (3, 2, 1, 0)]
                    sent = [sum(window[d] for d in generator) % 2 for generator in code]
                    cost = sum(1 for s, y in zip(received, sent) if s in (0, 1) and s != y)
                    ways[state] = min(ways.get(state, (10000, 0)), (scores[before] + cost, before))
        steps.append({state: before for state, (_, before) in ways.items()})
        scores = {state: score for state, (score, _) in ways.items()}
    state, word = 0, []
    for ways in reversed(steps):
        word.append(state >> 3)
        state = ways[state]
    return scores[0], word[::-1], state


def walks_back(c):
    """The walk back ends in state 0 and gives the nearest word, also where the other states begin with more than four steps can cost. Where
    they begin with nothing, it may end elsewhere."""
    chance, astray = random.Random(4), 0
    for n in list(range(26)) + [80, 184]:
        for code in (c.CONTROL, c.SPEECH):
            for symbols in ([0, 1], [0, 1, 255], [0, 255, 255, 255], [255]):
                received = [chance.choice(symbols) for _ in range(len(code) * n)]
                far, backwards = c.nearest_by_steps(code, n, received)
                for others in (None, 4 * len(code) + 1):
                    same("walk back", walk_back(code, n, received, others), (far, backwards[::-1], 0))
                astray += walk_back(code, n, received, 0)[2] != 0
    same("some walk goes astray", astray > 0, True)


# ---- refusals: each by itself, and each before the next one in document 01's order


def refusals(c):
    two = [0, 2] + [0] * 998
    for number, entry, arguments in (
        (LIMIT, c.block_interleave, (4097, 2, [], [])),
        (LIMIT, c.block_interleave, (4, 65536, [], [])),  # SHUFFLE too
        (SHUFFLE, c.block_interleave, (6, 4, [0] * 5, [0] * 5)),
        (SHUFFLE, c.block_interleave, (6, 0, [0] * 6, [0] * 6)),
        (SHUFFLE, c.block_interleave, (2, 0, [0] * 6, [0] * 6)),
        (SHUFFLE, c.block_interleave, (35, 14, [0] * 35, [0] * 35)),
        (SHUFFLE, c.block_interleave, (37, 74, [0] * 37, [0] * 37)),
        (SHORT, c.block_interleave, (6, 5, [0] * 5, [0] * 5)),
        (ROOM, c.block_interleave, (6, 5, [0] * 6, [0] * 5)),
        (LIMIT, c.block_deinterleave, (4097, 2, [], [])),
        (SHUFFLE, c.block_deinterleave, (6, 4, [0] * 5, [0] * 5)),
        (SHORT, c.block_deinterleave, (6, 5, [0] * 5, [0] * 5)),
        (ROOM, c.block_deinterleave, (6, 5, [0] * 6, [0] * 5)),
        (LIMIT, c.matrix_interleave, (4097, 0, [], [])),
        (LIMIT, c.matrix_interleave, (0, 4097, [], [])),
        (LIMIT, c.matrix_interleave, (17, 241, [], [])),  # 4,097
        (SHORT, c.matrix_interleave, (2, 3, [0] * 5, [0] * 5)),
        (ROOM, c.matrix_interleave, (2, 3, [0] * 6, [0] * 5)),
        (LIMIT, c.matrix_deinterleave, (17, 241, [], [])),
        (SHORT, c.matrix_deinterleave, (2, 3, [0] * 5, [0] * 5)),
        (ROOM, c.matrix_deinterleave, (2, 3, [0] * 6, [0] * 5)),
        (SHORT, c.codec_to_channel, ([0] * 273, [0] * 273)),
        (ROOM, c.codec_to_channel, ([0] * 274, [0] * 273)),
        (SHORT, c.channel_to_codec, ([0] * 273, [0] * 273)),
        (ROOM, c.channel_to_codec, ([0] * 274, [0] * 273)),
        (KIND, c.get_punctured_rate, (7, 4097, [], [])),
        (LIMIT, c.get_punctured_rate, (6, 4097, [], [])),
        (SHORT, c.get_punctured_rate, (6, 17, [0] * 22, [0] * 16)),
        (ROOM, c.get_punctured_rate, (6, 17, [0] * 23, [0] * 16)),
        (KIND, c.tetra_rcpc_depunct, (7, 4097, [], [])),
        (LIMIT, c.tetra_rcpc_depunct, (6, 4097, [], [])),
        (SHORT, c.tetra_rcpc_depunct, (6, 17, [0] * 16, [0] * 22)),
        (ROOM, c.tetra_rcpc_depunct, (6, 17, [0] * 17, [0] * 22)),
        (LIMIT, c.dec_sb1, (865, [], [], [])),
        (SHORT, c.dec_sb1, (6, [0] * 23, [0] * 5, [0] * 5)),
        (ROOM, c.dec_sb1, (6, [0] * 24, [0] * 5, [0] * 6)),
        (ROOM, c.dec_sb1, (6, [0] * 24, [0] * 6, [0] * 5)),
        (LIMIT, c.dec_speech, (865, [], [], [])),
        (SHORT, c.dec_speech, (6, [0] * 17, [0] * 5, [0] * 5)),
        (ROOM, c.dec_speech, (6, [0] * 18, [0] * 5, [0] * 6)),
        (SHORT, c.speech_crc, ([0] * 59, [0] * 7)),
        (ROOM, c.speech_crc, ([0] * 60, [0] * 7)),
        (SHORT, c.encode_tp, (0, two[:273], [0] * 431)),
        (ROOM, c.encode_tp, (0, two[:274], [0] * 431)),
        (BIT, c.encode_tp, (0, two[:274], [0] * 432)),
        (BIT, c.encode_tp, (0, [0] * 273 + [2], [0] * 432)),
        (SHORT, c.encode_tp_half, (0, two[:273], [0] * 215)),
        (ROOM, c.encode_tp_half, (0, two[:274], [0] * 215)),
        (BIT, c.encode_tp_half, (0, two[:274], [0] * 216)),
        (SHORT, c.decode_tp, (0, [0] * 431, [0] * 273, [0] * 183)),
        (ROOM, c.decode_tp, (0, [0] * 432, [0] * 273, [0] * 184)),
        (ROOM, c.decode_tp, (0, [0] * 432, [0] * 274, [0] * 183)),
        (SHORT, c.decode_tp_half, (0, [0] * 215, [0] * 273, [0] * 183)),
        (ROOM, c.decode_tp_half, (0, [0] * 216, [0] * 273, [0] * 184)),
        (ROOM, c.decode_tp_half, (0, [0] * 216, [0] * 274, [0] * 183)),
        (SHORT, c.encode_aach, (0, two[:13], [0] * 29)),
        (ROOM, c.encode_aach, (0, two[:14], [0] * 29)),
        (BIT, c.encode_aach, (0, two[:14], [0] * 30)),
        (BIT, c.encode_aach, (0, [0] * 13 + [2], [0] * 30)),
        (SHORT, c.decode_aach, (0, two[:29])),
        (BIT, c.decode_aach, (0, [0] * 29 + [0xFF])),
    ):
        held = [list(argument) for argument in arguments if isinstance(argument, list)]
        same("%s %.60r" % (entry.__name__, arguments), entry(*arguments), refused(number))
        same("%s: what was lent" % entry.__name__, [argument for argument in arguments if isinstance(argument, list)], held)
    for kind in (0, 5):
        same("kind %d" % kind, c.encode_cp(kind, 0, [2], []), refused(KIND))
        same("kind %d" % kind, c.decode_cp(kind, 0, [], [], []), refused(KIND))
    for kind, (data, _) in byhand.KINDS.items():
        word, air = data + 20, (data + 20) * 3 // 2
        same("kind %d" % kind, c.encode_cp(kind, 0, two[: data - 1], [0] * (air - 1)), refused(SHORT))
        same("kind %d" % kind, c.encode_cp(kind, 0, two[:data], [0] * (air - 1)), refused(ROOM))
        same("kind %d" % kind, c.encode_cp(kind, 0, [0] * (data - 1) + [2], [0] * air), refused(BIT))
        same("kind %d" % kind, c.decode_cp(kind, 0, [0] * (air - 1), [0] * (word - 1), []), refused(SHORT))
        same("kind %d" % kind, c.decode_cp(kind, 0, [0] * air, [0] * (word - 1), [0] * word), refused(ROOM))
        same("kind %d" % kind, c.decode_cp(kind, 0, [0] * air, [0] * word, [0] * (word - 1)), refused(ROOM))
    for entry, rate in ((c.encode, 4), (c.encode_rate1_3, 3), (c.encode_speech, 3)):
        for number, state, source, room in (
            (LIMIT, [0] * 4, [2] * 4097, 0), (ROOM, [0] * 4, [2] * 5, 5 * rate - 1), (BIT, [0] * 4, [0, 2], 2 * rate),
            (BIT, [0, 0, 0, 2], [0, 1], 2 * rate),
        ):
            target = [KEPT] * room
            same(entry.__name__, (entry(state, source, target), target), (refused(number, state), [KEPT] * room))


# ---- the runner's lines


def runner(c):
    def record(kind, start, symbols):
        return bytes([kind]) + start.to_bytes(4, "big") + bytes(symbols)

    chance = random.Random(11)
    example = record(5, 0, byhand.digits(0x20009B61, 30))
    same("document 01's", c.runner_lines(example + b"\x7f" + example), "1 05 mended 30 2000\n2 7f unknown\nend 1\n")
    same("nothing", c.runner_lines(b""), "end 0\n")
    for kind in (0, 8, 255):
        same("unknown", c.runner_lines(bytes([kind]) + example), "1 %02x unknown\nend 0\n" % kind)
    for kind, count in ((1, 120), (2, 168), (3, 216), (4, 432), (5, 30), (6, 432), (7, 216)):
        whole = record(kind, 0, [0] * count)
        for length in (1, 4, 5, len(whole) - 1):
            cut = "1 05 mended 30 2000\n2 %02x short\nend 1\n" % kind
            same("cut", c.runner_lines(example + whole[:length]), cut)
    made, lines = [], []
    for kind in byhand.KINDS:
        air = byhand.control_air(kind, 0x400107, drawn(chance, byhand.KINDS[kind][0]))
        made += [record(kind, 0x400107, damaged(air, {9}, {50})), record(kind, 0, [0xFF] * len(air))]
        lines += ["%02x good 1" % kind, "%02x bad 0" % kind]
    made.append(record(5, 259, byhand.access_air(259, bits("00000000001011"))))
    lines.append("05 clean 0 000b")
    made += [record(5, 0, byhand.digits(0x30009B61, 30)), record(5, 0, [0] * 29 + [2])]
    lines += ["05 beyond 0 3000", "05 refused 4"]
    air = byhand.speech_air(77, drawn(chance, 274))
    made += [record(6, 77, damaged(air, {103 % 18 * 24 + 103 // 18}, ())), record(7, 77, air[216:])]
    lines += ["06 good 1", "07 good 0"]
    numbered = "".join("%d %s\n" % (i, line) for i, line in enumerate(lines, 1))
    same("each kind", c.runner_lines(b"".join(made)), numbered + "end %d\n" % len(lines))


QUICK = (
    check_register, scrambling, start_values, reed_muller, speech_order, speech_check, comparing, refusals, interleaving, decoders,
    access_received, mother_codes, chains_sent, puncturing, nearest_short_words, runner, control_received, speech_received,
    speech_tail, speech_verdict, long_runs,
)


def least_distance(c):
    words = [c.rm_word(data) for data in range(2**14)]
    same("least distance", min(word.bit_count() for word in words[1:]), 8)


# ---- planted faults


def source(name):
    with open(os.path.join(HERE, name)) as file:
        return ast.parse(file.read())


def numbers(tree):
    """Every change of a number by one, and of an entry of the Reed-Muller table."""
    for node in ast.walk(tree):
        if not isinstance(node, ast.Constant):
            continue
        if type(node.value) is int:
            changed = (node.value - 1, node.value + 1)
        elif isinstance(node.value, str) and len(node.value) == 16 and set(node.value) <= set("01"):
            changed = [node.value[:i] + str(1 - int(node.value[i])) + node.value[i + 1:] for i in range(16)]
        else:
            continue
        for value in changed:
            yield node, "value", value


def comparisons(tree):
    """Every "below" that becomes "up to", and the other way."""
    other = {ast.Lt: ast.LtE, ast.LtE: ast.Lt, ast.Gt: ast.GtE, ast.GtE: ast.Gt}
    for node in ast.walk(tree):
        if isinstance(node, ast.Compare) and type(node.ops[0]) in other:
            yield node, "ops", [other[type(node.ops[0])]()] + node.ops[1:]


def orders(tree):
    """Every two refusals in a row in the other order."""
    for node in ast.walk(tree):
        if isinstance(node, ast.Call) and getattr(node.func, "id", "") == "first_refusal":
            for i in range(len(node.args) - 1):
                yield node, "args", node.args[:i] + [node.args[i + 1], node.args[i]] + node.args[i + 2:]


def loaded(tables, coding):
    """coding.py over tables.py, both compiled."""
    held = sys.modules.get("tables")
    sys.modules["tables"] = module = types.ModuleType("tables")
    c = types.ModuleType("coding")
    try:
        exec(tables, module.__dict__)
        exec(coding, c.__dict__)
    finally:
        if held is None:
            del sys.modules["tables"]
        else:
            sys.modules["tables"] = held
    return c


def catcher(tables, coding, changed, first):
    """The test that fails, or None; whatever stops the program counts, also where it is only loaded. What caught the fault before is
    tried first: faults of one line are mostly caught by one test."""
    test = loaded
    try:
        c = loaded(tables, coding)
        exec(changed, c.__dict__)
        for test in ([first] if first in QUICK else []) + [test for test in QUICK if test is not first]:
            test(c)
    except (Wrong, ArithmeticError, AssertionError, LookupError, NameError, TypeError, ValueError):
        return test
    return None


# Faults that change no answer: room, entries, candidates or steps that nothing uses.
HARMLESS = {
    "(SHUFFLE, lambda: k >= 0 and any(k % d == 0 and a % d == 0 for d in range(2, k + 1))),",
    "(SHUFFLE, lambda: k >= 2 and any(k % d == 0 and a % d == 0 for d in range(2, k + 1))),",
    "(SHUFFLE, lambda: k >= 1 and any(k % d == 0 and a % d == 0 for d in range(2, k + 2))),",
    "k > 1",
    "for i in range(0, k + 1):",
    "for place in range(0, 31):",
    "return -1 if n == 0 else kept_position(mode, n)",
    "return 0 if n == -1 else kept_position(mode, n)",
    "for number in range(3**free):",
    "for bit in (0, 1) if step < n - 3 else (0,):",
    "step <= n - 4",
    "offer <= held",
    "by = nearest_by_trial if n <= 8 else nearest_by_steps",
    "by = nearest_by_trial if n <= 10 else nearest_by_steps",
    "n < 9",
    "far, word = nearest(CONTROL, n, depunctured(0, air, kept, [ERASED] * (5 * n)))",
    "write(target, speech_air(start, source[:275])[first:last])",
    "first = depunctured(4, 168, slot[102:271], [ERASED] * (3 * 112))",
    "second = depunctured(5, 162, slot[270:], [ERASED] * (4 * 72))",
    "second = depunctured(5, 162, slot[270:], [ERASED] * (3 * 73))",
    "air = [ERASED] * missing + source[: 433 - missing]",
    "write(target, codec_of(uncoded + word[:173]))",
    "return receive(start, symbols, [0] * 275, [0] * 184)",
    "return receive(start, symbols, [0] * 274, [0] * 185)",
    "return receive(start, symbols, [-1] * 274, [0] * 184)",
    "return receive(start, symbols, [1] * 274, [0] * 184)",
    "return receive(start, symbols, [0] * 274, [-1] * 184)",
    "return receive(start, symbols, [0] * 274, [1] * 184)",
    "return decode_cp(kind, start, symbols, [0] * 289, [0] * 288)",
    "return decode_cp(kind, start, symbols, [0] * 288, [0] * 289)",
    "return decode_cp(kind, start, symbols, [-1] * 288, [0] * 288)",
    "return decode_cp(kind, start, symbols, [1] * 288, [0] * 288)",
    "return decode_cp(kind, start, symbols, [0] * 288, [-1] * 288)",
    "return decode_cp(kind, start, symbols, [0] * 288, [1] * 288)",
    "body = recording[at + 1: at + 6 + BODIES[kind]]",
}


def faults(name, tree):
    """Each fault of a file: where it is and how it reads, and the statement that has it."""
    with open(os.path.join(HERE, name)) as file:
        lines = file.read().splitlines()
    for statement in tree.body:
        for node, part, value in [fault for ways in (numbers, comparisons, orders) for fault in ways(statement)]:
            right = getattr(node, part)
            setattr(node, part, value)
            line = lines[node.lineno - 1]
            reads = ast.unparse(node)
            if part == "value":
                reads = (line[: node.col_offset] + reads + line[node.end_col_offset:]).strip()
            if reads not in HARMLESS:
                yield "%s:%d: %s" % (name, node.lineno, reads), ast.fix_missing_locations(ast.Module([statement], []))
            setattr(node, part, right)


def planted(names):
    trees = {name: source(name) for name in ("tables.py", "coding.py")}
    right = {name: compile(tree, name, "exec") for name, tree in trees.items()}
    if catcher(right["tables.py"], right["coding.py"], "", None):
        sys.exit("selftest: the tests fail before anything is planted")
    tried, missed, last = 0, [], None
    for name in names or trees:
        for where, statement in faults(name, trees[name]):
            tried += 1
            if name == "tables.py":
                found = catcher(compile(trees[name], name, "exec"), right["coding.py"], "", last)
            else:
                found = catcher(right["tables.py"], right["coding.py"], compile(statement, name, "exec"), last)
            if not found:
                missed.append(where)
            last = found
    for where in missed:
        print("not caught: " + where)
    print("%d faults planted in %s, %d not caught" % (tried, " and ".join(names or trees), len(missed)))
    sys.exit(len(missed) > 0)


def main():
    if sys.argv[1:2] == ["--planted"]:
        planted(sys.argv[2:])
    c = loaded(*(compile(source(name), name, "exec") for name in ("tables.py", "coding.py")))
    try:
        for test in QUICK + (least_distance, nearest_words_up_to_twelve, walks_back):
            test(c)
    except Wrong as fault:
        sys.exit("selftest: %s: %s" % (test.__name__, fault))
    print("%d tests held" % tests)


main()
