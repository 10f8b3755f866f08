"""TETRA channel coding, written from document 01 by the plainest method and for no speed.

Every entry takes numbers and lists of bytes. It gives an Answer; where it has a target, the list it was
lent holds the result after success and is untouched after a refusal.
"""

from collections import namedtuple

from tables import (
    BIT, CLASS_0, CLASS_1, CLASS_2, CONTROL, CONTROL_THIRD, FIELD, KIND, KINDS, LIMIT, MODES, MOST_ENTRIES,
    MOST_MULTIPLIER, MOST_STEPS, REED_MULLER, ROOM, SCRAMBLING_TAPS, SHORT, SHUFFLE, SPEECH, WORD,
)

ERASED = 0xFF

# `case` is one of done, good, bad, clean, mended, beyond, matched, differs, refused; `number` is the place of a
# mended bit or a refusal's number; `state` the delays that an encoder hands back.
Answer = namedtuple("Answer", "case value number state", defaults=(0, 0, None))


def done(value=0):
    return Answer("done", value)


def refused(number, state=None):
    return Answer("refused", 0, number, state)


def first_refusal(*tests):
    """The number of the first test that holds, or 0."""
    for number, holds in tests:
        if holds():
            return number
    return 0


def bits_only(entries):
    return all(entry in (0, 1) for entry in entries)


def is_bit(symbol):
    return symbol in (0, 1)


def write(target, entries):
    for place, entry in enumerate(entries):
        target[place] = entry


# ---- check register


def crc_register(start, bits):
    register = start
    for bit in bits:
        top = register // 0x8000 ^ bit
        register = register * 2 % 0x10000
        if top == 1:
            register ^= 0x1021
    return register


def crc16_itut_bits(start, n, source):
    return done(crc_register(start, [entry % 2 for entry in source[:n]]))


def crc16_itut_bytes(start, n, source):
    if n > 8 * len(source):
        return refused(SHORT)
    return done(crc_register(start, [source[i // 8] >> (7 - i % 8) & 1 for i in range(n)]))


def crc16_ccitt_bits(n, source):
    return crc16_itut_bits(0xFFFF, n, source)


def control_check(data):
    register = 0xFFFF ^ crc_register(0xFFFF, data)
    return [register >> (15 - i) & 1 for i in range(16)]


# ---- scrambling


def scrambling_bits(start, n):
    register = start
    outputs = []
    for _ in range(n):
        new = sum(register >> tap & 1 for tap in SCRAMBLING_TAPS) % 2
        register = register // 2 + new * 2**31
        outputs.append(new)
    return outputs


def tetra_scramb_get_bits(start, target):
    write(target, scrambling_bits(start, len(target)))
    return done()


def scrambled(start, bits):
    return [(bit + output) % 2 for bit, output in zip(bits, scrambling_bits(start, len(bits)))]


def descrambled(start, symbols):
    outputs = scrambling_bits(start, len(symbols))
    return [(symbol + output) % 2 if is_bit(symbol) else ERASED for symbol, output in zip(symbols, outputs)]


def tetra_scramb_bits(start, target):
    if not bits_only(target):
        return refused(BIT)
    write(target, scrambled(start, target))
    return done()


def tetra_descramb_bits(start, target):
    write(target, descrambled(start, target))
    return done()


def tetra_scramb_get_init(mcc, mnc, colour):
    if mcc > 1023 or mnc > 16383 or colour > 63:
        return refused(FIELD)
    return done(0 if colour == 0 else 4 * (colour + 64 * mnc + 2**20 * mcc) + 3)


# ---- interleaving


def block_place(k, a, i):
    """Where place i of 1..k goes, from 1."""
    return 1 + a * i % k


def block_refusal(k, a, source, target):
    return first_refusal(
        (LIMIT, lambda: k > MOST_ENTRIES or a > MOST_MULTIPLIER),
        (SHUFFLE, lambda: k >= 1 and any(k % d == 0 and a % d == 0 for d in range(2, k + 1))),
        (SHORT, lambda: len(source) < k),
        (ROOM, lambda: len(target) < k),
    )


def interleaved(k, a, entries):
    result = [None] * k
    for i in range(1, k + 1):
        result[block_place(k, a, i) - 1] = entries[i - 1]
    return result


def deinterleaved(k, a, entries):
    return [entries[block_place(k, a, i) - 1] for i in range(1, k + 1)]


def block_interleave(k, a, source, target):
    number = block_refusal(k, a, source, target)
    if number:
        return refused(number)
    write(target, interleaved(k, a, source))
    return done()


def block_deinterleave(k, a, source, target):
    number = block_refusal(k, a, source, target)
    if number:
        return refused(number)
    write(target, deinterleaved(k, a, source))
    return done()


def matrix_refusal(lines, columns, source, target):
    return first_refusal(
        (LIMIT, lambda: lines > MOST_ENTRIES or columns > MOST_ENTRIES or lines * columns > MOST_ENTRIES),
        (SHORT, lambda: len(source) < lines * columns),
        (ROOM, lambda: len(target) < lines * columns),
    )


def turned(lines, columns, entries):
    result = [None] * (lines * columns)
    for j in range(lines):
        for i in range(columns):
            result[i * lines + j] = entries[j * columns + i]
    return result


def turned_back(lines, columns, entries):
    result = [None] * (lines * columns)
    for j in range(lines):
        for i in range(columns):
            result[j * columns + i] = entries[i * lines + j]
    return result


def matrix_interleave(lines, columns, source, target):
    number = matrix_refusal(lines, columns, source, target)
    if number:
        return refused(number)
    write(target, turned(lines, columns, source))
    return done()


def matrix_deinterleave(lines, columns, source, target):
    number = matrix_refusal(lines, columns, source, target)
    if number:
        return refused(number)
    write(target, turned_back(lines, columns, source))
    return done()


# ---- Reed-Muller (30, 14)


def parity(data):
    """The 16 parity bits of 14 data bits, as a number, the table's first column at the top."""
    total = 0
    for i, row in enumerate(REED_MULLER):
        if data >> (13 - i) & 1:
            total ^= int(row, 2)
    return total


def rm_word(data):
    return data * 2**16 + parity(data)


def rm_syndrome(word):
    return parity(word >> 16) ^ word % 2**16


def rm_verdict(word):
    syndrome = rm_syndrome(word)
    if syndrome == 0:
        return Answer("clean", word >> 16)
    for place in range(1, 31):
        wrong = 1 << (30 - place)
        if rm_syndrome(wrong) == syndrome:
            return Answer("mended", (word ^ wrong) >> 16, place)
    return Answer("beyond", word >> 16)


def tetra_rm3014_compute(data):
    return refused(WORD) if data >= 2**14 else done(rm_word(data))


def tetra_rm3014_decode_naive(word):
    return refused(WORD) if word >= 2**30 else done(word >> 16)


def compute_syndrome(word):
    """As the original numbers it: the table's first column weighs 1, its last 2^15."""
    if word >= 2**30:
        return refused(WORD)
    return done(int(format(rm_syndrome(word), "016b")[::-1], 2))


def tetra_rm3014_decode_limited_ecc(word):
    return refused(WORD) if word >= 2**30 else rm_verdict(word)


# ---- speech order


def codec_places():
    """For each channel entry its codec entry, from 0."""
    return [137 * frame + position - 1 for position in CLASS_0 + CLASS_1 + CLASS_2 for frame in (0, 1)]


def channel_of(codec):
    return [codec[place] for place in codec_places()]


def codec_of(channel):
    result = [None] * 274
    for entry, place in zip(channel, codec_places()):
        result[place] = entry
    return result


def reorder(rule, source, target):
    number = first_refusal((SHORT, lambda: len(source) < 274), (ROOM, lambda: len(target) < 274))
    if number:
        return refused(number)
    write(target, rule(source))
    return done()


def codec_to_channel(source, target):
    return reorder(channel_of, source, target)


def channel_to_codec(source, target):
    return reorder(codec_of, source, target)


# ---- mother codes


def mother(code, delayed, bits):
    """The mother word, and the delays after it; delays and bits the newest first."""
    window = list(delayed)
    word = []
    for bit in bits:
        window = [bit] + window
        word += [sum(window[d] for d in generator) % 2 for generator in code]
        window = window[:4]
    return word, window


def encode_with(code, delayed, source, target):
    state = list(delayed)
    if not source:
        return Answer("done", 0, 0, state)
    number = first_refusal(
        (LIMIT, lambda: len(source) > MOST_ENTRIES),
        (ROOM, lambda: len(target) < len(code) * len(source)),
        (BIT, lambda: not bits_only(source) or not bits_only(state)),
    )
    if number:
        return refused(number, state)
    word, after = mother(code, state, source)
    write(target, word)
    return Answer("done", 0, 0, after)


def encode(delayed, source, target):
    return encode_with(CONTROL, delayed, source, target)


def encode_rate1_3(delayed, source, target):
    return encode_with(CONTROL_THIRD, delayed, source, target)


def encode_speech(delayed, source, target):
    return encode_with(SPEECH, delayed, source, target)


# ---- puncturing


def kept_position(mode, j):
    """k(j), from 1."""
    t, period, skip, kept = MODES[mode]
    i = j if skip is None else j + (j - 1) // skip
    block = (i - 1) // t
    return period * block + kept[i - t * block - 1]


def needed(mode, n):
    return 0 if n == 0 else kept_position(mode, n)


def punctured(mode, n, word):
    return [word[kept_position(mode, j) - 1] for j in range(1, n + 1)]


def depunctured(mode, n, entries, word):
    """The mother word with the n entries at their positions."""
    result = list(word)
    for j in range(1, n + 1):
        result[kept_position(mode, j) - 1] = entries[j - 1]
    return result


def get_punctured_rate(mode, n, source, target):
    number = first_refusal(
        (KIND, lambda: mode > 6),
        (LIMIT, lambda: n > MOST_ENTRIES),
        (SHORT, lambda: len(source) < needed(mode, n)),
        (ROOM, lambda: len(target) < n),
    )
    if number:
        return refused(number)
    write(target, punctured(mode, n, source))
    return done()


def tetra_rcpc_depunct(mode, n, source, target):
    number = first_refusal(
        (KIND, lambda: mode > 6),
        (LIMIT, lambda: n > MOST_ENTRIES),
        (SHORT, lambda: len(source) < n),
        (ROOM, lambda: len(target) < needed(mode, n)),
    )
    if number:
        return refused(number)
    write(target, depunctured(mode, n, source, target))
    return done()


def mother_memcmp(mother_word, depunctured_word):
    matched = 0
    for sent, received in zip(mother_word, depunctured_word):
        if received == ERASED:
            continue
        if sent != received:
            return Answer("differs")
        matched += 1
    return Answer("matched", matched)


# ---- nearest word


def disagreements(code, symbols, word):
    sent, _ = mother(code, [0, 0, 0, 0], word)
    return sum(1 for s, y in zip(symbols, sent) if is_bit(s) and s != y)


def candidates(n):
    free = max(n - 4, 0)
    for number in range(2**free):
        yield [number >> i & 1 for i in range(free)] + [0] * min(n, 4)


def nearest_by_trial(code, n, symbols):
    """Every candidate tried: the least disagreements, and between equals 0 at the last place that differs."""
    return min((disagreements(code, symbols, word), word[::-1]) for word in candidates(n))


def nearest_by_steps(code, n, symbols):
    """The same by the best (disagreements, reversed word) for each four last bits; the reversed word is a number."""
    rate = len(code)
    best = {(0, 0, 0, 0): (0, 0)}
    for step in range(n):
        received = symbols[rate * step: rate * step + rate]
        later = {}
        for last, (far, word) in best.items():
            for bit in (0, 1) if step < n - 4 else (0,):
                window = (bit,) + last
                cost = 0
                for symbol, generator in zip(received, code):
                    if symbol in (0, 1) and sum(window[d] for d in generator) % 2 != symbol:
                        cost += 1
                offer = (far + cost, word + bit * 2**step)
                held = later.get(window[:4])
                if held is None or offer < held:
                    later[window[:4]] = offer
        best = later
    far, word = best[(0, 0, 0, 0)]
    return far, [word >> i & 1 for i in reversed(range(n))]


def nearest(code, n, symbols):
    by = nearest_by_trial if n <= 9 else nearest_by_steps
    far, backwards = by(code, n, symbols[: len(code) * n])
    return far, backwards[::-1]


def decode_with(code, n, source, target, trellis):
    number = first_refusal(
        (LIMIT, lambda: n > MOST_STEPS),
        (SHORT, lambda: len(source) < len(code) * n),
        (ROOM, lambda: len(target) < n or len(trellis) < n),
    )
    if number:
        return refused(number)
    far, word = nearest(code, n, source)
    write(target, word)
    write(trellis, [0] * n)
    return done(far)


def dec_sb1(n, source, target, trellis):
    return decode_with(CONTROL, n, source, target, trellis)


def dec_speech(n, source, target, trellis):
    return decode_with(SPEECH, n, source, target, trellis)


# ---- speech check


def speech_check(data):
    """X^7 times the data by X^7 + X^3 + 1, by long division from the highest degree; then the parity of all 67."""
    work = [0] * 7 + list(data)
    for degree in reversed(range(7, 67)):
        if work[degree]:
            for term in (degree, degree - 4, degree - 7):
                work[term] ^= 1
    remainder = work[:7]
    return remainder + [(sum(data) + sum(remainder)) % 2]


def speech_crc(source, target):
    number = first_refusal((SHORT, lambda: len(source) < 60), (ROOM, lambda: len(target) < 8))
    if number:
        return refused(number)
    write(target, speech_check([entry % 2 for entry in source[:60]]))
    return done()


# ---- control chain


def control_air(kind, start, data):
    _, _, air, a = KINDS[kind]
    word = data + control_check(data) + [0, 0, 0, 0]
    kept = punctured(0, air, mother(CONTROL, [0, 0, 0, 0], word)[0])
    return scrambled(start, interleaved(air, a, kept))


def encode_cp(kind, start, source, target):
    if kind not in KINDS:
        return refused(KIND)
    data, _, air, _ = KINDS[kind]
    number = first_refusal(
        (SHORT, lambda: len(source) < data),
        (ROOM, lambda: len(target) < air),
        (BIT, lambda: not bits_only(source[:data])),
    )
    if number:
        return refused(number)
    write(target, control_air(kind, start, source[:data]))
    return done()


def decode_cp(kind, start, source, target, trellis):
    if kind not in KINDS:
        return refused(KIND)
    _, n, air, a = KINDS[kind]
    number = first_refusal(
        (SHORT, lambda: len(source) < air),
        (ROOM, lambda: len(target) < n or len(trellis) < n),
    )
    if number:
        return refused(number)
    kept = deinterleaved(air, a, descrambled(start, source[:air]))
    far, word = nearest(CONTROL, n, depunctured(0, air, kept, [ERASED] * (4 * n)))
    write(target, word)
    write(trellis, [0] * n)
    return Answer("good" if crc_register(0xFFFF, word[:-4]) == 0x1D0F else "bad", far)


# ---- speech chain


def speech_air(start, codec):
    channel = channel_of(codec)
    uncoded, first, second = channel[:102], channel[102:214], channel[214:]
    first_word, delayed = mother(SPEECH, [0, 0, 0, 0], first)
    second_word, _ = mother(SPEECH, delayed, second + speech_check(second) + [0, 0, 0, 0])
    slot = uncoded + punctured(4, 168, first_word) + punctured(5, 162, second_word)
    return scrambled(start, turned(24, 18, slot))


def send_speech(start, source, target, first, last):
    number = first_refusal(
        (SHORT, lambda: len(source) < 274),
        (ROOM, lambda: len(target) < last - first),
        (BIT, lambda: not bits_only(source[:274])),
    )
    if number:
        return refused(number)
    write(target, speech_air(start, source[:274])[first:last])
    return done()


def encode_tp(start, source, target):
    return send_speech(start, source, target, 0, 432)


def encode_tp_half(start, source, target):
    return send_speech(start, source, target, 216, 432)


def receive_speech(start, missing, source, target, trellis):
    number = first_refusal(
        (SHORT, lambda: len(source) < 432 - missing),
        (ROOM, lambda: len(target) < 274 or len(trellis) < 184),
    )
    if number:
        return refused(number)
    air = [ERASED] * missing + source[: 432 - missing]
    slot = turned_back(24, 18, descrambled(start, air))
    first = depunctured(4, 168, slot[102:270], [ERASED] * (3 * 112))
    second = depunctured(5, 162, slot[270:], [ERASED] * (3 * 72))
    far, word = nearest(SPEECH, 184, first + second)
    uncoded = [symbol if is_bit(symbol) else 0 for symbol in slot[:102]]
    write(target, codec_of(uncoded + word[:172]))
    write(trellis, [0] * 184)
    return Answer("good" if speech_check(word[112:172]) == word[172:180] else "bad", far)


def decode_tp(start, source, target, trellis):
    return receive_speech(start, 0, source, target, trellis)


def decode_tp_half(start, source, target, trellis):
    return receive_speech(start, 216, source, target, trellis)


# ---- access assignment


def encode_aach(start, source, target):
    number = first_refusal(
        (SHORT, lambda: len(source) < 14),
        (ROOM, lambda: len(target) < 30),
        (BIT, lambda: not bits_only(source[:14])),
    )
    if number:
        return refused(number)
    word = rm_word(int("".join(map(str, source[:14])), 2))
    write(target, scrambled(start, [word >> (29 - i) & 1 for i in range(30)]))
    return done()


def decode_aach(start, source):
    number = first_refusal((SHORT, lambda: len(source) < 30), (BIT, lambda: not bits_only(source[:30])))
    if number:
        return refused(number)
    return rm_verdict(int("".join(map(str, descrambled(start, source[:30]))), 2))


# ---- runner

BODIES = {1: 120, 2: 168, 3: 216, 4: 432, 5: 30, 6: 432, 7: 216}


def receive_record(kind, start, symbols):
    if kind <= 4:
        return decode_cp(kind, start, symbols, [0] * 288, [0] * 288)
    if kind == 5:
        return decode_aach(start, symbols)
    receive = decode_tp if kind == 6 else decode_tp_half
    return receive(start, symbols, [0] * 274, [0] * 184)


def record_words(answer):
    if answer.case in ("clean", "mended", "beyond"):
        return "%s %d %04x" % (answer.case, answer.number, answer.value)
    return "%s %d" % (answer.case, answer.number if answer.case == "refused" else answer.value)


def runner_lines(recording):
    """The lines that the runner prints for a recording, each ended by a newline."""
    lines = []
    whole = 0
    at = 0
    while at < len(recording):
        kind = recording[at]
        head = "%d %02x " % (whole + 1, kind)
        if kind not in BODIES:
            lines.append(head + "unknown")
            break
        body = recording[at + 1: at + 5 + BODIES[kind]]
        if len(body) < 4 + BODIES[kind]:
            lines.append(head + "short")
            break
        lines.append(head + record_words(receive_record(kind, int.from_bytes(bytes(body[:4]), "big"), list(body[4:]))))
        whole += 1
        at += 5 + BODIES[kind]
    lines.append("end %d" % whole)
    return "".join(line + "\n" for line in lines)
