"""Reads requests (record.py) on standard input, answers each from coding.py, writes them with their answers."""

import sys

import coding
import record

LENT = ("tetra_scramb_get_bits", "tetra_scramb_bits", "tetra_descramb_bits")
NUMBERS_FIRST = {
    "crc16_itut_bits": 2, "crc16_itut_bytes": 2, "crc16_ccitt_bits": 1, "tetra_scramb_get_init": 3,
    "block_interleave": 2, "block_deinterleave": 2, "matrix_interleave": 2, "matrix_deinterleave": 2,
    "tetra_rm3014_compute": 1, "tetra_rm3014_decode_naive": 1, "compute_syndrome": 1,
    "tetra_rm3014_decode_limited_ecc": 1, "get_punctured_rate": 2, "tetra_rcpc_depunct": 2,
    "dec_sb1": 1, "dec_speech": 1, "encode_cp": 2, "decode_cp": 2, "encode_tp": 1, "encode_tp_half": 1,
    "decode_tp": 1, "decode_tp_half": 1, "encode_aach": 1, "decode_aach": 1, "codec_to_channel": 0,
    "channel_to_codec": 0, "speech_crc": 0,
}
SOURCE_ONLY = ("crc16_itut_bits", "crc16_itut_bytes", "crc16_ccitt_bits", "decode_aach")
NUMBERS_ONLY = (
    "tetra_scramb_get_init", "tetra_rm3014_compute", "tetra_rm3014_decode_naive", "compute_syndrome",
    "tetra_rm3014_decode_limited_ecc",
)
WITH_TRELLIS = ("dec_sb1", "dec_speech", "decode_cp", "decode_tp", "decode_tp_half")
ENCODERS = ("encode", "encode_rate1_3", "encode_speech")


def state_of(number):
    """Four delays, the newest lowest."""
    return [number >> 8 * i & 0xFF for i in range(4)]


def packed(answer):
    value = answer.value
    if answer.state is not None:
        value = sum(d << 8 * i for i, d in enumerate(answer.state))
    return record.pack(answer.case, value, answer.number)


def answered(r):
    name = record.ENTRIES[r.entry]
    entry = getattr(coding, name)
    source = list(r.source)
    target = record.target_before(r.seed, r.target)
    trellis = record.trellis_before(r.seed, r.trellis)
    if name in LENT:
        before, target = source, list(source)
        answer = entry(r.a, target)
    else:
        before = list(target)
        if name in ENCODERS:
            answer = entry(state_of(r.a), source, target)
        elif name == "mother_memcmp":
            answer = entry(source[: r.a], source[r.a:])
        else:
            arguments = [r.a, r.b, r.c][: NUMBERS_FIRST[name]]
            if name not in NUMBERS_ONLY:
                arguments.append(source)
                if name not in SOURCE_ONLY:
                    arguments.append(target)
            if name in WITH_TRELLIS:
                arguments.append(trellis)
            answer = entry(*arguments)
    zeroed = record.changed(record.trellis_before(r.seed, r.trellis), trellis)
    assert not any(zeroed)
    return r._replace(answer=packed(answer), written=bytes(record.changed(before, target)), zeroed=len(zeroed))


def main():
    for r in record.read(sys.stdin.buffer):
        record.write(sys.stdout.buffer, answered(r))


if __name__ == "__main__":
    main()
