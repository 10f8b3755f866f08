/* The public functions for fuzz/boundary.c. Made by tools/boundary/make. */
#ifndef FUNCTIONS_H
#define FUNCTIONS_H

/* Each with its refusals in their order, and whether it has a source, a target, a trellis and an answer. */
#define ENTRIES(X) \
    X(crc16_itut_bits, "", 1, 0, 0, 1) \
    X(crc16_itut_bytes, "2", 1, 0, 0, 1) \
    X(crc16_ccitt_bits, "", 1, 0, 0, 1) \
    X(tetra_scramb_get_bits, "", 0, 1, 0, 0) \
    X(tetra_scramb_bits, "4", 0, 1, 0, 0) \
    X(tetra_descramb_bits, "", 0, 1, 0, 0) \
    X(tetra_scramb_get_init, "7", 0, 0, 0, 1) \
    X(block_interleave, "1523", 1, 1, 0, 0) \
    X(block_deinterleave, "1523", 1, 1, 0, 0) \
    X(matrix_interleave, "123", 1, 1, 0, 0) \
    X(matrix_deinterleave, "123", 1, 1, 0, 0) \
    X(tetra_rm3014_compute, "6", 0, 0, 0, 1) \
    X(tetra_rm3014_decode_naive, "6", 0, 0, 0, 1) \
    X(compute_syndrome, "6", 0, 0, 0, 1) \
    X(tetra_rm3014_decode_limited_ecc, "6", 0, 0, 0, 1) \
    X(codec_to_channel, "23", 1, 1, 0, 0) \
    X(channel_to_codec, "23", 1, 1, 0, 0) \
    X(encode, "134", 1, 1, 0, 1) \
    X(encode_rate1_3, "134", 1, 1, 0, 1) \
    X(encode_speech, "134", 1, 1, 0, 1) \
    X(get_punctured_rate, "8123", 1, 1, 0, 0) \
    X(tetra_rcpc_depunct, "8123", 1, 1, 0, 0) \
    X(mother_memcmp, "", 1, 1, 0, 1) \
    X(dec_sb1, "123", 1, 1, 1, 1) \
    X(dec_speech, "123", 1, 1, 1, 1) \
    X(speech_crc, "23", 1, 1, 0, 0) \
    X(encode_cp, "8234", 1, 1, 0, 0) \
    X(decode_cp, "823", 1, 1, 1, 1) \
    X(encode_tp, "234", 1, 1, 0, 0) \
    X(encode_tp_half, "234", 1, 1, 0, 0) \
    X(decode_tp, "23", 1, 1, 1, 1) \
    X(decode_tp_half, "23", 1, 1, 1, 1) \
    X(encode_aach, "234", 1, 1, 0, 0) \
    X(decode_aach, "24", 1, 0, 0, 1)

/* The call, where c is the call and s, sn, t, tn, w, wn are its slices. */
#define CALLS \
    case ENTRY_crc16_itut_bits: return lib->crc16_itut_bits((uint16_t)c->word, s, sn, c->n, answer); \
    case ENTRY_crc16_itut_bytes: return lib->crc16_itut_bytes((uint16_t)c->word, s, sn, c->n, answer); \
    case ENTRY_crc16_ccitt_bits: return lib->crc16_ccitt_bits(s, sn, c->n, answer); \
    case ENTRY_tetra_scramb_get_bits: return lib->tetra_scramb_get_bits(c->word, t, tn); \
    case ENTRY_tetra_scramb_bits: return lib->tetra_scramb_bits(c->word, t, tn); \
    case ENTRY_tetra_descramb_bits: return lib->tetra_descramb_bits(c->word, t, tn); \
    case ENTRY_tetra_scramb_get_init: return lib->tetra_scramb_get_init(c->mcc, c->mnc, c->small, answer); \
    case ENTRY_block_interleave: return lib->block_interleave(c->n, c->m, s, sn, t, tn); \
    case ENTRY_block_deinterleave: return lib->block_deinterleave(c->n, c->m, s, sn, t, tn); \
    case ENTRY_matrix_interleave: return lib->matrix_interleave(c->n, c->m, s, sn, t, tn); \
    case ENTRY_matrix_deinterleave: return lib->matrix_deinterleave(c->n, c->m, s, sn, t, tn); \
    case ENTRY_tetra_rm3014_compute: return lib->tetra_rm3014_compute((uint16_t)c->word, answer); \
    case ENTRY_tetra_rm3014_decode_naive: return lib->tetra_rm3014_decode_naive(c->word, answer); \
    case ENTRY_compute_syndrome: return lib->compute_syndrome(c->word, answer); \
    case ENTRY_tetra_rm3014_decode_limited_ecc: return lib->tetra_rm3014_decode_limited_ecc(c->word, answer); \
    case ENTRY_codec_to_channel: return lib->codec_to_channel(s, sn, t, tn); \
    case ENTRY_channel_to_codec: return lib->channel_to_codec(s, sn, t, tn); \
    case ENTRY_encode: return lib->encode(c->word, s, sn, t, tn, answer); \
    case ENTRY_encode_rate1_3: return lib->encode_rate1_3(c->word, s, sn, t, tn, answer); \
    case ENTRY_encode_speech: return lib->encode_speech(c->word, s, sn, t, tn, answer); \
    case ENTRY_get_punctured_rate: return lib->get_punctured_rate(c->small, s, sn, c->n, t, tn); \
    case ENTRY_tetra_rcpc_depunct: return lib->tetra_rcpc_depunct(c->small, s, sn, c->n, t, tn); \
    case ENTRY_mother_memcmp: return lib->mother_memcmp(s, sn, t, tn, answer); \
    case ENTRY_dec_sb1: return lib->dec_sb1(s, sn, t, tn, c->n, w, wn, answer); \
    case ENTRY_dec_speech: return lib->dec_speech(s, sn, t, tn, c->n, w, wn, answer); \
    case ENTRY_speech_crc: return lib->speech_crc(s, sn, t, tn); \
    case ENTRY_encode_cp: return lib->encode_cp(c->small, c->word, s, sn, t, tn); \
    case ENTRY_decode_cp: return lib->decode_cp(c->small, c->word, s, sn, t, tn, w, wn, answer); \
    case ENTRY_encode_tp: return lib->encode_tp(c->word, s, sn, t, tn); \
    case ENTRY_encode_tp_half: return lib->encode_tp_half(c->word, s, sn, t, tn); \
    case ENTRY_decode_tp: return lib->decode_tp(c->word, s, sn, t, tn, w, wn, answer); \
    case ENTRY_decode_tp_half: return lib->decode_tp_half(c->word, s, sn, t, tn, w, wn, answer); \
    case ENTRY_encode_aach: return lib->encode_aach(c->word, s, sn, t, tn); \
    case ENTRY_decode_aach: return lib->decode_aach(c->word, s, sn, answer);

#endif
