/* Caplattice: channel coding for TETRA, proved. This header is the whole boundary: you need nothing else to work from.
 *
 * Bits and symbols are one per byte, the first bit first. A symbol is a byte that was received: 0 and 1 are bits, every other byte is an
 * erasure, a symbol that did not arrive.
 *
 * A slice is a pointer and then the number of its entries. An empty slice may have any pointer, NULL too. The slices of one call, and its
 * answer, must not overlap; one that is only read may be read by others meanwhile. An answer points to one caplattice_answer. No
 * function asks anything else of its caller, and none keeps a pointer or any state: threads may call at the same time.
 *
 * Each function returns 0, or the number of a refusal. A refusal is the whole answer: whatever was lent stays as it was, the answer
 * included. Success writes exactly what is said below and leaves the rest of a target; entries that a source has beyond what is needed
 * are not used. SHORT and ROOM name the slice that has fewer entries than are asked for. Of several refusals that apply, the first
 * that is named below is given.
 *
 * Link libcaplattice.a, for x86-64 Linux: rust/library of the repository makes it in target/staticlib. It was compiled for any x86-64
 * processor and calls nothing but memcpy and memset of the C library. A call takes less than five kilobytes of stack. */
#ifndef CAPLATTICE_H
#define CAPLATTICE_H

#include <stddef.h>
#include <stdint.h>

#ifdef __cplusplus
extern "C" {
#endif

/* The version that this header is of: 1,000,000 times the major, 1,000 times the minor, and the patch number. caplattice_version() is that
 * of the library that was linked. */
/* tools/boundary/make: version */
#define CAPLATTICE_VERSION 2000
#define CAPLATTICE_VERSION_TEXT "0.2.0"
/* tools/boundary/make: end */
uint32_t caplattice_version(void);

/* Why a function did nothing. */
enum caplattice_refusal {
    CAPLATTICE_LIMIT = 1, /* a count or number is over its limit */
    CAPLATTICE_SHORT,     /* a source holds fewer entries than are needed */
    CAPLATTICE_ROOM,      /* a target or the trellis holds fewer entries than are needed */
    CAPLATTICE_BIT,       /* an entry that is used and must be a bit is over 1 */
    CAPLATTICE_SHUFFLE,   /* a whole number above 1 divides both k and a */
    CAPLATTICE_WORD,      /* Reed-Muller data of more than 14 bits, or a word of more than 30 */
    CAPLATTICE_FIELD,     /* mcc over 1,023, mnc over 16,383 or colour over 63 */
    CAPLATTICE_KIND       /* a control kind that is not 1 to 4, or a puncturing mode that is not 0 to 6 */
    /* 9 is retired: no function returns it, and it will never be given to anything else. A new refusal is written with its number, from
     * 10 on. */
};

enum caplattice_verdict {
    CAPLATTICE_DONE,    /* there is nothing to judge */
    CAPLATTICE_GOOD,    /* the check of a received block fits its data */
    CAPLATTICE_BAD,     /* it does not; the target is written all the same */
    CAPLATTICE_CLEAN,   /* a Reed-Muller word without a wrong bit */
    CAPLATTICE_MENDED,  /* one wrong bit, which was put right */
    CAPLATTICE_BEYOND,  /* more wrong bits than can be put right */
    CAPLATTICE_MATCHED, /* two words agree wherever both are known */
    CAPLATTICE_DIFFERS  /* they do not */
};

/* What a function has to say besides its refusal. After success all six members are set; what the function does not speak of is 0. */
typedef struct caplattice_answer {
    uint64_t verdict;       /* an enum caplattice_verdict */
    uint64_t value;         /* what was asked for: a register, a start value, a word, data bits, a count, an encoder's delays */
    uint64_t disagreements; /* received symbols that the decoded word's encoding disagrees with */
    uint64_t place;         /* of a bit that was put right */
    uint64_t erasures;      /* 0; kept for the number of erased symbols */
    uint64_t bits;          /* 0; kept for the number of symbols that were bits */
} caplattice_answer;

/* tools/boundary/make: functions */

/* ---- Check register
 *
 * The 16-bit register of ITU-T with the generator 0x1021. The control check starts it at 0xffff; data followed by its check leaves
 * 0x1d0f. */

/* The register after the lowest bits of the first n entries, or of all entries if there are fewer.
 *   crc:      the register to begin with
 *   source:   bits, one per entry; only the lowest bit of an entry counts
 *   n:        how many entries
 * Says value: the register.
 * Refuses nothing. */
uint8_t caplattice_crc16_itut_bits(uint16_t crc, const uint8_t *source, size_t source_len, size_t n, caplattice_answer *answer);

/* The register after the first n bits of packed bytes, each from its top bit.
 *   crc:      the register to begin with
 *   source:   bytes with eight bits each
 *   n:        how many bits
 * Says value: the register.
 * Refuses SHORT (n is over 8 times the entries of source). */
uint8_t caplattice_crc16_itut_bytes(uint16_t crc, const uint8_t *source, size_t source_len, size_t n, caplattice_answer *answer);

/* The same from 0xffff, where the control check starts.
 *   source:   bits, one per entry; only the lowest bit of an entry counts
 *   n:        how many entries
 * Says value: the register, not complemented.
 * Refuses nothing. */
uint8_t caplattice_crc16_ccitt_bits(const uint8_t *source, size_t source_len, size_t n, caplattice_answer *answer);

/* ---- Scrambling
 *
 * A 32-bit register whose outputs are added to bits. The one slice is source and target both, and all of it is rewritten. From a start
 * value of 0 all outputs are 0. */

/* The scrambler's outputs.
 *   start:    the register to begin with
 *   target:   any length; what it holds does not matter
 * Writes every entry of target.
 * Refuses nothing. */
uint8_t caplattice_tetra_scramb_get_bits(uint32_t start, uint8_t *target, size_t target_len);

/* Sending: the outputs added to the bits.
 *   start:    the register to begin with
 *   target:   bits, any length
 * Writes every entry of target.
 * Refuses BIT (an entry is over 1). */
uint8_t caplattice_tetra_scramb_bits(uint32_t start, uint8_t *target, size_t target_len);

/* Receiving: the outputs added to symbols that are 0 or 1; every other byte becomes 0xff.
 *   start:    the register to begin with
 *   target:   symbols, any length
 * Writes every entry of target.
 * Refuses nothing. */
uint8_t caplattice_tetra_descramb_bits(uint32_t start, uint8_t *target, size_t target_len);

/* The start value of a cell; it is 0 for colour 0.
 *   mcc:      country code, 0 to 1,023
 *   mnc:      network code, 0 to 16,383
 *   colour:   colour code, 0 to 63
 * Says value: the start value.
 * Refuses FIELD (a code is over its limit). */
uint8_t caplattice_tetra_scramb_get_init(uint16_t mcc, uint16_t mnc, uint8_t colour, caplattice_answer *answer);

/* ---- Interleaving
 *
 * Entries are bytes of any value. k and lines times columns may be 0: then nothing is done. */

/* Place i of 1 to k goes to 1 + (a i mod k).
 *   k:        entries, up to 4,096
 *   a:        step, up to 65,535
 *   source:   k entries
 *   target:   room for k
 * Writes the first k entries of target.
 * Refuses LIMIT (k is over 4,096 or a over 65,535), SHUFFLE (a whole number above 1 divides both k and a), SHORT (source), ROOM
 *         (target). */
uint8_t caplattice_block_interleave(size_t k, size_t a, const uint8_t *source, size_t source_len, uint8_t *target,
    size_t target_len);

/* The inverse of block_interleave.
 *   k:        entries, up to 4,096
 *   a:        step, up to 65,535
 *   source:   k entries
 *   target:   room for k
 * Writes the first k entries of target.
 * Refuses LIMIT (k is over 4,096 or a over 65,535), SHUFFLE (a whole number above 1 divides both k and a), SHORT (source), ROOM
 *         (target). */
uint8_t caplattice_block_deinterleave(size_t k, size_t a, const uint8_t *source, size_t source_len, uint8_t *target,
    size_t target_len);

/* Entry j columns + i goes to i lines + j, both counted from 0.
 *   lines:    up to 4,096
 *   columns:  up to 4,096, and lines times columns up to 4,096
 *   source:   lines times columns entries
 *   target:   room for as many
 * Writes the first lines times columns entries of target.
 * Refuses LIMIT (lines, columns or their product is over 4,096), SHORT (source), ROOM (target). */
uint8_t caplattice_matrix_interleave(size_t lines, size_t columns, const uint8_t *source, size_t source_len, uint8_t *target,
    size_t target_len);

/* The inverse of matrix_interleave.
 *   lines:    up to 4,096
 *   columns:  up to 4,096, and lines times columns up to 4,096
 *   source:   lines times columns entries
 *   target:   room for as many
 * Writes the first lines times columns entries of target.
 * Refuses LIMIT (lines, columns or their product is over 4,096), SHORT (source), ROOM (target). */
uint8_t caplattice_matrix_deinterleave(size_t lines, size_t columns, const uint8_t *source, size_t source_len, uint8_t *target,
    size_t target_len);

/* ---- Reed-Muller code (30,14)
 *
 * The code of the access field: a word of 30 bits whose upper 14 are the data. */

/* The code word of 14 data bits.
 *   input:    data, below 16,384
 * Says value: the word of 30 bits.
 * Refuses WORD (input is 16,384 or more). */
uint8_t caplattice_tetra_rm3014_compute(uint16_t input, caplattice_answer *answer);

/* The upper 14 bits of a word as they stand.
 *   codeword: a word, below 2^30
 * Says value: the 14 bits.
 * Refuses WORD (codeword is 2^30 or more). */
uint8_t caplattice_tetra_rm3014_decode_naive(uint32_t codeword, caplattice_answer *answer);

/* The parity bits that fail, the first parity column worth 1.
 *   codeword: a word, below 2^30
 * Says value: the 16 bits; 0 for a code word.
 * Refuses WORD (codeword is 2^30 or more). */
uint8_t caplattice_compute_syndrome(uint32_t codeword, caplattice_answer *answer);

/* The verdict on a word: no wrong bit, one that was put right, or more.
 *   codeword: a word, below 2^30
 * Says verdict: CLEAN, MENDED or BEYOND.
 * Says value: the 14 data bits; if BEYOND, as they were received.
 * Says place: if MENDED, the place of the wrong bit, 1 to 30 from the top; otherwise 0.
 * Refuses WORD (codeword is 2^30 or more). */
uint8_t caplattice_tetra_rm3014_decode_limited_ecc(uint32_t codeword, caplattice_answer *answer);

/* ---- Order of speech bits
 *
 * The 274 bits of a speech slot. Entries are bytes of any value. */

/* From the codec's order into the channel's.
 *   source:   274 entries
 *   target:   room for 274
 * Writes the first 274 entries of target.
 * Refuses SHORT (source), ROOM (target). */
uint8_t caplattice_codec_to_channel(const uint8_t *source, size_t source_len, uint8_t *target, size_t target_len);

/* From the channel's order into the codec's.
 *   source:   274 entries
 *   target:   room for 274
 * Writes the first 274 entries of target.
 * Refuses SHORT (source), ROOM (target). */
uint8_t caplattice_channel_to_codec(const uint8_t *source, size_t source_len, uint8_t *target, size_t target_len);

/* ---- Mother codes
 *
 * An encoder remembers the last four bits that it took, its delays. Here they are one number with a bit in each byte, the newest in the
 * last byte: 0 for a new encoder, and then what the call before said. An empty source succeeds whatever the delays are. */

/* The control code of rate 1/4.
 *   delays:   what the encoder remembers
 *   source:   bits, up to 4,096; all of them are used
 *   target:   room for 4 entries per bit
 * Writes the first 4 entries of target per bit.
 * Says value: the delays to go on from.
 * Refuses LIMIT (source has over 4,096 entries), ROOM (target), BIT (an entry of source or one of the four delays is over 1). */
uint8_t caplattice_encode(uint32_t delays, const uint8_t *source, size_t source_len, uint8_t *target, size_t target_len,
    caplattice_answer *answer);

/* The control code of rate 1/3: the first three of its four generators.
 *   delays:   what the encoder remembers
 *   source:   bits, up to 4,096; all of them are used
 *   target:   room for 3 entries per bit
 * Writes the first 3 entries of target per bit.
 * Says value: the delays to go on from.
 * Refuses LIMIT (source has over 4,096 entries), ROOM (target), BIT (an entry of source or one of the four delays is over 1). */
uint8_t caplattice_encode_rate1_3(uint32_t delays, const uint8_t *source, size_t source_len, uint8_t *target, size_t target_len,
    caplattice_answer *answer);

/* The speech code of rate 1/3.
 *   delays:   what the encoder remembers
 *   source:   bits, up to 4,096; all of them are used
 *   target:   room for 3 entries per bit
 * Writes the first 3 entries of target per bit.
 * Says value: the delays to go on from.
 * Refuses LIMIT (source has over 4,096 entries), ROOM (target), BIT (an entry of source or one of the four delays is over 1). */
uint8_t caplattice_encode_speech(uint32_t delays, const uint8_t *source, size_t source_len, uint8_t *target, size_t target_len,
    caplattice_answer *answer);

/* ---- Puncturing
 *
 * Output j of a mode, counted from 1, is the mother entry at k(j) = period b + P[i - t b], where b = (i - 1) div t and P is
 * counted from 1:
 *
 *     mode  name     t   period  i(j)                  P
 *     0     2_3      3   8       j                     1 2 5
 *     1     1_3      6   8       j                     1 2 3 5 6 7
 *     2     292_432  3   8       j + (j - 1) div 65    1 2 5
 *     3     148_432  6   8       j + (j - 1) div 35    1 2 3 5 6 7
 *     4     112_168  3   6       j                     1 2 4
 *     5     72_162   9   12      j                     1 2 3 4 5 7 8 10 11
 *     6     38_80    17  24      j                     1 2 3 4 5 7 8 10 11 13 14 16 17 19 20 22 23
 *
 * So n outputs need k(n) mother entries, and none if n is 0. Entries are bytes of any value. */

/* The first n outputs of a mother word.
 *   mode:     0 to 6
 *   source:   the mother word, k(n) entries
 *   n:        outputs, up to 4,096
 *   target:   room for n
 * Writes the first n entries of target.
 * Refuses KIND (mode is over 6), LIMIT (n is over 4,096), SHORT (source), ROOM (target). */
uint8_t caplattice_get_punctured_rate(uint8_t mode, const uint8_t *source, size_t source_len, size_t n, uint8_t *target,
    size_t target_len);

/* The first n outputs back at their places in the mother word.
 *   mode:     0 to 6
 *   source:   n entries
 *   n:        outputs, up to 4,096
 *   target:   room for k(n); fill it with 0xff before, so that what was not sent is an erasure
 * Writes the n kept places of target; the others stay.
 * Refuses KIND (mode is over 6), LIMIT (n is over 4,096), SHORT (source), ROOM (target). */
uint8_t caplattice_tetra_rcpc_depunct(uint8_t mode, const uint8_t *source, size_t source_len, size_t n, uint8_t *target,
    size_t target_len);

/* A mother word held against a depunctured one, up to the shorter; 0xff in the second is skipped.
 *   mother:   the mother word
 *   depunct:  the depunctured one
 * Says verdict: MATCHED or DIFFERS.
 * Says value: if MATCHED, how many places matched; otherwise 0.
 * Refuses nothing. */
uint8_t caplattice_mother_memcmp(const uint8_t *mother, size_t mother_len, const uint8_t *depunct, size_t depunct_len,
    caplattice_answer *answer);

/* ---- Decoding
 *
 * The nearest word: of all words of n bits whose last four are 0 (or all n, if n is under 4), the one whose encoding disagrees with the
 * fewest of the symbols that were received; of several, the one that has 0 at the last place where they differ. The trellis is the
 * decoder's workspace; what it holds before does not matter. */

/* The nearest word to control symbols, four per bit.
 *   source:   4 n symbols
 *   target:   room for n
 *   n:        bits of the word, up to 864
 *   trellis:  room for n
 * Writes the first n entries of target, and 0 to the first n of trellis.
 * Says disagreements: how many received symbols the word's encoding disagrees with.
 * Refuses LIMIT (n is over 864), SHORT (source), ROOM (target or trellis). */
uint8_t caplattice_dec_sb1(const uint8_t *source, size_t source_len, uint8_t *target, size_t target_len, size_t n,
    uint16_t *trellis, size_t trellis_len, caplattice_answer *answer);

/* The nearest word to speech symbols, three per bit.
 *   source:   3 n symbols
 *   target:   room for n
 *   n:        bits of the word, up to 864
 *   trellis:  room for n
 * Writes the first n entries of target, and 0 to the first n of trellis.
 * Says disagreements: how many received symbols the word's encoding disagrees with.
 * Refuses LIMIT (n is over 864), SHORT (source), ROOM (target or trellis). */
uint8_t caplattice_dec_speech(const uint8_t *source, size_t source_len, uint8_t *target, size_t target_len, size_t n,
    uint16_t *trellis, size_t trellis_len, caplattice_answer *answer);

/* ---- Speech check */

/* The 8 check bits of the 60 most sensitive speech bits.
 *   source:   60 bits; only the lowest bit of an entry counts
 *   target:   room for 8
 * Writes the first 8 entries of target.
 * Refuses SHORT (source), ROOM (target). */
uint8_t caplattice_speech_crc(const uint8_t *source, size_t source_len, uint8_t *target, size_t target_len);

/* ---- Control blocks
 *
 * A word is the data, 16 check bits and 4 zeros. On the air it is coded, punctured by mode 2_3, interleaved and scrambled.
 *
 *     kind  channel               data  word  air
 *     1     BSCH                  60    80    120
 *     2     SCH/HU                92    112   168
 *     3     SCH/HD, BNCH, STCH    124   144   216
 *     4     SCH/F                 268   288   432 */

/* The air symbols of a block.
 *   kind:     1 to 4
 *   start:    the scrambler's start value; 3 for BSCH
 *   source:   bits: the kind's data
 *   target:   room for the kind's air symbols
 * Writes the kind's air symbols at the front of target.
 * Refuses KIND (kind is not 1 to 4), SHORT (source), ROOM (target), BIT (an entry of source that is used is over 1). */
uint8_t caplattice_encode_cp(uint8_t kind, uint32_t start, const uint8_t *source, size_t source_len, uint8_t *target,
    size_t target_len);

/* The nearest word to received air symbols.
 *   kind:     1 to 4
 *   start:    the scrambler's start value; 3 for BSCH
 *   source:   the kind's air symbols: 0 and 1 are bits, every other byte is an erasure
 *   target:   room for the kind's word
 *   trellis:  room for as many entries as the word has
 * Writes the whole word at the front of target, whatever the verdict, and as many 0 to trellis.
 * Says verdict: GOOD if the word's check fits its data, otherwise BAD.
 * Says disagreements: how many received symbols the word's encoding disagrees with.
 * Refuses KIND (kind is not 1 to 4), SHORT (source), ROOM (target or trellis). */
uint8_t caplattice_decode_cp(uint8_t kind, uint32_t start, const uint8_t *source, size_t source_len, uint8_t *target,
    size_t target_len, uint16_t *trellis, size_t trellis_len, caplattice_answer *answer);

/* ---- Speech slots
 *
 * A slot has 274 bits in the codec's order and 432 symbols on the air. Of the air symbols 330 are coded; the other 102 carry a bit each. */

/* The air symbols of a slot.
 *   start:    the scrambler's start value
 *   source:   274 bits
 *   target:   room for 432
 * Writes the first 432 entries of target.
 * Refuses SHORT (source), ROOM (target), BIT (an entry of source that is used is over 1). */
uint8_t caplattice_encode_tp(uint32_t start, const uint8_t *source, size_t source_len, uint8_t *target, size_t target_len);

/* The second half of a slot's air symbols, 217 to 432.
 *   start:    the scrambler's start value, at the slot's first symbol
 *   source:   274 bits
 *   target:   room for 216
 * Writes the first 216 entries of target.
 * Refuses SHORT (source), ROOM (target), BIT (an entry of source that is used is over 1). */
uint8_t caplattice_encode_tp_half(uint32_t start, const uint8_t *source, size_t source_len, uint8_t *target, size_t target_len);

/* The bits of a slot: the nearest coded word, and the uncoded bits as received, an erased one as 0.
 *   start:    the scrambler's start value
 *   source:   432 symbols: 0 and 1 are bits, every other byte is an erasure
 *   target:   room for 274
 *   trellis:  room for 184
 * Writes the first 274 entries of target, whatever the verdict, and 0 to the first 184 of trellis.
 * Says verdict: GOOD if the check fits the 60 most sensitive bits, otherwise BAD.
 * Says disagreements: how many received coded symbols the word's encoding disagrees with.
 * Refuses SHORT (source), ROOM (target or trellis). */
uint8_t caplattice_decode_tp(uint32_t start, const uint8_t *source, size_t source_len, uint8_t *target, size_t target_len,
    uint16_t *trellis, size_t trellis_len, caplattice_answer *answer);

/* The bits of a slot of which only the second half was received: 216 erasures are supplied before it.
 *   start:    the scrambler's start value, at the slot's first symbol
 *   source:   216 symbols: 0 and 1 are bits, every other byte is an erasure
 *   target:   room for 274
 *   trellis:  room for 184
 * Writes the first 274 entries of target, whatever the verdict, and 0 to the first 184 of trellis.
 * Says verdict: GOOD if the check fits the 60 most sensitive bits, otherwise BAD.
 * Says disagreements: how many received coded symbols the word's encoding disagrees with.
 * Refuses SHORT (source), ROOM (target or trellis). */
uint8_t caplattice_decode_tp_half(uint32_t start, const uint8_t *source, size_t source_len, uint8_t *target, size_t target_len,
    uint16_t *trellis, size_t trellis_len, caplattice_answer *answer);

/* ---- Access field */

/* The air bits of 14 data bits: their Reed-Muller word, its top bit first, scrambled.
 *   start:    the scrambler's start value
 *   source:   14 bits
 *   target:   room for 30
 * Writes the first 30 entries of target.
 * Refuses SHORT (source), ROOM (target), BIT (an entry of source that is used is over 1). */
uint8_t caplattice_encode_aach(uint32_t start, const uint8_t *source, size_t source_len, uint8_t *target, size_t target_len);

/* The verdict on received air bits, unscrambled.
 *   start:    the scrambler's start value
 *   source:   30 bits
 * Says verdict: CLEAN, MENDED or BEYOND.
 * Says value: the 14 data bits as a number; if BEYOND, as they were received.
 * Says place: if MENDED, the place of the wrong bit, 1 to 30 from the first; otherwise 0.
 * Refuses SHORT (source), BIT (an entry of source that is used is over 1). */
uint8_t caplattice_decode_aach(uint32_t start, const uint8_t *source, size_t source_len, caplattice_answer *answer);

/* tools/boundary/make: end */

#ifdef __cplusplus
}
#endif

#endif
