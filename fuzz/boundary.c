/* The C boundary under abuse. The fuzzer's bytes choose an entry, its numbers, the length and content of each slice; the call is then
 * made twice, on the proved module compiled with instrumentation and on the library as shipped, and all that include/caplattice.h and
 * document 01 say of it is checked: which refusal, what is written, what stays.
 *
 * For the instrumented module each slice is a heap block of exactly its length, so that the address sanitizer sees one byte too far.
 * The shipped library has no instrumentation: there each slice stands against a page that cannot be touched. */
#include "../include/caplattice.h"
#include "functions.h"
#include "harness.h"

#include <sys/mman.h>

#define NUMBER(name, ...) ENTRY_##name,
enum entry { ENTRIES(NUMBER) ENTRY_COUNT };

#define NAME(name, ...) #name,
static const char *const names[] = {ENTRIES(NAME)};

#define MEMBER(name, ...) __typeof__(caplattice_##name) *name;
struct library { ENTRIES(MEMBER) };

#define OURS(name, ...) .name = caplattice_##name,
static const struct library instrumented = {ENTRIES(OURS)};

/* fuzz/run gives the shipped library's functions a prefix; tests/boundary has the shipped library alone. */
#ifdef SHIPPED_ALONE
#define shipped instrumented
#else
#define SHIPPED(name, ...) extern __typeof__(caplattice_##name) shipped_caplattice_##name;
ENTRIES(SHIPPED)
#define THEIRS(name, ...) .name = shipped_caplattice_##name,
static const struct library shipped = {ENTRIES(THEIRS)};
#endif

/* ---- the call */

enum { SOURCE, TARGET, TRELLIS, SLICES };
enum { ROOM_FOR_ANY = 40960 }; /* more than any entry uses, in bytes */

struct slice {
    size_t len;         /* in entries, as the entry is told */
    size_t width;       /* bytes of an entry */
    int unreal;         /* the length is a lie: nothing may be touched */
    uint8_t *before;    /* what it held */
    uint8_t *now;       /* what the instrumented call left */
};

struct call {
    enum entry entry;
    uint32_t word;  /* crc, start, delays, or a Reed-Muller word */
    uint16_t mcc, mnc;
    uint8_t small;  /* kind, mode or colour */
    size_t n, m;    /* counts; k and a; lines and columns */
    struct slice slices[SLICES];
};

static uint8_t made(const struct library *lib, const struct call *c, uint8_t *const at[SLICES], caplattice_answer *answer)
{
    const uint8_t *s = at[SOURCE];
    uint8_t *t = at[TARGET];
    uint16_t *w = (uint16_t *)at[TRELLIS];
    size_t sn = c->slices[SOURCE].len, tn = c->slices[TARGET].len, wn = c->slices[TRELLIS].len;
    switch (c->entry) {
        CALLS
    case ENTRY_COUNT: break;
    }
    abort();
}

/* ---- what document 01 says of a call */

/* How many entries are used of each slice when the call succeeds, which refusal the numbers alone give, and whether the source (or
 * the scrambler's one slice) holds bits alone. */
struct due {
    unsigned refusal;
    size_t used[SLICES];
    int bits_only;
};

static const size_t control_data[] = {0, 60, 92, 124, 268};
static const size_t control_word[] = {0, 80, 112, 144, 288};
static const size_t control_air[] = {0, 120, 168, 216, 432};

/* The mother position, from 1, of a puncturing mode's output n, which is the last that n outputs need (document 01, convenc.rs). */
static size_t last_kept(unsigned mode, size_t n)
{
    static const struct { size_t t, period, run; unsigned char p[17]; } rows[] = {
        {3, 8, 0, {1, 2, 5}},
        {6, 8, 0, {1, 2, 3, 5, 6, 7}},
        {3, 8, 65, {1, 2, 5}},
        {6, 8, 35, {1, 2, 3, 5, 6, 7}},
        {3, 6, 0, {1, 2, 4}},
        {9, 12, 0, {1, 2, 3, 4, 5, 7, 8, 10, 11}},
        {17, 24, 0, {1, 2, 3, 4, 5, 7, 8, 10, 11, 13, 14, 16, 17, 19, 20, 22, 23}},
    };
    size_t i = n + (rows[mode].run ? (n - 1) / rows[mode].run : 0);
    size_t block = (i - 1) / rows[mode].t;
    return rows[mode].period * block + rows[mode].p[i - rows[mode].t * block - 1];
}

static size_t divisor(size_t k, size_t a)
{
    return a == 0 ? k : divisor(a, k % a);
}

static struct due due_of(const struct call *c)
{
    struct due d = {0, {0, 0, 0}, 0};
    size_t n = c->n, m = c->m;
    unsigned first = 0; /* KIND, FIELD, WORD, LIMIT or SHUFFLE, in that order */
    switch (c->entry) {
    case ENTRY_crc16_itut_bits:
    case ENTRY_crc16_ccitt_bits: d.used[SOURCE] = n < c->slices[SOURCE].len ? n : c->slices[SOURCE].len; break;
    case ENTRY_crc16_itut_bytes: d.used[SOURCE] = n / 8 + (n % 8 != 0); break;
    case ENTRY_tetra_scramb_bits: d.bits_only = 1; /* fall through */
    case ENTRY_tetra_scramb_get_bits:
    case ENTRY_tetra_descramb_bits: d.used[TARGET] = c->slices[TARGET].len; break;
    case ENTRY_tetra_scramb_get_init: first = c->mcc > 1023 || c->mnc > 16383 || c->small > 63 ? CAPLATTICE_FIELD : 0; break;
    case ENTRY_block_interleave:
    case ENTRY_block_deinterleave:
        first = n > 4096 || m > 65535 ? CAPLATTICE_LIMIT : n > 0 && divisor(n, m) > 1 ? CAPLATTICE_SHUFFLE : 0;
        d.used[SOURCE] = d.used[TARGET] = n;
        break;
    case ENTRY_matrix_interleave:
    case ENTRY_matrix_deinterleave:
        first = n > 4096 || m > 4096 || n * m > 4096 ? CAPLATTICE_LIMIT : 0;
        d.used[SOURCE] = d.used[TARGET] = n * m;
        break;
    case ENTRY_tetra_rm3014_compute: first = (uint16_t)c->word >= 16384 ? CAPLATTICE_WORD : 0; break;
    case ENTRY_tetra_rm3014_decode_naive:
    case ENTRY_compute_syndrome:
    case ENTRY_tetra_rm3014_decode_limited_ecc: first = c->word >> 30 ? CAPLATTICE_WORD : 0; break;
    case ENTRY_codec_to_channel:
    case ENTRY_channel_to_codec: d.used[SOURCE] = d.used[TARGET] = 274; break;
    case ENTRY_speech_crc: d.used[SOURCE] = 60, d.used[TARGET] = 8; break;
    case ENTRY_encode:
    case ENTRY_encode_rate1_3:
    case ENTRY_encode_speech:
        n = c->slices[SOURCE].len;
        first = n > 4096 ? CAPLATTICE_LIMIT : 0;
        d.used[SOURCE] = n, d.used[TARGET] = n * (c->entry == ENTRY_encode ? 4 : 3), d.bits_only = 1;
        break;
    case ENTRY_get_punctured_rate:
    case ENTRY_tetra_rcpc_depunct: {
        first = c->small > 6 ? CAPLATTICE_KIND : n > 4096 ? CAPLATTICE_LIMIT : 0;
        size_t last = first || n == 0 ? 0 : last_kept(c->small, n);
        int puncturing = c->entry == ENTRY_get_punctured_rate;
        d.used[SOURCE] = puncturing ? last : n, d.used[TARGET] = puncturing ? n : last;
        break;
    }
    case ENTRY_mother_memcmp: {
        size_t shorter = c->slices[SOURCE].len < c->slices[TARGET].len ? c->slices[SOURCE].len : c->slices[TARGET].len;
        d.used[SOURCE] = d.used[TARGET] = shorter;
        break;
    }
    case ENTRY_dec_sb1:
    case ENTRY_dec_speech:
        first = n > 864 ? CAPLATTICE_LIMIT : 0;
        d.used[SOURCE] = n * (c->entry == ENTRY_dec_sb1 ? 4 : 3), d.used[TARGET] = d.used[TRELLIS] = n;
        break;
    case ENTRY_encode_cp:
    case ENTRY_decode_cp:
        first = c->small < 1 || c->small > 4 ? CAPLATTICE_KIND : 0;
        if (first)
            break;
        if (c->entry == ENTRY_encode_cp)
            d.used[SOURCE] = control_data[c->small], d.used[TARGET] = control_air[c->small], d.bits_only = 1;
        else
            d.used[SOURCE] = control_air[c->small], d.used[TARGET] = d.used[TRELLIS] = control_word[c->small];
        break;
    case ENTRY_encode_tp:
    case ENTRY_encode_tp_half:
        d.used[SOURCE] = 274, d.used[TARGET] = c->entry == ENTRY_encode_tp ? 432 : 216, d.bits_only = 1;
        break;
    case ENTRY_decode_tp:
    case ENTRY_decode_tp_half:
        d.used[SOURCE] = c->entry == ENTRY_decode_tp ? 432 : 216, d.used[TARGET] = 274, d.used[TRELLIS] = 184;
        break;
    case ENTRY_encode_aach: d.used[SOURCE] = 14, d.used[TARGET] = 30, d.bits_only = 1; break;
    case ENTRY_decode_aach: d.used[SOURCE] = 30, d.bits_only = 1; break;
    case ENTRY_COUNT: abort();
    }
    if (first)
        d.refusal = first;
    else if (c->slices[SOURCE].len < d.used[SOURCE])
        d.refusal = CAPLATTICE_SHORT;
    else if (c->slices[TARGET].len < d.used[TARGET] || c->slices[TRELLIS].len < d.used[TRELLIS])
        d.refusal = CAPLATTICE_ROOM;
    return d;
}

static int encodes(enum entry entry)
{
    return entry == ENTRY_encode || entry == ENTRY_encode_rate1_3 || entry == ENTRY_encode_speech;
}

/* BIT needs a look at the entries. */
static unsigned refusal_by_content(const struct call *c, const struct due *d)
{
    if (!d->bits_only)
        return 0;
    int which = c->entry == ENTRY_tetra_scramb_bits ? TARGET : SOURCE;
    for (size_t i = 0; i < d->used[which]; i++)
        if (c->slices[which].before[i] > 1)
            return CAPLATTICE_BIT;
    if (encodes(c->entry) && d->used[SOURCE] > 0 && c->word & 0xfefefefe)
        return CAPLATTICE_BIT;
    return 0;
}

/* Which of the slices an entry has, whether it has an answer, and its refusals. */
#define HAS(name, refusals, source, target, trellis, answer) {{source, target, trellis}, answer, refusals},
static const struct { unsigned char slices[SLICES], answer; const char *refusals; } shapes[] = {ENTRIES(HAS)};

static int has(enum entry entry, int which)
{
    return shapes[entry].slices[which];
}

/* ---- what the fuzzer's bytes mean */

/* A number near one that matters. */
static size_t near_one_of(struct bytes *b, const size_t *points, size_t count)
{
    uint8_t how = taken(b);
    size_t point = points[taken(b) % count];
    switch (how % 16) {
    case 0: return 0;
    case 1: return 1;
    case 2: return point > 0 ? point - 1 : 0;
    case 3: return point + 1;
    case 4: return taken(b);
    case 5: return taken_two(b);
    case 6: return taken(b) < 8 ? SIZE_MAX - taken(b) : point + taken(b);
    case 7: return taken(b) < 8 ? (size_t)1 << (32 + taken(b) % 32) : point / 2;
    default: return point;
    }
}
#define NEAR(b, ...) near_one_of(b, (const size_t[]){__VA_ARGS__}, sizeof((const size_t[]){__VA_ARGS__}) / sizeof(size_t))

static uint32_t word_for(struct bytes *b, enum entry entry)
{
    uint32_t any = (uint32_t)taken_two(b) << 16 | taken_two(b);
    switch (entry) {
    case ENTRY_encode:
    case ENTRY_encode_rate1_3:
    case ENTRY_encode_speech: return any & 1 << 31 ? any : any & 2 ? 0 : any & 0x01010101;
    case ENTRY_tetra_rm3014_decode_naive:
    case ENTRY_compute_syndrome:
    case ENTRY_tetra_rm3014_decode_limited_ecc: {
        if (any >> 30)
            return any >> 31 ? any : 0x3fffffff;
        caplattice_answer coded;
        caplattice_tetra_rm3014_compute(any & 0x3fff, &coded);
        uint32_t word = (uint32_t)coded.value;
        uint8_t wrong = taken(b);
        for (unsigned i = 0; i < wrong % 4; i++)
            word ^= 1u << taken(b) % 30;
        return word;
    }
    default: return any;
    }
}

static void chosen_numbers(struct bytes *b, struct call *c)
{
    c->word = word_for(b, c->entry);
    switch (c->entry) {
    case ENTRY_crc16_itut_bits:
    case ENTRY_crc16_itut_bytes:
    case ENTRY_crc16_ccitt_bits: c->n = NEAR(b, 0, 8, 60, 76, 108, 284, 4096); break;
    case ENTRY_tetra_scramb_get_init:
        c->mcc = (uint16_t)NEAR(b, 1023, 65535, 262), c->mnc = (uint16_t)NEAR(b, 16383, 65535, 9), c->small = (uint8_t)NEAR(b, 63, 255, 1);
        break;
    case ENTRY_block_interleave:
    case ENTRY_block_deinterleave: c->n = NEAR(b, 120, 168, 216, 432, 4096, 6), c->m = NEAR(b, 11, 13, 101, 103, 65535, 5); break;
    case ENTRY_matrix_interleave:
    case ENTRY_matrix_deinterleave: c->n = NEAR(b, 24, 18, 64, 4096), c->m = NEAR(b, 18, 24, 64, 1, 4096); break;
    case ENTRY_get_punctured_rate:
    case ENTRY_tetra_rcpc_depunct: c->small = (uint8_t)(taken(b) % 9), c->n = NEAR(b, 120, 432, 168, 162, 65, 66, 35, 36, 80, 4096); break;
    case ENTRY_dec_sb1:
    case ENTRY_dec_speech: c->n = NEAR(b, 4, 5, 80, 112, 144, 184, 288, 864); break;
    case ENTRY_encode_cp:
    case ENTRY_decode_cp: c->small = (uint8_t)(taken(b) % 6); break;
    default: break;
    }
    if (c->small == 8 || (c->entry == ENTRY_encode_cp && c->small == 5))
        c->small = taken(b);
}

/* A slice's length: what is used, one less, some more, nothing, or one that no memory has. */
static void chosen_length(struct bytes *b, struct call *c, int which, size_t used)
{
    static const size_t whole[] = {0, 1, 30, 60, 80, 274, 432, 864, 4095, 4096, 4097, 16384};
    struct slice *s = &c->slices[which];
    uint8_t how = taken(b);
    int any_length = encodes(c->entry) || c->entry == ENTRY_mother_memcmp || c->entry <= ENTRY_tetra_descramb_bits;
    if (any_length && (which == SOURCE || !encodes(c->entry)))
        used = whole[taken(b) % (sizeof whole / sizeof *whole)];
    switch (how % 16) {
    case 0: s->len = 0; break;
    case 1: s->len = used > 0 ? used - 1 : 0; break;
    case 2: s->len = used + 1; break;
    case 3: s->len = used + taken(b); break;
    case 4: s->len = taken(b); break;
    case 5: s->len = taken_two(b); break;
    case 6: s->len = used / 2; break;
    case 7:
        s->unreal = taken(b) < 64;
        s->len = !s->unreal ? used : taken(b) & 1 ? SIZE_MAX : (size_t)1 << (20 + taken(b) % 44);
        break;
    default: s->len = used;
    }
    if (!s->unreal && s->len > ROOM_FOR_ANY / s->width)
        s->len = ROOM_FOR_ANY / s->width;
}

static void chosen_content(struct bytes *b, uint8_t *at, size_t length)
{
    uint8_t how = taken(b);
    uint64_t chance = taken_two(b) + 1;
    for (size_t i = 0; i < length; i++) {
        uint64_t r = chance = chance * 6364136223846793005u + 1442695040888963407u;
        r >>= 33;
        switch (how % 8) {
        case 0: at[i] = 0; break;
        case 1: at[i] = r & 1; break;
        case 2: at[i] = r >> 8 & 15 ? r & 1 : 0xff; break;
        case 3: at[i] = taken(b); break;
        case 4: at[i] = taken(b) & 1; break;
        case 5: at[i] = how & 32 ? 0xff : 1; break;
        case 6: at[i] = (uint8_t)r; break;
        default: at[i] = length - i <= 4 ? 0 : r & 1; break;
        }
    }
    if (how & 8 && length > 0)
        at[taken_two(b) % length] = taken(b);
    if (how & 16 && length > 0)
        at[length - 1 - taken(b) % length] = taken(b);
}

/* ---- checks */

static const struct call *looked_at;
static void broken(const char *what)
{
    fprintf(stderr, "caplattice_%s: %s\n", names[looked_at->entry], what);
    fprintf(stderr, "word %#x, small %u, n %zu, m %zu, lengths %zu %zu %zu\n", looked_at->word, looked_at->small, looked_at->n,
            looked_at->m, looked_at->slices[0].len, looked_at->slices[1].len, looked_at->slices[2].len);
    abort();
}
#define MUST(condition, what) ((condition) ? (void)0 : broken(what))

/* What an answer holds before a call. */
static const caplattice_answer untouched = {0xa5a5a5a5a5a5a5a5, 0x5a5a5a5a5a5a5a5a, 1, 2, 3, UINT64_MAX};

static int same_answer(const caplattice_answer *a, const caplattice_answer *b)
{
    return memcmp(a, b, sizeof *a) == 0;
}

static void check_answer(const struct call *c, unsigned number, const caplattice_answer *said, unsigned refusal)
{
    MUST(number == refusal, refusal ? "another refusal than document 01's, or none" : "a refusal where document 01 has none");
    if (refusal || !shapes[c->entry].answer) {
        MUST(same_answer(said, &untouched), "an answer was changed by a refusal, or by an entry that has none");
        return;
    }
    MUST(said->erasures == 0 && said->bits == 0, "erasures or bits, which no entry counts");
    MUST(said->place == 0 || (said->verdict == CAPLATTICE_MENDED && said->place <= 30), "a place beside an answer that has none");
    MUST(said->verdict != CAPLATTICE_MENDED || said->place > 0, "mended at no place");
    int decodes = has(c->entry, TRELLIS);
    MUST(decodes ? said->value == 0 : said->disagreements == 0, "a member that the entry does not speak of is not 0");
    switch (c->entry) {
    case ENTRY_tetra_rm3014_decode_limited_ecc:
    case ENTRY_decode_aach:
        MUST(said->verdict >= CAPLATTICE_CLEAN && said->verdict <= CAPLATTICE_BEYOND, "no verdict");
        MUST(said->value < 16384, "data of more than 14 bits");
        break;
    case ENTRY_mother_memcmp:
        MUST(said->verdict == CAPLATTICE_MATCHED || (said->verdict == CAPLATTICE_DIFFERS && said->value == 0), "neither Matched nor Differs");
        break;
    case ENTRY_decode_cp:
    case ENTRY_decode_tp:
    case ENTRY_decode_tp_half:
        MUST(said->verdict == CAPLATTICE_GOOD || said->verdict == CAPLATTICE_BAD, "neither Good nor Bad");
        break;
    default: MUST(said->verdict == CAPLATTICE_DONE, "not Done");
    }
}

static void check_slices(const struct call *c, const struct due *d, unsigned refusal)
{
    for (int which = 0; which < SLICES; which++) {
        const struct slice *s = &c->slices[which];
        if (s->unreal || !has(c->entry, which))
            continue;
        size_t kept_from = d->used[which] * s->width;
        if (refusal || which == SOURCE || c->entry == ENTRY_mother_memcmp)
            kept_from = 0;
        MUST(memcmp(s->before + kept_from, s->now + kept_from, s->len * s->width - kept_from) == 0,
             refusal ? "a refusal changed a lent entry" : "an entry was written that is not the call's");
        if (which == TRELLIS && !refusal)
            for (size_t i = 0; i < kept_from; i++)
                MUST(s->now[i] == 0, "a used trellis entry is not zero");
    }
}

/* Laws that need one or two more calls, all on the instrumented module. */
static uint8_t scratch[2][ROOM_FOR_ANY];
static uint16_t workspace[864];

static int all_bits(const uint8_t *at, size_t length)
{
    for (size_t i = 0; i < length; i++)
        if (at[i] > 1)
            return 0;
    return 1;
}

static uint64_t disagreeing(const uint8_t *sent, const uint8_t *symbols, size_t length)
{
    uint64_t count = 0;
    for (size_t i = 0; i < length; i++)
        count += symbols[i] < 2 && symbols[i] != sent[i];
    return count;
}

static void check_laws(const struct call *c, const struct due *d, const caplattice_answer *said)
{
    const uint8_t *source = c->slices[SOURCE].before, *target = c->slices[TARGET].now;
    size_t sn = d->used[SOURCE], tn = d->used[TARGET];
    uint64_t value = said->value;
    int good = said->verdict == CAPLATTICE_GOOD;
    unsigned back;
    caplattice_answer more = untouched;
    for (int which = 0; which < SLICES; which++)
        if (c->slices[which].unreal)
            return;
    switch (c->entry) {
    case ENTRY_crc16_itut_bits:
    case ENTRY_crc16_ccitt_bits:
        MUST(value <= 0xffff, "a register of more than 16 bits");
        if (c->entry == ENTRY_crc16_ccitt_bits)
            MUST(!caplattice_crc16_itut_bits(0xffff, source, c->slices[SOURCE].len, c->n, &more) && same_answer(said, &more),
                 "not the register from 0xffff");
        break;
    case ENTRY_crc16_itut_bytes:
        for (size_t i = 0; i < c->n && i < ROOM_FOR_ANY; i++)
            scratch[0][i] = source[i / 8] >> (7 - i % 8) & 1;
        if (c->n <= ROOM_FOR_ANY)
            MUST(!caplattice_crc16_itut_bits((uint16_t)c->word, scratch[0], c->n, c->n, &more) && same_answer(said, &more),
                 "packed and unpacked bits differ");
        break;
    case ENTRY_tetra_scramb_get_bits: MUST(all_bits(target, tn), "an output is no bit"); break;
    case ENTRY_tetra_scramb_bits:
    case ENTRY_tetra_descramb_bits:
        memcpy(scratch[0], target, tn);
        MUST(caplattice_tetra_descramb_bits(c->word, scratch[0], tn) == 0, "descrambling refuses");
        for (size_t i = 0; i < tn; i++) {
            uint8_t was = c->slices[TARGET].before[i];
            MUST(scratch[0][i] == (was < 2 ? was : 0xff), "scrambled twice is not what it was");
        }
        break;
    case ENTRY_tetra_scramb_get_init:
        MUST(value == (c->small == 0 ? 0 : 4 * (c->small + 64u * c->mnc + ((uint32_t)c->mcc << 20)) + 3), "another start value");
        break;
    case ENTRY_block_interleave:
    case ENTRY_block_deinterleave:
        back = (c->entry == ENTRY_block_interleave ? caplattice_block_deinterleave
                                                   : caplattice_block_interleave)(c->n, c->m, target, tn, scratch[0], tn);
        MUST(back == 0 && memcmp(scratch[0], source, sn) == 0, "there and back is not what it was");
        break;
    case ENTRY_matrix_interleave:
    case ENTRY_matrix_deinterleave:
        back = (c->entry == ENTRY_matrix_interleave ? caplattice_matrix_deinterleave
                                                    : caplattice_matrix_interleave)(c->n, c->m, target, tn, scratch[0], tn);
        MUST(back == 0 && memcmp(scratch[0], source, sn) == 0, "there and back is not what it was");
        break;
    case ENTRY_codec_to_channel:
    case ENTRY_channel_to_codec:
        back = (c->entry == ENTRY_codec_to_channel ? caplattice_channel_to_codec : caplattice_codec_to_channel)(target, tn, scratch[0], tn);
        MUST(back == 0 && memcmp(scratch[0], source, sn) == 0, "there and back is not what it was");
        break;
    case ENTRY_tetra_rm3014_compute:
        MUST(value >> 16 == (uint16_t)c->word, "the word does not begin with its data");
        back = caplattice_tetra_rm3014_decode_limited_ecc((uint32_t)value, &more);
        MUST(back == 0 && more.verdict == CAPLATTICE_CLEAN && more.value == (uint16_t)c->word, "a code word is not clean");
        break;
    case ENTRY_tetra_rm3014_decode_limited_ecc:
        if (said->verdict == CAPLATTICE_MENDED) {
            uint32_t mended = c->word ^ 1u << (30 - said->place);
            MUST(!caplattice_tetra_rm3014_compute((uint16_t)value, &more) && more.value == mended, "mended to no code word");
        } else
            MUST(value == c->word >> 16, "the data are not the upper 14 bits");
        break;
    case ENTRY_speech_crc: MUST(all_bits(target, tn), "a check bit is no bit"); break;
    case ENTRY_encode:
    case ENTRY_encode_rate1_3:
    case ENTRY_encode_speech:
        MUST(all_bits(target, tn), "an output is no bit");
        MUST(sn > 0 || value == c->word, "an empty input changed the delays");
        MUST(sn == 0 || (value & 0xfefefefe) == 0, "a delay is no bit");
        if (c->entry != ENTRY_encode_rate1_3 && c->word == 0 && sn >= 4 && sn <= 864 && value == 0) {
            back = (c->entry == ENTRY_encode ? caplattice_dec_sb1 : caplattice_dec_speech)(target, tn, scratch[0], sn, sn, workspace, sn, &more);
            MUST(back == 0 && more.disagreements == 0 && memcmp(scratch[0], source, sn) == 0, "decoding what was encoded gives another word");
        }
        break;
    case ENTRY_get_punctured_rate:
        memset(scratch[0], 0xa5, sn);
        MUST(caplattice_tetra_rcpc_depunct(c->small, target, tn, c->n, scratch[0], sn) == 0, "depuncturing refuses");
        MUST(caplattice_get_punctured_rate(c->small, scratch[0], sn, c->n, scratch[1], tn) == 0, "puncturing again refuses");
        MUST(memcmp(scratch[1], target, tn) == 0, "there and back is not what it was");
        break;
    case ENTRY_tetra_rcpc_depunct:
        MUST(caplattice_get_punctured_rate(c->small, target, tn, c->n, scratch[0], sn) == 0, "puncturing refuses");
        MUST(memcmp(scratch[0], source, sn) == 0, "there and back is not what it was");
        for (size_t i = 1, at = 0; i <= c->n; i++, at++)
            for (size_t next = last_kept(c->small, i) - 1; at < next; at++)
                MUST(target[at] == c->slices[TARGET].before[at], "a place was written that is not kept");
        break;
    case ENTRY_mother_memcmp: {
        uint64_t matched = 0, differ = 0;
        const uint8_t *depunct = c->slices[TARGET].before;
        for (size_t i = 0; i < sn; i++)
            if (depunct[i] != 0xff) {
                matched += source[i] == depunct[i];
                differ += source[i] != depunct[i];
            }
        MUST(differ ? said->verdict == CAPLATTICE_DIFFERS : said->verdict == CAPLATTICE_MATCHED && value == matched,
             "another count, or another verdict");
        break;
    }
    case ENTRY_dec_sb1:
    case ENTRY_dec_speech:
        MUST(all_bits(target, tn), "a decoded bit is no bit");
        for (size_t i = 0; i < 4 && i < tn; i++)
            MUST(target[tn - 1 - i] == 0, "the tail is not zero");
        back = (c->entry == ENTRY_dec_sb1 ? caplattice_encode : caplattice_encode_speech)(0, target, tn, scratch[0], sn, &more);
        MUST(back == 0 && said->disagreements == disagreeing(scratch[0], source, sn), "not the word's disagreements");
        break;
    case ENTRY_encode_cp:
        MUST(all_bits(target, tn), "a sent symbol is no bit");
        back = caplattice_decode_cp(c->small, c->word, target, tn, scratch[0], control_word[c->small], workspace, control_word[c->small],
                                    &more);
        MUST(back == 0 && more.verdict == CAPLATTICE_GOOD && more.disagreements == 0 && memcmp(scratch[0], source, sn) == 0,
             "a sent block is not received");
        break;
    case ENTRY_decode_cp:
        MUST(all_bits(target, tn), "a decoded bit is no bit");
        MUST(!caplattice_crc16_ccitt_bits(target, tn, tn - 4, &more) && good == (more.value == 0x1d0f), "Good is not what the check says");
        if (good) {
            memcpy(scratch[1], target, tn);
            MUST(caplattice_encode_cp(c->small, c->word, scratch[1], tn, scratch[0], sn) == 0, "a decoded block is refused");
            MUST(said->disagreements == disagreeing(scratch[0], source, sn), "not the block's disagreements");
        }
        break;
    case ENTRY_encode_tp:
    case ENTRY_encode_tp_half:
        MUST(all_bits(target, tn), "a sent symbol is no bit");
        back = (tn == 432 ? caplattice_decode_tp : caplattice_decode_tp_half)(c->word, target, tn, scratch[0], 274, workspace, 184, &more);
        MUST(back == 0 && more.verdict == CAPLATTICE_GOOD && more.disagreements == 0, "a sent slot is not received");
        MUST(tn == 216 || memcmp(scratch[0], source, sn) == 0, "a sent slot is received as another");
        break;
    case ENTRY_decode_tp:
    case ENTRY_decode_tp_half: MUST(all_bits(target, tn), "a decoded bit is no bit"); break;
    case ENTRY_encode_aach:
        back = caplattice_decode_aach(c->word, target, tn, &more);
        MUST(back == 0 && more.verdict == CAPLATTICE_CLEAN, "a sent field is not clean");
        for (size_t i = 0; i < 14; i++)
            MUST((more.value >> (13 - i) & 1) == source[i], "a sent field is received as another");
        break;
    default: break;
    }
}

/* ---- where the slices stand */

/* Pages that can be touched, between two that cannot. */
static uint8_t *guarded(int which)
{
    static uint8_t *rooms[SLICES + 1];
    if (!rooms[which]) {
        size_t page = 4096;
        uint8_t *at = mmap(NULL, ROOM_FOR_ANY + 2 * page, PROT_NONE, MAP_PRIVATE | MAP_ANONYMOUS, -1, 0);
        if (at == MAP_FAILED || mprotect(at + page, ROOM_FOR_ANY, PROT_READ | PROT_WRITE)) {
            perror("boundary: no guarded memory");
            exit(2);
        }
        rooms[which] = at + page;
    }
    return rooms[which];
}

/* A pointer that nothing may be read through: null, or dangling and aligned, low or high. */
static uint8_t *nowhere(uint8_t how, size_t width)
{
    static const uintptr_t places[5] = {0, 2, 4096, (uintptr_t)1 << 47, UINTPTR_MAX - 1};
    uintptr_t place = places[how % 5];
    return (uint8_t *)(width == 1 && how & 128 && place ? place - 1 : place);
}

/* What has been met: each entry's success (0) and refusals, and each of its slices empty at each of the pointers, or of a length that
 * no memory has. */
static unsigned long met[ENTRY_COUNT][9], met_empty[ENTRY_COUNT][SLICES][5], met_unreal[ENTRY_COUNT];

int LLVMFuzzerTestOneInput(const uint8_t *data, size_t size)
{
    struct bytes b = {data, size};
    struct call c = {.entry = taken(&b) % ENTRY_COUNT};
    uint8_t *heap[SLICES], *other[SLICES];
    looked_at = &c;
    chosen_numbers(&b, &c);
    for (int which = 0; which < SLICES; which++)
        c.slices[which].width = which == TRELLIS ? 2 : 1;
    /* Lengths stand near what the call would use if all were there. */
    struct due wished = due_of(&c);
    for (int which = 0; which < SLICES; which++) {
        if (!has(c.entry, which))
            continue;
        chosen_length(&b, &c, which, wished.used[which]);
        if (encodes(c.entry) && which == SOURCE)
            wished = due_of(&c);
    }
    struct due d = due_of(&c);
    /* A length that no memory has is within the contract of no C caller; what can be asked is that the call does not touch the slice where
     * document 01 has it refuse before, or use nothing of it. Elsewhere the length is made real. */
    for (int which = 0; which < SLICES; which++)
        if (c.slices[which].unreal && !d.refusal && d.used[which] > 0) {
            c.slices[which].unreal = 0;
            c.slices[which].len = ROOM_FOR_ANY / c.slices[which].width;
            d = due_of(&c);
        }
    for (int which = 0; which < SLICES; which++)
        if (c.slices[which].unreal && !d.refusal && d.used[which] > 0)
            return 0;

    uint8_t where = taken(&b);
    for (int which = 0; which < SLICES; which++) {
        struct slice *s = &c.slices[which];
        size_t length = s->unreal ? 0 : s->len * s->width;
        s->before = malloc(length);
        chosen_content(&b, s->before, length);
        if (length == 0) {
            uint8_t how = taken(&b);
            s->now = malloc(0);
            heap[which] = other[which] = nowhere(how, s->width);
            met_empty[c.entry][which][how % 5] += !s->unreal;
            met_unreal[c.entry] += s->unreal;
            continue;
        }
        heap[which] = s->now = malloc(length);
        other[which] = guarded(which) + (where & 1 << which ? 0 : ROOM_FOR_ANY - length);
        memcpy(s->now, s->before, length);
        memcpy(other[which], s->before, length);
    }
    unsigned refusal = d.refusal;
    if (!refusal)
        refusal = refusal_by_content(&c, &d);
    met[c.entry][refusal]++;

    caplattice_answer *said = malloc(sizeof *said);
    caplattice_answer *also = (caplattice_answer *)(guarded(SLICES) + ROOM_FOR_ANY - sizeof *also);
    *said = *also = untouched;
    unsigned number = made(&instrumented, &c, heap, said);
    check_answer(&c, number, said, refusal);
    check_slices(&c, &d, refusal);
    if (!refusal)
        check_laws(&c, &d, said);
    MUST(made(&shipped, &c, other, also) == number && same_answer(said, also),
         "the shipped library answers otherwise than the instrumented module");
    free(said);
    for (int which = 0; which < SLICES; which++) {
        struct slice *s = &c.slices[which];
        if (!s->unreal && s->len > 0 && has(c.entry, which))
            MUST(memcmp(s->now, other[which], s->len * s->width) == 0, "the shipped library leaves other bytes than the module");
        free(s->before);
        free(s->now);
    }
    return 0;
}

#ifdef SHIPPED_ALONE
/* The same calls without a fuzzer, for tests/boundary: so many, from a fixed beginning, and then a look at what they met. */
int main(int count, char **words)
{
    long calls = count > 1 ? atol(words[1]) : 100000;
    uint64_t chance = 1;
    int missing = 0, refusals = 0, unreal = 0;
    for (long turn = 0; turn < calls; turn++) {
        uint8_t input[64];
        for (size_t i = 0; i < sizeof input; i++)
            input[i] = (uint8_t)((chance = chance * 6364136223846793005u + 1442695040888963407u) >> 56);
        input[0] = (uint8_t)(turn % ENTRY_COUNT);
        LLVMFuzzerTestOneInput(input, sizeof input);
    }
    for (int entry = 0; entry < ENTRY_COUNT; entry++) {
        const char *due = shapes[entry].refusals;
        for (int number = 0; number < 9; number++) {
            int expected = number == 0 || strchr(due, '0' + number) != NULL;
            refusals += number > 0 && expected;
            if (expected != (met[entry][number] > 0)) {
                printf("caplattice_%s: %s %d was %s\n", names[entry], number ? "refusal" : "success,", number,
                       expected ? "not met" : "met");
                missing++;
            }
        }
        for (int which = 0; which < SLICES; which++)
            for (int how = 0; how < 5 && has(entry, which); how++)
                if (!met_empty[entry][which][how]) {
                    printf("caplattice_%s: slice %d was never empty at pointer %d\n", names[entry], which, how);
                    missing++;
                }
        unreal += met_unreal[entry] > 0;
    }
    printf("%ld calls of %d entries: each success, each of %d refusals, each slice empty at null and at four dangling pointers; "
           "lengths that no memory has at %d entries\n",
           calls, ENTRY_COUNT, refusals, unreal);
    return missing > 0;
}
#endif
