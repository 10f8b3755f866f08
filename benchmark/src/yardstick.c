/* How fast one core can do what the decoders owe (word, disagreements, cleared trellis), for the benchmark alone.
 * All sixteen path scores stand in one register of bytes that run round; a score is compared by the sign of a difference,
 * which stays far below 128 because four steps lead from every state to every other. Needs SSE4.1. */
#include <smmintrin.h>
#include <stddef.h>
#include <stdint.h>
#include <string.h>

enum { MOST = 864, HANDICAP = 40 };

/* What each group of symbols adds on the way into each state whose oldest bit is 0; two bits of the index for a symbol. */
static int8_t control[256][16] __attribute__((aligned(64)));
static int8_t speech[64][16] __attribute__((aligned(64)));

/* A generator's taps on a state's four bits, the newest in bit 3. */
static const int control_taps[4] = {12, 11, 14, 13}, speech_taps[3] = {15, 13, 10};

static int adds(int symbol, int expected) { return symbol > 1 ? 0 : symbol == expected ? -1 : 1; }

static void fill(int8_t (*table)[16], const int *taps, int rate)
{
    for (int index = 0; index < 1 << 2 * rate; index++)
        for (int state = 0; state < 16; state++) {
            int sum = 0;
            for (int g = 0; g < rate; g++)
                sum += adds(index >> 2 * g & 3, __builtin_parity(state & taps[g]));
            table[index][state] = sum;
        }
}

void yardstick_start(void)
{
    fill(control, control_taps, 4);
    fill(speech, speech_taps, 3);
}

/* Four steps' indexes from sixteen symbols, four bytes to a step. */
static inline __m128i four_indexes(__m128i symbols)
{
    __m128i classes = _mm_min_epu8(symbols, _mm_set1_epi8(2));
    __m128i pairs = _mm_maddubs_epi16(classes, _mm_set1_epi16(0x0401));
    return _mm_madd_epi16(pairs, _mm_set1_epi32(0x00100001));
}

static size_t unerased(const uint8_t *symbols, size_t n)
{
    size_t count = 0, i = 0;
    __m128i sums = _mm_setzero_si128();
    for (; i + 16 <= n; i += 16) {
        __m128i x = _mm_loadu_si128((const __m128i *)(symbols + i));
        __m128i known = _mm_cmpeq_epi8(_mm_min_epu8(x, _mm_set1_epi8(1)), x);
        sums = _mm_add_epi64(sums, _mm_sad_epu8(_mm_and_si128(known, _mm_set1_epi8(1)), _mm_setzero_si128()));
    }
    count = (size_t)_mm_cvtsi128_si64(sums) + (size_t)_mm_extract_epi64(sums, 1);
    for (; i < n; i++)
        count += symbols[i] < 2;
    return count;
}

/* The pass over n steps; answers the score of state 0, followed at every eighth step so that it is known in full. */
static int forward(int8_t (*table)[16], const uint32_t *index, size_t n, uint16_t *trellis)
{
    const __m128i evens = _mm_setr_epi8(0, 2, 4, 6, 8, 10, 12, 14, 0, 2, 4, 6, 8, 10, 12, 14);
    const __m128i odds = _mm_setr_epi8(1, 3, 5, 7, 9, 11, 13, 15, 1, 3, 5, 7, 9, 11, 13, 15);
    __m128i scores = _mm_insert_epi8(_mm_set1_epi8(HANDICAP), 0, 0);
    int score = 0;
    for (size_t i = 0; i < n;) {
        size_t end = i + 8 < n ? i + 8 : n;
        for (; i < end; i++) {
            __m128i branch = _mm_load_si128((const __m128i *)table[index[i]]);
            __m128i first = _mm_add_epi8(_mm_shuffle_epi8(scores, evens), branch);
            __m128i second = _mm_sub_epi8(_mm_shuffle_epi8(scores, odds), branch);
            __m128i lead = _mm_sub_epi8(second, first);
            trellis[i] = (uint16_t)_mm_movemask_epi8(lead);
            scores = _mm_blendv_epi8(first, second, lead);
        }
        score += (int8_t)(_mm_cvtsi128_si32(scores) - score);
    }
    return score;
}

static void back(uint8_t *word, uint16_t *trellis, size_t n)
{
    unsigned state = 0;
    for (size_t i = n; i-- > 0;) {
        unsigned taken = trellis[i];
        word[i] = state >> 3;
        state = (state << 1 & 15) | (taken >> state & 1);
        trellis[i] = 0;
    }
}

static uint64_t settle(int8_t (*table)[16], const uint32_t *index, const uint8_t *symbols, size_t count, size_t n, uint8_t *word, uint16_t *trellis)
{
    int score = forward(table, index, n, trellis);
    back(word, trellis, n);
    return (unerased(symbols, count) + score) / 2;
}

uint64_t yardstick_control(const uint8_t *symbols, size_t n, uint8_t *word, uint16_t *trellis)
{
    uint32_t index[MOST + 4] __attribute__((aligned(16)));
    size_t i = 0;
    for (; i + 4 <= n; i += 4)
        _mm_store_si128((__m128i *)(index + i), four_indexes(_mm_loadu_si128((const __m128i *)(symbols + 4 * i))));
    if (i < n) {
        uint8_t last[16] = {0};
        memcpy(last, symbols + 4 * i, 4 * (n - i));
        _mm_store_si128((__m128i *)(index + i), four_indexes(_mm_loadu_si128((const __m128i *)last)));
    }
    return settle(control, index, symbols, 4 * n, n, word, trellis);
}

uint64_t yardstick_speech(const uint8_t *symbols, size_t n, uint8_t *word, uint16_t *trellis)
{
    const __m128i apart = _mm_setr_epi8(0, 1, 2, -1, 3, 4, 5, -1, 6, 7, 8, -1, 9, 10, 11, -1);
    uint32_t index[MOST + 4] __attribute__((aligned(16)));
    size_t i = 0;
    for (; 3 * i + 16 <= 3 * n; i += 4) {
        __m128i x = _mm_loadu_si128((const __m128i *)(symbols + 3 * i));
        _mm_store_si128((__m128i *)(index + i), four_indexes(_mm_shuffle_epi8(x, apart)));
    }
    for (; i < n; i += 4) {
        uint8_t last[16] = {0};
        memcpy(last, symbols + 3 * i, 3 * (n - i < 4 ? n - i : 4));
        __m128i x = _mm_loadu_si128((const __m128i *)last);
        _mm_store_si128((__m128i *)(index + i), four_indexes(_mm_shuffle_epi8(x, apart)));
    }
    return settle(speech, index, symbols, 3 * n, n, word, trellis);
}
