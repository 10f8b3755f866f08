/* libosmocore's decoder on the same symbols, where the library is installed: the codes as it wants them described. */
#include <osmocom/core/conv.h>
#include <stddef.h>
#include <stdint.h>
#include <string.h>

enum { CONTROL_STEPS = 288, SPEECH_STEPS = 184 };

/* Taps on the bit that enters (lowest) and the four before it. */
static const unsigned control_taps[4] = {0x13, 0x1d, 0x17, 0x1b}, speech_taps[3] = {0x1f, 0x1b, 0x15};
static uint8_t control_output[16][2], control_next[16][2], speech_output[16][2], speech_next[16][2];

/* The four tail bits are not counted in len. */
static const struct osmo_conv_code control_code = {
    .N = 4, .K = 5, .len = CONTROL_STEPS - 4, .next_output = control_output, .next_state = control_next, .term = CONV_TERM_FLUSH};
static const struct osmo_conv_code speech_code = {
    .N = 3, .K = 5, .len = SPEECH_STEPS - 4, .next_output = speech_output, .next_state = speech_next, .term = CONV_TERM_FLUSH};

static void describe(const unsigned *taps, int rate, uint8_t (*output)[2], uint8_t (*next)[2])
{
    for (unsigned state = 0; state < 16; state++)
        for (unsigned bit = 0; bit < 2; bit++) {
            unsigned window = state << 1 | bit;
            output[state][bit] = 0;
            for (int g = 0; g < rate; g++)
                output[state][bit] = output[state][bit] << 1 | __builtin_parity(window & taps[g]);
            next[state][bit] = window & 15;
        }
}

void osmo_start(void)
{
    describe(control_taps, 4, control_output, control_next);
    describe(speech_taps, 3, speech_output, speech_next);
}

static void decode(const struct osmo_conv_code *code, const uint8_t *symbols, size_t n, uint8_t *word)
{
    static const sbit_t soft[3] = {127, -127, 0};
    sbit_t input[4 * CONTROL_STEPS];
    for (size_t i = 0; i < n; i++)
        input[i] = soft[symbols[i] < 2 ? symbols[i] : 2];
    osmo_conv_decode(code, input, word);
    memset(word + code->len, 0, 4);
}

void osmo_control(const uint8_t *symbols, uint8_t *word) { decode(&control_code, symbols, 4 * CONTROL_STEPS, word); }

void osmo_speech(const uint8_t *symbols, uint8_t *word) { decode(&speech_code, symbols, 3 * SPEECH_STEPS, word); }
