/* Receives a control block: sends one of kind 1 (BSCH), damages three of its symbols on the way, receives it and prints the word and the
 * verdict. tests/example compiles it as C and as C++. */
#include "../include/caplattice.h"

#include <inttypes.h>
#include <stdio.h>

enum { KIND = 1, DATA = 60, WORD = 80, AIR = 120, START = 3 };

int main(void)
{
    static uint8_t data[DATA], air[AIR], word[WORD];
    static uint16_t trellis[WORD];
    caplattice_answer answer;
    uint8_t refusal;

    for (size_t i = 0; i < DATA; i++)
        data[i] = i % 3 == 0;
    refusal = caplattice_encode_cp(KIND, START, data, DATA, air, AIR);
    if (refusal == 0) {
        air[7] ^= 1;    /* two symbols are wrong */
        air[70] ^= 1;
        air[100] = 0xff; /* and one did not arrive */
        refusal = caplattice_decode_cp(KIND, START, air, AIR, word, WORD, trellis, WORD, &answer);
    }
    if (refusal != 0) {
        fprintf(stderr, "refused: %d\n", refusal);
        return 1;
    }
    for (size_t i = 0; i < DATA; i++)
        putchar('0' + word[i]);
    printf("\n%s, %" PRIu64 " disagreements\n", answer.verdict == CAPLATTICE_GOOD ? "good" : "bad", answer.disagreements);
    return 0;
}
