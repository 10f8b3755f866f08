/* What both harnesses share: the fuzzer's bytes, taken one after the other, and noughts when they are used up. */
#ifndef HARNESS_H
#define HARNESS_H

#include <stdint.h>
#include <stdio.h>
#include <stdlib.h>
#include <string.h>

struct bytes {
    const uint8_t *at;
    size_t left;
};

static inline uint8_t taken(struct bytes *b)
{
    if (b->left == 0)
        return 0;
    b->left--;
    return *b->at++;
}

static inline uint16_t taken_two(struct bytes *b)
{
    uint16_t high = taken(b);
    return (uint16_t)(high << 8 | taken(b));
}

#endif
