/* Random bits for the tests: the same in each run. */
#ifndef RANDOM_BITS_H
#define RANDOM_BITS_H

#include <stdint.h>

static uint64_t random_bits(void) {
    static uint64_t bits = 0x9e3779b97f4a7c15ULL;
    bits ^= bits << 13;
    bits ^= bits >> 7;
    bits ^= bits << 17;
    return bits;
}

#endif
