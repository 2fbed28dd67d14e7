/* Histories with certificates that are accepted, made from a fixed seed. */
#ifndef PAIRS_H
#define PAIRS_H

#include <stddef.h>
#include <stdint.h>

enum { PAIRS = 13, TEXT_BYTES = 33000 };

struct text {
    size_t length;
    uint8_t bytes[TEXT_BYTES];
};

struct pair {
    const char *name;
    struct text history;
    struct text certificate;
};

/* The next pseudo-random number (splitmix64), below a bound. */
unsigned below(uint64_t *seed, unsigned bound);

void make_pairs(struct pair pairs[PAIRS], uint64_t seed);

#endif
