/* Used blocks of a store. For the benchmark and the fuzzer. */
#ifndef BLOCKS_H
#define BLOCKS_H
#include <stdint.h>
#include <string.h>

/* Makes the check of a block right. */
static inline void seal(uint8_t *b) {
    uint32_t s = 0;
    for (uint32_t i = 0; i < 508; i++) s += b[i] * (i + 1);
    for (int i = 0; i < 4; i++) b[508 + i] = (uint8_t)(s >> (24 - 8 * i));
}

/* A tag of t bytes and a value of n. */
static inline void write_entry(uint8_t *b, const char *key, const char *version, size_t t, size_t n, uint8_t algorithm) {
    memset(b, 0, 512);
    b[0] = 1;
    b[1] = (uint8_t)strlen(key);
    b[2] = (uint8_t)strlen(version);
    b[3] = (uint8_t)t;
    b[4] = (uint8_t)(n >> 8);
    b[5] = (uint8_t)n;
    b[6] = algorithm;
    memcpy(b + 8, key, strlen(key));
    memcpy(b + 72, version, strlen(version));
    memset(b + 88, 't', t);
    memset(b + 120, 'x', n);
    seal(b);
}

#endif
