/* SHA-1 (FIPS 180-4) and HMAC (RFC 2104) in plain C: the peer that the proved code is measured against. Its schedule is a ring of sixteen words;
   bench/sha1_eighty.c is this file with a schedule of eighty. */
#include "sha1.h"
#include <string.h>

static uint32_t rotl(uint32_t x, int n) { return x << n | x >> (32 - n); }

static uint32_t word(const uint8_t *p) {
    return (uint32_t)p[0] << 24 | (uint32_t)p[1] << 16 | (uint32_t)p[2] << 8 | p[3];
}

#ifndef EIGHTY_WORDS /* bench/sha1_eighty.c has others for these three */
enum { WORDS = 16 };

static void first_words(uint32_t w[16], const uint8_t *m) {
    for (int t = 0; t < 16; t++) w[t] = word(m + 4 * t);
}

/* The word of round t: the block's, or one made of four before it, which takes the oldest's place. */
static uint32_t take_word(uint32_t w[16], size_t t) {
    if (t < 16) return w[t];
    uint32_t made = rotl(w[(t - 3) % 16] ^ w[(t - 8) % 16] ^ w[(t - 14) % 16] ^ w[(t - 16) % 16], 1);
    w[t % 16] = made;
    return made;
}
#endif

/* One round: f is the value of its function, k its constant. */
#define ROUND(f, k)                                                \
    do {                                                           \
        uint32_t x = rotl(a, 5) + (f) + e + (k) + take_word(w, t); \
        e = d;                                                     \
        d = c;                                                     \
        c = rotl(b, 30);                                           \
        b = a;                                                     \
        a = x;                                                     \
    } while (0)

static void compress(uint32_t h[5], const uint8_t *m) {
    uint32_t w[WORDS];
    first_words(w, m);
    uint32_t a = h[0], b = h[1], c = h[2], d = h[3], e = h[4];
    size_t t = 0;
    for (; t < 20; t++) ROUND((b & c) ^ (~b & d), 0x5a827999);
    for (; t < 40; t++) ROUND(b ^ c ^ d, 0x6ed9eba1);
    for (; t < 60; t++) ROUND((b & c) ^ (b & d) ^ (c & d), 0x8f1bbcdc);
    for (; t < 80; t++) ROUND(b ^ c ^ d, 0xca62c1d6);
    h[0] += a;
    h[1] += b;
    h[2] += c;
    h[3] += d;
    h[4] += e;
}

static void start(uint32_t h[5]) {
    h[0] = 0x67452301;
    h[1] = 0xefcdab89;
    h[2] = 0x98badcfe;
    h[3] = 0x10325476;
    h[4] = 0xc3d2e1f0;
}

static void finish(uint32_t h[5], uint64_t taken, const uint8_t *text, size_t n, uint8_t out[20]) {
    uint64_t bits = 8 * (taken + n);
    for (; n >= 64; n -= 64, text += 64) compress(h, text);
    uint8_t last[128] = {0};
    if (n) memcpy(last, text, n);
    last[n] = 0x80;
    size_t end = n < 56 ? 64 : 128;
    for (int i = 0; i < 8; i++) last[end - 1 - i] = (uint8_t)(bits >> (8 * i));
    compress(h, last);
    if (end == 128) compress(h, last + 64);
    for (int i = 0; i < 20; i++) out[i] = (uint8_t)(h[i / 4] >> (24 - 8 * (i % 4)));
}

uint32_t plain_sha1(const uint8_t *text, size_t n, uint8_t *out) {
    uint32_t h[5];
    if ((uint64_t)n >> 61) return 1;
    start(h);
    finish(h, 0, text, n, out);
    return 0;
}

uint32_t plain_hmac(const uint8_t *key, size_t key_len, const uint8_t *text, size_t n, uint8_t *out) {
    uint8_t pad[64] = {0}, digest[20];
    uint32_t h[5];
    if (key_len > 128) return 1;
    if (n > 1048576) return 2;
    if (key_len > 64) plain_sha1(key, key_len, pad);
    else if (key_len) memcpy(pad, key, key_len);
    for (int i = 0; i < 64; i++) pad[i] ^= 0x36;
    start(h);
    compress(h, pad);
    finish(h, 64, text, n, digest);
    for (int i = 0; i < 64; i++) pad[i] ^= 0x36 ^ 0x5c;
    start(h);
    compress(h, pad);
    finish(h, 64, digest, 20, out);
    return 0;
}
