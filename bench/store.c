/* The store of document 01, "Blocks", in plain C: the other side of the measurements in store_bench.c. */
#include "store.h"
#include <string.h>

static uint32_t block_sum(const uint8_t *b) {
    uint32_t s = 0;
    for (uint32_t i = 0; i < 508; i++) s += b[i] * (i + 1);
    return s;
}

static int all_zero(const uint8_t *p, size_t n) {
    for (size_t i = 0; i < n; i++)
        if (p[i]) return 0;
    return 1;
}

static uint32_t be32(const uint8_t *p) {
    return (uint32_t)p[0] << 24 | (uint32_t)p[1] << 16 | (uint32_t)p[2] << 8 | p[3];
}

static int block_good(const uint8_t *b) {
    size_t k = b[1], v = b[2], t = b[3], n = (size_t)b[4] << 8 | b[5];
    if (b[0] != 1 || k < 1 || k > 64 || v > 16 || t > 32 || n > 384 || b[6] > 6 || b[7]) return 0;
    if (!all_zero(b + 8 + k, 64 - k) || !all_zero(b + 72 + v, 16 - v)) return 0;
    if (!all_zero(b + 88 + t, 32 - t) || !all_zero(b + 120 + n, 388 - n)) return 0;
    return block_sum(b) == be32(b + 508);
}

static int key_order(const uint8_t *a, size_t an, const uint8_t *b, size_t bn) {
    int c = memcmp(a, b, an < bn ? an : bn);
    if (c) return c;
    return an < bn ? -1 : an > bn;
}

int c_check(const uint8_t *s, size_t len) {
    if (len < 512 || len > 65536 || len % 512) return 0;
    const uint8_t *key = 0;
    size_t key_len = 0;
    for (size_t a = 0; a < len; a += 512) {
        const uint8_t *b = s + a;
        if (!b[0]) return all_zero(b, len - a);
        if (!block_good(b)) return 0;
        if (key && key_order(key, key_len, b + 8, b[1]) >= 0) return 0;
        key = b + 8;
        key_len = b[1];
    }
    return 1;
}

/* The place of a key, or where it would go; *found says which. */
static size_t place(const uint8_t *s, size_t len, const uint8_t *key, size_t n, int *found) {
    size_t i = 0;
    *found = 0;
    for (; i * 512 < len && s[i * 512]; i++) {
        const uint8_t *b = s + i * 512;
        int c = key_order(key, n, b + 8, b[1]);
        if (c <= 0) {
            *found = c == 0;
            break;
        }
    }
    return i;
}

size_t c_find(const uint8_t *s, size_t len, const uint8_t *key, size_t n) {
    int found;
    return place(s, len, key, n, &found);
}

static size_t used(const uint8_t *s, size_t len) {
    size_t i = 0;
    while (i * 512 < len && s[i * 512]) i++;
    return i;
}

uint32_t c_put(uint8_t *s, size_t len, const uint8_t *key, size_t kn, const uint8_t *version, size_t vn,
               const uint8_t *tag, size_t tn, const uint8_t *value, size_t n, uint8_t algorithm) {
    uint8_t b[512] = {0};
    b[0] = 1;
    b[1] = (uint8_t)kn;
    b[2] = (uint8_t)vn;
    b[3] = (uint8_t)tn;
    b[4] = (uint8_t)(n >> 8);
    b[5] = (uint8_t)n;
    b[6] = algorithm;
    memcpy(b + 8, key, kn);
    memcpy(b + 72, version, vn);
    memcpy(b + 88, tag, tn);
    memcpy(b + 120, value, n);
    uint32_t sum = block_sum(b);
    b[508] = (uint8_t)(sum >> 24);
    b[509] = (uint8_t)(sum >> 16);
    b[510] = (uint8_t)(sum >> 8);
    b[511] = (uint8_t)sum;
    if (!block_good(b)) return 2;
    int found;
    size_t i = place(s, len, key, kn, &found);
    if (!found) {
        size_t u = used(s, len);
        if (u * 512 == len) return 1;
        memmove(s + (i + 1) * 512, s + i * 512, (u - i) * 512);
    }
    memcpy(s + i * 512, b, 512);
    return 0;
}

uint32_t c_delete(uint8_t *s, size_t len, const uint8_t *key, size_t n) {
    int found;
    size_t i = place(s, len, key, n, &found);
    if (!found) return 1;
    size_t u = used(s, len);
    memmove(s + i * 512, s + (i + 1) * 512, (u - i - 1) * 512);
    memset(s + (u - 1) * 512, 0, 512);
    return 0;
}
