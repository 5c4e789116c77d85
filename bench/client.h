/* What a client writes: fields, a signed message, its frame. For the benchmark and the fuzzer. */
#ifndef CLIENT_H
#define CLIENT_H
#include "box.h"
#include <stdlib.h>
#include <string.h>

typedef struct {
    size_t n;
    uint8_t at[16384];
} text;

static inline void push(text *t, const void *data, size_t n) {
    if (n > sizeof t->at - t->n) abort();
    if (n) memcpy(t->at + t->n, data, n);
    t->n += n;
}

static inline void varint(text *t, uint64_t v) {
    uint8_t b[10];
    size_t n = 0;
    for (; v > 127; v >>= 7) b[n++] = (uint8_t)(v | 128);
    b[n++] = (uint8_t)v;
    push(t, b, n);
}

static inline void number(text *t, unsigned field, int64_t v) {
    varint(t, field << 3);
    varint(t, (uint64_t)v);
}

static inline void bytes(text *t, unsigned field, const void *data, size_t n) {
    varint(t, field << 3 | 2);
    varint(t, n);
    push(t, data, n);
}

/* A command with a body of these bytes. */
static inline void command(text *t, int64_t connection, int64_t sequence, int64_t type, const uint8_t *body, size_t n) {
    text head;
    head.n = t->n = 0;
    number(&head, 3, connection);
    number(&head, 4, sequence);
    number(&head, 7, type);
    bytes(t, 1, head.at, head.n);
    bytes(t, 2, body, n);
}

/* A message with a command of these bytes; without authType where `auth_type` is 0. */
static inline void message(text *t, int64_t identity, const uint8_t *key, size_t key_len, int64_t auth_type, const uint8_t *told, size_t n) {
    text auth;
    uint8_t digest[20];
    auth.n = t->n = 0;
    plain_hmac(key, key_len, told, n, digest);
    number(&auth, 1, identity);
    bytes(&auth, 2, digest, sizeof digest);
    if (auth_type) number(t, 4, auth_type);
    bytes(t, 5, auth.at, auth.n);
    bytes(t, 7, told, n);
}

static inline void frame(text *t, const uint8_t *told, size_t n, const uint8_t *value, size_t value_len) {
    uint8_t head[9] = {0x46};
    for (int i = 0; i < 4; i++) {
        head[1 + i] = (uint8_t)(n >> (24 - 8 * i));
        head[5 + i] = (uint8_t)(value_len >> (24 - 8 * i));
    }
    t->n = 0;
    push(t, head, sizeof head);
    push(t, told, n);
    push(t, value, value_len);
}

#endif
