#ifndef PLAIN_SHA1_H
#define PLAIN_SHA1_H
#include <stddef.h>
#include <stdint.h>

/* 0, or 1 for a text of 2^61 bytes or more. */
uint32_t plain_sha1(const uint8_t *text, size_t text_len, uint8_t *digest);

/* 0, or 1 for a key over 128 bytes, else 2 for a text over 1,048,576. */
uint32_t plain_hmac(const uint8_t *key, size_t key_len, const uint8_t *text, size_t text_len, uint8_t *digest);

/* The same with a schedule of eighty words instead of a ring of sixteen (bench/sha1_eighty.c). */
uint32_t plain80_sha1(const uint8_t *text, size_t text_len, uint8_t *digest);
uint32_t plain80_hmac(const uint8_t *key, size_t key_len, const uint8_t *text, size_t text_len, uint8_t *digest);

#endif
