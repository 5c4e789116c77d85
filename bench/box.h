/* The box of document 01 in plain C, under the calls that Ridgeladle gives to hosts: the other side of comparisons, proved of nothing.

   A refusal writes no lent byte. NULL with length 0 is fine for store, readings, input, key, out and report; no two lent ranges overlap. */
#ifndef PLAIN_BOX_H
#define PLAIN_BOX_H
#include "sha1.h"

enum { PLAIN_RECORD = 2960, PLAIN_CONNECTION = 32, PLAIN_READINGS = 134, PLAIN_ROOM = 4096 };

/* 0, or refusal 2 or 6. */
uint32_t plain_format(uint8_t *store, size_t store_len, uint8_t *record, const uint8_t *key, size_t key_len);

void plain_connect(uint8_t *connection, int64_t number, uint8_t protected_);

/* 0 and counts (taken, written), or refusal 1 to 5 or 7. */
uint32_t plain_answer(uint8_t *store, size_t store_len, uint8_t *record, uint8_t *connection, const uint8_t *readings, size_t readings_len,
                      const uint8_t *input, size_t input_len, uint8_t *out, size_t out_len, uint64_t *counts);

/* 0 and part (place of the value in the store, its length); 1 not found; 2 store bad. */
uint32_t plain_find(const uint8_t *store, size_t store_len, const uint8_t *key, size_t key_len, uint64_t *part);

/* 0, or refusal 2 or 8. */
uint32_t plain_rescue(uint8_t *store, size_t store_len, uint8_t *report, size_t report_len);

/* Whether a command decodes: a part of plain_answer, for measuring alone. */
int plain_decodes(const uint8_t *command, size_t command_len);

#endif
