/* bench/sha1.c with a schedule of eighty words, all made before the first round: plain80_sha1 and plain80_hmac. */
#include "sha1.h"

#define plain_sha1 plain80_sha1
#define plain_hmac plain80_hmac
#define EIGHTY_WORDS
enum { WORDS = 80 };

static void first_words(uint32_t w[80], const uint8_t *m);

static uint32_t take_word(const uint32_t w[80], size_t t) { return w[t]; }

#include "sha1.c"

static void first_words(uint32_t w[80], const uint8_t *m) {
    for (int t = 0; t < 16; t++) w[t] = word(m + 4 * t);
    for (int t = 16; t < 80; t++) w[t] = rotl(w[t - 3] ^ w[t - 8] ^ w[t - 14] ^ w[t - 16], 1);
}
