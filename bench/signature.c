/* SHA-1 and HMAC: the proved code against plain C with a ring of sixteen schedule words, plain C with eighty, and OpenSSL, in one run.
   Built with -DBEFORE also against the proved code of an earlier library, its calls renamed (bench/signature.sh). */
#include "clock.h"
#include "sha1.h"
#include <openssl/evp.h>
#include <openssl/hmac.h>
#include <openssl/sha.h>
#include <stdio.h>
#include <stdlib.h>
#include <string.h>

typedef uint32_t sha1_call(const uint8_t *text, size_t n, uint8_t *digest);
typedef uint32_t hmac_call(const uint8_t *key, size_t key_len, const uint8_t *text, size_t n, uint8_t *digest);

sha1_call signature_sha1, before_signature_sha1;
hmac_call signature_hmac, before_signature_hmac;

static uint32_t ssl_sha1(const uint8_t *text, size_t n, uint8_t *digest) { return SHA1(text, n, digest) == NULL; }

static uint32_t ssl_hmac(const uint8_t *key, size_t key_len, const uint8_t *text, size_t n, uint8_t *digest) {
    return HMAC(EVP_sha1(), key, (int)key_len, text, n, digest, NULL) == NULL;
}

typedef struct {
    const char *name;
    sha1_call *sha1;
    hmac_call *hmac;
} side;

static const side sides[] = {
    {"proved", signature_sha1, signature_hmac},
    {"plain C, ring", plain_sha1, plain_hmac},
    {"plain C, eighty", plain80_sha1, plain80_hmac},
    {"OpenSSL", ssl_sha1, ssl_hmac},
#ifdef BEFORE
    {"before", before_signature_sha1, before_signature_hmac},
#endif
};

enum { SIDES = sizeof sides / sizeof *sides, ROUNDS = 201, KEY = 20, MOST = 1 << 20 };

static uint8_t text[MOST], key[KEY], digests[SIDES][20];
static double times[SIDES][ROUNDS];

static int order(const void *a, const void *b) {
    double x = *(const double *)a, y = *(const double *)b;
    return (x > y) - (x < y);
}

static void sort(double *of) { qsort(of, ROUNDS, sizeof *of, order); }

/* The nanoseconds of one call. */
static double timed(const side *s, int is_hmac, size_t n, int repeat, uint8_t *digest) {
    double from = now();
    for (int i = 0; i < repeat; i++) {
        if (is_hmac) s->hmac(key, KEY, text, n, digest);
        else s->sha1(text, n, digest);
    }
    return (now() - from) / repeat;
}

static void line(const char *name) {
    double ratios[SIDES][ROUNDS];
    for (int k = 0; k < SIDES; k++)
        for (int r = 0; r < ROUNDS; r++) ratios[k][r] = times[k][r] / times[0][r];
    for (int k = 0; k < SIDES; k++) {
        sort(ratios[k]);
        sort(times[k]);
    }
    printf("%-18s %10.0f ns", name, times[0][0]);
    for (int k = 1; k < SIDES; k++) printf("      %5.2f (%5.2f)", times[k][0] / times[0][0], ratios[k][ROUNDS / 2]);
    printf("\n");
}

/* The sides in turn, many times over, a different one first in each round. */
static void measure(const char *name, int is_hmac, size_t n, int repeat) {
    for (int r = 0; r < ROUNDS; r++)
        for (int i = 0; i < SIDES; i++) {
            int k = (r + i) % SIDES;
            times[k][r] = timed(&sides[k], is_hmac, n, repeat, digests[k]);
        }
    for (int k = 1; k < SIDES; k++)
        if (memcmp(digests[0], digests[k], 20)) {
            printf("%s: the digests differ\n", name);
            exit(1);
        }
    line(name);
}

int main(void) {
    for (size_t i = 0; i < MOST; i++) text[i] = (uint8_t)(i * 7 + i / 251);
    for (size_t i = 0; i < KEY; i++) key[i] = (uint8_t)(i + 1);
    printf("The least time of %d rounds, and how many times the speed of each peer: by the least times, in brackets the median of the rounds.\n", ROUNDS);
    printf("%-18s %13s", "", sides[0].name);
    for (int k = 1; k < SIDES; k++) printf("  %17s", sides[k].name);
    printf("\n");
    measure("SHA-1, 60 bytes", 0, 60, 1000);
    measure("SHA-1, 8,192 bytes", 0, 8192, 20);
    measure("SHA-1, 1 MiB", 0, MOST, 1);
    measure("HMAC, 60 bytes", 1, 60, 500);
    measure("HMAC, 8,192 bytes", 1, 8192, 20);
    measure("HMAC, 1 MiB", 1, MOST, 1);
    return 0;
}
