/* How much stack a digest takes: prints the most that ridgeladle_sha1 and ridgeladle_hmac take on a painted stack, less an empty call, over texts of
   every length up to 256 bytes and keys of the lengths that HMAC tells apart. */
#include "../include/ridgeladle.h"
#include "painted.h"
#include <stdio.h>

enum { TEXTS = 256 };
static const size_t key_lengths[] = {0, 20, 64, 65, 128};
static uint8_t text[TEXTS], key[128], digest[20];
static size_t text_len, key_len;

static void *sha1(void *p) {
    ridgeladle_sha1(text, text_len, digest);
    return p;
}

static void *hmac(void *p) {
    ridgeladle_hmac(key, key_len, text, text_len, digest);
    return p;
}

/* The most that f takes over texts of every length. */
static size_t most_of(void *(*f)(void *)) {
    size_t most = 0;
    for (text_len = 0; text_len <= TEXTS; text_len++) {
        size_t n = stack_of(f);
        if (n > most) most = n;
    }
    return most;
}

int main(void) {
    size_t most = 0;
    for (size_t i = 0; i < sizeof key_lengths / sizeof *key_lengths; i++) {
        key_len = key_lengths[i];
        size_t n = most_of(hmac);
        if (n > most) most = n;
    }
    printf("stack of ridgeladle_sha1: at most %zu bytes\n", most_of(sha1));
    printf("stack of ridgeladle_hmac: at most %zu bytes\n", most);
    return 0;
}
