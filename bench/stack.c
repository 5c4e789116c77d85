/* How much stack the answering call takes: plays the frames of crates/program_site/stdin on a stack that was painted before, and looks how far
   the paint is gone. Prints the most for any call, less what an empty call takes. */
#include "../include/ridgeladle.h"
#include "painted.h"
#include <stdio.h>

static uint8_t store[65536], record[2960], connections[8][32], readings[134], out[4096], input[16384], key[128];
static uint64_t counts[2];
static size_t input_len;
static uint8_t *connection;

static void *call(void *p) {
    ridgeladle_answer(store, sizeof store, record, connection, readings, sizeof readings, input, input_len, out, sizeof out, counts);
    return p;
}

static size_t unhex(const char *s, uint8_t *to, size_t room) {
    size_t n = 0;
    unsigned b;
    while (n < room && sscanf(s + 2 * n, "%2x", &b) == 1 && s[2 * n] != ' ') to[n++] = (uint8_t)b;
    return n;
}

int main(int argc, char **argv) {
    static char line[40000], word[40000];
    FILE *f = fopen(argc > 1 ? argv[1] : "crates/program_site/stdin", "r");
    if (!f) return 1;
    size_t most = 0;
    unsigned calls = 0, place, number, protected_, blocks;
    while (fgets(line, sizeof line, f)) {
        if (sscanf(line, "format %u %39999s", &blocks, word) == 2)
            ridgeladle_format(store, blocks <= sizeof store ? blocks : 0, record, key, unhex(word, key, sizeof key));
        else if (sscanf(line, "connect %u %u %u", &place, &number, &protected_) == 3)
            ridgeladle_connect(connections[place % 8], number, (uint8_t)protected_);
        else if (sscanf(line, "measured %39999s", word) == 1)
            unhex(word, readings, sizeof readings);
        else if (sscanf(line, "send %u %39999s", &place, word) == 2) {
            connection = connections[place % 8];
            input_len = unhex(word, input, sizeof input);
            size_t n = stack_of(call);
            if (n > most) most = n;
            calls++;
        }
    }
    printf("stack of ridgeladle_answer: at most %zu bytes over %u calls\n", most, calls);
    return calls == 0;
}
