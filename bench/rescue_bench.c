/* Rescue of a damaged store: Ridgeladle against the plain C box, in one run. Each call is lent a fresh copy of the same store; the copying is not in
   the time. */
#include "blocks.h"
#include "box.h"
#include "clock.h"
#include <stdio.h>
#include <stdlib.h>

#ifdef PLAIN_TWICE /* the plain box on both sides, to try this program */
#define ridgeladle_rescue plain_rescue
#else
#include "../include/ridgeladle.h"
#endif

enum { ROUNDS = 4000, BLOCK = 512, MOST_BLOCKS = 128 };

typedef struct {
    const char *name;
    size_t blocks, damaged_step; /* every damaged_step-th block is damaged, none if it is 0 */
    int shuffled;
} damage;

typedef struct {
    uint8_t store[MOST_BLOCKS * BLOCK], report[MOST_BLOCKS];
} lent;

static lent made, proved, plain;

static void fail(const char *what, const char *name) {
    printf("%s: %s\n", name, what);
    exit(1);
}

/* Entry i: a key of 16 bytes, a value of 100 to 384. */
static void write_reading(uint8_t *b, size_t i) {
    char key[24];
    snprintf(key, sizeof key, "timer07/%08zu", i);
    write_entry(b, key, "version of 16 by", 32, 100 + i * 53 % 285, 1);
}

static void make(const damage *d) {
    size_t entries[MOST_BLOCKS];
    uint32_t random = 1;
    for (size_t i = 0; i < d->blocks; i++) entries[i] = i;
    for (size_t i = d->blocks; d->shuffled && i > 1; i--) {
        random = random * 1664525 + 1013904223;
        size_t j = (random >> 8) % i, other = entries[j];
        entries[j] = entries[i - 1];
        entries[i - 1] = other;
    }
    for (size_t i = 0; i < d->blocks; i++) {
        uint8_t *b = made.store + i * BLOCK;
        write_reading(b, entries[i]);
        if (d->damaged_step && i % d->damaged_step == 0) b[130] ^= 1;
    }
    memset(made.report, 0xee, sizeof made.report);
}

/* The time of one call on a fresh copy. */
static double once(lent *to, int is_plain, const damage *d) {
    memcpy(to->store, made.store, d->blocks * BLOCK);
    memcpy(to->report, made.report, d->blocks);
    double from = now();
    uint32_t said = (is_plain ? plain_rescue : ridgeladle_rescue)(to->store, d->blocks * BLOCK, to->report, d->blocks);
    double took = now() - from;
    if (said) fail("refused", d->name);
    return took;
}

/* The sides must leave the same bytes, a good store with as many entries as were not damaged, or the times mean nothing. */
static void compare(const damage *d) {
    size_t kept = 0, damaged = d->damaged_step ? (d->blocks + d->damaged_step - 1) / d->damaged_step : 0;
    uint64_t part[2];
    once(&proved, 0, d);
    once(&plain, 1, d);
    if (memcmp(proved.store, plain.store, d->blocks * BLOCK) || memcmp(proved.report, plain.report, d->blocks)) fail("the sides differ", d->name);
    for (size_t i = 0; i < d->blocks; i++) kept += plain.report[i] == 1;
    if (kept != d->blocks - damaged || plain_find(plain.store, d->blocks * BLOCK, (const uint8_t *)"none", 4, part) != 1)
        fail("not rescued", d->name);
}

/* Each side in turn, many times over; the least time of each counts. */
static void measure(const damage *d) {
    double best[2] = {1e18, 1e18};
    make(d);
    compare(d);
    for (int r = 0; r < ROUNDS; r++)
        for (int side = 0; side < 2; side++) {
            double took = once(side ? &plain : &proved, side, d);
            if (took < best[side]) best[side] = took;
        }
    printf("%-28s %4zu blocks  %8.0f ns  %8.0f ns  %5.2f\n", d->name, d->blocks, best[0], best[1], best[0] / best[1]);
}

int main(void) {
    static const damage all[] = {{"shuffled", 16, 0, 1},  {"shuffled", 32, 0, 1},         {"shuffled", 64, 0, 1},
                                 {"shuffled", 128, 0, 1}, {"good, nothing moves", 128, 0, 0}, {"every tenth damaged", 128, 10, 0},
                                 {"shuffled, tenth damaged", 128, 10, 1}};
    printf("%-28s %11s  %11s  %11s  %5s\n", "rescue, every block used", "", "Ridgeladle", "plain C", "ratio");
    for (size_t i = 0; i < sizeof all / sizeof *all; i++) measure(&all[i]);
    return 0;
}
