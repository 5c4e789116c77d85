/* Times of the proved store and of plain C, in one run: the least of many rounds of each, taken in turn.
   The proved calls check the store first: the time of a check, measured beside each, is taken off. */
#include "clock.h"
#include "store.h"
#include <stdio.h>
#include <string.h>

enum { SIZE = 65536, ROUNDS = 400 };

static uint8_t store[SIZE], other[SIZE];
static uint8_t value[384], tag[32], version[16];
static volatile size_t sink;

/* Key i of n: short ones, or 64 bytes of which 63 are shared. */
static size_t key_of(uint8_t *k, int i, int shared) {
    if (shared) {
        memset(k, 'p', 64);
        k[63] = (uint8_t)i;
        return 64;
    }
    return (size_t)sprintf((char *)k, "key%05d", i);
}

static void fill(uint8_t *s, int entries, int shared) {
    uint8_t k[80];
    memset(s, 0, SIZE);
    for (int i = 0; i < entries; i++) {
        size_t n = key_of(k, 2 * i + (shared ? -i : 1), shared);
        if (c_put(s, SIZE, k, n, version, 16, tag, 32, value, 384, 1)) printf("put failed\n");
    }
}

typedef void work(int c, int entries, int shared);

static void do_check(int c, int entries, int shared) {
    (void)entries;
    (void)shared;
    sink += c ? (size_t)c_check(store, SIZE) : (size_t)rt_check(store, SIZE);
}

static void do_find(int c, int entries, int shared) {
    uint8_t k[80];
    size_t n = key_of(k, entries ? 2 * (entries - 1) + (shared ? -(entries - 1) : 1) : 1, shared);
    sink += c ? c_find(store, SIZE, k, n) : rt_find(store, SIZE, k, n);
}

static void put_delete(int c, int put, const uint8_t *k, size_t n) {
    if (put)
        sink += c ? c_put(store, SIZE, k, n, version, 16, tag, 32, value, 384, 1)
                  : rt_put(store, SIZE, k, n, version, 16, tag, 32, value, 384, 1);
    else
        sink += c ? c_delete(store, SIZE, k, n) : rt_delete(store, SIZE, k, n);
}

static const uint8_t *front = (const uint8_t *)"a", *end = (const uint8_t *)"z";

static void put_front(int c, int e, int s) { (void)e; (void)s; put_delete(c, 1, front, 1); }
static void put_end(int c, int e, int s) { (void)e; (void)s; put_delete(c, 1, end, 1); }
static void delete_front(int c, int e, int s) { (void)e; (void)s; put_delete(c, 0, front, 1); }
static void delete_end(int c, int e, int s) { (void)e; (void)s; put_delete(c, 0, end, 1); }

static double least(work *f, work *undo, int c, int entries, int shared, double best) {
    int reps = undo ? 1 : 4;
    double a = now();
    for (int i = 0; i < reps; i++) f(c, entries, shared);
    double t = (now() - a) / reps;
    if (undo) undo(1, entries, shared);
    return t < best ? t : best;
}

static double measure(const char *name, work *before, work *f, work *undo, int entries, int shared) {
    double c = 1e18, r = 1e18, check = 1e18;
    fill(store, entries, shared);
    if (before) before(1, entries, shared);
    memcpy(other, store, SIZE);
    for (int i = 0; i < ROUNDS; i++) {
        r = least(f, undo, 0, entries, shared, r);
        c = least(f, undo, 1, entries, shared, c);
        check = least(do_check, 0, 0, entries, shared, check);
    }
    if (f != do_check) r -= check;
    if (memcmp(store, other, SIZE)) printf("the store changed\n");
    printf("%-24s %4d entries%s  %8.0f ns  %8.0f ns  %5.2f\n", name, entries, shared ? ", long keys" : "           ", r, c, r / c);
    return r / c;
}

/* Both sides must leave the same bytes. */
static void agree(void) {
    uint8_t k[80];
    memset(store, 0, SIZE);
    memset(other, 0, SIZE);
    for (int i = 0; i < 400; i++) {
        size_t n = key_of(k, i * 37 % 140, 0);
        uint32_t a = i % 3 == 2 ? rt_delete(store, SIZE, k, n) : rt_put(store, SIZE, k, n, version, 3, tag, 5, value, (size_t)(i % 385), 2);
        uint32_t b = i % 3 == 2 ? c_delete(other, SIZE, k, n) : c_put(other, SIZE, k, n, version, 3, tag, 5, value, (size_t)(i % 385), 2);
        if (a != b || memcmp(store, other, SIZE) || !rt_check(store, SIZE) || !c_check(store, SIZE)) {
            printf("the sides differ at step %d\n", i);
            return;
        }
    }
}

int main(void) {
    for (int i = 0; i < 384; i++) value[i] = (uint8_t)(i * 7 + 1);
    for (int i = 0; i < 32; i++) tag[i] = (uint8_t)(i + 1);
    for (int i = 0; i < 16; i++) version[i] = (uint8_t)(i + 9);
    agree();
    printf("%-24s %-22s %11s  %11s  %5s\n", "call, 64 KiB store", "", "proved", "plain C", "ratio");
    int sizes[] = {0, 1, 16, 64, 128};
    for (int i = 0; i < 5; i++) measure("check", 0, do_check, 0, sizes[i], 0);
    measure("check", 0, do_check, 0, 64, 1);
    measure("check", 0, do_check, 0, 128, 1);
    for (int i = 1; i < 5; i++) measure("find the last", 0, do_find, 0, sizes[i], 0);
    measure("find the last", 0, do_find, 0, 128, 1);
    int below[] = {1, 16, 127};
    for (int i = 0; i < 3; i++) measure("put at the front", 0, put_front, delete_front, below[i], 0);
    for (int i = 0; i < 3; i++) measure("put at the end", 0, put_end, delete_end, below[i], 0);
    for (int i = 0; i < 3; i++) measure("put over the front", put_front, put_front, 0, below[i], 0);
    for (int i = 0; i < 3; i++) measure("delete at the front", put_front, delete_front, put_front, below[i], 0);
    for (int i = 0; i < 3; i++) measure("delete at the end", put_end, delete_end, put_end, below[i], 0);
    return 0;
}
