/* Decoding a command: the proved code against nanopb, as ratios measured in one run. The first argument is a PUT in hex, its header first. */
#include "kinetic.pb.h"
#include <pb_decode.h>
#include <stdio.h>
#include <stdlib.h>
#include <string.h>
#include <time.h>

uint32_t fields_reads(const uint8_t *s, size_t n);
uint32_t fields_request(const uint8_t *s, size_t n, uint64_t held[9]);

enum { ROUNDS = 200, MOST = 8192 };

static uint8_t command[MOST];
static uint64_t held[9];
static Command decoded;

typedef int call(size_t n);

/* Decodes or not, at every depth; and as the box reads it, with all that a request has, and the values of a PUT taken out. */
static int reads(size_t n) { return fields_reads(command, n) == 0; }
static int ours(size_t n) { return fields_request(command, n, held) == 0; }

static int nanopb(size_t n) {
    pb_istream_t s = pb_istream_from_buffer(command, n);
    return pb_decode(&s, Command_fields, &decoded);
}

/* The same without clearing the 8 KB structure first. */
static int nanopb_noinit(size_t n) {
    pb_istream_t s = pb_istream_from_buffer(command, n);
    return pb_decode_ex(&s, Command_fields, &decoded, PB_DECODE_NOINIT);
}

static double seconds(void) {
    struct timespec t;
    clock_gettime(CLOCK_MONOTONIC, &t);
    return (double)t.tv_sec + 1e-9 * (double)t.tv_nsec;
}

/* The least time of each call. */
typedef struct {
    double ours, reads, nanopb, noinit;
} times;

static double took(call *c, const char *name, size_t n, int repeat) {
    double from = seconds();
    for (int i = 0; i < repeat; i++)
        if (!c(n)) {
            printf("%s: does not decode\n", name);
            exit(1);
        }
    return (seconds() - from) / repeat;
}

static void least(double *best, double t) {
    if (t < *best) *best = t;
}

/* Each call in turn, many times over. */
static times measure(const char *name, size_t n, int repeat) {
    times t = {1e9, 1e9, 1e9, 1e9};
    for (int r = 0; r < ROUNDS; r++) {
        least(&t.ours, took(ours, name, n, repeat));
        least(&t.reads, took(reads, name, n, repeat));
        least(&t.nanopb, took(nanopb, name, n, repeat));
        least(&t.noinit, took(nanopb_noinit, name, n, repeat));
    }
    printf("%-31s %6.0f ns (%.0f to decode or not)   %4.2f times nanopb's time (%.0f ns)   %4.2f without its clearing (%.0f ns)\n",
           name, 1e9 * t.ours, 1e9 * t.reads, t.ours / t.nanopb, 1e9 * t.nanopb, t.ours / t.noinit, 1e9 * t.noinit);
    return t;
}

static void ratio(const char *what, times t, times of) {
    printf("%s: %.2f times the time (%.2f to decode or not)\n", what, t.ours / of.ours, t.reads / of.reads);
}

static int differs(const uint64_t *t) {
    const Command_Header *h = &decoded.header;
    const Command_KeyValue *v = &decoded.body.keyValue;
    return t[1] != (uint64_t)h->connectionID || t[2] != (uint64_t)h->sequence || t[3] != (uint64_t)h->messageType ||
           t[5] != v->key.size || t[7] != v->tag.size || t[8] != (uint64_t)v->algorithm;
}

/* The same values from all, or the times mean nothing. */
static void compare(void) {
    if (differs(held)) {
        printf("the values differ\n");
        exit(1);
    }
}

/* A field of two bytes, as often as it fits. */
static void fill(size_t from, size_t to, uint8_t tag, uint8_t value) {
    for (size_t i = from; i + 1 < to; i += 2) {
        command[i] = tag;
        command[i + 1] = value;
    }
}

/* Unlisted fields. */
static void unlisted(void) {
    fill(0, MOST, 0x78, 0x01);
    times half = measure("4,096 bytes of unlisted fields", MOST / 2, 10);
    times whole = measure("8,192 bytes of unlisted fields", MOST, 10);
    ratio("twice the bytes", whole, half);
}

/* The PUT's header, and empty bodies. */
static void bodies(size_t header) {
    fill(header, MOST, 0x12, 0x00);
    times quarter = measure("1,000 empty bodies", header + 2000, 10);
    times half = measure("2,000 empty bodies", header + 4000, 10);
    times whole = measure("4,000 empty bodies", header + 8000, 10);
    ratio("2,000 for 1,000", half, quarter);
    ratio("4,000 for 2,000", whole, half);
}

int main(int argc, char **argv) {
    static uint8_t put[MOST / 2];
    size_t n = argc < 2 ? 0 : strlen(argv[1]) / 2;
    if (n < 2 || n > sizeof put) return 2;
    for (size_t i = 0; i < n; i++) {
        char pair[3] = {argv[1][2 * i], argv[1][2 * i + 1], 0};
        put[i] = (uint8_t)strtoul(pair, NULL, 16);
    }
    char name[64];
    snprintf(name, sizeof name, "PUT of %zu bytes", n);
    memcpy(command, put, n);
    times once = measure(name, n, 500);
    compare();
    unlisted();
    /* The PUT twice: each field and each message that it has comes twice. */
    memcpy(command, put, n);
    memcpy(command + n, put, n);
    times twice = measure("the PUT, everything sent twice", 2 * n, 500);
    compare();
    ratio("everything sent twice", twice, once);
    bodies(2 + put[1]);
    return 0;
}
