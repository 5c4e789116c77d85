/* A box of eight blocks is formatted, a connection made, and a signed NOOP is sent: document 01's W1 is the command of the reply. Then a
   signed GETLOG is sent, with two temperatures and a utilization lent. Last, two values are put, one of them is damaged, and the store
   rescued. examples/run.sh builds and runs it. */
#include "ridgeladle.h"

#include <stdio.h>
#include <string.h>

static uint8_t store[8 * RIDGELADLE_BLOCK];
static uint8_t record[RIDGELADLE_RECORD];
static uint8_t connection[RIDGELADLE_CONNECTION];
static uint8_t readings[RIDGELADLE_READINGS];
static uint8_t out[RIDGELADLE_REPLY];

static const uint8_t key[] = "ridgeladle";
enum { KEY_LEN = sizeof key - 1 };

/* Header: connectionID 1, sequence 2, messageType 30 (NOOP). */
static const uint8_t noop[] = {0x0A, 6, 0x18, 1, 0x20, 2, 0x38, 30};
/* The same with sequence 3 and messageType 24 (GETLOG). Body: getLog with types UTILIZATIONS 0, TEMPERATURES 1, CAPACITIES 2. */
static const uint8_t get_log[] = {0x0A, 6, 0x18, 1, 0x20, 3, 0x38, 24, 0x12, 8, 0x32, 6, 0x08, 0, 0x08, 1, 0x08, 2};

/* A command signed, in a message, in a frame with a value part. Returns its length. */
static size_t request(uint8_t *to, const uint8_t *command, size_t n, const char *value) {
    uint8_t digest[RIDGELADLE_DIGEST];
    if (ridgeladle_hmac(key, KEY_LEN, command, n, digest)) return 0;
    uint8_t *at = to + 9;
    const uint8_t head[] = {0x20, 1, 0x2A, 24, 0x08, 1, 0x12, 20}; /* authType HMAC; HMACauth: identity 1, hmac */
    memcpy(at, head, sizeof head);
    at += sizeof head;
    memcpy(at, digest, sizeof digest);
    at += sizeof digest;
    *at++ = 0x3A; /* commandBytes */
    *at++ = (uint8_t)n;
    memcpy(at, command, n);
    at += n;
    const uint8_t frame[] = {0x46, 0, 0, 0, (uint8_t)(at - to - 9), 0, 0, 0, (uint8_t)strlen(value)};
    memcpy(to, frame, sizeof frame);
    memcpy(at, value, strlen(value));
    return (size_t)(at - to) + strlen(value);
}

/* A PUT (4) or a GET (2) of key "timer1" or "timer2". */
static size_t keyed_request(uint8_t *to, uint8_t sequence, uint8_t type, char timer, const char *value) {
    const uint8_t command[] = {0x0A, 6, 0x18, 1, 0x20, sequence, 0x38, type, 0x12, 10, 0x0A, 8, 0x1A, 6, 't', 'i', 'm', 'e', 'r', (uint8_t)timer};
    return request(to, command, sizeof command, value);
}

/* A reading in its place: 0 to 3 temperatures, 4 and 5 utilizations. The count is the caller's. */
static void lend(int place, int fahrenheit, const char *name, float value) {
    uint8_t *at = readings + 2 + 22 * place;
    uint32_t bits;
    memcpy(&bits, &value, sizeof bits);
    at[0] = (uint8_t)fahrenheit;
    at[1] = (uint8_t)strlen(name);
    memcpy(at + 2, name, strlen(name));
    for (int i = 0; i < 4; i++) at[18 + i] = (uint8_t)(bits >> (24 - 8 * i));
}

static void show(const char *name, const uint8_t *bytes, size_t n) {
    printf("%s", name);
    for (size_t i = 0; i < n; i++) printf(" %02X", bytes[i]);
    printf("\n");
}

static uint32_t answer(const uint8_t *input, size_t n, uint64_t counts[2]) {
    uint32_t r = ridgeladle_answer(store, sizeof store, record, connection, readings, sizeof readings, input, n, out, sizeof out, counts);
    printf("answer %u", (unsigned)r);
    if (r == 0) printf(", taken %u, written %u", (unsigned)counts[0], (unsigned)counts[1]);
    printf("\n");
    return r;
}

/* A byte of the first value is damaged: no call takes the store until it is rescued. Then the second value is read back. */
static void rescue(void) {
    uint8_t input[96], report[sizeof store / RIDGELADLE_BLOCK];
    uint64_t counts[2], part[2];

    ridgeladle_connect(connection, 1, 0);
    answer(input, keyed_request(input, 1, 4, '1', "12.07 s"), counts);
    answer(input, keyed_request(input, 2, 4, '2', "11.93 s"), counts);
    store[120] ^= 1;
    size_t n = keyed_request(input, 3, 2, '2', "");
    answer(input, n, counts); /* STORE_BAD */
    printf("find %u\n", (unsigned)ridgeladle_find(store, sizeof store, (const uint8_t *)"timer2", 6, part));

    printf("rescue %u\n", (unsigned)ridgeladle_rescue(store, sizeof store, report, sizeof report - 1)); /* REPORT_BAD */
    printf("rescue %u\n", (unsigned)ridgeladle_rescue(store, sizeof store, report, sizeof report));
    show("report", report, sizeof report);
    if (answer(input, n, counts) == 0) show("reply", out, (size_t)counts[1]);
    if (ridgeladle_find(store, sizeof store, (const uint8_t *)"timer2", 6, part) == 0)
        printf("find 0, %.*s\n", (int)part[1], (const char *)store + part[0]);
}

int main(void) {
    uint8_t input[64];
    uint64_t counts[2], part[2];

    printf("format %u\n", (unsigned)ridgeladle_format(store, sizeof store, record, key, KEY_LEN));
    ridgeladle_connect(connection, 1, 0);
    show("connection", connection, sizeof connection);

    answer(NULL, 0, counts); /* MORE */
    size_t n = request(input, noop, sizeof noop, "");
    if (answer(input, n, counts) == 0) show("reply", out, (size_t)counts[1]);
    show("connection", connection, sizeof connection);

    /* the same again: its sequence is not above the last accepted, INVALID_REQUEST */
    if (answer(input, n, counts) == 0) show("reply", out, (size_t)counts[1]);

    /* what the host measured: two temperatures, one in Fahrenheit, and a utilization */
    readings[0] = 2;
    readings[1] = 1;
    lend(0, 0, "HDA", 36.5f);
    lend(1, 1, "board", 98.6f);
    lend(4, 0, "EN0", 0.25f);
    n = request(input, get_log, sizeof get_log, "");
    readings[1] = 3; /* READINGS_BAD */
    answer(input, n, counts);
    readings[1] = 1;
    if (answer(input, n, counts) == 0) show("reply", out, (size_t)counts[1]);

    input[0] = 0; /* no frame: a closing reply; then CLOSED */
    if (answer(input, n, counts) == 0) show("reply", out, (size_t)counts[1]);
    show("connection", connection, sizeof connection);
    answer(input, n, counts);

    printf("find %u\n", (unsigned)ridgeladle_find(store, sizeof store, key, KEY_LEN, part));

    rescue();
    return 0;
}
