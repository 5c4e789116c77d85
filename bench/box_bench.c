/* The whole answering call: Ridgeladle against the plain C box, and OpenSSL's HMAC alone, in one run on a full store.

   Each call starts from the same connection and leaves store and record as they were: the PUT writes what is there already. */
#include "client.h"
#include "clock.h"
#include <openssl/evp.h>
#include <openssl/hmac.h>
#include <stdio.h>

#ifdef PLAIN_TWICE /* the plain box on both sides, to try this program */
#define ridgeladle_answer plain_answer
#define ridgeladle_hmac plain_hmac
#else
#include "../include/ridgeladle.h"
#endif
uint32_t fields_request(const uint8_t *command, size_t n, uint64_t held[9]);

enum { ROUNDS = 4000, REPEAT = 4, ENTRIES = 128, STORE = ENTRIES * 512, KEY = 20, SCOPES = 4, MOST_KEY = 64 };

/* The keys of the store: of one timer; of 64 bytes, alike in the first 61 or more; of four timers by turns. */
enum { ONE_TIMER, ALIKE, BY_TURNS };

enum { WHOLE, CHECK, MAC, DECODING, OPENSSL, WHATS };

/* A call to measure; the least time of each part of it, by Ridgeladle and by the plain box. */
typedef struct {
    const char *name;
    text input, told, replied; /* told, replied: the commands of input and reply, empty where none is signed */
    uint32_t refusal;
    int closed;
    double best[2][WHATS];
} call;

static uint8_t store[STORE], first_store[STORE], record[PLAIN_RECORD], first_record[PLAIN_RECORD];
static uint8_t fresh[PLAIN_CONNECTION], connection[PLAIN_CONNECTION], key[KEY], out[PLAIN_ROOM], other[PLAIN_ROOM], digest[20];
static uint8_t version[16], tag[32], value[384], readings[PLAIN_READINGS];
static uint64_t counts[2], held[9];
static volatile uint32_t sink;
static int naming;

static void fail(const char *what, const char *name) {
    printf("%s: %s\n", name, what);
    exit(1);
}

/* ---- The messages */

static size_t key_of(char *to, size_t room, int i) {
    switch (naming) {
    case ALIKE: return (size_t)snprintf(to, room, "site-12/hall-03/line-07/timer-0042/sensor-wbgt/2031-07-14/%06d", i);
    case BY_TURNS: return (size_t)snprintf(to, room, "%08d/timer%02d", i / 4, i % 4);
    default: return (size_t)snprintf(to, room, "timer07/%08d", i);
    }
}

static void put_of(text *c, int i) {
    text kv = {.n = 0}, body = {.n = 0};
    char k[MOST_KEY + 8];
    bytes(&kv, 2, version, sizeof version);
    bytes(&kv, 3, k, key_of(k, sizeof k, i));
    bytes(&kv, 5, tag, sizeof tag);
    number(&kv, 6, 1);
    number(&kv, 8, 1);
    bytes(&body, 1, kv.at, kv.n);
    command(c, 1, 1, 4, body.at, body.n);
}

static void get_of(text *c, int i) {
    text kv = {.n = 0}, body = {.n = 0};
    char k[MOST_KEY + 8];
    bytes(&kv, 3, k, key_of(k, sizeof k, i));
    bytes(&body, 1, kv.at, kv.n);
    command(c, 1, 1, 2, body.at, body.n);
}

/* From a key below all. */
static void next_of(text *c) {
    text kv = {.n = 0}, body = {.n = 0};
    bytes(&kv, 3, "a", 1);
    bytes(&body, 1, kv.at, kv.n);
    command(c, 1, 1, 8, body.at, body.n);
}

/* From key i, inclusive, up: 32 keys where there are as many. */
static void range_of(text *c, int i) {
    text range = {.n = 0}, body = {.n = 0};
    char k[MOST_KEY + 8];
    bytes(&range, 1, k, key_of(k, sizeof k, i));
    bytes(&range, 2, k, key_of(k, sizeof k, ENTRIES));
    number(&range, 3, 1);
    number(&range, 5, 32);
    bytes(&body, 2, range.at, range.n);
    command(c, 1, 1, 12, body.at, body.n);
}

/* Every type that is built. */
static void log_of(text *c) {
    static const int types[] = {0, 1, 2, 6};
    text log = {.n = 0}, body = {.n = 0};
    for (int i = 0; i < 4; i++) number(&log, 1, types[i]);
    bytes(&body, 6, log.at, log.n);
    command(c, 1, 1, 24, body.at, body.n);
}

static void framed(text *to, const text *c, int64_t auth_type, size_t value_len) {
    text m;
    message(&m, 1, key, KEY, auth_type, c->at, c->n);
    frame(to, m.at, m.n, value, value_len);
}

/* Each field of a message and each message in it comes twice. */
static void twice(text *m) { push(m, m->at, m->n); }

/* A PUT with everything sent twice: in the message authType, HMACauth and commandBytes, in the command the rest. */
static void put_twice(call *p, int i) {
    text m;
    put_of(&p->told, i);
    twice(&p->told);
    message(&m, 1, key, KEY, 1, p->told.at, p->told.n);
    twice(&m);
    frame(&p->input, m.at, m.n, value, sizeof value);
}

/* A NOOP with as many empty bodies. */
static void bodies_of(call *b, int count) {
    command(&b->told, 1, 1, 30, NULL, 0);
    for (int i = 1; i < count; i++) bytes(&b->told, 2, NULL, 0);
    framed(&b->input, &b->told, 1, 0);
}

/* ---- The state */

/* Four temperatures, all in Fahrenheit, and two utilizations, with names of 16 bytes: the most that a log has to write. */
static void measured(void) {
    readings[0] = 4;
    readings[1] = 2;
    for (int i = 0; i < 6; i++) {
        uint8_t *at = readings + 2 + 22 * i;
        at[0] = 1;
        at[1] = 16;
        memset(at + 2, 'a' + i, 16);
        at[18] = 0x42; /* 98.6, and next to it */
        at[19] = 0xc5;
        at[20] = 0x33;
        at[21] = (uint8_t)(0x33 + i);
    }
}

static void prepare(void) {
    measured();
    for (size_t i = 0; i < sizeof value; i++) value[i] = (uint8_t)(i * 7 + 1);
    for (size_t i = 0; i < sizeof tag; i++) tag[i] = (uint8_t)(i + 1);
    for (size_t i = 0; i < sizeof version; i++) version[i] = (uint8_t)(i + 9);
    for (size_t i = 0; i < KEY; i++) key[i] = (uint8_t)(i + 1);
    plain_connect(fresh, 1, 0);
}

/* The state that calls start from: store and record as they are now. */
static void keep(void) {
    memcpy(first_store, store, STORE);
    memcpy(first_record, record, sizeof record);
}

/* A full store, and an identity that may do all. */
static void fill(int keys) {
    text c, f;
    naming = keys;
    if (plain_format(store, STORE, record, key, KEY)) fail("refused", "format");
    for (int i = 0; i < ENTRIES; i++) {
        put_of(&c, i);
        framed(&f, &c, 1, sizeof value);
        memcpy(connection, fresh, sizeof fresh);
        if (plain_answer(store, STORE, record, connection, readings, sizeof readings, f.at, f.n, out, sizeof out, counts) || connection[9])
            fail("not put", "an entry");
    }
    keep();
}

/* The identity's scopes: every permission, and a value at an offset. */
static void write_scope(int i, int offset, const char *its, size_t n) {
    uint8_t *scope = record + 16 + 80 + 72 * i;
    record[16 + 9] = (uint8_t)(i + 1);
    memset(scope, 0, 72);
    scope[0] = (uint8_t)offset;
    scope[1] = (uint8_t)n;
    scope[2] = 0x03; /* 0-5, 7, 8, 9 */
    scope[3] = 0xbf;
    memcpy(scope + 8, its, n);
}

/* Four scopes with values of 64 bytes that are keys of the store but for one byte. */
static void write_scopes(int other_byte) {
    char k[MOST_KEY + 8];
    for (int i = 0; i < SCOPES; i++) {
        size_t n = key_of(k, sizeof k, i * ENTRIES / SCOPES);
        k[other_byte] = 'x';
        write_scope(i, 0, k, n);
    }
    keep();
}

/* ---- Measuring */

static uint32_t answer(int plain, const call *m, int closed) {
    memcpy(connection, fresh, sizeof fresh);
    connection[9] = (uint8_t)closed;
    return (plain ? plain_answer : ridgeladle_answer)(store, STORE, record, connection, readings, sizeof readings, m->input.at, m->input.n, out,
                                                      sizeof out, counts);
}

static void mac(int plain, const text *t) { (plain ? plain_hmac : ridgeladle_hmac)(key, KEY, t->at, t->n, digest); }

static void once(int what, int plain, const call *m) {
    switch (what) {
    case WHOLE: sink += answer(plain, m, m->closed); break;
    case CHECK: sink += answer(plain, m, 1); break;
    case MAC:
        mac(plain, &m->told);
        mac(plain, &m->replied);
        break;
    case DECODING: sink += plain ? (uint32_t)plain_decodes(m->told.at, m->told.n) : fields_request(m->told.at, m->told.n, held); break;
    default:
        HMAC(EVP_sha1(), key, KEY, m->told.at, m->told.n, digest, NULL);
        HMAC(EVP_sha1(), key, KEY, m->replied.at, m->replied.n, digest, NULL);
    }
}

/* The sides must answer alike and as expected, or the times mean nothing. */
static void compare(call *m) {
    if (answer(1, m, m->closed) != m->refusal) fail("the plain box answers otherwise", m->name);
    uint64_t taken = counts[0], written = counts[1];
    memcpy(other, out, sizeof out);
    memset(out, 0, sizeof out);
    if (answer(0, m, m->closed) != m->refusal) fail("Ridgeladle answers otherwise", m->name);
    if (m->refusal) return;
    if (counts[0] != taken || counts[1] != written || memcmp(out, other, written)) fail("the replies differ", m->name);
    if (m->told.n) {
        const uint8_t *p = out + 13 + out[12]; /* commandBytes, after authType and HMACauth */
        if (connection[9] || p[0] != 0x3a) fail("the reply is not signed", m->name);
        if (p[1] < 128) push(&m->replied, p + 2, p[1]);
        else push(&m->replied, p + 3, (size_t)(p[1] & 127) | (size_t)p[2] << 7);
    }
}

static void line(const char *side, const double *t, int is_signed) {
    printf("    %-10s %7.0f ns   check %6.0f (%.0f%%)", side, t[WHOLE], t[CHECK], 100 * t[CHECK] / t[WHOLE]);
    if (is_signed)
        printf("   HMAC, both %5.0f (%.0f%%)   decoding %4.0f (%.0f%%)   rest %5.0f", t[MAC], 100 * t[MAC] / t[WHOLE], t[DECODING],
               100 * t[DECODING] / t[WHOLE], t[WHOLE] - t[CHECK] - t[MAC] - t[DECODING]);
    printf("\n");
}

/* Each in turn, many times over; the least time of each counts. */
static void measure(call *m) {
    double(*best)[WHATS] = m->best;
    compare(m);
    for (int i = 0; i < 2 * WHATS; i++) best[i / WHATS][i % WHATS] = 1e18;
    for (int r = 0; r < ROUNDS; r++)
        for (int what = 0; what < (m->told.n ? WHATS : MAC); what++)
            for (int plain = 0; plain < 2; plain++) {
                double from = now();
                for (int i = 0; i < REPEAT; i++) once(what, plain, m);
                double took = (now() - from) / REPEAT;
                if (took < best[plain][what]) best[plain][what] = took;
            }
    if (memcmp(store, first_store, STORE) || memcmp(record, first_record, sizeof record)) fail("the state changed", m->name);
    printf("%s: %.2f times the plain box's time", m->name, best[0][WHOLE] / best[1][WHOLE]);
    if (m->told.n) printf("; OpenSSL's HMAC alone, both, %.0f ns", best[1][OPENSSL] < best[0][OPENSSL] ? best[1][OPENSSL] : best[0][OPENSSL]);
    printf("\n");
    line("Ridgeladle", best[0], m->told.n > 0);
    line("plain C", best[1], m->told.n > 0);
}

static void ratio(const call *m, const call *of) {
    printf("    times the time of %s:", of->name);
    for (int plain = 0; plain < 2; plain++) {
        const double *t = m->best[plain], *u = of->best[plain];
        printf("   %s %.2f (less the check %.2f, decoding %.2f)", plain ? "plain C" : "Ridgeladle", t[WHOLE] / u[WHOLE],
               (t[WHOLE] - t[CHECK]) / (u[WHOLE] - u[CHECK]), t[DECODING] / u[DECODING]);
    }
    printf("\n");
}

/* Fields that come again; `put` is measured already. */
static void measure_repeated(const call *put) {
    static call again = {.name = "the same PUT, everything sent twice"};
    static call bodies[] = {{.name = "signed NOOP, 1,000 empty bodies"}, {.name = "signed NOOP, 2,000 empty bodies"},
                            {.name = "signed NOOP, 4,000 empty bodies"}};
    put_twice(&again, 64);
    measure(&again);
    ratio(&again, put);
    for (int i = 0; i < 3; i++) {
        bodies_of(&bodies[i], 1000 << i);
        measure(&bodies[i]);
        if (i) ratio(&bodies[i], &bodies[i - 1]);
    }
}

/* Keys that the scopes don't fit. */
static void measure_filtered(void) {
    static call last = {.name = "signed GETNEXT, none of 128 keys of 64 fits four scopes, alike but for the last bytes"},
                first = {.name = "signed GETNEXT, none of 128 keys of 64 fits four scopes, the first byte another"},
                fourth = {.name = "signed GETKEYRANGE of 32 keys, every fourth of 128 fits"};
    fill(ALIKE);
    next_of(&last.told);
    next_of(&first.told);
    framed(&last.input, &last.told, 1, 0);
    framed(&first.input, &first.told, 1, 0);
    write_scopes(MOST_KEY - 1);
    measure(&last);
    write_scopes(0);
    measure(&first);
    fill(BY_TURNS);
    range_of(&fourth.told, 0);
    framed(&fourth.input, &fourth.told, 1, 0);
    write_scope(0, 8, "/timer02", 8);
    keep();
    measure(&fourth);
}

int main(void) {
    static call put = {.name = "signed PUT over an entry, value of 384"}, get = {.name = "signed GET, value of 384"},
                range = {.name = "signed GETKEYRANGE of 32 keys"}, log = {.name = "signed GETLOG of every type, six readings"},
                more = {.name = "refused: MORE, a byte is missing", .refusal = 5},
                closed = {.name = "refused: CLOSED", .refusal = 4, .closed = 1}, unsigned_ = {.name = "unsigned: closing reply"};
    prepare();
    fill(ONE_TIMER);
    put_of(&put.told, 64);
    get_of(&get.told, 64);
    range_of(&range.told, 64);
    log_of(&log.told);
    framed(&put.input, &put.told, 1, sizeof value);
    framed(&get.input, &get.told, 1, 0);
    framed(&range.input, &range.told, 1, 0);
    framed(&log.input, &log.told, 1, 0);
    framed(&more.input, &put.told, 1, sizeof value);
    more.input.n--;
    framed(&closed.input, &get.told, 1, 0);
    framed(&unsigned_.input, &get.told, 0, 0);
    call *all[] = {&put, &get, &range, &log, &more, &closed, &unsigned_};
    for (size_t i = 0; i < sizeof all / sizeof *all; i++) measure(all[i]);
    measure_repeated(&put);
    measure_filtered();
    return 0;
}
