/* Fuzzing of the answering call, and of local read and rescue on the store that it leaves: a libFuzzer target, built and run by fuzz/run.sh.

   libc_abi.a is not instrumented, so AddressSanitizer does not see what it touches: each range lent to it lies between two inaccessible
   pages, right before the one or right after the other, and a byte too many ends the run. The plain C box (bench/box.c) answers the same
   call on heap copies of the exact lengths, under AddressSanitizer. It is instrumented, so its branches lead the fuzzer; and both must
   leave the same bytes. */
#include "../bench/blocks.h"
#include "../bench/client.h"
#include <stdio.h>
#include <sys/mman.h>

#ifdef PLAIN_TWICE /* the plain box on both sides, to try this program */
#define ridgeladle_answer plain_answer
#define ridgeladle_find plain_find
#define ridgeladle_rescue plain_rescue
#else
#include "../include/ridgeladle.h"
#endif

enum { PAGE = 4096, BLOCK = 512, MOST_STORE = 128 * BLOCK, MOST_READINGS = 512, MOST_INPUT = 12288, MOST_OUT = 5000 };
enum { EDGE = 64, CALLS = 4, NUMBER = 7, KEY_LEN = 10 };

static void hold(int fact, const char *what) {
    if (!fact) {
        fprintf(stderr, "not held: %s\n", what);
        abort();
    }
}

/* ---- Lent ranges */

enum { STORE, RECORD, CONNECTION, READINGS, INPUT, OUT, COUNTS, PARTS };

typedef struct {
    uint8_t *at;
    size_t n;
} range;

/* The pages in which each part is lent to Ridgeladle. */
static range pages[PARTS];

static range new_pages(size_t most) {
    size_t n = (most + EDGE + PAGE - 1) / PAGE * PAGE;
    uint8_t *p = mmap(NULL, n + 2 * PAGE, PROT_NONE, MAP_PRIVATE | MAP_ANONYMOUS, -1, 0);
    hold(p != MAP_FAILED && mprotect(p + PAGE, n, PROT_READ | PROT_WRITE) == 0, "pages are there");
    return (range){p + PAGE, n};
}

static range heap_copy(range of) {
    range r = {malloc(of.n), of.n};
    hold(r.at != NULL, "memory is there");
    if (of.n) memcpy(r.at, of.at, of.n);
    return r;
}

/* Where the edge within the pages is: the bytes on that side of the range that are not beyond a page. */
static uint8_t *edge_of(range r, int low) { return low ? r.at + r.n : r.at - EDGE; }

static range lend(int part, range of, int low) {
    range p = pages[part], r = {low ? p.at : p.at + p.n - of.n, of.n};
    hold(of.n + EDGE <= p.n, "the pages have room");
    if (of.n) memcpy(r.at, of.at, of.n);
    memset(edge_of(r, low), 0xa5, EDGE);
    return r;
}

static void hold_edge(range r, int low) {
    for (int i = 0; i < EDGE; i++) hold(edge_of(r, low)[i] == 0xa5, "no byte beside a lent range changes");
}

static int same(range a, range b) { return a.n == b.n && (a.n == 0 || memcmp(a.at, b.at, a.n) == 0); }

/* NULL may stand for a range of no bytes. */
static uint8_t *place(range r, int null) { return r.n == 0 && null ? NULL : r.at; }

/* ---- What the first bytes of an input choose */

typedef struct {
    uint8_t store, blocks, entries, store_place[2], store_change;
    uint8_t record, record_place[2], record_change;
    uint8_t connection, last;
    uint8_t out, form, value, type, step, identity, end, sides;
    uint8_t readings, readings_place, readings_change, bits[4];
    uint8_t report;
    uint8_t again, cut[2];
} choices;

/* A store of 128 entries; a record as formatted, one of three ACLs, the same with other bytes where the layout uses none, and one of three tenants;
   readings, all six; a value part. */
static uint8_t full[MOST_STORE], formatted[PLAIN_RECORD], table[PLAIN_RECORD], littered[PLAIN_RECORD], tenants[PLAIN_RECORD], every[MOST_READINGS];
static uint8_t filling[1025];
static const uint8_t key[KEY_LEN + 1] = "key-of-one";
static const int64_t identities[] = {1, 3, -2, 99};

static void write_acl(uint8_t *at, int64_t identity) {
    for (int i = 0; i < 8; i++) at[i] = (uint8_t)((uint64_t)identity >> (56 - 8 * i));
    at[8] = KEY_LEN;
    at[9] = 0;
    memcpy(at + 16, key, KEY_LEN);
}

/* One scope more of an ACL. */
static void write_scope(uint8_t *acl, uint16_t mask, uint8_t offset, const char *value, int tls) {
    uint8_t *at = acl + 80 + 72 * acl[9]++;
    at[0] = offset;
    at[1] = (uint8_t)strlen(value);
    at[2] = (uint8_t)(mask >> 8);
    at[3] = (uint8_t)mask;
    at[4] = (uint8_t)tls;
    memcpy(at + 8, value, strlen(value));
}

static uint8_t *acl_at(uint8_t *record, int i) { return record + 16 + i * 368; }

/* Temperatures in Celsius and Fahrenheit by turns, names of 1 to 16 bytes. What follows the 134 bytes is like them, for wrong lengths. */
static void write_readings(void) {
    static const uint8_t lengths[] = {1, 16, 3, 8, 16, 2};
    for (size_t i = 0; i < sizeof every; i++) every[i] = (uint8_t)(i % 7);
    every[0] = 4;
    every[1] = 2;
    for (int i = 0; i < 6; i++) {
        uint8_t *at = every + 2 + 22 * i;
        at[0] = (uint8_t)(i % 2);
        at[1] = lengths[i];
        memset(at + 2, 'a' + i, 16);
        at[18] = 0x42;
        at[19] = (uint8_t)(0x91 + 11 * i);
    }
}

/* Identity 1 may all, 3 may all if protected, -2 may read and range what starts with "key0". */
static void write_table(uint8_t *record, int unused) {
    memset(record, unused, PLAIN_RECORD);
    memset(record, 0, 8);
    record[8] = 3;
    for (int i = 0; i < 3; i++) write_acl(acl_at(record, i), identities[i]);
    write_scope(acl_at(record, 0), 0x3bf, 0, "", 0);
    write_scope(acl_at(record, 1), 0x3bf, 0, "", 1);
    write_scope(acl_at(record, 2), 0x9, 0, "key0", 0);
}

/* Each may read and range some of the keys, "key000" to "key127": 1 those that end in 3, and in 7 if protected; 3 reads what it may not range, and the
   other way; -2 the last one, and what no key has. What 1 writes it may not read. */
static void write_tenants(uint8_t *record) {
    memset(record, 0, PLAIN_RECORD);
    record[8] = 3;
    for (int i = 0; i < 3; i++) write_acl(acl_at(record, i), identities[i]);
    write_scope(acl_at(record, 0), 0x9, 5, "3", 0);
    write_scope(acl_at(record, 0), 0x9, 5, "7", 1);
    write_scope(acl_at(record, 0), 0x3b6, 0, "", 0);
    write_scope(acl_at(record, 1), 0x1, 4, "1", 0);
    write_scope(acl_at(record, 1), 0x8, 4, "2", 0);
    write_scope(acl_at(record, 1), 0x1, 3, "11", 1);
    write_scope(acl_at(record, 1), 0x8, 0, "key0", 1);
    write_scope(acl_at(record, 2), 0x9, 0, "key127", 0);
    write_scope(acl_at(record, 2), 0x9, 6, "0", 0);
    write_scope(acl_at(record, 2), 0x9, 64, "", 1);
}

static void prepare(void) {
    static const size_t most[PARTS] = {MOST_STORE, PLAIN_RECORD, PLAIN_CONNECTION, MOST_READINGS, MOST_INPUT, MOST_OUT, 2 * sizeof(uint64_t)};
    for (int i = 0; i < PARTS; i++) pages[i] = new_pages(most[i]);
    for (int i = 0; i < 128; i++) {
        char name[16], version[16];
        snprintf(name, sizeof name, "key%03d", i);
        snprintf(version, sizeof version, "v%d", i % 3);
        write_entry(full + i * BLOCK, name, version, (size_t)i % 33, (size_t)i * 97 % 385, (uint8_t)(i % 7));
    }
    uint8_t blank[BLOCK];
    hold(plain_format(blank, BLOCK, formatted, key, KEY_LEN) == 0, "format");
    write_table(table, 0);
    write_table(littered, 0x5a);
    write_tenants(tenants);
    write_readings();
    for (size_t i = 0; i < sizeof filling; i++) filling[i] = (uint8_t)(i * 13 + 1);
}

static size_t place_of(const uint8_t two[2], size_t n) { return ((size_t)two[0] << 8 | two[1]) % n; }

/* None; blank; with entries; full; damaged, and with its sum right again; of a wrong length; damaged, its blocks out of order, some more than once, some
   blank. */
static range store_of(const choices *c, uint8_t *to) {
    enum { NONE, BLANK, ENTRIES, FULL, DAMAGED, SEALED, LENGTH, MIXED, KINDS };
    int kind = c->store % KINDS;
    size_t blocks = c->blocks == 255 ? 128 : 1 + c->blocks % 8, n = blocks * BLOCK, used = kind == FULL ? blocks : c->entries % (blocks + 1);
    if (kind == NONE) return (range){to, 0};
    memset(to, 0, n);
    if (kind != BLANK) memcpy(to, full, used * BLOCK);
    if (kind == MIXED)
        for (size_t i = 0; i < blocks; i++) {
            size_t from = (i * c->entries + c->store_place[0]) % 136;
            if (from < 128) memcpy(to + i * BLOCK, full + from * BLOCK, BLOCK);
            else memset(to + i * BLOCK, 0, BLOCK);
        }
    if (kind == DAMAGED || kind == SEALED || kind == MIXED) {
        size_t at = place_of(c->store_place, n);
        to[at] ^= c->store_change;
        if (kind == SEALED) seal(to + at / BLOCK * BLOCK);
    }
    if (kind == LENGTH) n -= 1 + c->store_change;
    return (range){to, n};
}

/* As formatted; of three ACLs; with litter; damaged; of tenants; of tenants and damaged. */
static range record_of(const choices *c, uint8_t *to) {
    enum { FORMATTED, TABLE, LITTERED, DAMAGED, TENANTS, OTHER_TENANTS, KINDS };
    const uint8_t *records[KINDS] = {formatted, table, littered, table, tenants, tenants};
    int kind = c->record % KINDS;
    memcpy(to, records[kind], PLAIN_RECORD);
    if (kind == DAMAGED || kind == OTHER_TENANTS) to[place_of(c->record_place, PLAIN_RECORD)] ^= c->record_change;
    return (range){to, PLAIN_RECORD};
}

/* The last sequence: small, or with `last` as its first byte. */
static uint64_t last_of(const choices *c) {
    uint64_t low = c->last & 1 ? UINT64_MAX >> 8 : 0;
    return c->connection & 8 ? (uint64_t)c->last << 56 | low : (uint64_t)(int8_t)c->last;
}

static range connection_of(const choices *c, uint8_t *to) {
    plain_connect(to, NUMBER, 0);
    for (int i = 0; i < 8; i++) to[16 + i] = (uint8_t)(last_of(c) >> (56 - 8 * i));
    if (c->connection & 1) to[8] = c->connection & 0x20 ? 0x40 : 1;
    if (c->connection & 2) to[10] = c->connection & 0x10 ? 0x80 : 1;
    if (c->connection & 4) memset(to + 11, 0x5a, 5), memset(to + 24, 0x5a, 8);
    if (c->connection >= 0xf8) to[9] = c->connection;
    return (range){to, PLAIN_CONNECTION};
}

/* All six; none, with all else zero; all with the value of one changed; a byte changed; of a wrong length; no bytes, which may be lent as NULL. */
static range readings_of(const choices *c, uint8_t *to) {
    enum { ALL, NONE, VALUE, DAMAGED, LENGTH, EMPTY, KINDS };
    int kind = c->readings % KINDS;
    size_t n = kind == LENGTH ? c->readings_change + (c->readings_change >= PLAIN_READINGS) : kind == EMPTY ? 0 : PLAIN_READINGS;
    memcpy(to, every, n);
    if (kind == NONE) memset(to, 0, n);
    if (kind == VALUE) memcpy(to + 2 + 22 * (c->readings_place % 6) + 18, c->bits, 4);
    if (kind == DAMAGED) to[c->readings_place % PLAIN_READINGS] ^= c->readings_change;
    return (range){to, n};
}

/* A further occurrence of a field, beside the one that the target writes. */
enum { NOWHERE, IN_BODY, IN_COMMAND, IN_MESSAGE };

typedef struct {
    int in;
    unsigned number; /* 0: fields as they are */
    range content;
    int after;
} occurrence;

/* None; or the first bytes of the rest as a part, body or header, as fields of the command, as HMACauth or commandBytes, or as fields of the message. */
static occurrence again_of(const choices *c, unsigned part, range *rest) {
    static const uint8_t in[] = {NOWHERE, IN_BODY, IN_COMMAND, IN_COMMAND, IN_COMMAND, IN_MESSAGE, IN_MESSAGE, IN_MESSAGE};
    const unsigned numbers[] = {0, part, 2, 1, 0, 5, 7, 0};
    int kind = c->again % 8;
    occurrence o = {in[kind], numbers[kind], {rest->at, kind ? place_of(c->cut, rest->n + 1) : 0}, c->again >> 7};
    rest->at += o.content.n;
    rest->n -= o.content.n;
    return o;
}

/* Puts the occurrence before the fields of a message or after them, where this is its place. */
static void put_in(text *m, int in, const occurrence *o) {
    static text fields;
    if (o->in != in) return;
    fields.n = 0;
    push(&fields, m->at, m->n);
    if (!o->after) m->n = 0;
    if (o->number) bytes(m, o->number, o->content.at, o->content.n);
    else push(m, o->content.at, o->content.n);
    if (!o->after) push(m, fields.at, fields.n);
}

/* A message of the rest of the fuzzer's bytes: as they are; or, signed, as a command, as a body, or as the part of a body that a message type needs. */
static const text *message_of(const choices *c, int form, range rest) {
    static const int types[] = {2, 4, 6, 8, 10, 12, 16, 22, 26, 30, 32, 24, -1, 3, 28, 42};
    static text body, told, signed_;
    int type = types[c->type % 16];
    unsigned part = type == 12 ? 2 : type == 22 ? 3 : type == 24 ? 6 : type == 26 ? 7 : 1;
    occurrence again = again_of(c, part, &rest);
    text *m = &body;
    body.n = 0;
    if (form == 4) bytes(&body, part, rest.at, rest.n);
    else push(&body, rest.at, rest.n);
    if (form >= 3) {
        put_in(m, IN_BODY, &again);
        command(&told, NUMBER, (int64_t)(last_of(c) + (uint64_t)(int8_t)c->step), type, m->at, m->n);
        m = &told;
    }
    if (form >= 2) {
        put_in(m, IN_COMMAND, &again);
        message(&signed_, identities[c->identity % 4], key, c->identity & 0x80 ? 1 : KEY_LEN, 1, m->at, m->n);
        m = &signed_;
    }
    put_in(m, IN_MESSAGE, &again);
    return m;
}

/* The input: the rest of the fuzzer's bytes, or a message of them in its frame; then cut, or with bytes after it. */
static range input_of(const choices *c, range rest, text *to) {
    static const size_t values[] = {0, 0, 0, 1, 384, 385, 1024, 1025};
    int form = c->form % 5;
    to->n = 0;
    if (form) {
        const text *m = message_of(c, form, rest);
        frame(to, m->at, m->n, filling, values[c->value % 8]);
    } else push(to, rest.at, rest.n);
    if (c->end & 0x80) push(to, filling, c->end & 0x7f);
    else to->n -= c->end < to->n ? c->end : to->n;
    return (range){to->at, to->n};
}

/* ---- A call on both sides */

static uint32_t call_plain(range r[PARTS]) {
    uint64_t counts[2];
    memcpy(counts, r[COUNTS].at, sizeof counts);
    uint32_t said = plain_answer(r[STORE].at, r[STORE].n, r[RECORD].at, r[CONNECTION].at, r[READINGS].at, r[READINGS].n, r[INPUT].at, r[INPUT].n,
                                 r[OUT].at, r[OUT].n, counts);
    memcpy(r[COUNTS].at, counts, sizeof counts);
    return said;
}

static uint32_t call_ours(range r[PARTS], int null) {
    return ridgeladle_answer(place(r[STORE], null), r[STORE].n, r[RECORD].at, r[CONNECTION].at, place(r[READINGS], null), r[READINGS].n,
                             place(r[INPUT], null), r[INPUT].n, place(r[OUT], null), r[OUT].n, (uint64_t *)(void *)r[COUNTS].at);
}

/* What is known of every answer and refusal, without a second box. */
static void hold_rules(uint32_t said, range before[PARTS], range after[PARTS]) {
    const uint8_t *was = before[CONNECTION].at, *is = after[CONNECTION].at;
    uint64_t counts[2];
    memcpy(counts, after[COUNTS].at, sizeof counts);
    hold(said <= 5 || said == 7, "an answer, or refusal 1 to 5 or 7");
    hold((said == 1) == (before[OUT].n < PLAIN_ROOM), "refusal 1 exactly for a short reply buffer");
    hold(same(before[INPUT], after[INPUT]) && same(before[READINGS], after[READINGS]), "input and readings stay");
    if (said) {
        for (int i = 0; i < PARTS; i++) hold(same(before[i], after[i]), "a refusal changes no byte");
        return;
    }
    hold(was[9] == 0, "a closed connection is refused");
    hold(before[READINGS].n == PLAIN_READINGS && before[READINGS].at[0] <= 4 && before[READINGS].at[1] <= 2, "other readings are refused");
    hold(counts[0] >= 1 && counts[0] <= before[INPUT].n, "taken is within the input");
    hold(counts[1] >= 9 && counts[1] <= PLAIN_ROOM, "written is within 4,096");
    hold(after[OUT].at[0] == 0x46, "the reply is a frame");
    hold(memcmp(before[OUT].at + counts[1], after[OUT].at + counts[1], before[OUT].n - counts[1]) == 0, "the buffer stays after the reply");
    hold(memcmp(was, is, 9) == 0 && memcmp(was + 11, is + 11, 5) == 0 && memcmp(was + 24, is + 24, 8) == 0, "the rest of the connection stays");
    hold(is[9] == 0 || (same(before[STORE], after[STORE]) && same(before[RECORD], after[RECORD]) && memcmp(was + 10, is + 10, 22) == 0),
         "closing changes nothing but that");
}

/* The call on both sides; what it leaves in `state`. What it said. */
static uint32_t call(range state[PARTS], int sides, int null) {
    range before[PARTS], plain[PARTS], ours[PARTS];
    for (int i = 0; i < PARTS; i++) {
        before[i] = heap_copy(state[i]);
        plain[i] = heap_copy(state[i]);
        ours[i] = lend(i, state[i], sides >> i & 1);
    }
    uint32_t said = call_ours(ours, null);
    for (int i = 0; i < PARTS; i++) hold_edge(ours[i], sides >> i & 1);
    hold_rules(said, before, ours);
    hold(said == call_plain(plain), "both boxes answer alike");
    for (int i = 0; i < PARTS; i++) {
        hold(same(plain[i], ours[i]), "both boxes leave the same bytes");
        if (state[i].n) memcpy(state[i].at, ours[i].at, state[i].n);
        free(before[i].at);
        free(plain[i].at);
    }
    return said;
}

/* Local read on both sides, on the store that is left. */
static void find(range store, const uint8_t *asked, size_t n, int sides) {
    uint64_t part[2] = {1, 2}, other[2] = {1, 2};
    range s = lend(STORE, store, sides & 1), k = lend(INPUT, (range){(uint8_t *)(uintptr_t)asked, n}, sides >> INPUT & 1);
    uint32_t said = ridgeladle_find(s.at, s.n, k.at, k.n, part);
    hold(said <= 2 && same(s, store), "local read changes nothing");
    hold(said == plain_find(store.at, store.n, asked, n, other) && part[0] == other[0] && part[1] == other[1], "both boxes find alike");
    hold(said || (part[0] <= s.n && part[1] <= s.n - part[0]), "the part lies in the store");
}

/* Rescue on both sides; what it leaves in store and report. What it said. */
static uint32_t rescue(range store, range report, int sides, int null) {
    int low = sides & 1, low_report = sides >> OUT & 1;
    range plain = heap_copy(store), told = heap_copy(report), ours = lend(STORE, store, low), ours_told = lend(OUT, report, low_report);
    uint32_t said = ridgeladle_rescue(place(ours, null), ours.n, place(ours_told, null), ours_told.n);
    hold_edge(ours, low);
    hold_edge(ours_told, low_report);
    hold(said == 0 || said == 2 || said == 8, "a rescue, or refusal 2 or 8");
    hold(said == 0 || (same(store, ours) && same(report, ours_told)), "a refusal changes no byte");
    hold(said == plain_rescue(plain.at, plain.n, told.at, told.n) && same(plain, ours) && same(told, ours_told), "both boxes rescue alike");
    if (store.n) memcpy(store.at, ours.at, store.n);
    if (report.n) memcpy(report.at, ours_told.at, report.n);
    free(plain.at);
    free(told.at);
    return said;
}

/* Rescue of the store that is left, with a report of the right length, or not; then once more; then the answer. */
static void rescue_all(range state[PARTS], const choices *c) {
    static uint8_t report[MOST_STORE / BLOCK + 257];
    static const int off[] = {0, 0, 0, 0, -1, 1, 256, -128};
    int blocks = (int)(state[STORE].n / BLOCK), n = blocks + off[c->report % 8], null = c->sides >> 7;
    for (size_t i = 0; i < sizeof report; i++) report[i] = (uint8_t)(i * 29 + c->report);
    range told = {report, n < 0 ? 0 : (size_t)n};
    uint32_t said = rescue(state[STORE], told, c->sides, null);
    int length_good = state[STORE].n % BLOCK == 0 && blocks >= 1 && blocks <= 128;
    hold(said == (length_good ? told.n == (size_t)blocks ? 0 : 8 : 2), "refusal 2 or 8 exactly for a wrong length");
    if (said) return;
    range first = heap_copy(state[STORE]);
    size_t kept = 0, used = 0;
    for (int i = 0; i < blocks; i++) kept += report[i] == 1;
    hold(rescue(state[STORE], told, c->sides, null) == 0 && same(first, state[STORE]), "a second rescue changes nothing");
    while (used < told.n && report[used] == 1) used++;
    hold(used == kept, "the kept stand first");
    for (size_t i = used; i < told.n; i++) hold(report[i] == 0, "the rest is blank");
    hold(call(state, c->sides, null) != 2, "a rescued store is accepted");
    free(first.at);
}

int LLVMFuzzerTestOneInput(const uint8_t *data, size_t size) {
    static uint8_t store[MOST_STORE], record[PLAIN_RECORD], connection[PLAIN_CONNECTION], readings[MOST_READINGS], out[MOST_OUT];
    static const size_t outs[] = {PLAIN_ROOM, 0, PLAIN_ROOM - 1, MOST_OUT};
    static text input;
    uint64_t counts[2] = {1, 2};
    choices c;
    if (size < sizeof c || size > 10240) return 0;
    if (!pages[0].at) prepare();
    memcpy(&c, data, sizeof c);
    data += sizeof c;
    size -= sizeof c;
    for (size_t i = 0; i < sizeof out; i++) out[i] = (uint8_t)(i * 31 + 7);
    range state[PARTS] = {store_of(&c, store), record_of(&c, record), connection_of(&c, connection), readings_of(&c, readings),
                          input_of(&c, (range){(uint8_t *)(uintptr_t)data, size}, &input), {out, outs[c.out % 4]}, {(uint8_t *)counts, sizeof counts}};
    for (int i = 0; i < CALLS && call(state, c.sides, c.sides >> 7) == 0; i++) {
        state[INPUT].at += counts[0];
        state[INPUT].n -= counts[0];
    }
    find(state[STORE], data, size < 66 ? size : 66, c.sides);
    rescue_all(state, &c);
    return 0;
}
