/* The box of document 01 with change requests 1, 2, 5 and 6 of document 02 in plain C, written from the documents: what the proved box is
   compared with and measured against.

   Temperatures are turned with the compiler's float: each step must be rounded to f32 by itself. So the float must be evaluated in its own width
   (x86-64 does), no two steps may be made one (the scripts pass -ffp-contract=off), and no flag may change arithmetic. */
#include "box.h"
#include <float.h>
#include <string.h>

#if FLT_EVAL_METHOD != 0 || defined __FAST_MATH__
#error "each step of a float must be rounded to f32"
#endif

enum { BLOCK = 512, MOST_BLOCKS = 128, MOST_STORE = MOST_BLOCKS * BLOCK };

enum { ACL_PLACE = 368, SCOPE_PLACE = 72, MOST_MESSAGE = 8192, MOST_VALUE = 1024, MOST_KEYS = 32 };

enum { READING_PLACE = 22, MOST_NAME = 16, MOST_TEMPERATURES = 4, MOST_UTILIZATIONS = 2 };

enum { OUT_SHORT = 1, STORE_BAD, DEVICE_BAD, CLOSED, MORE, KEY_BAD, READINGS_BAD, REPORT_BAD };

/* What a rescue reports of a block. */
enum { WAS_BLANK, KEPT, CHECK_WRONG, RULE_BROKEN, KEY_TWICE };

enum {
    SUCCESS = 1,
    HMAC_FAILURE = 2,
    NOT_AUTHORIZED = 3,
    VERSION_FAILURE = 4,
    HEADER_REQUIRED = 6,
    NOT_FOUND = 7,
    VERSION_MISMATCH = 8,
    NO_SPACE = 14,
    NO_SUCH_HMAC_ALGORITHM = 15,
    INVALID_REQUEST = 16,
    CONNECTION_TERMINATED = 20
};

enum {
    GET = 2,
    PUT = 4,
    DELETE = 6,
    GETNEXT = 8,
    GETPREVIOUS = 10,
    GETKEYRANGE = 12,
    GETVERSION = 16,
    SETUP = 22,
    GETLOG = 24,
    SECURITY = 26,
    NOOP = 30,
    FLUSHALLDATA = 32
};

enum { READ_OK = 0, WRITE_OK = 1, DELETE_OK = 2, RANGE_OK = 3, SETUP_OK = 4, GETLOG_OK = 7, SECURITY_OK = 8 };

/* Types of a log. */
enum { UTILIZATIONS = 0, TEMPERATURES = 1, CAPACITIES = 2, LIMITS = 6, DEVICE = 7 };

/* Sets of small numbers, a bit for each. */
#define PERMISSIONS 0x3bfu  /* 0-5, 7, 8, 9 */
#define PRIORITIES 0x2aau   /* 1, 3, 5, 7, 9 */
#define ALGORITHMS 0x7eu    /* 1 to 6 */
#define SYNCHRONIZATIONS 0xeu /* 1 to 3 */
#define LOG_TYPES 0xffu     /* 0 to 7 */
#define UNBUILT_TYPES 0x38u /* 3, 4, 5 */

static int in_set(int64_t x, uint32_t set) { return x >= 0 && x < 32 && set >> x & 1; }

typedef struct {
    const uint8_t *at;
    size_t n;
} bytes;

static void copy(uint8_t *to, const uint8_t *from, size_t n) {
    if (n) memcpy(to, from, n);
}

static int same(const uint8_t *a, const uint8_t *b, size_t n) { return n == 0 || memcmp(a, b, n) == 0; }

static uint32_t be32(const uint8_t *p) {
    return (uint32_t)p[0] << 24 | (uint32_t)p[1] << 16 | (uint32_t)p[2] << 8 | p[3];
}

static void put_be32(uint8_t *p, uint32_t v) {
    for (int i = 0; i < 4; i++) p[i] = (uint8_t)(v >> (24 - 8 * i));
}

static int64_t be64(const uint8_t *p) { return (int64_t)((uint64_t)be32(p) << 32 | be32(p + 4)); }

static void put_be64(uint8_t *p, int64_t v) {
    put_be32(p, (uint32_t)((uint64_t)v >> 32));
    put_be32(p + 4, (uint32_t)v);
}

/* ---- Blocks */

/* No early exit, so that it becomes vector code. */
static int zeros(const uint8_t *p, size_t n) {
    uint8_t any = 0;
    for (size_t i = 0; i < n; i++) any |= p[i];
    return any == 0;
}

/* Two halves of 254, so that each product fits 16 bits: the second is 254 places further on. */
static uint32_t sum(const uint8_t *b) {
    uint32_t s = 0, second = 0;
    uint16_t place = 1;
    for (int i = 0; i < 254; i++, place++) {
        uint16_t x = (uint16_t)(b[i] * place), y = (uint16_t)(b[254 + i] * place);
        s += (uint32_t)x + y;
        second += b[254 + i];
    }
    return s + 254 * second;
}

static size_t value_len(const uint8_t *b) { return (size_t)b[4] << 8 | b[5]; }

static int sum_good(const uint8_t *b) { return sum(b) == be32(b + 508); }

/* Every rule of a used block but the sum. */
static int parts_good(const uint8_t *b) {
    size_t k = b[1], v = b[2], t = b[3], n = value_len(b);
    if (b[0] != 1 || k < 1 || k > 64 || v > 16 || t > 32 || n > 384 || b[6] > 6 || b[7]) return 0;
    return zeros(b + 8 + k, 64 - k) && zeros(b + 72 + v, 16 - v) && zeros(b + 88 + t, 32 - t) && zeros(b + 120 + n, 388 - n);
}

static int order(bytes a, bytes b) {
    size_t n = a.n < b.n ? a.n : b.n;
    int c = n ? memcmp(a.at, b.at, n) : 0;
    return c ? c : (a.n > b.n) - (a.n < b.n);
}

static bytes key_at(const uint8_t *store, size_t i) { return (bytes){store + i * BLOCK + 8, store[i * BLOCK + 1]}; }

static int store_length_good(size_t n) { return n >= BLOCK && n <= MOST_STORE && n % BLOCK == 0; }

/* The number of used blocks, or -1 where a rule is broken. */
static int check(const uint8_t *store, size_t len) {
    if (!store_length_good(len)) return -1;
    size_t used = 0;
    for (; used * BLOCK < len && store[used * BLOCK]; used++) {
        if (!parts_good(store + used * BLOCK) || !sum_good(store + used * BLOCK)) return -1;
        if (used && order(key_at(store, used - 1), key_at(store, used)) >= 0) return -1;
    }
    return zeros(store + used * BLOCK, len - used * BLOCK) ? (int)used : -1;
}

/* How many keys are below this one. */
static size_t below(const uint8_t *store, size_t used, bytes key) {
    size_t from = 0, to = used;
    while (from < to) {
        size_t middle = (from + to) / 2;
        if (order(key_at(store, middle), key) < 0) from = middle + 1;
        else to = middle;
    }
    return from;
}

static int is_at(const uint8_t *store, size_t used, size_t i, bytes key) { return i < used && order(key_at(store, i), key) == 0; }

/* ---- Rescue */

/* Not inlined: inside the loop of plain_rescue clang 14 makes slower code of the sum, half as slow again. */
__attribute__((noinline)) static uint8_t found_alone(const uint8_t *b) {
    if (b[0] == 0 && zeros(b, BLOCK)) return WAS_BLANK;
    if (!sum_good(b)) return CHECK_WRONG;
    return parts_good(b) ? KEPT : RULE_BROKEN;
}

/* Puts block i among those that are sorted by key; 0 where its key is there. The last is looked at first: most stores are nearly in order. */
static int insert(const uint8_t *store, uint8_t *sorted, size_t count, size_t i) {
    bytes key = key_at(store, i);
    size_t from = 0, to = count, middle = count - 1;
    while (from < to) {
        int c = order(key_at(store, sorted[middle]), key);
        if (c == 0) return 0;
        if (c < 0) from = middle + 1;
        else to = middle;
        middle = (from + to) / 2;
    }
    memmove(sorted + from + 1, sorted + from, count - from);
    sorted[from] = (uint8_t)i;
    return 1;
}

static void move_block(uint8_t *store, size_t to, size_t from) { memcpy(store + to * BLOCK, store + from * BLOCK, BLOCK); }

/* Fills place `to`, then the place that its block came from, and so on, up to a place past `kept` or one that block `end` belongs in: which that is. */
static size_t move_on(uint8_t *store, uint8_t *sources, size_t kept, size_t to, size_t end) {
    while (to < kept && sources[to] != end) {
        size_t from = sources[to];
        move_block(store, to, from);
        sources[to] = (uint8_t)to;
        to = from;
    }
    return to;
}

/* Puts block sources[i] in place i, for each i below `kept`. First the chains, each from a place whose block is not kept; what is left are cycles. */
static void arrange(uint8_t *store, uint8_t *sources, size_t kept, const uint8_t *report) {
    for (size_t i = 0; i < kept; i++)
        if (report[i] != KEPT) move_on(store, sources, kept, i, MOST_BLOCKS);
    for (size_t i = 0; i < kept; i++) {
        if (sources[i] == i) continue;
        uint8_t first[BLOCK];
        memcpy(first, store + i * BLOCK, BLOCK);
        size_t last = move_on(store, sources, kept, i, i);
        memcpy(store + last * BLOCK, first, BLOCK);
        sources[last] = (uint8_t)last;
    }
}

/* ---- The device record: places of ACLs from byte 16, places of scopes from byte 80 of an ACL's */

static uint8_t *acl_at(uint8_t *record, size_t i) { return record + 16 + i * ACL_PLACE; }

static const uint8_t *scope_at(const uint8_t *acl, size_t i) { return acl + 80 + i * SCOPE_PLACE; }

static uint32_t mask_of(const uint8_t *scope) { return (uint32_t)scope[2] << 8 | scope[3]; }

static int scope_good(const uint8_t *scope) {
    uint32_t mask = mask_of(scope);
    return scope[0] <= 64 && scope[1] <= 64 && mask && !(mask & ~PERMISSIONS);
}

static int record_good(uint8_t *record) {
    size_t count = record[8];
    if (count < 1 || count > 8) return 0;
    for (size_t i = 0; i < count; i++) {
        const uint8_t *acl = acl_at(record, i);
        if (acl[8] < 1 || acl[8] > 64 || acl[9] < 1 || acl[9] > 4) return 0;
        for (size_t j = 0; j < acl[9]; j++)
            if (!scope_good(scope_at(acl, j))) return 0;
        for (size_t j = 0; j < i; j++)
            if (same(acl, acl_at(record, j), 8)) return 0;
    }
    return 1;
}

/* The scopes of an identity that are usable: they hold the permission and allow the connection. */
typedef struct {
    size_t count;
    const uint8_t *at[4];
} scopes;

static scopes usable(const uint8_t *acl, int permission, int is_protected) {
    scopes s = {0};
    for (size_t i = 0; i < acl[9]; i++) {
        const uint8_t *scope = scope_at(acl, i);
        if (mask_of(scope) >> permission & 1 && (is_protected || !scope[4])) s.at[s.count++] = scope;
    }
    return s;
}

/* Whether one of them fits a key. */
static int fits(const scopes *s, bytes key) {
    for (size_t i = 0; i < s->count; i++) {
        const uint8_t *scope = s->at[i];
        size_t offset = scope[0], n = scope[1];
        if (n == 0 || (offset + n <= key.n && same(key.at + offset, scope + 8, n))) return 1;
    }
    return 0;
}

/* ---- Lent readings: the number of temperatures, that of utilizations, then four places of temperatures and two of utilizations */

static const uint8_t *reading_at(const uint8_t *readings, size_t place) { return readings + 2 + place * READING_PLACE; }

static int names_good(const uint8_t *readings, size_t from, size_t count) {
    for (size_t i = from; i < from + count; i++) {
        uint8_t n = reading_at(readings, i)[1];
        if (n < 1 || n > MOST_NAME) return 0;
    }
    return 1;
}

static int readings_good(const uint8_t *readings, size_t n) {
    if (n != PLAIN_READINGS || readings[0] > MOST_TEMPERATURES || readings[1] > MOST_UTILIZATIONS) return 0;
    return names_good(readings, 0, readings[0]) && names_good(readings, MOST_TEMPERATURES, readings[1]);
}

static uint32_t bits_of(float x) {
    uint32_t bits;
    memcpy(&bits, &x, sizeof bits);
    return bits;
}

static uint32_t celsius(uint32_t fahrenheit) {
    float x;
    memcpy(&x, &fahrenheit, sizeof x);
    float less = x - 32.0f;
    float five_times = less * 5.0f;
    float ninth = five_times / 9.0f;
    return bits_of(ninth);
}

static int is_finite(uint32_t bits) { return (bits & 0x7f800000u) != 0x7f800000u; }

/* ---- Fields */

typedef struct {
    uint32_t number, wire;
    uint64_t value; /* wire type 0 */
    bytes data;     /* the others */
} field;

static int read_varint(bytes *m, uint64_t *v) {
    uint64_t x = 0;
    for (size_t i = 0; i < m->n && i < 10; i++) {
        uint8_t b = m->at[i];
        if (i == 9 && b > 1) return 0;
        x |= (uint64_t)(b & 127) << (7 * i);
        if (b < 128) {
            m->at += i + 1;
            m->n -= i + 1;
            *v = x;
            return 1;
        }
    }
    return 0;
}

/* Takes a field off the front of a message; 0 where it is not well framed. */
static int next(bytes *m, field *f) {
    uint64_t tag, n = 0;
    if (!read_varint(m, &tag) || tag >> 32 || tag < 8) return 0;
    f->number = (uint32_t)(tag >> 3);
    f->wire = (uint32_t)(tag & 7);
    switch (f->wire) {
    case 0: return read_varint(m, &f->value);
    case 1: n = 8; break;
    case 2:
        if (!read_varint(m, &n)) return 0;
        break;
    case 5: n = 4; break;
    default: return 0;
    }
    if (n > m->n) return 0;
    f->data = (bytes){m->at, (size_t)n};
    m->at += n;
    m->n -= (size_t)n;
    return 1;
}

static int has(uint32_t seen, uint32_t number) { return seen >> number & 1; }

/* Listed fields, of numbers below 32: `seen` has a bit for each that was met. A value is read over the one before it. */
static int met(const field *f, uint32_t wire, uint32_t *seen) {
    *seen |= 1u << f->number;
    return f->wire == wire;
}

static int read_bytes(const field *f, uint32_t *seen, bytes *to) {
    *to = f->data;
    return met(f, 2, seen);
}

static int read_number(const field *f, uint32_t *seen, int64_t *to) {
    *to = (int64_t)f->value;
    return met(f, 0, seen);
}

/* An int32, or an enum that is judged later. */
static int read_small(const field *f, uint32_t *seen, int64_t *to) {
    return read_number(f, seen, to) && *to >= INT32_MIN && *to <= INT32_MAX;
}

static int read_enum(const field *f, uint32_t *seen, int64_t *to, uint32_t named) {
    return read_number(f, seen, to) && in_set(*to, named);
}

static int read_flag(const field *f, uint32_t *seen, int *to) {
    *to = f->value != 0;
    return met(f, 0, seen);
}

/* ---- Messages. Each reader says whether an occurrence decodes, and reads it over what those before it left; before the first, that is zeros. */

typedef struct {
    uint32_t seen;
    int64_t cluster, connection, sequence, type;
} header;

static int read_header(bytes m, header *h) {
    field f = {0};
    int64_t unused;
    int flag, good;
    while (m.n) {
        if (!next(&m, &f)) return 0;
        switch (f.number) {
        case 1: good = read_number(&f, &h->seen, &h->cluster); break;
        case 3: good = read_number(&f, &h->seen, &h->connection); break;
        case 4: good = read_number(&f, &h->seen, &h->sequence); break;
        case 7: good = read_small(&f, &h->seen, &h->type); break;
        case 6:
        case 9:
        case 13: good = read_number(&f, &h->seen, &unused); break;
        case 10: good = read_flag(&f, &h->seen, &flag); break;
        case 12: good = read_enum(&f, &h->seen, &unused, PRIORITIES); break;
        case 14: good = 0; break;
        default: good = 1;
        }
        if (!good) return 0;
    }
    return 1;
}

typedef struct {
    uint32_t seen;
    bytes new_version, key, db_version, tag;
    int64_t algorithm;
    int metadata_only, force;
} key_value;

static int read_key_value(bytes m, key_value *v) {
    field f = {0};
    int64_t unused;
    int good;
    while (m.n) {
        if (!next(&m, &f)) return 0;
        switch (f.number) {
        case 2: good = read_bytes(&f, &v->seen, &v->new_version); break;
        case 3: good = read_bytes(&f, &v->seen, &v->key); break;
        case 4: good = read_bytes(&f, &v->seen, &v->db_version); break;
        case 5: good = read_bytes(&f, &v->seen, &v->tag); break;
        case 6: good = read_enum(&f, &v->seen, &v->algorithm, ALGORITHMS); break;
        case 7: good = read_flag(&f, &v->seen, &v->metadata_only); break;
        case 8: good = read_flag(&f, &v->seen, &v->force); break;
        case 9: good = read_enum(&f, &v->seen, &unused, SYNCHRONIZATIONS); break;
        default: good = 1;
        }
        if (!good) return 0;
    }
    return 1;
}

typedef struct {
    uint32_t seen;
    bytes start, end;
    int start_inclusive, end_inclusive, reverse;
    int64_t most;
} range;

static int read_range(bytes m, range *r) {
    field f = {0};
    int good;
    if (!has(r->seen, 5)) r->most = MOST_KEYS;
    while (m.n) {
        if (!next(&m, &f)) return 0;
        switch (f.number) {
        case 1: good = read_bytes(&f, &r->seen, &r->start); break;
        case 2: good = read_bytes(&f, &r->seen, &r->end); break;
        case 3: good = read_flag(&f, &r->seen, &r->start_inclusive); break;
        case 4: good = read_flag(&f, &r->seen, &r->end_inclusive); break;
        case 5: good = read_small(&f, &r->seen, &r->most); break;
        case 6: good = read_flag(&f, &r->seen, &r->reverse); break;
        case 8: good = 0; break;
        default: good = 1;
        }
        if (!good) return 0;
    }
    return 1;
}

typedef struct {
    uint32_t seen;
    int64_t cluster;
} setup;

static int read_setup(bytes m, setup *s) {
    field f = {0};
    while (m.n) {
        if (!next(&m, &f) || f.number == 5) return 0;
        if (f.number == 1 && !read_number(&f, &s->seen, &s->cluster)) return 0;
    }
    return 1;
}

typedef struct {
    uint32_t seen, types; /* types: a bit for each that is asked for */
} log_request;

static int read_log(bytes m, log_request *g) {
    field f = {0};
    while (m.n) {
        int64_t type;
        if (!next(&m, &f)) return 0;
        if (f.number != 1) continue;
        if (!read_enum(&f, &g->seen, &type, LOG_TYPES)) return 0;
        g->types |= 1u << type;
    }
    return 1;
}

/* The table that Security asks for, as it will stand in the record: written as long as no ACL rule is broken. Inside Security nothing singular comes
   twice, and every number is listed. */
typedef struct {
    int good, sha1;
    uint8_t record[PLAIN_RECORD];
} table;

static int read_scope(bytes m, uint8_t *to, int *good) {
    field f = {0};
    uint32_t seen = 0, repeated = 0, count = 0, mask = 0;
    int64_t offset = 0, permission;
    bytes value = {0, 0};
    int tls = 0;
    while (m.n) {
        if (!next(&m, &f) || f.number > 4 || has(seen, f.number)) return 0;
        if (f.number == 1) {
            if (!read_number(&f, &seen, &offset)) return 0;
        } else if (f.number == 2) {
            if (!read_bytes(&f, &seen, &value)) return 0;
        } else if (f.number == 3) {
            if (!read_small(&f, &repeated, &permission)) return 0;
            count++;
            if (in_set(permission, PERMISSIONS)) mask |= 1u << permission;
            else *good = 0;
        } else if (!read_flag(&f, &seen, &tls)) return 0;
    }
    if (count < 1 || count > 9 || offset < 0 || offset > 64 || value.n > 64) *good = 0;
    if (*good) {
        to[0] = (uint8_t)offset;
        to[1] = (uint8_t)value.n;
        to[2] = (uint8_t)(mask >> 8);
        to[3] = (uint8_t)mask;
        to[4] = (uint8_t)tls;
        copy(to + 8, value.at, value.n);
    }
    return 1;
}

static int read_acl(bytes m, uint8_t *to, table *t) {
    field f = {0};
    uint32_t seen = 0;
    int64_t identity = 0, algorithm = 1;
    bytes key = {0, 0};
    uint8_t scopes = 0;
    while (m.n) {
        if (!next(&m, &f) || f.number > 4 || has(seen, f.number)) return 0;
        if (f.number == 1) {
            if (!read_number(&f, &seen, &identity)) return 0;
        } else if (f.number == 2) {
            if (!read_bytes(&f, &seen, &key)) return 0;
        } else if (f.number == 3) {
            if (!read_small(&f, &seen, &algorithm)) return 0;
        } else {
            if (scopes == 4) t->good = 0;
            if (f.wire != 2 || !read_scope(f.data, t->good ? to + 80 + scopes++ * SCOPE_PLACE : to, &t->good)) return 0;
        }
    }
    if (!has(seen, 1) || key.n < 1 || key.n > 64 || scopes < 1) t->good = 0;
    if (algorithm != 1) t->sha1 = 0;
    if (t->good) {
        put_be64(to, identity);
        to[8] = (uint8_t)key.n;
        to[9] = scopes;
        copy(to + 16, key.at, key.n);
        for (uint8_t *other = acl_at(t->record, 0); other < to; other += ACL_PLACE)
            if (same(other, to, 8)) t->good = 0;
    }
    return 1;
}

static int read_security(bytes m, table *t) {
    field f = {0};
    memset(t, 0, sizeof *t);
    t->good = t->sha1 = 1;
    while (m.n) {
        if (!next(&m, &f) || f.number != 2 || f.wire != 2) return 0;
        if (t->record[8] == 8) t->good = 0;
        if (!read_acl(f.data, acl_at(t->record, t->good ? t->record[8]++ : 0), t)) return 0;
    }
    if (t->record[8] == 0) t->good = 0;
    return 1;
}

typedef struct {
    header header;
    uint32_t body; /* numbers that the bodies have */
    key_value key_value;
    range range;
    setup setup;
    log_request log;
    table *table;
} command;

static int read_body(bytes m, command *c) {
    field f = {0};
    while (m.n) {
        int good = 1;
        if (!next(&m, &f)) return 0;
        switch (f.number) {
        case 1: good = met(&f, 2, &c->body) && read_key_value(f.data, &c->key_value); break;
        case 2: good = met(&f, 2, &c->body) && read_range(f.data, &c->range); break;
        case 3: good = met(&f, 2, &c->body) && read_setup(f.data, &c->setup); break;
        case 6: good = met(&f, 2, &c->body) && read_log(f.data, &c->log); break;
        case 7: good = !has(c->body, 7) && met(&f, 2, &c->body) && read_security(f.data, c->table); break;
        case 4:
        case 8:
        case 9:
        case 10: good = 0;
        }
        if (!good) return 0;
    }
    return 1;
}

static int read_command(bytes m, command *c) {
    field f = {0};
    while (m.n) {
        int good = 1;
        if (!next(&m, &f)) return 0;
        switch (f.number) {
        case 1: good = f.wire == 2 && read_header(f.data, &c->header); break;
        case 2: good = f.wire == 2 && read_body(f.data, c); break;
        case 3: good = f.wire == 2;
        }
        if (!good) return 0;
    }
    return 1;
}

int plain_decodes(const uint8_t *text, size_t n) {
    table t;
    command c = {.table = &t};
    return read_command((bytes){text, n}, &c);
}

typedef struct {
    uint32_t seen, auth; /* numbers that the message has, and that its HMACauths have */
    int64_t auth_type, identity;
    bytes hmac, command;
} message;

static int read_auth(bytes m, message *to) {
    field f = {0};
    while (m.n) {
        if (!next(&m, &f)) return 0;
        if (f.number == 1 && !read_number(&f, &to->auth, &to->identity)) return 0;
        if (f.number == 2 && !read_bytes(&f, &to->auth, &to->hmac)) return 0;
    }
    return 1;
}

static int read_message(bytes m, message *to) {
    field f = {0};
    while (m.n) {
        int good = 1;
        if (!next(&m, &f)) return 0;
        switch (f.number) {
        case 4: good = read_small(&f, &to->seen, &to->auth_type); break;
        case 5: good = met(&f, 2, &to->seen) && read_auth(f.data, to); break;
        case 6: good = f.wire == 2; break;
        case 7: good = read_bytes(&f, &to->seen, &to->command);
        }
        if (!good) return 0;
    }
    return 1;
}

/* ---- Replies: writers give the place after what they wrote */

static uint8_t *write_varint(uint8_t *p, uint64_t v) {
    for (; v > 127; v >>= 7) *p++ = (uint8_t)(v | 128);
    *p++ = (uint8_t)v;
    return p;
}

static uint8_t *write_number(uint8_t *p, int number, int64_t v) {
    *p++ = (uint8_t)(number << 3);
    return write_varint(p, (uint64_t)v);
}

static uint8_t *write_bytes(uint8_t *p, int number, const uint8_t *data, size_t n) {
    *p++ = (uint8_t)(number << 3 | 2);
    p = write_varint(p, n);
    copy(p, data, n);
    return p + n;
}

/* An f32, by its bits. */
static uint8_t *write_float(uint8_t *p, int number, uint32_t bits) {
    *p++ = (uint8_t)(number << 3 | 5);
    for (int i = 0; i < 4; i++) *p++ = (uint8_t)(bits >> 8 * i);
    return p;
}

static uint8_t *write_unless_empty(uint8_t *p, int number, const uint8_t *data, size_t n) { return n ? write_bytes(p, number, data, n) : p; }

/* What an operation says: its code and, on success, the keyValue (1), range (2) or getLog (6) of its body if it has one, and the value part. */
typedef struct {
    uint32_t code;
    int number;
    size_t n;
    uint8_t part[MOST_KEYS * 66];
    bytes value;
} result;

static size_t write_frame(uint8_t *out, const uint8_t *end, bytes value) {
    size_t n = (size_t)(end - out) - 9;
    out[0] = 0x46;
    put_be32(out + 1, (uint32_t)n);
    put_be32(out + 5, (uint32_t)value.n);
    copy(out + 9 + n, value.at, value.n);
    return 9 + n + value.n;
}

static uint8_t *write_status(uint8_t *p, uint32_t code) {
    *p++ = 3 << 3 | 2;
    *p++ = 2;
    return write_number(p, 1, code);
}

/* The closing reply; the connection is closed with it. */
static size_t close_with(uint32_t code, uint8_t *connection, uint8_t *out) {
    uint8_t head[11], told[24];
    size_t n = (size_t)(write_number(head, 3, be64(connection)) - head);
    uint8_t *end = write_status(write_bytes(told, 1, head, n), code);
    uint8_t *p = write_number(out + 9, 4, 3);
    connection[9] = 1;
    return write_frame(out, write_bytes(p, 7, told, (size_t)(end - told)), (bytes){0, 0});
}

/* The reply to a signed message. `sequence` is NULL where it is not told. */
static size_t reply(const uint8_t *key, size_t key_len, int64_t identity, const uint8_t *connection, const int64_t *sequence, int64_t type,
                    const result *r, uint8_t *out) {
    uint8_t head[36], told[MOST_KEYS * 66 + 64], auth[40], prefix[8], digest[20];
    uint8_t *p = write_number(head, 3, be64(connection));
    if (sequence) p = write_number(p, 6, *sequence);
    p = write_number(p, 7, type);
    p = write_bytes(told, 1, head, (size_t)(p - head));
    if (r->code == SUCCESS && r->number) {
        size_t n = 1 + (size_t)(write_varint(prefix, r->n) - prefix) + r->n;
        *p++ = 2 << 3 | 2;
        p = write_bytes(write_varint(p, n), r->number, r->part, r->n);
    }
    p = write_status(p, r->code);
    size_t told_len = (size_t)(p - told);
    plain_hmac(key, key_len, told, told_len, digest);
    p = write_bytes(write_number(auth, 1, identity), 2, digest, 20);
    p = write_bytes(write_number(out + 9, 4, 1), 5, auth, (size_t)(p - auth));
    return write_frame(out, write_bytes(p, 7, told, told_len), r->code == SUCCESS ? r->value : (bytes){0, 0});
}

/* ---- Operations, on a store with `used` blocks used */

typedef struct {
    uint8_t *store;
    size_t len, used;
    uint8_t *record, *connection;
    const uint8_t *readings;
} box;

static void write_block(uint8_t *b, const key_value *v, bytes value) {
    memset(b, 0, BLOCK);
    b[0] = 1;
    b[1] = (uint8_t)v->key.n;
    b[2] = (uint8_t)v->new_version.n;
    b[3] = (uint8_t)v->tag.n;
    b[4] = (uint8_t)(value.n >> 8);
    b[5] = (uint8_t)value.n;
    b[6] = (uint8_t)v->algorithm;
    copy(b + 8, v->key.at, v->key.n);
    copy(b + 72, v->new_version.at, v->new_version.n);
    copy(b + 88, v->tag.at, v->tag.n);
    copy(b + 120, value.at, value.n);
    put_be32(b + 508, sum(b));
}

/* Whether dbVersion is the version of a block; none has the empty version. */
static int version_fits(const key_value *v, const uint8_t *block) {
    size_t n = block ? block[2] : 0;
    return v->force || (v->db_version.n == n && (n == 0 || same(v->db_version.at, block + 72, n)));
}

static uint32_t put(const box *b, const key_value *v, bytes value) {
    size_t i = below(b->store, b->used, v->key);
    uint8_t *block = b->store + i * BLOCK;
    int found = is_at(b->store, b->used, i, v->key);
    if (!version_fits(v, found ? block : NULL)) return VERSION_MISMATCH;
    if (!found) {
        if (b->used * BLOCK == b->len) return NO_SPACE;
        memmove(block + BLOCK, block, (b->used - i) * BLOCK);
    }
    write_block(block, v, value);
    return SUCCESS;
}

static uint32_t delete(const box *b, const key_value *v) {
    size_t i = below(b->store, b->used, v->key);
    uint8_t *block = b->store + i * BLOCK;
    if (!is_at(b->store, b->used, i, v->key)) return v->force ? SUCCESS : NOT_FOUND;
    if (!version_fits(v, block)) return VERSION_MISMATCH;
    memmove(block, block + BLOCK, (b->used - i - 1) * BLOCK);
    memset(b->store + (b->used - 1) * BLOCK, 0, BLOCK);
    return SUCCESS;
}

/* GETNEXT and GETPREVIOUS pass over keys that no usable scope fits. */
static void get(const box *b, const scopes *s, int64_t type, const key_value *v, result *r) {
    size_t i = below(b->store, b->used, v->key);
    int found = is_at(b->store, b->used, i, v->key);
    if (type == GETNEXT) {
        i += (size_t)found;
        while (i < b->used && !fits(s, key_at(b->store, i))) i++;
        found = i < b->used;
    } else if (type == GETPREVIOUS) {
        while (i > 0 && !fits(s, key_at(b->store, i - 1))) i--;
        found = i-- > 0;
    }
    if (!found) {
        r->code = NOT_FOUND;
        return;
    }
    const uint8_t *block = b->store + i * BLOCK;
    uint8_t *p = r->part;
    if (type == GETVERSION) p = write_unless_empty(p, 4, block + 72, block[2]);
    else {
        p = write_bytes(p, 3, block + 8, block[1]);
        p = write_unless_empty(p, 4, block + 72, block[2]);
        p = write_unless_empty(p, 5, block + 88, block[3]);
        if (block[6]) p = write_number(p, 6, block[6]);
        if (!v->metadata_only) r->value = (bytes){block + 120, value_len(block)};
    }
    r->n = (size_t)(p - r->part);
}

/* maxReturned counts the keys that a usable scope fits. */
static void get_key_range(const box *b, const scopes *s, const range *g, result *r) {
    size_t from = below(b->store, b->used, g->start), to = below(b->store, b->used, g->end);
    if (!g->start_inclusive && is_at(b->store, b->used, from, g->start)) from++;
    if (g->end_inclusive && is_at(b->store, b->used, to, g->end)) to++;
    uint8_t *p = r->part;
    for (int64_t left = g->most; left > 0 && from < to;) {
        bytes key = key_at(b->store, g->reverse ? --to : from++);
        if (!fits(s, key)) continue;
        p = write_bytes(p, 8, key.at, key.n);
        left--;
    }
    r->number = 2;
    r->n = (size_t)(p - r->part);
}

/* A utilization or a temperature: a value that is not finite is left out. */
static uint8_t *write_reading(uint8_t *p, int number, const uint8_t *reading, uint32_t bits) {
    uint8_t part[MOST_NAME + 8];
    uint8_t *end = write_bytes(part, 1, reading + 2, reading[1]);
    if (is_finite(bits)) end = write_float(end, 2, bits);
    return write_bytes(p, number, part, (size_t)(end - part));
}

static uint8_t *write_capacity(uint8_t *p, const box *b) {
    uint8_t part[16];
    float used = (float)b->used, blocks = (float)(b->len / BLOCK), portion = used / blocks;
    uint8_t *end = write_float(write_number(part, 4, (int64_t)b->len), 5, bits_of(portion));
    return write_bytes(p, 4, part, (size_t)(end - part));
}

static uint8_t *write_limits(uint8_t *p) {
    static const struct {
        int number;
        int64_t most;
    } limits[] = {{1, 64}, {2, 384}, {3, 16}, {4, 32}, {8, MOST_MESSAGE}, {9, MOST_KEYS}, {10, 8}};
    uint8_t part[32], *end = part;
    for (size_t i = 0; i < sizeof limits / sizeof *limits; i++) end = write_number(end, limits[i].number, limits[i].most);
    return write_bytes(p, 8, part, (size_t)(end - part));
}

static void get_log(const box *b, uint32_t types, result *r) {
    if (in_set(DEVICE, types)) {
        r->code = NOT_FOUND;
        return;
    }
    uint8_t *p = r->part;
    for (size_t i = 0; in_set(UTILIZATIONS, types) && i < b->readings[1]; i++) {
        const uint8_t *reading = reading_at(b->readings, MOST_TEMPERATURES + i);
        p = write_reading(p, 2, reading, be32(reading + 18));
    }
    for (size_t i = 0; in_set(TEMPERATURES, types) && i < b->readings[0]; i++) {
        const uint8_t *reading = reading_at(b->readings, i);
        uint32_t bits = be32(reading + 18);
        p = write_reading(p, 3, reading, reading[0] ? celsius(bits) : bits);
    }
    if (in_set(CAPACITIES, types)) p = write_capacity(p, b);
    if (in_set(LIMITS, types)) p = write_limits(p);
    r->number = 6;
    r->n = (size_t)(p - r->part);
}

/* ---- The order of judgement */

static int built(int64_t type) {
    switch (type) {
    case GET:
    case PUT:
    case DELETE:
    case GETNEXT:
    case GETPREVIOUS:
    case GETKEYRANGE:
    case GETVERSION:
    case SETUP:
    case GETLOG:
    case SECURITY:
    case NOOP:
    case FLUSHALLDATA: return 1;
    default: return 0;
    }
}

static int key_value_good(int64_t type, const key_value *v) {
    return v->key.n >= 1 && v->key.n <= 64 && v->new_version.n <= 16 && v->db_version.n <= 16 && v->tag.n <= 32 &&
           !((type == PUT || type == DELETE) && v->metadata_only);
}

static int range_good(const range *g) {
    return has(g->seen, 1) && has(g->seen, 2) && g->start.n <= 64 && g->end.n <= 64 && g->most >= 0 && g->most <= MOST_KEYS;
}

/* Step 8. */
static uint32_t body_fault(const command *c, size_t value) {
    int64_t type = c->header.type;
    if (value > (type == PUT ? 384 : 0)) return INVALID_REQUEST;
    switch (type) {
    case NOOP:
    case FLUSHALLDATA: return 0;
    case GETKEYRANGE: return has(c->body, 2) && range_good(&c->range) ? 0 : INVALID_REQUEST;
    case SETUP: return has(c->body, 3) ? 0 : INVALID_REQUEST;
    case GETLOG: return c->log.types && !(c->log.types & UNBUILT_TYPES) ? 0 : INVALID_REQUEST;
    case SECURITY:
        if (!has(c->body, 7) || !c->table->good) return INVALID_REQUEST;
        return c->table->sha1 ? 0 : NO_SUCH_HMAC_ALGORITHM;
    default: return has(c->body, 1) && key_value_good(type, &c->key_value) ? 0 : INVALID_REQUEST;
    }
}

/* The permission of an operation; NOOP and FLUSHALLDATA need none. */
static int needed(int64_t type) {
    switch (type) {
    case PUT: return WRITE_OK;
    case DELETE: return DELETE_OK;
    case GETKEYRANGE: return RANGE_OK;
    case SETUP: return SETUP_OK;
    case GETLOG: return GETLOG_OK;
    case SECURITY: return SECURITY_OK;
    default: return READ_OK;
    }
}

/* Step 9, with the usable scopes: one must fit the key of these four; any will do for the others. */
static int authorized(const scopes *s, const command *c) {
    switch (c->header.type) {
    case NOOP:
    case FLUSHALLDATA: return 1;
    case GET:
    case GETVERSION:
    case PUT:
    case DELETE: return fits(s, c->key_value.key);
    default: return s->count > 0;
    }
}

/* Step 10. */
static void perform(const box *b, const scopes *s, const command *c, bytes value, result *r) {
    r->code = SUCCESS;
    r->number = 1;
    switch (c->header.type) {
    case PUT: r->code = put(b, &c->key_value, value); break;
    case DELETE: r->code = delete(b, &c->key_value); break;
    case GETKEYRANGE: get_key_range(b, s, &c->range, r); break;
    case SETUP:
        r->number = 0;
        if (has(c->setup.seen, 1)) put_be64(b->record, c->setup.cluster);
        break;
    case GETLOG: get_log(b, c->log.types, r); break;
    case SECURITY:
        r->number = 0;
        memcpy(b->record + 8, c->table->record + 8, PLAIN_RECORD - 8);
        break;
    case NOOP:
    case FLUSHALLDATA: r->number = 0; break;
    default: get(b, s, c->header.type, &c->key_value, r);
    }
}

/* Steps 4 to 10 of a command that decodes. */
static void judge(const box *b, const uint8_t *acl, const command *c, bytes value, result *r) {
    const header *h = &c->header;
    uint8_t *connection = b->connection;
    if (!has(h->seen, 3) || !has(h->seen, 4)) r->code = HEADER_REQUIRED;
    else if (h->cluster != be64(b->record)) r->code = VERSION_FAILURE;
    else if (h->connection != be64(connection) || (connection[10] && h->sequence <= be64(connection + 16))) r->code = INVALID_REQUEST;
    else {
        connection[10] = 1;
        put_be64(connection + 16, h->sequence);
        if (!built(h->type)) r->code = INVALID_REQUEST;
        else if ((r->code = body_fault(c, value.n)) == 0) {
            scopes s = usable(acl, needed(h->type), connection[8]);
            if (authorized(&s, c)) perform(b, &s, c, value, r);
            else r->code = NOT_AUTHORIZED;
        }
    }
}

static const uint8_t *acl_of(uint8_t *record, int64_t identity) {
    for (size_t i = 0; i < record[8]; i++)
        if (be64(acl_at(record, i)) == identity) return acl_at(record, i);
    return NULL;
}

/* Step 2; the comparison does not stop at the first difference. */
static int verifies(const uint8_t *acl, const message *m) {
    uint8_t digest[20], difference = 0;
    if (m->hmac.n != 20) return 0;
    plain_hmac(acl + 16, acl[8], m->command.at, m->command.n, digest);
    for (int i = 0; i < 20; i++) difference |= digest[i] ^ m->hmac.at[i];
    return difference == 0;
}

/* The reply to a whole message: its length. */
static size_t respond(const box *b, bytes data, bytes value, uint8_t *out) {
    message m = {0};
    if (!read_message(data, &m) || m.auth_type != 1 || !has(m.seen, 5) || !has(m.auth, 1) || !has(m.seen, 7))
        return close_with(CONNECTION_TERMINATED, b->connection, out);
    const uint8_t *acl = acl_of(b->record, m.identity);
    if (!acl || !verifies(acl, &m)) return close_with(HMAC_FAILURE, b->connection, out);
    uint8_t key[64]; /* SECURITY may replace it before the reply is signed */
    size_t key_len = acl[8];
    memcpy(key, acl + 16, 64);
    table t;
    command c = {.table = &t};
    result r;
    r.code = INVALID_REQUEST;
    r.number = 0;
    r.n = 0;
    r.value = (bytes){0, 0};
    int decodes = read_command(m.command, &c);
    if (decodes) judge(b, acl, &c, value, &r);
    return reply(key, key_len, m.identity, b->connection, decodes && has(c.header.seen, 4) ? &c.header.sequence : NULL,
                 decodes && built(c.header.type) ? c.header.type - 1 : -1, &r, out);
}

/* ---- The calls */

uint32_t plain_answer(uint8_t *store, size_t store_len, uint8_t *record, uint8_t *connection, const uint8_t *readings, size_t readings_len,
                      const uint8_t *input, size_t input_len, uint8_t *out, size_t out_len, uint64_t *counts) {
    if (out_len < PLAIN_ROOM) return OUT_SHORT;
    int used = check(store, store_len);
    if (used < 0) return STORE_BAD;
    if (!record_good(record)) return DEVICE_BAD;
    if (connection[9]) return CLOSED;
    if (input_len == 0) return MORE;
    /* What is not there yet counts as zero: the least that it may become. */
    uint8_t head[9] = {0};
    memcpy(head, input, input_len < 9 ? input_len : 9);
    size_t m = be32(head + 1), v = be32(head + 5);
    int closes = head[0] != 0x46 || m > MOST_MESSAGE || v > MOST_VALUE;
    if (!closes && input_len < 9 + m + v) return MORE;
    if (!readings_good(readings, readings_len)) return READINGS_BAD;
    if (closes) {
        counts[0] = input_len;
        counts[1] = close_with(CONNECTION_TERMINATED, connection, out);
        return 0;
    }
    box b = {store, store_len, (size_t)used, record, connection, readings};
    counts[0] = 9 + m + v;
    counts[1] = respond(&b, (bytes){input + 9, m}, (bytes){input + 9 + m, v}, out);
    return 0;
}

uint32_t plain_format(uint8_t *store, size_t store_len, uint8_t *record, const uint8_t *key, size_t key_len) {
    if (!store_length_good(store_len)) return STORE_BAD;
    if (key_len < 1 || key_len > 64) return KEY_BAD;
    memset(store, 0, store_len);
    memset(record, 0, PLAIN_RECORD);
    record[8] = 1;
    uint8_t *acl = acl_at(record, 0);
    put_be64(acl, 1);
    acl[8] = (uint8_t)key_len;
    acl[9] = 1;
    memcpy(acl + 16, key, key_len);
    acl[82] = PERMISSIONS >> 8;
    acl[83] = PERMISSIONS & 255;
    return 0;
}

void plain_connect(uint8_t *connection, int64_t number, uint8_t protected_) {
    memset(connection, 0, PLAIN_CONNECTION);
    put_be64(connection, number);
    connection[8] = protected_ != 0;
}

uint32_t plain_find(const uint8_t *store, size_t store_len, const uint8_t *key, size_t key_len, uint64_t *part) {
    int used = check(store, store_len);
    if (used < 0) return 2;
    bytes k = {key, key_len};
    size_t i = below(store, (size_t)used, k);
    if (!is_at(store, (size_t)used, i, k)) return 1;
    part[0] = i * BLOCK + 120;
    part[1] = value_len(store + i * BLOCK);
    return 0;
}

uint32_t plain_rescue(uint8_t *store, size_t store_len, uint8_t *report, size_t report_len) {
    if (!store_length_good(store_len)) return STORE_BAD;
    if (report_len != store_len / BLOCK) return REPORT_BAD;
    uint8_t sorted[MOST_BLOCKS];
    size_t kept = 0;
    for (size_t i = 0; i < report_len; i++) {
        report[i] = found_alone(store + i * BLOCK);
        if (report[i] != KEPT) continue;
        if (insert(store, sorted, kept, i)) kept++;
        else report[i] = KEY_TWICE;
    }
    arrange(store, sorted, kept, report);
    memset(store + kept * BLOCK, 0, store_len - kept * BLOCK);
    return 0;
}
