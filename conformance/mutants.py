#!/usr/bin/env python3
"""mutants.py [--every] [--only WORDS] [--source FILE..] : shows that the kit catches wrong boxes.

Plants a fault at a time in the plain C box (bench/box.c, bench/sha1.c), builds it, and plays the kit's calls on it until it differs from the model. Prints
where each was caught, and ends with 1 where one was not.

  --every     instead of the faults listed here: each number one more and one less, each comparison, each `&&`, `||` and `!` another, a fault at a time.
              Those that are not caught are to be read: a fault that changes nothing can't be caught.
  --only WORDS  the faults whose names have these words
"""
import argparse
import collections
import pathlib
import re
import signal
import subprocess
import sys
import time

import box
import run

TOP = run.TOP
PLACE = TOP / "target" / "conformance" / "mutants"

# Where a field of an ACL and of a Scope is judged to be listed, and to come once.
ONCE = "        if (!next(&m, &f) || f.number > 4 || has(seen, f.number)) return 0;\n        if (f.number == 1) {\n            if (!read_number(&f, &seen, "
INSIDE_ACL, INSIDE_SCOPE = ONCE + "&identity)", ONCE + "&offset)"


def kept(line, what, when):
    """A line of a reader that leaves what was read before, on a condition."""
    return line.replace("good = ", f"{{ int64_t was = {what}; int keep = {when}; good = ").replace(" break;", f" if (keep) {what} = was; }} break;")


def if_later(line, number):
    """A line of a reader whose failure is forgiven where the same field comes again."""
    return line.replace(" break;", f" for (bytes rest = m; !good && rest.n && next(&rest, &f);) good = f.number == {number}; break;")


def if_last(number, refused):
    """A part of a command in which a refused-if-present field is looked for in the last occurrence alone."""
    return ("{ int later = 0, there = 0; field g = {0}; for (bytes rest = m; rest.n && next(&rest, &g);) later |= g.number == %d; "
            "for (bytes rest = f.data; f.wire == 2 && rest.n && next(&rest, &g);) there |= g.number == %d; good = later && there || " % (number, refused))


HEADER_READ, BODY_READ = "case 1: good = f.wire == 2 && read_header(f.data, &c->header); break;", "case 2: good = f.wire == 2 && read_body(f.data, c); break;"
TYPE_READ, KEY_READ = "case 7: good = read_small(&f, &h->seen, &h->type); break;", "case 3: good = read_bytes(&f, &v->seen, &v->key); break;"
SEQUENCE_READ, MOST_READ = "case 4: good = read_number(&f, &h->seen, &h->sequence); break;", "case 5: good = read_small(&f, &r->seen, &r->most); break;"
PRIORITY_READ, AUTH_TYPE_READ = ("case 12: good = read_enum(&f, &h->seen, &unused, PRIORITIES); break;",
                                 "case 4: good = read_small(&f, &to->seen, &to->auth_type); break;")
KEYVALUE_READ, RANGE_READ, SETUP_READ, LOG_READ = ("read_key_value(f.data, &c->key_value); break;", "read_range(f.data, &c->range); break;",
                                                   "read_setup(f.data, &c->setup); break;", "read_log(f.data, &c->log); break;")
AUTH_READ, COMMAND_READ = "case 5: good = met(&f, 2, &to->seen) && read_auth(f.data, to); break;", "case 7: good = read_bytes(&f, &to->seen, &to->command);"
SECURITY_READ = "case 7: good = !has(c->body, 7) && met(&f, 2, &c->body) && read_security(f.data, c->table); break;"

THREE = "(h->type == GETNEXT || h->type == GETPREVIOUS || h->type == GETKEYRANGE)"
NEXT_FITS = "while (i < b->used && !fits(s, key_at(b->store, i))) i++;\n        found = i < b->used;"
PREVIOUS_FITS = "while (i > 0 && !fits(s, key_at(b->store, i - 1))) i--;\n        found = i-- > 0;"
USABLE, AUTHORIZED = "            scopes s = usable(acl, needed(h->type), connection[8]);\n", "if (authorized(&s, c)) perform(b, &s, c, value, r);"

# Each fault: what is wrong with the box, and an edit of its source.
FAULTS = [
    ("a tag of 33 is accepted", "v->tag.n <= 32 &&", "v->tag.n <= 33 &&"),
    ("SECURITY resets the cluster version", "memcpy(b->record + 8, c->table->record + 8, PLAIN_RECORD - 8);",
     "memcpy(b->record, c->table->record, PLAIN_RECORD);"),
    ("ten permissions are accepted", "count > 9", "count > 10"),
    ("a newVersion of 17 is accepted", "v->new_version.n <= 16", "v->new_version.n <= 17"),
    ("a dbVersion of 17 is accepted", "v->db_version.n <= 16", "v->db_version.n <= 17"),
    ("a key of 65 is accepted", "v->key.n <= 64", "v->key.n <= 65"),
    ("an empty key is accepted", "v->key.n >= 1 &&", ""),
    ("a value of 385 is accepted", "PUT ? 384 : 0", "PUT ? 385 : 0"),
    ("a value part on a GET is accepted", "PUT ? 384 : 0", "PUT ? 384 : 1"),
    ("metadataOnly on DELETE is accepted", "(type == PUT || type == DELETE) && v->metadata_only", "type == PUT && v->metadata_only"),
    ("the tag is judged on PUT alone", "v->tag.n <= 32", "(v->tag.n <= 32 || type != PUT)"),
    ("an equal sequence is accepted", "h->sequence <= be64(connection + 16)", "h->sequence < be64(connection + 16)"),
    ("sequences are compared without sign", "h->sequence <= be64(connection + 16)", "(uint64_t)h->sequence <= (uint64_t)be64(connection + 16)"),
    ("SECURITY's reply is signed with the new key", "return reply(key, key_len,", "return reply(acl + 16, acl[8],"),
    ("permission from one scope, fit from another", "if (mask_of(scope) >> permission & 1 &&",
     "int any = 0; for (size_t j = 0; j < acl[9]; j++) any |= mask_of(scope_at(acl, j)) >> permission & 1;\n        if (any &&"),
    ("the value anywhere in the key", "(offset + n <= key.n && same(key.at + offset, scope + 8, n))) return 1;",
     "0) return 1;\n        for (; offset + n <= key.n; offset++) if (same(key.at + offset, scope + 8, n)) return 1;"),
    ("batchID is skipped", "case 14: good = 0; break;", "case 14: good = 1; break;"),
    ("a field of Body that is refused is skipped", "        case 9:\n        case 10: good = 0;\n", "        case 9: good = 0;\n"),
    ("keys in a request's range are skipped", "case 8: good = 0; break;", "case 8: good = 1; break;"),
    ("firmwareDownload is skipped", "if (!next(&m, &f) || f.number == 5) return 0;", "if (!next(&m, &f)) return 0;"),
    ("an unlisted field of an ACL is skipped", INSIDE_ACL,
     INSIDE_ACL.replace("f.number > 4 || has(seen, f.number)) return 0;", "(f.number <= 4 && has(seen, f.number))) return 0;\n        if (f.number > 4) continue;")),
    ("an unlisted field of a Scope is skipped", INSIDE_SCOPE,
     INSIDE_SCOPE.replace("f.number > 4 || has(seen, f.number)) return 0;", "(f.number <= 4 && has(seen, f.number))) return 0;\n        if (f.number > 4) continue;")),
    ("an unlisted field of a Setup is refused", "if (f.number == 1 && !read_number(&f, &s->seen, &s->cluster)) return 0;",
     "if (f.number != 1 || !read_number(&f, &s->seen, &s->cluster)) return 0;"),
    ("an unlisted field of a Message with a high number is refused", "if (!read_varint(m, &tag) || tag >> 32 || tag < 8) return 0;",
     "if (!read_varint(m, &tag) || tag >> 31 || tag < 8) return 0;"),
    ("tags of more than 32 bits", "tag >> 32 || tag < 8", "tag < 8"),
    ("field number 0", "tag >> 32 || tag < 8", "tag >> 32"),
    ("wire type 5 is refused", "case 5: n = 4; break;", ""),
    ("wire type 3 is skipped", "default: return 0;\n    }\n    if (n > m->n)", "case 3: break;\n    default: return 0;\n    }\n    if (n > m->n)"),
    ("a tenth byte of 3", "i == 9 && b > 1", "i == 9 && b > 3"),
    ("varints of nine bytes at most", "i < m->n && i < 10", "i < m->n && i < 9"),
    ("a listed field with another wire type", "return f->wire == wire;", "return 1;"),
    ("an int32 is cut to its low half", "return read_number(f, seen, to) && *to >= INT32_MIN && *to <= INT32_MAX;",
     "int good = read_number(f, seen, to); *to = (int32_t)*to; return good;"),
    ("a bool is its low half", "*to = f->value != 0;", "*to = (uint32_t)f->value != 0;"),
    ("priority is not looked at", "#define PRIORITIES 0x2aau", "#define PRIORITIES 0xffffffffu"),
    ("algorithm 7", "#define ALGORITHMS 0x7eu", "#define ALGORITHMS 0xfeu"),
    ("synchronization 0", "#define SYNCHRONIZATIONS 0xeu", "#define SYNCHRONIZATIONS 0xfu"),
    ("permission 6", "#define PERMISSIONS 0x3bfu", "#define PERMISSIONS 0x3ffu"),
    ("a length is cut to its low half", "if (n > m->n) return 0;", "if ((uint32_t)n > m->n) return 0;\n    n = (uint32_t)n;"),
    ("nine ACLs", "if (t->record[8] == 8) t->good = 0;\n", "if (t->record[8] == 8) return 1;\n"),
    ("no ACL at all", "if (t->record[8] == 0) t->good = 0;", ""),
    ("a fifth scope is dropped", "if (scopes == 4) t->good = 0;", "if (scopes == 4) continue;"),
    ("an ACL without identity is identity 0", "if (!has(seen, 1) || key.n < 1", "if (key.n < 1"),
    ("equal identities", "if (same(other, to, 8)) t->good = 0;", "(void)other;"),
    ("an ACL's key of 65", "key.n > 64 || scopes < 1", "key.n > 65 || scopes < 1"),
    ("an ACL's empty key", "key.n < 1 || key.n > 64 ||", "key.n > 64 ||"),
    ("a negative offset is 0", "offset < 0 || offset > 64", "offset > 64"),
    ("an offset of 65", "offset > 64 ||", "offset > 65 ||"),
    ("a scope's value of 65", "value.n > 64) *good", "value.n > 65) *good"),
    ("hmacAlgorithm before the ACL rules", "if (!has(c->body, 7) || !c->table->good) return INVALID_REQUEST;\n        return c->table->sha1 ? 0 : NO_SUCH_HMAC_ALGORITHM;",
     "if (!has(c->body, 7)) return INVALID_REQUEST;\n        return !c->table->sha1 ? NO_SUCH_HMAC_ALGORITHM : c->table->good ? 0 : INVALID_REQUEST;"),
    ("hmacAlgorithm after the permission", "return c->table->sha1 ? 0 : NO_SUCH_HMAC_ALGORITHM;", "return 0;"),
    ("nineteen bytes of the hmac are compared", "for (int i = 0; i < 20; i++) difference", "for (int i = 0; i < 19; i++) difference"),
    ("an hmac of 21 bytes", "if (m->hmac.n != 20) return 0;", "if (m->hmac.n < 20) return 0;"),
    ("an unknown identity has another code", "if (!acl || !verifies(acl, &m)) return close_with(HMAC_FAILURE",
     "if (!acl) return close_with(CONNECTION_TERMINATED, b->connection, out);\n    if (!verifies(acl, &m)) return close_with(HMAC_FAILURE"),
    ("authType 2", "m.auth_type != 1", "m.auth_type < 1 || m.auth_type > 2"),
    ("HMACauth without identity is identity 0", "!has(m.seen, 5) || !has(m.auth, 1)", "!has(m.seen, 5)"),
    ("no commandBytes are empty ones", "|| !has(m.auth, 1) || !has(m.seen, 7)", "|| !has(m.auth, 1)"),
    ("a wrong frame takes one byte", "counts[0] = input_len;", "counts[0] = 1;"),
    ("everything is taken", "counts[0] = 9 + m + v;", "counts[0] = input_len;"),
    ("the value part is not taken", "counts[0] = 9 + m + v;", "counts[0] = 9 + m;"),
    ("a message of 8,193", "m > MOST_MESSAGE", "m > MOST_MESSAGE + 1"),
    ("a value of 1,025", "v > MOST_VALUE", "v > MOST_VALUE + 1"),
    ("a length is judged when it is whole", "    int closes = head[0] != 0x46 ||",
     "    if (input_len < 9 && head[0] == 0x46) return MORE;\n    int closes = head[0] != 0x46 ||"),
    ("no input closes", "if (input_len == 0) return MORE;", ""),
    ("CLOSED after MORE", "if (connection[9]) return CLOSED;\n    if (input_len == 0) return MORE;",
     "if (input_len == 0) return MORE;\n    if (connection[9]) return CLOSED;"),
    ("the record before the store", "if (used < 0) return STORE_BAD;\n    if (!record_good(record)) return DEVICE_BAD;",
     "if (!record_good(record)) return DEVICE_BAD;\n    if (used < 0) return STORE_BAD;"),
    ("a reply buffer of 4,095", "out_len < PLAIN_ROOM", "out_len < PLAIN_ROOM - 1"),
    ("a store of 129 blocks", "MOST_STORE = MOST_BLOCKS * BLOCK", "MOST_STORE = (MOST_BLOCKS + 1) * BLOCK"),
    ("a block's sum is not looked at", "sum(b) == be32(b + 508)", "1"),
    ("bytes after a value are not looked at", "zeros(b + 120 + n, 388 - n)", "zeros(b + 504, 4)"),
    ("byte 7 of a block is not looked at", "b[6] > 6 || b[7]", "b[6] > 6"),
    ("equal keys in a store", "key_at(store, used)) >= 0) return -1;", "key_at(store, used)) > 0) return -1;"),
    ("blank blocks are not looked at", "return zeros(store + used * BLOCK, len - used * BLOCK) ? (int)used : -1;", "return (int)used;"),
    ("a prefix equals the longer key", "return c ? c : (a.n > b.n) - (a.n < b.n);", "return c;"),
    ("keys are compared with sign", "int c = n ? memcmp(a.at, b.at, n) : 0;",
     "int c = 0;\n    for (size_t i = 0; i < n && !c; i++) c = (signed char)a.at[i] - (signed char)b.at[i];"),
    ("a permission bit above 9 in the record", "mask && !(mask & ~PERMISSIONS)", "mask & PERMISSIONS"),
    ("equal identities in the record", "if (same(acl, acl_at(record, j), 8)) return 0;",
     "if (same(acl, acl_at(record, j), 7) && acl == acl_at(record, j)) return 0;"),
    ("TlsRequired is not looked at", "(is_protected || !scope[4])", "1"),
    ("SETUP needs a scope with an empty value", "    default: return s->count > 0;",
     "    case SETUP: return fits(s, (bytes){NULL, 0});\n    default: return s->count > 0;"),
    ("an empty scope value fits only below its offset", "n == 0 || (offset + n <= key.n", "(offset + n <= key.n"),
    ("the connection is judged before the cluster", "else if (h->cluster != be64(b->record)) r->code = VERSION_FAILURE;",
     "else if (h->connection == be64(connection) && h->cluster != be64(b->record)) r->code = VERSION_FAILURE;"),
    ("an absent clusterVersion is any", "else if (h->cluster != be64(b->record))", "else if (has(h->seen, 1) && h->cluster != be64(b->record))"),
    ("a sequence counts only on success", "        connection[10] = 1;\n        put_be64(connection + 16, h->sequence);\n",
     "        uint8_t was[32];\n        memcpy(was, connection, 32);\n        connection[10] = 1;\n        put_be64(connection + 16, h->sequence);\n        if (!built(h->type)) memcpy(connection, was, 32);\n"),
    ("the first sequence must be above 0", "(connection[10] && h->sequence <= be64(connection + 16))", "(h->sequence <= be64(connection + 16))"),
    ("type -1 on every failure", "decodes && built(c.header.type) ? c.header.type - 1 : -1",
     "decodes && r.code != 7 && built(c.header.type) ? c.header.type - 1 : -1"),
    ("no field 6 on a failure", "decodes && has(c.header.seen, 4) ?", "decodes && r.code != 6 && has(c.header.seen, 4) ?"),
    ("field 6 only if not 0", "if (sequence) p = write_number(p, 6, *sequence);", "if (sequence && *sequence) p = write_number(p, 6, *sequence);"),
    ("GETNEXT gives the key itself", "i += (size_t)found;", ""),
    ("GETVERSION gives the key", "if (type == GETVERSION) p = write_unless_empty",
     "if (type == GETVERSION) p = write_bytes(p, 3, block + 8, block[1]), p = write_unless_empty"),
    ("metadataOnly is not looked at", "if (!v->metadata_only) r->value", "r->value"),
    ("an empty tag is sent", "p = write_unless_empty(p, 5,", "p = write_bytes(p, 5,"),
    ("algorithm 0 is sent", "if (block[6]) p = write_number", "p = write_number"),
    ("startKeyInclusive turned", "if (!g->start_inclusive &&", "if (g->start_inclusive &&"),
    ("the end is always inclusive", "if (g->end_inclusive &&", "if ("),
    ("reverse gives the first keys backward", "g->reverse ? --to : from++",
     "g->reverse ? ((int64_t)(to - from) > left ? (to = from + (size_t)left, --to) : --to) : from++"),
    ("maxReturned 33", "g->most <= MOST_KEYS", "g->most <= MOST_KEYS + 1"),
    ("maxReturned 0 means 32", "for (int64_t left = g->most;", "for (int64_t left = g->most ? g->most : 32;"),
    ("absent range keys are empty", "return has(g->seen, 1) && has(g->seen, 2) &&", "return"),
    ("an endKey of 65", "g->end.n <= 64", "g->end.n <= 65"),
    ("an empty range is left out", "    r->number = 2;\n", "    r->number = p == r->part ? 0 : 2;\n"),
    ("no empty keyValue in PUT's reply", "case PUT: r->code = put(b, &c->key_value, value); break;",
     "case PUT: r->code = put(b, &c->key_value, value); r->number = 0; break;"),
    ("NO_SPACE before the version", "if (!version_fits(v, found ? block : NULL)) return VERSION_MISMATCH;\n",
     "if (!found && b->used * BLOCK == b->len) return NO_SPACE;\n    if (!version_fits(v, found ? block : NULL)) return VERSION_MISMATCH;\n"),
    ("the last block is never used", "if (b->used * BLOCK == b->len) return NO_SPACE;", "if (b->used * BLOCK + BLOCK >= b->len) return NO_SPACE;"),
    ("a full store takes no PUT over an old entry", "    if (!found) {\n        if (b->used",
     "    if (b->used * BLOCK == b->len) return NO_SPACE;\n    if (!found) {\n        if (b->used"),
    ("force is not looked at", "return v->force || (v->db_version.n", "return (v->db_version.n"),
    ("a PUT without dbVersion is by force", "return v->force ||", "return v->force || !has(v->seen, 4) ||"),
    ("DELETE judges the version of a missing key", "return v->force ? SUCCESS : NOT_FOUND;",
     "return v->force ? SUCCESS : v->db_version.n ? VERSION_MISMATCH : NOT_FOUND;"),
    ("DELETE leaves what was there", "memset(b->store + (b->used - 1) * BLOCK, 0, BLOCK);", "b->store[(b->used - 1) * BLOCK] = 0;"),
    ("SETUP without a number sets 0", "if (has(c->setup.seen, 1)) put_be64", "put_be64"),
    ("SETUP needs a number", "case SETUP: return has(c->body, 3) ?", "case SETUP: return has(c->body, 3) && has(c->setup.seen, 1) ?"),
    ("NOOP needs READ", "    case NOOP:\n    case FLUSHALLDATA: return 1;\n    case GET:", "    case FLUSHALLDATA: return 1;\n    case GET:"),
    ("PEER2PEERPUSH is answered like NOOP", "    case NOOP:\n    case FLUSHALLDATA: return 1;\n    default: return 0;",
     "    case NOOP:\n    case 28:\n    case FLUSHALLDATA: return 1;\n    default: return 0;"),
    # keys that GETNEXT, GETPREVIOUS and GETKEYRANGE come upon
    ("neighbours: any key is shown", "while (i < b->used && !fits(s, key_at(b->store, i))) i++;", ""),
    ("neighbours: any key before is shown", "while (i > 0 && !fits(s, key_at(b->store, i - 1))) i--;", ""),
    ("neighbours: only the nearest is looked at", NEXT_FITS, "found = i < b->used && fits(s, key_at(b->store, i));"),
    ("neighbours: only the nearest before is looked at", PREVIOUS_FITS, "found = i-- > 0 && fits(s, key_at(b->store, i));"),
    ("neighbours: the nearest twenty are looked at", "while (i < b->used && !fits(s, key_at(b->store, i))) i++;\n        found = i < b->used;",
     "size_t from = i;\n        while (i < b->used && !fits(s, key_at(b->store, i))) i++;\n        found = i < b->used && i < from + 20;"),
    ("neighbours: the farthest after", NEXT_FITS,
     "size_t from = i;\n        for (i = b->used; i > from && !fits(s, key_at(b->store, i - 1));) i--;\n        found = i-- > from;"),
    ("neighbours: the farthest before", PREVIOUS_FITS,
     "size_t to = i;\n        for (i = 0; i < to && !fits(s, key_at(b->store, i));) i++;\n        found = i < to;"),
    ("neighbours: the asked key is judged", "    case GET:\n    case GETVERSION:\n    case PUT:", "    case GET:\n    case GETNEXT:\n    case GETVERSION:\n    case PUT:"),
    ("neighbours: the asked key is judged, GETPREVIOUS", "    case GET:\n    case GETVERSION:\n    case PUT:",
     "    case GET:\n    case GETPREVIOUS:\n    case GETVERSION:\n    case PUT:"),
    ("neighbours: NOT_AUTHORIZED where none fits", "        found = i < b->used;\n    } else if",
     "        found = i < b->used;\n        if (!found && i) {\n            r->code = NOT_AUTHORIZED;\n            return;\n        }\n    } else if"),
    ("neighbours: an asked key that is not stored is not found", "        i += (size_t)found;\n", "        i = found ? i + 1 : b->used;\n"),
    ("neighbours: anybody may ask", "    default: return s->count > 0;", "    case GETNEXT: return 1;\n    default: return s->count > 0;"),
    ("range: anybody may ask", "    default: return s->count > 0;", "    case GETKEYRANGE: return 1;\n    default: return s->count > 0;"),
    ("GET is judged by the permission alone", "    case GET:\n    case GETVERSION:\n    case PUT:", "    case GETVERSION:\n    case PUT:"),
    ("range: any key is listed", "        if (!fits(s, key)) continue;\n", ""),
    ("range: the limit before the filter", "        if (!fits(s, key)) continue;\n", "        if (!fits(s, key)) {\n            left--;\n            continue;\n        }\n"),
    ("range: it ends at a key that doesn't fit", "        if (!fits(s, key)) continue;\n", "        if (!fits(s, key)) break;\n"),
    ("range: reverse is not filtered", "        if (!fits(s, key)) continue;\n", "        if (!g->reverse && !fits(s, key)) continue;\n"),
    ("range: filtered in reverse alone", "        if (!fits(s, key)) continue;\n", "        if (g->reverse && !fits(s, key)) continue;\n"),
    ("range: filtered by READ", USABLE, USABLE + "            if (h->type == GETKEYRANGE && s.count) s = usable(acl, READ_OK, connection[8]);\n"),
    ("range: by READ altogether", "case GETKEYRANGE: return RANGE_OK;", "case GETKEYRANGE: return READ_OK;"),
    ("neighbours: filtered by RANGE", USABLE,
     USABLE + "            if ((h->type == GETNEXT || h->type == GETPREVIOUS) && s.count) s = usable(acl, RANGE_OK, connection[8]);\n"),
    ("range: startKey is judged", "    default: return s->count > 0;", "    case GETKEYRANGE: return fits(s, c->range.start);\n    default: return s->count > 0;"),
    ("range: startKey and endKey are judged", "    default: return s->count > 0;",
     "    case GETKEYRANGE: return fits(s, c->range.start) && fits(s, c->range.end);\n    default: return s->count > 0;"),
    ("range: NOT_FOUND where no key is listed", "    r->number = 2;\n", "    r->number = 2;\n    if (p == r->part) r->code = NOT_FOUND;\n"),
    ("range: NOT_AUTHORIZED where no key is listed", "    r->number = 2;\n", "    r->number = 2;\n    if (p == r->part && g->most) r->code = NOT_AUTHORIZED;\n"),
    ("TlsRequired is not looked at in the filter", AUTHORIZED,
     "int may = authorized(&s, c);\n            if (" + THREE + ") s = usable(acl, needed(h->type), 1);\n            if (may) perform(b, &s, c, value, r);"),
    ("TlsRequired is looked at in the filter alone", AUTHORIZED,
     "int may = authorized(&s, c);\n            scopes any = usable(acl, needed(h->type), 1);\n            if (may || (" + THREE + " && any.count)) perform(b, &s, c, value, r);"),
    ("the permission from one scope, the fit of a key shown from another", AUTHORIZED,
     "int may = authorized(&s, c);\n            for (size_t i = s.count = 0; may && " + THREE + " && i < acl[9]; i++) s.at[s.count++] = scope_at(acl, i);\n"
     "            if (may) perform(b, &s, c, value, r);"),
    ("the first usable scope alone is looked at", "for (size_t i = 0; i < s->count; i++) {", "for (size_t i = 0; i < s->count && i < 1; i++) {"),
    ("three scopes are looked at", "for (size_t i = 0; i < acl[9]; i++) {\n        const uint8_t *scope = scope_at(acl, i);\n        if (mask_of",
     "for (size_t i = 0; i < acl[9] && i < 3; i++) {\n        const uint8_t *scope = scope_at(acl, i);\n        if (mask_of"),
    ("the permission before the body", "else if ((r->code = body_fault(c, value.n)) == 0) {",
     "else if (" + THREE + " && !usable(acl, needed(h->type), connection[8]).count) r->code = NOT_AUTHORIZED;\n"
     "        else if ((r->code = body_fault(c, value.n)) == 0) {"),
    # GETLOG and what is lent for it
    ("refusal 7 before MORE", "    if (!closes && input_len < 9 + m + v) return MORE;\n    if (!readings_good(readings, readings_len)) return READINGS_BAD;",
     "    if (!readings_good(readings, readings_len)) return READINGS_BAD;\n    if (!closes && input_len < 9 + m + v) return MORE;"),
    ("a frame that closes is answered with wrong readings", "if (!readings_good(readings, readings_len)) return READINGS_BAD;",
     "if (!closes && !readings_good(readings, readings_len)) return READINGS_BAD;"),
    ("five temperatures are cut to four", "readings[0] > MOST_TEMPERATURES ||", "readings[0] > MOST_TEMPERATURES + 1 ||"),
    ("three utilizations", "readings[1] > MOST_UTILIZATIONS)", "readings[1] > MOST_UTILIZATIONS + 1)"),
    ("an empty name", "if (n < 1 || n > MOST_NAME)", "if (n > MOST_NAME)"),
    ("a name of 17", "if (n < 1 || n > MOST_NAME)", "if (n < 1 || n > MOST_NAME + 1)"),
    ("names of utilizations are not looked at", "return names_good(readings, 0, readings[0]) && names_good(readings, MOST_TEMPERATURES, readings[1]);",
     "return names_good(readings, 0, readings[0]);"),
    ("places past a count are looked at", "return names_good(readings, 0, readings[0])", "return names_good(readings, 0, 4)"),
    ("readings of 135 bytes", "n != PLAIN_READINGS ||", "n < PLAIN_READINGS ||"),
    ("readings of 133 bytes", "n != PLAIN_READINGS ||", "n + 1 < PLAIN_READINGS || n > PLAIN_READINGS ||"),
    ("over 9 before times 5", "    float five_times = less * 5.0f;\n    float ninth = five_times / 9.0f;",
     "    float five_times = less / 9.0f;\n    float ninth = five_times * 5.0f;"),
    ("Fahrenheit in one rounding", "    float ninth = five_times / 9.0f;", "    float ninth = (float)(((double)x - 32) * 5 / 9);\n    (void)five_times;"),
    ("times 5/9", "    float ninth = five_times / 9.0f;", "    float ninth = less * (5.0f / 9.0f);\n    (void)five_times;"),
    ("Fahrenheit is sent as it is", "reading[0] ? celsius(bits) : bits", "bits"),
    ("unit 2 is Celsius", "reading[0] ? celsius(bits) : bits", "reading[0] == 1 ? celsius(bits) : bits"),
    ("a utilization has a unit", "p = write_reading(p, 2, reading, be32(reading + 18));",
     "p = write_reading(p, 2, reading, reading[0] ? celsius(be32(reading + 18)) : be32(reading + 18));"),
    ("an infinite value is sent", "if (is_finite(bits)) end", "if ((bits & 0x7fffffffu) <= 0x7f800000u) end"),
    ("a value that is no number is sent", "if (is_finite(bits)) end", "if ((bits & 0x7fffffffu) != 0x7f800000u) end"),
    ("a value is judged as it was lent", "p = write_reading(p, 3, reading, reading[0] ? celsius(bits) : bits);",
     "if (is_finite(bits) || 1) p = write_reading(p, 3, reading, reading[0] && is_finite(celsius(bits)) ? celsius(bits) : bits);"),
    ("a value of 0 is left out", "if (is_finite(bits)) end", "if (is_finite(bits) && bits) end"),
    ("-0.0 is sent as 0", "if (is_finite(bits)) end", "if (bits == 0x80000000u) bits = 0;\n    if (is_finite(bits)) end"),
    ("a subnormal is sent as 0", "if (is_finite(bits)) end", "if (!(bits & 0x7f800000u)) bits &= 0x80000000u;\n    if (is_finite(bits)) end"),
    ("an f32 is sent highest byte first", "(uint8_t)(bits >> 8 * i)", "(uint8_t)(bits >> (24 - 8 * i))"),
    ("a reading without a value has no name", "if (is_finite(bits)) end", "if (!is_finite(bits)) return p;\n    end"),
    ("portionFull counts blank blocks", "(float)b->used, blocks", "(float)(b->len / BLOCK), blocks"),
    ("portionFull of 128 blocks", "blocks = (float)(b->len / BLOCK)", "blocks = 128.0f"),
    ("a portionFull of 0 is left out", "    uint8_t *end = write_float(write_number(part, 4, (int64_t)b->len), 5, bits_of(portion));",
     "    uint8_t *end = write_number(part, 4, (int64_t)b->len);\n    if (b->used) end = write_float(end, 5, bits_of(portion));"),
    ("the capacity in blocks", "write_number(part, 4, (int64_t)b->len)", "write_number(part, 4, (int64_t)(b->len / BLOCK))"),
    ("the limits show a value of 1,024", "{2, 384}", "{2, 1024}"),
    ("NOT_FOUND before INVALID_REQUEST", "!(c->log.types & UNBUILT_TYPES) ?", "(c->log.types >> DEVICE & 1 || !(c->log.types & UNBUILT_TYPES)) ?"),
    ("NOT_FOUND before the permission", "case GETLOG: return c->log.types &&", "case GETLOG: return c->log.types == 1u << DEVICE ? NOT_FOUND : c->log.types &&"),
    ("no type is every type", "case GETLOG: return c->log.types &&", "case GETLOG: return has(c->body, 6) &&"),
    ("type 8 is skipped", "#define LOG_TYPES 0xffu", "#define LOG_TYPES 0x1ffu"),
    ("type 5 is answered", "#define UNBUILT_TYPES 0x38u", "#define UNBUILT_TYPES 0x18u"),
    ("a type twice is refused", "        g->types |= 1u << type;", "        if (g->types >> type & 1) return 0;\n        g->types |= 1u << type;"),
    ("a type twice takes itself back", "        g->types |= 1u << type;", "        g->types ^= 1u << type;"),
    ("an unlisted field of a GetLog is refused", "if (f.number != 1) continue;", "if (f.number != 1) return 0;"),
    ("an empty GetLog is left out", "    r->number = 6;\n", "    r->number = p == r->part ? 0 : 6;\n"),
    ("GETLOG by SETUP's permission", "case GETLOG: return GETLOG_OK;", "case GETLOG: return SETUP_OK;"),
    ("GETLOG by a scope that fits the empty key", "    default: return s->count > 0;",
     "    case GETLOG: return fits(s, c->key_value.key);\n    default: return s->count > 0;"),
    ("GetLog in another operation is refused", "if (value > (type == PUT ? 384 : 0)) return INVALID_REQUEST;",
     "if (value > (type == PUT ? 384 : 0) || (type != GETLOG && has(c->body, 6))) return INVALID_REQUEST;"),
    ("readings are written", "    box b = {store, store_len,", "    if (readings[0]) ((uint8_t *)readings)[2] = readings[2] != 0;\n    box b = {store, store_len,"),
    ("a byte after the readings is read", "    if (closes) {\n", "    if (closes || ((volatile const uint8_t *)readings)[readings_len] & 0) {\n"),
    # fields sent twice
    ("HMACauth twice is refused", AUTH_READ, AUTH_READ.replace("good = ", "good = !has(to->seen, 5) && ")),
    ("commandBytes twice are refused", COMMAND_READ, COMMAND_READ.replace("good = ", "good = !has(to->seen, 7) && ")),
    ("a header twice is refused", HEADER_READ, HEADER_READ.replace("good = ", "good = !c->header.seen && ")),
    ("a body twice is refused", BODY_READ, BODY_READ.replace("good = ", "good = !c->body && ")),
    ("a key twice is refused", KEY_READ, KEY_READ.replace("good = ", "good = !has(v->seen, 3) && ")),
    ("the first bytes count", "    *to = f->data;\n", "    if (!has(*seen, f->number)) *to = f->data;\n"),
    ("the first flag counts", "    *to = f->value != 0;\n", "    if (!has(*seen, f->number)) *to = f->value != 0;\n"),
    ("the first key counts", KEY_READ, KEY_READ.replace("good = ", "good = has(v->seen, 3) ? f.wire == 2 : ")),
    ("the first messageType counts", TYPE_READ, kept(TYPE_READ, "h->type", "has(h->seen, 7)")),
    ("the first sequence counts", SEQUENCE_READ, kept(SEQUENCE_READ, "h->sequence", "has(h->seen, 4)")),
    ("the larger sequence counts", SEQUENCE_READ, kept(SEQUENCE_READ, "h->sequence", "has(h->seen, 4) && h->sequence > (int64_t)f.value")),
    ("an empty later value is passed over", "    *to = f->data;\n", "    if (f->data.n || !has(*seen, f->number)) *to = f->data;\n"),
    ("a later maxReturned of 0 is passed over", MOST_READ, kept(MOST_READ, "r->most", "has(r->seen, 5) && !f.value")),
    ("a flag once true stays true", "    *to = f->value != 0;\n", "    *to = f->value != 0 || (has(*seen, f->number) && *to);\n"),
    ("the last header alone", HEADER_READ, HEADER_READ.replace("read_header", "(memset(&c->header, 0, sizeof c->header), 1) && read_header")),
    ("the last keyValue alone", KEYVALUE_READ, "(memset(&c->key_value, 0, sizeof c->key_value), 1) && " + KEYVALUE_READ),
    ("the last range alone", RANGE_READ, "(memset(&c->range, 0, sizeof c->range), 1) && " + RANGE_READ),
    ("the last setup alone", SETUP_READ, "(memset(&c->setup, 0, sizeof c->setup), 1) && " + SETUP_READ),
    ("the types of the last getLog alone", LOG_READ, "(memset(&c->log, 0, sizeof c->log), 1) && " + LOG_READ),
    ("the last body alone", BODY_READ, "case 2: memset(&c->key_value, 0, sizeof c->key_value); memset(&c->range, 0, sizeof c->range); c->log.types = 0;\n"
     "            memset(&c->setup, 0, sizeof c->setup); c->body &= 128; good = f.wire == 2 && read_body(f.data, c); break;"),
    ("the first body alone", BODY_READ, "case 2: { command other = *c; table t; other.table = &t; if (c->body) c = &other; }\n        " + BODY_READ[8:]),
    ("maxReturned of an earlier range is forgotten", "if (!has(r->seen, 5)) r->most = MOST_KEYS;", "r->most = MOST_KEYS;"),
    ("the hmac of the last HMACauth alone", AUTH_READ, AUTH_READ.replace("read_auth", "(to->hmac.n = 0, 1) && read_auth")),
    ("the identity of the last HMACauth alone", AUTH_READ, AUTH_READ.replace("read_auth", "(to->auth = 0, 1) && read_auth")),
    ("Security twice in one body", SECURITY_READ, SECURITY_READ.replace("!has(c->body, 7) && ", "")),
    ("Security twice where it is not used", SECURITY_READ,
     SECURITY_READ.replace("!has(c->body, 7)", "(!has(c->body, 7) || (has(c->header.seen, 7) && c->header.type != SECURITY))")),
    ("a second Security that is empty", SECURITY_READ, "case 7: if (has(c->body, 7) && f.wire == 2 && !f.data.n) break;\n        " + SECURITY_READ[8:]),
    ("Security in each of two bodies", BODY_READ,
     "case 2: { uint32_t was = c->body & 128; c->body &= ~128u; good = f.wire == 2 && read_body(f.data, c); c->body |= was; } break;"),
    *((f"{what} twice in an ACL", INSIDE_ACL, INSIDE_ACL.replace("has(seen,", f"has(seen & ~{1 << n}u,"))
      for n, what in ((1, "identity"), (2, "key"), (3, "hmacAlgorithm"))),
    *((f"{what} twice in a Scope", INSIDE_SCOPE, INSIDE_SCOPE.replace("has(seen,", f"has(seen & ~{1 << n}u,"))
      for n, what in ((1, "offset"), (2, "value"), (4, "TlsRequired"))),
    ("only the last header must decode", HEADER_READ, if_later(HEADER_READ, 1)),
    ("only the last body must decode", BODY_READ, if_later(BODY_READ, 2)),
    ("only the last HMACauth must decode", AUTH_READ, if_later(AUTH_READ, 5)),
    ("only the last priority must be named", PRIORITY_READ, if_later(PRIORITY_READ, 12)),
    ("only the last messageType must be in range", TYPE_READ, if_later(TYPE_READ, 7)),
    ("only the last authType must be in range", AUTH_TYPE_READ, if_later(AUTH_TYPE_READ, 4)),
    ("only the last key must have its wire type", KEY_READ, if_later(KEY_READ, 3)),
    ("batchID is looked for in the last header alone", HEADER_READ, HEADER_READ.replace("good = ", if_last(1, 14)).replace(" break;", " } break;")),
    ("power is looked for in the last body alone", BODY_READ, BODY_READ.replace("good = ", if_last(2, 10)).replace(" break;", " } break;")),
    ("a key that doesn't count is held to its limit", KEY_READ, KEY_READ.replace(
        " break;", " for (bytes rest = m; good && v->key.n > 64 && rest.n && next(&rest, &f);) good = f.number != 3; break;")),
    ("Message 6 twice is refused", "case 6: good = f.wire == 2; break;", "case 6: good = !has(to->seen, 6) && met(&f, 2, &to->seen); break;"),
    ("Command 3 twice is refused", "case 3: good = f.wire == 2;\n", "case 3: good = f.wire == 2 && !(c->body >> 31);\n            c->body |= 1u << 31;\n"),
    ("commandBytes are concatenated", COMMAND_READ,
     "case 7: {\n            static uint8_t all[8192];\n            static size_t n;\n            if (!has(to->seen, 7)) n = 0;\n"
     "            memcpy(all + n, f.data.at, f.wire == 2 ? f.data.n : 0);\n            n += f.wire == 2 ? f.data.n : 0;\n"
     "            good = read_bytes(&f, &to->seen, &to->command);\n            to->command = (bytes){all, n};\n        }"),
    ("the first commandBytes count", COMMAND_READ, "case 7: good = has(to->seen, 7) ? f.wire == 2 : read_bytes(&f, &to->seen, &to->command);"),
    ("earlier commandBytes must decode", COMMAND_READ, "case 7: {\n            table t;\n            command c = {.table = &t};\n"
     "            good = (!has(to->seen, 7) || read_command(to->command, &c)) && read_bytes(&f, &to->seen, &to->command);\n        }"),
    ("signed over the first commandBytes", "    if (!acl || !verifies(acl, &m)) return",
     "    message first = m;\n    field f = {0};\n    for (bytes rest = data; rest.n && next(&rest, &f) && f.number != 7;);\n    first.command = f.data;\n"
     "    if (!acl || !verifies(acl, &first)) return"),
    ("a header cut in two joins", HEADER_READ, HEADER_READ.replace(" break;", """
            if (!good && f.wire == 2) {
                static uint8_t all[8192];
                size_t n = 0;
                do {
                    if (f.number == 1 && f.wire == 2) memcpy(all + n, f.data.at, f.data.n), n += f.data.n;
                } while (m.n && next(&m, &f));
                good = read_header((bytes){all, n}, &c->header);
            }
            break;""")),
    # the four boxes of document 01
    ("always NOT_AUTHORIZED", "if (authorized(&s, c)) perform", "if (0) perform"),
    ("SUCCESS to all", "if (decodes) judge(b, acl, &c, value, &r);", "if (decodes) judge(b, acl, &c, value, &r);\n    r.code = SUCCESS;"),
    ("stores nothing", "    write_block(block, v, value);\n", ""),
    ("obeys the first message of a connection, then echoes SUCCESS", "if (decodes) judge(b, acl, &c, value, &r);",
     "if (decodes && !b->connection[10]) judge(b, acl, &c, value, &r);\n    else r.code = SUCCESS;"),
    # what the lent bytes show
    ("the rest of the reply buffer is cleared", "    return 9 + n + value.n;",
     "    memset(out + 9 + n + value.n, 0, 4096 - 9 - n - value.n);\n    return 9 + n + value.n;"),
    ("counts are written on a refusal", "if (out_len < PLAIN_ROOM) return OUT_SHORT;",
     "counts[0] = counts[1] = 0;\n    if (out_len < PLAIN_ROOM) return OUT_SHORT;"),
    ("the reply buffer is written on a refusal", "if (!closes && input_len < 9 + m + v) return MORE;",
     "if (!closes && input_len < 9 + m + v) { out[0] = 0x46; return MORE; }"),
    ("closing forgets the sequence", "    connection[9] = 1;\n", "    connection[9] = 1;\n    connection[10] = 0;\n"),
    ("byte 8 of the connection is put right", "        connection[10] = 1;\n", "        connection[10] = 1;\n        connection[8] = connection[8] != 0;\n"),
    ("SETUP clears what the record doesn't use", "if (has(c->setup.seen, 1)) put_be64(b->record, c->setup.cluster);",
     "if (has(c->setup.seen, 1)) put_be64(b->record, c->setup.cluster), memset(b->record + 9, 0, 7);"),
    ("the input is written", "    uint8_t head[9] = {0};\n", "    uint8_t head[9] = {0};\n    ((uint8_t *)input)[input_len - 1] ^= 1;\n"),
    ("a byte after the input is read", "    if (!closes && input_len < 9 + m + v) return MORE;",
     "    if (!closes && (input_len < 9 + m + v || ((volatile const uint8_t *)input)[input_len] & 0)) return MORE;"),
    ("a byte after the store is read", "    if (used < 0) return STORE_BAD;\n",
     "    if (used < 0 || ((volatile uint8_t *)store)[store_len] & 0) return STORE_BAD;\n"),
    ("a byte before the reply buffer is written", "    out[0] = 0x46;\n", "    out[0] = 0x46;\n    out[-1] = 0;\n"),
    ("it never comes back", "    int closes = head[0] != 0x46 ||", "    while (m == 8192 && v == 1024 && input_len > 9000);\n    int closes = head[0] != 0x46 ||"),
    ("it counts its calls", "    if (connection[9]) return CLOSED;\n", "    static int calls;\n    if (connection[9] || ++calls == 5000) return CLOSED;\n"),
    # the other calls
    ("format takes a key of 65", "if (key_len < 1 || key_len > 64) return KEY_BAD;", "if (key_len < 1 || key_len > 65) return KEY_BAD;"),
    ("format judges the key first", "if (!store_length_good(store_len)) return STORE_BAD;\n    if (key_len < 1 || key_len > 64) return KEY_BAD;",
     "if (key_len < 1 || key_len > 64) return KEY_BAD;\n    if (!store_length_good(store_len)) return STORE_BAD;"),
    ("format keeps old blocks", "memset(store, 0, store_len);", "store[0] = 0;"),
    ("format keeps old bytes of the record", "memset(record, 0, PLAIN_RECORD);", "memset(record, 0, 100);"),
    ("connect keeps old bytes", "memset(connection, 0, PLAIN_CONNECTION);", "memset(connection, 0, 24);"),
    ("connect keeps the flag as it came", "connection[8] = protected_ != 0;", "connection[8] = protected_;"),
    ("find writes where it finds nothing", "if (!is_at(store, (size_t)used, i, k)) return 1;",
     "if (!is_at(store, (size_t)used, i, k)) { part[1] = 0; return 1; }"),
    ("find gives the key's place", "part[0] = i * BLOCK + 120;", "part[0] = i * BLOCK + 8;"),
    ("find looks at the key first", "    int used = check(store, store_len);\n    if (used < 0) return 2;\n",
     "    if (key_len < 1 || key_len > 64) return 1;\n    int used = check(store, store_len);\n    if (used < 0) return 2;\n"),
    # rescue
    ("rescue judges the report's length first", "if (!store_length_good(store_len)) return STORE_BAD;\n    if (report_len != store_len / BLOCK) return REPORT_BAD;",
     "if (report_len != store_len / BLOCK) return REPORT_BAD;\n    if (!store_length_good(store_len)) return STORE_BAD;"),
    ("rescue takes a report of any length", "if (report_len != store_len / BLOCK) return REPORT_BAD;", "report_len = store_len / BLOCK;"),
    ("rescue takes a longer report", "if (report_len != store_len / BLOCK) return REPORT_BAD;",
     "if (report_len < store_len / BLOCK) return REPORT_BAD;\n    report_len = store_len / BLOCK;"),
    ("rescue looks at the low byte of the report's length", "if (report_len != store_len / BLOCK) return REPORT_BAD;",
     "report_len &= 255;\n    if (report_len != store_len / BLOCK) return REPORT_BAD;"),
    ("rescue clears a report of a wrong length", "if (report_len != store_len / BLOCK) return REPORT_BAD;",
     "if (report_len != store_len / BLOCK) {\n        memset(report, 0, report_len);\n        return REPORT_BAD;\n    }"),
    ("rescue clears the report of a store of a wrong length", "return STORE_BAD;\n    if (report_len != store_len / BLOCK)",
     "{\n        memset(report, 0, report_len);\n        return STORE_BAD;\n    }\n    if (report_len != store_len / BLOCK)"),
    ("rescue refuses a block rule with 2", "return STORE_BAD;\n    if (report_len != store_len / BLOCK)",
     "return STORE_BAD;\n    if (report_len && store[0] > 1) return STORE_BAD;\n    if (report_len != store_len / BLOCK)"),
    ("rescue keeps the later of equal keys", "for (size_t i = 0; i < report_len; i++) {", "for (size_t i = report_len; i-- > 0;) {"),
    ("rescue keeps neither of equal keys", "if (c == 0) return 0;\n        if (c < 0) from",
     "if (c == 0) {\n            memset((uint8_t *)store + sorted[middle] * BLOCK, 0, BLOCK);\n            return 0;\n        }\n        if (c < 0) from"),
    ("rescue keeps both of equal keys", "if (c == 0) return 0;\n        if (c < 0) from", "if (c <= 0) from"),
    ("rescue takes a prefix for an equal key", "int c = order(key_at(store, sorted[middle]), key);",
     "bytes other = key_at(store, sorted[middle]);\n        int c = memcmp(other.at, key.at, other.n < key.n ? other.n : key.n);"),
    ("rescue compares keys with what fills them", "int c = order(key_at(store, sorted[middle]), key);",
     "int c = memcmp(key_at(store, sorted[middle]).at, key.at, 64);"),
    ("rescue leaves the bytes of a blanked block", "memset(store + kept * BLOCK, 0, store_len - kept * BLOCK);",
     "for (size_t i = kept; i < report_len; i++) store[i * BLOCK] = 0;"),
    ("rescue leaves the last block as it was", "memset(store + kept * BLOCK, 0, store_len - kept * BLOCK);",
     "if (kept < report_len) memset(store + kept * BLOCK, 0, store_len - kept * BLOCK - BLOCK);"),
    ("rescue blanks a block too many", "memset(store + kept * BLOCK, 0, store_len - kept * BLOCK);",
     "kept -= kept == report_len;\n    memset(store + kept * BLOCK, 0, store_len - kept * BLOCK);"),
    ("rescue judges other rules before the check", "if (!sum_good(b)) return CHECK_WRONG;\n    return parts_good(b) ? KEPT : RULE_BROKEN;",
     "if (!parts_good(b)) return RULE_BROKEN;\n    return sum_good(b) ? KEPT : CHECK_WRONG;"),
    ("rescue takes a block with byte 0 zero for blank", "if (b[0] == 0 && zeros(b, BLOCK)) return WAS_BLANK;", "if (b[0] == 0) return WAS_BLANK;"),
    ("rescue takes a block for blank whose check alone is not zero", "if (b[0] == 0 && zeros(b, BLOCK)) return WAS_BLANK;",
     "if (b[0] == 0 && zeros(b, 508)) return WAS_BLANK;"),
    ("rescue reports blank blocks as broken", "if (b[0] == 0 && zeros(b, BLOCK)) return WAS_BLANK;", ""),
    ("rescue reports a key twice before another rule", "        if (report[i] != KEPT) continue;\n",
     "        for (size_t j = 0; j < kept; j++)\n            if (report[i] == RULE_BROKEN && order(key_at(store, sorted[j]), key_at(store, i)) == 0) report[i] = KEY_TWICE;\n"
     "        if (report[i] != KEPT) continue;\n"),
    ("rescue reports a key twice before a wrong check", "        if (report[i] != KEPT) continue;\n",
     "        for (size_t j = 0; j < kept; j++)\n            if (report[i] == CHECK_WRONG && order(key_at(store, sorted[j]), key_at(store, i)) == 0) report[i] = KEY_TWICE;\n"
     "        if (report[i] != KEPT) continue;\n"),
    ("rescue reports the key of a damaged block as twice", "        if (insert(store, sorted, kept, i)) kept++;\n",
     "        for (size_t j = 0; j < i; j++)\n            if (report[j] == CHECK_WRONG && order(key_at(store, j), key_at(store, i)) == 0) report[i] = KEY_TWICE;\n"
     "        if (report[i] == KEY_TWICE) continue;\n        if (insert(store, sorted, kept, i)) kept++;\n"),
    ("rescue reports the key of a broken block as twice", "        if (insert(store, sorted, kept, i)) kept++;\n",
     "        for (size_t j = 0; j < i; j++)\n            if (report[j] == RULE_BROKEN && order(key_at(store, j), key_at(store, i)) == 0) report[i] = KEY_TWICE;\n"
     "        if (report[i] == KEY_TWICE) continue;\n        if (insert(store, sorted, kept, i)) kept++;\n"),
    ("rescue reports by new place", "    arrange(store, sorted, kept, report);\n",
     "    arrange(store, sorted, kept, report);\n    memset(report, KEPT, kept);\n    memset(report + kept, WAS_BLANK, report_len - kept);\n"),
    ("rescue leaves the report of blank blocks", "report[i] = found_alone(store + i * BLOCK);",
     "if (found_alone(store + i * BLOCK) || report[i] == KEPT) report[i] = found_alone(store + i * BLOCK);"),
    ("rescue leaves the report of a store that is good", "    uint8_t sorted[MOST_BLOCKS];\n", "    if (check(store, store_len) >= 0) return 0;\n    uint8_t sorted[MOST_BLOCKS];\n"),
    ("rescue drops blocks out of order", "    size_t from = 0, to = count, middle = count - 1;\n",
     "    size_t from = 0, to = count, middle = count - 1;\n    if (count && order(key_at(store, sorted[count - 1]), key) > 0) return 0;\n"),
    ("rescue drops blocks after a blank one", "        if (report[i] != KEPT) continue;\n",
     "        if (i && report[i] == KEPT && report[i - 1] == WAS_BLANK) report[i] = RULE_BROKEN;\n        if (report[i] != KEPT) continue;\n"),
    ("rescue moves blocks over each other", "    arrange(store, sorted, kept, report);\n", "    for (size_t i = 0; i < kept; i++) move_block(store, i, sorted[i]);\n"),
    ("rescue loses the first block of a cycle", "        memcpy(store + last * BLOCK, first, BLOCK);\n", ""),
    ("rescue loses the last block while sorting", "if (insert(store, sorted, kept, i)) kept++;", "if (insert(store, sorted, kept, i)) kept += i + 1 < report_len;"),
    ("rescue loses what an insertion moves", "memmove(sorted + from + 1, sorted + from, count - from);", "if (from < count) sorted[count] = sorted[from];"),
    ("rescue returns the number of kept blocks", "memset(store + kept * BLOCK, 0, store_len - kept * BLOCK);\n    return 0;",
     "memset(store + kept * BLOCK, 0, store_len - kept * BLOCK);\n    return (uint32_t)kept;"),
    ("rescue reads a byte after the report", "if (report_len != store_len / BLOCK) return REPORT_BAD;",
     "if (report_len != store_len / BLOCK || ((volatile uint8_t *)report)[report_len] & 0) return REPORT_BAD;"),
    ("rescue writes a byte before the report", "    size_t kept = 0;\n", "    size_t kept = 0;\n    report[-1] = 0;\n"),
    ("rescue stops at 127 blocks", "for (size_t i = 0; i < report_len; i++) {", "for (size_t i = 0; i < report_len && i < 127; i++) {"),
]

NUMBER = r"(?<![\w.])(0x[0-9a-f]+|\d+)(u?)(?![\w.])"
OTHERS = [(r"<=", "<"), (r">=", ">"), (r"(?<![<>-])<(?![<=])", "<="), (r"(?<![<>-])>(?![>=])", ">="), (r"==", "!="), (r"!=", "=="), (r"&&", "||"),
          (r"\|\|", "&&"), (r"!(?!=)", "")]


def every(text):
    """Each small edit of a C source, but for comments and lines that include: a name, and the text with it."""
    hidden = re.sub(r"/\*.*?\*/|^#include.*?$", lambda m: re.sub(r"[^\n]", " ", m[0]), text, flags=re.S | re.M)
    for m in re.finditer(NUMBER, hidden):
        for step in (1, -1):
            n = int(m[1], 0) + step
            if n >= 0:
                yield place(text, m), f"{m[0]} becomes {n}", text[:m.start()] + f"{n}{m[2]}" + text[m.end():]
    for pattern, other in OTHERS:
        for m in re.finditer(pattern, hidden):
            yield place(text, m), f"{m[0]} becomes {other or 'nothing'}", text[:m.start()] + other + text[m.end():]


def place(text, m):
    line = text.count("\n", 0, m.start())
    return f"line {line + 1}: {text.splitlines()[line].strip()}"


def tape(calls):
    """The kit's calls in order, with what the model says of each: nothing in them depends on the box."""
    plan, made = run.Plan(1, calls, None), []
    for part in run.PARTS:
        index, count = 0, 0
        while (playing := plan.play(part, index)) is not None and not plan.enough(part, count):
            after = None
            while True:
                try:
                    call, _ = playing.send(after)
                except StopIteration:
                    break
                after = run.document.run(call)
                made.append((part, index, call, after))
                count += 1
            index += 1
    return plan, made


def caught(library, made):
    """The place of the first call on which a library differs; a string where it ended the process; None where it never differs."""
    def work():
        its = box.Library(library, "plain_")
        signal.alarm(20)
        return next((n for n, (_, _, call, after) in enumerate(made) if its.run(call) != after), None)
    return run.apart(work)


def build(sources, changed, text, name):
    """The library with one source changed, or None where it doesn't compile."""
    PLACE.mkdir(parents=True, exist_ok=True)
    file, library = PLACE / "changed.c", PLACE / f"{name}.so"
    file.write_text(text)
    others = [str(source) for source in sources if source != changed]
    done = subprocess.run(["cc", "-std=c99", "-w", "-ffp-contract=off", "-shared", "-fPIC", "-O0", f"-I{changed.parent}", "-o", str(library), str(file), *others],
                          capture_output=True)
    return library if done.returncode == 0 else None


def edits(sources):
    """The faults of the list: the source, a name, and its text with the edit."""
    for name, old, new in FAULTS:
        found = [source for source in sources if source.read_text().count(old) == 1]
        if not found:
            sys.exit(f"'{name}': its text is not exactly once in a source: {old}")
        yield found[0], "", name, found[0].read_text().replace(old, new)


def main():
    p = argparse.ArgumentParser(usage=__doc__)
    p.add_argument("--every", action="store_true")
    p.add_argument("--only", default="")
    p.add_argument("--source", nargs="+", type=pathlib.Path, default=[TOP / "bench" / "box.c", TOP / "bench" / "sha1.c"])
    p.add_argument("--slice", default="0/1", help=argparse.SUPPRESS)
    given = p.parse_args()
    started = time.monotonic()
    run.protobuf.installed()
    plan, made = tape(4000)
    if caught(build(given.source, given.source[0], given.source[0].read_text(), "plain"), made) is not None:
        sys.exit("the plain box itself differs from the model: run.py --library .. --prefix plain_ says where")
    tried = list(edits(given.source)) if not given.every else [(source, *edit) for source in given.source for edit in every(source.read_text())]
    first, step = map(int, given.slice.split("/"))
    counts = collections.Counter()
    for source, where, name, text in [edit for edit in tried if given.only in edit[2]][first::step]:
        library = build(given.source, source, text, f"mutant{first}")
        how = "doesn't compile" if library is None else caught(library, made)
        kind = "not caught" if how is None else "doesn't compile" if library is None else "ended the process" if isinstance(how, str) else f"caught by {made[how][0]}"
        counts[kind] += 1
        if not given.every or how is None:
            words = plan.name(*made[how][:2]).replace("\n ", " in") if isinstance(how, int) else how or "NOT CAUGHT"
            print(f"{name}{' in ' + where if where else ''}: {words}", flush=True)
    print(f"mutants: {sum(counts.values())} wrong boxes, " + ", ".join(f"{number} {kind}" for kind,
                                                                       number in sorted(counts.items())) + f", {time.monotonic() - started:.0f} s")
    return 1 if counts["not caught"] or (counts["doesn't compile"] and not given.every) else 0


if __name__ == "__main__":
    sys.exit(main())
