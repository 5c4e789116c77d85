/* Ridgeladle: a proved Kinetic 3.1.0 storage box, as calls over lent bytes.

   The box keeps nothing between calls: the host lends the store, the device record, the connection and its readings to each call. A call always
   returns, takes no memory from the heap and calls nothing outside but memcpy and memset. What each call answers, and every lent
   byte after it, is proved for every input; the contracts stand in crates/c_abi_c/src/lib.rt.

   The host guarantees only this:
   - each pointer has at least the bytes that are stated of it. NULL is fine where a length is passed beside it and is 0;
   - counts and part are aligned as uint64_t is;
   - no two ranges lent to one call overlap, input and out in particular;
   - no other thread uses a lent range while the call runs.
   All else is judged by the call: any bytes may be lent.

   Link target/staticlib/libc_abi.a ('tests/staticlib' builds it), for x86-64 Linux. */
#ifndef RIDGELADLE_H
#define RIDGELADLE_H

#include <stddef.h>
#include <stdint.h>

#ifdef __cplusplus
extern "C" {
#endif

/* The version of this header and of what is installed with it: as text, and as 10,000 times the first number plus 100 times the second plus the third. */
#define RIDGELADLE_VERSION "1.0.0"
#define RIDGELADLE_VERSION_NUMBER 10000

/* The number of the version that a program was compiled with, for programs that can't use the macro. */
static inline uint32_t ridgeladle_version(void) { return RIDGELADLE_VERSION_NUMBER; }

enum {
    RIDGELADLE_BLOCK = 512,      /* a store is 1 to 128 blocks */
    RIDGELADLE_RECORD = 2960,    /* bytes of a device record */
    RIDGELADLE_CONNECTION = 32,  /* bytes of a connection */
    RIDGELADLE_READINGS = 134,   /* bytes of the host's readings */
    RIDGELADLE_REPLY = 4096,     /* the least length of a reply buffer; no reply is longer */
    RIDGELADLE_DIGEST = 20
};

/* Refusals, in the order in which they are judged. A refusal writes no lent byte at all. */
enum {
    RIDGELADLE_OUT_SHORT = 1,  /* reply buffer under 4,096 bytes */
    RIDGELADLE_STORE_BAD = 2,  /* store not 1 to 128 blocks of 512, or a block rule broken */
    RIDGELADLE_DEVICE_BAD = 3, /* device record breaks an ACL rule */
    RIDGELADLE_CLOSED = 4,     /* this connection was closed */
    RIDGELADLE_MORE = 5,       /* the input, possibly empty, is a proper start of a frame: call again with more behind it */
    RIDGELADLE_KEY_BAD = 6,    /* format only: key not 1 to 64 bytes */
    RIDGELADLE_READINGS_BAD = 7, /* readings not 134 bytes, over four temperatures or two utilizations, or a name not 1 to 16 bytes */
    RIDGELADLE_REPORT_BAD = 8  /* rescue only: report not one byte for each block */
};

/* What a rescue reports of a block: the first of 0, 2, 3 and 4 that applies, else 1. */
enum {
    RIDGELADLE_BLOCK_BLANK = 0,       /* 512 zero bytes */
    RIDGELADLE_BLOCK_KEPT = 1,        /* meets every block rule but order */
    RIDGELADLE_BLOCK_CHECK_WRONG = 2, /* bytes 508-511 are not its sum, whatever else is wrong */
    RIDGELADLE_BLOCK_RULE_BROKEN = 3, /* its sum is right, another block rule is broken */
    RIDGELADLE_BLOCK_KEY_TWICE = 4    /* it meets the rules, but a kept block before it has its key */
};

/* Numbers in lent bytes are big-endian, identities, connection numbers and sequences 64-bit two's complement.

   Store: blocks of 512 bytes, used ones first, their keys ascending; document 01, "Blocks". A blank block is 512 zero bytes.

   Device record: 0-7 cluster version, 8 number of ACLs, 9-15 not used, then eight ACL places of 368 bytes.
   ACL place: 0-7 identity, 8 key length, 9 number of scopes, 10-15 not used, 16-79 key, then four scope places of 72 bytes.
   Scope place: 0 offset, 1 value length, 2-3 permission mask (bit p for permission p), 4 TlsRequired (not zero: yes), 5-7 not used,
   8-71 value. What is not used is not looked at; it is written as zero, but SETUP writes bytes 0-7 alone.

   Connection: 0-7 number, 8 protected, 9 closed, 10 seen: a sequence was accepted (each: not zero is yes), 11-15 not used,
   16-23 last accepted sequence, 24-31 not used. What is not used is not looked at.

   Readings, what the host measured for GETLOG: 0 number of temperatures (0 to 4), 1 number of utilizations (0 to 2), then six reading
   places of 22 bytes: four for temperatures, from byte 2, and two for utilizations, from byte 90.
   Reading place: 0 unit of a temperature (0 Celsius, not zero Fahrenheit; of a utilization not looked at), 1 name length (1 to 16),
   2-17 name (any bytes), 18-21 value, an IEEE 754 binary32. Places past a number, and bytes of a name past its length, are not looked at.
   Temperatures are sent as Celsius. A value that is not finite as it would be sent is left out of the log, and its name is sent.
   134 zero bytes lend no reading. */

/* Makes the device record and a store of blank blocks: identity 1 has the key and every permission, the cluster version is 0.
   store_len is the store's length, key_len the key's. Old contents do not matter.
   0 made, and every byte of store and record is written; or STORE_BAD, for the store's length alone, else KEY_BAD. */
uint32_t ridgeladle_format(uint8_t *store, size_t store_len, uint8_t *record, const uint8_t *key, size_t key_len);

/* A new connection: its number, protected or not (not zero: yes), on which no sequence was seen yet. All 32 bytes are written, protected
   as 0 or 1, what is not used as zero. */
void ridgeladle_connect(uint8_t *connection, int64_t number, uint8_t protected_);

/* Answers the input on a connection. The readings are only read.
   0 answered: the reply stands in the first counts[1] bytes of out, and the rest of out is as it was; the first counts[0] bytes of the
   input are taken: pass what follows them with the next call. Of store and record what the request changes is written. Of the connection
   only what changes is written: byte 9 becomes 1 on closing; byte 10 becomes 1 and 16-23 the sequence when one is accepted; no other
   byte of it ever changes. A closing reply is answered with 0 too: send it, then close.
   Else refusal 1 to 5 or 7; 7 is judged on every call that would be answered, not for GETLOG alone. */
uint32_t ridgeladle_answer(uint8_t *store, size_t store_len, uint8_t *record, uint8_t *connection, const uint8_t *readings, size_t readings_len,
                           const uint8_t *input, size_t input_len, uint8_t *out, size_t out_len, uint64_t *counts /* [2]: taken, written */);

/* Local read, for the box's own display: where the value under a key lies.
   0 found: part[0] is the value's offset in the store, 120 after its block's, part[1] its length. Or 1 not found, also for a key that is not 1 to 64 bytes.
   Or 2, STORE_BAD, judged first. part is written only where found. */
uint32_t ridgeladle_find(const uint8_t *store, size_t store_len, const uint8_t *key, size_t key_len,
                         uint64_t *part /* [2]: offset, length */);

/* Rescue of a damaged store: the blocks that meet every block rule but order are kept, of equal keys the one that stood first; all others
   are blanked. report_len is the number of blocks, store_len / 512.
   0 done: the kept blocks stand first in the store, as they were, byte for byte, their keys ascending; every byte after them is zero. So
   every call takes the store from here on. Every byte of the report is written: byte i is what was found of block i as the store was lent.
   Old contents of the report do not matter. Or STORE_BAD, for the store's length alone, else REPORT_BAD. */
uint32_t ridgeladle_rescue(uint8_t *store, size_t store_len, uint8_t *report, size_t report_len);

/* SHA-1 (FIPS 180-4). 0 and the 20 bytes of the digest; or 1 for a text of 2^61 bytes or more, and nothing is written. */
uint32_t ridgeladle_sha1(const uint8_t *text, size_t text_len, uint8_t *digest);

/* HMAC-SHA1 (RFC 2104). 0 and the 20 bytes of the digest; or 1 for a key over 128 bytes, else 2 for a text over 1,048,576 bytes, and
   nothing is written. */
uint32_t ridgeladle_hmac(const uint8_t *key, size_t key_len, const uint8_t *text, size_t text_len, uint8_t *digest);

#ifdef __cplusplus
}
#endif

#endif
