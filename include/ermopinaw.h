/*
 * Ermopinaw for C: reads MaxMind DB images that lie in memory.
 *
 * Every function is proved to answer as docs/SCOPE.md says, for every input: link libexports.a, which
 * `tools/staticlib` writes to target/staticlib (x86-64 Linux).
 *
 * What a caller owes, and nothing else:
 * - a pointer that comes with a length points to that many bytes (or words of 64 bits, aligned to 8), readable,
 *   and writable where it is not const; it is not NULL, even if the length is 0;
 * - the image does not change during a call, and the lent words (walk, rows, scratch) overlap neither the image
 *   nor each other.
 * Any bytes, words and numbers may be handed in, also handles, cursors, walks and scratch that no call gave.
 * Nothing is kept between calls, nothing is allocated, and no file is opened. Calls from many threads are fine.
 */
#ifndef ERMOPINAW_H
#define ERMOPINAW_H

#include <stddef.h>
#include <stdint.h>

#ifdef __cplusplus
extern "C" {
#endif

/* ---- The numbers ---------------------------------------------------------------------------------------------- */

/*
 * A status is ERM_OK, the number of a refusal (1 to 24), or one of the further answers below them.
 * The refusals of a call come in the order that its comment gives; the first that holds is the answer.
 */
enum {
    ERM_OK = 0,                    /* the call answers */
    ERM_NO_MARKER = 1,             /* no marker in the image */
    ERM_METADATA = 2,              /* the metadata can't be decoded */
    ERM_FORMAT_VERSION = 3,        /* the major version is not 2 */
    ERM_IP_VERSION = 4,            /* the IP version is not 4 or 6 */
    ERM_NO_NODES = 5,              /* the node count is 0 */
    ERM_BUILD_TIME = 6,            /* the build time is above 2^63 - 1 */
    ERM_RECORD_SIZE = 7,           /* the record size is not 24, 28 or 32 */
    ERM_TREE_TOO_LONG = 8,         /* the tree and 16 bytes end past the marker's start */
    ERM_HANDLE = 9,                /* the handle does not fit the image */
    ERM_IPV6_IN_IPV4 = 10,         /* IPv6 asked of an IPv4 image */
    ERM_RECORD = 11,               /* a record above the node count gives no offset inside the data section */
    ERM_TOO_DEEP = 12,             /* walk: an internal node at full width */
    ERM_OUT_OF_SHAPE = 13,         /* the walk is out of shape; or an argument is, see ERM_OUT_OF_SHAPE below */
    ERM_MALFORMED = 14,            /* a value is malformed or of a wrong kind, or a decoder limit is passed */
    ERM_OFFSET = 15,               /* the place given is at or past the data section's length */
    ERM_PREFIX_LENGTH = 16,        /* a prefix length above 32 (IPv4) or 128 (IPv6) */
    ERM_NO_DATABASE_TYPE = 17,     /* verify: the database type is empty */
    ERM_NO_DESCRIPTION = 18,       /* verify: the description is empty */
    ERM_TOO_MANY_NETWORKS = 19,    /* verify: more than 3 times node count networks */
    ERM_SEPARATOR = 20,            /* verify: a separator byte is not 0 */
    ERM_BUDGET = 21,               /* verify: the budget is spent with places still waiting */
    ERM_SCRATCH = 22,              /* verify: the scratch is too short */
    ERM_TIME = 23,                 /* age: the time given is above 2^63 - 1 */
    ERM_IMAGE_TOO_LONG = 24,       /* the image is longer than 2,147,483,647 bytes */
    ERM_ABSENT = 256,              /* a step: the map has no such key, the array no such element; no refusal */
    ERM_PAUSED = 257,              /* a walk: the budget is spent, places still wait; no refusal */
    ERM_END = 258                  /* a walk: no place waits any more; no refusal */
};

/*
 * ERM_OUT_OF_SHAPE for arguments: what a C caller can write and no entry takes is refused with 13 before any
 * other number, and nothing lent is written:
 * - a width that is neither 32 nor 128;
 * - width 32 and an address above FFFFFFFF hex (its high half not 0, or its low half above 2^32 - 1);
 * - options above 7;
 * - walk words that are fewer than ERM_WALK_WORDS, or whose options word is above 7.
 */

/* In place of an offset: the network has no data. */
#define ERM_NO_DATA UINT64_MAX
/* In place of an offset, of a lookup alone: it was refused. */
#define ERM_REFUSED (UINT64_MAX - 1)

/* ---- Opening and metadata ------------------------------------------------------------------------------------- */

/*
 * The numbers that the other functions take beside the image. A copy of it is as good as the first; numbers that
 * do not fit the image are refused with 9. It may gain a number in a later version: make one by erm_open alone.
 */
typedef struct erm_handle {
    uint64_t version;              /* IP version: 4 or 6 */
    uint64_t nodes;                /* node count of the search tree */
    uint64_t size;                 /* record size in bits: 24, 28 or 32 */
    uint64_t base;                 /* where the data section starts in the image */
    uint64_t meta;                 /* where the metadata start in the image, past the marker */
    uint64_t start4;               /* the record where IPv4 addresses start; 0 in an IPv4 image */
    uint64_t depth4;               /* the depth of that record: 0 to 96; 0 in an IPv4 image */
} erm_handle;

/* An opened image. After a refusal all but the status is 0. */
typedef struct erm_opened {
    uint64_t status;               /* ERM_OK or the refusal */
    erm_handle handle;             /* for the other calls; it has IP version, node count and record size too */
    uint64_t major;                /* binary format version: major, always 2 */
    uint64_t minor;                /* and minor */
    uint64_t build;                /* build time, in seconds since 1970 */
    uint64_t languages;            /* how many languages the metadata list */
    uint64_t descriptions;         /* how many descriptions they hold */
} erm_opened;

/* Opens an image. Refusals: 24, 1, 2, 3, 4, 5, 6, 7, 8. */
erm_opened erm_open(const uint8_t *image, size_t length);

/* An age; seconds is 0 after a refusal. */
typedef struct erm_aged {
    uint64_t status;               /* ERM_OK or the refusal */
    int64_t seconds;               /* from the build to the time given; below 0 where the build is later */
} erm_aged;

/* The age of an image at a time in seconds since 1970. Refusals: 24, 1 to 8, 23. */
erm_aged erm_age(const uint8_t *image, size_t length, uint64_t time);

/* A part of the image: image[place] to image[place + length - 1]. (0, 0) where there is none. */
typedef struct erm_span {
    uint64_t place;                /* counted from the image's first byte */
    uint64_t length;               /* how many bytes */
} erm_span;

/*
 * The texts of the metadata, UTF-8, in stored order, indexes from 0. (0, 0) where the image does not open
 * (erm_open says why) or the index is past the last.
 */
erm_span erm_database_type(const uint8_t *image, size_t length);
erm_span erm_language(const uint8_t *image, size_t length, size_t index);
erm_span erm_description_language(const uint8_t *image, size_t length, size_t index);
erm_span erm_description(const uint8_t *image, size_t length, size_t index);

/* ---- Lookup --------------------------------------------------------------------------------------------------- */

/*
 * The answer of a lookup, in two registers:
 *   offset                        second
 *   where the data are            the network's prefix length
 *   ERM_NO_DATA                   the network's prefix length
 *   ERM_REFUSED                   the number of the refusal
 * The length is counted in the tree: for an IPv4 address in an IPv6 image it has depth4 in it. The offset counts
 * from the data section's start: it is the place of an erm_cursor.
 */
typedef struct erm_found {
    uint64_t offset;               /* an offset, ERM_NO_DATA or ERM_REFUSED */
    uint64_t second;               /* a prefix length, or the refusal's number */
} erm_found;

/*
 * Looks an address up. Width 32: IPv4, high is 0 and low the address as a number (1.2.3.4 is 01020304 hex).
 * Width 128: IPv6, high its first 64 bits and low its last. Refusals: 13 (address out of shape), 9, 10, 11.
 */
erm_found erm_lookup(const uint8_t *image, size_t length, erm_handle handle, uint64_t width, uint64_t high,
                     uint64_t low);

/* ---- Values --------------------------------------------------------------------------------------------------- */

/*
 * A place in the data section, and what was charged on the way to it against the decoder's limits. A fresh one is
 * { offset, 0, 0 }; steps hand out the next. Steps one after the other charge as one path does.
 */
typedef struct erm_cursor {
    uint64_t place;                /* counted from the data section's start */
    uint64_t values;               /* values charged so far; 0: no map or array entered yet */
    uint64_t payload;              /* bytes of text charged so far */
} erm_cursor;

/* The kinds of values: the type numbers of the format. */
enum {
    ERM_KIND_REFUSED = 0,          /* no value: low is the number of the refusal */
    ERM_KIND_TEXT = 2,             /* low is its length in bytes; erm_text has its place. It is UTF-8 */
    ERM_KIND_DOUBLE = 3,           /* low has its 64 bits, exactly */
    ERM_KIND_BYTES = 4,            /* low is its length; erm_bytes has its place */
    ERM_KIND_U16 = 5,              /* low is the number */
    ERM_KIND_U32 = 6,              /* low is the number */
    ERM_KIND_MAP = 7,              /* low is how many pairs it has */
    ERM_KIND_I32 = 8,              /* integer is the number */
    ERM_KIND_U64 = 9,              /* low is the number */
    ERM_KIND_U128 = 10,            /* high and low are its halves */
    ERM_KIND_ARRAY = 11,           /* low is how many elements it has */
    ERM_KIND_BOOLEAN = 14,         /* low is 0 or 1 */
    ERM_KIND_FLOAT = 15            /* low has its 32 bits, exactly */
};

/* A value. What its kind does not use is 0. */
typedef struct erm_value {
    uint64_t kind;                 /* ERM_KIND_.. */
    uint64_t high;                 /* the upper half of a u128 */
    uint64_t low;                  /* number, length, count, bits or the refusal's number */
    int32_t integer;               /* the number of an i32 */
} erm_value;

/* The value that a cursor leads to, behind at most one pointer. Refusals: 9, 15, 14. */
erm_value erm_read(const uint8_t *image, size_t length, erm_handle handle, erm_cursor cursor);

/* Where a text lies in the image; (0, 0) where erm_read refuses or gives another kind. */
erm_span erm_text(const uint8_t *image, size_t length, erm_handle handle, erm_cursor cursor);

/* Where a value of bytes lies in the image; (0, 0) where erm_read refuses or gives another kind. */
erm_span erm_bytes(const uint8_t *image, size_t length, erm_handle handle, erm_cursor cursor);

/* The answer of a step. The cursor is { 0, 0, 0 } unless the status is ERM_OK. */
typedef struct erm_stepped {
    uint64_t status;               /* ERM_OK, ERM_ABSENT or the refusal */
    erm_cursor cursor;             /* the place that the step leads to */
} erm_stepped;

/* Into a map, to the value of a key (any bytes; the first equal key counts). Refusals: 9, 15, 14. */
erm_stepped erm_step_key(const uint8_t *image, size_t length, erm_handle handle, erm_cursor cursor,
                         const uint8_t *key, size_t key_length);

/* Into an array, to an element counted from the start: 0 is the first. Refusals: 9, 15, 14. */
erm_stepped erm_step_index(const uint8_t *image, size_t length, erm_handle handle, erm_cursor cursor,
                           size_t index);

/* Into an array, to an element counted from the end: 0 is the last. Refusals: 9, 15, 14. */
erm_stepped erm_step_from_end(const uint8_t *image, size_t length, erm_handle handle, erm_cursor cursor,
                              size_t index);

/* ---- Walks ---------------------------------------------------------------------------------------------------- */

/*
 * A walk is held in words that the caller lends: ERM_WALK_WORDS of them; words past them are not touched.
 *   walk[4 i], i from 0 to 128    the record of waiting place i
 *   walk[4 i + 1], walk[4 i + 2]  its key: high and low half
 *   walk[4 i + 3]                 its length
 *   walk[516]                     how many places wait; the last of them is taken next
 *   walk[517]                     the width, 32 or 128
 *   walk[518]                     the options that it was begun with
 * A caller need not look into them. They may be copied, kept, and carried on by another process.
 */
#define ERM_WALK_WORDS 519

/* Options of a walk: a sum of these. */
enum {
    ERM_ALIASED = 1,               /* include aliased networks */
    ERM_DATALESS = 2,              /* include networks without data */
    ERM_SKIP_EMPTY = 4             /* skip networks whose value is an empty map or array */
};

/* Kinds of networks. */
enum {
    ERM_V4 = 1,                    /* of an IPv4 walk: the key is an IPv4 address, the length 0 to 32 */
    ERM_V6 = 2,                    /* of an IPv6 walk */
    ERM_V4_IN_V6_SUBTREE = 3       /* of an IPv6 walk, inside the IPv4 subtree: key and length are the tree's */
};

/* A network. */
typedef struct erm_network {
    uint64_t high;                 /* its key, the upper half; 0 for IPv4 */
    uint64_t low;                  /* and the lower half */
    uint64_t length;               /* its prefix length, counted in the tree */
    uint64_t kind;                 /* ERM_V4, ERM_V6 or ERM_V4_IN_V6_SUBTREE */
    uint64_t offset;               /* of its data in the data section, or ERM_NO_DATA */
} erm_network;

/*
 * Begins a walk over the networks of a range: an address, as for erm_lookup, and a prefix length; the range 0/0 of
 * a width is all its addresses. The address's bits past the prefix length count as 0. Answers ERM_OK or the refusal:
 * 13 (address, options or words out of shape), 9, 16, 10. After 13 the words are as they were; after another
 * refusal they hold a walk of width 32 with no place waiting and no option.
 */
uint64_t erm_within(const uint8_t *image, size_t length, erm_handle handle, uint64_t width, uint64_t high,
                    uint64_t low, uint64_t prefix_length, uint64_t options, uint64_t *walk, size_t walk_length);

/* The answer of a walk's call. The network is all 0 unless the status is ERM_OK. */
typedef struct erm_called {
    uint64_t status;               /* ERM_OK: a network; ERM_PAUSED; ERM_END; or the refusal */
    uint64_t taken;                /* how many places this call has taken */
    erm_network network;           /* the network that is handed out */
} erm_called;

/*
 * The next network of a walk, after at most `budget` places. Refusals: 13 (the words hold no walk), 9, and 11, 12,
 * 13, 14 as they come. After 9 the words are as they were; after 13 as the walk stood when it was refused; after 11,
 * 12 and 14 the one place that failed is gone, and the walk goes on with the next call.
 */
erm_called erm_next(const uint8_t *image, size_t length, erm_handle handle, uint64_t *walk, size_t walk_length,
                    uint64_t budget);

/* A row of erm_rows: the words of an erm_network, in its order, so that an erm_network array may be lent as rows. */
#define ERM_ROW_WORDS 5

/* The answer of erm_rows. */
typedef struct erm_filled {
    uint64_t status;               /* ERM_OK: no room for a further row; ERM_PAUSED; ERM_END; or the refusal */
    uint64_t rows;                 /* how many rows are written, from the buffer's first word on */
    uint64_t taken;                /* how many places this call has taken in all */
} erm_filled;

/*
 * Many networks in one call: as erm_next again and again, each with what is left of `budget`, each network a row,
 * until there is no room for a further row (rows_length / ERM_ROW_WORDS of them), or the answer is no network.
 * It stops at the first refusal, which is the status; rows, places taken and walk are those up to it. Refusals and
 * walk words as of erm_next; 9 and 13 of words that hold no walk come also where there is no room for a row. Rows
 * that are not written stay as they were.
 */
erm_filled erm_rows(const uint8_t *image, size_t length, erm_handle handle, uint64_t *walk, size_t walk_length,
                    uint64_t *rows, size_t rows_length, uint64_t budget);

/* ---- Verification --------------------------------------------------------------------------------------------- */

/* The answer of erm_scratch_words; words is 0 after a refusal. */
typedef struct erm_scratch {
    uint64_t status;               /* ERM_OK or the refusal */
    uint64_t words;                /* how many words of scratch erm_verify needs */
} erm_scratch;

/* How many words of scratch verification needs. Refusals: 24, 1 to 8. */
erm_scratch erm_scratch_words(const uint8_t *image, size_t length);

/* The answer of erm_verify; offsets is 0 after a refusal. */
typedef struct erm_verified {
    uint64_t status;               /* ERM_OK: the whole image is sound; or the refusal */
    uint64_t offsets;              /* how many distinct offsets its networks have */
} erm_verified;

/*
 * Verifies a whole image, after at most `budget` places of its tree. Refusals: 24, 1 to 8, 22, 14 (metadata), 17, 18,
 * then 11, 12, 19, 21 as they come, 20, 14 (data). The scratch may hold anything. After 24, 1 to 8 or 22 it is as it
 * was; after any other answer the words needed are 0 and the rest as they were.
 */
erm_verified erm_verify(const uint8_t *image, size_t length, uint64_t *scratch, size_t scratch_length,
                        uint64_t budget);

#ifdef __cplusplus
}
#endif

#endif
