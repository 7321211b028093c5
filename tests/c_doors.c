/*
 * Calls every function of include/ermopinaw.h on image A, on a copy of it with a value of each kind, and on the image
 * of case 9 (docs/SCOPE.md), and compares each answer. Words past the lent ones are guarded.
 *
 *     c_doors A.image 9.image
 */
#include "ermopinaw.h"

#include <stdio.h>
#include <stdlib.h>
#include <string.h>

static int passed, failed;

static void same(const char *what, uint64_t is, uint64_t wanted)
{
    if (is == wanted) {
        passed++;
    } else {
        failed++;
        printf("%s: %llu and not %llu\n", what, (unsigned long long)is, (unsigned long long)wanted);
    }
}

#define SAME(expression, wanted) same(#expression, (uint64_t)(expression), (uint64_t)(wanted))

static uint8_t a[4096], b[4096], nine[4096];
static size_t a_length, b_length, nine_length;

static size_t whole_file(const char *name, uint8_t *into)
{
    FILE *f = fopen(name, "rb");
    if (!f) {
        perror(name);
        exit(1);
    }
    size_t n = fread(into, 1, 4096, f);
    fclose(f);
    return n;
}

/* an array of one value of each kind, as the data section of image B */
static const uint8_t kinds[] = {
    0x0C, 0x04,
    0x42, 'h', 'i',
    0x68, 0x3F, 0xF8, 0, 0, 0, 0, 0, 0,
    0x82, 1, 2,
    0xA2, 0x01, 0xF4,
    0xC1, 7,
    0xE1, 0x41, 'k', 0x01, 0x07,
    0x04, 0x01, 0xFF, 0xFF, 0xFF, 0xFF,
    0x01, 0x02, 9,
    0x09, 0x03, 1, 0, 0, 0, 0, 0, 0, 0, 3,
    0x00, 0x04,
    0x00, 0x07,
    0x04, 0x08, 0x3F, 0, 0, 0,
};

static int is_text(const uint8_t *image, erm_span s, const char *t)
{
    return s.length == strlen(t) && memcmp(image + s.place, t, s.length) == 0;
}

static void opening(void)
{
    erm_opened o = erm_open(a, a_length);
    SAME(o.status, ERM_OK);
    SAME(o.handle.version, 4);
    SAME(o.handle.nodes, 1);
    SAME(o.handle.size, 24);
    SAME(o.handle.base, 22);
    SAME(o.handle.meta, 37);
    SAME(o.handle.start4, 0);
    SAME(o.handle.depth4, 0);
    SAME(o.major, 2);
    SAME(o.minor, 0);
    SAME(o.build, 1000);
    SAME(o.languages, 0);
    SAME(o.descriptions, 0);
    SAME(erm_open(a, 22).status, ERM_NO_MARKER);
    SAME(erm_open(a, 22).handle.nodes, 0);
    SAME(erm_open(a, 37).status, ERM_METADATA);
    SAME(erm_age(a, a_length, 1001).seconds, 1);
    SAME(erm_age(a, a_length, 999).status, ERM_OK);
    SAME(erm_age(a, a_length, 999).seconds, -1);
    SAME(erm_age(a, a_length, UINT64_MAX).status, ERM_TIME);
    SAME(erm_age(a, 22, 1001).status, ERM_NO_MARKER);
    SAME(is_text(a, erm_database_type(a, a_length), "T"), 1);
    SAME(erm_database_type(a, 22).length, 0);
    SAME(erm_language(a, a_length, 0).length, 0);
    SAME(erm_description_language(a, a_length, 0).length, 0);
    SAME(erm_description(a, a_length, 0).length, 0);
}

static void lookups(erm_handle h)
{
    erm_found f = erm_lookup(a, a_length, h, 32, 0, 0x01020304);
    SAME(f.offset, 0);
    SAME(f.second, 1);
    f = erm_lookup(a, a_length, h, 32, 0, 0xC8000001);
    SAME(f.offset, ERM_NO_DATA);
    SAME(f.second, 1);
    f = erm_lookup(a, a_length, h, 128, 0, 1);
    SAME(f.offset, ERM_REFUSED);
    SAME(f.second, ERM_IPV6_IN_IPV4);
    SAME(erm_lookup(a, a_length - 1, h, 32, 0, 1).offset, 0);
    SAME(erm_lookup(a, 36, h, 32, 0, 1).second, ERM_HANDLE);
    SAME(erm_lookup(a, a_length, h, 33, 0, 1).second, ERM_OUT_OF_SHAPE);
    SAME(erm_lookup(a, a_length, h, 32, 1, 1).second, ERM_OUT_OF_SHAPE);
    SAME(erm_lookup(a, a_length, h, 32, 0, 0x100000000).second, ERM_OUT_OF_SHAPE);
    SAME(erm_lookup(a, 36, h, 33, 0, 1).second, ERM_OUT_OF_SHAPE);
}

static erm_value element(erm_handle h, size_t i)
{
    erm_cursor root = {0, 0, 0};
    erm_stepped s = erm_step_index(b, b_length, h, root, i);
    SAME(s.status, ERM_OK);
    return erm_read(b, b_length, h, s.cursor);
}

static void values(erm_handle h)
{
    erm_cursor root = {0, 0, 0};
    erm_value v = erm_read(b, b_length, h, root);
    SAME(v.kind, ERM_KIND_ARRAY);
    SAME(v.low, 12);
    static const uint64_t wanted[12][3] = {
        {ERM_KIND_TEXT, 0, 2}, {ERM_KIND_DOUBLE, 0, 0x3FF8000000000000}, {ERM_KIND_BYTES, 0, 2}, {ERM_KIND_U16, 0, 500},
        {ERM_KIND_U32, 0, 7}, {ERM_KIND_MAP, 0, 1}, {ERM_KIND_I32, 0, 0}, {ERM_KIND_U64, 0, 9},
        {ERM_KIND_U128, 1, 3}, {ERM_KIND_ARRAY, 0, 0}, {ERM_KIND_BOOLEAN, 0, 0}, {ERM_KIND_FLOAT, 0, 0x3F000000},
    };
    for (size_t i = 0; i < 12; i++) {
        v = element(h, i);
        SAME(v.kind, wanted[i][0]);
        SAME(v.high, wanted[i][1]);
        SAME(v.low, wanted[i][2]);
        SAME(v.integer, i == 6 ? -1 : 0);
    }
    erm_stepped s = erm_step_index(b, b_length, h, root, 0);
    SAME(is_text(b, erm_text(b, b_length, h, s.cursor), "hi"), 1);
    SAME(erm_bytes(b, b_length, h, s.cursor).length, 0);
    s = erm_step_index(b, b_length, h, root, 2);
    SAME(is_text(b, erm_bytes(b, b_length, h, s.cursor), "\1\2"), 1);
    SAME(erm_text(b, b_length, h, s.cursor).length, 0);
    s = erm_step_from_end(b, b_length, h, root, 0);
    SAME(erm_read(b, b_length, h, s.cursor).kind, ERM_KIND_FLOAT);
    SAME(erm_step_from_end(b, b_length, h, root, 12).status, ERM_ABSENT);
    SAME(erm_step_index(b, b_length, h, root, 12).status, ERM_ABSENT);
    SAME(erm_step_index(b, b_length, h, root, 12).cursor.place, 0);
    s = erm_step_index(b, b_length, h, root, 5);
    erm_stepped k = erm_step_key(b, b_length, h, s.cursor, (const uint8_t *)"k", 1);
    SAME(k.status, ERM_OK);
    v = erm_read(b, b_length, h, k.cursor);
    SAME(v.kind, ERM_KIND_BOOLEAN);
    SAME(v.low, 1);
    SAME(erm_step_key(b, b_length, h, s.cursor, (const uint8_t *)"x", 1).status, ERM_ABSENT);
    SAME(erm_step_key(b, b_length, h, root, (const uint8_t *)"k", 1).status, ERM_MALFORMED);
    erm_cursor past = {sizeof kinds, 0, 0};
    SAME(erm_read(b, b_length, h, past).kind, ERM_KIND_REFUSED);
    SAME(erm_read(b, b_length, h, past).low, ERM_OFFSET);
    h.nodes++;
    SAME(erm_read(b, b_length, h, root).low, ERM_HANDLE);
    SAME(erm_text(b, b_length, h, root).length, 0);
    SAME(erm_step_index(b, b_length, h, root, 0).status, ERM_HANDLE);
}

#define GUARD 0x5A5A5A5A5A5A5A5Au

static uint64_t walk[ERM_WALK_WORDS + 1], before[ERM_WALK_WORDS + 1];

static int unchanged(void)
{
    return memcmp(walk, before, sizeof walk) == 0;
}

static void walks(erm_handle h)
{
    memset(walk, 0x5A, sizeof walk);
    memcpy(before, walk, sizeof walk);

    /* what no start takes leaves the words */
    SAME(erm_within(a, a_length, h, 32, 0, 0, 0, 0, walk, ERM_WALK_WORDS - 1), ERM_OUT_OF_SHAPE);
    SAME(erm_within(a, a_length, h, 32, 0, 0, 0, 8, walk, ERM_WALK_WORDS), ERM_OUT_OF_SHAPE);
    SAME(erm_within(a, a_length, h, 64, 0, 0, 0, 0, walk, ERM_WALK_WORDS), ERM_OUT_OF_SHAPE);
    SAME(erm_within(a, a_length, h, 32, 1, 0, 0, 0, walk, ERM_WALK_WORDS), ERM_OUT_OF_SHAPE);
    SAME(erm_next(a, a_length, h, walk, ERM_WALK_WORDS, 9).status, ERM_OUT_OF_SHAPE);
    SAME(erm_rows(a, a_length, h, walk, ERM_WALK_WORDS, before, 0, 9).status, ERM_OUT_OF_SHAPE);
    SAME(unchanged(), 1);

    /* a refused start's walk */
    SAME(erm_within(a, a_length, h, 32, 0, 0, 33, 7, walk, ERM_WALK_WORDS), ERM_PREFIX_LENGTH);
    SAME(walk[516], 0);
    SAME(walk[517], 32);
    SAME(walk[518], 0);
    SAME(walk[0], 0);
    SAME(walk[515], 0);
    SAME(erm_within(a, a_length, h, 128, 0, 0, 0, 0, walk, ERM_WALK_WORDS), ERM_IPV6_IN_IPV4);
    SAME(erm_within(a, 36, h, 32, 0, 0, 0, 0, walk, ERM_WALK_WORDS), ERM_HANDLE);

    /* image A, network by network */
    SAME(erm_within(a, a_length, h, 32, 0, 0, 0, ERM_DATALESS, walk, ERM_WALK_WORDS), ERM_OK);
    SAME(walk[516], 1);
    SAME(walk[518], ERM_DATALESS);
    memcpy(before, walk, sizeof walk);
    SAME(erm_next(a, 36, h, walk, ERM_WALK_WORDS, 9).status, ERM_HANDLE);
    SAME(erm_next(a, a_length, h, walk, ERM_WALK_WORDS, 0).status, ERM_PAUSED);
    SAME(erm_rows(a, 36, h, walk, ERM_WALK_WORDS, before, 0, 9).status, ERM_HANDLE);
    SAME(unchanged(), 1);
    erm_called c = erm_next(a, a_length, h, walk, ERM_WALK_WORDS, 9);
    SAME(c.status, ERM_OK);
    SAME(c.taken, 2);
    SAME(c.network.high, 0);
    SAME(c.network.low, 0);
    SAME(c.network.length, 1);
    SAME(c.network.kind, ERM_V4);
    SAME(c.network.offset, 0);
    c = erm_next(a, a_length, h, walk, ERM_WALK_WORDS, 9);
    SAME(c.status, ERM_OK);
    SAME(c.taken, 1);
    SAME(c.network.low, 0x80000000);
    SAME(c.network.length, 1);
    SAME(c.network.offset, ERM_NO_DATA);
    c = erm_next(a, a_length, h, walk, ERM_WALK_WORDS, 9);
    SAME(c.status, ERM_END);
    SAME(c.taken, 0);
    SAME(c.network.length, 0);
    SAME(walk[ERM_WALK_WORDS], GUARD);

    /* a walk out of shape */
    walk[516] = 130;
    memcpy(before, walk, sizeof walk);
    SAME(erm_next(a, a_length, h, walk, ERM_WALK_WORDS, 9).status, ERM_OUT_OF_SHAPE);
    SAME(unchanged(), 1);
}

/* image A by rows, with too little room, too small a budget, and words to spare */
static void rows_of_a(erm_handle h)
{
    uint64_t rows[13];
    memset(rows, 0x5A, sizeof rows);
    erm_within(a, a_length, h, 32, 0, 0, 0, ERM_DATALESS, walk, ERM_WALK_WORDS);
    erm_filled f = erm_rows(a, a_length, h, walk, ERM_WALK_WORDS, rows, 4, 9);
    SAME(f.status, ERM_OK);
    SAME(f.rows, 0);
    SAME(f.taken, 0);
    f = erm_rows(a, a_length, h, walk, ERM_WALK_WORDS, rows, 13, 1);
    SAME(f.status, ERM_PAUSED);
    SAME(f.rows, 0);
    SAME(f.taken, 1);
    SAME(rows[0], GUARD);
    f = erm_rows(a, a_length, h, walk, ERM_WALK_WORDS, rows, 9, 9);
    SAME(f.status, ERM_OK);
    SAME(f.rows, 1);
    SAME(f.taken, 1);
    SAME(rows[1], 0);
    SAME(rows[2], 1);
    SAME(rows[3], ERM_V4);
    SAME(rows[4], 0);
    SAME(rows[5], GUARD);
    f = erm_rows(a, a_length, h, walk, ERM_WALK_WORDS, rows + 5, 8, 9);
    SAME(f.status, ERM_OK);
    SAME(f.rows, 1);
    SAME(rows[6], 0x80000000);
    SAME(rows[9], ERM_NO_DATA);
    SAME(rows[10], GUARD);
    f = erm_rows(a, a_length, h, walk, ERM_WALK_WORDS, rows, 13, 9);
    SAME(f.status, ERM_END);
    SAME(f.rows, 0);
    SAME(walk[ERM_WALK_WORDS], GUARD);
}

/* case 9: 12 first, then 32 networks, then the end, 65 places in all; by rows and by single calls the same */
static void case_nine(void)
{
    erm_handle h = erm_open(nine, nine_length).handle;
    erm_network rows[64];
    static uint64_t other[ERM_WALK_WORDS + 1];
    erm_within(nine, nine_length, h, 32, 0, 0, 0, ERM_DATALESS, walk, ERM_WALK_WORDS);
    memcpy(other, walk, sizeof walk);
    erm_filled f = erm_rows(nine, nine_length, h, walk, ERM_WALK_WORDS, (uint64_t *)rows, 64 * ERM_ROW_WORDS, 100);
    SAME(f.status, ERM_TOO_DEEP);
    SAME(f.rows, 0);
    SAME(f.taken, 33);
    SAME(erm_next(nine, nine_length, h, other, ERM_WALK_WORDS, 100).status, ERM_TOO_DEEP);
    SAME(memcmp(walk, other, sizeof walk), 0);
    f = erm_rows(nine, nine_length, h, walk, ERM_WALK_WORDS, (uint64_t *)rows, 64 * ERM_ROW_WORDS, 100);
    SAME(f.status, ERM_END);
    SAME(f.rows, 32);
    SAME(f.taken, 32);
    for (int i = 0; i < 32; i++) {
        erm_called c = erm_next(nine, nine_length, h, other, ERM_WALK_WORDS, 100);
        SAME(c.status, ERM_OK);
        SAME(memcmp(&c.network, &rows[i], sizeof rows[i]), 0);
        SAME(rows[i].length, 32 - i);
        SAME(rows[i].low, (uint64_t)1 << i);
    }
    SAME(erm_next(nine, nine_length, h, other, ERM_WALK_WORDS, 100).status, ERM_END);
    SAME(memcmp(walk, other, sizeof walk), 0);
}

static void verification(void)
{
    uint64_t scratch[64];
    memset(scratch, 0x5A, sizeof scratch);
    erm_scratch s = erm_scratch_words(a, a_length);
    SAME(s.status, ERM_OK);
    SAME(s.words, 2 * ((a_length - 37 + 63) / 64));
    SAME(erm_scratch_words(a, 22).status, ERM_NO_MARKER);
    SAME(erm_verify(a, 22, scratch, 64, 9).status, ERM_NO_MARKER);
    SAME(erm_verify(a, a_length, scratch, s.words - 1, 9).status, ERM_SCRATCH);
    SAME(scratch[0], GUARD);
    /* image A has no description */
    SAME(erm_verify(a, a_length, scratch, 64, 9).status, ERM_NO_DESCRIPTION);
    SAME(scratch[0], 0);
    SAME(scratch[s.words - 1], 0);
    SAME(scratch[s.words], GUARD);
    /* with one it is sound: one pair of empty texts stands where the empty map stood */
    static uint8_t sound[4096];
    size_t at = 0x8D;
    memcpy(sound, a, at);
    memcpy(sound + at, "\xE1\x40\x40", 3);
    memcpy(sound + at + 3, a + at + 1, a_length - at - 1);
    erm_verified v = erm_verify(sound, a_length + 2, scratch, 64, 9);
    SAME(v.status, ERM_OK);
    SAME(v.offsets, 1);
    SAME(erm_verify(sound, a_length + 2, scratch, 64, 1).status, ERM_BUDGET);
    SAME(erm_open(sound, a_length + 2).descriptions, 1);
    SAME(scratch[s.words], GUARD);
}

int main(int count, char **words)
{
    if (count != 3) {
        fprintf(stderr, "usage: c_doors A.image 9.image\n");
        return 2;
    }
    a_length = whole_file(words[1], a);
    nine_length = whole_file(words[2], nine);
    memcpy(b, a, 22);
    memcpy(b + 22, kinds, sizeof kinds);
    memcpy(b + 22 + sizeof kinds, a + 23, a_length - 23);
    b_length = a_length - 1 + sizeof kinds;
    opening();
    lookups(erm_open(a, a_length).handle);
    values(erm_open(b, b_length).handle);
    walks(erm_open(a, a_length).handle);
    rows_of_a(erm_open(a, a_length).handle);
    case_nine();
    verification();
    printf("%d passed, %d failed\n", passed, failed);
    return failed != 0;
}
