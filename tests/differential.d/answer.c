/*
 * Answers the questions of the crate's line protocol through the C exports, a line for a line; refusals are `err NUMBER`.
 *
 *     answer [PLACES]        at most PLACES places are taken for one question, a million if it is not said
 *
 * `own SEED` asks nothing of the crate: it tries what only we have (forged handles, walks and cursors, budgets, rows, scratch)
 * against model.h and answers `ok CHECKS`, or `bad` and what differs. Whatever is lent lies against a page that may not be touched.
 */
#include <inttypes.h>
#include <signal.h>
#include <stdarg.h>
#include <sys/stat.h>
#include <fcntl.h>
#include <unistd.h>
#include "lend.h"
#include "model.h"

static uint64_t places = 1000000;
static lent image_room, key_room, walk_room, rows_room, scratch_room;
static const uint8_t *image;
static size_t image_length;
static erm_opened opened;
static int is_open;
static uint64_t turn;              /* counts questions: decides how memory is lent and how a walk is cut */

static void bad(const char *what, ...)
{
    va_list a;
    va_start(a, what);
    printf("bad ");
    vprintf(what, a);
    printf("\n");
    va_end(a);
}

static void crashed(int number)
{
    fflush(stdout);
    static const char text[] = "crash\n";
    ssize_t w = write(1, text, sizeof text - 1);
    (void)w;
    (void)number;
    _exit(3);
}

/* ---- chance ---- */

static uint64_t chance_state;

static uint64_t chance(void)
{
    uint64_t z = chance_state += 0x9e3779b97f4a7c15u;
    z = (z ^ z >> 30) * 0xbf58476d1ce4e5b9u;
    z = (z ^ z >> 27) * 0x94d049bb133111ebu;
    return z ^ z >> 31;
}

static uint64_t below(uint64_t n)
{
    return chance() % n;
}

/* ---- hex ---- */

static int digit(char c)
{
    return c >= '0' && c <= '9' ? c - '0' : c >= 'a' && c <= 'f' ? c - 'a' + 10 : -1;
}

static size_t unhex(const char *s, size_t n, uint8_t *to)
{
    if (n == 1 && s[0] == '-')
        return 0;
    for (size_t i = 0; i + 1 < n; i += 2)
        to[i / 2] = (uint8_t)(digit(s[i]) << 4 | digit(s[i + 1]));
    return n / 2;
}

static void put_hex(const uint8_t *s, size_t n)
{
    static const char digits[] = "0123456789abcdef";
    if (n == 0)
        putchar_unlocked('-');
    for (size_t i = 0; i < n; i++) {
        putchar_unlocked(digits[s[i] >> 4]);
        putchar_unlocked(digits[s[i] & 15]);
    }
}

static uint64_t hex_number(const char *s, size_t n)
{
    uint64_t x = 0;
    for (size_t i = 0; i < n; i++)
        x = x << 4 | (uint64_t)digit(s[i]);
    return x;
}

/* An address of 8 or 32 digits: its width, and its halves. */
static uint64_t address(const char *s, size_t n, uint64_t *high, uint64_t *low)
{
    if (n == 8) {
        *high = 0;
        *low = hex_number(s, 8);
        return 32;
    }
    *high = hex_number(s, 16);
    *low = hex_number(s + 16, 16);
    return 128;
}

/* ---- opening ---- */

static size_t data_length(void)
{
    return opened.handle.meta - 14 - opened.handle.base;
}

static void say_handle(void)
{
    erm_handle h = opened.handle;
    printf("ok %" PRIu64 " %" PRIu64 " %" PRIu64 " %" PRIu64 " %" PRIu64 " %" PRIu64 " %" PRIu64 " %zu %zu\n", h.version, h.nodes,
        h.size, h.base, h.meta, h.start4, h.depth4, data_length(), image_length);
}

/* Whatever else is asked of an image that does not open gives the same number, and touches nothing. */
static int refused_alike(void)
{
    uint64_t r = opened.status;
    erm_opened empty;
    memset(&empty, 0, sizeof empty);
    empty.status = r;
    if (memcmp(&empty, &opened, sizeof empty) != 0)
        return 0;
    erm_span t = erm_database_type(image, image_length), l = erm_language(image, image_length, 0);
    erm_span k = erm_description_language(image, image_length, 0), d = erm_description(image, image_length, 0);
    if (t.place | t.length | l.place | l.length | k.place | k.length | d.place | d.length)
        return 0;
    erm_aged a = erm_age(image, image_length, 5);
    erm_scratch w = erm_scratch_words(image, image_length);
    uint64_t *scratch = (uint64_t *)lend(&scratch_room, 64, turn & 1);
    memset(scratch, 0xa5, 64);
    erm_verified v = erm_verify(image, image_length, scratch, 8, 1000);
    for (int i = 0; i < 8; i++)
        if (scratch[i] != 0xa5a5a5a5a5a5a5a5u)
            return 0;
    return a.status == r && a.seconds == 0 && w.status == r && w.words == 0 && v.status == r && v.offsets == 0;
}

static void open_image(const uint8_t *from, size_t n)
{
    image = from;
    image_length = n;
    opened = erm_open(image, n);
    is_open = opened.status == ERM_OK;
    if (is_open)
        say_handle();
    else if (refused_alike())
        printf("err %" PRIu64 "\n", opened.status);
    else
        bad("after refusal %" PRIu64 " another entry answers otherwise", opened.status);
}

static void open_path(const char *path)
{
    static uint8_t *mapped;
    static size_t mapped_length;
    if (mapped != NULL)
        munmap(mapped, mapped_length);
    mapped = NULL;
    int f = open(path, O_RDONLY);
    struct stat s;
    if (f < 0 || fstat(f, &s) != 0) {
        printf("usage cannot read\n");
        return;
    }
    size_t n = (size_t)s.st_size;
    if (n <= (size_t)1 << 22) {
        uint8_t *to = lend(&image_room, n, turn & 1);
        size_t had = 0;
        while (had < n) {
            ssize_t got = read(f, to + had, n - had);
            if (got <= 0)
                break;
            had += (size_t)got;
        }
        close(f);
        open_image(to, had);
        return;
    }
    /* long images stay in the file: a page that may not be touched follows */
    size_t room = (n + PAGE - 1) / PAGE * PAGE;
    uint8_t *all = mmap(NULL, room + PAGE, PROT_NONE, MAP_PRIVATE | MAP_ANONYMOUS | MAP_NORESERVE, -1, 0);
    if (all == MAP_FAILED || mmap(all, n, PROT_READ, MAP_PRIVATE | MAP_FIXED, f, 0) == MAP_FAILED) {
        printf("usage cannot map\n");
        close(f);
        return;
    }
    close(f);
    mapped = all;
    mapped_length = room + PAGE;
    open_image(all, n);
}

static void put_part(erm_span s)
{
    putchar_unlocked(' ');
    put_hex(image + s.place, s.length);
}

static void say_metadata(void)
{
    erm_handle h = opened.handle;
    printf("ok %" PRIu64 " %" PRIu64 " %" PRIu64 " %" PRIu64 " %" PRIu64 " %" PRIu64, opened.major, opened.minor, opened.build,
        h.version, h.nodes, h.size);
    put_part(erm_database_type(image, image_length));
    printf(" %" PRIu64, opened.languages);
    for (size_t i = 0; i < opened.languages; i++)
        put_part(erm_language(image, image_length, i));
    printf(" %" PRIu64, opened.descriptions);
    for (size_t i = 0; i < opened.descriptions; i++) {
        put_part(erm_description_language(image, image_length, i));
        put_part(erm_description(image, image_length, i));
    }
    putchar_unlocked('\n');
}

/* ---- lookups ---- */

static void say_lookup(const char *s, size_t n)
{
    uint64_t high, low, width = address(s, n, &high, &low);
    erm_found f = erm_lookup(image, image_length, opened.handle, width, high, low);
    if (f.offset == ERM_REFUSED)
        printf("err %" PRIu64 "\n", f.second);
    else if (f.offset == ERM_NO_DATA)
        printf("n %" PRIu64 "\n", f.second);
    else
        printf("d %" PRIu64 " %" PRIu64 "\n", f.offset, f.second);
}

/* ---- walks ---- */

/* A network as the crate shows it: an IPv4 subtree's by its IPv4 address and length. */
static void say_network(const erm_network *w)
{
    if (w->kind == ERM_V4)
        printf("v4 %08" PRIx64 "/%" PRIu64, w->low, w->length);
    else if (w->kind == ERM_V4_IN_V6_SUBTREE)
        printf("s4 %08" PRIx64 "/%" PRIu64, w->low, w->length - opened.handle.depth4);
    else
        printf("v6 %016" PRIx64 "%016" PRIx64 "/%" PRIu64, w->high, w->low, w->length);
    if (w->offset == ERM_NO_DATA)
        printf(" -\n");
    else
        printf(" %" PRIu64 "\n", w->offset);
}

static uint64_t options_of(const char *s)
{
    uint64_t o = 0;
    for (; *s; s++)
        o |= *s == 'a' ? ERM_ALIASED : *s == 'n' ? ERM_DATALESS : *s == 's' ? ERM_SKIP_EMPTY : 0;
    return o;
}

enum { ROWS = 64 };

/* The networks of a range, by rows or by single calls, cut in pieces of chance. */
static void say_walk(const char *range, const char *options, uint64_t max)
{
    erm_handle h = opened.handle;
    uint64_t high = 0, low = 0, width = h.version == 6 ? 128 : 32, length = 0;
    if (strcmp(range, "all") != 0) {
        const char *slash = strchr(range, '/');
        width = address(range, (size_t)(slash - range), &high, &low);
        length = strtoull(slash + 1, NULL, 10);
    }
    chance_state = turn * 0x100000001b3u;
    uint64_t *walk = (uint64_t *)lend(&walk_room, ERM_WALK_WORDS * 8, turn & 1);
    uint64_t begun = erm_within(image, image_length, h, width, high, low, length, options_of(options), walk, ERM_WALK_WORDS);
    if (begun != ERM_OK) {
        printf("err %" PRIu64 "\n", begun);
        return;
    }
    int by_rows = turn % 3 != 0, small = turn % 5 == 0;
    uint64_t left = places, n = 0;
    for (;;) {
        uint64_t budget = small ? below(9) : left;
        if (budget > left)
            budget = left;
        uint64_t status, taken, count;
        erm_network one;
        const erm_network *rows = &one;
        if (by_rows) {
            size_t room = 1 + below(small ? 3 : ROWS);
            erm_network *to = (erm_network *)lend(&rows_room, room * sizeof *to, turn & 1);
            erm_filled f = erm_rows(image, image_length, h, walk, ERM_WALK_WORDS, (uint64_t *)to, room * ERM_ROW_WORDS, budget);
            status = f.status;
            taken = f.taken;
            count = f.rows;
            rows = to;
        } else {
            erm_called c = erm_next(image, image_length, h, walk, ERM_WALK_WORDS, budget);
            status = c.status;
            taken = c.taken;
            count = status == ERM_OK;
            one = c.network;
        }
        if (taken > budget) {
            bad("%" PRIu64 " places taken of %" PRIu64, taken, budget);
            return;
        }
        left -= taken;
        for (uint64_t i = 0; i < count; i++) {
            if (n == max) {
                printf("max %" PRIu64 "\n", n);
                return;
            }
            n++;
            say_network(rows + i);
        }
        if (status == ERM_END) {
            printf("end %" PRIu64 "\n", n);
            return;
        }
        if (status == ERM_PAUSED) {
            if (left == 0) {
                printf("paused\n");
                return;
            }
        } else if (status != ERM_OK) {
            if (n == max) {
                printf("max %" PRIu64 "\n", n);
                return;
            }
            n++;
            printf("err %" PRIu64 "\n", status);
            if (status == 9 || status == 13) {
                bad("a walk of our own is refused");
                return;
            }
        }
    }
}

/* ---- verification ---- */

static int by_number(const void *a, const void *b)
{
    uint64_t x = *(const uint64_t *)a, y = *(const uint64_t *)b;
    return x < y ? -1 : x > y;
}

/* The distinct offsets of the walk that verification makes, counted by sorting them; UINT64_MAX if it does not end in time. */
static uint64_t distinct_offsets(void)
{
    static uint64_t *list;
    static size_t room;
    size_t n = 0;
    uint64_t walk[ERM_WALK_WORDS], rows[ERM_ROW_WORDS * ROWS], left = places;
    erm_handle h = opened.handle;
    erm_within(image, image_length, h, h.version == 6 ? 128 : 32, 0, 0, 0, ERM_DATALESS, walk, ERM_WALK_WORDS);
    for (;;) {
        erm_filled f = erm_rows(image, image_length, h, walk, ERM_WALK_WORDS, rows, ERM_ROW_WORDS * ROWS, left);
        left -= f.taken;
        for (uint64_t i = 0; i < f.rows; i++) {
            if (n == room) {
                room = room ? 2 * room : 1024;
                list = realloc(list, room * 8);
            }
            if (rows[ERM_ROW_WORDS * i + 4] != ERM_NO_DATA)
                list[n++] = rows[ERM_ROW_WORDS * i + 4];
        }
        if (f.status == ERM_END)
            break;
        if (f.status != ERM_OK)
            return UINT64_MAX;
    }
    if (n == 0)
        return 0;
    qsort(list, n, 8, by_number);
    uint64_t distinct = 1;
    for (size_t i = 1; i < n; i++)
        distinct += list[i] != list[i - 1];
    return distinct;
}

static uint64_t words_needed(void)
{
    uint64_t data = data_length(), meta = image_length - opened.handle.meta;
    return ((data > meta ? data : meta) + 63) / 64 * 2;
}

/* Verification over scratch of a given length that holds anything; answers 100 if the scratch is not as it must be. */
static uint64_t verified(size_t length, uint64_t budget, uint64_t *offsets)
{
    static uint64_t *before;
    static size_t room;
    if (room < length) {
        room = length;
        before = realloc(before, room * 8);
    }
    uint64_t need = words_needed();
    uint64_t *scratch = (uint64_t *)lend(&scratch_room, length * 8, turn & 1);
    for (size_t i = 0; i < length; i++)
        scratch[i] = before[i] = chance();
    erm_verified v = erm_verify(image, image_length, scratch, length, budget);
    *offsets = v.offsets;
    if ((v.status == 22) != (length < need))
        return 100;
    for (size_t i = 0; i < length; i++)
        if (scratch[i] != (v.status != 22 && i < need ? 0 : before[i]))
            return 100;
    if (v.status != ERM_OK && v.offsets != 0)
        return 100;
    return v.status;
}

static void say_verified(void)
{
    chance_state = turn;
    uint64_t offsets, need = words_needed();
    erm_scratch s = erm_scratch_words(image, image_length);
    if (s.status != ERM_OK || s.words != need) {
        bad("scratch: %" PRIu64 " words", s.words);
        return;
    }
    uint64_t status = verified(need + turn % 3, places, &offsets);
    if (status == 100)
        bad("the scratch is not as it must be");
    else if (status != ERM_OK)
        printf("err %" PRIu64 "\n", status);
    else {
        uint64_t counted = distinct_offsets();
        if (counted != UINT64_MAX && counted != offsets)
            bad("%" PRIu64 " distinct offsets, counted %" PRIu64, offsets, counted);
        else
            printf("ok\n");
    }
}

/* ---- values ---- */

static erm_cursor at(uint64_t place)
{
    erm_cursor c = { place, 0, 0 };
    return c;
}

static void put_decimal(uint64_t high, uint64_t low)
{
    char s[48];
    int i = 47;
    unsigned __int128 x = (unsigned __int128)high << 64 | low;
    s[i] = 0;
    do {
        s[--i] = (char)('0' + (int)(x % 10));
        x /= 10;
    } while (x);
    printf("%s", s + i);
}

/* A text's or bytes' part of the image must lie in the data section and be as long as its value says. */
static int part_of(erm_cursor c, erm_value v, erm_span *s)
{
    int text = v.kind == ERM_KIND_TEXT;
    *s = text ? erm_text(image, image_length, opened.handle, c) : erm_bytes(image, image_length, opened.handle, c);
    erm_span other = text ? erm_bytes(image, image_length, opened.handle, c) : erm_text(image, image_length, opened.handle, c);
    return s->length == v.low && s->place >= opened.handle.base && s->place + s->length <= opened.handle.meta - 14
        && other.place == 0 && other.length == 0;
}

static void say_value(const char *type, erm_cursor c)
{
    static const char *names[16] = { "", "", "text", "f64", "bytes", "u16", "u32", "map", "i32", "u64", "u128", "array", "", "", "bool",
        "f32" };
    erm_value v = erm_read(image, image_length, opened.handle, c);
    if (v.kind == ERM_KIND_REFUSED) {
        printf("err %" PRIu64 "\n", v.low);
        return;
    }
    int any = strcmp(type, "any") == 0;
    if (!any && strcmp(type, names[v.kind]) != 0) {
        printf("err 14\n");
        return;
    }
    printf(any ? "ok %s" : "ok", names[v.kind]);
    if (v.kind == ERM_KIND_MAP || v.kind == ERM_KIND_ARRAY) {
        if (!any)
            printf(" %" PRIu64, v.low);
    } else if (v.kind == ERM_KIND_TEXT || v.kind == ERM_KIND_BYTES) {
        erm_span s;
        if (!part_of(c, v, &s)) {
            bad("part %" PRIu64 " %" PRIu64, s.place, s.length);
            return;
        }
        put_part(s);
    } else if (v.kind == ERM_KIND_DOUBLE)
        printf(" %016" PRIx64, v.low);
    else if (v.kind == ERM_KIND_FLOAT)
        printf(" %08" PRIx64, v.low);
    else if (v.kind == ERM_KIND_I32)
        printf(" %" PRId32, v.integer);
    else if (v.kind == ERM_KIND_U128 && !any)
        printf(" %016" PRIx64 "%016" PRIx64, v.high, v.low);
    else if (v.kind == ERM_KIND_BOOLEAN && any)
        printf(v.low ? " true" : " false");
    else {
        putchar_unlocked(' ');
        put_decimal(v.high, v.low);
    }
    putchar_unlocked('\n');
}

static void say_container(uint64_t place)
{
    erm_value v = erm_read(image, image_length, opened.handle, at(place));
    if (v.kind == ERM_KIND_REFUSED)
        printf("err %" PRIu64 "\n", v.low);
    else if (v.kind == ERM_KIND_MAP || v.kind == ERM_KIND_ARRAY)
        printf("ok %" PRIu64 " %" PRIu64 "\n", v.kind, v.low);
    else
        printf("other\n");
}

static void say_path(const char *type, uint64_t place, char *steps)
{
    erm_handle h = opened.handle;
    erm_cursor c = at(place);
    for (char *s = strtok(steps, " "); s != NULL; s = strtok(NULL, " ")) {
        erm_stepped r;
        if (s[0] == 'k') {
            size_t n = strlen(s + 2);
            uint8_t *key = lend(&key_room, n / 2, turn & 1);
            size_t length = unhex(s + 2, n, key);
            r = erm_step_key(image, image_length, h, c, key, length);
        } else if (s[0] == 'i')
            r = erm_step_index(image, image_length, h, c, strtoull(s + 2, NULL, 10));
        else
            r = erm_step_from_end(image, image_length, h, c, strtoull(s + 2, NULL, 10));
        if (r.status == ERM_ABSENT) {
            printf("none\n");
            return;
        }
        if (r.status != ERM_OK) {
            printf("err %" PRIu64 "\n", r.status);
            return;
        }
        c = r.cursor;
    }
    say_value(type, c);
}

/* ---- what only we have ---- */

static uint64_t checks;

#define CHECK(holds, ...) do { checks++; if (!(holds)) { bad(__VA_ARGS__); return 0; } } while (0)

static uint64_t near(uint64_t x)
{
    switch (below(6)) {
    case 0: return x + 1;
    case 1: return x - 1;
    case 2: return chance();
    case 3: return below(200);
    case 4: return chance() & 0xffffffffu;
    default: return x;
    }
}

static erm_handle forged(void)
{
    erm_handle h = opened.handle;
    int changes = (int)below(4);
    for (int i = 0; i < changes; i++)
        switch (below(12)) {
        case 0: h.version = near(h.version); break;
        case 1: h.nodes = near(h.nodes); break;
        case 2: h.size = below(2) ? (uint64_t[]) { 24, 28, 32, 36, 0, 20 }[below(6)] : near(h.size); break;
        case 3: h.base = near(h.base); break;
        case 4: h.meta = near(h.meta); break;
        case 5: h.start4 = near(h.start4); break;
        case 6: h.depth4 = below(2) ? below(130) : near(h.depth4); break;
        case 7: h.version = below(2) ? 4 : 6; break;
        /* fitting tree of another size or count: fewer nodes end the tree earlier */
        case 8: h.nodes = 1 + below(h.nodes < 1000 ? h.nodes + 2 : 1000); h.base = h.nodes * h.size / 4 + 16; break;
        case 9: h.meta = h.base + 14 + below(image_length + 2); break;
        case 10: h.meta = image_length; h.start4 = below(h.nodes + 40); break;
        default: h.size = (uint64_t[]) { 24, 28, 32 }[below(3)]; h.base = h.nodes * h.size / 4 + 16; break;
        }
    return h;
}

static int same_found(erm_found a, erm_found b)
{
    return a.offset == b.offset && a.second == b.second;
}

static int own_handles(erm_handle h)
{
    int fits = model_fits(h, image_length);
    for (int i = 0; i < 4; i++) {
        uint64_t width = below(8) == 0 ? near(32) : below(2) ? 32 : 128;
        uint64_t high = width == 32 && below(8) ? 0 : chance(), low = below(3) ? chance() : below(70000);
        if (width == 32 && below(8))
            low &= 0xffffffffu;
        erm_found f = erm_lookup(image, image_length, h, width, high, low);
        CHECK(same_found(f, model_lookup(image, image_length, h, width, high, low)), "lookup by a forged handle");
    }
    erm_cursor c = at(below(data_length() + 3));
    uint64_t room = fits ? h.meta - 14 - h.base : 0;
    int past = c.place >= room;
    erm_value v = erm_read(image, image_length, h, c);
    CHECK((v.kind == 0 && v.low == 9) == !fits, "read: 9");
    CHECK(!fits || (v.kind == 0 && v.low == 15) == past, "read: 15");
    CHECK(v.kind != 0 || v.low == 9 || v.low == 15 || v.low == 14, "read: number");
    uint8_t *key = lend(&key_room, 4, turn & 1);
    memcpy(key, "abcd", 4);
    size_t key_length = below(5);
    erm_stepped s[3] = { erm_step_key(image, image_length, h, c, key + 4 - key_length, key_length),
        erm_step_index(image, image_length, h, c, near(0)), erm_step_from_end(image, image_length, h, c, near(0)) };
    for (int i = 0; i < 3; i++) {
        CHECK((s[i].status == 9) == !fits && (!fits || (s[i].status == 15) == past), "step: 9, 15");
        CHECK(s[i].status == ERM_OK ? s[i].cursor.place < room && s[i].cursor.values > 0
            : s[i].cursor.place == 0 && s[i].cursor.values == 0 && s[i].cursor.payload == 0, "step: cursor");
    }
    if (!fits) {
        erm_span t = erm_text(image, image_length, h, c), b = erm_bytes(image, image_length, h, c);
        CHECK((t.place | t.length | b.place | b.length) == 0, "parts by a forged handle");
    }
    return 1;
}

static int refused_walk(const uint64_t *w)
{
    for (int i = 0; i < ERM_WALK_WORDS; i++)
        if (w[i] != (i == 517 ? 32 : 0))
            return 0;
    return 1;
}

static int same_called(erm_called a, erm_called b)
{
    return memcmp(&a, &b, sizeof a) == 0;
}

/* A start of any shape, by any handle. */
static int own_start(erm_handle h, uint64_t *walk, uint64_t *before)
{
    size_t extra = below(3), length = below(20) == 0 ? below(ERM_WALK_WORDS) : ERM_WALK_WORDS + extra;
    uint64_t width = below(10) == 0 ? near(128) : below(2) ? 32 : 128, options = below(10) == 0 ? near(7) : below(8);
    uint64_t high = width == 32 && below(10) ? 0 : chance(), low = chance(), prefix = below(10) == 0 ? near(32) : below(width + 2);
    if (width == 32 && below(10))
        low &= 0xffffffffu;
    for (size_t i = 0; i < length; i++)
        walk[i] = before[i] = chance();
    uint64_t status = erm_within(image, image_length, h, width, high, low, prefix, options, walk, length);
    int shape = (width == 32 || width == 128) && (width == 128 || model_low(high, low)) && options <= 7 && length >= ERM_WALK_WORDS;
    uint64_t expected = !shape ? 13 : !model_fits(h, image_length) ? 9 : prefix > width ? 16 : h.version == 4 && width == 128 ? 10 : 0;
    CHECK(status == expected, "start: %" PRIu64 " and not %" PRIu64, status, expected);
    if (status == 13)
        CHECK(memcmp(walk, before, length * 8) == 0, "start: words after 13");
    else {
        CHECK(memcmp(walk + ERM_WALK_WORDS, before + ERM_WALK_WORDS, (length - ERM_WALK_WORDS) * 8) == 0, "start: words past the walk");
        if (status != 0)
            CHECK(refused_walk(walk), "start: a refused start's walk");
        else {
            int lacks = width == 32 && h.version == 6 && h.start4 >= h.nodes;
            uint64_t node = width == 32 ? h.start4 : 0, depth = 0;
            model_mask(width, &high, &low, prefix);
            while (!lacks && depth < prefix && node < h.nodes)
                node = model_record(image, h, node, model_bit(width, high, low, depth++));
            uint64_t first[4] = { node, lacks ? 0 : high, lacks ? 0 : low, lacks ? h.depth4 : depth };
            CHECK(memcmp(walk, first, 32) == 0 && walk[516] == 1 && walk[517] == (lacks ? 128 : width) && walk[518] == options, "start: walk");
            for (int i = 4; i < 516; i++)
                CHECK(walk[i] == 0, "start: an empty place");
        }
    }
    return 1;
}

static void forge_walk(erm_handle h, uint64_t *walk)
{
    for (int i = 0; i < 129; i++) {
        uint64_t *p = walk + 4 * i;
        uint64_t kind = below(8);
        p[0] = kind < 3 ? below(h.nodes < 100000 ? h.nodes + 1 : 100000) : kind == 3 ? h.nodes : kind < 6 ? h.nodes + below(data_length() + 40)
            : kind == 6 ? h.start4 : near(h.nodes);
        p[1] = below(3) ? 0 : chance();
        p[2] = below(3) ? chance() & 0xffffffffu : chance();
        p[3] = below(4) ? below(below(2) ? 33 : 129) : near(128);
    }
    walk[516] = below(3) ? below(130) : near(129);
    walk[517] = below(8) == 0 ? near(128) : below(2) ? 32 : 128;
    walk[518] = below(30) == 0 ? near(7) : below(8);
}

/* Calls over any walk, one after the other, against the model; then the same by rows against single calls. */
static int own_walks(erm_handle h, int forge)
{
    static uint64_t mine[ERM_WALK_WORDS + 2], first[ERM_WALK_WORDS + 2];
    uint64_t *walk = (uint64_t *)lend(&walk_room, ERM_WALK_WORDS * 8, turn & 1);
    if (forge)
        forge_walk(h, walk);
    else {
        uint64_t width = h.version == 4 || below(2) ? 32 : 128;
        uint64_t status = erm_within(image, image_length, h, width, 0, 0, 0, below(8), walk, ERM_WALK_WORDS);
        if (status != ERM_OK)
            return 1;
    }
    memcpy(mine, walk, ERM_WALK_WORDS * 8);
    memcpy(first, walk, ERM_WALK_WORDS * 8);
    int calls = 1 + (int)below(40);
    for (int i = 0; i < calls; i++) {
        uint64_t budget = below(4) ? below(300) : below(3);
        erm_called r = erm_next(image, image_length, h, walk, ERM_WALK_WORDS, budget);
        erm_called m = model_next(image, image_length, h, mine, ERM_WALK_WORDS, budget);
        CHECK(same_called(r, m), "call %d: %" PRIu64 " after %" PRIu64 ", model %" PRIu64 " after %" PRIu64, i, r.status, r.taken, m.status,
            m.taken);
        CHECK(memcmp(walk, mine, ERM_WALK_WORDS * 8) == 0, "call %d: the walk after it", i);
        if (r.status == ERM_END || r.status == 9 || r.status == 13)
            break;
    }
    /* rows, from the same start */
    memcpy(walk, first, ERM_WALK_WORDS * 8);
    memcpy(mine, first, ERM_WALK_WORDS * 8);
    for (int i = 0; i < 6; i++) {
        uint64_t budget = below(4) ? below(600) : below(4), left = budget, taken = 0, count = 0, status;
        size_t words = below(5) == 0 ? below(12) : ERM_ROW_WORDS * (1 + below(40)), room = words / ERM_ROW_WORDS;
        uint64_t *rows = (uint64_t *)lend(&rows_room, words * 8, turn & 1);
        static uint64_t old[ERM_ROW_WORDS * 42];
        for (size_t j = 0; j < words; j++)
            rows[j] = old[j] = chance();
        erm_filled f = erm_rows(image, image_length, h, walk, ERM_WALK_WORDS, rows, words, budget);
        if (mine[518] > 7)
            status = 13;
        else if (!model_fits(h, image_length))
            status = 9;
        else
            for (;;) {
                if (count == room) {
                    status = ERM_OK;
                    break;
                }
                erm_called m = model_next(image, image_length, h, mine, ERM_WALK_WORDS, left);
                taken += m.taken;
                left -= m.taken;
                if (m.status != ERM_OK) {
                    status = m.status;
                    break;
                }
                memcpy(old + ERM_ROW_WORDS * count++, &m.network, ERM_ROW_WORDS * 8);
            }
        CHECK(f.status == status && f.rows == count && f.taken == taken, "rows: %" PRIu64 " %" PRIu64 " %" PRIu64 ", singly %" PRIu64
            " %" PRIu64 " %" PRIu64, f.status, f.rows, f.taken, status, count, taken);
        CHECK(memcmp(rows, old, words * 8) == 0, "rows: what is written");
        CHECK(memcmp(walk, mine, ERM_WALK_WORDS * 8) == 0, "rows: the walk after them");
    }
    /* words that hold no walk */
    size_t short_length = below(ERM_WALK_WORDS);
    uint64_t *few = (uint64_t *)lend(&walk_room, short_length * 8, turn & 1);
    for (size_t i = 0; i < short_length; i++)
        few[i] = first[i] = chance();
    erm_called r = erm_next(image, image_length, h, few, short_length, 9);
    erm_filled f = erm_rows(image, image_length, h, few, short_length, mine, ERM_ROW_WORDS, 9);
    CHECK(r.status == 13 && r.taken == 0 && f.status == 13 && f.rows == 0 && f.taken == 0, "words that hold no walk");
    CHECK(memcmp(few, first, short_length * 8) == 0, "words that hold no walk, after it");
    return 1;
}

enum { VALUES = 65536, PAYLOAD = 2097152 };

static uint64_t charged(uint64_t limit)
{
    switch (below(7)) {
    case 0: return 0;
    case 1: return limit;
    case 2: return limit + below(3);
    case 3: return limit - below(300);
    case 4: return chance();
    case 5: return 1 + below(9);
    default: return below(limit);
    }
}

/* What a cursor has charged bears on reading exactly as the limits say. */
static int own_cursors(void)
{
    erm_handle h = opened.handle;
    uint64_t room = data_length();
    for (int i = 0; i < 12; i++) {
        erm_cursor c = { below(room + 2), charged(VALUES), charged(PAYLOAD) };
        erm_value fresh = erm_read(image, image_length, h, at(c.place)), v = erm_read(image, image_length, h, c);
        erm_span t = erm_text(image, image_length, h, c), b = erm_bytes(image, image_length, h, c);
        CHECK((v.kind == ERM_KIND_TEXT ? t.length == v.low : t.place == 0 && t.length == 0), "text's part");
        CHECK((v.kind == ERM_KIND_BYTES ? b.length == v.low : b.place == 0 && b.length == 0), "bytes' part");
        uint64_t values_left = c.values == 0 ? VALUES - 1 : c.values < VALUES ? VALUES - c.values : 0;
        uint64_t payload_left = c.payload < PAYLOAD ? PAYLOAD - c.payload : 0;
        int refused = 0;
        if (fresh.kind == ERM_KIND_TEXT || fresh.kind == ERM_KIND_BYTES)
            refused = c.values != 0 && fresh.low > payload_left;
        else if (fresh.kind == ERM_KIND_MAP || fresh.kind == ERM_KIND_ARRAY)
            refused = fresh.low * (fresh.kind == ERM_KIND_MAP ? 2 : 1) > values_left;
        if (refused)
            CHECK(v.kind == 0 && v.low == 14, "a limit that is passed");
        else if (fresh.kind != 0)
            CHECK(memcmp(&fresh, &v, sizeof v) == 0, "a limit that is not passed");
        else
            CHECK(v.kind == 0 && v.low == fresh.low, "refused fresh and answered charged");
        uint8_t *key = lend(&key_room, 2, turn & 1);
        key[0] = (uint8_t)('a' + below(4));
        key[1] = (uint8_t)chance();
        erm_stepped s[3] = { erm_step_key(image, image_length, h, c, key, below(3)), erm_step_index(image, image_length, h, c, below(4)),
            erm_step_from_end(image, image_length, h, c, below(4)) };
        for (int j = 0; j < 3; j++) {
            CHECK((s[j].status == 15) == (c.place >= room), "step: 15");
            if (s[j].status == ERM_OK)
                CHECK(s[j].cursor.place < room && s[j].cursor.values > 0 && s[j].cursor.values <= VALUES
                    && (s[j].cursor.payload == c.payload || (s[j].cursor.payload > c.payload && s[j].cursor.payload <= PAYLOAD))
                    && s[j].cursor.values >= c.values, "step: cursor");
            else
                CHECK(s[j].cursor.place == 0 && s[j].cursor.values == 0 && s[j].cursor.payload == 0, "step: no cursor");
        }
    }
    return 1;
}

static int own_verification(void)
{
    uint64_t need = words_needed(), offsets, all_offsets, others;
    if (need > 1 << 16)
        return 1;
    uint64_t all = verified(need + below(4), places, &all_offsets);
    CHECK(all != 100, "scratch");
    uint64_t low = verified(need == 0 ? 0 : below(need), places, &offsets);
    CHECK(need == 0 || low == 22, "short scratch");
    uint64_t none = verified(need, 0, &offsets);
    /* 14 of the metadata, 17 and 18 come before the tree */
    CHECK(none == 21 || (none == all && (all == 14 || all == 17 || all == 18)), "budget 0: %" PRIu64 ", in full %" PRIu64, none, all);
    uint64_t some = verified(need, below(200), &others);
    CHECK(some != 100 && (some == 21 || (some == all && others == all_offsets)), "a budget: %" PRIu64 ", in full %" PRIu64, some, all);
    return 1;
}

static int own_age(void)
{
    for (int i = 0; i < 3; i++) {
        uint64_t time = below(2) ? near(opened.build) : near((uint64_t)1 << 63);
        erm_aged a = erm_age(image, image_length, time);
        if (time > INT64_MAX)
            CHECK(a.status == 23 && a.seconds == 0, "age: 23");
        else
            CHECK(a.status == ERM_OK && a.seconds == (int64_t)time - (int64_t)opened.build, "age");
    }
    return 1;
}

static int own_all(void)
{
    static uint64_t before[ERM_WALK_WORDS + 2];
    for (int i = 0; i < 8; i++) {
        erm_handle h = forged();
        if (!own_handles(h))
            return 0;
        uint64_t *walk = (uint64_t *)lend(&walk_room, (ERM_WALK_WORDS + 2) * 8, turn & 1);
        if (!own_start(h, walk, before) || !own_walks(h, i & 1))
            return 0;
    }
    return own_walks(opened.handle, 0) && own_walks(opened.handle, 1) && own_cursors() && own_verification() && own_age();
}

static void say_own(uint64_t seed)
{
    chance_state = seed;
    checks = 0;
    if (own_all())
        printf("ok %" PRIu64 "\n", checks);
}

/* ---- the loop ---- */

static void answer(char *line)
{
    char *rest = strchr(line, ' ');
    if (rest != NULL)
        *rest++ = 0;
    else
        rest = line + strlen(line);
    if (strcmp(line, "openhex") == 0) {
        size_t n = strlen(rest), length = rest[0] == '-' ? 0 : n / 2;
        uint8_t *to = lend(&image_room, length, turn & 1);
        unhex(rest, n, to);
        open_image(to, length);
    } else if (strcmp(line, "open") == 0)
        open_path(rest);
    else if (strcmp(line, "version") == 0)
        printf("ok maxminddb 0.32.0 oracle 1\n");
    else if (!is_open)
        printf("usage no image\n");
    else if (strcmp(line, "l") == 0)
        say_lookup(rest, strlen(rest));
    else if (strcmp(line, "handle") == 0)
        say_handle();
    else if (strcmp(line, "meta") == 0)
        say_metadata();
    else if (strcmp(line, "verify") == 0)
        say_verified();
    else if (strcmp(line, "own") == 0)
        say_own(strtoull(rest, NULL, 10));
    else if (strcmp(line, "raw") == 0)
        say_container(strtoull(rest + 2, NULL, 10));
    else if (strcmp(line, "t") == 0) {
        char *place = strchr(rest, ' ');
        *place++ = 0;
        say_value(rest, at(strtoull(place, NULL, 10)));
    } else if (strcmp(line, "path") == 0) {
        char *place = strchr(rest, ' '), *steps;
        *place++ = 0;
        uint64_t from = strtoull(place, &steps, 10);
        say_path(rest, from, steps);
    } else if (strcmp(line, "w") == 0) {
        char *options = strchr(rest, ' '), *max;
        *options++ = 0;
        max = strchr(options, ' ');
        if (max != NULL)
            *max++ = 0;
        say_walk(rest, options, max == NULL ? UINT64_MAX : strtoull(max, NULL, 10));
    } else
        printf("usage unknown command\n");
}

int main(int count, char **arguments)
{
    static uint8_t stack[65536];
    stack_t apart = { .ss_sp = stack, .ss_size = sizeof stack };
    struct sigaction on_crash;
    memset(&on_crash, 0, sizeof on_crash);
    on_crash.sa_handler = crashed;
    on_crash.sa_flags = SA_ONSTACK;
    sigaltstack(&apart, NULL);
    sigaction(SIGSEGV, &on_crash, NULL);
    sigaction(SIGBUS, &on_crash, NULL);
    sigaction(SIGILL, &on_crash, NULL);
    sigaction(SIGABRT, &on_crash, NULL);
    if (count > 1)
        places = strtoull(arguments[1], NULL, 10);
    setvbuf(stdout, NULL, _IOFBF, 1 << 20);
    static char *line;
    static size_t room;
    ssize_t n;
    while ((n = getline(&line, &room, stdin)) > 0) {
        if (line[n - 1] == '\n')
            line[n - 1] = 0;
        if (line[0] == 0 || line[0] == '#')
            continue;
        turn++;
        answer(line);
    }
    fflush(stdout);
    return 0;
}
