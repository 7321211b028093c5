/*
 * The CPU time of each operation through the C exports; the crate's side is crate.rs, line for line.
 *
 *     ours IMAGE ADDRESSES TIMES WHAT..      writes lines: what, how many, a sum, seconds (the best of TIMES)
 */
#include <stdio.h>
#include <stdlib.h>
#include <string.h>
#include <time.h>
#include "ermopinaw.h"

typedef struct { uint64_t width, high, low; } address;

static uint8_t *image;
static size_t length;
static erm_handle handle;
static int times;
static char **wanted;              /* what is measured, up to a null */
static uint64_t count, sum;

static double cpu(void)
{
    struct timespec t;
    clock_gettime(CLOCK_PROCESS_CPUTIME_ID, &t);
    return (double)t.tv_sec + (double)t.tv_nsec / 1e9;
}

/* ---- what is measured ---- */

enum { OPENINGS = 1000, ROWS = 1000 };

static void opens(const void *unused, size_t n)
{
    (void)unused;
    (void)n;
    for (count = 0; count < OPENINGS; count++)
        sum += erm_open(image, length).handle.base;
}

static void lookups(const void *list, size_t n)
{
    const address *a = list;
    for (size_t i = 0; i < n; i++) {
        erm_found f = erm_lookup(image, length, handle, a[i].width, a[i].high, a[i].low);
        if (f.offset != ERM_NO_DATA)
            sum += f.offset;
    }
    count = n;
}

/* Sums up offsets or, if `shown`, the lengths as the crate shows them. */
static void by_rows(const void *options, size_t shown)
{
    static uint64_t walk[ERM_WALK_WORDS];
    static erm_network rows[ROWS];
    erm_within(image, length, handle, 128, 0, 0, 0, *(const uint64_t *)options, walk, ERM_WALK_WORDS);
    erm_filled f;
    do {
        f = erm_rows(image, length, handle, walk, ERM_WALK_WORDS, (uint64_t *)rows, ROWS * ERM_ROW_WORDS, UINT64_MAX);
        for (uint64_t i = 0; i < f.rows; i++)
            if (shown)
                sum += rows[i].length - (rows[i].kind == ERM_V4_IN_V6_SUBTREE ? handle.depth4 : 0);
            else if (rows[i].offset != ERM_NO_DATA)
                sum += rows[i].offset;
        count += f.rows;
    } while (f.status == ERM_OK);
}

static void by_single_calls(const void *options, size_t n)
{
    static uint64_t walk[ERM_WALK_WORDS];
    (void)n;
    erm_within(image, length, handle, 128, 0, 0, 0, *(const uint64_t *)options, walk, ERM_WALK_WORDS);
    for (;;) {
        erm_called c = erm_next(image, length, handle, walk, ERM_WALK_WORDS, UINT64_MAX);
        if (c.status != ERM_OK)
            return;
        if (c.network.offset != ERM_NO_DATA)
            sum += c.network.offset;
        count++;
    }
}

static void verifies(const void *scratch, size_t words)
{
    erm_verified v = erm_verify(image, length, (uint64_t *)scratch, words, UINT64_MAX);
    count = 1;
    sum = v.status;
}

static void measure(const char *what, void (*f)(const void *, size_t), const void *a, size_t n)
{
    double best = 1e9;
    char **w = wanted;
    while (*w != NULL && strcmp(*w, what) != 0)
        w++;
    if (*w == NULL)
        return;
    for (int i = 0; i < times; i++) {
        count = sum = 0;
        double from = cpu();
        f(a, n);
        double took = cpu() - from;
        if (took < best)
            best = took;
    }
    printf("%s %lu %lu %.9f\n", what, (unsigned long)count, (unsigned long)sum, best);
    fflush(stdout);
}

/* ---- reading ---- */

static uint8_t *whole(const char *path, size_t *n)
{
    FILE *f = fopen(path, "rb");
    fseek(f, 0, SEEK_END);
    *n = (size_t)ftell(f);
    rewind(f);
    uint8_t *b = malloc(*n + 1);
    *n = fread(b, 1, *n, f);
    b[*n] = 0;
    fclose(f);
    return b;
}

static uint64_t number(const char *s, int digits)
{
    char t[17];
    memcpy(t, s, (size_t)digits);
    t[digits] = 0;
    return strtoull(t, NULL, 16);
}

int main(int argc, char **argv)
{
    if (argc < 4)
        return 2;
    wanted = argv + 4;
    size_t n, all = 0, v4 = 0, v6 = 0;
    image = whole(argv[1], &length);
    char *text = (char *)whole(argv[2], &n);
    times = atoi(argv[3]);
    address *mixed = malloc(n / 9 * sizeof *mixed), *four = malloc(n / 9 * sizeof *four), *six = malloc(n / 9 * sizeof *six);
    for (char *s = strtok(text, "\n"); s != NULL; s = strtok(NULL, "\n")) {
        address a = { 32, 0, 0 };
        if (strlen(s) == 8)
            a.low = number(s, 8);
        else {
            a.width = 128;
            a.high = number(s, 16);
            a.low = number(s + 16, 16);
        }
        mixed[all++] = a;
        if (a.width == 32)
            four[v4++] = a;
        else
            six[v6++] = a;
    }
    erm_opened o = erm_open(image, length);
    if (o.status != ERM_OK)
        return 1;
    handle = o.handle;
    size_t words = erm_scratch_words(image, length).words;
    uint64_t *scratch = calloc(words, 8), plain = 0, whole_tree = ERM_ALIASED | ERM_DATALESS;
    measure("open", opens, NULL, 0);
    measure("lookup-v4", lookups, four, v4);
    measure("lookup-v6", lookups, six, v6);
    measure("lookup-mixed", lookups, mixed, all);
    measure("rows", by_rows, &plain, 0);
    measure("rows-all", by_rows, &whole_tree, 0);
    measure("rows-shown", by_rows, &whole_tree, 1);
    measure("single", by_single_calls, &plain, 0);
    measure("single-all", by_single_calls, &whole_tree, 0);
    measure("verify", verifies, scratch, words);
    return 0;
}
