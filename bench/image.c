/*
 * Writes an IPv6 image with an IPv4 subtree, and addresses to look up, all of it from fixed numbers.
 *
 *     image NODES SIZE RECORDS IMAGE ADDRESSES COUNT
 *
 * Networks of chance are added until there are NODES nodes; they are numbered in the order of a walk, as writers do. Each of the
 * RECORDS data records, about 230 bytes long, is the data of some network as long as there are networks enough. Of the COUNT
 * addresses half are IPv4, in random order; three of four lie in a network that was added.
 */
#include <stdint.h>
#include <stdio.h>
#include <stdlib.h>
#include <string.h>

#define NOTHING UINT32_MAX
#define DATA 0x80000000u           /* set in a leaf's record: the rest is the number of a data record */

typedef struct { uint32_t side[2]; } node;
typedef struct { uint64_t high, low; unsigned length; } network;

static node *nodes;
static uint32_t used, wanted;
static network *added;
static size_t added_count, added_room;
static uint32_t leaves;
static uint64_t state = 20261116;

static uint64_t chance(void)
{
    uint64_t z = state += 0x9e3779b97f4a7c15u;
    z = (z ^ z >> 30) * 0xbf58476d1ce4e5b9u;
    z = (z ^ z >> 27) * 0x94d049bb133111ebu;
    return z ^ z >> 31;
}

static int bit(const network *n, unsigned i)
{
    return i < 64 ? n->high >> (63 - i) & 1 : n->low >> (127 - i) & 1;
}

/* A leaf that is gone through becomes a node with the leaf on both sides. */
static void add(const network *n, uint32_t record)
{
    uint32_t at = 0;
    for (unsigned i = 0; ; i++) {
        uint32_t *to = &nodes[at].side[bit(n, i)];
        if (i + 1 == n->length) {
            if (*to == NOTHING || *to & DATA)
                *to = record;
            return;
        }
        if (*to == NOTHING || *to & DATA) {
            uint32_t old = *to;
            nodes[used].side[0] = nodes[used].side[1] = old;
            *to = used++;
        }
        at = *to;
    }
}

static network of_chance(void)
{
    network n;
    if (chance() % 5 < 3) {
        n.high = 0;
        n.low = chance() & 0xffffffffu;
        n.length = 96 + 14 + (unsigned)(chance() % 12);
    } else {
        /* few first halves, so that networks lie beside one another */
        n.high = (uint64_t)0x2 << 60 | chance() % 64 << 48 | chance() % 4096 << 32 | (chance() & 0xffff0000u);
        n.low = chance();
        n.length = 32 + (unsigned)(chance() % 14);
    }
    return n;
}

/* ---- values ---- */

static uint8_t *data;
static size_t data_length, data_room;

static void put(const void *b, size_t n)
{
    if (data_length + n > data_room) {
        data_room = 2 * data_room + n + 4096;
        data = realloc(data, data_room);
    }
    memcpy(data + data_length, b, n);
    data_length += n;
}

static void put_byte(unsigned b)
{
    uint8_t x = (uint8_t)b;
    put(&x, 1);
}

static void put_text(const char *s)
{
    put_byte(0x40 | (unsigned)strlen(s));
    put(s, strlen(s));
}

static void put_number(unsigned control, int extended, unsigned bytes, uint64_t n)
{
    put_byte(control | bytes);
    if (extended)
        put_byte((unsigned)extended);
    for (unsigned i = bytes; i-- > 0; )
        put_byte((unsigned)(n >> 8 * i & 255));
}

static void put_record(uint32_t i)
{
    static const char note[] = "a longer text, which has to be read whole when the image is verified, and of which a part is not "
        "ASCII: caf\xc3\xa9, gar\xc3\xa7on, \xe6\x97\xa5\xe6\x9c\xac";
    char name[24];
    snprintf(name, sizeof name, "place number %u", i);
    put_byte(0xe4);
    put_text("city");
    put_byte(0xe2);
    put_text("geoname_id");
    put_number(0xc0, 0, 4, 1000000 + i);
    put_text("names");
    put_byte(0xe1);
    put_text("en");
    put_text(name);
    put_text("location");
    put_byte(0xe2);
    put_text("lat");
    put_number(0x60, 0, 8, 0x4049000000000000u + i);
    put_text("lon");
    put_number(0x60, 0, 8, 0xc049000000000000u + i);
    put_text("note");
    put_byte(0x5d);
    put_byte(sizeof note - 1 - 29);
    put(note, sizeof note - 1);
    put_text("set");
    put_byte(0x02);
    put_byte(0x04);
    put_byte(0x01);
    put_byte(0x07);
    put_byte(0x00);
    put_byte(0x07);
}

static void put_metadata(uint32_t count, unsigned size)
{
    put("\xab\xcd\xefMaxMind.com", 14);
    put_byte(0xe9);
    put_text("binary_format_major_version");
    put_number(0xa0, 0, 1, 2);
    put_text("binary_format_minor_version");
    put_number(0xa0, 0, 0, 0);
    put_text("build_epoch");
    put_number(0x00, 2, 4, 1700000000);
    put_text("database_type");
    put_text("Measured");
    put_text("description");
    put_byte(0xe1);
    put_text("en");
    put_text("for measuring");
    put_text("ip_version");
    put_number(0xa0, 0, 1, 6);
    put_text("languages");
    put_byte(0x01);
    put_byte(0x04);
    put_text("en");
    put_text("node_count");
    put_number(0xc0, 0, 4, count);
    put_text("record_size");
    put_number(0xa0, 0, 1, size);
}

/* ---- writing ---- */

static uint32_t *order, *number_of;

/* Numbers the nodes as a walk comes to them. */
static void number_nodes(void)
{
    uint32_t *waiting = malloc(4096), count = 0, next = 0;
    waiting[count++] = 0;
    while (count) {
        uint32_t n = waiting[--count];
        number_of[n] = next;
        order[next++] = n;
        for (int s = 1; s >= 0; s--)
            if (!(nodes[n].side[s] & DATA))
                waiting[count++] = nodes[n].side[s];
    }
    free(waiting);
}

static void put_node(uint8_t *to, unsigned size, uint64_t l, uint64_t r)
{
    if (size == 24)
        for (int i = 0; i < 3; i++) {
            to[i] = (uint8_t)(l >> (16 - 8 * i));
            to[3 + i] = (uint8_t)(r >> (16 - 8 * i));
        }
    else if (size == 28) {
        for (int i = 0; i < 3; i++) {
            to[i] = (uint8_t)(l >> (16 - 8 * i));
            to[4 + i] = (uint8_t)(r >> (16 - 8 * i));
        }
        to[3] = (uint8_t)((l >> 24) << 4 | r >> 24);
    } else
        for (int i = 0; i < 4; i++) {
            to[i] = (uint8_t)(l >> (24 - 8 * i));
            to[4 + i] = (uint8_t)(r >> (24 - 8 * i));
        }
}

static void write_addresses(const char *path, size_t count)
{
    FILE *f = fopen(path, "w");
    for (size_t i = 0; i < count; i++) {
        network n = of_chance();
        if (chance() % 4) {
            n = added[chance() % added_count];
            /* host bits of chance */
            uint64_t high = chance(), low = chance();
            if (n.length < 64) {
                n.high = (n.high >> (64 - n.length) << (64 - n.length)) | (high & (UINT64_MAX >> n.length));
                n.low = low;
            } else
                n.low = (n.low >> (128 - n.length) << (128 - n.length)) | (low & (((uint64_t)1 << (128 - n.length)) - 1));
        }
        if (n.length >= 96)
            fprintf(f, "%08lx\n", (unsigned long)(n.low & 0xffffffffu));
        else
            fprintf(f, "%016lx%016lx\n", (unsigned long)n.high, (unsigned long)n.low);
    }
    fclose(f);
}

int main(int argc, char **argv)
{
    if (argc != 7)
        return 2;
    wanted = (uint32_t)strtoul(argv[1], NULL, 10);
    unsigned size = (unsigned)strtoul(argv[2], NULL, 10);
    uint32_t records = (uint32_t)strtoul(argv[3], NULL, 10);
    nodes = malloc(((size_t)wanted + 256) * sizeof *nodes);
    nodes[0].side[0] = nodes[0].side[1] = NOTHING;
    used = 1;
    while (used < wanted) {
        network n = of_chance();
        if (added_count == added_room) {
            added_room = 2 * added_room + 1024;
            added = realloc(added, added_room * sizeof *added);
        }
        added[added_count++] = n;
        add(&n, DATA | leaves++ % records);
    }
    uint32_t *place = malloc((size_t)records * 4);
    for (uint32_t i = 0; i < records; i++) {
        place[i] = (uint32_t)data_length;
        put_record(i);
    }
    size_t section = data_length;
    put_metadata(used, size);
    order = malloc((size_t)used * 4);
    number_of = malloc((size_t)used * 4);
    number_nodes();
    uint8_t *tree = calloc((size_t)used * size / 4 + 16, 1);
    for (uint32_t i = 0; i < used; i++) {
        uint64_t v[2];
        for (int s = 0; s < 2; s++) {
            uint32_t x = nodes[order[i]].side[s];
            v[s] = x == NOTHING ? used : x & DATA ? (uint64_t)used + 16 + place[x & ~DATA] : number_of[x];
        }
        put_node(tree + (size_t)i * size / 4, size, v[0], v[1]);
    }
    FILE *f = fopen(argv[4], "wb");
    fwrite(tree, 1, (size_t)used * size / 4 + 16, f);
    fwrite(data, 1, data_length, f);
    fclose(f);
    write_addresses(argv[5], strtoul(argv[6], NULL, 10));
    printf("%u nodes, %u networks added, %zu bytes of data\n", used, leaves, section);
    return 0;
}
