/*
 * What our own additions must do, written down a second time: the handle check, a lookup and a walk's call over any handle and
 * any walk. Where the crate has no counterpart, the library is held against this.
 */
#ifndef MODEL_H
#define MODEL_H

#include <stdint.h>
#include <string.h>
#include "ermopinaw.h"

static int model_fits(erm_handle h, uint64_t n)
{
    if (n > 2147483647 || (h.version != 4 && h.version != 6))
        return 0;
    if (h.nodes < 1 || h.nodes > 4294967295u || (h.size != 24 && h.size != 28 && h.size != 32))
        return 0;
    if (h.base != h.nodes * h.size / 4 + 16)
        return 0;
    /* the marker's start is the metadata's start less 14 */
    if (h.meta < 14 || h.base > h.meta - 14 || h.meta > n)
        return 0;
    if (h.depth4 > 96 || h.start4 > 4294967295u)
        return 0;
    return h.version == 6 || (h.start4 == 0 && h.depth4 == 0);
}

static uint64_t model_record(const uint8_t *image, erm_handle h, uint64_t node, int right)
{
    const uint8_t *p = image + node * (h.size / 4);
    if (h.size == 24) {
        p += right ? 3 : 0;
        return (uint64_t)p[0] << 16 | (uint64_t)p[1] << 8 | p[2];
    }
    if (h.size == 28) {
        uint64_t top = right ? p[3] & 15 : p[3] >> 4;
        p += right ? 4 : 0;
        return top << 24 | (uint64_t)p[0] << 16 | (uint64_t)p[1] << 8 | p[2];
    }
    p += right ? 4 : 0;
    return (uint64_t)p[0] << 24 | (uint64_t)p[1] << 16 | (uint64_t)p[2] << 8 | p[3];
}

static int model_bit(uint64_t width, uint64_t high, uint64_t low, uint64_t i)
{
    uint64_t from_end = width - 1 - i;
    return from_end < 64 ? low >> from_end & 1 : high >> (from_end - 64) & 1;
}

static void model_mask(uint64_t width, uint64_t *high, uint64_t *low, uint64_t length)
{
    uint64_t off = width - length;
    if (off >= 128)
        *high = *low = 0;
    else if (off >= 64) {
        *low = 0;
        *high = off == 64 ? *high : *high >> (off - 64) << (off - 64);
    } else
        *low = *low >> off << off;
}

static erm_found model_lookup(const uint8_t *image, size_t n, erm_handle h, uint64_t width, uint64_t high, uint64_t low)
{
    erm_found no = { ERM_REFUSED, 0 };
    if ((width != 32 && width != 128) || (width == 32 && (high != 0 || low > 4294967295u))) {
        no.second = 13;
        return no;
    }
    if (!model_fits(h, n)) {
        no.second = 9;
        return no;
    }
    if (h.version == 4 && width == 128) {
        no.second = 10;
        return no;
    }
    uint64_t node = width == 32 ? h.start4 : 0, depth = 0;
    while (depth < width && node < h.nodes)
        node = model_record(image, h, node, model_bit(width, high, low, depth++));
    uint64_t length = depth + (width == 32 && h.version == 6 ? h.depth4 : 0);
    if (node <= h.nodes) {
        erm_found nothing = { ERM_NO_DATA, length };
        return nothing;
    }
    if (node < h.nodes + 16 || node - h.nodes - 16 >= h.meta - 14 - h.base) {
        no.second = 11;
        return no;
    }
    erm_found found = { node - h.nodes - 16, length };
    return found;
}

/* A header: kind, size, and where it ends; 0 if it does not fit. A pointer's size holds its class and its three bits. */
static int model_header(const uint8_t *s, uint64_t n, uint64_t at, uint64_t *kind, uint64_t *size, uint64_t *after)
{
    if (at >= n)
        return 0;
    uint8_t c = s[at++];
    *kind = c >> 5;
    *size = c & 31;
    if (*kind == 0) {
        if (at >= n)
            return 0;
        *kind = (uint64_t)s[at++] + 7;
    }
    if (*kind != 1 && *size >= 29) {
        uint64_t more = *size - 28, sum = 0;
        if (at + more > n)
            return 0;
        for (uint64_t i = 0; i < more; i++)
            sum = sum << 8 | s[at + i];
        *size = sum + (more == 1 ? 29 : more == 2 ? 285 : 65821);
        at += more;
    }
    *after = at;
    return 1;
}

/* 1: an empty map or array; 0: anything else; -1: refused. */
static int model_empty(const uint8_t *s, uint64_t n, uint64_t at)
{
    uint64_t kind, size, after;
    if (!model_header(s, n, at, &kind, &size, &after))
        return -1;
    if (kind == 1) {
        uint64_t bytes = size / 8 + 1, target = bytes == 4 ? 0 : size & 7;
        if (after + bytes > n)
            return -1;
        for (uint64_t i = 0; i < bytes; i++)
            target = target << 8 | s[after + i];
        target += bytes == 2 ? 2048 : bytes == 3 ? 526336 : 0;
        if (!model_header(s, n, target, &kind, &size, &after) || kind == 1)
            return -1;
    }
    return (kind == 7 || kind == 11) && size == 0;
}

static int model_low(uint64_t high, uint64_t low)
{
    return high == 0 && low <= 4294967295u;
}

static erm_called model_next(const uint8_t *image, size_t n, erm_handle h, uint64_t *walk, size_t words, uint64_t budget)
{
    erm_called r;
    memset(&r, 0, sizeof r);
    if (words < ERM_WALK_WORDS || walk[518] > 7) {
        r.status = 13;
        return r;
    }
    if (!model_fits(h, n)) {
        r.status = 9;
        return r;
    }
    const uint8_t *section = image + h.base;
    uint64_t room = h.meta - 14 - h.base, width = walk[517], options = walk[518];
    int subtree = h.version == 6 && h.start4 < h.nodes;
    for (;;) {
        uint64_t count = walk[516];
        if (count == 0) {
            r.status = ERM_END;
            return r;
        }
        if (count > 129 || (width != 32 && width != 128)) {
            r.status = 13;
            return r;
        }
        uint64_t *p = walk + 4 * (count - 1);
        uint64_t value = p[0], high = p[1], low = p[2], length = p[3];
        if (length > width || (width == 32 && !model_low(high, low)) || (value < h.nodes && length < width && count == 129)) {
            r.status = 13;
            return r;
        }
        if (r.taken >= budget) {
            r.status = ERM_PAUSED;
            return r;
        }
        r.taken++;
        memset(p, 0, 32);
        walk[516] = count - 1;
        if (!(options & ERM_ALIASED) && h.start4 != 0 && value == h.start4 && width == 128 && !model_low(high, low))
            continue;
        if (value < h.nodes) {
            if (length == width) {
                r.status = 12;
                return r;
            }
            uint64_t from_end = width - 1 - length;
            p[0] = model_record(image, h, value, 1);
            p[1] = from_end >= 64 ? high | (uint64_t)1 << (from_end - 64) : high;
            p[2] = from_end < 64 ? low | (uint64_t)1 << from_end : low;
            p[3] = length + 1;
            p[4] = model_record(image, h, value, 0);
            p[5] = high;
            p[6] = low;
            p[7] = length + 1;
            walk[516] = count + 1;
            continue;
        }
        uint64_t offset = ERM_NO_DATA;
        if (value == h.nodes) {
            if (!(options & ERM_DATALESS))
                continue;
        } else {
            if (value < h.nodes + 16 || value - h.nodes - 16 >= room) {
                r.status = 11;
                return r;
            }
            offset = value - h.nodes - 16;
            if (options & ERM_SKIP_EMPTY) {
                int empty = model_empty(section, room, offset);
                if (empty < 0) {
                    r.status = 14;
                    return r;
                }
                if (empty)
                    continue;
            }
        }
        r.network.kind = width == 32 ? (h.version == 6 && !subtree ? ERM_V6 : ERM_V4)
            : model_low(high, low) && subtree && h.depth4 <= length ? ERM_V4_IN_V6_SUBTREE : ERM_V6;
        model_mask(width, &high, &low, length);
        r.network.high = high;
        r.network.low = low;
        r.network.length = length;
        r.network.offset = offset;
        return r;
    }
}

#endif
