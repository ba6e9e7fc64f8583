/* Strings as arrays of units, with an encoder of their own, and units drawn at random. */
#ifndef MODEL_H
#define MODEL_H

#include "../wtf8.h"

#include <stddef.h>
#include <stdint.h>
#include <string.h>

enum { MOST = 800 };

/* A string, the units that it must have, the capacity that it was last asked for, and whether it may have marks. */
struct pair {
    wtf8_string string;
    uint16_t units[4 * MOST];
    size_t n, capacity;
    int is_marked;
};

static uint64_t state;

static inline uint32_t below(uint32_t limit) {
    state = state * 6364136223846793005u + 1442695040888963407u;
    return (uint32_t)((state >> 33) % limit);
}

/* Code points at an edge of an encoding, and those of which a reader of text makes something else: a byte order mark, a
 * line's end, a letter and its accent. */
static const uint32_t edge_points[] = {
    0, '\n', '\r', 'e', 0x7F, 0x80, 0x301, 0x7FF, 0x800, 0xD7FF, 0xE000, 0xFEFF, 0xFFFD, 0xFFFE, 0xFFFF,
    0x10000, 0x103FF, 0x10400, 0x1FFFE, 0x10FC00, 0x10FFFF, 0xD800, 0xDBFF, 0xDC00, 0xDFFF};
enum { EDGE_POINTS = sizeof edge_points / sizeof edge_points[0], SURROGATES = 4, SUPPLEMENTARY = 6 };

/* A seed of a hash: 0, all bits, one bit, or any. */
static inline uint64_t a_seed(void) {
    uint64_t high;
    switch (below(4)) {
        case 0: return 0 - (uint64_t)below(2);
        case 1: return (uint64_t)1 << below(64);
        default: high = (uint64_t)below(UINT32_MAX) << 32; return high | below(UINT32_MAX);
    }
}

/* A scalar value, and any code point. */
static inline uint32_t a_scalar(void) {
    switch (below(6)) {
        case 0: return edge_points[below(EDGE_POINTS - SURROGATES)];
        case 1: return below(0xD800);
        case 2: return 0xE000 + below(0x2000);
        case 3: return 0x10000 + below(0x100000);
        default: return below(0x80);
    }
}

static inline uint32_t a_point(void) {
    return below(4) ? a_scalar() : below(2) ? 0xD800 + below(0x800) : edge_points[below(EDGE_POINTS)];
}

static inline uint16_t an_edge_unit(void) {
    uint32_t i = below(EDGE_POINTS - SUPPLEMENTARY), last = EDGE_POINTS - SURROGATES - SUPPLEMENTARY;
    return (uint16_t)edge_points[i < last ? i : i + SUPPLEMENTARY];
}

static inline uint16_t a_unit(void) {
    switch (below(7)) {
        case 0: return (uint16_t)(0xD800 + below(0x400));
        case 1: return (uint16_t)(0xDC00 + below(0x400));
        case 2: return (uint16_t)below(0x10000);
        case 3: return (uint16_t)below(0x800);
        case 4: return an_edge_unit();
        default: return (uint16_t)below(0x80);
    }
}

/* A number of units or bytes, at most LONGEST: mostly below 33, now and then any, or about a multiple of 64, where loops
 * over blocks end. */
enum { LONGEST = 300 };

static inline size_t a_length(void) {
    size_t block;
    switch (below(16)) {
        case 0: return below(LONGEST + 1);
        case 1: block = 64 * (1 + below(4)); return block - 2 + below(5);
        default: return below(33);
    }
}

static inline int is_lead(uint16_t u) { return u >= 0xD800 && u < 0xDC00; }
static inline int is_trail(uint16_t u) { return u >= 0xDC00 && u < 0xE000; }

/* The code point at index `i`, and in `*taken` the number of its units. */
static inline uint32_t point_at(const struct pair *p, size_t i, size_t *taken) {
    uint16_t u = p->units[i];
    if (is_lead(u) && i + 1 < p->n && is_trail(p->units[i + 1])) {
        *taken = 2;
        return 0x10000 + ((uint32_t)(u - 0xD800) << 10) + (uint32_t)(p->units[i + 1] - 0xDC00);
    }
    *taken = 1;
    return u;
}

static inline size_t encode(uint32_t c, uint8_t *to) {
    if (c < 0x80) { to[0] = (uint8_t)c; return 1; }
    if (c < 0x800) { to[0] = (uint8_t)(0xC0 | c >> 6); to[1] = (uint8_t)(0x80 | (c & 63)); return 2; }
    if (c < 0x10000) { to[0] = (uint8_t)(0xE0 | c >> 12); to[1] = (uint8_t)(0x80 | (c >> 6 & 63)); to[2] = (uint8_t)(0x80 | (c & 63)); return 3; }
    to[0] = (uint8_t)(0xF0 | c >> 18); to[1] = (uint8_t)(0x80 | (c >> 12 & 63)); to[2] = (uint8_t)(0x80 | (c >> 6 & 63)); to[3] = (uint8_t)(0x80 | (c & 63));
    return 4;
}

/* Replaces the units from `begin` to before `end` by others. */
static inline void splice(struct pair *p, size_t begin, size_t end, const uint16_t *units, size_t n) {
    memmove(p->units + begin + n, p->units + end, 2 * (p->n - end));
    if (n > 0) memcpy(p->units + begin, units, 2 * n);
    p->n += n;
    p->n -= end - begin;
}

static inline size_t byte_len(const struct pair *p) {
    uint8_t bytes[4];
    size_t len = 0, taken = 0;
    for (size_t i = 0; i < p->n; i += taken) len += encode(point_at(p, i, &taken), bytes);
    return len;
}

static inline int is_boundary(const struct pair *p, size_t position) {
    uint8_t bytes[4];
    size_t len = 0, taken = 0;
    for (size_t i = 0; i < p->n && len < position; i += taken) len += encode(point_at(p, i, &taken), bytes);
    return len == position;
}

/* The position in bytes of the code point that has the unit at `index`, or of the end. */
static inline size_t position_of(const struct pair *p, size_t index) {
    uint8_t bytes[4];
    size_t len = 0, taken = 0, i = 0;
    for (; i < p->n; i += taken) {
        uint32_t c = point_at(p, i, &taken);
        if (index < i + taken) break;
        len += encode(c, bytes);
    }
    return len;
}

/* The number of units before the last boundary at or before a position. */
static inline size_t units_before(const struct pair *p, size_t position) {
    uint8_t bytes[4];
    size_t len = 0, taken = 0, i = 0;
    for (; i < p->n; i += taken) {
        len += encode(point_at(p, i, &taken), bytes);
        if (position < len) break;
    }
    return i;
}

/* What a step over the code point after a position must return and write. */
static inline wtf8_result next_point(const struct pair *p, size_t *position, uint32_t *value) {
    uint8_t bytes[4];
    size_t len = 0, taken = 0, i = 0;
    for (; i < p->n && len < *position; i += taken) len += encode(point_at(p, i, &taken), bytes);
    if (len != *position) return WTF8_BAD_POSITION;
    if (i == p->n) return WTF8_END;
    *value = point_at(p, i, &taken);
    *position += encode(*value, bytes);
    return WTF8_OK;
}

/* The same of the first surrogate after a position. */
static inline wtf8_result next_surrogate(const struct pair *p, size_t *position, uint16_t *unit) {
    size_t at = *position;
    uint32_t value = 0;
    wtf8_result code;
    while ((code = next_point(p, &at, &value)) == WTF8_OK && (value < 0xD800 || value > 0xDFFF)) {}
    if (code != WTF8_OK) return code;
    *position = at;
    *unit = (uint16_t)value;
    return WTF8_OK;
}

/* The same of the code point before a position. */
static inline wtf8_result previous_point(const struct pair *p, size_t *position, uint32_t *value) {
    uint8_t bytes[4];
    size_t len = 0, taken = 0, before = 0;
    uint32_t last = 0;
    for (size_t i = 0; i < p->n && len < *position; i += taken) {
        before = len;
        last = point_at(p, i, &taken);
        len += encode(last, bytes);
    }
    if (len != *position) return WTF8_BAD_POSITION;
    if (len == 0) return WTF8_END;
    *position = before;
    *value = last;
    return WTF8_OK;
}

/* The same of the code point before an index: the lead of a pair that it divides. */
static inline wtf8_result must_be_before(const struct pair *p, size_t index, uint32_t *value) {
    if (p->n < index) return WTF8_BAD_POSITION;
    if (index == 0) return WTF8_END;
    *value = p->units[index - 1];
    if (1 < index && is_trail(p->units[index - 1]) && is_lead(p->units[index - 2]))
        *value = 0x10000 + ((uint32_t)(p->units[index - 2] - 0xD800) << 10) + (uint32_t)(p->units[index - 1] - 0xDC00);
    return WTF8_OK;
}

/* The number of units before the first one that is not below a limit. */
static inline size_t front_below(const struct pair *p, uint32_t limit) {
    size_t n = 0;
    while (n < p->n && p->units[n] < limit) n++;
    return n;
}

static inline int is_utf8(const struct pair *p) {
    size_t taken = 0;
    for (size_t i = 0; i < p->n; i += taken) {
        uint32_t c = point_at(p, i, &taken);
        if (c >= 0xD800 && c < 0xE000) return 0;
    }
    return 1;
}

static inline uint64_t rotated(uint64_t x, int by) { return x << by | x >> (64 - by); }

static inline void sip_round(uint64_t v[4]) {
    v[0] += v[1]; v[1] = rotated(v[1], 13) ^ v[0]; v[0] = rotated(v[0], 32);
    v[2] += v[3]; v[3] = rotated(v[3], 16) ^ v[2];
    v[0] += v[3]; v[3] = rotated(v[3], 21) ^ v[0];
    v[2] += v[1]; v[1] = rotated(v[1], 17) ^ v[2]; v[2] = rotated(v[2], 32);
}

/* SipHash of bytes under a key, with a number of rounds for each 8 bytes and one at the end. */
static inline uint64_t sip_hash(int rounds, int last_rounds, uint64_t key_0, uint64_t key_1, const uint8_t *bytes, size_t len) {
    uint64_t v[4] = {key_0 ^ 0x736F6D6570736575, key_1 ^ 0x646F72616E646F6D, key_0 ^ 0x6C7967656E657261, key_1 ^ 0x7465646279746573};
    for (size_t done = 0; done <= len; done += 8) {
        uint64_t word = len - done < 8 ? (uint64_t)len << 56 : 0;
        for (size_t i = 0; i < 8 && i < len - done; i++) word |= (uint64_t)bytes[done + i] << (8 * i);
        v[3] ^= word;
        for (int i = 0; i < rounds; i++) sip_round(v);
        v[0] ^= word;
    }
    v[2] ^= 0xFF;
    for (int i = 0; i < last_rounds; i++) sip_round(v);
    return v[0] ^ v[1] ^ v[2] ^ v[3];
}

/* SipHash-1-3 under the key 0 of the seeds, least byte first, the WTF-8 and FE. */
/* Writes the bytes of the string to `out`. The result is their number. */
static inline size_t bytes_of(const struct pair *p, uint8_t *out) {
    size_t len = 0, taken = 0;
    for (size_t i = 0; i < p->n; i += taken) len += encode(point_at(p, i, &taken), out + len);
    return len;
}

static inline uint64_t hash_of(const struct pair *p, uint64_t seed_0, uint64_t seed_1) {
    uint8_t bytes[16 + 12 * MOST + 1];
    for (size_t i = 0; i < 8; i++) {
        bytes[i] = (uint8_t)(seed_0 >> (8 * i));
        bytes[8 + i] = (uint8_t)(seed_1 >> (8 * i));
    }
    size_t len = 16 + bytes_of(p, bytes + 16);
    bytes[len++] = 0xFE;
    return sip_hash(1, 3, 0, 0, bytes, len);
}

static inline int compare_units(const struct pair *p, const struct pair *q) {
    for (size_t i = 0; i < p->n && i < q->n; i++)
        if (p->units[i] != q->units[i]) return p->units[i] < q->units[i] ? -1 : 1;
    return p->n == q->n ? 0 : p->n < q->n ? -1 : 1;
}

/* Whether the units from `index` on begin with those of `q`. */
static inline int has_at(const struct pair *p, size_t index, const struct pair *q) {
    for (size_t i = 0; i < q->n; i++)
        if (index >= p->n || p->n - index <= i || p->units[index + i] != q->units[i]) return 0;
    return 1;
}

/* Whether the first index at or after `from` at which `n` units occur, or the last one at or before it, is what a call wrote over
 * 77, or it said that there is none. */
static inline int is_found(const struct pair *p, size_t from, const uint16_t *units, size_t n, int is_last, wtf8_result code, size_t index) {
    for (size_t i = 0; n <= p->n && i <= p->n - n; i++) {
        size_t at = is_last ? p->n - n - i : i, same = 0;
        while (same < n && p->units[at + same] == units[same]) same++;
        if (same == n && (is_last ? at <= from : from <= at)) return code == WTF8_OK && index == at;
    }
    return code == WTF8_END && index == 77;
}

static inline int compare_points(const struct pair *p, const struct pair *q) {
    size_t i = 0, j = 0, one = 0, two = 0;
    for (; i < p->n && j < q->n; i += one, j += two) {
        uint32_t c = point_at(p, i, &one), d = point_at(q, j, &two);
        if (c != d) return c < d ? -1 : 1;
    }
    return i < p->n ? 1 : j < q->n ? -1 : 0;
}

/* Writes the units of a code point, and returns their number. */
static inline size_t units_of(uint32_t c, uint16_t *units) {
    units[0] = (uint16_t)(c < 0x10000 ? c : 0xD800 + ((c - 0x10000) >> 10));
    units[1] = (uint16_t)(0xDC00 + (c & 0x3FF));
    return c < 0x10000 ? 1 : 2;
}

#endif
