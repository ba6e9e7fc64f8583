/* Texts of a periodic pattern of kinds of code points, a letter for each: A is ASCII, 2, 3 and 4 have that many bytes, L is
 * a lone lead surrogate and T a lone trail surrogate, so `3A4` is a unit of three bytes, an ASCII unit and a pair by turns.
 * A T after an L would complete a pair. */
#ifndef PATTERNS_H
#define PATTERNS_H

#include <stddef.h>
#include <stdint.h>
#include <string.h>

static inline int is_pattern(const char *word) {
    return word[0] != 0 && word[strspn(word, "A234LT")] == 0;
}

/* The next number of 24 bits of a linear congruential generator. */
static inline uint32_t next_random(uint32_t *state) {
    *state = *state * 1664525u + 1013904223u;
    return *state >> 8;
}

/* A unit of a kind of one unit. */
static inline uint16_t unit_of_kind(char kind, uint32_t random) {
    uint32_t unit;
    switch (kind) {
        case 'A': return (uint16_t)(0x20 + random % 0x5F);
        case '2': return (uint16_t)(0x80 + random % 0x780);
        case '3':
            unit = 0x800 + random % 0xF000;
            return (uint16_t)(unit < 0xD800 ? unit : unit + 0x800);
        case 'L': return (uint16_t)(0xD800 + random % 0x400);
        default: return (uint16_t)(0xDC00 + random % 0x400);
    }
}

/* Writes `n` units of a pattern. Letters of a kind differ, by a generator that begins alike each time. A pair that would
 * be cut at the end is an ASCII unit. */
static inline void fill_by_pattern(const char *pattern, uint16_t *units, size_t n) {
    uint32_t state = 1;
    size_t period = strlen(pattern), i = 0;
    for (size_t at = 0; at < n; i = i + 1 < period ? i + 1 : 0) {
        char kind = pattern[i];
        if (kind == '4' && n - at < 2) kind = 'A';
        if (kind == '4') units[at++] = unit_of_kind('L', next_random(&state));
        units[at++] = unit_of_kind(kind == '4' ? 'T' : kind, next_random(&state));
    }
}

#endif
