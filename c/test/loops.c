/* Makes a string of a text again ("in"), anew ("new") or of its bytes in UTF-8 ("text"), copies its units ("out") or its
 * code points ("points") out, empties it and appends an equal one ("append") or its units ("push"), compares it with an
 * equal one by bytes ("equal"), by units ("order") or as a front ("prefix"), or with its units ("same", "with"), hashes
 * these ("hashed"), finds its last 12 units ("find"), inserts 12 in the middle and removes them ("edit"), appends its bytes
 * but the last one to an empty string with U+FFFD for what is no UTF-8 ("lossy"), copies its text in Latin-1 out ("latin1"),
 * asks for its length ("length"), for the unit in the middle ("unit"), its position ("at") or the
 * index of that ("before"), or whether a string ("starts") or an array ("begins") of 12 units stands there, copies 64
 * units from there ("part") or appends them to an empty string ("slice"), or walks a step, from the start again after the
 * end ("next"), or back ("back"). "marked" before one of these marks the string. The input says which, for which text or
 * pattern, of how many units, at most 100,000, and how often. c/count, gate/instructions and compare/patterns count what
 * it takes. */
#include "../wtf8.h"
#include "patterns.h"

#include <stdio.h>
#include <string.h>

enum { UNITS = 100000 };

static uint16_t unit_of(const char *text, size_t i) {
    static const uint16_t mixed[] = {'a', 0xE9, 0x4E2D, 0xD83D, 0xDCA9};
    if (strcmp(text, "ASCII") == 0) return (uint16_t)('a' + i % 26);
    if (strcmp(text, "Latin") == 0) return (uint16_t)(0xE0 + i % 16);
    if (strcmp(text, "CJK") == 0) return (uint16_t)(0x4E00 + i % 0x5000);
    if (strcmp(text, "mixed") == 0) return mixed[i % 5];
    if (strcmp(text, "supplementary") == 0) return (uint16_t)(i % 2 == 0 ? 0xD83D : 0xDC00 + i % 0x400);
    return (uint16_t)(0xD800 + i % 0x400); /* lone leads */
}

static void fill(const char *text, uint16_t *units, size_t n) {
    if (is_pattern(text)) fill_by_pattern(text, units, n);
    else for (size_t i = 0; i < n; i++) units[i] = unit_of(text, i);
}

enum call { IN, OUT, APPEND, EQUAL, ORDER, LENGTH, UNIT, PART, PUSH, SAME, WITH, AT, BEFORE, STARTS, BEGINS, SLICE, NEXT, BACK, PREFIX, HASHED, POINTS, TEXT,
            FIND, EDIT, LOSSY, LATIN1, NEW };
static const char *const names[] = {"in", "out", "append", "equal", "order", "length", "unit", "part", "push", "same", "with",
                                    "at", "before", "starts", "begins", "slice", "next", "back", "prefix", "hashed", "points", "text",
                                    "find", "edit", "lossy", "latin1", "new"};

/* A loop of its own, so that nothing but the call is in it. */
#define REPEAT(is_bad) for (size_t i = 0; i < rounds; i++) if (is_bad) bad++; break

int main(void) {
    static uint16_t units[UNITS], out[UNITS];
    static uint32_t points[UNITS];
    static uint8_t bytes[3 * UNITS];
    char word[8], text[64];
    uint16_t unit = 0;
    uint32_t value = 0;
    size_t count, rounds, len = 0, bad = 0, at = 0, middle = 0;
    wtf8_string string = WTF8_EMPTY, equal = WTF8_EMPTY, part = WTF8_EMPTY;
    if (scanf("%7s", word) != 1) return 1;
    int is_marked = strcmp(word, "marked") == 0;
    if (is_marked && scanf("%7s", word) != 1) return 1;
    if (scanf("%63s %zu %zu", text, &count, &rounds) != 3 || count > UNITS) return 1;
    enum call call = IN;
    while (strcmp(word, names[call]) != 0)
        if (++call > NEW) return 1;
    fill(text, units, count);
    bad += wtf8_set_units(&string, units, count) != WTF8_OK;
    bad += wtf8_set_units(&equal, units, count) != WTF8_OK;
    bad += wtf8_set_units(&part, units + count / 2, count - count / 2 < 12 ? count - count / 2 : 12) != WTF8_OK;
    bad += wtf8_position_at(&string, count / 2, &middle) != WTF8_OK;
    len = wtf8_byte_len(&string);
    if (is_marked) bad += wtf8_mark(&string) != WTF8_OK;
    switch (call) {
        case NEW: REPEAT((wtf8_free(&string), wtf8_set_units(&string, units, count) != WTF8_OK));
        case IN: REPEAT(wtf8_set_units(&string, units, count) != WTF8_OK);
        case OUT: REPEAT(wtf8_copy_units(&string, out, count, &len) != WTF8_OK);
        case APPEND: REPEAT((wtf8_clear(&string), wtf8_push_string(&string, &equal) != WTF8_OK));
        case EQUAL: REPEAT(!wtf8_equal(&string, &equal));
        case ORDER: REPEAT(wtf8_compare_units(&string, &equal) != 0);
        case LENGTH: REPEAT(wtf8_unit_len(&string) != count);
        case UNIT: REPEAT(wtf8_unit_at(&string, count / 2, &unit) != WTF8_OK);
        case PART: REPEAT(wtf8_copy_slice(&string, count / 2, count / 2 + 64, out, 64, &len) != WTF8_OK);
        case PUSH: REPEAT((wtf8_clear(&string), wtf8_push_units(&string, units, count) != WTF8_OK));
        case PREFIX: REPEAT(!wtf8_starts_with(&string, 0, &equal));
        case HASHED: REPEAT(wtf8_hash_units(units, count, 1, 2) == 0);
        case POINTS: REPEAT((at = 0, wtf8_copy_code_points(&string, &at, points, UNITS, &len) != WTF8_OK));
        case TEXT:
            bad += wtf8_copy_utf8(&string, bytes, sizeof bytes, &len) != WTF8_OK;
            REPEAT(wtf8_set_utf8(&string, bytes, len, NULL) != WTF8_OK);
        case FIND: REPEAT(count < 12 || wtf8_find_units(&string, 0, units + count - 12, 12, &at) != WTF8_OK || at != count - 12);
        case EDIT:
            bad += wtf8_reserve_bytes(&string, 99) != WTF8_OK;
            REPEAT(wtf8_insert_units(&string, count / 2, units, 12) + wtf8_remove_units(&string, count / 2, count / 2 + 12) != WTF8_OK);
        case LOSSY:
            bad += wtf8_copy_utf8(&string, bytes, sizeof bytes, &len) != WTF8_OK;
            REPEAT((wtf8_clear(&part), wtf8_push_utf8_lossy(&part, bytes, len - 1) != WTF8_OK));
        case LATIN1: REPEAT(wtf8_copy_latin1(&string, bytes, sizeof bytes, &len, NULL) != WTF8_OK);
        case SAME: REPEAT(!wtf8_equal_units(&string, units, count));
        case WITH: REPEAT(wtf8_compare_with_units(&string, units, count) != 0);
        case AT: REPEAT(wtf8_position_at(&string, count / 2, &at) != WTF8_OK);
        case BEFORE: REPEAT(wtf8_unit_before(&string, middle) != count / 2);
        case STARTS: REPEAT(!wtf8_starts_with(&string, count / 2, &part));
        case BEGINS: REPEAT(!wtf8_starts_with_units(&string, count / 2, units + count / 2, 12));
        case SLICE: REPEAT((wtf8_clear(&part), wtf8_push_slice(&part, &string, count / 2, count / 2 + 64) != WTF8_OK));
        case NEXT: REPEAT((at = at < len ? at : 0, wtf8_next_code_point(&string, &at, &value) != WTF8_OK));
        case BACK: REPEAT((at = 0 < at ? at : len, wtf8_previous_code_point(&string, &at, &value) != WTF8_OK));
    }
    bad += wtf8_unit_len(&string) != count;
    wtf8_free(&string);
    wtf8_free(&equal);
    wtf8_free(&part);
    return bad != 0;
}
