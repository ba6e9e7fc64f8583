/* Makes each call over strings of one length and kind, and has callgrind write a dump of what it took, by the call's name. None
 * takes more stack than wtf8.h says. Arguments: the number of units, at least 1,000, and the kind: `ascii`, or `cjk` with marks.
 * c/test_growth compares lengths. */
#include "../wtf8.h"
#include "must.h"

#include <string.h>
#include <valgrind/callgrind.h>

enum { UNITS = 100000, FEW = 12, MANY = 99, POINTS = 3 * UNITS };

static uint16_t units[UNITS], out[UNITS], other[FEW] = {'z', 'y', 'x', 'w'};
static uint8_t text[POINTS], lossy[POINTS];
static uint32_t points[FEW];
static volatile size_t answer; /* what a call returned, so that it is made */
static int is_marked;

enum { STACK = 1 << 16, MOST_STACK = 3 << 10, MOST_OF_SEARCH = 32 << 10, FILLED = 0x5A };

/* Fills what is below the stack, or returns how many bytes of it were written since, up to the deepest one. */
static __attribute__((noinline)) size_t stack(int is_filled) {
    uint8_t below[STACK];
    size_t i = 0;
    if (is_filled) memset(below, FILLED, STACK);
    __asm__ volatile("" : "+m"(below)); /* what is there is filled, or read as it was left */
    while (i < STACK && below[i] == FILLED) i++;
    return STACK - i;
}

/* Counts a call alone: the string is made before, and the results are looked at after it. */
#define COUNT(name, call)                                                                  \
    do {                                                                                   \
        stack(1);                                                                          \
        CALLGRIND_ZERO_STATS;                                                              \
        answer = (size_t)(call);                                                           \
        CALLGRIND_DUMP_STATS_AT(#name);                                                    \
        size_t used = stack(0);                                                            \
        must(used <= (strstr(#name, "find") ? MOST_OF_SEARCH : MOST_STACK), #name ": stack");\
    } while (0)
#define COUNT_VOID(name, call) COUNT(name, ((call), WTF8_OK))
#define COUNT_OK(name, call)                                \
    do {                                                    \
        COUNT(name, call);                                  \
        must(answer == WTF8_OK, #name);                     \
    } while (0)

static void make(wtf8_string *string, size_t n) {
    must(wtf8_set_units(string, units, n) == WTF8_OK && wtf8_reserve_bytes(string, 999) == WTF8_OK, "a string");
    if (is_marked) wtf8_mark(string);
}

int main(int argc, char **argv) {
    must(argc == 3, "two arguments");
    size_t n = (size_t)atol(argv[1]), len, position, index, byte;
    is_marked = strcmp(argv[2], "cjk") == 0;
    must(n >= 1000 && n <= UNITS, "the number of units");
    for (size_t i = 0; i < n; i++) units[i] = (uint16_t)(is_marked ? 0x4E00 + i % 0x5000 : 'a' + i % 26);
    wtf8_string s = WTF8_EMPTY, same = WTF8_EMPTY, part = WTF8_EMPTY, set = WTF8_EMPTY, moved = WTF8_EMPTY;
    uint16_t unit;
    uint32_t point;
    make(&s, n);
    make(&same, n);
    must(wtf8_copy_utf8(&s, text, POINTS, &len) == WTF8_OK, "the text");
    size_t width = len / n;
    /* Three quarters on, 64 units after a mark, and further from both ends than a search decodes at a time. */
    index = 3 * n / 512 * 128 + 64;
    byte = index * width;
    must(wtf8_set_units(&part, units + index, FEW) == WTF8_OK && wtf8_reserve_bytes(&part, 999) == WTF8_OK, "a part");

    /* Constant. */
    COUNT(unit_len, wtf8_unit_len(&s));
    COUNT(byte_len, wtf8_byte_len(&s));
    COUNT(capacity, wtf8_capacity(&s));
    COUNT(is_boundary, wtf8_is_boundary(&s, byte));
    position = byte;
    COUNT_OK(next_code_point, wtf8_next_code_point(&s, &position, &point));
    COUNT_OK(previous_code_point, wtf8_previous_code_point(&s, &position, &point));
    COUNT_OK(position_at, wtf8_position_at(&s, index, &position));
    COUNT(unit_before, wtf8_unit_before(&s, byte));
    COUNT_OK(unit_at, wtf8_unit_at(&s, index, &unit));
    COUNT_OK(code_point_before, wtf8_code_point_before(&s, index, &point));
    COUNT(is_ascii, wtf8_is_ascii(&s));
    COUNT_VOID(move, wtf8_move(&moved, &s));
    wtf8_move(&s, &moved);
    COUNT_OK(pop, wtf8_pop(&s, &point));
    COUNT_OK(truncate_units, wtf8_truncate_units(&s, n - FEW));
    COUNT_OK(truncate_bytes, wtf8_truncate_bytes(&s, (n - 2 * FEW) * width));
    make(&s, n);
    COUNT(equal, wtf8_equal(&s, &part));
    COUNT(equal_units, wtf8_equal_units(&s, units, FEW));
    COUNT(equal_utf8, wtf8_equal_utf8(&s, text, FEW));

    /* Linear in what they are given, or in what two begin with alike. */
    COUNT(starts_with, wtf8_starts_with(&s, index, &part));
    must(answer == 1, "a string begins with its part");
    COUNT(starts_with_utf8, wtf8_starts_with_utf8(&s, text, FEW));
    must(answer == 1, "a string begins with its text");
    COUNT(starts_with_units, wtf8_starts_with_units(&s, index, units + index, FEW));
    must(answer == 1, "a string begins with its units");
    COUNT_OK(find, wtf8_find(&s, index - FEW, &part, &position));
    must(position == index, "a part is found");
    COUNT_OK(find_units, wtf8_find_units(&s, index - FEW, units + index, FEW, &position));
    COUNT_OK(rfind, wtf8_rfind(&s, index + FEW, &part, &position));
    COUNT_OK(rfind_units, wtf8_rfind_units(&s, index + FEW, units + index, FEW, &position));
    must(position == index, "units are found");
    COUNT(divides_pair, wtf8_divides_pair(&s, index));
    COUNT(compare_units, wtf8_compare_units(&s, &part));
    COUNT(compare_code_points, wtf8_compare_code_points(&s, &part));
    COUNT(compare_with_units, wtf8_compare_with_units(&s, other, FEW));
    COUNT(compare_with_utf8, wtf8_compare_with_utf8(&s, text, FEW));
    COUNT_OK(push_unit, wtf8_push_unit(&s, 'a'));
    COUNT_OK(push_code_point, wtf8_push_code_point(&s, 0x10FFFF));
    COUNT_OK(push_units, wtf8_push_units(&s, units, FEW));
    COUNT_OK(push_latin1, wtf8_push_latin1(&s, (const uint8_t *)"abcdefghijkl", FEW));
    COUNT_OK(set_latin1, wtf8_set_latin1(&moved, (const uint8_t *)"abcdefghijkl", FEW));
    COUNT_OK(push_code_points, wtf8_push_code_points(&s, points, FEW));
    COUNT_OK(utf8_unit_len, wtf8_utf8_unit_len(text, FEW, &len, NULL));
    COUNT_OK(push_utf8, wtf8_push_utf8(&s, text, FEW, NULL));
    COUNT_OK(push_utf8_part, wtf8_push_utf8_part(&s, text, FEW, &len, &position));
    COUNT_OK(push_utf8_lossy, wtf8_push_utf8_lossy(&s, text, FEW));
    COUNT_OK(push_utf8_lossy_part, wtf8_push_utf8_lossy_part(&s, text, FEW, &len));
    COUNT_OK(push_string, wtf8_push_string(&s, &part));
    COUNT_OK(push_slice, wtf8_push_slice(&part, &same, index, index + FEW));
    COUNT_OK(reserve_bytes, wtf8_reserve_bytes(&s, 99));

    /* Linear in what they are given and the bytes after it. */
    COUNT_OK(insert_units, wtf8_insert_units(&s, n - FEW, units, FEW));
    COUNT_OK(replace_units, wtf8_replace_units(&s, n - FEW, n, other, FEW));
    COUNT_OK(remove_units, wtf8_remove_units(&s, n - FEW, n));
    /* 64 units after a mark, at both lengths. */
    while (wtf8_unit_len(&s) % 128 != 64) must(wtf8_push_unit(&s, 'a') == WTF8_OK, "a unit");
    size_t end = wtf8_unit_len(&s);
    must(wtf8_reserve_bytes(&s, 999) == WTF8_OK, "room for a part");
    COUNT_OK(insert, wtf8_insert(&s, end - FEW, &part));
    COUNT_OK(replace, wtf8_replace(&s, end - FEW, end, &part));

    /* Linear in what they hand out. */
    COUNT_OK(copy_slice, wtf8_copy_slice(&same, index, index + FEW, out, FEW, &len));
    COUNT_OK(slice_units, wtf8_slice_units(&part, &same, index, index + FEW));
    position = byte;
    COUNT_OK(copy_code_points, wtf8_copy_code_points(&same, &position, points, FEW, &len));
    make(&s, n);
    must(wtf8_push_unit(&s, 0xD800) == WTF8_OK, "a surrogate");
    position = (n - FEW) * width;
    COUNT_OK(next_surrogate, wtf8_next_surrogate(&s, &position, &unit));

    /* Linear in the length. */
    COUNT_OK(set_units, wtf8_set_units(&set, units, n));
    COUNT_OK(set_utf8, wtf8_set_utf8(&set, text, n * width, NULL));
    COUNT_OK(set_string, wtf8_set_string(&set, &same));
    COUNT(encoded_len, wtf8_encoded_len(units, n));
    COUNT_OK(mark, wtf8_mark(&set));
    COUNT(is_utf8, wtf8_is_utf8(&same));
    COUNT(hash, wtf8_hash(&same, 1, 2));
    COUNT(hash_units, wtf8_hash_units(units, n, 1, 2));
    COUNT(hash_utf8, wtf8_hash_utf8(text, n * width, 1, 2));
    COUNT_OK(copy_units, wtf8_copy_units(&same, out, n, &len));
    COUNT_OK(copy_utf8, wtf8_copy_utf8(&same, lossy, POINTS, &len));
    COUNT_OK(copy_lossy, wtf8_copy_lossy(&same, lossy, POINTS, &len));
    COUNT(is_latin1, wtf8_is_latin1(&same));
    must(answer == !is_marked, "whether it is Latin-1");
    COUNT(copy_latin1, (int)wtf8_copy_latin1(&same, lossy, POINTS, &len, NULL));
    COUNT_VOID(shrink, wtf8_shrink(&set));

    /* Units that nearly occur everywhere, without marks. */
    for (size_t i = 0; i < n; i++) out[i] = units[0];
    wtf8_string alike = WTF8_EMPTY;
    must(wtf8_set_units(&alike, out, n) == WTF8_OK, "units that are alike");
    must(wtf8_set_units(&part, out, MANY) == WTF8_OK && wtf8_push_unit(&part, other[0]) == WTF8_OK, "many and another");
    COUNT(find_at_worst, wtf8_find(&alike, 0, &part, &position));
    must(answer == WTF8_END, "they do not occur");
    COUNT(rfind_at_worst, wtf8_rfind(&alike, n, &part, &position));
    must(answer == WTF8_END, "they do not occur");
    out[MANY] = other[0];
    COUNT(find_units_at_worst, wtf8_find_units(&alike, 0, out, MANY + 1, &position));
    must(answer == WTF8_END, "they do not occur");
    COUNT(rfind_units_at_worst, wtf8_rfind_units(&alike, n, out, MANY + 1, &position));
    must(answer == WTF8_END, "they do not occur");
    wtf8_free(&alike);

    /* Constant. */
    COUNT_VOID(clear, wtf8_clear(&same));
    COUNT_VOID(free, wtf8_free(&s));
    wtf8_free(&same);
    wtf8_free(&part);
    wtf8_free(&set);
    wtf8_free(&moved);
    return 0;
}
