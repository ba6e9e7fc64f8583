/* Each call that takes or hands out units or bytes, over strings of each length up to 130 that are of one kind but for one
 * odd code point, at each place, and over texts with a sequence that is not UTF-8 at each place. So a wrong end of a loop over
 * blocks, or a lane that is never looked at, is noticed at whatever length. */
#define _DEFAULT_SOURCE
#include "model.h"
#include "must.h"

#include <string.h>
#include <sys/mman.h>

enum { LONGEST_LIST = 130, LONG_LIST = 700, GUARD = 64, SPARE = 3000 };

static const uint32_t kinds[] = {'a', 0xE9, 0x4E2D, 0x1F4A9, 0xD83D};
static const uint32_t odd_ones[] = {'b', 0x80, 0xFF, 0x7FF, 0x800, 0xD7FF, 0xE000, 0xFFFF, 0x10000, 0x10FFFF, 0xD800, 0xDBFF, 0xDC00, 0xDFFF};
enum { KINDS = sizeof kinds / sizeof kinds[0], ODD_ONES = sizeof odd_ones / sizeof odd_ones[0] };

/* The list, its bytes, and the same with U+FFFD in place of each surrogate; the first of these and the position after it, or
 * 0. */
static struct pair list;
static uint8_t bytes[3 * MOST], lossy[3 * MOST];
static size_t len, after_surrogate;
static uint16_t surrogate;
static long lists, texts;

/* Computes the bytes of the list. */
static void encode_list(void) {
    len = after_surrogate = surrogate = 0;
    for (size_t i = 0, taken = 0; i < list.n; i += taken) {
        uint32_t c = point_at(&list, i, &taken);
        int is_surrogate = 0xD800 <= c && c < 0xE000;
        encode(is_surrogate ? 0xFFFD : c, lossy + len);
        len += encode(c, bytes + len);
        if (is_surrogate && after_surrogate == 0) {
            after_surrogate = len;
            surrogate = (uint16_t)c;
        }
    }
}

/* Makes the list of `n` units of a kind, with the odd code point from index `place` on, and from `again` on. Each letter of
 * four bytes has another lead. */
static void fill(uint32_t kind, size_t n, uint32_t odd, size_t place, size_t again) {
    list.n = 0;
    while (list.n < n) {
        uint32_t value = list.n == place || list.n == again ? odd : kind < 0x10000 ? kind : kind + 0x401 * (uint32_t)(list.n % 9);
        uint16_t units[2];
        size_t count = units_of(value, units);
        for (size_t i = 0; i < count && list.n < n; i++) {
            /* A pair that would pass over a place is cut, and so is one at the end. */
            if (i == 1 && (list.n == place || list.n == again)) break;
            list.units[list.n++] = units[i];
        }
    }
    encode_list();
}

/* Arrays, of which no call may change what comes after the elements that it is given. */
static uint16_t out[MOST];
static uint8_t out_bytes[3 * MOST];

static void guard(void) {
    memset(out, 0x5A, 2 * (list.n + GUARD));
    memset(out_bytes, 0x5A, len + GUARD);
}

/* A copy of what a call is given, which ends where a page begins that cannot be read. */
static const void *at_page_end(const void *of, size_t size) {
    enum { PAGE = 4096, PAGES = 2 };
    static uint8_t *end;
    if (end == NULL) {
        uint8_t *pages = mmap(NULL, (PAGES + 1) * PAGE, PROT_READ | PROT_WRITE, MAP_PRIVATE | MAP_ANONYMOUS, -1, 0);
        must(pages != MAP_FAILED && mprotect(pages + PAGES * PAGE, PAGE, PROT_NONE) == 0, "pages for the test");
        end = pages + PAGES * PAGE;
    }
    must(size <= PAGES * PAGE, "room for a copy");
    return memcpy(end - size, of, size);
}

static void must_have_units(const uint16_t *units, size_t n, const char *what) {
    must(memcmp(out, units, 2 * n) == 0, what);
    for (size_t i = n; i < n + GUARD; i++) must(out[i] == 0x5A5A, what);
}

static void must_have_bytes(const uint8_t *of, size_t n, const char *what) {
    must(memcmp(out_bytes, of, n) == 0, what);
    for (size_t i = n; i < n + GUARD; i++) must(out_bytes[i] == 0x5A, what);
}

/* The string has the units of the list, and the bytes, which its hash shows. */
static void must_be_list(const wtf8_string *string, uint64_t hash, const char *what) {
    must(wtf8_unit_len(string) == list.n && wtf8_byte_len(string) == len, what);
    must(wtf8_hash(string, 1, 2) == hash && wtf8_is_utf8(string) == (after_surrogate == 0), what);
}

/* Asks a string of the list, which differs from it in the unit at `place` alone if there is one, for all that calls hand out. */
static void ask(const wtf8_string *string, size_t place) {
    size_t count, n = list.n, middle = place < n ? place : n / 2;
    guard();
    must(wtf8_copy_units(string, out, n, &count) == WTF8_OK && count == n, "copy_units");
    must_have_units(list.units, n, "copy_units");
    guard();
    must(wtf8_copy_slice(string, middle, n, out, n - middle, &count) == WTF8_OK && count == n - middle, "copy_slice to the end");
    must_have_units(list.units + middle, n - middle, "copy_slice to the end");
    guard();
    must(wtf8_copy_slice(string, 0, middle, out, middle, &count) == WTF8_OK && count == middle, "copy_slice from the start");
    must_have_units(list.units, middle, "copy_slice from the start");
    guard();
    wtf8_result code = wtf8_copy_utf8(string, out_bytes, len, &count);
    must(after_surrogate == 0 ? code == WTF8_OK && count == len : code == WTF8_HAS_SURROGATE, "copy_utf8");
    if (code == WTF8_OK) must_have_bytes(bytes, len, "copy_utf8");
    guard();
    must(wtf8_copy_lossy(string, out_bytes, len, &count) == WTF8_OK && count == len, "copy_lossy");
    must_have_bytes(lossy, len, "copy_lossy");
    must(wtf8_equal_units(string, list.units, n), "equal_units");
    must(wtf8_compare_with_units(string, list.units, n) == 0, "compare_with_units");
    must(wtf8_starts_with_units(string, 0, list.units, n), "starts_with_units");
    must(wtf8_starts_with_units(string, middle, list.units + middle, n - middle), "starts_with_units at an index");
    if (place < n) {
        list.units[place] ^= 1;
        int order = list.units[place] & 1 ? -1 : 1;
        must(!wtf8_equal_units(string, list.units, n), "equal_units of others");
        must(wtf8_compare_with_units(string, list.units, n) == order, "compare_with_units of others");
        must(!wtf8_starts_with_units(string, 0, list.units, n), "starts_with_units of others");
        list.units[place] ^= 1;
    }
    size_t position = 0, points = 0, taken = 0, i = 0;
    uint32_t values[LONG_LIST + 2];
    must(wtf8_copy_code_points(string, &position, values, LONG_LIST + 2, &points) == (n > 0 ? WTF8_OK : WTF8_END), "copy_code_points");
    must(position == len, "the position after all code points");
    for (size_t k = 0; n > 0 && k < points; i += taken) must(i < n && point_at(&list, i, &taken) == values[k++], "a code point");
    must(i == n, "the number of code points");
    uint16_t unit = 0;
    position = 0;
    code = wtf8_next_surrogate(string, &position, &unit);
    must(code == (after_surrogate > 0 ? WTF8_OK : WTF8_END), "next_surrogate");
    must(position == after_surrogate && unit == surrogate, "the first surrogate");
}

/* Takes units out of the string of the list and puts them in again: the one at `place`, and all after the middle. */
static void edit(wtf8_string *string, const wtf8_string *of, uint64_t hash, size_t place) {
    size_t n = list.n, middle = place < n ? place : n / 2, end = place < n ? place + 1 : n;
    must(wtf8_set_string(string, of) == WTF8_OK && wtf8_remove_units(string, middle, end) == WTF8_OK, "remove_units");
    must(wtf8_unit_len(string) == n - (end - middle), "the length without some units");
    must(wtf8_starts_with_units(string, 0, list.units, middle), "the units before the removed ones");
    must(wtf8_starts_with_units(string, middle, list.units + end, n - end), "the units after the removed ones");
    must(wtf8_insert_units(string, middle, list.units + middle, end - middle) == WTF8_OK, "insert_units");
    must_be_list(string, hash, "a string with units inserted");
    must(wtf8_replace_units(string, middle, n, list.units, middle) == WTF8_OK, "replace_units");
    must(wtf8_replace_units(string, middle, 2 * middle, list.units + middle, n - middle) == WTF8_OK, "replace_units again");
    must_be_list(string, hash, "a string with units replaced");
    static wtf8_string part;
    must(wtf8_slice_units(&part, of, middle, end) == WTF8_OK && wtf8_remove_units(string, middle, end) == WTF8_OK, "a part to insert");
    must(wtf8_insert(string, middle, &part) == WTF8_OK, "insert");
    must_be_list(string, hash, "a string with a part inserted");
    must(wtf8_replace(string, end, n, of) == WTF8_OK && wtf8_replace(string, 0, end, &part) == WTF8_OK, "replace");
    must(wtf8_replace(string, 0, end - middle, of) == WTF8_OK && wtf8_truncate_units(string, n) == WTF8_OK, "replace again");
    must_be_list(string, hash, "a string with parts replaced");
}

/* Finds the unit at `place`, and the units from there on. */
static void find(const wtf8_string *string, size_t place) {
    size_t first = 0, index = SPARE;
    if (place >= list.n) return;
    while (list.units[first] != list.units[place]) first++;
    must(wtf8_find_units(string, 0, list.units + place, 1, &index) == WTF8_OK && index == first, "find_units of a unit");
    must(wtf8_find_units(string, place, list.units + place, list.n - place, &index) == WTF8_OK && index == place, "find_units at an index");
    must(wtf8_rfind_units(string, place, list.units + place, 1, &index) == WTF8_OK && index == place, "rfind_units of a unit");
}

/* Pushes the code points of the list at once. */
static void points(uint64_t hash) {
    static wtf8_string string;
    uint32_t values[LONG_LIST + 2];
    size_t n = 0;
    for (size_t i = 0, taken = 0; i < list.n; i += taken) values[n++] = point_at(&list, i, &taken);
    wtf8_clear(&string);
    must(wtf8_push_code_points(&string, values, n) == WTF8_OK, "push_code_points");
    must_be_list(&string, hash, "pushed code points");
}

/* Ways to make a string of the list, and to append units that begin with a trail. */
enum { MADE_NEW, SET_AGAIN, PUSHED, PUSHED_IN_TWO, MADE_OF_POINTS, COPIED, SLICED, INSERTED, WAYS };
enum { APPENDED_UNIT, APPENDED_FEW, APPENDED_MANY, APPENDED_STRING, APPENDED_SLICE, APPENDED_POINT, TRAILS };

static void make(wtf8_string *string, int way, const wtf8_string *of, size_t place) {
    size_t n = list.n;
    must(wtf8_reserve_bytes(string, SPARE) == WTF8_OK, "room");
    if (way == MADE_NEW) wtf8_free(string);
    wtf8_clear(string);
    switch (way) {
        case MADE_NEW: case SET_AGAIN: must(wtf8_set_units(string, list.units, n) == WTF8_OK, "a list to complete"); break;
        case PUSHED: must(wtf8_push_units(string, list.units, n) == WTF8_OK, "a list to complete"); break;
        case PUSHED_IN_TWO:
            must(wtf8_push_units(string, list.units, place / 2) == WTF8_OK, "half of a list to complete");
            must(wtf8_push_units(string, list.units + place / 2, n - place / 2) == WTF8_OK, "a list to complete");
            break;
        case MADE_OF_POINTS:
            for (size_t i = 0, taken = 0; i < n; i += taken) {
                uint32_t value = point_at(&list, i, &taken);
                must(wtf8_push_code_points(string, &value, 1) == WTF8_OK, "a code point of a list to complete");
            }
            break;
        case COPIED: must(wtf8_set_string(string, of) == WTF8_OK, "a list to complete"); break;
        case SLICED: must(wtf8_slice_units(string, of, 0, n) == WTF8_OK, "a list to complete"); break;
        default: must(wtf8_insert_units(string, 0, list.units, n) == WTF8_OK, "a list to complete");
    }
}

/* The lead surrogate at `place`, which is alone, is completed when it has become the last unit: also of a string that a
 * wrong build takes for one without surrogates. */
static void complete(size_t place) {
    static wtf8_string string, of, trails;
    static uint16_t after[40] = {0xDFFF, 'x', 0xDFFF};
    static const uint16_t before[1] = {'x'};
    const uint32_t trail = 0xDFFF;
    static size_t number;
    if (place >= list.n || !is_lead(list.units[place])) return;
    if (place + 1 < list.n && is_trail(list.units[place + 1])) return;
    uint32_t pair = 0x10000 + ((uint32_t)(list.units[place] - 0xD800) << 10) + 0x3FF, value = 0;
    must(wtf8_set_units(&of, list.units, list.n) == WTF8_OK, "a list to complete");
    for (int way = (int)(number % 2); way < WAYS; way += 2) {
        /* The first `n` units of these, by another way for each list. */
        int how = (int)(number++ % TRAILS);
        size_t n = how == APPENDED_UNIT || how == APPENDED_POINT ? 1 : how == APPENDED_FEW ? 1 + number % 12 : 1 + number % 40, units = 0;
        make(&string, way, &of, place);
        must(wtf8_truncate_units(&string, place + 1) == WTF8_OK, "the units up to a lead");
        must(wtf8_set_units(&trails, before, 1) == WTF8_OK && wtf8_push_units(&trails, after, n) == WTF8_OK, "a trail and others");
        size_t position = wtf8_byte_len(&string) - 3, left;
        switch (how) {
            case APPENDED_UNIT: must(wtf8_push_unit(&string, after[0]) == WTF8_OK, "push_unit of a trail"); break;
            case APPENDED_POINT: must(wtf8_push_code_points(&string, &trail, 1) == WTF8_OK, "push_code_points of a trail"); break;
            case APPENDED_STRING:
                must(wtf8_remove_units(&trails, 0, 1) == WTF8_OK && wtf8_push_string(&string, &trails) == WTF8_OK, "push_string of a trail");
                break;
            case APPENDED_SLICE: must(wtf8_push_slice(&string, &trails, 1, n + 1) == WTF8_OK, "push_slice of a trail"); break;
            default: must(wtf8_push_units(&string, after, n) == WTF8_OK, "push_units of a trail");
        }
        left = wtf8_byte_len(&string);
        must(wtf8_unit_len(&string) == place + 1 + n && wtf8_starts_with_units(&string, place + 1, after, n), "the units after a lead");
        must(wtf8_next_code_point(&string, &position, &value) == WTF8_OK && value == pair, "a pair that was completed");
        must(wtf8_copy_units(&string, out, MOST, &units) == WTF8_OK && units == place + 1 + n, "the units of a pair that was completed");
        must(memcmp(out, list.units, 2 * (place + 1)) == 0 && memcmp(out + place + 1, after, 2 * n) == 0, "the same units");
        must(left >= position && wtf8_is_boundary(&string, position) && !wtf8_is_boundary(&string, position - 1), "the end of a pair");
    }
}

static void units(size_t place) {
    static wtf8_string new, set, roomy;
    uint64_t hash = hash_of(&list, 1, 2);
    size_t n = list.n;
    const uint16_t *given = at_page_end(list.units, 2 * n);
    lists++;
    must(wtf8_encoded_len(given, n) == len, "encoded_len");
    must(wtf8_hash_units(given, n, 1, 2) == hash, "hash_units");
    wtf8_free(&new);
    must(wtf8_set_units(&new, given, n) == WTF8_OK, "set_units of a new string");
    must_be_list(&new, hash, "a new string");
    ask(&new, place);
    must(wtf8_set_units(&set, given, n) == WTF8_OK, "set_units");
    must_be_list(&set, hash, "a string that is set again");
    must(wtf8_equal(&new, &set) && wtf8_compare_units(&new, &set) == 0 && wtf8_compare_code_points(&new, &set) == 0, "equal");
    /* Pushed to a string with room, of which the front is there: none, or what comes before the odd code point. */
    for (size_t front = 0; front <= place && front <= n; front += place > 0 && place <= n ? place : n + 1) {
        wtf8_clear(&roomy);
        must(wtf8_reserve_bytes(&roomy, SPARE) == WTF8_OK, "room");
        for (size_t i = 0; i < front; i++) must(wtf8_push_unit(&roomy, list.units[i]) == WTF8_OK, "push_unit");
        must(wtf8_push_units(&roomy, given + front, n - front) == WTF8_OK, "push_units");
        must_be_list(&roomy, hash, "a string with room");
        must(wtf8_equal(&roomy, &new), "a string with room is equal");
    }
    wtf8_clear(&roomy);
    must(wtf8_push_string(&roomy, &new) == WTF8_OK && wtf8_equal(&roomy, &new), "push_string");
    edit(&roomy, &new, hash, place);
    find(&new, place);
    points(hash);
    complete(place);
    if (after_surrogate == 0) {
        must(wtf8_set_utf8(&set, bytes, len, NULL) == WTF8_OK, "set_utf8");
        must_be_list(&set, hash, "a string set to a text");
        wtf8_clear(&roomy);
        must(wtf8_push_utf8(&roomy, bytes, len, NULL) == WTF8_OK, "push_utf8");
        must_be_list(&roomy, hash, "a pushed text");
        must(wtf8_equal_utf8(&new, bytes, len) && wtf8_hash_utf8(bytes, len, 1, 2) == hash, "equal_utf8, hash_utf8");
        must(wtf8_compare_with_utf8(&new, bytes, len) == 0, "compare_with_utf8");
        must(wtf8_starts_with_utf8(&new, bytes, len), "starts_with_utf8");
        size_t count = SPARE;
        must(wtf8_utf8_unit_len(bytes, len, &count, NULL) == WTF8_OK && count == n, "utf8_unit_len");
    }
    size_t latin = 0;
    while (latin < n && list.units[latin] < 0x100) {
        out_bytes[latin] = (uint8_t)list.units[latin];
        latin++;
    }
    must(wtf8_is_latin1(&new) == (latin == n) && wtf8_is_ascii(&new) == (len == n), "is_latin1, is_ascii");
    if (latin == n) {
        wtf8_clear(&roomy);
        must(wtf8_push_latin1(&roomy, out_bytes, n) == WTF8_OK, "push_latin1");
        must_be_list(&roomy, hash, "a pushed text of Latin-1");
        must(wtf8_set_latin1(&set, out_bytes, n) == WTF8_OK, "set_latin1");
        must_be_list(&set, hash, "a string set to a text of Latin-1");
    }
    size_t count = SPARE, valid = SPARE;
    guard();
    wtf8_result code = wtf8_copy_latin1(&new, out_bytes, n, &count, &valid);
    must(latin == n ? code == WTF8_OK && count == n : code == WTF8_NOT_LATIN1 && valid == latin, "copy_latin1");
    for (size_t i = 0; i < n + GUARD; i++) must(out_bytes[i] == (latin == n && i < n ? list.units[i] : 0x5A), "the bytes of Latin-1");
}

/* What a walk over UTF-8 finds: how many bytes at the front are right, and how many after them are wrong together, or 0 if
 * all are right or the rest may be the front of a code point. By the table of well-formed sequences of the Unicode standard. */
static size_t right_bytes(const uint8_t *text, size_t n, size_t *wrong) {
    size_t at = 0;
    *wrong = 0;
    while (at < n) {
        uint8_t lead = text[at];
        size_t more = lead < 0x80 ? 0 : lead < 0xC2 ? 9 : lead < 0xE0 ? 1 : lead < 0xF0 ? 2 : lead < 0xF5 ? 3 : 9, i = 1;
        uint8_t least = lead == 0xE0 ? 0xA0 : lead == 0xF0 ? 0x90 : 0x80, most = lead == 0xED ? 0x9F : lead == 0xF4 ? 0x8F : 0xBF;
        if (more == 9) { *wrong = 1; return at; }
        for (; i <= more && at + i < n; i++) {
            if (text[at + i] < least || most < text[at + i]) { *wrong = i; return at; }
            least = 0x80, most = 0xBF;
        }
        if (i <= more) return at;
        at += more + 1;
    }
    return at;
}

/* Sequences that are wrong, or right only where they are followed by what they lack. */
static const char *const sequences[] = {
    "\x80", "\xBF", "\xC0\x80", "\xC1\xBF", "\xC2", "\xDF\xBF", "\xE0\x9F\xBF", "\xE0\xA0", "\xE0\xA0\x80", "\xED\x9F\xBF", "\xED\xA0\x80",
    "\xEF\xBF", "\xEF\xBF\xBF", "\xF0\x8F\xBF\xBF", "\xF0\x90\x80", "\xF0\x90\x80\x80", "\xF4\x8F\xBF\xBF", "\xF4\x90\x80\x80", "\xF5\x80", "\xFF",
    "\xE1", "\xF0\x90", "\xF4"};
enum { SEQUENCES = sizeof sequences / sizeof sequences[0] };

/* Writes a text with U+FFFD for each part that is not UTF-8, an unfinished end too, and returns its length. */
static size_t replaced(const uint8_t *of, size_t n, uint8_t *to) {
    size_t size = 0;
    for (size_t at = 0, wrong; at < n; at += wrong) {
        size_t right = right_bytes(of + at, n - at, &wrong);
        memcpy(to + size, of + at, right);
        size += right, at += right;
        if (at < n && wrong == 0) wrong = n - at;
        if (at < n) size += encode(0xFFFD, to + size);
    }
    return size;
}

static void text(const uint8_t *bytes_of, size_t n) {
    static wtf8_string string, part;
    const uint8_t *of = at_page_end(bytes_of, n);
    static uint8_t with_replacement[6 * MOST];
    size_t size = replaced(of, n, with_replacement);
    wtf8_clear(&part);
    must(wtf8_push_utf8_lossy(&part, of, n) == WTF8_OK && wtf8_byte_len(&part) == size, "push_utf8_lossy");
    must(wtf8_equal_utf8(&part, with_replacement, size), "a text with replacement");
    size_t wrong, right = right_bytes(of, n, &wrong), used = 77, bad = 77, valid = 77;
    texts++;
    wtf8_clear(&string);
    wtf8_clear(&part);
    must(wtf8_push_utf8_part(&part, of, n, &used, &bad) == WTF8_OK && used == right && bad == wrong, "push_utf8_part");
    must(wtf8_byte_len(&part) == right && wtf8_hash(&part, 1, 2) == wtf8_hash_utf8(of, right, 1, 2), "the front that is UTF-8");
    wtf8_result code = wtf8_set_utf8(&string, of, n, &valid);
    must(right == n ? code == WTF8_OK : code == WTF8_NOT_UTF8 && valid == right, "set_utf8");
    must(wtf8_byte_len(&string) == (right == n ? n : 0), "the length of a text");
    must(wtf8_equal_utf8(&part, of, n) == (right == n), "equal_utf8");
    valid = 77;
    code = wtf8_push_utf8(&string, of, n, &valid);
    must(right == n ? code == WTF8_OK : code == WTF8_NOT_UTF8 && valid == right, "push_utf8");
    must(wtf8_byte_len(&string) == (right == n ? 2 * n : 0), "the length of a pushed text");
}

/* One odd code point in a list, or in ASCII two. */
static void lists_of(size_t n, size_t place) {
    for (size_t kind = 0; kind < KINDS; kind++)
        for (size_t odd = 0; odd < ODD_ONES; odd++) {
            fill(kinds[kind], n, odd_ones[odd], place, place);
            units(place);
            if (place == n) break;
            if (kind > 0 || place + 5 >= n) continue;
            fill(kinds[kind], n, odd_ones[odd], place, place + 5);
            units(place);
        }
}

/* Two or three units that are not ASCII in 32 that are, at each two places, with 64 units and more from there on and room for
 * each way to append them; now and then behind a lone lead, which is completed then. */
static void letters(void) {
    static const uint32_t firsts[] = {0x80, 0x7FF, 0x800, 0xD7FF}, others[] = {0x80, 0x7FF, 0x800, 0xD7FF, 0xE000, 0xFFFF, 0x10000, 0xD800, 0xDC00};
    static const size_t lengths[] = {63, 64, 65, 96, 130};
    enum { FIRSTS = sizeof firsts / sizeof firsts[0], OTHERS = sizeof others / sizeof others[0], BLOCK = 32 };
    static wtf8_string roomy;
    size_t number = 0;
    for (size_t k = 0; k < FIRSTS * OTHERS * sizeof lengths / sizeof lengths[0]; k++)
        for (size_t i = 0; i < BLOCK; i++)
            for (size_t j = i + 1; j < BLOCK; j++, number++) {
                size_t n = lengths[k / (FIRSTS * OTHERS)], before = number % 5 == 0, third = j + 2 + number % 7;
                list.n = n + before;
                list.units[0] = 0xDBFF;
                uint16_t *block = list.units + before;
                for (size_t at = 0; at < n; at++) block[at] = (uint16_t)('a' + at % 26);
                block[i] = (uint16_t)firsts[k % FIRSTS];
                units_of(others[k / FIRSTS % OTHERS], block + j);
                if (others[k / FIRSTS % OTHERS] < 0x10000) block[j + 1] = 'z';
                if (number % 3 == 0) block[third] = (uint16_t)firsts[(k + number) % FIRSTS];
                encode_list();
                wtf8_clear(&roomy);
                must(wtf8_reserve_bytes(&roomy, SPARE) == WTF8_OK && wtf8_push_units(&roomy, at_page_end(list.units, 2 * list.n), list.n) == WTF8_OK, "letters in ASCII");
                must_be_list(&roomy, hash_of(&list, 1, 2), "letters in ASCII");
                if (number % 25 == 0) complete(0);
                lists++;
            }
}

/* Long strings that differ from the units that are asked for in one unit alone, which is at any place of what is decoded at a
 * time. */
static void long_compares(void) {
    enum { LONG = 1300, STEP = 3 };
    static wtf8_string string;
    for (size_t kind = 0; kind < KINDS; kind++) {
        uint16_t units[LONG], pair[2] = {0};
        size_t width = units_of(kinds[kind], pair);
        for (size_t i = 0; i < LONG; i++) units[i] = pair[i % width];
        must(wtf8_set_units(&string, units, LONG) == WTF8_OK, "a long string");
        must(wtf8_equal_units(&string, units, LONG) && wtf8_compare_with_units(&string, units, LONG) == 0, "equal long units");
        for (size_t place = kind; place < LONG; place += STEP) {
            size_t n = place + 1 + place % 600 < LONG ? place + 1 + place % 600 : LONG;
            must(wtf8_starts_with_units(&string, 0, units, n), "starts_with_units of long units");
            units[place] ^= 1;
            int order = units[place] & 1 ? -1 : 1;
            must(!wtf8_equal_units(&string, units, LONG) && wtf8_compare_with_units(&string, units, LONG) == order, "other long units");
            must(!wtf8_starts_with_units(&string, 0, units, n), "starts_with_units of other long units");
            units[place] ^= 1;
        }
    }
}

int main(void) {
    for (size_t n = 0; n <= LONGEST_LIST; n++)
        for (size_t place = 0; place <= n; place++) lists_of(n, place);
    /* Long lists, and ASCII before up to 39 units of another kind, which end in the last blocks. */
    for (size_t place = 0; place <= LONG_LIST; place += 23) lists_of(LONG_LIST, place);
    for (size_t n = 200; n <= 264; n++)
        for (size_t last = 0; last < 40; last++)
            for (size_t kind = 1; kind < KINDS; kind++) {
                fill(kinds[kind], last, 0, n, n);
                memmove(list.units + n - last, list.units, 2 * last);
                for (size_t i = 0; i < n - last; i++) list.units[i] = (uint16_t)('a' + i % 26);
                list.n = n;
                encode_list();
                units(n - last);
            }
    letters();
    long_compares();
    uint8_t of[2 * MOST];
    for (size_t n = 0; n <= LONGEST_LIST; n++)
        for (size_t place = 0; place <= n; place++)
            for (size_t kind = 0; kind < KINDS; kind++)
                for (size_t s = 0; s < SEQUENCES; s++) {
                    size_t at = 0, size = strlen(sequences[s]);
                    while (at < place) at += encode(kinds[kind], of + at);
                    memcpy(of + at, sequences[s], size);
                    at += size;
                    while (at < n) at += encode(kinds[kind], of + at);
                    text(of, at);
                    if (size < at) text(of, at - 1);
                }
    printf("places: %ld lists, %ld texts, no difference\n", lists, texts);
    return 0;
}
