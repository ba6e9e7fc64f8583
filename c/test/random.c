/* Random calls against arrays of units, and each request for memory refused in turn.
 * Arguments: a seed and the number of steps. Linked as requests.h says. */
#define _DEFAULT_SOURCE
#include "../wtf8.h"
#include "model.h"
#include "no_texts.h"
#include "requests.h"

enum call {
    SET_UNITS, SET_UTF8, SET_LATIN1, SET_STRING, CLEAR, MOVE, FREE, RESERVE, PUSH_UNIT, PUSH_POINT, PUSH_POINTS, PUSH_UNITS,
    PUSH_LATIN1, PUSH_UTF8, PUSH_PART, PUSH_STRING, PUSH_SLICE, EDIT, INSERT, MARK, FILL, SHRINK, TRUNCATE_UNITS, TRUNCATE_BYTES, POP,
    SLICE, ALIKE,
    /* Calls that only read. */
    UNIT_LEN, CAPACITY, POSITION_AT, UNIT_BEFORE, UNIT_AT, IS_BOUNDARY, NEXT, PREVIOUS, POINT_BEFORE, NEXT_SURROGATE, UTF8_UNIT_LEN,
    IS_UTF8, IS_ASCII, IS_LATIN1, EQUAL,
    ORDER_UNITS, ORDER_POINTS, HASH, HASH_UNITS, EQUAL_UNITS, ORDER_WITH_UNITS, EQUAL_UTF8, HASH_UTF8,
    ORDER_WITH_UTF8, STARTS_WITH_UTF8, STARTS_WITH, STARTS_WITH_UNITS, COPY_UNITS, COPY_POINTS, COPY_SLICE,
    COPY_UTF8, COPY_LOSSY, COPY_LATIN1, CALLS
};

enum { STRINGS = 4, CODES = WTF8_NOT_LATIN1 + 1, TEXT_LONGEST = 4 * LONGEST + 2 * LONGEST_NO_TEXT };

static struct pair pairs[STRINGS];
static long counts[CALLS][CODES];

static void check(struct pair *p) {
    uint8_t *out = an_array(2 * p->n);
    size_t len = 77, bytes = byte_len(p);
    must(wtf8_copy_units(&p->string, p->n ? (uint16_t *)out : NULL, p->n, &len) == WTF8_OK, "copy");
    must(len == p->n, "length");
    must_begin(out, 2 * p->n, p->units, 2 * p->n, "units");
    must(wtf8_byte_len(&p->string) == bytes, "bytes");
    p->capacity = wtf8_capacity(&p->string);
    must(bytes <= p->capacity, "the capacity is less than the length");
}

/* A text in UTF-8 of scalar values at `text`, and its units at `units`. In `*at` is the position of one of its code
 * points, or of its end. */
static size_t a_text(uint8_t *text, uint16_t *units, size_t *n, size_t *at) {
    size_t len = 0, count = a_length() * 2 / 3, kind = below(4);
    *n = 0;
    *at = 0;
    for (size_t k = 0; k < count; k++) {
        if (below((uint32_t)(count - k)) == 0 && *at == 0) *at = len;
        uint32_t c = kind ? a_scalar() : below(0x80);
        len += encode(c, text + len);
        *n += units_of(c, units + *n);
    }
    return len;
}

/* The index of the bytes that were put last. */
static size_t spoiled_by;

/* Puts bytes that are not UTF-8 at a position of the text. The result is the length then. */
static size_t spoiled(uint8_t *text, size_t len, size_t at) {
    size_t k = spoiled_by = below(NO_TEXTS);
    memmove(text + at + no_texts[k].len, text + at, len - at);
    memcpy(text + at, no_texts[k].bytes, no_texts[k].len);
    return len + no_texts[k].len;
}

static void append(struct pair *p, const uint16_t *units, size_t n) {
    memmove(p->units + p->n, units, 2 * n);
    p->n += n;
}

/* An index or a position for a length of `n`: at the ends more often, and now and then after the end, also where its low
 * 32, 62 or 63 bits are an index within the string. */
static size_t an_index(size_t n) {
    switch (below(14)) {
        case 0: return 0;
        case 1: return SIZE_MAX - below(3);
        case 2: return n;
        case 3: return n + 1;
        case 4: return ((size_t)1 << (below(2) ? 32 : 62 + below(2))) + below((uint32_t)n + 1);
        default: return below((uint32_t)n + 3);
    }
}

/* A length of an array for `n` elements: the very length more often, 0, shorter, longer, much longer. */
static size_t a_size(size_t n) {
    switch (below(6)) {
        case 0: case 1: return n;
        case 2: return n + below(LONGEST);
        default: return below((uint32_t)n + 5);
    }
}

static void must_find(const struct pair *p, size_t from, const struct pair *q, int is_last) {
    size_t index = 77;
    wtf8_result code = is_last ? wtf8_rfind(&p->string, from, &q->string, &index) : wtf8_find(&p->string, from, &q->string, &index);
    must(is_found(p, from, q->units, q->n, is_last, code, index), "find, rfind");
}

static void must_find_units(const struct pair *p, size_t from, const uint16_t *units, size_t n, int is_last) {
    size_t index = 77;
    wtf8_result code = is_last ? wtf8_rfind_units(&p->string, from, units, n, &index) : wtf8_find_units(&p->string, from, units, n, &index);
    must(is_found(p, from, units, n, is_last, code, index), "find_units, rfind_units");
}

/* Returns 1 and has each request refused from now on, if `more` bytes fit the capacity, so that the call that follows
 * needs no memory. Half of the time it returns 0, so that such calls are made with memory too. */
static int refuse_if_fits(const struct pair *p, size_t more) {
    if (below(2) || p->capacity == 0 || p->capacity < more || p->capacity < byte_len(p) + more) return 0;
    refuse_after = 0;
    return 1;
}

/* The same for units that are appended. */
static int refuse_if_units_fit(struct pair *p, const uint16_t *units, size_t n) {
    size_t before = byte_len(p);
    append(p, units, n);
    size_t after = byte_len(p);
    p->n -= n;
    return refuse_if_fits(p, after - before);
}

/* Whether a string of `bytes` bytes fits the capacity, so that it replaces the old one without a request. Each is refused
 * then, half of the time. */
static int is_set_in_place(const struct pair *p, size_t bytes) {
    if (p->capacity == 0 || p->capacity < bytes) return 0;
    if (below(2)) refuse_after = 0;
    return 1;
}

static void replace(struct pair *p, const uint16_t *units, size_t n) {
    p->n = 0;
    append(p, units, n);
}

/* The units of one of the strings, of which one differs, is missing or is added now and then. */
static void alike(struct pair *to, const struct pair *from) {
    size_t n = from->n, i = n > 0 && below(3) ? below((uint32_t)n) : n - 1;
    uint16_t unit = a_unit();
    replace(to, from->units, n);
    switch (n > 0 ? below(6) : 3) {
        case 0: to->units[i] = unit; break;
        case 1: to->units[i] ^= (uint16_t)(1u << below(16)); break;
        case 2: to->n -= 1 + below(2) % n; break;
        case 3: to->units[to->n++] = unit; break;
        case 4:
            unit = to->units[i];
            to->units[i] = to->units[i / 2];
            to->units[i / 2] = unit;
            break;
        default: break;
    }
}

/* Gives the string `n` letters. The result is 0 if memory is refused. */
static int letters_to(struct pair *p, size_t n) {
    uint16_t letters[LONGEST];
    for (size_t i = 0; i < n; i++) letters[i] = 'f';
    if (wtf8_set_units(&p->string, letters, n) != WTF8_OK) return 0;
    replace(p, letters, n);
    return 1;
}

/* Takes the room that is left, or the whole capacity, by one of the calls that do, without a request. */
static void fill(struct pair *p, struct pair *q) {
    enum { WAYS = 10, SETS = 3 };
    static const uint8_t f = 'f';
    uint16_t units[LONGEST];
    uint8_t text[LONGEST];
    uint32_t way = below(WAYS);
    size_t capacity = p->capacity, room = way < SETS ? capacity : capacity - byte_len(p);
    if (capacity == 0 || LONGEST < room || (way == 0 && room % 3 != 0)) return;
    int has_other = p != q && letters_to(q, room);
    if (!has_other && (way == 2 || 8 <= way)) return;
    long requested = requests;
    memset(text, 'f', room);
    for (size_t i = 0; i < room; i++) units[i] = 'f';
    refuse_after = 0;
    switch (way) {
        case 0:
            for (size_t i = 0; i < room; i++) units[i] = 0x4E2D;
            must(wtf8_set_units(&p->string, units, room / 3) == WTF8_OK, "units as long as the capacity");
            replace(p, units, room / 3);
            break;
        case 1: must(wtf8_set_utf8(&p->string, text, room, NULL) == WTF8_OK, "a text as long as the capacity"); break;
        case 2: must(wtf8_set_string(&p->string, &q->string) == WTF8_OK, "a string as long as the capacity"); break;
        case 3: must(wtf8_push_utf8(&p->string, text, room, NULL) == WTF8_OK, "a text that fills the capacity"); break;
        case 4: must(wtf8_push_units(&p->string, units, room) == WTF8_OK, "units that fill the capacity"); break;
        case 5:
            for (size_t i = 0; i < room; i++) must(wtf8_push_unit(&p->string, 'f') == WTF8_OK, "a unit that fits");
            break;
        case 6:
            for (size_t i = 0; i < room; i++) must(wtf8_push_code_point(&p->string, 'f') == WTF8_OK,
                                                   "a code point that fits");
            break;
        case 7:
            must(wtf8_reserve_bytes(&p->string, room) == WTF8_OK, "reserve of the room that is left");
            for (size_t i = 0; i < room; i++) must(wtf8_push_utf8(&p->string, &f, 1, NULL) == WTF8_OK,
                                                   "a letter that fits");
            break;
        case 8: must(wtf8_push_string(&p->string, &q->string) == WTF8_OK, "a string that fills the capacity"); break;
        default: must(wtf8_push_slice(&p->string, &q->string, 0, room) == WTF8_OK,
                      "a part that fills the capacity"); break;
    }
    if (way == 1 || way == 2) replace(p, units, room);
    else if (way != 0) append(p, units, room);
    must(p->is_marked || requests == requested, "requests to fill the capacity");
    must(wtf8_capacity(&p->string) == capacity, "the capacity that is filled");
    refuse_after = 0;
    must(wtf8_push_unit(&p->string, 'f') == WTF8_NO_MEMORY, "a letter more than fits");
    must(wtf8_capacity(&p->string) == capacity, "the capacity after a refusal");
}

/* All that two strings are asked. */
static void must_relate(const struct pair *p, const struct pair *q) {
    int order = compare_units(p, q);
    uint64_t seed_0 = a_seed(), seed_1 = a_seed();
    must(wtf8_equal(&p->string, &q->string) == (order == 0), "equal");
    must(wtf8_compare_units(&p->string, &q->string) == order, "compare_units");
    must(wtf8_compare_code_points(&p->string, &q->string) == compare_points(p, q), "compare_code_points");
    must((wtf8_hash(&p->string, seed_0, seed_1) == wtf8_hash(&q->string, seed_0, seed_1)) == (order == 0),
         "hashes of two");
    must(wtf8_starts_with(&p->string, 0, &q->string) == has_at(p, 0, q), "starts_with at the start");
}

static void step(enum call call, struct pair *p, struct pair *q) {
    uint16_t units[2 * LONGEST], unit, *array = NULL;
    uint8_t text[TEXT_LONGEST], *bytes = NULL;
    static struct pair asked;
    /* Numbers that calls write are arrays too, so that a write of fewer or more bytes is noticed. */
    size_t n = a_length(), len, at = 0, more = 0, capacity = p->capacity, *written = NULL;
    wtf8_result code = WTF8_OK;
    int is_bad = below(8) == 0, needs_none = 0;
    long requested = requests, refused = refusals;
    uint8_t string[sizeof p->string], other[sizeof q->string];
    memcpy(string, &p->string, sizeof string);
    memcpy(other, &q->string, sizeof other);
    int only_surrogates = below(8) == 0;
    for (size_t i = 0; i < n; i++) units[i] = only_surrogates ? (uint16_t)(0xD800 + below(0x800)) : a_unit();
    switch (call) {
        case SET_UNITS:
            needs_none = is_set_in_place(p, 3 * n);
            array = array_of(units, 2 * n);
            code = wtf8_set_units(&p->string, n || below(2) ? array : NULL, n);
            len = wtf8_encoded_len(n || below(2) ? array : NULL, n);
            must_begin(array, 2 * n, units, 2 * n, "set_units, array");
            if (code == WTF8_OK) {
                replace(p, units, n);
                must(len == byte_len(p), "encoded_len");
            }
            break;
        case SET_UTF8:
        case PUSH_UTF8: {
            int is_set = call == SET_UTF8;
            len = a_text(text, units, &n, &at);
            if (is_bad && at < len && below(2)) len = spoiled(text, len, len);
            if (is_bad) len = spoiled(text, len, at);
            else needs_none = is_set ? is_set_in_place(p, len) : refuse_if_units_fit(p, units, n);
            bytes = array_of(text, len);
            written = an_array(sizeof *written);
            size_t *asked_valid = below(4) ? written : NULL;
            const uint8_t *given = len || below(2) ? bytes : NULL;
            code = (is_set ? wtf8_set_utf8 : wtf8_push_utf8)(&p->string, given, len, asked_valid);
            must_begin(bytes, len, text, len, "the text");
            must_begin(written, sizeof at, &at, is_bad && asked_valid ? sizeof at : 0, "the first bad byte");
            must((code == WTF8_NOT_UTF8) == is_bad, "NOT_UTF8");
            if (code == WTF8_OK && is_set) replace(p, units, n);
            else if (code == WTF8_OK) append(p, units, n);
            break;
        }
        case PUSH_PART: {
            len = a_text(text, units, &n, &at);
            if (is_bad) len = spoiled(text, len, len);
            size_t front = is_bad ? len - no_texts[spoiled_by].len : len, left = is_bad ? no_texts[spoiled_by].at_end : 0;
            needs_none = refuse_if_units_fit(p, units, n);
            bytes = array_of(text, len);
            written = an_array(sizeof *written);
            size_t *used = an_array(sizeof *used);
            code = wtf8_push_utf8_part(&p->string, len || below(2) ? bytes : NULL, len, used, written);
            must_begin(bytes, len, text, len, "the text of a part");
            must_begin(used, sizeof front, &front, code == WTF8_OK ? sizeof front : 0, "the length of the part");
            must_begin(written, sizeof left, &left, code == WTF8_OK ? sizeof left : 0, "the bad bytes after the part");
            if (code == WTF8_OK) append(p, units, n);
            break;
        }
        case SET_LATIN1: {
            uint32_t kind = below(2) ? 0x80 : 0x100;
            for (size_t i = 0; i < n; i++) units[i] = text[i] = (uint8_t)below(kind);
            replace(&asked, units, n);
            needs_none = is_set_in_place(p, byte_len(&asked));
            bytes = array_of(text, n);
            code = wtf8_set_latin1(&p->string, n || below(2) ? bytes : NULL, n);
            must_begin(bytes, n, text, n, "set_latin1, text");
            if (code == WTF8_OK) replace(p, units, n);
            break;
        }
        case SET_STRING:
            needs_none = p == q || is_set_in_place(p, byte_len(q));
            if (p == q && below(2)) refuse_after = 0;
            code = wtf8_set_string(&p->string, &q->string);
            if (code == WTF8_OK && p != q) replace(p, q->units, q->n);
            break;
        case CLEAR: wtf8_clear(&p->string); p->n = 0; break;
        case MOVE:
            wtf8_move(&p->string, &q->string);
            if (p == q) break;
            replace(p, q->units, q->n);
            p->is_marked = q->is_marked;
            q->n = 0;
            q->is_marked = 0;
            must(wtf8_capacity(&p->string) == q->capacity && wtf8_capacity(&q->string) == 0, "the capacities after a move");
            break;
        case FREE:
            wtf8_free(&p->string);
            if (below(2)) wtf8_free(&p->string);
            p->n = 0;
            p->is_marked = 0;
            must(wtf8_capacity(&p->string) == 0, "the capacity of a freed string");
            break;
        case RESERVE:
            more = 1 + below(6);
            at = (size_t)1 << (32 + below(32));
            more = below(50) ? more * a_length() : below(2) ? SIZE_MAX - below(9) : at + below(99);
            needs_none = refuse_if_fits(p, more);
            /* Gigabytes might be granted. */
            if (UINT32_MAX < more) refuse_after = 0;
            code = wtf8_reserve_bytes(&p->string, more);
            must(code == WTF8_NO_MEMORY || more <= PTRDIFF_MAX, "reserve of more than a block can have");
            must(code == WTF8_NO_MEMORY || byte_len(p) + more <= wtf8_capacity(&p->string), "the capacity after reserve");
            break;
        case PUSH_UNIT:
            unit = a_unit();
            needs_none = refuse_if_units_fit(p, &unit, 1);
            code = wtf8_push_unit(&p->string, unit);
            if (code == WTF8_OK) append(p, &unit, 1);
            break;
        case PUSH_POINT: {
            uint32_t bit = below(2) ? (uint32_t)1 << (21 + below(11)) : 0;
            uint32_t c = below(4) ? a_point() : below(2) ? below(0x120000) : 0x110000 + below(3) + bit;
            n = units_of(c, units);
            needs_none = c <= 0x10FFFF && refuse_if_units_fit(p, units, n);
            code = wtf8_push_code_point(&p->string, c);
            must((code == WTF8_BAD_CODE_POINT) == (c > 0x10FFFF), "push_code_point");
            if (code == WTF8_OK) append(p, units, n);
            break;
        }
        case PUSH_POINTS: {
            uint32_t list[LONGEST];
            static uint16_t listed[2 * LONGEST];
            size_t count = n;
            n = 0;
            for (size_t i = 0; i < count; i++) n += units_of(list[i] = only_surrogates ? 0xD800 + below(0x800) : a_point(), listed + n);
            is_bad = is_bad && count > 0;
            if (is_bad) list[below((uint32_t)count)] = below(2) ? 0x110000 + below(3) : UINT32_MAX - below(9);
            needs_none = !is_bad && refuse_if_units_fit(p, listed, n);
            uint32_t *given = array_of(list, 4 * count);
            code = wtf8_push_code_points(&p->string, count || below(2) ? given : NULL, count);
            must_begin(given, 4 * count, list, 4 * count, "push_code_points, array");
            must((code == WTF8_BAD_CODE_POINT) == is_bad, "push_code_points");
            must(!is_bad || requests == requested, "code points that are not pushed request memory");
            if (code == WTF8_OK) append(p, listed, n);
            break;
        }
        case PUSH_UNITS:
            needs_none = refuse_if_units_fit(p, units, n);
            array = array_of(units, 2 * n);
            code = wtf8_push_units(&p->string, n || below(2) ? array : NULL, n);
            must_begin(array, 2 * n, units, 2 * n, "push_units, array");
            if (code == WTF8_OK) append(p, units, n);
            break;
        case PUSH_LATIN1: {
            uint32_t kind = below(2) ? 0x80 : 0x100;
            for (size_t i = 0; i < n; i++) units[i] = text[i] = (uint8_t)below(kind);
            needs_none = refuse_if_units_fit(p, units, n);
            bytes = array_of(text, n);
            code = wtf8_push_latin1(&p->string, n || below(2) ? bytes : NULL, n);
            must_begin(bytes, n, text, n, "push_latin1, text");
            if (code == WTF8_OK) append(p, units, n);
            break;
        }
        case PUSH_STRING:
            needs_none = p != q && refuse_if_units_fit(p, q->units, q->n);
            code = wtf8_push_string(&p->string, &q->string);
            if (code == WTF8_OK) append(p, q->units, q->n);
            break;
        case PUSH_SLICE: {
            size_t a = below((uint32_t)q->n + 2), b = an_index(q->n);
            int in_range = a <= b && b <= q->n;
            if (in_range) memmove(q->units + q->n, q->units + a, 2 * (b - a));
            needs_none = in_range && p != q && refuse_if_units_fit(p, q->units + q->n, b - a);
            code = wtf8_push_slice(&p->string, &q->string, a, b);
            must((code == WTF8_BAD_POSITION) == !in_range, "push_slice");
            if (code == WTF8_OK) append(p, q->units + a, b - a);
            break;
        }
        case EDIT: {
            size_t a = below((uint32_t)p->n + 2), b = below(3) ? an_index(p->n) : a;
            int in_range = a <= b && b <= p->n;
            if (below(4) == 0) n = 0;
            replace(&asked, p->units, p->n);
            if (in_range) splice(&asked, a, b, units, n);
            size_t before = byte_len(p), after = byte_len(&asked);
            needs_none = in_range && refuse_if_fits(p, before < after ? after - before : 0);
            array = array_of(units, 2 * n);
            const uint16_t *given = n || below(2) ? array : NULL;
            code = a == b && below(2) ? wtf8_insert_units(&p->string, a, given, n)
                 : n == 0 && below(2) ? wtf8_remove_units(&p->string, a, b)
                                      : wtf8_replace_units(&p->string, a, b, given, n);
            must((code == WTF8_BAD_POSITION) == !in_range, "insert_units, remove_units, replace_units");
            must_begin(array, 2 * n, units, 2 * n, "the units of an edit");
            if (code == WTF8_OK) replace(p, asked.units, asked.n);
            break;
        }
        case INSERT: {
            size_t a = below((uint32_t)p->n + 2), b = below(2) ? an_index(p->n) : a;
            int in_range = a <= b && b <= p->n;
            replace(&asked, p->units, p->n);
            if (in_range) splice(&asked, a, b, q->units, q->n);
            size_t before = byte_len(p), after = byte_len(&asked);
            needs_none = p != q && in_range && refuse_if_fits(p, before < after ? after - before : 0);
            code = a == b && below(2) ? wtf8_insert(&p->string, a, &q->string) : wtf8_replace(&p->string, a, b, &q->string);
            must((code == WTF8_BAD_POSITION) == !in_range, "insert, replace");
            if (code == WTF8_OK) replace(p, asked.units, asked.n);
            break;
        }
        case MARK:
            if (below(2)) refuse_after = 0;
            code = wtf8_mark(&p->string);
            must(code == WTF8_OK, "mark of a string");
            if (code == WTF8_OK) p->is_marked = 1;
            break;
        case FILL: fill(p, q); break;
        case SHRINK:
            if (below(2)) refuse_after = 0;
            wtf8_shrink(&p->string);
            len = wtf8_capacity(&p->string);
            must(byte_len(p) <= len && len <= capacity, "the capacity after shrink");
            /* Spare capacity stays only if memory is refused, and never in an empty string. */
            must(refused < refusals || len == byte_len(p), "spare capacity after shrink");
            must(p->n > 0 || len == 0, "the capacity of an empty string after shrink");
            break;
        case TRUNCATE_UNITS:
            at = an_index(p->n);
            code = wtf8_truncate_units(&p->string, at);
            must(code == (at <= p->n ? WTF8_OK : WTF8_BAD_POSITION), "truncate_units");
            if (code == WTF8_OK) p->n = at;
            break;
        case TRUNCATE_BYTES:
            at = an_index(byte_len(p));
            code = wtf8_truncate_bytes(&p->string, at);
            must(code == (is_boundary(p, at) ? WTF8_OK : WTF8_BAD_POSITION), "truncate_bytes");
            if (code == WTF8_OK) p->n = units_before(p, at);
            break;
        case POP: {
            size_t must_be_at = at = byte_len(p);
            uint32_t value = 77, must_be = 77;
            refuse_after = 0;
            code = wtf8_pop(&p->string, &value);
            must(code == previous_point(p, &must_be_at, &must_be), "pop");
            must(value == must_be, "the code point that pop writes");
            p->n = units_before(p, must_be_at);
            must(wtf8_capacity(&p->string) == capacity, "the capacity after pop");
            break;
        }
        case SLICE: {
            size_t a = below((uint32_t)p->n + 2), b = an_index(p->n);
            int in_range = a <= b && b <= p->n;
            needs_none = p == q && in_range;
            if (p == q && below(2)) refuse_after = 0;
            code = wtf8_slice_units(&q->string, &p->string, a, b);
            must((code == WTF8_BAD_POSITION) == !in_range, "slice_units");
            must(p != q || wtf8_capacity(&p->string) == capacity, "the capacity of a string that is cut to a slice of itself");
            if (code == WTF8_OK) replace(q, p->units + a, b - a);
            break;
        }
        case ALIKE:
            /* Strings seldom begin alike by themselves. */
            alike(&asked, p);
            code = wtf8_set_units(&q->string, asked.units, asked.n);
            if (code == WTF8_OK) replace(q, asked.units, asked.n);
            requested = requests;
            must_relate(p, q);
            must_relate(q, p);
            must(requests == requested, "requests of questions of two strings");
            break;
        case UNIT_LEN: must(wtf8_unit_len(&p->string) == p->n, "unit_len"); break;
        case CAPACITY: must(wtf8_capacity(&p->string) == capacity, "the capacity asked again"); break;
        case POSITION_AT:
            at = an_index(p->n);
            written = an_array(sizeof *written);
            code = wtf8_position_at(&p->string, at, written);
            must(code == (at <= p->n ? WTF8_OK : WTF8_BAD_POSITION), "position_at");
            len = position_of(p, at);
            must_begin(written, sizeof len, &len, code == WTF8_OK ? sizeof len : 0, "the position");
            break;
        case UNIT_BEFORE:
            at = an_index(byte_len(p));
            must(wtf8_unit_before(&p->string, at) == units_before(p, at), "unit_before");
            break;
        case UNIT_AT:
            at = an_index(p->n);
            array = an_array(sizeof *array);
            code = wtf8_unit_at(&p->string, at, array);
            must(code == (at < p->n ? WTF8_OK : WTF8_BAD_POSITION), "unit_at");
            must_begin(array, 2, p->units + (at < p->n ? at : 0), code == WTF8_OK ? 2 : 0, "the unit");
            break;
        case IS_BOUNDARY:
            at = an_index(byte_len(p));
            must(wtf8_is_boundary(&p->string, at) == is_boundary(p, at), "is_boundary");
            break;
        case NEXT:
        case PREVIOUS: {
            at = an_index(byte_len(p));
            uint32_t value = 77, *point = an_array(sizeof *point);
            written = array_of(&at, sizeof at);
            refuse_after = 0;
            code = (call == NEXT ? wtf8_next_code_point : wtf8_previous_code_point)(&p->string, written, point);
            must(code == (call == NEXT ? next_point : previous_point)(p, &at, &value), "a step of a walk");
            must_begin(written, sizeof at, &at, sizeof at, "where a walk is");
            must_begin(point, sizeof value, &value, code == WTF8_OK ? sizeof value : 0, "the code point of a walk");
            break;
        }
        case POINT_BEFORE: {
            at = an_index(p->n);
            uint32_t value = 77, *point = an_array(sizeof *point);
            refuse_after = 0;
            code = wtf8_code_point_before(&p->string, at, point);
            must_begin(point, sizeof value, &value, code == must_be_before(p, at, &value) && code == WTF8_OK ? sizeof value : 0,
                       "the code point before an index");
            must(code == (at == 0 ? WTF8_END : p->n < at ? WTF8_BAD_POSITION : WTF8_OK), "code_point_before");
            break;
        }
        case UTF8_UNIT_LEN: {
            len = a_text(text, units, &n, &at);
            if (is_bad) len = spoiled(text, len, at);
            bytes = array_of(text, len);
            written = an_array(sizeof *written);
            size_t *valid = an_array(sizeof *valid), *asked_valid = below(4) ? valid : NULL;
            refuse_after = 0;
            code = wtf8_utf8_unit_len(len || below(2) ? bytes : NULL, len, written, asked_valid);
            must(code == (is_bad ? WTF8_NOT_UTF8 : WTF8_OK), "utf8_unit_len");
            must_begin(bytes, len, text, len, "a text whose units are counted");
            must_begin(written, sizeof n, &n, is_bad ? 0 : sizeof n, "the number of units of a text");
            must_begin(valid, sizeof at, &at, is_bad && asked_valid ? sizeof at : 0, "the first bad byte of a text that is counted");
            break;
        }
        case NEXT_SURROGATE: {
            at = an_index(byte_len(p));
            uint16_t must_be = 77;
            written = array_of(&at, sizeof at);
            array = an_array(sizeof *array);
            refuse_after = 0;
            code = wtf8_next_surrogate(&p->string, written, array);
            must(code == next_surrogate(p, &at, &must_be), "next_surrogate");
            must_begin(written, sizeof at, &at, sizeof at, "where a search is");
            must_begin(array, 2, &must_be, code == WTF8_OK ? 2 : 0, "the surrogate that is found");
            break;
        }
        case IS_UTF8: must(wtf8_is_utf8(&p->string) == is_utf8(p), "is_utf8"); break;
        case IS_ASCII: must(wtf8_is_ascii(&p->string) == (front_below(p, 0x80) == p->n), "is_ascii"); break;
        case IS_LATIN1: must(wtf8_is_latin1(&p->string) == (front_below(p, 0x100) == p->n), "is_latin1"); break;
        case EQUAL: must(wtf8_equal(&p->string, &q->string) == (compare_units(p, q) == 0), "equal"); break;
        case ORDER_UNITS: must(wtf8_compare_units(&p->string, &q->string) == compare_units(p, q), "compare_units"); break;
        case ORDER_POINTS:
            must(wtf8_compare_code_points(&p->string, &q->string) == compare_points(p, q), "compare_code_points");
            break;
        case HASH:
        case HASH_UNITS: {
            uint64_t seed_0 = a_seed(), seed_1 = a_seed(), hash;
            const struct pair *hashed = call == HASH ? p : &asked;
            alike(&asked, p);
            array = array_of(asked.units, 2 * asked.n);
            refuse_after = 0;
            hash = call == HASH ? wtf8_hash(&p->string, seed_0, seed_1)
                                : wtf8_hash_units(asked.n || below(2) ? array : NULL, asked.n, seed_0, seed_1);
            must(hash == hash_of(hashed, seed_0, seed_1), "hash");
            must_begin(array, 2 * asked.n, asked.units, 2 * asked.n, "units that are hashed");
            break;
        }
        case EQUAL_UNITS:
        case ORDER_WITH_UNITS: {
            alike(&asked, below(4) ? p : q);
            array = array_of(asked.units, 2 * asked.n);
            const uint16_t *given = asked.n || below(2) ? array : NULL;
            int order = compare_units(p, &asked);
            refuse_after = 0;
            if (call == EQUAL_UNITS) must(wtf8_equal_units(&p->string, given, asked.n) == (order == 0), "equal_units");
            else must(wtf8_compare_with_units(&p->string, given, asked.n) == order, "compare_with_units");
            must_begin(array, 2 * asked.n, asked.units, 2 * asked.n, "units that were asked");
            break;
        }
        case EQUAL_UTF8:
        case HASH_UTF8:
        case ORDER_WITH_UTF8:
        case STARTS_WITH_UTF8: {
            /* The bytes of a string with surrogates are not UTF-8. */
            static uint8_t own[12 * MOST];
            alike(&asked, below(4) ? p : q);
            if (call == STARTS_WITH_UTF8 && below(2)) asked.n = below((uint32_t)asked.n + 1);
            len = bytes_of(&asked, own);
            /* Nor is a text that ends within a code point. */
            int is_cut = EQUAL_UTF8 != call && HASH_UTF8 != call && len > 0 && own[len - 1] >= 0x80 && below(4) == 0;
            len -= (size_t)is_cut;
            int is_text = is_utf8(&asked) && !is_cut;
            bytes = array_of(own, len);
            const uint8_t *given = len || below(2) ? bytes : NULL;
            uint64_t seed_0 = a_seed(), seed_1 = a_seed();
            int order = is_text ? compare_units(p, &asked) : -1;
            refuse_after = 0;
            if (call == EQUAL_UTF8) must(wtf8_equal_utf8(&p->string, given, len) == (order == 0), "equal_utf8");
            else if (call == ORDER_WITH_UTF8) must(wtf8_compare_with_utf8(&p->string, given, len) == order, "compare_with_utf8");
            else if (call == STARTS_WITH_UTF8)
                must(wtf8_starts_with_utf8(&p->string, given, len) == (is_text && has_at(p, 0, &asked)), "starts_with_utf8");
            else must(wtf8_hash_utf8(given, len, seed_0, seed_1) == hash_of(&asked, seed_0, seed_1), "hash_utf8");
            must_begin(bytes, len, own, len, "a text that is asked");
            break;
        }
        case STARTS_WITH:
        case STARTS_WITH_UNITS:
            at = an_index(p->n);
            /* A part of the string now and then, also one that differs, up to its end or longer. */
            if (p != q && below(4)) {
                asked.n = 0;
                if (at < p->n) append(&asked, p->units + at, below(3) && n < p->n - at ? n : p->n - at);
                alike(q, &asked);
                if (wtf8_set_units(&q->string, q->units, q->n) != WTF8_OK) {
                    wtf8_clear(&q->string);
                    q->n = 0;
                }
            }
            refuse_after = 0;
            requested = requests;
            if (call == STARTS_WITH) {
                must(wtf8_starts_with(&p->string, at, &q->string) == has_at(p, at, q), "starts_with");
                must_find(p, at, q, (int)below(2));
            } else {
                array = array_of(q->units, 2 * q->n);
                const uint16_t *given = q->n || below(2) ? array : NULL;
                must(wtf8_starts_with_units(&p->string, at, given, q->n) == has_at(p, at, q), "starts_with_units");
                must_find_units(p, at, given, q->n, (int)below(2));
                must_begin(array, 2 * q->n, q->units, 2 * q->n, "units that it may start with");
            }
            break;
        case COPY_UNITS:
            n = a_size(p->n);
            array = an_array(2 * n);
            written = an_array(sizeof *written);
            if (below(2)) refuse_after = 0;
            code = wtf8_copy_units(&p->string, n || below(2) ? array : NULL, n, written);
            must(code == (n < p->n ? WTF8_ARRAY_TOO_SHORT : WTF8_OK), "copy_units");
            must_begin(written, sizeof len, &p->n, sizeof len, "copy_units, length");
            must_begin(array, 2 * n, p->units, code == WTF8_OK ? 2 * p->n : 0, "copy_units, array");
            break;
        case COPY_POINTS: {
            static uint32_t points[MOST];
            size_t begin = an_index(byte_len(p)), count = 0;
            at = begin;
            n = below(4) ? below(20) : a_size(p->n);
            uint32_t *out = an_array(4 * n);
            written = an_array(sizeof *written);
            size_t *moved = array_of(&at, sizeof at);
            refuse_after = 0;
            code = wtf8_copy_code_points(&p->string, moved, n || below(2) ? out : NULL, n, written);
            wtf8_result must_be = next_point(p, &at, points);
            at = begin;
            must(code == must_be, "copy_code_points");
            while (code == WTF8_OK && count < n && next_point(p, &at, points + count) == WTF8_OK) count++;
            must_begin(moved, sizeof at, &at, sizeof at, "where a copy of code points is");
            must_begin(written, sizeof count, &count, code == WTF8_OK ? sizeof count : 0, "copy_code_points, number");
            must_begin(out, 4 * n, points, 4 * count, "copy_code_points, array");
            break;
        }
        case COPY_SLICE: {
            size_t a = below((uint32_t)p->n + 2), b = an_index(p->n);
            int in_range = a <= b && b <= p->n;
            n = in_range ? a_size(b - a) : below(5);
            array = an_array(2 * n);
            written = an_array(sizeof *written);
            len = b - a;
            if (below(2)) refuse_after = 0;
            code = wtf8_copy_slice(&p->string, a, b, n || below(2) ? array : NULL, n, written);
            must((code == WTF8_BAD_POSITION) == !in_range, "copy_slice, position");
            must((code == WTF8_ARRAY_TOO_SHORT) == (in_range && n < b - a), "copy_slice, short");
            must_begin(written, sizeof len, &len, in_range ? sizeof len : 0, "copy_slice, length");
            must_begin(array, 2 * n, p->units + (in_range ? a : 0), code == WTF8_OK ? 2 * len : 0, "copy_slice, array");
            break;
        }
        case COPY_UTF8:
        case COPY_LOSSY: {
            static uint8_t right[16 * MOST];
            size_t needed = 0, taken = 0;
            int is_lossy = call == COPY_LOSSY, has_surrogate = !is_utf8(p);
            for (size_t i = 0; i < p->n; i += taken) {
                uint32_t c = point_at(p, i, &taken);
                needed += encode(c >= 0xD800 && c < 0xE000 ? 0xFFFD : c, right + needed);
            }
            n = a_size(needed);
            bytes = an_array(n);
            written = an_array(sizeof *written);
            needs_none = (is_lossy || !has_surrogate) && needed <= n;
            if (below(2)) refuse_after = 0;
            code = (is_lossy ? wtf8_copy_lossy : wtf8_copy_utf8)(&p->string, n || below(2) ? bytes : NULL, n, written);
            must((code == WTF8_HAS_SURROGATE) == (!is_lossy && has_surrogate), "copy_utf8, surrogate");
            must(code != WTF8_NO_MEMORY, "copy_text, NO_MEMORY");
            must((code == WTF8_ARRAY_TOO_SHORT) == (n < needed && code != WTF8_HAS_SURROGATE), "copy_text, short");
            len = code == WTF8_OK || code == WTF8_ARRAY_TOO_SHORT ? sizeof needed : 0;
            must_begin(written, sizeof needed, &needed, len, "copy_text, length");
            must_begin(bytes, n, right, code == WTF8_OK ? needed : 0, "copy_text, array");
            must(requests == requested, "copy_text requests memory");
            break;
        }
        case COPY_LATIN1: {
            /* Strings whose units are all of Latin-1 are seldom long by themselves. */
            if (below(2)) {
                for (size_t i = 0; i < n; i++) units[i] = (uint16_t)(is_bad ? below(0x100) : below(0x80));
                if (wtf8_set_units(&p->string, units, n) == WTF8_OK) replace(p, units, n);
                memcpy(string, &p->string, sizeof string);
                capacity = wtf8_capacity(&p->string);
                requested = requests;
            }
            static uint8_t right[4 * MOST];
            size_t front = front_below(p, 0x100);
            int is_latin1 = front == p->n;
            for (size_t i = 0; i < p->n; i++) right[i] = (uint8_t)p->units[i];
            n = a_size(p->n);
            bytes = an_array(n);
            written = an_array(sizeof *written);
            size_t *valid = an_array(sizeof *valid), *asked_valid = below(4) ? valid : NULL;
            refuse_after = 0;
            code = wtf8_copy_latin1(&p->string, n || below(2) ? bytes : NULL, n, written, asked_valid);
            must(code == (!is_latin1 ? WTF8_NOT_LATIN1 : n < p->n ? WTF8_ARRAY_TOO_SHORT : WTF8_OK), "copy_latin1");
            must_begin(written, sizeof p->n, &p->n, is_latin1 ? sizeof p->n : 0, "copy_latin1, length");
            must_begin(valid, sizeof front, &front, !is_latin1 && asked_valid ? sizeof front : 0, "copy_latin1, index");
            must_begin(bytes, n, right, code == WTF8_OK ? p->n : 0, "copy_latin1, array");
            break;
        }
        default: must(0, "no call"); break;
    }
    must(code <= WTF8_NOT_LATIN1, "code");
    /* Units may be refused after the string has grown for the first of them. */
    int may_grow = call == PUSH_UNITS || call == PUSH_LATIN1 || call == PUSH_SLICE || call == PUSH_POINTS;
    must(code == WTF8_OK || may_grow || wtf8_capacity(&p->string) == capacity, "the capacity after a code that is not OK");
    must(code != WTF8_NO_MEMORY || refused < refusals || more > PTRDIFF_MAX, "NO_MEMORY, but no request was refused");
    if (UNIT_LEN <= call || (call == SLICE && p != q))
        must(memcmp(string, &p->string, sizeof string) == 0, "the struct of a string that is read");
    if (p != q && call != MOVE && call != FILL && call != SLICE && call != ALIKE && call != STARTS_WITH && call != STARTS_WITH_UNITS)
        must(memcmp(other, &q->string, sizeof other) == 0, "the struct of another string");
    if (UNIT_LEN <= call || (CLEAR <= call && call <= FREE) || (TRUNCATE_UNITS <= call && call <= POP)) {
        must(requests == requested, "a call that cannot be refused requests memory");
        must(call == FREE || call == MOVE || wtf8_capacity(&p->string) == capacity, "the capacity after a call that does not append");
        counts[call][code]++;
        return;
    }
    must(!needs_none || code == WTF8_OK, "a call that needs no memory is not done");
    /* What adds units may ask for memory for marks, and does without it. */
    int may_ask_for_marks = p->is_marked && call != RESERVE;
    must(!needs_none || may_ask_for_marks || requests == requested, "a call that needs no memory requests it");
    int is_in_place = call <= SET_STRING && needs_none;
    must(!is_in_place || wtf8_capacity(&p->string) == capacity, "the capacity of a string that is set in place");
    int is_append = PUSH_UNIT <= call && call <= INSERT;
    if (is_append || call == MARK || call == RESERVE) {
        size_t now = wtf8_capacity(&p->string);
        must(capacity <= now, "the capacity is less after a call that appends");
        must(!is_append || now == capacity || 2 * capacity <= now, "an append takes less than twice the capacity");
        must(now == capacity || requested < requests, "the capacity is greater without a request");
    }
    counts[call][code]++;
}

int main(int count, char **words) {
    state = count > 1 ? strtoull(words[1], NULL, 10) : 1;
    long steps = count > 2 ? strtol(words[2], NULL, 10) : 20000;
    for (long i = 0; i < steps; i++) {
        struct pair *p = &pairs[below(STRINGS)], *q = &pairs[below(STRINGS)];
        enum call call = (enum call)below(CALLS);
        if (p->n + q->n > MOST) { wtf8_clear(&p->string); p->n = 0; }
        if (p->n + q->n > MOST) { wtf8_clear(&q->string); q->n = 0; }
        /* Most calls request one block at most: in a twelfth of the steps that request is refused. */
        refuse_after = below(4) ? -1 : (long)below(3);
        refuse_once = (int)below(2);
        step(call, p, q);
        refuse_after = -1;
        check(p);
        check(q);
    }
    for (int i = 0; i < STRINGS; i++) wtf8_free(&pairs[i].string);
    must(blocks == 0, "a block is not given back");
    static const int reached[][2] = {
        {SET_UNITS, WTF8_NO_MEMORY}, {SET_UTF8, WTF8_NO_MEMORY}, {SET_UTF8, WTF8_NOT_UTF8}, {SET_STRING, WTF8_NO_MEMORY},
        {SET_LATIN1, WTF8_NO_MEMORY}, {PUSH_POINTS, WTF8_NO_MEMORY}, {PUSH_POINTS, WTF8_BAD_CODE_POINT}, {POINT_BEFORE, WTF8_END},
        {POINT_BEFORE, WTF8_BAD_POSITION}, {UTF8_UNIT_LEN, WTF8_NOT_UTF8}, {COPY_LATIN1, WTF8_NOT_LATIN1}, {COPY_LATIN1, WTF8_ARRAY_TOO_SHORT},
        {RESERVE, WTF8_NO_MEMORY}, {PUSH_UNIT, WTF8_NO_MEMORY}, {PUSH_POINT, WTF8_NO_MEMORY},
        {PUSH_POINT, WTF8_BAD_CODE_POINT}, {PUSH_UNITS, WTF8_NO_MEMORY}, {PUSH_LATIN1, WTF8_NO_MEMORY},
        {PUSH_UTF8, WTF8_NO_MEMORY}, {PUSH_UTF8, WTF8_NOT_UTF8}, {PUSH_PART, WTF8_NO_MEMORY},
        {PUSH_STRING, WTF8_NO_MEMORY}, {PUSH_SLICE, WTF8_NO_MEMORY},
        {PUSH_SLICE, WTF8_BAD_POSITION}, {EDIT, WTF8_NO_MEMORY}, {EDIT, WTF8_BAD_POSITION},
        {INSERT, WTF8_NO_MEMORY}, {INSERT, WTF8_BAD_POSITION}, {POSITION_AT, WTF8_BAD_POSITION}, {UNIT_AT, WTF8_BAD_POSITION},
        {NEXT_SURROGATE, WTF8_BAD_POSITION}, {NEXT_SURROGATE, WTF8_END}, {NEXT, WTF8_BAD_POSITION}, {NEXT, WTF8_END}, {PREVIOUS, WTF8_BAD_POSITION}, {PREVIOUS, WTF8_END},
        {TRUNCATE_UNITS, WTF8_BAD_POSITION}, {TRUNCATE_BYTES, WTF8_BAD_POSITION}, {POP, WTF8_END}, {SLICE, WTF8_NO_MEMORY},
        {SLICE, WTF8_BAD_POSITION}, {COPY_UNITS, WTF8_ARRAY_TOO_SHORT}, {COPY_SLICE, WTF8_BAD_POSITION},
        {COPY_POINTS, WTF8_BAD_POSITION}, {COPY_POINTS, WTF8_END},
        {COPY_SLICE, WTF8_ARRAY_TOO_SHORT}, {COPY_UTF8, WTF8_HAS_SURROGATE}, {COPY_UTF8, WTF8_ARRAY_TOO_SHORT},
        {COPY_LOSSY, WTF8_ARRAY_TOO_SHORT}};
    for (int call = 0; call < CALLS; call++) must(counts[call][WTF8_OK] > 0 || steps < 25000, "a call is never done");
    for (size_t i = 0; i < sizeof reached / sizeof reached[0]; i++)
        must(counts[reached[i][0]][reached[i][1]] > 0 || steps < 25000, "a code is never reached");
    printf("random: %ld steps, %ld requests, no difference\n", steps, requests);
    return 0;
}
