/* Each call that only reads a string, asked with what it must answer. */
#ifndef QUESTIONS_H
#define QUESTIONS_H

#include "model.h"

#include <string.h>

enum { QUESTIONS = 42, SEED_0 = 77, SEED_1 = 88 };

/* What the calls must answer of one string, and of it and another. */
struct answers {
    size_t byte_len;
    int is_utf8, order, point_order;
    uint64_t hash;
    uint8_t lossy[3 * MOST]; /* the text with U+FFFD in place of each surrogate */
};

/* The answers by the model. */
static inline struct answers answers_of(const struct pair *p, const struct pair *q) {
    struct answers a = {byte_len(p), is_utf8(p), compare_units(p, q), compare_points(p, q), hash_of(p, SEED_0, SEED_1), {0}};
    size_t len = 0, taken = 0;
    for (size_t i = 0; i < p->n; i += taken) {
        uint32_t c = point_at(p, i, &taken);
        len += encode(c >= 0xD800 && c < 0xE000 ? 0xFFFD : c, a.lossy + len);
    }
    return a;
}

/* Whether the string has these units. */
static inline int has_units(const wtf8_string *string, const uint16_t *units, size_t n) {
    uint16_t out[MOST];
    size_t len = 0;
    return wtf8_copy_units(string, out, MOST, &len) == WTF8_OK && len == n && memcmp(out, units, 2 * n) == 0;
}

/* Whether a question of this kind, below QUESTIONS, is answered right. `number` draws indexes and positions; `own` is a
 * string that no one else uses. */
static inline int is_right(unsigned kind, size_t number, const struct pair *p, const struct pair *q, const struct answers *a, wtf8_string *own) {
    const wtf8_string *s = &p->string;
    size_t index = number % (p->n + 2), position = number % (a->byte_len + 2), len = 0;
    size_t end = number % (p->n + 1), begin = number / 7 % (end + 1);
    uint16_t unit = 0, units[MOST];
    uint32_t point = 77, must_be = 77;
    size_t at = position, must_be_at = position;
    uint8_t bytes[3 * MOST];
    wtf8_result code;
    switch (kind) {
        case 0: return wtf8_unit_len(s) == p->n;
        case 1: return wtf8_byte_len(s) == a->byte_len;
        case 2:
            code = wtf8_unit_at(s, index, &unit);
            return p->n <= index ? code == WTF8_BAD_POSITION : code == WTF8_OK && unit == p->units[index];
        case 3: return wtf8_is_boundary(s, position) == is_boundary(p, position);
        case 4: return wtf8_is_utf8(s) == a->is_utf8;
        case 5: return wtf8_equal(s, &q->string) == (a->order == 0);
        case 6: return wtf8_compare_units(s, &q->string) == a->order;
        case 7: return wtf8_compare_code_points(s, &q->string) == a->point_order;
        case 8: return wtf8_hash(s, SEED_0, SEED_1) == a->hash;
        case 9: return wtf8_slice_units(own, s, begin, end) == WTF8_OK && has_units(own, p->units + begin, end - begin);
        case 10: return has_units(s, p->units, p->n);
        case 11:
            code = wtf8_copy_slice(s, begin, end, units, MOST, &len);
            return code == WTF8_OK && len == end - begin && memcmp(units, p->units + begin, 2 * len) == 0;
        case 12:
            code = wtf8_copy_utf8(s, bytes, sizeof bytes, &len);
            if (!a->is_utf8) return code == WTF8_HAS_SURROGATE;
            return code == WTF8_OK && len == a->byte_len && memcmp(bytes, a->lossy, len) == 0;
        case 13:
            code = wtf8_copy_lossy(s, bytes, sizeof bytes, &len);
            return code == WTF8_OK && len == a->byte_len && memcmp(bytes, a->lossy, len) == 0;
        case 14: return wtf8_set_string(own, s) == WTF8_OK && has_units(own, p->units, p->n);
        case 15: return wtf8_capacity(s) >= a->byte_len;
        case 16:
            code = wtf8_position_at(s, index, &len);
            return p->n < index ? code == WTF8_BAD_POSITION : code == WTF8_OK && len == position_of(p, index);
        case 17: return wtf8_unit_before(s, position) == units_before(p, position);
        case 18: return wtf8_equal_units(s, q->units, q->n) == (a->order == 0) && wtf8_equal_units(s, p->units, p->n);
        case 19: return wtf8_compare_with_units(s, q->units, q->n) == a->order;
        case 20: return wtf8_starts_with(s, index, &q->string) == has_at(p, index, q);
        case 21:
            code = wtf8_next_code_point(s, &at, &point);
            return code == next_point(p, &must_be_at, &must_be) && at == must_be_at && point == must_be;
        case 22:
            code = wtf8_previous_code_point(s, &at, &point);
            return code == previous_point(p, &must_be_at, &must_be) && at == must_be_at && point == must_be;
        case 23:
            wtf8_clear(own);
            return wtf8_push_slice(own, s, begin, end) == WTF8_OK && has_units(own, p->units + begin, end - begin);
        case 24: {
            uint16_t surrogate = 0, must_be_surrogate = 0;
            code = wtf8_next_surrogate(s, &at, &surrogate);
            return code == next_surrogate(p, &must_be_at, &must_be_surrogate) && at == must_be_at && surrogate == must_be_surrogate;
        }
        case 25: {
            uint32_t points[MOST];
            code = wtf8_copy_code_points(s, &at, points, number / 3 % MOST, &len);
            for (size_t i = 0; i < len; i++)
                if (next_point(p, &must_be_at, &must_be) != WTF8_OK || points[i] != must_be) return 0;
            if (code != WTF8_OK) return code == next_point(p, &must_be_at, &must_be) && at == position && len == 0;
            return at == must_be_at && (len == number / 3 % MOST || at == a->byte_len);
        }
        case 26: return wtf8_equal_utf8(s, a->lossy, a->byte_len) == a->is_utf8;
        case 27: return !a->is_utf8 || wtf8_hash_utf8(a->lossy, a->byte_len, SEED_0, SEED_1) == a->hash;
        case 28: return wtf8_starts_with_units(s, index, q->units, q->n) == has_at(p, index, q);
        case 29:
            len = 77;
            code = wtf8_find(s, index, &q->string, &len);
            return is_found(p, index, q->units, q->n, 0, code, len);
        case 30:
            len = 77;
            code = wtf8_rfind(s, index, &q->string, &len);
            return is_found(p, index, q->units, q->n, 1, code, len);
        case 31:
            len = 77;
            code = wtf8_find_units(s, index, p->units + begin, end - begin, &len);
            return is_found(p, index, p->units + begin, end - begin, 0, code, len);
        case 32:
            len = 77;
            code = wtf8_rfind_units(s, index, p->units + begin, end - begin, &len);
            return is_found(p, index, p->units + begin, end - begin, 1, code, len);
        case 33:
            return wtf8_divides_pair(s, index) == (0 < index && index < p->n && position_of(p, index - 1) == position_of(p, index));
        case 34: return wtf8_is_ascii(s) == (front_below(p, 0x80) == p->n);
        case 35: return wtf8_is_latin1(s) == (front_below(p, 0x100) == p->n);
        case 36: {
            size_t front = front_below(p, 0x100), valid = 77;
            code = wtf8_copy_latin1(s, bytes, sizeof bytes, &len, &valid);
            if (front < p->n) return code == WTF8_NOT_LATIN1 && valid == front && len == 0;
            for (size_t i = 0; i < p->n; i++) if (bytes[i] != p->units[i]) return 0;
            return code == WTF8_OK && valid == 77 && len == p->n;
        }
        case 37:
            code = wtf8_code_point_before(s, index, &point);
            return code == must_be_before(p, index, &must_be) && point == must_be;
        case 38: return !a->is_utf8 || (wtf8_utf8_unit_len(a->lossy, a->byte_len, &len, NULL) == WTF8_OK && len == p->n);
        case 39: return wtf8_compare_with_utf8(s, a->lossy, a->byte_len) == (a->is_utf8 ? 0 : -1);
        case 40: return wtf8_starts_with_utf8(s, a->lossy, a->byte_len) == a->is_utf8;
        default:
            wtf8_clear(own);
            return wtf8_push_string(own, s) == WTF8_OK && has_units(own, p->units, p->n);
    }
}

#endif
