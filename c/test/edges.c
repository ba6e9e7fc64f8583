/* The edges: of code points, of UTF-8, of indexes, of capacities, of strings longer than 16 bits count. The hash of four
 * strings, the text of each code, how often a string that grows asks for memory. Linked as requests.h says. */
#define _DEFAULT_SOURCE
#include "../wtf8.h"
#include "model.h"
#include "no_texts.h"
#include "requests.h"

enum { LETTERS = 70000 };

static uint8_t letters[LETTERS];

static void must_have(wtf8_string *string, const uint16_t *units, size_t n, const char *what) {
    uint16_t *out = an_array(2 * n);
    size_t len = 0;
    must(wtf8_copy_units(string, n ? out : NULL, n, &len) == WTF8_OK, what);
    must(len == n && wtf8_unit_len(string) == n, what);
    must_begin(out, 2 * n, units, 2 * n, what);
}

static const struct {
    uint32_t value;
    size_t byte_len, n;
    uint16_t units[2];
} points[] = {
    {0, 1, 1, {0}}, {0x7F, 1, 1, {0x7F}}, {0x80, 2, 1, {0x80}}, {0x7FF, 2, 1, {0x7FF}}, {0x800, 3, 1, {0x800}},
    {0xD7FF, 3, 1, {0xD7FF}}, {0xD800, 3, 1, {0xD800}}, {0xDBFF, 3, 1, {0xDBFF}}, {0xDC00, 3, 1, {0xDC00}},
    {0xDFFF, 3, 1, {0xDFFF}}, {0xE000, 3, 1, {0xE000}}, {0xFFFE, 3, 1, {0xFFFE}}, {0xFFFF, 3, 1, {0xFFFF}},
    {0x10000, 4, 2, {0xD800, 0xDC00}}, {0x10001, 4, 2, {0xD800, 0xDC01}}, {0x103FF, 4, 2, {0xD800, 0xDFFF}},
    {0x10400, 4, 2, {0xD801, 0xDC00}}, {0x10FFFF, 4, 2, {0xDBFF, 0xDFFF}}};

static const uint32_t no_points[] = {0x110000, 0x110001, 0x200000, 0x80000000, 0xFFFF0041, UINT32_MAX};

static void code_points(void) {
    for (size_t i = 0; i < sizeof points / sizeof points[0]; i++) {
        wtf8_string string = WTF8_EMPTY, by_units = WTF8_EMPTY;
        must(wtf8_push_code_point(&string, points[i].value) == WTF8_OK, "a code point");
        for (size_t k = 0; k < sizeof no_points / sizeof no_points[0]; k++)
            must(wtf8_push_code_point(&string, no_points[k]) == WTF8_BAD_CODE_POINT, "no code point");
        must(wtf8_byte_len(&string) == points[i].byte_len, "a code point's length");
        must_have(&string, points[i].units, points[i].n, "a code point's units");
        for (size_t k = 0; k < points[i].n; k++) must(wtf8_push_unit(&by_units, points[i].units[k]) == WTF8_OK, "a unit");
        must_have(&by_units, points[i].units, points[i].n, "the units pushed");
        must(wtf8_equal(&string, &by_units), "a code point and its units");
        wtf8_free(&string);
        wtf8_free(&by_units);
    }
}

static const struct {
    const char *bytes;
    size_t len, n;
    uint16_t units[7];
} texts[] = {
    {TEXT(""), 0, {0}}, {TEXT("\0"), 1, {0}}, {TEXT("a\0b"), 3, {'a', 0, 'b'}}, {TEXT("\x7F"), 1, {0x7F}},
    {TEXT("seventh"), 7, {'s', 'e', 'v', 'e', 'n', 't', 'h'}}, {TEXT("\xC2\x80"), 1, {0x80}},
    {TEXT("\xDF\xBF"), 1, {0x7FF}}, {TEXT("\xE0\xA0\x80"), 1, {0x800}}, {TEXT("\xED\x9F\xBF"), 1, {0xD7FF}},
    {TEXT("\xEE\x80\x80"), 1, {0xE000}}, {TEXT("\xEF\xBF\xBE"), 1, {0xFFFE}}, {TEXT("\xEF\xBF\xBF"), 1, {0xFFFF}},
    {TEXT("\xF0\x90\x80\x80"), 2, {0xD800, 0xDC00}}, {TEXT("\xF4\x8F\xBF\xBF"), 2, {0xDBFF, 0xDFFF}},
    {TEXT("\xEF\xBB\xBF" "a"), 2, {0xFEFF, 'a'}}, {TEXT("\r\n"), 2, {'\r', '\n'}}, {TEXT("e\xCC\x81"), 2, {'e', 0x301}}};

/* Texts after `front` letters, set and pushed, and bytes that are none, before as many letters. */
static void utf8_after(size_t front) {
    uint8_t text[192];
    uint16_t units[192];
    wtf8_string string = WTF8_EMPTY, part = WTF8_EMPTY;
    memcpy(text, letters, front);
    for (size_t i = 0; i < sizeof texts / sizeof texts[0]; i++) {
        size_t len = front + texts[i].len, n = front + texts[i].n;
        memcpy(text + front, texts[i].bytes, texts[i].len);
        for (size_t k = 0; k < front; k++) units[k] = letters[k];
        memcpy(units + front, texts[i].units, 2 * texts[i].n);
        memcpy(units + n, units, 2 * n);
        size_t valid = 77;
        uint8_t *array = array_of(text, len);
        must(wtf8_set_utf8(&string, len ? array : NULL, len, &valid) == WTF8_OK && valid == 77, "a text is set");
        must_have(&string, units, n, "a text that was set");
        must(wtf8_push_utf8(&string, len ? array : NULL, len, NULL) == WTF8_OK, "a text is pushed");
        size_t used = 77, bad = 77;
        must(wtf8_push_utf8_part(&part, len ? array : NULL, len, &used, &bad) == WTF8_OK, "a text as a part");
        must(used == len && bad == 0, "a part that is all of a text");
        must_begin(array, len, text, len, "the text itself");
        must_have(&part, units, n, "a text that was pushed as a part");
        wtf8_clear(&part);
        must_have(&string, units, 2 * n, "a text that was pushed");
        must(wtf8_byte_len(&string) == 2 * len && wtf8_is_utf8(&string), "a text's length");
        for (size_t k = 0; k < NO_TEXTS; k++) {
            memcpy(text + front, no_texts[k].bytes, no_texts[k].len);
            memcpy(text + front + no_texts[k].len, letters, front);
            for (size_t back = 0; back <= front; back += front < 8 ? 1 : front) {
                size_t set = 77, pushed = 77;
                len = front + no_texts[k].len + back;
                array = array_of(text, len);
                must(wtf8_set_utf8(&string, array, len, &set) == WTF8_NOT_UTF8, "no text is set");
                must(wtf8_push_utf8(&string, array, len, &pushed) == WTF8_NOT_UTF8, "no text is pushed");
                must(set == front && pushed == front, "the first byte that is not UTF-8");
                must(wtf8_set_utf8(&string, array, len, NULL) == WTF8_NOT_UTF8, "no text is set");
                must(wtf8_push_utf8(&string, array, len, NULL) == WTF8_NOT_UTF8, "no text is pushed");
                used = bad = 77;
                must(wtf8_push_utf8_part(&part, array, len, &used, &bad) == WTF8_OK, "the front of no text");
                must(used == front && wtf8_byte_len(&part) == front, "the length of the front that is a text");
                must(bad == (back ? no_texts[k].before_letter : no_texts[k].at_end), "the bytes that are wrong together");
                wtf8_clear(&part);
                must_begin(array, len, text, len, "bytes that are no text");
                if (front == 0) break;
            }
        }
        must_have(&string, units, 2 * n, "a text after bytes that are none");
    }
    wtf8_free(&string);
    wtf8_free(&part);
}

/* Bytes that are no text after letters of one to four bytes, cut at each boundary up to index 70, and before them. */
static void no_utf8_after_wide_letters(void) {
    static const char wide[] = "\u0421\u044A\u0435\u0448\u044C \u8336\u8336, \U0001F4A9 \u0435\u0449\u0451 "
                               "\u8336\u8336\u8336\u8336\u8336\u8336\u8336\u8336\u8336 \U0001F4A9\U0001F4A9\U0001F4A9";
    uint8_t text[2 * sizeof wide + LONGEST_NO_TEXT];
    wtf8_string string = WTF8_EMPTY;
    memcpy(text, wide, sizeof wide);
    for (size_t front = 0; front <= 70; front++) {
        if ((wide[front] & 0xC0) == 0x80) continue;
        for (size_t k = 0; k < NO_TEXTS; k++) {
            memcpy(text + front, no_texts[k].bytes, no_texts[k].len);
            memcpy(text + front + no_texts[k].len, wide, front);
            for (size_t back = 0; back <= front; back += front) {
                size_t len = front + no_texts[k].len + back, valid = 77, used = 77, bad = 77;
                uint8_t *array = array_of(text, len);
                must(wtf8_set_utf8(&string, array, len, &valid) == WTF8_NOT_UTF8, "no text after wide letters is set");
                must(valid == front, "the first byte that is not UTF-8 after wide letters");
                must(wtf8_push_utf8_part(&string, array, len, &used, &bad) == WTF8_OK, "the wide letters before no text");
                must(used == front && wtf8_byte_len(&string) == front, "the length of the wide letters");
                must(bad == (back ? no_texts[k].before_letter : no_texts[k].at_end), "the bytes that are wrong after wide letters");
                must_begin(array, len, text, len, "bytes that are no text after wide letters");
                wtf8_clear(&string);
                if (front == 0) break;
            }
        }
        memcpy(text, wide, sizeof wide);
    }
    wtf8_free(&string);
}

/* Bytes, their text as CPython's bytes.decode("utf-8", "replace") gives it, and the number of bytes before the ones that its
 * incremental decoder keeps for the next part, for which the text ends with U+FFFD. */
static const struct {
    const char *bytes;
    size_t len;
    const char *text;
    size_t text_len, used;
} replaced[] = {
    {TEXT(""), TEXT(""), 0},
    {TEXT("abc"), TEXT("abc"), 3},
    {TEXT("\377"), TEXT("\357\277\275"), 1},
    {TEXT("\303"), TEXT("\357\277\275"), 0},
    {TEXT("\344\270\255\360\237\222a"), TEXT("\344\270\255\357\277\275a"), 7},
    {TEXT("a\355\240\200b"), TEXT("a\357\277\275\357\277\275\357\277\275b"), 5},
    {TEXT("\360\200\200\200"), TEXT("\357\277\275\357\277\275\357\277\275\357\277\275"), 4},
    {TEXT("\303\303\251\200"), TEXT("\357\277\275\303\251\357\277\275"), 4},
    {TEXT("\364\220\200\350\214"), TEXT("\357\277\275\357\277\275\357\277\275\357\277\275"), 3},
    {TEXT("\360\237\222\360\237\222\251\360\237"), TEXT("\357\277\275\360\237\222\251\357\277\275"), 7},
    {TEXT("\350\214\266\350\214\266\350\214\350\214\266\360\237\222"), TEXT("\350\214\266\350\214\266\357\277\275\350\214\266\357\277\275"), 11},
    {TEXT("\200\277\300\257\340\200\257\365\376"), TEXT("\357\277\275\357\277\275\357\277\275\357\277\275\357\277\275\357\277\275\357\277\275\357\277\275\357\277\275"), 9},
    {TEXT("\342\202\342\202\254X\340\240"), TEXT("\357\277\275\342\202\254X\357\277\275"), 6},
    {TEXT("\355\237"), TEXT("\357\277\275"), 0},
    {TEXT("\364\217\277"), TEXT("\357\277\275"), 0},
    {TEXT("\364\220"), TEXT("\357\277\275\357\277\275"), 2},
    {TEXT("\302\302"), TEXT("\357\277\275\357\277\275"), 1},
    {TEXT("\340\237\277"), TEXT("\357\277\275\357\277\275\357\277\275"), 3},
    {TEXT("\370\210\200\200\200"), TEXT("\357\277\275\357\277\275\357\277\275\357\277\275\357\277\275"), 5}
};

/* The bytes after `front` letters, with just room for their text and every request refused, then without a byte of it. */
static void replaced_after(size_t front) {
    enum { LONGEST = 128 };
    for (size_t i = 0; i < sizeof replaced / sizeof replaced[0]; i++) {
        uint8_t bytes[LONGEST], text[LONGEST];
        size_t len = front + replaced[i].len, text_len = front + replaced[i].text_len, used = 77;
        size_t part_len = text_len - (replaced[i].used < replaced[i].len ? 3 : 0);
        memcpy(bytes, letters, front);
        memcpy(bytes + front, replaced[i].bytes, replaced[i].len);
        memcpy(text, letters, front);
        memcpy(text + front, replaced[i].text, replaced[i].text_len);
        uint8_t *array = array_of(bytes, len);
        for (int is_part = 0; is_part < 2; is_part++) {
            for (size_t lacking = 0; lacking < 2; lacking++) {
                wtf8_string string = WTF8_EMPTY;
                size_t all = is_part ? part_len : text_len;
                must(wtf8_reserve_bytes(&string, all) == WTF8_OK, "room for replaced bytes");
                size_t before = wtf8_capacity(&string) - all + (all > 0 ? lacking : 0);
                must(wtf8_push_utf8(&string, letters, before, NULL) == WTF8_OK, "letters before replaced bytes");
                long requested = requests;
                used = 77;
                refuse_after = 0;
                wtf8_result code = is_part ? wtf8_push_utf8_lossy_part(&string, len ? array : NULL, len, &used)
                                           : wtf8_push_utf8_lossy(&string, len ? array : NULL, len);
                refuse_after = -1;
                if (all > 0 && lacking) {
                    must(code == WTF8_NO_MEMORY && used == 77, "replaced bytes that lack a byte");
                    must(wtf8_equal_utf8(&string, letters, before), "the letters before them");
                } else {
                    must(code == WTF8_OK && requests == requested, "replaced bytes that fit");
                    must(!is_part || used == front + replaced[i].used, "the bytes before an unfinished code point");
                    must(wtf8_byte_len(&string) == before + all, "the length of replaced bytes");
                    must(wtf8_truncate_bytes(&string, before) == WTF8_OK && wtf8_equal_utf8(&string, letters, before),
                         "the letters before replaced bytes");
                }
                wtf8_clear(&string);
                code = is_part ? wtf8_push_utf8_lossy_part(&string, len ? array : NULL, len, &used)
                               : wtf8_push_utf8_lossy(&string, len ? array : NULL, len);
                must(code == WTF8_OK && wtf8_equal_utf8(&string, text, all), "the text of replaced bytes");
                wtf8_free(&string);
            }
        }
        must_begin(array, len, bytes, len, "the replaced bytes themselves");
    }
}

/* Replaced bytes are cut anywhere: what a part left is before the next one. */
static void replaced_in_parts(void) {
    for (size_t i = 0; i < sizeof replaced / sizeof replaced[0]; i++) {
        for (size_t cut = 0; cut <= replaced[i].len; cut++) {
            wtf8_string string = WTF8_EMPTY;
            const uint8_t *bytes = (const uint8_t *)replaced[i].bytes;
            size_t used = 77;
            must(wtf8_push_utf8_lossy_part(&string, bytes, cut, &used) == WTF8_OK && used <= cut && cut <= used + 3,
                 "the first part");
            must(wtf8_push_utf8_lossy(&string, bytes + used, replaced[i].len - used) == WTF8_OK, "the second part");
            must(wtf8_equal_utf8(&string, (const uint8_t *)replaced[i].text, replaced[i].text_len), "both parts");
            wtf8_free(&string);
        }
    }
}

/* As CPython 3.11 hashes the seeds' 16 bytes, the string's and FE, by SipHash-1-3, if its key is 0:
 * PYTHONHASHSEED=0 python3 -c 'print("%016X" % (hash(bytes(16) + b"\xED\xA0\xBD\xFE") % 2**64))' for the seeds 0. */
static const struct {
    uint64_t seed_0, seed_1;
    size_t n;
    uint16_t units[16];
    uint64_t hash;
} hashes[] = {
    {0, 0, 0, {0}, 0x7F3F09922D99717B},
    {0, 0, 1, {'a'}, 0xE1D3F46E41F029CE},
    {1, 0, 1, {'a'}, 0x04BC632702AB2B70},
    {0, 1, 1, {'a'}, 0xCC85E10484043A29},
    {0x0123456789ABCDEF, 0xFEDCBA9876543210, 1, {0xD83D}, 0x2CC3EB091EA6C8C3},
    {UINT64_MAX, (uint64_t)1 << 63, 2, {0xD83D, 0xDCA9}, 0xF8AC66F16A91C469},
    {0x0706050403020100, 0x0F0E0D0C0B0A0908, 16,
     {'s', 'i', 'x', 't', 'e', 'e', 'n', ' ', 'l', 'e', 't', 't', 'e', 'r', 's', '!'}, 0x80FFFB724A16C99F}};

/* Three of the 64 vectors of SipHash-2-4 in its authors' vectors.h: the bytes are 00, 01 and so on, the key 00 to 0F. */
static void sip_vectors(void) {
    uint8_t bytes[63];
    for (size_t i = 0; i < sizeof bytes; i++) bytes[i] = (uint8_t)i;
    must(sip_hash(2, 4, 0x0706050403020100, 0x0F0E0D0C0B0A0908, bytes, 0) == 0x726FDB47DD0E0E31,
         "SipHash-2-4 of no byte");
    must(sip_hash(2, 4, 0x0706050403020100, 0x0F0E0D0C0B0A0908, bytes, 15) == 0xA129CA6149BE45E5,
         "SipHash-2-4 of 15 bytes");
    must(sip_hash(2, 4, 0x0706050403020100, 0x0F0E0D0C0B0A0908, bytes, 63) == 0x958A324CEB064572,
         "SipHash-2-4 of 63 bytes");
}

static void hash(void) {
    for (size_t i = 0; i < sizeof hashes / sizeof hashes[0]; i++) {
        wtf8_string string = WTF8_EMPTY;
        must(wtf8_set_units(&string, hashes[i].units, hashes[i].n) == WTF8_OK, "a string to hash");
        refuse_after = 0;
        must(wtf8_hash(&string, hashes[i].seed_0, hashes[i].seed_1) == hashes[i].hash, "a hash");
        uint16_t *array = array_of(hashes[i].units, 2 * hashes[i].n);
        const uint16_t *given = hashes[i].n > 0 ? array : NULL;
        must(wtf8_hash_units(given, hashes[i].n, hashes[i].seed_0, hashes[i].seed_1) == hashes[i].hash,
             "a hash of units");
        must_begin(array, 2 * hashes[i].n, hashes[i].units, 2 * hashes[i].n, "the units of a hash");
        refuse_after = -1;
        wtf8_free(&string);
    }
}

/* Units asked for without a string of them, and a string within another, also in the middle of a pair. */
static void asked_units(void) {
    static const uint16_t units[] = {'a', 0xD83D, 0xDCA9, 'b', 0xE000}, greater[] = {'a', 0xE000};
    wtf8_string string = WTF8_EMPTY, other = WTF8_EMPTY, none = WTF8_EMPTY;
    must(wtf8_set_units(&string, units, 5) == WTF8_OK && wtf8_reserve_bytes(&other, 20) == WTF8_OK, "a string to ask");
    long requested = requests;
    refuse_after = 0;
    must(wtf8_equal_units(&string, units, 5) && wtf8_compare_with_units(&string, units, 5) == 0, "the units of a string");
    for (size_t n = 0; n < 5; n++) {
        uint16_t less[5];
        memcpy(less, units, sizeof units);
        less[n]--;
        must(!wtf8_equal_units(&string, n ? units : NULL, n), "a front of the units");
        must(wtf8_compare_with_units(&string, n ? units : NULL, n) == 1, "a string after a front of its units");
        must(!wtf8_equal_units(&string, less, 5) && wtf8_compare_with_units(&string, less, 5) == 1,
             "a unit that is less");
    }
    /* By units, as JavaScript compares: the lead D83D is less than E000. */
    must(wtf8_compare_with_units(&string, greater, 2) == -1 && !wtf8_equal_units(&string, greater, 2), "greater units");
    must(wtf8_equal_units(&none, NULL, 0) && wtf8_compare_with_units(&none, NULL, 0) == 0, "no units");
    must(!wtf8_equal_units(&none, units, 1) && wtf8_compare_with_units(&none, units, 1) == -1, "no units and one");
    for (size_t begin = 0; begin < 5; begin++) {
        for (size_t end = begin + 1; end <= 5; end++) {
            must(wtf8_set_units(&other, units + begin, end - begin) == WTF8_OK, "a part of a string");
            for (size_t i = 0; i < 7; i++)
                must(wtf8_starts_with(&string, i, &other) == (i == begin) &&
                     wtf8_starts_with_units(&string, i, units + begin, end - begin) == (i == begin),
                     "the index of a part");
            must(!wtf8_starts_with(&string, SIZE_MAX, &other) && !wtf8_starts_with(&none, 0, &other),
                 "no index of a part");
            must(!wtf8_starts_with_units(&string, SIZE_MAX, units + begin, end - begin) &&
                 !wtf8_starts_with_units(&none, 0, units + begin, end - begin), "no index of units");
        }
    }
    for (size_t i = 0; i < 7; i++)
        must(wtf8_starts_with(&string, i, &none) && wtf8_starts_with_units(&string, i, NULL, 0), "an empty string at an index");
    must(wtf8_starts_with(&string, SIZE_MAX, &none) && wtf8_starts_with(&none, SIZE_MAX, &none),
         "an empty string after the end");
    must(wtf8_starts_with_units(&string, SIZE_MAX, NULL, 0) && wtf8_starts_with_units(&none, SIZE_MAX, NULL, 0),
         "no units after the end");
    for (size_t i = 0; i < 7; i++) must(wtf8_starts_with(&string, i, &string) == (i == 0), "a string within itself");
    /* The bytes of a string with a lone surrogate are not UTF-8. */
    static const uint8_t surrogate[] = {0xED, 0xA0, 0xBD};
    must(wtf8_set_units(&other, units + 1, 1) == WTF8_OK && !wtf8_equal_utf8(&other, surrogate, 3), "a surrogate is no text");
    must(wtf8_hash_utf8(surrogate, 3, 5, 6) == wtf8_hash(&other, 5, 6), "the hash of bytes that are not UTF-8");
    must(wtf8_equal_utf8(&none, NULL, 0) && !wtf8_equal_utf8(&none, surrogate, 1), "the empty text");
    must(requests == requested, "requests of questions");
    refuse_after = -1;
    wtf8_free(&string);
    wtf8_free(&other);
}

/* The order of two code points, each after equal units and before a letter: by their values, which rise in `points`, and
 * by their units. */
static void orders(void) {
    enum { POINTS = sizeof points / sizeof points[0], MOST_EQUAL = 40 };
    static const size_t fronts[] = {0, 1, 2, 7, 8, 15, 16, 17, 31, 32, 33, MOST_EQUAL};
    for (size_t f = 0; f < sizeof fronts / sizeof fronts[0]; f++) {
        for (size_t i = 0; i < POINTS; i++) {
            for (size_t k = 0; k < POINTS; k++) {
                static struct pair p, q;
                struct pair *const both[] = {&p, &q};
                for (int of = 0; of < 2; of++) {
                    size_t point = of ? k : i;
                    both[of]->n = 0;
                    for (size_t m = 0; m < fronts[f]; m++) both[of]->units[both[of]->n++] = m % 3 ? 'a' : 0x4E2D;
                    for (size_t m = 0; m < points[point].n; m++) both[of]->units[both[of]->n++] = points[point].units[m];
                    both[of]->units[both[of]->n++] = 'z';
                    must(wtf8_set_units(&both[of]->string, both[of]->units, both[of]->n) == WTF8_OK, "a string to order");
                }
                int by_units = compare_units(&p, &q);
                must(wtf8_compare_code_points(&p.string, &q.string) == (i < k ? -1 : i > k), "the order by code points");
                must(wtf8_compare_units(&p.string, &q.string) == by_units, "the order by units");
                must(wtf8_compare_with_units(&p.string, q.units, q.n) == by_units, "the order by units that are given");
                must(wtf8_equal(&p.string, &q.string) == (i == k) &&
                     wtf8_equal_units(&p.string, q.units, q.n) == (i == k), "equal code points");
                wtf8_free(&p.string);
                wtf8_free(&q.string);
            }
        }
    }
}

enum { ALPHABET = 5, SHORT = 5, SHORT_IN_TWO = 3, SHORT_STRINGS = 1 + 5 + 25 + 125 };

/* The string of `n` letters of an alphabet with this number among all. */
static void nth_string(struct pair *p, size_t n, size_t number) {
    static const uint16_t alphabet[ALPHABET] = {'a', 0xE9, 0xE000, 0xD83D, 0xDCA9};
    p->n = n;
    for (size_t i = 0; i < n; i++, number /= ALPHABET) p->units[i] = alphabet[number % ALPHABET];
}

/* All answers about a short string are those of the model. */
static void must_answer(const struct pair *p, wtf8_string *other) {
    const wtf8_string *string = &p->string;
    size_t len = byte_len(p), got = 77, taken = 0, k = 0;
    uint8_t lossy[3 * SHORT], text[3 * SHORT];
    must(wtf8_unit_len(string) == p->n && wtf8_byte_len(string) == len, "the lengths of a short string");
    must(wtf8_is_utf8(string) == is_utf8(p), "whether a short string is UTF-8");
    must(wtf8_hash(string, 3, 4) == hash_of(p, 3, 4), "the hash of a short string");
    must(wtf8_hash_units(p->units, p->n, 3, 4) == hash_of(p, 3, 4), "the hash of a short string's units");
    must(wtf8_set_string(other, string) == WTF8_OK, "a short string to take code points off");
    for (size_t left = len;;) {
        uint32_t value = 77, must_be = 77;
        wtf8_result code = previous_point(p, &left, &must_be);
        must(wtf8_pop(other, &value) == code && value == must_be, "a code point is taken off a short string");
        must_have(other, p->units, units_before(p, left), "a short string without its last code points");
        if (code == WTF8_END) break;
    }
    for (size_t i = 0; i <= p->n + 1; i++) {
        uint16_t unit = 77;
        wtf8_result code = wtf8_position_at(string, i, &got);
        must(code == (i <= p->n ? WTF8_OK : WTF8_BAD_POSITION), "a position in a short string");
        must(i > p->n || got == position_of(p, i), "the position in a short string");
        must(wtf8_unit_at(string, i, &unit) == (i < p->n ? WTF8_OK : WTF8_BAD_POSITION), "a unit of a short string");
        must(unit == (i < p->n ? p->units[i] : 77), "the unit of a short string");
        must(wtf8_set_string(other, string) == WTF8_OK, "a short string to cut");
        must(wtf8_truncate_units(other, i) == (i <= p->n ? WTF8_OK : WTF8_BAD_POSITION), "a short string is cut");
        must_have(other, p->units, i <= p->n ? i : p->n, "a short string that was cut");
        for (size_t end = 0; end <= p->n + 1; end++) {
            uint16_t out[SHORT];
            code = i <= end && end <= p->n ? WTF8_OK : WTF8_BAD_POSITION;
            must(wtf8_copy_slice(string, i, end, out, SHORT, &got) == code, "a part of a short string");
            must(code != WTF8_OK || (got == end - i && memcmp(out, p->units + i, 2 * got) == 0),
                 "the part of a short string");
            must(wtf8_slice_units(other, string, i, end) == code, "a slice of a short string");
            if (code == WTF8_OK) must_have(other, p->units + i, end - i, "the slice of a short string");
        }
    }
    for (size_t position = 0; position <= len + 1; position++) {
        size_t at = position, must_be_at = position;
        uint32_t value = 77, must_be = 77;
        int is_at_boundary = is_boundary(p, position);
        must(wtf8_is_boundary(string, position) == is_at_boundary, "a boundary of a short string");
        must(wtf8_unit_before(string, position) == units_before(p, position), "an index in a short string");
        must(wtf8_next_code_point(string, &at, &value) == next_point(p, &must_be_at, &must_be),
             "a step in a short string");
        must(at == must_be_at && value == must_be, "where a step in a short string ends");
        at = must_be_at = position;
        value = must_be = 77;
        must(wtf8_previous_code_point(string, &at, &value) == previous_point(p, &must_be_at, &must_be),
             "a step back in it");
        must(at == must_be_at && value == must_be, "where a step back ends");
        must(wtf8_set_string(other, string) == WTF8_OK, "a short string to cut by bytes");
        must(wtf8_truncate_bytes(other, position) == (is_at_boundary ? WTF8_OK : WTF8_BAD_POSITION),
             "it is cut by bytes");
        must_have(other, p->units, is_at_boundary ? units_before(p, position) : p->n,
            "a short string that was cut by bytes");
    }
    for (size_t i = 0; i < p->n; i += taken) {
        uint32_t c = point_at(p, i, &taken);
        k += encode(0xD800 <= c && c < 0xE000 ? 0xFFFD : c, lossy + k);
    }
    must(wtf8_copy_lossy(string, text, sizeof text, &got) == WTF8_OK && got == len, "a short string's lossy text");
    must(memcmp(lossy, text, len) == 0, "the lossy text of a short string");
}

/* Each string of at most five letters of an alphabet with both halves of a pair is made of two parts in each way. */
static void short_strings(void) {
    static struct pair p, back;
    wtf8_string other = WTF8_EMPTY;
    for (size_t n = 0, strings = 1; n <= SHORT; n++, strings *= ALPHABET) {
        for (size_t number = 0; number < strings; number++) {
            nth_string(&p, n, number);
            must(wtf8_set_units(&p.string, p.units, n) == WTF8_OK, "a short string");
            must_answer(&p, &other);
            for (size_t front = 0; front <= n; front++) {
                back.n = n - front;
                memcpy(back.units, p.units + front, 2 * back.n);
                for (int way = 0; way < 5; way++) {
                    size_t taken = 0;
                    must(wtf8_set_units(&other, p.units, front) == WTF8_OK, "the front of a short string");
                    must(wtf8_set_units(&back.string, back.units, back.n) == WTF8_OK, "the back of a short string");
                    wtf8_result code = way == 0 ? wtf8_push_units(&other, back.units, back.n)
                                     : way == 1 ? wtf8_push_string(&other, &back.string)
                                     : way == 2 ? wtf8_push_slice(&other, &p.string, front, n) : WTF8_OK;
                    for (size_t i = 0; way == 3 && i < back.n; i++)
                        if (code == WTF8_OK) code = wtf8_push_unit(&other, back.units[i]);
                    for (size_t i = 0; way == 4 && i < back.n; i += taken) {
                        uint32_t c = point_at(&back, i, &taken);
                        if (code == WTF8_OK) code = wtf8_push_code_point(&other, c);
                    }
                    must(code == WTF8_OK && wtf8_equal(&other, &p.string), "the back after the front");
                    must_have(&other, p.units, n, "the front and the back of a short string");
                }
            }
        }
    }
    wtf8_free(&p.string);
    wtf8_free(&back.string);
    wtf8_free(&other);
}

/* All questions of two short strings. */
static void short_strings_in_two(void) {
    static struct pair all[SHORT_STRINGS];
    size_t count = 0;
    for (size_t n = 0, strings = 1; n <= SHORT_IN_TWO; n++, strings *= ALPHABET) {
        for (size_t number = 0; number < strings; number++) {
            nth_string(&all[count], n, number);
            must(wtf8_set_units(&all[count].string, all[count].units, n) == WTF8_OK, "a short string of two");
            count++;
        }
    }
    must(count == SHORT_STRINGS, "the number of short strings");
    for (size_t i = 0; i < count; i++) {
        for (size_t k = 0; k < count; k++) {
            const struct pair *p = &all[i], *q = &all[k];
            int order = compare_units(p, q);
            must(wtf8_equal(&p->string, &q->string) == (i == k) &&
                 wtf8_equal_units(&p->string, q->units, q->n) == (i == k), "two short strings");
            must(wtf8_compare_units(&p->string, &q->string) == order &&
                 wtf8_compare_with_units(&p->string, q->units, q->n) == order, "the order of two");
            must(wtf8_compare_code_points(&p->string, &q->string) == compare_points(p, q),
                 "the order of two by code points");
            must((wtf8_hash(&p->string, i, 5) == wtf8_hash(&q->string, i, 5)) == (i == k), "the hashes of two");
            for (size_t at = 0; at <= p->n + 1; at++)
                must(wtf8_starts_with(&p->string, at, &q->string) == has_at(p, at, q), "a short string within another");
        }
    }
    for (size_t i = 0; i < count; i++) wtf8_free(&all[i].string);
}

/* Each number of units up to 300 is set, pushed, cut out and copied, of ASCII, of CJK, and of letters and pairs. */
static void lengths(void) {
    enum { MOST_UNITS = 300, KINDS = 3 };
    static struct pair p;
    static uint8_t text[4 * MOST_UNITS];
    static uint16_t twice[2 * MOST_UNITS + 1];
    wtf8_string string = WTF8_EMPTY, other = WTF8_EMPTY;
    for (size_t kind = 0; kind < KINDS; kind++) {
        size_t len = 0;
        for (p.n = 0; p.n <= MOST_UNITS; p.n++) {
            size_t n = p.n, taken = 0, got = 77;
            uint16_t *units = array_of(p.units, 2 * n);
            len = 0;
            for (size_t i = 0; i < n; i += taken) {
                uint32_t c = point_at(&p, i, &taken);
                /* A lead at the end, the half of a pair, is no text. */
                len += encode(is_lead((uint16_t)(c & 0xFFFF)) && c < 0x10000 ? 0xFFFD : c, text + len);
            }
            int is_text = is_utf8(&p);
            memcpy(twice, p.units, 2 * n);
            memcpy(twice + n, p.units, 2 * n);
            must(wtf8_set_units(&string, n ? units : NULL, n) == WTF8_OK, "units that are set");
            must_have(&string, p.units, n, "units that were set");
            must(wtf8_push_units(&string, n ? units : NULL, n) == WTF8_OK, "units that are pushed");
            must_have(&string, twice, 2 * n, "units that were pushed");
            must(wtf8_slice_units(&other, &string, n, 2 * n) == WTF8_OK, "the back of a string");
            must_have(&other, p.units, n, "the units of the back");
            must(wtf8_push_slice(&other, &string, 0, n) == WTF8_OK, "the front of a string");
            must_have(&other, twice, 2 * n, "the units of the front");
            must(wtf8_equal(&string, &other) && wtf8_truncate_units(&other, n) == WTF8_OK, "equal units");
            must(wtf8_set_string(&string, &other) == WTF8_OK && wtf8_push_string(&string, &other) == WTF8_OK,
                 "a string that is set and pushed");
            must_have(&string, twice, 2 * n, "the units of a string that was set and pushed");
            must(wtf8_push_string(&other, &other) == WTF8_OK && wtf8_equal(&string, &other),
                 "a string that is pushed to itself");
            must(wtf8_slice_units(&other, &other, n, 2 * n) == WTF8_OK, "the back of a string in its place");
            must_have(&other, p.units, n, "the units of the back in its place");
            uint16_t *out = an_array(2 * n);
            must(wtf8_copy_slice(&string, n, 2 * n, out, n, &got) == WTF8_OK && got == n,
                 "units of the back that are copied");
            must_begin(out, 2 * n, p.units, 2 * n, "the units of the back that were copied");
            uint8_t *bytes = an_array(len);
            must(wtf8_copy_lossy(&other, bytes, len, &got) == WTF8_OK && got == len, "a lossy text that is copied");
            must_begin(bytes, len, text, len, "the lossy text that was copied");
            bytes = an_array(len);
            got = 77;
            must(wtf8_copy_utf8(&other, bytes, len, &got) == (is_text ? WTF8_OK : WTF8_HAS_SURROGATE) &&
                 got == (is_text ? len : 77), "a text that is copied");
            must_begin(bytes, len, text, is_text ? len : 0, "the text that was copied");
            must(wtf8_hash_units(n ? units : NULL, n, n, kind) == hash_of(&p, n, kind),
                 "the hash of units that are given");
            must(wtf8_hash(&other, n, kind) == hash_of(&p, n, kind) && wtf8_byte_len(&other) == len &&
                 wtf8_is_utf8(&other) == is_text,
                 "the bytes of units");
            if (is_text) {
                bytes = array_of(text, len);
                must(wtf8_set_utf8(&string, n ? bytes : NULL, len, NULL) == WTF8_OK && wtf8_equal(&string, &other),
                     "a text that is set");
                must(wtf8_push_utf8(&string, n ? bytes : NULL, len, NULL) == WTF8_OK, "a text that is pushed");
                must_have(&string, twice, 2 * n, "the units of a text that was pushed");
                must(wtf8_equal_utf8(&other, n ? bytes : NULL, len) &&
                     wtf8_hash_utf8(n ? bytes : NULL, len, n, kind) == hash_of(&p, n, kind), "a text that is asked for");
                must(len == 0 || !wtf8_equal_utf8(&other, bytes, len - 1), "a front of the text");
                must(wtf8_compare_with_utf8(&other, n ? bytes : NULL, len) == 0 &&
                     wtf8_starts_with_utf8(&other, n ? bytes : NULL, len), "the order of a text");
                for (size_t i = 0; i < len && n < 80; i++) {
                    /* A front that ends within a code point is not UTF-8. */
                    int is_front = (text[i] & 0xC0) != 0x80;
                    uint8_t *front = array_of(text, i);
                    must(wtf8_starts_with_utf8(&other, front, i) == is_front, "a text that is a front");
                    must(wtf8_compare_with_utf8(&other, front, i) == (is_front ? 1 : -1), "the order of a front");
                    must_begin(front, i, text, i, "the front itself");
                }
                must_begin(bytes, len, text, len, "the text itself");
                for (size_t i = 0; i < len; i++) {
                    bytes[i] ^= 1;
                    must(!wtf8_equal_utf8(&other, bytes, len), "a text with another byte");
                    must(wtf8_compare_with_utf8(&other, bytes, len) != 0 && !wtf8_starts_with_utf8(&other, bytes, len),
                         "the order of a text with another byte");
                    bytes[i] ^= 1;
                }
            }
            must_begin(units, 2 * n, p.units, 2 * n, "the units themselves");
            size_t pair = kind < 2 ? 0 : n % 5;
            p.units[n] = (uint16_t)(kind == 1 ? 0x4E00 + n : pair == 3 ? 0xD83D : pair == 4 ? 0xDC00 + n : 'a' + n % 26);
        }
    }
    wtf8_free(&string);
    wtf8_free(&other);
}

/* A text beside a string: their order is that of the units, and bytes that are not UTF-8 come after each string. */
static void asked_texts(void) {
    static const struct {
        uint16_t units[3];
        size_t n;
        const char *text;
        size_t len;
        int32_t order;
        bool starts;
    } rows[] = {
        {{0}, 0, "", 0, 0, 1},
        {{0}, 0, "a", 1, -1, 0},
        {{'a'}, 1, "", 0, 1, 1},
        {{'a'}, 1, "a", 1, 0, 1},
        {{'a'}, 1, "ab", 2, -1, 0},
        {{'a', 'b'}, 2, "a", 1, 1, 1},
        {{'a', 0}, 2, "a", 1, 1, 1},
        {{'a', 'b'}, 2, "b", 1, -1, 0},
        {{0xE9}, 1, "\xC3\xA9", 2, 0, 1},
        {{0xD83D, 0xDCA9}, 2, "\xF0\x9F\x92\xA9", 4, 0, 1},
        {{0xD83D, 0xDCA9, 'a'}, 3, "\xF0\x9F\x92\xA9", 4, 1, 1},
        {{'a', 0xD83D}, 2, "a", 1, 1, 1},
        {{0xD83D}, 1, "", 0, 1, 1},
        /* By units a pair is greater than D7FF and less than E000. */
        {{0xD83D, 0xDCA9}, 2, "\xED\x9F\xBF", 3, 1, 0},
        {{0xD7FF}, 1, "\xF0\x9F\x92\xA9", 4, -1, 0},
        {{0xD83D, 0xDCA9}, 2, "\xEE\x80\x80", 3, -1, 0},
        {{0xE000}, 1, "\xF0\x9F\x92\xA9", 4, 1, 0},
        /* A surrogate without its other half beside a pair: the lead is equal, and then the next units differ. */
        {{0xD83D}, 1, "\xF0\x9F\x92\xA9", 4, -1, 0},
        {{0xD83D, 'a'}, 2, "\xF0\x9F\x92\xA9", 4, -1, 0},
        {{0xD83D, 0xD83D}, 2, "\xF0\x9F\x92\xA9", 4, -1, 0},
        {{0xD83D, 0xE000}, 2, "\xF0\x9F\x92\xA9", 4, 1, 0},
        {{0xD83C, 0xE000}, 2, "\xF0\x9F\x92\xA9", 4, -1, 0},
        {{0xD83E}, 1, "\xF0\x9F\x92\xA9", 4, 1, 0},
        {{0xDCA9}, 1, "\xF0\x9F\x92\xA9", 4, 1, 0},
        /* No UTF-8: a code point that is cut, wrong bytes after a greater or an equal string, an overlong 0, surrogates. */
        {{0xE9}, 1, "\xC3", 1, -1, 0},
        {{0x4E2D}, 1, "\xE4\xB8", 2, -1, 0},
        {{0xD83D, 0xDCA9}, 2, "\xF0\x9F\x92", 3, -1, 0},
        {{0}, 0, "\xFF", 1, -1, 0},
        {{'b'}, 1, "a\xFF", 2, -1, 0},
        {{'a'}, 1, "a\xFF", 2, -1, 0},
        {{0xFFFF}, 1, "\x80", 1, -1, 0},
        {{0}, 1, "\xC0\x80", 2, -1, 0},
        {{0xD83D}, 1, "\xED\xA0\xBD", 3, -1, 0},
        {{0xD83D, 0xDCA9}, 2, "\xED\xA0\xBD\xED\xB2\xA9", 6, -1, 0},
    };
    wtf8_string string = WTF8_EMPTY;
    for (size_t i = 0; i < sizeof rows / sizeof rows[0]; i++) {
        must(wtf8_set_units(&string, rows[i].units, rows[i].n) == WTF8_OK, "a string beside a text");
        uint8_t *array = array_of(rows[i].text, rows[i].len), *text = rows[i].len ? array : NULL;
        long requested = requests;
        refuse_after = 0;
        must(wtf8_compare_with_utf8(&string, text, rows[i].len) == rows[i].order, "the order of a string and a text");
        must(wtf8_starts_with_utf8(&string, text, rows[i].len) == rows[i].starts, "whether a string begins with a text");
        must(wtf8_equal_utf8(&string, text, rows[i].len) == (rows[i].order == 0), "whether a string is a text");
        must(requests == requested, "requests of questions about a text");
        refuse_after = -1;
        must_begin(array, rows[i].len, rows[i].text, rows[i].len, "the text beside a string");
    }
    wtf8_free(&string);
}

/* Each unit of a string counts: one that is another by one bit is noticed by each question of two. */
static void each_unit(void) {
    enum { LONG = 300 };
    uint16_t units[LONG];
    uint8_t text[3 * LONG];
    wtf8_string string = WTF8_EMPTY, other = WTF8_EMPTY;
    for (size_t n = 1; n <= LONG; n += n < 36 ? 1 : n < 62 || n > 66 ? n / 3 : 1) {
        for (int kind = 0; kind < 2; kind++) {
            for (size_t i = 0; i < n; i++) units[i] = (uint16_t)(kind ? 0x4E00 + i : 'a' + i % 16);
            must(wtf8_set_units(&string, units, n) == WTF8_OK, "a string of units that count");
            for (size_t i = 0; i < n; i++) {
                units[i] ^= 1;
                int order = units[i] & 1 ? -1 : 1;
                must(wtf8_set_units(&other, units, n) == WTF8_OK, "a string with another unit");
                must(!wtf8_equal(&string, &other) && !wtf8_equal_units(&string, units, n), "a unit counts");
                must(wtf8_compare_units(&string, &other) == order &&
                     wtf8_compare_code_points(&string, &other) == order, "a unit orders");
                must(wtf8_compare_with_units(&string, units, n) == order && !wtf8_starts_with(&string, 0, &other),
                     "a unit that is given orders");
                size_t len = 0;
                for (size_t k = 0; k < n; k++) len += encode(units[k], text + len);
                must(wtf8_compare_with_utf8(&string, text, len) == order && !wtf8_starts_with_utf8(&string, text, len),
                     "a unit of a text orders");
                must(wtf8_hash(&string, 1, 2) != wtf8_hash(&other, 1, 2), "a unit is hashed");
                must(wtf8_hash_units(units, n, 1, 2) == wtf8_hash(&other, 1, 2), "the hash of units");
                units[i] ^= 1;
            }
            must(wtf8_set_units(&other, units, n) == WTF8_OK && wtf8_equal(&string, &other) &&
                 wtf8_equal_units(&string, units, n), "the units themselves");
            must(wtf8_compare_units(&string, &other) == 0 && wtf8_compare_code_points(&string, &other) == 0,
                 "the order of the units themselves");
            must(wtf8_compare_with_units(&string, units, n) == 0 && wtf8_starts_with(&string, 0, &other),
                 "the units themselves that are given");
            must(wtf8_hash(&string, 1, 2) == wtf8_hash(&other, 1, 2), "the hash of the units themselves");
            must(wtf8_hash(&string, 1, 3) != wtf8_hash(&other, 1, 2), "the hash under another seed");
        }
    }
    wtf8_free(&string);
    wtf8_free(&other);
}

/* Walks over a string of one code point and over one of all of them, and positions that are none. */
static void walks(void) {
    enum { POINTS = sizeof points / sizeof points[0] };
    wtf8_string all = WTF8_EMPTY;
    size_t ends[POINTS], at = 0;
    uint32_t value = 77;
    must(wtf8_next_code_point(&all, &at, &value) == WTF8_END &&
         wtf8_previous_code_point(&all, &at, &value) == WTF8_END, "a walk of nothing");
    must(at == 0 && value == 77, "the numbers of a walk of nothing");
    for (size_t i = 0; i < POINTS; i++) {
        /* A letter after each keeps leads and trails apart. */
        wtf8_string string = WTF8_EMPTY;
        must(wtf8_push_code_point(&string, points[i].value) == WTF8_OK, "a code point to walk over");
        must(wtf8_push_code_point(&all, points[i].value) == WTF8_OK && wtf8_push_code_point(&all, 'a') == WTF8_OK,
             "more code points");
        ends[i] = wtf8_byte_len(&all);
        for (size_t k = 0; k <= points[i].byte_len + 1; k++) {
            size_t next = k, previous = k;
            uint32_t after = 77, before = 77;
            wtf8_result past = k == points[i].byte_len ? WTF8_END : WTF8_BAD_POSITION;
            must(wtf8_next_code_point(&string, &next, &after) == (k == 0 ? WTF8_OK : past),
                 "the code point at a position");
            must(next == (k == 0 ? points[i].byte_len : k) && after == (k == 0 ? points[i].value : 77),
                 "a step of a walk");
            wtf8_result back = k == 0 ? WTF8_END : k == points[i].byte_len ? WTF8_OK : WTF8_BAD_POSITION;
            must(wtf8_previous_code_point(&string, &previous, &before) == back, "the code point before a position");
            must(previous == (back == WTF8_OK ? 0 : k) && before == (back == WTF8_OK ? points[i].value : 77),
                 "a step back of a walk");
        }
        at = SIZE_MAX;
        must(wtf8_next_code_point(&string, &at, &value) == WTF8_BAD_POSITION, "a walk from far after the end");
        must(wtf8_previous_code_point(&string, &at, &value) == WTF8_BAD_POSITION && at == SIZE_MAX,
             "a walk back from there");
        wtf8_free(&string);
    }
    at = 0;
    for (size_t i = 0; i < POINTS; i++) {
        must(wtf8_next_code_point(&all, &at, &value) == WTF8_OK && value == points[i].value && at == ends[i] - 1,
             "a walk");
        must(wtf8_next_code_point(&all, &at, &value) == WTF8_OK && value == 'a' && at == ends[i], "a walk's letter");
    }
    must(wtf8_next_code_point(&all, &at, &value) == WTF8_END && at == ends[POINTS - 1], "the end of a walk");
    for (size_t i = POINTS; i-- > 0;) {
        must(wtf8_previous_code_point(&all, &at, &value) == WTF8_OK && value == 'a' && at == ends[i] - 1, "a walk back");
        must(wtf8_previous_code_point(&all, &at, &value) == WTF8_OK && value == points[i].value,
             "a code point of a walk back");
        must(at == (i == 0 ? 0 : ends[i - 1]), "where a walk back is");
    }
    must(wtf8_previous_code_point(&all, &at, &value) == WTF8_END && at == 0, "the end of a walk back");
    wtf8_free(&all);
}

/* Each surrogate of a string is found, after texts of each length, whose last letter begins with the lead byte of surrogates
 * too, and none is found in a text or within a pair. */
static void surrogates(void) {
    enum { LONG = 140, FOUND = 4 };
    static const uint16_t back[] = {0xDC00, 0x4E2D, 0xD83D, 0xDCA9, 0xD7FF, 0xDBFF, 0xE000, 0xDFFF, 0xD800};
    static const uint16_t units[FOUND] = {0xDC00, 0xDBFF, 0xDFFF, 0xD800};
    static const size_t ends[FOUND] = {3, 16, 22, 25};
    wtf8_string none = WTF8_EMPTY;
    size_t at = 0;
    uint16_t unit = 77;
    must(wtf8_next_surrogate(&none, &at, &unit) == WTF8_END && at == 0 && unit == 77, "a surrogate of nothing");
    for (size_t n = 0; n < LONG; n++) {
        wtf8_string string = WTF8_EMPTY;
        uint8_t text[LONG];
        size_t len = 0;
        must(wtf8_push_utf8(&string, letters, n, NULL) == WTF8_OK && wtf8_is_utf8(&string), "ASCII");
        must(wtf8_copy_lossy(&string, text, LONG, &len) == WTF8_OK && len == n && memcmp(text, letters, n) == 0, "its lossy text");
        must(n == 0 || (wtf8_copy_lossy(&string, text, n - 1, &len) == WTF8_ARRAY_TOO_SHORT && len == n), "a short array");
        at = n;
        must(wtf8_next_surrogate(&string, &at, &unit) == WTF8_END && at == n && unit == 77, "a surrogate of ASCII");
        at = n + 1;
        must(wtf8_next_surrogate(&string, &at, &unit) == WTF8_BAD_POSITION && at == n + 1 && unit == 77, "a surrogate after ASCII");
        must(wtf8_push_unit(&string, 0xD7FF) == WTF8_OK, "a text before surrogates");
        at = 0;
        must(wtf8_next_surrogate(&string, &at, &unit) == WTF8_END && at == 0 && unit == 77, "a surrogate of a text");
        must(wtf8_push_units(&string, back, sizeof back / sizeof back[0]) == WTF8_OK, "surrogates");
        for (size_t i = 0; i < FOUND; i++) {
            size_t again = n + 3 + ends[i] - 3;
            must(wtf8_next_surrogate(&string, &at, &unit) == WTF8_OK && unit == units[i] && at == n + 3 + ends[i],
                 "the next surrogate");
            must(wtf8_next_surrogate(&string, &again, &unit) == WTF8_OK && unit == units[i] && again == at,
                 "the surrogate at a position");
            again = at - 1;
            must(wtf8_next_surrogate(&string, &again, &unit) == WTF8_BAD_POSITION && again == at - 1 && unit == units[i],
                 "a surrogate after a position within one");
        }
        must(wtf8_next_surrogate(&string, &at, &unit) == WTF8_END && at == n + 28, "no further surrogate");
        at = SIZE_MAX;
        must(wtf8_next_surrogate(&string, &at, &unit) == WTF8_BAD_POSITION && at == SIZE_MAX, "a surrogate after the end");
        unit = 77;
        wtf8_free(&string);
    }
}

/* Code points of each kind are copied out from a boundary on, as many at once as the array has elements, and none at the
 * end or after it. */
static void copied_points(void) {
    enum { POINTS = sizeof points / sizeof points[0], LONG = 400 };
    static const size_t sizes[] = {0, 1, 2, 7, 8, 9, 63, 127, 128, 129, 255, 256, 257, 399, 400};
    static const uint32_t kinds[] = {'a', 0xE9, 0x4E2D, 0x1F4A9, 0xD800};
    for (size_t kind = 0; kind <= sizeof kinds / sizeof kinds[0]; kind++) {
        wtf8_string string = WTF8_EMPTY;
        uint32_t values[LONG];
        size_t ends[LONG + 1] = {0};
        for (size_t i = 0; i < LONG; i++) {
            /* Leads alone, or all code points in turn with letters between. */
            if (kind < sizeof kinds / sizeof kinds[0]) values[i] = kinds[kind];
            else values[i] = i % 2 ? 'a' : points[i / 2 % POINTS].value;
            must(wtf8_push_code_point(&string, values[i]) == WTF8_OK, "a code point to copy");
            ends[i + 1] = wtf8_byte_len(&string);
        }
        for (size_t k = 0; k < sizeof sizes / sizeof sizes[0]; k++) {
            for (size_t begin = 0; begin < LONG; begin += 57) {
                size_t n = sizes[k], at = ends[begin], len = 77, count = LONG - begin < n ? LONG - begin : n;
                uint32_t *out = an_array(4 * n);
                must(wtf8_copy_code_points(&string, &at, n ? out : NULL, n, &len) == WTF8_OK, "code points");
                must(len == count && at == ends[begin + count], "the number of code points");
                must_begin(out, 4 * n, values + begin, 4 * count, "the code points");
            }
        }
        uint32_t value = 77;
        size_t at = ends[LONG], len = 77;
        must(wtf8_copy_code_points(&string, &at, &value, 1, &len) == WTF8_END, "code points at the end");
        at = SIZE_MAX;
        must(wtf8_copy_code_points(&string, &at, &value, 1, &len) == WTF8_BAD_POSITION, "code points after the end");
        must(at == SIZE_MAX && value == 77 && len == 77, "the numbers where nothing is copied");
        wtf8_free(&string);
    }
}

/* Each byte of Latin-1 is the code point of its value, in texts of each length about a multiple of 128, which fit
 * exactly. */
static void latin1(void) {
    enum { LONG = 700 };
    static uint8_t text[LONG];
    static uint16_t units[LONG];
    for (size_t i = 0; i < LONG; i++) units[i] = text[i] = (uint8_t)i;
    for (size_t n = 0; n <= LONG; n += n % 128 < 2 || n % 128 > 126 ? 1 : 25) {
        for (size_t begin = 0; begin + n <= LONG && begin < 256; begin += 51) {
            wtf8_string string = WTF8_EMPTY;
            size_t bytes = wtf8_encoded_len(units + begin, n);
            must(wtf8_reserve_bytes(&string, bytes + 1) == WTF8_OK, "room for Latin-1");
            must(wtf8_push_unit(&string, 'x') == WTF8_OK, "a letter before Latin-1");
            size_t left = wtf8_capacity(&string) - wtf8_byte_len(&string);
            long requested = requests;
            uint8_t *array = array_of(text + begin, n);
            refuse_after = 0;
            must(wtf8_push_latin1(&string, n ? array : NULL, n) == WTF8_OK && requests == requested, "Latin-1 that fits");
            must(wtf8_unit_len(&string) == n + 1 && wtf8_byte_len(&string) == bytes + 1, "the length of Latin-1");
            wtf8_result code = wtf8_push_latin1(&string, array, n);
            must(code == (2 * bytes <= left ? WTF8_OK : WTF8_NO_MEMORY), "Latin-1 that does not fit");
            if (code == WTF8_OK) must(wtf8_truncate_units(&string, n + 1) == WTF8_OK, "Latin-1 that is taken off");
            refuse_after = -1;
            must_begin(array, n, text + begin, n, "a text in Latin-1");
            must(wtf8_byte_len(&string) == bytes + 1, "the string after Latin-1 that does not fit");
            must(wtf8_push_unit(&string, 'x') == WTF8_OK, "a letter after Latin-1");
            wtf8_string same = WTF8_EMPTY;
            must(wtf8_push_unit(&same, 'x') == WTF8_OK && wtf8_push_units(&same, units + begin, n) == WTF8_OK &&
                 wtf8_push_unit(&same, 'x') == WTF8_OK && wtf8_equal(&string, &same), "the units of Latin-1");
            wtf8_free(&string);
            wtf8_free(&same);
        }
    }
}

/* Strings of each length up to 70, and about what is decoded at a time, of ASCII or Latin-1 and with one other unit at each
 * index, are asked whether they are Latin-1, and copied out as bytes, into rooms that are long enough, too short, or none. */
static void latin1_out(void) {
    enum { SHORT = 70, LONG = 530 };
    static const uint16_t odd[] = {0x80, 0xFF, 0x100, 0x17F, 0x4E2D, 0xDC00, 0xFFFF};
    static struct pair p;
    static uint8_t text[LONG];
    for (size_t n = 0; n <= LONG; n += n < SHORT || n % 128 < 4 || n % 128 > 124 ? 1 : 19) {
        for (size_t kind = 0; kind <= sizeof odd / sizeof odd[0]; kind++) {
            for (size_t at = 0; at <= n; at += n < SHORT || at + 9 > n ? 1 : 17) {
                p.n = n;
                for (size_t i = 0; i < n; i++) p.units[i] = (uint16_t)(kind % 2 ? 'a' + i % 26 : (i * 37) % 256);
                if (at < n && kind > 0) p.units[at] = odd[kind - 1];
                for (size_t i = 0; i < n; i++) text[i] = (uint8_t)p.units[i];
                must(wtf8_set_units(&p.string, p.units, n) == WTF8_OK, "a string to copy as Latin-1");
                size_t front = front_below(&p, 0x100);
                must(wtf8_is_ascii(&p.string) == (front_below(&p, 0x80) == n), "is_ascii");
                must(wtf8_is_latin1(&p.string) == (front == n), "is_latin1");
                for (size_t less = 0; less < 3 && less <= n; less++) {
                    size_t len = 77, valid = 77, size = less == 2 ? 0 : n - less;
                    uint8_t *out = an_array(size);
                    wtf8_result code = wtf8_copy_latin1(&p.string, size ? out : NULL, size, &len, &valid);
                    must(code == (front < n ? WTF8_NOT_LATIN1 : size < n ? WTF8_ARRAY_TOO_SHORT : WTF8_OK), "copy_latin1");
                    must(len == (front < n ? 77 : n) && valid == (front < n ? front : 77), "the numbers of copy_latin1");
                    must_begin(out, size, text, code == WTF8_OK ? n : 0, "the bytes of copy_latin1");
                }
                if (front < n) continue;
                uint8_t *array = array_of(text, n);
                long requested = requests;
                refuse_after = 0;
                must(wtf8_set_latin1(&p.string, n ? array : NULL, n) == WTF8_OK && requests == requested, "set_latin1 in place");
                refuse_after = -1;
                must_have(&p.string, p.units, n, "the units of set_latin1");
                wtf8_string made = WTF8_EMPTY;
                must(wtf8_push_unit(&made, 0xD83D) == WTF8_OK, "a string to set");
                size_t capacity = wtf8_capacity(&made), bytes = byte_len(&p);
                refuse_after = 0;
                wtf8_result code = wtf8_set_latin1(&made, array, n);
                must(code == (bytes <= capacity ? WTF8_OK : WTF8_NO_MEMORY), "set_latin1 without memory");
                static const uint16_t lead[] = {0xD83D};
                if (code != WTF8_OK) must_have(&made, lead, 1, "a string that was not set");
                refuse_after = -1;
                must(wtf8_set_latin1(&made, array, n) == WTF8_OK && wtf8_equal(&made, &p.string), "set_latin1");
                wtf8_free(&made);
                must_begin(array, n, text, n, "the text of set_latin1");
            }
        }
    }
    wtf8_free(&p.string);
}

/* Code points, one of which is at an edge, after a lead, a trail or a letter: all are appended, or none. */
static void pushed_points(void) {
    enum { MOST_POINTS = 400 };
    static uint32_t points[MOST_POINTS];
    static uint16_t units[2 * MOST_POINTS + 1];
    static const uint16_t before[] = {'x', 0xD83D, 0xDCA9};
    static const uint32_t bad[] = {0x110000, 0x1000000, 0x80000000, UINT32_MAX};
    for (size_t count = 0; count <= MOST_POINTS; count += count < 20 || count % 128 < 2 || count % 128 > 126 ? 1 : 31) {
        for (size_t edge = 0; edge < EDGE_POINTS; edge++) {
            size_t n = 1, at = count > 0 ? edge * 7 % count : 0;
            wtf8_string string = WTF8_EMPTY;
            units[0] = before[edge % 3];
            for (size_t i = 0; i < count; i++)
                n += units_of(points[i] = i % 9 == at % 9 ? edge_points[edge] : edge % 2 ? 'a' : 0x4E00 + (uint32_t)i, units + n);
            must(wtf8_push_unit(&string, units[0]) == WTF8_OK, "a unit before code points");
            uint32_t *array = array_of(points, 4 * count);
            if (count > 0) {
                uint32_t kept = points[at];
                array[at] = bad[edge % 4];
                long requested = requests;
                must(wtf8_push_code_points(&string, array, count) == WTF8_BAD_CODE_POINT && requests == requested, "a bad code point");
                array[at] = kept;
            }
            for (long granted = 0; granted < 9; granted++) {
                must_have(&string, units, 1, "a string to push code points to");
                refuse_after = granted;
                wtf8_result code = wtf8_push_code_points(&string, count ? array : NULL, count);
                refuse_after = -1;
                if (code == WTF8_OK) break;
                must(code == WTF8_NO_MEMORY && granted < 8, "code points that are refused memory");
            }
            must_have(&string, units, n, "the units of code points");
            must_begin(array, 4 * count, points, 4 * count, "the code points");
            must(wtf8_truncate_units(&string, 1) == WTF8_OK, "a string that is cut");
            long requested = requests;
            must(wtf8_push_code_points(&string, points, count) == WTF8_OK && requests == requested, "code points that fit");
            must_have(&string, units, n, "the units of code points that fit");
            wtf8_free(&string);
        }
    }
}

/* The code point before each index of strings of each length up to 70, marked and not, with pairs and halves. */
static void points_before(void) {
    static const uint16_t kinds[] = {'a', 0xD83D, 0xDCA9, 0xDC00, 0xE9, 0x4E2D};
    static struct pair p;
    state = 5;
    for (size_t n = 0; n <= 72; n++) {
        p.n = n == 72 ? 700 : n;
        for (size_t i = 0; i < p.n; i++) p.units[i] = kinds[below(n % 2 ? 6 : 3)];
        must(wtf8_set_units(&p.string, p.units, p.n) == WTF8_OK, "a string of code points");
        if (n % 3 == 0) wtf8_mark(&p.string);
        for (size_t i = 0; i <= p.n + 1; i++) {
            uint32_t point = 77, must_be = 77;
            wtf8_result code = wtf8_code_point_before(&p.string, i, &point);
            must(code == must_be_before(&p, i, &must_be) && point == must_be, "code_point_before");
        }
    }
    uint32_t point = 77;
    must(wtf8_code_point_before(&p.string, SIZE_MAX, &point) == WTF8_BAD_POSITION && point == 77, "before no index");
    wtf8_free(&p.string);
    must(wtf8_code_point_before(&p.string, 0, &point) == WTF8_END && point == 77, "before the start of nothing");
}

/* A string that is moved: over another, to itself, from and to one without a buffer. */
static void moves(void) {
    static const uint16_t units[] = {'a', 0xD83D, 0x4E2D};
    wtf8_string one = WTF8_EMPTY, two = WTF8_EMPTY, none = WTF8_EMPTY;
    must(wtf8_set_units(&one, units, 3) == WTF8_OK && wtf8_reserve_bytes(&one, 100) == WTF8_OK, "a string to move");
    must(wtf8_set_units(&two, units, 1) == WTF8_OK, "a string that is moved over");
    size_t capacity = wtf8_capacity(&one);
    long requested = requests, had = blocks;
    wtf8_move(&two, &one);
    must_have(&two, units, 3, "a string that was moved");
    must(wtf8_capacity(&two) == capacity && requests == requested && blocks == had - 1, "its capacity");
    must(memcmp(&one, &none, sizeof none) == 0, "the string that it was");
    wtf8_move(&two, &two);
    must_have(&two, units, 3, "a string that is moved to itself");
    wtf8_move(&one, &two);
    wtf8_move(&two, &none);
    must_have(&one, units, 3, "a string that is moved to one without a buffer");
    must(wtf8_unit_len(&two) == 0 && wtf8_push_unit(&two, 'x') == WTF8_OK, "a string that was moved from");
    wtf8_move(&one, &none);
    must(wtf8_unit_len(&one) == 0 && wtf8_capacity(&one) == 0, "a move of nothing");
    wtf8_free(&two);
}

/* The units of texts in UTF-8, and the first byte that is wrong. */
static void utf8_unit_lens(void) {
    static const struct { const char *text; size_t len, units; } texts[] = {
        {"", 0, 0}, {"a", 1, 1}, {"\0b", 2, 2}, {"\xC3\xA9", 2, 1}, {"\xE4\xB8\xAD", 3, 1}, {"\xF0\x9F\x92\xA9", 4, 2},
        {"a\xF4\x8F\xBF\xBFz", 6, 4}, {"\xEF\xBF\xBF\xEE\x80\x80", 6, 2}};
    uint8_t text[6 + 200];
    for (size_t i = 0; i < sizeof texts / sizeof texts[0]; i++) {
        for (size_t front = 0; front <= 200; front++) {
            size_t len = 77, valid = 77, n = front + texts[i].len;
            memset(text, 'a', front);
            memcpy(text + front, texts[i].text, texts[i].len);
            must(wtf8_utf8_unit_len(n ? text : NULL, n, &len, &valid) == WTF8_OK, "utf8_unit_len");
            must(len == front + texts[i].units && valid == 77, "the number of units of a text");
            if (texts[i].len < 2 || text[front] < 0x80) continue;
            size_t written = 77;
            must(wtf8_utf8_unit_len(text, front + 1, &written, &valid) == WTF8_NOT_UTF8, "a text that is cut");
            must(valid == front && written == 77, "where a text is cut");
            must(wtf8_utf8_unit_len(text, front + 1, &written, NULL) == WTF8_NOT_UTF8, "a text that is cut, which is not asked");
        }
    }
}

/* Each part of a string is appended, also from the middle of a pair, and to the string itself. */
static void pushed_slices(void) {
    static const uint16_t units[] = {'a', 0xD83D, 0xDCA9, 0xDC00, 0xD801, 0xE9};
    enum { UNITS = 6 };
    wtf8_string other = WTF8_EMPTY;
    must(wtf8_set_units(&other, units, UNITS) == WTF8_OK, "a string to push parts of");
    for (size_t begin = 0; begin <= UNITS; begin++) {
        for (size_t end = begin; end <= UNITS; end++) {
            /* After a lead, which a trail at the front of the part completes. */
            uint16_t both[2 * UNITS] = {'b', 0xDBFF};
            size_t n = end - begin;
            wtf8_string string = WTF8_EMPTY, same = WTF8_EMPTY;
            memcpy(both + 2, units + begin, 2 * n);
            must(wtf8_set_units(&string, both, 2) == WTF8_OK && wtf8_set_units(&same, units, UNITS) == WTF8_OK,
                 "strings to push to");
            must(wtf8_push_slice(&string, &other, begin, end) == WTF8_OK, "a part that is pushed");
            must_have(&string, both, n + 2, "a part that was pushed");
            must(wtf8_push_slice(&string, &other, begin, UNITS + 1) == WTF8_BAD_POSITION,
                 "a part that ends after the end");
            must(wtf8_push_slice(&string, &other, end + 1, end) == WTF8_BAD_POSITION,
                 "a part that ends before it begins");
            must_have(&string, both, n + 2, "a string after parts that are none");
            memcpy(both, units, 2 * UNITS);
            memcpy(both + UNITS, units + begin, 2 * n);
            must(wtf8_push_slice(&same, &same, begin, end) == WTF8_OK, "a part of the string itself");
            must_have(&same, both, UNITS + n, "a part of the string itself that was pushed");
            must(wtf8_push_slice(&same, &same, begin, SIZE_MAX) == WTF8_BAD_POSITION,
                 "a part of the string itself that is none");
            wtf8_free(&string);
            wtf8_free(&same);
        }
    }
    wtf8_free(&other);
}

/* A string of more units than 16 bits count, of which no two that are 65536 apart are equal. */
static void indexes(void) {
    static uint16_t units[LETTERS];
    wtf8_string string = WTF8_EMPTY, part = WTF8_EMPTY;
    uint16_t unit = 0;
    for (size_t i = 0; i < LETTERS; i++) units[i] = (uint16_t)(i * 7 + i / 65536);
    must(wtf8_set_units(&string, units, LETTERS) == WTF8_OK, "a long string");
    must_have(&string, units, LETTERS, "a long string's units");
    for (size_t i = 0; i < LETTERS; i += i < 65530 || 65540 < i ? 877 : 1)
        must(wtf8_unit_at(&string, i, &unit) == WTF8_OK && unit == units[i], "a unit of a long string");
    must(wtf8_unit_at(&string, LETTERS, &unit) == WTF8_BAD_POSITION, "a unit after a long string");
    must(wtf8_slice_units(&part, &string, 65530, 65545) == WTF8_OK, "a slice of a long string");
    must_have(&part, units + 65530, 15, "a slice's units");
    must(wtf8_truncate_units(&string, 65537) == WTF8_OK, "a long string's truncation");
    must_have(&string, units, 65537, "a long string's front");
    wtf8_free(&part);
    wtf8_free(&string);
}

/* A string of more bytes and units than 16 bits count: letters of three bytes, and one of four after unit 65536, where
 * `pair_at` is. */
static void long_strings(void) {
    enum { SIZE = 3 * LETTERS };
    static uint16_t units[LETTERS + 1];
    static uint8_t text[SIZE + 3];
    const size_t asked[] = {1, 127, 128, 129, 21845, 21846, 65535, 65536, 65537, 65664, LETTERS - 1};
    const size_t pair_at = 65600, bytes = SIZE - 6 + 4;
    wtf8_string string = WTF8_EMPTY, other = WTF8_EMPTY;
    size_t len = 0, valid = 77;
    for (size_t i = 0; i < LETTERS; i++) units[i] = (uint16_t)(0x3000 + i % 40000);
    units[pair_at] = 0xD83D;
    units[pair_at + 1] = 0xDCA9;
    for (int is_marked = 0; is_marked < 2; is_marked++) {
        must(wtf8_set_units(&string, units, LETTERS) == WTF8_OK && (!is_marked || wtf8_mark(&string) == WTF8_OK),
             "a long string");
        must(wtf8_unit_len(&string) == LETTERS && wtf8_byte_len(&string) == bytes, "a long string's lengths");
        must(bytes <= wtf8_capacity(&string) && wtf8_is_utf8(&string), "a long string's capacity");
        for (size_t k = 0; k < sizeof asked / sizeof asked[0]; k++) {
            size_t i = asked[k], at = i < pair_at ? 3 * i : 3 * i - 2, position = 77, end;
            uint16_t unit = 0, out[4];
            uint32_t value = 77;
            must(wtf8_position_at(&string, i, &position) == WTF8_OK && position == at, "a position in a long string");
            must(wtf8_unit_before(&string, at) == i && wtf8_unit_before(&string, at + 2) == i,
                 "an index in a long string");
            must(wtf8_is_boundary(&string, at) && !wtf8_is_boundary(&string, at + 1), "a boundary in a long string");
            must(wtf8_unit_at(&string, i, &unit) == WTF8_OK && unit == units[i], "a unit in a long string");
            end = at;
            must(wtf8_next_code_point(&string, &end, &value) == WTF8_OK && end == at + 3 && value == units[i],
                 "a step in a long string");
            must(wtf8_previous_code_point(&string, &end, &value) == WTF8_OK && end == at && value == units[i],
                 "a step back in it");
            must(wtf8_slice_units(&other, &string, i, LETTERS) == WTF8_OK, "a slice of a long string");
            must_have(&other, units + i, LETTERS - i, "the units of a long string's slice");
            must(wtf8_starts_with(&string, i, &other) && !wtf8_starts_with(&string, i - 1, &other),
                 "a long string's back");
            must(wtf8_set_units(&other, units + i, 1) == WTF8_OK && wtf8_starts_with(&string, i, &other),
                 "a unit of a long string at its index");
            must(wtf8_push_slice(&other, &string, i - 1, i + 1) == WTF8_OK, "a part of a long string that is pushed");
            must(wtf8_unit_at(&other, 1, &unit) == WTF8_OK && unit == units[i - 1],
                 "a part of a long string that was pushed");
            must(wtf8_copy_slice(&string, i - 1, i + 1, out, 4, &len) == WTF8_OK && len == 2, "a part of a long string");
            must(out[0] == units[i - 1] && out[1] == units[i], "the units of a long string's part");
            must(wtf8_set_string(&other, &string) == WTF8_OK && wtf8_truncate_units(&other, i) == WTF8_OK,
                 "a long string is cut");
            must_have(&other, units, i, "a long string's front");
            must(wtf8_set_string(&other, &string) == WTF8_OK && wtf8_truncate_bytes(&other, at) == WTF8_OK,
                 "a long string is cut by bytes");
            must_have(&other, units, i, "a long string's front by bytes");
            /* One unit differs. */
            must(wtf8_push_unit(&other, 'x') == WTF8_OK && wtf8_push_slice(&other, &string, i + 1, LETTERS) == WTF8_OK,
                 "a unit of a long string is another");
            must(wtf8_unit_len(&other) == LETTERS && !wtf8_equal(&string, &other) &&
                 wtf8_compare_units(&string, &other) == 1, "long strings that differ");
            must(wtf8_compare_code_points(&other, &string) == -1 &&
                 wtf8_compare_with_units(&other, units, LETTERS) == -1, "the order of long strings");
            must(!wtf8_equal_units(&other, units, LETTERS) && wtf8_equal_units(&string, units, LETTERS),
                 "the units of long strings");
            must(wtf8_hash(&string, 1, 2) != wtf8_hash(&other, 1, 2), "the hash of long strings");
            must(wtf8_hash(&string, 1, 2) == wtf8_hash_units(units, LETTERS, 1, 2), "the hash of a long string's units");
        }
        for (int bit = 17; bit < 64; bit++) {
            size_t far = (size_t)1 << bit, index = far + 5, position = far + 9, after = position;
            uint16_t unit = 77;
            uint32_t value = 77;
            if (far < SIZE) index = LETTERS + 1, after = position = bytes + 1;
            must(wtf8_unit_at(&string, index, &unit) == WTF8_BAD_POSITION && unit == 77, "a unit far after the end");
            must(wtf8_position_at(&string, index, &len) == WTF8_BAD_POSITION, "a position far after the end");
            must(wtf8_unit_before(&string, position) == LETTERS && !wtf8_is_boundary(&string, position),
                 "a boundary far after the end");
            must(wtf8_next_code_point(&string, &after, &value) == WTF8_BAD_POSITION && after == position,
                 "a step far after the end");
            must(wtf8_previous_code_point(&string, &after, &value) == WTF8_BAD_POSITION && after == position,
                 "a step back from there");
            must(wtf8_truncate_units(&string, index) == WTF8_BAD_POSITION, "a cut far after the end");
            must(wtf8_truncate_bytes(&string, position) == WTF8_BAD_POSITION, "a cut by bytes far after the end");
            must(wtf8_slice_units(&other, &string, 1, index) == WTF8_BAD_POSITION, "a slice to far after the end");
            must(wtf8_slice_units(&other, &string, index, index) == WTF8_BAD_POSITION, "a slice far after the end");
            must(wtf8_push_slice(&other, &string, 1, index) == WTF8_BAD_POSITION, "a part to far after the end");
            must(wtf8_push_slice(&other, &string, index, index + 1) == WTF8_BAD_POSITION, "a part far after the end");
            must(wtf8_copy_slice(&string, 1, index, NULL, 0, &len) == WTF8_BAD_POSITION, "units to far after the end");
            must(wtf8_copy_slice(&string, index, index + 1, NULL, 0, &len) == WTF8_BAD_POSITION,
                 "units far after the end");
            must(wtf8_set_units(&other, units + 5, 1) == WTF8_OK && !wtf8_starts_with(&string, index, &other),
                 "a unit at far after the end");
        }
        must(wtf8_unit_before(&string, SIZE_MAX) == LETTERS && wtf8_unit_before(&string, bytes + 1) == LETTERS,
             "after a long string's end");
        must(wtf8_set_string(&other, &string) == WTF8_OK && wtf8_equal(&string, &other), "long strings that are equal");
        must(wtf8_compare_units(&string, &other) == 0 && wtf8_compare_code_points(&string, &other) == 0,
             "the order of equal long strings");
        /* A lone trail at the end alone. */
        uint8_t *out = an_array(SIZE);
        must(wtf8_copy_utf8(&string, out, SIZE, &len) == WTF8_OK && len == bytes, "a long text");
        memcpy(text, out, bytes);
        must_begin(out, SIZE, text, bytes, "a long text's array");
        must(wtf8_set_utf8(&other, text, bytes, NULL) == WTF8_OK && wtf8_equal(&string, &other),
             "a long text that is set");
        must(wtf8_push_unit(&string, 0xDFFF) == WTF8_OK && !wtf8_is_utf8(&string), "a lone trail after a long text");
        must(wtf8_copy_utf8(&string, text, SIZE, &len) == WTF8_HAS_SURROGATE && len == bytes,
             "a long text with a surrogate");
        out = an_array(bytes + 3);
        memcpy(text + bytes, "\xEF\xBF\xBD", 3);
        must(wtf8_copy_lossy(&string, out, bytes + 3, &len) == WTF8_OK && len == bytes + 3, "a long lossy text");
        must_begin(out, bytes + 3, text, bytes + 3, "a long lossy text's array");
        units[LETTERS] = 0xDFFF;
        must_have(&string, units, LETTERS + 1, "a long string with a lone trail");
        wtf8_free(&string);
    }
    /* A byte that is not UTF-8, far from the start. */
    for (size_t at = 250; at < SIZE; at = at < 300 ? at + 1 : at * 3 - 7) {
        memset(text, 'b', SIZE);
        text[at] = 0xFF;
        must(wtf8_set_utf8(&other, text, SIZE, &valid) == WTF8_NOT_UTF8 && valid == at, "a long text's bad byte");
        valid = 77;
        must(wtf8_push_utf8(&other, text, SIZE, &valid) == WTF8_NOT_UTF8 && valid == at,
             "the bad byte of a long text that is pushed");
    }
    wtf8_free(&other);
}

/* Each code point by itself: its units, its text, and steps over it. */
static void each_code_point(void) {
    wtf8_string string = WTF8_EMPTY, other = WTF8_EMPTY;
    must(wtf8_reserve_bytes(&string, 8) == WTF8_OK && wtf8_reserve_bytes(&other, 8) == WTF8_OK, "room for a code point");
    refuse_after = 0;
    for (uint32_t c = 0; c <= 0x10FFFF; c++) {
        uint16_t units[2], out[2];
        uint8_t text[4], lossy[4];
        uint32_t value = 77;
        size_t n = units_of(c, units), len = encode(c, text), at = 0, got = 77;
        int is_surrogate = 0xD800 <= c && c < 0xE000;
        wtf8_clear(&string);
        wtf8_clear(&other);
        must(wtf8_push_code_point(&string, c) == WTF8_OK && wtf8_unit_len(&string) == n, "each code point is pushed");
        must(wtf8_copy_units(&string, out, 2, &got) == WTF8_OK && got == n, "the units of each code point are copied");
        must(out[0] == units[0] && (n == 1 || out[1] == units[1]), "the units of each code point");
        must(wtf8_next_code_point(&string, &at, &value) == WTF8_OK && value == c && at == len, "a step over each");
        value = 77;
        must(wtf8_previous_code_point(&string, &at, &value) == WTF8_OK && value == c && at == 0, "a step back over each");
        for (size_t i = 0; i < n; i++) must(wtf8_push_unit(&other, units[i]) == WTF8_OK, "each unit is pushed");
        must(wtf8_equal(&string, &other) && wtf8_equal_units(&string, units, n), "each code point by its units");
        must(wtf8_is_utf8(&string) != is_surrogate && wtf8_byte_len(&string) == len, "whether each is UTF-8");
        must(wtf8_set_units(&string, units, n) == WTF8_OK && wtf8_equal(&string, &other), "the units of each are set");
        wtf8_clear(&string);
        must(wtf8_push_units(&string, units, n) == WTF8_OK && wtf8_equal(&string, &other),
             "the units of each are pushed");
        must(wtf8_set_utf8(&string, text, len, NULL) == (is_surrogate ? WTF8_NOT_UTF8 : WTF8_OK), "each text is set");
        must(wtf8_equal(&string, &other), "the text of each that was set");
        if (is_surrogate) continue;
        wtf8_clear(&string);
        must(wtf8_push_utf8(&string, text, len, NULL) == WTF8_OK && wtf8_equal(&string, &other), "each text is pushed");
        must(wtf8_copy_utf8(&string, lossy, 4, &got) == WTF8_OK && got == len, "each text is copied");
        must(memcmp(lossy, text, len) == 0, "the text of each");
        must(wtf8_copy_lossy(&string, lossy, 4, &got) == WTF8_OK && got == len && memcmp(lossy, text, len) == 0,
             "a lossy text");
    }
    refuse_after = -1;
    wtf8_free(&string);
    wtf8_free(&other);
}

/* Long strings that are appended to long ones. */
static void long_appends(void) {
    static uint16_t units[6 * LETTERS];
    static uint8_t text[3 * LETTERS];
    wtf8_string string = WTF8_EMPTY, other = WTF8_EMPTY;
    for (size_t i = 0; i < LETTERS; i++) {
        units[i] = (uint16_t)(0x4E00 + i % 20000);
        encode(units[i], text + 3 * i);
    }
    for (size_t k = 1; k < 6; k++) memcpy(units + k * LETTERS, units, 2 * LETTERS);
    must(wtf8_push_units(&string, units, LETTERS) == WTF8_OK && wtf8_set_string(&other, &string) == WTF8_OK,
         "long units");
    must(wtf8_push_units(&string, units, LETTERS) == WTF8_OK, "long units after long ones");
    must_have(&string, units, 2 * LETTERS, "long units that were pushed");
    must(wtf8_push_utf8(&string, text, sizeof text, NULL) == WTF8_OK, "a long text after long units");
    must_have(&string, units, 3 * LETTERS, "a long text that was pushed");
    must(wtf8_truncate_units(&string, 2 * LETTERS) == WTF8_OK && wtf8_push_string(&string, &other) == WTF8_OK,
         "a long string");
    must_have(&string, units, 3 * LETTERS, "a long string that was pushed");
    must(wtf8_push_string(&string, &string) == WTF8_OK, "a long string that is pushed to itself");
    must_have(&string, units, 6 * LETTERS, "a long string that was pushed to itself");
    must(wtf8_truncate_bytes(&string, 6 * LETTERS) == WTF8_OK, "a long string that is cut");
    must(wtf8_push_slice(&string, &string, LETTERS, 2 * LETTERS) == WTF8_OK, "a long part that is pushed to its string");
    must_have(&string, units, 3 * LETTERS, "a long part that was pushed to its string");
    wtf8_free(&string);
    wtf8_free(&other);
}

/* What a string without a buffer answers, and one that is empty but has one. */
static void empty_strings(void) {
    for (int has_buffer = 0; has_buffer < 2; has_buffer++) {
        wtf8_string string = WTF8_EMPTY, none = WTF8_EMPTY;
        size_t len = 77, position = 77, at = 0;
        uint16_t unit = 0xABCD;
        must(!has_buffer || wtf8_reserve_bytes(&string, 5) == WTF8_OK, "a buffer");
        must(has_buffer == (wtf8_capacity(&string) != 0), "the capacity of an empty string");
        refuse_after = 0;
        must(wtf8_unit_len(&string) == 0 && wtf8_byte_len(&string) == 0 && wtf8_is_utf8(&string), "an empty string");
        must(wtf8_position_at(&string, 0, &position) == WTF8_OK && position == 0,
             "the position of an empty string's end");
        position = 77;
        must(wtf8_position_at(&string, 1, &position) == WTF8_BAD_POSITION && position == 77, "the position of no unit");
        must(wtf8_unit_before(&string, 0) == 0 && wtf8_unit_before(&string, SIZE_MAX) == 0,
             "the units before any position");
        must(wtf8_unit_at(&string, 0, &unit) == WTF8_BAD_POSITION && unit == 0xABCD, "a unit of an empty string");
        must(wtf8_is_boundary(&string, 0) && !wtf8_is_boundary(&string, 1), "the boundary of an empty string");
        must(wtf8_equal(&string, &none) && wtf8_equal(&none, &string) && wtf8_equal(&string, &string),
             "empty strings are equal");
        must(wtf8_compare_units(&string, &none) == 0 && wtf8_compare_code_points(&none, &string) == 0,
             "the order of empty strings");
        must(wtf8_starts_with(&string, 0, &none) && wtf8_starts_with(&string, 1, &string), "an empty string within one");
        must(wtf8_truncate_units(&string, 0) == WTF8_OK && wtf8_truncate_bytes(&string, 0) == WTF8_OK,
             "an empty string is cut");
        must(wtf8_truncate_units(&string, 1) == WTF8_BAD_POSITION &&
             wtf8_truncate_bytes(&string, 1) == WTF8_BAD_POSITION, "a cut after the end");
        must(wtf8_copy_units(&string, NULL, 0, &len) == WTF8_OK && len == 0, "no units");
        must(wtf8_copy_slice(&string, 0, 0, NULL, 0, &len) == WTF8_OK && len == 0, "no part");
        must(wtf8_copy_utf8(&string, NULL, 0, &len) == WTF8_OK && len == 0, "no text");
        must(wtf8_copy_lossy(&string, NULL, 0, &len) == WTF8_OK && len == 0, "no lossy text");
        must(wtf8_next_code_point(&string, &at, &(uint32_t){0}) == WTF8_END && at == 0, "no code point");
        wtf8_clear(&string);
        refuse_after = -1;
        wtf8_free(&string);
        wtf8_free(&string);
        must(blocks == 0, "a block of an empty string");
    }
}

enum { MARKED = 700, APPENDED = 300, SPACING = 128 };

/* CJK letters with a surrogate pair around each multiple of the marks' spacing, less `shift`. */
static void marked_units(uint16_t *units, size_t n, size_t shift) {
    for (size_t i = 0; i < n; i++) {
        size_t at = (i + shift) % SPACING;
        units[i] = (uint16_t)(at == SPACING - 1 ? 0xD83D : at == 0 && i > 0 ? 0xDC00 + i % 0x400 : 0x4E00 + i);
    }
}

/* Each unit and slices of a string with marks are those of the units. */
static void must_find(const wtf8_string *string, const uint16_t *units, size_t n, const char *what) {
    uint16_t unit = 0;
    must(wtf8_unit_len(string) == n, what);
    for (size_t i = 0; i < n; i++)
        must(wtf8_unit_at(string, i, &unit) == WTF8_OK && unit == units[i], what);
    must(wtf8_unit_at(string, n, &unit) == WTF8_BAD_POSITION, what);
    for (size_t i = 0; i + 70 <= n; i += 23) {
        uint16_t *out = an_array(140);
        size_t len = 0;
        must(wtf8_copy_slice(string, i, i + 70, out, 70, &len) == WTF8_OK && len == 70, what);
        must_begin(out, 140, units + i, 140, what);
    }
}

/* Marks, while the string grows and is cut: with each request granted, with all refused, or all but the first, which is
 * for the box of their vector. */
static void marks(void) {
    static uint16_t units[MARKED + APPENDED + 1];
    for (size_t shift = 0; shift < 3; shift++) {
        for (int refused = 0; refused < 3; refused++) {
            wtf8_string string = WTF8_EMPTY, letters_only = WTF8_EMPTY;
            marked_units(units, MARKED + APPENDED, shift);
            must(wtf8_set_units(&string, units, MARKED) == WTF8_OK, "a string to mark");
            must(wtf8_set_utf8(&letters_only, letters, MARKED, NULL) == WTF8_OK, "letters to mark");
            long requested = requests;
            must(wtf8_mark(&letters_only) == WTF8_OK && requests == requested + 1, "letters need no marks");
            refuse_after = refused - 1;
            must(wtf8_mark(&string) == WTF8_OK && requests > requested + 1, "marks are requested");
            refuse_after = -1;
            must_find(&string, units, MARKED, "a marked string");
            must(wtf8_push_units(&string, units + MARKED, APPENDED) == WTF8_OK, "units after marks");
            must_find(&string, units, MARKED + APPENDED, "a marked string that grew");
            for (size_t n = MARKED + APPENDED; n > 100; n -= 1 + n % 7) {
                uint16_t trail = 0xDC00;
                must(wtf8_truncate_units(&string, n) == WTF8_OK, "a cut of a marked string");
                must(wtf8_push_unit(&string, trail) == WTF8_OK, "a trail after a cut");
                uint16_t after = units[n];
                units[n] = trail;
                if (n % 3 == 0) must_find(&string, units, n + 1, "a marked string that was cut");
                units[n] = after;
                must(wtf8_truncate_units(&string, n) == WTF8_OK, "the trail cut off");
            }
            wtf8_free(&string);
            wtf8_free(&letters_only);
        }
    }
    for (size_t popped = 1; popped <= 3; popped++) {
        wtf8_string string = WTF8_EMPTY;
        uint32_t point;
        marked_units(units, MARKED, 64);
        must(wtf8_set_units(&string, units, SPACING + 2) == WTF8_OK && wtf8_mark(&string) == WTF8_OK, "a string to pop of");
        for (size_t i = 0; i < popped; i++) must(wtf8_pop(&string, &point) == WTF8_OK, "a letter of a marked string");
        size_t n = SPACING + 2 - popped;
        for (size_t i = n; i < MARKED; i++) units[i] = 'a';
        must(wtf8_push_units(&string, units + n, MARKED - n) == WTF8_OK, "units after a pop");
        must_find(&string, units, MARKED, "a marked string after a pop");
        wtf8_free(&string);
    }
    wtf8_string none = WTF8_EMPTY;
    refuse_after = 0;
    must(wtf8_mark(&none) == WTF8_OK, "marks of a string without a buffer");
    refuse_after = -1;
    marked_units(units, MARKED, 0);
    for (size_t i = 0; i < MARKED; i++) must(wtf8_push_unit(&none, units[i]) == WTF8_OK, "a unit of a marked string");
    must_find(&none, units, MARKED, "a string that was marked when it was empty");
    wtf8_free(&none);
}

/* Appends `n` letters with each request refused: they must fit. */
static void must_take(wtf8_string *string, size_t n, const char *what) {
    long requested = requests;
    refuse_after = 0;
    must(wtf8_push_utf8(string, letters, n, NULL) == WTF8_OK, what);
    refuse_after = -1;
    must(requests == requested, what);
}

static void reserve(void) {
    static const size_t sizes[] = {1, 99, 100, 101, 255, 256, 1000, 65535, 65536, LETTERS};
    for (size_t i = 0; i < sizeof sizes / sizeof sizes[0]; i++) {
        for (size_t len = 0; len < 4; len++) {
            wtf8_string string = WTF8_EMPTY;
            must(len == 0 || wtf8_push_utf8(&string, letters, len, NULL) == WTF8_OK, "letters before reserve");
            must(wtf8_reserve_bytes(&string, sizes[i]) == WTF8_OK, "reserve");
            for (size_t k = 0; k < 4; k++)
                must(wtf8_reserve_bytes(&string, SIZE_MAX - k * (SIZE_MAX / 8)) == WTF8_NO_MEMORY, "reserve of too much");
            refuse_after = 0;
            for (int bit = 17; bit < 64; bit++)
                must(wtf8_reserve_bytes(&string, ((size_t)1 << bit) + 1) == WTF8_NO_MEMORY, "reserve that is refused");
            must(wtf8_reserve_bytes(&string, sizes[i]) == WTF8_OK, "reserve of what fits");
            must_take(&string, sizes[i], "what was reserved");
            must(wtf8_byte_len(&string) == len + sizes[i], "the length after reserve");
            wtf8_free(&string);
        }
    }
}

/* A string is replaced in the room that it has, with each request refused. */
static void replaced_in_place(void) {
    static const uint16_t units[] = {'a', 0xE9, 0x4E2D, 0xD83D, 0xDCA9, 0xDC00};
    wtf8_string string = WTF8_EMPTY, other = WTF8_EMPTY, none = WTF8_EMPTY;
    must(wtf8_capacity(&string) == 0, "the capacity of a string without a buffer");
    must(wtf8_reserve_bytes(&string, 100) == WTF8_OK && wtf8_capacity(&string) >= 100, "room to replace a string");
    must(wtf8_set_utf8(&other, letters, 100, NULL) == WTF8_OK, "another string");
    size_t capacity = wtf8_capacity(&string);
    long requested = requests;
    refuse_after = 0;
    must(wtf8_set_units(&string, units, 6) == WTF8_OK, "units in place");
    must(wtf8_unit_len(&string) == 6 && wtf8_byte_len(&string) == 1 + 2 + 3 + 4 + 3, "the units in place");
    must(wtf8_set_utf8(&string, letters, 100, NULL) == WTF8_OK && wtf8_equal(&string, &other), "a text in place");
    must(wtf8_set_units(&string, units, 6) == WTF8_OK && wtf8_set_string(&string, &other) == WTF8_OK,
         "a string in place");
    must(wtf8_equal(&string, &other) && wtf8_capacity(&string) == capacity, "the string in place");
    must(wtf8_set_units(&string, NULL, 0) == WTF8_OK && wtf8_unit_len(&string) == 0, "no units in place");
    must(wtf8_set_utf8(&string, NULL, 0, NULL) == WTF8_OK && wtf8_set_string(&string, &none) == WTF8_OK,
         "no text in place");
    must(wtf8_set_string(&string, &other) == WTF8_OK && wtf8_set_string(&string, &none) == WTF8_OK,
         "an empty string in place");
    must(wtf8_unit_len(&string) == 0 && wtf8_capacity(&string) == capacity, "the capacity of an empty string in place");
    must(wtf8_set_string(&string, &other) == WTF8_OK && wtf8_set_string(&string, &string) == WTF8_OK,
         "a string in place again");
    must(wtf8_set_utf8(&string, letters, capacity + 1, NULL) == WTF8_NO_MEMORY && wtf8_equal(&string, &other),
         "a longer text");
    must(requests == requested + 1, "requests in place");
    refuse_after = -1;
    wtf8_free(&string);
    wtf8_free(&other);
}

/* Lists and texts of each length up to 130 are appended, with each request refused: if there is just room for them no
 * request is made, and if a byte lacks the string keeps its contents. */
static void rooms(void) {
    enum { LONGEST_LIST = 130, WAYS = 5 };
    static const uint16_t kinds[] = {'b', 0xE9, 0x4E2D, 0xD800};
    uint16_t units[LONGEST_LIST];
    uint8_t text[3 * LONGEST_LIST], latin[LONGEST_LIST];
    for (size_t kind = 0; kind < sizeof kinds / sizeof kinds[0]; kind++) {
        for (size_t n = 1; n <= LONGEST_LIST; n++) {
            wtf8_string list = WTF8_EMPTY;
            size_t bytes = 0;
            for (size_t i = 0; i < n; i++) {
                units[i] = kinds[kind];
                latin[i] = (uint8_t)kinds[kind];
                bytes += encode(kinds[kind], text + bytes);
            }
            must(wtf8_set_units(&list, units, n) == WTF8_OK, "a list");
            for (int way = 0; way < WAYS; way++) {
                if ((way == 1 && kind > 1) || (way == 2 && kind > 2)) continue;
                for (size_t lacking = 0; lacking < 2; lacking++) {
                    wtf8_string string = WTF8_EMPTY;
                    wtf8_result code = WTF8_OK;
                    must(wtf8_reserve_bytes(&string, bytes) == WTF8_OK, "room");
                    size_t before = wtf8_capacity(&string) - bytes + lacking;
                    must(wtf8_push_utf8(&string, letters, before, NULL) == WTF8_OK, "letters before");
                    long requested = requests;
                    refuse_after = 0;
                    switch (way) {
                        case 0: code = wtf8_push_units(&string, units, n); break;
                        case 1: code = wtf8_push_latin1(&string, latin, n); break;
                        case 2: code = wtf8_push_utf8(&string, text, bytes, NULL); break;
                        case 3: code = wtf8_push_string(&string, &list); break;
                        default: code = wtf8_push_slice(&string, &list, 0, n);
                    }
                    refuse_after = -1;
                    must(code == (lacking ? WTF8_NO_MEMORY : WTF8_OK), "what fits, or lacks a byte");
                    must(lacking || requests == requested, "requests for what fits");
                    must(wtf8_unit_len(&string) == before + (lacking ? 0 : n), "the units of what fits");
                    must(wtf8_byte_len(&string) == before + (lacking ? 0 : bytes), "the bytes of what fits");
                    must(lacking || wtf8_starts_with(&string, before, &list), "what fits");
                    must(wtf8_truncate_units(&string, before) == WTF8_OK, "what was there before");
                    must(wtf8_equal_utf8(&string, letters, before), "the letters before");
                    wtf8_free(&string);
                }
            }
            wtf8_free(&list);
        }
    }
}

/* Lists about 1,024 units replace others: up to that number three bytes for each are kept, of more their bytes, and a
 * refused one leaves the string. */
static void set_long(void) {
    enum { ROOMY = 1024, LONGEST_LIST = ROOMY + 100 };
    static const size_t lengths[] = {ROOMY - 1, ROOMY, ROOMY + 1, LONGEST_LIST};
    static uint16_t units[LONGEST_LIST];
    for (size_t k = 0; k < sizeof lengths / sizeof lengths[0]; k++) {
        size_t n = lengths[k];
        wtf8_string string = WTF8_EMPTY;
        for (size_t i = 0; i < n; i++) units[i] = (uint16_t)(i % 2 ? 0x4E2D : 'a');
        must(wtf8_set_units(&string, units, 1) == WTF8_OK && wtf8_set_units(&string, units, n) == WTF8_OK, "a long list");
        size_t capacity = wtf8_capacity(&string), needed = n <= ROOMY ? 3 * n : wtf8_encoded_len(units, n);
        must(needed <= capacity && wtf8_byte_len(&string) == wtf8_encoded_len(units, n), "the capacity of a long list");
        refuse_after = 0;
        for (size_t i = 0; i < n; i++) units[i] = (uint16_t)(n <= ROOMY || i % 2 ? 0x4E2E : 'b');
        must(wtf8_set_units(&string, units, n) == WTF8_OK, "a list as long that is refused nothing");
        must(wtf8_capacity(&string) == capacity, "the capacity that is kept");
        must_have(&string, units, n, "a list as long");
        uint16_t first = units[0];
        size_t more = capacity / 3 + 1 < LONGEST_LIST ? capacity / 3 + 1 : LONGEST_LIST;
        for (size_t i = 0; i < LONGEST_LIST; i++) units[i] = 0x4E2D;
        wtf8_result code = wtf8_set_units(&string, units, more);
        must(code == (3 * more <= capacity ? WTF8_OK : WTF8_NO_MEMORY), "a longer list that is refused");
        must(code == WTF8_OK || (wtf8_unit_len(&string) == n && wtf8_capacity(&string) == capacity), "the string after it");
        must(code == WTF8_OK || (wtf8_unit_at(&string, 0, units) == WTF8_OK && units[0] == first), "its first unit");
        must(wtf8_set_units(&string, units, 3) == WTF8_OK && wtf8_capacity(&string) == capacity, "the capacity after few units");
        refuse_after = -1;
        must(wtf8_set_units(&string, units, 3) == WTF8_OK && wtf8_capacity(&string) == capacity, "the same with memory granted");
        wtf8_free(&string);
    }
}

/* A string that is set again has room for any units of that number from then on. */
static void set_again(void) {
    enum { UNITS = 12, LISTS = 100 };
    uint16_t units[UNITS];
    wtf8_string string = WTF8_EMPTY;
    for (int i = 0; i < UNITS; i++) units[i] = (uint16_t)('a' + i);
    must(wtf8_set_units(&string, units, UNITS) == WTF8_OK && wtf8_capacity(&string) < 3 * UNITS, "letters that are set");
    long requested = requests;
    must(wtf8_set_units(&string, units, UNITS) == WTF8_OK && wtf8_capacity(&string) >= 3 * UNITS, "letters set again");
    must(requests == requested + 1, "the request of a string that is set again");
    for (int list = 0; list < LISTS; list++) {
        for (int i = 0; i < UNITS; i++) units[i] = (uint16_t)(list * 977 + i * 5003);
        must(wtf8_set_units(&string, units, UNITS) == WTF8_OK && wtf8_equal_units(&string, units, UNITS), "units set again");
    }
    must(requests == requested + 1, "requests of units set again and again");
    wtf8_free(&string);
}

/* The numbers of bytes of units (Unicode 3.9, Table 3-6; 3 of a lone surrogate), and a long string that is set again in
 * the capacity that its bytes need. */
static void encoded_lens(void) {
    enum { UNITS = 2000 };
    static const struct { uint16_t units[5]; size_t n, len; } rows[] = {
        {{0}, 0, 0}, {{0x7F}, 1, 1}, {{0x80}, 1, 2}, {{0x7FF}, 1, 2}, {{0x800}, 1, 3}, {{0xFFFF}, 1, 3}, {{0xD83D}, 1, 3},
        {{0xDCA9}, 1, 3}, {{0xD83D, 0xDCA9}, 2, 4}, {{0xDCA9, 0xD83D}, 2, 6}, {{'a', 0xD83D, 0xDCA9, 0xDCA9, 0xE9}, 5, 10},
    };
    static const struct { uint16_t unit; size_t len; } kinds[] = {{'a', 1}, {0xE9, 2}, {0x4E2D, 3}, {0xD83D, 3}};
    static uint16_t units[UNITS];
    for (size_t i = 0; i < sizeof rows / sizeof rows[0]; i++) {
        uint16_t *array = array_of(rows[i].units, 2 * rows[i].n);
        must(wtf8_encoded_len(rows[i].n ? array : NULL, rows[i].n) == rows[i].len, "the bytes of units");
        must_begin(array, 2 * rows[i].n, rows[i].units, 2 * rows[i].n, "the units that are counted");
    }
    for (size_t i = 0; i < sizeof kinds / sizeof kinds[0]; i++) {
        wtf8_string string = WTF8_EMPTY;
        for (size_t k = 0; k < UNITS; k++) units[k] = kinds[i].unit;
        must(wtf8_encoded_len(units, UNITS) == UNITS * kinds[i].len, "the bytes of many units");
        must(wtf8_set_units(&string, units, UNITS) == WTF8_OK && wtf8_capacity(&string) == UNITS * kinds[i].len,
             "the capacity of many units");
        for (size_t n = 1025; n <= UNITS; n += 325) {
            refuse_after = 0;
            must(wtf8_set_units(&string, units, n) == WTF8_OK && wtf8_equal_units(&string, units, n), "many units that fit");
            refuse_after = -1;
        }
        wtf8_free(&string);
    }
}

/* A slice replaces a string in its capacity, and is refused only if it does not fit, also with halves of pairs at its ends. */
static void sliced_in_place(void) {
    static const uint16_t units[] = {0xD83D, 0xDCA9, 'a', 0xE9, 0x4E2D, 0xD83D, 0xDCA9};
    enum { UNITS = sizeof units / sizeof units[0] };
    wtf8_string whole = WTF8_EMPTY;
    must(wtf8_set_units(&whole, units, UNITS) == WTF8_OK, "units to slice");
    for (size_t begin = 0; begin <= UNITS; begin++) {
        for (size_t end = begin; end <= UNITS; end++) {
            wtf8_string part = WTF8_EMPTY;
            must(wtf8_slice_units(&part, &whole, begin, end) == WTF8_OK, "a slice");
            size_t bytes = wtf8_byte_len(&part);
            for (size_t missing = 0; missing <= 1 && missing <= bytes; missing++) {
                wtf8_string into = WTF8_EMPTY;
                must(wtf8_set_utf8(&into, letters, bytes - missing, NULL) == WTF8_OK, "a string as long as a slice");
                wtf8_shrink(&into);
                size_t capacity = wtf8_capacity(&into);
                must(capacity == bytes - missing, "no spare capacity");
                refuse_after = 0;
                wtf8_result code = wtf8_slice_units(&into, &whole, begin, end);
                refuse_after = -1;
                must(code == (missing ? WTF8_NO_MEMORY : WTF8_OK), "a slice in place");
                must(missing ? wtf8_byte_len(&into) == capacity : wtf8_equal(&into, &part), "the string after a slice in place");
                must(wtf8_capacity(&into) == capacity, "the capacity after a slice in place");
                wtf8_free(&into);
            }
            must_have(&part, units + begin, end - begin, "the units of a slice");
            wtf8_free(&part);
        }
    }
    wtf8_free(&whole);
}

/* Code points are taken off the end, each with the units of both halves of a pair, until none is left. */
static void pops(void) {
    static const uint16_t units[] = {0xDC00, 0xD83D, 0xDCA9, 'a', 0xE9, 0x4E2D, 0xFFFF, 0xDBFF, 0xDFFF, 0xDFFF, 0,
        0xD800, 0xD800};
    static const uint32_t values[] = {0xDC00, 0x1F4A9, 'a', 0xE9, 0x4E2D, 0xFFFF, 0x10FFFF, 0xDFFF, 0, 0xD800, 0xD800};
    enum { UNITS = sizeof units / sizeof units[0], VALUES = sizeof values / sizeof values[0] };
    for (int is_marked = 0; is_marked < 2; is_marked++) {
        wtf8_string string = WTF8_EMPTY, none = WTF8_EMPTY;
        size_t n = UNITS;
        uint32_t value = 77;
        must(wtf8_pop(&none, &value) == WTF8_END && value == 77, "nothing to take off");
        must(wtf8_set_units(&string, units, UNITS) == WTF8_OK, "code points to take off");
        must(!is_marked || wtf8_mark(&string) == WTF8_OK, "marked code points to take off");
        size_t capacity = wtf8_capacity(&string);
        long requested = requests;
        refuse_after = 0;
        for (size_t i = VALUES; i-- > 0;) {
            must(wtf8_pop(&string, &value) == WTF8_OK && value == values[i], "the code point that is taken off");
            n -= value < 0x10000 ? 1 : 2;
            must_have(&string, units, n, "the units that are left");
        }
        value = 77;
        must(n == 0 && wtf8_byte_len(&string) == 0, "all code points are taken off");
        must(wtf8_pop(&string, &value) == WTF8_END && value == 77, "nothing more to take off");
        must(wtf8_capacity(&string) == capacity && requests == requested, "the capacity after code points are taken off");
        refuse_after = -1;
        wtf8_free(&string);
    }
}

/* Spare capacity is released, and stays if memory is refused. */
static void shrinks(void) {
    static const size_t lens[] = {0, 1, 7, 8, 9, 100, 101, 1000, LETTERS};
    for (size_t i = 0; i < sizeof lens / sizeof lens[0]; i++) {
        for (int is_refused = 0; is_refused < 2; is_refused++) {
            wtf8_string string = WTF8_EMPTY, equal = WTF8_EMPTY;
            size_t len = lens[i];
            must(wtf8_set_utf8(&equal, letters, len, NULL) == WTF8_OK, "letters without spare capacity");
            must(wtf8_reserve_bytes(&string, 2 * len + 100) == WTF8_OK, "spare capacity");
            must(wtf8_push_utf8(&string, letters, len, NULL) == WTF8_OK, "letters with spare capacity");
            size_t capacity = wtf8_capacity(&string);
            if (is_refused) refuse_after = 0;
            wtf8_shrink(&string);
            refuse_after = -1;
            must(wtf8_equal(&string, &equal) && wtf8_unit_len(&string) == len, "a string after shrink");
            size_t now = wtf8_capacity(&string);
            must(len <= now && now <= capacity && (is_refused || now == len) && (len > 0 || now == 0),
                 "the capacity after shrink");
            wtf8_shrink(&string);
            must(wtf8_capacity(&string) == len, "the capacity after a second shrink");
            must(wtf8_push_unit(&string, 'a') == WTF8_OK && wtf8_unit_len(&string) == len + 1, "a unit after shrink");
            wtf8_free(&string);
            wtf8_shrink(&string);
            must(wtf8_capacity(&string) == 0, "the capacity of a freed string after shrink");
            wtf8_free(&equal);
            must(blocks == 0, "the block of a string after shrink");
        }
    }
}

/* What shortens a string keeps its capacity. */
static void kept_capacity(void) {
    for (int way = 0; way < 5; way++) {
        wtf8_string string = WTF8_EMPTY;
        size_t left = way < 3 ? 0 : 400;
        must(wtf8_set_utf8(&string, letters, 1000, NULL) == WTF8_OK, "letters to shorten");
        refuse_after = 0;
        if (way == 0) wtf8_clear(&string);
        else must((way % 2 ? wtf8_truncate_bytes : wtf8_truncate_units)(&string, left) == WTF8_OK, "a truncation");
        must(wtf8_byte_len(&string) == left, "the length after a truncation");
        must_take(&string, 1000 - left, "the capacity that is kept");
        wtf8_free(&string);
        wtf8_free(&string);
        must(blocks == 0, "the block of a freed string");
    }
}

/* A string that grows unit by unit, by appends and by edits, asks for memory at most once for each doubling, beside its struct. */
static void growth(void) {
    static uint16_t units[LETTERS];
    for (int way = 0; way < 9; way++) {
        wtf8_string string = WTF8_EMPTY, one = WTF8_EMPTY;
        must(wtf8_push_unit(&one, 0x4E2D) == WTF8_OK, "a unit to push");
        long before = requests;
        for (size_t i = 1; i <= LETTERS; i++) {
            const uint16_t unit = 0x4E2D;
            units[i - 1] = unit;
            wtf8_result code = way == 0 ? wtf8_push_unit(&string, unit)
                             : way == 1 ? wtf8_push_code_point(&string, unit)
                             : way == 2 ? wtf8_push_units(&string, &unit, 1)
                             : way == 3 ? wtf8_push_utf8(&string, (const uint8_t *)"\xE4\xB8\xAD", 3, NULL)
                             : way == 4 ? wtf8_push_string(&string, &one)
                             : way == 5 ? wtf8_insert_units(&string, i - 1, &unit, 1)
                             : way == 6 ? wtf8_replace_units(&string, i - 1, i - 1, &unit, 1)
                             : way == 7 ? wtf8_insert(&string, i - 1, &one)
                                        : wtf8_replace(&string, i - 1, i - 1, &one);
            must(code == WTF8_OK, "a call that grows a string");
            size_t doublings = 0;
            for (size_t n = i; n > 0; n /= 2) doublings++;
            must(requests - before <= 2 + (long)doublings, "the requests of a string that grows");
        }
        must(wtf8_byte_len(&string) == 3 * LETTERS, "the length of a string that grew");
        must_have(&string, units, LETTERS, "the units of a string that grew");
        wtf8_free(&string);
        wtf8_free(&one);
    }
}

struct guarded {
    uint8_t before[64];
    wtf8_string string;
    uint8_t after[64];
};

/* Whether nothing was written beside the struct. */
static int is_alone(const struct guarded *g) {
    for (size_t i = 0; i < sizeof g->before; i++)
        if (g->before[i] != 0xA5 || g->after[i] != 0xA5) return 0;
    return 1;
}

/* Nothing is written beside the struct of a string, which may be moved between calls, is 0 without a buffer, and takes one
 * request for bytes. */
static void structs(void) {
    static const wtf8_string none = WTF8_EMPTY;
    for (size_t n = 0; n < 300; n++) {
        struct guarded here, there;
        uint32_t popped;
        memset(&here, 0xA5, sizeof here);
        here.string = none;
        must(wtf8_unit_len(&here.string) == 0 && wtf8_capacity(&here.string) == 0, "a string that was not written");
        must(memcmp(&here.string, &none, sizeof none) == 0, "the struct of a string that was asked");
        long requested = requests;
        must(wtf8_set_utf8(&here.string, letters, n, NULL) == WTF8_OK, "a string in a struct");
        must(requests == requested + (n > 0), "the requests of a string");
        must(here.string.words[0] != 0, "the first word of a string that has a buffer");
        memcpy(&there, &here, sizeof here);
        memset(&here.string, 0xFF, sizeof here.string);
        must(wtf8_push_unit(&there.string, 0x4E2D) == WTF8_OK && wtf8_mark(&there.string) == WTF8_OK, "a moved string");
        memcpy(&here, &there, sizeof there);
        memset(&there.string, 0xFF, sizeof there.string);
        must(wtf8_pop(&here.string, &popped) == WTF8_OK && popped == 0x4E2D, "a moved string is cut");
        must(wtf8_unit_len(&here.string) == n, "the length of a moved string");
        must(wtf8_set_string(&here.string, &none) == WTF8_OK && wtf8_unit_len(&here.string) == 0, "a moved string is set");
        wtf8_free(&here.string);
        must(memcmp(&here.string, &none, sizeof none) == 0, "the struct of a freed string");
        must(is_alone(&here) && is_alone(&there), "bytes beside a struct");
        must(blocks == 0, "a block of a moved string");
    }
}

/* Each code has a text of its own, with a word of its meaning, and so has what is no code. */
static void texts_of_codes(void) {
    static const char *const words[] = {
        "did", "memory", "position", "array", "surrogate", "not a code point", "UTF-8", "no further", "FF"};
    for (int i = WTF8_OK; i <= WTF8_NOT_LATIN1; i++)
        must(strstr(wtf8_result_text((wtf8_result)i), words[i]) != NULL, "a word in the text of a code");
    must(strstr(wtf8_result_text((wtf8_result)(WTF8_NOT_LATIN1 + 1)), "not a code") != NULL, "a text of no code");
    for (int i = WTF8_OK; i <= WTF8_NOT_LATIN1 + 1; i++)
        for (int k = WTF8_OK; k < i; k++)
            must(strcmp(wtf8_result_text((wtf8_result)i), wtf8_result_text((wtf8_result)k)) != 0, "the text of a code");
    char version[16];
    snprintf(version, sizeof version, "%d.%d.%d", WTF8_VERSION_NUMBER / 10000, WTF8_VERSION_NUMBER / 100 % 100, WTF8_VERSION_NUMBER % 100);
    must(strcmp(wtf8_version(), WTF8_VERSION) == 0 && strcmp(version, WTF8_VERSION) == 0, "the version");
}

/* Asks for the first and the last index of units near `at`, with a string of them and without. */
static void must_search(const struct pair *p, const uint16_t *units, size_t n, size_t at) {
    size_t starts[] = {0, at > 0 ? at - 1 : 0, at, at + 1, p->n, p->n + 1};
    wtf8_string part = WTF8_EMPTY;
    must(wtf8_set_units(&part, units, n) == WTF8_OK, "a part");
    for (size_t i = 0; i < sizeof starts / sizeof starts[0]; i++) {
        size_t from = starts[i], index = 77;
        wtf8_result code = wtf8_find(&p->string, from, &part, &index);
        must(is_found(p, from, units, n, 0, code, index), "find");
        index = 77;
        code = wtf8_find_units(&p->string, from, units, n, &index);
        must(is_found(p, from, units, n, 0, code, index), "find_units");
        index = 77;
        code = wtf8_rfind(&p->string, from, &part, &index);
        must(is_found(p, from, units, n, 1, code, index), "rfind");
        index = 77;
        code = wtf8_rfind_units(&p->string, from, units, n, &index);
        must(is_found(p, from, units, n, 1, code, index), "rfind_units");
    }
    wtf8_free(&part);
}

/* Parts of strings of each length up to 70, and of a long one about the ends of what is searched at a time, are found, with
 * pairs cut and joined; and the same with another last unit, which may occur elsewhere. Units are of six kinds, so that many
 * parts begin alike. */
static void searches(void) {
    static const uint16_t kinds[] = {'a', 'a', 'b', 0xD83D, 0xDCA9, 0xE9};
    static const size_t sizes[] = {0, 1, 2, 3, 7, 40, 64, 65, 130};
    enum { SHORT = 70, LONG = 700, LONGEST_PART = 130 };
    static struct pair p;
    uint16_t part[LONGEST_PART];
    state = 3;
    for (size_t n = 0; n <= SHORT + 1; n++) {
        p.n = n > SHORT ? LONG : n;
        for (size_t i = 0; i < p.n; i++) p.units[i] = kinds[below(6)];
        must(wtf8_set_units(&p.string, p.units, p.n) == WTF8_OK, "a string to search");
        if (n % 2 == 1) wtf8_mark(&p.string);
        for (size_t k = 0; k < sizeof sizes / sizeof sizes[0]; k++) {
            for (size_t at = n > SHORT ? 440 : 0; at + sizes[k] <= p.n && at < 600; at += n > SHORT ? 1 + sizes[k] / 8 : 1) {
                memcpy(part, p.units + at, 2 * sizes[k]);
                must_search(&p, part, sizes[k], at);
                if (sizes[k] == 0) continue;
                part[sizes[k] - 1] ^= 1;
                must_search(&p, part, sizes[k], at);
            }
        }
        for (size_t i = 0; i <= p.n + 1; i++) {
            int divides = 0 < i && i < p.n && is_lead(p.units[i - 1]) && is_trail(p.units[i]);
            must(wtf8_divides_pair(&p.string, i) == divides, "divides_pair");
        }
        size_t index = 77;
        must(wtf8_find(&p.string, 0, &p.string, &index) == WTF8_OK && index == 0, "a string in itself");
        index = 77;
        must(wtf8_find(&p.string, 1, &p.string, &index) == WTF8_END && index == 77, "a string in itself, after its start");
        must(wtf8_rfind(&p.string, 9, &p.string, &index) == WTF8_OK && index == 0, "the last index of a string in itself");
    }
    wtf8_free(&p.string);
}

enum { NOWHERE = 9001 };

/* The first index at or after `from` at which the units of `part` occur, or the last one at or before it, compared at each. */
static size_t plain_index(const uint16_t *units, size_t n, size_t from, const uint16_t *part, size_t m, int is_last) {
    for (size_t i = 0; i <= n - m; i++) {
        size_t at = is_last ? n - m - i : i;
        if ((is_last ? at <= from : from <= at) && memcmp(units + at, part, 2 * m) == 0) return at;
    }
    return NOWHERE;
}

/* Lists that repeat, of up to 3,000 units, also with another unit in them, are found in texts that repeat, in which they
 * overlap: texts of one unit, of two by turns, of Fibonacci's word, of pairs and leads, and of 150 units, with another one
 * in the middle. */
static void repeated_searches(void) {
    enum { LONG = NOWHERE - 1, LONGEST_PART = 3000, KINDS = 5 };
    static const size_t sizes[] = {1, 2, 33, 64, 255, 256, 257, 511, 2047, 2048, 2049, LONGEST_PART};
    static uint16_t text[LONG], part[LONGEST_PART];
    for (int kind = 0; kind < KINDS; kind++) {
        size_t len = 2, before = 1;
        text[0] = kind == 3 ? 0xD83D : kind == 4 ? 0x4E00 : 'a';
        text[1] = kind == 0 ? 'a' : kind == 3 ? 0xDCA9 : 'b';
        for (; kind == 4 && len < 150; len++) text[len] = (uint16_t)(0x4E00 + len % 49);
        while (len < LONG) {
            size_t again = kind == 1 || kind == 4 ? len : before, old = len;
            for (size_t i = 0; i < again && len < LONG; i++) text[len++] = text[i];
            before = old;
        }
        text[LONG / 2] ^= 4;
        wtf8_string string = WTF8_EMPTY, other = WTF8_EMPTY;
        must(wtf8_set_units(&string, text, LONG) == WTF8_OK, "a text that repeats");
        if (kind % 2 == 1) wtf8_mark(&string);
        for (size_t k = 0; k < sizeof sizes / sizeof sizes[0]; k++) {
            size_t m = sizes[k];
            for (size_t o = 0; o < 4; o++) {
                memcpy(part, text + (o % 2 == 0 ? 7 : LONG / 2 - m / 2), 2 * m);
                if (o > 0) part[(o - 1) * (m - 1) / 2] ^= 4;
                must(wtf8_set_units(&other, part, m) == WTF8_OK, "a part that repeats");
                size_t froms[] = {0, LONG / 2 + 13, SIZE_MAX};
                for (size_t i = 0; i < 3; i++) {
                    size_t index = NOWHERE, from = froms[i], first = plain_index(text, LONG, from, part, m, 0);
                    size_t last = plain_index(text, LONG, from, part, m, 1);
                    wtf8_result code = wtf8_rfind_units(&string, from, part, m, &index);
                    must(index == last && code == (last == NOWHERE ? WTF8_END : WTF8_OK), "rfind_units of units that repeat");
                    index = NOWHERE;
                    code = wtf8_rfind(&string, from, &other, &index);
                    must(index == last && code == (last == NOWHERE ? WTF8_END : WTF8_OK), "rfind of units that repeat");
                    index = NOWHERE;
                    code = wtf8_find_units(&string, from, part, m, &index);
                    must(index == first && code == (first == NOWHERE ? WTF8_END : WTF8_OK), "find_units of units that repeat");
                    index = NOWHERE;
                    code = wtf8_find(&string, from, &other, &index);
                    must(index == first && code == (first == NOWHERE ? WTF8_END : WTF8_OK), "find of units that repeat");
                }
            }
        }
        wtf8_free(&string);
        wtf8_free(&other);
    }
}

/* Replaces units by the call that has the fewest arguments for it. */
static wtf8_result edit(wtf8_string *string, size_t begin, size_t end, const uint16_t *units, size_t n) {
    if (begin == end) return wtf8_insert_units(string, begin, units, n);
    return n > 0 ? wtf8_replace_units(string, begin, end, units, n) : wtf8_remove_units(string, begin, end);
}

/* Does the same by the string of the units. */
static wtf8_result insert_edit(wtf8_string *string, size_t begin, size_t end, const wtf8_string *other) {
    return begin == end ? wtf8_insert(string, begin, other) : wtf8_replace(string, begin, end, other);
}

/* Units are replaced in strings of each length up to 70 from each index on, with pairs cut and joined at both ends, by units
 * and by their string: with memory, with each request refused and no spare capacity, and with each refused and room for just
 * the new bytes. A call is refused just if its bytes do not fit, and then leaves the string. */
static void edits(void) {
    static const uint16_t kinds[] = {'a', 0xE9, 0x3042, 0xD83D, 0xDCA9, 0xDCA9}, both[] = {0xDC00, 'b', 0xD800};
    static const uint16_t wide[40] = {0xDC00, 0x3042, 0xD83D, 0xDCA9, 0x3042, 0x3042, 0xE9};
    static const size_t counts[] = {0, 1, 2, 3, 7, 33};
    static const struct {
        const uint16_t *units;
        size_t n;
    } lists[] = {{NULL, 0}, {both + 1, 1}, {both, 1}, {both + 2, 1}, {both, 3}, {wide, 40}};
    enum { LISTS = sizeof lists / sizeof lists[0], COUNTS = sizeof counts / sizeof counts[0], SHORT = 70 };
    static struct pair p, q;
    static wtf8_string strings[LISTS];
    state = 5;
    for (size_t k = 0; k < LISTS; k++) must(wtf8_set_units(&strings[k], lists[k].units, lists[k].n) == WTF8_OK, "a string to insert");
    for (size_t n = 0; n <= SHORT; n++) {
        for (size_t i = 0; i < n; i++) p.units[i] = kinds[below(6)];
        for (size_t part = 0; part < (n + 1) * COUNTS; part++) {
            size_t begin = part / COUNTS, end = begin + counts[part % COUNTS];
            for (size_t k = 0; end <= n && k < LISTS; k++) {
                for (int turn = 0; turn < 6; turn++) {
                    int way = turn / 2;
                    p.n = n;
                    must(wtf8_set_units(&p.string, p.units, n) == WTF8_OK, "a string to edit");
                    memcpy(q.units, p.units, 2 * n);
                    q.n = n;
                    splice(&q, begin, end, lists[k].units, lists[k].n);
                    size_t bytes = byte_len(&p), more = byte_len(&q);
                    if (way > 0) wtf8_shrink(&p.string);
                    if (way == 2 && bytes < more) must(wtf8_reserve_bytes(&p.string, more - bytes) == WTF8_OK, "room");
                    if (begin % 2 == 1) wtf8_mark(&p.string);
                    int fits = more <= wtf8_capacity(&p.string);
                    must(way < 2 || fits, "room for an edit");
                    if (way > 0) refuse_after = 0;
                    wtf8_result code = turn % 2 == 0 ? edit(&p.string, begin, end, lists[k].units, lists[k].n)
                                                     : insert_edit(&p.string, begin, end, &strings[k]);
                    refuse_after = -1;
                    must(code == (way == 0 || fits ? WTF8_OK : WTF8_NO_MEMORY), "an edit");
                    must_have(&p.string, code == WTF8_OK ? q.units : p.units, code == WTF8_OK ? q.n : n, "edited units");
                    must(wtf8_byte_len(&p.string) == (code == WTF8_OK ? more : bytes), "the length after an edit");
                }
            }
        }
        must(wtf8_set_units(&p.string, p.units, n) == WTF8_OK, "a string to edit");
        must(wtf8_insert_units(&p.string, n + 1, both, 3) == WTF8_BAD_POSITION &&
                 wtf8_remove_units(&p.string, n, n + 1) == WTF8_BAD_POSITION &&
                 wtf8_replace_units(&p.string, 1, 0, both, 3) == WTF8_BAD_POSITION &&
                 wtf8_remove_units(&p.string, SIZE_MAX, 0) == WTF8_BAD_POSITION &&
                 wtf8_insert(&p.string, n + 1, &strings[4]) == WTF8_BAD_POSITION &&
                 wtf8_replace(&p.string, 1, 0, &strings[4]) == WTF8_BAD_POSITION &&
                 wtf8_replace(&p.string, n, n + 1, &strings[4]) == WTF8_BAD_POSITION &&
                 wtf8_insert(&p.string, n + 1, &p.string) == WTF8_BAD_POSITION,
             "an edit past the end");
        must_have(&p.string, p.units, n, "a string without an edit");
        for (size_t begin = 0; begin <= n; begin++) {
            size_t end = n - (n - begin) / 3;
            memcpy(q.units, p.units, 2 * n);
            q.n = n;
            splice(&q, begin, end, p.units, n);
            must(wtf8_set_units(&p.string, p.units, n) == WTF8_OK, "a string to put into itself");
            refuse_after = 0;
            wtf8_result code = wtf8_replace(&p.string, begin, end, &p.string);
            refuse_after = -1;
            must(code == (n > 0 ? WTF8_NO_MEMORY : WTF8_OK), "a string that is copied before it is put into itself");
            must_have(&p.string, p.units, n, "a string that is not put into itself");
            must(insert_edit(&p.string, begin, end, &p.string) == WTF8_OK, "a string that is put into itself");
            must_have(&p.string, q.units, q.n, "a string put into itself");
        }
    }
    wtf8_free(&p.string);
    for (size_t k = 0; k < LISTS; k++) wtf8_free(&strings[k]);
}

/* A long string with marks, in which units are replaced about its marks. */
static void marked_edits(void) {
    static const uint16_t kinds[] = {'a', 0x3042, 0xD83D, 0xDCA9}, both[] = {0xDC00, 'b', 0xD800};
    enum { LONG = 700 };
    static struct pair p;
    state = 6;
    for (size_t at = 0; at <= LONG; at += 1 + below(9)) {
        p.n = LONG;
        for (size_t i = 0; i < LONG; i++) p.units[i] = kinds[below(4)];
        must(wtf8_set_units(&p.string, p.units, LONG) == WTF8_OK, "a long string to edit");
        wtf8_mark(&p.string);
        for (size_t k = 0; k < 3; k++) {
            size_t begin = at <= p.n ? at : p.n, end = begin + below(140);
            if (end > p.n) end = p.n;
            must(edit(&p.string, begin, end, both, k) == WTF8_OK, "an edit of a long string");
            splice(&p, begin, end, both, k);
            must_have(&p.string, p.units, p.n, "a long string that was edited");
            for (size_t i = 0; i < p.n; i += 1 + below(40)) {
                uint16_t unit = 7;
                must(wtf8_unit_at(&p.string, i, &unit) == WTF8_OK && unit == p.units[i], "a unit after an edit");
            }
        }
    }
    wtf8_free(&p.string);
}

/* Asks a string with marks for the unit, the position and the index at each index and position: by the model. */
static void must_be_marked(const struct pair *p, const char *what) {
    size_t position = 0, taken = 0;
    must(wtf8_unit_len(&p->string) == p->n && wtf8_byte_len(&p->string) == byte_len(p), what);
    for (size_t i = 0; i < p->n; i += taken) {
        uint32_t c = point_at(p, i, &taken);
        uint8_t bytes[4];
        size_t len = encode(c, bytes), found = 77;
        for (size_t k = 0; k < taken; k++) {
            uint16_t unit = 7;
            must(wtf8_unit_at(&p->string, i + k, &unit) == WTF8_OK && unit == p->units[i + k], what);
            must(wtf8_position_at(&p->string, i + k, &found) == WTF8_OK && found == position, what);
        }
        for (size_t k = 0; k < len; k++) must(wtf8_unit_before(&p->string, position + k) == i, what);
        position += len;
    }
    must(wtf8_unit_before(&p->string, position) == p->n, what);
}

/* A string with marks is cut at each index about a mark, by each call that cuts, after a lead, a trail or another unit, and
 * goes on with a trail or another unit. A mark that stays at the end would be within a pair then. */
static void marks_at_cuts(void) {
    enum { LONG = 400, ABOUT = 3, WAYS = 5, TAIL = 21 };
    static const uint16_t kinds[] = {0xE9, 0x4E2D, 0xD83D}, lasts[] = {'a', 0x4E2D, 0xDBFF, 0xDC00}, nexts[] = {'b', 0x3042, 0xDFFF, 0xD800};
    static struct pair p;
    size_t number = 0;
    for (size_t mark = SPACING; mark < LONG; mark += SPACING)
        for (size_t cut = mark - ABOUT; cut <= mark + ABOUT; cut++)
            for (size_t k = 0; k < 3 * 4 * 4 * WAYS; k++) {
                uint16_t kind = kinds[k % 3], last = lasts[k / 3 % 4], next = nexts[k / 12 % 4];
                size_t way = k / 48;
                uint32_t point;
                p.n = LONG;
                for (size_t i = 0; i < LONG; i++) p.units[i] = kind == 0xD83D && i % 2 == 1 ? 0xDCA9 : kind;
                p.units[cut - 1] = last;
                /* No pair is cut here by truncate_bytes, and one is taken off by the last way. */
                p.units[cut] = way == 4 ? 0xD83D : 'c';
                if (way == 4) p.units[cut + 1] = 0xDCA9;
                must(wtf8_set_units(&p.string, p.units, LONG) == WTF8_OK && wtf8_mark(&p.string) == WTF8_OK, "a string to cut");
                switch (way) {
                    case 0: must(wtf8_truncate_units(&p.string, cut) == WTF8_OK, "truncate_units at a mark"); break;
                    case 1: must(wtf8_truncate_bytes(&p.string, position_of(&p, cut)) == WTF8_OK, "truncate_bytes at a mark"); break;
                    case 2: must(wtf8_remove_units(&p.string, cut, LONG) == WTF8_OK, "remove_units at a mark"); break;
                    case 3:
                        must(wtf8_truncate_units(&p.string, cut + 1) == WTF8_OK, "truncate_units after a mark");
                        must(wtf8_pop(&p.string, &point) == WTF8_OK && point == 'c', "pop at a mark");
                        break;
                    default:
                        must(wtf8_truncate_units(&p.string, cut + 2) == WTF8_OK, "truncate_units two units after a mark");
                        must(wtf8_pop(&p.string, &point) == WTF8_OK && point == 0x1F4A9, "pop of a pair at a mark");
                }
                p.n = cut;
                if (way == 4) must_be_marked(&p, "a marked string without its last pair");
                for (size_t i = 0; i < TAIL; i++) p.units[p.n + i] = i % 5 == 4 ? 0xE9 : 'x';
                p.units[p.n] = next;
                if (number++ % 2 == 0) must(wtf8_push_units(&p.string, p.units + p.n, TAIL) == WTF8_OK, "units after a cut");
                else for (size_t i = 0; i < TAIL; i++) must(wtf8_push_unit(&p.string, p.units[p.n + i]) == WTF8_OK, "a unit after a cut");
                p.n += TAIL;
                must_be_marked(&p, "a marked string that was cut and went on");
            }
    wtf8_free(&p.string);
}

/* The first index from `from` on, or with `is_last` the last one up to it, at which units occur in others, or -1: each index
 * is tried. */
static long index_of(const uint16_t *units, size_t n, const uint16_t *part, size_t size, long from, int is_last) {
    long last = (long)n - (long)size, i = is_last && last < from ? last : from;
    for (; 0 <= i && i <= last; i += is_last ? -1 : 1)
        if (units[i + (long)size - 1] == part[size - 1] && memcmp(units + i, part, 2 * size) == 0) return i;
    return -1;
}

/* Long units that are nearly periodic are searched for in longer ones: more than are decoded at a time, and more than are kept
 * with their borders. They go on elsewhere as they begin, so that what was compared must be taken up again. */
static void long_searches(void) {
    enum { LONG = 6200, AT = 1500 };
    static const struct { size_t period, size; } rows[] = {
        {1, 63}, {1, 66}, {2, 513}, {3, 700}, {1, 2047}, {1, 2048}, {1, 2049}, {1, 2100}, {2, 2300}, {5, 2600}, {7, 4500}};
    static const uint16_t kinds[] = {'a', 0xE9, 0x4E2D, 0xD83D};
    static uint16_t units[LONG];
    for (size_t k = 0; k < sizeof rows / sizeof rows[0]; k++)
        for (size_t kind = 0; kind < sizeof kinds / sizeof kinds[0]; kind++) {
            size_t n = LONG - k, size = rows[k].size, period = rows[k].period;
            wtf8_string string = WTF8_EMPTY, part = WTF8_EMPTY;
            /* A pair for each unit of the last kind. */
            size_t width = kinds[kind] == 0xD83D ? 2 : 1;
            for (size_t i = 0; i < n; i++)
                units[i] = (uint16_t)(width == 2 && i % 2 == 1 ? 0xDCA9 : kinds[kind] + i / width % period);
            /* The units that are searched for end with another one, which is there from index `AT` on, and near the end. */
            for (size_t end = AT + size; end < n; end += size + period + 1) units[end / 2 * 2] = 'z';
            must(wtf8_set_units(&string, units, n) == WTF8_OK && (k % 2 == 0 || wtf8_mark(&string) == WTF8_OK), "a long string to search");
            for (size_t at = AT; at < AT + 3; at++) {
                if (n < at + size) continue;
                const uint16_t *wanted = units + at;
                must(wtf8_set_units(&part, wanted, size) == WTF8_OK, "a long part");
                for (size_t from = 0; from <= n; from += n / 3) {
                    for (int is_last = 0; is_last < 2; is_last++) {
                        long must_be = index_of(units, n, wanted, size, (long)from, is_last);
                        size_t index = 77, other = 77;
                        wtf8_result code = is_last ? wtf8_rfind_units(&string, from, wanted, size, &index) : wtf8_find_units(&string, from, wanted, size, &index);
                        must(must_be < 0 ? code == WTF8_END : code == WTF8_OK && index == (size_t)must_be, "find_units of long units");
                        code = is_last ? wtf8_rfind(&string, from, &part, &other) : wtf8_find(&string, from, &part, &other);
                        must(must_be < 0 ? code == WTF8_END : code == WTF8_OK && other == (size_t)must_be, "find of a long string");
                    }
                }
            }
            wtf8_free(&string);
            wtf8_free(&part);
        }
}

/* Two letters in ASCII, as far apart as may be, are appended without a request if they fit, however little or much room is
 * left after them. */
static void letters_that_fit(void) {
    static const uint16_t kinds[] = {0xE9, 0x4E2D, 0xDC00};
    static const size_t lengths[] = {63, 64, 65, 97, 130}, more[] = {0, 1, 31, 32, 63, 64, 65, 126, 127, 128};
    enum { MOST_UNITS = 130, BLOCK = 32 };
    uint16_t units[MOST_UNITS];
    for (size_t k = 0; k < 3 * 5; k++)
        for (size_t i = 0; i < BLOCK; i++) {
            size_t n = lengths[k / 3], j = i + 1 + (i + k) % BLOCK;
            for (size_t at = 0; at < n; at++) units[at] = (uint16_t)('a' + at % 26);
            units[i] = units[j] = kinds[k % 3];
            size_t bytes = wtf8_encoded_len(units, n);
            for (size_t m = 0; m < sizeof more / sizeof more[0]; m++) {
                wtf8_string string = WTF8_EMPTY;
                must(wtf8_reserve_bytes(&string, bytes + more[m]) == WTF8_OK, "room for letters");
                size_t before = wtf8_capacity(&string) - bytes - more[m];
                must(wtf8_push_utf8(&string, letters, before, NULL) == WTF8_OK, "what is before letters");
                uint16_t *array = array_of(units, 2 * n);
                long requested = requests;
                refuse_after = 0;
                must(wtf8_push_units(&string, array, n) == WTF8_OK && requests == requested, "letters that fit");
                refuse_after = -1;
                must_begin(array, 2 * n, units, 2 * n, "the letters");
                must(wtf8_unit_len(&string) == before + n && wtf8_starts_with_units(&string, before, units, n), "letters that were appended");
                must(wtf8_byte_len(&string) == before + bytes, "the bytes of letters that were appended");
                wtf8_free(&string);
            }
        }
}

/* Two letters at each two indexes of the first 32 units, with room for the units if all were ASCII but not for the letters: they
 * are refused, and the string stays, though 32 bytes may be stored at once after the last letter. */
static void letters_that_do_not_fit(void) {
    enum { BLOCK = 32 };
    static const uint16_t kinds[] = {0xE9, 0x4E2D};
    static const size_t lengths[] = {63, 64, 65, 96};
    uint16_t units[96];
    for (size_t k = 0; k < 2 * 4; k++)
        for (size_t i = 0; i < BLOCK * BLOCK; i++) {
            size_t n = lengths[k / 2];
            for (size_t at = 0; at < n; at++) units[at] = (uint16_t)('a' + at % 26);
            units[i / BLOCK] = units[i % BLOCK] = kinds[k % 2];
            for (size_t spare = n - 1; spare < wtf8_encoded_len(units, n); spare++) {
                wtf8_string string = WTF8_EMPTY;
                must(wtf8_reserve_bytes(&string, spare) == WTF8_OK, "too little room for letters");
                size_t before = wtf8_capacity(&string) - spare;
                must(wtf8_push_utf8(&string, letters, before, NULL) == WTF8_OK, "what is before letters");
                refuse_after = 0;
                must(wtf8_push_units(&string, units, n) == WTF8_NO_MEMORY, "letters that do not fit");
                refuse_after = -1;
                must(wtf8_equal_utf8(&string, letters, before), "a string without the letters");
                wtf8_free(&string);
            }
        }
}

/* A text in Latin-1 that does not fit takes one request; if it is as short as a list of units that is pushed at once, it may
 * take two. */
static void latin1_requests(void) {
    enum { LONG = 400 };
    static uint8_t text[LONG];
    for (size_t high = 0; high < 3; high++)
        for (size_t n = 1; n <= LONG; n++) {
            for (size_t i = 0; i < n; i++) text[i] = high == 2 || (high == 1 && i == n - 1) ? 0xE9 : 'a';
            for (int is_set = 0; is_set < 2; is_set++) {
                wtf8_string string = WTF8_EMPTY;
                long requested = requests;
                wtf8_result code = is_set ? wtf8_set_latin1(&string, text, n) : wtf8_push_latin1(&string, text, n);
                must(code == WTF8_OK && requests - requested <= (n <= 32 ? 2 : 1), "the request of a text in Latin-1");
                wtf8_free(&string);
            }
        }
}

/* A string with marks is emptied, or set in place, and gets units of other lengths: no mark of the old ones is left. */
static void marks_of_others(void) {
    enum { LONG = 700, WAYS = 3 };
    static const uint16_t kinds[] = {'a', 0xE9, 0x4E2D};
    static const size_t lengths[] = {SPACING, SPACING + 1, SPACING + 2, 300, LONG};
    static struct pair p;
    static uint16_t others[LONG];
    for (size_t k = 0; k < 3 * 3 * WAYS; k++)
        for (size_t i = 0; i < sizeof lengths / sizeof lengths[0]; i++) {
            uint16_t kind = kinds[k / 3 % 3];
            for (size_t at = 0; at < LONG; at++) others[at] = kinds[k % 3];
            others[0] = 0x3042;
            must(wtf8_set_units(&p.string, others, LONG) == WTF8_OK && wtf8_mark(&p.string) == WTF8_OK, "a string with marks");
            p.n = lengths[i];
            for (size_t at = 0; at < p.n; at++) p.units[at] = at % 50 == 7 ? 'z' : kind;
            p.units[p.n - 1] = 0xE9;
            if (k / 9 == 0) must(wtf8_set_units(&p.string, p.units, p.n) == WTF8_OK, "others that are set");
            else {
                wtf8_clear(&p.string);
                size_t front = k / 9 == 1 ? 0 : p.n / 2;
                must(wtf8_push_units(&p.string, p.units, front) == WTF8_OK, "others that are pushed");
                must(wtf8_push_units(&p.string, p.units + front, p.n - front) == WTF8_OK, "others that are pushed");
            }
            must_be_marked(&p, "a string with marks that got other units");
        }
    wtf8_free(&p.string);
}

/* A string is appended to itself, or cut out of itself, with each request refused in turn: it stays until all are granted. */
static void parts_of_itself(void) {
    enum { LONG = 100, BEGIN = 10, END = 90, WAYS = 3 };
    for (int way = 0; way < WAYS; way++) {
        wtf8_result code = WTF8_NO_MEMORY;
        for (long granted_first = 0; code != WTF8_OK; granted_first++) {
            wtf8_string string = WTF8_EMPTY;
            must(wtf8_set_utf8(&string, letters, LONG, NULL) == WTF8_OK && wtf8_capacity(&string) == LONG, "a full string");
            long before = blocks;
            refuse_after = granted_first;
            code = way == 0 ? wtf8_push_string(&string, &string)
                 : way == 1 ? wtf8_push_slice(&string, &string, BEGIN, END)
                            : wtf8_slice_units(&string, &string, BEGIN, END);
            refuse_after = -1;
            must(code == WTF8_NO_MEMORY || (code == WTF8_OK && granted_first == (way < 2 ? 2 : 0)), "the requests for its own units");
            size_t n = code != WTF8_OK ? LONG : way == 0 ? 2 * LONG : way == 1 ? LONG + END - BEGIN : END - BEGIN;
            must(wtf8_equal_utf8(&string, letters, n) && blocks == before, "a string with its own units");
            wtf8_free(&string);
        }
    }
}

/* A string that a call is given twice. */
static struct pair own;

/* Sets the string to `n` units of its pair, with room for as many bytes again, without spare capacity, or full and marked. */
static void make_own(size_t n, uint32_t kind) {
    own.n = n;
    must(wtf8_set_units(&own.string, own.units, n) == WTF8_OK, "a string that is given twice");
    if (kind > 0) wtf8_shrink(&own.string);
    else must(wtf8_reserve_bytes(&own.string, wtf8_byte_len(&own.string)) == WTF8_OK, "room for its bytes");
    if (kind > 1) wtf8_mark(&own.string);
}

/* What a call that changes a string by itself returns, while requests are refused, and what is left: the units from `begin`
 * to before `end` replaced by its own from `from` to before `to`, unless an index is bad or a request was refused. */
static void must_change(wtf8_result code, bool is_good, long refused, size_t begin, size_t end, size_t from, size_t to) {
    static struct pair changed;
    refuse_after = -1;
    must(is_good || code == WTF8_BAD_POSITION, "a bad index of a string that is given twice");
    must(!is_good || code == WTF8_OK || (code == WTF8_NO_MEMORY && refused < refusals), "a string that is given twice");
    memcpy(changed.units, own.units, 2 * own.n);
    changed.n = own.n;
    if (code == WTF8_OK) splice(&changed, begin, end, own.units + from, to - from);
    must_have(&own.string, changed.units, changed.n, "the units of a string that was given twice");
}

/* Each call that takes two strings is given one twice, with each index, also after the end, and with requests granted and
 * refused: a bad index is named before memory is requested, and what asks or cuts requests none. */
static void one_string_twice(void) {
    static const uint16_t kinds[] = {'a', 0xDCA9, 0xE9, 0x4E2D, 0xD83D, 0xDCA9, 0xD83D};
    static const size_t lengths[] = {0, 1, 2, 7, 150};
    enum { WAYS = 5, INDEXES = 7, LENGTHS = sizeof lengths / sizeof lengths[0] };
    for (size_t k = 0; k < LENGTHS * 3 * INDEXES * INDEXES * 4; k++) {
        size_t n = lengths[k % LENGTHS], indexes[] = {0, 1, n / 2, n - 1, n, n + 1, SIZE_MAX};
        uint32_t kind = (uint32_t)(k / LENGTHS % 3);
        size_t begin = indexes[k / LENGTHS / 3 % INDEXES], end = indexes[k / LENGTHS / 3 / INDEXES % INDEXES];
        long granted_first = (long)(k / LENGTHS / 3 / INDEXES / INDEXES) - 1;
        bool is_part = begin <= end && end <= n;
        wtf8_string *s = &own.string;
        for (size_t i = 0; i < n; i++) own.units[i] = kinds[i % (sizeof kinds / sizeof kinds[0])];
        for (int way = 0; way < WAYS; way++) {
            make_own(n, kind);
            long requested = requests, refused = refusals, held = blocks;
            size_t capacity = wtf8_capacity(s);
            refuse_after = granted_first;
            switch (way) {
                case 0: must_change(wtf8_push_string(s, s), true, refused, n, n, 0, n); break;
                case 1: must_change(wtf8_push_slice(s, s, begin, end), is_part, refused, n, n, begin, end); break;
                case 2: must_change(wtf8_insert(s, begin, s), begin <= n, refused, begin, begin, 0, n); break;
                case 3: must_change(wtf8_replace(s, begin, end, s), is_part, refused, begin, end, 0, n); break;
                default: must_change(wtf8_slice_units(s, s, begin, end), is_part, refused, 0, n, begin, end); break;
            }
            bool is_bad = way == 2 ? n < begin : way != 0 && !is_part;
            must(!is_bad || requests == requested, "a bad index that is looked at after memory is requested");
            must(way < 4 || wtf8_capacity(s) == capacity, "the capacity of a slice of itself");
            must(way < 4 || kind > 1 || requests == requested, "a slice of itself that requests memory");
            must(kind > 1 || blocks == held, "the copy of a string that was given twice is freed");
            must(n > 0 || requests == requested, "no units that request memory");
        }
        make_own(n, kind);
        long requested = requests;
        refuse_after = granted_first;
        must(wtf8_set_string(s, s) == WTF8_OK, "a string that is set to itself");
        wtf8_move(s, s);
        must(wtf8_equal(s, s) && wtf8_compare_units(s, s) == 0 && wtf8_compare_code_points(s, s) == 0, "a string and itself");
        must(wtf8_starts_with(s, begin, s) == (begin == 0 || n == 0), "a string that begins with itself");
        for (int is_last = 0; is_last <= 1; is_last++) {
            size_t index = 77;
            wtf8_result code = is_last ? wtf8_rfind(s, begin, s, &index) : wtf8_find(s, begin, s, &index);
            must(is_found(&own, begin, own.units, n, is_last, code, index), "a string that is found in itself");
        }
        refuse_after = -1;
        must(requests == requested, "a question of a string and itself that requests memory");
        must_have(s, own.units, n, "a string that was asked twice");
    }
    wtf8_free(&own.string);
}

/* A trail and units after it are pushed to a string that ends with its lead, and do not fit, however much room there is: the
 * string stays, and its lead can still be completed. */
static void refused_after_leads(void) {
    enum { MOST_UNITS = 130, MOST_SPARE = 150 };
    static const uint16_t kinds[] = {'a', 0xE9, 0x4E2D}, front[] = {'x', 0xE9, 0xD83D};
    static const size_t lengths[] = {1, 2, 12, 13, 14, 20, 33, 65, MOST_UNITS};
    uint16_t units[MOST_UNITS];
    for (size_t k = 0; k < 3 * sizeof lengths / sizeof lengths[0]; k++) {
        size_t n = lengths[k / 3], needed;
        for (size_t i = 0; i < n; i++) units[i] = kinds[k % 3];
        units[0] = 0xDCA9;
        /* The lead and the trail have 3 bytes each apart, and 4 together. */
        needed = wtf8_encoded_len(units, n) - 2;
        for (size_t spare = 0; spare <= needed && spare < MOST_SPARE; spare++) {
            wtf8_string string = WTF8_EMPTY;
            must(wtf8_reserve_bytes(&string, 100 + spare) == WTF8_OK, "room after a lead");
            size_t before = wtf8_capacity(&string) - spare - 6, position = before + 3;
            must(wtf8_push_utf8(&string, letters, before, NULL) == WTF8_OK && wtf8_push_units(&string, front, 3) == WTF8_OK, "a lead");
            refuse_after = 0;
            wtf8_result code = wtf8_push_units(&string, units, n);
            refuse_after = -1;
            must(code == (spare < needed ? WTF8_NO_MEMORY : WTF8_OK), "a trail and units without memory");
            size_t more = spare < needed ? 0 : n;
            must(wtf8_unit_len(&string) == before + 3 + more, "the units after a lead");
            must(wtf8_byte_len(&string) == before + 6 + (spare < needed ? 0 : needed), "the bytes after a lead");
            if (spare < needed) must(wtf8_push_unit(&string, units[0]) == WTF8_OK, "a trail");
            uint32_t point = 0;
            must(wtf8_next_code_point(&string, &position, &point) == WTF8_OK && point == 0x1F4A9, "the pair of a lead");
            must(spare < needed ? position == wtf8_byte_len(&string) : wtf8_starts_with_units(&string, before + 3, units, n), "what is after a lead");
            wtf8_free(&string);
        }
    }
}

/* Bytes of more units than a sum of 16 bits counts. */
static void far_lens(void) {
    enum { FAR = 140000 };
    static const struct { uint16_t units[2]; size_t per_two; } kinds[] = {{{0xE9, 0xE9}, 4}, {{0x4E2D, 0x4E2D}, 6}, {{0xD83D, 0xDCA9}, 4}, {{0xDCA9, 0xDCA9}, 6}};
    static const size_t lengths[] = {32766, 32768, 65534, 65536, 65538, FAR};
    static uint16_t units[FAR];
    for (size_t k = 0; k < sizeof kinds / sizeof kinds[0]; k++)
        for (size_t i = 0; i < sizeof lengths / sizeof lengths[0]; i++) {
            size_t n = lengths[i], bytes = n / 2 * kinds[k].per_two;
            wtf8_string string = WTF8_EMPTY;
            for (size_t at = 0; at < n; at++) units[at] = kinds[k].units[at % 2];
            must(wtf8_encoded_len(units, n) == bytes, "encoded_len of many units");
            must(wtf8_set_units(&string, units, n) == WTF8_OK && wtf8_byte_len(&string) == bytes && wtf8_unit_len(&string) == n, "many units");
            wtf8_free(&string);
        }
}

/* Functions with a context: what was used before them, and how often each was called. */
struct counted {
    wtf8_memory used;
    long allocated, reallocated, released;
};

static int depth; /* of functions that call each other */

static struct counted *entered(void *context) {
    must(depth++ < 4, "a function that calls itself");
    return context;
}

static void *count_allocate(void *context, size_t n) {
    struct counted *counted = entered(context);
    void *block = counted->used.allocate(counted->used.context, n);
    counted->allocated++;
    depth--;
    return block;
}

static void *count_reallocate(void *context, void *block, size_t n) {
    struct counted *counted = entered(context);
    block = counted->used.reallocate(counted->used.context, block, n);
    counted->reallocated++;
    depth--;
    return block;
}

static void count_release(void *context, void *block) {
    struct counted *counted = entered(context);
    counted->used.release(counted->used.context, block);
    counted->released++;
    depth--;
}

/* Makes a string of more units than fit it at first. */
static wtf8_result grow(wtf8_string *string) {
    wtf8_result code = WTF8_OK;
    for (uint16_t i = 0; i < 100 && code == WTF8_OK; i++) code = wtf8_push_unit(string, (uint16_t)(0x4E00 + i));
    return code;
}

/* The functions of two wrappers without a context. */
static struct counted plainly[2];

#define DEFINE_PLAIN(i)                                                                                          \
    static void *allocate_plain_##i(size_t n) { return count_allocate(&plainly[i], n); }                         \
    static void *reallocate_plain_##i(void *block, size_t n) { return count_reallocate(&plainly[i], block, n); } \
    static void release_plain_##i(void *block) { count_release(&plainly[i], block); }
DEFINE_PLAIN(0)
DEFINE_PLAIN(1)

/* Has the library call the wrapper `i` over what it calls now, with a context or without. */
static struct counted *wrap(int i, bool has_context) {
    static struct counted counted[2];
    struct counted *wrapper = has_context ? &counted[i] : &plainly[i];
    *wrapper = (struct counted){wtf8_memory_in_use(), 0, 0, 0};
    if (has_context) wtf8_use_memory_with((wtf8_memory){count_allocate, count_reallocate, count_release, wrapper});
    else if (i == 0) wtf8_use_memory(allocate_plain_0, reallocate_plain_0, release_plain_0);
    else wtf8_use_memory(allocate_plain_1, reallocate_plain_1, release_plain_1);
    return wrapper;
}

/* A string that is made and freed calls each function of the wrappers that are in use, and those of no other one. */
static void must_call(const struct counted *inner, bool is_inner, const struct counted *outer, bool is_outer) {
    struct counted before[] = {*inner, *outer};
    long requested = requests;
    wtf8_string string = WTF8_EMPTY;
    must(grow(&string) == WTF8_OK && requested < requests, "a string by wrapped functions");
    wtf8_free(&string);
    for (int i = 0; i < 2; i++) {
        const struct counted *now = i == 0 ? inner : outer;
        bool is_used = i == 0 ? is_inner : is_outer;
        must(now->allocated - before[i].allocated == is_used && now->released - before[i].released == is_used, "the calls of a wrapper");
        must((now->reallocated > before[i].reallocated) == is_used, "the calls of a wrapper as a string grows");
    }
    must(blocks == 0, "the block of a string by wrapped functions");
}

/* What wtf8_memory_in_use returned is wrapped, used and used again in each order, by both calls, and stays what it is. */
static void wrapped_memory(void) {
    wtf8_memory first = wtf8_memory_in_use();
    for (int way = 0; way < 4; way++) {
        struct counted *inner = wrap(0, way % 2 == 1);
        wtf8_memory second = wtf8_memory_in_use();
        must_call(inner, true, &plainly[1], false);
        struct counted *outer = wrap(1, way / 2 == 1);
        wtf8_memory third = wtf8_memory_in_use();
        must_call(inner, true, outer, true);
        wtf8_use_memory_with(second);
        must_call(inner, true, outer, false);
        wtf8_use_memory_with(first);
        must_call(inner, false, outer, false);
        wtf8_use_memory_with(third);
        must_call(inner, true, outer, true);
        wtf8_use_memory(__wrap_malloc, __wrap_realloc, __wrap_free);
        must_call(inner, false, outer, false);
        long allocated = inner->allocated, released = outer->released;
        third.release(third.context, second.allocate(second.context, 8));
        must(inner->allocated == allocated + 1 && outer->released == released + 1 && blocks == 0, "functions that are not in use");
        wtf8_use_memory_with(first);
        must_call(inner, false, outer, false);
    }
}

/* Eight sets of functions stay what they are, malloc's among them. Of more the library calls those that it was given, and has
 * none to return. */
static void many_sets(void) {
#ifdef USE_MEMORY
    enum { KEPT = 7 };
#else
    enum { KEPT = 8 };
#endif
    enum { WAYS = 27 };
    static void *(*const allocate[])(size_t) = {__wrap_malloc, allocate_plain_0, allocate_plain_1};
    static void *(*const reallocate[])(void *, size_t) = {__wrap_realloc, reallocate_plain_0, reallocate_plain_1};
    static void (*const release[])(void *) = {__wrap_free, release_plain_0, release_plain_1};
    wtf8_memory first = wtf8_memory_in_use(), kept[WAYS];
    size_t n = 0;
    plainly[0] = plainly[1] = (struct counted){first, 0, 0, 0};
    for (int turn = 0; turn < 3; turn++)
        for (size_t i = 0; i < WAYS; i++) {
            struct counted before[] = {plainly[0], plainly[1]};
            wtf8_string string = WTF8_EMPTY;
            if (turn < 2) wtf8_use_memory(allocate[i % 3], reallocate[i / 3 % 3], release[i / 9]);
            else if (kept[i].allocate != NULL) wtf8_use_memory_with(kept[i]);
            else continue;
            must(grow(&string) == WTF8_OK, "a string by one of many sets");
            wtf8_free(&string);
            for (size_t k = 0; k < 2; k++) {
                must(plainly[k].allocated - before[k].allocated == (i % 3 == k + 1), "the first function of many");
                must((plainly[k].reallocated > before[k].reallocated) == (i / 3 % 3 == k + 1), "the second function of many");
                must(plainly[k].released - before[k].released == (i / 9 == k + 1) && blocks == 0, "the third function of many");
            }
            wtf8_memory now = wtf8_memory_in_use();
            bool is_kept = now.allocate != NULL;
            must((now.reallocate != NULL) == is_kept && (now.release != NULL) == is_kept && now.context == NULL, "all functions or none");
            must(turn == 0 || (now.allocate == kept[i].allocate && now.release == kept[i].release), "a set that is used again");
            n += turn == 0 && is_kept;
            kept[i] = now;
        }
    must(n == KEPT, "the number of sets that stay");
    wtf8_use_memory_with(first);
}

/* Functions with a context are called with it, over those that were used before, which can be used again. */
static void memory_with_context(void) {
    wtf8_string string = WTF8_EMPTY;
    struct counted counted = {wtf8_memory_in_use(), 0, 0, 0};
    wtf8_memory counting = {count_allocate, count_reallocate, count_release, &counted};
    long requested = requests;
    void *block = counted.used.allocate(counted.used.context, 8);
    if (block) block = counted.used.reallocate(counted.used.context, block, 80);
    must(block != NULL && requests == requested + 2, "a block by the functions that the library calls");
    counted.used.release(counted.used.context, block);
    must(blocks == 0, "the block is freed");
    wtf8_use_memory_with(counting);
    wtf8_memory in_use = wtf8_memory_in_use();
    must(in_use.allocate == count_allocate && in_use.reallocate == count_reallocate, "the functions in use");
    must(in_use.release == count_release && in_use.context == &counted, "the context in use");
    must(grow(&string) == WTF8_OK, "a string by functions with a context");
    must(counted.allocated == 1 && counted.reallocated > 0 && counted.released == 0, "the calls for a string");
    wtf8_free(&string);
    must(counted.released == 1 && blocks == 0, "the call that frees a string");
    refuse_after = 1;
    must(grow(&string) == WTF8_NO_MEMORY && counted.allocated == 2, "a string that is refused memory");
    refuse_after = -1;
    wtf8_free(&string);
    wtf8_use_memory_with(counted.used);
    must(grow(&string) == WTF8_OK && counted.allocated == 2, "a string by the functions of before");
    wtf8_free(&string);
    must(counted.released == 2 && blocks == 0, "the block of a string");
    wtf8_use_memory_with(counting);
    wtf8_use_memory(__wrap_malloc, __wrap_realloc, __wrap_free);
    must(grow(&string) == WTF8_OK && counted.allocated == 2, "a string by functions without a context");
    wtf8_free(&string);
    must(counted.released == 2 && blocks == 0 && wtf8_memory_in_use().context == NULL, "no context in use");
}

int main(void) {
    memset(letters, 'a', LETTERS);
    code_points();
    for (size_t front = 0; front <= 70; front++) utf8_after(front);
    for (size_t front = 0; front <= 70; front++) replaced_after(front);
    replaced_in_parts();
    no_utf8_after_wide_letters();
    sip_vectors();
    hash();
    asked_units();
    asked_texts();
    orders();
    short_strings();
    short_strings_in_two();
    lengths();
    each_unit();
    walks();
    surrogates();
    latin1();
    latin1_out();
    pushed_points();
    points_before();
    moves();
    utf8_unit_lens();
    copied_points();
    pushed_slices();
    indexes();
    long_strings();
    long_appends();
    each_code_point();
    empty_strings();
    marks();
    reserve();
    replaced_in_place();
    rooms();
    set_long();
    set_again();
    encoded_lens();
    sliced_in_place();
    pops();
    shrinks();
    kept_capacity();
    growth();
    structs();
    texts_of_codes();
    searches();
    repeated_searches();
    edits();
    marked_edits();
    marks_at_cuts();
    long_searches();
    letters_that_fit();
    letters_that_do_not_fit();
    latin1_requests();
    marks_of_others();
    parts_of_itself();
    one_string_twice();
    refused_after_leads();
    far_lens();
    memory_with_context();
    wrapped_memory();
    many_sets();
    printf("edges: %ld requests, no difference\n", requests);
    return 0;
}
