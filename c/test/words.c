/* Prints as lines of c/abi.txt what compiled programs know of the words of a string's struct, if it holds of the library: the
 * class of 0.1.0 and 0.2.0 frees a string only if word 0 is not 0. c/check_abi runs it. */
#include "../wtf8.h"
#include "must.h"

/* What wtf8_sanitizers.h declares. */
const void *wtf8_block(const wtf8_string *string);

enum { LONGEST = 300 };

static void *blocks[9]; /* that were granted and not freed, anywhere in the list */
static bool is_refused;

/* Where a block is in the list, or NULL. */
static void **find(const void *block) {
    for (size_t i = 0; i < sizeof blocks / sizeof blocks[0]; i++)
        if (blocks[i] == block) return &blocks[i];
    return NULL;
}

static void *reallocate(void *block, size_t n) {
    void **at = find(block), *granted = is_refused ? NULL : realloc(block, n);
    must(at != NULL, "a block that was not granted, or too many");
    if (granted != NULL) *at = granted;
    return granted;
}

static void *allocate(size_t n) {
    return reallocate(NULL, n);
}

static void release(void *block) {
    void **at = find(block);
    must(at != NULL, "a block that was not granted");
    *at = NULL;
    free(block);
}

static bool has_blocks(void) {
    for (size_t i = 0; i < sizeof blocks / sizeof blocks[0]; i++)
        if (blocks[i] != NULL) return true;
    return false;
}

/* A call was done, or refused, and left this string, which alone may own blocks. */
static void owns(bool is_done, const wtf8_string *string) {
    must(is_done || is_refused, "a call that is not done");
    must(!has_blocks() || string->words[0] != 0, "word 0 of a string that owns memory is 0");
    must((wtf8_block(string) == NULL) == (wtf8_capacity(string) == 0), "the block of a string that has room");
    must(find(wtf8_block(string)) != NULL, "the block of a string was not granted to it");
}

static void owns_nothing(const wtf8_string *string) {
    for (size_t i = 0; i < WTF8_WORDS; i++) must(string->words[i] == 0, "a word of the empty string");
    owns(true, string);
    must(!has_blocks(), "the blocks of the empty string");
}

/* Each call that may change what a string owns, over units of one kind. */
static void changes(const uint16_t *units, size_t n) {
    wtf8_string s = WTF8_EMPTY, other = WTF8_EMPTY;
    owns_nothing(&s);
    for (int is_marked = 0; is_marked <= 1; is_marked++) {
        owns(wtf8_reserve_bytes(&s, n) == WTF8_OK, &s);
        owns(wtf8_set_units(&s, units, n) == WTF8_OK, &s);
        if (is_marked) owns(wtf8_mark(&s) == WTF8_OK, &s);
        owns(wtf8_push_units(&s, units, n) == WTF8_OK, &s);
        owns(wtf8_insert(&s, 0, &s) == WTF8_OK, &s);
        owns(wtf8_slice_units(&s, &s, 0, n) == WTF8_OK, &s);
        wtf8_move(&other, &s);
        owns(true, &other);
        must(s.words[0] == 0, "word 0 of a string that was moved");
        wtf8_move(&s, &other);
        owns(wtf8_truncate_units(&s, 0) == WTF8_OK, &s);
        wtf8_shrink(&s);
        owns(true, &s);
        owns(wtf8_push_units(&s, units, n) == WTF8_OK, &s);
        wtf8_clear(&s);
        owns(true, &s);
        wtf8_free(&s);
        owns_nothing(&s);
    }
    is_refused = true;
    owns(wtf8_set_units(&s, units, n) == WTF8_NO_MEMORY && wtf8_push_units(&s, units, n) == WTF8_NO_MEMORY, &s);
    is_refused = false;
    wtf8_free(&s);
    owns_nothing(&s);
}

int main(void) {
    static const uint16_t kinds[] = {'a', 0xE9, 0x4E2D, 0xD83D};
    static const size_t lengths[] = {1, 12, LONGEST};
    uint16_t units[LONGEST];
    wtf8_use_memory(allocate, reallocate, release);
    for (size_t k = 0; k < 4 * 3; k++) {
        for (size_t i = 0; i < LONGEST; i++) units[i] = kinds[k / 3];
        changes(units, lengths[k % 3]);
    }
    printf("wtf8_string: owns nothing if word 0 is 0\n");
    return 0;
}
