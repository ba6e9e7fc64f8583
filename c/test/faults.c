/* Faults of a caller, of which each sanitizer must name its own. Argument: the fault's name, or `none`. Addresses are volatile
 * where the compiler would warn of the fault. */
#define _DEFAULT_SOURCE
#include "../wtf8.h"
#include "must.h"

#include <pthread.h>
#include <string.h>
#include <unistd.h>

enum { UNITS = 64 };

static wtf8_string shared = WTF8_EMPTY;
static uint16_t units[UNITS];

/* Calls that keep every duty, and what they write is read. */
static void none(void) {
    wtf8_string s = WTF8_EMPTY, t = WTF8_EMPTY;
    uint16_t *out = malloc(sizeof units), unit;
    uint8_t text[4], *lossy = malloc(3 * UNITS);
    uint32_t point;
    size_t n, position = 0, valid;
    must(out != NULL && lossy != NULL, "memory");
    must(wtf8_set_units(&s, units, UNITS) == WTF8_OK && wtf8_push_unit(&s, 0xD800) == WTF8_OK, "units");
    must(wtf8_copy_units(&s, NULL, 0, &n) == WTF8_ARRAY_TOO_SHORT && n == UNITS + 1, "the length");
    must(wtf8_copy_slice(&s, 0, UNITS, out, UNITS, &n) == WTF8_OK && n == UNITS, "a slice");
    must(memcmp(out, units, sizeof units) == 0, "the units of a slice");
    must(wtf8_copy_lossy(&s, lossy, 3 * UNITS, &n) == WTF8_OK && n == UNITS + 3, "the lossy text");
    must(lossy[n - 3] == 0xEF, "U+FFFD");
    must(wtf8_unit_at(&s, UNITS, &unit) == WTF8_OK && unit == 0xD800, "a unit");
    must(wtf8_position_at(&s, 9, &position) == WTF8_OK && position == 9, "a position");
    must(wtf8_next_code_point(&s, &position, &point) == WTF8_OK && position == 10 && point == 'a', "a step");
    must(wtf8_previous_code_point(&s, &position, &point) == WTF8_OK && position == 9 && point == 'a', "a step back");
    must(wtf8_pop(&s, &point) == WTF8_OK && point == 0xD800, "the last code point");
    must(wtf8_set_utf8(&t, (const uint8_t *)"ab\xFF", 3, &valid) == WTF8_NOT_UTF8 && valid == 2, "not UTF-8");
    must(wtf8_push_utf8(&t, (const uint8_t *)"ab\xFF", 3, NULL) == WTF8_NOT_UTF8, "not UTF-8 again");
    must(wtf8_slice_units(&t, &s, 1, 3) == WTF8_OK && wtf8_equal_units(&t, units, 2), "equal units");
    must(wtf8_copy_utf8(&t, text, 4, &n) == WTF8_OK && n == 2 && text[1] == 'a', "the text");
    must(wtf8_memory_in_use().context == NULL, "the functions in use");
    wtf8_free(&t);
    wtf8_free(&s);
    free(lossy);
    free(out);
}

/* 64 units are copied into 20 bytes. */
static void short_to_write(void) {
    size_t n;
    uint16_t *volatile out = malloc(20);
    must(out != NULL && wtf8_copy_units(&shared, out, UNITS, &n) == WTF8_OK, "units copied");
}

/* 11 units are read of 10. */
static void short_to_read(void) {
    uint16_t *volatile array = calloc(10, 2);
    must(array != NULL && wtf8_push_units(&shared, array, 11) == WTF8_OK, "units pushed");
}

/* The units of an array that was freed are read. */
static void freed(void) {
    uint16_t *volatile array = calloc(10, 2);
    free(array);
    must(wtf8_push_units(&shared, array, 10) == WTF8_OK, "units pushed");
}

/* A string in a block that was freed is asked. */
static void freed_string(void) {
    wtf8_string *volatile string = calloc(1, sizeof *string);
    free(string);
    must(wtf8_unit_len(string) == 0, "the length");
}

/* A number is written after its array. */
static void short_number(void) {
    uint8_t *volatile number = malloc(sizeof(size_t) - 1);
    must(number != NULL && wtf8_position_at(&shared, 0, (size_t *)(void *)number) == WTF8_OK, "a position");
}

static void *change(void *unused) {
    usleep(100000);
    must(wtf8_push_unit(&shared, 'b') == WTF8_OK, "a unit pushed");
    return unused;
}

static void *write_array(void *unused) {
    usleep(100000);
    units[9] = 'b';
    return unused;
}

/* Asks the string while the other thread may work, which begins later, but waits for nothing. */
static void ask_beside(void *(*work)(void *)) {
    pthread_t other;
    must(pthread_create(&other, NULL, work, NULL) == 0, "a thread");
    must(wtf8_equal_units(&shared, units, UNITS), "equal units");
    pthread_join(other, NULL);
}

/* One thread changes a string that another asks. */
static void race(void) {
    ask_beside(change);
}

/* One thread writes an array that a call of another reads. */
static void array_race(void) {
    ask_beside(write_array);
}

/* What is done with a string that is no longer one. */
static void ask(wtf8_string *string) { must(wtf8_unit_len(string) < SIZE_MAX, "the length"); }
static void push(wtf8_string *string) { must(wtf8_push_unit(string, 'b') == WTF8_OK, "a unit pushed"); }

/* A string is used after the other of two structs freed it. */
static void assigned_and_freed(void (*use)(wtf8_string *)) {
    wtf8_string other = shared;
    wtf8_free(&other);
    use(&shared);
}

static void freed_then_asked(void) { assigned_and_freed(ask); }
static void freed_then_pushed(void) { assigned_and_freed(push); }
static void freed_then_freed(void) { assigned_and_freed(wtf8_free); }

/* The same after the other of two structs grew. */
static void assigned_and_grown(void (*use)(wtf8_string *)) {
    wtf8_string other = shared;
    for (int i = 0; i < 99; i++) must(wtf8_push_units(&other, units, UNITS) == WTF8_OK, "units pushed");
    use(&shared);
}

static void grown_then_asked(void) { assigned_and_grown(ask); }
static void grown_then_pushed(void) { assigned_and_grown(push); }
static void grown_then_freed(void) { assigned_and_grown(wtf8_free); }

/* A string that was not made empty is used. */
static void not_made(void (*use)(wtf8_string *)) {
    wtf8_string *volatile string = malloc(sizeof *string);
    must(string != NULL, "memory");
    use(string);
}

static void not_made_asked(void) { not_made(ask); }
static void not_made_pushed(void) { not_made(push); }
static void not_made_freed(void) { not_made(wtf8_free); }

/* No string is asked, and no number is written. */
static void null_string(void) {
    wtf8_string *volatile string = NULL;
    ask(string);
}

static void null_number(void) {
    size_t *volatile number = NULL;
    must(wtf8_position_at(&shared, 0, number) == WTF8_OK, "a position");
}

/* The units of an array are read before they are written. */
static void unwritten(void) {
    uint16_t *volatile array = malloc(20);
    must(array != NULL && wtf8_push_units(&shared, array, 10) == WTF8_OK, "units pushed");
}

static const struct {
    const char *name;
    void (*plant)(void);
} faults[] = {{"none", none},
              {"short_to_write", short_to_write},
              {"short_to_read", short_to_read},
              {"freed", freed},
              {"freed_string", freed_string},
              {"short_number", short_number},
              {"race", race},
              {"array_race", array_race},
              {"freed_then_asked", freed_then_asked},
              {"freed_then_pushed", freed_then_pushed},
              {"freed_then_freed", freed_then_freed},
              {"grown_then_asked", grown_then_asked},
              {"grown_then_pushed", grown_then_pushed},
              {"grown_then_freed", grown_then_freed},
              {"not_made_asked", not_made_asked},
              {"not_made_pushed", not_made_pushed},
              {"not_made_freed", not_made_freed},
              {"null_string", null_string},
              {"null_number", null_number},
              {"unwritten", unwritten}};

int main(int count, char **words) {
    must(count == 2, "one argument");
    for (size_t i = 0; i < UNITS; i++) units[i] = 'a';
    must(wtf8_set_units(&shared, units, UNITS) == WTF8_OK, "units");
    for (size_t i = 0; i < sizeof faults / sizeof *faults; i++)
        if (strcmp(words[1], faults[i].name) == 0) {
            faults[i].plant();
            wtf8_free(&shared);
            return 0;
        }
    must(0, "a fault of this name");
}
