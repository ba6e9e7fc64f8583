/* Has callgrind write a dump of what each call takes over strings of each length: of 1 to 130 units, or of a text of 1 to
 * 200 bytes. c/lengths compares them. Argument: the text, as for test/loops.c. */
#include "../wtf8.h"
#include "must.h"
#include "patterns.h"

#include <string.h>
#include <valgrind/callgrind.h>

enum { UNITS = 130, BYTES = 200, ROOM = 4 * BYTES };

static uint16_t units[ROOM], out[ROOM];
static uint8_t text[3 * ROOM];
static volatile uint64_t answer; /* what a call returned, so that it is made */

/* The name of a dump: the call, and the length. */
#define COUNT(name, n, call)                                     \
    do {                                                         \
        char line[64];                                           \
        snprintf(line, sizeof line, "%s %d", name, (int)(n));    \
        CALLGRIND_ZERO_STATS;                                    \
        answer = (uint64_t)(call);                               \
        CALLGRIND_DUMP_STATS_AT(line);                           \
    } while (0)

static wtf8_string s, set, new;

static void over_units(size_t n) {
    size_t len;
    must(wtf8_set_units(&s, units, n) == WTF8_OK && wtf8_reserve_bytes(&set, ROOM) == WTF8_OK, "strings");
    COUNT("set_units", n, wtf8_set_units(&set, units, n));
    wtf8_clear(&set);
    COUNT("push_units", n, wtf8_push_units(&set, units, n));
    wtf8_free(&new);
    COUNT("new_units", n, wtf8_set_units(&new, units, n));
    COUNT("hash_units", n, wtf8_hash_units(units, n, 1, 2));
    COUNT("equal_units", n, wtf8_equal_units(&s, units, n));
    COUNT("copy_units", n, wtf8_copy_units(&s, out, n, &len));
}

static void over_text(size_t n) {
    must(wtf8_set_utf8(&s, text, n, NULL) == WTF8_OK && wtf8_reserve_bytes(&set, ROOM) == WTF8_OK, "strings");
    COUNT("set_utf8", n, wtf8_set_utf8(&set, text, n, NULL));
    COUNT("equal_utf8", n, wtf8_equal_utf8(&s, text, n));
}

/* Each twice: what a first call alone takes, as to bind a symbol, is left out then. */
int main(int argc, char **argv) {
    size_t whole;
    must(argc == 2 && is_pattern(argv[1]), "a pattern");
    fill_by_pattern(argv[1], units, ROOM);
    for (size_t n = 1; n <= 2 * UNITS; n++) over_units((n + 1) / 2);
    must(wtf8_set_units(&s, units, ROOM) == WTF8_OK, "a long string");
    if (!wtf8_is_utf8(&s)) return 0;
    must(wtf8_copy_utf8(&s, text, 3 * ROOM, &whole) == WTF8_OK && BYTES < whole, "its text");
    for (size_t n = 2; n <= 2 * BYTES; n++)
        if ((text[n / 2] & 0xC0) != 0x80) over_text(n / 2);
    return 0;
}
