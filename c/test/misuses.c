/* Misuses of calls, one for each number, that a compiler warns of if it knows the attributes of wtf8.h: from 10 on gcc and clang
 * do. Number 0 is right. */
#include "../wtf8.h"

#include <stdlib.h>

enum { UNITS = 4 };

wtf8_string string;

/* Whether the call that was misused returned OK. */
static int misuse(void) {
#if MISUSE == 0
    uint16_t units[UNITS] = {'a', 'b', 'c', 'd'};
    size_t n;
    wtf8_mark(&string);
#if 201703L <= __cplusplus || 201710L < __STDC_VERSION__
    (void)wtf8_push_unit(&string, 'a');
    (void)wtf8_is_utf8(&string);
#endif
    if (wtf8_push_units(&string, units, UNITS) != WTF8_OK || wtf8_push_units(&string, NULL, 0) != WTF8_OK) return 0;
    if (wtf8_set_utf8(&string, (const uint8_t *)"abcd", UNITS, NULL) != WTF8_OK) return 0;
    return wtf8_copy_units(&string, NULL, 0, &n) != WTF8_OK && wtf8_copy_units(&string, units, UNITS, &n) == WTF8_OK;
#elif MISUSE == 1 /* a string that was never made empty is changed */
    wtf8_string unmade;
    return wtf8_push_unit(&unmade, 'a') == WTF8_OK;
#elif MISUSE == 2 /* such a string is asked */
    wtf8_string unmade;
    return wtf8_unit_len(&unmade) == 0;
#elif MISUSE == 3 /* units are read after an array */
    const uint16_t units[UNITS] = {'a', 'b', 'c', 'd'};
    return wtf8_push_units(&string, units, UNITS + 1) == WTF8_OK;
#elif MISUSE == 4 /* units are written after an array */
    uint16_t units[UNITS];
    size_t n;
    return wtf8_copy_units(&string, units, 2 * UNITS, &n) == WTF8_OK;
#elif MISUSE == 5 /* units that were never written are read */
    uint16_t units[UNITS];
    return wtf8_push_units(&string, units, UNITS) == WTF8_OK;
#elif MISUSE == 6 /* units are read of no array */
    return wtf8_push_units(&string, NULL, UNITS) == WTF8_OK;
#elif MISUSE == 7 /* a number is written to half of its bytes */
    uint16_t units[UNITS];
    uint32_t half;
    return wtf8_copy_units(&string, units, UNITS, (size_t *)(void *)&half) == WTF8_OK;
#elif MISUSE == 8 /* bytes are written after a block */
    uint8_t *text = malloc(UNITS);
    size_t n;
    int is_written = text != NULL && wtf8_copy_utf8(&string, text, 2 * UNITS, &n) == WTF8_OK;
    free(text);
    return is_written;
#elif MISUSE == 9 /* a walk begins at a position that was never written */
    size_t position;
    uint32_t code_point;
    return wtf8_next_code_point(&string, &position, &code_point) == WTF8_OK;
#elif MISUSE == 10 /* no string is changed */
    return wtf8_push_unit(NULL, 'a') == WTF8_OK;
#elif MISUSE == 11 /* no string is asked */
    return wtf8_unit_len(NULL) == 0;
#elif MISUSE == 12 /* no other string is appended */
    return wtf8_push_string(&string, NULL) == WTF8_OK;
#elif MISUSE == 13 /* no number is written */
    return wtf8_copy_units(&string, NULL, 0, NULL) == WTF8_OK;
#elif MISUSE == 14 /* a walk begins at no position */
    uint32_t code_point;
    return wtf8_next_code_point(&string, NULL, &code_point) == WTF8_OK;
#elif MISUSE == 15 /* no function is used */
    wtf8_use_memory(malloc, realloc, NULL);
    return 0;
#elif MISUSE == 16 /* a code is not looked at */
    wtf8_push_unit(&string, 'a');
    return 0;
#elif MISUSE == 17 /* an answer is not looked at */
    wtf8_is_utf8(&string);
    return 0;
#endif
}

int main(void) {
    return misuse();
}
