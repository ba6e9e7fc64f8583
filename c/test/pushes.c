/* Pushes ASCII units to a string that has room for them: their number is read from the input. gate/instructions counts
 * what it takes. */
#include "../wtf8.h"

#include <stdio.h>

int main(void) {
    wtf8_string string = WTF8_EMPTY;
    size_t n, bad = 0;
    if (scanf("%zu", &n) != 1 || wtf8_reserve_bytes(&string, n) != WTF8_OK) return 1;
    for (size_t i = 0; i < n; i++) bad += wtf8_push_unit(&string, 'a') != WTF8_OK;
    bad += wtf8_byte_len(&string) != n;
    wtf8_free(&string);
    return bad != 0;
}
