/* The proved library: a new string by wtf8_set_units or wtf8_set_utf8, and wtf8_copy_units. */
#include "side.h"
#include "wtf8.h"

#include <stdlib.h>

bool side_can_run(void) {
    return true;
}

bool side_in(const uint16_t *units, size_t n) {
    wtf8_string string = WTF8_EMPTY;
    wtf8_result code = wtf8_set_units(&string, units, n);
    wtf8_free(&string);
    return code == WTF8_OK;
}

bool side_text(const uint8_t *text, size_t n) {
    wtf8_string string = WTF8_EMPTY;
    wtf8_result code = wtf8_set_utf8(&string, text, n, NULL);
    wtf8_free(&string);
    return code == WTF8_OK;
}

void *side_make(const uint16_t *units, size_t n) {
    wtf8_string *string = calloc(1, sizeof *string);
    if (string == NULL || wtf8_set_units(string, units, n) != WTF8_OK) abort();
    return string;
}

void side_free(void *string) {
    wtf8_free(string);
    free(string);
}

size_t side_byte_len(const void *string) {
    return wtf8_byte_len(string);
}

size_t side_out(const void *string, uint16_t *out, size_t size) {
    size_t len;
    return wtf8_copy_units(string, out, size, &len) == WTF8_OK ? len : 0;
}
