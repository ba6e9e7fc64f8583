#include <stdio.h>
#include <string.h>
#include <wtf8.h>

// Appends what the stream has left, with one U+FFFD for each part that is not UTF-8.
static wtf8_result push_stream(wtf8_string *s, FILE *stream) {
    uint8_t bytes[8];
    size_t left = 0, read, used;
    do {
        read = fread(bytes + left, 1, sizeof bytes - left, stream);
        left += read;
        wtf8_result code = wtf8_push_utf8_lossy_part(s, bytes, left, &used);
        if (code != WTF8_OK) return code;
        left -= used;
        memmove(bytes, bytes + used, left); // the front of a code point waits for the rest
    } while (read > 0);
    return wtf8_push_utf8_lossy(s, bytes, left);
}

int main(void) {
    uint8_t text[99];
    size_t n;
    wtf8_string s = WTF8_EMPTY;
    if (push_stream(&s, stdin) != WTF8_OK) return 1;
    if (wtf8_copy_utf8(&s, text, sizeof text, &n) != WTF8_OK) return 1;
    printf("%zu units: %.*s\n", wtf8_unit_len(&s), (int)n, (char *)text);
    wtf8_free(&s);
}
