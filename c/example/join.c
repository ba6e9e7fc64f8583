#include <stdio.h>
#include <wtf8.h>

int main(void) {
    const uint16_t front[] = {'a', 0xD83D}, back = 0xDCA9;
    uint8_t text[9];
    size_t n;
    wtf8_string s = WTF8_EMPTY;
    if (wtf8_push_units(&s, front, 2) != WTF8_OK) return 1;
    if (wtf8_push_unit(&s, back) != WTF8_OK) return 1;
    if (wtf8_copy_utf8(&s, text, 9, &n) != WTF8_OK) return 1;
    printf("%zu units: %.*s\n", wtf8_unit_len(&s), (int)n, (char *)text);
    wtf8_free(&s);
}
