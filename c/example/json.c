#include <stdio.h>
#include <string.h>
#include <wtf8.h>

// Writes text in UTF-8, with escapes for what JSON does not take as it is.
static void write_text(FILE *out, const uint8_t *text, size_t n) {
    for (size_t i = 0; i < n; i++) {
        int is_escaped = text[i] < 0x20 || text[i] == '"' || text[i] == '\\';
        fprintf(out, is_escaped ? "\\u%04x" : "%c", text[i]);
    }
}

// Writes a string as JSON, with escapes for lone surrogates. In the lossy text each of these has 3 bytes too.
static int write_json(FILE *out, const wtf8_string *s) {
    uint8_t text[99];
    size_t n, begin = 0, end = 0;
    uint16_t surrogate;
    if (wtf8_copy_lossy(s, text, sizeof text, &n) != WTF8_OK) return 0;
    for (; wtf8_next_surrogate(s, &end, &surrogate) == WTF8_OK; begin = end) {
        write_text(out, text + begin, end - 3 - begin);
        fprintf(out, "\\u%04x", surrogate);
    }
    write_text(out, text + begin, n - begin);
    return 1;
}

// Appends the string that such JSON stands for. Returns 0 if it is wrong.
static int read_json(wtf8_string *s, const char *json) {
    for (;; json += 6) {
        size_t n = strcspn(json, "\\"), valid;
        unsigned unit;
        if (wtf8_push_utf8(s, (const uint8_t *)json, n, &valid) != WTF8_OK) return 0;
        json += n;
        if (*json == 0) return 1;
        if (strncmp(json, "\\u", 2) != 0 || strspn(json + 2, "0123456789ABCDEFabcdef") < 4) return 0;
        if (sscanf(json + 2, "%4x", &unit) != 1 || wtf8_push_unit(s, (uint16_t)unit) != WTF8_OK) return 0;
    }
}

int main(void) {
    const uint16_t units[] = {'"', 0xD83D, 'a', 0xE9, 0xDCA9, 0xD83D, 0xDCA9};
    char json[99];
    wtf8_string s = WTF8_EMPTY, again = WTF8_EMPTY;
    if (wtf8_push_units(&s, units, 7) != WTF8_OK) return 1;
    FILE *file = tmpfile();
    if (!file || !write_json(file, &s)) return 1;
    rewind(file);
    json[fread(json, 1, sizeof json - 1, file)] = 0;
    if (!read_json(&again, json)) return 1;
    printf("\"%s\" is read as %s\n", json, wtf8_equal(&s, &again) ? "the same string" : "another");
    wtf8_free(&s);
    wtf8_free(&again);
}
