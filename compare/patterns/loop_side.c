/* Loops over units and over bytes, as a C programmer writes them. */
#include "bytes.h"
#include "side.h"

#include <stdlib.h>
#include <string.h>

static bool is_lead(uint32_t unit) {
    return (unit & 0xFC00) == 0xD800;
}

static bool is_trail(uint32_t unit) {
    return (unit & 0xFC00) == 0xDC00;
}

/* Writes the WTF-8 of units, and returns the end of its bytes. */
static unsigned char *encode(const uint16_t *units, size_t n, unsigned char *out) {
    const uint16_t *end = units + n;
    while (units < end) {
        uint32_t unit = *units++;
        if (unit < 0x80) {
            *out++ = (unsigned char)unit;
        } else if (unit < 0x800) {
            out[0] = (unsigned char)(0xC0 | unit >> 6);
            out[1] = (unsigned char)(0x80 | (unit & 0x3F));
            out += 2;
        } else if (is_lead(unit) && units < end && is_trail(*units)) {
            uint32_t point = 0x10000 + ((unit & 0x3FF) << 10 | (*units++ & 0x3FF));
            out[0] = (unsigned char)(0xF0 | point >> 18);
            out[1] = (unsigned char)(0x80 | (point >> 12 & 0x3F));
            out[2] = (unsigned char)(0x80 | (point >> 6 & 0x3F));
            out[3] = (unsigned char)(0x80 | (point & 0x3F));
            out += 4;
        } else {
            out[0] = (unsigned char)(0xE0 | unit >> 12);
            out[1] = (unsigned char)(0x80 | (unit >> 6 & 0x3F));
            out[2] = (unsigned char)(0x80 | (unit & 0x3F));
            out += 3;
        }
    }
    return out;
}

/* Writes the units of well-formed WTF-8, and returns the end of them. */
static uint16_t *decode(const unsigned char *bytes, size_t n, uint16_t *out) {
    const unsigned char *end = bytes + n;
    while (bytes < end) {
        uint32_t lead = bytes[0];
        if (lead < 0x80) {
            *out++ = (uint16_t)lead;
            bytes += 1;
        } else if (lead < 0xE0) {
            *out++ = (uint16_t)((lead & 0x1F) << 6 | (bytes[1] & 0x3F));
            bytes += 2;
        } else if (lead < 0xF0) {
            *out++ = (uint16_t)((lead & 0xF) << 12 | (uint32_t)(bytes[1] & 0x3F) << 6 | (bytes[2] & 0x3F));
            bytes += 3;
        } else {
            uint32_t point = (lead & 7) << 18 | (uint32_t)(bytes[1] & 0x3F) << 12 | (uint32_t)(bytes[2] & 0x3F) << 6 | (bytes[3] & 0x3F);
            out[0] = (uint16_t)(0xD7C0 + (point >> 10));
            out[1] = (uint16_t)(0xDC00 | (point & 0x3FF));
            out += 2;
            bytes += 4;
        }
    }
    return out;
}

/* The number of bytes of the code point at the front of a text, or 0 if there is none. */
static size_t code_point_len(const uint8_t *text, size_t n) {
    uint8_t lead = text[0];
    size_t len = lead < 0x80 ? 1 : lead < 0xE0 ? 2 : lead < 0xF0 ? 3 : 4;
    if ((0x80 <= lead && lead < 0xC2) || 0xF4 < lead || n < len) return 0;
    for (size_t i = 1; i < len; i++)
        if ((text[i] & 0xC0) != 0x80) return 0;
    if ((lead == 0xE0 && text[1] < 0xA0) || (lead == 0xED && 0x9F < text[1])) return 0;
    if ((lead == 0xF0 && text[1] < 0x90) || (lead == 0xF4 && 0x8F < text[1])) return 0;
    return len;
}

bool side_can_run(void) {
    return true;
}

bool side_text(const uint8_t *text, size_t n) {
    for (size_t i = 0; i < n;) {
        size_t len = code_point_len(text + i, n - i);
        if (len == 0) return false;
        i += len;
    }
    void *bytes = malloc(n);
    if (bytes == NULL) return false;
    memcpy(bytes, text, n);
    use(bytes);
    free(bytes);
    return true;
}

bool side_in(const uint16_t *units, size_t n) {
    unsigned char *bytes = malloc(3 * n);
    if (bytes == NULL) return false;
    encode(units, n, bytes);
    use(bytes);
    free(bytes);
    return true;
}

void *side_make(const uint16_t *units, size_t n) {
    struct bytes *string = malloc(sizeof *string + 3 * n);
    if (string == NULL) abort();
    string->n = (size_t)(encode(units, n, string->at) - string->at);
    return string;
}

void side_free(void *string) {
    free(string);
}

size_t side_byte_len(const void *string) {
    return ((const struct bytes *)string)->n;
}

/* The array has room for the units, so they are not counted first. */
size_t side_out(const void *string, uint16_t *out, size_t size) {
    const struct bytes *bytes = string;
    (void)size;
    return (size_t)(decode(bytes->at, bytes->n, out) - out);
}
