// simdutf, by the implementation that IMPLEMENTATION names. On the way in it finds the length, allocates, and checks the
// units while it converts them; on the way out it takes the bytes for valid; a text is validated and copied.

#include "bytes.h"
#include "side.h"
#include "simdutf.h"

#include <cstdlib>
#include <cstring>

namespace {

const simdutf::implementation *const chosen = simdutf::get_available_implementations()[IMPLEMENTATION];

const char16_t *as_char16(const uint16_t *units) { return reinterpret_cast<const char16_t *>(units); }

} // namespace

bool side_can_run(void) { return chosen != nullptr && chosen->supported_by_runtime_system(); }

bool side_in(const uint16_t *units, size_t n) {
    size_t len = chosen->utf8_length_from_utf16le(as_char16(units), n);
    char *bytes = static_cast<char *>(std::malloc(len));
    size_t written = chosen->convert_utf16le_to_utf8(as_char16(units), n, bytes);
    use(bytes);
    std::free(bytes);
    return written != 0;
}

bool side_text(const uint8_t *text, size_t n) {
    if (!chosen->validate_utf8(reinterpret_cast<const char *>(text), n)) return false;
    void *bytes = std::malloc(n);
    std::memcpy(bytes, text, n);
    use(bytes);
    std::free(bytes);
    return true;
}

void *side_make(const uint16_t *units, size_t n) {
    size_t len = chosen->utf8_length_from_utf16le(as_char16(units), n);
    bytes *string = static_cast<bytes *>(std::malloc(sizeof(bytes) + len));
    if (string == nullptr) std::abort();
    string->n = chosen->convert_utf16le_to_utf8(as_char16(units), n, reinterpret_cast<char *>(string->at));
    if (string->n != 0) return string;
    std::free(string);
    return nullptr;
}

void side_free(void *string) { std::free(string); }

size_t side_byte_len(const void *string) { return static_cast<const bytes *>(string)->n; }

size_t side_out(const void *string, uint16_t *out, size_t) {
    const bytes *from = static_cast<const bytes *>(string);
    return chosen->convert_valid_utf8_to_utf16le(reinterpret_cast<const char *>(from->at), from->n, reinterpret_cast<char16_t *>(out));
}
