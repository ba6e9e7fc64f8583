// Conversions by simdutf: each round finds the length of the result, allocates, converts and frees.

#include "simdutf.h"

#include <cstdint>
#include <cstdlib>

namespace {

const simdutf::implementation *chosen = nullptr;

// Keeps the compiler from removing the stores to a block that is freed.
void use(const void *block) { asm volatile("" : : "r"(block) : "memory"); }

} // namespace

extern "C" {

// Chooses an implementation. Returns whether there is one with the name and the processor can run it.
bool simdutf_calls_choose(const char *name, size_t name_len) {
    chosen = simdutf::get_available_implementations()[std::string(name, name_len)];
    return chosen != nullptr && chosen->supported_by_runtime_system();
}

const char *simdutf_calls_version() { return SIMDUTF_VERSION; }

const char *simdutf_calls_compiler() { return __VERSION__; }

// Converts units to bytes, and returns the sum over all rounds of the number of bytes; each round adds 0 if a surrogate
// is lone.
uint64_t simdutf_calls_units_to_bytes(const char16_t *units, size_t units_len, uint32_t rounds) {
    uint64_t sum = 0;
    for (uint32_t round = 0; round < rounds; ++round) {
        size_t len = chosen->utf8_length_from_utf16le(units, units_len);
        char *bytes = static_cast<char *>(std::malloc(len));
        sum += chosen->convert_utf16le_to_utf8(units, units_len, bytes);
        use(bytes);
        std::free(bytes);
    }
    return sum;
}

// Converts bytes, which are UTF-8, to units, and returns the sum over all rounds of the number of units.
uint64_t simdutf_calls_bytes_to_units(const char *bytes, size_t bytes_len, uint32_t rounds) {
    uint64_t sum = 0;
    for (uint32_t round = 0; round < rounds; ++round) {
        size_t len = chosen->utf16_length_from_utf8(bytes, bytes_len);
        char16_t *units = static_cast<char16_t *>(std::malloc(2 * len));
        sum += chosen->convert_valid_utf8_to_utf16le(bytes, bytes_len, units);
        use(units);
        std::free(units);
    }
    return sum;
}
}
