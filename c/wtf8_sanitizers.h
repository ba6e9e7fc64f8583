/*
 * wtf8.h includes this in a program that is built with AddressSanitizer, ThreadSanitizer or MemorySanitizer, which see
 * nothing of what the library does: each call tells them what it reads and writes. So the line of a call is reported
 * whose array is shorter than its size says or was freed, or which changes a string while another thread uses it, and
 * what a call wrote counts as initialized. Also that of a call with a string that was never made empty, or whose block
 * another struct, assigned from it or to it, has freed or moved.
 */
#ifndef WTF8_SANITIZERS_H
#define WTF8_SANITIZERS_H

#include "wtf8.h"

#ifdef __cplusplus
extern "C" {
#endif

#ifdef __cplusplus
#define WTF8_INLINE inline __attribute__((always_inline))
#define WTF8_VARIABLE(at) const_cast<void *>(at)
#define WTF8_SIGNED(n) static_cast<intptr_t>(n)
#else
#define WTF8_INLINE static inline __attribute__((always_inline))
#define WTF8_VARIABLE(at) (void *)(intptr_t)(at)
#define WTF8_SIGNED(n) (intptr_t)(n)
#endif

/* An address as the sanitizers take it. */
WTF8_INLINE void *wtf8_at(const void *at) {
    return WTF8_VARIABLE(at);
}

#ifdef WTF8_WITH_ADDRESS
void *__asan_region_is_poisoned(void *at, size_t n);
void __asan_load1_noabort(void *at);
void __asan_store1_noabort(void *at);

/* A byte that is read or written at a given address is what the sanitizer names exactly. */
WTF8_INLINE void wtf8_can_read(const void *at, size_t n) {
    void *bad = __asan_region_is_poisoned(wtf8_at(at), n);
    if (bad) __asan_load1_noabort(bad);
}

WTF8_INLINE void wtf8_can_write(const void *at, size_t n) {
    void *bad = __asan_region_is_poisoned(wtf8_at(at), n);
    if (bad) __asan_store1_noabort(bad);
}

#define WTF8_CAN_READ(at, n) wtf8_can_read(at, n)
#define WTF8_CAN_WRITE(at, n) wtf8_can_write(at, n)
#else
#define WTF8_CAN_READ(at, n) (void)(n)
#define WTF8_CAN_WRITE(at, n) (void)(n)
#endif

#ifdef WTF8_WITH_THREAD
void __tsan_read_range(void *at, intptr_t n);
void __tsan_write_range(void *at, intptr_t n);
#define WTF8_READ(at, n) __tsan_read_range(wtf8_at(at), WTF8_SIGNED(n))
#define WTF8_WRITTEN(at, n) __tsan_write_range(wtf8_at(at), WTF8_SIGNED(n))
#else
#define WTF8_READ(at, n) (void)(n)
#define WTF8_WRITTEN(at, n) (void)(n)
#endif

#ifdef WTF8_WITH_MEMORY
void __msan_check_mem_is_initialized(const volatile void *at, size_t n);
void __msan_unpoison(const volatile void *at, size_t n);
#define WTF8_INITIALIZED(at, n) __msan_check_mem_is_initialized(at, n)
#define WTF8_INITIALIZES(at, n) __msan_unpoison(at, n)
#else
#define WTF8_INITIALIZED(at, n) (void)(n)
#define WTF8_INITIALIZES(at, n) (void)(n)
#endif

/* A call reads `n` bytes. */
WTF8_INLINE void wtf8_reads(const void *at, size_t n) {
    WTF8_CAN_READ(at, n);
    WTF8_READ(at, n);
    WTF8_INITIALIZED(at, n);
}

/* A call may write up to `n` bytes: none to an address that is NULL. */
WTF8_INLINE void wtf8_may_write(const void *at, size_t n) {
    (void)at;
    WTF8_CAN_WRITE(at, n);
}

/* A call wrote `n` bytes. */
WTF8_INLINE void wtf8_wrote(const void *at, size_t n) {
    (void)at;
    WTF8_WRITTEN(at, n);
    WTF8_INITIALIZES(at, n);
}

/* The block of a string, NULL if it has none. For this file alone: what a block holds is no interface. Since 0.3.0. */
const void *wtf8_block(const wtf8_string *string);

/* The struct of a string is initialized, and its block is there. */
WTF8_INLINE void wtf8_is_made(const wtf8_string *string) {
    (void)string;
    WTF8_INITIALIZED(string, sizeof *string);
#ifdef WTF8_WITH_ADDRESS
    const void *block = wtf8_block(string);
    if (block) wtf8_can_read(block, 1);
#endif
}

/* A call asks the string. */
WTF8_INLINE void wtf8_asks(const wtf8_string *string) {
    WTF8_CAN_READ(string, sizeof *string);
    WTF8_READ(string, sizeof *string);
    wtf8_is_made(string);
}

/* A call changes the string. */
WTF8_INLINE void wtf8_changes(const wtf8_string *string) {
    WTF8_CAN_WRITE(string, sizeof *string);
    WTF8_WRITTEN(string, sizeof *string);
    wtf8_is_made(string);
}

/* A call that copies out wrote the number of its elements, of `size` bytes each, to `*len`, and then the elements, unless
 * the array was too short. */
WTF8_INLINE void wtf8_copied(wtf8_result code, const void *out, size_t size, const size_t *len) {
    if (code != WTF8_OK && code != WTF8_ARRAY_TOO_SHORT) return;
    wtf8_wrote(len, sizeof *len);
    if (code == WTF8_OK) wtf8_wrote(out, *len * size);
}

/* A call wrote where the units or the bytes are not what they must be to `*valid`, unless that is NULL, if it says so. */
WTF8_INLINE void wtf8_not(wtf8_result code, wtf8_result says, const size_t *valid) {
    if (code == says && valid) wtf8_wrote(valid, sizeof *valid);
}

/* A step of a walk wrote both numbers, unless it failed. */
WTF8_INLINE void wtf8_walked(wtf8_result code, const size_t *position, const uint32_t *code_point) {
    if (code != WTF8_OK) return;
    wtf8_wrote(position, sizeof *position);
    wtf8_wrote(code_point, sizeof *code_point);
}

/* The call that tells. Its name takes the place of the library's at the end. */
#define WTF8_TELLS(result, name, parameters, arguments, before)   \
    WTF8_INLINE result wtf8_told_##name parameters {              \
        before;                                                   \
        return wtf8_##name arguments;                             \
    }
#define WTF8_TELLS_CODE(name, parameters, arguments, before)      \
    WTF8_CODE WTF8_TELLS(wtf8_result, name, parameters, arguments, before)
#define WTF8_TELLS_BOOL(name, parameters, arguments, before)      \
    WTF8_CODE WTF8_TELLS(bool, name, parameters, arguments, before)
#define WTF8_TELLS_VOID(name, parameters, arguments, before)      \
    WTF8_INLINE void wtf8_told_##name parameters {                \
        before;                                                   \
        wtf8_##name arguments;                                    \
    }
#define WTF8_TELLS_AFTER(name, parameters, arguments, before, after) \
    WTF8_CODE WTF8_INLINE wtf8_result wtf8_told_##name parameters {  \
        before;                                                      \
        wtf8_result code = wtf8_##name arguments;                    \
        after;                                                       \
        return code;                                                 \
    }

/* The library. */
WTF8_INLINE wtf8_memory wtf8_told_memory_in_use(void) {
    wtf8_memory memory = wtf8_memory_in_use();
    wtf8_wrote(&memory, sizeof memory);
    return memory;
}

/* Making a string. */
WTF8_TELLS(size_t, encoded_len, (const uint16_t *units, size_t n), (units, n), wtf8_reads(units, n * 2))
WTF8_TELLS_AFTER(utf8_unit_len, (const uint8_t *text, size_t n, size_t *len, size_t *valid), (text, n, len, valid),
                 wtf8_reads(text, n); wtf8_may_write(len, sizeof *len); wtf8_may_write(valid, valid ? sizeof *valid : 0),
                 if (code == WTF8_OK) wtf8_wrote(len, sizeof *len);
                 wtf8_not(code, WTF8_NOT_UTF8, valid))
WTF8_TELLS_CODE(set_units, (wtf8_string *string, const uint16_t *units, size_t n), (string, units, n),
           wtf8_changes(string); wtf8_reads(units, n * 2))
WTF8_TELLS_AFTER(set_utf8, (wtf8_string *string, const uint8_t *text, size_t n, size_t *valid), (string, text, n, valid),
                 wtf8_changes(string); wtf8_reads(text, n); wtf8_may_write(valid, valid ? sizeof *valid : 0),
                 wtf8_not(code, WTF8_NOT_UTF8, valid))
WTF8_TELLS_CODE(set_latin1, (wtf8_string *string, const uint8_t *text, size_t n), (string, text, n),
           wtf8_changes(string); wtf8_reads(text, n))
WTF8_TELLS_CODE(set_string, (wtf8_string *string, const wtf8_string *other), (string, other),
           wtf8_changes(string); wtf8_asks(other))
WTF8_TELLS_VOID(move, (wtf8_string *string, wtf8_string *other), (string, other), wtf8_changes(string); wtf8_changes(other))
WTF8_TELLS_VOID(clear, (wtf8_string *string), (string), wtf8_changes(string))
WTF8_TELLS_VOID(free, (wtf8_string *string), (string), wtf8_changes(string))
WTF8_TELLS_CODE(reserve_bytes, (wtf8_string *string, size_t additional), (string, additional), wtf8_changes(string))
WTF8_TELLS_VOID(shrink, (wtf8_string *string), (string), wtf8_changes(string))
WTF8_TELLS(wtf8_result, mark, (wtf8_string *string), (string), wtf8_changes(string))

/* Appending. */
WTF8_TELLS_CODE(push_unit, (wtf8_string *string, uint16_t unit), (string, unit), wtf8_changes(string))
WTF8_TELLS_CODE(push_code_point, (wtf8_string *string, uint32_t value), (string, value), wtf8_changes(string))
WTF8_TELLS_CODE(push_code_points, (wtf8_string *string, const uint32_t *points, size_t n), (string, points, n),
           wtf8_changes(string); wtf8_reads(points, n * 4))
WTF8_TELLS_CODE(push_units, (wtf8_string *string, const uint16_t *units, size_t n), (string, units, n),
           wtf8_changes(string); wtf8_reads(units, n * 2))
WTF8_TELLS_CODE(push_latin1, (wtf8_string *string, const uint8_t *text, size_t n), (string, text, n),
           wtf8_changes(string); wtf8_reads(text, n))
WTF8_TELLS_AFTER(push_utf8, (wtf8_string *string, const uint8_t *text, size_t n, size_t *valid), (string, text, n, valid),
                 wtf8_changes(string); wtf8_reads(text, n); wtf8_may_write(valid, valid ? sizeof *valid : 0),
                 wtf8_not(code, WTF8_NOT_UTF8, valid))
WTF8_TELLS_AFTER(push_utf8_part, (wtf8_string *string, const uint8_t *text, size_t n, size_t *used, size_t *bad),
                 (string, text, n, used, bad), wtf8_changes(string); wtf8_reads(text, n);
                 wtf8_may_write(used, sizeof *used); wtf8_may_write(bad, sizeof *bad), if (code == WTF8_OK) {
                     wtf8_wrote(used, sizeof *used);
                     wtf8_wrote(bad, sizeof *bad);
                 })
WTF8_TELLS_CODE(push_utf8_lossy, (wtf8_string *string, const uint8_t *text, size_t n), (string, text, n),
           wtf8_changes(string); wtf8_reads(text, n))
WTF8_TELLS_AFTER(push_utf8_lossy_part, (wtf8_string *string, const uint8_t *text, size_t n, size_t *used),
                 (string, text, n, used), wtf8_changes(string); wtf8_reads(text, n);
                 wtf8_may_write(used, sizeof *used), if (code == WTF8_OK) wtf8_wrote(used, sizeof *used))
WTF8_TELLS_CODE(push_string, (wtf8_string *string, const wtf8_string *other), (string, other),
           wtf8_changes(string); wtf8_asks(other))
WTF8_TELLS_CODE(push_slice, (wtf8_string *string, const wtf8_string *other, size_t begin, size_t end),
           (string, other, begin, end), wtf8_changes(string); wtf8_asks(other))

/* Asking. */
WTF8_TELLS(size_t, unit_len, (const wtf8_string *string), (string), wtf8_asks(string))
WTF8_TELLS(size_t, byte_len, (const wtf8_string *string), (string), wtf8_asks(string))
WTF8_TELLS(size_t, capacity, (const wtf8_string *string), (string), wtf8_asks(string))
WTF8_TELLS_AFTER(position_at, (const wtf8_string *string, size_t index, size_t *position), (string, index, position),
                 wtf8_asks(string); wtf8_may_write(position, sizeof *position),
                 if (code == WTF8_OK) wtf8_wrote(position, sizeof *position))
WTF8_TELLS(size_t, unit_before, (const wtf8_string *string, size_t position), (string, position), wtf8_asks(string))
WTF8_TELLS_AFTER(unit_at, (const wtf8_string *string, size_t index, uint16_t *unit), (string, index, unit),
                 wtf8_asks(string); wtf8_may_write(unit, sizeof *unit),
                 if (code == WTF8_OK) wtf8_wrote(unit, sizeof *unit))
WTF8_TELLS_BOOL(is_boundary, (const wtf8_string *string, size_t position), (string, position), wtf8_asks(string))
WTF8_TELLS_AFTER(next_code_point, (const wtf8_string *string, size_t *position, uint32_t *code_point),
                 (string, position, code_point),
                 wtf8_asks(string); wtf8_reads(position, sizeof *position);
                 wtf8_may_write(code_point, sizeof *code_point),
                 wtf8_walked(code, position, code_point))
WTF8_TELLS_AFTER(previous_code_point, (const wtf8_string *string, size_t *position, uint32_t *code_point),
                 (string, position, code_point),
                 wtf8_asks(string); wtf8_reads(position, sizeof *position);
                 wtf8_may_write(code_point, sizeof *code_point),
                 wtf8_walked(code, position, code_point))
WTF8_TELLS_AFTER(code_point_before, (const wtf8_string *string, size_t index, uint32_t *code_point),
                 (string, index, code_point),
                 wtf8_asks(string); wtf8_may_write(code_point, sizeof *code_point),
                 if (code == WTF8_OK) wtf8_wrote(code_point, sizeof *code_point))
WTF8_TELLS_AFTER(next_surrogate, (const wtf8_string *string, size_t *position, uint16_t *unit), (string, position, unit),
                 wtf8_asks(string); wtf8_reads(position, sizeof *position); wtf8_may_write(unit, sizeof *unit),
                 if (code == WTF8_OK) {
                     wtf8_wrote(position, sizeof *position);
                     wtf8_wrote(unit, sizeof *unit);
                 })
WTF8_TELLS_BOOL(is_utf8, (const wtf8_string *string), (string), wtf8_asks(string))
WTF8_TELLS_BOOL(is_ascii, (const wtf8_string *string), (string), wtf8_asks(string))
WTF8_TELLS_BOOL(is_latin1, (const wtf8_string *string), (string), wtf8_asks(string))
WTF8_TELLS_BOOL(equal, (const wtf8_string *string, const wtf8_string *other), (string, other),
           wtf8_asks(string); wtf8_asks(other))
WTF8_TELLS(int32_t, compare_units, (const wtf8_string *string, const wtf8_string *other), (string, other),
           wtf8_asks(string); wtf8_asks(other))
WTF8_TELLS(int32_t, compare_code_points, (const wtf8_string *string, const wtf8_string *other), (string, other),
           wtf8_asks(string); wtf8_asks(other))
WTF8_TELLS_BOOL(equal_units, (const wtf8_string *string, const uint16_t *units, size_t n), (string, units, n),
           wtf8_asks(string); wtf8_reads(units, n * 2))
WTF8_TELLS(int32_t, compare_with_units, (const wtf8_string *string, const uint16_t *units, size_t n), (string, units, n),
           wtf8_asks(string); wtf8_reads(units, n * 2))
WTF8_TELLS_BOOL(equal_utf8, (const wtf8_string *string, const uint8_t *text, size_t n), (string, text, n),
           wtf8_asks(string); wtf8_reads(text, n))
WTF8_TELLS(int32_t, compare_with_utf8, (const wtf8_string *string, const uint8_t *text, size_t n), (string, text, n),
           wtf8_asks(string); wtf8_reads(text, n))
WTF8_TELLS_BOOL(starts_with_utf8, (const wtf8_string *string, const uint8_t *text, size_t n), (string, text, n),
           wtf8_asks(string); wtf8_reads(text, n))
WTF8_TELLS_BOOL(starts_with, (const wtf8_string *string, size_t index, const wtf8_string *other), (string, index, other),
           wtf8_asks(string); wtf8_asks(other))
WTF8_TELLS_BOOL(starts_with_units, (const wtf8_string *string, size_t index, const uint16_t *units, size_t n),
           (string, index, units, n), wtf8_asks(string); wtf8_reads(units, n * 2))
WTF8_TELLS_AFTER(find, (const wtf8_string *string, size_t from, const wtf8_string *other, size_t *index),
                 (string, from, other, index),
                 wtf8_asks(string); wtf8_asks(other); wtf8_may_write(index, sizeof *index),
                 if (code == WTF8_OK) wtf8_wrote(index, sizeof *index))
WTF8_TELLS_AFTER(find_units, (const wtf8_string *string, size_t from, const uint16_t *units, size_t n, size_t *index),
                 (string, from, units, n, index),
                 wtf8_asks(string); wtf8_reads(units, n * 2); wtf8_may_write(index, sizeof *index),
                 if (code == WTF8_OK) wtf8_wrote(index, sizeof *index))
WTF8_TELLS_AFTER(rfind, (const wtf8_string *string, size_t from, const wtf8_string *other, size_t *index),
                 (string, from, other, index),
                 wtf8_asks(string); wtf8_asks(other); wtf8_may_write(index, sizeof *index),
                 if (code == WTF8_OK) wtf8_wrote(index, sizeof *index))
WTF8_TELLS_AFTER(rfind_units, (const wtf8_string *string, size_t from, const uint16_t *units, size_t n, size_t *index),
                 (string, from, units, n, index),
                 wtf8_asks(string); wtf8_reads(units, n * 2); wtf8_may_write(index, sizeof *index),
                 if (code == WTF8_OK) wtf8_wrote(index, sizeof *index))
WTF8_TELLS_BOOL(divides_pair, (const wtf8_string *string, size_t index), (string, index), wtf8_asks(string))
WTF8_TELLS(uint64_t, hash, (const wtf8_string *string, uint64_t seed_0, uint64_t seed_1), (string, seed_0, seed_1),
           wtf8_asks(string))
WTF8_TELLS(uint64_t, hash_units, (const uint16_t *units, size_t n, uint64_t seed_0, uint64_t seed_1),
           (units, n, seed_0, seed_1), wtf8_reads(units, n * 2))
WTF8_TELLS(uint64_t, hash_utf8, (const uint8_t *text, size_t n, uint64_t seed_0, uint64_t seed_1),
           (text, n, seed_0, seed_1), wtf8_reads(text, n))

/* Cutting. */
WTF8_TELLS_CODE(truncate_units, (wtf8_string *string, size_t n), (string, n), wtf8_changes(string))
WTF8_TELLS_CODE(truncate_bytes, (wtf8_string *string, size_t position), (string, position), wtf8_changes(string))
WTF8_TELLS_AFTER(pop, (wtf8_string *string, uint32_t *code_point), (string, code_point),
                 wtf8_changes(string); wtf8_may_write(code_point, sizeof *code_point),
                 if (code == WTF8_OK) wtf8_wrote(code_point, sizeof *code_point))
WTF8_TELLS_CODE(slice_units, (wtf8_string *into, const wtf8_string *string, size_t begin, size_t end),
           (into, string, begin, end), wtf8_changes(into); wtf8_asks(string))

/* Editing. */
WTF8_TELLS_CODE(insert_units, (wtf8_string *string, size_t index, const uint16_t *units, size_t n), (string, index, units, n),
           wtf8_changes(string); wtf8_reads(units, n * 2))
WTF8_TELLS_CODE(remove_units, (wtf8_string *string, size_t begin, size_t end), (string, begin, end), wtf8_changes(string))
WTF8_TELLS_CODE(replace_units, (wtf8_string *string, size_t begin, size_t end, const uint16_t *units, size_t n),
           (string, begin, end, units, n), wtf8_changes(string); wtf8_reads(units, n * 2))
WTF8_TELLS_CODE(insert, (wtf8_string *string, size_t index, const wtf8_string *other), (string, index, other),
           wtf8_changes(string); wtf8_asks(other))
WTF8_TELLS_CODE(replace, (wtf8_string *string, size_t begin, size_t end, const wtf8_string *other),
           (string, begin, end, other), wtf8_changes(string); wtf8_asks(other))

/* Copying out. */
WTF8_TELLS_AFTER(copy_units, (const wtf8_string *string, uint16_t *out, size_t size, size_t *len), (string, out, size, len),
                 wtf8_asks(string); wtf8_may_write(out, size * 2); wtf8_may_write(len, sizeof *len),
                 wtf8_copied(code, out, 2, len))
WTF8_TELLS_AFTER(copy_slice,
                 (const wtf8_string *string, size_t begin, size_t end, uint16_t *out, size_t size, size_t *len),
                 (string, begin, end, out, size, len),
                 wtf8_asks(string); wtf8_may_write(out, size * 2); wtf8_may_write(len, sizeof *len),
                 wtf8_copied(code, out, 2, len))
WTF8_TELLS_AFTER(copy_code_points,
                 (const wtf8_string *string, size_t *position, uint32_t *out, size_t size, size_t *len),
                 (string, position, out, size, len),
                 wtf8_asks(string); wtf8_reads(position, sizeof *position); wtf8_may_write(out, size * 4);
                 wtf8_may_write(len, sizeof *len),
                 if (code == WTF8_OK) {
                     wtf8_wrote(position, sizeof *position);
                     wtf8_copied(code, out, 4, len);
                 })
WTF8_TELLS_AFTER(copy_utf8, (const wtf8_string *string, uint8_t *out, size_t size, size_t *len), (string, out, size, len),
                 wtf8_asks(string); wtf8_may_write(out, size); wtf8_may_write(len, sizeof *len),
                 wtf8_copied(code, out, 1, len))
WTF8_TELLS_AFTER(copy_lossy, (const wtf8_string *string, uint8_t *out, size_t size, size_t *len), (string, out, size, len),
                 wtf8_asks(string); wtf8_may_write(out, size); wtf8_may_write(len, sizeof *len),
                 wtf8_copied(code, out, 1, len))

WTF8_TELLS_AFTER(copy_latin1, (const wtf8_string *string, uint8_t *out, size_t size, size_t *len, size_t *valid),
                 (string, out, size, len, valid),
                 wtf8_asks(string); wtf8_may_write(out, size); wtf8_may_write(len, sizeof *len);
                 wtf8_may_write(valid, valid ? sizeof *valid : 0),
                 wtf8_copied(code, out, 1, len);
                 wtf8_not(code, WTF8_NOT_LATIN1, valid))

#ifdef __cplusplus
}
#endif

#define wtf8_memory_in_use wtf8_told_memory_in_use
#define wtf8_encoded_len wtf8_told_encoded_len
#define wtf8_utf8_unit_len wtf8_told_utf8_unit_len
#define wtf8_set_units wtf8_told_set_units
#define wtf8_set_utf8 wtf8_told_set_utf8
#define wtf8_set_latin1 wtf8_told_set_latin1
#define wtf8_set_string wtf8_told_set_string
#define wtf8_move wtf8_told_move
#define wtf8_clear wtf8_told_clear
#define wtf8_free wtf8_told_free
#define wtf8_reserve_bytes wtf8_told_reserve_bytes
#define wtf8_shrink wtf8_told_shrink
#define wtf8_mark wtf8_told_mark
#define wtf8_push_unit wtf8_told_push_unit
#define wtf8_push_code_point wtf8_told_push_code_point
#define wtf8_push_code_points wtf8_told_push_code_points
#define wtf8_push_units wtf8_told_push_units
#define wtf8_push_latin1 wtf8_told_push_latin1
#define wtf8_push_utf8 wtf8_told_push_utf8
#define wtf8_push_utf8_part wtf8_told_push_utf8_part
#define wtf8_push_utf8_lossy wtf8_told_push_utf8_lossy
#define wtf8_push_utf8_lossy_part wtf8_told_push_utf8_lossy_part
#define wtf8_push_string wtf8_told_push_string
#define wtf8_push_slice wtf8_told_push_slice
#define wtf8_unit_len wtf8_told_unit_len
#define wtf8_byte_len wtf8_told_byte_len
#define wtf8_capacity wtf8_told_capacity
#define wtf8_position_at wtf8_told_position_at
#define wtf8_unit_before wtf8_told_unit_before
#define wtf8_unit_at wtf8_told_unit_at
#define wtf8_is_boundary wtf8_told_is_boundary
#define wtf8_next_code_point wtf8_told_next_code_point
#define wtf8_previous_code_point wtf8_told_previous_code_point
#define wtf8_code_point_before wtf8_told_code_point_before
#define wtf8_next_surrogate wtf8_told_next_surrogate
#define wtf8_is_utf8 wtf8_told_is_utf8
#define wtf8_is_ascii wtf8_told_is_ascii
#define wtf8_is_latin1 wtf8_told_is_latin1
#define wtf8_equal wtf8_told_equal
#define wtf8_compare_units wtf8_told_compare_units
#define wtf8_compare_code_points wtf8_told_compare_code_points
#define wtf8_equal_units wtf8_told_equal_units
#define wtf8_compare_with_units wtf8_told_compare_with_units
#define wtf8_equal_utf8 wtf8_told_equal_utf8
#define wtf8_compare_with_utf8 wtf8_told_compare_with_utf8
#define wtf8_starts_with_utf8 wtf8_told_starts_with_utf8
#define wtf8_starts_with wtf8_told_starts_with
#define wtf8_starts_with_units wtf8_told_starts_with_units
#define wtf8_find wtf8_told_find
#define wtf8_find_units wtf8_told_find_units
#define wtf8_rfind wtf8_told_rfind
#define wtf8_rfind_units wtf8_told_rfind_units
#define wtf8_divides_pair wtf8_told_divides_pair
#define wtf8_hash wtf8_told_hash
#define wtf8_hash_units wtf8_told_hash_units
#define wtf8_hash_utf8 wtf8_told_hash_utf8
#define wtf8_truncate_units wtf8_told_truncate_units
#define wtf8_truncate_bytes wtf8_told_truncate_bytes
#define wtf8_pop wtf8_told_pop
#define wtf8_slice_units wtf8_told_slice_units
#define wtf8_insert_units wtf8_told_insert_units
#define wtf8_remove_units wtf8_told_remove_units
#define wtf8_replace_units wtf8_told_replace_units
#define wtf8_insert wtf8_told_insert
#define wtf8_replace wtf8_told_replace
#define wtf8_copy_units wtf8_told_copy_units
#define wtf8_copy_slice wtf8_told_copy_slice
#define wtf8_copy_code_points wtf8_told_copy_code_points
#define wtf8_copy_utf8 wtf8_told_copy_utf8
#define wtf8_copy_lossy wtf8_told_copy_lossy
#define wtf8_copy_latin1 wtf8_told_copy_latin1

#endif
