/* What stands between a C program and the proved calls. On x86-64 it takes the build for the processor's widest vectors; it
 * sees to it that each string has a buffer, gives an array of length 0 an address, passes no string twice to one call, and
 * requests memory by the functions that the program names. c/duties tests what it owes the proved calls. */
#define WTF8_SILENT
#include "wtf8.h"

#include <stdlib.h>

/* A string as the proved calls take it: where its buffer lies. */
typedef struct {
    void *at;
} handle;

#ifdef __x86_64__

#include <cpuid.h>

enum { V1, V2, V3 };

/* The build that calls take. It is V1 until the constructor below has run, as in constructors of the program: a string
 * may be used by any of the builds in turn. */
static int build = V1;

#ifndef WTF8_LEVEL

/* What v2 and v3 need of the registers that cpuid writes. */
enum {
    LEAF_1_ECX_V2 = bit_SSE3 | bit_SSSE3 | bit_CMPXCHG16B | bit_SSE4_1 | bit_SSE4_2 | bit_POPCNT,
    LEAF_1_ECX_V3 = bit_FMA | bit_MOVBE | bit_OSXSAVE | bit_AVX | bit_F16C,
    LEAF_7_EBX_V3 = bit_BMI | bit_AVX2 | bit_BMI2,
    LEAF_80000001_ECX_V2 = bit_LAHF_LM,
    LEAF_80000001_ECX_V3 = bit_ABM
};

static int has_all(unsigned answer, unsigned bits) {
    return (answer & bits) == bits;
}

/* Whether the operating system saves the registers XMM and YMM. A processor with bit_OSXSAVE can be asked. */
static int saves_vectors(void) {
    unsigned low, high;
    __asm__("xgetbv" : "=a"(low), "=d"(high) : "c"(0));
    return has_all(low, 6);
}

/* The build for the processor. */
static int widest_build(void) {
    unsigned eax, ebx, ecx, edx, leaf_1, leaf_80000001;
    if (!__get_cpuid(1, &eax, &ebx, &leaf_1, &edx) || !has_all(leaf_1, LEAF_1_ECX_V2)) return V1;
    if (!__get_cpuid(0x80000001, &eax, &ebx, &leaf_80000001, &edx) || !has_all(leaf_80000001, LEAF_80000001_ECX_V2)) return V1;
    if (!has_all(leaf_1, LEAF_1_ECX_V3) || !has_all(leaf_80000001, LEAF_80000001_ECX_V3) || !saves_vectors()) return V2;
    return __get_cpuid_count(7, 0, &eax, &ebx, &ecx, &edx) && has_all(ebx, LEAF_7_EBX_V3) ? V3 : V2;
}

#else

/* The build that a test names. */
static int widest_build(void) {
    return WTF8_LEVEL - 1;
}

#endif

__attribute__((constructor)) static void choose_build(void) {
    __atomic_store_n(&build, widest_build(), __ATOMIC_RELAXED);
}

/* Declares the three builds of a proved call, and a table of them. */
#define DECLARE(result, name, ...)                                                                 \
    result wtf8_##name##_v1(__VA_ARGS__);                                                          \
    result wtf8_##name##_v2(__VA_ARGS__);                                                          \
    result wtf8_##name##_v3(__VA_ARGS__);                                                          \
    static result (*const builds_##name[])(__VA_ARGS__) = {wtf8_##name##_v1, wtf8_##name##_v2, wtf8_##name##_v3};

/* The proved call of the build that is taken. */
#define PROVED(name) builds_##name[__atomic_load_n(&build, __ATOMIC_RELAXED)]

#else

/* On another processor there is one build. */
#define DECLARE(result, name, ...) result wtf8_##name##_v1(__VA_ARGS__);
#define PROVED(name) wtf8_##name##_v1

#endif

DECLARE(void, init, handle *)
DECLARE(wtf8_result, init_units, handle *, const uint16_t *, size_t)
DECLARE(wtf8_result, set_units, handle *, const uint16_t *, size_t)
DECLARE(wtf8_result, set_utf8, handle *, const uint8_t *, size_t, size_t *)
DECLARE(wtf8_result, set_latin1, handle *, const uint8_t *, size_t)
DECLARE(wtf8_result, set_string, handle *, handle *)
DECLARE(void, clear, handle *)
DECLARE(void, free, handle *)
DECLARE(wtf8_result, reserve_bytes, handle *, size_t)
DECLARE(void, shrink, handle *)
DECLARE(wtf8_result, mark, handle *)
DECLARE(wtf8_result, push_unit, handle *, uint16_t)
DECLARE(wtf8_result, push_code_point, handle *, uint32_t)
DECLARE(wtf8_result, push_code_points, handle *, const uint32_t *, size_t)
DECLARE(wtf8_result, push_units, handle *, const uint16_t *, size_t)
DECLARE(wtf8_result, push_latin1, handle *, const uint8_t *, size_t)
DECLARE(wtf8_result, push_utf8, handle *, const uint8_t *, size_t, size_t *)
DECLARE(wtf8_result, push_utf8_part, handle *, const uint8_t *, size_t, size_t *, size_t *)
DECLARE(wtf8_result, push_utf8_lossy, handle *, const uint8_t *, size_t)
DECLARE(wtf8_result, push_utf8_lossy_part, handle *, const uint8_t *, size_t, size_t *)
DECLARE(wtf8_result, push_string, handle *, handle *)
DECLARE(wtf8_result, push_slice, handle *, handle *, size_t, size_t)
DECLARE(size_t, unit_len, handle *)
DECLARE(size_t, encoded_len, const uint16_t *, size_t)
DECLARE(wtf8_result, utf8_unit_len, const uint8_t *, size_t, size_t *, size_t *)
DECLARE(size_t, byte_len, handle *)
DECLARE(size_t, capacity, handle *)
DECLARE(wtf8_result, position_at, handle *, size_t, size_t *)
DECLARE(size_t, unit_before, handle *, size_t)
DECLARE(wtf8_result, unit_at, handle *, size_t, uint16_t *)
DECLARE(bool, is_boundary, handle *, size_t)
DECLARE(bool, is_utf8, handle *)
DECLARE(bool, is_ascii, handle *)
DECLARE(bool, is_latin1, handle *)
DECLARE(bool, equal, handle *, handle *)
DECLARE(int32_t, compare_units, handle *, handle *)
DECLARE(int32_t, compare_code_points, handle *, handle *)
DECLARE(uint64_t, hash, handle *, uint64_t, uint64_t)
DECLARE(uint64_t, hash_units, const uint16_t *, size_t, uint64_t, uint64_t)
DECLARE(uint64_t, hash_utf8, const uint8_t *, size_t, uint64_t, uint64_t)
DECLARE(wtf8_result, next_surrogate, handle *, size_t *, uint16_t *)
DECLARE(wtf8_result, next_code_point, handle *, size_t *, uint32_t *)
DECLARE(wtf8_result, previous_code_point, handle *, size_t *, uint32_t *)
DECLARE(wtf8_result, code_point_before, handle *, size_t, uint32_t *)
DECLARE(bool, equal_units, handle *, const uint16_t *, size_t)
DECLARE(int32_t, compare_with_units, handle *, const uint16_t *, size_t)
DECLARE(bool, equal_utf8, handle *, const uint8_t *, size_t)
DECLARE(int32_t, compare_with_utf8, handle *, const uint8_t *, size_t)
DECLARE(bool, starts_with_utf8, handle *, const uint8_t *, size_t)
DECLARE(bool, starts_with, handle *, size_t, handle *)
DECLARE(bool, starts_with_units, handle *, size_t, const uint16_t *, size_t)
DECLARE(wtf8_result, find, handle *, size_t, handle *, size_t *)
DECLARE(wtf8_result, find_units, handle *, size_t, const uint16_t *, size_t, size_t *)
DECLARE(wtf8_result, rfind, handle *, size_t, handle *, size_t *)
DECLARE(wtf8_result, rfind_units, handle *, size_t, const uint16_t *, size_t, size_t *)
DECLARE(bool, divides_pair, handle *, size_t)
DECLARE(wtf8_result, truncate_bytes, handle *, size_t)
DECLARE(wtf8_result, truncate_units, handle *, size_t)
DECLARE(wtf8_result, pop, handle *, uint32_t *)
DECLARE(wtf8_result, slice_units, handle *, handle *, size_t, size_t)
DECLARE(wtf8_result, insert_units, handle *, size_t, const uint16_t *, size_t)
DECLARE(wtf8_result, remove_units, handle *, size_t, size_t)
DECLARE(wtf8_result, replace_units, handle *, size_t, size_t, const uint16_t *, size_t)
DECLARE(wtf8_result, insert, handle *, size_t, handle *)
DECLARE(wtf8_result, replace, handle *, size_t, size_t, handle *)
DECLARE(wtf8_result, copy_code_points, handle *, size_t *, uint32_t *, size_t, size_t *)
DECLARE(wtf8_result, copy_units, handle *, uint16_t *, size_t, size_t *)
DECLARE(wtf8_result, copy_slice, handle *, size_t, size_t, uint16_t *, size_t, size_t *)
DECLARE(wtf8_result, copy_utf8, handle *, uint8_t *, size_t, size_t *)
DECLARE(wtf8_result, copy_lossy, handle *, uint8_t *, size_t, size_t *)
DECLARE(wtf8_result, copy_latin1, handle *, uint8_t *, size_t, size_t *, size_t *)

/* Functions that are given no context. */
typedef struct {
    void *(*allocate)(size_t);
    void *(*reallocate)(void *, size_t);
    void (*release)(void *);
} plain_memory;

/* The sets of functions that wtf8_use_memory was given, each once, after those of the start. No set is overwritten, so that
 * the functions that call it go on doing so. */
enum { SETS = 8 };
static plain_memory sets[SETS] = {{malloc, realloc, free}};

/* Defines the functions that call a set, and take no heed of a context. */
#define DEFINE_CALLS(set)                                                                          \
    static void *allocate_##set(void *context, size_t n) {                                         \
        (void)context;                                                                             \
        return sets[set].allocate(n);                                                              \
    }                                                                                              \
    static void *reallocate_##set(void *context, void *block, size_t n) {                          \
        (void)context;                                                                             \
        return sets[set].reallocate(block, n);                                                     \
    }                                                                                              \
    static void release_##set(void *context, void *block) {                                        \
        (void)context;                                                                             \
        sets[set].release(block);                                                                  \
    }
#define CALLS(set) {allocate_##set, reallocate_##set, release_##set, NULL}
DEFINE_CALLS(0)
DEFINE_CALLS(1)
DEFINE_CALLS(2)
DEFINE_CALLS(3)
DEFINE_CALLS(4)
DEFINE_CALLS(5)
DEFINE_CALLS(6)
DEFINE_CALLS(7)
static const wtf8_memory calls[SETS] = {CALLS(0), CALLS(1), CALLS(2), CALLS(3), CALLS(4), CALLS(5), CALLS(6), CALLS(7)};

/* What wtf8_memory_in_use returns, and what requests call. */
static wtf8_memory in_use = CALLS(0);
static plain_memory memory = {malloc, realloc, free};

static void *allocate_with_context(size_t n) {
    return in_use.allocate(in_use.context, n);
}

static void *reallocate_with_context(void *block, size_t n) {
    return in_use.reallocate(in_use.context, block, n);
}

static void release_with_context(void *block) {
    in_use.release(in_use.context, block);
}

static bool is_set(plain_memory set, plain_memory given) {
    return set.allocate == given.allocate && set.reallocate == given.reallocate && set.release == given.release;
}

void wtf8_use_memory(void *(*allocate)(size_t), void *(*reallocate)(void *, size_t), void (*release)(void *)) {
    size_t i = 0;
    memory = (plain_memory){allocate, reallocate, release};
    in_use = (wtf8_memory){NULL, NULL, NULL, NULL};
    while (i < SETS && sets[i].allocate && !is_set(sets[i], memory)) i++;
    if (i == SETS) return;
    sets[i] = memory;
    in_use = calls[i];
}

void wtf8_use_memory_with(wtf8_memory given) {
    in_use = given;
    memory = (plain_memory){allocate_with_context, reallocate_with_context, release_with_context};
}

wtf8_memory wtf8_memory_in_use(void) {
    return in_use;
}

/* Whether a request was granted, and the address of the block; if it was refused, any address but NULL. */
typedef struct {
    bool is_granted;
    void *at;
} block;

/* What the proved code calls as rattle_alloc, rattle_realloc and rattle_dealloc: c/build gives them these names. Proofs rest
 * on this: an alignment divides 16, and so has each block of malloc's; a request is for less than 2^63 bytes, of 0 bytes
 * for as many as the alignment, since malloc may answer that with NULL; what was refused leaves the old block as it was,
 * and else the new one begins with the `kept` bytes that the old one began with. */
block wtf8_own_alloc(size_t size, size_t alignment);
block wtf8_own_realloc(void *at, size_t kept, size_t size, size_t alignment);
void wtf8_own_dealloc(void *at);

static inline block answer(void *at) {
    static char refused[1];
    return (block){at != NULL, at ? at : refused};
}

block wtf8_own_alloc(size_t size, size_t alignment) {
    return answer(memory.allocate(size ? size : alignment));
}

block wtf8_own_realloc(void *at, size_t kept, size_t size, size_t alignment) {
    (void)kept;
    return answer(memory.reallocate(at, size ? size : alignment));
}

void wtf8_own_dealloc(void *at) {
    memory.release(at);
}

/* Whether the struct holds a buffer. The first word of one is the address of its bytes, which is never NULL: c/run_tests
 * tries it. */
static inline bool has_buffer(const wtf8_string *string) {
    return __builtin_expect(string->words[0] != 0, 1);
}

/* Writes an empty buffer into the struct, which holds none. It owns nothing, so it need not be freed. */
static __attribute__((noinline)) void init(wtf8_string *string) {
    handle room = {string};
    PROVED(init)(&room);
}

/* A string that a call changes, which has a buffer from now on. */
static inline handle opened(wtf8_string *string) {
    if (!has_buffer(string)) init(string);
    return (handle){string};
}

/* A string that a call asks. If it has no buffer, `empty` is asked, since nothing may be written to the string. */
static inline handle asked(const wtf8_string *string, wtf8_string *empty) {
    if (has_buffer(string)) return (handle){(void *)string};
    init(empty);
    return (handle){empty};
}

/* Writes a copy of a string that a call is given twice into the struct that `made` names, which holds no buffer: the proved
 * code changes one string and reads another. The copy has to be freed, also if memory for it was refused. */
static __attribute__((noinline)) wtf8_result copy_to(handle *made, handle *string) {
    init(made->at);
    return PROVED(set_string)(made, string);
}

/* What an array of length 0 points to. Nothing is read or written there. */
static uint16_t nothing[1];
static uint32_t no_points[1];

/* Defines wtf8_NAME(parameters), a call that changes `string`. `names` are the names of the parameters, `arguments` what
 * the proved call is given. A string without a buffer is for a function of its own, so that the other saves no register. */
#define DEFINE_CHANGE(name, parameters, names, arguments)                                          \
    static __attribute__((noinline)) wtf8_result first_##name parameters {                         \
        handle changed = opened(string);                                                           \
        return PROVED(name) arguments;                                                             \
    }                                                                                              \
    wtf8_result wtf8_##name parameters {                                                           \
        if (!has_buffer(string)) return first_##name names;                                        \
        handle changed = {string};                                                                 \
        return PROVED(name) arguments;                                                             \
    }

DEFINE_CHANGE(reserve_bytes, (wtf8_string *string, size_t additional), (string, additional), (&changed, additional))
DEFINE_CHANGE(mark, (wtf8_string *string), (string), (&changed))
DEFINE_CHANGE(push_unit, (wtf8_string *string, uint16_t unit), (string, unit), (&changed, unit))
DEFINE_CHANGE(push_code_point, (wtf8_string *string, uint32_t value), (string, value), (&changed, value))
DEFINE_CHANGE(push_code_points, (wtf8_string *string, const uint32_t *points, size_t n), (string, points, n),
              (&changed, n ? points : no_points, n))
DEFINE_CHANGE(push_units, (wtf8_string *string, const uint16_t *units, size_t n), (string, units, n),
              (&changed, n ? units : nothing, n))
DEFINE_CHANGE(push_latin1, (wtf8_string *string, const uint8_t *text, size_t n), (string, text, n),
              (&changed, n ? text : (const uint8_t *)nothing, n))
DEFINE_CHANGE(push_utf8_part, (wtf8_string *string, const uint8_t *text, size_t n, size_t *used, size_t *bad),
              (string, text, n, used, bad), (&changed, n ? text : (const uint8_t *)nothing, n, used, bad))
DEFINE_CHANGE(push_utf8_lossy, (wtf8_string *string, const uint8_t *text, size_t n), (string, text, n),
              (&changed, n ? text : (const uint8_t *)nothing, n))
DEFINE_CHANGE(push_utf8_lossy_part, (wtf8_string *string, const uint8_t *text, size_t n, size_t *used),
              (string, text, n, used), (&changed, n ? text : (const uint8_t *)nothing, n, used))
DEFINE_CHANGE(truncate_bytes, (wtf8_string *string, size_t position), (string, position), (&changed, position))
DEFINE_CHANGE(truncate_units, (wtf8_string *string, size_t n), (string, n), (&changed, n))
DEFINE_CHANGE(pop, (wtf8_string *string, uint32_t *code_point), (string, code_point), (&changed, code_point))
DEFINE_CHANGE(insert_units, (wtf8_string *string, size_t index, const uint16_t *units, size_t n), (string, index, units, n),
              (&changed, index, n ? units : nothing, n))
DEFINE_CHANGE(remove_units, (wtf8_string *string, size_t begin, size_t end), (string, begin, end), (&changed, begin, end))
DEFINE_CHANGE(replace_units, (wtf8_string *string, size_t begin, size_t end, const uint16_t *units, size_t n),
              (string, begin, end, units, n), (&changed, begin, end, n ? units : nothing, n))

/* The first units of a string, which get just the bytes that they take. */
static __attribute__((noinline)) wtf8_result first_set_units(wtf8_string *string, const uint16_t *units, size_t n) {
    handle room = {string};
    wtf8_result code = PROVED(init_units)(&room, n ? units : nothing, n);
    if (code != WTF8_OK) *string = (wtf8_string)WTF8_EMPTY;
    return code;
}

wtf8_result wtf8_set_units(wtf8_string *string, const uint16_t *units, size_t n) {
    if (!has_buffer(string)) return first_set_units(string, units, n);
    handle changed = {string};
    return PROVED(set_units)(&changed, n ? units : nothing, n);
}

wtf8_result wtf8_set_utf8(wtf8_string *string, const uint8_t *text, size_t n, size_t *valid) {
    size_t unused;
    handle changed = opened(string);
    return PROVED(set_utf8)(&changed, n ? text : (const uint8_t *)nothing, n, valid ? valid : &unused);
}

wtf8_result wtf8_set_latin1(wtf8_string *string, const uint8_t *text, size_t n) {
    handle changed = opened(string);
    return PROVED(set_latin1)(&changed, n ? text : (const uint8_t *)nothing, n);
}

wtf8_result wtf8_set_string(wtf8_string *string, const wtf8_string *other) {
    wtf8_string empty;
    if (string == other) return WTF8_OK;
    handle changed = opened(string), copy = asked(other, &empty);
    return PROVED(set_string)(&changed, &copy);
}

void wtf8_clear(wtf8_string *string) {
    if (!has_buffer(string)) return;
    handle changed = {string};
    PROVED(clear)(&changed);
}

void wtf8_free(wtf8_string *string) {
    if (!has_buffer(string)) return;
    handle changed = {string};
    PROVED(free)(&changed);
    *string = (wtf8_string)WTF8_EMPTY;
}

void wtf8_move(wtf8_string *string, wtf8_string *other) {
    if (string == other) return;
    wtf8_free(string);
    *string = *other;
    *other = (wtf8_string)WTF8_EMPTY;
}

void wtf8_shrink(wtf8_string *string) {
    if (!has_buffer(string)) return;
    handle changed = {string};
    PROVED(shrink)(&changed);
}

wtf8_result wtf8_push_utf8(wtf8_string *string, const uint8_t *text, size_t n, size_t *valid) {
    size_t unused;
    handle changed = opened(string);
    return PROVED(push_utf8)(&changed, n ? text : (const uint8_t *)nothing, n, valid ? valid : &unused);
}

wtf8_result wtf8_push_string(wtf8_string *string, const wtf8_string *other) {
    wtf8_string second;
    handle changed = opened(string);
    if (string != other) {
        handle copy = asked(other, &second);
        return PROVED(push_string)(&changed, &copy);
    }
    handle made = {&second};
    wtf8_result code = copy_to(&made, &changed);
    if (code == WTF8_OK) code = PROVED(push_string)(&changed, &made);
    PROVED(free)(&made);
    return code;
}

wtf8_result wtf8_push_slice(wtf8_string *string, const wtf8_string *other, size_t begin, size_t end) {
    wtf8_string part;
    handle changed = opened(string);
    if (string != other) {
        handle copy = asked(other, &part);
        return PROVED(push_slice)(&changed, &copy, begin, end);
    }
    init(&part);
    handle made = {&part};
    wtf8_result code = PROVED(slice_units)(&made, &changed, begin, end);
    if (code == WTF8_OK) code = PROVED(push_string)(&changed, &made);
    PROVED(free)(&made);
    return code;
}

wtf8_result wtf8_insert(wtf8_string *string, size_t index, const wtf8_string *other) {
    wtf8_string empty;
    if (string == other) return wtf8_replace(string, index, index, other);
    handle changed = opened(string), copy = asked(other, &empty);
    return PROVED(insert)(&changed, index, &copy);
}

wtf8_result wtf8_replace(wtf8_string *string, size_t begin, size_t end, const wtf8_string *other) {
    wtf8_string second;
    handle changed = opened(string);
    if (string != other) {
        handle copy = asked(other, &second);
        return PROVED(replace)(&changed, begin, end, &copy);
    }
    if (end < begin || PROVED(unit_len)(&changed) < end) return WTF8_BAD_POSITION;
    handle made = {&second};
    wtf8_result code = copy_to(&made, &changed);
    if (code == WTF8_OK) code = PROVED(replace)(&changed, begin, end, &made);
    PROVED(free)(&made);
    return code;
}

/* What wtf8_sanitizers.h declares, so that no program knows in which word the block's address is. */
const void *wtf8_block(const wtf8_string *string);

const void *wtf8_block(const wtf8_string *string) {
    return wtf8_capacity(string) ? (const void *)(uintptr_t)string->words[0] : NULL;
}

size_t wtf8_unit_len(const wtf8_string *string) {
    wtf8_string empty;
    handle copy = asked(string, &empty);
    return PROVED(unit_len)(&copy);
}

size_t wtf8_byte_len(const wtf8_string *string) {
    wtf8_string empty;
    handle copy = asked(string, &empty);
    return PROVED(byte_len)(&copy);
}

size_t wtf8_capacity(const wtf8_string *string) {
    wtf8_string empty;
    handle copy = asked(string, &empty);
    return PROVED(capacity)(&copy);
}

wtf8_result wtf8_position_at(const wtf8_string *string, size_t index, size_t *position) {
    wtf8_string empty;
    handle copy = asked(string, &empty);
    return PROVED(position_at)(&copy, index, position);
}

size_t wtf8_unit_before(const wtf8_string *string, size_t position) {
    wtf8_string empty;
    handle copy = asked(string, &empty);
    return PROVED(unit_before)(&copy, position);
}

wtf8_result wtf8_unit_at(const wtf8_string *string, size_t index, uint16_t *unit) {
    wtf8_string empty;
    handle copy = asked(string, &empty);
    return PROVED(unit_at)(&copy, index, unit);
}

bool wtf8_is_boundary(const wtf8_string *string, size_t position) {
    wtf8_string empty;
    handle copy = asked(string, &empty);
    return PROVED(is_boundary)(&copy, position);
}

bool wtf8_is_utf8(const wtf8_string *string) {
    wtf8_string empty;
    handle copy = asked(string, &empty);
    return PROVED(is_utf8)(&copy);
}

bool wtf8_is_ascii(const wtf8_string *string) {
    wtf8_string empty;
    handle copy = asked(string, &empty);
    return PROVED(is_ascii)(&copy);
}

bool wtf8_is_latin1(const wtf8_string *string) {
    wtf8_string empty;
    handle copy = asked(string, &empty);
    return PROVED(is_latin1)(&copy);
}

bool wtf8_equal(const wtf8_string *string, const wtf8_string *other) {
    wtf8_string empty, empty_other;
    handle copy = asked(string, &empty), others = asked(other, &empty_other);
    return string == other || PROVED(equal)(&copy, &others);
}

int32_t wtf8_compare_units(const wtf8_string *string, const wtf8_string *other) {
    wtf8_string empty, empty_other;
    handle copy = asked(string, &empty), others = asked(other, &empty_other);
    return string == other ? 0 : PROVED(compare_units)(&copy, &others);
}

int32_t wtf8_compare_code_points(const wtf8_string *string, const wtf8_string *other) {
    wtf8_string empty, empty_other;
    handle copy = asked(string, &empty), others = asked(other, &empty_other);
    return string == other ? 0 : PROVED(compare_code_points)(&copy, &others);
}

uint64_t wtf8_hash(const wtf8_string *string, uint64_t seed_0, uint64_t seed_1) {
    wtf8_string empty;
    handle copy = asked(string, &empty);
    return PROVED(hash)(&copy, seed_0, seed_1);
}

size_t wtf8_encoded_len(const uint16_t *units, size_t n) {
    return PROVED(encoded_len)(n ? units : nothing, n);
}

wtf8_result wtf8_utf8_unit_len(const uint8_t *text, size_t n, size_t *len, size_t *valid) {
    size_t unused;
    return PROVED(utf8_unit_len)(n ? text : (const uint8_t *)nothing, n, len, valid ? valid : &unused);
}

uint64_t wtf8_hash_units(const uint16_t *units, size_t n, uint64_t seed_0, uint64_t seed_1) {
    return PROVED(hash_units)(n ? units : nothing, n, seed_0, seed_1);
}

uint64_t wtf8_hash_utf8(const uint8_t *text, size_t n, uint64_t seed_0, uint64_t seed_1) {
    return PROVED(hash_utf8)(n ? text : (const uint8_t *)nothing, n, seed_0, seed_1);
}

wtf8_result wtf8_next_surrogate(const wtf8_string *string, size_t *position, uint16_t *unit) {
    wtf8_string empty;
    handle copy = asked(string, &empty);
    return PROVED(next_surrogate)(&copy, position, unit);
}

wtf8_result wtf8_next_code_point(const wtf8_string *string, size_t *position, uint32_t *code_point) {
    wtf8_string empty;
    handle copy = asked(string, &empty);
    return PROVED(next_code_point)(&copy, position, code_point);
}

wtf8_result wtf8_previous_code_point(const wtf8_string *string, size_t *position, uint32_t *code_point) {
    wtf8_string empty;
    handle copy = asked(string, &empty);
    return PROVED(previous_code_point)(&copy, position, code_point);
}

wtf8_result wtf8_code_point_before(const wtf8_string *string, size_t index, uint32_t *code_point) {
    wtf8_string empty;
    handle copy = asked(string, &empty);
    return PROVED(code_point_before)(&copy, index, code_point);
}

bool wtf8_equal_units(const wtf8_string *string, const uint16_t *units, size_t n) {
    wtf8_string empty;
    handle copy = asked(string, &empty);
    return PROVED(equal_units)(&copy, n ? units : nothing, n);
}

int32_t wtf8_compare_with_units(const wtf8_string *string, const uint16_t *units, size_t n) {
    wtf8_string empty;
    handle copy = asked(string, &empty);
    return PROVED(compare_with_units)(&copy, n ? units : nothing, n);
}

bool wtf8_equal_utf8(const wtf8_string *string, const uint8_t *text, size_t n) {
    wtf8_string empty;
    handle copy = asked(string, &empty);
    return PROVED(equal_utf8)(&copy, n ? text : (const uint8_t *)nothing, n);
}

int32_t wtf8_compare_with_utf8(const wtf8_string *string, const uint8_t *text, size_t n) {
    wtf8_string empty;
    handle copy = asked(string, &empty);
    return PROVED(compare_with_utf8)(&copy, n ? text : (const uint8_t *)nothing, n);
}

bool wtf8_starts_with_utf8(const wtf8_string *string, const uint8_t *text, size_t n) {
    wtf8_string empty;
    handle copy = asked(string, &empty);
    return PROVED(starts_with_utf8)(&copy, n ? text : (const uint8_t *)nothing, n);
}

bool wtf8_starts_with(const wtf8_string *string, size_t index, const wtf8_string *other) {
    wtf8_string empty, empty_other;
    handle copy = asked(string, &empty), others = asked(other, &empty_other);
    if (string != other) return PROVED(starts_with)(&copy, index, &others);
    return index == 0 || PROVED(unit_len)(&copy) == 0;
}

bool wtf8_starts_with_units(const wtf8_string *string, size_t index, const uint16_t *units, size_t n) {
    wtf8_string empty;
    handle copy = asked(string, &empty);
    return PROVED(starts_with_units)(&copy, index, n ? units : nothing, n);
}

/* A string occurs in itself at index 0 alone. */
static wtf8_result find_itself(size_t from, bool is_last, size_t *index) {
    if (from > 0 && !is_last) return WTF8_END;
    *index = 0;
    return WTF8_OK;
}

wtf8_result wtf8_find(const wtf8_string *string, size_t from, const wtf8_string *other, size_t *index) {
    wtf8_string empty, empty_other;
    handle copy = asked(string, &empty), others = asked(other, &empty_other);
    return string == other ? find_itself(from, false, index) : PROVED(find)(&copy, from, &others, index);
}

wtf8_result wtf8_find_units(const wtf8_string *string, size_t from, const uint16_t *units, size_t n, size_t *index) {
    wtf8_string empty;
    handle copy = asked(string, &empty);
    return PROVED(find_units)(&copy, from, n ? units : nothing, n, index);
}

wtf8_result wtf8_rfind(const wtf8_string *string, size_t from, const wtf8_string *other, size_t *index) {
    wtf8_string empty, empty_other;
    handle copy = asked(string, &empty), others = asked(other, &empty_other);
    return string == other ? find_itself(from, true, index) : PROVED(rfind)(&copy, from, &others, index);
}

wtf8_result wtf8_rfind_units(const wtf8_string *string, size_t from, const uint16_t *units, size_t n, size_t *index) {
    wtf8_string empty;
    handle copy = asked(string, &empty);
    return PROVED(rfind_units)(&copy, from, n ? units : nothing, n, index);
}

bool wtf8_divides_pair(const wtf8_string *string, size_t index) {
    wtf8_string empty;
    handle copy = asked(string, &empty);
    return PROVED(divides_pair)(&copy, index);
}

wtf8_result wtf8_slice_units(wtf8_string *into, const wtf8_string *string, size_t begin, size_t end) {
    wtf8_string empty;
    handle changed = opened(into);
    if (string != into) {
        handle copy = asked(string, &empty);
        return PROVED(slice_units)(&changed, &copy, begin, end);
    }
    if (end < begin || PROVED(truncate_units)(&changed, end) != WTF8_OK) return WTF8_BAD_POSITION;
    return PROVED(remove_units)(&changed, 0, begin);
}

wtf8_result wtf8_copy_units(const wtf8_string *string, uint16_t *out, size_t size, size_t *len) {
    wtf8_string empty;
    handle copy = asked(string, &empty);
    return PROVED(copy_units)(&copy, size ? out : nothing, size, len);
}

wtf8_result wtf8_copy_code_points(const wtf8_string *string, size_t *position, uint32_t *out, size_t size, size_t *len) {
    wtf8_string empty;
    handle copy = asked(string, &empty);
    return PROVED(copy_code_points)(&copy, position, size ? out : no_points, size, len);
}

wtf8_result wtf8_copy_slice(const wtf8_string *string, size_t begin, size_t end, uint16_t *out, size_t size, size_t *len) {
    wtf8_string empty;
    handle copy = asked(string, &empty);
    return PROVED(copy_slice)(&copy, begin, end, size ? out : nothing, size, len);
}

wtf8_result wtf8_copy_utf8(const wtf8_string *string, uint8_t *out, size_t size, size_t *len) {
    wtf8_string empty;
    handle copy = asked(string, &empty);
    return PROVED(copy_utf8)(&copy, size ? out : (uint8_t *)nothing, size, len);
}

wtf8_result wtf8_copy_lossy(const wtf8_string *string, uint8_t *out, size_t size, size_t *len) {
    wtf8_string empty;
    handle copy = asked(string, &empty);
    return PROVED(copy_lossy)(&copy, size ? out : (uint8_t *)nothing, size, len);
}

wtf8_result wtf8_copy_latin1(const wtf8_string *string, uint8_t *out, size_t size, size_t *len, size_t *valid) {
    size_t unused;
    wtf8_string empty;
    handle copy = asked(string, &empty);
    return PROVED(copy_latin1)(&copy, size ? out : (uint8_t *)nothing, size, len, valid ? valid : &unused);
}

const char *wtf8_result_text(wtf8_result code) {
    switch (code) {
        case WTF8_OK: return "the call did what it says";
        case WTF8_NO_MEMORY: return "memory was refused";
        case WTF8_BAD_POSITION: return "an index or a position is after the end, or not a boundary";
        case WTF8_ARRAY_TOO_SHORT: return "the array is too short";
        case WTF8_HAS_SURROGATE: return "the string holds a surrogate";
        case WTF8_BAD_CODE_POINT: return "the number is not a code point";
        case WTF8_NOT_UTF8: return "the bytes are not UTF-8";
        case WTF8_END: return "there is no further code point, surrogate or index";
        case WTF8_NOT_LATIN1: return "a unit is greater than FF";
    }
    return "not a code of this library";
}

const char *wtf8_version(void) {
    return WTF8_VERSION;
}
