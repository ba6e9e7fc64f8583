/*
 * Strings that hold any 16-bit code units, paired surrogates or not, stored as WTF-8. The units, the text in UTF-8 and
 * the lossy text can be copied out; the bytes of a string with a surrogate cannot, since WTF-8 is not for interchange.
 *
 * What a call does to the units of its strings is proved for every call that meets the duties below; the library's page,
 * README.md, also says what is trusted.
 *
 * What the caller owes:
 * - Each pointer is valid and aligned. It may be NULL only where the text says so: an array of length 0 may be NULL, and
 *   `valid`.
 * - Arrays do not overlap each other, nor a string, nor a number that the call writes. Two numbers that one call writes are
 *   not the same.
 * - A string is made by WTF8_EMPTY or by setting all its bytes to 0, and freed by wtf8_free, whatever calls returned. Its
 *   words are not read or written. An assignment, memcpy or realloc moves it: of the old place only a new WTF8_EMPTY may
 *   be made. A second string is made by wtf8_set_string. Only one copy of the library uses it.
 * - While a call changes a string, no other call uses it. Calls that take it as const only read it: any number of them
 *   may use one string at once, in any threads. Changes are ordered before and after them by a lock, a thread's start or
 *   a join.
 * - No call comes from a signal handler, or from the forked child of a process with threads.
 * - malloc, realloc and free of the program, or what wtf8_use_memory is given, come from one allocator, which aligns a
 *   block to each power of two up to 16 that divides its size.
 *
 * One string may be passed twice to one call, as to append it to itself: wtf8_push_string, wtf8_push_slice, wtf8_insert and
 * wtf8_replace then request memory for a copy, also if the bytes fit. U+0000 is a unit like others, and no 0 is written after
 * what is copied out.
 *
 * In each call the string that is changed, or else the one that is asked, comes first. If several codes apply, a call
 * returns the first of them in this order: BAD_CODE_POINT, NOT_UTF8, BAD_POSITION, HAS_SURROGATE, NOT_LATIN1,
 * ARRAY_TOO_SHORT, NO_MEMORY. END comes alone.
 *
 * Costs: a call takes time linear in the units or bytes that it is given or hands out, if its text says no other. A string
 * without room for what is appended or inserted moves to a block of at least twice the capacity, so that n appends of a unit
 * take time linear in n. A string takes one block, and none while nothing was written to it. Before its work a call
 * takes 15 to 250 instructions; hashes, slices, edits, and a new string with its free take up to 600, searches 2,000. A call
 * takes at most 3 kB of stack, a search (wtf8_find, wtf8_rfind and so on) 32 kB, beside what the functions for memory take.
 */
#ifndef WTF8_H
#define WTF8_H

#include <stdbool.h>
#include <stddef.h>
#include <stdint.h>

#ifdef __cplusplus
extern "C" {
#endif

/* The version of this header, also as 10,000, 100 and 1 times its numbers, for #if. wtf8_version() is that of the library. */
#define WTF8_VERSION "0.3.0"
#define WTF8_VERSION_NUMBER 300

/* A compiler that knows the attribute warns of a call whose code, or whether something holds, is not used; from C23 and C++17 on
 * unless it is cast to void. */
#if (defined(__cplusplus) && 201703L <= __cplusplus) || (defined(__STDC_VERSION__) && 201710L < __STDC_VERSION__)
#define WTF8_CODE [[nodiscard]]
#elif defined(__GNUC__)
#define WTF8_CODE __attribute__((warn_unused_result))
#else
#define WTF8_CODE
#endif

/* A compiler that knows the attributes warns of a string or an array that is not initialized, of an array or a number that is
 * shorter than the call takes it for, and of a pointer that is NULL where none may be. The numbers are of parameters: a
 * string that is asked, a string or a number that is changed, a number that is written, one that may be NULL, and arrays with
 * how many elements they have. */
#ifdef __has_attribute
#if __has_attribute(access)
#define WTF8_ACCESS(...) __attribute__((access(__VA_ARGS__)))
#endif
#endif
#ifndef WTF8_ACCESS
#define WTF8_ACCESS(...)
#endif
#ifdef __GNUC__
#define WTF8_NONNULL(...) __attribute__((nonnull(__VA_ARGS__)))
#else
#define WTF8_NONNULL(...)
#endif
#define WTF8_ASKS(at) WTF8_NONNULL(at) WTF8_ACCESS(read_only, at)
#define WTF8_CHANGES(at) WTF8_NONNULL(at) WTF8_ACCESS(read_write, at)
#define WTF8_WRITES(at) WTF8_NONNULL(at) WTF8_ACCESS(write_only, at)
#define WTF8_MAY_WRITE(at) WTF8_ACCESS(write_only, at)
#define WTF8_READS(at, n) WTF8_ACCESS(read_only, at, n)
#define WTF8_FILLS(at, n) WTF8_ACCESS(write_only, at, n)

/* The number of words in the struct of a string. */
#define WTF8_WORDS 7

/* A string: the struct holds all but its bytes and its marks. It owns its memory; the caller owns the struct, whose size is
 * part of the binary interface, as are the numbers of the codes: libwtf8.so.0 keeps them. */
typedef struct {
    uint64_t words[WTF8_WORDS];
} wtf8_string;

/* The empty string: `wtf8_string name = WTF8_EMPTY;`. */
#ifdef __cplusplus
#define WTF8_EMPTY {}
#else
#define WTF8_EMPTY {{0}}
#endif

/* What calls return. Any code but WTF8_OK says that no string and no array was changed; only the capacity of a string that
 * units are appended to may have grown before memory was refused. */
typedef enum wtf8_result {
    WTF8_OK = 0,              /* the call did what it says */
    WTF8_NO_MEMORY = 1,       /* memory was refused */
    WTF8_BAD_POSITION = 2,    /* an index or a position is after the end, or not a boundary */
    WTF8_ARRAY_TOO_SHORT = 3, /* the array is too short; *len says how long it must be */
    WTF8_HAS_SURROGATE = 4,   /* the string holds a surrogate, so it is not a text in UTF-8 */
    WTF8_BAD_CODE_POINT = 5,  /* the number is greater than 10FFFF */
    WTF8_NOT_UTF8 = 6,        /* the bytes are not UTF-8 */
    WTF8_END = 7,             /* there is no further code point, surrogate or index */
    WTF8_NOT_LATIN1 = 8       /* a unit is greater than FF, so the string is not a text in Latin-1; since 0.2.0 */
} wtf8_result;

/* The code in words, for a message. The text is static. */
const char *wtf8_result_text(wtf8_result code);

/* The version of the library, as WTF8_VERSION. */
const char *wtf8_version(void);

/* Has the library call these in place of malloc, realloc and free, which each does the work of. This is called while no
 * string has a buffer, and no other thread uses the library. They may be called in any thread that changes strings, return
 * to their caller (no exception, no longjmp), and call nothing of this library but what wtf8_memory_in_use returned. */
WTF8_NONNULL(1, 2, 3)
void wtf8_use_memory(void *(*allocate)(size_t), void *(*reallocate)(void *, size_t), void (*release)(void *));

/* Functions that are also given `context`. */
typedef struct wtf8_memory {
    void *(*allocate)(void *context, size_t n);
    void *(*reallocate)(void *context, void *block, size_t n);
    void (*release)(void *context, void *block);
    void *context;
} wtf8_memory;

/* The same with a context. Since 0.2.0. */
void wtf8_use_memory_with(wtf8_memory memory);

/* The functions that the library calls. They stay what they are, so that wtf8_use_memory_with may be given them later, and each
 * of both calls functions that call them. Those of wtf8_use_memory, and malloc, realloc and free, take no heed of a context. All
 * are NULL for the eighth set of functions beside malloc's that wtf8_use_memory was given, and later ones. Since 0.2.0. */
wtf8_memory wtf8_memory_in_use(void);

/* ---- Making a string ----
 *
 * A wtf8_set_ call uses the string's capacity if the new string fits it, and keeps it, and is not refused then: of a text
 * or a string its bytes in WTF-8 have to fit, of up to 1,024 units 3 bytes for each, of more units their bytes. Else it makes a new
 * buffer, and keeps the old one until that is filled. A string that was not written has no capacity.
 */

/* The number of bytes of a string with these `n` units: 1 for each below 80, 2 for each other below 800, 4 for each
 * surrogate pair, 3 for any other unit. */
WTF8_READS(1, 2)
size_t wtf8_encoded_len(const uint16_t *units, size_t n);

/* Writes the number of units of a text of `n` bytes in UTF-8 to `*len`; a string of it has `n` bytes. With NOT_UTF8 only the
 * position of the first byte that is not UTF-8 is written, to `*valid`, unless that is NULL. Codes: OK, NOT_UTF8. Since
 * 0.2.0. */
WTF8_CODE WTF8_READS(1, 2) WTF8_WRITES(3) WTF8_MAY_WRITE(4)
wtf8_result wtf8_utf8_unit_len(const uint8_t *text, size_t n, size_t *len, size_t *valid);

/* Replaces the string by `n` units. Never refused if 3 bytes for each fit, or, of more than 1,024 units, if their bytes do
 * (wtf8_encoded_len). Else a string that has a buffer gets a capacity of 3 bytes for each of up to 1,024 units, so that
 * the next call with as many needs no memory, and for more units of just their bytes, or of one for each first if the
 * first unit is ASCII. Codes: OK, NO_MEMORY. */
WTF8_CODE WTF8_CHANGES(1) WTF8_READS(2, 3)
wtf8_result wtf8_set_units(wtf8_string *string, const uint16_t *units, size_t n);

/* Replaces the string by a text of `n` bytes. With NOT_UTF8 the position of the first byte that is not UTF-8 is written
 * to `*valid`, unless that is NULL. Never refused if the text fits. Codes: OK, NO_MEMORY, NOT_UTF8. */
WTF8_CODE WTF8_CHANGES(1) WTF8_READS(2, 3) WTF8_MAY_WRITE(4)
wtf8_result wtf8_set_utf8(wtf8_string *string, const uint8_t *text, size_t n, size_t *valid);

/* Replaces the string by a text of `n` bytes in Latin-1, each of which is the code point of its value: one byte below 80, two
 * from there on. Never refused if they fit. Codes: OK, NO_MEMORY. Since 0.2.0. */
WTF8_CODE WTF8_CHANGES(1) WTF8_READS(2, 3)
wtf8_result wtf8_set_latin1(wtf8_string *string, const uint8_t *text, size_t n);

/* Replaces the string by a copy of `other`. Never refused if it fits. Codes: OK, NO_MEMORY. */
WTF8_CODE WTF8_CHANGES(1) WTF8_ASKS(2)
wtf8_result wtf8_set_string(wtf8_string *string, const wtf8_string *other);

/* Frees what `string` owns and gives it all that `other` owns, its capacity and its marks too: `other` is the empty string
 * then. Nothing happens if both are one string. Constant. Since 0.2.0. */
WTF8_CHANGES(1) WTF8_CHANGES(2)
void wtf8_move(wtf8_string *string, wtf8_string *other);

/* Empties the string and keeps its capacity. Constant. */
WTF8_CHANGES(1)
void wtf8_clear(wtf8_string *string);

/* Frees what the string owns, which is the empty string then. Freeing it again does nothing. */
WTF8_CHANGES(1)
void wtf8_free(wtf8_string *string);

/* Reserves capacity for at least `additional` more bytes: a unit takes at most 3. Never refused if they fit. Codes: OK,
 * NO_MEMORY. */
WTF8_CODE WTF8_CHANGES(1)
wtf8_result wtf8_reserve_bytes(wtf8_string *string, size_t additional);

/* Gives the capacity back that the string does not use. If memory for the smaller block is refused, it keeps the capacity. */
WTF8_CHANGES(1)
void wtf8_shrink(wtf8_string *string);

/* ---- Marks ----
 *
 * Calls that find a unit by its index take constant time in a string of ASCII. Else they count units: at most 129 of them
 * from a mark if the string has marks; without marks those from the start, or from the end to one of the last 128. For a
 * position in bytes the marks are searched, by halves. So wtf8_mark comes before a loop of searches, or of other calls by
 * index: without marks such a loop takes quadratic time.
 */

/* Makes a mark for each 128 units of the string, if it is not ASCII. Appends and truncations keep the string marked, and so
 * does a wtf8_set_ call or wtf8_slice_units that uses its capacity; if one makes a new buffer, the string has no marks. A
 * mark for which memory is refused is left out, as those after it, until an append finds memory for them. If the block that
 * lists the marks is refused, none are kept until the next wtf8_mark. Linear in the length. Codes: OK, so that the code need
 * not be looked at. */
WTF8_CHANGES(1)
wtf8_result wtf8_mark(wtf8_string *string);

/* ---- Appending ---- */

/* Each appends to the string. A trail after a lead completes the pair. A call whose bytes fit the capacity is never
 * refused, except as wtf8_push_string and wtf8_push_slice say of one string passed twice. */

/* One unit. Never refused if it fits. Codes: OK, NO_MEMORY. */
WTF8_CODE WTF8_CHANGES(1)
wtf8_result wtf8_push_unit(wtf8_string *string, uint16_t unit);

/* One code point, a surrogate too. Never refused if it fits. Codes: OK, NO_MEMORY, BAD_CODE_POINT. */
WTF8_CODE WTF8_CHANGES(1)
wtf8_result wtf8_push_code_point(wtf8_string *string, uint32_t value);

/* `n` code points, surrogates too, if none is greater than 10FFFF: all of them or none. Never refused if they fit. Codes: OK,
 * NO_MEMORY, BAD_CODE_POINT. Since 0.2.0. */
WTF8_CODE WTF8_CHANGES(1) WTF8_READS(2, 3)
wtf8_result wtf8_push_code_points(wtf8_string *string, const uint32_t *points, size_t n);

/* `n` units. Never refused if they fit. Codes: OK, NO_MEMORY. */
WTF8_CODE WTF8_CHANGES(1) WTF8_READS(2, 3)
wtf8_result wtf8_push_units(wtf8_string *string, const uint16_t *units, size_t n);

/* A text of `n` bytes in Latin-1, each of which is the code point of its value. Never refused if it fits. Codes: OK,
 * NO_MEMORY. */
WTF8_CODE WTF8_CHANGES(1) WTF8_READS(2, 3)
wtf8_result wtf8_push_latin1(wtf8_string *string, const uint8_t *text, size_t n);

/* A text of `n` bytes. `valid` is as in wtf8_set_utf8. Never refused if it fits. Codes: OK, NO_MEMORY, NOT_UTF8. */
WTF8_CODE WTF8_CHANGES(1) WTF8_READS(2, 3) WTF8_MAY_WRITE(4)
wtf8_result wtf8_push_utf8(wtf8_string *string, const uint8_t *text, size_t n, size_t *valid);

/* The longest front of `n` bytes that is UTF-8. Its length is written to `*used`, and to `*bad` how many bytes after it are
 * wrong together, so that one U+FFFD stands for them: 0 if all bytes were taken, or if those left are cut off within a
 * code point. Never refused if the front fits. Codes: OK, NO_MEMORY. */
WTF8_CODE WTF8_CHANGES(1) WTF8_READS(2, 3) WTF8_WRITES(4) WTF8_WRITES(5)
wtf8_result wtf8_push_utf8_part(wtf8_string *string, const uint8_t *text, size_t n, size_t *used, size_t *bad);

/* `n` bytes read as UTF-8, with U+FFFD for each maximal part that is not, as decoders of browsers and Python's
 * errors="replace" do: one for each byte that begins no code point, one for the bytes of a code point that is cut short.
 * Never refused if that fits. Codes: OK, NO_MEMORY. Since 0.2.0. */
WTF8_CODE WTF8_CHANGES(1) WTF8_READS(2, 3)
wtf8_result wtf8_push_utf8_lossy(wtf8_string *string, const uint8_t *text, size_t n);

/* The same of a part of a stream: a code point that is unfinished at its end, of at most 3 bytes, is left out. The number of
 * bytes before it is written to `*used`: the others go before the next part, and after the last one to
 * wtf8_push_utf8_lossy. Codes: OK, NO_MEMORY. Since 0.2.0. */
WTF8_CODE WTF8_CHANGES(1) WTF8_READS(2, 3) WTF8_WRITES(4)
wtf8_result wtf8_push_utf8_lossy_part(wtf8_string *string, const uint8_t *text, size_t n, size_t *used);

/* Another string. Never refused if it fits, unless both are one string. Codes: OK, NO_MEMORY. */
WTF8_CODE WTF8_CHANGES(1) WTF8_ASKS(2)
wtf8_result wtf8_push_string(wtf8_string *string, const wtf8_string *other);

/* The units of `other` from `begin`, found by the marks, to before `end`. Never refused if they fit, unless both are one
 * string. Codes: OK, NO_MEMORY, BAD_POSITION (`begin` is greater than `end`, or `end` than the length). */
WTF8_CODE WTF8_CHANGES(1) WTF8_ASKS(2)
wtf8_result wtf8_push_slice(wtf8_string *string, const wtf8_string *other, size_t begin, size_t end);

/* ---- Asking ---- */

/* These only read their strings. */

/* The number of units. Constant. */
WTF8_ASKS(1)
size_t wtf8_unit_len(const wtf8_string *string);

/* The length in bytes. Constant. */
WTF8_ASKS(1)
size_t wtf8_byte_len(const wtf8_string *string);

/* The number of bytes that the string can have before memory is requested. Constant. */
WTF8_ASKS(1)
size_t wtf8_capacity(const wtf8_string *string);

/* Writes the position in bytes of the boundary before the unit at `index`, found by the marks, to `*position`: of the end
 * if `index` is the length, of the pair if `index` divides one. Codes: OK, BAD_POSITION (`index` is greater than the
 * length). */
WTF8_CODE WTF8_ASKS(1) WTF8_WRITES(3)
wtf8_result wtf8_position_at(const wtf8_string *string, size_t index, size_t *position);

/* The number of units before the last boundary at or before `position` in bytes; the length if `position` is after the
 * end. Constant in ASCII; else it counts units as wtf8_truncate_bytes does. */
WTF8_ASKS(1)
size_t wtf8_unit_before(const wtf8_string *string, size_t position);

/* Writes the unit at `index`, found by the marks, to `*unit`. Codes: OK, BAD_POSITION (`index` is the length or
 * greater). */
WTF8_CODE WTF8_ASKS(1) WTF8_WRITES(3)
wtf8_result wtf8_unit_at(const wtf8_string *string, size_t index, uint16_t *unit);

/* Whether a position in bytes is a code point boundary: 0 and the length are, a position after the end is not. Constant. */
WTF8_CODE WTF8_ASKS(1)
bool wtf8_is_boundary(const wtf8_string *string, size_t position);

/* Writes the code point after the boundary `*position` to `*code_point`, a lone surrogate too, and moves `*position` past
 * it, from 0 at the start to the length in bytes at the end. Any code but OK leaves both numbers as they are. Constant.
 * Codes: OK, BAD_POSITION (`*position` is not a boundary), END (it is the length in bytes). */
WTF8_CODE WTF8_ASKS(1) WTF8_CHANGES(2) WTF8_WRITES(3)
wtf8_result wtf8_next_code_point(const wtf8_string *string, size_t *position, uint32_t *code_point);

/* The same of the code point before `*position`, which moves back to its start. Constant. Codes: OK, BAD_POSITION
 * (`*position` is not a boundary), END (it is 0). */
WTF8_CODE WTF8_ASKS(1) WTF8_CHANGES(2) WTF8_WRITES(3)
wtf8_result wtf8_previous_code_point(const wtf8_string *string, size_t *position, uint32_t *code_point);

/* Writes the code point before the unit at `index`, found by the marks, to `*code_point`, a lone surrogate too: the lead of a
 * pair that `index` divides. It has two units if it is 10000 or greater, else one. Codes: OK, BAD_POSITION (`index` is greater
 * than the length), END (it is 0). Since 0.2.0. */
WTF8_CODE WTF8_ASKS(1) WTF8_WRITES(3)
wtf8_result wtf8_code_point_before(const wtf8_string *string, size_t index, uint32_t *code_point);

/* Writes the first surrogate after the boundary `*position` to `*unit`, and moves `*position` past its 3 bytes: what was
 * between is text. Any code but OK leaves both numbers as they are. Linear in the bytes that it moves over, constant in
 * an ASCII string. Codes: OK, BAD_POSITION (`*position` is not a boundary), END (no surrogate is after it). */
WTF8_CODE WTF8_ASKS(1) WTF8_CHANGES(2) WTF8_WRITES(3)
wtf8_result wtf8_next_surrogate(const wtf8_string *string, size_t *position, uint16_t *unit);

/* Writes the code points after the boundary `*position` to the front of `out` until its `size` elements are full or the
 * string ends, and their number to `*len`, and moves `*position` past them: OK if `size` is 0, too. Any code but OK writes
 * nothing. Linear in what it writes. Codes: OK, BAD_POSITION (`*position` is not a boundary), END (it is the length in
 * bytes). */
WTF8_CODE WTF8_ASKS(1) WTF8_CHANGES(2) WTF8_FILLS(3, 4) WTF8_WRITES(5)
wtf8_result wtf8_copy_code_points(const wtf8_string *string, size_t *position, uint32_t *out, size_t size, size_t *len);

/* Whether the string holds no surrogate, so that wtf8_copy_utf8 gives its text. Constant if it is ASCII, else linear. */
WTF8_CODE WTF8_ASKS(1)
bool wtf8_is_utf8(const wtf8_string *string);

/* Whether each unit is ASCII, below 80. Constant: such a string has one byte for each unit. Since 0.2.0. */
WTF8_CODE WTF8_ASKS(1)
bool wtf8_is_ascii(const wtf8_string *string);

/* Whether each unit is at most FF, so that wtf8_copy_latin1 gives its text. Constant in ASCII, else linear in the length up to
 * the first that is not. Since 0.2.0. */
WTF8_CODE WTF8_ASKS(1)
bool wtf8_is_latin1(const wtf8_string *string);

/* Whether two strings have the same units. Linear in the shorter length, constant if the lengths in bytes differ. */
WTF8_CODE WTF8_ASKS(1) WTF8_ASKS(2)
bool wtf8_equal(const wtf8_string *string, const wtf8_string *other);

/* Compare two strings, by their units as JavaScript does, or by their code points as their bytes in UTF-8 would: -1 if
 * the first comes before the second, 0 if they are equal, 1 if it comes after. Linear in what the two begin with alike. */
WTF8_ASKS(1) WTF8_ASKS(2)
int32_t wtf8_compare_units(const wtf8_string *string, const wtf8_string *other);
WTF8_ASKS(1) WTF8_ASKS(2)
int32_t wtf8_compare_code_points(const wtf8_string *string, const wtf8_string *other);

/* The same of the string and `n` units, without a string of them: whether they are its units, and the order by units. */
WTF8_CODE WTF8_ASKS(1) WTF8_READS(2, 3)
bool wtf8_equal_units(const wtf8_string *string, const uint16_t *units, size_t n);
WTF8_ASKS(1) WTF8_READS(2, 3)
int32_t wtf8_compare_with_units(const wtf8_string *string, const uint16_t *units, size_t n);

/* Whether `n` bytes are UTF-8, and the text is that of the string, without a string of it. Constant if `n` is another length
 * than the string's in bytes, else linear in what the two begin with alike. */
WTF8_CODE WTF8_ASKS(1) WTF8_READS(2, 3)
bool wtf8_equal_utf8(const wtf8_string *string, const uint8_t *text, size_t n);

/* Compares a string with a text of `n` bytes by their units, as wtf8_compare_with_units does, without a string of it. If the
 * bytes are not UTF-8, -1: they come after each string. Linear in `n`. Since 0.2.0. */
WTF8_ASKS(1) WTF8_READS(2, 3)
int32_t wtf8_compare_with_utf8(const wtf8_string *string, const uint8_t *text, size_t n);

/* Whether `n` bytes are UTF-8, and the string begins with the units of the text. An end within a code point is not UTF-8, so
 * no string begins with it. Linear in what the two begin with alike. Since 0.2.0. */
WTF8_CODE WTF8_ASKS(1) WTF8_READS(2, 3)
bool wtf8_starts_with_utf8(const wtf8_string *string, const uint8_t *text, size_t n);

/* Whether the units of `string` from `index` on, found by the marks, begin with those of `other`. If that has none, they do
 * at each index, also after the end. Linear in the length of `other`. */
WTF8_CODE WTF8_ASKS(1) WTF8_ASKS(3)
bool wtf8_starts_with(const wtf8_string *string, size_t index, const wtf8_string *other);

/* The same of `n` units, without a string of them. */
WTF8_CODE WTF8_ASKS(1) WTF8_READS(3, 4)
bool wtf8_starts_with_units(const wtf8_string *string, size_t index, const uint16_t *units, size_t n);

/* Writes the first index at or after `from`, found by the marks, at which the units of `other` occur, also within a pair, to
 * `*index`. If `other` has no units they do at `from`, unless that is after the end. END leaves `*index`. Linear in the
 * distance to the index and the length of `other`; where the first 2,048 bytes of a longer `other` occur, what follows them
 * is compared, until it differs. Codes: OK, END (they occur at no such index). Since 0.2.0. */
WTF8_CODE WTF8_ASKS(1) WTF8_ASKS(3) WTF8_WRITES(4)
wtf8_result wtf8_find(const wtf8_string *string, size_t from, const wtf8_string *other, size_t *index);

/* The same of `n` units, without a string of them; the first 2,048 units count as the bytes do there. Since 0.2.0. */
WTF8_CODE WTF8_ASKS(1) WTF8_READS(3, 4) WTF8_WRITES(5)
wtf8_result wtf8_find_units(const wtf8_string *string, size_t from, const uint16_t *units, size_t n, size_t *index);

/* The last index at or before `from` at which the units of `other` occur; if `other` has none, `from` or the end, whichever
 * comes first. All else is as in wtf8_find, the distance being that from `from` or the end to the index. Since 0.2.0. */
WTF8_CODE WTF8_ASKS(1) WTF8_ASKS(3) WTF8_WRITES(4)
wtf8_result wtf8_rfind(const wtf8_string *string, size_t from, const wtf8_string *other, size_t *index);

/* The same of `n` units, without a string of them, as by wtf8_find_units. Since 0.2.0. */
WTF8_CODE WTF8_ASKS(1) WTF8_READS(3, 4) WTF8_WRITES(5)
wtf8_result wtf8_rfind_units(const wtf8_string *string, size_t from, const uint16_t *units, size_t n, size_t *index);

/* Whether a cut at `index`, found by the marks, divides a surrogate pair: false at the end and after it. Since 0.2.0. */
WTF8_CODE WTF8_ASKS(1)
bool wtf8_divides_pair(const wtf8_string *string, size_t index);

/* A hash for tables: SipHash-1-3 under the key 0 of the 16 bytes of the seed, the lowest byte of `seed_0` first, the bytes of
 * the string, and one byte FE. A seed that nobody knows, made at the start of the program, keeps a table from strings that
 * were chosen to collide. Equal strings have equal hashes under one seed; values may differ in another version of the
 * library. Linear in the length. */
WTF8_ASKS(1)
uint64_t wtf8_hash(const wtf8_string *string, uint64_t seed_0, uint64_t seed_1);

/* The hash of the string with these `n` units, without a string of them, to look them up in a table of strings. */
WTF8_READS(1, 2)
uint64_t wtf8_hash_units(const uint16_t *units, size_t n, uint64_t seed_0, uint64_t seed_1);

/* The same of the string with a text of `n` bytes. Other bytes have a hash as well, but no string is equal to them. */
WTF8_READS(1, 2)
uint64_t wtf8_hash_utf8(const uint8_t *text, size_t n, uint64_t seed_0, uint64_t seed_1);

/* ---- Cutting ----
 *
 * A string that is shortened keeps its capacity.
 */

/* Shortens the string to `n` units, found by the marks. A pair that this divides leaves its lead. Codes: OK, BAD_POSITION. */
WTF8_CODE WTF8_CHANGES(1)
wtf8_result wtf8_truncate_units(wtf8_string *string, size_t n);

/* Shortens the string to `position` bytes, a boundary. It counts the units from a mark or the start to there, or from there
 * to the end if that is nearer. Codes: OK, BAD_POSITION. */
WTF8_CODE WTF8_CHANGES(1)
wtf8_result wtf8_truncate_bytes(wtf8_string *string, size_t position);

/* Takes the last code point off, and writes it to `*code_point`, a lone surrogate too. Constant. Codes: OK, END (the string
 * is empty). */
WTF8_CODE WTF8_CHANGES(1) WTF8_WRITES(2)
wtf8_result wtf8_pop(wtf8_string *string, uint32_t *code_point);

/* Replaces `into` by the units of `string` from `begin`, found by the marks, to before `end`. Uses the capacity of `into` as
 * a wtf8_set_ call does; never refused if that is `string` itself, which is cut. Codes: OK, NO_MEMORY, BAD_POSITION (`begin`
 * is greater than `end`, or `end` than the length). */
WTF8_CODE WTF8_CHANGES(1) WTF8_ASKS(2)
wtf8_result wtf8_slice_units(wtf8_string *into, const wtf8_string *string, size_t begin, size_t end);

/* ---- Editing ----
 *
 * A pair that an index divides is cut, and a lead and a trail that then meet become one code point. The marks find the
 * index; then each call is linear in the new units and in the bytes after them, which move once. A call whose bytes fit the
 * capacity is never refused, and each makes at most one request, but for marks: those after the index are made anew. If
 * wtf8_insert or wtf8_replace is passed one string twice, a copy of it is requested first, which may be refused.
 */

/* Inserts `n` units before the one at `index`. Codes: OK, NO_MEMORY, BAD_POSITION (`index` is greater than the length).
 * Since 0.2.0. */
WTF8_CODE WTF8_CHANGES(1) WTF8_READS(3, 4)
wtf8_result wtf8_insert_units(wtf8_string *string, size_t index, const uint16_t *units, size_t n);

/* Removes the units from `begin` to before `end`. Never refused: the string becomes no longer. Codes: OK, BAD_POSITION
 * (`begin` is greater than `end`, or `end` than the length). Since 0.2.0. */
WTF8_CODE WTF8_CHANGES(1)
wtf8_result wtf8_remove_units(wtf8_string *string, size_t begin, size_t end);

/* Replaces the units from `begin` to before `end` by `n` units. Codes: as of wtf8_remove_units, and NO_MEMORY. Since 0.2.0. */
WTF8_CODE WTF8_CHANGES(1) WTF8_READS(4, 5)
wtf8_result wtf8_replace_units(wtf8_string *string, size_t begin, size_t end, const uint16_t *units, size_t n);

/* Inserts another string before the unit at `index`: its bytes are copied, not encoded. Codes: as of wtf8_insert_units.
 * Since 0.2.0. */
WTF8_CODE WTF8_CHANGES(1) WTF8_ASKS(3)
wtf8_result wtf8_insert(wtf8_string *string, size_t index, const wtf8_string *other);

/* Replaces the units from `begin` to before `end` by another string. Codes: as of wtf8_replace_units. Since 0.2.0. */
WTF8_CODE WTF8_CHANGES(1) WTF8_ASKS(4)
wtf8_result wtf8_replace(wtf8_string *string, size_t begin, size_t end, const wtf8_string *other);

/* ---- Copying out ----
 *
 * An array of size 0 asks for the length. An array of wtf8_byte_len elements always suffices. `*len` is written with OK
 * and ARRAY_TOO_SHORT alone.
 */

/* Writes all units at the front of `out`, which has room for `size`, and their number to `*len`. If the array is too
 * short, only the number is written. Codes: OK, ARRAY_TOO_SHORT. */
WTF8_CODE WTF8_ASKS(1) WTF8_FILLS(2, 3) WTF8_WRITES(4)
wtf8_result wtf8_copy_units(const wtf8_string *string, uint16_t *out, size_t size, size_t *len);

/* The same of the units from `begin`, found by the marks, to before `end`. Codes: OK, BAD_POSITION, ARRAY_TOO_SHORT. */
WTF8_CODE WTF8_ASKS(1) WTF8_FILLS(4, 5) WTF8_WRITES(6)
wtf8_result wtf8_copy_slice(const wtf8_string *string, size_t begin, size_t end, uint16_t *out, size_t size, size_t *len);

/* The same of the text in UTF-8, `*len` in bytes, if there is no surrogate. Codes: OK, HAS_SURROGATE, ARRAY_TOO_SHORT. */
WTF8_CODE WTF8_ASKS(1) WTF8_FILLS(2, 3) WTF8_WRITES(4)
wtf8_result wtf8_copy_utf8(const wtf8_string *string, uint8_t *out, size_t size, size_t *len);

/* The same of the text with U+FFFD in place of each surrogate. Codes: OK, ARRAY_TOO_SHORT. */
WTF8_CODE WTF8_ASKS(1) WTF8_FILLS(2, 3) WTF8_WRITES(4)
wtf8_result wtf8_copy_lossy(const wtf8_string *string, uint8_t *out, size_t size, size_t *len);

/* The same of the units, each as one byte, if none is greater than FF: a text in Latin-1, or in ASCII if the string is. With
 * NOT_LATIN1 only the index of the first unit that is greater is written, to `*valid`, unless that is NULL. The string is read
 * before anything is written. Codes: OK, NOT_LATIN1, ARRAY_TOO_SHORT. Since 0.2.0. */
WTF8_CODE WTF8_ASKS(1) WTF8_FILLS(2, 3) WTF8_WRITES(4) WTF8_MAY_WRITE(5)
wtf8_result wtf8_copy_latin1(const wtf8_string *string, uint8_t *out, size_t size, size_t *len, size_t *valid);

#ifdef __cplusplus
}
#endif

/* With a sanitizer, each call tells it what it reads and writes. WTF8_SILENT, defined before, leaves that out. */
#ifdef __has_feature
#if __has_feature(address_sanitizer)
#define WTF8_WITH_ADDRESS
#elif __has_feature(thread_sanitizer)
#define WTF8_WITH_THREAD
#elif __has_feature(memory_sanitizer)
#define WTF8_WITH_MEMORY
#endif
#elif defined(__SANITIZE_ADDRESS__)
#define WTF8_WITH_ADDRESS
#elif defined(__SANITIZE_THREAD__)
#define WTF8_WITH_THREAD
#endif
#if !defined(WTF8_SILENT) && (defined(WTF8_WITH_ADDRESS) || defined(WTF8_WITH_THREAD) || defined(WTF8_WITH_MEMORY))
#include "wtf8_sanitizers.h"
#endif

#endif
