/* The program's requests for memory, counted, and refused on demand; arrays of an exact size. Linked with
 * -Wl,--wrap=malloc,--wrap=realloc,--wrap=free, or compiled with USE_MEMORY, and then only the library's requests are
 * refused. A file that includes this defines _DEFAULT_SOURCE first, for mmap. */
#ifndef REQUESTS_H
#define REQUESTS_H

#include "must.h"

#include <stdint.h>
#include <stdlib.h>
#include <string.h>
#include <sys/mman.h>

static long refuse_after = -1; /* the number of requests that are granted before all are refused; -1: all are granted */
static int refuse_once; /* whether one request is refused then, and all are granted after it */
static long requests;
static long refusals;
static long blocks; /* the number of blocks that were granted and not freed */

#ifdef USE_MEMORY
#include "../wtf8.h"

#define __real_malloc malloc
#define __real_realloc realloc
#define __real_free free
void *__wrap_malloc(size_t size);
void *__wrap_realloc(void *at, size_t size);
void __wrap_free(void *at);

__attribute__((constructor)) static void use_memory(void) {
    wtf8_use_memory(__wrap_malloc, __wrap_realloc, __wrap_free);
}
#else
void *__real_malloc(size_t size);
void *__real_realloc(void *at, size_t size);
void __real_free(void *at);
#endif

static int is_refused(void) {
    requests++;
    if (refuse_after > 0) refuse_after--;
    else if (refuse_after == 0) {
        if (refuse_once) refuse_after = -1;
        return 1;
    }
    return 0;
}

static void *granted(void *at, int is_new) {
    if (at == NULL) refusals++;
    else if (is_new) blocks++;
    return at;
}

void *__wrap_malloc(size_t size) {
    return granted(is_refused() ? NULL : __real_malloc(size), 1);
}

void *__wrap_realloc(void *at, size_t size) {
    return granted(is_refused() ? NULL : __real_realloc(at, size), at == NULL);
}

void __wrap_free(void *at) {
    if (at != NULL) blocks--;
    __real_free(at);
}

/* Arrays end where a page begins that can be neither read nor written, so that a call that reads or writes after an array
 * ends the test. The bytes before an array are compared. */
enum { ARRAYS = 4, ARRAY_PAGES = 256, PAGE = 4096, BEFORE = 16 };

static uint8_t *array_pages;
static int is_taken[ARRAYS];

/* An array of `size` bytes, each 5A, as is each byte before it that is compared. */
static void *an_array(size_t size) {
    enum { SLOT = (ARRAY_PAGES + 1) * PAGE };
    if (array_pages == NULL) {
        array_pages = mmap(NULL, (size_t)ARRAYS * SLOT, PROT_READ | PROT_WRITE, MAP_PRIVATE | MAP_ANONYMOUS, -1, 0);
        must(array_pages != MAP_FAILED, "no pages for the test");
        for (int i = 0; i < ARRAYS; i++)
            must(mprotect(array_pages + (i + 1) * SLOT - PAGE, PAGE, PROT_NONE) == 0, "pages that cannot be read");
    }
    int i = 0;
    while (i < ARRAYS && is_taken[i]) i++;
    must(i < ARRAYS && size + BEFORE <= ARRAY_PAGES * PAGE, "no array for the test");
    is_taken[i] = 1;
    uint8_t *end = array_pages + (i + 1) * SLOT - PAGE;
    memset(end - size - BEFORE, 0x5A, size + BEFORE);
    return end - size;
}

/* The array of these bytes. */
static void *array_of(const void *bytes, size_t size) {
    void *array = an_array(size);
    return size > 0 ? memcpy(array, bytes, size) : array;
}

/* Frees the array. It must begin with the `len` bytes of `front`, and have what `an_array` wrote after and before them. */
static void must_begin(void *array, size_t size, const void *front, size_t len, const char *what) {
    const uint8_t *bytes = array;
    must(len <= size && (len == 0 || memcmp(bytes, front, len) == 0), what);
    for (size_t i = len; i < size; i++) must(bytes[i] == 0x5A, what);
    for (size_t i = 1; i <= BEFORE; i++) must(*(bytes - i) == 0x5A, what);
    is_taken[(size_t)(bytes - array_pages) / ((ARRAY_PAGES + 1) * PAGE)] = 0;
}

#endif
