/* A string of a side that has no type for one. */
#ifndef BYTES_H
#define BYTES_H

#include <stddef.h>

/* The bytes are aligned as a block of malloc is. */
struct bytes {
    size_t n, unused;
    unsigned char at[];
};

/* Keeps the compiler from removing the stores to a block that is freed. */
static inline void use(const void *block) {
    __asm__ volatile("" : : "r"(block) : "memory");
}

#endif
