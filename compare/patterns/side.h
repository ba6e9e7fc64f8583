/* What a library under comparison offers to measure.c, which loads each as a shared object. */
#ifndef SIDE_H
#define SIDE_H

#include <stdbool.h>
#include <stddef.h>
#include <stdint.h>

#ifdef __cplusplus
extern "C" {
#endif
#define SIDE __attribute__((visibility("default")))

/* Whether the processor can run the side. */
SIDE bool side_can_run(void);

/* The way in: makes a string of units, and frees it. Returns whether they were converted. */
SIDE bool side_in(const uint16_t *units, size_t n);

/* The way of texts: makes a string of a text in UTF-8, and frees it. Returns whether it is one. */
SIDE bool side_text(const uint8_t *text, size_t n);

/* A string of units for the way out, or NULL if the side cannot have it. */
SIDE void *side_make(const uint16_t *units, size_t n);
SIDE void side_free(void *string);

/* The length in bytes of such a string. */
SIDE size_t side_byte_len(const void *string);

/* The way out: writes the units of such a string to an array of `size` units, where they fit. Returns their number. */
SIDE size_t side_out(const void *string, uint16_t *out, size_t size);

#ifdef __cplusplus
}
#endif

#endif
