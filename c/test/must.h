/* How a test ends at a difference. */
#ifndef MUST_H
#define MUST_H

#include <stdio.h>
#include <stdlib.h>

static inline void must(int holds, const char *what) {
    if (holds) return;
    fprintf(stderr, "difference: %s\n", what);
    exit(1);
}

#endif
