/* Threads with a string each. */
#include "../wtf8.h"

#include <pthread.h>
#include <stdio.h>

enum { THREADS = 4, UNITS = 20000 };

static void *work(void *number) {
    size_t first = (size_t)*(long *)number;
    wtf8_string string = WTF8_EMPTY;
    uint16_t unit = 0;
    long bad = 0;
    for (size_t i = 0; i < UNITS; i++)
        bad += wtf8_push_unit(&string, (uint16_t)(i * 7 + first)) != WTF8_OK;
    for (size_t i = 0; i < UNITS; i += 500) {
        bad += wtf8_unit_at(&string, i, &unit) != WTF8_OK;
        bad += unit != (uint16_t)(i * 7 + first);
    }
    bad += wtf8_unit_len(&string) != UNITS;
    wtf8_free(&string);
    *(long *)number = bad;
    return NULL;
}

int main(void) {
    pthread_t threads[THREADS];
    long numbers[THREADS], bad = 0;
    for (long i = 0; i < THREADS; i++) {
        numbers[i] = i;
        if (pthread_create(&threads[i], NULL, work, &numbers[i])) return 1;
    }
    for (int i = 0; i < THREADS; i++) {
        pthread_join(threads[i], NULL);
        bad += numbers[i];
    }
    printf("threads: %ld differences\n", bad);
    return bad != 0;
}
