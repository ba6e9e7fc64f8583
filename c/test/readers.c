/* Two threads that ask one string at once. Argument: the number of questions. */
#include "questions.h"

#include <pthread.h>
#include <stdio.h>
#include <stdlib.h>

enum { THREADS = 2 };

static const uint16_t pattern[] = {'a', 0xE9, 0x4E2D, 0xD83D, 0xDCA9, 'b', 0xD800, 'c', 0xDFFF, 'd'};
static struct pair asked, other;
static struct answers answers;
static long questions = 2000000;

/* Asks half of the questions. The result is the number of wrong answers. */
static void *ask(void *wrong) {
    wtf8_string own = WTF8_EMPTY;
    for (long i = 0; i < questions / THREADS; i++)
        *(long *)wrong += !is_right((unsigned)(i % QUESTIONS), (size_t)i * 31, &asked, &other, &answers, &own);
    wtf8_free(&own);
    return NULL;
}

int main(int count, char **words) {
    pthread_t threads[THREADS];
    long wrong[THREADS] = {0}, sum = 0;
    if (count > 1) questions = strtol(words[1], NULL, 10);
    for (asked.n = 0; asked.n < 100; asked.n++) asked.units[asked.n] = pattern[asked.n % 10];
    memcpy(other.units, asked.units, sizeof asked.units);
    other.n = asked.n - 1;
    if (wtf8_set_units(&asked.string, asked.units, asked.n) != WTF8_OK) return 1;
    if (wtf8_set_units(&other.string, other.units, other.n) != WTF8_OK) return 1;
    answers = answers_of(&asked, &other);
    for (int i = 0; i < THREADS; i++)
        if (pthread_create(&threads[i], NULL, ask, &wrong[i])) return 1;
    for (int i = 0; i < THREADS; i++) {
        pthread_join(threads[i], NULL);
        sum += wrong[i];
    }
    wtf8_free(&asked.string);
    wtf8_free(&other.string);
    printf("readers: %ld questions by %d threads, %ld wrong answers\n", questions, THREADS, sum);
    return sum != 0;
}
