/* Each call that only reads, over strings whose structs, bytes and marks are in pages that cannot be written. Arguments: a
 * seed and the number of rounds. Linked with -Wl,--wrap=malloc,--wrap=realloc,--wrap=free. */
#define _DEFAULT_SOURCE
#include "must.h"
#include "questions.h"

#include <sys/mman.h>
#include <sys/wait.h>
#include <unistd.h>

enum { SIZE = 1 << 16 };

static uint8_t *pages; /* where a round's strings and their blocks are */
static size_t used;
static int is_in_pages; /* whether requests are granted there */

void *__real_malloc(size_t size);
void *__real_realloc(void *at, size_t size);
void __real_free(void *at);

static int is_block_in_pages(const void *at) {
    return pages <= (const uint8_t *)at && (const uint8_t *)at < pages + SIZE;
}

void *__wrap_malloc(size_t size) {
    if (!is_in_pages) return __real_malloc(size);
    must(size <= SIZE - 16 - used, "no room in the pages of the test");
    void *at = pages + used;
    used = (used + size + 15) / 16 * 16;
    return at;
}

void *__wrap_realloc(void *at, size_t size) {
    if (!is_block_in_pages(at)) return __real_realloc(at, size);
    size_t most = used - (size_t)((uint8_t *)at - pages);
    void *moved = __wrap_malloc(size);
    return memcpy(moved, at, size < most ? size : most);
}

void __wrap_free(void *at) {
    if (!is_block_in_pages(at)) __real_free(at);
}

/* Fills the pair with units: of every kind, scalar values alone, or ASCII. */
static void fill(struct pair *p) {
    uint32_t kind = below(3);
    p->n = below(8) ? below(60) : 120 + below(300);
    for (size_t i = 0; i < p->n; i++)
        p->units[i] = kind == 0 ? a_unit() : (uint16_t)below(kind == 1 ? 0xD800 : 0x80);
}

/* Whether a change of a string in the pages ends the process. Else the rounds would show nothing. */
static int is_write_noticed(struct pair *p) {
    int status = 0;
    pid_t child = fork();
    if (child == 0) {
        wtf8_clear(&p->string);
        _exit(0);
    }
    return waitpid(child, &status, 0) == child && WIFSIGNALED(status);
}

int main(int count, char **words) {
    state = count > 1 ? strtoull(words[1], NULL, 10) : 1;
    long rounds = count > 2 ? strtol(words[2], NULL, 10) : 30000;
    wtf8_string own = WTF8_EMPTY;
    pages = mmap(NULL, SIZE, PROT_READ | PROT_WRITE, MAP_PRIVATE | MAP_ANONYMOUS, -1, 0);
    must(pages != MAP_FAILED, "no pages for the test");
    for (long round = 0; round < rounds; round++) {
        used = 0;
        is_in_pages = 1;
        struct pair *p = __wrap_malloc(sizeof *p), *q = __wrap_malloc(sizeof *q);
        memset(p, 0, sizeof *p);
        memset(q, 0, sizeof *q);
        fill(p);
        fill(q);
        if (below(3) == 0) memcpy(q->units, p->units, 2 * (q->n = p->n));
        if (round % 50 == 49) p->n = 0; /* and the string has no buffer */
        else must(wtf8_set_units(&p->string, p->units, p->n) == WTF8_OK, "a string in the pages");
        must(wtf8_set_units(&q->string, q->units, q->n) == WTF8_OK, "another string in the pages");
        must(below(2) || wtf8_mark(&p->string) == WTF8_OK, "a marked string in the pages");
        is_in_pages = 0;
        struct answers a = answers_of(p, q);
        must(mprotect(pages, SIZE, PROT_READ) == 0, "pages that cannot be written");
        must(round > 0 || (is_write_noticed(p) && is_write_noticed(q)), "a write is not noticed");
        for (unsigned kind = 0; kind < QUESTIONS; kind++)
            must(is_right(kind, below(10000), p, q, &a, &own), "the answer of a string in the pages");
        must(mprotect(pages, SIZE, PROT_READ | PROT_WRITE) == 0, "pages that can be written");
    }
    wtf8_free(&own);
    printf("read_only: %ld rounds of %d questions, no write\n", rounds, QUESTIONS);
    return 0;
}
