/* The functions of c/wtf8.c that the proved code calls as its heap: a request is passed on, one for 0 bytes as one for the
 * alignment; it is granted or not, and the address is never NULL; a block that is not moved is not freed. */
#include "../wtf8.h"
#include "must.h"

typedef struct {
    bool is_granted;
    void *at;
} block;

block wtf8_own_alloc(size_t size, size_t alignment);
block wtf8_own_realloc(void *at, size_t kept, size_t size, size_t alignment);
void wtf8_own_dealloc(void *at);

static char old[32], made[32];
static void *given; /* what the next request gives */
static void *moved, *freed;
static size_t asked;

static void *allocate(size_t size) {
    asked = size;
    return given;
}

static void *reallocate(void *at, size_t size) {
    moved = at;
    asked = size;
    return given;
}

static void release(void *at) {
    freed = at;
}

int main(void) {
    static const struct {
        size_t size, alignment, asked;
    } requests[] = {{1, 1, 1}, {24, 8, 24}, {0, 1, 1}, {0, 16, 16}};
    wtf8_use_memory(allocate, reallocate, release);
    for (size_t i = 0; i < sizeof requests / sizeof requests[0]; i++)
        for (int is_refused = 0; is_refused < 2; is_refused++) {
            given = is_refused ? NULL : made;
            block new = wtf8_own_alloc(requests[i].size, requests[i].alignment);
            must(asked == requests[i].asked, "a request for a block asks for other bytes");
            must(is_refused ? !new.is_granted && new.at != NULL : new.is_granted && new.at == made, "what a request for a block gives");
            asked = 0;
            block grown = wtf8_own_realloc(old, 1, requests[i].size, requests[i].alignment);
            must(moved == old && asked == requests[i].asked, "a request for another length asks for other bytes");
            must(is_refused ? !grown.is_granted && grown.at != NULL : grown.is_granted && grown.at == made, "what a request for another length gives");
        }
    must(freed == NULL, "a block was freed");
    wtf8_own_dealloc(old);
    must(freed == old, "another block was freed");
    puts("heap: requests and answers are as the proofs take them");
}
