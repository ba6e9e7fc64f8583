/* Calls take the build for the processor's widest vectors, whose number is the argument, and before the library's constructor
 * has run the one that each processor has. Linked with
 * -Wl,--wrap=wtf8_unit_len_v1,--wrap=wtf8_unit_len_v2,--wrap=wtf8_unit_len_v3. */
#include "../wtf8.h"
#include "must.h"

typedef struct {
    void *at;
} handle;

static int taken;

#define NOTED(level)                                                                               \
    size_t __real_wtf8_unit_len_v##level(handle *string);                                          \
    size_t __wrap_wtf8_unit_len_v##level(handle *string);                                          \
    size_t __wrap_wtf8_unit_len_v##level(handle *string) {                                         \
        taken = level;                                                                             \
        return __real_wtf8_unit_len_v##level(string);                                              \
    }

NOTED(1)
NOTED(2)
NOTED(3)

static int taken_early;

/* Constructors of this priority run before the library's. */
__attribute__((constructor(101))) static void call_early(void) {
    wtf8_string string = WTF8_EMPTY;
    must(wtf8_unit_len(&string) == 0, "no units in a constructor");
    taken_early = taken;
}

int main(int argc, char **argv) {
    wtf8_string string = WTF8_EMPTY;
    must(argc == 2 && wtf8_unit_len(&string) == 0, "no units");
    must(taken_early == 1, "the build that a call of a constructor takes");
    must(taken == atoi(argv[1]), "the build that a call takes");
    printf("builds: calls take that of x86-64-v%d\n", taken);
    return 0;
}
