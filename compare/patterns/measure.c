/* Times the ways in, out and of texts of several sides (side.h), by turns in one process. The arguments are the files of the sides;
 * a `+` between them begins another group. The sides of a group take turns. A line of the input asks for one text:
 *
 *     ROUNDS LENGTH PATTERN     a periodic one of at least 4,096 units (c/test/patterns.h)
 *     ROUNDS LENGTH =HEX        units of four digits each
 *
 * It is cut into pieces of LENGTH units, or of LEAST-MOST units, which end after a space if they can, at most 128 of them,
 * which a turn converts one after another. The answer is a
 * line with three numbers for each side, in, out and of the text in UTF-8: the least nanoseconds a unit of all rounds, or `-`
 * if the side cannot have the text, or this is no text. The status is 1, with a line, if two sides disagree. */
#include "../../c/test/patterns.h"
#include "side.h"

#include <dlfcn.h>
#include <stdio.h>
#include <stdlib.h>
#include <time.h>

enum { SIDES = 64, PIECES = 128, LEAST_UNITS = 4096, IN = 0, OUT = 1, TEXT = 2, WAYS = 3 };

/* A turn takes about this long, so that the clock's own cost does not count. */
static const double TURN_NS = 4000;

/* More than any turn takes: a way that was not measured. */
static const double NEVER = 1e30;

/* The bytes by which the arrays move from round to round within a page. Stores slow down loads from the same offset of
 * another page, so a time would else depend on where the heap happens to put a string. */
enum { PAGE = 4096, UNITS_STEP = 720, OUT_STEP = 1200, TEXT_STEP = 1680 };

struct side {
    const char *path;
    int group;
    bool (*can_run)(void);
    bool (*in)(const uint16_t *, size_t);
    void *(*make)(const uint16_t *, size_t);
    void (*drop)(void *);
    size_t (*byte_len)(const void *);
    size_t (*out)(const void *, uint16_t *, size_t);
    bool (*text)(const uint8_t *, size_t);
    void *strings[PIECES]; /* of the pieces, for the way out */
    double least[WAYS];    /* a unit, by way */
    bool has_text;
};

/* A text in pieces, and the array that they are copied out to. */
struct text {
    const char *name;
    uint16_t *units, *out;
    size_t n; /* of all pieces */
    size_t pieces, begin[PIECES + 1];
    uint8_t *utf8; /* of the pieces, or NULL if one has a lone surrogate */
    size_t utf8_begin[PIECES + 1];
};

static struct side sides[SIDES];
static size_t side_count;

static void fail(const char *what, const char *which) {
    printf("%s: %s\n", what, which);
    exit(1);
}

static void *symbol(void *object, const char *path, const char *name) {
    void *found = dlsym(object, name);
    if (found == NULL) fail(path, name);
    return found;
}

static void load(const char *path, int group) {
    if (side_count == SIDES) fail("too many sides", path);
    void *object = dlopen(path, RTLD_NOW | RTLD_LOCAL);
    if (object == NULL) fail("not loaded", dlerror());
    struct side *side = &sides[side_count++];
    side->path = path;
    side->group = group;
    *(void **)&side->can_run = symbol(object, path, "side_can_run");
    *(void **)&side->in = symbol(object, path, "side_in");
    *(void **)&side->make = symbol(object, path, "side_make");
    *(void **)&side->drop = symbol(object, path, "side_free");
    *(void **)&side->byte_len = symbol(object, path, "side_byte_len");
    *(void **)&side->out = symbol(object, path, "side_out");
    *(void **)&side->text = symbol(object, path, "side_text");
    if (!side->can_run()) fail("the processor cannot run", path);
}

static double now(void) {
    struct timespec time;
    clock_gettime(CLOCK_MONOTONIC, &time);
    return (double)time.tv_sec * 1e9 + (double)time.tv_nsec;
}

/* The end of a piece: up to `least` to `most` units later, another number for each piece, after the last space among them
 * if that leaves `least`. */
static size_t piece_end(const struct text *text, size_t n, size_t least, size_t most) {
    size_t wanted = least + text->pieces * 7919 % (most - least + 1);
    size_t end = n - text->n < wanted ? n : text->n + wanted, after = end;
    while (least < most && text->n + least < after && text->units[after - 1] != ' ') after--;
    return text->units[after - 1] == ' ' ? after : end;
}

/* Cuts a text into pieces, of which none divides a pair. */
static void cut(struct text *text, size_t least, size_t most) {
    size_t n = text->n;
    text->pieces = text->n = text->begin[0] = 0;
    while (text->pieces < PIECES && text->n < n) {
        size_t end = piece_end(text, n, least, most);
        bool divides = end < n && (text->units[end - 1] & 0xFC00) == 0xD800 && (text->units[end] & 0xFC00) == 0xDC00;
        if (divides) end = text->n + 1 < end ? end - 1 : end + 1;
        text->begin[++text->pieces] = end;
        text->n = end;
    }
}

static size_t piece_len(const struct text *text, size_t piece) {
    return text->begin[piece + 1] - text->begin[piece];
}

/* An array of units that begins at a page, with a page more. */
static uint16_t *new_array(size_t n) {
    uint16_t *array = aligned_alloc(PAGE, (2 * n + 2 * PAGE - 1) / PAGE * PAGE);
    if (array == NULL) fail("no memory", "");
    memset(array, 0, 2 * n + PAGE - 2);
    return array;
}

/* Writes the UTF-8 of a unit, or of a pair, and returns its length; 0 if the unit is a lone surrogate. */
static size_t write_utf8(uint8_t *out, const uint16_t *units, size_t n) {
    uint32_t point = units[0];
    if (point < 0x80) {
        out[0] = (uint8_t)point;
        return 1;
    }
    if (point < 0x800) {
        out[0] = (uint8_t)(0xC0 | point >> 6);
        out[1] = (uint8_t)(0x80 | (point & 0x3F));
        return 2;
    }
    bool is_pair = (point & 0xFC00) == 0xD800 && 1 < n && (units[1] & 0xFC00) == 0xDC00;
    if (!is_pair && (point & 0xF800) == 0xD800) return 0;
    if (is_pair) point = 0x10000 + ((point & 0x3FF) << 10 | (units[1] & 0x3FF));
    size_t len = is_pair ? 4 : 3;
    out[0] = (uint8_t)(is_pair ? 0xF0 | point >> 18 : 0xE0 | point >> 12);
    for (size_t i = 1; i < len; i++) out[i] = (uint8_t)(0x80 | (point >> 6 * (len - 1 - i) & 0x3F));
    return len;
}

/* Makes the UTF-8 of the pieces. */
static void add_utf8(struct text *text) {
    size_t len = 0;
    text->utf8 = (uint8_t *)new_array(2 * text->n);
    for (size_t piece = 0; piece < text->pieces; piece++) {
        text->utf8_begin[piece] = len;
        for (size_t i = text->begin[piece], end = text->begin[piece + 1], more; i < end; i += more == 4 ? 2 : 1, len += more) {
            more = write_utf8(text->utf8 + len, text->units + i, end - i);
            if (more == 0) {
                free(text->utf8);
                text->utf8 = NULL;
                return;
            }
        }
    }
    text->utf8_begin[text->pieces] = len;
}

static size_t utf8_len(const struct text *text, size_t piece) {
    return text->utf8_begin[piece + 1] - text->utf8_begin[piece];
}

static void drop_strings(struct side *side, size_t n) {
    for (size_t i = 0; i < n; i++) side->drop(side->strings[i]);
}

/* Makes a side's strings of the pieces. Returns whether it can have them. */
static bool make_strings(struct side *side, const struct text *text) {
    for (size_t i = 0; i < text->pieces; i++) {
        side->strings[i] = side->make(text->units + text->begin[i], piece_len(text, i));
        if (side->strings[i] == NULL) {
            drop_strings(side, i);
            return false;
        }
    }
    return true;
}

/* Checks a side's strings: their units, and their lengths in bytes against those of the first side that is checked. */
static void check(struct side *side, const struct text *text, size_t *byte_lens) {
    side->has_text = make_strings(side, text);
    if (!side->has_text) return;
    for (size_t i = 0; i < text->pieces; i++) {
        const uint16_t *units = text->units + text->begin[i];
        size_t n = piece_len(text, i), byte_len = side->byte_len(side->strings[i]);
        memset(text->out, 0, n * sizeof *units);
        if (side->out(side->strings[i], text->out, n) != n || memcmp(text->out, units, n * sizeof *units) != 0) fail(side->path, text->name);
        if (byte_lens[i] == 0) byte_lens[i] = byte_len;
        if (byte_lens[i] != byte_len) fail(side->path, text->name);
        if (text->utf8 != NULL && utf8_len(text, i) != byte_len) fail(side->path, text->name);
    }
    drop_strings(side, text->pieces);
}

/* Converts all pieces once, and returns the number of conversions that failed. */
static size_t convert(const struct side *side, const struct text *text, int way) {
    size_t failed = 0;
    for (size_t i = 0; i < text->pieces; i++) {
        size_t n = piece_len(text, i);
        if (way == IN) failed += !side->in(text->units + text->begin[i], n);
        else if (way == TEXT) failed += !side->text(text->utf8 + text->utf8_begin[i], utf8_len(text, i));
        else failed += side->out(side->strings[i], text->out, n) != n;
    }
    return failed;
}

/* Clears the upper halves of the vector registers. simdutf leaves them in use, and code for narrower vectors takes up to
 * 1.7 times as long then. */
__attribute__((target("avx"))) static void clear_upper_halves(void) {
    __builtin_ia32_vzeroupper();
}

static double begin_time(void) {
    if (__builtin_cpu_supports("avx")) clear_upper_halves();
    return now();
}

/* Times a way of a side. The strings for the way out are made for the turn, so that they are where another side's were. */
static void take_turn(struct side *side, const struct text *text, int way) {
    if (way == OUT && !make_strings(side, text)) fail(side->path, text->name);
    double begin = begin_time();
    size_t failed = convert(side, text, way), passes = 1 + (size_t)(TURN_NS / (now() - begin));
    begin = begin_time();
    for (size_t i = 0; i < passes; i++) failed += convert(side, text, way);
    double unit = (now() - begin) / (double)(passes * text->n);
    if (failed) fail(side->path, "a conversion failed");
    if (unit < side->least[way]) side->least[way] = unit;
    if (way == OUT) drop_strings(side, text->pieces);
}

/* The text with its arrays where they are in a round. */
static struct text moved(const struct text *text, uint16_t *arrays[WAYS], size_t round) {
    struct text other = *text;
    other.units = arrays[IN] + round * UNITS_STEP % PAGE / 2;
    other.out = arrays[OUT] + round * OUT_STEP % PAGE / 2;
    memcpy(other.units, text->units, text->n * sizeof *text->units);
    if (text->utf8 == NULL) return other;
    other.utf8 = (uint8_t *)arrays[TEXT] + round * TEXT_STEP % PAGE;
    memcpy(other.utf8, text->utf8, text->utf8_begin[text->pieces]);
    return other;
}

static void print_least(void) {
    for (size_t i = 0; i < side_count; i++)
        for (int way = IN; way <= TEXT; way++) {
            const char *after = i + 1 < side_count || way < TEXT ? " " : "\n";
            if (sides[i].least[way] < NEVER) printf("%.5f%s", sides[i].least[way], after);
            else printf("-%s", after);
        }
    fflush(stdout);
}

static void measure(const struct text *text, uint16_t *arrays[WAYS], size_t rounds) {
    size_t byte_lens[PIECES] = {0};
    struct text first = moved(text, arrays, 0);
    for (size_t i = 0; i < side_count; i++) {
        check(&sides[i], &first, byte_lens);
        for (int way = IN; way <= TEXT; way++) sides[i].least[way] = NEVER;
    }
    for (int group = 0; group <= sides[side_count - 1].group; group++)
        for (size_t round = 0; round < rounds; round++) {
            struct text at_round = moved(text, arrays, round);
            for (int way = IN; way <= (text->utf8 == NULL ? OUT : TEXT); way++)
                for (size_t i = 0; i < side_count; i++)
                    if (sides[i].group == group && sides[i].has_text) take_turn(&sides[i], &at_round, way);
        }
    print_least();
}

/* Reads a text: a pattern of at least `most` units, or units. */
static void read_text(const char *word, size_t least, size_t most, struct text *text) {
    bool is_units = word[0] == '=';
    text->name = word;
    text->n = is_units ? (strlen(word) - 1) / 4 : most < LEAST_UNITS ? LEAST_UNITS : most;
    if (!is_units && !is_pattern(word)) fail("no pattern", word);
    text->units = new_array(text->n);
    if (!is_units) fill_by_pattern(word, text->units, text->n);
    for (size_t i = 0; is_units && i < text->n; i++) {
        char hex[5] = {0};
        memcpy(hex, word + 1 + 4 * i, 4);
        text->units[i] = (uint16_t)strtoul(hex, NULL, 16);
    }
    cut(text, least, most);
    add_utf8(text);
}

int main(int count, char **words) {
    int group = 0;
    for (int i = 1; i < count; i++) {
        if (strcmp(words[i], "+") == 0) group++;
        else load(words[i], group);
    }
    if (side_count == 0) fail("no side", "");
    char *line = NULL;
    size_t room = 0;
    while (0 < getline(&line, &room, stdin)) {
        struct text text;
        char *rest;
        size_t rounds = strtoul(line, &rest, 10), least = strtoul(rest, &rest, 10), most = *rest == '-' ? strtoul(rest + 1, &rest, 10) : least;
        char *word = rest + strspn(rest, " ");
        word[strcspn(word, "\n")] = 0;
        if (rounds == 0 || least == 0 || most < least || *word == 0) fail("no request", line);
        read_text(word, least, most, &text);
        uint16_t *arrays[WAYS] = {new_array(text.n), new_array(text.n), new_array(2 * text.n)};
        measure(&text, arrays, rounds);
        for (int way = IN; way <= TEXT; way++) free(arrays[way]);
        free(text.utf8);
        free(text.units);
    }
    free(line);
    return 0;
}
