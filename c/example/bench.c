// Times calls of the library, in ns a unit, on six texts of 4,096 units, and after each call the plain loop for it:
// cc -O2 bench.c $(pkg-config --cflags --libs wtf8) -o bench && ./bench
#define _DEFAULT_SOURCE
#include <stdio.h>
#include <stdlib.h>
#include <string.h>
#include <time.h>
#include <wtf8.h>

enum { UNITS = 4096, ROUNDS = 300, TRIES = 7 };

// In UTF-8; a `?` is a lone surrogate in the last one.
static const struct { const char *name, *text; } TEXTS[] = {
    {"English", "It was the best of times, it was the worst of times. "},
    {"French", "Le cœur a ses raisons que la raison ne connaît point; où était-elle passée? "},
    {"Russian", "Все счастливые семьи похожи друг на друга, каждая несчастлива по-своему. "},
    {"Chinese", "道可道，非常道。名可名，非常名。無名天地之始；有名萬物之母。"},
    {"emoji", "so good 😀 see you there 🚀🚀 at 8 👋 "},
    {"lone", "a?b?c?"},
};

static uint16_t units[UNITS], out[3 * UNITS];
static uint8_t utf8[3 * UNITS];
static size_t utf8_len, len;
static wtf8_string string = WTF8_EMPTY, equal = WTF8_EMPTY;
static volatile uint64_t sum;
static void must(int holds) { if (!holds) exit(1); }

// The units of a text, again and again. The last one's lone surrogates are no text.
static void fill(const char *text, int is_lone) {
    wtf8_string s = WTF8_EMPTY;
    must(wtf8_set_utf8(&s, (const uint8_t *)text, strlen(text), NULL) == WTF8_OK);
    must(wtf8_copy_units(&s, out, 3 * UNITS, &len) == WTF8_OK);
    for (size_t i = 0; i < UNITS; i++) units[i] = is_lone && out[i % len] == '?' ? 0xD83D : out[i % len];
    wtf8_free(&s);
}

// The units to bytes of WTF-8 one after another, and back.
static size_t encode(uint8_t *to) {
    size_t at = 0;
    for (size_t i = 0; i < UNITS; i++) {
        uint32_t c = units[i];
        if (c < 0x80) { to[at++] = (uint8_t)c; continue; }
        if (c >> 10 == 0x36 && i + 1 < UNITS && units[i + 1] >> 10 == 0x37) c = 0x10000 + ((c & 0x3FF) << 10 | (units[++i] & 0x3FF));
        if (c < 0x800) to[at++] = (uint8_t)(0xC0 | c >> 6);
        else {
            if (c < 0x10000) to[at++] = (uint8_t)(0xE0 | c >> 12);
            else to[at++] = (uint8_t)(0xF0 | c >> 18), to[at++] = (uint8_t)(0x80 | (c >> 12 & 63));
            to[at++] = (uint8_t)(0x80 | (c >> 6 & 63));
        }
        to[at++] = (uint8_t)(0x80 | (c & 63));
    }
    return at;
}

static uint32_t six_bits(size_t i) { return utf8[i] & 63u; }
static size_t decode(uint16_t *to) {
    size_t n = 0;
    for (size_t i = 0; i < utf8_len;) {
        uint32_t lead = utf8[i];
        if (lead < 0x80) to[n++] = (uint16_t)lead, i++;
        else if (lead < 0xE0) to[n++] = (uint16_t)((lead & 31) << 6 | six_bits(i + 1)), i += 2;
        else if (lead < 0xF0) to[n++] = (uint16_t)((lead & 15) << 12 | six_bits(i + 1) << 6 | six_bits(i + 2)), i += 3;
        else {
            uint32_t c = (lead & 7) << 18 | six_bits(i + 1) << 12 | six_bits(i + 2) << 6 | six_bits(i + 3);
            to[n++] = (uint16_t)(0xD7C0 + (c >> 10)), to[n++] = (uint16_t)(0xDC00 | (c & 0x3FF)), i += 4;
        }
    }
    return n;
}

static void make(void) { wtf8_string s = WTF8_EMPTY; must(wtf8_set_units(&s, units, UNITS) == WTF8_OK); wtf8_free(&s); }
static void make_plainly(void) { uint8_t *to = malloc(3 * UNITS); must(to != NULL); sum += encode(to); sum += to[9]; free(to); }
static void copy_out(void) { must(wtf8_copy_units(&string, out, UNITS, &len) == WTF8_OK); }
static void copy_out_plainly(void) { sum += decode(out); }
static void take_utf8(void) { wtf8_string s = WTF8_EMPTY; sum += wtf8_set_utf8(&s, utf8, utf8_len, NULL); wtf8_free(&s); }
static void ask_equal(void) { sum += wtf8_equal(&string, &equal); }
static void ask_equal_plainly(void) { sum += memcmp(units, out, sizeof units) == 0; }
static void hash(void) { sum += wtf8_hash(&string, 1, 2); }
static void hash_plainly(void) { uint64_t h = 14695981039346656037u; for (size_t i = 0; i < UNITS; i++) h = (h ^ units[i]) * 1099511628211u; sum += h; }
static void look_up(void) { sum += wtf8_hash_units(units, 12, 1, 2) + wtf8_equal_units(&string, units, 12); }

// A look-up hashes 12 units, and compares them with the units of a string.
static const struct { const char *name; void (*call)(void), (*plain)(void); int n; } CALLS[] = {
    {"set_units", make, make_plainly, UNITS}, {"copy_units", copy_out, copy_out_plainly, UNITS}, {"set_utf8", take_utf8, NULL, UNITS},
    {"equal", ask_equal, ask_equal_plainly, UNITS}, {"hash", hash, hash_plainly, UNITS}, {"look-up", look_up, NULL, 12},
};

static double now(void) { struct timespec t; clock_gettime(CLOCK_MONOTONIC, &t); return (double)t.tv_sec * 1e9 + (double)t.tv_nsec; }

// The least time of a call, in ns.
static double time_of(void (*call)(void)) {
    double least = 1e9;
    for (int try = 0; try < TRIES; try++) {
        double begin = now();
        for (int i = 0; i < ROUNDS; i++) call();
        double took = (now() - begin) / ROUNDS;
        if (took < least) least = took;
    }
    return least;
}

int main(void) {
    enum { TEXT_COUNT = sizeof TEXTS / sizeof *TEXTS, CALL_COUNT = sizeof CALLS / sizeof *CALLS };
    printf("ns a unit");
    for (int c = 0; c < CALL_COUNT; c++) printf("%12s", CALLS[c].name);
    for (int t = 0; t < TEXT_COUNT; t++) {
        fill(TEXTS[t].text, t + 1 == TEXT_COUNT);
        must(wtf8_set_units(&string, units, UNITS) == WTF8_OK && wtf8_set_string(&equal, &string) == WTF8_OK);
        utf8_len = encode(utf8);
        must(utf8_len == wtf8_byte_len(&string) && decode(out) == UNITS && memcmp(out, units, sizeof units) == 0);
        printf("\n%-9s", TEXTS[t].name);
        for (int c = 0; c < CALL_COUNT; c++) {
            if (CALLS[c].call == take_utf8 && !wtf8_is_utf8(&string)) printf("%12s", "no UTF-8");
            else printf(CALLS[c].plain ? " %6.2f" : " %11.2f", time_of(CALLS[c].call) / CALLS[c].n);
            if (CALLS[c].plain) printf(" %4.2f", time_of(CALLS[c].plain) / CALLS[c].n);
        }
    }
    printf("\n");
}
