/* Bytes that are not UTF-8 from the first of them on, whatever text stands before and after them. */
#ifndef NO_TEXTS_H
#define NO_TEXTS_H

#include <stddef.h>

#define TEXT(text) text, sizeof(text) - 1

static const struct {
    const char *bytes;
    size_t len;
    /* How many bytes are wrong together at the end of a text, where 0 means that it is cut off, and before a letter: in
     * CPython 3.11 `end - start` of the UnicodeDecodeError. */
    size_t at_end, before_letter;
} no_texts[] = {
    {TEXT("\x80"), 1, 1}, {TEXT("\xBF"), 1, 1}, {TEXT("\xC0\x80"), 1, 1}, {TEXT("\xC1\xBF"), 1, 1},
    {TEXT("\xC3"), 0, 1}, {TEXT("\xC3" "a"), 1, 1}, {TEXT("\xE0\x9F\xBF"), 1, 1}, {TEXT("\xE4\xB8"), 0, 2},
    {TEXT("\xE4\xB8" "a"), 2, 2}, {TEXT("\xED\xA0\x80"), 1, 1}, {TEXT("\xED\xBF\xBF"), 1, 1},
    {TEXT("\xED\xA0\xBD\xED\xB2\xA9"), 1, 1}, {TEXT("\xF0\x8F\xBF\xBF"), 1, 1}, {TEXT("\xF0\x9F\x92"), 0, 3},
    {TEXT("\xF0\x9F\x92" "a"), 3, 3}, {TEXT("\xF4\x90\x80\x80"), 1, 1}, {TEXT("\xF5\x80\x80\x80"), 1, 1},
    {TEXT("\xF8\x88\x80\x80\x80"), 1, 1}, {TEXT("\xFE"), 1, 1}, {TEXT("\xFF"), 1, 1}};

enum { NO_TEXTS = sizeof no_texts / sizeof no_texts[0], LONGEST_NO_TEXT = 6 };

#endif
