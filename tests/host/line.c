// Runs a line that was written by hand: builds its input, and compares all that it leaves with all that it should.
#include "test.h"

#include <ctype.h>
#include <stdarg.h>
#include <stdio.h>
#include <stdlib.h>
#include <string.h>

#define FRESH 0xEE   // what the answers hold before
#define BEYOND 11u   // answers lent beyond the chain's length

static const char ready_record[] = "32*00 01 00";

static uint8_t digit(char c) { return (uint8_t)(c <= '9' ? c - '0' : c - 'A' + 10); }

size_t text_bytes(uint8_t *to, size_t room, const char *text)
{
    size_t n = 0;
    while (*text != '\0') {
        if (*text == ' ') {
            text++;
            continue;
        }
        size_t digits = strspn(text, "0123456789"), times = 1;
        if (text[digits] == '*') {
            times = strtoul(text, NULL, 10);
            text += digits + 1;
        }
        if (!isxdigit((unsigned char)text[0]) || !isxdigit((unsigned char)text[1]) || n + times > room) {
            fprintf(stderr, "bad text: %s\n", text);
            exit(2);
        }
        if (to != NULL) memset(to + n, digit(text[0]) << 4 | digit(text[1]), times);
        n += times;
        text += 2;
    }
    return n;
}

void add(struct text *t, const char *format, ...)
{
    va_list values;
    va_start(values, format);
    t->n += (size_t)vsnprintf(t->s + t->n, sizeof t->s - t->n, format, values);
    va_end(values);
    if (t->n >= sizeof t->s) abort();
}

static void apply(uint8_t *to, size_t length, const struct change *changes, size_t count)
{
    for (size_t i = 0; i < count; i++)
        if (changes[i].bytes != NULL) text_bytes(to + changes[i].at, length - changes[i].at, changes[i].bytes);
}

static void build_before(const struct line *line, const struct buffers *b)
{
    text_bytes(b->at[CHAIN], b->length[CHAIN], line->chain);
    text_bytes(b->at[STORAGE], b->length[STORAGE], line->storage);
    memset(b->at[ANSWERS], FRESH, b->length[ANSWERS]);
    if (line->goes_on) return;
    for (size_t i = 0; i < b->length[STORE]; i++) b->at[STORE][i] = (uint8_t)(i / BLOCK);
    apply(b->at[STORE], b->length[STORE], line->store_before, 2);
    memset(b->at[RECORD], 0, RECORD_SIZE);
    text_bytes(b->at[RECORD], MAP_AT, line->record != NULL ? line->record : ready_record);
    if (line->map != NULL) text_bytes(b->at[RECORD] + MAP_AT, MAP_SIZE, line->map);
}

// Turns the copy of what was there before into what should be there after.
static void build_after(const struct line *line, const struct buffers *b)
{
    apply(b->at[STORAGE], b->length[STORAGE], line->storage_after, 4);
    apply(b->at[STORE], b->length[STORE], line->store_after, 4);
    text_bytes(b->at[ANSWERS], b->length[ANSWERS], line->answers);
    memset(b->at[RECORD], 0, 32);
    if (line->sense != NULL) text_bytes(b->at[RECORD], 24, line->sense);
    if (line->log != NULL) text_bytes(b->at[RECORD] + 24, 8, line->log);
    if (line->map_after == NULL) return;
    memset(b->at[RECORD] + MAP_AT, 0, MAP_SIZE);
    text_bytes(b->at[RECORD] + MAP_AT, MAP_SIZE, line->map_after);
}

// All lengths but the answers'.
static void line_lengths(const struct line *line, size_t length[BUFFERS])
{
    length[CHAIN] = text_bytes(NULL, MAX_CLASS, line->chain);
    length[STORAGE] = text_bytes(NULL, MAX_STORAGE, line->storage);
    length[STORE] = (size_t)BLOCK * ((line->blocks != 0 ? line->blocks : 8) + line->alternates);
    length[RECORD] = RECORD_SIZE;
}

static bool call_holds(const struct line *line, uint32_t (*call)(const struct buffers *), const size_t length[BUFFERS],
                       uint32_t expected, bool at_end)
{
    struct buffers library, twin;
    buffers_place(&library, &twin, length, at_end);
    library.alternates = line->alternates;
    build_before(line, &library);
    buffers_copy(&library, &twin);
    build_after(line, &twin);
    uint32_t result = line->gives_back ? call_library_give_back(&library, line->block) : call(&library);
    if (result != expected) printf("  result %lu, not %lu\n", (unsigned long)result, (unsigned long)expected);
    return buffers_equal(&library, &twin) && result == expected;
}

static bool line_holds_at(const struct line *line, bool at_end)
{
    size_t length[BUFFERS];
    line_lengths(line, length);
    length[ANSWERS] = length[CHAIN] + BEYOND;
    uint32_t expected = line->gives_back ? 256 * line->cause : (uint32_t)(text_bytes(NULL, MAX_CHAIN, line->answers) / 8);
    return call_holds(line, call_library, length, expected, at_end);
}

bool line_holds(const struct line *line) { return line_holds_at(line, true) && line_holds_at(line, false); }

static bool class_holds_with(const struct line *line, size_t beyond)
{
    size_t length[BUFFERS];
    line_lengths(line, length);
    length[ANSWERS] = text_bytes(NULL, MAX_CLASS, line->answers) + beyond;
    return call_holds(line, call_library_class, length, 0, true) && call_holds(line, call_library_class, length, 0, false);
}

bool class_holds(const struct line *line) { return class_holds_with(line, 0) && class_holds_with(line, BEYOND); }

static void check_line(const char *part, const struct line *line, bool holds)
{
    if (!holds) printf("  why: %s\n", line->why);
    check(part, line->name, holds);
}

static void check_each(const char *part, const struct line *lines, size_t count, bool (*holds_as)(const struct line *))
{
    for (size_t i = 0; i < count; i++) check_line(part, &lines[i], holds_as(&lines[i]));
}

void check_story(const char *part, const struct line *lines, size_t count)
{
    for (size_t i = 0; i < count; i++) check_line(part, &lines[i], line_holds_at(&lines[i], true));
    for (size_t i = 0; i < count; i++) check_line(part, &lines[i], line_holds_at(&lines[i], false));
}

void check_lines(const char *part, const struct line *lines, size_t count) { check_each(part, lines, count, line_holds); }
void check_classes(const char *part, const struct line *lines, size_t count) { check_each(part, lines, count, class_holds); }
