/*
 * Texts on a screen, for the command `luck` (luck.c): any bytes are shown without harm, and a caret stands under the byte at fault.
 */
#ifndef LUCK_SHOW_H
#define LUCK_SHOW_H

#include <stdbool.h>
#include <stddef.h>
#include <stdint.h>
#include <stdio.h>
#include <string.h>

enum {
    SCREEN = 72, /* the columns of a text that is shown; of a longer one PART are, with dots */
    DOTS = 3,
    PART = SCREEN - 2 * DOTS,
    REACH = 4 * (SCREEN + 2), /* bytes that take more than SCREEN columns: a character has at most four bytes and at least one column */
    LONGEST_SHOWN = 16 /* `\u{10FFFF}` and a zero byte fit */
};

static const size_t nowhere = SIZE_MAX; /* the place of a refusal that has none */

/* Code points that take no column of their own, or turn the order of the text, have 0 columns and are shown by their number; wide ones
 * have 2. All others count 1. The table has common blocks and is not whole, and the tables of real terminals differ: after a code point
 * that it has wrong, the caret stands off. */
static const struct {
    uint32_t first;
    uint32_t last;
    unsigned columns;
} blocks[] = {
    {0x80, 0x9F, 0},       {0xAD, 0xAD, 0},       {0x300, 0x36F, 0},     {0x591, 0x5BD, 0},     {0x61C, 0x61C, 0},
    {0xE31, 0xE31, 0},     {0xE34, 0xE3A, 0},     {0xE47, 0xE4E, 0},     {0x1100, 0x115F, 2},   {0x1160, 0x11FF, 0},
    {0x180E, 0x180E, 0},   {0x200B, 0x200F, 0},   {0x2028, 0x202E, 0},   {0x2060, 0x206F, 0},   {0x20D0, 0x20FF, 0},
    {0x231A, 0x231B, 2},   {0x23E9, 0x23EC, 2},   {0x23F0, 0x23F0, 2},   {0x23F3, 0x23F3, 2},   {0x2705, 0x2705, 2},
    {0x2728, 0x2728, 2},   {0x274C, 0x274C, 2},   {0x274E, 0x274E, 2},   {0x2753, 0x2755, 2},   {0x2757, 0x2757, 2},
    {0x2E80, 0x3029, 2},   {0x302A, 0x302D, 0},   {0x302E, 0x303E, 2},   {0x3041, 0x3098, 2},   {0x3099, 0x309A, 0},
    {0x309B, 0xA4CF, 2},   {0xAC00, 0xD7A3, 2},   {0xF900, 0xFAFF, 2},   {0xFE00, 0xFE0F, 0},   {0xFE30, 0xFE6F, 2},
    {0xFEFF, 0xFEFF, 0},   {0xFF00, 0xFF60, 2},   {0xFFE0, 0xFFE6, 2},   {0xFFF9, 0xFFFB, 0},   {0x1F300, 0x1F64F, 2},
    {0x1F680, 0x1F6FF, 2}, {0x1F900, 0x1F9FF, 2}, {0x1FA70, 0x1FAFF, 2}, {0x20000, 0x3FFFD, 2}, {0xE0000, 0xE0FFF, 0}};

static unsigned columns_of(uint32_t code)
{
    for (size_t i = 0; i < sizeof blocks / sizeof blocks[0]; i++)
        if (code >= blocks[i].first && code <= blocks[i].last)
            return blocks[i].columns;
    return 1;
}

/* The width in bytes of the UTF-8 character (RFC 3629) at the front of a text that is not empty; 0 where there is none. */
static size_t utf8_at(const uint8_t *text, size_t len, uint32_t *code)
{
    static const uint32_t lowest[] = {0, 0, 0x80, 0x800, 0x10000};
    uint8_t lead = text[0];
    size_t width = lead < 0x80 ? 1 : lead >> 5 == 0x06 ? 2 : lead >> 4 == 0x0E ? 3 : lead >> 3 == 0x1E ? 4 : 0;
    if (width == 0 || width > len)
        return 0;
    uint32_t value = width == 1 ? lead : lead & (0x7Fu >> width);
    for (size_t i = 1; i < width; i++) {
        if ((text[i] & 0xC0) != 0x80)
            return 0;
        value = value << 6 | (text[i] & 0x3Fu);
    }
    if (value < lowest[width] || value > 0x10FFFF || (value >= 0xD800 && value <= 0xDFFF))
        return 0;
    *code = value;
    return width;
}

/* How the front of a text is shown. */
typedef struct {
    size_t taken; /* the bytes of the text */
    size_t columns;
    char shown[LONGEST_SHOWN];
} character;

/* A backslash of the text is shown as it is, so that a literal looks like its source: `\n` can be a newline or two characters. */
static character character_at(const uint8_t *text, size_t len)
{
    character found;
    uint32_t code = 0;
    found.taken = utf8_at(text, len, &code);
    if (found.taken == 0) {
        found.taken = 1;
        snprintf(found.shown, sizeof found.shown, "\\x%02X", (unsigned)text[0]);
    } else if (code == '\n' || code == '\r' || code == '\t') {
        snprintf(found.shown, sizeof found.shown, "\\%c", code == '\n' ? 'n' : code == '\r' ? 'r' : 't');
    } else if (code < 0x20 || code == 0x7F) {
        snprintf(found.shown, sizeof found.shown, "\\x%02X", (unsigned)code);
    } else if (columns_of(code) == 0) {
        snprintf(found.shown, sizeof found.shown, "\\u{%X}", (unsigned)code);
    } else {
        memcpy(found.shown, text, found.taken);
        found.shown[found.taken] = '\0';
        found.columns = columns_of(code);
        return found;
    }
    found.columns = strlen(found.shown);
    return found;
}

static void put_text(FILE *out, const uint8_t *text, size_t len)
{
    for (size_t at = 0; at < len;) {
        character next = character_at(text + at, len - at);
        fputs(next.shown, out);
        at += next.taken;
    }
}

static void put_word(FILE *out, const char *word)
{
    put_text(out, (const uint8_t *)word, strlen(word));
}

/* A place at most three bytes before `place`, which is inside the text, or `place` itself, where a character begins or a byte is shown
 * alone: any byte but a continuation byte; and a continuation byte after three others, since no character has four of them. */
static size_t start_of_character(const uint8_t *text, size_t place)
{
    for (size_t back = 0; back <= 3 && back <= place; back++)
        if ((text[place - back] & 0xC0) != 0x80)
            return place - back;
    return place;
}

/* The columns from the character at `start` to the one that holds the byte at `place`; and in `all` those to the text's end, or, where
 * more than SCREEN follow, more than SCREEN of them: a long text is not walked to its end. */
static size_t columns_before(const uint8_t *text, size_t len, size_t start, size_t place, size_t *all)
{
    size_t before = 0;
    *all = 0;
    for (size_t at = start; at < len && *all <= before + SCREEN;) {
        character next = character_at(text + at, len - at);
        at += next.taken;
        *all += next.columns;
        if (at <= place)
            before += next.columns;
    }
    return before;
}

/* The text from `at`, which is at `column`, to the column `until`; dots stand for what follows. */
static void put_part_of_text(FILE *out, const uint8_t *text, size_t len, size_t at, size_t column, size_t until)
{
    while (at < len) {
        character next = character_at(text + at, len - at);
        if (column + next.columns > until) {
            fputs("...", out);
            return;
        }
        fputs(next.shown, out);
        at += next.taken;
        column += next.columns;
    }
}

/* A row of the text, and under it a row with a caret; `place` may be the text's end, or nowhere. Of a text longer than SCREEN
 * columns a part is shown that has the place in it. All columns are counted from `start`, which is the text's, or more than SCREEN
 * columns before the place. */
static void put_place(FILE *out, const uint8_t *text, size_t len, size_t place)
{
    if (len == 0 && place == nowhere)
        return;
    size_t start = place != nowhere && place > REACH ? start_of_character(text, place - REACH) : 0;
    size_t all = 0;
    size_t before = columns_before(text, len, start, place == nowhere ? 0 : place, &all);
    size_t from = 0;
    size_t column = 0; /* where the next character begins */
    size_t at = start;
    if (all > SCREEN && place != nowhere) {
        from = before > PART / 2 ? before - PART / 2 : 0;
        if (all - from < PART)
            from = all - PART;
    }
    fputs("  ", out);
    while (at < len && column < from) {
        character next = character_at(text + at, len - at);
        at += next.taken;
        column += next.columns;
    }
    if (at > 0)
        fputs("...", out);
    size_t caret = before - column + (at > 0 ? DOTS : 0);
    put_part_of_text(out, text, len, at, column, all > SCREEN ? from + PART : all);
    fputs("\n", out);
    if (place == nowhere)
        return;
    fputs("  ", out);
    for (size_t i = 0; i < caret; i++)
        fputc(' ', out);
    fputs("^\n", out);
}

#endif
