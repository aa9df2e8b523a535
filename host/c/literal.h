/*
 * The shape of a literal, for the command `luck` (luck.c): what is wrong with a text that decoding refuses (24), and where Lua itself ends
 * a literal that decoding takes whole. Which escapes there are, the library says: this finds the place.
 */
#ifndef LUCK_LITERAL_H
#define LUCK_LITERAL_H

#include "luck.h"
#include "unicode_escape.h"

#include <stdlib.h>
#include <string.h>

enum literal_fault {
    NO_FAULT,
    NO_OPENING,  /* it begins with neither a quote nor a long bracket */
    NO_CLOSING,  /* the quote or bracket that it begins with is never closed; at the text's end */
    BYTES_AFTER, /* at the first byte after the closing quote or bracket */
    NO_ESCAPE,   /* a backslash that begins no escape of the version; at that backslash */
    TAKEN_BY_LUA /* nothing is wrong but escapes that Lua itself takes; at the backslash of the first one */
};

/* What was found, up to the first fault. `breaks` tells of what Lua does not load and decoding takes: in quotes a line break that stands
 * there itself; in 5.1, in long brackets without `=`, an inner `[[`. */
typedef struct {
    enum literal_fault fault;
    size_t place;
    bool breaks;
    size_t break_place;
} literal;

static bool is_hex(uint8_t byte)
{
    return (byte >= '0' && byte <= '9') || (byte >= 'a' && byte <= 'f') || (byte >= 'A' && byte <= 'F');
}

/* The bytes of a bad escape at the front of a text, as far as it is one: `\u{` and its digits, `\x` and one, up to three digits, or the
 * character after the backslash. */
static size_t escape_len(const uint8_t *text, size_t len)
{
    size_t at = 2;
    if (len <= at)
        return len;
    if (text[1] >= '0' && text[1] <= '9') {
        while (at < len && at < 4 && text[at] >= '0' && text[at] <= '9')
            at++;
    } else if (text[1] == 'x') {
        at += is_hex(text[at]) ? 1 : 0;
    } else if (text[1] == 'u' && text[at] == '{') {
        for (at++; at < len && is_hex(text[at]);)
            at++;
        at += at < len && text[at] == '}' ? 1 : 0;
    } else {
        while (at < len && (text[at] & 0xC0) == 0x80 && (text[1] & 0xC0) == 0xC0)
            at++;
    }
    return at;
}

/* Whether the library refuses an escape: a piece of a literal in quotes, from one backslash up to the next or to the closing quote, is
 * decoded by itself, in `copy`. 24 is tested before the room, which is none. */
static bool is_bad_piece(uint32_t version, const uint8_t *piece, size_t len, uint8_t *copy)
{
    copy[0] = '"';
    memcpy(copy + 1, piece, len);
    copy[len + 1] = '"';
    return luck_decode_string(version, copy, len + 2, NULL, 0).number == LUCK_UNDECODABLE;
}

static bool is_line_break(uint8_t byte)
{
    return byte == '\n' || byte == '\r';
}

/* The place after an escape, as far as it takes quotes and line breaks: `\"`, a line break of one or two bytes, and the spaces after `\z`,
 * which 5.1 does not have. */
static size_t after_escape(uint32_t version, const uint8_t *text, size_t len, size_t at)
{
    uint8_t taken = at + 1 < len ? text[at + 1] : 0;
    size_t next = at + 2;
    if (taken == 'z' && version != LUCK_LUA_51)
        while (next < len && (text[next] == ' ' || (text[next] >= '\t' && text[next] <= '\r')))
            next++;
    bool pair = next < len && is_line_break(taken) && is_line_break(text[next]) && text[next] != taken;
    if (pair && (taken == '\r' || version != LUCK_LUAU))
        next++;
    return next < len ? next : len;
}

/* The end of the piece that begins at `at`: the next backslash or closing quote, or the text's end. Line breaks on the way are noted. */
static size_t end_of_piece(const uint8_t *text, size_t len, size_t at, literal *found)
{
    for (; at < len && text[at] != text[0] && text[at] != '\\'; at++)
        if (is_line_break(text[at]) && !found->breaks) {
            found->breaks = true;
            found->break_place = at;
        }
    return at;
}

/* Notes the fault of the escape at `at`, if it has one. One that Lua itself takes is a fault only where there is no other. */
static void judge_escape(uint32_t version, const uint8_t *piece, size_t len, size_t at, literal *found, uint8_t *copy)
{
    uint32_t code;
    if (!is_bad_piece(version, piece, len, copy))
        return;
    bool taken = unicode_escape(piece, len, &code) != 0 && is_refused_here_only(version, code);
    if (taken && found->fault == TAKEN_BY_LUA)
        return;
    found->fault = taken ? TAKEN_BY_LUA : NO_ESCAPE;
    found->place = at;
}

/* A text that begins with a quote, and room for it and one byte more in `copy`. */
static literal read_quoted(uint32_t version, const uint8_t *text, size_t len, uint8_t *copy)
{
    literal found = {NO_FAULT, 0, false, 0};
    size_t at = end_of_piece(text, len, 1, &found);
    while (at < len && text[at] == '\\') {
        size_t end = end_of_piece(text, len, after_escape(version, text, len, at), &found);
        judge_escape(version, text + at, end - at, at, &found, copy);
        if (found.fault == NO_ESCAPE)
            return found;
        at = end;
    }
    if (at + 1 != len) {
        found.fault = at == len ? NO_CLOSING : BYTES_AFTER;
        found.place = at == len ? len : at + 1;
    }
    return found;
}

/* The length of the long bracket at the front of a text, of `[` or `]`; 0 where there is none. */
static size_t long_bracket(const uint8_t *text, size_t len, uint8_t bracket)
{
    size_t at = 1;
    if (len == 0 || text[0] != bracket)
        return 0;
    while (at < len && text[at] == '=')
        at++;
    return at < len && text[at] == bracket ? at + 1 : 0;
}

/* A text that begins with a long bracket of so many bytes. */
static literal read_long(uint32_t version, const uint8_t *text, size_t len, size_t bracket)
{
    literal found = {NO_CLOSING, len, false, 0};
    for (size_t at = bracket; at < len; at++) {
        if (version == LUCK_LUA_51 && bracket == 2 && !found.breaks && long_bracket(text + at, len - at, '[') == 2) {
            found.breaks = true;
            found.break_place = at;
        }
        if (long_bracket(text + at, len - at, ']') != bracket)
            continue;
        found.fault = at + bracket == len ? NO_FAULT : BYTES_AFTER;
        found.place = at + bracket;
        return found;
    }
    return found;
}

/* What stands in a text that should be one literal. */
static literal read_literal(uint32_t version, const uint8_t *text, size_t len)
{
    literal found = {NO_OPENING, 0, false, 0};
    size_t bracket = long_bracket(text, len, '[');
    if (bracket != 0)
        return read_long(version, text, len, bracket);
    if (len == 0 || (text[0] != '"' && text[0] != '\''))
        return found;
    uint8_t *copy = (uint8_t *)malloc(len + 1);
    if (copy == NULL)
        found.fault = NO_FAULT;
    else
        found = read_quoted(version, text, len, copy);
    free(copy);
    return found;
}

#endif
