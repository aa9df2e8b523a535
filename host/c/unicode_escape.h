/*
 * Escapes `\u{...}`, for the command `luck` (luck.c): their numbers, and which of those that the library refuses Lua itself takes.
 */
#ifndef LUCK_UNICODE_ESCAPE_H
#define LUCK_UNICODE_ESCAPE_H

#include "luck.h"

#include <string.h>

static bool is_surrogate(uint32_t code)
{
    return code >= 0xD800 && code <= 0xDFFF;
}

/* The library refuses surrogates in 5.3, as luck does, and Lua 5.3 takes them (docs/DIFFERENCES.md). */
static bool is_refused_here_only(uint32_t version, uint32_t code)
{
    return version == LUCK_LUA_53 && is_surrogate(code);
}

/* The length of the `\u{...}` at the front of a text, and its number, at most 80000000; 0 where there is none. */
static size_t unicode_escape(const uint8_t *text, size_t len, uint32_t *code)
{
    static const char digits[] = "0123456789abcdef0123456789ABCDEF";
    size_t at = 3;
    *code = 0;
    if (len < at || memcmp(text, "\\u{", at) != 0)
        return 0;
    for (; at < len && text[at] != '}'; at++) {
        const char *digit = text[at] == '\0' ? NULL : strchr(digits, text[at]);
        if (digit == NULL)
            return 0;
        *code = *code > 0x7FFFFFF ? 0x80000000 : *code * 16 + (uint32_t)(digit - digits) % 16;
    }
    return at == len ? 0 : at + 1;
}

#endif
