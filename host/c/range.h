/*
 * Reversed ranges (refusal 39), for the command `luck` (luck.c): whether the two ends of one can be written the other way round in its
 * place, or why not.
 */
#ifndef LUCK_RANGE_H
#define LUCK_RANGE_H

#include "luck.h"

enum range_shape {
    TURNS_ROUND,      /* the other way round it is read as a range */
    BOTH_CASES,       /* so it is, but `a-Z` is hardly meant to be `Z-a` */
    FROM_BACKSLASH,   /* so it is, but `\-.` is hardly meant to be a range: in other languages `\-` is a `-` */
    INSIDE_CHARACTER, /* the left byte is the last of a character of several bytes */
    TO_PERCENT,       /* a `%` on the left would be an escape */
    TO_HYPHEN,        /* a `-` on the left could be the middle of a range from the member before it */
    FROM_BRACKET,     /* a `]` on the right would close the set */
    TO_CARET,         /* a `^` on the left, in the first place of the set, would mean all other bytes */
    TO_CARET_UNSHOWN, /* the same, and the left end is not shown as it is written in a script */
    NOT_PLAIN         /* an end is not shown as it is written in a script */
};

/* Whether the byte at `place` follows the `[` of its set, which is the first with a fault: the text before it ends in a set that is not
 * closed, and the library says where that begins. */
static bool is_first_in_set(uint32_t version, const uint8_t *text, size_t place)
{
    luck_answer before = luck_check_pattern(version, text, place);
    return before.number == LUCK_UNTERMINATED_SET && before.offset + 1 == place;
}

static bool is_plain(uint8_t byte)
{
    return byte >= ' ' && byte < 0x7F && byte != '\\';
}

/* The shape of the first reversed range of a pattern, whose left byte is at `place`. No such range ends with a byte above 7F: that byte
 * begins a character, and is greater than all that may stand before a `-`. */
static enum range_shape range_at(uint32_t version, const uint8_t *text, size_t place)
{
    uint8_t left = text[place];
    uint8_t right = text[place + 2];
    if (left > 0x7F)
        return INSIDE_CHARACTER;
    if (right == '%')
        return TO_PERCENT;
    if (right == '-')
        return TO_HYPHEN;
    if (left == ']')
        return FROM_BRACKET;
    if (right == '^' && is_first_in_set(version, text, place))
        return is_plain(left) ? TO_CARET : TO_CARET_UNSHOWN;
    if (left == '\\')
        return FROM_BACKSLASH;
    if (!is_plain(left) || !is_plain(right))
        return NOT_PLAIN;
    return left >= 'a' && left <= 'z' && right >= 'A' && right <= 'Z' ? BOTH_CASES : TURNS_ROUND;
}

#endif
