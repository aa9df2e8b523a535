/*
 * The check of a body by its kind, for the command `luck` (luck.c).
 */
#ifndef LUCK_CHECK_H
#define LUCK_CHECK_H

#include "luck.h"
#include "messages.h"

/* The check that the kind names. */
static luck_answer check(const question *asked)
{
    static const luck_answer no_kind = {LUCK_UNKNOWN_KIND, 0, 0, 0, 0};
    switch (asked->kind) {
    case LUCK_KIND_FORMAT:
        return luck_check_format(asked->version, asked->text, asked->len);
    case LUCK_KIND_PATTERN:
        return luck_check_pattern(asked->version, asked->text, asked->len);
    case LUCK_KIND_PACK:
        return luck_check_pack(asked->version, asked->text, asked->len);
    case LUCK_KIND_PACKSIZE:
        return luck_check_packsize(asked->version, asked->text, asked->len);
    case LUCK_KIND_REPLACEMENT:
        return luck_check_replacement(asked->version, asked->known, asked->captures, asked->text, asked->len);
    case LUCK_KIND_DATE:
        return luck_check_date(asked->version, asked->text, asked->len);
    default:
        return no_kind;
    }
}

#endif
