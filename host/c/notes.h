/*
 * What is said beside an answer, for the command `luck` (luck.c): where Lua itself may do otherwise than the answer says. A note changes no
 * status.
 */
#ifndef LUCK_NOTES_H
#define LUCK_NOTES_H

#include "luck.h"
#include "messages.h"
#include "sentences.h"

#include <stdio.h>
#include <string.h>

/* The library checks a pack format for any version. */
static void put_pack_note(FILE *out, const question *asked)
{
    bool pack = asked->kind == LUCK_KIND_PACK;
    if ((!pack && asked->kind != LUCK_KIND_PACKSIZE) || (asked->version != LUCK_LUA_51 && asked->version != LUCK_LUA_52))
        return;
    fputs("  note: ", out);
    put_version(out, asked->version);
    fprintf(out, " has no %s, which came with Lua 5.3\n", pack ? "string.pack and string.unpack" : "string.packsize");
}

/* Whether put_literal_note has something to say of a literal that was decoded. */
static bool has_literal_note(const question *asked)
{
    return asked->shape.breaks || asked->shape.fault == BYTES_AFTER;
}

/* Decoding and the check of a literal are no lexers: they take what Lua ends earlier or does not load. */
static void put_literal_note(FILE *out, const question *asked)
{
    static const luck_answer undecodable = {LUCK_UNDECODABLE, 0, 0, 0, 0};
    const literal *shape = &asked->shape;
    if (shape->breaks && asked->source[0] == '[')
        fprintf(out, "  note: Lua 5.1 does not load the `[[` at offset %zu: write `[=[` and `]=]` around the text\n", shape->break_place);
    else if (shape->breaks)
        fprintf(out, "  note: Lua does not load the line break at offset %zu: write `\\%c`, or a `\\` before it\n", shape->break_place,
                asked->source[shape->break_place] == '\n' ? 'n' : 'r');
    if (shape->fault == BYTES_AFTER) {
        fprintf(out, "  note: Lua ends this literal before offset %zu: what follows is not part of it\n", shape->place);
    } else if (shape->fault == NO_ESCAPE || shape->fault == NO_CLOSING) {
        fputs("  note: Lua does not load this literal: ", out);
        put_sentence(out, message_of(asked, &undecodable).fault, asked, &undecodable);
        fprintf(out, " (offset %zu)\n", shape->place);
    }
}

/* A body is what Lua's function is handed, in which a backslash is a byte like others. */
static void put_backslash_note(FILE *out, const question *asked)
{
    if (asked->len > 0 && memchr(asked->text, '\\', asked->len) != NULL)
        fputs("  note: `\\` is read as itself; `luck value` takes a literal, with its quotes, and reads its escapes\n", out);
}

/* The notes on an answer; but for that on packs, only where the text was read. */
static void put_notes(FILE *out, const question *asked, uint32_t number)
{
    put_pack_note(out, asked);
    if (is_of_reading(number) && (asked->of == A_LITERAL || asked->of == A_VALUE))
        put_literal_note(out, asked);
    if (is_of_reading(number) && asked->of == A_BODY)
        put_backslash_note(out, asked);
}

/* The trial goes by the rules of 5.4 in every version, and these two differ from them (docs/DIFFERENCES.md). */
static void put_trial_note(uint32_t version)
{
    if (version == LUCK_LUA_51)
        fputs("  note: by the rules of Lua 5.4; Lua 5.1 also replaces an empty match right after a match, and its `%g` is the letter g\n",
              stderr);
    if (version == LUCK_LUA_52)
        fputs("  note: by the rules of Lua 5.4; Lua 5.2 also replaces an empty match right after a match\n", stderr);
}

/* A trial runs a pattern that the check refuses for a reversed range, as Lua does; that nothing matches it may be why the result is not
 * what was wanted. */
static void put_range_note(const question *pattern)
{
    luck_answer found = luck_check_pattern(pattern->version, pattern->text, pattern->len);
    if (found.number != LUCK_REVERSED_RANGE)
        return;
    fputs("  note: ", stderr);
    put_sentence(stderr, message_of(pattern, &found).fault, pattern, &found);
    fprintf(stderr, " (offset %zu of the pattern)\n", found.offset);
}

#endif
