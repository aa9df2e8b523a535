/*
 * A sentence of messages.h with its parts filled in, for the command `luck` (luck.c).
 */
#ifndef LUCK_SENTENCES_H
#define LUCK_SENTENCES_H

#include "literal.h"
#include "luck.h"
#include "messages.h"
#include "show.h"

#include <stdio.h>

static void put_version(FILE *out, uint32_t version)
{
    if (version == LUCK_LUAU)
        fputs("Luau", out);
    else if (version >= LUCK_LUA_51 && version <= LUCK_LUA_55)
        fprintf(out, "Lua 5.%lu", (unsigned long)version);
    else
        fprintf(out, "%lu", (unsigned long)version);
}

static void put_character(FILE *out, const question *asked, size_t place)
{
    if (place < asked->len)
        fputs(character_at(asked->text + place, asked->len - place).shown, out);
}

/* The escape that the shape names, cut where it is longer than any that is needed. */
static void put_escape(FILE *out, const question *asked)
{
    static const size_t longest = 16;
    const uint8_t *escape = asked->source + asked->shape.place;
    size_t len = escape_len(escape, asked->source_len - asked->shape.place);
    put_text(out, escape, len > longest ? longest : len);
    if (len > longest)
        fputs("...", out);
}

/* What stands for a letter after `$` in a sentence: messages.h lists them. */
static void put_part(FILE *out, char letter, const question *asked, const luck_answer *answer)
{
    uint8_t second = (uint8_t)answer->second;
    switch (letter) {
    case 'c':
        put_character(out, asked, answer->offset);
        break;
    case '2':
        put_text(out, &second, 1);
        break;
    case '<':
        put_text(out, asked->text + answer->offset, 1);
        break;
    case '>':
        put_text(out, asked->text + answer->offset + 2, 1);
        break;
    case 'w':
        put_character(out, asked, start_of_character(asked->text, answer->offset));
        break;
    case 'k':
        put_text(out, &asked->kind, 1);
        break;
    case 'v':
        put_version(out, asked->version);
        break;
    case 'n':
        fprintf(out, "%zu", asked->captures);
        break;
    case 'r':
        fprintf(out, "%zu", asked->room);
        break;
    case 'b':
        fprintf(out, "%lu", (unsigned long)asked->budget);
        break;
    case 'e':
        put_escape(out, asked);
        break;
    default:
        break;
    }
}

static void put_sentence(FILE *out, const char *sentence, const question *asked, const luck_answer *answer)
{
    for (; *sentence != '\0'; sentence++) {
        if (*sentence != '$')
            fputc(*sentence, out);
        else
            put_part(out, *++sentence, asked, answer);
    }
}

static void put_advice(FILE *out, const char *advice, const question *asked, const luck_answer *answer)
{
    if (*advice == '\0')
        return;
    fputs("  ", out);
    put_sentence(out, advice, asked, answer);
    fputc('\n', out);
}

#endif
