/*
 * Answers in words, for the command `luck` (luck.c): accepted with a count, or refused, with the text, a caret under the fault, and what to
 * write instead. The sentences stand in messages.h, how a text is shown in show.h, what is said beside an answer in notes.h.
 */
#ifndef LUCK_ANSWERS_H
#define LUCK_ANSWERS_H

#include "luck.h"
#include "messages.h"
#include "notes.h"
#include "sentences.h"
#include "show.h"

#include <stdio.h>

static void put_count(FILE *out, size_t count, const char *thing)
{
    fprintf(out, "%zu %s%s", count, thing, count == 1 ? "" : "s");
}

static void put_accepted(const question *asked, size_t count)
{
    fputs("accepted", stdout);
    if (asked->kind != LUCK_KIND_REPLACEMENT && asked->kind != LUCK_KIND_DATE) {
        fputs(": ", stdout);
        put_count(stdout, count, asked->kind == LUCK_KIND_FORMAT ? "argument" : asked->kind == LUCK_KIND_PATTERN ? "capture" : "value");
    }
    fputc('\n', stdout);
    put_notes(stdout, asked, LUCK_ACCEPTED);
}

/* The place of a refusal in the text: of 24 what its shape gives, of what is no part of the text nowhere. */
static size_t place_of(const question *asked, const luck_answer *refused)
{
    if (is_of_reading(refused->number) || refused->number == LUCK_NOT_UTF8)
        return refused->offset;
    return refused->number == LUCK_UNDECODABLE && asked->shape.fault > NO_OPENING ? asked->shape.place : nowhere;
}

/* A refusal of the text itself. */
static void put_refusal(FILE *out, const question *asked, const luck_answer *refused)
{
    message said = message_of(asked, refused);
    size_t place = place_of(asked, refused);
    fputs("refused: ", out);
    put_sentence(out, said.fault, asked, refused);
    fprintf(out, " (refusal %lu", (unsigned long)refused->number);
    if (place != nowhere)
        fprintf(out, ", offset %zu%s", place, asked->of == A_VALUE ? " of the value" : "");
    fputs(")\n", out);
    if (place != nowhere || refused->number == LUCK_UNDECODABLE)
        put_place(out, asked->text, asked->len, place);
    put_advice(out, said.advice, asked, refused);
    put_notes(out, asked, refused->number);
}

/* The sentence speaks of the body, the row and its caret of the literal as it is written. */
static void put_literal_refusal(const question *asked, const luck_literal *found)
{
    question body = *asked;
    luck_answer refused = {found->number, found->first, found->second, found->offset, found->count};
    if (!found->spanned) {
        put_refusal(stdout, asked, &refused);
        return;
    }
    body.text = asked->text + 1;
    body.len = asked->len - 2;
    message said = message_of(&body, &refused);
    fputs("refused: ", stdout);
    put_sentence(stdout, said.fault, &body, &refused);
    fprintf(stdout, " (refusal %lu, offset %zu, ", (unsigned long)found->number, found->offset);
    fprintf(stdout, "span %lu to %lu)\n", (unsigned long)found->start, (unsigned long)found->end);
    put_place(stdout, asked->text, asked->len, found->offset + 1);
    put_advice(stdout, said.advice, &body, &refused);
    put_notes(stdout, asked, found->number);
}

static bool is_short(const uint8_t *text, size_t len)
{
    return len >= 2 && (text[0] == '"' || text[0] == '\'') && text[len - 1] == text[0];
}

/* Why a literal was not checked, and what checks it. */
static void put_skipped(const question *asked)
{
    if (is_short(asked->text, asked->len))
        fprintf(stdout,
                "skipped: an escape spells a byte by its number (`\\0` to `\\9`, `\\x` or `\\u`), so it is not checked\n"
                "  run `luck value KIND VERSION TEXT%s` to check what it stands for\n",
                asked->known ? " CAPTURES" : "");
    else
        fputs("skipped: not in two equal quotes, so it is not checked\n"
              "  write a short string with its quotes; run `luck value` for long brackets, `luck check` for a body without quotes\n",
              stdout);
}

/* How a trial ended, in one line, and what to do about it. */
static void put_trial(const question *asked, const luck_trial *found)
{
    luck_answer refused = {found->number, 0, 0, 0, 0};
    message said = message_of(asked, &refused);
    if (found->number == 0) {
        fputs("done", stderr);
    } else if (found->number == LUCK_RAISED) {
        fprintf(stderr, "raised: %s (refusal %d, kind %lu)", raises[found->kind], LUCK_RAISED, (unsigned long)found->kind);
        said.advice = found->kind <= LAST_PATTERN_RAISE ? "run `luck check pattern VERSION PATTERN` to see the place"
                                                        : "run `luck check replacement VERSION REPLACEMENT CAPTURES` to see the place";
    } else {
        fputs("refused: ", stderr);
        put_sentence(stderr, said.fault, asked, &refused);
        fprintf(stderr, " (refusal %lu)", (unsigned long)found->number);
    }
    fputs(": ", stderr);
    put_count(stderr, found->replacements, "replacement");
    fputs(", ", stderr);
    put_count(stderr, found->steps, "step");
    fputc('\n', stderr);
    put_advice(stderr, said.advice, asked, &refused);
    if (found->number == 0)
        put_trial_note(asked->version);
}

#endif
