/*
 * `luck lines` (luck.c): the lines of the program `bodies`, each refused one explained. One line is kept, whatever the input's length.
 */
#ifndef LUCK_LINES_H
#define LUCK_LINES_H

#include "answers.h"
#include "check.h"
#include "words.h"

enum {
    HEAD = 5,      /* the bytes of a line before its body */
    LONGEST = 4005 /* the bytes of a line, without its newline */
};

/* What of a line's head does not fit (refusal 30); null where all does. */
static const char *misfit_of(const uint8_t *line, size_t len)
{
    if (len == 0)
        return "bad line: it is empty";
    if (len >= 3 && memcmp(line, "\xEF\xBB\xBF", 3) == 0)
        return "bad line: it begins with a byte order mark: save the file without it";
    if (len < HEAD)
        return "bad line: it is shorter than the head of five bytes";
    bool blank = line[2] == ' ' && line[3] == ' ';
    bool units = line[3] >= '0' && line[3] <= '9';
    bool tens = line[2] == ' ' || line[2] == '1' || line[2] == '2' || (line[2] == '3' && line[3] <= '2');
    if (!is_kind(line[0]))
        return "bad line: its first byte is no kind";
    if (line[1] < '0' || line[1] > '9')
        return "bad line: its second byte is no version digit";
    if (line[0] != LUCK_KIND_REPLACEMENT && !blank)
        return "bad line: its captures are not blank, though its kind is not G";
    if (!blank && !(units && tens))
        return "bad line: its captures are no number from 0 to 32 that ends in the fourth byte";
    if (line[4] != ' ')
        return "bad line: its fifth byte is no space";
    return NULL;
}

/* Refusals 30 and 31, of the line as a whole. */
static void put_bad_line(const uint8_t *line, size_t len, uint32_t number, const char *fault, const char *advice)
{
    fprintf(stdout, "refused: %s (refusal %lu)\n", fault, (unsigned long)number);
    put_place(stdout, line, len, nowhere);
    fprintf(stdout, "  %s\n", advice);
}

/* The question of a line whose head fits. */
static question line_question(const uint8_t *line, size_t len)
{
    question asked = nothing_asked(A_LINE);
    asked.kind = line[0];
    asked.version = (uint32_t)(line[1] - '0');
    asked.known = line[3] != ' ';
    if (asked.known)
        asked.captures = (size_t)(line[3] - '0') + (line[2] == ' ' ? 0 : 10 * (size_t)(line[2] - '0'));
    asked.text = line + HEAD;
    asked.len = len - HEAD;
    return asked;
}

/* Whether a line is accepted; a refused one is explained. `len` is at most one more than LONGEST, for all that are too long. */
static bool judge_line(unsigned long long number, const uint8_t *line, size_t len)
{
    if (len > LONGEST) {
        fprintf(stdout, "line %llu: ", number);
        put_bad_line(line, LONGEST, LONG_LINE, message_by_number(LONG_LINE).fault, message_by_number(LONG_LINE).advice);
        return false;
    }
    const char *misfit = misfit_of(line, len);
    if (misfit != NULL) {
        fprintf(stdout, "line %llu: ", number);
        put_bad_line(line, len, BAD_LINE, misfit, head_advice);
        return false;
    }
    question asked = line_question(line, len);
    luck_answer answer = check(&asked);
    if (answer.number == 0)
        return true;
    fprintf(stdout, "line %llu, head `%.5s`: ", number, (const char *)line);
    put_refusal(stdout, &asked, &answer);
    return false;
}

/* The next line without its newline, of which LONGEST bytes are kept; false at the stream's end. */
static bool next_line(FILE *in, uint8_t *line, size_t *len)
{
    int byte = getc(in);
    *len = 0;
    if (byte == EOF)
        return false;
    for (; byte != EOF && byte != '\n'; byte = getc(in)) {
        if (*len < LONGEST)
            line[*len] = (uint8_t)byte;
        if (*len <= LONGEST)
            (*len)++;
    }
    return true;
}

static int judge_lines(FILE *in, const char *name)
{
    static uint8_t line[LONGEST];
    size_t len;
    unsigned long long lines = 0;
    unsigned long long refused = 0;
    errno = 0;
    while (!ferror(stdout) && next_line(in, line, &len) && !ferror(in)) {
        lines++;
        if (!judge_line(lines, line, len))
            refused++;
    }
    if (ferror(in))
        return trouble("cannot read", name);
    fprintf(stdout, "%llu line%s read, %llu refused\n", lines, lines == 1 ? "" : "s", refused);
    return refused == 0 ? ACCEPTED : REFUSED;
}

#endif
