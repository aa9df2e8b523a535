/*
 * The words of the command line, and standard input, for the command `luck` (luck.c).
 */
#ifndef LUCK_WORDS_H
#define LUCK_WORDS_H

#include "help.h"
#include "likely.h"
#include "literal.h"
#include "luck.h"
#include "messages.h"
#include "show.h"

#include <errno.h>
#include <stdio.h>
#include <stdlib.h>
#include <string.h>

enum { ACCEPTED = 0, REFUSED = 1, TROUBLE = 2, SKIPPED = 3 }; /* the exit statuses */

enum { DEFAULT_BUDGET = 10000000, DEFAULT_ROOM = 16 * 1024 * 1024 };

enum { KINDS = 6, VERSIONS = 6 };

static const char *const kind_names[KINDS] = {"format", "pattern", "pack", "packsize", "replacement", "date"};
static const char kind_letters[] = "FPKSGD";
static const char *const version_names[VERSIONS] = {"5.1", "5.2", "5.3", "5.4", "5.5", "luau"}; /* from 1 */
static const char *const kinds_said = "write format, pattern, pack, packsize, replacement or date";
static const char *const versions_said = "write 5.1 to 5.5, luau, or 1 to 6";
static const char *const option_names[] = {"--room", "--budget"}; /* decoding has the first only */

static bool is_kind(uint8_t kind)
{
    return memchr(kind_letters, kind, KINDS) != NULL;
}

/* The status of an answer. A version or kind that is none is a slip of whoever calls, and says nothing of the text. */
static int status_of(uint32_t number)
{
    if (number == LUCK_UNKNOWN_VERSION || number == LUCK_UNKNOWN_KIND)
        return TROUBLE;
    return number == LUCK_ACCEPTED ? ACCEPTED : REFUSED;
}

/* -- Wrong usage, and trouble ------------------------------------------------------------------------------------------ */

/* A word that is none of the names, with the one that was likely meant, if any; else what there is, where that is given. */
static int wrong_name(const char *what, const char *word, const char *meant, const char *names)
{
    fprintf(stderr, "luck: %s: ", what);
    put_word(stderr, word);
    if (meant != NULL)
        fprintf(stderr, " (did you mean %s?)", meant);
    else if (names != NULL)
        fprintf(stderr, " (%s)", names);
    fputc('\n', stderr);
    fputs(usage_text, stderr);
    return TROUBLE;
}

static int wrong_word(const char *what, const char *word, const char *meant)
{
    return wrong_name(what, word, meant, NULL);
}

static int missing_words(const char *what)
{
    fprintf(stderr, "luck: %s\n", what);
    fputs(usage_text, stderr);
    return TROUBLE;
}

static int trouble(const char *what, const char *name)
{
    int reason = errno;
    fprintf(stderr, "luck: %s ", what);
    put_word(stderr, name);
    if (reason != 0)
        fprintf(stderr, ": %s", strerror(reason));
    fputc('\n', stderr);
    return TROUBLE;
}

/* -- Words ------------------------------------------------------------------------------------------------------------- */

/* A number of digits only, at most `highest`. */
static bool read_number(const char *word, size_t highest, size_t *number)
{
    *number = 0;
    if (*word == '\0')
        return false;
    for (; *word != '\0'; word++) {
        if (*word < '0' || *word > '9')
            return false;
        size_t digit = (size_t)(*word - '0');
        if (*number > (highest - digit) / 10)
            return false;
        *number = *number * 10 + digit;
    }
    return true;
}

/* The version of a name in any case, 5.1 to 5.5 also behind `lua`, as in `lua5.4` and `Lua 5.4`; 0 where it is none. */
static uint32_t named_version(const char *word)
{
    size_t prefix = begins(word, "lua ", 4) ? 4 : begins(word, "lua", 3) ? 3 : 0;
    for (uint32_t i = 0; i < VERSIONS; i++)
        if (same_word(word, version_names[i]) || (i + 1 != LUCK_LUAU && same_word(word + prefix, version_names[i])))
            return i + 1;
    return 0;
}

/* Any number is a version for the library, which refuses it with 25. 0 is success, else the exit status. */
static int read_version(const char *word, uint32_t *version)
{
    size_t number = 0;
    *version = named_version(word);
    if (*version != 0)
        return 0;
    if (!read_number(word, UINT32_MAX, &number))
        return wrong_name("no version", word, likely(word, version_names, VERSIONS), versions_said);
    *version = (uint32_t)number;
    return 0;
}

/* The letter of a name in any case; 0 where it is none. */
static uint8_t named_kind(const char *word)
{
    for (size_t i = 0; i < KINDS; i++)
        if (same_word(word, kind_names[i]))
            return (uint8_t)kind_letters[i];
    return 0;
}

/* Any single byte is a letter, which is refused with 30. 0 is success, else the exit status. */
static int read_kind(const char *word, uint8_t *kind)
{
    *kind = named_kind(word);
    if (*kind != 0)
        return 0;
    if (strlen(word) != 1)
        return wrong_name("no kind", word, likely(word, kind_names, KINDS), kinds_said);
    *kind = (uint8_t)word[0];
    return 0;
}

/* Whether VERSION stands before KIND. */
static bool are_swapped(const char *first, const char *second)
{
    size_t number = 0;
    bool version = named_version(first) != 0 || read_number(first, UINT32_MAX, &number);
    return version && (named_kind(second) != 0 || (strlen(second) == 1 && is_kind((uint8_t)second[0])));
}

/* The value of an option: behind its `=`, or the next word, which is then counted in `taken`; null where it is missing. */
static const char *option_value(const char *name, int count, char **words, int *taken)
{
    size_t len = strlen(name);
    *taken = 1;
    if (words[0][len] == '=')
        return words[0] + len + 1;
    *taken = 2;
    return count > 1 ? words[1] : NULL;
}

static bool is_option(const char *word, const char *name)
{
    size_t len = strlen(name);
    return strncmp(word, name, len) == 0 && (word[len] == '\0' || word[len] == '=');
}

/* The options after the texts; 0 is success, else the exit status. */
static int read_options(int count, char **words, bool has_budget, question *asked)
{
    int taken = 0;
    for (int i = 0; i < count; i += taken) {
        size_t number = 0;
        bool budget = has_budget && is_option(words[i], "--budget");
        if (!budget && !is_option(words[i], "--room"))
            return wrong_word("one word too many", words[i], likely(words[i], option_names, has_budget ? 2 : 1));
        const char *value = option_value(budget ? "--budget" : "--room", count - i, words + i, &taken);
        if (value == NULL)
            return wrong_word("a number is needed after", words[i], NULL);
        if (!read_number(value, budget ? UINT32_MAX : SIZE_MAX, &number))
            return wrong_word(budget ? "no budget" : "no room", value, NULL);
        if (budget)
            asked->budget = (uint32_t)number;
        else
            asked->room = number;
    }
    return 0;
}

/* -- Texts ------------------------------------------------------------------------------------------------------------- */

/* A stream to its end, in a block that the caller frees; 0 is success, else the exit status. */
static int read_all(FILE *in, uint8_t **text, size_t *len)
{
    size_t size = 0;
    *text = NULL;
    *len = 0;
    errno = 0;
    while (!feof(in) && !ferror(in)) {
        if (*len == size) {
            size_t larger = size == 0 ? 65536 : size * 2;
            uint8_t *grown = larger > size ? (uint8_t *)realloc(*text, larger) : NULL;
            if (grown == NULL)
                return trouble("no memory for", "standard input");
            *text = grown;
            size = larger;
        }
        *len += fread(*text + *len, 1, size - *len, in);
    }
    return ferror(in) ? trouble("cannot read", "standard input") : 0;
}

/* The word itself, or for `-` what standard input has, which `kept` then holds to be freed. */
static int read_text(const char *word, uint8_t **kept, question *asked)
{
    asked->text = (const uint8_t *)word;
    asked->len = strlen(word);
    if (strcmp(word, "-") != 0)
        return 0;
    int status = read_all(stdin, kept, &asked->len);
    asked->text = *kept;
    return status;
}

/* What a literal looks like, for its sentence and notes. */
static void look_at_shape(question *asked)
{
    asked->source = asked->text;
    asked->source_len = asked->len;
    asked->shape = read_literal(asked->version, asked->text, asked->len);
}

static question nothing_asked(enum asked_of of)
{
    question asked;
    memset(&asked, 0, sizeof asked);
    asked.of = of;
    asked.room = DEFAULT_ROOM;
    asked.budget = DEFAULT_BUDGET;
    return asked;
}

/* KIND VERSION TEXT [CAPTURES], of check, literal and value; 0 is success, else the exit status. */
static int read_check(int count, char **words, enum asked_of of, uint8_t **kept, question *asked)
{
    *kept = NULL;
    *asked = nothing_asked(of);
    if (count < 3)
        return missing_words("KIND, VERSION and TEXT are needed");
    if (count > 4)
        return wrong_word("one word too many", words[4], NULL);
    if (are_swapped(words[0], words[1]))
        return wrong_word("KIND comes before VERSION", words[0], NULL);
    int status = read_kind(words[0], &asked->kind);
    if (status == 0)
        status = read_version(words[1], &asked->version);
    if (status != 0)
        return status;
    asked->known = count == 4;
    if (asked->known && asked->kind != LUCK_KIND_REPLACEMENT)
        return wrong_word("CAPTURES stand only after a replacement", words[3], NULL);
    if (asked->known && !read_number(words[3], SIZE_MAX, &asked->captures))
        return wrong_word("no count of captures", words[3], NULL);
    status = read_text(words[2], kept, asked);
    if (status == 0 && of == A_LITERAL)
        look_at_shape(asked);
    return status;
}

#endif
