/*
 * luck: the checks of include/luck.h for people. `luck --help` (help.h) says how it is called.
 *
 *     cc -std=c99 -Wall -Wextra -Werror -Iinclude host/c/luck.c target/staticlib/libluck.a -lpthread -o luck
 *
 * The words of the command line are read in words.h, with what was likely meant in likely.h; answers.h puts an answer into words, by
 * the sentences of messages.h and with a text as show.h shows it, and notes.h what is said beside it; literal.h finds what is wrong with a
 * literal, range.h whether a reversed range can be turned round; lines.h has `luck lines`, own_stack.h the trial on a stack of its own. A
 * text is read whole, since the library takes it so; of a literal there is a copy or a value as long; nothing else that is allocated grows
 * with the input.
 */
#define _POSIX_C_SOURCE 200112L /* threads, for own_stack.h; isatty */

#include "answers.h"
#include "check.h"
#include "lines.h"
#include "luck.h"
#include "own_stack.h"
#include "words.h"

#include <errno.h>
#include <stdio.h>
#include <stdlib.h>
#include <string.h>
#include <unistd.h>

/* -- Checks ------------------------------------------------------------------------------------------------------------ */

static int check_text(const question *asked)
{
    luck_answer answer = check(asked);
    if (answer.number != 0) {
        put_refusal(stdout, asked, &answer);
        return status_of(answer.number);
    }
    put_accepted(asked, answer.count);
    return ACCEPTED;
}

static int run_check(int count, char **words)
{
    question asked;
    uint8_t *kept;
    int status = read_check(count, words, A_BODY, &kept, &asked);
    if (status == 0)
        status = check_text(&asked);
    free(kept);
    return status;
}

static int check_literal(const question *asked)
{
    luck_literal found = luck_check_literal(asked->kind, asked->version, asked->known, asked->captures, 0, asked->text, asked->len);
    if (found.number != 0) {
        put_literal_refusal(asked, &found);
        return status_of(found.number);
    }
    if (found.skipped) {
        put_skipped(asked);
        return SKIPPED;
    }
    put_accepted(asked, found.count);
    return ACCEPTED;
}

static int run_literal(int count, char **words)
{
    question asked;
    uint8_t *kept;
    int status = read_check(count, words, A_LITERAL, &kept, &asked);
    if (status == 0)
        status = check_literal(&asked);
    free(kept);
    return status;
}

/* Writes a result. On a terminal what is said after it would stand in its last line, unless that has its newline. */
static void put_output(const uint8_t *output, size_t written, bool is_said_more)
{
    fwrite(output, 1, written, stdout);
    fflush(stdout);
    if (is_said_more && written > 0 && output[written - 1] != '\n' && isatty(STDOUT_FILENO) && isatty(STDERR_FILENO))
        fputc('\n', stderr);
}

/* -- Decoding ---------------------------------------------------------------------------------------------------------- */

/* An output of `room` bytes, or null. */
static uint8_t *output_of(size_t room)
{
    return (uint8_t *)malloc(room == 0 ? 1 : room);
}

static void put_undecoded(FILE *out, const question *asked, const luck_decoded *found)
{
    luck_answer refused = {found->number, 0, 0, found->offset, 0};
    put_refusal(out, asked, &refused);
}

static int decode(const question *asked)
{
    uint8_t *output = output_of(asked->room);
    if (output == NULL)
        return trouble("no memory for", "the output");
    luck_decoded found = luck_decode_string(asked->version, asked->text, asked->len, output, asked->room);
    if (found.number == 0) {
        put_output(output, found.written, has_literal_note(asked));
        put_notes(stderr, asked, found.number);
    } else {
        put_undecoded(stderr, asked, &found);
    }
    free(output);
    return status_of(found.number);
}

static int run_decode(int count, char **words)
{
    question asked = nothing_asked(A_LITERAL);
    uint8_t *kept = NULL;
    if (count < 2)
        return missing_words("VERSION and TEXT are needed");
    int status = read_version(words[0], &asked.version);
    if (status == 0)
        status = read_options(count - 2, words + 2, false, &asked);
    if (status == 0)
        status = read_text(words[1], &kept, &asked);
    if (status == 0) {
        look_at_shape(&asked);
        status = decode(&asked);
    }
    free(kept);
    return status;
}

/* The value of a literal, checked; a value is never longer than its literal. */
static int check_value(const question *asked)
{
    static const luck_answer no_kind = {LUCK_UNKNOWN_KIND, 0, 0, 0, 0};
    question value = *asked;
    uint8_t *output = output_of(asked->len);
    int status;
    if (output == NULL)
        return trouble("no memory for", "the value");
    luck_decoded found = luck_decode_string(asked->version, asked->text, asked->len, output, asked->len);
    if (!is_kind(asked->kind)) {
        put_refusal(stdout, asked, &no_kind);
        status = status_of(no_kind.number);
    } else if (found.number != 0) {
        put_undecoded(stdout, asked, &found);
        status = status_of(found.number);
    } else {
        value.of = A_VALUE;
        value.text = output;
        value.len = found.written;
        status = check_text(&value);
    }
    free(output);
    return status;
}

static int run_value(int count, char **words)
{
    question asked;
    uint8_t *kept;
    int status = read_check(count, words, A_LITERAL, &kept, &asked);
    if (status == 0)
        status = check_value(&asked);
    free(kept);
    return status;
}

/* -- The trial --------------------------------------------------------------------------------------------------------- */

/* The pattern as a text of its own, for the note on it. */
static question pattern_question(uint32_t version, const gsub_call *call)
{
    question asked = nothing_asked(A_BODY);
    asked.kind = LUCK_KIND_PATTERN;
    asked.version = version;
    asked.text = call->pattern;
    asked.len = call->pattern_len;
    return asked;
}

static int try_gsub(const question *asked, const char *pattern, const char *replacement)
{
    uint8_t *output = output_of(asked->room);
    if (output == NULL)
        return trouble("no memory for", "the output");
    gsub_call call;
    memset(&call, 0, sizeof call);
    call.version = asked->version;
    call.pattern = (const uint8_t *)pattern;
    call.pattern_len = strlen(pattern);
    call.replacement = (const uint8_t *)replacement;
    call.replacement_len = strlen(replacement);
    call.subject = asked->text;
    call.subject_len = asked->len;
    call.budget = asked->budget;
    call.output = output;
    call.room = asked->room;
    errno = call_on_own_stack(&call);
    if (errno != 0) {
        free(output);
        return trouble("no thread for", "the trial");
    }
    put_output(output, call.found.written, true);
    put_trial(asked, &call.found);
    question checked = pattern_question(asked->version, &call);
    put_range_note(&checked);
    free(output);
    return status_of(call.found.number);
}

static int run_trial(int count, char **words)
{
    question asked = nothing_asked(A_SUBJECT);
    uint8_t *kept = NULL;
    if (count < 3)
        return missing_words("VERSION, PATTERN and REPLACEMENT are needed");
    int status = read_version(words[0], &asked.version);
    if (status == 0)
        status = read_options(count - 3, words + 3, true, &asked);
    if (status == 0)
        status = read_text("-", &kept, &asked);
    if (status == 0)
        status = try_gsub(&asked, words[1], words[2]);
    free(kept);
    return status;
}

/* -- The rest ---------------------------------------------------------------------------------------------------------- */

static int run_lines(int count, char **words)
{
    if (count > 1)
        return wrong_word("one word too many", words[1], NULL);
    if (count == 0 || strcmp(words[0], "-") == 0)
        return judge_lines(stdin, "standard input");
    errno = 0;
    FILE *in = fopen(words[0], "rb");
    if (in == NULL)
        return trouble("cannot open", words[0]);
    int status = judge_lines(in, words[0]);
    fclose(in);
    return status;
}

static bool is_command(const char *word);

/* `luck help check` is the same help. */
static int run_help(int count, char **words)
{
    int taken = count > 0 && is_command(words[0]) ? 1 : 0;
    if (count > taken)
        return wrong_word("one word too many", words[taken], NULL);
    fputs(usage_text, stdout);
    for (size_t i = 0; i < sizeof help_text / sizeof help_text[0]; i++)
        fputs(help_text[i], stdout);
    return ACCEPTED;
}

static int run_version(int count, char **words)
{
    if (count > 0)
        return wrong_word("one word too many", words[0], NULL);
    fputs("luck " LUCK_VERSION ", for Lua 5.1 to 5.5 and Luau\n", stdout);
    return ACCEPTED;
}

enum { COMMANDS = 10 };

static const struct {
    const char *name;
    int (*run)(int count, char **words);
} commands[COMMANDS] = {{"check", run_check}, {"literal", run_literal}, {"value", run_value}, {"decode", run_decode},
                        {"trial", run_trial}, {"lines", run_lines},     {"help", run_help},   {"--help", run_help},
                        {"-h", run_help},     {"--version", run_version}};

static bool is_command(const char *word)
{
    for (size_t i = 0; i < COMMANDS; i++)
        if (strcmp(word, commands[i].name) == 0)
            return true;
    return false;
}

/* A kind in the place of a command is likely to be checked. */
static int no_command(const char *word)
{
    static const char *const checks[KINDS] = {"check format",   "check pattern",     "check pack",
                                              "check packsize", "check replacement", "check date"};
    const char *names[COMMANDS];
    for (size_t i = 0; i < KINDS; i++)
        if (same_word(word, kind_names[i]))
            return wrong_word("no command", word, checks[i]);
    for (size_t i = 0; i < COMMANDS; i++)
        names[i] = commands[i].name;
    return wrong_word("no command", word, likely(word, names, COMMANDS));
}

/* `luck check --help` is help too: no command takes that as its only word, but `lines`, whose file is then ./--help. */
static int run(int count, char **words)
{
    if (count < 1)
        return missing_words("a command is needed");
    for (size_t i = 0; i < COMMANDS; i++)
        if (strcmp(words[0], commands[i].name) == 0) {
            bool help = count == 2 && (strcmp(words[1], "--help") == 0 || strcmp(words[1], "-h") == 0);
            return help ? run_help(0, NULL) : commands[i].run(count - 1, words + 1);
        }
    return no_command(words[0]);
}

/* What was buffered is written here at the latest, and a device that is full or closed is noticed. */
int main(int argc, char **argv)
{
    int status = run(argc - 1, argv + 1);
    bool lost = ferror(stdout) != 0;
    if (fclose(stdout) != 0 || lost) {
        fputs("luck: cannot write standard output\n", stderr);
        status = TROUBLE;
    }
    lost = ferror(stderr) != 0;
    if (fclose(stderr) != 0 || lost)
        status = TROUBLE;
    return status;
}
