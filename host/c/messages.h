/*
 * The sentences of the command `luck` (luck.c): for each refusal what is wrong and what to write instead, after
 * docs/REFUSALS.md.
 *
 * In a sentence, these stand for parts of what was asked and answered (put_sentence writes them):
 *
 *     $c  the character at the fault        $v  the version's name            $r  the room of the output
 *     $2  the conversion of refusal 6       $n  the pattern's captures        $b  the budget of steps
 *     $k  the kind                          $e  the escape that the shape names
 *     $<  the left byte of refusal 39       $>  its right byte                $w  the character that holds the left one
 */
#ifndef LUCK_MESSAGES_H
#define LUCK_MESSAGES_H

#include "literal.h"
#include "luck.h"
#include "range.h"

/* Refusals of a line, which the library does not read: its head does not fit; it is too long. */
enum { BAD_LINE = 30, LONG_LINE = 31 };

/* What the text of a question is. */
enum asked_of { A_BODY, A_LITERAL, A_VALUE, A_SUBJECT, A_LINE };

/* What was asked: all that a sentence may speak of. `text` is the text in which the answer's offset counts. */
typedef struct {
    enum asked_of of;
    uint8_t kind; /* 0 where nothing is checked: decoding, a trial */
    uint32_t version;
    bool known; /* whether `captures` is known */
    size_t captures;
    size_t room;
    uint32_t budget;
    const uint8_t *text;
    size_t len;
    literal shape;         /* of a literal, and of its value: what its text looks like */
    const uint8_t *source; /* the text that `shape` speaks of */
    size_t source_len;
} question;

typedef struct {
    const char *fault;
    const char *advice;
} message;

/* Each with its number, since some numbers are not there. Where one number has several sentences, message_of has the others. */
static const struct {
    uint32_t number;
    message said;
} messages[] = {
    {0, {"accepted", ""}},
    /* formats */
    {1, {"truncated specifier: the text ends before its conversion",
     "write `%%` for a percent sign, or the whole specifier, as in `%5.1f`"}},
    {2, {"unknown specifier `%$c`: no conversion of $v", ""}},
    {3, {"too many flags: `$c` is the sixth of its specifier, and $v takes five",
     "write each of the flags `-`, `+`, space, `#` and `0` at most once"}},
    {4, {"width too long: $v takes two digits",
     "write a width up to 99"}},
    {5, {"precision too long: $v takes two digits",
     "write a precision up to 99"}},
    {6, {"bad modifier: `%$2` of $v can't take `$c` here", ""}},
    {7, {"specifier too long: 21 or more flags, digits and dots",
     "write each flag once, and a width and a precision up to 99"}},
    /* patterns */
    {8, {"unterminated set: no `]` closes it",
     "write the `]`, as in `[a]`; write `%[` for the character `[`"}},
    {9, {"empty set: a `]` in the first place is a member, and no other closes the set",
     "write `[]]` for a set of `]` alone, `[^]]` for all but it; write `%[` for the character `[`"}},
    {10, {"bad escape `%f`: no set follows it",
     "write a set after it, as in `%f[%w]`"}},
    {11, {"unmatched capture: a `)` without its `(`",
     "write its `(` before it; write `%)` for the character `)`"}},
    {12, {"too many captures: this is the 33rd",
     "write at most 32"}},
    {13, {"back reference names no closed capture: `%$c`",
     "write `%1` to `%9` only after the `)` of that capture"}},
    {39, {"reversed range `$<-$>`: it holds no byte, so nothing matches it",
     "write `$>-$<`; write `%-` for the character `-`"}},
    /* pack formats */
    {14, {"invalid pack option `$c`",
     "write one of `b B h H i I l L j J T f d n s z c x X ! < > =` or a space"}},
    {15, {"truncated pack size: no size follows `c`",
     "write a size, as in `c8`"}},
    {16, {"integer size out of limits: it is not 1 to 16",
     "write a size from 1 to 16, as in `i4`"}},
    {17, {"alignment is not a power of 2",
     "write a size of 1, 2, 4, 8 or 16 here and after `!`, or no `!`"}},
    {18, {"variable-length option `$c`: packsize can't know its size",
     "write `c` with a size, as in `c8`"}},
    /* replacements and dates */
    {19, {"ends with a lone `%`",
     "write `%%` for a percent sign"}},
    {20, {"unexpected character after `%`: `$c` is neither a digit nor `%`",
     "write `%%` for a percent sign, or `%0` to `%9` for the match and its captures"}},
    {21, {"capture index `%$c` is higher than the pattern's capture count, $n", ""}},
    {22, {"unexpected character after `%`: `%$c` is no date specifier of $v", ""}},
    /* any text */
    {23, {"not UTF-8: `$c` and the bytes after it make no character",
     "save the text as UTF-8; one that is meant to hold other bytes can't be checked, though Lua takes any"}},
    {24, {"undecodable: no string literal, or an escape that is malformed or not of $v",
     "write it in two equal quotes or in long brackets, and `\\\\` for a backslash"}},
    {25, {"unknown version: $v is none of 1 to 6",
     "write 5.1 to 5.5, luau, or a number: 1 to 5 for Lua 5.1 to 5.5, 6 for Luau"}},
    {26, {"output too short: the value is longer than the room of $r",
     "write a larger --room: the literal's own length is always enough"}},
    /* trials */
    {27, {"steps spent: one step more than the budget of $b was due",
     "write a larger --budget, or a pattern that tries less"}},
    {28, {"too deep: the 201st level of the matching; real Lua raises \"pattern too complex\"",
     "write fewer items in one pattern"}},
    {29, {"raised", ""}}, /* by its kind: raises */
    {30, {"unknown kind `$k`: none of F P K S G D",
     "write format, pattern, pack, packsize, replacement or date, or its letter"}},
    {31, {"line too long: more than 4,005 bytes",
     "write a body of at most 4,000 bytes after the head of five"}}};

/* The sentence of a number; for one that a later library may give there is one, too. */
static message message_by_number(uint32_t number)
{
    static const message unknown = {"a number that this command does not know", ""};
    for (size_t i = 0; i < sizeof messages / sizeof messages[0]; i++)
        if (messages[i].number == number)
            return messages[i].said;
    return unknown;
}

/* Whether the answer came from reading the text: accepted, or a fault in it. 23 and the others are said before anything is read. */
static bool is_of_reading(uint32_t number)
{
    return number < LUCK_NOT_UTF8 || number == LUCK_REVERSED_RANGE;
}

/* The kinds of refusal 29, from 1, in the words of lstrlib.c, without the index that it names for 7 and 10. */
static const char *const raises[] = {"",
                                     "malformed pattern (ends with '%')",
                                     "malformed pattern (missing ']')",
                                     "missing '[' after '%f' in pattern",
                                     "malformed pattern (missing arguments to '%b')",
                                     "invalid pattern capture",
                                     "unfinished capture",
                                     "invalid capture index in pattern",
                                     "too many captures",
                                     "invalid use of '%' in replacement string",
                                     "invalid capture index in replacement string"};

enum { LAST_PATTERN_RAISE = 8 }; /* those after it are the replacement's */

/* Refusal 2: the conversions of a version. */
static const char *conversions_of(uint32_t version)
{
    switch (version) {
    case 1:
        return "write one of `c d i o u x X e E f g G q s`, or `%%` for a percent sign";
    case 4:
    case 5:
        return "write one of `c d i o u x X e E f g G q s a A p`, or `%%` for a percent sign";
    case 6:
        return "write one of `c d i o u x X e E f g G q s *`, or `%%` for a percent sign";
    default:
        return "write one of `c d i o u x X e E f g G q s a A`, or `%%` for a percent sign";
    }
}

/* Refusal 6: what a conversion of 5.4 and 5.5 takes. */
static const char *modifiers_of(uint32_t conversion)
{
    switch (conversion) {
    case 'q':
        return "write `%q` alone: it takes no modifiers";
    case 'c':
    case 'p':
        return "leave it out: `%$2` takes `-`, then a width up to 99";
    case 's':
        return "leave it out: `%s` takes `-`, then a width and a precision up to 99";
    case 'd':
    case 'i':
        return "leave it out: `%$2` takes `-`, `+`, `0` and space, then a width and a precision up to 99";
    case 'u':
        return "leave it out: `%u` takes `-` and `0`, then a width and a precision up to 99";
    case 'o':
    case 'x':
    case 'X':
        return "leave it out: `%$2` takes `-`, `#` and `0`, then a width and a precision up to 99";
    default:
        return "leave it out: `%$2` takes `-`, `+`, `#`, `0` and space, then a width and a precision up to 99";
    }
}

/* Refusal 1: a format, or a pattern after `%` or inside `%b`. */
static message of_cut_specifier(const question *asked, const luck_answer *refused)
{
    static const message escape = {"truncated specifier: the pattern ends after `%`",
                                   "write `%%` for a percent sign"};
    static const message balance = {"truncated specifier: the pattern ends inside `%b`",
                                    "write two characters after `%b`, as in `%b()`"};
    if (asked->kind != LUCK_KIND_PATTERN)
        return message_by_number(LUCK_TRUNCATED_SPECIFIER);
    return refused->offset + 1 == asked->len ? escape : balance;
}

/* Refusal 2. */
static message of_specifier(const question *asked, const luck_answer *refused)
{
    static const message late_star = {"unknown specifier `%*`: $v takes `*` only right after its `%`",
                                      "write `%*` without flags, width and precision"};
    message found = message_by_number(LUCK_UNKNOWN_SPECIFIER);
    if (asked->version == LUCK_LUAU && refused->first == '*')
        return late_star;
    found.advice = conversions_of(asked->version);
    return found;
}

/* Refusal 14: a digit, an option that stands after `X` and has no alignment (elsewhere it is taken), or no option at all. */
static message of_pack_option(uint32_t character)
{
    static const message size = {"invalid pack option `$c`: a number where no size is taken",
                                 "write a size only right after `i`, `I`, `s`, `c` or `!`"};
    static const message next = {"invalid pack option `$c`: `X` can't align to it",
                                 "write an option with a size, or `x`, after `X`, as in `Xi4`"};
    if (character >= '0' && character <= '9')
        return size;
    switch (character) {
    case 'z':
    case 'c':
    case 'X':
    case '!':
    case ' ':
    case '<':
    case '>':
    case '=':
        return next;
    default:
        return message_by_number(LUCK_INVALID_PACK_OPTION);
    }
}

/* Refusal 21: the captures that there are. */
static const char *captures_of(size_t count)
{
    return count == 0   ? "write `%0` or `%1`: both are the match"
           : count == 1 ? "write `%1`, or `%0` for the match"
                        : "write `%1` to `%$n`, or `%0` for the match";
}

/* Refusal 22. */
static message of_date(const question *asked, const luck_answer *refused)
{
    message found = message_by_number(LUCK_BAD_DATE_SPECIFIER);
    uint8_t letter = asked->text[refused->offset];
    if (asked->version == LUCK_LUAU) {
        found.advice = "write one of `aAbBcdHIjmMpSUwWxXyYzZ%` after the `%`";
        return found;
    }
    if (letter == 'E' || letter == 'O')
        found.fault = "unexpected character after `%$c`: no date specifier of $v";
    found.advice = "write one of `aAbBcCdDeFgGhHIjmMnprRStTuUVwWxXyYzZ%` after the `%`,\n"
                   "  or `%E` before one of `cCxXyY`, or `%O` before one of `deHImMSuUVwWy`";
    return found;
}

/* Refusal 23: a check reads UTF-8 only, and a byte that is spelled by its number is checked no more than one that stands there. */
static message of_bytes(const question *asked)
{
    static const message value = {"the value is not UTF-8: `$c` and the bytes after it make no character",
                                  "it can't be checked: a check reads UTF-8, though Lua takes any bytes"};
    message found = message_by_number(LUCK_NOT_UTF8);
    if (asked->of == A_VALUE)
        return value;
    if (asked->kind == 0)
        found.advice = "save the text as UTF-8, and spell a byte of no character by its number, as in `\\255`";
    return found;
}

/* 24, where a backslash begins no escape. */
static message of_escape(const question *asked)
{
    static const message other = {"`$e` is no escape of $v", "write `\\\\` for a backslash"};
    static const message number = {"`$e` is too large: an escape of digits goes up to `\\255`",
                                   "write a number up to 255, and three digits where another digit follows"};
    static const message hex = {"`$e`: two hexadecimal digits have to follow `\\x`",
                                "write both digits, as in `\\x0A`; write `\\\\` for a backslash"};
    static const message braces = {"`$e`: hexadecimal digits in braces have to follow `\\u`",
                                   "write it as in `\\u{E9}`; write `\\\\` for a backslash"};
    static const message surrogate = {"`$e` is no character: D800 to DFFF are halves of a pair",
                                      "write the character's own number, up to 10FFFF"};
    static const message large = {"`$e` is too large", "write a number up to 10FFFF"};
    static const message larger = {"`$e` is too large", "write a number up to 7FFFFFFF"};
    static const message digits = {"`$e` is too long: $v takes at most 16 digits", "leave out zeros at its front, as in `\\u{E9}`"};
    bool extended = asked->version == LUCK_LUA_54 || asked->version == LUCK_LUA_55;
    const uint8_t *escape = asked->source + asked->shape.place;
    size_t len = asked->source_len - asked->shape.place;
    uint8_t letter = len > 1 ? escape[1] : 0;
    uint32_t code = 0;
    if (letter >= '0' && letter <= '9')
        return number;
    if (letter == 'x')
        return hex;
    if (letter != 'u' || asked->version < LUCK_LUA_53)
        return other;
    if (unicode_escape(escape, len, &code) <= 4)
        return braces;
    if (code > (extended ? 0x7FFFFFFFu : 0x10FFFFu))
        return extended ? larger : large;
    return is_surrogate(code) ? surrogate : digits;
}

/* 24, by what the text looks like. */
static message of_shape(const question *asked)
{
    static const message open_quote = {"the quote that it begins with is never closed",
                                       "write the same quote at its end; one after a single `\\` is a part of the text"};
    static const message open_bracket = {"the long bracket that it begins with is never closed",
                                         "write its own at the end, as in `[[text]]` and `[=[text]=]`"};
    static const message no_opening = {"no string literal: it is in neither two equal quotes nor long brackets",
                                       "in a shell write '\"text\"', since the shell takes the outer quotes"};
    static const message newline = {"bytes follow the literal, the last of them a newline",
                                    "give the literal alone: `printf %s` writes no newline after it, `echo` does"};
    static const message after = {"bytes follow the literal", "give one literal alone"};
    static const message taken = {"`$e` is not read here, though $v itself takes it",
                                  "the script can keep it; `luck decode 5.4` writes its bytes, which a check can't read (23)"};
    switch (asked->shape.fault) {
    case NO_OPENING:
        return no_opening;
    case NO_CLOSING:
        return asked->source[0] == '[' ? open_bracket : open_quote;
    case BYTES_AFTER:
        return asked->source[asked->source_len - 1] == '\n' ? newline : after;
    case NO_ESCAPE:
        return of_escape(asked);
    case TAKEN_BY_LUA:
        return taken;
    default:
        return message_by_number(LUCK_UNDECODABLE);
    }
}

/* Whether a byte of a literal's value would end the literal if it were written there as it is. */
static bool is_quote_of_literal(const question *asked, uint8_t byte)
{
    return asked->of == A_VALUE && (byte == '"' || byte == '\'') && asked->source_len > 0 && asked->source[0] == byte;
}

/* Refusal 39. */
static message of_range(const question *asked, const luck_answer *refused)
{
    static const message inside = {
        "reversed range `$<-$>`, from the last byte of `$w`: it holds no byte, so nothing matches it",
        "a set holds bytes: a character of several can't be an end of a range; write `%-` for the character `-`"};
    static const char other_way_round[] = "write its two ends the other way round; write `%-` for the character `-`";
    message found = message_by_number(LUCK_REVERSED_RANGE);
    switch (range_at(asked->version, asked->text, refused->offset)) {
    case INSIDE_CHARACTER:
        return inside;
    case BOTH_CASES:
        found.advice = "write small letters and capitals apart, as in `a-zA-Z`; write `%-` for the character `-`";
        break;
    case TO_PERCENT:
        found.advice = "write `%-` for the character `-`: a `%` after a bare `-` is the range's right end, and no escape";
        break;
    case TO_HYPHEN:
        found.advice = "write `%-` for the character `-`";
        break;
    case FROM_BRACKET:
        found.advice = "write `%]` for the character `]`, which can't be a range's right end; write `%-` for the character `-`";
        break;
    case TO_CARET:
        found.advice = "write `$>-$<` behind another member, since a `^` that comes first means all other bytes;\n"
                       "  write `%-` for the character `-`";
        break;
    case TO_CARET_UNSHOWN:
        found.advice = "write its two ends the other way round behind another member, since a `^` that comes first means all\n"
                       "  other bytes; write `%-` for the character `-`";
        break;
    case FROM_BACKSLASH:
        found.advice = "write `%-` for the character `-`: the escape of a pattern is `%`, and `\\` is a byte like others";
        break;
    case NOT_PLAIN:
        found.advice = other_way_round;
        break;
    default:
        if (is_quote_of_literal(asked, asked->text[refused->offset]) || is_quote_of_literal(asked, asked->text[refused->offset + 2]))
            found.advice = other_way_round;
        break;
    }
    return found;
}

/* The second sentences of 15, 11, 28 and 26. */
static const message cut_alignment = {"truncated pack size: no option follows `X`",
                                      "write an option with a size, or `x`, after `X`, as in `Xi4`"};
static const message open_capture = {"unmatched capture: a `(` is never closed",
                                     "write a `)` for each `(`; write `%(` for the character `(`"};
static const message deep_in_51 = {"too deep: the 201st level of the matching; Lua 5.1 itself has no such limit",
                                   "write fewer items in one pattern"};
static const message output_full = {"output full: one byte more than the room of $r was due", "write a larger --room"};

/* The sentence of a refusal. */
static message message_of(const question *asked, const luck_answer *refused)
{
    message found = message_by_number(refused->number);
    switch (refused->number) {
    case LUCK_TRUNCATED_SPECIFIER:
        return of_cut_specifier(asked, refused);
    case LUCK_UNKNOWN_SPECIFIER:
        return of_specifier(asked, refused);
    case LUCK_BAD_MODIFIER:
        found.advice = modifiers_of(refused->second);
        return found;
    case LUCK_UNMATCHED_CAPTURE:
        return refused->offset == asked->len ? open_capture : found;
    case LUCK_INVALID_PACK_OPTION:
        return of_pack_option(refused->first);
    case LUCK_TRUNCATED_PACK_SIZE:
        return refused->offset > 0 && asked->text[refused->offset - 1] == 'X' ? cut_alignment : found;
    case LUCK_CAPTURE_INDEX:
        found.advice = captures_of(asked->captures);
        return found;
    case LUCK_BAD_DATE_SPECIFIER:
        return of_date(asked, refused);
    case LUCK_REVERSED_RANGE:
        return of_range(asked, refused);
    case LUCK_NOT_UTF8:
        return of_bytes(asked);
    case LUCK_UNDECODABLE:
        return of_shape(asked);
    case LUCK_UNKNOWN_VERSION:
        if (asked->of == A_LINE)
            found.advice = "write a digit: 1 to 5 for Lua 5.1 to 5.5, 6 for Luau";
        return found;
    case LUCK_TOO_DEEP:
        return asked->version == LUCK_LUA_51 ? deep_in_51 : found;
    case LUCK_OUTPUT_TOO_SHORT:
        return asked->of == A_SUBJECT ? output_full : found;
    default:
        return found;
    }
}

/* Refusal 30, of a line. */
static const char *const head_advice =
    "write the kind (F P K S G D), the version digit, two columns of captures (only for G), a space, then the body";

#endif
