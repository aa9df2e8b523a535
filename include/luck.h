/*
 * luck.h: checks of Lua string literals, and a trial of gsub, for Lua 5.1 to 5.5 and Luau.
 *
 * Link libluck.a, which `tools/build luck` writes to target/staticlib, for 64-bit x86 on Linux. Of the C library it
 * calls memcpy and memset only. C99 and C++.
 *
 * Which function:
 *
 * - A loader decodes a literal first (luck_decode_string), then checks the value (luck_check_pattern and its like): the
 *   value is what Lua sees. Give it what a lexer took for one literal.
 * - luck_check_literal checks a literal as it is written, without decoding it, and gives a span of the source, for an
 *   editor. What it accepts need not load: `"a\q%d"` is an accepted format, and Lua 5.2 to 5.5 do not load it.
 * - A value is any bytes, and need not be UTF-8. The checks read UTF-8: a value such as that of `"[\128-\255]"` is
 *   refused (23) and can't be checked; luck_gsub_trial takes any bytes.
 *
 * For every function:
 *
 * - `version` is LUCK_LUA_51 to LUCK_LUA_55 (1 to 5) or LUCK_LUAU (6). Another number is refused (25).
 * - A text is a pointer and a count of bytes: any bytes, and a zero byte does not end it. With a count of 0 the pointer
 *   is not read and may be null; with any other count it points to so many readable bytes, at most PTRDIFF_MAX, as of
 *   any object in C.
 * - A `bool` is false or true: what C and C++ do by themselves, and what another language has to see to.
 * - The functions keep no state, allocate nothing, and write nothing but the output that decoding and the trial are
 *   lent. They may run in any number of threads at once, also on the same text. Each takes less than 1 KiB of stack, as
 *   measured, but for luck_gsub_trial, whose 200 levels take up to 140 KiB: give it 512. The first call of memcpy in a
 *   program takes some 3 KiB more where the loader looks functions up when they are first called.
 *
 * The refusals, by `number`, with their names after LUCK_. 0 is none: accepted, decoded, done, or skipped. No function
 * here gives 31 to 38. "at" is the byte that `offset` counts to, from 0; of a character of several bytes it is the
 * first, but for 39. host/c/messages.h has a sentence for each number, and what to write instead, to copy;
 * host/c/example.c is a short caller.
 *
 *    format
 *    1  TRUNCATED_SPECIFIER   the text ends after a `%` or its modifiers (patterns too: after `%`, also in a set, or
 *                             inside `%b`); at the `%`
 *    2  UNKNOWN_SPECIFIER     no conversion of this version; at the conversion, after the modifiers; carries it
 *    3  BAD_FLAG              the sixth flag of a specifier; at that flag; carries it (versions 1, 2, 3 and 6)
 *    4  BAD_WIDTH             a width of more than two digits; at its first (versions 1, 2, 3 and 6)
 *    5  BAD_PRECISION         a precision of more than two digits; at its first (versions 1, 2, 3 and 6)
 *    6  BAD_MODIFIER          a flag, a digit or a `.` that the conversion does not take, or not in that place; at that
 *                             byte; carries it, and the conversion (versions 4 and 5)
 *    7  LONG_SPECIFIER        21 or more modifiers; at the first (versions 4 and 5)
 *    pattern
 *    8  UNTERMINATED_SET      a set without its `]`; at its `[`
 *    9  EMPTY_SET             a `[]` or `[^]` that ends the text; at its `[`
 *   10  BAD_ESCAPE            a `%f` without a set after it; at its `%`; carries the `f`
 *   11  UNMATCHED_CAPTURE     a `)` without an open capture, at the `)`; or a `(` that is never closed, at the
 *                             text's end
 *   12  TOO_MANY_CAPTURES     the 33rd capture; at its `(`
 *   13  BAD_BACK_REFERENCE    `%0`, or `%1` to `%9` of a capture that was not seen or is still open; at the digit
 *   39  REVERSED_RANGE        a range in a set whose left byte is greater than its right, as in `[z-a]`; at the left
 *                             byte of the first one, which may be the last byte of a character. Such a range holds no
 *                             byte, so nothing matches it. Lua takes it; it is refused since it is most likely a slip
 *    pack and packsize
 *   14  INVALID_PACK_OPTION   no option, or one that `X` can't align to; at that option, not at the `X`; carries it
 *   15  TRUNCATED_PACK_SIZE   a `c` without a size, or an `X` at the text's end; at the place after it
 *   16  PACK_SIZE_LIMITS      a size of `i`, `I`, `s` or `!` that is not 1 to 16; at its first digit (`c` takes any)
 *   17  BAD_PACK_ALIGNMENT    an alignment that is no power of 2; at the option, or at the `X` that reads it
 *   18  VARIABLE_LENGTH       an `s` or `z` in a packsize format; at that option; carries it
 *    replacement and date
 *   19  LONE_PERCENT          the text ends in a single `%`; at that `%` (replacements: versions 2 to 6; dates: 2 to 5)
 *   20  BAD_REPLACEMENT       a replacement's `%` before something other than a digit or `%`; at what follows the `%`
 *                             (versions 2 to 6)
 *   21  CAPTURE_INDEX         a replacement's digit above the larger of the known count of captures and 1; at the digit
 *   22  BAD_DATE_SPECIFIER    a date's `%` before something other than a conversion of this version; at what follows
 *                             the `%`, also where the fault is after `%E`, `%O` or `%#` (versions 2 to 6)
 *    any text
 *   23  NOT_UTF8              not UTF-8 (RFC 3629); at the first byte of the first ill-formed sequence
 *    without a place: the offset is 0, or the answer has none
 *   24  UNDECODABLE           no literal, or an escape that is malformed or that this version does not have, or a
 *                             `\u{}` that it does not take: above 7FFFFFFF (versions 4 and 5); above 10FFFF, or a
 *                             surrogate (3 and 6; Lua 5.3 itself takes a surrogate); of more than 16 digits (6).
 *                             Decoding only; host/c/literal.h tells these apart and finds the place
 *   25  UNKNOWN_VERSION       `version` is not 1 to 6
 *   26  OUTPUT_TOO_SHORT      decoding: the value is longer than the output; trial: a byte was due and the output was
 *                             full
 *   27  STEPS_SPENT           trial: a step was due and the budget was spent
 *   28  TOO_DEEP              trial: the 201st level
 *   29  RAISED                trial: Lua raises an error, of the kind that the answer has
 *   30  UNKNOWN_KIND          `kind` is none of the six letters (luck_check_literal only)
 *
 * 25 is tested first (by luck_check_literal: 30, then 25), then 23, then the text from its front: the first fault is
 * the answer. A set is tested for 39 when it has closed without another fault: `[z-a` is 8, `[z-a])` is 39. Decoding
 * tests 25, 23, 24, 26.
 */
#ifndef LUCK_H
#define LUCK_H

#include <stdbool.h>
#include <stddef.h>
#include <stdint.h>

#if SIZE_MAX <= 0xFFFFFFFF
#error "libluck.a is made for 64-bit x86: a size_t of 64 bits is needed"
#endif

/* The version of this header and of the library beside it. */
#define LUCK_VERSION_MAJOR 0
#define LUCK_VERSION_MINOR 1
#define LUCK_VERSION_PATCH 0
#define LUCK_VERSION "0.1.0"

#ifdef __cplusplus
extern "C" {
#endif

/* `version`: whose rules a text is read by. */
enum {
    LUCK_LUA_51 = 1,
    LUCK_LUA_52 = 2,
    LUCK_LUA_53 = 3,
    LUCK_LUA_54 = 4,
    LUCK_LUA_55 = 5,
    LUCK_LUAU = 6
};

/* `kind`: what a literal is used as. */
enum {
    LUCK_KIND_FORMAT = 'F',      /* string.format */
    LUCK_KIND_PATTERN = 'P',     /* string.find, match, gmatch, gsub */
    LUCK_KIND_PACK = 'K',        /* string.pack, unpack */
    LUCK_KIND_PACKSIZE = 'S',    /* string.packsize */
    LUCK_KIND_REPLACEMENT = 'G', /* the replacement of string.gsub */
    LUCK_KIND_DATE = 'D'         /* os.date */
};

/* `number`: the refusals. */
enum {
    LUCK_ACCEPTED = 0,
    LUCK_TRUNCATED_SPECIFIER = 1,
    LUCK_UNKNOWN_SPECIFIER = 2,
    LUCK_BAD_FLAG = 3,
    LUCK_BAD_WIDTH = 4,
    LUCK_BAD_PRECISION = 5,
    LUCK_BAD_MODIFIER = 6,
    LUCK_LONG_SPECIFIER = 7,
    LUCK_UNTERMINATED_SET = 8,
    LUCK_EMPTY_SET = 9,
    LUCK_BAD_ESCAPE = 10,
    LUCK_UNMATCHED_CAPTURE = 11,
    LUCK_TOO_MANY_CAPTURES = 12,
    LUCK_BAD_BACK_REFERENCE = 13,
    LUCK_INVALID_PACK_OPTION = 14,
    LUCK_TRUNCATED_PACK_SIZE = 15,
    LUCK_PACK_SIZE_LIMITS = 16,
    LUCK_BAD_PACK_ALIGNMENT = 17,
    LUCK_VARIABLE_LENGTH = 18,
    LUCK_LONE_PERCENT = 19,
    LUCK_BAD_REPLACEMENT = 20,
    LUCK_CAPTURE_INDEX = 21,
    LUCK_BAD_DATE_SPECIFIER = 22,
    LUCK_NOT_UTF8 = 23,
    LUCK_UNDECODABLE = 24,
    LUCK_UNKNOWN_VERSION = 25,
    LUCK_OUTPUT_TOO_SHORT = 26,
    LUCK_STEPS_SPENT = 27,
    LUCK_TOO_DEEP = 28,
    LUCK_RAISED = 29,
    LUCK_UNKNOWN_KIND = 30,
    LUCK_REVERSED_RANGE = 39
};

/* What a check of a body answers. */
typedef struct {
    uint32_t number; /* 0: accepted; else the refusal */
    uint32_t first;  /* the character that the refusal carries, as a code point; 0 for none (and for a zero byte) */
    uint32_t second; /* the second one: the conversion of BAD_MODIFIER, else 0 */
    size_t offset;   /* the byte of the body at fault, at most its length; 0 where accepted or without a place */
    size_t count;    /* accepted: the count that the function speaks of; else 0 */
} luck_answer;

/* A body is the text that Lua's function is handed: the value of a literal, as luck_decode_string gives it. */

/* A format of string.format. `count`: the arguments that its specifiers take. */
luck_answer luck_check_format(uint32_t version, const uint8_t *body, size_t len);

/* A pattern of string.find, match, gmatch and gsub. `count`: its captures, `()` included. */
luck_answer luck_check_pattern(uint32_t version, const uint8_t *body, size_t len);

/* A format of string.pack and unpack. `count`: its values. 5.1 and 5.2, which lack string.pack, are checked alike. */
luck_answer luck_check_pack(uint32_t version, const uint8_t *body, size_t len);

/* A format of string.packsize, which has no option of variable length. `count`: its values. */
luck_answer luck_check_packsize(uint32_t version, const uint8_t *body, size_t len);

/* A format of os.date. `count` is 0. */
luck_answer luck_check_date(uint32_t version, const uint8_t *body, size_t len);

/*
 * A replacement of string.gsub. `captures` is the count of the pattern's captures, any number, where `known` is true;
 * where it is false, `captures` is not looked at and no digit is refused. `count` is 0.
 */
luck_answer luck_check_replacement(uint32_t version, bool known, size_t captures, const uint8_t *body, size_t len);

/* What the check of a literal answers. */
typedef struct {
    uint32_t number; /* 0: accepted or skipped, so look at `skipped` first; else the refusal */
    uint32_t first;  /* as in luck_answer */
    uint32_t second; /* as in luck_answer */
    bool skipped;    /* not checked; all else is 0 and false */
    bool spanned;    /* `start` and `end` hold the span of a fault in the body; accepted, 23, 25 and 30 have none */
    uint32_t start;  /* spanned: the source's offset of the character or byte at fault, at most 4,294,967,295; else 0 */
    uint32_t end;    /* spanned: the offset after that character, or one after `start` where the fault is at the
                        body's end or inside a character (39), at most 4,294,967,295; else 0 */
    size_t offset;   /* the fault's place between the quotes; for 23 in the text, its quote included */
    size_t count;    /* as in luck_answer, by the kind */
} luck_literal;

/*
 * A literal as it stands in a source, with its quotes; `start` is the offset of its first byte there. `kind` is one of
 * LUCK_KIND_FORMAT to LUCK_KIND_DATE. For LUCK_KIND_REPLACEMENT `known` and `captures` are as above; for the others
 * they are not looked at.
 *
 * It skips a text that is not in two equal quotes, and one with an escape `\0` to `\9`, `\x` or `\u`, which spells a
 * byte by its number: decode such a literal, and check the value. Other escapes are read as the two bytes that are
 * written, and not as what Lua reads: `"%b\""` is an accepted pattern, though its value `%b"` is refused. So a pattern
 * with a backslash between its quotes is not tested for 39. Neither this function nor decoding is a lexer: a quote or a
 * line break between the quotes is taken.
 */
luck_literal luck_check_literal(uint8_t kind, uint32_t version, bool known, size_t captures, uint32_t start,
                                const uint8_t *text, size_t len);

/* What decoding answers. */
typedef struct {
    uint32_t number; /* 0: decoded; else the refusal */
    size_t offset;   /* for 23 its place in the text; else 0 */
    size_t written;  /* decoded: the value's length; else 0 */
} luck_decoded;

/*
 * The bytes that a literal stands for: short in two equal quotes, or in long brackets. They are written to the front of
 * `output`, which has room for `room` bytes, and no byte after them is touched; a refusal leaves the whole output
 * untouched. A value is never longer than its literal, so a room of `len` bytes is always enough. With a room of 0,
 * `output` may be null. `text` and `output` must not overlap.
 *
 * A value need not be UTF-8: `\255` is a byte FF, and versions 4 and 5 read each `\u{}` from 0 to 7FFFFFFF, surrogates
 * included, to one to six bytes by the original UTF-8 (RFC 2279): D800 to ED A0 80, 110000 to F4 90 80 80, 7FFFFFFF to
 * FD BF BF BF BF BF.
 */
luck_decoded luck_decode_string(uint32_t version, const uint8_t *text, size_t len, uint8_t *output, size_t room);

/* What a trial of gsub answers. */
typedef struct {
    uint32_t number;     /* 0: done; else 25, 26, 27, 28 or 29 */
    uint32_t kind;       /* 29: from 1 to 10, see below; else 0 */
    size_t written;      /* the bytes written to the front of the output, in every answer */
    size_t replacements; /* the matches that were replaced, the one at which it stopped included */
    uint32_t steps;      /* the steps taken, at most the budget */
} luck_trial;

/*
 * string.gsub(subject, pattern, replacement) by the rules of 5.4 in every version; in a replacement 5.1 writes the byte
 * after a `%` that is neither a digit nor `%`, and a zero byte for a final `%`, where the others raise kind 9. The
 * texts are any bytes and are not checked first. The result is written to the front of `output`, which has room for
 * `room` bytes; no byte after the written ones is touched. `output` must overlap none of the texts.
 *
 * A step is due when an item of the pattern is begun, its end included, and for each test that a repeat makes after its
 * first. A budget of 16 steps for each byte of the subject, or 1,000,000 for a log of 60 KiB, is enough for most
 * patterns: `%d+`, `(%w+)=(%w+)`, `.-\n` and the like took 1 to 5 steps a byte of such a log, and at most 3 ms. A
 * pattern that tries the rest of the text from every place, such as `.-@` where there is no `@`, takes steps by the
 * square of the length: there the budget ends it (27). It bounds the steps, not the time: a step may read the whole
 * pattern (a set) or the whole subject (`%b`), and each replacement reads the whole replacement.
 *
 * Kinds, by Lua's message: 1 pattern ends with '%'; 2 missing ']'; 3 missing '[' after '%f'; 4 missing arguments to
 * '%b'; 5 invalid pattern capture; 6 unfinished capture; 7 invalid capture index in the pattern; 8 too many captures;
 * 9 invalid use of '%' in the replacement; 10 invalid capture index in the replacement.
 *
 * With a pattern that luck_check_pattern accepts, and a replacement that luck_check_replacement accepts for its count
 * under a version other than 1, the six versions give the same answer and the same output, and none raises; with one
 * that it accepts for its count under version 1, the trial under version 1 does not raise. 28, which real Lua raises as
 * "pattern too complex", can still be the answer.
 *
 * A trial runs a pattern with reversed ranges: `[z-a]` matches nothing, `[^z-a]` any byte. One that has no other fault,
 * though it is refused (39), is like an accepted one in all of this, with the count of the captures that it has.
 */
luck_trial luck_gsub_trial(uint32_t version, const uint8_t *pattern, size_t pattern_len, const uint8_t *replacement,
                           size_t replacement_len, const uint8_t *subject, size_t subject_len, uint32_t budget,
                           uint8_t *output, size_t room);

#ifdef __cplusplus
}
#endif

#endif
