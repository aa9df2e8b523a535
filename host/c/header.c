/*
 * The header against the library: every function of include/luck.h is called at accepted, refused and edge inputs, and every field of
 * its answers and every byte of its outputs is compared with an answer of docs/REFUSALS.md or of document 01. It writes one line, and
 * one to standard error for each difference, and exits with 1 where anything differs. It is C99 and C++.
 *
 *     cc -std=c99 -Wall -Wextra -Werror -Iinclude host/c/header.c target/staticlib/libluck.a -o target/header && target/header
 *     c++ -x c++ -Wall -Wextra -Werror -Iinclude host/c/header.c -x none target/staticlib/libluck.a -o target/header && target/header
 */
#include "luck.h"

#include <stdio.h>
#include <string.h>

/* A text and its length, zero bytes included. */
#define TEXT(text) text, sizeof(text) - 1

#define TEN(byte) byte byte byte byte byte byte byte byte byte byte
#define HUNDRED(bytes) TEN(TEN(bytes))

enum { UNTOUCHED = 0xAA, ROOM = 8, AROUND = 2, ENOUGH = 1000000 };

static const uint32_t no_versions[] = {0, 7, 257, UINT32_MAX};
enum { NO_VERSIONS = sizeof no_versions / sizeof no_versions[0] };

static int wrong = 0;
static int asked = 0;

static const uint8_t *bytes(const char *text)
{
    return (const uint8_t *)text;
}

static void same(const char *what, const char *field, unsigned long long found, unsigned long long wanted)
{
    asked++;
    if (found != wanted) {
        wrong++;
        fprintf(stderr, "%s: %s is %llu, not %llu\n", what, field, found, wanted);
    }
}

/* ---- names ---- */

/* The names of the versions and kinds are those that the functions take, and the parts of the header's version make the whole. */
static void check_names(void)
{
    static const uint32_t versions[] = {LUCK_LUA_51, LUCK_LUA_52, LUCK_LUA_53, LUCK_LUA_54, LUCK_LUA_55, LUCK_LUAU};
    static const uint8_t kinds[] = {LUCK_KIND_FORMAT,   LUCK_KIND_PATTERN,     LUCK_KIND_PACK,
                                    LUCK_KIND_PACKSIZE, LUCK_KIND_REPLACEMENT, LUCK_KIND_DATE};
    char parts[32];
    for (unsigned i = 0; i < 6; i++) {
        same("the versions", "number", versions[i], i + 1);
        same("the kinds", "letter", kinds[i], (uint8_t)"FPKSGD"[i]);
    }
    same("%a of 5.1", "number", luck_check_format(LUCK_LUA_51, bytes("%a"), 2).number, LUCK_UNKNOWN_SPECIFIER);
    same("%a of 5.2", "number", luck_check_format(LUCK_LUA_52, bytes("%a"), 2).number, LUCK_ACCEPTED);
    same("%* of 5.5", "number", luck_check_format(LUCK_LUA_55, bytes("%*"), 2).number, LUCK_UNKNOWN_SPECIFIER);
    same("%* of Luau", "number", luck_check_format(LUCK_LUAU, bytes("%*"), 2).number, LUCK_ACCEPTED);
    snprintf(parts, sizeof parts, "%d.%d.%d", LUCK_VERSION_MAJOR, LUCK_VERSION_MINOR, LUCK_VERSION_PATCH);
    same("LUCK_VERSION", "difference", strcmp(parts, LUCK_VERSION) != 0, 0);
}

/* ---- checks of bodies ---- */

static void same_answer(const char *what, luck_answer found, luck_answer wanted)
{
    same(what, "number", found.number, wanted.number);
    same(what, "first", found.first, wanted.first);
    same(what, "second", found.second, wanted.second);
    same(what, "offset", found.offset, wanted.offset);
    same(what, "count", found.count, wanted.count);
}

/* The check of a kind; a replacement's pattern has one capture. */
static luck_answer check(char kind, uint32_t version, const char *body, size_t len)
{
    switch (kind) {
    case 'F': return luck_check_format(version, bytes(body), len);
    case 'P': return luck_check_pattern(version, bytes(body), len);
    case 'K': return luck_check_pack(version, bytes(body), len);
    case 'S': return luck_check_packsize(version, bytes(body), len);
    case 'D': return luck_check_date(version, bytes(body), len);
    default: return luck_check_replacement(version, true, 1, bytes(body), len);
    }
}

typedef struct {
    const char *what;
    char kind;
    uint32_t version;
    const char *body;
    size_t len;
    luck_answer answer; /* number, first, second, offset, count */
} row;

static const row accepted_rows[] = {
    {"format %d%s", 'F', 1, TEXT("%d%s"), {0, 0, 0, 0, 2}},
    {"format, five flags", 'F', 1, TEXT("%-----d"), {0, 0, 0, 0, 1}},
    {"format %a of 5.2", 'F', 2, TEXT("%a"), {0, 0, 0, 0, 1}},
    {"format %* of Luau", 'F', 6, TEXT("%*"), {0, 0, 0, 0, 1}},
    {"format, NUL", 'F', 1, TEXT("\0%d"), {0, 0, 0, 0, 1}},
    {"pattern ()%1", 'P', 1, TEXT("()%1"), {0, 0, 0, 0, 1}},
    {"pattern []]", 'P', 1, TEXT("[]]"), {0, 0, 0, 0, 0}},
    {"pattern, 32 captures", 'P', 1, TEXT(TEN("()()()") "()()"), {0, 0, 0, 0, 32}},
    {"pattern, NUL", 'P', 1, TEXT("\0()"), {0, 0, 0, 0, 1}},
    {"pattern [a-z]", 'P', 1, TEXT("[a-z]"), {0, 0, 0, 0, 0}},
    {"pattern [a-a]", 'P', 1, TEXT("[a-a]"), {0, 0, 0, 0, 0}},
    {"pattern, an escaped member", 'P', 1, TEXT("[%z-a]"), {0, 0, 0, 0, 0}},
    {"pattern, a - at the end of a set", 'P', 1, TEXT("([z-])"), {0, 0, 0, 0, 1}},
    {"pattern, a - outside a set", 'P', 1, TEXT("z-a"), {0, 0, 0, 0, 0}},
    {"pattern, a range to a character", 'P', 1, TEXT("[z-\xC3\xA9]"), {0, 0, 0, 0, 0}},
    {"pack i4s", 'K', 3, TEXT("i4s"), {0, 0, 0, 0, 2}},
    {"packsize i4c10b", 'S', 3, TEXT("i4c10b"), {0, 0, 0, 0, 3}},
    {"date %Y", 'D', 2, TEXT("%Y"), {0, 0, 0, 0, 0}},
    {"date %Q of 5.1", 'D', 1, TEXT("%Q"), {0, 0, 0, 0, 0}},
    {"date, a final % of Luau", 'D', 6, TEXT("a%"), {0, 0, 0, 0, 0}},
    {"replacement %0%1%%", 'G', 2, TEXT("%0%1%%"), {0, 0, 0, 0, 0}},
    {"replacement %x of 5.1", 'G', 1, TEXT("%x"), {0, 0, 0, 0, 0}},
};

/* The smallest inputs of docs/REFUSALS.md, and edges. A fault's character is one byte wide. */
static const row refused_rows[] = {
    {"1 in a format", 'F', 1, TEXT("%"), {LUCK_TRUNCATED_SPECIFIER, 0, 0, 0, 0}},
    {"2", 'F', 1, TEXT("%y"), {LUCK_UNKNOWN_SPECIFIER, 'y', 0, 1, 0}},
    {"2, NUL", 'F', 1, TEXT("%\0"), {LUCK_UNKNOWN_SPECIFIER, 0, 0, 1, 0}},
    {"3", 'F', 1, TEXT("%------d"), {LUCK_BAD_FLAG, '-', 0, 6, 0}},
    {"4", 'F', 1, TEXT("%100d"), {LUCK_BAD_WIDTH, 0, 0, 1, 0}},
    {"5", 'F', 1, TEXT("%.100d"), {LUCK_BAD_PRECISION, 0, 0, 2, 0}},
    {"6", 'F', 4, TEXT("%#d"), {LUCK_BAD_MODIFIER, '#', 'd', 1, 0}},
    {"7", 'F', 4, TEXT("%" TEN("00") "0d"), {LUCK_LONG_SPECIFIER, 0, 0, 1, 0}},
    {"1 in a pattern", 'P', 1, TEXT("%"), {LUCK_TRUNCATED_SPECIFIER, 0, 0, 0, 0}},
    {"8", 'P', 1, TEXT("[a"), {LUCK_UNTERMINATED_SET, 0, 0, 0, 0}},
    {"9", 'P', 1, TEXT("[]"), {LUCK_EMPTY_SET, 0, 0, 0, 0}},
    {"10", 'P', 1, TEXT("%f"), {LUCK_BAD_ESCAPE, 'f', 0, 0, 0}},
    {"11, )", 'P', 1, TEXT(")"), {LUCK_UNMATCHED_CAPTURE, 0, 0, 0, 0}},
    {"11, (", 'P', 1, TEXT("("), {LUCK_UNMATCHED_CAPTURE, 0, 0, 1, 0}},
    {"11 after a NUL", 'P', 1, TEXT("\0("), {LUCK_UNMATCHED_CAPTURE, 0, 0, 2, 0}},
    {"12", 'P', 1, TEXT(TEN("(((") "((("), {LUCK_TOO_MANY_CAPTURES, 0, 0, 32, 0}},
    {"13", 'P', 1, TEXT("%1"), {LUCK_BAD_BACK_REFERENCE, 0, 0, 1, 0}},
    {"39", 'P', 1, TEXT("[z-a]"), {LUCK_REVERSED_RANGE, 0, 0, 1, 0}},
    {"39 before what follows the set", 'P', 1, TEXT("[z-a])"), {LUCK_REVERSED_RANGE, 0, 0, 1, 0}},
    {"39 before a later set", 'P', 1, TEXT("[z-a][b"), {LUCK_REVERSED_RANGE, 0, 0, 1, 0}},
    {"39 before an open capture", 'P', 1, TEXT("([z-a]"), {LUCK_REVERSED_RANGE, 0, 0, 2, 0}},
    {"39, the first of two", 'P', 1, TEXT("[a-cz-yb-a]"), {LUCK_REVERSED_RANGE, 0, 0, 4, 0}},
    {"39, the second set", 'P', 1, TEXT("[a-z][9-0]"), {LUCK_REVERSED_RANGE, 0, 0, 6, 0}},
    {"39, not of the set", 'P', 1, TEXT("[^z-a]"), {LUCK_REVERSED_RANGE, 0, 0, 2, 0}},
    {"39 after %f", 'P', 1, TEXT("%f[z-a]"), {LUCK_REVERSED_RANGE, 0, 0, 3, 0}},
    {"39 to a %", 'P', 1, TEXT("[z-%a]"), {LUCK_REVERSED_RANGE, 0, 0, 1, 0}},
    {"39 from a ]", 'P', 1, TEXT("[]-A]"), {LUCK_REVERSED_RANGE, 0, 0, 1, 0}},
    {"39 to a NUL", 'P', 1, TEXT("[a-\0]"), {LUCK_REVERSED_RANGE, 0, 0, 1, 0}},
    {"39 inside a character", 'P', 1, TEXT("[\xC3\xA9-a]"), {LUCK_REVERSED_RANGE, 0, 0, 2, 0}},
    {"11 before 39", 'P', 1, TEXT(")[z-a]"), {LUCK_UNMATCHED_CAPTURE, 0, 0, 0, 0}},
    {"8 before 39", 'P', 1, TEXT("[z-a"), {LUCK_UNTERMINATED_SET, 0, 0, 0, 0}},
    {"1 before 39", 'P', 1, TEXT("[z-a%"), {LUCK_TRUNCATED_SPECIFIER, 0, 0, 4, 0}},
    {"14, y", 'K', 3, TEXT("y"), {LUCK_INVALID_PACK_OPTION, 'y', 0, 0, 0}},
    {"14, b1", 'K', 3, TEXT("b1"), {LUCK_INVALID_PACK_OPTION, '1', 0, 1, 0}},
    {"14, NUL", 'K', 3, TEXT("b\0"), {LUCK_INVALID_PACK_OPTION, 0, 0, 1, 0}},
    {"15", 'K', 3, TEXT("c"), {LUCK_TRUNCATED_PACK_SIZE, 0, 0, 1, 0}},
    {"16", 'K', 3, TEXT("i17"), {LUCK_PACK_SIZE_LIMITS, 0, 0, 1, 0}},
    {"17", 'K', 3, TEXT("!i3"), {LUCK_BAD_PACK_ALIGNMENT, 0, 0, 1, 0}},
    {"18", 'S', 3, TEXT("s"), {LUCK_VARIABLE_LENGTH, 's', 0, 0, 0}},
    {"14 in packsize", 'S', 3, TEXT("by"), {LUCK_INVALID_PACK_OPTION, 'y', 0, 1, 0}},
    {"14 in packsize, NUL", 'S', 3, TEXT("b\0"), {LUCK_INVALID_PACK_OPTION, 0, 0, 1, 0}},
    {"19 in a replacement", 'G', 2, TEXT("%"), {LUCK_LONE_PERCENT, 0, 0, 0, 0}},
    {"20", 'G', 2, TEXT("%x"), {LUCK_BAD_REPLACEMENT, 0, 0, 1, 0}},
    {"20 after a NUL", 'G', 2, TEXT("\0%x"), {LUCK_BAD_REPLACEMENT, 0, 0, 2, 0}},
    {"21", 'G', 2, TEXT("%2"), {LUCK_CAPTURE_INDEX, 0, 0, 1, 0}},
    {"19 in a date", 'D', 2, TEXT("%"), {LUCK_LONE_PERCENT, 0, 0, 0, 0}},
    {"22", 'D', 2, TEXT("%Q"), {LUCK_BAD_DATE_SPECIFIER, 0, 0, 1, 0}},
    {"22 after a NUL", 'D', 2, TEXT("\0%Q"), {LUCK_BAD_DATE_SPECIFIER, 0, 0, 2, 0}},
};

enum { ACCEPTED_ROWS = sizeof accepted_rows / sizeof accepted_rows[0], REFUSED_ROWS = sizeof refused_rows / sizeof refused_rows[0] };

static const char kinds[] = "FPKSDG";

static void check_bodies(void)
{
    const luck_answer none = {0, 0, 0, 0, 0};
    const luck_answer not_utf8 = {LUCK_NOT_UTF8, 0, 0, 1, 0};
    const luck_answer no_version = {LUCK_UNKNOWN_VERSION, 0, 0, 0, 0};
    for (size_t i = 0; i < ACCEPTED_ROWS; i++) {
        const row *at = &accepted_rows[i];
        same_answer(at->what, check(at->kind, at->version, at->body, at->len), at->answer);
    }
    for (size_t i = 0; i < REFUSED_ROWS; i++) {
        const row *at = &refused_rows[i];
        same_answer(at->what, check(at->kind, at->version, at->body, at->len), at->answer);
    }
    for (const char *kind = kinds; *kind != 0; kind++) {
        for (uint32_t version = 1; version <= 6; version++) {
            same_answer("an empty text", check(*kind, version, NULL, 0), none);
            same_answer("not UTF-8", check(*kind, version, TEXT("%\xFF")), not_utf8);
            same_answer("cut off UTF-8", check(*kind, version, TEXT("%\xE2\x82")), not_utf8);
            same_answer("a surrogate", check(*kind, version, TEXT("%\xED\xA0\x80")), not_utf8);
        }
        for (size_t i = 0; i < NO_VERSIONS; i++) {
            same_answer("no version", check(*kind, no_versions[i], TEXT("%\xFF")), no_version);
        }
    }
}

static void check_captures(void)
{
    const luck_answer accepted = {0, 0, 0, 0, 0};
    const luck_answer refused = {LUCK_CAPTURE_INDEX, 0, 0, 1, 0};
    for (uint32_t version = 1; version <= 6; version++) {
        same_answer("%2 of unknown", luck_check_replacement(version, false, 1, bytes("%2"), 2), accepted);
        same_answer("%1 of 0", luck_check_replacement(version, true, 0, bytes("%1"), 2), accepted);
        same_answer("%2 of 0", luck_check_replacement(version, true, 0, bytes("%2"), 2), refused);
        same_answer("%2 of 2", luck_check_replacement(version, true, 2, bytes("%2"), 2), accepted);
        same_answer("%9 of the most", luck_check_replacement(version, true, SIZE_MAX, bytes("%9"), 2), accepted);
    }
}

/* The ranges of a set are of bytes, and hold the same in each version. */
static void check_ranges(void)
{
    const luck_answer accepted = {0, 0, 0, 0, 0};
    const luck_answer reversed = {LUCK_REVERSED_RANGE, 0, 0, 1, 0};
    char set[] = "[a-z]";
    for (uint32_t version = 1; version <= 6; version++) {
        for (char right = '_'; right <= 'z'; right++) {
            set[3] = right;
            same_answer("a range from a", luck_check_pattern(version, bytes(set), 5), right < 'a' ? reversed : accepted);
        }
    }
}

/* ---- literals ---- */

static void same_literal(const char *what, luck_literal found, luck_literal wanted)
{
    same(what, "literal's number", found.number, wanted.number);
    same(what, "literal's first", found.first, wanted.first);
    same(what, "literal's second", found.second, wanted.second);
    same(what, "literal's skipped", found.skipped, wanted.skipped);
    same(what, "literal's spanned", found.spanned, wanted.spanned);
    same(what, "literal's start", found.start, wanted.start);
    same(what, "literal's end", found.end, wanted.end);
    same(what, "literal's offset", found.offset, wanted.offset);
    same(what, "literal's count", found.count, wanted.count);
}

/* A row's body in quotes, at the offset 100 of a source. */
static luck_literal check_quoted(const row *at)
{
    uint8_t text[80];
    text[0] = '\'';
    memcpy(text + 1, at->body, at->len);
    text[1 + at->len] = '\'';
    return luck_check_literal((uint8_t)at->kind, at->version, true, 1, 100, text, at->len + 2);
}

static void check_rows_as_literals(void)
{
    for (size_t i = 0; i < ACCEPTED_ROWS; i++) {
        const row *at = &accepted_rows[i];
        const luck_literal wanted = {0, 0, 0, false, false, 0, 0, 0, at->answer.count};
        same_literal(at->what, check_quoted(at), wanted);
    }
    for (size_t i = 0; i < REFUSED_ROWS; i++) {
        const row *at = &refused_rows[i];
        const uint32_t start = (uint32_t)(101 + at->answer.offset);
        const luck_literal wanted = {at->answer.number, at->answer.first, at->answer.second, false, true, start, start + 1,
                                     at->answer.offset, 0};
        same_literal(at->what, check_quoted(at), wanted);
    }
}

/* A literal at the offset `start`, with a count of captures that is not known. */
static luck_literal check_text(char kind, uint32_t version, uint32_t start, const char *text, size_t len)
{
    return luck_check_literal((uint8_t)kind, version, false, 0, start, bytes(text), len);
}

static void check_literals(void)
{
    const luck_literal none = {0, 0, 0, false, false, 0, 0, 0, 0};
    const luck_literal skipped = {0, 0, 0, true, false, 0, 0, 0, 0};
    const luck_literal wide = {LUCK_UNKNOWN_SPECIFIER, 0xE9, 0, false, true, 102, 104, 1, 0};
    const luck_literal last = {LUCK_UNKNOWN_SPECIFIER, 'y', 0, false, true, UINT32_MAX - 1, UINT32_MAX, 1, 0};
    const luck_literal beyond = {LUCK_UNKNOWN_SPECIFIER, 'y', 0, false, true, UINT32_MAX, UINT32_MAX, 1, 0};
    const luck_literal reversed = {LUCK_REVERSED_RANGE, 0, 0, false, true, UINT32_MAX - 1, UINT32_MAX, 1, 0};
    const luck_literal open_set = {LUCK_UNTERMINATED_SET, 0, 0, false, true, 101, 102, 0, 0};
    const luck_literal not_utf8 = {LUCK_NOT_UTF8, 0, 0, false, false, 0, 0, 2, 0};
    const luck_literal no_version = {LUCK_UNKNOWN_VERSION, 0, 0, false, false, 0, 0, 0, 0};
    const luck_literal no_kind = {LUCK_UNKNOWN_KIND, 0, 0, false, false, 0, 0, 0, 0};

    same_literal("nothing", check_text('F', 4, 100, NULL, 0), skipped);
    same_literal("one quote", check_text('F', 4, 100, TEXT("'")), skipped);
    same_literal("two quotes", check_text('F', 4, 100, TEXT("''")), none);
    same_literal("two different quotes", check_text('F', 4, 100, TEXT("'%y\"")), skipped);
    same_literal("long brackets", check_text('F', 4, 100, TEXT("[[%y]]")), skipped);
    same_literal("a number escape", check_text('F', 4, 100, TEXT("'%y\\65'")), skipped);
    same_literal("%9 of unknown", check_text('G', 4, 100, TEXT("'%9'")), none);
    same_literal("%9 of the most", luck_check_literal('G', 4, true, SIZE_MAX, 100, bytes("'%9'"), 4), none);
    same_literal("two bytes wide", check_text('F', 4, 100, TEXT("'%\xC3\xA9'")), wide);
    same_literal("the last place", check_text('F', 4, UINT32_MAX - 3, TEXT("'%y'")), last);
    same_literal("one place too far", check_text('F', 4, UINT32_MAX - 2, TEXT("'%y'")), beyond);
    same_literal("the start too far", check_text('F', 4, UINT32_MAX, TEXT("'%y'")), beyond);
    same_literal("39 at the last place", check_text('P', 4, UINT32_MAX - 3, TEXT("'[z-a]'")), reversed);
    same_literal("a range, a backslash before it", check_text('P', 4, 100, TEXT("'\\n[z-a]'")), none);
    same_literal("a range, a backslash after it", check_text('P', 4, 100, TEXT("'[z-a]\\n'")), none);
    same_literal("a range from a backslash", check_text('P', 4, 100, TEXT("'[\\-.]'")), none);
    same_literal("8, a backslash after a range", check_text('P', 4, 100, TEXT("'[z-a\\n'")), open_set);
    same_literal("a range of a format", check_text('F', 4, 100, TEXT("'[z-a]'")), none);
    same_literal("a literal, not UTF-8", check_text('F', 4, 100, TEXT("'%\xFF'")), not_utf8);
    same_literal("long brackets, not UTF-8", check_text('F', 4, 100, TEXT("[[\xFF]]")), not_utf8);
    for (size_t i = 0; i < NO_VERSIONS; i++) {
        same_literal("a literal of no version", check_text('F', no_versions[i], 100, TEXT("'\xFF'")), no_version);
        same_literal("a literal of no kind and no version", check_text('Z', no_versions[i], 100, TEXT("'\xFF'")), no_kind);
    }
    for (int kind = 0; kind <= UINT8_MAX; kind++) {
        if (kind == 0 || strchr(kinds, kind) == NULL) {
            same_literal("a literal of no kind", luck_check_literal((uint8_t)kind, 4, true, 1, 100, bytes("'%y'"), 4), no_kind);
        }
    }
}

/* ---- outputs ---- */

/* The inner ROOM bytes are lent. */
static uint8_t buffer[AROUND + ROOM + AROUND];

static uint8_t *untouched(void)
{
    memset(buffer, UNTOUCHED, sizeof buffer);
    return buffer + AROUND;
}

/* The written bytes stand at the front of what was lent, and all others are as they were. */
static void same_output(const char *what, const char *written, size_t len)
{
    uint8_t wanted[sizeof buffer];
    memset(wanted, UNTOUCHED, sizeof wanted);
    memcpy(wanted + AROUND, written, len);
    same(what, "output, by memcmp,", (unsigned long long)(memcmp(buffer, wanted, sizeof buffer) != 0), 0);
}

static void decode(const char *what, uint32_t version, const char *text, size_t len, size_t room, luck_decoded wanted, const char *value)
{
    const luck_decoded found = luck_decode_string(version, bytes(text), len, untouched(), room);
    same(what, "decoded number", found.number, wanted.number);
    same(what, "decoded offset", found.offset, wanted.offset);
    same(what, "decoded written", found.written, wanted.written);
    same_output(what, value, wanted.written);
}

/* Code points by \u{}: the versions from 5.3 on that take it, and its bytes. 5.4 and 5.5 take each up to 7FFFFFFF, the others characters. */
typedef struct {
    const char *text;
    size_t len;
    const char *versions;
    const char *value;
    size_t value_len;
} code_point;

static const code_point code_points[] = {
    {TEXT("'\\u{0}'"), "3456", TEXT("\0")},
    {TEXT("'\\u{7F}'"), "3456", TEXT("\x7F")},
    {TEXT("'\\u{80}'"), "3456", TEXT("\xC2\x80")},
    {TEXT("'\\u{7FF}'"), "3456", TEXT("\xDF\xBF")},
    {TEXT("'\\u{800}'"), "3456", TEXT("\xE0\xA0\x80")},
    {TEXT("'\\u{D7FF}'"), "3456", TEXT("\xED\x9F\xBF")},
    {TEXT("'\\u{D800}'"), "45", TEXT("\xED\xA0\x80")},
    {TEXT("'\\u{dfff}'"), "45", TEXT("\xED\xBF\xBF")},
    {TEXT("'\\u{E000}'"), "3456", TEXT("\xEE\x80\x80")},
    {TEXT("'\\u{FFFF}'"), "3456", TEXT("\xEF\xBF\xBF")},
    {TEXT("'\\u{10000}'"), "3456", TEXT("\xF0\x90\x80\x80")},
    {TEXT("'\\u{10FFFF}'"), "3456", TEXT("\xF4\x8F\xBF\xBF")},
    {TEXT("'\\u{110000}'"), "45", TEXT("\xF4\x90\x80\x80")},
    {TEXT("'\\u{1FFFFF}'"), "45", TEXT("\xF7\xBF\xBF\xBF")},
    {TEXT("'\\u{200000}'"), "45", TEXT("\xF8\x88\x80\x80\x80")},
    {TEXT("'\\u{3FFFFFF}'"), "45", TEXT("\xFB\xBF\xBF\xBF\xBF")},
    {TEXT("'\\u{4000000}'"), "45", TEXT("\xFC\x84\x80\x80\x80\x80")},
    {TEXT("'\\u{7fffFFFF}'"), "45", TEXT("\xFD\xBF\xBF\xBF\xBF\xBF")},
    {TEXT("'\\u{" TEN("00") "7FFFFFFF}'"), "45", TEXT("\xFD\xBF\xBF\xBF\xBF\xBF")},
    {TEXT("'\\u{00000000" "00000041}'"), "3456", TEXT("A")},
    {TEXT("'\\u{00000000" "000000041}'"), "345", TEXT("A")},
    {TEXT("'\\u{80000000}'"), "", TEXT("")},
    {TEXT("'\\u{FFFFFFFF}'"), "", TEXT("")},
    {TEXT("'\\u{100000041}'"), "", TEXT("")},
    {TEXT("'\\u{10000000000000041}'"), "", TEXT("")},
};

/* Of the versions from 5.3 on. A value that only two of them have is not UTF-8, and a check of any kind and version refuses it. */
static void check_code_points(void)
{
    const luck_decoded undecodable = {LUCK_UNDECODABLE, 0, 0};
    const luck_decoded too_short = {LUCK_OUTPUT_TOO_SHORT, 0, 0};
    const luck_answer not_utf8 = {LUCK_NOT_UTF8, 0, 0, 0, 0};
    for (size_t i = 0; i < sizeof code_points / sizeof code_points[0]; i++) {
        const code_point *at = &code_points[i];
        const luck_decoded decoded = {0, 0, at->value_len};
        for (uint32_t version = LUCK_LUA_53; version <= LUCK_LUAU; version++) {
            bool taken = strchr(at->versions, (int)('0' + version)) != NULL;
            decode(at->text, version, at->text, at->len, ROOM, taken ? decoded : undecodable, at->value);
            if (taken) {
                decode(at->text, version, at->text, at->len, at->value_len, decoded, at->value);
                decode(at->text, version, at->text, at->len, at->value_len - 1, too_short, "");
            }
        }
        for (uint32_t version = 1; version <= 6 && strcmp(at->versions, "45") == 0; version++) {
            for (const char *kind = kinds; *kind != 0; kind++) {
                same_answer(at->text, check(*kind, version, at->value, at->value_len), not_utf8);
            }
        }
    }
}

static void check_decoding(void)
{
    const luck_decoded empty = {0, 0, 0};
    const luck_decoded two = {0, 0, 2};
    const luck_decoded not_utf8 = {LUCK_NOT_UTF8, 3, 0};
    const luck_decoded undecodable = {LUCK_UNDECODABLE, 0, 0};
    const luck_decoded no_version = {LUCK_UNKNOWN_VERSION, 0, 0};
    const luck_decoded too_short = {LUCK_OUTPUT_TOO_SHORT, 0, 0};

    for (uint32_t version = 1; version <= 6; version++) {
        decode("an escape", version, TEXT("\"a\\n\""), ROOM, two, "a\n");
        decode("numbers", version, TEXT("'\\0\\255'"), ROOM, two, "\0\xFF");
        decode("NUL", version, TEXT("'\0b'"), ROOM, two, "\0b");
        decode("long brackets", version, TEXT("[=[\nab]=]"), ROOM, two, "ab");
        decode("the exact room", version, TEXT("'ab'"), 2, two, "ab");
        decode("an empty value, no room", version, TEXT("''"), 0, empty, "");
        decode("26", version, TEXT("'ab'"), 1, too_short, "");
        decode("26, no room", version, TEXT("'ab'"), 0, too_short, "");
        decode("24, no second quote", version, TEXT("'ab"), ROOM, undecodable, "");
        decode("24, nothing", version, TEXT(""), ROOM, undecodable, "");
        decode("23 before 24 and 26", version, TEXT("'ab\xFF"), 1, not_utf8, "");
    }
    decode("24", 2, TEXT("\"ab\\q\""), ROOM, undecodable, "");
    decode("24 before 26", 2, TEXT("\"ab\\q\""), 1, undecodable, "");
    decode("an escape that 5.1 takes", 1, TEXT("\"a\\q\""), ROOM, two, "aq");
    for (size_t i = 0; i < NO_VERSIONS; i++) {
        decode("25 before 23", no_versions[i], TEXT("'ab\xFF"), ROOM, no_version, "");
    }
    same("nulls", "decoded number", luck_decode_string(4, NULL, 0, NULL, 0).number, LUCK_UNDECODABLE);
    same("nulls", "decoded number", luck_decode_string(4, bytes("''"), 2, NULL, 0).number, 0);
}

/* ---- trials ---- */

typedef struct {
    const char *what;
    uint32_t version;
    const char *subject;
    size_t subject_len;
    const char *pattern;
    size_t pattern_len;
    const char *replacement;
    size_t replacement_len;
    uint32_t budget;
    size_t room;
    luck_trial answer; /* number, kind, written, replacements, steps */
    const char *output;
} trial_row;

static const trial_row trial_rows[] = {
    {"two matches", 4, TEXT("aba"), TEXT("a"), TEXT("x"), ENOUGH, ROOM, {0, 0, 3, 2, 6}, "xbx"},
    {"%w*", 4, TEXT("abc"), TEXT("%w*"), TEXT("x"), ENOUGH, ROOM, {0, 0, 1, 1, 7}, "x"},
    {"a*", 4, TEXT("aaa"), TEXT("a*"), TEXT("x"), ENOUGH, ROOM, {0, 0, 1, 1, 7}, "x"},
    {"a-b", 4, TEXT("aab"), TEXT("a-b"), TEXT("x"), ENOUGH, ROOM, {0, 0, 1, 1, 8}, "x"},
    {"nothing", 4, TEXT(""), TEXT(""), TEXT(""), ENOUGH, ROOM, {0, 0, 0, 1, 2}, ""},
    {"nothing, no room", 4, TEXT(""), TEXT(""), TEXT(""), ENOUGH, 0, {0, 0, 0, 1, 2}, ""},
    {"any bytes", 4, TEXT("\0\xFF" "a"), TEXT("[%z\xFF]"), TEXT("\xFE\0"), ENOUGH, ROOM, {0, 0, 5, 2, 6}, "\xFE\0\xFE\0a"},
    {"a reversed range", 4, TEXT("az-"), TEXT("[z-a]"), TEXT("x"), ENOUGH, ROOM, {0, 0, 3, 0, 4}, "az-"},
    {"all but a reversed range", 4, TEXT("az-"), TEXT("[^z-a]"), TEXT("x"), ENOUGH, ROOM, {0, 0, 3, 3, 7}, "xxx"},
    {"a reversed range and a member", 4, TEXT("az-"), TEXT("([z-aa])"), TEXT("<%1>"), ENOUGH, ROOM, {0, 0, 5, 1, 10}, "<a>z-"},
    {"NUL in a pattern", 4, TEXT("a\0b"), TEXT("\0b"), TEXT("x"), ENOUGH, ROOM, {0, 0, 2, 1, 5}, "ax"},
    {"the exact room", 4, TEXT("a"), TEXT("a"), TEXT("xx"), ENOUGH, 2, {0, 0, 2, 1, 3}, "xx"},
    {"the exact budget", 4, TEXT("a"), TEXT("a"), TEXT("x"), 3, ROOM, {0, 0, 1, 1, 3}, "x"},
    {"the largest budget", 4, TEXT("a"), TEXT("a"), TEXT("x"), UINT32_MAX, ROOM, {0, 0, 1, 1, 3}, "x"},
    {"26", 4, TEXT("a"), TEXT("a"), TEXT("xx"), ENOUGH, 1, {LUCK_OUTPUT_TOO_SHORT, 0, 1, 1, 2}, "x"},
    {"26, no room", 4, TEXT("a"), TEXT("a"), TEXT("xx"), ENOUGH, 0, {LUCK_OUTPUT_TOO_SHORT, 0, 0, 1, 2}, ""},
    {"27", 4, TEXT("a"), TEXT("a"), TEXT("x"), 2, ROOM, {LUCK_STEPS_SPENT, 0, 1, 1, 2}, "x"},
    {"27, budget 0", 4, TEXT("a"), TEXT("a"), TEXT("x"), 0, ROOM, {LUCK_STEPS_SPENT, 0, 0, 0, 0}, ""},
    {"27 before 29", 4, TEXT(""), TEXT(")"), TEXT(""), 0, ROOM, {LUCK_STEPS_SPENT, 0, 0, 0, 0}, ""},
    {"28", 4, TEXT(HUNDRED("aa")), TEXT(HUNDRED("a?a?")), TEXT("x"), ENOUGH, ROOM, {LUCK_TOO_DEEP, 0, 0, 0, 200}, ""},
    {"28, budget 199", 4, TEXT(HUNDRED("aa")), TEXT(HUNDRED("a?a?")), TEXT("x"), 199, ROOM, {LUCK_STEPS_SPENT, 0, 0, 0, 199}, ""},
    {"29, kind 1", 4, TEXT(""), TEXT("%"), TEXT(""), ENOUGH, ROOM, {LUCK_RAISED, 1, 0, 0, 1}, ""},
    {"29, kind 2", 4, TEXT(""), TEXT("["), TEXT(""), ENOUGH, ROOM, {LUCK_RAISED, 2, 0, 0, 1}, ""},
    {"29, kind 3", 4, TEXT(""), TEXT("%f"), TEXT(""), ENOUGH, ROOM, {LUCK_RAISED, 3, 0, 0, 1}, ""},
    {"29, kind 4", 4, TEXT(""), TEXT("%b"), TEXT(""), ENOUGH, ROOM, {LUCK_RAISED, 4, 0, 0, 1}, ""},
    {"29, kind 5", 4, TEXT(""), TEXT(")"), TEXT(""), ENOUGH, ROOM, {LUCK_RAISED, 5, 0, 0, 1}, ""},
    {"29, kind 6", 4, TEXT(""), TEXT("("), TEXT("%1"), ENOUGH, ROOM, {LUCK_RAISED, 6, 0, 1, 2}, ""},
    {"29, kind 7", 4, TEXT(""), TEXT("%1"), TEXT(""), ENOUGH, ROOM, {LUCK_RAISED, 7, 0, 0, 1}, ""},
    {"29, kind 8", 4, TEXT(""), TEXT(TEN("(((") "((("), TEXT(""), ENOUGH, ROOM, {LUCK_RAISED, 8, 0, 0, 33}, ""},
    {"29, kind 9", 4, TEXT(""), TEXT(""), TEXT("%"), ENOUGH, ROOM, {LUCK_RAISED, 9, 0, 1, 1}, ""},
    {"29, kind 10", 4, TEXT(""), TEXT(""), TEXT("%2"), ENOUGH, ROOM, {LUCK_RAISED, 10, 0, 1, 1}, ""},
    {"29 after two bytes", 4, TEXT("ab"), TEXT("(b)"), TEXT("x%2"), ENOUGH, ROOM, {LUCK_RAISED, 10, 2, 1, 6}, "ax"},
    {"a final % of 5.1", 1, TEXT(""), TEXT(""), TEXT("%"), ENOUGH, ROOM, {0, 0, 1, 1, 2}, "\0"},
    {"version 0", 0, TEXT("a"), TEXT("a"), TEXT("x"), ENOUGH, ROOM, {LUCK_UNKNOWN_VERSION, 0, 0, 0, 0}, ""},
    {"version 7", 7, TEXT("a"), TEXT(")"), TEXT("x"), 0, 0, {LUCK_UNKNOWN_VERSION, 0, 0, 0, 0}, ""},
    {"version 257", 257, TEXT("a"), TEXT("a"), TEXT("x"), ENOUGH, ROOM, {LUCK_UNKNOWN_VERSION, 0, 0, 0, 0}, ""},
    {"the largest version", UINT32_MAX, TEXT("a"), TEXT("a"), TEXT("x"), ENOUGH, ROOM, {LUCK_UNKNOWN_VERSION, 0, 0, 0, 0}, ""},
};

static void same_trial(const char *what, luck_trial found, luck_trial wanted)
{
    same(what, "trial's number", found.number, wanted.number);
    same(what, "trial's kind", found.kind, wanted.kind);
    same(what, "trial's written", found.written, wanted.written);
    same(what, "trial's replacements", found.replacements, wanted.replacements);
    same(what, "trial's steps", found.steps, wanted.steps);
}

static void check_trials(void)
{
    const luck_trial nothing = {0, 0, 0, 1, 2};
    for (size_t i = 0; i < sizeof trial_rows / sizeof trial_rows[0]; i++) {
        const trial_row *at = &trial_rows[i];
        same_trial(at->what,
                   luck_gsub_trial(at->version, bytes(at->pattern), at->pattern_len, bytes(at->replacement), at->replacement_len,
                                   bytes(at->subject), at->subject_len, at->budget, untouched(), at->room),
                   at->answer);
        same_output(at->what, at->output, at->answer.written);
    }
    same_trial("nulls", luck_gsub_trial(4, NULL, 0, NULL, 0, NULL, 0, 100, NULL, 0), nothing);
}

int main(void)
{
    check_names();
    check_bodies();
    check_captures();
    check_ranges();
    check_rows_as_literals();
    check_literals();
    check_decoding();
    check_code_points();
    check_trials();
    printf("include/luck.h: %d values of the library compared, %d differ\n", asked, wrong);
    return wrong == 0 ? 0 : 1;
}
