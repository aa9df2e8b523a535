/*
 * Random and damaged inputs through every function of include/luck.h, for a time.
 *
 *     load SEED SECONDS        the seconds are processor time
 *
 * It writes the seed, the calls of each function, and how often each number was the answer. At the first answer that breaks a promise of
 * luck.h it writes the promise and the call, as C, to standard error, and exits with 1; wrong usage is 2. The same seed gives the same calls.
 *
 * Every text is a block of exactly its length, made anew for each call, so that valgrind sees a read one byte beside it. An output has known
 * bytes on both sides, which must stay; with LOAD_MARGIN 0 it is a block of exactly its room, for valgrind. `run` builds it and runs it
 * both ways.
 */
#include "luck.h"
#include "texts.h"

#include <inttypes.h>
#include <signal.h>
#include <stdio.h>
#include <stdlib.h>
#include <time.h>

#ifdef LOAD_VALGRIND
#include <valgrind/valgrind.h>
#else
#define VALGRIND_COUNT_ERRORS 0
#endif

#ifndef LOAD_MARGIN
#define LOAD_MARGIN 32
#endif

enum { MOST_ROOM = 4 * MOST, NUMBERS = 40, VERSIONS = 6, KINDS = 10 };

/* What the bytes that a trial may read by its steps come to at most, so that a call takes some milliseconds. */
enum { MOST_READ = 4000000, MOST_STEPS = 2000000 };

/* ---- a call and its answer ---- */

typedef enum {
    CHECK_FORMAT, CHECK_PATTERN, CHECK_PACK, CHECK_PACKSIZE, CHECK_REPLACEMENT, CHECK_DATE, CHECK_LITERAL, DECODE_STRING, GSUB_TRIAL, FUNCTIONS
} function;

static const char *const names[FUNCTIONS] = {
    "luck_check_format", "luck_check_pattern", "luck_check_pack", "luck_check_packsize", "luck_check_replacement", "luck_check_date",
    "luck_check_literal", "luck_decode_string", "luck_gsub_trial",
};

/* The letters of luck_check_literal, in the order of the functions and of `use`. */
static const char letters[] = "FPKSGD";

/* The arguments; a function has some of them. A trial's texts are pattern, replacement and subject. */
typedef struct {
    function asked;
    uint8_t kind;
    uint32_t version;
    bool known;
    size_t captures;
    uint32_t start;
    const text *texts[3];
    uint32_t budget;
    size_t room;
} question;

/* All fields that an answer of some function has; the others are 0. Without padding, so that two can be compared as bytes. */
typedef struct {
    uint64_t number, first, second, skipped, spanned, start, end, offset, count, kind, written, replacements, steps;
} answer;

static uint64_t seed;
static uint64_t calls[FUNCTIONS];
static uint64_t numbers[FUNCTIONS][NUMBERS];
static uint64_t kinds[KINDS + 1];
static uint64_t trials_alike;
static uint64_t trials_reversed;

/* The question that is being asked, for what is printed. */
static question now;
static bool is_asking;

static size_t text_count(function f)
{
    return f == GSUB_TRIAL ? 3 : 1;
}

static bool has_output(function f)
{
    return f == DECODE_STRING || f == GSUB_TRIAL;
}

/* ---- what is printed of a broken promise ---- */

static void print_text(const text *t)
{
    fputs("(const uint8_t *)\"", stderr);
    for (size_t i = 0; i < t->len; i++) {
        uint8_t byte = t->bytes[i];
        bool plain = byte >= ' ' && byte < 0x7F && byte != '"' && byte != '\\' && byte != '?';
        fprintf(stderr, plain ? "%c" : "\\%03o", byte);
    }
    fprintf(stderr, "\", %zu", t->len);
}

static void print_question(void)
{
    const question *q = &now;
    fprintf(stderr, "%s(", names[q->asked]);
    if (q->asked == CHECK_LITERAL) {
        fprintf(stderr, "%u, ", q->kind);
    }
    fprintf(stderr, "%" PRIu32 "u, ", q->version);
    if (q->asked == CHECK_REPLACEMENT || q->asked == CHECK_LITERAL) {
        fprintf(stderr, "%s, %zuu, ", q->known ? "true" : "false", q->captures);
    }
    if (q->asked == CHECK_LITERAL) {
        fprintf(stderr, "%" PRIu32 "u, ", q->start);
    }
    for (size_t i = 0; i < text_count(q->asked); i++) {
        fputs(i > 0 ? ", " : "", stderr);
        print_text(q->texts[i]);
    }
    if (q->asked == GSUB_TRIAL) {
        fprintf(stderr, ", %" PRIu32 "u", q->budget);
    }
    if (has_output(q->asked)) {
        fprintf(stderr, ", output, %zu", q->room);
    }
    fputs(")\n", stderr);
}

static void print_answer(const answer *a)
{
    const uint64_t fields[] = {a->number, a->first, a->second, a->skipped, a->spanned, a->start, a->end, a->offset, a->count, a->kind, a->written, a->replacements, a->steps};
    static const char *const field_names[] = {"number", "first", "second", "skipped", "spanned", "start", "end", "offset", "count", "kind", "written", "replacements", "steps"};
    for (size_t i = 0; i < sizeof fields / sizeof *fields; i++) {
        fprintf(stderr, "%s%s %" PRIu64, i == 0 ? "  " : ", ", field_names[i], fields[i]);
    }
    fputc('\n', stderr);
}

/* Ends the program. The answer may be missing. */
static void broken(const char *promise, const answer *a)
{
    fprintf(stderr, "load, seed %" PRIu64 ": broken: %s\n", seed, promise);
    print_question();
    if (a != NULL) {
        print_answer(a);
    }
    exit(1);
}

static void holds(bool is_kept, const char *promise, const answer *a)
{
    if (!is_kept) {
        broken(promise, a);
    }
}

/* A call that the system stopped. The handler may print, since the library itself never does. */
static void stopped(int reason)
{
    if (is_asking) {
        fprintf(stderr, "signal %d: ", reason);
        broken("the call comes back", NULL);
    }
    signal(reason, SIG_DFL);
    raise(reason);
}

/* ---- calls ---- */

static void *block(size_t len)
{
    void *made = malloc(len);
    if (made == NULL && len > 0) {
        fputs("load: no memory\n", stderr);
        exit(2);
    }
    return made;
}

/* Without bytes it is sometimes null. */
static uint8_t *lend(const text *t)
{
    uint8_t *lent = t->len == 0 && one_in(2) ? NULL : block(t->len);
    if (t->len > 0) {
        memcpy(lent, t->bytes, t->len);
    }
    return lent;
}

static answer of_answer(luck_answer a)
{
    return (answer){.number = a.number, .first = a.first, .second = a.second, .offset = a.offset, .count = a.count};
}

/* As the byte that it is, which must be 0 or 1. */
static uint64_t of_bool(const bool *b)
{
    unsigned char byte;
    memcpy(&byte, b, 1);
    return byte;
}

static answer of_literal(luck_literal a)
{
    return (answer){.number = a.number, .first = a.first, .second = a.second, .skipped = of_bool(&a.skipped), .spanned = of_bool(&a.spanned),
                    .start = a.start, .end = a.end, .offset = a.offset, .count = a.count};
}

static answer of_decoded(luck_decoded a)
{
    return (answer){.number = a.number, .offset = a.offset, .written = a.written};
}

static answer of_trial(luck_trial a)
{
    return (answer){.number = a.number, .kind = a.kind, .written = a.written, .replacements = a.replacements, .steps = a.steps};
}

static answer call_function(const question *q, uint8_t *const *t, uint8_t *output)
{
    size_t len = q->texts[0]->len;
    switch (q->asked) {
    case CHECK_FORMAT: return of_answer(luck_check_format(q->version, t[0], len));
    case CHECK_PATTERN: return of_answer(luck_check_pattern(q->version, t[0], len));
    case CHECK_PACK: return of_answer(luck_check_pack(q->version, t[0], len));
    case CHECK_PACKSIZE: return of_answer(luck_check_packsize(q->version, t[0], len));
    case CHECK_DATE: return of_answer(luck_check_date(q->version, t[0], len));
    case CHECK_REPLACEMENT: return of_answer(luck_check_replacement(q->version, q->known, q->captures, t[0], len));
    case CHECK_LITERAL: return of_literal(luck_check_literal(q->kind, q->version, q->known, q->captures, q->start, t[0], len));
    case DECODE_STRING: return of_decoded(luck_decode_string(q->version, t[0], len, output, q->room));
    default:
        return of_trial(luck_gsub_trial(q->version, t[0], len, t[1], q->texts[1]->len, t[2], q->texts[2]->len, q->budget, output, q->room));
    }
}

/* One call on texts that are made anew, which must be as they were after it. */
static answer call(const question *q, uint8_t *output)
{
    uint8_t *lent[3] = {NULL, NULL, NULL};
    size_t count = text_count(q->asked);
    for (size_t i = 0; i < count; i++) {
        lent[i] = lend(q->texts[i]);
    }
    now = *q;
    is_asking = true;
    unsigned before = VALGRIND_COUNT_ERRORS;
    answer a = call_function(q, lent, output);
    holds(VALGRIND_COUNT_ERRORS == before, "valgrind sees no error", &a);
    is_asking = false;
    for (size_t i = 0; i < count; i++) {
        holds(q->texts[i]->len == 0 || memcmp(lent[i], q->texts[i]->bytes, q->texts[i]->len) == 0, "a text is not written to", &a);
        free(lent[i]);
    }
    holds(a.number < NUMBERS, "the number is one of luck.h", &a);
    calls[q->asked]++;
    numbers[q->asked][a.number]++;
    kinds[a.kind <= KINDS ? a.kind : 0]++;
    return a;
}

/* ---- promises of luck.h ---- */

#define N(number) ((uint64_t)1 << (number))

static const uint64_t listed[FUNCTIONS] = {
    N(0) | N(1) | N(2) | N(3) | N(4) | N(5) | N(6) | N(7) | N(23) | N(25),
    N(0) | N(1) | N(8) | N(9) | N(10) | N(11) | N(12) | N(13) | N(23) | N(25) | N(39),
    N(0) | N(14) | N(15) | N(16) | N(17) | N(23) | N(25),
    N(0) | N(14) | N(15) | N(16) | N(17) | N(18) | N(23) | N(25),
    N(0) | N(19) | N(20) | N(21) | N(23) | N(25),
    N(0) | N(19) | N(22) | N(23) | N(25),
    0, /* by the letter */
    N(0) | N(23) | N(24) | N(25) | N(26),
    N(0) | N(25) | N(26) | N(27) | N(28) | N(29),
};

/* The refusals that only some versions have, as luck.h says behind them. */
static bool version_has(function body, uint64_t number, uint32_t version)
{
    switch (number) {
    case 3: case 4: case 5: return version != 4 && version != 5;
    case 6: case 7: return version == 4 || version == 5;
    case 19: return version != 1 && !(body == CHECK_DATE && version == 6);
    case 20: case 22: return version != 1;
    default: return true;
    }
}

/* The place of the first ill-formed sequence of RFC 3629; the length where there is none. */
static size_t utf8_end(const text *t)
{
    size_t at = 0;
    while (at < t->len) {
        uint8_t lead = t->bytes[at];
        size_t more = lead < 0x80 ? 0 : lead >= 0xC2 && lead < 0xE0 ? 1 : lead >= 0xE0 && lead < 0xF0 ? 2 : lead >= 0xF0 && lead < 0xF5 ? 3 : 4;
        uint8_t least = lead == 0xE0 ? 0xA0 : lead == 0xF0 ? 0x90 : 0x80;
        uint8_t greatest = lead == 0xED ? 0x9F : lead == 0xF4 ? 0x8F : 0xBF;
        if (more == 4 || t->len - at <= more) {
            return at;
        }
        for (size_t i = 1; i <= more; i++) {
            if (t->bytes[at + i] < least || t->bytes[at + i] > greatest) {
                return at;
            }
            least = 0x80;
            greatest = 0xBF;
        }
        at += 1 + more;
    }
    return at;
}

static bool is_version(uint32_t version)
{
    return version >= 1 && version <= VERSIONS;
}

/* Of the functions that take UTF-8 only: 30, 25, then 23, each exactly where it is due. `known_kind` is false for 30. */
static void order_holds(const question *q, const answer *a, bool known_kind)
{
    size_t end = utf8_end(q->texts[0]);
    bool is_utf8 = end == q->texts[0]->len;
    holds((a->number == 30) == !known_kind, "30 where the kind is none, and only there", a);
    if (known_kind) {
        holds((a->number == 25) == !is_version(q->version), "25 where the version is none of 1 to 6, and only there", a);
        holds((a->number == 23) == (is_version(q->version) && !is_utf8), "23 where the text is not UTF-8, and only there", a);
        holds(a->number != 23 || a->offset == end, "23 has the place of the first ill-formed sequence", a);
    }
}

/* What a body's check and a literal's have in common; `len` is the body's length. */
static void body_holds(const question *q, const answer *a, function body, size_t len)
{
    uint64_t n = a->number;
    holds(version_has(body, n, q->version), "the number is one of this version", a);
    holds(n == 2 || n == 3 || n == 6 || n == 10 || n == 14 || n == 18 || a->first == 0, "no character where the number carries none", a);
    holds(n == 6 || a->second == 0, "no second character where the number carries none", a);
    holds(a->first < 0x110000 && a->second < 0x110000, "a character is a code point", a);
    holds(n != 10 || a->first == 'f', "10 carries the f", a);
    holds(n != 18 || a->first == 's' || a->first == 'z', "18 carries the s or z", a);
    holds(a->offset <= len, "the offset is at most the length", a);
    holds(a->offset == 0 || !(n == 0 || n == 25 || n == 30), "the offset is 0 where accepted or without a place", a);
    holds(a->count == 0 || n == 0, "the count is 0 where refused", a);
    holds(a->count == 0 || (body != CHECK_REPLACEMENT && body != CHECK_DATE), "the count of a replacement and of a date is 0", a);
    holds(a->count <= len && (body != CHECK_PATTERN || a->count <= 32), "the count is at most the bytes, and the captures 32", a);
}

static function body_of(uint8_t kind)
{
    const char *found = kind == 0 ? NULL : strchr(letters, kind);
    return found == NULL ? FUNCTIONS : (function)(found - letters);
}

static uint64_t at_most_u32(uint64_t number)
{
    return number < UINT32_MAX ? number : UINT32_MAX;
}

static answer ask(const question *q);

/* ---- ranges of a pattern ---- */

static bool has_byte(const text *t, uint8_t byte)
{
    return memchr(t->bytes, byte, t->len) != NULL;
}

/* The pattern with a letter for each `-`: it has no ranges, and all else that a check looks at is as it was. */
static const text *without_ranges(const text *t)
{
    static text made;
    made.len = t->len;
    for (size_t i = 0; i < t->len; i++) {
        made.bytes[i] = t->bytes[i] == '-' ? 'a' : t->bytes[i];
    }
    return &made;
}

/* The place of the `]` that closes a set, from its first member on: the first `]` that is neither that member nor after a `%`. */
static size_t set_end(const text *t, size_t at)
{
    do {
        at += at < t->len && t->bytes[at] == '%' ? 2 : 1;
    } while (at < t->len && t->bytes[at] != ']');
    return at < t->len ? at : t->len;
}

/* The left byte of the first reversed range of a set; its end where there is none. */
static size_t reversed_member(const text *t, size_t at, size_t end)
{
    while (at < end) {
        bool range = t->bytes[at] != '%' && at + 2 < end && t->bytes[at + 1] == '-';
        if (range && t->bytes[at] > t->bytes[at + 2]) {
            return at;
        }
        at += range ? 3 : t->bytes[at] == '%' ? 2 : 1;
    }
    return end;
}

/* The left byte of the first reversed range of a pattern without another fault before it; the length where there is none. */
static size_t reversed_range(const text *t)
{
    size_t at = 0;
    while (at < t->len) {
        if (t->bytes[at] == '[') {
            size_t member = at + 1 + (at + 1 < t->len && t->bytes[at + 1] == '^' ? 1 : 0), end = set_end(t, member);
            size_t found = reversed_member(t, member, end);
            if (found < end) {
                return found;
            }
            at = end + 1;
        } else {
            at += t->bytes[at] != '%' ? 1 : at + 1 < t->len && t->bytes[at + 1] == 'b' ? 4 : 2;
        }
    }
    return t->len;
}

/* 39 where it is due, and only there; a fault that comes first is answered as if there were no 39, and one after it is not seen. */
static void ranges_hold(const question *q, const answer *a)
{
    const text *t = q->texts[0];
    bool reversed = a->number == 39;
    if (reversed || a->number == 0) {
        holds(reversed_range(t) == (reversed ? a->offset : t->len), "39 at the first reversed range, and only there", a);
    }
    if (has_byte(t, '-')) {
        question plain = *q;
        plain.texts[0] = without_ranges(t);
        answer b = ask(&plain);
        now = *q;
        holds(reversed ? b.number == 0 || b.offset > a->offset : memcmp(a, &b, sizeof b) == 0, "but for 39 the answer is that without ranges", a);
    }
}

/* The answer of a literal that is not skipped is that of its body's check; with a backslash it is not tested for 39. */
static void literal_as_body(const question *q, const answer *a, function body)
{
    static text between;
    const text *t = q->texts[0];
    question bare = *q;
    between.len = t->len - 2;
    memcpy(between.bytes, t->bytes + 1, between.len);
    bare.asked = body;
    bare.texts[0] = body == CHECK_PATTERN && has_byte(&between, '\\') ? without_ranges(&between) : &between;
    answer b = ask(&bare);
    now = *q;
    holds(a->number == b.number && a->first == b.first && a->second == b.second && a->offset == b.offset && a->count == b.count,
          "a literal's answer is its body's", a);
}

static void literal_holds(const question *q, const answer *a)
{
    function body = body_of(q->kind);
    size_t len = q->texts[0]->len;
    uint64_t n = a->number;
    order_holds(q, a, body != FUNCTIONS);
    holds(n == 30 || (listed[body] >> n & 1) == 1, "the number is one of this function", a);
    holds(a->skipped <= 1 && a->spanned <= 1, "a bool is false or true", a);
    if (a->skipped) {
        static const answer skipped = {.skipped = 1};
        holds(memcmp(a, &skipped, sizeof skipped) == 0, "of a skipped literal all else is 0", a);
        return;
    }
    body_holds(q, a, body, len);
    holds(a->spanned == (n != 0 && n != 23 && n != 25 && n != 30), "a span where a fault is in the body, and only there", a);
    if (a->spanned) {
        holds(a->start == at_most_u32((uint64_t)q->start + 1 + a->offset), "the span's start is the fault's place in the source", a);
        holds(a->end >= at_most_u32(a->start + 1) && a->end <= at_most_u32(a->start + 4), "the span is one character", a);
        holds(n != 39 || a->end == at_most_u32(a->start + 1), "the span of 39 is one byte", a);
    }
    if (n != 30 && n != 25 && n != 23) {
        holds(len >= 2, "a literal that is checked has two quotes", a);
        literal_as_body(q, a, body);
    }
}

static void decoded_holds(const question *q, const answer *a)
{
    order_holds(q, a, true);
    holds(a->offset == 0 || a->number == 23, "an offset for 23 only", a);
    holds(a->written == 0 || a->number == 0, "nothing is written where refused", a);
    holds(a->written <= q->room && a->written <= q->texts[0]->len, "a value is not longer than its room and its literal", a);
    holds(a->number != 26 || q->room < q->texts[0]->len, "a room of the literal's length is enough", a);
}

static void trial_holds(const question *q, const answer *a)
{
    holds((a->number == 25) == !is_version(q->version), "25 where the version is none of 1 to 6, and only there", a);
    holds(a->number == 29 ? a->kind >= 1 && a->kind <= KINDS : a->kind == 0, "a kind of 1 to 10 with 29, and only with it", a);
    holds(a->number != 26 || a->written == q->room, "26 only where the output is full", a);
    holds(a->steps <= q->budget, "the steps are at most the budget", a);
    holds(a->number != 27 || a->steps == q->budget, "27 only where the budget is spent", a);
    holds(a->replacements <= q->texts[2]->len + 1, "a replacement for each place at most", a);
    holds(a->number != 25 || (a->written == 0 && a->replacements == 0 && a->steps == 0), "nothing is done for an unknown version", a);
}

static void promises_hold(const question *q, const answer *a)
{
    if (q->asked != CHECK_LITERAL) {
        holds((listed[q->asked] >> a->number & 1) == 1, "the number is one of this function", a);
    }
    switch (q->asked) {
    case CHECK_LITERAL: literal_holds(q, a); break;
    case DECODE_STRING: decoded_holds(q, a); break;
    case GSUB_TRIAL: trial_holds(q, a); break;
    default:
        order_holds(q, a, true);
        body_holds(q, a, q->asked, q->texts[0]->len);
        if (q->asked == CHECK_PATTERN) {
            ranges_hold(q, a);
        }
        break;
    }
}

/* ---- outputs ---- */

/* What a byte of an output's block is before the call. The two fills differ in every byte. */
static uint8_t filled(size_t at, int fill)
{
    return (uint8_t)((at * 37 + 11) ^ (fill == 0 ? 0 : 0xFF));
}

static bool is_filled(const uint8_t *bytes, size_t from, size_t to, int fill)
{
    for (size_t at = from; at < to; at++) {
        if (bytes[at] != filled(at, fill)) {
            return false;
        }
    }
    return true;
}

/* One call with an output of exactly the room. What was written is kept. */
static answer call_filled(const question *q, int fill, uint8_t *kept)
{
    size_t end = LOAD_MARGIN + q->room, len = end + LOAD_MARGIN;
    uint8_t *bytes = block(len);
    for (size_t at = 0; at < len; at++) {
        bytes[at] = filled(at, fill);
    }
    answer a = call(q, q->room == 0 && one_in(2) ? NULL : bytes + LOAD_MARGIN);
    holds(a.written <= q->room, "no more is written than there is room", &a);
    holds(is_filled(bytes, 0, LOAD_MARGIN, fill) && is_filled(bytes, end, len, fill), "no byte beside the output is touched", &a);
    holds(is_filled(bytes, LOAD_MARGIN + (size_t)a.written, end, fill), "no byte after the written ones is touched", &a);
    if (a.written > 0) {
        memcpy(kept, bytes + LOAD_MARGIN, (size_t)a.written);
    }
    free(bytes);
    return a;
}

/* The bytes that the last answer wrote. */
static uint8_t written[MOST_ROOM];

/* The same call twice. The outputs are filled otherwise, so that a byte that was counted and not written shows. */
static answer ask(const question *q)
{
    static uint8_t again[MOST_ROOM];
    answer a, b;
    if (has_output(q->asked)) {
        a = call_filled(q, 0, written);
        b = call_filled(q, 1, again);
        holds(a.written == b.written && memcmp(written, again, a.written) == 0, "the same call writes the same twice", &a);
    } else {
        a = call(q, NULL);
        b = call(q, NULL);
    }
    holds(memcmp(&a, &b, sizeof a) == 0, "the same call gives the same answer twice", &a);
    promises_hold(q, &a);
    return a;
}

/* ---- questions ---- */

static uint32_t some_version(void)
{
    return one_in(30) ? (uint32_t)next() : one_in(8) ? (uint32_t)below(9) : 1 + (uint32_t)below(VERSIONS);
}

static size_t some_captures(void)
{
    return one_in(20) ? (size_t)next() : one_in(20) ? SIZE_MAX : one_in(2) ? below(4) : below(41);
}

static uint32_t some_start(void)
{
    return one_in(4) ? UINT32_MAX - (uint32_t)below(80) : (uint32_t)below(1000);
}

/* A few steps or many, but never so many that the call takes long: a step may read the whole pattern or subject, and a replacement all of itself. */
static uint32_t some_budget(const question *q)
{
    static const size_t bounds[] = {1, 2, 20, 200, 2000, 20000, 200000, MOST_STEPS};
    size_t read = 1 + q->texts[0]->len + q->texts[1]->len + q->texts[2]->len;
    size_t bound = bounds[below(sizeof bounds / sizeof *bounds)];
    size_t most = MOST_READ / read + 1;
    return (uint32_t)below((bound < most ? bound : most) + 1);
}

static void ask_body(function f)
{
    static text body;
    question q = {.asked = f, .version = some_version(), .known = one_in(2), .captures = some_captures(), .texts = {&body}};
    make(&body, (use)f);
    ask(&q);
}

static void ask_literal(void)
{
    static text literal;
    size_t kind = below(sizeof letters - 1);
    question q = {.asked = CHECK_LITERAL, .kind = (uint8_t)letters[kind], .version = some_version(), .known = one_in(2), .captures = some_captures(),
                  .start = some_start(), .texts = {&literal}};
    if (one_in(30)) {
        q.kind = (uint8_t)next();
    }
    if (one_in(4)) {
        make(&literal, LITERAL);
    } else {
        make(&literal, (use)kind);
        enclose(&literal, false);
    }
    ask(&q);
}

/* With room enough, with none, with exactly as much as the value needs, with one byte less, and with any. */
static void ask_with_rooms(question *q, size_t enough)
{
    q->room = enough;
    size_t needed = (size_t)ask(q).written;
    q->room = 0;
    ask(q);
    q->room = needed;
    ask(q);
    if (needed > 0) {
        q->room = needed - 1;
        ask(q);
    }
    q->room = below(enough + 1);
    ask(q);
}

/* The bytes of a code point by RFC 2279, and how many they are. */
static size_t encode(uint32_t code, uint8_t *bytes)
{
    static const uint32_t ends[] = {0x80, 0x800, 0x10000, 0x200000, 0x4000000};
    size_t len = 1;
    while (len < 6 && code >= ends[len - 1]) {
        len++;
    }
    for (size_t at = len - 1; at > 0; at--) {
        bytes[at] = (uint8_t)(0x80 | (code & 0x3F));
        code >>= 6;
    }
    bytes[0] = (uint8_t)(len == 1 ? code : (0xFF00u >> len & 0xFF) | code);
    return len;
}

/* A code point by its number, of up to 36 bits, sometimes with zeros before it, which is taken or not by the version. */
static void ask_code_point(void)
{
    static text literal;
    uint8_t wanted[6];
    uint64_t code = next() >> (28 + below(36));
    int digits = 1 + (int)below(one_in(4) ? 24 : 9);
    question q = {.asked = DECODE_STRING, .version = 3 + (uint32_t)below(4), .texts = {&literal}};
    literal.len = (size_t)snprintf((char *)literal.bytes, MOST, "'\\u{%0*" PRIX64 "}'", digits, code);
    q.room = literal.len;
    bool character = code < 0x110000 && !(code >= 0xD800 && code < 0xE000);
    bool taken = q.version == 4 || q.version == 5 ? code <= 0x7FFFFFFF : character && (q.version != 6 || literal.len <= 6 + 16);
    size_t len = encode((uint32_t)code, wanted);
    answer a = ask(&q);
    holds(a.number == (taken ? 0 : 24), "a code point is decoded where the version takes it, and only there", &a);
    holds(!taken || (a.written == len && memcmp(written, wanted, len) == 0), "a code point has its bytes", &a);
}

/* What was written last, which need not be UTF-8, as the body of some check. */
static void ask_value(uint32_t version, size_t len)
{
    static text value;
    question q = {.asked = (function)below(CHECK_LITERAL), .version = version, .known = one_in(2), .captures = some_captures(), .texts = {&value}};
    value.len = len;
    memcpy(value.bytes, written, len);
    ask(&q);
}

static void ask_decode(void)
{
    static text literal;
    question q = {.asked = DECODE_STRING, .version = some_version(), .texts = {&literal}};
    make(&literal, LITERAL);
    if (one_in(2)) {
        enclose(&literal, true);
    }
    ask_with_rooms(&q, literal.len);
    q.room = literal.len;
    answer a = ask(&q);
    if (a.number == 0) {
        ask_value(q.version, (size_t)a.written);
    }
}

/* Room for what a short trial writes; a long one meets its end. */
static size_t some_room(const question *q)
{
    size_t room = 64 + 4 * q->texts[2]->len + below(1024);
    return room < MOST_ROOM ? room : MOST_ROOM;
}

/* Pattern and subject of a trial: seldom one that goes deep. */
static void make_pair(text *pattern, text *subject)
{
    if (one_in(50)) {
        make_deep(pattern, subject);
    } else {
        make(pattern, PATTERN);
        make(subject, SUBJECT);
    }
}

static void ask_trial(void)
{
    static text pattern, replacement, subject;
    question q = {.asked = GSUB_TRIAL, .version = some_version(), .texts = {&pattern, &replacement, &subject}};
    make_pair(&pattern, &subject);
    make(&replacement, REPLACEMENT);
    q.budget = some_budget(&q);
    ask_with_rooms(&q, some_room(&q));
}

/* With a pattern and a replacement that are accepted, the six versions answer alike, and none raises. So it is with a pattern that would be
 * accepted without the test of its ranges. */
static void ask_alike(void)
{
    static text pattern, replacement, subject;
    static uint8_t first_written[MOST_ROOM];
    question check = {.asked = CHECK_PATTERN, .version = 1 + (uint32_t)below(VERSIONS), .texts = {&pattern}};
    make_pair(&pattern, &subject);
    if (one_in(2)) {
        make_damaged(&pattern, PATTERN, some_length(), 2);
    }
    answer accepted = ask(&check);
    bool reversed = accepted.number == 39;
    if (reversed) {
        check.texts[0] = without_ranges(&pattern);
        accepted = ask(&check);
    }
    make_damaged(&replacement, REPLACEMENT, some_length(), 1);
    question check_replacement = {.asked = CHECK_REPLACEMENT, .version = 2 + (uint32_t)below(VERSIONS - 1), .known = true,
                                  .captures = (size_t)accepted.count, .texts = {&replacement}};
    if (accepted.number != 0 || ask(&check_replacement).number != 0) {
        return;
    }
    question q = {.asked = GSUB_TRIAL, .version = 1, .texts = {&pattern, &replacement, &subject}};
    q.budget = some_budget(&q);
    q.room = below(some_room(&q) + 1);
    answer first = ask(&q);
    memcpy(first_written, written, (size_t)first.written);
    for (q.version = 1; q.version <= VERSIONS; q.version++) {
        answer a = ask(&q);
        holds(a.number != 29, "a pattern and a replacement that are accepted do not raise", &a);
        holds(memcmp(&a, &first, sizeof a) == 0 && memcmp(first_written, written, (size_t)a.written) == 0, "the six versions are alike", &a);
    }
    trials_alike++;
    trials_reversed += reversed ? 1 : 0;
}

/* ---- the run ---- */

static void ask_something(void)
{
    size_t f = below(FUNCTIONS + 1);
    switch (f) {
    case CHECK_LITERAL: ask_literal(); break;
    case DECODE_STRING: one_in(4) ? ask_code_point() : ask_decode(); break;
    case GSUB_TRIAL: ask_trial(); break;
    case FUNCTIONS: ask_alike(); break;
    default: ask_body((function)f); break;
    }
}

static void print_counts(void)
{
    for (size_t f = 0; f < FUNCTIONS; f++) {
        printf("%s: %" PRIu64 " calls;", names[f], calls[f]);
        for (size_t number = 0; number < NUMBERS; number++) {
            if (numbers[f][number] > 0) {
                printf(" %zu: %" PRIu64, number, numbers[f][number]);
            }
        }
        putchar('\n');
    }
    fputs("the kinds of 29:", stdout);
    for (size_t kind = 1; kind <= KINDS; kind++) {
        printf(" %zu: %" PRIu64, kind, kinds[kind]);
    }
    printf("\ntrials alike under the six versions: %" PRIu64 ", of a reversed range %" PRIu64 "\n", trials_alike, trials_reversed);
}

/* A whole number without anything else. */
static bool read_number(const char *word, uint64_t *number)
{
    char *end;
    *number = strtoull(word, &end, 10);
    return *word >= '0' && *word <= '9' && *end == '\0';
}

int main(int argc, char **argv)
{
    uint64_t seconds;
    if (argc != 3 || !read_number(argv[1], &seed) || !read_number(argv[2], &seconds)) {
        fputs("usage: load SEED SECONDS\n", stderr);
        return 2;
    }
    printf("seed %" PRIu64 ", %" PRIu64 " processor seconds; of each function its calls, and how often each number was the answer (0: accepted)\n", seed, seconds);
    fflush(stdout);
    signal(SIGSEGV, stopped);
    signal(SIGFPE, stopped);
    signal(SIGILL, stopped);
    signal(SIGABRT, stopped);
    state = seed;
    do {
        ask_something();
    } while ((uint64_t)clock() / CLOCKS_PER_SEC < seconds);
    print_counts();
    return 0;
}
