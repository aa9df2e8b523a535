/*
 * Random numbers from a seed, and texts made of them: random bytes, texts of pieces that a kind's reader looks for, a few of those again
 * and again, and good texts that are damaged.
 */
#ifndef TEXTS_H
#define TEXTS_H

#include <stdbool.h>
#include <stddef.h>
#include <stdint.h>
#include <string.h>

enum { MOST = 64 * 1024 };

typedef struct {
    uint8_t bytes[MOST];
    size_t len;
} text;

/* ---- random numbers ---- */

static uint64_t state;

/* SplitMix64: every seed gives other numbers. */
static uint64_t next(void)
{
    uint64_t z = state += 0x9E3779B97F4A7C15u;
    z = (z ^ (z >> 30)) * 0xBF58476D1CE4E5B9u;
    z = (z ^ (z >> 27)) * 0x94D049BB133111EBu;
    return z ^ (z >> 31);
}

/* 0 to bound - 1. */
static size_t below(size_t bound)
{
    return (size_t)(next() % bound);
}

static bool one_in(size_t bound)
{
    return below(bound) == 0;
}

/* ---- pieces and good texts ---- */

/* A piece with its length, since it may have a zero byte. */
typedef struct {
    const char *bytes;
    size_t len;
} piece;

typedef struct {
    const piece *pieces;
    size_t count;
} pieces;

#define P(bytes) {bytes, sizeof(bytes) - 1}
#define ALL(array) {array, sizeof array / sizeof *array}

/* UTF-8 whole, cut, overlong, of a surrogate and beyond the last character, up to six bytes; zero bytes, quotes, line breaks. */
static const piece any_pieces[] = {
    P("\xC3\xA9"), P("\xC3"), P("\xE2\x82\xAC"), P("\xE2\x82"), P("\xE2"), P("\xF0\x9F\x98\x80"), P("\xF0\x9F\x98"), P("\xF0\x9F"), P("\xF0"),
    P("\x80"), P("\xBF"), P("\xFF"), P("\xC0\x80"), P("\xC1\xBF"), P("\xE0\x80\x80"), P("\xE0\xA0\x80"), P("\xED\x9F\xBF"), P("\xED\xA0\x80"),
    P("\xEF\xBF\xBF"), P("\xF0\x80\x80\x80"), P("\xF4\x8F\xBF\xBF"), P("\xF4\x90\x80\x80"), P("\xF5"), P("\xF8\x88\x80\x80\x80"),
    P("\xFD\xBF\xBF\xBF\xBF\xBF"), P("\0"), P("\0\0"), P("\""), P("'"),
    P("\\"), P("\r"), P("\n"), P("\r\n"), P("\n\r"), P("\t"), P(" "), P("\x7F"), P("a"), P("Z"), P("0"), P("9"), P("%"), P("["), P("]"),
    P("("), P(")"), P("{"), P("}"), P("^"), P("-"), P("$"), P("*"), P("+"), P("?"), P("."), P("="), P("!"), P("#"),
};

static const piece format_pieces[] = {
    P("%"), P("%"), P("%"), P("%%"), P("%d"), P("%s"), P("%5.2f"), P("%-10s"), P("%q"), P("%i"), P("%c"), P("%o"), P("%u"), P("%x"), P("%X"),
    P("%e"), P("%E"), P("%f"), P("%g"), P("%G"), P("%a"), P("%A"), P("%p"), P("%*"), P("-"), P("+"), P(" "), P("#"), P("0"), P("00000"), P("-----"), P("%00000000000000000000d"), P("%000000000000000000000d"),
    P("1"), P("9"), P("12"), P("123"), P("."), P(".."), P("d"), P("s"), P("q"), P("p"), P("*"), P("y"), P("F"), P("l"), P("L"), P("text"), P("\xC3\xA9"),
};

static const piece pattern_pieces[] = {
    P("%"), P("%%"), P("%a"), P("%c"), P("%d"), P("%g"), P("%l"), P("%p"), P("%s"), P("%u"), P("%w"), P("%x"), P("%z"), P("%A"), P("%D"), P("%W"),
    P("%S"), P("%0"), P("%1"), P("%2"), P("%9"), P("%b"), P("%b()"), P("%bxx"), P("%f"), P("%f["), P("%f[%w]"), P("["), P("[^"), P("[]"), P("[^]"),
    P("[]]"), P("[a-z]"), P("[%w_]"), P("[a-"), P("[%"), P("]"), P("^"), P("-"), P("("), P(")"), P("()"), P("(("), P("))"), P("(.)"), P("."), P(".-"),
    P(".*"), P("*"), P("+"), P("?"), P("$"), P("a"), P("b"), P("1"), P("=" ), P("a?"), P("b*"), P("a-"), P("a*b*"), P("[ab]-"), P("\0"), P("\xE2\x82\xAC"),
    P("[z-a]"), P("[^b-a]"), P("[b-a"), P("9-0"), P("-%"), P("\xC3\xA9-a"), P("[]-A]"),
};

static const piece pack_pieces[] = {
    P("b"), P("B"), P("h"), P("H"), P("l"), P("L"), P("j"), P("J"), P("T"), P("f"), P("d"), P("n"), P("i"), P("I"), P("s"), P("z"), P("x"), P("X"),
    P("!"), P("<"), P(">"), P("="), P(" "), P("c"), P("0"), P("1"), P("2"), P("3"), P("4"), P("8"), P("16"), P("17"), P("99999999999999999999"),
    P("18446744073709551616"), P("i4"), P("I3"), P("s1"), P("!8"), P("c10"), P("Xi8"), P("Xs"), P("Xz"), P("XX"), P("y"),
};

static const piece replacement_pieces[] = {
    P("%"), P("%%"), P("%0"), P("%1"), P("%2"), P("%3"), P("%9"), P("%a"), P("% "), P("%\0"), P("a"), P("text"), P("1"), P("<"), P("\xC3\xA9"), P("%\xC3\xA9"),
};

static const piece date_pieces[] = {
    P("%"), P("%%"), P("%a"), P("%A"), P("%b"), P("%c"), P("%C"), P("%d"), P("%D"), P("%e"), P("%F"), P("%g"), P("%G"), P("%h"), P("%H"), P("%I"),
    P("%j"), P("%m"), P("%M"), P("%n"), P("%p"), P("%r"), P("%R"), P("%S"), P("%t"), P("%T"), P("%u"), P("%U"), P("%V"), P("%w"), P("%W"), P("%x"),
    P("%X"), P("%y"), P("%Y"), P("%z"), P("%Z"), P("%E"), P("%O"), P("%#"), P("%Ec"), P("%EY"), P("%Od"), P("%Oy"), P("%#c"), P("%#x"), P("!"), P("*t"),
    P("!*t"), P("*"), P("%s"), P("%Q"), P("-"), P(" "), P("E"), P("O"),
};

static const piece literal_pieces[] = {
    P("\""), P("'"), P("\\"), P("\\\\"), P("\\\""), P("\\'"), P("\\a"), P("\\b"), P("\\f"), P("\\n"), P("\\r"), P("\\t"), P("\\v"), P("\\z"), P("\\z \n"),
    P("\\\n"), P("\\\r\n"), P("\\\n\r"), P("\\\r"), P("\\x"), P("\\x4"), P("\\x41"), P("\\xfG"), P("\\u"), P("\\u{"), P("\\u{}"), P("\\u{41}"),
    P("\\u{7ff}"), P("\\u{20AC}"), P("\\u{D7FF}"), P("\\u{D800}"), P("\\u{dfff}"), P("\\u{E000}"), P("\\u{10FFFF}"), P("\\u{110000}"), P("\\u{1FFFFF}"),
    P("\\u{200000}"), P("\\u{3FFFFFF}"), P("\\u{4000000}"), P("\\u{7FFFFFFF}"), P("\\u{80000000}"), P("\\u{100000041}"), P("\\u{00000000041}"),
    P("\\u{00000000000000007FFFFFFF}"), P("\\0"),
    P("\\7"), P("\\65"), P("\\065"), P("\\255"), P("\\256"), P("\\999"), P("\\q"), P("["), P("[["), P("[=["), P("]=]"), P("]]"), P("]"), P("="), P("\r"),
    P("\n"), P("text"), P("7"), P("%d"), P("\xE2\x82\xAC"),
};

static const piece subject_pieces[] = {
    P("a"), P("a"), P("b"), P("ab"), P("aaaa"), P("("), P(")"), P("(a)"), P("1"), P("17"), P(" "), P("="), P("state=run"), P("_"), P("\n"), P("\0"),
    P("\xC3\xA9"), P("\xFF"), P("%"), P("["), P("]"),
};

static const piece good_formats[] = {
    P("%d of %s"), P("%5.2f"), P("%-10s|%q"), P("%%"), P("%x %X %c %o %e %g"), P("trip %d at %s, %5.1f V"), P("%05d"), P("%+d"), P("%.14g"), P("%a"), P(""),
};
/* The last three have a reversed range: the check refuses them, and a trial runs them like the others. */
static const piece good_patterns[] = {
    P("(%d+)"), P("^%s*(.-)%s*$"), P("(%w+)=(%w+)"), P("[%w_]+"), P("%b()"), P("%f[%w]%w+"), P("(.)%1"), P("()a()"), P("[^%s]-$"), P("a?b?c?d*"), P(".-b"),
    P("((a)(b))%2%3"), P("[]a]"), P("[a-z]*[0-9]+"), P("%a%d%p%s"), P(""), P("a*b*a*b*a*b*a*b*"), P("%%"), P("((((((((a))))))))"), P("\xE2\x82\xAC+"),
    P("[^9-0]*=()"), P("(a)[b-aa-c]"), P("%f[^z-a]a+"),
};
static const piece good_packs[] = {P("<i4 s1 z"), P("!8 b Xi8 d"), P(">I2 c10 x"), P("=!4 j J T n"), P("bBhHlLfd"), P("s"), P("i16 I1"), P("")};
static const piece good_replacements[] = {P("%1"), P("<%0>"), P("%%"), P("%2=%1"), P("text"), P(""), P("%1%1 %0"), P("\xC3\xA9 %1")};
static const piece good_dates[] = {P("%Y-%m-%d %H:%M:%S"), P("!%c"), P("*t"), P("!*t"), P("%Ex %Od"), P("%a %A %b %B"), P("%%"), P("")};
static const piece good_literals[] = {
    P("\"trip %d\""), P("'a\\nb'"), P("\"\\x41\\u{20AC}\\065\""), P("[==[\r\nlong]==]"), P("[[a]]"), P("''"), P("\"\\z  \n x\""), P("'\\\r\n'"), P("\"\xE2\x82\xAC\""),
    P("\"%5.2f \\\" %s\""), P("'(%w+)=(%w+)'"), P("[=[ ]] ]=]"), P("'\\u{D800}\\u{110000}\\u{200000}'"), P("\"%d\\u{7FFFFFFF}\\255\""),
};
static const piece good_subjects[] = {
    P("state=run speed=1487"), P("2024-05-01 12:07:17 drive_2"), P("aaaa"), P("abababab"), P("(a(b)c)"), P("  trip 17  "), P(""), P("a\0b\0"), P("\xE2\x82\xAC\xE2\x82\xAC"),
};

/* What a text is made for. The first six are the kinds of bodies, in the order of their letters FPKSGD. */
typedef enum { FORMAT, PATTERN, PACK, PACKSIZE, REPLACEMENT, DATE, LITERAL, SUBJECT } use;

static const pieces hostile[] = {
    ALL(format_pieces), ALL(pattern_pieces), ALL(pack_pieces), ALL(pack_pieces), ALL(replacement_pieces), ALL(date_pieces), ALL(literal_pieces), ALL(subject_pieces),
};
static const pieces good[] = {
    ALL(good_formats), ALL(good_patterns), ALL(good_packs), ALL(good_packs), ALL(good_replacements), ALL(good_dates), ALL(good_literals), ALL(good_subjects),
};
static const pieces any = ALL(any_pieces);

/* ---- texts ---- */

static const piece *pick(const pieces *from)
{
    return &from->pieces[below(from->count)];
}

/* Puts bytes into the text at a place, as many as there is room for. They may be bytes of the text itself. */
static void insert(text *t, size_t at, const void *bytes, size_t len)
{
    static uint8_t copy[MOST];
    if (len > MOST - t->len) {
        len = MOST - t->len;
    }
    memcpy(copy, bytes, len);
    memmove(t->bytes + at + len, t->bytes + at, t->len - at);
    memcpy(t->bytes + at, copy, len);
    t->len += len;
}

static void append(text *t, const piece *p)
{
    insert(t, t->len, p->bytes, p->len);
}

static void erase(text *t, size_t at, size_t len)
{
    memmove(t->bytes + at, t->bytes + at + len, t->len - at - len);
    t->len -= len;
}

/* Mostly up to 64, sometimes up to 4,096, rarely up to all. */
static size_t some_length(void)
{
    size_t of = below(2000);
    return below((of == 0 ? MOST : of < 20 ? 4096 : of < 600 ? 12 : 64) + 1);
}

static void make_random(text *t, size_t len)
{
    bool few = one_in(3);
    t->len = len;
    for (size_t i = 0; i < len; i++) {
        t->bytes[i] = few ? (uint8_t)(' ' + below(96)) : (uint8_t)next();
    }
}

/* Pieces of the use; in some texts others are among them. */
static void make_hostile(text *t, use u, size_t len)
{
    size_t others = one_in(2) ? 8 : 1000;
    t->len = 0;
    while (t->len < len) {
        append(t, pick(one_in(others) ? &any : &hostile[u]));
    }
    t->len = len;
}

static void make_good(text *t, use u, size_t len)
{
    t->len = 0;
    append(t, pick(&good[u]));
    while (len > 64 && t->len < len) {
        append(t, pick(&good[u]));
        if (t->len == 0) {
            return;
        }
    }
}

static void damage(text *t, use u)
{
    size_t at = below(t->len + 1);
    size_t len = below(t->len - at + 1);
    const piece *p = pick(one_in(3) ? &any : &hostile[u]);
    switch (below(5)) {
    case 0:
        if (at < t->len) {
            t->bytes[at] ^= (uint8_t)(1u << below(8));
        }
        break;
    case 1: erase(t, at, one_in(2) && len > 0 ? 1 : len); break;
    case 2: insert(t, at, p->bytes, p->len); break;
    case 3: insert(t, at, t->bytes + at, len); break;
    default: t->len = at; break;
    }
}

/* A text for the use, without a fault or with up to four damages. */
static void make_damaged(text *t, use u, size_t len, size_t most)
{
    make_good(t, u, len);
    for (size_t left = below(most + 1); left > 0; left--) {
        damage(t, u);
    }
}

/* Up to three pieces again and again: many levels of a trial, many captures, long specifiers. */
static void make_repeated(text *t, use u, size_t len)
{
    const piece *some[3] = {pick(&hostile[u]), pick(&hostile[u]), pick(&hostile[u])};
    size_t count = 1 + below(3);
    t->len = 0;
    for (size_t i = 0; t->len < len; i++) {
        append(t, some[i % count]);
    }
    t->len = len;
}

/* A pattern of about as many levels as a trial has, with captures or without, and a subject that each item matches a part of. */
static void make_deep(text *pattern, text *subject)
{
    static const piece items[] = {P("a?"), P("a-"), P(".-"), P("a*b*"), P("[a]*[b]*"), P("(a?)")}, matched = P("ab"), plain = P("a");
    const piece *item = &items[below(sizeof items / sizeof *items)];
    size_t captures = one_in(2) ? below(33) : 0, count = item->len > 2 ? 90 + below(20) : 180 + below(40);
    pattern->len = subject->len = 0;
    for (size_t i = 0; i < captures; i++) {
        append(pattern, &(const piece)P("("));
    }
    for (size_t i = 0; i < count; i++) {
        append(pattern, item);
        append(subject, item->len > 2 ? &matched : &plain);
    }
    for (size_t i = 0; i < captures; i++) {
        append(pattern, &(const piece)P(")"));
    }
}

static void make(text *t, use u)
{
    size_t len = some_length();
    switch (below(9)) {
    case 0: make_random(t, len); break;
    case 1: case 2: case 3: make_hostile(t, u, len); break;
    case 4: make_repeated(t, u, one_in(4) ? 420 + below(200) : len); break;
    default: make_damaged(t, u, len, 4); break;
    }
}

/* Between two equal quotes or long brackets; seldom between two that differ. */
static void enclose(text *t, bool brackets)
{
    static const piece quotes[][2] = {{P("\""), P("\"")}, {P("'"), P("'")}, {P("\""), P("'")}, {P("[["), P("]]")}, {P("[=["), P("]=]")}, {P("[==["), P("]=]")}};
    size_t of = one_in(20) ? 2 : brackets && one_in(4) ? 3 + below(3) : below(2);
    const piece *open = &quotes[of][0], *close = &quotes[of][1];
    if (t->len > MOST - open->len - close->len) {
        t->len = MOST - open->len - close->len;
    }
    insert(t, 0, open->bytes, open->len);
    append(t, close);
}

#endif
