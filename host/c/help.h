/*
 * The help of the command `luck` (luck.c).
 */
#ifndef LUCK_HELP_H
#define LUCK_HELP_H

static const char *const usage_text =
    "usage: luck check KIND VERSION TEXT [CAPTURES]\n"
    "       luck literal KIND VERSION TEXT [CAPTURES]\n"
    "       luck value KIND VERSION TEXT [CAPTURES]\n"
    "       luck decode VERSION TEXT [--room N]\n"
    "       luck trial VERSION PATTERN REPLACEMENT [--budget N] [--room N]\n"
    "       luck lines [FILE]\n"
    "       luck help | --help | -h | --version\n";

/* In parts, since C99 promises no string of more than 4,095 bytes. */
static const char *const help_text[] = {
    "\n"
    "Checks of Lua string literals, their decoding, and a trial of gsub, for Lua 5.1 to 5.5 and Luau. It is not a lexer:\n"
    "it checks the one literal or body that it is handed, and finds no literals in a file.\n"
    "\n"
    "  check    a body: the text that Lua's function is handed; a `\\` is a byte like others. For what stands in a script\n"
    "           use `value`, with its quotes\n"
    "  literal  a literal with its quotes; skipped, that is not checked, if it is not in two equal quotes, or has an\n"
    "           escape by number (`\\0` to `\\9`, `\\x`, `\\u`). It reads escapes as they are written, and not what they stand\n"
    "           for: accepted does not say that Lua loads it, and a pattern with a `\\` is not tested for 39\n"
    "  value    a literal in quotes or long brackets: it is decoded, and the bytes that it stands for, which are what Lua\n"
    "           hands to string.format and the others, are checked. Refused where either refuses it. A check reads\n"
    "           UTF-8: a value like that of \"[\\128-\\255]\" can't be checked (23), though Lua takes it. A quote or a line\n"
    "           break between the quotes is taken, and so is a closing bracket between long ones; a note says where Lua\n"
    "           ends the literal or does not load it. So it is with `literal` and `decode`\n"
    "  decode   writes the bytes that a literal stands for, and nothing else, to standard output; a note goes to\n"
    "           standard error. The bytes are written as they are and need not be UTF-8: so with \"\\255\", and in 5.4 and\n"
    "           5.5 with \"\\u{D800}\" and \"\\u{110000}\", which are read by the original UTF-8 (RFC 2279)\n"
    "  trial    string.gsub of the subject, which is read from standard input; the result goes to standard output,\n"
    "           replacements, steps and how it ended to standard error. It goes by the rules of 5.4 in every version: 5.1\n"
    "           and 5.2 themselves also replace an empty match right after a match, and in 5.1 `%g` is the letter g\n"
    "           (docs/DIFFERENCES.md); in a replacement 5.1 takes `%` before any byte here too. A range that holds no byte,\n"
    "           as in [z-a], is run, as by Lua; a note names the first where `check` refuses the pattern for it (39)\n"
    "  lines    a file of bodies, one a line (standard input without FILE, or for -): kind letter, version digit,\n"
    "           two columns of captures (0 to 32, set right, only for G; blank: unknown), a space, the body.\n"
    "           Each refused line is explained. A line is at most 4,005 bytes; its newline is not counted.\n"
    "\n",
    "  KIND     format, pattern, pack, packsize, replacement or date, or its letter: F P K S G D. Another single\n"
    "           byte is refused (30); any other word is wrong usage\n"
    "  VERSION  5.1, 5.2, 5.3, 5.4, 5.5 or luau, or its number: 1 to 6. Another number up to 4294967295 is\n"
    "           refused (25); any other word is wrong usage. LUAU, lua5.4 and the like are taken too\n"
    "  TEXT     - reads standard input to its end. All its bytes are the text, a last newline too:\n"
    "           printf %s TEXT gives exactly TEXT, echo adds a newline.\n"
    "  CAPTURES the captures of the pattern, for a replacement only; without it they are unknown\n"
    "  N        a number in digits. --budget: the steps that a trial may take, at most 4294967295, by default 10000000.\n"
    "           It bounds the steps and not the time: a step may read the whole pattern or, with %b, the whole subject.\n"
    "           --room: the bytes of the output, by default 16777216 (16 MiB). Neither is raised by itself.\n"
    "           --budget=N and --room=N are the same.\n"
    "\n",
    "Words are taken as they stand in their places: a TEXT may begin with `-`, as in `luck check format 5.1 -5d`, and\n"
    "needs no `--` before it. The text - itself goes through standard input. --version is an option only in the first\n"
    "place, --help and -h there or as the only word of a command, --budget and --room only after the texts.\n"
    "\n"
    "The answers of check, literal, value and lines go to standard output, the refused ones too; those of decode and\n"
    "trial to standard error. A refusal shows its number (docs/REFUSALS.md lists them) and, where it has a place in the\n"
    "text, its offset, in bytes from 0, and the text with a caret under the first column of the character at fault. Bytes\n"
    "that are not UTF-8, control characters and common ones without a column of their own are shown as `\\n`, `\\x1B`,\n"
    "`\\u{202E}`; common wide ones count two columns. After others that take no column or two, the caret may stand off.\n"
    "\n"
    "Exit status: 0 accepted, decoded or done; 1 refused or raised, also a trial that spent its steps, filled its output\n"
    "or went too deep, and lines of which one is refused; 2 wrong usage, a VERSION or KIND that is refused (25, 30)\n"
    "included, or a read or write that failed; 3 skipped: the literal was not checked. A note changes no status.\n"};

#endif
