"""Tests of luck.py: every function at accepted, refused and edge inputs.

    python3 -B host/python/test_luck.py

It makes a shared object of its own, in a temporary folder, from libluck.a in the folder that the variable LUCK_LIB names (by default
target/staticlib; a relative name counts from the repository's root). It needs cc.
"""

from __future__ import annotations

import ctypes
import doctest
import os
import re
import subprocess
import sys
import tempfile
import threading
import unittest
from pathlib import Path
from typing import Dict, Tuple

import luck as module
from luck import (
    SIZE_MAX,
    UINT32_MAX,
    Answer,
    Decoded,
    DecodedInto,
    Kind,
    Literal,
    Luck,
    Number,
    Trial,
    TrialInto,
    Version,
    make_shared_object,
)

ROOT = Path(__file__).resolve().parent.parent.parent
ARCHIVE = ROOT / os.environ.get("LUCK_LIB", "target/staticlib") / "libluck.a"
VERSIONS = range(1, 7)
NO_VERSIONS = (0, 7, 257, UINT32_MAX)
ENOUGH = 1_000_000
UNTOUCHED = b"\xAA"


def load_library() -> Luck:
    if not ARCHIVE.is_file():
        sys.exit(f"{ARCHIVE} is not there: run `tools/build luck` in the repository's root, or set LUCK_LIB to the folder of libluck.a")
    # A loaded shared object stays loaded when its file goes.
    with tempfile.TemporaryDirectory() as folder:
        shared = Path(folder) / "libluck.so"
        make_shared_object(ARCHIVE, shared)
        return Luck(shared)


luck = load_library()

# The checks that take a version and a body, and a replacement's with one capture, by the letter of the kind.
CHECKS = {
    b"F": luck.check_format,
    b"P": luck.check_pattern,
    b"K": luck.check_pack,
    b"S": luck.check_packsize,
    b"D": luck.check_date,
    b"G": lambda version, body: luck.check_replacement(version, 1, body),
}

# Every refusal of a check at its smallest input of docs/REFUSALS.md: kind, version, body, number, offset, characters. The last is not UTF-8.
REFUSALS = [
    (b"F", 1, b"%", 1, 0, ""),
    (b"F", 1, b"%y", 2, 1, "y"),
    (b"F", 1, b"%------d", 3, 6, "-"),
    (b"F", 1, b"%100d", 4, 1, ""),
    (b"F", 1, b"%.100d", 5, 2, ""),
    (b"F", 4, b"%#d", 6, 1, "#d"),
    (b"F", 4, b"%" + 21 * b"0" + b"d", 7, 1, ""),
    (b"P", 1, b"%", 1, 0, ""),
    (b"P", 1, b"[a", 8, 0, ""),
    (b"P", 1, b"[]", 9, 0, ""),
    (b"P", 1, b"%f", 10, 0, "f"),
    (b"P", 1, b")", 11, 0, ""),
    (b"P", 1, b"(", 11, 1, ""),
    (b"P", 1, 33 * b"(", 12, 32, ""),
    (b"P", 1, b"%1", 13, 1, ""),
    (b"P", 1, b"[z-a]", 39, 1, ""),
    (b"K", 3, b"y", 14, 0, "y"),
    (b"K", 3, b"b1", 14, 1, "1"),
    (b"K", 3, b"c", 15, 1, ""),
    (b"K", 3, b"i17", 16, 1, ""),
    (b"K", 3, b"!i3", 17, 1, ""),
    (b"S", 3, b"s", 18, 0, "s"),
    (b"G", 2, b"%", 19, 0, ""),
    (b"G", 2, b"%x", 20, 1, ""),
    (b"G", 2, b"%2", 21, 1, ""),
    (b"D", 2, b"%", 19, 0, ""),
    (b"D", 2, b"%Q", 22, 1, ""),
    (b"F", 1, b"\xFF", 23, 0, ""),
]

# Where the bytes of a code point get longer, and where characters begin and end.
CODE_POINTS = [
    (0, b"\0"),
    (0x7F, b"\x7F"),
    (0x80, b"\xC2\x80"),
    (0x7FF, b"\xDF\xBF"),
    (0x800, b"\xE0\xA0\x80"),
    (0xD7FF, b"\xED\x9F\xBF"),
    (0xD800, b"\xED\xA0\x80"),
    (0xDFFF, b"\xED\xBF\xBF"),
    (0xE000, b"\xEE\x80\x80"),
    (0xFFFF, b"\xEF\xBF\xBF"),
    (0x10000, b"\xF0\x90\x80\x80"),
    (0x10FFFF, b"\xF4\x8F\xBF\xBF"),
    (0x110000, b"\xF4\x90\x80\x80"),
    (0x1FFFFF, b"\xF7\xBF\xBF\xBF"),
    (0x200000, b"\xF8\x88\x80\x80\x80"),
    (0x3FFFFFF, b"\xFB\xBF\xBF\xBF\xBF"),
    (0x4000000, b"\xFC\x84\x80\x80\x80\x80"),
    (0x7FFFFFFF, b"\xFD\xBF\xBF\xBF\xBF\xBF"),
]


def lend(room: int) -> Tuple[bytearray, memoryview]:
    """A buffer, and its inner `room` bytes."""
    buffer = bytearray(UNTOUCHED * (2 + room + 2))
    return buffer, memoryview(buffer)[2 : 2 + room]


def written(room: int, front: bytes) -> bytes:
    """The buffer after `front` was written to the inner bytes."""
    return UNTOUCHED * 2 + front + UNTOUCHED * (room - len(front) + 2)


def accepted(count: int) -> Answer:
    return Answer(0, 0, 0, 0, count)


def refused(number: int, offset: int, characters: str = "") -> Answer:
    first, second = [*map(ord, characters), 0, 0][:2]
    return Answer(number, first, second, offset, 0)


class Bodies(unittest.TestCase):
    """The checks of bodies."""

    def test_empty(self) -> None:
        for version in VERSIONS:
            for check in CHECKS.values():
                self.assertEqual(check(version, b""), accepted(0))
            self.assertEqual(luck.check_replacement(version, None, b""), accepted(0))

    def test_accepted(self) -> None:
        for answer, count in [
            (luck.check_format(1, b"%d%s"), 2),
            (luck.check_format(1, b"%-----d%%"), 1),
            (luck.check_pattern(1, b"()%1"), 1),
            (luck.check_pattern(1, b"[]]"), 0),
            (luck.check_pattern(1, 32 * b"(" + 32 * b")"), 32),
            (luck.check_pack(3, b"i4s"), 2),
            (luck.check_packsize(3, b"i4c10b"), 3),
            (luck.check_date(2, b"!%Y-%m-%d"), 0),
            (luck.check_format(4, 100_000 * b"%d"), 100_000),
        ]:
            self.assertEqual(answer, accepted(count))

    def test_smallest_inputs(self) -> None:
        for kind, version, body, number, offset, characters in REFUSALS:
            with self.subTest(kind=kind, body=body):
                self.assertEqual(CHECKS[kind](version, body), refused(number, offset, characters))

    def test_every_number_has_a_row(self) -> None:
        self.assertEqual({row[3] for row in REFUSALS}, {*range(1, 24), 39})

    def test_versions(self) -> None:
        for kind, body, versions in [
            (b"F", b"%a", [2, 3, 4, 5]),
            (b"F", b"%p", [4, 5]),
            (b"F", b"%*", [6]),
            (b"D", b"%Q", [1]),
            (b"D", b"%", [1, 6]),
            (b"G", b"%x", [1]),
            (b"G", b"%2", []),
        ]:
            with self.subTest(kind=kind, body=body):
                self.assertEqual([version for version in VERSIONS if CHECKS[kind](version, body).number == 0], versions)

    def test_no_version(self) -> None:
        for version in NO_VERSIONS:
            for check in CHECKS.values():
                self.assertEqual(check(version, b"%\xFF"), refused(25, 0))

    def test_captures(self) -> None:
        for version in VERSIONS:
            for captures, body, answer in [
                (None, b"%9", accepted(0)),
                (0, b"%1", accepted(0)),
                (0, b"%2", refused(21, 1)),
                (2, b"%2", accepted(0)),
                (8, b"%9", refused(21, 1)),
                (SIZE_MAX, b"%9", accepted(0)),
            ]:
                self.assertEqual(luck.check_replacement(version, captures, body), answer)

    def test_nul(self) -> None:
        self.assertEqual(luck.check_format(1, b"%\0"), refused(2, 1))
        self.assertEqual(luck.check_pattern(1, b"\0()"), accepted(1))
        self.assertEqual(luck.check_pattern(1, b"\0("), refused(11, 2))
        self.assertEqual(luck.check_pack(3, b"b\0"), refused(14, 1))
        self.assertEqual(luck.check_packsize(3, b"b\0"), refused(14, 1))
        self.assertEqual(luck.check_date(2, b"\0%Q"), refused(22, 2))
        self.assertEqual(luck.check_replacement(2, None, b"\0%x"), refused(20, 2))

    def test_ranges(self) -> None:
        for body, answer in [
            ("[a-a]", accepted(0)),
            ("[%z-a]", accepted(0)),
            ("([z-])", accepted(1)),
            ("z-a", accepted(0)),
            ("[z-é]", accepted(0)),
            ("[^z-a]", refused(39, 2)),
            ("%f[z-a]", refused(39, 3)),
            ("[z-%a]", refused(39, 1)),
            ("[]-A]", refused(39, 1)),
            ("[z-a])", refused(39, 1)),
            ("[é-a]", refused(39, 2)),
            (")[z-a]", refused(11, 0)),
            ("[z-a", refused(8, 0)),
        ]:
            for version in VERSIONS:
                with self.subTest(body=body, version=version):
                    self.assertEqual(luck.check_pattern(version, body), answer)

    def test_not_utf8(self) -> None:
        for body in [b"%\xFF", b"%\x80", b"%\xC3", b"%\xC0\x80", b"%\xE2\x82", b"%\xED\xA0\x80", b"%\xF4\x90\x80\x80"]:
            for version in VERSIONS:
                for check in CHECKS.values():
                    self.assertEqual(check(version, body), refused(23, 1))

    def test_characters(self) -> None:
        self.assertEqual(luck.check_format(1, "%é".encode()), refused(2, 1, "é"))
        self.assertEqual(luck.check_pack(3, "\U0001F600".encode()), refused(14, 0, "\U0001F600"))


class Truth(unittest.TestCase):
    """An answer is true where the text is accepted, decoded or done, and only there."""

    def test_bodies(self) -> None:
        for kind, version, body, *_ in REFUSALS:
            self.assertIs(bool(CHECKS[kind](version, body)), False)
        for check in CHECKS.values():
            self.assertIs(bool(check(4, b"")), True)
            self.assertIs(bool(check(7, b"")), False)

    def test_literals(self) -> None:
        for text, true in [("'%d'", True), ("''", True), ("'%y'", False), ("[[%d]]", False), (r"'\65'", False), (b"'\xFF'", False)]:
            self.assertIs(bool(luck.check_literal(Kind.FORMAT, Version.LUA_54, None, 0, text)), true)

    def test_decoding(self) -> None:
        for text, true in [("''", True), ("'a'", True), ("'", False), (r"'\q'", False)]:
            self.assertIs(bool(luck.decode_string(4, text)), true)
            self.assertIs(bool(luck.decode_string_into(4, text, bytearray(4))), true)
        self.assertIs(bool(luck.decode_string_into(4, "'a'", bytearray())), False)

    def test_trials(self) -> None:
        for pattern, budget, true in [("a", 9, True), ("b", 9, True), ("a", 1, False), (")", 9, False)]:
            self.assertIs(bool(luck.gsub_trial(4, pattern, "x", "a", budget, 9)), true)
            self.assertIs(bool(luck.gsub_trial_into(4, pattern, "x", "a", budget, bytearray(9))), true)


class Messages(unittest.TestCase):
    """Why a text is refused, in the words of the Rust crate."""

    refusal, decode, trial = ((ROOT / "host" / "rust" / "src" / name).read_text() for name in ("refusal.rs", "decode.rs", "trial.rs"))

    def test_refusals(self) -> None:
        for answer, message in [
            (luck.check_format(1, "%"), "truncated specifier at offset 0"),
            (luck.check_format(1, "%é"), "unknown specifier `%é` at offset 1"),
            (luck.check_format(1, "%------d"), "too many flags at `-` at offset 6"),
            (luck.check_format(4, "%#d"), "`%d` can't take `#` at offset 1"),
            (luck.check_pattern(4, "(%d+"), "unmatched capture at offset 4"),
            (luck.check_pattern(4, "[é-a]"), "reversed range at offset 2"),
            (luck.check_packsize(4, "s"), "variable-length option `s` at offset 0"),
            (luck.check_replacement(4, 1, "%2"), "capture index is higher than the pattern's capture count at offset 1"),
            (luck.check_date(4, "a%"), "ends with a lone `%` at offset 1"),
            (luck.check_replacement(4, None, "%x"), "unexpected character after `%`, expected a digit or `%` at offset 1"),
            (luck.check_date(4, "%Q"), "unexpected character after `%`, expected a date specifier or `%` at offset 1"),
            (luck.check_format(1, b"a\xFF"), "not UTF-8 at offset 1"),
            (luck.check_format(7, ""), "unknown version"),
            (luck.check_format(4, "%d"), ""),
            (luck.check_literal("F", 4, None, 0, "'%y'"), "unknown specifier `%y` at offset 1"),
            (luck.check_literal("Z", 4, None, 0, "'%y'"), "unknown kind"),
            (luck.check_literal("F", 4, None, 0, "'%d'"), ""),
            (luck.check_literal("F", 4, None, 0, "%d"), r"not checked: not in two equal quotes, or with an escape `\0` to `\9`, `\x` or `\u`"),
            (luck.decode_string(4, "'"), "no literal, or an escape that is malformed or that is not read in this version"),
            (luck.decode_string(4, b"'\xFF'"), "not UTF-8 at offset 1"),
            (luck.decode_string(0, "'"), "unknown version"),
            (luck.decode_string(4, "''"), ""),
            (luck.decode_string_into(4, "'a'", bytearray()), "the value is longer than the output"),
        ]:
            self.assertEqual(answer.message, message)

    def test_other_numbers(self) -> None:
        """A number that this module does not know, of a later library, has the Rust crate's words for it."""
        self.assertEqual(Answer(99, 0, 0, 5, 0).message, "refusal 99 at offset 5")
        self.assertEqual(Trial(99, 0, b"", 0, 0).message, "refusal 99, kind 0")
        self.assertEqual(Trial(29, 11, b"", 0, 0).message, "refusal 29, kind 11")

    def test_every_refusal(self) -> None:
        """Each message ends with the place of its fault."""
        for kind, version, body, _, offset, _ in REFUSALS:
            message = CHECKS[kind](version, body).message
            self.assertTrue(message.endswith(f" at offset {offset}"), message)

    def test_undecodable(self) -> None:
        """One sentence for all that 24 is: no literal, malformed, not of the version, and what the version itself has but is not read."""
        for version, text in [(4, "hello"), (4, r'"\300"'), (4, r'"\q"'), (4, r'"\u{80000000}"'), (3, r'"\u{D800}"')]:
            self.assertEqual(luck.decode_string(version, text).message, "no literal, or an escape that is malformed or that is not read in this version")

    def test_trials(self) -> None:
        for trial, message in [
            (luck.gsub_trial(4, "a", "x", "a"), ""),
            (luck.gsub_trial(7, "a", "x", "a"), "unknown version"),
            (luck.gsub_trial(4, "a", "x", "a", room=0), "the output is full"),
            (luck.gsub_trial(4, "a", "x", "a", budget=0), "the budget of steps is spent"),
            (luck.gsub_trial(4, 200 * "a?", "x", 200 * "a"), 'too deep: real Lua raises "pattern too complex"'),
            (luck.gsub_trial(4, "%", "x", "a"), "pattern ends with '%'"),
            (luck.gsub_trial(4, "a", "%2", "a"), "invalid capture index in the replacement"),
            (luck.gsub_trial_into(4, "[", "x", "a", 9, bytearray(9)), "missing ']'"),
        ]:
            self.assertEqual(trial.message, message)

    def test_rust(self) -> None:
        """The words are those of the Rust crate's `Display`."""
        there = set(re.findall(r'(?:write!\(f, |f\.write_str\()"((?:[^"\\]|\\.)*)"', self.refusal))
        here = {words for number, words in module._REFUSALS.items() if number <= Number.NOT_UTF8 or number == Number.REVERSED_RANGE}
        self.assertEqual(there - here, {"refusal {number} at offset {offset}"})
        self.assertEqual(here - there, set())
        for number in (24, 26):
            self.assertIn(f'f.write_str("{module._REFUSALS[number]}")', self.decode)
        for words in [*(words for number, words in module._ENDINGS.items() if number != 25), *module._RAISES]:
            self.assertIn('"' + words.replace('"', '\\"') + '"', self.trial)


class Literals(unittest.TestCase):
    """The check of a literal."""

    def test_accepted(self) -> None:
        for kind, text, count in [
            (b"F", b"'%d%s'", 2),
            (b"P", b'"(a)()"', 2),
            (b"K", b"'i4s'", 2),
            (b"S", b"'i4'", 1),
            (b"G", b"'%2'", 0),
            (b"D", b"'%Y'", 0),
        ]:
            self.assertEqual(luck.check_literal(kind, 3, None, 100, text), Literal(0, 0, 0, False, False, 0, 0, 0, count))

    def test_smallest_inputs(self) -> None:
        for kind, version, body, number, offset, characters in REFUSALS[:-1]:
            with self.subTest(kind=kind, body=body):
                _, first, second, _, _ = refused(number, offset, characters)
                wanted = Literal(number, first, second, False, True, 11 + offset, 12 + offset, offset, 0)
                self.assertEqual(luck.check_literal(kind, version, 1, 10, b"'" + body + b"'"), wanted)

    def test_skipped(self) -> None:
        skipped = Literal(0, 0, 0, True, False, 0, 0, 0, 0)
        for text in [b"", b"'", b"%y", b"'%y", b"'%y\"", b"[[%y]]", rb"'%y\65'", rb"'%y\0'", rb"'%y\x41'", rb"'%y\u{41}'"]:
            with self.subTest(text=text):
                self.assertEqual(luck.check_literal(b"F", 4, None, 100, text), skipped)
        for text in [rb"'%y\\1'", rb"'%y\n'"]:
            self.assertEqual(luck.check_literal(b"F", 4, None, 100, text).number, 2)

    def test_spans(self) -> None:
        for kind, start, text, span in [
            (b"F", 100, b"'ab%#d'", (104, 105)),
            (b"F", 0, "'%é'".encode(), (2, 4)),
            (b"F", 0, "'%\U0001F600'".encode(), (2, 6)),
            (b"F", 0, b"'\0%\0'", (3, 4)),
            (b"P", 7, b"'('", (9, 10)),
            (b"P", 100, b"'[z-a]'", (102, 103)),
            (b"P", 100, "'[é-a]'".encode(), (103, 104)),
            (b"F", UINT32_MAX - 3, b"'%y'", (UINT32_MAX - 1, UINT32_MAX)),
            (b"F", UINT32_MAX - 2, b"'%y'", (UINT32_MAX, UINT32_MAX)),
            (b"F", UINT32_MAX, b"'%y'", (UINT32_MAX, UINT32_MAX)),
        ]:
            answer = luck.check_literal(kind, 4, None, start, text)
            self.assertEqual((answer.spanned, answer.start, answer.end), (True, *span))

    def test_ranges(self) -> None:
        """A body with a backslash is not tested for them."""
        for text, number in [
            (b"'[z-a]'", 39),
            (rb"'[z-a]\n'", 0),
            (rb"'\\[z-a]'", 0),
            (rb"'[\-.]'", 0),
            (rb"'[z-a]\n)'", 11),
        ]:
            self.assertEqual(luck.check_literal(b"P", 4, None, 0, text).number, number)

    def test_captures(self) -> None:
        for kind, captures, text, number in [
            (b"G", None, b"'%9'", 0),
            (b"G", 0, b"'%1'", 0),
            (b"G", 1, b"'%2'", 21),
            (b"G", SIZE_MAX, b"'%9'", 0),
            (b"F", SIZE_MAX, b"'%d'", 0),
        ]:
            self.assertEqual(luck.check_literal(kind, 2, captures, 0, text).number, number)

    def test_no_span(self) -> None:
        for kind, version, text, number, offset in [
            (b"F", 4, b"'%\xFF'", 23, 2),
            (b"F", 4, b"[[\xFF]]", 23, 2),
            *((b"F", version, b"'%\xFF'", 25, 0) for version in NO_VERSIONS),
            *((b"Z", version, b"'%\xFF'", 30, 0) for version in NO_VERSIONS),
            *((bytes([kind]), 4, b"'%y'", 30, 0) for kind in range(256) if kind not in b"FPKSGD"),
        ]:
            wanted = Literal(number, 0, 0, False, False, 0, 0, offset, 0)
            self.assertEqual(luck.check_literal(kind, version, None, 100, text), wanted)


class Decoding(unittest.TestCase):
    """The bytes that a literal stands for."""

    def test_values(self) -> None:
        for version in VERSIONS:
            for text, value in [
                (b"''", b""),
                (b"[[]]", b""),
                (rb'"a\n\t\65\0"', b"a\n\tA\0"),
                (b"[==[\na]]b]==]", b"a]]b"),
                (b"'\0'", b"\0"),
                (rb"'\255'", b"\xFF"),
            ]:
                self.assertEqual(luck.decode_string(version, text), Decoded(0, 0, value))
        self.assertEqual(luck.decode_string(4, rb"'\u{E9}'").value, "é".encode())

    def test_code_points(self) -> None:
        """Lua 5.4 and 5.5 take each up to 7FFFFFFF, Lua 5.3 and Luau characters only."""
        for code, value in CODE_POINTS:
            is_character = code <= 0x10FFFF and not 0xD800 <= code <= 0xDFFF
            for version in (3, 4, 5, 6):
                wanted = Decoded(0, 0, value) if is_character or version in (4, 5) else Decoded(24, 0, b"")
                for digits in (f"{code:X}", f"{code:016x}"):
                    self.assertEqual(luck.decode_string(version, f"'\\u{{{digits}}}'"), wanted, (version, digits))
        for version in (3, 4, 5, 6):
            for digits in ("80000000", "FFFFFFFF", "100000041", "10000000000000041"):
                self.assertEqual(luck.decode_string(version, f"'\\u{{{digits}}}'"), Decoded(24, 0, b""), (version, digits))
            many = Decoded(24, 0, b"") if version == 6 else Decoded(0, 0, b"A")
            self.assertEqual(luck.decode_string(version, f"'\\u{{{0x41:017X}}}'"), many, version)

    def test_not_utf8(self) -> None:
        """A value that is not UTF-8 is given as bytes; `decode()` raises, a check refuses it, and a trial takes it."""
        texts = [r"'\255'", *(f"'\\u{{{code:X}}}'" for code, value in CODE_POINTS if code > 0x10FFFF or 0xD800 <= code <= 0xDFFF)]
        for text in texts:
            for version in (Version.LUA_54, Version.LUA_55):
                decoded = luck.decode_string(version, text)
                self.assertTrue(decoded)
                self.assertRaises(UnicodeDecodeError, decoded.value.decode)
                for check in CHECKS.values():
                    self.assertEqual(check(version, decoded.value), refused(23, 0))
                self.assertEqual(luck.gsub_trial(version, decoded.value, "x", b"a" + decoded.value).output, b"ax")
                output = bytearray(len(decoded.value))
                self.assertEqual(luck.decode_string_into(version, text, output), DecodedInto(0, 0, len(output)))
                self.assertEqual(output, decoded.value)

    def test_refused(self) -> None:
        for version, text, number, offset in [
            (2, rb'"\q"', 24, 0),
            (4, b"", 24, 0),
            (4, b"'", 24, 0),
            (4, b"'a\"", 24, 0),
            (4, b"[=[a]]", 24, 0),
            (4, rb"'\256'", 24, 0),
            (4, rb"'\u{80000000}'", 24, 0),
            (3, rb"'\u{110000}'", 24, 0),
            (6, rb"'\u{D800}'", 24, 0),
            (4, b"'a\xFF", 23, 2),
            *((version, b"'\xFF", 25, 0) for version in NO_VERSIONS),
        ]:
            self.assertEqual(luck.decode_string(version, text), Decoded(number, offset, b""))

    def test_output(self) -> None:
        for version, text, room, answer, front in [
            (2, rb'"a\n"', 4, (0, 0, 2), b"a\n"),
            (2, b"'ab'", 2, (0, 0, 2), b"ab"),
            (2, b"''", 0, (0, 0, 0), b""),
            (2, b"'ab'", 1, (26, 0, 0), b""),
            (2, b"'ab'", 0, (26, 0, 0), b""),
            (2, rb'"ab\q"', 8, (24, 0, 0), b""),
            (2, rb'"\q"', 0, (24, 0, 0), b""),
            (2, b"'ab\xFF'", 8, (23, 3, 0), b""),
            (7, b"'ab'", 8, (25, 0, 0), b""),
        ]:
            with self.subTest(text=text, room=room):
                buffer, output = lend(room)
                self.assertEqual(luck.decode_string_into(version, text, output), DecodedInto(*answer))
                self.assertEqual(buffer, written(room, front))

    def test_output_is_given_back(self) -> None:
        output = bytearray(4)
        luck.decode_string_into(4, b"'a'", output)
        output.extend(b"more")
        self.assertEqual(output, b"a\0\0\0more")

    def test_room_is_in_bytes(self) -> None:
        output = bytearray(8)
        luck.decode_string_into(4, b"'12345678'", memoryview(output).cast("I"))
        self.assertEqual(output, b"12345678")


class Trials(unittest.TestCase):
    """The trial of gsub. A trial is given as subject, pattern, replacement."""

    def test_done(self) -> None:
        for texts, output, replacements, steps in [
            ((b"abc", b"%w*", b"x"), b"x", 1, 7),
            ((b"a", b"a", b"x"), b"x", 1, 3),
            ((b"aaa", b"a*", b"x"), b"x", 1, 7),
            ((b"aab", b"a-b", b"x"), b"x", 1, 8),
            ((b"aba", b"a", b"x"), b"xbx", 2, 6),
            ((b"", b"", b"x"), b"x", 1, 2),
            ((b"ab", b"", b"x"), b"xaxbx", 3, 6),
            ((b"", b"", b""), b"", 1, 2),
            ((b"a\0b", b"\0b", b"x"), b"ax", 1, 5),
            ((b"az-", b"[z-a]", b"x"), b"az-", 0, 4),
            ((b"az-", b"[^z-a]", b"x"), b"xxx", 3, 7),
            ((b"\0\xFFa\0", b"[%z\xFF]", b"<\xFE\0>"), b"<\xFE\0><\xFE\0>a<\xFE\0>", 3, 8),
        ]:
            subject, pattern, replacement = texts
            for version in VERSIONS:
                with self.subTest(texts=texts, version=version):
                    found = luck.gsub_trial(version, pattern, replacement, subject, ENOUGH, 20)
                    self.assertEqual(found, Trial(0, 0, output, replacements, steps))

    def test_output(self) -> None:
        deep = (200 * b"a", 200 * b"a?", b"x")
        for version, texts, budget, room, answer, front in [
            (4, (b"a", b"a", b"xx"), ENOUGH, 4, (0, 0, 2, 1, 3), b"xx"),
            (4, (b"a", b"a", b"xx"), ENOUGH, 2, (0, 0, 2, 1, 3), b"xx"),
            (4, (b"a", b"a", b"xx"), ENOUGH, 1, (26, 0, 1, 1, 2), b"x"),
            (4, (b"a", b"a", b"xx"), ENOUGH, 0, (26, 0, 0, 1, 2), b""),
            (4, (b"", b"", b""), ENOUGH, 0, (0, 0, 0, 1, 2), b""),
            (4, (b"a", b"a", b"x"), UINT32_MAX, 4, (0, 0, 1, 1, 3), b"x"),
            (4, (b"a", b"a", b"x"), 2, 4, (27, 0, 1, 1, 2), b"x"),
            (4, (b"a", b"a", b"x"), 1, 4, (27, 0, 0, 0, 1), b""),
            (4, (b"a", b"a", b"x"), 0, 4, (27, 0, 0, 0, 0), b""),
            (4, deep, ENOUGH, 4, (28, 0, 0, 0, 200), b""),
            (4, deep, 199, 4, (27, 0, 0, 0, 199), b""),
            (4, (b"ab", b"(b)", b"x%2"), ENOUGH, 4, (29, 10, 2, 1, 6), b"ax"),
            *((version, (b"a", b"a", b"x"), ENOUGH, 4, (25, 0, 0, 0, 0), b"") for version in NO_VERSIONS),
        ]:
            subject, pattern, replacement = texts
            with self.subTest(texts=texts, budget=budget, room=room):
                buffer, output = lend(room)
                found = luck.gsub_trial_into(version, pattern, replacement, subject, budget, output)
                self.assertEqual(found, TrialInto(*answer))
                self.assertEqual(buffer, written(room, front))

    def test_raised(self) -> None:
        rows = [
            (b"%", b""),
            (b"[", b""),
            (b"%f", b""),
            (b"%b", b""),
            (b")", b""),
            (b"(", b"%1"),
            (b"%1", b""),
            (33 * b"(", b""),
            (b"", b"%"),
            (b"", b"%2"),
        ]
        for kind, (pattern, replacement) in enumerate(rows, start=1):
            with self.subTest(kind=kind):
                found = luck.gsub_trial(4, pattern, replacement, b"", ENOUGH, 20)
                self.assertEqual((found.number, found.kind, found.output), (29, kind, b""))
        self.assertEqual(luck.gsub_trial(1, b"", b"%", b"", ENOUGH, 20), Trial(0, 0, b"\0", 1, 2))

    def test_defaults(self) -> None:
        """Budget and room are those of the command `luck`."""
        found = luck.gsub_trial(4, "b", "x", 10_000_001 * b"a")
        self.assertEqual((found.number, found.steps, len(found.output)), (27, 10_000_000, 10_000_000))
        found = luck.gsub_trial(4, "a", 1000 * "x", 20_000 * "a")
        self.assertEqual((found.number, len(found.output)), (26, 16 * 1024 * 1024))

    def test_stack(self) -> None:
        """The deepest trials that are known (host/c/stack.c), in a thread with the stack that luck.py asks for."""
        captures = 32 * "("
        rows = [
            (captures + "c" + 31 * ")" + 68 * "a*b*" + ")", "c" + 68 * "ab"),
            (captures + "c" + 31 * ")" + 136 * "a-" + ")", "c" + 136 * "a"),
            (".-" + captures + "." + 32 * ")" + 136 * ".-", 137 * "a"),
        ]
        found = []
        before = threading.stack_size(512 * 1024)
        try:
            for pattern, subject in rows:
                thread = threading.Thread(target=lambda: found.append(luck.gsub_trial(4, pattern, "x", subject).number))
                thread.start()
                thread.join()
        finally:
            threading.stack_size(before)
        self.assertEqual(found, 3 * [Number.TOO_DEEP])

    def test_threads(self) -> None:
        """The same texts in eight threads at once."""
        subject, found = 1000 * b"ab", []

        def run() -> None:
            found.append(luck.gsub_trial(4, b"a(b)", b"%1", subject, ENOUGH, 2000))

        threads = [threading.Thread(target=run) for _ in range(8)]
        for thread in threads:
            thread.start()
        for thread in threads:
            thread.join()
        self.assertEqual([(trial.number, trial.output) for trial in found], 8 * [(0, 1000 * b"b")])


class WrongArguments(unittest.TestCase):
    """What ctypes would cut off or misread is refused before the call."""

    def test_numbers(self) -> None:
        for number in (-1, UINT32_MAX + 1, 2**64, 2**64 + 4):
            for check in CHECKS.values():
                self.assertRaises(OverflowError, check, number, b"")
            self.assertRaises(OverflowError, luck.check_literal, b"F", number, None, 0, b"''")
            self.assertRaises(OverflowError, luck.check_literal, b"F", 4, None, number, b"''")
            self.assertRaises(OverflowError, luck.decode_string, number, b"''")
            self.assertRaises(OverflowError, luck.decode_string_into, number, b"''", bytearray())
            self.assertRaises(OverflowError, luck.gsub_trial, number, b"", b"", b"", 1, 1)
            self.assertRaises(OverflowError, luck.gsub_trial, 4, b"", b"", b"", number, 1)
            self.assertRaises(OverflowError, luck.gsub_trial_into, 4, b"", b"", b"", number, bytearray())

    def test_sizes(self) -> None:
        for number in (-1, SIZE_MAX + 1):
            self.assertRaises(OverflowError, luck.check_replacement, 4, number, b"")
            self.assertRaises(OverflowError, luck.check_literal, b"G", 4, number, 0, b"''")
            self.assertRaises(OverflowError, luck.gsub_trial, 4, b"", b"", b"", 1, number)

    def test_kinds(self) -> None:
        for kind in (b"", b"FF", "", "FF", "é", "regex", b"regex", "kind.format"):
            with self.assertRaisesRegex(ValueError, "write format, pattern, pack, packsize, replacement or date, or its letter"):
                luck.check_literal(kind, 4, None, 0, b"''")
        for wrong in (70, None):
            self.assertRaises(TypeError, luck.check_literal, wrong, 4, None, 0, b"''")
        for kind in Kind:
            for same in (kind, kind.value, kind.value.decode(), kind.name, kind.name.lower(), kind.name.lower().encode()):
                self.assertTrue(luck.check_literal(same, 4, None, 0, b"''"))
                self.assertEqual(luck.check_literal(same, 4, None, 0, "'%'"), luck.check_literal(kind.value, 4, None, 0, "'%'"))
                self.assertIs(Kind(same), kind)
        # Another letter is the library's to refuse, and not a name.
        self.assertEqual(luck.check_literal("f", 4, None, 0, b"''").number, Number.UNKNOWN_KIND)
        self.assertRaises(ValueError, Kind, "f")

    def test_version_names(self) -> None:
        """The names that the Rust crate and the command take."""
        for version in Version:
            name = "luau" if version is Version.LUAU else f"5.{version.value}"
            same = [name, name.upper(), str(version), str(version).upper(), str(version.value)]
            same += [] if version is Version.LUAU else ["lua" + name, "LUA " + name]
            for word in same:
                self.assertIs(Version(word), version)
                self.assertEqual(luck.check_format(word, "%p"), luck.check_format(version.value, "%p"))
                self.assertEqual(luck.check_literal("F", word, None, 0, "'%p'"), luck.check_literal("F", version, None, 0, "'%p'"))
                self.assertEqual(luck.decode_string(word, r"'\u{E9}'"), luck.decode_string(version.value, r"'\u{E9}'"))
                self.assertEqual(luck.gsub_trial(word, "a", "%x", "a"), luck.gsub_trial(version.value, "a", "%x", "a"))
        for word in ("", "0", "7", "54", "5.6", "5.0", "LuaJIT", "lua", "lua4", "luaLuau", "lua  5.4", " 5.4", "5.4 ", "LUA_54"):
            self.assertRaises(ValueError, Version, word)
            with self.assertRaisesRegex(ValueError, "version is '.*': write 5.1 to 5.5, luau, or a number from 1 to 6"):
                luck.check_format(word, "")

    def test_version_words(self) -> None:
        self.assertEqual([str(version) for version in Version], ["Lua 5.1", "Lua 5.2", "Lua 5.3", "Lua 5.4", "Lua 5.5", "Luau"])
        self.assertEqual(f"{Version.LUA_54}, {Version.LUAU:>6}", "Lua 5.4,   Luau")
        self.assertEqual(Version.LUA_54, 4)

    def test_types(self) -> None:
        for wrong in (None, bytearray(b"text"), 4):
            for check in CHECKS.values():
                self.assertRaises(TypeError, check, 4, wrong)
            self.assertRaises(TypeError, luck.check_literal, b"F", 4, None, 0, wrong)
            self.assertRaises(TypeError, luck.decode_string, 4, wrong)
            for texts in [(wrong, b"", b""), (b"", wrong, b""), (b"", b"", wrong)]:
                self.assertRaises(TypeError, luck.gsub_trial, 4, *texts, 1, 1)
        for wrong in (b"read only", memoryview(b"read only"), memoryview(bytearray(4))[::2], None, 4):
            self.assertRaises(TypeError, luck.decode_string_into, 4, b"''", wrong)
            self.assertRaises(TypeError, luck.gsub_trial_into, 4, b"", b"", b"", 1, wrong)
        for wrong in (4.0, b"5.4", None):
            with self.assertRaisesRegex(TypeError, f"version is {type(wrong).__name__}, not one of Version, its name or its number"):
                luck.check_format(wrong, b"")

    def test_str(self) -> None:
        """A str is taken as its UTF-8, and offsets count bytes."""
        self.assertEqual(luck.check_format(4, "é%y"), luck.check_format(4, "é%y".encode()))
        self.assertEqual(luck.check_format(4, "é%y").offset, 3)
        self.assertEqual(luck.check_literal("F", 4, None, 0, "'é%y'").start, 4)
        self.assertEqual(luck.check_replacement(4, 1, "é%2").offset, 3)
        self.assertEqual(luck.decode_string(4, "'é'").value, "é".encode())
        self.assertEqual(luck.gsub_trial(4, "é", "ü", "né").output, "nü".encode())
        self.assertRaises(UnicodeEncodeError, luck.check_format, 4, "\uD800")


class Header(unittest.TestCase):
    """luck.py and include/luck.h say the same."""

    header = (ROOT / "include" / "luck.h").read_text()

    def names_after(self, comment: str) -> Dict[str, str]:
        """The names, without LUCK_, and values of the enum that follows this comment."""
        body = self.header.split(comment, 1)[1].split("};", 1)[0]
        return dict(re.findall(r"^ +LUCK_(\w+) = ([^\s,]+)", body, re.MULTILINE))

    def test_numbers(self) -> None:
        self.assertEqual(self.names_after("/* `number`"), {number.name: str(number.value) for number in Number})

    def test_versions(self) -> None:
        self.assertEqual(self.names_after("/* `version`"), {version.name: str(version.value) for version in Version})

    def test_kinds(self) -> None:
        self.assertEqual(self.names_after("/* `kind`"), {f"KIND_{kind.name}": repr(kind.value.decode()) for kind in Kind})

    def test_own_version(self) -> None:
        self.assertIn(f'#define LUCK_VERSION "{module.__version__}"\n', self.header)

    def test_all(self) -> None:
        public = {name for name, value in vars(module).items() if getattr(value, "__module__", None) == module.__name__ and name[0] != "_"}
        self.assertEqual(set(module.__all__), public | {"DEFAULT_BUDGET", "DEFAULT_ROOM"})

    def test_fields(self) -> None:
        types = {"uint32_t": ctypes.c_uint32, "size_t": ctypes.c_size_t, "bool": ctypes.c_bool}
        structs = re.findall(r"typedef struct \{(.*?)\} luck_(\w+);", self.header, re.DOTALL)
        self.assertEqual(len(structs), 4)
        for fields, name in structs:
            there = [(field, types[kind]) for kind, field in re.findall(r"^    (\w+) (\w+);", fields, re.MULTILINE)]
            self.assertEqual(getattr(module, "_C" + name.capitalize())._fields_, there)


class Loading(unittest.TestCase):
    """What is no shared object of the library."""

    def test_not_there(self) -> None:
        self.assertRaises(OSError, Luck, ROOT / "no such file.so")

    def test_another_library(self) -> None:
        with tempfile.TemporaryDirectory() as folder:
            empty = Path(folder) / "empty.so"
            subprocess.run(["cc", "-shared", "-x", "c", os.devnull, "-o", os.fspath(empty)], check=True)
            self.assertRaises(AttributeError, Luck, empty)


def load_tests(loader: unittest.TestLoader, tests: unittest.TestSuite, pattern: object) -> unittest.TestSuite:
    """The examples in luck.py's own text are tests too."""
    tests.addTests(doctest.DocTestSuite(module, extraglobs={"lib": luck}))
    return tests


if __name__ == "__main__":
    unittest.main()
