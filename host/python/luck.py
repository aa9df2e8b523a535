"""Checks of Lua string literals, and a trial of gsub, for Lua 5.1 to 5.5 and Luau.

The functions are those of include/luck.h, called with ctypes from a shared object. The archive that `tools/build luck` writes is
position independent, so one command makes the shared object from it (or `make_shared_object` does):

    cc -shared -o target/libluck.so -Wl,--whole-archive target/staticlib/libluck.a -Wl,--no-whole-archive

Then, with `lib = Luck("target/libluck.so")`:

    >>> lib.check_pattern(Version.LUA_54, "(%d+)")
    Answer(number=0, first=0, second=0, offset=0, count=1)
    >>> answer = lib.check_pattern(Version.LUA_54, "(%d+")
    >>> if not answer:
    ...     print(answer.message)
    unmatched capture at offset 4
    >>> Number(answer.number).name, answer.offset
    ('UNMATCHED_CAPTURE', 4)
    >>> lib.decode_string(Version.LUA_54, r"'\\u{E9}'").value.decode()
    'é'
    >>> lib.decode_string(Version.LUA_54, r"'\\u{110000}'").value
    b'\\xf4\\x90\\x80\\x80'
    >>> lib.gsub_trial(Version.LUA_54, "%d+", "<%0>", "trip 17").output
    b'trip <17>'

An answer is true where the text is accepted, decoded or done, and false where it is refused; a literal that was skipped, which is not
checked, is false too. `message` says why, in the words of the Rust crate.

Texts are bytes, any bytes, or a str, which is taken as its UTF-8; an offset counts bytes. A version is one of `Version`, its name ("5.4",
"luau"), or its number: 1 to 5 for Lua 5.1 to 5.5 and 6 for Luau; another number is refused by the library (25), another name raises
ValueError. A number that the C type can't hold raises OverflowError here, since ctypes would cut it off without a word.

A literal's value is bytes, and need not be UTF-8: `\\255` is a byte FF, and in Lua 5.4 and 5.5 a `\\u{}` of a surrogate or above 10FFFF has
its bytes by the original UTF-8 (RFC 2279). `decode()` raises UnicodeDecodeError on such a value, and a check refuses it (23).

A trial of gsub takes up to 140 KiB of stack: a thread that calls it needs 512 KiB (threading.stack_size), or the process dies.

Python 3.8 or later, and nothing but its standard library.
"""

from __future__ import annotations

import ctypes
import enum
import mmap
import operator
import os
import subprocess
from typing import Any, List, NamedTuple, Optional, Tuple, Type, Union

__version__ = "0.1.0"

__all__ = [
    "DEFAULT_BUDGET",
    "DEFAULT_ROOM",
    "Answer",
    "Decoded",
    "DecodedInto",
    "Kind",
    "Literal",
    "Luck",
    "Number",
    "Trial",
    "TrialInto",
    "Version",
    "make_shared_object",
]

# The steps and the bytes of a trial where none are named, as in the command `luck`.
DEFAULT_BUDGET = 10_000_000
DEFAULT_ROOM = 16 * 1024 * 1024

Path = Union[str, "os.PathLike[str]"]

# A text: any bytes, or a str, which is taken as its UTF-8.
Text = Union[bytes, str]

# A version: one of Version, its name, or its number.
AnyVersion = Union[int, str]

# What decoding and the trial write to. A memoryview has to be writable and without gaps.
Output = Union[bytearray, memoryview]

UINT32_MAX = 2**32 - 1
SIZE_MAX = 2 ** (8 * ctypes.sizeof(ctypes.c_size_t)) - 1


class Version(enum.IntEnum):
    """The versions of Lua, by the names of include/luck.h.

    `Version("5.4")` takes the names of the Rust crate and the command, in any case: `5.4`, `lua5.4`, `Lua 5.4` or `4`; `luau` or `6`. A
    version is written as `Lua 5.4` or `Luau`.
    """

    LUA_51 = 1
    LUA_52 = 2
    LUA_53 = 3
    LUA_54 = 4
    LUA_55 = 5
    LUAU = 6

    @classmethod
    def _missing_(cls, value: object) -> Optional[Version]:
        if not isinstance(value, str):
            return None
        name = value.lower()
        for version in cls:
            words = str(version).lower()
            if name in (str(version.value), words, words.replace("lua ", ""), words.replace(" ", "")):
                return version
        return None

    def __str__(self) -> str:
        return "Luau" if self is Version.LUAU else f"Lua 5.{self.value}"

    def __format__(self, spec: str) -> str:
        return format(str(self), spec)


class Kind(bytes, enum.Enum):
    """What a literal is used for, by the names of include/luck.h. `Kind("pattern")` takes the names of the command, in any case, and `Kind("P")`
    the letter."""

    FORMAT = b"F"
    PATTERN = b"P"
    PACK = b"K"
    PACKSIZE = b"S"
    REPLACEMENT = b"G"
    DATE = b"D"

    @classmethod
    def _missing_(cls, value: object) -> Optional[Kind]:
        word = value.encode() if isinstance(value, str) else value
        for kind in cls:
            if isinstance(word, bytes) and (word == kind.value or word.lower() == kind.name.lower().encode()):
                return kind
        return None


class Number(enum.IntEnum):
    """The numbers of the answers, by the names of include/luck.h, which says what each means."""

    ACCEPTED = 0
    TRUNCATED_SPECIFIER = 1
    UNKNOWN_SPECIFIER = 2
    BAD_FLAG = 3
    BAD_WIDTH = 4
    BAD_PRECISION = 5
    BAD_MODIFIER = 6
    LONG_SPECIFIER = 7
    UNTERMINATED_SET = 8
    EMPTY_SET = 9
    BAD_ESCAPE = 10
    UNMATCHED_CAPTURE = 11
    TOO_MANY_CAPTURES = 12
    BAD_BACK_REFERENCE = 13
    INVALID_PACK_OPTION = 14
    TRUNCATED_PACK_SIZE = 15
    PACK_SIZE_LIMITS = 16
    BAD_PACK_ALIGNMENT = 17
    VARIABLE_LENGTH = 18
    LONE_PERCENT = 19
    BAD_REPLACEMENT = 20
    CAPTURE_INDEX = 21
    BAD_DATE_SPECIFIER = 22
    NOT_UTF8 = 23
    UNDECODABLE = 24
    UNKNOWN_VERSION = 25
    OUTPUT_TOO_SHORT = 26
    STEPS_SPENT = 27
    TOO_DEEP = 28
    RAISED = 29
    UNKNOWN_KIND = 30
    REVERSED_RANGE = 39


# The messages of the Rust crate. It has none for 25 and 30, since a version and a kind are no numbers there.
_REFUSALS = {
    1: "truncated specifier at offset {offset}",
    2: "unknown specifier `%{character}` at offset {offset}",
    3: "too many flags at `{character}` at offset {offset}",
    4: "width too long at offset {offset}",
    5: "precision too long at offset {offset}",
    6: "`%{conversion}` can't take `{modifier}` at offset {offset}",
    7: "specifier too long at offset {offset}",
    8: "unterminated set at offset {offset}",
    9: "empty set at offset {offset}",
    10: "bad escape `%{character}` at offset {offset}",
    11: "unmatched capture at offset {offset}",
    12: "too many captures at offset {offset}",
    13: "back reference names no closed capture at offset {offset}",
    14: "invalid pack option `{character}` at offset {offset}",
    15: "truncated pack size at offset {offset}",
    16: "integer size out of limits at offset {offset}",
    17: "alignment is not a power of 2 at offset {offset}",
    18: "variable-length option `{character}` at offset {offset}",
    19: "ends with a lone `%` at offset {offset}",
    20: "unexpected character after `%`, expected a digit or `%` at offset {offset}",
    21: "capture index is higher than the pattern's capture count at offset {offset}",
    22: "unexpected character after `%`, expected a date specifier or `%` at offset {offset}",
    23: "not UTF-8 at offset {offset}",
    24: "no literal, or an escape that is malformed or that is not read in this version",
    25: "unknown version",
    26: "the value is longer than the output",
    30: "unknown kind",
    39: "reversed range at offset {offset}",
}

_ENDINGS = {
    25: "unknown version",
    26: "the output is full",
    27: "the budget of steps is spent",
    28: "too deep: real Lua raises \"pattern too complex\"",
}

# By the kind, from 1.
_RAISES = [
    "pattern ends with '%'",
    "missing ']'",
    "missing '[' after '%f'",
    "missing arguments to '%b'",
    "invalid pattern capture",
    "unfinished capture",
    "invalid capture index in the pattern",
    "too many captures",
    "invalid use of '%' in the replacement",
    "invalid capture index in the replacement",
]


def _refusal(number: int, offset: int, first: int = 0, second: int = 0) -> str:
    """Why a text is refused; empty where it is not."""
    if number == 0:
        return ""
    sentence = _REFUSALS.get(number, f"refusal {number} at offset {{offset}}")
    return sentence.format(offset=offset, character=chr(first), modifier=chr(first), conversion=chr(second))


def _ending(number: int, kind: int) -> str:
    """Why a trial is not done; empty where it is."""
    if number == 0:
        return ""
    if number == Number.RAISED and 1 <= kind <= len(_RAISES):
        return _RAISES[kind - 1]
    return _ENDINGS.get(number, f"refusal {number}, kind {kind}")


class Answer(NamedTuple):
    """What a check of a body answers."""

    number: int  # 0: accepted; else the refusal
    first: int  # the character that the refusal carries, as a code point; 0 for none
    second: int  # the second one: the conversion of BAD_MODIFIER, else 0
    offset: int  # the byte of the body that is at fault
    count: int  # accepted: arguments, captures or values; else 0

    def __bool__(self) -> bool:
        """Whether it is accepted."""
        return self.number == 0

    @property
    def message(self) -> str:
        """Why it is refused; empty where it is not."""
        return _refusal(self.number, self.offset, self.first, self.second)


class Literal(NamedTuple):
    """What the check of a literal answers."""

    number: int  # 0: accepted or skipped; else the refusal
    first: int  # as in Answer
    second: int  # as in Answer
    skipped: bool  # not checked; all else is 0 and False
    spanned: bool  # start and end hold the span of a fault in the body
    start: int  # the source's offset of the character at fault, at most 4,294,967,295
    end: int  # the offset after that character, or one after start where the fault is inside a character, likewise
    offset: int  # the fault's place in the body; for NOT_UTF8 in the text, its quote included
    count: int  # as in Answer, by the kind

    def __bool__(self) -> bool:
        """Whether it was checked and is accepted."""
        return self.number == 0 and not self.skipped

    @property
    def message(self) -> str:
        """Why it is refused or was not checked; empty where it is accepted."""
        if self.skipped:
            return "not checked: not in two equal quotes, or with an escape `\\0` to `\\9`, `\\x` or `\\u`"
        return _refusal(self.number, self.offset, self.first, self.second)


class Decoded(NamedTuple):
    """What decoding answers, with the value."""

    number: int  # 0: decoded; else the refusal
    offset: int  # for NOT_UTF8 its place in the text; else 0
    value: bytes  # decoded: the value, which need not be UTF-8; else empty

    def __bool__(self) -> bool:
        """Whether it is decoded, the empty value included."""
        return self.number == 0

    @property
    def message(self) -> str:
        """Why it is refused; empty where it is not."""
        return _refusal(self.number, self.offset)


class DecodedInto(NamedTuple):
    """What decoding into a lent output answers."""

    number: int  # as in Decoded
    offset: int  # as in Decoded
    written: int  # decoded: the value's length; else 0

    def __bool__(self) -> bool:
        """As in Decoded."""
        return self.number == 0

    @property
    def message(self) -> str:
        """As in Decoded."""
        return _refusal(self.number, self.offset)


class Trial(NamedTuple):
    """What a trial of gsub answers, with what it wrote."""

    number: int  # 0: done; else 25 to 29
    kind: int  # for RAISED from 1 to 10, as include/luck.h lists them; else 0
    output: bytes  # what was written, in every answer
    replacements: int  # the matches that were replaced, the one at which it stopped included
    steps: int  # the steps taken, at most the budget

    def __bool__(self) -> bool:
        """Whether it is done."""
        return self.number == 0

    @property
    def message(self) -> str:
        """Why it is not done; empty where it is."""
        return _ending(self.number, self.kind)


class TrialInto(NamedTuple):
    """What a trial of gsub into a lent output answers."""

    number: int  # as in Trial
    kind: int  # as in Trial
    written: int  # the bytes written to the front of the output
    replacements: int  # as in Trial
    steps: int  # as in Trial

    def __bool__(self) -> bool:
        """As in Trial."""
        return self.number == 0

    @property
    def message(self) -> str:
        """As in Trial."""
        return _ending(self.number, self.kind)


class _CAnswer(ctypes.Structure):
    _fields_ = [
        ("number", ctypes.c_uint32),
        ("first", ctypes.c_uint32),
        ("second", ctypes.c_uint32),
        ("offset", ctypes.c_size_t),
        ("count", ctypes.c_size_t),
    ]


class _CLiteral(ctypes.Structure):
    _fields_ = [
        ("number", ctypes.c_uint32),
        ("first", ctypes.c_uint32),
        ("second", ctypes.c_uint32),
        ("skipped", ctypes.c_bool),
        ("spanned", ctypes.c_bool),
        ("start", ctypes.c_uint32),
        ("end", ctypes.c_uint32),
        ("offset", ctypes.c_size_t),
        ("count", ctypes.c_size_t),
    ]


class _CDecoded(ctypes.Structure):
    _fields_ = [
        ("number", ctypes.c_uint32),
        ("offset", ctypes.c_size_t),
        ("written", ctypes.c_size_t),
    ]


class _CTrial(ctypes.Structure):
    _fields_ = [
        ("number", ctypes.c_uint32),
        ("kind", ctypes.c_uint32),
        ("written", ctypes.c_size_t),
        ("replacements", ctypes.c_size_t),
        ("steps", ctypes.c_uint32),
    ]


def make_shared_object(archive: Path, shared: Path) -> None:
    """Makes the shared object that Luck loads from libluck.a, with cc."""
    whole = ["-Wl,--whole-archive", os.fspath(archive), "-Wl,--no-whole-archive"]
    subprocess.run(["cc", "-shared", "-o", os.fspath(shared), *whole], check=True)


def _fields(struct: ctypes.Structure) -> List[Any]:
    """The values of a C answer, in the order of its fields, which is that of the named tuple."""
    return [getattr(struct, field[0]) for field in struct._fields_]


def _number(name: str, value: int, largest: int) -> int:
    """The number, if the C type holds it."""
    number = operator.index(value)
    if not 0 <= number <= largest:
        raise OverflowError(f"{name} is {number}, not 0 to {largest}")
    return number


def _version(value: AnyVersion) -> int:
    """The number of a version. Any number is the library's to refuse; a name that is none can't go there."""
    if isinstance(value, str):
        try:
            return Version(value).value
        except ValueError:
            raise ValueError(f"version is {value!r}: write 5.1 to 5.5, luau, or a number from 1 to 6") from None
    if not hasattr(value, "__index__"):
        raise TypeError(f"version is {type(value).__name__}, not one of Version, its name or its number")
    return _number("version", value, UINT32_MAX)


def _letter(kind: Text) -> int:
    """The letter of a kind. Any single byte is the library's to refuse; a name that is none can't go there."""
    word = _bytes("kind", kind)
    if len(word) == 1:
        return word[0]
    try:
        return Kind(word).value[0]
    except ValueError:
        raise ValueError(f"kind is {kind!r}: write format, pattern, pack, packsize, replacement or date, or its letter") from None


def _bytes(name: str, value: Text) -> bytes:
    """The bytes of a text. A bytearray could be changed by another thread; a str with a lone surrogate raises UnicodeEncodeError."""
    if isinstance(value, str):
        return value.encode()
    if not isinstance(value, bytes):
        raise TypeError(f"{name} is {type(value).__name__}, not bytes or str")
    return value


def _text(name: str, value: Text) -> Tuple[bytes, int]:
    """A text's bytes and their count."""
    text = _bytes(name, value)
    return text, len(text)


def _captures(count: Optional[int]) -> Tuple[bool, int]:
    """Whether the count of captures is known, and the count."""
    if count is None:
        return False, 0
    return True, _number("captures", count, SIZE_MAX)


def _output(value: Output) -> Tuple[Any, int]:
    """A lent output and its room. While the first is alive, a bytearray can't change its length."""
    if not isinstance(value, (bytearray, memoryview)):
        raise TypeError(f"output is {type(value).__name__}, not bytearray or memoryview")
    room = memoryview(value).nbytes
    return (ctypes.c_uint8 * room).from_buffer(value), room


def _check(function: Any, version: AnyVersion, body: Text) -> Answer:
    """A C function that checks a body and asks for nothing else."""
    return Answer(*_fields(function(_version(version), *_text("body", body))))


class Luck:
    """The functions of include/luck.h, from a shared object. They keep no state and may run in any number of threads."""

    def __init__(self, path: Path) -> None:
        """Loads the shared object; OSError where it is not there, AttributeError where it lacks a function."""
        # A name without a slash would be looked for in the system's folders only.
        self._library = ctypes.CDLL(os.path.abspath(path))
        u32, size, flag = ctypes.c_uint32, ctypes.c_size_t, ctypes.c_bool
        # c_char_p lends the bytes themselves: nothing is copied, and the length that goes with them counts, not a zero byte.
        text = [ctypes.c_char_p, size]
        output = [ctypes.POINTER(ctypes.c_uint8), size]
        for name in ("format", "pattern", "pack", "packsize", "date"):
            self._declare(f"luck_check_{name}", [u32, *text], _CAnswer)
        self._declare("luck_check_replacement", [u32, flag, size, *text], _CAnswer)
        self._declare("luck_check_literal", [ctypes.c_uint8, u32, flag, size, u32, *text], _CLiteral)
        self._declare("luck_decode_string", [u32, *text, *output], _CDecoded)
        self._declare("luck_gsub_trial", [u32, *text, *text, *text, u32, *output], _CTrial)

    def _declare(self, name: str, arguments: List[Any], answer: Type[ctypes.Structure]) -> None:
        function = getattr(self._library, name)
        function.argtypes = arguments
        function.restype = answer

    def check_format(self, version: AnyVersion, body: Text) -> Answer:
        """A format of string.format; counts the arguments that its specifiers take."""
        return _check(self._library.luck_check_format, version, body)

    def check_pattern(self, version: AnyVersion, body: Text) -> Answer:
        """A pattern of string.find, match, gmatch and gsub; counts its captures, `()` included.

        A range that holds no byte, as in `[z-a]`, is refused (39), though Lua and a trial take it.
        """
        return _check(self._library.luck_check_pattern, version, body)

    def check_pack(self, version: AnyVersion, body: Text) -> Answer:
        """A format of string.pack and unpack; counts its values."""
        return _check(self._library.luck_check_pack, version, body)

    def check_packsize(self, version: AnyVersion, body: Text) -> Answer:
        """A format of string.packsize; counts its values."""
        return _check(self._library.luck_check_packsize, version, body)

    def check_date(self, version: AnyVersion, body: Text) -> Answer:
        """A format of os.date; counts nothing."""
        return _check(self._library.luck_check_date, version, body)

    def check_replacement(self, version: AnyVersion, captures: Optional[int], body: Text) -> Answer:
        """A replacement of string.gsub, with the pattern's count of captures, or None where it is not known; counts nothing."""
        known, count = _captures(captures)
        answer = self._library.luck_check_replacement(_version(version), known, count, *_text("body", body))
        return Answer(*_fields(answer))

    def check_literal(self, kind: Text, version: AnyVersion, captures: Optional[int], start: int, text: Text) -> Literal:
        """A literal with its quotes, at the offset `start` of a source.

        `kind` is one of `Kind`, its name or its letter: "format" or "F", "pattern" or "P", "pack" or "K", "packsize" or "S", "replacement" or
        "G", with `captures`, "date" or "D".
        """
        known, count = _captures(captures)
        place = _number("start", start, UINT32_MAX)
        answer = self._library.luck_check_literal(_letter(kind), _version(version), known, count, place, *_text("text", text))
        return Literal(*_fields(answer))

    def decode_string(self, version: AnyVersion, text: Text) -> Decoded:
        """The bytes that a literal stands for: short in two equal quotes, or in long brackets. They need not be UTF-8."""
        # A value is never longer than its literal.
        output = bytearray(_text("text", text)[1])
        number, offset, written = self.decode_string_into(version, text, output)
        return Decoded(number, offset, bytes(output[:written]))

    def decode_string_into(self, version: AnyVersion, text: Text, output: Output) -> DecodedInto:
        """Writes the bytes that a literal stands for to the front of `output`; the rest of it stays as it was."""
        lent, room = _output(output)
        answer = self._library.luck_decode_string(_version(version), *_text("text", text), lent, room)
        return DecodedInto(*_fields(answer))

    def gsub_trial(
        self,
        version: AnyVersion,
        pattern: Text,
        replacement: Text,
        subject: Text,
        budget: int = DEFAULT_BUDGET,
        room: int = DEFAULT_ROOM,
    ) -> Trial:
        """string.gsub(subject, pattern, replacement), within `budget` steps and `room` bytes of output.

        It goes by the rules of 5.4 in every version; but for replacements that only 5.1 takes, its answer does not depend on the version. Lua
        5.1 and 5.2 themselves also replace an empty match right after a match, and in 5.1 `%g` is the letter g (docs/DIFFERENCES.md).

        It takes up to 140 KiB of stack: a thread with less than 512 KiB (threading.stack_size) must not call it.
        """
        size = _number("room", room, SIZE_MAX)
        # Pages that are not written to take no memory, however large the room is; none is no size for it.
        output = memoryview(mmap.mmap(-1, max(size, 1)))[:size]
        answer = self.gsub_trial_into(version, pattern, replacement, subject, budget, output)
        return Trial(answer.number, answer.kind, bytes(output[: answer.written]), answer.replacements, answer.steps)

    def gsub_trial_into(
        self, version: AnyVersion, pattern: Text, replacement: Text, subject: Text, budget: int, output: Output
    ) -> TrialInto:
        """The same, to the front of `output`; the rest of it stays as it was. It takes as much stack."""
        texts = (*_text("pattern", pattern), *_text("replacement", replacement), *_text("subject", subject))
        steps = _number("budget", budget, UINT32_MAX)
        lent, room = _output(output)
        return TrialInto(*_fields(self._library.luck_gsub_trial(_version(version), *texts, steps, lent, room)))
