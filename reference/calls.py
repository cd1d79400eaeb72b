"""The calls of a journal, read from their lines.

A line is one call.  Its words are separated by single spaces, so a space too
many makes an empty word, which is no word of any call.  Whether a line is a
call is decided here, from the line alone: nothing is known of any sheet.

A number is written as its decimal, without leading zeros and without a plus;
where it may be negative, a minus stands directly before the digits, and `-0`
is no number.
"""

from __future__ import annotations

import re
from typing import Any, Callable, NamedTuple, Sequence

from sheet import EMPTY, NUMBER_LEAST, NUMBER_MOST, Content, Number, cell

SPACE = b" "

# Numbers of sheets, limits, inputs and lines are of one type; a content has
# numbers of another.  The digits are bounded here, the values further down.
SMALL = re.compile(rb"0|[1-9][0-9]{0,4}")
SMALL_MOST = 65_535
SIGNED = re.compile(rb"0|-?[1-9][0-9]{0,9}")

MAKES_OF_LIST = (b"renumbering", b"tagrange")


class NotACall(Exception):
    """Raised where a line is none of the calls."""


class Call(NamedTuple):
    """A call: its word, and its arguments as values."""

    word: bytes
    arguments: tuple[Any, ...]


def read_call(line: bytes) -> Call:
    """The call that a line is, given without its byte 10."""
    word, *words = line.split(SPACE)
    if word not in READERS:
        raise NotACall
    return Call(word, READERS[word](words))


# --- single words ---------------------------------------------------------


def small(word: bytes) -> int:
    """A number from 0 to 65535."""
    if not SMALL.fullmatch(word) or int(word) > SMALL_MOST:
        raise NotACall
    return int(word)


def signed(word: bytes) -> int:
    """A number that a content can have."""
    if not SIGNED.fullmatch(word) or not NUMBER_LEAST <= int(word) <= NUMBER_MOST:
        raise NotACall
    return int(word)


def make_of_list(word: bytes) -> bytes:
    """The name of one of the two makes of order list."""
    if word not in MAKES_OF_LIST:
        raise NotACall
    return word


# --- the words behind the first -------------------------------------------


def exactly(words: Sequence[bytes], *readers: Callable[[bytes], Any]) -> tuple[Any, ...]:
    """As many words as readers, each read by its own."""
    if len(words) != len(readers):
        raise NotACall
    return tuple(reader(word) for reader, word in zip(readers, words))


def no_arguments(words: Sequence[bytes]) -> tuple[Any, ...]:
    return exactly(words)


def make_arguments(words: Sequence[bytes]) -> tuple[Any, ...]:
    """NUMBER LIMIT LIST"""
    return exactly(words, small, small, make_of_list)


def post_arguments(words: Sequence[bytes]) -> tuple[Any, ...]:
    """INPUT CONTENT"""
    return (*exactly(words[:1], small), content(words[1:]))


def line_arguments(words: Sequence[bytes]) -> tuple[Any, ...]:
    """R"""
    return exactly(words, small)


def content(words: Sequence[bytes]) -> Content:
    """A number, `empty`, or `cell` and the numbers of two inputs."""
    if words[:1] == [b"cell"]:
        return cell(*exactly(words[1:], small, small))
    if words == [b"empty"]:
        return EMPTY
    return Number(*exactly(words, signed))


READERS: dict[bytes, Callable[[Sequence[bytes]], tuple[Any, ...]]] = {
    b"text": no_arguments,
    b"make": make_arguments,
    b"open": no_arguments,
    b"post": post_arguments,
    b"withdraw": no_arguments,
    b"settle": no_arguments,
    b"result": no_arguments,
    b"line": line_arguments,
    b"listing": no_arguments,
}
