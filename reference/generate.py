#!/usr/bin/env python3
"""Writes a journal of program texts, good and damaged, to standard output.

    generate.py --start N --texts K

The same start number and count always give the same journal.  The texts
written by hand come first; random ones, and random damage to them, fill up to
the count.  The last text is one without its final byte 10, which only the
end of a journal can hold.  A comment before each text says what it is and,
where that is known without running anything, what the answer must be.
Between the texts stand some lines that are no calls.
"""

from __future__ import annotations

import argparse
import sys
from itertools import cycle, islice
from random import Random
from typing import Callable, Iterator, Sequence

from catalogue import LIST_SUM, catalogue
from damage import DAMAGES, UNKNOWN_ANSWERS
from rows import Case, Row, fault, render, rows
from wellformed import FUNCTIONS_MOST, STEPS_MOST, any_sheet, full_sheet

TEXT_END = b"."

NO_CALLS = (
    b"make 7 10 tagrange", b"make 65535 512 renumbering", b"open", b"post 0 6",
    b"post 1 empty", b"post 2 cell 0 3", b"withdraw", b"settle", b"book 4 1 25", b"turn 9",
    b"result", b"line 0", b"listing", b"audit", b".", b"..", b"text ", b" text", b"text 1",
    b"text  ", b"Text", b"TEXT", b"texts", b"tex", b"text\r", b"text\t", b"text#", b"text.",
    b" ", b"  #", b" # no comment", b"\t", b"\r", b"\x00", b"\xff", b"\xc3\xa4\xc3\xb6",
    b"\x80text", b"text\x80", b"\xef\xbb\xbftext", b"INP     1     0", b"NIL", b": not a call",
    b"text: accepted 1 functions 2 steps", b"0", b"-1", b"?", b"exit", b"a" * 300,
)
PASSED_OVER = (b"", b"#", b"# text", b"#text", b"##", b"#\xff\x00", b"")


def cases(start: int, count: int) -> list[Case]:
    """So many texts, the last of them without its final byte 10."""
    rng = Random(start)
    found = list(islice(all_but_last(rng), count - 1))
    found.append(unended(rows(LIST_SUM), "no byte 10 at the end"))
    return found


def all_but_last(rng: Random) -> Iterator[Case]:
    """The texts written by hand, those at the limits, and then any number."""
    yield from catalogue()
    yield from limit_cases(rng)
    for maker in cycle((good, *(damaged(n) for n in DAMAGES), good, any_unknown)):
        one = maker(rng)
        if writable(one.text):
            yield one


def writable(text: bytes) -> bool:
    """Whether a journal can hold this text with more behind it."""
    return TEXT_END not in text.split(b"\n") and text[-1:] in (b"", b"\n")


def good(rng: Random) -> Case:
    """A random text without a fault."""
    sheet = any_sheet(rng)
    return Case("random program", sheet.text, sheet.answer)


def damaged(number: int) -> Callable[[Random], Case]:
    """A maker of random texts with this fault."""

    def maker(rng: Random) -> Case:
        found = None
        while found is None:
            found = rng.choice(DAMAGES[number])(rng, any_sheet(rng))
        return found

    return maker


def any_unknown(rng: Random) -> Case:
    """A random text whose answer is not known beforehand."""
    return rng.choice(UNKNOWN_ANSWERS)(rng, any_sheet(rng))


def limit_cases(rng: Random) -> Iterator[Case]:
    """Random programs with as many functions or steps as there may be."""
    for functions, steps in ((64, 512), (33, 512), (64, 64), (64, 130), (50, 400)):
        sheet = full_sheet(rng, functions, steps)
        note = f"random program of {functions} functions and {steps} steps"
        yield Case(note, sheet.text, sheet.answer)
    extra = render(rows("FUN 3; NIL"))
    sheet = full_sheet(rng, FUNCTIONS_MOST, 200)
    line = len(sheet.rows) + 1
    yield Case("random program with a 65th function", sheet.text + extra, fault(6, line))
    sheet = full_sheet(rng, 40, STEPS_MOST)
    line = len(sheet.rows) + 2
    yield Case("random program with a 513th step", sheet.text + extra, fault(6, line))


def unended(parts: Sequence[Row], note: str) -> Case:
    """A text whose last line lacks its byte 10."""
    return Case(note, render(parts)[:-1], fault(1, len(parts)))


def journal(start: int, count: int) -> bytes:
    """The journal of the texts, with comments and lines that are no calls."""
    rng = Random(start)
    pieces = [b"# Program texts, good and damaged.\n"]
    strays = list(NO_CALLS)
    found = cases(start, count)
    for number, one in enumerate(found, 1):
        if rng.random() < 0.2:
            pieces.append(rng.choice(PASSED_OVER) + b"\n")
        if rng.random() < 0.2:
            line = strays.pop(0) if strays else rng.choice(NO_CALLS)
            pieces.append(line + b"\n")
        answer = f": {one.expected}" if one.expected else ""
        pieces.append(f"# {number}. {one.note}{answer}\n".encode("ascii"))
        pieces.append(b"text\n" + one.text)
        if number < len(found):
            pieces.append(TEXT_END + b"\n")
    return b"".join(pieces)


def main() -> None:
    """Reads the options and writes the journal."""
    parser = argparse.ArgumentParser(description="write a journal of program texts")
    parser.add_argument(
        "--start", type=int, required=True, help="start number of the random source"
    )
    parser.add_argument("--texts", type=int, required=True, help="how many texts, at least 1")
    options = parser.parse_args()
    if options.texts < 1:
        parser.error("--texts must be at least 1")
    sys.stdout.buffer.write(journal(options.start, options.texts))


if __name__ == "__main__":
    main()
