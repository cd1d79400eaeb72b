#!/usr/bin/env python3
"""Reference for the program `stocksheet`: a journal in, the answers out.

A journal is a sequence of lines, each of them one call; words are separated
by single spaces.  An empty line and a line that begins with `#` are passed
over.  Every other line is answered by the line itself, a colon, a space, what
the call answered, and byte 10.  Bytes are arbitrary, so all work is on bytes.

One call is known so far:

    text    the lines that follow, up to a line that is just `.`, are a
            program text, which is checked

Any other line is `not a call`.
"""

from __future__ import annotations

import sys
from itertools import takewhile
from typing import Callable, Iterator, Sequence

from program_text import Fault, check

NEWLINE = b"\n"
COMMENT = b"#"
TEXT_END = b"."


class NotACall(Exception):
    """Raised by a call whose words do not fit it."""


def journal_lines(journal: bytes) -> Iterator[bytes]:
    """The lines of a journal, each with the byte 10 that it has."""
    *ended, rest = journal.split(NEWLINE)
    yield from (line + NEWLINE for line in ended)
    if rest:
        yield rest


def bare(line: bytes) -> bytes:
    """A line without its byte 10."""
    return line.removesuffix(NEWLINE)


class Session:
    """One reading of a journal, from its first line to its last."""

    def __init__(self, journal: bytes) -> None:
        self.lines = journal_lines(journal)
        self.calls: dict[bytes, Callable[[Sequence[bytes]], bytes]] = {
            b"text": self.text,
        }

    def answers(self) -> Iterator[bytes]:
        """The answers to all calls, in order."""
        for line in map(bare, self.lines):
            if line and not line.startswith(COMMENT):
                yield line + b": " + self.answer(line) + NEWLINE

    def answer(self, line: bytes) -> bytes:
        """What the call in this line answers."""
        word, *arguments = line.split(b" ")
        try:
            if word not in self.calls:
                raise NotACall
            return self.calls[word](arguments)
        except NotACall:
            return b"not a call"

    def text(self, arguments: Sequence[bytes]) -> bytes:
        """Checks the text in the lines that follow."""
        if arguments:
            raise NotACall
        body = takewhile(lambda line: bare(line) != TEXT_END, self.lines)
        outcome = check(b"".join(body))
        if isinstance(outcome, Fault):
            told = f"fault {outcome.number} line {outcome.line} layer {outcome.layer}"
        else:
            functions, steps = len(outcome.functions), outcome.step_count
            told = f"accepted {functions} functions {steps} steps"
        return told.encode("ascii")


def answer_journal(journal: bytes) -> bytes:
    """The answers to a whole journal."""
    return b"".join(Session(journal).answers())


def main() -> None:
    """Reads a journal on standard input and writes the answers."""
    sys.stdout.buffer.write(answer_journal(sys.stdin.buffer.read()))


if __name__ == "__main__":
    main()
