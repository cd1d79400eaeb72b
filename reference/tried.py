#!/usr/bin/env python3
"""Runs the tried sheets and prints them as a small table."""

from __future__ import annotations

from typing import Iterator, NamedTuple

from catalogue import LIST_SUM, PRICE_TIMES_COUNT
from program_text import Fault, Program, check
from rows import render, rows
from sheet import EMPTY, TOO_LARGE, Content, Number, Refused, Sheet, cell

# Reads input 0, then input 1; the last function has the second number before
# the first.
OF_TWO_INPUTS = (
    "INP 2 0; RUN 0 1; FUN 2 2 2; GET 0 1 1; FUN 2 1 2; GET 1 2 0; FUN 2 1 1; {} 1 0; PUT 2"
)

LIST_SUM_INPUTS = (Number(7), Number(8), cell(0, 3), cell(1, 4), EMPTY)
LIMIT = 10


class Tried(NamedTuple):
    """One settle: what was done, what it answered, and the result."""

    done: str
    answer: str
    result: str

    def __str__(self) -> str:
        return f"{self.done:<42}{self.answer:<24}{self.result}".rstrip()


def program(close: str) -> Program:
    """The program of a text written close, which must have no fault."""
    outcome = check(render(rows(close)))
    if isinstance(outcome, Fault):
        raise ValueError(outcome)
    return outcome


def sheet_of(close: str, limit: int, *inputs: Content) -> Sheet:
    """A new sheet with all its inputs posted."""
    sheet = Sheet(program(close), limit)
    for number, content in enumerate(inputs):
        sheet.post(number, content)
    return sheet


def tried(done: str, sheet: Sheet) -> Tried:
    """Settles a sheet."""
    try:
        answer = str(sheet.settle())
    except Refused as refused:
        if refused.number != TOO_LARGE:
            raise
        return Tried(done, f"too large ({refused.number})", "")
    return Tried(done, answer, "result " + " ".join(map(str, sheet.result()[1:])))


def price_times_count() -> Iterator[object]:
    """A first settle with its listing, then three more settles of the same sheet."""
    sheet = sheet_of(PRICE_TIMES_COUNT, LIMIT, Number(6), Number(25))
    yield tried("price times count, inputs 6 and 25", sheet)
    for line in sheet.listing():
        yield f"    {line}"
    sheet.post(1, Number(30))
    yield tried("then input 1 to 30", sheet)
    sheet.post(0, Number(5))
    yield tried("then input 0 to 5", sheet)
    sheet.post(1, Number(31))
    sheet.post(1, Number(30))
    yield tried("then input 1 to 31 and back to 30", sheet)


def list_sum() -> Iterator[object]:
    """The sum of a list of two numbers, at its limit, below it, and changed."""
    sheet = sheet_of(LIST_SUM, LIMIT, *LIST_SUM_INPUTS)
    yield tried(f"list sum, L {LIMIT}", sheet)
    sheet.post(1, Number(9))
    yield tried("from the 15, input 1 to 9", sheet)
    sheet = sheet_of(LIST_SUM, LIMIT, *LIST_SUM_INPUTS)
    sheet.settle()
    sheet.post(3, EMPTY)
    yield tried("from the 15 instead, input 3 to empty", sheet)
    below = LIMIT - 1
    yield tried(f"list sum, L {below}", sheet_of(LIST_SUM, below, *LIST_SUM_INPUTS))


def arithmetic() -> Iterator[object]:
    """A sum beyond an end, and a quotient with a fraction."""
    for done, word, a, b in (("2147483647 + 1", "ADD", 2147483647, 1), ("-7 by 2", "DIV", -7, 2)):
        sheet = sheet_of(OF_TWO_INPUTS.format(word), LIMIT, Number(a), Number(b))
        yield tried(done, sheet)


def table() -> list[str]:
    """All lines of the table."""
    return [str(line) for part in (price_times_count, list_sum, arithmetic) for line in part()]


def main() -> None:
    """Prints the table."""
    print("\n".join(table()))


if __name__ == "__main__":
    main()
