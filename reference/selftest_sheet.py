#!/usr/bin/env python3
"""Tests of the reference of sheets.

The first classes hold examples worked out by hand from the rules.  The last
ones go through random sheets: after each settle by turns the result and the
listing must be those of a new sheet run anew on the same inputs, one is too
large exactly when the other is, and the counts must be those that a comparison
of the records before and after tells.
"""

from __future__ import annotations

import unittest
from collections import Counter
from random import Random
from typing import Optional, Sequence

import tried
import wellformed
from catalogue import COPY_LIST, ENDLESS, LIST_SUM, PRICE_TIMES_COUNT
from lively import lively_text
from program_text import Fault, Kind, Program, check
from sheet import (
    ANEW,
    BY_TURNS,
    EMPTY,
    TOO_LARGE,
    Cell,
    Content,
    Modifiable,
    New,
    Number,
    Read,
    Refused,
    Settled,
    Sheet,
    calculate,
    cell,
    in_order,
    stamps,
)
from tried import LIST_SUM_INPUTS, program, sheet_of

LEAST, MOST = -2147483648, 2147483647

# Makes a list of one number, then reads it.  To make it, an input is read, and
# behind that read the modifiables are made that the cell names.
MADE_BEHIND_THE_READ = (
    "INP 1 0; RUN 0; FUN 2 2; NEW 1 0; CAS 1 4 5; FUN 3 2; GET 0 2;"
    "FUN 3 1; LIT 7; NEW 3 1; NEW 6; CON 2 3;"
    "FUN 2 1; PUT 0; FUN 2; LIT 0; PUT 0; FUN 2 2 3; GET 0 3; FUN 3; NIL"
)
# The same, but what the cell names is made before the input is read.
MADE_BEFORE_THE_READ = (
    "INP 1 0; RUN 0; FUN 2 2; NEW 1 0; CAS 1 4 5; FUN 3 2; LIT 7; NEW 3 1; NEW 6; GET 0 2 2 3;"
    "FUN 3 1 2 3; CON 1 2;"
    "FUN 2 1; PUT 0; FUN 2; LIT 0; PUT 0; FUN 2 2 3; GET 0 3; FUN 3; NIL"
)
# The heads of the first list, then the second list.
APPEND = (
    "INP 4 6; RUN 4 5; FUN 3 3 3; CAS 0 1 2 1; FUN 3 3; CAS 0 3 4; FUN 3 2 3 3; NEW 0 1 2;"
    "CON 0 3; FUN 3; NIL; FUN 3 2 3; CON 0 1"
)
# The list turned round, by way of a second list that grows.
REVERSE = (
    "INP 4 6; RUN 4; FUN 3 3; NEW 3; CAS 0 1 2 1; FUN 3 3; CAS 0 3 4; FUN 3 2 3 3; NEW 4 0 2;"
    "CAS 1 1 2 3; FUN 3; NIL; FUN 3 2 3; CON 0 1"
)
# The sum, carried along as a number.
CARRIED_SUM = (
    "INP 4 6; RUN 4; FUN 2 3; LIT 0; CAS 0 1 2 1; FUN 2 1; PUT 0; FUN 2 2 3 1; GET 0 3 1 2;"
    "FUN 2 1 3 1; ADD 0 2; CAS 1 1 2 3"
)
# The sum of a list that is itself made: each number doubled.
SUM_OF_DOUBLES = (
    "INP 4 6; RUN 4; FUN 2 3; NEW 5 0; CAS 1 1 2; FUN 2; LIT 0; PUT 0; FUN 2 2 3; NEW 9 1;"
    "GET 0 3 2; FUN 2 1 2; GET 1 4 0; FUN 2 1 1; ADD 0 1; PUT 2;"
    "FUN 3 3; CAS 0 6 7; FUN 3; NIL; FUN 3 2 3; NEW 8 0; NEW 5 1; CON 2 3; FUN 2 2; GET 0 10;"
    "FUN 2 3; CAS 0 1 2; FUN 2 1; ADD 0 0; PUT 1"
)
WIDE_SUM = LIST_SUM.replace("INP 2 3; RUN 2", "INP 4 6; RUN 4")
WIDE_COPY = COPY_LIST.replace("INP 3 4; RUN 6", "INP 4 6; RUN 4")
LIST_PROGRAMS = (WIDE_SUM, WIDE_COPY, APPEND, REVERSE, CARRIED_SUM, SUM_OF_DOUBLES)


def outcome(sheet: Sheet) -> Optional[Settled]:
    """What a settle answers, or None if the sheet is too large."""
    try:
        return sheet.settle()
    except Refused as refused:
        if refused.number != TOO_LARGE:
            raise
        return None


def lines(sheet: Sheet) -> list[str]:
    """The listing, a text for each line."""
    return [str(line) for line in sheet.listing()]


class SheetTest(unittest.TestCase):
    """Base of tests that settle sheets."""

    def settles(self, sheet: Sheet, answer: tuple[int, ...], result: tuple[int, ...]) -> None:
        """Holds a settle against (mark, E, M, S) and the result."""
        self.assertEqual(sheet.settle(), answer)
        self.assertEqual(sheet.result(), result)

    def too_large(self, sheet: Sheet) -> None:
        """A settle that is too large; the trace is gone, the inputs stay."""
        inputs = list(sheet.inputs)
        with self.assertRaises(Refused) as raised:
            sheet.settle()
        self.assertEqual(raised.exception.number, 21)
        self.assertIsNone(sheet.trace)
        self.assertEqual(sheet.inputs, inputs)


class TriedSheets(SheetTest):
    def test_price_times_count(self):
        sheet = sheet_of(PRICE_TIMES_COUNT, 10, Number(6), Number(25))
        self.settles(sheet, (2, 0, 3, 3), (1, 150))
        self.assertEqual(
            lines(sheet),
            ["NEW 0 3 0 1 150 0 1", "GET 1 3 0 1000 1 6 1", "GET 2 3 1 1000 2 25 6"],
        )
        sheet.post(1, Number(30))
        self.settles(sheet, (1, 1, 0, 3), (1, 180))
        sheet.post(0, Number(5))
        self.settles(sheet, (1, 1, 1, 3), (1, 150))
        sheet.post(1, Number(31))
        sheet.post(1, Number(30))
        self.settles(sheet, (1, 0, 0, 3), (1, 150))

    def test_list_sum(self):
        sheet = sheet_of(LIST_SUM, 10, *LIST_SUM_INPUTS)
        self.settles(sheet, (2, 0, 10, 10), (1, 15))
        self.assertEqual(
            lines(sheet),
            [
                "NEW 0 10 0 1 15 2", "CAS 1 10 2 1000 2 0 3", "NEW 2 8 0 1 8 3",
                "CAS 3 8 3 1002 2 1 4", "NEW 4 6 0 1 0 4", "CAS 5 6 4 1004 1",
                "GET 6 8 1 1002 3 8 1004", "GET 7 8 1004 1002 4 0 8",
                "GET 8 10 0 1000 3 7 1002", "GET 9 10 1002 1000 4 8 7",
            ],
        )
        self.too_large(sheet_of(LIST_SUM, 9, *LIST_SUM_INPUTS))

    def test_from_the_15(self):
        sheet = sheet_of(LIST_SUM, 10, *LIST_SUM_INPUTS)
        sheet.settle()
        sheet.post(1, Number(9))
        self.settles(sheet, (1, 2, 1, 10), (1, 16))
        sheet = sheet_of(LIST_SUM, 10, *LIST_SUM_INPUTS)
        sheet.settle()
        sheet.post(3, EMPTY)
        self.settles(sheet, (1, 2, 0, 6), (1, 7))

    def test_the_table(self):
        spaced = [" ".join(line.split()) for line in tried.table()]
        self.assertEqual(
            spaced,
            [
                "price times count, inputs 6 and 25 mark 2 E 0 M 3 S 3 result 150",
                "NEW 0 3 0 1 150 0 1",
                "GET 1 3 0 1000 1 6 1",
                "GET 2 3 1 1000 2 25 6",
                "then input 1 to 30 mark 1 E 1 M 0 S 3 result 180",
                "then input 0 to 5 mark 1 E 1 M 1 S 3 result 150",
                "then input 1 to 31 and back to 30 mark 1 E 0 M 0 S 3 result 150",
                "list sum, L 10 mark 2 E 0 M 10 S 10 result 15",
                "from the 15, input 1 to 9 mark 1 E 2 M 1 S 10 result 16",
                "from the 15 instead, input 3 to empty mark 1 E 2 M 0 S 6 result 7",
                "list sum, L 9 too large (21)",
                "2147483647 + 1 mark 2 E 0 M 3 S 3 result 2147483647",
                "-7 by 2 mark 2 E 0 M 3 S 3 result -3",
            ],
        )


class Arithmetic(SheetTest):
    CASES = (
        ("ADD", MOST, 1, MOST), ("ADD", LEAST, -1, LEAST), ("ADD", MOST, LEAST, -1),
        ("SUB", LEAST, 1, LEAST), ("SUB", 0, LEAST, MOST), ("SUB", 3, 5, -2),
        ("MUL", 65536, 32768, MOST), ("MUL", 65536, -32768, LEAST), ("MUL", LEAST, LEAST, MOST),
        ("MUL", -4, 5, -20), ("MUL", LEAST, MOST, LEAST),
        ("DIV", -7, 2, -3), ("DIV", 7, -2, -3), ("DIV", -7, -2, 3), ("DIV", 7, 2, 3),
        ("DIV", 7, 0, 0), ("DIV", LEAST, 0, 0), ("DIV", 0, 0, 0), ("DIV", -1, 2, 0),
        ("DIV", LEAST, -1, MOST), ("DIV", MOST, LEAST, 0), ("DIV", LEAST, MOST, -1),
        ("MIN", -3, 2, -3), ("MIN", 2, -3, -3), ("MAX", -3, 2, 2), ("MAX", 2, -3, 2),
    )  # fmt: skip

    def test_cases(self):
        for word, a, b, expected in self.CASES:
            with self.subTest(word=word, a=a, b=b):
                self.assertEqual(calculate(word.encode(), a, b), expected)
                close = tried.OF_TWO_INPUTS.format(word)
                sheet = sheet_of(close, 3, Number(a), Number(b))
                self.settles(sheet, (2, 0, 3, 3), (1, expected))


class Contents(SheetTest):
    def test_equality(self):
        self.assertEqual(Number(3), Number(3))
        self.assertEqual(cell(1, 2), cell(1, 2))
        different = [Number(0), Number(1), EMPTY, cell(0, 0), cell(0, 1), cell(1, 0)]
        for i, one in enumerate(different):
            for k, other in enumerate(different):
                self.assertEqual(one == other, i == k)

    def test_a_cell_away_and_back(self):
        sheet = sheet_of(LIST_SUM, 10, *LIST_SUM_INPUTS)
        sheet.settle()
        sheet.post(2, EMPTY)
        sheet.post(2, cell(0, 3))
        self.settles(sheet, (1, 0, 0, 10), (1, 15))

    def test_a_cell_that_names_others_with_the_same_contents(self):
        sheet = sheet_of(LIST_SUM, 10, Number(8), *LIST_SUM_INPUTS[1:])
        self.settles(sheet, (2, 0, 10, 10), (1, 16))
        sheet.post(3, cell(0, 4))  # another head that holds 8 as well
        # Its sum is written again as 8, so the read of that sum is kept.
        self.settles(sheet, (1, 1, 4, 10), (1, 16))

    def test_a_cell_made_anew_is_not_equal(self):
        sheet = sheet_of(MADE_BEHIND_THE_READ, 7, Number(1))
        self.settles(sheet, (2, 0, 7, 7), (1, 7))
        expected = [
            "NEW 0 7 0 1 7 0", "NEW 1 5 1 3 1003 1004 0", "GET 2 5 0 1001 2 1",
            "NEW 3 4 3 1 7 7", "NEW 4 5 6 2", "CAS 5 7 1001 1000 5 1003 1004",
            "GET 6 7 1003 1000 3 7",
        ]  # fmt: skip
        self.assertEqual(lines(sheet), expected)
        before = self.content_of(sheet, 1)
        sheet.post(0, Number(2))
        self.settles(sheet, (1, 2, 3, 7), (1, 7))
        expected[2] = "GET 2 5 0 1001 2 2"
        self.assertEqual(lines(sheet), expected)
        self.assertNotEqual(self.content_of(sheet, 1), before)

    def content_of(self, sheet: Sheet, r: int) -> Content:
        """The content of record r's modifiable."""
        return sheet.trace.contents[in_order(sheet.trace.root)[r].modifiable]

    def test_a_cell_of_kept_modifiables_is_equal(self):
        sheet = sheet_of(MADE_BEFORE_THE_READ, 7, Number(1))
        self.settles(sheet, (2, 0, 7, 7), (1, 7))
        before = self.content_of(sheet, 1)
        sheet.post(0, Number(2))
        self.settles(sheet, (1, 1, 0, 7), (1, 7))
        self.assertEqual(self.content_of(sheet, 1), before)

    def test_results_are_named(self):
        sheet = sheet_of(APPEND, 20)
        self.settles(sheet, (2, 0, 3, 3), (2,))
        sheet.post(5, cell(3, 9))
        self.settles(sheet, (1, 1, 0, 3), (3, 3, 9))
        sheet.post(4, cell(2, 6))
        self.settles(sheet, (1, 1, 3, 5), (3, 2, 1002))
        self.assertEqual(lines(sheet)[2:], [
            "NEW 2 5 0 3 3 9 6 5", "CAS 3 5 6 1002 1 5", "CAS 4 5 5 1002 4 3 9",
        ])  # fmt: skip


class Endless(SheetTest):
    def test_programs_without_end(self):
        for close in (
            ENDLESS,
            "INP 1 0; RUN; FUN 2; NEW 0; LIT 1; PUT 1",
            "INP 1 0; RUN 0; FUN 2 2; GET 0 1 0; FUN 2 1 2; GET 1 1 1",
        ):
            for limit in (1, 2, 3, 511, 512):
                self.too_large(Sheet(program(close), limit))

    def test_cyclic_lists(self):
        loops = ({2: (0, 2)}, {2: (0, 3), 3: (1, 2)}, {2: (0, 3), 3: (1, 4), 4: (1, 3)})
        for loop in loops:
            sheet = sheet_of(LIST_SUM, 512, *LIST_SUM_INPUTS)
            self.settles(sheet, (2, 0, 10, 10), (1, 15))
            for number, (head, tail) in loop.items():
                sheet.post(number, cell(head, tail))
            self.too_large(sheet)
            sheet.post(2, EMPTY)
            self.settles(sheet, (2, 0, 2, 2), (1, 0))

    def test_a_cyclic_list_read_in_part(self):
        close = (
            "INP 1 1; RUN 1; FUN 3 3; CAS 0 1 2; FUN 3; NIL; FUN 3 2 3; CAS 1 1 3;"
            "FUN 3 2 3; CON 0 1"
        )
        sheet = sheet_of(close, 3, Number(4), cell(0, 1))
        self.settles(sheet, (2, 0, 3, 3), (3, 0, 1))
        self.assertEqual(lines(sheet), [
            "NEW 0 3 0 3 0 1 1", "CAS 1 3 1 1000 2 0 1", "CAS 2 3 1 1000 3 0 1",
        ])  # fmt: skip
        sheet.post(1, EMPTY)
        self.settles(sheet, (1, 1, 0, 2), (2,))

    def test_a_cycle_that_nothing_reads(self):
        sheet = sheet_of(LIST_SUM, 10, *LIST_SUM_INPUTS)
        sheet.post(2, cell(1, 4))
        sheet.post(3, cell(0, 3))
        self.settles(sheet, (2, 0, 6, 6), (1, 8))


class Limits(SheetTest):
    def test_the_limit_is_exact(self):
        for length in range(6):
            needed = 4 * length + 2
            for limit in range(max(1, needed - 2), needed + 3):
                sheet = list_sheet(WIDE_SUM, limit, [1] * length)
                if limit < needed:
                    self.too_large(sheet)
                else:
                    self.settles(sheet, (2, 0, needed, needed), (1, length))

    def test_the_deepest_runs(self):
        chain = ";".join(f"FUN 2 1 2; GET 1 {f + 1} 1" for f in range(1, 60))
        close = f"INP 1 0; RUN 0; FUN 2 2; GET 0 1 0; {chain}; FUN 2 1 2; PUT 0"
        sheet = sheet_of(close, 61, Number(5))
        self.settles(sheet, (2, 0, 61, 61), (1, 5))
        sheet.post(0, Number(6))
        self.settles(sheet, (1, 1, 59, 61), (1, 6))
        self.too_large(sheet_of(close, 60, Number(5)))
        self.too_large(Sheet(program(ENDLESS), 512))

    def test_old_and_new_records_together_may_pass_the_limit(self):
        sheet = list_sheet(WIDE_SUM, 22, [1] * 5)
        self.settles(sheet, (2, 0, 22, 22), (1, 5))
        sheet.post(4, cell(3, 5))  # a head that holds 0
        self.settles(sheet, (1, 1, 20, 22), (1, 4))

    def test_refusals(self):
        for limit in (0, -1, 513):
            self.refused(11, Sheet, program(LIST_SUM), limit)
        sheet = sheet_of(LIST_SUM, 10, *LIST_SUM_INPUTS)
        for number in (-1, 5, 999):
            self.refused(14, sheet.post, number, Number(1))
        for number, content in ((0, EMPTY), (1, cell(0, 2)), (1, cell(9, 9)), (2, Number(0))):
            self.refused(15, sheet.post, number, content)
        for head, tail in ((2, 2), (0, 0), (5, 2), (0, 5), (-1, 2), (0, -1)):
            self.refused(16, sheet.post, 2, cell(head, tail))
        self.assertEqual(sheet.inputs, list(LIST_SUM_INPUTS))
        sheet.settle()
        self.assertEqual(str(sheet.line(9)), "GET 9 10 1002 1000 4 8 7")
        for r in (-1, 10):
            self.refused(24, sheet.line, r)

    def refused(self, number: int, call, *arguments) -> None:
        with self.assertRaises(Refused) as raised:
            call(*arguments)
        self.assertEqual(raised.exception.number, number)


# --- lists against plain Python -------------------------------------------


def list_sheet(close: str, limit: int, numbers: Sequence[int]) -> Sheet:
    """A sheet of four numbers and six lists whose input 4 is a list of up to five.

    The heads are the inputs 0 to 3, taken in turn by what they hold.
    """
    sheet = Sheet(program(close), limit)
    for number, value in enumerate(dict.fromkeys(numbers)):
        sheet.post(number, Number(value))
    for place, value in enumerate(numbers):
        sheet.post(4 + place, cell(sheet.inputs.index(Number(value)), 5 + place))
    return sheet


def list_held(sheet: Sheet) -> list[int]:
    """The numbers of the list that record 0 holds."""
    contents = sheet.trace.contents
    found = []
    content = contents[sheet.trace.root.modifiable]
    while isinstance(content, Cell):
        found.append(contents[content.head].value)
        content = contents[content.tail]
    return found


class ListPrograms(SheetTest):
    LISTS = ([], [5], [5, 7], [7, 5], [5, 5, 5], [3, 1, 2, 4], [-1, 1, -1, 9, -1])

    def test_numbers(self):
        oracles = {WIDE_SUM: sum, CARRIED_SUM: sum, SUM_OF_DOUBLES: lambda n: 2 * sum(n)}
        for close, oracle in oracles.items():
            for numbers in self.LISTS:
                sheet = list_sheet(close, 100, numbers)
                sheet.settle()
                self.assertEqual(sheet.result(), (1, oracle(numbers)))

    def test_lists(self):
        oracles = {WIDE_COPY: list, REVERSE: lambda n: n[::-1], APPEND: lambda n: n + n[1:]}
        for close, oracle in oracles.items():
            for numbers in self.LISTS:
                sheet = list_sheet(close, 100, numbers)
                sheet.settle()
                self.assertEqual(list_held(sheet), oracle(numbers))


# --- random sheets --------------------------------------------------------

NUMBERS = (0, 0, 1, 1, 2, 3, -1, -7, 100000, MOST, LEAST)


def random_content(rng: Random, number: int, near: dict[int, list[int]]) -> Content:
    """A content for an input: mostly a list with an end, now and then a circle."""
    if number not in near[Kind.LIST_CELL]:
        return Number(rng.choice(NUMBERS))
    tails = near[Kind.LIST_CELL]
    if rng.random() < 0.9:
        tails = [tail for tail in tails if tail > number][:2]
    if not tails or not near[Kind.NUMBER_CELL] or rng.random() < 0.1:
        return EMPTY
    return cell(rng.choice(near[Kind.NUMBER_CELL]), rng.choice(tails))


def near_inputs(rng: Random, known: Program) -> dict[int, list[int]]:
    """For each kind the inputs that RUN names and a few more."""
    kinds = known.input_kinds()
    chosen = set(known.run.fields) | set(rng.sample(range(len(kinds)), min(8, len(kinds))))
    return {
        kind: sorted(k for k in chosen if kinds[k] == kind)
        for kind in (Kind.NUMBER_CELL, Kind.LIST_CELL)
    }


def inputs_read(sheet: Sheet) -> list[int]:
    """The inputs that the standing records read."""
    if sheet.trace is None:
        return []
    reads = [one for one in in_order(sheet.trace.root) if isinstance(one, Read)]
    return [one.source.serial for one in reads if one.source.serial < len(sheet.inputs)]


class RandomSheets(unittest.TestCase):
    """Walks of posts and settles, each settle held against a sheet run anew."""

    def setUp(self) -> None:
        self.seen: Counter[str] = Counter()

    def walk(self, rng: Random, known: Program, limit: int, settles: int) -> None:
        """Some posts, then a settle, again and again."""
        sheet = Sheet(known, limit)
        near = near_inputs(rng, known)
        inputs = near[Kind.NUMBER_CELL] + near[Kind.LIST_CELL]
        for _ in range(settles):
            for _ in range(rng.choice((0, 1, 1, 1, 2, 3))):
                number = rng.choice(inputs_read(sheet) * 2 + inputs)
                sheet.post(number, random_content(rng, number, near))
            self.settle(sheet)

    def settle(self, sheet: Sheet) -> None:
        """Settles a sheet and holds it against one run anew."""
        had_trace = sheet.trace is not None
        before = self.taken(sheet)
        answer = outcome(sheet)
        anew = Sheet(sheet.program, sheet.limit)
        for number, content in enumerate(sheet.inputs):
            anew.post(number, content)
        expected = outcome(anew)
        self.assertEqual(answer is None, expected is None)
        if answer is None:
            self.assertIsNone(sheet.trace)
            self.seen["too large from a trace" if had_trace else "too large anew"] += 1
            return
        self.assertEqual(sheet.result(), anew.result())
        self.assertEqual(sheet.listing(), anew.listing())
        self.assertEqual(answer.standing, expected.standing)
        self.sound(sheet)
        if had_trace:
            self.counts(answer, before, self.taken(sheet))
        else:
            self.assertEqual(answer, expected)
            self.assertEqual(answer, (ANEW, 0, len(anew.listing()), len(anew.listing())))

    def taken(self, sheet: Sheet) -> dict:
        """The standing records, each with the content it took if it is a read."""
        if sheet.trace is None:
            return {}
        records = in_order(sheet.trace.root)
        return {one: one.taken if isinstance(one, Read) else None for one in records}

    def counts(self, answer: Settled, before: dict, after: dict) -> None:
        """E, M and S as a comparison of the records before and after tells them."""
        reexecuted = sum(1 for one in after if one in before and before[one] != after[one])
        made = sum(1 for one in after if one not in before)
        self.assertEqual(answer, (BY_TURNS, reexecuted, made, len(after)))
        self.seen["settled by turns"] += 1
        self.seen["reads re-executed"] += reexecuted > 0
        self.seen["several reads re-executed"] += reexecuted > 1
        self.seen["records made"] += made > 0
        self.seen["records dropped"] += len(before) + made > len(after)

    def sound(self, sheet: Sheet) -> None:
        """No read is stale, and exactly the inputs and standing NEWs have contents."""
        trace = sheet.trace
        records = in_order(trace.root)
        for one in records:
            if isinstance(one, Read):
                self.assertEqual(one.taken, trace.contents[one.source])
        made = {one.modifiable for one in records if isinstance(one, New)}
        inputs = {Modifiable(k) for k in range(len(sheet.inputs))}
        self.assertEqual(set(trace.contents), made | inputs)
        self.assertEqual(len(made), sum(isinstance(one, New) for one in records))
        self.assertLessEqual(len(records), sheet.limit)
        self.nested(sheet)

    def nested(self, sheet: Sheet) -> None:
        """A destination is the modifiable of the innermost NEW open when a read begins."""
        open_ones = []
        for record, starts in stamps(sheet.trace.root):
            if isinstance(record, New):
                if starts:
                    open_ones.append(record)
                else:
                    open_ones.pop()
            elif starts:
                self.assertEqual(record.destination, open_ones[-1].modifiable)

    def often(self, least: dict[str, int]) -> None:
        """What a test is about has happened often enough."""
        for what, number in least.items():
            self.assertGreaterEqual(self.seen[what], number, self.seen)

    def test_programs_of_lists(self):
        rng = Random(11)
        for close in LIST_PROGRAMS:
            known = program(close)
            for _ in range(40):
                self.walk(rng, known, rng.choice((6, 12, 25, 60)), 25)
        self.often({
            "settled by turns": 2000, "several reads re-executed": 200, "records made": 500,
            "records dropped": 500, "too large from a trace": 100, "too large anew": 200,
        })  # fmt: skip

    def test_lively_programs(self):
        rng = Random(12)
        for _ in range(500):
            known = check(lively_text(rng))
            self.assertNotIsInstance(known, Fault)
            self.walk(rng, known, rng.choice((10, 30, 80, 200)), 12)
        self.often({
            "settled by turns": 2000, "several reads re-executed": 100, "records made": 500,
            "records dropped": 500, "too large from a trace": 50, "too large anew": 200,
        })  # fmt: skip

    def test_programs_of_any_form(self):
        rng = Random(13)
        for _ in range(1000):
            known = check(wellformed.any_sheet(rng).text)
            self.assertNotIsInstance(known, Fault)
            self.walk(rng, known, rng.choice((1, 2, 5, 20, 80)), 6)
        self.often({"settled by turns": 1000, "too large anew": 1000, "reads re-executed": 30})


if __name__ == "__main__":
    unittest.main()
