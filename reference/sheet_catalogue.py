"""Sheets written by hand, each step with the answer that the rules give it."""

from __future__ import annotations

from typing import Iterator, Sequence

from catalogue import ENDLESS, KIT, LEAST, LIST_SUM, PRICE_TIMES_COUNT, WIDEST, full_program
from families import APPEND, BRANCHING, MAP, SORT, STOCK_VALUE, number_at
from rows import fault, render, rows
from steps import (
    LIMIT_MOST,
    MAKES_OF_LIST,
    NUMBER_LEAST,
    NUMBER_MOST,
    RENUMBERING,
    TAGRANGE,
    Scene,
    Step,
    listed,
    made,
    no_calls,
    posted,
    program,
    program_step,
    refused,
    scene,
    settled,
    text_step,
    told,
)

LIST_SUM_POSTS = ("0 7", "1 8", "2 cell 0 3", "3 cell 1 4", "4 empty")
LIST_SUM_LINES = (
    "NEW 0 10 0 1 15 2", "CAS 1 10 2 1000 2 0 3", "NEW 2 8 0 1 8 3", "CAS 3 8 3 1002 2 1 4",
    "NEW 4 6 0 1 0 4", "CAS 5 6 4 1004 1", "GET 6 8 1 1002 3 8 1004", "GET 7 8 1004 1002 4 0 8",
    "GET 8 10 0 1000 3 7 1002", "GET 9 10 1002 1000 4 8 7",
)  # fmt: skip

FAULTY = text_step(render(rows("INP 1 0; RUN; FUN 2; ADD 0 0; PUT 0")), fault(7, 4))
EMPTY_TEXT = text_step(b"", fault(1, 0))

OPEN = told("open: open")
WITHDRAWN = told("withdraw: withdrawn unsettled")
TOO_LARGE = refused(21, "settle")

READINGS = ("result", "line 0", "line 65535", "listing")
# For a sheet with two numbers and three lists; on a sheet that is not open all are 13.
POSTS = ("post 0 6", "post 9 6", "post 0 empty", "post 2 cell 9 9", "post 65535 cell 0 3")

# Every sort of line that is no call; on no sheet does one change anything.
LINES_THAT_ARE_NO_CALLS = (
    # spaces
    b" open", b"open ", b"open  ", b"settle ", b"result ", b"listing ", b"withdraw ",
    b"make  7 10 tagrange", b"make 7  10 tagrange", b"make 7 10  tagrange",
    b"make 7 10 tagrange ", b" make 7 10 tagrange", b"post  0 6", b"post 0  6", b"post 0 6 ",
    b"post 0 6  ", b"post 2  empty", b"post 2 empty ", b"post 2  cell 0 3", b"post 2 cell  0 3",
    b"post 2 cell 0  3", b"post 2 cell 0 3 ", b"line  0", b"line 0 ", b" line 0", b"line\t0",
    b"post\t0 6", b"post 0\t6", b"open\r", b"post 0 6\r", b"line 0\r", b"settle\r", b"open\x00",
    # numbers that are none
    b"make 07 10 tagrange", b"make 7 010 tagrange", b"make 00 10 tagrange",
    b"make -0 10 tagrange", b"make 7 -0 tagrange", b"make +7 10 tagrange", b"make 7 1O tagrange",
    b"make -7 10 tagrange", b"make 7 -10 tagrange", b"make x 10 tagrange", b"make 7 . tagrange",
    b"post 00 6", b"post 01 6", b"post -0 6", b"post -1 6", b"post +0 6", b"post x 6",
    b"post 0 06", b"post 0 00", b"post 0 -0", b"post 0 -06", b"post 0 -00", b"post 0 +6",
    b"post 0 --6", b"post 0 - 6", b"post 0 -", b"post 0 6-", b"post 0 1e3", b"post 0 0x6",
    b"post 0 6.0", b"post 0 6,0", b"post 0 1_0", b"post 0 \xb2", b"post 0 6\xff",
    b"post 0 \xd9\xa6",
    b"post 2 cell 00 3", b"post 2 cell 0 03", b"post 2 cell -0 3", b"post 2 cell 0 -3",
    b"post 2 cell +0 3", b"post 2 cell x 3", b"post 2 cell 0 x", b"line 00", b"line 01",
    b"line -0", b"line -1", b"line +1", b"line x", b"line 0x0",
    # numbers that do not fit
    b"make 65536 10 tagrange", b"make 7 65536 tagrange", b"make 99999 10 tagrange",
    b"make 100000 10 renumbering", b"make 4294967296 10 tagrange", b"make 7 65537 renumbering",
    b"post 65536 6", b"post 65536 empty", b"post 4294967296 6", b"post 18446744073709551616 6",
    b"post 0 2147483648", b"post 0 -2147483649", b"post 0 4294967296", b"post 0 9999999999",
    b"post 0 -9999999999", b"post 0 18446744073709551616", b"post 0 " + b"1" * 300,
    b"post 0 -" + b"9" * 1000, b"post 2 cell 65536 3", b"post 2 cell 0 65536",
    b"post 2 cell 99999 99999", b"line 65536", b"line 99999", b"line 4294967296",
    b"line 18446744073709551615", b"line " + b"0" * 1000,
    # missing words
    b"make", b"make 7", b"make 7 10", b"make tagrange", b"make 7 tagrange", b"make 10 7",
    b"post", b"post 0", b"post 2 cell", b"post 2 cell 0", b"post cell 0 3", b"post empty",
    b"post ", b"post 0 ", b"line", b"line ", b"make ", b"make 7 10 ",
    # words too many
    b"make 7 10 tagrange 1", b"make 7 10 20 tagrange", b"make 7 10 tagrange renumbering",
    b"open 1", b"open open", b"post 0 6 7", b"post 0 1 6", b"post 2 empty 0", b"post 2 empty empty",
    b"post 2 cell 0 3 4", b"post 2 cell 0 3 empty", b"withdraw 0", b"settle 0", b"result 0",
    b"line 0 0", b"line 0 1", b"listing 0", b"open # a remark", b"settle.",
    # words that are none
    b"make 7 10 list", b"make 7 10 Tagrange", b"make 7 10 TAGRANGE", b"make 7 10 tag-range",
    b"make 7 10 tagranges", b"make 7 10 tagrang", b"make 7 10 renumber", b"make 7 10 renumberings",
    b"make 7 10 Renumbering", b"make 7 10 renumbering,", b"make 7 10 10", b"make 7 10 \xff",
    b"post 2 Empty", b"post 2 EMPTY", b"post 2 nil", b"post 2 empt", b"post 2 emptys",
    b"post 2 cells 0 3", b"post 2 Cell 0 3", b"post 2 cell 0 empty", b"post 2 cell empty 3",
    b"post 2 con 0 3", b"Make 7 10 tagrange", b"Open", b"OPEN", b"opens", b"ope", b"o", b"close",
    b"Post 0 6", b"posts 0 6", b"pos 0 6", b"put 0 6", b"withdrawn", b"settled", b"Settle",
    b"results", b"lines", b"lines 0", b"list", b"listings", b"refused 13", b"open:", b"open: open",
    # calls of a later day
    b"book 4 1 25", b"book", b"turn 9", b"turn", b"audit",
)  # fmt: skip


def opening_scenes() -> list[Scene]:
    """What comes before the first sheet, and then before the first accepted text."""
    return [before_any_sheet(), before_any_text()]


def before_any_sheet() -> Scene:
    return scene(
        "calls before any sheet is made",
        refused(13, "open", "withdraw", "settle", *POSTS, *READINGS),
        no_calls(b"post 0 06", b"line 65536", b"open 1", b"make 7 10", b"book 4 1 25", b"audit"),
        refused(11, "make 1 0 tagrange", "make 1 513 renumbering", "make 1 65535 tagrange"),
        refused(13, "open", "result"),
    )


def before_any_text() -> Scene:
    return scene(
        "sheets made before any text is accepted",
        FAULTY,
        made(1, 1, TAGRANGE),
        refused(13, *READINGS),
        OPEN,
        posted("0 5"),
        refused(14, "post 1 5"),
        refused(15, "post 0 empty"),
        settled(1),
        told("result: result 1 0", "line 0: NEW 0 1 0 1 0"),
        refused(24, "line 1", "line 65535"),
        listed("NEW 0 1 0 1 0"),
        EMPTY_TEXT,
        made(2, 512, RENUMBERING),
        refused(13, "result"),
        OPEN,
        settled(1),
        told("result: result 1 0"),
    )


def sheet_scenes() -> list[Scene]:
    """All sheets written by hand, apart from those at the two ends of the journal."""
    return [
        *example_scenes(),
        *refusal_scenes(),
        *order_scenes(),
        *pass_scenes(),
        *too_large_scenes(),
        *text_scenes(),
        *number_scenes(),
        *endless_scenes(),
        *circle_scenes(),
        *wide_scenes(),
        *made_cell_scenes(),
        *limit_scenes(),
        *full_scenes(),
        *deepest_scenes(),
    ]


def closing_scene() -> Scene:
    """The journal ends with this pass open."""
    return scene(
        "a pass that is open when the journal ends",
        program(LIST_SUM),
        made(65535, 10, RENUMBERING),
        OPEN,
        posted(*LIST_SUM_POSTS),
        refused(13, "result"),
    )


def both(note: str, *parts: Sequence[Step]) -> Iterator[Scene]:
    """The same scene for each make of list; `make NUMBER LIMIT` is completed in its steps."""
    for name in MAKES_OF_LIST:
        steps = [completed(step, name) for part in parts for step in part]
        yield Scene(f"{note}, {name}", tuple(steps))


def completed(step: Step, name: str) -> Step:
    """A step whose make lacks the make of list, with that."""
    if not step.line.startswith(b"make ") or step.line.count(b" ") != 2:
        return step
    return Step(step.line + b" " + name.encode("ascii"), None, step.expected)


def make(number: int, limit: int) -> list[Step]:
    """A make whose make of list is told later."""
    return told(f"make {number} {limit}: made {number}")


# --- examples -------------------------------------------------------------


def example_scenes() -> Iterator[Scene]:
    yield from both(
        "price times count",
        program(PRICE_TIMES_COUNT),
        make(7, 10),
        OPEN,
        posted("0 6", "1 25"),
        settled(3),
        listed("NEW 0 3 0 1 150 0 1", "GET 1 3 0 1000 1 6 1", "GET 2 3 1 1000 2 25 6"),
        told("result: result 1 150", "line 2: GET 2 3 1 1000 2 25 6"),
    )
    yield from both(
        "list sum at its limit and below it",
        program(LIST_SUM),
        make(1, 10),
        OPEN,
        posted(*LIST_SUM_POSTS),
        settled(10),
        told("result: result 1 15"),
        listed(*LIST_SUM_LINES),
        told(*(f"line {r}: {line}" for r, line in enumerate(LIST_SUM_LINES))),
        refused(24, "line 10", "line 11", "line 65535"),
        make(2, 9),
        OPEN,
        posted(*LIST_SUM_POSTS),
        TOO_LARGE,
        refused(13, *READINGS),
    )
    yield from both(
        "stock value of two articles",
        program(f"INP 4 6; RUN 4 5; {STOCK_VALUE}"),
        make(300, 14),
        OPEN,
        posted("0 6", "1 25", "2 10", "3 3"),
        posted("4 cell 0 6", "6 cell 2 8", "5 cell 1 7", "7 cell 3 9"),
        settled(14),
        told("result: result 1 180"),
    )


# --- refusals -------------------------------------------------------------


def refusal_scenes() -> Iterator[Scene]:
    yield scene(
        "limits",
        program(PRICE_TIMES_COUNT),
        refused(11, "make 7 0 tagrange", "make 7 513 tagrange", "make 7 65535 renumbering"),
        made(0, 1, TAGRANGE),
        made(65535, 512, RENUMBERING),
        made(7, 3, TAGRANGE),
        refused(11, "make 8 0 renumbering", "make 0 514 tagrange", "make 65535 1000 tagrange"),
        OPEN,
        posted("0 6"),
        refused(11, "make 8 0 renumbering", "make 8 513 tagrange"),
        refused(13, "open"),  # the pass is still open
        posted("1 25"),
        settled(3),
        refused(11, "make 8 65535 tagrange", "make 8 0 tagrange"),
        told("result: result 1 150"),  # the sheet is still settled
    )
    yield from both(
        "posts that are refused, and the order of their tests",
        program(LIST_SUM),
        make(7, 10),
        refused(13, *POSTS),
        OPEN,
        posted(*LIST_SUM_POSTS),
        refused(14, "post 5 1", "post 5 empty", "post 5 cell 0 3", "post 65535 1"),
        refused(14, "post 5 cell 9 9", "post 256 cell 2 2", "post 65535 cell 65535 65535"),
        refused(15, "post 0 empty", "post 1 cell 0 3", "post 2 7", "post 4 0", "post 3 -1"),
        refused(15, "post 0 cell 9 9", "post 1 cell 2 2", "post 0 cell 65535 0"),
        refused(16, "post 2 cell 5 3", "post 2 cell 0 5", "post 2 cell 65535 65535"),
        refused(16, "post 2 cell 2 3", "post 2 cell 0 1", "post 2 cell 3 0", "post 4 cell 4 4"),
        settled(10),
        told("result: result 1 15"),
        refused(13, *POSTS),
    )
    yield scene(
        "inputs of one kind only",
        program(PRICE_TIMES_COUNT),
        made(7, 3, TAGRANGE),
        OPEN,
        refused(14, "post 2 1", "post 2 empty", "post 2 cell 0 1"),
        refused(15, "post 1 empty", "post 1 cell 0 1", "post 0 cell 2 3"),
        program("INP 0 2; RUN 1; FUN 3 3; CAS 0 1 2; FUN 3; NIL; FUN 3 2 3; CON 0 1"),
        made(8, 2, RENUMBERING),
        OPEN,
        refused(14, "post 2 empty"),
        refused(15, "post 0 0"),
        refused(16, "post 0 cell 0 1", "post 1 cell 0 0", "post 1 cell 2 1"),
        posted("0 empty", "1 empty"),
        settled(2),
        told("result: result 2"),
        listed("NEW 0 2 0 2 1", "CAS 1 2 1 1000 1"),
    )


# --- the order of tests ---------------------------------------------------


def order_scenes() -> Iterator[Scene]:
    """Lines that are no calls, on sheets that stand in each way."""
    every = no_calls(*LINES_THAT_ARE_NO_CALLS)
    yield scene(
        "lines that are no calls, on a sheet that is unsettled, open, settled",
        program(LIST_SUM),
        made(7, 10, TAGRANGE),
        every[0::3],
        OPEN,
        posted(*LIST_SUM_POSTS),
        every,
        settled(10),
        every[1::3],
        told("result: result 1 15"),
    )
    yield scene(
        "lines that are no calls, on the other make of list",
        program(LIST_SUM),
        made(7, 9, RENUMBERING),
        every[2::3],
        OPEN,
        posted(*LIST_SUM_POSTS),
        every,
        TOO_LARGE,
        every[0::5],
        refused(13, *READINGS),
    )
    yield scene(
        "no fitting pass comes before every other refusal",
        program(PRICE_TIMES_COUNT),
        made(7, 1, TAGRANGE),
        refused(13, "post 9 6", "post 0 empty", "post 0 cell 9 9", "line 999"),
        OPEN,
        refused(13, "line 999", "line 0"),
        TOO_LARGE,
        refused(13, "post 9 6", "line 999", "settle"),
        made(7, 3, TAGRANGE),
        OPEN,
        settled(3),
        refused(13, "post 9 6", "post 0 empty", "post 0 cell 9 9", "settle"),
        refused(24, "line 999"),
        told("result: result 1 0"),
    )


# --- passes ---------------------------------------------------------------


def pass_scenes() -> Iterator[Scene]:
    yield from both(
        "calls without a fitting pass",
        program(PRICE_TIMES_COUNT),
        make(7, 10),
        refused(13, "post 0 6", "withdraw", "settle", *READINGS),
        OPEN,
        refused(13, "open", *READINGS),
        posted("0 6"),
        refused(13, "open", *READINGS),
        WITHDRAWN,
        refused(13, "withdraw", "settle", "post 0 6", *READINGS),
        OPEN,
        posted("1 25"),
        settled(3),
        told("result: result 1 0"),
        refused(13, "open", "post 0 6", "withdraw", "settle", "open"),
        told("result: result 1 0"),
    )
    yield from both(
        "a pass that is withdrawn",
        program(LIST_SUM),
        make(7, 10),
        OPEN,
        posted(*LIST_SUM_POSTS),
        WITHDRAWN,
        OPEN,
        WITHDRAWN,
        OPEN,
        settled(2),
        told("result: result 1 0"),
        listed("NEW 0 2 0 1 0 2", "CAS 1 2 2 1000 1"),
    )
    yield scene(
        "posts over posts",
        program(PRICE_TIMES_COUNT),
        made(7, 10, RENUMBERING),
        OPEN,
        posted("0 1", "0 2", "0 3", "1 5", "1 5", "0 2147483647", "0 4"),
        refused(15, "post 0 empty"),
        refused(14, "post 2 9"),
        settled(3),
        told("result: result 1 20"),
    )
    yield scene(
        "sheets that are let go by a later make",
        program(PRICE_TIMES_COUNT),
        made(1, 10, TAGRANGE),
        OPEN,
        posted("0 6", "1 25"),
        made(2, 10, RENUMBERING),  # sheet 1 is open
        refused(13, "post 0 6", "withdraw", "settle", *READINGS),
        OPEN,
        settled(3),
        told("result: result 1 0"),
        made(2, 10, RENUMBERING),  # sheet 2 is settled
        refused(13, "result"),
        OPEN,
        posted("0 5", "1 5"),
        settled(3),
        told("result: result 1 25"),
        made(3, 2, TAGRANGE),
        OPEN,
        TOO_LARGE,
        made(4, 3, TAGRANGE),  # sheet 3 is too large
        made(5, 3, RENUMBERING),  # sheet 4 was never opened
        OPEN,
        posted("0 7", "1 7"),
        settled(3),
        told("result: result 1 49"),
    )


# --- too large ------------------------------------------------------------


def too_large_scenes() -> Iterator[Scene]:
    yield from both(
        "too large, reopened, and settled with a shorter list",
        program(LIST_SUM),
        make(7, 9),
        OPEN,
        posted(*LIST_SUM_POSTS),
        TOO_LARGE,
        refused(13, "settle", "withdraw", "post 0 1", *READINGS),
        OPEN,
        TOO_LARGE,  # the inputs stayed as posted
        OPEN,
        posted("3 empty"),
        settled(6),
        told("result: result 1 7"),
        listed(
            "NEW 0 6 0 1 7 2", "CAS 1 6 2 1000 2 0 3", "NEW 2 4 0 1 0 3", "CAS 3 4 3 1002 1",
            "GET 4 6 0 1000 3 7 1002", "GET 5 6 1002 1000 4 0 7",
        ),
        refused(13, "open"),
    )  # fmt: skip
    yield from both(
        "withdrawn to the inputs that were too large",
        program(LIST_SUM),
        make(7, 9),
        OPEN,
        posted(*LIST_SUM_POSTS),
        TOO_LARGE,
        OPEN,
        posted("2 empty", "0 100"),
        WITHDRAWN,
        OPEN,
        TOO_LARGE,
        OPEN,
        posted("2 cell 1 4"),
        settled(6),
        told("result: result 1 8"),
    )


# --- texts and sheets -----------------------------------------------------


def text_scenes() -> Iterator[Scene]:
    yield scene(
        "a sheet keeps the program that it was made of",
        program(PRICE_TIMES_COUNT),
        made(1, 10, TAGRANGE),
        program(LIST_SUM),
        OPEN,
        refused(14, "post 2 empty"),
        posted("0 6", "1 25"),
        program(LEAST),
        settled(3),
        told("result: result 1 150"),
        FAULTY,
        told("line 0: NEW 0 3 0 1 150 0 1"),
        made(2, 10, RENUMBERING),
        OPEN,
        refused(14, "post 1 5"),
        settled(1),
        told("result: result 1 0"),
    )
    yield scene(
        "faulty texts between makes",
        program(PRICE_TIMES_COUNT),
        FAULTY,
        made(1, 10, RENUMBERING),
        EMPTY_TEXT,
        OPEN,
        text_step(b"INP\n.\x20\n", fault(1, 2)),
        posted("0 -6", "1 25"),
        FAULTY,
        settled(3),
        told("result: result 1 -150"),
        FAULTY,
        FAULTY,
        made(2, 10, TAGRANGE),
        OPEN,
        posted("0 -6", "1 -25"),
        settled(3),
        told("result: result 1 150"),
    )
    yield scene(
        "a pass left open under texts",
        program(LIST_SUM),
        made(3, 10, RENUMBERING),
        OPEN,
        posted(*LIST_SUM_POSTS),
        program(PRICE_TIMES_COUNT),
        EMPTY_TEXT,
        WITHDRAWN,
        OPEN,
        posted("2 cell 1 4", "1 -8"),
        program(LEAST),
        settled(6),
        told("result: result 1 -8"),
    )


# --- numbers --------------------------------------------------------------

OF_TWO_INPUTS = (
    "INP 2 0; RUN 0 1; FUN 2 2 2; GET 0 1 1; FUN 2 1 2; GET 1 2 0; FUN 2 1 1; {} 1 0; PUT 2"
)
# For each operation: a, b and the result.
WORKED = {
    "ADD": ((NUMBER_MOST, 1, NUMBER_MOST), (NUMBER_LEAST, -1, NUMBER_LEAST),
            (NUMBER_MOST, NUMBER_LEAST, -1), (NUMBER_MOST, 0, NUMBER_MOST)),
    "SUB": ((NUMBER_LEAST, 1, NUMBER_LEAST), (0, NUMBER_LEAST, NUMBER_MOST), (3, 5, -2),
            (-1, NUMBER_LEAST, NUMBER_MOST)),
    "MUL": ((65536, 32768, NUMBER_MOST), (65536, -32768, NUMBER_LEAST),
            (NUMBER_LEAST, NUMBER_LEAST, NUMBER_MOST), (46341, 46341, NUMBER_MOST),
            (46340, 46340, 2147395600), (NUMBER_LEAST, NUMBER_MOST, NUMBER_LEAST)),
    "DIV": ((-7, 2, -3), (7, -2, -3), (-7, -2, 3), (7, 2, 3), (7, 0, 0), (NUMBER_LEAST, 0, 0),
            (0, 0, 0), (-1, 2, 0), (NUMBER_LEAST, -1, NUMBER_MOST), (NUMBER_MOST, NUMBER_LEAST, 0),
            (NUMBER_LEAST, NUMBER_MOST, -1)),
    "MIN": ((-3, 2, -3), (2, -3, -3), (NUMBER_LEAST, NUMBER_MOST, NUMBER_LEAST)),
    "MAX": ((-3, 2, 2), (2, -3, 2), (NUMBER_LEAST, NUMBER_MOST, NUMBER_MOST)),
}  # fmt: skip


def number_scenes() -> Iterator[Scene]:
    for place, (word, cases) in enumerate(WORKED.items()):
        name = MAKES_OF_LIST[place % 2]
        parts = [program(OF_TWO_INPUTS.format(word))]
        for a, b, result in cases:
            parts += [made(7, 3, name), OPEN, posted(f"0 {a}", f"1 {b}"), settled(3)]
            parts.append(told(f"result: result 1 {result}"))
        yield scene(f"{word} at the ends", *parts)
    # 999999, squared, then halved: beyond the end, and from the end on.
    beyond = "LIT 999999; MUL 0 0; LIT 2; DIV 1 2; LIT -1; MUL 1 4; SUB 5 0; SUB 6 2; PUT {}"
    results = (999999, NUMBER_MOST, 2, 1073741823, -1, -NUMBER_MOST, NUMBER_LEAST, NUMBER_LEAST)
    for register, result in enumerate(results):
        yield scene(
            f"literals multiplied beyond the ends, register {register}",
            program(f"INP 1 0; RUN; FUN 2; {beyond.format(register)}"),
            made(register, 1, MAKES_OF_LIST[register % 2]),
            OPEN,
            settled(1),
            told(f"result: result 1 {result}", f"line 0: NEW 0 1 0 1 {result}"),
        )


# --- runs without end -----------------------------------------------------


def endless_scenes() -> Iterator[Scene]:
    for note, close in (
        ("a NEW inside itself, with reads behind", ENDLESS),
        ("a NEW inside itself", "INP 1 0; RUN; FUN 2; NEW 0; LIT 1; PUT 1"),
        ("a read inside itself", "INP 1 0; RUN 0; FUN 2 2; GET 0 1 0; FUN 2 1 2; GET 1 1 1"),
        ("a NEW of six arguments inside itself", WIDEST),
        ("a NEW inside the read of another",
         "INP 1 0; RUN 0; FUN 2 2; NEW 1 0; GET 1 2 0; FUN 2 2; LIT 3; PUT 1;"
         "FUN 2 1 2; NEW 0 1; GET 2 2 1"),
    ):  # fmt: skip
        parts = [program(close)]
        for limit, name in ((1, TAGRANGE), (2, RENUMBERING), (511, TAGRANGE), (512, RENUMBERING)):
            parts += [made(limit, limit, name), OPEN, TOO_LARGE, refused(13, *READINGS)]
        yield scene(f"without end: {note}", *parts)


# --- lists in a circle ----------------------------------------------------


def circle_scenes() -> Iterator[Scene]:
    for note, posts in (
        ("of one cell", ("2 cell 0 2",)),
        ("of two cells", ("2 cell 0 3", "3 cell 1 2")),
        ("of three cells", ("2 cell 0 3", "3 cell 1 4", "4 cell 1 2")),
        ("behind a cell", ("2 cell 0 3", "3 cell 1 4", "4 cell 1 3")),
    ):
        yield from both(
            f"list sum over a circle {note}",
            program(LIST_SUM),
            make(7, 512),
            OPEN,
            posted("0 7", "1 8", *posts),
            TOO_LARGE,
            refused(13, "result"),
            OPEN,
            posted("3 empty", "2 cell 1 3"),
            settled(6),
            told("result: result 1 8"),
        )
    yield from both(
        "a circle that nothing reads",
        program(LIST_SUM),
        make(7, 6),
        OPEN,
        posted("0 7", "1 8", "2 cell 1 4", "3 cell 0 3"),
        settled(6),
        told("result: result 1 8"),
    )
    yield from both(
        "a circle read in part",
        program("INP 1 1; RUN 1; FUN 3 3; CAS 0 1 2; FUN 3; NIL; FUN 3 2 3; CAS 1 1 3;"
                "FUN 3 2 3; CON 0 1"),
        make(7, 3),
        OPEN,
        posted("0 4", "1 cell 0 1"),
        settled(3),
        told("result: result 3 0 1"),
        listed("NEW 0 3 0 3 0 1 1", "CAS 1 3 1 1000 2 0 1", "CAS 2 3 1 1000 3 0 1"),
    )  # fmt: skip
    yield from both(
        "number 40 of a list in a circle of three",
        program(f"INP 3 3; RUN 3; {number_at(40, -5)}"),
        make(7, 43),
        OPEN,
        posted("0 100", "1 101", "2 102", "3 cell 0 4", "4 cell 1 5", "5 cell 2 3"),
        settled(43),
        told("result: result 1 101"),  # 40 is 1 behind thirteen rounds
        make(8, 42),
        OPEN,
        posted("0 100", "1 101", "2 102", "3 cell 0 4", "4 cell 1 5", "5 cell 2 3"),
        TOO_LARGE,
    )


# --- as wide as there may be ----------------------------------------------

# Six inputs are read one after the other, each time with five arguments.
SIX_READS = (
    "INP 6 0; RUN 0 1 2 3 4 5; FUN 2 2 2 2 2 2 2; GET 0 1 1 2 3 4 5;"
    "FUN 2 1 2 2 2 2 2; GET 1 2 0 2 3 4 5; FUN 2 1 1 2 2 2 2; GET 2 3 0 1 3 4 5;"
    "FUN 2 1 1 1 2 2 2; GET 3 4 0 1 2 4 5; FUN 2 1 1 1 1 2 2; GET 4 5 0 1 2 3 5;"
    "FUN 2 1 1 1 1 1 2; GET 5 6 0 1 2 3 4; FUN 2 1 1 1 1 1 1; LIT 2; MUL 0 6; ADD 1 7;"
    "SUB 8 2; MUL 9 3; MIN 10 4; MAX 11 5; LIT 3; DIV 12 13; ADD 14 10; PUT 15"
)
# A list is read with four arguments.
FOUR_ARGUMENTS = (
    "INP 2 3; RUN 2 0 1 3 4; FUN 3 3 2 2 3 3; CAS 0 1 2 1 2 3 4; FUN 3 2 2 3 3; CON 1 2;"
    "FUN 3 2 3 2 2 3 3; NEW 1 0 3 1 4; CON 2 6"
)
# Down a list, with lines of the listing as long as they get.
LONGEST_LINES = (
    "INP 1 255; RUN 1; FUN 2 3; LIT -99999; LIT 99999; MUL 1 2; MUL 1 1; NEW 1 0 3 3 3 3 4;"
    "GET 5 5; FUN 2 3 1 1 1 1 1; CAS 0 2 3 1 2 3 4; FUN 2 1 1 1 1; PUT 0;"
    "FUN 2 2 3 1 1 1 1; NEW 1 1 2 3 4 5 2; GET 6 4 2 3 4 5 2; FUN 2 1 1 1 1 1 1; PUT 0;"
    "FUN 2 1; PUT 0"
)


def wide_scenes() -> Iterator[Scene]:
    yield from both(
        "six parameters, sixteen registers, GET with five arguments",
        program(SIX_READS),
        make(7, 7),
        OPEN,
        posted("0 1", "1 2", "2 3", "3 4", "4 5", "5 6"),
        settled(7),
        told("result: result 1 39"),
        listed(
            "NEW 0 7 0 1 39 0 1 2 3 4 5", "GET 1 7 0 1000 1 1 1 2 3 4 5",
            "GET 2 7 1 1000 2 2 1 2 3 4 5", "GET 3 7 2 1000 3 3 2 1 3 4 5",
            "GET 4 7 3 1000 4 4 3 2 1 4 5", "GET 5 7 4 1000 5 5 4 3 2 1 5",
            "GET 6 7 5 1000 6 6 5 4 3 2 1",
        ),
    )  # fmt: skip
    yield from both(
        "CAS with four arguments on an empty list",
        program(FOUR_ARGUMENTS),
        make(7, 2),
        OPEN,
        settled(2),
        told("result: result 3 1 3"),
        listed("NEW 0 2 0 3 1 3 2 0 1 3 4", "CAS 1 2 2 1000 1 0 1 3 4"),
    )
    yield from both(
        "CAS with four arguments on a cell",
        program(FOUR_ARGUMENTS),
        make(7, 3),
        OPEN,
        posted("2 cell 1 4"),
        settled(3),
        told("result: result 3 0 1002"),
        listed(
            "NEW 0 3 0 3 0 1002 2 0 1 3 4", "CAS 1 3 2 1000 2 1 4 0 1 3 4",
            "NEW 2 3 1 3 1 4 1 1 4 3",
        ),
    )  # fmt: skip
    low = " ".join([str(NUMBER_LEAST)] * 4)
    yield from both(
        "the longest lines of a listing",
        program(LONGEST_LINES),
        make(7, 10),
        OPEN,
        posted("1 cell 0 255", "255 cell 0 2"),
        settled(10),
        told(f"result: result 1 {NUMBER_LEAST}"),
        listed(
            f"NEW 0 10 0 1 {NUMBER_LEAST} 1",
            f"NEW 1 9 1 1 {NUMBER_LEAST} 1 {low} {NUMBER_MOST}",
            f"CAS 2 9 1 1001 3 0 255 {low}",
            f"NEW 3 8 1 1 {NUMBER_LEAST} 255 {low} {NUMBER_LEAST}",
            f"CAS 4 8 255 1003 3 0 2 {low}",
            f"NEW 5 7 1 1 {NUMBER_LEAST} 2 {low} {NUMBER_LEAST}",
            f"CAS 6 7 2 1005 2 {low}",
            f"GET 7 8 1005 1003 4 {NUMBER_LEAST} {low} {NUMBER_LEAST}",
            f"GET 8 9 1003 1001 4 {NUMBER_LEAST} {low} {NUMBER_LEAST}",
            f"GET 9 10 1001 1000 5 {NUMBER_LEAST}",
        ),
    )
    yield scene(
        "the longest lines of a listing, 511 of them",
        program(LONGEST_LINES),
        made(7, LIMIT_MOST, TAGRANGE),
        OPEN,
        posted(*chain_posts(1, 169)),
        settled(511),
        told(f"result: result 1 {NUMBER_LEAST}"),
        [Step(b"listing")],
    )


# --- cells that a run makes -----------------------------------------------


def made_cell_scenes() -> Iterator[Scene]:
    yield from both(
        "a result of nothing, and results that name inputs and made ones",
        program(f"INP 4 6; RUN 4 5; {APPEND}"),
        make(1, 20),
        OPEN,
        settled(3),
        told("result: result 2"),
        listed("NEW 0 3 0 2 4 5", "CAS 1 3 4 1000 1 5", "CAS 2 3 5 1000 3"),
        make(2, 20),
        OPEN,
        posted("5 cell 3 9"),
        settled(3),
        told("result: result 3 3 9"),
        make(3, 5),
        OPEN,
        posted("5 cell 3 9", "4 cell 2 6"),
        settled(5),
        told("result: result 3 2 1002"),
        listed(
            "NEW 0 5 0 3 2 1002 4 5", "CAS 1 5 4 1000 2 2 6 5", "NEW 2 5 0 3 3 9 6 5",
            "CAS 3 5 6 1002 1 5", "CAS 4 5 5 1002 4 3 9",
        ),
    )  # fmt: skip
    yield from both(
        "a list made and then read",
        program("INP 1 0; RUN 0; FUN 2 2; NEW 1 0; CAS 1 4 5; FUN 3 2; GET 0 2;"
                "FUN 3 1; LIT 7; NEW 3 1; NEW 6; CON 2 3;"
                "FUN 2 1; PUT 0; FUN 2; LIT 0; PUT 0; FUN 2 2 3; GET 0 3; FUN 3; NIL"),
        make(1, 7),
        OPEN,
        posted("0 1"),
        settled(7),
        told("result: result 1 7"),
        listed(
            "NEW 0 7 0 1 7 0", "NEW 1 5 1 3 1003 1004 0", "GET 2 5 0 1001 2 1",
            "NEW 3 4 3 1 7 7", "NEW 4 5 6 2", "CAS 5 7 1001 1000 5 1003 1004",
            "GET 6 7 1003 1000 3 7",
        ),
    )  # fmt: skip
    yield from both(
        "a list of new numbers",
        program(f"INP 2 3; RUN 2; {MAP.format(op='SUB', literal=10)}"),
        make(1, 10),
        OPEN,
        posted("0 6", "1 25", "2 cell 1 4", "4 cell 0 3"),
        settled(10),
        told("result: result 3 1002 1004"),
        listed(
            "NEW 0 10 0 3 1002 1004 2", "CAS 1 10 2 1000 2 1 4", "NEW 2 4 3 1 15 1",
            "GET 3 4 1 1002 4 25", "NEW 4 10 0 3 1006 1008 4", "CAS 5 10 4 1004 2 0 3",
            "NEW 6 8 3 1 -4 0", "GET 7 8 0 1006 4 6", "NEW 8 10 0 2 3", "CAS 9 10 3 1008 1",
        ),
    )  # fmt: skip
    yield from both(
        "a list of two numbers sorted",
        program(f"INP 2 3; RUN 2; {SORT}"),
        make(1, 18),
        OPEN,
        posted("0 6", "1 25", "2 cell 1 3", "3 cell 0 4"),
        settled(18),
        told("result: result 3 1013 1014"),
        told("line 13: NEW 13 14 7 1 6 6", "line 14: NEW 14 18 3 3 1016 1017 25 1009"),
        told("line 16: NEW 16 17 7 1 25 25", "line 17: NEW 17 18 1 2"),
        refused(24, "line 18"),
    )


# --- limits ---------------------------------------------------------------


def limit_scenes() -> Iterator[Scene]:
    yield from both(
        "limit 1",
        program(LEAST),
        make(1, 1),
        OPEN,
        settled(1),
        told("result: result 1 0"),
        listed("NEW 0 1 0 1 0"),
        program("INP 1 0; RUN 0; FUN 2 2; GET 0 1; FUN 2 1; PUT 0"),
        make(1, 1),
        OPEN,
        TOO_LARGE,
        program("INP 1 0; RUN; FUN 3; NEW 1; NIL; FUN 3; NIL"),
        make(1, 1),
        OPEN,
        TOO_LARGE,
        make(2, 2),
        OPEN,
        settled(2),
        told("result: result 2"),
        listed("NEW 0 2 0 2", "NEW 1 2 1 2"),
        program("INP 0 1; RUN 0; FUN 3 3; NIL"),
        make(3, 1),
        OPEN,
        settled(1),
        told("result: result 2", "line 0: NEW 0 1 0 2 0"),
    )
    for length in range(5):
        records = 6 * 2**length - 4
        parts = [program(f"INP 1 6; RUN 1; {BRANCHING.format(literal=3)}")]
        for limit, name in ((records, TAGRANGE), (records - 1, RENUMBERING)):
            posts = chain_posts(1, length)
            parts += [made(length, limit, name), OPEN, posted(*posts)]
            result = told(f"result: result 1 {3 * 2**length}")
            parts += [settled(records), result] if limit == records else [TOO_LARGE]
        yield scene(f"tails worked twice, {length} cells, at the limit and below it", *parts)
    yield sorted_scene(15, 512, RENUMBERING, 0)
    yield sorted_scene(15, 512, TAGRANGE, 7)
    yield sorted_scene(15, 511, TAGRANGE, 3)


def sorted_scene(length: int, limit: int, name: str, turned: int) -> Scene:
    """Numbers sorted, in a run of 2 (n + 1)^2 records; the first cell has the least."""
    numbers = list(range(length))
    values = [f"{k} {(k * 7 + turned) % length - 3}" for k in numbers]
    cells = [f"{length + k} cell {k} {length + k + 1}" for k in numbers]
    records = 2 * (length + 1) ** 2
    first = 1005 + 2 * length**2
    end: list[list[Step]] = [TOO_LARGE]
    if limit >= records:
        lines = [f"line {r}" for r in (0, 1, first - 1000, first - 999, records - 1)]
        end = [settled(records), told(f"result: result 3 {first} {first + 1}")]
        end.append([Step(line.encode()) for line in lines])
        end.append(refused(24, f"line {records}"))
    return scene(
        f"{length} numbers sorted, limit {limit}, {name}",
        program(f"INP {length} {length + 1}; RUN {length}; {SORT}"),
        made(length, limit, name),
        OPEN,
        posted(*values, *cells),
        *end,
    )


# --- full programs and inputs ---------------------------------------------

# Function f of 63 reads and enters the next; each has the number read before.
CHAIN_OF_FUNCTIONS = (
    "INP 1 0; RUN 0; FUN 2 2; GET 0 1 0;"
    + "".join(f"FUN 2 1 2; GET 1 {f + 1} 1;" for f in range(1, 63))
    + "FUN 2 1 2; PUT 0"
)


def full_scenes() -> Iterator[Scene]:
    yield from both(
        "64 functions, each read entering the next",
        program(CHAIN_OF_FUNCTIONS),
        make(64, 64),
        OPEN,
        posted("0 -31"),
        settled(64),
        told("result: result 1 -31", "line 63: GET 63 64 0 1000 63 -31 0"),
        refused(24, "line 64"),
        make(63, 63),
        OPEN,
        TOO_LARGE,
    )
    yield scene(
        "512 steps",
        program_step(full_program()),
        made(512, 1, TAGRANGE),
        OPEN,
        settled(1),
        told("result: result 1 3"),
        listed("NEW 0 1 0 1 3"),
    )
    yield scene(
        "a kit of all commands and tails",
        program(KIT),
        made(7, 512, RENUMBERING),
        OPEN,
        posted("0 11", "1 12", "2 cell 1 3"),
        settled(5),
        told("result: result 1 11"),
        listed(
            "NEW 0 5 0 1 11 0 2", "NEW 1 2 1 1 5 5", "NEW 2 3 2 2", "GET 3 5 0 1000 3 11 2",
            "CAS 4 5 2 1000 4 1 3 11",
        ),
    )  # fmt: skip
    yield scene(
        "256 inputs",
        program("INP 255 1; RUN 254 255; FUN 3 2 3; CON 0 1"),
        made(7, 1, TAGRANGE),
        OPEN,
        posted("254 9", "0 1", "255 cell 254 255", "255 empty", "255 cell 0 255"),
        refused(14, "post 256 0", "post 256 empty", "post 257 cell 0 255", "post 65535 0"),
        refused(15, "post 255 0", "post 254 empty"),
        refused(16, "post 255 cell 255 255", "post 255 cell 0 254", "post 255 cell 0 256"),
        settled(1),
        told("result: result 3 254 255", "line 0: NEW 0 1 0 3 254 255 254 255"),
        program("INP 0 256; RUN 255; FUN 3 3; NIL"),
        made(8, 1, RENUMBERING),
        OPEN,
        posted("255 empty", "0 empty"),
        refused(16, "post 255 cell 0 1", "post 0 cell 255 255"),
        settled(1),
        told("result: result 2"),
        listed("NEW 0 1 0 2 255"),
    )


# --- the deepest runs -----------------------------------------------------

# Down a list with a CAS and a GET for each cell, and two GETs at its end.
NESTED_READS = (
    "INP 1 255; RUN 1 0; FUN 2 3 2; CAS 0 1 2 1; FUN 2 2; GET 0 3 0; FUN 2 2 3 2; GET 0 4 1 2;"
    "FUN 2 1 2; GET 1 5 0; FUN 2 1 3 2; CAS 1 1 2 2; FUN 2 1 1; ADD 0 1; PUT 2"
)
# A GET, and then down a list with a NEW and a CAS for each cell.
NESTED_NEWS = (
    "INP 1 255; RUN 0 1; FUN 3 2 3; GET 0 1 0 1; FUN 3 1 2 3; NEW 2 2; CON 1 3;"
    "FUN 3 3; CAS 0 3 4; FUN 3; NIL; FUN 3 2 3; NEW 2 1; CON 0 2"
)
LONGEST = 254  # cells that 255 list inputs hold, with an empty one behind them


def chain_posts(first: int, length: int) -> list[str]:
    """Posts of a list of so many cells in inputs that follow one another; its head is 0."""
    return [f"{k} cell 0 {k + 1}" for k in range(first, first + length)]


def deepest_scenes() -> Iterator[Scene]:
    """512 records, each inside the one before."""
    posts = posted("0 21", *chain_posts(1, LONGEST))
    lines = told(
        "line 0: NEW 0 512 0 1 42 1 0", "line 1: CAS 1 512 1 1000 2 0 2 0",
        "line 2: GET 2 512 0 1000 4 21 2 0", "line 3: CAS 3 512 2 1000 2 0 3 0",
        "line 255: CAS 255 512 128 1000 2 0 129 0", "line 256: GET 256 512 0 1000 4 21 129 0",
        "line 508: GET 508 512 0 1000 4 21 255 0", "line 509: CAS 509 512 255 1000 1 0",
        "line 510: GET 510 512 0 1000 3 21 0", "line 511: GET 511 512 0 1000 5 21 21",
    )  # fmt: skip
    yield from deepest("reads", NESTED_READS, posts, "1 42", lines)
    lines = told(
        "line 0: NEW 0 512 0 3 0 1002 0 1", "line 1: GET 1 512 0 1000 1 21 0 1",
        "line 2: NEW 2 512 2 3 0 1004 1", "line 3: CAS 3 512 1 1002 4 0 2",
        "line 508: NEW 508 512 2 3 0 1510 254", "line 509: CAS 509 512 254 1508 4 0 255",
        "line 510: NEW 510 512 2 2 255", "line 511: CAS 511 512 255 1510 3",
    )  # fmt: skip
    yield from deepest("NEWs and reads", NESTED_NEWS, posts, "3 0 1002", lines)


def deepest(
    what: str, close: str, posts: Sequence[Step], result: str, lines: Sequence[Step]
) -> Iterator[Scene]:
    """For each make of list: the deepest run within the limit, and beyond a lower one."""
    for name in MAKES_OF_LIST:
        yield scene(
            f"512 {what} nested, limit 512, {name}",
            program(close),
            made(512, 512, name),
            OPEN,
            posts,
            settled(512),
            told(f"result: result {result}"),
            lines,
            refused(24, "line 512", "line 65535"),
            [Step(b"listing")],
        )
        yield scene(
            f"512 {what} nested, limit 511, then 510 of them, {name}",
            program(close),
            made(511, 511, name),
            OPEN,
            posts,
            TOO_LARGE,
            refused(13, *READINGS),
            OPEN,
            posted("254 empty"),
            settled(510),
            told(f"result: result {result}"),
            refused(24, "line 510"),
        )
