"""Texts written by hand, each with the answer that the rules give it."""

from __future__ import annotations

from typing import Iterator, Mapping, Sequence

from damage import BAD_FIELDS, UNKNOWN_WORDS
from rows import (
    ARITHMETIC,
    COMMANDS,
    FORMS,
    TAILS,
    Case,
    Row,
    accepted,
    fault,
    join,
    render,
    rows,
    wrong_counts,
)

TEXT_MOST = 65_536
FIELD_SIZE = 6
LINE_LEAST = 3 + 1  # a word and byte 10
LINE_MOST = LINE_LEAST + 9 * FIELD_SIZE

LEAST = "INP 1 0; RUN; FUN 2; LIT 0; PUT 0"

PRICE_TIMES_COUNT = (
    "INP 2 0; RUN 0 1; FUN 2 2 2; GET 0 1 1; FUN 2 1 2; GET 1 2 0;"
    "FUN 2 1 1; MUL 0 1; PUT 2"
)

LIST_SUM = (
    "INP 2 3; RUN 2; FUN 2 3; CAS 0 1 2; FUN 2; LIT 0; PUT 0; FUN 2 2 3; NEW 0 1;"
    "GET 0 3 2; FUN 2 1 2; GET 1 4 0; FUN 2 1 1; ADD 0 1; PUT 2"
)

# Six functions: 0 (2, 3) to 2; 1 (1) to 2; 2 () to 3; 3 (1, 3) to 2;
# 4 (2, 3, 1) to 2; 5 (2, 3) to 3.  The registers of function 0 are 0: 2, 1: 3,
# 2: 1, 3: 1, 4: 2, 5: 3.
KIT = (
    "INP 2 2; RUN 0 2;"  # lines 1, 2
    "FUN 2 2 3; LIT 5; ADD 2 2; NEW 1 2; NEW 2; GET 0 3 1;"  # lines 3 to 8
    "FUN 2 1; PUT 0;"  # lines 9, 10
    "FUN 3; NIL;"  # lines 11, 12
    "FUN 2 1 3; CAS 1 1 4 0;"  # lines 13, 14
    "FUN 2 2 3 1; PUT 2;"  # lines 15, 16
    "FUN 3 2 3; CON 0 1"  # lines 17, 18
)
KIT_ANSWER = accepted(6, 10)

WIDEST = (
    "INP 1 1; RUN 0 1 0 1 0 1; FUN 2 2 3 2 3 2 3; NEW 0 0 1 2 3 4 5; CAS 1 1 2 0 1 2 3;"
    "FUN 2 2 3 2 3; LIT 1; PUT 4; FUN 2 2 3 2 3 2 3; GET 0 3 1 2 3 4 5;"
    "FUN 2 1 3 2 3 2 3; PUT 0"
)

COPY_LIST = (
    "INP 3 4; RUN 6; FUN 3 3; CAS 0 1 2; FUN 3; NIL; FUN 3 2 3; NEW 3 0; NEW 0 1;"
    "CON 2 3; FUN 2 2; GET 0 4; FUN 2 1; LIT -99999; MAX 0 1; LIT 999999; MIN 2 3; PUT 4"
)

ENDLESS = "INP 1 1; RUN 0; FUN 2 2; NEW 0 0; GET 1 1 0; FUN 2 1 2; GET 1 1 1"


def catalogue() -> Iterator[Case]:
    """All texts written by hand."""
    yield from accepted_texts()
    yield from length_texts()
    yield from word_texts()
    yield from field_texts()
    yield from position_texts()
    yield from count_texts()
    yield from range_texts()
    yield from limit_texts()
    yield from missing_texts()
    yield from disagreement_texts()
    yield from crowded_texts()
    yield from largest_texts()


def case(note: str, close: str, expected: str) -> Case:
    """A case of rows written close."""
    return Case(note, render(rows(close)), expected)


def kit(note: str, changes: Mapping[int, str], expected: str) -> Case:
    """A case of the kit with other lines at some numbers."""
    parts = rows(KIT)
    for line, close in changes.items():
        (parts[line - 1],) = rows(close)
    return Case(note, render(parts), expected)


def raw(note: str, lines: Sequence[bytes], expected: str) -> Case:
    """A case of lines given as bytes."""
    return Case(note, join(lines), expected)


def least_lines() -> list[bytes]:
    """The lines of the least program."""
    return [bytes(row) for row in rows(LEAST)]


def with_line(number: int, line: bytes) -> list[bytes]:
    """The lines of the least program, one of them replaced."""
    lines = least_lines()
    lines[number - 1] = line
    return lines


# --- accepted -------------------------------------------------------------


def accepted_texts() -> Iterator[Case]:
    yield case("price times count", PRICE_TIMES_COUNT, accepted(3, 4))
    yield case("list sum", LIST_SUM, accepted(5, 8))
    yield case("program of a new place", LEAST, accepted(1, 2))
    yield case("shortest program", "INP 0 1; RUN; FUN 3; NIL", accepted(1, 1))
    yield case("copy of a list", COPY_LIST, accepted(5, 11))
    yield case("endless program", ENDLESS, accepted(2, 3))
    yield case("widest lines", WIDEST, accepted(4, 6))
    yield case("kit of kinds", KIT, KIT_ANSWER)
    yield kit("last inputs", {2: "RUN 1 3"}, KIT_ANSWER)
    yield kit("one input of a kind", {1: "INP 1 1", 2: "RUN 0 1"}, KIT_ANSWER)
    yield kit("last register of a scope", {8: "GET 4 3 5"}, KIT_ANSWER)
    yield kit("last function", {6: "NEW 5 0 1", 8: "GET 0 3 4"}, KIT_ANSWER)
    yield kit("a function that makes itself", {6: "NEW 0 0 1"}, KIT_ANSWER)
    yield kit("source also an argument", {8: "CAS 1 1 4 2"}, KIT_ANSWER)
    for word in ARITHMETIC:
        yield kit(f"{word} of numbers", {5: f"{word} 2 2"}, KIT_ANSWER)
    for value in (0, 9, -1, -9, 10, 32768, 65536, 99999, 100000, 999999, -99999):
        yield case(f"LIT {value}", LEAST.replace("LIT 0", f"LIT {value}"), accepted(1, 2))
    for amounts in ("256 0", "0 256", "128 128", "255 1", "1 255", "0 1"):
        yield case(f"INP {amounts}", f"INP {amounts}; RUN; FUN 3; NIL", accepted(1, 1))
    yield case("input 255", "INP 255 1; RUN 254 255; FUN 3 2 3; CON 0 1", accepted(1, 1))


# --- layer 1 --------------------------------------------------------------


def length_texts() -> Iterator[Case]:
    yield Case("empty text", b"", fault(1, 0))
    yield Case("one byte 10", b"\n", fault(1, 1))
    yield raw("empty line behind the last", [*least_lines(), b""], fault(1, 6))
    yield raw("empty line in front", [b"", *least_lines()], fault(1, 1))
    yield raw("one byte", with_line(2, b"R"), fault(1, 2))
    yield raw("two bytes", with_line(2, b"RU"), fault(1, 2))
    yield raw("four bytes", with_line(2, b"RUN "), fault(1, 2))
    yield raw("the word text", with_line(2, b"text"), fault(1, 2))
    yield raw("two dots", with_line(2, b".."), fault(1, 2))
    yield raw("field of five columns", with_line(4, b"LIT    0"), fault(1, 4))
    yield raw("field of seven columns", with_line(4, b"LIT      0"), fault(1, 4))
    yield raw("ten fields", with_line(2, b"RUN" + b"     0" * 10), fault(1, 2))
    yield raw("close fields", with_line(1, b"INP 1 0"), fault(1, 1))
    yield raw("carriage returns", [line + b"\r" for line in least_lines()], fault(1, 1))
    yield raw("a line of 300 bytes", with_line(5, b"PUT" + b" " * 297), fault(1, 5))
    yield raw("last line cut", with_line(5, b"PUT     "), fault(1, 5))


def word_texts() -> Iterator[Case]:
    for word in UNKNOWN_WORDS:
        lines = with_line(4, word + b"     0")
        yield raw(f"unknown word {word!a}", lines, fault(2, 4))
    yield raw("comment in a text", with_line(2, b"# remarks"), fault(2, 2))
    yield raw("unknown word alone", [b"TXT"], fault(2, 1))


def field_texts() -> Iterator[Case]:
    for bad in BAD_FIELDS:
        yield raw(f"field {bad!a}", with_line(4, b"LIT" + bad), fault(3, 4))
    yield raw("bad second field", with_line(1, b"INP     1    -0"), fault(3, 1))
    yield raw("bad ninth field", with_line(2, b"RUN" + b"     0" * 8 + b"0     "), fault(3, 2))


# --- layer 2 --------------------------------------------------------------


def position_texts() -> Iterator[Case]:
    yield case("ends behind INP", "INP 1 0", fault(4, 1))
    yield case("ends behind RUN", "INP 1 0; RUN", fault(4, 2))
    yield case("ends behind FUN", "INP 1 0; RUN; FUN 2", fault(4, 3))
    yield case("ends behind a command", "INP 1 0; RUN; FUN 2; LIT 0", fault(4, 4))
    yield case("ends behind a second FUN", LEAST + "; FUN 2", fault(4, 6))
    yield case("RUN missing", "INP 1 0; FUN 2; LIT 0; PUT 0", fault(4, 2))
    yield case("INP missing", "RUN; FUN 2; LIT 0; PUT 0", fault(4, 1))
    yield case("INP and RUN swapped", "RUN; INP 1 0; FUN 2; LIT 0; PUT 0", fault(4, 1))
    yield case("second INP", "INP 1 0; INP 1 0; RUN; FUN 3; NIL", fault(4, 2))
    yield case("second RUN", "INP 1 0; RUN; RUN; FUN 3; NIL", fault(4, 3))
    yield case("late INP", LEAST + "; INP 1 0", fault(4, 6))
    yield case("late RUN", LEAST + "; RUN", fault(4, 6))
    yield case("RUN in a function", "INP 1 0; RUN; FUN 3; RUN; NIL", fault(4, 4))
    yield case("INP in a function", "INP 1 0; RUN; FUN 3; LIT 1; INP 1 0; NIL", fault(4, 5))
    yield case("command for FUN", "INP 1 0; RUN; LIT 0; PUT 0", fault(4, 3))
    yield case("tail for FUN", "INP 1 0; RUN; NIL", fault(4, 3))
    yield case("FUN behind FUN", "INP 1 0; RUN; FUN 3; FUN 3; NIL", fault(4, 4))
    yield case("FUN behind a command", "INP 1 0; RUN; FUN 2; LIT 0; FUN 3; NIL", fault(4, 5))
    for word in COMMANDS:
        row = Row(word, (0,) * len(FORMS[word][0]))
        yield Case(f"{word} behind a tail", render([*rows(LEAST), row]), fault(4, 6))
    for word in TAILS:
        row = Row(word, (0,) * len(FORMS[word][0]))
        yield Case(f"{word} behind a tail", render([*rows(LEAST), row]), fault(4, 6))
    yield case("only a tail", "NIL", fault(4, 1))


def count_texts() -> Iterator[Case]:
    for word in FORMS:
        for count in wrong_counts(word):
            if count <= 3 or count >= 7:
                yield count_text(word, count)


def count_text(word: str, count: int) -> Case:
    """A text in which this word, well placed, has so many fields."""
    row = Row(word, (2,) * count)
    parts = rows("INP 2 0; RUN; FUN 2; LIT 0; PUT 0")
    number = {"INP": 1, "RUN": 2, "FUN": 3}.get(word, 5 if word in TAILS else 4)
    parts[number - 1] = row
    return Case(f"{word} with {count} fields", render(parts), fault(5, number))


def range_texts() -> Iterator[Case]:
    for amounts in (
        "0 0", "257 0", "0 257", "200 100", "256 1", "1 256", "129 128", "-1 2", "2 -1",
        "-1 -1", "999999 0", "300 -100", "-99999 999999",
    ):
        yield case(f"INP {amounts}", f"INP {amounts}; RUN; FUN 3; NIL", fault(6, 1))
    for kinds in (
        "1", "4", "0", "-2", "23", "2 0", "2 4", "3 -1", "2 1 2 3 1 2 4", "3 2 0 1", "1 1",
    ):
        yield case(f"FUN {kinds}", f"INP 1 0; RUN; FUN {kinds}; LIT 0; PUT 0", fault(6, 3))
    yield case("later FUN 1", LEAST + "; FUN 1; LIT 0; PUT 0", fault(6, 6))


def limit_texts() -> Iterator[Case]:
    head = rows("INP 1 0; RUN; FUN 2")
    literals = [Row("LIT", (7,))] * 17
    put = Row("PUT", (0,))
    yield Case("sixteen registers", render([*head, *literals[:16], put]), accepted(1, 17))
    yield Case("seventeen registers", render([*head, *literals, put]), fault(6, 20))
    wide = rows("INP 1 0; RUN 0 0 0 0 0 0; FUN 2 2 2 2 2 2 2")
    last = Row("PUT", (15,))
    ten, eleven = ([*wide, *literals[:count], last] for count in (10, 11))
    yield Case("six parameters, ten commands", render(ten), accepted(1, 11))
    yield Case("six parameters, eleven commands", render(eleven), fault(6, 14))
    function = rows("FUN 3; NIL")
    start = rows("INP 1 0; RUN")
    yield Case("64 functions", render(start + function * 64), accepted(64, 64))
    yield Case("65 functions", render(start + function * 65), fault(6, 131))
    far = rows("INP 1 0; RUN; FUN 2; NEW 63; PUT 0") + function * 63
    yield Case("function 63 named, kinds disagree", render(far), fault(8, 5))
    full = full_program()
    yield Case("512 steps", render(full), accepted(32, 512))
    yield Case("513th step a tail", render(full + rows("FUN 3; NIL")), fault(6, 548))
    yield Case("513th step a command", render(full + rows("FUN 2; LIT 1; PUT 0")), fault(6, 548))
    one_more = full[:-1] + rows("LIT 1; PUT 0")
    yield Case("512th step a command, then a tail", render(one_more), fault(6, 547))


def full_program() -> list[Row]:
    """512 steps in 32 functions of 15 commands and a tail: lines 1 to 546."""
    function = rows("FUN 2" + "; LIT 3" * 15 + "; PUT 14")
    return rows("INP 1 0; RUN") + function * 32


# --- layer 3 --------------------------------------------------------------


def missing_texts() -> Iterator[Case]:
    for line, closes in (
        (2, ("RUN 4 2", "RUN -1 2", "RUN 0 256", "RUN 0 4", "RUN 999999 2")),
        (5, ("ADD 3 2", "SUB 2 3", "MUL -1 2", "DIV 2 -1", "MIN 2 16", "MAX 999999 2")),
        (6, ("NEW 6 2", "NEW -1 2", "NEW 64 2", "NEW 1 4", "NEW 1 -1")),
        (8, ("GET 6 3 1", "GET -1 3 1", "GET 0 6 1", "GET 0 -3 1", "GET 0 3 6", "GET 0 3 -1")),
        (10, ("PUT 1", "PUT -1")),
        (14, ("CAS 2 1 4 0", "CAS 1 6 4 0", "CAS 1 1 6 0", "CAS 1 1 4 2", "CAS 1 1 -4 0")),
        (18, ("CON 2 1", "CON 0 2", "CON -1 1", "CON 0 -1")),
    ):
        for close in closes:
            yield kit(f"not there in {close}", {line: close}, fault(7, line))
    yield case("list input not there", "INP 1 0; RUN 1; FUN 3 3; NIL", fault(7, 2))
    yield case("no register at all", "INP 1 0; RUN; FUN 2; PUT 0", fault(7, 4))
    yield case("first command names itself", "INP 1 0; RUN; FUN 2; ADD 0 0; PUT 0", fault(7, 4))
    yield case("register of another function", LEAST + "; FUN 2; PUT 0", fault(7, 7))


def disagreement_texts() -> Iterator[Case]:
    for line, closes in (
        (2, ("RUN", "RUN 0", "RUN 2 2", "RUN 0 1", "RUN 2 0", "RUN 0 2 2")),
        (5, tuple(f"{word} 0 2" for word in ARITHMETIC)),
        (5, tuple(f"{word} 2 1" for word in ARITHMETIC)),
        (6, ("NEW 1 0", "NEW 1 1", "NEW 1", "NEW 1 2 2", "NEW 2 2", "NEW 0 1 0", "NEW 4 0 1")),
        (7, ("NEW 2 0", "NEW 1", "NEW 5")),
        (8, ("GET 1 3 1", "GET 2 3 1", "GET 5 3 1")),  # source of another kind
        (8, ("GET 0 3", "GET 0 3 1 1", "GET 0 3 0", "GET 0 3 2", "GET 0 2", "GET 0 5 1")),
        (8, ("CAS 0 1 4 2", "CAS 2 1 4 2", "CAS 4 1 4 2")),  # source of another kind
        (8, ("PUT 0", "PUT 1", "PUT 4", "NIL", "CON 0 1")),
        (10, ("NIL",)),
        (14, ("CAS 0 1 4 0", "CAS 1 2 4 0", "CAS 1 3 4 0", "CAS 1 1 1 0", "CAS 1 1 5 0")),
        (14, ("CAS 1 4 1 0", "CAS 1 1 4", "CAS 1 1 4 1", "CAS 1 1 4 0 0", "CAS 1 4 4 0")),
        (16, ("PUT 0", "PUT 1", "NIL", "CON 0 1")),
        (18, ("CON 1 0", "CON 0 0", "CON 1 1", "PUT 0", "PUT 1")),
    ):
        for close in closes:
            yield kit(f"disagreement in {close}", {line: close}, fault(8, line))
    yield from result_texts()


def result_texts() -> Iterator[Case]:
    """Disagreements in the kind of a result alone."""
    yield case("PUT of a number for a list", "INP 1 0; RUN; FUN 3; LIT 1; PUT 0", fault(8, 5))
    yield case("NIL for a number", "INP 1 0; RUN; FUN 2; NIL", fault(8, 4))
    yield case("CON for a number", "INP 1 1; RUN 0 1; FUN 2 2 3; CON 0 1", fault(8, 4))
    yield case(
        "GET enters a list function",
        "INP 1 0; RUN 0; FUN 2 2; GET 0 1; FUN 3 1; NIL", fault(8, 4),
    )
    yield case(
        "GET from a list function enters a number one",
        "INP 1 0; RUN 0; FUN 3 2; GET 0 1; FUN 2 1; PUT 0", fault(8, 4),
    )
    yield case(
        "CAS, the empty side writes a number",
        "INP 0 1; RUN 0; FUN 3 3; CAS 0 1 2; FUN 2; LIT 0; PUT 0; FUN 3 2 3; CON 0 1", fault(8, 4),
    )
    yield case(
        "CAS, the cell side writes a number",
        "INP 0 1; RUN 0; FUN 3 3; CAS 0 1 2; FUN 3; NIL; FUN 2 2 3; LIT 0; PUT 2", fault(8, 4),
    )
    yield case(
        "CAS, both sides write a list for a number",
        "INP 0 1; RUN 0; FUN 2 3; CAS 0 1 2; FUN 3; NIL; FUN 3 2 3; NIL", fault(8, 4),
    )
    yield case(
        "CAS, head and tail in the wrong order",
        "INP 0 1; RUN 0; FUN 3 3; CAS 0 1 2; FUN 3; NIL; FUN 3 3 2; NIL", fault(8, 4),
    )
    yield case(
        "GET, the number in the last place",
        "INP 1 0; RUN 0; FUN 2 2; GET 0 1 0; FUN 2 2 1; PUT 1", fault(8, 4),
    )
    yield case(
        "a list made by NEW is read by GET",
        "INP 1 0; RUN; FUN 2; NEW 1; GET 0 2; FUN 3; NIL; FUN 2 1; PUT 0", fault(8, 5),
    )
    yield case("function 0 wants a number", "INP 1 0; RUN 0; FUN 2 1; PUT 0", fault(8, 2))


# --- several faults -------------------------------------------------------


def crowded_texts() -> Iterator[Case]:
    """Two or more faults in one line, in some lines, in some layers."""
    yield raw("length and word", with_line(4, b"lit    0"), fault(1, 4))
    yield raw("length and field", with_line(4, b"LIT    -0"[:8]), fault(1, 4))
    yield raw("word and field", with_line(4, b"lit    -0"), fault(2, 4))
    yield raw("field and position", with_line(1, b"RUN    -0"), fault(3, 1))
    yield raw("ten bad fields", with_line(4, b"xyz" + b"     x" * 10), fault(1, 4))
    end = [b"FUN     3", b"NIL"]
    yield raw("word first, length later", [b"inp     1     0", b"RU", *end], fault(2, 1))
    yield raw("field first, word later", [b"INP     1     x", b"run", *end], fault(3, 1))
    yield case("position and count", "INP 1 0; RUN; LIT; PUT 0", fault(4, 3))
    yield case("position and range", "INP 1 0; INP 0 0; RUN; FUN 3; NIL", fault(4, 2))
    yield case("count and range", "INP 0 0 0; RUN; FUN 3; NIL", fault(5, 1))
    yield case("count and kind", "INP 1 0; RUN; FUN 9 9 9 9 9 9 9 9; NIL", fault(5, 3))
    yield case("early end and count", "INP 1", fault(4, 1))
    yield case("early end and range", "INP 0 0", fault(4, 1))
    yield case("early end and kind", "INP 1 0; RUN; FUN 1", fault(4, 3))
    yield case("early end and reference", "INP 1 0; RUN; FUN 2; ADD 5 5", fault(4, 4))
    yield case("range before early end", "INP 0 0; RUN; FUN 2", fault(6, 1))
    yield case("count before position", "INP 1; RUN; FUN 3; FUN 3; NIL", fault(5, 1))
    yield case("position before count", "RUN; INP 1; FUN 3; NIL", fault(4, 1))
    filled = "INP 1 0; RUN; FUN 2" + "; LIT 1" * 16
    yield case("early end at the 17th register", filled + "; LIT 1", fault(4, 20))
    yield case("17th register with two fields", filled + "; LIT 1 1; PUT 0", fault(5, 20))
    functions = rows("INP 1 0; RUN" + "; FUN 3; NIL" * 64)
    yield Case("early end at the 65th function", render(functions + rows("FUN 3")), fault(4, 131))
    yield Case("65th function without fields", render(functions + rows("FUN; NIL")), fault(5, 131))
    end = full_program() + rows("FUN 2; LIT 1")
    yield Case("early end at the 513th step", render(end), fault(4, 548))
    yield kit("not there and kind", {5: "ADD 0 9"}, fault(7, 5))
    yield kit("not there and too many", {2: "RUN 0 2 4"}, fault(7, 2))
    yield kit("not there and too few", {8: "GET 9 3"}, fault(7, 8))
    yield kit("function not there, source a list", {8: "GET 1 6 1"}, fault(7, 8))
    yield kit("kind first, not there later", {5: "ADD 0 2", 8: "GET 9 3 1"}, fault(8, 5))
    yield kit("not there first, kind later", {5: "ADD 9 2", 8: "GET 1 3 1"}, fault(7, 5))
    yield kit("faulty NEW and its register", {6: "NEW 9 2", 8: "GET 4 3 1"}, fault(7, 6))
    yield kit("CON in a number function, not there", {10: "CON 0 1"}, fault(7, 10))
    yield kit("PUT in a list function, not there", {12: "PUT 0"}, fault(7, 12))
    yield kit("layer 3 first, layer 2 later", {2: "RUN 9 9", 18: "CON 0"}, fault(5, 18))
    yield kit("layer 3 first, range later", {5: "ADD 0 9", 17: "FUN 1 2 3"}, fault(6, 17))
    yield layered()
    yield case("range and layer 3", "INP 257 0; RUN 300; FUN 2 2; PUT 0", fault(6, 1))


def layered() -> Case:
    """Layer 3 in the second line, layer 2 in the fifth, layer 1 in the last."""
    lines = [bytes(row) for row in rows(KIT)]
    lines[1] = b"RUN     9     9"
    lines[4] = b"ADD     2"
    lines[17] = b"CON     0    01"
    return raw("all three layers, the lowest last", lines, fault(3, 18))


# --- the largest texts ----------------------------------------------------


def largest_texts() -> Iterator[Case]:
    """Texts at the limit of length; the 513th step is in line 548."""
    yield Case("text of 65,536 bytes", sized(TEXT_MOST), fault(6, 548))
    yield Case("text of 65,537 bytes", sized(TEXT_MOST)[:-1] + b" \n", fault(1, 0))
    yield Case("text of 65,538 bytes", sized(TEXT_MOST + 2), fault(1, 0))


def sized(size: int) -> bytes:
    """A text of so many bytes (an even number), its lines good in themselves."""
    text = render(full_program() + rows("FUN 3; NIL"))
    left = size - len(text)
    sizes = []
    while left > 0:
        if left > 2 * LINE_MOST:
            sizes.append(LINE_MOST)
        elif left > LINE_MOST or (left - LINE_LEAST) % FIELD_SIZE:
            sizes.append(LINE_LEAST)
        else:
            sizes.append(left)
        left -= sizes[-1]
    widths = [(one - LINE_LEAST) // FIELD_SIZE for one in sizes]
    return text + render(Row("RUN", (1,) * width) for width in widths)
