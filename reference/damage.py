"""Random damage: a well-formed program turned into a text with a known fault.

Each damage takes a random source and a well-formed program and answers a
case, or None where the program offers no place for it.  Since the program was
well-formed, the damage alone decides the answer.
"""

from __future__ import annotations

from random import Random
from typing import Callable, Optional, Sequence, TypeVar

from rows import (
    COMMANDS,
    FIELDS_MOST,
    FORMS,
    TAILS,
    Case,
    Row,
    fault,
    join,
    least_fields,
    most_fields,
    render,
    rows,
    wrong_counts,
)
from wellformed import LIST_CELL, NUMBER_CELL, REGISTERS_MOST, Sheet

T = TypeVar("T")
Damage = Callable[[Random, Sheet], Optional[Case]]

UNKNOWN_WORDS = (
    b"inp", b"Run", b"FuN", b"lit", b"PUt", b"nIL", b"ABS", b"MOD", b"NOT", b"XYZ",
    b"LET", b"IN ", b" IN", b"GE7", b"   ", b"123", b"-12", b"CA\t", b"N\x00L",
    b"ADD"[::-1], b"\xc1DD", b"\xff\xff\xff", b"PU\xd4", b"CO\r", b"...", b"# 1",
)

BAD_FIELDS = (
    b"    -0", b"-00000", b"    05", b"     +", b"    +5", b"      ", b"5     ",
    b"   5  ", b"    5 ", b"     -", b"   - 5", b"   --5", b"   -05", b"000000",
    b"000001", b"  1  2", b"   5-1", b"   1.0", b"    1e", b"   0x5", b"\t    5",
    b"    5\t", b"    5\r", b"    \x005", b"    \xa05", b"    \xb2\xb3", b"  \xd9\xa1 1",
    b"     O", b"     l", b"    1_", b"  1_00", b"     /", b"     :", b"  1,00",
    b"   5\x00\x00", b"-    5", b"     \xb1", b"abcdef", b"    ;1", b"00000-",
)

NOT_THERE = (-1, -2, -99999, 256, 999999)


# --- helpers --------------------------------------------------------------


def lines_of(sheet: Sheet) -> list[bytes]:
    """The lines of a program, without their bytes 10."""
    return [bytes(row) for row in sheet.rows]


def told(note: str, lines: Sequence[bytes], number: int, index: int) -> Case:
    """A case of lines whose fault stands at this index."""
    return Case(note, join(lines), fault(number, index + 1))


def replaced(sheet: Sheet, index: int, *new: Row) -> list[Row]:
    """The program's rows with one of them replaced by others."""
    return [*sheet.rows[:index], *new, *sheet.rows[index + 1 :]]


def pick(rng: Random, options: Sequence[T]) -> Optional[T]:
    """One of the options, or None if there is none."""
    return rng.choice(options) if options else None


def indexes(sheet: Sheet, *words: str) -> list[int]:
    """Where rows with one of these words stand."""
    return [i for i, row in enumerate(sheet.rows) if row.word in words]


# --- layer 1 --------------------------------------------------------------


def bad_length(rng: Random, sheet: Sheet) -> Case:
    """One line gets a length that no line has."""
    lines = lines_of(sheet)
    index = rng.randrange(len(lines))
    line = lines[index]
    note, new = rng.choice(
        (
            ("last byte cut off", line[:-1]),
            ("one byte too many", line + b" "),
            ("field cut short", line + b"     1"[: rng.randint(1, 5)]),
            ("ten fields", line[:3] + b"     1" * 10),
            ("many fields", line[:3] + b"     1" * rng.randint(11, 40)),
            ("line of one byte", line[:1]),
            ("line of two bytes", line[:2]),
            ("line of no bytes", b""),
            ("carriage return", line + b"\r"),
            ("space in front", b" " + line),
        )
    )
    lines[index] = new
    return told(f"length of a line, {note}", lines, 1, index)


def joined_lines(rng: Random, sheet: Sheet) -> Case:
    """The byte 10 between two lines is missing."""
    lines = lines_of(sheet)
    index = rng.randrange(len(lines) - 1)
    lines[index : index + 2] = [lines[index] + lines[index + 1]]
    return told("two lines run together", lines, 1, index)


def unknown_word(rng: Random, sheet: Sheet) -> Case:
    """One line gets a word that is none."""
    lines = lines_of(sheet)
    index = rng.randrange(len(lines))
    word = rng.choice(UNKNOWN_WORDS)
    lines[index] = word + lines[index][3:]
    return told(f"unknown word {word!a}", lines, 2, index)


def bad_field(rng: Random, sheet: Sheet) -> Case:
    """One field of one line is no well-written number."""
    lines = lines_of(sheet)
    index = rng.choice([i for i, row in enumerate(sheet.rows) if row.fields])
    place = 3 + 6 * rng.randrange(len(sheet.rows[index].fields))
    bad = rng.choice(BAD_FIELDS)
    lines[index] = lines[index][:place] + bad + lines[index][place + 6 :]
    return told(f"field {bad!a}", lines, 3, index)


# --- layer 2: positions ---------------------------------------------------


def swapped_lines(rng: Random, sheet: Sheet) -> Case:
    """Two neighbours change places, where that is out of position."""
    kinds = [place_of(row) for row in sheet.rows]
    options = [
        i for i in range(len(kinds) - 1) if {kinds[i], kinds[i + 1]} != {"command"}
    ]
    index = rng.choice(options)
    changed = list(sheet.rows)
    changed[index], changed[index + 1] = changed[index + 1], changed[index]
    # The line that comes too soon is the one out of position, except that a
    # tail may come sooner: then the command behind it is.
    late = kinds[index] == "command" and kinds[index + 1] == "tail"
    return Case("neighbours swapped", render(changed), fault(4, index + 1 + late))


def place_of(row: Row) -> str:
    """What sort of line a row is."""
    if row.word in COMMANDS:
        return "command"
    return "tail" if row.word in TAILS else row.word


def cut_text(rng: Random, sheet: Sheet) -> Case:
    """The text ends behind a line that is no tail."""
    index = rng.choice([i for i, row in enumerate(sheet.rows) if row.word not in TAILS])
    word = sheet.rows[index].word
    return Case(
        f"text ends behind {word}", render(sheet.rows[: index + 1]), fault(4, index + 1)
    )


def dropped_tail(rng: Random, sheet: Sheet) -> Case:
    """A function has no tail."""
    index = rng.choice(indexes(sheet, *TAILS))
    last = index == len(sheet.rows) - 1
    return Case(
        "tail missing", render(replaced(sheet, index)), fault(4, index if last else index + 1)
    )


def dropped_head(rng: Random, sheet: Sheet) -> Case:
    """INP, RUN or a FUN is missing."""
    index = rng.choice(indexes(sheet, "INP", "RUN", "FUN"))
    word = sheet.rows[index].word
    return Case(f"{word} missing", render(replaced(sheet, index)), fault(4, index + 1))


def doubled_line(rng: Random, sheet: Sheet) -> Case:
    """A line that is no command stands twice."""
    index = rng.choice(
        [i for i, row in enumerate(sheet.rows) if row.word not in COMMANDS]
    )
    row = sheet.rows[index]
    return Case(
        f"{row.word} stands twice", render(replaced(sheet, index, row, row)), fault(4, index + 2)
    )


def stray_line(rng: Random, sheet: Sheet) -> Case:
    """A line stands where its word never may."""
    index = rng.choice(indexes(sheet, *TAILS))
    word = rng.choice(("INP", "RUN", *COMMANDS, *TAILS))
    stray = Row(word, (1,) * least_fields(word))
    changed = replaced(sheet, index, sheet.rows[index], stray)
    return Case(f"{word} behind a tail", render(changed), fault(4, index + 2))


# --- layer 2: counts, ranges and limits -----------------------------------


def wrong_count(rng: Random, sheet: Sheet) -> Case:
    """One line has another count of fields than its word admits."""
    index = rng.choice([i for i, row in enumerate(sheet.rows) if wrong_counts(row.word)])
    row = sheet.rows[index]
    count = rng.choice(wrong_counts(row.word))
    fields = (row.fields + (1,) * count)[:count]
    changed = replaced(sheet, index, Row(row.word, fields))
    return Case(f"{row.word} with {count} fields", render(changed), fault(5, index + 1))


def bad_inputs(rng: Random, sheet: Sheet) -> Case:
    """INP passes its range."""
    amounts = rng.choice(
        (
            (0, 0), (257, 0), (0, 257), (200, 100), (-1, 2), (2, -1), (256, 1), (1, 256),
            (-1, -1), (999999, -99999), (129, 128), (512, -256), (-99999, 0),
        )
    )
    changed = replaced(sheet, 0, Row("INP", amounts))
    return Case(f"INP {amounts[0]} {amounts[1]}", render(changed), fault(6, 1))


def bad_kind(rng: Random, sheet: Sheet) -> Case:
    """A FUN names a kind that is none, or a number as its result."""
    index = rng.choice(indexes(sheet, "FUN"))
    row = sheet.rows[index]
    place = rng.randrange(len(row.fields))
    value = rng.choice((0, 4, -1, -2, 12, 999999) + ((1,) if place == 0 else ()))
    changed = replaced(sheet, index, row.with_field(place, value))
    return Case(f"FUN with kind {value}", render(changed), fault(6, index + 1))


def too_many_registers(rng: Random, sheet: Sheet) -> Case:
    """A function gets a seventeenth register."""
    index = rng.choice(indexes(sheet, *TAILS))
    owner = sheet.owners[index]
    fun = sheet.owners.index(owner)
    room = REGISTERS_MOST - len(sheet.scopes[index])
    more = [Row("LIT", (rng.randint(-9, 9),))] * (room + rng.randint(1, 3))
    changed = replaced(sheet, fun, sheet.rows[fun], *more)
    line = fun + 1 + REGISTERS_MOST - len(sheet.signatures[owner].parameters) + 1
    return Case("seventeenth register", render(changed), fault(6, line))


# --- layer 3: references --------------------------------------------------


def missing_reference(rng: Random, sheet: Sheet) -> Optional[Case]:
    """A field names a register, function or input that is not there."""
    names = {"r": "register", "f": "function", "i": "input"}
    options = [
        (i, place, sort)
        for i, row in enumerate(sheet.rows)
        for place, sort in enumerate(row.sorts())
        if sort in names
    ]
    chosen = pick(rng, options)
    if chosen is None:
        return None
    index, place, sort = chosen
    there = {
        "r": len(sheet.scopes[index]),
        "f": len(sheet.signatures),
        "i": len(sheet.inputs),
    }[sort]
    value = rng.choice((there, there, there + 1, *NOT_THERE))
    row = sheet.rows[index].with_field(place, value)
    note = f"{row.word} names {names[sort]} {value}"
    return Case(note, render(replaced(sheet, index, row)), fault(7, index + 1))


# --- layer 3: kinds -------------------------------------------------------


def other_kind(rng: Random, sheet: Sheet) -> Optional[Case]:
    """A field names a register or input of another kind."""
    options = []
    for i, row in enumerate(sheet.rows):
        for place, sort in enumerate(row.sorts()):
            kinds = {"r": sheet.scopes[i], "i": sheet.inputs}.get(sort, ())
            others = [n for n, kind in enumerate(kinds) if kind != kinds[row.fields[place]]]
            if others:
                options.append((i, row.with_field(place, rng.choice(others))))
    return disagreement("operand of another kind", sheet, pick(rng, options))


def other_argument_count(rng: Random, sheet: Sheet) -> Optional[Case]:
    """An argument too few or too many."""
    options = []
    for i in indexes(sheet, "RUN", "NEW", "GET", "CAS"):
        row = sheet.rows[i]
        kinds = sheet.inputs if row.word == "RUN" else sheet.scopes[i]
        if len(row.fields) > least_fields(row.word):
            options.append((i, Row(row.word, row.fields[:-1])))
        if len(row.fields) < most_fields(row.word) and kinds:
            options.append((i, Row(row.word, (*row.fields, rng.randrange(len(kinds))))))
    return disagreement("count of arguments", sheet, pick(rng, options))


def other_function(rng: Random, sheet: Sheet) -> Optional[Case]:
    """A function whose kinds do not fit is named."""
    options = []
    for i in indexes(sheet, "NEW", "GET", "CAS"):
        row = sheet.rows[i]
        for place, sort in enumerate(row.sorts()):
            if sort == "f":
                right = sheet.signatures[row.fields[place]]
                options += [
                    (i, row.with_field(place, f))
                    for f, signature in enumerate(sheet.signatures)
                    if signature.parameters != right.parameters
                    or (row.word != "NEW" and signature.result != right.result)
                ]
    return disagreement("function of other kinds", sheet, pick(rng, options))


def other_tail(rng: Random, sheet: Sheet) -> Optional[Case]:
    """A tail that writes the other kind of result."""
    options = []
    for i in indexes(sheet, *TAILS):
        count = len(sheet.scopes[i])
        if sheet.signatures[sheet.owners[i]].result == NUMBER_CELL:
            options.append((i, Row("NIL")))
            if count:
                options.append((i, Row("CON", (rng.randrange(count), rng.randrange(count)))))
        elif count:
            options.append((i, Row("PUT", (rng.randrange(count),))))
    return disagreement("tail of the other result kind", sheet, pick(rng, options))


def other_result(rng: Random, sheet: Sheet) -> Optional[Case]:
    """Function 0 writes the other kind, so that its own tail does not fit."""
    tail = next(iter(indexes(sheet, *TAILS)))
    right = sheet.signatures[0].result
    fun = sheet.rows[2].with_field(0, NUMBER_CELL + LIST_CELL - right)
    uses = [i for i in indexes(sheet, "NEW", "GET", "CAS") if 0 in called(sheet.rows[i])]
    if any(i < tail for i in uses):
        return None
    return Case("result kind changed", render(replaced(sheet, 2, fun)), fault(8, tail + 1))


def called(row: Row) -> list[int]:
    """The functions that a row names."""
    return [row.fields[place] for place, sort in enumerate(row.sorts()) if sort == "f"]


def disagreement(note: str, sheet: Sheet, change: Optional[tuple[int, Row]]) -> Optional[Case]:
    """The case of a changed row whose kinds disagree."""
    if change is None:
        return None
    index, row = change
    changed = replaced(sheet, index, row)
    return Case(f"{note}, {row.word}", render(changed), fault(8, index + 1))


DAMAGES: dict[int, tuple[Damage, ...]] = {
    1: (bad_length, bad_length, bad_length, joined_lines),
    2: (unknown_word,),
    3: (bad_field,),
    4: (swapped_lines, cut_text, dropped_tail, dropped_head, doubled_line, stray_line),
    5: (wrong_count,),
    6: (bad_inputs, bad_kind, too_many_registers),
    7: (missing_reference,),
    8: (other_kind, other_argument_count, other_function, other_tail, other_result),
}


# --- texts whose answer is not known beforehand ---------------------------


def several(rng: Random, sheet: Sheet) -> Case:
    """Some lines damaged at once, in any layers."""
    lines = lines_of(sheet)
    for index in rng.sample(range(len(lines)), min(len(lines), rng.randint(2, 4))):
        lines[index] = harmed(rng, sheet.rows[index])
    return Case("several damages", join(lines))


def harmed(rng: Random, row: Row) -> bytes:
    """A row with something wrong, most often in a higher layer."""
    line, count = bytes(row), len(row.fields)
    ways = [
        bytes(Row(row.word, (*row.fields, 0)[:FIELDS_MOST])),
        bytes(Row(row.word, row.fields[:-1])),
        bytes(Row(rng.choice((*COMMANDS, *TAILS)), row.fields)),
    ]
    if count:
        place = rng.randrange(count)
        ways += [bytes(row.with_field(place, n)) for n in (-1, 1, 3, 16, 300)]
    if rng.random() < 0.2:
        ways = [line[:-1], rng.choice(UNKNOWN_WORDS) + line[3:], line[:3] + b"     -"]
    return rng.choice(ways)


def noise(rng: Random, sheet: Sheet) -> Case:
    """Single bytes changed, put in or left out."""
    text = bytearray(sheet.text[:-1])
    for _ in range(rng.randint(1, 3)):
        place = rng.randrange(len(text))
        new = rng.choice((rng.randrange(256), *b" 0123-\n"))
        way = rng.choice(("change", "change", "put in", "leave out"))
        text[place : place + (way != "put in")] = [] if way == "leave out" else [new]
    return Case("changed bytes", bytes(text) + b"\n")


def any_order(rng: Random, sheet: Sheet) -> Case:
    """Good lines in some other order."""
    parts = list(sheet.rows)
    for _ in range(rng.randint(1, 3)):
        a, b = rng.randrange(len(parts)), rng.randrange(len(parts))
        parts[a], parts[b] = parts[b], parts[a]
    return Case("lines in another order", render(parts))


def other_numbers(rng: Random, sheet: Sheet) -> Case:
    """Some numbers behind INP changed to small ones, right or wrong."""
    parts = list(sheet.rows)
    places = [(i, p) for i, row in enumerate(parts) for p in range(len(row.fields)) if i]
    for index, place in rng.sample(places, min(len(places), rng.randint(1, 3))):
        parts[index] = parts[index].with_field(place, rng.randint(0, 4))
    return Case("other numbers", render(parts))


def unguided(rng: Random, _: Sheet) -> Case:
    """A text of good form whose numbers are drawn without regard to kinds."""
    count = rng.randint(1, 3)
    parts = rows(
        rng.choice(("INP 1 1; RUN; FUN 2", "INP 2 1; RUN 0; FUN 2 2", "INP 1 2; RUN 1; FUN 3 3"))
    )
    for number in range(count):
        if number:
            kinds = tuple(rng.randint(1, 3) for _ in range(rng.randint(0, 2)))
            parts.append(Row("FUN", (rng.randint(2, 3), *kinds)))
        words = rng.choices(("LIT", *COMMANDS), k=rng.randint(0, 3)) + [rng.choice(TAILS)]
        parts += [unguided_row(rng, word, count) for word in words]
    return Case("numbers without regard to kinds", render(parts))


def unguided_row(rng: Random, word: str, functions: int) -> Row:
    """A row of good form with small numbers."""
    fixed, rest, extra = FORMS[word]
    sorts = fixed + rest * rng.randint(0, min(extra, 2))
    ends = {"f": functions, "r": 3, "v": 9}
    return Row(word, tuple(rng.randrange(ends[sort]) for sort in sorts))


UNKNOWN_ANSWERS: tuple[Callable[[Random, Sheet], Case], ...] = (
    several,
    noise,
    any_order,
    other_numbers,
    unguided,
)
