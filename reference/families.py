"""Programs of a few families, random ones, with what plain Python foretells of them.

A draft is a program with contents for its inputs and the outcome: how many
records the run makes, and the result.  The outcomes come from formulas and from
plain Python on the numbers of a list, never from the reference of sheets.

The programs over lists are written without their INP and RUN lines, since those
tell how many inputs there are; function 0 is given the first list input, or the
first two.
"""

from __future__ import annotations

from dataclasses import dataclass
from fractions import Fraction
from itertools import cycle, islice
from random import Random
from typing import Callable, NamedTuple, Optional, Sequence

from catalogue import PRICE_TIMES_COUNT
from rows import ARITHMETIC, Row, render, rows
from steps import LIMIT_MOST, NUMBER_LEAST, NUMBER_MOST

# --- programs over a list -------------------------------------------------

# From the last number to the first: {op} of the rest's result and a number.
RIGHT_FOLD = (
    "FUN 2 3; CAS 0 1 2; FUN 2; LIT {literal}; PUT 0; FUN 2 2 3; NEW 0 1; GET 0 3 2;"
    "FUN 2 1 2; GET 1 4 0; FUN 2 1 1; {op} 0 1; PUT 2"
)
# From the first number to the last, carried along: {op} of a number and what is carried.
LEFT_FOLD = (
    "FUN 2 3; LIT {literal}; CAS 0 1 2 1; FUN 2 1; PUT 0; FUN 2 2 3 1; GET 0 3 1 2;"
    "FUN 2 1 3 1; {op} 0 2; CAS 1 1 2 3"
)
# A list of new numbers, each {op} of a number and the literal.
MAP = (
    "FUN 3 3; CAS 0 1 2; FUN 3; NIL; FUN 3 2 3; NEW 3 0; NEW 0 1; CON 2 3;"
    "FUN 2 2; GET 0 4; FUN 2 1; LIT {literal}; {op} 0 1; PUT 2"
)
# A list of the same heads in new cells.
COPY_OF_CELLS = "FUN 3 3; CAS 0 1 2; FUN 3; NIL; FUN 3 2 3; NEW 0 1; CON 0 2"
# The list turned round, by way of a second list that grows.
REVERSE = (
    "FUN 3 3; NEW 3; CAS 0 1 2 1; FUN 3 3; CAS 0 3 4; FUN 3 2 3 3; NEW 4 0 2;"
    "CAS 1 1 2 3; FUN 3; NIL; FUN 3 2 3; CON 0 1"
)
# The sum of a list that is itself made: each number doubled.
SUM_OF_DOUBLES = (
    "FUN 2 3; NEW 5 0; CAS 1 1 2; FUN 2; LIT 0; PUT 0; FUN 2 2 3; NEW 9 1;"
    "GET 0 3 2; FUN 2 1 2; GET 1 4 0; FUN 2 1 1; ADD 0 1; PUT 2;"
    "FUN 3 3; CAS 0 6 7; FUN 3; NIL; FUN 3 2 3; NEW 8 0; NEW 5 1; CON 2 3; FUN 2 2; GET 0 10;"
    "FUN 2 3; CAS 0 1 2; FUN 2 1; ADD 0 0; PUT 1"
)
# Each cell works its tail twice, so the records double with each cell.
BRANCHING = (
    "FUN 2 3; CAS 0 1 2; FUN 2; LIT {literal}; PUT 0; FUN 2 2 3; NEW 0 1; NEW 0 1; GET 2 3 3;"
    "FUN 2 1 2; GET 1 4 0; FUN 2 1 1; ADD 0 1; PUT 2"
)
# The list sorted: each number is put into the sorted rest, smaller ones in front.
SORT = (
    "FUN 3 3; CAS 0 1 2; FUN 3; NIL; FUN 3 2 3; NEW 0 1; GET 0 3 2; FUN 3 1 3; CAS 1 4 5 0;"
    "FUN 3 1; NEW 7 0; NEW 1; CON 1 2; FUN 3 2 3 1; GET 0 6 1 2;"
    "FUN 3 1 3 1; MIN 0 2; MAX 0 2; NEW 7 3; NEW 3 4 1; CON 5 6; FUN 2 1; PUT 0"
)
# The cells of the first list, then the second list.
APPEND = (
    "FUN 3 3 3; CAS 0 1 2 1; FUN 3 3; CAS 0 3 4; FUN 3 2 3 3; NEW 0 1 2;"
    "CON 0 3; FUN 3; NIL; FUN 3 2 3; CON 0 1"
)
# The sum of the products of two lists, prices and counts.
STOCK_VALUE = (
    "FUN 2 3 3; CAS 0 1 2 1; FUN 2 3; LIT 0; PUT 1; FUN 2 2 3 3; CAS 2 3 4 0 1;"
    "FUN 2 2 3; LIT 0; PUT 2; FUN 2 2 3 2 3; NEW 0 3 1; GET 2 5 0 4; FUN 2 1 2 2; GET 1 6 0 2;"
    "FUN 2 1 1 2; MUL 0 1; GET 2 7 3; FUN 2 1 1; ADD 0 1; PUT 2"
)


def number_at(index: int, otherwise: int) -> str:
    """A program that reads a list as far as one number, or puts another where it ends."""
    steps = "".join(f"FUN 2 2 3; CAS 1 1 {f + 3};" for f in range(index))
    start = f"FUN 2 3; CAS 0 1 2; FUN 2; LIT {otherwise}; PUT 0;"
    return f"{start} {steps} FUN 2 2 3; GET 0 {index + 3}; FUN 2 1; PUT 0"


# --- drafts ---------------------------------------------------------------


class Outcome(NamedTuple):
    """What a run makes: so many records (None: without end), and the result."""

    records: Optional[int]
    result: Optional[str] = None

    def within(self, limit: int) -> bool:
        """Whether a sheet of this limit can be settled so."""
        return self.records is not None and self.records <= limit


ENDLESS = Outcome(None)


@dataclass(frozen=True)
class Draft:
    """A program, posts for its inputs, and the outcomes: with no post at all, with
    the posts, and with the smaller ones behind them."""

    note: str
    text: bytes
    posts: tuple[str, ...]
    unposted: Outcome
    outcome: Outcome
    smaller: tuple[str, ...] = ()
    smaller_outcome: Outcome = ENDLESS
    foretold: bool = True

    @property
    def amounts(self) -> tuple[int, int]:
        """How many inputs there are of each kind."""
        line = self.text.split(b"\n")[0]
        return int(line[3:9]), int(line[9:15])


class Item(NamedTuple):
    """A number of a list: the input that is the head of its cell, and what it holds."""

    head: int
    value: int


Items = Sequence[Item]


@dataclass(frozen=True)
class Family:
    """A program over one list, and its outcome on any list."""

    note: str
    body: str
    model: Callable[[Items], Outcome]
    most: int = LIMIT_MOST  # numbers that its lists should have
    reads_all: bool = True


# --- arithmetic, a second time --------------------------------------------


def saturated(value: int) -> int:
    """A number beyond an end becomes that end."""
    if value > NUMBER_MOST:
        return NUMBER_MOST
    return NUMBER_LEAST if value < NUMBER_LEAST else value


WORKED: dict[str, Callable[[int, int], int]] = {
    "ADD": lambda a, b: a + b,
    "SUB": lambda a, b: a - b,
    "MUL": lambda a, b: a * b,
    "DIV": lambda a, b: int(Fraction(a, b)) if b else 0,  # int drops the fraction
    "MIN": lambda a, b: a if a < b else b,
    "MAX": lambda a, b: a if a > b else b,
}


def worked(op: str, a: int, b: int) -> int:
    """The result of an operation."""
    return saturated(WORKED[op](a, b))


# --- families over one list -----------------------------------------------


def number_result(value: int) -> str:
    return f"1 {value}"


def right_fold(op: str, literal: int) -> Family:
    def model(items: Items) -> Outcome:
        value = literal
        for item in reversed(items):
            value = worked(op, value, item.value)
        return Outcome(4 * len(items) + 2, number_result(value))

    body = RIGHT_FOLD.format(op=op, literal=literal)
    return Family(f"{op} from the last number on", body, model)


def left_fold(op: str, literal: int) -> Family:
    def model(items: Items) -> Outcome:
        value = literal
        for item in items:
            value = worked(op, item.value, value)
        return Outcome(2 * len(items) + 2, number_result(value))

    return Family(f"{op} carried along", LEFT_FOLD.format(op=op, literal=literal), model)


def list_map(op: str, literal: int) -> Family:
    def model(items: Items) -> Outcome:
        return Outcome(4 * len(items) + 2, "3 1002 1004" if items else "2")

    return Family(f"{op} {literal} of each number", MAP.format(op=op, literal=literal), model)


def copy_of_cells() -> Family:
    def model(items: Items) -> Outcome:
        return Outcome(2 * len(items) + 2, f"3 {items[0].head} 1002" if items else "2")

    return Family("copy of cells", COPY_OF_CELLS, model)


def reverse() -> Family:
    def model(items: Items) -> Outcome:
        grown = 999 + 2 * len(items)  # the list that grew, one number before the end
        result = f"3 {items[-1].head} {grown}" if items else "2"
        return Outcome(2 * len(items) + 4, result)

    return Family("list turned round", REVERSE, model)


def sum_of_doubles() -> Family:
    def model(items: Items) -> Outcome:
        value = 0
        for item in reversed(items):
            value = worked("ADD", value, worked("ADD", item.value, item.value))
        return Outcome(8 * len(items) + 4, number_result(value))

    return Family("sum of doubles", SUM_OF_DOUBLES, model)


def branching(literal: int) -> Family:
    def model(items: Items) -> Outcome:
        value = literal
        for _ in items:
            value = worked("ADD", value, value)
        return Outcome(6 * 2 ** len(items) - 4, number_result(value))

    return Family("tails worked twice", BRANCHING.format(literal=literal), model, 8)


def sort() -> Family:
    def model(items: Items) -> Outcome:
        size = len(items)
        before = 2 * size * size  # records of the sorted rest
        first = 1004 + before if size == 1 else 1005 + before
        return Outcome(2 * (size + 1) ** 2, f"3 {first} {first + 1}" if items else "2")

    return Family("list sorted", SORT, model, 16)


def number_of_list(index: int, otherwise: int) -> Family:
    def model(items: Items) -> Outcome:
        if len(items) <= index:
            return Outcome(len(items) + 2, number_result(otherwise))
        return Outcome(index + 3, number_result(items[index].value))

    body = number_at(index, otherwise)
    return Family(f"number {index} of a list", body, model, 16, reads_all=False)


LITERALS = (0, 0, 1, 2, -1, 3, -7, 10, 99999, 999999, -99999)


def random_family(rng: Random) -> Family:
    """One of the families over one list."""
    op, literal = rng.choice(ARITHMETIC), rng.choice(LITERALS)
    return rng.choice((
        right_fold("ADD", 0), right_fold(op, literal), right_fold(op, literal),
        left_fold("ADD", 0), left_fold(op, literal), left_fold(op, literal),
        list_map(op, literal), copy_of_cells(), reverse(), sum_of_doubles(),
        branching(literal), sort(), number_of_list(rng.choice((0, 1, 2, 5, 12)), literal),
    ))  # fmt: skip


# --- lists in the inputs --------------------------------------------------

VALUES = (0, 1, 1, 2, 3, 5, 7, 12, 25, 150, -1, -2, -40, 100000, -65536)
END_VALUES = (NUMBER_MOST, NUMBER_LEAST, NUMBER_MOST - 1, NUMBER_LEAST + 1, 46341, -46341)
LENGTHS = (0, 1, 1, 2, 2, 3, 3, 4, 5, 6, 8, 10, 13, 15)
LONG_LENGTHS = (25, 40, 62, 63, 64, 65, 127, 128, 170, 253)
INPUTS_MOST = 256


def random_value(rng: Random) -> int:
    """A number of any size, often a small one or one near an end."""
    odd = rng.random()
    if odd < 0.7:
        return rng.choice(VALUES)
    return rng.choice(END_VALUES) if odd < 0.85 else rng.randint(NUMBER_LEAST, NUMBER_MOST)


def random_values(rng: Random, count: int) -> list[int]:
    """So many numbers; half of such lists have small ones only."""
    small = rng.random() < 0.5
    return [rng.choice(VALUES) if small else random_value(rng) for _ in range(count)]


def random_length(rng: Random, most: int) -> int:
    """How long a list is, now and then very long."""
    lengths = LONG_LENGTHS if rng.random() < 0.2 else LENGTHS
    return rng.choice([length for length in lengths if length <= most] or [most])


class Shelf:
    """Inputs in which lists are laid out; an input of a kind is taken once."""

    def __init__(self, rng: Random, numbers: int, lists: int) -> None:
        self.rng = rng
        self.numbers = numbers
        self.lists = lists
        self.values = random_values(rng, numbers)
        self.free = list(range(numbers, numbers + lists))

    def number_posts(self) -> list[str]:
        """Posts of all numbers; one that is 0 may be left out."""
        return [
            f"{k} {value}"
            for k, value in enumerate(self.values)
            if value or self.rng.random() < 0.5
        ]

    def item(self) -> Item:
        """A number input, any one, as the head of a cell."""
        head = self.rng.randrange(self.numbers)
        return Item(head, self.values[head])

    def take(self, count: int) -> list[int]:
        """So many list inputs, the first free one in front, the others in any order."""
        first, *others = self.free
        taken = [first, *self.rng.sample(others, count - 1)]
        self.free = [one for one in self.free if one not in taken]
        return taken

    def list_of(self, length: int) -> tuple[list[Item], list[str]]:
        """A list of so many numbers, and the posts that lay it out."""
        chain = self.take(length + 1)
        items = [self.item() for _ in range(length)]
        posts = cell_posts(chain, items)
        if self.rng.random() < 0.3:
            posts.append(f"{chain[-1]} empty")
        return items, posts

    def circle_of(self, length: int) -> tuple[list[Item], list[str]]:
        """A list that runs into a circle, unrolled for a while, and its posts."""
        chain = self.take(length)
        items = [self.item() for _ in range(length)]
        back = self.rng.randrange(length)
        unrolled = islice(cycle(items[back:]), 40)
        return [*items[:back], *unrolled], cell_posts([*chain, chain[back]], items)


def cell_posts(chain: Sequence[int], items: Items) -> list[str]:
    """Posts of cells from each input of a chain to the next."""
    return [f"{at} cell {item.head} {to}" for at, item, to in zip(chain, items, chain[1:])]


def shuffled(rng: Random, posts: list[str]) -> tuple[str, ...]:
    """Posts in any order; every input is set by one at most."""
    return tuple(rng.sample(posts, len(posts)))


def headed(numbers: int, lists: int, given: int, body: str) -> bytes:
    """The text of a program over so many inputs, the first lists given to function 0."""
    run = Row("RUN", tuple(range(numbers, numbers + given)))
    return render([Row("INP", (numbers, lists)), run, *rows(body)])


# --- drafts of the families -----------------------------------------------


def list_draft(rng: Random) -> Draft:
    """A family over one list that has an end."""
    return draft_over(rng, random_family(rng))


def draft_over(rng: Random, family: Family, length: Optional[int] = None) -> Draft:
    """A family on a list of some length."""
    if length is None:
        length = random_length(rng, family.most)
    lists = min(INPUTS_MOST - 1, length + 1 + rng.choice((0, 0, 1, 4)))
    numbers = min(INPUTS_MOST - lists, rng.choice((1, 2, 3, 5, 8)))
    shelf = Shelf(rng, numbers, lists)
    items, posts = shelf.list_of(length)
    return Draft(
        note=f"{family.note}, {length} numbers",
        text=headed(numbers, lists, 1, family.body),
        posts=shuffled(rng, shelf.number_posts() + posts),
        unposted=family.model([]),
        outcome=family.model(items),
        smaller=(f"{numbers} empty",),
        smaller_outcome=family.model([]),
    )


def circle_draft(rng: Random) -> Draft:
    """A family over a list that runs into a circle."""
    family = random_family(rng)
    length = rng.choice((1, 1, 2, 2, 3, 5, 9))
    numbers, lists = rng.choice((1, 2, 4)), length + rng.choice((0, 0, 2))
    shelf = Shelf(rng, numbers, lists)
    items, posts = shelf.circle_of(length)
    return Draft(
        note=f"{family.note}, a list in a circle",
        text=headed(numbers, lists, 1, family.body),
        posts=shuffled(rng, shelf.number_posts() + posts),
        unposted=family.model([]),
        outcome=ENDLESS if family.reads_all else family.model(items),
        smaller=(f"{numbers} empty",),
        smaller_outcome=family.model([]),
    )


def append_model(first: Items, second: Items, second_tail: int) -> Outcome:
    """Two lists behind one another; the second may share its cells with the inputs."""
    if first:
        result = f"3 {first[0].head} 1002"
    else:
        result = f"3 {second[0].head} {second_tail}" if second else "2"
    return Outcome(2 * len(first) + 3, result)


def append_draft(rng: Random) -> Draft:
    """One list behind another."""
    one, other = random_length(rng, 120), rng.choice((0, 1, 2, 3))
    numbers, lists = rng.choice((1, 2, 4)), one + other + 2
    shelf = Shelf(rng, numbers, lists)
    second_start = shelf.free.pop(1)
    first, posts = shelf.list_of(one)
    shelf.free.insert(0, second_start)
    second, second_posts = shelf.list_of(other)
    second_tail = int(second_posts[0].split()[-1]) if second else 0
    return Draft(
        note=f"lists of {one} and {other} numbers behind one another",
        text=headed(numbers, lists, 2, APPEND),
        posts=shuffled(rng, shelf.number_posts() + posts + second_posts),
        unposted=append_model([], [], 0),
        outcome=append_model(first, second, second_tail),
        smaller=(f"{numbers} empty",),
        smaller_outcome=append_model([], second, second_tail),
    )


def stock_value_model(prices: Items, counts: Items) -> Outcome:
    """The sum of products; the shorter list ends it, the prices first."""
    pairs = [(price.value, count.value) for price, count in zip(prices, counts)]
    value = 0
    for price, count in reversed(pairs):
        value = worked("ADD", value, worked("MUL", count, price))
    ends = 1 if len(prices) <= len(counts) else 2
    return Outcome(1 + 6 * len(pairs) + ends, number_result(value))


def stock_value_draft(rng: Random) -> Draft:
    """Prices times counts, now and then with prices in a circle."""
    one = random_length(rng, 120)
    other = max(0, one + rng.choice((0, 0, 0, 1, -1, -2)))
    numbers, lists = rng.choice((2, 4, 7)), one + other + 2
    shelf = Shelf(rng, numbers, lists)
    counts_start = shelf.free.pop(1)
    in_a_circle = 0 < one and other < 30 and rng.random() < 0.25
    prices, posts = shelf.circle_of(one) if in_a_circle else shelf.list_of(one)
    shelf.free.insert(0, counts_start)
    counts, count_posts = shelf.list_of(other)
    kind = "prices in a circle" if in_a_circle else f"{one} prices"
    return Draft(
        note=f"stock value, {kind} and {other} counts",
        text=headed(numbers, lists, 2, STOCK_VALUE),
        posts=shuffled(rng, shelf.number_posts() + posts + count_posts),
        unposted=stock_value_model([], []),
        outcome=stock_value_model(prices, counts),
        smaller=(f"{numbers} empty",),
        smaller_outcome=stock_value_model([], counts),
    )


def price_draft(rng: Random) -> Draft:
    """Price times count."""
    price, count = random_value(rng), random_value(rng)
    return Draft(
        note=f"price times count, {price} and {count}",
        text=render(rows(PRICE_TIMES_COUNT)),
        posts=shuffled(rng, [f"0 {price}", f"1 {count}"]),
        unposted=Outcome(3, number_result(0)),
        outcome=Outcome(3, number_result(worked("MUL", price, count))),
    )


def arithmetic_draft(rng: Random) -> Draft:
    """Two numbers read, and then as many commands on them as there are registers for."""
    commands = random_commands(rng, rng.choice((1, 2, 5, 9, 14)))
    put = rng.randrange(2, 2 + len(commands))
    first, second = random_value(rng), random_value(rng)
    head = rows("INP 2 0; RUN 0 1; FUN 2 2 2; GET 0 1 1; FUN 2 1 2; GET 1 2 0; FUN 2 1 1")
    return Draft(
        note=f"arithmetic on {first} and {second}",
        text=render([*head, *commands, Row("PUT", (put,))]),
        posts=(f"0 {first}", f"1 {second}"),
        unposted=Outcome(3, number_result(registers(commands, [0, 0])[put])),
        outcome=Outcome(3, number_result(registers(commands, [second, first])[put])),
    )


def random_commands(rng: Random, count: int) -> list[Row]:
    """Literals and operations behind two parameters, later registers preferred."""
    commands: list[Row] = []
    for defined in range(2, 2 + count):
        if rng.random() < 0.25:
            commands.append(Row("LIT", (rng.choice((0, -1, 7, 99999, 999999, -99999)),)))
            continue
        operands = tuple(rng.choice((rng.randrange(defined), defined - 1)) for _ in range(2))
        commands.append(Row(rng.choice((*ARITHMETIC, "MUL", "DIV")), operands))
    return commands


def registers(commands: Sequence[Row], parameters: Sequence[int]) -> list[int]:
    """What the registers hold behind some literals and operations."""
    held = list(parameters)
    for command in commands:
        if command.word == "LIT":
            held.append(command.fields[0])
        else:
            a, b = command.fields
            held.append(worked(command.word, held[a], held[b]))
    return held


FAMILIES: tuple[Callable[[Random], Draft], ...] = (
    list_draft, price_draft, list_draft, arithmetic_draft, list_draft, circle_draft,
    append_draft, list_draft, stock_value_draft, list_draft,
)  # fmt: skip

