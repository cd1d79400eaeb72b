"""A reference of sheets: the plain run, its listing, and settling by turns.

A sheet holds a checked program and its inputs.  A run makes a record for each
NEW, GET and CAS when it begins.  A NEW ends when its modifiable is written; a
read, which is a GET or CAS, ends when its destination is written, which is the
modifiable of the innermost open NEW.  Each record therefore keeps the records
that begin before it ends in a list of its own, `inside`, and the records of a
run form a tree whose root is the NEW of function 0.  Going through the tree
from the root, each record before those inside it, is going through the records
in the order in which they begin.

A modifiable is known by a serial number that is given once in the life of a
sheet, never by a place, so a new modifiable is never equal to an earlier one.
The modifiables of dropped records lose their contents, so that any later use
of them would raise a KeyError.
"""

from __future__ import annotations

import sys
from dataclasses import dataclass, field
from itertools import count
from typing import Iterable, Iterator, NamedTuple, Optional, Sequence, Union

from program_text import Kind, Line, Program

NUMBER_LEAST, NUMBER_MOST = -(2**31), 2**31 - 1
LIMIT_LEAST, LIMIT_MOST = 1, 512
FIRST_NAME_MADE = 1000

BY_TURNS, ANEW = 1, 2

BAD_LIMIT, NO_INPUT, OTHER_KIND, BAD_CELL, TOO_LARGE, NO_LINE = 11, 14, 15, 16, 21, 24

# No run goes on beyond LIMIT_MOST records, and each open one takes three calls.
sys.setrecursionlimit(max(sys.getrecursionlimit(), 10_000))


class Refused(Exception):
    """Raised by a call that is refused, with the number of the refusal."""

    def __init__(self, number: int) -> None:
        super().__init__(number)
        self.number = number


class TooMany(Exception):
    """Raised by a run that is about to make one record more than it may."""


# --- values and contents --------------------------------------------------


@dataclass(frozen=True)
class Modifiable:
    """A modifiable; input k has the serial number k."""

    serial: int


@dataclass(frozen=True)
class Number:
    """The content of a modifiable with a number."""

    value: int


@dataclass(frozen=True)
class Empty:
    """The empty list."""


@dataclass(frozen=True)
class Cell:
    """A list that is not empty; equal only to a cell of the same two modifiables."""

    head: Modifiable
    tail: Modifiable


Content = Union[Number, Empty, Cell]
Value = Union[int, Modifiable]  # of a register

EMPTY = Empty()


def cell(head: int, tail: int) -> Cell:
    """The cell of two inputs."""
    return Cell(Modifiable(head), Modifiable(tail))


def first_content(kind: int) -> Content:
    """What an input of this kind holds before any post."""
    return Number(0) if kind == Kind.NUMBER_CELL else EMPTY


# --- arithmetic -----------------------------------------------------------


def saturated(value: int) -> int:
    """A number beyond an end becomes that end."""
    return max(NUMBER_LEAST, min(NUMBER_MOST, value))


def quotient(a: int, b: int) -> int:
    """Drops the fraction towards zero; a divisor 0 gives 0."""
    if b == 0:
        return 0
    size = abs(a) // abs(b)
    return size if (a < 0) == (b < 0) else -size


OPERATIONS = {
    b"ADD": lambda a, b: a + b,
    b"SUB": lambda a, b: a - b,
    b"MUL": lambda a, b: a * b,
    b"DIV": quotient,
    b"MIN": min,
    b"MAX": max,
}


def calculate(word: bytes, a: int, b: int) -> int:
    """The result of one of the six operations."""
    return saturated(OPERATIONS[word](a, b))


# --- records --------------------------------------------------------------


@dataclass(eq=False)
class New:
    """A NEW: its modifiable, and the function with arguments that writes it."""

    modifiable: Modifiable
    function: int
    arguments: tuple[Value, ...]
    inside: list[Record] = field(default_factory=list)


@dataclass(eq=False)
class Read:
    """A GET or CAS: `functions` are those its tail names, `rest` the arguments."""

    word: str
    source: Modifiable
    destination: Modifiable
    functions: tuple[int, ...]
    rest: tuple[Value, ...]
    taken: Optional[Content] = None
    inside: list[Record] = field(default_factory=list)

    def entered(self) -> tuple[int, tuple[Value, ...]]:
        """The function entered with the content taken, and its arguments."""
        if isinstance(self.taken, Number):
            return self.functions[0], (self.taken.value, *self.rest)
        if isinstance(self.taken, Empty):
            return self.functions[0], self.rest
        return self.functions[1], (self.taken.head, self.taken.tail, *self.rest)


Record = Union[New, Read]


def in_order(record: Record) -> list[Record]:
    """A record and all inside it, in the order in which they begin."""
    return [one for one, starts in stamps(record) if starts]


def stamps(record: Record) -> list[tuple[Record, bool]]:
    """The starts (True) and ends (False) of a record and all inside it, in time order."""
    found: list[tuple[Record, bool]] = []
    add_stamps(record, found)
    return found


def add_stamps(record: Record, found: list[tuple[Record, bool]]) -> None:
    """Two ends at one write stand inner before outer."""
    found.append((record, True))
    for each in record.inside:
        add_stamps(each, found)
    found.append((record, False))


# --- the plain run --------------------------------------------------------


@dataclass
class Trace:
    """What stands after a run: the contents of all modifiables, and record 0."""

    contents: dict[Modifiable, Content]
    root: New


def plain_run(
    program: Program, inputs: Sequence[Content], most: int, serials: Iterator[int]
) -> Optional[Trace]:
    """A run on these inputs, or None if it makes more than so many records."""
    contents = {Modifiable(k): content for k, content in enumerate(inputs)}
    top: list[Record] = []
    try:
        runner = Runner(program, contents, serials, most)
        runner.make(0, tuple(Modifiable(k) for k in program.run.fields), top)
    except TooMany:
        return None
    return Trace(contents, top[0])


class Runner:
    """Runs functions and counts the records that this makes."""

    def __init__(
        self,
        program: Program,
        contents: dict[Modifiable, Content],
        serials: Iterator[int],
        most: Optional[int] = None,
    ) -> None:
        self.program = program
        self.contents = contents
        self.serials = serials
        self.most = most
        self.made = 0

    def begin(self, record: Record, inside: list[Record]) -> None:
        """A record is made when it begins, inside the innermost open one."""
        if self.made == self.most:
            raise TooMany
        self.made += 1
        inside.append(record)

    def make(
        self, function: int, arguments: tuple[Value, ...], inside: list[Record]
    ) -> Modifiable:
        """NEW: a new modifiable, which the function writes."""
        record = New(Modifiable(next(self.serials)), function, arguments)
        self.begin(record, inside)
        self.enter(function, arguments, record.modifiable, record.inside)
        return record.modifiable

    def read(self, record: Read) -> None:
        """Takes the content of the source and enters the function for it."""
        record.taken = self.contents[record.source]
        function, arguments = record.entered()
        self.enter(function, arguments, record.destination, record.inside)

    def enter(
        self,
        function: int,
        arguments: Sequence[Value],
        destination: Modifiable,
        inside: list[Record],
    ) -> None:
        """Goes through a function: all its commands, then its tail."""
        registers = list(arguments)
        *commands, tail = self.program.functions[function].steps
        for step in commands:
            registers.append(self.command(step, registers, inside))
        self.tail(tail, registers, destination, inside)

    def command(self, step: Line, registers: Sequence[Value], inside: list[Record]) -> Value:
        """The value of the register that a command defines."""
        if step.word == b"LIT":
            return step.fields[0]
        if step.word == b"NEW":
            function, *arguments = step.fields
            return self.make(function, tuple(registers[r] for r in arguments), inside)
        a, b = step.fields
        return calculate(step.word, registers[a], registers[b])

    def tail(
        self,
        step: Line,
        registers: Sequence[Value],
        destination: Modifiable,
        inside: list[Record],
    ) -> None:
        """Writes the destination, or reads and enters another function."""
        if step.word in (b"GET", b"CAS"):
            record = new_read(step, registers, destination)
            self.begin(record, inside)
            self.read(record)
        else:
            self.contents[destination] = written(step, registers)


def new_read(step: Line, registers: Sequence[Value], destination: Modifiable) -> Read:
    """The record of a GET or CAS, before it takes a content."""
    named = 1 if step.word == b"GET" else 2
    source, functions, rest = step.fields[0], step.fields[1 : 1 + named], step.fields[1 + named :]
    arguments = tuple(registers[r] for r in rest)
    return Read(step.word.decode(), registers[source], destination, functions, arguments)


def written(step: Line, registers: Sequence[Value]) -> Content:
    """The content that a PUT, NIL or CON writes."""
    values = [registers[r] for r in step.fields]
    if step.word == b"PUT":
        return Number(*values)
    return Cell(*values) if step.word == b"CON" else EMPTY


# --- settling by turns ----------------------------------------------------


class Turns:
    """Gives the standing records their turns, and counts the reads re-executed."""

    def __init__(self, program: Program, trace: Trace, serials: Iterator[int]) -> None:
        self.contents = trace.contents
        self.runner = Runner(program, trace.contents, serials)
        self.reexecuted = 0

    @property
    def made(self) -> int:
        """The records made inside the reads re-executed."""
        return self.runner.made

    def turn(self, record: Record) -> None:
        """The turn of a record, then the turns of those inside it if it is kept."""
        if self.stale(record):
            self.reexecute(record)
        else:
            for each in record.inside:
                self.turn(each)

    def stale(self, record: Record) -> bool:
        """Whether this is a read whose source holds another content than it took."""
        return isinstance(record, Read) and self.contents[record.source] != record.taken

    def reexecute(self, record: Read) -> None:
        """Drops the records inside a read and runs it on the new content."""
        self.drop(record.inside)
        record.inside = []
        self.reexecuted += 1
        self.runner.read(record)

    def drop(self, records: Iterable[Record]) -> None:
        """Forgets the contents of the modifiables that these records made."""
        for record in records:
            for each in in_order(record):
                if isinstance(each, New):
                    del self.contents[each.modifiable]


# --- the listing ----------------------------------------------------------


class ListingLine(NamedTuple):
    """A line of the listing: a word and numbers."""

    word: str
    numbers: tuple[int, ...]

    def __str__(self) -> str:
        return " ".join((self.word, *map(str, self.numbers)))


class Listing:
    """The names and ends of the records of a trace, and its lines."""

    def __init__(self, trace: Trace) -> None:
        self.contents = trace.contents
        self.records = in_order(trace.root)
        self.ends = ends(trace.root)
        self.names = {
            record.modifiable: FIRST_NAME_MADE + r
            for r, record in enumerate(self.records)
            if isinstance(record, New)
        }

    def lines(self) -> list[ListingLine]:
        """All lines, in the order of the records."""
        return [self.line(r) for r in range(len(self.records))]

    def line(self, r: int) -> ListingLine:
        """The line of record r."""
        record = self.records[r]
        if isinstance(record, New):
            middle = (record.function, *self.content(record.modifiable))
            arguments = record.arguments
        else:
            function, arguments = record.entered()
            middle = (self.name(record.source), self.name(record.destination), function)
        word = "NEW" if isinstance(record, New) else record.word
        return ListingLine(word, (r, self.ends[record], *middle, *map(self.name, arguments)))

    def content(self, modifiable: Modifiable) -> tuple[int, ...]:
        """1 and the number; 2 for empty; 3, head, tail."""
        content = self.contents[modifiable]
        if isinstance(content, Number):
            return 1, content.value
        if isinstance(content, Empty):
            return (2,)
        return 3, self.name(content.head), self.name(content.tail)

    def name(self, value: Value) -> int:
        """A number itself; k for input k; 1000 + r for record r's modifiable."""
        if not isinstance(value, Modifiable):
            return value
        return self.names[value] if value in self.names else self.input_name(value)

    def input_name(self, modifiable: Modifiable) -> int:
        """The name of a modifiable that no record made, so it must be an input."""
        if modifiable not in self.contents:
            raise KeyError(modifiable)
        return modifiable.serial


def ends(root: New) -> dict[Record, int]:
    """For each record the number of the first record behind its end."""
    found: dict[Record, int] = {}
    begun = 0
    for record, starts in stamps(root):
        if starts:
            begun += 1
        else:
            found[record] = begun
    return found


# --- sheets ---------------------------------------------------------------


class Settled(NamedTuple):
    """What a settle answers; E, M and S are `reexecuted`, `made` and `standing`."""

    mark: int
    reexecuted: int
    made: int
    standing: int

    def __str__(self) -> str:
        return f"mark {self.mark} E {self.reexecuted} M {self.made} S {self.standing}"


class Sheet:
    """A program, its inputs, a limit on records, and the trace of the last settle."""

    def __init__(self, program: Program, limit: int) -> None:
        if not LIMIT_LEAST <= limit <= LIMIT_MOST:
            raise Refused(BAD_LIMIT)
        self.program = program
        self.limit = limit
        self.kinds = program.input_kinds()
        self.inputs = [first_content(kind) for kind in self.kinds]
        self.serials = count(len(self.inputs))
        self.trace: Optional[Trace] = None

    def post(self, number: int, content: Content) -> None:
        """Sets an input; nothing is run before the next settle."""
        if not 0 <= number < len(self.inputs):
            raise Refused(NO_INPUT)
        if (self.kinds[number] == Kind.NUMBER_CELL) != isinstance(content, Number):
            raise Refused(OTHER_KIND)
        if isinstance(content, Cell) and not self.cell_fits(content):
            raise Refused(BAD_CELL)
        if isinstance(content, Number) and saturated(content.value) != content.value:
            raise ValueError(content)
        self.inputs[number] = content

    def cell_fits(self, content: Cell) -> bool:
        """Whether a cell names two inputs of the right kinds."""
        pairs = ((content.head, Kind.NUMBER_CELL), (content.tail, Kind.LIST_CELL))
        return all(
            0 <= one.serial < len(self.kinds) and self.kinds[one.serial] == kind
            for one, kind in pairs
        )

    def settle(self) -> Settled:
        """By turns over the trace that stands, or anew if there is none."""
        anew = plain_run(self.program, self.inputs, self.limit, self.serials)
        if anew is None:
            self.trace = None
            raise Refused(TOO_LARGE)
        if self.trace is not None:
            return self.settle_by_turns(self.trace)
        self.trace = anew
        standing = len(in_order(anew.root))
        return Settled(ANEW, 0, standing, standing)

    def settle_by_turns(self, trace: Trace) -> Settled:
        """Gives every standing record its turn, on the inputs as posted."""
        for k, content in enumerate(self.inputs):
            trace.contents[Modifiable(k)] = content
        turns = Turns(self.program, trace, self.serials)
        turns.turn(trace.root)
        return Settled(BY_TURNS, turns.reexecuted, turns.made, len(in_order(trace.root)))

    def listing(self) -> list[ListingLine]:
        """The lines of the trace that stands."""
        return self.standing_listing().lines()

    def line(self, r: int) -> ListingLine:
        """Line r of the listing."""
        listing = self.standing_listing()
        if not 0 <= r < len(listing.records):
            raise Refused(NO_LINE)
        return listing.line(r)

    def result(self) -> tuple[int, ...]:
        """Record 0's content, named as in the listing."""
        listing = self.standing_listing()
        return listing.content(listing.records[0].modifiable)

    def standing_listing(self) -> Listing:
        """The listing of the trace; only a settled sheet has one."""
        if self.trace is None:
            raise ValueError("the sheet is not settled")
        return Listing(self.trace)
