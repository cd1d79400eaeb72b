"""Random program texts that break no rule.

A text is made from the number of commands in each of its functions.  The
kinds of all parameters and results are chosen first; then each function gets
commands and a tail that its registers and the other functions allow.
"""

from __future__ import annotations

from dataclasses import dataclass, replace
from random import Random
from typing import Optional, Sequence

from rows import ARITHMETIC, Row, accepted, render

NUMBER, NUMBER_CELL, LIST_CELL = 1, 2, 3

REGISTERS_MOST = 16
FUNCTIONS_MOST = 64
STEPS_MOST = 512
PARAMETERS_MOST = 6
INPUTS_MOST = 256

LITERALS = (0, 1, -1, 9, -9, 10, 99999, -99999, 100000, 999999, -10000)
INPUT_ENDS = ((1, 0), (0, 1), (1, 1), (256, 0), (0, 256), (128, 128), (255, 1), (1, 255))


@dataclass(frozen=True)
class Signature:
    """The kinds of a function's result and parameters."""

    result: int
    parameters: tuple[int, ...]


@dataclass(frozen=True)
class Sheet:
    """A well-formed program and what is known of each of its rows.

    `scopes` holds for each row the kinds of the registers defined before it,
    and `owners` the function it belongs to, or None for INP and RUN.
    """

    rows: tuple[Row, ...]
    signatures: tuple[Signature, ...]
    scopes: tuple[tuple[int, ...], ...]
    owners: tuple[Optional[int], ...]

    @property
    def step_count(self) -> int:
        """Commands and tails together."""
        return len(self.rows) - 2 - len(self.signatures)

    @property
    def inputs(self) -> tuple[int, ...]:
        """The kinds of the inputs."""
        numbers, lists = self.rows[0].fields
        return (NUMBER_CELL,) * numbers + (LIST_CELL,) * lists

    @property
    def text(self) -> bytes:
        return render(self.rows)

    @property
    def answer(self) -> str:
        """The answer to this text."""
        return accepted(len(self.signatures), self.step_count)


def any_sheet(rng: Random) -> Sheet:
    """A program of a few functions of any size."""
    functions = rng.choice((1, 1, 2, 2, 3, 3, 4, 5, 6, 8))
    most = rng.choice((0, 1, 3, 5, 10, REGISTERS_MOST))
    return sheet(rng, [rng.randint(0, most) for _ in range(functions)])


def full_sheet(rng: Random, functions: int, steps: int) -> Sheet:
    """A program of exactly so many functions and steps."""
    commands = [0] * functions
    for _ in range(steps - functions):
        open_ones = [i for i, count in enumerate(commands) if count < REGISTERS_MOST]
        commands[rng.choice(open_ones)] += 1
    return sheet(rng, commands)


def sheet(rng: Random, commands: Sequence[int]) -> Sheet:
    """A program with so many commands in each function."""
    signatures = choose_signatures(rng, commands)
    maker = _Maker(rng, signatures)
    maker.head()
    for number, count in enumerate(commands):
        maker.function(number, count)
    return Sheet(
        tuple(maker.rows), tuple(signatures), tuple(maker.scopes), tuple(maker.owners)
    )


def choose_signatures(rng: Random, commands: Sequence[int]) -> list[Signature]:
    """Kinds for all functions, so that each of them can have a tail."""
    chosen: list[Signature] = []
    for number, count in enumerate(commands):
        room = min(PARAMETERS_MOST, REGISTERS_MOST - count)
        signature = random_signature(rng, chosen, number)
        chosen.append(replace(signature, parameters=signature.parameters[:room]))
    settled = False
    while not settled:
        settled = True
        for number, count in enumerate(commands):
            kinds = chosen[number].parameters
            if count == 0 and not _Maker(rng, chosen).tails(number, kinds):
                # A function that writes a list can always end with NIL.
                chosen[number] = replace(chosen[number], result=LIST_CELL)
                settled = False
    return chosen


def random_signature(rng: Random, chosen: Sequence[Signature], number: int) -> Signature:
    """Kinds for one function, often such that an earlier one can enter it."""
    if number == 0:  # it is given inputs, which are no plain numbers
        kinds = (NUMBER_CELL, LIST_CELL)
    else:
        kinds = (NUMBER, NUMBER_CELL, LIST_CELL)
    if number == 0 or rng.random() < 0.3:
        count = rng.choice((0, 1, 1, 2, 2, 3, 4, 6))
        parameters = tuple(rng.choice(kinds) for _ in range(count))
        return Signature(rng.choice((NUMBER_CELL, LIST_CELL)), parameters)
    base = rng.choice(chosen)
    front = rng.choice(((NUMBER,), (NUMBER_CELL, LIST_CELL), ()))
    kept = tuple(kind for kind in base.parameters if rng.random() < 0.7)
    return Signature(base.result, (front + kept)[:PARAMETERS_MOST])


class _Maker:
    """Writes the rows of one program."""

    def __init__(self, rng: Random, signatures: Sequence[Signature]) -> None:
        self.rng = rng
        self.signatures = signatures
        self.rows: list[Row] = []
        self.scopes: list[tuple[int, ...]] = []
        self.owners: list[Optional[int]] = []

    def add(self, row: Row, kinds: Sequence[int] = (), owner: Optional[int] = None) -> None:
        self.rows.append(row)
        self.scopes.append(tuple(kinds))
        self.owners.append(owner)

    def head(self) -> None:
        """INP and RUN, fitting function 0."""
        needed = self.signatures[0].parameters
        numbers, lists = self.choose_inputs(needed)
        self.add(Row("INP", (numbers, lists)))
        spans = {
            NUMBER_CELL: range(numbers),
            LIST_CELL: range(numbers, numbers + lists),
        }
        self.add(Row("RUN", tuple(self.choose_end(spans[kind]) for kind in needed)))

    def choose_inputs(self, needed: Sequence[int]) -> tuple[int, int]:
        """Amounts of inputs that have every kind needed."""
        while True:
            numbers, lists = self.rng.choice(INPUT_ENDS)
            if self.rng.random() < 0.6:
                numbers, lists = self.rng.randint(0, 9), self.rng.randint(0, 9)
            missing = (NUMBER_CELL in needed and not numbers) or (
                LIST_CELL in needed and not lists
            )
            if numbers + lists and not missing:
                return numbers, lists

    def choose_end(self, span: range) -> int:
        """A number of the span, its two ends preferred."""
        return self.rng.choice((span[0], span[-1], self.rng.choice(span)))

    def function(self, number: int, commands: int) -> None:
        """FUN, so many commands, and a tail."""
        signature = self.signatures[number]
        kinds = list(signature.parameters)
        self.add(Row("FUN", (signature.result, *kinds)), (), number)
        for left in range(commands, 0, -1):
            if left == 1 and not self.tails(number, kinds):
                row = self.literal()
            else:
                row = self.command(kinds)
            self.add(row, kinds, number)
            kinds.append(self.defined(row))
        self.add(self.rng.choice(self.tails(number, kinds)), kinds, number)

    def defined(self, row: Row) -> int:
        """The kind of the register that a command defines."""
        return self.signatures[row.fields[0]].result if row.word == "NEW" else NUMBER

    def literal(self) -> Row:
        value = self.rng.choice((*LITERALS, self.rng.randint(-99999, 999999)))
        return Row("LIT", (value,))

    def command(self, kinds: Sequence[int]) -> Row:
        """A command that the registers allow."""
        options = [self.literal()]
        if NUMBER in kinds:
            for word in self.rng.sample(ARITHMETIC, 2):
                options.append(Row(word, self.registers(kinds, (NUMBER, NUMBER))))
        callable_ones = [
            number
            for number, signature in enumerate(self.signatures)
            if set(signature.parameters) <= set(kinds)
        ]
        if callable_ones:
            number = self.rng.choice(callable_ones)
            arguments = self.registers(kinds, self.signatures[number].parameters)
            options += [Row("NEW", (number, *arguments))] * 2
        return self.rng.choice(options)

    def registers(self, kinds: Sequence[int], wanted: Sequence[int]) -> tuple[int, ...]:
        """For each kind wanted, some register of that kind."""
        return tuple(
            self.rng.choice([r for r, kind in enumerate(kinds) if kind == one])
            for one in wanted
        )

    def tails(self, number: int, kinds: Sequence[int]) -> list[Row]:
        """Tails that the registers allow, at least one of each word that fits."""
        result = self.signatures[number].result
        options = self.reading_tails(result, kinds)
        if result == LIST_CELL:
            options.append(Row("NIL"))
            if {NUMBER_CELL, LIST_CELL} <= set(kinds):
                options.append(Row("CON", self.registers(kinds, (NUMBER_CELL, LIST_CELL))))
        elif NUMBER in kinds:
            options.append(Row("PUT", self.registers(kinds, (NUMBER,))))
        return options

    def reading_tails(self, result: int, kinds: Sequence[int]) -> list[Row]:
        """GET for some function that fits, and CAS for some two that do."""
        same = [(f, s.parameters) for f, s in enumerate(self.signatures) if s.result == result]
        gets = [
            (f, parameters)
            for f, parameters in same
            if parameters[:1] == (NUMBER,) and set(parameters[1:]) <= set(kinds)
        ]
        cases = [
            (f, g, parameters)
            for f, parameters in same
            if set(parameters) <= set(kinds)
            for g, others in same
            if others == (NUMBER_CELL, LIST_CELL) + parameters
        ]
        options = []
        if gets and NUMBER_CELL in kinds:
            f, parameters = self.rng.choice(gets)
            source, *arguments = self.registers(kinds, (NUMBER_CELL, *parameters[1:]))
            options += [Row("GET", (source, f, *arguments))] * 2
        if cases and LIST_CELL in kinds:
            f, g, parameters = self.rng.choice(cases)
            source, *arguments = self.registers(kinds, (LIST_CELL, *parameters))
            options += [Row("CAS", (source, f, g, *arguments))] * 2
        return options
