"""The check of program texts.

A program text is a sequence of lines.  Each line is a word of three capital
letters, then zero to nine fields of six columns, then byte 10.  The first
line is INP, the second is RUN, and then come one or more functions, each of
them FUN, any commands, and one tail.

A text that breaks the rules has one or more faults.  Every fault belongs to a
layer, stands at a line and has a number:

    layer 1   1  wrong length of the text (line 0) or of a line, or no byte 10
              2  unknown word
              3  a field that is no well-written number
    layer 2   4  a line out of position, or a text that ends early (last line)
              5  wrong count of fields
              6  a range or limit passed, at the line that passes it
    layer 3   7  a register, function or input that is not there
              8  kinds or argument numbers that disagree

The fault told is the one of the lowest layer, then of the first line, then of
the lowest number.  This module therefore collects all faults it can find and
takes the least of them.  A line that is faulty may make the program look
faulty elsewhere too; such echoes stand in a higher layer or further down, so
they never are the least.
"""

from __future__ import annotations

import re
from dataclasses import dataclass, field
from enum import Enum, IntEnum, auto
from typing import Iterator, Optional, Sequence, Union

# Sizes of a text and its lines.
TEXT_MOST = 65_536
WORD_SIZE = 3
FIELD_SIZE = 6
FIELDS_MOST = 9
NEWLINE = b"\n"

# Limits of a program.
INPUTS_MOST = 256
REGISTERS_MOST = 16
FUNCTIONS_MOST = 64
STEPS_MOST = 512
PARAMETERS_MOST = 6

FIELD = re.compile(rb" *(0|-?[1-9][0-9]*)")


class Kind(IntEnum):
    """What a register, parameter, input or result holds."""

    NUMBER = 1
    NUMBER_CELL = 2  # a modifiable with a number
    LIST_CELL = 3  # a modifiable with a list


RESULT_KINDS = (Kind.NUMBER_CELL, Kind.LIST_CELL)
PARAMETER_KINDS = tuple(Kind)


class Trouble(IntEnum):
    """The numbers of faults."""

    LENGTH = 1
    WORD = 2
    FIELD = 3
    POSITION = 4
    COUNT = 5
    RANGE = 6
    MISSING = 7
    DISAGREEMENT = 8

    @property
    def layer(self) -> int:
        """The layer of the check that tells this fault."""
        if self <= Trouble.FIELD:
            return 1
        return 2 if self <= Trouble.RANGE else 3


@dataclass(frozen=True, order=True)
class Fault:
    """One fault; the order of faults is the order of precedence."""

    layer: int
    line: int
    number: int

    @classmethod
    def of(cls, trouble: Trouble, line: int) -> Fault:
        """The fault with this number at this line."""
        return cls(trouble.layer, line, int(trouble))


class Role(Enum):
    """What a line does in a program."""

    INPUTS = auto()
    RUN = auto()
    FUNCTION = auto()
    COMMAND = auto()
    TAIL = auto()


STEP_ROLES = (Role.COMMAND, Role.TAIL)


class Sort(Enum):
    """What a field means."""

    AMOUNT = auto()
    LITERAL = auto()
    KIND = auto()
    INPUT = auto()
    REGISTER = auto()
    FUNCTION = auto()


@dataclass(frozen=True)
class Form:
    """A word's role and fields: some fixed ones, then up to `extra` of one sort."""

    role: Role
    fixed: tuple[Sort, ...] = ()
    rest: Optional[Sort] = None
    extra: int = 0

    def fits(self, count: int) -> bool:
        """Whether a line of this form may have so many fields."""
        return len(self.fixed) <= count <= len(self.fixed) + self.extra

    def sort(self, index: int) -> Optional[Sort]:
        """What the field at this index means."""
        return self.fixed[index] if index < len(self.fixed) else self.rest


ARITHMETIC = (b"ADD", b"SUB", b"MUL", b"DIV", b"MIN", b"MAX")

# A GET hands on a number, and a CAS a head and a tail, in front of the
# arguments; that leaves five and four of the six parameters.
FORMS: dict[bytes, Form] = {
    b"INP": Form(Role.INPUTS, (Sort.AMOUNT, Sort.AMOUNT)),
    b"RUN": Form(Role.RUN, (), Sort.INPUT, PARAMETERS_MOST),
    b"FUN": Form(Role.FUNCTION, (Sort.KIND,), Sort.KIND, PARAMETERS_MOST),
    b"LIT": Form(Role.COMMAND, (Sort.LITERAL,)),
    **{word: Form(Role.COMMAND, (Sort.REGISTER, Sort.REGISTER)) for word in ARITHMETIC},
    b"NEW": Form(Role.COMMAND, (Sort.FUNCTION,), Sort.REGISTER, PARAMETERS_MOST),
    b"PUT": Form(Role.TAIL, (Sort.REGISTER,)),
    b"NIL": Form(Role.TAIL),
    b"CON": Form(Role.TAIL, (Sort.REGISTER, Sort.REGISTER)),
    b"GET": Form(
        Role.TAIL, (Sort.REGISTER, Sort.FUNCTION), Sort.REGISTER, PARAMETERS_MOST - 1
    ),
    b"CAS": Form(
        Role.TAIL,
        (Sort.REGISTER, Sort.FUNCTION, Sort.FUNCTION),
        Sort.REGISTER,
        PARAMETERS_MOST - 2,
    ),
}


@dataclass(frozen=True)
class Line:
    """A line of a text.  A line faulty in itself has no form and no fields."""

    number: int
    word: bytes = b""
    fields: tuple[int, ...] = ()

    @property
    def form(self) -> Optional[Form]:
        return FORMS.get(self.word)

    @property
    def role(self) -> Optional[Role]:
        return self.form.role if self.form else None

    @property
    def counted(self) -> bool:
        """Whether the line has a form and a count of fields that fits it."""
        return self.form is not None and self.form.fits(len(self.fields))

    def of_sort(self, sort: Sort) -> list[int]:
        """The fields that mean this, in order."""
        return [v for i, v in enumerate(self.fields) if self.form.sort(i) is sort]


@dataclass
class Function:
    """A function: its FUN line, then its commands and tail."""

    header: Line
    steps: list[Line] = field(default_factory=list)

    @property
    def result(self) -> Optional[int]:
        return self.header.fields[0] if self.header.fields else None

    @property
    def parameters(self) -> list[int]:
        return list(self.header.fields[1:])


@dataclass
class Program:
    """A program as far as its text tells it; sound when the text has no fault."""

    inputs: Optional[Line] = None
    run: Optional[Line] = None
    functions: list[Function] = field(default_factory=list)

    @property
    def step_count(self) -> int:
        """Commands and tails together."""
        return sum(len(function.steps) for function in self.functions)

    def input_kinds(self) -> list[Kind]:
        """The kinds of the inputs, or none where INP does not tell them."""
        if self.inputs is None or any(range_faults_of_inputs(self.inputs)):
            return []
        numbers, lists = self.inputs.fields
        return [Kind.NUMBER_CELL] * numbers + [Kind.LIST_CELL] * lists


def check(text: bytes) -> Union[Program, Fault]:
    """The program that a text means, or the fault that decides."""
    faults = list(text_length_faults(text))
    lines = read_lines(text, faults)
    program = build(lines)
    faults.extend(position_faults(lines))
    faults.extend(count_faults(lines))
    faults.extend(range_faults(program))
    faults.extend(meaning_faults(program))
    return min(faults) if faults else program


# --- Layer 1: bytes, words and fields -------------------------------------


def text_length_faults(text: bytes) -> Iterator[Fault]:
    """The length of the whole text is told at line 0."""
    if not 1 <= len(text) <= TEXT_MOST:
        yield Fault.of(Trouble.LENGTH, 0)


def read_lines(text: bytes, faults: list[Fault]) -> list[Line]:
    """All lines of a text; what is wrong with each goes to `faults`."""
    *ended, rest = text.split(NEWLINE)
    lines = [read_line(number, body, faults) for number, body in enumerate(ended, 1)]
    if rest:
        faults.append(Fault.of(Trouble.LENGTH, len(ended) + 1))
        lines.append(Line(len(ended) + 1))
    return lines


def read_line(number: int, body: bytes, faults: list[Fault]) -> Line:
    """One line, given without its byte 10."""
    word, columns = body[:WORD_SIZE], body[WORD_SIZE:]
    cells = [columns[i : i + FIELD_SIZE] for i in range(0, len(columns), FIELD_SIZE)]
    values = [read_field(cell) for cell in cells]
    troubles = []
    if len(word) < WORD_SIZE or len(columns) % FIELD_SIZE or len(cells) > FIELDS_MOST:
        troubles.append(Trouble.LENGTH)
    if word not in FORMS:
        troubles.append(Trouble.WORD)
    if None in values:
        troubles.append(Trouble.FIELD)
    faults.extend(Fault.of(trouble, number) for trouble in troubles)
    return Line(number) if troubles else Line(number, word, tuple(values))


def read_field(cell: bytes) -> Optional[int]:
    """The number in a field, or None if it is not well written."""
    match = FIELD.fullmatch(cell)
    return int(match[1]) if match else None


# --- Layer 2: positions, counts and ranges --------------------------------


def build(lines: Sequence[Line]) -> Program:
    """The program that the lines tell.  Lines with no place in it are left out."""
    program = Program()
    for line in lines:
        if line.role is Role.INPUTS and program.inputs is None:
            program.inputs = line
        elif line.role is Role.RUN and program.run is None:
            program.run = line
        elif line.role is Role.FUNCTION:
            program.functions.append(Function(line))
        elif line.role in STEP_ROLES and program.functions:
            program.functions[-1].steps.append(line)
    return program


def position_faults(lines: Sequence[Line]) -> Iterator[Fault]:
    """Lines out of position, judged by number and by the line before."""
    before = None
    for line in lines:
        if line.role not in roles_expected(line.number, before):
            yield Fault.of(Trouble.POSITION, line.number)
        before = line.role
    if lines and before is not Role.TAIL:
        yield Fault.of(Trouble.POSITION, lines[-1].number)


def roles_expected(number: int, before: Optional[Role]) -> tuple[Role, ...]:
    """What may stand at the line with this number, behind a line of that role."""
    if number == 1:
        return (Role.INPUTS,)
    if number == 2:
        return (Role.RUN,)
    if before in (Role.FUNCTION, Role.COMMAND):
        return STEP_ROLES
    return (Role.FUNCTION,)


def count_faults(lines: Sequence[Line]) -> Iterator[Fault]:
    """Lines whose word admits another count of fields."""
    for line in lines:
        if line.form and not line.form.fits(len(line.fields)):
            yield Fault.of(Trouble.COUNT, line.number)


def range_faults(program: Program) -> Iterator[Fault]:
    """All ranges and limits passed."""
    if program.inputs:
        yield from range_faults_of_inputs(program.inputs)
    for function in program.functions:
        yield from range_faults_of_header(function.header)
        yield from register_limit_faults(function)
    for function in program.functions[FUNCTIONS_MOST:]:
        yield Fault.of(Trouble.RANGE, function.header.number)
    steps = [step for function in program.functions for step in function.steps]
    for step in steps[STEPS_MOST:]:
        yield Fault.of(Trouble.RANGE, step.number)


def range_faults_of_inputs(line: Line) -> Iterator[Fault]:
    """INP: two amounts, each 0 to 256, and their sum 1 to 256."""
    within = line.counted and all(0 <= amount <= INPUTS_MOST for amount in line.fields)
    if not (within and 1 <= sum(line.fields) <= INPUTS_MOST):
        yield Fault.of(Trouble.RANGE, line.number)


def range_faults_of_header(line: Line) -> Iterator[Fault]:
    """FUN: the result is a modifiable, a parameter is of any kind."""
    if not line.fields:
        return
    result, *parameters = line.fields
    if result not in RESULT_KINDS or any(p not in PARAMETER_KINDS for p in parameters):
        yield Fault.of(Trouble.RANGE, line.number)


def register_limit_faults(function: Function) -> Iterator[Fault]:
    """Commands that define a register beyond the sixteenth."""
    commands = [step for step in function.steps if step.role is Role.COMMAND]
    room = max(0, REGISTERS_MOST - len(function.parameters))
    for command in commands[room:]:
        yield Fault.of(Trouble.RANGE, command.number)


# --- Layer 3: references and kinds ----------------------------------------


def meaning_faults(program: Program) -> Iterator[Fault]:
    """References that lead nowhere, and kinds that disagree."""
    if program.run:
        yield from run_faults(program, program.run)
    for function in program.functions:
        yield from body_faults(program, function)


def run_faults(program: Program, run: Line) -> Iterator[Fault]:
    """RUN gives inputs to function 0."""
    kinds = program.input_kinds()
    if not all(there(kinds, number) for number in run.fields):
        yield Fault.of(Trouble.MISSING, run.number)
    elif program.functions:
        if [kinds[i] for i in run.fields] != program.functions[0].parameters:
            yield Fault.of(Trouble.DISAGREEMENT, run.number)


def body_faults(program: Program, function: Function) -> Iterator[Fault]:
    """Goes through a function with the kinds of the registers defined so far."""
    registers: list[Optional[int]] = list(function.parameters)
    for step in function.steps:
        if step.counted:
            if not references_there(program, registers, step):
                yield Fault.of(Trouble.MISSING, step.number)
            elif not kinds_agree(program, function, registers, step):
                yield Fault.of(Trouble.DISAGREEMENT, step.number)
        if step.role is Role.COMMAND:
            registers.append(kind_defined(program, step))


def there(items: Sequence, number: int) -> bool:
    """Whether there is an item with this number, counted from 0."""
    return 0 <= number < len(items)


def references_there(program: Program, registers: Sequence, step: Line) -> bool:
    """Whether all registers and functions that a step names are there."""
    return all(there(registers, r) for r in step.of_sort(Sort.REGISTER)) and all(
        there(program.functions, f) for f in step.of_sort(Sort.FUNCTION)
    )


def kind_defined(program: Program, command: Line) -> Optional[int]:
    """The kind of the register that a command defines, if it can be told."""
    if command.word != b"NEW":
        return Kind.NUMBER
    if command.fields and there(program.functions, command.fields[0]):
        return program.functions[command.fields[0]].result
    return None


def kinds_agree(
    program: Program, function: Function, registers: Sequence, step: Line
) -> bool:
    """Whether a step, whose references are all there, fits the kinds of them."""
    kinds = [registers[r] for r in step.of_sort(Sort.REGISTER)]
    called = [program.functions[f] for f in step.of_sort(Sort.FUNCTION)]

    def enters(target: Function, *arguments: Optional[int]) -> bool:
        same_result = target.result == function.result
        return same_result and target.parameters == list(arguments)

    if step.word == b"LIT":
        return True
    if step.word in ARITHMETIC:
        return kinds == [Kind.NUMBER, Kind.NUMBER]
    if step.word == b"NEW":
        return called[0].parameters == kinds
    if step.word == b"PUT":
        return function.result == Kind.NUMBER_CELL and kinds == [Kind.NUMBER]
    if step.word == b"NIL":
        return function.result == Kind.LIST_CELL
    if step.word == b"CON":
        cell = [Kind.NUMBER_CELL, Kind.LIST_CELL]
        return function.result == Kind.LIST_CELL and kinds == cell
    source, *arguments = kinds
    if step.word == b"GET":
        return source == Kind.NUMBER_CELL and enters(
            called[0], Kind.NUMBER, *arguments
        )
    if step.word == b"CAS":
        empty, cell = called
        return (
            source == Kind.LIST_CELL
            and enters(empty, *arguments)
            and enters(cell, Kind.NUMBER_CELL, Kind.LIST_CELL, *arguments)
        )
    raise AssertionError(f"no rule for {step.word!r}")
