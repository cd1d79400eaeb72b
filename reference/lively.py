"""Random programs whose runs read much.

Most texts of `wellformed.py` read nothing when run, or never end.  Here the
functions are made as they are named: a NEW or a tail asks for a function of
some kinds, which mostly is a further one, now and then one that is there
already.  So most runs end, and there are recursions all the same.
"""

from __future__ import annotations

from random import Random
from typing import Optional, Sequence

from rows import ARITHMETIC, Row, render

NUMBER, NUMBER_CELL, LIST_CELL = 1, 2, 3

NUMBER_INPUTS, LIST_INPUTS = 3, 5
FUNCTIONS_MOST = 24
ARGUMENTS_MOST = 4  # a CAS puts a head and a tail in front of them
LITERALS = (0, 1, 2, -1, 5, -99999, 999999)

Signature = tuple[int, tuple[int, ...]]  # kinds of the result and the parameters


def lively_text(rng: Random) -> bytes:
    """The text of a random program with three numbers and five lists as inputs."""
    maker = _Maker(rng)
    given = [rng.randrange(NUMBER_INPUTS + LIST_INPUTS) for _ in range(rng.randint(1, 5))]
    kinds = tuple(NUMBER_CELL if i < NUMBER_INPUTS else LIST_CELL for i in given)
    maker.ask(rng.choice((NUMBER_CELL, LIST_CELL)), kinds)
    head = [Row("INP", (NUMBER_INPUTS, LIST_INPUTS)), Row("RUN", tuple(given))]
    return render(head + maker.functions())


class _Maker:
    """Writes functions as long as some are asked for and not written."""

    def __init__(self, rng: Random) -> None:
        self.rng = rng
        self.signatures: list[Signature] = []
        self.again = rng.choice((0.05, 0.2, 0.5))

    def ask(self, result: int, parameters: tuple[int, ...]) -> Optional[int]:
        """A function of these kinds, or None if there is none and no room."""
        wanted = (result, parameters)
        same = [f for f, signature in enumerate(self.signatures) if signature == wanted]
        room = len(self.signatures) < FUNCTIONS_MOST
        if same and (not room or self.rng.random() < self.again):
            return self.rng.choice(same)
        if not room:
            return None
        self.signatures.append(wanted)
        return len(self.signatures) - 1

    def functions(self) -> list[Row]:
        """The rows of all functions; writing one may ask for others behind it."""
        written: list[Row] = []
        number = 0
        while number < len(self.signatures):
            result, parameters = self.signatures[number]
            written.append(Row("FUN", (result, *parameters)))
            written += self.body(result, list(parameters))
            number += 1
        return written

    def body(self, result: int, kinds: list[int]) -> list[Row]:
        """Some commands and a tail."""
        body = []
        for _ in range(self.rng.choice((0, 0, 1, 1, 2))):
            body.append(self.command(kinds))
        tail = self.reading_tail(result, kinds) if self.rng.random() < 0.85 else None
        if tail is None:
            if result == NUMBER_CELL and NUMBER not in kinds:
                body.append(self.literal(kinds))
            tail = self.writing_tail(result, kinds)
        return [*body, tail]

    def command(self, kinds: list[int]) -> Row:
        """A command; the kind of its register is added."""
        if self.rng.random() < 0.5:
            result = self.rng.choice((NUMBER_CELL, LIST_CELL))
            arguments = self.arguments(kinds)
            function = self.ask(result, tuple(kinds[r] for r in arguments))
            if function is not None:
                kinds.append(result)
                return Row("NEW", (function, *arguments))
        if NUMBER not in kinds or self.rng.random() < 0.2:
            return self.literal(kinds)
        pair = self.some(kinds, NUMBER), self.some(kinds, NUMBER)
        kinds.append(NUMBER)
        return Row(self.rng.choice(ARITHMETIC), pair)

    def literal(self, kinds: list[int]) -> Row:
        kinds.append(NUMBER)
        return Row("LIT", (self.rng.choice(LITERALS),))

    def some(self, kinds: Sequence[int], kind: int) -> int:
        """A register of this kind, which must be there."""
        return self.rng.choice([r for r, one in enumerate(kinds) if one == kind])

    def arguments(self, kinds: Sequence[int]) -> list[int]:
        """Some registers, in any order."""
        count = min(len(kinds), self.rng.randint(1, ARGUMENTS_MOST))
        return self.rng.sample(range(len(kinds)), count)

    def reading_tail(self, result: int, kinds: Sequence[int]) -> Optional[Row]:
        """GET or CAS, if there is something to read and room for what is entered."""
        sources = [r for r, kind in enumerate(kinds) if kind != NUMBER]
        if not sources:
            return None
        source = self.rng.choice(sources)
        arguments = self.arguments(kinds)
        given = tuple(kinds[r] for r in arguments)
        if kinds[source] == NUMBER_CELL:
            word, fronts = "GET", ((NUMBER,),)
        else:
            word, fronts = "CAS", ((), (NUMBER_CELL, LIST_CELL))
        entered = [self.ask(result, front + given) for front in fronts]
        return None if None in entered else Row(word, (source, *entered, *arguments))

    def writing_tail(self, result: int, kinds: Sequence[int]) -> Row:
        """PUT, NIL or CON; a number must be there if one is to be put."""
        if result == NUMBER_CELL:
            return Row("PUT", (self.some(kinds, NUMBER),))
        if {NUMBER_CELL, LIST_CELL} <= set(kinds) and self.rng.random() < 0.8:
            return Row("CON", (self.some(kinds, NUMBER_CELL), self.some(kinds, LIST_CELL)))
        return Row("NIL")
