"""What the makers of test texts share: rows, their bytes, and cases.

Nothing here comes from the check.  The forms of the words and the layers of
the faults are written down a second time, so that the expected answers do not
lean on the program they are held against.
"""

from __future__ import annotations

from dataclasses import dataclass
from typing import Iterable, Optional, Sequence

ARITHMETIC = ("ADD", "SUB", "MUL", "DIV", "MIN", "MAX")

# For each word, what its fixed fields mean, what further fields mean, and how
# many of those there may be: a amount, v literal, k kind, i input, r register,
# f function.
FORMS: dict[str, tuple[str, str, int]] = {
    "INP": ("aa", "", 0),
    "RUN": ("", "i", 6),
    "FUN": ("k", "k", 6),
    "LIT": ("v", "", 0),
    **{word: ("rr", "", 0) for word in ARITHMETIC},
    "NEW": ("f", "r", 6),
    "PUT": ("r", "", 0),
    "NIL": ("", "", 0),
    "CON": ("rr", "", 0),
    "GET": ("rf", "r", 5),
    "CAS": ("rff", "r", 4),
}
COMMANDS = ("LIT", *ARITHMETIC, "NEW")
TAILS = ("PUT", "NIL", "CON", "GET", "CAS")

FIELDS_MOST = 9
LAYERS = {1: 1, 2: 1, 3: 1, 4: 2, 5: 2, 6: 2, 7: 3, 8: 3}


@dataclass(frozen=True)
class Row:
    """A line of a text: its word and its numbers."""

    word: str
    fields: tuple[int, ...] = ()

    def sorts(self) -> str:
        """What each field means, one letter for each."""
        fixed, rest, _ = FORMS[self.word]
        return (fixed + rest * len(self.fields))[: len(self.fields)]

    def with_field(self, index: int, value: int) -> Row:
        """This row with another number in one field."""
        fields = list(self.fields)
        fields[index] = value
        return Row(self.word, tuple(fields))

    def __bytes__(self) -> bytes:
        """The line as it stands in a text, without its byte 10."""
        return (self.word + "".join(f"{value:6d}" for value in self.fields)).encode()


@dataclass(frozen=True)
class Case:
    """A text for the journal, and the answer to it where that is known."""

    note: str
    text: bytes
    expected: Optional[str] = None


def rows(close: str) -> list[Row]:
    """Rows written close, as in `INP 1 0; RUN; FUN 3; NIL`."""
    parsed = []
    for part in close.split(";"):
        word, *numbers = part.split()
        parsed.append(Row(word, tuple(map(int, numbers))))
    return parsed


def render(parts: Iterable[Row]) -> bytes:
    """The text of some rows."""
    return join([bytes(row) for row in parts])


def join(lines: Sequence[bytes]) -> bytes:
    """The text of some lines, each given without its byte 10."""
    return b"".join(line + b"\n" for line in lines)


def least_fields(word: str) -> int:
    """The smallest count of fields that a word admits."""
    return len(FORMS[word][0])


def most_fields(word: str) -> int:
    """The largest count of fields that a word admits."""
    fixed, _, extra = FORMS[word]
    return len(fixed) + extra


def wrong_counts(word: str) -> list[int]:
    """The counts of fields that a line can have and this word does not admit."""
    admitted = range(least_fields(word), most_fields(word) + 1)
    return [count for count in range(FIELDS_MOST + 1) if count not in admitted]


def accepted(functions: int, steps: int) -> str:
    """The answer to a text without a fault."""
    return f"accepted {functions} functions {steps} steps"


def fault(number: int, line: int) -> str:
    """The answer to a text with a fault."""
    return f"fault {number} line {line} layer {LAYERS[number]}"
