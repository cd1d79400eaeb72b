"""What the makers of test sheets share: steps of a journal, and scenes of them.

Nothing here comes from the program that answers journals.  A step carries the
answer that the rules give it where its maker can foretell that.
"""

from __future__ import annotations

from dataclasses import dataclass
from typing import Iterable, Iterator, Optional, Sequence

from rows import Row, accepted, render, rows

NUMBER_LEAST, NUMBER_MOST = -(2**31), 2**31 - 1
LIMIT_MOST = 512
SMALL_MOST = 65_535  # of numbers of sheets, inputs and lines

RENUMBERING, TAGRANGE = "renumbering", "tagrange"
MAKES_OF_LIST = (RENUMBERING, TAGRANGE)

NOT_A_CALL = "not a call"

TEXT = b"text"
TEXT_END = b"."


@dataclass(frozen=True)
class Step:
    """A line that is answered, and behind `text` the lines of the text."""

    line: bytes
    body: Optional[bytes] = None
    expected: Optional[str] = None

    def __bytes__(self) -> bytes:
        """The step as it stands in a journal."""
        if self.body is None:
            return self.line + b"\n"
        return self.line + b"\n" + self.body + TEXT_END + b"\n"


@dataclass(frozen=True)
class Scene:
    """Some steps that belong together."""

    note: str
    steps: tuple[Step, ...]


def scene(note: str, *parts: Iterable[Step]) -> Scene:
    """A scene of several runs of steps."""
    return Scene(note, tuple(step for part in parts for step in part))


def scene_bytes(scenes: Sequence[Scene], what: str) -> Iterator[bytes]:
    """Scenes as they stand in a journal, each behind a comment."""
    for number, one in enumerate(scenes, 1):
        yield f"# {what} {number}. {one.note}\n".encode("ascii")
        yield from map(bytes, one.steps)


def writable(text: bytes) -> bool:
    """Whether a journal can hold this text with more behind it."""
    return TEXT_END not in text.split(b"\n") and text[-1:] in (b"", b"\n")


# --- steps ----------------------------------------------------------------


def told(*pairs: str) -> list[Step]:
    """Steps written as they are answered: `post 0 6: posted`."""
    steps = []
    for pair in pairs:
        line, _, expected = pair.partition(": ")
        steps.append(Step(line.encode("ascii"), None, expected))
    return steps


def untold(*lines: str) -> list[Step]:
    """Steps whose answers are not foretold."""
    return [Step(line.encode("ascii")) for line in lines]


def refused(number: int, *lines: str) -> list[Step]:
    """Steps that are refused with this number."""
    return told(*(f"{line}: refused {number}" for line in lines))


def no_calls(*lines: bytes) -> list[Step]:
    """Steps that are none of the calls."""
    return [Step(line, None, NOT_A_CALL) for line in lines]


def posted(*posts: str) -> list[Step]:
    """Posts that are not refused, each given as input and content."""
    return told(*(f"post {post}: posted" for post in posts))


def text_step(text: bytes, expected: Optional[str] = None) -> list[Step]:
    """A text, given whole."""
    return [Step(TEXT, text, expected)]


def program_step(parts: Sequence[Row]) -> list[Step]:
    """A text of rows that has no fault."""
    functions = sum(row.word == "FUN" for row in parts)
    return text_step(render(parts), accepted(functions, len(parts) - 2 - functions))


def program(close: str) -> list[Step]:
    """A text of rows written close that has no fault."""
    return program_step(rows(close))


def made(number: int, limit: int, make_of_list: str) -> list[Step]:
    """A make that is not refused."""
    return told(f"make {number} {limit} {make_of_list}: made {number}")


def settled(records: int) -> list[Step]:
    """A settle that makes so many records."""
    return told(f"settle: settled mark 2 E 0 M {records} S {records}")


def listed(*lines: str) -> list[Step]:
    """A listing with these lines."""
    return told("\n  ".join((f"listing: {len(lines)} lines", *lines)))
