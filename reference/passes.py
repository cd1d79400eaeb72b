"""A sheet under passes: which calls there is a fitting pass for.

A pass begins with `open` and ends with `withdraw` or `settle`.  Between passes
a sheet is settled where a trace stands, else unsettled.  Posts belong to an
open pass, readings to a settled sheet; whatever does not fit is refused with
13, before anything else is looked at.

A sheet is settled once so far: no pass is opened on a settled one.  Nothing
else rests on this.  A pass keeps the inputs as at its opening, and `settle`
hands the trace that stands, if there is one, to be settled by turns.
"""

from __future__ import annotations

from enum import Enum
from typing import Optional

from program_text import Program
from sheet import Content, ListingLine, Refused, Settled, Sheet

NO_PASS = 13

SETTLED_ONCE = True


class State(Enum):
    """How a sheet stands."""

    UNSETTLED = "unsettled"
    OPEN = "open"
    SETTLED = "settled"


OPENED_FROM = (State.UNSETTLED,) if SETTLED_ONCE else (State.UNSETTLED, State.SETTLED)


class PassedSheet:
    """A sheet, and the inputs as at the opening of its pass if one is open."""

    def __init__(self, program: Program, limit: int) -> None:
        self.sheet = Sheet(program, limit)
        self.at_open: Optional[list[Content]] = None

    @property
    def state(self) -> State:
        """Open, or settled where a trace stands, or unsettled."""
        if self.at_open is not None:
            return State.OPEN
        return State.UNSETTLED if self.sheet.trace is None else State.SETTLED

    def need(self, *states: State) -> None:
        """Refuses a call that does not fit how the sheet stands."""
        if self.state not in states:
            raise Refused(NO_PASS)

    def open(self) -> None:
        """Begins a pass."""
        self.need(*OPENED_FROM)
        self.at_open = list(self.sheet.inputs)

    def post(self, number: int, content: Content) -> None:
        """Sets an input; a refused post leaves the pass open."""
        self.need(State.OPEN)
        self.sheet.post(number, content)

    def withdraw(self) -> State:
        """Ends the pass with the inputs as at its opening; tells how the sheet stands then."""
        self.need(State.OPEN)
        self.sheet.inputs, self.at_open = self.at_open, None
        return self.state

    def settle(self) -> Settled:
        """Ends the pass, also where the sheet is too large; the inputs stay as posted."""
        self.need(State.OPEN)
        self.at_open = None
        return self.sheet.settle()

    def result(self) -> tuple[int, ...]:
        """The content of record 0."""
        self.need(State.SETTLED)
        return self.sheet.result()

    def line(self, r: int) -> ListingLine:
        """Line r of the listing."""
        self.need(State.SETTLED)
        return self.sheet.line(r)

    def listing(self) -> list[ListingLine]:
        """All lines of the listing."""
        self.need(State.SETTLED)
        return self.sheet.listing()
