"""Random sheets: a text, and calls around one or more sheets made of it.

Sheets of the families carry the answers that plain Python foretells, also where
calls are thrown in that are refused or are no calls.  Of lively, wide and other
random programs nothing is foretold; the reference is asked how many records
their runs make, so that limits can be put exactly there.

The sheets are of the two makes of list by turns.
"""

from __future__ import annotations

from itertools import cycle
from random import Random
from typing import Callable, Iterator, Optional, Sequence

from damage import DAMAGES
from families import FAMILIES, Draft, Outcome, random_value
from lively import LIST_INPUTS, NUMBER_INPUTS, lively_text, wide_text
from rows import accepted
from steps import (
    LIMIT_MOST,
    MAKES_OF_LIST,
    SMALL_MOST,
    Scene,
    Step,
    no_calls,
    posted,
    refused,
    scene,
    settled,
    text_step,
    told,
    untold,
    writable,
)
from stocksheet import answer_journal
from wellformed import NUMBER_CELL, any_sheet

LISTED_MOST = 40  # records up to which a whole listing is asked for
BAD_LIMITS = (0, 0, 513, 513, 514, 1000, 65535)
SHEET_NUMBERS = (0, 1, 7, 42, 1000, 65535)


def random_scenes(rng: Random, count: int) -> list[Scene]:
    """So many random sheets, each with a text of its own."""
    plays = Plays(rng)
    drafts = cycle((
        *FAMILIES, lively_draft, *FAMILIES[:5], lively_draft, wide_draft, *FAMILIES[5:],
        lively_draft, other_draft,
    ))  # fmt: skip
    return [plays.scene(maker(rng)) for maker, _ in zip(drafts, range(count))]


# --- drafts of which nothing is foretold ----------------------------------


def lively_draft(rng: Random) -> Draft:
    """A random program that reads much."""
    return asked_draft(rng, "lively program", lively_text(rng))


def wide_draft(rng: Random) -> Draft:
    """A random program with as many arguments and registers as there may be."""
    return asked_draft(rng, "wide program", wide_text(rng))


def asked_draft(rng: Random, note: str, text: bytes) -> Draft:
    """A program of three numbers and five lists."""
    posts = tuple(near_posts(rng, NUMBER_INPUTS, LIST_INPUTS))
    return drafted(note, text, posts, (f"{NUMBER_INPUTS} empty", "0 0"))


def other_draft(rng: Random) -> Draft:
    """A random program of any form."""
    program = any_sheet(rng)
    numbers = sum(kind == NUMBER_CELL for kind in program.inputs)
    posts = tuple(near_posts(rng, numbers, len(program.inputs) - numbers))
    return drafted("any program", program.text, posts, ())


def near_posts(rng: Random, numbers: int, lists: int) -> Iterator[str]:
    """Posts for up to six inputs of each kind; now and then a list runs into a circle."""
    for k in range(min(numbers, 6)):
        if rng.random() < 0.8:
            yield f"{k} {random_value(rng)}"
    for k in range(numbers, numbers + min(lists, 6)):
        if not numbers or rng.random() < 0.15:
            yield f"{k} empty"
            continue
        behind = range(k + 1, numbers + lists)
        if not behind or rng.random() < 0.07:
            behind = range(numbers, numbers + lists)
        yield f"{k} cell {rng.randrange(min(numbers, 6))} {rng.choice(behind[:2])}"


def drafted(note: str, text: bytes, posts: tuple[str, ...], smaller: tuple[str, ...]) -> Draft:
    """A draft with the outcomes that the reference tells."""
    return Draft(
        note=note,
        text=text,
        posts=posts,
        unposted=asked(text, ()),
        outcome=asked(text, posts),
        smaller=smaller,
        smaller_outcome=asked(text, posts + smaller),
        foretold=False,
    )


def asked(text: bytes, posts: Sequence[str]) -> Outcome:
    """How many records a run makes, asked of the reference."""
    calls = [f"make 0 {LIMIT_MOST} tagrange", "open", *(f"post {post}" for post in posts), "settle"]
    journal = b"text\n" + text + b".\n" + "\n".join(calls).encode("ascii")
    *_, answer = answer_journal(journal).decode("ascii").splitlines()
    if answer == "settle: refused 21":
        return Outcome(None)
    return Outcome(int(answer.split()[-1]))


# --- plays ----------------------------------------------------------------


class Plays:
    """Writes scenes; `makes` counts the sheets made, which have the makes of list by turns."""

    def __init__(self, rng: Random) -> None:
        self.rng = rng
        self.makes = 0

    def scene(self, draft: Draft) -> Scene:
        """One of the plays with this draft."""
        plays: list[Callable[[Draft], tuple[str, list[Step]]]] = [self.too_large] * 4
        if draft.outcome.within(LIMIT_MOST):
            plays = [self.within] * 4 + [self.at_the_limit] * 4 + [self.walk]
        if draft.unposted.within(LIMIT_MOST):
            plays += [self.withdrawn]
        if self.rng.random() < 0.1:
            plays = [self.left_open, self.walk]
        note, steps = self.rng.choice(plays)(draft)
        return scene(f"{draft.note}: {note}", self.text(draft), steps)

    # Texts and makes.

    def text(self, draft: Draft) -> list[Step]:
        """The text of a draft, now and then with a faulty one behind it."""
        lines = draft.text.split(b"\n")
        functions = sum(line.startswith(b"FUN") for line in lines)
        steps = text_step(draft.text, accepted(functions, len(lines) - 3 - functions))
        return steps + (self.faulty() if self.rng.random() < 0.12 else [])

    def faulty(self) -> list[Step]:
        """A short text with a fault that is foretold."""
        while True:
            damage = self.rng.choice(DAMAGES[self.rng.randint(1, 8)])
            case = damage(self.rng, any_sheet(self.rng))
            if case is not None and len(case.text) < 400 and writable(case.text):
                return text_step(case.text, case.expected)

    def make(self, limit: int) -> list[Step]:
        """A sheet of this limit, of the make of list whose turn it is."""
        name = MAKES_OF_LIST[self.makes % 2]
        self.makes += 1
        number = self.rng.choice((*SHEET_NUMBERS, self.rng.randrange(SMALL_MOST + 1)))
        return told(f"make {number} {limit} {name}: made {number}")

    def roomy(self, least: int) -> int:
        """A limit that is not below this one."""
        any_limit = self.rng.randint(least, LIMIT_MOST)
        return self.rng.choice((least, least, min(least + 1, LIMIT_MOST), LIMIT_MOST, any_limit))

    # The plays themselves.

    def within(self, draft: Draft) -> tuple[str, list[Step]]:
        """Posted and settled within the limit."""
        limit = self.roomy(draft.outcome.records)
        steps = self.make(limit) + self.unsettled(draft) + told("open: open")
        steps += self.posts(draft, draft.posts)
        steps += self.settle(draft, draft.outcome, limit)
        return f"limit {limit}", steps

    def at_the_limit(self, draft: Draft) -> tuple[str, list[Step]]:
        """Too large by one record, and then exactly within the limit."""
        records = draft.outcome.records
        steps: list[Step] = []
        if records > 1:
            steps += self.make(records - 1) + told("open: open")
            steps += self.posts(draft, draft.posts)
            steps += self.settle(draft, draft.outcome, records - 1)
            steps += self.reopened(draft, records - 1)
        steps += self.make(records) + told("open: open") + self.posts(draft, draft.posts)
        steps += self.settle(draft, draft.outcome, records)
        return f"limits {records - 1} and {records}", steps

    def too_large(self, draft: Draft) -> tuple[str, list[Step]]:
        """Too large for any sheet, and then smaller."""
        limit = self.rng.choice((LIMIT_MOST, LIMIT_MOST, LIMIT_MOST - 1, 1, 20, 100))
        steps = self.make(limit) + told("open: open") + self.posts(draft, draft.posts)
        steps += self.settle(draft, draft.outcome, limit)
        return f"limit {limit}", steps + self.reopened(draft, limit)

    def withdrawn(self, draft: Draft) -> tuple[str, list[Step]]:
        """Posted and withdrawn, and then settled as it was made."""
        limit = self.roomy(draft.unposted.records)
        steps = self.make(limit) + self.unsettled(draft) + told("open: open")
        steps += self.posts(draft, draft.posts)
        steps += told("withdraw: withdrawn unsettled") + self.unsettled(draft)
        steps += told("open: open") + self.settle(draft, draft.unposted, limit)
        return f"limit {limit}, withdrawn", steps

    def left_open(self, draft: Draft) -> tuple[str, list[Step]]:
        """Posted, and never settled."""
        steps = self.make(self.rng.randint(1, LIMIT_MOST)) + told("open: open")
        return "left open", steps + self.posts(draft, draft.posts)

    def walk(self, draft: Draft) -> tuple[str, list[Step]]:
        """Any calls in any order; nothing is foretold."""
        records = min(LIMIT_MOST, draft.outcome.records or LIMIT_MOST)
        limit = self.roomy(records)
        posts = [f"post {post}" for post in draft.posts + draft.smaller] or ["post 0 1"]
        readings = ["result", "line 0", f"line {records - 1}", f"line {records}"]
        if records <= LISTED_MOST:
            readings.append("listing")
        steps = self.make(limit)
        for _ in range(self.rng.randint(8, 25)):
            some = self.rng.choice((
                "open", "open", "settle", "withdraw", self.rng.choice(posts),
                self.rng.choice(posts), self.rng.choice(posts), self.rng.choice(readings),
            ))  # fmt: skip
            steps += untold(some, "result") if some == "settle" else untold(some)
            steps += self.make(limit) if self.rng.random() < 0.05 else []
        return f"a walk, limit {limit}", steps

    # Their parts.

    def posts(self, draft: Draft, posts: Sequence[str]) -> list[Step]:
        """Posts, with calls between them that are refused or are none."""
        chance = min(0.2, 3 / (len(posts) + 1))
        steps: list[Step] = []
        for post in posts:
            steps += self.aside_while_open(draft) if self.rng.random() < chance else []
            steps += posted(post)
        return steps + (self.aside_while_open(draft) if self.rng.random() < 0.3 else [])

    def settle(self, draft: Draft, outcome: Outcome, limit: int) -> list[Step]:
        """A settle, and readings behind it."""
        if outcome.within(limit):
            foretold = settled(outcome.records)
            behind = self.readings(draft, outcome)
        else:
            foretold = refused(21, "settle")
            behind = refused(13, "result") + self.unsettled(draft)
        return (foretold if draft.foretold else untold("settle")) + behind

    def readings(self, draft: Draft, outcome: Outcome) -> list[Step]:
        """The result, the listing or some lines of it, and lines that are not there."""
        if outcome.result is None:
            steps = untold("result")
        else:
            steps = told(f"result: result {outcome.result}")
        records = outcome.records
        if records <= LISTED_MOST:
            steps += untold("listing")
        else:
            chosen = {0, 1, records - 1, *(self.rng.randrange(records) for _ in range(4))}
            steps += untold(*(f"line {r}" for r in sorted(chosen)))
        if self.rng.random() < 0.4:
            steps += untold(f"line {records - 1}")
            steps += refused(24, f"line {records}", f"line {SMALL_MOST}")
        if self.rng.random() < 0.3:
            calls = ("open", "post 0 0", "post 300 empty", "withdraw", "settle")
            steps += refused(13, *self.rng.sample(calls, 2)) + self.aside()
        return steps

    def reopened(self, draft: Draft, limit: int) -> list[Step]:
        """Behind a settle that was too large: the same again, or smaller."""
        steps: list[Step] = []
        if self.rng.random() < 0.3:
            steps += told("open: open") + self.settle(draft, draft.outcome, limit)
        if draft.smaller and self.rng.random() < 0.8:
            steps += told("open: open") + self.posts(draft, draft.smaller)
            steps += self.settle(draft, draft.smaller_outcome, limit)
        return steps

    def unsettled(self, draft: Draft) -> list[Step]:
        """Now and then some calls that an unsettled sheet refuses."""
        if self.rng.random() < 0.7:
            return []
        calls = ("post 0 0", "post 300 empty", "withdraw", "settle", "result", "line 0",
                 "line 65535", "listing")  # fmt: skip
        return refused(13, *self.rng.sample(calls, 2)) + self.aside()

    def aside_while_open(self, draft: Draft) -> list[Step]:
        """A call that an open sheet refuses, or a line that is none."""
        if self.rng.random() < 0.25:
            return refused(13, self.rng.choice(("open", "result", "line 0", "listing")))
        return self.refused_post(*draft.amounts) if self.rng.random() < 0.7 else self.aside()

    def refused_post(self, numbers: int, lists: int) -> list[Step]:
        """A post that is refused, on a sheet with so many inputs of each kind."""
        inputs = numbers + lists
        missing = self.rng.choice((inputs, inputs + 1, SMALL_MOST))
        number, list_input = self.rng.randrange(max(1, numbers)), inputs - 1
        content = self.rng.choice(("5", "empty", f"cell {number} {list_input}"))
        options = refused(14, f"post {missing} {content}")
        if numbers:
            options += refused(15, f"post {number} empty", f"post {number} cell {missing} 0")
        if lists:
            options += refused(15, f"post {list_input} {random_value(self.rng)}")
            bad_head = self.rng.choice((missing, list_input))
            options += refused(16, f"post {list_input} cell {bad_head} {list_input}")
        if lists and numbers:
            bad_tail = self.rng.choice((missing, number))
            options += refused(16, f"post {list_input} cell {number} {bad_tail}")
        return [self.rng.choice(options)]

    def aside(self) -> list[Step]:
        """A line that changes no sheet: no call, or a make that is refused."""
        if self.rng.random() < 0.3:
            limit, name = self.rng.choice(BAD_LIMITS), self.rng.choice(MAKES_OF_LIST)
            return refused(11, f"make {self.rng.choice(SHEET_NUMBERS)} {limit} {name}")
        return no_calls(misspelt(self.rng))


# --- lines that are no calls ----------------------------------------------


def misspelt(rng: Random) -> bytes:
    """A call with one thing wrong about it."""
    found: Optional[str] = None
    while found is None:
        found = rng.choice(SLIPS)(rng, rng.choice(CALLS)(rng))
    return found.encode("latin-1")


Words = list[str]

CALLS: tuple[Callable[[Random], Words], ...] = (
    lambda rng: ["open"],
    lambda rng: ["withdraw"],
    lambda rng: ["settle"],
    lambda rng: ["result"],
    lambda rng: ["listing"],
    lambda rng: ["line", str(rng.randrange(30))],
    lambda rng: ["post", str(rng.randrange(9)), str(random_value(rng))],
    lambda rng: ["post", str(rng.randrange(9)), "empty"],
    lambda rng: ["post", str(rng.randrange(9)), "cell", str(rng.randrange(9)), "3"],
    lambda rng: ["make", "7", str(rng.randint(1, LIMIT_MOST)), rng.choice(MAKES_OF_LIST)],
)

BAD_NUMBERS = ("-0", "+1", "00", "2147483648", "-2147483649", "1.0", "0x1", "", "1e2", "--1")


def spaced_wrong(rng: Random, words: Words) -> Optional[str]:
    """A space too many, before, behind or between."""
    place = rng.randint(0, len(words))
    return " ".join((*words[:place], "", *words[place:]))


def word_missing(rng: Random, words: Words) -> Optional[str]:
    """The last word is missing; what is left must have a word."""
    return " ".join(words[:-1]) if len(words) > 1 else None


def word_too_many(rng: Random, words: Words) -> Optional[str]:
    """One word more."""
    return " ".join((*words, rng.choice(("0", "1", "empty", "tagrange", "x"))))


def leading_zero(rng: Random, words: Words) -> Optional[str]:
    """A zero before the digits of a number."""
    return number_turned(
        rng, words, lambda word: f"-0{word[1:]}" if word.startswith("-") else f"0{word}"
    )


def bad_number(rng: Random, words: Words) -> Optional[str]:
    """A number that is none or does not fit."""
    return number_turned(rng, words, lambda word: rng.choice(BAD_NUMBERS))


def large_number(rng: Random, words: Words) -> Optional[str]:
    """A number beyond 65535 that is not the number of a content."""
    if len(words) < 2:
        return None
    return " ".join((words[0], rng.choice(("65536", "70000", "99999", "4294967296")), *words[2:]))


def number_turned(rng: Random, words: Words, turn: Callable[[str], str]) -> Optional[str]:
    """One of the numbers turned into something else."""
    places = [i for i, word in enumerate(words) if word.lstrip("-").isdigit()]
    if not places:
        return None
    place = rng.choice(places)
    return " ".join((*words[:place], turn(words[place]), *words[place + 1 :]))


def letter_wrong(rng: Random, words: Words) -> Optional[str]:
    """A word in capitals, with a letter too many, or with one left out."""
    places = [i for i, word in enumerate(words) if word.isalpha()]
    place = rng.choice(places)
    word = words[place]
    wrong = rng.choice((word.capitalize(), word.upper(), word + "s", word[:-1], word[1:]))
    return " ".join((*words[:place], wrong, *words[place + 1 :]))


def byte_wrong(rng: Random, words: Words) -> Optional[str]:
    """Another byte than a space between two words, or one behind the last."""
    byte = rng.choice(("\t", "\r", "\x00", "\xff", ",", "_", "."))
    line = " ".join(words)
    return line.replace(" ", byte, 1) if " " in line and rng.random() < 0.5 else line + byte


def later_call(rng: Random, words: Words) -> Optional[str]:
    """A call that there is not yet."""
    return rng.choice(("book 4 1 25", "turn 9", "audit", "book 1 0 empty", "turn 0"))


SLIPS: tuple[Callable[[Random, Words], Optional[str]], ...] = (
    spaced_wrong, word_missing, word_too_many, leading_zero, bad_number, large_number,
    letter_wrong, byte_wrong, later_call,
)  # fmt: skip
