#!/usr/bin/env python3
"""Tests of the calls on sheets: journals worked out by hand from the rules.

The last classes hold the generated sheets against the answers that their makers
foretell, and all answers of the stored journal against a small table of which
call fits which state of a sheet.
"""

from __future__ import annotations

import unittest
from collections import Counter
from random import Random

import generate
from calls import Call, NotACall, read_call
from random_sheets import misspelt
from sheet import EMPTY, Number, cell
from steps import MAKES_OF_LIST, Scene
from stocksheet import Session, answer_journal

# As in regenerate.sh.
STORED_START = 2002
STORED_TEXTS = 700
STORED_SHEETS = 400
JOURNAL_MOST = 1_500_000

PRICE_TIMES_COUNT = b"""text
INP     2     0
RUN     0     1
FUN     2     2     2
GET     0     1     1
FUN     2     1     2
GET     1     2     0
FUN     2     1     1
MUL     0     1
PUT     2
.
"""
LIST_SUM = b"""text
INP     2     3
RUN     2
FUN     2     3
CAS     0     1     2
FUN     2
LIT     0
PUT     0
FUN     2     2     3
NEW     0     1
GET     0     3     2
FUN     2     1     2
GET     1     4     0
FUN     2     1     1
ADD     0     1
PUT     2
.
"""
# Reads nothing and puts 5; it has three inputs, and one list.
FIVE = b"""text
INP     3     1
RUN
FUN     2
LIT     5
PUT     0
.
"""
FAULTY = b"""text
INP     2     0
RUN     2
FUN     2     2
LIT     0
PUT     0
.
"""
ACCEPTED_PRICE = "text: accepted 3 functions 4 steps\n"
ACCEPTED_SUM = "text: accepted 5 functions 8 steps\n"
ACCEPTED_FIVE = "text: accepted 1 functions 2 steps\n"
FAULT = "text: fault 7 line 2 layer 3\n"

LIST_SUM_POSTS = """\
post 0 7: posted
post 1 8: posted
post 2 cell 0 3: posted
post 3 cell 1 4: posted
post 4 empty: posted
"""


class JournalTest(unittest.TestCase):
    """Base of tests that hold answers against what they must be."""

    def answers(self, *parts: str | bytes) -> None:
        """Parts are texts as they stand in the journal, and answers; calls are taken
        from the answers, up to the last colon of a line that is not set in."""
        journal, expected = b"", b""
        for part in parts:
            if isinstance(part, bytes):
                journal += part
                continue
            expected += part.encode()
            journal += b"".join(map(call_of, part.encode().splitlines()))
        with self.subTest(journal=journal):
            self.assertEqual(answer_journal(journal).decode(), expected.decode())


def call_of(answer: bytes) -> bytes:
    """The line of a journal that has this answer, or nothing if it stands there anyway."""
    line, _, told = answer.rpartition(b": ")
    if answer.startswith(b"  ") or line in (b"text", b"end of journal"):
        return b""
    return line + b"\n"


class Examples(JournalTest):
    def test_price_times_count(self):
        self.assertEqual(
            answer_journal(
                PRICE_TIMES_COUNT
                + b"make 7 10 tagrange\nopen\npost 0 6\npost 1 25\nsettle\nlisting\n"
            ).decode(),
            "text: accepted 3 functions 4 steps\n"
            "make 7 10 tagrange: made 7\n"
            "open: open\n"
            "post 0 6: posted\n"
            "post 1 25: posted\n"
            "settle: settled mark 2 E 0 M 3 S 3\n"
            "listing: 3 lines\n"
            "  NEW 0 3 0 1 150 0 1\n"
            "  GET 1 3 0 1000 1 6 1\n"
            "  GET 2 3 1 1000 2 25 6\n",
        )

    def test_list_sum(self):
        for name in MAKES_OF_LIST:
            self.answers(
                LIST_SUM,
                f"{ACCEPTED_SUM}make 1 10 {name}: made 1\nopen: open\n{LIST_SUM_POSTS}",
                "settle: settled mark 2 E 0 M 10 S 10\n"
                "result: result 1 15\n"
                "listing: 10 lines\n"
                "  NEW 0 10 0 1 15 2\n"
                "  CAS 1 10 2 1000 2 0 3\n"
                "  NEW 2 8 0 1 8 3\n"
                "  CAS 3 8 3 1002 2 1 4\n"
                "  NEW 4 6 0 1 0 4\n"
                "  CAS 5 6 4 1004 1\n"
                "  GET 6 8 1 1002 3 8 1004\n"
                "  GET 7 8 1004 1002 4 0 8\n"
                "  GET 8 10 0 1000 3 7 1002\n"
                "  GET 9 10 1002 1000 4 8 7\n"
                "line 0: NEW 0 10 0 1 15 2\n"
                "line 9: GET 9 10 1002 1000 4 8 7\n"
                "line 10: refused 24\n"
                "line 65535: refused 24\n",
                f"make 1 9 {name}: made 1\nopen: open\n{LIST_SUM_POSTS}",
                "settle: refused 21\nresult: refused 13\nlisting: refused 13\n",
            )

    def test_results_of_lists(self):
        tails = (
            b"text\nINP     2     2\nRUN     2\nFUN     3     3\nCAS     0     1     2\n"
            b"FUN     3\nNIL\nFUN     3     2     3\nNEW     0     1\nCON     0     3\n.\n"
        )
        # A list made of new cells; register 3 is not there, so this text has a fault.
        self.answers(tails, "text: fault 7 line 9 layer 3\n")
        self.answers(
            tails.replace(b"CON     0     3", b"CON     0     2"),
            "text: accepted 3 functions 4 steps\n"
            "make 1 4 tagrange: made 1\nopen: open\n"
            "settle: settled mark 2 E 0 M 2 S 2\nresult: result 2\n"
            "make 1 4 tagrange: made 1\nopen: open\npost 2 cell 1 3: posted\n"
            "settle: settled mark 2 E 0 M 4 S 4\nresult: result 3 1 1002\n"
            "listing: 4 lines\n"
            "  NEW 0 4 0 3 1 1002 2\n"
            "  CAS 1 4 2 1000 2 1 3\n"
            "  NEW 2 4 0 2 3\n"
            "  CAS 3 4 3 1002 1\n",
        )


class Passes(JournalTest):
    def test_before_make(self):
        for call in (
            "open", "post 0 6", "post 9 cell 9 9", "withdraw", "settle", "result", "line 0",
            "line 65535", "listing",
        ):  # fmt: skip
            self.answers(f"{call}: refused 13\n")
            self.answers(PRICE_TIMES_COUNT, f"{ACCEPTED_PRICE}{call}: refused 13\n")

    def test_unsettled(self):
        for call in ("post 0 6", "withdraw", "settle", "result", "line 0", "listing"):
            self.answers(f"make 1 1 tagrange: made 1\n{call}: refused 13\n")

    def test_open(self):
        for call in ("open", "result", "line 0", "line 9", "listing"):
            self.answers(
                f"make 1 1 tagrange: made 1\nopen: open\n{call}: refused 13\n"
                "settle: settled mark 2 E 0 M 1 S 1\n"
            )

    def test_settled_once(self):
        for call in ("open", "post 0 6", "post 9 9", "withdraw", "settle"):
            self.answers(
                "make 1 1 tagrange: made 1\nopen: open\nsettle: settled mark 2 E 0 M 1 S 1\n"
                f"{call}: refused 13\n{call}: refused 13\nresult: result 1 0\n"
            )

    def test_withdraw(self):
        self.answers(
            PRICE_TIMES_COUNT,
            f"{ACCEPTED_PRICE}make 1 10 renumbering: made 1\n"
            "open: open\npost 0 6: posted\npost 1 25: posted\nwithdraw: withdrawn unsettled\n"
            "withdraw: refused 13\nsettle: refused 13\nresult: refused 13\n"
            "open: open\npost 1 25: posted\nsettle: settled mark 2 E 0 M 3 S 3\n"
            "result: result 1 0\nline 2: GET 2 3 1 1000 2 25 0\n",
        )

    def test_too_large(self):
        self.answers(
            LIST_SUM,
            f"{ACCEPTED_SUM}make 1 9 renumbering: made 1\nopen: open\n{LIST_SUM_POSTS}",
            "settle: refused 21\nsettle: refused 13\nwithdraw: refused 13\nresult: refused 13\n"
            "open: open\nsettle: refused 21\n"
            "open: open\npost 2 empty: posted\nwithdraw: withdrawn unsettled\n"
            "open: open\nsettle: refused 21\n"
            "open: open\npost 3 empty: posted\nsettle: settled mark 2 E 0 M 6 S 6\n"
            "result: result 1 7\nopen: refused 13\n",
        )

    def test_without_end(self):
        circles = (("2 cell 0 2",), ("2 cell 0 3", "3 cell 1 2"))
        for posts in circles:
            posts = "".join(f"post {post}: posted\n" for post in posts)
            self.answers(
                LIST_SUM,
                f"{ACCEPTED_SUM}make 1 512 tagrange: made 1\nopen: open\n{posts}",
                "settle: refused 21\nopen: open\npost 2 empty: posted\n"
                "settle: settled mark 2 E 0 M 2 S 2\nresult: result 1 0\n",
            )

    def test_end_of_the_journal(self):
        end = "end of journal: withdrawn unsettled\n"
        made = "make 1 1 tagrange: made 1\nopen: open\n"
        self.answers(made + end)
        self.answers(made + "post 0 6: posted\nopen: refused 13\n" + end)
        self.answers(made, PRICE_TIMES_COUNT, ACCEPTED_PRICE + end)
        self.answers(made, b"# a remark\n\n", end)
        self.answers(made, b"text\nINP", "text: fault 1 line 1 layer 1\n" + end)
        self.answers(made + "withdraw: withdrawn unsettled\n")
        self.answers(made + "settle: settled mark 2 E 0 M 1 S 1\n")
        self.answers("make 1 1 tagrange: made 1\n")
        self.assertEqual(answer_journal(b"make 1 1 tagrange\nopen").decode(), made + end)


class Makes(JournalTest):
    def test_limits(self):
        for limit in (0, 513, 514, 65535):
            self.answers(f"make 7 {limit} tagrange: refused 11\nopen: refused 13\n")
            self.answers(f"make 7 {limit} renumbering: refused 11\n")
        for limit in (1, 2, 511, 512):
            self.answers(f"make 7 {limit} tagrange: made 7\n")

    def test_numbers(self):
        for number in (0, 7, 65535):
            self.answers(f"make {number} 1 renumbering: made {number}\n")

    def test_a_refused_make_changes_nothing(self):
        bad = "make 2 0 tagrange: refused 11\n"
        self.answers(
            PRICE_TIMES_COUNT,
            f"{ACCEPTED_PRICE}make 1 3 tagrange: made 1\n{bad}open: open\npost 0 6: posted\n",
            f"{bad}open: refused 13\npost 1 25: posted\nsettle: settled mark 2 E 0 M 3 S 3\n",
            f"{bad}result: result 1 150\n",
        )

    def test_a_later_make(self):
        self.answers(
            PRICE_TIMES_COUNT,
            f"{ACCEPTED_PRICE}make 1 3 tagrange: made 1\nopen: open\npost 0 6: posted\n"
            "make 2 3 renumbering: made 2\npost 1 5: refused 13\nopen: open\npost 1 5: posted\n"
            "settle: settled mark 2 E 0 M 3 S 3\nresult: result 1 0\n"
            "make 2 3 renumbering: made 2\nresult: refused 13\nopen: open\n"
            "settle: settled mark 2 E 0 M 3 S 3\nline 2: GET 2 3 1 1000 2 0 0\n",
        )

    def test_the_first_program(self):
        self.answers(
            "make 1 1 tagrange: made 1\nopen: open\npost 1 0: refused 14\npost 0 9: posted\n"
            "settle: settled mark 2 E 0 M 1 S 1\nresult: result 1 0\nline 0: NEW 0 1 0 1 0\n"
        )
        self.answers(
            FAULTY,
            f"{FAULT}make 1 1 tagrange: made 1\nopen: open\npost 1 0: refused 14\n"
            "withdraw: withdrawn unsettled\n",
        )

    def test_the_text_accepted_last(self):
        self.answers(
            FIVE,
            ACCEPTED_FIVE,
            FAULTY,
            f"{FAULT}make 1 1 tagrange: made 1\n",
            PRICE_TIMES_COUNT,
            f"{ACCEPTED_PRICE}open: open\npost 2 1: posted\n",
            FAULTY,
            f"{FAULT}settle: settled mark 2 E 0 M 1 S 1\nresult: result 1 5\n",
            "make 1 3 tagrange: made 1\nopen: open\npost 2 1: refused 14\n",
            "settle: settled mark 2 E 0 M 3 S 3\n",
        )


class Posts(JournalTest):
    MADE = f"{ACCEPTED_SUM}make 1 10 tagrange: made 1\nopen: open\n"
    END = "withdraw: withdrawn unsettled\n"

    def refused(self, number: int, *posts: str) -> None:
        for post in posts:
            self.answers(LIST_SUM, f"{self.MADE}post {post}: refused {number}\n{self.END}")

    def test_missing_inputs_first(self):
        self.refused(14, "5 1", "5 empty", "5 cell 0 3", "5 cell 9 9", "65535 cell 65535 0")

    def test_the_other_kind_then(self):
        self.refused(15, "0 empty", "1 cell 0 3", "2 0", "4 -1", "0 cell 9 9", "1 cell 2 2")

    def test_cells_last(self):
        self.refused(16, "2 cell 5 3", "2 cell 0 5", "2 cell 2 3", "2 cell 0 1", "4 cell 9 9")
        self.refused(16, "3 cell 65535 3", "3 cell 0 65535", "2 cell 4 0")

    def test_refused_posts_change_nothing(self):
        self.answers(
            LIST_SUM,
            f"{self.MADE}{LIST_SUM_POSTS}",
            "post 0 empty: refused 15\npost 2 5: refused 15\npost 2 cell 0 0: refused 16\n"
            "post 9 9: refused 14\npost 0 07: not a call\n"
            "settle: settled mark 2 E 0 M 10 S 10\nresult: result 1 15\n",
        )

    def test_ends_of_numbers(self):
        self.answers(
            PRICE_TIMES_COUNT,
            f"{ACCEPTED_PRICE}make 1 3 tagrange: made 1\nopen: open\n"
            "post 0 2147483647: posted\npost 1 -2147483648: posted\n"
            "post 0 2147483648: not a call\npost 1 -2147483649: not a call\n"
            "settle: settled mark 2 E 0 M 3 S 3\nresult: result 1 -2147483648\n",
        )


class Lines(unittest.TestCase):
    def reads(self, line: bytes, *expected: object) -> None:
        with self.subTest(line=line):
            self.assertEqual(read_call(line), Call(line.split()[0], expected))

    def test_calls(self):
        for word in (b"text", b"open", b"withdraw", b"settle", b"result", b"listing"):
            self.reads(word)
        self.reads(b"make 0 0 renumbering", 0, 0, b"renumbering")
        self.reads(b"make 65535 512 tagrange", 65535, 512, b"tagrange")
        self.reads(b"line 65535", 65535)
        self.reads(b"line 10", 10)
        self.reads(b"post 0 0", 0, Number(0))
        self.reads(b"post 65535 -2147483648", 65535, Number(-2147483648))
        self.reads(b"post 9 2147483647", 9, Number(2147483647))
        self.reads(b"post 9 empty", 9, EMPTY)
        self.reads(b"post 9 cell 0 65535", 9, cell(0, 65535))

    def test_no_calls_before_any_refusal(self):
        for line in (
            b"post  0 6", b"post 0 6 ", b" post 0 6", b"post 0", b"post", b"post 0 6 7",
            b"post 00 6", b"post 0 06", b"post 0 -0", b"post 0 +6", b"post 0 -", b"post 0 ",
            b"post -1 6", b"post 65536 6", b"post 0 2147483648", b"post 0 -2147483649",
            b"post 0 empty 1", b"post 0 Empty", b"post 0 cell", b"post 0 cell 1",
            b"post 0 cell 1 2 3", b"post 0 cell 1 -2", b"post 0 cell 65536 2", b"post 0 cell 1  2",
            b"post 0 " + b"9" * 6000, b"post " + b"9" * 6000 + b" 1", b"post 0 \xd9\xa1",
            b"make", b"make 7 10", b"make 7 10 list", b"make 7 10 Tagrange", b"make 7 10 tagrange ",
            b"make 7 0 list", b"make 65536 0 tagrange", b"make 7 65536 tagrange",
            b"make 07 10 tagrange", b"make 7 10 tagrange 1", b"make 7 -1 tagrange",
            b"line", b"line -1", b"line 65536", b"line 01", b"line 1 2", b"line  1", b"line 1\r",
            b"open ", b"open 1", b"Open", b"settle 1", b"withdraw 1", b"result 0", b"listing 0",
            b"text 1", b"book 4 1 25", b"turn 9", b"audit", b"end of journal", b"", b" ",
        ):  # fmt: skip
            with self.subTest(line=line):
                self.assertRaises(NotACall, read_call, line)
                answer = b"" if not line else line + b": not a call\n"
                self.assertEqual(answer_journal(line), answer)

    def test_misspelt_calls(self):
        rng = Random(7)
        for _ in range(5_000):
            line = misspelt(rng)
            with self.subTest(line=line):
                self.assertRaises(NotACall, read_call, line)


# --- generated sheets -----------------------------------------------------


def answers_of(scenes: list[Scene]) -> list[str]:
    """What the steps of some scenes are answered, one after another."""
    steps = [step for one in scenes for step in one.steps]
    session = Session(b"".join(map(bytes, steps)))
    found = []
    for step, answer in zip(steps, session.answers()):
        found.append(answer[len(step.line) + 2 : -1].decode("ascii"))
    return found


class GeneratedSheets(unittest.TestCase):
    def foretold(self, scenes: list[Scene]) -> Counter[str]:
        """Holds all foretold answers, and counts all answers by their first two words."""
        steps = [(one.note, step) for one in scenes for step in one.steps]
        answers = answers_of(scenes)
        self.assertEqual(len(answers), len(steps))
        for (note, step), answer in zip(steps, answers):
            if step.expected is not None:
                self.assertEqual(answer, step.expected, f"{note}: {step.line!r}")
        return Counter(" ".join(answer.split()[:2]) for answer in answers)

    def test_openings(self):
        self.foretold(generate.opening_scenes())

    def test_stored_sheets(self):
        scenes = generate.sheets(STORED_START, STORED_SHEETS)
        seen = self.foretold(scenes)
        for number in (11, 13, 14, 15, 16, 21, 24):
            self.assertGreaterEqual(seen[f"refused {number}"], 90, seen)
        for answer, least in (
            ("not a", 500), ("open", 500), ("posted", 2000), ("withdrawn unsettled", 50),
            ("settled mark", 400), ("result 1", 250), ("result 2", 20), ("result 3", 80),
        ):  # fmt: skip
            self.assertGreaterEqual(seen[answer], least, seen)

    def test_makes_by_turns(self):
        made: Counter[str] = Counter()
        for one in generate.sheets(STORED_START, STORED_SHEETS):
            for step in one.steps:
                if step.expected is not None and step.expected.startswith("made"):
                    made[step.line.split()[-1].decode("ascii")] += 1
        for name in MAKES_OF_LIST:
            self.assertGreaterEqual(made[name], 240, made)

    def test_other_start_numbers(self):
        for start in range(6):
            self.foretold(generate.sheets(start, 150))


class StoredJournal(unittest.TestCase):
    """All answers of the stored journal, whatever the generator meant by its lines."""

    FITS = {
        "no sheet": (),
        "unsettled": ("open",),
        "open": ("post", "withdraw", "settle"),
        "settled": ("result", "line", "listing"),
    }
    NEVER_13 = ("text", "make")

    @classmethod
    def setUpClass(cls) -> None:
        cls.journal = generate.journal(STORED_START, STORED_TEXTS, STORED_SHEETS)
        cls.told = answer_journal(cls.journal)

    def test_size_and_ends(self):
        self.assertLess(len(self.journal), JOURNAL_MOST)
        self.assertTrue(self.told.startswith(b"open: refused 13\n"))
        end = b"text: fault 1 line 15 layer 1\nend of journal: withdrawn unsettled\n"
        self.assertTrue(self.told.endswith(end))
        self.assertFalse(self.journal.endswith(b"\n"))

    def test_states(self):
        """A call is refused with 13 exactly where it does not fit how the sheet stands."""
        state = "no sheet"
        seen: Counter[tuple[str, str, bool]] = Counter()
        for line in self.told.decode("latin-1").split("\n"):
            if line.startswith("  ") or not line or line.endswith(": not a call"):
                continue
            call, _, answer = line.rpartition(": ")
            word = call.split(" ")[0]
            if line.startswith("end of journal"):
                self.assertEqual(state, "open")
                continue
            fits = word in self.NEVER_13 or word in self.FITS[state]
            self.assertEqual(answer != "refused 13", fits, (state, line))
            seen[state, word, answer.startswith("refused")] += 1
            state = self.behind(state, word, answer)
        self.every_way(seen)

    def behind(self, state: str, word: str, answer: str) -> str:
        """How the sheet stands behind a call."""
        if answer.startswith("made") or answer.startswith("withdrawn"):
            return "unsettled"
        if answer == "open":
            return "open"
        if word == "settle" and state == "open":
            return "settled" if answer.startswith("settled") else "unsettled"
        return state

    def every_way(self, seen: Counter[tuple[str, str, bool]]) -> None:
        """Each call was made often in each state, and answered or refused as can be."""
        words = ("open", "post", "withdraw", "settle", "result", "line", "listing")
        for state, fitting in self.FITS.items():
            least = 1 if state == "no sheet" else 20
            for word in words:
                self.assertGreaterEqual(seen[state, word, word not in fitting], least)
        for state in ("unsettled", "open", "settled"):
            for refused in (False, True):
                self.assertGreaterEqual(seen[state, "make", refused], 5)
            self.assertGreaterEqual(seen[state, "text", False], 5)


if __name__ == "__main__":
    unittest.main()
