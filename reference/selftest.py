#!/usr/bin/env python3
"""Tests of the reference: examples worked out by hand from the rules.

The last class holds the generated texts against the answers that their makers
foretell, which do not come from the check either.
"""

from __future__ import annotations

import unittest
from collections import Counter

import generate
from damage import BAD_FIELDS, UNKNOWN_WORDS
from program_text import Fault, Program, check
from stocksheet import answer_journal

# As in regenerate.sh.
STORED_START = 2002
STORED_TEXTS = 700


def text(close: str) -> bytes:
    """The text of lines written close, as in `INP 1 0; RUN`."""
    lines = []
    for part in close.split(";"):
        word, *numbers = part.split()
        lines.append(word + "".join(number.rjust(6) for number in numbers) + "\n")
    return "".join(lines).encode()


def told(source: bytes) -> tuple[int, ...]:
    """(number, line, layer) of a fault, or (functions, steps) of a program."""
    outcome = check(source)
    if isinstance(outcome, Fault):
        return outcome.number, outcome.line, outcome.layer
    return len(outcome.functions), outcome.step_count


class TextTest(unittest.TestCase):
    """Base of tests that hold a text against what must be told of it."""

    def tells(self, source: str | bytes, *expected: int) -> None:
        source = text(source) if isinstance(source, str) else source
        with self.subTest(source=source[:400]):
            self.assertEqual(told(source), expected)


class Accepted(TextTest):
    def test_the_form_of_lines(self):
        self.assertEqual(text("INP 2 -13; NIL"), b"INP     2   -13\nNIL\n")

    def test_price_times_count(self):
        source = (
            b"INP     2     0\n"
            b"RUN     0     1\n"
            b"FUN     2     2     2\n"
            b"GET     0     1     1\n"
            b"FUN     2     1     2\n"
            b"GET     1     2     0\n"
            b"FUN     2     1     1\n"
            b"MUL     0     1\n"
            b"PUT     2\n"
        )
        self.tells(source, 3, 4)

    def test_list_sum(self):
        self.tells(
            "INP 2 3; RUN 2; FUN 2 3; CAS 0 1 2; FUN 2; LIT 0; PUT 0; FUN 2 2 3; NEW 0 1;"
            "GET 0 3 2; FUN 2 1 2; GET 1 4 0; FUN 2 1 1; ADD 0 1; PUT 2",
            5, 8,
        )

    def test_the_program_of_a_new_place(self):
        self.tells("INP 1 0; RUN; FUN 2; LIT 0; PUT 0", 1, 2)

    def test_all_commands_and_tails(self):
        self.tells(
            "INP 1 1; RUN 0 1; FUN 3 2 3; LIT -5; ADD 2 2; SUB 3 2; MUL 2 3; DIV 4 5; MIN 2 6;"
            "MAX 7 2; NEW 1 8; NEW 0 9 1; CAS 10 2 3; FUN 2 1; PUT 0; FUN 3; NIL; FUN 3 2 3;"
            "NEW 4 0; CON 2 1; FUN 2 2; GET 0 1",
            5, 15,
        )

    def test_the_program_is_answered(self):
        program = check(text("INP 1 2; RUN 0; FUN 2 2; GET 0 1; FUN 2 1; PUT 0"))
        self.assertIsInstance(program, Program)
        self.assertEqual(program.input_kinds(), [2, 3, 3])
        self.assertEqual([f.result for f in program.functions], [2, 2])
        self.assertEqual([f.parameters for f in program.functions], [[2], [1]])

    def test_ends_of_ranges(self):
        for amounts in ("1 0", "0 1", "256 0", "0 256", "128 128"):
            self.tells(f"INP {amounts}; RUN; FUN 3; NIL", 1, 1)
        for value in ("0", "-1", "999999", "-99999"):
            self.tells(f"INP 1 0; RUN; FUN 2; LIT {value}; PUT 0", 1, 2)

    def test_last_input(self):
        self.tells("INP 255 1; RUN 255; FUN 3 3; NIL", 1, 1)
        self.tells("INP 255 1; RUN 256; FUN 3 3; NIL", 7, 2, 3)


class Layer1(TextTest):
    HEAD = b"INP     1     0\nRUN\nFUN     2\n"
    FOOT = b"PUT     0\n"

    def line(self, line: bytes, *expected: int) -> None:
        """Puts a line in place of the only command, which is line 4."""
        self.tells(self.HEAD + line + self.FOOT, *expected)

    def test_length_of_the_text(self):
        self.tells(b"", 1, 0, 1)
        self.tells(b"RUN\n" * 16_384, 4, 1, 2)  # 65,536 bytes
        self.tells(b"RUN\n" * 16_384 + b"\n", 1, 0, 1)
        self.tells(b"\n" * 65_536, 1, 1, 1)
        self.tells(b"\n" * 65_537, 1, 0, 1)

    def test_length_of_a_line(self):
        for line in (b"\n", b"L\n", b"LI\n", b"LIT    0\n", b"LIT     0 \n", b"LIT     0\r\n"):
            self.line(line, 1, 4, 1)
        self.line(b"LIT" + b"     1" * 9 + b"\n", 5, 4, 2)
        self.line(b"LIT" + b"     1" * 10 + b"\n", 1, 4, 1)

    def test_end_of_the_text(self):
        self.tells(b"INP     1     0", 1, 1, 1)
        self.tells(text("INP 1 0; RUN; FUN 3; NIL")[:-1], 1, 4, 1)
        self.tells(text("INP 1 0; RUN; FUN 3; NIL") + b"\n", 1, 5, 1)
        self.tells(b"x", 1, 1, 1)
        self.tells(b"xyz  a  b", 1, 1, 1)

    def test_words(self):
        for word in (b"lit", b"LIt", b"XYZ", b"LI ", b" LI", b"LI1", b"\xffIT", b"LI\x00"):
            self.line(word + b"     0\n", 2, 4, 1)
        self.line(b"AND\n", 2, 4, 1)

    def test_fields(self):
        self.line(b"LIT     0\n", 1, 2)
        self.line(b"LIT-99999\n", 1, 2)
        self.line(b"LIT100000\n", 1, 2)
        bad = (
            b"    -0", b"    05", b"   -05", b"    +5", b"      ", b"5     ", b"    5 ",
            b"     -", b"   - 5", b"   --5", b"000000", b"\t    5", b"   5 5", b"    5\x00",
            b"    \xb25", b"     a", b"   1.5", b"   5-5",
        )
        for field in bad:
            self.line(b"LIT" + field + b"\n", 3, 4, 1)

    def test_lowest_number_of_a_line(self):
        self.line(b"lit    -0 \n", 1, 4, 1)
        self.line(b"lit    -0\n", 2, 4, 1)

    def test_first_line(self):
        self.tells(b"INP     1    00\nrun\nFUN\x20\n", 3, 1, 1)
        self.tells(b"inp     1     0\nRUN\nFU\n", 2, 1, 1)


class Layer2(TextTest):
    def test_early_end(self):
        self.tells("INP 1 0", 4, 1, 2)
        self.tells("INP 1 0; RUN", 4, 2, 2)
        self.tells("INP 1 0; RUN; FUN 2", 4, 3, 2)
        self.tells("INP 1 0; RUN; FUN 2; LIT 0", 4, 4, 2)
        self.tells("INP 1 0; RUN; FUN 3; NIL; FUN 3", 4, 5, 2)

    def test_positions(self):
        self.tells("RUN; INP 1 0; FUN 3; NIL", 4, 1, 2)
        self.tells("FUN 3; NIL", 4, 1, 2)
        self.tells("INP 1 0; FUN 3; NIL", 4, 2, 2)
        self.tells("INP 1 0; INP 1 0; FUN 3; NIL", 4, 2, 2)
        self.tells("INP 1 0; RUN; NIL", 4, 3, 2)
        self.tells("INP 1 0; RUN; LIT 0; PUT 0", 4, 3, 2)
        self.tells("INP 1 0; RUN; RUN; FUN 3; NIL", 4, 3, 2)
        self.tells("INP 1 0; RUN; FUN 3; FUN 3; NIL", 4, 4, 2)
        self.tells("INP 1 0; RUN; FUN 3; INP 1 0; NIL", 4, 4, 2)
        self.tells("INP 1 0; RUN; FUN 3; NIL; NIL", 4, 5, 2)
        self.tells("INP 1 0; RUN; FUN 3; NIL; LIT 1; NIL", 4, 5, 2)
        self.tells("INP 1 0; RUN; FUN 3; LIT 1; FUN 3; NIL", 4, 5, 2)
        self.tells("INP 1 0; RUN; FUN 3; NIL; RUN", 4, 5, 2)

    def test_counts(self):
        admitted = {
            "INP": (2, 2), "RUN": (0, 6), "FUN": (1, 7), "LIT": (1, 1), "ADD": (2, 2),
            "SUB": (2, 2), "MUL": (2, 2), "DIV": (2, 2), "MIN": (2, 2), "MAX": (2, 2),
            "NEW": (1, 7), "PUT": (1, 1), "NIL": (0, 0), "CON": (2, 2), "GET": (2, 7),
            "CAS": (3, 7),
        }
        for word, (least, most) in admitted.items():
            for count in range(10):
                lines = ["INP 1 1", "RUN", "FUN 2", "LIT 2", "PUT 0"]
                place = {"INP": 0, "RUN": 1, "FUN": 2}.get(word)
                if place is None:
                    place = 4 if word in ("PUT", "NIL", "CON", "GET", "CAS") else 3
                lines[place] = word + " 2" * count
                answer = told(text(";".join(lines)))
                with self.subTest(line=lines[place]):
                    is_count_fault = answer == (5, place + 1, 2)
                    self.assertEqual(is_count_fault, not least <= count <= most)

    def test_inputs(self):
        for amounts in ("0 0", "257 0", "0 257", "200 100", "-1 2", "2 -1", "256 1"):
            self.tells(f"INP {amounts}; RUN; FUN 3; NIL", 6, 1, 2)

    def test_kinds(self):
        for kinds in ("1", "4", "0", "-2", "2 0", "2 4", "3 1 2 3 -1"):
            self.tells(f"INP 1 0; RUN; FUN {kinds}; LIT 0; PUT 0", 6, 3, 2)

    def test_registers(self):
        head = "INP 1 0; RUN; FUN 2"
        self.tells(head + "; LIT 0" * 16 + "; PUT 15", 1, 17)
        self.tells(head + "; LIT 0" * 17 + "; PUT 15", 6, 20, 2)
        head = "INP 1 0; RUN 0 0 0 0 0 0; FUN 2 2 2 2 2 2 2"
        self.tells(head + "; LIT 0" * 10 + "; PUT 15", 1, 11)
        self.tells(head + "; LIT 0" * 11 + "; PUT 15", 6, 14, 2)

    def test_functions(self):
        self.tells("INP 1 0; RUN" + "; FUN 3; NIL" * 64, 64, 64)
        self.tells("INP 1 0; RUN" + "; FUN 3; NIL" * 65, 6, 131, 2)

    def test_steps(self):
        full = "INP 1 0; RUN" + ("; FUN 3" + "; LIT 1" * 15 + "; NIL") * 32  # 546 lines
        self.tells(full, 32, 512)
        self.tells(full + "; FUN 3; NIL", 6, 548, 2)
        self.tells(full + "; FUN 3; LIT 1; NIL", 6, 548, 2)
        self.tells(full + "; FUN 3", 4, 547, 2)
        self.tells(full + "; FUN 3; LIT 1", 4, 548, 2)

    def test_lowest_number_of_a_line(self):
        self.tells("INP 0 0", 4, 1, 2)
        self.tells("INP 1", 4, 1, 2)
        self.tells("INP 0 0 0; RUN; FUN 3; NIL", 5, 1, 2)
        self.tells("INP 1 0; RUN; LIT; NIL", 4, 3, 2)
        self.tells("INP 1 0; RUN; FUN 1 1 1 1 1 1 1 1; NIL", 5, 3, 2)
        self.tells("INP 1 0; RUN; FUN 2" + "; LIT 0" * 17, 4, 20, 2)

    def test_first_line(self):
        self.tells("INP 0 0; RUN; NIL", 6, 1, 2)
        self.tells("INP 1; INP 1 0; NIL", 5, 1, 2)

    def test_below_layer_3(self):
        self.tells("INP 1 0; RUN 7; FUN 2 1; ADD 9 9; PUT", 5, 5, 2)
        self.tells(text("INP 1 0; RUN 7; FUN 1; NIL") + b"NEWS\n", 1, 5, 1)


class Layer3(TextTest):
    def test_inputs(self):
        self.tells("INP 1 1; RUN 1; FUN 3 3; NIL", 1, 1)
        self.tells("INP 1 1; RUN 2; FUN 3 3; NIL", 7, 2, 3)
        self.tells("INP 1 1; RUN -1; FUN 3 3; NIL", 7, 2, 3)
        self.tells("INP 1 1; RUN 0; FUN 3 3; NIL", 8, 2, 3)
        self.tells("INP 1 1; RUN; FUN 3 3; NIL", 8, 2, 3)
        self.tells("INP 1 1; RUN 1 1; FUN 3 3; NIL", 8, 2, 3)
        self.tells("INP 1 1; RUN 1 2; FUN 3 3; NIL", 7, 2, 3)
        self.tells("INP 1 1; RUN 0; FUN 2 1; PUT 0", 8, 2, 3)

    def test_arithmetic(self):
        for word in ("ADD", "SUB", "MUL", "DIV", "MIN", "MAX"):
            head = "INP 1 0; RUN 0; FUN 2 2; LIT 1;"
            self.tells(f"{head} {word} 1 1; PUT 2", 1, 3)
            self.tells(f"{head} {word} 1 2; PUT 2", 7, 5, 3)
            self.tells(f"{head} {word} -1 1; PUT 2", 7, 5, 3)
            self.tells(f"{head} {word} 0 1; PUT 2", 8, 5, 3)
            self.tells(f"{head} {word} 1 0; PUT 2", 8, 5, 3)
            self.tells(f"{head} {word} 0 2; PUT 2", 7, 5, 3)

    def test_new(self):
        def program(command):
            return f"INP 1 0; RUN 0; FUN 3 2; LIT 1; {command}; NIL; FUN 2 1; PUT 0; FUN 3; NIL"

        self.tells(program("NEW 1 1"), 3, 5)
        self.tells(program("NEW 2"), 3, 5)
        self.tells(program("NEW 0 0"), 3, 5)
        self.tells(program("NEW 3"), 7, 5, 3)
        self.tells(program("NEW -1"), 7, 5, 3)
        self.tells(program("NEW 1 2"), 7, 5, 3)
        self.tells(program("NEW 1 0"), 8, 5, 3)
        self.tells(program("NEW 1"), 8, 5, 3)
        self.tells(program("NEW 1 1 1"), 8, 5, 3)
        self.tells(program("NEW 2 1"), 8, 5, 3)

    def test_new_defines_the_result_kind(self):
        body = "INP 1 0; RUN; FUN 3; NEW 1; NEW 2; {}; FUN 2; LIT 0; PUT 0; FUN 3; NIL"
        self.tells(body.format("CON 0 1"), 3, 6)
        self.tells(body.format("CON 1 0"), 8, 6, 3)

    def test_put_nil_con(self):
        self.tells("INP 1 0; RUN; FUN 2; LIT 1; PUT 1", 7, 5, 3)
        self.tells("INP 1 0; RUN 0; FUN 2 2; PUT 0", 8, 4, 3)
        self.tells("INP 1 0; RUN; FUN 3; LIT 1; PUT 0", 8, 5, 3)
        self.tells("INP 1 0; RUN; FUN 2; NIL", 8, 4, 3)
        self.tells("INP 1 1; RUN 0 1; FUN 3 2 3; CON 0 1", 1, 1)
        self.tells("INP 1 1; RUN 0 1; FUN 2 2 3; CON 0 1", 8, 4, 3)
        self.tells("INP 1 1; RUN 0 1; FUN 3 2 3; CON 1 0", 8, 4, 3)
        self.tells("INP 1 1; RUN 0 1; FUN 3 2 3; CON 0 2", 7, 4, 3)

    def test_get(self):
        def program(tail, result=2):
            return f"INP 1 1; RUN 0 1; FUN 2 2 3; {tail}; FUN {result} 1 3; LIT 1; {end[result]}"

        end = {2: "PUT 0", 3: "NIL"}
        self.tells(program("GET 0 1 1"), 2, 3)
        self.tells(program("GET 0 1 1", result=3), 8, 4, 3)
        self.tells(program("GET 1 1 1"), 8, 4, 3)
        self.tells(program("GET 0 1"), 8, 4, 3)
        self.tells(program("GET 0 1 0"), 8, 4, 3)
        self.tells(program("GET 0 1 1 1"), 8, 4, 3)
        self.tells(program("GET 0 0 1"), 8, 4, 3)
        self.tells(program("GET 2 1 1"), 7, 4, 3)
        self.tells(program("GET 0 2 1"), 7, 4, 3)
        self.tells(program("GET 0 1 2"), 7, 4, 3)
        self.tells(program("GET 1 1 2"), 7, 4, 3)

    def test_cas(self):
        def program(tail, empty=2, cell=2):
            return (
                f"INP 1 1; RUN 0 1; FUN 2 2 3; {tail};"
                f"FUN {empty} 2; LIT 1; {'PUT 1' if empty == 2 else 'NIL'};"
                f"FUN {cell} 2 3 2; LIT 1; {'PUT 3' if cell == 2 else 'NIL'}"
            )

        self.tells(program("CAS 1 1 2 0"), 3, 5)
        self.tells(program("CAS 1 1 2 0", empty=3), 8, 4, 3)
        self.tells(program("CAS 1 1 2 0", cell=3), 8, 4, 3)
        self.tells(program("CAS 0 1 2 0"), 8, 4, 3)
        self.tells(program("CAS 1 2 1 0"), 8, 4, 3)
        self.tells(program("CAS 1 1 1 0"), 8, 4, 3)
        self.tells(program("CAS 1 2 2 0"), 8, 4, 3)
        self.tells(program("CAS 1 1 2"), 8, 4, 3)
        self.tells(program("CAS 1 1 2 1"), 8, 4, 3)
        self.tells(program("CAS 1 1 2 0 0"), 8, 4, 3)
        self.tells(program("CAS 2 1 2 0"), 7, 4, 3)
        self.tells(program("CAS 1 3 2 0"), 7, 4, 3)
        self.tells(program("CAS 1 1 3 0"), 7, 4, 3)
        self.tells(program("CAS 1 1 2 -1"), 7, 4, 3)

    def test_first_line(self):
        self.tells("INP 1 0; RUN; FUN 2 2; ADD 0 9; PUT 7", 8, 2, 3)
        self.tells("INP 1 0; RUN; FUN 2; NEW 5; ADD 0 0; PUT 7", 7, 4, 3)


class Journals(unittest.TestCase):
    GOOD = text("INP 1 0; RUN; FUN 3; NIL")

    def answers(self, journal: bytes, expected: bytes) -> None:
        with self.subTest(journal=journal):
            self.assertEqual(answer_journal(journal), expected)

    def test_nothing(self):
        self.answers(b"", b"")
        self.answers(b"\n\n# remark\n#\n\n", b"")

    def test_texts(self):
        good = b"text: accepted 1 functions 1 steps\n"
        self.answers(b"text\n" + self.GOOD + b".\n", good)
        self.answers(b"text\n" + self.GOOD + b".", good)
        self.answers(b"text\n" + self.GOOD, good)
        self.answers(b"text\n" + self.GOOD + b".\ntext\n" + self.GOOD + b".\n", good * 2)
        self.answers(b"text\n" + self.GOOD[:-1], b"text: fault 1 line 4 layer 1\n")

    def test_empty_texts(self):
        for journal in (b"text\n.\n", b"text\n.", b"text\n", b"text"):
            self.answers(journal, b"text: fault 1 line 0 layer 1\n")

    def test_lines_of_a_text_are_the_text(self):
        self.answers(b"text\n# ab\n.\n", b"text: fault 1 line 1 layer 1\n")
        self.answers(b"text\n\n.\n", b"text: fault 1 line 1 layer 1\n")
        self.answers(b"text\ntext\n.\n", b"text: fault 1 line 1 layer 1\n")
        self.answers(b"text\n..\n. \n.\n", b"text: fault 1 line 1 layer 1\n")

    def test_no_calls(self):
        for line in (
            b"make 7 10 tagrange", b"open", b"settle", b"text ", b" text", b"text 1", b"text\r",
            b"Text", b".", b" ", b" #", b"\xff\x00\t", b"\xc3\xa4", b"INP     1     0",
        ):
            self.answers(line + b"\n", line + b": not a call\n")
            self.answers(line, line + b": not a call\n")
        self.answers(b"open\n\n#\nsettle", b"open: not a call\nsettle: not a call\n")


class Generated(unittest.TestCase):
    def test_bad_parts_have_their_sizes(self):
        self.assertEqual({len(field) for field in BAD_FIELDS}, {6})
        self.assertEqual({len(word) for word in UNKNOWN_WORDS}, {3})

    def test_foretold_answers(self):
        journal = generate.journal(STORED_START, STORED_TEXTS)
        cases = generate.cases(STORED_START, STORED_TEXTS)
        lines = answer_journal(journal).split(b"\n")
        answers = [line for line in lines if line.startswith(b"text: ")]
        answers = [line[6:].decode() for line in answers if not line.endswith(b"not a call")]
        self.assertEqual(len(answers), STORED_TEXTS)
        for number, (case, answer) in enumerate(zip(cases, answers), 1):
            if case.expected is not None:
                self.assertEqual(answer, case.expected, f"{number}. {case.note}")
        self.enough(answers)

    def enough(self, answers: list[str]) -> None:
        """Every answer occurs often."""
        counts = Counter(" ".join(answer.split()[:2]) for answer in answers)
        for number in range(1, 9):
            self.assertGreaterEqual(counts[f"fault {number}"], 20)
        self.assertGreaterEqual(sum(a.startswith("accepted") for a in answers), 80)

    def test_other_start_numbers(self):
        for start in range(3):
            for case in generate.cases(start, 900)[430:]:
                if case.expected is not None:
                    functions_or_fault = told(case.text)
                    numbers = [int(w) for w in case.expected.split() if w.isdigit()]
                    self.assertEqual(list(functions_or_fault), numbers, case.note)


if __name__ == "__main__":
    unittest.main()
