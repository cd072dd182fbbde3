"""The sentences of docs/PROMISES.md: how they are counted, and that a long one is refused."""
import contextlib
import io
import os
import tempfile
import unittest
from unittest import mock

import promises

HEAD = "| Promise | Function | Clauses |\n|---|---|---|\n"


def words(count):
    return " ".join(["word"] * count)


def counts(text):
    """The number of words of each sentence."""
    return [len(it) for _, it in promises.sentences_of(text)]


class Counting(unittest.TestCase):
    def test_a_sentence_ends_at_its_point_and_not_at_a_line(self):
        self.assertEqual(counts("one two\nthree. Four five?\n\nsix: seven; eight"), [3, 2, 3])
        self.assertEqual(counts('It is "one." Two (three.) Four *five.* Six'), [3, 2, 2, 1])

    def test_a_code_span_is_one_word_and_a_link_is_its_text(self):
        self.assertEqual(counts("`a b. c` is one."), [3])
        self.assertEqual(counts("Read [two words](x.md#y), and `a.b` [`c d`](z.md)."), [6])

    def test_a_line_of_a_list_begins_a_sentence_without_its_mark(self):
        self.assertEqual(counts("Two words\n1. one two\n   three\n2. four\n- five"), [2, 3, 1, 1])

    def test_cells_are_counted_but_for_the_clauses(self):
        row = f"| One two. Three | `f` | {words(50)} |\n"
        self.assertEqual(counts(HEAD + row), [1, 1, 1, 1, 2, 1, 1])

    def test_a_bar_in_a_cell_is_no_border(self):
        self.assertEqual(counts("| a \\| b | c | d |\n"), [3, 1])


class Length(unittest.TestCase):
    def test_forty_words_are_allowed_and_one_more_is_refused(self):
        self.assertEqual(promises.long_sentences(f"{words(40)}. {words(40)}.\n"), [])
        fault, = promises.long_sentences(f"Short.\n\n{words(41)}.\n")
        self.assertTrue(fault.startswith("line 3: a sentence of 41 words, more than 40: "), fault)

    def test_cells_too(self):
        for cells in (f"Short. {words(41)} | `f`", f"Short | {words(41)}"):
            fault, = promises.long_sentences(f"{HEAD}| {cells} | the clause |\n")
            self.assertTrue(fault.startswith("line 3: "), fault)
        self.assertEqual(promises.long_sentences(f"{HEAD}| Short | `f` | {words(41)} |\n"), [])

    def test_a_line_of_a_list_and_a_sentence_over_two_lines_too(self):
        self.assertEqual(len(promises.long_sentences(f"1. {words(41)}\n2. {words(40)}\n")), 1)
        self.assertEqual(len(promises.long_sentences(f"{words(30)}\n{words(11)}\n")), 1)


class Page(unittest.TestCase):
    """The tool on a page of its own, with no libraries."""

    def run_on(self, head, text=None, words=()):
        with tempfile.TemporaryDirectory() as folder:
            paths = {"HEAD": os.path.join(folder, "promises_page.md"), "PAGE": os.path.join(folder, "PROMISES.md")}
            for path, content in zip(paths.values(), (head, head if text is None else text)):
                with open(path, "w", encoding="utf-8") as file:
                    file.write(content)
            out = io.StringIO()
            with mock.patch.multiple(promises, **paths, libraries=list, Library=mock.Mock), contextlib.redirect_stdout(out):
                status = promises.main(list(words))
            with open(paths["PAGE"], encoding="utf-8") as file:
                self.left = file.read()
        return status, out.getvalue().splitlines()

    def test_the_command_fails_for_a_long_sentence(self):
        self.assertEqual(self.run_on(f"# Title\n\n{words(40)}.\n"), (0, ["0 passed, 0 failed"]))
        status, lines = self.run_on(f"# Title\n\n{words(41)}.\n")
        self.assertEqual((status, lines[-1]), (1, "0 passed, 1 failed"))
        self.assertIn("line 3: a sentence of 41 words", lines[0])

    def test_a_page_that_was_changed_by_hand_fails_until_it_is_written(self):
        status, lines = self.run_on("# Title\n", "# Another\n")
        self.assertEqual((status, lines[-1], self.left), (1, "0 passed, 1 failed", "# Another\n"))
        self.assertEqual((self.run_on("# Title\n", "# Another\n", ["--write"])[0], self.left), (0, "# Title\n"))


LIB = """pub mod laws;
mod first;

pub use first::{begin, Held};
"""
LAWS = """/// A law.
pub fn one_is_one()
    // Promise: One is one
    ensures { One }
{}
"""
FIRST = """// Promise: Nothing is promised of
// what is private
// - of `begin`, `Held::end`
// - by its signature
pub fn begin(n: u32) -> u32
    requires { n < 9 }
    // A comment of another kind.
    // Promise: The result is the number, and
    // not another one
    // - by `same` (`IsSame`),
    //   `bound`
    // Promise: It is bounded
    ensures bound { result < 9 }
    ensures same { IsSame result n }
{
    n
}

impl Held {
    /// Ends it.
    // Promise: It ends
    pub fn end(&self) {}
}

fn hidden()
    // Promise: Nobody calls it
    ensures { One }
{}
"""


class Comments(unittest.TestCase):
    """The rows that the comments of a crate give."""

    def rows(self, first):
        with tempfile.TemporaryDirectory() as folder:
            os.makedirs(os.path.join(folder, "a_crate", "src"))
            for name, text in (("lib", LIB), ("laws", LAWS), ("first", first)):
                with open(os.path.join(folder, "a_crate", "src", f"{name}.rt"), "w", encoding="utf-8") as file:
                    file.write(text)
            with mock.patch.object(promises, "CRATES", folder):
                return promises.rows_of_code("a_crate")

    def test_rows_are_in_the_order_of_modules_and_lines(self):
        with_end = FIRST[:FIRST.index("fn hidden")].replace("// Promise: It ends\n", "// Promise: It ends\n    // - by its signature\n")
        self.assertEqual(self.rows(with_end), [
            "| One is one | `laws::one_is_one` | the clause |",
            "| Nothing is promised of what is private | `begin`, `Held::end` | its signature |",
            "| The result is the number, and not another one | `begin` | `same` (`IsSame`), `bound` |",
            "| It is bounded | `begin` | `bound` |",
            "| It ends | `Held::end` | its signature |",
        ])

    def test_a_promise_by_no_clause_and_one_of_no_public_call_are_refused(self):
        for first in (FIRST[:FIRST.index("fn hidden")], FIRST[FIRST.index("fn hidden"):]):
            with self.assertRaisesRegex(promises.Refused, "has a promise of no public call, or by no clause"):
                self.rows(first)


if __name__ == "__main__":
    unittest.main()
