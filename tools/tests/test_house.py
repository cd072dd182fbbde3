"""The numbers of the house: what an import brings in, what is a copy, how long a contract is, and that a limit holds."""
import contextlib
import io
import os
import tempfile
import unittest
from unittest import mock

import house
import imports
import repeats
from shadowtools.gate import house_sources


def file_of(folder, name, text):
    path = os.path.join(folder, name)
    with open(path, "w", encoding="utf-8") as file:
        file.write(text)
    return path


class Files(unittest.TestCase):
    def setUp(self):
        made = tempfile.TemporaryDirectory()
        self.addCleanup(made.cleanup)
        self.addCleanup(house_sources.text_of.cache_clear)
        self.folder = made.name


class Imports(Files):
    def parts(self, name, text):
        return [one.part for one in imports.unused(file_of(self.folder, name, text))]

    def test_a_name_that_only_a_comment_has_is_unused(self):
        self.assertEqual(self.parts("a.rt", "use a::{Tree, Node};\n\n// a Tree\nfn f(node: Node) {}\n"), ["Tree"])

    def test_a_part_of_a_longer_word_is_no_use(self):
        self.assertEqual(self.parts("B.antt", "use a.B.{size, sum}\n\nsize_in = sum\n"), ["size"])

    def test_an_operator_is_used_by_its_sign(self):
        self.assertEqual(self.parts("C.antt", "use a.B.{◌≡◌, ◌<◌}\n\nf = x ≡ y\n"), ["◌<◌"])

    def test_a_name_under_another_is_used_by_that_one(self):
        self.assertEqual(self.parts("d.rt", "use a::b as c;\nuse a::d as e;\n\nfn f() { c(); d() }\n"), ["a::d as e"])

    def test_what_is_handed_on_and_traits_are_left_out(self):
        self.assertEqual(self.parts("e.rt", "pub use a::Tree;\nuse std::io::Write;\nuse a::Other;\n"), ["a::Other"])

    def test_a_fix_leaves_the_names_that_are_used(self):
        path = file_of(self.folder, "f.rt", "ghost use a.B.{One, Two, Three};\nghost use a.C.{Four};\n\nfn f() ensures { Two } {}\n")
        imports.fix(path)
        with open(path, encoding="utf-8") as file:
            self.assertEqual(file.read(), "ghost use a.B.{Two};\n\nfn f() ensures { Two } {}\n")

    def test_a_fix_takes_them_out_of_definitions_too(self):
        path = file_of(self.folder, "G.antt", "use a.B.{One, Two}\nuse a.C.{Three}\npub use a.D.{Four}\n\nfive = Two\n")
        imports.fix(path)
        with open(path, encoding="utf-8") as file:
            self.assertEqual(file.read(), "use a.B.{Two}\npub use a.D.{Four}\n\nfive = Two\n")

    def test_a_fix_leaves_what_code_uses_to_its_reader(self):
        path = file_of(self.folder, "h.rt", "use a::{One, Two};\n\nfn f(two: Two) {}\n")
        imports.fix(path)
        with open(path, encoding="utf-8") as file:
            self.assertEqual(file.read(), "use a::{One, Two};\n\nfn f(two: Two) {}\n")


class Repeats(Files):
    BODY = [f"    let value_{k} = {k};" for k in range(8)]

    def pairs(self, one, two):
        return repeats.pairs([file_of(self.folder, "a.rt", "\n".join(one)), file_of(self.folder, "b.rt", "\n".join(two))])

    def test_eight_equal_lines_are_one_pair(self):
        found = self.pairs(["fn a() {"] + self.BODY + ["}"], ["fn b(x: u8) {", "", "    // a comment"] + self.BODY + ["    x", "}"])
        self.assertEqual([(pair.lines, pair.first[1], pair.second[1]) for pair in found], [(8, 2, 4)])
        self.assertEqual(repeats.second_lines(found), 8)

    def test_five_are_none(self):
        self.assertEqual(self.pairs(self.BODY[:5], self.BODY[:5] + ["x"]), [])

    def test_clauses_and_imports_are_left_out(self):
        clauses = ["fn a()"] + [f"    ensures {{ fact {k} }}" for k in range(8)] + ["{"]
        self.assertEqual(self.pairs([f"use a::b{k};" for k in range(8)] + clauses, [f"use a::b{k};" for k in range(8)] + clauses), [])


class Contracts(Files):
    def test_lines_from_the_first_clause_to_the_brace(self):
        text = "fn one()\n    ensures { a }\n    ensures { b\n        c }\n{\n    x\n}\n\nfn none() {\n}\n\nfn two()\n    requires { a }\n{}\n"
        found = [(it.name, it.lines) for it in house_sources.contracts(file_of(self.folder, "a.rt", text))]
        self.assertEqual(found, [("one", 3), ("two", 1)])


class WideComments(Files):
    def number(self, text):
        path = file_of(self.folder, "a.rt", text)
        with mock.patch.object(house, "crates", lambda: {"a": []}), mock.patch.object(house, "files", lambda crate, folder: [path] if folder == "src" else []):
            return house.wide_comments()

    def test_a_comment_of_100_columns_is_not_wide(self):
        self.assertEqual(self.number("/// " + "x" * 96 + "\n    // " + "x" * 93 + "\n"), 0)

    def test_each_line_above_is_counted(self):
        self.assertEqual(self.number("/// " + "x" * 97 + "\nfn f() {}\n-- " + "x" * 98 + "\n    // " + "x" * 94 + "\n"), 3)

    def test_code_is_left_to_the_formatter(self):
        self.assertEqual(self.number("fn f() { " + "x" * 120 + " } // why\n"), 0)


class Limits(unittest.TestCase):
    def status(self, number):
        said = io.StringIO()
        with mock.patch.object(house, "NUMBERS", {"rooms": lambda: number}), mock.patch.object(house, "LIMITS", {"rooms": 3}), contextlib.redirect_stdout(said):
            return house.main([]), said.getvalue().splitlines()

    def test_a_number_above_its_limit_fails(self):
        self.assertEqual(self.status(4), (True, ["4 rooms, at most 3: TOO MANY", "0 passed, 1 failed"]))

    def test_a_number_below_it_has_the_new_limit(self):
        self.assertEqual(self.status(2), (False, ["2 rooms, at most 3: write 2 here", "1 passed, 0 failed"]))


if __name__ == "__main__":
    unittest.main()
