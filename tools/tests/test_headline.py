"""docs/HEADLINE.md: what of a definition is read, what a reading of a claim reaches, what is printed of it, and that numbers are held."""
import contextlib
import glob
import hashlib
import io
import os
import re
import unittest
from unittest import mock

import headline
from common import ROOT
from shadowtools.command import Refused
from shadowtools.formats.definitions import Definition, Library, parts_of
from shadowtools.gate import claims

RECORD = """pub record IsKept (b : Tables)
    (H : List Entry) : Type 0 where
  -- the first
  pub one : Places b
      → Marks H
  pub two : Seats b"""
DATA = """  pub data Ends (H : K) : List ℕ → Type 0 where
    at_once : Ends H []
    at_once_again : (a : ℕ) → Begins a
        → Ends H (a ∷ [])"""
CASES = """abbrev pub Does : Option Refusal
    → Type 0
Does (Some refusal) =
    Refuses refusal
Does None = Serves"""


def parts(name, text):
    head, found = parts_of(Definition(("crate", "Module", name), "", text, ""))
    return head.splitlines()[-1].strip(), [label.split("\n")[0] for label, _ in found], [text.splitlines()[-1].strip() for _, text in found]


class Parts(unittest.TestCase):
    def test_a_record_has_its_fields(self):
        wanted = ("(H : List Entry) : Type 0 where", ["one : Places b", "two : Seats b"], ["→ Marks H", "pub two : Seats b"])
        self.assertEqual(parts("IsKept", RECORD), wanted)

    def test_a_data_has_its_cases_in_a_section_too(self):
        head, labels, lasts = parts("Ends", DATA)
        self.assertEqual(head, "pub data Ends (H : K) : List ℕ → Type 0 where")
        self.assertEqual(labels, ["at_once : Ends H []", "at_once_again : (a : ℕ) → Begins a"])
        self.assertEqual(lasts[1], "→ Ends H (a ∷ [])")

    def test_a_function_has_its_equations(self):
        self.assertEqual(parts("Does", CASES), ("→ Type 0", ["Does (Some refusal) =", "Does None = Serves"], ["Refuses refusal", "Does None = Serves"]))

    def test_a_definition_without_parts_is_all_head(self):
        self.assertEqual(parts("size", "abbrev pub size : ℕ"), ("abbrev pub size : ℕ", [], []))


class Readings(unittest.TestCase):
    @classmethod
    def setUpClass(cls):
        cls.library = Library()

    def test_a_part_leads_to_what_it_cites_alone(self):
        outcome = self.library.named("exam_program Outcome")
        cited = {key[2] for key in self.library.cited_in_part(outcome, ["drilled"])}
        self.assertIn("IsSummaryOfDrill", cited)
        self.assertNotIn("IsSeriesOf", cited)

    def test_a_part_that_is_not_there_is_refused(self):
        outcome = self.library.named("exam_program Outcome")
        for label in ("drill", "no_case"):
            with self.assertRaises(Refused):
                self.library.cited_in_part(outcome, [label])

    def test_a_reading_reaches_what_its_claim_is_about(self):
        wanted = {"The best form": ["form_model Best", "form_model IsPosteriorMode", "form_model Firm"],
                  "Every input has its answer": ["bank_reader bank_of", "spec_reader IsReadFault", "replay_cli IsScriptFault"],
                  "No acknowledged answer is lost": ["exam_office Stands", "exam_edge IsImage", "answer_journal IsAsLeft"],
                  "The examination is legal": ["history_model LegalRun"],
                  "Nothing breaks by itself": ["exam_serve is_starved"]}
        for claim in claims.CLAIMS:
            needed = {key for reading in claim.readings for key in claims.needs_of(self.library, reading).definitions}
            self.assertLessEqual({self.library.named(it) for it in wanted[claim.name]}, needed, claim.name)

    def test_each_reading_of_the_best_form_has_that_what_was_found_is_legal(self):
        for reading in claims.CLAIMS[0].readings:
            self.assertIn(self.library.named("history_model LegalRun"), claims.needs_of(self.library, reading).definitions, reading.title)

    def test_a_legal_history_has_as_many_definitions_as_the_pages_have(self):
        found = [key for key in self.library.closure([self.library.named("headline_model IsLegal")]) if not self.library.definitions[key].is_declared]
        for page in ("PROMISES.md", "TRUST.md"):
            with open(os.path.join(ROOT, "docs", page), encoding="utf-8") as file:
                self.assertIn(f"{len(found)} definitions with those that they cite", file.read().replace("\n", " "))

    def test_no_claim_needs_a_drill_a_series_or_a_second_machine(self):
        needed = {key for _, _, reading in claims.numbered() for key in claims.needs_of(self.library, reading).definitions}
        for name in ("`drill`", "`series`", "`follow` and `ship`"):
            alone = claims.alone(self.library, claims.COMMANDS[name])
            self.assertTrue(alone)
            self.assertFalse(needed.intersection(alone), name)

    def test_a_reading_that_begins_where_its_clause_does_not_is_refused(self):
        wrong = claims.Reading("of nothing", {"files": ["RunEnds"]}, {}, "", 1)
        with self.assertRaises(Refused):
            claims.needs_of(self.library, wrong)

    def test_a_part_that_a_reading_does_not_reach_is_refused(self):
        wrong = claims.Reading("of nothing", {"files": ["Rose"]}, {"exam_program Outcome": []}, "", 1)
        with self.assertRaises(Refused):
            claims.needs_of(self.library, wrong)


class Sentences(unittest.TestCase):
    @classmethod
    def setUpClass(cls):
        cls.library = Library()
        cls.bare, cls.said = cls.library.named("bank_tables size"), cls.library.named("exam_program Outcome")

    def test_a_definition_without_a_comment_needs_a_line_of_the_list(self):
        listed = headline.sentences("# a remark\n\nbank_tables Tables.size: how many items the bank has\n")
        self.assertEqual(listed, {self.bare: "how many items the bank has"})
        self.assertEqual(headline.faults_of_sentences(self.library, [self.bare, self.said], listed), [])
        self.assertEqual(headline.faults_of_sentences(self.library, [self.bare], {}), ["bank_tables Tables.size has no sentence"])

    def test_a_line_that_nothing_needs_is_refused(self):
        for key in (self.said, self.library.named("bank_tables item"), ("bank_tables", "Tables", "gone")):
            listed = {self.bare: "how many", key: "another"}
            self.assertEqual(len(headline.faults_of_sentences(self.library, [self.bare, self.said], listed)), 1)


def printed_by(function, *given):
    """What a function gives, and what it prints."""
    out = io.StringIO()
    with contextlib.redirect_stdout(out):
        status = function(*given)
    return status, out.getvalue()


def sources():
    """Each public definition of the folders `specs/`, by its file and its name: read by a rule of this test's own."""
    for path in glob.glob(os.path.join(ROOT, "crates", "*", "specs", "*.antt")):
        with open(path, encoding="utf-8") as file:
            for name in re.findall(r"^ *(?:abbrev pub|unfoldable pub|pub record|pub data) ([^\s:({]+)", file.read(), re.M):
                yield os.path.relpath(path, ROOT), name


class Printed(unittest.TestCase):
    @classmethod
    def setUpClass(cls):
        cls.library = Library()

    def test_each_public_definition_of_a_crate_can_be_printed(self):
        printed = {(os.path.relpath(it.path, ROOT), key[2]) for key, it in self.library.definitions.items()}
        lacking = [it for it in sources() if it not in printed]
        self.assertEqual(lacking, [])
        self.assertGreater(len(set(sources())), 2000)

    def test_each_full_name_finds_its_definition_alone(self):
        wrong = [key for key in self.library.definitions if headline.definition_named(self.library, headline.full_name(key)) != key
                 and not key[1].startswith("declared.")]
        self.assertEqual(wrong, [])

    def test_a_definition_is_printed_with_its_file_its_sentence_and_what_it_cites(self):
        text = headline.definition_text(self.library, self.library.named("form_model Forms.Best"), {})
        name, path, empty, *rest = text.splitlines()
        self.assertEqual((name, path, empty), ("form_model Forms.Best", "crates/form_model/specs/Forms.antt", ""))
        self.assertTrue(rest[0].startswith("-- "), rest[0])
        self.assertIn("pub record Best (P : Problem)", text)
        self.assertRegex(text, r"It cites:\n(?:  .*\n)*  form_model Forms\.objective: \w")

    def test_a_type_is_printed_as_it_is_declared(self):
        text = headline.definition_text(self.library, headline.definition_named(self.library, "Breach"), {})
        self.assertIn("crates/form_model/src/breach.rt\n\n/// The first breach, with the value found.\npub enum Breach {\n", text)

    def test_a_name_of_several_definitions_and_one_of_none_are_refused(self):
        for words, wanted in (("IsOver", "3 definitions have this name: .*exam_program Runs.IsOver"),
                              ("Frm", "no definition has this name; near it are .*Firm"), ("exam_program Forms.Best", "no definition")):
            with self.assertRaisesRegex(Refused, wanted):
                headline.definition_named(self.library, words)

    def test_a_reading_has_the_text_of_each_of_its_definitions(self):
        text = headline.reading_text(self.library, "claim 5, of a server's connections and memory")
        needed = claims.needs_of(self.library, claims.CLAIMS[4].readings[0]).definitions
        self.assertEqual([key for key in needed if self.library.definitions[key].text not in text], [])
        self.assertEqual(text, headline.reading_text(self.library, "claim-5-of-a-servers-connections-and-memory"))
        with self.assertRaisesRegex(Refused, "there are Claim 1, of a replay; "):
            headline.reading_text(self.library, "claim 6, of a replay")


class Numbers(unittest.TestCase):
    @classmethod
    def setUpClass(cls):
        cls.library = Library()
        cls.made, cls.definitions = headline.page(cls.library)

    def said(self):
        return printed_by(headline.check, self.library, self.made, self.definitions)

    def test_the_page_is_the_one_that_is_made(self):
        self.assertEqual(self.said()[0], 0)

    def test_the_page_has_the_digests_of_what_is_printed(self):
        with open(headline.PAGE, encoding="utf-8") as file:
            page = file.read()
        for title, words in (("[of a replay](#claim-1", ["--reading", "claim 1, of a replay"]), ("The SHA-256 of the text of all begins", ["--text"])):
            digest = hashlib.sha256(printed_by(headline.command, words)[1].encode()).hexdigest()[:16]
            self.assertIn(f"`{digest}`", next(line for line in page.splitlines() if title in line))

    def test_another_text_of_a_definition_is_another_page(self):
        best = self.library.definitions[self.library.named("form_model Forms.Best")]
        with mock.patch.object(best, "text", best.text + " "):
            other, definitions = headline.page(self.library)
        self.assertEqual(definitions, self.definitions)
        self.assertIn("HEADLINE.md is not what", printed_by(headline.check, self.library, other, definitions)[1])

    def test_one_definition_without_a_sentence_too_many_is_refused(self):
        count = len(headline.bare(self.library, self.definitions))
        with mock.patch.object(headline, "MOST_BARE", count - 1):
            self.assertIn(f"{count} definitions that the contract does not reach have no sentence", self.said()[1])

    def test_one_definition_too_many_is_refused(self):
        reading = claims.CLAIMS[0].readings[0]
        with mock.patch.object(reading, "most", reading.most - 1):
            status, said = self.said()
        self.assertEqual(status, 1)
        self.assertIn("claim 1, of a replay, needs", said)


if __name__ == "__main__":
    unittest.main()
