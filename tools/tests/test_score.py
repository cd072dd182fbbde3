"""Readers of bank, plan and journal, and the results by examinee. The standard library alone."""
import csv
import io
import json
import math
import os
import subprocess
import unittest

import data_of_bank_a as a
from common import PROGRAM, Folder, needs_program
from shadowtools.command import Refused
from shadowtools.formats.examination import Answered, Closed, Served, SetAside, Started, plan_of, read_bank, read_journal, sessions_of
from shadowtools.agency.scoring import mode, moments, posterior_sums, rounded

# The sums of the README: prior and log-likelihoods after each answer of session 0.
AFTER_ONE, AFTER_TWO = [-40, -15, -11], [-40, -16, -31]


class Readers(Folder):
    def test_plan(self):
        plan = plan_of("# c\nlength 4\nprior -1 0\nrate 1 2\n\n# row 0: alpha\ncount 1 2 0-1 4\nenemies 2 5\n"
                       "# words\nquantity 1 5 9 3\n# per passage\nstimulus 1 2 3\nstimulus 2 1 4\n# not of a row\n"
                       "budget 5\nstimuli 0 1\n")
        self.assertEqual((plan.length, plan.prior, plan.rate, plan.start), (4, [-1, 0], (1, 2), 1))
        self.assertEqual([(r.label, r.line, r.low, r.high) for r in plan.rules], [
            ("row 0: alpha", 7, 1, 2), ("enemies 2 5", 8, 0, 1), ("words", 10, 5, 9),
            ("per passage, passage 1", 12, 2, 3), ("per passage, passage 2", 13, 1, 4), ("stimuli 0 1", 16, 0, 1)])
        self.assertEqual(plan.rules[0].members, {0, 1, 4})

    def test_values_of_rules(self):
        bank = read_bank(self.write("bank", "item,stimulus,categories,q0,i0,l0_0,l1_0\n" + "".join(
            f"{k},{s},2,{q},1,-1,-1\n" for k, (s, q) in enumerate([(1, 40), (1, 60), (2, 30), (0, 20)]))))
        rules = plan_of("count 1 1 0 3\nquantity 0 50 90 0-2\nstimuli 1 1\nstimulus 1 2 2\nenemies 0-1\n").rules
        self.assertEqual([rule.value({0, 2, 3}, bank) for rule in rules], [2, 70, 2, 1, 1])
        self.assertEqual([rule.met({0, 2, 3}, bank) for rule in rules], [False, True, False, False, True])
        self.assertEqual([rule.value({3}, bank) for rule in rules], [1, 0, 0, None, 0])
        self.assertTrue(rules[3].met({3}, bank))

    def test_journal_of_the_format_page(self):
        """The examples of docs/FORMATS.md, byte for byte."""
        with open(self.path("j"), "wb") as file:
            file.write(bytes.fromhex("534841444f574a320100000008040000000000000100"))
        self.assertEqual(read_journal(self.path("j")), [Answered(0, 0, 1)])
        start = bytes.fromhex("0600000000" "0000000000000046" "01" "3f") + bytes(63)
        serve = bytes.fromhex("03000000000000" "0002" "0e") + bytes(63) + bytes.fromhex("010001" "00010003000000010300")
        aside, close = bytes.fromhex("0700000000" "0000" "00" "01" "0003" "000100040707"), bytes.fromhex("0500000000")
        with open(self.path("j"), "wb") as file:
            file.write(a.journal([start, aside, serve, close]))
        self.assertEqual(read_journal(self.path("j")), [
            Started(0, 70, (frozenset(range(6)),), False), SetAside(0, 0, 0, 1, 3), Served(0, 0, 2, frozenset({1, 2, 3}), True, 1), Closed(0)])

    def test_journals_that_are_none(self):
        for data in (b"nonsense and more", a.journal([b"\4\0\0\0\0\0\0\1"])[:-1], a.journal([b"\7"])):
            with open(self.path("j"), "wb") as file:
                file.write(data)
            with self.assertRaises(Refused):
                read_journal(self.path("j"))
        with open(self.path("j"), "wb") as file:
            file.write(b"SHADOWJ1\0")
        self.assertEqual(read_journal(self.path("j")), [])

    def test_bytes_after_a_closed_gate_count_for_nothing(self):
        with open(self.path("j"), "wb") as file:
            file.write(a.journal([b"\4\0\0\0\0\0\0\1"]) + b"\1rest")
        self.assertEqual(read_journal(self.path("j")), [Answered(0, 0, 1)])


class Posterior(Folder):
    def test_sums_of_the_example(self):
        bank, prior = read_bank(self.write("bank", a.BANK)), [-10, 0, -10]
        self.assertEqual(posterior_sums(bank, prior, [2], [1]), AFTER_ONE)
        self.assertEqual(posterior_sums(bank, prior, [2, 4], [1, 0]), AFTER_TWO)
        self.assertEqual((mode(AFTER_ONE), mode(AFTER_TWO), mode([0, 0])), (2, 1, 0))

    def test_moments_by_hand(self):
        """Two points at 0 and 1 with odds e^4: mean 1 / (1 + e^-4), variance p (1 - p)."""
        mean, deviation = moments([-4000, 0], [0.0, 1.0], 1000.0)
        self.assertAlmostEqual(mean, 0.98201379, 8)
        self.assertAlmostEqual(deviation, math.sqrt(0.98201379 * 0.01798621), 8)
        mean, deviation = moments([-10**7] * 3, [-1.0, 0.0, 1.0], 1000.0)
        self.assertAlmostEqual(mean, 0.0)
        self.assertAlmostEqual(deviation, math.sqrt(2 / 3))


class Results(Folder):
    def setUp(self):
        super().setUp()
        for name, text in (("bank", a.BANK), ("plan", a.PLAN), ("script", a.SCRIPT), ("lines", a.LINES),
                           ("map", json.dumps(a.scale_map()))):
            self.write(name, text)

    def rows(self, *words):
        status, said, errors = self.tool("score", "bank", "plan", "map", "--open", "--unbound", *words)
        self.assertEqual(status, 0, errors)
        return list(csv.DictReader(io.StringIO(said)))

    def test_lines_and_journal_agree(self):
        form = {1, 2, 4}
        with open(self.path("j"), "wb") as file:
            file.write(a.journal([
                a.started(0, 70), a.served(0, 0, 2, {1, 2, 3}), a.answered(0, 0, 1), a.served(0, 1, 4, form),
                a.answered(0, 1, 0), a.served(0, 2, 1, form), a.started(1, 71), a.served(1, 0, 2, {1, 2, 3}),
                a.answered(0, 2, 1)]))
        by_lines = self.rows("--lines", "lines", "--script", "script", "--answers", "answers")
        by_journal = self.rows("--journal", "j", "--unaudited", "--shown", "shown")
        self.assertEqual([row.pop("journal") for row in by_lines + by_journal], ["", "", "unbound", "unbound"])
        self.assertEqual(by_lines, by_journal)
        self.assertEqual([(r["booking"], r["state"], r["answered"], r["mode"], r["remark"]) for r in by_lines],
                         [("70", "complete", "3", "0.0000", ""), ("71", "open", "0", "", "too few answers")])
        self.assertEqual(self.read("answers").splitlines()[1:], ["0,70,0,I2,1", "0,70,1,I4,0", "0,70,2,I1,1"])
        self.assertEqual(self.read("shown").splitlines(), ["session,booking,items", "0,70,1-2 4", "1,71,2"])

    def test_numbers(self):
        """After all answers of session 0 the sums are -47, -23, -38: mean (e^-15 - e^-24) / (1 + e^-15 + e^-24)."""
        row = self.rows("--lines", "lines", "--script", "script", "--scale", "500", "100")[0]
        mean = (math.exp(-15) - math.exp(-24)) / (1 + math.exp(-15) + math.exp(-24))
        self.assertEqual((row["eap"], row["scale"]), (f"{mean:.4f}", f"{500 + 100 * mean:.4f}"))
        self.assertEqual(row["posterior_sd"], "0.0006")

    def test_a_level_is_that_of_the_printed_score(self):
        """At 548.6 + 6 theta the score of ability 0.0001 is printed 549, and so is the level; a half is rounded away from 0."""
        words = ("--lines", "lines", "--script", "script", "--cuts", "549", "--levels", "basic", "proficient", "--scale", "548.6", "6")
        row = self.rows(*words)[0]
        self.assertEqual((row["scale"], row["level"]), ("548.6000", "basic"))
        row = self.rows(*words, "--decimals", "0", "--record", "record")[0]
        self.assertEqual((row["scale"], row["level"]), ("549", "proficient"))
        record = json.loads(self.read("record"))
        self.assertEqual((record["options"]["decimals"], record["levels_of"]), (0, "the score as it is printed"))
        for score, decimals, wanted in ((548.5, 0, "549"), (549.5, 0, "550"), (-548.5, 0, "-549"), (0.1 + 0.2 + 548.2, 0, "549"),
                                        (548.499, 0, "548"), (1.25, 1, "1.3"), (1.00005, 4, "1.0001")):
            self.assertEqual(f"{rounded(score, decimals):f}", wanted, score)

    def test_cuts_that_no_score_is_below_or_reaches(self):
        words = ("score", "bank", "plan", "map", "--open", "--unbound", "--lines", "lines", "--script", "script", "--scale", "500", "100")
        for cut in ("950", "601", "400", "-3"):
            status, said, errors = self.tool(*words, "--cuts", cut)
            self.assertEqual((status, said), (1, ""))
            self.assertEqual(errors, f"--cuts {cut}: the obtainable scores are 400 to 600, on the scale 500 + 100 × ability\n")
        for cut in ("401", "600"):
            self.assertEqual(self.tool(*words, "--cuts", cut)[0], 0)
        self.assertIn("--obtainable 400.5: a score has 0 decimals", self.tool(*words, "--obtainable", "400.5", "600", "--decimals", "0")[2])

    def test_files_that_do_not_agree(self):
        self.write("more", "answer 0 1 0\n")
        self.write("told", "session 0 step 2 item 1 proved\n")
        status, _, errors = self.tool("score", "bank", "plan", "map", "--unbound", "--lines", "told", "--script", "more")
        self.assertEqual((status, "no line has the item of step 1 of session 0" in errors), (1, True))
        self.write("map", json.dumps(dict(a.scale_map(), theta=[0, 1])))
        status, _, errors = self.tool("score", "bank", "plan", "map", "--unbound", "--lines", "lines", "--script", "script")
        self.assertEqual((status, "is not the map of" in errors), (1, True))
        status, _, errors = self.tool("score", "bank", "plan", "map", "--unbound", "--lines", "told", "--script", "more", "--shown", "shown")
        self.assertEqual((status, errors), (1, "--shown needs a journal\n"))

    def test_an_answer_that_is_sent_again_counts_once(self):
        self.write("script", "begin 70\nanswer 0 0 1\nanswer 0 0 1\nlook 0\n")
        self.write("lines", "session 0 step 0 item 2 proved\n" + "session 0 step 1 item 4 proved\n" * 3)
        row = self.rows("--lines", "lines", "--script", "script")[0]
        self.assertEqual((row["state"], row["answered"], row["mode"]), ("open", "1", "1.0000"))

    def test_sessions_that_are_closed(self):
        self.write("script", "begin 70\nanswer 0 0 1\nclose 0\n")
        self.write("lines", "session 0 step 0 item 2 proved\nsession 0 step 1 item 4 proved\nsession 0 closed\n")
        row = self.rows("--lines", "lines", "--script", "script")[0]
        self.assertEqual((row["state"], row["answered"], row["mode"]), ("closed", "1", "1.0000"))

    @needs_program
    def test_the_program(self):
        """The program's replies are those of the page, and its journal gives the same results."""
        done = subprocess.run([os.path.abspath(PROGRAM), "replay", "bank", "plan", "script"], cwd=self.folder,
                              env=dict(os.environ, SHADOWD_JOURNAL="j"), capture_output=True, text=True)
        self.assertEqual((done.returncode, done.stdout), (0, a.LINES))
        by_journal = self.rows("--journal", "j")
        self.assertEqual([row.pop("audit") for row in by_journal], ["audited"] * 2)
        by_lines = self.rows("--lines", "lines", "--script", "script")
        self.assertEqual([row.pop("audit") for row in by_lines], ["unaudited"] * 2)
        self.assertEqual([row.pop("journal") for row in by_lines + by_journal], ["", "", "unbound", "unbound"])
        self.assertEqual(by_journal, by_lines)
        entries = read_journal(self.path("j"))
        self.assertEqual([e.form for e in entries if isinstance(e, Served)],
                         [{1, 2, 3}, {1, 2, 4}, {1, 2, 4}, {1, 2, 3}])
        self.assertEqual(sessions_of(entries)[0].responses, [1, 0, 1])


if __name__ == "__main__":
    unittest.main()
