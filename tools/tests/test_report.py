"""The report's formulas beside other computations of the same, and the page beside counts from its tables."""
import csv
import hashlib
import itertools
import json
import math
import os
import random
import re
import unittest
import warnings
from collections import Counter
from statistics import NormalDist
from types import SimpleNamespace

from common import PAGE, Folder, needs_page
from shadowtools.command import Refused
from shadowtools.formats.examination import BankItem, Session, plan_of
from shadowtools.needs import is_there
from test_simulate import ATTRIBUTES, PARAMETERS, Examination, ExaminationWithBands, ExaminationWithRetakers

if is_there(*PAGE):
    import numpy as np
    import pandas as pd

    from shadowtools.agency.irt import Item
    from shadowtools.page import measures
    from shadowtools.page.pictures import short_names
    from shadowtools.page.sections import alike, rule_row
    from shadowtools.page.study import Study, interval_bands, read_target, target_of

NORMAL = NormalDist()


@needs_page
class Classification(unittest.TestCase):
    def setUp(self):
        """2,000 abilities that are the quantiles of N(0, 1)."""
        self.ability = np.array([NORMAL.inv_cdf((k + 0.5) / 2000) for k in range(2000)])

    def test_the_orthant_of_two_normals(self):
        """One cut at the mean and errors as great as the ability: truth and estimate correlate by 1 / sqrt 2, two estimates by 1 / 2.
        Two normals of correlation r have the same sign with 1 / 2 + arcsin(r) / pi (Sheppard 1899)."""
        chances = measures.level_chances(self.ability, np.ones(2000), [0.0])
        self.assertAlmostEqual(measures.accuracy(chances, measures.levels(self.ability, [0.0])), 0.5 + math.asin(math.sqrt(0.5)) / math.pi, 3)
        agreement, kappa = measures.consistency(chances)
        self.assertAlmostEqual(agreement, 0.5 + math.asin(0.5) / math.pi, 3)
        self.assertAlmostEqual(kappa, (agreement - 0.5) / 0.5, 6)

    def test_beside_drawn_estimates(self):
        """Two cuts and errors that grow with ability: shares of two drawn estimates, within four of their standard errors."""
        cuts, error = [-0.4, 0.9], 0.3 + 0.1 * np.abs(self.ability)
        chances, rng = measures.level_chances(self.ability, error, cuts), random.Random(4)
        right = same = 0
        table = [[0] * 3 for _ in range(3)]
        for ability, deviation in zip(self.ability.tolist() * 20, error.tolist() * 20):
            one, other = (sum(rng.gauss(ability, deviation) >= cut for cut in cuts) for _ in range(2))
            right += one == sum(ability >= cut for cut in cuts)
            same += one == other
            table[one][other] += 1
        near = 4 * math.sqrt(0.25 / 40000)
        self.assertLess(abs(measures.accuracy(chances, measures.levels(self.ability, cuts)) - right / 40000), near)
        agreement, kappa = measures.consistency(chances)
        self.assertLess(abs(agreement - same / 40000), near)
        chance = sum(sum(table[k]) * sum(row[k] for row in table) for k in range(3)) / 40000 ** 2
        self.assertLess(abs(kappa - (same / 40000 - chance) / (1 - chance)), 4 * near)

    def test_chances_by_hand(self):
        chances = measures.level_chances(np.array([0.2]), np.array([0.5]), [0.0, 1.0])[0]
        low, high = NORMAL.cdf((0.0 - 0.2) / 0.5), NORMAL.cdf((1.0 - 0.2) / 0.5)
        for found, wanted in zip(chances, (low, high - low, 1 - high)):
            self.assertAlmostEqual(float(found), wanted, 9)

    def test_a_cut_belongs_to_the_level_above(self):
        self.assertEqual(measures.levels(np.array([-1.0, 0.0, 0.4, 0.5, 2.0]), [0.0, 0.5]).tolist(), [0, 1, 1, 2, 2])


@needs_page
class Precision(unittest.TestCase):
    def test_reliability_is_the_squared_correlation(self):
        """Ability N(0, 1) measured with the error variance 1 / 3 has the posterior variance 1 / 4, and the squared correlation of
        posterior mean and ability is 3 / 4."""
        rng = random.Random(9)
        ability = [rng.gauss(0, 1) for _ in range(20000)]
        mean = [0.75 * (value + rng.gauss(0, math.sqrt(1 / 3))) for value in ability]
        found = measures.marginal_reliability(np.array(ability), np.full(20000, 0.25))
        self.assertAlmostEqual(found, 0.75, 2)
        self.assertAlmostEqual(np.corrcoef(ability, mean)[0, 1] ** 2, found, 2)
        self.assertTrue(math.isnan(measures.marginal_reliability(np.zeros(5), np.ones(5))))

    def test_the_standard_error_of_items(self):
        """Sixteen 1PL items at the ability inform 16 / 4, and their standard error is 1 / 2."""
        information = 16 * Item("x", "1PL", [0.7]).information(0.7)
        self.assertAlmostEqual(float(measures.standard_error(information)[0]), 0.5, 9)
        self.assertEqual(float(measures.standard_error(np.zeros(1))[0]), math.inf)

    def test_local_weights(self):
        """They add up to 1, are greatest near the place, and give a straight line back in the middle of an even spread."""
        places = np.linspace(-2, 2, 401)
        weights = measures.local_weights(np.array([-0.5, 0.0, 0.5]), places)
        self.assertTrue(np.allclose(weights.sum(1), 1))
        self.assertEqual([float(places[k]) for k in weights.argmax(1)], [-0.5, 0.0, 0.5])
        self.assertTrue(np.allclose(weights @ (3 * places + 1), [-0.5, 1.0, 2.5]))
        self.assertTrue(np.allclose(measures.local_weights(np.array([5.0]), np.zeros(4)), 0.25))


@needs_page
class Overlap(unittest.TestCase):
    def test_beside_all_pairs(self):
        rng = random.Random(2)
        tests = [frozenset(rng.sample(range(9), 4)) for _ in range(12)]
        shown = np.array([[item in test for item in range(9)] for test in tests])
        pairs = [len(one & other) for one, other in itertools.combinations(tests, 2)]
        self.assertAlmostEqual(measures.mean_overlap(shown, 4), sum(pairs) / len(pairs) / 4, 9)
        self.assertEqual(sorted(measures.common_items(shown)), sorted(pairs))

    def test_the_formula_of_many_examinees(self):
        """n var(r) / L + L / n of the rates r is ((N - 1) T + 1) / N of the mean T over the pairs of N tests."""
        rng = random.Random(3)
        shown = np.zeros((40, 10), bool)
        for row in shown:
            row[rng.sample(range(10), 3)] = True
        found = measures.mean_overlap(shown, 3)
        self.assertAlmostEqual(10 * shown.mean(0).var() / 3 + 3 / 10, (39 * found + 1) / 40, 9)
        self.assertTrue(math.isnan(measures.mean_overlap(shown[:1], 3)))


@needs_page
class Lines(unittest.TestCase):
    def test_tests_with_one_share_of_the_best(self):
        """Where each test has 4 / 5 of the best information at its examinee's ability, so has the line at each ability."""
        true, at = np.linspace(-2, 2, 41), np.array([-1.7, 0.0, 0.3])
        items = [Item(f"I{k}", "2PL", [1.0 + k / 10, b]) for k, b in enumerate((-1.0, 0.0, 1.0))]
        examination = SimpleNamespace(scaling=1.0)
        best = Study.best_of_bank(SimpleNamespace(items=items, examination=examination, length=2), true)
        study = SimpleNamespace(people=pd.DataFrame({"true": true, "information": 0.8 * best}), best=best,
                                best_of_bank=lambda where: np.array([3.0, 2.0, 5.0]))
        self.assertTrue(np.allclose(Study.mean_information(study, at), [2.4, 1.6, 4.0]))
        each = [sorted((float(item.information(ability)[0]) for item in items), reverse=True) for ability in true]
        self.assertTrue(np.allclose(best, [sum(one[:2]) for one in each]))


@needs_page
class RulesOfPassages(unittest.TestCase):
    def test_passages_with_the_same_bounds_are_one_row(self):
        """Two tests: the first has two and three items of passages 1 and 2, the second two of passage 3 alone."""
        rules = plan_of("# per passage\nstimulus 1 2 3\nstimulus 2 2 3\nstimulus 3 1 3\n# all\ncount 0 9 0-7\nstimulus 4 1 3\nstimulus 5 1 3\n").rules
        groups = alike(rules)
        self.assertEqual([[rule.number for rule in group] for group in groups], [[1, 2], [3], [0], [4, 5]])
        bank = [BankItem(passage, [], [], []) for passage in (1, 1, 2, 2, 2, 3, 3, 0)]
        sessions = [Session(items=[0, 1, 2, 3, 4]), Session(items=[5, 6])]
        study = SimpleNamespace(sessions=sessions, examination=SimpleNamespace(bank=bank, map={"passages": list("ABCDE")}))
        self.assertEqual(rule_row(study, groups[0], 0), ["per passage (2 passages)", "2", "3", "1", "2", "2.5", "3", "50%", "50%", "0"])
        self.assertEqual(rule_row(study, groups[1], 0), ["per passage, passage 3 (C)", "1", "3", "1", "2", "2.0", "2", "0%", "0%", "0"])
        self.assertEqual(rule_row(study, groups[2], 1), ["all", "0", "9", "2", "2", "3.5", "5", "0%", "0%", "1"])
        self.assertEqual(rule_row(study, groups[3], 0)[:5], ["each passage (2 passages)", "1", "3", "0", "–"])


@needs_page
class Targets(Folder):
    def test_a_file_of_standard_errors(self):
        target = read_target(self.write("t", "ability,se\n-1,0.5\n1,0.25\n"))
        found = target.information(np.array([-1.0, 0.0, 1.0, 1.5]))
        self.assertTrue(np.allclose(found[:3], [4, 1 / 0.375 ** 2, 16]))
        self.assertTrue(math.isnan(found[3]))

    def test_a_file_of_information_and_three_numbers(self):
        self.assertEqual(read_target(self.write("t", "ability,information\n-1,2\n1,4\n")).information(np.zeros(1)).tolist(), [3.0])
        self.assertEqual(target_of(["-1", "1", "2.5"]).information(np.zeros(1)).tolist(), [2.5])

    def test_targets_that_are_none(self):
        for text in ("ability,se\n0,0.5\n", "ability,se\n1,0.5\n0,0.5\n", "ability,se\n0,0.5\n1,0\n", "a,b\n0,1\n1,1\n",
                     "ability,se\n0,nan\n1,1\n", "ability,information,se\n0,1,1\n1,1,1\n", ""):
            with self.subTest(text), self.assertRaises(Refused):
                read_target(self.write("t", text))
        for words in (["1", "0", "2"], ["0", "1", "x"], ["0", "1", "nan"], ["nowhere"]):
            with self.subTest(words), self.assertRaises(Refused):
                target_of(words)

    def test_bands(self):
        found = interval_bands(np.array([-3.0, -1.0, 0.2, 0.4]), np.array([5, 6, 7, 8]), (-1.0, 0.0, 1.0))
        self.assertEqual([(band.label, band.members.tolist()) for band in found],
                         [("below \N{MINUS SIGN}1", [5]), ("\N{MINUS SIGN}1 to 0", [6]), ("0 to 1", [7, 8])])


@needs_page
class AnotherMetric(Examination):
    def test_the_page(self):
        """T-scores are named neither logits, nor are their bands and ranges those of logits."""
        self.of_t_scores()
        self.simulate("--tails", "20", "80", "--each", "2", "--true", "uniform", "30", "70")
        status, _, errors = self.tool("report", "e", "--run", "run", "--to", "page.html", "--bands", "40", "60", "--cuts", "45")
        self.assertEqual((status, errors), (0, ""))
        page = re.sub(r"base64,[A-Za-z0-9+/=]+", "", self.read("page.html"))
        self.assertFalse("logits" in page)
        for wanted in ("with a true ability between 40 and 60", "True ability (ability units)", ">40 to 60<", "7 points from 20 to 80 ability units"):
            self.assertTrue(wanted in page, wanted)


@needs_page
class LongNames(Examination):
    def test_in_short(self):
        self.assertEqual(short_names(["MATH_GRADE8_ALGEBRA_00017", "I1", "twelve chars"]), ["MATH_..00017", "I1", "twelve chars"])
        self.assertEqual(short_names(["MATH_A_0000000017", "MATH_B_0000000017"]), ["MAT..017 #1", "MAT..017 #2"])

    def test_the_page(self):
        """Names of 26 letters leave room for the paths, and are whole in a table below; nothing warns."""
        for name, text in (("items", PARAMETERS), ("attributes", ATTRIBUTES)):
            self.write(name, re.sub(r"(?m)^I(\d)", r"MATHEMATICS_GRADE_8_00000\1", text))
        words = ("--items", "items", "--attributes", "attributes", "--constraints", "constraints", "--out", "e", "--grid", "-3", "3", "7")
        self.assertEqual(self.tool("irt_bank", *words)[0], 0)
        self.simulate()
        with warnings.catch_warnings():
            warnings.simplefilter("error")
            status, _, errors = self.tool("report", "e", "--run", "run", "--to", "page.html")
        self.assertEqual((status, errors), (0, ""))
        self.assertTrue('<td class="text">MATHE..00003</td><td class="text">MATHEMATICS_GRADE_8_000003</td>' in self.read("page.html"))
        self.assertTrue(".pictures { grid-template-columns: minmax(0, 1fr) }" in self.read("page.html"))
        self.assertRegex(self.read("page.html"), r"@media screen \{\s*\.scroll \{ background: [^}]* local,[^}]* scroll; background-repeat: no-repeat \}")
        self.assertRegex(self.read("page.html"), r"section\.files \{ break-inside: avoid \}")


@needs_page
class Pages(Examination):
    """The page of one simulation, which is made once and copied into the folder of each test."""
    made = {}

    def setUp(self):
        if not self.made:
            super().setUp()
            self.simulate("--tails", "-2", "2", "--each", "2")
            for name in os.listdir(self.folder):
                with open(self.path(name), "rb") as file:
                    self.made[name] = file.read()
            return
        Folder.setUp(self)
        for name, data in self.made.items():
            with open(self.path(name), "wb") as file:
                file.write(data)
        self.fake = self.path("fake")
        os.chmod(self.fake, 0o755)

    def report(self, *words):
        return self.tool("report", "e", "--run", "run", "--to", "page.html", *words)

    def rows(self, name):
        return list(csv.DictReader(self.read(name).splitlines()))

    def test_the_page(self):
        status, said, errors = self.report("--target", "-1", "1", "0.5", "--cuts", "-0.5", "0.5")
        self.assertEqual((status, errors), (0, ""))
        page = self.read("page.html")
        for title in ("What was simulated", "Rules of the plan", "Precision by ability", "Recovery of ability", "Reliability and decisions",
                      "Exposure and overlap", "Eligibility", "Three examinees", "Forms step by step", "Proofs, nodes and time", "Items", "The plan"):
            self.assertIn(f">{title}</h2>", page)
        self.assertIsNone(re.search(r"<script|https?://", re.sub(r"base64,[A-Za-z0-9+/=]+", "", page)))
        self.assertIn("1 of 1 rules are met in each of 8 tests. Each test has 4 items.", page)
        self.assertIn(self.read("e.plan.txt").splitlines()[3], page)
        run = json.loads(self.read("run.run.json"))
        for name in ("bank", "plan", "map", "program", "journal", "tails"):
            self.assertIn(run["sha256"][name], page)
        self.assertIn(run["date"], page)
        self.report("--target", "-1", "1", "0.5", "--cuts", "-0.5", "0.5", "--picture", "glance.png")
        self.assertEqual(self.read("page.html"), page)
        self.assertGreater(os.path.getsize(self.path("glance.png")), 10000)

    def test_exposure_from_the_answers(self):
        """The tables of items and answers agree, and the page has their counts; the tails count in no total."""
        self.report()
        given = [row for row in self.rows("page.answers.csv") if int(row["booking"]) < 4]
        self.assertEqual(len(given), 16)
        counts = {item: sum(row["item"] == item for row in given) for item in (f"I{k}" for k in range(8))}
        items = self.rows("page.items.csv")
        self.assertEqual({row["item"]: int(row["shown"]) for row in items}, counts)
        for row in items:
            self.assertAlmostEqual(float(row["exposure"]), counts[row["item"]] / 4, 4)
            self.assertEqual(row["never_shown"], str(counts[row["item"]] == 0))
        page = self.read("page.html")
        self.assertIn(f"<dt>Items never shown</dt><dd>{sum(count == 0 for count in counts.values())} of 8", page)
        self.assertIn(f"<dt>Greatest exposure</dt><dd>{max(counts.values()) / 4:.3f} (item ", page)
        pairs = itertools.combinations([{r["item"] for r in given if r["booking"] == str(k)} for k in range(4)], 2)
        overlap = sum(len(one & other) for one, other in pairs) / 6 / 4
        self.assertIn(f"<dt>Mean overlap of two tests</dt><dd>{overlap:.3f}</dd>", page)
        self.assertIn("exposure at 2", items[0])

    def test_the_table_of_rules_from_the_answers(self):
        """Each count of the plan over all tests, the tails with them, by its line of the plan and the answers alone."""
        self.report()
        tests, lines = {}, self.read("e.plan.txt").splitlines()
        for row in self.rows("page.answers.csv"):
            tests.setdefault(row["booking"], set()).add(int(row["item"][1:]))
        rows = self.rows("page.rules.csv")
        self.assertEqual([int(row["line"]) for row in rows], [place for place, line in enumerate(lines, 1) if line.startswith("count ")])
        for row in rows:
            _, low, high, *places = lines[int(row["line"]) - 1].split()
            ends = [tuple(map(int, place.split("-"))) for place in places]
            values = [sum(any(one[0] <= item <= one[-1] for one in ends) for item in test) for test in tests.values()]
            wanted = [low, high, str(len(values)), str(min(values)), f"{sum(values) / len(values):.4f}", str(max(values)),
                      f"{values.count(int(low)) / len(values):.4f}", f"{values.count(int(high)) / len(values):.4f}", "0"]
            self.assertEqual(list(row.values())[2:], wanted)

    def test_sentences_from_the_sessions(self):
        """The standard error and the decisions of the verdicts, counted from the table of sessions."""
        self.report("--cuts", "0", "--between", "-3", "3")
        sessions, page = [row for row in self.rows("page.sessions.csv") if row["part"] == "sample"], self.read("page.html")
        worst = max(float(row["standard_error"]) for row in sessions)
        mean = 1 / math.sqrt(sum(float(row["information"]) for row in sessions) / 4)
        self.assertIn(f"The standard error is at most {worst:.2f} logits in the tests of the 4 examinees with a true ability between "
                      f"−3 and 3, and {mean:.2f} from their mean information.", page)
        right = sum((float(row["true"]) >= 0) == (float(row["eap"]) >= 0) for row in sessions)
        self.assertIn(f"At cut score 0, {right / 4:.1%} of the examinees are in their true level", page)

    def test_a_target_that_is_missed(self):
        self.report("--target", "-3", "3", "9")
        page = self.read("page.html")
        self.assertIn("<b>not met</b><span>0 of 4 tests in the range of the target reach it. Their mean is below it", page)
        self.report("--target", "-3", "3", "0.01")
        self.assertIn("<b>met</b><span>4 of 4 tests in the range of the target reach it, and their mean reaches it", self.read("page.html"))

    def test_bands_of_the_estimate(self):
        self.report("--bands", "0", "--by", "estimate")
        below = sum(float(row["eap"]) < 0 for row in self.rows("page.sessions.csv")[:4])
        self.assertIn("A band is of the mean (EAP).", self.read("page.html"))
        self.assertIn(f'<td class="text">0 and above</td><td class="">{4 - below}</td>', self.read("page.html"))

    def test_points_have_a_band_each(self):
        self.simulate("--true", "points", "-1", "1")
        status, _, errors = self.report()
        self.assertEqual((status, errors), (0, ""))
        for point in ("at −1", "at 1"):
            self.assertIn(f'<td class="text">{point}</td><td class="">2</td>', self.read("page.html"))

    def test_names_are_escaped(self):
        self.write("items", self.read("items").replace("I3,", "<b>x$_3$,"))
        self.write("attributes", ATTRIBUTES.replace("I3,", "<b>x$_3$,"))
        self.write("constraints", self.read("constraints").replace("evens", "<i>short & sweet"))
        self.tool("irt_bank", "--items", "items", "--attributes", "attributes", "--constraints", "constraints", "--out", "e", "--grid", "-3", "3", "7")
        self.simulate()
        self.assertEqual(self.report()[0], 0)
        page = self.read("page.html")
        self.assertNotIn("<b>x", page)
        self.assertNotIn("<i>short", page)
        self.assertIn("&lt;b&gt;x$_3$", page)
        self.assertIn("&lt;i&gt;short &amp; sweet", page)

    def test_the_key_of_the_draws_is_not_shown(self):
        key = "0123456789abcdef" * 4
        self.tool("irt_bank", "--items", "items", "--attributes", "attributes", "--constraints", "constraints", "--out", "e", "--grid",
                  "-3", "3", "7", "--rate", "2", "3", "--key", key)
        self.assertIn(key, self.read("e.plan.txt"))
        self.simulate()
        self.assertEqual(self.report()[0], 0)
        page = self.read("page.html")
        self.assertNotIn(key, page)
        self.assertIn("key (not shown)", page)
        above = sum(float(row["exposure"]) > 2 / 3 for row in self.rows("page.items.csv"))
        self.assertIn(f"{above} {'item is' if above == 1 else 'items are'} above the rate of 66.7% of the tests", page)

    def test_a_broken_rule_is_told(self):
        self.simulate(fake="rules")
        status, _, _ = self.report()
        self.assertEqual(status, 1)
        self.assertIn("<b>not met</b><span>0 of 1 rules are met in each of 4 tests; 4 tests break a rule.", self.read("page.html"))
        self.assertIn('<p class="bad">Rules are broken in 4 tests.</p>', self.read("page.html"))

    def test_files_that_do_not_agree(self):
        """A journal of another run, a run of another bank, a bank of another map, and words that are none."""
        run = self.read("run.run.json")
        with open(self.path("run.journal"), "rb") as file:
            journal = file.read()
        with open(self.path("run.journal"), "wb") as file:
            file.write(journal[:-2] + bytes([journal[-2] ^ 1]) + journal[-1:])
        self.refused("is not the journal of the run")
        with open(self.path("run.journal"), "wb") as file:
            file.write(journal)
        self.write("run.run.json", json.dumps(dict(json.loads(run), true=[0.0], examinees=1, tails=[])))
        self.refused("is not the journal of run.run.json")
        self.write("run.run.json", run.replace(json.loads(run)["sha256"]["plan"], "0" * 64))
        self.refused("is of another plan")
        self.write("run.run.json", run)
        for words, said in ((["--cuts", "1", "0"], "--cuts 1 0: cut scores that ascend"), (["--target", "1", "2"], "LOW HIGH"),
                            (["--picture", "nowhere/p.png"], "nowhere is no folder"), (["--between", "1", "-1"], "--between"),
                            (["--template", "none"], "none: No such file")):
            self.refused(said, *words)
        self.assertEqual(self.tool("report", "e", "--run", "run", "--to", "nowhere/page.html")[0], 1)
        self.assertEqual(self.report("--bands", "nan")[0], 2)
        self.write("e.bank.csv", self.read("e.bank.csv").replace("1", "2", 1))
        self.refused("e.bank.csv: not the bank")

    def scores(self, *words):
        """The results of score.py for the sessions of the sample."""
        status, said, errors = self.tool("score", "e.bank.csv", "e.plan.txt", "e.map.json", "--journal", "run.journal", "--unaudited", *words)
        self.assertEqual(status, 0, errors)
        return list(csv.DictReader(said.splitlines()))

    def test_scores_are_those_of_the_results(self):
        """The page's estimates, errors, scores and levels are what score.py gives for the same journal and options, by each estimate."""
        for estimate in ("eap", "mode", "wle"):
            words = ["--estimate", estimate, "--scale", "500", "100", "--cuts", "480", "--levels", "no", "yes", "--decimals", "0"]
            self.assertEqual(self.report(*words)[0], 0)
            ours, theirs = self.rows("page.sessions.csv")[:4], self.scores(*words, "--record", "record")
            for name in ("eap", "posterior_sd", "theta", "se", "level"):
                self.assertEqual([row[name] for row in ours], [row[name] for row in theirs], (estimate, name))
            self.assertEqual([float(row["scale"]) for row in ours], [int(row["scale"]) for row in theirs])
            page, short = self.read("page.html"), {"eap": "EAP", "mode": "mode", "wle": "WLE"}[estimate]
            self.assertTrue(f"RMSE ({short})" in page)
            right = sum((500 + 100 * float(row["true"]) >= 480) == (row["level"] == "yes") for row in ours)
            self.assertTrue(f"At cut score 480 (−0.2 logits) of the scale 500 + 100 × ability, {right / 4:.1%} of the examinees" in page)
            self.assertEqual(self.report("--record", "record")[0], 0)
            self.assertTrue(self.read("page.html") == page)
        self.refused("--estimate is not used beside --record", "--record", "record", "--estimate", "mode")
        self.write("record", self.read("record").replace('"wle"', '"best"'))
        self.refused("no record of score.py: estimate", "--record", "record")

    def test_the_mean_is_over_the_grid_of_the_bank(self):
        """With a flat prior, and on a grid from -1 to 1 where much of the posterior lies beyond the ends: the mean of both is the sum over the grid."""
        for points, words in ((range(-3, 4), ["--grid", "-3", "3", "7", "--prior", "flat"]), ((-1, 0, 1), ["--grid", "-1", "1", "3"])):
            prior = {theta: 0.0 if "flat" in words else -theta * theta / 2 for theta in points}
            status, _, errors = self.tool("irt_bank", "--items", "items", "--attributes", "attributes", "--constraints", "constraints", "--out", "e", *words)
            self.assertEqual(status, 0, errors)
            self.simulate()
            self.assertEqual(self.report()[0], 0)
            theirs = self.scores()
            answers = {}
            for row in self.rows("page.answers.csv"):
                answers.setdefault(row["session"], []).append((float(row["item"][1:]), int(row["response"])))
            for ours, other in zip(self.rows("page.sessions.csv"), theirs):
                logs = {theta: first - sum(math.log(1 + math.exp((1 - 2 * response) * 1.2 * (theta - (item - 3) / 2)))
                                           for item, response in answers[ours["session"]]) for theta, first in prior.items()}
                weights = {theta: math.exp(log) for theta, log in logs.items()}
                mean = sum(theta * weight for theta, weight in weights.items()) / sum(weights.values())
                self.assertAlmostEqual(float(ours["eap"]), mean, delta=0.002)
                self.assertAlmostEqual(float(other["eap"]), mean, delta=0.002)

    def test_numbers_of_another_scale(self):
        """450 is no ability in logits, and no score of a scale whose scores are 200 to 800 has the cut 950."""
        self.refused("--cuts 450: the obtainable scores are -3 to 3", "--cuts", "450", "550")
        self.refused("--bands 450: abilities in logits, here -3 to 3", "--bands", "450", "550")
        self.refused("--between 450: abilities in logits", "--between", "450", "550")
        self.refused("--cuts 950: the obtainable scores are 200 to 800", "--cuts", "950", "--scale", "500", "100")
        self.assertEqual(self.report("--cuts", "450", "550", "--scale", "500", "100", "--bands", "-1", "1", "--between", "-2", "2")[0], 0)
        self.assertFalse(re.search(r"\bnan\b", re.sub(r"base64,[A-Za-z0-9+/=]+", "", self.read("page.html"))))

    def test_a_dash_where_there_is_no_kappa(self):
        """All examinees are so far below the cut that two tests agree surely, and by chance too."""
        self.assertEqual(self.report("--obtainable", "-1000", "1000", "--cuts", "500")[0], 0)
        self.assertTrue("agree in 100.0% (kappa –)." in self.read("page.html"))

    def test_rules_of_another_bank(self):
        """A plan that names an item, a quantity, a passage or a point that this bank does not have is none for it."""
        prior = next(line for line in self.read("e.plan.txt").splitlines() if line.startswith("prior")) + "\n"
        for rule, said in (("count 0 5 400-500", "line 3: an item or a quantity"), ("quantity 3 0 100 0-4", "line 3: an item or a quantity"),
                           ("stimulus 7 1 2", "line 3: the bank has no passage 7")):
            self.write("other", "length 4\n" + prior + rule + "\n")
            self.refused("other: " + said, "--rules", "other")
            self.assertIn(said, self.simulate("--rules", "other")[2])
        self.write("other", "length 4\nprior 0 0\ncount 0 2 0-3\n")
        self.refused("other: the prior has 2 points, the bank 7", "--rules", "other")
        self.write("other", "length 4\n" + prior + "count 0 4 0-3\n")
        self.assertEqual(self.report("--rules", "other")[0], 0)

    def refused(self, said, *words):
        status, _, errors = self.report(*words)
        self.assertEqual((status, errors.count("\n"), said in errors), (1, 1, True), errors)

    def test_a_template_of_an_agency(self):
        self.write("own", "{{ title }}: {{ verdicts | length }} of {{ nothing }}")
        self.refused("own: 'nothing' is undefined", "--template", "own")
        self.write("own", "{% for one in verdicts %}\n{% if %}")
        self.refused("own: line 2", "--template", "own")
        self.write("own", "{{ title }} in {{ sections | length }} sections")
        self.assertEqual(self.report("--template", "own")[0], 0)
        self.assertEqual(self.read("page.html"), "Simulated examination: e in 12 sections\n")


@needs_page
class PagesWithBands(ExaminationWithBands):
    def rows_of(self, page, head):
        """The cells of the table whose first heading is this."""
        table = re.search(rf'<thead><tr><th scope="col" class="text">{head}</th>.*?</tbody>', page, re.S).group()
        return [re.findall(r"<td[^>]*>(.*?)</td>", row) for row in re.findall(r"<tr>.*?</tr>", table.split("<tbody>")[1], re.S)]

    def test_the_section(self):
        """The page has what simulate.py printed, one row a band, and the table of items each rate."""
        _, said, errors = self.simulate("--examinees", "12", "--group", "3")
        printed = [re.fullmatch(r"band (\d), (.*): visits (\d+), greatest rate of the visits ([\d.]+) \((I\d)\), above the rate (\d+), never eligible (\d+) of 8, "
                                r"set aside (\d+)", line).groups() for line in said.splitlines()[1:]]
        self.assertEqual(self.tool("report", "e", "--run", "run", "--to", "page.html")[0], 0)
        page = self.read("page.html")
        self.assertIn(">Exposure by bands of the estimate</h2>", page)
        rows = self.rows_of(page, "Band")
        self.assertEqual([(row[0], row[1].replace("\N{MINUS SIGN}", "-"), row[2], *row[4:7], *row[8:10]) for row in rows], printed)
        with open(self.path("page.items.csv")) as file:
            items = list(csv.DictReader(file))
        for number, row in enumerate(rows):
            rates = [float(item[f"rate in band {number}"]) for item in items]
            self.assertAlmostEqual(max(rates), float(row[4]), 3)
            self.assertEqual(str(sum(rate > 2 / 3 for rate in rates)), row[6])
        above = sum(any(float(item[f"rate in band {k}"]) > 2 / 3 for k in range(3)) for item in items)
        self.assertIn(f"{above} {'item is' if above == 1 else 'items are'} above the rate in some band of the estimate, 66.7% of its visits", page)
        self.assertEqual([item["above_rate"] for item in items], [str(any(float(item[f"rate in band {k}"]) > 2 / 3 for k in range(3))) for item in items])
        visits = sum(int(row[2]) for row in rows) / 12
        exposure = max(float(item["exposure"]) for item in items)
        self.assertIn(f"Of the tests, the greatest exposure is {exposure:.1%} (item ", page)
        self.assertIn(f"a test visits {visits:.1f} bands in the mean, so an item at the rate is in about {2 / 3 * visits:.1%} of the tests.", page)
        self.assertFalse("above the rate of 66.7%" in page)
        self.assertIn("The plan steers the rates of each band.", page)

    def test_bands_that_are_watched(self):
        self.simulate("--examinees", "4")
        status, _, errors = self.tool("report", "e", "--run", "run", "--to", "page.html", "--watch", "1")
        self.assertEqual((status, errors), (0, ""))
        page = self.read("page.html")
        self.assertEqual(len(self.rows_of(page, "Band")), 2)
        self.assertIn("does not steer these rates", page)
        status, _, errors = self.tool("report", "e", "--run", "run", "--to", "page.html", "--watch", "9")
        self.assertEqual((status, errors.count("\n"), "--watch" in errors), (1, 1, True), errors)


@needs_page
class WhoseRateItIs(ExaminationWithBands):
    """The rate of a plan is of the tests, and with bands of the visits of a band: each place that prints it says which, and compares like with like."""

    def page(self):
        status, _, errors = self.simulate("--examinees", "12", "--group", "3")
        self.assertEqual(status, 0, errors)
        status, _, errors = self.tool("report", "e", "--run", "run", "--to", "page.html")
        self.assertEqual((status, errors), (0, ""))
        with open(self.path("page.items.csv"), encoding="utf-8") as file:
            self.assertEqual({row["rate"] for row in csv.DictReader(file)}, {"0.6667"})
        return re.sub(r"base64,[A-Za-z0-9+/=]+", "", self.read("page.html"))

    def whose(self):
        """What the table of items takes the rate for."""
        with open(self.path("page.items.csv"), encoding="utf-8") as file:
            return {row["rate_of"] for row in csv.DictReader(file)}

    def greatest_exposure(self):
        """Of the tests, counted from the answers: the items have names of their own there."""
        shown = Counter(name for session in self.answered().values() for name, _ in session)
        return max(shown.values()) / 12

    def answered(self):
        """By session its items with the responses, in order."""
        found = {}
        with open(self.path("page.answers.csv"), encoding="utf-8") as file:
            for row in csv.DictReader(file):
                found.setdefault(row["session"], []).append((row["item"], int(row["response"])))
        return found

    def rates_of_visits(self):
        """By band and item, from the formula of the curves and the prior alone: slopes 1.2, difficulties from -1.5 by halves."""
        visits, shown = Counter(), Counter()
        for session in self.answered().values():
            logs, bands = {theta: -theta * theta / 2 for theta in range(-3, 4)}, []
            for name, response in session:
                mode = max(logs, key=logs.get)
                bands.append((mode >= 0) + (mode >= 1))
                shown[bands[-1], name] += 1
                sign = 1 if response else -1
                for theta in logs:
                    logs[theta] -= math.log(1 + math.exp(-sign * 1.2 * (theta - (int(name[1:]) - 3) / 2)))
            visits.update(set(bands))
        return {(band, name): count / visits[band] for (band, name), count in shown.items()}

    def test_with_bands(self):
        page, rates = self.page(), self.rates_of_visits()
        self.assertEqual(self.whose(), {"visits"})
        self.assertTrue(f"Of the tests, the greatest exposure is {self.greatest_exposure():.1%} (item " in page)
        above = len({name for (_, name), rate in rates.items() if rate > 2 / 3})
        self.assertTrue(f"{above} {'item is' if above == 1 else 'items are'} above the rate in some band of the estimate, 66.7% of its visits; "
                        f"the greatest rate is {max(rates.values()):.1%} of the visits (item " in page)
        self.assertTrue("exposure rate: 2/3 of the visits of each band" in page)
        for wrong in ("above the rate of 66.7%", "Items above the rate", "Above the rate of the tests", "2/3 of the tests"):
            self.assertFalse(wrong in page, wrong)

    def test_without_bands(self):
        self.without_bands()
        page = self.page()
        self.assertEqual(self.whose(), {"tests"})
        shown = Counter(name for session in self.answered().values() for name, _ in session)
        above = sum(count > 8 for count in shown.values())
        self.assertTrue(f"{above} {'item is' if above == 1 else 'items are'} above the rate of 66.7% of the tests; the greatest exposure is "
                        f"{self.greatest_exposure():.1%} (item " in page)
        self.assertTrue("exposure rate: 2/3 of the tests" in page and "Above the rate of the tests" in page)

    def without_bands(self):
        self.write("e.plan.txt", self.read("e.plan.txt").replace("bands 3 4\n", ""))
        found = json.loads(self.read("e.map.json"))
        found["sha256"]["plan"] = hashlib.sha256(self.read("e.plan.txt").encode()).hexdigest()
        self.write("e.map.json", json.dumps(found))


@needs_page
class PagesWithRetakers(ExaminationWithRetakers):
    LINE = r"overlap ([\d.]+), at most ([\d.]+); RMSE of the mean ([\d.]+) and ([\d.]+), of the mode ([\d.]+) and ([\d.]+);"

    def page_of(self, *words):
        """The page of two examinees of four that sit twice, and the numbers that simulate.py printed of them."""
        _, said, errors = self.simulate("--retakers", "0.5", *words)
        status, _, more = self.tool("report", "e", "--run", "run", "--to", "page.html")
        self.assertEqual((status, more), (0, ""), errors)
        return self.read("page.html"), re.search(self.LINE, said)

    def assert_section(self, page, numbers):
        self.assertIn(">Second sittings</h2>", page)
        self.assertIn("<dt>Examinees that sat twice</dt><dd>2 of 4</dd>", page)
        self.assertIn(f"<dt>Overlap of the two tests of a person, mean and greatest</dt><dd>{numbers[1]}, {numbers[2]}</dd>", page)
        for place, name in enumerate(("first", "second")):
            self.assertRegex(page, rf'<td class="text">{name}</td><td class="">2</td><td class="">[^<]*</td><td class="">{numbers[3 + place]}</td>'
                                   rf'<td class="">{numbers[5 + place]}</td>')
        self.assertIn("4 sessions", self.tool("report", "e", "--run", "run", "--to", "page.html")[1])

    def test_with_lists(self):
        page, numbers = self.page_of()
        self.assert_section(page, numbers)
        self.assertIn("<dt>Second sittings begun</dt><dd>2, without the items of the first</dd>", page)
        self.assertIn("<b>met</b><span>2 of 2 second sittings found a form. A second test shares no item with the first of the same person; its "
                      f"RMSE is {numbers[4]}, that of the first {numbers[3]} (EAP).", page)
        self.assertIn(json.loads(self.read("run.run.json"))["sha256"]["second"], page)

    def test_with_no_lists(self):
        page, numbers = self.page_of("--no-lists")
        self.assert_section(page, numbers)
        self.assertIn("<dt>Second sittings begun</dt><dd>2, with no list</dd>", page)
        self.assertIn(f"<b>measured</b><span>2 of 2 second sittings found a form. A second test shares {float(numbers[1]):.1%} of its items", page)

    def test_without_a_form(self):
        self.write("constraints", self.read("constraints").replace("2,2", "1,1"))
        self.tool("irt_bank", "--items", "items", "--attributes", "attributes", "--constraints", "constraints", "--out", "e", "--grid", "-3", "3", "7")
        page, _ = self.page_of()
        self.assertIn("<b>not met</b><span>0 of 2 second sittings found a form.</span>", page)
        self.assertIn("<dt>No form is left</dt><dd>2</dd>", page)

    def test_a_journal_that_is_none(self):
        self.page_of()
        with open(self.path("run.second.journal"), "ab") as file:
            file.write(b"more")
        status, _, errors = self.tool("report", "e", "--run", "run", "--to", "page.html")
        self.assertEqual((status, errors), (1, "run.second.journal is not the journal of the run, by its SHA-256; use the files that simulate.py wrote "
                                               "together\n"))


if __name__ == "__main__":
    unittest.main()
