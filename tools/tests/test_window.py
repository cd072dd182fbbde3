"""The report of a window beside counts and formulas in other code: nothing here comes from the modules that make the page."""
import csv
import hashlib
import itertools
import json
import math
import os
import random
import re
import statistics
import unittest

import journal_maker
from common import PAGE, PROGRAM, Folder, needs_page, needs_program
from shadowtools.formats.examination import Session
from shadowtools.needs import is_there
from test_simulate import Examination

if is_there(*PAGE):
    import numpy as np

    from shadowtools.agency import fit
    from shadowtools.agency.irt import Item

NORMAL = statistics.NormalDist()


def chance(item, ability):
    """The probability of a right answer to an item of the map, by the formula of the two-parameter model."""
    slope, place = item["parameters"]
    return 1 / (1 + math.exp(-slope * (ability - place)))


class WindowFolder(Examination):
    """A window of 40 sessions of four items, some closed early, that is made in Python; scores with a record."""
    made = {}

    def setUp(self):
        if not self.made:
            super().setUp()
            journal = journal_maker.drawn(5, 40, self.read("e.bank.csv"), self.read("e.plan.txt")).files()[1]
            with open(self.path("j"), "wb") as file:
                file.write(journal)
            for name in os.listdir(self.folder):
                with open(self.path(name), "rb") as file:
                    self.made[name] = file.read()
        else:
            Folder.setUp(self)
            for name, data in self.made.items():
                with open(self.path(name), "wb") as file:
                    file.write(data)
        self.score()

    def score(self, *words, journal="j"):
        status, said, errors = self.tool(
            "score", "e.bank.csv", "e.plan.txt", "e.map.json", "--journal", journal, "--program", "none", "--record", "record", "--answers",
            "answers", "--scale", "50", "10", "--cuts", "45", "55", "--decimals", "0", *words)
        self.assertEqual(status, 0, errors)
        self.results = list(csv.DictReader(said.splitlines()))
        self.answers = list(csv.DictReader(self.read("answers").splitlines()))

    def report(self, *words, wanted=0, program="none"):
        """The page without its tags, with single spaces."""
        status, said, errors = self.tool("report", "e", "--journal", "j", "--record", "record", "--to", "page.html", "--program", program, *words)
        self.assertEqual(status, wanted, errors)
        if status:
            return errors
        self.page = re.sub(r"base64,[A-Za-z0-9+/=]+", "", self.read("page.html"))
        text = re.sub(r"<style>.*?</style>", "", self.page, flags=re.S)
        return " ".join(re.sub(r"<[^>]+>", " ", text).replace("\N{MINUS SIGN}", "-").replace("&#39;", "'").split())

    def rows(self, name):
        return list(csv.DictReader(self.read(name).splitlines()))

    def number(self, text, pattern):
        found = re.search(pattern, text)
        self.assertIsNotNone(found, pattern)
        return float(found.group(1))


@needs_page
class Windows(WindowFolder):
    # ------------------------------------------------------------ numbers

    def test_scores_and_decisions(self):
        text = self.report()
        scored = [row for row in self.results if row["scale"]]
        theta, error = [[float(row[name]) for row in scored] for name in ("theta", "se")]
        noise = statistics.fmean(value ** 2 for value in error)
        self.assertAlmostEqual(self.number(text, r"standard error of the reported score is ([\d.]+)"), 10 * math.sqrt(noise), 1)
        self.assertIn(f"of {len(scored)} scores, from {10 * min(error):.1f} to {10 * max(error):.1f}.", text)
        spread = statistics.variance(theta)
        self.assertAlmostEqual(self.number(text, r"reliability of the mean \(EAP\) is ([\d.]+)"), spread / (spread + noise), 3)
        wrong = [float(row["level_error"]) for row in scored]
        self.assertAlmostEqual(self.number(text, r"([\d.]+)% of \d+ decisions"), 100 * (1 - statistics.fmean(wrong)), 1)
        self.assertIn(f"{sum(value > 0.3 for value in wrong)} have an error above 30%", text)
        self.assertIn("Both rest on the plan's prior", text)

    def test_reliability_of_likelihood_estimates(self):
        """(V - E) / V, without the scores that stop at an end of the scale, which are counted."""
        self.score("--estimate", "mle")
        text = self.report()
        inside = [row for row in self.results if row["scale"] and row["remark"] not in ("lowest", "highest")]
        ends = sum(row["remark"] in ("lowest", "highest") for row in self.results)
        self.assertGreater(ends, 0)
        spread = statistics.variance(float(row["theta"]) for row in inside)
        value = 1 - statistics.fmean(float(row["se"]) ** 2 for row in inside) / spread
        self.assertIn(f"of these {len(inside)} scores has no reliability" if value < 0 else f"is {value:.3f} in this window", text)
        self.assertIn(f"{ends} score{'s' if ends > 1 else ''} at an end of the scale", text)
        self.assertIn("The consistency rests on the plan's prior", text)

    def test_exposure_overlap_and_closed_tests(self):
        text = self.report()
        complete = {row["session"] for row in self.results if row["state"] == "complete"}
        tests = [frozenset(row["item"] for row in self.answers if row["session"] == one) for one in complete]
        counts = {item: sum(item in test for test in tests) for item in (f"I{k}" for k in range(8))}
        self.assertEqual({row["item"]: int(row["shown"]) for row in self.rows("page.items.csv")}, counts)
        common = [len(one & other) / 4 for one, other in itertools.combinations(tests, 2)]
        self.assertAlmostEqual(self.number(text, r"complete tests share ([\d.]+)%"), 100 * statistics.fmean(common), 1)
        self.assertIn(f"the greatest exposure is {max(counts.values()) / len(tests):.1%} of the complete tests", text)
        self.assertIn(f"{len(tests)} tests are complete, {sum(row['state'] == 'closed' for row in self.results)} closed before the end", text)
        self.assertIn(f"1 of 1 rules are met in each of {len(tests)} complete tests of 4 items.", text)

    def fits(self, kept, population):
        """By item its answers, mean, expected mean and z, by sums over 601 abilities from -6 to 6."""
        items = {one["id"]: one for one in json.loads(self.read("e.map.json"))["items"]}
        theta = [k / 50 - 6 for k in range(601)]
        prior = [math.exp(-((ability - population[0]) / population[1]) ** 2 / 2) for ability in theta]
        right = {name: [chance(item, ability) for ability in theta] for name, item in items.items()}
        found = {}
        for session in kept:
            given = [(row["item"], int(row["response"])) for row in self.answers if row["session"] == session]
            for name, response in given:
                weights = list(prior)
                for other, answer in given:
                    if other != name:
                        weights = [w * (p if answer else 1 - p) for w, p in zip(weights, right[other])]
                expected = sum(w * p for w, p in zip(weights, right[name])) / sum(weights)
                ability = sum(w * t for w, t in zip(weights, theta)) / sum(weights)
                found.setdefault(name, []).append((response, expected, ability))
        return {name: self.fit_by_hand(rows) for name, rows in found.items()}

    def fit_by_hand(self, rows):
        """Answers, mean, expected mean, z and z along ability, from each answer with its expectation and the ability by the others."""
        middle = statistics.fmean(t for _, _, t in rows)
        along = sum((x - e) * (t - middle) for x, e, t in rows) / math.sqrt(sum(e * (1 - e) * (t - middle) ** 2 for _, e, t in rows) or math.inf)
        return (len(rows), statistics.fmean(x for x, _, _ in rows), statistics.fmean(e for _, e, _ in rows),
                sum(x - e for x, e, _ in rows) / math.sqrt(sum(e * (1 - e) for _, e, _ in rows)), along)

    def test_chance_of_a_mark(self):
        """Of a standard normal value 27 in 10,000 are above 3 or below -3 (Abramowitz and Stegun, table 26.1), and an item has two. The
        verdict has the farthest z with two decimals, so that 2.97 does not read as 3."""
        text = self.report()
        every = [float(row[name] or 0) for row in self.rows("page.items.csv") if int(row["answers"]) >= 20 for name in ("z", "z_along")]
        self.assertIn(f" {max(every, key=abs):+.2f})", text)
        self.assertIn("Of items without a fault at most 54 in 10,000 have one of them above 3 or below -3 by chance.", text)

    def test_items_beside_their_parameters(self):
        text = self.report()
        mean = self.number(text, r"marginal likelihood mean ([-+\d.]+)")
        deviation = self.number(text, r"marginal likelihood mean [-+\d.]+, standard deviation ([\d.]+)")
        wanted = self.fits({row["session"] for row in self.results}, (mean, deviation))
        for row in self.rows("page.items.csv"):
            if row["item"] in wanted:
                answers, observed, expected, z, along = wanted[row["item"]]
                self.assertEqual(int(row["answers"]), answers)
                self.assertAlmostEqual(float(row["mean"]), observed, 4)
                self.assertAlmostEqual(float(row["expected"]), expected, 2)
                self.assertAlmostEqual(float(row["z"]), z, delta=0.03)
                self.assertAlmostEqual(float(row["z_along"] or 0), along, delta=0.05)

    def test_the_population_is_the_likeliest(self):
        """Its likelihood is above that of each population a tenth away, summed by the formula of the model."""
        text = self.report()
        mean, deviation = (float(word) for word in re.search(r"marginal likelihood mean ([-+\d.]+), standard deviation ([\d.]+)", text).groups())
        items = {one["id"]: one for one in json.loads(self.read("e.map.json"))["items"]}
        theta = [k / 20 - 6 for k in range(241)]
        right = {name: [chance(item, ability) for ability in theta] for name, item in items.items()}

        def likelihood(mean, deviation):
            weights, total = [math.exp(-((t - mean) / deviation) ** 2 / 2) for t in theta], 0.0
            for session in {row["session"] for row in self.answers}:
                each = list(weights)
                for row in self.answers:
                    if row["session"] == session:
                        each = [w * (p if row["response"] == "1" else 1 - p) for w, p in zip(each, right[row["item"]])]
                total += math.log(sum(each) / sum(weights))
            return total
        best = likelihood(mean, deviation)
        for other in ((mean + 0.1, deviation), (mean - 0.1, deviation), (mean, deviation + 0.1), (mean, max(0.15, deviation - 0.1))):
            if abs(other[1] - deviation) > 0.01 or other[0] != mean:
                self.assertGreaterEqual(best + 1e-3, likelihood(*other), other)

    # ------------------------------------------------------------ what the agency has beside the journal

    def test_annulled_sessions_count_in_no_number(self):
        """The numbers are those of the other sessions; the journal is audited whole."""
        out = [row for row in self.results if row["state"] == "complete"][:3]
        self.write("annul", "booking,reason\n" + "".join(f"{row['booking']},{reason}\n" for row, reason in zip(out, ("copied", "alarm", "copied"))))
        text = self.report("--annul", "annul")
        self.assertIn("3 sessions are annulled and in none of the numbers", text)
        self.assertIn("1 alarm, 2 copied", text)
        gone = {row["session"] for row in out}
        rest = {row["session"] for row in self.results if row["state"] == "complete"} - gone
        counts = {f"I{k}": sum(row["item"] == f"I{k}" for row in self.answers if row["session"] in rest) for k in range(8)}
        self.assertEqual({row["item"]: int(row["shown"]) for row in self.rows("page.items.csv")}, counts)
        self.assertFalse(gone & {row["session"] for row in self.rows("page.sessions.csv")})
        scored = [float(row["se"]) for row in self.results if row["scale"] and row["session"] not in gone]
        self.assertAlmostEqual(self.number(text, r"standard error of the reported score is ([\d.]+)"),
                               10 * math.sqrt(statistics.fmean(value ** 2 for value in scored)), 1)
        for bad, why in (("booking,reason\n5,x\n", "no booking 5"), (f"booking,reason\n{out[0]['booking']},x\n{out[0]['booking']},y\n", "is there twice"),
                         ("booking,why\n1,x\n", "the columns are booking, reason")):
            self.write("annul", bad)
            self.assertIn(why, self.report("--annul", "annul", wanted=1))

    def test_persons_and_groups(self):
        scored = [row for row in self.results if row["scale"]]
        first, second = scored[2], scored[9]
        self.write("persons", "booking,person,group\n" + "".join(
            f"{row['booking']},{'P' if row in (first, second) else 'Q' + row['booking']},{'ab'[k % 2]}\n" for k, row in enumerate(self.results)))
        text = self.report("--persons", "persons")
        self.assertIn("1 test is of a person with a test before", text)
        change = (float(second["theta"]) - float(first["theta"])) / math.hypot(float(first["se"]), float(second["se"]))
        shown = [{row["item"] for row in self.answers if row["session"] == one["session"]} for one in (first, second)]
        self.assertEqual(first["state"] + second["state"], "completecomplete")
        self.assertIn(f"P {first['session']} {second['session']} {len(shown[0] & shown[1]) / 4:.1%} {first['scale']} {second['scale']} {change:+.1f}",
                      text)
        for group in "ab":
            mean = statistics.fmean(float(row["scale"]) for k, row in enumerate(self.results) if row["scale"] and "ab"[k % 2] == group)
            number = sum(bool(row["scale"]) for k, row in enumerate(self.results) if "ab"[k % 2] == group)
            self.assertRegex(text, rf" {group} {number} {mean:.1f} ")

    def test_times(self):
        draw, lines = random.Random(1), ["booking,step,shown,answered"]
        seconds = {}
        for k, row in enumerate(self.answers):
            seconds.setdefault(row["item"], []).append(round(draw.uniform(0.5, 60), 1))
            end = f"2026-12-01T10:00:{seconds[row['item']][-1]:04.1f}+00:00" if k % 2 else f"{1000 + seconds[row['item']][-1]:.1f}"
            lines.append(f"{row['booking']},{row['step']},{'2026-12-01T11:00:00+01:00' if k % 2 else '1000'},{end}")
        every = [one for values in seconds.values() for one in values]
        self.write("times", "\n".join(lines) + "\n")
        if any(one >= 60 for one in every):
            self.skipTest("a drawn time is a minute")
        text = self.report("--times", "times")
        self.assertIn(f"{len(every)} of {len(self.answers)} answers have a time: median {statistics.median(every):.1f} s", text)
        self.assertIn(f"{sum(one < 2 for one in every)} took less than 2 s", text)
        for item, values in seconds.items():
            self.assertIn(f" {item} {len(values)} {statistics.median(values):.1f} ", text)
        for line, why in (("9,0,1,2", "no answer of booking 9"), (lines[1], "are there twice"),
                          (f"{self.answers[0]['booking']},0,5,4", "answered before it was shown"),
                          (f"{self.answers[0]['booking']},0,noon,4", "neither seconds nor a time")):
            self.write("times", "\n".join([lines[0], lines[1], line] if why == "are there twice" else [lines[0], line]) + "\n")
            self.assertIn(why, self.report("--times", "times", wanted=1))

    def test_seals(self):
        status, seal, _ = self.tool("audit", "--seal", "j")
        self.write("seal", seal)
        self.assertIn("The journal goes on from the seal “seal” of ", self.report("--seals", "seal"))
        self.write("seal", re.sub(r"sha256 .", lambda found: "sha256 " + ("0" if found.group()[-1] != "0" else "1"), seal))
        status, said, errors = self.tool("report", "e", "--journal", "j", "--record", "record", "--to", "page.html", "--program", "none", "--seals", "seal")
        self.assertEqual(status, 1, errors)
        self.assertIn("does not go on from the seal", self.read("page.html"))

    # ------------------------------------------------------------ what belongs together

    def test_files_of_another_window(self):
        self.assertIn("No true", self.report())
        self.assertIsNone(re.search(r"<script|https?://|RMSE", self.page))
        record = json.loads(self.read("record"))
        for name, digest in record["sha256"].items():
            self.assertIn(digest, self.page)
        with open(self.path("j"), "ab") as file:
            file.write(b"\0")
        self.assertIn("of another journal", self.report(wanted=1))
        with open(self.path("j"), "wb") as file:
            file.write(self.made["j"])
        self.write("record", json.dumps(dict(record, options=dict(record["options"], cuts=[40.0, 55.0]))))
        self.assertIn("the results that its options give are not those", self.report(wanted=1))
        self.write("record", json.dumps(dict(record, sha256=dict(record["sha256"], plan="0"))))
        self.assertIn("of another plan", self.report(wanted=1))
        self.write("record", "[]")
        self.assertIn("no record of score.py", self.report(wanted=1))

    @needs_program
    def test_the_program_and_the_second_one_agree(self):
        text = self.report(program=PROGRAM)
        self.assertIn("agrees in each of 10 lines.", text)


@needs_page
class Simulated(Examination):
    def test_a_journal_of_a_simulation_gives_what_its_run_gives(self):
        """Exposure, overlap, rules and proved forms of the page of a run, and of the page of its journal. The journal is one with real
        proofs, which takes the place of that of the stand-in."""
        self.simulate("--examinees", "12")
        maker, draw = journal_maker.Maker(self.read("e.bank.csv"), self.read("e.plan.txt")), random.Random(2)
        for number in range(12):
            maker.begin(number)
            for step in range(4):
                maker.answer(number, step, draw.randrange(2))
        with open(self.path("run.journal"), "wb") as file:
            file.write(maker.files()[1])
        run = json.loads(self.read("run.run.json"))
        with open(self.path("run.journal"), "rb") as file:
            run["sha256"]["journal"] = hashlib.sha256(file.read()).hexdigest()
        self.write("run.run.json", json.dumps(run))
        score = self.tool("score", "e.bank.csv", "e.plan.txt", "e.map.json", "--journal", "run.journal", "--program", "none", "--record", "record")
        by_run = self.tool("report", "e", "--run", "run", "--to", "run.html")
        by_journal = self.tool("report", "e", "--journal", "run.journal", "--record", "record", "--program", "none", "--to", "window.html")
        self.assertEqual([status for status, _, _ in (score, by_run, by_journal)], [0, 0, 0], by_journal)
        pages = [self.read(name) for name in ("run.html", "window.html")]
        for pattern in (r"Mean overlap of two tests</dt><dd>([\d.]+)<", r"Items never shown</dt><dd>(.*?)<", r"([\d,]+ of \d+) rules are met",
                        r"<tr><td class=.text.>(row 0: evens.*?)</tr>"):
            found = [re.search(pattern, page, re.S).group(1) for page in pages]
            self.assertEqual(found[0], found[1], pattern)
        self.assertIn("Each of 48 forms is proved best", pages[0])
        self.assertIn("48 of 48 forms are proved best", pages[1])
        tables = [list(csv.DictReader(self.read(name).splitlines())) for name in ("run.items.csv", "window.items.csv")]
        self.assertEqual(*[[(row["item"], row["shown"], float(row["exposure"])) for row in table] for table in tables])


# ---------------------------------------------------------------- whole windows, drawn

def drawn_window(items, seed, examinees, length, wrong=None):
    """Adaptive tests of greatest information at the mode of a normal prior, of examinees with ability N(0.3, 1). The answers to `wrong`
    are scored the wrong way round."""
    rng, grid = np.random.default_rng(seed), np.linspace(-4, 4, 41)
    theta, everyone = rng.normal(0.3, 1, examinees), np.arange(examinees)

    def right(at):
        return np.stack([low + (1 - low) / (1 + np.exp(-slope * (at - place))) for slope, place, low in items])
    table, own = right(grid), right(theta)
    information = np.stack([slope ** 2 * (p - low) ** 2 / (1 - low) ** 2 * (1 - p) / p for (slope, _, low), p in zip(items, table)])
    posterior, used = np.tile(-grid ** 2 / 2, (examinees, 1)), np.zeros((examinees, len(items)), bool)
    given = []
    for _ in range(length):
        chosen = np.where(used, -1, information.T[posterior.argmax(1)]).argmax(1)
        answer = (rng.random(examinees) < own[chosen, everyone]) != (chosen == wrong)
        used[everyone, chosen] = True
        posterior += np.log(np.where(answer[:, None], table[chosen], 1 - table[chosen]))
        given.append((chosen, answer.astype(int)))
    columns = [np.stack(part, 1).tolist() for part in zip(*given)]
    return [Session(items=one, responses=other) for one, other in zip(*columns)]


@needs_page
class WholeWindows(unittest.TestCase):
    """Twenty windows of 4,000 adaptive tests, whose examinees are 0.3 logits above the prior of the plan."""

    def setUp(self):
        rng = np.random.default_rng(8)
        self.items = [(float(a), float(b), 0.2) for a, b in zip(rng.uniform(0.8, 1.6, 30), rng.normal(0, 1, 30))]
        self.exact = [Item(f"I{k}", "3PL", list(one)) for k, one in enumerate(self.items)]

    def fits(self, seed, wrong=None, examinees=4000):
        answers = fit.Answers(self.exact, 1.0, [-4, 4], drawn_window(self.items, seed, examinees, 10, wrong))
        population = fit.population_of(answers)
        return population, fit.fit_of_items(answers, population)

    def test_items_without_a_fault(self):
        """At most one in a hundred is marked, and the population is found."""
        marked = judged = 0
        for seed in range(20):
            population, found = self.fits(seed)
            self.assertAlmostEqual(population.mean, 0.3, delta=0.1)
            self.assertAlmostEqual(population.deviation, 1.0, delta=0.1)
            judged += sum(one.answers >= 20 for one in found)
            marked += sum(one.answers >= 20 and abs(one.farthest) > 3 for one in found)
        self.assertGreater(judged, 300)
        self.assertLessEqual(marked, judged / 100)

    def test_a_wrong_key_is_found(self):
        """In 19 of 20 windows of 1,500 tests an item that is scored the wrong way round is marked: one of the twenty steepest, which are
        shown often."""
        steepest, found = sorted(range(30), key=lambda k: -self.items[k][0])[:20], 0
        for seed, wrong in enumerate(steepest):
            found += any(one.item == wrong and one.answers >= 20 and abs(one.farthest) > 3 for one in self.fits(seed, wrong, 1500)[1])
        self.assertGreaterEqual(found, 19)

    def test_lz_by_its_formula(self):
        """lz of one test, by sums over its items; about one in a hundred of the examinees without a fault is below the limit."""
        sessions = drawn_window(self.items, 3, 800, 10)
        answers = fit.Answers(self.exact, 1.0, [-4, 4], sessions)
        population = fit.population_of(answers)
        found = fit.fit_of_examinees(answers, population, 1)
        posterior = answers.posterior(population)
        for row in (0, 7, 500):
            place = int(abs(answers.theta - posterior[row] @ answers.theta).argmin())
            observed = mean = variance = 0.0
            for item, response in zip(sessions[row].items, sessions[row].responses):
                slope, at, low = self.items[item]
                p = low + (1 - low) / (1 + math.exp(-slope * (answers.theta[place] - at)))
                observed += math.log(p if response else 1 - p)
                mean += p * math.log(p) + (1 - p) * math.log(1 - p)
                variance += p * (1 - p) * math.log(p / (1 - p)) ** 2
            self.assertAlmostEqual(float(found.lz[row]), (observed - mean) / math.sqrt(variance), 6)
        self.assertLess(abs((found.lz < found.limit).mean() - 0.01), 0.012)
        self.assertGreaterEqual(found.simulated, 50000)


if __name__ == "__main__":
    unittest.main()
