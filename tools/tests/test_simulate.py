"""Simulated examinees through a stand-in for shadowd, and through the program."""
import hashlib
import json
import math
import os
import sys
import unittest

from common import PROGRAM, Folder, needs_numpy, needs_program
from shadowtools.command import Refused
from shadowtools.formats.examination import Session, read_journal, sessions_of

try:
    import numpy as np
    from shadowtools.agency import simulation
    from shadowtools.agency.irt import Item
except ImportError:
    pass

FAKE = os.path.join(os.path.dirname(os.path.abspath(__file__)), "fake_shadowd.py")
PARAMETERS = "ID,MODEL,PAR1,PAR2\n" + "".join(f"I{k},2PL,1.2,{(k - 3) / 2}\n" for k in range(8))
ATTRIBUTES = "ID,K\n" + "".join(f"I{k},{'xy'[k % 2]}\n" for k in range(8))
RULES = "CONSTRAINT,TYPE,WHAT,CONDITION,LB,UB\nlength,Number,Item,,4,4\nevens,Number,Item,K == x,1,1\n"


class Examination(Folder):
    """A bank of eight items, of which a test of four has exactly one with an even number."""

    def setUp(self):
        super().setUp()
        self.fake = self.write("fake", f'#!/bin/sh\nexec "{sys.executable}" "{FAKE}" "$@"\n')
        os.chmod(self.fake, 0o755)
        for name, text in (("items", PARAMETERS), ("attributes", ATTRIBUTES), ("constraints", RULES)):
            self.write(name, text)
        status, _, errors = self.tool("irt_bank", "--items", "items", "--attributes", "attributes", "--constraints",
                                      "constraints", "--out", "e", "--grid", "-3", "3", "7")
        self.assertEqual(status, 0, errors)

    def simulate(self, *words, fake="", program=None):
        """Four examinees, and none in the tails, unless the words have others."""
        kept = ["--out", "run", "--program", program or self.fake, "--examinees", "4", "--tails", "none"]
        kept = [word for k in range(0, len(kept), 2) if kept[k] not in words for word in kept[k:k + 2]]
        os.environ["FAKE"] = fake
        try:
            return self.tool("simulate", "e", *kept, *words)
        finally:
            os.environ["FAKE"] = ""

    def of_t_scores(self):
        """The same items as T-scores: the mean is 50, the standard deviation 10."""
        self.write("items", "ID,MODEL,PAR1,PAR2\n" + "".join(f"I{k},2PL,0.12,{50 + 5 * (k - 3):g}\n" for k in range(8)))
        status, _, errors = self.tool("irt_bank", "--items", "items", "--attributes", "attributes", "--constraints", "constraints", "--out", "e",
                                      "--grid", "20", "80", "7", "--prior", "50", "10", "--program", self.takes_all(), "--information-unit", "100000")
        self.assertEqual(status, 0, errors)

    def sessions(self, name="run.journal"):
        found = sessions_of(read_journal(self.path(name)))
        return sorted((one.booking, one.items, one.responses) for one in found)


@needs_numpy
class Examinees(unittest.TestCase):
    def test_the_seed_decides(self):
        items = [Item("x", "2PL", [1.0, b]) for b in (-1.0, 0.0, 1.0)]
        theta = simulation.abilities(["normal", "0", "1"], 50, 7)
        self.assertTrue((theta == simulation.abilities(["normal", "0", "1"], 50, 7)).all())
        self.assertTrue((theta != simulation.abilities(["normal", "0", "1"], 50, 8)).all())
        drawn = simulation.drawn_responses(items, theta, 1.0, 7)
        self.assertTrue((drawn == simulation.drawn_responses(items, theta, 1.0, 7)).all())

    def test_points_have_equal_numbers(self):
        self.assertEqual(simulation.abilities(["points", "-1", "0", "2"], 6, 1).tolist(), [-1, -1, 0, 0, 2, 2])
        self.assertEqual(simulation.abilities(["turns", "-1", "0", "2"], 5, 1).tolist(), [-1, 0, 2, -1, 0])

    def test_responses_follow_the_model(self):
        """At one ability the shares of the categories are within four standard errors of their probabilities."""
        item = Item("x", "GPC", [1.1, -0.5, 0.4])
        drawn = simulation.drawn_responses([item], np.zeros(4000), 1.0, 3)[:, 0]
        for category, chance in enumerate(item.probabilities(0.0)[:, 0]):
            self.assertLess(abs((drawn == category).mean() - chance), 4 * math.sqrt(chance * (1 - chance) / 4000))

    def test_words_that_are_none(self):
        for words in (["normal", "0"], ["points", "a"], ["other"], ["normal", "nan", "1"], ["normal", "0", "-1"], ["normal", "0", "inf"],
                      ["uniform", "1", "0"], ["points"], ["points", "7"], ["turns"]):
            with self.subTest(words), self.assertRaises(Refused):
                simulation.abilities(words, 3, 1)
        with self.assertRaises(Refused):
            simulation.abilities(["normal", "0", "1"], 3, -1)

    def test_more_examinees_change_no_answer(self):
        items, theta = [Item("x", "2PL", [1.0, 0.0])] * 3, np.array([0.5, -1.0, 2.0, 0.0])
        self.assertTrue((simulation.drawn_responses(items, theta, 1.0, 7)[:2] == simulation.drawn_responses(items, theta[:2], 1.0, 7)).all())


@needs_numpy
class Estimation(Examination):
    def test_equal_items_at_the_truth(self):
        """Twenty 1PL items at b = 0 with ten right: every estimate is 0; the posterior SD is near 1 / sqrt(20 / 4 + 1)."""
        self.write("items", "ID,MODEL,PAR1\n" + "".join(f"I{k},1PL,0\n" for k in range(20)))
        self.tool("irt_bank", "--items", "items", "--length", "20", "--out", "e", "--grid", "-4", "4", "61")
        examination = simulation.load(self.path("e"))
        session = simulation_session(range(20), [0, 1] * 10)
        found = simulation.estimates(examination, [session])
        for value in (found.mode, found.map, found.eap, found.mle):
            self.assertAlmostEqual(float(value[0]), 0.0, 6)
        self.assertAlmostEqual(float(found.deviation[0]), 1 / math.sqrt(6), 1)

    def test_the_mode_is_that_of_the_sums(self):
        examination = simulation.load(self.path("e"))
        session = simulation_session([0, 1, 2, 3], [1, 1, 1, 1])
        sums = simulation.grid_sums(examination, session.items, session.responses)
        self.assertEqual(sums.shape, (5, 7))
        best = max(range(7), key=lambda g: (sums[-1][g], -g))
        self.assertEqual(simulation.estimates(examination, [session]).mode[0], examination.theta[best])


def simulation_session(items, responses):
    return Session(booking=0, items=list(items), responses=list(responses))


@needs_numpy
class Simulations(Examination):
    def test_both_ways_give_the_same_sessions(self):
        status, said, errors = self.simulate()
        self.assertEqual(status, 0, errors)
        self.assertIn("4 sessions of 4 items through replay: no rule of 1 is broken", said)
        by_replay = self.sessions()
        status, _, errors = self.simulate("--group", "2", "--true", "normal", "0", "1")
        self.assertEqual((status, self.sessions()), (0, by_replay), errors)
        status, said, errors = self.simulate("--through", "serve", "--clients", "3")
        self.assertEqual(status, 0, errors)
        self.assertIn("4 sessions of 4 items through serve: no rule of 1 is broken", said)
        self.assertEqual(self.sessions(), by_replay)

    def test_faults_end_it_with_their_place(self):
        for fake, words in (("rules", "rules are broken, the first in session 0: count 1 1 0 2 4 6 (row 0: evens"),
                            ("refuse", "examinee 0: 'answer 0 1 "), ("status", "status 9: disk failed"),
                            ("garbled", "item 999 proved', the bank has 8 items"),
                            ("count", "item 0: shown "), ("answer", "session 0: the journal's answers are not those")):
            with self.subTest(fake):
                status, _, errors = self.simulate(fake=fake)
                self.assertEqual(status, 1)
                self.assertIn(words, errors)

    def test_faults_over_http(self):
        for fake, words in (("rules", "rules are broken"), ("refuse", 'answers: status 422: {"error": "bad-response"'),
                            ("garbled", "is none of docs/HTTP.md"),
                            ("status", "serve ended with status 9: disk failed"), ("end", "serve ended with status 9: "),
                            ("count", "item 0: shown ")):
            with self.subTest(fake):
                status, _, errors = self.simulate("--through", "serve", "--clients", "2", fake=fake)
                self.assertEqual(status, 1)
                self.assertIn(words, errors)

    def test_points_below_zero_on_the_command_line(self):
        status, _, errors = self.simulate("--true", "points", "-2", "0")
        self.assertEqual(status, 0, errors)
        self.assertEqual(json.loads(self.read("run.run.json"))["true"], [-2, -2, 0, 0])

    def test_another_metric(self):
        """Examinees and tails are where the prior has them, and the answers are those of the same items in logits."""
        self.simulate("--tails", "-2", "3", "--each", "1")
        before, run = self.sessions(), json.loads(self.read("run.run.json"))
        self.of_t_scores()
        status, _, errors = self.simulate("--tails", "30", "80", "--each", "1")
        found = json.loads(self.read("run.run.json"))
        self.assertEqual((status, found["of"]), (0, ["normal", "50", "10"]), errors)
        for one, other in zip(run["true"], found["true"]):
            self.assertAlmostEqual(50 + 10 * one, other, 6)
        self.assertEqual(self.sessions(), before)
        kept = ("simulate", "e", "--out", "run", "--program", self.fake, "--examinees", "4")
        self.assertEqual(self.tool(*kept)[0], 0)
        self.assertEqual(json.loads(self.read("run.run.json"))["tails"], [20, 25, 30, 70, 75, 80])
        for words in (["--true", "points", "130"], ["--tails", "-11"]):
            status, _, errors = self.tool(*kept, *words)
            self.assertEqual((status, "abilities from -10 to 110" in errors), (1, True), errors)

    def test_other_rules_can_be_counted(self):
        prior = next(line for line in self.read("e.plan.txt").splitlines() if line.startswith("prior "))
        self.write("other", f"length 4\n{prior}\n# row 0: odds\ncount 0 2 1 3 5 7\n")
        status, _, errors = self.simulate("--rules", "other")
        self.assertEqual((status, "count 0 2 1 3 5 7 (row 0: odds) has 3" in errors), (1, True))

    @needs_program
    def test_the_program(self):
        status, said, errors = self.simulate(program=PROGRAM)
        self.assertEqual(status, 0, errors)
        self.assertEqual([len(items) for _, items, _ in self.sessions()], [4] * 4)

    @needs_program
    def test_the_program_over_http(self):
        """The same sessions through serve, by one client and by three, as through replay."""
        status, _, errors = self.simulate(program=PROGRAM)
        self.assertEqual(status, 0, errors)
        by_replay = self.sessions()
        for clients in ("1", "3"):
            status, said, errors = self.simulate("--through", "serve", "--clients", clients, program=PROGRAM)
            self.assertEqual((status, self.sessions()), (0, by_replay), errors)
            self.assertIn("entries ", said)


@needs_numpy
class Tails(Examination):
    def test_they_follow_the_others(self):
        """The sample is the same with and without them; they have a journal of their own."""
        self.simulate()
        alone = self.sessions()
        status, said, errors = self.simulate("--tails", "-2", "2.5", "--each", "2")
        self.assertEqual((status, self.sessions()), (0, alone), errors)
        self.assertIn("4 sessions of 4 items through replay, and 4 in the tails: no rule of 1 is broken", said)
        self.assertEqual([booking for booking, _, _ in self.sessions("run.tails.journal")], [4, 5, 6, 7])
        run = json.loads(self.read("run.run.json"))
        self.assertEqual((run["examinees"], run["tails"], run["true"][4:]), (4, [-2, -2, 2.5, 2.5], [-2, -2, 2.5, 2.5]))
        self.simulate()
        self.assertFalse(os.path.exists(self.path("run.tails.journal")))

    def test_by_default_one_for_each_forty(self):
        self.assertEqual(self.tool("simulate", "e", "--out", "run", "--program", self.fake, "--examinees", "2")[0], 0)
        self.assertEqual(json.loads(self.read("run.run.json"))["tails"], [-3, -2.5, -2, 2, 2.5, 3])
        self.assertEqual(self.tool("simulate", "e", "--out", "run", "--program", self.fake, "--examinees", "2", "--true", "points", "0")[0], 0)
        self.assertEqual(json.loads(self.read("run.run.json"))["tails"], [])

    def test_with_a_rate_they_go_on_with_the_journal(self):
        status, _, errors = self.tool("irt_bank", "--items", "items", "--attributes", "attributes", "--constraints", "constraints", "--out",
                                      "e", "--grid", "-3", "3", "7", "--rate", "2", "3", "--key", "07" * 32)
        self.assertEqual(status, 0, errors)
        status, _, errors = self.simulate("--tails", "-2", "--each", "1", "--group", "3")
        self.assertEqual(status, 0, errors)
        self.assertEqual([booking for booking, _, _ in self.sessions("run.tails.journal")], [0, 1, 2, 3, 4])


class ExaminationWithRetakers(Examination):
    """Half of the items of a test have an even number. So a second test without the items of the first has all others."""
    evens = 2

    def setUp(self):
        super().setUp()
        self.write("constraints", RULES.replace("1,1", f"{self.evens},{self.evens}"))
        status, _, errors = self.tool("irt_bank", "--items", "items", "--attributes", "attributes", "--constraints", "constraints", "--out",
                                      "e", "--grid", "-3", "3", "7")
        self.assertEqual(status, 0, errors)

    def both(self, name="run.second.journal"):
        """By retaker the first and the second session."""
        found = {booking: (items, responses) for booking, items, responses in self.sessions(name)}
        run = json.loads(self.read("run.run.json"))
        return [(found[examinee], found.get(booking)) for booking, examinee in enumerate(run["retakers"], len(run["true"]))]


@needs_numpy
class Retakers(ExaminationWithRetakers):
    def assert_without(self, status, said, errors):
        """Both second sittings were begun, and have the items that the first had not."""
        self.assertEqual(status, 0, errors)
        self.assertIn("second sittings 2, without the items of the first: 2 begun, 0 refused no-form, 0 refused none-found\n", said)
        self.assertIn("two sittings of a person: overlap 0.000, at most 0.000; ", said)
        self.assertIn("; forms proved 8 of 8 in the second; eligibility set aside in ", said)
        self.assertEqual([sorted(first[0] + second[0]) for first, second in self.both()], [list(range(8))] * 2)

    def test_without_the_items_of_the_first(self):
        self.simulate()
        alone = self.sessions()
        self.assertFalse(os.path.exists(self.path("run.second.journal")))
        self.assert_without(*self.simulate("--retakers", "0.5"))
        by_replay = self.sessions("run.second.journal")
        self.assertEqual((self.sessions(), by_replay[:4]), (alone, alone))
        self.assert_without(*self.simulate("--retakers", "0.5", "--through", "serve", "--clients", "2"))
        self.assertEqual((self.sessions(), self.sessions("run.second.journal")), (alone, by_replay))

    def test_with_no_lists(self):
        """The overlap and the error counted from the sessions; the answers to the same items are those of the run with lists."""
        self.simulate("--retakers", "0.5")
        with_lists = [dict(zip(*second)) for _, second in self.both()]
        status, said, errors = self.simulate("--retakers", "0.5", "--no-lists")
        self.assertEqual(status, 0, errors)
        self.assertIn("second sittings 2, with no list: 2 begun, ", said)
        pairs = self.both()
        shares = [len(set(first[0]) & set(second[0])) / 4 for first, second in pairs]
        self.assertGreater(min(shares), 0)
        self.assertIn(f"overlap {sum(shares) / 2:.3f}, at most {max(shares):.3f}; RMSE of the mean {self.error(pairs, 0):.3f} and "
                      f"{self.error(pairs, 1):.3f}, ", said)
        for second, other in zip((second for _, second in pairs), with_lists):
            for item, response in zip(*second):
                self.assertEqual(response, other.get(item, response))
        self.assertTrue(any(item in other for (_, second), other in zip(pairs, with_lists) for item in second[0]))

    def error(self, pairs, place):
        """The RMSE of the posterior means over the seven points of the grid, from thousandths of logarithms."""
        run, scaling = json.loads(self.read("run.run.json")), json.loads(self.read("e.map.json"))["D"]
        points, squares = range(-3, 4), []
        for examinee, pair in zip(run["retakers"], pairs):
            weights = [math.exp(-point ** 2 / 2) for point in points]
            for item, response in zip(*pair[place]):
                chances = [1 / (1 + math.exp(-scaling * 1.2 * (point - (item - 3) / 2))) for point in points]
                weights = [weight * math.exp(round(1000 * math.log(chance if response else 1 - chance)) / 1000)
                           for weight, chance in zip(weights, chances)]
            mean = sum(weight * point for weight, point in zip(weights, points)) / sum(weights)
            squares.append((mean - run["true"][examinee]) ** 2)
        return math.sqrt(sum(squares) / len(squares))

    def test_who_sits_twice(self):
        few, many = simulation.retakers_of(10, 0.3, 5), simulation.retakers_of(10, 0.6, 5)
        self.assertEqual((len(few), len(many), set(few) <= set(many), many == sorted(many)), (3, 6, True, True))
        self.assertEqual((simulation.retakers_of(7, 0, 5), len(simulation.retakers_of(7, 0.01, 5))), ([], 1))
        self.assertEqual(simulation.retakers_of(3, 1, 5), [0, 1, 2])

    def test_with_a_rate_and_tails(self):
        """Both go on with the journal of the sample, and the tails without the second sittings."""
        self.tool("irt_bank", "--items", "items", "--attributes", "attributes", "--constraints", "constraints", "--out", "e", "--grid", "-3", "3",
                  "7", "--rate", "2", "3", "--key", "07" * 32)
        self.simulate("--tails", "-2", "--each", "1", "--group", "3")
        tails = self.sessions("run.tails.journal")
        status, said, errors = self.simulate("--tails", "-2", "--each", "1", "--group", "3", "--retakers", "0.5")
        self.assert_without(status, said, errors)
        self.assertEqual(self.sessions("run.tails.journal"), tails)
        self.assertEqual([booking for booking, _, _ in self.sessions("run.second.journal")], [0, 1, 2, 3, 5, 6])

    def test_a_list_that_is_forgotten(self):
        for through in ("replay", "serve"):
            with self.subTest(through):
                status, _, errors = self.simulate("--retakers", "0.5", "--through", through, "--clients", "1", fake="list")
                self.assertEqual((status, errors), (1, "session 4: the journal's list is not that of booking 4\n"))

    @needs_program
    def test_the_program(self):
        self.assert_without(*self.simulate("--retakers", "0.5", program=PROGRAM))
        by_replay = self.sessions("run.second.journal")
        status, said, _ = self.tool("audit", "e.bank.csv", "e.plan.txt", "run.second.journal")
        self.assertEqual((status, said.splitlines()[0].split()[:10]), (0, "entries 54 sessions 6 finished 6 proved 24 unproved 0".split()))
        self.assert_without(*self.simulate("--retakers", "0.5", "--through", "serve", "--clients", "2", program=PROGRAM))
        self.assertEqual(self.sessions("run.second.journal"), by_replay)


@needs_numpy
class RetakersWithoutForm(ExaminationWithRetakers):
    """Three items of a test have an odd number, of four in the bank: a second test without them lacks two."""
    evens = 1

    def assert_refused(self, program=None):
        for through in ("replay", "serve"):
            status, said, errors = self.simulate("--retakers", "0.5", "--through", through, program=program)
            self.assertEqual(status, 0, errors)
            self.assertTrue(said.endswith("second sittings 2, without the items of the first: 0 begun, 2 refused no-form, 0 refused none-found\n"))
            self.assertEqual([second for _, second in self.both()], [None, None])
            self.assertEqual(json.loads(self.read("run.run.json"))["refused"], {"4": "no-form", "5": "no-form"})

    def test_each_is_refused(self):
        self.assert_refused()

    @needs_program
    def test_the_program(self):
        self.assert_refused(program=PROGRAM)


class ExaminationWithBands(Examination):
    """The same examination with a rate and three bands, whose points are -3 to -1, 0, and 1 to 3."""

    def setUp(self):
        super().setUp()
        status, _, errors = self.tool("irt_bank", "--items", "items", "--attributes", "attributes", "--constraints", "constraints", "--out",
                                      "e", "--grid", "-3", "3", "7", "--rate", "2", "3", "--key", "07" * 32, "--program", self.fake)
        self.assertEqual(status, 0, errors)
        self.write("e.plan.txt", self.read("e.plan.txt") + "bands 3 4\n")
        found = json.loads(self.read("e.map.json"))
        found["sha256"]["plan"] = hashlib.sha256(self.read("e.plan.txt").encode()).hexdigest()
        self.write("e.map.json", json.dumps(found))


@needs_numpy
class Bands(ExaminationWithBands):
    def lines(self, said):
        """By band the visits, the greatest rate of them, and how many items are above the rate and never eligible."""
        return [line.split(": ")[1] for line in said.splitlines() if line.startswith("band ")]

    def test_the_line_of_each_band(self):
        """Counted from the sessions: the estimate at each step is the mode of the answers before it."""
        status, said, errors = self.simulate("--examinees", "12", "--group", "3")
        self.assertEqual(status, 0, errors)
        examination = simulation.load(self.path("e"))
        visits, shown = [0, 0, 0], [[0] * 8 for _ in range(3)]
        for _, items, responses in self.sessions():
            sums = simulation.grid_sums(examination, items, responses)
            bands = [int(point >= 3) + int(point >= 4) for point in sums.argmax(1)[:4]]
            for band in set(bands):
                visits[band] += 1
            for band, item in zip(bands, items):
                shown[band][item] += 1
        found = self.lines(said)
        self.assertEqual([int(line.split(",")[0].split()[1]) for line in found], visits)
        self.assertEqual(visits[1], 12)
        for line, number, counts in zip(found, visits, shown):
            rates = [count / number if number else 0 for count in counts]
            self.assertIn(f"greatest rate of the visits {max(rates):.3f} (I{rates.index(max(rates))}), above the rate {sum(r > 2 / 3 for r in rates)}, ", line)
        self.assertEqual([line.split(":")[0] for line in said.splitlines()[1:]], ["band 0, -3 to -1", "band 1, 0 to 0", "band 2, 1 to 3"])

    def test_equal_numbers_at_the_middle_of_each_band(self):
        status, _, errors = self.simulate("--examinees", "6", "--true", "bands")
        self.assertEqual(status, 0, errors)
        true = json.loads(self.read("run.run.json"))["true"]
        self.assertEqual(true, [true[0], 0, -true[0]] * 2)
        self.assertTrue(-1.5 < true[0] < -1)
        self.assertFalse(os.path.exists(self.path("run.tails.journal")))

    def test_bands_that_are_watched(self):
        status, said, errors = self.simulate("--watch", "1")
        self.assertEqual((status, [line.split(":")[0] for line in said.splitlines()[1:]]), (0, ["band 0, -3 to -3", "band 1, -2 to 3"]), errors)
        for points in (["0"], ["2", "2"], ["7"]):
            status, _, errors = self.simulate("--watch", *points)
            self.assertEqual((status, errors), (1, "--watch: the points of bands ascend from 1 to 6, and are at most 7\n"))

    def test_a_count_that_is_wrong(self):
        status, _, errors = self.simulate(fake="count")
        self.assertEqual((status, "item 0: shown " in errors), (1, True), errors)

    @needs_program
    def test_the_program(self):
        status, said, errors = self.simulate("--examinees", "12", "--group", "3", program=PROGRAM)
        self.assertEqual((status, len(self.lines(said))), (0, 3), errors)


@needs_numpy
class Refusals(Examination):
    def test_before_anything_is_simulated(self):
        """Each is one line that names what is wrong, or the usage with such a line, and leaves no file."""
        for words, status, said in (
                (["--out", "nowhere/run"], 1, "nowhere is no folder"), (["--program", "/bin/true"], 1, "/bin/true: shadowd check, status 0"),
                (["--program", "/bin/echo"], 1, "/bin/echo: shadowd check, status 0"), (["--program", "none"], 1, "none: No such file"),
                (["--seed", "-1"], 2, "--seed: '-1' is not a whole number from 0"), (["--seed", "1_0"], 2, "--seed: '1_0'"),
                (["--true", "normal", "nan", "1"], 1, "--true normal nan 1"), (["--true", "uniform", "1", "0"], 1, "--true uniform 1 0"),
                (["--group", "0"], 2, "--group: '0'"), (["--clients", "17"], 2, "--clients: '17'"), (["--examinees", "65537"], 2, "--examinees"),
                (["--rules", "none"], 1, "none: No such file"), (["--retakers", "1.5"], 2, "--retakers: 1.5 is not from 0 to 1"),
                (["--retakers", "nan"], 2, "--retakers: 'nan'"), (["--no-lists"], 1, "--no-lists is for second sittings"),
                (["--examinees", "65536", "--retakers", "0.1"], 1, "6554 second sittings are more than 65536")):
            with self.subTest(words):
                found, _, errors = self.simulate(*words)
                self.assertEqual((found, said in errors.splitlines()[-1]), (status, True), errors)
                self.assertFalse(os.path.exists(self.path("run.journal")))

    def test_tails_that_are_none(self):
        for words, said in ((["9"], "--tails 9"), (["nan"], "--tails nan"), (["0", "--examinees", "65536"], "more than 65536")):
            with self.subTest(words):
                status, _, errors = self.tool("simulate", "e", "--out", "run", "--program", self.fake, "--tails", *words)
                self.assertEqual((status, errors.count("\n"), said in errors), (1, 1, True), errors)

    def test_a_bank_or_plan_of_another_map(self):
        for name in ("e.bank.csv", "e.plan.txt"):
            text = self.read(name)
            self.write(name, text.replace("1", "2", 1))
            status, _, errors = self.simulate()
            self.assertEqual((status, f"{name}: not the" in errors, "SHA-256" in errors), (1, True, True), errors)
            self.write(name, text)

    def test_a_map_that_is_none(self):
        found = json.loads(self.read("e.map.json"))
        first = found["items"][0]
        for change in ({"prior": ["0", "0"]}, {"prior": ["+", "1"]}, {"passages": None}, {"quantities": [1]}, {"D": 0}, {"theta": [0, 1]},
                       {"items": [dict(first, model="5PL")] + found["items"][1:]}, {"items": [dict(first, parameters=[0, 1])] + found["items"][1:]},
                       {"items": [dict(first, model="GR", parameters=[1, 0, 1])] + found["items"][1:]}):
            with self.subTest(change):
                self.write("e.map.json", json.dumps(dict(found, **change)))
                status, _, errors = self.simulate()
                self.assertEqual((status, errors.count("\n"), "e.map.json" in errors), (1, 1, True), errors)

    def test_a_run_that_is_none(self):
        self.simulate()
        run = json.loads(self.read("run.run.json"))
        for text in ("", "[]", "{}", json.dumps(dict(run, true=["x"])), json.dumps(dict(run, examinees=0)), json.dumps(dict(run, tails=[1])),
                     json.dumps(dict(run, retakers=[4])), json.dumps(dict(run, retakers=[1, 0])), json.dumps(dict(run, refused={"4": "no-form"})),
                     json.dumps(dict(run, seconds=[])), json.dumps(dict(run, seconds=[[0, 1]])), json.dumps(dict(run, of=[1])),
                     json.dumps({name: value for name, value in run.items() if name != "sha256"})):
            with self.subTest(text[:40]), self.assertRaises(Refused):
                simulation.read_run(self.write("other", text))


if __name__ == "__main__":
    unittest.main()
