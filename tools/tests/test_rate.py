"""The rate finder: its search on figures that were measured, its counts by hand, and its way through the program."""
import csv
import os
import re
import tempfile
import unittest
from collections import Counter
from types import SimpleNamespace
from unittest import mock

from common import PROGRAM, ROOT, Folder, needs_numpy, needs_page, needs_program
from shadowtools.command import Refused
from shadowtools.formats.examination import Session, read_bank, read_journal, read_plan, sessions_of
from shadowtools.needs import is_there
from test_simulate import Examination

if is_there("numpy"):
    import numpy as np

    from shadowtools.agency import rate
    from shadowtools.agency.drivers import Progress, Replay, Server, Sittings, by_replay, by_turns

# Measured with two bands: by rate (thousandths) the greatest exposure in all and at an ability, and the share of tests set aside.
MEASURED = {900: (0.98, 1.0, 0), 333: (0.573, 0.9, 0), 250: (0.455, 0.76, 0), 200: (0.406, 0.62, 0), 167: (0.346, 0.56, 0), 125: (0.327, 0.385, 0.143),
            100: (0.408, 0.45, 0.285)}


class Tabled:
    """Runs of the table: a rate has the numbers of the nearest one."""

    def __init__(self, second=0.0):
        self.runs, self.second = [], second

    def run(self, thousandths, seed):
        self.runs.append((thousandths, seed))
        in_all, there, aside = MEASURED[min(MEASURED, key=lambda one: abs(one - thousandths))]
        more = self.second if seed > 1 else 0.0
        return rate.Run(thousandths, 1.6, in_all + more, "A", there, "B", 0.0, aside, 5000)


def searched(tabled, in_all, there):
    """The rate that is found, or none."""
    wish = rate.Wish(in_all, there)
    for found, second in rate.search(tabled, wish, 1):
        if second and second.meets(wish, 2):
            return found.rate
    return None


@needs_numpy
class Search(unittest.TestCase):
    def test_it_begins_with_the_wish_over_the_visits(self):
        """0.42 / (1.15 x 1.6) is 0.228, of which the exposure in all is 0.455; a tenth less has 0.406."""
        tabled = Tabled()
        self.assertEqual(searched(tabled, 0.42, 0.7), 205)
        self.assertEqual(tabled.runs, [(900, 1), (228, 1), (205, 1), (205, 2)])

    def test_both_wishes_count(self):
        tabled = Tabled()
        found = searched(tabled, 0.42, 0.57)
        self.assertEqual(MEASURED[min(MEASURED, key=lambda one: abs(one - found))][1], 0.56)

    def test_it_ends_where_eligibility_is_set_aside(self):
        """0.33 in all needs a rate at which 14 in 100 tests set eligibility aside; below it exposure rises again, and nothing is tried."""
        tabled = Tabled()
        self.assertEqual(searched(tabled, 0.33, 0.38), None)
        self.assertEqual(min(tabled.runs)[0], 144)

    def test_the_second_seed_decides(self):
        """A rate that is good by one seed alone is passed over; two standard errors of 5,000 tests are 0.014."""
        tabled = Tabled(second=0.013)
        self.assertEqual(searched(tabled, 0.406, 0.7), 221)
        tabled = Tabled(second=0.02)
        self.assertIn(searched(tabled, 0.406, 0.7), range(146, 184))

    def test_errors(self):
        """A share of 0.25 of 1,000 tests has the standard error 0.014."""
        run = rate.Run(100, 1.0, 0.25, "A", 0.25, "B", 0.0, 0.0, 5000)
        self.assertAlmostEqual(run.error(0.25, 5), 0.01369, 4)
        self.assertAlmostEqual(run.error(0.25), 0.00612, 4)


@needs_numpy
class Runs(Examination):
    def study(self, program, examinees=3, points=(3,), group=2):
        given = SimpleNamespace(program=program, examinees=examinees, group=group)
        return rate.Study(given, rate.load(self.path("e")), points)

    def test_counts_by_hand(self):
        """Visits from the log-likelihoods of the bank, exposure by counting."""
        study = self.study(self.fake)
        bank, plan = read_bank(self.path("e.bank.csv")), read_plan(self.path("e.plan.txt"))
        sessions, visits = [], 0
        for booking, (items, responses) in enumerate([([2, 3, 1, 5], [1, 1, 1, 1]), ([2, 1, 3, 5], [0, 0, 1, 0]), ([2, 3, 5, 7], [1, 0, 1, 1]),
                                                      ([4, 3, 5, 1], [0, 1, 0, 0]), ([2, 3, 5, 7], [0, 0, 0, 0])]):
            sums, bands = list(plan.prior), set()
            for item, response in zip(items, responses):
                bands.add(int(sums.index(max(sums)) >= 3))
                sums = [one + other for one, other in zip(sums, bank[item].logs[response])]
            visits += len(bands)
            sessions.append(Session(booking=booking, items=items, responses=responses, aside=[1] if booking == 2 else []))
        found = study.counted(200, sessions, np.array([0, 1, 2, 3, 4]))
        self.assertEqual((found.visits, found.in_all, found.item, found.aside), (visits / 5, 1.0, "I3", 0.2))
        self.assertEqual((found.at_ability, found.tests), (1.0, 5))
        with self.assertRaises(Refused):
            study.counted(200, sessions[:4], np.array([0, 1, 2, 3, 4]))

    def test_the_plan_of_a_run(self):
        text = rate.plan_with("length 4\nrate 1 2\nkey 00\nbands 2\n# row 0\ncount 1 1 0\n", 167, [3, 5], "ab")
        self.assertEqual(text, "length 4\n# row 0\ncount 1 1 0\nrate 167 1000\nkey ab\nbands 3 5\n")

    def same_journal(self, program):
        """Both ways take six examinees through, two at a time, in the same order: the sessions are the same."""
        study = self.study(program)
        responses = {k: [(k + item) % 2 for item in range(8)] for k in range(6)}
        with open(self.path("plan"), "w", encoding="utf-8") as file:
            file.write(rate.plan_with(study.plan, 500, [3], "07" * 32))
        with tempfile.TemporaryDirectory() as folder:
            by_replay(Replay(program, self.path("e.bank.csv"), self.path("plan"), self.path("one"), folder),
                      Sittings(range(6), responses), 2, Progress(24, print))
        server = Server(program, self.path("e.bank.csv"), self.path("plan"), self.path("two"), 1)
        by_turns(server, range(6), responses, 2, Progress(24, print))
        server.end()
        one, two = (sessions_of(read_journal(self.path(name))) for name in ("one", "two"))
        self.assertEqual(len(one), 6)
        self.assertEqual([(s.booking, s.items, s.responses, s.eligible) for s in one], [(s.booking, s.items, s.responses, s.eligible) for s in two])

    def test_turns_are_those_of_rounds_of_replay(self):
        self.same_journal(self.fake)

    @needs_program
    def test_turns_of_the_program(self):
        self.same_journal(os.path.abspath(PROGRAM))

    def found(self, *words, program=None):
        return self.tool("shadow", "rate", "e", "--examinees", "1", "--group", "5", "--program", program or self.fake, *words)

    def test_the_command(self):
        status, said, errors = self.found("--at-most", "1", "1")
        self.assertEqual((status, errors), (0, ""))
        self.assertRegex(said, r"^rate 900/1000 per visit: visits 1.00, greatest in all [\d.]+ \(I\d\)")
        self.assertIn("a trial with fewer than 1000 examinees at each ability: --rate 900 1000 --key", said)
        again = self.found("--at-most", "1", "1")
        self.assertEqual(again[1], said)

    def test_wishes_that_no_rate_meets(self):
        for words in (("0.4", "1"), ("1", "0.49")):
            status, said, errors = self.found("--at-most", *words)
            self.assertEqual((status, said), (1, ""))
            self.assertIn("on the average an item is shown in 4 of 8 tests, 0.500 of them; no rate has less", errors)
        worse = {one: (min(1, in_all + 0.2), min(1, there + 0.2), aside) for one, (in_all, there, aside) in MEASURED.items()}
        with mock.patch.object(rate, "Study", lambda *words: Tabled()), mock.patch.dict(MEASURED, worse):
            status, said, errors = self.found("--at-most", "0.5", "0.5")
            self.assertEqual((status, errors), (1, ""))
        self.assertIn("no rate meets at most 0.5 in all and 0.5 at an ability; the nearest is rate ", said)
        rates = [int(one) for one in re.findall(r"(?m)^rate (\d+)/1000", said)]
        self.assertEqual(rates, sorted(rates, reverse=True))


@needs_page
@needs_program
class OfFourBands(Folder):
    """One sixth of the visits of four bands is more than one sixth of the tests: no tool takes the one for the other."""
    KEY = "0123456789abcdef" * 4

    def page(self, *words):
        """The warnings of the plan, the page, and how many of 40 tests have the item that is shown most, counted from the answers."""
        status, _, warned = self.tool("irt_bank", "--items", os.path.join(ROOT, "examples", "knowledge", "items.csv"), "--length", "12", "--out", "b",
                                      "--key", self.KEY, *words)
        self.assertEqual(status, 0, warned)
        status, _, errors = self.tool("simulate", "b", "--out", "run", "--examinees", "40", "--tails", "none", "--through", "serve", "--clients", "1",
                                      "--program", PROGRAM)
        self.assertEqual(status, 0, errors)
        self.assertEqual(self.tool("report", "b", "--run", "run", "--to", "b.html")[0], 0)
        with open(self.path("b.answers.csv"), encoding="utf-8") as file:
            shown = Counter(row["item"] for row in csv.DictReader(file))
        self.assertEqual(sum(shown.values()), 40 * 12)
        return warned, self.read("b.html"), max(shown.values())

    def test_a_sixth_of_the_visits(self):
        warned, page, most = self.page("--rate", "1", "6", "--bands", "4")
        self.assertIn("the rate 1/6 is of the visits of a band, and a session visits several of 4: on average an item is shown in 12/45", warned)
        self.assertGreater(most / 40, 12 / 45)
        self.assertTrue(f"Of the tests, the greatest exposure is {most / 40:.1%} (item " in page)
        self.assertTrue("The rate is of visits: a test visits " in page)
        self.assertFalse("above the rate of 16.7%" in page)

    def test_a_third_of_the_tests(self):
        warned, page, most = self.page("--rate", "1", "3")
        self.assertFalse("the rate" in warned, warned)
        self.assertRegex(page, rf"\d+ items? (is|are) above the rate of 33.3% of the tests; the greatest exposure is {100 * most / 40:.1f}% \(item ")


if __name__ == "__main__":
    unittest.main()
