"""Why a plan has no form, or no series, beside all sets of items; and the gap of an unproved form."""
import io
import itertools
import os
import random
import re
import subprocess
import sys
import unittest

import check_series
import check_tree
import data_of_bank_a as a
from common import PROGRAM, TOOLS, Folder, needs_numpy, needs_program
from examination import BankItem, plan_of
from explain import Program, clash, greatest_bound, irreducible, print_clash, rows_of, used_by_series, without
from shadowtools.agency.clash_distance import distance
from shadowtools.agency.program import alike
from shadowtools.command import Refused

# A program that has `assemble` and `series` alone: it tries all sets of items. Its tree of no series names nothing.
BY_ALL_SETS = """import sys
sys.path.insert(0, %r)
import check_tree
bank = check_tree.read_bank(sys.argv[2])
plan = check_tree.read_plan(sys.argv[3], bank)
problem = check_tree.Problem(bank, plan, 0, frozenset(), frozenset(), None)
if sys.argv[1] == "series":
    import check_series
    of = check_series.Problem(bank, plan, *check_series.numbers_of(sys.argv[5], sys.argv[4], bank))
    best = check_series.best_value(of)
    print("no series 0005" if best is None else f"series {of.count} value {best} proved nodes 1")
    sys.exit(17 if best is None else 0)
best = check_tree.best_of_all(problem)
if best is None:
    print("no form 0006")
    sys.exit(11)
print("form", *sorted(best))
print("objective", check_tree.objective(problem, best), "proved nodes 1")
print("tree 0006")
"""
CLASHES = [
    ("count 2 3 0-1\ncount 2 3 2-3\ncount 1 1 4\ncount 0 3 5\n", ["count 2 3 0-1", "count 2 3 2-3"]),
    ("count 0 1 0-2\ncount 0 1 3-5\nenemies 0 5\n", ["count 0 1 0-2", "count 0 1 3-5"]),
    ("count 1 2 0\ncount 1 2 1\nenemies 0-1\ncount 0 9 0-5\n", ["count 1 2 0", "count 1 2 1", "enemies 0-1"]),
    ("count 3 3 5\ncount 1 1 0-1\n", ["count 3 3 5"]),
]
# Numbers of forms of two items of the same six, rules, those that can't be met together, and what a count shows of them.
TIMES = "{0} forms have {0} times the length and {0} times the bounds of one. "
SERIES_CLASHES = [
    (3, "count 1 2 0-1\ncount 0 2 3-5\n", ["count 1 2 0-1"], TIMES.format(3) + "The set of line 3 has 2 items, its low bound is 3."),
    (3, "count 0 1 0-3\ncount 0 2 4-5\n", ["count 0 1 0-3"],
     TIMES.format(3) + "Only 2 items are outside of the set of line 3: a test of 6 has at least 4 of it, its high bound is 3."),
    (2, "count 1 2 0-1\ncount 1 2 2-3\ncount 0 1 0-3\n", ["count 1 2 0-1", "count 1 2 2-3", "count 0 1 0-3"],
     "The low bounds of lines 3 and 4 ask for at least 2 items of the set of line 5, whose high bound is 1."),
    (4, "count 0 2 0-1\n", [], "The bank has 6 items, 4 forms of 2 items have 8."),
    (2, "count 1 1 0-2\nenemies 0 3\nenemies 0 4\nenemies 0 5\ncount 1 2 0\n", ["count 1 2 0"],
     TIMES.format(2) + "The set of line 7 has 1 items, its low bound is 2."),
]


class RowsOfTheTable(unittest.TestCase):
    """A row on the items of each passage is one rule, of however many lines."""
    TEXT = "length 18\nprior 0\n# row 0: p: Number Stimulus\nstimuli 2 4\n# each: Number Item Per Stimulus\n" + "".join(
        f"stimulus {k} 2 2\n" for k in range(1, 25)) + "# row 1: c: Number Item K == x\ncount 0 9 0-8\n"

    def printed(self, has_none):
        """What is printed of the rows that stay, where a plan `has_none`; the number of rules that stay and of rows in all."""
        kept, of = irreducible(self.TEXT, lambda rules, passages: list(rules), has_none)
        out = io.StringIO()
        print_clash(kept, of, 18, [BankItem(0, [], [], [])] * 20, out)
        return out.getvalue().splitlines(), len(kept), of

    def test_all_passages(self):
        said, kept, of = self.printed(lambda plan: "stimuli" in plan and plan.count("stimulus ") == 24)
        self.assertEqual((kept, of), (25, 3))
        self.assertEqual(said[:3], ["These 2 of 3 rules cannot be met together in a test of 18 items:", "  line 4: stimuli 2 4   row 0: p: Number Stimulus",
                                    "  lines 6 to 29: stimulus 1 2 2 and 23 more, 24 passages   each: Number Item Per Stimulus"])

    def test_one_passage(self):
        said, kept, of = self.printed(lambda plan: "stimuli" in plan and "stimulus 7 " in plan)
        self.assertEqual((kept, of), (2, 3))
        self.assertEqual(said[2], "  line 12: stimulus 7 2 2   each: Number Item Per Stimulus, passage 7")
        said, kept, of = self.printed(lambda plan: "stimulus 7 " in plan and "stimulus 20 " in plan)
        self.assertEqual((said[:2], kept, of), (["One of 3 rules cannot be met in a test of 18 items:",
                                                 "  lines 12 to 25: stimulus 7 2 2 and 1 more, 2 passages   each: Number Item Per Stimulus"], 2, 3))

    def test_lines_without_a_remark(self):
        rules = plan_of("stimulus 1 2 2\nstimulus 2 2 2\n# a\nstimulus 3 1 2\n# b\nstimulus 4 1 2\nstimulus 5 1 2\n").rules
        self.assertEqual([[rule.number for rule in row] for row in rows_of(rules)], [[1], [2], [3], [4, 5]])


@needs_numpy
@needs_program
class PassagesOfATable(Folder):
    """Of 24 passages two to four are in a test, with two items each, and 8 items are in no passage: a test has 16 items at most."""

    def plan(self, length):
        names = [(f"I{passage:02}{k}", f"P{passage:02}") for passage in range(24) for k in range(4)] + [(f"S{k}", "") for k in range(8)]
        self.write("i", "ID,MODEL,PAR1,PAR2\n" + "".join(f"{name},2PL,{1 + k % 5 / 10:g},{k * 0.04 - 2:g}\n" for k, (name, _) in enumerate(names)))
        self.write("a", "ID,STID\n" + "".join(f"{name},{passage}\n" for name, passage in names))
        self.write("c", f"CONSTRAINT,TYPE,WHAT,CONDITION,LB,UB\nlength,Number,Item,,{length},{length}\npassages,Number,Stimulus,,2,4\n"
                        "each,Number,Item,Per Stimulus,2,2\n")
        return self.tool("irt_bank", "--items", "i", "--attributes", "a", "--constraints", "c", "--out", "o", "--program", PROGRAM)

    def test_two_rows_are_two_rules(self):
        status, _, errors = self.plan(18)
        self.assertEqual(status, 11)
        self.assertIn("These 2 of 2 rules cannot be met together in a test of 18 items:\n", errors)
        self.assertRegex(errors, r"  line \d+: stimuli 2 4   row \d: passages: Number Stimulus\n"
                                 r"  lines \d+ to \d+: stimulus 1 2 2 and 23 more, 24 passages   each: Number Item Per Stimulus\n")
        self.assertFalse("25 of 25" in errors)

    def test_a_length_that_they_have(self):
        self.assertEqual(self.plan(16)[0], 0)


class Clash(Folder):
    def setUp(self):
        super().setUp()
        self.write("bank", a.BANK)
        path = self.write("all_sets", f"#!{sys.executable}\n" + BY_ALL_SETS % TOOLS)
        os.chmod(path, 0o755)

    def explained(self, program):
        for rules, wanted in CLASHES:
            with self.subTest(rules):
                text = "length 3\nprior -10 0 -10\n" + rules
                status, said = program.assemble(text)
                self.assertEqual(status, 11)
                kept, of = clash(program, text, said.split()[-1])
                self.assertEqual([rule.text for rule in kept], wanted)
                self.assertEqual(of, rules.count("\n"))
                self.irreducible(program, text, kept)

    def irreducible(self, program, text, kept):
        rules = plan_of(text).rules
        self.assertEqual(program.assemble(without(text, rules, kept))[0], 11)
        for rule in kept:
            fewer = [one for one in kept if one is not rule]
            self.assertEqual(program.assemble(without(text, rules, fewer))[0], 0)

    def test_beside_all_sets(self):
        self.explained(Program(self.path("all_sets"), self.path("bank")))

    @needs_program
    def test_with_the_program(self):
        self.explained(Program(PROGRAM, self.path("bank")))

    @needs_program
    def test_the_trees_are_sound(self):
        """The tree of a clash is a proof by the checker in Python."""
        self.write("plan", "length 3\nprior -10 0 -10\n" + CLASHES[2][0])
        said = subprocess.run([PROGRAM, "assemble", self.path("bank"), self.path("plan")], capture_output=True, text=True)
        tree = said.stdout.split()[-1]
        checked = subprocess.run([sys.executable, os.path.join(TOOLS, "check_tree.py"), self.path("bank"), self.path("plan"),
                                  tree, "--brute"], capture_output=True, text=True)
        self.assertEqual(checked.stdout, "NoForm\nbest none\n")

    def test_the_tool(self):
        self.write("plan", "length 3\nprior -10 0 -10\n# row 0: algebra\ncount 2 3 0-1\n# row 1: geometry\ncount 2 3 2-3\n")
        status, said, errors = self.tool("explain", "bank", "plan", "--program", self.path("all_sets"))
        self.assertEqual(status, 11, errors)
        self.assertIn("These 2 of 2 rules cannot be met together in a test of 3 items:\n"
                      "  line 4: count 2 3 0-1   row 0: algebra\n  line 6: count 2 3 2-3   row 1: geometry\n", said)
        self.write("plan", a.PLAN)
        status, said, _ = self.tool("explain", "bank", "plan", "--program", self.path("all_sets"))
        self.assertEqual((status, said[:24]), (0, "This form is proved best"))

    def test_no_series(self):
        """By all sets: what is kept has no series, and has one without any rule of it."""
        self.series_explained(self.path("all_sets"))

    @needs_program
    def test_no_series_with_the_program(self):
        self.series_explained(PROGRAM)

    def series_explained(self, path):
        program = Program(path, self.path("bank"))
        for count, rules, wanted, far in SERIES_CLASHES:
            with self.subTest(rules):
                text = "length 2\nprior -10 0 -10\n" + rules
                self.write("plan", text)
                status, said, errors = self.tool("explain", "bank", "plan", "--series", str(count), "--program", path)
                self.assertEqual((status, errors), (17, ""))
                self.assertEqual(re.findall(r"(?m)^  line \d+: (.*)$", said), wanted)
                self.assertIn(far + "\n", said)
                kept = [rule for rule in plan_of(text).rules if rule.text in wanted]
                for fewer in itertools.combinations(kept, len(kept) - 1) if kept else ():
                    self.assertEqual(program.series(without(text, plan_of(text).rules, fewer), count)[0], 0)

    def test_a_series_that_is_there(self):
        self.write("plan", "length 2\nprior -10 0 -10\ncount 1 2 0-2\n")
        status, said, _ = self.tool("explain", "bank", "plan", "--series", "3", "--program", self.path("all_sets"))
        self.assertEqual((status, said[:49]), (0, "The plan has 3 forms without common items. shadow"))
        self.assertEqual(self.tool("explain", "bank", "plan", "--series", "5")[0], 2)

    def test_the_bank_of_equal_items(self):
        """It has the grid and all else of the bank, and the information 1,000."""
        text, points = alike(a.BANK)
        self.assertEqual((text.splitlines()[:2], points), ([a.BANK.splitlines()[0], "0,0,2,1000,1000,1000,-7,-7,-7,-7,-7,-7"], 3))

    def test_rules_that_a_series_tree_names(self):
        """A ray of two forms names the sides 3 and 4 of rows, in the second form 9, and the length; a count names the fourth row; a bound names none."""
        rules = plan_of("count 0 1 0\ncount 0 1 1\nstimulus 1 1 2\ncount 0 1 2\ncount 0 1 3\ncount 0 1 4\n").rules
        first, second = check_series.ROWS, check_series.ROWS + 384
        vectors = [{0: 5, first: 1}, {first + 3: 1, first + 4: 2, second + 9: 1, check_series.LENGTHS: 3}]
        nodes = [(check_series.USE, 0), (check_series.RAY, 1), (check_series.TWIN, 0, 1), (check_series.BOUND, 0), (check_series.COUNT, 1, 4)]
        tree = check_series.write_tree(vectors, nodes).hex()
        self.assertEqual([rule.line for rule in used_by_series(tree, rules, False)], [2, 4, 5, 6])
        self.assertEqual([rule.line for rule in used_by_series(tree, rules, True)], [2, 3, 4, 5, 6])
        with self.assertRaises(Refused):
            used_by_series("00", rules, False)

    def test_a_program_that_is_not_there(self):
        self.write("plan", a.PLAN)
        status, _, errors = self.tool("explain", "bank", "plan", "--program", "nowhere")
        self.assertEqual((status, "nowhere" in errors), (1, True))

    @needs_program
    def test_a_refused_plan(self):
        self.write("plan", "length 7\nprior 0 0 0\n")
        status, _, errors = self.tool("explain", "bank", "plan", "--program", PROGRAM)
        self.assertEqual((status, errors), (1, "shadowd assemble, status 4: plan: length\n"))


BANK_OF_SEVEN = [BankItem(passage, [words], [], []) for passage, words in ((0, 10), (0, 20), (1, 30), (1, 40), (2, 50), (2, 60), (2, 70))]
# Rules of a test of four of these items, and how far they are from a form, worked out by hand.
FAR = [
    ("count 2 4 0-1\ncount 3 4 2-4\n", "The low bounds add up to 5, the length is 4."),
    ("count 0 1 0-2\ncount 0 1 3-5\n", "The high bounds of lines 1 and 2 add up to 2, and 1 items are in none of these sets: 3 items at most; the length is 4."),
    ("enemies 0-2\ncount 0 2 3-6\n", "The high bounds of lines 1 and 2 add up to 3; the length is 4."),
    ("count 1 1 0\ncount 1 1 1\nenemies 0-1\n", "The low bounds of lines 1 and 2 ask for at least 2 items of the set of line 3, whose high bound is 1."),
    ("count 3 4 2-6\ncount 0 1 2-4\ncount 0 1 5-6\n", "The high bounds of lines 2 and 3 add up to 2; the low bound of line 1 is 3."),
    ("count 3 4 0-1\n", "The set of line 1 has 2 items, its low bound is 3."),
    ("count 0 1 0-4\n", "Only 2 items are outside of the set of line 1: a test of 4 has at least 2 of it, its high bound is 1."),
    ("quantity 0 0 99 0-6\n", "A test has at least 100 in the sum of line 1, whose high bound is 99."),
    ("quantity 0 221 999 0-6\n", "A test has at most 220 in the sum of line 1, whose low bound is 221."),
    ("quantity 0 101 999 0-3\ncount 0 4 0-3\n", "A test has at most 100 in the sum of line 1, whose low bound is 101."),
    ("stimuli 3 3\n", "The bank has 2 passages, the low bound of line 1 is 3."),
    ("stimuli 2 2\nstimulus 1 2 2\nstimulus 2 3 3\n", "2 passages have at least 5 items, the length is 4."),
    ("stimuli 0 1\nstimulus 1 1 1\nstimulus 2 1 1\n", "1 passages and the 2 items without one are at most 3 items, the length is 4."),
    ("count 2 2 0-1\nquantity 0 100 999 0-6\n", None),
]


class Distance(unittest.TestCase):
    def test_sentences_worked_out_by_hand(self):
        for text, wanted in FAR:
            with self.subTest(text):
                self.assertEqual(distance(plan_of(text).rules, BANK_OF_SEVEN, 4), wanted)

    def test_beside_all_sets(self):
        """Of 3,000 drawn plans, one with a sentence has no form; a sum's sentence has the least or greatest sum of all tests."""
        rng, said = random.Random(8), 0
        for _ in range(3000):
            length = rng.randint(1, 6)
            rules = plan_of("".join(self.rule(rng) for _ in range(rng.randint(1, 4)))).rules
            found = distance(rules, BANK_OF_SEVEN, length)
            if not found:
                continue
            said += 1
            tests = list(itertools.combinations(range(7), length))
            self.assertFalse([one for one in tests if all(rule.met(one, BANK_OF_SEVEN) for rule in rules)], (found, rules))
            if "in the sum of line" in found:
                rule = rules[int(re.search(r"line (\d)", found).group(1)) - 1]
                values = [rule.value(one, BANK_OF_SEVEN) for one in tests]
                self.assertEqual(int(re.search(r"at \w+ (\d+)", found).group(1)), min(values) if "least" in found else max(values))
        self.assertGreater(said, 500)

    def test_series_beside_all_sets(self):
        """Of 1,500 drawn plans and numbers of forms, one with a sentence has no such forms without common items."""
        rng, said = random.Random(18), [0] * 5
        for _ in range(1500):
            length, forms = rng.randint(1, 3), rng.randint(2, 4)
            rules = plan_of("".join(self.rule(rng) for _ in range(rng.randint(1, 3)))).rules
            if not distance(rules, BANK_OF_SEVEN, length, forms) or distance(rules, BANK_OF_SEVEN, length):
                continue
            said[forms] += forms * length <= 7
            tests = [one for one in itertools.combinations(range(7), length) if all(rule.met(one, BANK_OF_SEVEN) for rule in rules)]
            found = [some for some in itertools.combinations(tests, forms) if len(set().union(*some)) == forms * length]
            self.assertFalse(found, (distance(rules, BANK_OF_SEVEN, length, forms), rules))
        self.assertGreater(min(said[2:]), 20)

    def rule(self, rng):
        items = " ".join(map(str, sorted(rng.sample(range(7), rng.randint(1, 5)))))
        low = rng.randint(0, 3)
        high = low + rng.randint(0, 2)
        return rng.choice((f"count {low} {high} {items}\n", f"count {low} {high} {items}\n", f"enemies {items}\n",
                           f"quantity 0 {40 * low} {40 * high + 20} {items}\n", f"stimuli {low} {high}\n",
                           f"stimulus {rng.randint(1, 2)} {max(1, low)} {max(1, high)}\n"))


class Gap(unittest.TestCase):
    def test_the_bound_holds(self):
        """On small random problems no form informs more than the greatest bound of open leaves, at any depth."""
        rng, tried = random.Random(5), 0
        while tried < 60:
            problem = check_tree.any_problem(rng)
            best = check_tree.best_of_all(problem)
            if best is None:
                continue
            tried += 1
            vectors, depth = check_tree.any_vectors(rng, problem), rng.randint(0, 2)
            nodes = open_tree(problem, check_tree.root(problem), depth)
            bound = greatest_bound(problem, vectors, nodes)
            self.assertGreaterEqual(bound, check_tree.objective(problem, best))

    def test_without_rules_the_bound_is_the_best(self):
        items = [check_tree.Item(0, [], [info]) for info in (5, 9, 2, 7)]
        problem = check_tree.Problem(check_tree.Bank(items, 1, 0), check_tree.Plan(2, [0], [], []), 0, frozenset(), frozenset(), None)
        self.assertEqual(greatest_bound(problem, [], [(check_tree.OPEN, None)]), 16)
        row = check_tree.Row("count", 0, 9, frozenset(range(4)), None)
        worse = problem._replace(plan=problem.plan._replace(rows=[row]))
        self.assertEqual(greatest_bound(worse, [{0: 5000}], [(check_tree.OPEN, None)]), 16)
        self.assertIsNone(greatest_bound(problem, [], [(check_tree.WHOLE, None)]))


def open_tree(problem, path, depth):
    """A tree in which every leaf is open."""
    if depth == 0 or not path.free:
        return [(check_tree.OPEN, None)]
    item = min(path.free)
    left, right = check_tree.below(problem, path, check_tree.ITEM, item)
    return [(check_tree.ITEM, item)] + open_tree(problem, left, depth - 1) + open_tree(problem, right, depth - 1)


if __name__ == "__main__":
    unittest.main()
