"""Series that the program prints, judged by the checker of series trees, and beside all series of small problems."""
import os
import random
import subprocess

import check_series as checker
from common import PROGRAM, ROOT, Folder, needs_program
from shadowtools.checkers import check_tree

KNOWLEDGE = os.path.join(ROOT, "examples", "knowledge", "knowledge")


def problem(rng, count):
    """A bank of few items on one to three points, a plan of one to three items, and weights."""
    items, grid, length = rng.randint(5, 10), rng.randint(1, 3), rng.randint(1, 3 if count < 3 else 2)
    lines = ["item,stimulus,categories," + ",".join(f"i{g}" for g in range(grid)) + ","
             + ",".join(f"l{r}_{g}" for r in range(2) for g in range(grid))]
    for item in range(items):
        passage = rng.choice((0, 0, 0, 1, 2)) if rng.random() < 0.4 else 0
        lines.append(f"{item},{passage},2," + ",".join(str(rng.randint(0, 20)) for _ in range(grid)) + ",-1" * (2 * grid))
    plan = [f"length {length}", "prior" + " 0" * grid]
    if rng.random() < 0.5:
        plan.append(f"count {rng.randint(0, 1)} {rng.randint(1, 2)} {rng.randint(0, items - 2)}-{items - 1}")
    if rng.random() < 0.5:
        plan.append("enemies {} {}".format(*sorted(rng.sample(range(items), 2))))
    weights = [rng.choice((0, 1, 1, 2, 5)) for _ in range(grid)]
    weights[rng.randrange(grid)] = rng.randint(1, 3)
    return "\n".join(lines) + "\n", "\n".join(plan) + "\n", ",".join(map(str, weights))


@needs_program
class Series(Folder):
    def series(self, bank, plan, count, weights):
        """Status and output."""
        done = subprocess.run([PROGRAM, "series", bank, plan, str(count), weights], stdin=subprocess.DEVNULL, capture_output=True,
                              timeout=60, check=False)
        return done.returncode, done.stdout.decode("ascii")

    def judged(self, bank, plan, count, weights, said):
        """What the checker finds: each printed line, and the best value of all series."""
        tables = check_tree.read_bank(bank)
        of = checker.Problem(tables, check_tree.read_plan(plan, tables), *checker.numbers_of(weights, str(count), tables))
        checker.printed(of, said, checker.base_budget(plan))
        return checker.best_value(of)

    def test_small_banks(self):
        """Eight problems, two for each number of forms: the value is the best one, or there is no series."""
        rng, statuses = random.Random(8), set()
        for number in range(8):
            count = 1 + number % 4
            texts = problem(rng, count)
            bank, plan = self.write("bank", texts[0]), self.write("plan", texts[1])
            status, said = self.series(bank, plan, count, texts[2])
            if status == 4:
                continue
            best = self.judged(bank, plan, count, texts[2], said)
            statuses.add(status)
            if best is None:
                self.assertEqual(status, 17, said)
            else:
                self.assertEqual((status, said.split("\n")[0].split(" ")[:5]), (0, ["series", str(count), "value", str(best), "proved"]))
        self.assertIn(0, statuses)

    def test_knowledge(self):
        """Two forms of the example, with equal weights at -1, 0 and 1: three solvers found the value too."""
        weights = ",".join({15: "1", 20: "1", 25: "1"}.get(point, "0") for point in range(41))
        files = (KNOWLEDGE + ".bank.csv", KNOWLEDGE + ".plan.txt")
        status, said = self.series(*files, 2, weights)
        self.assertEqual((status, said.split("\n")[0].split(" ")[:5]), (0, ["series", "2", "value", "1556", "proved"]))
        words = ("--printed", self.write("lines", said))
        self.assertEqual(self.tool("check_series", *files, "2", weights, *words)[:2], (0, "agreed\n"))

    def test_faulty_words(self):
        """Numbers of forms and weights that are none: the usage text."""
        for count, weights in (("0", "1"), ("5", "1"), ("01", "1"), ("2", "1001"), ("2", "0,,1"), ("2", "1,"), ("2", "01"), ("2", "+1")):
            status, said = self.series("bank", "plan", count, weights)
            self.assertEqual((status, said[:6]), (2, "usage:"), (count, weights))
