"""Bank tables and scores beside the formulas of the literature, in code that shares nothing with the tools.

The probabilities are written out from the models' papers, derivatives are central differences, and integrals, roots and
maxima are SciPy's.
"""
import csv
import io
import math
import random
import unittest

from common import Folder, needs_scipy

try:
    import numpy as np
    from scipy import integrate, optimize, stats
except ImportError:
    pass

D, STEP = 1.702, 1e-5


def birnbaum(theta, a, b, c):
    """3PL: c + (1 - c) / (1 + exp(-D a (theta - b))) (Birnbaum 1968, equation 17.3.1)."""
    right = c + (1 - c) / (1 + math.exp(-D * a * (theta - b)))
    return [1 - right, right]


def muraki(theta, a, *steps):
    """GPC: the k-th probability is proportional to exp of the sum of D a (theta - b_v), v to k (Muraki 1992)."""
    powers = [math.exp(math.fsum(D * a * (theta - b) for b in steps[:k])) for k in range(len(steps) + 1)]
    return [power / math.fsum(powers) for power in powers]


def samejima(theta, a, *bounds):
    """GR: differences of the boundary curves 1 / (1 + exp(-D a (theta - b_k))) (Samejima 1969)."""
    above = [1.0] + [1 / (1 + math.exp(-D * a * (theta - b))) for b in bounds] + [0.0]
    return [high - low for high, low in zip(above, above[1:])]


MODELS = {"3PL": birnbaum, "GPC": muraki, "GR": samejima}


def drawn(model, rng, items=16):
    """Items of a fresh bank."""
    found = []
    for _ in range(items):
        a, bs = round(rng.uniform(0.5, 1.6), 4), sorted(round(rng.uniform(-2, 2), 4) for _ in range(3))
        rng.shuffle(bs) if model == "GPC" else None
        found.append((a, bs[0], round(rng.uniform(0, 0.3), 4)) if model == "3PL" else (a, *bs))
    return found


@needs_scipy
class Literature(Folder):
    def setUp(self):
        super().setUp()
        self.banks = {}
        for seed, model in enumerate(MODELS):
            items = drawn(model, random.Random(20261129 + seed))
            text = "ID,MODEL,PAR1,PAR2,PAR3,PAR4\n" + "".join(
                f"{model}{k},{model}," + ",".join(map(str, item)) + "," * (4 - len(item)) + "\n" for k, item in enumerate(items))
            self.write(model + ".csv", text)
            status, _, errors = self.tool("irt_bank", "--items", model + ".csv", "--length", "12", "--out", model, "--scaling", str(D),
                                          "--grid", "-4", "4", "61")
            self.assertEqual(status, 0, errors)
            self.banks[model] = items

    def test_tables(self):
        """Each cell is within half a unit of 1000 times the information, and the logarithm of the probability."""
        theta, cells = np.linspace(-4, 4, 61), 0
        for model, items in self.banks.items():
            records = list(csv.reader(io.StringIO(self.read(model + ".bank.csv"))))[1:]
            for record, item in zip(records, items):
                curve, numbers = MODELS[model], list(map(int, record[3:]))
                for g, t in enumerate(theta):
                    chances = curve(t, *item)
                    slopes = [(up - down) / (2 * STEP) for up, down in zip(curve(t + STEP, *item), curve(t - STEP, *item))]
                    information = math.fsum(s * s / p for s, p in zip(slopes, chances))
                    self.assertLessEqual(abs(numbers[g] - 1000 * information), 0.5 + 1e-3, (model, item, t))
                    for k, p in enumerate(chances):
                        self.assertLessEqual(abs(numbers[61 * (k + 1) + g] - 1000 * math.log(p)), 0.5 + 1e-6, (model, item, t))
                    cells += 1 + len(chances)
        self.assertEqual(cells, 16 * 61 * (3 + 5 + 5))

    # ------------------------------------------------------------ scores

    def sessions(self, model, rng):
        """Sessions of twelve drawn items each, whose answers are drawn at an ability, as a script with its lines; the
        last two have all answers least and all greatest."""
        script, lines, found = [], [], []
        for session in range(12):
            theta, items = rng.gauss(0, 1), rng.sample(range(16), 12)
            chances = [MODELS[model](theta, *self.banks[model][k]) for k in items]
            answers = [rng.choices(range(len(one)), one)[0] for one in chances]
            if session >= 10:
                answers = [0 if session == 10 else len(one) - 1 for one in chances]
            script.append(f"begin {session}")
            for step, (item, answer) in enumerate(zip(items, answers)):
                lines.append(f"session {session} step {step} item {item} proved")
                script.append(f"answer {session} {step} {answer}")
            lines.append(f"session {session} complete")
            found.append((items, answers))
        self.write("script", "\n".join(script) + "\n")
        self.write("lines", "\n".join(lines) + "\n")
        return found

    def rows(self, model, *words):
        status, said, errors = self.tool("score", model + ".bank.csv", model + ".plan.txt", model + ".map.json", "--lines", "lines",
                                         "--script", "script", *words)
        self.assertEqual(status, 0, errors)
        return list(csv.DictReader(io.StringIO(said)))

    def likelihood(self, model, session):
        items = [self.banks[model][k] for k in session[0]]
        return lambda t: math.fsum(math.log(MODELS[model](t, *item)[k]) for item, k in zip(items, session[1]))

    def test_mean_and_deviation_of_the_posterior(self):
        """Beside adaptive quadrature over the same range, with the normal prior: the grid of 61 points costs less than 0.003,
        and 0.01 where all answers are least or greatest, so that the end of the range cuts the posterior off."""
        for model in MODELS:
            found = self.sessions(model, random.Random(model))
            for place, (row, session) in enumerate(zip(self.rows(model), found)):
                like, delta = self.likelihood(model, session), 0.003 if place < 10 else 0.01
                top = max(like(t) for t in np.linspace(-4, 4, 81))
                weight = [integrate.quad(lambda t: t ** k * math.exp(like(t) - top - t * t / 2), -4, 4, limit=200)[0] for k in range(3)]
                mean = weight[1] / weight[0]
                self.assertAlmostEqual(float(row["eap"]), mean, delta=delta)
                self.assertAlmostEqual(float(row["posterior_sd"]), math.sqrt(weight[2] / weight[0] - mean ** 2), delta=delta)
                self.assertEqual((row["theta"], row["se"]), (row["eap"], row["posterior_sd"]))

    def moments_of_items(self, model, session, t):
        """Information, and Warm's J: sums of P'^2 / P and of P' P'' / P by central differences."""
        information = warm = 0.0
        for k in session[0]:
            item, h = self.banks[model][k], 1e-3
            down, at, up = (MODELS[model](t + shift, *item) for shift in (-h, 0, h))
            for low, middle, high in zip(down, at, up):
                first, second = (high - low) / (2 * h), (high - 2 * middle + low) / h ** 2
                information += first ** 2 / middle
                warm += first * second / middle
        return information, warm

    def test_maximum_likelihood(self):
        for model in MODELS:
            found = self.sessions(model, random.Random(model))
            rows = self.rows(model, "--estimate", "mle")
            for row, session in list(zip(rows, found))[:10]:
                like = self.likelihood(model, session)
                tried = np.linspace(-4, 4, 801)
                start = tried[int(np.argmax([like(t) for t in tried]))]
                best = optimize.minimize_scalar(lambda t: -like(t), bounds=(max(-4, start - 0.01), min(4, start + 0.01)), method="bounded",
                                                options={"xatol": 1e-9}).x
                self.assertAlmostEqual(float(row["theta"]), best, delta=2e-4)
                self.assertAlmostEqual(float(row["se"]), 1 / math.sqrt(self.moments_of_items(model, session, best)[0]), delta=5e-4)
            self.assertEqual([(row["scale"], row["remark"]) for row in rows[10:]], [("-4.0000", "lowest"), ("4.0000", "highest")])

    def test_weighted_likelihood(self):
        """Warm's equation l' + J / (2 I) = 0 by Brent's method, from central differences."""
        for model in MODELS:
            found = self.sessions(model, random.Random(model))
            rows = self.rows(model, "--estimate", "wle", "--obtainable", "-6", "6")
            for row, session in zip(rows, found):
                like = self.likelihood(model, session)

                def score(t):
                    information, warm = self.moments_of_items(model, session, t)
                    return (like(t + STEP) - like(t - STEP)) / (2 * STEP) + warm / (2 * information)

                theta = float(row["theta"])
                self.assertEqual(row["remark"], "")
                self.assertAlmostEqual(theta, optimize.brentq(score, theta - 0.05, theta + 0.05), delta=5e-4)
                self.assertAlmostEqual(float(row["se"]), 1 / math.sqrt(self.moments_of_items(model, session, theta)[0]), delta=5e-4)

    def test_a_weighted_estimate_of_two_parameters_maximises_the_likelihood_times_the_root_of_the_information(self):
        """For the 2PL Warm's weight is the square root of the information; a 3PL with c = 0 is one."""
        self.banks["3PL"] = [(a, b, 0.0) for a, b, _ in self.banks["3PL"]]
        self.write("two.csv", "a,b\n" + "".join(f"{a},{b}\n" for a, b, _ in self.banks["3PL"]))
        self.tool("irt_bank", "--items", "two.csv", "--length", "12", "--out", "3PL", "--scaling", str(D), "--grid", "-4", "4", "61")
        found = self.sessions("3PL", random.Random(5))
        for row, session in zip(self.rows("3PL", "--estimate", "wle"), found):
            like = self.likelihood("3PL", session)
            best = optimize.minimize_scalar(lambda t: -like(t) - math.log(self.moments_of_items("3PL", session, t)[0]) / 2, bounds=(-4, 4),
                                            method="bounded", options={"xatol": 1e-9}).x
            if abs(best) < 3.9:
                self.assertAlmostEqual(float(row["theta"]), best, delta=5e-4)

    def test_levels(self):
        """The error of a level is the share of the posterior, or of the normal distribution about the estimate, outside of it."""
        found = self.sessions("GR", random.Random(3))
        words = ("--scale", "500", "100", "--cuts", "450", "540", "--levels", "low", "middle", "high")
        cuts = [-math.inf, -0.5, 0.4, math.inf]
        rows = self.rows("GR", *words, "--estimate", "mle")
        for row in rows:
            theta, error = float(row["theta"]), float(row["se"])
            self.assertAlmostEqual(float(row["scale"]), 500 + 100 * theta, delta=0.01)
            self.assertAlmostEqual(float(row["scale_se"]), 100 * error, delta=0.01)
            level = sum(theta >= cut for cut in cuts[1:3])
            self.assertEqual(row["level"], ("low", "middle", "high")[level])
            inside = stats.norm.cdf(cuts[level + 1], theta, error) - stats.norm.cdf(cuts[level], theta, error)
            self.assertAlmostEqual(float(row["level_error"]), 1 - inside, delta=1e-3)
        self.assertGreater(len({row["level"] for row in rows}), 2)
        for row, session in zip(self.rows("GR", *words), found):
            like, level = self.likelihood("GR", session), ("low", "middle", "high").index(row["level"])
            top = max(like(t) for t in np.linspace(-4, 4, 81))
            inside, whole = (integrate.quad(lambda t: math.exp(like(t) - top - t * t / 2), max(-4, low), min(4, high), limit=200)[0]
                             for low, high in ((cuts[level], cuts[level + 1]), (-4, 4)))
            self.assertAlmostEqual(float(row["level_error"]), 1 - inside / whole, delta=0.01)


if __name__ == "__main__":
    unittest.main()
