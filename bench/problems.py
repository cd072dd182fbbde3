"""The banks, plans and answers that assembly.py and series.py time. All numbers come of fixed recurrences; those of logistic models come
of the generator `random` of Python.
"""
import math
import random
from collections import namedtuple

# name, the texts of bank and plan, a word of responses for each session, and the exposure rate (num, den) or None: an item
# that was given in a greater part of the sessions before isn't eligible in the next one
Problem = namedtuple("Problem", "name bank plan sessions rate")


class Draws:
    """The linear congruential generator of Knuth's MMIX."""

    def __init__(self, state):
        self.state = state % 2**64

    def next(self):
        self.state = (self.state * 6364136223846793005 + 1442695040888963407) % 2**64
        return self.state >> 33

    def between(self, low, high):
        return low + self.next() % (high - low + 1)

    def some(self, count, pool):
        """So many of a list, in the order drawn."""
        left = list(pool)
        return [left.pop(self.next() % len(left)) for _ in range(count)]


def bank_text(rows, quantities, grid):
    """Rows of (stimulus, quantities, information, log-likelihoods of two responses)."""
    header = ["item", "stimulus", "categories"] + ["q%d" % k for k in range(quantities)] + ["i%d" % g for g in range(grid)]
    header += ["l%d_%d" % (r, g) for r in range(2) for g in range(grid)]
    lines = [",".join(header)]
    for number, (stimulus, amounts, info, wrong, right) in enumerate(rows):
        lines.append(",".join(map(str, [number, stimulus, 2, *amounts, *info, *wrong, *right])))
    return "\n".join(lines) + "\n"


def set_words(items):
    """A set as its runs."""
    runs = []
    for i in sorted(items):
        if runs and runs[-1][1] == i - 1:
            runs[-1][1] = i
        else:
            runs.append([i, i])
    return " ".join("%d" % low if low == high else "%d-%d" % (low, high) for low, high in runs)


# ---------------------------------------------------------------- the drill

def drill(number, sessions):
    """The problem of the program's command `drill`: 120 items, six stimuli, 17 rows, tests of 20 items."""
    draws, rows = Draws(number), []
    for i in range(120):
        place, height, words = draws.next() % 11, 200 + draws.next() % 801, 30 + draws.next() % 91
        info = [max(0, height - 60 * abs(g - place)) for g in range(11)]
        wrong = [-(50 + 40 * max(0, g - place)) for g in range(11)]
        right = [-(50 + 40 * max(0, place - g)) for g in range(11)]
        rows.append((1 + i // 5 if i < 30 else 0, [words], info, wrong, right))
    high = sum(rows[i][1][0] for i in range(30, 50)) + 50
    plan = ["length 20", "prior " + " ".join(str(-20 * (g - 5)**2) for g in range(11)), "rate 1 4",
            "key " + ("%016x" % number) * 4, "budget 501", "base-budget 4095", "sessions %d" % sessions, "journal 536870912"]
    plan += ["count 3 5 " + " ".join(str(i) for i in range(c, 120, 5)) for c in range(5)]
    plan += ["quantity 0 600 %d 0-119" % high]
    plan += ["enemies %d %d" % (50 + 2 * k, 51 + 2 * k) for k in range(10)]
    plan += ["stimuli 0 2"] + ["stimulus %d 2 4" % s for s in range(1, 7)] + ["base 30-49"]
    answers = [[] for _ in range(sessions)]
    for first in range(0, sessions, 10):
        for _ in range(20):
            for s in range(first, min(first + 10, sessions)):
                answers[s].append(str(draws.next() % 2))
    return Problem("drill %d" % number, bank_text(rows, 1, 11), "\n".join(plan) + "\n", ["".join(a) for a in answers], (1, 4))


# ---------------------------------------------------------------- twelve categories with a best form that stays

def twelve_categories():
    """120 items in twelve categories, six stimuli, 18 rows; the best form is the same at every grid point."""
    rows = []
    for i in range(120):
        j, k = divmod(i, 10)
        info = [500 * (11 - j) + 100 * (9 - k) + 3 * ((i + g) % 7) for g in range(7)]
        wrong, right = [[-(1 + (7 * i + 3 * r + 5 * g) % 11) for g in range(7)] for r in range(2)]
        rows.append((j + 1 if j < 6 and k < 2 else 0, [60], info, wrong, right))
    plan = ["length 20", "prior 0 0 0 0 0 0 0"]
    plan += ["count %s %d-%d" % ("2 2" if j < 8 else "1 1", 10 * j, 10 * j + 9) for j in range(12)]
    plan += ["enemies %d %d" % pair for pair in ((9, 19), (29, 39), (49, 59), (69, 79))]
    plan += ["quantity 0 0 1300 0-119", "stimuli 0 6"] + ["stimulus %d 2 2" % s for s in range(1, 7)]
    return Problem("bank L", bank_text(rows, 1, 7), "\n".join(plan) + "\n", ["0110" * 5], None)


# ---------------------------------------------------------------- larger banks

class Larger:
    """A bank of a given size, a form drawn from it, and a plan whose rows that form meets.

    Each stimulus has six items. There are five subjects and four answer keys, which the form's numbers bound from both
    sides with one to spare; the words and seconds of the form with 2 % to spare; pairs of enemies for the other rows.
    """

    def __init__(self, seed, items, length, rows, stimuli):
        self.draws = Draws(seed)
        self.items, self.length, self.count, self.stimuli = items, length, rows, stimuli
        self.stimulus = [1 + i // 6 if i < 6 * stimuli else 0 for i in range(items)]
        self.amounts = [(self.draws.between(30, 120), self.draws.between(20, 90)) for _ in range(items)]
        self.subject = [self.draws.between(0, 4) for _ in range(items)]
        self.key = [self.draws.between(0, 3) for _ in range(items)]
        self.used = self.draws.some(min(3, stimuli), range(1, stimuli + 1))
        self.form = self.draw_form()

    def draw_form(self):
        form = []
        for s in self.used:
            form += self.draws.some(3, range(6 * (s - 1), 6 * s))
        alone = [i for i in range(self.items) if self.stimulus[i] == 0]
        return frozenset(form + self.draws.some(self.length - len(form), alone))

    def bounds(self):
        """The least and the greatest number of items of each stimulus."""
        return [(2, 4)] * self.stimuli

    def bank(self):
        rows = []
        for i in range(self.items):
            place, height = self.draws.between(0, 10), self.draws.between(2000, 10000)
            info = [max(0, height - 600 * abs(g - place)) for g in range(11)]
            wrong = [-(50 + 40 * max(0, g - place)) for g in range(11)]
            right = [-(50 + 40 * max(0, place - g)) for g in range(11)]
            rows.append((self.stimulus[i], self.amounts[i], info, wrong, right))
        return bank_text(rows, 2, 11)

    def counts(self, kind, values):
        for value in range(values):
            members = [i for i in range(self.items) if kind[i] == value]
            n = len(self.form & set(members))
            yield "count %d %d %s" % (max(0, n - 1), n + 1, set_words(members))

    def sums(self):
        for which in range(2):
            total = sum(self.amounts[i][which] for i in self.form)
            yield "quantity %d %d %d 0-%d" % (which, total - total // 50, total + total // 50, self.items - 1)

    def enemies(self, count):
        while count:
            pair = self.draws.some(2, range(self.items))
            if not set(pair) <= self.form:
                count -= 1
                yield "enemies %s" % " ".join(map(str, sorted(pair)))

    def plan(self):
        rows = [*self.counts(self.subject, 5), *self.counts(self.key, 4), *self.sums()]
        if self.stimuli:
            rows.append("stimuli %d %d" % (max(0, len(self.used) - 1), len(self.used) + 1))
        rows += self.enemies(self.count - len(rows))
        lines = ["length %d" % self.length, "prior " + " ".join(str(-20 * (g - 5)**2) for g in range(11)), "budget 2001"]
        bounds = ["stimulus %d %d %d" % (s, *bound) for s, bound in enumerate(self.bounds(), 1)]
        return "\n".join(lines + rows + bounds) + "\n"

    def problem(self, sessions):
        name = "%d items, %d rows, %d stimuli" % (self.items, self.count, self.stimuli)
        bank, plan = self.bank(), self.plan()
        answers = ["".join(str(self.draws.between(0, 1)) for _ in range(self.length)) for _ in range(sessions)]
        return Problem(name, bank, plan, answers, None)


# ---------------------------------------------------------------- tests of passages

class Passages(Larger):
    """A larger bank most of whose items are in stimuli of four to eight items, and tests of 30 items.

    The form drawn first has some five stimuli, each with four items; a plan bounds each stimulus to three to five items.
    """

    def __init__(self, seed, items, rows, stimuli):
        self.draws = Draws(seed)
        self.items, self.length, self.count, self.stimuli = items, 30, rows, stimuli
        sizes = [self.draws.between(4, 8) for _ in range(stimuli)]
        self.stimulus = [s for s, size in enumerate(sizes, 1) for _ in range(size)]
        self.stimulus += [0] * (items - len(self.stimulus))
        self.amounts = [(self.draws.between(30, 120), self.draws.between(20, 90)) for _ in range(items)]
        self.subject = [self.draws.between(0, 4) for _ in range(items)]
        self.key = [self.draws.between(0, 3) for _ in range(items)]
        self.used = self.draws.some(5, range(1, stimuli + 1))
        self.form = self.draw_form()

    def draw_form(self):
        form = []
        for s in self.used:
            form += self.draws.some(4, [i for i in range(self.items) if self.stimulus[i] == s])
        alone = [i for i in range(self.items) if self.stimulus[i] == 0]
        return frozenset(form + self.draws.some(self.length - len(form), alone))

    def bounds(self):
        return [(3, 5)] * self.stimuli

    def problem(self, sessions):
        made = super().problem(sessions)
        return made._replace(name="%d items, %d rows, %d passages" % (self.items, self.count, self.stimuli))


# ---------------------------------------------------------------- banks of logistic models, for series

def information(slope: float, place: float, guess: float, ability: float) -> float:
    """Of an item of the three-parameter logistic model with the scale 1.7."""
    right = guess + (1 - guess) / (1 + math.exp(-1.7 * slope * (ability - place)))
    return (1.7 * slope)**2 * (1 - right) / right * ((right - guess) / (1 - guess))**2


def logistic_bank(words: list[int], info: list[list[int]]) -> str:
    """Items of no stimulus, with a quantity and their information at five points; nobody answers them."""
    return bank_text([(0, [amount], row, [-1] * 5, [-1] * 5) for amount, row in zip(words, info)], 1, 5)


def members_of(kind: list[int], value: int) -> set[int]:
    return {item for item, other in enumerate(kind) if other == value}


def three_parameters(items: int, seed: int, length: int, subjects: int, keys: int, enemies: int) -> tuple[str, str]:
    """A bank in thousandths and a plan that four forms, drawn before the rows, meet: counts from the least to the greatest of a form,
    the sum of the words with 1 % to spare, and pairs that no form has."""
    draws = random.Random(seed * 1000003 + items)
    words = [draws.randint(30, 120) for _ in range(items)]
    kinds = [draws.randrange(subjects) for _ in range(items)], [draws.randrange(keys) for _ in range(items)]
    three = [(math.exp(draws.gauss(0, 0.3)), draws.gauss(0, 1), draws.uniform(0.1, 0.25)) for _ in range(items)]
    order = list(range(items))
    draws.shuffle(order)
    forms = [{order.pop() for _ in range(length)} for _ in range(4)]
    plan = [f"length {length}", "prior 0 0 0 0 0"]
    for kind, values in zip(kinds, (subjects, keys)):
        for members in filter(None, (members_of(kind, value) for value in range(values))):
            least, *_, most = sorted(len(form & members) for form in forms)
            plan.append(f"count {least} {max(most, least + 1)} {set_words(members)}")
    sums = [sum(words[item] for item in form) for form in forms]
    plan.append(f"quantity 0 {min(sums) * 99 // 100} {max(sums) * 101 // 100} 0-{items - 1}")
    while enemies:
        pair = sorted(draws.sample(range(items), 2))
        if not any(set(pair) <= form for form in forms):
            plan.append("enemies {} {}".format(*pair))
            enemies -= 1
    return logistic_bank(words, [[round(1000 * information(*item, at)) for at in range(-2, 3)] for item in three]), "\n".join(plan) + "\n"


def two_parameters(items: int, seed: int) -> tuple[str, str]:
    """A small bank in hundredths and a plan that two forms of a fifth of the items meet: counts with one to spare, and the words."""
    draws, length = random.Random(f"m {items} {seed}"), items // 5
    words = [draws.randint(20, 120) for _ in range(items)]
    two = [(math.exp(draws.gauss(0, 0.3)), draws.gauss(0, 1), 0.0) for _ in range(items)]
    order = list(range(items))
    draws.shuffle(order)
    forms = [set(order[:length]), set(order[length:2 * length])]
    plan = [f"length {length}", "prior 0 0 0 0 0"]
    for values in (3, 2):
        kind = [draws.randrange(values) for _ in range(items)]
        for members in filter(None, (members_of(kind, value) for value in range(values))):
            least, most = sorted(len(form & members) for form in forms)
            plan.append(f"count {least} {most + 1} {set_words(members)}")
    sums = sorted(sum(words[item] for item in form) for form in forms)
    plan.append(f"quantity 0 {sums[0]} {sums[1]} 0-{items - 1}")
    return logistic_bank(words, [[round(100 * information(*item, 0.8 * at)) for at in range(-2, 3)] for item in two]), "\n".join(plan) + "\n"


def all_problems(short, shift=0):
    """The drills, bank L, the larger banks and the passages; `short` gives few and small ones, `shift` other seeds."""
    numbers = (7,) if short else (1, 7, 8, 77, 100, 2024)
    problems = [drill(number + shift, 2 if short else 10) for number in numbers]
    problems += [] if shift else [twelve_categories()]
    sizes = [(64, 20, 30, 0), (128, 20, 30, 0), (256, 30, 30, 0), (256, 30, 60, 0), (512, 36, 60, 0),
             (64, 20, 30, 4), (128, 20, 30, 4), (256, 30, 30, 4), (512, 36, 60, 4), (256, 30, 60, 8), (512, 36, 60, 24)]
    for items, length, rows, stimuli in sizes[:1] if short else sizes:
        problems.append(Larger(shift + items + stimuli, items, length, rows, stimuli).problem(1 if short else 2))
    passages = [(200, 20, 16), (200, 40, 16), (400, 30, 40), (400, 60, 40), (512, 20, 64), (512, 60, 64)]
    for items, rows, stimuli in passages[:1] if short else passages:
        problems.append(Passages(shift + items + rows, items, rows, stimuli).problem(1 if short else 2))
    return problems
