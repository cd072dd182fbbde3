"""What each rule of a blueprint costs in information, and which items to write: each number from forms that are proved best.

usage: report.py PREFIX --prices --to PAGE.html [options]      PREFIX.bank.csv, PREFIX.plan.txt, PREFIX.map.json: irt_bank.py's

  --at A ..         abilities in logits; default the mean of the plan's prior and one and two of its deviations on both sides
  --rules-only      leaves out which items to write, which takes the most time
  --template FILE   another template for jinja2 than report.html of these tools
  --program SHADOWD the program that assembles; default $SHADOWD, else crates/shadowd/out/shadowd

The price of a rule at an ability is what the best form would inform more without it: a row of the table of constraints with all its lines is
left out, and the form assembled again. Where one of the two forms is not proved best, the price is an interval, from the open leaves of its
tree. Prices of single rules do not add up to that of all rules.

What to write: for each kind of item that the rules tell apart, one more item is added at each of the abilities, with the median slope and
lower asymptote of the bank and no passage and no enemies. Its gain is what the best form informs more.

Beside the page are written PAGE.prices.csv and PAGE.write.csv. Exit status: 0; 1 where a file is refused; 11 or 12 where the plan has no
form, or none was found: explain.py names the rules.
"""
import argparse
import csv
import io
import os
import re
import statistics
import tempfile
from dataclasses import dataclass
from typing import Callable, Dict, FrozenSet, List, Optional, Sequence, Tuple

import numpy as np

from shadowtools.agency.bank_tables import LEAST_LOG, key_numbers
from shadowtools.agency.explain import gap, without
from shadowtools.agency.irt import FIELD, Item
from shadowtools.agency.program import DONE, NO_FORM, NOT_FOUND, Program, form_of, written
from shadowtools.agency.simulation import Examination
from shadowtools.command import Refused
from shadowtools.formats.examination import Rule
from shadowtools.formats.tables import text_of
from shadowtools.options import Options, finite, require_folder
from shadowtools.places import BUILT

SIGMAS, MOST_ITEMS, MOST_KINDS = (-2, -1, 0, 1, 2), 512, 40


@dataclass(frozen=True)
class Best:
    """What the best form informs, in units of information: between the two, which are equal where it is proved."""
    low: float
    high: float

    @property
    def is_proved(self) -> bool:
        return self.low == self.high

    def less(self, other: "Best") -> "Best":
        """How much more this one informs than another form that more rules bind: at least 0."""
        return Best(max(0.0, self.low - other.high), max(0.0, self.high - other.low))


@dataclass(frozen=True)
class Kind:
    """A kind of item that the rules tell apart: the numbers of the items, the rules whose sets have them, and its name."""
    name: str
    items: Sequence[int]
    rules: FrozenSet[int]


@dataclass(frozen=True)
class Gain:
    """One more item of a kind at a difficulty, and what the best form informs more at each ability."""
    kind: str
    difficulty: float
    gains: Sequence[Best]

    @property
    def mean(self) -> float:
        """The mean gain over the abilities, at least."""
        return statistics.fmean(one.low for one in self.gains)


@dataclass(frozen=True)
class Prices:
    """By ability the best form, the price of all rules together, and by row of the table of constraints its price; and the gains."""
    abilities: Sequence[float]
    best: Sequence[Best]
    together: Sequence[Best]
    rows: Sequence[Tuple[str, Sequence[Best]]]
    gains: Sequence[Gain]
    forms: int
    kinds_left_out: int = 0


# ---------------------------------------------------------------- forms

def at_point(text: str, point: int, points: int) -> str:
    """The plan whose first estimate is a point of the grid."""
    prior = "prior " + " ".join("0" if g == point else "-1" for g in range(points))
    return re.sub(r"(?m)^prior .*$", prior, text)


def best_of(program: Program, plan: str, unit: float) -> Best:
    """What the best form of a plan informs. Refused is a plan without a form."""
    status, said = program.assemble(plan)
    if status in (NO_FORM, NOT_FOUND):
        raise WithoutForm(status)
    if status != DONE:
        raise Refused(f"shadowd assemble, status {status}: {said[:80]}")
    form = form_of(said)
    if form.is_proved:
        return Best(form.objective / unit, form.objective / unit)
    with tempfile.TemporaryDirectory() as folder:
        objective, bound = gap(program.bank, written(folder, "plan", plan), form)
    return Best(objective / unit, bound / unit)


class WithoutForm(Refused):
    """The plan has no form, or none was found; `status` is that of `shadowd assemble`."""

    def __init__(self, status: int) -> None:
        super().__init__("the plan has no form; explain.py names the rules" if status == NO_FORM else
                         "no form was found within the base budget; explain.py has what to do")
        self.status = status


def row_of(rule: Rule) -> str:
    """The row of the table of constraints that a rule is of, by the remark above it."""
    return re.sub(r"^row \d+: |, passage \d+$", "", rule.label)


def rows_of(rules: Sequence[Rule]) -> Dict[str, List[Rule]]:
    found: Dict[str, List[Rule]] = {}
    for rule in rules:
        found.setdefault(row_of(rule), []).append(rule)
    return found


# ---------------------------------------------------------------- items to write

def kinds_of(examination: Examination) -> List[Kind]:
    """The kinds of items, the most frequent first. Sets of enemies tell no kinds apart, nor do sets of all items."""
    rules = [rule for rule in examination.plan.rules if rule.kind in ("count", "quantity")]
    of_all = {rule.line for rule in rules if len(rule.members) == len(examination.items)}
    members: Dict[FrozenSet[int], List[int]] = {}
    for number, item in enumerate(examination.items):
        if item.model != FIELD:
            members.setdefault(frozenset(rule.line for rule in rules if number in rule.members), []).append(number)
    found = []
    for lines, items in members.items():
        names = [row_of(rule).partition(":")[0] for rule in rules if rule.line in lines - of_all]
        found.append(Kind(", ".join(names) or "any other", items, lines))
    return sorted(found, key=lambda kind: (-len(kind.items), kind.items[0]))


def typical(examination: Examination, difficulty: float) -> Item:
    """An item with the median slope and lower asymptote of the bank."""
    numbers = [key_numbers(item) for item in examination.items if item.model != FIELD]
    slope, lower = (statistics.median(one[place] for one in numbers) for place in (0, 2))
    return Item("new", "3PL", [slope, difficulty, lower])


def bank_with(text: str, examination: Examination, item: Item, quantities: Sequence[int]) -> str:
    """The bank with one item more, without a passage."""
    theta, found = examination.theta, examination.map
    records = list(csv.reader(io.StringIO(text, newline="")))
    information = np.rint(item.information(theta, examination.scaling) * found["information_unit"]).astype(int)
    exact = np.log(np.maximum(item.probabilities(theta, examination.scaling), 1e-300)) * found["log_unit"]
    logs = np.clip(np.rint(exact), LEAST_LOG, 0).astype(int)
    record = [len(records) - 1, 0, 2, *quantities, *information.tolist(), *logs.ravel().tolist()]
    record += [""] * (len(records[0]) - len(record))
    return text.rstrip("\n") + "\n" + ",".join(map(str, record)) + "\n"


def plan_with(text: str, kind: Kind, number: int) -> str:
    """The plan in which an item is in each set that has the kind."""
    lines = [f"{line} {number}" if place in kind.rules else line for place, line in enumerate(text.split("\n"), 1)]
    return "\n".join(line for line in lines if not line.startswith("base "))


def gains_of(examination: Examination, program: Program, text: str, best: Sequence[Best], points: Sequence[int],
             tell: Callable[[str], None]) -> Tuple[List[Gain], int, int]:
    """The gain of one more item of each kind at each ability, how many kinds were left out, and the number of forms. The item counts the
    median of its kind for each quantity."""
    unit, kinds, forms, found = examination.map["information_unit"], kinds_of(examination), 0, []
    bank = text_of(examination.files()[0])
    if len(examination.items) >= MOST_ITEMS:
        return [], len(kinds), 0
    for place, kind in enumerate(kinds[:MOST_KINDS], 1):
        tell(f"items to write: kind {place} of {min(len(kinds), MOST_KINDS)}")
        values = zip(*(examination.bank[item].quantities for item in kind.items))
        quantities = [int(statistics.median_low(one)) for one in values]
        plan = plan_with(text, kind, len(examination.items))
        for point in points:
            difficulty = float(examination.theta[point])
            with tempfile.TemporaryDirectory() as folder:
                other = Program(program.path, written(folder, "bank", bank_with(bank, examination, typical(examination, difficulty), quantities)))
                after = [best_of(other, at_point(plan, at, len(examination.theta)), unit) for at in points]
            forms += len(after)
            found.append(Gain(kind.name, difficulty, [one.less(before) for one, before in zip(after, best)]))
    return sorted(found, key=lambda one: -one.mean), max(0, len(kinds) - MOST_KINDS), forms


# ---------------------------------------------------------------- all prices

def points_of(examination: Examination, asked: Optional[Sequence[float]]) -> List[int]:
    """The grid points nearest to the abilities. Refused is an ability off the grid."""
    prior, theta = examination.map["prior"], examination.theta
    if asked:
        for ability in asked:
            if not theta[0] <= ability <= theta[-1]:
                raise Refused(f"--at {ability:g}: the grid is from {theta[0]:g} to {theta[-1]:g}")
        wanted = list(asked)
    else:
        mean, deviation = ((theta[0] + theta[-1]) / 2, (theta[-1] - theta[0]) / 6) if prior == ["flat"] else map(float, prior)
        wanted = [mean + sigma * deviation for sigma in SIGMAS if theta[0] <= mean + sigma * deviation <= theta[-1]]
    return sorted({int(np.abs(theta - ability).argmin()) for ability in wanted})


def prices_of(examination: Examination, path: str, asked: Optional[Sequence[float]], rules_only: bool, tell: Callable[[str], None]) -> Prices:
    """The prices of the rules of a plan, and the gains of items to write. The plan's own budget bounds each search."""
    text, unit = text_of(examination.files()[1]), examination.map["information_unit"]
    rules, points, grid = examination.plan.rules, points_of(examination, asked), len(examination.theta)
    program = Program(path, examination.files()[0])

    def best_at(plan: str) -> List[Best]:
        return [best_of(program, at_point(plan, point, grid), unit) for point in points]

    best = best_at(without(text, rules, rules))
    together = [free.less(bound) for free, bound in zip(best_at(without(text, rules, [])), best)]
    rows = []
    for name, own in rows_of(rules).items():
        tell(f"price of {name[:60]}")
        free = best_at(without(text, rules, [rule for rule in rules if rule not in own]))
        rows.append((name, [one.less(bound) for one, bound in zip(free, best)]))
    gains, left_out, forms = ([], 0, 0) if rules_only else gains_of(examination, program, text, best, points, tell)
    return Prices([float(examination.theta[point]) for point in points], best, together, rows, gains, program.runs + forms, left_out)


# ---------------------------------------------------------------- command line

def options(words: Sequence[str], template: str) -> argparse.Namespace:
    parser = Options(__doc__)
    parser.add_argument("prefix", nargs="?")
    parser.add_argument("--prices", action="store_true")
    parser.add_argument("--to")
    parser.add_argument("--at", nargs="+", type=finite)
    parser.add_argument("--rules-only", action="store_true")
    parser.add_argument("--template", default=template)
    parser.add_argument("--program", default=BUILT)
    found = parser.read(words, lambda given: bool(given.prefix and given.to))
    for path in (found.to, *beside_page(found.to)):
        require_folder("--to", path)
    return found


def beside_page(path: str) -> Tuple[str, str]:
    begin = os.path.splitext(path)[0]
    return begin + ".prices.csv", begin + ".write.csv"


def tables_of(found: Prices) -> Tuple[List[List[str]], List[List[str]]]:
    """The rows of PAGE.prices.csv and PAGE.write.csv: at each ability the least and the greatest of what it can be."""
    head = [f"{end} at {ability:g}" for ability in found.abilities for end in ("least", "greatest")]

    def cells(values: Sequence[Best]) -> List[str]:
        return [f"{end:.4f}" for one in values for end in (one.low, one.high)]

    prices = [["rule", *head], ["best form", *cells(found.best)], ["all rules together", *cells(found.together)]]
    prices += [[name, *cells(values)] for name, values in found.rows]
    write = [["kind", "difficulty", "mean", *head]]
    write += [[one.kind, f"{one.difficulty:g}", f"{one.mean:.4f}", *cells(one.gains)] for one in found.gains]
    return prices, write
