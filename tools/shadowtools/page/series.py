"""The page of a series of fixed forms, from what `shadowd series` printed: verdicts, pictures and tables.

Each number is counted here from the items of the forms; the lines and their trees are judged by check_series.py.
"""
import os
from typing import Iterator, List, Optional, Sequence, Tuple

import numpy as np

from shadowtools.agency.expected import unit_of
from shadowtools.agency.irt import FIELD
from shadowtools.agency.simulation import Examination
from shadowtools.checkers import check_series, check_tree
from shadowtools.command import Refused
from shadowtools.formats.examination import Rule
from shadowtools.page import pictures
from shadowtools.page.measures import standard_error
from shadowtools.page.parts import Facts, Note, Picture, Pictures, Section, Table, Verdict
from shadowtools.page.pictures import below, half, picture
from shadowtools.page.sections import alike, family
from shadowtools.page.study import Target, fixed, plain
from shadowtools.page.verdicts import MEASURED, MET, NOT_MET

# A colour and a line for each form: they differ in print without colours, too.
LINES = ((pictures.BLUE, "-"), (pictures.RED, "--"), ("#2f7d4f", "-."), ("#a06a00", (0, (5, 1, 1, 1, 1, 1))))
MOST_NAMED = 80


class Series:
    """A series of fixed forms. `information` is by form and grid point, in units of information; `at` are the weighted points."""

    def __init__(self, examination: Examination, weights: Sequence[int], text: str, target: Optional[Target] = None) -> None:
        self.examination, self.weights, self.target = examination, weights, target
        lines = text.splitlines()
        if not lines or not lines[0].startswith("series "):
            raise Refused("there is no series in what was printed; tools/explain.py --series names the rules that rule it out")
        bank, plan = examination.files()
        judge(bank, plan, weights, text)
        head = lines[0].split(" ")
        self.value, self.is_proved, self.nodes = int(head[3]), head[4] == "proved", int(head[6])
        self.forms = [[int(word) for word in line.split(" ")[1:]] for line in lines if line.startswith("form ")]
        self.most = next((int(line.split(" ")[2]) for line in lines if line.startswith("at most ")), None)
        self.unit, self.length, self.theta = examination.map["information_unit"], examination.plan.length, examination.theta
        self.ability_unit = unit_of(examination.map["theta"])
        self.at = [g for g, weight in enumerate(weights) if weight]
        self.table = np.array([item.information for item in examination.bank]) / self.unit
        self.information = np.array([self.table[form].sum(0) for form in self.forms])
        self.points = np.array([sum(expected(examination, item) for item in form) for form in self.forms])

    @property
    def asked(self) -> np.ndarray:
        """What each form has at least at each weighted point: the value divided by its weight."""
        return np.array([self.value / self.weights[g] / self.unit for g in self.at])

    @property
    def left(self) -> List[int]:
        """The items that are in no form."""
        used = {item for form in self.forms for item in form}
        return [item for item in range(len(self.examination.bank)) if item not in used]

    @property
    def best(self) -> np.ndarray:
        """At each point the information of the best items of the bank, without any rule."""
        return np.sort(self.table, 0)[::-1][:self.length].sum(0)

    def name(self, item: int) -> str:
        return self.examination.items[item].name

    def passage(self, item: int) -> str:
        """The name of an item's passage, empty where it has none."""
        passages, number = self.examination.map["passages"], self.examination.items[item].passage
        return passages[number - 1] if 0 < number <= len(passages) else ""


def judge(bank: str, plan: str, weights: Sequence[int], text: str) -> None:
    """Refuses lines that are not those of a series of this bank, plan and weights, by their trees."""
    tables = check_tree.read_bank(bank)
    head = text.split("\n")[0].split(" ")
    problem = check_series.Problem(tables, check_tree.read_plan(plan, tables),
                                   *check_series.numbers_of(",".join(map(str, weights)), head[1], tables))
    try:
        check_series.printed(problem, text, check_series.base_budget(plan))
    except (ValueError, IndexError, check_tree.Fault) as fault:
        raise Refused(f"what was printed does not agree: {fault}") from None


def expected(examination: Examination, item: int) -> np.ndarray:
    """The expected points of an item at each grid point: the mean of its response, and none for one in field test."""
    if examination.items[item].model == FIELD:
        return np.zeros(len(examination.theta))
    chances = examination.items[item].probabilities(examination.theta, examination.scaling)
    return (np.arange(len(chances))[:, None] * chances).sum(0)


def listed(values: Sequence[str]) -> str:
    """Some words as a list in a sentence."""
    return values[0] if len(values) == 1 else f"{', '.join(values[:-1])} and {values[-1]}"


def abilities(series: Series) -> str:
    """The weighted abilities in a sentence."""
    return ("ability " if len(series.at) == 1 else "abilities ") + listed([plain(round(series.theta[g], 3)) for g in series.at])


# ---------------------------------------------------------------- verdicts

def broken(series: Series) -> List[Tuple[int, Rule]]:
    """Each form, from 0, with a rule that it breaks."""
    examination = series.examination
    return [(number, rule) for rule in examination.plan.rules for number, form in enumerate(series.forms)
            if not rule.met(form, examination.bank)]


def verdicts(series: Series) -> List[Verdict]:
    """All verdicts, the blueprint first."""
    found = [blueprint_verdict(series), common_verdict(series), best_verdict(series), precision_verdict(series), *target_verdict(series)]
    return found + ([alike_verdict(series)] if len(series.forms) > 1 else [])


def blueprint_verdict(series: Series) -> Verdict:
    rules, bad = series.examination.plan.rules, broken(series)
    kept = len(rules) - len({rule.line for _, rule in bad})
    text = f"{kept} of {len(rules)} rules are met in each of {len(series.forms)} forms" if len(series.forms) > 1 else f"{kept} of {len(rules)} rules are met"
    if bad:
        return Verdict(NOT_MET, f"{text}. Form {bad[0][0] + 1} breaks “{bad[0][1].label}”.")
    return Verdict(MET, f"{text}. {'Each' if len(series.forms) > 1 else 'The'} form has {series.length} items.")


def common_verdict(series: Series) -> Verdict:
    begin = "No item is in two forms. " if len(series.forms) > 1 else ""
    return Verdict(MET, f"{begin}{len(series.left)} of the {len(series.examination.bank)} items of the bank are in no form.")


def best_verdict(series: Series) -> Verdict:
    if series.is_proved:
        nodes = f"{series.nodes:,} node{'s' if series.nodes > 1 else ''}"
        return Verdict(MET, "Proved best: no series of forms without common items has a greater value, the least weighted information of its "
                            f"forms. The proof is a tree of {nodes}, which was checked for this page.")
    if series.most is None:
        return Verdict(MEASURED, "Not proved best: how much better another series can be is not known.")
    more = (series.most - series.value) / max(1, series.value)
    return Verdict(MEASURED, f"Not proved best: no series has a value above {series.most:,}, which is {more:.2%} more than the {series.value:,} of this "
                             "one. The tree that shows it was checked for this page.")


def precision_verdict(series: Series) -> Verdict:
    least = series.information[:, series.at].min(0)
    values = listed([fixed(value, 2) for value in least])
    errors = listed([fixed(float(standard_error(value)), 2) for value in least])
    each = "each form has at least the information" if len(series.forms) > 1 else "the form has the information"
    most = "at most " if len(series.forms) > 1 else ""
    return Verdict(MEASURED, f"At the {abilities(series)} {each} {values}: a standard error of {most}{errors} {series.ability_unit}.")


def alike_verdict(series: Series) -> Verdict:
    apart = np.ptp(series.information, 0)
    share = (apart[series.at] / series.information[:, series.at].max(0)).max()
    points = np.ptp(series.points, 0)
    worst = int(points.argmax())
    return Verdict(MEASURED, f"At the {abilities(series)} the forms differ in information by at most {apart[series.at].max():.3f} ({share:.1%}), and by "
                             f"at most {apart.max():.2f} anywhere on the scale. Their expected points differ by at most {points[worst]:.2f} of "
                             f"{most_points(series)}, at {plain(round(series.theta[worst], 3))}.")


def most_points(series: Series) -> str:
    """The greatest number of points of a form: one number, or the least and the greatest over the forms."""
    each = [item.categories - 1 if item.model != FIELD else 0 for item in series.examination.items]
    found = [sum(each[item] for item in form) for form in series.forms]
    return str(found[0]) if min(found) == max(found) else f"{min(found)} to {max(found)}"


def target_verdict(series: Series) -> Iterator[Verdict]:
    """Whether each form reaches the target at each grid point in its range."""
    if not series.target:
        return
    wanted = series.target.information(series.theta)
    inside = ~np.isnan(wanted)
    if not inside.any():
        yield Verdict(MEASURED, "No grid point is in the range of the target.")
        return
    gaps = series.information[:, inside] - wanted[inside]
    short = [number + 1 for number, gap in enumerate(gaps) if (gap < 0).any()]
    if not short:
        yield Verdict(MET, f"Each form reaches the target at each of the {inside.sum()} grid points of its range.")
        return
    form, place = np.unravel_index(gaps.argmin(), gaps.shape)
    yield Verdict(NOT_MET, f"{len(short)} of {len(series.forms)} forms are below the target somewhere in its range: form {form + 1} by {-gaps.min():.2f} of "
                           f"information at {plain(round(series.theta[inside][place], 3))}.")


# ---------------------------------------------------------------- sections

def sections(series: Series, facts: Sequence[Tuple[str, str]], digests: Sequence[Tuple[str, str]]) -> List[Section]:
    """All sections. `facts` and `digests` are of the files that the page was made of."""
    return [identity(series, facts, digests), information(series), blueprint(series), items(series)]


def identity(series: Series, facts: Sequence[Tuple[str, str]], digests: Sequence[Tuple[str, str]]) -> Section:
    found = series.examination.map
    weights = ", ".join(f"{series.weights[g]} at {plain(round(series.theta[g], 3))}" for g in series.at)
    rows = [("Examination", os.path.basename(series.examination.prefix)),
            ("Bank", f"items: {len(series.examination.bank)}; passages: {len(found['passages'])}; quantities: {', '.join(found['quantities']) or 'none'}"),
            ("Forms", f"{len(series.forms)}, with {series.length} items each; rules: {len(series.examination.plan.rules)}"),
            ("Weights", weights),
            ("Value", f"{series.value:,}: the least of weight times information over the forms and the weighted abilities, in whole units"),
            ("No series is above", f"{series.value:,}, proved" if series.is_proved else "not known" if series.most is None else f"{series.most:,}"),
            ("Ability", f"{len(series.theta)} points from {plain(series.theta[0])} to {plain(series.theta[-1])} {series.ability_unit}; D {found['D']:g}"),
            ("Units", f"{series.unit:g} for one unit of information"), *facts]
    return Section("identity", "What was assembled", [Facts(rows), Facts([(f"SHA-256, {name}", value) for name, value in digests], "digests")])


def information(series: Series) -> Section:
    shown = [curves(series), errors(series)]
    if len(series.forms) > 1:
        shown += [differences(series, series.information, f"difference (1 / {series.ability_unit}²)", "Information of each form, less the mean of the forms"),
                  differences(series, series.points, "difference (points)", "Expected points of each form, less the mean of the forms")]
    head = ["Ability", "Weight", "Target"] + names(series)
    tables = [Table(head, [[plain(round(series.theta[g], 3)), str(series.weights[g]), fixed(asked, 3)] + [fixed(form[g], 3) for form in series.information]
                           for g, asked in zip(series.at, series.asked)], "Information"),
              Table(head, [[plain(round(series.theta[g], 3)), str(series.weights[g]), fixed(float(standard_error(asked)), 3)]
                           + [fixed(float(standard_error(form[g])), 3) for form in series.information]
                           for g, asked in zip(series.at, series.asked)], f"Standard error ({series.ability_unit})"),
              Table(["Ability"] + names(series), [[plain(round(series.theta[g], 3))] + [fixed(form[g], 2) for form in series.points] for g in series.at],
                    f"Expected points, of {most_points(series)}")]
    return Section("information", "Information", [Pictures(shown), *tables, Note(
        "The target at a weighted ability is the value divided by the weight: no form has less there. The search makes the weakest form as strong as it "
        "can be; it does not make the forms equally hard. So report abilities, or equate the points of the forms.")])


def names(series: Series) -> List[str]:
    return [f"Form {number}" for number in range(1, len(series.forms) + 1)]


def blueprint(series: Series) -> Section:
    groups = alike(series.examination.plan.rules)
    rows = [[label_of(series, group), f"{group[0].low:,}", f"{group[0].high:,}"] + [values_of(series, group, form) for form in series.forms]
            for group in groups]
    bad = {(rule.line, number) for number, rule in broken(series)}
    marked = frozenset((row, 3 + number) for row, group in enumerate(groups) for number in range(len(series.forms))
                       if any((rule.line, number) in bad for rule in group))
    return Section("rules", "Blueprint", [Table(["Rule", "Low", "High"] + names(series), rows, marked=marked), Note(
        "Counted here from the items of each form, by a reader of the plan that shares nothing with the product. A rule of passages counts the items of "
        "each passage that the form uses; passages with the same bounds are in one row.")])


def label_of(series: Series, group: Sequence[Rule]) -> str:
    """A rule in words, or the rules of passages that are alike."""
    if len(group) > 1:
        return f"{family(group[0])[1] or 'each passage'} ({len(group)} passages)"
    return group[0].label


def values_of(series: Series, group: Sequence[Rule], form: Sequence[int]) -> str:
    """The value of a rule in a form, or the least and the greatest of those of passages that it uses."""
    values = [value for rule in group if (value := rule.value(form, series.examination.bank)) is not None]
    if not values:
        return "–"
    return f"{values[0]:,}" if min(values) == max(values) else f"{min(values):,}–{max(values):,}"


def items(series: Series) -> Section:
    rows = [[named(series, item) for item in row] for row in zip(*series.forms)]
    left = [series.name(item) for item in series.left]
    more = f", and {len(left) - MOST_NAMED} more" if len(left) > MOST_NAMED else ""
    said = f"In no form: {', '.join(left[:MOST_NAMED])}{more}." if left else "Every item of the bank is in a form."
    return Section("forms", "Forms", [Table(names(series), rows, texts=len(series.forms)), Note(said), Note(
        "The items are in the order of the bank, which is no order for a booklet. The table beside this page has each item with its form and its attributes.")])


def named(series: Series, item: int) -> str:
    passage = series.passage(item)
    return f"{series.name(item)} ({passage})" if passage else series.name(item)


def table_by_item(series: Series) -> Tuple[List[str], List[List[str]]]:
    """The head, and a row for each item of the bank: the form that it is in (empty for none), its passage, and its attributes."""
    of = {item: str(number) for number, form in enumerate(series.forms, 1) for item in form}
    attributes = [name for name in next((item.attributes for item in series.examination.items), {}) if name not in ("ID", "STID")]
    return ["form", "number", "item", "passage", *attributes], [
        [of.get(number, ""), str(number), item.name, series.passage(number), *(item.attributes.get(name, "") for name in attributes)]
        for number, item in enumerate(series.examination.items)]


# ---------------------------------------------------------------- pictures

def curves(series: Series) -> Picture:
    """The information of each form beside the target at the weighted abilities, and the best items of the bank."""
    figure, axes = half(3.4, legend=3)
    axes.plot(series.theta, series.best, ":", color="k", label=f"best {series.length} items, no rules")
    draw(series, axes, series.information)
    axes.plot(series.theta[series.at], series.asked, "^", color="k", mfc="white", ms=7, zorder=3, label="target: value / weight")
    if series.target:
        wide = np.linspace(series.target.abilities[0], series.target.abilities[-1], 121)
        axes.plot(wide, series.target.information(wide), color=pictures.GREY, lw=2.4, label="target asked, at least")
    axes.set(xlabel=f"ability ({series.ability_unit})", ylabel=f"information (1 / {series.ability_unit}²)", ylim=(0, None))
    below(axes)
    return picture(figure, "Information of each form, beside the best items of the bank",
                   f"The information of the forms by ability: at most {series.information.max():.2f}; at the weighted abilities each has at least "
                   f"the target of {listed([fixed(value, 2) for value in series.asked])}.")


def errors(series: Series) -> Picture:
    """The standard error of each form where it is at most three times that of the best point."""
    figure, axes = half(3.4, legend=3)
    found = standard_error(series.information)
    least = float(found.min())
    draw(series, axes, found)
    axes.plot(series.theta[series.at], standard_error(series.asked), "v", color="k", mfc="white", ms=7, zorder=3, label="target, at most")
    if series.target:
        wide = np.linspace(series.target.abilities[0], series.target.abilities[-1], 121)
        axes.plot(wide, standard_error(series.target.information(wide)), color=pictures.GREY, lw=2.4, label="target asked, at most")
    axes.set(xlabel=f"ability ({series.ability_unit})", ylabel=f"standard error ({series.ability_unit})", ylim=(0, 3 * least))
    below(axes)
    return picture(figure, "Standard error of each form, from its information",
                   f"The standard error of the forms by ability, in {series.ability_unit}: at least {least:.2f}.")


def differences(series: Series, table: np.ndarray, label: str, caption: str) -> Picture:
    """A table by form and point, less the mean of the forms."""
    figure, axes = half(3.0, legend=2)
    apart = table - table.mean(0)
    axes.axhline(0, color="k", lw=0.8)
    for g in series.at:
        axes.axvline(series.theta[g], color=pictures.PALE, lw=1.0, zorder=0)
    draw(series, axes, apart)
    axes.set(xlabel=f"ability ({series.ability_unit})", ylabel=label)
    below(axes)
    return picture(figure, caption, f"{caption}: between {apart.min():.2f} and {apart.max():.2f}. Lines mark the weighted abilities.")


def draw(series: Series, axes, table: np.ndarray) -> None:
    for number, (values, (color, line)) in enumerate(zip(table, LINES), 1):
        axes.plot(series.theta, values, color=color, ls=line, label=f"form {number}")
