"""What the sections of the page read: the whole sessions of a simulation as tables, and their groups by ability."""
import os
from dataclasses import dataclass
from typing import List, Optional, Sequence, Tuple

import numpy as np
import pandas as pd

from shadowtools.agency.expected import unit_of
from shadowtools.agency.irt import FIELD
from shadowtools.agency.retakers import Retakes
from shadowtools.agency.scoring import SHORT_NAMES, Scorer
from shadowtools.agency.simulation import Broken, Examination, Estimates, band_names, broken_rules, estimates
from shadowtools.command import Refused
from shadowtools.formats.examination import Rule, Session
from shadowtools.formats.exposure import Exposure
from shadowtools.formats.tables import number, read_table
from shadowtools.page.measures import levels, local_weights, marginal_reliability, mean_overlap, standard_error

BAND_EDGES = (-2, -1, 0, 1, 2)    # standard deviations of the prior
MOST_POINTS = 20


# ---------------------------------------------------------------- the target of an agency

@dataclass(frozen=True)
class Target:
    """What a test is to measure: by ability (logits, ascending) the information, or the standard error, that is asked for.
    Between two abilities it is interpolated in a straight line; outside of them nothing is asked."""
    abilities: np.ndarray
    values: np.ndarray
    is_error: bool
    name: str

    def information(self, ability: np.ndarray) -> np.ndarray:
        """The information that is asked for at each ability, NaN where nothing is."""
        values = np.interp(ability, self.abilities, self.values, left=np.nan, right=np.nan)
        return 1 / values ** 2 if self.is_error else values


def read_target(path: str) -> Target:
    """A table with the columns `ability` and `information` or `se`, at least two rows, in the order of ability."""
    head, rows = read_table(path)
    column = next((name for name in ("information", "se") if name in head), None)
    if "ability" not in head or column is None or len(head) != 2:
        raise Refused(f"{path}: line 1: the columns are ability and information, or ability and se")
    table = [(number(path, line, row, "ability"), number(path, line, row, column)) for line, row in rows]
    abilities, values = np.array([a for a, _ in table]), np.array([v for _, v in table])
    if len(table) < 2 or (np.diff(abilities) <= 0).any() or (values <= 0).any():
        raise Refused(f"{path}: at least two rows, with abilities that ascend and values above 0")
    return Target(abilities, values, column == "se", os.path.basename(path))


def target_of(words: Optional[Sequence[str]]) -> Optional[Target]:
    """The target of the words after --target: a file, or LOW HIGH INFORMATION."""
    if not words:
        return None
    if len(words) == 1:
        return read_target(words[0])
    try:
        low, high, information = map(float, words)
    except ValueError:
        raise Refused(f"--target {' '.join(words)}: a file, or LOW HIGH INFORMATION")
    if not (np.isfinite([low, high, information]).all() and low < high and information > 0):
        raise Refused(f"--target {' '.join(words)}: LOW below HIGH, and INFORMATION above 0")
    return Target(np.array([low, high]), np.array([information, information]), False, f"{information:g} between {low:g} and {high:g}")


# ---------------------------------------------------------------- what is asked of the page

@dataclass(frozen=True)
class Questions:
    """What the page is asked: the target, the edges of the ability bands (ascending) and whether they are bands of the estimate, and
    the two abilities between which the page states the standard error: where none are named, those of the plan's prior."""
    target: Optional[Target] = None
    edges: Optional[Sequence[float]] = None
    by_estimate: bool = False
    between: Optional[Sequence[float]] = None


@dataclass
class Band:
    """Examinees of like ability: their rows in the tables of the study. `added` are those of the tails."""
    label: str
    members: np.ndarray
    added: bool = False


def interval_bands(values: np.ndarray, rows: np.ndarray, edges: Sequence[float]) -> List[Band]:
    """The bands between the edges that have an examinee; an edge belongs to the band above it."""
    names, where = interval_names(edges), levels(values, edges)
    return [Band(names[k], rows[where == k]) for k in np.unique(where)]


def interval_names(edges: Sequence[float]) -> List[str]:
    """The names of the intervals below, between and above the edges."""
    between = [f"{plain(low)} to {plain(high)}" for low, high in zip(edges, edges[1:])]
    return [f"below {plain(edges[0])}", *between, f"{plain(edges[-1])} and above"]


def point_bands(values: np.ndarray, rows: np.ndarray, added: bool) -> List[Band]:
    """A band for each ability that there is."""
    return [Band(f"at {plain(point)}", rows[values == point], added) for point in np.unique(values)]


def plain(value: float) -> str:
    """A number with a minus sign."""
    return f"{value:g}".replace("-", "\N{MINUS SIGN}")


def signed(value: float, places: int = 3) -> str:
    """A number with its sign, or a dash where it is none."""
    return f"{value:+.{places}f}".replace("-", "\N{MINUS SIGN}") if np.isfinite(value) else "–"


def fixed(value: float, places: int = 3) -> str:
    """A number with these places, or a dash where it is none."""
    return f"{value:.{places}f}".replace("-", "\N{MINUS SIGN}") if np.isfinite(value) else "–"


# ---------------------------------------------------------------- the study

class Study:
    """The whole sessions of a simulation: first those of the sample, then those of the tails.

    `counts` has the exposure of the sample by its journal, in all and in each band of the estimate that is watched.
    `people` has a row for each session: booking, true ability, estimates, information at the true ability and its standard
    error, and what `scorer` reports of it: the estimate `theta` with its standard error `se`, the score `scale` as it is printed, and the
    `level`. `shown` and `eligible` are arrays [session, item]. `sample` has the rows that count in the totals. Second sittings are none of
    the sessions: `retakes` has them, if there are any, and `broken_second` the rules that they break."""

    def __init__(self, examination: Examination, run: dict, sample: List[Session], tails: List[Session],
                 rules: List[Rule], questions: Questions, counts: Exposure, scorer: Scorer,
                 retakes: Optional[Retakes] = None) -> None:
        self.examination, self.run, self.rules, self.questions, self.counts = examination, run, rules, questions, counts
        self.scorer, self.short_name = scorer, SHORT_NAMES[scorer.asked.estimate]
        self.cuts, self.unit = np.array(scorer.cuts), unit_of(examination.map["theta"])
        self.sessions = sample + tails
        self.items, self.length = examination.items, examination.plan.length
        self.names = np.array([item.name for item in examination.items])
        self.sample, self.tails = np.arange(len(sample)), np.arange(len(sample), len(self.sessions))
        self.shown, self.eligible = self.tables_of_items()
        self.people = self.table_of_people(estimates(examination, self.sessions))
        self.broken: List[Broken] = broken_rules(rules, self.sessions, examination.bank)
        self.retakes = retakes
        self.broken_second = broken_rules(rules, [second for _, second in retakes.pairs], examination.bank) if retakes else []
        self.rate = examination.plan.rate[0] / examination.plan.rate[1]
        self.controlled = self.rate < 1
        # Where the plan has bands its rate is of the visits of a band, of which a test has so many in the mean; else of the tests.
        self.is_per_visit = self.controlled and bool(examination.plan.points)
        self.visits = sum(band.visited for band in counts.bands) / max(1, counts.total.visited)
        self.bands = self.bands_by(self.people.theta if questions.by_estimate else self.people.true)
        self.bands_of_truth = self.bands_by(self.people.true)

    def tables_of_items(self):
        shown = np.zeros((len(self.sessions), len(self.items)), bool)
        eligible = np.zeros_like(shown)
        for k, session in enumerate(self.sessions):
            shown[k, session.items] = True
            eligible[k, sorted(session.could)] = True
        return shown, eligible

    def table_of_people(self, found: Estimates) -> pd.DataFrame:
        true = np.array([self.run["true"][session.booking] for session in self.sessions], float)
        each = np.array([item.information(true, self.examination.scaling) for item in self.items])
        self.best = np.sort(each, 0)[::-1][:self.length].sum(0)
        information = (each.T * self.shown).sum(1)
        scores, scale = [self.scorer.score(session) for session in self.sessions], self.scorer.scale
        return pd.DataFrame({
            "session": np.arange(len(true)), "booking": [session.booking for session in self.sessions],
            "part": ["sample"] * len(self.sample) + ["tails"] * len(self.tails), "true": true, "mode": found.mode,
            "map": found.map, "eap": found.eap, "posterior_sd": found.deviation, "mle": found.mle,
            "information": information, "standard_error": standard_error(information),
            "theta": [one.theta for one in scores], "se": [one.error for one in scores],
            "scale": [float(scale.score(one.theta)) for one in scores],
            "level": [scale.levels[scale.level(scale.score(one.theta))] if scale.cuts else "" for one in scores],
            "remark": [scale.end(one) for one in scores]})

    def bands_by(self, values: pd.Series) -> List[Band]:
        """The bands of the sample, and after them a band for each ability of the tails."""
        values = values.to_numpy()
        inside, edges = values[self.sample], self.questions.edges
        if edges is None and len(np.unique(inside)) <= MOST_POINTS:
            found = point_bands(inside, self.sample, False)
        else:
            found = interval_bands(inside, self.sample, edges or list(map(self.examination.expected.at, BAND_EDGES)))
        return found + point_bands(self.people.true.to_numpy()[self.tails], self.tails, True)

    def mean_information(self, at: np.ndarray) -> np.ndarray:
        """At each ability what tests inform in the mean: the best of the bank there, times the mean share of it that the tests of
        examinees near it have at their own abilities, those of the tails with them. It is never above the best."""
        information = self.people.information.to_numpy()
        shares = np.divide(information, self.best, out=np.zeros_like(information), where=self.best > 0)
        return self.best_of_bank(at) * (local_weights(at, self.people.true.to_numpy()) @ shares)

    def abilities(self) -> np.ndarray:
        """The abilities of a curve: from the least to the greatest true ability."""
        return np.linspace(self.people.true.min(), self.people.true.max(), 121)

    def exposure(self, members: np.ndarray) -> np.ndarray:
        """By item the share of these sessions in which it was shown."""
        return self.shown[members].mean(0)

    def above_rate(self) -> np.ndarray:
        """By item whether it was shown above the rate: in the visits of some band where the rate is of these, else in the tests."""
        if self.is_per_visit:
            return (np.array([band.rates() for band in self.counts.bands]) > self.rate).any(0)
        return self.exposure(self.sample) > self.rate

    def overlap(self, members: np.ndarray) -> float:
        return mean_overlap(self.shown[members], self.length)

    def best_of_bank(self, at: np.ndarray) -> np.ndarray:
        """The information of the best items of the bank at each ability, without any rule."""
        bank = np.stack([item.information(at, self.examination.scaling) for item in self.items])
        return np.sort(bank, 0)[::-1][:self.length].sum(0)


def is_of_ability(study: Study) -> bool:
    """Whether scores are reported as abilities."""
    return list(study.scorer.asked.scale) == [0.0, 1.0]


def names_of_cuts(study: Study) -> List[str]:
    """The cut scores, each on another scale than that of ability with its ability."""
    scale = study.scorer.scale
    if is_of_ability(study):
        return [plain(cut) for cut in scale.cuts]
    return [f"{plain(cut)} ({plain(round(ability, 3))} {study.unit})" for cut, ability in zip(scale.cuts, study.cuts)]


def reliability_of(study: Study) -> Tuple[float, int]:
    """The marginal reliability of the scores of the sample, and how many scores stopped at an end and are left out of it: those of an
    estimate by likelihood, which have no error there. NaN where there is none, or it is below 0."""
    people = study.people.iloc[study.sample]
    if study.scorer.exact:
        inside = people[people.remark == ""]
        value = marginal_reliability(inside.true, inside.se ** 2, False) if len(inside) else np.nan
        return value, len(people) - len(inside)
    value = marginal_reliability(people.true, people.se ** 2)
    return (value if value >= 0 else np.nan), 0


def estimates_of(study: Study) -> List[str]:
    """The estimates of each band that is watched, with minus signs."""
    return [name.replace("-", "\N{MINUS SIGN}") for name in band_names(study.examination.theta, study.counts.points)]


def table_by_item(study: Study) -> pd.DataFrame:
    """A row for each item of the bank: how often it was shown to the sample, the rate with what it is a share of, and what it
    informs at most.

    `mean_step` counts from 0, and is empty where the item was never shown. A column for each band of the page has the exposure
    there, and where bands of the estimate are watched one for each of those the rate in it."""
    examination, sample = study.examination, study.sample
    theta = examination.theta
    information = np.stack([item.information(theta, examination.scaling) for item in study.items])
    steps = [[] for _ in study.items]
    for session in study.sessions[:len(sample)]:
        for step, item in enumerate(session.items):
            steps[item].append(step)
    passages, exposure = examination.map["passages"], study.exposure(sample)
    table = pd.DataFrame({
        "number": np.arange(len(study.items)), "item": study.names,
        "passage": [passages[item.passage - 1] if 0 < item.passage <= len(passages) else "" for item in study.items],
        "field_test": [item.model == FIELD for item in study.items], "shown": study.shown[sample].sum(0),
        "exposure": exposure, "eligible": study.eligible[sample].mean(0),
        "rate": study.rate, "rate_of": "visits" if study.is_per_visit else "tests", "above_rate": study.above_rate(), "never_shown": exposure == 0,
        "greatest_information": information.max(1), "at_ability": theta[information.argmax(1)],
        "mean_step": [float(np.mean(one)) if one else np.nan for one in steps]})
    for band in study.bands:
        table["exposure " + band.label.replace("\N{MINUS SIGN}", "-")] = study.exposure(band.members)
    for band, counts in enumerate(study.counts.watched if study.counts.points else []):
        table[f"rate in band {band}"] = counts.rates()
    return table


def table_by_band(study: Study, bands: Sequence[Band]) -> pd.DataFrame:
    """A row for each band: its examinees, bias and error of the estimate that is reported, standard errors, exposure and overlap."""
    rows = []
    for band in bands:
        people, exposure = study.people.iloc[band.members], study.exposure(band.members)
        errors = (people.theta - people.true).to_numpy()
        rows.append({
            "band": band.label, "added": band.added, "examinees": len(people), "ability": people.true.mean(),
            "bias": errors.mean(), "bias_error": errors.std(ddof=1) / np.sqrt(len(errors)) if len(errors) > 1 else np.nan,
            "rmse": np.sqrt((errors ** 2).mean()), "reported_error": people.se.mean(),
            "standard_error": float(standard_error(people.information.mean())),
            "most_shown": study.names[exposure.argmax()], "greatest_exposure": exposure.max(),
            "above_rate": int((exposure > study.rate).sum()), "never_shown": int((exposure == 0).sum()),
            "overlap": study.overlap(band.members)})
    return pd.DataFrame(rows)


def table_by_rule(study: Study) -> pd.DataFrame:
    """A row for each rule of the plan: its line there, its bounds, and over the tests that it speaks of, the tails with them, the least, mean
    and greatest value, the shares at each bound, and in how many it is broken. A rule that speaks of no test has no value."""
    columns = ["line", "rule", "low", "high", "tests", "least", "mean", "greatest", "at_low", "at_high", "broken"]
    rows = []
    for rule in study.rules:
        found = [rule.value(session.items, study.examination.bank) for session in study.sessions]
        values = np.array([value for value in found if value is not None])
        over = [values.min(), values.mean(), values.max(), (values == rule.low).mean(), (values == rule.high).mean()] if len(values) else [""] * 5
        rows.append([rule.line, rule.label, rule.low, rule.high, len(values), *over, sum(one.rule is rule for one in study.broken)])
    return pd.DataFrame(rows, columns=columns)


def answers(study: Study) -> pd.DataFrame:
    """A row for each answer: session, booking, step from 0, item and response, as score.py --answers has them."""
    rows = [(number, session.booking, step, study.names[item], response) for number, session in enumerate(study.sessions)
            for step, (item, response) in enumerate(zip(session.items, session.responses))]
    return pd.DataFrame(rows, columns=["session", "booking", "step", "item", "response"])
