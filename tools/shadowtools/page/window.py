"""The technical report of a window of real examinees: its verdicts and sections, in the order of those who sign it.

No true ability is known, so the page has no bias, no root mean square error and no tails; its last section says so.
"""
import os
from collections import Counter
from dataclasses import dataclass
from typing import Dict, Iterator, List, Optional, Sequence, Tuple

import numpy as np

from shadowtools.agency.fit import ItemFit, PersonFit, Population
from shadowtools.agency.scoring import NAMES, words_of
from shadowtools.agency.simulation import band_names
from shadowtools.agency.window import QUICK, Agreement, Audits, Reliability, Retest, Window
from shadowtools.checkers.audit import Seal
from shadowtools.page import window_pictures as pictures
from shadowtools.page.measures import mean_overlap
from shadowtools.page.parts import Facts, Note, Pictures, Section, Signatures, Table, Verdict
from shadowtools.page.sections import named, rules as rules_section
from shadowtools.page.study import fixed, interval_names, plain, signed
from shadowtools.page.verdicts import MEASURED, MET, NOT_MET

FEWEST, FAR = 20, 3     # answers of an item that is judged, and the |z| above which it is marked
BY_CHANCE = 2 * 0.0027  # share of items without a fault of which one of the two z is above 3, at most
UNSURE = 0.3
MOST_LISTED = 40
SIGNERS = ("Psychometrician", "Head of testing")


@dataclass
class Group:
    """Examinees of one group of the agency's table: their places among the scored ones, their own population, and the fit of the items
    to their answers (none where there are too few)."""
    name: str
    places: np.ndarray
    population: Optional[Population]
    fits: List[ItemFit]


def judged_of(fits: Sequence[ItemFit]) -> List[ItemFit]:
    """The items with enough answers, the farthest from their parameters first."""
    enough = [one for one in fits if one.answers >= FEWEST and np.isfinite(one.z)]
    return sorted(enough, key=lambda one: (-abs(one.farthest), one.item))


def marked_of(fits: Sequence[ItemFit]) -> int:
    return sum(abs(one.farthest) > FAR for one in fits)


@dataclass
class Findings:
    """All that the page is made of. `agreement` is that of simulated second sittings; `files` has name and SHA-256 of each file."""
    window: Window
    audits: Audits
    seals: Sequence[Tuple[str, Seal, bool]]
    population: Optional[Population]
    fits: List[ItemFit]
    examinees: Optional[PersonFit]
    answered: List[int]
    reliability: Reliability
    agreement: Optional[Agreement]
    retests: List[Retest]
    groups: List[Group]
    edges: Sequence[float]
    seed: int
    facts: List[Tuple[str, str]]
    files: List[Tuple[str, str]]

    @property
    def judged(self) -> List[ItemFit]:
        """The items that have enough answers for a judgement, the farthest from their parameters first."""
        return judged_of(self.fits)

    @property
    def unlike(self) -> List[Tuple[int, float]]:
        """The sessions whose lz is below its limit, and their lz, the least first."""
        if self.examinees is None:
            return []
        found = [(number, float(lz)) for number, lz in zip(self.answered, self.examinees.lz) if lz < self.examinees.limit]
        return sorted(found, key=lambda pair: pair[1])

    @property
    def holds(self) -> bool:
        """Whether both audits agree, each seal is of this journal, and no complete test breaks a rule."""
        return self.audits.agree and all(good for _, _, good in self.seals) and not self.window.broken


def points(window: Window, value: float) -> str:
    """A number of the reported scale: two decimals in logits, else as many as the score has, and one."""
    places = 2 if list(window.scorer.asked.scale) == [0.0, 1.0] else min(2, window.scorer.scale.decimals + 1)
    return fixed(value, places)


def score(window: Window, number: int) -> str:
    """The score of a session as it is printed, or a dash where it has none."""
    place = window.places.get(number)
    return "–" if place is None else fixed(window.scale[place], window.scorer.scale.decimals)


def percent(share: float) -> str:
    return f"{share:.1%}" if np.isfinite(share) else "–"


def count(number: int, word: str, more: str = "s") -> str:
    return f"{number:,} {word}{'' if number == 1 else more}"


def listed(window: Window, numbers: Sequence[int]) -> str:
    """Sessions by number with their bookings."""
    some = ", ".join(f"{number} (booking {window.sessions[number].booking})" for number in numbers[:MOST_LISTED])
    return some + (f", and {len(numbers) - MOST_LISTED} more" if len(numbers) > MOST_LISTED else "")


# ---------------------------------------------------------------- verdicts

def verdicts(found: Findings) -> List[Verdict]:
    """What was promised and what was measured, in the order of those who sign."""
    window = found.window
    return [audit(found), *seals(found), rules(window), *precision(window), reliability(found), *decisions(found), *exposure(window),
            overlap(window), item_fit(found), *person_fit(found), proofs(window), sessions(window), *retakers(found), annulled(window),
            *groups(found), times(window)]


def audit(found: Findings) -> Verdict:
    line = found.audits.second[0]
    if found.audits.program is None:
        return Verdict(MEASURED, f"The journal follows from this bank and plan by tools/audit.py alone: {line}. The program that would have to "
                                 "agree was not there.")
    if found.audits.agree:
        return Verdict(MET, f"The journal follows from this bank and plan: {line}. A second program, which shares no text with the first, agrees "
                            f"in each of {len(found.audits.second):,} lines.")
    return Verdict(NOT_MET, f"Two programs do not agree on the journal: shadowd audit has {found.audits.program[0]}, tools/audit.py {line}.")


def seals(found: Findings) -> Iterator[Verdict]:
    if not found.seals:
        yield Verdict(MEASURED, "No seal was given (--seals), so nothing here shows when the journal had which records.")
    for path, seal, good in found.seals:
        of = f"the seal “{os.path.basename(path)}” of {count(seal.records, 'record')}"
        yield Verdict(MET, f"The journal goes on from {of}.") if good else Verdict(NOT_MET, f"The journal does not go on from {of}.")


def rules(window: Window) -> Verdict:
    bad = {one.rule.line for one in window.broken}
    text = f"{len(window.rules) - len(bad):,} of {len(window.rules):,} rules are met in each of {count(len(window.complete), 'complete test')} " \
           f"of {window.length} items"
    if bad:
        tests = len({one.session for one in window.broken})
        return Verdict(NOT_MET, f"{text}; {count(tests, 'test')} break a rule. The first is “{window.broken[0].rule.label}”.")
    return Verdict(MET if window.complete else MEASURED, text + ".")


def precision(window: Window) -> Iterator[Verdict]:
    if not len(window.error):
        yield Verdict(MEASURED, "No session has a score.")
        return
    error = window.unit * window.error
    yield Verdict(MEASURED, f"The standard error of the reported score is {points(window, float(np.sqrt((error ** 2).mean())))} in the root mean "
                            f"square of {count(len(error), 'score')}, from {points(window, error.min())} to {points(window, error.max())}.")


def reliability(found: Findings) -> Verdict:
    one, estimate = found.reliability, found.window.scorer.asked.estimate
    formula = "variance / (variance + mean error variance)" if estimate in ("eap", "mode") else "(variance − mean error variance) / variance"
    left = f"; {count(one.left_out, 'score')} at an end of the scale {'is' if one.left_out == 1 else 'are'} left out" if one.left_out else ""
    if not np.isfinite(one.value):
        return Verdict(MEASURED, f"The {NAMES[estimate]} of these {one.scores:,} scores has no reliability, by {formula}{left}.")
    return Verdict(MEASURED, f"The reliability of the {NAMES[estimate]} is {one.value:.3f} in this window, by {formula} of {one.scores:,} scores{left}.")


def decisions(found: Findings) -> Iterator[Verdict]:
    window = found.window
    if not len(window.scorer.scale.cuts) or not len(window.wrong):
        return
    text = f"{percent(float(1 - window.wrong.mean()))} of {count(len(window.wrong), 'decision')} are expected to be right (accuracy)"
    if found.agreement:
        text += f", and {percent(found.agreement.share)} the same in a second sitting (consistency; kappa {fixed(found.agreement.kappa, 2)})"
    unsure = int((window.wrong > UNSURE).sum())
    yield Verdict(MEASURED, f"{text}. {unsure:,} {'has' if unsure == 1 else 'have'} an error above {UNSURE:.0%}. "
                            f"{rests_on_prior(window)} on the plan's prior.")


def rests_on_prior(window: Window) -> str:
    """Which of accuracy and consistency take the plan's prior for true: the error of a likelihood estimate's level does not."""
    return "Both rest" if window.scorer.asked.estimate in ("eap", "mode") else "The consistency rests"


def exposure(window: Window) -> Iterator[Verdict]:
    rates = window.exposure
    if not window.complete:
        return
    most = f"the greatest exposure is {percent(rates.max())} of the complete tests (item {window.names[rates.argmax()]})"
    never = f"{int((rates == 0).sum())} of {len(rates)} items were never shown"
    steered, by_band = window.rate < 1, bool(window.counts.plan.points)
    if not steered:
        yield Verdict(MEASURED, f"The plan has no exposure rate; {most}. {never}.")
    elif by_band:
        yield Verdict(MEASURED, f"Per test, {most}. {never}. The rate {window.rate:.1%} of the plan is per visit of a band.")
        yield by_visit(window)
    else:
        above = int((rates > window.rate).sum())
        yield Verdict(NOT_MET if above else MET, f"{count(above, 'item')} {'is' if above == 1 else 'are'} above the rate of {window.rate:.1%} (per "
                                                 f"test); {most}. {never}.")


def by_visit(window: Window) -> Verdict:
    """Whether the rate is kept in each band of the estimate, per visit."""
    rates = np.array([counts.rates() for counts in window.counts.bands])
    band, item = np.unravel_index(rates.argmax(), rates.shape)
    above = int((rates > window.rate).any(0).sum())
    return Verdict(NOT_MET if above else MET, f"{count(above, 'item')} {'is' if above == 1 else 'are'} above the rate of {window.rate:.1%} (per visit) "
                                              f"in some band of the estimate; the greatest is {percent(rates.max())} of the visits (item "
                                              f"{window.names[item]} in band {band}).")


def overlap(window: Window) -> Verdict:
    return Verdict(MEASURED, f"Two complete tests share {percent(mean_overlap(window.shown, window.length))} of their items in the mean.")


def item_fit(found: Findings) -> Verdict:
    judged = found.judged
    if not judged:
        return Verdict(MEASURED, f"No item has {FEWEST} answers, so the fit of the items is not judged.")
    first = judged[0]
    which = f"z {signed(first.z, 2)}" if first.farthest == first.z else f"z along ability {signed(first.along, 2)}"
    return Verdict(MEASURED, f"{marked_of(judged)} of {len(judged)} items with {FEWEST} answers or more differ from their parameters by more than "
                             f"{FAR} standard errors; by chance {BY_CHANCE * len(judged):.1f} would at most. The most is {found.window.names[first.item]}: "
                             f"mean answer {first.mean:.3f}, expected {first.expected:.3f} ({which}).")


def person_fit(found: Findings) -> Iterator[Verdict]:
    if found.examinees is not None:
        number = len(found.answered)
        yield Verdict(MEASURED, f"{len(found.unlike)} of {count(number, 'examinee')} answered in a way that 1 in 100 simulated examinees does (lz below "
                                f"{fixed(found.examinees.limit, 2)}); by chance {0.01 * number:.1f} would.")


def proofs(window: Window) -> Verdict:
    marks = [one.proved for session in window.of(window.kept) for one in session.served]
    aside = sum(bool(session.aside) for session in window.of(window.kept))
    mark = MET if all(marks) else MEASURED
    return Verdict(mark, f"{sum(marks):,} of {count(len(marks), 'form')} are proved best. Eligibility was set aside in {count(aside, 'test')}.")


def sessions(window: Window) -> Verdict:
    return Verdict(MEASURED, f"{count(len(window.complete), 'test')} {'is' if len(window.complete) == 1 else 'are'} complete, "
                             f"{len(window.closed):,} closed before the end, {len(window.still_open):,} open.")


def retakers(found: Findings) -> Iterator[Verdict]:
    window = found.window
    lists = sum(bool(session.without) for session in window.of(window.kept))
    text = f"{count(lists, 'session')} {'was' if lists == 1 else 'were'} begun with items left out"
    if window.beside.persons is None or not any(one.name for one in window.beside.persons.values()):
        yield Verdict(MEASURED, f"{text}. No list of persons was given (--persons), so nothing is known of who sat twice.")
        return
    common = [one.overlap for one in found.retests]
    far = sum(abs(one.change) > FAR for one in found.retests)
    more = f"; the two share {percent(float(np.mean(common)))} of their items in the mean, and {far} changed by more than {FAR} standard errors" if common else ""
    yield Verdict(MEASURED, f"{text}. {count(len(common), 'test')} {'is' if len(common) == 1 else 'are'} of a person with a test before{more}.")


def annulled(window: Window) -> Verdict:
    given = window.beside.annulled
    if given is None:
        return Verdict(MEASURED, "No list of annulled sessions was given (--annul).")
    by_reason = ", ".join(f"{number} {reason}" for reason, number in sorted(Counter(given.values()).items()))
    return Verdict(MEASURED, f"{count(len(given), 'session')} {'is' if len(given) == 1 else 'are'} annulled and in none of the numbers but the audit's, "
                             f"the seals' and the visits'{': ' + by_reason if by_reason else ''}.")


def groups(found: Findings) -> Iterator[Verdict]:
    judged = [group for group in found.groups if group.population]
    if judged:
        fits = [one for group in judged for one in judged_of(group.fits)]
        yield Verdict(MEASURED, f"In {count(len(judged), 'group')}, {marked_of(fits)} of {len(fits)} items differ from their parameters by more than {FAR} "
                                f"standard errors beside the group's own abilities; by chance {BY_CHANCE * len(fits):.1f} would at most.")


def times(window: Window) -> Verdict:
    if window.beside.times is None:
        return Verdict(MEASURED, "No times were given (--times): a journal has none.")
    seconds = kept_times(window)
    answers = sum(len(session.responses) for session in window.of(window.kept))
    if not seconds:
        return Verdict(MEASURED, f"None of {answers:,} answers has a time.")
    values = np.array([value for _, value in seconds])
    return Verdict(MEASURED, f"{len(values):,} of {answers:,} answers have a time: median {np.median(values):.1f} s, 95th percentile "
                             f"{np.quantile(values, 0.95):.1f} s; {int((values < QUICK).sum()):,} took less than {QUICK:g} s.")


def kept_times(window: Window) -> List[Tuple[int, float]]:
    """Pairs of item and seconds, of the sessions that are not annulled."""
    kept = set(window.kept)
    return [(window.sessions[number].items[step], seconds) for (number, step), seconds in sorted((window.beside.times or {}).items())
            if number in kept]


# ---------------------------------------------------------------- sections

def sections(found: Findings) -> List[Section]:
    """All sections, in the order of the verdicts."""
    window = found.window
    return [identity(found), of_rules(window), of_precision(found), *of_decisions(found), of_exposure(found), *of_visits(window),
            of_items(found), *of_examinees(found), of_sessions(window), *of_retakers(found), *of_annulled(window), *of_groups(found),
            *of_times(window), left_out(), files(found)]


def identity(found: Findings) -> Section:
    window, scale, asked = found.window, found.window.scorer.scale, found.window.scorer.asked
    prior = found.window.examination.map["prior"]
    rows = [("Examination", os.path.basename(window.examination.prefix)),
            ("Sessions", f"{len(window.sessions):,} in the journal; {len(window.complete):,} complete, {len(window.closed):,} closed, "
                         f"{len(window.still_open):,} open, {len(window.sessions) - len(window.kept):,} annulled"),
            ("Reported score", f"{NAMES[asked.estimate]}; scale {words_of(asked.scale)}; obtainable {plain(scale.low)} to {plain(scale.high)}"),
            ("Cut scores", ", ".join(map(plain, scale.cuts)) or "none"),
            ("Prior of the plan", "flat" if prior == ["flat"] else f"normal, mean {prior[0]}, standard deviation {prior[1]} logits")]
    if found.population:
        rows.append(("Abilities of this window, by marginal likelihood", f"mean {signed(found.population.mean, 2)}, standard deviation "
                                                                         f"{fixed(found.population.deviation, 2)} logits"))
    return Section("identity", "The window", [Facts(rows + found.facts)])


def of_rules(window: Window) -> Section:
    """The rules over the complete tests, as the report of a simulation has them; and how far closed tests came."""
    section = rules_section(Tests(window))
    section.parts[-1] = Note(
        "Counted here from the items of each complete test, by a reader of the plan that shares nothing with the product. The rule of a "
        "passage is counted in the tests that use it; passages with the same bounds are in one row.")
    if window.closed:
        rows = [[str(number), str(window.sessions[number].booking), f"{len(window.sessions[number].responses)} of {window.length}",
                 f"{met_so_far(window, number)} of {len(window.rules)}"] for number in window.closed[:MOST_LISTED]]
        section.parts.append(Table(["Session", "Booking", "Answered", "Rules that its items meet"], rows,
                                   f"Closed tests, {min(len(window.closed), MOST_LISTED)} of {len(window.closed)}"))
    return section


@dataclass
class Tests:
    """The complete tests as the section on rules reads them."""
    window: Window

    def __post_init__(self) -> None:
        self.rules, self.broken, self.examination = self.window.rules, self.window.broken, self.window.examination
        self.sessions = self.window.of(self.window.complete)


def met_so_far(window: Window, number: int) -> int:
    items = window.sessions[number].items
    return sum(rule.met(items, window.examination.bank) for rule in window.rules)


def of_precision(found: Findings) -> Section:
    window, parts = found.window, []
    if len(window.error):
        scale = window.scorer.scale
        parts.append(Pictures([pictures.scores(window), pictures.errors(window)]))
        if len(scale.cuts):
            parts.append(error_table(window, [(name, window.level == level) for level, name in enumerate(scale.levels)], "Level"))
        places = np.searchsorted(np.asarray(found.edges, float), window.scale, side="right")
        names = interval_names(found.edges)
        parts.append(error_table(window, [(name, places == k) for k, name in enumerate(names) if (places == k).any()], "Reported score"))
    parts.append(Note("The standard error is that which each examinee's result has. No true ability is known, so there is no root mean square "
                      "error and no bias: they are in the report of a simulation."))
    return Section("precision", "Standard error of the reported score", parts)


def error_table(window: Window, parts: Sequence[Tuple[str, np.ndarray]], head: str) -> Table:
    """A row for each part of the examinees: how many, and their standard errors."""
    rows = []
    for name, inside in parts:
        error = window.unit * window.error[inside]
        cells = [points(window, value) for value in (np.sqrt((error ** 2).mean()), error.min(), error.max())] if len(error) else ["–"] * 3
        rows.append([name, f"{len(error):,}", percent(len(error) / len(window.error)), *cells])
    return Table([head, "Examinees", "Share", "Standard error", "Least", "Greatest"], rows)


def of_decisions(found: Findings) -> List[Section]:
    window, scale = found.window, found.window.scorer.scale
    if not len(scale.cuts) or not len(window.wrong):
        return []
    rows = []
    for level, name in enumerate(scale.levels):
        wrong = window.wrong[window.level == level]
        rows.append([name, f"{len(wrong):,}", percent(1 - wrong.mean()) if len(wrong) else "–", f"{int((wrong > UNSURE).sum()):,}"])
    said = (f"Accuracy is the mean over the examinees of the probability that the true level is that of the score. Consistency: each examinee "
            f"sits again in a simulation, with the same items, at an ability drawn from the posterior (seed {found.seed}), and is scored the same "
            f"way. {rests_on_prior(window)} on the plan's prior for the distribution of ability, and both on the item parameters.")
    return [Section("decisions", "Decisions", [
        Table(["Level", "Examinees", "Expected to be right", f"Error above {UNSURE:.0%}"], rows), Note(said)])]


def of_exposure(found: Findings) -> Section:
    window, rates = found.window, found.window.exposure
    if not window.complete:
        return Section("exposure", "Exposure and overlap", [Note("No test is complete.")])
    rows = [("Items never shown", f"{(rates == 0).sum()} of {len(rates)}{named(window.names[rates == 0])}"),
            ("Greatest exposure, per test", f"{rates.max():.3f} (item {window.names[rates.argmax()]})"),
            ("Mean exposure", f"{window.length / len(rates):.3f}"),
            ("Mean overlap of two tests", fixed(mean_overlap(window.shown, window.length)))]
    return Section("exposure", "Exposure and overlap", [
        Pictures([pictures.exposure(window)]), Facts(rows), exposure_table(found), Note(
            "Exposure is the share of the complete tests in which an item was shown. A band is of the reported score. The file "
            "REPORT.items.csv has each item. Overlap is the share of common items of two tests, in the mean over all pairs (Chen, Ankenmann "
            "and Spray 2003).")])


def exposure_table(found: Findings) -> Table:
    """The exposure within bands of the reported score."""
    window = found.window
    scored = [(row, window.places[number]) for row, number in enumerate(window.complete) if number in window.places]
    rows_of, places = np.array([row for row, _ in scored], int), np.array([place for _, place in scored], int)
    band = np.searchsorted(np.asarray(found.edges, float), window.scale[places], side="right")
    rows = []
    for k, name in enumerate(interval_names(found.edges)):
        shown = window.shown[rows_of[band == k]]
        if len(shown):
            rates = shown.mean(0)
            rows.append([name, f"{len(shown):,}", fixed(rates.max()), window.names[rates.argmax()], f"{int((rates == 0).sum())}",
                         fixed(mean_overlap(shown, window.length))])
    return Table(["Reported score", "Complete tests", "Greatest exposure, per test", "Item", "Never shown", "Mean overlap"], rows)


def of_visits(window: Window) -> List[Section]:
    """The rates per visit, where the plan has bands."""
    if not window.counts.plan.points:
        return []
    rows = []
    for band, (counts, name) in enumerate(zip(window.counts.bands, band_names(window.examination.theta, window.counts.plan.points))):
        rates = np.array(counts.rates())
        cells = [fixed(rates.max()), window.names[rates.argmax()], f"{int((rates > window.rate).sum())}"] if counts.visited else ["–"] * 3
        rows.append([f"{band}", name.replace("-", "\N{MINUS SIGN}"), f"{counts.visited:,}", *cells, f"{counts.aside:,}"])
    return [Section("visits", "Exposure by bands of the estimate, per visit", [
        Table(["Band", "Estimates (logits)", "Visits", "Greatest rate, per visit", "Item", "Above the rate, per visit", "Set aside"], rows, texts=2), Note(
            f"The plan's rate {window.rate:.3f} is per visit: a test visits the band in which it begins, and each band in which an item is served to it. "
            "Counted as the program counts, over all finished sessions, closed and annulled ones with them.")])]


def of_items(found: Findings) -> Section:
    judged, window = found.judged, found.window
    if not judged:
        return Section("items", "Items beside their parameters", [Note(f"No item has {FEWEST} answers.")])
    rows = [[window.names[one.item], f"{one.answers:,}", percent(window.exposure[one.item]), fixed(one.mean), fixed(one.expected), signed(one.z, 2),
             signed(one.along, 2)] for one in judged]
    marked = frozenset((row, column) for row, one in enumerate(judged) for column, z in ((5, one.z), (6, one.along)) if abs(z) > FAR)
    return Section("items", "Items beside their parameters", [
        Pictures([pictures.fit(judged)]),
        Table(["Item", "Answers", "Exposure, per test", "Mean answer", "Expected", "z", "z along ability"], rows, marked=marked), Note(
            "Expected is the mean over the examinees that answered the item, each by the posterior of the other answers under the abilities of this "
            f"window. z is the difference in standard errors. z along ability weights the differences by ability: below 0 where able examinees do "
            f"worse than expected, and others better. Of items without a fault at most {BY_CHANCE * 10_000:.0f} in 10,000 have one of them above {FAR} or below −{FAR} "
            "by chance. A marked item may have drifted, have a wrong key, or have been leaked. It pulls on the others too, so look at the first of the table first.")])


def of_examinees(found: Findings) -> List[Section]:
    if found.examinees is None:
        return []
    window, rows = found.window, []
    for number, lz in found.unlike[:MOST_LISTED]:
        session = window.sessions[number]
        rows.append([str(number), str(session.booking), f"{len(session.responses)}", score(window, number), signed(lz, 2)])
    said = (f"lz is the log-likelihood of the answers at the estimate, standardised (Drasgow, Levine and Williams 1985). Its limit "
            f"{fixed(found.examinees.limit, 2)} is that of {found.examinees.simulated:,} simulated tests with the same items (seed {found.seed}): one in a "
            "hundred is below it. Answers that are unlikely show no cause: luck, a leak, a lost minute and a bad key look alike.")
    parts = [Table(["Session", "Booking", "Answered", "Score", "lz"], rows, f"The least, {len(rows)} of {len(found.unlike)}")] if rows else []
    return [Section("examinees", "Examinees whose answers are unlikely", [*parts, Note(said)])]


def of_sessions(window: Window) -> Section:
    unproved = [number for number in window.kept if not all(one.proved for one in window.sessions[number].served)]
    aside = [number for number in window.kept if window.sessions[number].aside]
    rows = [("Tests with a form that is not proved best", f"{len(unproved):,}{': ' + listed(window, unproved) if unproved else ''}"),
            ("Tests in which eligibility was set aside", f"{len(aside):,}{': ' + listed(window, aside) if aside else ''}"),
            ("Closed before the end", f"{len(window.closed):,}{': ' + listed(window, window.closed) if window.closed else ''}"),
            ("Open", f"{len(window.still_open):,}{': ' + listed(window, window.still_open) if window.still_open else ''}"),
            ("Without a score", f"{len(window.kept) - len(window.scored):,}")]
    return Section("sessions", "Proofs, closed and open tests", [Facts(rows)])


def of_retakers(found: Findings) -> List[Section]:
    if not found.retests:
        return []
    window = found.window
    order = sorted(found.retests, key=lambda one: -abs(one.change))[:MOST_LISTED]
    rows = [[one.person, str(one.first), str(one.second), percent(one.overlap), score(window, one.first), score(window, one.second),
             signed(one.change, 1)] for one in order]
    marked = frozenset((row, 6) for row, one in enumerate(order) if abs(one.change) > FAR)
    return [Section("retakers", "Persons who sat twice", [
        Table(["Person", "Session", "and session", "Common items", "Score", "and score", "Change in standard errors"], rows,
              f"The greatest changes, {len(rows)} of {len(found.retests)}", marked=marked),
        Note("Common items is the share of the second test's items that the first had too. The standard error is that of the difference.")])]


def of_annulled(window: Window) -> List[Section]:
    if not window.beside.annulled:
        return []
    rows = [[str(number), str(window.sessions[number].booking), reason] for number, reason in sorted(window.beside.annulled.items())]
    return [Section("annulled", "Annulled sessions", [Table(["Session", "Booking", "Reason"], rows, texts=3)])]


def of_groups(found: Findings) -> List[Section]:
    if not found.groups:
        return []
    rows = [group_row(found.window, group) for group in found.groups]
    return [Section("groups", "Groups of examinees", [
        Table(["Group", "Examinees", "Mean score", "SD", "Standard error", "Expected to be right", "Mean ability", "SD of ability", "Items above 3",
               "The most", "z"], rows), Note(
            "Abilities are estimated by marginal likelihood within each group, and the items are held against the group's own: a marked item "
            f"may work otherwise in this group. Groups of fewer than {FEWEST} examinees have no such columns.")])]


def group_row(window: Window, group: Group) -> List[str]:
    scale, error, wrong = window.scale[group.places], window.unit * window.error[group.places], window.wrong[group.places]
    spread = points(window, scale.std(ddof=1)) if len(scale) > 1 else "–"
    cells = [group.name, f"{len(scale):,}", points(window, scale.mean()), spread, points(window, np.sqrt((error ** 2).mean())),
             percent(1 - wrong.mean())]
    judged = judged_of(group.fits)
    if not group.population or not judged:
        return cells + ["–"] * 5
    return cells + [signed(group.population.mean, 2), fixed(group.population.deviation, 2), str(marked_of(judged)),
                    window.names[judged[0].item], signed(judged[0].farthest, 1)]


def of_times(window: Window) -> List[Section]:
    by_item: Dict[int, List[float]] = {}
    for item, seconds in kept_times(window):
        by_item.setdefault(item, []).append(seconds)
    if not by_item:
        return []
    rows = [[window.names[item], f"{len(values):,}", fixed(np.median(values), 1), fixed(np.quantile(values, 0.95), 1),
             f"{sum(value < QUICK for value in values):,}"] for item, values in sorted(by_item.items())]
    return [Section("times", "Times", [
        Table(["Item", "Answers with a time", "Median (s)", "95th percentile (s)", f"Below {QUICK:g} s"], rows),
        Note("From shown to answered by the application's clock. The journal has no times, so nothing here tests them.")])]


def left_out() -> Section:
    return Section("left-out", "What this page leaves out", [Note(
        "True abilities are not known of real examinees. So the page has no bias, no root mean square error, no accuracy beside the truth, and "
        "no tails of the scale; they are in the report of a simulation of the same bank and plan.")])


def files(found: Findings) -> Section:
    return Section("files", "Files", [Facts([(f"SHA-256, {name}", value) for name, value in found.files], "files"), Signatures(list(SIGNERS))])
