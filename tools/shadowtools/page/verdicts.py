"""The sentences at the head of the page: what was asked of the test, and whether it is so in the simulation."""
from typing import Iterator, List

import numpy as np

from shadowtools.agency.scoring import words_of
from shadowtools.page.measures import accuracy, consistency, level_chances, levels, standard_error
from shadowtools.page.parts import Verdict
from shadowtools.page.study import Study, fixed, is_of_ability, names_of_cuts, plain, reliability_of, table_by_band

MET, NOT_MET, MEASURED = "met", "not met", "measured"


def verdicts(study: Study) -> List[Verdict]:
    """All verdicts, the blueprint first."""
    return [rules(study), precision(study), *target(study), *exposure(study), overlap(study), *retakers(study),
            reliability(study), *classification(study), *tails(study), certificates(study)]


def rules(study: Study) -> Verdict:
    tests = len(study.sessions)
    bad_rules = {one.rule.line for one in study.broken}
    bad_tests = {one.session for one in study.broken}
    kept = sum(rule.line not in bad_rules for rule in study.rules)
    text = f"{kept:,} of {len(study.rules):,} rules are met in each of {tests:,} tests"
    if study.broken:
        first = study.broken[0].rule
        return Verdict(NOT_MET, f"{text}; {len(bad_tests):,} tests break a rule. The first is “{first.label}”.")
    return Verdict(MET, f"{text}. Each test has {study.length} items.")


def precision(study: Study) -> Verdict:
    low, high = study.questions.between or map(study.examination.expected.at, (-1, 1))
    people = study.people.iloc[study.sample]
    inside = people[(people.true >= low) & (people.true <= high)]
    place = f"between {plain(low)} and {plain(high)}"
    if not len(inside):
        return Verdict(MEASURED, f"No examinee has a true ability {place}, so nothing is known of the standard error there.")
    mean = standard_error(inside.information.mean())
    return Verdict(MEASURED, f"The standard error is at most {inside.standard_error.max():.2f} {study.unit} in the tests of the {len(inside):,} "
                          f"examinees with a true ability {place}, and {mean:.2f} from their mean information.")


def target(study: Study) -> Iterator[Verdict]:
    """Whether the mean information reaches the target at each true ability of the sample in its range."""
    asked = study.questions.target
    if not asked:
        return
    people = study.people.iloc[study.sample]
    wanted = asked.information(people.true.to_numpy())
    inside = ~np.isnan(wanted)
    if not inside.any():
        yield Verdict(MEASURED, "No examinee has a true ability in the range of the target.")
        return
    reached = int((people.information[inside] >= wanted[inside]).sum())
    at = study.abilities()
    gap = study.mean_information(at) - asked.information(at)
    short = at[gap < 0]
    text = f"{reached:,} of {inside.sum():,} tests in the range of the target reach it"
    if len(short):
        yield Verdict(NOT_MET, f"{text}. Their mean is below it from {plain(round(short[0], 2))} to {plain(round(short[-1], 2))}, "
                               f"by at most {-np.nanmin(gap):.2f} of information.")
    else:
        yield Verdict(MET, f"{text}, and their mean reaches it at each ability.")


def exposure(study: Study) -> Iterator[Verdict]:
    rates = study.exposure(study.sample)
    most, unseen = study.names[rates.argmax()], f"{counted((rates == 0).sum())} never shown"
    if not study.controlled:
        yield Verdict(MEASURED, f"The plan has no exposure rate. Of {len(rates)} items {counted((rates > 0.9).sum())} shown in more "
                                f"than 90% of the tests, and {unseen}.")
        return
    if study.is_per_visit:
        yield exposure_by_estimate(study)
        yield Verdict(MEASURED, f"Of the tests, the greatest exposure is {rates.max():.1%} (item {most}), and {study.length / len(rates):.1%} in the mean. "
                                f"The rate is of visits: a test visits {study.visits:.1f} bands in the mean, so an item at the rate is in about "
                                f"{study.rate * study.visits:.1%} of the tests. Of {len(rates)} items {unseen}.")
        return
    above = int((rates > study.rate).sum())
    yield Verdict(NOT_MET if above else MET, f"{above} {'item is' if above == 1 else 'items are'} above the rate of {study.rate:.1%} of the tests; "
                                             f"the greatest exposure is {rates.max():.1%} (item {most}). Of {len(rates)} items {unseen}.")
    if study.counts.points:
        yield exposure_by_estimate(study)


def exposure_by_estimate(study: Study) -> Verdict:
    """Whether the rate is met in each band of the estimate that is watched."""
    rates = np.array([counts.rates() for counts in study.counts.watched])
    above = int((rates > study.rate).any(0).sum())
    band, item = np.unravel_index(rates.argmax(), rates.shape)
    greatest = f"the greatest rate is {rates.max():.1%} of the visits (item {study.names[item]} in band {band})"
    if study.counts.watched is not study.counts.bands:
        return Verdict(MEASURED, f"In the bands that are watched, which the plan does not steer, {greatest}.")
    return Verdict(NOT_MET if above else MET, f"{above} {'item is' if above == 1 else 'items are'} above the rate in some band of the "
                                              f"estimate, {study.rate:.1%} of its visits; {greatest}.")


def counted(number: int) -> str:
    return f"{number} is" if number == 1 else f"{number} are"


def overlap(study: Study) -> Verdict:
    if len(study.sample) < 2:
        return Verdict(MEASURED, "One examinee alone has no overlap with another, and tells little of a test.")
    text = f"Two examinees share {study.overlap(study.sample):.1%} of their items in the mean"
    bands = [band for band in study.bands if not band.added and len(band.members) > 1]
    if len(bands) < 2:
        return Verdict(MEASURED, text + ".")
    shares = [study.overlap(band.members) for band in bands]
    worst = bands[int(np.argmax(shares))]
    of = "estimate" if study.questions.by_estimate else "true ability"
    return Verdict(MEASURED, f"{text}; of like ability up to {max(shares):.1%} ({of} {worst.label}).")


def retakers(study: Study) -> Iterator[Verdict]:
    """Whether a second test has an item of the person's first, where it was begun without them; and whether each found a form."""
    found = study.retakes
    if not found:
        return
    refused = sum(found.refused.values())
    text = f"{len(found.pairs):,} of {found.number:,} second sittings found a form"
    if not found.pairs:
        yield Verdict(NOT_MET, text + ".")
        return
    common, (first, second) = found.common(), (found.sitting(study.examination, place).rmse for place in (0, 1))
    shared = "no item" if common.max() == 0 else f"{common.mean():.1%} of its items in the mean"
    text += f". A second test shares {shared} with the first of the same person; its RMSE is {second:.3f}, that of the first {first:.3f} (EAP)."
    bad = refused or study.broken_second or found.has_lists and common.max() > 0
    yield Verdict(NOT_MET if bad else MET if found.has_lists else MEASURED, text)


def reliability(study: Study) -> Verdict:
    people = study.people.iloc[study.sample]
    value, _ = reliability_of(study)
    if np.var(people.true) == 0:
        return Verdict(MEASURED, "All examinees have one ability, so there is no marginal reliability.")
    if np.isnan(value):
        return Verdict(MEASURED, "The error variance of the scores is above the variance of ability, so there is no marginal reliability.")
    return Verdict(MEASURED, f"The marginal reliability is {value:.3f}, by the variance of the {len(people)} abilities that were simulated "
                             f"({' '.join(study.run['of'])}).")


def classification(study: Study) -> Iterator[Verdict]:
    cuts = study.cuts
    if not len(cuts):
        return
    people = study.people.iloc[study.sample]
    true, found = levels(people.true, cuts), levels(people.scale, study.scorer.scale.cuts)
    chances = level_chances(people.true.to_numpy(), people.standard_error.to_numpy(), cuts)
    agreement, kappa = consistency(chances)
    names = " and ".join(names_of_cuts(study))
    cut = "cut score" if len(cuts) == 1 else "cut scores"
    scale = "" if is_of_ability(study) else f" of the scale {words_of(study.scorer.asked.scale)}"
    yield Verdict(MEASURED, f"At {cut} {names}{scale}, {(true == found).mean():.1%} of the examinees are in their true level, "
                            f"{(found > true).mean():.1%} above and {(found < true).mean():.1%} below it. By the formulas the "
                            f"accuracy is {accuracy(chances, true):.1%}, and two tests agree in {agreement:.1%} (kappa {fixed(kappa, 2)}).")


def tails(study: Study) -> Iterator[Verdict]:
    added = [band for band in study.bands_of_truth if band.added]
    bands = table_by_band(study, added)
    if not len(bands):
        return
    fewest = min(len(band.members) for band in added)
    worst = bands.loc[bands.bias.abs().idxmax()]
    yield Verdict(MEASURED, f"In the tails, of {fewest} or more examinees at each ability, the bias is at most {abs(worst.bias):.2f} {study.unit} "
                         f"({'up' if worst.bias > 0 else 'down'}, {worst.band}), and the standard error at most "
                         f"{bands.standard_error.max():.2f} ({bands.loc[bands.standard_error.idxmax()].band}).")


def certificates(study: Study) -> Verdict:
    marks = [one.proved for session in study.sessions for one in session.served]
    if all(marks):
        return Verdict(MET, f"Each of {len(marks):,} forms is proved best.")
    return Verdict(MEASURED, f"{sum(marks):,} of {len(marks):,} forms are proved best.")
