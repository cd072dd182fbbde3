"""The sections of the page below its verdicts, each from the study alone."""
import os
import re
from typing import List, Sequence, Tuple

import numpy as np

from shadowtools.agency.irt import FIELD
from shadowtools.agency.scoring import NAMES, words_of
from shadowtools.formats.examination import Rule
from shadowtools.page import conditional, pictures, retakers
from shadowtools.page.measures import accuracy, consistency, level_chances, levels, standard_error
from shadowtools.page.parts import UNBOUND, Facts, Note, Pictures, Section, Table, Text
from shadowtools.page.study import (Study, fixed, interval_names, is_of_ability, names_of_cuts, plain, reliability_of, signed,
                                    table_by_band, table_by_item)

ESTIMATES = {"mode": "mode on the grid (shadowd)", "map": "continuous mode", "eap": "mean (EAP)",
             "mle": "maximum likelihood, on the grid's range"}
MOST_NAMED = 12


def sections(study: Study) -> List[Section]:
    """All sections, in the order of a committee's questions."""
    bands = [conditional.section(study)] if study.counts.points else []
    second = [retakers.section(study)] if study.retakes else []
    return [identity(study), rules(study), precision(study), recovery(study), classification(study), exposure(study), *bands,
            *second, eligibility(study), examinees(study), forms(study), certificates(study), items(study), plan(study)]


# ---------------------------------------------------------------- what was simulated

def identity(study: Study) -> Section:
    run, found = study.run, study.examination.map
    prior = "flat" if found["prior"] == ["flat"] else "normal " + " ".join(found["prior"])
    tails = sorted(set(run["tails"]))
    examinees = f"{len(study.sample):,}, true ability {' '.join(run['of'])}, seed {run['seed']}"
    if tails:
        examinees += f"; {len(study.tails):,} more in the tails, at {', '.join(map(plain, tails))}"
    rows = [("Examination", os.path.basename(study.examination.prefix)),
            ("Bank", f"items: {len(study.items)}; passages: {len(found['passages'])}; "
                     f"quantities: {', '.join(found['quantities']) or 'none'}"),
            ("Test", f"items: {study.length}; rules: {len(study.rules)}; exposure rate: {rate(study)}"),
            ("Examinees", examinees),
            ("Ability", f"{len(found['theta'])} points from {plain(found['theta'][0])} to {plain(found['theta'][-1])} {study.unit}; "
                        f"D {found['D']:g}; prior {prior}"),
            ("Reported score", reported(study)),
            ("Units", f"{found['information_unit']:g} for one unit of information, {found['log_unit']:g} for one natural logarithm"),
            ("Simulated", f"{run['date']}, through {run['through']}"), ("Revision of the tools", run["revision"])]
    rows += [] if study.examination.is_bound else [UNBOUND]
    digests = [(f"SHA-256, {name}", value) for name, value in digests_of(run)]
    return Section("identity", "What was simulated", [Facts(rows), Facts(digests, "digests")])


def reported(study: Study) -> str:
    """The estimate, the scale and the rounding of the scores that examinees get."""
    asked, scale = study.scorer.asked, study.scorer.scale
    decimals = f"{scale.decimals} decimal{'' if scale.decimals == 1 else 's'}"
    return (f"{NAMES[asked.estimate]}; scale {words_of(asked.scale)}; obtainable {plain(scale.low)} to {plain(scale.high)}; "
            f"rounded to {decimals}")


def digests_of(run: dict):
    names = {"bank": "bank", "plan": "plan", "map": "map", "program": "program", "journal": "journal", "second": "journal of second sittings",
             "tails": "journal of tails"}
    return [(name, run["sha256"][key]) for key, name in names.items() if key in run["sha256"]]


def rate(study: Study) -> str:
    if not study.controlled:
        return "none"
    return "/".join(map(str, study.examination.plan.rate)) + (" of the visits of each band" if study.is_per_visit else " of the tests")


# ---------------------------------------------------------------- rules

def rules(study: Study) -> Section:
    groups = alike(study.rules)
    broken = [len({one.session for one in study.broken if one.rule in group}) for group in groups]
    table = Table(["Rule", "Low", "High", "Tests", "Least", "Mean", "Greatest", "At low", "At high", "Broken in"],
                  [rule_row(study, group, bad) for group, bad in zip(groups, broken)],
                  marked=frozenset((row, 9) for row, bad in enumerate(broken) if bad))
    said = f"Rules are broken in {len({one.session for one in study.broken})} tests." if study.broken else "No rule is broken."
    return Section("rules", "Rules of the plan", [Note(said, "bad" if study.broken else "note"), table, Note(
        "Counted here from the items of each test, the tails with them, by a reader of the plan that shares nothing with the "
        "product. The rule of a passage is counted in the tests that use it; passages with the same bounds are in one row. A rule "
        "that is at a bound in most tests may cost information.")])


def alike(found: Sequence[Rule]) -> List[List[Rule]]:
    """The rules in order, each alone but for rules of passages that follow one another with the same remark and bounds."""
    groups: List[List[Rule]] = []
    for rule in found:
        if groups and rule.kind == "stimulus" and family(rule) == family(groups[-1][0]):
            groups[-1].append(rule)
        else:
            groups.append([rule])
    return groups


def family(rule: Rule) -> Tuple[str, str, int, int]:
    """What rules of passages have in common: the kind, the remark and the bounds."""
    remark = rule.label.removesuffix(f", passage {rule.number}")
    return rule.kind, "" if remark == rule.text else remark, rule.low, rule.high


def rule_row(study: Study, group: Sequence[Rule], bad: int) -> List[str]:
    """A rule with its bounds, and its values over the tests that it speaks of; or rules of passages that are alike."""
    first, passages = group[0], study.examination.map["passages"]
    tests = [[value for rule in group if (value := rule.value(session.items, study.examination.bank)) is not None]
             for session in study.sessions]
    values = np.array([value for one in tests for value in one])
    label = first.label
    if len(group) > 1:
        label = f"{family(first)[1] or 'each passage'} ({len(group)} passages)"
    elif first.kind == "stimulus" and first.number <= len(passages):
        label = f"{label} ({passages[first.number - 1]})"
    begin = [label, f"{first.low:,}", f"{first.high:,}", f"{sum(map(bool, tests)):,}"]
    if len(values) == 0:
        return begin + ["–"] * 5 + ["0"]
    return begin + [f"{values.min():,}", f"{values.mean():,.1f}", f"{values.max():,}", f"{(values == first.low).mean():.0%}",
                    f"{(values == first.high).mean():.0%}", f"{bad:,}"]


# ---------------------------------------------------------------- precision and recovery

def precision(study: Study) -> Section:
    people = study.people.iloc[study.sample]
    mean, share = people.information.mean(), (people.information / study.best[study.sample]).mean()
    rows = [("Mean information at the true ability", fixed(mean)), ("Standard error from it", f"{standard_error(mean):.3f} {study.unit}"),
            ("Mean share of the best information without rules", f"{share:.1%}")]
    target = study.questions.target
    if target:
        rows.append(("Target", f"{'standard error' if target.is_error else 'information'}: {target.name}"))
    table = table_by_band(study, study.bands_of_truth)
    cells = [[row.band + (" (tails)" if row.added else ""), f"{row.examinees:,}", signed(row.bias), fixed(row.bias_error), fixed(row.rmse),
              fixed(row.reported_error), fixed(row.standard_error)] for row in table.itertuples()]
    return Section("precision", "Precision by ability", [
        Pictures([pictures.standard_errors(study), pictures.information(study)]), Facts(rows),
        Table([f"True ability ({study.unit})", "Examinees", f"Bias ({study.short_name})", "Its standard error", f"RMSE ({study.short_name})",
               mean_error_of(study), "Standard error"], cells),
        Note("The standard error is 1 / √(mean information at the true ability) of the items that were given (Lord 1980). The lines are "
             "the best information of the bank times the mean share of it that the tests near each ability have, the tails with "
             "them. Bias towards the middle at the ends is the prior's, and greater where the bank informs little. The best "
             "information knows the true ability from the start and meets no rule: part of the difference is what the rules cost, "
             "part is that the ability has to be found first.")])


def mean_error_of(study: Study) -> str:
    """What the mean of the standard errors that are reported is called."""
    return "Mean standard error of the score" if study.scorer.exact else "Mean posterior SD"


def recovery(study: Study) -> Section:
    people, rows, estimate = study.people.iloc[study.sample], [], study.scorer.asked.estimate
    names = dict(ESTIMATES, theta=f"{NAMES[estimate]}, on the obtainable range") if study.scorer.exact else ESTIMATES
    for name, words in names.items():
        errors, spread = people[name] - people.true, people[name].std() > 0 and people.true.std() > 0
        correlation = f"{np.corrcoef(people[name], people.true)[0, 1]:.3f}" if spread else "–"
        rows.append([words, signed(errors.mean()), fixed(np.sqrt((errors ** 2).mean())), fixed(errors.abs().mean()), correlation])
    parts = [Pictures([pictures.recovery(study), pictures.bias(study)]),
             Table(["Estimate, from the same answers", "Bias", "RMSE", "Mean absolute error", "Correlation with the truth"], rows)]
    said = f"RMSE is the root mean square error, all in {study.unit}. "
    if len(people) > 1:
        said += f"The standard error of a bias here is about {(people['mode'] - people.true).std() / np.sqrt(len(people)):.3f}. "
    parts.append(Note(f"{said}shadowd chooses items at the mode on the grid. Reported is the {NAMES[estimate]}, by the same function as "
                      "in tools/score.py."))
    return Section("recovery", "Recovery of ability", parts)


# ---------------------------------------------------------------- reliability and classification

def classification(study: Study) -> Section:
    people, name = study.people.iloc[study.sample], NAMES[study.scorer.asked.estimate]
    value, ends = reliability_of(study)
    of = "error variance of the scores" if study.scorer.exact else "posterior variance"
    rows = [(f"Marginal reliability, from the {of}", fixed(value))]
    if study.scorer.exact:
        rows.append(("Scores at an end of the obtainable range, which it leaves out", f"{ends:,}"))
    if people.theta.std() > 0 and people.true.std() > 0:
        rows.append((f"Squared correlation of the {name} with the truth", fixed(np.corrcoef(people.theta, people.true)[0, 1] ** 2)))
    parts = [Facts(rows)]
    if len(study.cuts):
        parts += [table_of_cuts(study), table_of_levels(study)]
    parts.append(Note(
        f"The marginal reliability is {'V / (V + E)' if study.scorer.exact else '(V − E) / V'} with the variance V of the abilities and "
        "the mean error variance E (Green, Bock, Humphreys, Linn and Reckase 1984). " + (
            "Counted: the level of the score as it is printed beside the level of the true ability. Accuracy by formula takes the estimate to be "
            "normal about the true ability with its standard error (Rudner 2001, 2005). Consistency is the chance that two tests give "
            "the same level, and kappa takes off the agreement by chance (Lee 2010)." if len(study.cuts) else
            "With --cuts the page has the accuracy and consistency of decisions at cut scores.")))
    return Section("classification", "Reliability and decisions", parts)


def table_of_cuts(study: Study) -> Table:
    """Accuracy and consistency at each cut alone, and of all levels."""
    people, scores = study.people.iloc[study.sample], list(study.scorer.scale.cuts)
    alone = [(name, slice(k, k + 1)) for k, name in enumerate(names_of_cuts(study))]
    rows = []
    for name, some in alone + ([("all levels", slice(None))] if len(scores) > 1 else []):
        true, found = levels(people.true, study.cuts[some]), levels(people.scale, scores[some])
        chances = level_chances(people.true.to_numpy(), people.standard_error.to_numpy(), study.cuts[some])
        agreement, kappa = consistency(chances)
        rows.append([name, f"{(true == found).mean():.1%}", f"{(found > true).mean():.1%}", f"{(found < true).mean():.1%}",
                     f"{accuracy(chances, true):.1%}", f"{agreement:.1%}", fixed(kappa)])
    scale = study.unit if is_of_ability(study) else words_of(study.scorer.asked.scale)
    return Table([f"Cut score ({scale})", "In the true level", "Above it", "Below it", "Accuracy by formula", "Consistency by formula",
                  "Kappa"], rows)


def table_of_levels(study: Study) -> Table:
    """How many examinees of each true level are in each level by their estimate."""
    people, scale = study.people.iloc[study.sample], study.scorer.scale
    true, found = levels(people.true, study.cuts), levels(people.scale, scale.cuts)
    names = interval_names(scale.cuts)
    if study.scorer.asked.levels:
        names = [f"{level} ({name})" for level, name in zip(scale.levels, names)]
    rows = [[name] + [f"{((true == k) & (found == j)).sum():,}" for j in range(len(names))] for k, name in enumerate(names)]
    return Table(["True level"] + [f"estimate {name}" for name in names], rows)


# ---------------------------------------------------------------- exposure

def exposure(study: Study) -> Section:
    rates, count = study.exposure(study.sample), len(study.items)
    within = [study.overlap(band.members) for band in study.bands if not band.added and len(band.members) > 1]
    field = np.array([item.model == FIELD for item in study.items])
    rows = [("Items never shown", f"{(rates == 0).sum()} of {count}{named(study.names[rates == 0])}"),
            ("Greatest exposure", f"{rates.max():.3f} (item {study.names[int(rates.argmax())]})"),
            ("Mean exposure", f"{study.length / count:.3f}"), ("Items above 0.3", f"{(rates > 0.3).sum()}")]
    if field.any():
        rows.append(("Items in field test, in the mean for a test",
                     f"{field.sum()} of {count}, {rates[field].sum():.2f}{named(study.names[field])}"))
    if study.is_per_visit:
        rows += [("Rate of the plan, per visit of a band", f"{study.rate:.3f}"), ("Bands that a test visits, mean", f"{study.visits:.2f}"),
                 ("An item at the rate, share of the tests", f"about {study.rate * study.visits:.3f}")]
    elif study.controlled:
        above = rates > study.rate
        rows.append((f"Items above the rate {study.rate:.3f} of the tests", f"{above.sum()}, the greatest by {max(0, (rates - study.rate).max()):.3f}"
                                                               f"{named(study.names[above])}"))
    rows.append(("Mean overlap of two tests", fixed(study.overlap(study.sample))))
    if len(within) > 1:
        rows.append(("Mean overlap within a band, least and greatest", f"{min(within):.3f}, {max(within):.3f}"))
    said = f"A band is of the {NAMES[study.scorer.asked.estimate]}. " if study.questions.by_estimate else "A band is of the true ability. "
    return Section("exposure", "Exposure and overlap", [
        Pictures([pictures.exposure(study), pictures.exposure_by_information(study)]), Facts(rows), most_shown(study),
        Pictures([pictures.exposure_by_band(study), pictures.overlap(study)]), exposure_table(study),
        Note(said + "An item may be rare in all tests and sure within a band. The tails count in no total. The file "
             "REPORT.items.csv has the exposure of each item in each band. Overlap is the share of common items of two tests, in the "
             "mean over all pairs (Chen, Ankenmann and Spray 2003).")])


def named(names) -> str:
    """The names in brackets, as many as there is room for."""
    if not len(names):
        return ""
    return f" ({', '.join(names[:MOST_NAMED])}{', ..' if len(names) > MOST_NAMED else ''})"


def most_shown(study: Study) -> Table:
    """The items that are shown most, with the exposure in each band of the sample."""
    rates, bands = study.exposure(study.sample), [band for band in study.bands if not band.added]
    by_band = [study.exposure(band.members) for band in bands]
    order = np.argsort(-rates, kind="stable")[:MOST_NAMED]
    rows = [[study.names[item], f"{rates[item]:.3f}"] + [f"{one[item]:.2f}" for one in by_band] for item in order]
    above = study.above_rate()
    marked = frozenset((row, 1) for row, item in enumerate(order) if study.controlled and not study.is_per_visit and above[item])
    return Table(["Item", "Exposure"] + [band.label for band in bands], rows,
                 f"The {len(rows)} items that are shown most, in all and by band of ability", marked=marked)


def exposure_table(study: Study) -> Table:
    table = table_by_band(study, study.bands)
    head = [f"Band ({study.unit})", "Tests", "Greatest exposure", "Item", "Never shown", "Mean overlap"]
    rows = [[row.band + (" (tails)" if row.added else ""), f"{row.examinees:,}", fixed(row.greatest_exposure), row.most_shown,
             f"{row.never_shown}", fixed(row.overlap)] for row in table.itertuples()]
    if study.controlled and not study.is_per_visit:
        head.insert(4, "Above the rate of the tests")
        for cells, row in zip(rows, table.itertuples()):
            cells.insert(4, f"{row.above_rate}")
    return Table(head, rows, "Exposure and overlap within each band")


def eligibility(study: Study) -> Section:
    if not study.controlled:
        return Section("eligibility", "Eligibility", [Note("The plan has no exposure rate: every item is eligible in every session.")])
    eligible = study.eligible[study.sample]
    aside = sum(bool(session.aside) for session in study.sessions[:len(study.sample)])
    return Section("eligibility", "Eligibility", [
        Pictures([pictures.eligibility(study), pictures.exposure_so_far(study)]),
        Facts([("Sessions whose eligibility was set aside", f"{aside} of {len(study.sample):,}"),
               ("Items eligible in every session", f"{eligible.all(0).sum()} of {len(study.items)}"),
               ("Eligible items in a session, least and mean", f"{eligible.sum(1).min()}, {eligible.sum(1).mean():.1f}")])])


# ---------------------------------------------------------------- single examinees

def chosen(study: Study) -> List[int]:
    """The rows of the sample at the 5th, 50th and 95th percentile of true ability."""
    order = np.argsort(study.people.true.to_numpy()[study.sample], kind="stable")
    return [int(order[min(len(order) - 1, int(share * len(order)))]) for share in (0.05, 0.5, 0.95)]


def examinees(study: Study) -> Section:
    rows = chosen(study)
    shown = sorted({item for row in rows for item in study.sessions[row].items})
    return Section("examinees", "Three examinees", [Pictures([pictures.path(study, row) for row in rows]), *whole_names(study, shown), Note(
        "The examinees are at the 5th, 50th and 95th percentile of true ability.")])


def forms(study: Study) -> Section:
    row = chosen(study)[1]
    used = sorted({item for one in study.sessions[row].served for item in one.form})
    return Section("forms", "Forms step by step", [Pictures([pictures.forms(study, row)]), *whole_names(study, used), Note(
        "Each row is the whole form that was assembled before an item was served; each meets all rules.")])


def whole_names(study: Study, items: Sequence[int]) -> List[Table]:
    """A table with the whole names of the items that a picture has in short; none where it has them whole."""
    short = pictures.short_names(study.names)
    rows = [[short[item], study.names[item]] for item in items if short[item] != study.names[item]]
    return [Table(["In the picture", "Item"], rows, texts=2)] if rows else []


# ---------------------------------------------------------------- certificates

def certificates(study: Study) -> Section:
    served = [session.served for session in study.sessions]
    marks = np.array([[one.proved for one in each] for each in served])
    counts = np.array([[one.nodes for one in each] for each in served])
    rows = [("Steps proved best", f"{marks.sum():,} of {marks.size:,} ({marks.mean():.2%})"),
            ("Nodes of a step, mean and greatest", f"{counts.mean():.1f}, {counts.max()}"),
            ("Wall time of the simulation", f"{study.run['wall']:.1f} s")] + times(study.run)
    parts = [Facts(rows)]
    if counts.max() > 1:
        parts.insert(0, Pictures([pictures.nodes(study, marks, counts)]))
    said = {"replay": f"{study.run['said']}, each of which reads and checks the whole journal again.",
            "serve": f"The server's last line: {study.run['said']}"}
    return Section("certificates", "Proofs, nodes and time", parts + [Note(said.get(study.run["through"], study.run["said"]))])


def times(run: dict):
    seconds = np.array(run["seconds"])
    if run["through"] == "replay":
        return [("Time for a reply, reading the journal included", f"{1000 * seconds[:, 1].sum() / seconds[:, 0].sum():.2f} ms")]
    each = 1000 * np.sort(seconds[:, 1])
    return [("Clients at once", f"{run['clients']}"),
            ("Time for a request: median, 99th percentile, greatest",
             f"{np.median(each):.2f}, {each[int(0.99 * (len(each) - 1))]:.2f}, {each[-1]:.2f} ms")]


# ---------------------------------------------------------------- appendices

def items(study: Study) -> Section:
    table = table_by_item(study)
    passages = bool(study.examination.map["passages"])
    head = ["Item"] + (["Passage"] if passages else []) + [
        "Shown", "Exposure", "Eligible", "Greatest information", f"At ({study.unit})", "Mean step"]
    rows = [[row.item] + ([row.passage] if passages else []) + [
        f"{row.shown:,}" if row.shown else "never", fixed(row.exposure), fixed(row.eligible), fixed(row.greatest_information),
        fixed(row.at_ability, 1), fixed(row.mean_step, 1)] for row in table.itertuples()]
    column = 2 + passages
    marked = frozenset((k, column) for k, row in enumerate(table.itertuples()) if study.controlled and row.above_rate)
    return Section("items", "Items", [Table(head, rows, texts=1 + passages, marked=marked), Note(
        "Shown and eligible are counted over the sample. A step is counted from 0. An item above the rate is marked: " + (
            "in the visits of some band." if study.is_per_visit else "in the tests."))])


def plan(study: Study) -> Section:
    """The plan as it is, without the key of its exposure control, which is a secret."""
    with open(study.examination.files()[1], encoding="utf-8") as file:
        text = re.sub(r"(?m)^(\s*key\s+)\S+", r"\1(not shown)", file.read())
    return Section("plan", "The plan", [Text(text)])
