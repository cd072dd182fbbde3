"""The page for an appeal: one examinee's test, step by step, for a board. It has the whole bank, and is confidential."""
import base64
import html
import os
import re
from dataclasses import dataclass
from typing import Dict, List, NamedTuple, Optional, Sequence, Tuple

from shadowtools.agency.scoring import NAMES, Score, Scorer, mode, words_of
from shadowtools.agency.simulation import Examination
from shadowtools.agency.window import Audits
from shadowtools.checkers.audit import Seal
from shadowtools.formats.examination import Session
from shadowtools.page.checker import Evidence
from shadowtools.page.parts import Facts, Note, Picture, Pictures, Section, Signatures, Table, Verdict
from shadowtools.page.sections import named
from shadowtools.page.study import plain
from shadowtools.page.verdicts import MEASURED, MET, NOT_MET

GIVEN, SERVED, REST = "#23609f", "#b3261e", "#c9c9c9"
FIRST, HIGH, WIDE = 60, 11, 900     # of the picture of forms: the place of the first column, the height of a row, the width of all columns


class Step(NamedTuple):
    """A step: its item and response (None: it waits), the point of the estimate before, the item's information there (in units), the score
    after, how many items of the form before are in this one, whether the form is proved best, and whether eligibility was set aside."""
    item: int
    response: Optional[int]
    point: int
    information: float
    after: Optional[Score]
    kept: Optional[int]
    proved: bool
    aside: bool


@dataclass
class Appeal:
    """One session of a window with what the page needs. `row` is its line of the results, `records` the numbers of its first and last record
    and of all records of the journal, from 1."""
    examination: Examination
    scorer: Scorer
    session: Session
    number: int
    row: Dict[str, str]
    records: Tuple[int, int, int]
    audits: Audits
    seals: Sequence[Tuple[str, Seal, bool]]
    facts: List[Tuple[str, str]]
    files: List[Tuple[str, str]]
    evidence: Evidence

    def __post_init__(self) -> None:
        self.names = [item.name for item in self.examination.items]
        self.length = self.examination.plan.length
        self.broken = [rule for rule in self.examination.plan.rules if not rule.met(self.session.items, self.examination.bank)]
        self.steps = [self.step(place) for place in range(len(self.session.items))]

    def until(self, steps: int) -> Session:
        """The session after so many answers."""
        return Session(items=self.session.items[:steps], responses=self.session.responses[:steps])

    def step(self, place: int) -> Step:
        session, served, unit = self.session, self.session.served[place], self.examination.map["information_unit"]
        point = mode(self.scorer.sums(self.until(place)))
        answered = place < len(session.responses)
        after = self.until(place + 1)
        score = self.scorer.score(after) if answered and self.scorer.counting(after) else None
        kept = len(served.form & session.served[place - 1].form) if place else None
        return Step(served.item, session.responses[place] if answered else None, point,
                    self.examination.bank[served.item].information[point] / unit, score, kept, served.proved, place in session.aside)

    @property
    def again(self) -> Optional[str]:
        """The score of the last answer, as it is printed."""
        scores = [step.after for step in self.steps if step.after]
        return f"{self.scorer.scale.score(scores[-1].theta):f}" if scores and self.row["scale"] else None

    @property
    def is_complete(self) -> bool:
        return len(self.session.responses) == self.length

    @property
    def holds(self) -> bool:
        """Whether both audits agree, each seal is of this journal, the score is that of the results, and a complete test breaks no rule."""
        return (self.audits.agree and all(good for _, _, good in self.seals) and self.again == (self.row["scale"] or None)
                and not (self.broken and self.is_complete))


# ---------------------------------------------------------------- verdicts

def verdicts(appeal: Appeal) -> List[Verdict]:
    found = [score(appeal), forms(appeal), journal(appeal), *seals(appeal), rules(appeal), eligibility(appeal)]
    if not appeal.evidence.has_key:
        found.append(Verdict(MEASURED, "The page was made without the key of the draws (--without-key), so its button does not judge them."))
    return found


def error(appeal: Appeal, value: float) -> str:
    """A standard error on the reported scale, with one decimal more than a score has."""
    return f"{value:.{min(4, appeal.scorer.scale.decimals + 1)}f}"


def score(appeal: Appeal) -> Verdict:
    row = appeal.row
    if not row["scale"]:
        return Verdict(MEASURED, f"The session has no score: {row['remark']}.")
    level = f", level “{row['level']}”; the probability that the true level is another is {float(row['level_error']):.1%}" if row["level"] else ""
    text = f"The score is {row['scale']}, its standard error {error(appeal, float(row['scale_se']))}{level}."
    if appeal.again == row["scale"]:
        return Verdict(MET, f"{text} The answers of the table below give this score again.")
    return Verdict(NOT_MET, f"{text} The answers of the table below give {appeal.again}.")


def forms(appeal: Appeal) -> Verdict:
    proved, number = sum(step.proved for step in appeal.steps), len(appeal.steps)
    if number and proved == number:
        return Verdict(MET, f"Each of the {number} forms is proved best among all forms that the rules, the earlier items and the eligible items allow.")
    return Verdict(MEASURED, f"{proved} of {number} forms are proved best; for the others the search ended at its budget, and each is a form by all rules.")


def journal(appeal: Appeal) -> Verdict:
    first, last, total = appeal.records
    where = f"The session is in the records {first:,} to {last:,} of {total:,}; eligibility rests on the others, so the whole journal is audited"
    if appeal.audits.program is None:
        return Verdict(MEASURED, f"{where}: by tools/audit.py alone, since the program was not there: {appeal.audits.second[0]}.")
    if appeal.audits.agree:
        return Verdict(MET, f"{where}. A second program checked each proof, and agrees: {appeal.audits.second[0]}.")
    return Verdict(NOT_MET, f"{where}. Two programs do not agree: {appeal.audits.program[0]}; {appeal.audits.second[0]}.")


def seals(appeal: Appeal) -> List[Verdict]:
    if not appeal.seals:
        return [Verdict(MEASURED, "No seal was given (--seals).")]
    return [Verdict(MET if good else NOT_MET, f"The journal {'goes' if good else 'does not go'} on from the seal {os.path.basename(path)} of "
                                              f"{seal.records:,} records.") for path, seal, good in appeal.seals]


def rules(appeal: Appeal) -> Verdict:
    of = len(appeal.examination.plan.rules)
    text = f"{of - len(appeal.broken)} of {of} rules are met by the {len(appeal.session.items)} items that were shown"
    if appeal.is_complete:
        return Verdict(NOT_MET if appeal.broken else MET, text + ".")
    return Verdict(MEASURED, f"{text}; the test has {len(appeal.session.responses)} of {appeal.length} answers.")


def eligibility(appeal: Appeal) -> Verdict:
    session, plan, items = appeal.session, appeal.examination.plan, range(len(appeal.names))
    parts = []
    if plan.rate[0] < plan.rate[1]:
        for band, eligible in enumerate(session.eligible):
            barred = [appeal.names[item] for item in items if item not in eligible]
            parts.append(f"{len(barred)} of {len(appeal.names)} items were not eligible by the draw at the start{f' in band {band}' if plan.points else ''}"
                         f"{named(barred)}")
        steps = ", ".join(str(step + 1) for step in session.aside)
        parts.append(f"eligibility was set aside at step {steps}, since no form was found" if steps else "eligibility was never set aside")
    else:
        parts.append("the plan has no exposure rate, so each item was eligible")
    listed = [appeal.names[item] for item in sorted(session.without)]
    parts.append(f"{len(listed)} items were left out by a list{named(listed)}" if listed else "no item was left out by a list")
    text = "; ".join(parts)
    return Verdict(MEASURED, text[0].upper() + text[1:] + ".")


# ---------------------------------------------------------------- sections

def sections(appeal: Appeal) -> List[Section]:
    return [Section("forms", "The form of each step", [Pictures([picture(appeal)])] if appeal.steps else [Note("No item was shown.")]),
            Section("steps", "Steps", [steps(appeal), Note(
                f"The estimate before is the point of the grid at which the items were chosen, in logits, and the information is that of the item there. "
                f"The score after is the {NAMES[appeal.scorer.asked.estimate]} of the answers so far, on the scale {words_of(appeal.scorer.asked.scale)}.")]),
            Section("rules", "Rules", [rule_table(appeal)]),
            Section("check", "This page checks itself", [Note(
                "The button judges the records of this session in your browser, without a network: each record, proof tree, estimate, served item and "
                "draw, the table of steps and the score. Its script shares nothing with the program or the tools that made this page. It also lists what "
                "it cannot judge."), appeal.evidence.part()]),
            Section("files", "Files", [Facts(appeal.facts), Facts([(f"SHA-256, {name}", value) for name, value in appeal.files], "files"),
                                       Signatures(["Head of testing"])])]


def steps(appeal: Appeal) -> Table:
    theta, scale, rows = appeal.scorer.theta, appeal.scorer.scale, []
    for place, step in enumerate(appeal.steps, 1):
        after = ["–", "–"] if step.after is None else [f"{scale.score(step.after.theta):f}", error(appeal, scale.unit * step.after.error)]
        form = ("proved" if step.proved else "not proved") + (", set aside" if step.aside else "")
        rows.append([f"{place}. {appeal.names[step.item]}", "–" if step.response is None else str(step.response), plain(theta[step.point]),
                     f"{step.information:.3f}", *after, "–" if step.kept is None else f"{step.kept} of {appeal.length}", form])
    return Table(["Step and item", "Response", "Estimate before", "Information there", "Score after", "Its error", "Items kept of the form before", "Form"],
                 rows)


def rule_table(appeal: Appeal) -> Table:
    """The rules by their names in the table of constraints, with their values, in two columns; passages that are not used are left out."""
    found, bank = [], appeal.examination.bank
    for rule in appeal.examination.plan.rules:
        value = rule.value(appeal.session.items, bank)
        if value is not None:
            label = rule.label if rule.kind != "stimulus" else f"passage {passage(appeal, rule.number)}"
            label = re.sub(r"^row \d+: ", "", label).partition(": ")[0]
            found.append(([label, f"{rule.low:,}", f"{rule.high:,}", f"{value:,}"], rule.low <= value <= rule.high))
    half = (len(found) + 1) // 2
    rows = [one[0] + (found[place + half][0] if place + half < len(found) else [""] * 4) for place, one in enumerate(found[:half])]
    marked = {(place % half, 3 + 4 * (place // half)) for place, (_, met) in enumerate(found) if not met}
    return Table(["Rule", "Low", "High", "Here"] * 2, rows, marked=frozenset(marked))


def passage(appeal: Appeal, number: int) -> str:
    names = appeal.examination.map["passages"]
    return names[number - 1] if 0 < number <= len(names) else str(number)


def picture(appeal: Appeal) -> Picture:
    """The forms: a row for each step, a column for each item of any form, those that were shown in their order first."""
    shown = {item: place for place, item in enumerate(appeal.session.items)}
    columns = sorted({item for one in appeal.session.served for item in one.form}, key=lambda item: (shown.get(item, len(shown)), item))
    wide, cells = WIDE / len(columns), []
    for row, served in enumerate(appeal.session.served):
        cells.append(f'<text x="{FIRST - 8}" y="{row * HIGH + 9}" font-size="9" text-anchor="end">{row + 1}</text>')
        for place, item in enumerate(columns):
            if item in served.form:
                color = SERVED if item == served.item else GIVEN if shown.get(item, row) < row else REST
                cells.append(f'<rect x="{FIRST + place * wide:.1f}" y="{row * HIGH}" width="{wide - min(1.5, wide / 4):.1f}" height="{HIGH - 1.5}" fill="{color}"/>')
    bottom = len(appeal.session.served) * HIGH + 4
    names = [name if len(name) <= 12 else name[:5] + ".." + name[-5:] for name in (appeal.names[item] for item in columns)]
    high = bottom + 8 + 6 * max(map(len, names))
    for place, name in enumerate(names):
        cells.append(f'<text transform="translate({FIRST + (place + 0.5) * wide + 3:.1f} {bottom}) rotate(-90)" font-size="9" text-anchor="end">{html.escape(name)}</text>')
    text = (f'<svg xmlns="http://www.w3.org/2000/svg" viewBox="0 0 {FIRST + WIDE + 5} {high}" width="{FIRST + WIDE + 5}" '
            f'height="{high}" font-family="DejaVu Sans, sans-serif">{"".join(cells)}</svg>')
    said = f"The forms of {len(appeal.session.served)} steps, each of {appeal.length} items: how the items that were given and served fill the form."
    return Picture("data:image/svg+xml;base64," + base64.b64encode(text.encode("utf-8")).decode(), said,
                   "Rows are steps: an item that was given before is blue, the one that is served red, the rest of the form grey", wide=True)
