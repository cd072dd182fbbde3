"""The technical report of a window of real examinees, as one page of HTML for those who sign it. No number needs a true ability.

usage: report.py PREFIX --journal JOURNAL --record RECORD --to REPORT.html [options]
       report.py PREFIX --journal JOURNAL --record RECORD --to PAGE.html --session N | --booking B [--seals FILE ..]

  --seals FILE ..    seals of the journal, as `audit.py --seal` printed them; each must be one of this journal
  --annul FILE       a table booking,reason: sessions that count in no number of the page
  --persons FILE     a table booking and person, group or both: tests of one person, and numbers by group
  --times FILE       a table booking,step,shown,answered of the application: seconds or ISO 8601; steps count from 0
  --bands S ..       edges of bands of the reported score; default the mean of the plan's prior and one and two of its deviations
  --seed N           of the simulated limits of person fit and of the second sittings; default 1
  --session N, --booking B
                     the page for an appeal: one session step by step, for a board. It has the whole bank, and is confidential; a button
                     judges the records of the session in the reader's browser, without a network
  --without-key      a page for an appeal without the key of the draws, which its button does not judge then
  --template FILE    another template for jinja2 than report.html of these tools
  --program SHADOWD  the program that audits; default $SHADOWD, else crates/shadowd/out/shadowd

RECORD is that of `score.py --record` for this journal: bank, plan, map and journal must be those of its digests, and the results are
made again by its options and compared with its digest. The journal is audited by the program and by tools/audit.py, which takes some
seconds for each hundred tests; so it is for the page of one session, since eligibility rests on the others. Beside the report are written REPORT.items.csv, a line for each item with its exposure and fit, and
REPORT.sessions.csv, a line for each session with its score and lz.

Exit status: 0; 1 where a file is refused, the two audits do not agree, a seal is of another journal, or a test breaks a rule.
"""
import argparse
import csv
import os
from typing import Callable, Dict, List, Optional, Sequence, Tuple

import numpy as np

from shadowtools.agency import score as scores
from shadowtools.agency.custody import sha256_of
from shadowtools.agency.fit import Answers, PersonFit, Population, fit_of_examinees, fit_of_items, population_of
from shadowtools.agency.results import may_be_unbound, read_record, require_own, results_of
from shadowtools.agency.scoring import Scorer
from shadowtools.agency.simulation import MOST_SEED, Examination, load
from shadowtools.agency.window import (Beside, Window, agreement_of, audits_of, read_annulled, read_persons, read_times,
                                       reliability_of, retests_of, seals_of, second_levels)
from shadowtools.alive import tell  # noqa: F401  report.py has it from here
from shadowtools.command import Refused
from shadowtools.formats.examination import Session, opened, read_journal
from shadowtools.formats.exposure import Exposure, exposure_of
from shadowtools.options import Options, finite, require_folder, whole
from shadowtools.page.appeal import Appeal
from shadowtools.page.checker import Evidence, plan_without_key, records_of
from shadowtools.page.parts import UNBOUND
from shadowtools.page.window import FEWEST, Findings, Group
from shadowtools.places import BUILT, revision

SIGMAS, MOST_SESSION = (-2, -1, 0, 1, 2), 65_535


def options(words: Sequence[str], template: str) -> argparse.Namespace:
    parser = Options(__doc__)
    parser.add_argument("prefix", nargs="?")
    for name in ("journal", "record", "to", "annul", "persons", "times"):
        parser.add_argument("--" + name)
    parser.add_argument("--seals", nargs="+", default=[])
    parser.add_argument("--bands", nargs="+", type=finite)
    parser.add_argument("--seed", type=whole(0, MOST_SEED))
    parser.add_argument("--session", type=whole(0, MOST_SESSION))
    parser.add_argument("--booking", type=whole(0, 10 ** 18 - 1))
    parser.add_argument("--without-key", action="store_true")
    parser.add_argument("--template", default=template)
    parser.add_argument("--program", default=BUILT)
    found = parser.read(words, lambda given: bool(given.prefix and given.journal and given.record and given.to))
    found.is_appeal = found.session is not None or found.booking is not None
    if found.session is not None and found.booking is not None:
        raise Refused("--session or --booking, and not both")
    if found.without_key and not found.is_appeal:
        raise Refused("--without-key is about the page of one session; it is used with --session or --booking")
    for name in ("annul", "persons", "times", "bands", "seed"):
        if found.is_appeal and getattr(found, name) is not None:
            raise Refused(f"--{name} is about a window; it is not used with --session or --booking")
    found.seed = 1 if found.seed is None else found.seed
    if found.bands and sorted(set(found.bands)) != found.bands:
        raise Refused(f"--bands {' '.join(f'{edge:g}' for edge in found.bands)}: scores that ascend")
    for path in (found.to, *(() if found.is_appeal else beside_page(found.to))):
        require_folder("--to", path)
    return found


def beside_page(path: str) -> Tuple[str, str]:
    """The tables that are written beside a page."""
    begin = os.path.splitext(path)[0]
    return begin + ".items.csv", begin + ".sessions.csv"


# ---------------------------------------------------------------- the numbers

def beside_of(given: argparse.Namespace, sessions: Sequence[Session]) -> Beside:
    """The agency's files."""
    by_booking = {session.booking: number for number, session in enumerate(sessions)}
    return Beside(read_annulled(given.annul, by_booking) if given.annul else None, read_persons(given.persons) if given.persons else None,
                  read_times(given.times, by_booking, sessions) if given.times else None)


def edges_of(given: argparse.Namespace, window: Window) -> List[float]:
    """The edges of bands of the reported score."""
    if given.bands:
        return given.bands
    prior, scale = window.examination.map["prior"], window.scorer.scale
    mean, deviation = (0.0, 1.0) if prior == ["flat"] else map(float, prior)
    return [scale.start + scale.unit * (mean + sigma * deviation) for sigma in SIGMAS]


def fits_of(window: Window, numbers: Sequence[int]) -> Tuple[Optional[Population], list, Optional[Answers], List[int]]:
    """The population of some sessions and the fit of the items to them, where there are enough; and the sessions with an answer."""
    examination = window.examination
    answered = [number for number in numbers if window.scorer.counting(window.sessions[number])]
    if len(answered) < FEWEST:
        return None, [], None, answered
    answers = Answers(examination.items, examination.scaling, examination.theta, window.of(answered))
    population = population_of(answers)
    return population, fit_of_items(answers, population), answers, answered


def groups_of(window: Window) -> List[Group]:
    """The groups of the agency's table, by name."""
    members: Dict[str, List[int]] = {}
    for number in window.scored:
        person = (window.beside.persons or {}).get(window.sessions[number].booking)
        if person is not None and person.group:
            members.setdefault(person.group, []).append(number)
    found = []
    for name, numbers in sorted(members.items()):
        population, fits, _, _ = fits_of(window, numbers)
        found.append(Group(name, np.array([window.places[number] for number in numbers]), population, fits))
    return found


def findings(given: argparse.Namespace, tell: Callable[[str], None]) -> Findings:
    """All numbers of the page."""
    record = read_record(given.record)
    examination = load(given.prefix, may_be_unbound(record))
    program = given.program if given.program and os.path.exists(given.program) else None
    require_own(given.record, record, dict(examination.sha256, journal=sha256_of(given.journal)))
    audits = audits_of(examination, given.journal, program, tell)
    counts = exposure_of(read_journal(given.journal), examination.bank, examination.plan)
    results = results_of(given.record, examination, given.journal, counts.sessions)
    window = Window(examination, counts.sessions, results.scorer, results.least, counts, beside_of(given, counts.sessions))
    tell("the fit of items and examinees ..")
    population, fits, answers, answered = fits_of(window, window.kept)
    examinees: Optional[PersonFit] = fit_of_examinees(answers, population, given.seed) if answers is not None else None
    twice = agreement_of(window.level, second_levels(window, given.seed)) if len(results.scorer.scale.cuts) and len(window.level) else None
    return Findings(window, audits, seals_of(given.journal, given.seals), population, fits, examinees, answered, reliability_of(window), twice,
                    retests_of(window), groups_of(window), edges_of(given, window), given.seed,
                    [("Seed of what is simulated", str(given.seed)), ("Revision of the tools", revision())]
                    + ([] if examination.is_bound else [UNBOUND]),
                    digests_of(given, examination, results.record, program))


def appeal(given: argparse.Namespace, tell: Callable[[str], None]) -> Appeal:
    """All that the page of one session is made of."""
    record = read_record(given.record)
    examination = load(given.prefix, may_be_unbound(record))
    require_own(given.record, record, dict(examination.sha256, journal=sha256_of(given.journal)))
    entries = read_journal(given.journal)
    sessions = exposure_of(entries, examination.bank, examination.plan).sessions
    number = session_of(given, sessions)
    program = given.program if given.program and os.path.exists(given.program) else None
    audits = audits_of(examination, given.journal, program, tell)
    results = results_of(given.record, examination, given.journal, sessions)
    row = list(csv.DictReader(results.text.splitlines()))[number]
    own = [place for place, entry in enumerate(entries, 1) if entry.session == number]
    facts = [("Revision of the tools", revision())] + ([] if examination.is_bound else [UNBOUND])
    before = exposure_of(entries[:own[0] - 1], examination.bank, examination.plan)
    evidence = evidence_of(given, examination, results.scorer, number, sessions[number].booking, before)
    return Appeal(examination, results.scorer, sessions[number], number, row, (own[0], own[-1], len(entries)), audits,
                  seals_of(given.journal, given.seals), facts, digests_of(given, examination, record, program) + evidence.digests(), evidence)


def evidence_of(given: argparse.Namespace, examination: Examination, scorer: Scorer, number: int, booking: int, before: Exposure) -> Evidence:
    """What the button of the page judges. `before` has the counts before the start of the session."""
    bank, plan = (whole_text(path) for path in examination.files())
    return Evidence(number, booking, bank, plan_without_key(plan) if given.without_key else plan, not given.without_key,
                    records_of(given.journal, number), before, [item.name for item in examination.items], scorer)


def whole_text(path: str) -> str:
    """The text of a file of UTF-8 with each of its bytes."""
    with opened(path, "rb") as file:
        return file.read().decode("utf-8")


def session_of(given: argparse.Namespace, sessions: Sequence[Session]) -> int:
    """The number of the session that is asked for."""
    if given.session is not None:
        if given.session >= len(sessions):
            raise Refused(f"--session {given.session}: the journal has {len(sessions)} sessions, from 0")
        return given.session
    found = [number for number, session in enumerate(sessions) if session.booking == given.booking]
    if not found:
        raise Refused(f"--booking {given.booking}: the journal has no such booking")
    return found[0]


def digests_of(given: argparse.Namespace, examination: Examination, record: dict, program: Optional[str]) -> List[Tuple[str, str]]:
    """Name and SHA-256 of each file that the page rests on."""
    found = [(name, examination.sha256[name]) for name in ("bank", "plan", "map")]
    found += [("journal", sha256_of(given.journal)), ("results", record["sha256"]["results"]), ("record", sha256_of(given.record))]
    found += [(f"seal {os.path.basename(path)}", sha256_of(path)) for path in given.seals]
    found += [(name, sha256_of(getattr(given, name))) for name in ("annul", "persons", "times") if getattr(given, name)]
    return found + ([("program", sha256_of(program))] if program else [])


# ---------------------------------------------------------------- what is written

def table_of_items(found: Findings) -> str:
    """A line for each item: number, name, exposure over the complete tests, and fit."""
    window, fits = found.window, {one.item: one for one in found.fits}
    rows: List[List[str]] = [["number", "item", "shown", "exposure", "answers", "mean", "expected", "z", "z_along"]]
    for item, name in enumerate(window.names):
        fit = fits.get(item)
        of_fit = [str(fit.answers), *map(cell, (fit.mean, fit.expected, fit.z, fit.along))] if fit else ["0", "", "", "", ""]
        rows.append([str(item), name, str(int(window.shown[:, item].sum())), f"{window.exposure[item]:.4f}", *of_fit])
    return scores.table_text(rows)


def cell(value: Optional[float]) -> str:
    """A number of a table, or an empty text where there is none."""
    return "" if value is None or not np.isfinite(value) else f"{value:.4f}"


def table_of_sessions(found: Findings) -> str:
    """A line for each session that is not annulled: its score and its lz."""
    window = found.window
    lz = dict(zip(found.answered, found.examinees.lz)) if found.examinees else {}
    rows: List[List[str]] = [["session", "booking", "answered", "scale", "scale_se", "lz"]]
    for number in window.kept:
        session, place = window.sessions[number], window.places.get(number)
        score = ["", ""] if place is None else [cell(window.scale[place]), cell(window.unit * window.error[place])]
        rows.append([str(number), str(session.booking), str(len(session.responses)), *score, cell(lz.get(number))])
    return scores.table_text(rows)


def write_report(given: argparse.Namespace, found: Findings, text: str) -> int:
    """Writes the page and its tables. The exit status."""
    items, sessions = beside_page(given.to)
    for path, content in ((given.to, text), (items, table_of_items(found)), (sessions, table_of_sessions(found))):
        scores.write(path, content)
    window = found.window
    print(f"{given.to}: {len(window.sessions)} sessions, {len(window.complete)} complete, {len(window.broken)} broken rules, audits "
          f"{'agree' if found.audits.agree else 'DISAGREE'}")
    return 0 if found.holds else 1
