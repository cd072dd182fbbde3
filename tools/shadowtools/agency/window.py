"""A window: a journal of real examinees with what the agency has beside it, and what can be counted without any true ability.

    --annul FILE      booking,reason                   sessions that count in no number; a page names how many by reason
    --persons FILE    booking and person, group or both: who sat twice, and tables by group
    --times FILE      booking,step,shown,answered      the application's clock, in seconds or ISO 8601; steps count from 0
    --seals FILE ..   seals of the journal, as `audit.py --seal` prints them
"""
import datetime
from collections import Counter
from dataclasses import dataclass, field
from typing import Dict, List, Mapping, NamedTuple, Optional, Sequence, Tuple

import numpy as np

from shadowtools.agency.custody import said_by
from shadowtools.agency.scoring import Score, Scorer
from shadowtools.agency.simulation import Broken, Examination, broken_rules
from shadowtools.checkers import audit
from shadowtools.command import Refused
from shadowtools.formats.examination import Rule, Session, opened
from shadowtools.formats.exposure import Exposure
from shadowtools.formats.tables import Row, is_number, read_table

QUICK = 2.0     # seconds, below which an answer is hardly read


# ---------------------------------------------------------------- files of the agency

def read_rows(path: str, needed: Sequence[str], possible: Sequence[str] = ()) -> List[Tuple[str, Row]]:
    """Pairs of a row's place and the row of a table with these columns and no other."""
    head, rows = read_table(path)
    if not set(needed) <= set(head) <= {*needed, *possible} or possible and not set(possible) & set(head):
        wanted = ", ".join([*needed, *(f"[{name}]" for name in possible)])
        raise Refused(f"{path}: line 1: the columns are {wanted}, and not {', '.join(head)}")
    return [(f"{path}: line {line}", row) for line, row in rows]


def number_of(where: str, row: Row, column: str) -> int:
    """A booking or a step: a whole number below 2^63."""
    text = row[column]
    if not (text.isascii() and text.isdigit() and len(text) < 20 and int(text) < 2 ** 63):
        raise Refused(f"{where} column {column}: {text[:30]!r} is not a whole number")
    return int(text)


def read_annulled(path: str, sessions: Mapping[int, int]) -> Dict[int, str]:
    """By session the reason why it is annulled. Refused are a booking that is there twice or that the journal does not have."""
    found: Dict[int, str] = {}
    for where, row in read_rows(path, ("booking", "reason")):
        booking = number_of(where, row, "booking")
        if booking not in sessions:
            raise Refused(f"{where}: the journal has no booking {booking}")
        if sessions[booking] in found:
            raise Refused(f"{where}: booking {booking} is there twice")
        found[sessions[booking]] = row["reason"] or "no reason"
    return found


class Person(NamedTuple):
    """Who has a booking, and in which group; empty texts where the table has no such column, or nothing in it."""
    name: str
    group: str


def read_persons(path: str) -> Dict[int, Person]:
    """By booking the person. The table may have bookings without a session."""
    found: Dict[int, Person] = {}
    for where, row in read_rows(path, ("booking",), ("person", "group")):
        booking = number_of(where, row, "booking")
        if booking in found:
            raise Refused(f"{where}: booking {booking} is there twice")
        found[booking] = Person(row.get("person", ""), row.get("group", ""))
    return found


def read_times(path: str, sessions: Mapping[int, int], window: Sequence[Session]) -> Dict[Tuple[int, int], float]:
    """By session and step the seconds from shown to answered. Refused are a step without an answer in the journal, one that is there
    twice, and an answer before its item was shown."""
    found: Dict[Tuple[int, int], float] = {}
    for where, row in read_rows(path, ("booking", "step", "shown", "answered")):
        booking, step = number_of(where, row, "booking"), number_of(where, row, "step")
        session = sessions.get(booking)
        if session is None or step >= len(window[session].responses):
            raise Refused(f"{where}: the journal has no answer of booking {booking} at step {step}")
        seconds = moment(where, row, "answered") - moment(where, row, "shown")
        if seconds < 0 or (session, step) in found:
            raise Refused(f"{where}: {'answered before it was shown' if seconds < 0 else 'booking and step are there twice'}")
        found[session, step] = seconds
    return found


def moment(where: str, row: Row, column: str) -> float:
    """A time in seconds: a number, or a date and time of ISO 8601, which without an offset is one of UTC."""
    text = row[column]
    if is_number(text):
        return float(text)
    try:
        found = datetime.datetime.fromisoformat(text)
    except ValueError:
        raise Refused(f"{where} column {column}: {text[:30]!r} is neither seconds nor a time of ISO 8601")
    return (found if found.tzinfo else found.replace(tzinfo=datetime.timezone.utc)).timestamp()


# ---------------------------------------------------------------- the journal by two programs, and its seals

class Audits(NamedTuple):
    """The lines of an audit by the program, if there is one, and by tools/audit.py."""
    program: Optional[List[str]]
    second: List[str]

    @property
    def agree(self) -> bool:
        return self.program is None or self.program == self.second


def audits_of(examination: Examination, journal: str, program: Optional[str], tell) -> Audits:
    """Both audits of a journal. Refused is a journal that one of them refuses; `tell` is called with a line before the second, which
    takes a second or more for each thousand forms."""
    first = said_by(program, "audit", *examination.files(), journal=journal) if program else None
    tell("the second audit, by tools/audit.py, checks each proof tree ..")
    with opened(journal, "rb") as file:
        try:
            return Audits(first, list(audit.lines(audit.audit(audit.read_rules(*examination.files()), file))))
        except Refused as refused:
            raise Refused(f"{journal}: {refused.line}")


def seals_of(journal: str, paths: Sequence[str]) -> List[Tuple[str, audit.Seal, bool]]:
    """Each seal with its file, and whether the journal begins with its records."""
    found = []
    for path in paths:
        seal = audit.read_seal(path)
        with opened(journal, "rb") as file:
            found.append((path, seal, audit.seal_of(file, seal.records) == seal))
    return found


# ---------------------------------------------------------------- the window

@dataclass
class Beside:
    """What the agency has beside the journal: by session the reason of an annulment, by booking the person, by session and step the
    seconds of an answer. None: no file was given."""
    annulled: Optional[Dict[int, str]] = None
    persons: Optional[Dict[int, Person]] = None
    times: Optional[Dict[Tuple[int, int], float]] = None


@dataclass
class Window:
    """The sessions of a window by number, and how they are scored. `kept` are those that are not annulled, `complete`, `closed` and
    `still_open` parts of them; `scored` have a score, which is in the arrays `theta`, `error`, `scale`, `level` and `wrong` (the
    probability that the true level is another; NaN without cuts), at the places that `places` has by number. `names` are those of items, `counts` the exposure that the program
    counts, annulled sessions with it."""
    examination: Examination
    sessions: List[Session]
    scorer: Scorer
    least: int
    counts: Exposure
    beside: Beside = field(default_factory=Beside)

    def __post_init__(self) -> None:
        length, annulled = self.examination.plan.length, self.beside.annulled or {}
        self.length, self.items = length, self.examination.items
        self.names = np.array([item.name for item in self.items])
        self.kept = [number for number in range(len(self.sessions)) if number not in annulled]
        self.complete = [number for number in self.kept if len(self.sessions[number].responses) == length]
        self.closed = [number for number in self.kept if self.sessions[number].closed]
        ended = {*self.complete, *self.closed}
        self.still_open = [number for number in self.kept if number not in ended]
        self.scored = [number for number in self.kept if self.scorer.counting(self.sessions[number]) >= self.least]
        self.places = {number: place for place, number in enumerate(self.scored)}
        self.rate = self.examination.plan.rate[0] / self.examination.plan.rate[1]
        self.shown = np.zeros((len(self.complete), len(self.items)), bool)
        for row, number in enumerate(self.complete):
            self.shown[row, self.sessions[number].items] = True
        self.rules: List[Rule] = self.examination.plan.rules
        self.broken: List[Broken] = broken_rules(self.rules, self.of(self.complete), self.examination.bank)
        self.score_all()

    def score_all(self) -> None:
        found = [self.scorer.score(self.sessions[number]) for number in self.scored]
        scale = self.scorer.scale
        self.theta, self.error = np.array([one.theta for one in found]), np.array([one.error for one in found])
        self.scale = np.array([float(scale.score(one.theta)) for one in found])
        self.ends = np.array([bool(scale.end(one)) for one in found], bool)
        self.level = np.array([scale.level(scale.score(one.theta)) for one in found], int)
        self.wrong = np.array([self.chance_of_another(one, level) for one, level in zip(found, self.level)])

    def chance_of_another(self, found: Score, level: int) -> float:
        """The probability that the true level is another than that of the score."""
        bounds = [0.0] + found.below + [1.0]
        return 1 - (bounds[level + 1] - bounds[level]) if found.below else float("nan")

    def of(self, numbers: Sequence[int]) -> List[Session]:
        return [self.sessions[number] for number in numbers]

    @property
    def exposure(self) -> np.ndarray:
        """By item the share of the complete tests in which it was shown."""
        return self.shown.mean(0) if len(self.shown) else np.zeros(len(self.items))

    @property
    def unit(self) -> float:
        """Points of the reported scale in a logit."""
        return self.scorer.scale.unit


# ---------------------------------------------------------------- reliability and decisions

class Reliability(NamedTuple):
    """The reliability (NaN where it is below 0 or there is no variance), how many scores it rests on, and how many were left out
    because they are at an end of the obtainable scores."""
    value: float
    scores: int
    left_out: int


def reliability_of(window: Window) -> Reliability:
    """With V the variance of the estimates and E the mean error variance: V / (V + E) for the mean and the mode, which are drawn to the
    prior's mean; (V - E) / V for the likelihood estimates, without those that stop at an end."""
    shrunken = window.scorer.asked.estimate in ("eap", "mode")
    inside = np.ones(len(window.theta), bool) if shrunken else ~window.ends
    if inside.sum() < 2:
        return Reliability(float("nan"), int(inside.sum()), int((~inside).sum()))
    spread, noise = float(np.var(window.theta[inside], ddof=1)), float((window.error[inside] ** 2).mean())
    value = spread / (spread + noise) if shrunken else (spread - noise) / spread if spread > 0 else float("nan")
    return Reliability(value if value >= 0 and spread > 0 else float("nan"), int(inside.sum()), int((~inside).sum()))


def second_levels(window: Window, seed: int) -> np.ndarray:
    """By scored session the level of a second sitting that is simulated: the same items, answered at an ability that is drawn from the
    session's posterior under the plan's prior, and scored the same way."""
    rng, found = np.random.default_rng([seed, 6]), []
    theta, unit = np.array(window.scorer.theta), window.scorer.unit
    chances = [item.probabilities(theta, window.examination.scaling) for item in window.items]
    for session in window.of(window.scored):
        sums = np.array(window.scorer.sums(session), float)
        weights = np.exp((sums - sums.max()) / unit)
        at = rng.choice(len(theta), p=weights / weights.sum())
        items = session.items[:len(session.responses)]
        drawn = [int((rng.random() > np.cumsum(chances[item][:, at])[:-1]).sum()) for item in items]
        score = window.scorer.scale.score(window.scorer.score(Session(items=items, responses=drawn)).theta)
        found.append(window.scorer.scale.level(score))
    return np.array(found, int)


class Agreement(NamedTuple):
    """The share of examinees with the same level twice, and Cohen's kappa, which takes off the agreement by chance (NaN where one
    level has all)."""
    share: float
    kappa: float


def agreement_of(first: np.ndarray, second: np.ndarray) -> Agreement:
    share = float((first == second).mean())
    one, other = (Counter(levels.tolist()) for levels in (first, second))
    chance = sum(one[level] * other[level] for level in one) / len(first) ** 2
    return Agreement(share, (share - chance) / (1 - chance) if chance < 1 else float("nan"))


# ---------------------------------------------------------------- persons who sat twice

class Retest(NamedTuple):
    """Two tests of one person in the order of their sessions: the common share of the second test's items, and the change of the
    estimate in standard errors of the difference."""
    person: str
    first: int
    second: int
    overlap: float
    change: float


def retests_of(window: Window) -> List[Retest]:
    """Each scored test of a person with the one before it."""
    before: Dict[str, int] = {}
    found = []
    for number in window.scored:
        person = (window.beside.persons or {}).get(window.sessions[number].booking)
        if person is None or not person.name:
            continue
        if person.name in before:
            found.append(retest(window, person.name, before[person.name], number))
        before[person.name] = number
    return found


def retest(window: Window, person: str, first: int, second: int) -> Retest:
    one, other = window.places[first], window.places[second]
    items = window.sessions[second].items
    common = len(set(window.sessions[first].items) & set(items)) / len(items)
    error = float(np.hypot(window.error[one], window.error[other]))
    return Retest(person, first, second, common, float(window.theta[other] - window.theta[one]) / error if error > 0 else float("nan"))
