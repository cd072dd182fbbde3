"""Second sittings of simulated examinees: what they share with the first of the same person, and how well they measure."""
from collections import Counter
from dataclasses import dataclass
from typing import Dict, List, Mapping, Sequence, Tuple

import numpy as np

from shadowtools.agency.drivers import WITHOUT_FORM
from shadowtools.agency.simulation import Examination, estimates
from shadowtools.formats.examination import Session


@dataclass
class Sitting:
    """One of the two sittings of the same persons: error of the estimates in logits, the forms that are proved best, and the tests in which
    eligibility was set aside."""
    bias: float
    rmse: float
    rmse_of_mode: float
    posterior_sd: float
    proved: int
    forms: int
    aside: int


@dataclass
class Retakes:
    """The first and the second session of each retaker whose second sitting was begun, with the true abilities; `refused` has how many
    second sittings found no form, by the word of the refusal. `has_lists`: the second were begun without the items of the first."""
    pairs: List[Tuple[Session, Session]]
    true: np.ndarray
    refused: Dict[str, int]
    has_lists: bool

    @property
    def number(self) -> int:
        """The number of retakers."""
        return len(self.pairs) + sum(self.refused.values())

    def common(self) -> np.ndarray:
        """By retaker the share of the second test's items that the first had too: the overlap of the person's two tests."""
        return np.array([len(set(first.items) & set(second.items)) / len(second.items) for first, second in self.pairs])

    def sitting(self, examination: Examination, place: int) -> Sitting:
        """The numbers of the first (0) or the second (1) sitting."""
        sessions = [pair[place] for pair in self.pairs]
        found, marks = estimates(examination, sessions), [one.proved for session in sessions for one in session.served]
        errors = found.eap - self.true
        return Sitting(float(errors.mean()), root_mean_square(errors), root_mean_square(found.mode - self.true),
                       float(found.deviation.mean()), sum(marks), len(marks), sum(bool(session.aside) for session in sessions))


def root_mean_square(errors: np.ndarray) -> float:
    return float(np.sqrt((errors ** 2).mean()))


def retakes_of(run: dict, first: Sequence[Session], second: Sequence[Session]) -> Retakes:
    """The retakers of a run of simulate.py, from the sessions of the sample and those of the second sittings. The booking of the
    second sitting of the k-th retaker is k more than the examinees of the sample and of the tails."""
    before, after = by_booking(first), by_booking(second)
    bookings = enumerate(run["retakers"], len(run["true"]))
    begun = [(examinee, booking) for booking, examinee in bookings if booking in after and examinee in before]
    return Retakes([(before[examinee], after[booking]) for examinee, booking in begun],
                   np.array([run["true"][examinee] for examinee, _ in begun]),
                   dict(Counter(run["refused"].values())), run["lists"])


def by_booking(sessions: Sequence[Session]) -> Mapping[int, Session]:
    return {session.booking: session for session in sessions}


def summary(found: Retakes, examination: Examination) -> str:
    """The lines on retakers that simulate.py prints."""
    of = "without the items of the first" if found.has_lists else "with no list"
    refused = ", ".join(f"{found.refused.get(word, 0)} refused {word}" for word in WITHOUT_FORM)
    line = f"second sittings {found.number}, {of}: {len(found.pairs)} begun, {refused}"
    if not found.pairs:
        return line
    common, first, second = found.common(), *(found.sitting(examination, place) for place in (0, 1))
    return (f"{line}\ntwo sittings of a person: overlap {common.mean():.3f}, at most {common.max():.3f}; RMSE of the mean {first.rmse:.3f} "
            f"and {second.rmse:.3f}, of the mode {first.rmse_of_mode:.3f} and {second.rmse_of_mode:.3f}; "
            f"forms proved {second.proved} of {second.forms} in the second; eligibility set aside in {first.aside} and {second.aside}")
