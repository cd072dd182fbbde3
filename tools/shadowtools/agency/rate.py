"""The exposure rate of a plan by which no item is shown in too many tests, in all and at each ability.

usage: shadow rate PREFIX --at-most ALL ABILITY [options]      PREFIX.bank.csv, PREFIX.plan.txt, PREFIX.map.json: irt_bank.py's

  --at-most ALL ABILITY   the greatest share of the tests in which an item may be shown: in all, and among examinees of one ability
  --bands N         the rate in each of N bands of abilities; default the bands of the plan
  --examinees N     how many at each of five abilities; default 1000. Fewer are a trial
  --group N         sessions at once, as many as in the real window; default 25: sessions at once overshoot together
  --seed N          default 1. The rate is chosen by it, and judged by the next one
  --program SHADOWD default $SHADOWD, else crates/shadowd/out/shadowd

A rate steers the share of visits of a band in which an item is served, and bounds nothing by itself. A test visits V bands in the mean, so an
item is shown in about rate times V of the tests, and in more where sessions overshoot. An item is shown in LENGTH / ITEMS of the tests in the
mean: no rate has less. Below a rate of LENGTH / (V ITEMS) eligibility is set aside, and the exposure rises again.

Examinees at the mean of the plan's prior, and 0.75 and 1.5 of its standard deviations away on both sides, come in random order. The search
begins with a rate that steers little, which gives V, goes on with ALL / (1.15 V), and goes down by a tenth. It ends with a rate by which both
wishes are met, also by the next seed but for two standard errors; or where eligibility is set aside in more than one in a hundred tests.

Each run is a line. Exit status: 0 with the rate; 1 where none was found, with the nearest, or where the files are refused.
"""
import argparse
import hashlib
import math
import os
import sys
import tempfile
from dataclasses import dataclass
from typing import Iterator, List, Optional, Sequence, Tuple

from shadowtools.needs import require

require("shadow rate", "numpy")

import numpy as np  # noqa: E402

from shadowtools.agency import band_points  # noqa: E402
from shadowtools.agency.drivers import Progress, Server, by_turns  # noqa: E402
from shadowtools.agency.parts import memory  # noqa: E402
from shadowtools.agency.simulate import MOST_SESSIONS, roomy, with_base  # noqa: E402
from shadowtools.agency.simulation import (  # noqa: E402
    MOST_SEED, Examination, drawn_responses, grid_sums, load, prior_on)
from shadowtools.alive import tell  # noqa: E402
from shadowtools.command import Refused, as_command  # noqa: E402
from shadowtools.formats.examination import Session, band_of, read_journal, sessions_of  # noqa: E402
from shadowtools.formats.tables import text_of  # noqa: E402
from shadowtools.options import Options, between, whole  # noqa: E402
from shadowtools.places import BUILT  # noqa: E402

SIGMAS = (-1.5, -0.75, 0.0, 0.75, 1.5)
THOUSANDTHS, STEERS_LITTLE, OVERSHOOT, STEP = 1000, 900, 1.15, 0.9
MOST_ASIDE = 0.01   # share of the tests
ENOUGH = 1000       # examinees at each ability


@dataclass(frozen=True)
class Wish:
    """The greatest exposure that may be, in all and at an ability."""
    in_all: float
    at_ability: float


@dataclass(frozen=True)
class Run:
    """What one rate (thousandths) gave: bands that a test visits in the mean, the greatest exposure in all and at an ability with the
    item and the ability, the share of the tests in which eligibility was set aside, and how many tests there were."""
    rate: int
    visits: float
    in_all: float
    item: str
    at_ability: float
    item_there: str
    ability: float
    aside: float
    tests: int

    def error(self, share: float, of: int = 1) -> float:
        """The standard error of a share of the tests, or of one of `of` equal parts of them."""
        return math.sqrt(share * (1 - share) * of / self.tests)

    def meets(self, wish: Wish, errors: float = 0.0) -> bool:
        """Whether both shares are at most what is wished, and so many standard errors."""
        return (self.in_all <= wish.in_all + errors * self.error(self.in_all)
                and self.at_ability <= wish.at_ability + errors * self.error(self.at_ability, len(SIGMAS)))

    def excess(self, wish: Wish) -> float:
        return max(self.in_all - wish.in_all, self.at_ability - wish.at_ability)

    def line(self) -> str:
        return (f"rate {self.rate}/{THOUSANDTHS} per visit: visits {self.visits:.2f}, greatest in all {self.in_all:.3f} ({self.item}), at an ability "
                f"{self.at_ability:.3f} ({self.item_there} at {self.ability:.2f}), rate x visits {self.rate / THOUSANDTHS * self.visits:.3f}, "
                f"set aside in {self.aside:.1%} of {self.tests} tests")


# ---------------------------------------------------------------- one run

def plan_with(text: str, rate: int, points: Sequence[int], key: str) -> str:
    """The plan with this rate, these bands and this key in the place of its own."""
    kept = "".join(line + "\n" for line in text.splitlines() if line.split(" ")[0] not in ("rate", "bands", "key"))
    return f"{kept}rate {rate} {THOUSANDTHS}\nkey {key}\n" + (f"bands {' '.join(map(str, points))}\n" if points else "")


def five_abilities(examination: Examination) -> List[float]:
    """The abilities of the examinees. With a flat prior they are as far apart as with a normal one whose six standard deviations are the
    grid."""
    prior, theta = examination.map["prior"], examination.theta
    mean, deviation = ((theta[0] + theta[-1]) / 2, (theta[-1] - theta[0]) / 6) if prior == ["flat"] else map(float, prior)
    return [mean + sigma * deviation for sigma in SIGMAS]


class Study:
    """Runs of one bank and plan, with any rate and any seed."""

    def __init__(self, given: argparse.Namespace, examination: Examination, points: Sequence[int]) -> None:
        self.given, self.examination, self.points = given, examination, list(points)
        self.abilities = five_abilities(examination)
        self.plan = with_base(given.program, examination.files(), roomy(text_of(examination.files()[1])))

    def run(self, rate: int, seed: int) -> Run:
        """Takes all examinees through with a rate."""
        number = len(self.abilities) * self.given.examinees
        where = np.random.default_rng([seed, 7]).permutation(np.arange(number) % len(self.abilities))
        responses = drawn_responses(self.examination.items, np.array(self.abilities)[where], self.examination.scaling, seed)
        key = hashlib.sha256(f"shadow rate {seed}".encode()).hexdigest()
        with tempfile.TemporaryDirectory(dir=memory()) as folder:
            plan, journal = os.path.join(folder, "plan.txt"), os.path.join(folder, "journal")
            with open(plan, "w", encoding="utf-8") as file:
                file.write(plan_with(self.plan, rate, self.points, key))
            self.through(plan, journal, responses)
            sessions = sessions_of(read_journal(journal))
        return self.counted(rate, sessions, where)

    def through(self, plan: str, journal: str, responses: np.ndarray) -> None:
        given = self.given
        progress = Progress(len(responses) * self.examination.plan.length, tell)
        server = Server(os.path.abspath(given.program), self.examination.files()[0], plan, journal, 1)
        try:
            by_turns(server, range(len(responses)), dict(enumerate(responses)), given.group, progress)
            server.end()
        finally:
            server.process.kill()

    def counted(self, rate: int, sessions: Sequence[Session], where: np.ndarray) -> Run:
        """The numbers of a run; `where` has by booking the place of the ability."""
        length, names = self.examination.plan.length, [item.name for item in self.examination.items]
        if len(sessions) != len(where) or any(len(session.responses) != length for session in sessions):
            raise Refused(f"the journal of the rate {rate}/{THOUSANDTHS} has not the whole test of each examinee")
        shown = np.zeros((len(sessions), len(names)), bool)
        for row, session in enumerate(sessions):
            shown[row, session.items] = True
        place = where[[session.booking for session in sessions]]
        there = np.stack([shown[place == ability].mean(0) for ability in range(len(self.abilities))])
        ability, item = np.unravel_index(there.argmax(), there.shape)
        rates = shown.mean(0)
        visits = sum(self.visited(session) for session in sessions) / len(sessions)
        return Run(rate, visits, float(rates.max()), names[int(rates.argmax())], float(there.max()), names[item], self.abilities[ability],
                   sum(bool(session.aside) for session in sessions) / len(sessions), len(sessions))

    def visited(self, session: Session) -> int:
        """The number of bands that a session visits: that in which it begins, and each in which an item is served."""
        points = grid_sums(self.examination, session.items, session.responses)[:-1].argmax(1)
        return len({band_of(self.points, int(point)) for point in points})


# ---------------------------------------------------------------- the search

def search(study: Study, wish: Wish, seed: int) -> Iterator[Tuple[Run, Optional[Run]]]:
    """Each run of the search, and where it meets both wishes the run of the next seed beside it."""
    rate, first = STEERS_LITTLE, True
    while rate >= 1:
        found = study.run(rate, seed)
        yield found, study.run(rate, seed + 1) if found.meets(wish) else None
        if found.aside > MOST_ASIDE:
            return
        guess = round(THOUSANDTHS * wish.in_all / (OVERSHOOT * found.visits)) if first else rate
        rate, first = min(math.floor(STEP * rate), max(1, guess)), False


def points_of(given: argparse.Namespace, examination: Examination) -> List[int]:
    """The points at which bands begin: those of the plan, or those of so many bands."""
    if not given.bands:
        return examination.plan.points
    weights = np.exp(prior_on(examination.map["prior"], examination.theta))
    found = band_points.advice(given.bands, examination.items, examination.theta, examination.scaling, examination.plan.length,
                               examination.map["prior"], weights)
    for warning in found.warnings:
        print("warning: " + warning, file=sys.stderr)
    return found.points


def require_possible(wish: Wish, examination: Examination) -> None:
    """Refuses a wish that no rate can meet."""
    length, items = examination.plan.length, len(examination.items)
    for share in (wish.in_all, wish.at_ability):
        if share * items < length:
            raise Refused(f"--at-most {share:g}: on the average an item is shown in {length} of {items} tests, {length / items:.3f} of them; no "
                          "rate has less")


def options(words: Sequence[str]) -> argparse.Namespace:
    parser = Options(__doc__)
    parser.add_argument("prefix", nargs="?")
    parser.add_argument("--at-most", nargs=2, type=between(0, 1))
    parser.add_argument("--bands", type=whole(band_points.FEWEST_BANDS, band_points.MOST_BANDS))
    parser.add_argument("--examinees", type=whole(1, MOST_SESSIONS // len(SIGMAS)), default=ENOUGH)
    parser.add_argument("--group", type=whole(1, MOST_SESSIONS), default=25)
    parser.add_argument("--seed", type=whole(0, MOST_SEED - 1), default=1)
    parser.add_argument("--program", default=BUILT)
    return parser.read(words, lambda found: bool(found.prefix and found.at_most))


def main(words: Sequence[str]) -> int:
    given = options(words)
    examination, wish = load(given.prefix), Wish(*given.at_most)
    require_possible(wish, examination)
    study = Study(given, examination, points_of(given, examination))
    runs: List[Run] = []
    for found, second in search(study, wish, given.seed):
        runs.append(found)
        print(found.line(), flush=True)
        if second:
            print(f"  seed {given.seed + 1}: {second.line()}", flush=True)
            if second.meets(wish, 2):
                print_found(found, second, study)
                return 0
    nearest = min(runs, key=lambda run: run.excess(wish))
    print(f"no rate meets at most {wish.in_all:g} in all and {wish.at_ability:g} at an ability; the nearest is {nearest.line()}")
    return 1


def print_found(found: Run, second: Run, study: Study) -> None:
    """The rate, what to give irt_bank.py, and how sure it is."""
    trial = "" if study.given.examinees >= ENOUGH else f"a trial with fewer than {ENOUGH} examinees at each ability: "
    bands = f" --bands {len(study.points) + 1}" if study.points else ""
    print(f"{trial}--rate {found.rate} {THOUSANDTHS}{bands} --key (64 hexadecimal digits of your own)")
    print(f"the next seed gives {second.in_all:.3f} in all and {second.at_ability:.3f} at an ability; a share has a standard error of "
          f"{second.error(second.in_all):.3f} and {second.error(second.at_ability, len(SIGMAS)):.3f}, and the greatest of "
          f"{len(study.examination.items)} items lies about two of them too high")


command = as_command(main)


if __name__ == "__main__":
    sys.exit(command())
