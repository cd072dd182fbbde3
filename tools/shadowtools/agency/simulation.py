"""What simulate.py and report.py share: the examination that is simulated, the examinees, and the estimates.

Examinees are drawn beforehand: an ability each, and for each item of the bank one response, so that two plans, grids
or versions of the program can be compared on the same answers. Responses follow the exact parameters of the map, not
the rounded tables of the bank.
"""
import math
from dataclasses import dataclass
from typing import Dict, List, Optional, Sequence, Tuple

import numpy as np

from shadowtools.agency.custody import read_documents
from shadowtools.agency.expected import Expected, expected_by
from shadowtools.agency.irt import DICHOTOMOUS, FIELD, POLYTOMOUS, Item, fault
from shadowtools.agency.scoring import moments, posterior_sums
from shadowtools.command import Refused
from shadowtools.formats.examination import BankItem, Plan, Rule, Session, bands_of, is_finite, json_of, read_plan, require_agreement
from shadowtools.formats.tables import is_number

FINE = np.linspace(-6, 6, 1201)    # of N(0, 1), on a grid in logits
MOST_SEED = 2 ** 63 - 1


@dataclass
class Examination:
    """Bank, plan and map of a prefix, as irt_bank.py writes them, with the SHA-256 of each file, and whether the plan names the map."""
    prefix: str
    bank: List[BankItem]
    plan: Plan
    map: dict
    items: List[Item]
    sha256: Dict[str, str]
    is_bound: bool = True

    @property
    def theta(self):
        return np.array(self.map["theta"])

    @property
    def expected(self) -> Expected:
        """The examinees that the plan expects."""
        return expected_by(self.map["prior"], self.map["theta"])

    @property
    def widest(self) -> Tuple[float, float]:
        """The abilities between which simulations are."""
        return self.expected.widest(self.map["theta"])

    @property
    def scaling(self):
        return self.map["D"]

    def files(self):
        return self.prefix + ".bank.csv", self.prefix + ".plan.txt"


def load(prefix: str, may_be_unbound: bool = False) -> Examination:
    """The examination of a prefix. Refused are files that are not of one another (custody.py), and a map whose items are of no known
    model, or whose prior is none."""
    documents = read_documents(prefix + ".bank.csv", prefix + ".plan.txt", prefix + ".map.json", may_be_unbound=may_be_unbound)
    found = documents.map
    items = [Item(r["id"], r["model"], r["parameters"], r["attributes"], r["passage"]) for r in found["items"]]
    for item, row in zip(items, documents.bank):
        why = fault(item) if item.model in (*DICHOTOMOUS, *POLYTOMOUS, FIELD) else "unknown model"
        if why or item.categories != row.categories:
            raise Refused(f"{prefix}.map.json: item {item.name}: {why or 'other categories than in the bank'}")
    prior = found["prior"]
    if prior != ["flat"] and not (all(map(is_number, prior)) and float(prior[1]) > 0):
        raise Refused(f"{prefix}.map.json: the prior {' '.join(prior)} is no mean and standard deviation")
    return Examination(prefix, documents.bank, documents.plan, found, items, documents.sha256, documents.is_bound)


def rules_of(path: Optional[str], examination: Examination) -> List[Rule]:
    """The rules of another plan for the same bank, at a path, or those of the examination. Refused is a plan for another bank."""
    if not path:
        return examination.plan.rules
    plan = read_plan(path)
    require_agreement(examination.bank, plan, path)
    return plan.rules


# ---------------------------------------------------------------- examinees

def abilities(words: Sequence[str], number: int, seed: int, widest: Tuple[float, float] = (FINE[0], FINE[-1])) -> np.ndarray:
    """True abilities: normal MEAN SD, uniform LOW HIGH, points T T .. with equal numbers at each, one point after the other, or
    turns T T .. with the same in turn. They are within `widest`, and a standard deviation is at most half as wide."""
    if not 0 <= seed <= MOST_SEED:
        raise Refused(f"--seed {seed}: 0 to {MOST_SEED}")
    rng = np.random.default_rng([seed, 1])
    if words[0] == "normal" and len(words) == 3 and abilities_of(words[1:2], widest) and is_number(words[2]):
        if 0 <= float(words[2]) <= (widest[1] - widest[0]) / 2:
            return rng.normal(float(words[1]), float(words[2]), number)
    numbers = abilities_of(words[1:], widest)
    if words[0] == "uniform" and len(numbers) == 2 and numbers[0] <= numbers[1]:
        return rng.uniform(*numbers, number)
    if words[0] == "points" and numbers:
        return np.repeat(numbers, -(-number // len(numbers)))[:number]
    if words[0] == "turns" and numbers:
        return np.resize(numbers, number)
    raise Refused(f"--true {' '.join(words)}: normal MEAN SD, uniform LOW HIGH, points T T .. or turns T T .., with abilities from "
                  f"{widest[0]:g} to {widest[1]:g} and an SD of 0 to {(widest[1] - widest[0]) / 2:g}")


def abilities_of(words: Sequence[str], widest: Tuple[float, float] = (FINE[0], FINE[-1])) -> List[float]:
    """The words as numbers within a range; none where a word is no such number."""
    numbers = [float(word) for word in words if is_number(word)]
    return numbers if len(numbers) == len(words) and all(widest[0] <= number <= widest[1] for number in numbers) else []


def band_names(theta: np.ndarray, points: Sequence[int]) -> List[str]:
    """The abilities of each band that begins at a point, in logits: from its first to its last point."""
    return [f"{theta[band[0]]:g} to {theta[band[-1]]:g}" for band in bands_of(points, len(theta))]


def middles(examination: Examination, points: Sequence[int]) -> List[float]:
    """The middle of each band: the ability that halves the prior within it, between two points by a straight line."""
    theta, weights = examination.theta, np.exp(prior_on(examination.map["prior"], examination.theta))
    found = []
    for inside in map(list, bands_of(points, len(theta))):
        below = np.cumsum(weights[inside]) - weights[inside] / 2
        found.append(float(np.interp(weights[inside].sum() / 2, below, theta[inside])))
    return found


FIRST_SITTING, SECOND_SITTING = 2, 3    # streams of answers


def drawn_responses(items: Sequence[Item], theta: np.ndarray, scaling: float, seed: int, sitting: int = FIRST_SITTING) -> np.ndarray:
    """By examinee and item the response, drawn by the item's model at the examinee's ability, for each sitting anew.

    The first examinees have the same answers however many follow them."""
    uniform = np.random.default_rng([seed, sitting]).random((len(theta), len(items)))
    columns = [(uniform[:, k] > np.cumsum(item.probabilities(theta, scaling), 0)[:-1]).sum(0)
               for k, item in enumerate(items)]
    return np.stack(columns, 1)


def retakers_of(examinees: int, share: float, seed: int) -> List[int]:
    """The examinees that sit twice: at random, at least one where the share is above 0. Those of a share are also of a greater one."""
    order = np.random.default_rng([seed, 4]).permutation(examinees)
    return sorted(order[:math.ceil(share * examinees - 1e-9)].tolist())


# ---------------------------------------------------------------- estimates

@dataclass
class Estimates:
    """By session: the mode on the grid (shadowd's), the continuous mode, mean and SD of the posterior over the grid (those of
    score.py), and the MLE."""
    mode: np.ndarray
    map: np.ndarray
    eap: np.ndarray
    deviation: np.ndarray
    mle: np.ndarray


def prior_on(words: Sequence[str], theta: np.ndarray) -> np.ndarray:
    """The logarithm of the prior of a map, up to a constant."""
    if words == ["flat"]:
        return np.zeros(len(theta))
    mean, deviation = map(float, words)
    return -((theta - mean) / deviation) ** 2 / 2


def grid_sums(examination: Examination, items: Sequence[int], responses: Sequence[int]) -> np.ndarray:
    """By number of answers given and point, the sums that shadowd takes the mode of."""
    logs = [examination.bank[i].logs[r] for i, r in zip(items, responses)]
    return np.cumsum([examination.plan.prior] + logs, 0)


def estimates(examination: Examination, sessions: Sequence[Session]) -> Estimates:
    """All estimates of the sessions from the same answers. The MLE is kept on the grid's range; mode, mean and SD are from the
    bank's whole numbers."""
    fine = np.linspace(*examination.widest, len(FINE))
    exact = [np.log(np.maximum(item.probabilities(fine, examination.scaling), 1e-300)) for item in examination.items]
    prior = prior_on(examination.map["prior"], fine)
    theta = examination.theta
    inside = (fine >= theta[0] - 1e-9) & (fine <= theta[-1] + 1e-9)
    rows = []
    for session in sessions:
        like = sum(exact[i][r] for i, r in zip(session.items, session.responses))
        sums = posterior_sums(examination.bank, examination.plan.prior, session.items, session.responses)
        rows.append([theta[np.argmax(sums)], fine[(like + prior).argmax()],
                     *moments(sums, examination.map["theta"], examination.map["log_unit"]), fine[inside][like[inside].argmax()]])
    return Estimates(*np.array(rows).T)


# ---------------------------------------------------------------- what a simulation leaves

@dataclass
class Broken:
    """A rule that the items of a session do not meet, with its value there."""
    session: int
    rule: Rule
    value: int


def broken_rules(rules: Sequence[Rule], sessions: Sequence[Session], bank: Sequence[BankItem]) -> List[Broken]:
    """Each rule that the items of a whole session do not meet, counted apart from the product."""
    return [Broken(number, rule, rule.value(session.items, bank))
            for number, session in enumerate(sessions) for rule in rules if not rule.met(session.items, bank)]


def parted(sessions: Sequence[Session], examinees: int) -> Tuple[List[Session], List[Session]]:
    """The sessions of the sample, whose bookings are below `examinees`, and those of the tails."""
    return ([session for session in sessions if session.booking < examinees],
            [session for session in sessions if session.booking >= examinees])


# The fields of a run and their types in JSON.
FIELDS = {"true": list, "examinees": int, "of": list, "tails": list, "seed": int, "bank": str, "through": str, "said": str,
          "wall": float, "seconds": list, "clients": (int, type(None)), "date": str, "revision": str, "sha256": dict,
          "retakers": list, "lists": bool, "refused": dict}


def read_run(path: str) -> dict:
    """The run that simulate.py wrote. Refused is a file that lacks one of its fields, or has one of another type."""
    run = json_of(path)
    if not isinstance(run, dict):
        raise Refused(f"{path}: no run of simulate.py")
    for name, kind in FIELDS.items():
        if not isinstance(run.get(name), kind):
            raise Refused(f"{path}: no run of this simulate.py: {name} is missing or of another type; simulate again")
    if not all(map(is_finite, run["true"])) or not 0 < run["examinees"] <= len(run["true"]):
        raise Refused(f"{path}: the abilities of {run['examinees']} examinees are not there as finite numbers")
    pairs = all(isinstance(one, list) and len(one) == 2 and all(map(is_finite, one)) and one[0] > 0 for one in run["seconds"])
    if not (pairs and run["seconds"] and run["tails"] == run["true"][run["examinees"]:]
            and all(isinstance(word, str) for word in [*run["of"], *run["sha256"].values()])):
        raise Refused(f"{path}: no run of this simulate.py: its tails, its times or its words are none; simulate again")
    examinees, words = range(run["examinees"]), run["refused"].values()
    if not (all(type(one) is int and one in examinees for one in run["retakers"]) and all(isinstance(word, str) for word in words)
            and sorted(set(run["retakers"])) == run["retakers"] and len(words) <= len(run["retakers"])):
        raise Refused(f"{path}: no run of this simulate.py: its retakers are none; simulate again")
    return run
