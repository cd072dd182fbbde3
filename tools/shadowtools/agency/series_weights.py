"""The weights of a series of fixed forms: a whole number for each grid point, from weights at abilities, and back from its word."""
from typing import List, Sequence

import numpy as np

from shadowtools.command import Refused
from shadowtools.formats.tables import is_number, text_of

MOST_WEIGHT = 1_000


def is_weight(text: str) -> bool:
    return text.isascii() and text.isdigit() and len(text) <= 4 and int(text) <= MOST_WEIGHT


def weights_of(words: Sequence[str], theta: np.ndarray) -> List[int]:
    """The weights of words WEIGHT@ABILITY, each at the grid point nearest to its ability; the other points have 0.

    Refused are abilities outside of the grid, and two words for one grid point."""
    weights, taken = [0] * len(theta), set()
    for word in words:
        weight, _, ability = word.partition("@")
        if not (is_weight(weight) and is_number(ability)):
            raise Refused(f"--weights {word}: a whole weight from 0 to {MOST_WEIGHT:,} at an ability, as 1@-0.5")
        if not theta[0] <= float(ability) <= theta[-1]:
            raise Refused(f"--weights {word}: the grid goes from {theta[0]:g} to {theta[-1]:g}")
        place = int(np.abs(theta - float(ability)).argmin())
        if place in taken:
            raise Refused(f"--weights {word}: another weight is at the same grid point, {theta[place]:g}")
        taken.add(place)
        weights[place] = int(weight)
    if not any(weights):
        raise Refused("--weights: one is above 0")
    return weights


def read_weights(path: str, points: int) -> List[int]:
    """The weights of a file that has the word WEIGHTS, one for each grid point."""
    words = text_of(path).strip().split(",")
    if len(words) != points or not all(map(is_weight, words)) or not any(map(int, words)):
        raise Refused(f"{path}: not {points} weights from 0 to {MOST_WEIGHT:,}, parted by commas, of which one is above 0; "
                      "irt_bank.py --weights writes it")
    return [int(word) for word in words]


def word_of(weights: Sequence[int]) -> str:
    """The word WEIGHTS of `shadowd series`."""
    return ",".join(map(str, weights))
