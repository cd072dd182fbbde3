"""The pictures of the page of a window."""
from typing import Sequence

import numpy as np

from shadowtools.agency.fit import ItemFit
from shadowtools.agency.window import Window
from shadowtools.page.parts import Picture
from shadowtools.page.pictures import BLUE, GREY, RED, below, half, picture, shares
from shadowtools.page.study import plain

MANY = 500    # examinees, above which their dots are small


def scores(window: Window) -> Picture:
    """How many examinees have which score, with the cut scores."""
    figure, axes = half(legend=1)
    axes.hist(window.scale, bins=30, color=BLUE, alpha=0.8, label="examinees")
    draw_cuts(window, axes)
    axes.set(xlabel="reported score", ylabel="examinees")
    below(axes)
    return picture(figure, "Reported scores", f"How many of {len(window.scale)} examinees have which score, from {plain(window.scale.min())} "
                                              f"to {plain(window.scale.max())}.")


def draw_cuts(window: Window, axes) -> None:
    for place, cut in enumerate(window.scorer.scale.cuts):
        axes.axvline(cut, color=RED, lw=1.2, ls="--", label="" if place else "cut score")


def errors(window: Window) -> Picture:
    """The standard error of each score. The greatest one is clear of the edge."""
    figure, axes = half(legend=1)
    least, most = (window.unit * end for end in (window.error.min(), window.error.max()))
    size = 3 if len(window.error) > MANY else 6
    axes.plot(window.scale, window.unit * window.error, ".", ms=size, color=BLUE, alpha=0.5, label="an examinee")
    draw_cuts(window, axes)
    axes.set(xlabel="reported score", ylabel="its standard error", ylim=(0, 1.1 * most))
    below(axes)
    return picture(figure, "Standard error of each reported score", f"The standard errors of the scores are from {least:.4g} to {most:.4g}.")


def exposure(window: Window) -> Picture:
    """The exposure of the items, the greatest first."""
    figure, axes = half(legend=1)
    rates = np.sort(window.exposure)[::-1]
    axes.bar(np.arange(len(rates)), rates, width=1, color=BLUE, label="an item")
    if window.rate < 1 and not window.counts.plan.points:
        axes.axhline(window.rate, color=RED, lw=1.2, ls="--", label="rate of the plan, per test")
    axes.set(xlabel="items, the most exposed first", ylabel="share of the complete tests", ylim=(0, 1))
    shares(axes, "y")
    below(axes)
    return picture(figure, "Exposure of the items, per complete test",
                   f"The exposure of {len(rates)} items, from {rates[0]:.1%} to {rates[-1]:.1%} of the complete tests.")


def fit(found: Sequence[ItemFit]) -> Picture:
    """The mean answer of each item beside what is expected, as a share of the greatest score of the item."""
    figure, axes = half(legend=1)
    marked = np.array([abs(one.farthest) > 3 for one in found], bool)
    mean, expected = np.array([one.mean for one in found]), np.array([one.expected for one in found])
    top = max(1.0, mean.max(), expected.max())
    axes.plot([0, top], [0, top], color=GREY, lw=0.8)
    axes.plot(expected[~marked], mean[~marked], "o", ms=4, color=BLUE, alpha=0.6, label="an item")
    if marked.any():
        axes.plot(expected[marked], mean[marked], "s", ms=5, color=RED, label="marked")
    axes.set(xlabel="expected mean answer", ylabel="mean answer")
    below(axes)
    return picture(figure, "Mean answers beside what the parameters expect",
                   f"The mean answer of each of {len(found)} items beside the expected one; {marked.sum()} are marked.")
