"""The pictures of the page: SVG within the page, with text of one size and units on every axis."""
import base64
import io
from typing import List

import matplotlib
import numpy as np

from shadowtools.agency.simulation import grid_sums
from shadowtools.formats.examination import Session
from shadowtools.page.measures import common_items, standard_error
from shadowtools.page.parts import Picture
from shadowtools.page.study import Study, estimates_of, plain, table_by_band

matplotlib.use("Agg")
import matplotlib.pyplot as plt  # noqa: E402
from matplotlib.ticker import MaxNLocator, PercentFormatter  # noqa: E402

BLUE, RED, GREY, PALE = "#23609f", "#b5322a", "#6b6b6b", "#cfcfcf"
HALF, WHOLE = 4.5, 9.2
LONGEST_NAME, GAP = 12, ".."
plt.rcParams.update({
    "font.size": 10.5, "axes.titlesize": 10.5, "axes.labelsize": 10.5, "xtick.labelsize": 10.5, "ytick.labelsize": 10.5,
    "legend.fontsize": 10.5, "legend.frameon": False, "legend.handlelength": 1.6, "axes.spines.top": False,
    "axes.spines.right": False, "svg.hashsalt": "report", "lines.linewidth": 1.6})


def half(height=3.2, legend=0):
    """Axes for half of the page's width. Pictures beside each other with as many lines of legend have equal axes."""
    height += 0.24 * legend
    figure, axes = plt.subplots(figsize=(HALF, height))
    figure.subplots_adjust(left=0.84 / HALF, right=1 - 0.12 / HALF, top=1 - 0.12 / height, bottom=(0.6 + 0.24 * legend) / height)
    return figure, axes


def shortened(name: str, most: int = LONGEST_NAME) -> str:
    """A name of at most so many characters: a longer one without its middle. Its whole text is in the table below the picture."""
    if len(name) <= most:
        return name
    last = (most - len(GAP)) // 2
    return name[:most - len(GAP) - last] + GAP + name[-last:]


def short_names(names) -> List[str]:
    """Names for an axis. Where two would be the same in short, each has its place among these names behind it."""
    short = [shortened(name) for name in names]
    return [one if short.count(one) == 1 else f"{shortened(name, LONGEST_NAME - 4)} #{place}"
            for place, (one, name) in enumerate(zip(short, names), 1)]


def below(axes):
    """A legend at the foot of the picture, where it covers nothing."""
    axes.figure.legend(loc="lower center", ncol=2, columnspacing=1.2, borderpad=0.1, labelspacing=0.25)


def picture(figure, caption, alt, wide=False):
    """The figure as a data URI. The date is left out, so that the same study gives the same bytes."""
    out = io.BytesIO()
    figure.savefig(out, format="svg", metadata={"Date": None})
    plt.close(figure)
    return Picture("data:image/svg+xml;base64," + base64.b64encode(out.getvalue()).decode(), alt, caption, wide)


def shares(axes, which):
    getattr(axes, which + "axis").set_major_formatter(PercentFormatter(1.0, decimals=0, symbol="%"))


# ---------------------------------------------------------------- precision

def standard_errors(study: Study) -> Picture:
    """The standard error by ability, of each test, in the mean, and in the tails, beside the target."""
    figure, axes = half(3.4, legend=2)
    at, line = draw_standard_errors(study, axes)
    below(axes)
    said = f"from {line.min():.2f} at {plain(round(at[line.argmin()], 1))} to {line.max():.2f} at {plain(round(at[line.argmax()], 1))}"
    return picture(figure, "Standard error by ability, from the information of the items that were given",
                   f"The standard error of the tests by true ability, in {study.unit}: in the mean {said}.")


def draw_standard_errors(study: Study, axes):
    at = study.abilities()
    line, bands = standard_error(study.mean_information(at)), table_by_band(study, study.bands_of_truth)
    axes.plot(study.people.true, study.people.standard_error, ".", ms=3, color=BLUE, alpha=0.3, label="each test")
    axes.plot(at, line, color=BLUE, label="mean of the tests")
    axes.plot(bands.ability, bands.rmse, "s", ms=5, mfc="none", color=GREY, label=f"RMSE of the {study.short_name}")
    target = study.questions.target
    if target:
        wide = np.linspace(target.abilities[0], target.abilities[-1], 121)
        axes.plot(wide, standard_error(target.information(wide)), "--", color=RED, label="target, at most")
    axes.set(xlabel=f"true ability ({study.unit})", ylabel=f"standard error ({study.unit})", ylim=(0, 1.1 * max(line.max(), bands.rmse.max())))
    return at, line


def information(study: Study) -> Picture:
    """The information by ability beside the target and the best that the bank has."""
    figure, axes = half(3.4, legend=2)
    at = study.abilities()
    line, best = study.mean_information(at), study.best_of_bank(at)
    axes.plot(study.people.true, study.people.information, ".", ms=3, color=BLUE, alpha=0.3, label="each test")
    axes.plot(at, line, color=BLUE, label="mean of the tests")
    axes.plot(at, best, ":", color="k", label=f"best {study.length} items, no rules")
    target = study.questions.target
    if target:
        wide = np.linspace(target.abilities[0], target.abilities[-1], 121)
        axes.plot(wide, target.information(wide), "--", color=RED, label="target, at least")
    axes.set(xlabel=f"true ability ({study.unit})", ylabel=f"information (1 / {study.unit}²)", ylim=(0, None))
    below(axes)
    return picture(figure, "Information by ability, beside the best items of the bank",
                   f"The information of the tests by true ability: in the mean at most {line.max():.1f}; "
                   f"the best {study.length} items of the bank without rules have at most {best.max():.1f}.")


def recovery(study: Study) -> Picture:
    figure, axes = half(3.6, legend=1)
    sample = study.people.iloc[study.sample]
    axes.plot(sample.true, sample.theta, ".", ms=3, color=BLUE, alpha=0.45, label="an examinee")
    corners = [min(sample.true.min(), sample.theta.min()), max(sample.true.max(), sample.theta.max())]
    axes.plot(corners, corners, "-", color="k", lw=0.8, label="estimate = truth")
    axes.set(xlabel=f"true ability ({study.unit})", ylabel=f"{study.short_name} ({study.unit})")
    axes.set_aspect("equal", adjustable="datalim")
    below(axes)
    return picture(figure, "Estimate beside truth",
                   "The estimate of each examinee by true ability, about the line on which they are equal.")


def bias(study: Study) -> Picture:
    figure, axes = half(3.6, legend=1)
    bands = table_by_band(study, study.bands_of_truth)
    for some, marker, label in ((bands[~bands.added], "o", "the sample"), (bands[bands.added], "D", "tails")):
        if len(some):
            axes.errorbar(some.ability, some.bias, 1.96 * some.bias_error.fillna(0), fmt=marker, ms=5, capsize=3, lw=1.2,
                          color=BLUE, mfc=BLUE if marker == "o" else "none", label=label)
    axes.axhline(0, color="k", lw=0.8)
    axes.set(xlabel=f"true ability ({study.unit})", ylabel=f"bias of the {study.short_name} ({study.unit})")
    below(axes)
    worst = bands.loc[bands.bias.abs().idxmax()]
    return picture(figure, "Bias by ability with 95 % intervals",
                   f"The bias of the estimate by true ability; the greatest is {plain(round(worst.bias, 2))} {study.unit}, {worst.band}.")


# ---------------------------------------------------------------- exposure

def exposure(study: Study) -> Picture:
    figure, axes = half()
    rates = np.sort(study.exposure(study.sample))[::-1]
    axes.bar(range(len(rates)), rates, width=1.0, color=BLUE)
    rate_line(study, axes)
    axes.set(xlabel="items, from the most shown", ylabel="share of the tests")
    return picture(figure, "Exposure of each item", f"The exposure of the {len(rates)} items in order: {(rates > 0.5).sum()} are "
                   f"shown in more than half of the tests, {(rates == 0).sum()} never.")


def exposure_by_band(study: Study) -> Picture:
    """Each item's exposure in each band; an item may be rare in all, and sure within a band."""
    figure, axes = half(3.8)
    figure.subplots_adjust(bottom=1.1 / 3.8)
    for k, band in enumerate(study.bands):
        rates = study.exposure(band.members)
        axes.plot(np.full(len(rates), k), rates, "_", ms=14, color=GREY if band.added else BLUE, alpha=0.6)
    rate_line(study, axes)
    axes.set_xticks(range(len(study.bands)), [band.label for band in study.bands], rotation=40, ha="right", rotation_mode="anchor")
    axes.set(ylabel="share of the tests", xlabel=band_axis(study))
    return picture(figure, "Exposure of each item by band; a dash is an item",
                   f"The exposure of each item in each of {len(study.bands)} bands of ability.")


def band_axis(study: Study) -> str:
    return f"{study.short_name} ({study.unit})" if study.questions.by_estimate else f"true ability ({study.unit})"


def rate_line(study: Study, axes, is_per_visit: bool = False) -> None:
    """Shares from 0 to 1, with the rate of the plan where it has one of the tests, or of the visits, as the shares are."""
    axes.set_ylim(0, 1.05)
    axes.set_yticks(np.linspace(0, 1, 6))
    shares(axes, "y")
    if study.controlled and study.is_per_visit == is_per_visit:
        axes.axhline(study.rate, color=RED, ls="--", lw=1.2, label=f"rate of the plan, {study.rate:.0%} of the {'visits' if is_per_visit else 'tests'}")
        axes.set_ylim(0, 1.2)
        axes.legend(loc="upper right", borderaxespad=0)


def exposure_by_estimate(study: Study) -> Picture:
    """The rates of each band that is watched, sorted, as a line."""
    figure, axes = plt.subplots(figsize=(WHOLE, 3.8), layout="constrained")
    colours = plt.get_cmap("viridis")(np.linspace(0, 0.85, len(study.counts.watched)))
    for band, (counts, name, colour) in enumerate(zip(study.counts.watched, estimates_of(study), colours)):
        axes.plot(sorted(counts.rates(), reverse=True), "-", color=colour, label=f"band {band}, {name}")
    rate_line(study, axes, True)
    axes.set(xlabel="items, from the most shown in the band", ylabel="share of the visits")
    axes.legend(loc="upper right", borderaxespad=0)
    return picture(figure, "Rates in each band of the estimate, sorted",
                   f"The sorted rates of the items in each of {len(colours)} bands of the estimate"
                   f"{', beside the rate of the plan, which is of the visits' if study.is_per_visit else ''}.", wide=True)


def exposure_by_information(study: Study) -> Picture:
    figure, axes = half()
    theta, scaling = study.examination.theta, study.examination.scaling
    best = [item.information(theta, scaling).max() for item in study.items]
    axes.plot(best, study.exposure(study.sample), ".", ms=6, color=BLUE, alpha=0.7)
    rate_line(study, axes)
    axes.set(xlabel=f"greatest information of the item (1 / {study.unit}²)", ylabel="share of the tests")
    return picture(figure, "Exposure beside information",
                   "The exposure of each item by its greatest information.")


def overlap(study: Study) -> Picture:
    """The distribution of the share of common items over pairs of tests."""
    figure, axes = half(3.8)
    figure.subplots_adjust(bottom=1.1 / 3.8)
    common = common_items(study.shown[study.sample])
    counts = np.bincount(common, minlength=study.length + 1) / max(1, len(common))
    axes.bar(np.arange(study.length + 1), counts, width=0.9, color=BLUE)
    axes.set(xlabel=f"common items of two tests, of {study.length}", ylabel="share of the pairs", xlim=(-0.6, study.length + 0.6))
    axes.xaxis.set_major_locator(MaxNLocator(integer=True))
    shares(axes, "y")
    return picture(figure, "Common items of two examinees",
                   f"The share of the pairs of examinees by the number of their common items, in the mean {common.mean():.1f}.")


def eligibility(study: Study) -> Picture:
    figure, axes = half()
    found = np.sort(study.eligible[study.sample].mean(0))
    axes.bar(range(len(found)), found, width=1.0, color=BLUE)
    axes.set(xlabel="items, from the least eligible", ylabel="share of the tests", ylim=(0, 1.05))
    shares(axes, "y")
    return picture(figure, "Eligibility of each item", f"{(found == 1).sum()} of {len(found)} items are eligible in every test.")


def exposure_so_far(study: Study) -> Picture:
    figure, axes = half()
    shown = study.shown[study.sample]
    first = min(len(shown) - 1, max(10, len(shown) // 40))
    most = shown.mean(0).argsort()[-5:]
    running = np.cumsum(shown[:, most], 0) / np.arange(1, len(shown) + 1)[:, None]
    axes.plot(np.arange(first, len(running)), running[first:], lw=1.2)
    rate_line(study, axes)
    axes.set(xlabel="tests begun", ylabel="share of the tests so far")
    return picture(figure, "Exposure so far of the five items that are shown most",
                   "The exposure of the five items that are shown most, by the number of tests begun.")


# ---------------------------------------------------------------- single examinees

def path(study: Study, row: int) -> Picture:
    """The estimate of one examinee after each answer, with the items in the order in which they were given."""
    session, grid = study.sessions[row], study.examination.theta
    mode, mean, deviation = posterior(study, session)
    figure, axes = plt.subplots(figsize=(WHOLE, 3.3), layout="constrained")
    steps, true = np.arange(len(mean)), study.people.true[row]
    axes.fill_between(steps, mean - deviation, mean + deviation, color=BLUE, alpha=0.15, lw=0, label="standard deviation")
    axes.plot(steps, mean, "-", color=BLUE, label="posterior mean (EAP)")
    axes.plot(steps, grid[mode], "o", ms=4, mfc="none", color=BLUE, label="mode, where the next item is chosen")
    axes.axhline(true, color="k", ls=":", lw=1.2, label="true ability")
    names = short_names(study.names)
    axes.set_xticks(steps[:-1] + 0.5, [f"{names[item]}: {response}" for item, response in zip(session.items, session.responses)],
                    rotation=90)
    low, high = (mean - deviation).min(), (mean + deviation).max()
    axes.set(ylabel=f"ability ({study.unit})", xlim=(-0.3, len(steps) - 0.7), ylim=(min(low, true) - 0.3, max(high, true) + 0.3))
    axes.legend(loc="upper center", bbox_to_anchor=(0.5, 1.24), ncol=4, columnspacing=1.2)
    return picture(figure, f"Examinee {session.booking}, true ability {plain(round(true, 2))} {study.unit}: the items in order, each with the "
                   "response", f"The estimate of examinee {session.booking} over {len(session.items)} items: at the end "
                   f"{plain(round(mean[-1], 2))}, with the standard deviation {deviation[-1]:.2f}.", wide=True)


def posterior(study: Study, session: Session):
    """After each number of answers the mode (a point of the grid), the mean and the standard deviation of the posterior."""
    sums, grid = grid_sums(study.examination, session.items, session.responses), study.examination.theta
    weights = np.exp((sums - sums.max(1, keepdims=True)) / study.examination.map["log_unit"])
    weights /= weights.sum(1, keepdims=True)
    mean = weights @ grid
    return sums.argmax(1), mean, np.sqrt((weights * (grid - mean[:, None]) ** 2).sum(1))


def forms(study: Study, row: int) -> Picture:
    """The shadow tests of one examinee: in each row the items of the form, of which some are given."""
    session = study.sessions[row]
    used = sorted({item for one in session.served for item in one.form})
    size = max(WHOLE, 0.19 * len(used) + 1), 0.19 * len(session.served) + 1.3
    figure, axes = plt.subplots(figsize=size, layout="constrained")
    draw_forms(study, axes, session, used)
    changes = [len(after.form - before.form) for before, after in zip(session.served, session.served[1:])]
    return picture(figure, f"The forms of examinee {session.booking}: blue the items given, red the item served, grey the others",
                   f"The form before each of {len(session.served)} items of examinee {session.booking}, of {len(used)} items in all; "
                   f"from step to step {np.mean(changes) if changes else 0:.1f} items change in the mean.", wide=True)


def draw_forms(study: Study, axes, session: Session, used) -> None:
    place = {item: column for column, item in enumerate(used)}
    for step, one in enumerate(session.served):
        given = set(session.items[:step])
        for item in one.form:
            colour = BLUE if item in given else RED if item == one.item else PALE
            axes.add_patch(plt.Rectangle((place[item] - 0.42, step - 0.42), 0.84, 0.84, color=colour, lw=0))
    axes.set(xlim=(-0.6, len(used) - 0.4), ylim=(len(session.served) - 0.4, -0.6), ylabel="step", xlabel="item")
    names = short_names(study.names)
    axes.set_xticks(range(len(used)), [names[item] for item in used], rotation=90)
    axes.yaxis.set_major_locator(MaxNLocator(integer=True))


def at_a_glance(study: Study, row: int, path: str) -> None:
    """A picture file of the forms of one examinee beside the standard error of all, for a page that shows what this is."""
    session = study.sessions[row]
    used = sorted({item for one in session.served for item in one.form})
    figure, (left, right) = plt.subplots(1, 2, figsize=(11, 4.2), layout="constrained", width_ratios=[3, 2])
    draw_forms(study, left, session, used)
    left.set_title("One examinee: each row a whole form, blue given, red served next", loc="left")
    draw_standard_errors(study, right)
    right.set_title(f"{len(study.sessions):,} examinees: standard error by ability", loc="left")
    right.legend(loc="upper center")
    figure.savefig(path, dpi=110, metadata={"Software": None})
    plt.close(figure)


# ---------------------------------------------------------------- certificates

def nodes(study: Study, marks: np.ndarray, counts: np.ndarray) -> Picture:
    figure, axes = half(legend=1)
    steps = np.arange(study.length)
    axes.plot(steps, counts.mean(0), "-o", ms=3, color=BLUE, label="mean")
    axes.plot(steps, counts.max(0), "-s", ms=3, color=GREY, label="greatest")
    axes.set(xlabel="step", ylabel="nodes of the proof tree", yscale="log", ylim=(0.8, 1.6 * max(3, counts.max())))
    axes.yaxis.set_major_formatter(matplotlib.ticker.ScalarFormatter())
    axes.yaxis.set_minor_formatter(matplotlib.ticker.NullFormatter())
    axes.xaxis.set_major_locator(MaxNLocator(integer=True))
    below(axes)
    return picture(figure, "Nodes of the proof tree by step", f"The nodes of the proof trees by step, at most {counts.max()}.")
