"""The section on exposure in bands of the estimate: conditional rates."""
import numpy as np

from shadowtools.page import pictures
from shadowtools.page.parts import Note, Pictures, Section, Table
from shadowtools.page.study import Study, estimates_of

HEAD = ["Visits", "Share of the tests", "Greatest rate of the visits", "Item", "Above the rate", "Never shown",
        "Never eligible", "Set aside", "At steps"]


def section(study: Study) -> Section:
    steered = "The plan steers the rates of each band. "
    if study.counts.watched is not study.counts.bands:
        steered = "The plan has other bands, or one alone, and does not steer these rates. "
    return Section("bands", "Exposure by bands of the estimate", [
        Pictures([pictures.exposure_by_estimate(study)]), table(study), Note(
            "A test visits the band in which it begins, and each band in which an item is served to it. The rate of an item in a band is "
            "the share of the visits in which it was served there. " + steered + "The bands are of the estimate at each step, and not of "
            "the true ability. Counted here from the journal of the sample, with each draw of eligible items made anew. Set aside: how "
            "often eligibility was set aside in the band, since no form was found with the ineligible items barred; steps count from 0.")])


def table(study: Study) -> Table:
    """A row for each band that is watched."""
    rows, marked = [], []
    for band, (counts, name) in enumerate(zip(study.counts.watched, estimates_of(study))):
        rates, eligible = np.array(counts.rates()), np.array(counts.eligible)
        above, seen = int((rates > study.rate).sum()), counts.visited > 0
        if above and study.is_per_visit and study.counts.watched is study.counts.bands:
            marked.append((band, 6))
        steps = ", ".join(map(str, sorted(counts.steps))) or "–"
        of_items = ["–"] * 5
        if seen:
            of_items = [f"{rates.max():.3f}", study.names[rates.argmax()], f"{above}", f"{(rates == 0).sum()}", f"{(eligible == 0).sum()}"]
        rows.append([f"{band}", name, f"{counts.visited:,}", f"{counts.visited / study.counts.total.visited:.1%}", *of_items,
                     f"{counts.aside:,}", steps])
    rate = f"{study.rate:.3f} of the {'visits of its bands' if study.is_per_visit else 'tests'}"
    return Table(["Band", f"Estimates ({study.unit})", *HEAD], rows,
                 f"Rates in each band, of {len(study.items)} items; the rate of the plan is {rate}", texts=2, marked=frozenset(marked))
