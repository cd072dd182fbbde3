"""Score sheets: one for each session, as HTML and as PDF, with no item on it. The name is left blank, for the agency to fill in."""
import html
import os
import textwrap
from typing import Dict, List, NamedTuple, Optional, Sequence

from shadowtools.agency.scoring import Scale, rounded
from shadowtools.command import Refused
from shadowtools.needs import require

SPREAD = 1.96       # standard errors on both sides, between which 95 in 100 lie of a normal distribution
LONGEST_NAME = 22   # characters that fit into the first column of the PDF
END = {"lowest": "This is the lowest score that is reported.", "highest": "This is the highest score that is reported."}
STYLE = """body{font:16px/1.5 system-ui,"DejaVu Sans",sans-serif;color:#222;max-width:40em;margin:2em auto;padding:0 20px}
h1{font-size:1.6em;margin:0 0 .6em}h2{font-size:1.15em;margin:1.6em 0 .3em}dl{margin:0}
dl div{display:grid;grid-template-columns:minmax(9em,14em) 1fr;gap:1em;padding:.4em 0;border-bottom:1px solid #ccc}dd{margin:0}
.score{font-size:2em;font-weight:600;line-height:1.2}table{border-collapse:collapse}th,td{text-align:left;padding:.3em 1.2em .3em 0;border-bottom:1px solid #ccc}
@media(max-width:500px){dl div{grid-template-columns:1fr;gap:0}}@media print{@page{size:A4;margin:25mm}body{margin:0;padding:0}}"""


class Sheet(NamedTuple):
    """What a sheet has: the booking, the score as it is printed (None: there is none), the interval about it, what is said of both, the
    level and what is said of it, and pairs of each level and its scores."""
    booking: str
    score: Optional[str]
    interval: str
    meaning: List[str]
    level: str
    of_level: List[str]
    levels: List[Sequence[str]]


def sheet_of(row: Dict[str, str], scale: Scale) -> Sheet:
    """The sheet of a row of the results."""
    low, high = (f"{rounded(end, scale.decimals):f}" for end in (scale.low, scale.high))
    if not row["scale"]:
        return Sheet(row["booking"], None, "", ["This test has no score: too few questions were answered."], "", [], [])
    value, error = float(row["scale"]), float(row["scale_se"])
    ends = [f"{rounded(min(scale.high, max(scale.low, value + side * SPREAD * error)), scale.decimals):f}" for side in (-1, 1)]
    meaning = [f"Scores are reported from {low} to {high}.",
               "A test is a sample of questions, so a score has an error. The interval has the score that a very long test would give, with a chance "
               "of about 95 in 100."]
    meaning += [END[row["remark"]]] if row["remark"] in END else []
    state = {"closed": "The test was closed before its end.", "open": "The test was not ended."}.get(row["state"])
    meaning += [state] if state else []
    of_level = []
    if row["level"]:
        chance = round(100 * float(row["level_error"]))
        of_level = [f"The chance that a very long test would give another level is about {chance} in 100." if chance else
                    "The chance that a very long test would give another level is below 1 in 100."]
    return Sheet(row["booking"], row["scale"], f"{ends[0]} to {ends[1]}", meaning, row["level"], of_level, levels_of(scale) if row["level"] else [])


def levels_of(scale: Scale) -> List[Sequence[str]]:
    """Each level with its scores, the lowest first. A score at a cut is in the level above it."""
    cuts = [f"{cut:g}" for cut in scale.cuts]
    ranges = [f"below {cuts[0]}", *(f"{low} and above, below {high}" for low, high in zip(cuts, cuts[1:])), f"{cuts[-1]} and above"]
    return list(zip(scale.levels, ranges))


# ---------------------------------------------------------------- HTML

def facts_of(sheet: Sheet) -> List[Sequence[str]]:
    """Names and values of a sheet, in order."""
    found = [("Name", ""), ("Booking", sheet.booking)]
    if sheet.score is not None:
        found += [("Score", sheet.score), ("Interval", sheet.interval)]
    return found + ([("Level", sheet.level)] if sheet.level else [])


def html_of(sheet: Sheet) -> str:
    """The page. What is blank has a name for those who hear it, and the table has its headings."""
    def value(name: str, text: str) -> str:
        return '<dd aria-label="left blank">&nbsp;</dd>' if not text else f"<dd{' class=score' if name == 'Score' else ''}>{html.escape(text)}</dd>"
    facts = "".join(f"<div><dt>{name}</dt>{value(name, text)}</div>" for name, text in facts_of(sheet))
    said = "".join(f"<p>{html.escape(text)}</p>" for text in [*sheet.meaning, *sheet.of_level])
    rows = "".join(f'<tr><th scope="row">{html.escape(name)}</th><td>{html.escape(scores)}</td></tr>' for name, scores in sheet.levels)
    table = f'<h2>Levels</h2><table><thead><tr><th scope="col">Level</th><th scope="col">Scores</th></tr></thead><tbody>{rows}</tbody></table>' if rows else ""
    return (f'<!doctype html>\n<html lang="en"><head><meta charset="utf-8"><meta name="viewport" content="width=device-width, initial-scale=1">'
            f"<title>Score sheet, booking {html.escape(sheet.booking)}</title><style>{STYLE}</style></head><body><main><h1>Score sheet</h1>"
            f"<dl>{facts}</dl><h2>What this means</h2>{said}{table}</main></body></html>\n")


# ---------------------------------------------------------------- PDF

def write_pdf(path: str, sheet: Sheet) -> None:
    """The same on a page of A4, by Matplotlib. The date is left out, so that the same results give the same bytes."""
    import matplotlib
    matplotlib.use("Agg")
    import matplotlib.pyplot as plt
    plt.rcParams["pdf.fonttype"] = 42
    figure = plt.figure(figsize=(8.27, 11.69))
    place = 10.5

    def line(text: str, size: float = 11, weight: str = "normal", after: float = 0.32, left: float = 1.0) -> None:
        nonlocal place
        figure.text(left / 8.27, place / 11.69, text, size=size, weight=weight, parse_math=False)
        place -= after

    def pair(name: str, text: str, weight: str = "normal") -> None:
        """A name and its value beside it, or below it where the name is long."""
        line(name, after=0.0 if len(name) <= LONGEST_NAME else 0.24)
        line(text, weight=weight, left=3.0)
    line("Score sheet", 20, "bold", after=0.6)
    for name, text in facts_of(sheet):
        pair(name, text or "_" * 40, "bold" if name == "Score" else "normal")
    place -= 0.2
    for text in [*sheet.meaning, *sheet.of_level]:
        for part in textwrap.wrap(text, 78):
            line(part, after=0.24)
        place -= 0.1
    if sheet.levels:
        line("Levels", weight="bold")
    for name, scores in sheet.levels:
        pair(name, scores)
    figure.savefig(path, format="pdf", metadata={"Title": f"Score sheet, booking {sheet.booking}", "CreationDate": None})
    plt.close(figure)


# ---------------------------------------------------------------- a folder of them

def require_empty(folder: str) -> None:
    """Makes the folder where it is not there. Refused is one that has files: sheets of other results would stay among the new ones."""
    require("score.py --sheets", "matplotlib")
    try:
        os.makedirs(folder, exist_ok=True)
        if os.listdir(folder):
            raise Refused(f"--sheets {folder}: the folder is not empty")
    except OSError as error:
        raise Refused(f"--sheets {folder}: {error.strerror}")


def write_sheets(folder: str, rows: Sequence[Dict[str, str]], scale: Scale) -> None:
    """Writes booking-B.html and booking-B.pdf for each row of the results."""
    for row in rows:
        sheet, path = sheet_of(row, scale), os.path.join(folder, f"booking-{row['booking']}")
        try:
            with open(path + ".html", "w", encoding="utf-8") as file:
                file.write(html_of(sheet))
            write_pdf(path + ".pdf", sheet)
        except OSError as error:
            raise Refused(f"{error.filename}: {error.strerror}")
