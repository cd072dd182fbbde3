"""Reads a table of item parameters in one of the column conventions of the field.

    testdesign  ID,MODEL,PAR1,PAR2,..      R's TestDesign, loadItemPool: 1PL b; 2PL a,b; 3PL a,b,c; PC b1..; GPC, GR a,b1..
    columns     [ID,][MODEL,]a,b[,c[,d]]   d is the upper asymptote; a,b1,b2,.. with a model; a,b,g,u as mirt has them with IRTpars
    catr        a,b,c,d; alphaj,betaj1,.. (GRM); alphaj,deltaj1,.. (GPCM); deltaj1,.. (PCM)
    mirt        coef(x, simplify = TRUE)$items: a1,d,g,u; a1,d1,d2,.. (graded); a1,ak0,..,d0,d1,.. (gpcm)

In each of them a row with the MODEL `FIELD` is an item in field test. It has no parameters but, in PAR1, its number of categories.
In mirt d is an intercept: b = -d / a1, and g and u are the lower and the upper asymptote. In catR and in plain columns d is the
upper asymptote. A column that the convention does not have is refused, and so is a value that the item's model does not use.
"""
import re
from dataclasses import dataclass, field
from typing import Callable, Dict, List, Optional, Sequence, Set, Tuple

from shadowtools.agency.irt import DICHOTOMOUS, FIELD, POLYTOMOUS, SYNONYMS, Item, fault
from shadowtools.command import Refused
from shadowtools.formats.tables import ABSENT, Dialect, Row, number, read_table, with_numbers

NAMES, MODELS = ("id", "item", "name", ""), ("model", "class")
KNOWN = {
    "testdesign": r"par\d+",
    "columns": r"[abcdgu]|b\d+",
    "catr": r"[abcd]|alphaj|(beta|delta)j\d+",
    "mirt": r"a\d+|d\d*|g|u|ak\d+",
}
FORMATS = tuple(KNOWN)
NEUTRAL = {"a": 1.0, "alphaj": 1.0, "b": None, "c": 0.0, "g": 0.0, "d": 1.0, "u": 1.0}
MOST_ITEMS, MOST_CATEGORIES = 512, 5
UNKNOWN_BY_NAME = {
    "lambdaj": "the rating scale model (RSM)", "alphaj1": "the nominal response model (NRM)",
    "bj": "the modified graded response model (MGRM)",
}
PLAIN = {"1PL": "b", "2PL": "ab", "3PL": "abc", "4PL": "abcd"}


@dataclass(frozen=True)
class Reading:
    """How a table of parameters is to be read: what the options of irt_bank.py say of it."""
    form: str = "auto"
    model: Optional[str] = None
    dialect: Dialect = Dialect()
    columns: Dict[str, str] = field(default_factory=dict)   # by the convention's name, the table's
    ignored: Sequence[str] = ()


class Columns:
    """The header of a parameter table: names by lower-case spelling, and numbered columns in order."""

    def __init__(self, path: str, head: Sequence[str], model: Optional[str]) -> None:
        self.path, self.head, self.default, self.has_used_default = path, head, model, False
        self.named: Dict[str, str] = {}
        for name in head:
            if name.lower() in self.named:
                raise Refused(f"{path}: line 1: columns {self.named[name.lower()]} and {name} differ by capital letters alone")
            self.named[name.lower()] = name

    def has(self, name: str) -> bool:
        return name in self.named

    def require_known(self, form: str) -> None:
        """Refuses a column that the convention does not have."""
        labels = [next((name for name in names if self.has(name)), None) for names in (NAMES, MODELS)]
        others = [self.named[name] for name in self.named
                  if name not in labels and not re.fullmatch(KNOWN[form], name, re.ASCII)]
        if others:
            raise Refused(f"{self.path}: line 1: {'columns' if len(others) > 1 else 'column'} {', '.join(map(repr, others))}: "
                          f"not read as {form}; name a parameter by --columns, or leave the column out by --ignore")
        for one, other, what in (("c", "g", "lower"), ("d", "u", "upper")):
            if form != "mirt" and self.has(one) and self.has(other):
                raise Refused(f"{self.path}: line 1: columns {one} and {other} are both the {what} asymptote")


class Line:
    """One row of a parameter table, and which of its values were used."""

    def __init__(self, columns: Columns, line: int, row: Row) -> None:
        self.columns, self.line, self.row = columns, line, row
        self.where = f"{columns.path}: line {line}"
        self.used: Set[str] = set()

    def text(self, *names: str) -> str:
        """The value of the first of the columns that is there and has one, or an empty text."""
        for name in names:
            if self.columns.has(name) and self.row[self.columns.named[name]] not in ABSENT:
                self.used.add(name)
                return self.row[self.columns.named[name]]
        return ""

    def name(self) -> str:
        """The item's ID, or an empty text. Any text is an ID, `NA` (sodium) too."""
        column = next((name for name in NAMES if self.columns.has(name) and self.row[self.columns.named[name]]), None)
        return self.row[self.columns.named[column]] if column is not None else ""

    def number(self, name: str, absent: Optional[float] = None) -> float:
        """A number, or what stands for it where the column has no value."""
        self.used.add(name)
        if absent is not None and not self.text(name):
            return absent
        if not self.columns.has(name):
            raise Refused(f"{self.where}: there is no column {name}")
        return number(self.columns.path, self.line, self.row, self.columns.named[name])

    def numbers(self, stem: str, least: int = 1) -> List[float]:
        """The numbers of the columns stem1, stem2, .. (or from stem0 on, with `least` 0), without a gap."""
        found = sorted(int(name[len(stem):]) for name in self.columns.named
                       if re.fullmatch(stem + r"\d+", name, re.ASCII) and self.text(name))
        if found and (found[0] not in (least, 1) or found != list(range(found[0], found[0] + len(found)))):
            raise Refused(f"{self.where}: the values of {stem}{least}, {stem}{least + 1}, .. have a gap")
        return [self.number(f"{stem}{k}") for k in found]

    def model(self) -> str:
        model = self.text(*MODELS).upper()
        if not model and self.columns.default:
            self.columns.has_used_default = True
            model = self.columns.default
        return SYNONYMS.get(model, model)

    def require_used(self, model: str) -> None:
        """Refuses a value that nothing reads, but for one that changes nothing (a slope of 1, asymptotes 0 and 1)."""
        for name, column in self.columns.named.items():
            if name in self.used or name in NAMES + MODELS or self.row[column] in ABSENT:
                continue
            value = number(self.columns.path, self.line, self.row, column)
            if value != NEUTRAL.get(name):
                raise Refused(f"{self.where} column {column}: {self.row[column]} is not used by the model {model}")


# ---------------------------------------------------------------- conventions

def recognised(columns: Columns) -> str:
    """The convention of a header."""
    for name, model in UNKNOWN_BY_NAME.items():
        if columns.has(name):
            raise Refused(f"{columns.path}: line 1: column {columns.named[name]}: {model} of catR is not taken")
    if columns.has("par1"):
        return "testdesign"
    if columns.has("a1") and (columns.has("d") or columns.has("d1")):
        return "mirt"
    if columns.has("alphaj") or columns.has("deltaj1"):
        return "catr"
    if columns.has("b") or columns.has("b1"):
        return "columns"
    raise Refused(f"{columns.path}: line 1: {','.join(columns.head)[:200]} is none of the known conventions "
                  "(see --format and --columns)")


def of_testdesign(line: Line) -> Tuple[str, List[float]]:
    return line.model(), line.numbers("par")


def of_mirt(line: Line) -> Tuple[str, List[float]]:
    if any(line.numbers("a")[1:]):
        raise Refused(f"{line.where}: more than one dimension")
    slope = line.number("a1")
    if slope == 0:
        raise Refused(f"{line.where}: slope a1 is 0")
    intercepts = line.numbers("d", 0)
    if not intercepts:
        if not line.text("d"):
            raise Refused(f"{line.where}: no intercept in d, d0 or d1")
        return asymptotes([slope, -line.number("d") / slope + 0.0], line.number("g", 0.0), line.number("u", 1.0))
    scores = line.numbers("ak", 0)
    if scores and scores != list(range(len(scores))):
        raise Refused(f"{line.where}: scoring ak is not 0, 1, 2, ..: the nominal response model is not taken")
    if line.model() == "GPC" or scores:
        return "GPC", [slope] + [(before - after) / slope for before, after in zip(intercepts, intercepts[1:])]
    return "GR", [slope] + [-d / slope for d in intercepts]


def asymptotes(found: List[float], lower: float, upper: float) -> Tuple[str, List[float]]:
    """Slope and difficulty with the asymptotes of mirt."""
    return ("4PL", found + [lower, upper]) if upper != 1 else ("3PL", found + [lower])


def of_catr(line: Line) -> Tuple[str, List[float]]:
    if not (line.columns.has("alphaj") or line.columns.has("deltaj1")):
        return of_columns(line)
    boundaries, steps, model = line.numbers("betaj"), line.numbers("deltaj"), line.model()
    if boundaries and steps:
        raise Refused(f"{line.where}: both betaj and deltaj have values")
    has_slope = bool(line.text("alphaj"))
    model = model or ("GR" if boundaries else "GPC" if has_slope else "PC")
    if model == "PC":
        line.used.discard("alphaj")
        return model, boundaries or steps
    return model, ([line.number("alphaj")] if has_slope else []) + (boundaries or steps)


def of_columns(line: Line) -> Tuple[str, List[float]]:
    model, thresholds = line.model(), line.numbers("b")
    if thresholds:
        if not model:
            raise Refused(f"{line.where}: thresholds without a model; add a column MODEL, or give --model GR, GPC or PC")
        slopes = [line.number("a")] if line.columns.has("a") and model != "PC" else []
        return model, slopes + thresholds
    if not model and (line.columns.has("g") or line.columns.has("u")):
        return asymptotes([line.number("a", 1.0), line.number("b")], line.number("g", 0.0), line.number("u", 1.0))
    names = [next((name for name in pair if line.columns.has(name)), pair[0]) for pair in ("a", "b", "cg", "du")]
    there = [bool(line.columns.has(name) and line.row[line.columns.named[name]] not in ABSENT) for name in names]
    letters = "".join(letter for letter, is_there in zip("abcd", there) if is_there)
    model = model or {letters: model for model, letters in PLAIN.items()}.get(letters, "")
    if not model:
        raise Refused(f"{line.where}: the columns {','.join(letters) or 'a to d, which are empty,'} are no model")
    return model, [line.number(name) for letter, name in zip("abcd", names)
                   if letter in PLAIN.get(model, letters) and letter in letters]


def of_field(line: Line) -> Tuple[str, List[float]]:
    """An item in field test: its number of categories in PAR1, or 2."""
    return FIELD, line.numbers("par") or [2.0]


READERS: Dict[str, Callable[[Line], Tuple[str, List[float]]]] = {
    "testdesign": of_testdesign, "columns": of_columns, "catr": of_catr, "mirt": of_mirt}


# ---------------------------------------------------------------- the table

def read_items(path: str, reading: Reading = Reading()) -> Tuple[List[Item], Dict[str, int], str]:
    """The items of a parameter table, the lines that they are in, and the convention of the table."""
    columns, rows, form = named_table(path, reading)
    items, lines = [], {}
    for number_of_line, row in rows:
        line = Line(columns, number_of_line, row)
        name = line.name() or f"item{len(items) + 1}"
        if name in lines:
            raise Refused(f"{line.where}: item {name} is in line {lines[name]} too")
        lines[name] = number_of_line
        model, parameters = of_field(line) if line.model() == FIELD else READERS[form](line)
        items.append(tested(line.where, Item(name, model, parameters)))
        line.require_used(model)
    if not 1 <= len(items) <= MOST_ITEMS:
        raise Refused(f"{path}: {len(items)} items; shadowd takes 1 to {MOST_ITEMS} (see docs/GUIDE.md)")
    if reading.model and not columns.has_used_default:
        raise Refused(f"--model {reading.model}: no item of {path} lacks a model")
    return items, lines, form


def named_table(path: str, reading: Reading) -> Tuple[Columns, List[Tuple[int, Row]], str]:
    """The header and the rows by the convention's names, without the columns that are left out, and the convention."""
    head, rows = read_table(path, reading.dialect)
    for option, names in (("--columns", reading.columns.values()), ("--ignore", reading.ignored)):
        for name in names:
            if name not in head:
                raise Refused(f"{option}: {path} has no column {name!r}")
    own = {theirs: name for name, theirs in reading.columns.items()}
    rows = with_numbers(rows, [name for name in head if own.get(name, name).lower() not in NAMES + MODELS], reading.dialect)
    kept = [name for name in head if name not in reading.ignored]
    columns = Columns(path, [own.get(name, name) for name in kept], reading.model)
    form = recognised(columns) if reading.form == "auto" else reading.form
    if form == "mirt" and not columns.has("a1"):
        raise Refused(f"{path}: line 1: no column a1, which mirt has")
    columns.require_known(form)
    return columns, [(line, {own.get(name, name): row[name] for name in kept}) for line, row in rows], form


def tested(where: str, item: Item) -> Item:
    """The item, where its numbers are an item of its model that a bank can have."""
    where = f"{where}: item {item.name}"
    if item.model not in (*DICHOTOMOUS, *POLYTOMOUS, FIELD):
        raise Refused(f"{where}: model {item.model!r} is not known")
    why = fault(item)
    if why:
        raise Refused(f"{where}: {why}")
    if item.categories > MOST_CATEGORIES:
        raise Refused(f"{where} has {item.categories} categories; shadowd takes at most {MOST_CATEGORIES} "
                      "(collapse some, and calibrate again)")
    return item
