"""The parts of a section, which the template report.html lays out. Cells are text; the template escapes them."""
from dataclasses import dataclass, field
from typing import List, Sequence, Tuple


# A fact of a page whose plan does not name its map.
UNBOUND = ("Map", "unbound: the plan does not name it by its SHA-256")


@dataclass
class Note:
    """A paragraph."""
    text: str
    kind: str = "note"


@dataclass
class Facts:
    """Names and their values."""
    rows: List[Tuple[str, str]]
    kind: str = "facts"


@dataclass
class Table:
    """A table; the cells whose (row, column) is in `marked` are faults."""
    head: Sequence[str]
    rows: List[Sequence[str]]
    caption: str = ""
    texts: int = 1
    marked: frozenset = frozenset()
    kind: str = "table"


@dataclass
class Picture:
    """A picture as a data URI, with what it shows in words for those who can't see it."""
    source: str
    alt: str
    caption: str
    wide: bool = False


@dataclass
class Pictures:
    """Pictures side by side where there is room."""
    pictures: List[Picture]
    kind: str = "pictures"


@dataclass
class Text:
    """A text in the lines that it has."""
    text: str
    kind: str = "text"


@dataclass
class Signatures:
    """A line to sign for each of these offices, on paper."""
    offices: Sequence[str]
    kind: str = "signatures"


@dataclass
class Section:
    """A section with its heading; `name` is its anchor."""
    name: str
    title: str
    parts: list = field(default_factory=list)


@dataclass
class Verdict:
    """A sentence at the head of the page: `met`, `not met`, or `measured` where nothing was asked."""
    mark: str
    text: str
