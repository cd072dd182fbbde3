"""The table of attributes of items: IDs, passages, quantities, and what conditions speak of."""
import re
import unicodedata
from typing import Iterable, List, Sequence, Tuple

from shadowtools.agency.blueprint import MOST_PASSAGES
from shadowtools.agency.irt import Item
from shadowtools.command import Refused
from shadowtools.formats.tables import ABSENT, THOUSAND, Dialect, Row, number_columns, read_table, refuse_thousand, with_numbers

MOST_QUANTITIES, MOST_QUANTITY = 8, 65_535
# Names of passages that are likely to mean none.
NO_NAMES = ("0", "-", "--", ".", "n/a", "n.a.", "none", "null", "nil", "nan", "no")


def rows_of_attributes(path: str, dialect: Dialect, quantities: Sequence[str], warnings: List[str]) -> List[Tuple[int, Row]]:
    """The rows of the table of attributes, numbers with points. A thousand with a comma is refused in a quantity; a warning names a
    column of whole numbers and such commas alone, which are read as decimals."""
    head, rows = read_table(path, dialect)
    if "ID" not in head:
        other = next((name for name in head if name.lower() == "id"), None)
        raise Refused(f"{path}: line 1: no column ID" + (f"; rename the column {other}" if other else ""))
    for line, row in rows:
        for name in quantities:
            refuse_thousand(f"{path}: line {line} column {name}", row.get(name, ""))
    numbers = [name for name in number_columns(head, rows, dialect) if name not in ("ID", "STID")]
    for name in numbers:
        found = [(line, row[name]) for line, row in rows if "," in row[name]]
        if found and all(THOUSAND.fullmatch(cell) for _, cell in found):
            line, cell = found[0]
            warnings.append(f"attribute {name}: {cell!r} (line {line}) is read as {cell.replace(',', '.', 1)}; write a thousand without a comma")
    return with_numbers(rows, numbers, dialect)


def read_attributes(path: str, items: Sequence[Item], rows: Sequence[Tuple[int, Row]]) -> List[str]:
    """Gives each item its attributes and passage; the names of the passages."""
    by_name, passages = {item.name: item for item in items}, []
    for line, row in rows:
        item = by_name.get(row["ID"])
        if item is None:
            raise Refused(f"{path}: line {line}: no item has the ID {row['ID']!r}{other_spelling(row['ID'], by_name)}")
        if item.line:
            raise Refused(f"{path}: line {line}: item {item.name} is in line {item.line} too")
        item.line, item.attributes = line, row
        passage = row.get("STID", "")
        if passage not in ABSENT:
            if passage not in passages:
                passages.append(passage)
            item.passage = passages.index(passage) + 1
    for item in items:
        if not item.line:
            raise Refused(f"{path}: item {item.name} has no line")
    if len(passages) > MOST_PASSAGES:
        raise Refused(f"{path}: {len(passages)} passages; shadowd takes at most {MOST_PASSAGES}")
    return passages


def other_spelling(name: str, items: Iterable[str]) -> str:
    """An item's ID that looks like a name, in words; an empty text where there is none."""
    def key(text: str) -> str:
        return unicodedata.normalize("NFKC", text).casefold()
    found = next((one for one in items if key(one) == key(name)), None)
    if found is None:
        return ""
    why = "capital letters" if unicodedata.normalize("NFC", found) != unicodedata.normalize("NFC", name) else "its form in Unicode"
    return f" ({ascii(name)}); the items have {found!r} ({ascii(found)}), which differs by {why} alone"


def passage_warnings(items: Sequence[Item], passages: Sequence[str], length: int) -> List[str]:
    """Passages whose name looks like a word for none, and those with more items than a test."""
    said = []
    for number, name in enumerate(passages, 1):
        count = sum(item.passage == number for item in items)
        if name.casefold() in NO_NAMES:
            said.append(f"passage {name!r} has {count} items, which are served one after another; only an empty field and NA are no passage")
        elif count > length:
            said.append(f"passage {name!r} has {count} items, more than a test of {length}")
    return said


def read_quantities(path: str, items: Sequence[Item], names: Sequence[str]) -> List[List[int]]:
    """The values of each quantity by item."""
    if names and not path:
        raise Refused("--quantity needs --attributes")
    if len(names) > MOST_QUANTITIES or len(set(names)) < len(names):
        raise Refused(f"--quantity {' '.join(names)}: shadowd takes at most {MOST_QUANTITIES}, each once")
    return [[quantity_of(path, item, name) for item in items] for name in names]


def quantity_of(path: str, item: Item, name: str) -> int:
    text = item.attributes.get(name)
    if text is None:
        raise Refused(f"{path}: there is no column {name}")
    if re.fullmatch(r"[0-9]{1,9}(\.0*)?", text) and float(text) <= MOST_QUANTITY:
        return int(float(text))
    hint = ""
    decimals = re.fullmatch(r"[0-9]+\.([0-9]*[1-9])0*", text)
    if decimals:
        hint = f" (multiply the column and its bounds by {10 ** len(decimals.group(1))})"
    raise Refused(f"{path}: line {item.line}: item {item.name}: {name} is {text[:30]!r}, "
                  f"not a whole number from 0 to {MOST_QUANTITY}{hint}")
