"""CSV tables as agencies have them: RFC 4180 with a header line, and the habits of spreadsheets around it."""
import codecs
import csv
import io
import math
import re
from dataclasses import dataclass
from typing import Dict, Iterable, List, Sequence, Tuple

from shadowtools.command import Refused

ABSENT = ("", "NA")
SEPARATORS = {"comma": ",", "semicolon": ";", "tab": "\t"}
NUMBER = re.compile(r"[+-]?([0-9]+\.?[0-9]*|\.[0-9]+)([eE][+-]?[0-9]+)?", re.ASCII)
# A comma before exactly three digits, which some read as a thousand and some as a decimal.
THOUSAND = re.compile(r"[+-]?[1-9][0-9]{0,2}(,[0-9]{3})+", re.ASCII)
DECIMAL_COMMA = re.compile(r"[+-]?[0-9]*,[0-9]+([eE][+-]?[0-9]+)?", re.ASCII)
AS_UTF_8 = "save it as UTF-8 (in Excel: CSV UTF-8)"

Row = Dict[str, str]


@dataclass(frozen=True)
class Dialect:
    """How a table is written: the character between fields, and whether numbers have a decimal comma."""
    separator: str = ","
    has_decimal_comma: bool = False

    def decimal(self, cell: str) -> str:
        """The cell of a column of numbers, a decimal comma replaced by a point where numbers have one; another text as it is."""
        return pointed(cell) if self.has_decimal_comma else cell


# ---------------------------------------------------------------- text

def text_of(path: str) -> str:
    """The text of a file in UTF-8, without a byte order mark. Other encodings are refused with their cure."""
    try:
        with open(path, "rb") as file:
            data = file.read()
    except (OSError, ValueError) as error:
        raise Refused(f"{path}: {getattr(error, 'strerror', None) or error}")
    if data[:2] in (codecs.BOM_UTF16_LE, codecs.BOM_UTF16_BE) or data[1:2] == b"\0":
        raise Refused(f"{path}: the text is UTF-16 (Excel's Unicode Text); {AS_UTF_8}")
    try:
        text = data.decode("utf-8-sig")
    except UnicodeDecodeError as error:
        line = data.count(b"\n", 0, error.start) + 1
        raise Refused(f"{path}: line {line}: byte 0x{data[error.start]:02x} is not UTF-8; {AS_UTF_8}")
    if "\0" in text:
        raise Refused(f"{path}: line {text.count(chr(10), 0, text.index(chr(0))) + 1}: a NUL character")
    return text


def records_of(path: str, text: str, separator: str, skipped: int) -> List[Tuple[int, List[str]]]:
    """Pairs of the line that a record begins in and its cells, without the blank ones."""
    reader = csv.reader(io.StringIO(text, newline=""), delimiter=separator, strict=True)
    found, line = [], skipped + 1
    while True:
        try:
            record = next(reader)
        except StopIteration:
            return found
        except csv.Error as error:
            why = "a quotation mark is not closed" if "unexpected end" in str(error) else str(error)
            raise Refused(f"{path}: line {line}: {why}")
        if any(cell.strip() for cell in record):
            found.append((line, [cell.strip() for cell in record]))
        line = skipped + reader.line_num + 1


# ---------------------------------------------------------------- tables

def read_table(path: str, dialect: Dialect = Dialect()) -> Tuple[List[str], List[Tuple[int, Row]]]:
    """The header, and pairs of line number and row by column name: the cells as they are written, without spaces at their ends. A byte
    order mark, CR LF and Excel's line `sep=` are taken."""
    text, skipped = text_of(path), 0
    first = re.match(r"sep=(.)\r?\n", text)
    if first:
        text, skipped = text[first.end():], 1
        if first.group(1) != dialect.separator:
            name = {sign: word for word, sign in SEPARATORS.items()}.get(first.group(1))
            cure = f"give --separator {name}" if name else "save it with commas"
            raise Refused(f"{path}: line 1: {first.group(0).strip()!r} names another separator; {cure}")
    records = records_of(path, text, dialect.separator, skipped)
    if not records:
        raise Refused(f"{path}: empty")
    head = header_of(path, *records[0], dialect.separator)
    rows = []
    for line, record in records[1:]:
        if len(record) != len(head):
            raise Refused(f"{path}: line {line}: {len(record)} fields, the header has {len(head)}")
        rows.append((line, dict(zip(head, record))))
    return head, rows


def header_of(path: str, line: int, head: List[str], separator: str) -> List[str]:
    """The names of the columns, each there once. One column without a name is taken (R's row names)."""
    for name, sign in SEPARATORS.items():
        if len(head) == 1 and sign in head[0] and sign != separator:
            raise Refused(f"{path}: line {line}: the fields are parted by {name}s; give --separator {name}")
    for name in head:
        if head.count(name) > 1:
            what = f"column {name} is there twice" if name else "two columns have no name"
            raise Refused(f"{path}: line {line}: {what}")
    return head


def pointed(cell: str) -> str:
    """A number with a decimal comma, with a point in its place; another text as it is."""
    return cell.replace(",", ".") if DECIMAL_COMMA.fullmatch(cell) else cell


# ---------------------------------------------------------------- numbers

def is_number(text: str) -> bool:
    """Whether a text is a decimal number: ASCII digits, perhaps a sign, a point and an exponent, and no underscore."""
    return NUMBER.fullmatch(text) is not None and math.isfinite(float(text))


def number(path: str, line: int, row: Row, column: str) -> float:
    """A finite number of a column."""
    if is_number(row[column]):
        return float(row[column])
    cure = "; give --decimal comma" if DECIMAL_COMMA.fullmatch(row[column]) else ""
    cure += ", or write a thousand without a comma" if cure and THOUSAND.fullmatch(row[column]) else ""
    raise Refused(f"{path}: line {line} column {column}: {row[column]!r} is not a finite number{cure}")


def refuse_thousand(where: str, cell: str) -> None:
    """Refuses a cell that may be a thousand or a decimal with three digits."""
    if THOUSAND.fullmatch(cell):
        other = f" or {cell.replace(',', '.')}" if cell.count(",") == 1 else ""
        raise Refused(f"{where}: {cell!r} may be {cell.replace(',', '')}{other}; write it without a comma before three digits")


def with_numbers(rows: Sequence[Tuple[int, Row]], columns: Iterable[str], dialect: Dialect) -> List[Tuple[int, Row]]:
    """The rows with points for decimal commas in these columns."""
    chosen = set(columns)
    return [(line, {name: dialect.decimal(cell) if name in chosen else cell for name, cell in row.items()}) for line, row in rows]


def number_columns(head: Sequence[str], rows: Sequence[Tuple[int, Row]], dialect: Dialect) -> List[str]:
    """The columns all of whose values are numbers in this dialect."""
    return [name for name in head
            if all(row[name] in ABSENT or is_number(dialect.decimal(row[name])) for _, row in rows)]


def present(row: Row, columns: Iterable[str]) -> List[str]:
    """Those of the columns in which the row has a value."""
    return [name for name in columns if row[name] not in ABSENT]


# ---------------------------------------------------------------- sets of items

def runs(numbers: Iterable[int]) -> str:
    """A set of numbers as `0 2-4 7`, the way a plan has it."""
    words, ordered = [], sorted(numbers)
    while ordered:
        first = last = ordered.pop(0)
        while ordered and ordered[0] == last + 1:
            last = ordered.pop(0)
        words.append(f"{first}" if first == last else f"{first}-{last}")
    return " ".join(words)


def members(words: Sequence[str]) -> List[int]:
    """The numbers of a set written as `0 2-4 7`, each below 1,000; `ValueError` where a word is neither."""
    found: List[int] = []
    for word in words:
        read = re.fullmatch(r"([0-9]{1,3})(?:-([0-9]{1,3}))?", word, re.ASCII)
        if not read:
            raise ValueError(word)
        found.extend(range(int(read.group(1)), int(read.group(2) or read.group(1)) + 1))
    return found
