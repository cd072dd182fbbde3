"""How the tools write: one writer of CSV, one of JSON, and one of files."""
import csv
import io
import json
from typing import Any, Iterable, Optional, Sequence, Tuple

from shadowtools.command import Refused


def table_text(rows: Iterable[Sequence[object]]) -> str:
    """A table in CSV (RFC 4180), its lines ended by LF."""
    out = io.StringIO()
    csv.writer(out, lineterminator="\n").writerows(rows)
    return out.getvalue()


def json_text(value: Any, indent: Optional[int] = None, in_order_of_names: bool = False, is_compact: bool = False, in_ascii: bool = False) -> str:
    """JSON (RFC 8259) of a value. Refused is a number that is not finite, which JSON does not have."""
    separators: Optional[Tuple[str, str]] = (",", ":") if is_compact else None
    try:
        return json.dumps(value, allow_nan=False, ensure_ascii=in_ascii, indent=indent, sort_keys=in_order_of_names, separators=separators)
    except ValueError as error:
        raise Refused(f"what is to be written has a number that is not finite: {error}")


def write(path: str, text: str) -> None:
    """Writes a text in UTF-8, its line ends as they are."""
    try:
        with open(path, "w", newline="", encoding="utf-8") as file:
            file.write(text)
    except OSError as error:
        raise Refused(f"{path}: {error.strerror}")
