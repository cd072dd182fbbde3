"""The texts of items and passages: a folder with one file of TOML an item, named by its ID.

    text = "First paragraph.\\n\\nSecond paragraph."      the question, as plain text; a formula is an element <math> of MathML
    options = ["12", "13", "14"]                          what the examinee chooses from, as such a text
    responses = [0, 1, 0]                                 the response that each option is to shadowd
    pictures = [{ file = "map.png", text = "A map .." }]  below the question, each with a text for those who cannot see it

A passage is `passages/ID.toml` with a title, a text and pictures. All files are read at the start: no request names a file.
"""
import os
import re
from typing import NamedTuple

from formulas import WrongFormula, with_formulas
from settings import BadInput, read_table

SAFE_NAME = re.compile(r"[A-Za-z0-9][A-Za-z0-9._-]{0,99}")
KINDS = {".png": "image/png", ".jpg": "image/jpeg", ".jpeg": "image/jpeg", ".webp": "image/webp", ".svg": "image/svg+xml"}
LARGEST = 2_000_000  # bytes of a picture


class Picture(NamedTuple):
    kind: str
    data: bytes
    text: str


class Passage(NamedTuple):
    title: str
    paragraphs: list
    pictures: list


class Item(NamedTuple):
    id: str
    paragraphs: list
    options: list
    responses: list
    passage: Passage | None
    pictures: list


def require_safe(folder, name):
    """Refuses a name that may lead out of the folder."""
    if not SAFE_NAME.fullmatch(name):
        raise BadInput(f"{folder}: {name!r} is no ID that can name a file")


def load(folder, name):
    """The table of the file of an ID. Only a name that leads nowhere else is one."""
    require_safe(folder, name)
    return read_table(os.path.join(folder, name + ".toml"))


def is_text(value):
    return isinstance(value, str) and bool(value.strip())


def formatted(name, text):
    try:
        return with_formulas(text)
    except WrongFormula as wrong:
        raise BadInput(f"{name}: {wrong}") from wrong


def paragraphs(name, table):
    text = table.get("text")
    if not is_text(text):
        raise BadInput(f"{name}: no text")
    return [formatted(name, part.strip()) for part in re.split(r"\n\s*\n", text) if part.strip()]


def picture(folder, name, entry):
    if not isinstance(entry, dict) or set(entry) != {"file", "text"} or not all(map(is_text, entry.values())):
        raise BadInput(f"{name}: a picture has a file and a text, and nothing else")
    require_safe(folder, entry["file"])
    kind, path = KINDS.get(os.path.splitext(entry["file"])[1].lower()), os.path.join(folder, entry["file"])
    if kind is None:
        raise BadInput(f"{name}: {entry['file']} is no picture of a kind that browsers have: {', '.join(KINDS)}")
    try:
        with open(path, "rb") as file:
            data = file.read(LARGEST + 1)
    except OSError as error:
        raise BadInput(f"{name}: {error}") from error
    if not 0 < len(data) <= LARGEST:
        raise BadInput(f"{name}: {entry['file']} has no bytes, or more than {LARGEST:,}")
    return Picture(kind, data, entry["text"].strip())


def pictures(folder, name, table):
    found = table.get("pictures", [])
    if not isinstance(found, list):
        raise BadInput(f"{name}: pictures are no list")
    return [picture(folder, name, entry) for entry in found]


def read_passage(folder, name):
    folder = os.path.join(folder, "passages")
    table, where = load(folder, name), f"passages/{name}"
    if not is_text(table.get("title")):
        raise BadInput(f"{where}: no title")
    return Passage(table["title"], paragraphs(where, table), pictures(folder, where, table))


def read_item(folder, name, categories, passage):
    table = load(folder, name)
    options, responses = table.get("options"), table.get("responses")
    if not isinstance(options, list) or not all(map(is_text, options)):
        raise BadInput(f"{name}: options are no list of texts")
    if not isinstance(responses, list) or len(responses) != len(options):
        raise BadInput(f"{name}: there is not one response for each of {len(options)} options")
    if any(type(one) is not int for one in responses) or set(responses) != set(range(categories)):
        raise BadInput(f"{name}: responses are not those of an item with {categories} categories")
    return Item(name, paragraphs(name, table), [formatted(name, option) for option in options], responses, passage,
                pictures(folder, name, table))


def read_texts(folder, documents):
    """The items of a bank by number, each with its passage, by the names that the map has."""
    passages = [None, *(read_passage(folder, name) for name in documents.map["passages"])]
    return [read_item(folder, item["id"], row.categories, passages[row.passage])
            for item, row in zip(documents.map["items"], documents.bank)]
