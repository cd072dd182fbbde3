"""The one reader of the texts of an examination for the tools of agencies: bank, plan with the names of its rules, map, journal.

It shares nothing with the product; docs/FORMATS.md has the formats. It needs the standard library alone. What a text can't be is
refused with its place. Whether bank and plan are valid as a whole, and whether a history is legal, is for `shadowd check` and `audit`.
"""
import csv
import io
import json
import math
import re
from collections import namedtuple
from dataclasses import dataclass, field
from typing import Any, Collection, Dict, FrozenSet, Iterable, Iterator, List, Optional, Sequence, Tuple

from shadowtools.command import Refused
from shadowtools.formats.tables import members, text_of

# `eligible` has a set for each band. Records of version 1 have that of the first estimate's band alone (`is_first_alone`), and of
# a setting aside neither step nor band, which are None; exposure.py has the rest. `without` has the items that the examinee must
# not get, and `form` a form without them; both are empty where the start has no list.
Started = namedtuple("Started", "session booking eligible is_first_alone without form", defaults=(frozenset(), frozenset()))
SetAside = namedtuple("SetAside", "session step band cause nodes")
Served = namedtuple("Served", "session step item form proved nodes")
Answered = namedtuple("Answered", "session step response")
Closed = namedtuple("Closed", "session")

VERSIONS, LONGEST_PAYLOAD = {b"SHADOWJ1": 1, b"SHADOWJ2": 2}, 131_072
# The payload behind which the records of a file that was moved from version 1 to version 2 begin.
MOVED = b"\x08"
RULE_WORDS = ("count", "quantity", "enemies", "stimuli", "stimulus")
HEAD_WORDS = ("length", "prior", "rate", "bands")
OTHER_WORDS = ("budget", "base-budget", "sessions", "journal", "base")
MOST_BANDS = 8
WHOLE = re.compile(r"-?(0|[1-9][0-9]{0,8})", re.ASCII)


def opened(path: str, mode: str = "r"):
    try:
        return open(path, mode) if "b" in mode else open(path, mode, newline="", encoding="utf-8")
    except (OSError, ValueError) as error:
        raise Refused(f"{path}: {getattr(error, 'strerror', None) or error}")


def whole(text: str, where: str) -> int:
    """A whole number as the texts of shadowd write it."""
    if not WHOLE.fullmatch(text):
        raise Refused(f"{where}: {text[:20]!r} is not a whole number")
    return int(text)


def json_of(path: str) -> Any:
    """The value of a JSON text, without the numbers that JSON does not have (NaN, Infinity)."""
    def constant(name: str) -> float:
        raise ValueError(f"{name} is no number of JSON")
    try:
        return json.loads(text_of(path), parse_constant=constant)
    except (ValueError, RecursionError) as error:
        raise Refused(f"{path}: no JSON: {error}")


# ---------------------------------------------------------------- bank

@dataclass
class BankItem:
    """An item of a bank: its passage (0 for none), quantities, and by point its information and log-likelihoods."""
    passage: int
    quantities: List[int]
    information: List[int]
    logs: List[List[int]]

    @property
    def categories(self) -> int:
        return len(self.logs)


def read_bank(path: str) -> List[BankItem]:
    """The items of a bank. Refused is a text whose records are not those of its header."""
    try:
        records = [record for record in csv.reader(io.StringIO(text_of(path), newline=""), strict=True) if record]
    except csv.Error as error:
        raise Refused(f"{path}: {error}")
    quantities, points, responses = shape_of(path, records[0] if records else [])
    items = [bank_item(f"{path}: record {k}", record, k - 1, quantities, points, responses)
             for k, record in enumerate(records[1:], 1)]
    if not items:
        raise Refused(f"{path}: no items")
    return items


def shape_of(path: str, head: Sequence[str]) -> Tuple[int, int, int]:
    """The numbers of quantities, ability points and responses that a bank's header has columns for."""
    quantities = sum(re.fullmatch(r"q\d+", name) is not None for name in head)
    points = sum(re.fullmatch(r"i\d+", name) is not None for name in head)
    responses = (len(head) - 3 - quantities - points) // points if points else 0
    wanted = (["item", "stimulus", "categories"] + [f"q{k}" for k in range(quantities)] + [f"i{g}" for g in range(points)]
              + [f"l{r}_{g}" for r in range(responses) for g in range(points)])
    if responses < 2 or list(head) != wanted:
        raise Refused(f"{path}: the header is not that of a bank of shadowd")
    return quantities, points, responses


def bank_item(where: str, record: Sequence[str], k: int, quantities: int, points: int, responses: int) -> BankItem:
    first = 3 + quantities + points
    if len(record) != first + points * responses:
        raise Refused(f"{where}: {len(record)} columns, the header has {first + points * responses}")
    categories = whole(record[2], where)
    if record[0] != str(k) or not 2 <= categories <= responses or any(record[first + points * categories:]):
        raise Refused(f"{where}: not item {k} with {record[2]} of at most {responses} categories")
    cells = [whole(cell, where) for cell in record[:first + points * categories]]
    return BankItem(cells[1], cells[3:3 + quantities], cells[3 + quantities:first],
                    [cells[first + points * r:first + points * (r + 1)] for r in range(categories)])


# ---------------------------------------------------------------- map

def read_map(path: str) -> Dict[str, Any]:
    """The map that irt_bank.py wrote: ability points, units, prior, names and digests."""
    found = json_of(path)
    wanted = {"theta": numbers, "log_unit": positive, "information_unit": positive, "D": positive, "prior": words,
              "items": map_items, "sha256": digests, "quantities": texts, "passages": texts}
    for name, holds in wanted.items():
        if not isinstance(found, dict) or name not in found:
            raise Refused(f"{path}: no map of this irt_bank.py: {name} is missing; make bank, plan and map again")
        if not holds(found[name]):
            raise Refused(f"{path}: no map of irt_bank.py: {name} is not what it writes")
    return found


def is_finite(value: Any) -> bool:
    return isinstance(value, (int, float)) and not isinstance(value, bool) and math.isfinite(value)


def positive(value: Any) -> bool:
    """A unit or a scaling constant."""
    return is_finite(value) and 1e-9 < value < 1e9


def numbers(value: Any) -> bool:
    """Two or more ability points, ascending."""
    return (isinstance(value, list) and len(value) > 1 and all(map(is_finite, value)) and max(map(abs, value)) <= 1000
            and all(a < b for a, b in zip(value, value[1:])))


def words(value: Any) -> bool:
    """`["flat"]`, or mean and standard deviation as texts."""
    if not isinstance(value, list) or not all(isinstance(word, str) for word in value):
        return False
    return value == ["flat"] or len(value) == 2 and all(re.fullmatch(r"[-+.0-9eE]+", word) for word in value)


def texts(value: Any) -> bool:
    """Names of passages or of quantities."""
    return isinstance(value, list) and all(isinstance(name, str) for name in value)


def map_items(value: Any) -> bool:
    return isinstance(value, list) and all(
        isinstance(one, dict) and isinstance(one.get("id"), str) and isinstance(one.get("model"), str)
        and isinstance(one.get("parameters"), list) and all(map(is_finite, one["parameters"]))
        and isinstance(one.get("passage"), int) and isinstance(one.get("attributes"), dict) for one in value)


def digests(value: Any) -> bool:
    return isinstance(value, dict) and all(isinstance(value.get(name), str) for name in ("bank", "plan"))


# ---------------------------------------------------------------- plan

@dataclass
class Rule:
    """A rule of a plan. `low` and `high` bound its value over a form; `number` is that of its quantity or passage."""
    kind: str
    label: str
    line: int
    text: str
    low: int
    high: int
    members: FrozenSet[int] = frozenset()
    number: int = 0

    def value(self, items: Collection[int], bank: Sequence[BankItem]) -> Optional[int]:
        """The value of a set of items, or None where the rule does not speak of it (a passage that is not used)."""
        if self.kind == "stimuli":
            return len({bank[i].passage for i in items} - {0})
        if self.kind == "stimulus":
            return sum(bank[i].passage == self.number for i in items) or None
        inside = [i for i in items if i in self.members]
        if self.kind == "quantity":
            return sum(bank[i].quantities[self.number] for i in inside)
        return len(inside)

    def met(self, items: Collection[int], bank: Sequence[BankItem]) -> bool:
        value = self.value(items, bank)
        return value is None or self.low <= value <= self.high


@dataclass
class Plan:
    """A plan. The label of a rule is the remark above it, if there is one. `points` are those of the grid that begin new bands."""
    length: int = 0
    prior: List[int] = field(default_factory=list)
    rate: Tuple[int, int] = (1, 1)
    key: bytes = bytes(32)
    points: List[int] = field(default_factory=list)
    rules: List[Rule] = field(default_factory=list)

    @property
    def start(self) -> int:
        """The point where the estimate begins."""
        return self.prior.index(max(self.prior))

    @property
    def bands(self) -> int:
        """The number of bands of abilities."""
        return len(self.points) + 1


def band_of(points: Sequence[int], point: int) -> int:
    """The band of a grid point, where bands begin at `points`."""
    return sum(begin <= point for begin in points)


def bands_of(points: Sequence[int], grid: int) -> List[range]:
    """The grid points of each band."""
    ends = [0, *points, grid]
    return [range(low, high) for low, high in zip(ends, ends[1:])]


def rule_of(words: Sequence[str], remark: str, line: int, where: str) -> Rule:
    """The rule of a line of a plan."""
    kind, text = words[0], " ".join(words)
    before = {"count": 2, "quantity": 3, "enemies": 0, "stimuli": 2, "stimulus": 3}[kind]
    has_set = kind in ("count", "quantity", "enemies")
    if len(words) < 1 + before + has_set or not has_set and len(words) > 1 + before:
        raise Refused(f"{where}: {len(words)} words are no rule {kind}")
    found = [whole(word, where) for word in words[1:1 + before]]
    try:
        chosen = frozenset(members(words[1 + before:]))
    except ValueError:
        raise Refused(f"{where}: {' '.join(words[1 + before:])[:40]!r} is no set of items")
    number = found.pop(0) if kind in ("quantity", "stimulus") else 0
    low, high = found or (0, 1)
    label = f"{remark}, passage {number}" if remark and kind == "stimulus" else remark or text
    return Rule(kind, label, line, text, low, high, chosen, number)


def plan_of(text: str, path: str = "plan") -> Plan:
    """The plan of a text. A remark labels the row below it, and all `stimulus` lines that follow one another."""
    plan, remark = Plan(), ""
    for number, line in enumerate(text.split("\n"), 1):
        words, where = line.split(), f"{path}: line {number}"
        if line.startswith("#"):
            remark = line[1:].strip()
            continue
        if words and words[0] in RULE_WORDS:
            plan.rules.append(rule_of(words, remark, number, where))
        elif words and words[0] in HEAD_WORDS:
            read_head(plan, words, where)
        elif words and words[0] == "key":
            plan.key = key_of(words, where)
        elif words and words[0] not in OTHER_WORDS:
            raise Refused(f"{where}: {words[0][:20]!r} begins no line of a plan")
        if not words or words[0] != "stimulus":
            remark = ""
    return plan


def read_head(plan: Plan, words: Sequence[str], where: str) -> None:
    """Reads the line of length, prior, rate or bands."""
    values = [whole(word, where) for word in words[1:]]
    if len(values) != {"length": 1, "rate": 2}.get(words[0], len(values) or 1):
        raise Refused(f"{where}: {len(values)} numbers after {words[0]}")
    if words[0] == "prior":
        plan.prior = values
    elif words[0] == "bands":
        plan.points = values
    elif words[0] == "length":
        plan.length = values[0]
    else:
        plan.rate = values[0], values[1]


def key_of(words: Sequence[str], where: str) -> bytes:
    """The key of the draws. What it says of a faulty one does not show it."""
    if len(words) != 2 or not re.fullmatch("[0-9a-f]{64}", words[1]):
        raise Refused(f"{where}: a key has 64 lower-case hexadecimal digits")
    return bytes.fromhex(words[1])


def read_plan(path: str) -> Plan:
    plan = plan_of(text_of(path), path)
    if plan.length < 1 or not plan.prior:
        raise Refused(f"{path}: no plan: the line {'prior' if plan.length else 'length'} is missing")
    return plan


def require_agreement(bank: Sequence[BankItem], plan: Plan, path: str) -> None:
    """Refuses a plan that names a point, an item, a quantity or a passage that the bank does not have."""
    passages = {item.passage for item in bank} - {0}
    if len(plan.prior) != len(bank[0].information):
        raise Refused(f"{path}: the prior has {len(plan.prior)} points, the bank {len(bank[0].information)}")
    require_points(plan.points, len(plan.prior), path)
    for rule in plan.rules:
        if max(rule.members, default=0) >= len(bank) or rule.kind == "quantity" and rule.number >= len(bank[0].quantities):
            raise Refused(f"{path}: line {rule.line}: an item or a quantity that the bank does not have")
        if rule.kind == "stimulus" and rule.number not in passages:
            raise Refused(f"{path}: line {rule.line}: the bank has no passage {rule.number}")


def require_points(points: Sequence[int], grid: int, where: str) -> None:
    """Refuses points at which no bands can begin."""
    if len(points) >= MOST_BANDS or not all(map(len, bands_of(points, grid))):
        raise Refused(f"{where}: the points of bands ascend from 1 to {grid - 1}, and are at most {MOST_BANDS - 1}")


# ---------------------------------------------------------------- journal

def read_journal(path: str) -> List[tuple]:
    """The entries of a journal's records, in order; of a file that was moved to version 2 those of version 2."""
    with opened(path, "rb") as file:
        data = file.read()
    if len(data) <= 9:
        return []
    version = VERSIONS.get(data[:8])
    if version is None:
        raise Refused(f"{path}: no journal of shadowd")
    payloads = list(payloads_of(path, data))
    if version == 1 and (moved := next((k for k, (_, payload) in enumerate(payloads) if payload == MOVED), None)) is not None:
        version, payloads = 2, payloads[moved + 1:]
    return [entry(f"{path}: byte {gate}", payload, version) for gate, payload in payloads]


def payloads_of(path: str, data: bytes) -> Iterator[Tuple[int, bytes]]:
    """The place of the gate and the payload of each record before the first closed gate."""
    gate = 8
    while data[gate] == 1:
        length = int.from_bytes(data[gate + 1:gate + 5], "big")
        if not 1 <= length <= LONGEST_PAYLOAD or gate + 5 + length >= len(data):
            raise Refused(f"{path}: the record at byte {gate} is cut off")
        yield gate, data[gate + 5:gate + 5 + length]
        gate += 5 + length


def entry(where: str, payload: bytes, version: int) -> tuple:
    """One entry, without its proof tree."""
    def number(first: int, size: int) -> int:
        return int.from_bytes(payload[first:first + size], "big")

    def items(first: int) -> FrozenSet[int]:
        return frozenset(k for k in range(512) if payload[first + k // 8] >> k % 8 & 1)

    kind, session, size = payload[0], number(1, 4), len(payload)
    if kind == (1 if version == 1 else 6):
        first, bands = (13, 1) if version == 1 else (14, number(13, 1))
        if 1 <= bands <= MOST_BANDS and size == first + 64 * bands:
            return Started(session, number(5, 8), tuple(items(first + 64 * band) for band in range(bands)), version == 1)
    if version == 2 and kind == 9 and size > 14:
        bands, last = number(13, 1), 14 + 64 * number(13, 1)
        if 1 <= bands <= MOST_BANDS and size == last + 128 and items(last):
            sets = tuple(items(14 + 64 * band) for band in range(bands))
            return Started(session, number(5, 8), sets, False, items(last), items(last + 64))
    if version == 1 and kind == 2 and size > 8:
        return SetAside(session, None, None, number(5, 1), number(6, 2))
    if version == 2 and kind == 7 and size > 11 and payload[7] < MOST_BANDS:
        return SetAside(session, number(5, 2), payload[7], payload[8], number(9, 2))
    if kind == 3 and size > 76:
        return Served(session, number(5, 2), number(7, 2), items(9), payload[73] == 1, number(74, 2))
    if kind == 4 and size == 8:
        return Answered(session, number(5, 2), number(7, 1))
    if kind == 5 and size == 5:
        return Closed(session)
    raise Refused(f"{where}: a record is no entry")


@dataclass
class Session:
    """One examinee's session, as a journal or the lines of a replay have it. `eligible` has the sets of its start, `without` the items
    that the examinee must not get, `aside` the steps at which eligibility was set aside; `could` has the items that it could be
    shown, where exposure.py counted it as finished."""
    booking: Optional[int] = None
    items: List[int] = field(default_factory=list)
    responses: List[int] = field(default_factory=list)
    served: List[Served] = field(default_factory=list)
    eligible: Tuple[FrozenSet[int], ...] = ()
    aside: List[int] = field(default_factory=list)
    could: FrozenSet[int] = frozenset()
    closed: bool = False
    without: FrozenSet[int] = frozenset()


def sessions_of(entries: Iterable[tuple]) -> List[Session]:
    """The sessions of a journal's entries, by number. Refused is an entry that can follow in no examination."""
    found: List[Session] = []
    for place, one in enumerate(entries):
        if isinstance(one, Started) and one.session == len(found):
            found.append(Session(booking=one.booking, eligible=one.eligible, without=one.without))
        elif isinstance(one, Started) or one.session >= len(found) or not follow(found[one.session], one):
            raise Refused(f"the journal's record {place} ({type(one).__name__.lower()}) does not follow from those before it")
    return found


def follow(session: Session, one: tuple) -> bool:
    """Takes an entry into its session, where its step is the session's."""
    if session.closed:
        return False
    if isinstance(one, SetAside) and one.step in (None, len(session.items)) and len(session.items) == len(session.responses):
        session.aside.append(len(session.items))
    elif isinstance(one, Served) and one.step == len(session.items) == len(session.responses):
        session.items.append(one.item)
        session.served.append(one)
    elif isinstance(one, Answered) and one.step == len(session.responses) < len(session.items):
        session.responses.append(one.response)
    elif isinstance(one, Closed):
        session.closed = True
    else:
        return False
    return True
