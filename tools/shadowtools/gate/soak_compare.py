"""What soak.py demands of the journals, by what each client sent and was told. It reads a journal by docs/FORMATS.md alone."""
import bisect
import io
from dataclasses import dataclass, field
from typing import Any, Dict, Iterable, List, NamedTuple, Optional, Sequence, Set, Tuple

from shadowtools.checkers import audit
from shadowtools.gate.soak_clients import GIVEN_UP, Exchange

FORM = 64  # bytes of the form that an item is served from
SHOWN = 5  # faults of each kind that are printed
DONE = float("inf")  # the place of a session that has ended


class Entry(NamedTuple):
    """What a record of a journal tells of a session. `value` is the item that is served, or the response."""
    kind: int
    session: int
    step: Optional[int] = None
    value: Optional[int] = None
    proved: Optional[bool] = None
    booking: Optional[int] = None


@dataclass
class Journal:
    """The entries of a journal, and what they tell of each session."""
    entries: List[Entry] = field(default_factory=list)
    bookings: List[int] = field(default_factory=list)
    served: Dict[Tuple[int, int], Tuple[int, bool]] = field(default_factory=dict)
    answered: Dict[Tuple[int, int], int] = field(default_factory=dict)
    closed: Set[int] = field(default_factory=set)

    def booking(self, session: int) -> Optional[int]:
        return self.bookings[session] if session < len(self.bookings) else None

    def add(self, entry: Entry) -> None:
        self.entries.append(entry)
        if entry.kind == audit.STARTED:
            self.bookings.append(entry.booking)
        elif entry.kind == audit.SERVED:
            self.served[entry.session, entry.step] = entry.value, entry.proved
        elif entry.kind == audit.ANSWERED:
            self.answered[entry.session, entry.step] = entry.value
        elif entry.kind == audit.CLOSED:
            self.closed.add(entry.session)


def entry_of(record: audit.Record) -> Entry:
    fields, kind = audit.Fields(record.payload), audit.kind_of(record.payload, record.version)
    fields.number(1)
    session = fields.number(4)
    if kind == audit.STARTED:
        return Entry(kind, session, booking=fields.number(8))
    if kind == audit.SERVED:
        step, item = fields.number(2), fields.number(2)
        fields.number(FORM)
        return Entry(kind, session, step, item, fields.number(1) == 1)
    if kind == audit.ANSWERED:
        return Entry(kind, session, fields.number(2), fields.number(1))
    return Entry(kind, session)


def read_journal(data: bytes) -> Journal:
    journal = Journal()
    for record in audit.counted(io.BytesIO(data), len(data)):
        journal.add(entry_of(record))
    return journal


# ---------------------------------------------------------------- demands

def place_of(body: Any) -> float:
    """How far a session is, by a reply that tells it."""
    if body["state"] in ("complete", "closed"):
        return DONE
    return 2 * body["step"] + (body["state"] == "waiting")


def has_place(one: Exchange) -> bool:
    return one.status in (200, 201) and isinstance(one.body, dict) and "state" in one.body


def lost(journal: Journal, exchanges: Iterable[Exchange]) -> List[str]:
    """Each begin, answer and closing that was acknowledged is in the journal as it was sent, in a session of its booking."""
    faults = []
    for one in exchanges:
        asked = one.asked
        if not has_place(one) or asked.kind == "look":
            continue
        session = one.body["session"]
        holds = journal.booking(session) == asked.booking
        if asked.kind == "answer":
            holds = holds and session == asked.session and journal.answered.get((session, asked.step)) == asked.response
        if asked.kind == "close":
            holds = holds and session == asked.session and session in journal.closed
        if not holds:
            faults.append(f"the journal lacks {one}")
    return faults


def foreign(journal: Journal, exchanges: Iterable[Exchange], inherited: int) -> List[str]:
    """Each start, answer and closing behind the inherited records was sent by the client of the session's booking."""
    sent = {(one.asked.kind, one.asked.booking, one.asked.session, one.asked.step, one.asked.response) for one in exchanges}
    faults = []
    for number, entry in enumerate(journal.entries):
        if number < inherited or entry.kind not in (audit.STARTED, audit.ANSWERED, audit.CLOSED):
            continue
        booking = journal.bookings[entry.session]
        wanted = {audit.STARTED: ("begin", booking, None, None, None), audit.CLOSED: ("close", booking, entry.session, None, None),
                  audit.ANSWERED: ("answer", booking, entry.session, entry.step, entry.value)}[entry.kind]
        if wanted not in sent:
            faults.append(f"nobody of booking {booking} sent record {number}, {entry}")
    return faults


def untrue(journal: Journal, exchanges: Iterable[Exchange]) -> List[str]:
    """What a reply tells is in the journal: the item of a step, a response that was recorded before, that a session is another's."""
    faults = []
    for one in exchanges:
        body, asked = one.body, one.asked
        holds = True
        if has_place(one) and body["state"] == "waiting":
            holds = journal.served.get((body["session"], body["step"])) == (body["item"], body["proved"])
        elif one.error == "other":
            holds = journal.answered.get((asked.session, asked.step)) == body["value"] != asked.response
        elif one.error == "other-booking":
            holds = body == {"error": "other-booking"} and journal.booking(asked.session) not in (None, asked.booking)
        elif one.error == "no-session":
            holds = body["value"] <= asked.session
        if not holds:
            faults.append(f"the journal does not agree with {one}")
    return faults


def backward(exchanges: Iterable[Exchange]) -> List[str]:
    """No session goes back: a reply to what was sent after another reply shows no earlier place."""
    by_session: Dict[int, List[Exchange]] = {}
    for one in exchanges:
        if has_place(one):
            by_session.setdefault(one.body["session"], []).append(one)
    faults = []
    for replies in by_session.values():
        replies.sort(key=lambda one: one.ended)
        ends, best = [one.ended for one in replies], []
        for one in replies:
            best.append(max(place_of(one.body), best[-1] if best else -1))
        for one in replies:
            before = bisect.bisect_left(ends, one.sent)
            if before and place_of(one.body) < best[before - 1]:
                faults.append(f"a session went back: {one}")
    return faults


def is_near(one: Exchange, windows: Sequence[Tuple[float, float]]) -> bool:
    """Whether a fault was made while this was asked; that a connection is lost may come from a fault since it was made."""
    since = one.sent if one.status else one.opened
    return any(begun <= one.ended and since <= ended for begun, ended in windows)


def unexcused(exchanges: Iterable[Exchange], windows: Sequence[Tuple[float, float]]) -> List[str]:
    """No connection is lost and no status is 500 or more, unless a fault is near."""
    return [f"nothing was at fault, and {one}" for one in exchanges
            if (one.status == 0 and one.body != GIVEN_UP or one.status >= 500) and not is_near(one, windows)]


def is_late(journal: Journal, one: Exchange) -> bool:
    """Whether a client named the session of another booking."""
    return one.asked.kind in ("answer", "close") and journal.booking(one.asked.session) not in (None, one.asked.booking)


def late(journal: Journal, exchanges: Iterable[Exchange]) -> List[str]:
    """A client that named the session of another booking was never told that its answer or closing was taken."""
    return [f"taken in a session of booking {journal.booking(one.asked.session)}: {one}" for one in exchanges
            if is_late(journal, one) and one.status in (200, 201)]


def parted(data: bytes, before: bytes, inherited: int) -> List[str]:
    """A journal that was taken over begins with the records that it inherited from the one before."""
    ends = [len(audit.HEADER)] + [at + 5 + length for at, length in audit.frames(io.BytesIO(before), len(before))]
    end = ends[min(inherited, len(ends) - 1)]
    return [] if inherited < len(ends) and data[:end] == before[:end] else [f"the first {inherited} records are not those of the leader before"]


def demands(journal: Journal, exchanges: Sequence[Exchange], inherited: int, windows: Sequence[Tuple[float, float]]) -> Dict[str, List[str]]:
    """The faults of one epoch, by what is demanded."""
    return {"each acknowledged request is in the journal": lost(journal, exchanges),
            "each entry was sent by its booking's client": foreign(journal, exchanges, inherited),
            "each reply agrees with the journal": untrue(journal, exchanges),
            "no session goes back": backward(exchanges),
            "no late client is taken": late(journal, exchanges),
            "no fault without a cause": unexcused(exchanges, windows)}
