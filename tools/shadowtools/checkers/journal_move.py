"""What the command `migrate` makes of a journal, and the journal of version 1 that has the history of one of version 2.

It is written from docs/FORMATS.md, and shares nothing with the product: the history before each record is that of `audit.Judge`, and so
are the step, the band and the draws that a record of version 1 lacks.
"""
import io
from typing import FrozenSet, Iterator, List, NamedTuple, Sequence

from shadowtools.checkers import audit
from shadowtools.command import Refused

# The kinds of a start and of a setting aside, in each version.
OLD_START, OLD_ASIDE, NEW_START, NEW_ASIDE = b"\1", b"\2", b"\6", b"\7"
SET = 64  # bytes of a set of items
HEAD = 4  # bytes of a payload's length


class Move(NamedTuple):
    """What `migrate` gives: its status and its lines, and the file after it."""
    status: int
    lines: List[str]
    data: bytes


def framed(payloads: Sequence[bytes], last: bytes = b"\0") -> bytes:
    """What follows a gate that is opened for these payloads: their lengths and bytes, open gates between them, and the last gate."""
    return b"\1".join(len(payload).to_bytes(HEAD, "big") + payload for payload in payloads) + last if payloads else b""


def file_of(header: bytes, payloads: Sequence[bytes]) -> bytes:
    """A journal of these payloads."""
    return header + (b"\1" + framed(payloads) if payloads else b"\0")


# ---------------------------------------------------------------- from version 2 to version 1

def old_payload(payload: bytes, first_band: int) -> bytes:
    """A record of version 2 as version 1 has it: a start with the set of the band in which sessions begin, a setting aside without step
    and band."""
    if payload[:1] == NEW_START:
        first = 14 + SET * first_band
        return OLD_START + payload[1:13] + payload[first:first + SET]
    return OLD_ASIDE + payload[1:5] + payload[8:] if payload[:1] == NEW_ASIDE else payload


def as_version_1(rules: audit.Rules, data: bytes) -> bytes:
    """The journal of version 1 with the records that count of a journal of version 2 or of one that was moved."""
    first_band = audit.History(rules).first_band
    return file_of(audit.OLD_HEADER, [old_payload(record.payload, first_band) for record in audit.counted(io.BytesIO(data), len(data))])


# ---------------------------------------------------------------- from version 1 to version 2

def item_set(items: FrozenSet[int]) -> bytes:
    return sum(1 << item for item in items).to_bytes(SET, "little")


def new_payload(judge: audit.Judge, record: audit.Record) -> bytes:
    """A record of version 1 as version 2 has it, which is judged then. Refused where it may not follow."""
    payload, lifted = record.payload, None
    try:
        lifted = judge.lifted(*audit.read_record(payload, 1))
    except ValueError:
        pass  # it is none, and is refused in the next line
    judge.take(record)
    kind = audit.kind_of(payload, 1)
    if kind == audit.STARTED:
        return NEW_START + payload[1:13] + bytes([len(lifted[2])]) + b"".join(map(item_set, lifted[2]))
    if kind == audit.ASIDE:
        return NEW_ASIDE + payload[1:5] + lifted[1].to_bytes(2, "big") + bytes([lifted[2]]) + payload[5:]
    return payload


def new_payloads(rules: audit.Rules, data: bytes) -> Iterator[bytes]:
    """The payloads of version 2 of a journal of version 1. Refused where it represents no history."""
    judge = audit.Judge(rules, lambda at, nodes, said, spent: None)
    for record in audit.counted(io.BytesIO(data), len(data)):
        yield new_payload(judge, record)


def is_unmoved(data: bytes) -> bool:
    """Whether the bytes are a journal of version 1 that has not been moved. Refused where a frame is at fault."""
    file = io.BytesIO(data)
    return len(data) > len(audit.HEADER) + 1 and audit.begins(file, len(data))[1] == 1


def kept(data: bytes) -> bytes:
    """A journal of more than nine bytes without what follows its first closed gate."""
    end = len(audit.HEADER)
    for at, length in audit.frames(io.BytesIO(data), len(data)):
        end = at + HEAD + 1 + length
    return data[:end + 1]


def moved(rules: audit.Rules, data: bytes) -> bytes:
    """The file that a move of a journal of version 1 ends with."""
    return kept(data)[:-1] + b"\1" + framed([audit.MARK, *new_payloads(rules, data)])


def move_of(rules: audit.Rules, data: bytes) -> Move:
    """What `migrate` gives on a journal."""
    try:
        is_old = len(data) <= rules.journal and is_unmoved(data)
        after = moved(rules, data) if is_old else data
        if not is_old:
            audit.audit(rules, io.BytesIO(data))
    except Refused as refused:
        return Move(6, [refused.line], data)
    if is_old and len(after) > rules.journal:
        return Move(13, [f"limit journal {len(after)} of {rules.journal}"], data)
    count = sum(1 for _ in audit.frames(io.BytesIO(data), len(data))) if is_old else 0
    return Move(0, [f"migrated {count} records length {len(after)}"], after)
