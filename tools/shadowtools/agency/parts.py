"""Examinees in parts of a fixed size, each a chain of runs of `shadowd replay` over a journal of its own.

Without an exposure rate no session depends on another. So the parts of a study can be taken through at once, by threads of this machine or
by the workers of a Dask cluster; the parts are those of the study, and not of the workers. The journals are joined in the order of the parts,
with the sessions numbered on: the bytes are those of one chain that takes through one part after the other.

A part that is done is kept beside the journal until all are: an interrupted study goes on with the others. A part is kept where its file has
the digest that OUT.parts.json has for it, and where it was made from the same program, bank, plan, bookings and answers.
"""
import concurrent.futures
import hashlib
import json
import os
import tempfile
import threading
from dataclasses import dataclass
from typing import Callable, Dict, Iterable, Iterator, List, Mapping, Optional, Sequence, Tuple

from shadowtools.agency.custody import sha256_of
from shadowtools.agency.drivers import Replay, Sittings, Stopped, by_replay, replay_exposure
from shadowtools.command import Refused
from shadowtools.formats.examination import payloads_of
from shadowtools.formats.written import json_text
from shadowtools.needs import require

MEMORY = "/dev/shm"
STARTS, OTHERS = (6, 9), (3, 4, 5, 7)   # kinds of records with a session's number after the kind
HEADER, OPEN, CLOSED = b"SHADOWJ2", b"\1", b"\0"
PATIENCE = "20s"    # for the scheduler of a cluster

Exposure = Tuple[int, List[Tuple[int, int]]]
Note = Callable[[int], None]


def memory() -> Optional[str]:
    """A folder in memory, where there is one."""
    return MEMORY if os.access(MEMORY, os.W_OK) else None


# ---------------------------------------------------------------- one part

@dataclass(frozen=True)
class Part:
    """What a worker needs for one part: the program's path and its SHA-256, the texts of bank and plan, the number of the bank's items,
    and the bookings with their responses to all items."""
    program: str
    sha256: str
    bank: str
    plan: str
    items: int
    responses: Mapping[int, Sequence[int]]

    def digest(self) -> str:
        """The SHA-256 of all that decides the part's journal."""
        found = [self.sha256, self.bank, self.plan, self.items, [[booking, list(row)] for booking, row in self.responses.items()]]
        return hashlib.sha256(json_text(found, in_ascii=True).encode()).hexdigest()


@dataclass(frozen=True)
class Done:
    """What a part gave: its journal, how many requests each run had with its seconds, and the exposure that the program counts."""
    journal: bytes
    seconds: List[Tuple[int, float]]
    exposure: Exposure

    def answers(self, sessions: int) -> int:
        """How many answers were given; the first request of each session begins it."""
        return sum(asked for asked, _ in self.seconds) - sessions


class Noted:
    """The progress of one part, as `by_replay` notes it."""

    def __init__(self, tell: Note) -> None:
        self.note = tell


def take_part(part: Part, note: Note = lambda given: None) -> Done:
    """Takes the bookings of a part through. Refused is a program that is not that of the study."""
    if sha256_of(part.program) != part.sha256:
        raise Stopped(f"{part.program}: not the program of the study, whose SHA-256 is {part.sha256}")
    with tempfile.TemporaryDirectory(dir=memory()) as folder:
        paths = [os.path.join(folder, name) for name in ("bank", "plan", "journal")]
        for path, text in zip(paths, (part.bank, part.plan)):
            with open(path, "w", encoding="utf-8", newline="\n") as file:
                file.write(text)
        replay, bookings = Replay(part.program, *paths, folder), list(part.responses)
        seconds = by_replay(replay, Sittings(bookings, part.responses), len(bookings), Noted(note))
        exposure = replay_exposure(replay, part.items)
        with open(paths[2], "rb") as journal:
            return Done(journal.read(), seconds, exposure)


# ---------------------------------------------------------------- all parts

def joined(journals: Iterable[bytes]) -> bytes:
    """One journal of the sessions of all, numbered on. Refused is a record whose kind has no session."""
    found, before = [HEADER], 0
    for number, data in enumerate(journals):
        begun = 0
        for gate, payload in payloads_of(f"part {number}", data):
            if payload[0] not in STARTS + OTHERS or data[:8] != HEADER:
                raise Refused(f"part {number}: byte {gate}: a record that can't be numbered on")
            begun += payload[0] in STARTS
            session = before + int.from_bytes(payload[1:5], "big")
            found += [OPEN, len(payload).to_bytes(4, "big"), payload[:1], session.to_bytes(4, "big"), payload[5:]]
        before += begun
    return b"".join([*found, CLOSED])


def summed(counts: Sequence[Exposure]) -> Exposure:
    """The exposure of all parts: sessions without a rate are counted by addition."""
    rows = [(sum(shown for shown, _ in one), sum(eligible for _, eligible in one)) for one in zip(*(rows for _, rows in counts))]
    return sum(finished for finished, _ in counts), rows


class Kept:
    """The parts that are done, in files beside the journal: `BEGIN.part-K.journal`, and BEGIN.parts.json with what they are of."""

    def __init__(self, begin: str) -> None:
        self.begin, self.index = begin, begin + ".parts.json"
        self.rows: Dict[str, dict] = {}
        try:
            with open(self.index, encoding="utf-8") as file:
                found = json.load(file)
            self.rows = {name: row for name, row in found.items() if isinstance(row, dict)}
        except (OSError, ValueError, AttributeError):
            pass    # there is none, or it is damaged: all parts are taken through

    def path(self, number: int) -> str:
        return f"{self.begin}.part-{number}.journal"

    def get(self, number: int, part: Part) -> Optional[Done]:
        """The part as an earlier run left it, where it is whole and of the same study."""
        row = self.rows.get(str(number), {})
        try:
            with open(self.path(number), "rb") as file:
                journal = file.read()
        except OSError:
            return None
        if row.get("of") != part.digest() or row.get("sha256") != hashlib.sha256(journal).hexdigest():
            return None
        try:
            finished, rows = row["exposure"]
            return Done(journal, [(asked, took) for asked, took in row["seconds"]], (finished, [(shown, eligible) for shown, eligible in rows]))
        except (LookupError, TypeError, ValueError):
            return None

    def put(self, number: int, part: Part, done: Done) -> None:
        """Keeps a part. An interruption leaves the part as it was, or whole."""
        self.replace(self.path(number), done.journal)
        self.rows[str(number)] = {"of": part.digest(), "sha256": hashlib.sha256(done.journal).hexdigest(), "seconds": done.seconds,
                                  "exposure": done.exposure}
        self.replace(self.index, json_text(self.rows, in_ascii=True).encode())

    def replace(self, path: str, data: bytes) -> None:
        try:
            with open(path + ".new", "wb") as file:
                file.write(data)
            os.replace(path + ".new", path)
        except OSError as error:
            raise Refused(f"{path}: {error.strerror}")

    def remove(self) -> None:
        """Removes the files of all parts, the index last."""
        for path in [*(f"{self.begin}.part-{name}.journal" for name in self.rows), self.index]:
            if os.path.exists(path):
                os.unlink(path)


class Counter:
    """Answers of all parts together, which threads note; a part whose study has ended goes on with no further round."""

    def __init__(self, note: Note) -> None:
        self.note, self.lock, self.given, self.ended = note, threading.Lock(), {}, threading.Event()

    def of(self, number: int) -> Note:
        def noted(given: int) -> None:
            if self.ended.is_set():
                raise Stopped(f"part {number}: not gone on with")
            with self.lock:
                self.given[number] = given
                self.note(sum(self.given.values()))
        return noted


def local(workers: int) -> concurrent.futures.Executor:
    """So many parts at once on this machine. The work is the program's, so threads are enough."""
    return concurrent.futures.ThreadPoolExecutor(workers)


def cluster(address: str) -> concurrent.futures.Executor:
    """The workers of a Dask cluster; shadowtools and the program have to be on the machine of each."""
    require("simulate.py --cluster", "distributed")
    from distributed import Client
    try:
        return Client(address, timeout=PATIENCE).get_executor(pure=False)
    except (OSError, ValueError) as error:
        raise Refused(f"--cluster {address}: {error}")


def take_parts(parts: Sequence[Part], kept: Kept, executor: concurrent.futures.Executor, note: Note, shares_memory: bool) -> Iterator[Done]:
    """The parts in order, each as it was kept or taken through now. `shares_memory`: the executor's work can note its progress."""
    found: Dict[int, Done] = {}
    for number, part in enumerate(parts):
        done = kept.get(number, part)
        if done:
            found[number] = done
    counter, waiting = Counter(note), {}
    for number, done in found.items():
        counter.given[number] = done.answers(len(parts[number].responses))
    try:
        for number, part in enumerate(parts):
            if number not in found:
                words = (counter.of(number),) if shares_memory else ()
                waiting[executor.submit(take_part, part, *words)] = number
        for one in concurrent.futures.as_completed(waiting):
            number = waiting[one]
            found[number] = one.result()
            kept.put(number, parts[number], found[number])
            counter.of(number)(found[number].answers(len(parts[number].responses)))
    finally:
        counter.ended.set()
        for one in waiting:
            one.cancel()
    return (found[number] for number in range(len(parts)))
