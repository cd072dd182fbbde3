"""Two ways to take simulated examinees through an examination: rounds of `shadowd replay`, or HTTP against `shadowd serve`.

`replay` ends where its script ends, and the next item depends on the answer. So there is one run for each round of answers:
its script has one request for each examinee of a group, and all runs go on over one journal.
"""
import http.client
import json
import os
import queue
import re
import socket
import subprocess
import threading
import time
from dataclasses import dataclass, field
from typing import Any, Callable, Dict, FrozenSet, List, Mapping, Optional, Sequence, Tuple

from shadowtools.command import Refused
from shadowtools.formats.tables import runs

WAITING = re.compile(r"session (\d+) step (\d+) item (\d+) (?:proved|unproved)")
COMPLETE = re.compile(r"session (\d+) complete")
# What a booking with a list is refused, where there is no form without the items of the list, or none was found within the budget.
WITHOUT_FORM = ("no-form", "none-found")
LISTENING = re.compile(r"listening on ([0-9.]+):(\d+)")


PAUSE = 5.0     # seconds between two lines on progress


class Stopped(Refused):
    """The simulation cannot go on: a refusal, another status, or a broken connection, with its place."""


class Progress:
    """Tells how many answers were given, and how long the others may take at the same pace, at most every few seconds."""

    def __init__(self, answers: int, tell: Callable[[str], None]) -> None:
        self.answers, self.tell = answers, tell
        self.begun = self.told = time.perf_counter()

    def note(self, given: int) -> None:
        now = time.perf_counter()
        if now - self.told >= PAUSE:
            self.told = now
            left = f", some {(now - self.begun) * (self.answers - given) / given:.0f} s left" if 0 < given <= self.answers else ""
            self.tell(f"{given} of {self.answers} answers, {now - self.begun:.0f} s{left}")


@dataclass
class Sittings:
    """Bookings that are taken through, the responses of each to all items of the bank, and the lists of items that some of them must
    not get. `refused` is filled in: by booking the refusal, where no form without the items of the list was found."""
    bookings: Sequence[int]
    responses: Mapping[int, Sequence[int]]
    lists: Mapping[int, FrozenSet[int]] = field(default_factory=dict)
    refused: Dict[int, str] = field(default_factory=dict)

    def line(self, booking: int) -> str:
        """The request of a script that begins a booking."""
        without = self.lists.get(booking)
        return f"begin {booking} without {runs(without)}" if without else f"begin {booking}"

    def body(self, booking: int) -> dict:
        """The body of the same over HTTP."""
        without = self.lists.get(booking)
        return {"booking": booking, "without": sorted(without)} if without else {"booking": booking}

    def refuse(self, booking: int, word: str) -> bool:
        """Notes a refusal that a booking with a list may have; whether it is one."""
        if booking not in self.lists or word not in WITHOUT_FORM:
            return False
        self.refused[booking] = word
        return True


# ---------------------------------------------------------------- replay

class Replay:
    """`shadowd replay` over one journal."""

    def __init__(self, program: str, bank: str, plan: str, journal: str, folder: str) -> None:
        self.words = [program, "replay", bank, plan, os.path.join(folder, "script.txt")]
        self.environment = dict(os.environ, SHADOWD_JOURNAL=journal)
        self.runs = 0

    def replies(self, requests: Sequence[str]) -> List[str]:
        """The reply to each request of one run."""
        with open(self.words[-1], "w", encoding="ascii") as file:
            file.write("".join(request + "\n" for request in requests))
        done = subprocess.run(self.words, env=self.environment, stdin=subprocess.DEVNULL, capture_output=True, text=True)
        self.runs += 1
        lines = done.stdout.splitlines()
        if done.returncode != 0:
            said = " ".join(lines[len(requests):] or lines[-1:])
            raise Stopped(f"run {self.runs}, after {len(lines)} lines: status {done.returncode}: {said[:80]}")
        if len(lines) != len(requests):
            raise Stopped(f"run {self.runs}: {len(lines)} replies to {len(requests)} requests")
        return lines


def next_request(sittings: Sittings, booking: int, request: str, reply: str) -> Optional[str]:
    """The request after a reply, or None where the session is complete, or where the booking found no form."""
    waiting = WAITING.fullmatch(reply)
    if waiting:
        session, step, item = map(int, waiting.groups())
        if item >= len(sittings.responses[booking]):
            raise Stopped(f"examinee {booking}: {reply!r}, the bank has {len(sittings.responses[booking])} items")
        return f"answer {session} {step} {sittings.responses[booking][item]}"
    begun = request.startswith("begin ") and reply.startswith("refused ")
    if COMPLETE.fullmatch(reply) or begun and sittings.refuse(booking, reply.partition(" ")[2]):
        return None
    raise Stopped(f"examinee {booking}: {request!r} was answered {reply!r}")


def by_replay(replay: Replay, sittings: Sittings, group: int, progress: Progress) -> List[Tuple[int, float]]:
    """Takes the bookings through their sessions, `group` at a time; the seconds of each round."""
    seconds, given = [], 0
    for first in range(0, len(sittings.bookings), group):
        asked = [(k, sittings.line(k)) for k in sittings.bookings[first:first + group]]
        while asked:
            begun = time.perf_counter()
            replies = replay.replies([request for _, request in asked])
            seconds.append((len(asked), time.perf_counter() - begun))
            after = [(k, next_request(sittings, k, request, reply)) for (k, request), reply in zip(asked, replies)]
            asked = [(k, request) for k, request in after if request is not None]
            given += len(asked)
            progress.note(given)
    return seconds


def exposure_of_lines(lines: Sequence[str]) -> Tuple[int, List[Tuple[int, int]]]:
    """The counts of an exposure reply: finished sessions, and by item how often shown and eligible."""
    finished = re.fullmatch(r"exposure finished (\d+)", lines[0])
    rows = [re.fullmatch(r"item \d+ shown (\d+) eligible (\d+)", line) for line in lines[1:]]
    if not finished or not all(rows):
        raise Stopped(f"no exposure: {lines[0]!r}")
    return int(finished.group(1)), [(int(row.group(1)), int(row.group(2))) for row in rows]


def replay_exposure(replay: Replay, items: int) -> Tuple[int, List[Tuple[int, int]]]:
    with open(replay.words[-1], "w", encoding="ascii") as file:
        file.write("exposure\n")
    done = subprocess.run(replay.words, env=replay.environment, stdin=subprocess.DEVNULL, capture_output=True, text=True)
    lines = done.stdout.splitlines()
    if done.returncode != 0 or len(lines) != items + 1:
        raise Stopped(f"exposure: status {done.returncode}: {' '.join(lines)[:80]}")
    return exposure_of_lines(lines)


# ---------------------------------------------------------------- HTTP

class Lost(Stopped):
    """A connection that ended before its response was whole."""


class Server:
    """`shadowd serve`, started here: as many workers as clients, each of which takes one connection and then ends."""

    def __init__(self, program: str, bank: str, plan: str, journal: str, workers: int, token: str = "") -> None:
        environment = dict(os.environ, SHADOWD_JOURNAL=journal, SHADOWD_LISTEN="127.0.0.1:0",
                           SHADOWD_WORKERS=str(workers), SHADOWD_CONNECTIONS="1", SHADOWD_TOKEN=token)
        if not token:
            del environment["SHADOWD_TOKEN"]
        self.process = subprocess.Popen([program, "serve", bank, plan], env=environment, stdin=subprocess.DEVNULL,
                                        stdout=subprocess.PIPE, stderr=subprocess.PIPE, text=True)
        said = ""
        while not (found := LISTENING.search(said)) and (line := self.process.stderr.readline()):
            said += line
        if not found:
            raise self.stopped(f"it names no address: {said.strip()!r}")
        self.address = found.group(1), int(found.group(2))

    def connection(self) -> http.client.HTTPConnection:
        try:
            made = http.client.HTTPConnection(*self.address, timeout=600)
            made.connect()
            made.sock.setsockopt(socket.IPPROTO_TCP, socket.TCP_NODELAY, 1)
            return made
        except OSError as error:
            raise self.stopped(error)

    def stopped(self, why: object, patience: float = 5.0) -> Stopped:
        """What to tell where no response came: how the server ended, if it did."""
        try:
            said, _ = self.process.communicate(timeout=patience)
        except subprocess.TimeoutExpired:
            return Stopped(f"serve goes on, but {why}")
        return Stopped(f"serve ended with status {self.process.returncode}: {' '.join(said.split())[:200]}; {why}")

    def end(self, patience: float = 20.0) -> str:
        """Waits for the end, and stops a server that does not end; the last line that it printed."""
        try:
            said, _ = self.process.communicate(timeout=patience)
        except subprocess.TimeoutExpired:
            self.process.terminate()
            said, _ = self.process.communicate()
        return said.strip()


class Client:
    """One connection, over which one examinee after the other is served."""

    def __init__(self, connection: http.client.HTTPConnection) -> None:
        self.connection, self.seconds, self.answers = connection, [], 0

    def exchanged(self, method: str, path: str, body: Any) -> Tuple[int, bytes]:
        """The status and the body of a response."""
        begun = time.perf_counter()
        try:
            self.connection.request(method, path, None if body is None else json.dumps(body))
            response = self.connection.getresponse()
            text = response.read()
        except (OSError, http.client.HTTPException) as error:
            raise Lost(f"{method} {path}: {error!r}")
        self.seconds.append(time.perf_counter() - begun)
        return response.status, text

    def asked(self, method: str, path: str, body: Any = None) -> Any:
        """The JSON of a response; refusals are exceptions."""
        status, text = self.exchanged(method, path, body)
        if status not in (200, 201):
            raise Stopped(f"{method} {path}: status {status}: {text.decode()[:80]}")
        return json.loads(text)

    def begun(self, booking: int, sittings: Sittings) -> Any:
        """The place of a booking's session, or None where no form without the items of its list was found."""
        status, text = self.exchanged("POST", "/sessions", sittings.body(booking))
        if status == 422 and sittings.refuse(booking, json.loads(text)["error"]):
            return None
        if status not in (200, 201):
            raise Stopped(f"POST /sessions: status {status}: {text.decode()[:80]}")
        return json.loads(text)

    def examinee(self, k: int, sittings: Sittings) -> None:
        """One whole session, if the booking finds a form."""
        told = self.begun(k, sittings)
        while told is not None and told["state"] == "waiting":
            answer = {"step": told["step"], "response": int(sittings.responses[k][told["item"]]), "booking": k}
            told = self.asked("POST", f"/sessions/{told['session']}/answers", answer)
            self.answers += 1
        if told is not None and told["state"] != "complete":
            raise Stopped(f"examinee {k}, session {told['session']}: {told['state']}")


def by_http(server, sittings, clients, progress):
    """Takes the bookings through their sessions, `clients` at once; the seconds of each request, and the exposure."""
    waiting, faults = queue.SimpleQueue(), []
    for k in sittings.bookings:
        waiting.put(k)
    made = [Client(server.connection()) for _ in range(clients)]

    def work(client):
        try:
            while not faults:
                client.examinee(waiting.get_nowait(), sittings)
        except queue.Empty:
            pass
        except Stopped as stopped:
            faults.append(stopped)
        except (LookupError, TypeError, ValueError) as fault:
            faults.append(Stopped(f"a reply of serve is none of docs/HTTP.md: {fault!r}"))

    threads = [threading.Thread(target=work, args=(client,)) for client in made]
    for thread in threads:
        thread.start()
    while any(thread.is_alive() for thread in threads):
        time.sleep(0.05)
        progress.note(sum(client.answers for client in made))
    try:
        if faults:
            raise server.stopped(faults[0]) if isinstance(faults[0], Lost) else faults[0]
        counts = made[0].asked("GET", "/exposure")
    finally:
        for client in made:
            client.connection.close()
    seconds = [(1, one) for client in made for one in client.seconds]
    return seconds, (counts["finished"], [tuple(row) for row in counts["rows"]])


def by_turns(server: Server, bookings: Sequence[int], responses: Mapping[int, Sequence[int]], group: int, progress: Progress) -> None:
    """Takes bookings through over one connection, `group` at a time, each request in the order of `by_replay`: the draws see what they
    would see there, and the same bookings give the same journal."""
    client = Client(server.connection())
    try:
        for first in range(0, len(bookings), group):
            asked = [(k, client.asked("POST", "/sessions", {"booking": k})) for k in bookings[first:first + group]]
            while asked:
                waiting = [(k, place) for k, place in asked if place["state"] == "waiting"]
                asked = [(k, answered_place(client, responses[k], place)) for k, place in waiting]
                client.answers += len(asked)
                progress.note(client.answers)
    except Lost as lost:
        raise server.stopped(lost)
    finally:
        client.connection.close()


def answered_place(client: Client, responses: Sequence[int], place: Any) -> Any:
    """The place of a session after the answer to the item that it waits for."""
    answer = {"step": place["step"], "response": int(responses[place["item"]])}
    return client.asked("POST", f"/sessions/{place['session']}/answers", answer)
