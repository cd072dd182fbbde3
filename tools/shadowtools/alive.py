"""That a long run lives: a line on standard error every few seconds, with what is under way and for how long.

By default there are such lines where standard error is a terminal. The front door has `--progress`, which asks for them elsewhere too, and
`--quiet`, which leaves them and all other notes on progress out. Nothing is written to standard output.
"""
import contextlib
import enum
import sys
import threading
import time
from typing import Dict, Iterator, List, Optional, Sequence, Tuple

PAUSE = 5.0         # seconds between two lines
MOST_NAMED = 2      # works that a line names, the outermost first


class Wanted(enum.Enum):
    """When there are lines."""
    ON_A_TERMINAL = "on a terminal"
    ALWAYS = "--progress"
    NEVER = "--quiet"


class Pulse:
    """A thread that writes the lines for as long as a work is under way."""

    def __init__(self) -> None:
        self.wanted = Wanted.ON_A_TERMINAL
        self.lock = threading.Lock()
        self.works: Dict[object, Tuple[str, float]] = {}
        self.ended: Optional[threading.Event] = None

    def is_wanted(self) -> bool:
        return self.wanted is Wanted.ALWAYS or self.wanted is Wanted.ON_A_TERMINAL and sys.stderr is not None and sys.stderr.isatty()

    def begin(self, what: str) -> object:
        """Notes a work that begins; the first one begins the lines."""
        mark = object()
        with self.lock:
            self.works[mark] = what, time.monotonic()
            if len(self.works) == 1 and self.is_wanted():
                self.ended = threading.Event()
                threading.Thread(target=self.write, args=(self.ended,), daemon=True).start()
        return mark

    def end(self, mark: object) -> None:
        """Notes that a work is over; the last one ends the lines."""
        with self.lock:
            del self.works[mark]
            if not self.works and self.ended:
                self.ended.set()
                self.ended = None

    def line(self, now: float) -> str:
        with self.lock:
            works = list(self.works.values())[:MOST_NAMED]
        return "; ".join(f"{what}: {now - begun:.0f} s" for what, begun in works)

    def write(self, ended: threading.Event) -> None:
        while not ended.wait(PAUSE):
            line = self.line(time.monotonic())
            if line and not ended.is_set():
                print(line, file=sys.stderr, flush=True)


PULSE = Pulse()


@contextlib.contextmanager
def shown(what: str) -> Iterator[None]:
    """While the block runs, lines show that this work is under way."""
    mark = PULSE.begin(what)
    try:
        yield
    finally:
        PULSE.end(mark)


def tell(line: str) -> None:
    """A note on progress on standard error, which --quiet leaves out."""
    if PULSE.wanted is not Wanted.NEVER:
        print(line, file=sys.stderr, flush=True)


def without_its_words(words: Sequence[str]) -> Tuple[List[str], Wanted]:
    """The words of a command without `--progress` and `--quiet`, and what they ask for; `--quiet` is above the other."""
    asked = [one for one in (Wanted.NEVER, Wanted.ALWAYS) if one.value in words]
    return [word for word in words if word not in (Wanted.NEVER.value, Wanted.ALWAYS.value)], (asked or [Wanted.ON_A_TERMINAL])[0]
