"""Command lines of the tools: the usage is the docstring's, nothing is abbreviated, and an option that is there twice is refused."""
import argparse
import os
import sys
from typing import Callable, List, Sequence

from shadowtools.command import Refused
from shadowtools.formats.tables import is_number


class Options(argparse.ArgumentParser):
    """A parser of one tool's options. `--help` prints the docstring."""

    def __init__(self, doc: str, repeated: Sequence[str] = ()) -> None:
        super().__init__(usage=doc.partition("usage: ")[2], add_help=False, allow_abbrev=False)
        self.doc, self.repeated = doc, repeated
        self.add_argument("-h", "--help", action="store_true")

    def read(self, words: Sequence[str], is_whole: Callable[[argparse.Namespace], bool]) -> argparse.Namespace:
        """The options; where a needed one is missing, the docstring is printed and the process ends with status 2."""
        names: List[str] = [word.partition("=")[0] for word in words if word.startswith("--")]
        for name in names:
            if names.count(name) > 1 and name not in self.repeated:
                self.error(f"{name} is there twice")
        found = self.parse_args(list(words))
        if found.help or not is_whole(found):
            print(self.doc, file=sys.stdout if found.help else sys.stderr)
            sys.exit(0 if found.help else 2)
        return found


def finite(text: str) -> float:
    if not is_number(text):
        raise argparse.ArgumentTypeError(f"{text!r} is not a finite number")
    return float(text)


def between(low: float, high: float) -> Callable[[str], float]:
    """A number of a range."""
    def read(text: str) -> float:
        value = finite(text)
        if not low <= value <= high:
            raise argparse.ArgumentTypeError(f"{text} is not from {low:g} to {high:g}")
        return value
    return read


def whole(low: int, high: int) -> Callable[[str], int]:
    """A whole number of a range, in decimal digits."""
    def read(text: str) -> int:
        if not (text.isascii() and text.isdigit() and len(text) <= 18 and low <= int(text) <= high):
            raise argparse.ArgumentTypeError(f"{text!r} is not a whole number from {low} to {high}")
        return int(text)
    return read


def require_folder(option: str, path: str) -> None:
    """Refuses a file that could not be written, before any work is done for it."""
    folder = os.path.dirname(path) or "."
    if not os.path.isdir(folder) or not os.access(folder, os.W_OK):
        raise Refused(f"{option} {path}: {folder} is no folder that can be written to")
    if os.path.isdir(path):
        raise Refused(f"{option} {path}: it is a folder")
