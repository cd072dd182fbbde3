"""What all tools share: a refusal, and how a command begins and ends."""
import functools
import os
import sys
from typing import Callable, Optional, Protocol, Sequence


INTERRUPTED = 130


class Refused(Exception):
    """What is given can't be taken. `line` is what is printed, with file, line, column and value as far as there are such;
    `kind` is one word for counts of such refusals, where a tool counts them."""

    def __init__(self, line: str, kind: str = "") -> None:
        super().__init__(line)
        self.line, self.kind = line, kind


def print_utf8(text: str) -> None:
    """Prints a text as UTF-8, whatever the console's encoding: its digest is that of the bytes that are read later."""
    out = getattr(sys.stdout, "buffer", None)
    if out is None:
        sys.stdout.write(text)
        return
    sys.stdout.flush()
    out.write(text.encode("utf-8", "surrogatepass"))


def wants_help(words: Sequence[str]) -> bool:
    return list(words) in (["--help"], ["-h"])


class Command(Protocol):
    """A function of the words of the command line, by default the process's."""

    def __call__(self, words: Optional[Sequence[str]] = None) -> int:
        ...


def as_command(main: Callable[[Sequence[str]], int]) -> Command:
    """A function of the words of the command line, by default the process's; it gives the exit status.

    A refusal is printed on standard error, with status 1. A reader of the output that goes away (`| head`) ends it with 1 too. Ctrl-C ends
    it with 130, after the programs that it started. `--help` alone prints the docstring of the function's module, unless the module has
    options of argparse, which print their own."""
    @functools.wraps(main)
    def command(words: Optional[Sequence[str]] = None) -> int:
        given = sys.argv[1:] if words is None else words
        try:
            if wants_help(given) and "argparse" not in main.__globals__:
                print(main.__globals__["__doc__"].strip())
                return 0
            status = main(given)
            sys.stdout.flush()
            return status
        except Refused as refused:
            print(refused, file=sys.stderr)
            return 1
        except BrokenPipeError:
            os.dup2(os.open(os.devnull, os.O_WRONLY), sys.stdout.fileno())
            return 1
        except KeyboardInterrupt:
            print("interrupted", file=sys.stderr)
            return INTERRUPTED
    return command
