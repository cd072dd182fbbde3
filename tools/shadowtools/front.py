"""The one front door of the tools of agencies.

usage: shadow COMMAND [words]          shadow COMMAND --help has the words of a command

  bank          a bank and a plan from item parameters and a blueprint
  simulate      takes simulated examinees through an examination
  report        a simulation or a series of forms as a page to sign
  score         a score for each examinee of a journal
  explain       why a plan has no form, or how far a form can be from the best
  rate          the exposure rate by which no item is shown in too many tests
  series        fixed forms of one plan, as `shadowd series` prints them
  custody       makes a folder with all files of a window, and checks one
  audit         audits a journal, apart from the program; seals a journal
  tree          checks one proof tree
  series-check  checks what `shadowd series` printed

A command that takes long shows every five seconds on standard error that it lives, where that is a terminal. With the word --progress
it does so elsewhere too, and with --quiet nowhere; each command takes both.

Exit status: that of the command; 2 for a command that is none of these; 130 after Ctrl-C.
"""
import ast
import importlib
import importlib.util
import re
import sys
from typing import Sequence

from shadowtools import alive
from shadowtools.command import as_command

# The module of each command, and the name of its script in tools/.
COMMANDS = {
    "bank": "agency.irt_bank", "simulate": "agency.simulate", "report": "agency.report", "score": "agency.score",
    "explain": "agency.explain", "custody": "agency.custody_folder", "rate": "agency.rate",
    "series": "agency.series", "audit": "checkers.audit", "tree": "checkers.check_tree",
    "series-check": "checkers.check_series"}
# Commands that note how many answers are given, which shows that they live.
COUNT_ANSWERS = ("simulate", "rate")
# Options by which a command has another page of help.
PAGES = {("report", "--journal"): "agency.window_report", ("report", "--prices"): "agency.price"}
SCRIPTS = {module.rpartition(".")[2]: name for name, module in COMMANDS.items()}


def help_of(command: str, words: Sequence[str] = ()) -> str:
    """What `--help` of a command prints: the docstring of its module, with the words of the front door in the place of the names of
    scripts. The module is read and not imported, so no library is needed."""
    module = next((PAGES[command, word] for word in words if (command, word) in PAGES), COMMANDS[command])
    found = importlib.util.find_spec("shadowtools." + module)
    with open(found.origin, encoding="utf-8") as file:
        text = ast.get_docstring(ast.parse(file.read()))
    scripts = "|".join(map(re.escape, SCRIPTS))
    return re.sub(rf"(?:tools/)?\b({scripts})\.py\b", lambda name: "shadow " + SCRIPTS[name.group(1)], text)


def main(words: Sequence[str]) -> int:
    if words and words[0] in ("-h", "--help"):
        print(__doc__)
        return 0
    words, wanted = alive.without_its_words(words)
    if not words or words[0] not in COMMANDS:
        print(__doc__ if not words else f"shadow: no command {words[0]!r}; it has {', '.join(COMMANDS)}", file=sys.stderr)
        return 2
    command, *rest = words
    if "-h" in rest or "--help" in rest:
        print(help_of(command, rest))
        return 0
    alive.PULSE.wanted = wanted
    called = importlib.import_module("shadowtools." + COMMANDS[command]).command
    if command in COUNT_ANSWERS:
        return called(rest)
    with alive.shown(f"shadow {command}"):
        return called(rest)


command = as_command(main)


if __name__ == "__main__":
    sys.exit(command())
