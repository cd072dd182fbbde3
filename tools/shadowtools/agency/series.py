"""Fixed forms of one plan without common items: the lines of `shadowd series`, as the program prints them.

usage: shadow series BANK PLAN K WEIGHTS [--program SHADOWD]      BANK and PLAN are irt_bank.py's, K is 1 to 4

WEIGHTS is the word of `shadowd series`, or the path of the file that irt_bank.py --weights wrote. The program is by default $SHADOWD, else
crates/shadowd/out/shadowd. docs/SERIES.md has what the lines mean. Exit status: that of the program; 1 where it can't be run.
"""
import argparse
import os
import subprocess
import sys
from typing import Sequence

from shadowtools.alive import shown
from shadowtools.command import Refused, as_command
from shadowtools.formats.tables import text_of
from shadowtools.options import Options
from shadowtools.places import BUILT


def options(words: Sequence[str]) -> argparse.Namespace:
    parser = Options(__doc__)
    for name in ("bank", "plan", "count", "weights"):
        parser.add_argument(name, nargs="?")
    parser.add_argument("--program", default=BUILT)
    return parser.read(words, lambda given: bool(given.weights))


def main(words: Sequence[str]) -> int:
    given = options(words)
    weights = text_of(given.weights).strip() if os.path.exists(given.weights) else given.weights
    sys.stdout.flush()
    try:
        with shown("shadowd series"):
            return subprocess.run([given.program, "series", given.bank, given.plan, given.count, weights], stdin=subprocess.DEVNULL).returncode
    except OSError as error:
        raise Refused(f"{given.program}: {error.strerror}")


command = as_command(main)


if __name__ == "__main__":
    sys.exit(command())
