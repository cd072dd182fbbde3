"""Checks the R package in r/ by R's own check: its code, its pages and its tests.

usage: r_check.py [PROGRAM]      the built shadowd for the tests of the package; default crates/shadowd/out/shadowd

`R CMD build` and `R CMD check --no-manual` run in a folder of their own, without a network. Each error, warning and note of the check is
printed, and an error or a warning fails. So does a test that fails. Tests that need a program or an R package that is not there
are skipped by name. Where R is not there, it is named as skipped. The last line is 'N passed, M failed': the parts of the check.
"""
import glob
import os
import re
import shutil
import subprocess
import sys
import tempfile
from typing import Dict, List, Sequence, Tuple

from shadowtools import places
from shadowtools.command import as_command
from shadowtools.needs import is_there
from shadowtools.places import TOOLS, TOP

DEBIAN = "/usr/bin/python3"
PART, VERDICT = re.compile(r"\* checking (.*?) \.\.\."), re.compile(r"(?m)(?:^|\s)(OK|NOTE|WARNING|ERROR|NONE|SKIPPED|INFO)$")
FAILING = ("WARNING", "ERROR")


def environment(folder: str, program: str) -> Dict[str, str]:
    """What R and the tests of the package find: the command, the program, and an empty repository in the place of a network."""
    repository = os.path.join(folder, "none")
    os.makedirs(os.path.join(repository, "src", "contrib"))
    open(os.path.join(repository, "src", "contrib", "PACKAGES"), "w", encoding="ascii").close()
    profile = os.path.join(folder, "profile.R")
    with open(profile, "w", encoding="utf-8") as file:
        file.write(f'options(repos = c(CRAN = "file://{repository}"))\n')
    return dict(os.environ, SHADOW=os.path.join(TOOLS, "shadow.py"), SHADOW_PYTHON=sys.executable if is_there("numpy") else DEBIAN,
                SHADOWD=os.path.abspath(program), R_PROFILE_USER=profile, _R_CHECK_XREFS_REPOSITORIES_="file://" + repository,
                _R_CHECK_FORCE_SUGGESTS_="false", LC_ALL="C.UTF-8")


def findings(said: str) -> List[Tuple[str, str, str]]:
    """By part of the check what it is about, its verdict, and the lines after it."""
    found: List[Tuple[str, str, str]] = []
    for part in re.split(r"(?m)^(?=\* )", said):
        about, verdict = PART.match(part), VERDICT.search(part)
        if about and verdict:
            found.append((about.group(1), verdict.group(1), part[verdict.end():]))
    return found


def skips(folder: str) -> List[str]:
    """The lines of the tests' output that name what was skipped."""
    found = []
    for path in glob.glob(os.path.join(folder, "*.Rcheck", "tests", "*.Rout*")):
        with open(path, encoding="utf-8", errors="replace") as file:
            found += re.findall(r"(?m)^• .*\(\d+\).*$", file.read())
    return found


def run(words: Sequence[str], folder: str, settings: Dict[str, str]) -> Tuple[int, str]:
    done = subprocess.run(words, cwd=folder, env=settings, stdin=subprocess.DEVNULL, stdout=subprocess.PIPE, stderr=subprocess.STDOUT,
                          text=True, errors="replace")
    return done.returncode, done.stdout


def judged(status: int, said: str, folder: str) -> Tuple[int, int]:
    """Prints what is not OK. How many parts of the check passed and failed; a status that no part explains is one that failed."""
    parts = findings(said)
    for about, verdict, below in parts:
        if verdict in FAILING + ("NOTE",):
            print(f"{verdict}: {about}{below}".rstrip())
    for line in skips(folder):
        print(f"skipped: {line[2:]}")
    failed = sum(verdict in FAILING for _, verdict, _ in parts)
    if not failed and (status or "tests" not in [about for about, _, _ in parts]):
        print(f"R CMD check, status {status}, ended without its tests:\n{said[-2000:]}")
        failed = 1
    return len(parts) - failed, failed


def main(words: Sequence[str]) -> int:
    program = words[0] if words else places.BUILT
    if not shutil.which("R"):
        print("skipped: R is not here\n0 passed, 0 failed")
        return 0
    with tempfile.TemporaryDirectory() as folder:
        settings = environment(folder, program)
        status, said = run(["R", "CMD", "build", os.path.join(TOP, "r")], folder, settings)
        packages = glob.glob(os.path.join(folder, "shadowr_*.tar.gz"))
        if status or not packages:
            print(f"R CMD build, status {status}:\n{said}\n0 passed, 1 failed")
            return 1
        passed, failed = judged(*run(["R", "CMD", "check", "--no-manual", packages[0]], folder, settings), folder)
    print(f"{passed} passed, {failed} failed")
    return 1 if failed else 0


command = as_command(main)


if __name__ == "__main__":
    sys.exit(command())
