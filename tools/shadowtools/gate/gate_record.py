"""The record of the full check: of which commit and of which program it is, and whether they passed.

usage: gate_record.py begin                              before the first part of the full check
       gate_record.py end PROGRAM SHA256 PASSED FAILED   after the last part; SHA256 is that of PROGRAM before the tests

The record is `.ci/out/gate.json` of this copy. A record without an end is one of a check that has not ended. `release.py` makes a
release of nothing that this record does not name.
"""
import dataclasses
import datetime
import hashlib
import json
import os
import subprocess
import sys
from typing import Any, Dict, List, Sequence

from shadowtools.command import Refused, as_command
from shadowtools.places import TOP

PLACE = os.path.join(".ci", "out", "gate.json")
RUN = "run .ci/run in this copy"


@dataclasses.dataclass(frozen=True)
class GateRecord:
    """What the full check was run on, and its result. `changed` has the files that were not those of the commit; `program` is the
    SHA-256 of the built program; `ended` is empty while the check runs."""
    commit: str
    changed: List[str]
    began: str
    kit: str = ""
    program: str = ""
    passed: int = 0
    failed: int = 0
    ended: str = ""


def now() -> str:
    return datetime.datetime.now(datetime.timezone.utc).strftime("%Y-%m-%dT%H:%M:%SZ")


def output_of(folder: str, *words: str) -> str:
    """What a command prints. A command that is not there, or ends with a fault, is a refusal by its name."""
    try:
        done = subprocess.run(words, cwd=folder, stdin=subprocess.DEVNULL, capture_output=True, text=True)
    except OSError as fault:
        raise Refused(f"{words[0]}: {fault.strerror}", "no-command") from fault
    if done.returncode:
        raise Refused(f"{' '.join(words[:2])}: {done.stderr.strip()}", "command-failed")
    return done.stdout


def commit_of(top: str) -> str:
    return output_of(top, "git", "rev-parse", "HEAD").strip()


def changed_in(top: str) -> List[str]:
    """The files that are not those of the commit: changed, gone or new."""
    return [line[3:] for line in output_of(top, "git", "status", "--porcelain").splitlines()]


def sha256_of(path: str) -> str:
    try:
        with open(path, "rb") as file:
            return hashlib.sha256(file.read()).hexdigest()
    except OSError as fault:
        raise Refused(f"{path}: {fault.strerror}", "no-program") from fault


def write(top: str, record: GateRecord) -> None:
    path = os.path.join(top, PLACE)
    os.makedirs(os.path.dirname(path), exist_ok=True)
    with open(path + ".part", "w", encoding="utf-8") as file:
        json.dump(dataclasses.asdict(record), file, indent=1)
        file.write("\n")
    os.replace(path + ".part", path)


def record_in(fields: Any) -> GateRecord:
    """The record that a JSON value is; TypeError where it is none."""
    kinds: Dict[str, type] = {"commit": str, "began": str, "kit": str, "program": str, "ended": str, "passed": int, "failed": int}
    if not isinstance(fields, dict) or any(type(fields.get(name)) is not kind for name, kind in kinds.items()):
        raise TypeError
    if not isinstance(fields.get("changed"), list) or not all(isinstance(name, str) for name in fields["changed"]):
        raise TypeError
    return GateRecord(**fields)


def read(top: str) -> GateRecord:
    path = os.path.join(top, PLACE)
    try:
        with open(path, encoding="utf-8") as file:
            return record_in(json.load(file))
    except FileNotFoundError as fault:
        raise Refused(f"{path}: there is no record of the full check: {RUN}", "no-record") from fault
    except (OSError, ValueError, TypeError) as fault:
        raise Refused(f"{path}: it is no record of a full check: {RUN}", "bad-record") from fault


def begin(top: str) -> None:
    path = os.path.join(top, PLACE)
    if os.path.exists(path):
        os.remove(path)
    write(top, GateRecord(commit_of(top), changed_in(top), now()))


def end(top: str, program: str, built: str, passed: int, failed: int) -> None:
    """Ends the record. What changed while the check ran counts as changed: the commit, files, the program."""
    record = read(top)
    changed = sorted({*record.changed, *changed_in(top)})
    if commit_of(top) != record.commit:
        changed.append(".git/HEAD")
    if not failed and sha256_of(program) != built:
        changed.append(os.path.relpath(program, top))
    kit = output_of(top, "rt", "version").strip()
    write(top, dataclasses.replace(record, changed=changed, kit=kit, program=built, passed=passed, failed=failed, ended=now()))


def green(top: str, program: str) -> GateRecord:
    """The record of a check that passed for the commit of this copy and for this program. Anything else is refused by its name."""
    record, commit, changed = read(top), commit_of(top), changed_in(top)
    short = record.commit[:12]
    if not record.ended:
        raise Refused(f"the full check of {short} began at {record.began} and has not ended: {RUN}", "not-ended")
    if record.failed or not record.passed:
        raise Refused(f"the full check of {short} has not passed: {record.passed} passed, {record.failed} failed", "not-passed")
    if record.changed:
        raise Refused(f"the full check of {short} was of other files than the commit's, first {record.changed[0]}: {RUN}", "other-files")
    if commit != record.commit:
        raise Refused(f"the full check is of commit {short}, and this copy has {commit[:12]}: {RUN}", "other-commit")
    if changed:
        raise Refused(f"this copy has other files than its commit {short}, first {changed[0]}: commit or remove them", "changed")
    digest = sha256_of(program)
    if digest != record.program:
        raise Refused(f"{program}: its SHA-256 is {digest}, and the full check is of {record.program}: {RUN}", "other-program")
    return record


def main(words: Sequence[str]) -> int:
    if list(words) == ["begin"]:
        begin(TOP)
    elif len(words) == 5 and words[0] == "end" and all(word.isdigit() for word in words[3:]):
        end(TOP, os.path.abspath(words[1]), words[2], int(words[3]), int(words[4]))
    else:
        print(__doc__, file=sys.stderr)
        return 2
    return 0


command = as_command(main)


if __name__ == "__main__":
    sys.exit(command())
