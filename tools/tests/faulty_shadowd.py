#!/usr/bin/env python3
"""The built program with a fault: SHADOWD is the program, FAULT what is wrong.

`item` prints another item in the last reply, `twice` prints a reply twice, `lost` leaves the last
reply out, `byte` changes a byte of the journal after a replay, `shorter` cuts its last record off,
`fault` names another line of a refused text, `canonical` prints a wrong limit, `touch` changes the
journal that is refused or audited, `status` ends with another status, `mark` closes the gate of a
journal that was moved, `records` prints another number of records that were moved.
"""
import os
import re
import subprocess
import sys

FAULT, JOURNAL = os.environ["FAULT"], os.environ["SHADOWD_JOURNAL"]
PLACE = re.compile(r"(session \d+ step \d+ item )(\d+)(.*\n)\Z")


def reply(said):
    """What is printed, with a wrong reply."""
    if FAULT == "item":
        return PLACE.sub(lambda found: f"{found[1]}{int(found[2]) + 1}{found[3]}", said)
    if FAULT == "fault":
        return re.sub(r"(line |record |column |at )(\d+)",
                      lambda found: f"{found[1]}{int(found[2]) + 1}", said)
    if FAULT == "records":
        return said.replace("migrated ", "migrated 1")
    if FAULT == "canonical":
        return said.replace("\nbudget ", "\nbudget 1")
    lines = said.splitlines(keepends=True)
    if FAULT == "twice":
        return said + "".join(lines[-1:])
    return "".join(lines[:-1]) if FAULT == "lost" else said


def journal(command, status):
    """Leaves a wrong journal."""
    with open(JOURNAL, "rb") as file:
        data = file.read()
    changed = data
    if FAULT == "byte" and command == "replay" and len(data) > 40:
        changed = data[:30] + bytes([data[30] ^ 1]) + data[31:]
    if FAULT == "shorter" and command == "replay" and len(data) > 40:
        changed = data[:8] + b"\0"
    if FAULT == "mark" and command == "migrate":
        changed = data.replace(b"\1\0\0\0\1\x08", b"\0\0\0\0\1\x08")
    if FAULT == "touch" and (status == 6 or command == "audit"):
        changed = data + b"\0"
    with open(JOURNAL, "wb") as file:
        file.write(changed)


def main(words):
    done = subprocess.run([os.environ["SHADOWD"], *words], stdin=subprocess.DEVNULL,
                          stdout=subprocess.PIPE)
    sys.stdout.write(reply(done.stdout.decode("ascii")))
    sys.stdout.flush()
    if words[0] in ("replay", "audit", "migrate") and os.path.exists(JOURNAL):
        journal(words[0], done.returncode)
    return 1 if FAULT == "status" and done.returncode else done.returncode


if __name__ == "__main__":
    sys.exit(main(sys.argv[1:]))
