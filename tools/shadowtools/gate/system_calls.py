"""Counts and orders the system calls that a replay and a migration make on their journal.

usage: system_calls.py PROGRAM

No contract says what a call of the host does: a sync that does nothing would be proved as well. So five runs are made under
strace. The first one makes a journal behind a symbolic link, and adds entries to it. The second one opens that journal with a
record behind its closed gate, as a process leaves it that was killed between the two syncs of an entry. The third one migrates a journal of
version 1 with the same history and such a record. The fourth one migrates the moved journal once more, and the fifth one opens it. Of the
calls on the journal's file it asks that

  - the folder of the file is synced before the first write, and the folder of the link too
  - each record is written, synced, opened by its gate and synced again, and nothing else is done in between
  - no line is printed while something is not synced
  - opening writes the last open gate and the closed one again as they read, syncs, cuts, and syncs
  - a migration opens the journal so; then it writes the mark, the records at once, and the last gate, each at the end, syncs, opens
    the closed gate, and syncs
  - a migration of a moved journal writes the gate before the mark again as it reads, and syncs; it changes nothing
  - opening a moved journal writes that gate again, too
  - the writes together are what the file holds in the end: none was missed

The last line is 'N passed, M failed', of the nine demands. Where strace is not there, or may not trace, it prints
`skipped: system calls: ` and what is missing first.
"""
import argparse
import collections
import os
import re
import shutil
import subprocess
import tempfile

from shadowtools.checkers import audit
from shadowtools.checkers import journal_move
from shadowtools.command import as_command
from shadowtools.places import DATA

BANK, PLAN, SCRIPT = (os.path.join(DATA, name) for name in ("bank.csv", "plan.txt", "script.txt"))
CALLS = "openat,fsync,fdatasync,pwrite64,ftruncate,write"
CALL = re.compile(r"^\d+\s+(\w+)\((.*)\)\s+= (\d+)(?:<.*>)?$")
FILE = re.compile(r"^\d+<(.*?)>")
STANDARD_OUTPUT = 1

# what was done to a file, or to standard output: `kind` is sync, write, cut or print
Event = collections.namedtuple("Event", "kind path at data", defaults=(0, b""))


def missing():
    """What is needed and not there, or None."""
    if not shutil.which("strace"):
        return "no strace"
    done = subprocess.run(["strace", "-o", os.devnull, "true"], capture_output=True)
    return None if done.returncode == 0 else "no right to trace"


def events_of(log):
    """The events of a trace, in their order. Calls that failed count for nothing."""
    events = []
    for line in log.splitlines():
        found = CALL.match(line)
        if not found:
            continue
        name, arguments, result = found.group(1), found.group(2), int(found.group(3))
        at_file = FILE.match(arguments)
        path = at_file and at_file.group(1)
        if name in ("fsync", "fdatasync"):
            events.append(Event("sync", path))
        elif name == "pwrite64":
            text, _, place = re.fullmatch(r'[^"]*"((?:\\x[0-9a-f]{2})*)", (\d+), (\d+)', arguments).groups()
            events.append(Event("write", path, int(place), bytes.fromhex(text.replace("\\x", ""))[:result]))
        elif name == "ftruncate":
            events.append(Event("cut", path, int(arguments.rpartition(", ")[2])))
        elif name == "write" and arguments.startswith(f"{STANDARD_OUTPUT}<"):
            events.append(Event("print", path))
    return events


class Journal:
    """A journal's file under its events: what it holds, whether all of that is synced, and a letter for each call on it:
    S a sync, W bytes at the end, G a gate that is opened, R bytes written again as they were, O any other write, C a cut. In a move
    bytes at the end may follow such bytes without a sync."""

    def __init__(self, path, data, is_moved=False):
        self.path, self.data, self.is_synced, self.is_moved = path, data, True, is_moved
        self.letters, self.renewed, self.folders, self.faults = "", [], [], []

    def letter(self, event):
        if event.kind != "write":
            return {"sync": "S", "cut": "C"}[event.kind]
        there = self.data[event.at:event.at + len(event.data)]
        if there == event.data:
            return "R"
        if event.at == len(self.data) and event.at:
            return "W"
        return "G" if event.data == b"\1" and there == b"\0" else "O"

    def note(self, event):
        if event.kind == "print":
            if not self.is_synced:
                self.faults.append(f"a line is printed after {self.letters} without a sync")
        elif event.path == self.path:
            self.change(event, self.letter(event))
        elif event.kind == "sync" and not self.letters.strip("S"):
            self.folders.append(event.path)

    def change(self, event, letter):
        goes_on = self.is_moved and letter == "W" and self.letters.endswith("W")
        if letter in "WGOC" and not self.is_synced and not goes_on:
            self.faults.append(f"{letter} comes after {self.letters} without a sync")
        if letter == "R":
            self.renewed.append(event.at)
        if event.kind == "write":
            self.data = self.data[:event.at] + event.data + self.data[event.at + len(event.data):]
        elif event.kind == "cut":
            self.data = (self.data + bytes(event.at))[:event.at]
        self.is_synced = letter == "S"
        self.letters += letter


def traced(program, journal, folder, command, *script):
    """The events of a replay of a script, or of a migration."""
    log = os.path.join(folder, "log")
    words = ["strace", "-f", "-y", "-xx", "-s", "200000", "-e", f"trace={CALLS}", "-o", log, program, command, BANK, PLAN, *script]
    done = subprocess.run(words, env=dict(os.environ, SHADOWD_JOURNAL=journal), stdin=subprocess.DEVNULL, capture_output=True, text=True)
    if done.returncode != 0:
        raise RuntimeError(f"{command} ends with status {done.returncode}: {done.stdout[-200:]}{done.stderr[-200:]}")
    with open(log, encoding="ascii") as file:
        return unhexed(file.read())


def unhexed(log):
    """A trace in which paths are text again; strace writes them in hexadecimal, as it does the bytes."""
    return re.sub(r"<((?:\\x[0-9a-f]{2})+)>", lambda found: "<" + bytes.fromhex(found.group(1).replace("\\x", "")).decode() + ">", log)


def after(journal, log):
    """A journal after the events of a trace."""
    for event in events_of(log):
        journal.note(event)
    if not journal.is_synced:
        journal.faults.append(f"the end comes after {journal.letters} without a sync")
    return journal


def entries(path):
    with open(path, "rb") as file:
        return list(audit.frames(file, os.path.getsize(path)))


def tests_of_adding(made, found, folders):
    """Each demand on the replay that makes a journal, and what it finds wrong."""
    first = made.letters.find("W")
    added = made.letters[max(first, 0):]
    return [("the folders are synced before the first write", [] if set(folders) <= set(made.folders) else [f"synced: {made.folders}"]),
            ("two syncs an entry", [] if added == "WSGS" * len(found) and found else [f"{len(found)} entries: {made.letters}"]),
            ("nothing is printed or changed over what is not synced", made.faults)]


def tests_of_opening(opened, gates, name="opening renews the gates, syncs, cuts and syncs"):
    """Each demand on the replay that opens a journal."""
    is_whole = re.fullmatch("S?R+SCS", opened.letters) and opened.renewed == gates
    return [(name, [] if is_whole and not opened.faults else [f"{opened.letters}, renewed {opened.renewed}, not {gates}", *opened.faults])]


def tests_of_moving(moved, gates, records):
    """Each demand on the migration of a journal of so many records, which have few bytes."""
    writes = 3 if records else 2
    is_whole = re.fullmatch("S?R+SCSW{%d}SGS" % writes, moved.letters) and moved.renewed == gates
    return [("a migration opens, writes the records at once at the end, syncs, opens the gate and syncs",
             [] if is_whole and not moved.faults else [f"{moved.letters}, renewed {moved.renewed}, not {gates}", *moved.faults])]


def tests_of_moving_again(again, mark):
    """Each demand on the migration of a journal that was moved, of which the gate before the mark is at `mark`."""
    is_whole = re.fullmatch("S?R+S+", again.letters) and mark in again.renewed
    return [("a migration of a moved journal renews the gate before the mark",
             [] if is_whole and not again.faults else [f"{again.letters}, renewed {again.renewed}, with {mark}", *again.faults])]


LEFT = b"\0\0\0\x08" + b"\4" + bytes(7) + b"\0"  # a record behind the closed gate


def bytes_of(path):
    with open(path, "rb") as file:
        return file.read()


def tests_of_a_move(program, path, old, empty, folder):
    """The demands on the migration of a journal of version 1, on another one, and on opening what it left; and what the file holds."""
    with open(path, "wb") as file:
        file.write(old + LEFT)
    found = entries(path)
    moved = after(Journal(path, old + LEFT, True), traced(program, path, folder, "migrate"))
    mark, left = len(old) - 1, bytes_of(path)
    again = after(Journal(path, left, True), traced(program, path, folder, "migrate"))
    opened = after(Journal(path, left), traced(program, path, folder, "replay", empty))
    last = entries(path)[-1][0]
    wanted = journal_move.moved(audit.read_rules(BANK, PLAN), old)
    return [*tests_of_moving(moved, [found[-1][0], mark], len(found)), *tests_of_moving_again(again, mark),
            *tests_of_opening(opened, [mark, last, len(left) - 1], "opening a moved journal renews the gate before the mark, too"),
            ("the writes of a migration are what the file holds",
             [] if moved.data == wanted == left == again.data == opened.data == bytes_of(path) else ["the bytes differ"])]


def tests_of(program, folder):
    """All demands, each with what is wrong."""
    own, link = os.path.join(folder, "own"), os.path.join(folder, "link")
    os.mkdir(own)
    os.mkdir(link)
    path, empty = os.path.join(own, "journal"), os.path.join(folder, "empty.txt")
    os.symlink(path, os.path.join(link, "journal"))
    made = after(Journal(path, b""), traced(program, os.path.join(link, "journal"), folder, "replay", SCRIPT))
    found, kept = entries(path), bytes_of(path)
    with open(path, "ab") as file:
        file.write(LEFT)
    open(empty, "w").close()
    opened = after(Journal(path, kept + LEFT), traced(program, path, folder, "replay", empty))
    gates, left = [found[-1][0], len(kept) - 1], bytes_of(path)
    return [*tests_of_adding(made, found, [own, link]), *tests_of_opening(opened, gates),
            ("the writes are what the file holds", [] if made.data == kept == opened.data == left else ["the bytes differ"]),
            *tests_of_a_move(program, path, journal_move.as_version_1(audit.read_rules(BANK, PLAN), kept), empty, folder)]


def main(words):
    asked = argparse.ArgumentParser(description=__doc__.splitlines()[0])
    asked.add_argument("program")
    program = os.path.abspath(asked.parse_args(words).program)
    lacking = missing()
    if lacking:
        print(f"skipped: system calls: {lacking}")
        print("0 passed, 0 failed")
        return 0
    with tempfile.TemporaryDirectory() as folder:
        tests = tests_of(program, os.path.realpath(folder))
    failed = [(name, wrong) for name, wrong in tests if wrong]
    for name, wrong in failed:
        print(f"FAIL {name}: {'; '.join(wrong)}")
    print(f"{len(tests) - len(failed)} passed, {len(failed)} failed")
    return 1 if failed else 0


command = as_command(main)
