"""Runs the built program against what no table lists, drawn from a seed, until a number of cases or
a time is over.

usage: torture.py PROGRAM [--seed N] [--cases N | --seconds N] [--case K] [--kinds A,B]
                  [--keep FOLDER]

Kinds of cases:

  texts      bank, plan or script with bytes changed, moved, doubled or cut: `check`, `assemble`
             and `replay` beside readers in Python
  commands   words that are no command, files that are not there, drills beside their texts
  journals   journals so treated: `audit` and `replay` beside `audit.py`; a file that is refused
             stays byte for byte
  moves      journals of version 1, whole and damaged, that `migrate` moves or that it is stopped in,
             and moved ones with damage, most of it behind the mark: the file, and what `audit`,
             `replay` and `serve` make of it
  stops      scripts of random requests, with runs that are killed, that may write so many bytes,
             or whose output fails, and that go on
  messages   HTTP in pieces, whole, refused and hostile, over connections one after another, also
             with a full disk: each byte of each response
  crowd      many connections at once that end at any time, with kills and restarts of `serve`;
             what was acknowledged is in the journal
  waits      connections that fall silent, or send a byte now and then, beside a client that has
             all its responses; each of them ends

Each case draws from its own seed. No text of a case depends on time. What does: when a process of
`stops` is killed (one way to stop of eight; the others are by size and give the same again), and in
`crowd` the order of requests and the moments of kills. The time of `waits` is mostly waiting.

It stops at the first surprise, keeps the
files of that case (FOLDER, by default `torture-SEED-CASE` in the folder of temporary files), and
prints the command that runs exactly this case again. The last line is 'N passed, M failed'.
"""
import argparse
import collections
import io
import os
import re
import shutil
import sys
import tempfile
import time
import traceback

from shadowtools.checkers import audit
from shadowtools.checkers import drill_texts
from shadowtools.checkers import journal_move
from shadowtools.checkers import reply_model
from shadowtools.gate import torture_draws as draws
from shadowtools.gate import torture_http
from shadowtools.gate import torture_waits
from shadowtools.checkers.reply_model import Surprise
from shadowtools.gate.torture_cases import Case, Exam, Stop, demand
from shadowtools.command import as_command


def script_of(lines):
    return "".join(line + "\n" for line in lines).encode("ascii")


def texts(case):
    """One of the three texts is damaged, or two, or one has the greatest size or one more."""
    draw = case.draw
    bank, plan = draws.any_exam(draw)
    script = script_of(draws.requests(draw, draw.randrange(12), 3))
    given = [bank, plan, script]
    if draw.random() < 0.03:
        given = draws.at_a_limit(draw, *given)
    else:
        for which in draw.choice([[0], [0], [1], [1], [1], [2], [0, 1], [1, 2]]):
            given[which] = draws.damaged(draw, given[which])
    exam = Exam(case, *given[:2])
    exam.check()
    exam.assemble()
    exam.replay(given[2])
    exam.audit()


def journals(case):
    """The journal of a short examination is damaged a few times; one that is accepted goes on."""
    draw = case.draw
    exam = Exam(case, *draws.any_exam(draw, 0.02))
    exam.assemble()
    exam.replay(script_of(draws.requests(draw, draw.randrange(1, 25), exam.problem.plan.length)))
    whole = case.read("journal")
    if whole is None:
        return
    for _ in range(draw.randrange(1, 5)):
        case.write("journal", draws.damaged_journal(draw, whole, gates_of(whole)))
        read_and_go_on(exam)


def gates_of(data):
    """The places of the gates of a journal's records, those before a version mark too."""
    return [at for at, _ in audit.frames(io.BytesIO(data), len(data))]


def read_and_go_on(exam):
    """The journal that is there is audited and opened, and goes on where it is accepted."""
    draw = exam.case.draw
    exam.audit()
    exam.serve_nobody() if draw.random() < 0.3 else exam.replay(b"")
    exam.replay(script_of(draws.requests(draw, draw.randrange(8), 3, begun=draw.randrange(3))))
    exam.audit()


def moves(case):
    """A journal of version 1 with the history of a short examination, or what a move makes of it."""
    draw = case.draw
    exam = Exam(case, *draws.any_exam(draw, 0.02))
    exam.assemble()
    exam.replay(script_of(draws.requests(draw, draw.randrange(1, 25), exam.problem.plan.length, lists=False)))
    if case.read("journal") is None:
        return
    old = journal_move.as_version_1(exam.rules, case.read("journal"))
    draw.choice([a_move, an_old_one, a_moved_one, a_moved_one])(exam, old)
    exam.migrate()
    read_and_go_on(exam)


def a_move(exam, old):
    """A journal that may have bytes behind its closed gate is moved; the program is stopped a few times."""
    draw, case = exam.case.draw, exam.case
    case.write("journal", draws.with_tail(draw, old, journal_move.moved(exam.rules, old)))
    for _ in range(draw.randrange(4)):
        exam.migrate(any_stop(draw, len(case.read("journal"))))
        if draw.random() < 0.3:
            exam.audit()
            exam.replay(b"")


def an_old_one(exam, old):
    """A journal of version 1 is damaged; it is not opened before it is moved."""
    draw = exam.case.draw
    exam.case.write("journal", draws.damaged_journal(draw, old, gates_of(old)) if draw.random() < 0.7 else old)
    read_and_go_on(exam)


def a_moved_one(exam, old):
    """A journal that was moved is damaged, most often behind its mark."""
    draw, data = exam.case.draw, journal_move.moved(exam.rules, old)
    gates = gates_of(data)
    behind = [at for at in gates if at >= len(old)]
    exam.case.write("journal", draws.damaged_journal(draw, data, draw.choice([behind, behind, gates])))
    read_and_go_on(exam)


def any_stop(draw, size):
    """A way to stop a run over a journal of so many bytes."""
    way = draw.randrange(8)
    if way < 3:
        return Stop(size=size + draw.randrange(600), dies=True)
    if way < 6:
        return Stop(size=size + draw.randrange(600))
    return Stop(after=draw.random() ** 2 * 0.06) if way == 6 else Stop(full=True)


def stops(case):
    """A script is stopped a few times and goes on, from its beginning too, until its end."""
    draw = case.draw
    exam = Exam(case, *draws.any_exam(draw, 0.02))
    exam.assemble()
    lines, done = list(draws.requests(draw, draw.randrange(5, 60), exam.problem.plan.length)), 0
    for _ in range(draw.randrange(1, 6)):
        first, stop = draw.choice([0, done, done]), any_stop(draw, len(case.read("journal") or b""))
        done = max(done, first + exam.replay(script_of(lines[first:]), stop))
        if draw.random() < 0.3:
            exam.audit()
    exam.replay(script_of(lines[done:]))
    exam.replay(script_of(lines))
    exam.audit()


USAGE = ("usage: shadowd check BANK PLAN | assemble BANK PLAN | replay BANK PLAN SCRIPT | "
         "serve BANK PLAN [AHEAD] | audit BANK PLAN | drill NUMBER SESSIONS | migrate BANK PLAN | "
         "series BANK PLAN K WEIGHTS | follow BANK PLAN | ship BANK PLAN")
COMMANDS = {"check": 2, "assemble": 2, "replay": 3, "serve": 2, "audit": 2, "migrate": 2}
OF_A_JOURNAL, WITHOUT_BASE = ("replay", "audit", "serve", "migrate"), ("audit", "migrate")
ODD_WORDS = ["", "0", "-1", "01", "200", "201", "1025", "4294967296", "check", "Check", "--help", "\u00e9"]


def names_a_drill(words):
    """Whether these words are `drill`, a number and a number of sessions."""
    found = re.fullmatch("drill (0|[1-9][0-9]{0,9}) ([1-9][0-9]{0,2})", " ".join(words))
    return bool(found) and int(found[1]) < 2**32 and int(found[2]) <= 200


def names_forms_ahead(words):
    """Whether these words are `serve`, two names and a number of prepared forms."""
    return len(words) == 4 and words[0] == "serve" and bool(re.fullmatch("[1-9][0-9]{0,3}", words[3])) and int(words[3]) <= 1024


def commands(case):
    """Words that are no command, files that are not there or are folders, and drills."""
    draw, good = case.draw, ["bank.csv", "plan.txt", "script.txt"]
    command = draw.choice([*COMMANDS, "drill", draw.choice(ODD_WORDS)])
    exam = Exam(case, *draws.small_exam(draw))
    case.write("script.txt", b"")
    os.mkdir(case.path("folder"))
    way = draw.choice([0, 1, 1, 2, 2, 3, 3])
    if way == 0:
        a_drill(case, draw.randrange(2**32))
    elif way == 1 and command in COMMANDS:
        words = good[:COMMANDS[command]]
        at = draw.randrange(len(words))
        words[at] = draw.choice(["missing", "folder", "missing/bank.csv", "bank.csv/bank.csv"])
        done = case.run(command, *words)
        exam.expect(done, 7, ["files failed"])
        demand(words[at] in done.errors, f"standard error does not name the file: {done.errors!r}")
    elif way == 2 and command in OF_A_JOURNAL:
        exam.assemble()
        place = draw.choice(["folder", "missing/journal", "bank.csv/journal"])
        done = case.run(command, *good[:COMMANDS[command]], journal=place)
        halts = exam.halt if command not in WITHOUT_BASE else None
        exam.expect(done, *(halts or (9, ["disk failed"])))
    else:
        words = [command, *draw.choices(good + ODD_WORDS, k=draw.randrange(5))]
        if len(words) - 1 != COMMANDS.get(command) and not names_a_drill(words) and not names_forms_ahead(words):
            exam.expect(case.run(*words), 2, [USAGE])


def a_drill(case, number):
    """A drill prints the numbers of the examination that its texts give in a replay."""
    items = drill_texts.draw_items(draw := drill_texts.draws(number))
    texts = drill_texts.bank_text(items), drill_texts.plan_text(number, 1, items)
    exam = Exam(case, *(text.encode("ascii") for text in texts))
    exam.replay(drill_texts.script_text(1, draw).encode("ascii"))
    line = reply_model.summary(exam.history(case.read("journal")))[0]
    exam.expect(case.run("drill", str(number), "1"), 0, [f"drill {number} sessions 1", line])


KINDS = {"texts": texts, "commands": commands, "journals": journals, "moves": moves, "stops": stops,
         "messages": torture_http.messages, "crowd": torture_http.crowd, "waits": torture_waits.waits}
SHARES = {"texts": 8, "commands": 1, "journals": 4, "moves": 3, "stops": 4, "messages": 4, "crowd": 1, "waits": 0.1}


def run_case(program, seed, number, kinds, folder):
    """The kind of a case, and its surprise or None."""
    draw = draws.of_case(seed, number)
    kind = draw.choices(kinds, [SHARES[name] for name in kinds])[0]
    try:
        KINDS[kind](Case(program, folder, draw))
        return kind, None
    except Surprise as surprise:
        return kind, str(surprise)
    except Exception:  # a reader or a model in Python that fails is a surprise too
        return kind, traceback.format_exc()


def keep(folder, asked, number, kind, said):
    """Copies the files of a case, and prints what was seen and how to run it again."""
    target = asked.keep or os.path.join(tempfile.gettempdir(), f"torture-{asked.seed}-{number}")
    shutil.rmtree(target, ignore_errors=True)
    shutil.copytree(folder, target)
    with open(os.path.join(target, "surprise.txt"), "w", encoding="utf-8") as file:
        file.write(said + "\n")
    print(f"case {number} of seed {asked.seed} ({kind}): {said}")
    print(f"its files are in {target}; again: python3 {sys.argv[0]} {asked.program} "
          f"--seed {asked.seed} --case {number} --kinds {','.join(asked.kinds)}")


def processor():
    """The seconds of processor that this process and the ended runs took."""
    used = os.times()
    return used.user + used.system + used.children_user + used.children_system


def words_of(words):
    parser = argparse.ArgumentParser(description=__doc__.partition("\n\n")[0])
    parser.add_argument("program")
    parser.add_argument("--seed", type=int, default=1)
    parser.add_argument("--cases", type=int)
    parser.add_argument("--seconds", type=float)
    parser.add_argument("--case", type=int)
    parser.add_argument("--kinds", default=",".join(KINDS))
    parser.add_argument("--keep")
    asked = parser.parse_args(words)
    asked.kinds = asked.kinds.split(",")
    if any(kind not in KINDS for kind in asked.kinds):
        parser.error(f"the kinds are {', '.join(KINDS)}")
    asked.program = os.path.abspath(asked.program)
    return asked


def numbers(asked, begun):
    """The numbers of the cases, in order."""
    if asked.case is not None:
        yield asked.case
        return
    number = 0
    most = 200 if asked.cases is None and asked.seconds is None else asked.cases
    while (most is None or number < most) and (asked.seconds is None
                                               or time.monotonic() - begun < asked.seconds):
        yield number
        number += 1


def progress(passed, took):
    """The number of cases of each kind, and what they took."""
    return ", ".join(f"{kind} {count} in {took[kind]:.1f} s of processor"
                     for kind, count in sorted(passed.items()))


def main(words):
    asked, begun, passed = words_of(words), time.monotonic(), collections.Counter()
    took = collections.Counter()
    for number in numbers(asked, begun):
        with tempfile.TemporaryDirectory() as folder:
            since = processor()
            kind, said = run_case(asked.program, asked.seed, number, asked.kinds, folder)
            took[kind] += processor() - since
            if said is not None:
                keep(folder, asked, number, kind, said)
                print(f"{sum(passed.values())} passed, 1 failed")
                return 1
        passed[kind] += 1
        if sum(passed.values()) % 500 == 0:
            print(progress(passed, took), flush=True)
    print(progress(passed, took))
    print(f"{sum(passed.values())} passed, 0 failed")
    return 0 if passed else 1


command = as_command(main)


if __name__ == "__main__":
    sys.exit(command())
