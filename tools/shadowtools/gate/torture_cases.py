"""The parts of a case of torture.py: a folder with its files, runs of the program in it, and what a
run has to give.

What is wanted is decided by readers and models in Python that share nothing with the product:
`mutate_bank`, `text_readers`, `audit`, `check_tree`, `journal_move` and `reply_model`.
"""
import io
import math
import os
import resource
import signal
import subprocess
import time
from collections import namedtuple

from shadowtools.checkers import audit
from shadowtools.checkers import check_tree
from shadowtools.checkers import journal_move
from shadowtools.checkers import mutate_bank
from shadowtools.checkers import reply_model
from shadowtools.checkers import text_readers
from shadowtools.checkers.reply_model import Missing, Surprise
from shadowtools.command import Refused

LIMIT = 900  # seconds that a run may take, also where it has little of the processor
ENUMERATED = 20000  # so many sets of items are compared at the most
VERSION = "journal: version"  # a journal of version 1 that was not moved, where entries are to be added

Run = namedtuple("Run", "status out errors")
# How a run is stopped: `size` is the most bytes that a file may get, `dies` whether a write beyond
# it ends the process by a signal or fails, `after` the seconds until it is killed, `full` whether
# standard output takes no byte.
Stop = namedtuple("Stop", "size dies after full", defaults=(None, False, None, False))
Stop.stops = property(lambda stop: stop.dies or stop.after is not None)
NO_STOP = Stop()


def demand(holds, text):
    if not holds:
        raise Surprise(text)


def lines_text(lines):
    return "".join(line + "\n" for line in lines).encode("ascii")


def shown(data):
    return repr(data if len(data) < 400 else data[:300] + b" .. " + data[-80:])


class Case:
    """The folder of a case, and what was run in it."""

    def __init__(self, program, folder, draw):
        self.program, self.folder, self.draw, self.runs = program, folder, draw, 0

    def path(self, name):
        return os.path.join(self.folder, name)

    def write(self, name, data):
        with open(self.path(name), "wb") as file:
            file.write(data)
        return name

    def read(self, name):
        """The bytes of a file, or None."""
        if not os.path.exists(self.path(name)):
            return None
        with open(self.path(name), "rb") as file:
            return file.read()

    def remark(self, text):
        with open(self.path("runs.txt"), "a", encoding="utf-8") as file:
            file.write(text + "\n")

    def run(self, *words, stop=NO_STOP, journal="journal"):
        """A run of the program in the folder; the journal before it is kept under its number."""
        self.runs += 1
        kept = None if os.path.isdir(self.path(journal)) else self.read(journal)
        if kept is not None:
            self.write(f"{self.runs}.before", kept)
        environment = dict(os.environ, SHADOWD_JOURNAL=journal, SHADOWD_CONNECTIONS="0",
                           SHADOWD_LISTEN="127.0.0.1:0")
        done = self.watched([self.program, *words], environment, stop)
        self.write(f"{self.runs}.out", done.out)
        how = "" if stop == NO_STOP else f" {stop}"
        self.remark(f"run {self.runs}: {' '.join(words)}{how}: status {done.status}")
        return done

    def watched(self, words, environment, stop):
        def limited():
            resource.setrlimit(resource.RLIMIT_CORE, (0, 0))
            resource.setrlimit(resource.RLIMIT_FSIZE, (stop.size, stop.size))
            signal.signal(signal.SIGXFSZ, signal.SIG_DFL if stop.dies else signal.SIG_IGN)

        with open("/dev/full", "wb") as full:
            process = subprocess.Popen(words, cwd=self.folder, env=environment,
                                       stdin=subprocess.DEVNULL, stderr=subprocess.PIPE,
                                       stdout=full if stop.full else subprocess.PIPE,
                                       preexec_fn=limited if stop.size is not None else None)
        if stop.after is not None:
            time.sleep(stop.after)
            process.kill()
        try:
            out, errors = process.communicate(timeout=LIMIT)
        except subprocess.TimeoutExpired as late:
            process.kill()
            process.communicate()
            raise Surprise(f"{' '.join(words[1:])}: no end in {LIMIT} s") from late
        return Run(process.returncode, out or b"", errors.decode("utf-8", "replace"))


# ---------------------------------------------------------------- an examination

class Exam:
    """Bank and plan of a case. `refused` is the status and the line of the first fault, or None."""

    def __init__(self, case, bank, plan):
        self.case, self.words = case, (case.write("bank.csv", bank), case.write("plan.txt", plan))
        self.refused = self.rules = self.halt = None
        try:
            self.grid, self.items = mutate_bank.read(bank)
        except Refused as fault:
            self.refused = 3, fault.line
            return
        try:
            self.plan = text_readers.read_plan(plan, self.grid, self.items)
        except Refused as fault:
            self.refused = 4, fault.line
            return
        self.problem = text_readers.problem_of(self.plan, self.grid, self.items)
        self.rules = self.rules_read()

    def rules_read(self):
        """Bank and plan as `audit.py` has them."""
        lines = self.plan.lines
        likelihood = [[logs[r * self.grid:(r + 1) * self.grid] for r in range(count)]
                      for _, count, _, _, logs in self.items]
        return audit.Rules(self.problem.bank, self.problem.plan, [item[1] for item in self.items],
                           likelihood, tuple(lines[b"rate"]), bytes.fromhex(lines[b"key"]),
                           lines[b"budget"][0], lines[b"sessions"][0], lines[b"journal"][0],
                           tuple(lines[b"bands"]))

    def expect(self, done, status, lines):
        """Demands that a run gave this status and these lines."""
        wanted = lines_text(lines)
        demand((done.status, done.out) == (status, wanted),
               f"wanted status {status} and {shown(wanted)}; "
               f"the program gave {done.status} and {shown(done.out)}")

    def check(self):
        """The command `check`: the first fault, or what was understood."""
        done = self.case.run("check", *self.words)
        if self.refused:
            self.expect(done, self.refused[0], [self.refused[1]])
            return
        bank = self.problem.bank
        line = (f"bank items {len(bank.items)} grid {bank.grid} "
                f"quantities {len(bank.items[0].quantities)} stimuli {bank.stimuli}")
        self.expect(done, 0, [line, *text_readers.canonical(self.plan, bank.stimuli).splitlines()])

    def assemble(self):
        """The command `assemble`, and with it the halt of a replay that has no base form."""
        done = self.case.run("assemble", *self.words)
        if self.refused:
            self.expect(done, self.refused[0], [self.refused[1]])
            return
        words = [line.split(" ") for line in done.out.decode("ascii").splitlines()]
        try:
            self.judge_assembly(done.status, words)
        except (IndexError, ValueError, check_tree.Fault) as fault:
            said = f"assemble: status {done.status} and {shown(done.out)}: {fault!r}"
            raise Surprise(said) from fault
        if done.status != 0:
            self.halt = done.status, done.out.decode("ascii").splitlines()

    def judge_assembly(self, status, words):
        """The lines of an assembly: its form, and what the tree shows of it."""
        demand(status in (0, 11, 12), f"assemble: status {status}")
        hexadecimal, budget = words[-1][-1], self.plan.lines[b"base-budget"][0]
        tree = check_tree.read_tree(bytes.fromhex(hexadecimal))
        spends, form = check_tree.spent(self.problem, tree[0], tree[1], budget), None
        if status == 0:
            form, mark = frozenset(map(int, words[0][1:])), words[1][2]
            value, nodes = check_tree.objective(self.problem, form), len(tree[1])
            wanted = {"proved": "Optimal", "unproved": "Partial"}.get(mark)
            lines = [f"form {' '.join(map(str, sorted(form)))}",
                     f"objective {value} {mark} nodes {nodes}", f"tree {hexadecimal}"]
        elif status == 11:
            wanted, lines = "NoForm", [f"no form {hexadecimal}"]
        else:
            wanted, lines = "Partial", [f"no base form in {budget} nodes {hexadecimal}"]
            demand(b"base" not in self.plan.lines, "no form was found, and the plan has a base")
        demand([" ".join(line) for line in words] == lines, f"assemble: {words}")
        said = check_tree.verdict(self.problem, form, *tree[:2])
        demand(said.split(" ")[0] == wanted and (wanted != "Partial" or spends),
               f"assemble: the checker gives {said}, spent {spends}, wanted {wanted}")
        if math.comb(len(self.items), self.problem.plan.length) <= ENUMERATED:
            demand(not check_tree.contradicts(self.problem, form, said),
                   f"assemble: all sets of items contradict {said}")

    # ------------------------------------------------------------ journals

    def history(self, data):
        """The history of a journal's bytes as `audit` has it, or the line of its refusal."""
        try:
            return audit.audit(self.rules, io.BytesIO(data or b""))
        except Refused as refused:
            return str(refused)

    def opened(self, data):
        """The history as `replay` and `serve` have it, or the line of their refusal."""
        try:
            if len(data or b"") <= self.rules.journal and journal_move.is_unmoved(data or b""):
                return VERSION
        except Refused as refused:
            return str(refused)
        return self.history(data)

    def refuse(self, done, status, lines):
        """Demands that a run gave this status and these lines, and names the command that moves an old journal."""
        self.expect(done, status, lines)
        if lines == [VERSION]:
            demand("migrate" in done.errors, f"standard error does not name migrate: {done.errors!r}")

    def migrate(self, stop=NO_STOP):
        """The command `migrate` beside `journal_move`. Where it is stopped, the file represents what it represented before."""
        before = self.case.read("journal")
        done = self.case.run("migrate", *self.words, stop=stop)
        after = self.case.read("journal")
        if self.refused:
            self.expect(done, self.refused[0], [self.refused[1]])
            demand(after == before, "migrate changed the journal of a plan that is refused")
            return
        wanted = journal_move.move_of(self.rules, before)
        if stop == NO_STOP or (done.status, done.out) == (wanted.status, lines_text(wanted.lines)):
            self.expect(done, wanted.status, wanted.lines)
            demand(after == wanted.data, f"the file after {wanted.lines[0]!r} is another one")
        else:
            self.judge_stopped(before, after, done, stop)

    def judge_stopped(self, before, after, done, stop):
        """Demands that a migration which was stopped lost nothing, and ended as it was stopped."""
        allowed = [-signal.SIGXFSZ if stop.dies else -signal.SIGKILL] if stop.stops else [8] if stop.full else [9]
        demand(done.status in allowed, f"status {done.status} of a migration that was stopped by {stop}")
        demand(done.out in (b"", b"disk failed\n") if done.status == 9 else done.out == b"", f"printed {shown(done.out)}")
        front = journal_move.kept(before)[:-1] if len(before) > 9 else b""
        demand(after.startswith(front), "a byte before the closed gate has changed")
        found = [self.history(data) for data in (before, after)]
        said = [one if isinstance(one, str) else reply_model.summary(one) for one in found]
        demand(said[0] == said[1], f"the history was {said[0]}, and is {said[1]}")

    def audit(self):
        """The command `audit` beside `audit.py`; it changes nothing, and makes no file."""
        before = self.case.read("journal")
        done = self.case.run("audit", *self.words)
        demand(self.case.read("journal") == before, "audit changed the journal")
        if self.refused:
            self.expect(done, self.refused[0], [self.refused[1]])
            return
        if before is None:
            self.expect(done, 9, ["disk failed"])
            return
        found = self.history(before)
        self.expect(done, *((6, [found]) if isinstance(found, str)
                            else (0, reply_model.summary(found))))

    def serve_nobody(self):
        """The command `serve` without connections: it opens the journal, and prints its numbers."""
        before = self.case.read("journal")
        done = self.case.run("serve", *self.words)
        early = self.early(b"", before)
        if early:
            self.refuse(done, *early)
            demand(self.case.read("journal") == before, "serve changed a journal that it refused")
        else:
            self.expect(done, 0, reply_model.summary(self.history(before))[:1])
            after = self.history(self.case.read("journal"))
            demand(reply_model.summary(after) == reply_model.summary(self.history(before)),
                   "serve changed the history when it opened the journal")

    def replay(self, script, stop=NO_STOP):
        """The command `replay` over the journal that is there; how many requests have a reply."""
        before = self.case.read("journal")
        done = self.case.run("replay", *self.words, self.case.write("script.txt", script),
                             stop=stop)
        after = self.case.read("journal")
        early = self.early(script, before)
        if early:
            demand(after == before, "a run that halts before its requests changed the journal")
            killed = stop.after is not None and done.status == -signal.SIGKILL
            if not killed and not (stop.full and done.status == 8):
                self.refuse(done, *early)
            return 0
        return Judged(self, text_readers.read_script(script), before, after, done, stop).judge()

    def early(self, script, before):
        """Status and lines of a replay that halts before its requests, or None."""
        if self.refused:
            return self.refused[0], [self.refused[1]]
        try:
            text_readers.read_script(script)
        except Refused as fault:
            return 5, [fault.line]
        if self.halt and b"base" not in self.plan.lines:
            return self.halt
        found = self.opened(before)
        return (6, [found]) if isinstance(found, str) else None


# ---------------------------------------------------------------- a replay

class Judged:
    """A replay that took up its requests: its lines, its status and the journal that it left."""

    def __init__(self, exam, requests, before, after, done, stop):
        self.exam, self.requests, self.done, self.stop = exam, requests, done, stop
        first, _ = reply_model.records_of(before or b"")
        try:
            records, self.kept = reply_model.records_of(after or b"")
        except Refused as refused:
            raise Surprise(f"the journal after the run: {refused}") from refused
        demand(records[:len(first)] == first, "a record that was there is gone or changed")
        self.model = reply_model.Model(exam.rules, records)
        self.before, self.after = before or b"", after
        self.model.take_first(len(first))

    def judge(self):
        """How many requests have their reply in what was printed."""
        left, count, end = self.done.out.decode("ascii"), 0, None
        for request in self.requests:
            try:
                reply = self.model.reply(request)
            except Missing as missing:
                end = missing
                break
            text = "".join(line + "\n" for line in reply_model.lines_of(reply, self.exam.rules))
            full = isinstance(reply, reply_model.Refusal) and reply.word == "sessions-full"
            if full or not left.startswith(text):
                end = reply, text
                break
            left, count = left[len(text):], count + 1
        more = len(self.model.records) - self.model.taken
        demand(more == 0, f"after {count} replies and the entries of the next request the journal "
                          f"has {more} entries more")
        self.judge_end(left, end, count)
        return count

    def judge_end(self, left, end, count):
        """The status, and what is printed after the replies."""
        status, stop = self.done.status, self.stop
        if end is None and status == 0 and not (stop.full and self.requests):
            demand(left == "", f"after the last reply: {left!r}")
            # where no record is left, a closed gate that is not 00 stays
            cut = self.before[:9] if len(self.before) > 9 else None
            demand(self.after in (self.kept, cut), "the journal has bytes after its end")
        elif status == 13:
            self.judge_limit(left, end)
        elif status == 9 and stop.size is not None and not stop.dies:
            demand(left == "disk failed\n", f"after {count} replies: {left!r}")
            demand("journal" in self.done.errors,
                   f"standard error does not name the journal: {self.done.errors!r}")
        elif status == 8 and stop.full:
            demand(self.done.errors != "", "standard error has no line on the output")
        elif status == (-signal.SIGXFSZ if stop.dies else -signal.SIGKILL) and stop.stops:
            demand(isinstance(end, tuple) and end[1].startswith(left) or left == "",
                   f"after {count} replies: {left!r}")
        else:
            wanted = end[1] if isinstance(end, tuple) else end
            raise Surprise(f"status {status} after {count} of {len(self.requests)} replies; "
                           f"then wanted {wanted!r}, printed {left[:200]!r}")

    def judge_limit(self, left, end):
        """A limit of the plan that the next request would pass."""
        limit = self.exam.rules.journal
        if isinstance(end, Missing):
            words = left.split()
            demand(len(words) == 5 and words[:2] == ["limit", "journal"]
                   and words[3:] == ["of", str(limit)], f"status 13: {left!r}")
            least = len(self.kept) + 5 + end.least
            demand(int(words[2]) > limit
                   and (int(words[2]) == least if end.exact else int(words[2]) >= least),
                   f"{left!r}, where the journal has {len(self.kept)} bytes, and the next entry "
                   f"has {end.least} at the least")
        else:
            demand(isinstance(end, tuple) and isinstance(end[0], reply_model.Refusal)
                   and end[1] == left, f"status 13: {left!r}")
