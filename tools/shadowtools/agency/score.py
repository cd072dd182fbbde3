"""The results of an examination: a score for each examinee with its standard error, and the answers by item.

usage: score.py BANK PLAN MAP --journal JOURNAL [options]
       score.py BANK PLAN MAP --lines LINES --script SCRIPT [options]

MAP is the map that irt_bank.py wrote beside the bank; a bank or plan that is not the map's is refused, and a map that is not the plan's.
The journal is audited first: one that does not follow from this bank and plan is refused, and so is one without a session. LINES is what
`shadowd replay` printed for SCRIPT, from an empty journal on; it can't be audited. The result is CSV in UTF-8 on standard output, one line
for each session:

  session, booking, state   state is complete, closed or open
  answered                  number of answers
  mode                      the greatest point of the posterior on the grid, which is shadowd's own estimate
  eap, posterior_sd         mean and standard deviation of the posterior over the grid (Bock and Mislevy 1982)
  theta, se                 the estimate that is reported, and its standard error
  scale, scale_se           A + B * theta within the obtainable scores, rounded to the decimals of --decimals, and B * se
  remark                    lowest or highest, where the score is at that end; too few answers, where there is no score
  level, level_error        with --cuts: the level of the score as it is printed, and the probability that the true level is another
  audit                     audited or unaudited
  bank, plan                the SHA-256 of the bank and of the plan that were used, in hexadecimal
  map                       bound: the plan names the map by its SHA-256; else unbound
  journal                   unbound: a journal doesn't name its bank and plan. That it is audited says that its records follow from
                            these, and a short journal may follow from another plan too. Empty with --lines

  --estimate E      eap (default), mode, wle or mle. With eap and mode the standard error is the posterior's standard deviation.
                    wle (Warm 1989) and mle are from the exact parameters, with 1 / sqrt(information); they need python3-numpy
  --scale A B       the reported scale; default 0 1
  --obtainable L H  the lowest and the highest score on the reported scale; default those of the ends of the grid
  --cuts C C ..     cut scores on the reported scale, ascending, within the obtainable scores; a score at a cut is in the level above it
  --levels N N ..   the names of the levels, the lowest first; default 0 1 ..
  --decimals N      the decimals of `scale`, 0 to 9; default 4. A half is rounded away from 0. The level is that of the rounded score
  --least N         a session with fewer answers has no score; default 1. Answers to items in field test don't count
  --open            scores open sessions too; without it a journal that has one is refused
  --unaudited       does not audit the journal, and the column audit is `unaudited`
  --unbound         takes a plan that does not name its map, as irt_bank.py wrote it up to version 0.12.0, and the column map is `unbound`
  --answers FILE    also writes the answers, one line each: session, booking, step, item, response
  --shown FILE      also writes the items that each session was shown, answered or not: session, booking, and their numbers in the bank
                    as a set such as `0 2-4`. That is the list with which another sitting of the person is begun
  --sheets FOLDER   also writes a score sheet of each session, booking-B.html and booking-B.pdf, without items and with the name left blank;
                    the folder is made, or is empty. Needs python3-matplotlib
  --record FILE     also writes what the scores were made of, as JSON: digests, options, the line of the audit, numbers of sessions
  --program SHADOWD the program that audits; default $SHADOWD, else crates/shadowd/out/shadowd; without one tools/audit.py audits

The error of a level is the share of the posterior outside of it (eap, mode) or that of the normal distribution about the estimate
(wle, mle; Rudner 2001). The mode is rounded to a point of the grid; the mean is not. Exit status: 0, or 1 where a file is refused.
"""
import argparse
import hashlib
import sys
from collections import Counter
from typing import Dict, Iterator, List, Optional, Sequence, Tuple

from shadowtools.agency.custody import Documents, audited, read_documents, sha256_of
from shadowtools.agency.scoring import Scorer, add_reporting, mode, moments, reporting_of
from shadowtools.agency.sheets import require_empty, write_sheets
from shadowtools.command import Refused, as_command, print_utf8
from shadowtools.formats.examination import Session, read_journal, sessions_of
from shadowtools.formats.tables import runs, text_of
from shadowtools.formats.written import json_text, table_text, write
from shadowtools.options import Options, require_folder, whole
from shadowtools.places import BUILT

COLUMNS = ("session", "booking", "state", "answered", "mode", "eap", "posterior_sd", "theta", "se", "scale", "scale_se",
           "remark", "level", "level_error", "audit", "bank", "plan", "map", "journal")


def options(words: Sequence[str]) -> argparse.Namespace:
    parser = Options(__doc__)
    for name in ("bank", "plan", "map"):
        parser.add_argument(name, nargs="?")
    for name in ("journal", "lines", "script", "answers", "shown", "record", "sheets"):
        parser.add_argument("--" + name)
    parser.add_argument("--program", default=BUILT)
    add_reporting(parser)
    parser.add_argument("--least", type=whole(1, 512), default=1)
    for name in ("open", "unaudited", "unbound"):
        parser.add_argument("--" + name, action="store_true")
    found = parser.read(words, lambda given: bool(given.map) and bool(given.journal) != bool(given.lines and given.script))
    if found.journal and (found.lines or found.script):
        raise Refused("--lines and --script are not used beside --journal")
    if found.shown and not found.journal:
        raise Refused("--shown needs a journal")
    found.reporting = reporting_of(found)
    for option, path in (("--answers", found.answers), ("--shown", found.shown), ("--record", found.record)):
        if path:
            require_folder(option, path)
    if found.sheets:
        require_empty(found.sheets)
    return found


# ---------------------------------------------------------------- sessions from a script and its lines

def sessions_of_lines(lines_path: str, script_path: str) -> List[Session]:
    """The sessions of a script and the lines that a replay printed for it."""
    replies = iter(text_of(lines_path).splitlines())
    found: Dict[int, Session] = {}
    served: Dict[Tuple[int, int], int] = {}
    for number, request in enumerate(text_of(script_path).splitlines(), 1):
        reply = next(replies, None)
        if reply is None:
            break
        words, told, where = request.split(), reply.split(), f"{script_path}: line {number}"
        if words[:1] == ["exposure"] and told[:1] == ["exposure"]:
            replies = after_items(replies)
        elif told[:1] == ["refused"]:
            continue
        elif told[:1] == ["session"] and words:
            try:
                note(found, served, words, told, where)
            except (ValueError, IndexError):
                raise Refused(f"{where}: {request[:40]!r} with the reply {reply[:40]!r} is not of shadowd")
        else:
            raise Refused(f"{lines_path}: {reply[:40]!r} is no reply to line {number} of {script_path}, {request[:40]!r}")
    return [found[key] for key in sorted(found)]


def after_items(replies: Iterator[str]) -> Iterator[str]:
    """The lines after those of an exposure reply."""
    kept = list(replies)
    at = 0
    while at < len(kept) and kept[at].startswith("item "):
        at += 1
    return iter(kept[at:])


def note(found: Dict[int, Session], served: Dict[Tuple[int, int], int], words: List[str], told: List[str], where: str) -> None:
    """Notes one request and its reply."""
    key = int(told[1])
    session = found.setdefault(key, Session())
    if words[0] == "begin":
        session.booking = int(words[1])
    if told[2] == "step":
        served[key, int(told[3])] = int(told[5])
    if words[0] == "answer":
        step = int(words[2])
        if (key, step) not in served:
            raise Refused(f"{where}: no line has the item of step {step} of session {key}; use --journal")
        if step == len(session.responses):
            session.items.append(served[key, step])
            session.responses.append(int(words[3]))
    if told[2] == "closed":
        session.closed = True


# ---------------------------------------------------------------- scores

def row_of(scorer: Scorer, number: int, session: Session, state: str, least: int) -> List[str]:
    """The cells of a session, without those that are the same for all."""
    cells = [str(number), str(session.booking), state, str(len(session.responses))]
    if scorer.counting(session) < least:
        return cells + [""] * 7 + ["too few answers", "", ""]
    sums = scorer.sums(session)
    mean, deviation = moments(sums, scorer.theta, scorer.unit)
    return cells + [f"{scorer.theta[mode(sums)]:.4f}", f"{mean:.4f}", f"{deviation:.4f}"] + scorer.scale.cells(scorer.score(session))


def rows_of(scorer: Scorer, documents: Documents, sessions: Sequence[Session], least: int, is_audited: bool, has_journal: bool) -> List[List[str]]:
    """The row of each session. A journal names neither bank nor plan, so its column is `unbound`."""
    of_all = ["audited" if is_audited else "unaudited", documents.sha256["bank"], documents.sha256["plan"],
              "bound" if documents.is_bound else "unbound", "unbound" if has_journal else ""]
    return [row_of(scorer, number, session, state_of(session, documents.plan.length), least) + of_all
            for number, session in enumerate(sessions)]


def state_of(session: Session, length: int) -> str:
    return "closed" if session.closed else "complete" if len(session.responses) == length else "open"


def require_own(sessions: Sequence[Session], documents: Documents, given: argparse.Namespace) -> None:
    """Refuses an answer that the bank can't have, and an open session that was not asked for."""
    bank, length, still_open = documents.bank, documents.plan.length, []
    for number, session in enumerate(sessions):
        for item, response in zip(session.items, session.responses):
            if item >= len(bank) or response >= bank[item].categories:
                name = documents.map["items"][item]["id"] if item < len(bank) else item
                raise Refused(f"session {number}: the bank has no item {name} with a response {response}")
        if len(session.responses) > length:
            raise Refused(f"session {number}: {len(session.responses)} answers, a test has {length} items")
        if state_of(session, length) == "open":
            still_open.append(f"{number} (booking {session.booking})")
    if still_open and not given.open:
        more = ", .." if len(still_open) > 3 else ""
        raise Refused(f"{len(still_open)} sessions are open: {', '.join(still_open[:3])}{more}; close them, or give --open")


# ---------------------------------------------------------------- what is written

def answers_text(sessions: Sequence[Session], documents: Documents) -> str:
    names = [item["id"] for item in documents.map["items"]]
    rows = [["session", "booking", "step", "item", "response"]]
    for number, session in enumerate(sessions):
        for step, (item, response) in enumerate(zip(session.items, session.responses)):
            rows.append([number, session.booking, step, names[item], response])
    return table_text(rows)


def shown_text(sessions: Sequence[Session]) -> str:
    rows = [["session", "booking", "items"]]
    rows += [[number, session.booking, runs(session.items)] for number, session in enumerate(sessions)]
    return table_text(rows)


def record_text(given: argparse.Namespace, documents: Documents, audit: Optional[str], rows: Sequence[Sequence[str]], result: str) -> str:
    """What the scores were made of, as JSON."""
    sources = {"journal": given.journal, "lines": given.lines, "script": given.script}
    digests = dict(documents.sha256, **{name: sha256_of(path) for name, path in sources.items() if path})
    digests["results"] = hashlib.sha256(result.encode("utf-8", "surrogatepass")).hexdigest()
    asked = dict(vars(given.reporting), least=given.least, open=given.open, unbound=given.unbound)
    return json_text({"sha256": digests, "audit": audit, "options": asked, "levels_of": "the score as it is printed",
                      "sessions": dict(Counter(row[2] for row in rows)),
                      "levels": dict(Counter(row[12] for row in rows if row[12]))}, indent=1) + "\n"


def main(words: Sequence[str]) -> int:
    given = options(words)
    documents = read_documents(given.bank, given.plan, given.map, given.program, given.unbound)
    audit, before = None, sha256_of(given.journal) if given.journal else None
    if given.journal and not given.unaudited:
        audit = audited(given.bank, given.plan, given.journal, given.program)
    sessions = sessions_of(read_journal(given.journal)) if given.journal else sessions_of_lines(given.lines, given.script)
    if given.journal and sha256_of(given.journal) != before:
        raise Refused(f"{given.journal}: it was written to while it was read; score a copy")
    if given.journal and not sessions:
        raise Refused(f"{given.journal}: the journal has no session; there is nothing to score")
    require_own(sessions, documents, given)
    scorer = Scorer(documents.bank, documents.plan.prior, documents.map, given.reporting)
    rows = rows_of(scorer, documents, sessions, given.least, bool(audit), bool(given.journal))
    result = table_text([COLUMNS, *rows])
    if given.answers:
        write(given.answers, answers_text(sessions, documents))
    if given.shown:
        write(given.shown, shown_text(sessions))
    if given.record:
        write(given.record, record_text(given, documents, audit, rows, result))
    if given.sheets:
        write_sheets(given.sheets, [dict(zip(COLUMNS, row)) for row in rows], scorer.scale)
    print_utf8(result)
    return 0


command = as_command(main)


if __name__ == "__main__":
    sys.exit(command())
