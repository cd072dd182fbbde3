"""A folder with all files of a window, for an archive: made once, and checked years later.

usage: shadow custody make FOLDER PREFIX --journal JOURNAL --record RECORD [--seals FILE ..] [--report PAGE.html]
                           [--program SHADOWD]
       shadow custody check FOLDER [--program SHADOWD]

`make` copies, and never moves or changes a file: bank.csv, plan.txt, map.json, journal, record.json, seals/, and report.html where one is
given. It writes results.csv, which are the results of the record made again; VERDICT, what was tested when; and MANIFEST, a line
`SHA-256  NAME` for each file, so that `sha256sum -c MANIFEST` tests the folder without these tools. FOLDER must not be there yet.
It is there only when it is whole, and each of its tests holds.

`check` prints a line for each test: `holds`, `does not hold` with the first place that does not, or `not tested` with the reason:

  files        there is no file more or less than in MANIFEST, and each has its SHA-256
  documents    bank, plan and map belong together, and `shadowd check` takes them
  audit        the journal follows from bank and plan by tools/audit.py, and by the program in the same words
  seals        the journal goes on from each seal
  results      results.csv is made again by the options of record.json, byte for byte
  report       the page has the SHA-256 of bank, plan, map, journal, results and record

Exit status: 0; 1 where a test does not hold, or a file is refused.
"""
import argparse
import datetime
import hashlib
import os
import re
import shutil
import sys
from typing import Callable, Dict, List, NamedTuple, Optional, Sequence

from shadowtools.agency.custody import Documents, bytes_of, read_documents, said_by, sha256_of
from shadowtools.agency.results import may_be_unbound, read_record, results_of
from shadowtools.checkers import audit
from shadowtools.command import Refused, as_command
from shadowtools.formats.examination import opened, read_journal, read_plan, sessions_of
from shadowtools.formats.tables import text_of
from shadowtools.options import Options
from shadowtools.places import BUILT, revision

MANIFEST, VERDICT, SEALS = "MANIFEST", "VERDICT", "seals"
DOCUMENTS = ("bank.csv", "plan.txt", "map.json")
JOURNAL, RESULTS, RECORD, REPORT = "journal", "results.csv", "record.json", "report.html"
NEEDED = (*DOCUMENTS, JOURNAL, RESULTS, RECORD, VERDICT)
DEFAULT_SESSIONS = 1000     # of a plan without a line `sessions`
WHAT_IT_SHOWS = """The folder shows that its files belong together. It does not show that the answers are those that were given: whoever
can write the journal can write a whole history that is legal. Seals that are kept elsewhere show a change of what was sealed."""
WHAT_ITS_KEY_SHOWS = "The plan has the key of the draws: with it the draws of later sessions of the same plan can be computed."


class NotTested(Exception):
    """Why a test was not made."""


class Outcome(NamedTuple):
    """A test by name, whether it holds (None: it was not tested), and the line on it."""
    name: str
    holds: Optional[bool]
    line: str


# ---------------------------------------------------------------- tests of a folder

def manifest_of(folder: str) -> Dict[str, str]:
    """The SHA-256 by name of the manifest. Refused is a line that is none."""
    found: Dict[str, str] = {}
    for number, line in enumerate(text_of(os.path.join(folder, MANIFEST)).splitlines(), 1):
        read = re.fullmatch(r"([0-9a-f]{64})  (\S.*)", line)
        if not read or read.group(2) in found:
            raise Refused(f"{MANIFEST}: line {number} is no line of sha256sum, or names a file twice")
        found[read.group(2)] = read.group(1)
    return found


def names_in(folder: str) -> List[str]:
    """The names of all files below a folder, in the order of their bytes. Refused is what is neither file nor folder, as a link."""
    found = []
    for place, folders, files in os.walk(folder):
        for name in (*folders, *files):
            path = os.path.join(place, name)
            if os.path.islink(path) or not (os.path.isfile(path) or os.path.isdir(path)):
                raise Refused(f"{os.path.relpath(path, folder)}: neither a file nor a folder")
        found += [os.path.relpath(os.path.join(place, name), folder).replace(os.sep, "/") for name in files]
    return sorted(found, key=os.fsencode)


def test_files(folder: str, program: Optional[str]) -> str:
    wanted, there = manifest_of(folder), set(names_in(folder)) - {MANIFEST}
    for name in sorted(there - set(wanted)):
        raise Refused(f"{name}: not in {MANIFEST}")
    for name, digest in wanted.items():
        if name not in there:
            raise Refused(f"{name}: in {MANIFEST}, and not there")
        if sha256_of(os.path.join(folder, name)) != digest:
            raise Refused(f"{name}: its SHA-256 is not that of {MANIFEST}")
    for name in NEEDED:
        if name not in wanted:
            raise Refused(f"{name}: not there")
    return f"{len(wanted)} files"


def paths_of(folder: str, *names: str) -> List[str]:
    return [os.path.join(folder, name) for name in names]


def documents_of(folder: str, program: Optional[str] = None) -> Documents:
    """Bank, plan and map. A plan that does not name its map is taken where the scores were asked for with --unbound."""
    return read_documents(*paths_of(folder, *DOCUMENTS), program, may_be_unbound(read_record(os.path.join(folder, RECORD))))


def test_documents(folder: str, program: Optional[str]) -> str:
    bound = "bank, plan and map belong together" if documents_of(folder, program).is_bound else "bank and plan are the map's; the plan names no map"
    return bound + ("" if program else "; without shadowd check, since there is no program")


def second_audit(folder: str) -> List[str]:
    """All lines of tools/audit.py."""
    bank, plan, journal = paths_of(folder, *DOCUMENTS[:2], JOURNAL)
    with opened(journal, "rb") as file:
        return list(audit.lines(audit.audit(audit.read_rules(bank, plan), file)))


def test_audit(folder: str, program: Optional[str]) -> str:
    second, (bank, plan, journal) = second_audit(folder), paths_of(folder, *DOCUMENTS[:2], JOURNAL)
    if not program:
        return f"{second[0]}; by tools/audit.py alone, since there is no program"
    first = said_by(program, "audit", bank, plan, journal=journal)
    if first != second:
        raise Refused(f"shadowd audit has {first[0]!r}, tools/audit.py {second[0]!r}")
    return f"{second[0]}; two programs agree"


def test_seals(folder: str, program: Optional[str]) -> str:
    names = [name for name in names_in(folder) if name.startswith(SEALS + "/")]
    if not names:
        raise NotTested("the folder has no seal")
    for name in names:
        seal = audit.read_seal(os.path.join(folder, name))
        with opened(os.path.join(folder, JOURNAL), "rb") as file:
            if audit.seal_of(file, seal.records) != seal:
                raise Refused(f"{name}: the journal does not go on from it")
    return f"{len(names)} of the journal"


def test_results(folder: str, program: Optional[str]) -> str:
    made, results = made_again(folder), bytes_of(os.path.join(folder, RESULTS))
    if made != results:
        lines = zip(made.split(b"\n"), results.split(b"\n"))
        place = next((number for number, (one, other) in enumerate(lines, 1) if one != other), 0)
        raise Refused(f"{RESULTS}: line {place} is not that of the record's options")
    return f"{results.count(bytes([10])) - 1} lines made again"


def made_again(folder: str) -> bytes:
    """The results of the folder's record."""
    journal, record = paths_of(folder, JOURNAL, RECORD)
    return results_of(record, documents_of(folder), journal, sessions_of(read_journal(journal))).text.encode("utf-8", "surrogatepass")


def test_report(folder: str, program: Optional[str]) -> str:
    path = os.path.join(folder, REPORT)
    if not os.path.lexists(path):
        raise NotTested("the folder has no page")
    page = text_of(path)
    for name in (*DOCUMENTS, JOURNAL, RESULTS, RECORD):
        if sha256_of(os.path.join(folder, name)) not in page:
            raise Refused(f"{REPORT}: it does not have the SHA-256 of {name}")
    return "the page has the SHA-256 of these files"


TESTS: Dict[str, Callable[[str, Optional[str]], str]] = {
    "files": test_files, "documents": test_documents, "audit": test_audit, "seals": test_seals, "results": test_results, "report": test_report}


def outcomes(folder: str, program: Optional[str], names: Sequence[str] = tuple(TESTS)) -> List[Outcome]:
    """The outcome of each test. One that can't be made, whatever its file is, does not hold."""
    found = []
    for name in names:
        try:
            found.append(Outcome(name, True, f"holds: {TESTS[name](folder, program)}"))
        except NotTested as why:
            found.append(Outcome(name, None, f"not tested: {why}"))
        except Refused as refused:
            found.append(Outcome(name, False, f"does not hold: {refused.line.replace(os.path.join(folder, ''), '')}"))
        except (OSError, ValueError, LookupError, TypeError, ArithmeticError) as fault:
            found.append(Outcome(name, False, f"does not hold: {type(fault).__name__}: {fault}"))
    return found


# ---------------------------------------------------------------- making

def make(given: argparse.Namespace, program: Optional[str]) -> int:
    """Makes the folder beside its place, and puts it there when all of it holds."""
    if os.path.lexists(given.folder):
        raise Refused(f"{given.folder}: it is there already; nothing is written over")
    building = given.folder.rstrip("/") + ".partial"
    if os.path.lexists(building):
        raise Refused(f"{building}: it is there from a make that was interrupted; look at it, and remove it")
    try:
        os.mkdir(building)
        fill(building, given)
        made = outcomes(building, program, [name for name in TESTS if name != "files"])
        bad = [one for one in made if one.holds is False]
        if bad:
            raise Refused("; ".join(f"{one.name} {one.line}" for one in bad))
        seal_off(building, made)
        last = outcomes(building, program, ["files"])[0]
        if not last.holds:
            raise Refused(last.line)
        os.rename(building, given.folder)
    except OSError as error:
        shutil.rmtree(building, ignore_errors=True)
        raise Refused(f"{error.filename or building}: {error.strerror}")
    except Refused:
        shutil.rmtree(building, ignore_errors=True)
        raise
    print(f"{given.folder}: {last.line.partition(': ')[2]}")
    warn_of_later(os.path.join(given.folder, DOCUMENTS[1]), os.path.join(given.folder, JOURNAL))
    return 0


def fill(folder: str, given: argparse.Namespace) -> None:
    """Copies the files, and makes the results again."""
    sources = [given.prefix + end for end in (".bank.csv", ".plan.txt", ".map.json")] + [given.journal, given.record]
    for path, name in zip(sources, (*DOCUMENTS, JOURNAL, RECORD)):
        put(folder, name, bytes_of(path))
    if given.report:
        put(folder, REPORT, bytes_of(given.report))
    if given.seals:
        os.mkdir(os.path.join(folder, SEALS))
    for number, path in enumerate(given.seals):
        put(folder, f"{SEALS}/{number:02}-{re.sub(r'[^A-Za-z0-9._-]', '_', os.path.basename(path))}", bytes_of(path))
    put(folder, RESULTS, made_again(folder))


def put(folder: str, name: str, data: bytes) -> None:
    """Writes a file and waits until the disk has it."""
    with open(os.path.join(folder, name), "xb") as file:
        file.write(data)
        file.flush()
        os.fsync(file.fileno())


def seal_off(folder: str, made: Sequence[Outcome]) -> None:
    """Writes VERDICT and MANIFEST."""
    date = datetime.datetime.now(datetime.timezone.utc).strftime("%Y-%m-%d %H:%M UTC")
    lines = [f"made {date} by revision {revision()} of the tools", *(f"{one.name}: {one.line}" for one in made)]
    lines += ["", WHAT_IT_SHOWS, *([WHAT_ITS_KEY_SHOWS] if has_draws(os.path.join(folder, DOCUMENTS[1])) else [])]
    put(folder, VERDICT, "".join(line + "\n" for line in lines).encode("utf-8"))
    manifest = [f"{hashlib.sha256(bytes_of(os.path.join(folder, name))).hexdigest()}  {name}\n" for name in names_in(folder)]
    put(folder, MANIFEST, "".join(manifest).encode("utf-8"))
    place = os.open(folder, os.O_RDONLY)
    os.fsync(place)
    os.close(place)


def has_draws(plan: str) -> bool:
    """Whether a plan has an exposure rate, and so a key by which eligible items are drawn."""
    part, whole = read_plan(plan).rate
    return part < whole


def warn_of_later(plan: str, journal: str, what: str = "folder", cure: str = "keep it closed until then") -> None:
    """Says on standard error where the plan has a key and takes more sessions."""
    if not has_draws(plan):
        return
    limit = re.search(r"(?m)^sessions (\d+)$", text_of(plan))
    left = (int(limit.group(1)) if limit else DEFAULT_SESSIONS) - len(sessions_of(read_journal(journal)))
    if left > 0:
        print(f"warning: the plan takes {left} sessions more. Who has this {what} has the key of their draws: make it after the window, or "
              f"{cure}", file=sys.stderr)


# ---------------------------------------------------------------- command line

def options(words: Sequence[str]) -> argparse.Namespace:
    parser = Options(__doc__)
    parser.add_argument("command", nargs="?", choices=("make", "check"))
    parser.add_argument("folder", nargs="?")
    parser.add_argument("prefix", nargs="?")
    for name in ("journal", "record", "report"):
        parser.add_argument("--" + name)
    parser.add_argument("--seals", nargs="+", default=[])
    parser.add_argument("--program", default=BUILT)
    found = parser.read(words, lambda given: bool(given.folder) and (bool(given.prefix and given.journal and given.record)
                                                                     if given.command == "make" else not given.prefix))
    if found.command == "check" and (found.journal or found.record or found.report or found.seals):
        raise Refused("check takes a folder alone")
    return found


def main(words: Sequence[str]) -> int:
    given = options(words)
    program = given.program if given.program and os.path.exists(given.program) else None
    if given.command == "make":
        return make(given, program)
    if not os.path.isdir(given.folder):
        raise Refused(f"{given.folder}: no folder")
    found = outcomes(given.folder, program)
    for one in found:
        print(f"{one.name}: {one.line}")
    return 0 if all(one.holds is not False for one in found) else 1


command = as_command(main)


if __name__ == "__main__":
    sys.exit(command())
