"""What each claim of README needs of docs/HEADLINE.md: which clause of `run` has it, and which definitions that clause then rests on.

A definition may be read in part. Each field of a record holds, so a reading may leave out fields. It may leave out a case of a `data`, or of a
function by cases, if another part excludes the case, such as the command; `left` of a reading has why. A definition with no
part is taken as a word: another claim explains it. `most` is the number of definitions that a reading may have.
"""
import dataclasses
import re
from typing import Dict, List, Tuple

from shadowtools.command import Refused
from shadowtools.formats.definitions import Key, Library, parts_of

Parts = Dict[str, List[str]]
CALL = ("exam_program", "program.rt", "run")


@dataclasses.dataclass
class Reading:
    """One way to read a claim: its title, the words of each clause where it begins, what is read in part, what is left out and why."""
    title: str
    begins: Dict[str, List[str]]
    in_part: Parts
    left: str
    most: int


@dataclasses.dataclass
class Claim:
    name: str
    readings: List[Reading]


# The cases of a replay that print replies.
REPLAYED = ["replayed", "sessions_full", "journal_full", "without_disk", "without_more_memory"]

# A request that is served: the last entry that it adds, and the place that is replied.
SERVED: Parts = {
    "history_model DoesUnless": ["DoesUnless None"],
    "history_model refusal_of": [],
    "history_model DoesUnrefused": ["DoesUnrefused b plan H asked"],
    "history_model IsServedBy": ["begun", "advances", "at", "stands", "reply"],
    "history_model IsSettingAside": [],
    "history_model Legal": ["Legal b plan H (Served"],
}

# A reply to a client that is the place of a session.
PLACES: Parts = {
    "exam_hall Sees": ["mid", "early", "later", "legal", "good", "tells"],
    "exam_office IsGood": [],
    "exam_hall Tells": ["Tells b plan q F S T later (reply.At"],
    "exam_hall IsAt": ["session_is", "stands"],
    "exam_http Gets": ["Gets (Ok (ask.Request"],
    "exam_http Ends": ["Ends old bytes text new Link"],
    "exam_http Asks": [],
    "wire_http IsMessage": [],
    "wire_http IsFault": [],
    "exam_http wire_fault_text": [],
    "exam_serve Probes": [],
    "prepare_desk Idles": [],
}

CLAIMS = [
    Claim("The best form", [
        Reading("of a replay", {"answers": ["RunEnds"]}, {
            "exam_program RunEnds": ["idle"],
            "exam_program Outcome": REPLAYED,
            "exam_program IsReplayOf": [],
            "exam_program IsFullAt": [],
            "exam_program IsLeftAt": [],
            "exam_program IsUnderWay": ["legal", "going_on"],
            "exam_program IsGoingOn": ["done", "whole", "are_done"],
            **SERVED,
        }, "The other cases of `Outcome` are of other commands, or print no reply. An item that an earlier run served is of a legal entry by "
           "`legal` of `IsUnderWay`. `IsReplayOf`, with `Reads` of the bank and the plan, is in claim 2. What the file has is in claim 3, and what "
           "other requests do in claim 4.", 138),
        Reading("of a server, at each moment", {"fair": ["AreFairDoors", "IsOpenedBy", "IsCallerOf"]}, {
            "exam_program IsOpenedBy": [],
            "history_model Legal": ["Legal b plan H (Served"],
            **PLACES,
        }, "A link need allow nothing but what `fair` states, so nothing else is written to it. `IsOpenedBy` has the bank and the plan "
           "(claim 2) and the history that was found (claim 3). What a message asks, and the replies that show no item, are in claim 4.", 170),
    ]),
    Claim("Every input has its answer", [
        Reading("of a bank, a plan and a script", {"faulty": ["command_of"], "answers": ["RunEnds"]}, {
            "exam_program RunEnds": ["idle"],
            "exam_program Outcome": ["bank_refused", "plan_refused", "script_refused", "checked", "replayed"],
            "exam_program IsUntouched": [],
            "exam_program IsUnderWay": [],
            "exam_program IsBaseForm": [],
            "replay_cli lines_of": [],
        }, "The other cases of `Outcome` are of commands that read the same texts by the same words (`Reads`), or of files or memory that"
           " failed. What a replay then does is in claims 3 and 4.", 259),
    ]),
    Claim("No acknowledged answer is lost", [
        Reading("of a replay", {"left": ["IsAsLeft"], "answers": ["RunEnds"], "journal": ["RunLeaves"]}, {
            "exam_program RunEnds": ["idle"],
            "exam_program RunLeaves": ["left_idle"],
            "exam_program LeavesJournal": ["as_found", "at_opening", "after_requests"],
            "exam_program Outcome": REPLAYED,
            "exam_program IsReplayOf": [],
            "exam_program IsFullAt": [],
            "replay_cli lines_of": [],
            "history_model Does": [],
            "history_model refusal_of": [],
            "history_model LegalRun": [],
            "history_model Backed": [],
            "history_model IsNextOf": [],
            "exam_office AreGood": [],
        }, "The other cases of `LeavesJournal` are of other commands. Which entries a request adds (`Does`, `IsNextOf`), and that they "
           "are legal (`LegalRun`, `Backed`), is in claim 4.", 165),
        Reading("of a server", {"left": ["IsAsLeft"], "allows": ["AllowsExams"], "answers": ["RunEnds"]}, {
            "exam_program RunEnds": ["busy"],
            "exam_program IsServeOf": [],
            "exam_program Reads": [],
            "exam_program IsLast": [],
            "history_model LegalRun": [],
            "history_model Backed": [],
        }, "Of a server that never ends, or is killed, there is `allows` alone. A disk need allow nothing but what it states, so a crash can "
           "leave nothing else of what a call changed.", 159),
    ]),
    Claim("The examination is legal", [
        Reading("of a replay", {"answers": ["RunEnds"]}, {
            "exam_program RunEnds": ["idle"],
            "exam_program Outcome": ["replayed"],
            "exam_program IsReplayOf": [],
            "exam_program IsUnderWay": ["legal", "going_on"],
            "exam_program IsGoingOn": ["done", "whole", "are_done"],
            "history_model LacksForm": [],
        }, "The other cases of `Outcome` that print replies have the same `IsUnderWay`. Why a list of items is refused (`LacksForm`) is left "
           "out: no item is shown then. Two laws follow from these definitions. The items shown in each complete session meet the plan "
           "(`laws::complete_sessions_meet`), and none of them is on the session's list (`laws::lists_are_kept`).", 195),
        Reading("of a server, at each moment", {"fair": ["AreFairDoors", "IsOpenedBy", "IsCallerOf"]}, {
            "exam_program Reads": [],
            "exam_program IsBaseForm": [],
            "exam_office StandsSecond": [],
            "history_model LacksForm": [],
            "exam_hall Fails": [],
        }, "`LacksForm` and `Fails` are why a request is refused or not done. `Reads` is in claim 2, and `StandsSecond` in claim 3.", 350),
        Reading("of a server that ended", {"answers": ["RunEnds", "AreServed"]}, {
            "exam_program RunEnds": ["busy"],
            "exam_program IsServedBy": [],
            "exam_serve IsWorked": ["made", "serves"],
            "exam_serve IsConnection": ["leads"],
            "exam_serve Asks": [],
            "exam_serve Probes": [],
            "prepare_desk Idles": [],
        }, "This is that each entry is of a request (`covers` of `AreServed`). What a request does (`Asks`) is in the reading above.", 50),
    ]),
    Claim("Nothing breaks by itself", [
        Reading("of a server's connections and memory", {"answers": ["AreServed", "RunEnds"]}, {
            "exam_program RunEnds": ["busy"],
            "exam_program IsServedBy": ["b", "plan", "base", "H", "last"],
            "history_model summary": [],
            "exam_serve AreServed": ["before", "after", "worked", "end_is"],
            "exam_serve IsWorked": ["serves"],
            "exam_serve IsConnection": ["ended", "starved"],
        }, "That no function panics or reads out of range, and that a command ends, needs no definition: the check proves it of each "
           "function.", 45),
    ]),
]


@dataclasses.dataclass
class Needs:
    """What a reading needs: its definitions, in the order in which they are reached, the declared types, and the parts of what is read in part."""
    definitions: List[Key]
    types: List[Key]
    in_part: Dict[Key, List[str]]


def clause_of(contract: str, name: str) -> str:
    """The text of a clause of a contract, from its braces on."""
    found = re.search(rf"^    (?:requires|ensures) {name} (.*?)(?=^    (?:requires|ensures|//)|\Z)", contract, re.M | re.S)
    if not found:
        raise Refused(f"the contract has no clause {name}")
    return found.group(1)


def beginnings(library: Library, reading: Reading) -> List[Key]:
    """The definitions at which a reading begins, each of which its clause names."""
    contract, roots = library.contract(*CALL)
    found: List[Key] = []
    for clause, names in reading.begins.items():
        text = clause_of(contract, clause)
        for name in names:
            keys = [key for key in roots if key[2] == name]
            if len(keys) != 1 or not re.search(rf"(?<![\w.]){name}\b", text):
                raise Refused(f"the clause {clause} does not name {name}")
            found += keys
    return list(dict.fromkeys(found))


def needs_of(library: Library, reading: Reading) -> Needs:
    labels = {library.named(words): parts for words, parts in reading.in_part.items()}
    cites = {key: library.cited_in_part(key, parts) for key, parts in labels.items()}
    reached = library.closure(beginnings(library, reading), cites)
    for key in labels:
        if key not in reached:
            raise Refused(f"a reading {reading.title} reads {key[2]} of {key[0]} in part, and does not reach it")
    types = [key for key in reached if library.definitions[key].is_declared]
    return Needs([key for key in reached if key not in types], types, labels)


def numbered() -> List[Tuple[int, Claim, Reading]]:
    return [(at, claim, reading) for at, claim in enumerate(CLAIMS, 1) for reading in claim.readings]


@dataclasses.dataclass
class Omission:
    """What a contract without a command would lack: words that its clauses would not name, and cases of definitions."""
    words: List[str]
    cases: Parts


# What each command, or group of them, has in the contract.
COMMANDS = {
    "`serve`: connections, messages, the lock, what it prints": Omission(
        ["exam_serve AreServed", "exam_program IsServedBy", "exam_serve AreFairDoors", "exam_program IsOpenedBy", "exam_serve IsCallerOf",
         "exam_serve HasFailedDoor", "exam_program IsExamined"],
        {"exam_program Outcome": ["server_refused", "server_without_journal", "server_without_memory"],
         "exam_program LeavesJournal": ["server_at_opening", "after_opening"]}),
    "`series`": Omission([], {"exam_program Outcome": ["series_answered"]}),
    "`follow` and `ship`": Omission(
        ["exam_program FollowEnds", "exam_program ShipEnds", "exam_program AreFollowed", "exam_program AreShipped", "exam_program LinkLeaves",
         "exam_program HasFailedFirst", "exam_program IsStatusOfAny", "command_line IsOfLinked", "exam_edge AllowsAll"],
        {"exam_program Outcome": ["link_refused", "link_without_journal"], "exam_program LeavesJournal": ["link_at_opening"]}),
    "`drill`": Omission([], {"exam_program Outcome": ["drilled"]}),
    "`audit` and `migrate`": Omission(
        [], {"exam_program Outcome": ["audited", "audit_refused", "without_audit", "migrated", "migration_refused", "migration_full", "without_migration",
                                      "migration_without_memory", "migrated_without_line"],
             "exam_program LeavesJournal": ["after_migration", "at_migration"]}),
    "`check` and `assemble`, but for the trees": Omission([], {"exam_program Outcome": ["checked", "form_found", "without_form", "without_base_form"]}),
    "the first faults of texts": Omission([], {"exam_program Outcome": ["bank_refused", "plan_refused", "script_refused"]}),
    "the verdict on a proof tree, and when it is spent": Omission(
        ["certificate_model IsVerdict", "certificate_model IsSpent", "certificate_model IsPruned"], {}),
}


def together(names: List[str]) -> Omission:
    """The omission of several of COMMANDS."""
    words: List[str] = []
    cases: Parts = {}
    for name in names:
        words += COMMANDS[name].words
        for definition, labels in COMMANDS[name].cases.items():
            cases[definition] = cases.get(definition, []) + labels
    return Omission(words, cases)


def labels_but(library: Library, key: Key, cases: List[str]) -> List[str]:
    """What the parts of a `data` begin with, without these cases."""
    labels = [label.split(" ")[0] for label, _ in parts_of(library.definitions[key])[1]]
    missing = [it for it in cases if it not in labels]
    if missing:
        raise Refused(f"{key[2]} of {key[0]} has no case {missing[0]}")
    return [it for it in labels if it not in cases]


def alone(library: Library, omission: Omission) -> List[Key]:
    """The definitions that the contract reaches only by what is omitted."""
    roots = library.contract(*CALL)[1]
    words = {library.named(it) for it in omission.words}
    cites: Dict[Key, List[Key]] = {}
    for name, cases in omission.cases.items():
        key = library.named(name)
        cites[key] = library.cited_in_part(key, labels_but(library, key, cases))
    for key in library.closure(roots):
        cites[key] = [it for it in cites.get(key, library.definitions[key].cites) if it not in words]
    left = set(library.closure([it for it in roots if it not in words], cites))
    return [it for it in library.closure(roots) if it not in left and not library.definitions[it].is_declared]
