"""Takes simulated examinees through an examination, and counts every rule.

usage: simulate.py PREFIX --out OUT [options]      PREFIX.bank.csv, PREFIX.plan.txt, PREFIX.map.json: irt_bank.py's

  --examinees N     default 1000; at most 65,536 with those of the tails
  --seed N          default 1: the same seed gives the same abilities and answers
  --true ..         normal MEAN SD (default those of the plan's prior; with a flat one the middle of the grid and an eighth of its
                    width), uniform LOW HIGH, or points T T .. with equal numbers: a conditional
                    simulation, for which report.py gives exposure and error at each point. `turns T T ..` takes the points in
                    turn, as a rate is steered where examinees of all abilities come. `--true bands` takes in turn the middle of
                    each band: the ability that halves the prior within it
  --watch P P ..    counts the rates in the bands that begin at these points of the grid, in the place of the plan's
  --tails T T ..    abilities at which more examinees are taken through after the others; default 3, 2.5 and 2 standard deviations
                    of the prior to each side of its mean (-3 -2.5 -2 2 2.5 3), none where --true names points. They show the ends of
                    the scale, and count in no total. `--tails none`
  --each N          how many at each of them; default 1 for each 40 examinees
  --retakers SHARE  a share of the examinees, from 0 to 1, that sit twice; default 0. Each second sitting is begun without the items
                    of the first, after all first sittings. Its answers are drawn anew: nobody remembers an item, or has learnt
  --no-lists        begins the second sittings with no list, for the same persons with the same answers
  --through WAY     replay (default) or serve: rounds of `shadowd replay`, or HTTP against `shadowd serve`
  --part N          examinees in a part, default 250: each part goes through replay by itself, and the parts' journals are joined to the
                    same bytes on any number of workers. Not where the plan has an exposure rate, whose draws see the sessions before
  --workers N       parts at once; default as many as this machine has processors
  --cluster ADDRESS the parts on the workers of a Dask cluster (python3-distributed), as tcp://10.0.0.7:8786, in the place of --workers
  --group N         examinees at once through one replay after another, with no parts; default 25 where the plan has an exposure rate, since
                    the draws of a session see only sessions that are finished
  --clients N       connections at once through serve, 1 to 16; default 4
  --rules PLAN      the rules that are counted; default those of the plan
  --unbound         takes a plan that does not name its map by its SHA-256, as irt_bank.py wrote it up to version 0.12.0
  --program SHADOWD default $SHADOWD, else crates/shadowd/out/shadowd

Written: OUT.journal, the journal; OUT.second.journal, which goes on with it by the second sittings; OUT.tails.journal, that of
the tails, which goes on with the first where the plan has an exposure rate; OUT.run.json, the examinees, how they were taken
through, and the SHA-256 of bank, plan, map, program and journals. report.py reads all. The journal is kept in memory (/dev/shm,
where there is one) until the end, so that no disk is waited for; a part that is done is kept as OUT.part-K.journal until all are, so the
same command after an interruption goes on with the other parts. The answers of an examinee are drawn beforehand for every item.
At the end the journals are read, the items of each session are held against every rule of the plan by a reader that shares
nothing with the product, and the program's exposure counts against those of the journal: in all, and where the plan has bands
also those of the bands, which are printed. Each draw of eligible items is made anew for that. Of retakers two lines are printed:
how many found no form, and the overlap and the error of the two sittings of a person. Exit status: 0; 1 with the place of a
broken rule, a refusal or another status.
"""
import argparse
import datetime
import os
import re
import shutil
import sys
import tempfile
import time
from dataclasses import dataclass, field
from typing import Dict, FrozenSet, List, Optional, Sequence, Tuple

from shadowtools.needs import require

require("simulate.py", "numpy")

import numpy as np  # noqa: E402

from shadowtools.agency.custody import said_by, sha256_of  # noqa: E402
from shadowtools.agency import parts as in_parts  # noqa: E402
from shadowtools.agency.drivers import (  # noqa: E402
    Progress, Replay, Server, Sittings, Stopped, by_http, by_replay, replay_exposure)
from shadowtools.agency.parts import memory  # noqa: E402
from shadowtools.agency.program import form_of, run  # noqa: E402
from shadowtools.agency.retakers import retakes_of, summary  # noqa: E402
from shadowtools.agency.simulation import (  # noqa: E402
    MOST_SEED, SECOND_SITTING, Examination, abilities, abilities_of, band_names, broken_rules, drawn_responses, load, middles,
    retakers_of, rules_of)
from shadowtools.alive import tell  # noqa: E402
from shadowtools.command import Refused, as_command  # noqa: E402
from shadowtools.formats.examination import Session, read_journal, require_points  # noqa: E402
from shadowtools.formats.exposure import Exposure, differs, exposure_of  # noqa: E402
from shadowtools.formats.tables import runs, text_of  # noqa: E402
from shadowtools.formats.written import json_text, write  # noqa: E402
from shadowtools.options import Options, between, require_folder, whole  # noqa: E402
from shadowtools.places import BUILT, revision  # noqa: E402

MOST_SESSIONS, MOST_BYTES = 65_536, 536_870_912
PART = 250          # examinees in a part
TAILS = (-3, -2.5, -2, 2, 2.5, 3)    # standard deviations


def options(words: Sequence[str]) -> argparse.Namespace:
    parser = Options(__doc__)
    parser.add_argument("prefix", nargs="?")
    for name in ("out", "rules"):
        parser.add_argument("--" + name)
    parser.add_argument("--examinees", type=whole(1, MOST_SESSIONS), default=1000)
    parser.add_argument("--seed", type=whole(0, MOST_SEED), default=1)
    parser.add_argument("--true", nargs="+")
    parser.add_argument("--watch", nargs="+", type=whole(0, 60))
    parser.add_argument("--tails", nargs="+")
    parser.add_argument("--each", type=whole(1, MOST_SESSIONS))
    parser.add_argument("--retakers", type=between(0, 1), default=0)
    for name in ("no-lists", "unbound"):
        parser.add_argument("--" + name, action="store_true")
    parser.add_argument("--through", choices=("replay", "serve"), default="replay")
    parser.add_argument("--group", type=whole(1, MOST_SESSIONS))
    parser.add_argument("--part", type=whole(1, MOST_SESSIONS))
    parser.add_argument("--workers", type=whole(1, 256))
    parser.add_argument("--cluster")
    parser.add_argument("--clients", type=whole(1, 16), default=4)
    parser.add_argument("--program", default=BUILT)
    return parser.read(words, lambda found: bool(found.prefix and found.out))


def tails_of(given: argparse.Namespace, examination: Examination) -> List[float]:
    """The true abilities of the examinees of the tails."""
    if given.tails == ["none"] or not given.tails and given.true[0] in ("points", "turns", "bands"):
        return []
    points = abilities_of(given.tails, examination.widest) if given.tails else list(map(examination.expected.at, TAILS))
    if not points:
        low, high = examination.widest
        raise Refused(f"--tails {' '.join(given.tails)}: abilities from {low:g} to {high:g}, or none")
    found = np.repeat(points, given.each or -(-given.examinees // 40)).tolist()
    if given.examinees + len(found) > MOST_SESSIONS:
        raise Refused(f"{given.examinees} examinees and {len(found)} of the tails are more than {MOST_SESSIONS}; --tails none")
    return found


def roomy(text: str) -> str:
    """The plan with the greatest limits of sessions and of the journal."""
    kept = re.sub(r"(?m)^(sessions|journal) .*\n?", "", text)
    return f"{kept.rstrip()}\nsessions {MOST_SESSIONS}\njournal {MOST_BYTES}\n"


def with_base(program: str, files: Sequence[str], text: str) -> str:
    """The plan with the base form that each run would assemble again, where the plan has none."""
    if re.search(r"(?m)^base ", text):
        return text
    status, said = run(program, "assemble", *files)
    if status:
        raise Refused(f"shadowd assemble, status {status}: {said[:80]}; tools/explain.py names the rules")
    return f"{text}base {runs(form_of(said).items)}\n"


# ---------------------------------------------------------------- examinees through the program

@dataclass
class Stage:
    """Sessions that are taken through over one journal: of the sample, of the second sittings, or of the tails. A stage may go on with
    the journal of another. What is found is filled in later."""
    name: str       # of its journal's SHA-256 in OUT.run.json
    sittings: Sittings
    journal: str
    after: Optional["Stage"] = None
    seconds: List[Tuple[int, float]] = field(default_factory=list)
    exposure: Tuple[int, list] = (0, [])
    said: str = ""
    sessions: List[Session] = field(default_factory=list)
    counts: Optional[Exposure] = None

    def bookings(self) -> List[int]:
        """The bookings that have a session in its journal, in order."""
        own = [booking for booking in self.sittings.bookings if booking not in self.sittings.refused]
        return sorted(own + (self.after.bookings() if self.after else []))


def taken_through(given: argparse.Namespace, examination: Examination, stage: Stage, folder: str) -> None:
    """Takes the sessions of a stage through; plan and journal are in the folder."""
    bank, plan, journal = examination.files()[0], os.path.join(folder, "plan.txt"), os.path.join(folder, "journal")
    sittings = stage.sittings
    progress = Progress(len(sittings.bookings) * examination.plan.length, tell)
    if given.through == "replay":
        replay = Replay(os.path.abspath(given.program), bank, plan, journal, folder)
        group = given.group or (25 if controlled(examination) else len(sittings.bookings))
        stage.seconds = by_replay(replay, sittings, group, progress)
        stage.exposure, stage.said = replay_exposure(replay, len(examination.items)), f"{replay.runs} runs of replay"
        return
    clients = min(given.clients, len(sittings.bookings))
    server = Server(os.path.abspath(given.program), bank, plan, journal, clients)
    try:
        stage.seconds, stage.exposure = by_http(server, sittings, clients, progress)
        stage.said = server.end()
    finally:
        server.process.kill()


def is_in_parts(given: argparse.Namespace, examination: Examination, stage: Stage) -> bool:
    """Whether a stage is taken through in parts: its sessions depend neither on one another nor on those of another stage."""
    return given.through == "replay" and not given.group and not controlled(examination) and stage.after is None


def taken_in_parts(given: argparse.Namespace, examination: Examination, stage: Stage, plan: str) -> None:
    """Takes the sessions of a stage through in parts, and writes their journal."""
    sittings, size = stage.sittings, given.part or PART
    program, bank = os.path.abspath(given.program), text_of(examination.files()[0])
    digest = sha256_of(program)
    bookings = [sittings.bookings[first:first + size] for first in range(0, len(sittings.bookings), size)]
    parts = [in_parts.Part(program, digest, bank, plan, len(examination.items), {one: list(map(int, sittings.responses[one])) for one in own})
             for own in bookings]
    if os.path.exists(stage.journal):
        os.unlink(stage.journal)
    kept = in_parts.Kept(stage.journal.removesuffix(".journal"))
    progress = Progress(len(sittings.bookings) * examination.plan.length, tell)
    executor = in_parts.cluster(given.cluster) if given.cluster else in_parts.local(given.workers or os.cpu_count() or 1)
    with executor:
        done = list(in_parts.take_parts(parts, kept, executor, progress.note, not given.cluster))
    kept.replace(stage.journal, in_parts.joined(one.journal for one in done))
    kept.remove()
    stage.seconds = [pair for one in done for pair in one.seconds]
    stage.exposure = in_parts.summed([one.exposure for one in done])
    stage.said = f"{len(stage.seconds)} runs of replay" + (f" in {len(done)} parts" if len(done) > 1 else "")


def require_parts(given: argparse.Namespace, examination: Examination) -> None:
    """Refuses options of parts where the sessions are one chain."""
    for name in ("part", "workers", "cluster"):
        if getattr(given, name) is None:
            continue
        for beside in ["--through serve"] * (given.through == "serve") + ["--group"] * bool(given.group):
            raise Refused(f"--{name} is not used beside {beside}, by which the sessions are one chain")
        if controlled(examination):
            raise Refused(f"--{name}: the plan has an exposure rate, whose draws see the sessions before; one study is one chain")
    if given.cluster and given.workers:
        raise Refused("--workers is not used beside --cluster, which has workers of its own")


def controlled(examination: Examination) -> bool:
    return examination.plan.rate[0] < examination.plan.rate[1]


def keep(journal: str, path: str) -> None:
    """Copies the journal out of memory; an older one of another simulation never stays."""
    try:
        if os.path.exists(path):
            os.unlink(path)
        if os.path.exists(journal):
            shutil.copyfile(journal, path)
    except OSError as error:
        raise Refused(f"{path}: {error.strerror}")


def stages_of(given: argparse.Namespace, examination: Examination, theta: np.ndarray, retakers: Sequence[int]) -> List[Stage]:
    """The sample, the second sittings of its retakers, and the tails. The draws of the tails see the counts of the sample."""
    def own(bookings: Sequence[int], responses: np.ndarray) -> Sittings:
        return Sittings(bookings, dict(zip(bookings, responses)))

    items, scaling, number = examination.items, examination.scaling, given.examinees
    responses = drawn_responses(items, theta, scaling, given.seed)
    sample = Stage("journal", own(range(number), responses), given.out + ".journal")
    found = [sample]
    if retakers:
        again = drawn_responses(items, theta[:number], scaling, given.seed, SECOND_SITTING)[retakers]
        found.append(Stage("second", own(range(len(theta), len(theta) + len(retakers)), again), given.out + ".second.journal", sample))
    if len(theta) > number:
        tails = own(range(number, len(theta)), responses[number:])
        found.append(Stage("tails", tails, given.out + ".tails.journal", sample if controlled(examination) else None))
    return found


def lists_of(first: Stage, second: Sittings, retakers: Sequence[int]) -> Dict[int, FrozenSet[int]]:
    """By booking of a second sitting the items of the first sitting of the same examinee."""
    items = {session.booking: frozenset(session.items) for session in first.sessions}
    return {booking: items[examinee] for booking, examinee in zip(second.bookings, retakers) if examinee in items}


def take(given: argparse.Namespace, examination: Examination, stages: Sequence[Stage], retakers: Sequence[int]) -> None:
    """Takes all stages through, and keeps and reads the journal of each."""
    with tempfile.TemporaryDirectory(dir=memory()) as folder:
        text = with_base(given.program, examination.files(), roomy(text_of(examination.files()[1])))
        with open(os.path.join(folder, "plan.txt"), "w", encoding="utf-8") as file:
            file.write(text)
        journal = os.path.join(folder, "journal")
        for stage in stages:
            if os.path.exists(journal):
                os.unlink(journal)
            if stage.after:
                shutil.copyfile(stage.after.journal, journal)
            if stage.name == "second" and not given.no_lists:
                stage.sittings.lists = lists_of(stages[0], stage.sittings, retakers)
            if is_in_parts(given, examination, stage):
                taken_in_parts(given, examination, stage, text)
            else:
                try:
                    taken_through(given, examination, stage, folder)
                finally:
                    keep(journal, stage.journal)
            stage.counts = exposure_of(read_journal(stage.journal), examination.bank, examination.plan, given.watch)
            stage.sessions = stage.counts.sessions


# ---------------------------------------------------------------- what is tested at the end

def answers_kept(stage: Stage) -> Optional[str]:
    """The first fault of a journal that does not have each examinee's whole session with its list and the drawn answers."""
    bookings = sorted(session.booking for session in stage.sessions)
    if bookings != stage.bookings():
        return f"the journal has {len(bookings)} bookings, and not each examinee once"
    sittings = stage.sittings
    for number, session in enumerate(stage.sessions):
        if session.booking not in sittings.responses:
            continue
        wanted = [int(sittings.responses[session.booking][item]) for item in session.items]
        if session.responses != wanted or session.closed:
            return f"session {number}: the journal's answers are not those of examinee {session.booking}"
        if session.without != sittings.lists.get(session.booking, frozenset()):
            return f"session {number}: the journal's list is not that of booking {session.booking}"
    return None


def verdict(examination: Examination, rules, stage: Stage) -> Optional[str]:
    """The first fault, or None."""
    fault = answers_kept(stage) or differs(stage.counts, stage.exposure)
    if fault:
        return fault
    broken = broken_rules(rules, stage.sessions, examination.bank)
    if broken:
        first = broken[0]
        return (f"{len(broken)} rules are broken, the first in session {first.session}: {first.rule.text} "
                f"({first.rule.label}) has {first.value}")
    lengths = {len(session.items) for session in stage.sessions}
    if lengths != {examination.plan.length}:
        return f"tests of {sorted(lengths)} items, the plan has {examination.plan.length}"
    return None


# ---------------------------------------------------------------- what is written

def write_run(given: argparse.Namespace, examination: Examination, theta: np.ndarray, retakers: Sequence[int], line: str,
              stages: Sequence[Stage], wall: float) -> dict:
    """OUT.run.json. `examinees` is the number of the sample; the abilities of the tails follow in `true`. `refused` has by booking what
    the second sittings were refused that found no form."""
    digests = dict(examination.sha256, program=sha256_of(given.program))
    digests.update((stage.name, sha256_of(stage.journal)) for stage in stages)
    found = {"prefix": given.prefix, "true": theta.tolist(), "examinees": given.examinees, "of": given.true,
           "tails": theta[given.examinees:].tolist(), "seed": given.seed, "bank": line, "through": given.through,
           "said": stages[0].said, "wall": wall, "seconds": stages[0].seconds,
           "clients": given.clients if given.through == "serve" else None,
           "date": datetime.datetime.now(datetime.timezone.utc).strftime("%Y-%m-%d %H:%M UTC"), "revision": revision(),
           "sha256": digests, "retakers": list(retakers), "lists": not given.no_lists,
           "refused": {booking: word for stage in stages for booking, word in sorted(stage.sittings.refused.items())}}
    write(given.out + ".run.json", json_text(found, in_ascii=True))
    return found


def print_bands(examination: Examination, counts: Exposure) -> None:
    """A line for each band that is watched, from the sample."""
    rate = examination.plan.rate[0] / examination.plan.rate[1]
    for band, (one, name) in enumerate(zip(counts.watched, band_names(examination.theta, counts.points))):
        rates = one.rates()
        most = max(range(len(rates)), key=lambda item: (rates[item], -item))
        of_items = (f", greatest rate of the visits {rates[most]:.3f} ({examination.items[most].name}), above the rate "
                    f"{sum(value > rate for value in rates)}, never eligible {one.eligible.count(0)} of {len(rates)}, set aside {one.aside}")
        print(f"band {band}, {name}: visits {one.visited}" + (of_items if one.visited else ""))


def main(words: Sequence[str]) -> int:
    given = options(words)
    retakers = retakers_of(given.examinees, given.retakers, given.seed)
    if given.no_lists and not retakers:
        raise Refused("--no-lists is for second sittings: give --retakers")
    if given.examinees + len(retakers) > MOST_SESSIONS:
        raise Refused(f"{given.examinees} examinees and {len(retakers)} second sittings are more than {MOST_SESSIONS}")
    for end in (".journal", ".second.journal", ".tails.journal", ".run.json"):
        require_folder("--out", given.out + end)
    examination = load(given.prefix, given.unbound)
    require_parts(given, examination)
    given.true = given.true or ["normal", *(f"{number:g}" for number in examination.expected)]
    tails, rules = tails_of(given, examination), rules_of(given.rules, examination)
    require_points(given.watch or [], len(examination.theta), "--watch")
    if given.true == ["bands"]:
        given.true = ["turns", *(f"{point:.4g}" for point in middles(examination, given.watch or examination.plan.points))]
    theta = np.concatenate([abilities(given.true, given.examinees, given.seed, examination.widest), tails])
    line = said_by(given.program, "check", *examination.files())[0]
    stages = stages_of(given, examination, theta, retakers)
    for end in (".second.journal", ".tails.journal"):
        if os.path.exists(given.out + end):
            os.unlink(given.out + end)
    begun = time.perf_counter()
    take(given, examination, stages, retakers)
    wall = time.perf_counter() - begun
    fault = next(filter(None, (verdict(examination, rules, stage) for stage in stages)), None)
    found = write_run(given, examination, theta, retakers, line, stages, wall)
    if fault:
        print(fault, file=sys.stderr)
        return 1
    more = f", and {len(tails)} in the tails" if tails else ""
    print(f"{given.examinees} sessions of {examination.plan.length} items through {given.through}{more}: no rule of {len(rules)} "
          f"is broken; {wall:.1f} s; {stages[0].said}")
    if stages[0].counts.points:
        print_bands(examination, stages[0].counts)
    if retakers:
        print(summary(retakes_of(found, stages[0].sessions, stages[1].sessions), examination))
    return 0


command = as_command(main)


if __name__ == "__main__":
    sys.exit(command())
