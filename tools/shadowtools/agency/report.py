"""A simulation, or a series of fixed forms, as one page of HTML for those who sign it, with its pictures inside; it needs no network,
and but for the page of an appeal no script.

usage: report.py PREFIX --run OUT --to REPORT.html [options]
       report.py PREFIX --series LINES --to REPORT.html [--target ..] [--template FILE]
       report.py PREFIX --journal JOURNAL --record RECORD --to REPORT.html [..]      a window of real examinees;
                                                                     report.py --journal --help has its options
       report.py PREFIX --prices --to REPORT.html [..]      what each rule costs, and which items to write; report.py --prices --help

  --target FILE                  what a test is to measure: a CSV table with the columns ability and information, or ability and
                                 se (standard error, in logits); or --target LOW HIGH INFORMATION
  --estimate E, --scale A B, --obtainable L H, --cuts C .., --levels N .., --decimals N
                                 how scores are reported, as score.py has them: the page has error, reliability and decisions of
                                 the scores that examinees get. The cuts are scores, all else on the page is in logits
  --record FILE                  the same from a record of score.py, in the place of these options
  --bands T ..                   edges of ability bands in logits, for exposure, overlap and error; default 2 and 1 standard deviations
                                 of the prior to each side of its mean, and that (-2 -1 0 1 2); each ability where there are at most 20
  --by truth|estimate            whether the bands of exposure and overlap are of the true ability (default) or the estimate
  --watch P ..                   the rates in bands of the estimate that begin at these points of the grid; default the plan's bands
  --between LOW HIGH             abilities in logits between which the page states the standard error; default a standard deviation of
                                 the prior to each side of its mean (-1 1)
  --rules PLAN                   counts the rules of another plan for the same bank
  --unbound                      takes a plan that does not name its map by its SHA-256, as irt_bank.py wrote it up to version 0.12.0;
                                 the page names it
  --template FILE                another template for jinja2 than report.html of these tools
  --picture FILE.png             a picture for another page: the forms of an examinee, and the standard error

PREFIX.bank.csv, PREFIX.plan.txt, PREFIX.map.json are irt_bank.py's; OUT.run.json, OUT.journal, OUT.second.journal and
OUT.tails.journal are simulate.py's. Their SHA-256 are those that the map and the run have. Beside the page are written REPORT.sessions.csv, a line
for each examinee; REPORT.answers.csv, a line for each answer; REPORT.items.csv, a line for each item; and REPORT.rules.csv, a line for each rule.

With --series LINES is a file with what `shadowd series` printed for the weights of PREFIX.weights.txt, which irt_bank.py --weights
writes. check_series.py judges the lines and their trees. Beside the page is written REPORT.forms.csv, a line for each item with its
form. Exit status: 0; 1 where the files are refused or a rule is broken.
"""
import argparse
import datetime
import os
import sys
from typing import List, Optional, Sequence, Tuple

from shadowtools.needs import require

require("report.py", "numpy", "scipy", "matplotlib", "pandas", "jinja2")

import jinja2  # noqa: E402
import numpy as np  # noqa: E402
import pandas as pd  # noqa: E402

from shadowtools.agency import price, window_report  # noqa: E402
from shadowtools.agency.custody import sha256_of  # noqa: E402
from shadowtools.agency.custody_folder import has_draws, warn_of_later  # noqa: E402
from shadowtools.agency.expected import unit_of  # noqa: E402
from shadowtools.agency.retakers import Retakes, retakes_of  # noqa: E402
from shadowtools.agency.scoring import (OPTIONS, SHORT_NAMES, Scorer, add_reporting, reporting_of,  # noqa: E402
                                        reporting_of_record)
from shadowtools.agency.series_weights import read_weights  # noqa: E402
from shadowtools.agency.simulation import Examination, load, parted, read_run, rules_of  # noqa: E402
from shadowtools.command import Refused, as_command  # noqa: E402
from shadowtools.formats.examination import Session, read_journal, require_points  # noqa: E402
from shadowtools.formats.exposure import Exposure, exposure_of  # noqa: E402
from shadowtools.formats.tables import text_of  # noqa: E402
from shadowtools.formats.written import table_text, write  # noqa: E402
from shadowtools.options import Options, finite, require_folder, whole  # noqa: E402
from shadowtools.page import appeal as appeal_page, price as price_page, series as series_page, window as window_page  # noqa: E402
from shadowtools.page.checker import policy_of, require_size  # noqa: E402
from shadowtools.page.parts import UNBOUND, Section, Verdict  # noqa: E402
from shadowtools.page.pictures import at_a_glance  # noqa: E402
from shadowtools.page.sections import chosen, sections  # noqa: E402
from shadowtools.page.study import Questions, Study, answers, table_by_item, table_by_rule, target_of  # noqa: E402
from shadowtools.page.verdicts import verdicts  # noqa: E402
from shadowtools.places import revision  # noqa: E402

TEMPLATE = os.path.join(os.path.dirname(os.path.dirname(os.path.abspath(__file__))), "page", "report.html")
# The options that are about a simulation alone, with what they are where they are not given.
OF_A_RUN = {"estimate": None, "scale": None, "obtainable": None, "cuts": [], "levels": None, "decimals": None, "record": None,
            "bands": None, "watch": None, "by": "truth", "between": None, "rules": None, "picture": None}


def options(words: Sequence[str]) -> argparse.Namespace:
    parser = Options(__doc__)
    parser.add_argument("prefix", nargs="?")
    for name in ("run", "series", "to", "rules", "picture", "record"):
        parser.add_argument("--" + name)
    parser.add_argument("--target", nargs="+")
    add_reporting(parser)
    parser.add_argument("--bands", nargs="+", type=finite)
    parser.add_argument("--watch", nargs="+", type=whole(0, 60))
    parser.add_argument("--by", choices=("truth", "estimate"), default="truth")
    parser.add_argument("--between", nargs=2, type=finite)
    parser.add_argument("--template", default=TEMPLATE)
    parser.add_argument("--unbound", action="store_true")
    found = parser.read(words, lambda found: bool(found.prefix and found.to and (found.run or found.series)))
    if found.series:
        for name in ["run"] * bool(found.run) + [name for name, default in OF_A_RUN.items() if getattr(found, name) != default]:
            raise Refused(f"--{name} is about a simulation; it is not used with --series")
    given = [name for name in OPTIONS if getattr(found, name) != OF_A_RUN[name]]
    if found.record and given:
        raise Refused(f"--{given[0]} is not used beside --record, which has it")
    found.reporting = reporting_of_record(found.record) if found.record else reporting_of(found)
    return found


def questions(given: argparse.Namespace) -> Questions:
    """What is asked of the page. Refused are numbers that do not ascend, and a target that is none."""
    for name, values in (("bands", given.bands or []), ("between", given.between or [])):
        if (np.diff(values) <= 0).any():
            raise Refused(f"--{name} {' '.join(map(str, values))}: abilities that ascend")
    if given.target and len(given.target) not in (1, 3):
        raise Refused(f"--target {' '.join(given.target)}: a file, or LOW HIGH INFORMATION")
    return Questions(target_of(given.target), given.bands, given.by == "estimate", given.between)


def require_abilities(given: argparse.Namespace, examination: Examination, run: dict) -> None:
    """Refuses edges of bands, and abilities of --between, that are neither on the grid nor among the true abilities."""
    low, high = (end([*examination.map["theta"], *run["true"]]) for end in (min, max))
    for name, values in (("bands", given.bands or []), ("between", given.between or [])):
        for value in values:
            if not low <= value <= high:
                raise Refused(f"--{name} {value:g}: abilities in {unit_of(examination.map['theta'])}, here {low:.4g} to {high:.4g}; a score on "
                              "another scale is none")


# ---------------------------------------------------------------- what is read

def sessions_of_run(given: argparse.Namespace, run: dict,
                    examination: Examination) -> Tuple[List[Session], List[Session], Exposure]:
    """The whole sessions of the sample and of the tails, and the exposure of the sample. Refused are a journal that is not the
    run's by its SHA-256, and a run of another bank or plan."""
    for name in ("bank", "plan", "map"):
        if run["sha256"].get(name) != examination.sha256[name]:
            raise Refused(f"{given.run}.run.json is of another {name} than that of {given.prefix}; simulate again")
    require_points(given.watch or [], len(examination.theta), "--watch")
    counts, tails = journal_of(given.run + ".journal", run, "journal", examination, given.watch), []
    if run["tails"]:
        more = journal_of(given.run + ".tails.journal", run, "tails", examination)
        tails = parted(more.sessions, run["examinees"])[1]
    sample = counts.sessions
    whole = [[one for one in part if len(one.responses) == examination.plan.length] for part in (sample, tails)]
    last = [max((one.booking for one in part), default=0) for part in (sample, tails)]
    if not whole[0] or last[0] >= run["examinees"] or last[1] >= len(run["true"]):
        raise Refused(f"{given.run}.journal has no whole session, or is not the journal of {given.run}.run.json")
    return whole[0], whole[1], counts


def retakes(given: argparse.Namespace, run: dict, examination: Examination, sample: Sequence[Session]) -> Optional[Retakes]:
    """The second sittings of the run, if it has any. Refused are a journal that is not the run's, and one that lacks a whole session."""
    if not run["retakers"]:
        return None
    path = given.run + ".second.journal"
    second = journal_of(path, run, "second", examination).sessions
    found = retakes_of(run, sample, second)
    if found.number != len(run["retakers"]) or any(len(one.responses) != examination.plan.length for one in second):
        raise Refused(f"{path} has not the whole session of each second sitting; simulate again")
    return found


def journal_of(path: str, run: dict, name: str, examination: Examination, watch: Optional[List[int]] = None) -> Exposure:
    if run["sha256"].get(name) != sha256_of(path):
        raise Refused(f"{path} is not the journal of the run, by its SHA-256; use the files that simulate.py wrote together")
    return exposure_of(read_journal(path), examination.bank, examination.plan, watch)


# ---------------------------------------------------------------- what is written

def page(template: str, title: str, lead: str, said: Sequence[Verdict], parts: Sequence[Section], script: str = "") -> str:
    """The page. The template escapes every value. With a script it has a policy that lets this one alone run."""
    environment = jinja2.Environment(autoescape=True, undefined=jinja2.StrictUndefined, trim_blocks=False)
    try:
        made = environment.from_string(text_of(template))
    except jinja2.TemplateSyntaxError as error:
        raise Refused(f"{template}: line {error.lineno}: {error.message}")

    def render(policy: str) -> str:
        try:
            return made.render(title=title, lead=lead, verdicts=said, sections=parts, policy=policy) + "\n"
        except jinja2.TemplateError as error:
            raise Refused(f"{template}: {error.message}")
    text = render("")
    return render(policy_of(text, script)) if script else text


def page_of_run(study: Study, template: str) -> str:
    lead = (f"A simulation of {len(study.sample):,} examinees, each with a test of {study.length} items"
            + (f", and of {len(study.tails):,} more at the ends of the scale" if len(study.tails) else "") + f". {study.run['date']}.")
    return page(template, f"Simulated examination: {os.path.basename(study.examination.prefix)}", lead, verdicts(study), sections(study))


def write_table(path: str, table: pd.DataFrame) -> None:
    table.to_csv(path, index=False, lineterminator="\n", float_format="%.4f")


def now() -> str:
    return datetime.datetime.now(datetime.timezone.utc).strftime("%Y-%m-%d %H:%M UTC")


def page_of_series(given: argparse.Namespace) -> int:
    """Writes the page of a series and its table. The exit status."""
    table = os.path.splitext(given.to)[0] + ".forms.csv"
    for path in (given.to, table):
        require_folder("--to", path)
    examination, target = load(given.prefix, given.unbound), target_of(given.target)
    weights = given.prefix + ".weights.txt"
    series = series_page.Series(examination, read_weights(weights, len(examination.theta)), text_of(given.series), target)
    facts = [("Target asked", f"{'standard error' if target.is_error else 'information'}: {target.name}")] if target else []
    date = now()
    facts += [("Page made", date), ("Revision of the tools", revision())]
    facts += [] if examination.is_bound else [UNBOUND]
    digests = [(name, examination.sha256[name]) for name in ("bank", "plan", "map")]
    digests += [("weights", sha256_of(weights)), ("printed series", sha256_of(given.series))]
    forms = f"{len(series.forms)} fixed forms" if len(series.forms) > 1 else "One fixed form"
    lead = f"{forms} of {series.length} items{' each, without common items' if len(series.forms) > 1 else ''}, assembled for the " \
           f"{series_page.abilities(series)}. {date}."
    text = page(given.template, f"Fixed forms: {os.path.basename(given.prefix)}", lead, series_page.verdicts(series),
                series_page.sections(series, facts, digests))
    head, rows = series_page.table_by_item(series)
    write(given.to, text)
    write(table, table_text([head, *rows]))
    bad = series_page.broken(series)
    print(f"{given.to}: {len(series.forms)} forms, value {series.value}, {'proved' if series.is_proved else 'unproved'}, {len(bad)} broken rules")
    return 1 if bad else 0


def page_of_window(words: Sequence[str]) -> int:
    """Writes the page of a window of real examinees and its tables. The exit status."""
    given = window_report.options(words, TEMPLATE)
    if given.is_appeal:
        return page_of_appeal(given)
    found = window_report.findings(given, window_report.tell)
    window = found.window
    lead = f"{window_page.count(len(window.complete), 'complete test')} of {window_page.count(len(window.sessions), 'session')}, each of {window.length} " \
           f"items. {now()}."
    text = page(given.template, f"Technical report of a window: {os.path.basename(given.prefix)}", lead, window_page.verdicts(found),
                window_page.sections(found))
    return window_report.write_report(given, found, text)


def page_of_appeal(given: argparse.Namespace) -> int:
    """Writes the page of one session. The exit status."""
    found = window_report.appeal(given, window_report.tell)
    key = " and the key of the draws" if found.evidence.has_key and has_draws(found.examination.files()[1]) else ""
    lead = f"Examination {os.path.basename(given.prefix)}, booking {found.session.booking}, session {found.number}. For the appeal board: it names items, and " \
           f"is confidential: has the whole bank{key}. {now()}."
    text = page(given.template, "One examinee's test, step by step", lead, appeal_page.verdicts(found), appeal_page.sections(found),
                found.evidence.part().script)
    require_size(given.to, text, (*found.examination.files(), given.journal))
    if found.evidence.has_key:
        warn_of_later(found.examination.files()[1], given.journal, "page", "give --without-key")
    write(given.to, text)
    print(f"{given.to}: session {found.number}, booking {found.session.booking}, score {found.row['scale'] or 'none'}, audits "
          f"{'agree' if found.audits.agree else 'DISAGREE'}")
    return 0 if found.holds else 1


def page_of_prices(words: Sequence[str]) -> int:
    """Writes the page on the price of each rule and its tables. The exit status."""
    given = price.options(words, TEMPLATE)
    examination = load(given.prefix)
    try:
        found = price.prices_of(examination, given.program, given.at, given.rules_only, window_report.tell)
    except price.WithoutForm as refused:
        print(refused, file=sys.stderr)
        return refused.status
    digests = [(name, examination.sha256[name]) for name in ("bank", "plan", "map")] + [("program", sha256_of(given.program))]
    lead = f"Tests of {examination.plan.length} items from a bank of {len(examination.items)}. {now()}. Revision of the tools {revision()}."
    text = page(given.template, f"The price of each rule: {os.path.basename(given.prefix)}", lead, price_page.verdicts(found),
                price_page.sections(found, digests))
    for path, content in zip((given.to, *price.beside_page(given.to)), (text, *map(table_text, price.tables_of(found)))):
        write(path, content)
    print(f"{given.to}: {len(found.rows)} rules, {len(found.gains)} items to write, {found.forms} forms")
    return 0


def main(words: Sequence[str]) -> int:
    if "--prices" in words:
        return page_of_prices(words)
    if any(word.partition("=")[0] == "--journal" for word in words):
        return page_of_window(words)
    given = options(words)
    return page_of_series(given) if given.series else report_of_run(given)


def report_of_run(given: argparse.Namespace) -> int:
    """Writes the page of a simulation and its tables. The exit status."""
    asked, begin = questions(given), os.path.splitext(given.to)[0]
    tables = [f"{begin}.{name}.csv" for name in ("sessions", "answers", "items", "rules")]
    for path in (given.to, *tables, given.picture or given.to):
        require_folder("--to" if path != given.picture else "--picture", path)
    examination, run = load(given.prefix, given.unbound), read_run(given.run + ".run.json")
    require_abilities(given, examination, run)
    scorer = Scorer(examination.bank, examination.plan.prior, examination.map, given.reporting)
    rules = rules_of(given.rules, examination)
    sample, tails, counts = sessions_of_run(given, run, examination)
    study = Study(examination, run, sample, tails, rules, asked, counts, scorer, retakes(given, run, examination, sample))
    text = page_of_run(study, given.template)
    try:
        with open(given.to, "w", encoding="utf-8") as file:
            file.write(text)
        for path, table in zip(tables, (study.people, answers(study), table_by_item(study), table_by_rule(study))):
            write_table(path, table)
        if given.picture:
            at_a_glance(study, chosen(study)[1], given.picture)
    except OSError as error:
        raise Refused(f"{error.filename}: {error.strerror}")
    errors = study.people.theta[study.sample] - study.people.true[study.sample]
    broken = len(study.broken) + len(study.broken_second)
    print(f"{given.to}: {len(study.sessions)} sessions, {broken} broken rules, RMSE {np.sqrt((errors ** 2).mean()):.4f} "
          f"({SHORT_NAMES[given.reporting.estimate]})")
    return 1 if broken else 0


command = as_command(main)


if __name__ == "__main__":
    sys.exit(command())
