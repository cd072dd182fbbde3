"""The results that a record of scores is of, made again by its options, so that they can be held against its digest."""
import hashlib
from typing import Dict, NamedTuple, Sequence

from shadowtools.agency import score
from shadowtools.agency.custody import Documents, sha256_of
from shadowtools.agency.scoring import Scorer, reporting_of_record
from shadowtools.command import Refused
from shadowtools.formats.examination import Session, json_of


class Results(NamedTuple):
    """A record, the scorer that its options ask for, the least number of answers of a score, and the results as score.py prints them."""
    record: dict
    scorer: Scorer
    least: int
    text: str


def read_record(path: str) -> dict:
    """The record of scores at a path."""
    record = json_of(path)
    if not isinstance(record, dict) or not isinstance(record.get("sha256"), dict) or not isinstance(record.get("options"), dict) \
            or type(record["options"].get("least")) is not int:
        raise Refused(f"{path}: no record of score.py")
    return record


def may_be_unbound(record: dict) -> bool:
    """Whether the scores were asked for with --unbound: of a plan that does not name its map."""
    return record["options"].get("unbound") is True


def require_own(path: str, record: dict, digests: Dict[str, str]) -> None:
    """Refuses a record of another bank, plan, map or journal than those of the digests."""
    for name, digest in digests.items():
        if record["sha256"].get(name) != digest:
            raise Refused(f"{path}: of another {name}: its SHA-256 is not {digest}; score this journal with --record")


def results_of(path: str, documents: Documents, journal: str, sessions: Sequence[Session]) -> Results:
    """The results of the record at a path, for the sessions of a journal. Refused are a record of other files, and one whose digest the
    results don't have."""
    record = read_record(path)
    require_own(path, record, dict(documents.sha256, journal=sha256_of(journal)))
    scorer = Scorer(documents.bank, documents.plan.prior, documents.map, reporting_of_record(path))
    least = record["options"]["least"]
    text = score.table_text([score.COLUMNS, *score.rows_of(scorer, documents, sessions, least, bool(record.get("audit")), True)])
    if hashlib.sha256(text.encode("utf-8", "surrogatepass")).hexdigest() != record["sha256"].get("results"):
        raise Refused(f"{path}: the results that its options give are not those of its SHA-256; score this journal again")
    return Results(record, scorer, least, text)
