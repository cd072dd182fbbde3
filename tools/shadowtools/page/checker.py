"""What the page for an appeal has to check itself: the texts and records of the session, the script appeal.js, and the policy that lets
no other script run. The script is written from docs/FORMATS.md; it shares nothing with these tools."""
import base64
import hashlib
import os
import re
from dataclasses import dataclass
from typing import Any, Dict, Iterable, List, Tuple

from shadowtools.agency.scoring import BY_LIKELIHOOD, NAMES, Scorer
from shadowtools.checkers import audit
from shadowtools.command import Refused
from shadowtools.formats.examination import opened
from shadowtools.formats.exposure import Exposure
from shadowtools.formats.tables import text_of
from shadowtools.formats.written import json_text

SCRIPT = os.path.join(os.path.dirname(os.path.abspath(__file__)), "appeal.js")
MOST_BYTES = 20_000_000
WITHOUT_KEY = "# The key of the draws was left out of this page."
KEY = re.compile(r"^key ([0-9a-f]{64})$", re.M)


@dataclass(frozen=True)
class Checker:
    """The part of a page that judges its own records in the reader's browser."""
    evidence: str
    script: str
    kind: str = "checker"


@dataclass(frozen=True)
class Record:
    """A record of a session: its number in the journal from 1, its version, and its bytes, which are an open gate, the length and the payload."""
    number: int
    version: int
    data: bytes


def records_of(journal: str, session: int) -> List[Record]:
    """The records of a session in a journal that was audited."""
    found = []
    with opened(journal, "rb") as file:
        for number, (_, version, payload) in enumerate(audit.counted(file, file.seek(0, 2)), 1):
            if int.from_bytes(payload[1:5], "big") == session:
                found.append(Record(number, version, b"\1" + len(payload).to_bytes(4, "big") + payload))
    return found


@dataclass(frozen=True)
class Evidence:
    """All that is judged. `counts` has the exposure before the start of the session; without a key `plan` has a remark in its place."""
    session: int
    booking: int
    bank: str
    plan: str
    has_key: bool
    records: List[Record]
    counts: Exposure
    names: List[str]
    scorer: Scorer

    def digests(self) -> List[Tuple[str, str]]:
        """Name and SHA-256 of what the page alone has. The script compares them, and those of bank and plan, with its texts."""
        found = [] if self.has_key else [("plan without its key", digest(self.plan.encode()))]
        records = b"".join(record.data for record in self.records)
        return [*found, ("records of this session", digest(records)), ("checker of this page, appeal.js", digest(text_of(SCRIPT).encode()))]

    def part(self) -> Checker:
        """The part of the page. A “<” of the texts is written so that none of them ends its element."""
        script = text_of(SCRIPT)
        if "</script" in script or "<!--" in script:
            raise Refused(f"{SCRIPT}: a text that ends the element of the script")
        return Checker(json_text(self.values(), is_compact=True, in_ascii=True).replace("<", "\\u003c"), script)

    def values(self) -> Dict[str, Any]:
        bands = [{"shown": band.shown, "eligible": band.eligible} for band in self.counts.bands]
        records = [{"number": one.number, "version": one.version, "bytes": one.data.hex()} for one in self.records]
        return {"session": self.session, "booking": str(self.booking), "hasKey": self.has_key, "bank": self.bank, "plan": self.plan,
                "records": records, "counts": bands, "names": self.names, "score": self.score()}

    def score(self) -> Dict[str, Any]:
        """How scores are made, by the options of the record of scores."""
        scorer, scale = self.scorer, self.scorer.scale
        return {"name": NAMES[scorer.asked.estimate], "estimate": scorer.asked.estimate, "isByLikelihood": scorer.asked.estimate in BY_LIKELIHOOD,
                "theta": scorer.theta, "logUnit": scorer.unit, "informationUnit": scorer.map["information_unit"], "start": scale.start,
                "unit": scale.unit, "low": scale.low, "high": scale.high, "decimals": scale.decimals}


def digest(data: bytes) -> str:
    return hashlib.sha256(data).hexdigest()


def plan_without_key(text: str) -> str:
    """The text of a plan with a remark in the place of its key, which is left out of other remarks too; its other lines keep their numbers."""
    key = KEY.search(text)
    return re.sub(key.group(1), "(left out)", KEY.sub(WITHOUT_KEY, text), flags=re.I) if key else text


# ---------------------------------------------------------------- the page

def policy_of(page: str, script: str) -> str:
    """The policy of a page: of all scripts this one alone, of all styles those of its elements, pictures that are in the page, and no network."""
    def hashes(texts: Iterable[str]) -> str:
        return " ".join(f"'sha256-{base64.b64encode(hashlib.sha256(text.encode()).digest()).decode()}'" for text in texts)
    styles = re.findall(r"<style>(.*?)</style>", page, re.S)
    return (f"default-src 'none'; script-src {hashes([script])}; style-src {hashes(styles) or chr(39) + 'none' + chr(39)}; img-src data:; "
            "base-uri 'none'; form-action 'none'")


def require_size(path: str, page: str, files: Iterable[str]) -> None:
    """Refuses a page that a browser would not take with ease."""
    size = len(page.encode())
    if size > MOST_BYTES:
        raise Refused(f"{path}: the page would have {size:,} bytes, above {MOST_BYTES:,}; judge the records by "
                      f"python3 tools/audit.py {' '.join(files)} --trees")
