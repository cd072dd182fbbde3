"""The chain from bank and plan to results: which files belong together, and what the program says of them.

`irt_bank.py` writes the SHA-256 (FIPS 180-4) of the bank and of the plan into the map, and that of the map into the plan. The tools
that read them later read all three by `read_documents`. It refuses a file that is not the one that the others were written with, and
computes the bank and the prior again from the map.
"""
import hashlib
import os
import re
from dataclasses import dataclass
from typing import Any, Dict, List, Optional

from shadowtools.agency.bank_of_map import fault_of_bank, fault_of_prior, has_models
from shadowtools.agency.program import run
from shadowtools.checkers import audit, mutate_bank, text_readers
from shadowtools.command import Refused
from shadowtools.formats.examination import BankItem, Plan, opened, read_bank, read_map, read_plan, require_agreement
from shadowtools.formats.tables import text_of
from shadowtools.formats.written import json_text

CURE = "use the files that irt_bank.py wrote together"
# The remark by which a plan names its map.
NAMES_MAP = re.compile(r"(?m)^# map SHA-256 (.*)$")


@dataclass(frozen=True)
class Documents:
    """Bank, plan and map of one examination. `sha256` has the digests of the files `bank`, `plan` and `map`, in hexadecimal.
    `is_bound`: the plan names the map by its digest."""
    bank: List[BankItem]
    plan: Plan
    map: dict
    sha256: Dict[str, str]
    is_bound: bool


def sha256_of(path: str) -> str:
    """The SHA-256 of a file, in hexadecimal."""
    return hashlib.sha256(bytes_of(path)).hexdigest()


def bytes_of(path: str) -> bytes:
    with opened(path, "rb") as file:
        try:
            return file.read()
        except OSError as error:
            raise Refused(f"{path}: {error.strerror}")


def map_digest(scale_map: Dict[str, Any]) -> str:
    """The SHA-256 of a map, in hexadecimal, by which its plan names it: of the map's JSON without the member `sha256`, which has that
    of the plan. The JSON is in UTF-8, without spaces, its members in the order of their names."""
    named = {name: value for name, value in scale_map.items() if name != "sha256"}
    text = json_text(named, in_order_of_names=True, is_compact=True)
    return hashlib.sha256(text.encode("utf-8", "surrogatepass")).hexdigest()


def require_bound(plan: str, map_path: str, scale_map: Dict[str, Any], may_be_unbound: bool) -> bool:
    """Whether the plan names the map. Refused is a plan that names another, and one that names none where it may not."""
    named = set(NAMES_MAP.findall(text_of(plan)))
    if named and named != {map_digest(scale_map)}:
        raise Refused(f"{map_path}: not the map that {plan} names, by its SHA-256 {map_digest(scale_map)}; {CURE}")
    if not named and not may_be_unbound:
        raise Refused(f"{plan}: no line '# map SHA-256 ..', so nothing shows that {map_path} is its map; make bank, plan and map again from "
                      "the same tables, or give --unbound")
    return bool(named)


def require_made_from(documents: Documents, bank: str, plan: str, map_path: str) -> None:
    """Refuses a bank or a prior that is not that of the map. A map without the models of its items gives none, and may be unbound alone."""
    if not documents.is_bound and not has_models(documents.map):
        return
    found = fault_of_bank(documents.map, documents.bank)
    if found:
        raise Refused(f"{bank}: not the bank of the parameters in {map_path}: {found}; {CURE}")
    found = fault_of_prior(documents.map, documents.plan.prior)
    if found:
        raise Refused(f"{plan}: not the prior of {map_path}: {found}; {CURE}")


def read_documents(bank: str, plan: str, map_path: str, program: Optional[str] = None, may_be_unbound: bool = False) -> Documents:
    """The documents at three paths. Refused is a bank or plan that is not the map's by its digest, a map that is not the plan's by
    its digest, a bank or prior that is not that of the map's parameters, a file that can't be read, and texts that `shadowd check`
    refuses; `program` is the path of a built shadowd, if there is one."""
    found = read_map(map_path)
    digests = {"bank": sha256_of(bank), "plan": sha256_of(plan), "map": sha256_of(map_path)}
    for name, path in (("bank", bank), ("plan", plan)):
        if found["sha256"].get(name) != digests[name]:
            raise Refused(f"{path}: not the {name} of {map_path}, by its SHA-256 {digests[name]}; {CURE}")
    is_bound = require_bound(plan, map_path, found, may_be_unbound)
    require_taken(bank, plan, program)
    documents = Documents(read_bank(bank), read_plan(plan), found, digests, is_bound)
    require_agreement(documents.bank, documents.plan, plan)
    if len(found["items"]) != len(documents.bank) or len(found["theta"]) != len(documents.plan.prior):
        raise Refused(f"{map_path} is not the map of {bank} and {plan}")
    require_made_from(documents, bank, plan, map_path)
    return documents


def require_taken(bank: str, plan: str, program: Optional[str]) -> None:
    """Refuses bank and plan where `shadowd check` does; without a program by the readers that are held beside it."""
    if program and os.path.exists(program):
        said_by(program, "check", bank, plan)
        return
    path = bank
    try:
        grid, items = mutate_bank.read(bytes_of(bank))
        path = plan
        text_readers.read_plan(bytes_of(plan), grid, items)
    except Refused as refused:
        raise Refused(f"{path}: {refused.line}")


def audited(bank: str, plan: str, journal: str, program: Optional[str] = None) -> str:
    """The summary line of an audit, by the program where it is built, else by tools/audit.py, which takes minutes for
    thousands of steps. Refused is a journal that is none of this bank and plan."""
    if program and os.path.exists(program):
        return said_by(program, "audit", bank, plan, journal=journal)[0]
    rules = audit.read_rules(bank, plan)
    with opened(journal, "rb") as file:
        try:
            return next(audit.lines(audit.audit(rules, file)))
        except Refused as refused:
            raise Refused(f"{journal}: {refused.line}")


def said_by(program: str, command: str, bank: str, plan: str, journal: Optional[str] = None) -> List[str]:
    """What a command of shadowd prints. Refused where its status is not 0, with the file that it is about."""
    status, said = run(program, command, bank, plan, journal)
    wanted = {"check": "bank items ", "audit": "entries "}[command]
    if status or not said.startswith(wanted):
        about = {3: bank, 4: plan, 6: journal, 9: journal}.get(status) or program
        raise Refused(f"{about}: shadowd {command}, status {status}: {' '.join(said.split())[:80]}")
    return said.splitlines()
