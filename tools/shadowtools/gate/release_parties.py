"""The text THIRD-PARTY of a release: each crate of the kit that the program is linked from, with its licence."""
import dataclasses
import os
import re
from typing import Dict, List, Sequence

from shadowtools.command import Refused
from shadowtools.formats.tables import text_of

# A licence, and words by which its text is known.
KINDS = {
    "MIT": "permission is hereby granted, free of charge, to any person obtaining a copy",
    "Apache-2.0": "apache license version 2.0",
    "BSD-3-Clause": "redistribution and use in source and binary forms",
    "BSL-1.0": "boost software license - version 1.0",
    "Unlicense": "this is free and unencumbered software",
}
LICENCE = re.compile(r"(LICEN[CS]E|UNLICENSE|COPYING)\b.*")
HEAD = """Third parties in shadowd {version}

The program is linked from crates of this project and from the crates below, which are those of
{kit}.
Each row has the licences whose texts the kit has beside the crate; the texts are at the end. "none" is a
crate beside which the kit has no licence: ask the kit's makers before you pass the program on. The
program uses the C library of the system, which is not a part of it.

"""


@dataclasses.dataclass(frozen=True)
class Party:
    """A crate of the kit, and the texts of its licences by their file's name."""
    crate: str
    texts: Dict[str, str]

    @property
    def licences(self) -> List[str]:
        return sorted({kind for name, text in self.texts.items() for kind in kinds_of(text)})


def kinds_of(text: str) -> List[str]:
    plain = " ".join(text.lower().split())
    return [kind for kind, words in KINDS.items() if words in plain]


def uses_of(crates_txt: str) -> Dict[str, List[str]]:
    """Each crate of crates.txt with the crates that its line names."""
    lines = (line.split("#")[0].strip() for line in crates_txt.splitlines())
    return {line.split(":")[0].split()[0]: line.split(":")[1].split() for line in lines if line}


def linked(crates_txt: str, kit_folder: str, program: str = "shadowd") -> List[str]:
    """The crates of the kit that a program stands on, by crates.txt and by the kit's own lists."""
    uses, found, left = uses_of(crates_txt), set(), [program]
    own = set(uses)
    while left:
        crate = left.pop()
        if crate in found:
            continue
        found.add(crate)
        if crate not in own:
            path = os.path.join(kit_folder, "rlibs", crate + ".rlib", "format")
            if not os.path.isfile(path):
                raise Refused(f"{path}: it is not there, so what {crate} stands on is not known", "no-crate")
            with open(path, encoding="utf-8", errors="replace") as file:
                uses[crate] = re.findall(r"^dep (\w+)$", file.read(), re.M)
        left += uses[crate]
    return sorted(found - own)


def party_of(crate: str, kit_folder: str) -> Party:
    place = os.path.join(kit_folder, "rattle", crate)
    names = sorted(os.listdir(place)) if os.path.isdir(place) else []
    texts = {name: text_of(os.path.join(place, name)) for name in names if LICENCE.fullmatch(name)}
    for name, text in texts.items():
        if not kinds_of(text):
            raise Refused(f"{os.path.join(place, name)}: it is no licence that is known here", "no-licence")
    return Party(crate, texts)


def third_party(version: str, kit: str, parties: Sequence[Party]) -> str:
    """The text: a row for each crate, then each text of a licence once, with the crates that have it."""
    rows = [f"{party.crate:<20}{', '.join(party.licences) or 'none'}" for party in parties]
    owners: Dict[str, List[str]] = {}
    for party in parties:
        for name, text in party.texts.items():
            owners.setdefault(text.strip("\n"), []).append(f"{party.crate}/{name}")
    texts = ["\n".join(["-" * 100, *names, "-" * 100, text]) for text, names in owners.items()]
    return HEAD.format(version=version, kit=kit) + "\n".join(rows) + "\n\n" + "\n\n".join(texts) + "\n"
