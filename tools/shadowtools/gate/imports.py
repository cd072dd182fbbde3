"""Names that a file of Rattle imports and does not use, over .rt and .antt.

    tools/imports.py [CRATE..]         lists them; the last line has their number
    tools/imports.py --fix [CRATE..]   takes those of .antt files and of `ghost use` in .rt files out; `rt check` then shows whether one was needed after all

A name is used where it is a whole word outside of the import lines, and an operator where its sign is. Imports that are handed on (`pub use`) are
left out, and so are traits, whose methods are used without their name.
"""
import argparse
import collections
import dataclasses
import os
import re
from typing import Dict, Iterator, List, Optional

from shadowtools.command import as_command
from shadowtools.gate.house_sources import crates, files, text_of
from shadowtools.places import TOP

LETTER = r"[\w\-']"
IMPORT = {".antt": re.compile(r"^(?:pub )?use [^\n]*\n", re.M),
          ".rt": re.compile(r"^[ \t]*(?:pub(?:\([a-z]+\))? )?(?:ghost )?use [^;]*;[^\n]*\n", re.M)}
TRAIT = re.compile(r"(Disk|Link|Source|Sink|Files|Handler|Display|Write|Read|Clock|Doors|Rng|SeedableRng|RngCore|Sync|Wait|Watch|Gate|Hash|Hasher"
                   r"|Digest|FromStr|Drop|BufRead|Seek|ToString|Iterator|Deref|DerefMut|Context|Net|Threads|Door|GrowingLog|NextWord|ToSocketAddrs"
                   r"|As\w+|\w+Ext)")


@dataclasses.dataclass(frozen=True)
class Unused:
    """A name that nothing uses: its file, its line, the text of the import, and the part of it that brings the name in."""
    path: str
    line: int
    statement: str
    part: str

    @property
    def is_ghost(self) -> bool:
        return bool(re.match(r"\s*ghost", self.statement))


def parts_of(inner: str) -> List[str]:
    """The parts of a list in braces, at the commas outside of inner braces."""
    parts, depth, now = [], 0, ""
    for sign in inner:
        depth += (sign == "{") - (sign == "}")
        if sign == "," and depth == 0:
            parts.append(now.strip())
            now = ""
        else:
            now += sign
    return parts + [now.strip()] if now.strip() else parts


def name_of(part: str) -> Optional[str]:
    """The name that a part of an import brings in; none of a glob, of `self`, or of `as _`."""
    if part.endswith(("*", "_")) or part == "self":
        return None
    if " as " in part:
        return part.split(" as ")[-1].strip()
    return re.split(r"::|(?<=[\w\]])\.", part)[-1].strip()


def names_of(statement: str) -> Dict[str, Optional[str]]:
    """Each part of an import with the name that it brings in."""
    body = re.sub(r"\s+", " ", re.sub(r"^\s*(?:ghost )?use\s+", "", statement.strip()).rstrip(";").strip())
    at = body.find("{")
    if at < 0 or not body.endswith("}"):
        return {body: name_of(body)}
    found: Dict[str, Optional[str]] = {}
    for part in parts_of(body[at + 1:-1]):
        inner = parts_of(part[part.find("{") + 1:-1]) if "{" in part else [part]
        found.update({it: name_of(it) for it in inner})
    return found


def is_used(name: Optional[str], rest: str) -> bool:
    if name is None:
        return True
    if "◌" in name:
        if name == "◌>>=◌" and re.search(rf"(?<!{LETTER})do(?!{LETTER})", rest):
            return True
        return all(sign.strip() in rest for sign in name.split("◌") if sign)
    if not re.match(LETTER, name[0]):
        return name in rest
    return re.search(rf"(?<!{LETTER}){re.escape(name)}(?!{LETTER})", rest) is not None


def unused(path: str) -> Iterator[Unused]:
    text, ending = text_of(path), os.path.splitext(path)[1]
    found = list(IMPORT[ending].finditer(text))
    rest = re.sub(r"(?m)^\s*(--|//).*$", "", IMPORT[ending].sub("", text))
    for match in found:
        statement = match.group()
        if statement.lstrip().startswith("pub"):
            continue
        for part, name in names_of(statement).items():
            one = Unused(path, text.count("\n", 0, match.start()) + 1, statement, part)
            is_method = ending == ".rt" and not one.is_ghost and name and TRAIT.fullmatch(name)
            if not is_method and not is_used(name, rest):
                yield one


def without(statement: str, gone: List[str]) -> str:
    """An import without some of its parts; empty where none is left."""
    left = [part for part in names_of(statement) if part not in gone]
    if not left:
        return ""
    at = statement.find("{")
    return statement if at < 0 else statement[:at + 1] + ", ".join(left) + statement[statement.rfind("}"):]


def fix(path: str) -> None:
    text, gone = text_of(path), collections.defaultdict(list)
    for one in unused(path):
        if one.is_ghost or path.endswith(".antt"):
            gone[one.statement].append(one.part)
    for statement, parts in gone.items():
        text = text.replace(statement, without(statement, parts), 1)
    with open(path, "w", encoding="utf-8") as file:
        file.write(text)


def all_unused(names: List[str]) -> List[Unused]:
    return [one for crate in names for folder in ("src", "specs", "proofs") for path in files(crate, folder) for one in unused(path)]


def main(words):
    parser = argparse.ArgumentParser(description=__doc__, formatter_class=argparse.RawDescriptionHelpFormatter)
    parser.add_argument("crates", nargs="*", metavar="CRATE")
    parser.add_argument("--fix", action="store_true", help="take those of .antt files and of `ghost use` out")
    given = parser.parse_args(words)
    names = given.crates or list(crates())
    if given.fix:
        for path in (path for crate in names for folder in ("src", "specs", "proofs") for path in files(crate, folder)):
            fix(path)
        text_of.cache_clear()
    found = all_unused(names)
    for one in found:
        print(f"{os.path.relpath(one.path, TOP)}:{one.line} {one.part}")
    print(f"{len(found)} unused imports in {len({one.path for one in found})} files")
    return 0


command = as_command(main)
