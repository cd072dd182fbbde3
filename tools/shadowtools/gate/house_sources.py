"""What the tools on the house share: the crates of crates.txt, their files, and the lines of contracts."""
import dataclasses
import functools
import os
import re
from typing import Dict, Iterator, List

from shadowtools.places import TOP

NO_PRODUCT = re.compile(r".*_trials|.*_bench|trial_cases")
HEAD = re.compile(r"^(\s*)(?:pub(?:\([a-z]+\))? )?(?:const )?(?:unsafe )?fn (\w+)")


@functools.lru_cache(maxsize=None)
def text_of(path: str) -> str:
    with open(path, encoding="utf-8") as file:
        return file.read()


def crates() -> Dict[str, List[str]]:
    """Each crate of crates.txt in its order, with the libraries that its line names."""
    lines = (line.split("#")[0].strip() for line in text_of(os.path.join(TOP, "crates.txt")).splitlines())
    named = (line.split(":") for line in lines if line)
    return {name.split()[0]: uses.split() for name, uses in named}


def product() -> List[str]:
    return [name for name in crates() if not NO_PRODUCT.fullmatch(name)]


def files(crate: str, folder: str) -> List[str]:
    """The files of Rattle of a crate's folder `src`, `specs` or `proofs`, in order."""
    ending = ".rt" if folder == "src" else ".antt"
    found = []
    for here, _, names in os.walk(os.path.join(TOP, "crates", crate, folder)):
        found += [os.path.join(here, name) for name in names if name.endswith(ending)]
    return sorted(found)


@dataclasses.dataclass(frozen=True)
class Contract:
    """The contract of a function: the file, the function, and the number of lines of its clauses."""
    path: str
    name: str
    lines: int


def contracts(path: str) -> Iterator[Contract]:
    """The contracts of a file: of each function the lines from its first clause to the brace that opens its body, without comments."""
    name, indent, clauses = "", "", -1
    for line in text_of(path).splitlines():
        head = HEAD.match(line)
        if head:
            indent, name, clauses = head.group(1), head.group(2), -1
        if name and re.match(r"\s*(requires|ensures)\b", line) and clauses < 0:
            clauses = 0
        if clauses >= 0 and line.rstrip() in (indent + "{", indent + "{}", indent + "}"):
            yield Contract(path, name, clauses)
            name, clauses = "", -1
        elif clauses >= 0 and not line.lstrip().startswith("//"):
            clauses += 1
