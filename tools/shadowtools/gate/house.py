"""Numbers of the house that may only fall: what is unused, what is written twice, and what is too long.

    tools/house.py      prints each number beside its limit; the last line is 'N passed, M failed'

A number above its limit fails. A number below it passes, and the line has the new limit to write here.
"""
import re
from typing import Callable, Dict

from shadowtools.command import as_command
from shadowtools.gate import imports, repeats
from shadowtools.gate.house_sources import contracts, crates, files, product, text_of

LONG_CONTRACT = 30  # lines of clauses
LARGE_ROOM = 2500  # lines of `src` of a crate with definitions
COLUMNS = 100  # of a line of comment
COMMENT = re.compile(r"\s*(//|--)")


def unused_entries() -> int:
    """Libraries that a line of crates.txt names and no file of the crate."""
    def is_named(crate: str, library: str) -> bool:
        word = re.compile(rf"\b{library}\b")
        return any(word.search(text_of(path)) for folder in ("src", "specs", "proofs") for path in files(crate, folder))
    return sum(not is_named(crate, library) for crate, uses in crates().items() for library in uses)


def long_contracts() -> int:
    return sum(contract.lines > LONG_CONTRACT for crate in product() for path in files(crate, "src") for contract in contracts(path))


def large_rooms() -> int:
    def lines(crate: str) -> int:
        return sum(text_of(path).count("\n") for path in files(crate, "src"))
    return sum(lines(crate) > LARGE_ROOM for crate in product() if len(files(crate, "specs")) > 1)  # one file is Lib alone


def wide_comments() -> int:
    """Lines of comment above COLUMNS, in the sources, definitions and proofs of all crates."""
    places = [path for crate in crates() for folder in ("src", "specs", "proofs") for path in files(crate, folder)]
    return sum(len(line) > COLUMNS and COMMENT.match(line) is not None for path in places for line in text_of(path).splitlines())


NUMBERS: Dict[str, Callable[[], int]] = {
    "unused imports": lambda: len(imports.all_unused(list(crates()))),
    "unused entries of crates.txt": unused_entries,
    "pairs of copies in the product's code": lambda: len(repeats.of_folder("src")),
    "lines of proofs in a second place": lambda: repeats.second_lines(repeats.of_folder("proofs")),
    f"contracts above {LONG_CONTRACT} lines": long_contracts,
    f"crates with definitions above {LARGE_ROOM:,} lines of code": large_rooms,
    f"lines of comment above {COLUMNS} columns": wide_comments,
}
LIMITS = {
    "unused imports": 0,
    "unused entries of crates.txt": 0,
    "pairs of copies in the product's code": 251,
    "lines of proofs in a second place": 3098,
    f"contracts above {LONG_CONTRACT} lines": 29,
    f"crates with definitions above {LARGE_ROOM:,} lines of code": 5,
    f"lines of comment above {COLUMNS} columns": 0,
}


def main(words):
    failed = 0
    for title, number_of in NUMBERS.items():
        number, limit = number_of(), LIMITS[title]
        failed += number > limit
        print(f"{number} {title}, at most {limit}" + (f": write {number} here" if number < limit else ": TOO MANY" if number > limit else ""))
    print(f"{len(NUMBERS) - failed} passed, {failed} failed")
    return failed > 0


command = as_command(main)
