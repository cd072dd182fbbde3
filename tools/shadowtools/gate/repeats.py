"""Places that share lines, over the sources of Rattle: copies that a reader meets twice.

    tools/repeats.py [--of src|specs|proofs] [--list N]

A pair is two places with at least six equal lines in a row, counted once at its full length. Contracts, imports, attributes and comments are left out.
Code is that of the product, without the crates of tests and benchmarks. The last line has the number of pairs, and of the lines that are in the second place
of some pair. `--list N` prints the N longest.
"""
import argparse
import collections
import dataclasses
import os
import re
from typing import Dict, List, Tuple

from shadowtools.command import as_command
from shadowtools.gate.house_sources import crates, files, product, text_of
from shadowtools.places import TOP

LEAST = 6  # lines of a pair
TELLING = 4  # of these so many are longer than three signs: braces alone are no copy
MOST_PLACES = 60  # more places with the same lines are a form, such as a derive, and no copy
Line = Tuple[int, str]


@dataclasses.dataclass(frozen=True)
class Pair:
    """Two places with equal lines: how many, and for each place its file, the number of its first line, and where that is in the list of lines."""
    lines: int
    first: Tuple[str, int, int]
    second: Tuple[str, int, int]
    text: str


def counted(path: str) -> List[Line]:
    """The lines that count, each with its number."""
    found, in_clause, in_import, antt = [], False, False, path.endswith(".antt")
    for number, line in enumerate(text_of(path).split("\n"), 1):
        text = re.sub(r"\s+", " ", line.strip())
        if in_import:
            in_import = not text.endswith(";")
            continue
        if not text or text.startswith(("//", "--", "#[", "#![")) or re.match(r"(pub(\([a-z]+\))? )?mod \w+;", text):
            continue
        if re.match(r"(pub(\([a-z]+\))? )?(ghost )?use ", text):
            in_import = not antt and not text.endswith(";")
            continue
        in_clause = in_clause or not antt and text.startswith(("requires", "ensures"))
        if in_clause and text not in ("{", "{}"):
            continue
        in_clause = False
        found.append((number, text))
    return found


def places_of(lines: Dict[str, List[Line]]) -> Dict[Tuple[str, ...], List[Tuple[str, int]]]:
    """The places of each run of LEAST lines."""
    found = collections.defaultdict(list)
    for path, of_file in lines.items():
        for start in range(len(of_file) - LEAST + 1):
            run = tuple(text for _, text in of_file[start:start + LEAST])
            if sum(len(text) > 3 for text in run) >= TELLING:
                found[run].append((path, start))
    return {run: places[:MOST_PLACES] for run, places in found.items()}


def pair_at(lines: Dict[str, List[Line]], one: Tuple[str, int], two: Tuple[str, int]) -> List[Pair]:
    """The pair that begins at two places with LEAST equal lines; none where it began before, or where the places overlap."""
    (p, i), (q, j) = one, two
    a, b, same = lines[p], lines[q], p == q
    if same and j - i < LEAST or i > 0 and j > 0 and a[i - 1][1] == b[j - 1][1]:
        return []
    length = LEAST
    while i + length < len(a) and j + length < len(b) and a[i + length][1] == b[j + length][1] and not (same and i + length >= j):
        length += 1
    return [Pair(length, (p, a[i][0], i), (q, b[j][0], j), a[i][1])]


def pairs(paths: List[str]) -> List[Pair]:
    """The pairs of these files, the longest first."""
    lines = {path: counted(path) for path in paths}
    found = [pair for places in places_of(lines).values() for at, one in enumerate(places) for two in places[at + 1:] for pair in pair_at(lines, one, two)]
    return sorted(found, key=lambda pair: (-pair.lines, pair.first, pair.second))


def second_lines(found: List[Pair]) -> int:
    return len({(pair.second[0], pair.second[2] + k) for pair in found for k in range(pair.lines)})


def of_folder(folder: str) -> List[Pair]:
    names = product() if folder == "src" else list(crates())
    return pairs([path for crate in names for path in files(crate, folder)])


def main(words):
    parser = argparse.ArgumentParser(description=__doc__, formatter_class=argparse.RawDescriptionHelpFormatter)
    parser.add_argument("--of", choices=("src", "specs", "proofs"), default="src")
    parser.add_argument("--list", type=int, default=0, metavar="N")
    given = parser.parse_args(words)
    found = of_folder(given.of)
    for pair in found[:given.list]:
        print(f"{pair.lines:4} lines", *(f"{os.path.relpath(path, TOP)}:{line}" for path, line, _ in (pair.first, pair.second)), f"| {pair.text[:70]}")
    print(f"{len(found)} pairs of at least {LEAST} lines in {given.of}, {second_lines(found)} lines in a second place")
    return 0


command = as_command(main)
