"""Makes crates/README.md, the pictures of the crates, from crates.txt and the first sentence of each crate's own description.

    tools/crates_page.py           writes the page
    tools/crates_page.py --check   compares it with what would be written; the last line is 'N passed, M failed'

The first picture has the blocks of crates.txt, and each block has one of its own. An arrow leads from a crate to one that it uses, or to the block of
that one if it is another block. Arrows that follow from others are left out.
"""
import os
import re
import sys
from typing import Dict, List, Sequence, Tuple

from shadowtools.command import as_command
from shadowtools.formats.definitions import text_of
from shadowtools.places import TOP

PAGE = os.path.join(TOP, "crates", "README.md")
HEAD = """# The crates

For whoever looks for a crate. This page is made by `tools/crates_page.py` from `crates.txt`, and the full check compares the two. The blocks are those of
`crates.txt`, the lowest first: a crate uses only crates above it on this page. [ARCHITECTURE.md](../docs/ARCHITECTURE.md) has how a request flows through them.
An arrow leads to what is used; arrows that follow from others are left out. A round node is a block."""
Blocks = Sequence[Tuple[str, Dict[str, List[str]]]]
Arrows = Dict[str, List[str]]


def blocks():
    """The blocks of crates.txt: a title, and each crate with the crates of the repository and of the kit that it names."""
    found = []
    for line in text_of(os.path.join(TOP, "crates.txt")).splitlines():
        if line.startswith("#"):
            found.append((line.lstrip("# ").strip(), {}))
        elif line.strip():
            name, _, needs = line.partition(":")
            found[-1][1][name.split()[0]] = needs.split()
    return [(title, crates) for title, crates in found if crates]


def purpose(crate):
    """The first sentence of a crate's own description."""
    folder = os.path.join(TOP, "crates", crate, "src")
    root = next(it for it in ("lib.rt", "main.rt") if os.path.isfile(os.path.join(folder, it)))
    said = " ".join(it[3:].strip() for it in text_of(os.path.join(folder, root)).splitlines() if it.startswith("//!"))
    return re.split(r"(?<=[.])\s", said)[0]


def reduced(needs):
    """The arrows without those that follow from others."""
    below = {}
    for crate, used in needs.items():  # crates.txt has each crate after those that it uses
        below[crate] = set(used).union(*(below[it] for it in used))
    return {crate: [it for it in used if not any(it in below[other] for other in used)] for crate, used in needs.items()}


def homes(all_blocks: Blocks) -> Dict[str, int]:
    """The number of each crate's block."""
    return {crate: number for number, (_, crates) in enumerate(all_blocks) for crate in crates}


def flowchart(lines: Sequence[str]) -> str:
    return "\n".join(["```mermaid", "flowchart BT", *(f"  {line}" for line in lines), "```"])


def node_of(number: int, all_blocks: Blocks) -> str:
    return f'block{number}(["{all_blocks[number][0]}"])'


def picture_of_blocks(all_blocks: Blocks, arrows: Arrows) -> str:
    """The blocks, with an arrow to each block that one of the crates uses."""
    home = homes(all_blocks)
    used = {number: sorted({home[it] for crate in crates for it in arrows[crate]} - {number}) for number, (_, crates) in enumerate(all_blocks)}
    lines = [node_of(number, all_blocks) for number in used]
    return flowchart(lines + [f"block{number} --> block{it}" for number, others in reduced(used).items() for it in others])


def picture_of_block(number: int, all_blocks: Blocks, arrows: Arrows) -> str:
    """The crates of a block, and the other blocks that they use."""
    home, crates = homes(all_blocks), list(all_blocks[number][1])
    others = sorted({home[it] for crate in crates for it in arrows[crate]} - {number})
    lines = crates + [node_of(other, all_blocks) for other in others]
    for crate in crates:
        lines += [f"{crate} --> {it}" for it in arrows[crate] if home[it] == number]
        lines += [f"{crate} --> block{other}" for other in sorted({home[it] for it in arrows[crate]} - {number})]
    return flowchart(lines)


def link_of(crate: str) -> str:
    page_of = f", [design]({crate}/DESIGN.md)" if os.path.isfile(os.path.join(TOP, "crates", crate, "DESIGN.md")) else ""
    return f"[`{crate}`]({crate}){page_of}"


def page():
    all_blocks = blocks()
    named = {crate: needs for _, crates in all_blocks for crate, needs in crates.items()}
    arrows = reduced({crate: [it for it in needs if it in named] for crate, needs in named.items()})
    parts = [HEAD, picture_of_blocks(all_blocks, arrows)]
    for number, (title, crates) in enumerate(all_blocks):
        rows = []
        for crate, needs in crates.items():
            kit = [it for it in needs if it not in named]
            uses = ", ".join(f"`{it}`" for it in arrows[crate]) + (f"; of the kit {', '.join(kit)}" if kit else "")
            rows.append(f"| {link_of(crate)} | {purpose(crate)} | {uses.removeprefix('; ')} |")
        parts.append("\n".join([f"## {title[0].upper()}{title[1:]}", "", "| Crate | What it is for | What it uses |", "|---|---|---|", *rows]))
        parts.append(picture_of_block(number, all_blocks, arrows))
    return "\n\n".join(parts) + "\n"


def main(words):
    made = page()
    if "--check" in words:
        is_same = os.path.isfile(PAGE) and text_of(PAGE) == made
        if not is_same:
            print("crates/README.md is not what tools/crates_page.py makes of crates.txt: run it")
        print("1 passed, 0 failed" if is_same else "0 passed, 1 failed")
        return 0 if is_same else 1
    with open(PAGE, "w", encoding="utf-8") as file:
        file.write(made)
    return 0


command = as_command(main)


if __name__ == "__main__":
    sys.exit(command())
