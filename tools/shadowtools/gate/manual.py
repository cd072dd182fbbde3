"""Makes docs/shadowd.1, the manual page, from docs/COMMANDS.md.

    tools/manual.py           writes the page
    tools/manual.py --check   compares it with what would be written; the last line is 'N passed, M failed'

Each row of a table becomes an entry: the first cell is its tag, and the others follow, with the heading of their column but for the one that
explains. A line of a list that begins with commands is added to their entries. A link becomes its words with the page that it leads to. The date
of the page is that of the newest heading of CHANGELOG.md. Nothing of groff is needed.
"""
import os
import re
import sys
import textwrap
from typing import Dict, List, Sequence

from shadowtools.command import Refused, as_command
from shadowtools.formats.definitions import text_of
from shadowtools.places import TOP

PAGE = os.path.join(TOP, "docs", "COMMANDS.md")
MANUAL = os.path.join(TOP, "docs", "shadowd.1")
CHANGES = os.path.join(TOP, "CHANGELOG.md")
PURPOSE = "computerized adaptive tests by shadow tests"
COLUMNS = 78
EXPLAINS = ("What it does, and prints", "What it is", "Meaning")
LISTS = ("Of", "Line", "Reads")
SPECIAL = {"\\": "\\e", "-": "\\-", "'": "\\(aq", "`": "\\(ga", "^": "\\(ha", "~": "\\(ti"}


class Table:
    """A table of the page: the headings of its columns, and its rows."""

    def __init__(self, text: str, title: str) -> None:
        lines = re.findall(r"^\|.*\|$", text, re.M)
        cells = [[cell.strip() for cell in re.split(r"(?<!\\)\|", line)[1:-1]] for line in lines]
        if len(cells) < 3 or any(len(row) != len(cells[0]) for row in cells):
            raise Refused(f"docs/COMMANDS.md: section {title!r} has no table, or rows of different lengths")
        self.headings, self.rows = cells[0], cells[2:]
        if not any(it in EXPLAINS for it in self.headings):
            raise Refused(f"docs/COMMANDS.md: the table of section {title!r} has no column that explains")


# ---------------------------------------------------------------- the page

def section_of(text: str, title: str) -> str:
    """The text below a heading, up to the next one."""
    found = re.search(rf"^## {re.escape(title)}\n(.*?)(?=^## |\Z)", text, re.M | re.S)
    if not found:
        raise Refused(f"docs/COMMANDS.md has no section {title!r}")
    return found.group(1)


def paragraphs_of(text: str) -> List[str]:
    """The paragraphs of a text, each in one line, without its tables, lists, headings and code."""
    blocks = re.split(r"\n\s*\n", re.sub(r"^```.*?^```", "", text, flags=re.M | re.S).strip())
    return [" ".join(it.split()) for it in blocks if it and it[0] not in "|-#"]


def lines_of_list(text: str) -> List[str]:
    """The lines of the lists of a text, each with what is below it."""
    return [" ".join(it.split()) for it in re.findall(r"^- (.*(?:\n  .*)*)", text, re.M)]


def example_of(text: str) -> List[str]:
    """The lines of the block of code of a text."""
    found = re.search(r"^```\n(.*?)^```", text, re.M | re.S)
    if not found:
        raise Refused("docs/COMMANDS.md: section 'Examples' has no block of code")
    return found.group(1).splitlines()


def date_of(changes: str) -> str:
    """The date of the newest heading of the changelog."""
    found = re.search(r"^## .*?(\d{4}-\d\d-\d\d)$", changes, re.M)
    if not found:
        raise Refused("CHANGELOG.md has no heading with a date")
    return found.group(1)


# ---------------------------------------------------------------- roff

def literal(text: str) -> str:
    """A text of which roff changes no character."""
    return "".join(SPECIAL.get(it, it if it.isascii() else f"\\[u{ord(it):04X}]") for it in text)


def of_link(words: str, target: str, is_alone: bool) -> str:
    """The words of a link, with the page that it leads to where they are not its name. A link that is alone in its brackets needs no others."""
    name = target.partition("#")[0]
    if not name or words == name:
        return f"docs/{name}" if name else words
    return f"{words}: docs/{name}" if is_alone else f"{words} (docs/{name})"


def without_links(text: str) -> str:
    """A text of Markdown whose links are words, without its anchors."""
    text = re.sub(r"<a id=[^>]*></a>", "", text)
    text = re.sub(r"\(\[([^\]]*)\]\(([^)\s]*)\)\)", lambda it: f"({of_link(it[1], it[2], True)})", text)
    return re.sub(r"\[([^\]]*)\]\(([^)\s]*)\)", lambda it: of_link(it[1], it[2], False), text)


def marked(text: str) -> str:
    """A text of Markdown in roff: code is bold and keeps its spaces, and what is emphasized is in italics."""
    parts = re.split(r"`([^`]*)`", without_links(text).replace("\\|", "|"))
    for at, part in enumerate(parts):
        if at % 2:
            parts[at] = f"\\fB{literal(part).replace(' ', '~')}\\fR".replace("~", "\\~")
        else:
            plain = "".join(it if it.isascii() else literal(it) for it in part.replace("\\", "\\e"))
            parts[at] = re.sub(r"(?<!\w)\*+([^*]+)\*+", r"\\fI\1\\fR", plain)
    return "".join(parts)


def filled(text: str) -> List[str]:
    """The lines of a text in roff: each sentence begins one, and none is taken for a request."""
    lines = []
    for sentence in re.split(r"(?<=[.!?])\s+", marked(text)):
        lines += textwrap.wrap(sentence, COLUMNS, break_long_words=False, break_on_hyphens=False)
    return ["\\&" + it if it[0] in ".'" else it for it in lines]


def ended(text: str) -> str:
    """A text with the point that a cell leaves out."""
    return text if text[-1] in ".!?" else text + "."


def sentence_of(text: str) -> str:
    """A cell as a sentence."""
    return ended(text[0].upper() + text[1:])


def entry_of(table: Table, row: Sequence[str], tag: str, added: Sequence[str] = ()) -> List[str]:
    """A row as an entry: its cells one below the other, those that are empty left out."""
    texts = []
    for heading, cell in list(zip(table.headings, row))[1:]:
        if heading in EXPLAINS:
            texts.append(" ".join([sentence_of(cell), *map(sentence_of, added)]))
        elif cell:
            texts.append(f"{heading}: {cell if heading in LISTS else ended(cell)}")
    lines = filled(texts[0])
    for text in texts[1:]:
        lines += [".br", *filled(text)]
    return [".TP", tag, *lines]


# ---------------------------------------------------------------- the sections of the manual

def words_of(command: str) -> List[str]:
    """The words of a command, as its cell has them."""
    found = re.search(r"`shadowd ([a-z]+(?: [^`]*)?)`$", command)
    if not found:
        raise Refused(f"docs/COMMANDS.md: {command} is no command")
    return found.group(1).split()


def synopsis_of(commands: Table) -> List[str]:
    """Each command with its words."""
    lines = []
    for row in commands.rows:
        name, *words = words_of(row[0])
        plain = " ".join(it for it in words if it[0] != "[")
        lines += [".br", f".B shadowd {name}"] + ([f".I {plain}"] if plain else [])
        lines += [f".RI [ {it.strip('[]')} ]" for it in words if it[0] == "["]
    return lines[1:]


def added_of(text: str) -> Dict[str, List[str]]:
    """What the lists of a section add to each command."""
    found: Dict[str, List[str]] = {}
    for line in lines_of_list(text):
        names, _, rest = line.partition(": ")
        for name in re.findall(r"`(\w+)`", names):
            found.setdefault(name, []).append(rest)
    return found


def description_of(text: str, commands: Table) -> List[str]:
    """What is below the first sentence of the page, and each command."""
    added = added_of(section_of(text, "Commands"))
    lines = filled(paragraphs_of(text)[1])
    for row in commands.rows:
        name = words_of(row[0])[0]
        lines += entry_of(commands, row, f".B {name}", added.pop(name, []))
    if added:
        raise Refused(f"docs/COMMANDS.md: a line of a list is of {', '.join(added)}, which is no command of the table")
    return lines


def table_of(text: str, title: str, font: str) -> List[str]:
    """A section with its paragraphs before the entries and after them."""
    section = section_of(text, title)
    table = Table(section, title)
    before, after = section[:section.index("\n|")], section[section.rindex("|\n") + 2:]
    lines = [line for it in paragraphs_of(before) for line in [".PP", *filled(it)]]
    for row in table.rows:
        lines += entry_of(table, row, f".{font} {literal(row[0].strip('`'))}")
    return lines + [line for it in paragraphs_of(after) for line in [".PP", *filled(it)]]


def manual_of(text: str, date: str) -> str:
    """The manual page of a page of commands."""
    commands = Table(section_of(text, "Commands"), "Commands")
    seen = [line for it in lines_of_list(section_of(text, "Other pages")) for line in [".br", *filled(it)]]
    lines = ['.\\" Made by tools/manual.py of docs/COMMANDS.md: change that page, and run the tool.',
             f'.TH SHADOWD 1 {date} Lumdarvo "User commands"',
             ".SH NAME", f"shadowd \\- {PURPOSE}",
             ".SH SYNOPSIS", *synopsis_of(commands),
             ".SH DESCRIPTION", *description_of(text, commands),
             ".SH FILES", *table_of(text, "Files", "I"),
             ".SH ENVIRONMENT", *table_of(text, "Environment variables", "B"),
             ".SH EXIT STATUS", *table_of(text, "Statuses", "B"),
             ".SH EXAMPLES", ".nf", *map(literal, example_of(section_of(text, "Examples"))), ".fi",
             ".SH SEE ALSO", *seen[1:]]
    return "\n".join(it for at, it in enumerate(lines) if it != ".PP" or not lines[at - 1].startswith(".SH")) + "\n"


def main(words: Sequence[str]) -> int:
    made = manual_of(text_of(PAGE), date_of(text_of(CHANGES)))
    if "--check" in words:
        is_same = os.path.isfile(MANUAL) and text_of(MANUAL) == made
        if not is_same:
            print("docs/shadowd.1 is not what tools/manual.py makes of docs/COMMANDS.md: run it")
        print("1 passed, 0 failed" if is_same else "0 passed, 1 failed")
        return 0 if is_same else 1
    with open(MANUAL, "w", encoding="utf-8") as file:
        file.write(made)
    return 0


command = as_command(main)


if __name__ == "__main__":
    sys.exit(command())
