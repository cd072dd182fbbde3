"""Makes docs/PROMISES.md from the comments above the clauses, and holds it against the code.

    tools/promises.py           checks the page; the last line is 'N passed, M failed'
    tools/promises.py --write   writes the page
    tools/promises.py --list    prints each public call with the names of its clauses

The page begins as promises_page.md beside this file, which is written by hand. It has a section for each crate, with a heading '## `crate`',
and rows of three cells in the place of '{rows}': a promise, the functions that keep it, and the clauses that state it. A row is a comment in
a contract, or above a function without a clause of its own:

    // Promise: what is promised, in as many lines as it needs
    // - of `the_function`, `another_function`
    // - by `the_clause` (`ADefinition`), `another_clause`
    ensures the_clause { .. }

Without '- of' it is of the function that it is in. Without '- by' it is by the clause that it is above. The rows of a crate are in the order
of the modules in its lib.rt, and within a module in the order of the text. Checked is that
- the page is what would be written;
- each function that a row names is a public call of that crate;
- each name in a row's last cell is that of a clause of one of these functions, a word of their contracts, or a word of the
  definitions that these contracts reach;
- each public call of each library has a row;
- no sentence has more than 40 words, in a paragraph, a line of a list or a cell; the column of clauses isn't counted.
Crates of tests (`.._trials`, `trial_cases`) and programs promise nothing to other crates, and have no section.
"""
import os
import re
import sys

from shadowtools.command import Refused, as_command
from shadowtools.formats.definitions import Library
from shadowtools.places import TOP

CRATES = os.path.join(TOP, "crates")
PAGE = os.path.join(TOP, "docs", "PROMISES.md")
HEAD = os.path.join(os.path.dirname(os.path.abspath(__file__)), "promises_page.md")
NAME = r"[A-Za-z_][A-Za-z0-9_]*"
MOST_WORDS = 40


def text_of(path):
    with open(path, encoding="utf-8") as file:
        return file.read()


def libraries():
    """The names of the crates that promise something to others."""
    found = []
    for line in text_of(os.path.join(TOP, "crates.txt")).splitlines():
        name = line.split("#")[0].split(":")[0].split(" ")[0].strip()
        is_library = name and os.path.isfile(os.path.join(CRATES, name, "src", "lib.rt"))
        if is_library and not name.endswith("_trials") and name != "trial_cases":
            found.append(name)
    return found


def exports(crate):
    """The names that a crate hands out from modules of its own, and its public modules."""
    text = re.sub(r"//[^\n]*", "", text_of(os.path.join(CRATES, crate, "src", "lib.rt")))
    modules = set(re.findall(rf"^(?:pub )?mod ({NAME});", text, re.M))
    public = set(re.findall(rf"^pub mod ({NAME});", text, re.M))
    names = set(re.findall(rf"^pub (?:fn|struct|enum|trait) ({NAME})", text, re.M))
    for path, many, one in re.findall(rf"^pub use ((?:{NAME}::)+)(?:\{{([^}}]*)\}}|({NAME}));", text, re.M):
        if path.replace("crate::", "").split("::")[0] in modules:
            names |= {it.strip() for it in (many or one).split(",") if it.strip()}
    return names, public


def contract_from(lines, at):
    """The text of a function from its first line to the beginning of its body or its end, without comments."""
    indent = re.match(r" *", lines[at]).group()
    taken = [lines[at]]
    if re.search(r"\{\}?\s*$", taken[0]):
        return taken[0]
    while not taken[-1].endswith(";") and not re.match(rf"{indent}\{{", taken[-1]) and at + 1 < len(lines):
        at += 1
        taken.append(re.sub(r"//.*", "", lines[at]).rstrip())
    return "\n".join(taken)


class Call:
    """A public call of a crate: its name, the contract, and the text of its file, where it begins at a line."""

    def __init__(self, name, lines, at, path):
        self.name, self.at, self.path = name, at, path
        self.contract = contract_from(lines, at)
        self.whole = "\n".join(lines)

    def is_at(self, path, at):
        """Whether a line of a file is in the contract of this call."""
        return path == self.path and self.at <= at <= self.at + self.contract.count("\n")


def sources_of(crate):
    """The files of a crate with their modules, in the order of the modules in its lib.rt."""
    folder = os.path.join(CRATES, crate, "src")
    order = re.findall(rf"^(?:pub )?mod ({NAME});", text_of(os.path.join(folder, "lib.rt")), re.M)
    paths = [os.path.join(at, it) for at, _, all_of in os.walk(folder) for it in all_of if it.endswith(".rt")]
    found = [(os.path.relpath(it, folder)[:-3].split(os.sep)[0], it) for it in paths]
    return sorted(found, key=lambda it: (order.index(it[0]) if it[0] in order else -1, it[1]))


def owner_of(line):
    """The name of the trait or type that a block is of, the type that meets a trait in it, and whether it is a trait."""
    block = re.match(r"(?:pub )?(?:unsafe )?(impl|trait)\b(.*)", line)
    if not block:
        return None, None, False
    head = block.group(2)
    for _ in range(3):
        head = re.sub(r"<[^<>]*>", "", head)
    if block.group(1) == "trait":
        return re.match(rf"\s*({NAME})", head).group(1), None, True
    met = re.search(rf" for (?:&mut )?({NAME})", f" {head} ")
    return (None, met.group(1), False) if met else ((re.search(NAME, head) or [None])[0], None, False)


def public_calls(crate):
    """The public calls of a crate, and for a type the contracts of the traits that it meets, with the text of their file."""
    names, public = exports(crate)
    found, of_traits = [], {}
    for module, path in sources_of(crate):
        owner, in_trait = None, False
        lines = text_of(path).splitlines()
        for at, line in enumerate(lines):
            if re.match(r"(?:pub )?(?:unsafe )?(impl|trait)\b", line):
                owner, met, in_trait = owner_of(line)
                if met in names:
                    end = next(it for it in range(at, len(lines)) if lines[it].startswith("}"))
                    texts = [contract_from(lines, it) for it in range(at, end) if re.match(r"\s+fn ", lines[it])]
                    of_traits.setdefault(met, []).append(("\n".join(texts), "\n".join(lines)))
            elif line.startswith("}"):
                owner = None
            call = re.match(rf"(\s*)(pub )?(?:const )?(?:unsafe )?fn ({NAME})", line)
            if not call:
                continue
            if call.group(1) == "":
                is_public = call.group(2) and (call.group(3) in names or module in public)
                name = f"{module}::{call.group(3)}" if module in public else call.group(3)
            else:
                is_public = owner in names and (call.group(2) or in_trait)
                name = f"{owner}::{call.group(3)}"
            if is_public:
                found.append(Call(name, lines, at, path))
    return found, of_traits


def calls_of(crate):
    """The public calls of a crate, each with the names of its clauses and the words of its contract, and the contract with the text of its file.
    A call of a type also has the contracts of the traits that the type meets."""
    calls, of_traits = public_calls(crate)
    found = {}
    for it in calls:
        texts = [(it.contract, it.whole), *of_traits.get(it.name.split("::")[0], [])]
        found[it.name] = (re.findall(rf"ensures ({NAME})", it.contract), set(re.findall(NAME, it.contract)), texts)
    return found


def blocks_of(lines):
    """The promises of a file: of each its three parts, as they are written, and the number of the line below it."""
    part, parts, found = None, {}, []
    for at, line in enumerate([*lines, ""]):
        comment = re.match(r"\s*// ?(.*)", line)
        text = comment.group(1).strip() if comment and not line.strip().startswith("///") else None
        begins = re.match(r"(Promise:|- of|- by) (.*)", text or "")
        if parts and (text is None or begins and begins.group(1) == "Promise:"):
            found.append((parts, at))
            part, parts = None, {}
        if begins and (parts or begins.group(1) == "Promise:"):
            part = begins.group(1)
            parts[part] = begins.group(2)
        elif part and text is not None:
            parts[part] += " " + text
    below = {}
    for at in range(len(lines) - 1, -1, -1):
        below[at] = below.get(at + 1, at) if lines[at].strip().startswith("//") else at
    return [(parts, below.get(at, at)) for parts, at in found]


def rows_of_code(crate):
    """The rows of a crate's section, as lines of a table."""
    calls, _ = public_calls(crate)
    rows = []
    for _, path in sources_of(crate):
        lines = text_of(path).splitlines()
        for parts, at in blocks_of(lines):
            name = next((it.name for it in calls if it.is_at(path, at)), None)
            clause = re.match(rf"\s*(ensures|requires)(?: ({NAME}))?", lines[at]) if at < len(lines) else None
            by = "" if not clause else f"`{clause.group(2)}`" if clause.group(2) else "the clause"
            if not parts.get("- of", name) or not parts.get("- by", by):
                raise Refused(f"{os.path.relpath(path, TOP)}: line {at + 1} has a promise of no public call, or by no clause")
            rows.append(f"| {parts['Promise:']} | {parts.get('- of', f'`{name}`')} | {parts.get('- by', by)} |")
    return rows


def page_of_code():
    """The page as it is to be: the text by hand with the rows of each crate, and each promise that has no section."""
    lines, crate, shown = [], None, set()
    for line in text_of(HEAD).splitlines():
        heading = re.match(r"## (?:.*?`([a-z0-9_]+)`)?", line)
        crate = heading.group(1) if heading else crate
        if line == "{rows}":
            lines += rows_of_code(crate)
            shown.add(crate)
        else:
            lines.append(line)
    without = [it for it in libraries() if it not in shown and rows_of_code(it)]
    return "\n".join(lines) + "\n", [f"{it} has promises, and the page no section for them" for it in without]


def words_reached(library, crate, calls):
    """The words of all definitions that the contracts of these calls reach."""
    found = set()
    for text, whole in (it for call in calls for it in call[2]):
        found |= set(re.findall(NAME, text))
        for key in library.closure(library.cited_by_code(text, whole, crate)):
            definition = library.definitions[key]
            found |= set(re.findall(NAME, definition.text)) | {key[2]}
    return found


def rows_of_page():
    """Each row with its crate and its line: functions and names of clauses as the page writes them."""
    crate = None
    for number, line in enumerate(text_of(PAGE).splitlines(), 1):
        heading = re.match(r"## .*?`([a-z0-9_]+)`", line)
        if heading:
            crate = heading.group(1)
        elif re.match(r"## ", line):
            crate = None
        cells = cells_of(line) if line.startswith("|") else []
        if crate and len(cells) == 3 and cells[0] != "Promise" and not re.fullmatch(r"-+", cells[0].strip()):
            yield number, crate, re.findall(r"`([^`]+)`", cells[1]), re.findall(r"`([^`]+)`", cells[2])


def cells_of(line):
    """The cells of a line of a table."""
    return [it.strip() for it in re.split(r"(?<!\\)\|", line)[1:-1]]


def passages_of(text):
    """Each paragraph, line of a list, heading and cell of a page, with the number of its first line; a row's column of clauses is left out."""
    lines, first = [], 0
    for number, line in enumerate([*text.splitlines(), ""], 1):
        starts = re.match(r"(?:[-*]|\d+\.)\s+", line)
        if lines and (starts or not line.strip() or line[0] in "|#"):
            yield first, " ".join(lines)
            lines = []
        if line.startswith("|"):
            yield from ((number, cell) for cell in cells_of(line)[:-1])
        elif line.startswith("#"):
            yield number, line.strip("# ")
        elif line.strip():
            first = first if lines else number
            lines.append(line[starts.end():] if starts else line.strip())


def sentences_of(text):
    """The sentences of a page, each with the number of the line where its passage begins. A code span is one word, and of a link its text counts."""
    for number, passage in passages_of(text):
        plain = re.sub(r"\]\([^)]*\)", "]", re.sub(r"`[^`]*`", "code", passage))
        for sentence in re.split(r"(?<=[.!?])[)\"*_]*\s+", plain):
            yield number, sentence.split()


def long_sentences(text):
    """A fault for each sentence of a page that has too many words."""
    return [f"line {number}: a sentence of {len(words)} words, more than {MOST_WORDS}: {' '.join(words[:6])} .."
            for number, words in sentences_of(text) if len(words) > MOST_WORDS]


def main(words):
    calls = {it: calls_of(it) for it in libraries()}
    if "--list" in words:
        for crate in calls:
            print(f"\n## `{crate}`")
            for name in calls[crate]:
                print(f"  {name}: {', '.join(calls[crate][name][0]) or '-'}")
        return 0
    page, faults = page_of_code()
    if "--write" in words:
        with open(PAGE, "w", encoding="utf-8") as file:
            file.write(page)
    elif page != text_of(PAGE):
        faults.append("docs/PROMISES.md is not what the comments have: tools/promises.py --write makes it")
    library, passed, with_row = Library(), 0, {it: set() for it in calls}
    faults += long_sentences(page)
    for number, crate, functions, clauses in rows_of_page():
        if crate not in calls:
            faults.append(f"line {number}: there is no library `{crate}`")
            continue
        known = [it for it in functions if it in calls[crate]]
        before = len(faults)
        faults += [f"line {number}: {crate} has no public call `{it}`" for it in functions if it not in calls[crate]]
        with_row[crate] |= set(known)
        of_calls = set().union(*[set(calls[crate][it][0]) | calls[crate][it][1] for it in known]) if known else set()
        reached = words_reached(library, crate, [calls[crate][it] for it in known])
        for it in clauses:
            lacking = [word for word in re.findall(NAME, it) if word not in of_calls and word not in reached]
            if lacking:
                faults.append(f"line {number}: no clause of {', '.join(functions)}, and no definition that they reach, has `{it}`")
        passed += len(faults) == before
    for crate in calls:
        for it in calls[crate]:
            if it in with_row[crate]:
                passed += 1
            else:
                faults.append(f"{crate}::{it} has no row")
    for it in faults:
        print(it)
    print(f"{passed} passed, {len(faults)} failed")
    return 1 if faults else 0


command = as_command(main)


if __name__ == "__main__":
    sys.exit(command())
