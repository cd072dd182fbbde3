"""Makes docs/HEADLINE.md, the contract of `run` with what each claim of README needs of it, and prints the text of definitions.

    tools/headline.py                     writes the page, and prints how many definitions the contract reaches
    tools/headline.py --check             compares it with what would be written; the last line is 'N passed, M failed'
    tools/headline.py --list              prints the number of definitions by crate, by reading of a claim, and by command
    tools/headline.py --definition NAME   prints a definition of any crate: its sentence, its text, and what it cites
    tools/headline.py --reading NAME      prints the definitions that a reading of a claim needs, in an order to read them in
    tools/headline.py --text              prints each definition that the contract reaches, in such an order

The NAME of a definition is `Best`, `Forms.Best` or `form_model Forms.Best`; the name of a reading is its heading on the page, as `claim 1, of a
replay`. The page begins with headline_page.md beside this file, which is written by hand; claims.py has the readings of the claims. A definition's
sentence is the comment above it, or else that of headline_sentences.txt. The page has digests of what --text and --reading print, so --check fails
where the text of a definition has changed. --check also fails if a definition that is reached has no sentence, and if there are more definitions
than MOST, more in a reading than its `most`, or more others without a sentence than MOST_BARE: a contract that grows has to be seen.
"""
import collections
import difflib
import hashlib
import os
import re
import sys
import textwrap
from typing import Dict, List, Sequence

from shadowtools.command import Refused, as_command, print_utf8
from shadowtools.formats.definitions import Key, Library, crates, text_of
from shadowtools.gate.claims import CALL, COMMANDS, alone, needs_of, numbered, together
from shadowtools.places import TOP

PAGE = os.path.join(TOP, "docs", "HEADLINE.md")
HEAD = os.path.join(os.path.dirname(os.path.abspath(__file__)), "headline_page.md")
SENTENCES = os.path.join(os.path.dirname(os.path.abspath(__file__)), "headline_sentences.txt")
MOST = 1276
WIDTH = 120
MOST_BARE = 125


def cell(text):
    return text.replace("|", "\\|")


def first_sentence(text):
    return text.split(". ")[0].rstrip(".") + "." if text else ""


def sentences(text):
    """The sentences of a list, by the key of their definition."""
    found = {}
    for line in text.splitlines():
        if line and not line.startswith("#"):
            name, _, said = line.partition(": ")
            crate, _, path = name.partition(" ")
            module, _, last = path.partition(".")
            found[(crate, module, last)] = said
    return found


def faults_of_sentences(library, reached, listed):
    """The definitions without a sentence, and the sentences of the list that no definition needs."""
    lacking = [key for key in reached if not library.definitions[key].comment and key not in listed]
    needless = [key for key in listed if key not in reached or library.definitions[key].comment]
    return [f"{key[0]} {key[1]}.{key[2]} has no sentence" for key in lacking] + \
        [f"headline_sentences.txt: {key[0]} {key[1]}.{key[2]} needs no sentence" for key in needless]


def written(definition, listed, last_section):
    """The lines of one definition, with its sentence, and with the parameters of its section if they are new."""
    lines = [definition.section] if definition.section and definition.section != last_section else []
    indent = definition.text[:len(definition.text) - len(definition.text.lstrip())]
    sentence = definition.comment or listed.get(definition.key, "")
    mark = indent + ("/// " if definition.is_declared else "-- ")
    lines += textwrap.wrap(sentence, WIDTH, initial_indent=mark, subsequent_indent=mark)
    return lines + [definition.text]


def declared_table(library, keys):
    rows = [f"| `{key[0]}` | `{key[2]}` | {cell(first_sentence(library.definitions[key].comment))} |" for key in keys]
    return "\n".join(["| Crate | Type | What it is |", "|---|---|---|", *rows])


def module_block(library, listed, crate, module, keys):
    lines, section = [], ""
    for key in keys:
        definition = library.definitions[key]
        lines += ["", *written(definition, listed, section)] if lines else written(definition, listed, section)
        section = definition.section
    return f"### `{module}` of `{crate}`\n\n{path_of(crate, module)}\n\n" + "\n".join(["```", *lines, "```"])


def text_by_modules(library, keys):
    """The text of definitions, in an order to read them in."""
    listed = sentences(text_of(SENTENCES))
    return "\n\n".join(module_block(library, listed, *module, those) for module, those in by_modules(library, keys)) + "\n"


def digest(text: str) -> str:
    return hashlib.sha256(text.encode()).hexdigest()[:16]


def path_of(crate: str, module: str) -> str:
    return f"crates/{crate}/specs/{module}.antt"


def by_modules(library, keys):
    """The keys by crate and module, the highest crate first, and of each module in the order of its file: an order to read them in."""
    place = {key: at for at, key in enumerate(library.order)}
    found = collections.defaultdict(list)
    for key in keys:
        found[key[:2]].append(key)
    return [(module, sorted(found[module], key=lambda key: place[key]))
            for crate in reversed(crates()) for module in found if module[0] == crate]


def anchor(heading):
    return re.sub(r"[^\w -]", "", heading.lower()).replace(" ", "-")


def whole_label(label):
    return label + " ..)" if label.count("(") > label.count(")") else label


def name_of(key, in_part):
    """A definition as a reading names it: with what is read of it, where that is not the whole."""
    if key not in in_part:
        return f"`{key[2]}`"
    read = ", ".join(f"`{whole_label(label)}`" for label in in_part[key])
    return f"`{key[2]}` (only {read})" if read else f"`{key[2]}` (as a word)"


def begins_of(reading):
    """Where a reading begins: the clauses, with their words."""
    return "; ".join(f"`{clause}` (" + ", ".join(f"`{name}`" for name in names) + ")" for clause, names in reading.begins.items())


def reading_block(library, title, reading, needs):
    partly = sum(key in needs.in_part for key in needs.definitions)
    lines = [f"{at}. [{module}](../{path_of(crate, module)}) of `{crate}`: " + ", ".join(name_of(key, needs.in_part) for key in keys)
             for at, ((crate, module), keys) in enumerate(by_modules(library, needs.definitions), 1)]
    types = ", ".join(f"`{key[2]}`" for key in needs.types)
    head = f"{len(needs.definitions)} definitions, {partly} of them in part, from {begins_of(reading)}. {reading.left}"
    return "\n\n".join([f"### {title}", head, "\n".join(lines), f"And {len(needs.types)} [types](#the-types): {types}."])


def claims_part(library, count):
    """The readings of the claims: a table, and a list of definitions for each."""
    rows, blocks, needed = ["| Claim | Definitions | Types | Clauses | SHA-256 of its text begins |", "|---|---|---|---|---|"], [], set()
    for at, claim, reading in numbered():
        title, needs = f"Claim {at}, {reading.title}", needs_of(library, reading)
        needed.update(needs.definitions)
        made = digest(text_by_modules(library, needs.definitions))
        link = f"{at}. {claim.name}: [{reading.title}](#{anchor(title)})"
        rows.append(f"| {link} | {len(needs.definitions)} | {len(needs.types)} | {begins_of(reading)} | `{made}` |")
        blocks.append(reading_block(library, title, reading, needs))
    return ["\n".join(rows), f"All readings together need {len(needed)} of the {count:,} definitions of the contract.", *blocks]


def commands_table(library):
    rows = [f"| {name} | {len(alone(library, omission))} |" for name, omission in COMMANDS.items()]
    rows.append(f"| all of these together | {len(alone(library, together(list(COMMANDS))))} |")
    return "\n".join(["| What | Definitions that nothing else of the contract needs |", "|---|---|", *rows])


def reached_by_the_contract(library: Library) -> List[Key]:
    """The definitions that the contract reaches, without the declared types."""
    return [key for key in library.closure(library.contract(*CALL)[1]) if not library.definitions[key].is_declared]


def page(library):
    contract, roots = library.contract(*CALL)
    reached = library.closure(roots)
    place = {key: at for at, key in enumerate(library.order)}
    definitions = reached_by_the_contract(library)
    declared = [key for key in reached if library.definitions[key].is_declared]
    traits = [key for key in declared if "pub trait" in library.definitions[key].text]
    types = sorted((key for key in declared if key not in traits), key=lambda key: place[key], reverse=False)
    before, why = text_of(HEAD).rstrip().split("\n\n(the claims)\n\n")
    parts = [before, *claims_part(library, len(definitions)), why, commands_table(library),
             f"In numbers: {len(definitions):,} definitions in {len({key[0] for key in definitions})} crates, and {len(declared)} declared types. "
             f"The SHA-256 of the text of all begins `{digest(text_by_modules(library, definitions))}`.",
             "## The contract", f"[{CALL[0]}/src/{CALL[1]}](../crates/{CALL[0]}/src/{CALL[1]})", f"```\n{contract}\n```",
             "## The outside", declared_table(library, traits), "## The types", declared_table(library, types)]
    return "\n\n".join(parts) + "\n", definitions


def print_numbers(library, definitions):
    for crate, count in collections.Counter(key[0] for key in definitions).most_common():
        print(f"{count:5} {crate}")
    for at, _, reading in numbered():
        print(f"{len(needs_of(library, reading).definitions):5} claim {at}, {reading.title}")
    for name, omission in COMMANDS.items():
        print(f"{len(alone(library, omission)):5} {name}")


def full_name(key: Key) -> str:
    return f"{key[0]} {key[2]}" if key[1].startswith("declared.") else f"{key[0]} {key[1]}.{key[2]}"


def bare(library: Library, reached: Sequence[Key]) -> List[Key]:
    """The definitions without a sentence that the contract does not reach, but for those of tests."""
    known = set(reached)
    return [key for key, it in library.definitions.items() if not (it.comment or it.is_declared or key in known or key[0].endswith("_trials"))]


def definition_named(library: Library, words: str) -> Key:
    """The definition of a name; the crate and the module may be left out where no other definition has the name. A type of that name is found
    where no definition has it, or where it alone is named."""
    matching = library.matching(words)
    found = [key for key in matching if not library.definitions[key].is_declared] or matching
    if len(found) == 1:
        return found[0]
    if found:
        raise Refused(f"{words}: {len(found)} definitions have this name: " + ", ".join(map(full_name, found)))
    near = difflib.get_close_matches(words.rpartition(" ")[2].rpartition(".")[2], {key[2] for key in library.order})
    raise Refused(f"{words}: no definition has this name" + (f"; near it are {', '.join(near)}" if near else ""))


def definition_text(library: Library, key: Key, listed: Dict[Key, str]) -> str:
    """A definition with its place, its sentence, its text and what it cites."""
    definition = library.definitions[key]
    lines = [full_name(key), os.path.relpath(definition.path, TOP), "", *written(definition, listed, "")]
    if definition.cites:
        lines += ["", "It cites:"]
    for cited in definition.cites:
        sentence = first_sentence(library.definitions[cited].comment or listed.get(cited, ""))
        lines.append(f"  {full_name(cited)}" + (f": {sentence}" if sentence else ""))
    return "\n".join(lines) + "\n"


def reading_text(library: Library, words: str) -> str:
    """The text of the definitions that a reading of a claim needs."""
    titles = {f"Claim {at}, {reading.title}": reading for at, _, reading in numbered()}
    found = [title for title in titles if anchor(title) == anchor(words)]
    if not found:
        raise Refused(f"{words}: no reading has this name; there are " + "; ".join(titles))
    return text_by_modules(library, needs_of(library, titles[found[0]]).definitions)


def check(library, made, definitions):
    """Compares the page with what would be written, and the numbers with those allowed."""
    faults = []
    if not os.path.isfile(PAGE) or text_of(PAGE) != made:
        faults.append("docs/HEADLINE.md is not what tools/headline.py makes of the contract of run: run it")
    if len(definitions) > MOST:
        faults.append(f"the contract of run reaches {len(definitions)} definitions, and at most {MOST} are allowed (MOST)")
    faults += faults_of_sentences(library, definitions, sentences(text_of(SENTENCES)))
    count = len(bare(library, definitions))
    if count > MOST_BARE:
        faults.append(f"{count} definitions that the contract does not reach have no sentence above them, and at most {MOST_BARE} are allowed (MOST_BARE)")
    for at, _, reading in numbered():
        count = len(needs_of(library, reading).definitions)
        if count > reading.most:
            faults.append(f"claim {at}, {reading.title}, needs {count} definitions, and at most {reading.most} are allowed (claims.py)")
    for fault in faults:
        print(fault)
    print(f"{max(4 + len(numbered()) - len(faults), 0)} passed, {len(faults)} failed")
    return 1 if faults else 0


def main(words):
    library = Library()
    if len(words) == 2 and words[0] == "--definition":
        print_utf8(definition_text(library, definition_named(library, words[1]), sentences(text_of(SENTENCES))))
        return 0
    if len(words) == 2 and words[0] == "--reading":
        print_utf8(reading_text(library, words[1]))
        return 0
    if list(words) == ["--text"]:
        print_utf8(text_by_modules(library, reached_by_the_contract(library)))
        return 0
    if list(words) not in ([], ["--check"], ["--list"]):
        raise Refused("headline: --help has the words")
    made, definitions = page(library)
    if "--list" in words:
        print_numbers(library, definitions)
    elif "--check" in words:
        return check(library, made, definitions)
    else:
        with open(PAGE, "w", encoding="utf-8") as file:
            file.write(made)
        print(f"{len(definitions)} definitions")
    return 0


command = as_command(main)


if __name__ == "__main__":
    sys.exit(command())
