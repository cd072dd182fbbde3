"""The pages: that each link leads somewhere, how long they are, for whom they are, that one page has the statuses and the environment variables, that the
numbers of TESTING are about right, and that the calls of a picture are those of the code."""
import functools
import glob
import os
import re
import unittest

from common import ROOT
from shadowtools.gate import promises

# The most lines of a page of docs/, and of all of them. A page that needs more takes a line from another one, or this table is changed for a reason.
MOST_LINES = {"ARCHITECTURE.md": 170, "COMMANDS.md": 140, "DECISIONS.md": 340, "FORMATS.md": 640, "GLOSSARY.md": 200, "GUIDE.md": 760, "HEADLINE.md": 700,
              "HTTP.md": 250, "OPERATING.md": 790, "PLAN_GUIDE.md": 300, "PROMISES.md": 1080, "SERIES.md": 100, "TESTING.md": 320, "TOUR.md": 130,
              "TRUST.md": 170}
MOST_IN_ALL = 6500
LINK = re.compile(r"(?<!`)\]\(([^)\s]+)\)")


def pages():
    found = [os.path.join(ROOT, name) for name in ("README.md", "CONTRIBUTING.md", "CHANGELOG.md", "crates/README.md")]
    for folder in ("docs", "bench", "crates/*", "examples", "examples/*", "tools"):
        found += glob.glob(os.path.join(ROOT, folder, "*.md"))
    return sorted({os.path.realpath(it) for it in found})


@functools.lru_cache(maxsize=None)
def text_of(path):
    with open(path, encoding="utf-8") as file:
        return file.read()


def prose_of(text):
    """The text without its blocks of code and without spans of code."""
    text = re.sub(r"^```.*?^```", "", text, flags=re.M | re.S)
    return re.sub(r"^    .*$", "", text, flags=re.M)


def as_shown(text):
    """The text as a reader sees it: a link is its words."""
    return re.sub(r"!?\[([^\]]*)\]\([^)\s]*\)", r"\1", text)


@functools.lru_cache(maxsize=None)
def anchors_of(text):
    """The anchors of the headings of a page, as a reader of Markdown makes them; the second of two equal ones ends with -1."""
    found = []
    for heading in re.findall(r"^#+ (.*)$", re.sub(r"^```.*?^```", "", text, flags=re.M | re.S), re.M):
        plain = re.sub(r"\[([^\]]*)\]\([^)]*\)", r"\1", heading)
        base = re.sub(r"[^\w -]", "", plain.lower()).replace(" ", "-")
        found.append(base if base not in found else f"{base}-{sum(it == base or it.startswith(base + '-') for it in found)}")
    return set(found)


def broken_links(path, text):
    for target in LINK.findall(prose_of(text)):
        if re.match(r"[a-z]+:", target):
            continue
        name, _, anchor = target.partition("#")
        there = os.path.normpath(os.path.join(os.path.dirname(path), name)) if name else path
        if not os.path.exists(there):
            yield f"{os.path.relpath(path, ROOT)}: {target} is not there"
        elif anchor and there.endswith(".md") and anchor not in anchors_of(text if there == path else text_of(there)):
            yield f"{os.path.relpath(path, ROOT)}: {target} has no such heading"


def has_statuses(text):
    """Whether a table of the page has a column of statuses of the program. Those of HTTP have three digits."""
    for table in re.findall(r"(?:^\|.*\n)+", text, re.M):
        header, *rows = [[cell.strip() for cell in re.split(r"(?<!\\)\|", line)[1:-1]] for line in table.splitlines()]
        columns = [at for at, cell in enumerate(header) if cell.startswith("Status")]
        if any(re.fullmatch(r"\d\d?(, \d\d?)*", row[at]) for row in rows for at in columns if at < len(row)):
            return True
    return False


def has_variables(text):
    """Whether a table of the page has a row for an environment variable of the program."""
    return bool(re.search(r"^\| `SHADOWD_\w+` \|", text, re.M))


def readers_of(text):
    """The first sentence of a page after its heading, if it has for whom the page is."""
    first = re.sub(r"\s+", " ", text.split("\n\n")[1])
    found = re.match(r"(For [^.]*\.)", first)
    return found.group(1) if found else ""


def sequence_faults(text, calls_of, source_of):
    """What is wrong with the messages of a picture: each is a public call of the crate that it goes to, and the crate that it comes from calls it."""
    for picture in re.findall(r"^```mermaid\nsequenceDiagram\n(.*?)^```", text, re.M | re.S):
        for line in picture.splitlines():
            message = re.fullmatch(r"  (\w+)->>(\w+): ([\w:]+)", line)
            if not message:
                yield f"'{line}' is no message"
                continue
            caller, called, name = message.groups()
            if name not in calls_of(called):
                yield f"{called} has no public call {name}"
            elif not re.search(rf"\b{name.rpartition(':')[2]}\(", source_of(caller)):
                yield f"{caller} does not call {name}"


def source_of(crate):
    """The code of a crate, without comments and contracts."""
    texts = [text_of(path) for path in glob.glob(os.path.join(ROOT, "crates", crate, "src", "**", "*.rt"), recursive=True)]
    return re.sub(r"//[^\n]*|^ *(?:pub |const |unsafe )*fn \w+", "", "\n".join(texts), flags=re.M)


def lines_in(pattern):
    return sum(text_of(path).count("\n") for path in glob.glob(os.path.join(ROOT, "crates", pattern), recursive=True))


def edits_in(folder):
    found = glob.glob(os.path.join(ROOT, "crates", "*", folder, "*.edit"))
    return len(found), len({os.path.dirname(it) for it in found})


def tests_in_rattle():
    found = {}
    for path in glob.glob(os.path.join(ROOT, "crates", "*", "src", "**", "*.rt"), recursive=True):
        crate = os.path.relpath(path, ROOT).split(os.sep)[1]
        found[crate] = found.get(crate, 0) + len(re.findall(r"^\s*#\[test\]", text_of(path), re.M))
    return sum(found.values()), sum(count > 0 for count in found.values())


class Links(unittest.TestCase):
    def test_each_link_of_a_page_leads_somewhere(self):
        self.assertEqual([fault for path in pages() for fault in broken_links(path, text_of(path))], [])

    def test_a_link_to_a_page_or_a_heading_that_is_not_there_is_found(self):
        path = os.path.join(ROOT, "README.md")
        text = "[a](docs/NOTHING.md) [b](docs/TRUST.md#nothing) [c](#here) [d](docs/TRUST.md#the-toolchain)\n\n# Here\n\n```\n[e](docs/NO.md)\n```\n"
        self.assertEqual(len(list(broken_links(path, text))), 2)


def other_layouts(text):
    """The words of a page's commands that are not of the layout of the archive and the package. The image has one of its own, and its lines are left out."""
    lines = [line for line in text.splitlines() if "podman" not in line and "4710 -g" not in line]
    wrong = r"shadowd (?:serve|audit|replay|migrate|ship|follow|stream) bank\.csv|\bspring\.journal|\bexam\.journal|systemctl [a-z -]*shadowd(?![@-])|SHADOWD_JOURNAL=/var/lib/shadowd/(?!spring/journal)"
    return [found for line in lines for found in re.findall(wrong, line)]


class Layout(unittest.TestCase):
    def test_the_commands_of_operating_have_one_layout(self):
        self.assertEqual(other_layouts(text_of(os.path.join(ROOT, "docs", "OPERATING.md"))), [])
        for line in ("shadowd serve bank.csv plan.txt", "cp spring.journal x", "systemctl stop shadowd", "systemctl enable --now shadowd", "SHADOWD_JOURNAL=/var/lib/shadowd/journal"):
            self.assertEqual(len(other_layouts(line)), 1, line)


class Sizes(unittest.TestCase):
    def test_the_readme_is_a_door(self):
        """At most 90 lines, 900 words and 100 columns, as a reader sees it: without the targets of links."""
        lines = as_shown(text_of(os.path.join(ROOT, "README.md"))).splitlines()
        self.assertLessEqual(len(lines), 90)
        self.assertLessEqual(sum(len(line.split()) for line in lines), 900)
        self.assertEqual([line for line in lines if len(line) > 100], [])

    def test_no_page_of_docs_has_more_lines_than_it_may(self):
        found = {os.path.basename(path): len(text_of(path).splitlines()) for path in pages() if os.path.dirname(path) == os.path.join(ROOT, "docs")}
        self.assertEqual(set(found), set(MOST_LINES))
        self.assertEqual({name: lines for name, lines in found.items() if lines > MOST_LINES[name]}, {})
        self.assertLessEqual(sum(found.values()), MOST_IN_ALL)

    def test_each_page_of_docs_begins_with_for_whom_it_is(self):
        self.assertEqual([name for name in MOST_LINES if not readers_of(text_of(os.path.join(ROOT, "docs", name)))], [])
        self.assertEqual(readers_of("# A page\n\nThis page is\nlong.\n"), "")
        self.assertEqual(readers_of("# A page\n\nFor who\nreads. More.\n"), "For who reads.")

    def test_each_claim_of_the_readme_has_at_most_20_words(self):
        text = text_of(os.path.join(ROOT, "README.md"))
        claims = re.findall(r"^\d\. (.*?)$(?=\n\S|\n\n)", re.sub(r"\n   +", " ", as_shown(text)), re.M)
        self.assertEqual(len(claims), 5)
        self.assertEqual([claim for claim in claims if len(claim.split()) > 20], [])

    def test_one_page_has_the_table_of_statuses(self):
        self.assertEqual([os.path.relpath(path, ROOT) for path in pages() if has_statuses(text_of(path))], ["docs/COMMANDS.md"])
        self.assertTrue(has_statuses("| Line | Status |\n|---|---|\n| `x` | 19, 20 |\n"))
        self.assertFalse(has_statuses("| Status | Error |\n|---|---|\n| 500 | `memory` |\n\n| Items | N |\n|---|---|\n| x | 12 |\n"))

    def test_one_page_has_the_table_of_environment_variables(self):
        self.assertEqual([os.path.relpath(path, ROOT) for path in pages() if has_variables(text_of(path))], ["docs/COMMANDS.md"])
        self.assertTrue(has_variables("| Name | Sense |\n|---|---|\n| `SHADOWD_X` | y |\n"))
        self.assertFalse(has_variables("| Line | When |\n|---|---|\n| `SHADOWD_X=3 counts as not set` | y |\n"))

    def test_no_cell_has_more_than_450_characters(self):
        """But for the names of functions and clauses in PROMISES, and pages that are made."""
        for path in pages():
            if os.path.basename(path) == "HEADLINE.md":
                continue
            for number, line in enumerate(text_of(path).splitlines(), 1):
                cells = re.split(r"(?<!\\)\|", line)[1:-1] if line.startswith("|") else []
                if os.path.basename(path) == "PROMISES.md":
                    cells = cells[:1]
                self.assertLessEqual(max(map(len, cells), default=0), 450, f"{os.path.relpath(path, ROOT)}:{number}")

    def test_the_numbers_of_testing_are_about_right(self):
        text = text_of(os.path.join(ROOT, "docs", "TESTING.md"))
        crates = len(re.findall(r"^\w+(?: \w+)*:", text_of(os.path.join(ROOT, "crates.txt")), re.M))
        counted = {"Crates, each": [crates],
                   "Lines of code": [lines_in("*/src/**/*.rt"), lines_in("*/specs/**/*.antt"), lines_in("*/proofs/**/*.antt")],
                   "Wrong bodies that the full check": edits_in("must-fail"),
                   "Wrong bodies that `tools/wrong_bodies.py`": edits_in("wrong-bodies"),
                   "Tests in Rattle": tests_in_rattle()}
        for begins, numbers in counted.items():
            row = next(line for line in text.splitlines() if line.startswith("| " + begins))
            written = [int(it.replace(",", "")) for it in re.findall(r"\d[\d,]*\d|\d", row.split("|")[2])]
            self.assertEqual(len(written), len(numbers), row)
            for said, number in zip(written, numbers):
                self.assertLessEqual(abs(said - number), max(1, 0.05 * number), f"{row} should have {list(numbers)}")


class Sequence(unittest.TestCase):
    def test_the_calls_of_the_picture_are_those_of_the_code(self):
        text = text_of(os.path.join(ROOT, "docs", "ARCHITECTURE.md"))
        calls = functools.lru_cache(maxsize=None)(promises.calls_of)
        self.assertEqual(list(sequence_faults(text, calls, source_of)), [])
        self.assertGreater(text.count("->>"), 10)

    def test_a_call_that_is_none_and_a_caller_that_does_not_call_are_found(self):
        calls = {"office": ["Office::lead"], "hall": ["handle"]}
        sources = {"hall": "office.lead(x);", "door": "hall.handler(x);"}
        text = "```mermaid\nsequenceDiagram\n{}\n```\n".format
        for line, wanted in (("  hall->>office: Office::lead", []), ("  hall->>office: Office::led", ["office has no public call Office::led"]),
                             ("  door->>hall: handle", ["door does not call handle"]), ("  hall: x", ["'  hall: x' is no message"])):
            self.assertEqual(list(sequence_faults(text(line), calls.get, sources.get)), wanted)


if __name__ == "__main__":
    unittest.main()
