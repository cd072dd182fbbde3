"""The manual page: it is what is made of COMMANDS.md, has each row of that page, and a small page becomes the lines that are expected."""
import contextlib
import io
import os
import re
import tempfile
import unittest
from unittest import mock

from common import ROOT
from shadowtools.gate import manual

COMMANDS = """# Commands

For a test.

It is `tool`.

## Commands

Not in the manual.

| Command | Reads | What it does, and prints |
|---|---|---|
| <a id="one"></a>`shadowd one BANK [MORE]` | a bank | prints `a b` ([the bank](FORMATS.md#the-bank)) |
| `shadowd two` | | ends, see [the end](#end) |

- `one`: it is quick.
- `one`, `two`: they are
  short.

## Files

| File | What it is |
|---|---|
| `a.journal` | the journal, a \\| b |

## Environment variables

All are texts.

| Variable | Of | Meaning | If it is not set |
|---|---|---|---|
| `SHADOWD_A` | `one` | a *long* word. See [B.md](B.md) | 1, see [C](C.md) |

## Statuses

| Status | Of | Line | Meaning | What to do |
|---|---|---|---|---|
| 0 | all | | it is done | |
| 6 | `one` | `x: ..` | it's \u00e4 | look |

The end.

## Examples

```
shadowd one bank.csv \\
    'a-b'
```

## Other pages

- [D.md](D.md): more.
- [E.md](E.md): most.
"""
MADE = r""".\" Made by tools/manual.py of docs/COMMANDS.md: change that page, and run the tool.
.TH SHADOWD 1 2001-02-03 Lumdarvo "User commands"
.SH NAME
shadowd \- computerized adaptive tests by shadow tests
.SH SYNOPSIS
.B shadowd one
.I BANK
.RI [ MORE ]
.br
.B shadowd two
.SH DESCRIPTION
It is \fBtool\fR.
.TP
.B one
Reads: a bank
.br
Prints \fBa\~b\fR (the bank: docs/FORMATS.md).
It is quick.
They are short.
.TP
.B two
Ends, see the end.
They are short.
.SH FILES
.TP
.I a.journal
The journal, a | b.
.SH ENVIRONMENT
All are texts.
.TP
.B SHADOWD_A
Of: \fBone\fR
.br
A \fIlong\fR word.
See docs/B.md.
.br
If it is not set: 1, see C (docs/C.md).
.SH EXIT STATUS
.TP
.B 0
Of: all
.br
It is done.
.TP
.B 6
Of: \fBone\fR
.br
Line: \fBx:\~..\fR
.br
It's \[u00E4].
.br
What to do: look.
.PP
The end.
.SH EXAMPLES
.nf
shadowd one bank.csv \e
    \(aqa\-b\(aq
.fi
.SH SEE ALSO
docs/D.md: more.
.br
docs/E.md: most.
"""


def read(*names):
    with open(os.path.join(ROOT, *names), encoding="utf-8") as file:
        return file.read()


def tags_of(text, title, font):
    """The tags of the entries of a section of the manual."""
    section = re.search(rf"^\.SH {title}\n(.*?)(?=^\.SH |\Z)", text, re.M | re.S).group(1)
    return [it.replace("\\-", "-") for it in re.findall(rf"^\.TP\n\.{font} (.*)$", section, re.M)]


class Page(unittest.TestCase):
    def test_the_page_is_what_is_made(self):
        self.assertEqual(manual.manual_of(manual.text_of(manual.PAGE), manual.date_of(manual.text_of(manual.CHANGES))), read("docs", "shadowd.1"))

    def test_each_row_of_the_page_of_commands_is_an_entry(self):
        commands, made = read("docs", "COMMANDS.md"), read("docs", "shadowd.1")
        self.assertEqual(tags_of(made, "EXIT STATUS", "B"), re.findall(r"^\| (\d+) \|", commands, re.M))
        names = re.findall(r"`shadowd (\w+)[^`]*` \|", commands)
        self.assertGreater(len(names), 12)
        self.assertEqual(tags_of(made, "DESCRIPTION", "B"), names)
        self.assertEqual(re.findall(r"^\.B shadowd (\w+)$", made, re.M), names)
        self.assertEqual(tags_of(made, "ENVIRONMENT", "B"), re.findall(r"^\| `(SHADOWD_\w+)` \|", commands, re.M))
        for name in ("BANK", "PLAN", "SCRIPT", "shadowd.journal", "JOURNAL.cut-PLACE", "JOURNAL.reserve"):
            self.assertIn(name, tags_of(made, "FILES", "I"))

    def test_the_variables_are_those_of_the_code(self):
        named = set(re.findall(r'"(SHADOWD_\w+)"', read("crates", "shadowd", "src", "settings.rt")))
        self.assertEqual(set(tags_of(read("docs", "shadowd.1"), "ENVIRONMENT", "B")), named)

    def test_no_markup_is_left_and_each_line_fits(self):
        made = read("docs", "shadowd.1")
        self.assertIsNone(re.search(r"\]\(|`|<a |\.md#|^\|", made, re.M))
        self.assertEqual([it for it in made.splitlines()[1:] if len(it) > 80], [])
        self.assertEqual([it for it in manual.example_of(manual.section_of(read("docs", "COMMANDS.md"), "Examples")) if len(it) > 72], [])


class Making(unittest.TestCase):
    def run_on(self, page, made, *words):
        """The status and the lines of the tool on these pages, and the manual page after it."""
        with tempfile.TemporaryDirectory() as folder:
            paths = {name: os.path.join(folder, name) for name in ("PAGE", "MANUAL", "CHANGES")}
            for path, text in zip(paths.values(), (page, made, "# Changelog\n\n## 1.1, 2001-02-03\n\n## 1.0, 2000-01-01\n")):
                with open(path, "w", encoding="utf-8") as file:
                    file.write(text)
            out = io.StringIO()
            with mock.patch.multiple(manual, **paths), contextlib.redirect_stdout(out):
                status = manual.main(words)
            return status, out.getvalue().splitlines(), manual.text_of(paths["MANUAL"])

    def test_a_small_page_becomes_the_lines_that_are_expected(self):
        self.maxDiff = None
        self.assertEqual(manual.manual_of(COMMANDS, "2001-02-03"), MADE)

    def test_a_page_that_was_changed_fails_until_it_is_written(self):
        for changed in (MADE.replace("quick", "slow"), MADE.replace("2001-02-03", "2001-02-04"), ""):
            status, lines, left = self.run_on(COMMANDS, changed, "--check")
            self.assertEqual((status, lines[-1], left), (1, "0 passed, 1 failed", changed))
        self.assertEqual(self.run_on(COMMANDS, "", "--check")[1][0], "docs/shadowd.1 is not what tools/manual.py makes of docs/COMMANDS.md: run it")
        self.assertEqual(self.run_on(COMMANDS, ""), (0, [], MADE))
        self.assertEqual(self.run_on(COMMANDS, MADE, "--check"), (0, ["1 passed, 0 failed"], MADE))
        self.assertEqual(self.run_on(COMMANDS.replace("quick", "slow"), MADE, "--check")[0], 1)

    def test_no_line_of_text_is_a_request(self):
        for text in (".so x", "'so x", "word " * 15 + "`. x`. 'tis `..`"):
            self.assertEqual([it for it in manual.filled(text) if it[0] in ".'"], [])

    def test_a_page_that_cannot_be_read_is_refused(self):
        for old, new in (("## Files", "## Folders"), ("| 0 | all | |", "| 0 | all |"), ("- `one`: it", "- `three`: it"), ("`shadowd two`", "`two`"),
                         ("| Variable | Of | Meaning |", "| Variable | Of | Sense |"), ("```\n", "")):
            with self.assertRaises(manual.Refused, msg=new):
                manual.manual_of(COMMANDS.replace(old, new), "2001-02-03")
        with self.assertRaises(manual.Refused):
            manual.date_of("# Changelog\n\n## 1.1\n")


if __name__ == "__main__":
    unittest.main()
