"""The words of the pages for examinees: a file of TOML for each language."""
import os
from string import Formatter

from markupsafe import Markup

from settings import read_table

FOLDER = os.path.join(os.path.dirname(os.path.abspath(__file__)), "words")


class Words:
    """Called with the name of a sentence and what is filled in, gives the sentence; markup in that is escaped."""

    def __init__(self, language):
        self.language, self.table = language, read_table(os.path.join(FOLDER, language + ".toml"))

    def __call__(self, name, /, **facts):
        return Markup(self.table[name]).format(**facts)


def facts_of(sentence):
    """The names that a sentence has in braces."""
    return {name for _, name, _, _ in Formatter().parse(sentence) if name is not None}
