"""The names of the standard, from the one file that has them."""
import os
import types

from settings import read_table

TABLE = read_table(os.path.join(os.path.dirname(os.path.abspath(__file__)), "names.toml"))
BASE, ROUTES, CODES = TABLE["base"], TABLE["routes"], {int(status): word for status, word in TABLE["codes"].items()}
MEMBERS, WORDS, ERRORS = (types.SimpleNamespace(**TABLE[name]) for name in ("members", "words", "errors"))
