"""The doors: `tools/NAME.py` runs a module of this package, and `import NAME` gives that module."""
import ast
import importlib
import importlib.util
import sys
from typing import Optional

from shadowtools.command import wants_help
from shadowtools.formats.tables import text_of

NO_COMMAND = "This is a part of other tools, and no command."


def help_of(module: str) -> Optional[str]:
    """The docstring of a module, without the libraries that it needs; none where its options are argparse's, which has their help."""
    found = importlib.util.find_spec(module)
    tree = ast.parse(text_of(found.origin)) if found and found.origin else ast.Module([], [])
    names = {alias.name for node in ast.walk(tree) if isinstance(node, (ast.Import, ast.ImportFrom)) for alias in node.names}
    if "argparse" in names and "Options" not in names:
        return None
    is_command = any(isinstance(node, ast.Assign) and getattr(node.targets[0], "id", "") == "command" for node in tree.body)
    return "\n\n".join([(ast.get_docstring(tree) or "").strip()] + ([] if is_command else [NO_COMMAND]))


def leads_to(module: str, name: str) -> None:
    """Runs the module's command where `name` is that of a script; else the module takes the place of `name`."""
    path = "shadowtools." + module
    said = help_of(path) if name == "__main__" and wants_help(sys.argv[1:]) else None
    if said:
        print(said)
        sys.exit(0)
    found = importlib.import_module(path)
    if name == "__main__":
        sys.exit(found.command() if hasattr(found, "command") else f"{sys.argv[0]}: {NO_COMMAND} --help has what it is for.")
    sys.modules[name] = found
