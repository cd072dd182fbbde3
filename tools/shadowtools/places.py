"""Where things are in a copy of the repository. An installed package has none of them but the program: $SHADOWD, else that of the path."""
import importlib.metadata
import os
import shutil
import subprocess

TOOLS = os.path.dirname(os.path.dirname(os.path.abspath(__file__)))
TOP = os.path.dirname(TOOLS)
DATA = os.path.join(TOP, "crates", "shadowd", "data")
IS_COPY = os.path.isdir(DATA)
BUILT = os.environ.get("SHADOWD") or (os.path.join(TOP, "crates", "shadowd", "out", "shadowd") if IS_COPY else shutil.which("shadowd") or "shadowd")


def revision() -> str:
    """The commit of the repository that these tools are in, as far as git knows one; the version of an installed package."""
    if not IS_COPY:
        try:
            return "shadowtools " + importlib.metadata.version("shadowtools")
        except importlib.metadata.PackageNotFoundError:
            return "not known"
    try:
        done = subprocess.run(["git", "-C", TOP, "describe", "--always", "--dirty", "--abbrev=12"], stdin=subprocess.DEVNULL,
                              capture_output=True, text=True)
    except OSError:
        return "not known"
    return done.stdout.strip() if done.returncode == 0 else "not known"
