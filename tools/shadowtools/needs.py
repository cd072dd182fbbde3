"""The libraries that the tools need beside the standard library; pyproject.toml names the same."""
import importlib.util
import sys

DEBIAN = {"numpy": "python3-numpy", "scipy": "python3-scipy", "matplotlib": "python3-matplotlib",
          "pandas": "python3-pandas", "jinja2": "python3-jinja2", "distributed": "python3-distributed"}


def is_there(*modules: str) -> bool:
    return all(importlib.util.find_spec(module) is not None for module in modules)


def require(tool: str, *modules: str) -> None:
    """Ends the process where a library is not there, and names Debian's packages."""
    if not is_there(*modules):
        packages = " ".join(DEBIAN[module] for module in modules)
        sys.exit(f"{tool} needs {' and '.join(modules)}: apt-get install {packages}, and run it by /usr/bin/python3")
