"""Holds docs/HTTP.md and docs/openapi.json against the routes, statuses and error words of crates/exam_http, and the words for
refusals of crates/history_model.

usage: tools/http_docs.py

It reads the tables of the code from its source, and ends with status 1 where a page has another route, status, error word or
value, or lacks one. Each route needs an example by curl, and each operation of openapi.json has the status 401, but for those that need no token.
"""
import json
import re
import sys
from pathlib import Path

from shadowtools.command import as_command
from shadowtools.places import TOP

REPOSITORY = Path(TOP)
CODE = REPOSITORY / "crates" / "exam_http" / "src"
WORDS = REPOSITORY / "crates" / "history_model" / "src" / "words.rt"

# A reply of this kind never leaves the office.
INTERNAL = {"stale"}


def arms(text, name):
    """The arms of the one `match` of a function, as pairs of patterns and value."""
    body = re.search(r"fn %s\b.*?\n}\n" % name, text, re.S).group(0)
    body = body[body.index("{\n", body.index("match ")) + 2 :]
    found = []
    for arm in re.finditer(r"(.*?) =>\s+(\{.*?\n        \}|[^\n]*?),?\n", body, re.S):
        found.append((re.findall(r"\w+::(\w+)", arm.group(1)), arm.group(2)))
    return found


def code_routes():
    text = (CODE / "route.rt").read_text()
    paths = dict((kind, path) for path, kind in re.findall(r'router\.insert\("([^"]+)", RouteKind::(\w+)\)', text))
    methods = {}
    for patterns, value in arms(text, "method_of"):
        for kind in patterns:
            methods[kind] = re.search(r'b"(\w+)"', value).group(1)
    return {(methods[kind], path) for kind, path in paths.items()}


def code_errors():
    """The triples of an error word, its status, and whether it has a value."""
    status, body, texts = ((CODE / name).read_text() for name in ("status.rt", "body.rt", "texts.rt"))
    statuses = {}
    for function in ("refusal_status", "fault_status"):
        for patterns, value in arms(status, function):
            statuses.update((pattern, int(value)) for pattern in patterns)
    errors = set()
    for patterns, value in arms(status, "fault_name"):
        errors.add((value.strip('"'), statuses[patterns[0]], False))
    words = {pattern: value.strip('"') for patterns, value in arms(WORDS.read_text(), "refusal_word") for pattern in patterns}
    for patterns, value in arms(body, "refusal_value"):
        for pattern in patterns:
            if words[pattern] not in INTERNAL:
                errors.add((words[pattern], statuses[pattern], "error_value" not in value))
    for number, word in re.findall(r'error_text\(alloc, (\d+), "([a-z-]+)", true\)', texts):
        errors.add((word, int(number), False))
    return errors


def page_tables():
    text = (REPOSITORY / "docs" / "HTTP.md").read_text()
    routes, errors = set(), set()
    for line in text.splitlines():
        cells = [cell.strip() for cell in line.split("|")[1:-1]]
        route = re.fullmatch(r"`([A-Z]+) (/\S*)`", cells[0]) if cells else None
        if route:
            routes.add((route.group(1), re.sub(r"/S\b", "/{id}", route.group(2))))
        error = re.fullmatch(r"`([a-z-]+)`", cells[0]) if cells else None
        if error and cells[1].isdigit():
            errors.add((error.group(1), int(cells[1]), len(cells) == 4 and cells[2] != ""))
    examples = set()
    for line in text.splitlines():
        example = re.match(r"curl -i (?:-X ([A-Z]+) )?localhost:\d+(/\S*)", line)
        if example:
            examples.add((example.group(1) or "GET", re.sub(r"/\d+\b", "/{id}", example.group(2))))
    return routes, errors, examples


def schema_tables():
    schema = json.loads((REPOSITORY / "docs" / "openapi.json").read_text())
    routes, errors = set(), set()

    def note(status, response):
        for example in response["content"]["application/json"].get("examples", {}).values():
            errors.add((example["value"]["error"], int(status), "value" in example["value"]))

    for path, item in schema["paths"].items():
        for method, operation in item.items():
            if method != "parameters":
                routes.add((method.upper(), path))
                for status, response in operation["responses"].items():
                    note(status, response)
    for response in schema["components"]["responses"].values():
        note(response["x-status"], response)
    words = set(schema["components"]["schemas"]["Error"]["properties"]["error"]["enum"])
    return routes, errors, words


def open_operations():
    """The operations of the schema without the status 401, and those that need no token."""
    schema, without, free = json.loads((REPOSITORY / "docs" / "openapi.json").read_text()), set(), set()
    for path, item in schema["paths"].items():
        for method, operation in item.items():
            if method != "parameters" and "401" not in operation["responses"]:
                without.add((method.upper(), path))
            if method != "parameters" and operation.get("security", schema["security"]) == []:
                free.add((method.upper(), path))
    return without, free


def compare(what, code, page):
    for entry in sorted(code - page, key=str):
        print(f"{what} lacks {entry}")
    for entry in sorted(page - code, key=str):
        print(f"{what} has {entry}, which is not in the code")
    return code == page


def main(words):
    routes, errors = code_routes(), code_errors()
    page_routes, page_errors, examples = page_tables()
    schema_routes, schema_errors, words = schema_tables()
    held = [
        len(routes) == 6 and len(errors) == 22,
        compare("docs/HTTP.md", routes, page_routes),
        compare("docs/HTTP.md", errors, page_errors),
        compare("docs/HTTP.md, examples by curl,", routes, examples),
        compare("docs/openapi.json", routes, schema_routes),
        compare("docs/openapi.json", errors, schema_errors),
        compare("docs/openapi.json, words of errors,", {error[0] for error in errors}, words),
        compare("docs/openapi.json, operations without 401,", {("GET", "/health")}, open_operations()[0]),
        compare("docs/openapi.json, operations without a token,", {("GET", "/health")}, open_operations()[1]),
    ]
    if not held[0]:
        print(f"the code's tables weren't found whole: {len(routes)} routes, {len(errors)} errors")
    print(f"{held.count(True)} passed, {held.count(False)} failed")
    return 0 if all(held) else 1


command = as_command(main)


if __name__ == "__main__":
    sys.exit(command())
