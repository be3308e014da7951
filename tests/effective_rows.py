#!/usr/bin/env python3
"""Tries one row of tests/effective_rows: makes its project in a folder, runs the program over it, and compares the models.

usage: effective_rows.py PROGRAM ROW FOLDER

A row says first what it shows. Then come its files, each below a line `--- PATH`; those below `lib/` are the repository's, the others the
project's. In a file, `@g:a:v@` stands for the elements of these coordinates; a part that is empty or isn't there stands for none. A POM
that doesn't begin with `<project` or `<?xml` stands in `<project>` and behind its `modelVersion`. Below the line `--- models` stands what
is printed: for each POM a line that begins with its path, and behind it either the text that is printed, or `=` and that text, or JSON,
also over further lines that begin with white space. Of an object the members that are named must be there with their values, `null` being
one that isn't there, and others may be; a list must have its items and no others. Every POM that isn't named may say anything."""

import json
import pathlib
import re
import subprocess
import sys

NAMES = ("groupId", "artifactId", "version")


def elements(match):
    """The elements of coordinates."""
    parts = match[1].split(":")
    return "".join(f"<{name}>{part}</{name}>" for name, part in zip(NAMES, parts) if part)


def content(path, lines):
    """The text of a file."""
    text = "\n".join(lines)
    if not path.endswith((".xml", ".pom")):
        return text
    text = re.sub(r"@([^@<\n]*)@", elements, text)
    if text.lstrip().startswith(("<project", "<?xml")):
        return text
    return f"<project><modelVersion>4.0.0</modelVersion>\n{text}\n</project>\n"


def sections(text):
    """The files of a row by their paths, and what is printed."""
    found, lines = {}, []
    for line in text.split("\n"):
        if line.startswith("--- "):
            lines = found.setdefault(line[4:], [])
        else:
            lines.append(line)
    return found, found.pop("models")


def expected(lines):
    """What is printed, by the path of each POM."""
    found, text = {}, []
    for line in lines:
        if line and not line[0].isspace():
            path, _, rest = line.partition(" ")
            text = found.setdefault(path, [])
            text.append(rest)
        elif line:
            text.append(line)
    return {path: "\n".join(text) for path, text in found.items()}


def differs(wanted, got, at=""):
    """Where a value isn't as wanted."""
    if isinstance(wanted, dict) and isinstance(got, dict):
        for name, value in wanted.items():
            place = f"{at}/{name}"
            if value is None and name in got:
                yield f"{place}: wanted nothing, got {got[name]!r}"
            elif value is not None and name not in got:
                yield f"{place}: wanted {value!r}, got nothing"
            elif value is not None:
                yield from differs(value, got[name], place)
    elif isinstance(wanted, list) and isinstance(got, list) and len(wanted) == len(got):
        for number, (one, other) in enumerate(zip(wanted, got), 1):
            yield from differs(one, other, f"{at}[{number}]")
    elif wanted != got or type(wanted) is not type(got):
        yield f"{at}: wanted {wanted!r}, got {got!r}"


def judged(path, wanted, got):
    """What is wrong with the line of a POM."""
    if got is None:
        yield f"{path}: nothing is printed"
    elif wanted.startswith("{"):
        if got.startswith("{"):
            yield from (f"{path} {it}" for it in differs(json.loads(wanted), json.loads(got)))
        else:
            yield f"{path}: wanted a model, got {got!r}"
    elif got != wanted.removeprefix("= "):
        yield f"{path}: wanted {wanted!r}, got {got!r}"


def make(row, folder):
    """Makes the files of a row, and returns what is to be printed."""
    files, lines = sections(pathlib.Path(row).read_text())
    for path, text in files.items():
        file = folder / (path if path.startswith("lib/") else f"project/{path}")
        file.parent.mkdir(parents=True, exist_ok=True)
        file.write_bytes(content(path, text).encode())
    return expected(lines)


def main():
    program, row, folder = sys.argv[1], sys.argv[2], pathlib.Path(sys.argv[3])
    (folder / "lib").mkdir(parents=True)
    wanted = make(row, folder)
    line = f"print {folder}/project {folder}/lib\n"
    ran = subprocess.run([program], input=line.encode(), stdout=subprocess.PIPE, check=True)
    got = dict(it.split(" ", 1) for it in ran.stdout.decode().split("\n") if it)
    wrong = [it for path, text in wanted.items() for it in judged(path, text, got.get(path))]
    print("\n".join(wrong) or f"{len(wanted)} POMs")
    sys.exit(1 if wrong or not wanted else 0)


if __name__ == "__main__":
    main()
