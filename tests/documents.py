#!/usr/bin/env python3
"""Looks whether the documents fit the repository: the table of crates in docs/ARCHITECTURE.md is that of the root files, and each file that a
document links to is there. It needs no built program.
"""
import pathlib
import re
import subprocess
import sys

sys.dont_write_bytecode = True

import cases

TOP = pathlib.Path(__file__).resolve().parent.parent
LINK = re.compile(r"\]\(([^)#\s]+)(?:#[^)]*)?\)")


def missing(document):
    """The links of a document that lead to no file."""
    links = (link for link in LINK.findall(document.read_text(encoding="utf-8")) if "://" not in link)
    return [link for link in links if not (document.parent / link).exists()]


def main():
    stale = subprocess.run([TOP / "proving" / "crates.py", "--check"], cwd=TOP, capture_output=True, check=False).returncode != 0
    cases.holds("the table of crates is that of the root files", ["call proving/crates.py"] if stale else [])
    for document in sorted([*TOP.glob("*.md"), *(TOP / "docs").glob("*.md")]):
        cases.holds(f"each link of {document.relative_to(TOP)} leads to a file", missing(document))
    return cases.tell()


if __name__ == "__main__":
    sys.exit(main())
