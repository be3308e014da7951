#!/usr/bin/env python3
"""Prints the crates into docs/ARCHITECTURE.md: crates.py [--check]

Replaces the part between the marks `<!-- crates -->` and `<!-- /crates -->` by the layers of crates.txt, each with a table of its crates. A
crate's row is the first sentence of its root file. With --check it writes nothing, and exits 1 if that part is stale.
"""
import os, re, sys

root = os.path.join(os.path.dirname(os.path.abspath(__file__)), "..")
read = lambda *part: open(os.path.join(root, *part), encoding="utf-8").read()


def sentence(crate):
    """The first sentence of the crate's root file."""
    source = os.path.join("crates", crate, "src")
    name = "lib.rt" if os.path.isfile(os.path.join(root, source, "lib.rt")) else "main.rt"
    head = []
    for line in read(source, name).split("\n"):
        if not line.startswith("//!") or line.strip() == "//!":
            break
        head.append(line[3:].strip())
    text = " ".join(head)
    return re.split(r"(?<=\.)(?: |$)", text)[0].replace("|", "\\|")


lines = []
for line in read("crates.txt").split("\n"):
    crate, colon, _ = line.partition(":")
    if line.startswith("# ") and " " not in line[2:]:
        lines += ["", "### " + line[2:].capitalize()]
    elif line.startswith("# "):
        lines += ["", line[2:], "", "| crate | what it gives |", "|---|---|"]
    elif colon:
        lines.append("| `%s` | %s |" % (crate.strip(), sentence(crate.strip())))

page = read("docs", "ARCHITECTURE.md")
marks = re.compile(r"(?<=<!-- crates -->\n).*?(?=<!-- /crates -->)", re.S)
if len(marks.findall(page)) != 1:
    sys.exit("docs/ARCHITECTURE.md: no one part between the marks")
new = marks.sub(lambda _: "\n".join(lines) + "\n\n", page)
if "--check" in sys.argv[1:]:
    if new != page:
        sys.exit("docs/ARCHITECTURE.md is stale: run proving/crates.py")
else:
    open(os.path.join(root, "docs", "ARCHITECTURE.md"), "w", encoding="utf-8").write(new)
