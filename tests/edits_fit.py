#!/usr/bin/env python3
"""Looks whether each wrong body still fits the sources, so that it can be tried: crates/*/must-fail/*.edit and crates/*/tried/*.edit; and
whether there are no more of them than may be.

An edit names a file of its crate, in src/, and then pairs of lines, `old: ` and `new: `; another file may follow. Each old text has to stand in
its file once, after the pairs before it have been put in. It needs no built program.
"""
import collections
import pathlib
import sys

sys.dont_write_bytecode = True

import cases

CRATES = pathlib.Path(__file__).resolve().parent.parent / "crates"
MOST_GATED = 30  # in must-fail/ of all crates: each costs a check of every CI run
MOST_TRIED = 12  # in tried/ of a crate: whoever changes it tries them by hand


def why_not(edit):
    """Why an edit doesn't fit; None if it does."""
    texts = {}
    file = old = None
    for line in edit.read_text(encoding="utf-8").splitlines():
        word, _, rest = line.partition(" ")
        if word == "file:" and old is None:
            file = edit.parent.parent / rest.strip()
            if not rest.startswith("src/"):
                return f"{rest} is no file of src/"
            if not file.is_file():
                return f"there is no {file.relative_to(CRATES)}"
            texts.setdefault(file, file.read_text(encoding="utf-8"))
        elif word == "old:" and file and old is None:
            old = rest
            count = texts[file].count(old)
            if count != 1:
                return f"its text stands {count} times in {file.relative_to(CRATES)}: {old.strip()}"
        elif word == "new:" and old is not None:
            texts[file] = texts[file].replace(old, rest)
            old = None
        else:
            return f"a line is out of place: {line}"
    return None if texts and old is None else "it has no `old: ` and `new: `"


def main():
    gated, tried = (sorted(CRATES.glob(f"*/{folder}/*.edit")) for folder in ("must-fail", "tried"))
    for folder, edits in ("must-fail", gated), ("tried", tried):
        cases.holds(f"each of {len(edits)} wrong bodies in {folder}/ fits the sources",
             [f"{edit.relative_to(CRATES)}: {why}" for edit in edits if (why := why_not(edit))])
    cases.holds(f"1 to {MOST_GATED} wrong bodies stand in must-fail/", [] if 1 <= len(gated) <= MOST_GATED else [f"{len(gated)} do"])
    counts = collections.Counter(edit.parent.parent.name for edit in tried)
    cases.holds(f"at most {MOST_TRIED} wrong bodies of a crate stand in tried/",
         [f"{crate} has {count}" for crate, count in counts.items() if count > MOST_TRIED])
    return cases.tell()


if __name__ == "__main__":
    sys.exit(main())
