#!/usr/bin/env python3
"""Gives a clone the libraries that runs of `rt ci NAME..` have proved so far, so that `rt check` there proves none of them again.

Such a run works in a folder /tmp/rt-copy-*/repo, as long as it lasts. A library is taken if its text and that of all libraries below it are those
of the clone. Prints how many libraries the clone has of such runs, and which of them are new.

usage: proving/take_proved.py CLONE [FOLDER..]     FOLDER: further repositories whose `out/` folders a whole `rt ci` made
"""
import glob
import os
import shutil
import sys

from machine import load_rt


def stamped(rt, root):
    """The crates of a repository, lowest first, each with the stamp of its text and of those below."""
    os.chdir(root)
    rt.STAMPS.seen = None
    rt.Crate.allowed = rt.handles_of(root)
    return [(crate, crate.stamp()) for crate in rt.crates_of(root)]


def link_or_copy(one, other):
    try:
        os.link(one, other)
    except OSError:
        shutil.copyfile(one, other)


def take(crate, stamp, library):
    """Puts a library into the crate's folder, and returns whether it wasn't there."""
    to = f"{crate.folder}/out/rlib"
    if os.path.isfile(f"{to}/taken") and open(f"{to}/stamp").read() == stamp:
        return False
    shutil.rmtree(to, ignore_errors=True)
    os.makedirs(to)
    shutil.copytree(library, f"{to}/{crate.name}.rlib", copy_function=link_or_copy)
    for name in ("stamp", "taken"):
        with open(f"{to}/{name}", "w") as file:
            file.write(stamp)
    return True


def main():
    args = [os.path.realpath(it) for it in sys.argv[1:]]
    if not args:
        sys.exit(__doc__.rpartition("\n\n")[2])
    rt, clone = load_rt(), args[0]
    runs = sorted(glob.glob("/tmp/rt-copy-*/repo"), key=os.path.getmtime, reverse=True)
    own, there, new = stamped(rt, clone), set(), []
    for run in args[1:] + runs:
        try:
            theirs = {crate.name: (stamp, f"{crate.folder}/out/rlib/{crate.name}.rlib") for crate, stamp in stamped(rt, run)}
        except (OSError, SystemExit):
            continue
        for crate, stamp in own:
            said, library = theirs.get(crate.name, ("", ""))
            if crate.name in there or said != stamp or not os.path.isfile(f"{library}/format"):
                continue
            if all(it.name in there for it in crate.below()):
                there.add(crate.name)
                if take(crate, stamp, library):
                    new.append(crate.name)
    print(f"{len(there)} libraries; new: {' '.join(new) or 'none'}")


main()
