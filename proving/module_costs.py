#!/usr/bin/env python3
"""Checks a crate as `rt ci` does, from nothing and in one session, and prints what each part of its functions took, the dearest first.

A check writes a module for each part of a function: `F.Lts` (what is borrowed and dropped at each step), `F.Goals`, `F.Proof` and so on. The time at
which such a module is written tells what it took, in processor seconds since the one before; that it isn't in front of another function's line, as with
check_one.sh. The libraries below the crate have to be built (take_proved.py).

usage: proving/module_costs.py CRATE [FLAGS OF rattle check..]     with TEST=1 before it: with the crate's tests
"""
import bisect
import glob
import os
import sys
import threading
import time

from machine import begin_check, spent


class Samples:
    """What a process has used at each time, and when each module of its crate was written, looked at until it ends."""

    def __init__(self, number, crate):
        self.number, self.crate = number, crate
        self.times, self.used, self.written = [], [], {}
        self.goes_on = True
        self.thread = threading.Thread(target=self.watch)
        self.thread.start()

    def look(self):
        for folder in glob.glob(f"/tmp/rattle-logic-built-locked-{self.number}-*"):
            try:
                for entry in os.scandir(folder):
                    name = entry.name
                    if f"-{self.crate}-" in name and ".tmp." not in name and name not in self.written:
                        self.written[name] = entry.stat().st_mtime
            except OSError:
                # (it was removed meanwhile)
                pass

    def watch(self):
        while self.goes_on:
            for _ in range(20):
                self.used.append(spent(self.number, last=self.used[-1] if self.used else 0.0))
                self.times.append(time.time())
                time.sleep(0.05)
            self.look()

    def end(self):
        self.goes_on = False
        self.thread.join()

    def used_at(self, moment):
        return self.used[min(bisect.bisect_left(self.times, moment), len(self.used) - 1)]


def costs(samples):
    """The seconds of each module, in the order in which they were written, and those before the first."""
    before, found = 0.0, []
    for name, moment in sorted(samples.written.items(), key=lambda it: it[1]):
        used = samples.used_at(moment)
        found.append((used - before, name))
        before = used
    return found


def main():
    if len(sys.argv) < 2:
        sys.exit(__doc__.rpartition("\n\n")[2])
    name = sys.argv[1]
    check = begin_check(name, *sys.argv[2:], tests=bool(os.environ.get("TEST")))
    samples = Samples(check.pid, name)
    said = check.stdout.read().splitlines()
    status = check.wait()
    samples.end()
    for seconds, module in sorted(costs(samples), reverse=True)[:60]:
        print(f"{seconds:8.2f} {module}")
    print(f"{samples.used[-1]:8.1f} processor seconds in all")
    print("\n".join(said[-2:]))
    sys.exit(status)


main()
