#!/usr/bin/env bash
# Checks a crate as `rt ci` does, from nothing and in one session, without building it; the libraries below it have to be built (take_proved.py).
# Prints the lines of the check, each with the processor seconds and the seconds since the line before: the second column counts what the check was
# stopped too. In front of `checked F` stands what F took, what was loaded for it, and what the checker had begun of functions that call F.
# The last lines have the stages of the check.
# usage: proving/check_one.sh CRATE [FLAGS OF rattle check..]
set -euo pipefail
cd "$(dirname "$0")"
exec python3 -B - "$@" << 'END_OF_SCRIPT'
import sys
import tempfile
import time

sys.path.insert(0, ".")
from machine import begin_check, spent

with tempfile.NamedTemporaryFile("r") as stages:
    check = begin_check(sys.argv[1], "--progress", "--stage-times", stages.name, *sys.argv[2:])
    used, at = 0.0, time.time()
    for line in check.stdout:
        now = spent(check.pid, last=used)
        print(f"{now - used:7.2f} {time.time() - at:7.2f} {line}", end="", flush=True)
        used, at = now, time.time()
    status = check.wait()
    print(stages.read(), end="")
    print(f"{used:.1f} processor seconds")
sys.exit(status)
END_OF_SCRIPT
