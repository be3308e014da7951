#!/usr/bin/env python3
"""Runs a program and prints the most memory that it held at once, in KiB; fails if the program does.

    bench/memory.py PROGRAM WORDS ..

What the system counts includes the moment before the program is loaded, so less than what this script holds itself isn't told.
"""
import os
import sys

child = os.posix_spawnp(sys.argv[1], sys.argv[1:], os.environ, file_actions=[(os.POSIX_SPAWN_OPEN, 1, os.devnull, os.O_WRONLY, 0)])
_, status, usage = os.wait4(child, 0)
if status != 0:
    sys.exit(f"{sys.argv[1]} ended with the status {os.waitstatus_to_exitcode(status)}")
print(usage.ru_maxrss)
