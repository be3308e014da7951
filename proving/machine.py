"""What the scripts of this folder know of crates.txt and of the checks that run on this machine."""
import importlib.machinery
import importlib.util
import os
import shutil
import subprocess
import sys
from typing import NamedTuple

TOP = os.path.dirname(os.path.dirname(os.path.abspath(__file__)))
TICKS = os.sysconf("SC_CLK_TCK")


class Process(NamedTuple):
    """A command of the kit that runs: its first word, its crate and folder, its parent, when it began, its state and its processor seconds."""

    command: str
    crate: str
    folder: str
    parent: int
    start: int
    state: str
    seconds: float

    def is_of_ci(self):
        """Whether `rt ci NAME..` runs it, which works on copies."""
        return "/rt-copy-" in self.folder or "/rt-edit-" in self.folder


def libraries():
    """The crates of crates.txt, each with the names of the libraries that it uses."""
    found = {}
    with open(f"{TOP}/crates.txt") as file:
        for line in file:
            name, colon, used = line.split("#")[0].partition(":")
            if colon:
                found[name.split()[0]] = used.split()
    return found


def load_rt():
    """The command `rt` as a module, which knows what a check is called with, and the stamp of a library."""
    kit = os.path.dirname(os.path.realpath(shutil.which("rt") or "rt"))
    sys.dont_write_bytecode = True
    loader = importlib.machinery.SourceFileLoader("rt_command", f"{kit}/rt")
    module = importlib.util.module_from_spec(importlib.util.spec_from_loader("rt_command", loader))
    sys.modules["rt_command"] = module
    loader.exec_module(module)
    return module


def spent(number, *, last):
    """The processor seconds of a process so far, or the last figure if it has ended."""
    try:
        with open(f"/proc/{number}/stat") as file:
            fields = file.read().rpartition(")")[2].split()
        return sum(map(int, fields[11:15])) / TICKS
    except (OSError, IndexError):
        return last


def begin_check(name, *flags, tests=False):
    """Begins the check of a crate of this repository as `rt ci` does it, from nothing and in one session, and returns its process, which writes text."""
    rt = load_rt()
    os.chdir(TOP)
    rt.Crate.allowed = rt.handles_of(TOP)
    crate = next((it for it in rt.crates_of(TOP) if it.name == name), None)
    if crate is None:
        sys.exit(f"crates.txt has no crate {name}")
    crate.out = sys.stderr
    words = crate.words(["--jobs", "1", *(["--test"] if tests else [])], keeps=False)
    rattle = f"{os.path.dirname(os.path.realpath(shutil.which('rt')))}/rattle"
    argv = [rattle, "check", *words, *flags]
    return subprocess.Popen(argv, cwd=f"{TOP}/crates/{name}", stdout=subprocess.PIPE, stderr=subprocess.STDOUT, text=True)


def running(*commands):
    """The processes that run one of these commands of the kit, by number."""
    found = {}
    for number in filter(str.isdigit, os.listdir("/proc")):
        try:
            with open(f"/proc/{number}/cmdline", "rb") as file:
                words = [it.decode(errors="replace") for it in file.read().split(b"\0")]
            command = os.path.basename(words[0])
            # (laying out files takes no time that counts, and a run waits for it)
            if command not in commands or "fmt" in words[1:2]:
                continue
            folder = os.readlink(f"/proc/{number}/cwd")
            with open(f"/proc/{number}/stat") as file:
                fields = file.read().rpartition(")")[2].split()
        except OSError:
            # (it ended meanwhile)
            continue
        crate = words[words.index("--crate-name") + 1] if "--crate-name" in words else os.path.basename(folder)
        seconds = sum(map(int, fields[11:15])) / TICKS
        found[int(number)] = Process(command, crate, folder, int(fields[1]), int(fields[19]), fields[0], seconds)
    return found
