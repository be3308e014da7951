#!/usr/bin/env python3
"""The jars that the built-in goals make of modules without sources, computed by plain code: `demo:NAME:1.0`, of packaging jar.

    tests/reactor_jars.py NAME:COMPILE:TEST ..     prints `NAME TEXT` for each

COMPILE and TEST are the classpaths, with commas between the modules, which were named before; `NAME/tests` is the jar of a module's
tests. What a goal gives is the digest of its request. A module that made no jar of its tests gives its test classes in its place.
"""
import hashlib
import json
import sys

SLOTS = ["classes", "test-classes", "main"]
made = {}


def file_of(entry):
    name, _, tests = entry.partition("/")
    return f"demo/{name}/1.0/{name}-1.0{'-tests' if tests else ''}.jar"


def bytes_of(entry):
    name, _, tests = entry.partition("/")
    return made[name]["test-classes" if tests else "main"]


def output(name, plugin, goal, phase, own, classpath):
    """The text that a built-in goal gives: 64 hexadecimal digits and a line feed."""
    kept = [(slot, own[slot]) for slot in SLOTS if slot in own]
    entries = [(file_of(entry), bytes_of(entry)) for entry in classpath]
    line = {
        "groupId": "demo",
        "artifactId": name,
        "version": "1.0",
        "plugin": f"org.apache.maven.plugins:maven-{plugin}-plugin:",
        "goal": goal,
        "execution": f"default-{goal}",
        "phase": phase,
        "configuration": [],
        "sources": [],
        "own": [[slot, len(data)] for slot, data in kept],
        "classpath": [[path, len(data)] for path, data in entries],
    }
    request = json.dumps(line, sort_keys=True, separators=(",", ":")).encode() + b"\n"
    request += b"".join(data for _, data in kept + entries)
    return hashlib.sha256(request).hexdigest().encode() + b"\n"


def main(words):
    for word in words:
        name, *paths = word.split(":")
        compile_path, test_path = [path.split(",") if path else [] for path in paths]
        own = {}
        own["classes"] = output(name, "compiler", "compile", "compile", own, compile_path)
        own["test-classes"] = output(name, "compiler", "testCompile", "test-compile", own, test_path)
        own["main"] = output(name, "jar", "jar", "package", own, [])
        made[name] = own
        print(name, own["main"].decode(), end="")


if __name__ == "__main__":
    main(sys.argv[1:])
