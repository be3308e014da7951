#!/usr/bin/env python3
"""Goals in a child: compiles Java with javac, runs test programs with java, and makes a jar.

mvn starts this program once for each goal, writes a request to its standard input, and reads an answer from its standard
output. A request is one line of JSON and the bytes that its lists count, an answer one line of JSON and the bytes of an output.
What javac and the tests write goes to standard error.
"""

import io
import json
import os
import subprocess
import sys
import tempfile
import zipfile

MAIN = "src/main/java/"
MAIN_RESOURCES = "src/main/resources/"
TEST = "src/test/java/"
TEST_RESOURCES = "src/test/resources/"


class GoalFailed(Exception):
    """A goal that fails, with the text that mvn reports."""


class Request:
    """What a goal is asked: its line, and the bytes of the sources, of the module's outputs and of the classpath."""

    def __init__(self, stream):
        self.line = json.loads(stream.readline())
        self.sources = {path: stream.read(length) for path, length in self.line["sources"]}
        self.own = {slot: stream.read(length) for slot, length in self.line["own"]}
        self.classpath = [(name, stream.read(length or 0)) for name, length in self.line["classpath"]]

    def below(self, folder):
        """The sources below a folder of the module, by their paths from there. The module may lie in a folder of the project."""
        parts = ((f"/{path}".partition(f"/{folder}"), data) for path, data in self.sources.items())
        return {rest: data for (_, found, rest), data in parts if found}


def write_files(folder, files):
    for path, data in files.items():
        target = os.path.join(folder, path)
        os.makedirs(os.path.dirname(target), exist_ok=True)
        with open(target, "wb") as file:
            file.write(data)


def read_files(folder):
    files = {}
    for place, _, names in os.walk(folder):
        for name in names:
            path = os.path.join(place, name)
            with open(path, "rb") as file:
                files[os.path.relpath(path, folder)] = file.read()
    return files


def zipped(files):
    """A zip file of these files, the same for the same files."""
    out = io.BytesIO()
    with zipfile.ZipFile(out, "w", zipfile.ZIP_DEFLATED) as archive:
        for path in sorted(files, key=lambda path: (path != "META-INF/MANIFEST.MF", path)):
            archive.writestr(zipfile.ZipInfo(path), files[path])
    return out.getvalue()


def unzipped(data):
    with zipfile.ZipFile(io.BytesIO(data)) as archive:
        return {name: archive.read(name) for name in archive.namelist()}


def run(words):
    """Runs a program, all of whose output goes to standard error. Whether it ended well."""
    return subprocess.run(words, stdin=subprocess.DEVNULL, stdout=sys.stderr.fileno(), check=False).returncode == 0


def classpath_in(folder, request, slots):
    """The classes of these slots and the files of the classpath, put below a folder, as javac and java take them."""
    places = []
    for slot in slots:
        if slot in request.own:
            place = os.path.join(folder, slot)
            os.makedirs(place)
            write_files(place, unzipped(request.own[slot]))
            places.append(place)
    for number, (_, data) in enumerate(request.classpath):
        if data:
            place = os.path.join(folder, f"{number}.jar")
            with open(place, "wb") as file:
                file.write(data)
            places.append(place)
    return os.pathsep.join(places)


def compiled(request, sources, resources, slots):
    """The classes of the Java files below a folder, with the resources below another, as a zip file."""
    files = request.below(sources)
    java = sorted(path for path in files if path.endswith(".java"))
    with tempfile.TemporaryDirectory() as folder:
        source, target = os.path.join(folder, "source"), os.path.join(folder, "target")
        os.makedirs(target)
        write_files(source, files)
        words = ["javac", "-encoding", "UTF-8", "-nowarn", "-d", target]
        classpath = classpath_in(folder, request, slots)
        if classpath:
            words += ["-cp", classpath]
        if java and not run(words + [os.path.join(source, path) for path in java]):
            raise GoalFailed("javac refused the sources")
        return zipped(read_files(target) | request.below(resources))


def class_of(path):
    """The name of the class that a Java file is named for."""
    return path.removesuffix(".java").replace("/", ".")


def test(request):
    """Runs each class of the tests that is named ..Test: one that ends with another status than 0 fails."""
    with tempfile.TemporaryDirectory() as folder:
        classpath = classpath_in(folder, request, ["test-classes", "classes"])
        for path in sorted(request.below(TEST)):
            if path.endswith("Test.java") and not run(["java", "-ea", "-cp", classpath, class_of(path)]):
                raise GoalFailed(f"{class_of(path)} failed")


def jar(request):
    """The classes and resources as a jar, which runs the first class that has a main method."""
    lines = ["Manifest-Version: 1.0"]
    for path, data in sorted(request.below(MAIN).items()):
        if b"public static void main(" in data:
            lines.append(f"Main-Class: {class_of(path)}")
            break
    manifest = "".join(f"{line}\r\n" for line in lines + [""]).encode()
    classes = unzipped(request.own["classes"]) if "classes" in request.own else {}
    return zipped({"META-INF/MANIFEST.MF": manifest} | classes)


def output_of(request):
    """The output of a goal, none where it has none."""
    goal = request.line["goal"]
    if goal == "compile":
        return compiled(request, MAIN, MAIN_RESOURCES, [])
    if goal == "testCompile":
        return compiled(request, TEST, TEST_RESOURCES, ["classes"])
    if goal == "jar":
        return jar(request)
    if goal == "test-jar":
        return request.own.get("test-classes")
    if goal == "jar-no-fork":
        return zipped(request.below(MAIN) | request.below(MAIN_RESOURCES))
    if goal == "test":
        test(request)
    return None


def main():
    request = Request(sys.stdin.buffer)
    output = b""
    try:
        made = output_of(request)
        answer = {"answer": "done"}
        if made is not None:
            answer, output = {"answer": "produced", "length": len(made)}, made
    except GoalFailed as failure:
        answer = {"answer": "failed", "text": str(failure)}
    sys.stdout.buffer.write(json.dumps(answer).encode() + b"\n" + output)


if __name__ == "__main__":
    main()
