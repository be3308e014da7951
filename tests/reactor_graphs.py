#!/usr/bin/env python3
"""Generated projects of a few modules, whose reports are computed by plain code and compared with the program's.

    tests/reactor_graphs.py PROGRAM COUNT     prints the first project that differs, or how many were built, and in which ways

A project has a root and two to eight modules in folders of their names, all of version 1.0. A module has dependencies of any scope and
plugins among the others, and may have a file that lets a goal fail. The command line has a phase, perhaps selectors, and perhaps a number of
workers. The repositories are empty, so a module fails that needs the file of one that isn't built: of which of these is left open.
"""
import os
import random
import shutil
import subprocess
import sys
import tempfile

PHASES = ["validate", "compile", "test", "install"]
SCOPES = ["compile", "compile", "compile", "runtime", "provided", "test"]
PASSED_ON = ["compile", "runtime"]
FAILING = {"compile": ("maven-compiler-plugin", 1), "test": ("maven-surefire-plugin", 2)}


class Module:
    def __init__(self, name, parent, needs, plugins, fails):
        self.name, self.parent, self.needs, self.plugins, self.fails = name, parent, needs, plugins, fails

    def gav(self):
        return f"demo:{self.name}:1.0"

    def text(self, listed):
        def item(tag, name, more=""):
            return f"<{tag}><groupId>demo</groupId><artifactId>{name}</artifactId><version>1.0</version>{more}</{tag}>"

        parts = [item("parent", "root") if self.parent else "<groupId>demo</groupId><version>1.0</version>", f"<artifactId>{self.name}</artifactId>"]
        if self.name == "root":
            parts.append("<packaging>pom</packaging><modules>" + "".join(f"<module>{name}</module>" for name in listed) + "</modules>")
        parts.append("<dependencies>" + "".join(item("dependency", name, f"<scope>{scope}</scope>") for name, scope in self.needs) + "</dependencies>")
        parts.append("<build><plugins>" + "".join(item("plugin", name) for name in self.plugins) + "</plugins></build>")
        return "<project><modelVersion>4.0.0</modelVersion>" + "".join(parts) + "</project>"


def selector(rng, name):
    return rng.choice([f":{name}", name, f"demo:{name}", f"{name}/pom.xml"]) if rng.random() < 0.97 else "none"


def generated(rng):
    names = [f"m{i}" for i in range(rng.randint(2, 8))]
    rank = {name: rng.random() for name in names}
    modules = [Module("root", False, [], [], [])]
    for name in names:
        lower = [other for other in names if rank[other] < rank[name]]
        needs = [(other, rng.choice(SCOPES)) for other in rng.sample(lower, min(len(lower), rng.choice([0, 1, 1, 2, 3])))]
        if rng.random() < 0.03:
            needs = [need for need in needs if need[0] != names[0]] + [(names[0], "compile")]
        plugins = rng.sample(names, 1) if rng.random() < 0.2 else []
        fails = [goal for goal in FAILING if rng.random() < 0.08]
        modules.append(Module(name, rng.random() < 0.7, needs, plugins, fails))
    words = [rng.choice(PHASES)]
    if rng.random() < 0.5:
        chosen = []
        for _ in range(rng.randint(1, 2)):
            chosen.append(selector(rng, rng.choice(names)))
        words += ["-pl", ",".join(chosen)] + [word for word in ["-am", "-amd"] if rng.random() < 0.5]
    if rng.random() < 0.25:
        words += ["-rf", selector(rng, rng.choice(names))]
    if rng.random() < 0.3:
        words += ["-T", str(rng.randint(1, 16))]
    return modules, words


def reached(starts, edges):
    found, waiting = set(starts), list(starts)
    while waiting:
        for other in edges(waiting.pop()):
            if other not in found:
                found.add(other)
                waiting.append(other)
    return found


def winners(module, by_name):
    """All that a module needs, directly or by what it needs: of that only what is passed on."""
    passed = lambda name: [other for other, scope in by_name[name].needs if scope in PASSED_ON]
    return reached([other for other, _ in module.needs], passed)


def edges_of(modules, by_name, number):
    """The modules that each is built behind, by their numbers."""
    kept = {m.name: set(winners(m, by_name)) | ({"root"} if m.parent else set()) for m in modules}
    for m in modules:
        for plugin in m.plugins:
            if plugin != m.name and m.name not in reached([plugin], lambda name: kept[name]):
                kept[m.name].add(plugin)
    return {number[name]: {number[other] for other in others} for name, others in kept.items()}


def ordered(edges):
    """The numbers in the order of the build, and the circle that ends it."""
    order = []
    while len(order) < len(edges):
        ready = [n for n in edges if n not in order and all(up in order for up in edges[n])]
        if not ready:
            way = [min(n for n in edges if n not in order)]
            while True:
                left = sorted(up for up in edges[way[-1]] if up not in order and up != way[-1])
                following = left[0] if left else way[-1]
                if following in way:
                    return order, way[way.index(following):]
                way.append(following)
        order.append(min(ready))
    return order, None


def selected(modules, words, order, edges):
    """The numbers of what is built, or the place of the word that means no module. No word names the root."""
    number = {}
    for n, m in enumerate(modules):
        for form in [f":{m.name}", f"demo:{m.name}", m.name, f"{m.name}/pom.xml"]:
            number[form] = n
    named = []
    for option in ["-pl", "-rf"]:
        if option in words:
            place = words.index(option) + 1
            named += [(place, text) for text in words[place].split(",")]
    unknown = [place for place, text in named if text not in number]
    if unknown:
        return None, min(unknown)
    built = set(edges)
    if "-pl" in words:
        chosen = {number[text] for text in words[words.index("-pl") + 1].split(",")}
        built = set(chosen)
        if "-am" in words:
            built |= reached(chosen, lambda n: edges[n])
        if "-amd" in words:
            built |= reached(chosen, lambda n: [other for other in edges if n in edges[other]])
    whole = [n for n in order if n in built]
    if "-rf" in words:
        place = words.index("-rf") + 1
        first = number[words[place]]
        if first not in whole:
            return None, place
        whole = whole[whole.index(first):]
    return whole, None


def report(modules, words):
    """The text, in which a file that is missing is told by all modules that it may be of, and the status."""
    by_name = {m.name: m for m in modules}
    number = {m.name: n for n, m in enumerate(modules)}
    edges = edges_of(modules, by_name, number)
    order, circle = ordered(edges)
    if circle:
        names = [modules[n].gav() for n in circle + circle[:1]]
        folder = modules[circle[0]].name
        return f"refused {folder}/pom.xml rule 30 ReactorCycle at {' -> '.join(names)}\n", 2
    built, place = selected(modules, words, order, edges)
    if built is None:
        return f"word {place} UnknownModule\n", 2
    phase = PHASES.index(words[0])
    lines, lost, counts = [], [], {"built": 0, "failed": 0, "skipped": 0}
    for n in built:
        m = modules[n]
        ups = [up for up in built if up in edges[n] and up in lost]
        absent = sorted(name for name in winners(m, by_name) if number[name] not in built)
        failing = [goal for goal in FAILING if goal in m.fails and FAILING[goal][1] <= phase]
        if ups:
            how, rest = "skipped", f" after {modules[ups[0]].gav()}"
        elif phase > 0 and absent:
            how, rest = "failed", f" missing one of {' '.join(absent)}"
        elif failing:
            how, rest = "failed", f" goal {FAILING[failing[0]][0]}:{failing[0]} default-{failing[0]}: no luck with {m.name}"
        else:
            how, rest = "built", ""
        if how != "built":
            lost.append(n)
        counts[how] += 1
        lines.append(f"{how} {m.gav()}{rest}\n")
    lines.append(f"total {len(built)} " + " ".join(f"{how} {count}" for how, count in counts.items()) + "\n")
    return "".join(lines), 1 if lost else 0


def write(folder, modules):
    for m in modules:
        place = folder if m.name == "root" else os.path.join(folder, m.name)
        os.makedirs(place, exist_ok=True)
        with open(os.path.join(place, "pom.xml"), "w", encoding="ascii") as file:
            file.write(m.text([other.name for other in modules[1:]]))
        for goal in m.fails:
            os.makedirs(os.path.join(place, "src/test/java"), exist_ok=True)
            with open(os.path.join(place, f"src/test/java/fail-{goal}"), "w", encoding="ascii") as file:
                file.write(f"no luck with {m.name}\n")


def agrees(wanted, got):
    """Whether a line that came is the one that is wanted; that of a missing file names the POM of one of the modules."""
    left, found, names = wanted.partition(" missing one of ")
    if not found:
        return wanted == got
    return got in [f"{left} missing demo/{name}/1.0/{name}-1.0.pom" for name in names.split()]


def same(wanted, got):
    lines, came = wanted.split("\n"), got.split("\n")
    return len(lines) == len(came) and all(agrees(*pair) for pair in zip(lines, came))


def kind(text, status):
    words = text.split()
    return "missing" if "missing" in words else {0: "built", 1: "failed"}.get(status) or " ".join(word for word in words if word in ["ReactorCycle", "UnknownModule"])


def main(program, count):
    kinds = {}
    for seed in range(count):
        modules, words = generated(random.Random(seed))
        wanted, status = report(modules, words)
        folder = tempfile.mkdtemp()
        write(folder, modules)
        got = subprocess.run([program] + words, cwd=folder, stdout=subprocess.PIPE, check=False)
        if got.returncode != status or not same(wanted, got.stdout.decode(errors="replace")):
            print(f"project {seed} in {folder}: mvn {' '.join(words)}\nwanted {status}\n{wanted}got {got.returncode}\n{got.stdout.decode(errors='replace')}", end="")
            return 1
        shutil.rmtree(folder)
        kinds[kind(wanted, status)] = kinds.get(kind(wanted, status), 0) + 1
    print(f"{count} projects:", ", ".join(f"{many} {name}" for name, many in sorted(kinds.items())))
    return 0


if __name__ == "__main__":
    sys.exit(main(sys.argv[1], int(sys.argv[2])))
