#!/usr/bin/env python3
"""What random small dependency graphs resolve to, told by the definition over all counting paths and all walks.

usage: graphs.py COUNT SEED INPUT WANTED [refused|modules]

Writes the input of the program `bench_graphs` and the answer that it has to give. Nothing here is a queue: a path is a
list of declarations from the project on, what it leads to is found from the whole path, and the winner of a key is the
least of its counting paths by length and then by positions. A scope is the widest of all walks. The first winner, by
length and positions, is refused for which some counting declaration states a range that doesn't admit its version.
The winners stand in the order in which a walk through the tree meets them, each with its scope; then what stands on
each classpath, the files to fetch, and what isn't known of their POMs.

With the word `refused` some POMs are there and are refused. No program reads that yet. With the word `modules` two further projects follow
each one over its libraries, the second of which declares and manages what the first project does.
"""
import random
import sys

NARROW = ("test", "provided", "system")
WIDEST_FIRST = ["compile", "runtime", "provided", "test"]
ON_CLASSPATH = {"compile": ("compile", "provided"), "runtime": ("compile", "runtime"), "test": WIDEST_FIRST}


def versions_of(project, group, artifact):
    return [v for (g, a, v) in project["poms"] if (g, a) == (group, artifact)]


def number(version):
    return [int(part) for part in version.split(".")] + [0]


def admits(requirement, version):
    low, high = requirement[1:-1].split(",") if "," in requirement else (requirement[1:-1],) * 2
    at = number(version)
    if low and (at < number(low) or (at == number(low) and requirement[0] == "(")):
        return False
    if high and (at > number(high) or (at == number(high) and requirement[-1] == ")")):
        return False
    return True


def managed_for(project, declaration):
    for entry in project["managed"]:
        if entry["key"] == declaration["key"]:
            return entry
    return None


def requirement_at(project, path):
    """The requirement of a path's last declaration: the managed one below the project itself."""
    declaration = path[-1][1]
    managed = managed_for(project, declaration)
    if len(path) > 1 and managed is not None and managed["version"] is not None:
        return managed["version"]
    return declaration["version"]


def picked(project, path):
    """The version of a path's last declaration, or the refusal."""
    requirement = requirement_at(project, path)
    group, artifact, _ = path[-1][1]["key"]
    if requirement[0] not in "[(":
        return requirement, None
    admitted = [v for v in versions_of(project, group, artifact) if admits(requirement, v)]
    if not admitted:
        return None, "refused 27 EmptyRange at " + ":".join(path[-1][1]["key"])
    return max(admitted, key=number), None


def cut_along(project, path):
    """All exclusions along a path, those of the management below the project included."""
    found = []
    for length in range(1, len(path) + 1):
        declaration = path[length - 1][1]
        found += declaration["exclusions"]
        managed = managed_for(project, declaration)
        if length > 1 and managed is not None:
            found += managed["exclusions"]
    return found


def leads_to(project, path):
    """The declarations at a path's end, each with its position."""
    if not path:
        return list(enumerate(project["direct"]))
    version, refusal = picked(project, path)
    group, artifact, _ = path[-1][1]["key"]
    if refusal is not None or (group, artifact, version) in project["refused"]:
        return []
    cut = cut_along(project, path)
    kept = []
    for position, declaration in enumerate(project["poms"].get((group, artifact, version), [])):
        g, a, _ = declaration["key"]
        if declaration["optional"] or declaration["scope"] in NARROW:
            continue
        if any(eg in ("*", g) and ea in ("*", a) for (eg, ea) in cut):
            continue
        kept.append((position, declaration))
    return kept


def key_of(path):
    return path[-1][1]["key"]


def positions(path):
    return [position for (position, _) in path]


def winners_of(project):
    """Each key's winner. A path counts where each shorter front of it that isn't empty is its key's winner."""
    winners, fronts = {}, [[]]
    while fronts:
        counting = [front + [step] for front in fronts for step in leads_to(project, front)]
        best = {}
        for path in counting:
            key = key_of(path)
            if key not in winners and (key not in best or positions(path) < positions(best[key])):
                best[key] = path
        winners.update(best)
        fronts = [path for path in counting if winners[key_of(path)] is path]
        random.shuffle(fronts)
    return winners


def by_length(winners):
    return sorted(winners.values(), key=lambda path: (len(path), positions(path)))


def first_refusal(project, winners):
    """Of the first winner that has no version."""
    refusals = (picked(project, path)[1] for path in by_length(winners))
    return next((refusal for refusal in refusals if refusal is not None), None)


def scope_at(project, path):
    """The scope of a path's last declaration, and whether it is managed: below the project itself alone."""
    declaration = path[-1][1]
    managed = managed_for(project, declaration)
    if len(path) > 1 and managed is not None and managed["scope"] is not None:
        return managed["scope"], True
    return declaration["scope"] or "compile", False


def further_scope(scope, stated, is_managed):
    """The scope of a walk that goes on by a declaration of a scope."""
    if is_managed or (scope == "compile" and stated == "runtime"):
        return stated
    return scope


def walks(project, winners):
    """The pairs of a key and a scope that some walk ends with. A walk begins with a declaration of the project, goes on from
    a winner along any declaration that it leads to, and enters no second winner that the project itself declares."""
    ends = {(key_of([step]), scope_at(project, [step])[0]) for step in leads_to(project, [])}
    while True:
        more = {
            (key_of([step]), further_scope(scope, *scope_at(project, winners[key] + [step])))
            for (key, scope) in ends
            for step in leads_to(project, winners[key])
            if len(winners[key_of([step])]) > 1
        }
        if more <= ends:
            return ends
        ends |= more


def scope_of(project, winners, key):
    if len(winners[key]) == 1:
        return scope_at(project, winners[key])[0]
    return min((scope for (end, scope) in walks(project, winners) if end == key), key=WIDEST_FIRST.index)


def first_conflict(project, winners):
    """The first winner whose version isn't admitted by the range of some counting path to its key."""
    counting = [front + [step] for front in [[], *winners.values()] for step in leads_to(project, front)]
    for winner in by_length(winners):
        version, _ = picked(project, winner)
        wanted = [requirement_at(project, path) for path in counting if key_of(path) == key_of(winner)]
        if any(requirement[0] in "[(" and not admits(requirement, version) for requirement in wanted):
            return "refused 28 RangeConflict at " + ":".join(key_of(winner))
    return None


def notes(project, winners):
    """What isn't known of the winners' POMs, by the lengths of their paths and then by positions."""
    lines = []
    for path in by_length(winners):
        group, artifact, _ = key_of(path)
        gav = (group, artifact, picked(project, path)[0])
        if gav in project["refused"]:
            lines.append("note refused " + ":".join(gav))
        elif gav not in project["poms"]:
            lines.append("note missing " + ":".join(gav))
    return lines


def files(project, winners):
    """The names of what is fetched, in preorder: a winner's POM where there is one, also a refused one, then its artifact;
    each name once."""
    names = []
    for path in sorted(winners.values(), key=positions):
        group, artifact, kind = key_of(path)
        version = picked(project, path)[0]
        folder = f"{group}/{artifact}/{version}/{artifact}-{version}"
        if (group, artifact, version) in project["poms"]:
            names.append(f"{folder}.pom")
        names.append(f"{folder}.{kind}")
    return ["fetch " + name for name in dict.fromkeys(names)]


def answer(project):
    """What a project's resolution is, or the first refusal."""
    winners = winners_of(project)
    refusal = first_refusal(project, winners) or first_conflict(project, winners)
    if refusal is not None:
        return [refusal]
    ordered = sorted(winners.values(), key=positions)
    scopes = [scope_of(project, winners, key_of(path)) for path in ordered]
    lines = [
        f"{':'.join(key_of(path))} {picked(project, path)[0]} {scope}"
        for (path, scope) in zip(ordered, scopes)
    ]
    for kind, wanted in ON_CLASSPATH.items():
        places = [at for (at, path) in enumerate(ordered) if key_of(path)[2] == "jar" and scopes[at] in wanted]
        lines.append(" ".join([kind, *map(str, places)]))
    return lines + files(project, winners) + notes(project, winners)


def random_requirement(pick):
    if pick.random() < 0.75:
        return pick.choice("123")
    low, high = sorted(pick.sample([1, 2, 3], 2))
    return pick.choice([f"[{low},{high}]", f"[{low},{high})", f"({low},{high}]", f"[{low},)", f"(,{high}]", f"[{high}]"])


def random_declaration(pick, names, managed=False):
    exclusions = []
    if pick.random() < 0.2:
        exclusions = [(pick.choice(["g", "*"]), pick.choice(names + ["*"])) for _ in range(pick.randint(1, 2))]
    return {
        "key": ("g", pick.choice(names), pick.choice(["jar", "jar", "jar", "zip"])),
        "version": None if managed and pick.random() < 0.3 else random_requirement(pick),
        "scope": pick.choice([None, "compile", "compile", "runtime", "test", "provided"]),
        "optional": not managed and pick.random() < 0.1,
        "exclusions": exclusions,
    }


def random_declarations(pick, names, most=4):
    return [random_declaration(pick, names) for _ in range(pick.randint(0, most))]


def random_project(pick):
    names = list("abcdefg")[: pick.randint(2, 7)]
    poms = {}
    for name in names:
        for version in sorted(pick.sample("123", pick.randint(0, 3))):
            poms[("g", name, version)] = random_declarations(pick, names)
    return random_module(pick, names, poms)


def random_module(pick, names, poms):
    """A project over these libraries."""
    return {
        "direct": random_declarations(pick, names) or random_declarations(pick, names),
        "managed": [random_declaration(pick, names, True) for _ in range(pick.choice([0, 0, 1, 2]))],
        "names": names,
        "poms": poms,
        "refused": [],
    }


def refuse_some(pick, project):
    """Some POMs are refused: they are there, and lead to nothing."""
    project["refused"] = [gav for gav in project["poms"] if pick.random() < 0.1]


def line(word, declaration):
    group, artifact, kind = declaration["key"]
    fields = [word, group, artifact, declaration["version"] or "-", kind, declaration["scope"] or "-"]
    if word == "needs":
        fields.append("true" if declaration["optional"] else "-")
    fields.append(",".join(f"{g}:{a}" for (g, a) in declaration["exclusions"]) or "-")
    return " ".join(fields)


def spelled_module(project):
    lines = [line("managed", entry) for entry in project["managed"]]
    return lines + [line("needs", declaration) for declaration in project["direct"]]


def spelled(project):
    lines = spelled_module(project)
    for (group, artifact, version), declarations in project["poms"].items():
        lines.append(f"pom {group} {artifact} {version}")
        lines += [line("needs", declaration) for declaration in declarations]
    return lines + [" ".join(["refused", *gav]) for gav in project["refused"]]


def main():
    count, seed, given, wanted = int(sys.argv[1]), int(sys.argv[2]), sys.argv[3], sys.argv[4]
    with_refused, with_modules = (sys.argv[5:] == [word] for word in ("refused", "modules"))
    pick = random.Random(seed)
    projects = [random_project(pick) for _ in range(count)]
    for project in projects if with_refused else []:
        refuse_some(pick, project)
    inputs, answers = [], []
    for project in projects:
        modules = [random_module(pick, project["names"], project["poms"]), project] if with_modules else []
        lines = spelled(project)
        for module in modules:
            lines += ["module", *spelled_module(module)]
        inputs.append("".join(text + "\n" for text in lines))
        answers += [answer(module) for module in [project, *modules]]
    with open(given, "w") as file:
        file.write("project\n".join(inputs))
    with open(wanted, "w") as file:
        for lines in answers:
            file.write("".join(text + "\n" for text in lines) + "\n")


main()
