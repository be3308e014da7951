#!/usr/bin/env python3
"""Makes a project of many modules in the current folder, the same for the same words.

    bench/reactor_project.py MODULES LIBRARIES

The root, `gen:root:1.0`, is the parent of the others, `gen:mI:1.0`; with one module it stands alone. The others stand in groups of 25, of
which none needs another, so that what a module needs doesn't grow with the project. Each has ten dependencies, or fewer where there are
fewer: without libraries on the ten modules before it in its group, and else on the five before it there and on five libraries. A library
needs three others of a greater number. Their POMs lie in .m2/repository, with jars of one byte.
"""
import os
import random
import sys

PROJECT = "<project><modelVersion>4.0.0</modelVersion>{}</project>"


def gav(group, artifact, version="1.0"):
    return f"<groupId>{group}</groupId><artifactId>{artifact}</artifactId><version>{version}</version>"


def needs(names):
    return "<dependencies>" + "".join(f"<dependency>{gav(*name)}</dependency>" for name in names) + "</dependencies>" if names else ""


def write(path, text):
    os.makedirs(os.path.dirname(path) or ".", exist_ok=True)
    with open(path, "w", encoding="ascii") as file:
        file.write(text)


def main(modules, libraries):
    rng = random.Random(7)
    listed = "".join(f"<module>m{i}</module>" for i in range(1, modules))
    properties = "<properties>" + "".join(f"<p{i}>{i}</p{i}>" for i in range(50)) + "</properties>"
    write("pom.xml", PROJECT.format(gav("gen", "root") + "<packaging>pom</packaging>" + (f"<modules>{listed}</modules>" if listed else "") + properties))
    for i in range(1, modules):
        first = i - (i - 1) % 25
        own = [("gen", f"m{j}") for j in range(max(first, i - (5 if libraries else 10)), i)]
        outer = [("ext", f"lib{k}") for k in sorted(rng.sample(range(libraries), 5))] if libraries else []
        write(f"m{i}/pom.xml", PROJECT.format(f"<parent>{gav('gen', 'root')}</parent><artifactId>m{i}</artifactId>" + needs(own + outer)))
        write(f"m{i}/src/main/java/A.java", f"class A{i} {{}}\n")
    for k in range(libraries):
        above = [("ext", f"lib{j}") for j in sorted({k + 1 + rng.randrange(40) for _ in range(3)}) if j < libraries]
        place = f".m2/repository/ext/lib{k}/1.0/lib{k}-1.0"
        write(f"{place}.pom", PROJECT.format(gav("ext", f"lib{k}") + needs(above)))
        write(f"{place}.jar", "J")


if __name__ == "__main__":
    main(int(sys.argv[1]), int(sys.argv[2]))
