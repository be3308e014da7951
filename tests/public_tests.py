#!/usr/bin/env python3
"""Lists the public functions of the libraries, and which test or program of rows calls each.

    tests/public_tests.py           prints the functions that nothing calls, and a line of counts; fails where there is one
    tests/public_tests.py --all     prints a line for each function: crate, function, and the files that call it

A function counts as called where a file names it that belongs to a test crate (`*_tests`), to rows (programs and libraries, `*_rows`, and
libraries on which these stand, as `row_models`, `test_builds` and `build_row_tables`), to a measurement (`bench_*`, and the libraries
`bare_builds` and `graph_lines`), or to the program `print_models` and its library `tree_projects`: the outputs of all these are compared.
A function is named by its own name, one of a type without `self` as `Type::name`, a method as `.name(` in a file that names the crate.
Where no such file does, the code that names it is listed after the word `through`. Names are read and no types: a method with a common
name may be found by a call of another type's.

A law is a function without a value whose body does nothing: a call would show nothing, so laws are counted apart.
"""
import glob
import os
import re
import sys

TOP = os.path.join(os.path.dirname(os.path.abspath(__file__)), "..", "crates")
CALLERS = re.compile(r"(_tests|_rows|_builds)$|^bench_|"
                     r"^(row_(models|projects)|test_projects|build_row_tables|graph_lines|board_play|print_models|tree_projects)$")
HEAD = re.compile(r"^(?:pub )?(impl|trait|struct|enum|mod)\b(.*)$")


def without_comments(text):
    return re.sub(r"//[^\n]*", "", text)


def public_modules(crate):
    """The files of a crate whose items others can name, with the names that its root passes on."""
    root = without_comments(open(os.path.join(TOP, crate, "src", "lib.rt")).read())
    passed = set(re.findall(r"\w+", " ".join(re.findall(r"pub use ([^;]*);", root))))
    modules = set(re.findall(r"pub mod (\w+);", root))
    return modules, passed


def owner_of(head):
    """The type of an impl, or the trait; nothing where an impl of a trait stands."""
    words = re.sub(r"<[^<>]*>", "", re.sub(r"<[^<>]*(<[^<>]*>[^<>]*)*>", "", head)).strip()
    if " for " in f" {words} ":
        return None
    return re.match(r"\w+", words).group() if re.match(r"\w+", words) else None


def functions(crate):
    """Each public function of a crate: its file, its owner, its name, and whether it takes `self`, is a trait's and is a law."""
    modules, passed = public_modules(crate)
    for path in sorted(glob.glob(os.path.join(TOP, crate, "src", "*.rt"))):
        module = os.path.basename(path)[:-3]
        file = os.path.relpath(path, TOP)
        kind, owner = None, None
        lines = without_comments(open(path).read()).split("\n")
        for number, line in enumerate(lines):
            head = HEAD.match(line)
            if head:
                kind, owner = head.group(1), owner_of(head.group(2))
                if kind == "trait" and not line.startswith("pub"):
                    kind = None
            found = re.match(r"^( *)(pub )?(?:const )?fn (\w+)", line)
            if not found:
                continue
            inside, public, name = bool(found.group(1)), bool(found.group(2)), found.group(3)
            sign = re.split(r"\{| ensures | requires ", " ".join(lines[number:number + 12]))[0].split("fn " + name, 1)[1]
            takes_self = bool(re.search(r"\(\s*(&('\w+ )?)?(mut )?self\b", sign))
            is_law = "->" not in sign.split(")", 1)[-1] and bool(re.search(r"\(\s*(&self)?\s*\)", sign))
            if inside and kind == "trait":
                yield file, owner, name, takes_self, True, False
            elif inside and kind == "impl" and public and owner and (module in modules or owner in passed):
                yield file, owner, name, takes_self, False, is_law
            elif not inside and public and (module in modules or name in passed):
                yield file, None, name, False, False, is_law


def calls_of(owner, name, takes_self, is_trait):
    """The pattern of a call."""
    if owner is None:
        return rf"\b{name}(::<[^>]*>)?\("
    qualified = rf"\b\w+(::<[^>]*>)?::{name}\b" if is_trait else rf"\b{owner}(::<[^>]*>)?::{name}\b"
    return rf"\.{name}\(|{qualified}" if takes_self else qualified


def called(crate, pattern, files, defined=None):
    """The files that hold a call, of those that name the crate or stand in it."""
    for path, text in files:
        if not path.startswith(crate + os.sep) and not re.search(rf"\b{crate}\b", text):
            continue
        if path == defined:
            text = re.sub(r"\bfn \w+", "fn", text)
        if re.search(pattern, text):
            yield path


def read(crates):
    """The files of crates, without comments."""
    return [(os.path.relpath(path, TOP), without_comments(open(path).read()))
            for crate in crates for path in sorted(glob.glob(os.path.join(TOP, crate, "src", "**", "*.rt"), recursive=True))]


def main():
    crates = sorted(os.path.basename(path) for path in glob.glob(os.path.join(TOP, "*")))
    callers = read([crate for crate in crates if CALLERS.search(crate)])
    libraries = [crate for crate in crates
                 if os.path.exists(os.path.join(TOP, crate, "src", "lib.rt")) and not CALLERS.search(crate)]
    code = read([crate for crate in crates if not CALLERS.search(crate)])
    counts = {"directly": 0, "through": 0, "not": 0, "law": 0}
    for crate in libraries:
        for path, owner, name, takes_self, is_trait, is_law in functions(crate):
            whole = f"{owner}::{name}" if owner else name
            pattern = calls_of(owner, name, takes_self, is_trait)
            where, how = ["a law"], "law"
            if not is_law:
                where, how = list(called(crate, pattern, callers)), "directly"
            if not where:
                where, how = ["through", *called(crate, pattern, code, path)], "through"
            if where == ["through"]:
                where, how = ["-"], "not"
                print(f"nothing calls {crate} {whole}")
            counts[how] += 1
            if "--all" in sys.argv:
                print(crate, whole, *where)
    print(f"{sum(counts.values())} public functions: {counts['directly']} called by tests or rows, "
          f"{counts['through']} through others, {counts['law']} laws, {counts['not']} by nothing")
    return 1 if counts["not"] else 0


sys.exit(main())
