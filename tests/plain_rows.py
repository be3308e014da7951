#!/usr/bin/env python3
"""The definitions of the order of versions, of the order of modules, of the edges that are kept and of the locks of names, as plain and
slow programs. Compares what they answer with the stored runs of `text_rows` and `order_rows`, row by row; the CI run holds these programs to
their stored runs. With the word `print` it prints the generated rows with their answers, a tab between: versions of three bytes beside all of
four, graphs, and calls of locks. It needs no built program."""

import functools
import itertools
import pathlib
import sys

sys.dont_write_bytecode = True

import cases

LETTERS = "01a.-"

RANKS = {
    "alpha": 0, "beta": 1, "milestone": 2, "rc": 3, "cr": 3, "snapshot": 4, "final": 6, "ga": 6, "release": 6, "sp": 7, "": 8,
}
SHORT = {"a": 0, "b": 1, "m": 2}

END = 5  # the rank of the end of a version; words without a rank of their own have 8, numbers 9 behind `-` and 10 behind `.`


def parts(text):
    """The parts of a version, each with what stands before it: `.`, `-`, or nothing at a change between digits and others."""
    found = [(".", "")]
    for b in text:
        if b in ".-":
            found.append((b, ""))
            continue
        before, part = found[-1]
        if part and part[-1].isdigit() != b.isdigit():
            found.append(("", b.lower()))
        else:
            found[-1] = (before, part + b.lower())
    return found


def token(before, part, before_digit):
    """A token as its rank, whether it is null, and what it compares by."""
    if part == "" or part[0].isdigit():
        digits = part.lstrip("0")
        return (10 if before == "." else 9, digits == "", (len(digits), digits))
    rank = SHORT.get(part) if before_digit else None
    if rank is None:
        rank = RANKS.get(part, 8)
    return (rank, rank == 6, (0, part if rank == 8 else ""))


def normal(text):
    """The tokens of a version, without the null ones before a hyphen or the end."""
    all_parts = parts(text)
    tokens = []
    for at, (before, part) in enumerate(all_parts):
        before_digit = at + 1 < len(all_parts) and all_parts[at + 1][0] == ""
        tokens.append(token(before, part, before_digit))
    while True:
        for at, (_, null, _) in enumerate(tokens):
            if null and (at + 1 == len(tokens) or tokens[at + 1][0] != 10):
                del tokens[at]
                break
        else:
            return tokens


def compare(a, b):
    """`<`, `=` or `>`, of two normal forms."""
    for one, other in itertools.zip_longest(a, b):
        left = (END,) if one is None else (one[0],)
        right = (END,) if other is None else (other[0],)
        if one is not None and other is not None:
            left, right = (one[0], one[2]), (other[0], other[2])
        if left != right:
            return "<" if left < right else ">"
    return "="


@functools.cache
def longer():
    """The normal forms of all texts of four of the letters."""
    return [normal("".join(letters)) for letters in itertools.product(LETTERS, repeat=4)]


def among_short_row(row):
    mine = normal(row)
    return "".join(compare(mine, other) for other in longer())


def among_short():
    """Versions of three bytes beside all of four."""
    for letters in itertools.product(LETTERS, repeat=3):
        text = "".join(letters)
        yield f"among-short {text}", among_short_row(text)


def order_of(a, b):
    return "<=>".index(compare(normal(a), normal(b))) - 1


def sorted_row(row):
    """The versions in order, with how each compares with the next."""
    versions = sorted((v.replace("\\.", "") for v in row.split(" ")), key=functools.cmp_to_key(order_of))
    shown = versions[0]
    for one, other in zip(versions, versions[1:]):
        shown += f" {compare(normal(one), normal(other))} {other}"
    return shown


def drawn(seed):
    """The next of a sequence of numbers that looks random."""
    return (seed * 6364136223846793005 + 1442695040888963407) % 2**64


def graph(seed, n, count):
    """Edges between n modules."""
    edges = []
    for _ in range(count):
        first = drawn(seed)
        seed = drawn(first)
        edges.append(((first >> 33) % n, (seed >> 33) % n))
    return edges


def spelled(edges):
    return "".join(f" {m}-{upstream}" for m, upstream in edges)


def placed(n, edges):
    """Each time the earliest module that isn't placed and whose upstreams are."""
    order = []
    for _ in range(n):
        for m in range(n):
            if m not in order and all(u in order for module, u in edges if module == m):
                order.append(m)
                break
    return order


def edges_of(section):
    return [tuple(map(int, edge.split("-"))) for edge in section.split()]


def placed_row(row):
    """The order of modules, where they have one."""
    n, edges = row.split("/")
    order = placed(int(n), edges_of(edges))
    return " ".join(map(str, order)) if len(order) == int(n) else "cycle"


def graphs():
    """Generated graphs, and the order of their modules, where they have one."""
    for seed in range(1500):
        n = seed % 9 + 1
        row = f"{n} /{spelled(graph(seed, n, seed % 7))}"
        yield f"placed {row}", placed_row(row)


def leads(n, edges, start, goal):
    """Whether the edges lead from one module to another over upstreams."""
    found = {start}
    for _ in range(n):
        found |= {upstream for module, upstream in edges if module in found}
    return goal in found


def keep_row(row):
    """The firm edges, and the soft ones that close no cycle with those before them."""
    n, firm, soft = (row + "/").split("/")[:3]
    kept = edges_of(firm)
    for m, upstream in edges_of(soft):
        if not leads(int(n), kept, upstream, m):
            kept.append((m, upstream))
    return spelled(kept).strip()


def kept():
    """Generated soft edges, and those that are kept."""
    for seed in range(300):
        n = seed % 6 + 1
        row = f"{n} / /{spelled(graph(seed, n, seed % 11))}"
        yield f"keep {row}", keep_row(row)


def locks_row(row):
    """How calls are answered, by a list of holds."""
    held, answers = {}, []
    for call in row.split("/")[1].split():
        kind, name, worker = call
        if kind == "h":
            answers.append(held.get((name, worker), "."))
        elif kind == "f":
            answers.append("-" if held.pop((name, worker), None) else "!")
        else:
            others = [w for (n, w), m in held.items() if n == name and "x" in (m, kind)]
            answers.append(min(others) if others else "+")
            if not others:
                held[(name, worker)] = kind
    return " ".join(answers)


def locks():
    """A thousand generated calls on three names by four workers, and how each is answered."""
    for seed in range(1, 11):
        held = set()
        number = seed
        calls = []
        for _ in range(1000):
            number = (number * 1103515245 + 12345) % 2**32
            draw = number >> 16
            seat = f"{draw % 3}{draw // 3 % 4}"
            if seat in held:
                calls.append("f" + seat)
                held.remove(seat)
                continue
            calls.append(("x" if draw // 12 % 3 == 0 else "s") + seat)
            if locks_row("/" + " ".join(calls)).split()[-1] == "+":
                held.add(seat)
        row = "3 4 / " + " ".join(calls)
        yield f"locks {row}", locks_row(row)


ANSWERS = {"among-short": among_short_row, "sorted": sorted_row, "placed": placed_row, "keep": keep_row, "locks": locks_row}


def stored(program):
    """The rows of a program's stored run with their answers."""
    folder = pathlib.Path(__file__).parent.parent / "crates" / program
    return zip(folder.joinpath("stdin").read_text().splitlines(), folder.joinpath("stdout").read_text().splitlines(), strict=True)


def check():
    """Compares the stored rows that the plain programs can answer."""
    asked = wrong = 0
    for row, answer in itertools.chain(stored("text_rows"), stored("order_rows")):
        kind, _, rest = row.partition(" ")
        if kind in ANSWERS:
            asked += 1
            wrong += ANSWERS[kind](rest) != answer
    case = f"{asked} stored rows are answered as by the definitions"
    if asked and not wrong:
        cases.passes(case)
    else:
        cases.fails(case, f"{wrong} of them are answered otherwise")


def main():
    if sys.argv[1:] != ["print"]:
        check()
        return cases.tell()
    seen = set()
    for rows in (among_short(), graphs(), kept(), locks()):
        for row, answer in rows:
            if row not in seen:
                seen.add(row)
                print(f"{row}\t{answer}")
    return 0


if __name__ == "__main__":
    sys.exit(main())
