#!/usr/bin/env python3
"""Prints the table of CONTRIBUTING.md, "What a change costs": how many crates stand on each crate, at every level, by crates.txt.

usage: proving/crates_above.py
"""
from machine import libraries


def counted():
    """The crates, each with the number of those above it."""
    below = libraries()
    above = {crate: set() for crate in below}

    def mark(crate, by):
        for it in below[crate]:
            if it in above and by not in above[it]:
                above[it].add(by)
                mark(it, by)

    for crate in below:
        mark(crate, crate)
    return {crate: len(those) for crate, those in above.items()}


def groups(counts):
    """Those of one number together, the largest number first: their text, their number and how many they are."""
    by_number = {}
    for crate, number in counts.items():
        by_number.setdefault(number, []).append(f"`{crate}`")
    for number in sorted(by_number, reverse=True):
        names = by_number[number]
        if number > 3:
            each = " each" if len(names) > 1 else ""
            yield ", ".join(names), f"{number}{each}", len(names)


def main():
    counts = counted()
    print(f"| crate | crates above it, at every level (counted over the {len(counts)} lines of `crates.txt`) |\n|---|---|")
    row, size = [], 0
    for names, number, many in groups(counts):
        row.append((names, number))
        size += many
        if size >= 5:
            print(f"| {'; '.join(it[0] for it in row)} | {'; '.join(it[1] for it in row)} |")
            row, size = [], 0
    few = [sum(number == it for number in counts.values()) for it in (3, 2, 1)]
    row += [(f"{it} crates" if it != 1 else "1 crate", f"{number} each" if it > 1 else f"{number}") for it, number in zip(few, (3, 2, 1)) if it]
    print(f"| {'; '.join(it[0] for it in row)} | {'; '.join(it[1] for it in row)} |")


main()
