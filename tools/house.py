"""The house kinds, read off docs/KINDS.md: their names, and their table of meets by their direct parents."""

import os
import re

import building

ROW = re.compile(r"^\| (\d+) \| ([a-z ]+) \| (.*) \|$", re.M)
PARENT = re.compile(r"\((\d+)\)")


def read_kinds():
    """Name and direct parents, by number."""
    with open(os.path.join(building.ROOT, "docs/KINDS.md"), encoding="utf-8") as page:
        rows = ROW.findall(page.read())
    return [(name, tuple(map(int, PARENT.findall(parents)))) for _, name, parents in rows]


KINDS = read_kinds()


def over(kind):
    """The kinds that it lies under, itself among them."""
    if kind == 0:
        return set(range(len(KINDS)))
    return {kind}.union(*map(over, KINDS[kind][1]))


def table():
    """The meet of any two: the greatest kind under both, which is the one that lies under fewest."""
    above = [over(kind) for kind in range(len(KINDS))]

    def meet(i, j):
        under_both = [kind for kind, kinds in enumerate(above) if i in kinds and j in kinds]
        return min(under_both, key=lambda kind: len(above[kind]))

    numbers = range(len(KINDS))
    return bytes(meet(i, j) for i in numbers for j in numbers)
