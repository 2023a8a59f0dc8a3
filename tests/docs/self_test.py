"""Shows that the check of the pages can fail. Each page of tests/docs/self-test takes the place of one in a small
project, and what is then complained of must be what stands beside it: in NAME.out for NAME.md."""

import os
import re
import sys
import tempfile

from pages import check

FOLDER = "tests/docs/self-test"


def read(name):
    with open(os.path.join(FOLDER, name), encoding="utf-8") as file:
        return file.read()


def write(path, text):
    os.makedirs(os.path.dirname(path), exist_ok=True)
    with open(path, "w", encoding="utf-8") as file:
        file.write(text)


def unpack(listing, root):
    """The files of the small project stand in one, each behind its path: as files they would have to be proved."""
    for part in re.split(r"^== ", listing, flags=re.M)[1:]:
        path, _, text = part.partition("\n")
        write(os.path.join(root, path), text)


def complaints_with(page):
    place = re.match(r"\W*in the place of (\S+)", page)
    with tempfile.TemporaryDirectory() as root:
        unpack(read("project.txt"), root)
        write(os.path.join(root, place.group(1)), page)
        return check(root)[1]


def main():
    names = sorted(name[:-3] for name in os.listdir(FOLDER) if name.endswith(".md"))
    wrong = 0
    for name in names:
        said, wanted = complaints_with(read(name + ".md")), read(name + ".out").splitlines()
        if said != wanted:
            wrong += 1
            print(f"docs: {name}.md is answered by", *said, sep="\n  ")
            print("and not by", *wanted, sep="\n  ")
    print(f"docs: {len(names) - wrong} of {len(names)} small pages answered as they should be")
    return 0 if names and not wrong else 1


if __name__ == "__main__":
    sys.exit(main())
