"""Whether a changed header shows: each number that vornulica.h gives a name, and each by which it takes an answer
apart, is changed in a copy of the header, and the tests of its numbers have to fail with that copy.

    changed_numbers.py ARCHIVE FOLDER    the folder, with house_kinds.inc and versions.inc in it, is for what is built
"""

import pathlib
import re
import subprocess
import sys

ROOT = pathlib.Path(__file__).resolve().parents[2]
INCLUDE = ROOT / "include"
TESTS = ROOT / "tests" / "headers"

NUMBERED = re.compile(
    r"^#define RIG_\w+ (?P<defined>\d+)$"
    r"|^    RIG_\w+ = (?P<enumerator>\d+),?$"
    r"|^RIG_NODISCARD static inline \w+ rig_\w+\(uint64_t answer\) \{ return RIG_AS\(\w+, (?P<parts>.*)\); \}$",
    re.M,
)
INTEGER = re.compile(r"\b(?:0x[0-9a-f]+|\d+)\b")


def changes(header):
    """Of each change what stands there, and the header with it."""
    for line in NUMBERED.finditer(header):
        group = line.lastgroup
        for number in INTEGER.finditer(header, line.start(group), line.end(group)):
            other = str(int(number.group(), 0) + 1)
            yield line.group().strip(), header[: number.start()] + other + header[number.end() :]


def passes(archive, folder, include):
    """Whether the tests of the header's numbers pass with the headers of that folder."""
    given = ["-w", f"-I{include}", f"-I{folder}", archive]
    builds = (
        ["gcc", "-std=c11", TESTS / "constants.c", *given, "-o", folder / "constants"],
        ["g++", "-std=c++17", TESTS / "kinds.cpp", *given, "-o", folder / "kinds"],
    )
    for build in builds:
        if subprocess.run(build, capture_output=True).returncode != 0:
            return False
        if subprocess.run([build[-1]], capture_output=True).returncode != 0:
            return False
    return True


def main():
    archive, folder = (pathlib.Path(argument).resolve() for argument in sys.argv[1:3])
    include = folder / "changed"
    include.mkdir()
    for header in INCLUDE.iterdir():
        (include / header.name).write_bytes(header.read_bytes())
    text = (INCLUDE / "vornulica.h").read_text()
    if not passes(archive, folder, include):
        print("changed numbers: the header as it is fails")
        return 1
    tried, unseen = 0, []
    for line, changed in changes(text):
        (include / "vornulica.h").write_text(changed)
        tried += 1
        if passes(archive, folder, include):
            unseen.append(line)
    for line in unseen:
        print(f"changed numbers: no test fails where this is changed: {line}")
    print(f"changed numbers: {tried - len(unseen)} of {tried} seen")
    named = len(re.findall(r"\bRIG_\w+ (?:= )?\d", text))
    if tried < named:
        print(f"changed numbers: the header names {named}")
    return 1 if unseen or tried < named else 0


if __name__ == "__main__":
    sys.exit(main())
