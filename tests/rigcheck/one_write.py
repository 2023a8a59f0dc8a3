"""Fails where a program writes a line by more than one write: another reader of its output must never see a part of one.

    one_write.py PROGRAM INPUT

Each write to a pipe that is made with O_DIRECT can be read by itself."""

import os
import subprocess
import sys


def main(program, path):
    reading, writing = os.pipe2(os.O_DIRECT)
    with open(path, "rb") as data, subprocess.Popen([program], stdin=data, stdout=writing) as process:
        os.close(writing)
        writes = []
        while piece := os.read(reading, 65536):
            writes.append(piece)
    os.close(reading)
    lines = b"".join(writes).splitlines(keepends=True)
    if process.returncode == 0 and lines and writes == lines:
        return 0
    print(f"{path}: {len(lines)} lines by {len(writes)} writes: {writes}", file=sys.stderr)
    return 1


if __name__ == "__main__":
    sys.exit(main(*sys.argv[1:]))
