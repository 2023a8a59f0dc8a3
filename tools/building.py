"""Has other programs run for a tool, and shows people what they prove on the way."""

import os
import subprocess
import sys

ROOT = os.path.dirname(os.path.dirname(os.path.abspath(__file__)))


class Trouble(Exception):
    """Why a tool cannot do its work."""


def run(what, command):
    """Runs a command, given from the root of the project. What is installed, and rt's line on each crate that it has
    proved, is shown as it comes, the rest only where the command fails."""
    said = []
    with subprocess.Popen(command, cwd=ROOT, stdout=subprocess.PIPE, stderr=subprocess.STDOUT, text=True) as process:
        for line in process.stdout:
            said.append(line)
            if line.startswith(("need: ", "crate ")):
                print(line, end="", file=sys.stderr, flush=True)
    if process.returncode != 0:
        raise Trouble(f"{what} failed:\n" + "".join(said).rstrip())
