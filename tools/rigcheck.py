"""Runs rigcheck on the bytes that a file, or standard input where it is '-' or not given, states in hex: V, then
packets.

    tools/rigcheck [--words] [FILE.hex]

It writes what rigcheck writes, one line a call: a word, then number, place and third. With --words each line goes on in
words: which packet it was, the line of the file where it begins, and what the numbers say. The form of the file is told
in hexfile.py. The program is proved, this script and its words are not.

Exit status: 0 every call was done; 1 one was refused, or the input was cut or too long; 2 nothing was run: bad usage, a
file that cannot be read or is no hex, or a program that could not be built.
"""

import os
import subprocess
import sys

import building
import command
import hexfile

PROGRAM = os.path.join(building.ROOT, "target/bin/rigcheck")
LONGEST = 4372  # the largest L of a packet

# The third number of a rule that was asked.
VERDICTS = {
    1: "applies: every rig with the taken facts satisfies it",
    2: "is ruled out: no rig with the taken facts satisfies it",
    3: "waits: later facts may decide it",
}


# ---------------------------------------------------------------------------------------------------- input and program


def read_input(path):
    """The bytes stated, and the line of each."""
    try:
        return hexfile.read(command.read(path))
    except hexfile.BadHex as error:
        raise building.Trouble(f"{command.name_of(path)}:{error.line}: {error}") from error


def build():
    """Has rt see to it that the program is that of the sources."""
    if not os.path.exists(PROGRAM):
        print("rigcheck: building the program; from nothing its proof takes some minutes", file=sys.stderr)
    building.run("building the program", ["tools/build", "program", "rigcheck"])


def run(data):
    """The lines that the program writes."""
    result = subprocess.run([PROGRAM], input=data, stdout=subprocess.PIPE, check=False)
    if result.returncode != 0:
        raise building.Trouble(f"the program ended with status {result.returncode}")
    return result.stdout.decode("ascii").splitlines()


# ---------------------------------------------------------------------------------------------------------------- words


class Packet:
    """The packet that starts at an offset of the input; it may be cut."""

    def __init__(self, data, lines, at, joints):
        self.size = 256 * data[at] + data[at + 1] if at + 1 < len(data) else 0  # L
        self.bytes = data[at : at + 2 + self.size]
        self.lines = lines[at : at + 2 + self.size]
        self.joints = joints

    def part_at(self, place):
        """The tie or fact that starts at a place, with its number from 1, its bytes and its line."""
        ties = self.bytes[4]
        if place < 6 + 2 * ties:
            name, size = f"tie {(place - 6) // 2 + 1}", 2
        else:
            name, size = f"fact {(place - 6 - 2 * ties) // 4 + 1}", 4
        return f"{name} ({self.bytes[place : place + size].hex(' ')}, line {self.lines[place]})"

    def header_fault(self, place, is_facts):
        found = self.bytes[place]
        if place == 3:
            return f"the purpose is {found}, neither 1 for facts nor 2 for a rule"
        if place == 4:
            return f"the number of ties is {found}, and not " + ("0" if is_facts else "1 to 8")
        return f"the joint count is {found}, and not " + (f"{self.joints}, the session's" if is_facts else "1 to 32")

    def refusal(self, number, place, is_facts):
        if number == 5:
            return "it has under 6 bytes"
        if number == 6:
            return f"the version is {self.bytes[2]}, and not 1"
        if number == 7:
            return self.header_fault(place, is_facts)
        if number == 8:
            return f"no number of facts from 0 to 1088 fits its length, L = {self.size}"
        if number == 9:
            return f"{self.part_at(place)} has an unknown tag, a number out of range or an unused byte that is not 0"
        if number == 10:
            return f"rule joint {place} is not reached"
        if number == 11:
            return f"clash: no rig satisfies the facts taken before and these up to and including {self.part_at(place)}"
        return f"reply {number}, place {place}"

    def words(self, word, number, place, third):
        """What the call's line says."""
        if word == "cut":
            return "the input ends inside it"
        if word == "long":
            return f"L = {self.size} is over {LONGEST}"
        if number != 0:
            return "refused: " + self.refusal(number, place, word == "facts")
        if word == "facts":
            return f"taken, {third} join" + ("" if third == 1 else "s")
        return VERDICTS[third]


def with_words(answers, data, lines):
    """The lines of the program, each with words behind it."""
    at = 1
    for count, answer in enumerate(answers):
        word, *numbers = answer.split(" ")
        number, place, third = map(int, numbers)
        if word == "open":
            says = f"line {lines[0]}: V = {data[0]}: " + ("opened" if number == 0 else "refused: V is 1 to 64")
        else:
            packet = Packet(data, lines, at, data[0])
            says = f"packet {count}, line {lines[at]}: {packet.words(word, number, place, third)}"
            at += 2 + packet.size
        yield f"{answer:<15} {says}"


# ----------------------------------------------------------------------------------------------------------------- main


def was_refused(answer):
    return answer.split(" ")[1] != "0"


def main():
    parser = command.parser_of("tools/rigcheck", __doc__)
    parser.add_argument("--words", action="store_true", help="tell in words what the numbers say")
    parser.add_argument("file", nargs="?", default="-", metavar="FILE.hex")
    options = parser.parse_args()
    try:
        data, lines = read_input(options.file)
        build()
        answers = run(data)
    except building.Trouble as trouble:
        print(f"rigcheck: {trouble}", file=sys.stderr)
        return 2
    for line in with_words(answers, data, lines) if options.words else answers:
        print(line)
    return 1 if any(map(was_refused, answers)) else 0


if __name__ == "__main__":
    sys.exit(main())
