"""Draws what a session knows of its rig: a node for each class of joints that are one, with their numbers and their
kind, and an edge for each known link, with its number. The kinds of the house table have their names, others their
numbers.

    tools/rig-show [--svg] [FILE]

FILE, or standard input where it is '-' or not given, is one of
- a block as it is stored, 5,250 bytes;
- the same in hex, in the form of hexfile.py;
- what tools/rigcheck takes, in hex: V, then packets. The facts are taken and the rules asked, with the house kinds, and
  what is known at the end is drawn; a packet that is refused changes nothing, and is told. This needs the library,
  which is built first where it is not built yet.

It writes Graphviz DOT, or SVG with --svg, which needs the program dot. It is not proved: whether a block is well formed
is judged here once more, and tests/tools holds that against the library.

Exit status: 0 drawn; 1 drawn, but a packet was refused, or the input was cut or too long; 2 not drawn: bad usage, a
file that cannot be read or is none of these, a block that is not well formed, or a program that is missing or could not
be built.
"""

import ctypes
import subprocess
import sys
import textwrap

import building
import command
import hexfile
import house
import library
from rigcheck import LONGEST, Packet

BLOCK = 5250
JOINTS = 64
LINKS = 16
CLASSES_AT, KINDS_AT, LINKS_AT, TABLE_AT = 2, 66, 130, 1154
NOT_KNOWN = 255


class BadInput(Exception):
    """Why the input cannot be drawn."""


# ---------------------------------------------------------------------------------------------------------------- block


class Block:
    """A stored block. What it holds may be asked for once it is known to be well formed."""

    def __init__(self, data):
        self.data = data
        self.kinds, self.joints = data[0], data[1]
        self.table = data[TABLE_AT : TABLE_AT + self.kinds * self.kinds]

    def class_of(self, joint):
        return self.data[CLASSES_AT + joint]

    def kind_of(self, joint):
        return self.data[KINDS_AT + joint]

    def links_of(self, joint):
        return self.data[LINKS_AT + LINKS * joint : LINKS_AT + LINKS * (joint + 1)]

    def is_smallest(self, joint):
        return joint < self.joints and self.class_of(joint) == joint

    def smallest_joints(self):
        return [joint for joint in range(self.joints) if self.is_smallest(joint)]

    def joints_of(self, smallest):
        return [joint for joint in range(self.joints) if self.class_of(joint) == smallest]

    def fault(self):
        """The first thing by which it is not well formed; None where it is."""
        if not 2 <= self.kinds <= 64:
            return f"byte 0, the number of kinds, is {self.kinds}, and not 2 to 64"
        if not 1 <= self.joints <= JOINTS:
            return f"byte 1, the number of joints, is {self.joints}, and not 1 to 64"
        joint_faults = (self._joint_fault(joint) for joint in range(JOINTS))
        return next(filter(None, joint_faults), None) or self._table_fault()

    def _joint_fault(self, joint):
        if self.is_smallest(joint):
            return self._class_fault(joint)
        if joint < self.joints and (self.class_of(joint) > joint or not self.is_smallest(self.class_of(joint))):
            return f"joint {joint} has the class number {self.class_of(joint)}, which is no class's smallest joint"
        if joint >= self.joints and self.class_of(joint) != 0:
            return f"there is no joint {joint}, and its class byte is not 0"
        if self.kind_of(joint) != 0 or any(self.links_of(joint)):
            return f"joint {joint} is not the smallest of its class, and its kind and links are not 0"
        return None

    def _class_fault(self, joint):
        if not 1 <= self.kind_of(joint) < self.kinds:
            return f"joint {joint} has kind {self.kind_of(joint)}, and not 1 to {self.kinds - 1}"
        for link, end in enumerate(self.links_of(joint)):
            if end != NOT_KNOWN and not self.is_smallest(end):
                return f"link {link} of joint {joint} leads to {end}, which is no class's smallest joint"
        return None

    def _table_fault(self):
        n, table = self.kinds, self.table
        numbers = range(n)
        if any(self.data[TABLE_AT + n * n :]):
            return "behind the kind table a byte is not 0"
        if max(table) >= n:
            return f"the kind table has an entry that is no kind, {max(table)}"
        meet = [table[n * i : n * (i + 1)] for i in numbers]
        # The table is no table of meets if a law of 01 is broken; which one is told by rig_open.
        lawful = (
            all(meet[i][i] == i and meet[0][i] == 0 and meet[1][i] == i for i in numbers)
            and all(meet[i][j] == meet[j][i] for i in numbers for j in numbers)
            and all(meet[meet[i][j]][k] == meet[i][meet[j][k]] for i in numbers for j in numbers for k in numbers)
        )
        return None if lawful else "its kind table breaks a law"


# ---------------------------------------------------------------------------------------------------------------- input


def played(data, lines):
    """The block of a session behind its packets, and in words what was refused of them."""
    calls = library.built()
    table = ctypes.create_string_buffer(len(house.KINDS) ** 2)
    block = ctypes.create_string_buffer(BLOCK)
    calls.rig_house(table)
    if calls.rig_open(len(house.KINDS), data[0], table, block) != 0:
        raise BadInput(f"line {lines[0]}: V = {data[0]}, and not 1 to 64")
    at, count, refused = 1, 0, []
    while at < len(data):
        packet, count = Packet(data, lines, at, data[0]), count + 1
        end = end_of_input(packet)
        fault = end or fault_of(packet, calls, block)
        if fault:
            refused.append(f"packet {count}, line {lines[at]}: {fault}")
        if end:
            break
        at += len(packet.bytes)
    return block.raw, refused


def end_of_input(packet):
    """In words, why nothing is read from this packet on; None where it is."""
    if packet.size > LONGEST:
        return packet.words("long", 5, 0, 0)
    if len(packet.bytes) < 2 + packet.size:
        return packet.words("cut", 5, 0, 0)
    return None


def fault_of(packet, calls, block):
    """Takes the packet or asks it, as rigcheck does. In words, why that is not done; None where it is."""
    is_facts = len(packet.bytes) > 3 and packet.bytes[3] == 1
    answer = (calls.rig_take if is_facts else calls.rig_ask)(block, packet.bytes)
    number = library.number_of(answer)
    if number == 0:
        return None
    return packet.words("facts" if is_facts else "rule", number, library.place_of(answer), 0)


def block_of(content):
    """The block that an input stands for, and in words what was refused on the way to it."""
    refused = []
    # Every well-formed block has bytes that are 0, for kind 0 meets any kind in 0; no text has.
    if 0 in content:
        data = content
    else:
        try:
            data, lines = hexfile.read(content)
        except hexfile.BadHex as error:
            raise BadInput(f"line {error.line}: {error}; and no stored block is without a byte that is 0") from error
        if not data:
            raise BadInput("there is nothing in it")
        if len(data) != BLOCK:
            data, refused = played(data, lines)
    if len(data) != BLOCK:
        raise BadInput(f"a block has 5250 bytes, and this has {len(data)}")
    block = Block(data)
    fault = block.fault()
    if fault:
        raise BadInput(f"the block is not well formed: {fault}")
    return block, refused


# -------------------------------------------------------------------------------------------------------------- drawing


def kind_names(block):
    if block.table == house.table():
        return [name for name, _ in house.KINDS]
    return [f"kind {kind}" for kind in range(block.kinds)]


def dot(block):
    """The picture in DOT. A label has names and numbers of this script alone, so that nothing in it needs an escape."""
    names = kind_names(block)
    yield "digraph rig {"
    yield "    rankdir=LR;"
    yield '    node [shape=box, style=rounded, fontname="sans-serif"];'
    yield '    edge [fontname="sans-serif"];'
    for joint in block.smallest_joints():
        numbers = block.joints_of(joint)
        heading = ("joint " if len(numbers) == 1 else "joints ") + ", ".join(map(str, numbers))
        label = "\\n".join([*textwrap.wrap(heading, 40), names[block.kind_of(joint)]])
        yield f'    j{joint} [label="{label}"];'
    for joint in block.smallest_joints():
        for link, end in enumerate(block.links_of(joint)):
            if end != NOT_KNOWN:
                yield f'    j{joint} -> j{end} [label="link {link}"];'
    yield "}"


def svg(text):
    building.run("looking for dot", ["tools/need", "dot"])
    drawn = subprocess.run(["dot", "-Tsvg"], input=text, stdout=subprocess.PIPE, text=True, check=False)
    if drawn.returncode != 0:
        raise building.Trouble(f"dot ended with status {drawn.returncode}")
    return drawn.stdout


def main():
    parser = command.parser_of("tools/rig-show", __doc__)
    parser.add_argument("--svg", action="store_true", help="draw it as SVG")
    parser.add_argument("file", nargs="?", default="-", metavar="FILE")
    options = parser.parse_args()
    name = command.name_of(options.file)
    try:
        block, refused = block_of(command.read(options.file))
        text = "".join(line + "\n" for line in dot(block))
        sys.stdout.write(svg(text) if options.svg else text)
    except BadInput as error:
        print(f"rig-show: {name}: {error}", file=sys.stderr)
        return 2
    except building.Trouble as trouble:
        print(f"rig-show: {trouble}", file=sys.stderr)
        return 2
    for message in refused:
        print(f"rig-show: {name}: {message}", file=sys.stderr)
    return 1 if refused else 0


if __name__ == "__main__":
    sys.exit(main())
