"""tools/rig-show, run from the root of the project:

- the pictures of the example of 01 and of a block with kinds of its own are the stored ones, from each form of input;
- the SVG has the names and numbers of the stored picture, and so has the one in docs/img;
- what cannot be drawn is told, and so is a packet that is refused, without which the rest is drawn;
- the house table by the parents is the library's;
- blocks with changed bytes are well formed for rig-show exactly when they are for the library;
- inputs of any bytes are drawn or refused.
"""

import ctypes
import os
import random
import re
import subprocess
import sys
import tempfile
import xml.etree.ElementTree

sys.path.insert(0, "tools")
import building
import house
import library
import rig_show

SEED = 1
CHANGED_BLOCKS = 10000
ANY_INPUTS = 3000
BAD_BLOCK = 4  # the reply
SHOW = "tests/tools/show/"


def fail(message):
    sys.exit(f"rig-show: {message}")


def show(arguments, given=b""):
    """The status, the output and what was said."""
    result = subprocess.run(["tools/rig-show", *arguments], input=given, capture_output=True, check=False)
    return result.returncode, result.stdout, result.stderr.decode()


def stored(name):
    with open(SHOW + name, "rb") as file:
        return file.read()


def block_of(n, joints, classes, known, table):
    """A block by the layout of 01: the classes of all joints; kind and links of each class's smallest joint."""
    block = bytearray(5250)
    block[0], block[1] = n, joints
    block[2 : 2 + joints] = bytes(classes)
    for joint, (kind, links) in known.items():
        block[66 + joint] = kind
        row = [links.get(link, 255) for link in range(16)]
        block[130 + 16 * joint : 146 + 16 * joint] = bytes(row)
    block[1154 : 1154 + n * n] = bytes(table)
    return bytes(block)


# Three kinds: none, any, and one under any. 20 joints in three classes, which are 0, 1 and 2.
OWN_KINDS = block_of(
    3,
    20,
    [0, 1, 2, 0, 2] + 15 * [0],
    {0: (2, {0: 0, 15: 2}), 1: (1, {}), 2: (1, {3: 0, 4: 1})},
    [0, 0, 0, 0, 1, 2, 0, 2, 2],
)


def test_pictures(folder):
    block = os.path.join(folder, "block")
    with open(block, "wb") as file:
        file.write(OWN_KINDS)
    in_hex = OWN_KINDS.hex(" ", 16).encode() + b" # a block in hex\n"
    with open("example/arm.hex", "rb") as file:
        arm = file.read()
    tried = {
        "the example": (show(["example/arm.hex"]), "example.dot"),
        "the example from standard input": (show(["-"], arm), "example.dot"),
        "a block": (show([block]), "own_kinds.dot"),
        "a block from standard input": (show([], OWN_KINDS), "own_kinds.dot"),
        "a block in hex": (show([], in_hex), "own_kinds.dot"),
    }
    for name, (got, wanted) in tried.items():
        if got != (0, stored(wanted), ""):
            fail(f"{name} gives {got} and not {wanted}")


def texts_of(svg):
    root = xml.etree.ElementTree.fromstring(svg)
    return sorted("".join(text.itertext()) for text in root.iter("{http://www.w3.org/2000/svg}text"))


def test_svg():
    labels = re.findall(r'label="(.*)"', stored("example.dot").decode())
    wanted = sorted(text for label in labels for text in label.split("\\n"))
    status, svg, said = show(["--svg", "example/arm.hex"])
    if (status, texts_of(svg), said) != (0, wanted, ""):
        fail(f"--svg gives {status}, {texts_of(svg)} and {said}, and not {wanted}")
    with open("docs/img/example.svg", "rb") as file:
        if texts_of(file.read()) != wanted:
            fail("docs/img/example.svg is not of the example: tools/rig-show --svg example/arm.hex makes it")


def test_refusals():
    changed = bytearray(OWN_KINDS)
    changed[66] = 3
    tried = [
        (["tests/no-such-file"], b"", "tests/no-such-file: No such file or directory"),
        ([], b"", "standard input: there is nothing in it"),
        ([], b"04 # V\n00 1", "line 2: '1': a byte is two digits, and one is left over; and no stored block is"),
        ([], OWN_KINDS[:-1], "a block has 5250 bytes, and this has 5249"),
        ([], OWN_KINDS + b"\n", "a block has 5250 bytes, and this has 5251"),
        ([], bytes(5250), "not well formed: byte 0, the number of kinds, is 0, and not 2 to 64"),
        ([], bytes(changed), "not well formed: joint 0 has kind 3, and not 1 to 2"),
        ([], b"41", "line 1: V = 65, and not 1 to 64"),
    ]
    for arguments, given, wanted in tried:
        status, drawn, said = show(arguments, given)
        if (status, drawn) != (2, b"") or wanted not in said or said.count("\n") != 1:
            fail(f"{arguments} gives {status}, draws {drawn[:80]} and says {said}, and not {wanted}")


def test_refused_packets():
    """Behind the facts and the rule of the example, which are told nothing of, comes a packet that changes nothing."""
    with open("example/arm.hex", "rb") as file:
        arm = file.read() + b"\n"
    line = arm.count(b"\n") + 1
    tried = {
        b"0008 01010004 01020300": "refused: clash: no rig satisfies the facts taken before and these up to and including "
        f"fact 1 (01 02 03 00, line {line})",
        b"0006 01020102 0000": "refused: rule joint 1 is not reached",
        b"00": "the input ends inside it",
        b"0008 01010004 0102": "the input ends inside it",
        b"1115 0101": "L = 4373 is over 4372",
    }
    for packet, wanted in tried.items():
        got = show([], arm + packet)
        if got != (1, stored("example.dot"), f"rig-show: standard input: packet 3, line {line}: {wanted}\n"):
            fail(f"the example with {packet} behind it gives {got}, and not {wanted}")
    # What was refused does not keep the next packet out.
    status, drawn, said = show(["tests/rigcheck/left_arm.hex"])
    if (status, drawn) != (1, stored("left_arm.dot")) or said.count("\n") != 3:
        fail(f"tests/rigcheck/left_arm.hex gives {status}, draws {drawn} and says {said}")


def test_house(calls):
    table = ctypes.create_string_buffer(1089)
    if calls.rig_house(table) != 0 or table.raw != house.table():
        fail("the house table by the parents is not the library's")


def is_good(calls, block):
    """Whether the library calls the block well formed: an output of no bytes is 12, too short, where it does."""
    return library.number_of(calls.rig_write(block, b"")) != BAD_BLOCK


def changed(chance, block):
    """The block with one to three bytes changed, mostly those in use and mostly to numbers that mean something."""
    block = bytearray(block)
    n, joints = block[0], block[1]
    places = [
        lambda: chance.randrange(2),
        lambda: 2 + chance.randrange(joints + 1),
        lambda: 66 + chance.randrange(joints + 1),
        lambda: 130 + chance.randrange(16 * joints + 1),
        lambda: 1154 + chance.randrange(n * n + 1),
        lambda: chance.randrange(len(block)),
    ]
    for _ in range(chance.randint(1, 3)):
        values = [0, 1, 2, n - 1, n, joints - 1, joints, 255, chance.randrange(256)]
        block[chance.choice(places)()] = chance.choice(values) & 0xFF
    return bytes(block)


def test_bad_blocks(calls):
    """Blocks that no few changes of a good one give."""
    two_kinds = [0, 0, 0, 1]
    # 2 and 3 meet in 4, which meets neither of them: symmetric, and not associative.
    not_associative = [0, 0, 0, 0, 0, 0, 1, 2, 3, 4, 0, 2, 2, 4, 0, 0, 3, 4, 3, 0, 0, 4, 0, 0, 4]
    bad = {
        "a class number over its joint": block_of(2, 3, [0, 2, 2], {0: (1, {}), 2: (1, {})}, two_kinds),
        "a table that is not associative": block_of(5, 1, [0], {0: (1, {})}, not_associative),
    }
    for name, block in bad.items():
        if is_good(calls, block) or rig_show.Block(block).fault() is None:
            fail(f"{name} is called good")


def test_changed_blocks(calls, chance):
    full = ctypes.create_string_buffer(5250)
    two_kinds = bytes([0, 0, 0, 1])
    calls.rig_open(2, 64, two_kinds, full)
    four_kinds = [0, 0, 0, 0, 0, 1, 2, 3, 0, 2, 2, 0, 0, 3, 0, 3]
    bases = [OWN_KINDS, full.raw, block_of(4, 1, [0], {0: (3, {7: 0})}, four_kinds)]
    counts = {True: 0, False: 0}
    for base in bases:
        if not is_good(calls, base):
            fail("a block that changes start from is not well formed")
    for _ in range(CHANGED_BLOCKS):
        block = changed(chance, chance.choice(bases))
        good, fault = is_good(calls, block), rig_show.Block(block).fault()
        if good != (fault is None):
            fail(f"the library calls a block {'good' if good else 'bad'}, and rig-show says {fault}: {block.hex()}")
        counts[good] += 1
    if min(counts.values()) < CHANGED_BLOCKS // 20:
        fail(f"too few good or too few bad blocks were tried: {counts}")


def any_session(chance):
    """V and packets of facts, some of them refused."""
    session = [4]
    for _ in range(chance.randrange(3)):
        facts = [(1, chance.randrange(5), chance.randrange(34), 0) for _ in range(chance.randrange(3))]
        for _ in range(chance.randrange(3)):
            facts.append((3, chance.randrange(4), chance.randrange(17), chance.randrange(4)))
        session += [0, 4 + 4 * len(facts), 1, 1, 0, 4, *(number for fact in facts for number in fact)]
    if chance.random() < 0.3:
        session[chance.randrange(len(session))] = chance.randrange(256)
    return bytes(session)


def any_input(chance):
    """Bytes of any kind, bytes in hex, a session in hex."""
    data = chance.randbytes(chance.choice([0, 1, 3, 10, 100, 5249, 5250, 5251]))
    return chance.choice([data, data.hex().encode(), any_session(chance).hex(" ").encode()])


def test_any_input(calls, chance):
    drawn = 0
    rig_show.library.built = lambda: calls  # built already
    for _ in range(ANY_INPUTS):
        given = any_input(chance)
        try:
            block, _ = rig_show.block_of(given)
            drawn += any(rig_show.dot(block))
        except rig_show.BadInput:
            pass
    if drawn == 0 or drawn == ANY_INPUTS:
        fail(f"{drawn} of {ANY_INPUTS} inputs were drawn, which tries too little")


def main():
    calls = library.built()
    chance = random.Random(SEED)
    with tempfile.TemporaryDirectory() as folder:
        test_pictures(folder)
    test_svg()
    test_refusals()
    test_refused_packets()
    test_house(calls)
    test_bad_blocks(calls)
    test_changed_blocks(calls, chance)
    test_any_input(calls, chance)
    print(f"rig-show: pictures and refusals as stored, {CHANGED_BLOCKS} changed blocks, {ANY_INPUTS} random inputs")


if __name__ == "__main__":
    try:
        main()
    except building.Trouble as trouble:
        fail(trouble)
