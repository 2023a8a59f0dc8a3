"""The shared library from Python: the examples of 01 and 02 by ctypes. Ends with 1 where an answer is another than the
papers give.

    from_python.py LIBRARY
"""

import ctypes
import sys

sys.path.insert(0, "tools")
from library import Library

# number + 256 x third + 2^32 x place, as 01 gives them under "Examples", and 02 with its orders
WANTED = {
    "house": 0,
    "open": 0,
    "take F": 256 * 1,  # P4: one join
    "ask, kind 2 last": 256 * 1,  # P6 applies
    "ask, kind 3 last": 256 * 2,  # P7 is ruled out
    "ask, kind 21": 256 * 3,  # P8 waits
    "ask, not reached": 10 + (1 << 32),
    "take, clash": 11 + (6 << 32),  # P12, with the place that order 1 of 02 gives it
    "write": 256 * 22,
    "read term": 256 * 22,
    "read term cut": 20 + (20 << 32),
    "take term": 0,
    "write term": 256 * 21,
    "write term from 1": 23,
    "write term from 4": 21,
}
SOLVED_FORM = "00 14 01 01 00 04 01 00 0B 00 03 00 01 01 01 01 17 00 02 02 01 00"  # P5
TERM = b"@0:11(1=>@1:16,2=>@3)"
TERM_FACTS = "00 14 01 01 00 04 01 00 0B 00 03 00 01 01 01 01 10 00 03 00 02 03"


def answers(calls):
    table, block, out = (ctypes.create_string_buffer(size) for size in (1089, 5250, 4358))
    packet = bytes.fromhex
    got = {
        "house": calls.rig_house(table),
        "open": calls.rig_open(33, 4, table, block),
        "take F": calls.rig_take(
            block, packet("001c 01010004 01000900 01000200 03000101 03000102 01011000 01020200")
        ),
        "ask, kind 2 last": calls.rig_ask(block, packet("0012 01020102 0000 01000900 03000101 01010200")),
        "ask, kind 3 last": calls.rig_ask(block, packet("0012 01020102 0000 01000900 03000101 01010300")),
        "ask, kind 21": calls.rig_ask(block, packet("000a 01020101 0000 01001500")),
        "ask, not reached": calls.rig_ask(block, packet("0006 01020102 0000")),
        "take, clash": calls.rig_take(block, packet("0008 01010004 01020300")),
        "write": calls.rig_write(block, out),
    }
    return got, out.raw[:22]


def answers_of_terms(calls):
    table, block, out = (ctypes.create_string_buffer(size) for size in (1089, 5250, 4358))
    calls.rig_house(table)
    calls.rig_open(33, 4, table, block)
    got = {"read term": calls.rig_read_term(block, TERM, out)}
    facts = out.raw[:22]
    got["read term cut"] = calls.rig_read_term(block, TERM[:-1], out)
    got["take term"] = calls.rig_take(block, facts)
    got["write term"] = calls.rig_write_term(block, 0, out)
    text = out.raw[:21]
    got["write term from 1"] = calls.rig_write_term(block, 1, out)
    got["write term from 4"] = calls.rig_write_term(block, 4, out)
    return got, facts, text


def main():
    calls = Library(sys.argv[1])
    got, solved_form = answers(calls)
    got_of_terms, facts, text = answers_of_terms(calls)
    got.update(got_of_terms)
    wrong = [f"{call}: {got[call]} and not {wanted}" for call, wanted in WANTED.items() if got[call] != wanted]
    if solved_form != bytes.fromhex(SOLVED_FORM):
        wrong.append(f"the solved form: {solved_form.hex(' ')}")
    if facts != bytes.fromhex(TERM_FACTS):
        wrong.append(f"the facts of the term: {facts.hex(' ')}")
    if text != TERM:
        wrong.append(f"the term: {text}")
    print("\n".join(wrong))
    return 1 if wrong else 0


if __name__ == "__main__":
    sys.exit(main())
