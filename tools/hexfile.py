"""Reads the bytes that a text states in hex. A byte is two digits; bytes stand apart by white space or run together, as
in 001c, and '#' starts a comment that ends with the line. Anything else is refused, with its line.

    python3 hexfile.py FILE.hex    writes the bytes
"""

import re
import sys

WORD = re.compile(r"[^ \t\r\f\v]+")
HEX = re.compile(r"[0-9A-Fa-f]")


class BadHex(Exception):
    """What is wrong with a text, and in which line, the first being 1."""

    def __init__(self, line, message):
        super().__init__(message)
        self.line = line


def bytes_of_word(word, line):
    shown = ascii(word if len(word) <= 20 else word[:20] + "..")
    bad = next((char for char in word if not HEX.match(char)), None)
    if bad is not None:
        raise BadHex(line, f"{shown}: {bad!a} is no hex digit")
    if len(word) % 2 != 0:
        raise BadHex(line, f"{shown}: a byte is two digits, and one is left over")
    return bytes.fromhex(word)


def read(text):
    """The bytes that the text, itself given as bytes, states, and the line that each stands in."""
    data, lines = bytearray(), []
    for line, content in enumerate(text.decode("utf-8-sig", errors="replace").split("\n"), 1):
        for word in WORD.findall(content.partition("#")[0]):
            stated = bytes_of_word(word, line)
            data += stated
            lines += [line] * len(stated)
    return bytes(data), lines


def main():
    path = sys.argv[1]
    try:
        with open(path, "rb") as file:
            data, _ = read(file.read())
    except BadHex as error:
        print(f"{path}:{error.line}: {error}", file=sys.stderr)
        return 2
    sys.stdout.buffer.write(data)
    return 0


if __name__ == "__main__":
    sys.exit(main())
