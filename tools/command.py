"""What the tools for people have in common: how they are called, and what they read."""

import argparse
import sys

import building


def parser_of(tool, documentation):
    """The parser of a tool's arguments. Its help is the tool's documentation, of which the second paragraph is the
    usage, that argparse gives itself."""
    summary, _, rest = documentation.split("\n\n", 2)
    return argparse.ArgumentParser(
        prog=tool,
        description=summary,
        epilog=rest,
        formatter_class=argparse.RawDescriptionHelpFormatter,
    )


def name_of(path):
    return "standard input" if path == "-" else path


def read(path):
    """The bytes of a file, or of standard input for '-'."""
    try:
        if path != "-":
            with open(path, "rb") as file:
                return file.read()
        if sys.stdin.isatty():
            print("reading from standard input", file=sys.stderr)
        return sys.stdin.buffer.read()
    except OSError as error:
        raise building.Trouble(f"{name_of(path)}: {error.strerror}") from error
