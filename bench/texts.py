#!/usr/bin/env python3
"""Writes the plans that are timed into a folder: `read.plan`, 8,192 bytes of lines, and `largest.plan`, which
comes up to every limit: need 1,023, 31 REPEATs, width 5, 8,192 bytes."""
import pathlib
import sys

TEXT = 8192


def padded(text: str) -> str:
    """The text with blanks behind it, up to the limit."""
    assert len(text) <= TEXT, len(text)
    return text + " " * (TEXT - len(text))


def reading() -> str:
    """Lines of every kind, as many as fit."""
    group = "LET A = A + 12 * (B - [C + 3]) < 4294967295\nPUT A , [A] + 5\nREPEAT A * 2\nLET F = (F)\nEND\n\n"
    return padded(group * (TEXT // len(group)))


def largest() -> str:
    """31 REPEATs, four deep where they can be; lines of width 5; one line of six nodes."""
    wide = "LET B = 1 + (A + (2 + (A + 3)))\n"
    lines = ["LET C = [A] + B * 2\n"] + [wide] * 25
    repeats = ["REPEAT 1\n" * 4 + "END\n" * 4] * 7 + ["REPEAT 2\n" * 3 + "END\n" * 3]
    return padded("".join(lines + repeats))


def main() -> None:
    folder = pathlib.Path(sys.argv[1])
    (folder / "read.plan").write_text(reading())
    (folder / "largest.plan").write_text(largest())


main()
