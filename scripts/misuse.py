#!/usr/bin/env python3
"""Compiles the programs of misuse/ against the crates as they stand.

The first line of each says what `rt check` must answer: that the program is proved, or the error by which it is
refused. The programs stand in text files, since a program that is refused can be no crate of the repository. They are
compiled in a copy of the sources; what earlier checks of the crates kept is found there, so that this takes a minute
after `rt ci` or `rt check` and proves the crates first where they have changed. Last line: 'N passed, M failed'.
"""
import pathlib
import shutil
import subprocess
import sys
import tempfile

TOP = pathlib.Path(__file__).resolve().parent.parent
USES = "memory isa machine checker simulator"
PROVED = "logic=proved"


def copied(folder: str) -> pathlib.Path:
    """A copy of the repository with one crate more, `misuse`; answers the file of its program."""
    copy = pathlib.Path(folder)
    for part in ("src", "specs", "proofs"):
        for source in TOP.glob(f"crates/*/{part}"):
            shutil.copytree(source, copy / source.relative_to(TOP))
    listed = (TOP / "crates.txt").read_text(encoding="utf-8")
    (copy / "crates.txt").write_text(f"{listed}misuse: {USES}\n", encoding="utf-8")
    source = copy / "crates" / "misuse" / "src"
    source.mkdir(parents=True)
    return source / "main.rt"


def answer(program: pathlib.Path) -> tuple[int, str]:
    """The status of `rt check` on the program, and what it prints."""
    done = subprocess.run(["rt", "check"], cwd=program.parents[1], capture_output=True, text=True)
    return done.returncode, done.stdout + done.stderr


def is_expected(expected: str, status: int, got: str) -> bool:
    """Proved, where that is expected; else refused by the expected error and by no other."""
    if expected.startswith(PROVED):
        return status == 0 and expected in got
    return status == 1 and expected in got and got.count("error[") == 1


def main() -> int:
    failed = 0
    cases = sorted((TOP / "misuse").glob("*.txt"))
    with tempfile.TemporaryDirectory() as folder:
        program = copied(folder)
        for case in cases:
            expected, text = case.read_text(encoding="utf-8").split("\n", 1)
            expected = expected.removeprefix("// expect: ")
            program.write_text(text, encoding="utf-8")
            status, got = answer(program)
            if not is_expected(expected, status, got):
                failed += 1
                print(f"{case.name}: expected '{expected}', got status {status}:\n{got[-1500:]}")
    print(f"{len(cases) - failed} passed, {failed} failed")
    return 1 if failed or not cases else 0


if __name__ == "__main__":
    sys.exit(main())
