#!/usr/bin/env python3
"""The repository stands alone: no file and no commit message cites a paper, a demand or a request by
its number. Prints each place that does, and exits with 1 if there is one."""
import re
import subprocess
import sys

# built from parts, so that this file does not find itself
PAPER = "docu" + "ment|pa" + "per"
WISH = "dem" + "and|req" + "uest"
CITATION = re.compile(
    rf"\b(?:{PAPER})s?\s+(?:no\.?\s*)?\d|\b(?:{WISH})s?\s+(?:no\.?\s*)?(?:R-?)?\d|\bR-(?:1[0-2]|[1-9])\b"
    rf"|\b(?:0\d|90)-(?:sc" + r"ope|chan" + r"ge|req" + r"uest|rat" + r"tle)\b", re.IGNORECASE)


def run(*words):
    return subprocess.run(words, capture_output=True, text=True, check=True).stdout


def main():
    found = []
    for name in run("git", "ls-files").splitlines():
        try:
            with open(name, encoding="utf-8") as file:
                lines = file.read().splitlines()
        except (UnicodeDecodeError, OSError):
            continue
        found += [f"{name}:{n}: {line.strip()}" for n, line in enumerate(lines, 1) if CITATION.search(line)]
    messages = run("git", "log", "--format=%h %B").splitlines()
    found += [f"commit message: {line.strip()}" for line in messages if CITATION.search(line)]
    for place in found:
        print(f"cites by number: {place}")
    return 1 if found else 0


if __name__ == "__main__":
    sys.exit(main())
