#!/usr/bin/env python3
"""Compares the examples of the documents with the callers of the crate `uses` and their tests.

    tools/compare_examples.py      at the repository's top

Each fenced block of Rust in README.md and docs/USING.md has to stand, line for line but for its
indentation, in a source file of the two crates. Prints those that don't; the status is then 1, and
also if there is no such block at all.
"""
import re
import sys
from pathlib import Path

CRATES = ("uses", "uses_tests")


def lines_of(text):
    """The lines of a text without their indentation."""
    return [line.strip() for line in text.strip().split("\n")]


def is_in(example, source):
    """Whether the lines of the example stand one after the other in the source."""
    count = len(example)
    return any(source[at : at + count] == example for at in range(len(source) - count + 1))


def main():
    top = Path(__file__).resolve().parent.parent
    files = [path for crate in CRATES for path in top.glob(f"crates/{crate}/src/**/*.rt")]
    sources = [lines_of(path.read_text("utf-8")) for path in files]
    found, missing = 0, 0
    for page in ("README.md", "docs/USING.md"):
        text = (top / page).read_text("utf-8")
        for block in re.findall(r"```rust\n(.*?)```", text, re.S):
            found += 1
            if not any(is_in(lines_of(block), source) for source in sources):
                missing += 1
                print(f"{page}: not in the crates {' and '.join(CRATES)}:\n{block}")
    return 1 if missing or not found else 0


if __name__ == "__main__":
    sys.exit(main())
