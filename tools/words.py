#!/usr/bin/env python3
"""Counts the words of the documents (all pages of Markdown, and the manual page), and fails if there are more than BOUND.

Usage: tools/words.py [--look]        (make words prints each page; make lint checks the sum, by tools/documents.py)

A word is what blanks separate, as `wc -w` counts. A page that says something new makes room by saying something else shorter. If pages became
shorter, lower the bound. The status is 1 if it is broken.
"""
import os
import sys
from pathlib import Path

TOP = Path(__file__).resolve().parent.parent
BOUND = 48_000


def pages() -> dict[str, int]:
    """Returns the words of each page, by its path."""
    found = []
    for folder, folders, files in os.walk(TOP):
        folders[:] = [it for it in folders if it not in (".git", "out", "data")]
        found += [Path(folder, it) for it in files if it.endswith((".md", ".1"))]
    return {str(it.relative_to(TOP)): len(it.read_text(encoding="utf-8").split()) for it in sorted(found)}


def faults() -> list[str]:
    """Returns what is wrong: one line if the documents have too many words."""
    total = sum(pages().values())
    return [f"the documents have {total:,} words, at most {BOUND:,} (make words)"] if total > BOUND else []


def main(words: list[str]) -> int:
    if words not in ([], ["--look"]):
        sys.exit(__doc__)
    if words:
        print("\n".join(f"{count:7,} {page}" for page, count in pages().items()))
    print(f"{sum(pages().values()):7,} words, at most {BOUND:,}")
    return 1 if faults() else 0


if __name__ == "__main__":
    sys.exit(main(sys.argv[1:]))
