#!/usr/bin/env python3
"""Prints the must-fail edits by crate, each with its label and the rule that it breaks.

  python3 scripts/edits.py            of every crate that has some
  python3 scripts/edits.py NAME ..    of these crates
"""
import pathlib

import usage

CRATES = pathlib.Path(__file__).resolve().parent.parent / "crates"


def edits(crate):
    """Label and text; the text is the edit's first line."""
    for path in sorted((crate / "must-fail").glob("*.edit")):
        with open(path, encoding="utf-8") as edit:
            yield path.stem, edit.readline().lstrip("#").strip()


def main():
    names = usage.given(__doc__)
    there = sorted(path.name for path in CRATES.iterdir() if path.is_dir())
    for name in names:
        if name not in there:
            usage.wrong(__doc__, "there is no crate " + name)
    lines = []
    for name in names or there:
        own = ["  %s: %s" % edit for edit in edits(CRATES / name)]
        if own or names:
            lines += [name, *own]
    print("\n".join(lines))


if __name__ == "__main__":
    main()
