#!/usr/bin/env python3
"""Writes the paper's example of a play, the sheet's length, the sheet and its events.

  python3 scripts/play_example.py > example.in
"""
import struct

import usage
from check_cases import SKIP, sheet


def example(period=2, arms_at_start=False):
    """The example's sheet, with the Timeout's period; or with the initial body arming it, not the reaction."""
    initial, reaction = (3, 0) if arms_at_start else (0, 3)
    nodes = [
        SKIP,  # initial
        SKIP,  # panic
        [2, period],
        [36, 0, 2, 1],  # arms variable 0, internal name 1
        [4, 0],
        [5, 0],
        [34, 4, 5, 0],  # sends name 0 to Log, log
    ]
    bodies = [
        [0, 0, 0, 0, 0, 0, 0, initial],
        [1, 0, 0, 0, 0, 0, 0, 1],
        [2, 2, 0, 0, 0, 0, 0, reaction],
        [3, 0, 1, 0, 0, 0, 0, 6],
    ]
    return sheet([[[3, 2, 3]], [], [[5]], [[0, 0, 0], [0, 0, 1]], [[0, 0, 0, 1, 0, 4]], bodies, nodes, [[0]]])


# kind, s, r, p, n
EVENTS = [
    [1, 0, 2, 2, 0],  # Outside from 0
    [2, 0, 2],  # Deliver 0 to 2
    [5],  # Slice
    [4, 0, 2],  # Inner 2
    [5],
    [4, 0, 2],
    [2, 2, 0],  # Deliver 2 to 0
]


def words(events):
    return b"".join(struct.pack("<9i", *(e + [0] * (9 - len(e)))) for e in events)


def played(blob, events):
    """An input of `play`."""
    return struct.pack("<I", len(blob)) + blob + words(events)


def main():
    usage.arguments(__doc__, "")
    usage.binary(__doc__).write(played(example(), EVENTS))


if __name__ == "__main__":
    main()
