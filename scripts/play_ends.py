#!/usr/bin/env python3
"""Writes inputs of `play` that end early, a file each, into the folder that is named.

  python3 scripts/play_ends.py FOLDER
"""
import pathlib
import struct

import usage
from play_example import EVENTS, example, played

WHOLE = example()
INPUTS = {
    # an incomplete length is 0
    "length_cut": struct.pack("<I", len(WHOLE))[:3],
    # a sheet cut short is the bytes that came: too few for this one, and just enough for a length that says more
    "sheet_cut": played(WHOLE, [])[:-16],
    "sheet_ends_early": struct.pack("<I", len(WHOLE) + 36) + WHOLE,
    # an incomplete last event is ignored
    "event_cut": played(WHOLE, EVENTS + [[5]])[:-1],
    # after a start other than 0 no event is played: the initial body arms the Timeout with period 0
    "start_refused": played(example(period=0, arms_at_start=True), EVENTS),
}


def main():
    [name] = usage.arguments(__doc__, "FOLDER")
    folder = pathlib.Path(name)
    if not folder.is_dir():
        usage.wrong(__doc__, "there is no folder " + name)
    for name, blob in INPUTS.items():
        (folder / name).write_bytes(blob)


if __name__ == "__main__":
    main()
