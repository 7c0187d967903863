#!/usr/bin/env python3
"""Plays an input of `play` as a desk does: writes one event, waits for its line, then writes the next.

  python3 scripts/dialogue.py PROGRAM INPUT

The listing is printed. A line that takes longer than five seconds ends it.
"""
import select
import subprocess
import sys

import usage

EVENT = 36


def line(desk):
    if not select.select([desk.stdout], [], [], 5)[0]:
        desk.kill()
        sys.exit("no line came within five seconds")
    return desk.stdout.readline()


def main():
    program, name = usage.arguments(__doc__, "PROGRAM INPUT")
    try:
        with open(name, "rb") as file:
            blob = file.read()
        desk = subprocess.Popen([program], stdin=subprocess.PIPE, stdout=subprocess.PIPE, bufsize=0)
    except OSError as fault:
        usage.wrong(__doc__, fault)
    size = 4 + int.from_bytes(blob[:4], "little")
    desk.stdin.write(blob[:size])
    sys.stdout.buffer.write(line(desk))
    for at in range(size, len(blob) - EVENT + 1, EVENT):
        # in two pieces, so that an event that isn't whole yet is waited for
        desk.stdin.write(blob[at:at + 7])
        desk.stdin.write(blob[at + 7:at + EVENT])
        sys.stdout.buffer.write(line(desk))
    desk.stdin.close()
    sys.stdout.buffer.write(desk.stdout.read())


if __name__ == "__main__":
    main()
