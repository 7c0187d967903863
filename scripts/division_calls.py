#!/usr/bin/env python3
"""Writes calls on sheets that divide, and the answers.

  python3 scripts/division_calls.py ANSWERS > CALLS

Calls and answers have the form of the program conformance. Each answer stands beside its call as the paper has it; no
program works it out.
"""
from array_calls import DELIVER, desk, event, go, places, start, state, write

LEAST, MOST = -2147483648, 2147483647

# a, b, a div b, a mod b
DIVISIONS = [
    (7, 2, 3, 1),
    (-7, 2, -4, 1),
    (7, -2, -4, -1),
    (-7, -2, 3, -1),
    (6, 2, 3, 0),
    (-6, 2, -3, 0),
    (6, -2, -3, 0),
    (-6, -2, 3, 0),
    (0, -5, 0, 0),
    (-1, MOST, -1, MOST - 1),
    (1, LEAST, -1, LEAST + 1),
    (MOST, LEAST, -1, -1),
    (LEAST, MOST, -2, MOST - 1),
    (LEAST, 1, LEAST, 0),
    (LEAST, LEAST, 1, 0),
    (LEAST + 1, -1, MOST, 0),
]


def divisions():
    """All of them in one initial body; a statement has four nodes, and a sequence holds two."""
    own, do, cells = {}, [], []
    for i, (a, b, quotient, remainder) in enumerate(DIVISIONS):
        own.update({"q%d" % i: "Int", "r%d" % i: "Int"})
        do += [("set", "q%d" % i, ("div", a, b)), ("set", "r%d" % i, ("mod", a, b))]
        cells += [quotient, remainder]
    start(0, 4 * len(do) + len(do) - 1, desk(own, do), places(len(cells)), state(cells))


def refused():
    """The one quotient that is no Int, its remainder, and divisor 0."""
    for answer, operator, a, b in [(6, "div", LEAST, -1), (0, "mod", LEAST, -1), (6, "div", 7, 0), (6, "mod", 7, 0),
                                   (6, "mod", 0, 0)]:
        start(answer, 4, desk({"n": "Int"}, ("set", "n", (operator, a, b))), places(1), state([0]))


def leftward():
    """(Pointer - 1) mod (Length + 1), from every place of a list of four, and from the first of the longest lists."""
    step = ("set", "pointer", ("mod", ("-", "pointer", 1), ("+", "length", 1)))

    def walk(length):
        return desk({"pointer": "Int"}, reacting=step, parameters={"length": "Int"}, constants=[length])

    for length, pointer, left in (3, 3, 2), (3, 2, 1), (3, 1, 0), (3, 0, 3), (0, 0, 0), (MOST - 1, 0, MOST - 1):
        event(0, 8, walk(length), state([pointer], [go()]), DELIVER, state([left]))
    event(6, 8, walk(MOST), state([0], [go()]), DELIVER)


def main():
    write(__doc__, divisions, refused, leftward)


if __name__ == "__main__":
    main()
