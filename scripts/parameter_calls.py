#!/usr/bin/env python3
"""Writes calls on sheets whose charts have up to 15 parameters, and the answers.

  python3 scripts/parameter_calls.py ANSWERS > CALLS

Calls and answers have the form of the program conformance. Each answer stands beside its call as the paper has it; no
program works it out.
"""
from array_calls import DELIVER, check, event, go, node_of, places, run, start, state, with_field, write
from yard import SECOND_RECORD, Sheet, initial, on, panic

OUTSIDE = [1, 0, 2, 0, 0, 0, 0, 0, 0]


def yard(parameters, do="skip", reacting="skip", elements=("E1",), constants=None, of="Int", variable="Int",
         spare=()):
    """Elements of a chart with so many parameters p0, p1, .. and a variable v; those in `spare` are bound to a chart
    without. Element i has the constants 100 i + 0, 100 i + 1, .., unless they are given; there is no room for a
    15th."""
    y = Sheet(external=["Log", "Inf"], elements=[*elements, *spare], ports=["log", "inf"])
    y.telegram("Go")
    types = {"p%d" % j: of for j in range(parameters)}
    y.chart("own", types, {"v": variable}, [initial(do), panic("skip"), on("log", "Go", [], reacting)])
    y.chart("bare", {}, {}, [initial("skip"), panic("skip")])
    for i, element in enumerate(elements):
        y.bind(element, "own", *(constants or [100 * i + j for j in range(min(parameters, 14))]))
    for element in spare:
        y.bind(element, "bare")
    return y


def read(j):
    return "set", "v", "p%d" % j


def numbers():
    """Up to 14, in a chart that nothing binds too."""
    for n in range(16):
        check(0 if n < 15 else 1, yard(n))
        check(0 if n < 15 else 1, yard(n, elements=(), spare=("E1",)))


def values():
    """Each parameter has its own constant, of its own element, also behind an element with two records."""
    for n in 1, 7, 8, 9, 14:
        for j in {0, min(6, n - 1), n // 2, n - 1}:
            start(0, 2, yard(n, do=read(j)), places(1), state([j]))
            start(0, 6, yard(n, do=read(j), elements=("E1", "E2", "E3")), places(3), state([j, 100 + j, 200 + j]))
            event(0, 2, yard(n, reacting=read(j)), state([7], [go()]), DELIVER, state([j]))
    # an element with none between them, and one behind
    y = yard(9, do=read(8), elements=("E1", "E2"), spare=("E3",))
    start(0, 5, y, places(2), state([8, 108]))
    # self is the element bound, in the second record too
    who = ["Log"] * 7 + ["self"]
    y = yard(8, do=read(7), elements=("E1", "E2"), constants=who, of="Component", variable="Component")
    start(0, 4, y, places(2), state([2, 3]))


def changed(parameters, number, field, value, **more):
    return with_field(yard(parameters, **more), 7, number, field, value)


def without(y, number):
    del y.sections[7][number]
    return y


def records():
    """As many records as the charts need; the second with its f0, and 0 where it has no constant."""
    for mark in 0, 1, 2, 65534:
        check(1, changed(9, 1, 0, mark))
    for field in range(3, 8):
        check(1, changed(9, 1, field, 1))
    check(1, without(yard(9), 1))
    check(1, without(yard(9, elements=("E1", "E2")), 1))
    check(1, without(yard(9, elements=("E1", "E2")), 3))
    for n in 0, 7:
        y = yard(n, spare=("E2",))
        y.sections[7].insert(1, [SECOND_RECORD])
        check(1, y)
        y = yard(n)
        y.sections[7][0] = [SECOND_RECORD, *y.sections[7][0][1:]]
        check(1, y)
    y = yard(9)
    y.sections[7].append([SECOND_RECORD])
    check(1, y)


def constants():
    """A constant in the second record is a literal of its parameter's type, and used once."""
    for n in 8, 14:
        y = yard(n)
        last = y.sections[7][1][n - 7]
        check(1, with_field(yard(n), 6, last, 0, 7))
        check(2, with_field(with_field(yard(n), 6, last, 0, 1), 6, last, 1, 1))
        check(1, changed(n, 1, n - 7, y.sections[7][0][1]))
        check(1, changed(n, 1, n - 7, len(y.sections[6])))
    # a chart parameter is never assigned, and has its own type
    check(2, with_field(yard(9, do=("set", "v", 1)), 6, node_of(yard(9, do=("set", "v", 1)), 33), 1, 0))
    check(2, yard(9, do=read(8), of="Bool", constants=[True] * 9))


def runs():
    run(yard(9, do=read(7), reacting=read(8), elements=("E1", "E2")), [OUTSIDE, DELIVER, DELIVER],
        ["start 0 4", "1 0 0", "2 0 2", "3 5 0"])
    run(yard(15), [OUTSIDE], ["start 1 0"])


def main():
    write(__doc__, numbers, values, records, constants, runs)


if __name__ == "__main__":
    main()
