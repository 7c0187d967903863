#!/usr/bin/env python3
"""Writes calls on states with many telegrams of a class, and the answers.

  python3 scripts/class_calls.py ANSWERS > CALLS

Calls and answers have the form of the program conformance. Each answer stands beside its call as the paper has it; no
program works it out.
"""
from array_calls import SLICE, event, places, run, start, state, write
from yard import Sheet, initial, on, on_inner, panic

# Components 0 to 7 are external, from Log and Inf on; E1 is 8, E2 is 9. Name 0 is Go, 1 is Tick. Clocks are E1's cell 0
# and E2's.
E1, E2 = 8, 9
STOPPED, DUE = [0], [1, 1, 1, 1]
DUE_AGAIN, WAITS = [1, 0, 3, 1], [1, 2, 3, 1]


def desk(go="skip", tick="skip", do="skip", clock="Timeout"):
    """Two elements of one chart with a clock; they react to Go and to Tick, and do something at first."""
    y = Sheet(external=["Log", "Inf", "C2", "C3", "C4", "C5", "C6", "C7"], elements=["E1", "E2"], ports=["log", "inf"])
    y.telegram("Go")
    y.telegram("Tick", internal=True)
    y.chart("own", {}, {"clock": clock, "n": "Int"}, [
        initial(do), panic(("send", "Inf", "inf", "Go")), on("log", "Go", [], go), on_inner("Tick", [], tick)])
    y.bind("E1", "own")
    y.bind("E2", "own")
    return y


def sent(sender, receiver, port=0):
    """Go, on a port."""
    return [sender, receiver, port, 0]


def tick(element):
    return [element, element, -1, 1]


def outside(sender, receiver, port=0):
    return [1, sender, receiver, port, 0, 0, 0, 0, 0]


def deliver(sender, receiver):
    return [2, sender, receiver] + [0] * 6


def corrupt(sender, receiver):
    return [3, sender, receiver] + [0] * 6


def inner(element):
    return [4, 0, element] + [0] * 6


def with_clocks(waiting, first=STOPPED, second=STOPPED):
    return state([first, 0, second, 0], waiting)


def spread(count, left_out=()):
    """So many telegrams, at most 16 of a class, none of the classes left out: round and round from all ends."""
    classes = [sent(a, b) for b in (E1, E2) for a in range(8)] + [sent(E1, 2), sent(E2, 3), tick(E1), tick(E2)]
    classes = [t for t in classes if t not in left_out]
    return [classes[i % len(classes)] for i in range(count)]


def outsides():
    """A seventeenth of its class; what makes a class and what doesn't."""
    y = desk()
    for waiting in [sent(0, E1)] * 15, [sent(0, E1)] * 14 + [sent(1, E1)] * 16:
        event(0, 0, y, with_clocks(waiting), outside(0, E1), with_clocks(waiting + [sent(0, E1)]))
    full = [sent(0, E1), sent(0, E1, 1)] * 8
    for port in 0, 1:
        event(12, 0, y, with_clocks(full), outside(0, E1, port))
    for sender, receiver in (1, E1), (0, E2):
        event(0, 0, y, with_clocks(full), outside(sender, receiver), with_clocks(full + [sent(sender, receiver)]))
    # full in the middle, at the front and at the end of others
    others = [sent(3, E2)] * 10 + [tick(E1)] * 16
    for waiting in others + full, full + others, others[:13] + full + others[13:]:
        event(12, 0, y, with_clocks(waiting), outside(0, E1))


def full_lists():
    """128 wait: 8 goes first, whether the class is full or not; 127: 12 or 0."""
    y = desk()
    full, few = sent(0, E1), sent(1, E1)
    for count, answer in (128, 8), (127, 12):
        event(answer, 0, y, with_clocks([full] * 16 + spread(count - 16, [full])), outside(0, E1))
    event(8, 0, y, with_clocks(spread(128, [few])), outside(1, E1))
    old = spread(127, [few])
    event(0, 0, y, with_clocks(old), outside(1, E1), with_clocks(old + [few]))


def deliveries():
    """A telegram is removed before the body sends."""
    echo = desk(("send", "self", "log", "Go"), ("tell", "Tick"))
    own = [sent(E1, E1)] * 16 + [tick(E1)] * 16
    event(0, 3, echo, with_clocks(own), deliver(E1, E1), with_clocks(own[1:] + [sent(E1, E1)]))
    event(0, 1, echo, with_clocks(own), inner(E1), with_clocks(own[:16] + own[17:] + [tick(E1)]))
    # one from elsewhere makes no room in the class
    event(12, 3, echo, with_clocks(own + [sent(0, E1)]), deliver(0, E1))
    # to oneself on a port is external, and no class with internal ones
    event(0, 3, echo, with_clocks([tick(E1)] * 16 + [sent(0, E1)]), deliver(0, E1),
          with_clocks([tick(E1)] * 16 + [sent(E1, E1)]))
    twice = desk([("send", "self", "log", "Go"), ("send", "self", "log", "Go")])
    event(12, 7, twice, with_clocks([sent(E1, E1)] * 16), deliver(E1, E1))
    event(0, 7, twice, with_clocks([sent(E1, E1)] * 15), deliver(E1, E1), with_clocks([sent(E1, E1)] * 16))
    # the panic body sends to Inf
    to_inf = [sent(E1, 1, 1)]
    event(12, 3, echo, with_clocks(to_inf * 16 + [sent(4, E1)]), corrupt(4, E1))
    event(0, 3, echo, with_clocks(to_inf * 15 + [sent(4, E1)]), corrupt(4, E1), with_clocks(to_inf * 16))


def slices():
    """A clock's telegram; a refused slice undoes what earlier clocks did."""
    y, again = desk(), desk(clock="Cycler")
    event(0, 0, y, with_clocks([tick(E1)] * 15, DUE), SLICE, with_clocks([tick(E1)] * 16))
    event(12, 0, y, with_clocks([tick(E1)] * 16, DUE), SLICE)
    event(0, 0, y, with_clocks([tick(E1)] * 16, STOPPED, DUE), SLICE, with_clocks([tick(E1)] * 16 + [tick(E2)]))
    event(12, 0, y, with_clocks([tick(E2)] * 16, DUE, DUE), SLICE)
    event(12, 0, again, with_clocks([tick(E2)] * 16, DUE_AGAIN, DUE_AGAIN), SLICE)
    event(0, 0, again, with_clocks([tick(E1)] * 16, WAITS, DUE_AGAIN), SLICE,
          with_clocks([tick(E1)] * 16 + [tick(E2)], [1, 1, 3, 1], [1, 2, 3, 1]))
    event(8, 0, y, with_clocks([tick(E1)] * 16 + spread(112, [tick(E1)]), DUE), SLICE)


def states():
    """Seventeen of a class: 3, wherever they stand, before a malformed event is one."""
    y = desk()
    malformed = [9] * 9
    others = spread(100, [sent(0, E1)])
    for waiting in ([sent(0, E1)] * 17, [tick(E2)] * 17, [sent(E1, 5)] * 17, [sent(0, E1)] * 17 + others,
                    others + [sent(0, E1)] * 17, others[:50] + [sent(0, E1)] * 17 + others[50:],
                    [sent(0, E1), sent(0, E1, 1)] * 8 + others + [sent(0, E1)], [sent(E2, E2)] * 17 + [tick(E2)] * 16):
        for ev in outside(7, E2), malformed:
            event(3, 0, y, with_clocks(waiting), ev)
    # sixteen of each are no more than may wait
    for waiting in ([sent(0, E1)] * 16 + others, others + [sent(0, E1)] * 16,
                    [sent(E1, E1)] * 16 + [tick(E1)] * 16, spread(128)):
        event(4, 0, y, with_clocks(waiting), malformed)
        event(5, 0, y, with_clocks(waiting), deliver(E2, 6))


def starts():
    """An initial body sends in a loop, the seventeenth time in vain. A round has twelve steps, four for its test."""
    def count_to(limit):
        return "while", ("<", "n", limit), [("send", "Log", "log", "Go"), ("set", "n", ("+", "n", 1))]

    start(12, 16 * 12 + 8, desk(do=count_to(17)), places(4))
    start(0, 2 * (16 * 12 + 4), desk(do=count_to(16)), places(4),
          state([STOPPED, 16, STOPPED, 16], [sent(E1, 0)] * 16 + [sent(E2, 0)] * 16))


def runs():
    """Pupils elsewhere on the yard can still send."""
    y = desk()
    to_first, to_second = outside(0, E1), outside(0, E2)
    events = [to_first] * 18 + [to_second] + [deliver(0, E1), to_first, to_first]
    answers = [(0, 0)] * 16 + [(12, 0)] * 2 + [(0, 0), (0, 1), (0, 0), (12, 0)]
    run(y, events, ["start 0 2"] + ["%d %d %d" % (i + 1, a, k) for i, (a, k) in enumerate(answers)])


def main():
    write(__doc__, outsides, full_lists, deliveries, slices, states, starts, runs)


if __name__ == "__main__":
    main()
