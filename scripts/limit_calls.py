#!/usr/bin/env python3
"""Writes calls on sheets with a step limit of 0 and with others, and the answers.

  python3 scripts/limit_calls.py ANSWERS > CALLS

Calls and answers have the form of the program conformance. Each answer stands beside its call as the paper has it; no
program works it out.
"""
from array_calls import CORRUPT, DELIVER, desk, event, go, places, run, start, state, write

MALFORMED = [9] * 9
OUTSIDE = [1, 0, 2, 0, 0, 0, 0, 0, 0]


def count_to(rounds):
    """A round has eight steps, four of them for its test, which is made once more at the end."""
    return "while", ("<", "n", rounds), ("set", "n", ("+", "n", 1))


def exactly(steps):
    """A body of so many steps, a multiple of eight, and what n is then: two skips in sequences take four."""
    rounds = (steps - 8) // 8
    return [count_to(rounds), "skip", "skip"], rounds


def one_more(steps):
    """A body of one step more: a sequence, and four to count once more."""
    rounds = (steps - 8) // 8
    return [count_to(rounds), ("set", "n", ("+", "n", 1))], rounds + 1


ENDLESS = "while", True, "skip"


def yard(limit, do="skip", reacting="skip", elements=("E1",)):
    return desk({"n": "Int"}, do=do, reacting=reacting, limit=limit, elements=elements)


def both(answer, steps, limit, body, n):
    """The body as an element's initial one, and as its reaction to a telegram that waits."""
    start(answer, steps, yard(limit, do=body), places(1), state([n]) if answer == 0 else None)
    event(answer, steps, yard(limit, reacting=body), state([0], [go()]), DELIVER, state([n]) if answer == 0 else None)


def limits():
    """0 means 2,000, and every other number itself."""
    for limit, most in (0, 2000), (2000, 2000), (10000, 10000), (9992, 9992):
        body, n = exactly(most)
        both(0, most, limit, body, n)
        body, n = one_more(most)
        both(10, most, limit, body, n)
        both(10, most, limit, ENDLESS, 0)
    body, n = one_more(2000)
    both(0, 2001, 2001, body, n)
    both(10, 1999, 1999, body, n)
    body, n = exactly(2000)
    both(0, 2000, 2001, body, n)
    both(10, 1999, 1999, body, n)
    body, n = exactly(10000)
    both(10, 2000, 0, body, n)


def for_each():
    """The limit is for each initial body and for each event."""
    body, n = exactly(2000)
    start(0, 4000, yard(0, do=body, elements=("E1", "E2")), places(2), state([n, n]))
    body, n = one_more(2000)
    start(10, 2000, yard(0, do=body, elements=("E1", "E2")), places(2))


def turned_down():
    """What doesn't fit is turned down as with another limit."""
    for limit in 0, 10000:
        y = yard(limit, do=ENDLESS, reacting=ENDLESS)
        start(3, 0, y, places(1) - 1)
        event(4, 0, y, state([0], [go()]), MALFORMED)
        event(5, 0, y, state([0]), DELIVER)
        event(0, 1, y, state([0], [go()]), CORRUPT, state([0]))


def runs():
    """A pupil's endless while is refused, and the desk goes on; a rewritten sheet takes the steps that it took."""
    listing = ["start 0 1", "1 0 0", "2 10 %d", "3 10 %d", "4 0 1", "5 5 0"]
    for limit, most in (0, 2000), (10000, 10000):
        run(yard(limit, reacting=ENDLESS), [OUTSIDE, DELIVER, DELIVER, CORRUPT, DELIVER],
            [line % most if "%" in line else line for line in listing])


def main():
    write(__doc__, limits, for_each, turned_down, runs)


if __name__ == "__main__":
    main()
