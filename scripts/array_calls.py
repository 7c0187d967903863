#!/usr/bin/env python3
"""Writes calls on sheets with array variables, and the answers.

  python3 scripts/array_calls.py ANSWERS > CALLS

Calls and answers have the form of the program conformance. Each answer stands beside its call as the paper has it; no
program works it out. Sheets are written in the words of yard.py, and a fault that these words can't say is put into the
records afterwards.
"""
import struct

import usage
from yard import Sheet, array, initial, on, on_inner, panic, procedure

CALLS, ANSWERS = [], []

# An expression of each type, and an index of each kind with its last member: what stands at the end of the array.
OF_TYPE = {"Bool": True, "Int": 0, "Component": "Log", "Port": "log", "Lamp": "off", "Side": "left"}
LAST = {"Bool": True, "Component": "E1", "Port": "track", "Lamp": "fast", 1: 0, 64: 63}


def desk(variables, do="skip", reacting="skip", data=(), elements=("E1",), limit=0, local={}, parameters={},
         constants=(), bodies=()):
    """Elements of one chart. `do` is the initial body; `reacting` reacts to Go, whose data are called x and y."""
    y = Sheet(external=["Log", "Inf"], elements=list(elements), ports=["log", "inf", "track"])
    y.enumerated("Lamp", ["off", "slow", "fast"], default="slow")
    y.enumerated("Side", ["left", "right"], default="left")
    y.telegram("Go", *data)
    y.telegram("Tick", internal=True)
    y.chart("own", parameters, variables, [
        initial(do)._replace(locals=local),
        panic("skip"),
        on("log", "Go", ["x", "y"][:len(data)], reacting),
        on_inner("Tick", [], "skip"),
        *bodies,
    ])
    for element in elements:
        y.bind(element, "own", *constants)
    y.sections[0][0].append(limit)
    return y


def with_field(y, section, number, field, value):
    """The same sheet with another number in one field; a record is written with its first fields only."""
    record = y.sections[section][number]
    record += [0] * (8 - len(record))
    record[field] = value
    return y


def node_of(y, operator):
    return next(i for i, record in enumerate(y.sections[6]) if record[0] == operator)


def call(kind, y, tail, answer):
    sheet = y.bytes()
    CALLS.append(struct.pack("<II", kind, len(sheet)) + sheet + tail)
    ANSWERS.append(answer)


def words(ws):
    return struct.pack("<I%di" % len(ws), len(ws), *ws)


def text(ws):
    return ",".join(map(str, ws)) or "-"


def check(answer, y):
    call(0, y, b"", str(answer))


def start(answer, steps, y, length, result=None):
    """After a refusal during a run the result is zeros; after 1, 2 or 3 it is the 777 that were lent."""
    result = result or [0 if answer > 3 else 777] * length
    call(1, y, struct.pack("<I", length), "%d %d %s" % (answer, steps, text(result)))


def event(answer, steps, y, old, ev, result=None, length=None):
    """After 5 and more the result is a copy of the old state; after 1 to 4 it is the 777 that were lent."""
    length = len(old) if length is None else length
    result = result or (old if answer > 4 else [777] * length)
    call(2, y, words(old) + struct.pack("<I", length) + words(ev), "%d %d - %s" % (answer, steps, text(result)))


def run(y, events, listing):
    call(3, y, struct.pack("<I%di" % (9 * len(events)), len(events), *sum(events, [])), "\n".join(listing))


def state(cells, waiting=()):
    """A state's words. A cell is its first word or a list of its first words; a telegram is its first words."""
    flat = [len(waiting)] + [0] * 7
    for cell in cells:
        first = cell if isinstance(cell, list) else [cell]
        flat += first + [0] * (8 - len(first))
    for telegram in waiting:
        flat += list(telegram) + [0] * (8 - len(telegram))
    return flat + [0] * 8 * (128 - len(waiting))


def places(count):
    """How long a state with so many cells is."""
    return 8 + 8 * count + 8 * 128


def write(use, *parts):
    """The calls of these parts to standard output, the answers to the file that is named."""
    calls, answers = usage.calls_and_answers(use)
    for part in parts:
        part()
    calls.write(b"".join(CALLS))
    with answers:
        answers.writelines(answer + "\n" for answer in ANSWERS)


# Component 2 is E1; port 0 is log; name 0 is Go, 1 is Tick.
DELIVER = [2, 0, 2, 0, 0, 0, 0, 0, 0]
CORRUPT = [3, 0, 2, 0, 0, 0, 0, 0, 0]
SLICE = [5] + [0] * 8


def go(*data):
    """Go with these data, as it waits from Log for E1."""
    return [0, 2, 0, 0, *data]


def checked_indices():
    """Every kind of index with an index of every type, read and assigned."""
    for over in LAST:
        own = over if isinstance(over, str) else "Int"
        for t, index in {**OF_TYPE, own: LAST[over]}.items():
            answer = 0 if t == own else 2
            check(answer, desk({"a": array("Int", over)}, ("put", "a", index, 7)))
            check(answer, desk({"a": array("Int", over), "n": "Int"}, ("set", "n", ("at", "a", index))))
    # a number's index is any Int for the checker: outside it shows when it is played
    check(0, desk({"a": array("Int", 3)}, ("put", "a", -1, ("at", "a", 3))))


def checked_elements():
    """Every type of element with a value of every type; what is read has the element's type."""
    for element in OF_TYPE:
        for t, value in OF_TYPE.items():
            check(0 if t == element else 2, desk({"a": array(element, 2)}, ("put", "a", 0, value)))
        for t in element, "Side" if element == "Lamp" else "Lamp":
            reads = ("set", "v", ("at", "a", 0))
            check(0 if t == element else 2, desk({"a": array(element, 2), "v": t}, reads))
    # a statement where an expression is asked, and the reverse
    check(2, desk({"a": array("Int", 2)}, ("put", "a", "skip", 1)))
    check(2, desk({"a": array("Int", 2)}, ("put", "a", 0, "skip")))
    check(2, desk({"a": array("Int", 2)}, ("at", "a", 0)))
    check(2, desk({"a": array("Int", 2), "n": "Int"}, ("set", "n", ("put", "a", 0, 1))))


def checked_declarations():
    """f1 of a declaration: which numbers there are, and where an array may stand."""
    wrong = [4, 5, 6, 7, 10, 5000, 59999, 60000, 60065, 65535]
    for f1 in wrong:
        check(1, with_field(desk({"a": "Int"}), 2, 0, 1, f1))
    for f1 in [1, 2, 3, 8, 9, 60001, 60064]:
        check(0, with_field(desk({"a": "Int"}), 2, 0, 1, f1))
    # a clock, and a declaration that stands in no range
    for f1 in (7, 60065):
        check(1, with_field(desk({"a": "Timer"}), 2, 0, 1, f1))
        y = desk({})
        y.sections[2].append([1, f1])
        check(1, y)
    # 8 is an enumerated type, if there is one
    for types, answer in (1, 0), (0, 1):
        y = with_field(desk({"a": "Int"}), 2, 0, 1, 8)
        del y.sections[1][types:]
        check(answer, y)
    # f2 stays a field that isn't used
    check(1, with_field(desk({"a": array("Int", 2)}), 2, 0, 2, 1))
    # 1 goes before 2: a number of places that there isn't, and a type that doesn't agree
    check(1, desk({"a": array("Int", 65)}, ("put", "a", True, 1)))
    # an array of clocks, in a range and in none; one of a data type in none
    for clock in "Timer", "Timeout", "Cycler":
        check(2, desk({"a": array(clock, 2)}))
        y = desk({})
        y.declared([array(clock, "Bool")])
        check(2, y)
    y = desk({})
    y.declared([array("Int", 64)])
    check(0, y)
    # ranges in which no array may stand
    pair = array("Bool", 2)
    check(2, desk({}, local={"b": pair}))
    check(2, desk({}, data=[pair]))
    check(2, desk({}, parameters={"p": pair}, constants=[True]))
    check(2, desk({}, bodies=[procedure("p", {"b": pair}, {}, "skip")]))
    check(2, desk({}, bodies=[procedure("p", {}, {"b": pair}, "skip")]))
    y = desk({})
    y.telegram("Unused", pair)
    check(2, y)


def checked_operators():
    """Which variables 19 and 44 take, and which operators take an array."""
    # a variable's number that is there, and numbers past the last
    for do in ("put", "a", 0, 1), ("set", "n", ("at", "a", 0)):
        operator = 44 if do[0] == "put" else 19
        check(0, desk({"n": "Int", "a": array("Int", 2)}, do))
        for number in (2, 65535):
            y = desk({"n": "Int", "a": array("Int", 2)}, do)
            check(1, with_field(y, 6, node_of(y, operator), 1, number))
        # fields that these operators don't use
        y = desk({"n": "Int", "a": array("Int", 2)}, do)
        check(1, with_field(y, 6, node_of(y, operator), 3 if operator == 19 else 4, 1))
    # a plain variable, a clock; its f1 of 0 is no index, of Int as little as of Bool
    for t in "Int", "Timer", "Timeout", "Cycler":
        check(2, desk({"v": t}, ("put", "v", 0, 1)))
        check(2, desk({"v": t, "n": "Int"}, ("set", "n", ("at", "v", 0))))
    check(2, desk({"v": "Int"}, ("put", "v", False, 1)))
    check(2, desk({"v": "Int", "n": "Int"}, ("set", "n", ("at", "v", False))))
    # index and value are operands: numbers below the node's own, and levels of the tree
    for operator, field in (44, 2), (44, 3), (19, 2):
        y = desk({"a": array("Int", 2)}, ("put", "a", 0, ("at", "a", 1)))
        check(1, with_field(y, 6, node_of(y, operator), field, node_of(y, operator)))
    for levels, answer in (64, 0), (65, 1):
        deep = 0
        for _ in range(levels - 2):
            deep = ("at", "a", deep)
        check(answer, desk({"a": array("Int", 2)}, ("put", "a", deep, 1)))
        check(answer, desk({"a": array("Int", 2)}, ("put", "a", 1, deep)))
    # an array taken whole
    check(2, desk({"a": array("Int", 2), "n": "Int"}, ("set", "n", "a")))
    check(2, desk({"a": array("Int", 2)}, ("set", "a", 1)))
    check(2, desk({"a": array("Int", 2), "b": array("Int", 2)}, ("set", "a", "b")))
    # an array where a clock is asked
    for do in ("start", "a"), ("stop", "a"), ("after", "a", 1, "Tick"), ("every", "a", 1, "Tick"):
        check(2, desk({"a": array("Int", 2)}, do))
    check(2, desk({"a": array("Int", 2), "b": "Bool"}, ("set", "b", ("active", "a"))))
    check(2, desk({"a": array("Int", 2), "n": "Int"}, ("set", "n", ("value", "a"))))


def checked_cells():
    """512 counts cells of bound elements; the 32 of a chart counts declarations."""
    eight = {"a%d" % i: array("Int", 64) for i in range(8)}
    check(0, desk(eight))
    check(1, desk({**eight, "n": "Int"}))
    check(1, desk({**eight, "b": array("Bool", 1)}))
    # 4 elements of 128 cells each, and of 129
    four = ["E1", "E2", "E3", "E4"]
    check(0, desk({"a": array("Lamp", 64), "b": array("Port", 64)}, elements=four))
    check(1, desk({"a": array("Lamp", 64), "b": array("Port", 64), "t": "Timer"}, elements=four))
    # an index over the largest enumerated type has 256 cells
    for more, answer in ({}, 0), ({"n": "Int"}, 1):
        y = desk({"a": array("Bool", "Lamp"), "b": array("Int", "Lamp"), **more})
        check(answer, with_field(y, 1, 0, 0, 256))
    # 64 components, 8 of them bound: an array over Component has a cell for each of the 64
    outside = ["O%d" % i for i in range(54)]
    for more, answer in ({}, 0), ({"n": "Int"}, 1):
        y = Sheet(external=["Log", "Inf", *outside], elements=["E%d" % i for i in range(8)], ports=["log", "inf"])
        y.chart("own", {}, {"a": array("Bool", "Component"), **more}, [initial("skip"), panic("skip")])
        for i in range(8):
            y.bind("E%d" % i, "own")
        check(answer, y)
    # a chart that nothing binds has no cells
    y = desk({})
    y.chart("unbound", {}, {**eight, "n": "Int"}, [initial("skip"), panic("skip")])
    check(0, y)
    for count in (32, 33):
        check(count - 32, desk({"a%d" % i: array("Int", 2) for i in range(count)}))


def started():
    # every cell has its element's default: slow is 1; then the two ends are assigned
    ends = [("put", "a", 0, "fast"), ("put", "a", 2, "off"), ("put", "b", True, ("at", "b", False))]
    y = desk({"a": array("Lamp", 3), "b": array("Int", "Bool"), "n": "Int"}, ends)
    start(0, 12, y, places(6), state([2, 1, 0, 0, 0, 0]))
    # a state has a place for each cell, not for each variable
    for count in (3, 5, 7):
        start(3, 0, y, places(count))
    # 11 in an initial body, assigned and read, on both sides; each leaves zeros
    for index in (-1, 3):
        start(11, 3, desk({"a": array("Int", 3)}, ("put", "a", index, 5)), places(3))
        start(11, 3, desk({"a": array("Int", 3), "n": "Int"}, ("set", "n", ("at", "a", index))), places(4))
    # the second element's 11 gives up the first one's work too, but the steps of both count
    y = Sheet(external=["Log", "Inf"], elements=["E1", "E2"], ports=["log", "inf"])
    y.chart("own", {"last": "Int"}, {"a": array("Int", 2)}, [initial(("put", "a", "last", 9)), panic("skip")])
    y.bind("E1", "own", 1)
    y.bind("E2", "own", 2)
    start(11, 6, y, places(4))
    # the second element's array begins behind the first one's
    fill = ("put", "a", "self", True)
    y = desk({"n": "Int", "a": array("Bool", "Component")}, fill, elements=("E1", "E2"))
    start(0, 6, y, places(10), state([0, 0, 0, 1, 0, 0, 0, 0, 0, 1]))


def played():
    """Go(x, y) puts 100 div y at x into an array over 3, which stands between two Ints; n is set before."""
    sets = [("set", "n", 1), ("put", "a", "x", ("div", 100, "y"))]
    y = desk({"n": "Int", "a": array("Int", 3), "m": "Int"}, reacting=sets, data=["Int", "Int"])

    def put(answer, steps, index, divisor, result=None):
        event(answer, steps, y, state([4, 5, 6, 7, 8], [go(index, divisor)]), DELIVER, result)

    put(0, 8, 0, 2, state([1, 50, 6, 7, 8]))
    put(0, 8, 2, 2, state([1, 5, 6, 50, 8]))
    put(11, 8, -1, 2)
    put(11, 8, 3, 2)
    # what the value meets goes first
    put(6, 8, 3, 0)
    # and the step limit: the assignment's last visit is the eighth
    y = desk({"n": "Int", "a": array("Int", 3), "m": "Int"}, reacting=sets, data=["Int", "Int"], limit=7)
    put(10, 7, 3, 2)
    y = desk({"n": "Int", "a": array("Int", 3), "m": "Int"}, reacting=sets, data=["Int", "Int"], limit=8)
    put(11, 8, 3, 2)

    # Go(x) reads
    reads = [("set", "m", 1), ("set", "n", ("at", "a", "x"))]
    y = desk({"n": "Int", "a": array("Int", 3), "m": "Int"}, reacting=reads, data=["Int"])

    def read(answer, index, result=None):
        event(answer, 6, y, state([4, 5, 6, 7, 8], [go(index)]), DELIVER, result)

    read(0, 0, state([5, 5, 6, 7, 1]))
    read(0, 2, state([7, 5, 6, 7, 1]))
    read(11, -1)
    read(11, 3)

    # a refused telegram still waits and is refused again, until it is taken as a disturbed one
    sends = ("send", "Log", "log", "Go", ("at", "a", "x"))
    y = desk({"a": array("Int", 64)}, ("put", "a", 63, 5), sends, data=["Int"])
    events, listing = [], ["start 0 3"]
    for index in (64, -1, 65536, 2147483647, -2147483648):
        events += [[1, *go(index), 0, 0, 0], DELIVER, DELIVER, CORRUPT]
        listing += ["0 0", "11 5", "11 5", "0 1"]
    for index, element in (63, 5), (0, 0):
        events += [[1, *go(index), 0, 0, 0], DELIVER, [2, 2, 0, 0, 0, 0, 0, 0, 0]]
        listing += ["0 0", "0 5", "0 0 to 0 0 0 %d 0 0 0" % element]
    run(y, events, listing[:1] + ["%d %s" % line for line in enumerate(listing[1:], 1)])


def played_by_type():
    """The last index of each other kind: Go(x) with x the index, whose cell is assigned and read back."""
    for over, count in ("Bool", 2), ("Component", 3), ("Side", 2):
        does = [("put", "a", "x", "fast"), ("set", "l", ("at", "a", "x"))]
        y = desk({"a": array("Lamp", over), "l": "Lamp"}, reacting=does, data=[over])
        old = state([1] * count + [0], [go(count - 1)])
        event(0, 7, y, old, DELIVER, state([1] * (count - 1) + [2, 2]))


def valid_states():
    """A slice without clocks leaves a state as it is; with one bad cell anywhere in an array it isn't of the sheet."""
    y = desk({"l": array("Lamp", 2), "b": array("Bool", 3), "c": array("Component", "Bool"), "p": array("Port", 1),
              "n": array("Int", 2)})
    good = [2, 0, 1, 0, 1, 2, 0, 2, -2147483648, 2147483647]
    event(0, 0, y, state(good), SLICE, state(good))
    for at, value in (1, 3), (3, 2), (4, -1), (6, 3), (7, 3):
        event(3, 0, y, state(good[:at] + [value] + good[at + 1:]), SLICE)
    # words behind the value, in the middle and at the end of an array
    for at in (3, 9):
        event(3, 0, y, state(good[:at] + [[good[at], 0, 0, 0, 0, 0, 0, 1]] + good[at + 1:]), SLICE)
    # as long as if each variable had one cell: both states, only the result
    event(3, 0, y, state([2, 0, 1, 2, 7]), SLICE)
    event(3, 0, y, state(good), SLICE, length=places(5))
    # a state that isn't of the sheet goes before an event that is malformed
    event(3, 0, y, state(good[:9] + [[1, 1]]), SLICE[:8])


def slices():
    """Clocks behind arrays: each cell of an array counts before them, in the element before too."""
    y = desk({"a": array("Int", 2), "t": "Timer", "b": array("Bool", "Port"), "o": "Timeout", "c": "Cycler"},
             elements=("E1", "E2"))
    first = [1, 1, [1, 6], 1, 0, 1, [1, 1, 5, 1], [1, 0, 3, 1]]
    second = [7, 1, 0, 1, 1, 1, [1, 2, 5, 1], [1, 2, 3, 1]]
    result = [1, 1, [1, 7], 1, 0, 1, 0, [1, 2, 3, 1], 7, 1, 0, 1, 1, 1, [1, 1, 5, 1], [1, 1, 3, 1]]
    tick = [2, 2, -1, 1]
    event(0, 0, y, state(first + second), SLICE, state(result, [tick, tick]))
    # a clock's words in the array's last cell
    event(3, 0, y, state([1, [1, 6], 1] + first[3:] + second), SLICE)


def main():
    write(__doc__, checked_indices, checked_elements, checked_declarations, checked_operators, checked_cells,
          started, played, played_by_type, valid_states, slices)


if __name__ == "__main__":
    main()
