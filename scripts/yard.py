#!/usr/bin/env python3
"""Writes a small yard and a run on it.

  python3 scripts/yard.py > yard.in              an input of play: the sheet's length, the sheet, the events
  python3 scripts/yard.py --sheet > yard.sheet   the sheet's bytes only
  python3 scripts/yard.py --call > yard.call     the run as a call of conformance: kind 3, the sheet, number of events

docs/YARD.md tells what the yard has and what happens in the run. The first half of this file turns names and nested
tuples into records; the yard and its run are the second half.
"""
import struct
from collections import namedtuple

import usage

# What stands for a node: True, False or a number; a name (variable, parameter, member, component, port, self, skip); a
# list of statements in a row; or a tuple that begins with one of these words or of those in `record`.
OPERANDS_ONLY = {"not": 8, "and": 9, "=": 10, "<": 11, "+": 12, "-": 13, "*": 14, "div": 15, "mod": 16,
                 "if": 41, "while": 42}
CLOCK_ONLY = {"active": 17, "value": 18, "start": 38, "stop": 39}
ARMING = {"after": 36, "every": 37}  # a Timeout, a Cycler
ELEMENT = {"at": 19, "put": 44}  # of an array: read, assign
SECOND_RECORD = 65535  # f0 of an element's second binding record, with the constants from the eighth on

Body = namedtuple("Body", "role do port name parameters locals", defaults=[None, None, (), {}])
array = namedtuple("array", "element over")  # type of a variable: over a type, or over a number of places


def initial(do):
    return Body(0, do)


def panic(do):
    return Body(1, do)


def on(port, name, parameters, do):
    """Reaction to an external telegram; the name of the telegram gives its parameters their types."""
    return Body(2, do, port, name, parameters)


def on_inner(name, parameters, do):
    """Reaction to an internal telegram."""
    return Body(3, do, None, name, parameters)


def procedure(name, parameters, local, do):
    return Body(4, do, None, name, parameters, local)


class Sheet:
    """The eight sections, filled as things are declared. A name is declared before it is used."""

    def __init__(self, external, elements, ports):
        self.components, self.ports, self.external = external + elements, ports, len(external)
        self.types = {"Bool": 0, "Int": 1, "Component": 2, "Port": 3, "Timer": 4, "Timeout": 5, "Cycler": 6}
        self.members, self.names, self.charts, self.procedures, self.bound = {}, [], [], {}, 0
        self.sections = [[[len(self.components), self.external, len(ports)]], [], [], [], [], [], [], []]

    def enumerated(self, name, members, default):
        k = len(self.sections[1])
        self.types[name] = 8 + k
        self.members.update({member: (k, i) for i, member in enumerate(members)})
        self.sections[1].append([len(members), members.index(default)])

    def declared(self, types):
        """New declarations of these types, as first and count."""
        first = len(self.sections[2])
        self.sections[2] += [self.declaration(t) for t in types]
        return [first, len(self.sections[2]) - first]

    def declaration(self, t):
        if not isinstance(t, array):
            return [self.types[t]]
        if isinstance(t.over, int):
            return [self.types[t.element], 60000 + t.over]
        # 0 stands for a plain variable, so that Bool has 1 as an index
        return [self.types[t.element], self.types[t.over] or 1]

    def telegram(self, name, *types, internal=False):
        self.names.append(name)
        self.sections[3].append(self.declared(types) + [int(internal)])

    def chart(self, name, parameters, variables, bodies):
        self.charts.append(name)
        self.procedures = {b.name: i for i, b in enumerate(bodies) if b.role == 4}
        first = len(self.sections[5])
        own = {n: (place, i) for place, table in enumerate((parameters, variables)) for i, n in enumerate(table)}
        for b in bodies:
            scope = dict(own, **{n: (2, i) for i, n in enumerate([*b.parameters, *b.locals])})
            port = self.ports.index(b.port) if b.role == 2 else 0
            number = self.names.index(b.name) if b.role in (2, 3) else 0
            taken = self.sections[3][number][:2] if b.role in (2, 3) else self.declared(dict(b.parameters).values())
            local = self.declared(b.locals.values())
            self.sections[5].append([b.role, port, number, *taken, *local, self.node(b.do, scope)])
        ranges = self.declared(parameters.values()) + self.declared(variables.values())
        self.sections[4].append(ranges + [first, len(bodies)])

    def bind(self, element, chart, *constants):
        assert self.components.index(element) == self.external + self.bound, "elements are bound in order"
        self.bound += 1
        nodes = [self.node(c, {}) for c in constants]
        self.sections[7].append([self.charts.index(chart)] + nodes[:7])
        if nodes[7:]:
            self.sections[7].append([SECOND_RECORD] + nodes[7:])

    def node(self, x, scope):
        """Adds the nodes of an expression or statement, operands first, and gives the number of its own."""
        record = self.record(x, scope)
        self.sections[6].append(record)
        return len(self.sections[6]) - 1

    def record(self, x, scope):
        def nodes(parts):
            return [self.node(part, scope) for part in parts]

        if isinstance(x, list):
            return [43, *nodes([x[0], x[1:]])] if len(x) > 1 else self.record(x[0], scope)
        if isinstance(x, bool):
            return [1, int(x)]
        if isinstance(x, int):
            return [2, x & 0xFFFF, x >> 16 & 0xFFFF]
        if isinstance(x, str):
            if x in scope:
                return [7, *scope[x]]
            if x in self.members:
                return [3, *self.members[x]]
            if x in self.components:
                return [4, self.components.index(x)]
            if x in self.ports:
                return [5, self.ports.index(x)]
            return {"self": [6], "skip": [32]}[x]
        word, *rest = x
        if word in OPERANDS_ONLY:
            return [OPERANDS_ONLY[word], *nodes(rest)]
        if word in CLOCK_ONLY:
            return [CLOCK_ONLY[word], scope[rest[0]][1]]
        if word in ELEMENT:  # array, index, and for put the value
            return [ELEMENT[word], scope[rest[0]][1], *nodes(rest[1:])]
        if word == "set":  # variable, expression
            return [33, *scope[rest[0]], *nodes(rest[1:])]
        if word == "send":  # component, port, name, data
            return [34, *nodes(rest[:2]), self.names.index(rest[2]), *nodes(rest[3:])]
        if word == "tell":  # itself: name, data
            return [35, 0, 0, self.names.index(rest[0]), *nodes(rest[1:])]
        if word in ARMING:  # clock, period, name, data
            return [ARMING[word], scope[rest[0]][1], *nodes(rest[1:2]), self.names.index(rest[2]), *nodes(rest[3:])]
        if word == "call":  # procedure, data
            return [40, self.procedures[rest[0]], 0, 0, *nodes(rest[1:])]
        raise ValueError(word)

    def bytes(self):
        parts = [b"".join(struct.pack("<8H", *r, *[0] * (8 - len(r))) for r in section) for section in self.sections]
        directory, at = [], 32
        for part in parts:
            directory += [at, len(part)]
            at += len(part)
        return struct.pack("<16H", *directory) + b"".join(parts)

    # Events: kind, sender, receiver, port, name, four data.

    def event(self, kind, sender="Log", receiver="Log", port="log", name=None, *data):
        words = [kind, self.components.index(sender), self.components.index(receiver), self.ports.index(port)]
        words.append(self.names.index(name) if name else 0)
        words += [self.members[d][1] if d in self.members else int(d) for d in data]
        return struct.pack("<9i", *words, *[0] * (9 - len(words)))

    def outside(self, sender, receiver, port, name, *data):
        return self.event(1, sender, receiver, port, name, *data)

    def deliver(self, sender, receiver):
        return self.event(2, sender, receiver)

    def corrupt(self, sender, receiver):
        return self.event(3, sender, receiver)

    def inner(self, element):
        return self.event(4, receiver=element)

    def slice(self):
        return self.event(5)


def mill_lane():
    """Two signals lead over one point into one section, in which Mill Lane crosses the line and a gang is at work."""
    y = Sheet(external=["Log", "Inf"], elements=["S1", "S2", "T1", "P1", "X1", "W1"], ports=["log", "inf", "track"])

    y.enumerated("Aspect", ["stop", "caution", "clear"], default="stop")
    y.enumerated("Position", ["straight", "branch", "unknown"], default="unknown")
    y.enumerated("Use", ["free", "reserved", "occupied"], default="free")

    y.telegram("Route")                           # Log to signal: clear for a train
    y.telegram("Claim", "Component", "Position")  # signal to section: reserve for this signal, point to lie so
    y.telegram("Set", "Position")                 # section to point
    y.telegram("Close")                           # point to crossing
    y.telegram("Safe")                            # crossing to section
    y.telegram("Proceed")                         # section to signal
    y.telegram("Passed")                          # section to signal: the train is past it
    y.telegram("Open")                            # section to crossing
    y.telegram("Show", "Aspect")                  # to Inf: lamps of a signal
    y.telegram("Throw", "Position")               # to Inf: motor of the point
    y.telegram("Flash")                           # to Inf: road lamps, one flash
    y.telegram("Barrier", "Int", "Bool")          # to Inf: barrier with this number, down or up
    y.telegram("Lies", "Position")                # from Inf: where the point lies
    y.telegram("Lowered")                         # from Inf: all barriers are down
    y.telegram("Train", "Bool")                   # from Inf: a train stands in the section, or none
    y.telegram("Refused")                         # section to Log: not free
    y.telegram("Closed", "Int")                   # crossing to Log: for so many seconds
    y.telegram("Free", internal=True)             # section: the release delay is over
    y.telegram("Blink", internal=True)            # crossing: time for a flash
    y.telegram("Lower", internal=True)            # crossing: the road was warned long enough
    y.telegram("Report", "Component", "Bool")     # signal or section to warning device: who, danger or none
    y.telegram("Warn", "Bool")                    # to Inf: horn and lamps at the work site, on or off
    y.telegram("Ask", "Int")                      # Log to warning device: who stands at this place of the ring
    y.telegram("Told", "Component")               # warning device to Log
    y.telegram("Quiet")                           # Log to warning device: it was looked after

    y.chart("signal", {"section": "Component", "lie": "Position", "best": "Aspect", "device": "Component"},
            {"aspect": "Aspect"}, [
        initial("skip"),
        panic(("call", "show", "stop")),
        on("log", "Route", [], ("send", "section", "track", "Claim", "self", "lie")),
        on("track", "Proceed", [], ("call", "show", "best")),
        on("track", "Passed", [], ("call", "show", "stop")),
        procedure("show", {"shown": "Aspect"}, {}, [
            ("set", "aspect", "shown"),
            ("send", "Inf", "inf", "Show", "shown"),
            ("send", "device", "track", "Report", "self", ("not", ("=", "shown", "stop")))]),
    ])

    y.chart("section", {"point": "Component", "crossing": "Component", "delay": "Int", "device": "Component"},
            {"use": "Use", "signal": "Component", "release": "Timeout"}, [
        initial("skip"),
        panic(("call", "occupy")),
        on("track", "Claim", ["asker", "lie"],
            ("if", ("=", "use", "free"), [
                ("set", "use", "reserved"),
                ("set", "signal", "asker"),
                ("send", "point", "track", "Set", "lie")],
             ("send", "Log", "log", "Refused"))),
        on("track", "Safe", [],
            ("if", ("=", "use", "reserved"), ("send", "signal", "track", "Proceed"), "skip")),
        on("inf", "Train", ["here"],
            ("if", "here", [
                ("call", "occupy"),
                ("send", "signal", "track", "Passed")],
             ("if", ("=", "use", "occupied"), ("after", "release", "delay", "Free"), "skip"))),
        on_inner("Free", [], [
            ("set", "use", "free"),
            ("send", "crossing", "track", "Open"),
            ("send", "device", "track", "Report", "self", False)]),
        procedure("occupy", {}, {}, [
            ("set", "use", "occupied"),
            ("stop", "release"),
            ("send", "device", "track", "Report", "self", True)]),
    ])

    y.chart("point", {"crossing": "Component"}, {"lies": "Position", "wanted": "Position"}, [
        initial("skip"),
        panic(("set", "lies", "unknown")),
        on("track", "Set", ["lie"], [("set", "wanted", "lie"), ("call", "drive")]),
        on("inf", "Lies", ["now"], [("set", "lies", "now"), ("call", "drive")]),
        procedure("drive", {}, {},
            ("if", ("=", "lies", "wanted"),
             ("send", "crossing", "track", "Close"),
             ("send", "Inf", "inf", "Throw", "wanted"))),
    ])

    y.chart("crossing", {"section": "Component", "barriers": "Int", "warning": "Int"},
            {"shut": "Timer", "lamps": "Cycler", "warned": "Timeout"}, [
        initial("skip"),
        panic(("tell", "Lower")),
        on("track", "Close", [], [
            ("start", "shut"),
            ("every", "lamps", 2, "Blink"),
            ("after", "warned", "warning", "Lower")]),
        on_inner("Blink", [], ("send", "Inf", "inf", "Flash")),
        on_inner("Lower", [], ("call", "move", True)),
        on("inf", "Lowered", [],
            ("if", ("active", "shut"), ("send", "section", "track", "Safe"), "skip")),
        on("track", "Open", [], [
            ("stop", "lamps"),
            ("stop", "warned"),
            ("call", "move", False),
            ("send", "Log", "log", "Closed", ("*", ("value", "shut"), 20)),  # a slice is 20 seconds here
            ("stop", "shut")]),
        procedure("move", {"down": "Bool"}, {"n": "Int"},
            ("while", ("<", "n", "barriers"), [
                ("set", "n", ("+", "n", 1)),
                ("send", "Inf", "inf", "Barrier", "n", "down")])),
    ])

    y.chart("warning", {},
            {"danger": array("Bool", "Component"), "count": "Int", "ring": array("Component", 3), "next": "Int"}, [
        initial("skip"),
        panic(("call", "note", "self", True)),
        on("track", "Report", ["who", "there"], ("call", "note", "who", "there")),
        on("log", "Ask", ["place"], ("send", "Log", "log", "Told", ("at", "ring", "place"))),
        on("log", "Quiet", [], ("call", "note", "self", False)),
        # no expression goes through the components, so the dangers are counted as they come and go
        procedure("note", {"who": "Component", "there": "Bool"}, {},
            ("if", ("=", ("at", "danger", "who"), "there"), "skip", [
                ("put", "danger", "who", "there"),
                ("if", "there", [
                    ("if", ("=", "count", 0), ("send", "Inf", "inf", "Warn", True), "skip"),
                    ("set", "count", ("+", "count", 1)),
                    ("put", "ring", "next", "who"),
                    ("set", "next", ("mod", ("+", "next", 1), 3))],
                 [
                    ("set", "count", ("-", "count", 1)),
                    ("if", ("=", "count", 0), ("send", "Inf", "inf", "Warn", False), "skip")])])),
    ])

    y.bind("S1", "signal", "T1", "straight", "clear", "W1")
    y.bind("S2", "signal", "T1", "branch", "caution", "W1")
    y.bind("T1", "section", "P1", "X1", 2, "W1")
    y.bind("P1", "point", "X1")
    y.bind("X1", "crossing", "T1", 2, 1)
    y.bind("W1", "warning")
    return y


def run(y):
    """A train leaves over the branch."""
    return [
        # a route is requested; the point has to be thrown
        y.outside("Log", "S2", "log", "Route"),
        y.deliver("Log", "S2"),
        y.deliver("S2", "T1"),
        y.deliver("T1", "P1"),
        y.deliver("P1", "Inf"),
        y.outside("Inf", "P1", "inf", "Lies", "branch"),
        y.deliver("Inf", "P1"),
        # the crossing warns the road, then closes
        y.deliver("P1", "X1"),
        y.slice(),
        y.inner("X1"),
        y.inner("X1"),
        y.deliver("X1", "Inf"),
        y.deliver("X1", "Inf"),
        y.deliver("X1", "Inf"),
        y.outside("Inf", "X1", "inf", "Lowered"),
        y.deliver("Inf", "X1"),
        # the signal clears
        y.deliver("X1", "T1"),
        y.deliver("T1", "S2"),
        y.deliver("S2", "Inf"),
        # the gang is warned
        y.deliver("S2", "W1"),
        y.deliver("W1", "Inf"),
        # a second route is refused while the first stands
        y.outside("Log", "S1", "log", "Route"),
        y.deliver("Log", "S1"),
        y.deliver("S1", "T1"),
        y.deliver("T1", "Log"),
        # the train enters; the telegram to the signal is disturbed
        y.outside("Inf", "T1", "inf", "Train", True),
        y.deliver("Inf", "T1"),
        y.deliver("T1", "W1"),
        y.corrupt("T1", "S2"),
        y.deliver("S2", "Inf"),
        y.deliver("S2", "W1"),
        # the train leaves, after a report that is no report
        y.outside("Inf", "T1", "inf", "Train", 2),
        y.outside("Inf", "T1", "inf", "Train", False),
        y.deliver("Inf", "T1"),
        # the section is released after its delay of two slices
        y.slice(),
        y.inner("T1"),
        y.slice(),
        y.inner("T1"),
        y.inner("X1"),
        # the crossing opens
        y.deliver("T1", "X1"),
        y.deliver("X1", "Inf"),
        y.deliver("X1", "Inf"),
        y.deliver("X1", "Inf"),
        y.deliver("X1", "Log"),
        # the gang may go back to work
        y.deliver("T1", "W1"),
        y.deliver("W1", "Inf"),
        # the dispatcher asks who reported, also at a place that the ring doesn't have
        y.outside("Log", "W1", "log", "Ask", 1),
        y.deliver("Log", "W1"),
        y.deliver("W1", "Log"),
        y.outside("Log", "W1", "log", "Ask", 3),
        y.deliver("Log", "W1"),
        # the question goes once more, disturbed: the device warns until it is looked after
        y.corrupt("Log", "W1"),
        y.deliver("W1", "Inf"),
        y.outside("Log", "W1", "log", "Quiet"),
        y.deliver("Log", "W1"),
        y.deliver("W1", "Inf"),
    ]


def main():
    asked = usage.arguments(__doc__, "", "--sheet", "--call")
    out = usage.binary(__doc__)
    y = mill_lane()
    sheet, events = y.bytes(), run(y)
    with_length = struct.pack("<I", len(sheet)) + sheet
    if asked == ["--sheet"]:
        out.write(sheet)
    elif asked == ["--call"]:
        out.write(struct.pack("<I", 3) + with_length + struct.pack("<I", len(events)) + b"".join(events))
    else:
        out.write(with_length + b"".join(events))


if __name__ == "__main__":
    main()
