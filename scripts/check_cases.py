#!/usr/bin/env python3
"""Writes calls of check on sheets of extreme shape and on nodes used once, never and twice, and the answers.

  python3 scripts/check_cases.py ANSWERS > CALLS

A call is three parts: kind 0 and the sheet's length as 32-bit little-endian numbers, and the sheet.
"""
import struct

import usage

SKIP = [32]


def sheet(sections):
    """The bytes of eight sections, each a list of records given by their first fields."""
    blobs = [b"".join(struct.pack("<8H", *(r + [0] * (8 - len(r)))) for r in s) for s in sections]
    at, directory = 32, []
    for blob in blobs:
        directory += [at % 65536, len(blob) % 65536]
        at += len(blob)
    return struct.pack("<16H", *directory) + b"".join(blobs)


def yard(nodes, root, declarations=(), variables=0, bodies=(), names=(), ports=2):
    """One bound element; its initial body has the root, its panic body is the last node, a skip."""
    n = len(nodes)
    own = [[0, 0, 0, 0, 0, 0, 0, root], [1, 0, 0, 0, 0, 0, 0, n]] + list(bodies)
    return sheet([
        [[3, 2, ports]], [], [list(d) for d in declarations], [list(x) for x in names],
        [[0, 0, 0, variables, 0, len(own)]], own, nodes + [SKIP], [[0]],
    ])


def nots(depth):
    """An assignment whose tree has that many levels: a literal under nots."""
    nodes = [[1, 1]] + [[8, i] for i in range(depth - 2)]
    return nodes + [[33, 1, 0, len(nodes) - 1]]


def balanced(leaves):
    """A tree of sequences over skips, operands before the node that uses them."""
    nodes = []

    def grow(count):
        if count == 1:
            nodes.append(SKIP)
        else:
            left = grow(count // 2)
            right = grow(count - count // 2)
            nodes.append([43, left, right])
        return len(nodes) - 1

    grow(leaves)
    return nodes


def two_charts(more=(), changed=(), constants=()):
    """The call has an operand in the second chart, none in the first. More nodes; nodes and roots that are changed; the
    constants of Int parameters of the second chart."""
    nodes = [SKIP, SKIP, [2, 1], [40, 2, 0, 0, 2], SKIP, [43, 4, 3], SKIP, SKIP] + [list(n) for n in more]
    roots = [0, 1, 5, 6, 7]
    for kind, number, value in changed:
        {"node": nodes, "root": roots}[kind][number] = value
    return sheet([
        [[3, 2, 2]], [], [[1], [1]], [],
        [[0, 0, 0, 0, 0, 2], [0, len(constants), 0, 0, 2, 3]],
        [[0, 0, 0, 0, 0, 0, 0, roots[0]], [1, 0, 0, 0, 0, 0, 0, roots[1]], [0, 0, 0, 0, 0, 0, 0, roots[2]],
         [1, 0, 0, 0, 0, 0, 0, roots[3]], [4, 0, 0, 0, 1, 0, 0, roots[4]]],
        nodes, [[1] + list(constants)],
    ])


def uses():
    """Nodes used once, never and twice, as operand, root and constant."""
    yield two_charts(), 0
    yield two_charts([[2, 7], [2, 7]], (), [8, 9]), 0
    # nodes that hang in a body and below a node that nothing uses, above or below the body's root
    yield two_charts([[43, 4, 3]]), 1
    yield two_charts([[43, 4, 3]], [("root", 2, 8), ("node", 5, [43, 4, 3])]), 1
    # the call is a root of the first chart too, where it has no operand; of that chart only, its operand being unused
    yield two_charts((), [("root", 0, 3), ("node", 0, SKIP)]), 1
    yield two_charts([[40, 0]], [("root", 0, 3), ("node", 5, [43, 4, 0])]), 1
    # one constant for two parameters; a constant that is a root, an operand, or used by none
    yield two_charts([[2, 7]], (), [8, 8]), 1
    yield two_charts((), (), [7]), 1
    yield two_charts((), (), [2]), 1
    yield two_charts([[2, 7], [2, 7]], (), [8]), 1
    # one root for two bodies; nodes that are operands of themselves and of each other, which nothing else uses
    yield two_charts((), [("root", 3, 7)]), 1
    yield two_charts([[8, 8]]), 1
    yield two_charts([[43, 9, 9], [43, 8, 8]]), 1


def cases():
    yield b"", 1
    for size in (1, 31, 32, 48):
        yield bytes(size), 1
    for depth in (2, 63, 64, 65, 66):
        nodes = nots(depth)
        yield yard(nodes, len(nodes) - 1, [[0]], 1), 0 if depth <= 64 else 1
    # a node used twice, and a node that nothing uses
    yield yard([SKIP, [43, 0, 0]], 1), 1
    yield yard([SKIP, SKIP, [43, 0, 1], SKIP], 2), 1
    # as large as a sheet can be: 65,520 bytes, in one tree
    nodes = balanced(2044)
    largest = yard(nodes, len(nodes) - 1)
    assert len(largest) == 65520
    yield largest, 0
    yield largest + bytes(16), 1
    # each node uses the one before it twice; a chain of nots; a chain of sequences
    twice = [SKIP] + [[43, i, i] for i in range(4000)]
    yield yard(twice, len(twice) - 1), 1
    chain = nots(4000)
    yield yard(chain, len(chain) - 1, [[0]], 1), 1
    comb = [SKIP]
    for _ in range(2000):
        comb += [SKIP, [43, len(comb) - 1, len(comb)]]
    yield yard(comb, len(comb) - 1), 1
    # some 2,000 reactions in one chart, all different, and with one pair alike
    reactions = [[2, i % 64, i // 64, 0, 0, 0, 0, i] for i in range(1900)]
    roots = [SKIP] * 1901
    for same in (False, True):
        if same:
            reactions[1899] = reactions[0][:7] + [1899]
        yield yard(roots, 1900, (), 0, reactions, [[0, 0, 0]] * 30, 64), 2 if same else 0
    yield from uses()


def main():
    calls, answers = usage.calls_and_answers(__doc__)
    with answers:
        for blob, answer in cases():
            calls.write(struct.pack("<II", 0, len(blob)) + blob)
            answers.write("%d\n" % answer)


if __name__ == "__main__":
    main()
