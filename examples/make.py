#!/usr/bin/env python3
"""Writes g.yard and weighbridge.yard beside this file. README.md explains what they say."""
from pathlib import Path


def record(kind, body):
    return len(body).to_bytes(2, "little") + bytes([kind, 0]) + body


def row(columns):
    """16 bytes of a relation: one bit for each chart vertex that is related."""
    return sum(1 << column for column in columns).to_bytes(16, "little")


def yard(nodes, vertices, start, transitions, related):
    """nodes: (kind, action, left, right). transitions: (from, action, to, label). related: chart vertices, by row."""
    count = len(transitions).to_bytes(2, "little")
    return b"".join([
        record(1, b"".join(map(bytes, nodes))),
        record(2, bytes([vertices, start]) + count + b"".join(bytes([u, a, v, 0]) for u, a, v, _ in transitions)),
        record(3, bytes(label for _, _, _, label in transitions)),
        record(4, b"".join(row(related.get(u, [])) for u in range(len(nodes) + 1))),
    ])


def leaf(action):
    return (1, action, 0, 0)


def plus(left, right):
    return (2, 0, left, right)


def then(left, right):
    return (3, 0, left, right)


def star(left, right):
    return (4, 0, left, right)


G = yard([leaf(1), leaf(2), star(0, 1)], 2, 1, [(1, 1, 1, 1), (1, 2, 0, 0)], {0: [0], 3: [1]})

NORTH, SOUTH, WEIGH, STEADY, TICKET, OFF, CLOSE = range(1, 8)
FREE, WEIGHING, PRINTING, LEAVING = range(1, 5)

WEIGHBRIDGE = yard(
    nodes=[
        leaf(NORTH), leaf(WEIGH), leaf(STEADY), star(1, 2), leaf(TICKET), then(3, 4), then(0, 5),
        leaf(SOUTH), leaf(WEIGH), leaf(STEADY), star(8, 9), leaf(TICKET), then(10, 11), then(7, 12),
        plus(6, 13), leaf(OFF), then(14, 15), leaf(CLOSE), star(16, 17),
    ],
    vertices=5,
    start=FREE,
    transitions=[
        (FREE, NORTH, WEIGHING, 2),
        (FREE, SOUTH, WEIGHING, 2),
        (FREE, CLOSE, 0, 0),
        (WEIGHING, WEIGH, WEIGHING, 1),
        (WEIGHING, STEADY, PRINTING, 0),
        (PRINTING, TICKET, LEAVING, 0),
        (LEAVING, OFF, FREE, 0),
    ],
    related={
        0: [0], 19: [FREE], 4: [WEIGHING], 6: [WEIGHING], 11: [WEIGHING], 13: [WEIGHING],
        5: [PRINTING], 12: [PRINTING], 16: [LEAVING],
    },
)

if __name__ == "__main__":
    here = Path(__file__).parent
    (here / "g.yard").write_bytes(G)
    (here / "weighbridge.yard").write_bytes(WEIGHBRIDGE)
