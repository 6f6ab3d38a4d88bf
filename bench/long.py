#!/usr/bin/env python3
"""Writes net.csv and log.csv for a replay of the longest sessions: 96 positions, all of them found.

They are the sessions of `found.py`, with one more activity between the start and the first stage,
again and again until the session has 96 positions. So all of the going back is done where the
search is deepest. Seed and rows decide every byte.
"""

import found
import tables

POSITIONS = 96  # The most that a session has.

AGAIN = found.END + 1


def make_net(rng):
    net = found.make_net(rng)
    _, tasks, _ = next(found.stages())
    net["in", AGAIN] = [(tables.START,), (AGAIN,)]
    net["out", AGAIN] = [*net["out", tables.START], (AGAIN,)]
    net["out", tables.START] = [(AGAIN,)]
    for task in tasks:
        net["in", task] = [(AGAIN,)]
    return net


def make_traces(rng, net, count):
    for start, *rest in found.make_traces(rng, net, count):
        yield [start, *[AGAIN] * (POSITIONS - 1 - len(rest)), *rest]


if __name__ == "__main__":
    tables.main(__doc__, found.END, make_net, make_traces, rows=220)
