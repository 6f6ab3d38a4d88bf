#!/usr/bin/env python3
"""Writes net.csv and log.csv for a replay on a full net: 32 activities, 16 sets on each side.

Only the start's inputs and the end's outputs, which hold just the empty set, have fewer. A random
trace would be lost in so wide a net after a few positions. So each trace is a walk: the next
activity is drawn from those that have a possible binding after the bindings drawn before.
Obligations may be left at the end. Seed and rows decide every byte.
"""

import collections

import tables

END = 31
MIDDLE = range(tables.START + 1, END)
SETS_OF_A_SIDE = 16
# Positions between start and end. As every name is answered hardly any walk ends early, so they are
# few: else no search would end within the budget.
SHORTEST, LONGEST = 1, 12


def make_net(rng):
    return tables.dense_net(rng, END, SETS_OF_A_SIDE, together=3)


def make_traces(rng, net, count):
    for _ in range(count):
        yield [tables.START, *walk(rng, net, rng.randint(SHORTEST, LONGEST)), END]


def walk(rng, net, length):
    """As many activities, each possible after those before it, or fewer if none is possible."""
    due = collections.Counter((tables.START, q) for q in rng.choice(net["out", tables.START]))
    for _ in range(length):
        ways = [(a, x) for a in MIDDLE for x in net["in", a] if all(due[p, a] for p in x)]
        if not ways:
            return
        activity, taken = rng.choice(ways)
        due.subtract((p, activity) for p in taken)
        due.update((activity, q) for q in rng.choice(net["out", activity]))
        yield activity


if __name__ == "__main__":
    tables.main(__doc__, END, make_net, make_traces, rows=600)
