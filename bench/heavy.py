#!/usr/bin/env python3
"""Writes net.csv and log.csv for a heavy replay: most rows use up the budget of 1,000,000 trials.

The net is dense: every activity has many sets on both sides, so that the search has many ways to go
on at each position. The traces are long and random, so that hardly any of these ways leaves nothing
due at the end, and the search goes back again and again. Seed and rows decide every byte.
"""

import tables

END = 11
MIDDLE = range(tables.START + 1, END)
SETS_OF_A_SIDE = 12
SHORTEST, LONGEST = 20, 40  # Positions between start and end.


def make_net(rng):
    return tables.dense_net(rng, END, SETS_OF_A_SIDE, together=1)


def make_traces(rng, _net, count):
    for _ in range(count):
        length = rng.randint(SHORTEST, LONGEST)
        yield [tables.START, *rng.choices(MIDDLE, k=length), END]


if __name__ == "__main__":
    tables.main(__doc__, END, make_net, make_traces, rows=700)
