#!/usr/bin/env python3
"""Writes net.csv and log.csv for a replay whose rows are all found, after searches of some length.

The net has stages. A hub opens a stage with some of the stage's tasks, which come in any order, and
the hub behind it closes the stage; the start is the first hub and the end the last. A hub's sides
have every selection of a stage's tasks. The right one is not the first that is possible, and a
wrong one is often seen to be wrong only at the end of the trace, so that the search has to go back.
Seed and rows decide every byte.
"""

import itertools

import tables

STAGES = 5
TASKS_OF_A_STAGE = 3

# Activities ascend along the trace: a hub, the tasks of the stage that it opens, the next hub.
HUBS = range(tables.START, STAGES * (TASKS_OF_A_STAGE + 1) + 1, TASKS_OF_A_STAGE + 1)
END = HUBS[-1]


def stages():
    """Each stage's tasks, with the hub before them and the hub behind them."""
    for before, behind in zip(HUBS, HUBS[1:]):
        yield before, range(before + 1, behind), behind


def make_net(_rng):
    net = {}
    for before, tasks, behind in stages():
        sizes = range(1, len(tasks) + 1)
        selections = [chosen for size in sizes for chosen in itertools.combinations(tasks, size)]
        net["out", before] = net["in", behind] = selections
        for task in tasks:
            net["in", task] = [(before,)]
            net["out", task] = [(behind,)]
    return net


def make_traces(rng, _net, count):
    for _ in range(count):
        trace = [tables.START]
        for _before, tasks, behind in stages():
            trace += rng.sample(tasks, rng.randint(1, len(tasks)))
            trace.append(behind)
        yield trace


if __name__ == "__main__":
    tables.main(__doc__, END, make_net, make_traces, rows=1_000)
