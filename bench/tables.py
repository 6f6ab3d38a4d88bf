"""What the generators of bench/ share: the lines of nets and logs, and files within the limits.

A net is a dictionary: the sets of each side that isn't fixed, by the side's word and the activity.
The start is always activity 0.
"""

import argparse
import pathlib
import random

START = 0

# The sizes that a dense net's sets are drawn from, each as likely as the next. Outputs are larger
# than inputs and the start's are largest, so that most positions of a trace have something due.
INPUT_SIZES = (1, 1, 2)
OUTPUT_SIZES = (1, 2, 3)
LARGE_SIZES = (6, 7, 8)

MOST_SESSIONS = 1_000_000
BYTE_LIMIT = 65_536


def side(rng, first, pool, sizes, count):
    """The sets of one side: the first ones, and others drawn from the pool."""
    sets = set(first)
    while len(sets) < count:
        sets.add(tuple(sorted(rng.sample(pool, rng.choice(sizes)))))
    return sorted(sets)


def dense_net(rng, end, count, together):
    """A net with this many sets on each side, all activities between start and end.

    It passes its check: each activity has an arc from the start and one to the end. For that the
    start's outputs and the end's inputs have all activities, so many together in a set. Names that
    aren't answered are taken out, and sets of those that are fill the sides up again.
    """
    middle = list(range(START + 1, end))
    each = [tuple(middle[at : at + together]) for at in range(0, len(middle), together)]
    # The first sets of each side, the pool of the others, and their sizes.
    sides = {("out", START): (each, middle, LARGE_SIZES)}
    for activity in middle:
        sides["in", activity] = ([(START,)], [START] + middle, INPUT_SIZES)
        sides["out", activity] = ([(end,)], middle + [end], OUTPUT_SIZES)
    sides["in", end] = (each, middle, LARGE_SIZES)
    net = {name: side(rng, *drawn, count) for name, drawn in sides.items()}
    partners = answered(net)
    return {
        name: side(rng, only(partners[name], net[name]), sorted(partners[name]), sizes, count)
        for name, (_first, _pool, sizes) in sides.items()
    }


def answered(net):
    """The names of each side that are answered."""
    names = {name: set().union(*sets) for name, sets in net.items()}
    other = {"in": "out", "out": "in"}
    return {
        (word, activity): {k for k in named if activity in names.get((other[word], k), ())}
        for (word, activity), named in names.items()
    }


def only(partners, sets):
    """The sets with these members only, without the empty set."""
    return {tuple(k for k in members if k in partners) for members in sets} - {()}


def net_lines(end, net):
    yield "side,activity,members"
    yield f"start,{START},"
    yield f"end,{end},"
    for (word, activity), sets in net.items():
        for members in sets:
            yield f"{word},{activity},{spaced(members)}"


def log_lines(rng, traces):
    yield "sessions,trace"
    for trace in traces:
        yield f"{rng.randint(1, MOST_SESSIONS)},{spaced(trace)}"


def spaced(numbers):
    return " ".join(map(str, numbers))


def write(path, lines):
    content = "".join(line + "\r\n" for line in lines).encode("ascii")
    if len(content) > BYTE_LIMIT:
        raise SystemExit(f"{path.name} would have {len(content)} bytes, too many for the program")
    path.write_bytes(content)


def main(description, end, make_net, make_traces, rows):
    """The program of a generator: net.csv and log.csv of a net and of the traces made on it."""
    parser = argparse.ArgumentParser(description=description.splitlines()[0])
    parser.add_argument("folder", type=pathlib.Path, help="where the two files go")
    parser.add_argument("seed", type=int, nargs="?", default=1)
    parser.add_argument("rows", type=int, nargs="?", default=rows)
    arguments = parser.parse_args()
    rng = random.Random(arguments.seed)
    net = make_net(rng)
    write(arguments.folder / "net.csv", net_lines(end, net))
    write(arguments.folder / "log.csv", log_lines(rng, make_traces(rng, net, arguments.rows)))
