"""Sequences and traces that several sections use, written as the words of a command."""

# The sequence of Fig. 4 of document 003, with a to e as 0 to 4.
FIG_4 = "0 0 2 1 1 6 1 2 12 2 2 8 2 2 8 3 6 8 3 12 16 4 8 0"


def words(numbers):
    return " ".join(map(str, numbers))


def mask(*activities):
    """The set of these activities."""
    return sum(1 << activity for activity in activities)


def repeated(part, times):
    return " ".join([part] * times)


def loop(positions):
    """A well-formed sequence of any length from 5 on, always with the same sets."""
    return f"0 0 2 1 1 2 {repeated('1 2 2', positions - 4)} 1 2 8 3 2 0"


def loop_trace(entries):
    """The trace of loop: follow makes the loop of as many positions from it."""
    return f"0 {repeated('1', entries - 2)} 3"


def loop_trials(entries):
    """The trials of a replay of loop_trace on the net of loop: 1 at the start and at the first 1,
    and 3 at each 1 behind it, two pairs that aren't possible and one that is. At the last of these
    the end then fails once, and a fourth pair and the end come to it."""
    return 1 + 1 + 3 * (entries - 4) + 6


def fillers(number, lowest=16):
    """So many sets to fill a side with, which no sequence has whose sets are below the lowest."""
    return range(lowest, lowest + number)
