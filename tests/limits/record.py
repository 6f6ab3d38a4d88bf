"""The words of a net record, numbered as docs/SCRIPTS.md numbers them."""

from limits import ACTIVITIES, SETS

START = 0
END = 1


def in_length(activity):
    """The word that has the length of the activity's input list."""
    return 2 + activity


def out_length(activity):
    return in_length(ACTIVITIES + activity)


def in_place(activity, place=0):
    """The word at a place of the activity's input list, whose places count from 0."""
    return in_length(2 * ACTIVITIES) + SETS * activity + place


def out_place(activity, place=0):
    return in_place(ACTIVITIES + activity, place)


def in_count(activity, place=0):
    """The word that has the count of uses of the set at a place of the activity's input list."""
    return in_place(2 * ACTIVITIES + activity, place)


def out_count(activity, place=0):
    return in_count(ACTIVITIES + activity, place)


WORDS = out_count(ACTIVITIES)


def record(start, end, inputs, outputs, counts=()):
    """All words of the orderly record with these lists, and with the two empty sets.

    The lists are given by activity, each ascending. The counts are pairs of a word and what it
    holds; all others are 0.
    """
    words = [0] * WORDS
    words[START] = start
    words[END] = end
    words[in_length(start)] = 1
    words[out_length(end)] = 1
    for activity, sets in inputs.items():
        words[in_length(activity)] = len(sets)
        words[in_place(activity) : in_place(activity, len(sets))] = sets
    for activity, sets in outputs.items():
        words[out_length(activity)] = len(sets)
        words[out_place(activity) : out_place(activity, len(sets))] = sets
    for word, count in counts:
        words[word] = count
    return words


def fresh_record(start, end):
    return record(start, end, inputs={}, outputs={})
