"""Section 4: records that break one rule of an orderly record each, and orderly ones at the border.

Paper 01: start and end differ and are activities; a side has at most SETS sets, strictly ascending;
the start's input side and the end's output side hold just the empty set, and no other side holds
it; unused places are zero. 02, (viii): and so are the counts of unused places.
"""

from calls import OUT, f_at_the_top, put_new, read_f, same, same_sets
from limits import ACTIVITIES, ALL, BUFFER_BYTES, LAST, MAX_32, NO_ACTIVITY, SETS, USES
from record import (
    END, START, WORDS, in_count, in_length, in_place, out_count, out_length, out_place,
)
from script import note, ok, refused, say, section, shown, text
from wording import spelled

# The registers that hold the orderly nets from which the records here are made.
F = 1
FRESH = 3

HIGH_BIT = 1 << 31


def write():
    section(4, "Records that aren't orderly, each in one way, and orderly ones at the border.")
    note("Register 1 is F, register 3 the fresh net of 0 and 1. F has start 0, end 3, and on the "
         "input side of 3 the list 2, 4, 6.")
    read_f(F)
    ok(f"fresh {FRESH} 0 1")
    for change in START_AND_END:
        disorderly(*change)
    a_length_too_high()
    for change in LENGTHS + ORDER + UNUSED_PLACES + START_AND_END_SIDES + EMPTY_SETS + COUNTS:
        disorderly(*change)
    counts_of_every_side()
    every_call_refuses()
    full_sides()
    counts_of_used_places()
    made_by_hand()


def poke(changes):
    ok(*(f"poke 0 {word} {value}" for word, value in changes))


def disorderly(comment, net, *changes):
    """A copy of the net with these words changed isn't orderly."""
    note(comment)
    ok(f"copy 0 {net}")
    poke(changes)
    refused(2, 0, "check 0")


START_AND_END = (
    ("Start and end are equal, 0, and both its sides hold just the empty set; everything else is "
     "as it should be.",
     FRESH, (END, 0), (out_length(1), 0), (out_length(0), 1)),
    ("Start and end are equal in F, 3, by its start.", F, (START, 3)),
    ("Start and end are equal in F, 0, by its end.", F, (END, 0)),
    (f"The start is {NO_ACTIVITY}; the input side of 0 is empty, so that no other side holds the "
     "empty set.",
     FRESH, (START, NO_ACTIVITY), (in_length(0), 0)),
    (f"The start is {NO_ACTIVITY}, and nothing else is changed.", FRESH, (START, NO_ACTIVITY)),
    (f"The end is {NO_ACTIVITY}; the output side of 1 is empty.",
     FRESH, (END, NO_ACTIVITY), (out_length(1), 0)),
    (f"The end is {NO_ACTIVITY}, and nothing else is changed.", FRESH, (END, NO_ACTIVITY)),
    (f"The start is {NO_ACTIVITY + 1}, whose low five bits are those of 1.",
     F, (START, NO_ACTIVITY + 1)),
    (f"The start is {MAX_32}.", FRESH, (START, MAX_32), (in_length(0), 0)),
    (f"The end is {MAX_32}.", FRESH, (END, MAX_32), (out_length(1), 0)),
    ("The end is 256 + 3 in F.", F, (END, 256 + 3)),
    ("The start of F is made 1, whose input side holds 1 instead of the empty set, and the input "
     "side of 0 holds the empty set.",
     F, (START, 1)),
)


def a_length_too_high():
    # The sets are 1, 2 and so on; 16 is among them, which the last note needs.
    all_places = [(in_place(5, place), place + 1) for place in range(SETS)]
    disorderly(f"A length of {SETS + 1} on the input side of 5 with {spelled(SETS)} ascending sets "
               f"there: a list has at most {SETS} sets.",
               F, *all_places, (in_length(5), SETS + 1))

    note("The same with a set on the input side of 6 that would go on with the list.")
    poke([(in_length(6), 1), (in_place(6), SETS + 1)])
    refused(2, 0, "check 0")

    note(f"With the length {SETS} the record is orderly, and 5 is on no walk; the lowest activity "
         "on none is 4, which the set 16 names.")
    poke([(in_length(5), SETS)])
    refused(6, 4, "check 0")


LENGTHS = (
    (f"A length of {SETS + 1} on the output side of {LAST}, the last of the record, with nothing "
     "in its places.",
     F, (out_length(LAST), SETS + 1)),
    (f"A length of {SETS + 1} on the input side of {LAST}.", F, (in_length(LAST), SETS + 1)),
    (f"A length of {SETS + 1} on the start's input side.", F, (in_length(0), SETS + 1)),
    (f"A length of {SETS + 1} on the end's output side.", F, (out_length(3), SETS + 1)),
    (f"A length of {MAX_32} on the input side of 5.", F, (in_length(5), MAX_32)),
    (f"A length of {MAX_32} on the output side of {LAST}.", F, (out_length(LAST), MAX_32)),
    (f"A length of {MAX_32} on the start's input side.", F, (in_length(0), MAX_32)),
    (f"A length of {HIGH_BIT} on the output side of 1.", F, (out_length(1), HIGH_BIT)),
    ("A length of 256 + 1 on the output side of 1, which has one set.",
     F, (out_length(1), 256 + 1)),
)

ORDER = (
    ("A list not ascending: 2, 1, 6.", F, (in_place(3, 1), 1)),
    ("A list not ascending at its end: 2, 4, 3.", F, (in_place(3, 2), 3)),
    ("A list not ascending at its front: 5, 4, 6.", F, (in_place(3, 0), 5)),
    (f"A list not ascending, as masks have no sign: {HIGH_BIT}, 4, 6.",
     F, (in_place(3, 0), HIGH_BIT)),
    ("An equal pair: 2, 2, 6.", F, (in_place(3, 1), 2)),
    ("An equal pair at the end: 2, 4, 4.", F, (in_place(3, 2), 4)),
    ("A list of the output side of 0 not ascending: 4, 2, 6.",
     F, (out_place(0, 0), 4), (out_place(0, 1), 2)),
    ("An equal pair on the output side of 0: 2, 6, 6.", F, (out_place(0, 1), 6)),
)

UNUSED_PLACES = (
    ("A place right after the list of the input side of 3 isn't zero, though it would go on "
     "ascending.",
     F, (in_place(3, 3), 8)),
    ("A place right after the list of the output side of 0 isn't zero.", F, (out_place(0, 3), 8)),
    ("The list of the input side of 3 is cut to two sets and the third is left in its place.",
     F, (in_length(3), 2)),
    ("The length on the input side of 1 is 0 and its set is left.", F, (in_length(1), 0)),
    ("The last place of the input side of 3 isn't zero.", F, (in_place(3, SETS - 1), 1)),
    ("The last place of the output side of 0 isn't zero.", F, (out_place(0, SETS - 1), ALL)),
    ("The first place of a side without sets isn't zero, the input side of 9.",
     F, (in_place(9), 1)),
    (f"The last place of a side without sets isn't zero, the input side of {LAST}.",
     F, (in_place(LAST, SETS - 1), 1)),
    (f"The last place of all isn't zero, on the output side of {LAST}.",
     F, (out_place(LAST, SETS - 1), 1)),
    (f"The first place of the output side of {LAST} isn't zero.",
     F, (out_place(LAST), HIGH_BIT)),
    ("A place after the list on the start's input side isn't zero.", F, (in_place(0, 1), 1)),
    ("The last place of the start's input side isn't zero.", F, (in_place(0, SETS - 1), 1)),
    ("A place after the list on the end's output side isn't zero.", F, (out_place(3, 1), 1)),
    ("The last place of the end's output side isn't zero.", F, (out_place(3, SETS - 1), 1)),
)

START_AND_END_SIDES = (
    ("The start's input side is empty; it must hold just the empty set.", F, (in_length(0), 0)),
    ("The start's input side holds the set 2 and not the empty set.", F, (in_place(0), 2)),
    ("The start's input side holds the empty set and 2.",
     F, (in_length(0), 2), (in_place(0, 1), 2)),
    ("The start's input side holds 2 and 4.",
     F, (in_length(0), 2), (in_place(0, 0), 2), (in_place(0, 1), 4)),
    ("The end's output side is empty.", F, (out_length(3), 0)),
    ("The end's output side holds the set 2 and not the empty set.", F, (out_place(3), 2)),
    ("The end's output side holds the empty set and 2.",
     F, (out_length(3), 2), (out_place(3, 1), 2)),
    ("The end's output side holds 2 and 4.",
     F, (out_length(3), 2), (out_place(3, 0), 2), (out_place(3, 1), 4)),
)

EMPTY_SETS = (
    ("The empty set on the input side of 5: its length is 1 and the word is 0.",
     F, (in_length(5), 1)),
    ("The empty set on the output side of 5.", F, (out_length(5), 1)),
    ("The empty set on the start's output side, alone.", FRESH, (out_length(0), 1)),
    ("The empty set on the end's input side, alone.", FRESH, (in_length(1), 1)),
    (f"The empty set on the input side of {LAST}.", F, (in_length(LAST), 1)),
    (f"The empty set on the output side of {LAST}.", F, (out_length(LAST), 1)),
    ("The empty set first of two on the input side of 1.",
     F, (in_length(1), 2), (in_place(1, 0), 0), (in_place(1, 1), 1)),
    ("The empty set first of three on the output side of 0.", F, (out_place(0), 0)),
    ("Start and end are changed about in the fresh net of 0 and 1, so that both sides are wrong.",
     FRESH, (START, 1), (END, 0)),
)

COUNTS = (
    ("A count right after those of the three sets on the input side of 3.", F, (in_count(3, 3), 1)),
    ("A count right after those of the three sets on the output side of 0.",
     F, (out_count(0, 3), 1)),
    ("The last count of the input side of 3.", F, (in_count(3, SETS - 1), USES)),
    ("The last count of the output side of 0.", F, (out_count(0, SETS - 1), HIGH_BIT)),
    ("The first count of a side without sets, the input side of 9.", F, (in_count(9), 1)),
    ("The first count of a side without sets, the output side of 9.", F, (out_count(9), 1)),
    ("The second count of the start's input side; the first is the empty set's.",
     F, (in_count(0, 1), 1)),
    ("The second count of the end's output side; the first is the empty set's.",
     F, (out_count(3, 1), 1)),
    ("A count on the output side of 0 in the fresh net of 0 and 1, where only 1 has a set.",
     FRESH, (out_count(0), 1)),
    ("A count on the input side of 1 in the fresh net of 0 and 1, where only 0 has a set.",
     FRESH, (in_count(1), 1)),
    ("The list of the input side of 3 is cut to two sets, and the third's count is left.",
     F, (in_length(3), 2), (in_place(3, 2), 0), (in_count(3, 2), 1)),
    ("The set of the output side of 1 is taken away, and its count is left.",
     F, (out_length(1), 0), (out_place(1), 0), (out_count(1), 1)),
    ("The counts of the used places are no fault, but one behind them is.",
     F, (in_count(3, 0), 5), (in_count(3, 1), 6), (in_count(3, 2), 7), (in_count(3, 3), 8)),
)


def counts_of_every_side():
    note("The first and the last unused count of every side, of which each alone is a fault. F has "
         "three sets on the output side of 0 and on the input side of 3, one on the other sides "
         "of 0 to 3, and none on those of the others.")
    ok(f"copy 0 {F}")
    for activity in range(ACTIVITIES):
        for count, three in (in_count, 3), (out_count, 0):
            sets = 3 if activity == three else 1 if activity <= 3 else 0
            for place in sets, SETS - 1:
                ok(f"poke 0 {count(activity, place)} 1")
                refused(2, 0, "check 0")
                ok(f"poke 0 {count(activity, place)} 0")
    same(0, F)


def every_call_refuses():
    note("Each call that is given a net refuses such records by 2, and put, learn and follow give "
         "the record back with every word as it was.")
    for comment, *changes in (
        (f"The end is {NO_ACTIVITY}.", (END, NO_ACTIVITY)),
        (f"The start is {MAX_32}.", (START, MAX_32)),
        (f"A length is {SETS + 1}.", (in_length(3), SETS + 1)),
        (f"A length is {MAX_32}.", (out_length(2), MAX_32)),
        ("A list has an equal pair.", (in_place(3, 2), 4)),
        ("The last place isn't zero.", (out_place(LAST, SETS - 1), 1)),
        ("An unused place of the output side of 0 has a count.", (out_count(0, 3), 1)),
        ("An unused place of the input side of 3 has a count.", (in_count(3, SETS - 1), USES)),
        ("The second place of the start's input side has a count.", (in_count(0, 1), 1)),
        ("The first place of a side without sets has a count.", (in_count(4), HIGH_BIT)),
        ("The last word of the record, a count, isn't zero.", (WORDS - 1, 1)),
        ("The start's input side is empty.", (in_length(0), 0)),
        ("The end's output side holds the empty set and another.",
         (out_length(3), 2), (out_place(3, 1), ALL)),
        ("The empty set is on another side.", (out_length(15), 1)),
    ):
        note(comment)
        ok(f"copy 0 {F}")
        poke(changes)
        ok("copy 2 0")
        calls_with_register_0()


def calls_with_register_0():
    """All calls that are given a net, with a record that isn't orderly; register 2 is its copy."""
    text("stays")
    refused(2, 0, "check 0")
    refused(2, 0, "put 0 0 1 2")
    same(0, 2)
    refused(2, 0, "put 0 1 3 0")
    same(0, 2)
    refused(2, 1, f"contained 0 {F}")
    refused(2, 2, f"contained {F} 0")
    refused(2, 1, "contained 0 2")
    refused(2, 2, f"contained {FRESH} 0")
    refused(2, 0, "judge 0 0 0 2 1 1 8 3 2 0")
    refused(2, 0, "learn 0 0 0 2 1 1 8 3 2 0")
    same(0, 2)
    refused(2, 0, "follow 0 0 1 3")
    same(0, 2)
    refused(2, 0, "replay 0 100 9 0 1 3")
    refused(2, 0, f"writenet 0 {BUFFER_BYTES}")
    shown("stays")


def full_sides():
    lower = range(1, SETS)
    note(f"Orderly at the border: {spelled(SETS)} ascending sets on the input side of {LAST}, the "
         f"highest {ALL}. The set names all activities; 4 is the lowest on no walk.")
    ok(f"copy 0 {F}")
    poke((in_place(LAST, place), one) for place, one in enumerate([*lower, ALL]))
    poke([(in_length(LAST), SETS)])
    refused(6, 4, "check 0")
    say("contained 0 0", "ok 1")
    say("contained 1 0", "ok 1")
    say("contained 0 1", "ok 0")

    note("The side is full, and put, learn and follow take the record.")
    ok("copy 2 0")
    refused(12, 0, f"put 0 0 {LAST} {SETS}")
    say(f"put 0 0 {LAST} {ALL}", "ok 0")
    say(f"put 0 0 {LAST} {lower[-1]}", "ok 0")
    same(0, 2)
    say("learn 0 0 0 2 1 1 8 3 2 0", "ok 0")
    say("follow 0 0 1 3", "ok 0")
    same_sets(0, 2)

    lowest = ALL - (SETS - 1)
    note(f"{spelled(SETS).capitalize()} sets on the output side of {LAST}, the last places for "
         f"sets, from {lowest} up to {ALL}; then with a count at each.")
    ok(f"copy 0 {F}")
    poke((out_place(LAST, place), lowest + place) for place in range(SETS))
    poke([(out_length(LAST), SETS)])
    refused(6, 4, "check 0")
    say("contained 0 0", "ok 1")
    poke((out_count(LAST, place), USES - place) for place in range(SETS))
    refused(6, 4, "check 0")
    say("contained 0 0", "ok 1")

    note(f"The masks are compared without a sign: {HIGH_BIT - 1} before {HIGH_BIT} is ascending.")
    ok(f"copy 0 {F}")
    poke([(out_place(1, 0), HIGH_BIT - 1), (out_place(1, 1), HIGH_BIT), (out_length(1), 2)])
    refused(6, 4, "check 0")
    say("contained 0 0", "ok 1")
    put_new(0, OUT, 1, 8)
    say(f"peek 0 {out_place(1)} 4", f"words 8 {HIGH_BIT - 1} {HIGH_BIT} 0")


def counts_of_used_places():
    note(f"A used place may have any count up to {USES}, that of the two empty sets too.")
    f_at_the_top(0)
    say("check 0", "ok 4")
    same_sets(0, F)

    note("Cut to two sets the input side of 3 is orderly, if the third's count is 0.")
    poke([(in_length(3), 2), (in_place(3, 2), 0)])
    refused(2, 0, "check 0")
    poke([(in_count(3, 2), 0)])
    say("check 0", "ok 4")

    note("In a fresh net the two empty sets may have counts, and no other place.")
    ok(f"copy 0 {FRESH}")
    poke([(in_count(0), 1), (out_count(1), USES)])
    refused(6, 0, "check 0")
    same_sets(0, FRESH)


def made_by_hand():
    note(f"A fresh net made by hand, of {LAST} and {LAST - 1}, is the one that fresh makes.")
    ok("fresh 0 0 1")
    poke([
        (START, LAST), (END, LAST - 1),
        (in_length(0), 0), (in_length(LAST), 1),
        (out_length(1), 0), (out_length(LAST - 1), 1),
    ])
    ok(f"fresh 2 {LAST} {LAST - 1}")
    same(0, 2)
    refused(6, LAST - 1, "check 0")

    note("F made by hand is orderly and passes.")
    ok("fresh 0 0 1")
    poke([
        (END, 3),
        (in_length(1), 1), (in_length(2), 1), (in_length(3), 3),
        (out_length(0), 3), (out_length(1), 1), (out_length(2), 1), (out_length(3), 1),
        (in_place(1), 1),
        (in_place(2), 1),
        (in_place(3, 0), 2), (in_place(3, 1), 4), (in_place(3, 2), 6),
        (out_place(0, 0), 2), (out_place(0, 1), 4), (out_place(0, 2), 6),
        (out_place(1), 8),
        (out_place(2), 8),
    ])
    same(0, F)
    say("check 0", "ok 4")
