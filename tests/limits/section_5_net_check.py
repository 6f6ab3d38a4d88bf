"""Section 5: which pairs are arcs, which activities are on a walk, and which names are answered."""

import section_5_partners
from bindings import mask, words
from calls import IN, OUT, put_new, read_f
from limits import ACTIVITIES, LAST
from record import out_place
from script import note, ok, refused, say, section


def write():
    section(5, "Net check: arcs, walks and partners.")
    read_f(1)
    nets_without_a_walk()
    activities_on_one_side_only()
    arcs_named_twice()
    walks()
    activities_apart()
    several_on_no_walk()
    nets_without_a_valid_sequence()
    nets_of_all_activities()
    section_5_partners.write()


def nets_without_a_walk():
    note("A fresh net has no arc, so both its activities are on no walk; the lowest is returned, "
         "here the end.")
    for start, end in (7, 3), (3, 7), (LAST, LAST - 1), (0, 1):
        ok(f"fresh 0 {start} {end}")
        refused(6, min(start, end), "check 0")

    note("One arc from start to end.")
    ok("fresh 0 7 3")
    put_new(0, OUT, 7, mask(3))
    refused(6, 3, "check 0")
    put_new(0, IN, 3, mask(7))
    say("check 0", "ok 1")

    note("The end can't be reached, so every activity of the net is on no walk, and the lowest of "
         "all is returned: first the start 5, then 2, which is merely named.")
    ok("fresh 0 5 9")
    put_new(0, OUT, 5, mask(20))
    refused(6, 5, "check 0")
    put_new(0, IN, 30, mask(2))
    refused(6, 2, "check 0")
    put_new(0, OUT, 30, mask(0))
    refused(6, 0, "check 0")


def activities_on_one_side_only():
    note("An activity merely named, in an output set of 1 beside 3.")
    ok("copy 0 1")
    put_new(0, OUT, 1, mask(3, 5))
    refused(6, 5, "check 0")

    note("An activity merely named in an input set.")
    ok("copy 0 1")
    put_new(0, IN, 2, mask(LAST))
    refused(6, LAST, "check 0")

    note("An activity with a set on its input side only.")
    ok("copy 0 1")
    put_new(0, IN, 5, mask(0))
    refused(6, 5, "check 0")

    note("An activity with a set on its output side only.")
    ok("copy 0 1")
    put_new(0, OUT, 5, mask(3))
    refused(6, 5, "check 0")

    note("Sets on both sides of 5, but 0 doesn't name it and 3 doesn't either: names without a "
         "partner are no arcs.")
    put_new(0, IN, 5, mask(0))
    refused(6, 5, "check 0")

    note("Now (0, 5) is an arc, and (5, 3) is not: 5 doesn't reach the end.")
    put_new(0, OUT, 0, mask(5))
    refused(6, 5, "check 0")

    note("Now (5, 3) is an arc too, and there are 6.")
    put_new(0, IN, 3, mask(5))
    say("check 0", "ok 6")

    note("An activity that reaches the end and isn't reached: (4, 3) is an arc, (0, 4) is not.")
    ok("copy 0 1")
    put_new(0, OUT, 4, mask(3))
    put_new(0, IN, 3, mask(4))
    put_new(0, IN, 4, mask(0))
    refused(6, 4, "check 0")
    put_new(0, OUT, 0, mask(4))
    say("check 0", "ok 6")


def arcs_named_twice():
    note("An arc shown by several pairs of sets counts once: (1, 3) is named by 2 and 6 on the "
         "input side of 3 and by 8 and 12 on the output side of 1; 12 names 2 too, which names 1 "
         "back.")
    ok("copy 0 1")
    put_new(0, OUT, 1, 12)
    put_new(0, IN, 2, mask(1))
    say("check 0", "ok 5")


def walks():
    note("A walk may visit an activity twice: 0 to 1, 1 to 2, 2 to 1, 1 to 3; 2 is on a walk but "
         "on no path without a repetition.")
    ok("fresh 0 0 3")
    say("follow 0 0 1 2 1 3", "ok 8")
    say("check 0", "ok 4")

    note("The way back from 2 is missing: 2 doesn't reach the end.")
    ok("fresh 0 0 3")
    say("follow 0 0 1 3", "ok 4")
    put_new(0, OUT, 1, mask(2))
    put_new(0, IN, 2, mask(1))
    refused(6, 2, "check 0")

    note("The way to 2 is missing: (2, 1) is an arc, and 2 isn't reached.")
    ok("fresh 0 0 3")
    say("follow 0 0 1 3", "ok 4")
    put_new(0, IN, 1, mask(2))
    put_new(0, OUT, 2, mask(1))
    refused(6, 2, "check 0")


def activities_apart():
    note("Two activities that reach only one another.")
    ok("copy 0 1")
    put_new(0, IN, 5, mask(6))
    put_new(0, OUT, 5, mask(6))
    put_new(0, IN, 6, mask(5))
    put_new(0, OUT, 6, mask(5))
    refused(6, 5, "check 0")

    note("Now 0 reaches 6, but neither reaches the end; the lowest is 5.")
    put_new(0, OUT, 0, mask(6))
    put_new(0, IN, 6, mask(0))
    refused(6, 5, "check 0")

    note("Now 5 reaches 3, so 6 does by 5: (5, 6), (6, 5), (0, 6) and (5, 3) besides the 4.")
    put_new(0, OUT, 5, mask(3))
    put_new(0, IN, 3, mask(5))
    say("check 0", "ok 8")

    note("An activity that reaches only itself.")
    ok("copy 0 1")
    put_new(0, IN, 9, mask(9))
    put_new(0, OUT, 9, mask(9))
    refused(6, 9, "check 0")


def several_on_no_walk():
    note("Several on no walk: the lowest is returned, wherever it is named.")
    ok("copy 0 1")
    put_new(0, OUT, 2, mask(30, 31))
    refused(6, 30, "check 0")
    put_new(0, IN, 29, mask(29))
    refused(6, 29, "check 0")
    put_new(0, OUT, 0, mask(28))
    refused(6, 28, "check 0")


def nets_without_a_valid_sequence():
    note("The sets are not looked at as choices: the net passes, although no sequence is valid in "
         "it, as 1 takes both 0 and 2, and 2 takes 1.")
    ok("fresh 0 0 3")
    put_new(0, OUT, 0, mask(1))
    put_new(0, IN, 1, mask(0, 2))
    put_new(0, OUT, 1, mask(2, 3))
    put_new(0, IN, 2, mask(1))
    put_new(0, OUT, 2, mask(1, 3))
    put_new(0, IN, 3, mask(1, 2))
    say("check 0", "ok 5")


def follow_all(order):
    """The trace through all activities in this order: an X and a Y a step, and an arc."""
    ok(f"fresh 0 {order[0]} {order[-1]}")
    say(f"follow 0 {words(order)}", f"ok {2 * (ACTIVITIES - 1)}")
    say("check 0", f"ok {ACTIVITIES - 1}")


def nets_of_all_activities():
    note(f"The whole way through all {ACTIVITIES} activities: {2 * (ACTIVITIES - 1)} sets, "
         f"{ACTIVITIES - 1} arcs.")
    follow_all(range(ACTIVITIES))

    note(f"The same from {LAST} down to 0.")
    follow_all(range(LAST, -1, -1))

    half = ACTIVITIES // 2
    to_and_fro = [activity for low in range(half) for activity in (low, LAST - low)]
    note("The same in an order that goes to and fro between low and high numbers: "
         f"0 {LAST} 1 {LAST - 1} and so on, to {half - 1} {half}.")
    follow_all(to_and_fro)

    note(f"One link of it is taken out: the output side of {half - 1} doesn't name {half}. No "
         "activity is on a walk, and the lowest is 0.")
    ok(f"poke 0 {out_place(half - 1)} 1")
    refused(6, 0, "check 0")
