"""The part of section 5 on names and their partners: every name is answered, or the check says 19.

Register 1 holds F throughout: the start 0 names 1 and 2, both name the end 3, and each is named
back. The place is the lowest activity that names one which never names it back.
"""

from bindings import mask
from calls import IN, OUT, disorder, put_new
from limits import ACTIVITIES, ALL, LAST, SETS
from record import in_place, out_place
from script import note, ok, refused, say


def write():
    names_without_partner()
    names_of_oneself()
    names_that_have_no_partner_ever()
    partners_in_other_sets()
    several_without_partner()
    after_walks()
    nets_drawn_box_by_box()
    start_above_end()
    each_activity_as_the_naming_one()
    partners_on_full_sides()


def names_without_partner():
    note("A name without its partner is no arc, and a fault: 1 names 2 on its output side, and no "
         "input set of 2 names 1.")
    ok("copy 0 1")
    put_new(0, OUT, 1, mask(2))
    refused(19, 1, "check 0")

    note("With its partner (1, 2) is an arc.")
    put_new(0, IN, 2, mask(1))
    say("check 0", "ok 5")

    note("The partner alone: an input set of 2 names 1, and no output set of 1 names 2.")
    ok("copy 0 1")
    put_new(0, IN, 2, mask(1))
    refused(19, 2, "check 0")
    put_new(0, OUT, 1, mask(2))
    say("check 0", "ok 5")

    note("A name on the same kind of side is no partner: 1 and 2 name one another on their input "
         "sides only, or on their output sides only.")
    ok("copy 0 1")
    put_new(0, IN, 1, mask(2))
    refused(19, 1, "check 0")
    put_new(0, IN, 2, mask(1))
    refused(19, 1, "check 0")
    ok("copy 0 1")
    put_new(0, OUT, 2, mask(1))
    refused(19, 2, "check 0")
    put_new(0, OUT, 1, mask(2))
    refused(19, 1, "check 0")


def names_of_oneself():
    note("An activity that names itself needs its other side to name it too: first one half of the "
         "arc (1, 1) is there, then both.")
    ok("copy 0 1")
    put_new(0, IN, 1, mask(1))
    refused(19, 1, "check 0")
    put_new(0, OUT, 1, mask(1))
    say("check 0", "ok 5")

    note("The other half first, in a set with another name.")
    ok("copy 0 1")
    put_new(0, OUT, 1, mask(1, 3))
    refused(19, 1, "check 0")
    put_new(0, IN, 1, mask(0, 1))
    say("check 0", "ok 5")


def names_that_have_no_partner_ever():
    note("The start named in an output set and the end in an input set: the start's input side and "
         "the end's output side hold only the empty set, so no partner can be put.")
    for activity in 1, 2:
        ok("copy 0 1")
        put_new(0, OUT, activity, mask(0))
        refused(19, activity, "check 0")
        ok("copy 0 1")
        put_new(0, IN, activity, mask(3))
        refused(19, activity, "check 0")

    note("The start names itself, or the end does.")
    ok("copy 0 1")
    put_new(0, OUT, 0, mask(0))
    refused(19, 0, "check 0")
    ok("copy 0 1")
    put_new(0, IN, 3, mask(3))
    refused(19, 3, "check 0")

    note("The start beside an activity that it names as it should, and the end so.")
    ok("copy 0 1")
    put_new(0, OUT, 0, mask(0, 1, 2))
    refused(19, 0, "check 0")
    ok("copy 0 1")
    put_new(0, IN, 3, mask(1, 2, 3))
    refused(19, 3, "check 0")


def partners_in_other_sets():
    note("All sets of the opposite side count, and single sets needn't match: 1 names 2 beside 3, "
         "and 2 names 1 beside 0.")
    ok("copy 0 1")
    put_new(0, OUT, 1, mask(2, 3))
    refused(19, 1, "check 0")
    put_new(0, IN, 2, mask(0, 1))
    say("check 0", "ok 5")

    note("A name that is answered is so in every further set.")
    put_new(0, OUT, 1, mask(2))
    put_new(0, IN, 2, mask(1))
    say("check 0", "ok 5")


def several_without_partner():
    note("Several without partner: the lowest naming one is returned, on whichever side it names "
         "and in whatever order the sets were put.")
    ok("copy 0 1")
    put_new(0, IN, 3, mask(3))
    refused(19, 3, "check 0")
    put_new(0, OUT, 2, mask(0))
    refused(19, 2, "check 0")
    put_new(0, IN, 1, mask(3))
    refused(19, 1, "check 0")
    put_new(0, OUT, 0, mask(0))
    refused(19, 0, "check 0")

    note("The other way round: as partners are put, the next one is returned. 1 and 2 name 1 and 2 "
         "on their output sides.")
    ok("copy 0 1")
    put_new(0, OUT, 1, mask(1, 2))
    put_new(0, OUT, 2, mask(1, 2))
    refused(19, 1, "check 0")
    put_new(0, IN, 1, mask(1))
    refused(19, 1, "check 0")
    put_new(0, IN, 2, mask(1))
    refused(19, 2, "check 0")
    put_new(0, IN, 1, mask(2))
    refused(19, 2, "check 0")
    put_new(0, IN, 2, mask(2))
    say("check 0", "ok 8")


def after_walks():
    note("6 before 19: 0 names 5, which doesn't name it back and is on no walk.")
    ok("copy 0 1")
    put_new(0, OUT, 0, mask(5))
    refused(6, 5, "check 0")

    note("6 before 19, although the naming activity 1 is lower than 9 and 10, which reach only one "
         "another.")
    ok("copy 0 1")
    put_new(0, OUT, 1, mask(2))
    refused(19, 1, "check 0")
    put_new(0, OUT, 9, mask(10))
    put_new(0, IN, 9, mask(10))
    put_new(0, OUT, 10, mask(9))
    put_new(0, IN, 10, mask(9))
    refused(6, 9, "check 0")

    note("2 before both.")
    disorder(0)
    refused(2, 0, "check 0")
    ok("copy 0 1")
    put_new(0, OUT, 1, mask(2))
    disorder(0)
    refused(2, 0, "check 0")


def nets_drawn_box_by_box():
    note("A net that is drawn box by box doesn't pass while it is incomplete: 0 to 2 by way of 1.")
    ok("fresh 0 0 2")
    refused(6, 0, "check 0")
    put_new(0, OUT, 0, mask(1))
    refused(6, 0, "check 0")
    put_new(0, IN, 1, mask(0))
    put_new(0, OUT, 1, mask(2))
    refused(6, 0, "check 0")
    put_new(0, IN, 2, mask(1))
    say("check 0", "ok 2")

    note("A second way, from 0 to 2 at once: first it isn't entered, then it is.")
    put_new(0, OUT, 0, mask(2))
    refused(19, 0, "check 0")
    put_new(0, IN, 2, mask(0))
    say("check 0", "ok 3")

    note("A third one by way of 3: while 3 has no way out it is on no walk, and then 1 doesn't yet "
         "name it.")
    put_new(0, OUT, 0, mask(3))
    refused(6, 3, "check 0")
    put_new(0, IN, 3, mask(0))
    refused(6, 3, "check 0")
    put_new(0, OUT, 3, mask(1, 2))
    refused(6, 3, "check 0")
    put_new(0, IN, 2, mask(3))
    refused(19, 3, "check 0")
    put_new(0, IN, 1, mask(3))
    say("check 0", "ok 6")


def start_above_end():
    note(f"F from the top: the start is {LAST} and the end {LAST - 3}, so that the end is the "
         "lowest activity and the start the highest. One after the other the start names itself, "
         "one between names the other, that one the end, and the end names itself.")
    ok(f"fresh 0 {LAST} {LAST - 3}")
    say(f"follow 0 {LAST} {LAST - 1} {LAST - 3}", "ok 4")
    say(f"follow 0 {LAST} {LAST - 2} {LAST - 3}", "ok 4")
    say("check 0", "ok 4")
    put_new(0, OUT, LAST, mask(LAST))
    refused(19, LAST, "check 0")
    put_new(0, OUT, LAST - 1, mask(LAST - 2))
    refused(19, LAST - 1, "check 0")
    put_new(0, IN, LAST - 2, mask(LAST - 3))
    refused(19, LAST - 2, "check 0")
    put_new(0, IN, LAST - 3, mask(LAST - 3))
    refused(19, LAST - 3, "check 0")


def put_everywhere(register, outputs, inputs):
    """A set for each output side but the end's, and one for each input side but the start's."""
    for activity in range(LAST):
        put_new(register, OUT, activity, outputs)
    for activity in range(1, ACTIVITIES):
        put_new(register, IN, activity, inputs)


def each_activity_as_the_naming_one():
    outputs, inputs = ALL - mask(0), ALL - mask(LAST)
    note(f"The most arcs there can be: start 0 and end {LAST}, each of 0 to {LAST - 1} names 1 to "
         f"{LAST}, each of 1 to {LAST} names 0 to {LAST - 1}: {LAST} times {LAST} arcs.")
    ok(f"fresh 0 0 {LAST}")
    put_everywhere(0, outputs, inputs)
    say("check 0", f"ok {LAST * LAST}")

    note(f"There the end doesn't name one of 0 to {LAST - 1}, which names it on its output side.")
    ok("copy 2 0")
    for activity in range(LAST):
        ok(f"poke 2 {in_place(LAST)} {inputs - mask(activity)}")
        refused(19, activity, "check 2")

    note(f"There the start doesn't name one of 1 to {LAST}, which names it on its input side.")
    ok("copy 2 0")
    for activity in range(1, ACTIVITIES):
        ok(f"poke 2 {out_place(0)} {outputs - mask(activity)}")
        refused(19, activity, "check 2")

    note("Both at once: the lower of the two is returned.")
    for first, second in (3, 20), (20, 3), (7, 7), (LAST - 1, 1):
        ok("copy 2 0", f"poke 2 {in_place(LAST)} {inputs - mask(first)}",
           f"poke 2 {out_place(0)} {outputs - mask(second)}")
        refused(19, min(first, second), "check 2")

    note(f"The same with sets that name all {ACTIVITIES} activities: 0 is the lowest of all that "
         "name the start on their output sides.")
    ok("copy 2 0")
    put_everywhere(2, outputs=ALL, inputs=ALL)
    refused(19, 0, "check 2")


def partners_on_full_sides():
    few = SETS - 2
    note(f"In the net of the most arcs {LAST - 1} isn't named by the end. With {few} sets more on "
         f"the end's input side it still isn't; {{{LAST - 1}}}, the highest there, fills the side.")
    ok("copy 2 0", f"poke 2 {in_place(LAST)} {ALL - mask(LAST) - mask(LAST - 1)}")
    refused(19, LAST - 1, "check 2")
    put_new(2, IN, LAST, *(mask(activity) for activity in range(few)))
    refused(19, LAST - 1, "check 2")
    put_new(2, IN, LAST, mask(LAST - 1))
    say("check 2", f"ok {LAST * LAST}")

    note(f"The same of the start's output side and {LAST}.")
    ok("copy 2 0", f"poke 2 {out_place(0)} {ALL - mask(0) - mask(LAST)}")
    refused(19, LAST, "check 2")
    put_new(2, OUT, 0, *(mask(activity) for activity in range(1, few + 1)))
    refused(19, LAST, "check 2")
    put_new(2, OUT, 0, mask(LAST))
    say("check 2", f"ok {LAST * LAST}")
