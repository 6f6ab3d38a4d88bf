"""Section 6: judge, learn and follow, position by position."""

import section_6_counts
import section_6_orders
import section_6_peaks
from bindings import FIG_4, mask
from calls import IN, OUT, put_new, read_f, same, same_sets
from limits import ACTIVITIES, ALL, LAST
from record import in_length, in_place, out_length, out_place
from script import note, ok, refused, say, section
from wording import spelled


def write():
    section(6, "Judge, learn and follow on sequences.")
    read_f(1)
    valid_in_f()
    judged_by_start_and_end()
    judged_by_the_sets_of_the_net()
    judged_by_what_is_due()
    same_step()
    counts_and_not_flags()
    learned_by_shape()
    learned_by_what_is_due()
    new_sets()
    nets_that_learn_takes()
    all_activities_at_once()
    followed()
    section_6_peaks.write()
    section_6_counts.write()
    section_6_orders.write()


def valid_in_f():
    note("Judge on F: sequences that are valid. Positions 2 and 3 may change places.")
    ok("copy 0 1", "judge 0 0 0 2 1 1 8 3 2 0", "judge 0 0 0 4 2 1 8 3 4 0",
       "judge 0 0 0 6 1 1 8 2 1 8 3 6 0", "judge 0 0 0 6 2 1 8 1 1 8 3 6 0")


def judged_by_start_and_end():
    note("Judge, 7: under two positions.")
    refused(7, 0, "judge 0", "judge 0 0 0 2", "judge 0 0 0 0")

    note("Judge, 7: the start isn't first.")
    refused(7, 0, "judge 0 1 1 8 3 2 0", "judge 0 2 1 8 1 1 8 3 2 0")

    note("Judge, 7: the end isn't last.")
    refused(7, 0, "judge 0 0 0 2 1 1 8", "judge 0 0 0 2 3 2 0 1 1 8")

    note("Judge, 7: the start occurs again, at position 2, before the last, and at the last.")
    refused(7, 0, "judge 0 0 0 2 0 0 2 3 2 0", "judge 0 0 0 2 1 1 8 0 0 2 3 2 0",
            "judge 0 0 0 2 1 1 8 0 0 2")

    note("Judge, 7: the end occurs at position 1, at position 2 and before the last too.")
    refused(7, 0, "judge 0 3 2 0 1 1 8 3 2 0", "judge 0 0 0 2 3 2 0 1 1 8 3 2 0",
            "judge 0 0 0 2 1 1 8 3 2 0 3 2 0")


def judged_by_the_sets_of_the_net():
    note("Judge, 8: X at the first position must be on the start's input side, which holds only "
         "the empty set.")
    refused(8, 1, "judge 0 0 2 2 1 1 8 3 2 0")

    note("Judge, 8: Y at the first position isn't on the start's output side; the empty set isn't "
         "either.")
    refused(8, 1, "judge 0 0 0 8 1 1 8 3 2 0", "judge 0 0 0 0 1 1 8 3 2 0",
            f"judge 0 0 0 {ALL} 1 1 8 3 2 0")

    note("Judge, 8: X in the middle; empty, another set, one that is on the output side only, one "
         "bit too many.")
    refused(8, 2, "judge 0 0 0 2 1 0 8 3 2 0", "judge 0 0 0 2 1 2 8 3 2 0",
            "judge 0 0 0 2 1 8 8 3 2 0", f"judge 0 0 0 2 1 {mask(0, LAST)} 8 3 2 0")

    note("Judge, 8: Y in the middle; empty, another set, one that is on the input side only.")
    refused(8, 2, "judge 0 0 0 2 1 1 0 3 2 0", "judge 0 0 0 2 1 1 4 3 2 0",
            "judge 0 0 0 2 1 1 1 3 2 0")

    note("Judge, 8: X and Y at the last position.")
    refused(8, 3, "judge 0 0 0 2 1 1 8 3 0 0", "judge 0 0 0 2 1 1 8 3 8 0",
            "judge 0 0 0 2 1 1 8 3 2 8")

    note("Judge, 8: the first of two such positions.")
    refused(8, 3, "judge 0 0 0 6 1 1 8 2 3 8 3 7 0")
    refused(8, 1, "judge 0 0 1 1 1 2 2 3 1 1")

    note("Judge, 8: an activity that isn't in the net has no sets.")
    refused(8, 2, "judge 0 0 0 2 5 1 8 3 2 0", f"judge 0 0 0 2 {LAST} 1 8 3 2 0")

    note("Judge, 8: a set of the input side of 2 is no set of 1. In this net 2 takes 2, and 1 "
         "doesn't.")
    put_new(0, IN, 2, 2)
    put_new(0, OUT, 1, 4)
    say("check 0", "ok 5")
    refused(8, 2, "judge 0 0 0 2 1 2 8 3 2 0")
    ok("judge 0 0 0 2 1 1 4 2 2 8 3 4 0")


def judged_by_what_is_due():
    note("Judge, 10: (0, 2) isn't due at position 2.")
    ok("copy 0 1")
    refused(10, 2, "judge 0 0 0 2 2 1 8 3 4 0", "judge 0 0 0 4 1 1 8 3 2 0")

    note("Judge, 10: in the middle, as (0, 1) was taken at position 2.")
    refused(10, 3, "judge 0 0 0 2 1 1 8 1 1 8 3 2 0", "judge 0 0 0 6 1 1 8 1 1 8 2 1 8 3 6 0")

    note("Judge, 10: at the last position (2, 3) isn't due.")
    refused(10, 3, "judge 0 0 0 2 1 1 8 3 6 0", "judge 0 0 0 2 1 1 8 3 4 0")
    refused(10, 2, "judge 0 0 0 2 3 2 0")

    note("Judge, 10: the first of two bindings that aren't possible.")
    refused(10, 3, "judge 0 0 0 2 1 1 8 1 1 8 3 4 0")
    refused(10, 2, "judge 0 0 0 2 2 1 8 2 1 8 3 6 0")

    note("Judge, 11: (0, 2), then (0, 1), then (2, 3) stays due.")
    refused(11, 0, "judge 0 0 0 6 1 1 8 3 2 0", "judge 0 0 0 6 2 1 8 3 4 0",
            "judge 0 0 0 6 1 1 8 2 1 8 3 2 0", "judge 0 0 0 6 1 1 8 2 1 8 3 4 0")


def same_step():
    note("What Y adds can't serve X of the same step: 1 takes (0, 1) and (1, 1), and (1, 1) would "
         "only come from the same step.")
    put_new(0, IN, 1, 3)
    put_new(0, OUT, 1, 10)
    say("check 0", "ok 5")
    refused(10, 2, "judge 0 0 0 2 1 3 10 3 2 0")
    ok("fresh 2 0 3", "fresh 3 0 3")
    refused(10, 2, "learn 2 0 0 2 1 3 10 3 2 0")
    same(2, 3)

    note("With X 2 and Y 2 at a second 1 it is served by the step before.")
    say("learn 2 0 0 2 1 1 2 1 2 8 3 2 0", "ok 6")

    note("Without the step before it isn't.")
    ok("fresh 2 0 3")
    refused(10, 2, "learn 2 0 0 2 1 2 2 1 2 8 3 2 0")
    same(2, 3)


def counts_and_not_flags():
    note("The sequence of Fig. 4 has (1, 2) due twice after position 3. It is learned from the "
         "fresh net of 0 and 4: 12 new, again 0.")
    ok("fresh 2 0 4")
    say(f"learn 2 {FIG_4}", "ok 12")
    ok("copy 3 2")
    say(f"learn 2 {FIG_4}", "ok 0")
    same_sets(2, 3)
    ok(f"judge 2 {FIG_4}")

    note("Its lists: 2 on the output side of 0; 1, 2 and 6, 12 on the sides of 1; 2 and 8 of 2; "
         "6, 12 and 8, 16 of 3; 8 on the input side of 4.")
    say(f"peek 2 {in_length(0)} 5", "words 1 2 1 2 1")
    say(f"peek 2 {out_length(0)} 5", "words 1 2 1 2 1")
    say(f"peek 2 {in_place(1)} 2", "words 1 2")
    say(f"peek 2 {in_place(2)} 2", "words 2 0")
    say(f"peek 2 {in_place(3)} 2", "words 6 12")
    say(f"peek 2 {in_place(4)} 2", "words 8 0")
    say(f"peek 2 {out_place(0)} 2", "words 2 0")
    say(f"peek 2 {out_place(1)} 2", "words 6 12")
    say(f"peek 2 {out_place(2)} 2", "words 8 0")
    say(f"peek 2 {out_place(3)} 2", "words 8 16")

    note("(1, 2) is due twice and taken once, so it stays due: 11. Who keeps a flag for each pair "
         "accepts this.")
    refused(11, 0, "judge 2 0 0 2 1 1 6 1 2 12 2 2 8 3 6 16 4 8 0")
    ok("fresh 0 0 4")
    refused(11, 0, "learn 0 0 0 2 1 1 6 1 2 12 2 2 8 3 6 16 4 8 0")

    note("(1, 2) is due twice and taken three times: 10 at position 6.")
    refused(10, 6, "judge 2 0 0 2 1 1 6 1 2 12 2 2 8 2 2 8 2 2 8 3 6 8 3 12 16 4 8 0",
            "learn 0 0 0 2 1 1 6 1 2 12 2 2 8 2 2 8 2 2 8 3 6 8 3 12 16 4 8 0")
    ok("fresh 3 0 4")
    same(0, 3)

    note("The other sequences that document 003 names for that net: a b c d e, and a b c b c d d "
         "e.")
    ok("judge 2 0 0 2 1 1 12 2 2 8 3 6 16 4 8 0",
       "judge 2 0 0 2 1 1 6 2 2 8 1 2 12 2 2 8 3 6 8 3 12 16 4 8 0")

    note("And a b b b c c c d d d e, in which (1, 2) is due three times.")
    ok("judge 2 0 0 2 1 1 6 1 2 6 1 2 12 2 2 8 2 2 8 2 2 8 3 6 8 3 12 8 3 12 16 4 8 0")


def learned_by_shape():
    note("Learn, 7: the shapes that judge refuses are refused here too.")
    ok("fresh 0 0 3", "fresh 3 0 3")
    refused(7, 0, "learn 0", "learn 0 0 0 2", "learn 0 1 1 8 3 2 0", "learn 0 0 0 2 1 1 8",
            "learn 0 0 0 2 0 1 2 1 1 8 3 2 0", "learn 0 0 0 2 1 1 8 0 1 2 3 2 0",
            "learn 0 0 0 2 3 2 8 1 1 8 3 2 0", "learn 0 0 0 2 1 1 8 3 2 8 3 2 0")

    note("Learn, 9: X is empty at the first position only.")
    refused(9, 1, "learn 0 0 1 2 1 1 8 3 2 0")
    refused(9, 2, "learn 0 0 0 2 1 0 8 3 2 0")
    refused(9, 3, "learn 0 0 0 6 1 1 8 2 0 8 3 6 0", "learn 0 0 0 2 1 1 8 3 0 0")

    note("Learn, 9: Y is empty at the last position only.")
    refused(9, 1, "learn 0 0 0 0 1 1 8 3 2 0")
    refused(9, 2, "learn 0 0 0 2 1 1 0 3 2 0")
    refused(9, 3, "learn 0 0 0 6 1 1 8 2 1 0 3 6 0", "learn 0 0 0 2 1 1 8 3 2 1",
            f"learn 0 0 0 2 1 1 8 3 2 {ALL}")

    note("Learn, 9: the first of several.")
    refused(9, 1, "learn 0 0 0 0 3 0 0")
    refused(9, 2, "learn 0 0 0 2 1 0 0 3 0 8", "learn 0 0 0 8 3 0 8")


def learned_by_what_is_due():
    note("Learn, 10: at position 2, in the middle, and at the last.")
    refused(10, 2, "learn 0 0 0 2 2 1 8 3 4 0")
    refused(10, 3, "learn 0 0 0 2 1 1 8 1 1 8 3 2 0", "learn 0 0 0 6 1 1 8 2 3 8 3 6 0",
            "learn 0 0 0 2 1 1 8 3 6 0")
    refused(10, 2, "learn 0 0 0 2 3 2 0", "learn 0 0 0 8 3 3 0")

    note("Learn, 10: a binding takes from the activities before, not from those after: (2, 1) "
         "isn't due before 2 occurs.")
    refused(10, 2, "learn 0 0 0 6 1 4 8 2 1 10 3 6 0")

    note("Learn, 10: the end is named in an X; (3, 1) can't be due.")
    refused(10, 2, "learn 0 0 0 2 1 9 8 3 2 0")

    note("Learn, 10: (0, 1) is due, but 1 asks for (1, 1).")
    refused(10, 2, "learn 0 0 0 2 1 2 8 3 2 0")

    note("Learn, 11: something stays due; also what names the start, the end, or an activity that "
         "never comes.")
    refused(11, 0, "learn 0 0 0 6 1 1 8 3 2 0", "learn 0 0 0 2 1 1 9 3 2 0",
            "learn 0 0 0 10 1 1 8 3 2 0", f"learn 0 0 0 {mask(1, LAST)} 1 1 8 3 2 0",
            "learn 0 0 0 3 1 1 8 3 2 0")
    same(0, 3)


def new_sets():
    note("The new sets: a set used at two positions counts once, the same mask on two sides "
         "twice. Here 2 is on four sides: outputs of 0 and 1, inputs of 1 and 3.")
    say("learn 0 0 0 2 1 1 2 1 2 8 3 2 0", "ok 6")

    note("One more round uses the same sets.")
    say("learn 0 0 0 2 1 1 2 1 2 2 1 2 8 3 2 0", "ok 0")

    note("From the fresh net the longer one has the same six.")
    ok("fresh 0 0 3")
    say("learn 0 0 0 2 1 1 2 1 2 2 1 2 8 3 2 0", "ok 6")

    note("Start to end at once: two new sets.")
    say("learn 0 0 0 8 3 1 0", "ok 2")
    say("learn 0 0 0 8 3 1 0", "ok 0")
    say("check 0", "ok 4")

    note("Both at once: 10 on the output side of 0 and 3 on the input side of 3 are new.")
    say("learn 0 0 0 10 1 1 8 3 3 0", "ok 2")

    note("Only the sets of the sequences are gained. On the input side of 3 are 1, 2 and 3 now, "
         "on the output side of 0 are 2, 8 and 10.")
    say("peek 0 0 2", "words 0 3")
    say(f"peek 0 {in_length(0)} 5", "words 1 2 0 3 0")
    say(f"peek 0 {out_length(0)} 5", "words 3 2 0 1 0")
    say(f"peek 0 {in_place(1)} 3", "words 1 2 0")
    say(f"peek 0 {in_place(3)} 4", "words 1 2 3 0")
    say(f"peek 0 {out_place(0)} 4", "words 2 8 10 0")
    say(f"peek 0 {out_place(1)} 3", "words 2 8 0")


def nets_that_learn_takes():
    note("Learn needs no passed net: 9 is on no walk here, and is still on none afterwards.")
    ok("fresh 0 0 3")
    put_new(0, OUT, 9, mask(9))
    refused(6, 0, "check 0")
    say("learn 0 0 0 2 1 1 8 3 2 0", "ok 4")
    refused(6, 9, "check 0")
    say("follow 0 0 2 3", "ok 4")
    refused(6, 9, "check 0")

    note("Learn doesn't ask whether the sets are in the net: that is 8, which isn't learn's.")
    ok("copy 0 1")
    say("learn 0 0 0 2 1 1 4 2 2 8 3 4 0", "ok 2")
    say("check 0", "ok 5")


def all_at_once(middle):
    """The start names all between it and the end, these occur in some order, the end takes all.

    Start and end are 0 and the last activity.
    """
    between = mask(*range(1, LAST))
    steps = " ".join(f"{activity} 1 {mask(LAST)}" for activity in middle)
    return f"0 0 {between} {steps} {LAST} {between} 0"


def all_activities_at_once():
    between = range(1, LAST)
    sets = 2 + 2 * len(between)
    arcs = 2 * len(between)

    note(f"A sequence of all activities at once: the start names 1 to {LAST - 1}, each is taken, "
         "and the end takes all.")
    ok(f"fresh 0 0 {LAST}")

    note(f"{spelled(sets).capitalize()} sets are new: 1 and 1, and two for each of {len(between)} "
         f"activities. {spelled(arcs).capitalize()} arcs: from 0 to each and from each to {LAST}.")
    say(f"learn 0 {all_at_once(between)}", f"ok {sets}")
    say("check 0", f"ok {arcs}")
    ok(f"judge 0 {all_at_once(between)}")
    say(f"learn 0 {all_at_once(between)}", "ok 0")

    note(f"The activities in between may come in any order, here from {LAST - 1} down; all is due "
         "at once.")
    ok(f"judge 0 {all_at_once(reversed(between))}")

    note(f"Judge, 10: activity 17 doesn't occur, so (17, {LAST}) isn't due at the last position, "
         f"which is {ACTIVITIES - 1}.")
    without_17 = [activity for activity in between if activity != 17]
    refused(10, ACTIVITIES - 1, f"judge 0 {all_at_once(without_17)}")


def followed():
    note("Follow of 0 1 2 1 2 3 makes (0,0,2)(1,1,4)(2,2,2)(1,4,4)(2,2,8)(3,4,0): eight different "
         "sets.")
    ok("fresh 0 0 3")
    say("follow 0 0 1 2 1 2 3", "ok 8")
    say(f"peek 0 {in_place(1)} 2", "words 1 4")
    say(f"peek 0 {out_place(1)} 2", "words 4 0")
    say(f"peek 0 {in_place(2)} 2", "words 2 0")
    say(f"peek 0 {out_place(2)} 2", "words 2 8")
    say("check 0", "ok 4")
    ok("judge 0 0 0 2 1 1 4 2 2 2 1 4 4 2 2 8 3 4 0")

    note("Follow of 0 1 1 1 3: 1 is before and after itself.")
    ok("fresh 0 0 3")
    say("follow 0 0 1 1 1 3", "ok 6")
    say(f"peek 0 {in_place(1)} 3", "words 1 2 0")
    say(f"peek 0 {out_place(1)} 3", "words 2 8 0")

    note("Follow of start and end alone.")
    ok("fresh 0 0 3")
    say("follow 0 0 3", "ok 2")
    say(f"peek 0 {out_place(0)} 2", "words 8 0")
    say(f"peek 0 {in_place(3)} 2", "words 1 0")
    say("check 0", "ok 1")
    ok("judge 0 0 0 8 3 1 0")
    say("peak 0 0 0 8 3 1 0", "ok 1")
