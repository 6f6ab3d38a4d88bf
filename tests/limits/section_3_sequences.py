"""The part of section 3 on judge, learn, follow and replay.

A lower number comes first, wherever in the sequence or trace it holds; 19 comes directly after 6.
"""

from bindings import fillers, loop, loop_trace, repeated
from calls import IN, OUT, disorder, disorderly_f, f_at_the_top, put_new, same, set_counts
from limits import BUFFER_WORDS, LAST, MAX_32, NO_ACTIVITY, POSITIONS, SETS, USES
from record import in_count, out_count
from script import note, ok, refused, say


def write():
    of_judge()
    of_judge_on_too_many_positions()
    of_judge_on_activities()
    of_judge_on_walks()
    of_judge_on_partners()
    of_judge_on_positions()
    of_learn()
    of_learn_on_too_many_positions()
    of_learn_on_activities()
    of_learn_on_positions()
    of_learn_on_a_full_side()
    of_follow_on_a_full_side()
    of_full_sides_that_are_disorderly()
    of_learn_on_counts()
    of_follow_on_counts()
    of_full_sides_and_counts()
    of_a_full_side_with_counts()
    of_follow()
    of_replay()
    of_replay_on_walks()
    of_replay_on_partners()


# Sequences for F: valid, and each with one fault.
VALID = "0 0 2 1 1 8 3 2 0"
UNKNOWN_SET = "0 0 8 1 1 8 3 2 0"  # 8: the start's output side has no set 8.
NOT_DUE = "0 0 2 2 1 8 3 4 0"  # 10: (0, 2) isn't due at position 2.
LEFT_DUE = "0 0 6 1 1 8 3 2 0"  # 11: (0, 2) stays due.


def too_many_positions(position):
    return repeated(position, POSITIONS + 1)


def long_loop(third="1 2 2", last_but_one="1 2 8"):
    """The loop with a position too many, and with another binding at a place if one is given."""
    return f"0 0 2 1 1 2 {third} {repeated('1 2 2', POSITIONS - 4)} {last_but_one} 3 2 0"


def of_judge():
    note("Judge, 2: the record isn't orderly; the sequence is valid in F.")
    disorderly_f()
    refused(2, 0, f"judge 0 {VALID}")

    note("Judge, 2 before 3, 4, 7, 8, 10 and 11: F would refuse each of these sequences so.")
    refused(2, 0, "judge 0 0 0", f"judge 0 {NO_ACTIVITY} 0 2 1 1 8 3 2 0", "judge 0",
            f"judge 0 {UNKNOWN_SET}", f"judge 0 {NOT_DUE}", f"judge 0 {LEFT_DUE}")

    note("Judge, 2 before 6: 9 is on no walk, and then the record isn't orderly either.")
    ok("copy 0 1")
    put_new(0, OUT, 1, 512)
    refused(6, 9, f"judge 0 {VALID}")
    disorder(0)
    refused(2, 0, f"judge 0 {VALID}")


def of_judge_on_too_many_positions():
    note("Judge, 3: the words aren't a multiple of three; 3 before 4 and 6.")
    refused(3, 0, "judge 1 0 0 2 1", f"judge 1 {NO_ACTIVITY} 0 2 1", f"judge 3 {NO_ACTIVITY}",
            f"judge 1 {too_many_positions(f'{NO_ACTIVITY} 0 0')}",
            f"judge 3 {too_many_positions('0 0 0')}")

    note(f"Judge, 3 before 7 and 8: {POSITIONS + 1} positions, of which none is the end; or with Y "
         "2 at position 2, which isn't on the output side of 1.")
    refused(3, 0, f"judge 1 {too_many_positions('0 0 2')}", f"judge 1 {long_loop()}")

    note(f"Judge, 3 before 10 and 11: {POSITIONS + 1} positions, all sets are in the net. At "
         "position 3 (0, 1) isn't due any more; or (1, 1) stays due by Y 10 at the last but one.")
    ok("fresh 0 0 3")
    say(f"learn 0 {loop(POSITIONS)}", "ok 6")
    put_new(0, OUT, 1, 10)
    refused(3, 0, f"judge 0 {long_loop(third='1 1 2')}",
            f"judge 0 {long_loop(last_but_one='1 2 10')}")


def of_judge_on_activities():
    note(f"Judge, 4: the first position whose activity is above {LAST}; 4 before 6, 7, 8.")
    refused(4, 2, f"judge 1 0 0 2 {NO_ACTIVITY} 1 8 {NO_ACTIVITY + 1} 2 0")
    refused(4, 3, f"judge 1 0 0 2 1 1 8 {NO_ACTIVITY} 2 0")
    refused(4, 1, f"judge 1 {NO_ACTIVITY} 0 2 1 1 8 3 2 0", f"judge 1 {NO_ACTIVITY} 0 0")
    refused(4, 2, f"judge 3 0 0 2 {NO_ACTIVITY} 1 2 1 1 0")
    refused(4, 3, f"judge 1 0 5 9 1 1 8 {NO_ACTIVITY} 2 0")

    note("Judge, 4 before 8, 10 and 11, which hold before it: 8 at position 1, 10 at position 2, "
         "and (0, 2) stays due from position 1 on.")
    refused(4, 2, f"judge 1 0 5 9 {NO_ACTIVITY} 1 8 3 2 0")
    refused(4, 3, f"judge 1 0 0 2 2 1 8 {NO_ACTIVITY} 1 8 3 4 0",
            f"judge 1 0 0 6 1 1 8 {NO_ACTIVITY} 0 8 3 2 0")

    note(f"Judge, 4: at position {POSITIONS}, although the first activity isn't the start.")
    refused(4, POSITIONS, f"judge 1 {repeated('1 1 8', POSITIONS - 1)} {NO_ACTIVITY} 2 0")


def of_judge_on_walks():
    note("Judge, 6: the net doesn't pass; 6 before 7 and 8. The fresh net of 0 and 1 has no arc, "
         "so 0 is on no walk.")
    refused(6, 0, "judge 3 0 0 2 1 1 0", "judge 3", "judge 3 0 0 2", "judge 3 5 5 5 5 5 5")

    note("Judge, 6 before 7, 8, 10 and 11: in F with one set more only 9 is on no walk; the first "
         "sequence is valid, F would refuse the others so.")
    ok("copy 0 1")
    put_new(0, OUT, 1, 512)
    refused(6, 9, f"judge 0 {VALID}", "judge 0 1 1 8 3 2 0", f"judge 0 {UNKNOWN_SET}",
            f"judge 0 {NOT_DUE}", f"judge 0 {LEFT_DUE}")


def put_without_partner():
    """Register 0 becomes F, which register 1 holds, with 2 named by 1, which 2 never names back."""
    ok("copy 0 1")
    put_new(0, OUT, 1, 4)


def of_judge_on_partners():
    note("Judge, 19: a name isn't answered; 19 before 7, 8, 10 and 11. The first sequence is "
         "valid, F would refuse the others so.")
    put_without_partner()
    refused(19, 1, f"judge 0 {VALID}", f"peak 0 {VALID}", "judge 0", "judge 0 0 0 2",
            "judge 0 1 1 8 3 2 0", "judge 0 5 5 5 5 5 5", f"judge 0 {UNKNOWN_SET}",
            f"judge 0 {NOT_DUE}", f"judge 0 {LEFT_DUE}")

    note("Judge, 3 and 4 before 19.")
    refused(3, 0, "judge 0 0 0 2 1", f"judge 0 {too_many_positions('0 0 2')}")
    refused(4, 2, f"judge 0 0 0 2 {NO_ACTIVITY} 1 8 3 2 0")
    refused(4, 1, f"judge 0 {NO_ACTIVITY} 0 0")

    note("Judge, 6 and 2 before 19: 9 is on no walk, and then the record isn't orderly either.")
    put_new(0, OUT, 1, 512)
    refused(6, 9, f"judge 0 {VALID}", "judge 0")
    disorder(0)
    refused(2, 0, f"judge 0 {VALID}", "judge 0")

    note("Judge, 19: the lowest naming activity, here by an input set; with its partner the "
         "sequence is judged again.")
    ok("copy 0 1")
    put_new(0, IN, 2, 2)
    refused(19, 2, f"judge 0 {VALID}")
    put_new(0, OUT, 1, 4)
    ok(f"judge 0 {VALID}")


def of_judge_on_positions():
    note("Judge, 7: under two positions, no position too.")
    refused(7, 0, "judge 1", "judge 1 0 0 2", "judge 1 3 2 0")

    note("Judge, 7: the start isn't first, the end isn't last, one of them occurs elsewhere; 7 "
         "before 10 and 11, as in the first (0, 1) isn't due and in the second (1, 3) stays due.")
    refused(7, 0, "judge 1 1 1 8 3 2 0", "judge 1 0 0 2 1 1 8", "judge 1 0 0 2 0 0 2 1 1 8 3 2 0",
            "judge 1 0 0 2 3 2 0 1 1 8 3 2 0", "judge 1 3 2 0 1 1 8 0 0 2")

    note("Judge, 7 before 8: sets that aren't in the net besides.")
    refused(7, 0, "judge 1 1 5 9 3 9 9", "judge 1 0 0 99 1 1 8 0 0 0")

    note("Judge, 8: the first position whose X or Y isn't in the net.")
    refused(8, 1, "judge 1 0 0 8 1 1 8 3 2 0")
    refused(8, 2, "judge 1 0 0 2 1 2 8 3 8 0")
    refused(8, 3, "judge 1 0 0 2 1 1 8 3 8 0")

    note("Judge, 8 before 10, wherever they are: the binding at position 2 isn't possible, as (0, "
         "2) isn't due, and at position 3 the set 8 isn't in the net.")
    refused(8, 3, "judge 1 0 0 2 2 1 8 3 8 0")

    note("Judge, 8 before 11: (0, 1) stays due, and at position 3 Y isn't in the net.")
    refused(8, 3, "judge 1 0 0 6 2 1 8 3 4 1")

    note("Judge, 10: the first binding that isn't possible; 10 before 11.")
    refused(10, 2, "judge 1 0 0 2 2 1 8 3 4 0")
    refused(10, 3, "judge 1 0 0 2 1 1 8 3 4 0", "judge 1 0 0 6 1 1 8 3 4 0")

    note("Judge, 11: the last state isn't zero.")
    refused(11, 0, "judge 1 0 0 6 1 1 8 3 2 0", "judge 1 0 0 6 2 1 8 3 4 0")


def of_learn():
    note("Learn, 2: the record isn't orderly, and comes back as it was, also with a sequence "
         "whose sets are all there.")
    disorderly_f()
    ok("copy 2 0")
    refused(2, 0, "learn 0 0 0 2 1 1 8 3 2 0")
    same(0, 2)
    refused(2, 0, "learn 0 0 0 2 1 1 4 2 2 8 3 4 0")
    same(0, 2)

    note("Learn, 2 before 3, 4, 7, 9, 10 and 11.")
    refused(2, 0, "learn 0 0 0", f"learn 0 {NO_ACTIVITY} 0 2 1 1 8 3 2 0", "learn 0",
            "learn 0 0 1 2 3 2 0", f"learn 0 {NOT_DUE}", f"learn 0 {LEFT_DUE}")
    same(0, 2)


def of_learn_on_too_many_positions():
    note("Learn, 3: the words aren't a multiple of three; 3 before 4 and 7.")
    ok("fresh 0 0 3", "fresh 2 0 3")
    refused(3, 0, "learn 0 0 0 2 1", f"learn 0 {NO_ACTIVITY} 0 2 1", "learn 0 5")
    same(0, 2)
    refused(3, 0, f"learn 0 {too_many_positions(f'{NO_ACTIVITY} 0 0')}",
            f"learn 0 {too_many_positions('0 0 0')}")
    same(0, 2)

    note(f"Learn, 3 before 9, 10 and 11: of {POSITIONS + 1} positions the third has an empty X; or "
         "takes (0, 1), which isn't due any more; or (1, 1) stays due by Y 10 at the last but one.")
    refused(3, 0, f"learn 0 {long_loop(third='1 0 2')}", f"learn 0 {long_loop(third='1 1 2')}",
            f"learn 0 {long_loop(last_but_one='1 2 10')}")
    same(0, 2)


def of_learn_on_activities():
    note(f"Learn, 4: the first position whose activity is above {LAST}; 4 before 7, 9, 10.")
    refused(4, 2, f"learn 0 0 0 2 {NO_ACTIVITY} 1 8 {NO_ACTIVITY + 1} 2 0")
    refused(4, 3, f"learn 0 0 0 2 1 1 8 {NO_ACTIVITY} 2 0")
    refused(4, 1, f"learn 0 {NO_ACTIVITY} 0 2 1 1 8 3 2 0", f"learn 0 {NO_ACTIVITY} 0 0")
    refused(4, 3, f"learn 0 5 1 0 5 0 0 {NO_ACTIVITY} 0 0")
    same(0, 2)
    refused(4, POSITIONS, f"learn 0 {repeated('1 1 8', POSITIONS - 1)} {NO_ACTIVITY} 2 0")

    note("Learn, 4 before 9, 10 and 11, which hold before it: X is filled at position 1, 10 holds "
         "at position 2, (0, 2) stays due from position 1 on.")
    refused(4, 2, f"learn 0 0 1 2 {NO_ACTIVITY} 1 8 3 2 0")
    refused(4, 3, f"learn 0 0 0 2 2 1 8 {NO_ACTIVITY} 1 8 3 4 0",
            f"learn 0 0 0 6 1 1 8 {NO_ACTIVITY} 1 8 3 2 0")
    same(0, 2)


def of_learn_on_positions():
    note("Learn, 7: under two positions, or start and end aren't first, last and nowhere else; 7 "
         "before 9.")
    refused(7, 0, "learn 0", "learn 0 0 0 2", "learn 0 0 0 0", "learn 0 3 2 0",
            "learn 0 1 0 8 3 2 0", "learn 0 0 0 2 1 1 8", "learn 0 0 0 2 0 1 2 1 1 8 3 2 0",
            "learn 0 0 0 2 3 1 2 1 1 8 3 2 0", "learn 0 3 0 2 1 8 1 0 2 0", "learn 0 1 0 0 1 0 0",
            "learn 0 0 1 0 0 1 0")
    same(0, 2)

    note("Learn, 7 before 10 and 11: the start isn't first; in the first (2, 3) isn't due at "
         "position 2, in the second (1, 2) stays due.")
    refused(7, 0, "learn 0 1 0 8 3 4 0", "learn 0 1 0 12 3 2 0")
    same(0, 2)

    note("Learn, 9: the first position whose X or Y is empty or filled where it may not be.")
    refused(9, 1, "learn 0 0 1 2 1 1 8 3 2 0")
    refused(9, 2, "learn 0 0 0 2 1 0 8 3 2 0")
    refused(9, 3, "learn 0 0 0 2 1 1 8 3 2 1")
    same(0, 2)

    note("Learn, 9 before 10, wherever they are: position 2 isn't possible, as (0, 2) isn't due, "
         "and at position 3 X is empty.")
    refused(9, 3, "learn 0 0 0 2 2 1 8 1 0 8 3 4 0", "learn 0 0 0 2 2 1 8 3 4 8")

    note("Learn, 9 before 11: (0, 2) stays due, and the last Y is filled.")
    refused(9, 3, "learn 0 0 0 6 1 1 8 3 2 8")

    note("Learn, 10: the first binding that isn't possible; 10 before 11.")
    refused(10, 2, "learn 0 0 0 2 2 1 8 3 4 0")
    refused(10, 3, "learn 0 0 0 2 1 1 8 3 4 0", "learn 0 0 0 6 1 1 8 3 4 0")
    same(0, 2)

    note("Learn, 11: the last state isn't zero.")
    refused(11, 0, "learn 0 0 0 6 1 1 8 3 2 0", "learn 0 0 0 6 2 1 8 3 4 0")
    same(0, 2)


def of_learn_on_a_full_side():
    note("Learn, 12: the output side of 0 is full. The numbers before 12 come first: 3, 4, 7, 9, "
         "10, 11.")
    put_new(0, OUT, 0, *fillers(SETS))
    ok("copy 2 0")
    refused(12, 0, "learn 0 0 0 2 1 1 8 3 2 0")
    refused(3, 0, "learn 0 0 0 2 1 1 8 3 2", f"learn 0 {long_loop()}")
    refused(4, 3, f"learn 0 0 0 2 1 1 8 {NO_ACTIVITY} 2 0")
    refused(7, 0, "learn 0 0 0 2 1 1 16 4 2 0")
    refused(9, 3, "learn 0 0 0 2 1 1 8 3 2 1")
    refused(10, 3, "learn 0 0 0 2 1 1 8 3 4 0")
    refused(11, 0, "learn 0 0 0 6 1 1 8 3 2 0")
    same(0, 2)


def of_follow_on_a_full_side():
    note("Follow, 12: the same full side, where Y 2 isn't. 7 before 12: the end isn't last; 4 "
         f"before 12: an entry is above {LAST}; 3 before 12: {POSITIONS + 1} entries.")
    refused(12, 0, "follow 0 0 1 3")
    refused(7, 0, "follow 0 0 1")
    refused(4, 2, f"follow 0 0 {NO_ACTIVITY} 3")
    refused(4, 3, f"follow 0 0 1 {NO_ACTIVITY} 3")
    refused(3, 0, f"follow 0 {loop_trace(POSITIONS + 1)}")
    same(0, 2)


def of_full_sides_that_are_disorderly():
    note("Learn and follow, 2 before 12: the same full side in a record that isn't orderly, which "
         "comes back as it was.")
    disorder(0)
    ok("copy 2 0")
    refused(2, 0, f"learn 0 {VALID}", "follow 0 0 1 3")
    same(0, 2)


def of_learn_on_counts():
    note("Learn, 21: every set of F has the highest count. The numbers before 21 come first: 3, 4, "
         "7, 9, 10, 11.")
    f_at_the_top(0)
    ok("copy 2 0")
    refused(21, 0, f"learn 0 {VALID}", "learn 0 0 0 6 1 1 8 2 1 8 3 6 0")
    refused(3, 0, "learn 0 0 0 2 1 1 8 3 2", f"learn 0 {long_loop()}")
    refused(4, 3, f"learn 0 0 0 2 1 1 8 {NO_ACTIVITY} 2 0")
    refused(7, 0, "learn 0 0 0 2 1 1 16 4 2 0", "learn 0", "learn 0 1 1 8 3 2 0")
    refused(9, 3, "learn 0 0 0 2 1 1 8 3 2 1")
    refused(10, 3, "learn 0 0 0 2 1 1 8 3 4 0")
    refused(11, 0, "learn 0 0 0 6 1 1 8 3 2 0")
    same(0, 2)

    note("Learn, 21: also where some of the sequence's sets are new, which aren't added then. 4 is "
         "new on the output side of 1, 2 on the input side of 2.")
    refused(21, 0, "learn 0 0 0 2 1 1 4 2 2 8 3 4 0")
    same(0, 2)


def of_follow_on_counts():
    note("Follow, 21: the same net, and 7, 4 and 3 before 21.")
    refused(21, 0, "follow 0 0 1 3", "follow 0 0 2 3", "follow 0 0 1 2 3")
    refused(7, 0, "follow 0 0 1", "follow 0 1 3")
    refused(4, 2, f"follow 0 0 {NO_ACTIVITY} 3")
    refused(3, 0, f"follow 0 {loop_trace(POSITIONS + 1)}")
    same(0, 2)

    note("Learn and follow, 2 before 21.")
    disorder(0)
    ok("copy 2 0")
    refused(2, 0, f"learn 0 {VALID}", "follow 0 0 1 3")
    same(0, 2)


BY_1_AND_2 = "0 0 2 1 1 4 2 2 8 3 4 0"  # It adds 4 to the outputs of 1 and 2 to the inputs of 2.


def of_full_sides_and_counts():
    note("Learn and follow, 12 before 21, wherever they are. The output side of 1 is full, so 4 "
         "doesn't fit at position 2. One count is the highest: of the start's empty set, which "
         "comes first; of X or Y of a position before, of the same one, of the last but one and "
         "the last.")
    ok("copy 0 1")
    put_new(0, OUT, 1, *fillers(SETS - 1))  # F has 8 there.
    ok("copy 3 0")
    for count in (in_count(0), out_count(0, 0), in_count(1), out_count(2), in_count(3, 1),
                  out_count(3)):
        ok("copy 0 3")
        set_counts(0, (count, USES))
        ok("copy 2 0")
        refused(12, 0, f"learn 0 {BY_1_AND_2}", "follow 0 0 1 2 3")
        same(0, 2)

    note("The same with a full input side: 2 doesn't fit on that of 2, at position 3.")
    ok("copy 0 1")
    put_new(0, IN, 2, *fillers(SETS - 1))  # F has 1 there.
    ok("copy 3 0")
    for count in in_count(0), out_count(0, 0), in_count(1), out_count(2), out_count(3):
        ok("copy 0 3")
        set_counts(0, (count, USES))
        ok("copy 2 0")
        refused(12, 0, f"learn 0 {BY_1_AND_2}", "follow 0 0 1 2 3")
        same(0, 2)

    note("Where the full side has the set, the count alone is in the way.")
    refused(21, 0, "learn 0 0 0 4 2 1 8 3 4 0")
    set_counts(0, (out_count(3), USES - 1))
    say("learn 0 0 0 4 2 1 8 3 4 0", "ok 0")


def of_a_full_side_with_counts():
    note("Learn and follow, 12 before 21, both on one side: on the full output side of 1 one of 2 "
         "and 8 is missing and the other has the highest count. The loop uses 2 at positions 2 and "
         "3 and 8 at position 4.")
    for there in 2, 8:
        ok("fresh 0 0 3")
        put_new(0, OUT, 1, there, *fillers(SETS - 1))
        set_counts(0, (out_count(1), USES))
        ok("copy 2 0")
        refused(12, 0, f"learn 0 {loop(5)}", f"follow 0 {loop_trace(5)}")
        same(0, 2)

    note("Register 3 is the fresh net of 0 and 1 again.")
    ok("fresh 3 0 1")


def of_follow():
    too_long = repeated(f"{NO_ACTIVITY}", POSITIONS + 1)

    note("Follow, 2: the record isn't orderly, and comes back as it was.")
    disorderly_f()
    ok("copy 2 0")
    refused(2, 0, "follow 0 0 1 3", "follow 0 0 1 2 3", f"follow 0 {NO_ACTIVITY}", "follow 0",
            f"follow 0 {too_long}")
    same(0, 2)

    note(f"Follow, 3 before 4: {POSITIONS + 1} entries, all above {LAST}.")
    ok("fresh 0 0 3", "fresh 2 0 3")
    refused(3, 0, f"follow 0 {too_long}", f"follow 0 {repeated('1', POSITIONS + 1)}")

    note(f"Follow, 4: the first position above {LAST}, {POSITIONS} here; 4 before 7.")
    refused(4, POSITIONS, f"follow 0 {repeated('1', POSITIONS - 1)} {NO_ACTIVITY}")
    refused(4, 1, f"follow 0 {NO_ACTIVITY}")
    refused(4, 2, f"follow 0 0 {NO_ACTIVITY + 1} {NO_ACTIVITY} 3")
    refused(4, 1, f"follow 0 {MAX_32} 3")

    note("Follow, 7: under two entries, or start and end aren't first, last and nowhere else.")
    refused(7, 0, "follow 0", "follow 0 0", "follow 0 3", "follow 0 1 3", "follow 0 0 1",
            "follow 0 0 0 3", "follow 0 0 3 3", "follow 0 0 1 0 1 3", "follow 0 0 1 3 1 3",
            "follow 0 3 1 0", "follow 0 0 0", "follow 0 3 3")
    same(0, 2)


def of_replay():
    note("Replay, 2: the record isn't orderly; 2 before 3, 4 and before none.")
    disorderly_f()
    refused(2, 0, "replay 0 100 9 0 1 3", "replay 0 100 8 0 1 3",
            f"replay 0 100 {BUFFER_WORDS} {loop_trace(POSITIONS + 1)}",
            f"replay 0 100 9 0 {NO_ACTIVITY} 3", "replay 0 100 0", "replay 0 0 9 0 1 3")

    note("Replay, 3: the buffer is shorter than three words a position; 3 before 4 and 6.")
    refused(3, 0, "replay 1 100 8 0 1 3", f"replay 1 100 8 0 {NO_ACTIVITY} 3",
            "replay 3 100 5 0 1", f"replay 1 100 2 {NO_ACTIVITY}")

    note(f"Replay, 3: {POSITIONS + 1} entries; 3 before 4 and 6.")
    refused(3, 0, f"replay 1 100 {BUFFER_WORDS} {repeated(f'{NO_ACTIVITY}', POSITIONS + 1)}",
            f"replay 3 100 {BUFFER_WORDS} {repeated('0', POSITIONS + 1)}")

    note(f"Replay, 4: the first position above {LAST}; 4 before 6 and before none.")
    refused(4, 2, f"replay 1 100 9 0 {NO_ACTIVITY} {NO_ACTIVITY + 1}")
    refused(4, 1, f"replay 1 100 3 {NO_ACTIVITY}")
    refused(4, 3, f"replay 1 100 9 1 1 {NO_ACTIVITY}")
    refused(4, 2, f"replay 3 100 9 0 {NO_ACTIVITY} 1", f"replay 1 0 9 0 {NO_ACTIVITY} 3")


def of_replay_on_walks():
    note("Replay, 6: the net doesn't pass, and this comes before none and spent.")
    refused(6, 0, "replay 3 100 6 0 1", "replay 3 100 3 0", "replay 3 100 0", "replay 3 0 6 0 1")
    ok("fresh 0 9 5")
    refused(6, 5, "replay 0 100 6 9 5")
    ok("copy 0 1")
    put_new(0, IN, 2, 2048)
    refused(6, 11, "replay 0 100 9 0 1 3", "replay 0 100 9 1 1 1")

    note("Replay, 2 before 6: 11 is on no walk, but the record isn't orderly either.")
    disorder(0)
    refused(2, 0, "replay 0 100 9 0 1 3")


def of_replay_on_partners():
    note("Replay, 19: a name isn't answered, and this comes before found, none and spent.")
    put_without_partner()
    refused(19, 1, "replay 0 100 9 0 1 3", "replay 0 100 0", "replay 0 100 3 0",
            "replay 0 100 9 1 1 1", "replay 0 0 9 0 1 3", "replay 0 100 6 0 3")

    note("Replay, 3 and 4 before 19.")
    refused(3, 0, "replay 0 100 8 0 1 3",
            f"replay 0 100 {BUFFER_WORDS} {repeated('0', POSITIONS + 1)}")
    refused(4, 2, f"replay 0 100 9 0 {NO_ACTIVITY} 3")

    note("Replay, 6 and 2 before 19.")
    put_new(0, IN, 2, 2048)
    refused(6, 11, "replay 0 100 9 0 1 3", "replay 0 100 0")
    disorder(0)
    refused(2, 0, "replay 0 100 9 0 1 3", "replay 0 100 0")

    note("Replay, 19: the lowest naming activity, here by an input set; with its partner the trace "
         "is searched again. After Y 2 at the start both input sets of 2 fail; after Y 4 its first "
         "one is possible, and then the second one of 3.")
    ok("copy 0 1")
    put_new(0, IN, 2, 2)
    refused(19, 2, "replay 0 100 9 0 2 3")
    put_new(0, OUT, 1, 4)
    say("replay 0 100 9 0 2 3", "found 7 0 0 4 2 1 8 3 4 0")
