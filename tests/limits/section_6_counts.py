"""The part of section 6 on counts of uses (02, (viii)): what put, learn and follow do to them.

Put gives a new set the count 0, and a learned sequence adds one for each position that uses a set.
"""

from bindings import FIG_4
from calls import (
    IN, OUT, F_COUNTS, counted_side, disorder, f_at_the_top, no_counts, peek, put_new, read_f,
    same, same_sets, set_counts,
)
from limits import LAST, NO_ACTIVITY, SETS, USES
from record import WORDS, in_count, out_count, record
from script import note, ok, refused, say

VALID = "0 0 2 1 1 8 3 2 0"  # In F, where it uses each of its sets once.


def write():
    read_f(1)
    fresh_nets()
    put_on_an_input_side()
    put_on_an_output_side()
    put_on_the_last_side()
    put_where_it_is()
    put_refused()
    learned_once_and_twice()
    learned_by_several_positions()
    learned_in_front_of_others()
    followed_by_several_positions()
    refused_learning()
    sets_without_counts()
    calls_that_pass_over_counts()


def counted_f():
    """Register 0 becomes F, which register 1 holds, with the counts 21 to 32 for its sets."""
    ok("copy 0 1")
    set_counts(0, *((word, 21 + place) for place, word in enumerate(F_COUNTS)))


def fresh_nets():
    note("A fresh net has no counts, whatever the register held, and a refused fresh neither.")
    counted_f()
    ok("fresh 0 0 3")
    no_counts(0)
    counted_f()
    refused(1, 0, "fresh 0 3 3")
    no_counts(0)


def put_on_an_input_side():
    note("Put gives a new set the count 0, and the counts behind it move along with their sets: at "
         "the front, in the middle and at the end of the input side of 3. The sets 2, 4 and 6 "
         "there have the counts 24, 25 and 26.")
    counted_f()
    counted_side(0, IN, 3, {2: 24, 4: 25, 6: 26})
    put_new(0, IN, 3, 1)
    counted_side(0, IN, 3, {1: 0, 2: 24, 4: 25, 6: 26})
    put_new(0, IN, 3, 5)
    counted_side(0, IN, 3, {1: 0, 2: 24, 4: 25, 5: 0, 6: 26})
    put_new(0, IN, 3, 16)
    counted_side(0, IN, 3, {1: 0, 2: 24, 4: 25, 5: 0, 6: 26, 16: 0})

    note("The counts of the other sides stay.")
    peek(0, 0, WORDS, record(
        0, 3,
        inputs={1: [1], 2: [1], 3: [1, 2, 4, 5, 6, 16]},
        outputs={0: [2, 4, 6], 1: [8], 2: [8]},
        counts=[
            (in_count(0), 21), (in_count(1), 22), (in_count(2), 23),
            (in_count(3, 1), 24), (in_count(3, 2), 25), (in_count(3, 4), 26),
            (out_count(0, 0), 27), (out_count(0, 1), 28), (out_count(0, 2), 29),
            (out_count(1), 30), (out_count(2), 31), (out_count(3), 32),
        ],
    ))


def put_on_an_output_side():
    note("The same on the output side of 0, where 2, 4 and 6 have 27, 28 and 29.")
    counted_f()
    counted_side(0, OUT, 0, {2: 27, 4: 28, 6: 29})
    put_new(0, OUT, 0, 16)
    counted_side(0, OUT, 0, {2: 27, 4: 28, 6: 29, 16: 0})
    put_new(0, OUT, 0, 3)
    counted_side(0, OUT, 0, {2: 27, 3: 0, 4: 28, 6: 29, 16: 0})
    put_new(0, OUT, 0, 1)
    counted_side(0, OUT, 0, {1: 0, 2: 27, 3: 0, 4: 28, 6: 29, 16: 0})

    note("And on the sides of 4, which had no sets.")
    put_new(0, IN, 4, 7)
    put_new(0, OUT, 4, 7)
    peek(0, 0, WORDS, record(
        0, 3,
        inputs={1: [1], 2: [1], 3: [2, 4, 6], 4: [7]},
        outputs={0: [1, 2, 3, 4, 6, 16], 1: [8], 2: [8], 4: [7]},
        counts=[
            (in_count(0), 21), (in_count(1), 22), (in_count(2), 23),
            (in_count(3, 0), 24), (in_count(3, 1), 25), (in_count(3, 2), 26),
            (out_count(0, 1), 27), (out_count(0, 3), 28), (out_count(0, 4), 29),
            (out_count(1), 30), (out_count(2), 31), (out_count(3), 32),
        ],
    ))


def put_on_the_last_side():
    sets = range(2, SETS + 1)
    note(f"All counts of a side move: {len(sets)} sets on the output side of {LAST}, the last of "
         "the record, and a last one in front of them; the side is full then. The same on the "
         "input side of 1, behind which the sets of 2 stand.")
    counted_f()
    put_new(0, OUT, LAST, *sets)
    put_new(0, IN, 1, *sets)
    set_counts(0, *((out_count(LAST, place), 100 + one) for place, one in enumerate(sets)),
               *((in_count(1, place), 200 + place) for place in range(SETS)))
    put_new(0, OUT, LAST, 1)
    counted_side(0, OUT, LAST, {1: 0, **{one: 100 + one for one in sets}})
    ok("copy 2 0")
    refused(12, 0, f"put 0 1 {LAST} 99", "put 0 0 1 99")
    same(0, 2)
    counted_side(0, IN, 1, {one: 199 + one for one in range(1, SETS + 1)})
    counted_side(0, IN, 2, {1: 23})


def put_where_it_is():
    note("Put of a set that is there changes no count: it isn't a way to set one back to 0.")
    counted_f()
    ok("copy 2 0")
    for put in ("0 1 1", "0 2 1", "0 3 2", "0 3 4", "0 3 6", "1 0 2", "1 0 4", "1 0 6", "1 1 8",
                "1 2 8"):
        say(f"put 0 {put}", "ok 0")
        same(0, 2)

    note("Nor does put of the empty set on the start's input side or the end's output side.")
    say("put 0 0 0 0", "ok 0")
    say("put 0 1 3 0", "ok 0")
    same(0, 2)


def put_refused():
    note("A refused put changes no count: 4, 5, 12 and 2.")
    counted_f()
    put_new(0, OUT, 1, *range(9, 8 + SETS))
    ok("copy 2 0")
    refused(4, 0, f"put 0 0 {NO_ACTIVITY} 1", f"put 0 1 {NO_ACTIVITY} 1")
    refused(5, 0, "put 0 0 1 0", "put 0 1 0 0", "put 0 0 0 1", "put 0 1 3 1")
    refused(12, 0, "put 0 1 1 1", "put 0 1 1 99")
    same(0, 2)
    disorder(0)
    ok("copy 2 0")
    refused(2, 0, "put 0 0 3 1", "put 0 0 3 2")
    same(0, 2)


def learned_once_and_twice():
    note("Learn adds one to the count of each set of (0,0,2)(1,1,8)(3,2,0), the two empty sets "
         "among them. New sets have the count 1 then.")
    ok("fresh 0 0 3")
    say(f"learn 0 {VALID}", "ok 4")
    once = [in_count(0), in_count(1), in_count(3), out_count(0), out_count(1), out_count(3)]
    lists = {"inputs": {1: [1], 3: [2]}, "outputs": {0: [2], 1: [8]}}
    peek(0, 0, WORDS, record(0, 3, **lists, counts=[(count, 1) for count in once]))

    note("The second time no set is new, and the counts are 2.")
    say(f"learn 0 {VALID}", "ok 0")
    peek(0, 0, WORDS, record(0, 3, **lists, counts=[(count, 2) for count in once]))

    note("Sets that were put before are counted as well as those that are new.")
    ok("copy 0 1")
    say(f"learn 0 {VALID}", "ok 0")
    ok("copy 2 1")
    set_counts(2, *((count, 1) for count in once))
    same(0, 2)

    note("What was counted stays: F with the counts 21 to 32, of which six grow.")
    counted_f()
    ok("copy 2 0")
    say(f"learn 0 {VALID}", "ok 0")
    set_counts(2, (in_count(0), 22), (in_count(1), 23), (in_count(3, 0), 25),
               (out_count(0, 0), 28), (out_count(1), 31), (out_count(3), 33))
    same(0, 2)


def learned_by_several_positions():
    note("A set is counted at each position that uses it. In the sequence of Fig. 4 that of 2 uses "
         "the same sets twice, 1 and 3 two sets each on either side.")
    ok("fresh 0 0 4")
    for times, new in (1, 12), (2, 0), (3, 0):
        say(f"learn 0 {FIG_4}", f"ok {new}")
        counted_side(0, IN, 0, {0: times})
        counted_side(0, OUT, 0, {2: times})
        counted_side(0, IN, 1, {1: times, 2: times})
        counted_side(0, OUT, 1, {6: times, 12: times})
        counted_side(0, IN, 2, {2: 2 * times})
        counted_side(0, OUT, 2, {8: 2 * times})
        counted_side(0, IN, 3, {6: times, 12: times})
        counted_side(0, OUT, 3, {8: times, 16: times})
        counted_side(0, IN, 4, {8: times})
        counted_side(0, OUT, 4, {0: times})

    note("A mask is counted on each side by itself: 2 is used twice on either side of 1, and once "
         "on the output side of 0 and on the input side of 3.")
    ok("fresh 0 0 3")
    say("learn 0 0 0 2 1 1 2 1 2 2 1 2 8 3 2 0", "ok 6")
    counted_side(0, IN, 1, {1: 1, 2: 2})
    counted_side(0, OUT, 1, {2: 2, 8: 1})
    counted_side(0, OUT, 0, {2: 1})
    counted_side(0, IN, 3, {2: 1})


def learned_in_front_of_others():
    note("New sets in front of counted ones, in one sequence: follow of 0 2 3 2 3 2 1 2 3 2 4 puts "
         "8 on the output side of 2, uses it twice, puts 2 in front of it, uses 8 again and puts "
         "16 behind it. On its input side are 1, then 8 twice, then 2 between them, then 8 again.")
    ok("fresh 0 0 4")
    say("follow 0 0 2 3 2 3 2 1 2 3 2 4", "ok 12")
    counted_side(0, OUT, 2, {2: 1, 8: 3, 16: 1})
    counted_side(0, IN, 2, {1: 1, 2: 1, 8: 3})
    counted_side(0, IN, 3, {4: 3})
    counted_side(0, OUT, 3, {4: 3})
    counted_side(0, IN, 1, {4: 1})
    counted_side(0, OUT, 1, {4: 1})
    counted_side(0, IN, 4, {4: 1})

    note("New sets in front of sets that were counted before; the counts move along with these, "
         "and learning goes on with them.")
    ok("fresh 0 0 3")
    put_new(0, OUT, 0, 4, 6)
    put_new(0, IN, 3, 4, 6)
    set_counts(0, (out_count(0, 0), 70), (out_count(0, 1), 80), (in_count(3, 0), 90),
               (in_count(3, 1), USES))
    say(f"learn 0 {VALID}", "ok 4")
    counted_side(0, OUT, 0, {2: 1, 4: 70, 6: 80})
    counted_side(0, IN, 3, {2: 1, 4: 90, 6: USES})
    say("learn 0 0 0 4 2 1 8 3 4 0", "ok 2")
    counted_side(0, OUT, 0, {2: 1, 4: 71, 6: 80})
    counted_side(0, IN, 3, {2: 1, 4: 91, 6: USES})


def followed_by_several_positions():
    note("Follow counts as learn does on the sequence that it makes: of 0 1 1 1 3 it is "
         "(0,0,2)(1,1,2)(1,2,2)(1,2,8)(3,2,0).")
    ok("fresh 0 0 3", "fresh 2 0 3")
    say("follow 0 0 1 1 1 3", "ok 6")
    say("learn 2 0 0 2 1 1 2 1 2 2 1 2 8 3 2 0", "ok 6")
    same(0, 2)
    counted_side(0, IN, 0, {0: 1})
    counted_side(0, IN, 1, {1: 1, 2: 2})
    counted_side(0, OUT, 1, {2: 2, 8: 1})
    counted_side(0, OUT, 3, {0: 1})

    note("Start and end alone, three times.")
    ok("fresh 0 0 3")
    for new in 2, 0, 0:
        say("follow 0 0 3", f"ok {new}")
    peek(0, 0, WORDS, record(
        0, 3, inputs={3: [1]}, outputs={0: [8]},
        counts=[(in_count(0), 3), (in_count(3), 3), (out_count(0), 3), (out_count(3), 3)],
    ))

    note("An activity's input counts add up to its occurrences, and so do its output counts: after "
         "0 1 2 3, 0 2 1 3 and 0 1 1 3 there are four of 1 and two of 2.")
    ok("fresh 0 0 3")
    say("follow 0 0 1 2 3", "ok 6")
    say("follow 0 0 2 1 3", "ok 6")
    say("follow 0 0 1 1 3", "ok 2")
    counted_side(0, IN, 1, {1: 2, 2: 1, 4: 1})
    counted_side(0, OUT, 1, {2: 1, 4: 1, 8: 2})
    counted_side(0, IN, 2, {1: 1, 2: 1})
    counted_side(0, OUT, 2, {2: 1, 8: 1})
    counted_side(0, OUT, 0, {2: 2, 4: 1})
    counted_side(0, IN, 3, {2: 2, 4: 1})


def refused_learning():
    note("A refused learn or follow adds to no count, also where positions before the fault could "
         "be learned: 3, 4, 7, 9, 10, 11 and 12.")
    counted_f()
    put_new(0, IN, 3, *range(16, 13 + SETS))
    ok("copy 2 0")
    refused(3, 0, f"learn 0 {VALID} 0")
    refused(4, 3, f"learn 0 0 0 2 1 1 8 {NO_ACTIVITY} 2 0", f"follow 0 0 1 {NO_ACTIVITY}")
    refused(7, 0, "learn 0 0 0 2 1 1 8", "follow 0 0 1")
    refused(9, 3, "learn 0 0 0 2 1 1 8 3 2 1")
    refused(10, 3, "learn 0 0 0 2 1 1 8 3 4 0")
    refused(11, 0, "learn 0 0 0 6 1 1 8 3 2 0")
    refused(12, 0, "learn 0 0 0 8 3 1 0", "follow 0 0 3")
    same(0, 2)


def sets_without_counts():
    note("A set may have the count 0 beside others that were used, and stays a set of the net.")
    ok("copy 0 1")
    say(f"learn 0 {VALID}", "ok 0")
    counted_side(0, OUT, 0, {2: 1, 4: 0, 6: 0})
    ok("judge 0 0 0 4 2 1 8 3 4 0")
    say("replay 0 100 9 0 2 3", "found 6 0 0 4 2 1 8 3 4 0")


def calls_that_pass_over_counts():
    note("Containment, check, judge and replay pass over the counts: F with the highest count for "
         "every set answers as F does, and is contained in F as F is in it.")
    f_at_the_top(0)
    ok("copy 2 0")
    for register in 1, 0:
        say(f"check {register}", "ok 4")
        say(f"peak {register} 0 0 6 1 1 8 2 1 8 3 6 0", "ok 2")
        refused(8, 2, f"judge {register} 0 0 2 1 2 8 3 2 0")
        refused(10, 2, f"judge {register} 0 0 2 2 1 8 3 4 0")
        refused(11, 0, f"judge {register} 0 0 6 1 1 8 3 2 0")
        say(f"replay {register} 100 12 0 1 2 3", "found 11 0 0 6 1 1 8 2 1 8 3 6 0")
        say(f"replay {register} 100 6 0 3", "none 12")
        say(f"replay {register} 10 12 0 1 2 3", "spent 10")
    same_sets(0, 1)
    same(0, 2)

    note("Sets are compared and not counts: one more set makes the net larger, whatever the counts "
         "are, higher in the one net and lower in the other.")
    put_new(1, OUT, 0, 5)
    set_counts(1, (in_count(0), 3), (out_count(0, 0), 1), (out_count(0, 3), USES))
    say("contained 0 1", "ok 1")
    say("contained 1 0", "ok 0")

    note("Put adds a set to the net with the highest counts.")
    put_new(0, OUT, 0, 5)
    same_sets(0, 1)
    counted_side(0, OUT, 0, {2: USES, 4: USES, 5: 0, 6: USES})
    read_f(1)
