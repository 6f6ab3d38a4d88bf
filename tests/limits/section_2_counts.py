"""The part of section 2 on counts of uses: learning up to the highest, and above it."""

from bindings import loop, loop_trace
from calls import IN, OUT, counted_side, put_new, read_f, same, set_counts
from limits import POSITIONS, USES
from record import in_count, out_count
from script import note, ok, refused, say


def write():
    one_use()
    several_uses()
    uses_of_another_set()
    sets_that_are_not_used()
    new_sets()


def accepted_up_to_the_top(call, net, count, uses):
    """A call on the net in a register, which uses the set of this count so many times.

    It is accepted if the count gets just to the highest, and refused if it would get one above.
    """
    ok(f"copy 0 {net}")
    set_counts(0, (count, USES - uses))
    say(call, "ok 0")
    say(f"peek 0 {count} 1", f"words {USES}")
    ok(f"copy 0 {net}")
    set_counts(0, (count, USES - uses + 1))
    ok("copy 2 0")
    refused(21, 0, call)
    same(0, 2)


def one_use():
    note(f"A count is at most {USES}. (0,0,2)(1,1,8)(3,2,0) uses six sets of F once: at "
         f"{USES - 1} each gets to {USES}, at {USES} each refuses by 21, the start's and the end's "
         "empty set too.")
    read_f(1)
    for call in "learn 0 0 0 2 1 1 8 3 2 0", "follow 0 0 1 3":
        for count in (in_count(0), out_count(0, 0), in_count(1), out_count(1), in_count(3, 0),
                      out_count(3)):
            accepted_up_to_the_top(call, 1, count, uses=1)

    note("A second use is too many then.")
    ok("copy 0 1")
    set_counts(0, (out_count(1), USES - 1))
    say("learn 0 0 0 2 1 1 8 3 2 0", "ok 0")
    ok("copy 2 0")
    refused(21, 0, "learn 0 0 0 2 1 1 8 3 2 0", "follow 0 0 1 3",
            "learn 0 0 0 6 1 1 8 2 1 8 3 6 0")
    same(0, 2)


def several_uses():
    note("The loop uses 2 on each side of 1 at all but three positions. The net of the loop has "
         "the sets 1 and 2, and 2 and 8 there.")
    ok("fresh 1 0 3")
    put_new(1, OUT, 0, 2)
    put_new(1, IN, 1, 1, 2)
    put_new(1, OUT, 1, 2, 8)
    put_new(1, IN, 3, 2)
    for positions in 5, 6, POSITIONS:
        for call in f"learn 0 {loop(positions)}", f"follow 0 {loop_trace(positions)}":
            for count in in_count(1, 1), out_count(1, 0):
                accepted_up_to_the_top(call, 1, count, uses=positions - 3)

    note("Far above too.")
    for count in in_count(1, 1), out_count(1, 0):
        ok("copy 0 1")
        set_counts(0, (count, USES))
        ok("copy 2 0")
        refused(21, 0, f"learn 0 {loop(POSITIONS)}", f"follow 0 {loop_trace(5)}")
        same(0, 2)


def uses_of_another_set():
    note("In the same sequence the uses of one set don't count for another: 1 and 8 on the sides "
         "of 1 are used once, and so is 2 on the other sides.")
    for count in (in_count(0), out_count(0), in_count(1, 0), out_count(1, 1), in_count(3),
                  out_count(3)):
        accepted_up_to_the_top(f"learn 0 {loop(POSITIONS)}", 1, count, uses=1)


def sets_that_are_not_used():
    note("Only counts that the sequence raises are looked at: F with the highest count for 2 and 4 "
         "on the output side of 0 and on the input side of 3 learns (0,0,6)(1,1,8)(2,1,8)(3,6,0).")
    read_f(0)
    set_counts(0, (out_count(0, 0), USES), (out_count(0, 1), USES),
               (in_count(3, 0), USES), (in_count(3, 1), USES))
    say("learn 0 0 0 6 1 1 8 2 1 8 3 6 0", "ok 0")
    counted_side(0, OUT, 0, {2: USES, 4: USES, 6: 1})
    counted_side(0, IN, 3, {2: USES, 4: USES, 6: 1})
    counted_side(0, IN, 1, {1: 1})
    ok("copy 2 0")
    refused(21, 0, "learn 0 0 0 2 1 1 8 3 2 0", "learn 0 0 0 4 2 1 8 3 4 0")
    same(0, 2)


def new_sets():
    note("A new set is never in the way, whatever the counts beside it: 4 in front, between and "
         "behind sets with the highest count.")
    for there in (8, 16), (2, 16), (2, 3):
        ok("fresh 0 0 3")
        put_new(0, OUT, 0, *there)
        put_new(0, IN, 3, *there)
        set_counts(0, *((count(activity, place), USES) for place in (0, 1)
                        for count, activity in ((out_count, 0), (in_count, 3))))
        say("learn 0 0 0 4 2 1 8 3 4 0", "ok 4")
        counts = dict(sorted({**dict.fromkeys(there, USES), 4: 1}.items()))
        counted_side(0, OUT, 0, counts)
        counted_side(0, IN, 3, counts)
