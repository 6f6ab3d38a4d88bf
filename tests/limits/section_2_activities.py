"""The part of section 2 on activities: the highest, and the lowest number that is none."""

from calls import IN, OUT, put_new, same
from limits import ACTIVITIES, ALL, LAST, MAX_32, NO_ACTIVITY
from record import in_length, in_place, out_length, out_place
from script import note, ok, refused, say

NEXT_LAST = LAST - 1


def write():
    activities_of_fresh()
    activities_of_put()
    activities_of_traces()
    activities_of_sequences()


def activities_of_fresh():
    note(f"Activities are numbers 0 to {LAST}. Fresh takes {NEXT_LAST} and {LAST}.")
    ok("fresh 3 0 1", f"fresh 0 {NEXT_LAST} {LAST}")
    say("peek 0 0 2", f"words {NEXT_LAST} {LAST}")
    say(f"peek 0 {in_length(NEXT_LAST)} 2", "words 1 0")
    say(f"peek 0 {out_length(NEXT_LAST)} 2", "words 0 1")
    ok(f"fresh 0 {LAST} {NEXT_LAST}")
    say("peek 0 0 2", f"words {LAST} {NEXT_LAST}")
    say(f"peek 0 {in_length(NEXT_LAST)} 2", "words 0 1")
    say(f"peek 0 {out_length(NEXT_LAST)} 2", "words 1 0")
    ok(f"fresh 0 0 {LAST}")
    say("peek 0 0 3", f"words 0 {LAST} 1")
    ok(f"fresh 0 {LAST} 0")
    say(f"peek 0 {in_length(LAST)} 2", "words 1 1")

    note(f"1: the start is {NO_ACTIVITY}; a refused fresh returns the fresh net of 0 and 1.")
    refused_fresh(f"{NO_ACTIVITY} 0", f"{NO_ACTIVITY} {LAST}")

    note(f"1: the end is {NO_ACTIVITY}.")
    refused_fresh(f"0 {NO_ACTIVITY}", f"{LAST} {NO_ACTIVITY}")

    note(f"1: the largest 32-bit numbers are above {LAST} too.")
    refused(1, 0, f"fresh 0 {MAX_32} 0", f"fresh 0 0 {MAX_32}")

    note(f"1: {NO_ACTIVITY + 1} is above {LAST}, although its low five bits are those of 1.")
    refused(1, 0, f"fresh 0 {NO_ACTIVITY + 1} 2", f"fresh 0 2 {NO_ACTIVITY + 1}")

    note("1: start and end are equal at the border.")
    refused(1, 0, f"fresh 0 {LAST} {LAST}", "fresh 0 0 0")


def refused_fresh(*ends):
    """Starts and ends of which there is no fresh net; register 0 has another net to lose."""
    for start_and_end in ends:
        ok("fresh 0 9 8")
        refused(1, 0, f"fresh 0 {start_and_end}")
        same(0, 3)


def activities_of_put():
    note(f"4: in put {NEXT_LAST} and {LAST} are activities, {NO_ACTIVITY} is above {LAST}; the "
         "place is 0 for put.")
    ok(f"fresh 0 0 {LAST}")
    put_new(0, IN, NEXT_LAST, 1)
    put_new(0, OUT, NEXT_LAST, 1 << LAST)
    put_new(0, IN, LAST, 1 << NEXT_LAST)
    ok("copy 1 0")
    refused(4, 0, f"put 0 0 {NO_ACTIVITY} 1")
    same(0, 1)
    refused(4, 0, f"put 0 1 {NO_ACTIVITY} 1")
    same(0, 1)
    refused(4, 0, f"put 0 0 {MAX_32} 1", f"put 0 1 {MAX_32} 1")
    same(0, 1)

    note(f"A set is any {ACTIVITIES} bits: the highest mask names activities 0 to {LAST}.")
    put_new(0, IN, NEXT_LAST, ALL)
    say(f"put 0 0 {NEXT_LAST} {ALL}", "ok 0")
    say(f"peek 0 {in_place(NEXT_LAST)} 2", f"words 1 {ALL}")


def activities_of_traces():
    note(f"4: in the trace of a follow {NEXT_LAST} and {LAST} are activities, {NO_ACTIVITY} is "
         "not; the position is returned.")
    ok(f"fresh 0 0 {LAST}")
    say(f"follow 0 0 {NEXT_LAST} {LAST}", "ok 4")
    say(f"peek 0 {out_place(0)} 1", f"words {1 << NEXT_LAST}")
    say(f"peek 0 {in_place(NEXT_LAST)} 1", "words 1")
    say(f"peek 0 {out_place(NEXT_LAST)} 1", f"words {1 << LAST}")
    say(f"peek 0 {in_place(LAST)} 1", f"words {1 << NEXT_LAST}")
    ok("copy 1 0")
    refused(4, 2, f"follow 0 0 {NO_ACTIVITY} {LAST}")
    same(0, 1)
    refused(4, 3, f"follow 0 0 {NEXT_LAST} {NO_ACTIVITY}")
    refused(4, 1, f"follow 0 {NO_ACTIVITY} {NEXT_LAST} {LAST}")
    same(0, 1)

    note("4: the same for the trace of a replay.")
    say("check 0", "ok 2")
    say(f"replay 0 100 9 0 {NEXT_LAST} {LAST}", f"found 3 {by_the_next_last()}")
    refused(4, 2, f"replay 0 100 9 0 {NO_ACTIVITY} {LAST}")
    refused(4, 1, f"replay 0 100 9 {NO_ACTIVITY} {NEXT_LAST} {LAST}")
    refused(4, 3, f"replay 0 100 9 0 {NEXT_LAST} {NO_ACTIVITY}")
    refused(4, 2, f"replay 0 100 9 0 {MAX_32} {LAST}")


def by_the_next_last(first=0, second=NEXT_LAST, third=LAST):
    """From 0 by the last but one to the last activity, or with other activity words instead."""
    return f"{first} 0 {1 << NEXT_LAST} {second} 1 {1 << LAST} {third} {1 << NEXT_LAST} 0"


def activities_of_sequences():
    note("4: the same for a sequence; only its activity words are activities.")
    ok(f"fresh 0 0 {LAST}")
    say(f"learn 0 {by_the_next_last()}", "ok 4")
    same(0, 1)
    refused(4, 2, f"learn 0 {by_the_next_last(second=NO_ACTIVITY)}")
    refused(4, 1, f"learn 0 {by_the_next_last(first=NO_ACTIVITY)}")
    refused(4, 3, f"learn 0 {by_the_next_last(third=NO_ACTIVITY)}",
            f"learn 0 {by_the_next_last(third=MAX_32)}")
    same(0, 1)
    ok(f"judge 0 {by_the_next_last()}")
    refused(4, 2, f"judge 0 {by_the_next_last(second=NO_ACTIVITY)}")
    refused(4, 1, f"judge 0 {by_the_next_last(first=NO_ACTIVITY)}")
    refused(4, 3, f"judge 0 {by_the_next_last(third=NO_ACTIVITY)}")

    note(f"Activity {LAST} in the middle of a sequence.")
    by_the_last = f"0 0 {1 << LAST} {LAST} 1 2 1 {1 << LAST} 0"
    ok("fresh 0 0 1")
    say(f"learn 0 {by_the_last}", "ok 4")
    say("check 0", "ok 2")
    ok(f"judge 0 {by_the_last}")
    say(f"replay 0 3 9 0 {LAST} 1", f"found 3 {by_the_last}")
