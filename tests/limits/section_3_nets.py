"""The part of section 3 on fresh, put, containment and net check."""

from bindings import fillers
from calls import OUT, disorder, put_new, same
from files import net_file
from limits import ALL, LAST, MAX_32, NO_ACTIVITY, SETS
from record import in_length, out_length
from script import note, ok, refused, say, shown
from wording import spelled_nth

TOO_MANY = spelled_nth(SETS + 1)

# F with an output set of 1 that names 2, in the writer's order.
UNANSWERED_FILE = net_file(
    0, 3,
    "out,0,1", "out,0,2", "out,0,1 2",
    "in,1,0", "out,1,2", "out,1,3",
    "in,2,0", "out,2,3",
    "in,3,1", "in,3,2", "in,3,1 2",
)


def write():
    of_fresh()
    of_put()
    of_put_on_a_side()
    of_put_on_a_full_side()
    of_containment()
    of_net_check()
    of_calls_that_pass_over_partners()


def of_fresh():
    note(f"Fresh, 1: start above {LAST}, end above {LAST}, both equal, and all at once. The fresh "
         "net of 0 and 1 is returned.")
    for ends in f"{NO_ACTIVITY} 5", f"5 {NO_ACTIVITY}", "5 5", "40 40", f"{MAX_32} {MAX_32}":
        ok("copy 0 1")
        refused(1, 0, f"fresh 0 {ends}")
        same(0, 3)


def of_put():
    note("Put, 2: the record isn't orderly, as the end's output side lost the empty set. It comes "
         "back as it was.")
    ok("copy 0 1", f"poke 0 {out_length(3)} 0", "copy 2 0")
    refused(2, 0, "put 0 0 1 2")
    same(0, 2)

    note(f"Put, 2 before 4 and 5: the activity is above {LAST}, the empty set may not be there, "
         "another set may not be on the start's input side, but the record isn't orderly.")
    refused(2, 0, f"put 0 0 {NO_ACTIVITY} 2", "put 0 0 1 0", f"put 0 0 {NO_ACTIVITY} 0",
            "put 0 0 0 2")

    note("Put, 2: also where the set is already there.")
    refused(2, 0, "put 0 0 1 1")
    same(0, 2)

    note(f"Put, 4: the activity is above {LAST}; the place is 0.")
    ok("copy 0 1")
    refused(4, 0, f"put 0 0 {NO_ACTIVITY} 2", f"put 0 1 {NO_ACTIVITY} 2")

    note(f"Put, 4 before 5: the set is empty too. An activity above {LAST} has no side that could "
         "be full, so 12 never holds beside 4.")
    refused(4, 0, f"put 0 0 {NO_ACTIVITY} 0", f"put 0 1 {MAX_32} 0")
    same(0, 1)


def of_put_on_a_side():
    note("Put, 5: the empty set on a side that may not hold it: an input and an output side of 1, "
         "the start's output side, the end's input side.")
    refused(5, 0, "put 0 0 1 0", "put 0 1 1 0", "put 0 1 0 0", "put 0 0 3 0")

    note("Put, 5: also on the sides of an activity that has no set yet.")
    refused(5, 0, f"put 0 0 {LAST} 0", f"put 0 1 {LAST} 0")
    same(0, 1)

    note("Put, 5: another set on a side that must hold only the empty set.")
    refused(5, 0, "put 0 0 0 2", f"put 0 0 0 {ALL}", "put 0 1 3 2", "put 0 1 3 1")
    same(0, 1)

    note("The empty set on those two sides is no fault.")
    say("put 0 0 0 0", "ok 0")
    say("put 0 1 3 0", "ok 0")
    same(0, 1)


def of_put_on_a_full_side():
    *fitting, too_many = fillers(SETS, lowest=9)  # F has 8 there.
    note(f"Put, 12: a {TOO_MANY} set. The place is 0 and the net is unchanged.")
    put_new(0, OUT, 1, *fitting)
    say(f"peek 0 {out_length(1)} 1", f"words {SETS}")
    ok("copy 2 0")
    refused(12, 0, f"put 0 1 1 {too_many}")
    same(0, 2)

    note(f"Put, 5 before 12: the empty set would be a {TOO_MANY} too. Beside the other half of 5 "
         "12 never holds, as the two sides that must hold only the empty set are never full.")
    refused(5, 0, "put 0 1 1 0")
    same(0, 2)

    note("Put, 2 before 12: the same side is full, but the record isn't orderly; also where the "
         "empty set would be 5, and where the set is already there.")
    disorder(0)
    ok("copy 2 0")
    refused(2, 0, f"put 0 1 1 {too_many}", "put 0 1 1 0", f"put 0 1 1 {fitting[0]}")
    same(0, 2)

    note(f"Put, 2 before 12: the record isn't orderly just because the side's length is {SETS + 1} "
         f"already, so that one more set would exceed {SETS}.")
    ok("copy 0 1", f"poke 0 {in_length(5)} {SETS + 1}", "copy 2 0")
    refused(2, 0, "put 0 0 5 2")
    same(0, 2)


def of_containment():
    note("Containment, 2: the first net, place 1; the second, place 2; both, 1. No answer of yes "
         "or no comes before.")
    ok("copy 0 1", f"poke 0 {in_length(0)} 0")
    refused(2, 1, "contained 0 1")
    refused(2, 2, "contained 1 0")
    refused(2, 1, "contained 0 0")
    ok("copy 2 1", f"poke 2 {out_length(3)} 0")
    refused(2, 1, "contained 0 2", "contained 2 0")

    note("Containment, 2: the starts and ends differ and the answer would be no, but the second "
         "net isn't orderly.")
    refused(2, 2, "contained 3 0")
    refused(2, 1, "contained 0 3")


def of_net_check():
    note("Net check, 2: the record isn't orderly.")
    refused(2, 0, "check 0")

    note("Net check, 2 before 6: it would fail the walks too.")
    ok("fresh 0 5 9")
    refused(6, 5, "check 0")
    disorder(0)
    refused(2, 0, "check 0")

    note("Net check, 6: the lowest activity on no walk is returned.")
    ok("fresh 0 9 5")
    refused(6, 5, "check 0")
    ok("copy 0 1")
    put_new(0, OUT, 1, 512)
    refused(6, 9, "check 0")
    put_new(0, OUT, 1, 32)
    refused(6, 5, "check 0")

    note("Net check, 19: the lowest activity that names one which never names it back; 6 and 2 "
         "before it. 2 names 1 on its output side, then 1 names 2 too, and then 9 besides.")
    ok("copy 0 1")
    put_new(0, OUT, 2, 2)
    refused(19, 2, "check 0")
    put_new(0, OUT, 1, 4)
    refused(19, 1, "check 0")
    put_new(0, OUT, 1, 512)
    refused(6, 9, "check 0")
    disorder(0)
    refused(2, 0, "check 0")


def of_calls_that_pass_over_partners():
    note("Put, containment, learn, follow and the net file's calls don't check the net: none gives "
         "19. 1 names 2, which never names it back.")
    ok("copy 0 1")
    put_new(0, OUT, 1, 4)
    ok("copy 2 0")
    say("contained 1 0", "ok 1")
    say("contained 0 1", "ok 0")
    say("learn 0 0 0 2 1 1 8 3 2 0", "ok 0")
    say("follow 0 0 1 3", "ok 0")
    say("follow 0 0 2 3", "ok 0")
    refused(19, 1, "check 0")
    say("writenet 0 200", f"ok {len(UNANSWERED_FILE)}")
    shown(UNANSWERED_FILE)
    ok("readnet 0")
    same(0, 2)
    refused(19, 1, "check 0")
