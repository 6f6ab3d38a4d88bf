"""Section 1: every call once, with an answer that hangs on no limit."""

from bindings import FIG_4
from calls import IN, OUT, counted_side, peek, put_new, row, same, same_sets, set_counts
from files import F_FILE, log_file
from limits import ACTIVITIES, LAST, SESSIONS
from record import (
    WORDS, fresh_record, in_count, in_length, in_place, out_count, out_length, out_place, record,
)
from script import note, ok, refused, say, section, shown, text

F_RECORD = record(
    0, 3,
    inputs={1: [1], 2: [1], 3: [2, 4, 6]},
    outputs={0: [2, 4, 6], 1: [8], 2: [8]},
)


def write():
    section(1, "Every call once in its plainest case, net F and the marked examples.")
    fresh_nets()
    putting()
    words_of_f()
    check_and_containment()
    judging()
    learning()
    following()
    marked_examples()
    files()


def fresh_nets():
    note("The registers hold at first the fresh net of 0 and 1, and the text is at first empty.")
    peek_fresh(0, 1)
    same(0, 1)
    same(1, 2)
    same(2, 3)
    shown("")

    note("A fresh net holds the empty set on the start's input side and on the end's output side, "
         "and nothing else: here input list 5 and output list 2 have length 1.")
    ok("fresh 0 5 2")
    peek_fresh(5, 2)

    note("Fresh of 0 and 1 is what the registers held at first.")
    ok("fresh 1 0 1")
    same(1, 2)
    say("same 0 1", "ok 0")


def peek_fresh(start, end):
    """Register 0 holds the fresh net: its start, end and lengths, its lists, its counts."""
    fresh = fresh_record(start, end)
    peek(0, 0, in_place(0), fresh)
    peek(0, in_place(0), in_count(0) - in_place(0), fresh)
    peek(0, in_count(0), WORDS - in_count(0), fresh)


def putting():
    note("Put adds one set to one side and says whether it was new. The ten sets of net F are put "
         "here; two lists are filled out of order and must come out ascending.")
    ok("fresh 0 0 3")
    put_new(0, OUT, 0, 6, 2, 4)
    put_new(0, IN, 3, 4, 6, 2)
    put_new(0, IN, 1, 1)
    put_new(0, IN, 2, 1)
    put_new(0, OUT, 1, 8)
    put_new(0, OUT, 2, 8)

    note("A set that is already there is not new, and nothing changes.")
    ok("copy 1 0")
    say("put 0 1 0 4", "ok 0")
    say("put 0 0 3 6", "ok 0")
    same(0, 1)

    note("The empty set on the start's input side and on the end's output side may be put, and is "
         "never new.")
    say("put 0 0 0 0", "ok 0")
    say("put 0 1 3 0", "ok 0")
    same(0, 1)


def words_of_f():
    note("The words of F: start and end, the lengths of the lists, then the lists in strictly "
         "ascending mask order, then the counts, all 0.")
    of_0_to_3 = in_place(4) - in_place(0)
    of_the_others = in_place(ACTIVITIES) - in_place(4)
    peek(0, 0, 2, F_RECORD)
    peek(0, in_length(0), ACTIVITIES, F_RECORD)
    peek(0, out_length(0), ACTIVITIES, F_RECORD)
    peek(0, in_place(0), of_0_to_3, F_RECORD)
    peek(0, in_place(4), of_the_others, F_RECORD)
    peek(0, out_place(0), of_0_to_3, F_RECORD)
    peek(0, out_place(4), of_the_others, F_RECORD)
    peek(0, in_count(0), WORDS - in_count(0), F_RECORD)

    note("Poke and copy are no calls.")
    ok("copy 2 0", f"poke 2 {in_place(1)} 9")
    say(f"peek 2 {in_place(1)} 1", "words 9")
    say("same 2 0", "ok 0")
    ok("copy 2 0")
    same(2, 0)


def check_and_containment():
    note("F has 4 arcs: (0, 1), (0, 2), (1, 3) and (2, 3).")
    say("check 0", "ok 4")

    note("A net is contained in another if start and end agree and each side's sets are among the "
         "other's.")
    ok("fresh 1 0 3")
    say("contained 1 0", "ok 1")
    say("contained 0 1", "ok 0")
    say("contained 0 0", "ok 1")
    say("contained 0 2", "ok 1")

    note("The sets agree, but one is missing in the second net.")
    put_new(1, IN, 1, 1)
    say("contained 1 0", "ok 1")
    put_new(1, IN, 1, 5)
    say("contained 1 0", "ok 0")

    note("A set on the output side does not make up for one on the input side.")
    ok("fresh 1 0 3")
    put_new(1, IN, 2, 8)
    say("contained 1 0", "ok 0")

    note("Start or end differ: the answer is no.")
    for ends in "0 4", "1 3", "3 0":
        ok(f"fresh 1 {ends}")
        say("contained 1 0", "ok 0")


def judging():
    note("Judge accepts a sequence that is valid in a net that passes.")
    ok("judge 0 0 0 2 1 1 8 3 2 0",
       "judge 0 0 0 4 2 1 8 3 4 0",
       "judge 0 0 0 6 1 1 8 2 1 8 3 6 0",
       "judge 0 0 0 6 2 1 8 1 1 8 3 6 0")

    note("The peak of a sequence of two positions: the total of counts is 1 after the first and 0 "
         "after the second.")
    ok("fresh 1 0 1")
    put_new(1, OUT, 0, 2)
    put_new(1, IN, 1, 1)
    say("check 1", "ok 1")
    ok("judge 1 0 0 2 1 1 0")
    say("peak 1 0 0 2 1 1 0", "ok 1")
    ok(f"fresh 1 {LAST} 9")
    put_new(1, OUT, LAST, 512)
    put_new(1, IN, 9, 1 << LAST)
    say(f"peak 1 {LAST} 0 512 9 {1 << LAST} 0", "ok 1")

    note("A refused judge answers the same whether or not the peak is asked for.")
    refused(11, 0, "peak 0 0 0 6 2 1 8 3 4 0")


def learning():
    note("Learn: the net gains exactly the sets of the sequence, four here, and none the second "
         "time.")
    ok("fresh 1 0 3")
    say("learn 1 0 0 2 1 1 8 3 2 0", "ok 4")
    say("learn 1 0 0 2 1 1 8 3 2 0", "ok 0")
    say("check 1", "ok 2")
    say("contained 1 0", "ok 1")

    note("The second branch brings four more.")
    say("learn 1 0 0 4 2 1 8 3 4 0", "ok 4")

    note("Both branches at once bring only the set 6 on two sides; the net has the sets of F then.")
    say("learn 1 0 0 6 1 1 8 2 1 8 3 6 0", "ok 2")
    same_sets(1, 0)
    say("same 1 0", "ok 0")

    note("It is F with the uses of four sequences: the first one twice, the others once. 0 and 3 "
         "occur four times, 1 three times and 2 twice.")
    ok("copy 2 0")
    set_counts(2, (in_count(0), 4), (in_count(1), 3), (in_count(2), 2),
               (in_count(3, 0), 2), (in_count(3, 1), 1), (in_count(3, 2), 1),
               (out_count(0, 0), 2), (out_count(0, 1), 1), (out_count(0, 2), 1),
               (out_count(1), 3), (out_count(2), 2), (out_count(3), 4))
    same(1, 2)


def following():
    note("Follow: X is the activity before, Y the activity after.")
    ok("fresh 1 0 3")
    say("follow 1 0 1 3", "ok 4")
    say("follow 1 0 1 3", "ok 0")
    ok("fresh 3 0 3")
    say("learn 3 0 0 2 1 1 8 3 2 0", "ok 4")
    say("learn 3 0 0 2 1 1 8 3 2 0", "ok 0")
    same(1, 3)

    note("Follow of 0 1 2 3 makes (0,0,2)(1,1,4)(2,2,8)(3,4,0); of its six sets 2 on the output "
         "side of 0 and 1 on the input side of 1 are there.")
    say("follow 1 0 1 2 3", "ok 4")
    say("learn 3 0 0 2 1 1 4 2 2 8 3 4 0", "ok 4")
    same(1, 3)

    note("Follow of two entries has two sets.")
    ok("fresh 1 4 2")
    say("follow 1 4 2", "ok 2")
    say(f"peek 1 {out_place(4)} 1", "words 4")
    say(f"peek 1 {in_place(2)} 1", "words 16")
    say("check 1", "ok 1")


def marked_examples():
    note("The marked examples on F. The numbers of trials are those of the paper.")
    say("replay 0 1000000 9 0 1 3", "found 3 0 0 2 1 1 8 3 2 0")
    say("replay 0 1000000 9 0 2 3", "found 6 0 0 4 2 1 8 3 4 0")
    say("replay 0 1000000 12 0 1 2 3", "found 11 0 0 6 1 1 8 2 1 8 3 6 0")
    say("replay 0 10 12 0 1 2 3", "spent 10")
    say("replay 0 11 12 0 1 2 3", "found 11 0 0 6 1 1 8 2 1 8 3 6 0")
    say("replay 0 1000000 6 0 3", "none 12")
    say("replay 0 1000000 12 0 1 1 3", "none 8")
    say("replay 0 1000000 0", "none 0")
    say("replay 0 1000000 3 0", "none 0")
    refused(11, 0, "judge 0 0 0 6 2 1 8 3 4 0")
    ok("fresh 1 0 3")
    refused(10, 2, "learn 1 0 0 2 1 3 10 3 2 0")
    ok("fresh 2 0 3")
    same(1, 2)

    note("Fig. 4 of document 003 with a to e as 0 to 4: 12 new, and again 0. The sets are the "
         "same then, and only their counts have grown: 2 and 8 are used twice by c.")
    ok("fresh 1 0 4")
    say(f"learn 1 {FIG_4}", "ok 12")
    counted_side(1, IN, 2, {2: 2})
    counted_side(1, OUT, 2, {8: 2})
    ok("copy 2 1")
    say(f"learn 1 {FIG_4}", "ok 0")
    same_sets(1, 2)
    say("same 1 2", "ok 0")
    counted_side(1, IN, 2, {2: 4})
    counted_side(1, OUT, 2, {8: 4})
    ok(f"judge 1 {FIG_4}")

    note("Its arcs are (0, 1), (1, 1), (1, 2), (1, 3), (2, 3), (3, 3) and (3, 4).")
    say("check 1", "ok 7")


def files():
    note("Reading the net file of F gives F.")
    text(F_FILE)
    ok("readnet 1")
    same(0, 1)

    note("The writer goes by activity, in before out, sets ascending, and leaves out the two "
         "empty sets; the text of F has 130 bytes.")
    text("nothing of this stays")
    say("writenet 0 130", "ok 130")
    shown(F_FILE)

    note("What was written is in the text register and can be read.")
    ok("readnet 2")
    same(0, 2)

    note("Reading rows of the log of the paper: a row, another row, and the end past the last.")
    text(log_file("12,0 1 3", f"{SESSIONS},0 3"))
    row(1, "row 12 3 0 1 3")
    row(2, f"row {SESSIONS} 2 0 3")
    row(3, "end")

    note("A trace may be empty.")
    text(log_file("5,"))
    row(1, "row 5 0")
