"""The part of section 8 on net files as they are written, and read back."""

from bindings import FIG_4, mask, words
from calls import IN, OUT, f_at_the_top, no_counts, put_new, read_f, same, same_sets
from files import F_FILE, net_file
from limits import ACTIVITIES, ALL, BUFFER_BYTES, LAST
from script import note, ok, refused, say, shown, text


def write():
    order_of_the_rows()
    start_above_end()
    numbers_of_two_digits()
    longest_row()
    net_of_fig_4()
    net_with_counts()


def read_back():
    """The text written is read as the net in register 0."""
    ok("readnet 2")
    same(0, 2)


def read_back_without_counts():
    """The text written is read as the net in register 0, whose sets have counts, with counts 0."""
    ok("readnet 2")
    same_sets(0, 2)
    no_counts(2)


def order_of_the_rows():
    written = net_file(
        0, 3,
        "out,0,1", "out,0,2", "out,0,1 2", "out,0,10", "out,0,1 10",
        "in,2,0", "in,3,2",
        "in,5,0 1 2", "in,5,3", f"out,5,0 {LAST}",
        "in,10,0", f"in,{LAST},0",
    )
    note("The writer: sets go by mask and not by the text of their members, so 1; 2; 1 2; and 10 "
         "before 1 10; 0 1 2 before 3.")
    ok("fresh 0 0 3")
    put_new(0, OUT, 0, mask(1, 2), mask(2), mask(1), mask(1, 10), mask(10))
    put_new(0, IN, 5, mask(3), mask(0, 1, 2))
    put_new(0, OUT, 5, mask(0, LAST))
    put_new(0, IN, LAST, mask(0))
    put_new(0, IN, 10, mask(0))
    put_new(0, IN, 2, mask(0))
    put_new(0, IN, 3, mask(2))
    ok("copy 2 0")
    say("writenet 0 1000", "ok 158")
    shown(written)

    note("Round trip: reading the text gives the net, and writing that gives the text.")
    ok("readnet 0")
    same(0, 2)
    say("writenet 0 158", "ok 158")
    shown(written)


def start_above_end():
    note("The start's number is higher than the end's; the rows still go by activity.")
    text(net_file(9, 2, "in,2,9", "out,9,2", "out,9,3", "in,3,9", "out,3,2", "in,2,3", "in,2,3"))
    ok("readnet 0")
    say("check 0", "ok 3")
    say("writenet 0 1000", "ok 92")
    shown(net_file(9, 2, "in,2,3", "in,2,9", "in,3,9", "out,3,2", "out,9,2", "out,9,3"))
    read_back()


def numbers_of_two_digits():
    start, end = LAST, LAST - 1
    note(f"A net with numbers of two digits, on a start of {start} and an end of {end}.")
    ok(f"fresh 0 {start} {end}")
    say(f"follow 0 {start} 10 {end}", "ok 4")
    say("writenet 0 1000", "ok 85")
    shown(net_file(start, end, f"in,10,{start}", f"out,10,{end}", f"in,{end},10",
                   f"out,{start},10"))
    read_back_without_counts()


def longest_row():
    note(f"The longest row: all {ACTIVITIES} members on the output side of {LAST}. 41 bytes and 94 "
         "more.")
    ok("fresh 0 0 3")
    put_new(0, OUT, LAST, ALL)
    say("writenet 0 135", "ok 135")
    shown(net_file(0, 3, f"out,{LAST},{words(range(ACTIVITIES))}"))
    read_back()
    refused(15, 0, "writenet 0 134")


def net_of_fig_4():
    note("The writer takes a net that doesn't pass; the net of Fig. 4, which passes, goes round "
         "too.")
    ok("fresh 0 0 4")
    say(f"learn 0 {FIG_4}", "ok 12")
    say(f"writenet 0 {BUFFER_BYTES}", "ok 151")
    shown(net_file(
        0, 4,
        "out,0,1",
        "in,1,0", "in,1,1", "out,1,1 2", "out,1,2 3",
        "in,2,1", "out,2,3",
        "in,3,1 2", "in,3,2 3", "out,3,3", "out,3,4",
        "in,4,3",
    ))
    read_back_without_counts()


def net_with_counts():
    note("A net file carries no counts: F with the highest count for every set is written as F is, "
         "and read back as F. What was counted in the register that is read into is gone.")
    read_f(1)
    f_at_the_top(0)
    text("nothing of this stays")
    say(f"writenet 0 {len(F_FILE)}", f"ok {len(F_FILE)}")
    shown(F_FILE)
    read_back_without_counts()
    same(2, 1)
    ok("readnet 0")
    same(0, 1)

    note("A refused reading returns the fresh net of 0 and 1, whose counts are 0.")
    f_at_the_top(0)
    text("no net")
    refused(13, 1, "readnet 0")
    no_counts(0)
    ok("fresh 2 0 1")
    same(0, 2)
