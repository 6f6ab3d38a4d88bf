"""The part of section 2 on files: their bytes, the writer's buffer, the numbers of a net file."""

from bindings import words
from calls import IN, OUT, put_new, read_f, row, same
from files import F_FILE, log_file, net_file
from limits import (
    ACTIVITIES, ALL, BUFFER_BYTES, BUFFER_WORDS, DIGITS, LAST, LOG_BYTES, MAX_32, MAX_64, NET_BYTES,
    NO_ACTIVITY, POSITIONS,
)
from record import out_place
from script import note, ok, refused, say, shown, text


def write():
    bytes_of_a_net_file()
    bytes_of_a_log_file()
    buffer_of_the_writer()
    numbers_of_start_and_end_rows()
    numbers_of_other_rows()


def row_counts(size):
    """How many rows of 9 and of 8 bytes fill a net file of this size, beside four lines of it.

    Header, start and end row have 41 bytes, and one row of 9 and one of 8 are there once.
    """
    rest = size - 41 - 9 - 8
    nines = rest % 8 or 8
    return nines, (rest - 9 * nines) // 8


def net_of_size(size):
    nines, eights = row_counts(size)
    return net_file(0, 3, *["out,0,1"] * nines, "out,1,3", *["in,1,0"] * eights, "in,3,1")


def bytes_of_a_net_file():
    nines, eights = row_counts(NET_BYTES)
    note(f"A net file of exactly {NET_BYTES:,} bytes: a repeated row changes nothing. Header and "
         f"the two rows have 41 bytes, then {nines} rows of 9 bytes out,0,1, one out,1,3 of 9, "
         f"{eights:,} rows of 8 bytes in,1,0 and one in,3,1 of 8.")
    text(net_of_size(NET_BYTES))
    ok("readnet 0", "fresh 1 0 3")
    put_new(1, OUT, 0, 2)
    put_new(1, IN, 1, 1)
    put_new(1, OUT, 1, 8)
    put_new(1, IN, 3, 2)
    same(0, 1)

    note(f"3: a net file of {NET_BYTES + 1:,} bytes exceeds its bytes, although every line of it "
         "is good; one row of 8 bytes less and one of 9 more.")
    text(net_of_size(NET_BYTES + 1))
    refused(3, 0, "readnet 0")
    same(0, 3)


def log_of_size(size):
    """A log of this size, whose last line is an entry that fills it."""
    beginning = log_file("7,0 1 3") + "1,"
    return beginning + "1" * (size - len(beginning))


def bytes_of_a_log_file():
    note(f"A log of exactly {LOG_BYTES:,} bytes is within its limit; the entry of its row 2 is a "
         "run of ones that fills the file, so row 1 is given and row 2 is 14 on line 3.")
    text(log_of_size(LOG_BYTES))
    row(1, "row 7 3 0 1 3")
    row(2, "refused 14 3")
    row(3, "refused 14 3")
    row(0, "refused 3 0")
    refused(14, 3, "share 1 0")

    note("3: one byte more, and the file exceeds its bytes; row 1 isn't given any more, and the "
         "second comma on line 3, which would be 13, comes after. A longer buffer stays as it was.")
    text(log_of_size(LOG_BYTES) + ",")
    for number in 1, 2, 3, 0:
        row(number, "refused 3 0")
    refused(3, 0, f"readrow 1 {POSITIONS - 1}", f"readrow 1 {BUFFER_WORDS}")
    refused(3, 0, "share 1 0", f"share 1 {MAX_64}")

    note("6 before 3 in a share: the net's refusals come first.")
    refused(6, 0, "share 3 0")

    note(f"3: as a net file such a text exceeds {NET_BYTES:,} bytes, and this comes before its "
         "header, which differs.")
    refused(3, 0, "readnet 0")
    same(0, 3)


def buffer_of_the_writer():
    note("15: the text of the fresh net of 0 and 1 has 41 bytes; a buffer of 40 is too short, 41 "
         "is enough, and the rest of a longer one is untouched.")
    text("kept")
    ok("fresh 0 0 1")
    refused(15, 0, "writenet 0 40", "writenet 0 0", "writenet 0 1")
    shown("kept")
    say("writenet 0 41", "ok 41")
    shown(net_file(0, 1))
    for buffer in 42, BUFFER_BYTES:
        text("kept")
        say(f"writenet 0 {buffer}", "ok 41")
        shown(net_file(0, 1))

    note("15: the same for F, with 130 bytes.")
    read_f(0)
    text("kept")
    refused(15, 0, "writenet 0 129")
    shown("kept")
    say("writenet 0 131", "ok 130")
    shown(F_FILE)


def read_numbers(line, file_with, good, bad):
    """Net files with one number each, on this line: the good ones are read, the bad ones are 14."""
    for number in good:
        text(file_with(number))
        ok("readnet 0")
    for number in bad:
        text(file_with(number))
        refused(14, line, "readnet 0")


def numbers_of_start_and_end_rows():
    too_high = [NO_ACTIVITY, 256, MAX_32, 2**32, 2**32 + 1, 2**64, 2**64 + 1]

    note(f"14: a number in a net file is at most {LAST} and is not cut. First the start row, on "
         "line 2.")
    read_numbers(2, lambda number: net_file(number, 3),
                 good=[0, LAST], bad=[*too_high, "0" * DIGITS, "1" * DIGITS])

    note("14: the end row, on line 3.")
    read_numbers(3, lambda number: net_file(3, number),
                 good=[0, LAST], bad=[*too_high, "1" * DIGITS])


def numbers_of_other_rows():
    note("14: the activity of a row, on line 4.")
    read_numbers(4, lambda number: net_file(0, 3, f"in,{number},2"),
                 good=[1, LAST],
                 bad=[NO_ACTIVITY, 257, 2**32, 2**32 + 1, 2**64, 2**64 + 1, "1" * DIGITS])

    note("14: a member of a row, on line 4; the members before it are lower.")
    read_numbers(4, lambda number: net_file(0, 3, f"out,1,0 1 {number}"),
                 good=[2, LAST],
                 bad=[NO_ACTIVITY, NO_ACTIVITY + 1, 2**32, 2**32 + 2, 2**64, 2**64 + 2,
                      "2" * DIGITS])
    same(0, 3)

    note(f"A row may name all {ACTIVITIES} activities.")
    text(net_file(0, 3, f"out,1,{words(range(ACTIVITIES))}"))
    ok("readnet 0")
    say(f"peek 0 {out_place(1)} 1", f"words {ALL}")
