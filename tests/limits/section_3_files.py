"""The part of section 3 on the writer and the readers.

For readers the first line with a fault decides; on a line 13 and 14 come before the others.
"""

from bindings import repeated
from calls import disorderly_f, read_f, refused_net, refused_row, row, same
from files import F_FILE, NET_HEADER, lines, log_file, net_file
from limits import BUFFER_BYTES, LAST, NO_ACTIVITY, POSITIONS, SETS
from script import note, refused, say, shown, text
from wording import spelled_nth

TOO_MANY = spelled_nth(SETS + 1)  # A set.
TOO_LONG = repeated("1", POSITIONS + 1)  # A trace.
SHORT = POSITIONS - 1  # A word less than a row's buffer needs.


def write():
    of_the_writer()
    of_net_reading_by_start_and_end()
    of_net_reading_by_rows()
    of_net_reading_by_a_full_side()
    of_net_reading_on_one_line()
    of_row_reading()
    of_row_reading_with_a_short_buffer()
    of_row_reading_by_lines()


def of_the_writer():
    note("Writer, 2 before 15: the record isn't orderly. The text stays.")
    disorderly_f()
    text("stays")
    refused(2, 0, f"writenet 0 {BUFFER_BYTES}", "writenet 0 10", "writenet 0 0")
    shown("stays")

    note("Writer, 15: the text of F has 130 bytes.")
    refused(15, 0, "writenet 1 129", "writenet 1 0")
    shown("stays")
    say("writenet 1 130", "ok 130")
    shown(F_FILE)


def of_net_reading_by_start_and_end():
    note("Net reading, 1: start and end are equal, on line 3, where the second of them stands.")
    refused_net(1, 3, net_file(3, 3))
    refused_net(1, 3, net_file(0, 0))

    note("Net reading, 1 on line 3 comes before 13, 14 and 5 on line 4. As 1 is of line 3 alone, "
         "it never stands on one line with 5 or 12.")
    refused_net(1, 3, net_file(3, 3, "x"))
    refused_net(1, 3, net_file(3, 3, f"in,{NO_ACTIVITY},1"))
    refused_net(1, 3, net_file(3, 3, "in,3,1"))

    note("Net reading, 13 before 1 on line 3.")
    refused_net(13, 3, lines(NET_HEADER, "start,3,", "end,3,3"))
    refused_net(13, 3, lines(NET_HEADER, "start,3,", "end,3"))

    note("Net reading, 14 before 1: what is no number equals none, so 1 holds beside 14 only for a "
         "reader that takes 03 for 3, or cuts the number; and 14 on line 2 comes before line 3.")
    refused_net(14, 3, net_file(3, "03"))
    refused_net(14, 3, net_file(3, 2**32 + 3))
    refused_net(14, 2, net_file(NO_ACTIVITY, NO_ACTIVITY))


def of_net_reading_by_rows():
    note("Net reading, 5: another set on the start's input side or the end's output side, with "
         "its line.")
    refused_net(5, 4, net_file(0, 3, "in,0,1"))
    refused_net(5, 4, net_file(0, 3, "out,3,1"))
    refused_net(5, 5, net_file(0, 3, "out,0,1", "in,0,1 2"))
    refused_net(5, 6, net_file(5, 6, "out,5,6", "in,6,5", f"out,6,{LAST}"))

    note("Net reading, 13 before 5: members are missing, also on the two sides that hold the "
         "empty set.")
    for row_without_members in "in,0,", "out,3,", "in,1,", "out,1,":
        refused_net(13, 4, net_file(0, 3, row_without_members))

    note("Net reading, 13 before 5: a comma too many in a row with a set for one of those two "
         "sides.")
    refused_net(13, 4, net_file(0, 3, "in,0,1,"))
    refused_net(13, 4, net_file(0, 3, "out,3,1,2"))

    note(f"Net reading, 14 before 5: the members don't ascend, or one is above {LAST}.")
    refused_net(14, 4, net_file(0, 3, "in,0,2 1"))
    refused_net(14, 4, net_file(0, 3, "out,3,1 1"))
    refused_net(14, 4, net_file(0, 3, f"in,0,{NO_ACTIVITY}"))


def of_net_reading_by_a_full_side():
    full = [f"in,1,{member}" for member in range(SETS)]
    one_more = f"in,1,{SETS}"
    line = 3 + SETS + 1

    note(f"Net reading, 12: the {TOO_MANY} set, with its line; 13 and 14 on that line come before "
         "it.")
    refused_net(12, line, net_file(0, 3, *full, one_more))
    refused_net(13, line, net_file(0, 3, *full, "in,1,"))
    refused_net(14, line, net_file(0, 3, *full, f"in,1,{SETS} {SETS}"))
    refused_net(14, line, net_file(0, 3, *full, f"in,1,{NO_ACTIVITY}"))

    note("Net reading, 5 before 12 can't be shown on one line: a side that must hold only the "
         "empty set is never full. Across lines the first line with a fault decides, whatever the "
         "numbers are.")
    refused_net(12, line, net_file(0, 3, *full, one_more, "x", "in,0,1"))
    refused_net(5, line, net_file(0, 3, *full, "in,0,1", one_more))
    refused_net(1, 3, net_file(0, 0, *full, one_more))
    refused_net(14, 4, net_file(0, 3, f"in,1,{NO_ACTIVITY}", "in,0,1", "x"))
    refused_net(5, 4, net_file(0, 3, "in,0,1", "x", f"in,1,{NO_ACTIVITY}"))
    refused_net(13, 4, net_file(0, 3, "x", f"in,1,{NO_ACTIVITY}", "in,0,1"))
    refused_net(14, 5, net_file(0, 3, "in,1,0", "in,1,00", "", ""))


def of_net_reading_on_one_line():
    note("Net reading, 13 before 14 on a line, wherever the faults stand: members are missing, "
         "the word or the commas differ, members are present in the start row.")
    for bad_row in "in,99,", "in,,", "xx,99,99", "in,99,99,99", "in,99":
        refused_net(13, 4, net_file(0, 3, bad_row))
    refused_net(13, 2, lines(NET_HEADER, "start,99,1", "end,3,"))
    refused_net(13, 3, lines(NET_HEADER, "start,0,", "end,99,1"))

    note("Net reading: a file that was refused leaves nothing behind; the next one is read as it "
         "is.")
    read_f(0)
    same(0, 1)


def of_row_reading():
    note("Row reading, 3 with line 0: the row asked for is 0 or the buffer is short, before the "
         "header is looked at.")
    text("nothing")
    row(0, "refused 3 0")
    refused(3, 0, f"readrow 1 {SHORT}", f"readrow 0 {SHORT}")
    row(1, "refused 13 1")
    row(7, "refused 13 1")
    text("")
    row(0, "refused 3 0")
    refused(3, 0, f"readrow 1 {SHORT}")
    row(1, "refused 13 1")


def of_row_reading_with_a_short_buffer():
    note("Row reading, 3 with line 0 before 13, 14 and 3 on line 2: the buffer is short, or the "
         "row asked for is 0. These two and too many bytes are one answer, so their order isn't "
         "seen.")
    for number, bad_row in (13, "1"), (14, f"1,{NO_ACTIVITY}"), (3, f"1,{TOO_LONG}"):
        refused_row(number, 2, log_file(bad_row))
        refused(3, 0, f"readrow 1 {SHORT}", "readrow 1 0", f"readrow 2 {SHORT}")
        row(0, "refused 3 0")


def of_row_reading_by_lines():
    note("Row reading: faults from the header to the row asked for count, and the first line with "
         "a fault decides; 14 on line 3, 13 on line 5.")
    text(log_file("1,0", f"1,{NO_ACTIVITY}", "1,2", "1", "1,4"))
    row(1, "row 1 1 0")
    for number in 2, 3, 4, 9:
        row(number, "refused 14 3")

    note(f"Row reading: 13 on line 3 comes first, though 14 stands on line 4 and {POSITIONS + 1} "
         "entries on line 5.")
    text(log_file("1,0", "1", "0,0", f"1,{TOO_LONG}"))
    row(1, "row 1 1 0")
    row(2, "refused 13 3")
    row(4, "refused 13 3")

    note("Row reading: 3 on line 2 comes before 13 on line 3.")
    text(log_file(f"1,{TOO_LONG}", "x"))
    for number in 1, 2, 3:
        row(number, "refused 3 2")

    note("Row reading, 13 before 14 on a line: no comma and a bad number, two commas and bad "
         "numbers.")
    refused_row(13, 2, log_file("99x"))
    refused_row(13, 2, log_file(f"0,{NO_ACTIVITY},x"))
    refused_row(13, 2, log_file(""))
