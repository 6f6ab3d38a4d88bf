"""The part of section 8 on net files as they are read.

Register 1 holds F and register 3 the fresh net of 0 and 1.
"""

from calls import refused_net, same
from files import CRLF, F_FILE, F_ROWS, NET_HEADER, lines, net_file
from limits import LAST, NO_ACTIVITY
from record import in_place, out_place
from script import note, ok, refused, say, text


def write():
    rows_in_any_order()
    last_lines()
    empty_and_missing_lines()
    headers()
    line_ends_of_the_header()
    start_and_end_rows_elsewhere()
    side_words()
    commas()
    members_of_start_and_end_rows()
    numbers_of_start_and_end_rows()
    activities()
    members()
    ascending_members()
    lone_line_ends()
    sets_on_the_start_and_end_sides()
    nets_that_need_not_pass()


def read_as(register, net):
    """The file is read, and gives the net in that register."""
    text(net)
    ok("readnet 0")
    same(0, register)


def bad_start_row(number, row):
    refused_net(number, 2, lines(NET_HEADER, row, "end,3,"))


def bad_end_row(number, row):
    refused_net(number, 3, lines(NET_HEADER, "start,0,", row))


def bad_rows(number, *rows):
    """Rows, each the fourth line of a file, that are refused by this number."""
    for row in rows:
        refused_net(number, 4, net_file(0, 3, row))


def rows_in_any_order():
    note("Net: the rows after the first two come in any order, and a repeated one changes nothing.")
    read_as(1, net_file(0, 3, *reversed(F_ROWS)))
    read_as(1, net_file(0, 3, *F_ROWS, *F_ROWS))
    read_as(1, net_file(0, 3, "in,3,1 2", "out,0,1 2", *F_ROWS, "in,3,1 2"))

    note("Net: start and end rows alone give the fresh net.")
    read_as(3, net_file(0, 1))
    text(net_file(LAST, 7))
    ok("readnet 0", f"fresh 2 {LAST} 7")
    same(0, 2)


def last_lines():
    note("Net: the last line may lack its CR LF.")
    read_as(1, F_FILE.removesuffix(CRLF))

    note("Net: the end row may be the last line and lack its CR LF.")
    read_as(3, net_file(0, 1).removesuffix(CRLF))

    note("13: two CR LF at the end make an empty line, which has no commas; F has 13 lines, so it "
         "is line 14.")
    refused_net(13, 14, F_FILE + CRLF)
    refused_net(13, 14, F_FILE + CRLF + CRLF)


def empty_and_missing_lines():
    note("13: an empty line in the middle, and at line 2.")
    refused_net(13, 4, net_file(0, 3, "", "in,1,0"))
    refused_net(13, 2, lines(NET_HEADER, "", "start,0,", "end,3,"))

    note("13: the empty file has no header.")
    refused_net(13, 1, "")

    note("13: only a CR LF, only a CR, only an LF, only a space.")
    for content in CRLF, "\r", "\n", " ":
        refused_net(13, 1, content)

    note("13: a required line is missing and its number is returned: line 2 after the header, "
         "line 3 after the start row.")
    refused_net(13, 2, NET_HEADER)
    refused_net(13, 2, lines(NET_HEADER))
    refused_net(13, 3, lines(NET_HEADER) + "start,0,")
    refused_net(13, 3, lines(NET_HEADER, "start,0,"))

    note("14: a fault on line 2 comes before the missing line 3.")
    refused_net(14, 2, lines(NET_HEADER) + f"start,{NO_ACTIVITY},")
    refused_net(13, 2, lines(NET_HEADER) + "start,0")


def headers():
    note("13: the header differs in any byte.")
    for header in (
        "side,activity,member", "side,activity,members ", " side,activity,members",
        "Side,activity,members", "SIDE,ACTIVITY,MEMBERS", "side,activity,Members",
        "side, activity,members", "side;activity;members", "side,activity,members,",
        "side,activity", "side,activity,memberS", '"side",activity,members',
        "tide,activity,members", "side,activity,membersx", "\xef\xbb\xbfside,activity,members",
        "sessions,trace", "side,activity,members\t", "side,activity,members\x00",
    ):
        refused_net(13, 1, lines(header, "start,0,", "end,3,", *F_ROWS))

    note("13: the header is missing, so the start row stands in its place.")
    refused_net(13, 1, lines("start,0,", "end,3,", *F_ROWS))


def line_ends_of_the_header():
    note("13: where all lines end in LF alone, in CR alone or in LF CR, the file is one long line, "
         "which differs from the header.")
    for line_end in "\n", "\r", "\n\r":
        refused_net(13, 1, F_FILE.replace(CRLF, line_end))

    note("13: the header ends in CR CR LF, or the file ends in a CR or an LF behind it, so the "
         "line has a byte too many.")
    refused_net(13, 1, F_FILE.replace(NET_HEADER, NET_HEADER + "\r"))
    refused_net(13, 1, NET_HEADER + "\r")
    refused_net(13, 1, NET_HEADER + "\n")


def start_and_end_rows_elsewhere():
    note("13: start and end rows are changed about, missing, or another row stands in their place.")
    refused_net(13, 2, lines(NET_HEADER, "end,3,", "start,0,"))
    refused_net(13, 2, lines(NET_HEADER, "end,3,", "in,1,0"))
    refused_net(13, 2, lines(NET_HEADER, "in,1,0", "start,0,", "end,3,"))
    refused_net(13, 3, lines(NET_HEADER, "start,0,", "in,1,0"))
    refused_net(13, 3, lines(NET_HEADER, "start,0,", "start,0,"))
    refused_net(13, 3, lines(NET_HEADER, "start,0,", "start,3,", "end,3,"))
    refused_net(13, 2, lines(NET_HEADER, NET_HEADER, "start,0,", "end,3,"))

    note("13: start or end rows again later have the wrong word.")
    refused_net(13, 4, net_file(0, 3, "start,0,"))
    refused_net(13, 4, net_file(0, 3, "end,3,"))
    refused_net(13, 5, net_file(0, 3, "in,1,0", "start,0,"))
    refused_net(13, 5, net_file(0, 3, "in,1,0", "end,3,"))
    refused_net(13, 4, net_file(0, 3, "start,0,1"))


def side_words():
    note("13: the side word differs.")
    for word in ("In", "IN", "OUT", "Out", "iN", "inn", "i", "", "ou", "outt", " in", "in ",
                 '"in"', "input", "side", "START", "nin", "in\x00"):
        bad_rows(13, f"{word},1,0")
    for word in "Start", "START", "star", "startt", " start", "start ", '"start"', "", "end":
        bad_start_row(13, f"{word},0,")
    for word in "End", "END", "en", "endd", " end", "end ", '"end"', "", "start":
        bad_end_row(13, f"{word},3,")


def commas():
    note("13: a line in a net has two commas.")
    bad_rows(13, "in", "in,1", "in,1,0,", "in,1,0,2", ",in,1,0", "in,1,,0", "in 1 0", "in;1;0",
             "in,1 0", ",,,", ",", 'in,3,"1,2"', "in,3,1,2")

    note("13: two commas, but the word is empty.")
    bad_rows(13, ",,", ",1,0")

    note("13: the start and end rows with too few and too many commas.")
    for row in "start,0", "start,0,,", "start":
        bad_start_row(13, row)
    for row in "end,3", "end,3,,":
        bad_end_row(13, row)


def members_of_start_and_end_rows():
    note("13: members are present in the start or end row; any byte behind the second comma is "
         "one.")
    for content in "1", "0", "1 2", " ", "x", '"', "\t", "\r", f"{NO_ACTIVITY}":
        bad_start_row(13, f"start,0,{content}")
        bad_end_row(13, f"end,3,{content}")

    note("13: members are missing in another row.")
    bad_rows(13, "in,1,", "out,1,", f"in,{LAST},", "in,0,", "out,3,")


def numbers_of_start_and_end_rows():
    note("14: a number is written otherwise or is empty, in the start and end rows.")
    for number in ("", " ", "00", "01", "000", "+0", "-0", "-1", " 1", "1 ", "1.0", "1e0", "0x1",
                   "x", '"1"', "\t1", "1\t", "1 2", "/", ":", "\xb2", "1\x00", "\n1", "1\r"):
        bad_start_row(14, f"start,{number},")
        bad_end_row(14, f"end,{number},")


def activities():
    note("14: the same in the activity of a row.")
    for number in ("", " ", "00", "01", "+1", "-1", " 1", "1 ", "1.0", "1e0", "0x1", "x", '"1"',
                   "1\t", "1 2", "/", ":", "\xb2", "\r1", "1\n"):
        bad_rows(14, f"in,{number},0")


def members():
    note("14: the same in the members: spaces too many, a tab, a leading zero, a sign, quotes, "
         "other bytes.")
    for content in (
        " ", "  ", " 1", "1 ", "1  2", " 1 2", "1 2 ",
        "1\t2", "\t", "1\t",
        "00", "01", "1 02",
        "+1", "-1", "1 +2",
        "1.0", "1 2.", "1e1", "0x1", "x", "1 x", "1x",
        '"1"', '"1 2"', '""', '"',
        "1;2", "1/2", "/", ":", "1:2", "{1}", "\xb9", "1\xa02", "1\x00",
        "1\n2", "1\n", "1\r", "1\r2", "\r", "\n",
    ):
        bad_rows(14, f"in,1,{content}")


def ascending_members():
    note("14: a member isn't above the one before it: lower, or equal, also at the end of the row.")
    for content in ("2 1", "1 1", "0 0", "1 2 2", "1 2 1", f"{LAST} {LAST - 1}", f"{LAST} {LAST}",
                    "10 9", "2 10 9", "0 1 2 3 2"):
        bad_rows(14, f"in,1,{content}")

    note("Members ascend as numbers and not as text.")
    text(net_file(0, 3, "in,1,2 10", "out,1,9 10 11", "in,2,0 1 2 3"))
    ok("readnet 0")
    say(f"peek 0 {in_place(1)} 1", "words 1028")
    say(f"peek 0 {out_place(1)} 1", "words 3584")
    say(f"peek 0 {in_place(2)} 1", "words 15")


def lone_line_ends():
    with_a_row = net_file(0, 3, "in,3,1")

    note("A lone CR or LF is a byte of its line. A CR at the end of the file, after a row and "
         "after the end row.")
    refused_net(14, 4, with_a_row.removesuffix("\n"))
    refused_net(13, 3, net_file(0, 3).removesuffix("\n"))
    refused_net(13, 2, lines(NET_HEADER, "start,0,").removesuffix("\n"))

    note("A lone LF at the end of the file, after a row and as a line of its own.")
    refused_net(14, 4, with_a_row.removesuffix(CRLF) + "\n")
    refused_net(13, 5, with_a_row + "\n")
    refused_net(13, 5, with_a_row + "\r")

    note("CR CR LF leaves a CR in the line.")
    bad_rows(14, "in,3,1\r")
    bad_start_row(13, "start,0,\r")

    note("A lone LF between two rows makes one line of them, with four commas.")
    bad_rows(13, "in,3,1\nin,3,2", "in,3,1\rin,3,2")

    note("A lone LF after the start row makes one line of start and end row.")
    refused_net(13, 2, lines(NET_HEADER, "start,0,\nend,3,"))


def sets_on_the_start_and_end_sides():
    note("5: a set on the start's input side or the end's output side, on its line; the start and "
         "end need not be 0 and 3.")
    bad_rows(5, "in,0,0", f"out,3,{LAST}")
    refused_net(5, 4, net_file(LAST, LAST - 1, f"in,{LAST},1"))
    refused_net(5, 4, net_file(LAST, LAST - 1, f"out,{LAST - 1},{LAST}"))
    refused_net(5, 15, net_file(0, 3, *F_ROWS, "in,2,1", "out,3,3"))

    note("The start's output side and the end's input side take sets.")
    text(net_file(LAST, LAST - 1, f"out,{LAST},{LAST - 1}", f"in,{LAST - 1},{LAST}"))
    ok("readnet 0")
    say("check 0", "ok 1")

    note("1: on line 3.")
    refused_net(1, 3, net_file(7, 7, "in,1,0"))
    refused_net(1, 3, net_file(7, 7).removesuffix(CRLF))


def nets_that_need_not_pass():
    note("A set may name its own activity, the start or the end; the net is read, whether or not "
         "it passes.")
    text(net_file(0, 3, "in,9,9", "out,9,0", "in,9,3"))
    ok("readnet 0")
    say(f"peek 0 {in_place(9)} 3", "words 8 512 0")
    say(f"peek 0 {out_place(9)} 1", "words 1")
    refused(6, 0, "check 0")
