"""The part of section 8 on logs."""

from calls import refused_row, row
from files import CRLF, LOG_HEADER, lines, log_file
from limits import LAST, LOG_ROWS, MAX_64, NO_ACTIVITY, SESSIONS
from script import note, text


def write():
    last_lines()
    headers()
    line_ends()
    commas()
    numbers_of_sessions()
    entries()
    line_ends_in_the_last_line()
    rows_in_their_order()


def bad_rows(number, *rows):
    """Rows, each the second line of a log, that are refused by this number."""
    for one in rows:
        refused_row(number, 2, log_file(one))


def last_lines():
    note("Log: the header alone has no row, with and without its CR LF.")
    text(LOG_HEADER)
    row(1, "end")
    row(LOG_ROWS, "end")
    text(log_file())
    row(1, "end")

    note("Log, 13: two CR LF at the end of the header make an empty line 2.")
    text(log_file() + CRLF)
    row(1, "refused 13 2")
    row(2, "refused 13 2")

    note("Log: the last line may lack its CR LF.")
    text(log_file("12,0 3").removesuffix(CRLF))
    row(1, "row 12 2 0 3")
    row(2, "end")
    text(log_file("12,").removesuffix(CRLF))
    row(1, "row 12 0")
    row(2, "end")

    note("Log, 13: two CR LF at the end make an empty line 3, which counts only if it is reached.")
    text(log_file("12,0 3") + CRLF)
    row(1, "row 12 2 0 3")
    row(2, "refused 13 3")
    row(3, "refused 13 3")


def headers():
    note("Log, 13: the empty file, and a header that differs.")
    refused_row(13, 1, "")
    for header in (
        "sessions,trace ", " sessions,trace", "Sessions,trace", "SESSIONS,TRACE", "session,trace",
        "sessions,traces", "sessions;trace", "sessions, trace", "sessions", "sessions,trace,",
        '"sessions","trace"', "side,activity,members", "\xef\xbb\xbfsessions,trace",
        "tessions,trace", "",
    ):
        refused_row(13, 1, lines(header, "12,0 3"))

    note("Log, 13: no header; the first row stands in its place.")
    refused_row(13, 1, lines("12,0 3"))


def line_ends():
    note("Log, 13: lines that all end in LF alone, in CR alone or in LF CR are one long line, "
         "which differs from the header.")
    for line_end in "\n", "\r", "\n\r":
        refused_row(13, 1, log_file("12,0 3").replace(CRLF, line_end))

    note("Log, 13: the header ends in CR CR LF, or the file ends in a CR or an LF behind it.")
    refused_row(13, 1, lines(LOG_HEADER + "\r", "12,0 3"))
    refused_row(13, 1, LOG_HEADER + "\r")
    refused_row(13, 1, LOG_HEADER + "\n")


def commas():
    note("Log, 13: a line has one comma.")
    bad_rows(13, "12", "", "12,0,3", "12,,", ",,", "12;0", "12 0", '12,"0,3"', "\r", "\n", "12\r\r")


def numbers_of_sessions():
    note("Log, 14: a number of sessions is written otherwise, is empty, 0 or too high.")
    for number in ("", " ", "0", "00", "01", "012", "+1", "-1", " 1", "1 ", "1.0", "1e3", "x",
                   '"12"', "\t1", SESSIONS + 1, 10 * SESSIONS, "1_000", "/", ":", "1\r", "\n1"):
        bad_rows(14, f"{number},0 3")


def entries():
    note("Log, 14: an entry of a trace is written otherwise or is empty.")
    for trace in (
        " ", "  ", " 0", "0 ", "0  3", "0\t3",
        "00", "03", "0 03",
        "+0", "-1", "0 +3",
        "0.0", "x", "0 x",
        '"0 3"', '""', "0;3", "/", ":",
        f"{NO_ACTIVITY}", f"0 {NO_ACTIVITY}", f"{NO_ACTIVITY} 0", "100",
        "0\r", "0\n", "\r", "0\n3", "0 \r3", "0\x00",
    ):
        bad_rows(14, f"12,{trace}")

    note("Log, 14: only a comma, so that sessions is empty; the empty trace alone is no fault.")
    bad_rows(14, ",")
    text(log_file("12,"))
    row(1, "row 12 0")


def line_ends_in_the_last_line():
    note("Log: a CR at the end of the file stays in the last line.")
    refused_row(14, 2, log_file("12,0 3").removesuffix("\n"))
    refused_row(14, 2, log_file("12,").removesuffix("\n"))
    text(log_file("12,0 3") + "\n")
    row(1, "row 12 2 0 3")
    row(2, "refused 13 3")


def rows_in_their_order():
    note("Log: entries need not ascend and may repeat.")
    text(log_file(f"1,{LAST} 0 0 7 7 3"))
    row(1, f"row 1 6 {LAST} 0 0 7 7 3")

    note("Log: the rows are read in their order, and lines after the one asked for don't count.")
    text(log_file("1,1", "2,2 2", "3,", "4,4 4 4 4", "x"))
    row(4, "row 4 4 4 4 4 4")
    row(3, "row 3 0")
    row(2, "row 2 2 2 2")
    row(1, "row 1 1 1")
    for number in 5, 6, MAX_64:
        row(number, "refused 13 6")
