"""The part of section 2 on logs: the buffer, the rows, and the numbers of a row."""

from bindings import repeated
from calls import refused_row, row
from files import log_file
from limits import (
    BUFFER_WORDS, DIGITS, LAST, LOG_ROWS, MAX_32, MAX_64, NO_ACTIVITY, POSITIONS, SESSIONS,
)
from script import note, refused, say, text
from wording import nth


def write():
    buffer_of_a_row()
    row_asked_for()
    buffers_that_stay()
    rows_of_a_log()
    row_beyond_the_last()
    sessions()
    entries()
    entries_of_a_row()
    every_number_of_entries()
    faults_beside_too_many_entries()


def buffer_of_a_row():
    note(f"3: row reading needs a buffer of {POSITIONS} words; {POSITIONS - 1} are too few, more "
         "are left untouched.")
    text(log_file("12,0 1 3", "7,3"))
    refused(3, 0, f"readrow 1 {POSITIONS - 1}")
    for buffer in POSITIONS, POSITIONS + 1, BUFFER_WORDS:
        say(f"readrow 1 {buffer}", "row 12 3 0 1 3")
    refused(3, 0, "readrow 1 0", "readrow 1 3")

    powers = [2**exponent for exponent in range(8)]
    note(f"3: of buffers of {', '.join(map(str, powers))} words those below {POSITIONS} are too "
         "short, although the trace has only three entries.")
    for buffer in powers:
        say(f"readrow 1 {buffer}", "refused 3 0" if buffer < POSITIONS else "row 12 3 0 1 3")

    note("3: also where the answer would be end.")
    refused(3, 0, f"readrow 3 {POSITIONS - 1}", "readrow 3 0")
    for buffer in POSITIONS, POSITIONS + 1, BUFFER_WORDS:
        say(f"readrow 3 {buffer}", "end")


def buffers_that_stay():
    longer = POSITIONS + 1, BUFFER_WORDS

    note("No word of a longer buffer changes where the row asked for is 0, or is refused by 13, by "
         "14 at its last entry, or by 3 at its last entry; the row before it is good.")
    for fault, bad_row in (
        (13, "7,0 1 3,"),
        (14, f"7,0 1 {NO_ACTIVITY}"),
        (3, f"7,{repeated('1', POSITIONS + 1)}"),
    ):
        text(log_file("12,0 1 3", bad_row))
        for buffer in longer:
            refused(3, 0, f"readrow 0 {buffer}")
            refused(fault, 3, f"readrow 2 {buffer}", f"readrow 3 {buffer}")

    note("The same for a file without its header.")
    text("12,0 1 3")
    for buffer in longer:
        refused(13, 1, f"readrow 1 {buffer}")


def row_asked_for():
    note("3: the row asked for is 0. Rows count from 1; past the last the answer is end, for any "
         "number.")
    row(0, "refused 3 0")
    refused(3, 0, f"readrow 0 {POSITIONS - 1}")
    row(1, "row 12 3 0 1 3")
    row(2, "row 7 1 3")
    for number in 3, LOG_ROWS, LOG_ROWS + 1, 2**32, 2**32 + 1, MAX_64:
        row(number, "end")


# Rows of a long log, and the last of them: its answer shows that it was counted right.
PLAIN_ROW, PLAIN_ANSWER = "1,", "row 1 0"
LAST_ROW, LAST_ANSWER = f"9,{LAST} 0", f"row 9 2 {LAST} 0"


def long_log(rows, *last):
    """A log of so many rows, of which the last are given."""
    return log_file(*[PLAIN_ROW] * (rows - len(last)), *last)


def rows_of_a_log():
    note(f"A log of {LOG_ROWS - 1:,} rows.")
    text(long_log(LOG_ROWS - 1, LAST_ROW))
    row(1, PLAIN_ANSWER)
    row(LOG_ROWS - 2, PLAIN_ANSWER)
    row(LOG_ROWS - 1, LAST_ANSWER)
    for number in LOG_ROWS, LOG_ROWS + 1, MAX_64:
        row(number, "end")

    note(f"A log of {LOG_ROWS:,} rows is the longest.")
    text(long_log(LOG_ROWS, LAST_ROW))
    row(LOG_ROWS - 1, PLAIN_ANSWER)
    row(LOG_ROWS, LAST_ANSWER)
    for number in LOG_ROWS + 1, LOG_ROWS + 2, MAX_64:
        row(number, "end")


def row_beyond_the_last():
    line = 1 + LOG_ROWS + 1

    note(f"3: line {line:,} holds a {nth(LOG_ROWS + 1)} log row. Rows up to {LOG_ROWS:,} are read, "
         "as lines after the row asked for don't count.")
    text(long_log(LOG_ROWS + 1, LAST_ROW))
    row(1, PLAIN_ANSWER)
    row(LOG_ROWS, PLAIN_ANSWER)
    for number in LOG_ROWS + 1, LOG_ROWS + 2, MAX_64:
        row(number, f"refused 3 {line}")

    note("3 with line 0 before it: the row asked for is 0, or the buffer is short.")
    row(0, "refused 3 0")
    refused(3, 0, f"readrow {LOG_ROWS + 1} {POSITIONS - 1}")

    note(f"3 twice on line {line:,}: the {nth(LOG_ROWS + 1)} row has {POSITIONS + 1} entries.")
    text(long_log(LOG_ROWS + 1, f"1,{repeated('1', POSITIONS + 1)}"))
    row(LOG_ROWS, PLAIN_ANSWER)
    row(LOG_ROWS + 1, f"refused 3 {line}")

    note(f"14 comes before 3 on line {line:,}: its entry is {NO_ACTIVITY}.")
    text(long_log(LOG_ROWS + 1, f"1,{NO_ACTIVITY}"))
    row(LOG_ROWS, PLAIN_ANSWER)
    row(LOG_ROWS + 1, f"refused 14 {line}")

    note(f"13 comes before 3 on line {line:,}: it is empty and has no comma.")
    text(long_log(LOG_ROWS + 1, ""))
    row(LOG_ROWS, PLAIN_ANSWER)
    row(LOG_ROWS + 1, f"refused 13 {line}")

    note(f"Line {line:,} comes before line {line + 1:,}, whatever its number is.")
    text(long_log(LOG_ROWS + 2, PLAIN_ROW, "x"))
    row(LOG_ROWS, PLAIN_ANSWER)
    row(2 * LOG_ROWS, f"refused 3 {line}")


def sessions():
    note(f"14: sessions is 1 to {SESSIONS:,}; a number above is not cut.")
    refused_row(14, 2, log_file("0,0 3"))
    for number in 1, 2, SESSIONS - 1, SESSIONS:
        text(log_file(f"{number},0 3"))
        row(1, f"row {number} 2 0 3")
    for number in (SESSIONS + 1, MAX_32, 2**32, 2**32 + 1, MAX_64, 2**64, 2**64 + 1, 2**128 + 1,
                   "1" * DIGITS):
        refused_row(14, 2, log_file(f"{number},0 3"))


def entries():
    note(f"14: an entry of a trace is at most {LAST}; a number above is not cut.")
    for number in 0, LAST - 1, LAST:
        text(log_file(f"1,{number}"))
        row(1, f"row 1 1 {number}")
    for number in (NO_ACTIVITY, 256, MAX_32, 2**32, 2**32 + 1, 2**64, 2**64 + 1, "3" * DIGITS):
        refused_row(14, 2, log_file(f"1,{number}"))


def entries_of_a_row():
    below, most, above = POSITIONS - 1, POSITIONS, POSITIONS + 1
    shorter = repeated(f"{LAST}", below)
    longest = f"{shorter} 7"
    too_long = repeated(f"{LAST}", above)

    note(f"A trace of {below} and one of {most} entries.")
    text(log_file(f"8,{shorter}", f"8,{longest}"))
    row(1, f"row 8 {below} {shorter}")
    row(2, f"row 8 {most} {longest}")
    say(f"readrow 2 {most + 1}", f"row 8 {most} {longest}")

    note(f"3: a trace of {above} entries exceeds {most} positions, on its line.")
    text(log_file("8,5", f"8,{too_long}"))
    row(1, "row 8 1 5")
    row(2, "refused 3 3")
    say(f"readrow 2 {most + 1}", "refused 3 3")
    row(3, "refused 3 3")


def every_number_of_entries():
    traces = [repeated(f"{LAST}", entries) for entries in range(POSITIONS + 2)]

    note(f"A log whose rows have 0, 1 and so on to {POSITIONS + 1} entries: all are read but the "
         "last.")
    text(log_file(*(f"8,{trace}" for trace in traces)))
    for entries, trace in enumerate(traces[:-1]):
        row(entries + 1, f"row 8 {entries} {trace}".rstrip())
    row(POSITIONS + 2, f"refused 3 {POSITIONS + 3}")


def faults_beside_too_many_entries():
    above, many = POSITIONS + 1, 500
    too_long = repeated("1", above)

    note(f"14 before 3 on a line: after {above} entries a {nth(above + 1)} is above {LAST}, or is "
         "empty, or has a leading zero.")
    for entry in f"{NO_ACTIVITY}", "", "01":
        refused_row(14, 2, log_file(f"8,{too_long} {entry}"))

    note(f"14 before 3: the {nth(above)} entry itself is bad, and a {nth(many)} entry is bad.")
    refused_row(14, 2, log_file(f"8,{repeated('1', above - 1)} {NO_ACTIVITY}"))
    refused_row(14, 2, log_file(f"8,{repeated('1', many - 1)} x"))

    note(f"3: {many} good entries are just too many.")
    refused_row(3, 2, log_file(f"8,{repeated('1', many)}"))

    note(f"14 before 3: sessions is 0 and the trace has {above} entries.")
    refused_row(14, 2, log_file(f"0,{too_long}"))

    note(f"13 before 3: the line with {above} entries has a second comma.")
    refused_row(13, 2, log_file(f"8,{too_long},"))
