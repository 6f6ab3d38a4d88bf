"""The part of section 8 on the share of fitting sessions (02, (vi)).

Register 1 holds F, and register 3 the fresh net of 0 and 1. Of F's traces 0 1 3 is found with 3
trials, 0 2 3 with 6 and 0 1 2 3 with 11, and 0 3 is none with 12; the empty trace is none with 0.
So the budget decides what is spent.
"""

from bindings import repeated
from calls import IN, OUT, disorderly_f, f_counted, same
from files import CRLF, F_FILE, LOG_HEADER, lines, log_file
from limits import DIGITS, LAST, LOG_ROWS, MAX_64, NO_ACTIVITY, POSITIONS, SESSIONS
from script import note, ok, refused, say, shown, text
from wording import nth

PLENTY = 1_000_000
FOUND = "0 1 3"
NONE = "0 3"


def write():
    figures_of_a_row()
    in_a_thousand()
    sessions_and_not_rows()
    budgets()
    each_row_has_the_budget()
    most_sessions()
    rows_of_other_shapes()
    refusals_of_the_net()
    refusals_of_the_log()
    first_of_several_refusals()
    no_rows()
    nothing_changes()


def share(budget, fitting, spent, total, register=1):
    """The figures of so many sessions: a thousand times those fitting, shared out among all."""
    per_thousand, remainder = divmod(1000 * fitting, total)
    say(f"share {register} {budget}", f"ok {per_thousand} {remainder} {spent}")


def fitting_of(fitting, others):
    """A log of so many sessions that fit and so many that don't."""
    text(log_file(f"{fitting},{FOUND}", f"{others},{NONE}"))


def figures_of_a_row():
    note("Share: one row. Found is all of it, none is nothing of it, spent counts among all and is "
         "given alone.")
    text(log_file(f"12,{FOUND}"))
    say("share 1 3", "ok 1000 0 0")
    say("share 1 2", "ok 0 0 12")
    text(log_file(f"12,{NONE}"))
    say("share 1 12", "ok 0 0 0")
    say("share 1 11", "ok 0 0 12")


def in_a_thousand():
    note("In a thousand, and what is left over: 1 of 3 is 333 and 1, 2 of 3 is 666 and 2, as a "
         "thousand times 2 is 666 times 3 and 2.")
    fitting_of(1, 2)
    say(f"share 1 {PLENTY}", "ok 333 1 0")
    fitting_of(2, 1)
    say(f"share 1 {PLENTY}", "ok 666 2 0")

    note("1 of 999, of 1,000 and of 1,001; and all but 1 of them.")
    for total, one, others in (
        (999, "ok 1 1 0", "ok 998 998 0"),
        (1000, "ok 1 0 0", "ok 999 0 0"),
        (1001, "ok 0 1000 0", "ok 999 1 0"),
    ):
        fitting_of(1, total - 1)
        say(f"share 1 {PLENTY}", one)
        fitting_of(total - 1, 1)
        say(f"share 1 {PLENTY}", others)

    note("1 of 1,000,000 is none in a thousand, and all but one are 999; nothing is rounded.")
    fitting_of(1, SESSIONS - 1)
    say(f"share 1 {PLENTY}", "ok 0 1000 0")
    fitting_of(SESSIONS - 1, 1)
    say(f"share 1 {PLENTY}", "ok 999 999000 0")


def sessions_and_not_rows():
    note("Sessions are counted and not rows: of three rows one fits, with 97 of 100 sessions.")
    text(log_file(f"97,{FOUND}", f"1,{NONE}", f"2,{NONE}"))
    say(f"share 1 {PLENTY}", "ok 970 0 0")
    text(log_file(f"1,{FOUND}", f"1,{FOUND}", f"98,{NONE}"))
    say(f"share 1 {PLENTY}", "ok 20 0 0")


def budgets():
    note("Four rows, of 3, 5, 7 and 11 sessions, need 3, 6, 11 and 12 trials; with one fewer they "
         "are spent. The last is none, and not fitting however large the budget is.")
    text(log_file("3,0 1 3", "5,0 2 3", "7,0 1 2 3", "11,0 3"))
    for budget, fitting, spent in (
        (0, 0, 26), (2, 0, 26), (3, 3, 23), (5, 3, 23), (6, 8, 18), (10, 8, 18), (11, 15, 11),
        (12, 15, 0), (PLENTY, 15, 0), (MAX_64, 15, 0),
    ):
        share(budget, fitting, spent, 26)


def each_row_has_the_budget():
    note("Each row has the whole budget: ten rows of 3 trials need 3 and not 30.")
    text(log_file(*[f"1,{FOUND}"] * 10))
    say("share 1 3", "ok 1000 0 0")
    say("share 1 2", "ok 0 0 10")


def most_sessions():
    note(f"The most: {LOG_ROWS:,} rows of {SESSIONS:,} sessions, all found, all spent, one none, "
         "and one of a session fewer none.")
    most = LOG_ROWS * SESSIONS
    found = [f"{SESSIONS},{FOUND}"]
    text(log_file(*found * LOG_ROWS))
    say("share 1 3", "ok 1000 0 0")
    say("share 1 2", f"ok 0 0 {most}")
    text(log_file(*found * (LOG_ROWS - 1), f"{SESSIONS},{NONE}"))
    say("share 1 12", "ok 999 0 0")
    say("share 1 11", f"ok 999 0 {SESSIONS}")
    text(log_file(f"{SESSIONS - 1},{NONE}", *found * (LOG_ROWS - 1)))
    say("share 1 12", "ok 999 999 0")
    say("share 1 2", f"ok 0 0 {most - 1}")

    note(f"{LOG_ROWS:,} rows of one session.")
    text(log_file(*[f"1,{FOUND}"] * 999, f"1,{NONE}"))
    say("share 1 12", "ok 999 0 0")


def rows_of_other_shapes():
    note("A trace of another shape is none with 0 trials, and so never spent: the empty one, one "
         "without its end, one without either end. One with an activity that has no set is none "
         "after the start's three pairs.")
    text(log_file(f"5,{FOUND}", "5,", "5,0 1", "5,7 7 7", "5,0 7 3"))
    share(PLENTY, 5, 0, 25)
    share(3, 5, 0, 25)
    share(2, 0, 10, 25)
    share(0, 0, 10, 25)

    note(f"Rows of {POSITIONS} entries are read; the last line may lack its CR LF.")
    text(log_file(f"1,{FOUND}", f"3,{repeated('1', POSITIONS)}"))
    share(PLENTY, 1, 0, 4)
    text(log_file(f"1,{FOUND}", f"3,{repeated('1', POSITIONS)}").removesuffix(CRLF))
    share(PLENTY, 1, 0, 4)

    note(f"The longest log without a fault: {LOG_ROWS:,} rows of {SESSIONS:,} sessions and "
         f"{POSITIONS} entries of two digits, none of which fits.")
    text(log_file(*[f"{SESSIONS},{repeated(str(LAST), POSITIONS)}"] * LOG_ROWS))
    say("share 1 0", "ok 0 0 0")

    note("Counts of uses change nothing.")
    text(log_file(f"1,{FOUND}", f"2,{NONE}"))
    f_counted(2, 7)
    for register in 1, 2:
        share(PLENTY, 1, 0, 3, register)
        share(11, 1, 2, 3, register)

    note("The same log on two nets. In that of 0 3 alone the first row is none with one trial, as "
         "1 has no pair there, and the second is found with two.")
    ok("fresh 2 0 3")
    say("put 2 1 0 8", "ok 1")
    say(f"put 2 {IN} 3 1", "ok 1")
    text(log_file(f"1,{FOUND}", f"4,{NONE}"))
    share(PLENTY, 1, 0, 5, register=1)
    share(PLENTY, 4, 0, 5, register=2)
    share(2, 4, 0, 5, register=2)
    share(1, 0, 4, 5, register=2)
    share(0, 0, 5, 5, register=2)


def refusals_of_the_net():
    note("The net's refusals, as the net check gives them: 2, 6 with the lowest activity on no "
         "walk, 19 with the lowest that names one which doesn't name it back.")
    text(log_file(f"12,{FOUND}"))
    disorderly_f()
    refused(2, 0, "share 0 0", f"share 0 {MAX_64}")
    refused(6, 0, "share 3 0", f"share 3 {MAX_64}")
    ok("fresh 2 7 5")
    refused(6, 5, "share 2 0")
    ok("copy 2 1")
    say(f"put 2 {IN} 1 4", "ok 1")
    refused(19, 1, "share 2 0", f"share 2 {MAX_64}")

    note("6 comes before 19: in the same net 4 is named too, and on no walk.")
    say(f"put 2 {OUT} 2 16", "ok 1")
    refused(6, 4, "share 2 0")
    ok("copy 2 1")
    say(f"put 2 {IN} 1 4", "ok 1")
    refused(19, 1, "share 2 0")


def refusals_of_the_log():
    note("The log's refusals, whatever the budget: 13, 14 and 3 with the line, also on the last.")
    for number, line, log in (
        (13, 1, ""),
        (13, 1, F_FILE),
        (13, 2, log_file("12")),
        (13, 2, log_file("12,0 3,")),
        (14, 2, log_file(f"0,{FOUND}")),
        (14, 2, log_file(f"{SESSIONS + 1},{FOUND}")),
        (14, 2, log_file(f"012,{FOUND}")),
        (14, 2, log_file(f"{'9' * DIGITS},{FOUND}")),
        (14, 2, log_file(f"12,0 {NO_ACTIVITY} 3")),
        (3, 2, log_file(f"12,{repeated('1', POSITIONS + 1)}")),
        (13, 4, log_file(f"12,{FOUND}", f"12,{NONE}") + CRLF),
        (14, 4, log_file(f"12,{FOUND}", f"12,{NONE}", "1,0  3")),
        (3, 4, log_file(f"12,{FOUND}", f"12,{NONE}", f"1,{repeated('0', POSITIONS + 1)}")),
    ):
        text(log)
        refused(number, line, "share 1 0", f"share 1 {PLENTY}")

    note(f"3: a {nth(LOG_ROWS + 1)} row, on line {LOG_ROWS + 2:,}; but a 13 or a 14 there comes "
         "first, and what stands behind it doesn't count.")
    full = [f"1,{FOUND}"] * LOG_ROWS
    text(log_file(*full))
    say(f"share 1 {PLENTY}", "ok 1000 0 0")
    for number, *more in (
        (3, f"1,{FOUND}"), (3, f"1,{FOUND}", "x"), (13, "x"), (14, f"0,{FOUND}"), (13, ""),
    ):
        text(log_file(*full, *more))
        refused(number, LOG_ROWS + 2, f"share 1 {PLENTY}")


def first_of_several_refusals():
    note("The net's come before the log's, whatever their numbers are.")
    for log in (
        "", "x", LOG_HEADER, log_file("12"), log_file(f"0,{FOUND}"),
        log_file(f"12,{repeated('1', POSITIONS + 1)}"),
    ):
        text(log)
        refused(2, 0, "share 0 0")
        refused(6, 0, "share 3 0")
        refused(19, 1, "share 2 0")

    note("Of the log's the first line with a fault decides; on a line 13 comes first, then 14, "
         "then 3.")
    text(log_file(f"12,0 {NO_ACTIVITY}", "12"))
    refused(14, 2, "share 1 0")
    text(log_file(f"12,{repeated('1', POSITIONS + 1)}", "12", f"0,{FOUND}"))
    refused(3, 2, "share 1 0")
    text(log_file(f"0,{repeated(str(NO_ACTIVITY), POSITIONS + 1)},", "12"))
    refused(13, 2, "share 1 0")
    text(log_file(f"0,{repeated('1', POSITIONS + 1)}", "12"))
    refused(14, 2, "share 1 0")
    text(lines("trace,sessions", f"0,{FOUND}"))
    refused(13, 1, "share 1 0")


def no_rows():
    note("20: the header alone, with and without its CR LF.")
    for log in LOG_HEADER, log_file():
        text(log)
        refused(20, 0, "share 1 0", f"share 1 {PLENTY}", f"share 1 {MAX_64}")

    note("But with one row, an empty line, a byte more or no header it is something else.")
    text(log_file("1,"))
    say("share 1 0", "ok 0 0 0")
    text(log_file() + CRLF)
    refused(13, 2, "share 1 0")
    text(LOG_HEADER + "\r")
    refused(13, 1, "share 1 0")
    text("")
    refused(13, 1, "share 1 0")


def nothing_changes():
    note("Neither the net nor the text changes, found or refused.")
    log = log_file(f"12,{FOUND}", f"3,{NONE}")
    text(log)
    ok("copy 0 1")
    share(PLENTY, 12, 0, 15, register=0)
    same(0, 1)
    shown(log)
    refused(6, 0, "share 3 0")
    shown(log)
    text(LOG_HEADER)
    refused(20, 0, "share 0 0")
    same(0, 1)
    shown(LOG_HEADER)
