"""Commands that the sections say again and again, with their answers."""

from bindings import words
from files import F_FILE
from limits import LAST, POSITIONS, SETS, USES
from record import WORDS, in_count, in_length, in_place, out_count, out_length, out_place
from script import ok, refused, say, text

IN = 0
OUT = 1


def same(register, other):
    """The two records are equal in every word."""
    say(f"same {register} {other}", "ok 1")


def same_sets(register, other):
    """Each net is contained in the other: they hold the same sets, whatever their counts are."""
    say(f"contained {register} {other}", "ok 1")
    say(f"contained {other} {register}", "ok 1")


def put_new(register, side, activity, *sets):
    """Sets that are put on a side one after another and are all new there."""
    for one in sets:
        say(f"put {register} {side} {activity} {one}", "ok 1")


def read_f(register):
    """The register becomes net F, by way of its file."""
    text(F_FILE)
    ok(f"readnet {register}")


def disorderly_f():
    """Register 0 becomes F, which register 1 holds, with one word changed.

    It is the place behind the three sets of the input side of 3, which is no longer zero.
    """
    ok("copy 0 1", f"poke 0 {in_place(3, 3)} 7")


def disorder(register):
    """The record is no longer orderly: its last place for a set, which no list uses, isn't zero."""
    ok(f"poke {register} {out_place(LAST, SETS - 1)} 1")


def set_counts(register, *counts):
    """Counts are changed by hand, which is no call; each is its word and what it becomes."""
    ok(*(f"poke {register} {word} {value}" for word, value in counts))


def counted_side(register, side, activity, uses):
    """All places of a side: these sets, ascending, each with its count, and zero behind them."""
    length, place, count = (
        (in_length, in_place, in_count) if side == IN else (out_length, out_place, out_count)
    )
    say(f"peek {register} {length(activity)} 1", f"words {len(uses)}")
    for first, used in (place(activity), uses.keys()), (count(activity), uses.values()):
        say(f"peek {register} {first} {SETS}", f"words {words([*used, *[0] * (SETS - len(uses))])}")


def no_counts(register):
    """All counts of the record are 0."""
    counts = WORDS - in_count(0)
    say(f"peek {register} {in_count(0)} {counts}", f"words {words([0] * counts)}")


# The words of all counts of F that belong to a set, the two empty ones among them.
F_COUNTS = (
    in_count(0), in_count(1), in_count(2), in_count(3, 0), in_count(3, 1), in_count(3, 2),
    out_count(0, 0), out_count(0, 1), out_count(0, 2), out_count(1), out_count(2), out_count(3),
)


def f_counted(register, uses):
    """The register becomes F, which register 1 holds, with this count for every set."""
    ok(f"copy {register} 1")
    set_counts(register, *((word, uses) for word in F_COUNTS))


def f_at_the_top(register):
    f_counted(register, USES)


def peek(register, first, count, record):
    """So many words from the first on are those of the record."""
    say(f"peek {register} {first} {count}", f"words {words(record[first : first + count])}")


def row(number, answer):
    """Row reading with the shortest buffer that will do."""
    say(f"readrow {number} {POSITIONS}", answer)


def refused_row(number, line, log):
    """A log whose row 1 can't be read."""
    text(log)
    row(1, f"refused {number} {line}")


def refused_net(number, line, net):
    """A net file that is refused; the fresh net of 0 and 1, which register 3 holds, is returned.

    Register 1 holds another net, so that register 0 has something to lose.
    """
    text(net)
    ok("copy 0 1")
    refused(number, line, "readnet 0")
    same(0, 3)
