"""The part of section 2 on the sets of a side, put, learned, followed and read."""

from bindings import FIG_4, fillers, words
from calls import IN, OUT, put_new, same
from files import net_file
from limits import ALL, LAST, SETS
from record import in_length, in_place, out_length, out_place
from script import note, ok, refused, say, text
from wording import spelled, spelled_nth

FULL, ONE_SHORT, TWO_SHORT = spelled(SETS), spelled(SETS - 1), spelled(SETS - 2)
TOO_MANY = spelled_nth(SETS + 1)


def write():
    sets_put_on_an_output_side()
    sets_put_on_an_input_side()
    sets_learned()
    two_sets_learned_at_once()
    sets_on_an_input_side_learned()
    sets_read()
    repeated_sets_read()


def sets_put_on_an_output_side():
    tens = [10 * number for number in range(1, SETS + 2)]
    *fitting, too_many = tens

    note(f"A side is a list of at most {SETS} sets. {ONE_SHORT.capitalize()} sets are put on the "
         "output side of 0.")
    ok("fresh 0 0 3")
    put_new(0, OUT, 0, *fitting[:-1])
    say(f"peek 0 {out_length(0)} 1", f"words {SETS - 1}")

    note(f"The {spelled_nth(SETS)} set fits.")
    put_new(0, OUT, 0, fitting[-1])
    say(f"peek 0 {out_length(0)} 1", f"words {SETS}")
    say(f"peek 0 {out_place(0)} {SETS + 1}", f"words {words(fitting)} 0")
    ok("copy 1 0")

    note(f"12: a {TOO_MANY} set above, below and between the others is refused, and the net is "
         "unchanged.")
    for one in too_many, 5, 95:
        refused(12, 0, f"put 0 1 0 {one}")
        same(0, 1)

    note(f"A set that is already on the full side does not make it exceed {SETS}.")
    for one in fitting[0], 80, fitting[-1]:
        say(f"put 0 1 0 {one}", "ok 0")
    same(0, 1)

    note("The other sides are not full.")
    put_new(0, IN, 1, too_many)
    put_new(0, OUT, 1, too_many)


def sets_put_on_an_input_side():
    hundreds = [100 * number for number in range(1, SETS + 2)]
    *fitting, too_many = hundreds
    lowest, *others = fitting

    note("The same on an input side, the sets put from the highest down.")
    ok("fresh 0 0 3")
    put_new(0, IN, LAST, *reversed(others))
    say(f"peek 0 {in_length(LAST)} 1", f"words {SETS - 1}")
    put_new(0, IN, LAST, lowest)
    say(f"peek 0 {in_length(LAST)} 1", f"words {SETS}")
    say(f"peek 0 {in_place(LAST)} {SETS}", f"words {words(fitting)}")
    ok("copy 1 0")
    for one in too_many, 50, ALL:
        refused(12, 0, f"put 0 0 {LAST} {one}")
    same(0, 1)
    for one in lowest, fitting[-1]:
        say(f"put 0 0 {LAST} {one}", "ok 0")
    same(0, 1)


def sets_learned():
    note(f"Learn: the output side of 0 holds {ONE_SHORT} sets that the sequence does not use; the "
         f"{spelled_nth(SETS)} fits.")
    ok("fresh 0 0 3")
    put_new(0, OUT, 0, *fillers(SETS - 1))
    ok("copy 2 0")
    say("learn 0 0 0 2 1 1 8 3 2 0", "ok 4")
    say(f"peek 0 {out_length(0)} 1", f"words {SETS}")
    say(f"peek 0 {out_place(0)} 3", "words 2 16 17")

    note("The set is there now, so the full side does not matter.")
    say("learn 0 0 0 2 1 1 8 3 2 0", "ok 0")

    note(f"12: a {TOO_MANY} set is refused and the net is unchanged, although the sequence's "
         "other sets would fit.")
    ok("copy 1 0")
    refused(12, 0, "learn 0 0 0 4 2 1 8 3 4 0")
    same(0, 1)

    note("Another sequence that uses the set there may still add sets to other sides.")
    say("learn 0 0 0 2 1 1 4 2 2 8 3 4 0", "ok 4")

    note("Follow: the same with the trace 0 1 3, which makes the same sequence.")
    ok("copy 0 2")
    say("follow 0 0 1 3", "ok 4")
    say("follow 0 0 1 3", "ok 0")
    same(0, 1)
    refused(12, 0, "follow 0 0 2 3")
    same(0, 1)
    say("follow 0 0 1 2 3", "ok 4")


def two_sets_learned_at_once():
    *others, one_more = fillers(SETS - 1, lowest=17)

    note("Learn adds two sets to the output side of 1 by the sequence of Fig. 4, which are 6 and "
         f"12: with {TWO_SHORT} other sets there the side gets {SETS}.")
    ok("fresh 0 0 4")
    put_new(0, OUT, 1, *others)
    ok("copy 1 0")
    say(f"learn 0 {FIG_4}", "ok 12")
    say(f"peek 0 {out_length(1)} 1", f"words {SETS}")

    note(f"12: with {ONE_SHORT} other sets each of the two would fit alone, but not both.")
    ok("copy 0 1")
    put_new(0, OUT, 1, one_more)
    ok("copy 2 0")
    refused(12, 0, f"learn 0 {FIG_4}")
    same(0, 2)

    note(f"With {TWO_SHORT} others and one of the two the sequence fits, and one less is new.")
    ok("copy 0 1")
    put_new(0, OUT, 1, 12)
    say(f"learn 0 {FIG_4}", "ok 11")
    say(f"peek 0 {out_length(1)} 1", f"words {SETS}")

    note(f"With {ONE_SHORT} others and one of the two there is no room for the second, with "
         f"{TWO_SHORT} others and both there is no need.")
    ok("copy 0 1")
    put_new(0, OUT, 1, one_more, 6)
    ok("copy 2 0")
    refused(12, 0, f"learn 0 {FIG_4}")
    same(0, 2)
    ok("copy 0 1")
    put_new(0, OUT, 1, 6, 12)
    say(f"learn 0 {FIG_4}", "ok 10")


def sets_on_an_input_side_learned():
    note(f"12: an input side is full; the last position's set would be the {TOO_MANY} on the "
         "input side of 3.")
    ok("fresh 0 0 3")
    put_new(0, IN, 3, *fillers(SETS))
    ok("copy 1 0")
    refused(12, 0, "learn 0 0 0 2 1 1 8 3 2 0")
    same(0, 1)
    refused(12, 0, "follow 0 0 1 3")
    same(0, 1)

    note("The trace 0 4 3 brings 16 to the input side of 3, which is there, and three new sets "
         "elsewhere.")
    say("follow 0 0 4 3", "ok 3")

    note("Follow of 0 1 1 3 brings 2 and 8 to the output side of 1 and 1 and 2 to its input side: "
         f"with {TWO_SHORT} others on the output side all six fit, with {ONE_SHORT} they do not.")
    *others, one_more = fillers(SETS - 1)
    ok("fresh 0 0 3")
    put_new(0, OUT, 1, *others)
    ok("copy 1 0")
    say("follow 0 0 1 1 3", "ok 6")
    ok("copy 0 1")
    put_new(0, OUT, 1, one_more)
    ok("copy 1 0")
    refused(12, 0, "follow 0 0 1 1 3")
    same(0, 1)

    note("The trace 0 1 3 needs only 8 there.")
    say("follow 0 0 1 3", "ok 4")


def output_rows(number):
    """Rows of so many sets on the output side of 0, each with one member, from 1 on."""
    return [f"out,0,{member}" for member in range(1, number + 1)]


def sets_read():
    note(f"Net reading: {ONE_SHORT} sets on the output side of 0.")
    text(net_file(0, 3, *output_rows(SETS - 1)))
    ok("readnet 0")
    say(f"peek 0 {out_length(0)} 1", f"words {SETS - 1}")

    note(f"{FULL.capitalize()} sets are read.")
    text(net_file(0, 3, *output_rows(SETS)))
    ok("readnet 0")
    say(f"peek 0 {out_length(0)} 1", f"words {SETS}")
    say(f"peek 0 {out_place(0)} {SETS}",
        f"words {words(1 << member for member in range(1, SETS + 1))}")

    line = 3 + SETS + 1
    note(f"12: the {TOO_MANY} set is on line {line}; the fresh net of 0 and 1 is returned.")
    text(net_file(0, 3, *output_rows(SETS + 1)))
    refused(12, line, "readnet 0")
    same(0, 3)


def repeated_sets_read():
    note("A repeated row changes nothing, on a full side too.")
    text(net_file(0, 3, *output_rows(SETS), "out,0,1", f"out,0,{SETS}", "out,0,7"))
    ok("readnet 0")
    say(f"peek 0 {out_length(0)} 1", f"words {SETS}")

    line = 3 + SETS + 3 + 1
    note(f"12: three repeated rows stand before the {TOO_MANY} set, which is on line {line}.")
    text(net_file(0, 3, "out,0,1", "out,0,1", *output_rows(SETS), "out,0,1", "out,0,1 2",
                  "out,0,1"))
    refused(12, line, "readnet 0")
    same(0, 3)

    note(f"12: the rows need not ascend; the {TOO_MANY} set of an input side has the lowest mask "
         "here.")
    text(net_file(0, 3, *(f"in,{LAST},{member}" for member in range(SETS + 1, 0, -1))))
    refused(12, 3 + SETS + 1, "readnet 0")

    note(f"{FULL.capitalize()} sets on each of two sides of one activity are no fault.")
    text(net_file(0, 3, *(f"{side},{LAST},{member}" for side in ("in", "out")
                          for member in range(SETS))))
    ok("readnet 0")
    say(f"peek 0 {in_length(LAST)} 1", f"words {SETS}")
    say(f"peek 0 {out_length(LAST)} 1", f"words {SETS}")
