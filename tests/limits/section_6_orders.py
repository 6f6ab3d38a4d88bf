"""The part of section 6 on the order of learning (02, (ix)).

Where every call is accepted it doesn't matter, nor whether a sequence is learned or its trace
followed.
"""

import itertools

from bindings import loop, loop_trace
from calls import F_COUNTS, f_counted, read_f, same, same_sets, set_counts
from files import F_FILE, net_file
from limits import LAST, POSITIONS, SETS, USES
from record import in_count, out_count
from script import note, ok, refused, say, shown, text

# The commands that learn a sequence: as a learn, and where a trace gives it as a follow too.
BY_1 = ("learn {} 0 0 2 1 1 8 3 2 0", "follow {} 0 1 3")
BY_2 = ("learn {} 0 0 4 2 1 8 3 4 0", "follow {} 0 2 3")
BY_BOTH = ("learn {} 0 0 6 1 1 8 2 1 8 3 6 0",)

# How many sets some of them have together, but for the two empty ones. By both ways has in common
# with each of the others the two sets of the activity between.
TOGETHER = {
    frozenset(): 0,
    frozenset({BY_1}): 4,
    frozenset({BY_2}): 4,
    frozenset({BY_BOTH}): 6,
    frozenset({BY_1, BY_2}): 8,
    frozenset({BY_1, BY_BOTH}): 8,
    frozenset({BY_2, BY_BOTH}): 8,
    frozenset({BY_1, BY_2, BY_BOTH}): 10,
}


def write():
    read_f(1)
    every_order()
    as_often()
    not_as_often()
    other_sets()
    longest()
    a_side_filled()
    a_side_filled_by_shared_sets()
    a_side_too_full()
    counts_to_the_top()
    counts_beyond_the_top()


def grow(register, sequences, forms):
    """A fresh net learns the sequences in this order, each by the command of this number."""
    ok(f"fresh {register} 0 3")
    before = frozenset()
    for sequence, form in zip(sequences, forms):
        after = before | {sequence}
        say(sequence[form].format(register), f"ok {TOGETHER[after] - TOGETHER[before]}")
        before = after


def orders(*sequences):
    """Each order of the sequences with each choice of their commands, none of them twice."""
    for order in dict.fromkeys(itertools.permutations(sequences)):
        for forms in itertools.product(*(range(len(sequence)) for sequence in order)):
            yield order, forms


def written_as(register, content):
    """The text of the net is this one, byte for byte."""
    text("another text")
    say(f"writenet {register} {len(content)}", f"ok {len(content)}")
    shown(content)


def every_order():
    note("Three sequences in each of their six orders, each learned, or followed where a trace "
         "gives it: always F, in every word. The sets of 1 and of 2 are used twice, once alone and "
         "once together, the two empty sets three times, and each other set once.")
    f_counted(2, 1)
    set_counts(2, (in_count(0), 3), (out_count(3), 3), (in_count(1), 2), (out_count(1), 2),
               (in_count(2), 2), (out_count(2), 2))
    for order, forms in orders(BY_1, BY_2, BY_BOTH):
        grow(0, order, forms)
        same(0, 2)
        written_as(0, F_FILE)


def as_often():
    note("One of two sequences twice: the same net in each order.")
    grow(2, (BY_1, BY_1, BY_2), (0, 0, 0))
    for order, forms in orders(BY_1, BY_1, BY_2):
        grow(0, order, forms)
        same(0, 2)


def not_as_often():
    note("One of two sequences twice, and the other one twice: the nets differ, though the same "
         "sequences occur. They differ in counts alone, and their texts are the same.")
    grow(0, (BY_1, BY_2, BY_2), (0, 0, 0))
    grow(2, (BY_1, BY_1, BY_2), (0, 0, 0))
    say("same 0 2", "ok 0")
    same_sets(0, 2)
    for register in 0, 2:
        written_as(register, net_file(
            0, 3,
            "out,0,1", "out,0,2", "in,1,0", "out,1,3", "in,2,0", "out,2,3", "in,3,1", "in,3,2",
        ))

    note("With the other one once more in each, they are the same.")
    say(BY_1[0].format(0), "ok 0")
    say(BY_2[0].format(2), "ok 0")
    same(0, 2)


def other_sets():
    note("Sequences with the same activities and other sets are different ones: 1 and 2 both after "
         "0, or one after the other. New beside the former are 2 and 4 on the output sides of 0 "
         "and 1, and 2 and 4 on the input sides of 2 and 3; new beside the latter 6 and 8 on the "
         "output sides of 0 and 1, and 1 and 6 on the input sides of 2 and 3.")
    in_a_row = "follow {} 0 1 2 3"
    ok("fresh 0 0 3", "fresh 2 0 3")
    say(BY_BOTH[0].format(0), "ok 6")
    say(in_a_row.format(0), "ok 4")
    say(BY_BOTH[0].format(2), "ok 6")
    say(BY_BOTH[0].format(2), "ok 0")
    say("same 0 2", "ok 0")
    ok("fresh 2 0 3")
    say(in_a_row.format(2), "ok 6")
    say(BY_BOTH[0].format(2), "ok 4")
    same(0, 2)


def longest():
    note(f"A sequence of {POSITIONS} positions, learned before the way by 1 and followed behind "
         "it. It has the four sets of that way; its other two are 2 on either side of 1.")
    ok("fresh 0 0 3", "fresh 2 0 3")
    say(f"learn 0 {loop(POSITIONS)}", "ok 6")
    say(BY_1[1].format(0), "ok 0")
    say(BY_1[0].format(2), "ok 4")
    say(f"follow 2 {loop_trace(POSITIONS)}", "ok 2")
    same(0, 2)


def ways(register, order):
    """The ways from 0 to the last activity by each of these; each has four sets of its own."""
    ok(f"fresh {register} 0 {LAST}")
    for between in order:
        say(f"follow {register} 0 {between} {LAST}", "ok 4")


def a_side_filled():
    note(f"{SETS} sets on the output side of 0 and as many on the input side of {LAST}, which is "
         "as many as may be, brought one by one: ascending, descending, and from the middle.")
    ascending = range(1, 1 + SETS)
    ways(2, ascending)
    for order in reversed(ascending), [*ascending[SETS // 2 :], *ascending[: SETS // 2]]:
        ways(0, order)
        same(0, 2)


def a_side_filled_by_shared_sets():
    note(f"Twice the last set that there is room for, once alone and once with {SETS} repeated: "
         "sets that two sequences share count once, whichever comes first.")
    alone, repeated = f"0 {SETS} {LAST}", f"0 {SETS} {SETS} {LAST}"
    for register, answers in (0, ((alone, 4), (repeated, 2))), (2, ((repeated, 6), (alone, 0))):
        ways(register, range(1, SETS))
        for trace, new in answers:
            say(f"follow {register} {trace}", f"ok {new}")
    same(0, 2)


def a_side_too_full():
    note("One more: whichever comes last is refused by 12, so the nets differ, and neither is "
         "contained in the other.")
    ways(0, range(1, 1 + SETS))
    refused(12, 0, f"follow 0 0 {1 + SETS} {LAST}")
    ways(2, range(1 + SETS, 1, -1))
    refused(12, 0, f"follow 2 0 1 {LAST}")
    say("same 0 2", "ok 0")
    say("contained 0 2", "ok 0")
    say("contained 2 0", "ok 0")


def looped(count):
    """Registers 0 and 2 become a net with this count for 2 on either side of 1.

    A loop of n positions uses it n - 3 times there.
    """
    ok("fresh 0 0 3")
    say(f"learn 0 {loop(5)}", "ok 6")
    set_counts(0, (in_count(1, 1), count), (out_count(1, 0), count))
    ok("copy 2 0")


def counts_to_the_top():
    note("From F with counts two below the highest: the way by 1 alone and the way by both use the "
         "sets of 1 once each, and so raise their counts to the highest.")
    for register, order in (0, (BY_1, BY_BOTH)), (2, (BY_BOTH, BY_1)):
        f_counted(register, USES - 2)
        for sequence in order:
            say(sequence[0].format(register), "ok 0")
    same(0, 2)
    say(f"peek 0 {in_count(1)} 1", f"words {USES}")

    long, short = loop(POSITIONS), loop(5)
    uses = POSITIONS - 3 + 2
    note(f"Two sequences that use a set {POSITIONS - 3} times and twice, and raise its count to "
         "the highest too.")
    looped(USES - uses)
    for register, order in (0, (long, short)), (2, (short, long)):
        for sequence in order:
            say(f"learn {register} {sequence}", "ok 0")
    same(0, 2)
    say(f"peek 0 {in_count(1, 1)} 1", f"words {USES}")


def counts_beyond_the_top():
    note("From one below the highest: whichever comes second is refused by 21, so the nets differ "
         "in their counts.")
    for register, (first, second) in (0, (BY_1, BY_BOTH)), (2, (BY_BOTH, BY_1)):
        f_counted(register, USES - 1)
        say(first[0].format(register), "ok 0")
        refused(21, 0, second[0].format(register))
    say("same 0 2", "ok 0")
    same_sets(0, 2)

    note("The same for a set that is used several times, with its count one higher at first.")
    long, short = loop(POSITIONS), loop(5)
    looped(USES - (POSITIONS - 3 + 2) + 1)
    for register, (first, second) in (0, (long, short)), (2, (short, long)):
        say(f"learn {register} {first}", "ok 0")
        refused(21, 0, f"learn {register} {second}")
    say("same 0 2", "ok 0")
    same_sets(0, 2)
