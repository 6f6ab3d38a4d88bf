"""The part of section 6 on the peak, the largest total of counts after any position.

The notes give the totals, position by position.
"""

from bindings import FIG_4, loop, mask, repeated
from calls import IN, OUT, put_new, read_f
from limits import LAST, POSITIONS
from script import note, ok, refused, say

# 003's net of the trip, Fig. 1, with a to e as 0 to 4: the sets that a fresh net hasn't.
TRIP_SETS = (
    (OUT, 0, (2, 4, 10, 14)),
    (IN, 1, (1,)),
    (OUT, 1, (16, 20)),
    (IN, 2, (1, 3)),
    (OUT, 2, (16,)),
    (IN, 3, (1,)),
    (OUT, 3, (16,)),
    (IN, 4, (2, 4, 10, 14)),
)


def write():
    trips()
    peaks_on_f()
    where_the_peak_is()
    counts_above_one()
    as_many_positions_as_can_be()
    as_high_as_no_byte_holds()
    higher_than_there_are_pairs()


def trips():
    note("003's net of the trip: a to e are 0 to 4, and 1, 2 and 3 book flight, car and hotel.")
    ok("fresh 0 0 4")
    for side, activity, sets in TRIP_SETS:
        for one in sets:
            put_new(0, side, activity, one)
    say("check 0", "ok 7")

    note("Hotel, flight and car, as 003 has it: 3, 3, 4, 3, 0. The sizes of all Y have the sum 7.")
    say("peak 0 0 0 14 3 1 16 1 1 20 2 3 16 4 14 0", "ok 4")

    note("The flight first, then car and hotel: 3, 4, 3, 3, 0. Then hotel and car: 3, 4, 4, 3, 0.")
    say("peak 0 0 0 14 1 1 20 2 3 16 3 1 16 4 14 0", "ok 4")
    say("peak 0 0 0 14 1 1 20 3 1 16 2 3 16 4 14 0", "ok 4")

    note("Flight and hotel: 2, 2, 2, 0, with the sum 4. The flight or the car alone: 1, 1, 0.")
    say("peak 0 0 0 10 1 1 16 3 1 16 4 10 0", "ok 2")
    say("peak 0 0 0 10 3 1 16 1 1 16 4 10 0", "ok 2")
    say("peak 0 0 0 2 1 1 16 4 2 0", "ok 1")
    say("peak 0 0 0 4 2 1 16 4 4 0", "ok 1")

    note("Where it is refused no peak is given: the car before the flight isn't possible at "
         "position 3, and without the hotel the end isn't.")
    refused(10, 3, "peak 0 0 0 14 3 1 16 2 3 16 1 1 20 4 14 0")
    refused(10, 4, "peak 0 0 0 14 1 1 20 2 3 16 4 14 0")
    refused(11, 0, "peak 0 0 0 14 1 1 20 2 3 16 4 4 0")


def peaks_on_f():
    note("On F: 1, 1, 0 for one of the two, and 2, 2, 2, 0 for both.")
    read_f(0)
    say("peak 0 0 0 2 1 1 8 3 2 0", "ok 1")
    say("peak 0 0 0 4 2 1 8 3 4 0", "ok 1")
    say("peak 0 0 0 6 1 1 8 2 1 8 3 6 0", "ok 2")
    say("peak 0 0 0 6 2 1 8 1 1 8 3 6 0", "ok 2")


def where_the_peak_is():
    note("The peak at the start: 3, 3, 2, 1, 0.")
    learned_peak("0 0 28 2 1 8 3 5 16 4 9 32 5 16 0", 8, 3)

    note("The peak before the end: 2, 3, 3, 0.")
    learned_peak("0 0 34 1 1 36 2 2 32 5 7 0", 6, 3)

    note("Up, down and up again. The second time higher: 1, 2, 2, 2, 1, 3, 3, 3, 3, 0.")
    learned_peak("0 0 2 1 1 12 2 2 16 3 2 16 4 12 32 5 16 448 6 32 512 7 32 512 8 32 512 9 448 0",
                 18, 3)

    note("The second time lower: 1, 3, 3, 3, 3, 1, 2, 2, 2, 0.")
    learned_peak("0 0 2 1 1 28 2 2 32 3 2 32 4 2 32 5 28 64 6 32 384 7 64 512 8 64 512 9 384 0",
                 18, 3)


def learned_peak(sequence, new, peak):
    """A sequence whose net is learned from it, and its peak there. Its last position is the end."""
    end = sequence.split()[-3]
    ok(f"fresh 0 0 {end}")
    say(f"learn 0 {sequence}", f"ok {new}")
    say(f"peak 0 {sequence}", f"ok {peak}")


def counts_above_one():
    note("Fig. 4, in which (1, 2) has a count of 2: 1, 2, 3, 3, 3, 2, 1, 0, with the sum 9.")
    learned_peak(FIG_4, 12, 3)


def stacked(ones, twos):
    """Each 1 makes a 2 due. Each 2 takes one of these and what the 2 before it made due."""
    return (f"0 0 2 1 1 6 {repeated('1 2 6', ones - 2)} 1 2 4 "
            f"2 2 4 {repeated('2 6 4', twos - 2)} 2 6 8 3 4 0")


def as_many_positions_as_can_be():
    most = (POSITIONS - 2) // 2

    note(f"{most} times 1 and then {most} times 2, {POSITIONS} positions: the count of (1, 2) "
         f"grows to {most}. Totals: 1, 2 and so on to {most}, twice {most} more, down again by one "
         f"to 1, and 0. The sum is {3 * most}.")
    learned_peak(stacked(most, most), 10, most)

    note(f"One time fewer each: the same sets, and the totals go up to {most - 1}.")
    say(f"learn 0 {stacked(most - 1, most - 1)}", "ok 0")
    say(f"peak 0 {stacked(most - 1, most - 1)}", f"ok {most - 1}")

    note("One 2 fewer leaves a count of 1; one 1 fewer leaves nothing for the last 2.")
    refused(11, 0, f"peak 0 {stacked(most, most - 1)}")
    refused(10, 2 * most, f"peak 0 {stacked(most - 1, most)}")

    note(f"One obligation carried through {POSITIONS - 1} and {POSITIONS} positions.")
    learned_peak(loop(POSITIONS - 1), 6, 1)
    say(f"peak 0 {loop(POSITIONS)}", "ok 1")


def all_twice(second):
    """Each of the activities between start and end makes all of them due, and those of a second
    round take this."""
    between = range(1, LAST)
    all_of_them = mask(*between)
    first_round = " ".join(f"{activity} 1 {all_of_them}" for activity in between)
    second_round = " ".join(f"{activity} {all_of_them} {mask(LAST)}" for activity in second)
    return f"0 0 {all_of_them} {first_round} {second_round} {LAST} {all_of_them} 0"


def as_high_as_no_byte_holds():
    between = range(1, LAST)
    number = len(between)

    note(f"The {number} activities from 1 to {LAST - 1} make each other and themselves due. "
         f"Totals: {number} at the start, {number - 1} more at each of the next {number}, which is "
         f"{number**2}, {number - 1} fewer at each of the {number} behind, and 0 at the end.")
    learned_peak(all_twice(between), 2 + 4 * number, number**2)
    say("check 0", f"ok {number**2 + 2 * number}")
    say(f"peak 0 {all_twice(reversed(between))}", f"ok {number**2}")

    note(f"Without the second 17, the end isn't possible at position {2 * number + 1}.")
    refused(10, 2 * number + 1,
            f"peak 0 {all_twice(activity for activity in between if activity != 17)}")


def all_and_some_again(some):
    """As all_twice, with some activities twice more: between the rounds they make each other due
    again, and behind them they take that. Only the next one in their circle isn't made due between
    the rounds, but in the second."""
    *others, last = between = range(1, LAST)
    all_of_them, these = mask(*between), mask(*some)
    following = dict(zip(some, [*some[1:], some[0]]))
    first_round = [f"{a} 1 {all_of_them}" for a in between]
    again = [f"{a} {mask(last)} {these & ~mask(following[a])}" for a in some]
    second_round = [f"{a} {mask(*others)} {mask(following[a])}" if a in following
                    else f"{a} {all_of_them} {mask(LAST)}" for a in between]
    at_last = [f"{a} {these} {mask(LAST)}" for a in some]
    rounds = " ".join(first_round + again + second_round + at_last)
    return f"0 0 {all_of_them} {rounds} {LAST} {all_of_them} 0"


def higher_than_there_are_pairs():
    number = len(range(1, LAST))
    again = min(number, (POSITIONS - 2 - 2 * number) // 2)
    rest = number - again
    peak = number**2 + again * (again - 2)
    lower = peak - again * (number - 2)
    low = lower - rest * (number - 1)

    note(f"{2 + 2 * (number + again)} positions: the {again} activities from 1 to {again} once "
         f"more after the {number}. Totals: {number}, then {number - 1} more at each of {number}, "
         f"which is {number**2}, {again - 2} more at each of {again}, which is {peak}, "
         f"{number - 2} fewer at each of {again}, which is {lower}, {number - 1} fewer at each of "
         f"{rest}, which is {low}, {again - 1} fewer at each of {again}, which is {number}, and 0.")
    learned_peak(all_and_some_again(range(1, again + 1)), 2 + 8 * again + 4 * rest, peak)
