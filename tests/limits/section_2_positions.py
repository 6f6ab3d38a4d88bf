"""The part of section 2 on sequences and traces: their length, and what a replay is given."""

from bindings import loop, loop_trace, loop_trials
from calls import IN, OUT, counted_side, disorder, put_new, read_f, same, same_sets
from limits import BUFFER_WORDS, LINE_NUMBERS, MAX_64, NO_ACTIVITY, POSITIONS
from script import note, ok, refused, say


def write():
    positions_learned_and_judged()
    positions_followed()
    positions_replayed()
    words_of_a_sequence()
    every_number_of_words()
    every_number_of_entries()
    every_number_of_positions()
    buffer_of_replay()
    buffers_that_stay()
    budgets()


def positions_learned_and_judged():
    below, most, above = POSITIONS - 1, POSITIONS, POSITIONS + 1

    note(f"A sequence has at most {most} positions. With {below} positions "
         "(0,0,2)(1,1,2)(1,2,2)..(1,2,8)(3,2,0) is learned: 2 on the output side of 0, 1 and 2 on "
         "the input side of 1, 2 and 8 on its output side, 2 on the input side of 3.")
    ok("fresh 0 0 3")
    say(f"learn 0 {loop(below)}", "ok 6")

    note(f"{most} positions are the most; the sets are the same.")
    say(f"learn 0 {loop(most)}", "ok 0")

    note(f"3: this sequence has {above} positions.")
    ok("copy 1 0")
    refused(3, 0, f"learn 0 {loop(above)}")
    same(0, 1)

    note(f"From a fresh net too, {most} positions are learned and {above} are not.")
    ok("fresh 0 0 3")
    refused(3, 0, f"learn 0 {loop(above)}")
    ok("fresh 2 0 3")
    same(0, 2)
    say(f"learn 0 {loop(most)}", "ok 6")
    same_sets(0, 1)

    note(f"Judge: {below} and {most} positions are judged, {above} are not.")
    say("check 0", "ok 3")
    ok(f"judge 0 {loop(below)}", f"judge 0 {loop(most)}")
    refused(3, 0, f"judge 0 {loop(above)}", f"peak 0 {loop(above)}")


def positions_followed():
    below, most, above = POSITIONS - 1, POSITIONS, POSITIONS + 1

    note(f"Follow: traces of {below} and {most} entries make the same sequences, {above} entries "
         "are too many.")
    ok("fresh 2 0 3")
    say(f"follow 2 {loop_trace(below)}", "ok 6")
    same_sets(2, 1)
    say(f"follow 2 {loop_trace(most)}", "ok 0")
    same(2, 1)
    refused(3, 0, f"follow 2 {loop_trace(above)}")
    same(2, 1)
    ok("fresh 2 0 3")
    say(f"follow 2 {loop_trace(most)}", "ok 6")
    same(2, 0)


def positions_replayed():
    below, most, above = POSITIONS - 1, POSITIONS, POSITIONS + 1
    trials = loop_trials(most)

    note(f"Replay of {below} entries, {below - 2} of them 1. Trials: 1 at the start, 1 at the "
         f"first 1, 3 at each of the {below - 4} in the middle (two pairs with X 1 and then the "
         "pair 2, 2), at the last 1 three and then one at the end that fails, a fourth and one at "
         f"the end that succeeds: 1 + 1 + {3 * (below - 4)} + 6 = {loop_trials(below)}.")
    say(f"replay 0 1000000 {3 * below} {loop_trace(below)}",
        f"found {loop_trials(below)} {loop(below)}")

    note(f"Replay of {most} entries: three trials more, {trials}.")
    say(f"replay 0 1000000 {3 * most} {loop_trace(most)}", f"found {trials} {loop(most)}")
    say(f"replay 0 {trials} {3 * most} {loop_trace(most)}", f"found {trials} {loop(most)}")
    say(f"replay 0 {trials - 1} {3 * most} {loop_trace(most)}", f"spent {trials - 1}")

    note(f"3: a trace of {above} entries is too long, however long the buffer is.")
    refused(3, 0, f"replay 0 1000000 {3 * above} {loop_trace(above)}",
            f"replay 0 1000000 {BUFFER_WORDS} {loop_trace(above)}")


def words_of_a_sequence():
    note("3: one, two, four and five words aren't a multiple of three.")
    ok("copy 1 0")
    for call in "judge", "learn":
        refused(3, 0, f"{call} 0 0", f"{call} 0 0 0", f"{call} 0 0 0 2 1", f"{call} 0 0 0 2 1 1")
    same(0, 1)

    note(f"3: {3 * POSITIONS - 1} and {3 * POSITIONS + 1} words aren't a multiple of three either.")
    one_more = f"{loop(POSITIONS)} 0"
    one_less = loop(POSITIONS).removesuffix(" 0")
    for call in "learn", "judge":
        refused(3, 0, f"{call} 0 {one_more}", f"{call} 0 {one_less}")
    same(0, 1)


def every_number_of_words():
    note(f"Every number of words from 1 to {3 * POSITIONS + 3}: all are 0 but the activity at the "
         "last position, which is none. With one or two words there 3; with three 4 at that "
         f"position, and 3 if it is position {POSITIONS + 1}.")
    for call in "judge", "learn":
        for position in range(1, POSITIONS + 2):
            before = f"{call} 0 {'0 0 0 ' * (position - 1)}{NO_ACTIVITY}"
            refused(3, 0, before, f"{before} 0")
            if position <= POSITIONS:
                refused(4, position, f"{before} 0 0")
            else:
                refused(3, 0, f"{before} 0 0")
    same(0, 1)

    most = LINE_NUMBERS - 1
    note(f"3: far more words, on both sides of 512, and up to {most}, the most that a line has "
         "room for.")
    for call in "judge", "learn":
        for words in 510, 511, 512, 513, most - 2, most - 1, most:
            refused(3, 0, f"{call} 0{' 0' * words}")
    same(0, 1)


def every_number_of_entries():
    note(f"Every number of entries from 1 to {POSITIONS + 1}: all are 0 but the last, which is no "
         f"activity. 4 at that position, and 3 if it is position {POSITIONS + 1}.")
    for entries in range(1, POSITIONS + 2):
        trace = f"{'0 ' * (entries - 1)}{NO_ACTIVITY}"
        fault = (4, entries) if entries <= POSITIONS else (3, 0)
        refused(*fault, f"follow 0 {trace}", f"replay 0 100 {BUFFER_WORDS} {trace}")
    same(0, 1)


def every_number_of_positions():
    note(f"Every number of positions from 5 to {POSITIONS} is learned, followed, judged and "
         "replayed in the net of the loop; the sets are the same for all.")
    ok("fresh 0 0 3")
    put_new(0, OUT, 0, 2)
    put_new(0, IN, 1, 1, 2)
    put_new(0, OUT, 1, 2, 8)
    put_new(0, IN, 3, 2)
    same_sets(0, 1)
    for positions in range(5, POSITIONS + 1):
        say(f"learn 0 {loop(positions)}", "ok 0")
        say(f"follow 0 {loop_trace(positions)}", "ok 0")
        say(f"peak 0 {loop(positions)}", "ok 1")
        trials = loop_trials(positions)
        say(f"replay 0 {trials} {3 * positions} {loop_trace(positions)}",
            f"found {trials} {loop(positions)}")
    same_sets(0, 1)

    sequences = 2 * (POSITIONS - 4)
    rounds = 2 * sum(positions - 3 for positions in range(5, POSITIONS + 1))
    note(f"{sequences} sequences were learned or followed. On either side of 1 one set was used by "
         "each of them once, and the other at all but three positions.")
    counted_side(0, IN, 0, {0: sequences})
    counted_side(0, OUT, 0, {2: sequences})
    counted_side(0, IN, 1, {1: sequences, 2: rounds})
    counted_side(0, OUT, 1, {2: rounds, 8: sequences})
    counted_side(0, IN, 3, {2: sequences})
    counted_side(0, OUT, 3, {0: sequences})


def buffer_of_replay():
    note("3: replay needs three words a position. For 0 1 3 on F 8 words are too few, 9 are "
         "enough, and more are left untouched.")
    read_f(0)
    refused(3, 0, "replay 0 100 8 0 1 3")
    for buffer in 9, 10, BUFFER_WORDS:
        say(f"replay 0 100 {buffer} 0 1 3", "found 3 0 0 2 1 1 8 3 2 0")
    refused(3, 0, "replay 0 100 0 0 1 3")

    note("3: the buffer is measured by the trace, whatever the answer would be: none with 12 "
         "trials, none with 0 trials, none for the empty trace, spent.")
    refused(3, 0, "replay 0 100 5 0 3", "replay 0 100 0 0 3")
    say("replay 0 100 6 0 3", "none 12")
    say("replay 0 100 7 0 3", "none 12")
    refused(3, 0, "replay 0 100 2 0", "replay 0 100 0 0")
    say("replay 0 100 3 0", "none 0")
    say("replay 0 100 0", "none 0")
    say("replay 0 100 1", "none 0")
    refused(3, 0, "replay 0 0 8 0 1 3", "replay 0 0 0 0 1 3")
    say("replay 0 0 9 0 1 3", "spent 0")

    needed = 3 * POSITIONS
    note(f"3: for {POSITIONS} entries {needed - 1} words are one short.")
    ok("copy 2 0", "copy 0 1")
    refused(3, 0, f"replay 0 1000 {needed - 1} {loop_trace(POSITIONS)}",
            f"replay 0 1000 0 {loop_trace(POSITIONS)}")
    for buffer in needed, needed + 1:
        say(f"replay 0 1000 {buffer} {loop_trace(POSITIONS)}",
            f"found {loop_trials(POSITIONS)} {loop(POSITIONS)}")


def buffers_that_stay():
    note("Where the answer isn't found, no word of a buffer that is longer than needed changes: "
         "none after 8 and 12 trials, none with 0 trials, spent at once and after the end was "
         "reached, refused by 4. The empty trace needs no word.")
    ok("copy 0 2")
    for buffer in 13, BUFFER_WORDS:
        say(f"replay 0 100 {buffer} 0 1 1 3", "none 8")
        say(f"replay 0 100 {buffer} 0 3", "none 12")
        say(f"replay 0 100 {buffer} 0 0 3", "none 0")
        say(f"replay 0 100 {buffer} 0", "none 0")
        say(f"replay 0 100 {buffer}", "none 0")
        say(f"replay 0 0 {buffer} 0 1 3", "spent 0")
        say(f"replay 0 10 {buffer} 0 1 2 3", "spent 10")
        refused(4, 2, f"replay 0 100 {buffer} 0 {NO_ACTIVITY} 3")

    note("The same for a net that doesn't pass, by 6, and for a record that isn't orderly, by 2.")
    put_new(0, OUT, 1, 512)
    refused(6, 9, "replay 0 100 13 0 1 2 3", f"replay 0 100 {BUFFER_WORDS} 0 1 2 3")
    disorder(0)
    refused(2, 0, "replay 0 100 13 0 1 2 3", f"replay 0 100 {BUFFER_WORDS} 0 1 2 3")


def budgets():
    note("Budgets for 0 1 3 on F, which takes 3 trials: before a trial beyond the budget the "
         "answer is spent.")
    ok("copy 0 2")
    for budget in 0, 1, 2:
        say(f"replay 0 {budget} 9 0 1 3", f"spent {budget}")
    for budget in 3, 4, 2**32, MAX_64:
        say(f"replay 0 {budget} 9 0 1 3", "found 3 0 0 2 1 1 8 3 2 0")

    note("For 0 3, which has 12 trials and ends: none stands at exactly 12.")
    for budget in 0, 11:
        say(f"replay 0 {budget} 6 0 3", f"spent {budget}")
    for budget in 12, 13, 2**32, MAX_64:
        say(f"replay 0 {budget} 6 0 3", "none 12")

    note("For 0 1 2 3, which takes 11.")
    say("replay 0 10 12 0 1 2 3", "spent 10")
    for budget in 11, 12:
        say(f"replay 0 {budget} 12 0 1 2 3", "found 11 0 0 6 1 1 8 2 1 8 3 6 0")

    note("A search of no trial ends within every budget, 0 too.")
    say("replay 0 0 0", "none 0")
    say("replay 0 0 3 0", "none 0")
    say("replay 0 0 6 0 1", "none 0")
    say(f"replay 0 {MAX_64} 3 0", "none 0")
