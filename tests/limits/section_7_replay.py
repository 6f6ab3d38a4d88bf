"""Section 7: the order in which replay looks at pairs, shown by its trials.

Each note counts the trials of the trace that follows it.
"""

from bindings import FIG_4, loop_trace, words
from calls import IN, OUT, put_new, read_f
from limits import LAST, NO_ACTIVITY, POSITIONS
from script import note, ok, refused, say, section

# A budget within which each search ends that gets it here.
PLENTY = 1_000_000


def write():
    section(7, "Replay: the order of the search and its trials.")
    read_f(1)
    ok("fresh 3 0 1")
    no_search()
    searches_on_f()
    order_of_pairs()
    first_of_two_choices()
    failing_pairs_at_the_end()
    searches_on_fig_4()
    a_search_that_doubles()
    the_same_net_with_2()


def replay(register, budget, trace, answer):
    """A replay with the shortest buffer that will do: three words an entry."""
    entries = trace.split()
    say(f"replay {register} {budget} {words([3 * len(entries), *entries])}", answer)


def no_search():
    note("None with 0 trials on F, within budget 0 too: fewer than two entries.")
    replay(1, 0, "", "none 0")
    replay(1, 0, "0", "none 0")
    replay(1, 0, "3", "none 0")
    replay(1, 0, "1", "none 0")
    replay(1, 0, f"{LAST}", "none 0")

    note("The start isn't first.")
    replay(1, 0, "1 3", "none 0")
    replay(1, 0, "2 1 3", "none 0")
    replay(1, 0, "3 3", "none 0")

    note("The end isn't last.")
    replay(1, 0, "0 1", "none 0")
    replay(1, 0, "0 1 2", "none 0")
    replay(1, 0, "0 0", "none 0")

    note("Start or end occur elsewhere.")
    replay(1, 0, "0 0 3", "none 0")
    replay(1, 0, "0 1 0 3", "none 0")
    replay(1, 0, "0 3 3", "none 0")
    replay(1, 0, "0 3 1 3", "none 0")
    replay(1, 0, "3 1 0", "none 0")
    replay(1, PLENTY, "0 1 0 3", "none 0")

    note(f"The refusals come before none: the buffer is short, an activity is above {LAST}, the "
         "net doesn't pass.")
    refused(3, 0, "replay 1 0 8 0 0 3", "replay 1 0 2 1")
    refused(4, 2, f"replay 1 0 9 0 {NO_ACTIVITY} 0")
    refused(4, 1, f"replay 1 0 3 {NO_ACTIVITY}")
    refused(6, 0, "replay 3 0 3 0", "replay 3 0 0", "replay 3 0 9 1 5 0")


def searches_on_f():
    note("An activity without sets has no pair, so there is no trial at its position. 0 5 3 on F: "
         "one trial for each of the three output sets of 0.")
    replay(1, PLENTY, "0 5 3", "none 3")
    replay(1, 3, "0 5 3", "none 3")
    replay(1, 2, "0 5 3", "spent 2")

    note("0 1 5 3: Y 2, 1 possible, nothing at 5; Y 4, 1 not possible; Y 6, 1 possible, nothing "
         "at 5: 6 trials.")
    replay(1, PLENTY, "0 1 5 3", "none 6")
    replay(1, 6, "0 1 5 3", "none 6")
    replay(1, 5, "0 1 5 3", "spent 5")

    note("0 5 1 3: three trials at the start, none behind.")
    replay(1, PLENTY, "0 5 1 3", "none 3")

    note("0 2 1 3: Y 2, 2 not possible (2 trials); Y 4, 2 possible, 1 not (5); Y 6, both "
         "possible, then 2 and 4 leave something due, 6 is found (11).")
    replay(1, PLENTY, "0 2 1 3", "found 11 0 0 6 2 1 8 1 1 8 3 6 0")
    replay(1, 10, "0 2 1 3", "spent 10")

    note("0 1 2 1 3: Y 2, 1, 2 not possible (3); Y 4, 1 not possible (5); Y 6, 1, 2, and the "
         "second 1 not possible (9).")
    replay(1, PLENTY, "0 1 2 1 3", "none 9")
    replay(1, 9, "0 1 2 1 3", "none 9")
    replay(1, 8, "0 1 2 1 3", "spent 8")

    note("0 2 2 3: Y 2, 2 not possible (2); Y 4, 2, 2 not possible (5); Y 6, 2, 2 not possible "
         "(8).")
    replay(1, PLENTY, "0 2 2 3", "none 8")


def order_of_pairs():
    note("Input sets ascend, and for each the output sets ascend. The net of 0 1 1 3: input sets "
         "of 1 are 1 and 2, its output sets 2 and 8.")
    ok("fresh 0 0 3")
    say("follow 0 0 1 1 3", "ok 6")
    say("check 0", "ok 3")

    note("0 1 3: start (1 trial); 1 with the pair 1, 2, then the end isn't possible (3); the pair "
         "1, 8 and the end (5).")
    replay(0, PLENTY, "0 1 3", "found 5 0 0 2 1 1 8 3 2 0")
    replay(0, 4, "0 1 3", "spent 4")

    note("0 1 1 3: start, the pair 1, 2 (2 trials); at the second 1 the pairs 1, 2 and 1, 8 "
         "aren't possible, and each is a trial (4); the pair 2, 2 and the end not possible (6); "
         "the pair 2, 8 and the end (8).")
    replay(0, PLENTY, "0 1 1 3", "found 8 0 0 2 1 1 2 1 2 8 3 2 0")
    replay(0, 8, "0 1 1 3", "found 8 0 0 2 1 1 2 1 2 8 3 2 0")

    note("The budget ends before, within and after the pairs of the input set that isn't possible.")
    for budget in range(2, 8):
        replay(0, budget, "0 1 1 3", f"spent {budget}")

    note("0 1 1 1 3: three trials more, at the 1 in the middle.")
    replay(0, PLENTY, "0 1 1 1 3", "found 11 0 0 2 1 1 2 1 2 2 1 2 8 3 2 0")
    replay(0, 10, "0 1 1 1 3", "spent 10")

    note("0 3: start, then the end isn't possible.")
    replay(0, PLENTY, "0 3", "none 2")
    replay(0, 2, "0 3", "none 2")
    replay(0, 1, "0 3", "spent 1")


def first_of_two_choices():
    note("Two choices make 0 1 2 3 valid: 0, 1, 2, 3 in a row and 1, 2 side by side. The first "
         "reached has the lower sets: start 2, pair 1, 4 (2 trials); at 2 the pair 1, 8 isn't "
         "possible, 2, 8 is (4); the end takes 4 (5).")
    ok("fresh 0 0 3")
    say("learn 0 0 0 6 1 1 8 2 1 8 3 6 0", "ok 6")
    say("follow 0 0 1 2 3", "ok 4")
    say("check 0", "ok 5")
    replay(0, PLENTY, "0 1 2 3", "found 5 0 0 2 1 1 4 2 2 8 3 4 0")

    note("0 2 1 3 goes only side by side. Start 2: 2 with 1, 8 and 2, 8 isn't possible (3 "
         "trials). Start 6: 2 with 1, 8 (5); 1 with 1, 4: the end with 4 leaves (1, 2) due, with "
         "6 isn't possible (8); 1 with 1, 8: the end with 4 leaves (1, 3) due, 6 is found (11).")
    replay(0, PLENTY, "0 2 1 3", "found 11 0 0 6 2 1 8 1 1 8 3 6 0")
    replay(0, 10, "0 2 1 3", "spent 10")
    replay(0, 11, "0 2 1 3", "found 11 0 0 6 2 1 8 1 1 8 3 6 0")

    note("0 1 3. Start 2: 1 with 1, 4, the end with 4 and 6 isn't possible (4 trials); 1 with 1, "
         "8, the end with 4 and 6 isn't possible (7). Start 6: the same (14).")
    replay(0, PLENTY, "0 1 3", "none 14")
    replay(0, 14, "0 1 3", "none 14")
    replay(0, 13, "0 1 3", "spent 13")


def failing_pairs_at_the_end():
    note("A net in which the first sets tried at the end aren't possible: 0 gives 2, 8 or 10, 1 "
         "takes 1 and gives 8, 3 takes 1, 2 or 3.")
    ok("fresh 0 0 3")
    say("learn 0 0 0 10 1 1 8 3 3 0", "ok 4")
    say("learn 0 0 0 8 3 1 0", "ok 2")
    say("learn 0 0 0 2 1 1 8 3 2 0", "ok 2")
    say("check 0", "ok 3")

    note("0 1 3: start 2, 1, then X 1 isn't possible (3 trials), X 2 is found (4).")
    replay(0, PLENTY, "0 1 3", "found 4 0 0 2 1 1 8 3 2 0")

    note("0 3: start 2: X 1, 2, 3 aren't possible (4 trials); start 8: X 1 is found (6).")
    replay(0, PLENTY, "0 3", "found 6 0 0 8 3 1 0")
    replay(0, 5, "0 3", "spent 5")

    note("After the last position the state must be zero. Without 2 on the output side of 0, in "
         "the net of 8 and 10, the trace 0 1 3 has: start 8, 1 not possible (2 trials); start 10, "
         "1 (4); X 1 is possible but leaves (1, 3) due (5); X 3 is found (6).")
    ok("fresh 0 0 3")
    say("learn 0 0 0 10 1 1 8 3 3 0", "ok 4")
    say("learn 0 0 0 8 3 1 0", "ok 2")
    say("check 0", "ok 3")
    replay(0, PLENTY, "0 1 3", "found 6 0 0 10 1 1 8 3 3 0")
    replay(0, 5, "0 1 3", "spent 5")
    replay(0, 6, "0 1 3", "found 6 0 0 10 1 1 8 3 3 0")


def searches_on_fig_4():
    note("The net of Fig. 4: input sets of 1 are 1, 2, output sets 6, 12; 2 has 2 and 8; 3 has 6, "
         "12 and 8, 16; 0 gives 2, 4 takes 8.")
    ok("fresh 2 0 4")
    say(f"learn 2 {FIG_4}", "ok 12")

    note("0 1 2 3 4: start, the pair 1, 6, then 2 (3 trials); at 3 four pairs fail, as (1, 3) and "
         "(3, 3) aren't due (7); 1 with 1, 12, then 2 (9); 3 with 6, 8 and the end not possible "
         "(11); 3 with 6, 16 and the end (13).")
    replay(2, PLENTY, "0 1 2 3 4", "found 13 0 0 2 1 1 12 2 2 8 3 6 16 4 8 0")
    replay(2, 12, "0 1 2 3 4", "spent 12")
    replay(2, 7, "0 1 2 3 4", "spent 7")

    note("0 1 1 2 2 3 3 4: start, 1 with 1, 6 (2 trials); the second 1 with 1, 6 and 1, 12 fails "
         "(4), with 2, 6 goes on (5); 2, 2 (7); four pairs fail at 3 (11); the second 1 with 2, "
         "12 (12); 2, 2 (14); 3 with 6, 8 (15); the second 3 with 6, 8 and 6, 16 fails (17), with "
         "12, 8 goes on (18) and the end fails (19), with 12, 16 goes on (20) and the end is "
         "found (21).")
    replay(2, PLENTY, "0 1 1 2 2 3 3 4", f"found 21 {FIG_4}")
    replay(2, 20, "0 1 1 2 2 3 3 4", "spent 20")
    replay(2, 21, "0 1 1 2 2 3 3 4", f"found 21 {FIG_4}")

    note("0 1 2 1 2 3 3 4: start, 1 with 1, 6, 2 (3 trials); the second 1 fails twice (5), with "
         "2, 6 goes on (6), 2 (7), 3 fails four times (11); 1 with 2, 12 (12), 2 (13), 3 with 6, "
         "8 (14), the second 3 fails twice (16), 12, 8 (17), the end fails (18), 12, 16 (19), the "
         "end (20).")
    replay(2, PLENTY, "0 1 2 1 2 3 3 4",
           "found 20 0 0 2 1 1 6 2 2 8 1 2 12 2 2 8 3 6 8 3 12 16 4 8 0")
    replay(2, 19, "0 1 2 1 2 3 3 4", "spent 19")

    note("0 2 4: start, 2 isn't possible.")
    replay(2, PLENTY, "0 2 4", "none 2")

    note("0 1 4: start; 1 with 1, 6 and the end not possible (3), with 1, 12 and the end not "
         "possible (5), with 2, 6 and 2, 12 not possible (7).")
    replay(2, PLENTY, "0 1 4", "none 7")
    replay(2, 6, "0 1 4", "spent 6")


def a_search_that_doubles():
    note("A search that doubles. The net: 0 gives 6, 1 takes 1 or 2 and gives 2, 8 or 10, 2 takes "
         "1 and gives 8, 3 takes 6; a trace without 2 is never valid. The end is one trial that "
         "fails. At a 1 that is possible three pairs are and three aren't: 6 trials; two of the "
         "three leave the next 1 possible, the third doesn't, and a 1 that isn't possible has 6 "
         "trials. So A(1) = 6 + 3 = 9, A(2) = 6 + 18 + 6 = 30, and A(n) = 12 + twice A(n - 1); "
         "with the start's trial 1 + A(n).")
    ok("fresh 0 0 3")
    put_new(0, OUT, 0, 6)
    put_new(0, IN, 1, 1, 2)
    put_new(0, OUT, 1, 2, 8, 10)
    put_new(0, IN, 2, 1)
    put_new(0, OUT, 2, 8)
    put_new(0, IN, 3, 6)
    say("check 0", "ok 5")

    note("No 1 at all: 1 + 1. Then 1 + 9, 1 + 30, 1 + 72, 1 + 156.")
    replay(0, PLENTY, "0 3", "none 2")
    replay(0, PLENTY, "0 1 3", "none 10")
    replay(0, PLENTY, "0 1 1 3", "none 31")
    replay(0, PLENTY, "0 1 1 1 3", "none 73")
    replay(0, PLENTY, "0 1 1 1 1 3", "none 157")
    replay(0, 157, "0 1 1 1 1 3", "none 157")
    replay(0, 156, "0 1 1 1 1 3", "spent 156")
    replay(0, 100, "0 1 1 1 1 3", "spent 100")

    note("Ten times 1: A goes 156, 324, 660, 1332, 2676, 5364, 10740.")
    replay(0, PLENTY, loop_trace(12), "none 10741")
    replay(0, 10741, loop_trace(12), "none 10741")
    replay(0, 10740, loop_trace(12), "spent 10740")

    note(f"{POSITIONS - 2} times 1: far more trials than any budget here, so the answer is spent "
         "with the budget, whatever it is.")
    for budget in 0, 1, 999, 100_000:
        replay(0, budget, loop_trace(POSITIONS), f"spent {budget}")


def the_same_net_with_2():
    note("With 2 the trace 0 1 2 3: start; 1 with 1, 2; 2; the end not possible (4 trials); 1 "
         "with 1, 8; 2; the end (7).")
    replay(0, PLENTY, "0 1 2 3", "found 7 0 0 6 1 1 8 2 1 8 3 6 0")
    replay(0, 6, "0 1 2 3", "spent 6")

    note("0 2 1 3: start, 2 (2 trials); 1 with 1, 2 and the end not possible (4); 1 with 1, 8 and "
         "the end (6).")
    replay(0, PLENTY, "0 2 1 3", "found 6 0 0 6 2 1 8 1 1 8 3 6 0")

    note("0 1 1 2 3: start (1 trial); 1 with 1, 2 (2); the second 1 with X 1 fails three times "
         "(5), with 2, 2 (6), 2 (7), the end not possible (8); with 2, 8 (9), 2 (10), the end "
         "found (11).")
    replay(0, PLENTY, "0 1 1 2 3", "found 11 0 0 6 1 1 2 1 2 8 2 1 8 3 6 0")
    replay(0, 10, "0 1 1 2 3", "spent 10")
