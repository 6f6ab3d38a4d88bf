"""Section 9: lines that are no command of docs/SCRIPTS.md, each by one fault.

Without its fault a line would be a command, most of which would change a register. The script ends
with this section, whose last text passes over all that follows it.
"""

from bindings import repeated
from calls import peek, read_f, same
from files import log_file
from limits import (
    BUFFER_BYTES, BUFFER_WORDS, LINE_NUMBERS, MAX_32, MAX_64, POSITIONS, REGISTERS, TEXT_BYTES,
)
from record import WORDS, fresh_record, in_place
from script import (
    no_command, note, ok, passed_over, refused, say, section, shown, text, text_without_line_end,
)

LOG = log_file("12,0 1 3")


def write():
    section(9, "Lines of a script that are no command: each answers a question mark and changes "
               "nothing.")
    note("Register 0 is F, register 1 the same, register 2 and 3 are other nets, the text is a "
         "log.")
    read_f(0)
    ok("copy 1 0", "fresh 2 5 9", "fresh 3 0 1")
    text(LOG)
    command_words()
    how_many_numbers()
    longest_lines()
    registers_and_sides()
    words_of_a_record()
    highest_numbers()
    arguments_of_32_bits()
    buffers()
    spaces()
    digits()
    leading_zeros()
    number_signs()
    numbers_of_a_text()
    nothing_has_changed()
    lines_of_a_text()
    text_without_its_line_end()
    text_that_breaks_off()


def command_words():
    note("Words that are no command, also by one letter, and commands in upper case.")
    no_command("hello", "hello 0", "frsh 0 0 3", "freshh 0 0 3", "fres 0 0 3", "checks 0", "chec 0",
               "x", "0", "0 0 3", "?", "Check 0", "CHECK 0", "Fresh 0 0 3", "FRESH 0 0 3",
               "Put 0 0 1 2", "SHOW", "Show", f"Readrow 1 {POSITIONS}", f"readRow 1 {POSITIONS}",
               "step 0", "check,0", "check:0", "check0")


def how_many_numbers():
    note("A number is missing.")
    no_command("fresh", "fresh 0", "fresh 0 1",
               "put", "put 0", "put 0 0", "put 0 0 1",
               "poke", "poke 0", "poke 0 5",
               "peek", "peek 0", "peek 0 0",
               "copy", "copy 0",
               "same", "same 0",
               "contained", "contained 0",
               "check", "judge", "peak", "learn", "follow",
               "replay", "replay 0", "replay 0 100",
               "share", "share 0",
               "readnet",
               "writenet", "writenet 0",
               "readrow", "readrow 1",
               "text")

    note("There is a number too many.")
    no_command("fresh 0 0 1 2", "put 0 0 1 2 3", "poke 0 5 5 5", "peek 0 0 1 1", "copy 0 3 3",
               "same 0 1 1", "contained 0 1 1", "check 0 0", "readnet 0 0", "writenet 0 200 200",
               "share 0 100 1", "show 0", "show 1 2", f"readrow 1 {POSITIONS} {POSITIONS}",
               "text 1 1")


def longest_lines():
    words = LINE_NUMBERS - 1
    entries = LINE_NUMBERS - 3

    note(f"A line has at most {LINE_NUMBERS:,} numbers. With as many judge, learn and follow get "
         f"{words:,} words and replay {entries:,} entries, which are more positions than there may "
         "be: 3.")
    refused(3, 0, f"judge 0 {repeated('0', words)}", f"peak 0 {repeated('0', words)}",
            f"learn 0 {repeated('0', words)}", f"follow 0 {repeated('0', words)}",
            f"replay 0 100 {BUFFER_WORDS} {repeated('0', entries)}")

    note("With one number more each is no command.")
    no_command(f"judge 0 {repeated('0', words + 1)}", f"peak 0 {repeated('0', words + 1)}",
               f"learn 0 {repeated('0', words + 1)}", f"follow 0 {repeated('0', words + 1)}",
               f"replay 0 100 {BUFFER_WORDS} {repeated('0', entries + 1)}")


def registers_and_sides():
    none = REGISTERS
    note(f"There are registers 0 to {REGISTERS - 1}, and no register {none}.")
    no_command(f"fresh {none} 0 3", f"put {none} 0 1 2", f"poke {none} 5 5", f"peek {none} 0 1",
               f"copy {none} 0", f"copy 0 {none}", f"same {none} 0", f"same 0 {none}",
               f"contained {none} 0", f"contained 0 {none}", f"check {none}",
               f"judge {none} 0 0 2 1 1 8 3 2 0", f"peak {none} 0 0 2 1 1 8 3 2 0",
               f"learn {none} 0 0 2 1 1 8 3 2 0", f"follow {none} 0 1 3",
               f"replay {none} 100 9 0 1 3", f"share {none} 100",
               f"readnet {none}", f"writenet {none} 200",
               f"check {2**32}", f"copy 0 {2**32 + 3}", f"check {MAX_64}")

    note("The sides are 0 and 1.")
    no_command("put 0 2 1 2", f"put 0 {2**32} 1 2")


def words_of_a_record():
    last = WORDS - 1
    lists = in_place(0)
    note(f"The words of a record are 0 to {last:,}, and a word is below 2^32.")
    no_command(f"poke 0 {WORDS} 1", f"poke 0 {MAX_64} 1", f"poke 0 5 {2**32}",
               f"poke 0 {WORDS} {2**32}", f"poke 0 5 {MAX_64}",
               f"peek 0 {WORDS} 1", f"peek 0 {last} 2", f"peek 0 0 {WORDS + 1}",
               f"peek 0 {lists} {WORDS - lists + 1}", f"peek 0 1 {WORDS}",
               f"peek 0 {MAX_64} 2", f"peek 0 2 {MAX_64}")

    note("The last word alone and the whole record are within the range.")
    peek(2, last, 1, fresh_record(5, 9))
    peek(3, 0, WORDS, fresh_record(0, 1))


def highest_numbers():
    note("Numbers are below 2^64.")
    no_command(f"check {2**64}", f"replay 0 {2**64} 9 0 1 3",
               f"share 0 {2**64}", f"share {2**64} 0",
               f"readrow {2**64} {POSITIONS}", f"readrow {2**64 + 1} {POSITIONS}",
               f"poke 0 {2**64} 1", f"poke 0 0 {2**64}",
               f"fresh {2**64} 0 3", f"fresh 0 {2**64} 3",
               f"replay 0 100 {2**64 + 9} 0 1 3", f"follow 0 0 {2**64 + 1} 3",
               f"put 2 {2**64} 1 2", f"put 2 0 {2**64 + 1} 2", f"put 2 0 1 {2**64 + 2}",
               f"peek 0 {2**64} 1", f"peek 0 0 {2**64 + 1}",
               f"copy {2**64 + 2} 0", f"copy 2 {2**64}",
               f"same 0 {2**64 + 1}", f"contained 0 {2**64 + 1}",
               f"judge 0 {2**64} 0 2 1 1 8 3 2 0", f"peak 0 0 0 2 1 1 8 3 2 {2**64}",
               f"learn 2 5 0 512 9 32 {2**64}", f"replay 0 100 9 0 {2**64 + 1} 3",
               f"readnet {2**64 + 2}", f"writenet 0 {2**64 + 200}",
               f"readrow 1 {2**64 + POSITIONS}",
               f"check {2**128}", f"check {'9' * 100}")


def arguments_of_32_bits():
    note("Ends, activities, sets, words of a sequence, entries of a trace and words of a record "
         f"have 32 bits: above {MAX_32} a line is no command, and its number isn't cut.")
    no_command(f"fresh 2 {2**32} 3", f"fresh 2 0 {2**32 + 3}", f"fresh 2 {MAX_64} 3",
               f"put 2 0 {2**32 + 1} 2", f"put 2 0 1 {2**32 + 2}", f"put 2 {2**32 + 1} 1 2",
               f"judge 0 {2**32} 0 2 1 1 8 3 2 0", f"judge 0 0 {2**32} 2 1 1 8 3 2 0",
               f"judge 0 0 0 {2**32 + 2} 1 1 8 3 2 0", f"judge 0 0 0 2 1 1 8 3 2 {2**32}",
               f"peak 0 0 0 {2**32 + 2} 1 1 8 3 2 0",
               f"learn 2 {2**32 + 5} 0 512 9 32 0", f"learn 2 5 0 {2**32 + 512} 9 32 0",
               f"learn 2 5 0 512 9 32 {2**32}",
               f"follow 2 {2**32 + 5} 9", f"follow 2 5 {2**32 + 9}", f"follow 2 5 {MAX_64} 9",
               f"replay 0 100 9 {2**32} 1 3", f"replay 0 100 9 0 {2**32 + 1} 3",
               f"replay 0 100 9 0 1 {2**32 + 3}",
               f"same 0 {2**32 + 1}", f"contained 0 {2**32 + 1}", f"copy 2 {2**32}",
               f"poke 2 {2**32 + 5} 5", f"peek 0 {2**32} 1", f"peek 0 0 {2**32 + 1}")

    note("A budget and the number of a row have 64 bits.")
    say(f"replay 0 {2**32} 9 0 1 3", "found 3 0 0 2 1 1 8 3 2 0")
    say(f"readrow {2**32 + 1} {POSITIONS}", "end")


def buffers():
    note(f"A buffer has at most {BUFFER_WORDS:,} words, or {BUFFER_BYTES:,} bytes.")
    no_command(f"replay 0 100 {BUFFER_WORDS + 1} 0 1 3", f"readrow 1 {BUFFER_WORDS + 1}",
               f"peek 0 0 {BUFFER_WORDS + 1}", f"writenet 0 {BUFFER_BYTES + 1}",
               f"replay 0 100 {2**32 + 9} 0 1 3", f"readrow 1 {2**32 + POSITIONS}",
               f"writenet 0 {2**32 + 200}",
               f"readrow 0 {BUFFER_WORDS + 1}", f"readrow 1 {MAX_64}", f"writenet 0 {MAX_64}")

    note("At those limits they are commands.")
    say(f"replay 0 100 {BUFFER_WORDS} 0 1 3", "found 3 0 0 2 1 1 8 3 2 0")
    say(f"readrow 1 {BUFFER_WORDS}", "row 12 3 0 1 3")


def spaces():
    note("Numbers are separated by single spaces: two spaces, one at the end, one in front, a "
         "tab, a comma.")
    no_command("check  0", "check 0 ", " check 0", "check\t0", "check 0\t", "\tcheck 0", "check ",
               " ", "  ", "fresh 0  0 3", "fresh  0 0 3", "fresh 0 0 3 ", " fresh 0 0 3",
               "fresh 0 0\t3", "fresh 0,0,3", "follow 0 0 1  3", "follow 0 0 1 3 ", "show ",
               " show", f"readrow 1  {POSITIONS}", "check 0\r", "show\r")

    note("The next two lines are empty.")
    no_command("", "")


def digits():
    note("Numbers are decimal digits alone: no sign, point, letter or quote.")
    no_command("check +0", "check -0", "check 0.", "check 0.0", "check 0x0", "check a",
               'check "0"', "check 0a", "check /", "check :", "check \xb2", "fresh 0 0 -3",
               "fresh 0 +0 3", "fresh 0 0 3.0", "fresh 0 0 3e0", "follow 0 0 one 3", "check 0 #",
               "check #")


def leading_zeros():
    note("A number has no leading zero, save 0 itself.")
    no_command("check 00", "check 01", "fresh 02 0 3", "fresh 2 00 3", "fresh 2 0 03",
               "put 2 00 1 2", "put 2 0 01 2", "put 2 0 1 02", "poke 2 05 5", "poke 2 5 05",
               "peek 0 00 1", "peek 0 0 01", "copy 2 00", "same 0 01", "contained 0 01",
               "judge 0 00 0 2 1 1 8 3 2 0", "peak 0 0 0 2 1 1 8 3 2 00",
               "learn 2 5 0 0512 9 32 0", "follow 2 5 09",
               "replay 0 0100 9 0 1 3", "replay 0 100 09 0 1 3", "replay 0 100 9 0 01 3",
               "readnet 02", "writenet 0 0200",
               f"readrow 01 {POSITIONS}", f"readrow 1 0{POSITIONS}", f"check {'0' * 100}")


def number_signs():
    note("A line with a space before its number sign starts with the space and is no comment.")
    no_command(" # check 0")

    note("A line that starts with a number sign is passed over, whatever follows; the next line "
         "looks like a command and answers nothing.")
    passed_over("#fresh 0 5 9", "#", "##")


def numbers_of_a_text():
    note("Where its number is none, a text is no command and has no bytes, so that the next line "
         "is a line of the script: a leading zero, a sign, 2^64, two spaces before it, one behind "
         "it.")
    for number in "00", "01", "+1", f"{2**64}", " 1", "1 ":
        no_command(f"text {number}")
        say("check 0", "ok 4")


def nothing_has_changed():
    note("Nothing has changed by all these lines.")
    same(0, 1)
    say("check 0", "ok 4")
    ok("fresh 1 5 9")
    same(1, 2)
    ok("fresh 1 0 1")
    same(1, 3)
    shown(LOG)


def lines_of_a_text():
    any_bytes = "fresh 0 5 9\n# check 0\ncheck 0\n\n?\x00\xff\r\n"
    note("Lines of a text are no lines of the script, even if they look like commands or "
         "comments, and its bytes may be any.")
    text(any_bytes)
    shown(any_bytes)
    say("check 0", "ok 4")

    note("A text of no bytes, and of one LF.")
    for content in "", "\n":
        text(content)
        shown(content)
    say("same 0 1", "ok 0")


def text_without_its_line_end():
    note("A text whose bytes no LF follows is no command, and its bytes are passed over all the "
         "same: what comes right behind them is the next line.")
    text("kept")
    text_without_line_end("fresh 0 5 9", "check 0", "ok 4")
    text_without_line_end("\n\n", "check 0", "ok 4")
    text_without_line_end("", "check 0", "ok 4")
    shown("kept")


def text_that_breaks_off():
    note(f"The register would hold {TEXT_BYTES:,} bytes, but the script ends before the text does: "
         "it is no command, and its bytes aren't lines.")
    no_command(f"text {TEXT_BYTES}\ncheck 0\nfresh 0 5 9\nshow")
