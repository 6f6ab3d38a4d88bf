"""The papers' limits, each named once. Whatever follows from one is computed from its name."""

ACTIVITIES = 32  # Activities are numbers 0 to 31; a set of them is a mask of so many bits.
SETS = 16  # The most sets on a side of an activity.
USES = 2**32 - 1  # The highest count of a set's uses.
POSITIONS = 96  # The most positions of a sequence or trace; the words that a row's buffer needs.
NET_BYTES = 131_072
LOG_BYTES = 524_288
LOG_ROWS = 1_000
SESSIONS = 1_000_000  # The most sessions of one row.

# The limits of a script, from docs/SCRIPTS.md.
REGISTERS = 4
TEXT_BYTES = 524_289  # The most that the text register holds.
LINE_NUMBERS = 1_024  # The most numbers of a line.
BUFFER_WORDS = 4_096
BUFFER_BYTES = 131_072

# Numbers at the borders.
LAST = ACTIVITIES - 1  # The highest activity.
NO_ACTIVITY = ACTIVITIES  # The lowest number that is none.
ALL = 2**ACTIVITIES - 1  # The set of all activities.
MAX_32 = 2**32 - 1
MAX_64 = 2**64 - 1
DIGITS = 400  # So many digits that no machine's numbers hold the value.
