"""Section 3: every refusal of every call and, where two hold of one call, which is given."""

import section_3_files
import section_3_nets
import section_3_sequences
from calls import read_f
from script import note, ok, section


def write():
    section(3, "Every refusal of every call, its place, and the order between them.")
    note("The records used here: register 1 is F, register 3 the fresh net of 0 and 1.")
    ok("fresh 3 0 1")
    read_f(1)
    section_3_nets.write()
    section_3_sequences.write()
    section_3_files.write()
