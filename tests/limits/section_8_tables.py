"""Section 8: the tables byte by byte, which no other section looks at so closely."""

import section_8_log_files
import section_8_net_files
import section_8_shares
import section_8_written_nets
from calls import read_f, refused_row, same
from files import F_FILE, log_file
from script import note, ok, refused, section, text


def write():
    section(8, "The tables.")
    read_f(1)
    ok("fresh 3 0 1")
    section_8_net_files.write()
    section_8_written_nets.write()
    section_8_log_files.write()
    section_8_shares.write()

    note("A log is no net and a net no log.")
    text(log_file("1,1"))
    refused(13, 1, "readnet 0")
    same(0, 3)
    refused_row(13, 1, F_FILE)
