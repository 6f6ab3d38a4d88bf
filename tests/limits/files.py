"""Texts of net files and log files, and the net F of paper 01 as a file."""

CRLF = "\r\n"
NET_HEADER = "side,activity,members"
LOG_HEADER = "sessions,trace"


def lines(*rows):
    """The text of these lines, each ended by CR LF."""
    return "".join(row + CRLF for row in rows)


def net_file(start, end, *rows):
    return lines(NET_HEADER, f"start,{start},", f"end,{end},", *rows)


def log_file(*rows):
    return lines(LOG_HEADER, *rows)


# In the writer's order.
F_ROWS = (
    "out,0,1", "out,0,2", "out,0,1 2",
    "in,1,0", "out,1,3",
    "in,2,0", "out,2,3",
    "in,3,1", "in,3,2", "in,3,1 2",
)
F_FILE = net_file(0, 3, *F_ROWS)
