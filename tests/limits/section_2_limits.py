"""Section 2: every limit of limits.py, with what is one below it, at it and one above it."""

import section_2_activities
import section_2_counts
import section_2_files
import section_2_log_rows
import section_2_positions
import section_2_sets
from script import section


def write():
    section(2, "Every limit at, below and above.")
    section_2_activities.write()
    section_2_sets.write()
    section_2_positions.write()
    section_2_counts.write()
    section_2_log_rows.write()
    section_2_files.write()
