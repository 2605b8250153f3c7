"""Runs a program, and says how much memory it had at most, for `tests/dav`.

    peak.py FILE PROGRAM WORD..

writes that number, in KiB, into FILE, and ends with the program's status.
"""

import resource
import subprocess
import sys

status = subprocess.call(sys.argv[2:])
with open(sys.argv[1], "w") as file:
    print(resource.getrusage(resource.RUSAGE_CHILDREN).ru_maxrss, file=file)
sys.exit(status)
