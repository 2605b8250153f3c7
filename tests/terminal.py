"""Runs a program whose standard error is a terminal, for `tests/watch`.

    terminal.py FILE PROGRAM WORD..

writes what the terminal is sent into FILE, and ends with the program's status.
"""

import os
import pty
import subprocess
import sys

theirs, ours = pty.openpty()
running = subprocess.Popen(sys.argv[2:], stderr=ours)
os.close(ours)
with open(sys.argv[1], "wb") as file:
    while True:
        try:
            sent = os.read(theirs, 65536)
        except OSError:  # the program has closed it
            break
        if not sent:
            break
        file.write(sent)
sys.exit(running.wait())
