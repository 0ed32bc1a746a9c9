"""Runs a program at a terminal.

usage: at_terminal.py WORD..           its standard input is the terminal, at which two lines are typed
       at_terminal.py --told WORD..    its standard error is the terminal, and what that shows is written to standard error, with N for what comes in a second
"""
import os
import pty
import re
import subprocess
import sys
import tty


def shown(keys):
    """What the terminal shows, once nobody writes to it any more."""
    pieces = []
    try:
        while piece := os.read(keys, 4096):
            pieces.append(piece)
    except OSError:
        pass
    return b"".join(pieces)


words = sys.argv[1:]
keys, terminal = pty.openpty()
if words[:1] == ["--told"]:
    tty.setraw(terminal)
    program = subprocess.Popen(words[1:], stderr=terminal)
    os.close(terminal)
    sys.stderr.buffer.write(re.sub(rb"[0-9,]+( bytes a second)", rb"N\1", shown(keys)))
else:
    program = subprocess.Popen(words, stdin=terminal)
    os.close(terminal)
    os.write(keys, b"count\nquit\n")
sys.exit(program.wait())
