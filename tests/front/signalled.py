"""Runs a command, sends it a signal as soon as a file has content, and prints how it ended: a status, or minus a signal.

    python3 signalled.py SIGNAL FILE WORD..

The command has each signal's default, whatever this program's caller ignores."""

import os
import signal
import subprocess
import sys
import time

number, file = int(sys.argv[1]), sys.argv[2]


def restore():
    for each in (signal.SIGHUP, signal.SIGINT, signal.SIGQUIT, signal.SIGPIPE, signal.SIGTERM):
        signal.signal(each, signal.SIG_DFL)


process = subprocess.Popen(sys.argv[3:], stdin=subprocess.DEVNULL, preexec_fn=restore)
end = time.monotonic() + 10
while time.monotonic() < end and not (os.path.exists(file) and os.path.getsize(file)):
    time.sleep(0.02)
process.send_signal(number)
print(process.wait())
