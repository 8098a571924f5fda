"""Runs a command on a terminal, waits, and types Ctrl-C there; prints what the terminal showed.

    python3 interrupted.py SECONDS WORD..

The exit status is 0 where the command was ended by that signal within three seconds."""

import os
import pty
import select
import signal
import sys
import time


def read_until(terminal, moment):
    """What comes until then, and whether the terminal was closed."""
    printed = b""
    while (left := moment - time.monotonic()) > 0:
        if terminal in select.select([terminal], [], [], left)[0]:
            try:
                piece = os.read(terminal, 65536)
            except OSError:
                return printed, True
            if not piece:
                return printed, True
            printed += piece
    return printed, False


def main():
    seconds, words = float(sys.argv[1]), sys.argv[2:]
    process, terminal = pty.fork()
    if process == 0:
        # The command has the signal's default, whatever this program's caller ignores.
        signal.signal(signal.SIGINT, signal.SIG_DFL)
        os.execvp(words[0], words)
    before, is_closed = read_until(terminal, time.monotonic() + seconds)
    os.write(terminal, b"\x03")
    after, is_closed = read_until(terminal, time.monotonic() + 3)
    sys.stdout.buffer.write(before + after)
    if not is_closed:
        os.kill(process, signal.SIGKILL)
    status = os.waitpid(process, 0)[1]
    sys.exit(0 if os.WIFSIGNALED(status) and os.WTERMSIG(status) == signal.SIGINT else 1)


if __name__ == "__main__":
    main()
