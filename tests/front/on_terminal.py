"""Runs a command on a terminal of its own, and prints what it prints there.

    python3 on_terminal.py COLUMNS WORD..

Line ends are those of a file; the exit status is the command's."""

import fcntl
import os
import pty
import struct
import sys
import termios


def read_all(terminal):
    while True:
        try:
            piece = os.read(terminal, 65536)
        except OSError:
            return
        if not piece:
            return
        yield piece


def main():
    columns, words = int(sys.argv[1]), sys.argv[2:]
    process, terminal = pty.fork()
    if process == 0:
        fcntl.ioctl(0, termios.TIOCSWINSZ, struct.pack("HHHH", 24, columns, 0, 0))
        os.execvp(words[0], words)
    printed = b"".join(read_all(terminal))
    sys.stdout.buffer.write(printed.replace(b"\r\n", b"\n"))
    status = os.waitpid(process, 0)[1]
    sys.exit(os.WEXITSTATUS(status) if os.WIFEXITED(status) else 128 + os.WTERMSIG(status))


if __name__ == "__main__":
    main()
