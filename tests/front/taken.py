"""Sends signals to a command at ten moments of its run, up to its end, and sees that each one that is taken ends it.

    python3 taken.py WORD..

A signal is taken where the process was there still a moment after it was sent; only one that came at the very end, when the process was about to go, may
meet a status. What is wrong is printed, and the exit status is 0 only where nothing is."""

import signal
import subprocess
import sys
import time

SIGNALS = [signal.SIGINT, signal.SIGTERM, signal.SIGHUP]
MOMENTS = [0.1, 0.2, 0.3, 0.4, 0.5, 0.6, 0.7, 0.8, 0.9, 0.95]
# How long a process that was about to go is still there at most, in seconds.
LAST_MOMENT = 0.03


def restore():
    for number in SIGNALS:
        signal.signal(number, signal.SIG_DFL)


def start():
    return subprocess.Popen(sys.argv[1:], stdin=subprocess.DEVNULL, stdout=subprocess.DEVNULL, stderr=subprocess.DEVNULL, preexec_fn=restore)


def seconds():
    began = time.monotonic()
    start().wait(60)
    return time.monotonic() - began


def main():
    whole, met, wrong = min(seconds() for _ in range(3)), 0, 0
    for turn, part in enumerate(MOMENTS * len(SIGNALS)):
        number = SIGNALS[turn // len(MOMENTS)]
        running = start()
        time.sleep(part * whole)
        if running.poll() is not None:
            continue
        sent = time.monotonic()
        running.send_signal(number)
        status, took = running.wait(60), time.monotonic() - sent
        met += status == -number
        if status != -number and took > LAST_MOMENT:
            wrong += 1
            print(f"{number.name} after {part:.2f} of the run: status {status}, {took:.2f} s later")
    print(f"{met} of {len(MOMENTS) * len(SIGNALS)} signals ended a run of {whole:.2f} s")
    return wrong > 0 or met < len(MOMENTS)


if __name__ == "__main__":
    sys.exit(main())
