"""Runs a command, and prints its exit status, the seconds that it took and the greatest memory of one of its processes, in KB.

    python3 measured.py [--processor] OUTPUT ERROR WORD..      what it prints goes to the files OUTPUT and ERROR

With --processor the seconds are the processor's, of all its processes, and not the clock's.
"""

import resource
import subprocess
import sys
import time

words, started = sys.argv[1:], time.monotonic()
of_processor = words[0] == "--processor"
if of_processor:
    words.pop(0)
with open(words[0], "wb") as output, open(words[1], "wb") as error:
    status = subprocess.run(words[2:], stdin=subprocess.DEVNULL, stdout=output, stderr=error).returncode
used = resource.getrusage(resource.RUSAGE_CHILDREN)
print(status, round(used.ru_utime + used.ru_stime if of_processor else time.monotonic() - started), used.ru_maxrss)
