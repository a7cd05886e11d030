#!/usr/bin/env python3
"""measure.py SCOPE LABEL [WORD..]: status, seconds and peak memory of SCOPE with these words, or `run s`, in this folder, after one run that builds."""
import os
import subprocess
import sys
import time

scope, label, *words = sys.argv[1:]
words = words or ["run", "s"]
quiet = {"stdout": subprocess.DEVNULL, "stderr": subprocess.DEVNULL}
subprocess.run([scope, *words], **quiet)
start = time.monotonic()
child = subprocess.Popen([scope, *words], **quiet)
# wait4 tells of this one child; the peak of all children would be that of the run that builds.
_, ending, used = os.wait4(child.pid, 0)
seconds = time.monotonic() - start
status = os.waitstatus_to_exitcode(ending)
print(f"{label}: status {status}, {seconds:.2f} s, {used.ru_maxrss / 1024:.0f} MiB")
