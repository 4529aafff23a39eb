#!/usr/bin/env python3
"""Runs a command and prints the digest of its standard output, its seconds, and the most memory that it held, in kB.

    python3 oracle/measured.py COMMAND [ARGUMENT ...]

It ends with the command's own status.
"""
import hashlib
import os
import subprocess
import sys
import time

begun = time.monotonic()
child = subprocess.Popen(sys.argv[1:], stdout=subprocess.PIPE)
digest = hashlib.sha256()
while part := child.stdout.read1(1 << 20):
    digest.update(part)
_, status, used = os.wait4(child.pid, 0)
print(digest.hexdigest(), f"{time.monotonic() - begun:.2f}", used.ru_maxrss)
sys.exit(os.waitstatus_to_exitcode(status))
