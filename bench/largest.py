#!/usr/bin/env python3
"""The largest sheets: 16 rows, 256 at-lines full of calls, 10,000 ticks, close to 32,768 bytes, with either queue.

    python3 bench/largest.py PROGRAM [--compare]

Prints the time and the peak memory (by /usr/bin/time) of the program on each and, if asked, whether it wrote what
tools/reference.py says, which takes some minutes."""
import argparse
import os
import subprocess
import sys
import time

from full import full

sys.path.insert(0, os.path.join(os.path.dirname(__file__), "..", "tools"))
from reference import transcript

options = argparse.ArgumentParser(description=__doc__, formatter_class=argparse.RawDescriptionHelpFormatter)
options.add_argument("program", metavar="PROGRAM", help="the program that is measured")
options.add_argument("--compare", action="store_true", help="compare what it writes with tools/reference.py")
given = options.parse_args()

for queue in ("first", "worth"):
    text = full(queue, 10000, 10000)
    start = time.perf_counter()
    run = subprocess.run(["/usr/bin/time", "-f", "%M", given.program], input=text, capture_output=True)
    seconds = time.perf_counter() - start
    print("queue %s: %d bytes, %.2f s, peak %s KiB" % (queue, len(text), seconds, run.stderr.decode().strip()))
    if given.compare:
        print("as tools/reference.py says" if run.stdout.decode() == transcript(text) else "NOT as tools/reference.py says")
