#!/usr/bin/env python3
"""Whole sheets: the proved trial program beside the one in plain Rust (bench/trial.rs), on the largest sheets that there are and on
sheets that grow.

    python3 bench/sheets.py PROVED PLAIN

Both programs are given each sheet on standard input, and have to write the same, to the byte. Prints for each sheet its bytes and
ticks, the best of five times of both, the peak memory of the proved one and, where valgrind is at hand, the instructions of both
(callgrind, the same for every run), with their ratio. Instructions are those of the whole program, start and output included."""
import argparse
import os
import re
import shutil
import subprocess
import sys
import tempfile
import time

from full import full, sheet


def remarks(size):
    """A sheet of about so many bytes that is read and not run."""
    head, last = ["(sheet 1)", "(queue first)"], "(end 0)"
    return sheet(head + ["(remark %s)" % ("some (words) " * 6)] * ((size - 40) // 88) + [last])


CASES = [
    ("largest, first come", full("first", 10000, 10000), 10000),
    ("largest, by worth", full("worth", 10000, 10000), 10000),
    ("the same calls, 5,000 ticks", full("worth", 5000, 2500), 5000),
    ("the same calls, 2,500 ticks", full("worth", 2500, 2500), 2500),
    ("read, hardly run", full("worth", 1, 1), 1),
    ("remarks, 32 KiB", remarks(32768), 0),
    ("remarks, 16 KiB", remarks(16384), 0),
    ("remarks, 8 KiB", remarks(8192), 0),
]


def run(program, path):
    """What the program writes, and its best time in seconds."""
    best, out = None, None
    for _ in range(5):
        with open(path, "rb") as text, tempfile.TemporaryFile() as written:
            start = time.perf_counter()
            child = subprocess.Popen([program], stdin=text, stdout=written)
            status = child.wait()
            seconds = time.perf_counter() - start
            assert status == 0, (program, path, status)
            written.seek(0)
            out = written.read()
        best = seconds if best is None else min(best, seconds)
    return out, best


def peak(program, path):
    """Its peak memory in KiB, by /usr/bin/time."""
    with open(path, "rb") as text:
        said = subprocess.run(["/usr/bin/time", "-f", "%M", program], stdin=text, stdout=subprocess.DEVNULL, stderr=subprocess.PIPE)
    return int(said.stderr)


def instructions(program, path):
    with open(path, "rb") as text:
        said = subprocess.run(["valgrind", "--tool=callgrind", "--callgrind-out-file=/dev/null", program], stdin=text,
                              stdout=subprocess.DEVNULL, stderr=subprocess.PIPE).stderr.decode()
    return int(re.search(r"Collected : (\d+)", said).group(1))


def main():
    options = argparse.ArgumentParser(description=__doc__, formatter_class=argparse.RawDescriptionHelpFormatter)
    options.add_argument("proved", metavar="PROVED", help="the proved program")
    options.add_argument("plain", metavar="PLAIN", help="the program in plain Rust")
    given = options.parse_args()
    proved, plain = given.proved, given.plain
    count = shutil.which("valgrind") is not None
    print("%-30s %7s %7s %9s %9s %7s %9s %12s %12s %7s"
          % ("sheet", "bytes", "ticks", "proved ms", "plain ms", "ratio", "peak KiB", "proved ins", "plain ins", "ratio"))
    with tempfile.TemporaryDirectory() as folder:
        path = os.path.join(folder, "sheet")
        for name, text, ticks in CASES:
            with open(path, "wb") as file:
                file.write(text)
            out, seconds = run(proved, path)
            expected, plain_seconds = run(plain, path)
            assert out == expected, name
            line = "%-30s %7d %7d %9.2f %9.2f %7.2f %9d" % (name, len(text), ticks, seconds * 1e3, plain_seconds * 1e3,
                                                          seconds / plain_seconds, peak(proved, path))
            if count:
                a, b = instructions(proved, path), instructions(plain, path)
                line += " %12d %12d %7.2f" % (a, b, a / b)
            print(line, flush=True)
    print("all texts agree")


if __name__ == "__main__":
    main()
