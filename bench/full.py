"""Sheets that are as full as they can be, for the benchmarks of whole sheets."""
import random

SIXTEEN = ["(duty %d 3 %d %d)" % (i, 60 + 8 * i, 60 + 10 * i) for i in range(16)]


def sheet(lines):
    text = ("\n".join(lines) + "\n").encode()
    assert len(text) <= 32768, len(text)
    return text


def full(queue, ticks, clocks):
    """16 rows, and 256 at-lines that are as full of calls as a sheet can hold, at clocks below a bound."""
    r = random.Random(3)
    head = ["(sheet 1)"] + SIXTEEN + ["(queue %s)" % queue]
    room = (32768 - sum(len(line) + 1 for line in head) - len("(end 10000)\n")) // 256
    ats = []
    for _ in range(256):
        line = "(at %d" % r.randrange(clocks)
        while True:
            request = "(request %d %d %d)" % (r.randrange(1000), r.randint(1, 9), r.randint(0, 99))
            call = request if r.random() < 0.3 else "(release %d)" % r.randrange(16)
            if len(line) + 1 + len(call) + 2 > room:
                break
            line += " " + call
        ats.append(line + ")")
    return sheet(head + ats + ["(end %d)" % ticks])
