#!/usr/bin/env python3
"""Compares a program with tools/reference.py on random sheets, valid and damaged, and on sheets at every limit:

    tools/compare.py PROGRAM [COUNT [SEED]]

Each sheet is given to PROGRAM on standard input. What it writes has to be what tools/reference.py says, to the byte, and it
has to end with status 0. The first sheet on which they differ is printed, and the status is 1."""
import argparse
import random
import subprocess
import sys

from reference import transcript

NUMBERS = ["0", "1", "2", "3", "4", "5", "6", "7", "8", "12", "16", "17", "40", "64", "0000000001", "00000000001", "4095", "4096",
           "4097", "9999", "10000", "10001", "65535", "65536", "4294967294", "4294967295", "4294967296", "9999999999",
           "10000000000", "99999999999999999999", "01", "00"]
WORDS = ["sheet", "duty", "queue", "remark", "at", "end", "first", "worth", "release", "done", "request", "withdraw", "tick",
         "slack", "a", "remarks", "dut", "atx"]
TEXTS = ["", "a note", "(nested (brackets) 12)", "1 2 99999999999", "()", "()()", "(", ")", ")(", "~!@#$%^&*", "  two  spaces ",
         "(" * 14 + ")" * 14, "(" * 15 + ")" * 15, "(" * 16 + ")" * 16]


def number(r, most):
    value = str(r.randint(0, most))
    return "0" * r.choice([0, 0, 0, 0, 1, 3]) + value


def call(r, rows):
    kind = r.randrange(6)
    if kind < 2:
        return "(release %s)" % number(r, rows)
    if kind == 2:
        return "(done %s)" % number(r, rows)
    if kind == 3:
        return "(withdraw %s)" % number(r, 6)
    units, worth = r.choice([(number(r, 6), number(r, 9)), ("4097", "1"), ("1", "65536"), ("2", "65535")] if r.random() < 0.3
                            else [(number(r, 6), number(r, 9))])
    return "(request %s %s %s)" % (number(r, 6), units, worth)


def remark(r):
    return "(remark)" if r.random() < 0.2 else "(remark %s)" % r.choice([t for t in TEXTS if t not in ("(", ")", ")(", TEXTS[-1])])


def valid_lines(r):
    """The lines of a sheet that is likely to be one."""
    lines, rows = ["(sheet %s)" % r.choice(["1", "1", "1", "01"])], 0
    for _ in range(r.choice([0, 1, 2, 3, 4])):
        separation = r.randint(6, 30)
        cost = r.randint(1, 3)
        deadline = r.randint(min(separation, cost + 2), separation)
        lines.append("(duty %d %d %d %d)" % (r.randint(0, rows), cost, deadline, separation))
        rows += 1
    lines.append("(queue %s)" % r.choice(["first", "worth"]))
    ticks = r.randint(0, 25)
    for _ in range(r.choice([0, 0, 1, 2, 4, 8])):
        calls = " ".join(call(r, max(rows, 1)) for _ in range(r.randint(1, 5)))
        lines.append("(at %s %s)" % (number(r, max(0, ticks - (r.random() < 0.9))), calls))
    lines.append("(end %d)" % ticks)
    for _ in range(r.choice([0, 0, 1, 2])):
        lines.insert(r.randint(1, len(lines)), remark(r))
    return lines


def damaged_line(r, line):
    tokens = line.replace("(", " ( ").replace(")", " ) ").split()
    kind = r.randrange(9)
    if kind == 0 and tokens:  # a number of its own
        return "".join(line.split(" ")[0]) + " " + " ".join(r.choice(NUMBERS) for _ in range(r.randint(0, 5))) + ")"
    if kind == 1:
        return "(%s %s)" % (r.choice(WORDS), " ".join(r.choice(NUMBERS + WORDS) for _ in range(r.randint(0, 4))))
    if kind == 2:
        return "(remark %s)" % r.choice(TEXTS)
    if kind == 3:  # a form inside
        depth = r.choice([1, 2, 14, 15, 16])
        return "(%s %s)" % (r.choice(WORDS), "(a " * depth + "1" + ")" * depth)
    if kind == 4:
        return line + r.choice([" ", ")", "(", "x", "(remark)"])
    if kind == 5:
        return ""
    if kind == 6:
        return "(at %s %s)" % (r.choice(NUMBERS), r.choice(["", "5", "release", "(release)", "(release 0 1)", "(tick)", "(done x)",
                                                             "(request 1 2)", "(withdraw (a))", "(release 0)  (done 0)", "(release 0)(done 0)"]))
    places = [i for i, letter in enumerate(line) if letter.isdigit()]
    if kind == 7 and places:
        at = r.choice(places)
        return line[:at] + r.choice(NUMBERS) + line[at + 1:]
    return line.replace(" ", "  ", 1) if r.random() < 0.5 else line[1:]


def damaged_bytes(r, text):
    text = bytearray(text)
    for _ in range(r.choice([1, 1, 1, 2, 3])):
        at = r.randint(0, len(text))
        kind = r.randrange(5)
        if kind == 0:
            text[at:at + 1] = b""
        elif kind == 1:
            text[at:at] = bytes([r.choice(b" ()19a\n")])
        elif kind == 2:
            text[at:at + 1] = bytes([r.choice([0, 9, 10, 13, 31, 32, 40, 41, 126, 127, 128, 200, 255])])
        elif kind == 3:
            text = text[:at]
        else:
            text[at:at] = bytes([r.randrange(256)])
    return bytes(text)


def random_sheet(r):
    lines = valid_lines(r)
    kind = r.random()
    if kind < 0.3:
        return text_of(lines)
    if kind < 0.75:
        for _ in range(r.choice([1, 1, 2])):
            at = r.randrange(len(lines))
            step = r.randrange(5)
            if step == 0:
                del lines[at]
            elif step == 1:
                lines.insert(r.randint(0, len(lines)), lines[at])
            elif step == 2:
                lines.insert(r.randint(0, len(lines)), r.choice(valid_lines(r)))
            else:
                lines[at] = damaged_line(r, lines[at])
            if not lines:
                return b""
        text = text_of(lines)
        return text[:-1] if r.random() < 0.05 else text
    return damaged_bytes(r, text_of(lines))


def text_of(lines):
    return "".join(line + "\n" for line in lines).encode("latin-1")


def padded(length):
    """A sheet of this length, or what is left of it."""
    head, tail = text_of(["(sheet 1)", "(queue first)", "(end 1)"]), b"(remark "
    fill = length - len(head) - len(tail) - 2
    return head + tail + b"x" * fill + b")\n"


def sheets_at_limits():
    yield b""
    for length in (32767, 32768, 32769):
        yield padded(length)
        yield b"\x00" * length
        yield b"\n" * length
        yield padded(length)[:-1] + b"\x7f"
    for count in (255, 256, 257, 258):
        ats = ["(at %d (release 0))" % (300 - k) for k in range(count)]
        yield text_of(["(sheet 1)", "(queue worth)"] + ats + ["(end 301)"])
        yield text_of(["(sheet 1)", "(queue worth)"] + ats + ["(end 301)", "(at 0 (done 0))"])
        yield text_of(["(sheet 1)", "(queue worth)"] + ats + ["(at 0)"])
    for depth in (15, 16, 17):
        yield text_of(["(sheet 1)", "(remark " + "(" * (depth - 1) + ")" * (depth - 1) + ")"])
        yield text_of(["(sheet 1)", "(a " * (depth - 1) + "(a)" + ")" * (depth - 1)])
        yield text_of(["(sheet 1)", "(queue first)", "(at 0 (release " + "(a " * (depth - 3) + "(a)" + ")" * (depth - 3) + "))", "(end 0)"])
    for byte in (0, 9, 13, 31, 32, 126, 127, 128, 200, 255):
        letter = bytes([byte])
        yield letter + b"(sheet 1)\n"
        yield b"(sheet 1)\n(remark " + letter + b")\n(queue first)\n(end 0)\n"
        yield b"(sheet 1)\n(queue first)\n(end 0)\n" + letter
    for digits in NUMBERS:
        for line in ("(sheet %s)", "(duty %s 1 4 4)", "(duty 0 %s 4 4)", "(duty 0 1 %s 4)", "(duty 0 1 4 %s)", "(end %s)",
                     "(at %s (release 0))", "(at 0 (release %s))", "(at 0 (request %s 1 1))", "(at 0 (request 1 %s 1))",
                     "(at 0 (request 1 1 %s))", "(at 0 (withdraw %s))", "(queue %s)"):
            lines = ["(sheet 1)"] * (not line.startswith("(sheet"))
            lines += ["(queue first)"] * (line[1:3] in ("at", "en"))
            lines.append(line % (digits if digits not in ("9999", "10000") or "end" not in line else "2"))
            yield text_of(lines)
            yield text_of(lines + ["(queue first)"] * (line[1:3] in ("sh", "du")) + ["(end 3)"] * (line[1:3] != "en"))
    rows = ["(duty %d 1 4096 4096)" % k for k in range(17)]
    for count in (15, 16, 17):
        yield text_of(["(sheet 1)"] + rows[:count] + ["(queue first)", "(end 0)"])


def sheets(count, seed):
    yield from sheets_at_limits()
    r = random.Random(seed)
    for _ in range(count):
        yield random_sheet(r)


def main():
    options = argparse.ArgumentParser(description=__doc__, formatter_class=argparse.RawDescriptionHelpFormatter)
    options.add_argument("program", metavar="PROGRAM", help="the program that is compared")
    options.add_argument("count", metavar="COUNT", nargs="?", type=int, default=2000, help="how many random sheets, 2000 unless given")
    options.add_argument("seed", metavar="SEED", nargs="?", type=int, default=1, help="the seed of the random sheets, 1 unless given")
    given = options.parse_args()
    tried, faults = 0, {}
    for text in sheets(given.count, given.seed):
        wanted = transcript(text)
        run = subprocess.run([given.program], input=text, capture_output=True)
        if run.returncode != 0 or run.stdout != wanted.encode():
            print("they differ on this sheet, status %d:" % run.returncode)
            print(text)
            print("program:", run.stdout[:2000])
            print("reference:", wanted[:2000])
            sys.exit(1)
        tried += 1
        kind = wanted.split(" ")[1] if wanted.startswith("(fault") else "none"
        faults[kind] = faults.get(kind, 0) + 1
    print("%d sheets agree; by fault: %s" % (tried, ", ".join("%s: %d" % f for f in sorted(faults.items()))))


if __name__ == "__main__":
    main()
