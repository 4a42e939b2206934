#!/usr/bin/env python3
"""What the trial program has to print of a sheet, computed straight from the rules:

    tools/reference.py < SHEET

Reads a sheet from standard input and writes its transcript, or the one line of its fault, to standard output. It follows
docs/SHEETS.md and the rules of the dispatcher, slowly and plainly, and has nothing in common with the proved code, which is
compared with it."""
import argparse
import re
import sys

LONGEST = 32768
LARGEST = 4294967295
MOST_TICKS = 10000
MOST_ATS = 256
DEEPEST = 16
CAPACITY = 64
LAYERS = {12: "letters", 13: "forms", 14: "forms", 15: "forms", 16: "sheet", 17: "sheet"}


class Fault(Exception):
    def __init__(self, number, line, byte, row=None):
        self.number, self.line, self.byte, self.row = number, line, byte, row

    def __str__(self):
        row = "" if self.row is None else " %d" % self.row
        return "(fault %d %d %d %s%s)\n" % (self.number, self.line, self.byte, LAYERS.get(self.number, "table"), row)


# ---- Forms: a form is a list whose first element is its word; a number is kept as its digits.

class NoForm(Exception):
    pass


def read_form(text, at, depth):
    """The form that begins at `at`, and where it ends. `depth` counts its own bracket."""
    if depth > DEEPEST or text[at:at + 1] != "(":
        raise NoForm
    word = re.match("[a-z]+", text[at + 1:])
    if word is None:
        raise NoForm
    form = [word.group()]
    at += 1 + word.end()
    while text[at:at + 1] == " ":
        at += 1
        plain = re.match("[a-z]+|[0-9]+", text[at:])
        if plain:
            form.append(plain.group())
            at += plain.end()
        else:
            inner, at = read_form(text, at, depth + 1)
            form.append(inner)
    if text[at:at + 1] != ")":
        raise NoForm
    return form, at + 1


def is_remark(text):
    """Whether a line that begins as a remark is one: its brackets pair up, none before the last byte closes the first."""
    depth = 0
    for i, letter in enumerate(text):
        if letter == "(":
            depth += 1
            if depth > DEEPEST:
                return False
        if letter == ")":
            depth -= 1
            if depth == 0 and i + 1 < len(text):
                return False
    return depth == 0


def form_of(text):
    if text.startswith("(remark ") or text.startswith("(remark)"):
        return ["remark"] if is_remark(text) else None
    try:
        form, end = read_form(text, 0, 1)
    except NoForm:
        return None
    return form if end == len(text) else None


# ---- What each word wants: numbers n, words w, forms f.

CALLS = {"release": "n", "done": "n", "request": "nnn", "withdraw": "n"}
LINES = {"sheet": "n", "duty": "nnnn", "queue": "w", "end": "n"}


def kind(item):
    if isinstance(item, list):
        return "f"
    return "n" if item.isdigit() else "w"


def is_call(item):
    return isinstance(item, list) and CALLS.get(item[0]) == "".join(map(kind, item[1:]))


def fits_its_word(form):
    word, items = form[0], form[1:]
    if word == "remark":
        return True
    if word == "at":
        return len(items) >= 2 and kind(items[0]) == "n" and all(map(is_call, items[1:]))
    if LINES.get(word) != "".join(map(kind, items)):
        return False
    if word == "sheet":
        return items[0].lstrip("0") == "1"
    if word == "queue":
        return items[0] in ("first", "worth")
    return True


def numbers_of(form):
    for item in form[1:]:
        if isinstance(item, list):
            yield from numbers_of(item)
        elif item.isdigit():
            yield item


def numbers_fit(form):
    if any(len(digits) > 10 or int(digits) > LARGEST for digits in numbers_of(form)):
        return False
    return form[0] != "end" or int(form[1]) <= MOST_TICKS


# ---- The table.

def ceil(a, b):
    return -(-a // b)


def response(table, row):
    for w in range(1, table[row][1] + 1):
        if sum(c * ceil(w, t) for c, d, t in table[:row + 1]) <= w:
            return w
    return None


def add(table, place, duty):
    """The table with the duty, or the refusal's number and its row."""
    cost, deadline, separation = duty
    if place > len(table):
        return None, (1, None)
    if not 1 <= cost <= deadline <= separation <= 4096:
        return None, (2, None)
    if len(table) >= 16:
        return None, (3, None)
    new = table[:place] + [duty] + table[place:]
    for row in range(len(new)):
        if response(new, row) is None:
            return None, (4, row)
    return new, None


# ---- The sheet.

def read_sheet(text):
    """The table, the queue's name, the at-lines as (clock, calls), and the ticks; or a Fault is raised."""
    if len(text) > LONGEST:
        raise Fault(17, 1, 0)
    rest, start, number = text, 0, 0
    stage, table, queue, ats, ticks = "first", [], None, [], None
    while rest:
        number += 1
        line, newline, rest = rest.partition(b"\n")
        for i, byte in enumerate(line):
            if not 32 <= byte <= 126:
                raise Fault(12, number, start + i)
        form = form_of(line.decode("ascii")) if newline else None
        if form is None:
            raise Fault(13, number, start)
        if not fits_its_word(form):
            raise Fault(14, number, start)
        if not numbers_fit(form):
            raise Fault(15, number, start)
        word = form[0]
        wanted = {"first": ["sheet"], "duties": ["duty", "queue", "remark"], "ats": ["at", "end", "remark"], "over": ["remark"]}
        if word not in wanted[stage]:
            raise Fault(16, number, start)
        if word == "at" and len(ats) == MOST_ATS:
            raise Fault(17, number, start)
        if word == "sheet":
            stage = "duties"
        elif word == "duty":
            place, *duty = map(int, form[1:])
            table_after, refused = add(table, place, tuple(duty))
            if refused:
                raise Fault(refused[0], number, start, refused[1])
            table = table_after
        elif word == "queue":
            stage, queue = "ats", form[1]
        elif word == "at":
            ats.append((int(form[1]), number, start, [(c[0], *map(int, c[1:])) for c in form[2:]]))
        elif word == "end":
            stage, ticks = "over", int(form[1])
        start += len(line) + 1
    if stage != "over":
        raise Fault(16, number + 1, len(text))
    for clock, line, byte, calls in ats:
        if clock >= ticks:
            raise Fault(16, line, byte)
    return table, queue, [(clock, calls) for clock, line, byte, calls in ats], ticks


# ---- The machine.

class Machine:
    def __init__(self, table, queue):
        self.clock, self.table, self.queue = 0, table, queue
        self.rows = [{"ready": False, "left": 0, "due": 0, "earliest": 0} for _ in table]
        self.waiting = []  # in the order of their puts

    def release(self, row):
        if row >= len(self.rows):
            return 1
        if self.clock < self.rows[row]["earliest"]:
            return 5
        cost, deadline, separation = self.table[row]
        self.rows[row] = {"ready": True, "left": cost, "due": self.clock + deadline, "earliest": self.clock + separation}
        return None

    def done(self, row):
        if row >= len(self.rows):
            return 1
        if not self.rows[row]["ready"]:
            return 6
        self.rows[row]["ready"] = False
        return None

    def request(self, number, units, worth):
        if not 1 <= units <= 4096 or worth > 65535:
            return 8
        if any(e["number"] == number for e in self.waiting):
            return 9
        if len(self.waiting) == CAPACITY:
            return 10
        self.waiting.append({"number": number, "units": units, "left": units, "worth": worth})
        return None

    def withdraw(self, number):
        """The refusal, or the units that were left as a negative number."""
        for e in self.waiting:
            if e["number"] == number:
                self.waiting.remove(e)
                return -e["left"]
        return 11

    def named(self):
        best = None
        for e in self.waiting:
            if best is None or self.queue == "worth" and e["worth"] * best["units"] > best["worth"] * e["units"]:
                best = e
        return best

    def slack(self):
        t, slacks = self.clock, []
        def next_release(row):
            return row["earliest"] if row["ready"] else max(row["earliest"], t + 1)
        for i, row in enumerate(self.rows):
            end = row["due"] if row["ready"] else next_release(row) + self.table[i][1]
            def demand(w):
                return sum((r["left"] if r["ready"] else 0) + c * ceil(max(0, t + w - next_release(r)), s)
                           for r, (c, d, s) in zip(self.rows[:i + 1], self.table))
            slacks.append(max(w - demand(w) for w in range(0, end - t + 1)))
        return min(slacks) if slacks else 65535

    def tick(self):
        slack, who = self.slack(), "nobody"
        if self.waiting and slack >= 1:
            errand = self.named()
            who = "errand %d" % errand["number"]
            errand["left"] -= 1
            if errand["left"] == 0:
                self.waiting.remove(errand)
        else:
            for i, row in enumerate(self.rows):
                if row["ready"]:
                    who = "duty %d" % i
                    row["left"] -= 1
                    row["ready"] = row["left"] > 0
                    break
        self.clock += 1
        return slack, who


def run(table, queue, ats, ticks):
    """The transcript of a sheet that has no fault."""
    out = ["(duty %d response %d)\n" % (row, response(table, row)) for row in range(len(table))]
    machine, accepted, served, withdrawn = Machine(table, queue), 0, 0, 0
    for clock in range(ticks):
        for at, calls in ats:
            for word, *values in calls if at == clock else []:
                refused = getattr(machine, word)(*values)
                if refused is not None and refused > 0:
                    out.append("(refused %d %d %s)\n" % (clock, refused, word))
                elif word == "request":
                    accepted += values[1]
                elif word == "withdraw":
                    withdrawn -= refused
        slack, who = machine.tick()
        served += who.startswith("errand")
        out.append("(tick %d %d %s)\n" % (clock, slack, who))
    waiting = sum(e["left"] for e in machine.waiting)
    out.append("(totals %d %d %d %d)\n" % (accepted, served, withdrawn, waiting))
    return "".join(out)


def transcript(text):
    """What is printed of a text, given in bytes: the transcript of the sheet that it is, or the line of its fault."""
    try:
        return run(*read_sheet(text))
    except Fault as fault:
        return str(fault)


def main():
    argparse.ArgumentParser(description=__doc__, formatter_class=argparse.RawDescriptionHelpFormatter).parse_args()
    sys.stdout.write(transcript(sys.stdin.buffer.read(LONGEST + 1)))


if __name__ == "__main__":
    main()
