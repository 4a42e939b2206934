#!/usr/bin/env python3
"""Writes the stored cases of crates/sheet_cases anew:

    tools/store_cases.py

Each sheet below goes to data/NAME.sheet, and what tools/reference.py says of it to data/NAME.text; the names go to data/names, and
what the program has to write to stdout. The proved program has no part in it. Run it after a case is added here.

A case with two faults comes with a second text, in which the fault that counts is mended: tools/reference.py has to find the
other one there. A case with refused calls comes with the refusals that it has to print."""
import argparse
import os
import re
import shutil

from reference import transcript

# Before the cases are made, which takes a while.
argparse.ArgumentParser(description=__doc__, formatter_class=argparse.RawDescriptionHelpFormatter).parse_args()

FOLDER = os.path.join(os.path.dirname(os.path.abspath(__file__)), "..", "crates", "sheet_cases")
HEAD = ["(sheet 1)", "(duty 0 1 4 4)", "(duty 1 2 6 6)"]
QUEUE, ATS, END = "(queue first)", ["(at 0 (release 0) (release 1) (request 7 3 10))", "(at 3 (done 1) (withdraw 7))"], "(end 6)"
TAIL = [QUEUE] + ATS + [END]
PLAIN = HEAD + TAIL

CASES = {}


def text_of(lines):
    """A text of lines, or of bytes as they stand."""
    return lines if isinstance(lines, bytes) else "".join(line + "\n" for line in lines).encode("latin-1")


def case(name, lines):
    assert re.fullmatch("[a-z0-9_]+", name) and name not in CASES, name
    CASES[name] = text_of(lines)


def at(place, line, lines=PLAIN):
    """The lines with another one at a place, counted from 0; -1 is the last."""
    lines = list(lines)
    lines[place] = line
    return lines


def fault(text):
    """Number and line of the fault that a text has; None for a sheet."""
    line = re.match(r"\(fault (\d+) (\d+) ", transcript(text))
    return line and (int(line[1]), int(line[2]))


def named(number, name):
    return "fault_%02d_%s" % (number, name)


def faulty(number, **sheets):
    """Cases that must have a fault of this number."""
    for name, lines in sheets.items():
        case(named(number, name), lines)
        found = fault(CASES[named(number, name)])
        assert found and found[0] == number, (number, name, found)


def refusals(text):
    """The refusals that a sheet's text prints: clock, number and word of each."""
    return [(int(clock), int(number), word) for clock, number, word in re.findall(r"\(refused (\d+) (\d+) (\w+)\)", transcript(text))]


def valid(name, lines, refused=None):
    """A case that must be a sheet; where the refusals are given, those, and no others, must be printed."""
    case("run_" + name, lines)
    assert not fault(CASES["run_" + name]), (name, fault(CASES["run_" + name]))
    if refused is not None:
        assert refusals(CASES["run_" + name]) == refused, (name, refusals(CASES["run_" + name]))


def sized(size, last="(end 0)"):
    """A sheet of so many bytes."""
    lines, text = ["(sheet 1)", "(queue first)"], 24 + len(last) + 1
    while size - text > 110:
        lines.append("(remark %s)" % ("x" * 90))
        text += 100
    return lines + ["(remark %s)" % ("x" * (size - text - 10)), last]


def at_lines(count, clock=0):
    return ["(sheet 1)", "(queue worth)"] + ["(at %d (request %d 1 %d))" % (clock, n, n % 7) for n in range(count)] + ["(end 4)"]


def sixteen(last=None):
    lines = ["(sheet 1)"] + ["(duty %d 1 64 64)" % n for n in range(16)]
    return lines + ([last] if last else []) + ["(queue first)", "(end 2)"]


def nested(depth):
    """A remark whose brackets nest so deep, its own counted."""
    return "(remark %s%s)" % ("(" * (depth - 1), ")" * (depth - 1))


# ---- Each fault by itself.

faulty(12, first_line_byte_31=at(0, "(sheet\x1f1)"), middle_line_byte_127=at(3, "(queue fir\x7fst)"), last_line_byte_200=at(-1, "(end \xc86)"),
       byte_13_at_the_end_of_a_line=at(1, "(duty 0 1 4 4)\r"), byte_9_for_a_space=at(4, "(at\t0 (release 0))"), byte_0=at(2, "(duty 1 2 \x006 6)"),
       byte_255=PLAIN + ["\xff"], in_a_remark=at(3, "(remark \x01)", PLAIN + TAIL), two_in_one_line=at(1, "\x02(duty\x03 0 1 4 4)"))
faulty(13, first_line=at(0, "(sheet 1"), middle_line=at(3, "queue first"), last_line=at(-1, "(end 6"), last_line_without_newline=text_of(PLAIN)[:-1],
       empty_line=at(3, ""), empty_first_line=at(0, ""), empty_last_line=PLAIN + [""], one_newline_alone=b"\n", one_byte_alone=b"(",
       two_spaces=at(1, "(duty  0 1 4 4)"), space_at_the_end=at(1, "(duty 0 1 4 4 )"), behind_the_bracket=at(1, "(duty 0 1 4 4) "),
       capital=at(1, "(Duty 0 1 4 4)"), no_word=at(1, "(0 1 4 4)"), word_and_digit=at(4, "(at0 (release 0))"), digit_and_word=at(4, "(at 0x (release 0))"),
       no_space_before_form=at(4, "(at 0(release 0))"), remark_unpaired=at(3, "(remark :()"), remark_closed_early=at(3, "(remark ) ()"),
       remark_nests_17_deep=at(3, nested(17)), form_nests_17_deep=at(3, "(a " * 17 + "1" + ")" * 17))
faulty(14, first_line=at(0, "(sheet 2)"), middle_line=at(3, "(queue last)"), last_line=at(-1, "(end)"), unknown_word=at(1, "(dut 0 1 4 4)"),
       number_missing=at(1, "(duty 0 1 4)"), number_too_many=at(1, "(duty 0 1 4 4 4)"), word_for_number=at(1, "(duty a 1 4 4)"),
       form_for_number=at(1, "(duty (a) 1 4 4)"), no_call=at(4, "(at 0)"), call_not_known=at(4, "(at 0 (tick))"), call_short=at(4, "(at 0 (request 7 3))"),
       second_call_wrong=at(4, "(at 0 (release 0) (done))"), word_for_call=at(4, "(at 0 release)"), remarks=at(3, "(remarks a)"),
       sheet_0=at(0, "(sheet 0)"), sheet_4294967297=at(0, "(sheet 4294967297)"), form_nests_16_deep=at(3, "(a " * 16 + "1" + ")" * 16))
faulty(15, first_line_eleven_digits=at(0, "(sheet 00000000001)"), middle_line_4294967296=at(2, "(duty 1 2 6 4294967296)"), last_line_end_10001=at(-1, "(end 10001)"),
       last_line_end_largest=at(-1, "(end 4294967295)"), eleven_digits=at(1, "(duty 0 1 4 00000000004)"), in_a_call=at(4, "(at 0 (request 7 3 9999999999))"),
       of_a_clock=at(4, "(at 4294967296 (release 0))"), second_of_two=at(1, "(duty 0 1 4 4)", at(2, "(duty 1 2 4294967296 4294967297)")))
faulty(16, first_line_is_a_remark=at(0, "(remark first)"), first_line_is_a_duty=PLAIN[1:], second_sheet_line=at(1, "(sheet 1)"),
       middle_line_duty_behind_the_queue=at(4, "(duty 0 1 9 9)"), at_before_queue=at(1, "(at 0 (release 0))"), second_queue=at(4, "(queue worth)"),
       end_before_queue=at(1, "(end 6)"), last_line_at_behind_the_end=PLAIN + ["(at 1 (release 0))"], second_end=PLAIN + ["(end 6)"],
       end_missing=PLAIN[:-1], queue_missing=HEAD, only_the_first_line=PLAIN[:1], size_0=b"",
       at_line_at_the_end=at(5, "(at 6 (release 0))"), at_line_behind_the_end_clock=at(5, "(at 4294967295 (release 0))"), at_line_and_end_0=at(-1, "(end 0)"),
       two_late_at_lines=at(5, "(at 6 (done 0))", at(4, "(at 7 (release 0))")))
faulty(17, size_32769=sized(32769), size_32769_and_no_sheet=b"\x00" * 32769, at_line_257=at_lines(257), at_line_257_of_300=at_lines(300),
       at_line_257_last_line=at_lines(257)[:-1])
faulty(1, first_duty_line=at(1, "(duty 1 1 4 4)"), second_duty_line=at(2, "(duty 2 2 6 6)"), last_line=HEAD + ["(duty 3 1 9 9)"],
       last_duty_line=HEAD + ["(duty 3 1 9 9)"] + TAIL, largest_place=at(1, "(duty 4294967295 1 4 4)"))
faulty(2, first_duty_line_cost_0=at(1, "(duty 0 0 4 4)"), cost_above_deadline=at(1, "(duty 0 5 4 4)"),
       middle_line_deadline_above_separation=at(2, "(duty 1 2 7 6)"), last_duty_line_separation_4097=HEAD + ["(duty 2 1 9 4097)"] + TAIL,
       last_line=HEAD + ["(duty 2 0 9 9)"], largest_numbers=at(1, "(duty 0 4294967295 4294967295 4294967295)"))
faulty(3, first_line_possible=sixteen("(duty 16 1 64 64)"), in_front=sixteen("(duty 0 1 64 64)"), in_the_middle=sixteen("(duty 8 1 64 64)"),
       behind_remarks=["(sheet 1)", "(remark)", "(remark)"] + sixteen("(duty 16 1 64 64)")[1:], last_line=sixteen("(duty 16 1 64 64)")[:-2])
faulty(4, second_row=["(sheet 1)", "(duty 0 3 3 5)", "(duty 0 1 4 4)"] + TAIL, third_row=HEAD + ["(duty 2 3 9 12)"] + TAIL,
       first_of_two_rows=["(sheet 1)", "(duty 0 2 4 4)", "(duty 1 1 3 8)", "(duty 2 1 4 8)", "(duty 0 2 2 4)"] + TAIL,
       full_load=HEAD + ["(duty 0 3 4 4)"] + TAIL, row_5_of_sixteen=sixteen()[:16] + ["(duty 0 60 60 64)"] + sixteen()[17:],
       row_15_of_sixteen=sixteen()[:16] + ["(duty 15 50 64 64)"] + sixteen()[17:], last_line=HEAD + ["(duty 2 3 9 12)"])

# ---- Two faults in one line: the first layer counts, and in it the smaller number.

WORDS = {12: "a_bad_letter", 13: "no_form", 14: "wrong_items", 15: "too_large", 16: "out_of_order", 17: "257th_at_line",
         1: "no_place", 2: "limits", 3: "full", 4: "unschedulable"}
# How a line gets a fault of its letters or its form, and stays otherwise as it is.
SPOILED = {12: lambda line: line + "\r", 13: lambda line: line[:-1], 14: lambda line: line.replace(" ", "x ", 1),
           15: lambda line: re.sub(r"\d+", lambda digits: digits[0].rjust(11, "0"), line, count=1)}
# A text with one fault, and the place of its line.
SINGLE = {13: (at(3, "(queue first"), 3), 14: (at(3, "(queue last)"), 3), 15: (at(-1, "(end 10001)"), 6), 16: (at(1, "(end 6)"), 1),
          17: (at_lines(257), 258), 1: (at(1, "(duty 1 1 4 4)"), 1), 2: (at(1, "(duty 0 1 4 4097)"), 1), 3: (sixteen("(duty 0 1 64 64)"), 17),
          4: (HEAD + ["(duty 0 3 4 4)"] + TAIL, 3)}


def one_line(first, second, sheet, mended):
    """A case with both faults in one line, the first of which counts; with it mended, the second one does."""
    found, other = fault(text_of(sheet)), fault(text_of(mended))
    assert found and other and found[0] == first and other == (second, found[1]), (first, second, found, other)
    case(named(first, "and_" + WORDS[second]), sheet)


for second, (single, place) in SINGLE.items():
    for first, spoil in SPOILED.items():
        if list(WORDS).index(first) < list(WORDS).index(second):
            one_line(first, second, at(place, spoil(single[place]), single), single)


def behind(line):
    """A duty that comes behind the queue line, and the same with a remark in place of that queue line."""
    return HEAD + [QUEUE, line] + TAIL[1:], HEAD + ["(remark)", line] + TAIL


one_line(16, 17, at_lines(256) + ["(at 0 (release 0))"], at_lines(256)[:-1] + ["(remark)", "(at 0 (release 0))", "(end 4)"])
one_line(16, 1, *behind("(duty 3 1 9 9)"))
one_line(16, 2, *behind("(duty 2 0 9 9)"))
one_line(16, 3, sixteen()[:-1] + ["(duty 16 1 64 64)", "(end 2)"], sixteen()[:-2] + ["(remark)", "(duty 16 1 64 64)"] + sixteen()[-2:])
one_line(16, 4, *behind("(duty 2 3 9 12)"))
one_line(1, 2, at(1, "(duty 1 0 0 0)"), at(1, "(duty 0 0 0 0)"))
one_line(1, 3, sixteen("(duty 17 1 64 64)"), sixteen("(duty 16 1 64 64)"))
one_line(1, 4, HEAD + ["(duty 3 9 9 9)"] + TAIL, HEAD + ["(duty 2 9 9 9)"] + TAIL)
one_line(2, 3, sixteen("(duty 16 0 0 0)"), sixteen("(duty 16 1 64 64)"))
one_line(2, 4, HEAD + ["(duty 0 4 4 4097)"] + TAIL, HEAD + ["(duty 0 4 4 4096)"] + TAIL)
one_line(3, 4, sixteen("(duty 0 64 64 64)"), at(16, "(remark)", sixteen("(duty 0 64 64 64)")))

# ---- Two faulty lines: the first one counts, whatever its layer and number.

REMARK = "(remark)"


def two_lines(first, second, sheet, name=None):
    """A case with a fault in each of two lines; with a remark in place of the line that counts, the other one does."""
    found = fault(text_of(sheet))
    assert found and found[0] == first, (first, second, found)
    other = fault(text_of(at(found[1] - 1, REMARK, sheet)))
    assert other and other[0] == second and other[1] > found[1], (first, second, found, other)
    case(named(first, "before_" + (name or WORDS[second])), sheet)


def early(line, later, sheet=PLAIN):
    """A line before the first duty, and one behind the last line."""
    return sheet[:1] + [line] + sheet[1:] + [later]


def duties(*lines):
    """Lines before the queue line, behind two duties."""
    return HEAD + list(lines) + TAIL


two_lines(12, 13, early("(remark \x01)", "(end"))
two_lines(12, 1, duties("(remark \x01)", "(duty 3 1 9 9)"))
two_lines(13, 12, at(4, "(at\t0 (release 0))", at(2, "duty")))
two_lines(13, 14, early("()", "(remarks)"))
two_lines(14, 13, early("(a)", ""))
two_lines(14, 15, early("(remarks)", "(end 10001)"))
two_lines(14, 16, at(4, "(at 0)", PLAIN[:-1]), "a_missing_end")
two_lines(15, 14, early("(end 10001)", "(end)"))
two_lines(15, 16, early("(end 10001)", "(end 6)"))
two_lines(16, 15, early("(sheet 1)", "(end 10001)"))
two_lines(16, 17, early("(end 4)", "(end 4)", at_lines(257)))
two_lines(16, 1, duties("(sheet 1)", "(duty 3 1 9 9)"))
two_lines(17, 12, at_lines(257) + ["(remark \x01)"])
two_lines(17, 16, at_lines(257) + ["(end 4)"])
two_lines(1, 12, early("(duty 1 1 4 4)", "(remark \x01)"))
two_lines(1, 2, duties("(duty 3 1 9 9)", "(duty 2 0 9 9)"))
two_lines(1, 17, ["(sheet 1)", "(duty 1 1 4 4)"] + at_lines(257)[1:])
two_lines(2, 1, duties("(duty 2 0 9 9)", "(duty 3 1 9 9)"))
two_lines(2, 3, sixteen()[:1] + ["(duty 0 0 0 0)"] + sixteen("(duty 16 1 64 64)")[1:])
two_lines(3, 2, sixteen("(duty 16 1 64 64)")[:-2] + ["(duty 16 0 0 0)"] + TAIL)
two_lines(3, 13, early("(remark)", "", sixteen("(duty 16 1 64 64)")))
two_lines(4, 3, sixteen("(duty 16 1 64 64)")[:3] + ["(duty 0 64 64 64)"] + sixteen("(duty 16 1 64 64)")[3:])
two_lines(4, 14, duties("(duty 2 4 4 4)") + ["(end)"])

# ---- An at-line that is not before the end counts only where nothing else is wrong: here one stands before the fault, or is it.

LATE = "(at 6 (release 0))"


def late(number, sheet, mended, name="and_a_late_at_line"):
    """A case with another fault; with it mended, an at-line that is not before the end counts."""
    found, other = fault(text_of(sheet)), fault(text_of(mended))
    assert found and found[0] == number and other and other[0] == 16, (number, found, other)
    assert mended[other[1] - 1].startswith("(at "), mended[other[1] - 1]
    case(named(number, name), sheet)


LATE_PLAIN = at(4, LATE)
for number, line in {12: "(remark \x01)", 13: "()", 14: "(remarks)", 15: "(end 10001)", 16: "(end 6)"}.items():
    late(number, LATE_PLAIN + [line], LATE_PLAIN)
late(16, LATE_PLAIN[:-1], LATE_PLAIN, "missing_end_and_a_late_at_line")
late(17, at(2, LATE, at_lines(257)), at(2, LATE, at_lines(256)))
late(17, at(258, LATE, at_lines(257)), at(257, LATE, at_lines(256)), "at_line_257_is_late")
for number, line in {1: "(duty 3 1 9 9)", 2: "(duty 2 0 9 9)", 4: "(duty 2 3 9 12)"}.items():
    late(number, LATE_PLAIN[:3] + [line] + LATE_PLAIN[3:], LATE_PLAIN)
late(3, sixteen("(duty 16 1 64 64)")[:-1] + [LATE, "(end 2)"], sixteen()[:-1] + [LATE, "(end 2)"])

# ---- A text that is too long is refused before anything else: here one with each other fault that a line can have.

EVERY = ["(sheet 1)", "(remark \x01)", "(duty 0 1 4 4", "(dut 0 1 4 4)", "(duty 0 1 4 4294967296)", "(sheet 1)", "(duty 1 1 4 4)", "(duty 0 0 4 4)"]
EVERY += ["(duty 0 1 64 64)", "(duty 1 64 64 64)"] + ["(duty %d 1 64 64)" % n for n in range(1, 16)] + ["(duty 16 1 64 64)"] + sized(32769)[1:]
short = EVERY[:26]
for number in (12, 13, 14, 15, 16, 1, 2, 4, 3):
    found = fault(text_of(short))
    assert found and found[0] == number, (number, found)
    short = at(found[1] - 1, REMARK, short)
faulty(17, size_above_32768_and_every_other=EVERY)
late(17, LATE_PLAIN + sized(32769)[2:-1], LATE_PLAIN, "size_above_32768_and_a_late_at_line")
faulty(17, size_above_32768_and_257th_at_line=at_lines(257) + sized(32769)[2:-1])
assert fault(CASES["fault_17_size_above_32768_and_257th_at_line"]) == (17, 1)

# ---- Sheets, with what each run prints.

valid("printed_example", HEAD + ["(duty 2 3 12 12)", "(queue first)", "(at 0 (release 0) (release 1) (release 2) (request 7 3 10))",
                                 "(at 4 (release 0))", "(end 5)"])
valid("plain", PLAIN)
valid("by_worth", HEAD + ["(queue worth)", "(at 0 (request 1 3 3) (request 2 2 6) (request 3 1 3))", "(at 2 (release 0))", "(end 12)"])
valid("first_come", HEAD + ["(queue first)", "(at 0 (request 1 3 3) (request 2 2 6) (request 3 1 3))", "(at 2 (release 0))", "(end 12)"])
valid("empty", ["(sheet 1)", "(queue first)", "(end 0)"])
valid("rows_and_no_ticks", HEAD + ["(queue worth)", "(end 0)"])
valid("no_rows", ["(sheet 1)", "(queue worth)", "(at 0 (request 1 2 1))", "(end 4)"])
valid("nobody", HEAD + ["(queue first)", "(end 9)"])
valid("zeros", ["(sheet 0000000001)", "(duty 00 01 004 0004)", "(queue first)", "(at 0000000001 (release 00))", "(end 03)"])
valid("remarks", ["(sheet 1)", "(remark)", "(duty 0 1 4 4)", "(remark )", "(remark  two (nested (remarks) 99999999999999))", "(queue first)",
                  nested(16), "(at 0 (release 0))", "(remark 'quotes' \"too\" ~)", "(end 2)", "(remark the end)", "(remark)"])
valid("remark_nests_16_deep", HEAD + [nested(16)] + TAIL)
valid("remark_of_bytes_32_to_126", HEAD + ["(remark %s)" % "".join(map(chr, range(32, 127)))] + TAIL)
valid("withdrawn", HEAD + ["(queue first)", "(at 0 (request 5 9 1) (request 6 4 1))", "(at 2 (withdraw 5))", "(at 3 (request 5 2 2) (withdraw 6))", "(end 8)"])
valid("clocks_in_any_order", HEAD + ["(queue first)", "(at 7 (request 3 1 1))", "(at 0 (request 1 2 1))", "(at 3 (release 0))", "(at 0 (withdraw 1))",
                                     "(at 7 (withdraw 3))", "(at 0 (request 1 5 1))", "(at 5 (done 0) (release 1))", "(at 3 (release 0))", "(end 10)"])
valid("one_clock_in_line_order", HEAD + ["(queue worth)", "(at 2 (request 1 1 1))", "(at 2 (withdraw 1))", "(at 1 (release 0))", "(at 2 (withdraw 1))",
                                         "(at 2 (request 1 3 1))", "(at 2 (request 1 4 1))", "(end 5)"])
valid("done_makes_room", ["(sheet 1)", "(duty 0 4 4 4)", "(queue first)", "(at 0 (release 0) (request 9 3 1))", "(at 2 (done 0))", "(at 4 (release 0))", "(end 10)"])
valid("largest_number", ["(sheet 1)", "(duty 0 4096 4096 4096)", "(queue worth)", "(at 0 (request 4294967295 4096 65535))", "(at 1 (release 0))", "(end 4)"])
valid("three_rows_for_long", HEAD + ["(duty 2 3 12 12)", "(queue worth)"]
      + ["(at %d (release %d))" % (clock, row) for clock in range(0, 48) for row, gap in ((0, 4), (1, 6), (2, 12)) if clock % gap == 0]
      + ["(at %d (request %d %d %d))" % (clock, clock, 1 + clock % 5, 3 * clock % 11) for clock in range(0, 48, 5)] + ["(end 48)"])
valid("late_releases", HEAD + ["(duty 2 3 12 12)", "(queue first)", "(at 0 (request 1 20 1))"]
      + ["(at %d (release %d))" % (clock, clock % 3) for clock in range(1, 30)] + ["(end 30)"])
valid("at_lines_256", at_lines(256))
valid("sixteen_rows", sixteen()[:-1] + ["(at 0 %s)" % " ".join("(release %d)" % row for row in range(16)), "(at 1 (request 1 9 9))", "(end 20)"])
valid("insertions", ["(sheet 1)", "(duty 0 3 12 12)", "(duty 0 2 6 6)", "(duty 0 1 4 4)", "(queue first)", "(at 0 (release 2) (release 1) (release 0))", "(end 8)"])
valid("end_10000", HEAD + ["(queue first)", "(at 9999 (release 1))", "(end 10000)"])
valid("size_32767", sized(32767))
valid("size_32768", sized(32768))

# ---- Refused calls, with the clock, number and word of each refusal.


def ran(*at_lines, end=6, queue="first"):
    """Two duties, and these at-lines."""
    return HEAD + ["(queue %s)" % queue] + list(at_lines) + ["(end %d)" % end]


FULL = "(at 0 %s)" % " ".join("(request %d 2 1)" % n for n in range(64))

valid("refused_01_release_no_such_row", ran("(at 0 (release 1) (release 2))", "(at 1 (release 4294967295))"), [(0, 1, "release"), (1, 1, "release")])
valid("refused_01_done_no_such_row", ran("(at 0 (release 1) (done 2))", "(at 1 (done 4294967295))"), [(0, 1, "done"), (1, 1, "done")])
valid("refused_01_no_rows_at_all", ["(sheet 1)", "(queue first)", "(at 0 (release 0) (done 0))", "(end 1)"], [(0, 1, "release"), (0, 1, "done")])
valid("refused_05_release_too_soon", ran("(at 0 (release 0) (release 0))", "(at 3 (release 0))", "(at 4 (release 0))"), [(0, 5, "release"), (3, 5, "release")])
valid("refused_05_release_too_soon_after_done", ran("(at 0 (release 1))", "(at 1 (done 1) (release 1))", "(at 5 (release 1))", "(at 6 (release 1))", end=8),
      [(1, 5, "release"), (5, 5, "release")])
valid("refused_06_done_row_idle", ran("(at 0 (done 0) (release 0) (release 1))", "(at 1 (done 0) (done 1) (done 1))"), [(0, 6, "done"), (1, 6, "done"), (1, 6, "done")])
valid("refused_08_request_units_and_worth", ran("(at 0 (request 1 0 1) (request 1 4097 1) (request 1 4294967295 0) (request 1 1 65536) (request 1 1 4294967295))",
                                                "(at 1 (request 1 4096 65535))"), [(0, 8, "request")] * 5)
valid("refused_09_request_waits_already", ran("(at 0 (request 1 3 1) (request 1 3 1))", "(at 2 (request 1 1 9))", "(at 4 (request 1 1 1))", queue="worth"),
      [(0, 9, "request"), (2, 9, "request")])
valid("refused_10_request_no_place", ran(FULL, "(at 0 (request 64 1 1) (request 65 4096 65535))", "(at 4 (request 64 1 1) (request 65 1 1) (request 66 1 1))"),
      [(0, 10, "request"), (0, 10, "request"), (4, 10, "request")])
valid("refused_11_withdraw_never_waited", ran("(at 0 (request 7 2 1) (withdraw 0) (withdraw 6) (withdraw 4294967295))"), [(0, 11, "withdraw")] * 3)
valid("refused_11_withdraw_once_withdrawn", ran("(at 0 (request 7 9 1))", "(at 2 (withdraw 7) (withdraw 7))"), [(2, 11, "withdraw")])
valid("refused_11_withdraw_once_served", ran("(at 0 (request 7 2 1))", "(at 1 (withdraw 8))", "(at 2 (withdraw 7))"), [(1, 11, "withdraw"), (2, 11, "withdraw")])
valid("refused_11_withdraw_from_none", ran("(at 0 (withdraw 7))", queue="worth"), [(0, 11, "withdraw")])
# Where two refusals fit: with the first one mended, the second is answered.
valid("refused_08_and_waiting", ran("(at 0 (request 5 1 1) (request 5 0 1) (request 5 1 65536) (request 5 1 1))", queue="worth"),
      [(0, 8, "request"), (0, 8, "request"), (0, 9, "request")])
valid("refused_08_and_no_place", ran(FULL, "(at 0 (request 99 0 1) (request 99 1 65536) (request 99 1 1))"),
      [(0, 8, "request"), (0, 8, "request"), (0, 10, "request")])
valid("refused_08_and_waiting_and_no_place", ran(FULL, "(at 0 (request 5 0 1) (request 5 1 1))"), [(0, 8, "request"), (0, 9, "request")])
valid("refused_09_and_no_place", ran(FULL, "(at 0 (request 63 1 1) (request 99 1 1))", queue="worth"), [(0, 9, "request"), (0, 10, "request")])
valid("refused_rows", HEAD + ["(queue first)", "(at 0 (release 2) (done 2) (done 0) (release 0) (release 0) (done 0) (done 0))",
                              "(at 1 (release 0) (release 1))", "(at 4 (release 0) (release 1))", "(at 7 (release 1) (release 4294967295))", "(end 9)"],
      [(0, 1, "release"), (0, 1, "done"), (0, 6, "done"), (0, 5, "release"), (0, 6, "done"), (1, 5, "release"), (4, 5, "release"), (7, 1, "release")])
valid("refused_errands", HEAD + ["(queue worth)", "(at 0 (request 1 0 1) (request 1 4097 1) (request 1 1 65536) (request 1 2 65535) (request 1 1 1))",
                                 "(at 1 (withdraw 2) (withdraw 1) (withdraw 1))", "(at 2 (request 1 4096 0) (request 2 1 1))", "(end 6)"],
      [(0, 8, "request"), (0, 8, "request"), (0, 8, "request"), (0, 9, "request"), (1, 11, "withdraw"), (1, 11, "withdraw")])
valid("refused_while_full", ["(sheet 1)", "(queue worth)", FULL,
                             "(at 0 (request 5 0 1) (request 99 0 1) (request 5 1 1) (request 99 1 1) (withdraw 99))", "(end 3)"],
      [(0, 8, "request"), (0, 8, "request"), (0, 9, "request"), (0, 10, "request"), (0, 11, "withdraw")])
valid("places_taken", ["(sheet 1)", "(queue first)", "(at 0 %s)" % " ".join("(request %d 2 %d)" % (n, n % 5) for n in range(66)),
                       "(at 2 (request 70 1 1) (request 71 1 1))", "(at 3 (withdraw 40) (request 72 1 1) (request 73 1 1))", "(end 8)"],
      [(0, 10, "request"), (0, 10, "request"), (2, 10, "request"), (3, 10, "request")])


# ---- Numbers of every length in each field that is printed.

NUMBERS = [int("1234567890"[:digits]) for digits in range(1, 11)]
valid("numbers_of_errands", ["(sheet 1)", "(queue first)"]
      + ["(at 0 (request %d 1 0))" % n for n in NUMBERS + [0, 9, 10, 65535, 65536, 999999999, 1000000000, 4294967294, 4294967295]] + ["(end 20)"])
valid("numbers_of_units", ["(sheet 1)", "(duty 0 1 1 1)", "(queue worth)"]
      + ["(at %d (release 0) (request %d %d %d) (withdraw %d))" % (clock, clock, units, units, clock - clock % 2)
         for clock, units in enumerate([1, 9, 10, 99, 100, 999, 1000, 4096])] + ["(end 8)"])
valid("units_of_65536", ["(sheet 1)", "(duty 0 1 1 1)", "(queue first)",
                         "(at 0 (release 0) %s)" % " ".join("(request %d 4096 1)" % n for n in range(16)), "(end 1)"])
valid("units_of_65536_withdrawn", ["(sheet 1)", "(duty 0 1 1 1)", "(queue worth)",
                                   "(at 0 (release 0) %s %s)" % (" ".join("(request %d 4096 1)" % n for n in range(16)),
                                                                " ".join("(withdraw %d)" % n for n in range(16))), "(end 1)"])
valid("responses_and_slacks", ["(sheet 1)", "(duty 0 5 4096 4096)", "(duty 1 20 4096 4096)", "(duty 2 400 4096 4096)", "(duty 3 3000 4096 4096)", "(queue first)",
                               "(at 0 (release 3) (request 1 4096 1))", "(end 680)"])
valid("slacks_of_four_digits", ["(sheet 1)", "(duty 0 5 4096 4096)", "(queue first)", "(at 0 (release 0) (request 1 4096 1))", "(end 3)"])
valid("refused_late", HEAD + ["(queue first)"] + ["(at %d (withdraw %d))" % (clock, clock) for clock in (0, 9, 10, 99, 100, 999, 1000, 9999)] + ["(end 10000)"],
      [(clock, 11, "withdraw") for clock in (0, 9, 10, 99, 100, 999, 1000, 9999)])
for line in (9, 10, 99, 100, 999, 1000, 1001, 3000):
    faulty(13, **{"line_%d" % line: ["(sheet 1)"] + [REMARK] * (line - 2) + ["(remark", "(end 0)"]})
faulty(12, byte_32765=text_of(sized(32766, ""))[:-1] + b"\x7f\n")
assert transcript(CASES["fault_12_byte_32765"]).split()[3] == "32765", transcript(CASES["fault_12_byte_32765"])


def main():
    data = os.path.join(FOLDER, "data")
    shutil.rmtree(data, ignore_errors=True)
    os.makedirs(data)
    for name, text in CASES.items():
        with open(os.path.join(data, name + ".sheet"), "wb") as file:
            file.write(text)
        with open(os.path.join(data, name + ".text"), "w") as file:
            file.write(transcript(text))
    with open(os.path.join(data, "names"), "w") as file:
        file.writelines(name + "\n" for name in CASES)
    with open(os.path.join(FOLDER, "stdout"), "w") as file:
        file.writelines(name + " agrees\n" for name in CASES)
        file.write("%d of %d agree\n" % (len(CASES), len(CASES)))


if __name__ == "__main__":
    main()
