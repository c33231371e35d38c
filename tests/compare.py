#!/usr/bin/env python3
"""Runs generated files through the programs and through the second implementation, and compares what they print.

All comes from one seed:
 - Files, good and damaged ones of `shift` and of `inspect`, examples of document 01, and every single fault in one
   small file of each program: both outputs must be equal byte for byte. Where it is known what must be printed, both
   must print that.
 - Pieces: some of the files again, through a pipe that delivers a few bytes at a time.
 - Reorderings: a file of edits in an order that keeps the order of every two edits with a common area. Each edit's
   answer, the findings, the totals and the tally must be those of the first order.
 - The second implementation's outputs tell what was reached: every refusal, every rule, every limit has to be. They
   must also be sound: findings rising, each once among the areas and pairs, the tally fitting, the timetable written as
   it was read.

The exit status is 1 if anything differs, is unsound or was never reached. Files of a difference are kept in a temporary
folder.
"""

import argparse
import collections
import itertools
import multiprocessing
import os
import random
import subprocess
import sys
import tempfile
import time

from damage import damage, sweep
from drafts import (
    END, LINE, MANY, MARKED, REPORTS, TIME, Draft, closures_at, edit_size, edits_in, encode, from_future, lines_at,
    parse, timetable_in, visit_size)
from encode import Damaged, decode
from orders import areas_named, changes_places, reordered
from timetables import make_inspect
from traffic import make_rooms, make_shift

HERE = os.path.dirname(os.path.abspath(__file__))
BUILT = os.path.join(HERE, "..", "reference", "target", "release")

# Reorderings that change the order, of one file.
ORDERS_PER_FILE = 4
# So many must have changed the order (demand 3), unless fewer were asked for.
ORDERS_NEEDED = 200


# --------------------------------------------------------------------------------------------------------- fixed files


def numbers(text):
    return b"".join(map(encode, parse(text)))


with open(os.path.join(HERE, "..", "tools", "sample.txt")) as sample:
    LISTING = numbers(sample.read())
with open(os.path.join(HERE, "..", "tools", "reports.txt")) as sample:
    REPORTED = numbers(sample.read())
LISTING_PRINTS = b"E 1 0 0\nE 2 0 0\nE 3 8 0\nE 4 0 0\nF 1 4 1 0\nF 1 9 7 0\nT 2 1 2\nA 3 1 2 0\n"
OPEN = "2, 1 1 2, 2 2 2, 3, 1, 1 1 2 3 10 10 1, "  # its closures follow
NETWORK = OPEN + "0, "
# Train 7 occupies line 1 from 102 up to 114.
JOURNEY = "2, 1 1 7 1 0 100 102, 3 2 7 1 0 114 115 1 1 12"
JOURNEY_PRINTS = b"E 1 0 0\nE 2 0 0\nT 2 0 0\nA 2 0 2 0\n"
CLOSED_PRINTS = b"E 1 0 0\nE 2 0 0\nF 1 11 7 1\nT 2 0 1\nA 2 0 2 0\n"


def timed(passenger, freight):
    """The network with these least running times, and no closures."""
    return f"2, 1 1 2, 2 2 2, 3, 1, 1 1 2 3 {passenger} {freight} 1, 0, "


def journey(train, run):
    return f"2, 1 1 {train} 1 0 100 102, 3 2 {train} 1 0 {102 + run} 120 1 1 {run}"


def too_fast(train):
    return b"E 1 0 0\nE 2 0 0\nF 1 5 %d 0\nT 2 0 1\nA 2 0 2 0\n" % train


# Trains 4999 and 5000 leave station 1 on line 1, the second when the first is through, both with a run of 12.
BOTH_SORTS = "2, 1 4999 1 0 90 0 100 0 0 2 1 12, 1 5000 2 0 90 0 112 0 0 2 1 12, 0"
# What is printed where rule 5 finds the one or the other.
BOTH_PRINT = {train: b"F 1 5 %d 0\nF 1 7 4999 0\nF 1 7 5000 0\nD 1 1 5 %d 0\nP 1 2 1 7 4999 0\nP 1 2 1 7 5000 0\n"
                     b"T 2 0 3\nJ 1 4999 1 95 100 5\nJ 1 5000 1 95 112 5\nW 1\n" % (train, train) for train in (4999, 5000)}

# Three stations in a row.
ROW = "3, 1 1 2, 2 2 2, 3 2 2, 3, 2, 1 1 2 3 10 10 1, 2 2 3 3 10 10 1, 0, "


def row(mark, relation, more="", count=5):
    """Train 7 runs from station 1 to 3 and is at station 2 for one minute, with this mark; train 8 stands there."""
    return numbers(f"{ROW}{count}, 1 1 7 1 0 100 102, 3 2 7 1 {mark} 114 114 1 1 12, 3 3 7 1 0 126 127 2 2 12, "
                   f"1 2 8 2 0 110 120, 9 2 {relation}, {more}")


def row_prints(met, count=5, refused=0):
    """With the answer to the last edit."""
    answers = [f"E {edit} {refused if edit == count else 0} 0" for edit in range(1, count + 1)]
    found = [] if met else ["F 2 4 1 0"]
    ends = [f"T 4 1 {len(found)}", f"A {count - (refused > 0)} {int(refused > 0)} 4 0"]
    return "".join(line + "\n" for line in answers + found + ends).encode()


def halts(mark, arrival):
    """Train 7 leaves station 1 at 98 and is at station 2, with this mark, when it says; it is expected there at 110."""
    return numbers(f"{ROW}3, 1 7 1 0 98 1 98 1 0 2 1 12, 2 7 1 {mark} {arrival} 0 {arrival} 0 1 1 3 2 12, "
                   "3 7 1 0 140 0 140 0 2 2 0, 0")


def reported(*edits):
    """Train 7 runs from station 1 to station 2; then these edits, the first of which begins at byte 35."""
    return numbers(f"{NETWORK}{2 + len(edits)}, 1 1 7 1 0 100 102, 3 2 7 1 0 114 115 1 1 12, " + ", ".join(edits))


def reported_prints(*answers, found=()):
    """With the answers to these edits, none of which adds or removes a visit."""
    lines = [f"E {edit} {answer} 0" for edit, answer in enumerate((0, 0) + answers, 1)] + [f"F {one}" for one in found]
    accepted = 2 + answers.count(0)
    lines += [f"T 2 0 {len(found)}", f"A {accepted} {2 + len(answers) - accepted} 2 0"]
    return "".join(line + "\n" for line in lines).encode()


# Reports that are answered with 15, 7 and 9, in every order.
REFUSED_SO = {15: "7 1 7 101 100", 7: "8 3 7 100 100", 9: "7 1 8 100 100"}
EVERY_ORDER = [answer for order in itertools.permutations(REFUSED_SO) for answer in order]

# Name, program, bytes, and what they print or none. The letters are document 01's examples, W1 to W7 document 02's.
FIXED = [
    ("the listing", "shift", LISTING, LISTING_PRINTS),
    ("(b)", "shift", b"\x80\0", b"R 2 0\n"),
    ("(b) in a timetable", "inspect", b"\x80\0", b"R 2 0\n"),
    ("no bytes", "shift", b"", b"R 1 0\n"),
    ("no bytes of a timetable", "inspect", b"", b"R 1 0\n"),
    ("no edits", "shift", numbers(NETWORK + "0"), b"T 0 0 0\nA 0 0 0 0\n"),
    ("no visits", "inspect", numbers(NETWORK + "0, 0"), b"T 0 0 0\nW 1\n"),
    ("(c) found", "shift", numbers(NETWORK + "2, 1 1 7 1 0 100 102, 1 1 8 1 0 102 104"),
     b"E 1 0 0\nE 2 0 0\nF 1 2 7 8\nT 2 0 1\nA 2 0 2 0\n"),
    ("(c) not found", "shift", numbers(NETWORK + "2, 1 1 7 1 0 100 102, 1 1 8 1 0 103 104"),
     b"E 1 0 0\nE 2 0 0\nT 2 0 0\nA 2 0 2 0\n"),
    ("(d) found", "inspect", numbers(NETWORK + "2, 1 7 1 0 100 0 102 0 0 2 1 12, 1 8 2 0 100 0 104 0 0 2 1 12, 0"), None),
    ("(d) not found", "inspect", numbers(NETWORK + "2, 1 7 1 0 100 0 102 0 0 2 1 12, 1 8 2 0 100 0 105 0 0 2 1 12, 0"), None),
    ("(e) met", "shift", numbers(NETWORK + "3, 1 1 7 1 0 100 110, 1 1 8 2 0 105 112, 9 1 1 5 2 7 8"),
     b"E 1 0 0\nE 2 0 0\nE 3 0 0\nT 2 1 0\nA 3 0 2 0\n"),
    ("(e) unmet", "shift", numbers(NETWORK + "3, 1 1 7 1 0 100 110, 1 1 8 2 0 106 112, 9 1 1 5 2 7 8"),
     b"E 1 0 0\nE 2 0 0\nE 3 0 0\nF 1 4 1 0\nT 2 1 1\nA 3 0 2 0\n"),
    ("(f) met, and (g)", "shift", numbers(NETWORK + "3, 1 1 7 1 0 100 104, 9 1 3 4 2 7 7, 11 9"),
     b"E 1 0 0\nE 2 0 0\nE 3 0 0\nT 1 1 0\nA 3 0 1 0\n"),
    ("(f) unmet, and (g)", "shift", numbers(NETWORK + "3, 1 1 7 1 0 100 103, 9 1 3 4 2 7 7, 11 9"),
     b"E 1 0 0\nE 2 0 0\nE 3 0 0\nF 1 4 1 0\nT 1 1 1\nA 3 0 1 0\n"),
    ("(h)", "shift", numbers(NETWORK + "3, 9 1 1 5 3 7 8 9, 9 1 1 5 2 7 8, 11 9"),
     b"E 1 0 0\nE 2 0 0\nE 3 0 0\nF 1 4 1 0\nT 0 1 1\nA 3 0 0 0\n"),
    ("(i) found", "inspect", numbers(NETWORK + "2, 1 7 1 0 90 0 100 0 0 2 1 12, 1 8 2 0 90 0 111 0 0 2 1 12, 0"), None),
    ("(i) not found", "inspect", numbers(NETWORK + "2, 1 7 1 0 90 0 100 0 0 2 1 12, 1 8 2 0 90 0 112 0 0 2 1 12, 0"), None),
    ("(j) found", "inspect",
     numbers(NETWORK + "3, 1 7 1 0 90 0 100 0 0 2 1 12, 1 8 2 0 100 0 120 0 2 1 0, 2 8 1 0 70 0 80 0 0 1 1 10, 0"), None),
    ("(j) not found", "inspect",
     numbers(NETWORK + "3, 1 7 1 0 90 0 100 0 0 2 1 12, 1 8 2 0 99 0 120 0 2 1 0, 2 8 1 0 70 0 80 0 0 1 1 10, 0"), None),
    ("(k)", "shift", numbers(NETWORK + "25, " + ", ".join(f"1 1 {train} 1 0 {9 * train} {9 * train}" for train in range(1, 26))),
     b"".join(b"E %d 0 0\n" % edit for edit in range(1, 25)) + b"E 25 12 0\nT 24 0 0\nA 24 1 24 0\n"),
    ("W1 closed up to a departure", "shift", numbers(OPEN + "1, 1 90 102, " + JOURNEY), JOURNEY_PRINTS),
    ("W1 closed a minute longer", "shift", numbers(OPEN + "1, 1 90 103, " + JOURNEY), CLOSED_PRINTS),
    ("W1 closed from departure + run on", "shift", numbers(OPEN + "1, 1 114 120, " + JOURNEY), JOURNEY_PRINTS),
    ("W1 closed a minute earlier", "shift", numbers(OPEN + "1, 1 113 120, " + JOURNEY), CLOSED_PRINTS),
    ("W1 three closures", "shift", numbers(OPEN + "3, 1 90 103, 1 100 120, 1 113 114, " + JOURNEY), CLOSED_PRINTS),
    ("W1 closed inside", "inspect", numbers(OPEN + "1, 1 105 106, 1, 1 7 1 0 90 0 102 0 0 2 1 12, 0"),
     b"F 1 7 7 0\nF 1 11 7 1\nD 1 1 11 7 1\nP 1 2 1 7 7 0\nT 1 0 2\nJ 1 7 1 95 102 5\nW 1\n"),
    ("W1 departed", "inspect", numbers(OPEN + "1, 1 105 106, 1, 1 7 1 0 90 1 102 1 0 2 1 12, 0"),
     b"F 1 7 7 0\nP 1 2 1 7 7 0\nT 1 0 1\nJ 1 7 1 90 102 0\nW 1\n"),
    ("W2 found", "shift", numbers(NETWORK + "3, 1 1 7 1 0 100 102, 1 1 8 1 0 102 104, 7 1 7 100 100"),
     b"E 1 0 0\nE 2 0 0\nE 3 0 0\nF 1 2 7 8\nT 2 0 1\nA 3 0 2 0\n"),
    ("W2 not found", "shift", numbers(NETWORK + "3, 1 1 7 1 0 100 102, 1 1 8 1 0 103 104, 7 1 7 100 100"),
     b"E 1 0 0\nE 2 0 0\nE 3 0 0\nT 2 0 0\nA 3 0 2 0\n"),
    ("W2 departed", "shift", numbers(NETWORK + "4, 1 1 7 1 0 100 102, 1 1 8 1 0 102 104, 7 1 7 100 100, 8 1 7 102 102"),
     b"E 1 0 0\nE 2 0 0\nE 3 0 0\nE 4 0 0\nT 2 0 0\nA 4 0 2 0\n"),
    ("W2 the larger train stands", "shift", numbers(NETWORK + "3, 1 1 8 1 0 100 102, 1 1 7 1 0 102 104, 7 1 8 100 100"),
     b"E 1 0 0\nE 2 0 0\nE 3 0 0\nF 1 2 7 8\nT 2 0 1\nA 3 0 2 0\n"),
    ("W3 4999 above the lesser time", "shift", numbers(timed(10, 13) + journey(4999, 12)), JOURNEY_PRINTS),
    ("W3 5000 below the greater time", "shift", numbers(timed(10, 13) + journey(5000, 12)), too_fast(5000)),
    ("W3 4999 below the greater time", "shift", numbers(timed(13, 10) + journey(4999, 12)), too_fast(4999)),
    ("W3 5000 above the lesser time", "shift", numbers(timed(13, 10) + journey(5000, 12)), JOURNEY_PRINTS),
    ("W3 4999 at its least", "shift", numbers(timed(10, 13) + journey(4999, 10)), JOURNEY_PRINTS),
    ("W3 4999 below its least", "shift", numbers(timed(10, 13) + journey(4999, 9)), too_fast(4999)),
    ("W3 5000 at its least", "shift", numbers(timed(10, 13) + journey(5000, 13)), JOURNEY_PRINTS),
    ("W3 5000 at its lesser least", "shift", numbers(timed(13, 10) + journey(5000, 10)), JOURNEY_PRINTS),
    ("W3 freight is slower", "inspect", numbers(timed(10, 13) + BOTH_SORTS), BOTH_PRINT[5000]),
    ("W3 freight is quicker", "inspect", numbers(timed(13, 10) + BOTH_SORTS), BOTH_PRINT[4999]),
    ("W3 no passenger time", "shift", numbers(timed(0, 241) + journey(7, 12)), b"R 3 13\n"),
    ("W3 no freight time", "inspect", numbers(timed(240, 0) + "0, 0"), b"R 3 15\n"),
    # A line's capacity is where the earlier form has the count of closures.
    ("W3 the listing in the earlier form", "shift", LISTING[:14] + LISTING[15:], b"R 3 15\n"),
    ("W6 a connection at a request stop", "shift", row(1, "1 0 2 7 8"), row_prints(True)),
    ("W6 a connection with a train that passes", "shift", row(0, "1 0 2 7 8"), row_prints(False)),
    ("W6 a connection of a minute", "shift", row(1, "1 1 2 7 8"), row_prints(False)),
    ("W6 a disconnection at a request stop", "shift", row(1, "2 5 2 7 8"), row_prints(False)),
    ("W6 a disconnection with a train that passes", "shift", row(0, "2 5 2 7 8"), row_prints(True)),
    ("W6 a dependency at a request stop", "shift", row(1, "3 0 2 7 7"), row_prints(True)),
    ("W6 a dependency of a train that passes", "shift", row(0, "3 0 2 7 7"), row_prints(False)),
    ("W6 the mark amended", "shift", row(0, "1 0 2 7 8", "6 2 7 1 1 114 114", 6), row_prints(True, 6)),
    ("W6 the mark amended away", "shift", row(1, "1 0 2 7 8", "6 2 7 1 0 114 114", 6), row_prints(False, 6)),
    ("W6 the mark amended after the arrival", "shift", row(0, "1 0 2 7 8", "7 2 7 114 114, 6 2 7 1 1 114 114", 7),
     row_prints(True, 7)),
    ("W6 the mark amended after the departure", "shift",
     row(1, "1 0 2 7 8", "7 2 7 114 114, 8 2 7 114 114, 6 2 7 1 0 114 114", 8), row_prints(False, 8)),
    ("W6 the mark and the track amended", "shift", row(1, "1 0 2 7 8", "7 2 7 114 114, 6 2 7 2 0 114 114", 7),
     row_prints(True, 7, 11)),
    ("W6 reports keep the mark", "shift", row(1, "1 0 2 7 8", "7 2 7 114 114, 8 2 7 114 114", 7), row_prints(True, 7)),
    ("W6 a request stop waits", "inspect", halts(1, 115),
     b"F 1 9 7 0\nF 2 9 7 0\nD 2 2 9 7 0\nP 1 2 1 9 7 0\nT 3 0 2\nJ 1 7 1 98 98 0\nJ 1 7 2 110 115 -5\n"
     b"J 1 7 3 127 140 -13\nJ 2 7 2 120 120 5\nJ 2 7 3 132 140 -8\nJ 3 7 3 145 146 5\nW 1\n"),
    ("W6 a train passes", "inspect", halts(0, 115),
     b"F 1 9 7 0\nF 2 9 7 0\nD 2 2 9 7 0\nP 1 2 1 9 7 0\nT 3 0 2\nJ 1 7 1 98 98 0\nJ 1 7 2 110 110 -5\n"
     b"J 1 7 3 122 140 -18\nJ 2 7 2 120 120 5\nJ 2 7 3 132 140 -8\nJ 3 7 3 145 146 5\nW 1\n"),
    ("W6 a late request stop", "inspect", halts(1, 105),
     b"F 1 9 7 0\nF 2 9 7 0\nD 2 2 9 7 0\nP 1 2 1 9 7 0\nT 3 0 2\nJ 1 7 1 98 98 0\nJ 1 7 2 110 110 5\n"
     b"J 1 7 3 122 140 -18\nJ 2 7 2 110 110 5\nJ 2 7 3 122 140 -18\nJ 3 7 3 145 146 5\nW 1\n"),
    ("W6 a mark of 2", "shift", row(2, "1 0 2 7 8"), b"R 3 39\n"),
    ("W6 a mark of 2 in a timetable", "inspect", halts(2, 115), b"R 3 43\n"),
    # The first arrival is where the newest form has a mark.
    ("W6 the listing without its first mark", "shift", LISTING[:22] + LISTING[23:], b"R 3 22\n"),
    ("W7 the sample", "shift", REPORTED, reported_prints(0, 15, 0, 0)),
    ("W7 reports at their own minute", "shift", reported("7 1 7 100 100", "8 1 7 102 102"), reported_prints(0, 0)),
    ("W7 reports of the next minute", "shift", reported("7 1 7 101 100", "8 1 7 103 102"), reported_prints(15, 15)),
    ("W7 the first and the last minute", "shift",
     reported("7 1 7 2879 2879", "7 1 7 2879 2878", "8 1 7 2879 0", "7 1 7 1 0", "7 1 7 0 0"),
     reported_prints(0, 15, 15, 15, 0)),
    # With the minute as its arrival rule 1 would find it at either station.
    ("W7 the time is kept", "shift", reported("7 1 7 100 130", "7 2 7 114 2879"), reported_prints(0, 0)),
    # With 105 as its arrival rule 1 would find it, with 103 as its departure rule 9.
    ("W7 what has occurred stays", "shift",
     reported("7 1 7 100 100", "7 1 7 105 104", "8 1 7 102 103", "8 1 7 103 102"), reported_prints(0, 15, 0, 15)),
    ("W7 before 7", "shift", reported("7 3 7 100 99", "8 16 7 100 99", "7 3 7 100 100", "8 16 7 100 100"),
     reported_prints(15, 15, 7, 7)),
    ("W7 before 9", "shift", reported("7 1 8 100 99", "8 2 8 100 99", "7 1 8 100 100", "8 2 8 100 100"),
     reported_prints(15, 15, 9, 9)),
    ("W7 15, 7 and 9 in every order", "shift", reported(*(REFUSED_SO[answer] for answer in EVERY_ORDER)),
     reported_prints(*EVERY_ORDER)),
    ("W7 a clock that goes back", "shift",
     reported("7 1 7 100 2879", "8 1 7 102 102", "7 2 7 115 114", "7 2 7 114 114", "8 2 7 50 49", "7 2 7 60 60"),
     reported_prints(0, 0, 15, 0, 15, 0)),
    # Its departure is now 2879, to which the far arrival does not fit.
    ("W7 amendments are not judged", "shift", reported("7 1 7 100 100", "6 1 7 1 0 100 2879"),
     reported_prints(0, 0, found=["1 9 7 0"])),
    ("W7 a minute of 2880", "shift", reported("7 1 7 100 2880"), b"R 3 39\n"),
    ("W7 a time of 2880", "shift", reported("8 1 7 2880 2880"), b"R 3 38\n"),
    ("W7 3 in a report from the future", "shift", reported("7 17 7 101 100"), b"R 3 36\n"),
    ("W7 3 before a report from the future", "shift", reported("11 0", "7 1 7 101 100"), b"R 3 36\n"),
    ("W7 3 behind a report from the future", "shift", reported("7 1 7 101 100", "11 0"), b"R 3 41\n"),
    ("W7 14 of the network", "shift", numbers(OPEN + "1, 1 5 5, 1, 7 1 7 101 100"), b"R 14 17\n"),
    ("W7 4 of the network", "shift", numbers(OPEN + "1, 2 5 6, 1, 7 1 7 101 100"), b"R 4 17\n"),
    ("W7 a report without its minute", "shift", reported("7 1 7 100"), b"R 1 39\n"),
]

# The same, and how many bytes come at a time; the last ones are too long for a file by a byte, and as long as may be.
PIECES = [(*fixed, 1) for fixed in FIXED if fixed[3] is not None] + [
    (f"{length} zeros of {program}", program, bytes(length), prints, 1000)
    for program in ("shift", "inspect") for length, prints in ((16385, b"R 5 0\n"), (16384, b"R 3 0\n"))
]

# Single faults at every number of one file of each program.
SWEEP = list(sweep())


# ---------------------------------------------------------------------------------------------------------------- runs


def run(program, data):
    """What a program prints, and a word about how it ended if it ended badly."""
    try:
        done = subprocess.run([program], input=data, stdout=subprocess.PIPE, stderr=subprocess.DEVNULL, timeout=OPTIONS.timeout)
    except subprocess.TimeoutExpired:
        return b"", f"no end within {OPTIONS.timeout} seconds"
    # A death by a signal is no ending; nor is a panic.
    ended = f"exit status {done.returncode}" if done.returncode < 0 or done.returncode == 101 else ""
    return done.stdout, ended


def run_in_pieces(program, data, size):
    """The same, the input coming so many bytes at a time."""
    with subprocess.Popen([program], bufsize=0, stdin=subprocess.PIPE, stdout=subprocess.PIPE, stderr=subprocess.DEVNULL) as begun:
        try:
            for at in range(0, len(data), size):
                begun.stdin.write(data[at:at + size])
                time.sleep(0.002)
        except BrokenPipeError:
            pass  # it has read as much as it needs
        output, _ = begun.communicate(timeout=OPTIONS.timeout)
    return output


def first_difference(one, other):
    """The first differing line of two outputs, as (number from 1, line, line)."""
    ones, others = one.split(b"\n"), other.split(b"\n")
    for count in range(max(len(ones), len(others))):
        pair = [lines[count].decode(errors="replace") if count < len(lines) else "(ends)" for lines in (ones, others)]
        if pair[0] != pair[1]:
            return count + 1, pair[0], pair[1]
    return 0, "", ""


def differences(name, wanted):
    """Compares outputs by pairs: wanted lists (what, output, what, output); gives a text for each pair that differs."""
    found = []
    for what, one, other_what, other in wanted:
        if one != other:
            line, mine, yours = first_difference(one, other)
            found.append(f"{name}: output line {line} differs\n    {what}: {mine}\n    {other_what}: {yours}")
    return found


def save(name, data):
    os.makedirs(OPTIONS.save, exist_ok=True)
    path = os.path.join(OPTIONS.save, name.replace(" ", "-").replace("(", "").replace(")", "").replace(",", ""))
    with open(path, "wb") as file:
        file.write(data)
    return path


def compare(name, program, data, expected, edits=None):
    """One file through both programs. Gives (texts of differences, what was reached)."""
    mine, ended = run(OPTIONS.programs[program], data)
    theirs, their_end = run(OPTIONS.references[program], data)
    wanted = [("program", mine, "reference", theirs)]
    if expected is not None:
        wanted.append(("reference", theirs, "must print", expected))
        wanted.append(("program", mine, "must print", expected))
    texts = differences(name, wanted)
    texts += [f"{name}: reference: {fault}" for fault in unsound(program, theirs)]
    texts += [f"{name}: {who}: {how}" for who, how in (("program", ended), ("reference", their_end)) if how]
    if texts:
        texts.append(f"    the file: {save(name, data)}")
    return texts, reached(program, data, theirs, edits)


def unsound(program, output):
    """What document 01 says of any output, whatever was read: a check of the second implementation itself."""
    rows = collections.defaultdict(list)
    for line in output.decode().splitlines():
        letter, *rest = line.split()
        rows[letter].append(list(map(int, rest)))
    if rows["R"]:
        return [] if output.count(b"\n") == 1 else ["prints more than the refusal"]
    faults = []
    (visits, _, findings), = rows["T"]
    if any(one >= other for one, other in zip(rows["F"], rows["F"][1:])) or len(rows["F"]) != findings:
        faults.append("findings do not rise, or are miscounted")
    if program == "shift":
        (accepted, refused, added, removed), = rows["A"]
        if added - removed != visits or accepted + refused != len(rows["E"]):
            faults.append("the tally does not fit")
    else:
        parts = [row[1:] for row in rows["D"]] + [row[2:] for row in rows["P"]]
        if sorted(parts) != rows["F"]:
            faults.append("the areas' and pairs' findings are not each central finding once")
        if any(row[3] not in RULES_ACROSS for row in rows["P"]):
            faults.append("a pair's list has a rule of one station")
        if rows["W"] != [[1]]:
            faults.append("a timetable is written otherwise than it was read")
    return faults


# ------------------------------------------------------------------------------------------------------------- reached

RULES_ACROSS = range(7, 11)
# What can be refused to each kind of edit, by number; 0 is an accepted one.
ANSWERS = {
    1: (0, 7, 8, 12), 2: (0, 7, 8, 9, 10, 12), 3: (0, 7, 8, 9, 10, 12), 4: (0, 7, 9, 10), 5: (0, 7, 9, 10), 6: (0, 7, 9, 11),
    7: (0, 7, 9, 15), 8: (0, 7, 9, 15), 9: (0, 7, 8, 12), 10: (0, 7, 9), 11: (0,),
}
# How a closure is refused.
CLOSURES = (
    ["R 14", "R 4 of a closure", "R 1 among closures", "R 2 among closures", "R 3 at the count of closures"]
    + [f"R 3 at the {field} of a closure" for field in ("line", "start", "end")]
    + [f"R 3 by the order of closures, at the {field}" for field in ("line", "start")]
)
# The sorts of trains, in the order of a line's two least running times.
SORTS = ("passenger", "freight")
# The kinds of relations.
KINDS = ("connection", "disconnection", "dependency")
# What else a report from the future could be refused with.
FUTURE = ("with its visit", "without its visit", "at an unlisted station")
# What reorderings reach, if so many are asked for.
PASSED = "shift a report from the future changes places with an edit of its area"
# All that a run has to reach. Rules 7 and 8 never occur in `shift`: from an empty timetable every link stays answered.
TO_REACH = (
    [f"shift R {refusal}" for refusal in range(1, 6)]
    + [f"{program} {refused}" for program in ("shift", "inspect") for refused in CLOSURES]
    + [f"{program} R 3 at the {sort} time" for program in ("shift", "inspect") for sort in SORTS]
    + ["shift 32 closures", "inspect 32 closures"]
    + [f"shift E {refusal}" for refusal in (0, 7, 8, 9, 10, 11, 12, 15)]
    + [f"shift edit {kind} answer {refusal}" for kind in ANSWERS for refusal in ANSWERS[kind]]
    + [f"shift edit {kind} with mark {mark} accepted" for kind in MARKED for mark in (0, 1)]
    + ["shift R 3 at a stop mark", "inspect R 3 at a stop mark"]
    + [f"shift edit {kind} answer 15 {where}" for kind in REPORTS for where in FUTURE]
    + [f"shift edit {kind} accepted at its own minute" for kind in REPORTS]
    + [f"shift R 3 at the minute of edit {kind}" for kind in REPORTS]
    + [f"shift R 3 {where} a report from the future" for where in ("before", "in", "behind")]
    + [f"shift {one} before {other}" for one, other in ((15, 7), (7, 15), (15, 9), (9, 15))]
    + [f"shift a report {how} by a clock that went back" for how in ("accepted", "refused")]
    + [PASSED]
    + [f"shift F rule {rule}" for rule in (1, 2, 3, 4, 5, 6, 9, 10, 11)]
    + ["shift 2 or more removed", "shift 16 removed", "shift 1000 edits"]
    + [f"inspect R {refusal}" for refusal in (1, 2, 3, 4, 5, 7, 12)]
    + [f"inspect {letter} rule {rule}" for letter in "FD" for rule in range(1, 12)]
    + [f"inspect P rule {rule}" for rule in RULES_ACROSS]
    + ["inspect the smaller train stands", "inspect the larger train stands"]
    + [f"inspect a {sort} train {how} between the times" for sort in SORTS for how in ("found", "not found")]
    + ["inspect a request stop", "inspect a mark on a visit that stops anyway"]
    + [f"inspect a {kind} {how} at a request stop" for kind in KINDS for how in ("met", "unmet")]
    + [f"inspect a projection {how} a request stop" for how in ("waits at", "leaves at once from")]
    + ["inspect 16 rows", "inspect early", "inspect late", "inspect beyond the last minute", "inspect written again"]
    + ["inspect 384 visits", "inspect 96 relations"]
)


def numbers_before(data, place):
    """The numbers that end before a place of a file."""
    while True:
        try:
            return decode(data[:place])
        except Damaged:  # a number that doesn't end there
            place -= 1


def closure_mark(data, refusal, place):
    """How a refusal at a place of a file is one of its closures, or none."""
    before = numbers_before(data, place)
    count_at = closures_at(before)
    if count_at is None or len(before) < count_at:
        return None
    field, bounds = "count", MANY
    if len(before) > count_at:
        rank, part = divmod(len(before) - count_at - 1, 3)
        if rank >= before[count_at]:
            return None
        field, bounds = (("line", LINE), ("start", TIME), ("end", END))[part]
    if refusal in (1, 2):
        return f"R {refusal} among closures"
    if refusal == 4:
        return "R 4 of a closure"
    if refusal != 3:
        return None
    value = next(value for end in range(1, 4) for value in numbers_before(data[place:], end))
    if bounds[0] <= value <= bounds[1]:
        return f"R 3 by the order of closures, at the {field}"
    return "R 3 at the count of closures" if field == "count" else f"R 3 at the {field} of a closure"


def time_mark(data, refusal, place):
    """Which of a line's least times is refused with 3 at a place of a file, or none."""
    before = numbers_before(data, place)
    count_at = lines_at(before)
    if refusal != 3 or count_at is None or len(before) <= count_at:
        return None
    rank, field = divmod(len(before) - count_at - 1, 7)
    return f"R 3 at the {SORTS[field - 4]} time" if rank < before[count_at] and field in (4, 5) else None


def field_mark(program, data, refusal, place):
    """Which stop mark or report's minute is refused with 3 at a place of a file, or none."""
    before = numbers_before(data, place)
    at = closures_at(before)
    if refusal != 3 or at is None or at >= len(before):
        return None
    at += 3 * before[at] + 2  # the first entry behind the count of edits or visits
    while at < len(before):
        edit = before[at] if program == "shift" else None
        if at + (3 if edit is None else 4) == len(before):
            if edit is None or edit in MARKED:
                return "R 3 at a stop mark"
            if edit in REPORTS:
                return f"R 3 at the minute of edit {edit}"
        try:
            at += visit_size(before, at) if edit is None else edit_size(before, at)
        except IndexError:
            return None
    return None


def beside_future(data, refusal, place):
    """Where a number of an edit refused with 3 stands to reports from the future: their 15 is never a file's."""
    fault, marks = len(numbers_before(data, place)), set()
    try:
        edits = edits_in(decode(data)) if refusal == 3 else []
    except Damaged:
        return marks
    # A fault in a relation may be one of its count, which leaves open what stands behind it.
    if any(at <= fault < at + len(edit) and edit[0] not in (9, 10) for at, edit in edits):
        for at, edit in edits:
            if from_future(edit):
                where = "before" if fault < at else "in" if fault < at + len(edit) else "behind"
                marks.add(f"R 3 {where} a report from the future")
    return marks


def reports(numbers, answers):
    """What the reports of a file met, by the answers to its edits."""
    marks, there, latest = set(), set(), 0
    stations = numbers[1:1 + 3 * numbers[0]:3]
    for (_, edit), answer in zip(edits_in(numbers), answers, strict=True):
        kind = edit[0]
        if kind in REPORTS:
            key, time, minute = tuple(edit[1:3]), *edit[3:]
            if answer == 15:
                where = FUTURE[0] if key in there else FUTURE[1] if key[0] in stations else FUTURE[2]
                marks.add(f"edit {kind} answer 15 {where}")
                if time <= latest:
                    marks.add("a report refused by a clock that went back")
            elif answer == 0 and time == minute:
                marks.add(f"edit {kind} accepted at its own minute")
            if answer == 0 and minute < latest:
                marks.add("a report accepted by a clock that went back")
            latest = max(latest, minute)
        elif answer == 0 and kind in (1, 2, 3):
            there.add(tuple(edit[1:3]))
        elif answer == 0 and kind in (4, 5):
            there.discard(tuple(edit[1:3]))
        elif kind == 11:
            there = {key for key in there if key[1] != edit[1]}
    for one, other in ((15, 7), (7, 15), (15, 9), (9, 15)):
        if one in answers and other in answers[answers.index(one):]:
            marks.add(f"{one} before {other}")
    return marks


def request_stops(visits, relations, unmet):
    """What marks did: `unmet` has the relations that rule 4 finds, by station and rank."""
    marks = set()
    for visit in visits.values():
        if visit.mark:
            marks.add("a request stop" if visit.on_request else "a mark on a visit that stops anyway")
    for station, ranked in relations.items():
        for rank, (kind, trains) in enumerate(ranked, 1):
            there = [visits.get((station, train)) for train in trains]
            if all(there) and any(visit.on_request for visit in there):
                marks.add(f"a {KINDS[kind - 1]} {'unmet' if (station, rank) in unmet else 'met'} at a request stop")
    return marks


def projected(visit, arrival, departure):
    """What a row of a projection says of a request stop, or none."""
    if not visit.on_request or visit.departed:
        return None
    return f"a projection {'waits at' if departure > arrival else 'leaves at once from'} a request stop"


def between_times(numbers, visits, fast):
    """What rule 5 says of runs that only one of their line's two least times finds; `fast` is all that it finds."""
    lines = range(lines_at(numbers) + 1, closures_at(numbers), 7)
    times = {numbers[at]: numbers[at + 4:at + 6] for at in lines}
    marks = set()
    for key, visit in visits.items():
        link = visit.after
        if link and min(times[link[1]]) <= link[2] < max(times[link[1]]):
            judge = max if key in fast else min  # a train that is found goes by the greater time
            sort = SORTS[times[link[1]].index(judge(times[link[1]]))]
            marks.add(f"a {sort} train {'found' if key in fast else 'not found'} between the times")
    return marks


def reached(program, data, output, edits):
    """What a file reached, by the reference's output; each counts once in a file."""
    marks = set()
    rows = collections.Counter()
    visits, relations, fast, unmet, answers = {}, {}, set(), set(), []
    if program == "inspect" and not output.startswith(b"R"):
        visits, relations = timetable_in(decode(data))
    for line in output.decode().splitlines():
        letter, *rest = line.split()
        rest = list(map(int, rest))
        if letter == "R":
            marks.add(f"R {rest[0]}")
            marks.add(closure_mark(data, *rest))
            marks.add(time_mark(data, *rest))
            marks.add(field_mark(program, data, *rest))
            if program == "shift":
                marks |= beside_future(data, *rest)
        elif letter == "E":
            marks.add(f"E {rest[1]}")
            answers.append(rest[1])
            if edits is not None:
                edit = edits[rest[0] - 1]
                marks.add(f"edit {edit[0]} answer {rest[1]}")
                if edit[0] in MARKED and rest[1] == 0:
                    marks.add(f"edit {edit[0]} with mark {edit[4]} accepted")
            if rest[2] >= 2:
                marks.add("2 or more removed")
            if rest[2] == 16:
                marks.add("16 removed")
            if rest[0] == 1000:
                marks.add("1000 edits")
        elif letter in "FDP":
            marks.add(f"{letter} rule {rest[-3]}")
            if letter == "F" and rest[1] == 2 and program == "inspect":
                for train, which in zip(rest[2:], ("smaller", "larger")):
                    visit = visits[rest[0], train]
                    if visit.arrived and not visit.departed:
                        marks.add(f"the {which} train stands")
            if letter == "F" and rest[1] == 4:
                unmet.add((rest[0], rest[2]))
            if letter == "F" and rest[1] == 5:
                fast.add((rest[0], rest[2]))
        elif letter == "T":
            numbers = decode(data)
            if numbers[closures_at(numbers)] == 32:
                marks.add("32 closures")
            if rest[0] == 384:
                marks.add("384 visits")
            if rest[1] == 96:
                marks.add("96 relations")
        elif letter == "J":
            rows[tuple(rest[:2])] += 1
            marks.add(projected(visits[rest[2], rest[1]], rest[3], rest[4]))
            if rest[5]:
                marks.add("late" if rest[5] > 0 else "early")
            if rest[3] > 2879:
                marks.add("beyond the last minute")
        elif letter == "W" and rest == [1]:
            marks.add("written again")
    if 16 in rows.values():
        marks.add("16 rows")
    if visits:
        marks |= between_times(decode(data), visits, fast) | request_stops(visits, relations, unmet)
    if answers:
        marks |= reports(decode(data), answers)
    return {f"{program} {mark}" for mark in marks if mark}


# ---------------------------------------------------------------------------------------------------------------- jobs


def do_fixed(index):
    name, program, data, expected = FIXED[index]
    return ("fixed files", *compare(name, program, data, expected))


def do_pieces(index):
    name, program, data, expected, size = PIECES[index]
    output = run_in_pieces(OPTIONS.programs[program], data, size)
    return "files in pieces", differences(f"{name} in pieces", [("program", output, "must print", expected)]), set()


def do_sweep(index):
    program, what, data, expected = SWEEP[index]
    return ("files of the sweep", *compare(f"{program} sweep {what}", program, data, expected))


def do_file(index):
    """`shift` and `inspect` take turns, and so do good and damaged files."""
    r = random.Random(f"{OPTIONS.seed} file {index}")
    program, damaged, rank = "shift" if index % 2 == 0 else "inspect", index // 2 % 2 == 1, index // 4
    sort = r.randrange(1000) if damaged else rank
    good = make_shift(r, sort) if program == "shift" else make_inspect(r, sort)
    name = f"{program} seed {OPTIONS.seed} file {index}"
    if not damaged:
        return (f"good files of {program}", *compare(name, program, good.draft.bytes(), None, getattr(good, "edits", None)))
    data, expected = damage(r, good, rank)
    return (f"damaged files of {program}", *compare(name + " damaged", program, data, expected))


def do_orders(index):
    """One file of edits, and reorderings of it."""
    r = random.Random(f"{OPTIONS.seed} order {index}")
    good = make_rooms(r)
    name = f"shift seed {OPTIONS.seed} order {index}"
    data = good.draft.bytes()
    texts, marks = compare(name, "shift", data, None, good.edits)
    first, _ = run(OPTIONS.programs["shift"], data)
    lines = first.decode(errors="replace").splitlines()
    answers = [line.split()[2:] for line in lines if line.startswith("E ")]
    if texts or len(answers) != len(good.edits):
        return "first orders", texts, marks, 0
    named = [areas_named(good.network, edit, int(answer[0])) for edit, answer in zip(good.edits, answers)]
    tail = [line for line in lines if not line.startswith("E ")]
    seen = {tuple(range(len(named)))}
    for attempt in range(3 * ORDERS_PER_FILE):
        if len(seen) > ORDERS_PER_FILE:
            break
        order = tuple(reordered(r, named))
        draft = Draft()
        draft.put_network(good.network)
        draft.put_edits([good.edits[at] for at in order])
        if order in seen or draft.bytes() == data:
            continue
        seen.add(order)
        for at, edit in enumerate(good.edits):
            if answers[at][0] == "15" and changes_places(order, at, named, good.network.stations.get(edit[1])):
                marks.add(PASSED)
        # The edit that stood at a position has the same answer where it stands now; all else is as it was.
        expected = [" ".join(["E", str(rank), *answers[at]]) for rank, at in enumerate(order, 1)] + tail
        expected = "".join(line + "\n" for line in expected).encode()
        output, ended = run(OPTIONS.programs["shift"], draft.bytes())
        found = differences(f"{name} reordering {attempt}", [("reordered", output, "as in the first order", expected)])
        found += [f"{name} reordering {attempt}: program: {ended}"] if ended else []
        if found:
            found.append(f"    the first order: {save(name, data)}")
            found.append(f"    the reordering: {save(f'{name} reordering {attempt}', draft.bytes())}")
        texts += found
    return "first orders", texts, marks, len(seen) - 1


def job(one):
    what, index = one
    return {"fixed": do_fixed, "pieces": do_pieces, "sweep": do_sweep, "file": do_file, "orders": do_orders}[what](index)


def begin(options):
    global OPTIONS
    OPTIONS = options


def main():
    parser = argparse.ArgumentParser(description=__doc__, formatter_class=argparse.RawDescriptionHelpFormatter)
    parser.add_argument("--shift", required=True, help="the program `shift`")
    parser.add_argument("--inspect", required=True, help="the program `inspect`")
    parser.add_argument("--reference-shift", default=os.path.join(BUILT, "shift"), help="the second implementation's")
    parser.add_argument("--reference-inspect", default=os.path.join(BUILT, "inspect"), help="the second implementation's")
    parser.add_argument("--seed", type=int, default=1, help="default 1")
    parser.add_argument("--files", type=int, default=2400, help="generated files, default 2400; none: only reorderings")
    parser.add_argument("--reorderings", type=int, default=400, help="reorderings that change the order, about; default 400")
    parser.add_argument("--jobs", type=int, default=2, help="processes, default 2")
    parser.add_argument("--stop", action="store_true", help="stop at the first difference")
    parser.add_argument("--timeout", type=float, default=60, help="seconds for one run of a program, default 60")
    options = parser.parse_args()
    options.programs = {"shift": os.path.abspath(options.shift), "inspect": os.path.abspath(options.inspect)}
    options.references = {
        "shift": os.path.abspath(options.reference_shift), "inspect": os.path.abspath(options.reference_inspect)}
    for path in [*options.programs.values(), *options.references.values()]:
        if not os.access(path, os.X_OK):
            parser.error(f"{path} is no program")
    options.save = os.path.join(tempfile.gettempdir(), f"compare-{os.getpid()}")

    began = time.time()
    jobs = [("fixed", index) for index in range(len(FIXED))] + [("pieces", index) for index in range(len(PIECES))]
    jobs += [("sweep", index) for index in range(len(SWEEP))]
    jobs = jobs if options.files else []
    jobs += [("file", index) for index in range(options.files)]
    jobs += [("orders", index) for index in range(-(-options.reorderings // ORDERS_PER_FILE))]
    # Mixed, so that a difference of whatever sort shows early.
    random.Random(options.seed).shuffle(jobs)
    counts, marks, orders, wrong = collections.Counter(), collections.Counter(), 0, 0
    with multiprocessing.Pool(options.jobs, begin, (options,)) as pool:
        for sort, texts, reached_here, *changed in pool.imap(job, jobs, chunksize=8):
            counts[sort] += 1
            marks.update(reached_here)
            orders += sum(changed)
            if texts:
                wrong += 1
                print("DIFFERENCE", *texts, sep="\n  ", flush=True)
                if options.stop:
                    return 1

    print(f"seed {options.seed}, {time.time() - began:.0f} seconds")
    for sort, count in sorted(counts.items()):
        print(f"{count:6} {sort}")
    print(f"{orders:6} reorderings that change the order")
    print("Reached, in so many files:")
    for mark in TO_REACH:
        print(f"{marks[mark]:6} {mark}")
    for mark in sorted(set(marks) - set(TO_REACH)):
        print(f"{marks[mark]:6} {mark} (not asked for)")
    few = options.reorderings < ORDERS_NEEDED
    missed = [mark for mark in TO_REACH if not marks[mark] and not (few and mark == PASSED)]
    if missed:
        print("NEVER REACHED:", ", ".join(missed))
    too_few = orders < min(ORDERS_NEEDED, options.reorderings)
    if too_few:
        print(f"TOO FEW REORDERINGS: {orders}")
    print(f"{sum(counts.values())} files and {orders} reorderings compared, {wrong} with a difference")
    return 1 if wrong or missed or too_few else 0


if __name__ == "__main__":
    sys.exit(main())
