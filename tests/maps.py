#!/usr/bin/env python3
"""Draws the running map of tools/day.txt from what a program `inspect` prints, and looks for each entry in it.

  tests/maps.py INSPECT
"""

import subprocess
import sys
import xml.etree.ElementTree as tree
from collections import Counter
from pathlib import Path

from drafts import closures_at, parse, timetable_in

TOOLS = Path(__file__).resolve().parent.parent / "tools"
SVG = "{http://www.w3.org/2000/svg}"


def encoded(name):
    text = (TOOLS / name).read_bytes()
    return subprocess.run([sys.executable, TOOLS / "encode.py"], input=text, stdout=subprocess.PIPE, check=True).stdout


def closed_lines(name):
    """The line of each closure of a sample."""
    numbers = parse((TOOLS / name).read_text())
    at = closures_at(numbers)
    return Counter(str(line) for line in numbers[at + 1:at + 1 + 3 * numbers[at]:3])


def marked(name):
    """The station and train of each visit of a sample that has a stop mark."""
    visits, _ = timetable_in(parse((TOOLS / name).read_text()))
    return {(str(station), str(train)) for (station, train), visit in visits.items() if visit.mark}


def drawn(name, said):
    """The drawing of a sample with these findings: exit status, picture, complaint."""
    command = [sys.executable, TOOLS / "map.py", TOOLS / name, "--findings", "-"]
    run = subprocess.run(command, input=said, capture_output=True, text=True, check=False)
    return run.returncode, run.stdout, run.stderr


def faults(inspect):
    """What is wrong with the drawings, in words."""
    said = subprocess.run([inspect], input=encoded("day.txt"), stdout=subprocess.PIPE, check=True).stdout.decode()
    rows = [line.split() for line in said.splitlines()]
    status, picture, complaint = drawn("day.txt", said)
    if status:
        yield f"tools/day.txt isn't drawn: {complaint}"
        return
    root = tree.fromstring(picture)
    told = [title.text.partition(":")[0].replace(",", "").split() for title in root.iter(SVG + "title")]
    marks = Counter((words[4], words[1]) for words in told if words[0] == "Rule")
    if marks != Counter((row[1], row[2]) for row in rows if row[0] == "F"):
        yield f"the marks, by station and rule, aren't the findings: {marks}"
    # A projection starts from every visit, so the J lines name them all.
    visits = {(row[1], row[2]) for row in rows if row[0] == "J"}
    if {(words[4], words[1]) for words in told if words[0] == "Train" and words[2] == "at"} != visits:
        yield "the visits drawn aren't those of the timetable"
    requests = {(words[4], words[1]) for words in told if words[0] == "Train" and "request" in words}
    rings = [one for one in root.iter(SVG + "circle") if (one.get("fill"), one.get("r")) == ("white", "3.6")]
    # One ring for each, and one that tells what it means.
    if not requests or requests != marked("day.txt") or len(rings) != len(requests) + 1:
        yield f"the request stops drawn aren't those of the timetable: {requests}"
    words = {text.text for text in root.iter(SVG + "text")}
    if "request stop" not in words:
        yield "the request stops aren't explained"
    if not {train for _, train in visits} <= words:
        yield "a train has no number"
    closed = closed_lines("day.txt")
    if closed != Counter(words[1] for words in told if words[2] == "closed"):
        yield "the closures drawn aren't those of the network"
    if not closed or not {f"line {line} closed" for line in closed} <= words:
        yield "a closure has no line"
    bad = [("day.txt", "R 3 17\n", "with 3 at byte 17"), ("timetable.txt", said, "another file")]
    for name, given, wanted in bad:
        status, picture, complaint = drawn(name, given)
        if status != 1 or picture or wanted not in complaint:
            yield f"not refused as {wanted!r}: {complaint}"


def main():
    (inspect,) = sys.argv[1:]
    found = list(faults(inspect))
    print("running map:", "; ".join(found) or "every entry drawn")
    return 1 if found else 0


if __name__ == "__main__":
    sys.exit(main())
