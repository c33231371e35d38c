"""Every function of the Python wrapper on the railway of two rooms: what one does another undoes or shares out."""

import os
import sys

sys.path.insert(0, os.path.join(os.path.dirname(os.path.abspath(__file__)), "..", "..", "bindings", "python"))
import strakewhip as library

NETWORK = bytes([2, 1, 1, 2, 2, 2, 1, 3, 1, 1, 1, 2, 3, 10, 10, 1, 0])
EDITS = [bytes([1, 1, 7, 1, 0, 100, 102]), bytes([1, 2, 9, 1, 0, 110, 111]), bytes([3, 2, 7, 1, 0, 115, 115, 1, 1, 12]),
         bytes([9, 1, 1, 5, 2, 7, 9]), bytes([11, 9])]
# The same in the earlier form, without marks; none of them is a report.
EARLY = [edit[:4] + edit[5:] if edit[0] in (1, 3) else edit for edit in EDITS]
# Three stations in a row: train 7 is at the middle one for a minute, where train 8 stands; a connection of the two.
ROW = bytes([3, 1, 1, 2, 2, 2, 2, 3, 2, 2, 3, 2, 1, 1, 2, 3, 10, 10, 1, 2, 2, 3, 3, 10, 10, 1, 0])
JOURNEY = [bytes([1, 1, 7, 1, 0, 100, 102]), bytes([3, 2, 7, 1, 1, 114, 114, 1, 1, 12]),
           bytes([3, 3, 7, 1, 0, 126, 127, 2, 2, 12]), bytes([1, 2, 8, 2, 0, 110, 120]), bytes([9, 2, 1, 0, 2, 7, 8])]


def refused(number, file, place, call, *arguments):
    """The call is refused with this number, of this file at this place."""
    try:
        call(*arguments)
    except library.Refused as found:
        assert (found.refusal, found.file, found.place) == (number, file, place), found
        return
    raise AssertionError(f"{call.__name__} is not refused")


def reports(division, sheet):
    """Reports of train 7, which is at station 1: what they leave, and those from the future."""
    bad, worse = b"\1" * library.SHEET, b"\1" * library.DIVISION
    for kind in (7, 8):
        # At its own minute and at a later one a report is taken, and leaves the same bytes.
        taken = [bytes([kind, 1, 7, 101, minute]) for minute in (101, 127)]
        sheets = [bytearray(sheet) for _ in taken]
        assert [library.edit_sheet(NETWORK, edit, own) for edit, own in zip(taken, sheets)] == [0, 0]
        assert sheets[0] == sheets[1] != sheet
        # From the future it is refused before a sheet, its station or its visit is looked at.
        for station, train in ((1, 7), (1, 8), (3, 7)):
            future = bytes([kind, station, train, 101, 100])
            own, rooms = bytearray(bad), bytearray(worse)
            refused(15, 0, 0, library.names, NETWORK, future)
            refused(15, 0, 0, library.edit, NETWORK, future, rooms)
            refused(15, 0, 0, library.edit_sheet, NETWORK, future, own)
            refused(15, 0, 0, library.recheck, NETWORK, own, future, [(2, 1, 1, 1), (1, 1, 1, 1)])
            refused(15, 0, 0, library.recheck_area, NETWORK, own, future, 1, [])
            refused(3, 0, 0, library.recheck_area, NETWORK, own, future, 0, [])
            assert own == bad and rooms == worse
        # A list runs on, and the tally counts it; the earlier form has no minute, and takes the report.
        future, rooms, others = bytes([kind, 1, 7, 101, 100]), bytearray(division), bytearray(division)
        assert library.run(NETWORK, bytes([2]) + future + taken[0], rooms) == [(15, 0), (0, 0)]
        assert library.run_early(NETWORK, bytes([1]) + future[:4], others) == [(0, 0)] and others == rooms
        assert library.raise_tally(future, 15, 0, [1, 2, 3, 4]) == [1, 3, 3, 4]
        # The minute is missing, one number too many, and 2880.
        refused(1, 2, 4, library.names, NETWORK, future[:4])
        refused(1, 2, 5, library.run_early, NETWORK, bytes([1]) + future, others)
        refused(3, 2, 4, library.edit, NETWORK, future[:4] + bytes([192, 22]), others)
        assert others == rooms


def main():
    division, sheet, later = bytearray(library.DIVISION), bytearray(library.SHEET), bytearray(library.DIVISION)
    assert library.network(NETWORK) == len(NETWORK)
    assert [library.names(NETWORK, edit) for edit in EDITS] == [[1], [2], [1, 2], [1], [1, 2]]
    removed = [library.edit(NETWORK, edit, division) for edit in EDITS]
    assert removed == [library.edit_sheet(NETWORK, edit, sheet) for edit in EDITS] == [0, 0, 0, 0, 1]
    answers = library.run(NETWORK, bytes([len(EDITS)]) + b"".join(EDITS), later)
    assert answers == [(0, count) for count in removed] and later == division
    later = bytearray(library.DIVISION)
    assert library.run_early(NETWORK, bytes([len(EARLY)]) + b"".join(EARLY), later) == answers and later == division
    tally = [0, 0, 0, 0]
    for edit, (refusal, count) in zip(EDITS, answers):
        tally = library.raise_tally(edit, refusal, count, tally)
    assert tally == [5, 0, 3, 1], tally

    merged, divided = bytearray(library.SHEET), bytearray(library.DIVISION)
    library.merge(NETWORK, division, merged)
    library.divide(NETWORK, sheet, divided)
    assert merged == sheet and divided == division
    one, other = library.area_sheet(division, 1), library.area_sheet(division, 2)
    assert b"".join(library.area_sheet(division, area) for area in range(8)) == division
    assert library.area_sheet(division[1:], 1) == b""
    shared = (library.area_findings(NETWORK, one, 1) + library.area_findings(NETWORK, other, 2)
              + library.pair_findings(NETWORK, one, other, 1, 2))
    assert sorted(shared) == library.findings(NETWORK, sheet) != []
    file, back = library.write(NETWORK, sheet), bytearray(library.SHEET)
    assert library.read(NETWORK, file, back) == len(file) and back == sheet
    assert library.project(NETWORK, sheet, 1, 7, 104) == [(1, 104, 105, 4), (2, 117, 118, 2)]

    # The same timetable in the earlier form: two visits, of train 7, without marks.
    early = file[:4] + file[5:16] + file[17:]
    assert len(file) == len(early) + 2 and file[4] == file[16] == 0, list(file)
    back = bytearray(library.SHEET)
    assert library.read_early(NETWORK, early, back) == len(early) and back == sheet
    assert library.write(NETWORK, back) == file

    # A request stop: the connection there is met, and a projection waits for it; an early amendment clears its mark.
    row = bytearray(library.SHEET)
    assert [library.edit_sheet(ROW, edit, row) for edit in JOURNEY] == [0] * 5
    assert library.findings(ROW, row) == [] and row[512 + 32 + 14] == 1
    assert library.project(ROW, row, 2, 7, 105) == [(2, 105, 114, -9), (3, 126, 127, 0)]
    assert library.project(ROW, row, 2, 7, 118) == [(2, 118, 118, 4), (3, 130, 131, 4)]
    rooms = bytearray(library.DIVISION)
    library.divide(ROW, row, rooms)
    assert library.run_early(ROW, bytes([1, 6, 2, 7, 1, 114, 114]), rooms) == [(0, 0)]
    library.merge(ROW, rooms, row)
    assert library.findings(ROW, row) == [(2, 4, 1, 0)] and row[512 + 32 + 14] == 0
    assert library.project(ROW, row, 2, 7, 105) == [(2, 105, 105, -9), (3, 117, 127, -9)]

    reports(division, sheet)

    # Line 1 is closed up to train 7's departure, and a minute longer: a finding more, in the first area's list.
    closed = [NETWORK[:-1] + bytes([1, 1, 90, end]) for end in (102, 103)]
    before, after = (library.findings(network, sheet) for network in closed)
    assert before == library.findings(NETWORK, sheet) and sorted(before + [(1, 11, 7, 1)]) == after
    assert (1, 11, 7, 1) in library.area_findings(closed[1], one, 1)
    assert (1, 11, 7, 1) not in library.pair_findings(closed[1], one, other, 1, 2)

    # Train 7 runs 12 minutes: freight's least of 13 does not find it, the passengers' does.
    freight, passenger = (NETWORK[:13] + bytes(times) + NETWORK[15:] for times in ((10, 13), (13, 10)))
    assert library.findings(freight, sheet) == library.findings(NETWORK, sheet)
    assert sorted(library.findings(NETWORK, sheet) + [(1, 5, 7, 0)]) == library.findings(passenger, sheet)
    # A file of the earlier form, its closures kept.
    old = NETWORK[:13] + NETWORK[14:]
    assert library.turn(library.ONE_TIME, old) == NETWORK
    assert library.turn(library.ONE_TIME, old[:-1] + bytes([1, 1, 90, 103])) == closed[1]

    # Each edit, with the list of before it, gives the list of after it: of the whole, and of each area.
    division, sheet = bytearray(library.DIVISION), bytearray(library.SHEET)
    whole, own = [], {area: [] for area in range(1, 7)}
    for edit in EDITS:
        library.edit(NETWORK, edit, division)
        library.edit_sheet(NETWORK, edit, sheet)
        whole = library.recheck(NETWORK, sheet, edit, whole)
        assert whole == library.findings(NETWORK, sheet), (edit, whole)
        for area in own:
            part = library.area_sheet(division, area)
            own[area] = library.recheck_area(NETWORK, part, edit, area, own[area])
            assert own[area] == library.area_findings(NETWORK, part, area), (edit, area)
    # A list of other findings: what is not at station 1, and not rules 7 to 10 at station 2, stays.
    foreign = [(1, 9, 9, 9), (2, 3, 9, 9), (2, 9, 9, 9), (2, 11, 9, 9), (300, 7, 9, 9)]
    kept = [one for one in library.recheck(NETWORK, sheet, EDITS[0], foreign) if 9 in one[2:]]
    assert kept == [(2, 3, 9, 9), (2, 11, 9, 9), (300, 7, 9, 9)], kept
    refused(3, 0, 0, library.recheck, NETWORK, sheet, EDITS[0], foreign[::-1])
    refused(3, 0, 0, library.recheck_area, NETWORK, one, EDITS[0], 7, whole)

    refused(2, 1, 0, library.network, bytes([128, 0]))
    refused(14, 1, 17, library.network, NETWORK[:-1] + bytes([2, 1, 90, 90, 2, 0, 1]))
    refused(4, 1, 20, library.findings, NETWORK[:-1] + bytes([2, 1, 90, 91, 2, 0, 1]), sheet)
    refused(1, 1, 17, library.edit, NETWORK[:-1] + bytes([1]), EDITS[0], division)
    refused(3, 1, 21, library.network, NETWORK[:-1] + bytes([2, 1, 90, 91, 1, 90, 92]))
    refused(3, 0, 0, library.turn, 2, old)
    refused(1, 1, 15, library.turn, library.ONE_TIME, old[:-1])
    refused(14, 1, 16, library.turn, library.ONE_TIME, old[:-1] + bytes([1, 1, 90, 90]))
    refused(3, 1, 15, library.network, old)
    refused(3, 2, 0, library.names, NETWORK, bytes([12]))
    refused(3, 2, 4, library.names, NETWORK, bytes([1, 1, 7, 1, 2, 100, 102]))
    refused(3, 2, 5, library.run, NETWORK, bytes([1]) + EARLY[0], division)
    refused(1, 2, 7, library.run_early, NETWORK, bytes([1]) + EDITS[0], division)
    refused(3, 2, 4, library.read, NETWORK, early, back)
    refused(3, 2, 5, library.read_early, NETWORK, file, back)
    refused(1, 2, 0, library.edit, NETWORK, b"", division)
    refused(5, 0, 0, library.edit, NETWORK, EDITS[0], bytearray())
    refused(6, 0, 0, library.findings, NETWORK, b"\1" * library.SHEET)
    refused(8, 0, 0, library.edit, NETWORK, EDITS[0], division)
    refused(3, 0, 0, library.pair_findings, NETWORK, one, one, 1, 1)
    refused(9, 0, 0, library.project, NETWORK, sheet, 1, 8, 104)
    assert later == division
    print("library: the Python wrapper's functions agree with each other")


if __name__ == "__main__":
    main()
