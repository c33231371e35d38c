"""Two rooms edit their own sheets of one division; the centre merges them, and projects a train through both."""

import strakewhip as library

# Station 1 in area 1 and station 2 in area 2, and one line between them that is never closed.
NETWORK = bytes([2, 1, 1, 2, 2, 2, 1, 3, 1, 1, 1, 2, 3, 10, 10, 1, 0])


def edited(who, edit, division):
    print(f"{who} {library.names(NETWORK, edit)}")
    library.edit(NETWORK, edit, division)


def main():
    division, sheet = bytearray(library.DIVISION), bytearray(library.SHEET)
    # Train 7 waits at station 1; train 9 comes to station 2; train 7 goes on to it, across both rooms.
    across = bytes([3, 2, 7, 1, 0, 115, 115, 1, 1, 12])
    edited("the first room locks", bytes([1, 1, 7, 1, 0, 100, 102]), division)
    edited("the second room locks", bytes([1, 2, 9, 1, 0, 110, 111]), division)
    edited("together they lock", across, division)
    try:
        library.edit(NETWORK, across, division)
    except library.Refused as refused:
        assert refused.refusal == 8, refused
        print("once more: it is there already")
    library.merge(NETWORK, division, sheet)
    for station, rule, first, second in library.findings(NETWORK, sheet):
        print(f"station {station}: rule {rule}, first {first}, second {second}")
    for station, arrival, departure, late in library.project(NETWORK, sheet, 1, 7, 104):
        print(f"train 7 at station {station}: arrives {arrival}, departs {departure}, late {late}")


if __name__ == "__main__":
    main()
