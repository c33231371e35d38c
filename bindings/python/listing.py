"""Replays the listing of document 01 as `shift` prints it."""

import strakewhip as library

NETWORK = bytes([2, 1, 1, 2, 2, 2, 1, 3, 1, 1, 1, 2, 3, 10, 10, 1, 0])
EDITS = [bytes([1, 1, 7, 1, 0, 100, 102]), bytes([3, 2, 7, 1, 0, 115, 115, 1, 1, 12]), bytes([1, 1, 7, 1, 0, 100, 102]),
         bytes([9, 1, 1, 5, 2, 7, 9])]


def main():
    division, sheet, tally = bytearray(library.DIVISION), bytearray(library.SHEET), [0, 0, 0, 0]
    answers = library.run(NETWORK, bytes([len(EDITS)]) + b"".join(EDITS), division)
    for at, (refusal, removed) in enumerate(answers):
        print("E", at + 1, refusal, removed)
        tally = library.raise_tally(EDITS[at], refusal, removed, tally)
    library.merge(NETWORK, division, sheet)
    found = library.findings(NETWORK, sheet)
    for finding in found:
        print("F", *finding)
    print("T", sum(sheet[0::512]), sum(sheet[1::512]), len(found))
    print("A", *tally)


if __name__ == "__main__":
    main()
