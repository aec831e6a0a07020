"""The reasons beside what tools/repeats and tools/unreached list: tools/reasons.txt, a line for each, LIST FILE NAME REASON.

A NAME * stands for all of its file."""
import os

HERE = os.path.dirname(os.path.abspath(__file__))


def reasons_of(which):
    found = {}
    with open(f"{HERE}/reasons.txt", encoding="utf-8") as file:
        for line in file:
            word = line.split(None, 3)
            if len(word) == 4 and word[0] == which:
                found[word[1], word[2]] = word[3].strip()
    return found
