#!/usr/bin/env python3
"""Writes the traces that run.sh measures into a folder: traces.py FOLDER."""
import os
import sys

RECORDS = 1_000_000


def pairs_of(held):
    """Takes until so many blocks are held, then a give and a take in turn, oldest first."""
    yield from ("0,take,a,0\n" for _ in range(held))
    for number in range(RECORDS - held):
        yield "0,give,a,\n" if number % 2 == 0 else "0,take,a,0\n"


def mixed():
    """Orders 0 to 6 under eight labels, eight blocks held: a give and a take under one label in turn."""
    yield from (f"0,take,{label},{order % 7}\n" for order, label in enumerate("abcdefgh"))
    for number in range(RECORDS - 8):
        label = "abcdefgh"[number // 2 % 8]
        yield f"0,give,{label},\n" if number % 2 == 0 else f"0,take,{label},{number // 2 % 7}\n"


def all_then_none(held):
    """All takes first, under one label, then all gives."""
    yield from ("0,take,a,0\n" for _ in range(held))
    yield from ("0,give,a,\n" for _ in range(held))


def main():
    folder = sys.argv[1]
    os.makedirs(folder, exist_ok=True)
    traces = {
        "pairs": pairs_of(8),
        "mixed": mixed(),
        "held": all_then_none(RECORDS // 2),
    }
    for name, records in traces.items():
        with open(os.path.join(folder, name + ".csv"), "w") as out:
            out.writelines(records)


main()
