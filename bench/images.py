#!/usr/bin/env python3
"""Writes an image of 4,096 children and 64 cores that images.sh measures: images.py FILE."""
import random
import sys

CHILDREN = 4096
CORES = 64


def word(random_bits):
    """All clear, all set, or any bits."""
    return random_bits.choice(["0" * 16, "f" * 16, f"{random_bits.getrandbits(64):016x}"])


def main():
    bits = random.Random(1)
    with open(sys.argv[1], "w", encoding="ascii") as image:
        image.write(f"llfree,1,{CHILDREN},{CORES},\n")
        for child in range(CHILDREN):
            huge = int(bits.random() < 0.2)
            words = "0" * 128 if huge else "".join(word(bits) for _ in range(8))
            image.write(f"child,{child},{bits.randrange(513)},{huge},{words}\n")
        for tree in range(CHILDREN // 8):
            image.write(f"tree,{tree},{bits.randrange(4097)},{bits.randrange(2)},\n")
        for core in range(CORES):
            image.write(f"core,{core},{8 * core},{bits.randrange(4097)},\n")


main()
