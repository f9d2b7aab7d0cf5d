#!/usr/bin/env python3
"""Prints a report at the end of each round of a run, of its trace and its answers.

    llfree run CHILDREN CORES < TRACE | tools/timeline.py TRACE > TIMELINE
    tools/timeline.py TRACE ANSWERS -o TIMELINE

A record is round,N,HELD,FREE,B0,..,B9, with the fields of a report's last one; with --json it is an object a line.
"""
import json
import sys

import files
import records
import replayed


def reports(lines, answers):
    """Of each round the frames that are held and free at its end, and the free blocks of each order."""
    memory = replayed.opened(lines, answers)
    for rows in replayed.rounds(lines, answers):
        replayed.follow(memory, rows)
        free = memory.blocks[0]
        yield records.CHILD_FRAMES * len(memory.bits) - free, free, memory.blocks


def row_of(place, held, free, blocks):
    return f'round,{place},{held},{free},{",".join(map(str, blocks))}\n'


def object_of(place, held, free, blocks):
    return json.dumps({'round': place, 'held': held, 'free': free, 'blocks': blocks}) + '\n'


def main():
    parser = replayed.arguments(__doc__)
    parser.add_argument('--json', action='store_true', help='an object a line')
    given = parser.parse_args()
    make = object_of if given.json else row_of

    def timeline():
        return ''.join(make(place, *report) for place, report in enumerate(reports(*replayed.parsed(given)), 1))

    return files.answer('timeline', timeline, given.output)


if __name__ == '__main__':
    sys.exit(main())
