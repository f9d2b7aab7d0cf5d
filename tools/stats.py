#!/usr/bin/env python3
"""Counts the answers of a run by kind and core, and says how much memory it held.

    llfree run CHILDREN CORES < TRACE | tools/stats.py TRACE
    tools/stats.py TRACE ANSWERS -o STATS

MOST and HELD are the frames of the blocks on the list of a core: the most at once, and at the end. Where several cores
take or give, the most of all together is that after a round, since their answers have the order of the trace and not
that of time; free huge frames are counted after rounds. With --json all of it is one object.
"""
import collections
import json
import sys

import files
import records
import replayed


class Core:
    """The answers to a core by their word, and the frames on its list: now, and at most."""

    def __init__(self):
        self.counts, self.held, self.most = collections.Counter(), 0, 0

    def add(self, frames):
        self.held += frames
        self.most = max(self.most, self.held)

    def numbers(self):
        return {**{word: self.counts[word] for word in records.WORDS}, 'most': self.most, 'held': self.held}


def cores_of(answers):
    """The cores of a run; the last is all of them together, as the answers stand."""
    cores, everyone = collections.defaultdict(Core), Core()
    for row in answers.rows:
        _, line, word, block = row
        for core in cores[line.core], everyone:
            core.counts[word] += 1
            core.add(replayed.size_of(row))
        if word == 'Moved':
            cores[line.core].add(-(1 << block[1]))
            cores[line.to].add(1 << block[1])
    return dict(sorted(cores.items())), everyone


def stats(lines, answers):
    """All numbers, by name."""
    cores, everyone = cores_of(answers)
    memory = replayed.opened(lines, answers)
    frames, free = records.CHILD_FRAMES * len(memory.bits), memory.blocks[0]
    held, huge = [], []
    for rows in replayed.rounds(lines, answers):
        replayed.follow(memory, rows)
        held.append(free - memory.blocks[0])
        huge.append(memory.blocks[records.HUGE_ORDER])
    if len(cores) > 1:
        everyone.most = max(held)
    return {'cores': {str(core): found.numbers() for core, found in cores.items()}, 'all': everyone.numbers(),
            'rounds': len(held), 'frames': frames, 'held_from_start': frames - free,
            'free_huge_frames': {'at_end': huge[-1], 'least': min(huge), 'of': len(memory.bits)}}


def table(found):
    """The numbers as lines for people."""
    yield f'{"":8}' + ''.join(f'{word:>10}' for word in (*records.WORDS, 'MOST', 'HELD'))
    for core, numbers in [*found['cores'].items(), (None, found['all'])]:
        name = 'all' if core is None else f'core {core}'
        yield f'{name:8}' + ''.join(f'{number:>10}' for number in numbers.values())
    start, huge = found['held_from_start'], found['free_huge_frames']
    when = ' after a round' if len(found['cores']) > 1 else ''
    yield f'frames: {found["all"]["most"] + start} of {found["frames"]} held at most{when}, {start} from the start'
    yield f'huge frames: {huge["at_end"]} of {huge["of"]} free at the end, {huge["least"]} at least'


def main():
    parser = replayed.arguments(__doc__)
    parser.add_argument('--json', action='store_true', help='one object')
    given = parser.parse_args()

    def made():
        found = stats(*replayed.parsed(given))
        return json.dumps(found, indent=2) + '\n' if given.json else ''.join(row + '\n' for row in table(found))

    return files.answer('stats', made, given.output)


if __name__ == '__main__':
    sys.exit(main())
