"""A run followed by its trace and its answers, round by round: for stats.py and timeline.py."""
import collections

import files
import records
from records import CHILD_FRAMES, HUGE_ORDER

ALL = (1 << CHILD_FRAMES) - 1
# of each order the frames at which its blocks begin
FIRSTS = [sum(1 << frame for frame in range(0, CHILD_FRAMES, 1 << order)) for order in range(HUGE_ORDER + 1)]


class Memory:
    """Which frames are held: of each child the bits of its frames. And how many aligned free blocks each order has."""

    def __init__(self, children, ranges, past):
        self.bits = [0] * children
        self.counts = [[CHILD_FRAMES >> order for order in range(HUGE_ORDER + 1)] for _ in range(children)]
        self.blocks = [children * count for count in self.counts[0]]
        frames = CHILD_FRAMES * children
        for start, count in [*ranges, (frames - past, past)]:
            for frame in range(start, start + count):
                self.bits[frame // CHILD_FRAMES] |= 1 << frame % CHILD_FRAMES
        self.count(range(children))

    def count(self, children):
        """Counts the free blocks of these children anew."""
        for child in children:
            clear, counts = ALL & ~self.bits[child], []
            for order in range(HUGE_ORDER + 1):
                clear &= FIRSTS[order]
                counts.append(bin(clear).count('1'))
                clear &= clear >> (1 << order)
            self.blocks = [all_ - old + new for all_, old, new in zip(self.blocks, self.counts[child], counts)]
            self.counts[child] = counts

    def change(self, taken, given):
        """These blocks are held now, and those no longer; none of those is left with a frame in two hands."""
        touched = set()
        for blocks, are_held in (given, True), (taken, False):
            for frame, order in blocks:
                child, place = divmod(frame, CHILD_FRAMES)
                bits = ((1 << (1 << order)) - 1) << place
                if self.bits[child] & bits != (bits if are_held else 0):
                    how = 'given, and was not held' if are_held else 'taken, and was held'
                    raise files.Fault(f'the block of order {order} at frame {frame} is {how}')
                self.bits[child] ^= bits
                touched.add(child)
        self.count(touched)


def opened(lines, answers):
    """The memory before the first record. The frames past its end are those that nothing else holds in the end."""
    frames = answers.held + answers.free
    ranges = records.ranges_of(lines, frames)
    blocks = sum(size_of(row) for row in answers.rows)
    past = answers.held - blocks - sum(count for _, count in ranges)
    if not 0 <= past < CHILD_FRAMES:
        raise files.Fault(f'the answers end with {answers.held:,} frames held: {blocks:,} in blocks, and '
                          f'{answers.held - blocks:,} that no range and no end of memory explains')
    return Memory(frames // CHILD_FRAMES, ranges, past)


def size_of(row):
    """How many frames more are held by an answer."""
    _, _, word, block = row
    return {'Taken': 1, 'Given': -1}.get(word, 0) << block[1] if block else 0


def rounds(lines, answers):
    """The answers of each round, its moves first; one more than the trace has records that end one."""
    rows, parted = iter(answers.rows), [[]]
    for line in lines:
        if line.kind == 'round':
            parted.append([])
        elif line.kind != 'reserve':
            parted[-1].append(next(rows))
    return parted


def follow(memory, rows):
    """The memory at the end of a round. Within it a block may be given by one core and taken by another in either order
    of the answers, so only what the round leaves counts."""
    changes = collections.Counter()
    for row in rows:
        if row[2] in ('Taken', 'Given'):
            changes[row[3]] += 1 if row[2] == 'Taken' else -1
    for (frame, order), count in changes.items():
        if abs(count) > 1:
            raise files.Fault(f'the block of order {order} at frame {frame} is '
                              f'{"taken" if count > 0 else "given"} twice')
    memory.change([block for block, count in changes.items() if count == 1],
                  [block for block, count in changes.items() if count == -1])


def arguments(doc):
    """What a script has that reads a trace and its answers."""
    parser = files.parser(doc)
    parser.add_argument('trace', metavar='TRACE', help='the trace that was run')
    parser.add_argument('answers', metavar='ANSWERS', nargs='?', help='what llfree run answered, else standard input')
    return parser


def parsed(given):
    """The lines of the trace, and the answers to them."""
    lines = files.parsed(given.trace, lambda data: records.trace_of(data, records.MOST_CORES))
    answers = files.parsed(given.answers, lambda data: records.answers_of(data, lines), files.MOST_ANSWER_BYTES)
    return lines, answers
