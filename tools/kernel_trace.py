#!/usr/bin/env python3
"""Makes a trace of a recording of Linux's page frames.

A recording is what `perf script` prints of the events kmem:mm_page_alloc and kmem:mm_page_free, and is read from
standard input where no file is named; standard output or the file of -o is a trace for `llfree run CHILDREN CORES`,
standard error what was counted. docs/REPLAY.md says how such a recording is made and read.

    perf script -i perf.data | tools/kernel_trace.py [--cores N] [--slice MICROSECONDS] [--window N] > TRACE
    tools/kernel_trace.py RECORDING -o TRACE
"""
import collections
import contextlib
import re
import sys

import files

HUGE_ORDER = 9
MOST_ORDER = 18
CHILD_FRAMES = 512
MOST_CORES = 64
MOST_BYTES = 16_777_216
MOST_RECORDS = 1_000_000
SLICE_RECORDS = 25_000
# perf prints no line that is nearly as long
MOST_LINE = 4_000
DIGITS = '0123456789abcdefghijklmnopqrstuvwxyz'
EVENT = re.compile(r'\[(\d+)\] +(\d+)\.(\d{6})\d*: +kmem:mm_page_(alloc|free): .*?\bpfn=(0x[0-9a-fA-F]+|\d+) '
                   r'order=(\d+)')
Event = collections.namedtuple('Event', 'cpu time kind frame order')


class Fault(Exception):
    """Why no trace can be made, in one sentence."""


class Progress:
    """A line on a terminal while a person waits."""

    def __init__(self, what):
        self.what, self.count, self.shown = what, 0, sys.stderr.isatty()

    def step(self):
        self.count += 1
        if self.shown and self.count % 50_000 == 0:
            print(f'\rkernel_trace: {self.count:,} {self.what}', end='', file=sys.stderr, flush=True)

    def end(self):
        if self.shown and self.count >= 50_000:
            print('\r\033[K', end='', file=sys.stderr, flush=True)


def frame_of(text):
    return int(text, 16 if text.startswith('0x') else 10)


def event_of(line):
    """The event of a line, or None where it tells of something else."""
    match = EVENT.search(line) if len(line) <= MOST_LINE else None
    if match is None:
        return None
    cpu, seconds, micros, kind, frame, order = match.groups()
    return Event(int(cpu), int(seconds) * 1_000_000 + int(micros), kind, frame_of(frame), int(order))


class Labels:
    """Short labels, used again once their blocks are given."""

    def __init__(self):
        self.unused, self.made = [], 0

    def new(self):
        if self.unused:
            return self.unused.pop()
        place, text = self.made, ''
        self.made += 1
        while place or not text:
            place, digit = divmod(place, len(DIGITS))
            text = DIGITS[digit] + text
        return text

    def reuse(self, label):
        self.unused.append(label)


class Block:
    """A block that is held: its order, its label, the core whose list it is on, and the slice of its take."""

    __slots__ = ('order', 'label', 'core', 'slice')

    def __init__(self, order, label, core, at):
        self.order, self.label, self.core, self.slice = order, label, core, at


class Converter:
    """Follows the events of a recording, slice by slice, and writes the records of one window of it."""

    def __init__(self, cores, micros, window, write):
        self.cores, self.micros, self.write = cores, micros, write
        self.live, self.labels = {}, Labels()
        self.moves, self.rows, self.slice, self.slice_end = [], [], 0, 0
        self.windows, self.wanted = 0, window
        self.held = 0
        self.begin_window()

    # Windows and slices

    def begin_window(self):
        """A window stands alone: it begins with a take of each block that is held."""
        self.windows += 1
        self.records = self.bytes = 0
        self.counts, self.most_held = collections.Counter(before=len(self.live)), self.held
        self.rows = [f'{block.core},take,{block.label},{block.order}\n' for block in self.live.values()]
        self.end_slice()
        if not self.has_room():
            raise Fault(f'{len(self.live):,} blocks are held at once, which leaves no room in a trace')

    def end_slice(self):
        """Writes the slice: on several cores it is a round, which begins with its moves."""
        rows = self.moves + self.rows
        if rows and self.records and self.cores > 1:
            rows.insert(0, ',round,,\n')
        text = ''.join(rows)
        self.records, self.bytes = self.records + len(rows), self.bytes + len(text)
        if self.windows == self.wanted:
            self.write(text)
        self.moves, self.rows, self.slice = [], [], self.slice + 1

    def has_room(self):
        """Whether one more slice is sure to fit into the window."""
        return self.records + 2 * SLICE_RECORDS <= MOST_RECORDS and self.bytes + 40 * SLICE_RECORDS <= MOST_BYTES

    def is_past(self, event):
        """Whether an event is in a later slice; a slice that is long ends early."""
        if len(self.moves) + len(self.rows) >= SLICE_RECORDS:
            return True
        return self.cores > 1 and event.time >= self.slice_end

    def follow(self, event):
        """Takes or gives what the event tells of; false where the wanted window has ended before it."""
        if self.is_past(event):
            self.end_slice()
            self.slice_end = event.time - event.time % self.micros + self.micros
            if not self.has_room():
                if self.windows == self.wanted:
                    return False
                self.begin_window()
        if event.order > MOST_ORDER or event.kind == 'alloc' and event.frame == 0:
            self.counts['none'] += 1
            return True
        core, end = event.cpu % self.cores, event.frame + (1 << event.order)
        if event.kind == 'alloc':
            self.counts['again'] += bool(self.leave(core, event.frame, event.order))
            self.counts['larger'] += event.order > HUGE_ORDER
            order = min(event.order, HUGE_ORDER)
            for frame in range(event.frame, end, 1 << order):
                self.take(core, frame, order)
        else:
            self.counts['unknown'] += end - event.frame - self.leave(core, event.frame, event.order)
        return True

    # Blocks

    def take(self, core, frame, order):
        label = self.labels.new()
        self.live[frame] = Block(order, label, core, self.slice)
        self.held += 1 << order
        self.most_held = max(self.most_held, self.held)
        self.counts['take'] += 1
        self.rows.append(f'{core},take,{label},{order}\n')

    def give(self, core, frame):
        """Gives a block by this core, to which it is moved; by the one that took it, if that was in this slice."""
        block = self.live.pop(frame)
        if block.core != core and block.slice < self.slice:
            self.moves.append(f'{block.core},move,{block.label},{core}\n')
            self.counts['move'] += 1
        elif block.core != core:
            core = block.core
            self.counts['taker'] += 1
        self.held -= 1 << block.order
        self.labels.reuse(block.label)
        self.counts['give'] += 1
        self.rows.append(f'{core},give,{block.label},\n')
        return core

    def leave(self, core, frame, order):
        """Gives all that is held of these frames, and says how many those are."""
        around = self.block_around(frame, order)
        if around is not None:
            self.split(core, around, frame, order)
        frames = 0
        for inside in [frame] if frame in self.live else range(frame, frame + (1 << order)):
            if inside in self.live:
                frames += 1 << self.live[inside].order
                self.give(core, inside)
        return frames

    def block_around(self, frame, order):
        """The first frame of the greater block that is held and has these frames in it, or None."""
        for more in range(order + 1, HUGE_ORDER + 1):
            first = frame >> more << more
            if first in self.live and self.live[first].order >= more:
                return first
        return None

    def split(self, core, first, frame, order):
        """No record splits a block, so it is given as a whole, and its parts are taken anew."""
        size = self.live[first].order
        core = self.give(core, first)
        self.counts['split'] += 1
        while size > order:
            size -= 1
            half = first + (1 << size)
            other, first = (first, half) if frame >= half else (half, first)
            self.take(core, other, size)
        self.take(core, frame, order)


TOLD = (
    ('before', 'blocks that were held when the window began: a take each'),
    ('take', 'takes, those of parts among them'),
    ('give', 'gives'),
    ('move', 'moves to the core that gives'),
    ('taker', 'gives by the core that took the block, since another one gives it in the same slice'),
    ('split', 'blocks that were given in parts: given as a whole, and the parts taken anew'),
    ('larger', 'blocks of orders above 9: each is taken as blocks of order 9'),
    ('again', 'allocations of what was held still: given first, its free was not recorded'),
    ('unknown', 'frames that were freed, but allocated before the recording: left out'),
    ('none', 'allocations that the kernel refused, and orders that no kernel has: left out'),
    ('other', 'lines that tell of no frames: left out'),
)


def convert(lines, converter):
    """Follows all lines; true where the recording goes on behind the window."""
    progress = Progress('lines')
    try:
        for line in lines:
            progress.step()
            event = event_of(line)
            if event is None:
                converter.counts['other'] += 1
            elif not converter.follow(event):
                return True
        converter.end_slice()
    finally:
        progress.end()
    if converter.windows < converter.wanted:
        raise Fault(f'the recording has {converter.windows} windows')
    return False


def tell(converter, goes_on):
    for key, text in TOLD:
        if converter.counts[key]:
            print(f'{converter.counts[key]:9,} {text}', file=sys.stderr)
    children = max(1, -(-converter.most_held // CHILD_FRAMES))
    print(f'{converter.most_held:9,} frames held at once at most, so {children:,} children or more', file=sys.stderr)
    print(f'{converter.held:9,} frames held at the end', file=sys.stderr)
    print(f'{converter.records:9,} records', file=sys.stderr)
    if goes_on:
        print(f'the recording goes on: --window {converter.wanted + 1} is what follows', file=sys.stderr)


def arguments():
    parser = files.parser(__doc__)
    parser.add_argument('recording', metavar='RECORDING', nargs='?', help='the recording, else standard input')
    parser.add_argument('--cores', type=int, default=1, help='the events of CPU number C go to core C modulo CORES')
    parser.add_argument('--slice', type=int, default=10_000, metavar='MICROSECONDS',
                        help='the length of a round where there are several cores')
    parser.add_argument('--window', type=int, default=1,
                        help='which part of a recording that has more than a million records, from 1 on')
    given = parser.parse_args()
    if not 1 <= given.cores <= MOST_CORES:
        parser.error(f'--cores is 1 to {MOST_CORES}')
    if given.slice < 1 or given.window < 1:
        parser.error('--slice and --window are 1 or more')
    return given


def lines_of(name):
    """The lines of a recording, to be read one by one. Linux cuts a name of a process within a letter, too."""
    if not files.is_stream(name):
        return open(name, encoding='utf-8', errors='replace')
    if sys.stdin is None:
        raise Fault('standard input is closed')
    sys.stdin.reconfigure(encoding='utf-8', errors='replace')
    return contextlib.nullcontext(sys.stdin)


def main():
    given = arguments()
    texts = []
    try:
        converter = Converter(given.cores, given.slice, given.window, texts.append)
        with lines_of(given.recording) as lines:
            goes_on = convert(lines, converter)
        if not converter.counts['take'] and not converter.counts['before']:
            raise Fault('no line tells of a frame that was allocated: docs/REPLAY.md says how to record')
        files.write(given.output, ''.join(texts).encode())
    except (Fault, files.Fault) as fault:
        print(f'kernel_trace: {fault}', file=sys.stderr)
        return 1
    except OSError as error:
        print(f'kernel_trace: {given.recording or "standard input"}: {error.strerror}', file=sys.stderr)
        return 1
    tell(converter, goes_on)
    return 0


if __name__ == '__main__':
    sys.exit(main())
