#!/usr/bin/env python3
"""Makes a page that plays a recording of Linux's page frames: where they lie in LLFree, in a buddy allocator with and
without lists for each processor, and as the kernel itself had them.

    tools/play.py RECORDING > PAGE.html
    tools/play.py RECORDING --still SECONDS > PICTURE.svg

A recording is what `perf record` of the events kmem:mm_page_alloc and kmem:mm_page_free writes, or what `perf script`
prints of that, compressed by gzip or xz or not; - is standard input. docs/REPLAY.md says how it is made and read.
"""
import argparse
import array
import base64
import bisect
import ctypes
import gzip
import io
import json
import lzma
import math
import operator
import os
import re
import shutil
import subprocess
import sys
import tempfile
import zlib

import kernel_trace

HERE = os.path.dirname(os.path.abspath(__file__))
sys.path.insert(1, os.path.join(HERE, 'play'))
import still  # noqa: E402 pylint: disable=wrong-import-position

TOP = os.path.dirname(HERE)
CHILD_FRAMES = 512
FRAMES_OF_MIB = 256
MOST_MIB = 8192
MOST_PROCESSORS = 64
MOST_SECONDS = 4000
# a page has every take and give of up to so many, and else a film of so many pictures
MOST_STEPS = 400_000
PICTURES = 240
NONE = 0xffffffff
NOBODY = 255
COLOURS, LAYERS = 8, 17
CHUNK = 1 << 22
# what another make has said to what it calls
TOLD_TO_MAKE = 'CDPATH', 'MAKEFLAGS', 'MFLAGS', 'GNUMAKEFLAGS'
# what perf says of a recording with holes: how much it lost, where that is more than a twentieth, or that it did
LOST_SHARE, LOST = re.compile(r'\blost (\d+(?:\.\d+)?)%'), re.compile(r'\blost \d+ ')
CALLS = 'open', 'take', 'give', 'split', 'free_frames', 'free_huge', 'close'
NAMES = ('LLFree', 'buddy with per-CPU lists', 'buddy', 'as recorded')


class Fault(Exception):
    """Why there is no page, in one sentence."""


def shows(text):
    """A line on a terminal while a person waits."""
    if sys.stderr.isatty():
        print(f'\r\033[K{text and "play: " + text}', end='', file=sys.stderr, flush=True)


# The recording


class Perf:
    """What perf reads of a file of its own, and at its end what share of the events it lost when it recorded."""

    def __init__(self, name):
        if shutil.which('perf') is None:
            raise Fault("what perf recorded is read by perf, which is not here: Debian's package is linux-perf")
        self.lost = ''
        self.errors = tempfile.TemporaryFile()
        self.process = subprocess.Popen(['perf', 'script', '-i', name], stdout=subprocess.PIPE, stderr=self.errors)

    def read(self, size):
        more = self.process.stdout.read(size)
        if not more:
            self.end()
        return more

    def end(self):
        status = self.process.wait()
        self.errors.seek(0)
        said = ' '.join(self.errors.read().decode('utf-8', 'replace').split())
        if status:
            raise Fault(f'perf ended with status {status}: {said[:300]}')
        share = LOST_SHARE.search(said)
        self.lost = f'{float(share[1]):.0f} %' if share else 'some' if LOST.search(said) else ''


def opened(name):
    """The lines of a recording, as bytes."""
    if name == '-' and sys.stdin is None:
        raise Fault('standard input is closed')
    try:
        source = sys.stdin.buffer if name == '-' else open(name, 'rb')
    except OSError as error:
        raise Fault(f'{name}: {error.strerror}') from error
    source = source if hasattr(source, 'peek') else io.BufferedReader(source)
    start = source.peek(8)[:8]
    if start == b'PERFILE2':
        if name == '-':
            raise Fault('a perf.data file has to be named, for perf reads it itself')
        source.close()
        return Perf(name)
    if start[:2] == b'\x1f\x8b':
        return gzip.open(source)
    return lzma.open(source) if start[:6] == b'\xfd7zXZ\0' else source


def chunks(source):
    """Whole lines, some megabytes at a time."""
    rest = b''
    while True:
        more = source.read(CHUNK)
        if not more:
            yield rest
            return
        more = rest + more
        end = more.rfind(b'\n') + 1
        rest = more[end:]
        yield more[:end]


def events(source):
    """Columns of events, a chunk of lines at a time: microseconds, frames, processors, orders, is it allocated."""
    count = 0
    try:
        for lines in chunks(source):
            found = kernel_trace.EVENT.findall(lines.decode('utf-8', 'replace'))
            if not found:
                continue
            processors, seconds, micros, kinds, frames, orders = zip(*found)
            count += len(found)
            shows(f'{count:,} events')
            yield (array.array('Q', [int(a) * 1_000_000 + int(b) for a, b in zip(seconds, micros)]),
                   array.array('Q', map(kernel_trace.frame_of, frames)), array.array('I', map(int, processors)),
                   array.array('B', [min(255, int(order)) for order in orders]),
                   array.array('B', [kind == 'alloc' for kind in kinds]))
    except (OSError, EOFError, zlib.error, lzma.LZMAError) as error:
        raise Fault(f'the recording cannot be read: {error}') from error
    except (OverflowError, ValueError) as error:
        raise Fault('the recording has a number that is too large') from error


# The allocators, in C


def run(words):
    told = {name: value for name, value in os.environ.items() if name not in TOLD_TO_MAKE}
    done = subprocess.run(words, env=told, stdin=subprocess.DEVNULL, stdout=sys.stderr.fileno(), check=False)
    if done.returncode:
        raise Fault(f'{os.path.basename(words[0])} ended with status {done.returncode}')


def compiler():
    found = shutil.which(os.environ.get('CC', 'cc'))
    if found is None:
        raise Fault("there is no C compiler: Debian's package is gcc")
    return found


def replayer(folder):
    """replay.c and the peers, compiled."""
    made = os.path.join(folder, 'replay.so')
    peers = os.path.join(TOP, 'bench', 'c')
    run([compiler(), '-O2', '-shared', '-fPIC', '-I', os.path.join(TOP, 'include'), '-I', peers, '-o', made,
         os.path.join(HERE, 'play', 'replay.c'), os.path.join(peers, 'peers.c'), '-lpthread'])
    code = ctypes.CDLL(made)
    code.recording_open.restype = ctypes.c_void_p
    code.recording_open.argtypes = (ctypes.c_uint64, ctypes.c_uint32)
    for name in ('replay_peer', 'state_at', 'film'):
        getattr(code, name).restype = ctypes.c_bool
    code.replay_recorded.restype = code.replay_library.restype = ctypes.c_uint32
    return code


def llfree(folder):
    """The library: the one that LLFREE_SO names; else the repository's, where it is built; else the one that is
    installed; else the repository's, which is proved and built then."""
    archive = os.path.join(TOP, 'build', 'libllfree_c.a')
    if 'LLFREE_SO' in os.environ or not os.path.exists(archive):
        try:
            return ctypes.CDLL(os.environ.get('LLFREE_SO', 'libllfree.so.1'))
        except OSError as error:
            if 'LLFREE_SO' in os.environ:
                raise Fault(f'LLFREE_SO: {error}') from error
    if shutil.which('make') is None:
        raise Fault("there is no make, which proves and builds the library: Debian's package is make")
    run(['make', '-s', '-C', TOP, 'library'])
    made = os.path.join(folder, 'libllfree.so')
    run([compiler(), '-O2', '-fPIC', '-shared', '-o', made, '-Wl,--whole-archive', archive, '-Wl,--no-whole-archive',
         os.path.join(HERE, 'heap.c')])
    return ctypes.CDLL(made)


def pointer(column):
    """Where a column lies, for C."""
    return ctypes.c_void_p(column.buffer_info()[0] if len(column) else None)


def column(kind, count, fill=0):
    return array.array(kind, bytes([fill]) * (count * array.array(kind).itemsize))


class Replay:
    """A recording, and where its blocks lie in each of the allocators."""

    def __init__(self, source, given, folder):
        self.code = replayer(folder)
        self.at = ctypes.c_void_p(self.code.recording_open(int(given.begin * 1e6), given.processors))
        if not self.at:
            raise Fault('there is no memory for the recording')
        first = None
        for columns in events(source):
            first = columns[0][0] if first is None else first
            ends = self.follow(columns, first, given.end)
            if ends:
                break
        self.lost = getattr(source, 'lost', '')
        told = column('I', 9)
        self.code.recording_end(self.at, pointer(told))
        (self.count, self.begin, self.micros, self.most_held, self.processors, self.unknown, self.left_out, self.parts,
         is_full) = told
        if is_full:
            raise Fault('the recording has more takes and gives than there is memory for')
        if self.count == 0:
            raise Fault('no line tells of a frame that was allocated: docs/REPLAY.md says how to record')
        if given.begin and self.begin == 0:
            raise Fault(f'the recording has {self.micros / 1e6:.2f} seconds, and --begin is behind them')
        self.window = int(given.begin * 1e6) if self.begin else 0
        self.frames = FRAMES_OF_MIB * (given.mib or self.mib())
        self.where, self.children, self.huge = [], [], []
        # a recording is read first: the library may have to be built, which takes minutes
        self.library = llfree(folder)
        self.place()

    def follow(self, columns, first, end):
        """Follows events, and says whether the window has ended."""
        count = len(columns[0])
        if columns[0][-1] - first > MOST_SECONDS * 1_000_000:
            raise Fault(f'the recording has more than {MOST_SECONDS} seconds')
        if end is not None and columns[0][-1] - first > end * 1e6:
            count = sum(micros - first <= end * 1e6 for micros in columns[0])
        self.code.recording_follow(self.at, ctypes.c_size_t(count), *map(pointer, columns))
        return count < len(columns[0])

    def mib(self):
        """A memory in which half as much again as is ever held has room."""
        mib = 16
        while mib * FRAMES_OF_MIB < self.most_held * 3 // 2 and mib < MOST_MIB:
            mib *= 2
        return mib

    def place(self):
        children = -(-self.frames // CHILD_FRAMES)
        for place, name in enumerate(NAMES):
            shows(name)
            where = column('I', self.count)
            if place == 0:
                self.place_by_library(where)
            elif place < 3:
                lists = self.processors if place == 1 else 0
                if not self.code.replay_peer(self.at, self.frames, lists, pointer(where)):
                    raise Fault('there is no memory for a buddy allocator')
            else:
                huge = column('Q', self.count)
                children = self.code.replay_recorded(self.at, self.begin, pointer(huge), pointer(where))
                self.huge = list(huge[:children])
            self.where.append(where)
            self.children.append(children)

    def place_by_library(self, where):
        calls = (ctypes.c_void_p * len(CALLS))(*(
            ctypes.cast(getattr(self.library, f'llfree_{name}'), ctypes.c_void_p) for name in CALLS))
        free = column('I', 2)
        status = self.code.replay_library(self.at, calls, self.frames, pointer(where), pointer(free))
        if status == NONE:
            raise Fault('the library refused a give of what it had given out')
        if status:
            raise Fault(f'the library opens no memory of {self.frames} frames: status {status}')
        self.free = tuple(free)

    # What is seen

    def state(self, place, until):
        """Of each frame in an allocator, before a step: the processor that took it, its order, and when."""
        frames = self.children[place] * CHILD_FRAMES
        who, order, since = column('B', frames), column('B', frames), column('I', frames)
        if not self.code.state_at(self.at, pointer(self.where[place]), self.begin, until, self.children[place],
                                  pointer(who), pointer(order), pointer(since)):
            raise Fault('there is no memory for a picture')
        return who, order, since

    def step_at(self, seconds):
        """The first step of the window behind a moment of the recording."""
        micros = self.columns()[0]
        at = int(seconds * 1e6) - self.window
        return self.begin + bisect.bisect_right(micros, at)

    def held(self, until):
        """How many frames are out before a step."""
        _, marks, *_ = self.columns()
        return sum((1 << (mark & 15)) * (1 if mark >= 16 else -1) for mark in marks[:until - self.begin])

    def pictures(self, times, place, with_layers):
        """Of each picture what film() tells, and its layers."""
        series = column('I', 4 * len(times))
        layers = column('B', self.children[place] * LAYERS * len(times) if with_layers else 0)
        if not self.code.film(self.at, pointer(self.where[place]), self.begin, self.children[place], len(times),
                              pointer(times), pointer(layers), pointer(series)):
            raise Fault('there is no memory for a film')
        return series, layers

    def columns(self):
        """Of each step of the window: microseconds since it began, kind and order, processor, how many steps before it
        its block was taken, and the part."""
        count = self.count - self.begin
        made = column('I', count), column('B', count), column('B', count), column('I', count), column('H', count)
        self.code.recording_columns(self.at, self.begin, *map(pointer, made))
        return made


# The page


def planes(values):
    """The lowest bytes of all, then the next ones: so they can be compressed."""
    data = values.tobytes()
    return b''.join(data[place::values.itemsize] for place in range(values.itemsize))


def differences(values):
    made = array.array('I', values[:1])
    made.extend(map(operator.and_, map(operator.sub, values[1:], values), [NONE] * (len(values) - 1)))
    return made


def steps(replay):
    """All takes and gives: times, marks, processors; of gives what they give; of takes where they lie in each."""
    micros, marks, processors, back, parts = replay.columns()
    gives = [at for at, mark in enumerate(marks) if mark < 16]
    takes = [at for at, mark in enumerate(marks) if mark >= 16]
    yield planes(differences(micros))
    yield marks.tobytes()
    yield processors.tobytes()
    yield planes(array.array('I', [back[at] for at in gives]))
    yield planes(array.array('H', [parts[at] for at in gives]))
    for where in replay.where:
        yield planes(differences(array.array('I', [where[replay.begin + at] for at in takes])))


def film(replay, times):
    yield times.tobytes()
    used = min(replay.processors, COLOURS)
    for place in range(len(NAMES)):
        shows(f'film of {NAMES[place]}')
        series, layers = replay.pictures(times, place, True)
        size = replay.children[place] * len(times)
        yield series.tobytes()
        yield layers[:used * size].tobytes()
        yield layers[COLOURS * size:].tobytes()


def times_of(replay, begin, every):
    """When pictures are taken, in microseconds of the recording: at both ends, and so often between."""
    length = replay.micros - begin
    every = every or max(1, -(-length // (PICTURES - 1)))
    return array.array('I', [*range(begin, begin + length, every), begin + length])


def page(replay, given):
    begin = replay.window
    count = replay.count - replay.begin
    is_film = bool(given.film) or (count > MOST_STEPS and not given.all)
    kept = sum(mark >> 4 == 2 for mark in replay.columns()[1])
    said = {'title': given.title, 'film': is_film, 'count': count, 'kept': kept, 'frames': replay.frames,
            'processors': replay.processors, 'names': NAMES, 'children': replay.children, 'begin': begin,
            'micros': replay.micros - begin, 'lost': replay.lost}
    if is_film:
        times = times_of(replay, begin, int((given.film or 0) * 1000))
        said['pictures'] = len(times)
        parts = film(replay, times)
    else:
        said['gives'] = sum(mark < 16 for mark in replay.columns()[1])
        parts = steps(replay)
    shows('compressing')
    packer = zlib.compressobj(9)
    data = b''.join(map(packer.compress, [*parts, planes(differences_of(replay.huge))])) + packer.flush()
    with open(os.path.join(HERE, 'play', 'page.html'), encoding='utf-8') as text:
        made = text.read()
    said = json.dumps(said, sort_keys=True).replace('<', '\\u003c')
    return made.replace('@SAID@', said).replace('@DATA@', base64.b64encode(data).decode())


def picture(replay, given):
    until = replay.step_at(given.still)
    return ''.join(line + '\n' for line in still.svg(replay, given, NAMES, until))


def differences_of(huge):
    """The numbers of the recorded huge frames, each less the one before it."""
    return array.array('I', [min(NONE, number - before) for before, number in zip([0, *huge], huge)])


def tell(replay, given):
    kinds = [mark >> 4 for mark in replay.columns()[1]]
    takes, kept = kinds.count(1), kinds.count(2)
    times = array.array('I', [replay.micros])
    print(f'{len(kinds) - kept:9,} takes and gives, {takes:,} takes among them', file=sys.stderr)
    if kept:
        print(f'{kept:9,} blocks that were out when the window began', file=sys.stderr)
    if replay.parts:
        print(f'{replay.parts:9,} gives of parts of blocks', file=sys.stderr)
    if replay.unknown:
        print(f'{replay.unknown:9,} frames that were freed, but allocated before the recording: left out',
              file=sys.stderr)
    if replay.lost:
        print(f'{replay.lost:>9} of the events were lost by perf: a larger -m gives it more room', file=sys.stderr)
    if replay.left_out:
        print(f'{replay.left_out:9,} allocations that the kernel refused, and orders that no kernel has: left out',
              file=sys.stderr)
    print(f'{replay.most_held:9,} frames held at once at most; a memory of {replay.frames // FRAMES_OF_MIB:,} MiB',
          file=sys.stderr)
    for place, name in enumerate(NAMES):
        (shared, used, held, refused), _ = replay.pictures(times, place, False)
        free = '' if place == 3 else f', {replay.children[place] - used:,} free, {refused:,} takes refused'
        print(f'{name}: at the end {held:,} frames held in {used:,} huge frames, of which several processors use '
              f'{shared:,}{free}', file=sys.stderr)


def arguments(words=None):
    parser = argparse.ArgumentParser(description=__doc__.split('\n\n', maxsplit=1)[0])
    parser.add_argument('recording', help='a file, or - for standard input')
    parser.add_argument('--still', type=float, metavar='SECONDS', help='a picture (SVG) of that moment, and no page')
    parser.add_argument('--begin', type=float, default=0, metavar='SECONDS',
                        help='a window of the recording begins there')
    parser.add_argument('--end', type=float, metavar='SECONDS', help='and ends there')
    parser.add_argument('--mib', type=int,
                        help=f'the memory, up to {MOST_MIB}; as much as is needed where it is left out')
    parser.add_argument('--processors', type=int, default=MOST_PROCESSORS,
                        help=f'what processor C took, processor C modulo PROCESSORS did, 1 to {MOST_PROCESSORS}')
    parser.add_argument('--film', type=float, metavar='MILLISECONDS',
                        help='pictures of huge frames so often, in place of every take and give')
    parser.add_argument('--all', action='store_true',
                        help=f'every take and give, also of more than {MOST_STEPS:,}, of which a film is made else')
    parser.add_argument('--title', default='A recording of a Linux kernel')
    given = parser.parse_args(words)
    if not all(math.isfinite(it) for it in (given.still, given.begin, given.end, given.film) if it is not None):
        parser.error('a time is a number')
    if not 1 <= given.processors <= MOST_PROCESSORS:
        parser.error(f'--processors is 1 to {MOST_PROCESSORS}')
    if given.mib is not None and not 2 <= given.mib <= MOST_MIB:
        parser.error(f'--mib is 2 to {MOST_MIB}')
    if given.begin < 0 or given.end is not None and given.end <= given.begin:
        parser.error('--begin is 0 or more, and --end behind it')
    if given.film is not None and given.film <= 0:
        parser.error('--film is more than 0')
    return given


def main():
    given = arguments()
    try:
        if sys.stdout is None:
            raise Fault('standard output is closed')
        with tempfile.TemporaryDirectory() as folder:
            replay = Replay(opened(given.recording), given, folder)
            made = page(replay, given) if given.still is None else picture(replay, given)
        shows('')
        tell(replay, given)
        sys.stdout.write(made)
        sys.stdout.flush()
    except Fault as fault:
        shows('')
        print(f'play: {fault}', file=sys.stderr)
        return 1
    except BrokenPipeError:
        sys.stdout = None
        print('play: nobody reads the page any more', file=sys.stderr)
        return 1
    except OSError as error:
        sys.stdout = None
        print(f'play: {error.strerror}', file=sys.stderr)
        return 1
    return 0


if __name__ == '__main__':
    sys.exit(main())
