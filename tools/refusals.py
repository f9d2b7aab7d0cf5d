#!/usr/bin/env python3
"""Refuses the built program each of its calls for memory, a thread, a read and a write, one at a time;
and memory, and threads, for good from each call on.

Each text is run once with nothing refused, and then once for each call that it made, with that call
refused (tools/refusing.c stands between the program and the C library). Status, output and errors
have to be those of docs/USAGE.md each time; a device that has failed is not asked again. Then all
calls for memory from the Nth on are refused, and all threads, for N from 1 until a run is not refused
any. How many threads work on a long text at once is counted. The last line counts the runs. Where there is no C
compiler nothing is tried, and that is said.

The driver crates/llfree_oom, where it is built, makes each call of the libraries that takes
memory, and makes it once more where memory or a thread was refused: it has to print the same then.
Where memory is refused for good it has to stop at that call, with all calls before it answered.

    tools/refusals.py [PROGRAM..]
"""
import itertools
import os
import re
import shutil
import subprocess
import sys
import tempfile

HERE = os.path.dirname(os.path.abspath(__file__))
TOP = os.path.dirname(HERE)
DRIVER = os.path.join(TOP, 'crates/llfree_oom')
KINDS = ('MEMORY', 'THREAD', 'READ', 'WRITE')
COUNTED = (*KINDS, 'GOING')
NO_MEMORY = (3, b'', b'llfree: no memory\n')
READ_FAILED = (3, b'', b'llfree: read failed\n')
# what the driver says where a call is refused twice, or what it makes anew for the call; a refused program only ends
STOPPED = (b'no memory\nrefusals of memory: 1\n', b'no memory\nrefusals of memory: 2\n', b'refusals of memory: 1\n')
# bytes that a read gives, and that a write takes
READ_BYTES, WRITTEN_BYTES = 1, 3

IMAGE = b'llfree,1,1,1,\nchild,0,0,0,' + b'0' * 15 + b'7' + b'0' * 112 + b'\ntree,0,0,0,\ncore,0,,,\n'


def example(name):
    with open(os.path.join(TOP, 'examples', f'{name}.csv'), 'rb') as file:
        return file.read()


def texts():
    """Words and a text; the small ones are also read byte by byte."""
    yield 'run 1 1', b'0,take,a,0\n0,take,b,3\n0,take,c,0\n'
    yield 'run 2 1 700', b'0,take,a,9\n0,take,b,7\n0,give,a,\n0,giveat,512,7\n'
    yield 'run 1 1', b',reserve,0,8\n,reserve,16,1\n0,take,a,3\n0,giveat,0,3\n'
    yield 'run 8 2', b'0,take,a,0\n,round,,\n0,move,a,1\n1,give,a,\n0,take,b,5\n'
    yield 'run 24 3', b'0,take,a,9\n1,take,b,0\n2,take,c,8\n,round,,\n1,move,b,2\n2,give,b,\n'
    yield 'run 16 2', b'0,take,a,10\n1,give,a,\n' * 3_500
    yield 'run 1 1', b'0,take,a,0\n0,take,a,x\n'
    yield 'run 1 1', b',reserve,8,4\n,reserve,11,1\n'
    yield 'image 1 1', b'0,take,a,0\n'
    yield 'image 16 2', b'0,take,a,9\n1,take,b,0\n'
    yield 'rebuild', IMAGE
    yield 'report', IMAGE
    yield 'report', IMAGE[:-1] + b'core,1,,,\n'
    yield 'run 1 1', example('every-order')
    yield 'run 16 1', example('huge-frames')
    yield 'rebuild', example('stopped')
    yield 'report', example('stopped')


def refused_text(size):
    """So many bytes of gives, of which the last has a field too few."""
    rows = b'0,give,a,\n' * (size // 10 - 1)
    return rows + b'0,give,'.ljust(size - len(rows) - 1, b'a') + b'\n'


def threads_of(cores):
    """Words, a text, and how many threads work at once: where a long text is read, and where answers are spelled; else
    only a core with records has one."""
    several = cores if cores > 1 else 0
    yield f'run 1 {cores}', refused_text(80_000), several
    yield f'run 1 {cores}', refused_text(65_536), several
    yield f'run 1 {cores}', refused_text(65_535), 0
    yield f'run 1 {cores}', b'0,give,a,\n' * 4_096, several
    yield f'run 1 {cores}', b'0,give,a,\n' * 4_095, min(several, 1)


def is_alone(words):
    """Is there one core, so that each run does the same?"""
    return words.split()[2:3] in ([], ['1'])


class Refusals:
    def __init__(self, program, between, work):
        self.program, self.between, self.counts = program, between, os.path.join(work, 'counts')
        self.runs = self.failed = 0

    def run(self, words, text, **limits):
        """Status, output and errors, and how many calls of each kind there were."""
        surroundings = {'LD_PRELOAD': self.between, 'REFUSE_COUNTS': self.counts}
        surroundings.update({name: str(limit) for name, limit in limits.items()})
        try:
            done = subprocess.run([self.program, *words.split()], input=text, capture_output=True,
                                  env=surroundings, timeout=60, check=False)
            got = done.returncode, done.stdout, done.stderr
        except subprocess.TimeoutExpired:
            got = 'none after 60 s', b'', b''
        self.runs += 1
        counts = dict.fromkeys(COUNTED, 0)
        if os.path.exists(self.counts):  # a program that is killed leaves none
            with open(self.counts, encoding='ascii') as file:
                counts = dict(zip(COUNTED, map(int, file.read().split())))
            os.remove(self.counts)
        return got, counts

    def want(self, condition, words, limits, got):
        if not condition:
            self.failed += 1
            print(f'refusals: {self.program} {words}, {limits}: status {got[0]}, {got[1][:60]}, {got[2][:60]}')

    def refuse(self, words, text, kind, calls, wanted, **limits):
        """Each call of a kind in turn; wanted judges what the program did and which calls it made."""
        for place in range(1, calls + 1):
            limits[f'REFUSE_{kind}'] = place
            got, counts = self.run(words, text, **limits)
            self.want(wanted(place, got, counts), words, limits, got)

    def refuse_for_good(self, words, text, kind, wanted, unrefused):
        """All calls of a kind from each place on, until a run does not come that far; it ends as unrefused wants."""
        for place in itertools.count(1):
            limits = {f'REFUSE_{kind}': place, 'REFUSE_FOR_GOOD': 1}
            got, counts = self.run(words, text, **limits)
            if counts[kind] < place:
                self.want(unrefused(got), words, limits, got)
                return
            self.want(wanted(place, got, counts), words, limits, got)

    def try_text(self, words, text):
        alone, counts = self.run(words, text)
        self.want(alone[0] in (0, 1), words, 'nothing refused', alone)
        is_accepted, is_single = alone[0] == 0, is_alone(words)

        def is_memory_told(place, got, seen):
            if got == NO_MEMORY:
                return True
            if not is_accepted:
                return got == alone  # the bad record was reached first
            # with threads: fewer calls this time, or one that the start of threads can do without
            return not is_single and got[0] == 0 and not got[2]

        self.refuse(words, text, 'MEMORY', counts['MEMORY'], is_memory_told)
        self.refuse(words, text, 'THREAD', counts['THREAD'], lambda place, got, seen: got == NO_MEMORY)

        def is_answered(got):
            return got == alone or not is_single and got[0] == 0 and not got[2]

        self.refuse_for_good(words, text, 'MEMORY', is_memory_told, is_answered)
        self.refuse_for_good(words, text, 'THREAD', lambda place, got, seen: got == NO_MEMORY, is_answered)
        if len(text) < 500:
            self.try_devices(words, text, alone)

    def try_devices(self, words, text, alone):
        got, counts = self.run(words, text, MOST_READ=READ_BYTES)
        self.want(got == alone or not is_alone(words) and got[0] == alone[0], words, f'{READ_BYTES} bytes a read', got)
        self.refuse(words, text, 'READ', counts['READ'],
                    lambda place, got, seen: got == READ_FAILED and seen['READ'] == place, MOST_READ=READ_BYTES)
        if alone[0] != 0 or not is_alone(words):
            return
        got, counts = self.run(words, text, MOST_WRITTEN=WRITTEN_BYTES)
        self.want(got == alone, words, f'{WRITTEN_BYTES} bytes a write', got)

        def is_prefix(place, got, seen):
            prefix = alone[1][:WRITTEN_BYTES * (place - 1)]
            return got == (3, prefix, b'llfree: write failed\n') and seen['WRITE'] == place

        for how in {}, {'REFUSE_WITH': 0}:
            self.refuse(words, text, 'WRITE', counts['WRITE'], is_prefix, MOST_WRITTEN=WRITTEN_BYTES, **how)

    def try_threads(self):
        """So many threads at once as the pages say, where text alone is worked on: no record is another core's."""
        for cores in 1, 2, 4, 8:
            for words, text, threads in threads_of(cores):
                got, counts = self.run(words, text)
                self.want(got[0] in (0, 1) and counts['GOING'] == threads, words,
                          f'{len(text)} bytes, {threads} threads at once, {counts["GOING"]} seen', got)

    def try_calls(self):
        """The driver counts what was refused, and the calls are answered as if nothing had been."""
        with open(os.path.join(DRIVER, 'stdout'), 'rb') as file:
            answered = file.read()
        alone, counts = self.run('', b'')
        self.want(alone == (0, answered, b'refusals of memory: 0\n'), '', 'nothing refused', alone)
        told, untold = (0, answered, b'refusals of memory: 1\n'), []

        def is_answered(place, got, seen):
            if got == alone:
                untold.append(place)
            return got in (alone, told)

        self.refuse('', b'', 'MEMORY', counts['MEMORY'], is_answered)
        # one in each start of a thread can be done without
        self.want(len(untold) <= counts['THREAD'], '', f'untold at {untold}', alone)
        self.refuse('', b'', 'THREAD', counts['THREAD'], lambda place, got, seen: got == told)
        self.try_calls_for_good(alone)

    def try_calls_for_good(self, alone):
        """The driver stops at the call that is refused twice; those before it are answered, and each has its turn."""
        stops = []

        def is_stopped(place, got, seen):
            stopped = re.fullmatch(rb'(\d+) calls answered\n', got[1])
            stops.append(int(stopped[1]) if stopped else -1)
            return got[0] == 0 and got[2] in STOPPED

        self.refuse_for_good('', b'', 'MEMORY', is_stopped, lambda got: got == alone)
        every = list(range(int(alone[1].split()[0])))
        self.want(stops == sorted(stops) and sorted({*stops}) == every, '', f'stopped at {stops}', alone)


def main():
    programs = sys.argv[1:] or [os.path.join(TOP, 'crates/llfree/out/llfree')]
    compiler = shutil.which('cc')
    if not compiler:
        print('skipped: refused calls, for want of cc (gcc)\n0 passed, 0 failed')
        return 0
    runs = failed = 0
    with tempfile.TemporaryDirectory() as work:
        between = os.path.join(work, 'refusing.so')
        subprocess.run([compiler, '-O2', '-Wall', '-Wextra', '-shared', '-fPIC', '-o', between,
                        os.path.join(HERE, 'refusing.c'), '-ldl'], check=True)
        for program in programs:
            if not os.access(program, os.X_OK):
                print(f'refusals: {program}: not built')
                runs, failed = runs + 1, failed + 1
                continue
            refusals = Refusals(os.path.abspath(program), between, work)
            for words, text in texts():
                refusals.try_text(words, text)
            refusals.try_threads()
            runs, failed = runs + refusals.runs, failed + refusals.failed
        driver = os.path.join(DRIVER, 'out/llfree_oom')
        if os.path.exists(driver):
            refusals = Refusals(driver, between, work)
            refusals.try_calls()
            runs, failed = runs + refusals.runs, failed + refusals.failed
        else:
            print('refusals: crates/llfree_oom is not built, so its calls are not tried')
    print(f'{runs - failed} passed, {failed} failed')
    return 1 if failed else 0


if __name__ == '__main__':
    sys.exit(main())
