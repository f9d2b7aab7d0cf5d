#!/usr/bin/env python3
"""Measures `llfree run` of a million records on 1, 2 and 4 cores, which share the records evenly.

Each core takes and gives blocks in its own round, on a tree of its own. All runs are made in turn, some
times over. Printed are the cores, the least wall time, the same for records that are refused without a
step (what text and threads cost), how many times the records a second of one core that makes, and the
greatest memory of a run for each record. It needs a built build/llfree. UNDER stands before the program, as
in 'chrt -f 10'; OTHER is another build of it, which is measured in turn with it.
"""
import os
import subprocess
import sys
import tempfile
import time

RECORDS = 1_000_000
CHILDREN = int(os.environ.get('CHILDREN', '1024'))
RUNS = int(os.environ.get('RUNS', '5'))
HERE = os.path.dirname(os.path.abspath(__file__))
PROGRAMS = {'build/llfree': os.path.join(HERE, '../build/llfree')}
if os.environ.get('OTHER'):
    PROGRAMS['the other'] = os.environ['OTHER']
UNDER = os.environ.get('UNDER', '').split()


def trace(cores, kind):
    """Pairs of a take and a give of small blocks, or of records that fail without a step."""
    rows = []
    for place in range(RECORDS // 2):
        core = place % cores
        if kind == 'pairs':
            rows.append(f'{core},take,x,{place // cores % 4}\n{core},give,x,\n')
        else:
            rows.append(f'{core},take,x,10\n{core},give,x,\n')
    return ''.join(rows)


def run(program, cores, name):
    """Wall seconds, and the greatest memory in bytes."""
    with open(name, 'rb') as text:
        start = time.perf_counter()
        child = subprocess.Popen([*UNDER, PROGRAMS[program], 'run', str(CHILDREN), str(cores)], stdin=text,
                                 stdout=subprocess.DEVNULL)
        _, status, usage = os.wait4(child.pid, 0)
        spent = time.perf_counter() - start
    if status:
        sys.exit(f'{name}: status {status}')
    return spent, usage.ru_maxrss * 1024


def shows(text):
    """How far it is, in one line of standard error, where that is a terminal; no text clears it."""
    if sys.stderr.isatty():
        print(f'\r\033[K{text}', end='', file=sys.stderr, flush=True)


def main():
    cases = [(program, cores, kind) for cores in (1, 2, 4) for kind in ('pairs', 'refused') for program in PROGRAMS]
    least, most = {}, {}
    with tempfile.TemporaryDirectory() as folder:
        names = {}
        for _, cores, kind in cases:
            names[cores, kind] = os.path.join(folder, f'{kind}-{cores}')
            with open(names[cores, kind], 'w', encoding='ascii') as out:
                out.write(trace(cores, kind))
        for turn in range(1, RUNS + 1):
            shows(f'run {turn} of {RUNS}')
            for case in cases:
                spent, memory = run(*case[:2], names[case[1:]])
                least[case] = min(spent, least.get(case, spent))
                most[case] = max(memory, most.get(case, memory))
    shows('')
    print(f'{"program":<12} {"cores":>5} {"pairs s":>9} {"times":>6} {"no step s":>10} {"bytes a record":>15}')
    for program in PROGRAMS:
        for cores in (1, 2, 4):
            pairs, none = least[program, cores, 'pairs'], least[program, cores, 'refused']
            times = least[program, 1, 'pairs'] / pairs
            print(f'{program:<12} {cores:>5} {pairs:>9.3f} {times:>6.2f} {none:>10.3f} '
                  f'{most[program, cores, "pairs"] / RECORDS:>15.0f}')


if __name__ == '__main__':
    main()
