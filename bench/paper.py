#!/usr/bin/env python3
"""The results of bench/paper.sh, as lines of csv or as a table.

    bench/paper.py --lines FILE            the lines of the programs of bench/paper, one for each round: prints csv, a
                                           line for each case, with a column for each allocator
    bench/paper.py RESULT.csv [--only NAME ..] [--measure NAME ..]    prints that as a table of Markdown
"""
import argparse
import csv
import statistics
import sys

CASE = ('benchmark', 'GiB', 'threads', 'order', 'case', 'measure')
ALLOCATORS = {'llfree': 'by numbers', 'unchecked': 'in structs', 'resting': 'resting frames',
              'two': 'two handles', 'lists': 'per-CPU lists', 'buddy': 'buddy, mutex', 'bitmap': 'bitmap, mutex',
              'malloc': 'malloc'}
FRAMES = 262144  # of a GiB


def figure_of(measure, rounds):
    """What stands for all rounds: the least time, the median of a percentile, the mean of all else."""
    if measure.endswith('ns') or measure == 'worst':
        return min(rounds)
    return statistics.median(rounds) if measure.startswith('p') else statistics.mean(rounds)


def cases_of(lines):
    """The rounds of each allocator, by case."""
    cases = {}
    for name, frames, threads, order, case, measure, allocator, value in csv.reader(lines):
        key = (name, f'{int(frames) / FRAMES:g}', threads, order, case, measure)
        cases.setdefault(key, {}).setdefault(allocator, []).append(float(value))
    return cases


def write_csv(lines):
    out = csv.writer(sys.stdout, lineterminator='\n')
    out.writerow([*CASE, *ALLOCATORS])
    for key, rounds in cases_of(lines).items():
        figures = [figure_of(key[-1], rounds[it]) if it in rounds else None for it in ALLOCATORS]
        out.writerow([*key, *('' if it is None else f'{it:.0f}' if it >= 1000 else f'{it:.4g}' for it in figures)])


def write_table(lines, names, measures):
    table = csv.DictReader(it for it in lines if not it.startswith('#'))
    if not set(CASE) <= set(table.fieldnames or ()):
        raise ValueError('it is no result of bench/paper.sh')
    rows = [row for row in table
            if (not names or row['benchmark'] in names) and (not measures or row['measure'] in measures)]
    # an earlier result has no column for what was not measured then
    measured = [it for it in ALLOCATORS if any(row.get(it) for row in rows)]
    print('| ' + ' | '.join([*CASE[1:], *(ALLOCATORS[it] for it in measured)]) + ' |')
    print('|---' * (len(CASE) - 1 + len(measured)) + '|')
    for row in rows:
        print('| ' + ' | '.join(row[it] for it in [*CASE[1:], *measured]) + ' |')


def main():
    parser = argparse.ArgumentParser(description=__doc__.split('\n', maxsplit=1)[0])
    parser.add_argument('file')
    parser.add_argument('--lines', action='store_true', help='the file has the lines of the programs')
    parser.add_argument('--only', nargs='+', metavar='NAME', help='these benchmarks, as phases')
    parser.add_argument('--measure', nargs='+', metavar='NAME', help='these measures, as ns')
    given = parser.parse_args()
    try:
        with open(given.file, encoding='utf-8') as lines:
            if given.lines:
                write_csv(lines)
            else:
                write_table(lines, given.only, given.measure)
        sys.stdout.flush()
    except BrokenPipeError:
        sys.stdout = None
        sys.exit('paper: nobody reads the table any more')
    except (OSError, ValueError) as error:
        sys.exit(f'paper: {given.file}: {error}')


if __name__ == '__main__':
    main()
