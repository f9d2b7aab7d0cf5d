#!/usr/bin/env python3
"""Draws what a script of bench/ has measured: how many pairs of a take and a give a second, over threads; of a
recording that is replayed, how many takes and gives.

    bench/plot.py bench/results/FILE [--only GROUP ..] [--slide] > PLOT.svg
    bench/plot.py --measure allocator|c|pairs|paper|replay [--only GROUP ..] > PLOT.svg

A file of bench/results has lines `# machine:`, `# date:`, `# method:` and then the table as the script prints it,
with a line for each number of threads, or a csv: of bench/paper.sh's the phases are drawn, of one with columns
threads, order, who and ns all. A group is an order, or an order behind a kind of work, trees or a phase
(`random,mixed`, `one tree,0`, `take,9`); with none named all are drawn. The plot is for light and dark pages. With
--slide it has no line on machine and method, which belongs beside it then. --measure runs the script first, which takes
its time, and lays down such a file, a new one at each run.
"""
import argparse
import csv
import datetime
import math
import os
import re
import subprocess
import sys
import textwrap

HERE = os.path.dirname(os.path.abspath(__file__))
WIDTH, ACROSS, LEFT, EDGE, GAP = 860, 3, 44, 12, 42
# how high a panel is among others, and alone
AMONG_OTHERS, ALONE = 190, 300
# how much of an axis is free outside of the least and the greatest figure, as a factor
ROOM = 1.15
FONT = 'font-family="DejaVu Sans, Verdana, sans-serif"'
# a column of a table, what it is called, and its colour on light and on dark paper
ALLOCATORS = (
    ('llfree', 'LLFree', '#b3123f', '#ff7b9c'),
    ('unchecked', 'LLFree, blocks in structs', '#e27a97', '#d0587c'),
    ('resting', 'LLFree, resting frames', '#0f8b8d', '#4fd1c5'),
    ('own', 'LLFree, from Rust', '#7a3b4d', '#b98a98'),
    ('plain', 'LLFree for one thread', '#9a8f93', '#8d8387'),
    ('reference', 'lock-free in plain Rust', '#336fa5', '#6cb0f0'),
    ('lists', 'buddy, per-CPU lists', '#2f6fb0', '#6cb0f0'),
    ('malloc', 'malloc', '#7a5ea8', '#b79bf0'),
    ('buddy', 'buddy, mutex', '#e08a1e', '#f2b04c'),
    ('bitmap', 'bitmap, mutex', '#4f8f3a', '#8fd07f'),
)


PHASES = 'take', 'give', 'pair', 'foreign'


def style(columns):
    """The colours of these lines, by what a browser prefers."""
    def rules(place, paper, text, grid):
        lines = ''.join(f'.{row[0]}{{stroke:{row[2 + place]};fill:none}}.{row[0]}-dot{{fill:{row[2 + place]}}}'
                        for row in ALLOCATORS if row[0] in columns)
        return f'.paper{{fill:{paper}}}text{{fill:{text}}}.grid{{stroke:{grid}}}{lines}'
    return (f'<style>{rules(0, "#ffffff", "#24292f", "#dfe4e9")}'
            f'@media (prefers-color-scheme: dark){{{rules(1, "#0d1117", "#e6edf3", "#30363d")}}}</style>')


class Fault(Exception):
    """Why nothing can be drawn, in one sentence."""


# Tables


def cells_of(text):
    """The words of a line with the columns that they end at; a unit belongs to the word before it."""
    return [(match[0], match.end()) for match in re.finditer(r'\S+(?: ns)?', text)]


def phases_of(table):
    """The phases of bench/paper.sh, as a table has them."""
    for row in csv.DictReader(table):
        if row['benchmark'] == 'phases':
            figures = {f'{column} ns': row[column] for column, *_ in ALLOCATORS if row.get(column)}
            yield {'threads': row['threads'], 'phase': row['case'], 'order': row['order'], **figures}


def pairs_of(table):
    """The figures of bench/c/pairs.c, each in a row of its own."""
    for row in csv.DictReader(table):
        yield {'threads': row['threads'], 'order': row['order'], f'{row["who"]} ns': row['ns']}


def rows_of(table):
    """The rows of a table, each a cell by the name of its column. The columns are flush right, but for the first, which
    alone may have two words."""
    for start, rows in ('benchmark,', phases_of), ('threads,order,who,ns', pairs_of):
        if table[0].startswith(start):
            yield from rows(table)
            return
    head, *lines = table
    ends = {end: name for name, end in cells_of(head)}
    first = cells_of(head)[0][0]
    for line in lines:
        row = {}
        for match in re.finditer(r'^[a-z]+ [a-z]+|\S+', line):
            name = first if match.start() == 0 else ends.get(match.end())
            if name is not None:
                row[name] = match[0]
        yield row


def group_of(row):
    return ','.join(row[name] for name in ('work', 'trees', 'phase', 'order') if name in row)


def result_of(text):
    """What is said of a measurement, and of each group, of each allocator, the pairs a second by threads."""
    said = dict(re.findall(r'^# (\w+): (.*)$', text, re.MULTILINE))
    table = [line for line in text.splitlines() if line and not line.startswith('#')]
    if not {'machine', 'date', 'method'} <= said.keys() or not table:
        raise Fault('a result has lines "# machine:", "# date:" and "# method:", and then a table')
    groups = {}
    for row in rows_of(table):
        if 'threads' not in row:
            continue
        figures, threads = groups.setdefault(group_of(row), {}), int(row['threads'])
        for column, *_ in ALLOCATORS:
            if f'{column} ns' in row:
                figures.setdefault(column, []).append((threads, 1000 * threads / float(row[f'{column} ns'])))
    if not any(groups.values()):
        raise Fault('the table has no column "threads", or none of allocators beside it')
    return said, groups


# The plot


def heading_of(groups):
    """What is drawn. The table of a recording tells no orders, so it has one group, without a name."""
    if list(groups) == ['']:
        return 'Page frames of a kernel, replayed: million takes and gives a second of all threads (logarithmic)'
    if any(name.split(',')[0] in PHASES for name in groups):
        return 'Takes and gives in 8 GiB: million a second of all threads, pairs in their panel (logarithmic)'
    return 'A take and a give of page frames: million pairs a second of all threads (logarithmic)'


def title_of(group):
    """A group in words."""
    if not group:
        return 'takes and gives as recorded'
    *kind, order = group.split(',')
    kinds = {'pairs': 'take and give', 'fill': 'fill and empty', 'random': 'random, half held' if order == 'mixed' else 'gives in random order',
             'own trees': 'trees of their own', 'one tree': 'all on one tree',
             'take': 'takes in a row', 'give': 'gives in that order', 'pair': 'take and give',
             'foreign': 'gives of what others took'}
    words = 'mixed orders' if order == 'mixed' else f'order {order}'
    return ', '.join([kinds.get(word, word) for word in kind] + [words])


def axis_of(least, most):
    """What a logarithmic axis begins and ends with, a little outside of all figures, and the round numbers on it; where
    they are fewer than two, it ends with those outside."""
    steps = [step * 10.0 ** power for power in range(-4, 7) for step in (1, 2, 5)]
    low, high = least / ROOM, most * ROOM
    if sum(low <= step <= high for step in steps) < 2:
        low, high = max(step for step in steps if step <= least), min(step for step in steps if step >= most)
    return low, high, [step for step in steps if low <= step <= high]


def high_of(many):
    return ALONE if many == 1 else AMONG_OTHERS


class Panel:
    """Where the points of a group are: threads to the right, the logarithm of pairs a second upward. Few groups share
    the whole width."""

    def __init__(self, place, of, top, threads, axis):
        across = min(of, ACROSS)
        self.width = (WIDTH - LEFT - EDGE - (across - 1) * GAP) // across
        self.left = LEFT + place % ACROSS * (self.width + GAP)
        self.high = high_of(of)
        self.top = top + 24 + place // ACROSS * (self.high + 70)
        self.threads, (self.least, self.most, self.ticks) = threads, axis

    def right_of(self, threads):
        at = self.threads.index(threads)
        return self.left + 16 + at * (self.width - 32) / max(1, len(self.threads) - 1)

    def height_of(self, figure):
        low, high = math.log10(self.least), math.log10(self.most)
        return self.top + self.high * (high - math.log10(figure)) / (high - low)

    def frame(self, title):
        yield (f'<text x="{self.left}" y="{self.top - 10}" font-size="13" font-weight="bold">'
               f'{title}</text>')
        for tick in self.ticks:
            height = self.height_of(tick)
            yield f'<path d="M{self.left} {height:.1f}h{self.width}" class="grid"/>'
            yield (f'<text x="{self.left - 5}" y="{height + 4:.1f}" font-size="11" text-anchor="end">'
                   f'{tick:g}</text>')
        for threads in self.threads:
            yield (f'<text x="{self.right_of(threads):.1f}" y="{self.top + self.high + 16}" font-size="11" '
                   f'text-anchor="middle">{threads}</text>')
        yield (f'<text x="{self.left + self.width // 2}" y="{self.top + self.high + 31}" font-size="11" '
               f'text-anchor="middle">threads</text>')

    def line(self, points, column, width):
        places = [(self.right_of(threads), self.height_of(figure)) for threads, figure in points]
        path = ' '.join(f'{right:.1f},{height:.1f}' for right, height in places)
        yield f'<polyline points="{path}" class="{column}" stroke-width="{width}"/>'
        if len(places) == 1:
            # a ring, which is seen around a point of another line
            right, height = places[0]
            yield (f'<circle cx="{right:.1f}" cy="{height:.1f}" r="7" class="{column}" stroke-width="2"/>')
        for right, height in places:
            yield f'<circle cx="{right:.1f}" cy="{height:.1f}" r="{width // 2 + 2}" class="{column}-dot"/>'


def keys_of(columns):
    """The names of the lines, each with its row and its place in it."""
    row, right = 0, 10
    for column, name, *_ in ALLOCATORS:
        if column in columns:
            wide = 46 + 7 * len(name)
            if right + wide > WIDTH:
                row, right = row + 1, 10
            yield row, right, name, column
            right += wide


def key(keys, height):
    for row, right, name, column in keys:
        line = height + 18 * row
        yield f'<path d="M{right} {line - 4}h22" class="{column}" stroke-width="3"/>'
        yield f'<text x="{right + 27}" y="{line}" font-size="12">{name}</text>'


def escaped(text):
    return text.replace('&', '&amp;').replace('<', '&lt;').replace('>', '&gt;')


def plot(said, groups, is_slide):
    figures = [point for group in groups.values() for points in group.values() for point in points]
    axis = axis_of(min(figure for _, figure in figures), max(figure for _, figure in figures))
    threads = sorted({count for count, _ in figures})
    told = [] if is_slide else textwrap.wrap(f'{said["date"]}, {said["machine"]}: {said["method"]}', 140)
    columns = {column for group in groups.values() for column in group}
    keys = list(keys_of(columns))
    more = 18 * keys[-1][0]
    top = 66 + 15 * len(told) + more + (10 if told else 0)
    height = top + -(-len(groups) // ACROSS) * (high_of(len(groups)) + 70)
    yield (f'<svg xmlns="http://www.w3.org/2000/svg" width="{WIDTH}" height="{height}" '
           f'viewBox="0 0 {WIDTH} {height}" role="img" {FONT}>')
    yield f'<title>{heading_of(groups)}</title>'
    yield style(columns)
    yield f'<rect width="{WIDTH}" height="{height}" class="paper"/>'
    yield f'<text x="10" y="24" font-size="15">{heading_of(groups)}</text>'
    for place, text in enumerate(told):
        yield f'<text x="10" y="{44 + 15 * place}" font-size="11">{escaped(text)}</text>'
    yield from key(keys, top - more - 14)
    for place, (group, lines) in enumerate(groups.items()):
        panel = Panel(place, len(groups), top, threads, axis)
        yield from panel.frame(title_of(group))
        for column, *_ in ALLOCATORS:
            if column in lines:
                yield from panel.line(lines[column], column, 4 if column == 'llfree' else 2)
    yield '</svg>'


# Measurements


def machine():
    """The processors of this machine, in words."""
    with open('/proc/cpuinfo', encoding='utf-8') as text:
        names = re.findall(r'^model name\s*: (.*)$', text.read(), re.MULTILINE)
    return f'{os.cpu_count()} processors: {names[0] if names else "of a kind that is not told"}'


def unused(name, day):
    """A file of bench/results for a measurement: the second of a day has its number behind the day."""
    numbers = [''] + [f'-{number}' for number in range(2, 100)]
    for number in numbers:
        file = os.path.join(HERE, 'results', f'{name}-{day}{number}.{"csv" if name == "paper" else "txt"}')
        if not os.path.exists(file):
            return file
    raise Fault(f'bench/results has {len(numbers)} measurements {name} of {day}')


def measured(name):
    """Runs a script of this folder, lays its table down beside what is said of it, and answers that text."""
    day = datetime.date.today().isoformat()
    settings = [f'{word}={os.environ[word]}' for word in ('RUNS', 'ROUNDS', 'PAIRS', 'REPEATS', 'CHILDREN', 'UNDER') if word in os.environ]
    if sys.stderr.isatty():
        print(f'plot: bench/{name}.sh measures; this takes some minutes', file=sys.stderr)
    done = subprocess.run([os.path.join(HERE, f'{name}.sh')], stdout=subprocess.PIPE, text=True, check=False)
    if done.returncode:
        raise Fault(f'bench/{name}.sh ended with status {done.returncode}')
    text = (f'# machine: {machine()}\n# date: {day}\n# method: {" ".join([*settings, f"bench/{name}.sh"])}, '
            f'load {os.getloadavg()[0]:.1f} at the end\n{done.stdout}')
    file = unused(name, day)
    with open(file, 'x', encoding='utf-8') as out:
        out.write(text)
    print(f'plot: the table is in {os.path.relpath(file)}', file=sys.stderr)
    return text


def text_of(given):
    if given.measure:
        return measured(given.measure)
    if given.file is None and sys.stdin is None:
        raise Fault('standard input is closed')
    try:
        with sys.stdin if given.file is None else open(given.file, encoding='utf-8') as text:
            return text.read()
    except OSError as error:
        raise Fault(f'{given.file}: {error.strerror}') from error
    except UnicodeDecodeError as error:
        raise Fault(f'{given.file or "standard input"} is no text') from error


def main():
    parser = argparse.ArgumentParser(description=__doc__.split('\n', maxsplit=1)[0])
    parser.add_argument('file', nargs='?', help='a file of bench/results; standard input where none is named')
    parser.add_argument('--measure', choices=('allocator', 'c', 'pairs', 'paper', 'replay'), help='measure first')
    parser.add_argument('--slide', action='store_true', help='without the line on machine and method')
    parser.add_argument('--only', nargs='+', metavar='GROUP', help="as '0', or 'pairs,0'")
    given = parser.parse_args()
    try:
        if sys.stdout is None:
            raise Fault('standard output is closed')
        said, groups = result_of(text_of(given))
        for name in given.only or ():
            if name not in groups:
                raise Fault(f'there is no group {name}; there are {" ".join(groups)}')
        groups = {name: groups[name] for name in given.only or groups}
        print('\n'.join(plot(said, groups, given.slide)), flush=True)
    except BrokenPipeError:
        sys.stdout = None
        print('plot: nobody reads the plot any more', file=sys.stderr)
        return 1
    except OSError as error:
        sys.stdout = None
        print(f'plot: standard output: {error.strerror}', file=sys.stderr)
        return 1
    except Fault as fault:
        print(f'plot: {fault}', file=sys.stderr)
        return 1
    return 0


if __name__ == '__main__':
    sys.exit(main())
