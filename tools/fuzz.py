#!/usr/bin/env python3
"""Tries the built program on malformed texts, and judges each answer by a plain checker of its own.

Traces and images are made, damaged byte by byte, cut, repeated, quoted and stretched, and run through
`run`, `image`, `rebuild` and `report`. Status, output and errors have to be just what docs/USAGE.md
and docs/FORMATS.md say of that text: the checker reads it again by the rules of tools/records.py, finds the
record that is refused, and follows the answers of what is accepted frame by frame. Some texts are long enough to be
read in parts: about the places where they are cut the records are quoted, ended and broken in all ways. One seed tries
the same cases each time; each case that fails is kept as a file. An answer may take the seconds that are named (1), and
as many for each million bytes of its text.

    tools/fuzz.py [--cases N] [--seed N] [--jobs N] [--seconds N] [--program FILE] [--under WORDS]
"""
import argparse
import collections
import functools
import itertools
import multiprocessing
import operator
import os
import random
import subprocess
import sys
import tempfile
import time

import records
from records import CHILD_FRAMES, HUGE_ORDER, MARK, MOST_BYTES, MOST_RECORDS, TREE_CHILDREN, Refused

USAGE = (b'usage: llfree run CHILDREN CORES [FRAMES] | llfree image CHILDREN CORES [FRAMES]'
         b' | llfree rebuild | llfree report\n')


class Wrong(Exception):
    """An answer that is not what the pages say."""


def expect(condition, text):
    if not condition:
        raise Wrong(text)


# Memories


class Desk:
    """The blocks of a core: by label, the oldest first, and the label of each."""

    def __init__(self):
        self.blocks, self.labels = {}, {}

    def add(self, label, block):
        self.blocks.setdefault(label, collections.OrderedDict())[block] = None
        self.labels[block] = label

    def oldest(self, label):
        return next(iter(self.blocks.get(label, ())), None)

    def remove(self, block):
        del self.blocks[self.labels.pop(block)][block]


class Memory:
    """Which frames are held, and what each core holds, in the order in which it came."""

    def __init__(self, children, cores, frames, ranges):
        self.children, self.cores, self.frames = children, cores, frames
        self.fixed = bytearray(frames) + b'\1' * (CHILD_FRAMES * children - frames)
        for start, count in ranges:
            self.fixed[start:start + count] = b'\1' * count
        self.held = bytearray(self.fixed)
        self.desks = [Desk() for _ in range(cores)]

    def is_free(self, frame, order):
        size = 1 << order
        part = self.held[frame:frame + size]
        return frame % size == 0 and len(part) == size and not any(part)

    def has_free(self, order):
        size = 1 << order
        frame = self.held.find(bytes(size))
        while frame > 0 and frame % size:
            frame = self.held.find(bytes(size), frame + size - frame % size)
        return frame >= 0

    def hold(self, frame, order):
        expect(self.is_free(frame, order), 'a block that is not free')
        self.held[frame:frame + (1 << order)] = b'\1' * (1 << order)

    def leave(self, frame, order):
        self.held[frame:frame + (1 << order)] = bytes(1 << order)


def take(memory, line, word, block):
    if line.order > HUGE_ORDER:
        expect(word == 'BadOrder', 'a bad order that is taken')
    elif word == 'Taken':
        expect(block[1] == line.order, 'a block of another order')
        memory.hold(*block)
        memory.desks[line.core].add(line.label, block)
    else:
        expect(word == 'NoBlock' or (word == 'Contended' and memory.cores > 1), f'{word} for a take')
        expect(memory.cores > 1 or not memory.has_free(line.order), 'no block, where one is free')


def leave(memory, line, word, block):
    """A give, or a move to another core."""
    desk = memory.desks[line.core]
    if line.kind == 'giveat' and line.order > HUGE_ORDER:
        expect(word == 'BadOrder', 'a bad order that is given')
        return
    asked = (line.frame, line.order)
    left = (asked if asked in desk.labels else None) if line.kind == 'giveat' else desk.oldest(line.label)
    if left is None:
        expect(word == 'NotHeld', f'{word} of what is not held')
        return
    expect(word == ('Moved' if line.kind == 'move' else 'Given') and block == left, 'another block')
    desk.remove(left)
    if line.kind == 'move':
        memory.desks[line.to].add(line.label, left)
    else:
        memory.leave(*left)


def follow(memory, line, word, block):
    (take if line.kind == 'take' else leave)(memory, line, word, block)


def frames_of(block):
    return range(block[0], block[0] + (1 << block[1]))


class Holding:
    """What a core holds in a round, by how many of its takes and gives were answered: its blocks at first, what each
    answer changes, and of each frame when it is held, a bit for each number."""

    def __init__(self, blocks, answers):
        self.blocks, self.changes = blocks, [answer for answer in answers if answer[1]]
        self.whole, self.frames = (2 << len(self.changes)) - 1, collections.defaultdict(int)
        since = dict.fromkeys(blocks, 0)
        for place, (word, block) in enumerate(self.changes, 1):
            if word == 'Taken':
                since[block] = place
            else:
                self.note(block, (1 << place) - (1 << since.pop(block)))
        for block, first in since.items():
            self.note(block, self.whole + 1 - (1 << first))

    def note(self, block, when):
        for frame in frames_of(block):
            self.frames[frame] |= when

    def when(self, block):
        return any_of(self.frames.get(frame, 0) for frame in frames_of(block))


def any_of(bits):
    return functools.reduce(operator.or_, bits, 0)


def has_order(one, other):
    """Whether the answers of two cores have an order in which no frame is held by both at once: goes along those of
    one, with the numbers of the other's that may have been answered by then."""
    children = collections.defaultdict(dict)
    for block in one.blocks:
        children[block[0] // CHILD_FRAMES][block] = other.when(block)
    bars = {child: any_of(held.values()) for child, held in children.items()}
    reached = through(1, other.whole & ~any_of(bars.values()))
    for word, block in one.changes:
        child = block[0] // CHILD_FRAMES
        if word == 'Taken':
            children[child][block] = other.when(block)
        else:
            del children[child][block]
        bars[child] = any_of(children[child].values())
        reached = through(reached, other.whole & ~any_of(bars.values()))
    return reached > other.whole >> 1


def through(reached, clear):
    """Those reached that are clear, and the clear ones straight above them, through which the sum carries each."""
    reached &= clear
    return reached | clear & (clear ^ clear + reached)


def follow_round(memory, pairs):
    """The answers of one round. Its cores run side by side: a block may be given by one and taken by
    another in either order of the answers, so each core is followed by itself, what all of them
    hold in the end has to be apart, and any two have an order in which it always was."""
    if memory.cores == 1:
        for line, answer in pairs:
            follow(memory, line, *answer)
        return
    first = [list(desk.labels) for desk in memory.desks]
    for core in {line.core for line, _ in pairs}:
        memory.held = bytearray(memory.fixed)
        for block in memory.desks[core].labels:
            memory.hold(*block)
        for line, answer in pairs:
            if line.core == core:
                follow(memory, line, *answer)
    memory.held = bytearray(memory.fixed)
    for desk in memory.desks:
        for block in desk.labels:
            memory.hold(*block)
    holdings = [Holding(blocks, [answer for line, answer in pairs if line.core == core])
                for core, blocks in enumerate(first)]
    for one, other in itertools.combinations(holdings, 2):
        expect(has_order(one, other), 'a block of two cores at once')


def answers_of(output):
    rows = output.decode('ascii').split('\n')
    expect(rows.pop() == '', 'no line feed at the end')
    return [row.split(',') for row in rows]


def check_answers(memory, lines, output):
    rows = answers_of(output)
    last = rows.pop()
    asked = [(place, line) for place, line in enumerate(lines, 1) if line.kind not in ('round', 'reserve')]
    expect(len(rows) == len(asked), 'an answer for each record')
    answers = {}
    for (place, line), row in zip(asked, rows):
        expect(len(row) == 5 and row[:2] == [str(place), str(line.core)], 'an answer of another record')
        block = (int(row[3]), int(row[4])) if row[2] in ('Taken', 'Given', 'Moved') else None
        expect(block is not None or row[3:] == ['', ''], 'a refusal with a block')
        expect(block is None or row[3:] == [str(part) for part in block], 'a number in another form')
        answers[place] = (row[2], block)
    pairs = []
    for place, line in enumerate(lines, 1):
        if line.kind in ('round', 'move'):
            follow_round(memory, pairs)
            pairs = []
        if line.kind == 'move':
            follow(memory, line, *answers[place])
        elif place in answers:
            pairs.append((line, answers[place]))
    follow_round(memory, pairs)
    held = sum(memory.held)
    expect(last == ['end', '', 'Closed', str(held), str(len(memory.held) - held)], 'another end')


# Images


def bits_in(number):
    return bin(number).count('1')


class Image(records.Image):
    def clear(self, child):
        """The frames of a child that are not held, by its bits and its flag, a bit for each."""
        return 0 if self.huge[child] else ~self.words[child] & (1 << CHILD_FRAMES) - 1

    def rebuilt(self):
        new = Image(self.children, self.cores, self.frames)
        new.huge = self.huge
        new.words = [0 if huge else words for huge, words in zip(self.huge, self.words)]
        new.free = [bits_in(self.clear(child)) for child in range(self.children)]
        new.tree = [(sum(new.free[TREE_CHILDREN * t:TREE_CHILDREN * (t + 1)]), 0) for t in range(self.trees)]
        new.local = [None] * self.cores
        return new

    def text(self):
        whole = self.frames == CHILD_FRAMES * self.children
        rows = [f'llfree,1,{self.children},{self.cores},' if whole
                else f'llfree,2,{self.children},{self.cores},{self.frames}']
        for child in range(self.children):
            words = ''.join(f'{self.words[child] >> 64 * w & 2**64 - 1:016x}' for w in range(8))
            rows.append(f'child,{child},{self.free[child]},{self.huge[child]},{words}')
        for tree, (free, reserved) in enumerate(self.tree):
            rows.append(f'tree,{tree},{free},{reserved},')
        for core, rest in enumerate(self.local):
            rows.append(f'core,{core},,,' if rest is None else f'core,{core},{rest[0]},{rest[1]},')
        return ('\n'.join(rows) + '\n').encode()

    def report(self):
        rows = []
        for tree in range(self.trees):
            first = TREE_CHILDREN * tree
            clears = [self.clear(child) for child in range(first, min(first + TREE_CHILDREN, self.children))]
            free = sum(bits_in(clear) for clear in clears)
            blocks = []
            for order in range(HUGE_ORDER + 1):
                size = 1 << order
                run = (1 << size) - 1
                blocks.append(sum((clear >> place) & run == run
                                  for clear in clears for place in range(0, CHILD_FRAMES, size)))
            rows.append([self.tree_size(tree) - free, free, *blocks])
        total = [sum(column) for column in zip(*rows)]
        named = [f'tree,{tree}' for tree in range(self.trees)] + ['all,']
        return ''.join(f'{name},{",".join(map(str, row))}\n' for name, row in zip(named, rows + [total])).encode()


def check_image(memory, output, is_same_run):
    """The image of a run: its counters add up, and its bits and flags are what that run holds."""
    image = records.image_of(output, Image)
    expect(image.text() == output, 'an image in another form')
    expect((image.children, image.cores, image.frames) == (memory.children, memory.cores, memory.frames), 'sizes')
    rebuilt = image.rebuilt()
    expect(rebuilt.free == image.free, 'a counter of a child')
    for child in range(image.children if is_same_run else 0):
        held = memory.held[CHILD_FRAMES * child:CHILD_FRAMES * (child + 1)]
        clear = image.clear(child)
        expect(all(held[i] == 1 - (clear >> i & 1) for i in range(CHILD_FRAMES)), 'what is held')
    for tree, (free, _) in enumerate(rebuilt.tree):
        resting = sum(rest[1] for rest in image.local if rest is not None and rest[0] == tree)
        expect(image.tree[tree][0] + resting == free, 'counters of a tree')
        named = sum(rest is not None and rest[0] == tree for rest in image.local)
        expect(named == image.tree[tree][1], 'who has reserved a tree')


# What the program has to do


class Answer:
    """What the program did: its status, its output and its errors."""

    seconds = 1.0
    under = ()
    longest = 0.0

    def __init__(self, program, words, data):
        allowed = 1 + len(data) / 1e6
        seconds, start = self.seconds * allowed, time.monotonic()
        try:
            done = subprocess.run([*self.under, program, *words], input=data, capture_output=True, timeout=seconds,
                                  check=False)
        except subprocess.TimeoutExpired as error:
            raise Wrong(f'no answer after {seconds:.1f} s') from error
        Answer.longest = max(Answer.longest, (time.monotonic() - start) / allowed)
        self.status, self.output, self.errors = done.returncode, done.stdout, done.stderr

    def is_refusal(self, refused):
        self.same((refused.status, b'', f'llfree: {refused.fault}\n'.encode()))

    def same(self, wanted):
        got = (self.status, self.output, self.errors)
        expect(got == wanted, f'status {got[0]}, errors {got[2][:80]}, for {str(wanted)[:120]}')

    def done(self):
        expect(self.status == 0 and self.errors == b'', f'status {self.status}, errors {self.errors[:80]}')
        return self.output


def try_trace(program, sizes, data):
    """A trace is run twice, for its answers and for its image; on one core both are of the same run."""
    answers, picture = Answer(program, ['run', *sizes], data), Answer(program, ['image', *sizes], data)
    try:
        children, cores, frames = records.sizes_of(sizes)
        records.expect_length(data)
        lines = records.trace_of(data, cores)
        memory = Memory(children, cores, frames, records.ranges_of(lines, frames))
    except Refused as refused:
        answers.is_refusal(refused)
        picture.is_refusal(refused)
        return f'refused: {refused.fault.rstrip("0123456789 ")}'
    check_answers(memory, lines, answers.done())
    check_image(memory, picture.done(), cores == 1)
    return f'traces on {"one core" if cores == 1 else "several cores"}'


def try_image(program, data):
    rebuilt, report = Answer(program, ['rebuild'], data), Answer(program, ['report'], data)
    try:
        records.expect_length(data)
        image = records.image_of(data, Image)
    except Refused as refused:
        rebuilt.is_refusal(refused)
        report.is_refusal(refused)
        return f'refused: {refused.fault.rstrip("0123456789 ")}'
    expect(rebuilt.done() == image.rebuilt().text(), 'another rebuilt image')
    expect(report.done() == image.report(), 'another report')
    return 'images'


def try_words(program, words, data):
    usage = (2, b'', USAGE)
    if words[:1] in (['run'], ['image']) and records.is_sizes(words[1:]):
        return try_trace(program, words[1:], data)
    if words in (['rebuild'], ['report']):
        return try_image(program, data)
    Answer(program, words, data).same(usage)
    return 'command lines'


# Cases


def a_trace(chance):
    children = chance.choice([1, 1, 1, 2, 3, 8, 9, 16, 17])
    cores = chance.choice([1, 1, 1, 2, 3, 4])
    sizes = [str(children), str(cores)]
    frames = CHILD_FRAMES * children
    if chance.random() < 0.2:
        frames -= chance.randrange(CHILD_FRAMES)
        sizes.append(str(frames))
    rows = []
    if chance.random() < 0.2:
        start = 0
        for _ in range(chance.randrange(1, 4)):
            start += chance.randrange(max(1, frames // 3))
            count = chance.randrange(1, 40)
            rows.append(f',reserve,{start},{count}')
            start += count
    rows += some_rows(chance, cores, frames, chance.choice([0, 1, 3, 10, 30, 100]))
    return [chance.choice(['run', 'image']), *sizes], as_text(rows)


IN_A_ROUND = ['take'] * 6 + ['give'] * 3 + ['giveat'] * 2


def some_rows(chance, cores, frames, count, kinds=(*IN_A_ROUND, 'round', 'move')):
    rows, last = [], ''
    for _ in range(count):
        core, label = chance.randrange(cores), chance.choice('abcde')
        kind = chance.choice(kinds)
        if kind == 'take':
            rows.append(f'{core},take,{label},{chance.choice([0, 0, 0, 1, 2, 3, 5, 6, 7, 8, 9, 10])}')
        elif kind == 'give':
            rows.append(f'{core},give,{label},')
        elif kind == 'giveat':
            order = chance.choice([0, 0, 1, 3, 9])
            rows.append(f'{core},giveat,{chance.randrange(max(1, frames >> order)) << order},{order}')
        elif kind == 'round' or last not in ('round', 'move'):
            kind = 'round'
            rows.append(',round,,')
        else:
            rows.append(f'{core},move,{label},{chance.randrange(cores)}')
        last = kind
    return rows


def as_text(rows):
    return ''.join(row + '\n' for row in rows).encode()


def long_rows(chance, cores, children, size, kinds):
    """Rows of so many bytes at least, each with its line feed."""
    rows, length = [], 0
    while length < size:
        more = some_rows(chance, cores, CHILD_FRAMES * children, 50, kinds)
        rows += more
        length += sum(len(row) + 1 for row in more)
    return rows


# the least bytes of a part, how many parts a core reads, and how far from a cut the forms reach
PART_BYTES = 8_192
PARTS_OF_A_CORE = 8
CUT_BYTES = 40
# ends of lines, with and without blank lines
ENDS = '\n', '\r\n', '\r', '\n\n\r\n', '\r\r', '\n\n\n'
# records that are refused, or that swallow those behind them
FAULTS = ('0,take,"a\n', '0,take,"a\nb",0\n', '0,take,"\n0,take,b,0\n",0\n', '"\n', '"\r\n"\n', '""\n',
          '0,take,a"b,0\n', '0,take,"a""b",0\n', '0,take,a,"0', '\ufeff0,take,a,0\n', '0,take,a,0,\n', '0,move,a,0\n',
          ',reserve,0,1\n', ',\n')


def in_quotes(chance, field):
    """A field as CSV may have it: a quote at its start ends anywhere."""
    place = chance.randrange(len(field) + 1)
    return chance.choice([field, f'"{field}"', f'"{field[:place]}"{field[place:]}'])


def respelled(chance, row, way):
    """A row with its end, in another form that says the same."""
    if way in ('quotes', 'both'):
        row = ','.join(in_quotes(chance, field) for field in row.split(','))
    return row + (chance.choice(ENDS) if way in ('ends', 'both') else '\n')


def at_cut(fault, is_end, room):
    """A fault that ends a part with so much room, or begins the next one, with blank lines before it."""
    return '\n' * (room - (min(room, len(fault.encode())) if is_end else 0)) + fault


def spelled_at_cuts(chance, rows, cores):
    """The rows as a text, in which those about the places where it is cut into parts are in other forms, or one is a
    fault."""
    size = sum(len(row) + 1 for row in rows)
    part = max(PART_BYTES, size // (PARTS_OF_A_CORE * cores))
    way = chance.choice(['plain', 'ends', 'quotes', 'both', 'fault'])
    one = chance.randrange(size // part)
    only = one if way == 'fault' else chance.choice([None, None, one])
    texts, since, cuts = [], 0, 0
    for row in rows:
        near = cuts if since > part - CUT_BYTES else cuts - 1 if since < CUT_BYTES else None
        text = row + '\n' if near is None or only not in (None, near) else respelled(chance, row, way)
        # a part ends behind the last line feed in it
        if since + len(text) > part:
            if way == 'fault' and cuts == one:
                texts.append(at_cut(chance.choice(FAULTS), chance.random() < 0.5, part - since))
            since, cuts = 0, cuts + 1
        since += len(text)
        texts.append(text)
    return ''.join(texts).encode()


def a_long_trace(chance):
    """More bytes than one thread reads where there are several cores, in one round or in many."""
    cores, size = chance.choice([2, 2, 3, 4, 17]), chance.choice([65_536, 65_600, 70_000, 100_000, 150_000])
    kinds = chance.choice([IN_A_ROUND, IN_A_ROUND * 30 + ['round', 'move']])
    rows = long_rows(chance, cores, 32, size, kinds)
    return ['run', '32', str(cores)], spelled_at_cuts(chance, rows, cores)


def faults_at_cuts():
    """Each fault at the end of a part, and at the start of the next one."""
    text = ''.join(row + '\n' for row in long_rows(random.Random(0), 2, 32, 8 * PART_BYTES, IN_A_ROUND))
    place = text.rindex('\n', 0, PART_BYTES) + 1
    for fault in FAULTS:
        for is_end in True, False:
            more = at_cut(fault, is_end, PART_BYTES - place)
            yield ['run', '32', '2'], (text[:place] + more + text[place:]).encode()


def rounds_in_parts():
    """Blocks of two cores in one round that is read, run and answered in parts."""
    for size in 65_536, 131_072, 262_144, 524_288, 1_048_576:
        rows = long_rows(random.Random(size), 2, 64, size, IN_A_ROUND)
        yield ['run', '64', '2'], as_text(rows)


def an_image(chance):
    children = chance.choice([1, 1, 2, 7, 8, 9])
    frames = CHILD_FRAMES * children - (chance.randrange(CHILD_FRAMES) if chance.random() < 0.3 else 0)
    image = Image(children, chance.choice([1, 2, 64]), frames)
    for child in range(children):
        past = max(0, CHILD_FRAMES * (child + 1) - frames)
        words = chance.choice([0, 2**512 - 1, chance.getrandbits(512), 1 << chance.randrange(512)])
        image.words.append(words | ((1 << past) - 1) << (CHILD_FRAMES - past))
        image.huge.append(int(not past and chance.random() < 0.2))
        image.free.append(chance.randrange(CHILD_FRAMES + 1))
    for tree in range(image.trees):
        image.tree.append((chance.randrange(image.tree_size(tree) + 1), chance.randrange(2)))
    for _ in range(image.cores):
        tree = chance.randrange(image.trees)
        image.local.append(None if chance.random() < 0.5 else (tree, chance.randrange(image.tree_size(tree) + 1)))
    return [chance.choice(['rebuild', 'report'])], image.text()


PIECES = [b'', b'"', b'""', b'\0', b'\xff', b',', b'\n', b'\r', b'\r\n', b'\n\n', b' ', b'-', b'+', MARK, b'9' * 20, b'0' * 20 + b'1',
          b'18446744073709551616', b'4294967296', b'1' * 19, b'a' * 17, b'a' * 400, b'F' * 128, b'x', b'round', b',round,,\n',
          b',reserve,0,1\n', b'0,take,a,0\n', b'0,move,a,0\n', b'513', b'256', b'2']


def hurt(chance, data):
    data = bytearray(data)
    for _ in range(chance.choice([1, 1, 1, 2, 5])):
        place = chance.randrange(len(data) + 1)
        end = min(len(data), place + chance.choice([1, 1, 2, 8, 60]))
        way = chance.randrange(7)
        if way == 0 and place < len(data):
            data[place] = chance.randrange(256)
        elif way == 1 and place < len(data):
            data[place] ^= 1 << chance.randrange(8)
        elif way == 2:
            data[place:place] = chance.choice(PIECES)
        elif way == 3:
            data[place:end] = chance.choice(PIECES)
        elif way == 4:
            del data[place:end]
        elif way == 5:
            del data[place:]
        else:
            data[place:place] = data[place:end] * chance.choice([1, 2, 50])
    return bytes(data)


def hurt_words(chance, words):
    words = list(words)
    place = chance.randrange(len(words) + 1)
    way = chance.randrange(3)
    if way == 0:
        words.insert(place, chance.choice(['', '0', '1', '1 ', '-1', '4096', '4097', '64', '65', '9' * 10, 'run', 'x', '\u0661']))
    elif place < len(words) and way == 1:
        del words[place]
    elif place < len(words):
        words[place] = chance.choice(['', '0', '01', '1', '+1', '4097', '65', '000000001', '0000000001', 'images', 'report'])
    return words


def a_case(seed, place):
    chance = random.Random(seed * 1_000_003 + place)
    words, data = chance.choice([a_trace, a_trace, an_image])(chance)
    if chance.random() < 0.75:
        data = hurt(chance, data)
    if chance.random() < 0.1:
        words = hurt_words(chance, words)
    return words, data


def a_long_case(seed, place):
    chance = random.Random(seed * 1_000_003 + place)
    words, data = a_long_trace(chance)
    if chance.random() < 0.25:
        data = hurt(chance, data)
    return words, data


def great_cases():
    """Texts at the limits of length and of records."""
    one = ['run', '1', '1']
    yield one, b'\n' * MOST_BYTES
    yield one, b'\n' * (MOST_BYTES + 1)
    yield one, b'"' * MOST_BYTES
    yield one, b'"' * (MOST_BYTES + 1)
    yield one, bytes(MOST_BYTES)
    yield one, b'0,take,' + b'a' * (MOST_BYTES - 10)
    yield one, b',' * MOST_BYTES
    yield one, b',round,,\n' * MOST_RECORDS
    yield one, b',round,,\n' * (MOST_RECORDS + 1)
    yield ['run', '1', '1'], b'0,take,a,0\n' * MOST_RECORDS
    yield ['run', '4096', '1'], b'0,take,a,0\n' * 500_000 + b'0,give,a,\n' * 500_000
    yield ['run', '16', '1'], b'0,take,a,9\n0,give,a,\n' * (MOST_RECORDS // 2)
    yield ['rebuild'], b'\xff' * MOST_BYTES
    yield ['report'], b'"\n' * (MOST_BYTES // 2)
    yield ['rebuild'], an_image_of(4096).text()


def an_image_of(children):
    image = Image(children, 64, CHILD_FRAMES * children)
    image.words, image.huge = [2**512 // 3] * children, [0] * children
    image.free, image.local = [0] * children, [None] * 64
    image.tree = [(0, 0)] * image.trees
    return image


def try_case(case):
    """What came of it, and the longest answer of this process so far."""
    program, name, words, data = case
    try:
        return name, words, data, try_words(program, words, data), '', Answer.longest
    except (Wrong, Refused, ValueError, IndexError) as wrong:
        return name, words, data, 'wrong', str(wrong), Answer.longest


def all_cases(arguments):
    for place, (words, data) in enumerate(great_cases()):
        yield arguments.program, f'great-{place}', words, data
    for place, (words, data) in enumerate(faults_at_cuts()):
        yield arguments.program, f'cut-{place}', words, data
    for place, (words, data) in enumerate(rounds_in_parts()):
        yield arguments.program, f'round-{place}', words, data
    for place in range(arguments.cases // 50):
        yield arguments.program, f'long-{arguments.seed}-{place}', *a_long_case(arguments.seed, place)
    for place in range(arguments.cases):
        yield arguments.program, f'{arguments.seed}-{place}', *a_case(arguments.seed, place)


def main():
    parser = argparse.ArgumentParser(description=__doc__.split('\n', maxsplit=1)[0])
    parser.add_argument('--cases', type=int, default=100_000)
    parser.add_argument('--seed', type=int, default=1)
    parser.add_argument('--jobs', type=int, default=os.cpu_count(), help='cases that are tried at once')
    parser.add_argument('--seconds', type=float, default=1.0, help='for an answer, and as many for each million bytes')
    parser.add_argument('--program', default='crates/llfree/out/llfree')
    parser.add_argument('--under', default='', help="what stands before the program, as 'chrt -f 20'")
    arguments = parser.parse_args()
    if arguments.cases < 0 or arguments.jobs < 1 or not arguments.seconds > 0:
        parser.error('--cases is 0 or more, --jobs is 1 or more, and --seconds more than 0')
    if not os.access(arguments.program, os.X_OK) or os.path.isdir(arguments.program):
        parser.error(f'{arguments.program} is no program that can be run')
    Answer.seconds, Answer.under = arguments.seconds, tuple(arguments.under.split())
    counts, failed, longest, kept = {}, 0, 0.0, tempfile.mkdtemp(prefix='hurt-texts-')
    with multiprocessing.Pool(arguments.jobs) as pool:
        for name, words, data, kind, why, took in pool.imap_unordered(try_case, all_cases(arguments), chunksize=16):
            counts[kind] = counts.get(kind, 0) + 1
            longest = max(longest, took)
            if why:
                failed += 1
                file = os.path.join(kept, name)
                with open(file, 'wb') as out:
                    out.write(data)
                print(f'{file}: {" ".join(words)}: {why}', flush=True)
    for kind, count in sorted(counts.items()):
        print(f'{count:8} {kind}')
    # a longer text has more time, and counts by its share of that
    print(f'longest answer: {longest:.3f} s of {Answer.seconds:.3f} s')
    if not failed:
        os.rmdir(kept)
    print(f'{sum(counts.values()) - failed} passed, {failed} failed')
    return 1 if failed else 0


if __name__ == '__main__':
    sys.exit(main())
