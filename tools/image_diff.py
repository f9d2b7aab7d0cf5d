#!/usr/bin/env python3
"""Says how two images of one memory differ: children, trees and cores, and which frames are held in one alone.

    tools/image_diff.py IMAGE IMAGE2 [-o FILE]

A child is held as a whole where its flag says so. The status is 0 where nothing differs, 1 where something does, and 2
where there is a fault. With --json a line is an object.
"""
import json
import sys

import files
import records


def words_of(image, child):
    """The bit words of a child as an image has them."""
    return ''.join(f'{image.words[child] >> 64 * word & 2**64 - 1:016x}' for word in range(8))


def held_of(image, child):
    """The bits of the frames of a child that are held."""
    return (1 << records.CHILD_FRAMES) - 1 if image.huge[child] else image.words[child]


def runs_of(bits, child):
    """The frames of these bits, as the first and the count of each run."""
    runs, place = [], 0
    while bits >> place:
        place += (bits >> place & -(bits >> place)).bit_length() - 1
        rest = ~(bits >> place)
        count = (rest & -rest).bit_length() - 1
        runs.append([records.CHILD_FRAMES * child + place, count])
        place += count
    return runs


def changed(**fields):
    """Those of the fields that differ, each as both of its values."""
    return {name: list(pair) for name, pair in fields.items() if pair[0] != pair[1]}


def rest_of(image, core):
    return image.local[core] if image.local[core] is not None else (None, None)


def differences(one, two):
    """What differs, each as its kind, its number, and its fields."""
    for child in range(one.children):
        held, now = held_of(one, child), held_of(two, child)
        found = changed(FREE=(one.free[child], two.free[child]), HUGE=(one.huge[child], two.huge[child]))
        if one.words[child] != two.words[child] and held == now:
            found['WORDS'] = [words_of(image, child) for image in (one, two)]
        if now & ~held:
            found['held_now'] = runs_of(now & ~held, child)
        if held & ~now:
            found['free_now'] = runs_of(held & ~now, child)
        if found:
            yield 'child', child, found
    for tree in range(one.trees):
        (free, reserved), (free2, reserved2) = one.tree[tree], two.tree[tree]
        found = changed(FREE=(free, free2), RESERVED=(reserved, reserved2))
        if found:
            yield 'tree', tree, found
    for core in range(one.cores):
        (tree, free), (tree2, free2) = rest_of(one, core), rest_of(two, core)
        found = changed(TREE=(tree, tree2), FREE=(free, free2))
        if found:
            yield 'core', core, found


def said(name, value):
    """A field of a difference, for people."""
    if name in ('held_now', 'free_now'):
        runs = (f'{first}' if count == 1 else f'{first}-{first + count - 1}' for first, count in value)
        return f'{name.replace("_", " ")}: {" ".join(runs)}'
    before, after = ('none' if part is None else part for part in value)
    return f'{name} {before} -> {after}'


def line_of(kind, place, found):
    return f'{kind} {place}: ' + '; '.join(said(*field) for field in found.items()) + '\n'


def object_of(kind, place, found):
    return json.dumps({kind: place, **found}) + '\n'


def main():
    parser = files.parser(__doc__)
    parser.add_argument('one', metavar='IMAGE')
    parser.add_argument('two', metavar='IMAGE2')
    parser.add_argument('--json', action='store_true', help='an object a line')
    given = parser.parse_args()
    make, lines = object_of if given.json else line_of, []

    def made():
        one, two = (files.parsed(name, records.image_of) for name in (given.one, given.two))
        sizes = [(image.children, image.cores, image.frames) for image in (one, two)]
        if sizes[0] != sizes[1]:
            raise files.Fault('the images are of different sizes: {} and {} children, {} and {} cores, {} and {} frames'
                              .format(*(part for pair in zip(*sizes) for part in pair)))
        lines.extend(make(*found) for found in differences(one, two))
        return ''.join(lines)

    return files.answer('image_diff', made, given.output, status=2) or bool(lines)


if __name__ == '__main__':
    sys.exit(main())
