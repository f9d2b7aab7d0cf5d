#!/usr/bin/env python3
"""Draws an image of a memory, which is what `llfree image` writes, as an SVG for light and dark pages.

A square is a child, stronger the more of its frames are held; a child that is held as a huge frame has a colour of its
own. Eight children in a frame are a tree; where a core has reserved it the frame is thick and names the core.

    llfree image CHILDREN CORES < TRACE | tools/picture.py > PICTURE.svg
    tools/picture.py --frames IMAGE -o PICTURE.svg

With --frames a point is a frame, and a child 32 by 16 of them.
"""
import base64
import struct
import sys
import zlib

import files
import records

WIDTH = 860
MARGIN = 10
TREE_ACROSS = 4
SHADES = 8
# the parts of a picture, and their colours on light and on dark paper
COLOURS = {
    'paper': ('#ffffff', '#0d1117'), 'text': ('#24292f', '#e6edf3'), 'line': ('#b9c2cc', '#4a525c'),
    'core': ('#b3123f', '#ff7b9c'), 'huge': ('#e08a1e', '#f2b04c'), 'free': ('#f3f6f9', '#1c2128'),
    'held1': ('#cfe0ef', '#1f364d'), 'held2': ('#b0cce4', '#28496a'), 'held3': ('#8fb6d8', '#325d86'),
    'held4': ('#6d9fcb', '#3d71a2'), 'held5': ('#4d87bb', '#4a86bd'), 'held6': ('#336fa5', '#609dd6'),
    'held7': ('#20568a', '#83b8ea'), 'held8': ('#0f3c69', '#b3d7fb'),
}
HELD = tuple(f'held{shade}' for shade in range(1, SHADES + 1))
FONT = 'font-family="DejaVu Sans, Verdana, sans-serif"'


def style():
    """The colours, by what a browser prefers."""
    def rules(place):
        return ''.join(f'.{name}{{fill:{both[place]}}}.{name}-edge{{stroke:{both[place]};fill:none}}'
                       for name, both in COLOURS.items())
    return f'<style>{rules(0)}@media (prefers-color-scheme: dark){{{rules(1)}}}</style>'


def frames_held(image, child):
    """How many frames of a child are held, and whether it is held as a huge frame."""
    if image.huge[child]:
        return records.CHILD_FRAMES, True
    return bin(image.words[child]).count('1'), False


def colour_of(held, huge):
    if huge:
        return 'huge'
    return HELD[(held - 1) * SHADES // records.CHILD_FRAMES] if held else 'free'


# The picture of children, as SVG


class Layout:
    """Where trees and children are: sizes in points, the greatest of a list with which the picture is not too high."""

    def __init__(self, image):
        for self.cell, self.strip in ((46, 16), (34, 15), (24, 14), (18, 14), (14, 12), (10, 10), (8, 9)):
            self.tree_width = TREE_ACROSS * self.cell + 4
            self.tree_height = 2 * self.cell + 4 + self.strip
            self.across = (WIDTH - 2 * MARGIN + 6) // (self.tree_width + 6)
            self.down = -(-image.trees // self.across)
            self.top = MARGIN + 28
            self.height = self.top + self.down * (self.tree_height + 4) + 34
            if self.height <= 480:
                break

    def tree(self, tree):
        """The corner of the frame around a tree."""
        down, across = divmod(tree, self.across)
        return MARGIN + across * (self.tree_width + 6), self.top + down * (self.tree_height + 4) + self.strip

    def child(self, child):
        left, top = self.tree(child // records.TREE_CHILDREN)
        down, across = divmod(child % records.TREE_CHILDREN, TREE_ACROSS)
        return left + 2 + across * self.cell, top + 2 + down * self.cell


def cells(image, layout):
    """The squares of all children, those of one colour in one path."""
    paths, side = {}, layout.cell - 1
    for child in range(image.children):
        left, top = layout.child(child)
        path = paths.setdefault(colour_of(*frames_held(image, child)), [])
        path.append(f'M{left} {top}h{side}v{side}h-{side}z')
    for colour in ('free', *HELD, 'huge'):
        if colour in paths:
            yield f'<path class="{colour}" d="{"".join(paths[colour])}"/>'


def tree_frame(image, layout, tree):
    left, top = layout.tree(tree)
    many = min(records.TREE_CHILDREN, image.children - records.TREE_CHILDREN * tree)
    width = min(many, TREE_ACROSS) * layout.cell + 3
    height = -(-many // TREE_ACROSS) * layout.cell + 3
    cores = [core for core, rest in enumerate(image.local) if rest is not None and rest[0] == tree]
    colour, thick = ('core', 2) if cores or image.tree[tree][1] else ('line', 1)
    yield (f'<rect class="{colour}-edge" x="{left}" y="{top}" width="{width}" height="{height}" '
           f'stroke-width="{thick}"/>')
    if cores:
        word = 'core ' if layout.cell >= 14 else ''
        name = word + ', '.join(str(core) for core in cores)
        yield f'<text class="core" x="{left}" y="{top - 3}" font-size="{layout.strip - 3}">{name}</text>'


def plural(count, word, words):
    return f'{count:,} {word if count == 1 else words}'


def title(image):
    """What the memory holds; frames past its end, whose bits are set, are none of it."""
    parts = [frames_held(image, child) for child in range(image.children)]
    past = image.children * records.CHILD_FRAMES - image.frames
    held = sum(frames for frames, _ in parts) - past
    free = sum(frames == 0 for frames, _ in parts)
    size = f'{image.frames / 256:,.1f}'.removesuffix('.0')
    return (f'{plural(image.children, "child", "children")} ({size} MiB), '
            f'{plural(image.cores, "core", "cores")}: {held:,} of {image.frames:,} frames '
            f'held, {plural(free, "huge frame", "huge frames")} free')


def key(top, kinds):
    """What the colours mean."""
    left = MARGIN
    for colours, text in kinds:
        for colour in colours:
            yield f'<rect class="{colour}" x="{left}" y="{top}" width="12" height="12"/>'
            yield f'<rect class="line-edge" x="{left}" y="{top}" width="12" height="12" stroke-width="0.5"/>'
            left += 13
        yield f'<text class="text" x="{left + 5}" y="{top + 10}" font-size="12">{text}</text>'
        left += 30 + 7 * len(text)
    yield f'<rect class="core-edge" x="{left + 1}" y="{top + 1}" width="18" height="10" stroke-width="2"/>'
    yield f'<text class="text" x="{left + 26}" y="{top + 10}" font-size="12">a tree that a core has reserved</text>'


def head(image, width, height):
    yield (f'<svg xmlns="http://www.w3.org/2000/svg" width="{width}" height="{height}" '
           f'viewBox="0 0 {width} {height}" role="img" {FONT}>')
    yield f'<title>{title(image)}</title>'
    yield style()
    yield f'<rect class="paper" width="{width}" height="{height}"/>'
    yield f'<text class="text" x="{MARGIN}" y="{MARGIN + 14}" font-size="15">{title(image)}</text>'


def svg(image):
    layout = Layout(image)
    yield from head(image, WIDTH, layout.height)
    yield from cells(image, layout)
    for tree in range(image.trees):
        yield from tree_frame(image, layout, tree)
    yield from key(layout.height - 24, ((('free',), 'free'), (HELD, '1 to 512 frames held'), (('huge',), 'held as a huge frame')))
    yield '</svg>'


# The picture of frames, as a PNG in an SVG


CHILD_WIDTH, CHILD_HEIGHT = 32, 16
# points of free frames show the paper below them; the others are seen on light and on dark
FREE, HELD_FRAME, HUGE_FRAME, EDGE, MARK = range(5)
PALETTE = bytes.fromhex('ffffff' '4d87bb' 'e08a1e' '8b949e' 'd0335f')
ALPHA = bytes((0, 255, 255, 110, 255))


def rows_of_child(image, child):
    """The points of a child, row by row, each a place in the palette."""
    if image.huge[child]:
        return [bytes([HUGE_FRAME]) * CHILD_WIDTH] * CHILD_HEIGHT
    bits = f'{image.words[child]:0512b}'[::-1].encode().translate(bytes.maketrans(b'01', b'\0\1'))
    return [bits[at:at + CHILD_WIDTH] for at in range(0, len(bits), CHILD_WIDTH)]


def points(image):
    """All rows of the picture: children in rows, with an edge around each that tells who has reserved its tree."""
    across = 8
    while across < 64 and across * across * CHILD_WIDTH < image.children * CHILD_HEIGHT:
        across += 8
    across = min(across, image.children)
    width = across * (CHILD_WIDTH + 1) + 1
    reserved = [image.tree[child // records.TREE_CHILDREN][1] for child in range(image.children)]

    def edge(*children):
        """An edge between children, those on the left or above first; a reserved tree has its colour on all sides."""
        return bytes([MARK if any(reserved[child] for child in children if 0 <= child < image.children) else EDGE])

    rows = []
    for first in range(0, image.children, across):
        children = range(first, min(first + across, image.children))
        # a row that is not full stands under one that is
        over = [edge(child, child - across) for child in range(first, first + (across if first else len(children)))]
        rows.append(b''.join(one * (CHILD_WIDTH + 1) for one in over) + over[-1])
        left = [edge(child, *([child - 1] if child > first else [])) for child in children]
        parts = [rows_of_child(image, child) for child in children]
        for row in range(CHILD_HEIGHT):
            rows.append(b''.join(one + part[row] for one, part in zip(left, parts)) + edge(children[-1]))
    last = range(image.children - len(children), image.children)
    rows.append(b''.join(edge(child) * (CHILD_WIDTH + 1) for child in last) + edge(last[-1]))
    return width, [row.ljust(width, bytes([FREE])) for row in rows]


def chunk(kind, data):
    return struct.pack('>I', len(data)) + kind + data + struct.pack('>I', zlib.crc32(kind + data))


def png(width, rows):
    head_of = struct.pack('>IIBBBBB', width, len(rows), 8, 3, 0, 0, 0)
    data = zlib.compress(b''.join(b'\0' + row for row in rows), 6)
    parts = (b'IHDR', head_of), (b'PLTE', PALETTE), (b'tRNS', ALPHA), (b'IDAT', data), (b'IEND', b'')
    return b'\x89PNG\r\n\x1a\n' + b''.join(chunk(*part) for part in parts)


def frames_svg(image):
    """A point is a frame, and is seen as so many as have room."""
    across, rows = points(image)
    times = max(1, (WIDTH - 2 * MARGIN) // across)
    width, top = max(WIDTH, across * times + 2 * MARGIN), MARGIN + 28
    height = top + len(rows) * times + 38
    yield from head(image, width, height)
    # the paper of free frames, in the last row under its children alone
    full, rest = divmod(image.children, (across - 1) // (CHILD_WIDTH + 1))
    for many, first, wide in ((full, 0, across), (min(1, rest), full, rest * (CHILD_WIDTH + 1) + 1)):
        if many:
            yield (f'<rect class="free" x="{MARGIN}" y="{top + first * (CHILD_HEIGHT + 1) * times}" '
                   f'width="{wide * times}" height="{(many * (CHILD_HEIGHT + 1) + 1) * times}"/>')
    yield (f'<image x="{MARGIN}" y="{top}" width="{across * times}" height="{len(rows) * times}" '
           'style="image-rendering:pixelated" '
           f'href="data:image/png;base64,{base64.b64encode(png(across, rows)).decode()}"/>')
    yield from key(height - 24, ((('free',), 'a frame that is free'), (('held5',), 'held'), (('huge',), 'held in a huge frame')))
    yield '</svg>'


def main():
    parser = files.parser(__doc__)
    parser.add_argument('image', metavar='IMAGE', nargs='?', help='the image, else standard input')
    parser.add_argument('--frames', action='store_true', help='a point is a frame')
    given = parser.parse_args()

    def picture():
        image = files.parsed(given.image, records.image_of)
        return ''.join(row + '\n' for row in (frames_svg if given.frames else svg)(image))

    return files.answer('picture', picture, given.output)


if __name__ == '__main__':
    sys.exit(main())
