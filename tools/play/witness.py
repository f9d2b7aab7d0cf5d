"""What a page is held against, for tools/play/checks.py. A Witness follows a recording by itself, through the library's
calls, and closes the memory with the library's own image. A Page reads the bytes of a page, as its script in a browser
does. Nothing here is shared with tools/play.py or with replay.c."""
import base64
import bisect
import ctypes
import json
import re
import zlib

NOBODY = 255
HUGE_ORDER, CHILD_FRAMES, TREE_CHILDREN = 9, 512, 8
MOST_ORDER = 18
# the layers of a film that tell of orders and of ages
ORDERS, AGES = 4, 5
FREE = bytes([NOBODY]) * CHILD_FRAMES
OK, NO_BLOCK, CONTENDED = 0, 1, 8
REFUSED = 0xffffffff


class Wrong(Exception):
    """What the library or a page says that cannot be."""


# The library


class Core(ctypes.Structure):
    """llfree_core of include/llfree.h."""
    _fields_ = ('live', ctypes.c_bool), ('state', ctypes.c_void_p)


def event_of(line):
    """Microseconds, processor, whether it is an allocation, frame, order; None where a line tells of something else."""
    words = line.split()
    at = next((at for at, word in enumerate(words) if word in ('kmem:mm_page_alloc:', 'kmem:mm_page_free:')), None)
    if at is None:
        return None
    seconds, _, part = words[at - 1].rstrip(':').partition('.')
    told = dict(word.split('=', 1) for word in words[at + 1:] if '=' in word)
    micros, is_alloc = int(seconds) * 1_000_000 + int(part[:6]), words[at] == 'kmem:mm_page_alloc:'
    return micros, int(words[at - 2].strip('[]')), is_alloc, int(told['pfn'], 0), int(told['order'])


class Witness:
    """A memory of the library with a core for each processor. `parts` has what is out, by its first frame in the
    recorded machine: its order now, where it lies here (None where it was refused) and who took it."""

    def __init__(self, library, frames, processors):
        self.library, self.frames, self.parts = library, frames, {}
        self.cores = (Core * processors)()
        self.who, self.order = bytearray([NOBODY]) * frames, bytearray(frames)
        status = library.llfree_open(self.cores, ctypes.c_size_t(processors), ctypes.c_uint32(frames), None,
                                     ctypes.c_size_t(0))
        if status != OK:
            raise Wrong(f'no memory of {frames} frames: status {status}')

    def core(self, processor):
        return ctypes.byref(self.cores[processor])

    def follow(self, processor, is_alloc, frame, order):
        if order > MOST_ORDER or is_alloc and frame == 0:
            return
        end = frame + (1 << order)
        self.leave(processor, frame, end)
        size = min(order, HUGE_ORDER)
        for first in range(frame, end, 1 << size) if is_alloc else ():
            self.take(processor, first, size)

    def take(self, processor, frame, order):
        place = ctypes.c_uint32(REFUSED)
        status = self.library.llfree_take(self.core(processor), ctypes.c_uint8(order), ctypes.byref(place))
        if status in (NO_BLOCK, CONTENDED):
            self.parts[frame] = order, None, processor
            return
        here, size = place.value, 1 << order
        if status != OK or here % size or here + size > self.frames or self.who[here:here + size] != FREE[:size]:
            raise Wrong(f'a take of order {order} is answered {status}, {here}')
        self.parts[frame] = order, here, processor
        self.who[here:here + size] = bytes([processor]) * size
        self.order[here:here + size] = bytes([order]) * size

    def part_at(self, frame):
        """The first frame of the part in which a frame lies, or None."""
        for order in range(HUGE_ORDER + 1):
            first = frame >> order << order
            if first in self.parts and frame < first + (1 << self.parts[first][0]):
                return first
        return None

    def leave(self, processor, frame, end):
        """Gives what is out of these frames. A part that is not all of them is halved until it is."""
        while frame < end:
            first = self.part_at(frame)
            if first is None:
                frame += 1
                continue
            order, here, by = self.parts.pop(first)
            if first == frame and frame + (1 << order) <= end:
                if here is not None:
                    self.give(processor, here, order)
                frame += 1 << order
                continue
            half = 1 << order - 1
            if here is not None:
                self.call('split', processor, here, order)
            self.parts[first] = order - 1, here, by
            self.parts[first + half] = order - 1, None if here is None else here + half, by

    def give(self, processor, here, order):
        self.call('give', processor, here, order)
        self.who[here:here + (1 << order)] = FREE[:1 << order]

    def call(self, name, processor, here, order):
        call = getattr(self.library, f'llfree_{name}')
        status = call(self.core(processor), ctypes.c_uint32(here), ctypes.c_uint8(order))
        if status != OK:
            raise Wrong(f'a {name} of the block {here} of order {order}, which is held, is answered {status}')

    def recorded(self):
        """The frames of the recorded machine that are out, with who took them."""
        made = {}
        for first, (order, _, by) in self.parts.items():
            made.update(dict.fromkeys(range(first, first + (1 << order)), by))
        return made

    def image(self):
        """Closes the memory, and has the library's image as a text of docs/FORMATS.md. Its counters are none: `llfree
        rebuild` makes them anew."""
        count = 9 * self.frames // CHILD_FRAMES
        words = (ctypes.c_uint64 * count)()
        for core in self.cores[1:]:
            self.library.llfree_close(ctypes.byref(core))
        status = self.library.llfree_close_image(self.core(0), words, ctypes.c_size_t(count))
        if status != OK:
            raise Wrong(f'a closing with an image is answered {status}')
        children, rows = self.frames // CHILD_FRAMES, []
        trees = -(-children // TREE_CHILDREN)
        for child in range(children):
            free, *bits = words[9 * child:9 * child + 9]
            rows.append(f'child,{child},0,{free >> 15},{"".join(f"{word:016x}" for word in bits)}')
        rows += [f'tree,{tree},0,0,' for tree in range(trees)]
        rows += [f'core,{core},,,' for core in range(len(self.cores))]
        return ''.join(row + '\n' for row in [f'llfree,1,{children},{len(self.cores)},', *rows])


# A page


class Read:
    """What a page carries, from its beginning on."""

    def __init__(self, text):
        found = re.search(rb'<script id="said".*?>(.*?)</script>\n<script id="data".*?>(.*?)</script>', text)
        if found is None:
            raise Wrong('there is no page')
        self.said, self.data, self.at = json.loads(found[1]), zlib.decompress(base64.b64decode(found[2])), 0

    def raw(self, count):
        self.at += count
        return self.data[self.at - count:self.at]

    def words(self, count):
        data = self.raw(4 * count)
        return [int.from_bytes(data[at:at + 4], 'little') for at in range(0, 4 * count, 4)]

    def planes(self, count, width):
        """Numbers whose lowest bytes stand before the next ones of all."""
        data = self.raw(count * width)
        return [sum(data[place * count + at] << 8 * place for place in range(width)) for at in range(count)]

    def sums(self, count):
        """Numbers of four bytes, each as what it is more than the one before."""
        made, total = [], 0
        for more in self.planes(count, 4):
            total = total + more & 0xffffffff
            made.append(total)
        return made


class Film(Read):
    """A page of pictures: of the frames of each huge frame the half that each processor has, rounded up."""

    def __init__(self, text):
        super().__init__(text)
        pictures, self.memories = self.said['pictures'], []
        self.times = self.words(pictures)
        for children in self.said['children']:
            told = [self.words(pictures) for _ in range(4)]
            halves = [self.raw(children * pictures) for _ in range(self.said['processors'])]
            self.raw((ORDERS + AGES) * children * pictures)
            self.memories.append((told, halves))

    def picture_at(self, micros):
        """The number and the time of the last picture up to a moment."""
        picture = bisect.bisect_right(self.times, micros) - 1
        return picture, self.times[picture]

    def shown(self, place, picture):
        """Huge frames that are shared, those in use, and frames held; and of each processor the halves of huge frames."""
        told, halves = self.memories[place]
        pictures = len(self.times)
        parts = [[sum(row[at:at + picture + 1]) & 255 for at in range(0, len(row), pictures)] for row in halves]
        return [row[picture] for row in told[:3]], parts


def film_of(who, processors):
    """What a film has to show of a state."""
    huge_frames = [who[at:at + CHILD_FRAMES] for at in range(0, len(who), CHILD_FRAMES)]
    counts = [[huge.count(one) for huge in huge_frames] for one in range(processors)]
    users = [sum(map(bool, huge)) for huge in zip(*counts)]
    told = [sum(many > 1 for many in users), sum(map(bool, users)), sum(map(sum, counts))]
    return told, [[min(255, (many + 1) // 2) for many in row] for row in counts]


class Page(Read):
    """A page of every take and give: which block lies where, in each memory."""

    def __init__(self, text):
        super().__init__(text)
        count, gives = self.said['count'], self.said['gives']
        self.times, self.marks, self.processors = self.sums(count), self.raw(count), self.raw(count)
        back, offset = iter(self.planes(gives, 4)), iter(self.planes(gives, 2))
        self.of = [(at, 0) if mark >= 16 else (at - next(back), next(offset)) for at, mark in enumerate(self.marks)]
        self.memories = []
        for _ in self.said['names']:
            takes = iter(self.sums(count - gives))
            self.memories.append([next(takes) if mark >= 16 else None for mark in self.marks])
        self.huge = self.sums(self.said['children'][-1])

    def until(self, micros):
        """The steps up to a moment."""
        return range(bisect.bisect_right(self.times, micros))

    def state(self, place, micros):
        """Of each frame the processor that took it, and its order; Wrong where a block lies on another or too far."""
        lies, who = self.memories[place], bytearray([NOBODY]) * (self.said['children'][place] * CHILD_FRAMES)
        order = bytearray(len(who))
        for step in self.until(micros):
            mark, (by, offset) = self.marks[step], self.of[step]
            if lies[by] == REFUSED:
                continue
            frame, size = lies[by] + offset, 1 << (mark & 15)
            if mark < 16:
                who[frame:frame + size] = FREE[:size]
                continue
            if who[frame:frame + size] != FREE[:size]:
                raise Wrong(f'step {step} takes frame {frame} of what is not free')
            who[frame:frame + size] = bytes([self.processors[step]]) * size
            order[frame:frame + size] = bytes([mark & 15]) * size
        return who, order

    def recorded(self, who):
        """The frames of the recorded machine that are held, with who took them."""
        made = {}
        for child, number in enumerate(self.huge):
            part = who[child * CHILD_FRAMES:(child + 1) * CHILD_FRAMES]
            if part != FREE:
                made.update((number * CHILD_FRAMES + at, one) for at, one in enumerate(part) if one != NOBODY)
        return made

    def with_a_block_moved(self, place, micros):
        """Where blocks lie, but for one that is held at a moment: it lies in another place that fits it and is free."""
        unused, lies, given = self.state(place, micros)[0], self.memories[place], set()
        for step in reversed(self.until(micros)):
            mark, (by, offset) = self.marks[step], self.of[step]
            if lies[by] == REFUSED:
                continue
            size = 1 << (mark & 15)
            if mark >= 16 and step not in given:
                for frame in range(0, len(unused), size):
                    if unused[frame:frame + size] == FREE[:size]:
                        return [*lies[:step], frame, *lies[step + 1:]]
            given.add(by)
            unused[lies[by] + offset:lies[by] + offset + size] = bytes(size)
        raise Wrong('no block can be moved')
