"""LLFree from Python, for tools: the shared library by ctypes, which LLFREE_SO names or which is installed.

    import llfree

    first, second = llfree.open(frames=32768, cores=2)
    frame = first.take(3)
    second.give(frame, 3)

Any thread may call through any core: one call at a time goes through each, and the others wait. A core closes when it
is closed or no longer referred to; the last one of a memory frees it. Fork only while no other thread is in a call.
"""
import ctypes
import enum
import os
import threading

_u8, _u32, _u64, _size = ctypes.c_uint8, ctypes.c_uint32, ctypes.c_uint64, ctypes.c_size_t
FRAME_BYTES = 4096


class Status(enum.IntEnum):
    """The header says when each is answered."""
    OK = 0
    NO_BLOCK = 1
    BAD_ORDER = 2
    NOT_HELD = 3
    CLOSED_HANDLE = 4
    NO_MEMORY = 5
    BAD_GEOMETRY = 6
    OPEN_HANDLE = 7
    CONTENDED = 8
    BAD_RANGE = 9
    NO_ROOM = 10
    CORES_OPEN = 11
    BAD_IMAGE = 12


class Refused(Exception):
    """What a call answered in place of OK."""

    def __init__(self, status):
        super().__init__(Status(status).name)
        self.status = Status(status)


class Handle(ctypes.Structure):
    """A struct llfree_core."""
    _fields_ = (('live', ctypes.c_bool), ('state', ctypes.c_void_p))


class Range(ctypes.Structure):
    """A struct llfree_range."""
    _fields_ = (('first', _u32), ('frames', _u32))


class Block(ctypes.Structure):
    """A struct llfree_block."""
    _fields_ = (('live', ctypes.c_bool), ('frame', _u32), ('order', _u8))


class Claim(ctypes.Structure):
    """A struct llfree_claim."""
    _fields_ = (('frame', _u32), ('order', _u8))


_to = ctypes.POINTER
# its calls, for tools that hand them to C
library = ctypes.CDLL(os.environ.get('LLFREE_SO', 'libllfree.so.1'))
for _name, _answer, *_arguments in (
        ('open', _u32, _to(Handle), _size, _u32, _to(Range), _size),
        ('open_zones', _u32, _to(Handle), _size, _to(Range), _size, _to(Range), _size),
        ('reopen', _u32, _to(Handle), _size, _u32, _to(_u64), _size, _to(Claim), _size),
        ('take', _u32, _to(Handle), _u8, _to(_u32)), ('give', _u32, _to(Handle), _u32, _u8),
        ('split', _u32, _to(Handle), _u32, _u8), ('split_to', _u32, _to(Handle), _u32, _u8, _u8),
        ('order_at', _u32, _to(Handle), _u32, _to(_u8)), ('take_at', _u32, _to(Handle), _u32, _u8),
        ('is_free', ctypes.c_bool, _to(Handle), _u32, _u8), ('take_run', _u32, _to(Handle), _u32, _to(_u32)),
        ('give_run', _u32, _to(Handle), _u32, _u32),
        ('take_frame', _u32, _to(Handle), _to(Block)),
        ('give_frame', _u32, _to(Handle), _to(Block)),
        ('take_number', _u32, _to(Handle), _to(_u32)), ('give_number', _u32, _to(Handle), _u32),
        ('take_frames', _u32, _to(Handle), _to(Block), _size, _to(_size)),
        ('give_frames', _u32, _to(Handle), _to(Block), _size), ('drain', None, _to(Handle)), ('resting', _u32, _to(Handle)),
        ('frames', _u32, _to(Handle)), ('free_frames', _u32, _to(Handle)), ('free_huge', _u32, _to(Handle)),
        ('zones', _u32, _to(Handle)), ('home', _u32, _to(Handle)), ('set_home', _u32, _to(Handle), _u32),
        ('free_frames_of', _u32, _to(Handle), _u32), ('free_huge_of', _u32, _to(Handle), _u32),
        ('close', None, _to(Handle)),
        ('close_image', _u32, _to(Handle), _to(_u64), _size), ('image_words', _size, _u32)):
    _call = getattr(library, f'llfree_{_name}')
    _call.argtypes, _call.restype = _arguments, _answer


def _checked(status):
    if status != Status.OK:
        raise Refused(status)


def _fits(number, bits, otherwise):
    """The number, since ctypes cuts off what is too long."""
    if not 0 <= number < 1 << bits:
        raise Refused(otherwise)
    return number


def _row(kind, rows, bits, otherwise):
    row = [kind(_fits(first, 32, otherwise), _fits(second, bits, otherwise)) for first, second in rows]
    return (kind * len(row))(*row)


class Core:
    """A core of a memory, as the opening makes it."""

    def __init__(self, handle, singles):
        self._handle, self._lock = handle, threading.RLock()
        self._singles = singles  # what take_frame took, by number, for all cores of the memory

    def __del__(self, close=library.llfree_close):
        close(self._handle)

    def _call(self, name, *arguments):
        with self._lock:
            return getattr(library, f'llfree_{name}')(self._handle, *arguments)

    def _takes(self, tries, *call):
        for left in range(tries, 0, -1):
            status = self._call(*call)
            if status not in (Status.NO_BLOCK, Status.CONTENDED) or left == 1:
                break
        _checked(status)

    def take(self, order, tries=1):
        """The first frame of a block, or Refused. It tries again where other cores may be in the way."""
        frame, order = _u32(), _fits(order, 8, Status.BAD_ORDER)
        self._takes(tries, 'take', order, frame)
        return frame.value

    def take_at(self, frame, order, tries=1):
        """Exactly this block is taken, or Refused. It tries again where other cores may be in the way."""
        order = _fits(order, 8, Status.BAD_ORDER)
        self._takes(tries, 'take_at', _fits(frame, 32, Status.NO_BLOCK), order)

    def give(self, frame, order):
        _checked(self._call('give', _fits(frame, 32, Status.NOT_HELD), _fits(order, 8, Status.NOT_HELD)))

    def split(self, frame, order):
        """From then on each half is given by itself."""
        _checked(self._call('split', _fits(frame, 32, Status.NOT_HELD), _fits(order, 8, Status.NOT_HELD)))

    def split_to(self, frame, order, to):
        """From then on each of its blocks of order to is given by itself."""
        numbers = _fits(frame, 32, Status.NOT_HELD), _fits(order, 8, Status.BAD_ORDER), _fits(to, 8, Status.BAD_ORDER)
        _checked(self._call('split_to', *numbers))

    def order_at(self, frame):
        """The order of the held block that begins at this frame, or Refused."""
        order = _u8()
        _checked(self._call('order_at', _fits(frame, 32, Status.NOT_HELD), order))
        return order.value

    def is_free(self, frame, order):
        """Whether all frames of this block are free, as one look sees it."""
        return 0 <= frame < 1 << 32 and 0 <= order < 256 and self._call('is_free', frame, order)

    def take_run(self, count, tries=1):
        """The first frame of 1 to 512 huge frames side by side, or Refused. From then on each is given by itself."""
        frame, count = _u32(), _fits(count, 32, Status.BAD_ORDER)
        self._takes(tries, 'take_run', count, frame)
        return frame.value

    def give_run(self, frame, count):
        """Gives huge frames that lie side by side, where each is held."""
        _checked(self._call('give_run', _fits(frame, 32, Status.NOT_HELD), _fits(count, 32, Status.BAD_ORDER)))

    def take_frame(self, tries=1):
        """A single frame, or Refused: the one that came to rest with this core last, if any. give_frame gives it."""
        block = Block()
        self._takes(tries, 'take_frame', block)
        self._singles[block.frame] = block
        return block.frame

    def give_frame(self, frame):
        """A frame that take_frame of any core of the memory took comes to rest with this one."""
        block = self._singles.pop(frame, Block())
        status = self._call('give_frame', block)
        if block.live:
            self._singles[frame] = block
        _checked(status)

    def take_number(self, tries=1):
        """A single frame as take_frame takes it, which any core gives, by give_number or as a block of order 0."""
        frame = _u32()
        self._takes(tries, 'take_number', frame)
        return frame.value

    def give_number(self, frame):
        """A held block of order 0, by whichever call it was taken, comes to rest with this core."""
        _checked(self._call('give_number', _fits(frame, 32, Status.NOT_HELD)))

    def take_frames(self, count):
        """Up to this many single frames, the last one that came to rest first. Refused where there is none."""
        blocks, taken = (Block * count)(), _size()
        _checked(self._call('take_frames', blocks, count, taken))
        frames = [block.frame for block in blocks[:taken.value]]
        self._singles.update(zip(frames, blocks))
        return frames

    def give_frames(self, frames):
        """Frames as give_frame gives them; where one is refused, none is given."""
        blocks = [self._singles.pop(frame, Block()) for frame in frames]
        row = (Block * len(blocks))(*blocks)
        status = self._call('give_frames', row, len(row))
        self._singles.update((block.frame, block) for block in row if block.live)
        _checked(status)

    def drain(self):
        """Gives back all frames that rest with this core."""
        self._call('drain')

    def resting(self):
        return self._call('resting')

    def frames(self):
        return self._call('frames')

    def free_frames(self):
        return self._call('free_frames')

    def free_huge(self):
        return self._call('free_huge')

    def zones(self):
        return self._call('zones')

    def free_frames_of(self, zone):
        """Those of the zone of this number; 0 if there is none."""
        return self._call('free_frames_of', zone) if 0 <= zone < 1 << 32 else 0

    def free_huge_of(self, zone):
        return self._call('free_huge_of', zone) if 0 <= zone < 1 << 32 else 0

    def home(self):
        """The zone where takes through this core begin."""
        return self._call('home')

    def set_home(self, zone):
        _checked(self._call('set_home', _fits(zone, 32, Status.BAD_RANGE)))

    def close(self):
        self._call('close')

    def close_image(self, zones=None):
        """Closes the last core, and answers the numbers of the image; of a memory of zones, which have to be named."""
        count = sum(map(image_words, (frames for _, frames in zones) if zones else [self.frames()]))
        numbers = (_u64 * count)()
        _checked(self._call('close_image', numbers, count))
        return list(numbers)


def _cores(count, call, *arguments):
    handles = (Handle * _fits(count, 16, Status.BAD_GEOMETRY))()
    _checked(call(handles, count, *arguments))
    singles = {}
    return [Core(Handle.from_buffer_copy(handle), singles) for handle in handles]


def open(frames, cores=1, kept=()):
    """The cores of a memory. What is kept are ranges, pairs of the first frame and a number of frames."""
    ranges = _row(Range, kept, 32, Status.BAD_RANGE)
    return _cores(cores, library.llfree_open, _fits(frames, 32, Status.BAD_GEOMETRY), ranges, len(ranges))


def open_zones(zones, cores=1, kept=()):
    """The cores of a memory with holes; zones are pairs as ranges are."""
    zones, ranges = _row(Range, zones, 32, Status.BAD_GEOMETRY), _row(Range, kept, 32, Status.BAD_RANGE)
    return _cores(cores, library.llfree_open_zones, zones, len(zones), ranges, len(ranges))


def reopen(frames, numbers, cores=1, claims=()):
    """The cores of a memory opened at the numbers of an image. Claims are pairs of a frame and an order."""
    row = (_u64 * len(numbers))(*(_fits(number, 64, Status.BAD_IMAGE) for number in numbers))
    claims, frames = _row(Claim, claims, 8, Status.BAD_ORDER), _fits(frames, 32, Status.BAD_GEOMETRY)
    return _cores(cores, library.llfree_reopen, frames, row, len(row), claims, len(claims))


def image_words(frames):
    """How many numbers an image of this many frames has, or 0."""
    return library.llfree_image_words(frames) if 0 <= frames < 1 << 32 else 0
