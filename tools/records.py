"""The rules of traces, answers and images of docs/FORMATS.md, each with the sentence that says how a record breaks it:
for the scripts beside the program."""
CHILD_FRAMES = 512
TREE_CHILDREN = 8
HUGE_ORDER = 9
MOST_CHILDREN = 4_096
MOST_CORES = 64
MOST_BYTES = 16_777_216
MOST_RECORDS = 1_000_000
MOST_RANGES = 1_024
MOST_FRAME = 2**32 - 1
MOST_ORDER = 255
LABEL_BYTES = frozenset(b'ABCDEFGHIJKLMNOPQRSTUVWXYZabcdefghijklmnopqrstuvwxyz0123456789_-')
MARK = b'\xef\xbb\xbf'
PLACES = ('first', 'second', 'third', 'fourth', 'fifth')


class Broken(Exception):
    """A rule that a record breaks, in one sentence."""


class Refused(Exception):
    """What the program refuses: its status and its fault, the line of the text if it is known, and why."""

    def __init__(self, status, fault, why, line=None):
        super().__init__(fault)
        self.status, self.fault, self.why, self.line = status, fault, why, line

    def sentence(self):
        place = '' if self.line is None else f' (line {self.line:,})'
        return f'{self.fault}{place}: {self.why}'


# Texts


class Fields(list):
    """The fields of a record, and the line of a quote in it that is never closed, or None."""

    opened = None


def records_of(data):
    """The records of a CSV text, each with the line that it begins on and its fields."""
    if data.startswith(MARK):
        data = data[len(MARK):]
    if b'"' in data:
        yield from quoted_records_of(data)
        return
    data = data.replace(b'\r\n', b'\n').replace(b'\r', b'\n')
    for line, text in enumerate(data.split(b'\n'), 1):
        if text:
            yield line, text.split(b',')


def quoted_records_of(data):
    line, first, opened = 1, 1, 1
    fields, field, before = Fields(), bytearray(), None
    # between: at the start of a record; start: of a field; closed: behind a quote inside quotes
    state = 'between'
    for byte in data:
        if state == 'between':
            first = line
        if state == 'quoted':
            if byte == 0x22:
                state = 'closed'
            else:
                field.append(byte)
        elif state == 'closed' and byte == 0x22:
            field.append(byte)
            state = 'quoted'
        elif byte in (0x0a, 0x0d):
            if state != 'between':
                fields.append(bytes(field))
                yield first, fields
            fields, field, state = Fields(), bytearray(), 'between'
        elif byte == 0x2c:
            fields.append(bytes(field))
            field, state = bytearray(), 'start'
        elif byte == 0x22 and state in ('between', 'start'):
            opened, state = line, 'quoted'
        else:
            field.append(byte)
            state = 'field'
        # a carriage return and a line feed are one end of a line
        line += byte == 0x0d or byte == 0x0a and before != 0x0d
        if state == 'between':
            first = line
        before = byte
    if state != 'between':
        fields.append(bytes(field))
        fields.opened = opened if state == 'quoted' else None
        yield first, fields


def refusal(fault, broken, line, fields):
    """That a record is refused, and why; a quote that is open to the end is why it is as it is."""
    opened = getattr(fields, 'opened', None)
    never = '' if opened is None else f'a quote that opens on line {opened:,} is never closed; '
    return Refused(1, fault, never + str(broken), line)


def shown(field):
    """A field as it can be printed in a sentence."""
    text = field[:40].decode('ascii', 'backslashreplace').encode('unicode_escape').decode('ascii')
    return f'"{text}"' + (f' .. ({len(field):,} bytes)' if len(field) > 40 else '')


def expect(condition, sentence):
    if not condition:
        raise Broken(sentence)


def expect_fields(fields, count, word):
    many = len(fields)
    if many != count:
        raise Broken(f'a record of {word} has {count} fields, and here {"is" if many == 1 else "are"} {many}')


def expect_empty(fields, places, kind):
    for place in places:
        if fields[place]:
            raise Broken(f'the {PLACES[place]} field of {kind} is empty, and here stands {shown(fields[place])}')


def number(field, most, what):
    """The number of a field, at most so great."""
    if field.isdigit() and len(field) <= 20 and int(field) <= most:
        return int(field)
    expect(field, f'{what} is a number, and the field is empty')
    expect(field.strip() == field, f'{what} is a number without blanks, and here stands {shown(field)}')
    expect(all(0x30 <= byte <= 0x39 for byte in field), f'{what} is digits alone, and here stands {shown(field)}')
    expect(len(field) <= 20, f'{what} has at most 20 digits, and here are {len(field)}')
    raise Broken(f'{what} is 0 to {most}, and here stands {shown(field)}')


def label(field):
    if 0 < len(field) <= 16 and LABEL_BYTES.issuperset(field):
        return field
    expect(field, 'a label has 1 to 16 bytes, and the field is empty')
    expect(len(field) <= 16, f'a label has 1 to 16 bytes, and here are {len(field)}: {shown(field)}')
    raise Broken(f'a label has ASCII letters, digits, _ and - alone, and here stands {shown(field)}')


# Traces


class Line:
    """A record of a trace: its kind, and what the kind has."""

    def __init__(self, kind, core=None, label=None, frame=None, order=None, to=None, count=None):
        self.kind, self.core, self.label = kind, core, label
        self.frame, self.order, self.to, self.count = frame, order, to, count


def line_of(fields, cores, before):
    """The line of a record; before is the kind of the one before it, or None."""
    expect_fields(fields, 4, 'a trace')
    kind = fields[1]
    if kind == b'round':
        expect_empty(fields, (0, 2, 3), 'a round')
        return Line('round')
    if kind == b'reserve':
        expect_empty(fields, (0,), 'a reserve')
        start = number(fields[2], MOST_FRAME, 'a first frame')
        count = number(fields[3], MOST_FRAME, 'a count of frames')
        expect(before in (None, 'reserve'), 'a reserve stands before every other kind of record')
        return Line('reserve', frame=start, count=count)
    makes = {b'take': take_of, b'give': give_of, b'giveat': giveat_of, b'move': move_of}.get(kind)
    if not makes:
        expect(kind.strip() == kind, f'the second field has no blanks, and here stands {shown(kind)}')
        raise Broken(f'the second field is take, give, giveat, round, move or reserve, and here stands {shown(kind)}')
    core = number(fields[0], cores - 1, f'a core of a run with CORES {cores}')
    return makes(core, fields, cores, before)


def take_of(core, fields, _cores, _before):
    return Line('take', core, label(fields[2]), order=number(fields[3], MOST_ORDER, 'an order'))


def give_of(core, fields, _cores, _before):
    expect_empty(fields, (3,), 'a give')
    return Line('give', core, label(fields[2]))


def giveat_of(core, fields, _cores, _before):
    return Line('giveat', core, frame=number(fields[2], MOST_FRAME, 'a frame'),
                order=number(fields[3], MOST_ORDER, 'an order'))


def move_of(core, fields, cores, before):
    to = number(fields[3], cores - 1, f'a core of a run with CORES {cores}')
    expect(before in ('round', 'move'), 'a move stands straight behind a round or another move')
    return Line('move', core, label(fields[2]), to=to)


def trace_of(data, cores):
    """The lines of a trace."""
    lines, before = [], None
    for place, (at, fields) in enumerate(records_of(data), 1):
        try:
            expect(place <= MOST_RECORDS, 'a trace has at most 1,000,000 records')
            line = line_of(fields, cores, before)
        except Broken as broken:
            raise refusal(f'bad trace at record {place}', broken, at, fields) from None
        lines.append(line)
        before = line.kind
    return lines


def ranges_of(lines, frames):
    """The ranges that a trace holds back, each as its first frame and its count."""
    ranges, end = [(line.frame, line.count) for line in lines if line.kind == 'reserve'], 0
    try:
        expect(len(ranges) <= MOST_RANGES, f'a trace has at most 1,024 ranges, and here are {len(ranges):,}')
        for place, (start, count) in enumerate(ranges, 1):
            expect(count > 0, f'a range has a frame, and reserve number {place} has none')
            expect(start >= end,
                   f'reserve number {place} begins at frame {start}, before the end {end} of the one before it')
            end = start + count
            expect(end <= frames, f'reserve number {place} ends at frame {end}, and memory at {frames}')
    except Broken as broken:
        raise Refused(1, 'bad range', str(broken)) from None
    return ranges


def is_sizes(words):
    """Whether these words of a command line are numbers of sizes, whatever they say."""
    return len(words) in (2, 3) and all(1 <= len(word) <= 9 and word.isascii() and word.isdigit() for word in words)


def sizes_of(words):
    """Children, cores and frames of a command line that has two or three words of digits."""
    children, cores = int(words[0]), int(words[1])
    if not 1 <= children <= MOST_CHILDREN:
        raise Refused(1, 'bad geometry', f'a memory has 1 to 4,096 children, and here are {children}')
    if not 1 <= cores <= MOST_CORES:
        raise Refused(1, 'bad geometry', f'a memory has 1 to 64 cores, and here are {cores}')
    most = CHILD_FRAMES * children
    frames = int(words[2]) if len(words) == 3 else most
    if not most - CHILD_FRAMES < frames <= most:
        raise Refused(1, 'bad range', f'{so_many(children)} {"has" if children == 1 else "have"} '
                      f'{most - CHILD_FRAMES + 1} to {most} frames, and here {"is" if frames == 1 else "are"} {frames}')
    return children, cores, frames


def so_many(children):
    return '1 child' if children == 1 else f'{children} children'


def expect_length(data, most=MOST_BYTES):
    if len(data) > most:
        raise Refused(3, 'read failed', f'a text has at most {most:,} bytes, and this one has {len(data):,} or more')


# Answers


ANSWERS = {'take': ('Taken', 'BadOrder', 'NoBlock', 'Contended'), 'give': ('Given', 'NotHeld'),
           'giveat': ('Given', 'BadOrder', 'NotHeld'), 'move': ('Moved', 'NotHeld')}
WORDS = 'Taken', 'Given', 'Moved', 'BadOrder', 'NoBlock', 'Contended', 'NotHeld'


class Answers:
    """Of each record that is answered its number, its line of the trace, the word, and the block or None; and how many
    frames are held and free at the end."""

    def __init__(self, held, free):
        self.rows, self.held, self.free = [], held, free


def end_of(fields):
    """The last record of answers: frames held and free."""
    expect_fields(fields, 5, 'answers')
    expect(fields[:3] == [b'end', b'', b'Closed'],
           f'answers end with end,,Closed,HELD,FREE, and here stands {shown(b",".join(fields))}')
    most = CHILD_FRAMES * MOST_CHILDREN
    held, free = number(fields[3], most, 'HELD'), number(fields[4], most, 'FREE')
    expect(0 < held + free <= most and (held + free) % CHILD_FRAMES == 0,
           f'HELD and FREE are 512 frames for each of 1 to 4,096 children, and here are {held + free}')
    return Answers(held, free)


def answer_of(fields, place, line, frames):
    """The word and the block of an answer to that line of a trace, the record of this number."""
    expect_fields(fields, 5, 'answers')
    named = number(fields[0], MOST_RECORDS, 'the number of a record')
    expect(named == place, f'the answer to record {place} stands here, and not to record {named}')
    core = number(fields[1], MOST_CORES - 1, 'a core')
    expect(core == line.core, f'record {place} is of core {line.core}, and not of core {core}')
    word, wanted = fields[2].decode('ascii', 'replace'), ANSWERS[line.kind]
    expect(word in wanted, f'a {line.kind} is answered {" or ".join(wanted)}, and here stands {shown(fields[2])}')
    if word not in ('Taken', 'Given', 'Moved'):
        expect_empty(fields, (3, 4), 'a refusal')
        return word, None
    frame, order = number(fields[3], frames - 1, 'a frame of this memory'), number(fields[4], HUGE_ORDER, 'an order')
    expect(frame % 2**order == 0, f'a block of order {order} begins at a multiple of {2**order}, and not at {frame}')
    expect(line.order in (None, order), f'record {place} is of order {line.order}, and not {order}')
    expect(line.frame in (None, frame), f'record {place} is of frame {line.frame}, and not {frame}')
    return word, (frame, order)


def answers_of(data, lines):
    """The answers to the lines of a trace."""
    rows = list(records_of(data))
    at, fields, place = None, [], 0
    try:
        expect(rows, 'answers have a last record, and here is none')
        place, (at, fields) = len(rows), rows[-1]
        answers = end_of(fields)
        asked = [(record, line) for record, line in enumerate(lines, 1) if line.kind not in ('round', 'reserve')]
        expect(len(rows) == len(asked) + 1, f'this trace has {len(asked):,} answers, and here are {len(rows) - 1:,}')
        for place, ((at, fields), (record, line)) in enumerate(zip(rows, asked), 1):
            answers.rows.append((record, line, *answer_of(fields, record, line, answers.held + answers.free)))
    except Broken as broken:
        raise refusal(f'bad answers at record {place}', broken, at, fields) from None
    return answers


# Images


class Image:
    """An image: of each child its free frames, its flag and its bits, of each tree its free frames and whether a core
    has reserved it, of each core its tree and the frames that rest on it, or None."""

    def __init__(self, children, cores, frames):
        self.children, self.cores, self.frames = children, cores, frames
        self.trees = -(-children // TREE_CHILDREN)
        self.free, self.huge, self.words = [], [], []
        self.tree, self.local = [], []

    def tree_size(self, tree):
        return CHILD_FRAMES * min(TREE_CHILDREN, self.children - TREE_CHILDREN * tree)


def size(field, most, what):
    value = number(field, most, what)
    expect(value, f'{what} is 1 to {most}, and here stands {shown(field)}')
    return value


def first_of_image(fields, make):
    expect_fields(fields, 5, 'an image')
    expect(fields[0] == b'llfree', f'an image begins with llfree, and here stands {shown(fields[0])}')
    version = size(fields[1], 2, 'a version')
    children, cores = size(fields[2], MOST_CHILDREN, 'CHILDREN'), size(fields[3], MOST_CORES, 'CORES')
    if version == 1:
        expect_empty(fields, (4,), 'an image of version 1')
        return make(children, cores, CHILD_FRAMES * children)
    frames = number(fields[4], CHILD_FRAMES * children, f'FRAMES of {so_many(children)}')
    expect(frames > CHILD_FRAMES * (children - 1),
           f'FRAMES of {so_many(children)} end in the last one, and here are {frames}')
    return make(children, cores, frames)


def words_of(field):
    expect(len(field) == 128, f'WORDS are 128 hexadecimal digits, and here are {len(field)}')
    expect(all(byte in b'0123456789abcdefABCDEF' for byte in field),
           f'WORDS are hexadecimal digits, and here stands {shown(field)}')
    return sum(int(field[16 * w:16 * (w + 1)], 16) << 64 * w for w in range(8))


def expect_record(fields, word, place):
    """The record of this kind and number, whose turn it is."""
    expect_fields(fields, 5, 'an image')
    expect(fields[0] == word, f'{word.decode()} {place} stands here, and not {shown(fields[0])}')
    named = number(fields[1], MOST_FRAME, f'the number of a {word.decode()}')
    expect(named == place, f'{word.decode()} {place} stands here, and not {named}')


def add_child(image, fields):
    child = len(image.free)
    expect_record(fields, b'child', child)
    free, huge = number(fields[2], CHILD_FRAMES, 'FREE of a child'), number(fields[3], 1, 'HUGE')
    words, past = words_of(fields[4]), max(0, CHILD_FRAMES * (child + 1) - image.frames)
    if past:
        expect(not huge, 'a child that the end of memory cuts is no huge frame')
        expect(words >> CHILD_FRAMES - past == (1 << past) - 1, f'the bits of the {past} frames past the end are set')
    image.free.append(free)
    image.huge.append(huge)
    image.words.append(words)


def add_tree(image, fields):
    tree = len(image.tree)
    expect_record(fields, b'tree', tree)
    free, reserved = number(fields[2], image.tree_size(tree), f'FREE of tree {tree}'), number(fields[3], 1, 'RESERVED')
    expect_empty(fields, (4,), 'a tree')
    image.tree.append((free, reserved))


def add_core(image, fields):
    expect(len(image.local) < image.cores, f'the image ends with core {image.cores - 1}, and here is one record more')
    expect_record(fields, b'core', len(image.local))
    expect_empty(fields, (4,), 'a core')
    if not fields[2]:
        expect_empty(fields, (3,), 'a core without a tree')
        image.local.append(None)
        return
    tree = number(fields[2], image.trees - 1, f'a tree of {so_many(image.children)}')
    image.local.append((tree, number(fields[3], image.tree_size(tree), f'FREE of a core with tree {tree}')))


def add_record(image, fields, make):
    """The image with one record more; make is what makes one of children, cores and frames."""
    if image is None:
        return first_of_image(fields, make)
    if len(image.free) < image.children:
        add_child(image, fields)
    elif len(image.tree) < image.trees:
        add_tree(image, fields)
    else:
        add_core(image, fields)
    return image


def missing_from(image):
    """The record that an image lacks, or None."""
    if image is None:
        return 'its first record, which begins with llfree,'
    for word, here, wanted in (('child', image.free, image.children), ('tree', image.tree, image.trees),
                               ('core', image.local, image.cores)):
        if len(here) < wanted:
            return f'{word} {len(here)}'
    return None


def image_of(data, make=Image):
    """The image that a text is; make is the class of it."""
    image, place = None, 0
    for place, (at, fields) in enumerate(records_of(data), 1):
        try:
            image = add_record(image, fields, make)
        except Broken as broken:
            raise refusal(f'bad image at record {place}', broken, at, fields) from None
    missing = missing_from(image)
    if missing is not None:
        raise Refused(1, f'bad image at record {place + 1}', f'the text ends, and {missing} is missing')
    return image
