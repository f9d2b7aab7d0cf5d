#!/usr/bin/env python3
"""Tries tools/play.py on the recordings of the repository: the page's bytes, its states beside the library's images,
windows, refusals, the allocators beside it, and the page itself in headless Chromium. tools/play.sh runs this.

    checks.py [PROGRAM] [--renew] [--pictures FOLDER]
"""
import argparse
import base64
import collections
import functools
import gzip
import hashlib
import lzma
import os
import random
import re
import subprocess
import sys
import tempfile
import zlib

HERE = os.path.dirname(os.path.abspath(__file__))
TOOLS = os.path.dirname(HERE)
TOP = os.path.dirname(TOOLS)
sys.path[:0] = [TOOLS, HERE]
import browser  # noqa: E402 pylint: disable=wrong-import-position
import image_diff  # noqa: E402 pylint: disable=wrong-import-position
import kernel_trace  # noqa: E402 pylint: disable=wrong-import-position
import play  # noqa: E402 pylint: disable=wrong-import-position
import records  # noqa: E402 pylint: disable=wrong-import-position
import witness  # noqa: E402 pylint: disable=wrong-import-position

EXAMPLES = os.path.join(TOP, 'examples', 'replay')
KERNEL = os.path.join(EXAMPLES, 'kernel-events.txt.gz')
COMPILE = os.path.join(EXAMPLES, 'compile-events.txt.xz')
SUMS = os.path.join(EXAMPLES, 'pages.sums')
STILL = os.path.join(TOP, 'docs', 'pictures', 'frames.svg')
PAGES = {'kernel': [KERNEL, '--title', 'Linux 6.18, compilers and shells'],
         'compile': [COMPILE, '--title', 'Linux 6.18, four compilers'],
         'film': [KERNEL, '--film', '20', '--title', 'Linux 6.18, compilers and shells'],
         'window': [KERNEL, '--begin', '0.2', '--end', '0.4', '--title', 'Linux 6.18, a window']}
PICTURE = [COMPILE, '--still', '1', '--title', 'Four compilers on 4 processors']
MOMENTS = {'kernel': (0.2, 0.35, 0.55), 'compile': (0.9,), 'window': (0.3,), 'parts': (0.1, 0.25, 0.4)}
WIDTHS = 1280, 400
counts = {'passed': 0, 'failed': 0}


def tries(name, is_right, said=''):
    counts['passed' if is_right else 'failed'] += 1
    if not is_right:
        print(f'play: {name}{": " + str(said) if said else ""}')


def made(words, recording=None, settings=None):
    """What play.py prints, its standard error and its status."""
    done = subprocess.run([os.path.join(TOOLS, 'play.py'), *words], input=recording, capture_output=True, check=False,
                          env=settings)
    return done.stdout, done.stderr.decode(), done.returncode


def data_of(page):
    text = re.search(rb'<script id="data" type="application/octet-stream">(.*?)</script>', page, re.DOTALL)[1]
    return base64.b64decode(text)


def sum_of(page):
    """A sum of the page with its data unpacked: so it is the same by every version of zlib."""
    data = data_of(page)
    return hashlib.sha256(page.replace(base64.b64encode(data), zlib.decompress(data))).hexdigest()


def replay_of(words, folder):
    given = play.arguments(words)
    return play.Replay(play.opened(given.recording), given, folder)


# The page's bytes


def pages(folder, is_renewed):
    sums = {}
    if os.path.exists(SUMS):
        with open(SUMS, encoding='utf-8') as text:
            sums = dict(reversed(line.split()) for line in text)
    found = {}
    for name, words in PAGES.items():
        page, said, status = made(words)
        with open(os.path.join(folder, f'{name}.html'), 'wb') as out:
            out.write(page)
        tries(f'the page {name}: status', status == 0, said)
        if status:
            continue
        found[name] = sum_of(page)
        tries(f'the page {name} a second time', made(words)[0] == page)
        if not is_renewed:
            tries(f'the page {name}: its bytes', sums.get(name) == found[name],
                  f'another sum, {found[name]}: by other answers? tools/play.sh --renew lays it down')
        outside = re.findall(rb'(?:src|href)=|https?://|@import|url\(', page.replace(data_of(page), b''))
        tries(f'the page {name}: nothing of the network', not outside, outside)
    picture, said, status = made(PICTURE)
    tries('the picture: status', status == 0, said)
    if is_renewed:
        with open(SUMS, 'w', encoding='utf-8') as out:
            out.writelines(f'{found[name]} {name}\n' for name in found)
        with open(STILL, 'wb') as out:
            out.write(picture)
    with open(STILL, 'rb') as old:
        tries('the picture: its bytes', old.read() == picture)


# States


@functools.lru_cache(maxsize=None)
def events_of(name):
    """The events of a recording as the witness reads it, each with its time since the first allocation, or that of the
    one before it where that is later."""
    with (lzma if name.endswith('.xz') else gzip).open(name, 'rt') as lines:
        events = [event for event in map(witness.event_of, lines) if event]
    began, now, made = next(time for time, _, is_alloc, *_ in events if is_alloc), 0, []
    for time, *rest in events:
        now = max(now, time - began)
        made.append((now, rest))
    return made


def page_of(name, folder):
    with open(os.path.join(folder, f'{name}.html'), 'rb') as text:
        return witness.Page(text.read())


def followed(events, micros, library, said):
    other = witness.Witness(library, said['frames'], said['processors'])
    for time, event in events:
        if time > micros:
            break
        other.follow(*event)
    return other


def held_in(program, image):
    """Of each frame whether it is held in an image that the program rebuilds."""
    done = subprocess.run([program, 'rebuild'], input=image.encode(), capture_output=True, check=True)
    rebuilt = records.image_of(done.stdout)
    bits = [image_diff.held_of(rebuilt, child) for child in range(rebuilt.children)]
    return [bool(word >> place & 1) for word in bits for place in range(512)]


def is_held(who):
    return [one != play.NOBODY for one in who]


def amounts(who, order):
    """How many frames each processor has of each order."""
    counts_of = collections.Counter(zip(who, order))
    return {pair: count for pair, count in counts_of.items() if pair[0] != play.NOBODY}


def in_parts():
    """A recording in which blocks are freed in parts, and allocated where they are out still."""
    number = random.Random(9)
    for at in range(4_000):
        kind, order = number.choice(('alloc', 'free', 'free')), number.choice((0, 0, 1, 2, 3, 5, 9, 10))
        frame = 0x40000 + (number.randrange(8192) >> order << order)
        yield (f'x 1 [{number.randrange(4):03d}] 1.{at * 100:06d}: kmem:mm_page_{kind}: page=0 pfn={frame:#x} '
               f'order={order} migratetype=0\n')


def states(program, folder):
    """A page has the very frames that the program finds held in the library's own image, after a replay beside it
    (witness.py), by the same processors and orders. A block in a wrong place is seen."""
    library, parts = play.llfree(folder), os.path.join(folder, 'parts.gz')
    with gzip.open(parts, 'wt') as out:
        out.writelines(in_parts())
    with open(os.path.join(folder, 'parts.html'), 'wb') as out:
        out.write(made([parts, '--mib', '64'])[0])
    for name, moments in MOMENTS.items():
        words = PAGES.get(name, [parts, '--mib', '64'])
        try:
            page, replay, events = page_of(name, folder), replay_of(words, folder), events_of(words[0])
            for moment in moments:
                other = followed(events, int(moment * 1e6), library, page.said)
                state(name, moment, page, replay, program, other)
        except (witness.Wrong, play.Fault, records.Refused, subprocess.CalledProcessError) as error:
            tries(f'the states of {name}', False, error)


def films(program, folder):
    """A picture of a film has of each huge frame what the library's image and the witness say."""
    library, events = play.llfree(folder), events_of(PAGES['film'][0])
    with open(os.path.join(folder, 'film.html'), 'rb') as text:
        page = witness.Film(text.read())
    for moment in MOMENTS['kernel']:
        picture, micros = page.picture_at(int(moment * 1e6))
        try:
            other = followed(events, micros, library, page.said)
            tries(f'the film after {moment} s: the image', is_held(other.who) == held_in(program, other.image()))
            shown = page.shown(0, picture)
            tries(f'the film after {moment} s', shown == witness.film_of(other.who, page.said['processors']), shown[0])
        except (witness.Wrong, records.Refused, subprocess.CalledProcessError) as error:
            tries(f'the film after {moment} s', False, error)


def state(name, moment, page, replay, program, other):
    def agrees(what, is_right):
        tries(f'{name} after {moment} s: {what}', is_right)
    time = int(moment * 1e6) - page.said['begin']
    held = held_in(program, other.image())
    agrees('something is held', sum(held) > 500)
    agrees("the witness's frames are those of the image", is_held(other.who) == held)
    found = [page.state(place, time) for place in range(4)]
    agrees('the frames of the image', is_held(found[0][0]) == held)
    agrees('who took them', found[0][0] == other.who)
    if not page.said['kept']:
        agrees('their orders', all(mine == its for mine, its, is_out in zip(found[0][1], other.order, held) if is_out))
    agrees('the recorded frames', page.recorded(found[3][0]) == other.recorded())
    wanted = amounts(*found[0])
    for place in range(4):
        drawn = bytes(replay.state(place, replay.step_at(moment))[0])
        agrees(f'the picture of {play.NAMES[place]}', drawn == found[place][0])
        agrees(f'as much in {play.NAMES[place]}', amounts(*found[place]) == wanted)
    # the check sees what it is for
    right = page.memories[0]
    page.memories[0] = page.with_a_block_moved(0, time)
    agrees('a block in a wrong place is seen', is_held(page.state(0, time)[0]) != held)
    page.memories[0] = right


def in_turn(replay):
    """The steps of a recording as a trace in which each is a round, so that its answers depend on no schedule; and the
    records whose takes have a block in the page."""
    _, marks, processors, back, _ = replay.columns()
    rows, wanted, under = [], set(), {}
    labels = kernel_trace.Labels()
    for at, (mark, processor) in enumerate(zip(marks, processors)):
        if at:
            rows.append(',round,,')
        if mark >= 16:
            under[at] = labels.new(), processor
            rows.append(f'{processor},take,{under[at][0]},{mark & 15}')
            if replay.where[0][at] != play.NONE:
                wanted.add(len(rows))
            continue
        label, core = under.pop(at - back[at])
        if core != processor:
            rows.append(f'{core},move,{label},{processor}')
        rows.append(f'{processor},give,{label},')
        labels.reuse(label)
    return ''.join(row + '\n' for row in rows), wanted


def answers(program, folder):
    """On several cores, one after the other, the program has a block for each take that has one in the page. Where, may
    differ: the program searches from the beginning, the library's zones from their last find on."""
    replay = replay_of([KERNEL, '--end', '0.1', '--mib', '128'], folder)
    trace, wanted = in_turn(replay)
    words = [program, 'run', str(replay.frames // 512), str(replay.processors)]
    done = subprocess.run(words, input=trace.encode(), capture_output=True, check=False)
    found = {int(line.partition(',')[0]) for line in done.stdout.decode().splitlines() if line.split(',')[2] == 'Taken'}
    tries(f'the answers on {replay.processors} cores', len(wanted) > 1000 and found == wanted)


def own_counts(folder):
    """At the end as many frames and huge frames are free as the library counts, with a core for each processor."""
    for name, words in (('kernel', [KERNEL]), ('compile', [COMPILE])):
        replay = replay_of(words, folder)
        who = replay.state(0, replay.count)[0]
        held = [sum(one != play.NOBODY for one in who[at:at + 512]) for at in range(0, len(who), 512)]
        tries(f'{name}: free frames', replay.free[0] == len(who) - sum(held), replay.free)
        tries(f'{name}: free huge frames', replay.free[1] == held.count(0), replay.free)


def windows(folder):
    """A window ends in the state in which the whole recording is there, and begins with what is out."""
    whole = replay_of([KERNEL], folder)
    window = replay_of([KERNEL, '--begin', '0.2', '--end', '0.4', '--mib', '128'], folder)
    for moment in 0.2, 0.3, 0.4:
        for place in range(3):
            old, new = (replay.state(place, replay.step_at(moment)) for replay in (whole, window))
            tries(f'a window after {moment} s: {play.NAMES[place]}', old[0] == new[0])
    tries('a window begins with what is out', window.held(window.step_at(0.2)) > 1000)
    parts = os.path.join(folder, 'parts.txt')
    with open(parts, 'w', encoding='utf-8') as out:
        out.write(PARTS)
    replay = replay_of([parts, '--mib', '16'], folder)
    held = [sum(one != play.NOBODY for one in replay.state(place, replay.count)[0]) for place in range(4)]
    tries('parts of blocks that are freed', held == [512 - 8 - 1 + 4] * 4, held)
    tries('parts of blocks: no huge frame free', replay.free[0] == 4096 - held[0], replay.free)


def trace_windows():
    """A window of a trace begins with takes of all that is out, also where that is most of it; or says it cannot."""
    kernel_trace.MOST_RECORDS, kernel_trace.SLICE_RECORDS, old = 20_000, 1_000, (kernel_trace.MOST_RECORDS,
                                                                                  kernel_trace.SLICE_RECORDS)

    def window(number, held):
        kinds = ['alloc'] * held + ['free', 'alloc'] * 10_000
        lines = [f'x 1 [000] 1.{at:06d}: kmem:mm_page_{kind}: pfn={at + 1 if at < held else 7} order=0'
                 for at, kind in enumerate(kinds)]
        rows = []
        kernel_trace.convert(lines, kernel_trace.Converter(1, 10_000, number, rows.append))
        return ''.join(rows).splitlines()
    try:
        rows = window(2, 15_000)
        takes = [row for row in rows[:14_999] if ',take,' in row]
        tries('a window of a trace with most of it held', len(takes) == 14_999 and 15_500 < len(rows) <= 20_000,
              len(rows))
        try:
            window(2, 19_000)
            tries('a window of a trace without room', False)
        except kernel_trace.Fault as fault:
            tries('a window of a trace without room', 'leaves no room' in str(fault), fault)
    finally:
        kernel_trace.MOST_RECORDS, kernel_trace.SLICE_RECORDS = old


PARTS = '''x 1 [000] 1.000000: kmem:mm_page_alloc: page=0 pfn=0x1000 order=9 migratetype=0
x 1 [001] 1.000010: kmem:mm_page_free: page=0 pfn=0x1008 order=3
x 1 [001] 1.000020: kmem:mm_page_free: page=0 pfn=0x1001 order=0
x 1 [001] 1.000030: kmem:mm_page_alloc: page=0 pfn=0x1008 order=2 migratetype=0
'''


LOST_LITTLE = 'Warning:\nProcessed 47349 events and lost 2 chunks!\n\nCheck IO/CPU overload!\n\n'
LOST_MUCH = 'Warning:\nProcessed 115895 samples and lost 60.09%!\n\n'


# Recordings that are none, and large ones


def refusals(folder):
    def refuses(name, words, recording=None):
        page, said, status = made(words, recording)
        lines = [line for line in said.splitlines() if line]
        tries(f'{name}: status 1', status == 1, status)
        tries(f'{name}: one sentence', len(lines) == 1 and lines[0].startswith('play: '), said)
        tries(f'{name}: no page', page == b'')
    refuses('no recording', ['-'], b'a line\n')
    refuses('nothing', ['-'], b'')
    refuses('a file that is not there', [os.path.join(folder, 'none')])
    refuses('a window behind the end', [KERNEL, '--begin', '9'])
    with open(KERNEL, 'rb') as whole:
        refuses('half a recording', ['-'], whole.read()[:300_000])
    refuses('noise in a gzip', ['-'], b'\x1f\x8b' + bytes(range(200)))
    tries('an order of arguments that is none', made([KERNEL, '--mib', '9000'])[2] == 2)
    wild = b''.join(b'x 1 [%03d] 5.%06d: kmem:mm_page_%s: pfn=%d order=%d\n'
                    % (at % 200, at, b'alloc' if at % 3 else b'free', at * 7919 % 5000 * 512, at % 23)
                    for at in range(3000))
    page, said, status = made(['-', '--mib', '16'], wild)
    tries('a wild recording', status == 0 and page, said)


def by_perf(folder):
    """Of a file that perf alone can read, the page says how much perf lost; there is none where perf cannot read it."""
    data, program, printed = (os.path.join(folder, name) for name in ('perf.data', 'perf', 'perf.txt'))
    settings = {**os.environ, 'PATH': folder + os.pathsep + os.environ['PATH']}
    with open(data, 'wb') as out:
        out.write(b'PERFILE2' + bytes(96))
    with open(printed, 'w', encoding='utf-8') as out:
        out.write(PARTS)

    def by(said, status):
        with open(program, 'w', encoding='utf-8') as out:
            out.write(f"#!/bin/sh\ncat '{printed}'\ncat >&2 <<'end'\n{said}\nend\nexit {status}\n")
        os.chmod(program, 0o755)
        return made([data, '--mib', '16'], settings=settings)
    for said, lost in (('', ''), (LOST_LITTLE, 'some'), (LOST_LITTLE + LOST_MUCH, '60 %')):
        page, told, status = by(said, 0)
        is_told = bool(lost) == (f'{lost} of the events were lost by perf' in told)
        is_in_it = status == 0 and witness.Page(page).said['lost'] == lost
        tries(f'perf lost {lost or "nothing"}', is_told and is_in_it, told)
    page, told, status = by('no', 3)
    tries('perf fails', status == 1 and page == b'' and told == 'play: perf ended with status 3: no\n', told)


def peers(folder):
    """Blocks of the buddy allocators are aligned, inside memory and apart, and all is free again where all is given."""
    code = play.replayer(folder)
    code.peer_open.restype = play.ctypes.c_void_p
    code.peer_take.restype = play.ctypes.c_uint32
    for frames, processors in ((4096, 0), (4096, 3), (5000, 2), (64, 4)):
        peer = play.ctypes.c_void_p(code.peer_open(frames, processors))
        number, owner, held, is_right = random.Random(frames + processors), {}, [], True
        for _ in range(20_000):
            processor = number.randrange(max(1, processors))
            if held and number.random() < 0.5:
                frame, order = held.pop(number.randrange(len(held)))
                for one in range(frame, frame + (1 << order)):
                    del owner[one]
                code.peer_give(peer, processor, frame, order)
                continue
            order = number.choice((0, 0, 0, 1, 2, 3, 5, 9))
            frame = code.peer_take(peer, processor, order)
            if frame == play.NONE:
                continue
            block = range(frame, frame + (1 << order))
            is_right &= frame % (1 << order) == 0 and block[-1] < frames and not any(one in owner for one in block)
            owner.update(dict.fromkeys(block, True))
            held.append((frame, order))
        tries(f'blocks of {frames} frames with {processors} lists', is_right)
        for frame, order in held:
            code.peer_give(peer, 0, frame, order)
        taken = []
        while (frame := code.peer_take(peer, 0, 0)) != play.NONE:
            taken.append(frame)
        tries(f'all of {frames} frames with {processors} lists', sorted(taken) == list(range(frames)))
        code.peer_close(peer)


# In the browser


def unlabelled(page):
    """Controls and pictures that a screen reader would have no words for."""
    nodes = page.call('Accessibility.getFullAXTree')['nodes']
    roles = 'button', 'combobox', 'slider', 'image', 'img'
    shown = [node for node in nodes if not node.get('ignored') and node.get('role', {}).get('value') in roles]
    return len(shown), [node['role']['value'] for node in shown if not node.get('name', {}).get('value')]


def who_in_page(page, place):
    """A sum over who has each frame in the page."""
    return page.value(f'model.memories[{place}].who.reduce((sum, who) => (sum * 31 + who) >>> 0, 7)')


def who_in_state(who):
    """The same of a state."""
    total = 7
    for one in who:
        total = (total * 31 + one) & 0xffffffff
    return total


def in_browser(folder, pictures):
    program = browser.found()
    if program is None:
        print("skipped: the page in a browser, for want of chromium (chromium)")
        return
    try:
        one = browser.Browser(program)
    except OSError as error:
        tries(f'{program} starts', False, error)
        return
    try:
        for name in PAGES:
            for width in WIDTHS:
                for is_dark in (False, True):
                    try:
                        plays(one, name, folder, width, is_dark, pictures)
                    except (OSError, KeyError) as error:
                        tries(f'{name} at {width} points', False, error)
        try:
            moments(one, folder)
        except (OSError, KeyError, witness.Wrong) as error:
            tries('the pages at three moments', False, error)
        tries('errors in the pages', not one.errors, one.errors[:3])
        asked = [url for url in one.requests if not url.startswith(('file:', 'about:', 'data:'))]
        tries('the network', not asked, asked[:3])
    finally:
        one.close()


def moments(shown, folder):
    """In the browser a page has the states that were held against the library's image."""
    for name, moments_of in MOMENTS.items():
        shown.show(f'file://{os.path.join(folder, name)}.html')
        page = page_of(name, folder)
        for moment in reversed(moments_of):
            time = int(moment * 1e6) - page.said['begin']
            shown.value(f'seek({time})')
            for place in range(4):
                tries(f'{name} in the browser after {moment} s: {play.NAMES[place]}',
                      who_in_page(shown, place) == who_in_state(page.state(place, time)[0]))


def choose(name, value):
    change = f"one.value = '{value}'; one.dispatchEvent(new Event('change'));"
    return f"(one => {{ {change} }})(document.getElementById('{name}'))"


# how wide panels are, and the points of their pictures on the screen
ROOM = '''model.memories.map(m => [m.canvas.parentElement.clientWidth, m.canvas.clientWidth + 2, m.canvas.width])'''
# of each tile of every take and give: does it show its users alone, and nothing only where nothing is held?
USERS = '''model.memories.every(m => {
  const colours = palette().processor.map(packed), free = packed(css('--free'));
  for (let child = 0; child < m.children; child++) {
    const seen = new Set(), users = new Set();
    for (let y = 0; y < m.high; y++)
      for (let x = 0; x < m.wide; x++) seen.add(m.points[m.corner(child) + y * m.canvas.width + x]);
    for (let p = 0; p < SAID.processors; p++) if (m.of[child * SAID.processors + p]) users.add(colours[p % COLOURS]);
    seen.delete(free);
    if (m.frames[child] > 0 !== seen.size > 0 || [...seen].some(one => !users.has(one))) return false;
  }
  return true;
})'''


# of each tile of a film whose points are fewer than twice its colours: it is filled as far as frames of it are held, by
# its users alone, and where one point has them all, by the one with most
FILLED = '''model.memories.every(m => {
  const colours = palette().processor.map(packed), free = packed(css('--free'));
  if (m.wide >= 2 * m.colours) return false;
  for (let child = 0; child < m.children; child++) {
    const at = m.corner(child), layer = l => m.layer[(l * m.children + child) * SAID.pictures + model.at];
    const users = Array.from({ length: m.colours }, (_, l) => layer(l)), held = users.reduce((sum, n) => sum + n);
    const taken = [...m.points.subarray(at, at + m.wide)].filter(one => one !== free);
    if (taken.length !== Math.min(m.wide, Math.ceil(held * m.wide / 256))) return false;
    if (taken.some(one => !users[colours.indexOf(one)])) return false;
    if (taken.length === 1 && users[colours.indexOf(taken[0])] !== Math.max(...users)) return false;
  }
  return true;
})'''


def is_in_its_room(page):
    """Whether pictures are nearly as wide as their panels, with no point narrower than one of the screen."""
    return all(0.7 * room < shown <= room and points <= shown for room, shown, points in page.value(ROOM))


def plays(page, name, folder, width, is_dark, pictures):
    told = f'{name} at {width} points, {"dark" if is_dark else "light"}'
    page.show(f'file://{os.path.join(folder, name)}.html', width, 900 if width > 600 else 800, is_dark)

    def sees(what, is_right, said=''):
        tries(f'{told}: {what}', is_right, said)
    sees('fits its width', page.value('document.documentElement.scrollWidth <= innerWidth'),
         page.value('document.documentElement.scrollWidth'))
    dark = page.value("getComputedStyle(document.body).backgroundColor")
    sees('its paper', (dark == 'rgb(13, 17, 23)') == is_dark, dark)
    many, without = unlabelled(page)
    sees('labels', many >= 11 and not without, f'{many} {without}')
    if pictures:
        page.picture(os.path.join(pictures, f'{name}-{width}-{"dark" if is_dark else "light"}.png'))

    # forth and back again by steps, by the keyboard, and by a jump
    page.value("seek(SAID.micros * 0.55)")
    there = page.value('model.digest()')
    for key, back in (('ArrowRight', 'ArrowLeft'), ('End', None), ('Home', None)):
        page.key(key, shift=True)
        sees(f'{key} moves', page.value('model.digest()') != there)
        if back:
            page.key(back, shift=True)
        else:
            page.value("seek(SAID.micros * 0.55)")
        sees(f'after {key} the same again', page.value('model.digest()') == there)
    page.value("document.getElementById('on').click(), document.getElementById('back').click()")
    sees('a step on and back', page.value('model.digest()') == there)

    # play, and stop
    # slowly, so that the end is far also where the machine is busy
    page.value("document.getElementById('speed').value = '60'")
    began = page.value('model.at')
    left, top, wide, high = page.box('#play')
    page.drag([(left + wide / 2, top + high / 2)])
    for _ in range(100):
        page.wait(0.1)
        if page.value('model.at') > began:
            break
    page.drag([(left + wide / 2, top + high / 2)])
    ended = page.value('model.at')
    sees('plays', ended > began, f'{began} {ended}')
    page.wait(0.2)
    sees('stops', page.value('model.at') == ended)
    sees('the button says so', page.value("document.getElementById('play').getAttribute('aria-pressed')") == 'false')
    page.value("document.activeElement.blur()")
    page.key(' ')
    sees('space plays', page.value('playing'))
    page.key(' ')
    sees('space stops', not page.value('playing'))
    page.value("seek(SAID.micros * 0.55)")
    sees('an earlier state is found again', page.value('model.digest()') == there)

    # drag in the chart, and switch
    page.value("document.getElementById('chart').scrollIntoView({block: 'center'})")
    left, top, wide, high = page.box('#chart')
    start, over = (page.value(f"Number(document.getElementById('chart').dataset.{word})") for word in ('left', 'width'))
    page.drag([(left + start + over * part, top + high / 2) for part in (0.8, 0.5, 0.25)])
    sees('a drag goes there', abs(page.value('now / SAID.micros') - 0.25) < 0.02, page.value('now / SAID.micros'))
    for what in ('free', 'held', 'refused', 'share'):
        before = page.value("document.getElementById('chart').toDataURL()")
        page.value(choose('what', what))
        sees(f'the chart {what}', page.value("document.getElementById('chart').toDataURL()") != before)
    seen = set()
    for mode in ('order', 'age', 'processor'):
        page.value(choose('mode', mode))
        seen.add(page.value('model.memories[0].canvas.toDataURL()'))
    sees('colourings', len(seen) == 3, len(seen))
    sees('pictures in their panels', is_in_its_room(page), page.value(ROOM))
    page.value("document.querySelectorAll('.larger').forEach(one => one.click())")
    sees('larger pictures in their panels', is_in_its_room(page), page.value(ROOM))
    sees('larger ones', all(room > width / 2 for room, *_ in page.value(ROOM)), page.value(ROOM))
    if name != 'film':
        sees('tiles show their users', page.value(USERS))
    page.value("document.querySelectorAll('.larger').forEach(one => one.click())")
    if name != 'film':
        sees('small tiles show their users', page.value(USERS))
    else:
        page.value("model.memories.forEach(m => m.fit(3 * m.children ** 0.5 * 2, 1)), show()")
        sees('narrow tiles show their users', page.value(FILLED))
        page.value('fit()')
    page.value("seek(SAID.micros * 0.55)")
    sees('the same after all', page.value('model.digest()') == there)


def main():
    parser = argparse.ArgumentParser(description=__doc__.split('\n', maxsplit=1)[0])
    parser.add_argument('program', nargs='?', help='the program, for its own images')
    parser.add_argument('--renew', action='store_true', help='lays down the sums of the pages and the picture')
    parser.add_argument('--pictures', help='a folder for pictures of the pages')
    given = parser.parse_args()
    with tempfile.TemporaryDirectory() as folder:
        pages(folder, given.renew)
        if given.program and os.access(given.program, os.X_OK):
            states(given.program, folder)
            films(given.program, folder)
            answers(given.program, folder)
        else:
            tries(f'{given.program}: not built', False)
        own_counts(folder)
        windows(folder)
        trace_windows()
        refusals(folder)
        by_perf(folder)
        peers(folder)
        in_browser(folder, given.pictures)
    print(f'{counts["passed"]} passed, {counts["failed"]} failed')
    return counts['failed'] > 0


if __name__ == '__main__':
    sys.exit(main())
