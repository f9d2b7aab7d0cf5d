"""A moment of a recording as an SVG, for tools/play.py: where frames lie in LLFree, behind lists for each processor,
and in the recorded machine."""
import itertools
import math
from xml.sax.saxutils import escape

CHILD_FRAMES, NOBODY = 512, 255
PANELS = (0, 1, 3)
PANEL, GAP, MARGIN = 272, 20, 14
# a memory of few tiles shows each frame, one of many how its tiles are shared (sizes in points, without their edge), and
# one of very many for each half tile the main colour, that of most frames held in it
FRAMES, SHARES, HALVES = (32, 16), (16, 8), (2, 1)
MOST_WITH_FRAMES, MOST_WITH_SHARES = 160, 1_500
LIGHT = ('#2f6fb0', '#e08a1e', '#3f8f52', '#8a54b0', '#c43c5a', '#5d6672', '#0f8b8d', '#a06a2c')
DARK = ('#6cb0f0', '#f2b04c', '#7fd08f', '#c79bf0', '#ff8fa3', '#9ca3af', '#4fd1c5', '#d6a46a')


def style():
    def colours(made):
        return ''.join(f'.p{place}{{stroke:{colour}}}.k{place}{{fill:{colour}}}' for place, colour in enumerate(made))
    return ('<style>text{fill:#24292f;font-family:system-ui,"DejaVu Sans",Verdana,sans-serif}.soft{fill:#59636e}'
            '.paper{fill:#ffffff}'
            f'.free{{fill:#eef1f4}}.edge{{fill:#d0d7de}}{colours(LIGHT)}@media (prefers-color-scheme:dark)'
            '{text{fill:#e6edf3}.soft{fill:#9198a1}.paper{fill:#0d1117}.free{fill:#1c2128}.edge{fill:#30363d}'
            f'{colours(DARK)}}}</style>')


def across(children, size):
    """How many tiles stand side by side, in eights, so that a memory is about twice as wide as high."""
    best = math.sqrt(2 * children * (size[1] + 1) / (size[0] + 1))
    low = max(8, int(best // 8) * 8)
    return low + 8 if best / low > (low + 8) / best else low


def runs_of_frames(who, child, left, top):
    """Runs of one colour in the rows of a tile: colour, from where, and how long."""
    for row in range(FRAMES[1]):
        at = child * CHILD_FRAMES + row * FRAMES[0]
        points, place = who[at:at + FRAMES[0]], 0
        while place < FRAMES[0]:
            end = place + 1
            while end < FRAMES[0] and points[end] == points[place]:
                end += 1
            if points[place] != NOBODY:
                yield points[place] % len(LIGHT), left + place, top + row + 0.5, end - place
            place = end


def runs_of_shares(who, child, left, top):
    """A tile is filled from the left by those who use it, each by at least a point."""
    frames = who[child * CHILD_FRAMES:(child + 1) * CHILD_FRAMES]
    place = 0
    for processor in sorted(set(frames) - {NOBODY}):
        wide = max(1, round(frames.count(processor) * SHARES[0] / CHILD_FRAMES))
        wide = min(wide, SHARES[0] - place)
        if wide > 0:
            yield processor % len(LIGHT), left + place, top + SHARES[1] / 2, wide
        place += wide


def commonest(colours):
    """The colour that most of these frames have, or nobody's where none is held."""
    return max(set(colours) - {NOBODY}, key=lambda one: (colours.count(one), -one), default=NOBODY)


def panel_of_halves(who, children):
    """A memory of very many tiles, and how high it is."""
    colours = bytes(who).translate(bytes([*(one % len(LIGHT) for one in range(NOBODY)), NOBODY]))
    half, many = CHILD_FRAMES // HALVES[0], across(children, HALVES)
    points = [commonest(colours[at:at + half]) for at in range(0, len(colours), half)]
    wide, high = many * HALVES[0], -(-children // many)
    paths = {}
    for row in range(high):
        place = 0
        for colour, run in itertools.groupby(points[row * wide:(row + 1) * wide]):
            long = len(list(run))
            if colour != NOBODY:
                paths.setdefault(colour, []).append(f'M{place} {row + 0.5:g}h{long}')
            place += long
    made = [f'<g transform="scale({PANEL / wide:.4f})" stroke-width="1">',
            f'<path class="free" d="M0 0h{wide}v{high}h-{wide}z"/>']
    made += [f'<path class="p{colour}" d="{"".join(path)}"/>' for colour, path in sorted(paths.items())]
    return made + ['</g>'], high * PANEL / wide


def panel(who, children):
    """A memory at its corner, and how high it is."""
    who = who.tobytes()
    if children > MOST_WITH_SHARES:
        return panel_of_halves(who, children)
    size, runs = (FRAMES, runs_of_frames) if children <= MOST_WITH_FRAMES else (SHARES, runs_of_shares)
    many = across(children, size)
    pitch = size[0] + 1, size[1] + 1
    paths = {}
    for child in range(children):
        left, top = child % many * pitch[0] + 1, child // many * pitch[1] + 1
        for colour, x, y, wide in runs(who, child, left, top):
            paths.setdefault(colour, []).append(f'M{x} {y:g}h{wide}')
    scale = PANEL / (many * pitch[0] + 1)
    rows = -(-children // many)
    high = rows * pitch[1] + 1
    points = 'stroke-width="1" shape-rendering="crispEdges"' if size == FRAMES else f'stroke-width="{size[1]}"'
    made = [f'<g transform="scale({scale:.4f})" {points}>']
    made.append(f'<path class="free" d="M0 0h{many * pitch[0] + 1}v{high}h-{many * pitch[0] + 1}z"/>')
    made.append(edges(children, many, pitch))
    made += [f'<path class="p{colour}" d="{"".join(path)}"/>' for colour, path in sorted(paths.items())]
    return made + ['</g>'], high * scale


def edges(children, many, pitch):
    """The lines between tiles, where there are few."""
    if children > MOST_WITH_FRAMES:
        return ''
    wide, high = many * pitch[0] + 1, -(-children // many) * pitch[1] + 1
    lines = [f'M{x} 0h1v{high}h-1z' for x in range(0, wide, pitch[0])]
    lines += [f'M0 {y}h{wide}v1h-{wide}z' for y in range(0, high, pitch[1])]
    return f'<path class="edge" d="{"".join(lines)}"/>'


def shares(who, children):
    """Of the huge frames in use, how many have frames of several processors."""
    users = [len(set(who[child * CHILD_FRAMES:(child + 1) * CHILD_FRAMES]) - {NOBODY}) for child in range(children)]
    return sum(many > 1 for many in users), sum(many > 0 for many in users)


def svg(replay, given, names, until):
    wide = 2 * MARGIN + len(PANELS) * PANEL + (len(PANELS) - 1) * GAP
    body, bottom = [], 0
    for place, one in enumerate(PANELS):
        left, top = MARGIN + place * (PANEL + GAP), 106
        who = replay.state(one, until)[0]
        made, high = panel(who, replay.children[one])
        shared, used = shares(who.tobytes(), replay.children[one])
        body.append(f'<text x="{left}" y="{top - 8}" font-size="15" font-weight="600">{names[one]}</text>')
        body += [f'<g transform="translate({left} {top})">', *made, '</g>']
        body.append(f'<text x="{left}" y="{top + high + 23:.0f}" font-size="16" font-weight="700">'
                    f'{shared:,} of {used:,}<tspan dx="6" font-size="13.5" font-weight="400">huge frames shared</tspan>'
                    '</text>')
        if replay.children[one] > MOST_WITH_SHARES:
            body.append(f'<text class="soft" x="{left}" y="{top + high + 41:.0f}" font-size="12">'
                        f'a point: 1 MiB of {replay.children[one] / 512:.1f} GiB, its main colour</text>')
        bottom = max(bottom, top + high + (54 if replay.children[one] > MOST_WITH_SHARES else 36))
    words = (f'{given.title}, after {given.still:g} s: {replay.held(until) / 256:,.0f} MiB held, each frame in the '
             'colour of the processor that took it')
    size = f'width="{wide}" height="{bottom:.0f}" viewBox="0 0 {wide} {bottom:.0f}"'
    yield f'<svg xmlns="http://www.w3.org/2000/svg" {size} role="img" fill="none">'
    yield f'<title>{escape(words)}</title>'
    yield style()
    yield f'<rect class="paper" width="{wide}" height="{bottom:.0f}"/>'
    yield f'<text x="{MARGIN}" y="26" font-size="17" font-weight="600">Where a kernel’s page frames lie</text>'
    yield f'<text class="soft" x="{MARGIN}" y="47" font-size="13">{escape(words)}</text>'
    right = MARGIN
    for processor in range(min(replay.processors, len(LIGHT))):
        yield f'<rect class="k{processor}" x="{right}" y="58" width="11" height="11"/>'
        yield f'<text class="soft" x="{right + 16}" y="68" font-size="12">CPU {processor}</text>'
        right += 70
    yield f'<rect class="free" x="{right}" y="58" width="11" height="11"/>'
    yield f'<text class="soft" x="{right + 16}" y="68" font-size="12">free</text>'
    yield from body
    yield '</svg>'
