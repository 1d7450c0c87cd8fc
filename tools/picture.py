"""The picture that tools/graph draws: a band for each group, the lowest at the bottom, in which each crate stands above those
that it lists, and on the right how the groups use one another."""
import collections
import html
import textwrap

# In pixels, and all of them whole numbers, so that each machine draws the same.
MARGIN, NAMES, ROOM, COLUMN = 12, 176, 720, 24
LETTER, LINE, BOX, ROW, GAP, LANE = 7, 15, 21, 40, 10, 4
SIDE_BY_SIDE = 6
# Which neighbours are looked at in turn where a row is put in order, by crates and by lanes: those below (0), or above (1).
SWEEPS = [((0,), (0,)), ((1,), (1,))] * 12 + [((0, 1), (0,))] * 8
COLORS = ["#1b6ca8", "#b3541e", "#3b7d3c", "#8a3d86", "#80661c", "#2f6f74", "#a83250", "#5a5fb0"]
STYLE = """
text { font: 12px sans-serif; fill: #222 }
text.group { font-weight: bold }
text.note { fill: #666 }
text.crate { font: 11px monospace; text-anchor: middle }
text.count { font-size: 11px; text-anchor: middle }
text.number { font-size: 11px; text-anchor: middle; fill: #fff }
path { fill: none }
path.uses { stroke: #888; stroke-width: 2 }
rect.page { fill: #fff }
rect.band { fill: #f3f3ef }
rect.crate { fill: #fff; stroke: #555 }
circle.number { fill: #333 }
circle.down { fill: #fff; stroke: #888 }
circle.up { fill: #fff; stroke: #d00; stroke-width: 2 }
"""
CAPTION = """Within a group a crate stands above those that it lists; a line is left out where others lead to the same crate.
On the right a line goes from each group's number to the groups that it uses, with how many of its crates do. Red goes up."""


class Band:
    """A group in rows, the lowest first, of things that have a middle each. These are crates, by their names, and lanes for the
    lines that pass a row, by the crate to which they lead and the number of the row."""

    def __init__(self, graph, names):
        self.names, self.row = names, rows_of(graph, names)
        self.links = links_of(graph, self.row)
        self.row.update({lower: lower[1] for _, lower in self.links if is_lane(lower)})
        self.rows = [[it for it in self.row if self.row[it] == at] for at in range(max(self.row.values(), default=-1) + 1)]
        self.middles = dict.fromkeys(self.row, 0)
        for ends in [((), ()), *SWEEPS]:
            self.sweep(*ends)
        self.left = min((middle - width_of(it) // 2 for it, middle in self.middles.items()), default=0)
        self.width = max((middle + width_of(it) // 2 for it, middle in self.middles.items()), default=0) - self.left
        self.height = ROW * (len(self.rows) - 1) + BOX

    def sweep(self, ends_of_crates, ends_of_lanes):
        """Puts each row in the order of its neighbours, and as near to them as may be."""
        near = collections.defaultdict(list)
        for link in self.links:
            for end in range(2):
                if end in (ends_of_lanes if is_lane(link[end]) else ends_of_crates):
                    near[link[end]].append(link[1 - end])
        for row in self.rows[:: -1 if ends_of_lanes == (1,) else 1]:
            wanted = {it: sum(map(self.middles.get, near[it])) // len(near[it]) if near[it] else self.middles[it] for it in row}
            row.sort(key=wanted.get)
            self.middles.update(spread(row, wanted))

    def drawn(self, left, top):
        """The lines and, over them, the boxes."""
        across = {it: left - self.left + middle for it, middle in self.middles.items()}
        down = {it: top + ROW * (len(self.rows) - 1 - at) for it, at in self.row.items()}
        for upper, lower in self.links:
            color = COLORS[self.names.index(lower[0] if is_lane(lower) else lower) % len(COLORS)]
            start, bend, end = down[upper] + (0 if is_lane(upper) else BOX), down[upper] + BOX, down[lower]
            curve = f"{across[upper]} {end - 5} {across[lower]} {bend + 5} {across[lower]} {end}"
            yield f'<path stroke="{color}" d="M{across[upper]} {start}V{bend}C{curve}"/>'
        for name in self.names:
            yield rectangle("crate", across[name] - width_of(name) // 2, down[name], width_of(name), BOX)
            yield words("crate", across[name], down[name] + 15, name)


def is_lane(thing):
    return not isinstance(thing, str)


def width_of(thing):
    return LANE if is_lane(thing) else LETTER * len(thing) + 10


def rows_of(graph, names):
    """The number of each crate's row: the first one with room above those of the crates that it lists."""
    row, full = {}, collections.Counter()
    for name in graph.from_below(names):
        at = 1 + max((row[it] for it in graph.uses[name] if it in row), default=-1)
        while full[at] == SIDE_BY_SIDE:
            at += 1
        full[at] += 1
        row[name] = at
    return row


def links_of(graph, row):
    """The pieces of the lines, each from a thing to one in the next row below. Lines to the same crate share their lanes."""
    links = {}
    for name in row:
        for library in graph.uses[name]:
            if library in row and not any(library in graph.below[it] for it in graph.uses[name]):
                lanes = [(library, at) for at in range(row[name] - 1, row[library], -1)]
                links.update(dict.fromkeys(zip([name, *lanes], [*lanes, library])))
    return list(links)


def spread(row, wanted):
    """The middles of things side by side, as near to the wanted ones as their order, their widths and the room allow."""
    steps = [0]
    for left, right in zip(row, row[1:]):
        steps.append(steps[-1] + (width_of(left) + width_of(right)) // 2 + GAP)
    # Things that would overlap stand in a run, around the mean of what they want.
    runs = []
    for thing, step in zip(row, steps):
        runs.append((wanted[thing] - step, 1))
        while len(runs) > 1 and runs[-2][0] * runs[-1][1] >= runs[-1][0] * runs[-2][1]:
            (total, count), (before, more) = runs.pop(), runs.pop()
            runs.append((before + total, more + count))
    least, most = (width_of(row[0]) - ROOM) // 2, (ROOM - width_of(row[-1])) // 2 - steps[-1]
    starts = [min(max(total // count, least), most) for total, count in runs for _ in range(count)]
    return {thing: start + step for thing, start, step in zip(row, starts, steps)}


def rectangle(kind, left, top, width, height):
    return f'<rect class="{kind}" x="{left}" y="{top}" width="{width}" height="{height}" rx="3"/>'


def words(kind, across, down, said):
    return f'<text class="{kind}" x="{across}" y="{down}">{html.escape(said)}</text>'


def disc(kind, across, down):
    return f'<circle class="{kind}" cx="{across}" cy="{down}" r="10"/>'


def heading_of(graph, level):
    """The lines that name a group, each with its kind."""
    name, unknown = graph.groups[level]
    lines = [("group", it) for it in textwrap.wrap(f"{level + 1} {name}", 24) if name]
    return lines + [("note", it) for it in textwrap.wrap(f"knows nothing of: {unknown}", 27) if unknown]


def draw_uses(graph, left, centers):
    """For each group a line from its number to the groups that its crates list, with how many of them do."""
    for level, names in enumerate(graph.crates):
        across = left + COLUMN * level
        counts = collections.Counter(it for name in names for it in {graph.level[used] for used in graph.uses[name]} - {level})
        ends = [centers[it] for it in [level, *counts]]
        yield f'<path class="uses" d="M{across} {min(ends)}V{max(ends)}"/>'
        yield disc("number", across, centers[level])
        yield words("number", across, centers[level] + 4, str(level + 1))
        for used in sorted(counts):
            yield disc("up" if used > level else "down", across, centers[used])
            yield words("count", across, centers[used] + 4, str(counts[used]))


def draw(graph):
    """The picture, as the text of an SVG file."""
    bands = [Band(graph, names) for names in graph.crates]
    room = max([ROOM, *(it.width for it in bands)])
    width = 3 * MARGIN + NAMES + room + COLUMN * (len(bands) + 1)
    drawn, centers, top = [], {}, MARGIN
    for level, band in reversed(list(enumerate(bands))):
        heading = heading_of(graph, level)
        height = max(band.height, LINE * len(heading)) + 2 * MARGIN
        centers[level] = top + height // 2
        drawn.append(rectangle("band", MARGIN, top, width - 2 * MARGIN, height))
        drawn += [words(kind, MARGIN + 8, top + MARGIN + LINE * at + 11, said) for at, (kind, said) in enumerate(heading)]
        drawn += band.drawn(MARGIN + NAMES + (room - band.width) // 2, top + MARGIN)
        top += height + 4
    drawn += draw_uses(graph, 2 * MARGIN + NAMES + room + COLUMN, centers)
    for line in CAPTION.splitlines():
        top += LINE
        drawn.append(words("note", MARGIN, top, line))
    height = top + MARGIN
    head = f'<svg xmlns="http://www.w3.org/2000/svg" width="{width}" height="{height}" viewBox="0 0 {width} {height}">'
    title, page = "<title>The crates in their groups</title>", '<rect class="page" width="100%" height="100%"/>'
    return "\n".join([head, title, f"<style>{STYLE}</style>", page, *drawn, "</svg>", ""])
