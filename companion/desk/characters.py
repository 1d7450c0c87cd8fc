"""Drawing a chart with characters."""
from typing import List

from .chart import Bar, Chart, Level, Row
from .plain import counted, padded, table, width

HEIGHT = 5


class Canvas:
    """A line of characters over the instants of a chart."""

    def __init__(self, chart: Chart, columns: int):
        self.chart, self.columns = chart, columns
        self.cells = [" "] * columns

    def column(self, instant: int) -> int:
        """The column in which an instant begins."""
        length = max(1, self.chart.last - self.chart.first)
        return max(0, min(self.columns, (instant - self.chart.first) * self.columns // length))

    def instant(self, column: int) -> int:
        """The instant that a column begins with."""
        return self.chart.first + column * (self.chart.last - self.chart.first) // self.columns

    def put(self, column: int, text: str) -> None:
        for at, character in enumerate(text, column):
            if 0 <= at < self.columns:
                self.cells[at] = character

    def text(self) -> str:
        return "".join(self.cells).rstrip()


def axis(chart: Chart, columns: int) -> List[str]:
    """The instants, and the marks under them."""
    numbers, marks = Canvas(chart, columns + 8), Canvas(chart, columns)
    marks.put(0, "-" * columns)
    free = 0
    for tick in chart.ticks(max(2, columns // 9)):
        column = marks.column(tick)
        marks.put(min(column, columns - 1), "+")
        if column >= free:
            numbers.put(column, str(tick))
            free = column + len(str(tick)) + 1
    return [numbers.text(), marks.text()]


def draw_bar(canvas: Canvas, bar: Bar) -> None:
    """A bar between brackets with its label; dots where it may be and needn't."""
    first, last = canvas.column(bar.start.least), canvas.column(bar.end.greatest)
    sure_first, sure_last = canvas.column(bar.start.greatest), canvas.column(bar.end.least)
    last = max(last, first + 1)
    canvas.put(first, "." * (last - first))
    label = ("*" if bar.merged else "") + bar.label
    if bar.start.greatest < bar.end.least:
        draw_sure(canvas, sure_first, max(sure_last, sure_first + 1), label)
    elif last - first > 4:
        canvas.put(first + 1, ("?" + label)[:last - first - 2])


def draw_sure(canvas: Canvas, first: int, last: int, label: str) -> None:
    """The part of a bar in which the token surely takes place."""
    if last - first < 3:
        canvas.put(first, "|" if last - first == 1 else "[]")
        return
    inside = last - first - 2
    canvas.put(first, "[" + label[:inside] + "=" * (inside - len(label)) + "]")


def draw_row(row: Row, chart: Chart, columns: int) -> List[str]:
    lines = []
    for lane in row.lanes:
        canvas = Canvas(chart, columns)
        for bar in lane:
            draw_bar(canvas, bar)
        lines.append(canvas.text())
    return lines


def draw_level(level: Level, chart: Chart, columns: int) -> List[str]:
    """The level as columns of blocks, the limit of what is drawn at the top."""
    canvas = Canvas(chart, columns)
    starts = [canvas.instant(column) for column in range(columns)]
    levels = [next(step.level for step in reversed(level.steps) if step.first <= start or step is level.steps[0])
              for start in starts]
    lines = []
    reach = level.top - level.bottom
    height = max(1, min(HEIGHT, reach))
    for row in range(height, 0, -1):
        threshold = level.bottom + (row - 0.5) * reach / height
        lines.append("".join("#" if value >= threshold else " " for value in levels).rstrip())
    return lines


def level_values(level: Level, chart: Chart) -> str:
    shown = [step for step in level.steps if step.first <= chart.last]
    return ", ".join(f"{step.level} from {step.first}" for step in shown)


def listed(chart: Chart) -> List[str]:
    """The tokens by time, with their values."""
    rows = [("from", "to", "on", "what", "token")]
    for bar in chart.bars:
        values = " ".join(f"{name} {value}" for name, value in bar.values.items())
        merged = f" (also {', '.join(bar.merged)})" if bar.merged else ""
        rows.append((str(bar.start), str(bar.end), " or ".join(bar.objects), f"{bar.kind.predicate} {values}".strip(),
                     bar.called + merged))
    return table(rows) if chart.bars else []


def draw(chart: Chart, total: int) -> List[str]:
    """A chart as lines that are no wider than `total`, but for those that list tokens."""
    gutter = min(24, max([8] + [width(name) for name in [row.name for row in chart.rows] +
                                [level.name for level in chart.levels]])) + 2
    columns = max(20, total - gutter)
    lines = [" " * gutter + line for line in axis(chart, columns)]
    for row in chart.rows:
        lines += under_name(row.name, draw_row(row, chart, columns), gutter)
    for level in chart.levels:
        lines += under_scale(level, draw_level(level, chart, columns), gutter)
        lines += ["  " + f"{level.limits}: {level_values(level, chart)}"]
    lines += [""] + listed(chart)
    return lines + [""] + legend(chart)


def under_name(name: str, lines: List[str], gutter: int) -> List[str]:
    shown = name if width(name) <= gutter - 2 else name[:gutter - 4] + ".."
    return [(padded(shown if at == 0 else "", gutter) + line).rstrip() for at, line in enumerate(lines)]


def under_scale(level: Level, lines: List[str], gutter: int) -> List[str]:
    """The lines of a level with its name over them, and the least and the greatest level that are drawn."""
    scales = [str(level.top)] + [""] * (len(lines) - 1) + [f"{level.bottom} +"]
    scaled = [f"{scale + ' |' if '+' not in scale else scale:>{gutter}}" for scale in scales]
    name = level.name if width(level.name) <= gutter - 6 else ""
    scaled[0] = name + scaled[0][len(name):]
    return ([] if name else [level.name]) + [(front + line).rstrip() for front, line in zip(scaled, lines + [""])]


def legend(chart: Chart) -> List[str]:
    """What the marks mean that are there."""
    told = []
    if any(bar.merged for bar in chart.bars):
        told.append("* a token into which others are merged")
    if any(not bar.is_settled for bar in chart.bars):
        told.append("[=] surely, . perhaps")
    if chart.is_part:
        told.append(f"from {chart.first} to {chart.last} of a horizon from {chart.horizon[0]} to {chart.horizon[1]}")
    return ["  " + "; ".join(told)] if told else [f"  {counted(len(chart.bars), 'token')}"]
