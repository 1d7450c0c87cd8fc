"""Drawing a chart as a page: one file of HTML that asks for nothing from outside and runs no script."""
from html import escape
from typing import Dict, List, Sequence, Tuple

from .chart import Bar, Chart, Level, Row
from .plain import plain
from .words import RESERVOIR

HUES = (212, 28, 152, 328, 48, 268, 184, 0, 96, 240)
STYLE = """
:root { color-scheme: light dark; --page: #fff; --ink: #1c2430; --soft: #5a6675; --line: #d5dbe3; --lane: #f4f6f9;
  --tint: 88%; --edge: 42%; --level: #7aa6dc; --limit: #c43c3c; --good: #1d7a46; --bad: #b3261e; }
@media (prefers-color-scheme: dark) { :root { --page: #14181f; --ink: #e6eaf0; --soft: #9aa7b6; --line: #333c48;
  --lane: #1b212a; --tint: 27%; --edge: 62%; --level: #3f6fa8; --limit: #ff7b72; --good: #6cd397; --bad: #ff8a80; } }
* { box-sizing: border-box; }
body { margin: 2rem; background: var(--page); color: var(--ink); font: 14px/1.4 system-ui, sans-serif; }
h1 { font-size: 1.25rem; margin: 0 0 .25rem; overflow-wrap: anywhere; } h2 { font-size: 1rem; margin: 2rem 0 .5rem; }
p { margin: .25rem 0; } .soft { color: var(--soft); } .good { color: var(--good); } .bad { color: var(--bad); }
.chart { margin-top: 1.25rem; display: grid; grid-template-columns: minmax(6rem, max-content) 1fr; column-gap: .75rem; }
.name { padding: .25rem 0; text-align: right; overflow-wrap: anywhere; max-width: 14rem; }
.name small { display: block; color: var(--soft); }
.track { position: relative; border-left: 1px solid var(--line); border-right: 1px solid var(--line); padding: 3px 0;
  border-bottom: 1px solid var(--line); }
.lane { position: relative; height: 28px; margin: 3px 0; background: var(--lane); }
.axis { height: 1.6rem; border-color: transparent; } .axis span { position: absolute; bottom: 1px; font-size: 12px;
  color: var(--soft); transform: translateX(-50%); } .axis span.end { transform: translateX(-100%); }
.axis span.begin { transform: none; }
.tick { position: absolute; top: 0; bottom: 0; width: 1px; background: var(--line); }
.bar { position: absolute; top: 2px; bottom: 2px; min-width: 3px; }
.sure { position: absolute; top: 0; bottom: 0; min-width: 3px; overflow: hidden; white-space: nowrap;
  text-overflow: ellipsis; border: 1px solid hsl(var(--hue) 55% var(--edge)); border-radius: 3px; padding: 1px 5px;
  background-color: hsl(var(--hue) 65% var(--tint)); font-size: 13px; }
.perhaps { position: absolute; top: 8px; bottom: 8px; border-radius: 3px; border: 1px dashed
  hsl(var(--hue) 55% var(--edge)); }
.bar.fact .sure { border-left-width: 5px; }
.bar.merged .sure { border-style: double; border-width: 3px; padding: 0 3px; }
.bar.merged.fact .sure { border-left: 5px solid hsl(var(--hue) 55% var(--edge)); }
.tip { display: none; position: absolute; top: calc(100% + 4px); left: 0; z-index: 9; width: max-content;
  max-width: 26rem; padding: .5rem .7rem; background: var(--page); color: var(--ink); border: 1px solid var(--soft);
  border-radius: 4px; box-shadow: 0 2px 10px rgb(0 0 0 / .25); font-size: 13px; white-space: pre-line; }
.right .tip { left: auto; right: 0; }
.bar:hover .tip, .bar:focus .tip, .step:hover .tip, .step:focus .tip { display: block; }
.bar:hover, .bar:focus, .step:hover, .step:focus { z-index: 8; outline: 2px solid var(--soft); }
.level { position: relative; height: 84px; margin: 3px 0; background: var(--lane); }
.step { position: absolute; top: 0; bottom: 0; } .step i { position: absolute; left: 0; right: 0; bottom: 0;
  background: var(--level); }
.limit { position: absolute; left: 0; right: 0; border-top: 2px dashed var(--limit); }
.scale { position: absolute; right: 3px; font-size: 11px; color: var(--soft); pointer-events: none; }
.legend span { display: inline-block; margin-right: 1.25rem; } .legend b { display: inline-block; width: 1.6em;
  height: 1em; vertical-align: -2px; margin-right: .4em; border-radius: 3px; border: 1px solid
  hsl(var(--hue) 55% var(--edge)); background-color: hsl(var(--hue) 65% var(--tint)); }
.legend b.fact { border-left-width: 5px; } .legend b.merged { border-style: double; border-width: 3px; }
table { border-collapse: collapse; } th, td { text-align: left; padding: .2rem .9rem .2rem 0; vertical-align: top;
  border-bottom: 1px solid var(--line); } td.number, th.number { text-align: right;
  font-variant-numeric: tabular-nums; }
.wide { overflow-x: auto; }
@media print { body { margin: 0; } .sure, .step i, .lane, .level, .legend b { print-color-adjust: exact;
  -webkit-print-color-adjust: exact; } .tip { display: none !important; } .track, tr { break-inside: avoid; } }
@media print and (prefers-color-scheme: dark) { :root { --page: #fff; --ink: #000; --soft: #444; --line: #bbb;
  --lane: #f4f6f9; --tint: 88%; --edge: 42%; --level: #7aa6dc; --limit: #c43c3c; --good: #1d7a46; --bad: #b3261e; } }
"""


def text(words: str) -> str:
    """Words as they may stand in a page."""
    return escape(plain(words), quote=True)


class Scale:
    """Instants as shares of the width."""

    def __init__(self, chart: Chart):
        self.first, self.length = chart.first, max(1, chart.last - chart.first)

    def at(self, instant: int) -> float:
        return min(100.0, max(0.0, 100 * (instant - self.first) / self.length))

    def style(self, first: int, last: int) -> str:
        return f"left:{self.at(first):.3f}%;width:{self.at(last) - self.at(first):.3f}%"

    def side(self, first: int) -> str:
        """A class by which what shows the values doesn't leave the page."""
        return " right" if self.at(first) > 55 else ""


def hues(chart: Chart) -> Dict[str, int]:
    """A hue for each predicate."""
    kinds = dict.fromkeys(str(bar.kind) for row in chart.rows for lane in row.lanes for bar in lane)
    return {kind: HUES[number % len(HUES)] for number, kind in enumerate(kinds)}


def bar_values(bar: Bar) -> str:
    """What is shown of a bar on hovering."""
    called = bar.called if bar.called == bar.name else f"{bar.called} ({bar.name})"
    lines = [called, f"{bar.kind}, {bar.state}", f"start {bar.start}, end {bar.end}", f"on {' or '.join(bar.objects)}"]
    lines += [f"{name} {value}" for name, value in bar.values.items()]
    lines += [f"merged: {name}" for name in bar.merged]
    return "\n".join(map(text, lines))


def draw_bar(bar: Bar, scale: Scale, hue: int) -> str:
    """A bar: the outline is where the token may be, the part inside where it surely is."""
    outer = scale.style(bar.start.least, bar.end.greatest)
    whole = max(1, bar.end.greatest - bar.start.least)
    inner = ""
    if bar.start.greatest < bar.end.least:
        left, span = bar.start.greatest - bar.start.least, bar.end.least - bar.start.greatest
        inner = f'<div class="sure" style="left:{100 * left / whole:.3f}%;width:{100 * span / whole:.3f}%">' \
                f'{text(bar.label)}</div>'
    perhaps = "" if bar.is_settled else '<div class="perhaps" style="left:0;right:0"></div>'
    classes = f"bar {bar.state.split()[0]}{' merged' if bar.merged else ''}{scale.side(bar.start.least)}"
    return f'<div class="{text(classes)}" tabindex="0" style="{outer};--hue:{hue}">{perhaps}{inner}' \
           f'<div class="tip">{bar_values(bar)}</div></div>'


def draw_row(row: Row, chart: Chart, scale: Scale, colours: Dict[str, int]) -> str:
    lanes = "".join('<div class="lane">' + "".join(draw_bar(bar, scale, colours[str(bar.kind)]) for bar in lane) +
                    "</div>" for lane in row.lanes)
    return name_cell(row.name, row.cls) + f'<div class="track">{ticks(chart, scale)}{lanes}</div>'


def name_cell(name: str, below: str) -> str:
    return f'<div class="name">{text(name)}<small>{text(below)}</small></div>'


def ticks(chart: Chart, scale: Scale) -> str:
    return "".join(f'<div class="tick" style="left:{scale.at(tick):.3f}%"></div>' for tick in chart.ticks(10))


def axis(chart: Chart, scale: Scale) -> str:
    found = []
    for tick in chart.ticks(10):
        at = scale.at(tick)
        side = "begin" if at < 1 else "end" if at > 99 else ""
        found.append(f'<span class="{side}" style="left:{at:.3f}%">{tick}</span>')
    return f'<div></div><div class="track axis">{"".join(found)}</div>'


def draw_level(level: Level, chart: Chart, scale: Scale) -> str:
    """A level as an area, with its limits as dashed lines."""
    reach = max(1, level.top - level.bottom)

    def height(value: int) -> float:
        return 92 * (value - level.bottom) / reach

    steps = []
    for step in level.steps:
        if step.first < chart.last:
            said = [f"{level.name}: {step.level} from {step.first} to {step.last}", *step.changes]
            values = "\n".join(map(text, said))
            steps.append(f'<div class="step{scale.side(step.first)}" tabindex="0" style="'
                         f'{scale.style(step.first, min(step.last, chart.last))}">'
                         f'<i style="height:{height(step.level):.2f}%"></i><div class="tip">{values}</div></div>')
    limits = []
    for limit in (level.low, level.high):
        if limit is not None and level.bottom <= limit <= level.top and (limit or level.kind == RESERVOIR):
            limits.append(f'<div class="limit" style="bottom:{height(limit):.2f}%"></div>')
            beside = "+ 2px" if limit == level.bottom else "- 17px"
            limits.append(f'<div class="scale" style="bottom:calc({height(limit):.2f}% {beside})">{limit}</div>')
    return name_cell(level.name, f"{level.cls}, {level.limits}") + \
        f'<div class="track">{ticks(chart, scale)}<div class="level">{"".join(steps + limits)}</div></div>'


def legend(chart: Chart, colours: Dict[str, int]) -> str:
    found = [f'<span><b style="--hue:{hue}"></b>{text(kind)}</span>' for kind, hue in colours.items()]
    drawn = [bar for row in chart.rows for lane in row.lanes for bar in lane]
    if any(bar.state == "fact" for bar in drawn):
        found.append('<span><b class="fact" style="--hue:212"></b>a fact</span>')
    if any(bar.merged for bar in drawn):
        found.append('<span><b class="merged" style="--hue:212"></b>others are merged into it</span>')
    if chart.levels:
        found.append('<span style="color:var(--limit)">- - a limit</span>')
    return f'<p class="legend">{"".join(found)}</p>'


def token_table(chart: Chart) -> str:
    """All tokens by time, with their values: what hovering shows, for paper."""
    rows = []
    for bar in chart.bars:
        values = " ".join(f"{name} {value}" for name, value in bar.values.items())
        cells = [bar.kind.predicate, " or ".join(bar.objects), values, bar.called, ", ".join(bar.merged)]
        rows.append(f'<tr><td class="number">{text(str(bar.start))}</td><td class="number">{text(str(bar.end))}</td>' +
                    "".join(f"<td>{text(cell)}</td>" for cell in cells) + "</tr>")
    heads = "".join(f"<th>{head}</th>" for head in ("what", "on", "values", "token", "merged into it"))
    return '<div class="wide"><table><tr><th class="number">from</th><th class="number">to</th>' \
           f'{heads}</tr>{"".join(rows)}</table></div>'


def draw(chart: Chart, title: str, verdict: Tuple[bool, Sequence[str]], notes: List[str]) -> str:
    """The page: the title, what europa said, the drawing, and all tokens by time."""
    scale, colours = Scale(chart), hues(chart)
    is_good, sentences = verdict
    said = "".join(f'<p class="{"good" if is_good else "bad"}">{text(sentence)}</p>' for sentence in sentences)
    more = "".join(f'<p class="soft">{text(note)}</p>' for note in notes)
    rows = "".join(draw_row(row, chart, scale, colours) for row in chart.rows)
    levels = "".join(draw_level(level, chart, scale) for level in chart.levels)
    return f"""<!DOCTYPE html>
<html lang="en"><head><meta charset="utf-8"><meta name="viewport" content="width=device-width, initial-scale=1">
<meta http-equiv="Content-Security-Policy" content="default-src 'none'; style-src 'unsafe-inline'">
<title>{text(title)}</title><style>{STYLE}</style></head>
<body><h1>{text(title)}</h1>{said}{more}
<div class="chart">{axis(chart, scale)}{rows}{levels}{axis(chart, scale)}</div>
{legend(chart, colours)}
<h2>Tokens by time</h2>
{token_table(chart)}
</body></html>
"""
