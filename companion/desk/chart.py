"""What a drawing shows, whether it is drawn as a page or with characters: rows of bars, and levels.

All of it is arithmetic on values that europa printed: those of a plan, or what tokens of a state may still be. Levels
are drawn of a plan, and of a state in which nothing is open.
"""
from dataclasses import dataclass, field
from typing import Dict, List, Optional, Sequence, Tuple

from .constants import Constants
from .names import Aliases, Kind
from .plans import Plan
from .problem import Problem, Thing
from .words import CONSUME, PRODUCE, RESERVOIR, REUSABLE, USES


@dataclass(frozen=True)
class Span:
    """The least and the greatest that a number may be."""
    least: int
    greatest: int

    @property
    def is_single(self) -> bool:
        return self.least == self.greatest

    def __str__(self) -> str:
        return str(self.least) if self.is_single else f"{self.least} to {self.greatest}"


@dataclass
class Bar:
    """A token as it is drawn: surely from its greatest start to its least end, and perhaps round that."""
    name: str
    called: str
    kind: Kind
    state: str
    objects: Tuple[str, ...]
    start: Span
    end: Span
    values: Dict[str, str]
    quantity: Optional[Span] = None
    merged: List[str] = field(default_factory=list)

    @property
    def label(self) -> str:
        """The predicate with the values that tell it from others of its kind."""
        return " ".join([self.kind.predicate, *self.values.values()])

    @property
    def is_settled(self) -> bool:
        return self.start.is_single and self.end.is_single and len(self.objects) == 1


@dataclass
class Row:
    """An object with its bars, in lanes in which none lies over another."""
    name: str
    cls: str
    kind: str
    lanes: List[List[Bar]]


@dataclass
class Step:
    """The level of a resource from an instant on, until an instant, and the tokens that make it so."""
    first: int
    last: int
    level: int
    changes: List[str]


@dataclass
class Level:
    """A resource: its limits, where they are known, and its level from step to step."""
    name: str
    cls: str
    kind: str
    low: Optional[int]
    high: Optional[int]
    steps: List[Step]

    @property
    def bottom(self) -> int:
        """The least level that is drawn."""
        return min([step.level for step in self.steps] + [0 if self.low is None else self.low])

    @property
    def top(self) -> int:
        """The greatest level that is drawn: the limit, where it isn't far above all levels."""
        peak = max([step.level for step in self.steps] + [self.bottom + 1])
        far = self.high is None or self.high - self.bottom > 4 * (peak - self.bottom)
        return peak if far or self.high is None else max(peak, self.high)

    @property
    def limits(self) -> str:
        if self.high is None:
            return "its limits aren't known"
        return f"capacity {self.high}" if self.kind == REUSABLE else f"from {self.low} to {self.high}"


@dataclass
class Chart:
    """All that is drawn, and the instants from which and to which. `bars` are by time, those of levels too."""
    rows: List[Row]
    levels: List[Level]
    bars: List[Bar]
    first: int
    last: int
    horizon: Tuple[int, int]

    @property
    def is_part(self) -> bool:
        """Whether not all of the horizon is drawn."""
        return (self.first, self.last) != self.horizon

    def ticks(self, wanted: int) -> List[int]:
        """About so many round instants."""
        step, length = 1, max(1, self.last - self.first)
        while length / step > wanted:
            step = step * 2 if str(step)[0] in "15" else step * 5 // 2
        return list(range(-(-self.first // step) * step, self.last + 1, step))


def lanes_of(bars: Sequence[Bar]) -> List[List[Bar]]:
    """The bars in as few lanes as it takes, by start."""
    lanes: List[List[Bar]] = []
    for bar in sorted(bars, key=lambda bar: (bar.start.least, bar.end.greatest)):
        lane = next((lane for lane in lanes if lane[-1].end.greatest <= bar.start.least), None)
        if lane is None:
            lanes.append([bar])
        else:
            lane.append(bar)
    return lanes


def steps_of(changes: List[Tuple[int, int, str]], level: int, first: int, last: int) -> List[Step]:
    """The levels from instant to instant, of changes that are instants, amounts and what makes them."""
    steps = [Step(first, last, level, [])]
    for instant, amount, what in sorted(changes, key=lambda change: change[0]):
        if instant > steps[-1].first:
            steps[-1].last = instant
            steps.append(Step(instant, last, steps[-1].level, []))
        steps[-1].level += amount
        steps[-1].changes.append(what)
    return steps


def changes_of(bar: Bar) -> List[Tuple[int, int, str]]:
    """What a token does to the level of its resource: at which instant, how much, and that in words."""
    amount = bar.quantity.least if bar.quantity else 0
    word = bar.kind.predicate
    if word == USES:
        return [(bar.start.least, amount, f"{bar.called} takes {amount}"),
                (bar.end.least, -amount, f"{bar.called} gives {amount} back")]
    if word == PRODUCE:
        return [(bar.start.least, amount, f"{bar.called} produces {amount}")]
    if word == CONSUME:
        return [(bar.start.least, -amount, f"{bar.called} consumes {amount}")]
    return []


def level_of(thing: Thing, kind: str, bars: List[Bar], constants: Constants) -> Optional[Level]:
    """The level of a resource, where each of its tokens has one value for all that counts."""
    initial = constants.limit(thing.name, "initial") if kind == RESERVOIR else 0
    settled = all(bar.is_settled and bar.quantity and bar.quantity.is_single for bar in bars)
    if not settled or initial is None:
        return None
    low, high = ("low", "high") if kind == RESERVOIR else ("", "capacity")
    changes = [change for bar in bars for change in changes_of(bar)]
    steps = steps_of(changes, initial, constants.first, constants.last)
    return Level(thing.name, thing.cls, kind, constants.limit(thing.name, low) if low else 0,
                 constants.limit(thing.name, high), steps)


def extent(bars: Sequence[Bar], constants: Constants) -> Tuple[int, int]:
    """From when to when is drawn: the horizon, unless what takes place fills less than half of it."""
    if not bars:
        return constants.first, constants.last
    first, last = min(bar.start.least for bar in bars), max(bar.end.greatest for bar in bars)
    first, last = max(first, constants.first), min(max(last, first + 1), constants.last)
    if 2 * (last - first) >= constants.last - constants.first:
        return constants.first, constants.last
    return first, last


def build(problem: Problem, bars: List[Bar], constants: Constants, with_levels: bool = True) -> Chart:
    """The chart of bars: one row for each object, and one for what may be on several. Where it isn't decided yet what
    takes place there are no levels, and resources have rows too."""
    rows, levels = [], []
    for thing in problem.objects:
        own = [bar for bar in bars if bar.objects == (thing.name,)]
        kind = problem.kind(thing.cls)
        level = level_of(thing, kind, own, constants) if with_levels and kind in (REUSABLE, RESERVOIR) else None
        if level:
            levels.append(level)
        elif own:
            rows.append(Row(thing.name, thing.cls, kind, lanes_of(own)))
    for objects in dict.fromkeys(bar.objects for bar in bars if len(bar.objects) > 1):
        rows.append(Row(" or ".join(objects), "", "", lanes_of([bar for bar in bars if bar.objects == objects])))
    first, last = extent(bars, constants)
    by_time = sorted(bars, key=lambda bar: (bar.start.least, bar.end.greatest, bar.called))
    return Chart(rows, levels, by_time, first, last, (constants.first, constants.last))


def bars_of_plan(plan: Plan, aliases: Aliases) -> List[Bar]:
    """The tokens of a plan that take place, with those that are merged into them."""
    found = []
    for token in plan.active():
        cls, _, predicate = token.kind.rpartition(".")
        quantity = token.parameters.get("quantity", "")
        amount = Span(int(quantity), int(quantity)) if quantity.lstrip("-").isdecimal() else None
        merged = [aliases.shown(name) for name in plan.merged_into(token.name)]
        found.append(Bar(token.name, aliases.shown(token.name), Kind(cls, predicate), token.state, (token.object,),
                         Span(token.start, token.start), Span(token.end, token.end), token.parameters, amount, merged))
    return found
