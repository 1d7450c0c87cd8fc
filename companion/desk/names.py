"""Names of tokens: how europa spells them, and the labels of their rules in place of numbers.

`towns/0:3` is what the first rule of `towns` asks for fourth. Where the rule calls that `drain`, desk calls the token
`towns.drain`. Which tokens there are, and of which predicate, is what europa answered; a label only stands for one.
"""
import re
from collections import Counter
from dataclasses import dataclass
from typing import Dict, Iterable, Optional, Tuple

from .rules import Local, Numbered, RuleBook, Slot
from .words import PARTS

STEP = re.compile(r"/([0-9]+):([0-9]+)")
TOKEN = re.compile(r"([A-Za-z_][A-Za-z0-9_]*)((?:/[0-9]+:[0-9]+)*)")
LOCAL = re.compile(r"(.*)/([0-9]+)!([0-9]+)")


@dataclass(frozen=True)
class Kind:
    """A predicate by the class that europa names with it."""
    cls: str
    predicate: str

    def __str__(self) -> str:
        return f"{self.cls}.{self.predicate}"


def kind_of(text: str) -> Kind:
    cls, _, predicate = text.rpartition(".")
    return Kind(cls, predicate)


def parent_and_step(token: str) -> Optional[Tuple[str, int, int]]:
    """The token whose rule asks for this one, with the numbers of the rule and of the slot; none of a root."""
    before, slash, step = token.rpartition("/")
    match = STEP.fullmatch(slash + step)
    return (before, int(match[1]), int(match[2])) if match else None


def parent_of(token: str) -> str:
    """The token whose rule asks for this one, or nothing of a root."""
    step = parent_and_step(token)
    return step[0] if step else ""


def local_parts(variable: str) -> Optional[Tuple[str, int, int]]:
    """The token, the rule and the number of a local."""
    match = LOCAL.fullmatch(variable)
    return (match[1], int(match[2]), int(match[3])) if match else None


class Aliases:
    """Labels for the tokens that europa has named."""

    def __init__(self, book: RuleBook):
        self.book = book
        self.kinds: Dict[str, Kind] = {}
        self.by_token: Dict[str, str] = {}
        self.by_alias: Dict[str, str] = {}

    def learn(self, tokens: Iterable[Tuple[str, str]]) -> None:
        """Takes in the tokens that there are, each with its predicate, parents before their subgoals."""
        self.kinds = {name: kind_of(kind) for name, kind in tokens}
        self.by_token, self.by_alias = {}, {}
        labels = {name: self.label_of(name) for name in self.kinds}
        often = Counter((parent_of(name), label) for name, label in labels.items())
        for name, label in labels.items():
            above = self.by_token.get(parent_of(name), name)
            alias = name
            if label and "/" not in above:
                several = often[parent_of(name), label] > 1 or label in self.parts_of(parent_of(name))
                alias = f"{above}.{label}" + (f"~{self.number_among_same(name)}" if several else "")
            if alias in self.by_alias or alias != name and alias in self.kinds:
                alias = name
            self.by_token[name], self.by_alias[alias] = alias, name

    def label_of(self, token: str) -> str:
        """The label of the slot that a token is for, with the objects of its turns; nothing of a root."""
        slot = self.slot(token)
        return slot.full_label if slot and slot.predicate == self.kinds[token].predicate else ""

    def parts_of(self, token: str) -> Tuple[str, ...]:
        """What may stand behind a token's point: the names of its parts and its parameters."""
        kind = self.kinds[token]
        return PARTS + tuple(self.book.problem.parameters(kind.cls, kind.predicate))

    def number_among_same(self, token: str) -> int:
        """The number, from 1 on, of a token's slot among all of its parent's rules that have the same label."""
        step = parent_and_step(token)
        kind = self.kinds[parent_of(token)]
        same = [(number, at) for number, rule in enumerate(self.book.rules(kind.cls, kind.predicate))
                for at, slot in enumerate(rule.slots) if slot.full_label == self.label_of(token)]
        return same.index((step[1], step[2])) + 1 if step else 0

    def rule(self, token: str, number: int) -> Optional[Numbered]:
        """A rule of a token, by its number in names."""
        kind = self.kinds.get(token)
        rules = self.book.rules(kind.cls, kind.predicate) if kind else []
        return rules[number] if number < len(rules) else None

    def asking(self, token: str) -> Optional[Tuple[Numbered, Slot]]:
        """The rule that asks for a token, and its slot there."""
        step = parent_and_step(token)
        rule = self.rule(step[0], step[1]) if step else None
        return (rule, rule.slots[step[2]]) if step and rule and step[2] < len(rule.slots) else None

    def slot(self, token: str) -> Optional[Slot]:
        asking = self.asking(token)
        return asking[1] if asking else None

    def local(self, variable: str) -> Optional[Tuple[Numbered, Local]]:
        """The rule and the text of a local."""
        parts = local_parts(variable)
        rule = self.rule(parts[0], parts[1]) if parts else None
        return (rule, rule.locals[parts[2]]) if parts and rule and parts[2] < len(rule.locals) else None

    def shown(self, name: str) -> str:
        """A token or a variable of one as desk calls it; any other word as it is."""
        if name in self.by_token:
            return self.by_token[name]
        token, point, part = name.rpartition(".")
        return f"{self.by_token[token]}.{part}" if point and token in self.by_token else name

    def expected(self, name: str) -> str:
        """A token as desk would call it, where it isn't there and a rule of one that is there asks for it."""
        asking = self.asking(name) if name not in self.by_token else None
        return f"{self.shown(parent_of(name))}.{asking[1].full_label}" if asking else self.shown(name)

    def meant(self, word: str) -> str:
        """A word of the planner as europa spells it."""
        if word in self.by_alias:
            return self.by_alias[word]
        token, point, part = word.rpartition(".")
        return f"{self.by_alias[token]}.{part}" if point and token in self.by_alias else word

    def shown_line(self, line: str) -> str:
        """A line of europa with its names as desk calls them."""
        return " ".join(map(self.shown, line.split(" ")))
