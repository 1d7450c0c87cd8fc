"""The state of a session, as europa tells it on being asked."""
from dataclasses import dataclass
from typing import Dict, List, Optional, Tuple

from .chart import Bar, Span
from .europa import Dialogue
from .names import Aliases, Kind, kind_of
from .words import PARTS


@dataclass(frozen=True)
class Domain:
    """What a variable may still be: a range of numbers, or some values."""
    values: Tuple[str, ...]
    is_range: bool

    @property
    def is_single(self) -> bool:
        return len(set(self.values)) == 1

    @property
    def span(self) -> Optional[Span]:
        numbers = [int(value) for value in self.values if value.lstrip("-").isdecimal()]
        return Span(min(numbers), max(numbers)) if numbers else None

    def __str__(self) -> str:
        if self.is_single:
            return self.values[0]
        return f"{self.values[0]} to {self.values[1]}" if self.is_range else " or ".join(self.values)


def read_domain(line: str) -> Optional[Domain]:
    """The domain of a line `VARIABLE [LEAST GREATEST]` or `VARIABLE {VALUE ..}`."""
    for opening, closing, is_range in ((" [", "]", True), (" {", "}", False)):
        _, found, values = line.partition(opening)
        if found and values.endswith(closing):
            return Domain(tuple(values[:-1].split()), is_range)
    return None


@dataclass(frozen=True)
class Known:
    """A token of the state."""
    name: str
    kind: Kind
    state: str


class State:
    """Asks a dialogue for what there is. Where nothing is possible the tokens are those known before."""

    def __init__(self, dialogue: Dialogue, aliases: Aliases):
        self.dialogue, self.aliases = dialogue, aliases
        self.tokens: Dict[str, Known] = {}
        self.is_possible = True
        self.is_fresh = False

    def refresh(self) -> None:
        """Asks for the tokens again, where something has changed since."""
        if self.is_fresh:
            return
        reply = self.dialogue.ask("tokens")
        self.is_possible = reply.first.startswith("tokens ")
        if self.is_possible:
            rows = [line.split(" ", 2) for line in reply.rest]
            self.tokens = {name: Known(name, kind_of(kind), state) for name, kind, state in rows}
            self.aliases.learn([(name, kind) for name, kind, _ in rows])
        self.is_fresh = True

    def domain(self, variable: str) -> Optional[Domain]:
        """What a variable may be, or none where it isn't there or nothing is possible."""
        return read_domain(self.dialogue.ask(f"domain {variable}").first)

    def parts(self, token: str) -> List[str]:
        """The variables that a token has by its predicate."""
        kind = self.tokens[token].kind
        return [f"{token}.{part}" for part in PARTS + tuple(self.parameters(kind))]

    def parameters(self, kind: Kind) -> List[str]:
        return self.aliases.book.problem.parameters(kind.cls, kind.predicate)

    def locals(self, token: str) -> List[str]:
        """The locals that a token's rules may have; which of them it has now, europa says."""
        kind = self.tokens[token].kind
        rules = self.aliases.book.rules(kind.cls, kind.predicate)
        return [f"{token}/{number}!{at}" for number, rule in enumerate(rules) for at in range(len(rule.locals))]

    def globals(self) -> List[str]:
        return list(self.aliases.book.problem.globals)

    def variables(self) -> List[str]:
        return self.globals() + [part for token in self.tokens for part in self.parts(token)]

    def decisions(self) -> List[str]:
        return self.dialogue.ask("decisions").rest

    def merged_into(self, token: str) -> List[str]:
        return [known.name for known in self.tokens.values() if known.state == f"merged {token}"]

    def bar(self, token: str) -> Optional[Bar]:
        """A token of the state as it is drawn, with what each of its values may be."""
        known = self.tokens[token]
        domains = {name.rpartition(".")[2]: self.domain(name) for name in self.parts(token)}
        start, end, things = domains["start"], domains["end"], domains["object"]
        if not (start and start.span and end and end.span and things):
            return None
        parameters = {name: domains[name] for name in self.parameters(known.kind)}
        values = {name: str(domain) for name, domain in parameters.items() if domain}
        quantity = parameters.get("quantity")
        merged = list(map(self.aliases.shown, self.merged_into(token)))
        return Bar(token, self.aliases.shown(token), known.kind, known.state, things.values, start.span, end.span,
                   values, quantity.span if quantity else None, merged)

    def bars(self) -> List[Bar]:
        """The tokens that take place, facts among them, as they are drawn."""
        found = [self.bar(known.name) for known in self.tokens.values() if known.state in ("active", "fact")]
        return [bar for bar in found if bar]
