"""What a rule asks for, by the numbers that europa gives it: slots, locals and items.

A slot is a token that a rule asks for, a local a variable of it, and an item a constraint or a relation. Each are
numbered from 0 over the text of a rule, where a `foreach` stands for its block once for each object of its class.
"""
from dataclasses import dataclass, field
from typing import Dict, List, Tuple

from .problem import Problem
from .sources import Source
from .syntax import Ask, Call, Expression, Foreach, If, Rule, Statement, Variable
from .words import DECISIONS, PARTS, RELATIONS


@dataclass
class Slot:
    """A token that a rule asks for: its label, or its predicate where it has none, and the objects of its turns."""
    label: str
    predicate: str
    turns: Tuple[str, ...]
    place: int

    @property
    def full_label(self) -> str:
        return self.label + (f"[{','.join(self.turns)}]" if self.turns else "")


@dataclass
class Local:
    """A variable of a rule: its name, or for a field the path that reads it."""
    text: str
    is_field: bool
    turns: Tuple[str, ...]
    place: int


@dataclass
class Item:
    """A constraint or a relation of a rule or of the problem."""
    source: Source
    place: int


@dataclass
class Numbered:
    """What a rule or the problem has, each in order of its number."""
    source: Source
    place: int
    slots: List[Slot] = field(default_factory=list)
    locals: List[Local] = field(default_factory=list)
    items: List[Item] = field(default_factory=list)


@dataclass
class Scope:
    """What the first name of a path may mean inside a rule: `foreach` variables, locals, and labels of slots."""
    turns: Dict[str, str] = field(default_factory=dict)
    locals: Dict[str, bool] = field(default_factory=dict)
    labels: Dict[str, bool] = field(default_factory=dict)

    def inner(self) -> "Scope":
        return Scope(dict(self.turns), dict(self.locals), dict(self.labels))


class Unroller:
    """Numbers what stands in one rule, or outside of the rules where there is no predicate."""

    def __init__(self, problem: Problem, source: Source, rule: Rule, parameters: Tuple[str, ...]):
        self.problem, self.parameters = problem, parameters
        self.found = Numbered(source, rule.place)
        self.block(rule.block, Scope())

    def fields_read(self, path: List[str], scope: Scope) -> int:
        """How many fields a path reads of what isn't a known object: each is a local and an item of its own."""
        first = path[0]
        if first in scope.turns:
            return 0
        if first in scope.locals:
            return len(path) - 1
        if first in scope.labels:
            return max(0, len(path) - 2)
        if first in self.parameters or first in self.problem.globals:
            return len(path) - 1
        if first in self.problem.roots:
            return max(0, len(path) - 2)
        return 0

    def read_path(self, path: List[str], scope: Scope, place: int) -> None:
        count = self.fields_read(path, scope)
        for at in range(len(path) - count, len(path)):
            self.found.locals.append(Local(".".join(path[:at + 1]), True, tuple(scope.turns.values()), place))
            self.add_items(place)

    def read_all(self, paths: List[Expression], scope: Scope, place: int) -> None:
        for path in paths:
            self.read_path(path.names, scope, place)

    def add_items(self, place: int, count: int = 1) -> None:
        self.found.items += [Item(self.found.source, place)] * count

    def block(self, statements: List[Statement], scope: Scope) -> None:
        for statement in statements:
            self.statement(statement, scope)

    def statement(self, statement: Statement, scope: Scope) -> None:
        if isinstance(statement, Variable):
            self.local(statement, scope)
        elif isinstance(statement, Call):
            self.call(statement, scope)
        elif isinstance(statement, Ask):
            self.slot(statement.path.names, statement.label, scope, statement.place)
        elif isinstance(statement, If):
            self.read_all(statement.sides, scope, statement.place)
            self.block(statement.then, scope.inner())
            self.block(statement.otherwise, scope.inner())
        elif isinstance(statement, Foreach):
            self.foreach(statement, scope)

    def foreach(self, statement: Foreach, scope: Scope) -> None:
        for thing in self.problem.of_class(statement.cls):
            inner = scope.inner()
            inner.turns[statement.variable] = thing.name
            self.block(statement.block, inner)

    def local(self, statement: Variable, scope: Scope) -> None:
        if isinstance(statement.value, Expression):
            self.read_path(statement.value.names, scope, statement.place)
        turns = tuple(scope.turns.values())
        self.found.locals.append(Local(statement.name, False, turns, statement.place))
        scope.locals[statement.name] = True
        if statement.value is not None:
            self.add_items(statement.place)

    def call(self, statement: Call, scope: Scope) -> None:
        word, arguments = statement.path.names[-1], statement.arguments
        if len(statement.path.names) > 1:
            if word in DECISIONS:
                self.read_path(statement.path.names[:-1], scope, statement.place)
            return
        if word in RELATIONS:
            names = arguments[0].names
            if len(names) == 1:
                self.add_items(statement.place)
            else:
                self.slot(names, "", scope, statement.place)
            return
        self.read_all(arguments, scope, statement.place)
        if word == "allDiff":
            self.add_items(statement.place, len(arguments) * (len(arguments) - 1) // 2)
        elif word != "close":
            self.add_items(statement.place)

    def slot(self, path: List[str], label: str, scope: Scope, place: int) -> None:
        before, predicate = path[:-1], path[-1]
        if before:
            self.read_path(before, scope, place)
        self.found.slots.append(Slot(label or predicate, predicate, tuple(scope.turns.values()), place))
        if label:
            scope.labels[label] = True
        self.add_items(place, 1 if not before or self.is_class(before, scope) else 2)

    def is_class(self, path: List[str], scope: Scope) -> bool:
        """Whether a path is the name of a class, and nothing that stands nearer has that name."""
        near = (scope.turns, scope.locals, scope.labels, self.parameters, self.problem.globals, self.problem.roots)
        return len(path) == 1 and path[0] in self.problem.classes and not any(path[0] in names for names in near)


class RuleBook:
    """The rules of a problem, each numbered once it is asked for."""

    def __init__(self, problem: Problem):
        self.problem = problem
        self.known: Dict[Tuple[str, str], List[Numbered]] = {}

    def rules(self, cls: str, predicate: str) -> List[Numbered]:
        """The rules of a predicate, by their numbers in names."""
        key = (cls, predicate)
        if key not in self.known:
            parameters = PARTS + tuple(self.problem.parameters(cls, predicate))
            self.known[key] = [Unroller(self.problem, source, rule, parameters).found
                               for source, rule in self.problem.rules(cls, predicate)]
        return self.known[key]

    def problem_items(self) -> List[Item]:
        """The constraints of the problem, by their numbers."""
        found: List[Item] = []
        for written in self.problem.written:
            if isinstance(written.what, Call):
                rule = Rule("", "", [written.what], written.what.place)
                found += Unroller(self.problem, written.source, rule, ()).found.items
        return found
