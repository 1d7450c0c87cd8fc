"""What the declarations of a problem's files say together: classes, objects, predicates, and the tokens posted."""
from dataclasses import dataclass, field
from typing import Dict, Iterator, List, Optional, Tuple

from . import syntax
from .europa import Europa
from .sources import BUILT_IN, Source, Sources, file_name
from .syntax import Ask, Class, Declaration, Include, Named, New, Predicate, Rule, Variable, read_declarations
from .words import CONSUME, OBJECT, PRODUCE, RESERVOIR, REUSABLE, SETTINGS, TIMELINE, USES

# What the built-in classes have: predicates with their parameters, and fields.
QUANTITY = [("int", "quantity")]
BUILT_IN_CLASSES = {
    OBJECT: Class(OBJECT, None),
    TIMELINE: Class(TIMELINE, OBJECT),
    REUSABLE: Class(REUSABLE, OBJECT, [("int", "capacity")], [Predicate(USES, QUANTITY, [])]),
    RESERVOIR: Class(RESERVOIR, OBJECT, [("int", name) for name in ("initial", "low", "high")],
                     [Predicate(PRODUCE, QUANTITY, []), Predicate(CONSUME, QUANTITY, [])]),
}


@dataclass
class Written:
    """A declaration with the file in which it stands."""
    source: Source
    what: Declaration


@dataclass
class Thing:
    """An object: its name, its class, and the class with which it is declared."""
    name: str
    cls: str
    declared: str


@dataclass
class Problem:
    """The declarations of all files, as one list, and what they declare."""
    written: List[Written]
    classes: Dict[str, Class] = field(default_factory=lambda: dict(BUILT_IN_CLASSES))
    objects: List[Thing] = field(default_factory=list)
    globals: Dict[str, Written] = field(default_factory=dict)
    roots: Dict[str, Written] = field(default_factory=dict)
    members: List[str] = field(default_factory=list)
    settings: Optional[New] = None

    def line_of(self, cls: str) -> List[str]:
        """A class with those above it, the topmost first."""
        found: List[str] = []
        at: Optional[str] = cls
        while at in self.classes and at not in found:
            found.insert(0, at)
            at = self.classes[at].parent or (OBJECT if at != OBJECT else None)
        return found

    def is_under(self, cls: str, other: str) -> bool:
        return other in self.line_of(cls)

    def of_class(self, cls: str) -> List[Thing]:
        """The objects of a class and of those under it, in the order in which they are made."""
        return [thing for thing in self.objects if self.is_under(thing.cls, cls)]

    def object(self, name: str) -> Optional[Thing]:
        return next((thing for thing in self.objects if thing.name == name), None)

    def kind(self, cls: str) -> str:
        """Which of the built-in classes with a meaning of their own a class stands under, if it does."""
        return next((kind for kind in (TIMELINE, REUSABLE, RESERVOIR) if self.is_under(cls, kind)), "")

    def predicate(self, cls: str, name: str) -> Optional[Predicate]:
        return next((predicate for above in self.line_of(cls) for predicate in self.classes[above].predicates
                     if predicate.name == name), None)

    def root_kind(self, label: str) -> str:
        """The class and the predicate of a posted token, where the path is a class, or an object by its own name."""
        written = self.roots.get(label)
        if not written or not isinstance(written.what, Ask):
            return ""
        before, predicate = ".".join(written.what.path.names[:-1]), written.what.path.names[-1]
        thing = self.object(before)
        cls = thing.declared if thing else before if before in self.classes else ""
        return f"{cls}.{predicate}" if cls else ""

    def parameters(self, cls: str, name: str) -> List[str]:
        predicate = self.predicate(cls, name)
        return [parameter for _, parameter in predicate.parameters] if predicate else []

    def rules(self, cls: str, name: str) -> Iterator[Tuple[Source, Rule]]:
        """The rules of a predicate by their numbers: those of the topmost class first, each in order of text."""
        for above in self.line_of(cls):
            for written in self.written:
                what = written.what
                if isinstance(what, Rule) and (what.cls, what.predicate) == (above, name):
                    yield written.source, what
                elif isinstance(what, Class) and what.name == above:
                    for predicate in what.predicates:
                        if predicate.name == name and predicate.body:
                            yield written.source, Rule(above, name, predicate.body, predicate.place)


def joined(europa: Europa, sources: Sources) -> Iterator[Written]:
    """The declarations of all files, those of an included file at the place of its include."""
    seen = {sources.first}

    def of_file(name: str) -> Iterator[Written]:
        source = sources.get(name)
        if source is None:
            raise syntax.Misread(f"the file {name} can't be read")
        canonical = europa.ask(["show", "--", name]).text.encode("utf-8", "surrogateescape").decode("latin-1")
        for what in read_declarations(canonical, source.text):
            if not isinstance(what, Include):
                yield Written(source, what)
                continue
            asked = file_name(what.file)
            if asked not in seen and asked not in BUILT_IN:
                seen.add(asked)
                yield from of_file(asked)

    return of_file(sources.first)


def make(problem: Problem, name: str, cls: str, declared: str, depth: int = 0) -> None:
    """Notes an object that is made, and behind it those that its constructors make."""
    problem.objects.append(Thing(name, cls, declared))
    if depth > 16:
        return
    fields = {field_name: kind for above in problem.line_of(cls) for kind, field_name in problem.classes[above].fields}
    for above in problem.line_of(cls):
        for setting in problem.classes[above].constructor or ():
            if setting.field and isinstance(setting.value, New):
                made = setting.value.cls
                make(problem, f"{name}.{setting.field}", made, fields.get(setting.field, made), depth + 1)


def note_name(problem: Problem, written: Written) -> None:
    """Notes what a declaration names outside of classes."""
    what = written.what
    if isinstance(what, Named):
        problem.members += what.members
    elif isinstance(what, Ask):
        problem.roots[what.label] = written
    elif isinstance(what, Variable) and isinstance(what.value, New):
        if what.type == SETTINGS:
            problem.settings = what.value
        else:
            make(problem, what.name, what.value.cls, what.type)
    elif isinstance(what, Variable):
        problem.globals[what.name] = written


def read_problem(europa: Europa, sources: Sources) -> Problem:
    """Reads a problem's files, in which europa found no fault."""
    problem = Problem(list(joined(europa, sources)))
    for written in problem.written:
        what = written.what
        if isinstance(what, Class) and not (what.is_forward and what.name in problem.classes):
            problem.classes[what.name] = what
    for written in problem.written:
        note_name(problem, written)
    return problem
