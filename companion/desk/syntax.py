"""The declarations of a file, read from the canonical text that europa prints for it.

The canonical text is what europa itself read, spelled in one way. So this reader is told nothing that has a fault, and
judges nothing. Where each part stands in the file as it was written is found by going through both at once.
"""
from dataclasses import dataclass, field
from typing import List, Optional, Tuple, Union

from .lexemes import Lexeme, lexemes, same_spelling

OPTIONAL = (";", ",")
BRACES = ("{", "}")


class Misread(Exception):
    """What was printed isn't the canonical text of declarations."""


@dataclass
class Expression:
    """A path of names, or one literal."""
    names: List[str]

    @property
    def text(self) -> str:
        return ".".join(self.names)


@dataclass
class New:
    """The making of an object of a class."""
    cls: str
    arguments: List[Expression]


@dataclass
class Variable:
    """A declaration of a variable or an object, in a rule or outside."""
    type: str
    name: str
    value: Union[Expression, New, None]
    place: int = 0


@dataclass
class Call:
    """A constraint, a decision, or `close();`."""
    path: Expression
    arguments: List[Expression]
    place: int = 0


@dataclass
class Ask:
    """A posted token, or a relation with a token that a rule asks for and gives a label."""
    word: str
    path: Expression
    label: str
    place: int = 0


@dataclass
class If:
    """A guard with its blocks."""
    sides: List[Expression]
    then: List["Statement"]
    otherwise: List["Statement"]
    place: int = 0


@dataclass
class Foreach:
    """A block for each object of a class."""
    variable: str
    cls: str
    block: List["Statement"]
    place: int = 0


Statement = Union[Variable, Call, Ask, If, Foreach]


@dataclass
class Include:
    file: str
    place: int = 0


@dataclass
class Named:
    """An enum with its members, or a typedef without any."""
    name: str
    members: List[str]


@dataclass
class Predicate:
    """A predicate with its parameters, as pairs of a type and a name, and the constraints of its body."""
    name: str
    parameters: List[Tuple[str, str]]
    body: List[Statement]
    place: int = 0


@dataclass
class Setting:
    """What a constructor does: it gives a field a value, or hands arguments to the constructor above, without field."""
    field: Optional[str]
    value: Union[Expression, New]


@dataclass
class Class:
    name: str
    parent: Optional[str]
    fields: List[Tuple[str, str]] = field(default_factory=list)
    predicates: List[Predicate] = field(default_factory=list)
    constructor: Optional[List[Setting]] = None
    place: int = 0
    is_forward: bool = False


@dataclass
class Rule:
    """A rule for a predicate of a class."""
    cls: str
    predicate: str
    block: List[Statement]
    place: int = 0


Declaration = Union[Include, Named, Class, Rule, Variable, Call, Ask]


def places_of(canonical: List[Lexeme], written: List[Lexeme]) -> List[int]:
    """The byte at which each canonical lexeme stands in the file as it was written.

    What the canonical text leaves out are marks that the writer may leave out, and what it adds are the braces round
    an `if` behind `else`; these get the place of what follows.
    """
    found, at = [], 0
    for lexeme in canonical:
        while at < len(written) and not same_spelling(lexeme.text, written[at].text) and written[at].text in OPTIONAL:
            at += 1
        matches = at < len(written) and same_spelling(lexeme.text, written[at].text)
        if not matches and lexeme.text not in BRACES:
            raise Misread(f"`{lexeme.text}` stands in the canonical text alone")
        found.append(written[at].place if at < len(written) else written[-1].end if written else 0)
        at += matches
    return found


class Reader:
    """Reads declarations from lexemes with their places."""

    def __init__(self, found: List[Lexeme], places: List[int]):
        self.found, self.places, self.at = found, places, 0

    @property
    def next(self) -> str:
        return self.found[self.at].text if self.at < len(self.found) else ""

    def look(self, ahead: int) -> str:
        return self.found[self.at + ahead].text if self.at + ahead < len(self.found) else ""

    @property
    def place(self) -> int:
        return self.places[self.at] if self.at < len(self.places) else 0

    def take(self) -> str:
        if self.at >= len(self.found):
            raise Misread("the canonical text ends too soon")
        self.at += 1
        return self.found[self.at - 1].text

    def expect(self, *texts: str) -> None:
        for text in texts:
            taken = self.take()
            if taken != text:
                raise Misread(f"`{taken}` stands where `{text}` should")

    def takes(self, text: str) -> bool:
        """Takes the next lexeme if it is this one."""
        if self.next != text:
            return False
        self.at += 1
        return True

    def path(self) -> Expression:
        names = [self.take()]
        while self.takes("."):
            names.append(self.take())
        return Expression(names)

    def arguments(self) -> List[Expression]:
        self.expect("(")
        found: List[Expression] = []
        while not self.takes(")"):
            found.append(self.path())
            self.takes(",")
        return found

    def initial(self) -> Union[Expression, New]:
        if self.takes("new"):
            return New(self.take(), self.arguments())
        return self.path()

    def type(self) -> str:
        """A type as text; of a range or a set the name before it."""
        name = self.take()
        for opening, closing in (("[", "]"), ("{", "}")):
            if self.takes(opening):
                while not self.takes(closing):
                    self.take()
        return name

    def block(self) -> List[Statement]:
        self.expect("{")
        found: List[Statement] = []
        while not self.takes("}"):
            found.append(self.statement())
        return found

    def statement(self) -> Statement:
        if self.next == "if":
            return self.condition()
        if self.next == "foreach":
            return self.foreach()
        return self.plain_statement()

    def condition(self) -> If:
        place = self.place
        self.expect("if", "(")
        sides = [self.path()]
        if self.next in ("==", "!="):
            self.take()
            sides.append(self.path())
        self.expect(")")
        then = self.block()
        return If(sides, then, self.block() if self.takes("else") else [], place)

    def foreach(self) -> Foreach:
        place = self.place
        self.expect("foreach", "(")
        variable = self.take()
        self.expect("in")
        cls = self.take()
        self.expect(")")
        return Foreach(variable, cls, self.block(), place)

    def plain_statement(self) -> Union[Variable, Call, Ask]:
        """A statement that may stand in rules and outside."""
        place = self.place
        if self.look(1) not in ("(", "."):
            type_name, name = self.type(), self.take()
            value = self.initial() if self.takes("=") else None
            self.expect(";")
            return Variable(type_name, name, value, place)
        path = self.path()
        if self.label_comes():
            self.expect("(")
            asked, label = self.path(), self.take()
            self.expect(")", ";")
            return Ask(path.text, asked, label, place)
        arguments = self.arguments()
        self.expect(";")
        return Call(path, arguments, place)

    def label_comes(self) -> bool:
        """Whether the parentheses that come next have a path and a label in them, with nothing between the two."""
        ahead = 2
        while self.look(ahead) == ".":
            ahead += 2
        return self.look(1) not in (")", "") and self.look(ahead) not in (",", ")", "")

    def declaration(self) -> Declaration:
        readers = {"#include": self.include, "enum": self.enum, "typedef": self.typedef, "class": self.class_}
        if self.next in readers:
            return readers[self.next]()
        if self.look(1) == "::":
            place = self.place
            cls = self.take()
            self.expect("::")
            return Rule(cls, self.take(), self.block(), place)
        return self.plain_statement()

    def include(self) -> Include:
        place = self.place
        self.take()
        return Include(self.take(), place)

    def enum(self) -> Named:
        self.take()
        name, members = self.take(), []
        self.expect("{")
        while not self.takes("}"):
            members.append(self.take())
            self.takes(",")
        return Named(name, members)

    def typedef(self) -> Named:
        self.take()
        self.type()
        name = self.take()
        self.expect(";")
        return Named(name, [])

    def class_(self) -> Class:
        self.take()
        place = self.place
        found = Class(self.take(), None, place=place)
        if self.takes(";"):
            found.is_forward = True
            return found
        if self.takes("extends"):
            found.parent = self.take()
        self.expect("{")
        while not self.takes("}"):
            self.member(found)
        return found

    def member(self, owner: Class) -> None:
        if self.takes("predicate"):
            owner.predicates.append(self.predicate())
        elif self.look(1) == "(":
            owner.constructor = self.constructor()
        else:
            owner.fields.append((self.type(), self.take()))
            self.expect(";")

    def predicate(self) -> Predicate:
        place = self.place
        found = Predicate(self.take(), [], [], place)
        self.expect("{")
        while not self.takes("}"):
            statement = self.plain_statement()
            if isinstance(statement, Variable):
                found.parameters.append((statement.type, statement.name))
            else:
                found.body.append(statement)
        return found

    def constructor(self) -> List[Setting]:
        self.take()
        while self.take() != ")":
            pass
        self.expect("{")
        found = []
        while not self.takes("}"):
            if self.next == "super":
                self.take()
                found.append(Setting(None, New("super", self.arguments())))
            else:
                name = self.take()
                self.expect("=")
                found.append(Setting(name, self.initial()))
            self.expect(";")
        return found


def read_declarations(canonical: str, written: str) -> List[Declaration]:
    """The declarations of a canonical text, each with its place in the file as it was written."""
    found = lexemes(canonical)
    reader = Reader(found, places_of(found, lexemes(written)))
    declarations = []
    while reader.next:
        declarations.append(reader.declaration())
    return declarations
