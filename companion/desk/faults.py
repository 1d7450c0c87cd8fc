"""The faults of texts, each kind as a sentence.

europa prints a fault as `text KIND FILE PLACE`. `explain_fault` tells it as editors read it, with the line, a caret,
and the way to an included file.
"""
import difflib
import os
import re
from dataclasses import dataclass
from typing import Callable, Dict, List, Optional

from .lexemes import Lexeme, lexemes, number_value
from .plain import plain
from .sources import Source, Sources, file_name, readable
from .words import (CONSTRAINTS, OBJECT, PARTS, POSTS, RELATIONS, RESERVED, RESERVOIR, REUSABLE, SETTINGS, TIMELINE)

LINE = re.compile(r"text (\S+) (.*) ([0-9]+)\n*", re.DOTALL)
BUILT_IN = (OBJECT, TIMELINE, REUSABLE, RESERVOIR, SETTINGS)


@dataclass
class Fault:
    """A fault as europa told it."""
    kind: str
    file: str
    byte: int


@dataclass
class Spot:
    """Where a fault stands: the file, the byte, and the lexeme there with the one before it."""
    source: Source
    byte: int
    here: Optional[Lexeme]
    before: Optional[Lexeme]

    @property
    def name(self) -> str:
        """What stands there, in quotes."""
        if self.here:
            return f"`{plain(readable(self.here.text))}`"
        if self.byte >= len(self.source.text):
            return "the end of the text"
        return f"`{plain(readable(self.source.text[self.byte]))}`"

    @property
    def text(self) -> str:
        return self.here.text if self.here else ""

    @property
    def behind_new(self) -> bool:
        return bool(self.before and self.before.text == "new")


def read_fault(line: str) -> Optional[Fault]:
    """The fault that a line of europa tells; a name of a file may have blanks and line feeds in it."""
    match = LINE.fullmatch(line)
    return Fault(match[1], match[2], int(match[3])) if match else None


def spot_of(source: Source, byte: int) -> Spot:
    before = lexemes(source.text[:byte])
    return Spot(source, byte, source.at(byte), before[-1] if before else None)


def bad_byte(spot: Spot) -> str:
    if spot.source.text[spot.byte:spot.byte + 1] == '"':
        return "this string isn't closed on its line"
    return f"nothing of the language begins with {spot.name} here"


def out_of_range(spot: Spot) -> str:
    if spot.here and spot.here.kind == "decimal":
        return f"{spot.name} isn't from -1,000.000 to 1,000.000, or has more than three digits after its point"
    return f"{spot.name} isn't from -1,000,000 to 1,000,000"


def syntax(spot: Spot) -> str:
    behind = f" behind `{plain(readable(spot.before.text))}`" if spot.before else ""
    if not spot.here:
        return f"the text ends{behind}, where something more has to come"
    if spot.text in RESERVED:
        return f"{spot.name} can't stand here{behind}: it is a word of the language"
    return f"{spot.name} can't stand here{behind}"


def missing_file(spot: Spot) -> str:
    asked = next((lexeme for lexeme in lexemes(spot.source.text[spot.byte:]) if lexeme.kind == "string"), None)
    if not asked:
        return "there is no such file"
    name = file_name(asked.text)
    return f"there is no file `{plain(name)}`: `{plain(os.path.abspath(name))}` was looked for, " \
           "since a file is looked for from the folder of the call"


def unknown(spot: Spot) -> str:
    return f"there is nothing of the name {spot.name} here{like(spot)}"


def like(spot: Spot) -> str:
    """A question after a word of the file or the language that is spelled nearly so."""
    words = {lexeme.text for lexeme in lexemes(spot.source.text) if lexeme.kind == "word"} - {spot.text} - RESERVED
    found = difflib.get_close_matches(spot.text, sorted(words.union(CONSTRAINTS, RELATIONS, PARTS, POSTS)), 1, 0.75)
    return f"; is `{found[0]}` meant?" if found else ""


def twice(spot: Spot) -> str:
    if spot.text in PARTS or spot.text in BUILT_IN:
        return f"{spot.name} is the language's own, and can't be declared"
    return f"{spot.name} is declared already: in this scope, in a class above, or as the class's constructor"


def wrong_type(spot: Spot) -> str:
    if spot.text == "string":
        return "nothing can be of the type `string`"
    if spot.text == "new":
        return "`new` can't stand here, where no object is made"
    if spot.here and spot.here.kind == "decimal":
        return f"the decimal {spot.name} can't stand here: only variables of type `float` have decimals"
    return f"{spot.name} is of another kind than is wanted here"


def wrong_count(spot: Spot) -> str:
    if spot.behind_new:
        return f"{spot.name} is made with too many or too few arguments, or its constructor leaves a field out, sets " \
               "it twice, or has its `super` not rightly"
    return f"{spot.name} has too many or too few arguments"


def not_in_domain(spot: Spot) -> str:
    if spot.text == "[":
        return "the ends of this range are in the wrong order, or lie outside of the type that it narrows"
    if spot.text in POSTS:
        return "this token could have no object, or a parameter of it could: none of that class is made"
    if spot.behind_new:
        return f"what {spot.name} is made with doesn't fit: an object of another class, a value outside of a field's " \
               "type, a capacity below 0, a level outside of its limits, or a horizon or steps out of range"
    if stands_for_no_decimal(spot):
        return f"{spot.name} lies outside of the type, or stands where a decimal is wanted, which is at most 1,000"
    return f"{spot.name} lies outside of the type"


def stands_for_no_decimal(spot: Spot) -> bool:
    """Whether it is a number beyond the decimals."""
    number = number_value(spot.text) if spot.here and spot.here.kind == "number" else None
    return number is not None and abs(number) > 1000 * 1000


def not_admissible(spot: Spot) -> str:
    return f"this decision is refused: {spot.name} or what it is given isn't there, is decided already, was declared " \
           "without this value, isn't active, or isn't of the kind that such a decision asks for"


KINDS: Dict[str, Callable[[Spot], str]] = {
    "BadByte": bad_byte,
    "OpenComment": lambda spot: "this comment is never closed",
    "OutOfRange": out_of_range,
    "Syntax": syntax,
    "Absent": missing_file,
    "Limit:bytes": lambda spot: "the included file has more than 1,048,576 bytes",
    "Limit:files": lambda spot: "this would be the 65th file, and there may be 64",
    "Limit:depth": lambda spot: "this file is included 9 deep, and includes may be 8 deep",
    "Limit:nesting": lambda spot: "this block is nested 17 deep, and blocks may be 16 deep",
    "Unknown": unknown,
    "Twice": twice,
    "WrongType": wrong_type,
    "WrongCount": wrong_count,
    "NotInDomain": not_in_domain,
    "Closed": lambda spot: "an object can't be made behind `close();`",
    "Limit:rules": lambda spot: "with this rule the predicate has more than 1,024 rules",
    "Limit:guards": lambda spot: "with this rule the predicate's rules have more than 1,024 guards",
    "Limit:slots": lambda spot: "with this rule the predicate's rules ask for more than 128 tokens",
    "Limit:locals": lambda spot: "with this rule the predicate's rules have more than 128 locals, fields among them",
    "Limit:items": lambda spot: "with this rule the predicate's rules have more than 1,024 constraints and relations",
    "Limit:turns": lambda spot: "with this rule the predicate's rules have more than 65,536 turns of `foreach`",
    "Limit:parameters": lambda spot: f"the predicate {spot.name} has more than 32 parameters",
    "Limit:members": lambda spot: "this set or enum has more than 4,096 members",
    "Limit:objects": lambda spot: f"with this {spot.name} there would be more than 4,096 objects",
    "Limit:new": lambda spot: f"this {spot.name} is made 17 deep by constructors, and they may go 16 deep",
    "Limit:roots": lambda spot: "this would be the 4,097th token that is posted, and there may be 4,096",
    "Limit:facts": lambda spot: "this would be the 513th fact, and there may be 512",
    "Limit:globals": lambda spot: f"with {spot.name} there would be more than 4,096 globals, those for fields of "
                                  "variables among them",
    "NotAdmissible": not_admissible,
    "AfterConflict": lambda spot: f"the decisions before this one of {spot.name} leave nothing possible, so none may "
                                  "stand behind them",
}


def whole_file(fault: Fault, name: str) -> str:
    """A fault of a file as a whole: it isn't there, or is too long."""
    if fault.kind == "Absent":
        return f"there is no such file: `{plain(os.path.abspath(name))}` was looked for"
    if fault.kind == "Limit:bytes":
        return "the file has more than 1,048,576 bytes"
    return f"europa says `{plain(fault.kind)}` of it"


def is_of_whole_file(source: Optional[Source], fault: Fault) -> bool:
    if source is None:
        return True
    here = source.at(fault.byte)
    return fault.kind in ("Absent", "Limit:bytes") and not (here and here.kind == "include")


def explain_fault(line: str, sources: Sources) -> List[str]:
    """What a line of a fault means: the first line is in the form that editors read."""
    fault = read_fault(line)
    if not fault:
        return [f"europa answered what desk doesn't know: {plain(line.strip())}"]
    source = sources.get(fault.file)
    if source is None or is_of_whole_file(source, fault):
        name = sources.called(fault.file)
        return [f"{plain(name)}:1:1: {whole_file(fault, name)}"]
    spot = spot_of(source, fault.byte)
    tell = KINDS.get(fault.kind, lambda spot: f"europa says `{plain(fault.kind)}` of {spot.name}")
    told = source.told(fault.byte, tell(spot))
    for including, byte in sources.way_to(fault.file):
        told += including.told(byte, "it is included here")
    return told
