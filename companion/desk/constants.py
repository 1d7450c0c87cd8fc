"""Numbers that a problem is given and no plan has: its horizon, and the limits of its resources.

They are asked of europa: a copy of the problem, with a global more for each number, is opened in a script, and the
script says what the global is. So desk works out no constructor itself.
"""
import os
import tempfile
from dataclasses import dataclass
from typing import Dict, List, Optional

from .europa import Dialogue, Europa, TextFault
from .problem import Problem
from .sources import Sources
from .words import RESERVOIR, REUSABLE

DEFAULT_HORIZON = (0, 1000)
FIELDS = {REUSABLE: ("capacity",), RESERVOIR: ("initial", "low", "high")}


@dataclass
class Constants:
    """The numbers, by the text that stands for each: `10`, or `battery.low`. A number that isn't known is none."""
    first: int
    last: int
    numbers: Dict[str, int]

    def limit(self, thing: str, name: str) -> Optional[int]:
        return self.numbers.get(f"{thing}.{name}")


def wanted(problem: Problem) -> List[str]:
    """The texts of the numbers that a drawing takes."""
    horizon = [argument.text for argument in problem.settings.arguments[:2]] if problem.settings else []
    return horizon + [f"{thing.name}.{name}" for thing in problem.objects
                      for name in FIELDS.get(problem.kind(thing.cls), ())]


def unused_name(sources: Sources) -> str:
    """A word that stands in none of the files."""
    name = "desk"
    while any(source and name in source.text for source in sources.known.values()):
        name += "_"
    return name


def numbers_said(europa: Europa, file: str, names: Dict[str, str]) -> Dict[str, int]:
    """What europa says that the globals of a file are, by the texts that they stand for."""
    dialogue = Dialogue(europa, file)
    try:
        for _ in dialogue.given:
            dialogue.ask("undo")
        found = {}
        for text, name in names.items():
            words = dialogue.ask(f"domain {name}").first.replace("[", "").replace("]", "").split()
            if len(words) == 3 and words[1] == words[2]:
                found[text] = int(words[1])
        return found
    finally:
        dialogue.close()


def ask_numbers(europa: Europa, sources: Sources, texts: List[str]) -> Dict[str, int]:
    """Asks europa what constant texts of a problem stand for."""
    if not texts:
        return {}
    name = unused_name(sources)
    names = {text: f"{name}{number}" for number, text in enumerate(texts)}
    more = "\n" + "".join(f"int {name};\neq({name}, {text});\n" for text, name in names.items())
    source = sources.get(sources.first)
    fronts = [os.fsencode(f'#include "{sources.first}"'), source.text.encode("latin-1") if source else b""]
    for front in fronts:
        descriptor, copy = tempfile.mkstemp(suffix=".nddl", prefix="desk-")
        try:
            with open(descriptor, "wb") as opened:
                opened.write(front + more.encode("ascii"))
            return numbers_said(europa, copy, names)
        except TextFault:
            continue  # The name can't stand in an include, or with one file more there would be too many.
        finally:
            os.unlink(copy)
    return {}


def ask_constants(europa: Europa, sources: Sources, problem: Problem) -> Constants:
    """The horizon and the limits of a problem."""
    numbers = ask_numbers(europa, sources, list(dict.fromkeys(wanted(problem))))
    first, last = DEFAULT_HORIZON
    if problem.settings:
        ends = [numbers.get(argument.text) for argument in problem.settings.arguments[:2]]
        first, last = (given if end is None else end for given, end in zip(DEFAULT_HORIZON, ends))
    return Constants(first, last, numbers)
