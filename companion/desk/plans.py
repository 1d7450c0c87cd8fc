"""Reading the text of a plan in which europa found no fault."""
import re
from dataclasses import dataclass, field
from typing import Dict, List, Optional

SAID = ("start", "end", "duration", "object")


@dataclass
class Line:
    """A line of a plan: its number in the text from 1 on, and its words."""
    number: int
    words: List[str]


@dataclass
class PlanToken:
    """A token of a plan. A merged one has a target, and one that takes place has values."""
    name: str
    state: str
    line: int
    kind: str = ""
    values: Dict[str, str] = field(default_factory=dict)
    target: Optional[str] = None
    locals: Dict[str, str] = field(default_factory=dict)

    @property
    def start(self) -> int:
        return int(self.values["start"])

    @property
    def end(self) -> int:
        return int(self.values["end"])

    @property
    def object(self) -> str:
        return self.values["object"]

    @property
    def parameters(self) -> Dict[str, str]:
        return {name: value for name, value in self.values.items() if name not in SAID}


@dataclass
class Plan:
    """A plan as its text has it, with the lines on which names stand."""
    visits: Optional[int] = None
    globals: Dict[str, str] = field(default_factory=dict)
    tokens: Dict[str, PlanToken] = field(default_factory=dict)
    lines: Dict[str, int] = field(default_factory=dict)

    def active(self) -> List[PlanToken]:
        """The tokens that take place, facts among them."""
        return [token for token in self.tokens.values() if token.kind]

    def merged_into(self, name: str) -> List[str]:
        return [token.name for token in self.tokens.values() if token.target == name]


def read_token(words: List[str], number: int) -> PlanToken:
    pairs = dict(zip(words[3::2], words[4::2]))
    return PlanToken(words[1], words[0], number, words[2], pairs)


def read_plan(text: str) -> Plan:
    """The plan that a text has; the lines may stand in any order."""
    plan = Plan()
    lines = text.split("\n")
    for number, line in enumerate(lines, 1):
        words = line.split(" ")
        if words[0] == "found":
            plan.visits = int(words[1])
        elif words[0] == "global":
            plan.globals[words[1]] = words[2]
        elif words[0] in ("fact", "token"):
            plan.tokens[words[1]] = read_token(words, number)
        elif words[0] in ("merged", "rejected"):
            plan.tokens[words[1]] = PlanToken(words[1], words[0], number, target=(words + [None])[2])
        if len(words) > 1:
            plan.lines.setdefault(words[1], number)
    for line in lines:
        match = re.fullmatch(r"local (.*)(/[0-9]+![0-9]+) (\S+)", line)
        if match and match[1] in plan.tokens:
            plan.tokens[match[1]].locals[match[1] + match[2]] = match[3]
    return plan
