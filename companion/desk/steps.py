"""The steps of a session, so that it can go back by more than one, go on from a file, and begin again.

Each decision is a step, and so is each time that one is taken out. What a search decides is as many as it has decisions.
The steps of the problem's text come first.
"""
from dataclasses import dataclass
from typing import Callable, List, Sequence

from .europa import Dialogue, Reply
from .words import DECISIONS, FURTHER_DECISIONS

MAKING_STEPS = DECISIONS + FURTHER_DECISIONS + ("reset", "withdraw", "unrelate")
CHANGED = ("ok", "inconsistent")


@dataclass(frozen=True)
class Step:
    """A step as the line that makes it, and by which search it came, or 0."""
    line: str
    search: int = 0


class Steps:
    """The steps that `undo` can take back."""

    def __init__(self, given: Sequence[str]):
        self.made = [Step(line) for line in given]
        self.searches = 0

    def note(self, line: str, reply: Reply) -> None:
        """Takes in what a line has changed."""
        word = line.split()[0]
        if reply.first in CHANGED and word in MAKING_STEPS:
            self.made.append(Step(line))
        elif reply.first in CHANGED and word == "undo" and self.made:
            self.made.pop()

    def note_search(self, lines: Sequence[str]) -> None:
        """Takes in what a search has decided."""
        self.searches += 1
        self.made += [Step(line, self.searches) for line in lines]

    def behind_search(self) -> int:
        """How many steps were made behind the last search that decided anything."""
        return next((count for count, step in enumerate(reversed(self.made)) if step.search), len(self.made))

    def of_search(self) -> int:
        """How many steps the last search made, of those that stand."""
        searches = [step.search for step in self.made if step.search]
        return searches.count(searches[-1]) if searches else 0


def same_front(one: Sequence[str], other: Sequence[str]) -> int:
    """How many lines two lists have alike from the first on."""
    return next((at for at, (left, right) in enumerate(zip(one, other)) if left != right), min(len(one), len(other)))


def begin_again(dialogue: Dialogue, steps: Steps) -> None:
    """Makes the steps in a new dialogue, whose first steps are those of the text."""
    lines = [step.line for step in steps.made]
    front = same_front(dialogue.given, lines)
    for _ in dialogue.given[front:]:
        dialogue.ask("undo")
    for line in lines[front:]:
        dialogue.ask(line)


def take_back(ask: Callable[[str], Reply], count: int) -> List[Reply]:
    """Takes back so many steps, or as many as there are."""
    replies: List[Reply] = []
    while len(replies) < count:
        reply = ask("undo")
        if reply.first not in CHANGED:
            return replies or [reply]
        replies.append(reply)
    return replies
