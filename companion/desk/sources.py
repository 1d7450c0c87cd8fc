"""The files of a problem: what stands at a byte of them, and how an included one was reached.

europa names a place by a file and a byte. Here it becomes a line, a column and an excerpt with a caret.
"""
import os
from dataclasses import dataclass, field
from typing import Dict, Iterator, List, Optional, Tuple

from .lexemes import Lexeme, lexeme_at, lexemes
from .plain import plain, plain_line, width

# Files whose contents europa has built in: it never looks for them.
BUILT_IN = ("Plasma.nddl", "PlannerConfig.nddl")
# Of a longer line only so much round the place is shown.
SHOWN = 160


@dataclass(frozen=True)
class Place:
    """A line and a column of a file, both from 1 on; a column is a character."""
    file: str
    line: int
    column: int

    def __str__(self) -> str:
        return f"{plain(self.file)}:{self.line}:{self.column}"


@dataclass
class Source:
    """A file as it was read. `name` is how it is called in messages; the text is Latin-1, a character a byte."""
    name: str
    text: str

    def place(self, byte: int) -> Place:
        before = self.text[:byte]
        start = before.rfind("\n") + 1
        return Place(self.name, before.count("\n") + 1, len(readable(before[start:])) + 1)

    def excerpt(self, byte: int) -> List[str]:
        """The line of a byte with a caret under it; at the end of a text the last line that has anything."""
        end = len(self.text.rstrip()) if byte >= len(self.text) else byte
        start = self.text.rfind("\n", 0, end) + 1
        stop = self.text.find("\n", end)
        line = self.text[start:stop if stop >= 0 else len(self.text)]
        number = str(self.text.count("\n", 0, end) + 1)
        before, line = clipped(line, end - start)
        caret = " " * width(plain_line(readable(before))) + "^"
        return [f"  {number} | {plain_line(readable(line)).rstrip()}", f"  {' ' * len(number)} | {caret}"]

    def at(self, byte: int) -> Optional[Lexeme]:
        return lexeme_at(self.text, byte)

    def told(self, byte: int, sentence: str) -> List[str]:
        """A sentence on a place, in the form that editors read, with the line and a caret."""
        return [f"{self.place(byte)}: {sentence}"] + self.excerpt(byte)

    def byte_of_line(self, number: int) -> int:
        """The byte at which a line begins."""
        return sum(len(line) + 1 for line in self.text.split("\n")[:number - 1])


def clipped(line: str, at: int) -> Tuple[str, str]:
    """What stands before a place of a line, and the line; of a long line only what is round the place."""
    if len(line) <= SHOWN:
        return line[:at], line
    first = max(0, at - SHOWN // 2)
    return line[first:at], line[first:first + SHOWN]


def readable(text: str) -> str:
    """What was read as Latin-1 as the UTF-8 that it was meant to be."""
    return text.encode("latin-1").decode("utf-8", "surrogateescape")


def file_name(written: str) -> str:
    """The name of a file, as a string between quotes has it."""
    return os.fsdecode(written[1:-1].encode("latin-1"))


def includes(text: str) -> Iterator[Tuple[int, str]]:
    """The includes of a text, each with its place and the name that it asks for."""
    found = lexemes(text)
    for first, second in zip(found, found[1:]):
        if first.kind == "include" and second.kind == "string":
            yield first.place, file_name(second.text)


@dataclass
class Sources:
    """A problem's files, by the names that europa is given. What came from standard input has another name in
    messages, which stands in `shown`."""
    first: str
    shown: Dict[str, str] = field(default_factory=dict)
    known: Dict[str, Optional[Source]] = field(default_factory=dict)

    def called(self, name: str) -> str:
        """How a file is called in messages."""
        return self.shown.get(name, name)

    def get(self, name: str) -> Optional[Source]:
        """The file of this name as europa writes it, or none where it can't be read."""
        if name not in self.known:
            try:
                with open(name, "rb") as opened:
                    text = opened.read().decode("latin-1")
                self.known[name] = Source(self.called(name), text)
            except (OSError, ValueError):
                self.known[name] = None
        return self.known[name]

    def way_to(self, name: str) -> List[Tuple[Source, int]]:
        """The includes that lead to a file, the nearest first. europa reads each file once, and goes down first."""
        seen = {self.first}

        def down(at: str) -> Optional[List[Tuple[Source, int]]]:
            source = self.get(at)
            if at == name:
                return []
            for place, asked in includes(source.text) if source else ():
                if asked in seen or asked in BUILT_IN:
                    continue
                seen.add(asked)
                way = down(asked)
                if way is not None and source:
                    return way + [(source, place)]
            return None

        return down(self.first) or []
