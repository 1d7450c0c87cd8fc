"""The lexemes of NDDL, as europa cuts a text into them.

Texts are read as Latin-1, so that a character's place is the place of its byte. desk looks for lexemes only to say
what stands at a place that europa named; whether a text has any fault is europa's to say.
"""
import re
from dataclasses import dataclass
from typing import List, Optional

PATTERN = re.compile(r"""
    (?P<blank>[ \t\r\n]+|//[^\n]*|/\*.*?\*/)
  | (?P<include>\#include)
  | (?P<decimal>[+-]?[0-9]+\.[0-9]+)
  | (?P<number>[+-]?(?:[0-9]+|inf(?![A-Za-z0-9_]))|[+-]inf)
  | (?P<word>[A-Za-z_][A-Za-z0-9_]*)
  | (?P<string>"[^"\n]*")
  | (?P<mark>==|!=|::|[{}()\[\];,.=])
""", re.VERBOSE | re.DOTALL)


@dataclass(frozen=True)
class Lexeme:
    """A lexeme: its kind, how it is spelled, and the byte at which it begins."""
    kind: str
    text: str
    place: int

    @property
    def end(self) -> int:
        return self.place + len(self.text)


def lexemes(text: str) -> List[Lexeme]:
    """The lexemes of a text, as far as there are any: a byte that begins none ends them."""
    found: List[Lexeme] = []
    at = 0
    while at < len(text):
        match = PATTERN.match(text, at)
        if not match:
            break
        kind = match.lastgroup or "blank"
        if kind != "blank":
            found.append(Lexeme(kind, match.group(), at))
        at = match.end()
    return found


def lexeme_at(text: str, place: int) -> Optional[Lexeme]:
    """The lexeme that begins at a place, if one does."""
    match = PATTERN.match(text, place)
    if not match or match.lastgroup in (None, "blank"):
        return None
    return Lexeme(match.lastgroup or "", match.group(), place)


def same_spelling(canonical: str, written: str) -> bool:
    """Whether a lexeme is the canonical spelling of one that was written: of a number only the value is kept."""
    return canonical == written or number_value(canonical) is not None and \
        number_value(canonical) == number_value(written)


def number_value(text: str) -> Optional[int]:
    """What a number or a decimal stands for, in thousandths."""
    if re.fullmatch(r"[+-]?[0-9]+", text):
        return int(text) * 1000
    if re.fullmatch(r"[+-]?inf", text):
        return -10 ** 9 if text.startswith("-") else 10 ** 9
    if re.fullmatch(r"[+-]?[0-9]+\.[0-9]+", text):
        whole, _, part = text.lstrip("+-").partition(".")
        return (-1 if text.startswith("-") else 1) * (int(whole) * 1000 + int((part + "000")[:3]))
    return None
