"""Text that may safely be shown at a terminal, and tables of it.

Names of files, and what a faulty text has in it, are whatever their writers put there. Nothing of that may reach a
terminal as a command to it, so whatever is shown goes through `plain`.
"""
import unicodedata
from typing import List, Sequence

# Categories of characters that steer a terminal or hide what stands there: controls, formats such as the marks that
# turn the direction of writing, bytes that are no text, private use, unassigned, and separators of lines.
STEERING = ("Cc", "Cf", "Cs", "Co", "Cn", "Zl", "Zp")
TAB = "    "


def plain_character(character: str) -> str:
    """The character, or an escape that shows which one it is."""
    if unicodedata.category(character) not in STEERING:
        return character
    code = ord(character)
    if 0xDC80 <= code <= 0xDCFF:
        code -= 0xDC00
    if code < 0x100:
        return f"\\x{code:02x}"
    return f"\\u{code:04x}" if code < 0x10000 else f"\\U{code:08x}"


def plain(text: str) -> str:
    """The text on one line, with each character that steers a terminal as an escape."""
    if text.isascii() and text.isprintable():
        return text
    return "".join(map(plain_character, text))


def plain_line(text: str) -> str:
    """A line of a source as it is shown: tabs become blanks, so that a caret can stand under what it means."""
    return plain(text.replace("\t", TAB))


def width(text: str) -> int:
    """How many columns a plain text takes."""
    if text.isascii():
        return len(text)
    return sum(0 if unicodedata.combining(character) else
               2 if unicodedata.east_asian_width(character) in "WF" else 1 for character in text)


def padded(text: str, columns: int) -> str:
    """The text with blanks behind it up to so many columns."""
    return text + " " * (columns - width(text))


def table(rows: Sequence[Sequence[str]], indent: str = "  ") -> List[str]:
    """The rows as lines in which columns stand under one another."""
    if not rows:
        return []
    count = max(map(len, rows))
    widths = [max([width(row[at]) for row in rows if at < len(row)] or [0]) for at in range(count)]
    return [(indent + "  ".join(padded(cell, columns) for cell, columns in zip(row, widths))).rstrip() for row in rows]


def counted(number: int, thing: str, things: str = "") -> str:
    """A number with its noun: 1 token, 2 tokens."""
    return f"{number:,} {thing if number == 1 else things or thing + 's'}"
