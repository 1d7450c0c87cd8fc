"""Files that desk writes. It writes over a file only where that is one of the same sort."""
import os
from typing import Callable

from .plain import plain
from .words import DECISIONS, FURTHER_DECISIONS


class NotWritten(Exception):
    """Why a file wasn't written."""


def is_page(text: str) -> bool:
    return text.startswith("<!DOCTYPE html>")


def is_saved(text: str) -> bool:
    """Whether a text has decisions alone, with comments."""
    lines = [line.split("#")[0].split() for line in text.splitlines()]
    return all(words[0] in DECISIONS + FURTHER_DECISIONS for words in lines if words)


def is_plan(text: str) -> bool:
    return text.startswith(("plan\n", "found "))


def write(path: str, text: str, is_of_sort: Callable[[str], bool]) -> None:
    """Writes a text into a file, as a whole or not at all."""
    try:
        if os.path.exists(path):
            with open(path, encoding="utf-8", errors="surrogateescape") as opened:
                if not is_of_sort(opened.read()):
                    raise NotWritten(f"`{plain(path)}` is there and has something else in it, so it isn't written over")
        beside = f"{path}.desk-{os.getpid()}"
        try:
            with open(beside, "w", encoding="utf-8", errors="surrogateescape") as opened:
                opened.write(text)
            os.replace(beside, path)
        finally:
            if os.path.exists(beside):
                os.unlink(beside)
    except (OSError, ValueError) as fault:
        raise NotWritten(f"`{plain(path)}` can't be written: {plain(str(fault))}") from None
