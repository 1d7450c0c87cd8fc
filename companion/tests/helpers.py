"""What the tests share: where europa is, running desk, and folders with files."""
import os
import stat
import subprocess
import sys
import tempfile
import unittest
from dataclasses import dataclass
from typing import Dict, List, Optional, Union

COMPANION = os.path.dirname(os.path.dirname(os.path.realpath(__file__)))
TOP = os.path.dirname(COMPANION)
DESK = os.path.join(TOP, "desk")
EXAMPLES = os.path.join(TOP, "examples")
NAMES = ("crew", "first", "ordered", "rover", "satellite", "telescope")
BUILT = os.path.join(TOP, "out", "europa")
EUROPA = os.environ.get("EUROPA") or (BUILT if os.path.exists(BUILT) else "")

needs_europa = unittest.skipUnless(EUROPA, "europa isn't built, and EUROPA names no other program")


@dataclass
class Ran:
    """What a run of desk printed, and its status."""
    status: int
    out: str
    err: str

    @property
    def first(self) -> str:
        return self.out.split("\n")[0]


def environment(europa: Optional[str] = None) -> Dict[str, str]:
    return {**os.environ, "EUROPA": europa or EUROPA, "COLUMNS": "100", "PYTHONDONTWRITEBYTECODE": "1"}


def desk(*words: Union[str, bytes], given: Union[str, bytes] = "", cwd: str = TOP, europa: Optional[str] = None) -> Ran:
    """Runs desk on words, with something on standard input."""
    data = given.encode("utf-8", "surrogateescape") if isinstance(given, str) else given
    ran = subprocess.run([sys.executable, DESK, *words], input=data, stdout=subprocess.PIPE, stderr=subprocess.PIPE,
                         cwd=cwd, env=environment(europa), timeout=120, check=False)
    return Ran(ran.returncode, ran.stdout.decode("utf-8", "replace"), ran.stderr.decode("utf-8", "replace"))


def ask_europa(*words: str, cwd: str = TOP) -> Ran:
    ran = subprocess.run([EUROPA, *words], stdin=subprocess.DEVNULL, stdout=subprocess.PIPE, cwd=cwd, check=False)
    return Ran(ran.returncode, ran.stdout.decode(), "")


def example(name: str) -> str:
    return os.path.join("examples", f"{name}.nddl")


class InFolder(unittest.TestCase):
    """Tests with a folder of their own, which goes afterwards."""

    def setUp(self) -> None:
        folder = tempfile.TemporaryDirectory()
        self.addCleanup(folder.cleanup)
        self.folder = folder.name

    def path(self, name: str) -> str:
        return os.path.join(self.folder, name)

    def put(self, name: str, text: Union[str, bytes]) -> str:
        """Writes a file of the folder, and gives its name."""
        with open(self.path(name), "wb") as opened:
            opened.write(text.encode() if isinstance(text, str) else text)
        return name

    def read(self, name: str) -> str:
        with open(self.path(name), encoding="utf-8") as opened:
            return opened.read()

    def desk(self, *words: Union[str, bytes], given: Union[str, bytes] = "", europa: Optional[str] = None) -> Ran:
        return desk(*words, given=given, cwd=self.folder, europa=europa)

    def program(self, lines: List[str]) -> str:
        """A program that stands in for europa, in Python, and its path."""
        path = self.path("fake_europa")
        with open(path, "w", encoding="utf-8") as opened:
            opened.write("\n".join([f"#!{sys.executable}", "import os, sys, time", *lines]) + "\n")
        os.chmod(path, os.stat(path).st_mode | stat.S_IXUSR)
        return path


def table_words(page: str, heading: str, column: int = 0) -> List[str]:
    """The words in code quotes that stand in a column of the table behind a heading of a page in docs/."""
    with open(os.path.join(TOP, "docs", page), encoding="utf-8") as opened:
        text = opened.read().split(heading, 1)[1]
    rows: List[str] = []
    for line in text.split("\n"):
        if line.startswith("|"):
            rows.append(line.split("|")[1 + column])
        elif rows:
            break
    return [word for row in rows[2:] for word in (row.split("`")[1::2] or [row.strip()])]
