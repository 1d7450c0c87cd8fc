"""One run of tools/hostile: what stands in its folder, its words and its input."""
import re

# Two ways to give a standard input that can't be read.
FOLDER, WRITTEN = "a folder", "a file that is open for writing alone"


class Case:
    """A run: its words, the files in its folder by name, folders and links there, and its input: bytes, FOLDER or WRITTEN.

    `before` has the words of a run whose output, changed by `change`, becomes the file `made` first. `wanted` is a form that
    the whole output has to have, and `same` says that it has to be that of the run before.
    """

    def __init__(self, kind, words, files=(), given=b"", wanted=None):
        self.kind, self.words, self.files, self.given = kind, words, dict(files), given
        self.folders, self.links, self.before, self.made, self.change, self.same = [], {}, [], b"", None, False
        self.wanted = wanted and re.compile(wanted, re.S)


def words_of(chance, command, name, plan=b"p.txt"):
    """A command line with these files, and with options in some place."""
    options = []
    if command == b"plan":
        steps = b"%d" % chance.choice([1, 5, 20, 40])
        options = chance.choice([[b"--steps", steps], [b"--steps=" + steps], [b"--steps", b"000" + steps]])
        options += chance.choice([[], [], [b"--tokens", b"%d" % chance.randrange(30)], [b"--tokens=512"]])
    operands = [name, plan] if command == b"check" else [name]
    if any(it.startswith(b"-") and it != b"-" for it in operands) or chance.randrange(8) == 0:
        return [command, *options, b"--", *operands]
    return [command, *options, *operands] if chance.randrange(2) else [command, *operands, *options]
