"""Answers a command line by the program as it is, without its proofs: the kit's `rt try` compiles and runs it.

The program then runs in a folder of its own. A file whose name is a plain path below the folder of the call is put
there under the same name, with all that it includes. Of any other file the program gets the absolute path, and where
its line about a fault has that path, the name that was given is put back. So words, output and status are those of
the proved program; what can't be handed over so is refused.
"""
import os
import re
import subprocess
import sys

import program

# The commands that ask for files, with how many they take.
FILES = {"plan": 1, "script": 1, "show": 1, "check": 2}
WITH_INCLUDES = ("plan", "script", "check")
OPTIONS = ("--steps", "--tokens")
# The names that the run keeps for itself in its folder.
TAKEN = ("program", "stdin", "stdout", "stderr")
# The files whose contents are built in, so that they are never looked for.
BUILT_IN = ("Plasma.nddl", "PlannerConfig.nddl")
# The greatest length of a file that is read for its includes, and of a standard input that can be handed over.
MOST_BYTES, MOST_INPUT = 1_048_576, 64 << 20
# How long the program may run once it is compiled, in seconds.
SECONDS = 1800
# What compiling takes, in GB, with the check that the kit makes beside it.
MEMORY = 7
# The program's status where a write to standard output fails.
WRITE_FAILED = 21
INCLUDE = re.compile(rb'//[^\n]*|/\*.*?\*/|#include(?:\s|//[^\n]*\n|/\*.*?\*/)*"([^"\n]*)"|"[^"\n]*"', re.S)
ENDED = re.compile(rb"^run=ended status=(\d+) ", re.M)
FAULT = re.compile(rb"text (\S+) (.*) (\d+)\n", re.S)


class Refused(Exception):
    """What can't be handed over to the program, or back from it, in a sentence."""


def operands(words):
    """The words of a command line that are no options."""
    found, rest = [], iter(words[1:])
    for word in rest:
        if word == "--":
            found += rest
        elif word in OPTIONS:
            next(rest, None)
        elif word == "-" or not word.startswith("-"):
            found.append(word)
    return found


def asks_for(words):
    """The files that the words ask for; none where their number shows that they are no command line."""
    found = operands(words) if words and words[0] in FILES else []
    return found if found and len(found) == FILES[words[0]] and all(found) else []


def is_plain(name):
    """Whether a file can have this name in the folder of the run."""
    first = os.path.normpath(name).split("/")[0]
    return not (os.path.isabs(name) or ".." in name.split("/") or "=" in name or first in TAKEN)


def includes_in(text):
    """The names behind each #include of a text, as they are written."""
    found = [match[1] for match in INCLUDE.finditer(text) if match[1] is not None]
    names = []
    for name in found:
        try:
            names.append(name.decode())
        except UnicodeDecodeError:
            # (the program finds no such file either)
            pass
    return [name for name in names if name not in BUILT_IN]


class HandOver:
    """The words as the program gets them, and the files that are put beside it."""

    def __init__(self, words):
        self.words, self.data, self.given = list(words), {}, {}
        for place, name in enumerate(asks_for(words)):
            follows = place == 0 and words[0] in WITH_INCLUDES
            self.add_file(name, follows)

    def add_file(self, name, follows):
        if os.path.exists(name) and not os.path.isfile(name) and not os.path.isdir(name):
            raise Refused(f"{name} is neither a file nor a folder, and only ./prove makes a program that reads it")
        if is_plain(name) and is_readable(name):
            self.data[name] = os.path.abspath(name)
        elif not os.path.isabs(name):
            self.rename(name)
        if follows and is_readable(name):
            self.follow(name)

    def rename(self, name):
        path = os.path.join(os.getcwd(), name)
        self.given[path] = name
        self.words = [path if word == name else word for word in self.words]

    def follow(self, first):
        """Hands over all files that this one includes, directly or by others."""
        seen, left = {first}, [first]
        while left:
            for name in includes_of(left.pop()):
                if name not in seen:
                    seen.add(name)
                    self.add_include(name)
                    left += [name] * is_readable(name)

    def add_include(self, name):
        if os.path.isabs(name):
            if name in self.given:
                raise Refused(f"the included file {name} was named otherwise in the words, and only ./prove makes a program that tells the two apart")
        elif not is_plain(name):
            raise Refused(f"the included file {name} can't be handed over to the unproved program; ./prove makes one that reads it")
        elif is_readable(name):
            self.data[name] = os.path.abspath(name)
        elif os.path.lexists(name):
            raise Refused(f"the included file {name} can't be read, and only ./prove makes a program that says so itself")

    def put_back(self, output):
        """The output with the names that were given."""
        fault = FAULT.fullmatch(output)
        name = self.given.get(os.fsdecode(fault[2])) if fault else None
        return output if name is None else b"text %s %s %s\n" % (fault[1], os.fsencode(name), fault[3])


def is_readable(name):
    return os.path.isfile(name) and os.access(name, os.R_OK)


def includes_of(name):
    with open(name, "rb") as file:
        text = file.read(MOST_BYTES + 1)
    return includes_in(text) if len(text) <= MOST_BYTES else []


def input_of(words):
    """What standard input gives to its end, where the words ask for it."""
    if not words or words[0] != "script" or not asks_for(words) or sys.stdin is None:
        return b""
    if sys.stdin.isatty():
        print("europa: without proofs all lines are answered together, behind the last one (Ctrl-D)", file=sys.stderr)
    given = sys.stdin.buffer.read(MOST_INPUT + 1)
    if len(given) > MOST_INPUT:
        raise Refused(f"a standard input of more than {MOST_INPUT:,} bytes can't be handed over to the unproved program; ./prove makes one that reads it")
    return given


def is_text(words):
    """Whether all words are UTF-8. The program takes others as it takes none at all."""
    try:
        "".join(words).encode()
    except UnicodeEncodeError:
        return False
    return True


def run(hand, given):
    """Compiles and runs the program, and gives its output and its status."""
    data = [word for name, path in hand.data.items() for word in ("--data", f"{name}={path}")]
    command = ["rt", "try", "--seconds", str(SECONDS), *data, "--", *hand.words]
    tool = subprocess.Popen(command, cwd=program.FOLDER, stdin=subprocess.PIPE, stdout=subprocess.PIPE, stderr=subprocess.PIPE)
    try:
        output, said = tool.communicate(given)
    except BaseException:
        tool.terminate()
        tool.wait()
        raise
    ended = ENDED.search(said)
    if not ended:
        raise Refused(f"the unproved program gave no answer:\n{said.decode(errors='replace').strip()}")
    return hand.put_back(output), int(ended[1])


def answer(words):
    """Prints what the program prints, and gives its status; 1 where it can't be had, with a sentence on what is wanting."""
    try:
        lacking = what_lacks()
        if lacking:
            raise Refused(lacking)
        words = words if is_text(words) else []
        hand = HandOver(words)
        given = input_of(words)
        tell_of_proofs()
        output, status = run(hand, given)
    except Refused as why:
        print(f"europa: {why}", file=sys.stderr)
        return 1
    return status if is_written(output) else WRITE_FAILED


def is_written(output):
    """Writes the output, and gives whether all of it was taken."""
    try:
        sys.stdout.buffer.write(output)
        sys.stdout.buffer.flush()
    except OSError:
        # (so that nothing is written once more as this process ends)
        os.dup2(os.open(os.devnull, os.O_WRONLY), sys.stdout.fileno())
        return False
    return True


def what_lacks():
    """Says what this machine lacks to compile the program, or None."""
    if program.kit() is None:
        return "the command rt of the Rattle kit is not on the PATH; README.md says which kit"
    free = program.free_memory()
    if free < MEMORY:
        return f"compiling the program takes {MEMORY} GB of memory, and {free:.1f} GB are free"
    return None


def tell_of_proofs():
    state = "has changed since it was proved" if os.path.exists(program.PROVED) else "isn't proved here yet"
    minutes = program.minutes_to_prove()
    print(f"europa: the program {state}, so this answer comes without proofs, in some three minutes; ./prove makes one that answers at once, in some {minutes:.0f} minutes", file=sys.stderr)
