"""Asking europa: one run for one answer, and a dialogue of lines and replies.

europa's words are passed as a list and never through a shell, so a name of a file is whatever its bytes are. The
program runs in a session of its own: Ctrl-C at the terminal reaches desk alone, which then ends what it started.
"""
import os
import signal
import subprocess
from dataclasses import dataclass
from typing import IO, Callable, List, Optional

from .plain import plain

# The statuses of europa, by what they mean.
DONE, USAGE, FAULT, INVALID, TOO_MANY_LINES = 0, 2, 3, 5, 6
EXHAUSTED, BUDGET, READ_FAILED, WRITE_FAILED, NO_MEMORY = 10, 11, 20, 21, 30
# And two of desk's own: europa couldn't be run or broke off, and Ctrl-C.
BROKEN, INTERRUPTED = 1, 130

MEANINGS = {
    USAGE: "it took the words for no command line",
    TOO_MANY_LINES: "the session has more lines than europa reads in one, which is 1,000,000",
    READ_FAILED: "a file couldn't be read; a folder can't be read as one",
    WRITE_FAILED: "its answer couldn't be written",
    NO_MEMORY: "memory ran out",
}

# First words of replies that are followed by as many lines as the number behind them says.
COUNTED = ("tokens", "decisions", "conflict", "cycle")


class EuropaFault(Exception):
    """europa couldn't be run, ended in the middle, or answered what nobody understands; with the status for it."""

    def __init__(self, sentence: str, status: int = BROKEN):
        super().__init__(sentence)
        self.status = status


class TextFault(Exception):
    """europa printed the line of a fault in a text in place of an answer."""

    def __init__(self, line: str):
        super().__init__(line)
        self.line = line


@dataclass
class Answer:
    """What a run of europa printed, and its status."""
    text: str
    status: int

    def lines(self) -> List[str]:
        return self.text.splitlines()


@dataclass
class Reply:
    """The lines with which europa answered one line of a script."""
    lines: List[str]

    @property
    def first(self) -> str:
        return self.lines[0]

    @property
    def rest(self) -> List[str]:
        return self.lines[1:]


def how_it_ended(status: int) -> str:
    """How a run of europa ended that gave no whole answer, as the rest of a sentence."""
    if status < 0:
        return f"it was ended by signal {-status}"
    meaning = MEANINGS.get(status)
    return f"status {status}: {meaning}" if meaning else f"status {status}"


def stop(process: "subprocess.Popen[bytes]") -> None:
    """Ends a program that desk started, with all that it started itself."""
    try:
        os.killpg(process.pid, signal.SIGKILL)
    except (ProcessLookupError, PermissionError):
        pass
    process.wait()
    for stream in (process.stdin, process.stdout):
        if stream:
            try:
                stream.close()
            except OSError:
                pass


class Europa:
    """The program that is asked."""

    def __init__(self, program: str):
        self.program = program

    def start(self, words: List[str], source: Optional[int] = None) -> "subprocess.Popen[bytes]":
        """Starts europa with these words, reading from `source` or from nothing."""
        try:
            return subprocess.Popen([self.program, *words], stdin=subprocess.DEVNULL if source is None else source,
                                    stdout=subprocess.PIPE, start_new_session=True)
        except (OSError, ValueError) as fault:
            raise EuropaFault(f"europa can't be run as {plain(self.program)}: {plain(str(fault))}") from None

    def ask(self, words: List[str], waiting: Optional[Callable[["subprocess.Popen[bytes]"], bytes]] = None) -> Answer:
        """Runs europa once. `waiting` may collect what it prints, and tell of the progress meanwhile."""
        process = self.start(words)
        try:
            output = waiting(process) if waiting else process.communicate()[0]
            status = process.wait()
        finally:
            stop(process)
        answer = Answer(os.fsdecode(output), status)
        if status in (READ_FAILED, WRITE_FAILED, NO_MEMORY, USAGE) or status < 0 or not answer.text and status != DONE:
            raise EuropaFault(f"europa gave no answer ({how_it_ended(status)})", status if status > 0 else BROKEN)
        if status == FAULT:
            raise TextFault(answer.text)
        return answer


class Dialogue:
    """A running `script`: a line goes out, and its reply comes in before the next one goes out."""

    def __init__(self, europa: Europa, file: str, heard: Optional[Callable[[str, Reply], None]] = None):
        self.heard = heard
        self.process = europa.start(["script", "--", file], subprocess.PIPE)
        try:
            self.given = self.ask_first().rest
        except BaseException:
            self.close()
            raise

    def close(self) -> None:
        stop(self.process)

    def ask_first(self) -> Reply:
        """The reply to the first line, `decisions`: those of the text. In its place a fault of the text may come."""
        reply = self.ask("decisions")
        if reply.first.startswith("text "):
            raise TextFault("\n".join(reply.lines) + "\n" + os.fsdecode(self.output().read()))
        return reply

    def ask(self, line: str) -> Reply:
        """The reply to a line that has one: it has words, it has no line feed, and isn't `quit`."""
        sink = self.process.stdin
        try:
            assert sink
            sink.write(os.fsencode(line) + b"\n")
            sink.flush()
        except (OSError, ValueError):
            pass  # That it has ended is told by the reply that doesn't come, or by the fault that it printed.
        reply = self.read_reply()
        if self.heard:
            self.heard(line, reply)
        return reply

    def read_reply(self) -> Reply:
        """Reads the lines of one reply: how many these are follows from the first."""
        lines = [self.read_line()]
        words = lines[0].split()
        number = int(words[1]) if len(words) == 2 and words[1].isdecimal() else -1
        if number >= 0 and words[0] in COUNTED:
            lines += [self.read_line() for _ in range(number)]
        elif number >= 0 and words[0] == "found":
            while lines[-1] != "end":
                lines.append(self.read_line())
        return Reply(lines)

    def output(self) -> IO[bytes]:
        assert self.process.stdout
        return self.process.stdout

    def read_line(self) -> str:
        line = self.output().readline()
        if not line.endswith(b"\n"):
            stop(self.process)
            status = self.process.returncode
            raise EuropaFault(f"europa ended in the middle of the session ({how_it_ended(status)})",
                              status if status > 0 else BROKEN)
        return os.fsdecode(line[:-1])
