"""Searching for a plan: europa's answer on standard output, and on standard error how it goes and what it means."""
import os
import select
import subprocess
import sys
import time
from typing import List, Optional

from .europa import BUDGET, EXHAUSTED, Answer, Dialogue, Europa
from .plain import counted, plain_line
from .plans import read_plan

# How often progress is told, in seconds: at a terminal in place, else as further lines.
AT_TERMINAL, ELSEWHERE = 1.0, 15.0


class Progress:
    """Tells on standard error how long the search has taken."""

    def __init__(self) -> None:
        self.began = time.monotonic()
        self.in_place = sys.stderr.isatty()
        self.told = False

    def collect(self, process: "subprocess.Popen[bytes]") -> bytes:
        """All that a program prints, with the progress told until it has ended."""
        assert process.stdout
        pieces: List[bytes] = []
        while True:
            ready, _, _ = select.select([process.stdout], [], [], AT_TERMINAL if self.in_place else ELSEWHERE)
            if not ready:
                self.tell()
                continue
            piece = os.read(process.stdout.fileno(), 1 << 16)
            if not piece:
                break
            pieces.append(piece)
        self.clear()
        return b"".join(pieces)

    def tell(self) -> None:
        words = f"searching, {counted(int(time.monotonic() - self.began), 'second')}"
        sys.stderr.write(f"\r{words}" if self.in_place else words + "\n")
        sys.stderr.flush()
        self.told = True

    def clear(self) -> None:
        if self.told and self.in_place:
            sys.stderr.write("\r\033[K")
            sys.stderr.flush()


def say(sentence: str) -> None:
    sys.stderr.write(plain_line(sentence) + "\n")


def tell_found(answer: Answer) -> None:
    plan = read_plan(answer.text)
    active = plan.active()
    merged = sum(token.state == "merged" for token in plan.tokens.values())
    ends = f", from {min(token.start for token in active)} to {max(token.end for token in active)}" if active else ""
    say(f"found in {counted(plan.visits or 0, 'visit')}: {counted(len(active), 'token')} taking place, {merged} merged"
        f"{ends}")


def tell_exhausted(europa: Europa, file: str, called: str, answer: Answer, tokens: Optional[int]) -> None:
    words = answer.text.split()
    if words[2:] == ["bound"]:
        say(f"no valid plan with {tokens if tokens is not None else 512} tokens at most has what the decisions of "
            f"{called} say; --tokens may allow more, up to 512")
        return
    say(f"no valid plan has what the decisions of {called} say")
    dialogue = Dialogue(europa, file)
    try:
        reply = dialogue.ask("why")
    finally:
        dialogue.close()
    if reply.first.startswith("conflict ") and reply.rest:
        say("these decisions can't all stand, and none of them can go:")
        for line in reply.rest:
            say(f"  {line}")
    elif reply.first.startswith("conflict "):
        say("no decision is to blame: the problem alone leaves nothing possible")


def tell_budget(called: str, answer: Answer) -> None:
    visits = int(answer.text.split()[1])
    say(f"the search made {counted(visits, 'visit')}, as many as it may, and needs more. What else to try:")
    if visits < 1_000_000:
        say(f"  --steps {min(1_000_000, visits * 10)} searches longer")
    say(f"  `desk edit {called}`: decide there what is known already, and then `solve`")
    say("  narrower types and times in the file leave less to try")


def search(europa: Europa, file: str, called: str, steps: Optional[int], tokens: Optional[int]) -> int:
    """Searches, prints what europa prints, and says what it means; the status is europa's."""
    words = ["plan"]
    words += [f"--steps={steps}"] if steps is not None else []
    words += [f"--tokens={tokens}"] if tokens is not None else []
    answer = europa.ask(words + ["--", file], Progress().collect)
    sys.stdout.write(answer.text)
    sys.stdout.flush()
    if answer.status == EXHAUSTED:
        tell_exhausted(europa, file, called, answer, tokens)
    elif answer.status == BUDGET:
        tell_budget(called, answer)
    else:
        tell_found(answer)
    return answer.status
