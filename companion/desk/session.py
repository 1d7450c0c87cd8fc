"""A session over a problem: lines of the planner, answered in sentences, tables and drawings.

Each line goes to europa, with its names spelled as europa does, and what europa answers is told. What desk adds are
questions that the planner would type next: the conflict behind `inconsistent`, the word that is unknown.
"""
import shutil
from typing import Callable, Dict, List, Optional

from . import characters, page, tables
from .chart import Chart, build
from .commands import help_lines
from .constants import Constants, ask_constants
from .europa import Dialogue, Europa, Reply
from .names import Aliases
from .plain import counted, plain
from .problem import Problem
from .refusals import explain_refusal
from .sources import Sources
from .state import State
from .steps import Steps, begin_again, same_front, take_back
from .written import NotWritten, is_page, is_plan, is_saved, write

SOLVE = ["1000", "512"]
Say = Callable[[str], None]


def words_of(line: str) -> List[str]:
    """The words of a line without its comment, which begins with `#` at the front of a word."""
    words: List[str] = []
    for word in line.split():
        if word.startswith("#"):
            break
        words.append(word)
    return words


class Session:
    """A problem that is edited. `say` takes each line that is told."""

    def __init__(self, europa: Europa, sources: Sources, problem: Problem, aliases: Aliases, say: Say):
        self.europa, self.sources, self.problem, self.say = europa, sources, problem, say
        self.raw = False
        self.known_constants: Optional[Constants] = None
        self.dialogue = Dialogue(europa, sources.first, self.heard)
        self.state = State(self.dialogue, aliases)
        self.steps = Steps(self.dialogue.given)
        self.own: Dict[str, Callable[[List[str]], None]] = {
            "help": self.help, "show": self.show, "draw": self.draw, "undo": self.undo, "save": self.save,
            "load": self.load, "solve": self.solve, "plan": self.plan, "raw": self.switch_raw, "tokens": self.tokens}

    def close(self) -> None:
        self.dialogue.close()

    def heard(self, line: str, reply: Reply) -> None:
        """Shows the protocol beside what is told of it."""
        if self.raw:
            self.say(plain(f"> {line}"))
            for answered in reply.lines:
                self.say(plain(f"< {answered}"))

    def begin(self) -> None:
        """What is told first: how much there is, and the conflict where nothing is possible."""
        self.state.refresh()
        given = len(self.dialogue.given)
        self.say(f"{counted(len(self.state.tokens), 'token')}, {counted(given, 'decision')} of the text. "
                 "`help` lists what can be typed.")
        if not self.state.is_possible:
            self.tell_conflict()

    def answer(self, line: str) -> bool:
        """Answers a line of the planner; false ends the session."""
        words = words_of(line)
        if not words:
            return True
        if words == ["quit"]:
            return False
        self.state.refresh()
        try:
            own = self.own.get(words[0])
            if own:
                own(words[1:])
            else:
                self.pass_on(words)
        except NotWritten as fault:
            self.say(str(fault))
        return True

    def interrupted(self) -> None:
        """Begins again with the same steps, since europa was broken off in the middle of an answer."""
        self.dialogue.close()
        self.dialogue = Dialogue(self.europa, self.sources.first, self.heard)
        begin_again(self.dialogue, self.steps)
        self.state.dialogue, self.state.is_fresh = self.dialogue, False

    def ask(self, line: str) -> Reply:
        """Asks europa, and takes in what that changes."""
        reply = self.dialogue.ask(line)
        before = len(self.steps.made)
        self.steps.note(line, reply)
        if len(self.steps.made) != before:
            self.state.is_fresh = False
        return reply

    def meant(self, words: List[str]) -> List[str]:
        """The words of a command, with names spelled as europa does."""
        self.state.refresh()
        return words[:1] + list(map(self.state.aliases.meant, words[1:]))

    def pass_on(self, words: List[str]) -> None:
        """A command of europa: its names are spelled as europa does, and its reply is told."""
        meant = self.meant(words)
        self.tell(meant, self.ask(" ".join(meant)))

    def tell(self, words: List[str], reply: Reply) -> None:
        """Tells a reply to a line of these words, as europa spells them."""
        self.state.refresh()
        first = reply.first.split()
        if reply.first == "inconsistent":
            self.tell_conflict()
        elif first[:1] == ["refused"]:
            self.say(f"refused: {explain_refusal(first[-1], self.state, words)}")
        else:
            for line in tables.reply(reply, self.state):
                self.say(line)

    def tell_conflict(self) -> None:
        """Which decisions leave nothing possible, and that there is a round of times, if there is."""
        reply = self.dialogue.ask("why")
        self.say("inconsistent: nothing is possible with the decisions that stand")
        for line in tables.reply(reply, self.state):
            self.say(line)
        if self.dialogue.ask("cycle").first not in ("cycle 0", "refused consistent"):
            self.say("  `cycle` shows the times that can't be, `undo` takes the last step back")

    def help(self, words: List[str]) -> None:
        for line in help_lines(words[0] if words else ""):
            self.say(line)

    def tokens(self, words: List[str]) -> None:
        if words:
            self.pass_on(["tokens", *words])
        elif not self.state.is_possible:
            self.tell_conflict()
        else:
            for line in tables.tokens(self.state, list(self.state.tokens)):
                self.say(line)

    def show(self, words: List[str]) -> None:
        """All that there is, a token, what is on an object, or a variable."""
        if not self.state.is_possible:
            self.tell_conflict()
            return
        for line in tables.overview(self.state) if not words else self.shown(words[0]):
            self.say(line)

    def shown(self, word: str) -> List[str]:
        name = self.state.aliases.meant(word)
        if name in self.state.tokens:
            return tables.token(self.state, name)
        if self.problem.object(name):
            return tables.thing(self.state, name)
        domain = self.state.domain(name)
        return [f"{plain(word)}  {domain}"] if domain else [
            explain_refusal("unknown", self.state, ["show", name]).replace("no token", "no token, object or variable")]

    def undo(self, words: List[str]) -> None:
        """Takes steps back: one, some, or those of the last search."""
        count = self.steps_meant(words)
        if count is None:
            return
        replies = take_back(self.ask, count)
        if len(replies) > 1 or len(replies) < count:
            self.say(f"{counted(len(replies), 'step')} taken back")
        self.tell(["undo"], replies[-1])

    def steps_meant(self, words: List[str]) -> Optional[int]:
        """How many steps an `undo` with these words takes back, or none where that is told already."""
        if not words:
            return 1
        if words == ["solve"]:
            behind, count = self.steps.behind_search(), self.steps.of_search()
            if not count:
                self.say("refused: no search of this session has decided anything that stands")
            elif behind:
                self.say(f"refused: {counted(behind, 'step')} behind the search would go too; "
                         f"`undo {behind + count}` takes them back with it")
            return count if count and not behind else None
        if len(words) == 1 and words[0].isdecimal() and 0 < int(words[0]) <= 1_000_000:
            return int(words[0])
        self.pass_on(["undo", *words])
        return None

    def solve(self, words: List[str]) -> None:
        """Searches, and takes in what the search has decided."""
        before = len(self.state.decisions())
        meant = ["solve", *(words or SOLVE)]
        reply = self.dialogue.ask(" ".join(meant))
        if reply.first.startswith("found "):
            decisions = self.state.decisions()
            self.steps.note_search(decisions[before:])
            self.state.is_fresh = False
            self.tell(meant, reply)
            self.say(f"  The search made {counted(len(decisions) - before, 'decision')}; `draw` shows the plan, and "
                     "`undo solve` takes them back.")
        else:
            self.tell(meant, reply)

    def plan(self, words: List[str]) -> None:
        """The text of the plan, where nothing is open: a search of one visit finds it and decides nothing."""
        reply = self.dialogue.ask("flaws")
        if reply.first != "flaw none":
            self.tell(["flaws"], reply)
            self.say("  So there is no plan yet; `solve` searches for one.")
            return
        text = "\n".join(self.dialogue.ask("solve 1 512").rest) + "\n"
        if words:
            write(words[0], text, is_plan)
            self.say(f"the plan is in {plain(words[0])}")
        else:
            for line in text.splitlines():
                self.say(line)

    def save(self, words: List[str]) -> None:
        if len(words) != 1:
            self.say("that is typed as `save FILE`")
            return
        decisions = self.state.decisions()
        write(words[0], "".join(line + "\n" for line in decisions), is_saved)
        self.say(f"{counted(len(decisions), 'decision')} in {plain(words[0])}; `load` goes on from there")

    def load(self, words: List[str]) -> None:
        """Takes the decisions of a file in place of those that stand."""
        if len(words) != 1:
            self.say("that is typed as `load FILE`")
            return
        try:
            with open(words[0], encoding="utf-8", errors="surrogateescape") as opened:
                lines = [" ".join(words_of(line)) for line in opened]
        except (OSError, ValueError) as fault:
            self.say(f"`{plain(words[0])}` can't be read: {plain(str(fault))}")
            return
        self.go_on_from([line for line in lines if line], words[0])

    def go_on_from(self, lines: List[str], file: str) -> None:
        if not is_saved("\n".join(lines)):
            self.say(f"`{plain(file)}` has something else in it than decisions, so nothing is taken from it")
            return
        standing = [step.line for step in self.steps.made]
        front = same_front(standing, lines)
        take_back(self.ask, len(standing) - front)
        for number, line in enumerate(lines[front:], front + 1):
            meant = self.meant(line.split())
            reply = self.ask(" ".join(meant))
            if reply.first != "ok":
                self.say(f"decision {number} of {len(lines)}, `{plain(line)}`:")
                self.tell(meant, reply)
            if reply.first.startswith("refused"):
                return
        self.say(f"{counted(len(lines), 'decision')} from {plain(file)}")

    def switch_raw(self, words: List[str]) -> None:
        if words not in (["on"], ["off"]):
            self.say("that is typed as `raw on` or `raw off`")
            return
        self.raw = words == ["on"]

    def constants(self) -> Constants:
        if not self.known_constants:
            self.known_constants = ask_constants(self.europa, self.sources, self.problem)
        return self.known_constants

    def chart(self) -> Chart:
        """What is drawn of the state; levels only where europa says that nothing is open."""
        is_settled = self.dialogue.ask("flaws").first == "flaw none"
        return build(self.problem, self.state.bars(), self.constants(), is_settled)

    def draw(self, words: List[str]) -> None:
        """Draws the tokens that take place: here, or as a page."""
        if not self.state.is_possible:
            self.tell_conflict()
            return
        chart = self.chart()
        if words:
            said = (True, [f"{counted(len(chart.bars), 'token')}, {counted(len(self.state.decisions()), 'decision')}"])
            write(words[0], page.draw(chart, f"{self.sources.called(self.sources.first)}, as it is edited", said, []),
                  is_page)
            self.say(f"the page is in {plain(words[0])}")
            return
        for line in characters.draw(chart, shutil.get_terminal_size((100, 24)).columns):
            self.say(line)
