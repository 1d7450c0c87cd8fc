"""A session at a terminal: a prompt, editing of lines, history and completion. Elsewhere lines are just read."""
import glob
import os
import sys
from typing import Iterable, List, Optional

from .commands import COMMANDS
from .session import Session, words_of
from .words import POSTED, RELATIONS

try:
    import readline
except ImportError:  # A Python without it still has sessions.
    readline = None  # type: ignore[assignment]

KEPT = 1000


def history_file() -> str:
    """Where lines that were typed are kept from session to session."""
    home = os.environ.get("XDG_STATE_HOME") or os.path.join(os.path.expanduser("~"), ".local", "state")
    return os.path.join(home, "europa-desk", "history")


class Completer:
    """What may stand where the cursor is. Names and values are those that europa tells."""

    def __init__(self, session: Session):
        self.session = session
        self.found: List[str] = []

    def __call__(self, text: str, number: int) -> Optional[str]:
        """readline asks for the first, the second and so on, until there is none."""
        if number == 0:
            try:
                front = readline.get_line_buffer()[:readline.get_begidx()]
                self.found = self.candidates(front, text)
            except Exception:  # pylint: disable=broad-except
                self.found = []  # Whatever is the matter is told when the line is answered.
        return self.found[number] if number < len(self.found) else None

    def candidates(self, front: str, text: str) -> List[str]:
        """What begins with a text, where these words stand in front of it."""
        words = words_of(front)
        if not words:
            return self.beginning(text, COMMANDS)
        command = COMMANDS.get(words[0])
        kinds = command.words if command else ()
        if len(words) > len(kinds):
            return []
        if kinds[len(words) - 1] == "file":
            return [path + ("/" if os.path.isdir(path) else "") for path in glob.glob(glob.escape(text) + "*")]
        return self.beginning(text, self.wanted(kinds[len(words) - 1], words))

    @staticmethod
    def beginning(text: str, names: Iterable[str]) -> List[str]:
        """The names that begin with a text, each with the blank that ends it."""
        return sorted(name + " " for name in names if name.startswith(text))

    def wanted(self, kind: str, words: List[str]) -> List[str]:
        """The names of a kind that fit behind these words."""
        fixed = {"undo": ["solve"], "raw": ["on", "off"], "command": list(COMMANDS), "constraint": list(POSTED),
                 "relation": list(RELATIONS)}
        if kind in fixed:
            return fixed[kind]
        state = self.session.state
        state.refresh()
        if kind == "value":
            domain = state.domain(state.aliases.meant(words[1]))
            return list(domain.values) if domain else []
        tokens = self.tokens_for(words)
        if kind == "token":
            return self.spelled(tokens)
        variables = state.variables()
        if kind == "variable":
            return self.spelled(variables)
        if kind == "shown":
            return self.spelled(tokens + state.globals()) + [thing.name for thing in self.session.problem.objects]
        return self.spelled(tokens + variables)

    def tokens_for(self, words: List[str]) -> List[str]:
        """The tokens of which a command may be meant."""
        state = self.session.state
        known = list(state.tokens.values())
        if words[0] in ("activate", "reject", "merge") and len(words) == 1:
            known = [token for token in known if token.state == "inactive"]
        elif words[0] in ("merge", "order"):
            known = [token for token in known if token.state in ("active", "fact")]
        first = state.tokens.get(state.aliases.meant(words[1])) if len(words) > 1 else None
        if words[0] == "merge" and first:
            known = [token for token in known if token.kind == first.kind]
        return [token.name for token in known]

    def spelled(self, names: List[str]) -> List[str]:
        """Names by their labels, and as europa has them."""
        return list(dict.fromkeys([self.session.state.aliases.shown(name) for name in names] + names))


def prepare(session: Session) -> None:
    """Makes readline complete for a session, and brings back what was typed in earlier ones."""
    if not readline:
        return
    readline.set_completer(Completer(session))
    readline.set_completer_delims(" \t\n")
    readline.parse_and_bind("tab: complete")
    try:
        readline.read_history_file(history_file())
    except OSError:
        pass


def keep_history() -> None:
    if not readline:
        return
    try:
        os.makedirs(os.path.dirname(history_file()), exist_ok=True)
        readline.set_history_length(KEPT)
        readline.write_history_file(history_file())
    except OSError:
        pass


def is_terminal() -> bool:
    return sys.stdin.isatty() and sys.stdout.isatty()


def typed(session: Session) -> Optional[str]:
    """The next line that is typed; none at the end."""
    session.state.refresh()
    try:
        return input("desk> " if session.state.is_possible else "desk (inconsistent)> ")
    except EOFError:
        print()
        return None


def at_terminal(session: Session) -> None:
    """Answers what is typed. Ctrl-C drops a line, or breaks off an answer."""
    prepare(session)
    try:
        while True:
            told = ""
            try:
                line = typed(session)
                told = "broken off; the steps from before stand"
                if line is None or not session.answer(line):
                    return
            except KeyboardInterrupt:
                session.say(told)
                session.interrupted()
    finally:
        keep_history()


def from_stream(session: Session) -> None:
    """Answers the lines of standard input."""
    for line in sys.stdin:
        if not session.answer(line):
            return


def run(session: Session) -> None:
    session.begin()
    if is_terminal():
        at_terminal(session)
    else:
        from_stream(session)
