"""What can be typed in a session: europa's commands, and those of desk itself."""
import difflib
from dataclasses import dataclass
from typing import Dict, List, Tuple

from .plain import table


@dataclass(frozen=True)
class Command:
    """A command: how it is typed, what it does, and what its words are, for completion."""
    usages: Tuple[str, ...]
    meaning: str
    words: Tuple[str, ...] = ()


COMMANDS: Dict[str, Command] = {
    "specify": Command(("specify VARIABLE VALUE",), "the variable shall have this value", ("variable", "value")),
    "activate": Command(("activate TOKEN",), "the token shall take place", ("token",)),
    "merge": Command(("merge TOKEN TARGET",), "the token shall be the target, an active one of its predicate",
                     ("token", "token")),
    "reject": Command(("reject TOKEN",), "the token, a rejectable, shall not take place", ("token",)),
    "order": Command(("order TOKEN OTHER",), "the one token shall end before the other starts", ("token", "token")),
    "post": Command(("post KIND ARGUMENT ..",), "the constraint shall hold of these variables and values",
                    ("constraint", "variable", "variable", "variable")),
    "relate": Command(("relate RELATION TOKEN OTHER",), "the two tokens shall lie so to each other in time",
                      ("relation", "token", "token")),
    "reset": Command(("reset VARIABLE", "reset TOKEN", "reset TOKEN OTHER"),
                     "takes the decision on this out, wherever it stands", ("name", "token")),
    "withdraw": Command(("withdraw KIND ARGUMENT ..",), "takes this constraint out, if it was posted",
                        ("constraint", "variable", "variable", "variable")),
    "unrelate": Command(("unrelate RELATION TOKEN OTHER",), "takes this relation out",
                        ("relation", "token", "token")),
    "undo": Command(("undo", "undo N", "undo solve"), "takes back the last step, the last N, or all of the last solve",
                    ("undo",)),
    "domain": Command(("domain VARIABLE",), "what the variable may still be", ("variable",)),
    "tokens": Command(("tokens",), "which tokens there are, by both of their names"),
    "show": Command(("show", "show TOKEN", "show OBJECT", "show GLOBAL"),
                    "all that there is; a token with its variables; what is on a timeline or a resource", ("shown",)),
    "draw": Command(("draw", "draw FILE"), "draws the state here, or as a page into a file", ("file",)),
    "decisions": Command(("decisions",), "which decisions stand"),
    "flaws": Command(("flaws",), "what is to be decided first"),
    "solve": Command(("solve", "solve VISITS TOKENS"),
                     "searches for a plan; without numbers in 1,000 visits, with 512 tokens"),
    "plan": Command(("plan", "plan FILE"), "prints the plan where nothing is open, or writes it into a file",
                    ("file",)),
    "why": Command(("why",), "decisions of which none can go, where nothing is possible"),
    "cycle": Command(("cycle",), "the round of times that can't be, where that is why"),
    "save": Command(("save FILE",), "writes the decisions that stand into a file", ("file",)),
    "load": Command(("load FILE",), "goes on from the decisions in a file in place of those that stand", ("file",)),
    "raw": Command(("raw on", "raw off"), "shows what europa is asked and answers, or doesn't", ("raw",)),
    "help": Command(("help", "help COMMAND"), "this list, or one command", ("command",)),
    "quit": Command(("quit",), "ends the session, as Ctrl-D does"),
}


def help_lines(word: str = "") -> List[str]:
    """The list of commands, or one of them."""
    if word and word not in COMMANDS:
        return [unknown_command(word)]
    chosen = [COMMANDS[word]] if word else list(COMMANDS.values())
    rows = [(usage, command.meaning if at == 0 else "") for command in chosen
            for at, usage in enumerate(command.usages)]
    more = [] if word else ["A token may be written by the labels of its rules, as sample.stand, or as europa has it,",
                            "as sample/0:0. What stands behind # is a comment. Tab completes."]
    return table(rows) + more


def unknown_command(word: str) -> str:
    near = difflib.get_close_matches(word, list(COMMANDS), 1, 0.6)
    return f"there is no command `{word}`; " + (f"is `{near[0]}` meant?" if near else "`help` lists them")
