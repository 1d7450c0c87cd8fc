"""The refusals of a session, each as a sentence that says which word is meant."""
import difflib
import re
from typing import Callable, Dict, List, Optional

from .commands import COMMANDS, unknown_command
from .plain import plain
from .state import State

# What the arguments of each constraint have to be.
ARGUMENTS = {
    "eq": "two of one kind", "neq": "two of one kind", "lt": "two numbers of one kind", "leq": "two numbers of one kind",
    "addEq": "three numbers of one kind", "mulEq": "a number, a whole number other than 0, and a number of the first's kind",
    "testEQ": "a truth, and two of one kind", "testLEQ": "a truth, and two numbers of one kind"}
NUMBER = re.compile(r"-?[0-9]+(\.[0-9]+)?")
# The commands of constraints, and those of relations.
OF_CONSTRAINTS, OF_RELATIONS = ("post", "withdraw"), ("relate", "unrelate")


def quoted(state: State, word: str) -> str:
    return f"`{plain(state.aliases.shown(word))}`"


def near(word: str, words: List[str]) -> str:
    found = difflib.get_close_matches(word, words, 1, 0.7)
    return f"; is `{found[0]}` meant?" if found else ""


def no_token(state: State, word: str) -> str:
    """That a word is no token; a variable is told apart from a word that is nothing."""
    if state.domain(word):
        return f"{quoted(state, word)} is a variable, and a token is wanted here"
    names = list(state.aliases.by_alias) + list(state.tokens)
    return f"there is no token {quoted(state, word)}{near(state.aliases.shown(word), names)}"


def tokens_of(words: List[str]) -> List[str]:
    """The words of a command that stand for tokens."""
    return words[2:] if words[0] in OF_RELATIONS else words[1:]


def no_variable(state: State, word: str) -> str:
    if word in state.tokens:
        parts = ", ".join(name.rpartition(".")[2] for name in state.parts(word))
        return f"{quoted(state, word)} is a token, and a variable is wanted here: a point, and {parts}"
    names = [state.aliases.shown(name) for name in state.variables()]
    return f"there is no variable {quoted(state, word)}{near(state.aliases.shown(word), names)}"


def unknown_argument(state: State, words: List[str]) -> str:
    """Which word behind a constraint names no variable, and is no value of what the others are."""
    others = [word for word in words[2:] if not state.domain(word)] or words[-1:]
    strange = next((word for word in others if not NUMBER.fullmatch(word)), others[0])
    names = [state.aliases.shown(name) for name in state.variables()]
    return f"{quoted(state, strange)} is neither a variable nor a value of the kind that is wanted there" \
           f"{near(state.aliases.shown(strange), names)}"


def unknown(state: State, words: List[str]) -> str:
    if words[0] in OF_CONSTRAINTS:
        return unknown_argument(state, words)
    if words[0] in ("specify", "domain"):
        domain = state.domain(words[1])
        if not domain:
            return no_variable(state, words[1])
        return f"`{plain(words[2])}` is no value of {quoted(state, words[1])}, which may be {domain}"
    missing = next((word for word in tokens_of(words) if word not in state.tokens), words[-1])
    return no_token(state, missing)


def decided(state: State, words: List[str]) -> str:
    if words[0] == "order":
        return f"{quoted(state, words[1])} is ordered before {quoted(state, words[2])} already"
    if words[0] in ("post", "relate"):
        word = "withdraw" if words[0] == "post" else "unrelate"
        said = " ".join([word, words[1], *map(state.aliases.shown, words[2:])])
        return f"that stands already; `{plain(said)}` takes it out"
    known = state.tokens.get(words[1])
    again = f"`reset {state.aliases.shown(words[1])}` takes that back"
    if not known:
        return f"{quoted(state, words[1])} has a value already; {again}"
    if known.state == "fact":
        return f"{quoted(state, words[1])} is a fact, which takes place whatever is decided"
    return f"{quoted(state, words[1])} is {state.aliases.shown_line(known.state)} already; {again}"


def wrong_type(state: State, words: List[str]) -> str:
    wanted = ARGUMENTS.get(words[1], "other ones")
    return f"`{plain(words[1])}` takes {wanted}, and at least one that is compared has to be a variable"


def not_in_domain(state: State, words: List[str]) -> str:
    if words[0] == "post":
        return "a value of the constraint is out of range"
    return f"{quoted(state, words[1])} was declared without the value `{plain(words[2])}`"


def rejectables_of(state: State, words: List[str]) -> List[str]:
    """The tokens of which one has to be taken for a value, a constraint or a relation; no subgoal is a rejectable."""
    named = words[2:] if words[0] == "relate" else [word.rpartition(".")[0] for word in words[1:]]
    idle = [word for word in named if word in state.tokens and state.tokens[word].state in ("inactive", "rejected")]
    return list(dict.fromkeys([word for word in idle if "/" not in word] or idle or named))


def not_active(state: State, words: List[str]) -> str:
    if words[0] in ("specify", "post", "relate"):
        told = [quoted(state, token) for token in rejectables_of(state, words)]
        which = f"{told[0]} is a rejectable" if len(told) == 1 else f"one of {' and '.join(told)} is a rejectable"
        return f"{which} of which isn't decided that it takes place: `activate` it first"
    named = words[2:] if words[0] == "merge" else words[1:]
    idle = [word for word in named if word in state.tokens and state.tokens[word].state not in ("active", "fact")]
    told = " and ".join(quoted(state, word) for word in idle or named)
    return f"{told} would have to be active for that; {'they are' if len(idle) > 1 else 'it is'} " \
           f"{state.aliases.shown_line(state.tokens[idle[0]].state) if idle else 'not'}"


def not_same_predicate(state: State, words: List[str]) -> str:
    kinds = [f"{quoted(state, word)} is of {state.tokens[word].kind}" for word in words[1:3] if word in state.tokens]
    return f"only tokens of one predicate can be merged: {', '.join(kinds)}"


def no_decision(state: State, words: List[str]) -> str:
    if words[0] in OF_CONSTRAINTS + OF_RELATIONS:
        return "no such decision stands; `decisions` lists those that do"
    named = " and ".join(quoted(state, word) for word in words[1:])
    return f"no decision on {named} stands; `decisions` lists those that do"


def syntax(state: State, words: List[str]) -> str:
    command = COMMANDS.get(words[0])
    if not command:
        return unknown_command(plain(words[0]))
    usages = " or ".join(f"`{usage}`" for usage in command.usages)
    return f"that is typed as {usages}; names and numbers are written as `help` says"


REASONS: Dict[str, Callable[[State, List[str]], str]] = {
    "long": lambda state, words: "a line may have 4,096 bytes, and this one has more",
    "syntax": syntax,
    "full": lambda state, words: "100,000 steps could be taken back, and no further one may be made",
    "inconsistent": lambda state, words: "nothing is possible with the decisions that stand, so none may be added; "
                                         "`why` says which are to blame, `undo` and `reset` take them back",
    "unknown": unknown,
    "wrong-type": wrong_type,
    "decided": decided,
    "not-in-domain": not_in_domain,
    "not-active": not_active,
    "not-same-predicate": not_same_predicate,
    "not-rejectable": lambda state, words: f"{quoted(state, words[1])} isn't posted as a rejectable, so it takes place",
    "same": lambda state, words: f"{quoted(state, words[-1])} can't be "
                                 f"{'ordered before' if words[0] == 'order' else 'related to'} itself",
    "active-full": lambda state, words: "512 tokens are active, and there may be no more",
    "no-decision": no_decision,
    "nothing": lambda state, words: "there is no step to take back",
    "consistent": lambda state, words: "something is possible with the decisions that stand, so there is nothing to "
                                       "tell",
}


def explain_refusal(reason: str, state: State, words: List[str]) -> str:
    """Why a line was refused; `words` are its words as europa spells them."""
    tell: Optional[Callable[[State, List[str]], str]] = REASONS.get(reason)
    return tell(state, words) if tell else f"europa says `refused {plain(reason)}`"
