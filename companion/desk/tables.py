"""europa's replies, and what is asked of a state, as lines of text."""
from typing import Callable, Dict, List, Tuple

from .europa import Reply
from .plain import counted, plain, table
from .plans import read_plan
from .state import State, read_domain

FLAWS = {
    "token": "next to decide is the token {name}: {ways} it ({count})",
    "variable": "next to decide is {name}: `specify` its value ({count})",
    "order": "next to decide is which comes first on their timeline, {name}: `order` them",
    "time": "next to decide is the time {name}: `specify` it ({count})",
}
ENDS = {
    "exhausted": "there is no valid plan that has what the decisions say ({visits})",
    "bound": "there is no valid plan with so few tokens that has what the decisions say ({visits})",
    "budget": "the search needs more visits than it may make ({visits}); `solve VISITS TOKENS` searches on from the "
              "beginning with more",
}


def both_names(state: State, token: str) -> str:
    """A token by its labels, with the name that europa has for it."""
    alias = state.aliases.shown(token)
    return alias if alias == token else f"{alias} ({token})"


def decisions(reply: Reply, state: State) -> List[str]:
    if not reply.rest:
        return ["no decisions stand"]
    return [f"  {plain(state.aliases.shown_line(line))}" for line in reply.rest]


def conflict(reply: Reply, state: State) -> List[str]:
    if not reply.rest:
        return ["  no decision is to blame: the problem alone leaves nothing possible"]
    return ["  these can't all stand, and none of them can go:"] + [
        f"    {plain(state.aliases.shown_line(line))}" for line in reply.rest]


def cycle(reply: Reply, state: State) -> List[str]:
    if not reply.rest:
        return ["it isn't a matter of times alone"]
    lines = [state.aliases.shown_line(line).replace(" + -", " - ") for line in reply.rest]
    return ["these times can't be, read round from `origin`, the time 0:"] + [f"  {plain(line)}" for line in lines]


def flaw(reply: Reply, state: State) -> List[str]:
    words = reply.first.split()
    if words[1] == "none":
        return ["nothing is open; `plan` prints the plan"]
    if words[1] not in FLAWS or "choices" not in words:
        return [plain(reply.first)]
    at = words.index("choices")
    name = " and ".join(map(state.aliases.shown, words[2:at]))
    root = state.aliases.book.problem.roots.get(words[2])
    is_rejectable = bool(root and getattr(root.what, "word", "") == "rejectable")
    ways = "`activate`, `merge` or `reject`" if is_rejectable else "`activate` or `merge`"
    return [FLAWS[words[1]].format(name=plain(name), count=counted(int(words[at + 1]), "choice"), ways=ways)]


def found(reply: Reply, state: State) -> List[str]:
    plan = read_plan("\n".join(reply.lines))
    rows = [("from", "to", "on", "what", "token")]
    for token in sorted(plan.active(), key=lambda token: (token.start, token.end)):
        values = " ".join(f"{name} {value}" for name, value in token.parameters.items())
        rows.append((str(token.start), str(token.end), token.object,
                     f"{token.kind.rpartition('.')[2]} {values}".strip(), state.aliases.shown(token.name)))
    told = [f"found in {counted(plan.visits or 0, 'visit')}:"] + (table(rows) if len(rows) > 1 else [])
    told += [f"  {state.aliases.shown(token.name)} is {state.aliases.shown(token.target)}"
             for token in plan.tokens.values() if token.target]
    told += [f"  {token.name} doesn't take place" for token in plan.tokens.values() if token.state == "rejected"]
    return told + [f"  {name} is {value}" for name, value in plan.globals.items()]


def search_end(reply: Reply, state: State) -> List[str]:
    words = reply.first.split()
    return [ENDS[words[2] if len(words) > 2 else words[0]].format(visits=counted(int(words[1]), "visit"))]


READERS: Dict[str, Callable[[Reply, State], List[str]]] = {
    "decisions": decisions, "conflict": conflict, "cycle": cycle, "flaw": flaw, "found": found,
    "exhausted": search_end, "budget": search_end,
}


def reply(answered: Reply, state: State) -> List[str]:
    """A reply that is no refusal, as lines; one that desk doesn't know stays as it is."""
    words = answered.first.split()
    domain = read_domain(answered.first)
    if domain and len(answered.lines) == 1:
        return [f"{plain(state.aliases.shown(words[0]))}  {domain}"]
    reader = READERS.get(words[0])
    return reader(answered, state) if reader and len(words) > 1 else list(map(plain, answered.lines))


def tokens(state: State, names: List[str]) -> List[str]:
    rows = [("token", "as europa has it", "what", "state")]
    for name in names:
        known = state.tokens[name]
        alias = state.aliases.shown(name)
        rows.append((alias, name if alias != name else "", str(known.kind), state.aliases.shown_line(known.state)))
    return table(rows) if names else ["there are no tokens"]


def token(state: State, name: str) -> List[str]:
    """A token with all its variables, what is merged into it, and what its rules ask for."""
    known = state.tokens[name]
    decided = {line.split()[1]: "decided" for line in state.decisions() if line.startswith("specify ")}
    told = [f"{both_names(state, name)}  {known.kind}  {state.aliases.shown_line(known.state)}"]
    rows = []
    for variable in state.parts(name) + state.locals(name):
        domain = state.domain(variable)
        if domain:
            local = state.aliases.local(variable)
            meaning = f"the rule's {local[1].text}" if local else ""
            rows.append((variable[len(name):].lstrip("."), str(domain), decided.get(variable, meaning)))
    told += table(rows)
    told += [f"  merged into it: {state.aliases.shown(other)}" for other in state.merged_into(name)]
    asked = [other for other in state.tokens if other.rpartition("/")[0] == name]
    return told + (["  its rules ask for:"] + tokens(state, asked) if asked else [])


def thing(state: State, name: str) -> List[str]:
    """What is or may be on an object, by the least start."""
    rows: List[Tuple[int, Tuple[str, ...]]] = []
    for known in state.tokens.values():
        on = state.domain(f"{known.name}.object")
        if on and name in on.values and known.state != "rejected":
            start, end = state.domain(f"{known.name}.start"), state.domain(f"{known.name}.end")
            values = " ".join(f"{part} {state.domain(f'{known.name}.{part}')}" for part in state.parameters(known.kind))
            least = start.span.least if start and start.span else 0
            others = "" if on.is_single else "or on " + " or ".join(other for other in on.values if other != name)
            rows.append((least, (str(start), str(end), f"{known.kind.predicate} {values}".strip(),
                                 state.aliases.shown(known.name), state.aliases.shown_line(known.state), others)))
    heads = ("from", "to", "what", "token", "state", "")
    found = state.aliases.book.problem.object(name)
    told = [f"{name}  {found.cls if found else ''}"]
    return told + (table([heads] + [row for _, row in sorted(rows)]) if rows else ["  nothing may be on it"])


def overview(state: State) -> List[str]:
    """The objects, the globals, and how many tokens are in which state."""
    problem = state.aliases.book.problem
    rows = []
    for other in problem.objects:
        kind = problem.kind(other.cls)
        rows.append((other.name, other.cls, f"a {kind.lower()}" if kind else ""))
    counts: Dict[str, int] = {}
    for known in state.tokens.values():
        word = known.state.split()[0]
        counts[word] = counts.get(word, 0) + 1
    told = ["objects:"] + table(rows) if rows else ["there are no objects"]
    globals_there = [(name, str(state.domain(name))) for name in state.globals()]
    told += ["globals:"] + table(globals_there) if globals_there else []
    return told + ["tokens: " + (", ".join(f"{count} {word}" for word, count in counts.items()) or "none")]
