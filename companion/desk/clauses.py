"""The clauses that a plan keeps, each as a sentence on the plan that breaks it first.

europa prints `invalid CLAUSE NAMES`, or `invalid text KIND PLACE` of what is no text of a plan. The sentence says what
that means, with the line of the plan and the line of the rule that asks for it. What is broken is europa's to say.
"""
from dataclasses import dataclass
from typing import Callable, Dict, List, Optional, Tuple

from .names import Aliases, local_parts, parent_of
from .plain import plain
from .plans import Plan, PlanToken
from .sources import Source, readable
from .words import CONSUME, PRODUCE, USES

TEXT_FAULTS = {
    "Syntax": "{word} hasn't the form that a plan has here",
    "Twice": "{word} has an earlier line already",
    "Unknown": "the problem has nothing of the name {word} here, or no such value of this kind",
}


@dataclass
class Broken:
    """A clause that a plan breaks, with what it takes to tell of it."""
    names: List[str]
    text: Source
    plan: Plan
    aliases: Aliases

    @property
    def first(self) -> str:
        return self.names[0]

    def called(self, name: str) -> str:
        """A name as the planner knows it, and as europa spells it where that is another one."""
        alias = self.aliases.expected(name)
        return f"`{alias}`" if alias == name else f"`{alias}` ({name})"

    def in_plan(self, name: str, sentence: str) -> List[str]:
        """A sentence on the line of a name; where it has none, on the nearest token above that has one."""
        while name and name not in self.plan.lines:
            parts = local_parts(name)
            name = parts[0] if parts else parent_of(name)
        return self.text.told(self.text.byte_of_line(self.plan.lines.get(name, 1)), sentence)

    def asked_for(self, name: str) -> List[str]:
        """Where the problem posts a token, or a rule asks for it or has the local."""
        root = self.aliases.book.problem.roots.get(name) or self.aliases.book.problem.globals.get(name)
        if root:
            return root.source.told(root.what.place, f"`{name}` is declared here")
        local = self.aliases.local(name)
        asking = self.aliases.asking(name)
        if local:
            return local[0].source.told(local[1].place, f"the rule has the local `{local[1].text}` here")
        if asking:
            return asking[0].source.told(asking[1].place, f"the rule asks for `{asking[1].full_label}` here")
        return []

    def token(self, name: str) -> Optional[PlanToken]:
        return self.plan.tokens.get(name)

    def span(self, name: str) -> str:
        token = self.token(name)
        return f"{token.start} to {token.end}" if token and token.kind else "no time"


def global_value(broken: Broken) -> List[str]:
    name = broken.first
    value = broken.plan.globals.get(name)
    what = "has no line" if value is None else f"has the value {value}, which is outside of its type"
    return broken.in_plan(name, f"the global `{name}` {what} (V1)") + broken.asked_for(name)


def root_line(broken: Broken) -> List[str]:
    name, token = broken.first, broken.token(broken.first)
    if not token:
        told = f"{broken.called(name)} is posted, and the plan doesn't say what becomes of it (V2)"
    elif name in broken.aliases.book.problem.roots:
        told = f"{broken.called(name)} is posted as something else than a line `{token.state}` may be of (V2)"
    else:
        told = f"{broken.called(name)} isn't posted, so it has no line `{token.state}` (V2)"
    return broken.in_plan(name, told) + broken.asked_for(name)


def token_values(broken: Broken) -> List[str]:
    name, token = broken.first, broken.token(broken.first)
    values = token.values if token else {}
    times = ", ".join(f"{part} {values.get(part, '?')}" for part in ("start", "duration", "end"))
    told = f"of {broken.called(name)} a value is outside of its type, or start and duration don't make the end: " \
           f"{times} (V3)"
    return broken.in_plan(name, told) + broken.asked_for(name)


def merged_target(broken: Broken) -> List[str]:
    name, token = broken.first, broken.token(broken.first)
    target = broken.called(token.target) if token and token.target else "its target"
    told = f"{broken.called(name)} can't be {target}: that doesn't take place, is the same token, is of another " \
           "predicate, or has a value that the merged one can't have (V4)"
    return broken.in_plan(name, told) + broken.asked_for(name)


def missing(broken: Broken) -> List[str]:
    name = broken.first
    parts = local_parts(name)
    parent = parts[0] if parts else parent_of(name)
    if parts:
        told = f"{broken.called(parent)} takes place, and its rule's local {name} has no line, or a value outside of " \
               "its type (V5)"
    else:
        told = f"{broken.called(parent)} takes place, and its rule asks for {broken.called(name)}, which has no line " \
               "`token` or `merged` (V5)"
    return broken.in_plan(name, told) + broken.asked_for(name)


def superfluous(broken: Broken) -> List[str]:
    name = broken.first
    what = "is a local of" if local_parts(name) else "is asked for by"
    told = f"{broken.called(name)} is in the plan, and {what} no rule that counts by the plan's values (V6)"
    return broken.in_plan(name, told) + broken.asked_for(name)


def item(broken: Broken) -> List[str]:
    number = int(broken.names[1])
    if broken.first == "problem":
        items = broken.aliases.book.problem_items()
        told = broken.in_plan("", "a constraint of the problem doesn't hold of the plan's values (V7)")
    else:
        token, _, rule_number = broken.first.rpartition("/")
        rule = broken.aliases.rule(token, int(rule_number))
        items = rule.items if rule else []
        told = broken.in_plan(token, f"of {broken.called(token)} a constraint or a relation of its rule doesn't hold "
                                     "of the plan's values (V7)")
    if number < len(items):
        told += items[number].source.told(items[number].place, "this is what doesn't hold")
    return told


def overlap(broken: Broken) -> List[str]:
    one, other = broken.names
    told = f"{broken.called(one)} and {broken.called(other)} overlap on one timeline: {broken.span(one)}, and " \
           f"{broken.span(other)} (V8)"
    return broken.in_plan(one, told) + broken.in_plan(other, "this is the other one")


def over_use(broken: Broken) -> List[str]:
    name, instant = broken.names[0], int(broken.names[1])
    using = [token for token in broken.plan.active() if token.object == name and token.kind.endswith("." + USES)
             and token.start <= instant < token.end]
    return resource(broken, f"at {instant} more of `{name}` is in use than its capacity (V9)", using, "uses")


def out_of_limits(broken: Broken) -> List[str]:
    name, instant = broken.names[0], int(broken.names[1])
    changing = [token for token in broken.plan.active() if token.object == name and token.start == instant
                and token.kind.rpartition(".")[2] in (PRODUCE, CONSUME)]
    return resource(broken, f"at {instant} the level of `{name}` is outside of its limits (V10)", changing, "")


def resource(broken: Broken, sentence: str, tokens: List[PlanToken], verb: str) -> List[str]:
    """A sentence on a resource, and the tokens of the plan that use or change it at the instant."""
    told = broken.in_plan(tokens[0].name if tokens else "", sentence)
    for token in tokens:
        does = verb or token.kind.rpartition(".")[2] + "s"
        told.append(f"  {broken.called(token.name)} {does} {token.values.get('quantity', '?')} from {token.start} on")
    return told


CLAUSES: Dict[str, Callable[[Broken], List[str]]] = {
    "V1": global_value, "V2": root_line, "V3": token_values, "V4": merged_target, "V5": missing, "V6": superfluous,
    "V7": item, "V8": overlap, "V9": over_use, "V10": out_of_limits,
}


def explain_clause(words: List[str], text: Source, plan: Plan, aliases: Aliases) -> List[str]:
    """What `invalid CLAUSE NAMES` means; `words` are the clause and the names."""
    tell = CLAUSES.get(words[0])
    if not tell or len(words) < 2:
        return [f"{plain(text.name)}:1:1: europa says `invalid {plain(' '.join(words))}`"]
    return tell(Broken(words[1:], text, plan, aliases))


def explain_text_fault(kind: str, byte: int, text: Source) -> List[str]:
    """What `invalid text KIND PLACE` means."""
    word = text.text[byte:].split(" ")[0].split("\n")[0]
    named = f"`{plain(readable(word))}`" if word else "the end" if byte >= len(text.text) else "a gap"
    return text.told(byte, TEXT_FAULTS.get(kind, f"europa says `{plain(kind)}` of {{word}}").replace("{word}", named))


def clause_words(line: str) -> Tuple[str, List[str]]:
    """What `check` printed: `valid`, `text` or `invalid`, and the words behind it."""
    words = line.split()
    if words[:1] == ["valid"]:
        return "valid", []
    if words[:2] == ["invalid", "text"] and len(words) == 4:
        return "text", words[2:]
    return "invalid", words[1:]
