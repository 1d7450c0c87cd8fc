"""A problem and a plan as europa takes them, whatever they are called: what the commands on a plan begin with."""
from dataclasses import dataclass
from typing import List, Optional, Tuple

from .clauses import clause_words, explain_clause, explain_text_fault
from .europa import INVALID, Europa, EuropaFault
from .names import Aliases
from .plans import Plan, read_plan
from .problem import Problem, read_problem
from .rules import RuleBook
from .sources import Source, Sources
from .syntax import Misread


@dataclass
class Files:
    """The files of a command, by the names that europa is given, with how desk calls them."""
    problem: str
    plan: str
    sources: Sources


@dataclass
class Checked:
    """A plan with europa's verdict on it. Where its text has a fault there is no plan."""
    files: Files
    verdict: str
    words: List[str]
    text: Source
    problem: Problem
    aliases: Aliases
    plan: Optional[Plan]

    @property
    def is_valid(self) -> bool:
        return self.verdict == "valid"

    def explained(self) -> List[str]:
        """The verdict in sentences."""
        if self.is_valid:
            return []
        if self.plan is None:
            return explain_text_fault(self.words[0], int(self.words[1]), self.text)
        return explain_clause(self.words, self.text, self.plan, self.aliases)


def known_problem(europa: Europa, sources: Sources) -> Problem:
    """What a problem's files declare, as europa shows them."""
    try:
        return read_problem(europa, sources)
    except Misread as fault:
        raise EuropaFault(f"what europa shows of the file can't be read by desk: {fault}") from None


def plan_kinds(plan: Plan, problem: Problem) -> List[Tuple[str, str]]:
    """The tokens of a plan with their predicates: a merged one has that of its target, a rejected one is posted."""
    found = []
    for token in plan.tokens.values():
        target = plan.tokens.get(token.target or "")
        kind = token.kind or problem.root_kind(token.name) or (target.kind if target else "")
        found.append((token.name, kind))
    return found


def check(europa: Europa, files: Files) -> Checked:
    """Asks europa of a plan, and reads plan and problem where it found no fault in them."""
    answer = europa.ask(["check", "--", files.problem, files.plan])
    verdict, words = clause_words(answer.lines()[0] if answer.text else "")
    text = files.sources.get(files.plan)
    if text is None or verdict != "valid" and answer.status != INVALID:
        raise EuropaFault(f"europa answered what desk doesn't know: {answer.text.strip()}")
    problem = known_problem(europa, files.sources)
    aliases = Aliases(RuleBook(problem))
    plan = None
    if verdict != "text":
        plan = read_plan(text.text)
        aliases.learn(sorted(plan_kinds(plan, problem), key=lambda pair: pair[0].count("/")))
    return Checked(files, verdict, words, text, problem, aliases, plan)
