"""A plan as JSON, in the form that companion/JSON.md describes."""
from typing import Any, Dict, List, Union

from .asked import Checked
from .chart import Chart, Level
from .plans import Plan, PlanToken
from .words import REUSABLE

FORM, VERSION = "europa plan", 1
TRUTHS = {"true": True, "false": False}


def value(text: str) -> Union[int, float, bool, str]:
    """A value of a plan: a number, a decimal, a truth, or a name. A decimal is one of JSON, whose spelling is its own."""
    if text in TRUTHS:
        return TRUTHS[text]
    digits = text.lstrip("-")
    if digits.isdecimal():
        return int(text)
    return float(text) if digits.replace(".", "", 1).isdecimal() else text


def verdict(checked: Checked) -> Dict[str, Any]:
    if checked.is_valid:
        return {"valid": True}
    return {"valid": False, "clause": checked.words[0], "names": checked.words[1:]}


def token(found: PlanToken, checked: Checked, plan: Plan) -> Dict[str, Any]:
    """A token with all that the plan says of it."""
    aliases = checked.aliases
    told: Dict[str, Any] = {"name": found.name, "alias": aliases.shown(found.name), "state": found.state}
    if found.target:
        told["target"] = found.target
    if found.kind:
        cls, _, predicate = found.kind.rpartition(".")
        told.update({"class": cls, "predicate": predicate, "start": found.start, "end": found.end,
                     "duration": int(found.values["duration"]), "object": found.object,
                     "parameters": {name: value(given) for name, given in found.parameters.items()},
                     "merged": plan.merged_into(found.name), "locals": locals_of(found, checked)})
    return told


def locals_of(found: PlanToken, checked: Checked) -> List[Dict[str, Any]]:
    told = []
    for name, given in found.locals.items():
        local = checked.aliases.local(name)
        told.append({"name": name, "text": local[1].text if local else name, "value": value(given)})
    return told


def resource(level: Level) -> Dict[str, Any]:
    limits = {"capacity": level.high} if level.kind == REUSABLE else {"low": level.low, "high": level.high}
    steps = [{"start": step.first, "end": step.last, "level": step.level} for step in level.steps]
    return {"name": level.name, "class": level.cls, "kind": level.kind.lower(), **limits, "levels": steps}


def document(checked: Checked, plan: Plan, chart: Chart) -> Dict[str, Any]:
    """All of a plan."""
    return {"form": FORM, "version": VERSION, "problem": checked.files.sources.called(checked.files.problem),
            "verdict": verdict(checked), "visits": plan.visits,
            "horizon": {"start": chart.horizon[0], "end": chart.horizon[1]},
            "globals": {name: value(given) for name, given in plan.globals.items()},
            "tokens": [token(found, checked, plan) for found in plan.tokens.values()],
            "resources": [resource(level) for level in chart.levels]}
