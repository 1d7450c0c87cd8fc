"""The commands on a plan: `explain FILE PLAN`, `draw`, `json` and `plan`."""
import json
import subprocess
import sys
import unittest
from html.parser import HTMLParser

from desk.clauses import CLAUSES, TEXT_FAULTS

from .helpers import (COMPANION, NAMES, InFolder, ask_europa, desk, environment, example, needs_europa,
                      table_words)

# A problem in which each clause can be broken by one change to the text of a plan.
PROBLEM = """class Arm extends Reusable { Arm(int n) { super(n); } }
class Cell extends Reservoir { Cell(int n) { super(n, 0, 9); } }
class Rover extends Timeline {
  Arm arm;
  Rover(Arm a) { arm = a; }
  predicate At { int [0 3] place; }
}
Rover::At {
  eq(duration, 2);
  starts(object.arm.uses use);
  eq(use.quantity, 1);
}
PlannerConfig config = new PlannerConfig(0, 20, 100);
Arm arm = new Arm(1);
Cell cell = new Cell(5);
Rover rover = new Rover(arm);
int [0 5] x;
leq(x, 3);
goal(rover.At one);
goal(rover.At two);
goal(cell.consume take);
rejectable(rover.At spare);
"""
PLAN = """plan
global x 0
token one Rover.At start 0 end 2 duration 2 object rover place 0
local one/0!0 arm
token two Rover.At start 2 end 4 duration 2 object rover place 1
local two/0!0 arm
token take Cell.consume start 3 end 4 duration 1 object cell quantity 4
rejected spare
token one/0:0 Arm.uses start 0 end 1 duration 1 object arm quantity 1
token two/0:0 Arm.uses start 2 end 3 duration 1 object arm quantity 1
end
"""
OVERLAPPING = PLAN.replace("start 2 end 4", "start 1 end 3").replace("start 2 end 3", "start 1 end 2")
# For each clause a change to the plan, its line then, a part of the sentence, and the line of the problem that is told.
BROKEN = {
    "V1": ("global x 0", "global x 9", 2, "`x` has the value 9", 17),
    "V2": ("rejected spare\n", "", 1, "doesn't say what becomes of it", 22),
    "V3": ("end 2 duration 2 object rover place 0", "end 3 duration 2 object rover place 0", 3, "make the end", 19),
    "V4": ("rejected spare", "merged spare spare", 8, "`spare` can't be `spare`", 22),
    "V5": ("token one/0:0 Arm.uses start 0 end 1 duration 1 object arm quantity 1\n", "", 3, "asks for `one.use`", 10),
    "V6": ("rejected spare", "rejected spare\nmerged spare/0:0 one/0:0", 9, "asked for by no rule", 10),
    "V7": ("global x 0", "global x 4", 1, "a constraint of the problem", 18),
    "V8": ("start 2 end", "start 1 end", 3, "overlap", None),
    "V9": ("start 0 end 1 duration 1 object arm", "start 0 end 3 duration 3 object arm", 9, "at 2 more of `arm`", None),
    "V10": ("quantity 4", "quantity 6", 7, "at 3 the level of `cell`", None),
}


def spelled(value: object) -> str:
    """A value of the JSON as a plan has it."""
    if isinstance(value, bool):
        return str(value).lower()
    return f"{value:.3f}" if isinstance(value, float) else str(value)


class Sentences(unittest.TestCase):
    def test_each_clause_has_a_sentence_and_is_tried(self) -> None:
        words = table_words("PLANS.md", "A plan is valid if it keeps ten clauses:")
        self.assertEqual(words, list(CLAUSES))
        self.assertEqual(words, list(BROKEN))
        self.assertEqual(set(TEXT_FAULTS), {"Syntax", "Twice", "Unknown"})


@needs_europa
class Explained(InFolder):
    def setUp(self) -> None:
        super().setUp()
        self.put("m.nddl", PROBLEM)

    def told(self, plan: str) -> "list[str]":
        self.put("p.txt", plan)
        ran = self.desk("explain", "m.nddl", "p.txt")
        self.assertEqual((ran.status, ran.err), (5, ""))
        return ran.out.splitlines()

    def test_a_valid_plan(self) -> None:
        self.put("p.txt", PLAN)
        ran = self.desk("explain", "m.nddl", "p.txt")
        self.assertEqual((ran.status, ran.out), (0, "p.txt: europa says it is a valid plan of m.nddl\n"))

    def test_each_clause_with_the_line_of_the_plan_and_of_the_rule(self) -> None:
        for clause, (old, new, line, part, rule) in BROKEN.items():
            with self.subTest(clause):
                self.assertIn(old, PLAN)
                plan = PLAN.replace(old, new)
                told = self.told(plan if clause != "V8" else OVERLAPPING)
                self.assertTrue(told[0].startswith(f"p.txt:{line}:1: "), told)
                self.assertIn(part, told[0])
                self.assertIn(f"({clause})", told[0])
                if rule:
                    self.assertTrue(any(text.startswith(f"m.nddl:{rule}:") for text in told), told)

    def test_faults_of_a_text(self) -> None:
        for old, new, place, part in (("place 0", "plaice 0", "3:58", "nothing of the name `plaice`"),
                                      ("rejected spare", "rejected one", "8:10", "`one` has an earlier line"),
                                      ("place 1", "place rock", "5:64", "nothing of the name `rock`"),
                                      ("end\n", "", "11:1", "the end hasn't the form")):
            with self.subTest(part):
                told = self.told(PLAN.replace(old, new) if old != "end\n" else PLAN[:-4])
                self.assertTrue(told[0].startswith(f"p.txt:{place}: "), told)
                self.assertIn(part, told[0])

    def test_hostile_plans_are_shown_and_not_drawn(self) -> None:
        for plan in ("", "plan\n", "\x1b]0;title\x07", "<script>alert(1)</script>", "plan\ntoken " + "a" * 100_000,
                     "plan\nglobal x 0\x00\nend\n", "plan\nglobal \x1b[2J 1\nend\n", "\xff\xfe plan", "plan\r\nend\r\n"):
            with self.subTest(plan[:20]):
                self.put("p.txt", plan.encode("latin-1"))
                for command in (("explain",), ("draw",), ("draw", "--text"), ("json",)):
                    ran = self.desk(*command, "m.nddl", "p.txt")
                    self.assertEqual(ran.status, 5, ran.err)
                    self.assertNotIn("\x1b", ran.out + ran.err)
                    self.assertNotIn("Traceback", ran.err)
                    self.assertTrue((ran.out if command == ("explain",) else ran.err).startswith("p.txt:"))

    def test_absent_and_long_plans(self) -> None:
        ran = self.desk("explain", "m.nddl", "gone.txt")
        self.assertEqual(ran.status, 3)
        self.assertTrue(ran.first.startswith("gone.txt:1:1: there is no such file"), ran.out)
        self.put("long.txt", "p" * 1_048_577)
        self.assertIn("1,048,576", self.desk("explain", "m.nddl", "long.txt").first)

    def test_names_with_quotes_and_line_feeds(self) -> None:
        for name in ('pl"an <b>.txt', "line\nfeed", "text Absent x 0"):
            self.put(name, PLAN.replace("global x 0", "global x 9"))
            ran = self.desk("explain", "m.nddl", name)
            self.assertEqual(ran.status, 5)
            self.assertIn(":2:1: the global `x`", ran.first)
            self.assertNotIn("<b>", self.desk("draw", "m.nddl", name).out)

    def test_a_broken_plan_is_drawn_with_what_europa_says(self) -> None:
        self.put("p.txt", PLAN.replace("quantity 4", "quantity 6"))
        ran = self.desk("draw", "--text", "m.nddl", "p.txt")
        self.assertEqual(ran.status, 5)
        self.assertIn("europa says: not a valid plan", ran.out)
        self.assertIn("5 from 0, -1 from 3", ran.out)
        self.assertEqual(json.loads(self.desk("json", "m.nddl", "p.txt").out)["verdict"],
                         {"valid": False, "clause": "V10", "names": ["cell", "3"]})


class Page(HTMLParser):
    """Reads a page: the tags that are open, the attributes, and the text."""

    def __init__(self) -> None:
        super().__init__()
        self.open: "list[str]" = []
        self.attributes: "list[tuple[str, str, str]]" = []
        self.words = ""

    def handle_starttag(self, tag: str, attrs: "list[tuple[str, str | None]]") -> None:
        self.attributes += [(tag, name, value or "") for name, value in attrs]
        if tag not in ("meta", "br"):
            self.open.append(tag)

    def handle_endtag(self, tag: str) -> None:
        assert self.open.pop() == tag

    def handle_data(self, data: str) -> None:
        self.words += data


@needs_europa
class Examples(InFolder):
    """Each command on each example, and what it prints held against europa's plan."""

    def plan_of(self, name: str) -> str:
        ran = desk("plan", example(name))
        self.assertEqual((ran.status, ran.out), (0, ask_europa("plan", example(name)).out))
        self.assertIn("found in ", ran.err)
        return self.path(self.put(f"{name}.txt", ran.out))

    def test_each_example(self) -> None:
        for name in NAMES:
            with self.subTest(name):
                plan = self.plan_of(name)
                with open(plan, encoding="utf-8") as opened:
                    text = opened.read()
                self.assertEqual(desk("explain", example(name), plan).status, 0)
                self.page(desk("draw", example(name), plan).out, text)
                drawn = desk("draw", "--text", example(name), plan).out
                self.assertIn("europa says: a valid plan", drawn)
                self.assertLessEqual(max(map(len, drawn.split("\n  from")[0].splitlines())), 110)
                self.document(json.loads(desk("json", example(name), plan).out), text)

    def page(self, html: str, plan: str) -> None:
        """A page is whole, asks for nothing, runs nothing, and has a bar for each token on a timeline."""
        page = Page()
        page.feed(html)
        self.assertEqual(page.open, [])
        for tag, name, value in page.attributes:
            self.assertNotIn(name, ("src", "href", "onclick", "onload", "srcset"))
            self.assertNotIn("url(", value)
        self.assertNotIn("<script", html)
        self.assertNotRegex(html, r"https?:|@import|url\(")
        self.assertIn("europa says: a valid plan", page.words)
        for line in plan.splitlines():
            if line.startswith(("token", "fact", "merged")) and "/" not in line.split()[1]:
                self.assertIn(line.split()[1], page.words)

    def document(self, found: dict, plan: str) -> None:
        """The lines of the plan can be written again from its JSON."""
        lines = [f"global {name} {spelled(value)}" for name, value in found["globals"].items()]
        for token in found["tokens"]:
            if token["state"] == "merged":
                lines.append(f"merged {token['name']} {token['target']}")
            elif token["state"] == "rejected":
                lines.append(f"rejected {token['name']}")
            else:
                values = "".join(f" {name} {spelled(value)}" for name, value in token["parameters"].items())
                lines.append(f"{token['state']} {token['name']} {token['class']}.{token['predicate']} start "
                             f"{token['start']} end {token['end']} duration {token['duration']} object "
                             f"{token['object']}{values}")
                lines += [f"local {local['name']} {spelled(local['value'])}" for local in token["locals"]]
        self.assertEqual(lines, plan.splitlines()[2:-1])
        self.assertEqual(found["visits"], int(plan.split()[1]))
        self.assertEqual(found["verdict"], {"valid": True})

    def test_levels_and_limits_of_an_example(self) -> None:
        found = json.loads(desk("json", example("rover"), self.plan_of("rover")).out)
        self.assertEqual(found["horizon"], {"start": 0, "end": 60})
        battery = found["resources"][0]
        self.assertEqual((battery["name"], battery["kind"], battery["low"], battery["high"]), ("battery", "reservoir", 0, 20))
        self.assertEqual([step["level"] for step in battery["levels"]], [16, 13, 11, 6, 2])

    def test_a_page_is_written_over_a_page_alone(self) -> None:
        plan = self.plan_of("first")
        target = self.path("page.html")
        self.assertEqual(desk("draw", example("first"), plan, "-o", target).status, 0)
        self.assertEqual(desk("draw", example("first"), plan, "--output", target).status, 0)
        ran = desk("draw", example("first"), plan, "-o", plan)
        self.assertEqual(ran.status, 21)
        self.assertIn("isn't written over", ran.err)

    def test_a_plan_from_standard_input(self) -> None:
        plan = ask_europa("plan", example("crew")).out
        self.assertEqual(desk("explain", example("crew"), "-", given=plan).first,
                         f"-: europa says it is a valid plan of {example('crew')}")


@needs_europa
class Searches(InFolder):
    def test_exhausted_with_the_conflict(self) -> None:
        self.put("m.nddl", "int x;\nneq(x, 1);\nx.specify(1);\n")
        ran = self.desk("plan", "m.nddl")
        self.assertEqual((ran.status, ran.out), (10, "exhausted 1\n"))
        self.assertIn("none of them can go", ran.err)
        self.assertIn("specify x 1", ran.err)

    def test_exhausted_for_the_bound(self) -> None:
        ran = desk("plan", example("first"), "--tokens", "1")
        self.assertEqual(ran.status, 10)
        self.assertRegex(ran.out, r"^exhausted \d+ bound\n$")
        self.assertIn("--tokens may allow more", ran.err)

    def test_budget_with_what_else_to_try(self) -> None:
        ran = desk("plan", example("rover"), "--steps=5")
        self.assertEqual((ran.status, ran.out), (11, "budget 5\n"))
        self.assertIn("--steps 50 ", ran.err)
        self.assertIn("desk edit", ran.err)

    def test_a_fault_is_explained_on_standard_error(self) -> None:
        self.put("m.nddl", "int int;")
        for command in (("plan", "m.nddl"), ("edit", "m.nddl"), ("draw", "m.nddl", "p"), ("json", "m.nddl", "p")):
            ran = self.desk(*command)
            self.assertEqual((ran.status, ran.out), (3, ""))
            self.assertTrue(ran.err.startswith("m.nddl:1:5: "), ran.err)

    def test_progress_goes_to_standard_error(self) -> None:
        program = self.program(["time.sleep(0.5)", "print('budget 3')", "sys.exit(11)"])
        self.put("m.nddl", "")
        code = "import sys, desk.planning; from desk.command_line import main; desk.planning.ELSEWHERE = 0.1; " \
               "sys.exit(main(['plan', 'm.nddl']))"
        ran = subprocess.run([sys.executable, "-c", code], stdout=subprocess.PIPE, stderr=subprocess.PIPE,
                             env={**environment(program), "PYTHONPATH": COMPANION}, cwd=self.folder, check=False)
        self.assertEqual((ran.returncode, ran.stdout), (11, b"budget 3\n"))
        self.assertIn(b"searching, 0 seconds", ran.stderr)


if __name__ == "__main__":
    unittest.main()
