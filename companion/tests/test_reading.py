"""Canonical texts, and the numbers that europa gives to what rules ask for."""
import unittest

from desk.asked import known_problem
from desk.constants import ask_constants
from desk.europa import Dialogue, Europa
from desk.names import Aliases
from desk.rules import RuleBook
from desk.sources import Source, Sources
from desk.syntax import Misread, read_declarations

from .helpers import EUROPA, InFolder, ask_europa, needs_europa

# Rules that are inherited, unrolled, nested and guarded; each parameter is held by one constraint on a line of its own.
NUMBERED = """class Spot { int x; int y; Spot(int a, int b) { x = a; y = b; } }
class Place { Spot spot; int k; Place(int n) { spot = new Spot(n, n); k = n; } }
class Base extends Timeline {
  Place home;
  predicate Go {
    int [0 9] p1; int [0 9] p2; int [0 9] p3; int [0 9] p4; int [0 9] p5; int [0 9] p6; int [0 9] p7; int [0 9] p8;
    Place to; bool b;
    leq(p1, 5);
    eq(p2, 2);
  }
  predicate Done { int [0 9] q; }
}
class Robot extends Base { Robot(Place h) { home = h; } }
Robot::Go {
  eq(p8, 8);
}
Base::Go {
  Place far = object.home;
  neq(to.spot, far.spot);
  foreach (s in Spot) { leq(s.x, p3); if (b) { before(object.Done z); eq(z.q, p7); } else { eq(p8, 1); } }
  allDiff(p4, p3, 7);
  if (to.k == 3) { eq(p5, 5); after(Base.Done last); leq(last.q, 4); } else if (far.k != 3) { eq(p6, far.spot.x); }
  addEq(p6, 1, p7);
}
PlannerConfig config = new PlannerConfig(0, 50, 5000);
Place here = new Place(2);
Place there = new Place(3);
Robot r = new Robot(here);
int [0 9] x;
goal(r.Go g);
g.to.specify(there);
g.b.specify(true);
eq(g.object.home.k, x);
neq(x, 5);
leq(x, 4);
"""
# A parameter, a value that it can't have, and the line that says so.
HELD = (("p1 0", "p1 6", 8), ("p2 2", "p2 3", 9), ("p3 3", "p3 1", 20), ("p4 0", "p4 7", 21), ("p5 5", "p5 4", 22),
        ("p6 0", "p6 8", 23), ("p8 8", "p8 7", 15), ("global x 2", "global x 5", 33))


class Reading(unittest.TestCase):
    def test_places_are_those_of_the_file(self) -> None:
        written = "class A { predicate P { bool b; } };\n// more\nA::P { if (b) { } else if (b) { any(object.P q); } }\nint[0,+7]x;"
        canonical = "class A { predicate P { bool b ; } }\nA :: P { if ( b ) { } else { if ( b ) { any ( object . P q ) ; } } }\n" \
                    "int [ 0 7 ] x ;\n"
        found = read_declarations(canonical, written)
        places = [written[what.place:][:4] for what in found]
        self.assertEqual(places, ["A { ", "A::P", "int["])
        inner = found[1].block[0].otherwise[0].then[0]
        self.assertEqual(written[inner.place:][:6], "any(ob")

    def test_what_is_no_canonical_text_is_not_taken(self) -> None:
        for canonical, written in (("int x ;", "int y;"), ("class A {", "class A {"), ("if (", "if (")):
            with self.assertRaises(Misread):
                read_declarations(canonical, written)

    def test_lines_and_columns(self) -> None:
        source = Source("m", "a\nb c\n\n")
        self.assertEqual([str(source.place(byte)) for byte in (0, 2, 4, 7)], ["m:1:1", "m:2:1", "m:2:3", "m:4:1"])


@needs_europa
class Numbers(InFolder):
    def test_items_are_found_by_their_numbers(self) -> None:
        self.put("m.nddl", NUMBERED)
        plan = ask_europa("plan", self.path("m.nddl")).out
        for old, new, line in HELD:
            with self.subTest(old):
                self.assertIn(old, plan)
                self.put("p", plan.replace(old, new, 1))
                told = self.desk("explain", "m.nddl", "p").out.splitlines()
                self.assertIn("(V7)", told[0])
                self.assertTrue(told[3].startswith(f"m.nddl:{line}:"), told)

    def test_slots_and_locals_are_found_by_their_numbers(self) -> None:
        path = self.path(self.put("m.nddl", NUMBERED))
        europa = Europa(EUROPA)
        aliases = Aliases(RuleBook(known_problem(europa, Sources(path))))
        dialogue = Dialogue(europa, path)
        self.addCleanup(dialogue.close)
        dialogue.ask("activate g")
        aliases.learn([tuple(line.split()[:2]) for line in dialogue.ask("tokens").rest])
        self.assertEqual({name: aliases.shown(name) for name in aliases.kinds}, {
            "g": "g", "g/1:0": "g.z[here.spot]", "g/1:1": "g.z[there.spot]", "g/1:2": "g.last"})
        texts = [aliases.local(f"g/1!{number}")[1].text for number in range(5)]
        self.assertEqual(texts, ["object.home", "far", "to.spot", "far.spot", "to.k"])
        self.assertEqual(aliases.meant("g.last.start"), "g/1:2.start")

    def test_labels_that_several_have(self) -> None:
        path = self.path(self.put("m.nddl", "class A extends Timeline { predicate P { int q; } }\nA::P { any(object.P d); "
                                            "any(object.P q); }\nA::P { after(object.P d); }\nA a = new A();\ngoal(a.P g);\n"))
        europa = Europa(EUROPA)
        aliases = Aliases(RuleBook(known_problem(europa, Sources(path))))
        dialogue = Dialogue(europa, path)
        self.addCleanup(dialogue.close)
        dialogue.ask("activate g")
        aliases.learn([tuple(line.split()[:2]) for line in dialogue.ask("tokens").rest])
        self.assertEqual(sorted(aliases.by_alias), ["g", "g.d~1", "g.d~2", "g.q~1"])

    def test_numbers_are_asked_of_europa(self) -> None:
        self.put("part.nddl", "class Size { int n; Size(int k) { n = k; } }\n"
                              "class Cell extends Reservoir { Cell(Size s) { super(2, 1, s.n); } }\n")
        path = self.path(self.put("m.nddl", f'#include "{self.path("part.nddl")}"\nSize s = new Size(30);\n'
                                            "PlannerConfig c = new PlannerConfig(0, s.n, 9);\nCell cell = new Cell(s);\nclose();\n"
                                            "int x;\nx.specify(1);\n"))
        europa, sources = Europa(EUROPA), Sources(path)
        constants = ask_constants(europa, sources, known_problem(europa, sources))
        self.assertEqual((constants.first, constants.last), (0, 30))
        self.assertEqual([constants.limit("cell", name) for name in ("initial", "low", "high")], [2, 1, 30])


if __name__ == "__main__":
    unittest.main()
