"""`desk explain FILE`: each kind of fault, with its place and its sentence."""
import unittest

from desk.faults import KINDS

from .helpers import InFolder, desk, example, needs_europa, table_words, NAMES

RULES = "class A { predicate P { int x; } }\n"


def many(count: int, text: str) -> str:
    return "".join(text.replace("@", str(number)) for number in range(count))


DEEP = "A::P { " + "if (x == 1) { " * 16 + "} " * 16 + "}"


# A text for each kind, the line and the column of the fault, and a part of its sentence.
TEXTS = {
    "BadByte": ("int x;\n  int @;", 2, 7, "nothing of the language begins with `@`"),
    "OpenComment": ("int x;\n/* never", 2, 1, "never closed"),
    "OutOfRange": ("int [0 1000001] x;", 1, 8, "`1000001` isn't from -1,000,000 to 1,000,000"),
    "Syntax": ("int int x;", 1, 5, "`int` can't stand here behind `int`"),
    "Absent": ('#include "gone.nddl"\n', 1, 1, "there is no file `gone.nddl`"),
    "Limit:nesting": (RULES + DEEP, 2, 230, "nested 17 deep"),
    "Unknown": ("class Rover { }\nRovr r;", 2, 1, "nothing of the name `Rovr` here; is `Rover` meant?"),
    "Twice": ("int x;\nint x;", 2, 5, "`x` is declared already"),
    "WrongType": ("int x;\neq(x, true);", 2, 7, "`true` is of another kind"),
    "WrongCount": ("int x;\nleq(x);", 2, 1, "`leq` has too many or too few arguments"),
    "NotInDomain": ("int [3 0] x;", 1, 5, "the ends of this range are in the wrong order"),
    "Closed": ("class A { }\nclose();\nA a = new A();", 3, 7, "behind `close();`"),
    "NotAdmissible": ("int x;\nx.specify(1);\nx.specify(2);", 3, 1, "this decision is refused: `x`"),
    "AfterConflict": ("int x;\nint y;\nneq(x, 1);\nx.specify(1);\ny.specify(2);", 5, 1, "leave nothing possible"),
}
# Limits that take long texts. A program stands in for europa that says them of a short one, at the first `here`.
STANDS_IN = {
    "Limit:rules": ("A::P { }\nhere::P { }", "1,024 rules"),
    "Limit:guards": ("A::P { }\nhere::P { }", "1,024 guards"),
    "Limit:slots": ("A::P { }\nhere::P { }", "128 tokens"),
    "Limit:locals": ("A::P { }\nhere::P { }", "128 locals"),
    "Limit:items": ("A::P { }\nhere::P { }", "1,024 constraints"),
    "Limit:turns": ("A::P { }\nhere::P { }", "65,536 turns"),
    "Limit:parameters": ("class A {\npredicate here { } }", "the predicate `here` has more than 32 parameters"),
    "Limit:members": ("enum E\n  here { a }", "4,096 members"),
    "Limit:objects": ("A a = new A();\nA b = new here();", "with this `here` there would be more than 4,096 objects"),
    "Limit:new": ("A a = new A();\nA b = new here();", "this `here` is made 17 deep"),
    "Limit:roots": ("goal(a.P g);\nhere(a.P h);", "the 4,097th token"),
    "Limit:facts": ("fact(a.P g);\nhere(a.P h);", "the 513th fact"),
    "Limit:globals": ("int x;\nint here;", "with `here` there would be more than 4,096 globals"),
}
# Kinds that take further files; they have tests of their own.
OF_FILES = {"Limit:bytes", "Limit:files", "Limit:depth"}


class Sentences(unittest.TestCase):
    def test_each_kind_of_the_table_has_a_sentence(self) -> None:
        self.assertEqual(set(table_words("COMMANDS.md", "## Files with faults")), set(KINDS))

    def test_each_kind_is_tried(self) -> None:
        self.assertEqual(set(TEXTS) | set(STANDS_IN) | OF_FILES, set(KINDS))


class StandIn(InFolder):
    def test_limits_have_their_numbers(self) -> None:
        for kind, (text, part) in STANDS_IN.items():
            with self.subTest(kind):
                name = self.put("m.nddl", text)
                program = self.program([f"print('text {kind} m.nddl {text.index('here')}'); sys.exit(3)"])
                ran = self.desk("explain", name, europa=program)
                self.assertEqual(ran.status, 3, ran.err)
                self.assertTrue(ran.first.startswith("m.nddl:2:"), ran.out)
                self.assertIn(part, ran.first)

    def test_a_kind_that_desk_does_not_know_is_handed_on(self) -> None:
        self.put("m.nddl", "int x;")
        program = self.program(["print('text Strange m.nddl 4'); sys.exit(3)"])
        self.assertIn("m.nddl:1:5: europa says `Strange` of `x`", self.desk("explain", "m.nddl", europa=program).first)


@needs_europa
class Faults(InFolder):
    def explained(self, name: str) -> "list[str]":
        ran = self.desk("explain", name)
        self.assertEqual(ran.status, 3, ran.out + ran.err)
        self.assertEqual(ran.err, "")
        return ran.out.splitlines()

    def test_each_kind_has_its_line_its_column_and_its_sentence(self) -> None:
        for kind, (text, line, column, part) in TEXTS.items():
            with self.subTest(kind):
                told = self.explained(self.put("m.nddl", text))
                self.assertEqual(told[0].split(": ")[0], f"m.nddl:{line}:{column}", told)
                self.assertIn(part, told[0])
                self.assertLessEqual(max(map(len, told[1:])), 200)
                self.assertEqual(told[2].strip(" |"), "^")

    def test_the_caret_stands_under_the_place(self) -> None:
        told = self.explained(self.put("m.nddl", "int x;\n\t/* \u00e9\u6f22 */ int @;"))
        self.assertTrue(told[0].startswith("m.nddl:2:15:"), told)
        self.assertEqual(told[1][told[2].index("^") - 1], "@")  # Of two columns one character is shown.

    def test_at_the_end_the_last_line_is_shown(self) -> None:
        told = self.explained(self.put("m.nddl", "int x;\nint y\n\n"))
        self.assertTrue(told[0].startswith("m.nddl:4:1: the text ends behind `y`"), told)
        self.assertEqual(told[1], "  2 | int y")
        self.assertEqual(told[2], "    |      ^")

    def test_variants_of_sentences(self) -> None:
        for text, part in (('"open', "isn't closed on its line"), ("int [0 1.5000] x;", "three digits"),
                           ("string s;", "of the type `string`"), ("class A { predicate P { int end; } }", "own"),
                           ("class A { predicate P { } }\ngoal(A.P g);", "could have no object"),
                           ("class A extends Reusable { A(int n) { super(n); } }\nA a = new A(-1);", "capacity below 0"),
                           ("class A { }\nA a = new A(1);", "made with too many"), ("int {1 2} x;", "can't stand here"),
                           ("int [0 5] x;\nx.specify(9);", "this decision is refused"), ("int x = 1.5;", "the decimal `1.5` can't stand here"),
                           ("float f;\neq(f, 1001);", "which is at most 1,000")):
            with self.subTest(text):
                self.assertIn(part, self.explained(self.put("m.nddl", text))[0])

    def test_the_way_to_an_included_file(self) -> None:
        self.put("m.nddl", 'int a;\n#include "p.nddl"\n')
        self.put("p.nddl", '#include "Plasma.nddl"\n#include "m.nddl"\n#include "q.nddl"\n')
        self.put("q.nddl", "int b;\nint int;\n")
        told = [line for line in self.explained("m.nddl") if " | " not in line]
        self.assertEqual([line.split(": ")[0] for line in told], ["q.nddl:2:5", "p.nddl:3:1", "m.nddl:2:1"])

    def test_absent_files_tell_what_was_looked_for(self) -> None:
        self.assertIn(self.path("gone.nddl"), self.explained("gone.nddl")[0])
        self.put("m.nddl", 'int a; #include "sub/gone.nddl"')
        self.assertIn(self.path("sub/gone.nddl"), self.explained("m.nddl")[0])

    def test_limits_of_files(self) -> None:
        self.put("big.nddl", " " * 1_048_577)
        self.put("m.nddl", 'int a;\n#include "big.nddl"\n')
        self.assertIn("big.nddl:1:1: the file has more than 1,048,576 bytes", self.explained("big.nddl")[0])
        self.assertIn("m.nddl:2:1: the included file has more", self.explained("m.nddl")[0])
        for number in range(9):
            self.put(f"d{number}.nddl", f'#include "d{number + 1}.nddl"\n')
        self.put("d9.nddl", "")
        told = self.explained("d0.nddl")
        self.assertIn("d8.nddl:1:1: this file is included 9 deep", told[0])
        self.assertEqual(len([line for line in told if "it is included here" in line]), 8)
        for number in range(64):
            self.put(f"f{number}.nddl", "")
        self.put("m.nddl", many(64, '#include "f@.nddl"\n'))
        self.assertIn("m.nddl:64:1: this would be the 65th file", self.explained("m.nddl")[0])

    def test_names_with_blanks_quotes_and_line_feeds(self) -> None:
        for name in ("a b.nddl", 'quote".nddl', "line\nfeed.nddl", "-x.nddl", "text Syntax m 3", "$(touch hit).nddl",
                     "\x1b[31mred.nddl", "\u202eturned.nddl"):
            with self.subTest(name):
                self.put(name, "int int;")
                ran = self.desk("explain", "--", name)
                self.assertEqual(ran.status, 3)
                self.assertNotIn("\x1b", ran.out)
                self.assertNotIn("\u202e", ran.out)
                self.assertIn(":1:5: `int` can't stand here", ran.first)
        self.assertIn("line\\x0afeed.nddl:1:5:", self.desk("explain", "line\nfeed.nddl").first)

    def test_a_name_that_is_no_text(self) -> None:
        name = b"caf\xe9.nddl"
        with open(self.folder.encode() + b"/" + name, "wb") as opened:
            opened.write(b"int x;")
        ran = self.desk("explain", name)
        self.assertEqual(ran.status, 2)  # europa takes no such word.
        self.assertIn("no command line", ran.err)

    def test_standard_input(self) -> None:
        ran = self.desk("explain", "-", given="int x;\nint int;")
        self.assertEqual((ran.status, ran.first.split(": ")[0]), (3, "-:2:5"))

    def test_control_characters_of_a_source_are_shown(self) -> None:
        told = self.explained(self.put("m.nddl", "// \x1b[2J \x9b \u200f\n/* \x07 */ int int;"))
        self.assertIn("\\x07", told[1])

    def test_a_line_may_be_long(self) -> None:
        told = self.explained(self.put("m.nddl", f"/* {'x' * 5000} */ int int;"))
        self.assertLess(len(told[1]), 220)
        self.assertEqual(told[1][told[2].index("^"):][:4], "int;")


@needs_europa
class Sound(InFolder):
    def test_the_examples_have_no_fault(self) -> None:
        for name in NAMES:
            with self.subTest(name):
                ran = desk("explain", example(name))
                self.assertEqual((ran.status, ran.first), (0, f"{example(name)}: europa finds no fault in it"))

    def test_decisions_that_leave_nothing_are_told(self) -> None:
        self.put("m.nddl", "int x;\nneq(x, 1);\nx.specify(1);\n")
        ran = self.desk("explain", "m.nddl")
        self.assertEqual(ran.status, 0)
        self.assertIn("  specify x 1", ran.out.splitlines())


if __name__ == "__main__":
    unittest.main()
