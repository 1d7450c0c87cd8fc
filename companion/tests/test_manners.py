"""What is usual of a program at the command line."""
import os
import re
import subprocess
import sys
import unittest

from desk.plain import plain, plain_line, table, width

from .helpers import DESK, InFolder, desk, environment, example, needs_europa


class Words(InFolder):
    def test_help_has_examples(self) -> None:
        for words in ([], ["explain"], ["edit"], ["draw"], ["json"], ["plan"]):
            ran = desk(*words, "--help", europa="/nowhere")
            self.assertEqual((ran.status, ran.err), (0, ""))
            self.assertIn("examples:\n  desk ", ran.out)

    def test_version(self) -> None:
        self.assertRegex(desk("--version", europa="/nowhere").out, r"^desk \d+\.\d+\n$")

    def test_words_that_are_no_command_line(self) -> None:
        for words in ([], ["paint"], ["plan"], ["plan", "m", "--steps", "0"], ["plan", "m", "--steps=1000001"],
                      ["plan", "m", "--tokens", "513"], ["draw", "m"], ["explain", "m", "p", "q"], ["json", "-", "-"],
                      ["edit", "-"], ["plan", "m", "--\x1b[31m"], ["\x1b[31m"]):
            with self.subTest(words):
                ran = desk(*words, europa="/nowhere")
                self.assertEqual((ran.status, ran.out), (2, ""))
                self.assertTrue(ran.err)
                self.assertNotIn("\x1b", ran.err)

    def test_a_europa_that_is_not_there(self) -> None:
        self.put("m.nddl", "int x;")
        ran = self.desk("plan", "m.nddl", europa=self.path("no\x1beuropa"))
        self.assertEqual((ran.status, ran.out), (1, ""))
        self.assertIn("europa can't be run as", ran.err)
        self.assertNotIn("\x1b", ran.err)

    def test_statuses_are_those_of_europa(self) -> None:
        self.put("m.nddl", "int x;")
        for status in (20, 21, 30):
            ran = self.desk("plan", "m.nddl", europa=self.program([f"sys.exit({status})"]))
            self.assertEqual((ran.status, ran.out), (status, ""))
            self.assertIn(f"status {status}", ran.err)

    def test_a_program_that_ends_in_the_middle_of_a_plan(self) -> None:
        self.put("m.nddl", "int x;")
        ran = self.desk("plan", "m.nddl", europa=self.program(["print('found 3\\nplan\\nglob', flush=True)", "os.kill(os.getpid(), 9)"]))
        self.assertEqual((ran.status, ran.out), (1, ""))
        self.assertIn("signal 9", ran.err)

    def test_nonsense_is_told_as_such(self) -> None:
        self.put("m.nddl", "int x;")
        self.put("p", "plan\nend\n")
        program = self.program(["print('\\x1b[31mnonsense')"])
        for words in (("explain", "m.nddl", "p"), ("draw", "m.nddl", "p")):
            ran = self.desk(*words, europa=program)
            self.assertEqual((ran.status, ran.out), (1, ""))
            self.assertNotIn("\x1b", ran.err)
            self.assertNotIn("Traceback", ran.err)

    def test_names_are_never_run_by_a_shell(self) -> None:
        program = self.program(["open('asked', 'w').write(repr(sys.argv[1:]))", "print('exhausted 2 bound')", "sys.exit(10)"])
        self.desk("plan", "--", "$(touch hit); `touch hit` 'a\n\"b", europa=program)
        self.assertEqual(self.read("asked"), repr(["plan", "--", "$(touch hit); `touch hit` 'a\n\"b"]))
        self.assertFalse(os.path.exists(self.path("hit")))


@needs_europa
class Streams(InFolder):
    def test_a_reader_that_goes_away(self) -> None:
        with open(self.path("m.nddl"), "w", encoding="utf-8") as opened:
            opened.write("".join(f"int g{number};\ng{number}.specify(0);\n" for number in range(300)))
        running = subprocess.Popen([sys.executable, DESK, "plan", "m.nddl"], cwd=self.folder, env=environment(),
                                   stdout=subprocess.PIPE, stderr=subprocess.PIPE)
        assert running.stdout and running.stderr
        running.stdout.close()
        told = running.stderr.read().decode()
        running.stderr.close()
        self.assertEqual(running.wait(60), 21)
        self.assertNotIn("Traceback", told)

    def test_a_folder_in_place_of_a_file(self) -> None:
        ran = self.desk("plan", ".")
        self.assertEqual((ran.status, ran.out), (20, ""))
        self.assertIn("a folder can't be read as one", ran.err)

    def test_no_temporary_file_stays(self) -> None:
        before = set(os.listdir("/tmp"))
        with open(os.path.join(os.path.dirname(DESK), example("rover")), encoding="utf-8") as opened:
            self.assertEqual(desk("plan", "-", given=opened.read()).status, 0)
        self.assertEqual([name for name in set(os.listdir("/tmp")) - before if name.startswith("desk-")], [])


class Texts(unittest.TestCase):
    def test_nothing_that_steers_a_terminal_is_left(self) -> None:
        for code in [*range(32), *range(127, 160), 0x200E, 0x202E, 0x2028, 0x2066, 0xFEFF, 0xDCFF, 0xE000]:
            self.assertTrue(re.fullmatch(r"\\[xu][0-9a-f]+", plain(chr(code))), code)
        self.assertEqual(plain("caf\u00e9 \u6f22"), "caf\u00e9 \u6f22")
        self.assertEqual(plain_line("\ta\x00"), "    a\\x00")

    def test_columns_stand_under_one_another(self) -> None:
        self.assertEqual(table([("\u6f22", "b"), ("abc", "d")], ""), ["\u6f22   b", "abc  d"])
        self.assertEqual((width("e\u0301"), width("\u6f22")), (1, 2))


if __name__ == "__main__":
    unittest.main()
