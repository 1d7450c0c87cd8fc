"""`desk edit`: sessions through pipes and at a terminal, and each refusal's sentence."""
import os
import pty
import select
import signal
import subprocess
import sys
import time
import unittest
from types import SimpleNamespace

from desk.refusals import REASONS, explain_refusal
from desk.state import Domain, Known, read_domain
from desk.names import Kind
from desk.steps import Steps, same_front
from desk.europa import Reply

from .helpers import DESK, NAMES, InFolder, desk, environment, example, needs_europa, table_words


def session(name: str, *lines: str, words: "tuple[str, ...]" = ()) -> "list[str]":
    """What a session over an example tells behind its first line."""
    ran = desk("edit", *words, example(name), given="\n".join(lines) + "\n")
    assert ran.status == 0 and not ran.err, ran.err
    return ran.out.splitlines()[1:]


class Parts(unittest.TestCase):
    def test_each_reason_of_the_table_has_a_sentence(self) -> None:
        words = table_words("SESSIONS.md", "the first of these that applies:")
        self.assertEqual(words, list(REASONS))

    def test_domains_are_read(self) -> None:
        self.assertEqual(read_domain("a/0:0.start [-3 7]"), Domain(("-3", "7"), True))
        self.assertEqual(read_domain("a.o {x y.z}"), Domain(("x", "y.z"), False))
        self.assertIsNone(read_domain("inconsistent"))
        self.assertEqual([str(Domain(("4", "4"), True)), str(Domain(("a", "b"), False))], ["4", "a or b"])

    def test_steps_follow_what_is_done(self) -> None:
        steps = Steps(["specify x 1"])
        steps.note("activate a", Reply(["ok"]))
        steps.note("activate b", Reply(["refused unknown"]))
        steps.note_search(["specify y 2", "specify z 3"])
        steps.note("reset x", Reply(["ok"]))
        self.assertEqual((steps.of_search(), steps.behind_search(), len(steps.made)), (2, 1, 5))
        steps.note("undo", Reply(["ok"]))
        self.assertEqual(steps.behind_search(), 0)
        for line in ("post leq x y", "relate before a b", "withdraw leq x y", "unrelate before a b"):
            steps.note(line, Reply(["ok"]))
        self.assertEqual((steps.behind_search(), len(steps.made)), (4, 8))
        self.assertEqual(same_front(["a", "b"], ["a", "c", "d"]), 1)

    def test_refusals_that_are_hard_to_come_by(self) -> None:
        names = SimpleNamespace(shown=lambda word: word, shown_line=lambda line: line, by_alias={})
        state = SimpleNamespace(aliases=names, tokens={"a": Known("a", Kind("A", "P"), "active")}, domain=lambda word: None)
        for reason, part in (("full", "100,000 steps"), ("active-full", "512 tokens"), ("strange", "refused strange")):
            self.assertIn(part, explain_refusal(reason, state, ["activate", "a"]))


@needs_europa
class Sessions(InFolder):
    def test_the_scripts_of_the_examples(self) -> None:
        for name in NAMES:
            with self.subTest(name):
                with open(os.path.join("..", "examples", f"{name}.script"), encoding="utf-8") as opened:
                    told = session(name, opened.read())
                self.assertNotIn("refused", "\n".join(told))

    def test_labels_stand_for_subgoals(self) -> None:
        told = session("rover", "activate sample", "activate sample.stand", "domain sample/0:0.start",
                       "domain sample.stand.start")
        self.assertEqual(told, ["ok", "ok", "sample.stand.start  1 to 56", "sample.stand.start  1 to 56"])

    def test_labels_of_turns(self) -> None:
        told = session("crew", "activate day", "activate day.meal[ben]", "activate pump", "activate pump.Work[ada]", "tokens")
        self.assertEqual(told[:4], ["ok"] * 4)
        self.assertIn("  day.meal[ben]   day/0:2           Member.Meal         active", told)

    def test_a_conflict_stands_behind_inconsistent(self) -> None:
        told = session("first", "activate there", "activate there.trip", "specify there.start 5",
                       "specify there.trip.start 6", "cycle", "activate there", "domain there.start", "undo")
        self.assertEqual(told[3:8], ["inconsistent: nothing is possible with the decisions that stand",
                                     "  these can't all stand, and none of them can go:", "    activate there",
                                     "    specify there.start 5", "    specify there.trip.start 6"])
        self.assertIn("  origin + 6 <= there.trip.start", told)
        self.assertTrue(any(line.startswith("refused: nothing is possible") for line in told))
        self.assertEqual(told[-1], "ok")

    def test_each_refusal_says_which_word(self) -> None:
        told = session("rover", "x " * 2100, "nonsense", "specify", "activate sampel", "specify sample.sight rock",
                       "specify sample.site moon", "specify sample rock", "activate sample.start", "specify sample.site hill",
                       "activate landed", "specify extra.deep false", "merge sample extra", "merge extra sample.stand",
                       "reject sample", "activate sample", "merge extra sample.stand", "activate sample.stand",
                       "merge extra sample.stand", "order sample sample", "order sample landed", "order sample landed",
                       "undo", "reset extra", "why", "undo 99", "undo", "specify landed.duration 0")
        told = [line[9:] for line in told if line.startswith("refused: ")]
        parts = ["4,096 bytes", "no command `nonsense`", "`specify VARIABLE VALUE`", "no token `sampel`; is `sample` meant?",
                 "no variable `sample.sight`; is `sample.site` meant?", "`moon` is no value of `sample.site`, which may be rock",
                 "`sample` is a token, and a variable", "`sample.start` is a variable, and a token",
                 "`sample.site` has a value already; `reset sample.site`", "`landed` is a fact", "rejectable",
                 "`extra` would have to be active", "no token `sample.stand`", "isn't posted as a rejectable"]
        for part, line in zip(parts, told):
            self.assertIn(part, line)
        rest = "\n".join(told[len(parts):])
        for part in ("would have to be active for that; it is inactive", "can't be ordered before itself",
                     "only tokens of one predicate can be merged: `extra` is of Drill.Sampling",
                     "no decision on `extra` stands", "something is possible", "no step to take back"):
            self.assertIn(part, rest)

    def test_what_is_posted(self) -> None:
        told = session("ordered", "post lt x y", "post lt x y", "post lt x q", "post leq x", "post leq x 2000000", "post leq",
                       "withdraw leq x y", "withdraw lt x y", "unrelate before x y", "undo", "decisions")
        for part, line in zip(("ok", "stands already; `withdraw lt x y` takes it out", "`q` is neither a variable nor a value",
                               "`leq` takes two numbers of one kind", "out of range", "`post KIND ARGUMENT ..`",
                               "no such decision stands", "ok", "no such decision stands", "ok"), told):
            self.assertIn(part, line)
        self.assertIn("  post lt x y", told)
        told = session("crew", "relate before pump day", "relate before pump day", "relate before pump pump",
                       "relate before pump washing", "relate before pump lunch", "unrelate before pump day", "undo", "undo")
        for part, line in zip(("ok", "`unrelate before pump day` takes it out", "`pump` can't be related to itself",
                               "one of `pump` and `washing` is a rejectable", "no token `lunch`", "ok", "ok", "ok"), told):
            self.assertIn(part, line)

    def test_a_value_that_was_never_there(self) -> None:
        self.assertIn("was declared without the value `99`", session("ordered", "specify x 99")[0])

    def test_undo_some_and_all_of_a_search(self) -> None:
        told = session("rover", "undo solve", "activate sample", "solve 500 20", "activate sample", "undo solve", "decisions",
                       "solve", "undo 2", "undo solve", "undo x")
        self.assertIn("refused: no search of this session has decided anything", told[0])
        self.assertIn("  activate sample", told)
        at = told.index("  activate sample")
        self.assertEqual(told[at - 5:at + 1][-1], "  activate sample")
        self.assertEqual(sum("steps taken back" in line for line in told), 3)
        self.assertIn("`undo`", told[-1])

    def test_steps_behind_a_search_are_kept(self) -> None:
        told = session("first", "activate there", "solve", "reset there.start", "undo solve", "undo 1", "undo solve")
        self.assertTrue(any("1 step behind the search would go too" in line for line in told), told)
        self.assertEqual(told[-1], "ok")

    def test_saving_and_going_on(self) -> None:
        saved, plan, page = self.path("saved.txt"), self.path("plan.txt"), self.path("page.html")
        told = session("rover", "activate sample", "solve 500 20", "undo 4", f"save {saved}", "solve 1 512",
                       "solve", f"plan {plan}", f"draw {page}")
        decided = self.read("saved.txt")
        self.assertIn("merge extra/0:0/0:0/1:0 sample/0:0\n", decided)
        self.assertEqual(desk("explain", example("rover"), plan).status, 0)
        self.assertIn("<!DOCTYPE html>", self.read("page.html"))
        again = session("rover", "decisions", f"load {saved}", "undo", words=("--load", saved))
        lines = [line[2:] for line in again if line.startswith("  ")]
        self.assertEqual(len(lines), len(decided.splitlines()))
        self.assertEqual(again[-1], "ok")
        self.assertTrue(told)

    def test_files_are_not_written_over(self) -> None:
        problem = self.path(self.put("m.nddl", "int [0 1] x;\n"))
        given = f"save {problem}\nplan {problem}\ndraw {problem}\nload {problem}\nsave /nowhere/x\nload gone\nspecify x 1\nplan m2\n"
        ran = self.desk("edit", "m.nddl", given=given)
        self.assertEqual(self.read("m.nddl"), "int [0 1] x;\n")
        self.assertEqual(ran.out.count("isn't written over"), 2)
        self.assertIn("has something else in it than decisions", ran.out)
        self.assertIn("can't be written", ran.out)
        self.assertEqual(self.read("m2"), "plan\nglobal x 1\nend\n")

    def test_showing(self) -> None:
        told = "\n".join(session("rover", "activate sample", "show", "show sample", "show rover", "show battery", "show x",
                                 "help", "help undo", "flaws", "draw"))
        for part in ("battery  Battery  a reservoir", "  site      rock     decided", "the rule's object.rover.battery",
                     "  sample.stand  sample/0:0        Rover.At         inactive", "no token, object or variable `x`",
                     "undo solve", "next to decide is the token", "[=] surely, . perhaps"):
            self.assertIn(part, told)

    def test_comments_and_the_protocol(self) -> None:
        told = session("ordered", "# nothing", "specify x 4 # four", "raw on", "domain y", "raw off", "domain y", "quit", "no")
        self.assertEqual(told, ["ok", "> domain y", "< y [4 10]", "y  4 to 10", "y  4 to 10"])

    def test_control_characters_do_not_reach_the_terminal(self) -> None:
        told = "\n".join(session("ordered", "\x1b[2J", "specify \x1b]0;x\x07 1", "save \x1b[1m/x", "show \x9b1m", "help \x1b"))
        for character in "\x1b\x07\x9b":
            self.assertNotIn(character, told)


class BrokenOff(InFolder):
    """A program that stands in for europa ends in the middle."""

    def run_with(self, *lines: str, given: str = "tokens\n") -> "tuple[int, str]":
        self.put("m.nddl", "int x;\n")
        ran = self.desk("edit", "m.nddl", given=given, europa=self.program(list(lines)))
        self.assertNotIn("Traceback", ran.err)
        return ran.status, ran.err

    def test_before_it_answers(self) -> None:
        self.assertEqual(self.run_with("sys.exit(30)"),
                         (30, "desk: europa ended in the middle of the session (status 30: memory ran out)\n"))

    def test_within_a_reply(self) -> None:
        shown = "if sys.argv[1] == 'show': print('int x ;'); sys.exit(0)"
        status, told = self.run_with(shown, "print('decisions 3', flush=True)", "print('specify x 1')")
        self.assertEqual(status, 1)
        self.assertIn("ended in the middle", told)

    def test_by_a_signal(self) -> None:
        status, told = self.run_with("os.kill(os.getpid(), 9)")
        self.assertEqual(status, 1)
        self.assertIn("signal 9", told)

    def test_in_a_plan(self) -> None:
        shown = "if sys.argv[1] == 'show': print('int x ;'); sys.exit(0)"
        status, told = self.run_with(shown, "for line in sys.stdin:", " if line.startswith('solve'):",
                                     "  print('found 3\\nplan\\nglobal x', flush=True); os._exit(21)",
                                     " print('decisions 0' if line.startswith('d') else 'tokens 0', flush=True)",
                                     given="solve\n")
        self.assertEqual(status, 21)
        self.assertIn("status 21", told)


def children_of(pid: int) -> "list[int]":
    found = []
    for name in filter(str.isdecimal, os.listdir("/proc")):
        try:
            with open(f"/proc/{name}/stat", encoding="utf-8") as opened:
                if int(opened.read().rpartition(")")[2].split()[1]) == pid:
                    found.append(int(name))
        except OSError:
            pass
    return found


def is_running(pid: int) -> bool:
    try:
        with open(f"/proc/{pid}/stat", encoding="utf-8") as opened:
            return opened.read().rpartition(")")[2].split()[0] != "Z"
    except OSError:
        return False


class Ended(InFolder):
    def test_nothing_is_left_running(self) -> None:
        self.put("m.nddl", "int x;")
        program = self.program(["import subprocess", "other = subprocess.Popen(['sleep', '60'])",
                                "open('pids', 'w').write(f'{os.getpid()} {other.pid}')", "time.sleep(60)"])
        for given, status in ((signal.SIGINT, 130), (signal.SIGTERM, 143), (signal.SIGHUP, 129)):
            with self.subTest(given):
                if os.path.exists(self.path("pids")):
                    os.unlink(self.path("pids"))
                running = subprocess.Popen([sys.executable, DESK, "plan", "m.nddl"], cwd=self.folder,
                                           env=environment(program), stderr=subprocess.PIPE,
                                           preexec_fn=lambda: signal.signal(signal.SIGINT, signal.default_int_handler))
                pids = self.pids()
                running.send_signal(given)
                self.assertEqual(running.wait(20), status)
                assert running.stderr
                self.assertNotIn(b"Traceback", running.stderr.read())
                running.stderr.close()
                time.sleep(0.2)
                self.assertEqual([pid for pid in pids if is_running(pid)], [])

    def pids(self) -> "list[int]":
        for _ in range(200):
            time.sleep(0.05)
            if os.path.exists(self.path("pids")) and len(self.read("pids").split()) == 2:
                return list(map(int, self.read("pids").split()))
        self.fail("the program didn't start")


class AtTerminal(InFolder):
    """A session at a terminal, with its prompt, its completion and its history."""

    def start(self, problem: str, europa: "str | None" = None) -> None:
        self.pid, self.screen = pty.fork()
        if self.pid == 0:
            signal.signal(signal.SIGINT, signal.default_int_handler)
            os.chdir(os.path.dirname(DESK))
            os.environ.update(environment(europa), TERM="dumb", XDG_STATE_HOME=self.folder)
            os.execv(sys.executable, [sys.executable, DESK, "edit", problem])
        self.addCleanup(self.end)
        self.seen = ""
        self.wait_for("desk> ")

    def end(self) -> None:
        """Closes the terminal, which ends a session that is still there."""
        os.close(self.screen)
        if self.pid:
            os.waitpid(self.pid, 0)

    def finish(self) -> None:
        """Ends the session by Ctrl-D, once it has its prompt."""
        self.wait_for("desk> ")
        os.write(self.screen, b"\x04")
        try:
            while os.read(self.screen, 4096):
                pass
        except OSError:
            pass  # So the end of a terminal is told.
        pid, self.pid = self.pid, 0
        self.assertEqual(os.waitpid(pid, 0)[1], 0)

    def wait_for(self, text: str) -> None:
        until = time.monotonic() + 30
        while text not in self.seen:
            ready, _, _ = select.select([self.screen], [], [], 1)
            if ready:
                try:
                    self.seen += os.read(self.screen, 4096).decode()
                except OSError:
                    break
            if time.monotonic() > until:
                break
        self.assertIn(text, self.seen)
        self.seen = self.seen.split(text, 1)[1]

    def type(self, text: str, answer: str) -> None:
        os.write(self.screen, text.encode())
        self.wait_for(answer)

    def test_a_search_is_broken_off_and_the_session_goes_on(self) -> None:
        program = self.program([
            "made = []", "if sys.argv[1] == 'show': print('int x ;'); sys.exit(0)", "for line in sys.stdin:",
            " word = line.split()[0]", " if word == 'solve': time.sleep(60)",
            " if word == 'specify': made.append(line)", " reply = {'decisions': f'decisions {len(made)}\\n' + ''.join(made),",
            "          'tokens': 'tokens 0\\n'}.get(word, 'ok\\n')", " print(reply, end='', flush=True)"])
        self.start(self.path(self.put("m.nddl", "int x;")), program)
        self.type("specify x 4\n", "ok")
        self.type("solve\n", "solve")
        time.sleep(0.5)
        self.type("\x03", "broken off; the steps from before stand")
        self.type("decisions\n", "specify x 4")
        self.finish()

    @needs_europa
    def test_prompt_completion_and_history(self) -> None:
        self.start(example("rover"))
        self.type("act\tsam\t\n", "ok")
        self.type("activate sample.st\t\n", "ok")
        self.type("specify sample.stand.st\t56\n", "ok")
        self.type("specify sample.start 3\n", "desk (inconsistent)> ")
        self.type("undo\n", "ok")
        self.wait_for("desk> ")  # What is typed earlier is echoed by the terminal, and not by the prompt.
        self.type("half a line", "half a line")
        self.type("\x03", "desk> ")
        self.type("decisions\n", "specify sample.stand.start 56")
        self.finish()
        self.assertIn("activate sample.stand", self.read("europa-desk/history"))


if __name__ == "__main__":
    unittest.main()
