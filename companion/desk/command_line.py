"""The command line of desk."""
import argparse
import json
import os
import shutil
import signal
import sys
import tempfile
from contextlib import contextmanager
from typing import IO, Callable, Iterator, List, NoReturn, Optional, Tuple

from . import VERSION, characters, page, planning, terminal
from .asked import Checked, Files, check, known_problem
from .chart import Chart, bars_of_plan, build
from .constants import ask_constants
from .europa import DONE, FAULT, INTERRUPTED, INVALID, USAGE, WRITE_FAILED, Dialogue, Europa, EuropaFault, TextFault
from .faults import explain_fault
from .document import document
from .names import Aliases
from .plain import plain, plain_line
from .problem import Problem
from .rules import RuleBook
from .session import Session
from .sources import Sources
from .written import NotWritten, is_page, write

STANDARD_INPUT = "-"
TOP = os.path.dirname(os.path.dirname(os.path.dirname(os.path.realpath(__file__))))

EXAMPLES = {
    "": "  desk plan examples/rover.nddl > plan.txt\n  desk explain examples/rover.nddl plan.txt\n"
        "  desk draw examples/rover.nddl plan.txt > plan.html\n  desk edit examples/rover.nddl",
    "explain": "  desk explain examples/rover.nddl\n  desk explain examples/rover.nddl plan.txt\n"
               "  desk plan examples/rover.nddl | desk explain examples/rover.nddl -",
    "edit": "  desk edit examples/rover.nddl\n  desk edit examples/rover.nddl --load saved.txt\n"
            "  desk edit --raw examples/first.nddl < examples/first.script",
    "draw": "  desk draw examples/rover.nddl plan.txt > plan.html\n"
            "  desk draw examples/rover.nddl plan.txt -o plan.html\n  desk draw --text examples/rover.nddl plan.txt",
    "json": "  desk json examples/rover.nddl plan.txt\n"
            "  desk plan examples/rover.nddl | desk json examples/rover.nddl -",
    "plan": "  desk plan examples/rover.nddl > plan.txt\n  desk plan examples/rover.nddl --steps 10000 --tokens 40",
}


class Usage(Exception):
    """Words that desk can't take as they are."""


class Parser(argparse.ArgumentParser):
    """A parser whose messages can't steer a terminal, whatever the words are."""

    def error(self, message: str) -> NoReturn:
        self.exit(USAGE, f"{self.prog}: {plain(message)}\n`{self.prog} --help` has examples.\n")


def number(least: int, greatest: int) -> Callable[[str], int]:
    """A reader of numbers of one to seven digits, as europa takes them."""
    def read(text: str) -> int:
        if not (text.isascii() and text.isdecimal() and len(text) <= 7 and least <= int(text) <= greatest):
            raise argparse.ArgumentTypeError(f"{text} isn't from {least} to {greatest}")
        return int(text)
    return read


def add_command(commands: "argparse._SubParsersAction[Parser]", name: str, told: str) -> Parser:
    parser = commands.add_parser(name, help=told, description=told[0].upper() + told[1:] + ".",
                                 epilog="examples:\n" + EXAMPLES[name],
                                 formatter_class=argparse.RawDescriptionHelpFormatter)
    parser.add_argument("file", metavar="FILE", help="the problem; - is standard input")
    return parser


def parser_of_words() -> Parser:
    parser = Parser(prog="desk", description="A companion of europa for the person at the desk.",
                    epilog=f"examples:\n{EXAMPLES['']}\n\nEUROPA in the environment names another program "
                           "than the europa beside desk.", formatter_class=argparse.RawDescriptionHelpFormatter)
    parser.add_argument("--version", action="version", version=f"desk {VERSION}")
    commands = parser.add_subparsers(dest="command", metavar="COMMAND", required=True)
    explain = add_command(commands, "explain", "says what is wrong with a problem or a plan, and where")
    explain.add_argument("plan", metavar="PLAN", nargs="?", help="the text of a plan; - is standard input")
    edit = add_command(commands, "edit", "opens a session over a problem")
    edit.add_argument("--load", metavar="SAVED", help="goes on from the decisions that `save` wrote into a file")
    edit.add_argument("--raw", action="store_true", help="shows the protocol beside what is told")
    draw = add_command(commands, "draw", "draws a plan as a page, or with characters")
    draw.add_argument("plan", metavar="PLAN", help="the text of a plan; - is standard input")
    draw.add_argument("--text", action="store_true", help="draws with characters")
    draw.add_argument("-o", "--output", metavar="PAGE", help="writes the page into this file")
    as_json = add_command(commands, "json", "prints a plan as JSON")
    as_json.add_argument("plan", metavar="PLAN", help="the text of a plan; - is standard input")
    plan = add_command(commands, "plan", "searches for a plan")
    plan.add_argument("--steps", metavar="N", type=number(1, 1_000_000), help="how many visits the search may make")
    plan.add_argument("--tokens", metavar="N", type=number(0, 512), help="how many tokens may take place")
    return parser


@contextmanager
def taken_files(words: argparse.Namespace) -> Iterator[Files]:
    """The files of a command, where standard input stands in a file for as long as it takes."""
    names = [words.file] + ([words.plan] if getattr(words, "plan", None) else [])
    if names.count(STANDARD_INPUT) > 1:
        raise Usage("only one file can come from standard input")
    if STANDARD_INPUT in names and words.command == "edit":
        raise Usage("the session itself is read from standard input, so FILE can't be -")
    if STANDARD_INPUT not in names:
        yield Files(names[0], names[-1], Sources(names[0]))
        return
    with tempfile.TemporaryDirectory(prefix="desk-") as folder:
        copy = os.path.join(folder, "input")
        with open(copy, "wb") as opened:
            shutil.copyfileobj(sys.stdin.buffer, opened)
        names = [copy if name == STANDARD_INPUT else name for name in names]
        yield Files(names[0], names[-1], Sources(names[0], {copy: STANDARD_INPUT}))


def say(lines: List[str], stream: Optional[IO[str]] = None) -> None:
    """Writes lines; whatever stands in them, none of it can steer a terminal."""
    (stream or sys.stdout).write("".join(plain_line(line) + "\n" for line in lines))


def explain(europa: Europa, files: Files, words: argparse.Namespace) -> int:
    """Tells what is wrong with a problem, or with a plan of it."""
    called = plain(files.sources.called(files.problem))
    if words.plan:
        checked = check(europa, files)
        say(checked.explained() or [f"{plain(files.sources.called(files.plan))}: europa says it is a valid plan of "
                                    f"{called}"])
        return DONE if checked.is_valid else INVALID
    dialogue = Dialogue(europa, files.problem)
    try:
        reply = dialogue.ask("why")
    finally:
        dialogue.close()
    told = [f"{called}: europa finds no fault in it"]
    if reply.first.startswith("conflict"):
        told.append("its decisions leave nothing possible; none of these can go:" if reply.rest else
                    "nothing is possible, whatever is decided")
        told += [f"  {plain(line)}" for line in reply.rest]
    say(told)
    return DONE


def edit(europa: Europa, files: Files, words: argparse.Namespace) -> int:
    problem = known_problem_or_fault(europa, files)
    session = Session(europa, files.sources, problem, Aliases(RuleBook(problem)), lambda line: say([line]))
    try:
        session.raw = words.raw
        if words.load:
            session.state.refresh()
            session.load([words.load])
        terminal.run(session)
    finally:
        session.close()
    return DONE


def known_problem_or_fault(europa: Europa, files: Files) -> Problem:
    """The problem's declarations; its first fault comes before, as `script` tells it."""
    Dialogue(europa, files.problem).close()
    return known_problem(europa, files.sources)


def charted(europa: Europa, files: Files) -> Tuple[Checked, Optional[Chart]]:
    """A plan with europa's verdict and, where its text can be read, what is drawn of it."""
    checked = check(europa, files)
    if checked.plan is None:
        return checked, None
    constants = ask_constants(europa, files.sources, checked.problem)
    return checked, build(checked.problem, bars_of_plan(checked.plan, checked.aliases), constants)


def plan_notes(checked: Checked, chart: Chart) -> List[str]:
    """What a drawing says beside the bars."""
    assert checked.plan
    notes = [f"Horizon from {chart.horizon[0]} to {chart.horizon[1]}" +
             (f", of which {chart.first} to {chart.last} is drawn." if chart.is_part else ".")]
    rejected = [token.name for token in checked.plan.tokens.values() if token.state == "rejected"]
    notes += [f"Not taking place: {', '.join(rejected)}."] if rejected else []
    globals_there = [f"{name} {value}" for name, value in checked.plan.globals.items()]
    return notes + ([f"Globals: {', '.join(globals_there)}."] if globals_there else [])


def draw(europa: Europa, files: Files, words: argparse.Namespace) -> int:
    checked, chart = charted(europa, files)
    if chart is None:
        say(checked.explained(), sys.stderr)
        return INVALID
    problem, plan = (files.sources.called(name) for name in (files.problem, files.plan))
    verdict = ["europa says: a valid plan"] if checked.is_valid else \
        ["europa says: not a valid plan"] + [line.strip() for line in checked.explained() if " | " not in line]
    if words.text:
        drawn = "\n".join(verdict + plan_notes(checked, chart) + [""] +
                          characters.draw(chart, shutil.get_terminal_size((100, 24)).columns)) + "\n"
    else:
        title = f"{plan}, a plan of {problem}"
        drawn = page.draw(chart, title, (checked.is_valid, verdict), plan_notes(checked, chart))
    if words.output:
        write(words.output, drawn, lambda text: words.text or is_page(text))
    else:
        sys.stdout.write(drawn)
    if not checked.is_valid:
        say(checked.explained(), sys.stderr)
    return DONE if checked.is_valid else INVALID


def as_json(europa: Europa, files: Files, words: argparse.Namespace) -> int:
    checked, chart = charted(europa, files)
    if chart is None or checked.plan is None:
        say(checked.explained(), sys.stderr)
        return INVALID
    json.dump(document(checked, checked.plan, chart), sys.stdout, indent=2)
    sys.stdout.write("\n")
    if not checked.is_valid:
        say(checked.explained(), sys.stderr)
    return DONE if checked.is_valid else INVALID


def plan(europa: Europa, files: Files, words: argparse.Namespace) -> int:
    return planning.search(europa, files.problem, files.sources.called(files.problem), words.steps, words.tokens)


COMMANDS = {"explain": explain, "edit": edit, "draw": draw, "json": as_json, "plan": plan}


def carry_out(words: argparse.Namespace) -> int:
    """Carries a command out; a fault of a text is explained, where it is what was asked for on standard output."""
    europa = Europa(os.environ.get("EUROPA") or os.path.join(TOP, "europa"))
    with taken_files(words) as files:
        try:
            return COMMANDS[words.command](europa, files, words)
        except TextFault as fault:
            say(explain_fault(fault.line, files.sources), sys.stdout if words.command == "explain" else sys.stderr)
            return FAULT


def end_by_signal(given: int, _frame: object) -> NoReturn:
    """Ends as an exception does, so that what desk started is ended first."""
    sys.exit(128 + given)


def prepare_streams() -> None:
    """Whatever is told can be written, and names come in whatever their bytes are."""
    for stream, errors in ((sys.stdin, "surrogateescape"), (sys.stdout, "backslashreplace"),
                           (sys.stderr, "backslashreplace")):
        if hasattr(stream, "reconfigure"):
            stream.reconfigure(errors=errors)
    for given in (signal.SIGTERM, signal.SIGHUP):
        signal.signal(given, end_by_signal)


def main(arguments: List[str]) -> int:
    """Runs desk on the words of its command line; the status is the answer."""
    prepare_streams()
    try:
        status = carry_out(parser_of_words().parse_args(arguments))
        sys.stdout.flush()
        return status
    except (Usage, NotWritten) as fault:
        say([f"desk: {fault}"], sys.stderr)
        return USAGE if isinstance(fault, Usage) else WRITE_FAILED
    except EuropaFault as fault:
        say([f"desk: {fault}"], sys.stderr)
        return fault.status
    except KeyboardInterrupt:
        return INTERRUPTED
    except BrokenPipeError:
        os.dup2(os.open(os.devnull, os.O_WRONLY), sys.stdout.fileno())
        return WRITE_FAILED
