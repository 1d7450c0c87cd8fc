"""Makes the runs of tools/hostile: words, files and input by chance, each by a seed and a number alone."""
import random
import re

import bounds
import crates
import extremes
import problems
import sessions
import spoiling
from case import Case, words_of

EXAMPLES = crates.TOP / "examples"
NAMES = [b"m.nddl"] * 8 + [b"./m.nddl", b"a b.nddl", "\u00e9.nddl".encode(), b"-", b"-m.nddl", b"line\nfeed.nddl", b"--steps"]
LONG_SEARCH = re.compile(rb"(solve[ \t\r]+)0*([0-9]{3,7})(?![0-9])")


def make(seed, number):
    """The run of this number."""
    chance = random.Random(f"{seed} {number}")
    kind = chance.choices(list(KINDS), [often for often, _ in KINDS.values()])[0]
    return KINDS[kind][1](kind, chance)


def tamed(script):
    """A script whose searches don't take long by their own wish."""
    return LONG_SEARCH.sub(lambda found: found[0] if int(found[2]) > 1_000_000 else found[1] + b"60", script)


def good_text(chance, slips=None):
    """A problem with a script and the text of a plan: an example, or one made by chance, valid or nearly so."""
    if chance.randrange(100) < 25:
        name = chance.choice(["crew", "first", "ordered", "rover", "satellite"])
        text, script = (EXAMPLES / f"{name}.nddl").read_bytes(), (EXAMPLES / f"{name}.script").read_bytes()
    else:
        text, script = problems.Problem(chance, chance.choice([0, 0, 0, 5, 20]) if slips is None else slips).text, b""
    writer = sessions.Writer(chance, sessions.Names(text), chance.choice([0, 0, 30]) if slips is None else slips)
    script = tamed(script) if script and chance.randrange(2) else writer.script()
    return text, script, writer.plan()


def make_good(kind, chance):
    """Texts as they are."""
    text, script, plan = good_text(chance)
    name, command = chance.choice(NAMES), chance.choice([b"plan", b"plan", b"script", b"script", b"script", b"check", b"show"])
    return Case(kind, words_of(chance, command, name), {name: text, b"p.txt": plan}, script)


def spoil(kind, chance, text):
    """A text that is spoiled in the way that the kind says."""
    if kind == "bytes":
        return spoiling.bytes_by_chance(chance)
    if kind == "fronts":
        return spoiling.front(chance, text)
    if kind == "lines":
        return spoiling.lines_swapped(chance, text)
    change = chance.choice([spoiling.lexeme_changed] * 4 + [spoiling.number_changed] * 2 + [spoiling.bytes_changed])
    return change(chance, text)


def make_spoiled(kind, chance):
    """Good texts of which one is spoiled."""
    text, script, plan = good_text(chance, 0)
    what = chance.choices(["FILE", "PLAN", "input"], [5, 2, 3])[0]
    if what == "FILE":
        command = chance.choice([b"plan", b"plan", b"script", b"check", b"show"])
        files = {b"m.nddl": spoil(kind, chance, text), b"p.txt": plan}
        return Case(kind, words_of(chance, command, b"m.nddl"), files, script)
    if what == "PLAN":
        return Case(kind, [b"check", b"m.nddl", b"p.txt"], {b"m.nddl": text, b"p.txt": spoil(kind, chance, plan)})
    return Case(kind, [b"script", b"m.nddl"], {b"m.nddl": text}, tamed(spoil(kind, chance, script)))


def make_plan(kind, chance):
    """What a search finds is checked, as it stands or spoiled."""
    text, _, _ = good_text(chance, 0)
    case = Case(kind, [b"check", b"m.nddl", b"p.txt"], {b"m.nddl": text})
    case.before, case.made = [b"plan", b"m.nddl", b"--steps", b"60"], b"p.txt"
    if chance.randrange(3):
        how = chance.choice(["fronts", "lines", "lexemes", "lexemes"])
        case.change = lambda output: spoil(how, chance, output)
    else:
        case.wanted = re.compile(rb"valid\n")
    return case


def make_shown(kind, chance):
    """What `show` prints is shown again, and has to be the same."""
    text, _, _ = good_text(chance)
    case = Case(kind, [b"show", b"again.nddl"], {b"m.nddl": text})
    case.before, case.made, case.same = [b"show", b"m.nddl"], b"again.nddl", True
    return case


def make_bound(kind, chance):
    """As many as there may be of something, or one more."""
    name, most, build = chance.choice(bounds.BOUNDS)
    past = chance.randrange(2)
    files = build(most + past)
    files = files if isinstance(files, dict) else {"m.nddl": files}
    files = {**{name.encode(): text.encode() for name, text in files.items()}, b"p.txt": b"plan\nend\n"}
    shown = [b"show"] if name in ("Limit:nesting", "Limit:bytes", "OutOfRange") else []
    command = chance.choice([b"script", b"check", *shown])
    operands = [b"m.nddl", b"p.txt"] if command == b"check" else [b"m.nddl"]
    wanted = rb"text %s .*" % name.encode() if past else rb"(?!text %s ).*" % name.encode()
    return Case(kind, [command, *operands], files, b"flaws\n", wanted)


# Of each kind of run how often it comes, of their sum, and what makes it.
KINDS = {
    "bytes": (50, make_spoiled),
    "fronts": (60, make_spoiled),
    "lines": (50, make_spoiled),
    "lexemes": (170, make_spoiled),
    "good": (150, make_good),
    "plans": (40, make_plan),
    "shown": (15, make_shown),
    "bounds": (40, make_bound),
    "numbers": (20, extremes.make_numbers),
    "counts": (2, extremes.make_counts),
    "names": (25, extremes.make_names),
    "circles": (30, extremes.make_circles),
    "nesting": (30, extremes.make_nesting),
    "reads": (15, extremes.make_reads),
    "words": (60, extremes.make_words),
}
