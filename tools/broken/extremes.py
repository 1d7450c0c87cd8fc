"""Runs at the ends of what may be: long names, circles, deep nesting, numbers and counts, failing reads, wrong words."""
import re

import spoiling
from case import FOLDER, WRITTEN, Case, words_of

LONG = 65536
SMALL = {b"m.nddl": b"int [0 3] x;\n"}
NAMED = b"""enum E { W, V }
class C { E f; C(E a) { f = a; } predicate P { E p; } }
C o = new C(W);
C::P { eq(p, object.f); any(o.P s); }
goal(o.P l);
E x;
"""
NESTED = [
    (b"A::P { if (true) { ", b"} "), (b"A::P { if (true) { } else ", b"{ }"), (b"A::P { foreach (a in A) { ", b"} } "),
    (b"A::P { foreach (a in A) { if (a.k == 1) { ", b"} } "), (b"foreach (a in A) { ", b"} "), (b"if (true) { } else ", b""),
    (b"class A { ", b"} "), (b"class A { predicate P { ", b"} } "), (b"eq(", b"); "), (b"new A(", b")"), (b"int {1, ", b"} "),
    (b"{ ", b"} "), (b"( ", b") "), (b"[ ", b"] "), (b"/* ", b"*/ "), (b"a.", b""), (b"- ", b""), (b"::", b""),
]
HEADS = [b"", b"class A { predicate P { } }\nA::P { ", b"class A { predicate P { } }\nA::P { eq(", b"class A { A() { "]
REPEATED = [b"rejected g\n", b"merged g/0:0 g\n", b"plan\n", b"global x 1\n", b"g" + b"/0:0" * 50]
WORDS = [
    *b"plan script check show gen try --steps --tokens -- - m.nddl p.txt --help --version -h Plan solve --steps=5".split(),
    *b"--tokens=5 --steps= --tokens=513 --steps=0 --steps=1000000 --steps=1000001 --steps=00000007 --step=5".split(),
    *b"--STEPS=5 --steps=5=5 ---steps --tokens=-1 -5 +5 5 0 1 200 201 007 0000001 00000001 1e2 512 513".split(),
    *b"\xff m\xc3.nddl \xed\xa0\x80 --steps=\xff \xc3\xa9 \xf0\x9f\x98\x80".split(), b"", b"plan ", b" 5", b"5 ", b"m.nddl\n",
]
LINES = [
    ["plan", "m.nddl"], ["plan", "--steps", "5", "m.nddl"], ["plan", "m.nddl", "--tokens=9", "--steps=5"], ["script", "m.nddl"],
    ["check", "m.nddl", "p.txt"], ["show", "m.nddl"], ["gen", "5"], ["try", "2"], [],
]


def make_names(kind, chance):
    """Names of 64 KiB, as those of files and in texts, plans and scripts."""
    makers = [long_file, long_plan, long_include, long_word_in_plan, long_words, long_words, long_words]
    return chance.choice(makers)(kind, chance)


def long_name(chance):
    name = chance.choice([b"n", b"n" * 200 + b"/", b"../", b"./"]) * LONG
    return name[:LONG - chance.randrange(2)]


def long_word(chance):
    return b"w" * (LONG + chance.randrange(-1, 2))


def long_file(kind, chance):
    return Case(kind, words_of(chance, chance.choice([b"plan", b"show", b"script", b"check"]), long_name(chance)))


def long_plan(kind, chance):
    return Case(kind, [b"check", b"m.nddl", long_name(chance)], SMALL)


def long_include(kind, chance):
    return Case(kind, [b"plan", b"m.nddl"], {b"m.nddl": b'int x;\n#include "%s"\n' % long_name(chance)})


def long_word_in_plan(kind, chance):
    return Case(kind, [b"check", b"m.nddl", b"p.txt"], {**SMALL, b"p.txt": b"plan\nglobal %s 4\nend\n" % long_word(chance)})


def long_words(kind, chance):
    """A problem in which some names are long."""
    text, word = NAMED, long_word(chance)
    for short in chance.sample(b"W C P o l p f x E s".split(), chance.randint(1, 4)):
        text = re.sub(rb"\b" + short + rb"\b", short + word, text)
    command = chance.choice([b"plan", b"show", b"script"])
    given = b"tokens\nactivate %s\ndomain x\ndomain l.p\ndecisions\nflaws\nsolve 9 9\n%s\n\nspecify x W" % (word, word)
    return Case(kind, [command, b"m.nddl"], {b"m.nddl": text}, given)


def make_circles(kind, chance):
    """Files that include one another, in circles, themselves by other names, and what isn't there."""
    names = [b"m.nddl"] + [b"f%d.nddl" % number for number in range(chance.randint(1, 12))]
    files = {}
    for name in names:
        others = [chance.choice([b"", b"", b"", b"./", b"././"]) + chance.choice(names) for _ in range(chance.randint(0, 4))]
        others += [b"nowhere.nddl"] * (chance.randrange(40) == 0) + [b"\xff.nddl", b"", b"/"] * (chance.randrange(60) == 0)
        lines = [b'#include "%s"' % other for other in others] + [b"int x%s;" % name[:-5]]
        if chance.randrange(6) == 0:
            lines = spoiling.lexeme_changed(chance, b"\n".join(lines)).split(b"\n")
        chance.shuffle(lines)
        files[name] = b"\n".join(lines)
    return Case(kind, [chance.choice([b"plan", b"script", b"show"]), b"m.nddl"], files, b"tokens\ndomain xm\nsolve 9 9\n")


def make_nesting(kind, chance):
    """What may be nested, very deep, and lines that come very often in a plan."""
    deep = chance.choice([15, 16, 17, 100, 5000, 100_000])
    if chance.randrange(6) == 0:
        plan = b"plan\n" + chance.choice(REPEATED) * min(deep, 9000) + b"end\n"
        return Case(kind, [b"check", b"m.nddl", b"p.txt"], {**SMALL, b"p.txt": plan})
    head, (opening, closing) = chance.choice(HEADS), chance.choice(NESTED)
    if opening.startswith(b"A::P") and chance.randrange(2):
        head, opening = HEADS[1], opening[7:]
    closings = closing * chance.choice([0, deep - 1, deep, deep + 1])
    text = head + (opening * deep)[:900_000] + closings + b" }" * chance.randrange(2)
    command = chance.choice([b"plan", b"show", b"script", b"check"])
    return Case(kind, words_of(chance, command, b"m.nddl"), {b"m.nddl": text, b"p.txt": b"plan\nend\n"}, b"tokens\n")


def make_words(kind, chance):
    """Command lines with words added, left out, changed or in another order."""
    words = [word.encode() for word in chance.choice(LINES)]
    for _ in range(chance.randint(1, 3)):
        act, place = chance.randrange(5), chance.randrange(len(words) + 1)
        if act < 2:
            words.insert(place, chance.choice(WORDS))
        elif act == 2 and words:
            words[place % len(words)] = chance.choice(WORDS)
        elif act == 3 and words:
            words.pop(place % len(words))
        else:
            chance.shuffle(words)
    if words[:1] == [b"try"]:
        # (more would take long by its own wish)
        words = [b"3" if word == b"200" else word for word in words]
    return Case(kind, words, {**SMALL, b"p.txt": b"plan\nglobal x 2\nend\n"}, b"domain x\n")


def make_reads(kind, chance):
    """Reads that fail: folders in place of files and of an input, an input that isn't for reading, files in what is no folder."""
    name = chance.choice([b"folder", b".", b"/", b"m.nddl/x", b"folder/", b"folder/nothing", b"loop", b"nothing"])
    choice = chance.randrange(4)
    if choice == 0:
        case = Case(kind, words_of(chance, chance.choice([b"plan", b"script", b"check", b"show"]), name), SMALL)
    elif choice == 1:
        case = Case(kind, [b"check", b"m.nddl", name], SMALL)
    elif choice == 2:
        case = Case(kind, [b"plan", b"m.nddl"], {b"m.nddl": b'int x;\n#include "%s"\n' % name})
    else:
        return Case(kind, [b"script", b"m.nddl"], SMALL, chance.choice([FOLDER, WRITTEN]))
    case.folders, case.links = [b"folder"], {b"loop": b"loop"}
    if name.endswith(b"nothing"):
        case.wanted = re.compile(rb"text Absent .*", re.S)
    return case


def make_numbers(kind, chance):
    """Numbers at and past the bounds of commands, of lines and of the texts of plans."""
    return chance.choice([sizes_of_problems, options_at_bounds, numbers_of_plans, size_of_a_plan, lines_at_bounds])(kind, chance)


def sizes_of_problems(kind, chance):
    if chance.randrange(2):
        return Case(kind, [b"gen", b"%d" % chance.choice([0, 1, 199, 200, 201, 9_999_999, 10_000_000])])
    return Case(kind, [b"try", b"%d" % chance.choice([0, 1, 2, 5, 8, 201, 10_000_000])])


def options_at_bounds(kind, chance):
    name = chance.choice([b"--steps", b"--tokens"])
    number = chance.choice([-1, 0, 9_999_999, 1_000_000 if name == b"--steps" else 512])
    return Case(kind, [b"plan", b"m.nddl", name, b"%d" % (number + chance.randrange(2))], SMALL)


def numbers_of_plans(kind, chance):
    visits, value = b"9" * chance.choice([1, 7, 8, 300]), chance.choice([1, 10**6, 10**6 + 1, 10**40])
    plan = b"found %s\nplan\nglobal x %d\nend\n" % (visits, value)
    return Case(kind, [b"check", b"m.nddl", b"p.txt"], {b"m.nddl": b"int x;\n", b"p.txt": plan})


def size_of_a_plan(kind, chance):
    """A plan of as many bytes as one may have, or of one more."""
    past = chance.randrange(2)
    plan = b"plan\nglobal x 2\nend\n".ljust(1_048_576 + past)
    wanted = rb"text Limit:bytes p\.txt 0\n" if past else rb"invalid text Syntax .*"
    return Case(kind, [b"check", b"m.nddl", b"p.txt"], {**SMALL, b"p.txt": plan}, b"", wanted)


def lines_at_bounds(kind, chance):
    """Numbers of a search and of names, and lines of as many bytes as one may have."""
    lines = [b"domain !65535", b"domain !65536", b"domain g/65536:0.start"]
    lines.append(b"solve %d %d" % (chance.choice([0, 1, 10**6, 10**6 + 1]), chance.choice([0, 512, 513])))
    for count in (4095, 4096, 4097, 8192, 65536):
        lines.append(chance.choice([b"domain x".ljust(count), b"d" * count, b" " * count, b"domain " + b"x" * (count - 7)]))
    chance.shuffle(lines)
    return Case(kind, [b"script", b"m.nddl"], SMALL, b"\n".join(lines))


def make_counts(kind, chance):
    """As many lines, steps and active tokens as there may be, and one more."""
    return chance.choice([lines_counted, steps_counted, tokens_counted])(kind, chance)


def lines_counted(kind, chance):
    first = b"domain x\n" + chance.choice([b"", b" " * 4096 + b"\n", b"y" * 8193 + b"\n"])
    count = 1_000_000 - 2 - (len(first) - 10 + 4095) // 4096
    return Case(kind, [b"script", b"m.nddl"], SMALL, first + b"\n" * (count - chance.randrange(2)) + b"domain x\ntokens\n")


def steps_counted(kind, chance):
    given = b"specify x 1\nreset x\n" * 50_000 + b"specify x 1\nsolve 1 1\nundo\nreset x\nreset x\nundo\nundo\n"
    wanted = rb"(?:ok\n){100000}(?:refused full\n){2}(?:ok\n){2}refused full\n(?:ok\n){2}"
    return Case(kind, [b"script", b"m.nddl"], SMALL, given, wanted)


def tokens_counted(kind, chance):
    text = b"class A { predicate P { } }\nA a = new A();\n" + b"".join(b"goal(a.P g%d);\n" % number for number in range(514))
    given = b"".join(b"activate g%d\n" % number for number in range(514))
    return Case(kind, [b"script", b"m.nddl"], {b"m.nddl": text}, given, rb"(?:ok\n){512}(?:refused active-full\n){2}")
