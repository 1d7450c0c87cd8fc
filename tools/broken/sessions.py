"""Writes scripts and the texts of plans by chance, over the names that stand in a problem's text."""
import re

NUMBERS = b"0 1 2 3 5 8 10 20 -1 007 1000000 -1000000 1000001 99999999999999999999 -0 +3".split()
STRANGE = [*b"what ! /0:0 g/00:1 a.b.c \xff g/65536:0 class -".split(), b"", b"x y", b"x\r"]
STRANGE_LINES = [b"", b" \t", b"quit", b"quit now", b"Activate", b"specify", b"\x00", b"solve 0 1", b"solve 5 513"]
# How often each command comes, of their sum.
COMMANDS = {
    b"activate": 24, b"specify": 18, b"merge": 8, b"reject": 4, b"order": 8, b"reset": 10, b"undo": 6, b"domain": 10,
    b"tokens": 3, b"decisions": 3, b"flaws": 4, b"solve": 4, b"why": 5, b"cycle": 5,
    b"post": 10, b"relate": 8, b"withdraw": 4, b"unrelate": 3,
}
# The constraints that are posted, each with how many arguments it has; and words that name none of these.
KINDS = {b"eq": 2, b"neq": 2, b"lt": 2, b"leq": 2, b"addEq": 3, b"mulEq": 3, b"testEQ": 3, b"testLEQ": 3}
STRANGE_KINDS = [b"allDiff", b"field", b"gt"]
RELATIONS = b"any before after meets met_by equals contains contained_by starts ends parallels paralleled_by".split() + [
    b"starts_during", b"contains_start", b"ends_during", b"contains_end"]
POST = re.compile(rb"(?:goal|rejectable|fact)\s*\(\s*([\w.]+)\.(\w+)\s+(\w+)\s*\)")
MADE = re.compile(rb"(\w+)\s+(\w+)\s*=\s*new\s+(\w+)")
GLOBAL = re.compile(rb"^(?:int|bool|\w+)\b[^;(){}=\n]*?[\s\]](\w+)\s*(?:=[^;(\n]*)?;", re.M)
PREDICATE = re.compile(rb"predicate\s+(\w+)\s*\{([^}]*)\}")
ENUM = re.compile(rb"enum\s+\w+\s*\{([^}]*)\}")
CLASS = re.compile(rb"class\s+(\w+)")


class Names:
    """What a problem's text names, as far as that can be seen by its spelling."""

    def __init__(self, text):
        self.posts = POST.findall(text)
        self.roots = [label for _, _, label in self.posts] or [b"g"]
        self.objects = [name for of, name, _ in MADE.findall(text) if of != b"PlannerConfig"] or [b"o"]
        self.classes = CLASS.findall(text) + [b"Timeline", b"Reusable", b"Reservoir"]
        self.globals = GLOBAL.findall(text) or [b"x"]
        self.members = [it.strip() for body in ENUM.findall(text) for it in body.split(b",")]
        self.parameters = {name: re.findall(rb"(\w+)\s*;", body.split(b"(")[0]) for name, body in PREDICATE.findall(text)}
        self.parameters.update({b"uses": [b"quantity"], b"produce": [b"quantity"], b"consume": [b"quantity"]})
        self.parts = [b"start", b"end", b"duration", b"object"] + [it for its in self.parameters.values() for it in its]


class Writer:
    """Writes over the names of a problem; `slips` is how often of a thousand choices something is put that doesn't fit."""

    def __init__(self, random, names, slips=0):
        self.random, self.names, self.slips = random, names, slips

    def pick(self, choices):
        if self.random.randrange(1000) < self.slips:
            return self.random.choice(STRANGE)
        return self.random.choice(choices)

    def token(self):
        """A root, or one that its rules may ask for."""
        token = self.pick(self.names.roots)
        while self.random.randrange(100) < 40 and token.count(b"/") < 4:
            token += b"/%d:%d" % (self.random.choice([0, 0, 0, 1]), self.random.choice([0, 0, 0, 1, 1, 2]))
        return token

    def variable(self):
        choice = self.random.randrange(10)
        if choice < 7:
            return self.token() + b"." + self.pick(self.names.parts)
        if choice < 9:
            return self.pick(self.names.globals)
        return self.random.choice([b"!0", b"!1", self.token() + b"/0!0", self.token() + b"/1!1"])

    def value(self):
        choice = self.random.randrange(10)
        if choice < 6 or not self.names.members:
            return self.pick(NUMBERS[:8] if self.random.randrange(4) else NUMBERS)
        return self.pick(self.names.members + self.names.objects + [b"true", b"false"])

    def constraint(self):
        """A constraint with arguments, mostly as many as it takes."""
        kind = self.random.choice(list(KINDS))
        count = KINDS[kind] + self.random.choice([0] * 12 + [-1, 1])
        given = [self.variable() if self.random.randrange(10) < 7 else self.value() for _ in range(count)]
        if kind == b"mulEq" and count > 1 and self.random.randrange(8):
            given[1] = self.random.choice([b"-1", b"1", b"2", b"3"])
        return [self.random.choice(STRANGE_KINDS) if self.random.randrange(1000) < self.slips else kind, *given]

    def command(self):
        """A line of a script."""
        name = self.random.choices(list(COMMANDS), list(COMMANDS.values()))[0]
        return b" ".join([name, *self.words_behind(name)])

    def words_behind(self, name):
        if name in (b"activate", b"reject"):
            return [self.token()]
        if name in (b"merge", b"order"):
            return [self.token(), self.token()]
        if name == b"specify":
            return [self.variable(), self.value()]
        if name == b"domain":
            return [self.variable()]
        if name in (b"post", b"withdraw"):
            return self.constraint()
        if name in (b"relate", b"unrelate"):
            return [self.pick(RELATIONS), self.token(), self.token()]
        if name == b"reset":
            return self.random.choice([[self.variable()], [self.token()], [self.token(), self.token()]])
        if name == b"solve":
            return [b"%d" % self.random.choice([1, 2, 10, 40]), b"%d" % self.random.choice([0, 3, 10, 20, 512])]
        return []

    def script(self, most=40):
        """A whole input, with blank lines, returns before line feeds and what else may stand between words."""
        lines = [self.command() for _ in range(self.random.randint(1, most))]
        if self.slips:
            lines.append(self.random.choice(STRANGE_LINES))
            self.random.shuffle(lines)
        end = self.random.choice([b"\n", b"\n", b"\r\n", b" \t\n"])
        return end.join(lines) + self.random.choice([b"", end])

    def part_values(self, predicate):
        start, duration = self.random.randint(0, 9), self.random.randint(1, 9)
        words = b"start %d end %d duration %d object" % (start, start + duration, duration)
        words = [*words.split(), self.pick(self.names.objects)]
        for name in self.names.parameters.get(predicate, []):
            words += [name, self.value()]
        return words

    def plan_line(self):
        """A line of a plan's text."""
        choice = self.random.randrange(10)
        if choice == 0:
            return b" ".join([b"global", self.pick(self.names.globals), self.value()])
        if choice == 1:
            return b"local %s/0!%d %s" % (self.token(), self.random.randrange(3), self.value())
        if choice == 2:
            return b" ".join([b"merged", self.token(), self.token()])
        if choice == 3:
            return b" ".join([b"rejected", self.pick(self.names.roots)])
        predicate = self.pick(list(self.names.parameters))
        sort = self.random.choice([b"token", b"token", b"fact"])
        return b" ".join([sort, self.token(), self.pick(self.names.classes) + b"." + predicate, *self.part_values(predicate)])

    def plan(self):
        """The text of a plan: a line for most roots and globals, and some more."""
        lines = [b"global %s %s" % (name, self.value()) for name in dict.fromkeys(self.names.globals)]
        for path, predicate, label in self.names.posts:
            of = path.split(b".")[0] if path in self.names.classes else self.pick(self.names.classes)
            lines.append(b" ".join([b"token", label, of + b"." + predicate, *self.part_values(predicate)]))
        lines += [self.plan_line() for _ in range(self.random.randrange(4))]
        self.random.shuffle(lines)
        first = self.random.choice([[], [b"found 8"], [b"found 0"], [b"found 9999999"]])
        return b"\n".join(first + [b"plan"] + lines + [b"end"]) + self.random.choice([b"", b"\n"])
