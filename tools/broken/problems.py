"""Writes problems in NDDL by chance, with all that docs/LANGUAGE.md has, valid ones or nearly so.

`Problem(random, slips)` writes one: `text` is its text, and what it has stands in its lists. `slips` is how often, of a
thousand choices, something is put that is of any kind in place of what is wanted.
"""
NUMBERS = ["-1000000", "-17", "-1", "0", "1", "2", "3", "5", "007", "+4", "12", "inf", "-inf", "1000000", "1000001"]
DECIMALS = ["-1000.000", "-0.125", "0.0", "0.25", "1.5", "007.5", "2", "3.125", "-1", "1000", "inf", "-inf", "1001", "1.2345"]
RELATIONS = ["any", "before", "after", "meets", "met_by", "equals", "contains", "contained_by", "starts", "ends", "parallels",
             "paralleled_by", "starts_during", "contains_start", "ends_during", "contains_end"]
PARTS = ["start", "end", "duration"]
BUILT_IN = {"Object": [], "Timeline": [], "Reusable": ["size"], "Reservoir": ["first", "lowest", "highest"]}
# The numbers that a resource takes are kinds of their own, so that they fit.
SIZES = {"size": (0, 3), "first": (2, 5), "lowest": (0, 2), "highest": (5, 12)}
GIVEN_PREDICATES = {"Reusable": ["uses"], "Reservoir": ["produce", "consume"]}


def object_name(of, number):
    """The name of an object of a class; each class gets one with the number 0."""
    return f"{of.lower()}_{number}"


class Class:
    """A class with what it has itself; a field and a parameter are a kind and a name, a constructor's formals kinds."""

    def __init__(self, name, parent):
        self.name, self.parent, self.fields, self.predicates, self.formals = name, parent, [], {}, None


# A kind is `int`, `bool`, an enum's name, `@C` for objects of the class C, or `C::P` for tokens. The entries that stand around a
# place are pairs of a path and its kind.
class Problem:
    def __init__(self, random, slips=0):
        self.random, self.slips = random, slips
        self.enums, self.typedefs, self.classes, self.objects, self.roots, self.globals = {}, {}, {}, [], [], []
        for name in BUILT_IN:
            self.classes[name] = Class(name, "")
        for name, predicates in GIVEN_PREDICATES.items():
            self.classes[name].predicates = {it: [("int", "quantity")] for it in predicates}
        self.lines = []
        self.declare()
        self.text = ("\n".join(self.lines) + "\n").encode()

    # Choices

    def chance(self, of_hundred):
        return self.random.randrange(100) < of_hundred

    def slip(self):
        return self.random.randrange(1000) < self.slips

    def some(self, most):
        return range(self.random.randint(0, most))

    def pick(self, choices, other="x"):
        return self.random.choice(list(choices)) if choices else other

    # Names and types

    def above(self, name):
        """The classes from this one up."""
        found = []
        while name in self.classes and self.classes[name] not in found:
            found.append(self.classes[name])
            name = self.classes[name].parent
        return found

    def fields_of(self, name):
        return [field for it in reversed(self.above(name)) for field in it.fields]

    def predicates_of(self, name):
        return {key: value for it in reversed(self.above(name)) for key, value in it.predicates.items()}

    def formals_of(self, name):
        """The kinds of what a `new` of this class takes."""
        for it in self.above(name):
            if it.formals is not None or it.name in BUILT_IN:
                return BUILT_IN[it.name] if it.formals is None else it.formals
        return []

    def own_classes(self):
        return [name for name in self.classes if name not in BUILT_IN]

    def any_kind(self):
        kinds = ["int"] * 4 + ["float", "bool"] * 2 + list(self.enums)
        return self.pick(kinds + [f"@{name}" for name in self.own_classes()])

    def type_of(self, kind):
        """The text of a type of this kind."""
        if self.slip():
            return self.pick(["string", "int [0.5 1.5]", "float [0 2000]", "Nothing", "bool [0 1]", "int [5 1]", "int {}"])
        if kind == "int":
            low, high = sorted([self.random.randint(-3, 9), self.random.randint(-3, 9)])
            named = [name for name, of in self.typedefs.items() if of == kind]
            ranges = [f"int [{low} {high}]", f"int[{low}, +{abs(high) + 9}]", f"int {{{low}, {high}, 2}}"]
            return self.pick(["int"] + named + ranges)
        if kind == "float":
            least, greatest = sorted([self.random.randint(-8, 20), self.random.randint(-8, 20)])
            named = [name for name, of in self.typedefs.items() if of == kind]
            return self.pick(["float"] + named + [f"float [{least / 4} {greatest / 4}]", f"float{{{least / 4}, 1, 0.25}}"])
        named = [name for name, of in self.typedefs.items() if of == kind]
        plain = kind.lstrip("@")
        sets = [f"{kind} {{{', '.join(self.some_members(kind))}}}"] if kind in self.enums else []
        return self.pick([plain] * 3 + named + sets + (["bool {true, false}", "bool {false}"] if kind == "bool" else []))

    def some_members(self, kind):
        members = self.enums[kind]
        return self.random.sample(members, self.random.randint(1, len(members)))

    # Values

    def literal(self, kind, made=None):
        """A constant of this kind that is written out; of objects one that is made, or will be."""
        if self.slip():
            return self.pick(NUMBERS + ["true", "1.5", "-2.0001", "nothing", "A", "x.y.z", "self"])
        if kind in SIZES:
            return str(self.random.randint(*SIZES[kind]))
        if kind == "int":
            return str(self.random.randint(0, 9)) if self.chance(85) else self.pick(NUMBERS[:14])
        if kind == "float":
            return self.pick(DECIMALS[3:10]) if self.chance(85) else self.pick(DECIMALS[:12])
        if kind == "bool":
            return self.pick(["true", "false"])
        if kind in self.enums:
            return self.pick(self.enums[kind])
        names = [name for name, of in self.objects if self.is_under(of, kind[1:])]
        return self.pick(names, "nobody") if made or self.chance(50) and names else object_name(kind[1:], 0)

    def is_under(self, name, above):
        return any(it.name == above for it in self.above(name))

    def paths(self, entries, kind):
        """The paths of this kind that begin with one of the entries, fields and parts included."""
        found = []
        for path, of in entries:
            found += [name for name, its in self.reached(path, of, 2) if its == kind or kind[:1] == its[:1] == "@"]
        return found

    def reached(self, path, kind, deep):
        """What can be said of a path: itself, and what is behind it."""
        yield path, kind
        behind = []
        if "::" in kind:
            name, predicate = kind.split("::")
            behind = [("int", part) for part in PARTS] + [(f"@{name}", "object")] + self.predicates_of(name).get(predicate, [])
        elif kind.startswith("@"):
            behind = self.fields_of(kind[1:])
        for its, name in behind if deep else []:
            yield from self.reached(f"{path}.{name}", its, deep - 1)

    def value(self, kind, entries):
        """A value of this kind: a path, or one that is written out."""
        if self.slip():
            return self.pick([path for path, _ in entries] + NUMBERS + ["1.5", "false", "nothing", "Timeline", "x.y"])
        paths = self.paths(entries, kind)
        return self.pick(paths) if paths and self.chance(75) else self.literal(kind)

    # Declarations

    def declare(self):
        if self.chance(30):
            self.lines.append('#include "Plasma.nddl"' + self.pick(["", ";", " // it's built in"]))
        for number in self.some(2):
            self.add_enum(f"E{number}")
        for number in self.some(2):
            kind = self.pick(["int", "int", "float", "bool"] + list(self.enums))
            self.lines.append(f"typedef {self.type_of(kind)} T{number};")
            self.typedefs[f"T{number}"] = kind
        for number in range(self.random.randint(1, 4)):
            self.add_class(f"C{number}")
        self.add_rules()
        if self.chance(80):
            self.add_settings()
        for name in self.own_classes():
            for number in range(self.random.randint(1, 2)):
                self.add_object(name, object_name(name, number))
        self.lines.append(self.pick(["close();", "close ( ) ; /* no more */", f"{self.pick(self.own_classes())}.close();", ""]))
        if self.slip():
            self.add_object(self.pick(self.own_classes()), "late")
        for number in self.some(3):
            self.add_global(f"x{number}")
        self.add_roots()
        for _ in self.some(2) if self.chance(60) else []:
            self.lines.append(self.constraint(self.file_entries()))
        self.add_decisions()

    def add_enum(self, name):
        members = [f"{name.lower()}_{number}" for number in range(self.random.randint(1, 4))]
        self.enums[name] = members
        self.lines.append(f"enum {name} {{ {', '.join(members)} }}" + self.pick(["", ";"]))

    def add_settings(self):
        horizon, steps = self.random.randint(4, 40), self.random.randint(1, 60)
        begin = 0 if self.chance(90) or not self.slips else self.pick(NUMBERS)
        self.lines.append(f"PlannerConfig settings = new PlannerConfig({begin}, {horizon}, {steps}{self.pick(['', '', ', 7'])});")

    def add_class(self, name):
        parents = self.own_classes()
        parent = self.pick(["", "", "Timeline", "Timeline", "Reusable", "Reservoir", "Object"] + parents)
        if self.slip():
            parent = self.pick(["Nothing", name, "int", "E0"], "E0")
        it = Class(name, parent)
        self.classes[name] = it
        members = []
        for number in self.some(2):
            kind = self.pick(["int", "int", "float", "bool"] + list(self.enums) + [f"@{at}" for at in parents])
            it.fields.append((kind, f"f{name[1:]}{number}"))
            members.append(f"{kind.lstrip('@')} {it.fields[-1][1]};")
        for number in self.some(2):
            members.append(self.predicate(it, f"P{name[1:]}{number}"))
        if it.fields or self.chance(40) or self.formals_of(parent):
            members.insert(self.random.randint(0, len(members)), self.constructor(it))
        if self.chance(10):
            self.lines.append(f"class {name};")
        self.lines.append(f"class {name}" + (f" extends {parent}" if parent else "") + " { " + " ".join(members) + " }")

    def predicate(self, of, name):
        """A predicate, with parameters and perhaps constraints in its body."""
        parameters = [(self.any_kind(), f"p{number}") for number in self.some(3)]
        of.predicates[name] = parameters
        parts = [f"{self.type_of(kind)} {its};" for kind, its in parameters]
        entries = self.here(of.name, name)
        parts += [self.constraint(entries) for _ in self.some(2)]
        if self.chance(30):
            self.random.shuffle(parts)
        return f"predicate {name} {{ {' '.join(parts)} }}"

    def constructor(self, of):
        """A constructor that hands on what the class above takes, and sets each field."""
        formals, sets = [], []
        handed = []
        for kind in self.formals_of(of.parent):
            handed.append(self.argument(kind, formals))
        if handed or self.chance(20):
            sets.append(f"super({', '.join(handed)});")
        for kind, name in of.fields:
            sets.append(f"{name} = {self.argument(kind, formals)};")
        of.formals = [kind for kind, _ in formals]
        if self.slip():
            sets.append(self.pick(sets or ["super();"]))
        formals = [f"{'int' if kind in SIZES else kind.lstrip('@')} {name}" for kind, name in formals]
        return f"{of.name}({', '.join(formals)}) {{ {' '.join(sets)} }}"

    def argument(self, kind, formals):
        """What is handed on in a constructor: a formal that is made for it, or a literal."""
        if kind.startswith("@") or self.chance(70):
            formals.append((kind, f"a{len(formals)}"))
            return formals[-1][1]
        return self.literal(kind)

    def add_object(self, of, name):
        arguments = [self.literal(kind, True) for kind in self.formals_of(of)]
        if self.slip():
            arguments.append("1")
        declared = self.pick([it.name for it in self.above(of)] if self.chance(20) else [of])
        self.lines.append(f"{declared} {name} = new {of}({', '.join(arguments)});")
        self.objects.append((name, declared))

    def add_global(self, name):
        kind = self.any_kind()
        begins = f" = {self.literal(kind)}" if self.chance(20) else ""
        self.lines.append(f"{self.type_of(kind)} {name}{begins};")
        self.globals.append((kind, name))

    def add_roots(self):
        for number in range(self.random.randint(0, 4)):
            name, of = self.pick(self.objects)
            name = name if self.chance(60) else of
            predicate = self.pick(self.predicates_of(of), "P")
            if predicate == "P" and not self.slip():
                continue
            sort = self.pick(["goal", "goal", "rejectable", "fact"])
            label = f"r{number}" if not self.slip() else "r0"
            self.roots.append((label, f"{of}::{predicate}", sort))
            self.lines.append(f"{sort}({name}.{predicate} {label});")

    def file_entries(self):
        """What the files declare that is a value or a token."""
        objects = [(name, f"@{of}") for name, of in self.objects]
        return objects + [(name, kind) for kind, name in self.globals] + [(label, of) for label, of, _ in self.roots]

    def add_decisions(self):
        left = list(self.roots)
        for _ in self.some(3) if self.chance(60) else []:
            if left and self.chance(60):
                label, _, sort = left.pop() if not self.slip() else left[0]
                acts = [f"merge({self.pick(self.roots)[0]})", "reject()", "activate()"] if self.slip() else ["activate()"]
                acts += ["reject()"] if sort == "rejectable" else []
                self.lines.append(f"{label}.{self.pick(acts)};" * (sort != "fact"))
            else:
                entries = [(name, kind) for kind, name in self.globals] + [(label, of) for label, of, _ in self.roots]
                kind = self.any_kind()
                path = self.pick(self.paths(entries, kind), "")
                if path:
                    self.lines.append(f"{path}.specify({self.literal(kind)});")

    # Rules

    def here(self, of, predicate):
        """What stands in a rule from the start: the parts of its token."""
        entries = [(part, "int") for part in PARTS] + [("object", f"@{of}")]
        return entries + [(name, kind) for kind, name in self.predicates_of(of).get(predicate, [])]

    def add_rules(self):
        for of in self.own_classes():
            for predicate in self.predicates_of(of):
                for _ in self.some(2) if self.chance(50) else []:
                    block = self.block(of, self.here(of, predicate), 3, {"local": 0, "label": 0})
                    self.lines.append(f"{of}::{predicate} {block}")

    def block(self, of, entries, deep, counts):
        """A block of statements; what is declared in it is seen behind it alone."""
        entries, parts = list(entries), []
        for _ in self.some(3):
            parts.append(self.statement(of, entries, deep, counts))
        return "{ " + " ".join(parts) + " }"

    def statement(self, of, entries, deep, counts):
        choice = self.random.randrange(12 if deep else 8)
        if choice < 3:
            return self.constraint(entries)
        if choice < 6:
            return self.slot(of, entries, counts)
        if choice < 8:
            return self.local(entries, counts)
        if choice < 11:
            return self.branch(of, entries, deep, counts)
        name, turn = self.pick(self.own_classes()), f"t{deep}"
        return f"foreach ({turn} in {name}) {self.block(of, entries + [(turn, f'@{name}')], deep - 1, counts)}"

    def slot(self, of, entries, counts):
        """A relation with a token that is asked for, or with one that has a label."""
        relation = self.pick(RELATIONS)
        labels = [path for path, kind in entries if "::" in kind]
        if labels and self.chance(30):
            return f"{relation}({self.pick(labels)});"
        choices = [(name, name) for name in self.classes]
        choices += [(path, its[1:]) for path, kind in entries for path, its in self.reached(path, kind, 1) if its.startswith("@")]
        choices = [(path, its, predicate) for path, its in choices for predicate in self.predicates_of(its)]
        if not choices:
            return f"{relation}(object.P);" if self.slip() else "eq(start, start);"
        path, its, predicate = self.pick(choices)
        if self.chance(40):
            return f"{relation}({path}.{predicate});"
        label = f"s{counts['label']}"
        counts["label"] += 1
        entries.append((label, f"{its}::{predicate}"))
        alone = predicate in self.predicates_of(of) and self.chance(20)
        return f"{relation}({predicate if alone else f'{path}.{predicate}'} {label});"

    def local(self, entries, counts):
        kind, name = self.any_kind(), f"v{counts['local']}"
        counts["local"] += 1
        begins = f" = {self.value(kind, entries)}" if self.chance(40) else ""
        text = f"{self.type_of(kind)} {name}{begins};"
        entries.append((name, kind))
        return text

    def branch(self, of, entries, deep, counts):
        """An `if`, perhaps with an `else`, or with a chain of them."""
        kind = self.any_kind()
        if self.chance(30):
            guard = self.value("bool", entries)
        else:
            guard = f"{self.value(kind, entries)} {self.pick(['==', '!='])} {self.value(kind, entries)}"
        text = f"if ({guard}) {self.block(of, entries, deep - 1, counts)}"
        if self.chance(30):
            return f"{text} else {self.block(of, entries, deep - 1, counts)}"
        return f"{text} else {self.branch(of, entries, deep - 1, counts)}" if deep > 1 and self.chance(30) else text

    def constraint(self, entries):
        """A constraint over values that stand there."""
        name = self.pick(["eq", "neq", "allDiff", "lt", "leq", "leq", "addEq", "mulEq", "testEQ", "testLEQ"])
        kind = self.pick(["int", "int", "float"]) if name in ("lt", "leq", "addEq", "mulEq", "testLEQ") else self.any_kind()
        count = {"addEq": 3, "allDiff": self.random.randint(2, 4)}.get(name, 2)
        if self.slip():
            name, count = self.pick(["eq", "before", "leq", "like"]), self.random.randint(0, 4)
        arguments = [self.value(kind, entries) for _ in range(count)]
        if name == "mulEq":
            arguments.insert(1, self.pick(["2", "-1", "3", "0"] if self.slip() else ["2", "-1", "3"]))
        if name.startswith("test"):
            arguments.insert(0, self.value("bool", entries))
        return f"{name}({', '.join(arguments)});"
