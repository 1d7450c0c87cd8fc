"""Texts at the bounds that the documents state, and past them.

Each bound is told by the fault that comes past it, the number up to which there is none, and a function that gives the files
of a problem with so many: a text, or a table of texts by name with `m.nddl` first.
"""
CLASS = "class A { predicate P { } }\nA a = new A();\n"


def many(count, line):
    """A line for each number below the count."""
    return "".join(line.format(number) + "\n" for number in range(count))


def in_rules(count, statement, each=100):
    """Rules of one predicate that have a statement so many times."""
    rules = []
    for at in range(0, count, each):
        rules.append("A::P { " + " ".join(statement.format(number) for number in range(at, min(at + each, count))) + " }\n")
    return CLASS + "".join(rules)


def members(count):
    return f"enum E {{ {', '.join(f'e{number}' for number in range(count))} }}\n"


def set_of_numbers(count):
    return f"int {{{', '.join(map(str, range(count)))}}} x;\n"


def parameters(count):
    return f"class A {{ predicate P {{ {' '.join(f'int p{number};' for number in range(count))} }} }}\n"


def objects(count):
    return "class A { }\n" + many(count, "A a{} = new A();")


def made_by_constructors(count):
    """Objects of which every second one is made by a constructor."""
    odd = "A a = new A();\n" if count % 2 else ""
    return "class A { }\nclass B { A f; B() { f = new A(); } }\n" + odd + many(count // 2, "B b{} = new B();")


def roots(count):
    return CLASS + many(count, "rejectable(a.P r{});")


def facts(count):
    return CLASS + many(count, "fact(a.P f{});")


def global_variables(count):
    return many(count, "int [0 1] x{};")


def guards(count):
    return in_rules(count, "if (true) {{ }}")


def turns(count):
    """Rules with so many turns, 64 at a time as long as that goes."""
    rules = in_rules(count // 64, "foreach (t in A) {{ }}") + "class B { }\nB b = new B();\n" + many(63, "A a{} = new A();")
    return rules + "A::P { " + "foreach (t in B) { } " * (count % 64) + "}\n"


def news(deep):
    """A `new` that leads to one so deep."""
    text = "class K0 { }\n"
    for number in range(1, deep + 1):
        text += f"class K{number} {{ K{number - 1} f{number}; K{number}() {{ f{number} = new K{number - 1}(); }} }}\n"
    return text + f"K{deep} k = new K{deep}();\n"


def nesting(deep):
    return CLASS + "A::P { " + "if (true) { " * (deep - 1) + "}" * (deep - 1) + " }\n"


def nesting_of_else(deep):
    return CLASS + "A::P { if (true) { } " + "else if (true) { } " * (deep - 2) + "}\n"


def bytes_of(count):
    return " " * count


def files(count):
    """So many files, the first one among them."""
    found = {"m.nddl": "".join(f'#include "p{number}.nddl"\n' for number in range(1, count))}
    found.update({f"p{number}.nddl": f"int x{number};\n" for number in range(1, count)})
    return found


def includes(deep):
    """Files of which each includes the next, so deep."""
    found = {"m.nddl": '#include "d1.nddl"\n'}
    found.update({f"d{number}.nddl": f'#include "d{number + 1}.nddl"\nint x{number};\n' for number in range(1, deep)})
    return {**found, f"d{deep}.nddl": "int y;\n"}


def steps(count):
    return CLASS + f"PlannerConfig p = new PlannerConfig(0, 10, {count});\n"


BOUNDS = [
    ("Limit:members", 4096, members),
    ("Limit:members", 4096, set_of_numbers),
    ("Limit:parameters", 32, parameters),
    ("Limit:objects", 4096, objects),
    ("Limit:objects", 4096, made_by_constructors),
    ("Limit:roots", 4096, roots),
    ("Limit:facts", 512, facts),
    ("Limit:globals", 4096, global_variables),
    ("Limit:rules", 1024, lambda count: in_rules(count, "", 1)),
    ("Limit:guards", 1024, guards),
    ("Limit:slots", 128, lambda count: in_rules(count, "any(a.P s{});")),
    ("Limit:locals", 128, lambda count: in_rules(count, "int v{};")),
    ("Limit:items", 1024, lambda count: in_rules(count, "leq(start, end);")),
    ("Limit:turns", 65536, turns),
    ("Limit:new", 16, news),
    ("Limit:nesting", 16, nesting),
    ("Limit:nesting", 16, nesting_of_else),
    ("Limit:bytes", 1_048_576, bytes_of),
    ("Limit:files", 64, files),
    ("Limit:depth", 8, includes),
    ("OutOfRange", 1_000_000, lambda number: f"int x = {number};\n"),
    ("OutOfRange", 1_000_000, lambda number: f"int x = {'0' * 300}{number};\n"),
    ("OutOfRange", 1_000_000, steps),
]
