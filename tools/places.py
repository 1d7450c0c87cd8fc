"""The places where tools/bench measures what the program costs: problems of any size, their answers, and the goals.

`PLACES[name].make(size)` gives a Task. What a generator says in its first line is what the size is a number of. A goal
is of the proved program, on a processor of 2.5 GHz on which nothing else runs.
"""
import collections

# What is run: the command with a file of the problem and further words, and the input where there is one; and what has to
# be answered: regular expressions in their order, each with how many lines it has to match.
Task = collections.namedtuple("Task", "command problem further script answer")
# What the greatest size may cost: seconds of processor time and MiB of memory; how many times as much as the size before
# (`growth`); and at each size how many times as much as another place (`beside`, the place and the number of times).
Goal = collections.namedtuple("Goal", "seconds mebibytes growth beside", defaults=(20, 1024, None, None))
# A generator with the sizes at which it is measured, and the goal.
Place = collections.namedtuple("Place", "name make sizes goal")

STEPS = 1_000_000
# A problem of which nothing is asked, and one of which nothing is left.
NOTHING_TO_PLAN = [("found 1", 1), ("plan", 1), ("end", 1)]
NO_PLAN = [("exhausted 1", 1)]
MACHINE = "class Machine extends Timeline { predicate Task { } }"


def lines_of(parts):
    """The parts as a text, each on a line."""
    return "".join(f"{part}\n" for part in parts)


def planned(problem, answer):
    """A Task that plans a problem in as many visits as it takes."""
    return Task("plan", lines_of(problem), ("--steps", str(STEPS)), None, answer)


def scripted(problem, script, answer):
    """A Task that answers a script over a problem."""
    return Task("script", lines_of(problem), (), lines_of(script), answer)


def plan_of(visits, tokens):
    """The answer that a plan is found in so many visits, with so many tokens that take place."""
    return [(f"found {visits}", 1), ("plan", 1), ("token .*", tokens), ("end", 1)]


# Sets and inheritance.


def unsorted_sets(size):
    """classes that extend one whose predicate has a set of 4,096 values, the greatest first"""
    values = ", ".join(str(it) for it in range(4096, 0, -1))
    problem = [f"class A {{ predicate P {{ int {{{values}}} p; }} }}"]
    problem += [f"class A{it} extends A {{ }}" for it in range(size)]
    return planned(problem, NOTHING_TO_PLAN)


def line_of_classes(size):
    """Classes A1, A2 and so on, each under the one before it, and the first under A0."""
    return [f"class A{it} extends A{it - 1} {{ }}" for it in range(1, size + 1)]


def classes_in_line(size):
    """classes one below the other"""
    return planned(["class A0 { }", *line_of_classes(size)], NOTHING_TO_PLAN)


def inherited_fields(size):
    """fields that as many classes in a line inherit"""
    fields = " ".join(f"int f{it};" for it in range(size))
    problem = [f"class A0 {{ {fields} }}", *line_of_classes(size)]
    return planned(problem, NOTHING_TO_PLAN)


def inherited_rules(size):
    """rules that as many classes in a line inherit, no more than 1,000 of a predicate"""
    predicates = " ".join(f"predicate P{it} {{ }}" for it in range((size - 1) // 1000 + 1))
    problem = [f"class A0 {{ {predicates} }}", *line_of_classes(size)]
    problem += [f"A0::P{it // 1000} {{ leq(1, duration); }}" for it in range(size)]
    return planned(problem, NOTHING_TO_PLAN)


def all_different(size):
    """names in one `allDiff`"""
    names = [f"x{it}" for it in range(size)]
    problem = [*(f"int [0 9999] {name};" for name in names), f"allDiff({', '.join(names)});"]
    return scripted(problem, ["domain x0"], [(r"x0 \[0 9999\]", 1)])


# Objects.


def constructors(size):
    """constructors in a line, each handing a value to the one above; 1,000 objects"""
    problem = ["class A0 { int value; A0(int given) { value = given; } }"]
    problem += [f"class A{it} extends A{it - 1} {{ A{it}(int given) {{ super(given); }} }}" for it in range(1, size)]
    problem += [f"A{size - 1} o{it} = new A{size - 1}({it});" for it in range(1000)]
    return planned(problem, NOTHING_TO_PLAN)


def equal_fields(size):
    """constraints on a field of a variable that may be any of as many objects"""
    problem = ["class A { int number; A(int given) { number = given; } }", "A g;"]
    problem += [f"A o{it} = new A({it});" for it in range(size)]
    problem += [f"eq(g.number, {size // 2});"] * size
    return scripted(problem, ["domain g"], [(rf"g \{{o{size // 2}\}}", 1)])


# Plans.


def one_timeline(size):
    """tasks of one unit on one timeline, in as many units, none of which can be merged: size * size + 1 visits"""
    problem = [f"class Machine extends Timeline {{ predicate Task {{ int [0 {size}] number; eq(duration, 1); }} }}"]
    problem += [f"PlannerConfig settings = new PlannerConfig(0, {size}, {STEPS});", "Machine machine = new Machine();"]
    for it in range(size):
        problem += [f"goal(machine.Task g{it});", f"eq(g{it}.number, {it});"]
    return planned(problem, plan_of(size * size + 1, size))


def own_timelines(size):
    """tokens on timelines of their own, of classes of their own: 2 * size + 1 visits"""
    problem = []
    for it in range(size):
        problem += [f"class Machine{it} extends Timeline {{ predicate Task {{ eq(duration, 1); }} }}"]
        problem += [f"Machine{it} machine{it} = new Machine{it}();", f"goal(machine{it}.Task g{it});"]
    return planned(problem, plan_of(2 * size + 1, size))


# How many visits it takes to see that 7 variables of 6 values can't all be different: the choices of the first 5.
FAILING_VISITS = 6 + 6 * 5 + 6 * 5 * 4 + 6 * 5 * 4 * 3 + 6 * 5 * 4 * 3 * 2


def going_back(size):
    """tokens behind whose activation 1,236 visits fail, since parameters of 7 of them can't all be different"""
    problem = []
    for it in range(size):
        problem += [f"class Machine{it} extends Timeline {{ predicate Task {{ int {{0, 1, 2, 3, 4, 5}} number; }} }}"]
        problem += [f"Machine{it} machine{it} = new Machine{it}();", f"goal(machine{it}.Task g{it});"]
    problem += [f"allDiff({', '.join(f'g{it}.number' for it in range(7))});"]
    return planned(problem, [(f"exhausted {size + 1 + FAILING_VISITS}", 1)])


# Edits.


def machine_with(size):
    """A problem of so many tokens g0, g1 and so on of one timeline."""
    return [MACHINE, "Machine machine = new Machine();", *(f"goal(machine.Task g{it});" for it in range(size))]


def chain(size):
    """The lines of a script that activate so many tokens and order each before the next: 2 * size - 1 lines."""
    return [*(f"activate g{it}" for it in range(size)), *(f"order g{it - 1} g{it}" for it in range(1, size))]


def chained_orders(size):
    """tokens of one timeline that a script activates and orders one behind the other"""
    return scripted(machine_with(size), chain(size), [("ok", 2 * size - 1)])


def chained_edits(size):
    """the same tokens, and the start of the first one specified and undone 200 times"""
    script = chain(size) + ["specify g0.start 100", "undo"] * 200
    return scripted(machine_with(size), script, [("ok", 2 * size + 399)])


def reset_in_front(size):
    """the same tokens, and a reset of the first one"""
    return scripted(machine_with(size), [*chain(size), "reset g0"], [("ok", 2 * size)])


def active_beside(size, edits):
    """A Task that activates so many tokens, and then does 100 times what the edits say of two variables beside them."""
    problem = ["int [0 10] x;", "int [0 10] y;", "class N { predicate A { } }", "N n = new N();", *(f"goal(n.A g{it});" for it in range(size))]
    return scripted(problem, [*(f"activate g{it}" for it in range(size)), *edits * 100], [("ok", size + 100 * len(edits))])


def specified_beside(size):
    """active tokens, beside which a variable is specified and reset 100 times"""
    return active_beside(size, ["specify x 4", "reset x"])


def posted_beside(size):
    """active tokens, beside which a constraint is posted and withdrawn 100 times"""
    return active_beside(size, ["post leq x y", "withdraw leq x y"])


def nested_subgoals(size):
    """subgoals one below the other that a script activates, the last of which is merged"""
    problem = ["class N { predicate A { } }", "N::A { any(object.A a); }", "N n = new N();", "goal(n.A g);", "goal(n.A h);"]
    script = [f"activate g{'/0:0' * it}" for it in range(size)]
    return scripted(problem, [*script, "activate h", f"merge g{'/0:0' * size} h"], [("ok", size + 2)])


def merged_goals(size):
    """goals that a script merges into one"""
    problem = ["class N { predicate A { } }", "N n = new N();", "goal(n.A g);", *(f"goal(n.A g{it});" for it in range(size))]
    return scripted(problem, ["activate g", *(f"merge g{it} g" for it in range(size))], [("ok", size + 1)])


def resources(size):
    """uses of one resource that a script activates, each with its time and its quantity"""
    problem = ["Reusable tool = new Reusable(1);", *(f"goal(tool.uses u{it});" for it in range(size))]
    script = []
    for it in range(size):
        script += [f"activate u{it}", f"specify u{it}.start {it}", f"specify u{it}.duration 1", f"specify u{it}.quantity 1"]
    return scripted(problem, script, [("ok", 4 * size)])


# Conflicts.


def why_two(size):
    """decisions of which the first and the last are in conflict"""
    problem = [*(f"int [0 9] x{it};" for it in range(size)), f"eq(x0, x{size - 1});"]
    script = [*(f"specify x{it} 1" for it in range(size - 1)), f"specify x{size - 1} 2", "why"]
    conflict = [("conflict 2", 1), ("specify x0 1", 1), (f"specify x{size - 1} 2", 1)]
    return scripted(problem, script, [("ok", size - 1), ("inconsistent", 1), *conflict])


def why_all(size):
    """decisions that are all in conflict, by the sum of their values"""
    problem = [*(f"int [0 1] x{it};" for it in range(size)), *(f"int [0 {size}] sum{it};" for it in range(size))]
    problem += ["eq(x0, sum0);", *(f"addEq(sum{it - 1}, x{it}, sum{it});" for it in range(1, size))]
    problem += [f"lt(sum{size - 1}, {size});"]
    script = [*(f"specify x{it} 1" for it in range(size)), "why"]
    conflict = [(f"conflict {size}", 1), ("specify .*", size)]
    return scripted(problem, script, [("ok", size - 1), ("inconsistent", 1), *conflict])


def why_round(size):
    """orders of tokens of one timeline that go round"""
    script = [*chain(size), f"order g{size - 1} g0", "why"]
    conflict = [(f"conflict {2 * size}", 1), ("activate .*", size), ("order .*", size)]
    return scripted(machine_with(size), script, [("ok", 2 * size - 1), ("inconsistent", 1), *conflict])


def negative_cycles(size):
    """variables of any value, each at most the next one, and the last one less than the first"""
    problem = [f"int x{it};" for it in range(size)]
    problem += [f"leq(x{it - 1}, x{it});" for it in range(1, size)]
    problem += [f"lt(x{size - 1}, x0);"]
    return planned(problem, NO_PLAN)


# Long texts.


def script_lines(size):
    """lines `domain x` of a script"""
    return scripted(["int [0 9] x;"], ["domain x"] * size, [(r"x \[0 9\]", size)])


def nested_blocks(size):
    """rules with blocks nested as deep as they may be"""
    block = "if (b) { " * 15 + "} " * 15
    problem = [f"class A{it} {{ predicate P {{ bool b; }} }} A{it}::P {{ {block}}}" for it in range(size)]
    return planned(problem, NOTHING_TO_PLAN)


def shown_bytes(size):
    """bytes of a text that is shown"""
    parts, left, number = [], size - 300, 0
    while left > 0:
        name = f"C{number}"
        parts += [f"class {name} extends Timeline {{ predicate P {{ int [0 {number}] place; leq(place, 7); }} }}\n"]
        parts += [f"{name}::P {{ met_by(object.P last); if (place == 1) {{ eq(last.place, 2); }} else {{ eq(last.place, 3); }} }}\n"]
        left, number = left - len(parts[-2]) - len(parts[-1]), number + 1
    text = "".join(parts)
    text += "/" * (size - len(text) - 1) + "\n"
    return Task("show", text, (), None, [(r"class C\d+ extends Timeline {.*}", 1), (r"C\d+ :: P {.*}", 1)] * number)


def by_name(places):
    """The places by their names, which are those of their generators."""
    return {make.__name__: Place(make.__name__, make, sizes, goal) for make, sizes, goal in places}


# (the last size of some is that of their goal: of a text of 1 MiB, or of the most variables that there may be)
PLACES = by_name([
    (unsorted_sets, (50, 100, 200), Goal(seconds=1)),
    (one_timeline, (16, 40, 64), Goal(seconds=1)),
    (own_timelines, (128, 256, 512), Goal(growth=2.6)),
    (chained_orders, (96, 256, 512), Goal(seconds=2)),
    (chained_edits, (96, 256, 512), Goal()),
    (reset_in_front, (64, 128, 256), Goal(beside=("chained_orders", 2))),
    (specified_beside, (25, 50, 100), Goal()),
    (posted_beside, (25, 50, 100), Goal(beside=("specified_beside", 3))),
    (why_two, (500, 1000, 2000, 4000), Goal(seconds=1)),
    (why_all, (100, 200, 400), Goal()),
    (why_round, (32, 64, 128), Goal()),
    (negative_cycles, (8, 16, 32, 4096), Goal(seconds=1)),
    (classes_in_line, (8_000, 16_000, 30_000), Goal()),
    (inherited_fields, (500, 1000, 2000, 24000), Goal()),
    (inherited_rules, (500, 1000, 2000, 17000), Goal()),
    (all_different, (750, 1500, 3000, 4096), Goal()),
    (constructors, (500, 1000, 2000), Goal()),
    (equal_fields, (1000, 2000, 4000), Goal()),
    (going_back, (50, 100, 200), Goal()),
    (nested_subgoals, (128, 256, 511), Goal()),
    (merged_goals, (1_000, 2_000, 4_000), Goal()),
    (resources, (128, 256, 512), Goal()),
    (script_lines, (10_000, 100_000, 1_000_000), Goal(seconds=1)),
    (nested_blocks, (1_000, 2_000, 4_000), Goal()),
    (shown_bytes, (65_536, 262_144, 1_048_576), Goal()),
])
