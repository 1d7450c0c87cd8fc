"""What crates.txt says: which crates and groups there are, and what each crate lists."""
import pathlib
import re

TOP = pathlib.Path(__file__).resolve().parent.parent
HEADING = re.compile(r"#\s*group:\s*(.*?)(?:\s+\(knows nothing of:\s*(.*)\))?\s*$")


class Graph:
    """The groups, the lowest first: of each its name with what it knows nothing of, and its crates. Of each crate which libraries
    it lists, which of these are crates here, and to which crates it leads."""

    def __init__(self, text):
        self.groups, self.crates, self.libraries = [("", "")], [[]], {}
        for line in text.splitlines():
            heading = HEADING.match(line)
            name, _, libraries = line.partition("#")[0].partition(":")
            if heading:
                self.groups.append((heading[1], heading[2] or ""))
                self.crates.append([])
            elif name.strip():
                self.crates[-1].append(name.strip())
                self.libraries[name.strip()] = list(dict.fromkeys(libraries.split()))
        if not self.crates[0] and len(self.groups) > 1:
            del self.groups[0], self.crates[0]
        self.level = {name: level for level, names in enumerate(self.crates) for name in names}
        self.uses = {name: [it for it in libraries if it in self.libraries] for name, libraries in self.libraries.items()}
        self.below = {name: self.led_to(name) for name in self.libraries}

    def led_to(self, start):
        """The crates that some way leads to, each with the one before it on a shortest way."""
        before, ahead = {}, [start]
        for name in ahead:
            for library in self.uses[name]:
                if library not in before:
                    before[library] = name
                    ahead.append(library)
        return before

    def from_below(self, names):
        """The crates in an order in which each comes behind those that it lists, where there is no circle."""
        return sorted(names, key=lambda it: len(self.below[it]))

    def circles(self):
        """Of each set of crates that lead to one another a shortest circle through the first of them."""
        seen, circles = set(), []
        for name, before in self.below.items():
            if name in before and name not in seen:
                seen.update(it for it in before if name in self.below[it])
                circle = [name, before[name]]
                while circle[-1] != name:
                    circle.append(before[circle[-1]])
                circles.append(circle[::-1])
        return circles


def read():
    return Graph((TOP / "crates.txt").read_text(encoding="utf-8"))
