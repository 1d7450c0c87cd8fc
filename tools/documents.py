"""What the documents quote of files, commands and sessions, as tasks that tools/try_documents carries out in their order.

Most is told by its form:

- A block behind a paragraph that ends in a colon, where the paragraph quotes a name as `NAME.nddl`, is the text of that file.
- A block with lines `./europa WORDS` or `./desk WORDS`, perhaps with `$ ` in front, has commands, each with what it prints
  behind it; there `desk> ` stands before what is typed. `< NAME`, `> NAME` and `|` are as in a shell. A line `rt ..` or any
  other `./..` is a command that isn't run.
- A table headed `The planner writes`, `europa answers` is a part of a session. An answer has a line for each quoted piece,
  and goes on in rows whose first cell is empty.
- Any other block is what the last command prints that the paragraph before it quotes.
- In prose, a quoted command that is followed by `answers`, `prints` or a colon and a quoted line prints this line, and one
  that `finds a plan in N visits` prints `found N`.
- `TEXT` that `is` or `has a` KIND at N is a text with this fault at this byte. So is a row of a table headed `Text`,
  `First fault`; in one headed `Text`, `Printed` it is what `show` prints of the text.

A session is over the file that was quoted last, by its text or by `./europa script NAME`; there `< NAME` says that the
session's commands are the lines of this file. All else is marked by a comment in front:

    <!-- file: NAME -->                  the block behind it is this file; or the lines of the comment itself are
    <!-- run: COMMAND -->                the block behind it is what the command prints
    <!-- run: COMMAND; prints: LINE -->  the command prints this line first
    <!-- around: TEXT ... TEXT -->       the texts of the table behind it stand in the place of the three points
    <!-- not run -->                     the block behind it is left alone
"""
import collections
import re
import shlex

Paragraph = collections.namedtuple("Paragraph", "line text")
Block = collections.namedtuple("Block", "line lines")
# The rows, each with its line and its cells; the first one is the heading.
Table = collections.namedtuple("Table", "line rows")
Mark = collections.namedtuple("Mark", "line name words lines")

# Of a file the name and the text; of a model the name and the name of its input, or None; of a command its words and what
# is typed, and of a line of a session the line, each with the lines that are wanted, or None, and whether that is all that
# is printed; of a faulty text the text with what stands around it, the kind, and where it is said to be.
File = collections.namedtuple("File", "line name text")
Model = collections.namedtuple("Model", "line name input")
Run = collections.namedtuple("Run", "line words typed wanted whole")
Say = collections.namedtuple("Say", "line words wanted whole")
Fault = collections.namedtuple("Fault", "line text around kind place")
Shown = collections.namedtuple("Shown", "line text wanted")
End = collections.namedtuple("End", "line")

# The programs that commands may name.
PROGRAMS = ("./europa", "./desk")
MARK = re.compile(r"<!-- (file|run|around|not run):? ?([^\n]*?)\s*(?:\n(.*))?-->", re.S)
TYPED = re.compile(r"desk(?: \(\w+\))?> (.*)")
# What a line begins with that ends a paragraph.
STARTS = ("```", "<!--", "|", "- ", "#")
CELL = re.compile(r"((?:`[^`]*`|[^|`])*)\|")
QUOTED = re.compile(r"`([^`]+)`")
NAME = re.compile(r"[\w./-]+\.nddl")
# How many words stand behind each command of a session; behind that of a constraint its kind and some arguments.
SOME = range(2, 100)
COMMANDS = {"specify": (2,), "activate": (1,), "merge": (2,), "reject": (1,), "order": (2,), "post": SOME,
            "relate": (3,), "reset": (1, 2), "withdraw": SOME, "unrelate": (3,), "undo": (0,),
            "domain": (1,), "tokens": (0,), "decisions": (0,), "flaws": (0,), "solve": (2,), "why": (0,), "cycle": (0,)}
ANSWER = re.compile(r"`[^`]*(?:\banswers|\bprints|:) `([^`]+)`")
FOUND = re.compile(r"` finds a plan in (\d+) visits")
FAULTY = re.compile(r"`([^`]+)` (?:is|has) (?:a )?`?([A-Z][A-Za-z:]*)`? at (\d+)")
ONE_MORE = re.compile(r",? (?:and )?`([^`]+)` at (\d+)")
FAULT_CELL = re.compile(r"`?([A-Z][A-Za-z:]*)`? at (.*)")
SESSION_HEADS = ["The planner writes", "europa answers"]


def parts_of(text):
    """The paragraphs, blocks, tables and marks of a document, in their order."""
    lines, found, at = text.split("\n"), [], 0
    while at < len(lines):
        end = end_of_part(lines, at)
        part = part_of(lines[at:end], at + 1)
        found += [part] if part else []
        at = end
    return found


def end_of_part(lines, at):
    """The number of the line behind the part that begins at a line."""
    end = at + 1
    while end < len(lines) and not is_end(lines, at, end):
        end += 1
    return end


def is_end(lines, at, end):
    """Whether a part that begins at one line ends before the other."""
    first, last, this = lines[at], lines[end - 1], lines[end]
    if first.startswith("```"):
        return last.startswith("```") and end - 1 > at
    if first.startswith("<!--"):
        return "-->" in last
    if first.startswith("|"):
        return not this.startswith("|")
    return not first.strip() or not this.strip() or this.startswith(STARTS)


def part_of(lines, line):
    """What these lines are, the first of which has this number, or None where they are nothing of the kind."""
    text = "\n".join(lines)
    mark = MARK.match(text)
    if text.startswith("```"):
        return Block(line + 1, lines[1:-1])
    if mark:
        return Mark(line, mark[1], mark[2], (mark[3] or "").splitlines())
    if text.startswith("|"):
        return Table(line, [(line + at, cells_of(it)) for at, it in enumerate(lines)])
    return Paragraph(line, " ".join(lines)) if text.strip() else None


def cells_of(row):
    return [it.strip() for it in CELL.findall(row[1:])]


def command_words(text):
    """The words of a command line that can be run, or None."""
    bare = text[2:] if text.startswith("$ ") else text
    if not bare.startswith(PROGRAMS):
        return None
    try:
        words = shlex.split(bare)
    except ValueError:
        return None
    return words if words[0] in PROGRAMS and len(words) > 1 and not is_form(words) else None


def is_session_line(text):
    """Whether a text is a command of a session."""
    first, *words = text.split() or [""]
    return len(words) in COMMANDS.get(first, ())


def is_form(words):
    """Whether words are the form of a command, as `domain VARIABLE`."""
    return any(it.strip("[].").isupper() for it in words)


def model_of(line, words):
    """The model that a command line names for a session, or None."""
    if words[:2] != ["./europa", "script"] or len(words) < 3:
        return None
    return Model(line, words[2], words[4] if words[3:4] == ["<"] else None)


class Reader:
    """Reads the tasks of a document from its parts, one after the other."""

    def __init__(self, text):
        self.parts, self.tasks, self.model, self.says = parts_of(text), [], None, 0
        for place, part in enumerate(self.parts):
            before = self.parts[place - 1] if place else None
            after = self.parts[place + 1] if place + 1 < len(self.parts) else None
            if isinstance(part, Mark):
                self.read_mark(part)
            elif isinstance(part, Paragraph):
                self.read_paragraph(part, isinstance(after, Block) and not is_console(after) and not name_before(part))
            elif isinstance(part, Block):
                self.read_block(part, before)
            else:
                self.read_table(part, before)
        self.tasks.append(End(text.count("\n")))

    def read_mark(self, mark):
        command, _, wanted = mark.words.partition("; prints: ")
        if mark.name == "file" and mark.lines:
            self.add_file(mark.line, mark.words, mark.lines)
        elif mark.name == "run" and wanted:
            self.add_command(mark.line, command, [wanted], False)

    def read_paragraph(self, part, is_of_block):
        """Reads what prose quotes. Where a block behind it is printed by its last command, this one is left for the block."""
        self.read_faults(part)
        spans = [it for it in QUOTED.finditer(part.text) if self.is_command(it[1])]
        for span in spans[:-1] if is_of_block else spans:
            rest = part.text[span.end() - 1:]
            answer, found = ANSWER.match(rest), FOUND.match(rest)
            wanted = answer[1] if answer else f"found {found[1]}" if found else None
            if wanted or command_words(span[1]):
                self.add_command(part.line, span[1], wanted and [wanted], False)

    def read_faults(self, part):
        """Reads which texts have which fault, as `TEXT` is KIND at N, `TEXT` at N."""
        for match in FAULTY.finditer(part.text):
            self.tasks.append(Fault(part.line, match[1], "...", match[2], match[3]))
            more = ONE_MORE.match(part.text, match.end())
            while more:
                self.tasks.append(Fault(part.line, more[1], "...", match[2], more[2]))
                more = ONE_MORE.match(part.text, more.end())

    def read_block(self, block, before):
        name = name_before(before)
        if isinstance(before, Mark) and before.name == "not run":
            return
        if isinstance(before, Mark) and before.name == "file" and not before.lines:
            self.add_file(block.line, before.words, block.lines)
        elif isinstance(before, Mark) and before.name == "run" and "; prints: " not in before.words:
            self.add_command(block.line, before.words, block.lines, True)
        elif is_console(block):
            self.read_console(block)
        elif name:
            self.add_file(block.line, name, block.lines)
        elif isinstance(before, Paragraph):
            commands = [it for it in QUOTED.findall(before.text) if self.is_command(it)]
            if commands:
                self.add_command(block.line, commands[-1], block.lines, True)

    def read_console(self, block):
        starts = [at for at, line in enumerate(block.lines) if line.startswith(("./", "$ ", "rt "))]
        for start, end in zip(starts, [*starts[1:], len(block.lines)]):
            if command_words(block.lines[start]):
                behind = block.lines[start + 1:end]
                typed = [TYPED.fullmatch(it)[1] for it in behind if TYPED.fullmatch(it)]
                printed = [it for it in behind if not TYPED.fullmatch(it)]
                self.add_command(block.line + start, block.lines[start], printed or None, True, typed)

    def read_table(self, table, before):
        heads, rows = table.rows[0][1], table.rows[2:]
        if heads[:2] == SESSION_HEADS:
            self.read_session(rows)
        elif len(heads) > 1 and heads[0].startswith("Text") and heads[1] in ("First fault", "Printed"):
            around = before.words if isinstance(before, Mark) and before.name == "around" else "..."
            for line, cells in rows:
                self.read_text(line, cells[0].strip("`"), around, cells[1])

    def read_session(self, rows):
        for line, cells in rows:
            command, answer = QUOTED.findall(cells[0]), QUOTED.findall(cells[1])
            if command:
                self.add_command(line, command[0], answer, True)
            elif isinstance(self.tasks[-1], Say):
                self.tasks[-1].wanted.extend(answer)

    def read_text(self, line, text, around, said):
        fault = FAULT_CELL.match(said)
        if fault:
            self.tasks.append(Fault(line, text, around, fault[1], fault[2]))
        else:
            self.tasks.append(Shown(line, text, QUOTED.findall(said)))

    def is_command(self, text):
        is_said = self.model is not None and is_session_line(text) and not is_form(text.split())
        return is_said or command_words(text) is not None

    def add_file(self, line, name, lines):
        self.tasks.append(File(line, name, "".join(f"{it}\n" for it in lines)))
        if NAME.fullmatch(name):
            self.add_model(Model(line, name, None))

    def add_model(self, model):
        """Begins a session, unless one over the same file has just begun."""
        if self.model is None or self.says or self.model.name != model.name or model.input:
            self.tasks.append(model)
            self.model, self.says = model, 0

    def add_command(self, line, text, wanted, whole, typed=()):
        words = command_words(text) or ["./europa", *shlex.split(text)]
        model = model_of(line, words)
        if model:
            self.add_model(model)
        elif is_session_line(text):
            self.tasks.append(Say(line, text, wanted, whole))
            self.says += 1
        else:
            self.tasks.append(Run(line, words, typed, wanted, whole))


def is_console(block):
    return any(command_words(it) for it in block.lines)


def name_before(part):
    """The name of the file whose text follows a part, or None."""
    names = [it for it in QUOTED.findall(part.text) if NAME.fullmatch(it)] if isinstance(part, Paragraph) else []
    return names[-1] if names and part.text.endswith(":") else None
