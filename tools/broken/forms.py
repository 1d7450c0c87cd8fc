"""What the program may print: the forms that COMMANDS.md, SESSIONS.md, PLANS.md and LANGUAGE.md in docs/ state."""
import re

NUMBER = r"(?:0|[1-9][0-9]*)"
SIGNED = r"(?:0|-?[1-9][0-9]*)"
DECIMAL = rf"(?!-0\.000)-?{NUMBER}\.[0-9]{{3}}"
WORD = r"[A-Za-z_][A-Za-z0-9_]*"
OBJECT = rf"{WORD}(?:\.{WORD})*"
VALUE = rf"(?:{DECIMAL}|{SIGNED}|{OBJECT})"
TOKEN = rf"{WORD}(?:/{NUMBER}:{NUMBER})*"
LOCAL = rf"{TOKEN}/{NUMBER}!{NUMBER}"
GLOBAL = rf"(?:{WORD}|!{NUMBER})"
VARIABLE = rf"(?:{TOKEN}\.{WORD}|{LOCAL}|{GLOBAL})"
NAME = rf"(?:{VARIABLE}|{TOKEN})"
# A value in a script, which may be written in several ways, and an argument of a constraint.
GIVEN = rf"(?:-?[0-9]+(?:\.[0-9]{{1,3}})?|{OBJECT})"
ARGUMENT = rf"(?:{NAME}|{GIVEN})"
KIND = "(?:eq|neq|lt|leq|addEq|mulEq|testEQ|testLEQ)"
RELATION = "(?:any|before|after|meets|met_by|equals|contains|contained_by|starts|ends|parallels|paralleled_by|" \
           "starts_during|contains_start|ends_during|contains_end)"
TIMES = rf"start {SIGNED} end {SIGNED} duration {SIGNED}"
PLAN_LINE = "|".join([
    rf"global {GLOBAL} {VALUE}",
    rf"fact {WORD} {WORD}\.{WORD} {TIMES} object {OBJECT}(?: {WORD} {VALUE})*",
    rf"token {TOKEN} {WORD}\.{WORD} {TIMES} object {OBJECT}(?: {WORD} {VALUE})*",
    rf"merged {TOKEN} {TOKEN}",
    rf"rejected {WORD}",
    rf"local {LOCAL} {VALUE}",
])
FOUND = rf"found {NUMBER}\nplan\n(?:(?:{PLAN_LINE})\n)*end\n"
EXHAUSTED = rf"exhausted {NUMBER}(?: bound)?\n"
BUDGET = rf"budget {NUMBER}\n"
CLAUSE = "|".join([
    rf"V1 {GLOBAL}", rf"V2 {TOKEN}", rf"V3 {TOKEN}", rf"V4 {TOKEN}", rf"V5 (?:{TOKEN}|{LOCAL})", rf"V6 (?:{TOKEN}|{LOCAL})",
    rf"V7 (?:problem|{TOKEN}/{NUMBER}) {NUMBER}", rf"V8 {TOKEN} {TOKEN}", rf"V9 {OBJECT} {NUMBER}", rf"V10 {OBJECT} {NUMBER}",
])
LEXEME = rf'(?:{WORD}|{SIGNED}|-?{NUMBER}\.[0-9]{{3}}|"[^"\n]*"|#include|[{{}}()\[\];,.=]|==|!=|::)'
SHOWN = rf"(?:{LEXEME}(?: {LEXEME})*\n)*"
USAGE = "usage: europa plan FILE [--steps N] [--tokens N] | script FILE | check FILE PLAN | show FILE | gen N | try N\n"

READING = ["BadByte", "OpenComment", "OutOfRange", "Syntax", "Absent", "Limit:bytes", "Limit:nesting"]
LIMITS = "files depth rules guards slots locals items turns parameters members objects new roots facts globals"
MEANING = ["Unknown", "Twice", "WrongType", "WrongCount", "NotInDomain", "Closed", "NotAdmissible", "AfterConflict"]
KINDS = READING + MEANING + [f"Limit:{word}" for word in LIMITS.split()]

# The statuses that a command may have here, where writing goes well and there is memory.
STATUSES = {
    "plan": (0, 3, 10, 11, 20), "script": (0, 3, 6, 20), "check": (0, 3, 5, 20), "show": (0, 3, 20), "gen": (0,), "try": (0,),
}
PRINTED = {
    ("plan", 0): FOUND,
    ("plan", 10): EXHAUSTED,
    ("plan", 11): BUDGET,
    ("check", 0): r"valid\n",
    ("check", 5): rf"invalid (?:{CLAUSE}|text (?:Syntax|Twice|Unknown) {NUMBER})\n",
    ("show", 0): SHOWN,
    ("gen", 0): r"(?:[^\n]+\n)+",
    ("try", 0): rf"try {NUMBER}\nfound {NUMBER}\nactive {NUMBER}\nmerged {NUMBER}\nvalid\n",
}
PRINTED = {key: re.compile(form.encode()) for key, form in PRINTED.items()}


class Request:
    """What words ask for: the command, its files, its number; the command is `-` where they are no command line."""

    def __init__(self, command="-", files=(), number=0):
        self.command, self.files, self.number = command, files, number


OPERANDS = {"plan": 1, "script": 1, "check": 2, "show": 1, "gen": 1, "try": 1}
OPTIONS = {b"--steps": (1, 1_000_000), b"--tokens": (0, 512)}


def number_in(word, least, greatest):
    """The number of one to seven digits that a word is, or None where it isn't one within the bounds."""
    found = int(word) if re.fullmatch(rb"[0-9]{1,7}", word) else None
    return found if found is not None and least <= found <= greatest else None


def operands_of(words):
    """The words behind the command that are no options, or None where an option isn't as it has to be."""
    found, seen, rest = [], set(), iter(words[1:])
    for word in rest:
        name, equals, value = word.partition(b"=")
        if word == b"--":
            return found + list(rest)
        if word == b"-" or not word.startswith(b"-"):
            found.append(word)
            continue
        value = value if equals else next(rest, b"")
        if name not in OPTIONS or name in seen or words[0] != b"plan" or number_in(value, *OPTIONS[name]) is None:
            return None
        seen.add(name)
    return found


def is_text(word):
    """Whether the bytes of a word are UTF-8."""
    try:
        word.decode()
    except UnicodeDecodeError:
        return False
    return True


def read_words(words):
    """The request that words make, as docs/COMMANDS.md has them."""
    command = words[0].decode() if words and all(map(is_text, words)) else "-"
    operands = operands_of(words) if command in OPERANDS else None
    if operands is None or len(operands) != OPERANDS[command]:
        return Request()
    if command in ("gen", "try"):
        number = number_in(operands[0], 1, 200)
        return Request() if number is None else Request(command, (), number)
    return Request(command, operands) if all(operands) else Request()


class Check:
    """The check of one run: the request, what is under each name that it may ask for, and what is given on standard input;
    nothing is under a name that isn't a file's, and given where the input can't be read."""

    def __init__(self, request, texts, given):
        self.request, self.texts, self.given = request, texts, given

    def fault(self, status, output):
        """What isn't as documented, in a few words, or nothing."""
        command = self.request.command
        if command == "-":
            return "" if (status, output) == (2, USAGE.encode()) else "words that are no command line"
        if status not in STATUSES[command]:
            return "status"
        if status == 3:
            return self.text_fault(output)
        if status == 20 and not output and self.read_may_fail():
            return ""
        if command == "script":
            return Replies(self.given or b"", output).fault(status)
        return "read" if status == 20 else self.printed_fault(status, output)

    def read_may_fail(self):
        """Whether there is something that can't be read as a file."""
        return None in self.texts.values() or self.request.command == "script" and self.given is None

    def text_fault(self, output):
        """What is wrong with a line on a fault of a text: its form, its kind, its file or its place."""
        found = re.fullmatch(rb"text (\S+) (.*) (0|[1-9][0-9]*)\n", output, re.S)
        kinds = READING if self.request.command == "show" else KINDS
        if not found or found[1].decode("latin-1") not in kinds:
            return "form of a fault"
        if found[2] not in self.texts:
            return "file of a fault"
        text = self.texts[found[2]]
        return "place of a fault" if int(found[3]) > (0 if text is None else len(text)) else ""

    def printed_fault(self, status, output):
        """What is wrong with what a command printed that reads no standard input."""
        command, number = self.request.command, self.request.number
        if not PRINTED[command, status].fullmatch(output):
            return "form"
        if command == "gen" and output.count(b"goal(") != number:
            return "number of goals"
        if command == "try" and not output.startswith(b"try %d\nfound %d\n" % (number, 1 + number * (number + 1))):
            return "numbers of a trial"
        return ""


DECISION = "|".join([
    rf"specify {VARIABLE} {VALUE}", rf"activate {TOKEN}", rf"merge {TOKEN} {TOKEN}", rf"reject {WORD}", rf"order {TOKEN} {TOKEN}",
    rf"post {KIND}(?: (?:{VARIABLE}|{VALUE}))+", rf"relate {RELATION} {TOKEN} {TOKEN}",
])
STATE = rf"(?:inactive|active|fact|merged {TOKEN}|rejected)"
POINT = rf"(?:origin|{TOKEN}\.(?:start|end))"
FLAW = "|".join([
    "none", rf"token {TOKEN} choices {NUMBER}", rf"variable {VARIABLE} choices {NUMBER}", rf"order {TOKEN} {TOKEN} choices 2",
    rf"time {TOKEN}\.(?:start|duration) choices {NUMBER}",
])
# Of each command its words, what it may be refused for, whether it may be inconsistent, and what it may be answered else. Any
# name is read where one is wanted; that it isn't a token's or a variable's is for the replies to say.
COMMANDS = {
    "specify": (rf"{NAME} {GIVEN}", "full inconsistent unknown decided not-in-domain not-active", True, "ok"),
    "activate": (NAME, "full inconsistent unknown decided active-full", True, "ok"),
    "merge": (rf"{NAME} {NAME}", "full inconsistent unknown decided not-active not-same-predicate", True, "ok"),
    "reject": (NAME, "full inconsistent unknown decided not-rejectable", True, "ok"),
    "order": (rf"{NAME} {NAME}", "full inconsistent unknown decided not-active same", True, "ok"),
    "post": (rf"{KIND}(?: {ARGUMENT})+", "full inconsistent unknown wrong-type decided not-in-domain not-active", True, "ok"),
    "relate": (rf"{RELATION} {NAME} {NAME}", "full inconsistent unknown decided not-active same", True, "ok"),
    "reset": (rf"{NAME}(?: {NAME})?", "full no-decision", True, "ok"),
    "withdraw": (rf"{KIND}(?: {ARGUMENT})+", "full no-decision", True, "ok"),
    "unrelate": (rf"{RELATION} {NAME} {NAME}", "full no-decision", True, "ok"),
    "undo": ("", "nothing", True, "ok"),
    "domain": (NAME, "unknown", True, rf"{VARIABLE} (?:\[{SIGNED} {SIGNED}\]|\[{DECIMAL} {DECIMAL}\]|\{{{VALUE}(?: {VALUE})*\}})"),
    "tokens": ("", "", True, None),
    "decisions": ("", "", False, None),
    "flaws": ("", "", True, rf"flaw (?:{FLAW})"),
    "solve": (r"[0-9]+ [0-9]+", "full", True, rf"exhausted {NUMBER}(?: bound)?|budget {NUMBER}"),
    "why": ("", "consistent", False, None),
    "cycle": ("", "consistent", False, None),
}
# Of each reply of several lines its first word, and each further line.
LISTS = {
    "tokens": ("tokens", rf"{TOKEN} {WORD}\.{WORD} {STATE}"),
    "decisions": ("decisions", DECISION),
    "why": ("conflict", DECISION),
    "cycle": ("cycle", rf"{POINT} \+ {SIGNED} <= {POINT}"),
}
ASKED = {name: re.compile((name + (" " + parts[0] if parts[0] else "")).encode()) for name, parts in COMMANDS.items()}


def answer(parts):
    """The form of a reply of one line to a command."""
    refused = rf"refused (?:{parts[1].replace(' ', '|')})" if parts[1] else ""
    forms = [form for form in (refused, "inconsistent" if parts[2] else "", parts[3]) if form]
    return re.compile("(?:" + "|".join(forms) + ")") if forms else re.compile("(?!)")


ANSWERED = {name: re.compile(answer(parts).pattern.encode()) for name, parts in COMMANDS.items()}
LISTED = {name: (first.encode(), re.compile(each.encode())) for name, (first, each) in LISTS.items()}
PLANNED = re.compile(FOUND.encode())
# Names with numbers or words as these may be no names at all: of those the documents leave open how they are refused.
RESERVED = rb"class|predicate|enum|typedef|extends|new|if|else|foreach|in|int|float|bool|string|true|false|super|inf"
DOUBTFUL = re.compile(rb"[0-9]{5}|\b0[0-9]|\b(?:%s)\b" % RESERVED)
LONGEST, MOST = 4096, 1_000_000


def script_lines(given):
    """The lines of an input that are answered, and the status behind them."""
    lines = given.split(b"\n")
    lines = lines if lines[-1] else lines[:-1]
    count, found = 0, []
    for line in lines:
        count += max(1, -(-len(line) // LONGEST))
        if count > MOST:
            return found, 6
        words = re.findall(rb"[^ \t\r]+", line) if line else []
        if words == [b"quit"] and len(line) <= LONGEST:
            break
        if words or len(line) > LONGEST:
            found.append((line, b" ".join(words)))
    return found, 0


class Replies:
    """What a script was answered, looked at line by line."""

    def __init__(self, given, output):
        self.given, self.output, self.at = given, output, 0

    def fault(self, status):
        """The first line whose reply isn't as documented, or what else is wrong."""
        lines, wanted = script_lines(self.given)
        for number, (line, command) in enumerate(lines):
            if not (self.is_refused(b"long") if len(line) > LONGEST else self.is_answered(command)):
                return f"reply {number} to {command[:80]!r}"
        if self.at != len(self.output):
            return "output behind the last reply"
        return "" if status == wanted else "status of a script"

    def next_line(self):
        end = self.output.find(b"\n", self.at)
        if end < 0:
            return None
        line, self.at = self.output[self.at:end], end + 1
        return line

    def is_refused(self, reason):
        return self.next_line() == b"refused " + reason

    def is_answered(self, command):
        name = command.split(b" ")[0].decode("latin-1")
        if name not in COMMANDS or not ASKED[name].fullmatch(command) or not in_bounds(command):
            return self.is_refused(b"syntax")
        found = PLANNED.match(self.output, self.at) if name == "solve" else None
        if found:
            self.at = found.end()
            return True
        line = self.next_line()
        if line is None:
            return False
        if line == b"refused syntax":
            return bool(DOUBTFUL.search(command))
        return self.is_listed(name, line) or self.is_single(name, command, line)

    def is_single(self, name, command, line):
        same = name != "domain" or not line.endswith((b"]", b"}")) or line.startswith(command[7:] + b" ")
        return same and bool(ANSWERED[name].fullmatch(line))

    def is_listed(self, name, line):
        """Whether this line and those behind it are a list with as many lines as it says."""
        first, each = LISTED.get(name, (None, None))
        found = re.fullmatch(rb"([a-z]+) (0|[1-9][0-9]*)", line)
        if not first or not found or found[1] != first:
            return False
        return all(each.fullmatch(self.next_line() or b"-") for _ in range(int(found[2])))


def in_bounds(command):
    """Whether the numbers of a `solve` are those that it may have; of other commands true."""
    words = command.split(b" ")
    return words[0] != b"solve" or (1 <= int(words[1]) <= 1_000_000 and 0 <= int(words[2]) <= 512)
