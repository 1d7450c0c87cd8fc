"""The grammars of `editors/`, on all examples: each lexeme gets a colour, and the words of the language theirs."""
import json
import os
import re
import shutil
import subprocess
import unittest
from typing import Dict, Iterator, List, Tuple

from desk.lexemes import Lexeme, lexemes
from desk.words import CONSTRAINTS, DECISIONS, POSTS, RELATIONS, RESERVED

from .helpers import EXAMPLES, NAMES, TOP, InFolder

EDITORS = os.path.join(TOP, "editors")
WORDS = "".join(f"{word}(x);\n" for word in CONSTRAINTS + RELATIONS + POSTS + DECISIONS) + " ; ".join(sorted(RESERVED)) + \
    "\n-12 +inf 1.5 x == y != z A::P 'no' /* of\nlines */ \"a string\" // the rest\n"


def texts() -> Iterator[Tuple[str, str]]:
    for name in NAMES:
        with open(os.path.join(EXAMPLES, f"{name}.nddl"), encoding="latin-1") as opened:
            yield name, opened.read()
    yield "words", WORDS


class TextMate:
    """As much of the way in which editors read such a grammar as this one takes."""

    def __init__(self) -> None:
        with open(os.path.join(EDITORS, "textmate", "nddl.tmLanguage.json"), encoding="utf-8") as opened:
            self.grammar = json.load(opened)
        self.rules = list(self.flat(self.grammar["patterns"]))

    def flat(self, patterns: List[Dict]) -> Iterator[Dict]:
        for pattern in patterns:
            if "include" in pattern:
                yield from self.flat(self.grammar["repository"][pattern["include"][1:]]["patterns"])
            else:
                yield pattern

    def scopes(self, text: str) -> List[str]:
        """The scope of each character. The rule that matches first wins, and of those the one that stands first."""
        found, at = [""] * len(text), 0
        while True:
            matches = [(match.start(), number, match) for number, rule in enumerate(self.rules)
                       for match in [re.compile(rule.get("match") or rule["begin"], re.MULTILINE).search(text, at)] if match]
            if not matches:
                return found
            start, number, match = min(matches, key=lambda each: each[:2])
            rule, end = self.rules[number], match.end()
            if "begin" in rule:
                closing = re.compile(rule["end"]).search(text, end)
                end = closing.end() if closing else len(text)
            for place in range(start, end):
                found[place] = rule.get("name", "")
            for group, capture in rule.get("captures", {}).items():
                for place in range(*match.span(int(group))):
                    found[place] = capture["name"]
            at = max(end, at + 1)


def wanted(lexeme: Lexeme) -> str:
    """What the scope of a lexeme begins with, where that is fixed."""
    kinds = {"number": "constant.numeric", "decimal": "constant.numeric", "string": "string", "include": "keyword"}
    if lexeme.kind in kinds:
        return kinds[lexeme.kind]
    if lexeme.text in ("true", "false"):
        return "constant.language"
    if lexeme.text in RESERVED:
        return "keyword" if lexeme.text not in ("class", "predicate", "enum", "int", "float", "bool", "string") else ""
    return ""


class TextMateGrammar(unittest.TestCase):
    def test_each_lexeme_has_a_scope_of_its_own(self) -> None:
        grammar = TextMate()
        for name, text in texts():
            scopes = grammar.scopes(text)
            for lexeme in lexemes(text):
                found = set(scopes[lexeme.place:lexeme.end])
                self.assertEqual(len(found), 1, (name, lexeme))
                scope = found.pop()
                self.assertTrue(scope and scope.startswith(wanted(lexeme)) and "comment" not in scope, (name, lexeme, scope))
                self.assertEqual("constant" in scope, lexeme.kind in ("number", "decimal") or
                                 lexeme.text in ("true", "false"), (name, lexeme, scope))

    def test_comments(self) -> None:
        scopes = TextMate().scopes(WORDS)
        for part in ("of\nlines", "the rest"):
            place = WORDS.index(part)
            self.assertEqual({scope.split(".")[0] for scope in scopes[place:place + len(part)]}, {"comment"})

    def test_calls(self) -> None:
        scopes = TextMate().scopes(WORDS)
        for words, scope in ((CONSTRAINTS, "support.function.constraint"), (RELATIONS, "support.function.relation"),
                             (POSTS, "keyword.other.post"), (DECISIONS, "keyword.other.decision")):
            for word in words:
                self.assertTrue(scopes[re.search(rf"\b{word}\(", WORDS).start()].startswith(scope), word)


@unittest.skipUnless(shutil.which("vim"), "vim isn't installed")
class VimGrammar(InFolder):
    def groups(self, text: str) -> List[List[str]]:
        """The names of the groups in which vim shows the first and the last byte of each lexeme."""
        self.put("m.nddl", text)
        places = []
        for lexeme in lexemes(text):
            for byte in (lexeme.place, lexeme.end - 1):
                line = text.count("\n", 0, byte) + 1
                places.append(f"[{line}, {byte - text.rfind(chr(10), 0, byte)}]")
        self.put("ask.vim", "\n".join([
            f"set nocompatible runtimepath^={EDITORS}/vim", "filetype plugin on", "syntax on", "edit m.nddl",
            f"let found = map([{', '.join(places)}], 'synIDattr(synID(v:val[0], v:val[1], 1), \"name\")')",
            "call writefile(found, 'found')", "qall!"]))
        subprocess.run(["vim", "-u", "NONE", "-es", "-S", "ask.vim"], cwd=self.folder, stdin=subprocess.DEVNULL,
                       stdout=subprocess.DEVNULL, stderr=subprocess.DEVNULL, timeout=120, check=False)
        names = self.read("found").split("\n")[:-1]
        return [names[at:at + 2] for at in range(0, len(names), 2)]

    def test_each_lexeme_has_a_group(self) -> None:
        for name, text in texts():
            groups = self.groups(text)
            found = lexemes(text)
            self.assertEqual(len(groups), len(found))
            for lexeme, pair in zip(found, groups):
                if lexeme.text == "::" or "A::P" in text and lexeme.text in ("A", "P"):
                    continue
                self.assertEqual(len(set(pair)), 1, (name, lexeme, pair))
                self.assertTrue(pair[0].startswith("nddl") and pair[0] != "nddlComment", (name, lexeme, pair))
                if lexeme.kind in ("number", "decimal"):
                    self.assertEqual(pair[0], "nddlNumber", (name, lexeme))
                if lexeme.text in RESERVED:
                    self.assertIn(pair[0], ("nddlKeyword", "nddlControl", "nddlType", "nddlTruth"), (name, lexeme))


if __name__ == "__main__":
    unittest.main()
