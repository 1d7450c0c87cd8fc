"""Spoils good texts: bytes, fronts, lines and lexemes."""
import re

LEXEME = re.compile(rb'"[^"\n]*"|[A-Za-z_]\w*|[+-]?\d+|::|[=!]=|/\*|\S|\n')
NUMBER = re.compile(rb"[+-]?\b\d+\b")
STRANGE = [
    *b"{ } ( ) [ ] ; , . = == != :: /* */ // \" ' @ \xff \xc3\xa9 !0 /0:0 g/0:0/1:1".split(),
    *b"class predicate enum typedef extends new if else foreach in int float bool string true false super".split(),
    *b"goal rejectable fact close object start end duration Timeline PlannerConfig inf -inf +inf 1.5 1.5000 0x1".split(),
    *b"found plan global token local merged rejected solve reset undo quit why cycle".split(),
    b"#include", b'#include "m.nddl"', b'"nowhere.nddl"', b"\x00", b"\n", b"\r", b"\t", b" ",
]
NUMBERS = [
    *b"0 -0 1 -1 16 17 32 33 512 513 1024 1025 4096 4097 65535 65536 100000 999999 00 +1".split(),
    *b"1000000 1000001 -1000000 -1000001 9999999 10000000 2147483648 4294967296 9223372036854775808".split(),
    b"18446744073709551616", b"0" * 400 + b"7", b"9" * 400,
]


def bytes_by_chance(random, most=3000):
    """Bytes of all values, of ASCII ones, or of those that texts are made of."""
    among = random.choice([range(256), range(32, 127), b"{}()[];,.=!:/*\"#\n aAzZ019_+-inewclasgoal"])
    return bytes(random.choice(among) for _ in range(random.randrange(most)))


def front(random, text):
    return text[:random.randrange(len(text) + 1)]


def lines_swapped(random, text):
    """Two lines of a text swapped, one taken away or one doubled."""
    lines = text.split(b"\n")
    for _ in range(random.randint(1, 3)):
        one, other = random.randrange(len(lines)), random.randrange(len(lines))
        act = random.randrange(4)
        if act < 2:
            lines[one], lines[other] = lines[other], lines[one]
        elif act == 2 and len(lines) > 1:
            del lines[one]
        else:
            lines.insert(one, lines[other])
    return b"\n".join(lines)


def lexeme_changed(random, text):
    """One lexeme of a text taken away, doubled, or put in place of another one."""
    found = list(LEXEME.finditer(text))
    if not found:
        return random.choice(STRANGE)
    place = random.choice(found)
    act, lexeme = random.randrange(6), place[0]
    other, strange = random.choice(found)[0], random.choice(STRANGE)
    new = [b"", lexeme + b" " + lexeme, other, strange, random.choice(NUMBERS), lexeme + strange][act]
    return text[:place.start()] + new + text[place.end():]


def number_changed(random, text):
    """One number of a text is another one, at a bound or past one."""
    found = list(NUMBER.finditer(text))
    if not found:
        return text + b" " + random.choice(NUMBERS)
    place = random.choice(found)
    return text[:place.start()] + random.choice(NUMBERS) + text[place.end():]


def bytes_changed(random, text):
    """Some bytes of a text are others."""
    changed = bytearray(text)
    for _ in range(random.randint(1, 4)):
        place = random.randrange(len(changed) + 1)
        changed[place:place + random.randrange(2)] = bytes([random.randrange(256)] * random.randrange(1, 3))
    return bytes(changed)
