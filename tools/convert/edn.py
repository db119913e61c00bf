"""Reads EDN (github.com/edn-format/edn), as far as Jepsen's histories have it.

Maps are `Map`s, vectors and lists are lists, sets are `Set`s, whole numbers and floats are Python's, `nil` is None. Keywords, symbols,
letters and exact decimals are `Name`s, texts `Text`s, so that `:a`, `a`, `\\a` and `"a"` differ. A tag is dropped, and its value stays.
"""

import json
import math
import re

TOKEN = re.compile(r"""
    (?P<space> (?: [\s,] | ;[^\n]* )+ ) |
    (?P<text> "(?: [^"\\] | \\. )*" ) |
    (?P<open> \#\{ | [(\[{] ) | (?P<close> [)\]}] ) |
    (?P<discard> \#_ ) | (?P<tag> \#[A-Za-z][^\s,()\[\]{}"]* ) | (?P<letter> \\[^\s,()\[\]{}"]+ ) |
    (?P<word> [^\s,()\[\]{}"]+ )""", re.X | re.S)
CLOSES = {"(": ")", "[": "]", "{": "}", "#{": "}"}
WORDS = {"nil": None, "true": True, "false": False}


class NoEdn(Exception):
    """The text isn't EDN; `line` is where."""

    def __init__(self, line, why):
        super().__init__(why)
        self.line = line


class Name(str):
    """A keyword or a symbol."""


class Text(str):
    """A text, without its quotation marks."""


class Set(frozenset):
    """A set, of the texts of its values."""


class Map(dict):
    """A map, whose keys are the texts of its keys: `:a` is ":a"."""


def text_of(value):
    """A text of a value; equal values have equal texts, in whatever order their maps and sets stand, and different ones different texts."""
    if isinstance(value, Set):
        return "#{" + " ".join(sorted(value)) + "}"
    if isinstance(value, dict):
        key_text = str if isinstance(value, Map) else text_of
        return "{" + ", ".join(sorted(f"{key_text(key)} {text_of(it)}" for key, it in value.items())) + "}"
    if isinstance(value, list):
        return "[" + " ".join(map(text_of, value)) + "]"
    if value is None:
        return "nil"
    if isinstance(value, Name):
        return str(value)
    return json.dumps(value, ensure_ascii=False)


class Reader:
    def __init__(self, text):
        self.text, self.at, self.line = text, 0, 1

    def next(self):
        """The kind and the text of the next token, and its line; nothing at the end."""
        while self.at < len(self.text):
            found = TOKEN.match(self.text, self.at)
            if not found:
                raise NoEdn(self.line, "no EDN")
            line = self.line
            self.at = found.end()
            self.line += found[0].count("\n")
            if found.lastgroup != "space":
                return found.lastgroup, found[0], line
        return None

    def value(self, token):
        kind, text, line = token
        if kind == "open":
            return self.collection(text, line)
        if kind == "tag":
            return self.value(self.wanted(line))
        if kind == "text":
            return Text(re.sub(r"\\(u[0-9a-fA-F]{4}|.)", letter_of, text[1:-1], flags=re.S))
        if kind == "word":
            try:
                return word_of(text)
            except ValueError:
                raise NoEdn(line, "a number that is too large") from None
        if kind == "letter":
            return Name(text)
        raise NoEdn(line, f"{text} where a value belongs")

    def wanted(self, line):
        token = self.next()
        if token is None:
            raise NoEdn(line, "an end where a value belongs")
        return token

    def collection(self, opened, line):
        items = []
        while True:
            token = self.wanted(line)
            if token[0] == "close":
                if token[1] != CLOSES[opened]:
                    raise NoEdn(token[2], f"{token[1]} closes {opened}")
                break
            if token[0] == "discard":
                self.value(self.wanted(line))
            else:
                items.append(self.value(token))
        if opened != "{":
            return Set(map(text_of, items)) if opened == "#{" else items
        if len(items) % 2:
            raise NoEdn(line, "a key without a value")
        return Map(zip(map(text_of, items[::2]), items[1::2]))


def letter_of(found):
    """What an escaped letter of a text stands for."""
    it = found[1]
    return chr(int(it[1:], 16)) if len(it) == 5 else {"n": "\n", "t": "\t", "r": "\r"}.get(it, it)


def word_of(text):
    if text in WORDS:
        return WORDS[text]
    if re.fullmatch(r"[-+]?\d+N?", text):
        return int(text.rstrip("N"))
    if re.fullmatch(r"[-+]?\d+(\.\d*)?([eE][-+]?\d+)?", text):
        if not math.isfinite(float(text)):
            raise ValueError
        return float(text)
    return Name(text)


def values_of(text):
    """The values of a text, each with its line. Where all stand in one vector, these of the vector, behind which nothing may stand."""
    reader, is_over = Reader(text), False
    try:
        token = reader.next()
        inside = token is not None and token[:2] == ("open", "[")
        if inside:
            token = reader.next()
        while token is not None:
            if token[0] == "discard":
                reader.value(reader.wanted(token[2]))
            elif is_over:
                raise NoEdn(token[2], f"{token[1]} behind the vector")
            elif inside and token[:2] == ("close", "]"):
                is_over = True
            else:
                yield token[2], reader.value(token)
            token = reader.next()
    except RecursionError:
        raise NoEdn(reader.line, "nested too deep") from None
    if inside and not is_over:
        raise NoEdn(reader.line, "an end where ] belongs")
