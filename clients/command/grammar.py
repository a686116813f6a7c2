"""The grammar of a line of a script, the tokens of a line, and what may stand behind the first of them.

The program alone judges a script. This reading serves to say in words what it says by a line and a column, so where the
two differ the program is right.
"""
from __future__ import annotations

import functools
import re
from dataclasses import dataclass
from typing import Dict, FrozenSet, Iterator, List, Optional, Set, Tuple, Union

# That of docs/DEFINITIONS.md, line by line.
GRAMMAR = """\
command  = "field" NUM
         | "let" WORD "=" build
         | "limit" ( "pairs" | "degree" ) NUM
         | ( "hyperplanes" | "point" | "rank" | "flats" | "poincare" | "characteristic" | "circuits" | "nbc" ) WORD
         | "triple" WORD NUM
         | "normal" WORD expr
         | "aomoto" WORD list
         | ( "gb" | "der" | "resolve" | "free" ) WORD list?
build    = "forms" NUM rows | "cone" NUM rows
         | ( "typeA" | "typeB" | "typeD" | "boolean" ) NUM
         | "graphic" NUM edges
         | ( "delete" | "restrict" ) WORD NUM
rows     = "[" "]" | "[" row { "," row } "]"
row      = INT { INT }
edges    = "[" { NUM "-" NUM } "]"
list     = "[" { INT } "]"
INT      = NUM | "-" NUM
expr     = product { ( "+" | "-" ) product } | "-" product { ( "+" | "-" ) product }
product  = factor { "*" factor }
factor   = NUM | GEN
GEN      = a WORD that is the letter e followed by one to ten digits
"""
TOKEN = re.compile(rb"[A-Za-z][A-Za-z0-9_]*|[0-9]+|[^ \t\r]")


@dataclass(frozen=True)
class Token:
    """The bytes of a token, and the columns of its first byte and of the one behind it, from 1."""

    text: bytes
    column: int
    end: int

    @property
    def word(self) -> str:
        return self.text.decode("latin-1")


def tokens_of(line: bytes) -> List[Token]:
    """The tokens of a line, without its comment.

    >>> [it.word for it in tokens_of(b"let A = forms 2 [1 -1] # a point")]
    ['let', 'A', '=', 'forms', '2', '[', '1', '-', '1', ']']
    """
    code = line.split(b"#", 1)[0]
    return [Token(it.group(), it.start() + 1, it.end() + 1) for it in TOKEN.finditer(code)]


# ---- expressions over tokens


@dataclass(frozen=True)
class Item:
    """A token: one in quotes by its text, or any NUM, WORD or GEN."""

    text: str
    quoted: bool

    def takes(self, token: Token) -> bool:
        if self.quoted:
            return token.word == self.text
        pattern = {"NUM": r"[0-9]{1,10}", "WORD": r"[A-Za-z][A-Za-z0-9_]*", "GEN": r"e[0-9]{1,10}"}[self.text]
        return re.fullmatch(pattern, token.word) is not None


@dataclass(frozen=True, eq=False)
class Rule:
    name: str


@dataclass(frozen=True, eq=False)
class Sequence:
    parts: Tuple[Node, ...]


@dataclass(frozen=True, eq=False)
class Choice:
    parts: Tuple[Node, ...]


@dataclass(frozen=True, eq=False)
class Repeat:
    part: Node


@dataclass(frozen=True, eq=False)
class Maybe:
    part: Node


Node = Union[Item, Rule, Sequence, Choice, Repeat, Maybe]
Ahead = Tuple[Node, ...]  # what is still to be matched, in order


class _Reader:
    """Reads one right side of the grammar."""

    def __init__(self, text: str) -> None:
        self.parts: List[str] = re.findall(r'"[^"]*"|\w+|[|(){}?]', text)
        self.at = 0

    def peek(self) -> str:
        return self.parts[self.at] if self.at < len(self.parts) else ""

    def take(self) -> str:
        self.at += 1
        return self.parts[self.at - 1]

    def choice(self) -> Node:
        parts = [self.sequence()]
        while self.peek() == "|":
            self.take()
            parts.append(self.sequence())
        return parts[0] if len(parts) == 1 else Choice(tuple(parts))

    def sequence(self) -> Node:
        parts: List[Node] = []
        while self.peek() not in ("", "|", ")", "}"):
            part = self.single()
            if self.peek() == "?":
                self.take()
                part = Maybe(part)
            parts.append(part)
        return parts[0] if len(parts) == 1 else Sequence(tuple(parts))

    def single(self) -> Node:
        word = self.take()
        if word in "({":
            within = self.choice()
            self.take()
            return Repeat(within) if word == "{" else within
        if word.startswith('"'):
            return Item(word.strip('"'), True)
        return Item(word, False) if word in ("NUM", "WORD", "GEN") else Rule(word)


def _rules() -> Dict[str, Node]:
    rules = {}
    for name, side in re.findall(r"^(\w+) +=((?:.*\n)(?: .*\n)*)", GRAMMAR, re.M):
        if name != "GEN":
            rules[name] = _Reader(side).choice()
    return rules


RULES = _rules()


def _heads(ahead: Ahead) -> Iterator[Tuple[Optional[Item], Ahead]]:
    """What may come first, each with what is then ahead; None where the line may end."""
    if not ahead:
        yield None, ()
        return
    node, rest = ahead[0], ahead[1:]
    if isinstance(node, Item):
        yield node, rest
    elif isinstance(node, Rule):
        yield from _heads((RULES[node.name], *rest))
    elif isinstance(node, Sequence):
        yield from _heads((*node.parts, *rest))
    elif isinstance(node, Choice):
        for part in node.parts:
            yield from _heads((part, *rest))
    else:
        yield from _heads(rest)
        again: Ahead = (node,) if isinstance(node, Repeat) else ()
        yield from _heads((node.part, *again, *rest))


@dataclass(frozen=True)
class Wanted:
    """What may stand behind the beginning of a line: tokens, or its end."""

    items: FrozenSet[Item]
    may_end: bool

    def words(self) -> List[str]:
        """The words in quotes, without the symbols."""
        return sorted(it.text for it in self.items if it.quoted and it.text.isalpha())

    def symbols(self) -> List[str]:
        return sorted(it.text for it in self.items if it.quoted and not it.text.isalpha())

    def has(self, kind: str) -> bool:
        """Whether a NUM, WORD or GEN may stand there."""
        return Item(kind, False) in self.items


@functools.lru_cache(maxsize=None)
def _all_heads(ahead: Ahead) -> Tuple[Tuple[Optional[Item], Ahead], ...]:
    return tuple(_heads(ahead))


_START: Ahead = (Rule("command"),)


def beginning(tokens: List[Token]) -> Tuple[int, Wanted]:
    """How many of the tokens, at most, begin some command, and what may stand behind these.

    >>> beginning(tokens_of(b"point A A"))
    (2, Wanted(items=frozenset(), may_end=True))
    >>> beginning(tokens_of(b"limit"))[1].words()
    ['degree', 'pairs']
    """
    every: Set[Ahead] = {_START}
    good = 0
    for token in tokens:
        behind = {rest for it in every for item, rest in _all_heads(it) if item is not None and item.takes(token)}
        if not behind:
            break
        every = behind
        good += 1
    heads = [item for it in every for item, _ in _all_heads(it)]
    return good, Wanted(frozenset(it for it in heads if it is not None), None in heads)


def fault_of(line: bytes) -> Optional[int]:
    """The column of a line outside the grammar, or None.

    >>> fault_of(b"let A = forms 2 [1 0, 0"), fault_of(b"free A [1,1]"), fault_of(b"point A")
    (24, 10, None)
    """
    tokens = tokens_of(line)
    good, wanted = beginning(tokens)
    if good < len(tokens):
        return tokens[good].column
    return tokens[-1].end if tokens and not wanted.may_end else None
