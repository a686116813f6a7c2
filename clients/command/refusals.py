"""Refusals in words: the line that was refused, a mark under the place, and one sentence on the cause.

The program says a refusal by one line, as `refused line 3: syntax 9`. What is made of it here is not proved; it changes
nothing of what the program writes, and stands on standard error.
"""
from __future__ import annotations

import difflib
import re
from dataclasses import dataclass
from typing import Callable, Dict, Iterable, List, Optional, Tuple

from grammar import Token, Wanted, beginning, tokens_of

PRIMES = (5, 7, 13, 31, 101, 251, 32003)
MOST_VARIABLES = 10
MOST_FORMS = 64
BYTE_ORDER_MARK = b"\xef\xbb\xbf"
WIDTH = 76  # of the part of a line that is shown

# What people write in place of a symbol: the text, what it is called, and what a script has.
STRANGE = {
    "\u2212": ("a minus sign that is no `-`", "write `-`"),
    "\u2013": ("a dash that is no `-`", "write `-`"),
    "\u2014": ("a dash that is no `-`", "write `-`"),
    "\u00a0": ("a blank that does not break lines", "write a plain blank"),
    "\ufeff": ("a byte order mark", "save the file without one"),
    ";": ("`;`", "a line is one command, with no mark at its end"),
    "(": ("`(`", "lists stand in `[` and `]`"),
    ")": ("`)`", "lists stand in `[` and `]`"),
    "{": ("`{`", "lists stand in `[` and `]`"),
    "}": ("`}`", "lists stand in `[` and `]`"),
    "/": ("`/`", "numbers are whole, and what is a fraction over the rationals is a residue modulo p"),
    ".": ("`.`", "numbers are whole"),
    "^": ("`^`", "a form is written by its coefficients, and a multiplicity stands in the list of a question"),
    ":": ("`:`", "only answers have it"),
    "\0": ("a zero byte", "the file may be UTF-16; save it as plain text"),
}


@dataclass(frozen=True)
class Cause:
    """The columns of what is marked, from 1, and the sentence."""

    start: int
    end: int
    sentence: str


@dataclass(frozen=True)
class Named:
    """An arrangement of a script: the number of its line, and the tokens behind its `=`."""

    line: int
    build: Tuple[Token, ...]

    @property
    def word(self) -> str:
        return self.build[0].word if self.build else ""

    def number(self, at: int = 1) -> int:
        """The number that stands at that place of the build."""
        return int(self.build[at].word) if len(self.build) > at and self.build[at].word.isdigit() else 0

    def rows(self) -> List[List[Token]]:
        """The tokens between the brackets, cut at commas."""
        rows: List[List[Token]] = [[]]
        for token in self.build[3:]:
            if token.word == "]":
                break
            if token.word == ",":
                rows.append([])
            else:
                rows[-1].append(token)
        return rows if rows != [[]] else []


class Script:
    """The lines of a script, and what those before some line have named and chosen."""

    def __init__(self, text: bytes, number: int) -> None:
        self.line = (text.split(b"\n") + [b""] * number)[number - 1]
        self.number = number
        self.tokens = tokens_of(self.line)
        self.names: Dict[str, Named] = {}
        self.field: Optional[Tuple[int, int]] = None  # the number of its line, and the prime
        for k, line in enumerate(text.split(b"\n")[: number - 1], 1):
            words = tokens_of(line) if line.lstrip().startswith((b"let", b"field")) else []
            if len(words) > 3 and words[0].word == "let" and words[2].word == "=":
                self.names.setdefault(words[1].word, Named(k, tuple(words[3:])))
            elif len(words) == 2 and words[0].word == "field" and words[1].word.isdigit():
                self.field = self.field or (k, int(words[1].word))

    def prime(self) -> int:
        return self.field[1] if self.field else 0

    def is_let(self) -> bool:
        return bool(self.tokens) and self.tokens[0].word == "let"

    def here(self) -> Named:
        """What a `let` of this line names."""
        return Named(self.number, tuple(self.tokens[3:]))

    def count(self, name: str) -> Optional[int]:
        """How many hyperplanes the arrangement has, where that is seen without the program."""
        named = self.names.get(name)
        if named is None:
            return None
        n = named.number()
        if named.word in ("forms", "cone"):
            return len(named.rows()) + (named.word == "cone")
        if named.word == "graphic":
            return sum(it.word == "-" for it in named.build)
        if named.word == "delete":
            before = self.count(named.build[1].word) if named.build[1].word != name else None
            return None if before is None else before - 1
        counts = {"typeA": n * (n + 1) // 2, "typeB": n * n, "typeD": n * (n - 1), "boolean": n}
        return counts.get(named.word)

    def at(self, token: Token, sentence: str) -> Cause:
        return Cause(token.column, token.end, sentence)

    def token(self, k: int) -> Token:
        """Token k from 0, or where there is none the place behind the last."""
        if k < len(self.tokens):
            return self.tokens[k]
        end = self.tokens[-1].end if self.tokens else 1
        return Token(b"", end, end)

    def span(self, tokens: List[Token], sentence: str) -> Cause:
        return Cause(tokens[0].column, tokens[-1].end, sentence) if tokens else self.at(self.token(0), sentence)


def nearest(word: str, known: Iterable[str]) -> Optional[str]:
    """The known word that is most like this one, or None.

    >>> nearest("form", ["forms", "field"]), nearest("TYPEB", ["typeA", "typeB"]), nearest("q", ["rank"])
    ('forms', 'typeB', None)
    """
    every = list(known)
    same = [it for it in every if it.casefold() == word.casefold()]
    close = difflib.get_close_matches(word, every, 1, 0.6)
    return next(iter(same + close), None)


def listed(words: List[str], last: str = "or") -> str:
    """Words in a row, as `a, b or c`."""
    return words[0] if len(words) == 1 else f"{', '.join(words[:-1])} {last} {words[-1]}"


PRIMES_IN_WORDS = listed([str(it) for it in PRIMES])


def _is(count: int, what: str) -> str:
    return f"{count} {what}{'' if count == 1 else 's'}"


# ---- what stands outside the grammar


def _in_words(wanted: Wanted) -> str:
    """What may stand at a place, as `a number, or one of rank and flats`."""
    parts = []
    if wanted.has("WORD"):
        parts.append("a name")
    if wanted.has("NUM"):
        parts.append("a number")
    if wanted.has("GEN"):
        parts.append("a generator such as `e2`")
    parts += [f"`{it}`" for it in wanted.symbols() + wanted.words()]
    if wanted.may_end:
        parts.append("the end of the line")
    return listed(parts) if parts else "nothing more"


def _character(script: Script, token: Token) -> str:
    """The character that begins at the token, of which a token that fits no place has the first byte."""
    rest = script.line[token.column - 1 : token.column + 3]
    for size in (1, 2, 3, 4):
        try:
            return rest[:size].decode()
        except UnicodeDecodeError:
            continue
    return rest[:1].decode("latin-1")


def _at_the_end(script: Script, wanted: Wanted) -> str:
    opened = any(it.word == "[" for it in script.tokens) and not any(it.word == "]" for it in script.tokens)
    if opened and script.tokens[-1].word != "[" or opened and len(wanted.items) > 1:
        return "the line ends within its list: a command is one line, and a list is not carried over to the next"
    return f"the line ends where {_in_words(wanted)} is wanted"


def _word_not_known(script: Script, token: Token, good: int, wanted: Wanted) -> str:
    known = wanted.words()
    what = "begins no command" if good == 0 else "is none of the words that may stand here"
    close = nearest(token.word, known)
    if close is None:
        return f"`{token.word}` {what}: {listed([f'`{it}`' for it in known])}"
    if close.casefold() == token.word.casefold():
        return f"`{token.word}` {what}, for upper and lower case differ: `{close}`"
    return f"`{token.word}` {what}; the nearest is `{close}`"


def _in_a_row(script: Script, token: Token) -> Optional[str]:
    """Of what stands in a list of rows in place of a coefficient."""
    words = [it.word for it in script.tokens]
    if token.word == "[" and "[" in words[: script.tokens.index(token)]:
        return "rows stand in no brackets of their own: `[1 0, 0 1]` has two"
    if token.word[:1].isalpha() and words[3:4] in (["forms"], ["cone"]):
        return "a row is the coefficients of a form with blanks between them, as `1 -1 0`, and not a form in letters"
    if token.word == "," and words[0] not in ("let",):
        return "the numbers of this list have blanks between them; commas stand between the rows of forms alone"
    if token.word in (",", "]") and words[3:4] in (["forms"], ["cone"]):
        return "a row is at least one number: the coefficients of a form with blanks between them"
    if token.word == "," and words[3:4] == ["graphic"]:
        return "edges have blanks between them, as `[1-2 2-3]`"
    return None


def _syntax(script: Script, column: str) -> Cause:
    good, wanted = beginning(script.tokens)
    if script.number == 1 and script.line.startswith(BYTE_ORDER_MARK):
        return Cause(1, 2, "the file begins with a byte order mark, which is no part of a script: save it without one")
    if good == len(script.tokens):
        return Cause(int(column), int(column), _at_the_end(script, wanted))
    token = script.token(good)
    strange = STRANGE.get(_character(script, token))
    if strange is not None:
        return script.at(token, f"here stands {strange[0]}: {strange[1]}")
    if token.text[0] > 126 or token.text[0] < 32:
        return script.at(token, f"`{_character(script, token)}` stands in comments alone")
    if token.word.isdigit() and len(token.word) > 10:
        return script.at(token, "a number has at most ten digits")
    if token.word[0].isalpha() and wanted.words():
        return script.at(token, _word_not_known(script, token, good, wanted))
    within = _in_a_row(script, token) if any(it.word == "[" for it in script.tokens[:good]) else None
    if within is not None:
        return script.at(token, within)
    if token.word == "[" and wanted.has("NUM") and script.is_let():
        return script.at(token, f"`{script.token(3).word}` has the number of {_counted(script)} before its list")
    return script.at(token, f"`{token.word}` stands where {_in_words(wanted)} is wanted")


def _counted(script: Script) -> str:
    return "vertices" if script.token(3).word == "graphic" else "variables"


# ---- commands that are not lawful in their place


def _no_field(script: Script, _: str) -> Cause:
    sentence = f"a script chooses its field first, as by `field 31`: of {PRIMES_IN_WORDS} elements"
    return script.at(script.token(0), sentence)


def _field_twice(script: Script, _: str) -> Cause:
    line, prime = script.field or (0, 0)
    return script.at(script.token(0), f"a script has one field, and line {line} has chosen that of {prime} elements")


def _not_listed(script: Script, prime: str) -> Cause:
    sentence = f"{int(prime)} is none of the seven primes that a field may have: {PRIMES_IN_WORDS}"
    return script.at(script.token(1), sentence)


def _unknown(script: Script, name: str) -> Cause:
    token = script.token(4 if script.is_let() else 1)
    close = nearest(name, script.names)
    hint = "a `let` before this line names one"
    if close is not None:
        hint = f"the nearest name is `{close}`, of line {script.names[close].line}"
    return script.at(token, f"no arrangement has the name `{name}`: {hint}")


def _taken(script: Script, name: str) -> Cause:
    line = script.names[name].line if name in script.names else 0
    return script.at(script.token(1), f"the name `{name}` is that of line {line}, and a name is given once")


def _dimension(script: Script, _: str) -> Cause:
    if not script.is_let() or script.token(3).word == "restrict":
        name = script.token(4 if script.is_let() else 1)
        return script.at(name, f"`{name.word}` has one variable, and cut with a hyperplane it would have none")
    here = script.here()
    length = here.number() + (here.word == "cone")
    if here.word in ("forms", "cone") and 1 <= length <= MOST_VARIABLES:
        for k, row in enumerate(here.rows(), 1):
            numbers = [it for it in row if it.word != "-"]
            if len(numbers) != length:
                behind = ", the last of them the constant" if here.word == "cone" else ""
                return script.span(row, f"row {k} has {_is(len(numbers), 'number')} where {length} are wanted{behind}")
    more = " and one more" if here.word in ("cone", "typeA") else ""
    sentence = f"an arrangement has 1 to {MOST_VARIABLES} variables; these are {here.number()}{more}"
    return script.at(script.token(4), sentence)


def _bad_index(script: Script, index: str) -> Cause:
    name = script.token(4 if script.is_let() else 1)
    count = script.count(name.word)
    number = next((it for it in script.tokens[2:] if re.fullmatch(rf"e?0*{int(index)}", it.word)), script.token(2))
    number = script.token(5) if script.is_let() else number
    known = f"has {_is(count, 'hyperplane')}" if count is not None else "has no hyperplane of that number"
    return script.at(number, f"hyperplanes are counted from 1, and `{name.word}` {known}")


def _bad_graph(script: Script, edge: str) -> Cause:
    here, k = script.here(), int(edge)
    numbers = [it for it in here.build[3:] if it.word.isdigit()]
    if len(numbers) < 2 * k:
        return script.at(script.token(4), "an edge is bad")
    ends = numbers[2 * k - 2 : 2 * k]
    first, last = int(ends[0].word), int(ends[1].word)
    pairs = [{int(a.word), int(b.word)} for a, b in zip(numbers[::2], numbers[1::2])]
    if first == last:
        why = "is a loop, and x - x would be zero"
    elif not (1 <= first <= here.number() and 1 <= last <= here.number()):
        why = f"has an end that is none of the vertices 1 to {here.number()}"
    else:
        why = f"joins what edge {pairs.index({first, last}) + 1} joins"
    return script.span(ends, f"edge {k} {why}")


def _rows_at(script: Script, place: int, sentence: str) -> Cause:
    rows = script.here().rows()
    return script.span(rows[place - 1], sentence) if place <= len(rows) else script.at(script.token(3), sentence)


def _zero_form(script: Script, place: str) -> Cause:
    return _rows_at(script, int(place), f"form {place} is zero modulo {script.prime()}, and no hyperplane")


def _repeated(script: Script, places: str) -> Cause:
    first, second = (int(it) for it in places.split())
    same = f"a multiple of form {first} modulo {script.prime()}, and so the same hyperplane"
    if script.here().word == "cone" and second > len(script.here().rows()):
        return _rows_at(script, first, f"the cone has its last variable as form {second}, which is {same}")
    return _rows_at(script, second, f"form {second} is {same}")


def _too_many(script: Script, count: str) -> Cause:
    fewer = f"and fewer than the field has elements, which are {script.prime()}"
    sentence = f"these are {count} hyperplanes; an arrangement has at most {MOST_FORMS}, {fewer}"
    return script.at(script.token(3), sentence)


def _bad_list(script: Script, _: str) -> Cause:
    numbers = [it for it in script.tokens[3:] if it.word.isdigit()]
    name, count = script.token(1).word, script.count(script.token(1).word)
    sentence = f"the list has a number for each hyperplane of `{name}`, and a multiplicity is 0 to 20"
    if count is not None and len(numbers) != count:
        sentence = f"the list has {_is(len(numbers), 'number')}, and `{name}` {_is(count, 'hyperplane')}"
        return script.span(script.tokens[2:], sentence)
    for k, token in enumerate(script.tokens[3:], 3):
        if token.word.isdigit() and (int(token.word) > 20 or script.token(k - 1).word == "-"):
            return script.at(token, "a multiplicity is 0 to 20")
    return script.span(script.tokens[2:], sentence)


def _bad_limit(script: Script, _: str) -> Cause:
    most = "1,000,000 pairs" if script.token(1).word == "pairs" else "the degree 240"
    return script.at(script.token(2), f"the greatest limit is {most}")


CAUSES: Dict[str, Callable[[Script, str], Cause]] = {
    "syntax": _syntax,
    "no field": _no_field,
    "field twice": _field_twice,
    "field not listed": _not_listed,
    "unknown name": _unknown,
    "name taken": _taken,
    "dimension": _dimension,
    "bad index": _bad_index,
    "bad graph": _bad_graph,
    "zero form": _zero_form,
    "repeated": _repeated,
    "too many": _too_many,
    "bad list": _bad_list,
    "bad limit": _bad_limit,
}


# ---- how it is shown


def _shown(line: bytes, start: int, end: int) -> List[str]:
    """The line, or its part around the columns, and the mark below it.

    >>> _shown(b"feld 31", 1, 5)
    ['    feld 31', '    ^~~~']
    """
    before, marked, behind = (
        "".join(it if it.isprintable() else " " for it in part.decode(errors="replace"))
        for part in (line[: start - 1].rstrip(b"\r"), line[start - 1 : end - 1], line[end - 1 :].rstrip(b"\r"))
    )
    if len(before) + len(marked) + len(behind) > WIDTH:
        if len(before) > WIDTH // 2:
            before = ".. " + before[-WIDTH // 2 :]
        marked = marked if len(marked) < WIDTH // 4 else marked[: WIDTH // 4]
        room = max(WIDTH - len(before) - len(marked), 0)
        behind = behind[:room] + (" .." if len(behind) > room else "")
    mark = "^" + "~" * (len(marked) - 1)
    return [f"    {before}{marked}{behind}".rstrip(), f"    {' ' * len(before)}{mark}"]


def explained(text: bytes, refusal: str) -> List[str]:
    """A refusal of a script in words, line by line.

    >>> print(*explained(b"field 31\\nlet A = form 2 [1 0]\\n", "refused line 2: syntax 9"), sep="\\n")
    line 2 is refused at column 9:
        let A = form 2 [1 0]
                ^~~~
    `form` is none of the words that may stand here; the nearest is `forms`
    """
    said = re.fullmatch(r"refused line (\d+): ([a-z]+(?: [a-z]+)*)(?: (.*))?", refusal)
    if said is None:
        return []
    number, words, values = int(said[1]), said[2], said[3] or ""
    if words not in CAUSES:  # a name in small letters belongs to the values
        words = next((it for it in CAUSES if words.startswith(f"{it} ")), "")
        values = f"{said[2]} {values}"[len(words) + 1 :].strip()
    if not words:
        return []
    script = Script(text, number)
    cause = CAUSES[words](script, values)
    head = f"line {number} is refused at column {cause.start}:"
    return [head, *_shown(script.line, cause.start, cause.end), cause.sentence]
