"""Colours for scripts of the program arrange, by Pygments.

    pygmentize -x -l PREFIX/share/arrange/arrange_lexer.py:ArrangeLexer SCRIPT.arr
"""
from __future__ import annotations

from pygments.lexer import RegexLexer, bygroups, words
from pygments.token import Comment, Error, Keyword, Name, Number, Operator, Punctuation, Whitespace

QUESTIONS = (
    "hyperplanes", "point", "rank", "flats", "poincare", "characteristic", "triple", "circuits", "nbc", "normal",
    "aomoto", "gb", "der", "resolve", "free",
)
BUILDS = ("forms", "cone", "typeA", "typeB", "typeD", "boolean", "graphic", "delete", "restrict")
NAME = r"[A-Za-z][A-Za-z0-9_]*"
BLANK = r"[ \t\r]+"


class ArrangeLexer(RegexLexer):
    """The words of a line by their places: what begins it, what it names, and what it builds."""

    name = "arrange"
    aliases = ["arrange"]
    filenames = ["*.arr"]
    tokens = {
        "root": [
            (r"[ \t\r\n]+", Whitespace),
            (r"#.*", Comment.Single),
            (rf"(let)({BLANK})({NAME})", bygroups(Keyword.Declaration, Whitespace, Name.Variable), "built"),
            (rf"(limit)({BLANK})(pairs|degree)\b", bygroups(Keyword, Whitespace, Keyword), "rest"),
            (r"field\b", Keyword, "rest"),
            (words(QUESTIONS, suffix=r"\b"), Name.Function, "asked"),
            (r".", Error, "rest"),
        ],
        "built": [
            (r"=", Operator),
            (words(BUILDS, suffix=r"\b"), Keyword.Type, ("#pop", "rest")),
            (r"[ \t\r]+", Whitespace),
            (r"#.*", Comment.Single),
            (r"\n", Whitespace, "#pop"),
            (r".", Error),
        ],
        "asked": [
            (BLANK, Whitespace),
            (NAME, Name.Variable, ("#pop", "rest")),
            (r"#.*", Comment.Single),
            (r"\n", Whitespace, "#pop"),
            (r".", Error),
        ],
        "rest": [
            (r"\n", Whitespace, "#pop"),
            (BLANK, Whitespace),
            (r"#.*", Comment.Single),
            (r"[0-9]{11,}", Error),
            (r"[0-9]+", Number.Integer),
            (r"e[0-9]{1,10}\b", Name.Builtin),
            (NAME, Name.Variable),
            (r"[-+*=]", Operator),
            (r"[\[\],]", Punctuation),
            (r".", Error),
        ],
    }
