"""For Sphinx: the directive `gallery`, which shows each script of a folder with its answers and pictures.

Pictures are drawn from the answers beside the script, by the package arrange_draw: the lattice where an arrangement has at
most MOST_FLATS flats, and the lines where it is given by forms in three variables. Nothing is asked of the program.
"""
from __future__ import annotations

import pathlib
import re
from typing import Any, Dict, Iterator, List, Tuple

from arrange import ArrangeError, Flat
from arrange.printed import read_answers
from arrange_draw.lattice import lattice_picture
from arrange_draw.plane import lines_picture
from arrange_lexer import ArrangeLexer
from docutils import nodes
from docutils.parsers.rst import Directive
from pygments.lexers.special import TextLexer
from pygments.lexers.python import PythonLexer
from sphinx.application import Sphinx

MOST_FLATS = 60
MOST_LINES = 60  # of the answers that are shown


def forms_of(script: str, name: str) -> Tuple[int, List[Tuple[int, ...]]]:
    """The prime, and the rows modulo it, of an arrangement that a script gives by forms in three variables."""
    prime = re.search(r"^field (\d+)", script, re.M)
    rows = re.search(rf"^let {re.escape(name)} = forms 3 \[(.*)\]", script, re.M)
    if prime is None or rows is None:
        return 0, []
    modulus = int(prime[1])
    return modulus, [
        tuple(int(it) % modulus for it in re.findall(r"-?\d+", row.replace("- ", "-"))) for row in rows[1].split(",")
    ]


def pictures_of(script: str, answers: str) -> Iterator[Tuple[str, str]]:
    """The pictures of a script's answers, each with its words in place of it."""
    prime = int(re.search(r"^field (\d+)", script, re.M)[1])  # type: ignore[index]
    for answer in read_answers(answers.splitlines(keepends=True), prime):
        flats = answer.value
        if answer.word != "flats" or not isinstance(flats, list) or not all(isinstance(it, Flat) for it in flats):
            continue
        try:
            modulus, rows = forms_of(script, answer.name)
            if rows and max(it.rank for it in flats) == 3:
                yield f"The lines of {answer.name}", lines_picture(rows, flats, modulus, answer.name).text()
            if len(flats) <= MOST_FLATS:
                yield f"The lattice of flats of {answer.name}", lattice_picture(flats, answer.name).text()
        except ArrangeError:
            continue


class Gallery(Directive):
    """Each script of a folder: its first comment as a title, the script and its answers side by side, its pictures."""

    required_arguments = 1

    def run(self) -> List[nodes.Node]:
        env = self.state.document.settings.env
        folder = pathlib.Path(env.srcdir) / self.arguments[0]
        made: List[nodes.Node] = []
        for file in sorted(folder.glob("*.arr")):
            made.append(self.shown(env, file))
        return made

    def shown(self, env: Any, file: pathlib.Path) -> nodes.Node:
        script, answers = file.read_text(encoding="utf-8"), file.with_suffix(".out").read_text(encoding="utf-8")
        for part in (file, file.with_suffix(".out")):
            env.note_dependency(str(part))
        section = nodes.section(ids=[nodes.make_id(file.stem)], names=[file.stem])
        section += nodes.title("", file.stem)
        comments = [it for it in script.split("\nfield ")[0].splitlines() if it.startswith("#")]
        section += nodes.paragraph("", " ".join(it.lstrip("# ") for it in comments))
        script = "".join(script.splitlines(keepends=True)[len(comments) :])
        beside = nodes.container(classes=["beside"])
        code = nodes.literal_block(script, script)
        code["language"] = "arrange"
        lines = answers.splitlines(keepends=True)
        short = "".join(lines[:MOST_LINES]) + (f"and {len(lines) - MOST_LINES:,} lines more\n" if len(lines) > MOST_LINES else "")
        text = nodes.literal_block(short, short)
        text["language"] = "none"
        beside += [code, text]
        section += beside
        row = nodes.container(classes=["pictures"])
        for k, (words, svg) in enumerate(pictures_of(script, answers), 1):
            target = pathlib.Path(env.app.outdir) / "_images" / f"{file.stem}-{k}.svg"
            target.parent.mkdir(parents=True, exist_ok=True)
            target.write_text(svg, encoding="utf-8")
            up = "../" * env.docname.count("/")
            row += nodes.raw("", f'<img src="{up}_images/{target.name}" alt="{words}">', format="html")
        if row.children:
            section += row
        return section


def setup(app: Sphinx) -> Dict[str, Any]:
    app.add_directive("gallery", Gallery)
    app.add_lexer("arrange", ArrangeLexer)
    app.add_lexer("sage", PythonLexer)
    app.add_lexer("singular", TextLexer)
    return {"version": "1", "parallel_read_safe": False}
