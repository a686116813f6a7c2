"""The site: the documents of this repository, a gallery and the Python client as static HTML, by Sphinx with MyST.

The sources are the files that stand in the repository, from its top; `build` beside this file calls Sphinx.
"""
from __future__ import annotations

import pathlib
import sys

TOP = pathlib.Path(__file__).resolve().parents[2]
sys.dont_write_bytecode = True
sys.path[:0] = [str(TOP / "docs/site"), str(TOP / "clients/python"), str(TOP / "clients/command")]

project = "arrange"
version = release = next(
    it.split("=")[1] for it in (TOP / "arrange").read_text(encoding="utf-8").splitlines() if it.startswith("version=")
)
root_doc = "docs/site/index"
include_patterns = [
    "README.md", "CONTRIBUTING.md", "docs/*.md", "docs/manual/*.md", "docs/site/*.md", "examples/README.md",
    "examples/*/README.md",
    "clients/**/README.md",
]
extensions = ["myst_parser", "sphinx.ext.autodoc", "gallery"]
myst_enable_extensions = ["html_image"]
myst_heading_anchors = 3
highlight_language = "none"
autodoc_member_order = "bysource"
autodoc_typehints = "description"
html_theme = "alabaster"
html_theme_options = {
    "description": "Proved answers about hyperplane arrangements", "page_width": "1080px", "fixed_sidebar": True,
}
html_copy_source = False
html_show_sphinx = False
html_static_path = ["static"]
html_css_files = ["gallery.css"]
