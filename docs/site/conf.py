"""How Sphinx makes the site: tools/site.py starts it. The pages are those of the repository, where they lie."""
import os
import re
import sys

from pygments.lexers.special import TextLexer
from sphinx.highlighting import lexers

ROOT = os.path.dirname(os.path.dirname(os.path.dirname(os.path.abspath(__file__))))
sys.path.insert(0, f"{ROOT}/python")

project = "chipfire"
author = "The maintainers of chipfire"
root_doc = "docs/site/index"
default_role = "py:obj"
extensions = ["sphinx.ext.autodoc", "sphinx.ext.autosummary", "numpydoc", "myst_parser"]
include_patterns = [
    "*.md",
    "docs/**",
    "examples/**/*.md",
    "examples/README.md",
    "crates/*/README.md",
    "js/README.md",
]
html_theme = "alabaster"
html_title = "chipfire"
html_copy_source = False
html_show_copyright = False
html_theme_options = {"page_width": "1100px", "sidebar_width": "260px"}
myst_enable_extensions = ["html_image"]
myst_heading_anchors = 3
autosummary_generate = False
autodoc_typehints = "none"
autodoc_member_order = "bysource"
numpydoc_show_class_members = False
suppress_warnings = ["misc.highlighting_failure"]
#: The drawings of docs/ARCHITECTURE.md, which are in no language.
lexers.update(crates=TextLexer(), rooms=TextLexer())

LINK = re.compile(r"(?<!!)\[([^\]]*)\]\(([^)#\s]+)(#[^)]*)?\)")


def is_page(path):
    """Returns whether a file is a page or a picture, which the site has."""
    return os.path.isfile(path) and path.endswith((".md", ".rst", ".png", ".svg"))


def without_links_to_sources(app, page, lines):
    """Leaves of a link to a file that the site has not, or to a folder, its text."""
    folder = os.path.dirname(app.env.doc2path(page))

    def text_of(link):
        is_kept = "://" in link[2] or is_page(os.path.join(folder, link[2]))
        return link[0] if is_kept else link[1]

    lines[0] = LINK.sub(text_of, lines[0])


def setup(app):
    """Is called by Sphinx."""
    app.connect("source-read", without_links_to_sources)
