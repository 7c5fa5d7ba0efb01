"""Sphinx's settings for the site that docs/build makes of the pages of this repository."""

import fnmatch
import pathlib
import sys

from pygments.lexers import RustLexer

HERE = pathlib.Path(__file__).resolve().parent
ROOT = HERE.parent.parent
sys.dont_write_bytecode = True
sys.path.insert(0, str(ROOT / "bindings/python"))

project = html_title = "dgt"
extensions = ["myst_parser", "sphinx.ext.autodoc", "breathe"]
root_doc = "README"
exclude_patterns = [".*", "**/out", "crates/dgt*", "debian", "bindings/rust/dgt"]
myst_heading_anchors = 6
html_theme = "furo"
html_copy_source = False
breathe_default_project = "dgt"
breathe_domain_by_extension = {"h": "c"}
breathe_projects_source = {"dgt": (str(ROOT / "bindings/c/include"), ["dgt.h", "dgt_port.h"])}
breathe_show_define_initializer = breathe_show_enumvalue_initializer = True
breathe_doxygen_config_options = {
    "INPUT_FILTER": f'"sed -E -f {HERE}/comments.sed"',
    "EXCLUDE_SYMBOLS": "*_",
    "EXPAND_ONLY_PREDEF": "YES",
    "EXTRACT_ALL": "YES",
    "MACRO_EXPANSION": "YES",
    "OPTIMIZE_OUTPUT_FOR_C": "YES",
    "PREDEFINED": '"DGT_NONNULL_(...)=" DGT_MUST_USE_= "DGT_READS_(...)=" "DGT_WRITES_(...)=" '
    "DGT_LEAST_= NDEBUG",
    "TYPEDEF_HIDES_STRUCT": "YES",
    "WARN_AS_ERROR": "FAIL_ON_WARNINGS",
}

# The order of the pages. Each stands in the first of these groups that has it.
GROUPS = {
    "Use": ["docs/GUIDE", "docs/PROGRAM", "docs/USING", "bindings/*", "apps/*", "packaging/*"],
    "Look up": ["docs/site/*", "docs/PROTOCOL", "tests/sessions/*"],
    "Trust": ["docs/PROMISES", "crates/*", "docs/ARCHITECTURE", "tests/*"],
    "Take part": ["CONTRIBUTING", "*"],
}
# What Sphinx doesn't make.
FOLDERS = {"crate": "Reference of the crate for Rust", "page": "Page for a browser"}


def add_contents(app, name, source):
    """Adds the contents of the site to its first page."""
    if name != root_doc:
        return
    left = sorted(app.env.found_docs - {name})
    for group, patterns in GROUPS.items():
        pages = [page for pattern in patterns for page in fnmatch.filter(left, pattern)]
        left = [page for page in left if page not in pages]
        pages = "\n".join(dict.fromkeys(pages))
        source[0] += f"\n```{{toctree}}\n:hidden:\n:caption: {group}\n{pages}\n```\n"
    for folder, text in FOLDERS.items():
        if pathlib.Path(app.outdir, folder).exists():
            source[0] += f'\n- <a href="{folder}/index.html">{text}</a>'


def name_file(app, env, node, text):
    """A file or folder of the repository that is no page of the site is named, without a link."""
    path = pathlib.Path(env.doc2path(node["refdoc"])).parent / node["reftarget"].partition("#")[0]
    return text if path.exists() and path.suffix != ".md" else None


def setup(app):
    app.connect("source-read", add_contents)
    app.connect("missing-reference", name_file)
    for mark in ("no_run", "ignore"):
        app.add_lexer(f"rust,{mark}", RustLexer)
