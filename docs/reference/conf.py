"""Settings of Sphinx for the reference of crnplan, which is made from its docstrings."""
import inspect

import crnplan
from crnplan.table import Result

project = "crnplan"
release = version = crnplan.__version__
extensions = ["sphinx.ext.autodoc", "numpydoc"]
exclude_patterns = ["out"]
default_role = "py:obj"
smartquotes = False  # Words are copied into code.
autodoc_typehints = "none"  # Parameters say types, with units and ranges.
autodoc_default_options = {
    "members": True,
    "inherited-members": "Exception, Mapping, tuple",
    "member-order": "groupwise",
}
numpydoc_show_class_members = False  # They stand below their class.
toc_object_entries_show_parents = "hide"
html_theme = "alabaster"
html_theme_options = {"page_width": "1100px", "sidebar_width": "220px"}
html_static_path = ["static"]
html_show_copyright = False
html_copy_source = False


def without_makers(app, what, name, found, options, signature, returned):
    """Returns no signature for a class that only the package makes, else what there is."""
    is_made = inspect.isclass(found) and issubclass(found, Result)
    return ("", None) if is_made else (signature, returned)


def setup(app):
    """Has Sphinx leave out signatures that no user calls."""
    app.connect("autodoc-process-signature", without_makers)
