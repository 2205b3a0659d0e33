"""Scripts of this repository whose names have no ending, as modules."""

import importlib.machinery
import importlib.util


def loaded(path):
    """A script as a module."""
    loader = importlib.machinery.SourceFileLoader(path.name, str(path))
    module = importlib.util.module_from_spec(importlib.util.spec_from_loader(path.name, loader))
    loader.exec_module(module)
    return module
