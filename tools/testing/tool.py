"""A tool of tools/ as a module."""

import importlib.machinery
import importlib.util


def tool(root, name):
    loader = importlib.machinery.SourceFileLoader(name, str(root / "tools" / name))
    module = importlib.util.module_from_spec(importlib.util.spec_from_loader(name, loader))
    loader.exec_module(module)
    return module
