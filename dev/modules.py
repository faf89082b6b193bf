"""A tool without `.py` as a module, for what can't be had from outside; and where each tool stands."""
import importlib.machinery
import importlib.util
import os

TOP = os.path.dirname(os.path.dirname(os.path.abspath(__file__)))


def path_of(tool):
    """Where a tool stands: in `tools/`, `dev/` or `tests/`."""
    places = [os.path.join(TOP, folder, tool) for folder in ("tools", "dev", "tests")]
    return next((at for at in places if os.path.isfile(at)), places[0])


def module(tool):
    loader = importlib.machinery.SourceFileLoader(tool.replace("-", "_"), path_of(tool))
    it = importlib.util.module_from_spec(importlib.util.spec_from_loader(loader.name, loader))
    loader.exec_module(it)
    return it
