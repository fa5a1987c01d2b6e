"""Another tool of this folder, as a module."""
import importlib.machinery, importlib.util, os

TOOLS = os.path.dirname(os.path.dirname(os.path.realpath(__file__)))


def module(name: str):
    loader = importlib.machinery.SourceFileLoader(name, f"{TOOLS}/{name}")
    made = importlib.util.module_from_spec(importlib.util.spec_from_loader(name, loader))
    loader.exec_module(made)
    return made
