"""Scenarios of concurrent edits of JSON documents, and what the rules of docs/RULES.md give for them.

    from jsoncrdt import Scenario, doc

    s = Scenario("p", "q").do("p", doc["key"].assign("A")).sync()
    s.do("p", doc["key"].assign("B")).do("q", doc["key"].assign("C")).sync()
    s.view()["p"]["key"].values

That gives B by 2@p and C by 2@q. docs/ENGINES.md has all of this. jsoncrdt.strategies has strategies of Hypothesis, and
jsoncrdt.oracle the rules in Python.
"""

import importlib
import os

_HERE = os.path.dirname(os.path.realpath(__file__))
if not os.path.isdir(os.path.join(_HERE, "oracle")):
    # A checkout has the rules at its root; where this was installed, they are inside it.
    __path__.append(os.path.dirname(os.path.dirname(_HERE)))

_NAMES = {
    "answers": "ABSENT Conflict Counts Effect End Event Identifier NoAnswer Operation Refused State Stuck Unproved "
               "documents",
    "machines": "Program Rules check journal machine run view views weave",
    "scenario": "Place Scenario Woven doc",
}
_MODULES = {name: module for module, names in _NAMES.items() for name in names.split()}
__all__ = sorted(_MODULES)


def __getattr__(name):
    """What is offered here is loaded when it is asked for: scripts of a checkout need the rules alone, and at once."""
    if name not in _MODULES:
        raise AttributeError(f"module {__name__} has no attribute {name}")
    return getattr(importlib.import_module(f".{_MODULES[name]}", __name__), name)


def __dir__():
    return __all__
