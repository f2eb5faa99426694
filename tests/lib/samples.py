"""tools/make-samples as a module, for its reading of the texts and arguments of samples/ and tests/vectors/program."""
import importlib.machinery
import importlib.util
import os
import sys

ROOT = os.path.abspath(os.path.join(os.path.dirname(__file__), "..", ".."))


def make_samples():
    loader = importlib.machinery.SourceFileLoader("make_samples", os.path.join(ROOT, "tools", "make-samples"))
    module = importlib.util.module_from_spec(importlib.util.spec_from_loader("make_samples", loader))
    sys.dont_write_bytecode = True
    loader.exec_module(module)
    return module
