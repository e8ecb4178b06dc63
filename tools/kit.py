"""Loads modules of the kit, so that a script can ask what the kit knows of the crates."""
import importlib.machinery
import importlib.util
import os
import shutil
import sys
from types import ModuleType


def load(file: str) -> ModuleType:
    """Loads a module that stands beside `rt`, as `rt` loads it; or `rt` itself, whose `rtlib` is the module that knows crates."""
    folder = os.path.dirname(os.path.realpath(shutil.which("rt") or "/opt/rattle/bin/rt"))
    name = file.removesuffix(".py")
    loader = importlib.machinery.SourceFileLoader(name, f"{folder}/{file}")
    spec = importlib.util.spec_from_loader(name, loader)
    assert spec is not None
    made = importlib.util.module_from_spec(spec)
    sys.dont_write_bytecode = True
    sys.modules[name] = made
    loader.exec_module(made)
    return made
