"""What scripts of several folders share: where things stand, the reference, and the recorded devices. It finds tools/ for them."""
import importlib.machinery, importlib.util, os, sys

TESTS = os.path.dirname(os.path.abspath(__file__))
TOP = os.path.dirname(TESTS)
sys.path[1:1] = [os.path.join(TOP, folder) for folder in ("tools", "makers")]

from recordings import is_super, recorded_set, with_store
from served import Served

EMULATE = os.path.join(TOP, "tools", "emulate")
ENUMERATIONS = os.path.join(TESTS, "enumerations")
REFERENCE = os.path.join(TOP, "target", "reference", "release", "reference")


def script(*path):
    """A program of the repository that has no .py, imported; it finds what stands beside it."""
    folder, name = os.path.join(TOP, *path[:-1]), path[-1]
    sys.path.append(folder)
    loader = importlib.machinery.SourceFileLoader(name, os.path.join(folder, name))
    module = importlib.util.module_from_spec(importlib.util.spec_from_loader(name, loader))
    loader.exec_module(module)
    return module


# ---- the reference
class Reference(Served):
    """`reference serve`."""

    def __init__(self):
        super().__init__([REFERENCE, "serve"])


def differing(stored, expected):
    """The first line in which two texts differ, as (line, stored, expected), or nothing."""
    stored, expected = stored.splitlines(), expected.splitlines()
    for at in range(max(len(stored), len(expected))):
        pair = [text[at] if at < len(text) else "(no line)" for text in (stored, expected)]
        if pair[0] != pair[1]:
            return at + 1, *pair


# ---- the recorded devices
def recordings():
    """Each by its name, as it was recorded."""
    for name in sorted(os.listdir(ENUMERATIONS)):
        if name.endswith(".bin"):
            with open(os.path.join(ENUMERATIONS, name), "rb") as file:
                yield name, file.read()


def enumerations():
    """Name, set and serial block of each."""
    for name, recorded in recordings():
        yield name, *recorded_set(recorded)


def super_enumerations():
    """Of the SuperSpeed devices, with a BOS made for each."""
    for name, recorded in recordings():
        if is_super(recorded):
            yield f"{name}, with a BOS", *with_store(recorded)
