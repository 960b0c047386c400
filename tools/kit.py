"""The library that the kit's `rt` stands on: it knows crates.txt, the words of a check, and what is built."""

import importlib.machinery
import importlib.util
import os
import shutil
import sys


def kit_library():
    """The library beside the `rt` on the PATH."""
    found = shutil.which("rt")
    if not found:
        sys.exit("no rt on the PATH: README.md says which kit is needed")
    file = os.path.join(os.path.dirname(os.path.realpath(found)), "rtlib.py")
    loader = importlib.machinery.SourceFileLoader("rtlib", file)
    library = importlib.util.module_from_spec(importlib.util.spec_from_loader("rtlib", loader))
    loader.exec_module(library)
    return library
