"""The crates of the folder one stands in, as the kit's own rt sees them, and whether they are proved as they stand, by what rt leaves in crates/*/out."""
import functools
import importlib.machinery
import importlib.util
import os
import subprocess
import sys

# the kit's folder, in which the page that `rt doc` names stands
KIT = os.path.dirname(os.path.realpath(subprocess.run(["rt", "doc"], capture_output=True, text=True, check=True).stdout.strip()))


def kits_own():
    """The module that rt is made of."""
    loader = importlib.machinery.SourceFileLoader("rtlib", os.path.join(KIT, "bin/rtlib.py"))
    made = importlib.util.module_from_spec(importlib.util.spec_from_loader("rtlib", loader))
    sys.modules["rtlib"] = made
    loader.exec_module(made)
    # each crate once, and not once for every way down to it
    made.Crate.below, made.Crate.stamp = functools.lru_cache(None)(made.Crate.below), functools.lru_cache(None)(made.Crate.stamp)
    return made


sys.dont_write_bytecode = True
RT = kits_own()


def crate(name, top="."):
    top = os.path.abspath(top)
    return RT.Crate(os.path.join(top, "crates", name), top, {})


def unproved_below(name):
    """The libraries that the crate needs and that rt has not built as they stand: it builds only what is proved."""
    return [it.name for it in crate(name).below() if not it.is_built()]
