"""What the tests of scripts share: loading a script whose name has no ending, and stand-ins for packages that aren't installed."""
import importlib.machinery
import importlib.util
import os
import sys
import types

sys.dont_write_bytecode = True
TOP = os.path.dirname(os.path.dirname(os.path.dirname(os.path.realpath(__file__))))
sys.path.insert(0, os.path.join(TOP, "deploy", "lib"))


def script(path):
    """A script as a module, by its path from the top of the repository."""
    loader = importlib.machinery.SourceFileLoader(path.replace("/", "_"), os.path.join(TOP, path))
    loaded = importlib.util.module_from_spec(importlib.util.spec_from_loader(loader.name, loader))
    loader.exec_module(loaded)
    return loaded


# The packages for which something stands in.
STAND_INS = {}


def has_package(name, *inner, **members):
    """Whether a package is installed. Where it isn't, an empty module with these inner modules and members stands in for it.

    So what a script decides without the package is tested all the same.
    """
    if name not in STAND_INS and importlib.util.find_spec(name) is not None:
        return True
    package = STAND_INS.setdefault(name, types.ModuleType(name))
    sys.modules[name] = package
    for part in inner:
        module = STAND_INS.setdefault(f"{name}.{part}", types.ModuleType(part))
        sys.modules[f"{name}.{part}"] = module
        setattr(package, part, module)
    for member, value in members.items():
        setattr(package, member, value)
    return False
