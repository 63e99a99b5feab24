"""Loads the kit's `rt` with a memo for what it sums again along each path between crates. For development alone: the verdict is `rt ci`."""
import importlib.machinery
import importlib.util
import os
import sys
import threading

sys.dont_write_bytecode = True
HERE = os.path.dirname(os.path.realpath(__file__))


def program():
    """The kit's own `rt`."""
    for folder in os.environ["PATH"].split(":"):
        file = f"{folder}/rt"
        if os.access(file, os.X_OK) and not os.path.realpath(file).startswith(HERE):
            return os.path.realpath(file)
    sys.exit("there is no rt on the path")


def load():
    """Returns the module `rt`; its Crate.below and Crate.stamp work each crate out once."""
    loader = importlib.machinery.SourceFileLoader("rt_of_kit", program())
    module = importlib.util.module_from_spec(importlib.util.spec_from_loader("rt_of_kit", loader))
    sys.modules["rt_of_kit"] = module
    loader.exec_module(module)
    crate, sums, lock = sys.modules["rtlib"].Crate, {}, threading.RLock()
    stamp, build = crate.stamp, crate.build_rlib

    def below(self):
        found = self.__dict__.get("found_below")
        if found is None:
            found = {}
            for dep in self.deps:
                for it in [*dep.below(), dep]:
                    found.setdefault(it.name, it)
            self.found_below = found
        return [*found.values()]

    def stamp_once(self):
        with lock:
            if self.folder not in sums:
                sums[self.folder] = stamp(self)
            return sums[self.folder]

    def build_own(self, flags, anew):
        if not anew and not self.is_built() and os.getcwd() != self.folder and not os.environ.get("RT_BUILD"):
            print(f"the library {self.name} is not proved here: tools/seed takes it from another clone, and RT_BUILD=1 builds it", flush=True)
            return 1
        return build(self, flags, anew)

    crate.below, crate.stamp, crate.build_rlib = below, stamp_once, build_own
    return module


def crates(module, root):
    """The crates of a checkout, as `rt ci` makes them, lowest first."""
    library = module.rtlib
    os.chdir(root)
    module.Crate.below = library.Crate.below
    library.Crate = module.Crate
    library.guarded()
    module.Crate.allowed = module.handles_of(root)
    return sorted(library.crates_below(root), key=lambda it: len(it.below()))


def is_of_tests(crate, crates):
    """Whether a crate is there for its tests alone."""
    return crate.name.endswith("_tests") and not any(crate in it.deps for it in crates)
