"""For the kit's rt, with this folder in PYTHONPATH: it asks once for the sum of a crate and for the crates below it, and
no longer once for each path that leads to the crate through crates.txt.

rt sums up the texts of a crate and of all crates below it (`Crate.stamp` of its rtlib.py), so that it finds what has
changed, and lists the crates below (`Crate.below`). rattle-kit-13f does both anew along each path of crates.txt: for
`commands` 700,000 times, which takes minutes to hours before any proof. The sums and lists are the same with this folder
and without it, and each call of `stamp` from outside reads all files again. The crates below a crate stay the same from
the time that it is made. What rt proves, tries and runs, it proves, tries and runs as ever.
"""
import importlib.machinery
import threading

loads = importlib.machinery.SourceFileLoader.exec_module


def sums_once(stamp):
    """The sum of a crate, which asks each crate below for its own once."""
    asked = threading.local()

    def stamp_once(crate):
        known = getattr(asked, "known", None)
        if known is None:
            asked.known = {}
            try:
                return stamp(crate)
            finally:
                asked.known = None
        if crate.folder not in known:
            known[crate.folder] = stamp(crate)
        return known[crate.folder]

    return stamp_once


def below_once(below):
    """The crates below a crate, looked for once."""

    def known_below(crate):
        if not hasattr(crate, "known_below"):
            crate.known_below = below(crate)
        return list(crate.known_below)

    return known_below


def loads_and_asks_once(loader, module):
    loads(loader, module)
    if module.__name__ == "rtlib":
        module.Crate.stamp = sums_once(module.Crate.stamp)
        module.Crate.below = below_once(module.Crate.below)


importlib.machinery.SourceFileLoader.exec_module = loads_and_asks_once
