"""The survivors that are expected: each edit that same.txt names, and why it is the same program."""
import re

from kit import refuse
from mutants import KINDS


class Expected:
    """An edit of same.txt. One with `...`, which stands for any text, may name several mutants."""

    def __init__(self, where, places, edit):
        self.crate, _, self.function = where.partition("::")
        self.places = places.split()
        self.kind, _, self.swap = edit.partition(" ")
        self.pattern = re.compile(".*".join(re.escape(part) for part in self.swap.split("...")))
        self.why = None

    def names(self, mutant):
        return ((self.crate, self.function, self.kind) == (mutant.crate, mutant.function, mutant.kind)
                and mutant.places.issuperset(self.places) and bool(self.pattern.fullmatch(mutant.swap)))

    def may_be_several(self):
        return "..." in self.swap

    def __str__(self):
        return " ".join([f"{self.crate}::{self.function}", *(["at", *self.places] if self.places else []), self.kind, self.swap])


def read_expected(path):
    """The edits of a file. `in` and `at` say where those behind them stand; `why` is the reason of all since the last one."""
    found, waiting, where, places = [], [], None, ""
    for number, line in enumerate(path.read_text().splitlines(), 1):
        name, _, value = (part.strip() for part in line.partition(":"))
        if name == "in" and "::" in value:
            where, places = value, ""
        elif name == "at" and value and where:
            places = value
        elif name == "edit" and value.split(" ")[0] in KINDS and where:
            waiting.append(Expected(where, places, value))
        elif name == "why" and value and waiting:
            for e in waiting:
                e.why = value
            found, waiting, where = found + waiting, [], None
        elif line and not line.startswith("#"):
            refuse(f"{path.name}, line {number}: expected in: CRATE::FUNCTION, at: PLACE (or none), edit: KIND OLD->NEW, why: REASON, in this order")
    if waiting:
        refuse(f"{path.name}: the last edit has no why: behind it")
    return found


def explaining(mutant, expected):
    return next((e for e in expected if e.names(mutant)), None)


def misfits(expected, mutants, chosen, crates):
    """What is wrong with same.txt before any mutant is tried. The mutants are all those of the crates chosen."""
    for e in expected:
        count = sum(e.names(m) for m in mutants)
        if e.crate not in crates:
            yield f"{e}: there is no such crate"
        elif e.crate in chosen and count == 0:
            yield f"{e}: there is no such mutant"
        elif count > 1 and not e.may_be_several():
            yield f"{e}: {count} mutants are so; at: has to say which"


def stale(expected, mutants, found):
    """The edits of which no mutant survives, though all of them were tried."""
    for e in expected:
        named = [m for m in mutants if e.names(m)]
        if named and all(m in found for m in named) and not any(found[m][0] == "survives" for m in named):
            yield f"{e}: no such mutant survives any more"
