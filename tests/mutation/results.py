"""What was found: kept between runs, and counted."""
import json
from collections import Counter

from mutants import KINDS
from prove import kind_of

OUTCOMES = ["no program", "same code", "refused", "seen", "survives"]


class Store:
    """Verdicts by mutant, in a file that is named after all that they rest on."""

    def __init__(self, path):
        self.path = path
        path.parent.mkdir(parents=True, exist_ok=True)
        self.known = {}
        if path.exists():
            for line in path.read_text().splitlines():
                key, verdict, why = json.loads(line)
                self.known[key] = (verdict, why)

    def get(self, mutant):
        return self.known.get(key_of(mutant))

    def put(self, mutant, verdict):
        self.known[key_of(mutant)] = verdict
        with open(self.path, "a") as file:
            file.write(json.dumps([key_of(mutant), *verdict]) + "\n")


def key_of(mutant):
    return f"{mutant.path.name} {mutant.start} {mutant.end} {mutant.new}"


def row(name, outcomes):
    counts = Counter(outcomes)
    return [name, len(outcomes)] + [counts[o] for o in OUTCOMES]


def table(found):
    """For each crate and each kind: how many mutants, and what became of them."""
    rows = [["", "mutants", "no program", "same code", "refused", "seen by tests", "survive"]]
    for crate in dict.fromkeys(m.crate for m in found):
        for kind in KINDS:
            outcomes = [o[0] for m, o in found.items() if m.crate == crate and m.kind == kind]
            if outcomes:
                rows.append(row(f"{crate} {kind}", outcomes))
    for kind in KINDS:
        rows.append(row(f"all {kind}", [o[0] for m, o in found.items() if m.kind == kind]))
    rows.append(row("all", [o[0] for o in found.values()]))
    widths = [max(len(str(r[k])) for r in rows) for k in range(len(rows[0]))]
    return "\n".join("  ".join(str(c).ljust(w) if k == 0 else str(c).rjust(w) for k, (c, w) in enumerate(zip(r, widths))) for r in rows)


def refusals(found):
    """How the refused ones were refused."""
    counts = Counter(kind_of(why) for verdict, why in found.values() if verdict == "refused")
    return (f"refused: {counts['goal']} by a goal that cannot be shown, {counts['steps']} by a proof whose steps no longer fit, "
            f"{counts['no verdict']} without a verdict")
