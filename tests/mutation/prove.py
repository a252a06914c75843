"""What the prover says of a mutant."""
import re

from kit import linked_copy

SECONDS = 300
SECONDS_ABOVE = 1800  # Of a crate above, with all between.
STEPS = re.compile(r"that can be named from here|this pattern needs|not in scope|has no field|takes \d+ arguments|too (?:many|few)|was not admitted")


class Prover:
    def __init__(self, room):
        self.room, self.repository = room, room.repository
        self.plain = set()

    def _kept(self, crate):
        """Where what was proved of the crate as it stands is kept, so that each check begins with it and takes up only what an edit changes."""
        return self.room.root / "proved" / crate

    def _begin(self, crate):
        """Proves the crate as it stands, once, and has the next check begin with that."""
        made = self.room.folder(crate) / "out" / "incremental"
        if crate not in self.plain:
            status, said = self.room.rt(crate, "check", seconds=None)
            if status != 0:
                raise SystemExit(f"mutation: {crate} is not proved as it stands\n{said[-2000:]}")
            linked_copy(made, self._kept(crate))
            self.plain.add(crate)
        linked_copy(self._kept(crate), made)

    def check(self, mutant, text=None):
        """The prover's status, and what it says, of the mutant's crate with the edit, or with this text in its file."""
        self._begin(mutant.crate)
        with self.room.edited(mutant, text):
            return self.room.rt(mutant.crate, "check", "--jobs", "1", seconds=SECONDS)

    def verdict(self, mutant):
        """`no program`, `same code`, `refused` or `proved`, and the reason."""
        verdict, why = judge(*self.check(mutant), mutant.crate)
        if mutant.is_constant and verdict in ("same code", "proved"):
            return self._above(mutant)
        return verdict, why

    def _above(self, mutant):
        """A constant is proved nothing of where it stands: the crates that name it decide."""
        for crate in self.repository.above(mutant.crate):
            if self._names(crate, mutant.function):
                self._begin(crate)
                with self.room.edited(mutant):
                    verdict, why = judge(*self.room.rt(crate, "check", "--jobs", "1", seconds=SECONDS_ABOVE), crate)
                if verdict not in ("same code", "proved"):
                    return "refused", why
        return "proved", ""

    def _names(self, crate, constant):
        return any(re.search(rf"\b{constant}\b", p.read_text()) for p in self.repository.sources(crate))


def judge(status, said, crate):
    if status is None:
        return "refused", f"{crate}: no end in time"
    if status == 0:
        counted = re.search(rf"^crate {crate}: modules loaded=\d+ checked=0$", said, re.M)
        # What a check elsewhere proved of the same edited text counts for nothing here.
        elsewhere = re.search(rf"^rt: {crate}: begins with", said, re.M)
        return ("same code" if counted and not elsewhere else "proved"), ""
    if status == 1 and not re.search(r"^logic=not-proved", said, re.M):
        return "no program", first_error(said)
    if status == 1:
        return "refused", first_error(said)
    return "refused", f"no verdict: {said.strip().splitlines()[-1][:200] if said.strip() else ''}"


def errors_of(said):
    return re.findall(r"^(?:note: )?(?:\./)?((?:src|proofs|specs)/[^ ]*: (?:error|it is not proved).*)", said, re.M)


def first_error(said):
    """The first error that is one of the code, and does not only follow from another or from a name that is gone."""
    errors = errors_of(said)
    own = [e for e in errors if not STEPS.search(e)]
    return (own or errors or said.strip().splitlines()[:1] or [""])[0][:300]


def kind_of(why):
    """Whether a goal cannot be shown, or the proof's steps are no longer those of the code."""
    if why.startswith("no verdict") or why.endswith("no end in time"):
        return "no verdict"
    return "steps" if STEPS.search(why) else "goal"
