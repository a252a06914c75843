"""Runs the programs with a mutant, and compares what they write."""
import hashlib
import re
import shutil

from kit import run
from prove import first_error
from source import tokens_of

TRY_SECONDS, BUILD_SECONDS, SCRIPT_SECONDS = 600, 3600, 60
WRITE_THE_SAME, COMPILED_SAME, IN_NO_PROGRAM = "the programs write the same", "it compiles to the same code in the programs", "in no program"


class Trial:
    def __init__(self, room):
        self.room, self.repository = room, room.repository
        self.plain = {}

    def _groups(self, crate):
        """The programs that have a crate. Those of one code, which only run on other files, are together: they are built once."""
        groups = {}
        for p in self.repository.programs():
            if crate in (p, *self.repository.reached(p)):
                words = tuple(t.text for t in tokens_of(self.repository.root_file(p).read_text()))
                groups.setdefault(p if p == crate else (words, *self.repository.deps[p]), []).append(p)
        return list(groups.values())

    def verdict(self, mutant, is_proved):
        """`seen` by a program's run, `same code` once compiled, or `survives`; and why. A library that may be called with other values
        than the programs have is not the same for being so in them."""
        groups = self._groups(mutant.crate)
        for group in groups:
            with self.room.edited(mutant):
                why = self._seen(group)
            if why:
                return "seen", why
        if not groups:
            return "survives", IN_NO_PROGRAM
        return self._compiled(mutant, groups) if is_proved else ("survives", WRITE_THE_SAME)

    def _seen(self, group):
        """Runs the programs of one code, built without proof, on their files; answers what is not as it should be."""
        cases = self.room.root / "cases"
        shutil.rmtree(cases, ignore_errors=True)
        cases.mkdir()
        for p in group:
            folder = self.repository.folder(p)
            for part, name in (("stdin", p), ("stdout", f"{p}.stdout"), ("args", f"{p}.args")):
                if (folder / part).exists():
                    shutil.copy(folder / part, cases / name)
                elif part == "stdin":
                    (cases / name).touch()
        # An interpreter would run it too, more slowly: it is stopped at once.
        status, said = self.room.rt(group[0], "try", "--steps", "1000", "--cases", str(cases), seconds=TRY_SECONDS)
        if status is None:
            return f"{group[0]} does not end"
        for p in group:
            if not re.search(rf"^case={p} run=ended status=0 .*output=expected", said, re.M):
                told = re.search(rf"^case={p} .*", said, re.M)
                return told[0] if told else f"{group[0]} is not built: {first_error(said)}"
        return None

    def _build(self, program):
        """The sum of the program's machine code, proved and compiled, or None where it is not proved; and what was said."""
        made = self.room.folder(program) / "out" / f"{program}.o"
        made.unlink(missing_ok=True)
        said = self.room.rt(program, "run", seconds=BUILD_SECONDS)[1]
        return (hashlib.sha256(made.read_bytes()).hexdigest() if re.search(r"^rt: running ", said, re.M) else None), said

    def _fails(self, program):
        """Whether the program says what it should where it cannot read or write."""
        script = self.repository.failures(program)
        return not script.exists() or run([str(script), str(self.room.folder(program) / "out" / program)], SCRIPT_SECONDS)[0] == 0

    def _plain(self, program):
        if program not in self.plain:
            self.plain[program], said = self._build(program)
            if not self.plain[program] or not self._fails(program):
                raise SystemExit(f"mutation: {program} is not proved, or says something else where it cannot read or write, with no edit\n{said[-2000:]}")
        return self.plain[program]

    def _compiled(self, mutant, groups):
        """What becomes of a proved mutant whose programs write the same."""
        same = True
        for first, *others in groups:
            # One program of a group is enough to compare, but for those with a script of their own.
            for p in [first, *(p for p in others if self.repository.failures(p).exists())]:
                plain = self._plain(p)
                with self.room.edited(mutant):
                    code, said = self._build(p)
                if not code:
                    return "refused", first_error(said)
                if code != plain:
                    same = False
                    if not self._fails(p):
                        return "seen", f"{p} says something else where it cannot read or write"
        if not same:
            return "survives", WRITE_THE_SAME
        return ("same code" if mutant.source.is_closed() else "survives"), COMPILED_SAME
