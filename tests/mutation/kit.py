"""The repository's crates, and a copy of them in which `rt` is called on edited files."""
import contextlib
import functools
import hashlib
import os
import shutil
import subprocess
import sys
import tempfile
from pathlib import Path


def refuse(text):
    print(f"mutation: {text}", file=sys.stderr)
    raise SystemExit(2)


class Repository:
    def __init__(self, root):
        self.root = root
        self.results = root / "tests" / "mutation" / "out"
        self.deps = {}
        for line in (root / "crates.txt").read_text().splitlines():
            name, colon, deps = line.partition("#")[0].partition(":")
            if colon:
                self.deps[name.strip()] = deps.split()
        self.hashes = {}

    @functools.cached_property
    def kit(self):
        """The toolchain's line."""
        if not shutil.which("rt"):
            refuse("rt is not found; put the Rattle toolchain on PATH")
        return subprocess.run(["rt", "version"], stdout=subprocess.PIPE, text=True, check=True).stdout

    def folder(self, crate):
        return self.root / "crates" / crate

    def sources(self, crate):
        return sorted((self.folder(crate) / "src").rglob("*.rt"))

    def root_file(self, crate):
        program = self.folder(crate) / "src" / "main.rt"
        return program if program.exists() else self.folder(crate) / "src" / "lib.rt"

    def is_program(self, crate):
        return self.root_file(crate).name == "main.rt"

    def programs(self):
        """The programs with a file of what they write, those with the longest input first."""
        found = [c for c in self.deps if self.is_program(c) and (self.folder(c) / "stdout").exists()]
        stdin = {c: self.folder(c) / "stdin" for c in found}
        return sorted(found, key=lambda c: -stdin[c].stat().st_size if stdin[c].exists() else 0)

    def reached(self, crate):
        """The libraries below a crate: the repository's, and those of the toolchain that its crates name."""
        found, todo = [], list(self.deps[crate])
        while todo:
            d = todo.pop(0)
            if d not in found:
                found.append(d)
                todo += self.deps.get(d, [])
        return found

    def above(self, crate):
        """The crates that build on a crate, in the order of crates.txt."""
        return [c for c in self.deps if crate in self.reached(c)]

    def size(self, crate):
        return sum(len(p.read_text()) for p in self.sources(crate))

    def hash(self, crate):
        """Of all that a proof of the crate rests on."""
        if crate not in self.hashes:
            files = [p for part in ("src", "specs", "proofs") for p in (self.folder(crate) / part).rglob("*") if p.is_file()]
            below = [self.hash(d) for d in self.deps[crate] if d in self.deps]
            self.hashes[crate] = digest([self.kit, *below, *contents(self.folder(crate), files)])
        return self.hashes[crate]

    def crates_hash(self):
        return digest([self.hash(c) for c in self.deps])

    def tests_hash(self):
        """Of all that the programs' runs rest on."""
        files = [self.folder(c) / part for c in self.programs() for part in ("stdin", "stdout", "args")]
        files += [self.failures(c) for c in self.programs()]
        return digest([self.crates_hash()] + contents(self.root, [f for f in files if f.is_file()]))

    def failures(self, program):
        """The script that runs a program where it cannot read or write, if it has one."""
        return self.root / "tests" / "failures" / program


class Room:
    """A copy of the crates among the temporary files, since `rt ci` wants no source outside `crates`. What a check of the repository kept
    is used there too: `rt` sees to it."""

    def __init__(self, repository):
        self.repository = repository
        self.place = tempfile.TemporaryDirectory(prefix="mutation-")
        self.root = Path(self.place.name)
        for name in ("crates.txt", "HANDLES"):
            if (repository.root / name).exists():
                shutil.copy(repository.root / name, self.root / name)
        shutil.copytree(repository.root / "crates", self.root / "crates", ignore=shutil.ignore_patterns("out", "must-fail"))

    def folder(self, crate):
        return self.root / "crates" / crate

    @contextlib.contextmanager
    def edited(self, mutant, text=None):
        """The room while the mutant's file has the edit, or this text in its place."""
        file = self.root / mutant.path.relative_to(self.repository.root)
        file.write_text(text or mutant.text())
        try:
            yield
        finally:
            file.write_text(mutant.source.text)

    def rt(self, crate, *words, seconds):
        return run(["rt", *words], seconds, cwd=self.folder(crate), stdin=subprocess.DEVNULL)


def contents(base, files):
    return [f"{f.relative_to(base)} {hashlib.sha256(f.read_bytes()).hexdigest()}" for f in sorted(files)]


def digest(texts):
    return hashlib.sha256("\n".join(texts).encode()).hexdigest()[:16]


def run(words, seconds, **more):
    """A command's status and what it said, or None where it took too long."""
    try:
        done = subprocess.run(words, stdout=subprocess.PIPE, stderr=subprocess.STDOUT, timeout=seconds, text=True, errors="replace", **more)
        return done.returncode, done.stdout
    except subprocess.TimeoutExpired:
        return None, ""


def linked_copy(old, new):
    """A copy of a folder whose files are links to the old ones: whoever changes one puts another in its place."""
    shutil.rmtree(new, ignore_errors=True)
    shutil.copytree(old, new, copy_function=os.link)
