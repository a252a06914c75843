"""Mutants in functions that do not call each other, judged by one check: the prover answers for each function."""
import re

from prove import errors_of, first_error
from source import Source

MOST = 6


def calls_of(source):
    """For each function of a file, those of the file that it reaches."""
    names = {f.name for f in source.functions}
    direct = {}
    for f in source.functions:
        words = {t.text for t in source.tokens[f.first:f.last]}
        direct[f.name] = {name for name in names if name.split("::")[-1] in words}
    for via in names:
        for f in names:
            if via in direct[f]:
                direct[f] |= direct[via]
    return direct


def batches_of(mutants):
    """The mutants of one crate in batches. A constant's stand alone, since the crates above judge them."""
    single = [m for m in mutants if m.is_constant]
    waiting = {}
    for m in mutants:
        if not m.is_constant:
            waiting.setdefault(m.function, []).append(m)
    made = [[m] for m in single]
    calls = calls_of(mutants[0].source)
    while any(waiting.values()):
        chosen = []
        for f in sorted(waiting, key=lambda f: -len(waiting[f])):
            if waiting[f] and len(chosen) < MOST and not any(f in calls[g] or g in calls[f] for g in chosen):
                chosen.append(f)
        made.append([waiting[f].pop(0) for f in chosen])
    return made


def text_with(batch):
    """The file with all the edits of a batch."""
    text = batch[0].source.text
    for m in sorted(batch, key=lambda m: -m.start):
        text = text[:m.start] + m.new + text[m.end:]
    return text


class Batches:
    def __init__(self, prover):
        self.prover = prover

    def verdicts(self, batch):
        """What the prover says of each mutant. Those of which one check does not tell are checked alone."""
        found = {}
        left = self._programs(list(batch), found) if len(batch) > 1 else batch
        for m in left:
            if m not in found:
                found[m] = self.prover.verdict(m)
        return found

    def _programs(self, batch, found):
        """Checks a batch, again without those that are no program, until the prover answers."""
        while len(batch) > 1:
            text = text_with(batch)
            status, said = self.prover.check(batch[0], text)
            if status == 1 and not re.search(r"^logic=not-proved", said, re.M):
                broken = self._broken(batch, text, said)
                if not broken:
                    return batch
                found.update(broken)
                batch = [m for m in batch if m not in broken]
            else:
                found.update(self._refused(batch, text, said))
                return batch
        return batch

    def _lines(self, batch, text):
        """For each mutant's function, its first and its last line in the text."""
        edited = Source(batch[0].crate, batch[0].path, text)
        return {f.name: (edited.place(edited.tokens[f.head].start)[0], edited.place(edited.tokens[f.last].end)[0]) for f in edited.functions}

    def _broken(self, batch, text, said):
        """The mutants in whose functions the front end finds an error."""
        lines, broken = self._lines(batch, text), {}
        for m in batch:
            errors = [e for e in errors_of(said) if is_in(e, lines[m.function])]
            if errors:
                broken[m] = ("no program", errors[0][:300])
        return broken

    def _refused(self, batch, text, said):
        """The mutants whose functions are not proved, for their own sake. Those that are proved are checked alone: whether the code is
        the same shows only there. So are those of which only a closure is not proved."""
        lines, refused = self._lines(batch, text), {}
        for m in batch:
            if re.search(rf"^fn {m.crate}::{m.function}: (?:not proved|no proof)", said, re.M):
                folder = f"proofs/{m.function.replace('::', '/')}/"
                own = [e for e in errors_of(said) if is_in(e, lines[m.function]) or e.startswith((folder, folder.replace("/", "/+", 1)))]
                if own:
                    refused[m] = ("refused", first_error("\n".join(own)))
        return refused


def is_in(error, lines):
    """Whether an error stands in these lines of the source."""
    line = re.match(r"src/[^ :]*:(\d+):", error)
    return bool(line) and lines[0] <= int(line[1]) <= lines[1]
