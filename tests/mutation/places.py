"""The named places of a function, by which an explanation says where an edit stands."""
from collections import Counter

KEYWORDS = {"return", "else", "mut"}
ASSIGNS = {"=", "+=", "-=", "*=", "/=", "%="}


class Places:
    """Stretches of a function's code, each with a label: the name bound, assigned or indexed, a field written out, a called function,
    an arm's variants, or `if`, `while`, `match` and `for` for what stands between the word and the block (of `if let` too), and `else` for
    the block."""

    def __init__(self, source, function, names):
        self.source, self.tokens, self.pairs, self.names = source, source.tokens, source.pairs, names
        self.stretches = []
        self.counts = Counter()
        matches = (i for i in range(function.first + 1, function.last) if self.tokens[i].text == "match")
        self.patterns = {arrow: first for i in matches for first, arrow, _ in source.arms(source.block_after(i))}
        for i in range(function.first + 1, function.last):
            if i not in names.binding:
                self._read(i)

    def around(self, offset):
        """The labels of the stretches that hold a place of the text, each also with its number in the function: `write`, `write#2`."""
        return {name for start, end, label, number in self.stretches if start <= offset < end for name in (label, f"{label}#{number}")}

    def _add(self, label, first, last):
        self.counts[label] += 1
        self.stretches.append((self.tokens[first].start, self.tokens[last].end, label, self.counts[label]))

    def _read(self, i):
        text, before, after = (self.tokens[k].text for k in (i, i - 1, i + 1))
        if text == "let" and before not in ("if", "while", "&&"):
            self._let(i)
        elif text in ("if", "while", "match", "for"):
            self._add(text, i, self.source.next_of(i, {"{", "=>", ")"}) - 1)
        elif text == "else" and after == "{":
            self._add(text, i, self.pairs[i + 1])
        elif text == "=>":
            self._arm(i)
        elif text in ASSIGNS:
            self._assignment(i)
        elif self.tokens[i].kind == "word" and after in ("(", "[") and text not in KEYWORDS:
            self._add(text, self._path(i), self.pairs[i + 1])
        elif self.tokens[i].kind == "word" and after == ":" and before in ("{", ","):
            self._add(text, i, self.source.next_of(i, {",", "}"}) - 1)

    def _path(self, i):
        """Where `a::b::name` begins."""
        while self.tokens[i - 1].text == "::":
            i -= 2
        return i

    def _let(self, i):
        equals = self.source.next_of(i, {"=", ";"})
        bound = [n.text for n in self.names.bound if i < n.token < equals] or [self.tokens[i + 1].text]
        for name in bound:
            self._add(name, i, self.source.next_of(i, {";"}))

    def _arm(self, arrow):
        end = self.pairs[arrow + 1] if self.tokens[arrow + 1].text == "{" else self.source.next_of(arrow, {",", "}"}) - 1
        first = self.patterns[arrow]
        pattern = self.tokens[first:self.source.next_of(first, {"if", "=>"})]
        variants = [t.text for t, after in zip(pattern, [*pattern[1:], self.tokens[arrow]]) if t.text[0].isupper() and after.text != "::"]
        for name in dict.fromkeys(variants or [pattern[0].text]):
            self._add(name, arrow, end)

    def _assignment(self, i):
        first = i
        while self.tokens[first - 1].text not in (";", "{", "}", "=>", ","):
            first -= 1
        name = first + 1 if self.tokens[first].text == "*" else first
        if self.tokens[first].text not in ("let", "if", "while"):
            self._add(self.tokens[name].text, first, self.source.next_of(i, {";", ",", "}"}))
