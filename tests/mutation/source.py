"""Rattle sources as tokens: the functions, methods and constants with their code, and the declared types."""
import re
from collections import namedtuple

Token = namedtuple("Token", "kind text start end")
# A method's name is `Type::name`, and of a trait's impl `TypeTrait::name`, as the prover writes it. `owner` is the type, or None.
Function = namedtuple("Function", "name params result head first last is_public owner")
Constant = namedtuple("Constant", "name type first last")

PATTERN = re.compile(r"""
    (?P<space>\s+|//[^\n]*)
  | (?P<string>b?"(?:[^"\\]|\\.)*")
  | (?P<byte>b'(?:[^'\\]|\\x[0-9a-fA-F]{2}|\\.)')
  | (?P<number>0x[0-9a-fA-F_]+|\d[\d_]*(?:[ui](?:8|16|32|64|size))?)
  | (?P<word>[^\W\d]\w*)
  | (?P<mark>\.\.=|<<=|>>=|=>|->|::|==|!=|<=|>=|&&|\|\||[-+*/%&|^]=|<<|>>|\.\.|.)
""", re.X | re.S)

OPEN, CLOSE = "([{", ")]}"
CLAUSES = {"requires", "ensures", "decreases", "invariant", "ghost"}


def tokens_of(text):
    """The tokens of a text, without spaces and comments."""
    found = (Token(m.lastgroup, m.group(), m.start(), m.end()) for m in PATTERN.finditer(text))
    return [t for t in found if t.kind != "space"]


def pairs_of(tokens):
    """For each bracket's index, that of its partner."""
    pairs, stack = {}, []
    for i, t in enumerate(tokens):
        if t.kind != "mark":
            continue
        if t.text in OPEN:
            stack.append(i)
        elif t.text in CLOSE and stack:
            pairs[i] = stack.pop()
            pairs[pairs[i]] = i
    return pairs


def arguments_of(kind):
    """The types between the angle brackets of a type, or those of a tuple."""
    found, depth = [[]], 0
    for word in kind.replace(">>", "> >").split():
        depth -= word in (">", ")", "]")
        if depth == 1 and word == ",":
            found.append([])
        elif depth > 0:
            found[-1].append(word)
        depth += word in ("<", "(", "[")
    return [" ".join(part) for part in found]


class Source:
    """One file: its text, tokens, and items."""

    def __init__(self, crate, path, text):
        self.crate, self.path, self.text = crate, path, text
        self.tokens = tokens_of(text)
        self.pairs = pairs_of(self.tokens)
        self.functions, self.constants = [], []
        self.structs, self.enums, self.aliases = {}, {}, {}
        self.imported = set()
        self.impl = None
        self._read_items()

    def is_closed(self):
        """Whether nothing can be handed to the crate's public functions, so that a program that calls them shows all that they do."""
        return not any(f.params for f in self.functions if f.is_public)

    def outside(self, a, b):
        """The indices of a range that stand in no bracket, but for those of the brackets that open."""
        i = a
        while i < b:
            yield i
            i = self.pairs[i] + 1 if self.tokens[i].kind == "mark" and self.tokens[i].text in OPEN else i + 1

    def parts(self, first, last, mark, left=()):
        """The ranges between the marks of a range that stand in no bracket. Those left part nothing, and empty ranges are left out."""
        cuts = [i for i in self.outside(first, last) if self.tokens[i].text == mark and i not in left]
        return [(a, b) for a, b in zip([first, *(i + 1 for i in cuts)], [*cuts, last]) if a < b]

    def typed_parts(self, first, last):
        """The parts between commas, of which none stands in angle brackets."""
        inner = {k for i in self.outside(first, last) if self.tokens[i].text == "<" for k in range(i, self.past_angles(i))}
        return self.parts(first, last, ",", inner)

    def past_angles(self, i):
        """What follows the angle brackets that begin here, if any do."""
        depth = 0
        while True:
            depth += {"<": 1, ">": -1, ">>": -2}.get(self.tokens[i].text, 0)
            if depth <= 0:
                return i + 1 if self.tokens[i].text in (">", ">>") else i
            i += 1

    def kind(self, first, last):
        """A type as one text. `Self` is the type of the impl around it."""
        words = [t.text for t in self.tokens[first:last]]
        return " ".join(self.impl[0] if w == "Self" and self.impl else w for w in words)

    def place(self, offset):
        """The line and the column, both from 1."""
        line = self.text.count("\n", 0, offset) + 1
        return line, offset - (self.text.rfind("\n", 0, offset) + 1) + 1

    def _read_items(self):
        readers = {"fn": self._function, "const": self._constant, "struct": self._struct, "enum": self._enum, "type": self._alias,
                   "impl": self._impl, "trait": self._impl, "use": self._use, "ghost": self._ghost, "#": self._attribute}
        i = 0
        while i < len(self.tokens):
            if self.impl and i == self.impl[2]:
                self.impl = None
            read = readers.get(self.tokens[i].text)
            i = read(i) if read else i + 1

    def _attribute(self, i):
        return self.pairs[self.next_of(i, {"["})] + 1

    def _ghost(self, i):
        """An import or a member of proofs alone."""
        return self.next_of(i, {";"}) + 1

    def next_of(self, i, marks):
        """The next of these marks in no bracket."""
        while self.tokens[i].text not in marks:
            i = self.pairs[i] + 1 if self.tokens[i].text in OPEN and self.tokens[i].kind == "mark" else i + 1
        return i

    def block_after(self, i):
        """The block that follows a condition, which holds no struct written out."""
        return self.next_of(i + 1, {"{"})

    def arms(self, opening):
        """Of each arm of a match: its pattern with a guard, the arrow, and the body's end."""
        i, closing = opening + 1, self.pairs[opening]
        while i < closing:
            arrow = self.next_of(i, {"=>"})
            if self.tokens[arrow + 1].text == "{":
                end = self.pairs[arrow + 1] + 1
            else:
                end = next((k for k in self.outside(arrow + 1, closing) if self.tokens[k].text == ","), closing)
            yield i, arrow, end
            i = end + 1 if self.tokens[end].text == "," else end

    def _use(self, i):
        end = self.next_of(i, {";"})
        opening = next((k for k in range(i, end) if self.tokens[k].text == "{"), None)
        names = self.parts(opening + 1, self.pairs[opening], ",") if opening else [(i, end)]
        self.imported.update(self.tokens[b - 1].text for _, b in names)
        return end + 1

    def _alias(self, i):
        equals, end = self.next_of(i, {"=", ";"}), self.next_of(i, {";"})
        if not self.impl:
            self.aliases[self.tokens[i + 1].text] = self.kind(equals + 1, end)
        return end + 1

    def _impl(self, i):
        """The type and the name of the methods that follow, and where they end."""
        start = self.past_angles(i + 1)
        opening = self.next_of(start, {"{"})
        trait = next((k for k in range(start, opening) if self.tokens[k].text == "for"), None)
        owner = self.tokens[trait + 1 if trait else start].text
        named = "".join(t.text for t in self.tokens[start:trait] if t.kind == "word") if trait else ""
        self.impl = owner, owner + named, self.pairs[opening]
        return opening + 1

    def _field(self, first, last):
        """The name and the type of `pub name: type`, or of a method's `self`."""
        if self.tokens[last - 1].text == "self":
            return "self", self.kind(first, last).removeprefix("mut ").replace("self", self.impl[0])
        colon = self.next_of(first, {":"})
        return self.tokens[colon - 1].text, self.kind(colon + 1, last)

    def _fields(self, opening):
        """A ghost field is none of the code's."""
        parts = self.typed_parts(opening + 1, self.pairs[opening])
        return [self._field(a, b) for a, b in parts if "ghost" not in (self.tokens[a].text, self.tokens[a + 1].text)]

    def _types(self, opening):
        """The types of a tuple struct or of a variant."""
        return [self.kind(a, b).removeprefix("pub ") for a, b in self.typed_parts(opening + 1, self.pairs[opening])]

    def _struct(self, i):
        name, opening = self.tokens[i + 1].text, self.next_of(i, {"{", "(", ";"})
        if self.tokens[opening].text == "{":
            self.structs[name] = dict(self._fields(opening))
        else:
            self.structs[name] = {str(k): t for k, t in enumerate(self._types(opening))} if opening in self.pairs else {}
        return self.pairs.get(opening, opening) + 1

    def _enum(self, i):
        """Each variant has its fields by name, its types, or nothing."""
        name, opening = self.tokens[i + 1].text, self.next_of(i, {"{"})
        variants = {}
        for a, b in self.parts(opening + 1, self.pairs[opening], ","):
            if self.tokens[a].text == "#":
                a = self._attribute(a)
            variant, after = self.tokens[a].text, self.tokens[a + 1].text
            if after == "{":
                variants[variant] = dict(self._fields(a + 1))
            elif after == "(":
                variants[variant] = self._types(a + 1)
            else:
                variants[variant] = None
        self.enums[name] = variants
        return self.pairs[opening] + 1

    def _constant(self, i):
        if self.tokens[i + 1].text == "fn":
            return i + 1
        colon = self.next_of(i, {":"})
        equals = self.next_of(colon, {"="})
        end = self.next_of(equals, {";"})
        self.constants.append(Constant(self.tokens[i + 1].text, self.kind(colon + 1, equals), equals + 1, end))
        return end + 1

    def _function(self, i):
        opening = self.next_of(self.past_angles(i + 2), {"("})
        params = self._fields(opening)
        at = self.pairs[opening] + 1
        result = "()"
        if self.tokens[at].text == "->":
            end = self.next_of(at, CLAUSES | {"where", "{", ";"})
            result, at = self.kind(at + 1, end), end
        if self.tokens[at].text == "where":
            at = self.next_of(at, CLAUSES | {"{", ";"})
        while self.tokens[at].text in CLAUSES:
            at = self.pairs[self.next_of(at, {"{"})] + 1
        if self.tokens[at].text == ";":  # a trait's, with no code
            return at + 1
        owner, named, _ = self.impl or (None, None, None)
        is_public = self.tokens[i - 1].text == "pub" or owner != named
        name = f"{named}::{self.tokens[i + 1].text}" if owner else self.tokens[i + 1].text
        self.functions.append(Function(name, params, result, i, at, self.pairs[at], is_public, owner))
        return self.pairs[at] + 1


class Declared:
    """What all sources declare, by name. Of functions, those of a crate, and the methods of a type."""

    def __init__(self, sources):
        self.structs, self.enums, self.aliases, self.constants, self.functions = {}, {}, {}, {}, {}
        for s in sources:
            self.structs.update(s.structs)
            self.enums.update(s.enums)
            self.aliases.update(s.aliases)
            self.constants.update((c.name, c.type) for c in s.constants)
            for f in s.functions:
                self.functions.setdefault(f.owner or s.crate, {})[f.name.split("::")[-1]] = f

    def plain(self, kind):
        """A type with what its aliases stand for."""
        return kind and re.sub(r"\w+", lambda m: self.aliases.get(m.group(), m.group()), kind)

    def signature(self, owner, name):
        """The parameter types and the result of a crate's function or of a type's method, or None."""
        f = self.functions.get(owner, {}).get(name)
        return f and ([self.plain(t) for _, t in f.params], self.plain(f.result))
