"""The mutants of a source: small wrong edits of its code, each one stretch of text replaced by another."""
import re
from collections import Counter

from names import Names
from places import Places

KINDS = ["operator", "operand", "constant", "branch"]
COMPARE = {"<": ["<="], "<=": ["<", "=="], ">": [">="], ">=": [">", "=="], "==": ["!=", "<="], "!=": ["==", "<"]}
ARITHMETIC = {"+": ["-", "*"], "-": ["+"], "*": ["+"], "/": ["*", "%"], "%": ["/"],
              "<<": [">>"], ">>": ["<<"], "&": ["|", "^"], "|": ["&", "^"], "^": ["|", "&"],
              "&&": ["||"], "||": ["&&"],
              "+=": ["-="], "-=": ["+="], "*=": ["+="], "/=": ["*="], "%=": ["/="]}
OPPOSITE = {"<": ">=", ">=": "<", ">": "<=", "<=": ">", "==": "!=", "!=": "=="}
ORDERED = {"<", "<=", ">", ">=", "-", "/", "%", "<<", ">>"}  # the operands may not be swapped
# How tightly an operator binds.
STRENGTH = {"*": 9, "/": 9, "%": 9, "+": 8, "-": 8, "<<": 7, ">>": 7, "&": 6, "^": 5, "|": 4,
            "<": 3, "<=": 3, ">": 3, ">=": 3, "==": 3, "!=": 3, "&&": 2, "||": 1}
BORDERS = {"=", ";", ",", "=>", "+=", "-=", "*=", "/=", "%=", "..", "..=", "return", "if", "while", "match", "let", "else", "in"}
# The methods that stand for an operator, and those that become each other as easily.
NEIGHBOURS = {"wrapping_add": ["wrapping_sub"], "wrapping_sub": ["wrapping_add"], "wrapping_mul": ["wrapping_add", "wrapping_sub"],
              "saturating_add": ["saturating_sub"], "saturating_sub": ["saturating_add"],
              "checked_add": ["checked_sub", "checked_mul"], "checked_sub": ["checked_add"], "checked_mul": ["checked_add"],
              "min": ["max"], "max": ["min"], "all": ["any"], "any": ["all"],
              "is_some": ["is_none"], "is_none": ["is_some"], "is_ok": ["is_err"], "is_err": ["is_ok"],
              "is_some_and": ["is_none_or"], "is_none_or": ["is_some_and"]}
LONG = 16
ESCAPES = {"t": 9, "n": 10, "r": 13, "0": 0, "\\": 92, '"': 34, "'": 39}


class Mutant:
    def __init__(self, source, function, kind, start, end, new):
        self.source, self.function, self.kind = source, function, kind
        self.start, self.end, self.new = start, end, new
        self.crate, self.path = source.crate, source.path
        self.old = source.text[start:end]
        line, column = source.place(start)
        self.swap = f"{short(self.old)}->{short(new)}"
        self.id = f"{self.crate}:{line}:{column}:{kind}:{self.swap}"
        self.is_constant = False
        self.places = set()

    def text(self):
        """The file with the edit."""
        return self.source.text[:self.start] + self.new + self.source.text[self.end:]

    def lines(self):
        """The lines concerned, before and after the edit, each on one line."""
        text = self.source.text
        first = text.rfind("\n", 0, self.start) + 1
        last = text.find("\n", self.end)
        before, after = text[first:last], text[first:self.start] + self.new + text[self.end:last]
        return on_one_line(before), on_one_line(after)


def on_one_line(text):
    return " ".join(line.strip() for line in text.splitlines())


def short(text, most=60):
    text = on_one_line(text) or (text and repr(text))
    return text if len(text) <= most else text[:most] + ".."


def mutants_of(source, declared):
    """The mutants of a source in the order of the text, each new text once."""
    found, seen = [], set()
    for constant in source.constants:
        made = Edits(source, declared, constant.name, constant.first - 1, constant.last, None).all()
        for m in made:
            m.is_constant = True
        found += made
    for function in source.functions:
        names = Names(source, declared, function)
        places = Places(source, function, names)
        made = Edits(source, declared, function.name, function.first, function.last, names).all()
        for m in made:
            m.places = places.around(m.start)
        found += made
    unique = []
    for m in sorted(found, key=lambda m: (m.start, m.end)):
        if m.new != m.old and (m.start, m.end, m.new) not in seen:
            seen.add((m.start, m.end, m.new))
            unique.append(m)
    number_alike(unique)
    return unique


def number_alike(mutants):
    """The edits of a function that read the same are told apart by a place `#1`, `#2` and so on, in the order of the text."""
    counts = Counter()
    for m in mutants:
        counts[m.function, m.kind, m.swap] += 1
        m.places.add(f"#{counts[m.function, m.kind, m.swap]}")


class Edits:
    """The edits of the code between two tokens."""

    def __init__(self, source, declared, name, first, last, names):
        self.source, self.declared, self.name = source, declared, name
        self.first, self.last, self.names = first, last, names
        self.tokens, self.pairs = source.tokens, source.pairs
        self.made = []

    def all(self):
        for i in range(self.first + 1, self.last):
            t = self.tokens[i]
            if self.names and i in self.names.binding:
                continue
            if t.kind == "number":
                self.number(i)
            elif t.kind == "byte":
                self.byte(i)
            elif t.kind == "string":
                self.string(i)
            elif t.kind == "word":
                self.word(i)
            else:
                self.operator(i)
        if self.names:
            self.blocks()
        return self.made

    # -- texts

    def span(self, a, b):
        return self.source.text[self.tokens[a].start:self.tokens[b - 1].end]

    def add(self, kind, a, b, new):
        """The tokens from a up to b replaced."""
        self.made.append(Mutant(self.source, self.name, kind, self.tokens[a].start, self.tokens[b - 1].end, new))

    def is_binary(self, i):
        before = self.tokens[i - 1]
        if before.kind == "mark":
            return before.text in (")", "]", "?")
        return before.text not in BORDERS

    # -- constants

    def number(self, i):
        if self.tokens[i - 1].text == "." or self.tokens[i - 1].text == "as":
            return
        text = self.tokens[i].text
        suffix = re.search(r"[ui](8|16|32|64|size)$", text)
        suffix = suffix.group() if suffix and not text.startswith("0x") else ""
        digits = text.removesuffix(suffix).replace("_", "")
        for value in changed(int(digits, 0)):
            self.add("constant", i, i + 1, f"{value}{suffix}")

    def byte(self, i):
        (_, value), = pieces(self.tokens[i].text[2:-1])
        for new in changed(value):
            self.add("constant", i, i + 1, str(new))

    def string(self, i):
        """Each byte; of a long text the first and the last."""
        text = self.tokens[i].text
        opening = text.index('"') + 1
        start = self.tokens[i].start + opening
        spelled = list(pieces(text[opening:-1]))
        for k, (text, value) in enumerate(spelled):
            if len(spelled) <= LONG or k in (0, len(spelled) - 1):
                for new in changed(value):
                    self.made.append(Mutant(self.source, self.name, "constant", start, start + len(text), f"\\x{new % 256:02x}"))
            start += len(text)

    # -- operators and their operands

    def operator(self, i):
        op = self.tokens[i].text
        is_macro = self.tokens[i - 1].kind == "word" and self.tokens[i - 1].text not in BORDERS
        if op == "!" and not is_macro:
            self.add("operator", i, i + 2, self.span(i + 1, i + 2))
        if op == "-" and not self.is_binary(i):
            self.add("operator", i, i + 2, self.span(i + 1, i + 2))
        if op not in COMPARE and op not in ARITHMETIC or not self.is_binary(i):
            return
        for new in COMPARE.get(op) or ARITHMETIC[op]:
            self.add("operator", i, i + 1, new)
        if op in ORDERED:
            a, b = self.left(i), self.right(i)
            left, right = self.span(a, i), self.span(i + 1, b)
            if left != right:
                self.add("operand", a, b, f"{self.wrapped(i + 1, b)} {op} {self.wrapped(a, i)}")

    def wrapped(self, a, b):
        """An operand's text, in parentheses where it is not simple."""
        text = self.span(a, b)
        return text if b == a + 1 or self.pairs.get(a) == b - 1 or all(c.isalnum() or c in "_.()" for c in text) else f"({text})"

    def stops(self, i, strength):
        t = self.tokens[i]
        if t.text == "|" and self.names and i in self.names.binding:  # a closure's bar
            return True
        return t.text in BORDERS or t.kind == "mark" and STRENGTH.get(t.text, 99) < strength and self.is_binary(i)

    def left(self, i):
        """Where the left operand begins."""
        strength, at = STRENGTH[self.tokens[i].text], i
        while at - 1 > self.first:
            t = self.tokens[at - 1]
            if t.kind == "mark" and t.text in ")]":
                at = self.pairs[at - 1]
            elif t.kind == "mark" and t.text in "([{}" or self.stops(at - 1, strength):
                break
            else:
                at -= 1
        return at

    def right(self, i):
        """Where the right operand ends. An operator as strong as this one ends it too."""
        strength, at = STRENGTH[self.tokens[i].text] + 1, i + 1
        while at < self.last:
            t = self.tokens[at]
            if t.kind == "mark" and t.text in "([":
                at = self.pairs[at]
            elif t.kind == "mark" and t.text in ")]{}" or at > i + 1 and self.stops(at, strength):
                break
            at += 1
        return at

    # -- words: truth values, variants, names, fields, calls

    def word(self, i):
        text, after, before = self.tokens[i].text, self.tokens[i + 1].text, self.tokens[i - 1].text
        if text in ("true", "false"):
            self.add("constant", i, i + 1, "false" if text == "true" else "true")
        elif before == "." and after != "(":
            self.field(i)
        elif before == "::" and self.tokens[i - 2].text in self.declared.enums:
            self.variant(i)
        elif after == "(" and i + 1 in self.pairs:
            self.call(i)
        elif before not in ("::", "as") and after not in ("::", ":", "!", "{"):
            self.name_used(i)

    def field(self, i):
        text = self.tokens[i].text
        for fields in self.declared.structs.values():
            if text in fields:
                for other, kind in fields.items():
                    if other != text and kind == fields[text]:
                        self.add("operand", i, i + 1, other)

    def variant(self, i):
        """A variant that holds nothing becomes the next such one."""
        variants = self.declared.enums[self.tokens[i - 2].text]
        bare = [v for v, parts in variants.items() if parts is None]
        if self.tokens[i].text in bare and len(bare) > 1:
            self.add("constant", i, i + 1, bare[(bare.index(self.tokens[i].text) + 1) % len(bare)])

    def call(self, i):
        text, opening = self.tokens[i].text, i + 1
        arguments = self.source.parts(opening + 1, self.pairs[opening], ",", self.names.binding if self.names else ())
        for (a, b), (c, d) in zip(arguments, arguments[1:]):
            if self.span(a, b) != self.span(c, d):
                between = self.source.text[self.tokens[b - 1].end:self.tokens[c].start]
                self.add("operand", a, d, self.span(c, d) + between + self.span(a, b))
        for other in NEIGHBOURS.get(text, ()):
            self.add("operator", i, i + 1, other)
        for owner in self.owners(i):
            signature = self.declared.signature(owner, text)
            for other in self.declared.functions[owner] if signature else ():
                if other not in (text, self.name.split("::")[-1]) and self.declared.signature(owner, other) == signature:
                    self.add("operand", i, i + 1, other)

    def owners(self, i):
        """The crate or the types of which a called function may be."""
        before, owner = self.tokens[i - 1].text, self.tokens[i - 2].text
        if before == ".":
            return [f.owner for functions in self.declared.functions.values() for n, f in functions.items() if f.owner and n == self.tokens[i].text]
        if before != "::":
            return [self.source.crate]
        return [self.names.function.owner if owner == "Self" else owner]

    def name_used(self, i):
        """A local or a constant becomes another of its type."""
        text = self.tokens[i].text
        if text.isupper():
            others = [n for n, t in self.declared.constants.items()
                      if n != text and t == self.declared.constants.get(text) and self.sees(n)]
        elif self.names and text in self.names.in_scope(i):
            others = self.other_names(i)
        else:
            return
        is_field = self.tokens[i - 1].text in "{," and self.tokens[i + 1].text in ",}" and self.in_literal(i)
        for other in others:
            self.add("operand", i, i + 1, f"{text}: {other}" if is_field else other)

    def sees(self, constant):
        return constant in self.source.imported or any(c.name == constant for c in self.source.constants)

    def other_names(self, i):
        scope = self.names.in_scope(i)
        own = scope[self.tokens[i].text].type
        others = [n for n in scope.values() if n.text != self.tokens[i].text]
        same = [n.text for n in others if own and n.type == own]
        unknown = [n.text for n in others if not own or not n.type]
        return same + unknown[:2]

    def in_literal(self, i):
        """Where the brackets around a token begin, if they are those of a struct or a variant written out."""
        while self.tokens[i].text != "{" or self.tokens[i].kind != "mark":
            i -= 1
            if self.tokens[i].kind == "mark" and self.tokens[i].text in "([":
                return None
            if self.tokens[i].kind == "mark" and self.tokens[i].text in ")]}":
                i = self.pairs[i] - 1
        return i if self.tokens[i - 1].kind == "word" and self.tokens[i - 1].text[0].isupper() else None

    # -- branches and statements

    def blocks(self):
        self.statements(self.first)
        for i in range(self.first + 1, self.last):
            text, after = self.tokens[i].text, self.tokens[i + 1].text
            if text in ("if", "while") and after != "let":
                opening = self.source.next_of(i + 1, {"{", "=>", ")"})  # a guard's `if` has no block
                self.condition(i, opening)
                if self.tokens[opening].text == "{":
                    self.statements(opening)
            elif text in ("if", "while", "for"):
                self.statements(self.source.block_after(i))
            elif text == "match":
                self.arms(self.source.block_after(i))
            elif text == "matches" and after == "!":
                self.matched(i)
            elif text == ".." and i not in self.names.binding:
                self.update(i)
            elif text in ("else", "loop", "=>") and after == "{":
                self.statements(i + 1)

    def matched(self, i):
        """`matches!` negated, and each alternative of its pattern left out."""
        closing = self.pairs[i + 2]
        self.add("branch", i, closing + 1, f"!{self.span(i, closing + 1)}")
        comma = self.source.next_of(i + 3, {","})
        alternatives = self.source.parts(comma + 1, self.source.next_of(comma, {"if", ")"}), "|")
        for (a, _), (b, _) in zip(alternatives, alternatives[1:]):
            self.add("branch", a, b, "")
        if len(alternatives) > 1:
            self.add("branch", alternatives[-2][1], alternatives[-1][1], "")

    def update(self, i):
        """A field that is written out beside `..` left out."""
        opening = self.tokens[i - 1].text == "," and self.in_literal(i)
        if opening:
            for a, b in self.source.parts(opening + 1, i, ","):
                self.add("branch", a, b + 1, "")

    def condition(self, i, opening):
        a, b = i + 1, opening
        depth0 = [k for k in self.source.outside(a, b) if self.is_binary(k) and self.tokens[k].kind == "mark"]
        compared = [k for k in depth0 if self.tokens[k].text in COMPARE]
        joined = any(self.tokens[k].text in ("&&", "||", "&", "|", "^") for k in depth0)
        if len(compared) == 1 and not joined:
            k = compared[0]
            self.add("branch", k, k + 1, OPPOSITE[self.tokens[k].text])
            same = self.span(a, k) if self.tokens[k - 1].kind not in ("number", "byte") else self.span(k + 1, b)
            self.add("branch", a, b, f"{same} == {same}")
            self.add("branch", a, b, f"{same} != {same}")
            return
        self.add("branch", a, b, "true")
        self.add("branch", a, b, "false")
        closing = self.pairs.get(opening)
        if self.tokens[i].text == "if" and closing and self.tokens[closing + 1].text == "else" and self.tokens[closing + 2].text == "{":
            other = closing + 2
            end = self.pairs[other] + 1
            self.add("branch", opening, end, f"{self.span(other, end)} else {self.span(opening, closing + 1)}")
        elif self.tokens[a].text != "!":
            self.add("branch", a, b, f"!({self.span(a, b)})" if b > a + 1 else f"!{self.span(a, b)}")

    def arms(self, opening):
        """The bodies of two neighbouring arms swapped."""
        bodies = [(arrow + 1, end) for _, arrow, end in self.source.arms(opening)]
        for (a, b), (c, d) in zip(bodies, bodies[1:]):
            if self.span(a, b) != self.span(c, d):
                between = self.source.text[self.tokens[b - 1].end:self.tokens[c].start]
                if self.tokens[b].text != ",":
                    between = "," + between
                self.add("branch", a, d, self.span(c, d) + between + self.span(a, b))

    def statements(self, opening):
        """A statement left out: an assignment, a store, a call, a name bound anew, or an early return."""
        for a, b in self.statements_of(opening):
            head = self.tokens[a].text
            if head == "if" and self.tokens[b - 1].text == "}" and "return" in self.span(a, b) and " else " not in self.span(a, b):
                self.add("branch", a, b, "")
            elif self.tokens[b - 1].text != ";" or head in ("return", "while", "if", "match", "loop", "for"):
                continue
            elif head != "let" or self.is_bound_anew(a):
                self.add("branch", a, b, "")

    def is_bound_anew(self, a):
        """Whether what a `let` binds is a name that is bound already, or none."""
        at = a + 2 if self.tokens[a + 1].text == "mut" else a + 1
        return self.tokens[at].text == "_" or self.tokens[at].text in self.names.in_scope(a)

    def statements_of(self, opening):
        closing, start, i = self.pairs[opening], opening + 1, opening + 1
        while i < closing:
            t = self.tokens[i]
            if t.kind == "mark" and t.text in "([{":
                is_block = t.text == "{" and self.tokens[start].text in ("if", "while", "match", "loop", "for")
                i = self.pairs[i]
                if is_block and self.tokens[i + 1].text != "else" and self.tokens[i + 1].text != ";":
                    yield start, i + 1
                    start = i + 1
            elif t.text == ";":
                yield start, i + 1
                start = i + 1
            i += 1


def changed(n):
    """The numbers next to one, and 0."""
    return [v for v in dict.fromkeys([n + 1, n - 1, 0]) if v >= 0 and v != n]


def pieces(text):
    """The bytes of a byte string, each with its spelling."""
    for m in re.finditer(r"\\x([0-9a-fA-F]{2})|\\(.)|(.)", text, re.S):
        if m.group(1):
            yield m.group(), int(m.group(1), 16)
        else:
            yield m.group(), ESCAPES[m.group(2)] if m.group(2) else ord(m.group(3))
