"""The names of a function: where each is bound, how far it reaches, and its type as far as it is plain."""
from collections import namedtuple

from source import arguments_of

Name = namedtuple("Name", "text type token at end")  # the token that binds it; in scope behind a token, and up to another

WRAPS = {"Some": 0, "Ok": 0, "Err": 1}  # which argument of Option or Result each holds


class Names:
    def __init__(self, source, declared, function):
        self.source, self.declared, self.function = source, declared, function
        self.tokens, self.pairs = source.tokens, source.pairs
        self.bound = [Name(n, declared.plain(t), function.first, function.first, function.last) for n, t in function.params]
        self.binding = set()  # the indices of the tokens that bind a name or stand in a pattern or a type
        readers = {"let": self._let, "match": self._match, "for": self._for, "matches": self._matches, "|": self._closure, "::": self._angles}
        for i in range(function.first + 1, function.last):
            if self.tokens[i].text in readers and i not in self.binding:
                readers[self.tokens[i].text](i)

    def _block_end(self, i):
        """The end of the block around a token."""
        while i < self.function.last:
            if self.tokens[i].kind == "mark" and self.tokens[i].text in "([{":
                i = self.pairs[i]
            elif self.tokens[i].kind == "mark" and self.tokens[i].text in ")]}":
                return i
            i += 1
        return i

    # -- where patterns stand

    def _let(self, i):
        equals = self.source.next_of(i, {"=", ";"})
        if self.tokens[i - 1].text in ("if", "while", "&&"):
            opening = self.source.block_after(equals)
            self._pattern(i + 1, equals, self.type_of(equals + 1, opening), (opening, self.pairs[opening]))
            return
        end = self.source.next_of(equals, {";"})
        kind = self.type_of(equals + 1, self._before_else(equals, end)) if equals < end else None
        self._typed(i + 1, equals, kind, (end, self._block_end(end)))

    def _before_else(self, equals, end):
        """Where the value of `let .. else` ends, or of a `let` without it."""
        is_branch = self.tokens[equals + 1].text == "if"
        return end if is_branch else self.source.next_of(equals, {"else", ";"})

    def _match(self, i):
        opening = self.source.block_after(i)
        kind = self.type_of(i + 1, opening)
        for first, arrow, end in self.source.arms(opening):
            pattern_end = self.source.next_of(first, {"if", "=>"})
            self._pattern(first, pattern_end, kind, (pattern_end, end))

    def _for(self, i):
        opening, is_in = self.source.block_after(i), self.source.next_of(i, {"in"})
        self._pattern(i + 1, is_in, self._counted(is_in + 1, opening), (opening, self.pairs[opening]))

    def _counted(self, a, b):
        """The type of a range's numbers."""
        dots = next((k for k in self.source.outside(a, b) if self.tokens[k].text in ("..", "..=")), None)
        return dots and (self.type_of(a, dots) or self.type_of(dots + 1, b))

    def _matches(self, i):
        """`matches!(value, pattern)`."""
        if self.tokens[i + 1].text != "!":
            return
        comma = self.source.next_of(i + 3, {","})
        end = self.source.next_of(comma, {"if", ")"})
        self._pattern(comma + 1, end, self.type_of(i + 3, comma), (end, self.pairs[i + 2]))

    def _closure(self, i):
        """The names before a closure's body, if this is the first of its bars."""
        before = self.tokens[i - 1]
        if before.kind != "mark" and before.text != "move" or before.text in (")", "]", "?"):
            return
        closing = self.source.next_of(i + 1, {"|"})
        body = closing + 1
        if self.tokens[body].text == "{":
            end = self.pairs[body]
        else:
            end = next(k for k in self.source.outside(body, self.function.last + 1) if self.tokens[k].text in (",", ";", ")", "]", "}"))
        self.binding.update((i, closing))
        self.binding.update(k for k in self.source.outside(i, closing) if self.tokens[k].text == ",")
        for a, b in self.source.typed_parts(i + 1, closing):
            self._typed(a, b, None, (closing, end))

    def _angles(self, i):
        """The types and numbers in `name::<..>`."""
        if self.tokens[i + 1].text == "<":
            self.binding.update(range(i, self.source.past_angles(i + 1)))

    # -- patterns

    def _typed(self, a, b, kind, scope):
        """Binds the names of `pattern: type`, or of a pattern of the type given."""
        colon = next((k for k in self.source.outside(a, b) if self.tokens[k].text == ":"), None)
        if colon:
            self.binding.update(range(colon, b))
            kind = self.declared.plain(self.source.kind(colon + 1, b))
        self._pattern(a, colon or b, kind, scope)

    def _pattern(self, a, b, kind, scope):
        """Binds the names of a pattern in a scope. Its numbers, bytes and truth values are left to be edited."""
        self.binding.update(k for k in range(a, b) if self.tokens[k].kind in ("word", "mark") and self.tokens[k].text not in ("true", "false"))
        for first, last in self.source.parts(a, b, "|"):
            self._alternative(first, last, lent(kind), scope)

    def _alternative(self, a, b, kind, scope):
        t = self.tokens
        while t[a].text in ("&", "mut", "ref"):
            a += 1
        if a + 1 < b and t[a + 1].text == "@":
            self._bind(a, kind, scope)
            self._pattern(a + 2, b, kind, scope)
        elif self.pairs.get(b - 1, a - 1) >= a:
            self._parts(a, self.pairs[b - 1], kind, scope)
        elif a + 1 == b and t[a].kind == "word":
            self._bind(a, kind, scope)

    def _bind(self, i, kind, scope):
        text = self.tokens[i].text
        if text != "_" and not text[0].isupper() and text not in ("true", "false"):
            self.bound.append(Name(text, kind, i, *scope))

    def _parts(self, a, opening, kind, scope):
        """The parts of a tuple, of a slice, of a struct or of a variant."""
        held = self._held(a, opening, kind)
        for k, (first, last) in enumerate(self.source.parts(opening + 1, self.pairs[opening], ",")):
            name = self.tokens[first].text
            if self.tokens[opening].text == "{":
                colon = first + 1 if self.tokens[first + 1].text == ":" else first - 1
                self._pattern(colon + 1, last, held.get(name), scope)
            else:
                self._pattern(first, last, held.get(str(k)), scope)

    def _held(self, a, opening, kind):
        """The types of the parts, by name or by number."""
        name, before = self.tokens[opening - 1].text, self.tokens[opening - 3].text
        if a == opening:
            parts = arguments_of(kind) if kind and kind.startswith("(") else []
        elif name in WRAPS:
            parts = [wrapped(kind, name)]
        elif opening - a > 2 and name in self.declared.enums.get(before, {}):
            parts = self.declared.enums[before][name]
        else:
            parts = self.declared.structs.get(name, {})
        return parts if isinstance(parts, dict) else {str(k): part for k, part in enumerate(parts or [])}

    def in_scope(self, i):
        """The names in scope at a token, the last bound of each spelling."""
        found = {}
        for name in self.bound:
            if name.at < i < name.end:
                found[name.text] = name
        return found

    # -- types

    def type_of(self, a, b):
        """The type of an expression, or None."""
        t = self.tokens
        if b - 2 > a and t[b - 2].text == "as":
            return t[b - 1].text
        if t[a].text == "&" and t[b - 1].text == "]":
            return "& [ u8 ]" if t[a + 1].text != "mut" else "& mut [ u8 ]"
        if b == a + 1:
            return self._type_of_word(a)
        if t[b - 1].text == "?":
            return wrapped(self.type_of(a, b - 1), "Ok")
        dot = max((k for k in self.source.outside(a, b) if t[k].text == "."), default=a)
        if dot > a:
            return self._type_of_member(a, dot, b)
        if t[a + 1].text == "::" or t[a + 1].text in "({":
            return self._type_of_path(a, b)
        return None

    def _type_of_word(self, a):
        text = self.tokens[a].text
        if text in ("true", "false"):
            return "bool"
        name = self.in_scope(a).get(text)
        return name.type if name else self.declared.constants.get(text)

    def _type_of_path(self, a, b):
        """Of a call, of a variant, or of a struct written out, where that is the whole expression."""
        t = self.tokens
        if t[a + 1].text != "::":
            owner, at = self.source.crate, a
        else:
            owner, at = self.function.owner if t[a].text == "Self" else t[a].text, a + 2
        if owner in self.declared.enums:
            return owner
        if at + 1 < b and self.pairs.get(at + 1) != b - 1:
            return None
        if t[at].text in self.declared.structs:
            return t[at].text
        signature = self.declared.signature(owner, t[at].text)
        return signature and signature[1]

    def _type_of_member(self, a, dot, b):
        """Of a field, or of a method called."""
        name = self.tokens[dot + 1].text
        kind = lent(self.type_of(a, dot))
        if dot + 2 == b:
            return self.declared.plain(self.declared.structs.get(kind, {}).get(name))
        if self.pairs.get(dot + 2) != b - 1:
            return None
        if name == "len":
            return "usize"
        signature = self.declared.signature(kind, name)
        return signature and signature[1]


def lent(kind):
    """A type without `&` or `&mut`."""
    return kind and kind.lstrip("& ").removeprefix("mut ")


def wrapped(kind, variant):
    """What `Some`, `Ok` or `Err` holds, of a type `Option` or `Result`."""
    if not kind or not {"Option", "Result"} & set(kind.split("<")[0].split()):
        return None
    held = arguments_of(kind)
    return held[WRAPS[variant]] if WRAPS[variant] < len(held) else None
