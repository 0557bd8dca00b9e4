# SPDX-License-Identifier: MIT OR Apache-2.0
"""A file of Rust or of the proved source: its tokens and items, and edits of its text."""
import re
import sys
from bisect import bisect_left
from types import SimpleNamespace

TOKEN = re.compile(r"""\s+|//[^\n]*|(?P<text>b?r(\#*)".*?"\2|b?"(?:\\.|[^"\\])*"
    |b?'(?:\\(?:x..|u\{[^}]*\}|.)|[^\\'\n])')|(?P<token>'?\w+|::|->|=>|\S)""", re.S | re.X)
CLOSES = {"(": ")", "[": "]", "{": "}"}


class Source:
    """A text and its tokens: a place is a token's index. A string or character is the token `"`."""

    def __init__(self, path, text):
        self.path, self.text, self.tokens, self.spans, opened = path, text, [], [], []
        # each bracket's partner, the edits, the tokens that they replace, and where each token stands
        self.close, self.edits, self.gone, self.found = {}, [], set(), {}
        for found in TOKEN.finditer(text):
            token, at = '"' if found["text"] else found["token"], len(self.tokens)
            if not token:
                continue
            self.tokens.append(token)
            self.spans.append(found.span())
            self.found.setdefault(token, []).append(at)
            if token in CLOSES:
                opened.append(at)
            elif token in CLOSES.values():
                if not opened or CLOSES[self[opened[-1]]] != token:
                    self.stop(at, "a bracket that nothing opens")
                self.close[opened.pop()] = at
            elif "\n\n" in found[0] or token == "/" and text.startswith("/*", found.start()):
                self.stop(at, "a `/*` or a text with blank lines is not known here")
        if opened:
            self.stop(opened[-1], "a bracket that nothing closes")
        # what `ghost use` imports, the types, and the ghost members of an `impl` or `trait`
        self.meanings, self.types, self.members = {}, [], {}
        self.items, self.functions, self.ghosts = [], [], []
        self.parse(0, len(self.tokens))

    def __getitem__(self, at):
        return self.tokens[at] if 0 <= at < len(self.tokens) else ""

    def is_at(self, at, tokens):
        return self.tokens[at:at + len(tokens.split())] == tokens.split()

    def places(self, tokens):
        """Where tokens stand that no edit has replaced."""
        return [at for at in self.found.get(tokens.split()[0], ())
                if at not in self.gone and self.is_at(at, tokens)]

    def start(self, at):
        return self.spans[at][0]

    def end(self, at):
        return self.spans[at][1]

    def joined(self, first, past):
        return "".join(self.tokens[first:past])

    def slice(self, first, past):
        """The text of some tokens, in one line."""
        text = self.text[self.start(first):self.end(past - 1)] if first < past else ""
        return " ".join(re.sub(r"(--|//).*", "", text).split())

    def line(self, start):
        return self.text.count("\n", 0, start) + 1

    def stop(self, at, why):
        sys.exit(f"{self.path}:{self.line(self.start(min(at, len(self.tokens) - 1)))}: {why}")

    def past(self, at, stops, angles=False):
        """The first of the stops from a token on, outside brackets that open there."""
        first, depth = at, 0
        while depth > 0 or self[at] not in stops.split():
            depth += angles * ((self[at] == "<") - (self[at] == ">"))
            if self[at] in ("", *CLOSES.values()):
                self.stop(first, f"none of {stops} follows")
            at = self.close.get(at, at) + 1
        return at

    def list_of(self, opening, angles=False):
        """The elements between brackets, each from a token up to another."""
        first, close = opening + 1, self.close[opening]
        while first < close:
            past = self.past(first, ", " + self[close], angles)
            yield first, past
            first = past + 1

    def parse(self, at, end, owner="", trait="", is_shown=False):
        """The items of a file or module, or of an `impl` or `trait`."""
        while at < end:
            first = at
            while self[at] == "#":
                is_inner = self[at + 1] == "!"
                at = self.close.get(at + 1 + is_inner, at) + 1
                first = at if is_inner else first
            if at == end:
                break
            is_public = self[at] == "pub" and self[at + 1] != "("
            at += is_public
            at = self.close[at + 1] + 1 if self[at] == "pub" else at
            head, word, name = at, self[at], self[at + 1]
            if word == "ghost":
                at = self.ghost(at, owner or trait)
            elif (word in ("use", "static", "type") or (word, name) == ("extern", "crate")
                  or word == "const" and name != "fn"):
                at = self.past(at, ";")
            elif word in ("mod", "struct", "enum", "macro_rules"):
                at = self.past(at, "; {")
                self.types += [name] if word in ("struct", "enum") else []
                if word == "mod" and self[at] == "{":
                    self.parse(at + 1, self.close[at])
                elif word == "struct" and self[at] == "{":
                    self.ghosts += [(start, past - (self[past] != ","))
                                    for start, past in self.list_of(at, True) if self[start] == "ghost"]
                at = self.close.get(at, at)
            elif word in ("impl", "trait"):
                at = self.block(first, at, is_public)
            else:
                at = self.function(first, at, is_public or is_shown, owner, trait)
            at += 1
            self.items.append(SimpleNamespace(first=first, head=head, last=at - 1, word=word, name=name))

    def ghost(self, at, in_block):
        """A `ghost use`, or a ghost member of a block. Returns its last token."""
        last = self.past(at, ";")
        if self[at + 1] == "use":
            path, _, names = self.slice(at + 2, last).partition(".{")
            for name in names[:-1].split(", "):
                meaning, _, alias = (f"{path}.{name}" if names else path).partition(" as ")
                name = alias or meaning.rsplit(".", 1)[-1]
                if self.meanings.setdefault(name, meaning) != meaning:
                    self.stop(at, f"a second meaning of `{name}`")
        elif not in_block or self[at + 2] not in "=:" or self.close.get(at + 3, 0) + 1 != last:
            self.stop(at, "a ghost item that is not known here")
        self.ghosts.append((at, last))
        return last

    def meant(self, text, but=()):
        """A clause with the paths of the names that are imported."""
        return re.sub(r"(?<![\w.])[^\W\d]\w*", lambda word: word[0] if word[0] in but
                      else self.meanings.get(word[0], word[0]), text)

    def block(self, first, at, is_public):
        """An `impl` or a `trait`. Returns its last token."""
        name = at + 1 if self[at + 1] != "<" else self.past(at + 2, ">", True) + 1
        brace, before = self.past(name, "{ ;"), len(self.ghosts)
        head = self.slice(name, brace)
        while "<" in head and head != re.sub(r"<[^<>]*>", "", head):
            head = re.sub(r"<[^<>]*>", "", head)
        known = re.fullmatch(r"()(\w+)(: .*)?" if self[at] == "trait" else
                             r"(?:(?:\w+::)*(\w+) for )?(?:\w+::)*(\w+|\([\w, ]+\))", head)
        if self[brace] != "{" or not known or known[1] == "Drop":
            self.stop(at, f"an `{self[at]}` that is not known here")
        owner, trait = ("", known[2]) if self[at] == "trait" else (known[2], known[1] or "")
        if trait == "Model":
            at = brace + 1
            while self[at] == "ghost":
                at = self.past(at, ";") + 1
            if at < self.close[brace] or not self.places("use std :: marker :: Model ;"):
                self.stop(at, "a `Model` that is not known here")
            self.ghosts.append((first, self.close[brace]))
        else:
            self.parse(brace + 1, self.close[brace], owner, trait, is_public)
            self.members[owner, trait] = {self[at + 1]: self.meant(self.slice(at + 4, last - 1))
                                          for at, last in self.ghosts[before:]}
        return self.close[brace]

    def function(self, first, at, is_public, owner, trait):
        """A function with its clauses. Returns its last token."""
        fn = at + (self[at] == "const") + 2 * self.is_at(at, 'extern "')
        opening = fn + 2 if self[fn + 2] != "<" else self.past(fn + 3, ">", True) + 1
        if self[fn] != "fn" or self[opening] != "(":
            self.stop(at, "an item that is not known here")
        parameters, clauses = {}, []
        for start, past in self.list_of(opening, True):
            colon = next((at for at in range(start, past) if self[at] == ":"), past)
            kind = self.tokens[colon + 1:past] or self.tokens[start:past]
            parameters[self[colon - 1]] = "".join(token for token in kind if token[0] != "'")
        at = self.close[opening] + 1
        before = self.past(at, "requires ensures { ;")
        result, at = self.joined(at + 1, before), before
        while self[at] not in ("{", ";"):
            brace = self.past(at, "{ ;")
            label = [token for token in self.tokens[at + 1:brace] if token != "*"]
            if self[at] not in ("requires", "ensures") or self[brace] != "{" or len(label) > 1:
                self.stop(at, "a clause that is not known here")
            text = re.sub(r"\.(now|old|entry)\b", "", self.slice(brace + 1, self.close[brace]))
            clauses.append((self[at], "".join(label), text))
            at = self.close[brace] + 1
        # the trait that a type parameter has
        bounds = dict(re.findall(r"[<,](\w+):(\w+)", self.joined(fn + 2, opening)))
        self.functions.append(SimpleNamespace(
            source=self, first=first, fn=fn, name=self[fn + 1], owner=owner, trait=trait, opening=opening,
            bounds=bounds, parameters=parameters, result=result, clauses=clauses, before=before, body=at,
            is_public=is_public, inherits=trait and owner))
        return self.close.get(at, at)

    def replace(self, start, end, new):
        self.edits.append((start, end, new))
        self.gone.update(range(*(bisect_left(self.spans, (place, 0)) for place in (start, end))))

    def replace_tokens(self, first, past, new):
        self.replace(self.start(first), self.end(past - 1), new)

    def cut_lines(self, first, last, new="", comments=False):
        """Replaces the lines of tokens, and the comments right above."""
        text, start = self.text, self.text.rfind("\n", 0, self.start(first)) + 1
        end = text.find("\n", self.end(last)) + 1 or len(text)
        if text[start:self.start(first)].strip() or text[self.end(last):end].split("//")[0].strip():
            self.stop(first, "more stands on the lines of what goes")
        above = re.search(r"(^ *//(?!!).*\n)+\Z", text[:start], re.M) if comments else None
        self.replace(above.start() if above else start, end, new)

    def cut_elements(self, opening, is_cut):
        """Cuts elements of a list, each up to the next, or from the last that stays. Whether any."""
        elements, close = list(self.list_of(opening)), self.close[opening]
        cut = [element for element in elements if is_cut(self.joined(*element))]
        kept = [element for element in elements if element not in cut]
        for first, past in cut:
            if not kept:
                self.replace(self.end(opening), self.start(close), "")
            elif first < kept[-1][0]:
                self.replace(self.start(first), self.start(past + 1), "")
            else:
                self.replace(self.end(kept[-1][1] - 1), self.end(past - 1), "")
        return bool(cut)

    def erased(self):
        text, at = "", 0
        for start, end, new in sorted(self.edits):
            if start < at and new:
                sys.exit(f"{self.path}:{self.line(start)}: two edits at one place")
            text, at = text + self.text[at:max(at, start)] + new, max(at, end)
        return text + self.text[at:]
