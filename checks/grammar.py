"""A second reader of texts, written from docs/module-text.md: the grammar and the lists of words are read out of that page.

`told` gives what the program has to say of a text: `lex P`, `grammar P`, `unsupported P WORD`, or None where the text is a
module's. It holds every way in which the tokens so far can be a module's at once, so it needs no rule for choosing one.
"""

import os
import re

PAGE = os.path.join(os.path.dirname(os.path.abspath(__file__)), "..", "docs", "module-text.md")
DEEPEST = 64
RUN = rb'(?!c")[A-Za-z0-9$._-]+'
QUOTED = rb'"[\x20\x21\x23-\x5b\x5d-\x7e]+"'
NAME = rb'(?:(?!c")(?:[0-9]+(?![A-Za-z0-9$._-])|(?![0-9])[A-Za-z0-9$._-]+)|' + QUOTED + rb")"
PIECES = re.compile(
    rb"(?P<gap>[ \t\r\n]|;[^\n]*)|(?P<Label>(?:" + RUN + rb"|" + QUOTED + rb"):)"
    rb'|(?P<CStr>c"(?:[^"\\]|\\\\|\\[0-9A-Fa-f]{2})*")|(?P<Run>' + RUN + rb")|(?P<Global>@" + NAME + rb")|(?P<Local>%" + NAME + rb")"
    rb"|(?P<Meta>!(?:" + RUN + rb")?)|(?P<Hash>#" + RUN + rb')|(?P<Str>"[^"\x00-\x1f]*")|(?P<Mark>[=,()\[\]{}<>*|+:])',
    re.S,
)
NUMBER = re.compile(rb"-?[0-9]{1,38}\Z")


def sorts(kind, text):
    """The terminals of the grammar that a token is."""
    if kind == "Mark":
        return {text, *(() if text in "()[]{}" else ("Any",))}
    if kind == "Run":
        number = NUMBER.match(text.encode())
        if not number:
            return {text, "Any"}
        return {"Int", "Any", *(("Count",) if text[0] != "-" and int(text) < 2**32 or int(text) == 0 else ())}
    name = text[2:-1] if text[1:2] == '"' else text[1:]
    if kind == "Global":
        return {kind, "Debug" if name.startswith("llvm.dbg.") else "Plain", "Any"}
    if kind == "Meta":
        return {kind, "Number" if name.isdigit() else "Other", "Any"}
    if kind == "Hash":
        return {kind, "Record" if name.startswith("dbg_") else "Note", "Any"}
    return {kind, "Any"}


def tokens(text):
    """The tokens with their places, and the place where the text stops being tokens, or None."""
    found, at = [], 0
    while at < len(text):
        piece = PIECES.match(text, at)
        if piece is None:
            return found, at
        if piece.lastgroup != "gap":
            found.append((at, piece.lastgroup, piece.group().decode("latin-1")))
        at = piece.end()
    return found, None


class Notation:
    """The rules of the page: `("all", parts)`, `("one", ways)`, `("some", part)`, `("maybe", part)`, or a name or terminal."""

    def __init__(self):
        with open(PAGE, encoding="utf-8") as file:
            blocks = re.findall(r"```\n(.*?)```", file.read(), re.S)
        self.unsupported = set(blocks[1].split())
        self.rules, self.classes = {}, {}
        for line in re.sub(r"\n +", " ", blocks[0]).splitlines():
            name, rule = line.split(" = ", 1)
            if name.isupper():
                self.classes[name] = set(rule.split())
            else:
                self.words = re.findall(r'"[^"]*"|[\w]+|[][{}()|]', rule)
                self.rules[name] = self.ways()
        self.rules = {name: self.named(rule) for name, rule in self.rules.items()}

    def ways(self):
        found = [self.row()]
        while self.words and self.words[0] == "|":
            self.words.pop(0)
            found.append(self.row())
        return found[0] if len(found) == 1 else ("one", tuple(found))

    def row(self):
        parts = []
        while self.words and self.words[0] not in ("|", "}", "]", ")"):
            word = self.words.pop(0)
            if word in ("{", "[", "("):
                inner = self.ways()
                self.words.pop(0)
                parts.append({"{": ("some", inner), "[": ("maybe", inner), "(": inner}[word])
            else:
                parts.append(word)
        return parts[0] if len(parts) == 1 else ("all", tuple(parts))

    def named(self, rule):
        """The rule with terminals as sets of their own: what a token has to be one of."""
        if isinstance(rule, str):
            if rule.startswith('"'):
                return ("token", frozenset([rule[1:-1]]))
            if rule in self.classes:
                return ("token", frozenset(self.classes[rule]))
            return ("rule", rule) if rule in self.rules else ("token", frozenset([rule]))
        kind, parts = rule
        return (kind, self.named(parts)) if kind in ("some", "maybe") else (kind, tuple(self.named(part) for part in parts))


# How much deeper a part of a rule stands.
DEEPER = {("type", "type"): 1, ("type", "struct"): 0, ("struct", "type"): 1, ("init", "elems"): 1, ("elems", "init"): 0}


class Reader:
    """What may come next: links of a part, the rule it stands in, its depth and the link behind it; the same links are one."""

    def __init__(self):
        self.notation = Notation()
        self.links, self.closures, self.whole = {}, {}, object()
        self.start = [self.link(("rule", "module"), "", 0, self.whole)]

    def link(self, part, rule, depth, behind):
        key = (id(part) if part[0] != "rule" else part, rule, depth, id(behind))
        if key not in self.links:
            self.links[key] = (part, rule, depth, behind)
        return self.links[key]

    def expand(self, state):
        """The links of the state whose parts are tokens, and whether the text may end."""
        opened = [self.closure(link) for link in state]
        return [link for ready, _ in opened for link in ready], any(ends for _, ends in opened)

    def closure(self, link):
        """The same of one link, looked up where it was asked before."""
        if id(link) not in self.closures:
            self.closures[id(link)] = self.open(link)
        return self.closures[id(link)]

    def open(self, start):
        ready, left, seen, ends = [], [start], set(), False
        while left:
            link = left.pop()
            if link is self.whole:
                ends = True
                continue
            if id(link) in seen:
                continue
            seen.add(id(link))
            part, rule, depth, behind = link
            kind = part[0]
            if kind == "token":
                # A bracket of a type or an initialiser stands at most so deep.
                if not (depth >= DEEPEST and rule in ("type", "struct", "init") and part[1] & {"[", "{", "<"}):
                    ready.append(link)
            elif kind == "all":
                for one in reversed(part[1]):
                    behind = self.link(one, rule, depth, behind)
                left.append(behind)
            elif kind == "one":
                left += [self.link(way, rule, depth, behind) for way in part[1]]
            elif kind == "maybe":
                left += [behind, self.link(part[1], rule, depth, behind)]
            elif kind == "some":
                left += [behind, self.link(part[1], rule, depth, link)]
            else:
                inner = depth + DEEPER[rule, part[1]] if (rule, part[1]) in DEEPER else 0
                left.append(self.link(self.notation.rules[part[1]], part[1], inner, behind))
        return ready, ends

    def told(self, text):
        found, stop = tokens(text)
        if stop is not None:
            return f"lex {stop}"
        state = self.start
        for place, kind, spelled in found:
            is_one_of = sorts(kind, spelled)
            ready, _ = self.expand(state)
            state = [behind for part, _, _, behind in ready if part[1] & is_one_of]
            if not state:
                if kind == "Run" and spelled in self.notation.unsupported:
                    return f"unsupported {place} {spelled}"
                return f"grammar {place}"
        return None if self.expand(state)[1] else f"grammar {len(text)}"
