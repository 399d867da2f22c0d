"""A source file as tokens, which rules remove and, in a few places, write."""

import re

TOKEN = re.compile(
    r"""
    (?P<space>\s+)
  | (?P<comment>//[^\n]*|/\*(?s:.*?)\*/)
  | (?P<text>b?r(?P<hashes>\#*)"(?s:.*?)"(?P=hashes)|b?"(?:\\(?s:.)|[^"\\])*")
  | (?P<char>b?'(?:\\(?:x[0-9a-fA-F]{2}|u\{[^}]*\}|.)|[^'\\])')
  | (?P<lifetime>'[A-Za-z_]\w*)
  | (?P<number>\d\w*(?:\.\d\w*)?)
  | (?P<word>[A-Za-z_]\w*)
  | (?P<sign>(?s:.))
""",
    re.X,
)
CLOSING = {"(": ")", "[": "]", "{": "}"}
BEFORE_AN_ITEM = {"pub", "const", "unsafe"}


class CannotErase(Exception):
    """What no rule covers, with its file and line."""


class Source:
    """The tokens of a file. `text[i]` is what token `i` says, `live[i]` whether it is still there."""

    def __init__(self, crate, name, text):
        self.crate, self.name = crate, name
        self.kind, self.text, self.line = [], [], []
        line = 1
        for match in TOKEN.finditer(text):
            self.kind.append("text" if match.lastgroup == "hashes" else match.lastgroup)
            self.text.append(match.group())
            self.line.append(line)
            line += match.group().count("\n")
        self.live = [True] * len(self.text)
        self.original = list(self.text)
        self.places = {}  # where each word stands
        for i, text in enumerate(self.text):
            if self.kind[i] == "word":
                self.places.setdefault(text, []).append(i)
        self.partner = {}
        self._pair_brackets()
        self.ahead, self.behind = {}, {}  # what the rules put before and behind a token
        self.imports = set()  # what the rules need
        self.written = []  # the rules that wrote something, each with the line and the words

    def _pair_brackets(self):
        opened = []
        for i, (kind, text) in enumerate(zip(self.kind, self.text)):
            if kind != "sign":
                continue
            if text in CLOSING:
                opened.append(i)
            elif text in ")]}":
                if not opened or CLOSING[self.text[opened[-1]]] != text:
                    raise self.fault(i, "the brackets don't match")
                self.partner[i] = opened.pop()
                self.partner[self.partner[i]] = i
        if opened:
            raise self.fault(opened[-1], "the bracket isn't closed")

    def fault(self, i, why):
        return CannotErase(f"crates/{self.crate}/src/{self.name}.rt:{self.line[i]}: {why}")

    def __len__(self):
        return len(self.text)

    # Reading.

    def counts(self, i):
        """Whether token `i` is there and is code."""
        return self.live[i] and self.kind[i] not in ("space", "comment")

    def after(self, i):
        """The next token of code, or None."""
        for k in range(i + 1, len(self.text)):
            if self.counts(k):
                return k
        return None

    def before(self, i):
        """The token of code before, or None."""
        for k in range(i - 1, -1, -1):
            if self.counts(k):
                return k
        return None

    def at(self, i, text):
        """Whether token `i` is this word or sign."""
        return i is not None and self.text[i] == text and self.kind[i] in ("sign", "word") and self.live[i]

    def is_word(self, i):
        return i is not None and self.kind[i] == "word" and self.live[i]

    def words(self, text):
        """Each place of a word."""
        return [i for i in self.places.get(text, ()) if self.live[i] and self.text[i] == text]

    def code(self, first, last):
        """The code from one token to another, without comments, and with a space behind a lifetime alone."""
        code = (self.text[i] + " " * (self.kind[i] == "lifetime") for i in range(first, last + 1) if self.counts(i))
        return "".join(code)

    def live_words(self, first, last):
        return [self.text[i] for i in range(first, last + 1) if self.live[i] and self.kind[i] == "word"]

    def opens(self, i):
        return self.kind[i] == "sign" and self.live[i] and self.text[i] in CLOSING

    def angle(self, i):
        """The `>` that closes the `<` at `i`, or None where it is a comparison."""
        depth = 0
        while i is not None and i < len(self.text):
            text = self.text[i]
            if self.kind[i] == "sign" and self.live[i]:
                if text in CLOSING:
                    i = self.partner[i]
                elif text in ";{})]":
                    return None
                elif text == "<":
                    depth += 1
                elif text == ">" and self.text[i - 1] not in "-=":
                    depth -= 1
                    if depth == 0:
                        return i
            i += 1
        return None

    def name_before_angle(self, end):
        """The name whose parameters the `>` at `end` closes, or None."""
        k = end
        while not (self.at(k, "<") and self.angle(k) == end):
            k = self.before(k)
            if k is None or self.text[k] in ";{}=":
                return None
        k = self.before(k)
        while self.at(k, ":"):
            k = self.before(k)
        return k

    def is_generic(self, i):
        """Whether the `<` at `i` opens parameters: behind `::`, `impl`, `fn name`, or the name of a type."""
        p = self.before(i)
        if p is None:
            return False
        if self.text[p] == ":":
            return self.at(self.before(p), ":")
        if self.kind[p] != "word":
            return False
        return self.text[p][0].isupper() or self.text[p] in ("impl", "for") or self.at(self.before(p), "fn")

    def parts(self, opening, closing):
        """What stands between commas in these brackets: (first, last, comma or None) for each."""
        found, first, i = [], None, opening + 1
        while i < closing:
            if self.counts(i):
                first = i if first is None else first
                if self.opens(i):
                    i = self.partner[i]
                elif self.at(i, "<") and self.is_generic(i) and (end := self.angle(i)) and end < closing:
                    i = end
                elif self.at(i, "|") and (end := self.closure(first, i)) is not None:
                    i = end
                elif self.at(i, ","):
                    found.append((first, i - 1, i))
                    first = None
            i += 1
        if first is not None:
            found.append((first, closing - 1, None))
        return found

    def closure(self, first, i):
        """The `|` that ends the parameters of a closure which begins at `i`, the first token of a part but for `move`."""
        if i != first and not (self.at(first, "move") and self.after(first) == i):
            return None
        k = i + 1
        while k < len(self.text) and not self.at(k, "|"):
            k = self.partner[k] + 1 if self.opens(k) else k + 1
        return k

    # Cutting and writing.

    def cut(self, first, last):
        for i in range(first, last + 1):
            self.live[i] = False

    def cut_lines(self, first, last):
        """Cuts, with the line's end behind, so that no empty line is left between the neighbours."""
        self.cut(first, last)
        n = last + 1
        if n < len(self.text) and self.kind[n] == "space" and self.live[n] and "\n" in self.text[n]:
            self.text[n] = self.text[n][self.text[n].index("\n") + 1 :]

    def cut_part(self, part, parts):
        """Cuts what stands between two commas, with one of them."""
        first, last, comma = part
        if comma is not None:
            self.cut_lines(first, comma)
            return
        self.cut_lines(first, last)
        i = parts.index(part)
        if i > 0 and parts[i - 1][2] is not None and self.live[parts[i - 1][2]]:
            self.cut(parts[i - 1][2], parts[i - 1][2])

    def write(self, i, text, rule):
        """Puts a text in a token's place."""
        self.written.append((rule, self.line[i], self.text[i], text))
        self.text[i], self.live[i] = text, True

    def add(self, i, text, rule, name=""):
        """Puts a text behind a token."""
        self.written.append((rule, self.line[i], name, " ".join(text.split())))
        self.behind[i] = self.behind.get(i, "") + text

    def render(self):
        ahead, behind = self.ahead, self.behind
        return "".join(
            ahead.get(i, "") + text + behind.get(i, "") for i, (text, live) in enumerate(zip(self.text, self.live)) if live
        )
