"""Parses a clause into a tree, and writes the tree in words.

A tree is a tuple: ("name", path), ("number", digits), ("call", function, arguments), ("of", sign, left, right),
("each", name, body), ("some", name, body), or ("raw", text) where the reader gives up.
"""

import re

SIGNS = [["→", "↔"], ["×"], ["≡", "≢", "≤", "<", "∈"], ["++", "∷"], ["+", "-", "-ℤ", "+ℤ", "||", "&&"], ["*"], ["^"]]
FROM_THE_RIGHT = {"→", "↔", "×", "∷", "++", "^"}
TOKEN = re.compile(r"\s*(\+\+|-ℤ|\+ℤ|\|\||&&|[→↔×≡≢≤<∈∷+*^\-(){}\[\]=;,]|λ|[^\s→↔×≡≢≤<∈∷+*^(){}\[\]=;,λ]+)")
# What a contract writes behind a name, to say when: it is the same name in words.
MOMENTS = {"now", "old", "new", "entry", "items", "value"}
LIKE_ITS_ARGUMENT = {"facts_of", "pos"}


class Reader:
    def __init__(self, text):
        self.tokens = TOKEN.findall(text)
        self.at = 0

    def peek(self):
        return self.tokens[self.at] if self.at < len(self.tokens) else None

    def take(self):
        self.at += 1
        return self.tokens[self.at - 1]

    def of_level(self, level):
        if level == len(SIGNS):
            return self.call()
        left = self.of_level(level + 1)
        while self.peek() in SIGNS[level]:
            sign = self.take()
            right = self.of_level(level if sign in FROM_THE_RIGHT else level + 1)
            left = ("of", sign, left, right)
        return left

    def call(self):
        parts = [self.atom()]
        while self.peek() is not None and (self.peek() in "([{λ" or re.match(r"[\w_']", self.peek())):
            parts.append(self.atom())
        return parts[0] if len(parts) == 1 else ("call", parts[0], parts[1:])

    def atom(self):
        token = self.take()
        if token == "(":
            tree = self.of_level(0)
            if self.take() != ")":
                raise ValueError
            if (self.peek() or "").startswith("."):
                return ("name", code(tree) + self.take())
            return tree
        if token == "[" and self.peek() == "]":
            self.take()
            return ("name", "[]")
        if token == "λ":
            names = []
            while not self.peek().endswith("."):
                names.append(self.take())
            names.append(self.take().rstrip("."))
            return ("each", " ".join(names), self.of_level(0))
        if token.isdigit():
            return ("number", token)
        if re.fullmatch(r"[\w.'_⊤-]+", token) and token != "record":
            return ("name", token)
        raise ValueError


def read(text):
    some = re.fullmatch(r"\((\w+) : [^()]*\) × (.*)", text)
    if some:
        return ("some", some[1], read(some[2]))
    reader = Reader(text)
    try:
        tree = reader.of_level(0)
        if reader.peek() is None:
            return tree
    except (ValueError, IndexError, AttributeError):
        pass
    return ("raw", re.sub(r"\.(now|old|entry|items)\b", "", text))


def conjuncts(tree, keeps_ranges=False):
    """The statements of which this one is made."""
    if tree[:2] != ("of", "×") or (keeps_ranges and said_range(tree)):
        return [tree]
    return [part for side in tree[2:] for part in conjuncts(side, keeps_ranges)]


# The names of a run, of its queue of completions and of its queue of requests, which the types of blk_workers have.
OF_A_RUN = {"J": "run", "C": "completions", "L": "requests"}
# What a course of race_world has.
OF_A_COURSE = {"C.rules": "rules", "C.number_of": "number_of"}


def plain(path):
    """A name without the moments that a contract writes behind it."""
    parts = [part for k, part in enumerate(path.split(".")) if k == 0 or part not in MOMENTS]
    if len(parts) == 2 and parts[0][0].islower() and parts[1][0].isupper():
        return parts[1]  # a variant, by the name under which a file imports its enum
    if ".".join(parts) in OF_A_COURSE:
        return OF_A_COURSE[".".join(parts)]
    return ".".join([OF_A_RUN.get(parts[0], parts[0]) if len(parts) > 1 else parts[0], *parts[1:]])


def code(tree):
    """A term as code."""
    kind = tree[0]
    if kind == "name":
        return plain(tree[1])
    if kind == "call":
        return code_of_call(tree)
    if kind == "of":
        return f"{code(tree[2])} {tree[1].replace('ℤ', '').replace('≡', '==')} {code(tree[3])}".replace(" ^ ", "^")
    return tree[1] if kind != "each" else f"|{tree[1]}| {code(tree[2])}"


def code_of_call(tree):
    name, arguments = code(tree[1]), [code(argument) for argument in tree[2]]
    if re.fullmatch(r"[A-Z]\.\w+", name) and len(arguments) == 1:
        return f"{arguments[0]}{name[1:]}()"
    if name in LIKE_ITS_ARGUMENT and len(arguments) == 1:
        return arguments[0]
    if name in ("length", "vec_len") and len(arguments) == 1:
        return f"{arguments[0]}.len()"
    return f"{name}({', '.join(arguments)})"


# What a reader of the Rust understands in place of a definition that is of proofs alone, by its name or that of its first argument;
# {} is the last argument. A statement that says nothing there is None.
IN_RUST = {
    "hinders_pass": "the pass may take its step `{}` now: `PassStanding::refusal` has no reason against it",
    "hinders_control": "the control may take its step `{}` now: `ControlStanding::refusal` has no reason against it",
    "SitsAsPass": "`seat` was made for a pass",
    "SitsAsControl": "`seat` was made for a control",
    "IsAlwaysCallable": None,
}


def said_in_rust(tree):
    """A statement of IN_RUST: whether it is one, and its words."""
    if tree[0] != "call" or tree[1][0] != "name":
        return False, None
    name, arguments = tree[1][1].rpartition(".")[2], tree[2]
    if name == "IsEnabled" and arguments[0][0] == "call":
        name, arguments = code(arguments[0][1]), arguments[0][2]
    if name not in IN_RUST:
        return False, None
    return True, IN_RUST[name] and IN_RUST[name].format(code(arguments[-1]) if arguments else "")


def said(tree, meaning):
    """A statement in words, or None if it says nothing of Rust. `meaning` says what a definition means."""
    kind = tree[0]
    is_there, words = said_in_rust(tree)
    if is_there:
        return words
    if kind == "some":
        return f"for some `{tree[1]}` {said(tree[2], meaning)}"
    if kind == "of" and tree[1] == "×":
        return said_range(tree) or " and ".join(said(part, meaning) for part in tree[2:])
    if kind == "of" and tree[1] == "→":
        return f"if {said(tree[2], meaning)}, then {said(tree[3], meaning)}"
    if kind == "of" and tree[1] in ("≡", "≤", "<"):
        return said_relation(tree)
    if kind == "call" and tree[1] == ("name", "All") and tree[2][0][0] == "each":
        return f"for each `{tree[2][0][1]}` of `{code(tree[2][1])}` {said(tree[2][0][2], meaning)}"
    if kind == "call" and tree[1] in (("name", "IfSome"), ("name", "IfOk")) and tree[2][1][0] == "each":
        what = {"IfSome": "Some", "IfOk": "Ok"}[tree[1][1]]
        return f"if `{code(tree[2][0])}` is `{what}({tree[2][1][1]})`, then {said(tree[2][1][2], meaning)}"
    name = tree[1][1] if kind == "call" and tree[1][0] == "name" else tree[1] if kind == "name" else None
    told = meaning(name) if name else None
    return f"`{code(tree)}`: {told}" if told else f"`{code(tree)}`"


def said_range(tree):
    """`1 ≤ n × n ≤ 64`: from 1 to 64."""
    _, _, low, high = tree
    if low[:2] == high[:2] == ("of", "≤") and low[3] == high[2]:
        return f"`{code(low[3])}` is from {bare(low[2])} to {bare(high[3])}"
    return None


def bare(tree):
    return code(tree) if tree[0] == "number" else f"`{code(tree)}`"


def said_relation(tree):
    _, sign, left, right = tree
    if sign == "≡":
        owner, _, part = code(left).rpartition(".")
        if left[0] == "name" and part in ("gate", "queue") and owner and "." not in owner and owner != "run":
            return f"`{owner}` belongs to {bare(right)}"
        return f"{bare(left)} is {bare(right)}"
    if left[0] == "number":
        least = int(left[1]) + (sign == "<")
        return f"{bare(right)} is at least {least}"
    return f"{bare(left)} is {'at most' if sign == '≤' else 'less than'} {bare(right)}"
