"""Removes type parameters that only name something to the prover, and the handle of the runtime.

These are the parameters whose bounds are all traits of the prover or of the handle, and every parameter that is passed to, or comes
from, such a parameter. They are found over all crates, by joining the places between which a parameter is passed on.
"""

from erasing import kit
from erasing.shape import functions, impls, leaves, type_parameters, types, uses

WITH_ANY = {"Send", "Sync", "Copy", "Clone"}  # bounds that such a parameter may have besides


class Joined:
    """Places, of which some are joined; a set of joined places is ghost if one of them is."""

    def __init__(self):
        self.above, self.ghosts = {}, set()

    def top(self, place):
        while self.above.get(place, place) != place:
            place = self.above[place]
        return place

    def join(self, a, b):
        a, b = self.top(a), self.top(b)
        if a != b:
            self.above[a] = b
            if a in self.ghosts:
                self.ghosts.add(b)

    def mark(self, place):
        self.ghosts.add(self.top(place))

    def is_ghost(self, place):
        return self.top(place) in self.ghosts


class Scope:
    """An item with type parameters: where it stands, and a place for each."""

    def __init__(self, s, first, end, opening):
        self.first, self.end, self.opening = first, end, opening
        self.parameters, self.parts = type_parameters(s, opening)
        self.places = {name: (id(s), first, name) for name, _, _ in self.parameters}


class Parameters:
    """All type parameters of the sources, and which of them are ghosts."""

    def __init__(self, sources, empty_traits):
        self.sources, self.joined = sources, Joined()
        self.ghost_traits = kit.GHOST_TRAITS | kit.HANDLE_TRAITS | {kit.ALLOCATOR_TRAIT} | empty_traits
        self.origin = {id(s): origins(s) for s in sources}
        self.types, self.functions, self.scopes = {}, {}, {}
        for s in sources:
            self.scopes[id(s)] = list(self._scopes_of(s))
        for name, places in kit.RULE_PARAMETERS.items():
            for k in places:
                self.joined.mark(("type", "kit", name, k))
        for name, places in kit.CELL_PARAMETERS.items():
            for k in places:
                self.joined.mark(("type", "cells", name, k))
        for s in sources:
            for mention in self.mentions(s):
                self._join(s, mention)

    def _scopes_of(self, s):
        """The items of a file that have type parameters; what their bounds say is noted."""
        found = []
        for it in types(s, ("struct", "enum", "trait", "type")):
            self.types.setdefault(it.name, set()).add(s.crate)
            if it.generics:
                found.append((Scope(s, it.keyword, it.end, it.generics), ("type", s.crate, it.name)))
        for it in impls(s):
            if it.generics:
                found.append((Scope(s, it.keyword, it.end, it.generics), None))
        for fn in functions(s):
            if fn.generics:
                scope = Scope(s, fn.keyword, fn.end, fn.generics)
                count = len(scope.parameters)
                self.functions.setdefault((fn.name, count), []).append(s.crate)
                found.append((scope, ("fn", fn.name, count)))
        for scope, outside in found:
            for k, (name, bounds, _) in enumerate(scope.parameters):
                self.joined.above.setdefault(scope.places[name], scope.places[name])
                if set(bounds) & self.ghost_traits and set(bounds) <= self.ghost_traits | WITH_ANY:
                    self.joined.mark(scope.places[name])
                if outside:
                    self.joined.join(scope.places[name], (*outside, k))
            yield scope

    def type_of(self, s, name):
        """The place of a type that a file names: of its own crate, of the one it imports it from, or of the kit."""
        crate, name = self.origin[id(s)].get(name, (None, name))
        if crate in kit.KIT_CRATES or name == "Box":
            return ("type", "cells" if s.crate in kit.TABLES and crate == "atomic_table" else "kit", name)
        crates = self.types.get(name, ())
        for it in (crate, s.crate):
            if it in crates:
                return ("type", it, name)
        return ("type", min(crates), name) if len(crates) == 1 else None

    def mentions(self, s):
        """Each list of type arguments: its `<`, its parts but for lifetimes, all parts, and the place of the first."""
        openings = {scope.opening for scope in self.scopes[id(s)]}
        for i in range(len(s)):
            if not s.at(i, "<") or i in openings or not s.is_generic(i) or (end := s.angle(i)) is None:
                continue
            parts = s.parts(i, end)
            mine = [part for part in parts if s.kind[part[0]] != "lifetime"]
            p = s.before(i)
            while s.at(p, ":"):
                p = s.before(p)
            name = s.text[p]
            if name[0].isupper():
                place = self.type_of(s, name)
            elif (name, len(mine)) in self.functions:
                place = ("fn", name, len(mine))
            else:
                continue
            if place:
                yield i, mine, parts, place

    def place_of(self, s, i):
        """The place of the parameter that token `i` names, or None."""
        inside = [c for c in self.scopes[id(s)] if c.first <= i <= c.end and s.text[i] in c.places]
        return max(inside, key=lambda c: c.first).places[s.text[i]] if inside else None

    def _join(self, s, mention):
        _, mine, _, place = mention
        for k, part in enumerate(mine):
            words = [i for i in range(part[0], part[1] + 1) if s.counts(i)]
            if len(words) == 1 and s.is_word(words[0]) and (mine_too := self.place_of(s, words[0])):
                self.joined.join(mine_too, (*place, k))

    def is_ghost(self, s, i):
        """Whether the word at `i` is a ghost parameter."""
        place = self.place_of(s, i)
        return place is not None and self.joined.is_ghost(place)

    def is_inferred(self, s, part):
        """Whether a type argument is `_`, or a parameter in scope alone: the values that are handed on have it too."""
        words = [i for i in range(part[0], part[1] + 1) if s.counts(i)]
        return len(words) == 1 and (s.at(words[0], "_") or self.place_of(s, words[0]) is not None)

    def ghost_names(self, s, i):
        """The ghost parameters in scope at `i`."""
        inside = [c for c in self.scopes[id(s)] if c.first <= i <= c.end]
        return {name for c in inside for name, place in c.places.items() if self.joined.is_ghost(place)}

    def cut(self, s):
        """Cuts the ghost parameters of a file, and what is handed to them."""
        found = list(self.mentions(s))
        for i, mine, parts, place in found:
            ghosts = [part for k, part in enumerate(mine) if self.joined.is_ghost((*place, k))]
            if s.at(s.before(i), ":") and all(part in ghosts or self.is_inferred(s, part) for part in parts):
                # A call of Rust names none of the rest.
                ghosts = ghosts and parts
            cut_parts(s, i, ghosts, parts)
        for scope in self.scopes[id(s)]:
            ghosts = [part for name, _, part in scope.parameters if self.joined.is_ghost(scope.places[name])]
            cut_parts(s, scope.opening, ghosts, scope.parts)


def cut_parts(s, opening, ghosts, parts):
    """Cuts these parts of what stands in angle brackets; the brackets too, and the `::` before them, if nothing is left."""
    if not ghosts or not s.live[opening]:
        return
    if len(ghosts) < len(parts):
        for part in ghosts:
            s.cut_part(part, parts)
        return
    end = s.angle(opening)
    p = s.before(opening)
    first = s.before(p) if s.at(p, ":") else opening
    s.cut(first, end)


def origins(s):
    """The crate from which a file imports each name, and the name there."""
    return {alias or path[-1]: (path[0], path[-1]) for i, end in uses(s) for path, alias in leaves(s, i, end)}


def name_ordered_steps(s):
    """`shared.store::<SaysBusy>(..)` is `shared.store_relaxed(..)`: the step says its order."""
    for rule, step in kit.ORDERED_STEPS.items():
        for i in s.words(rule):
            p = s.before(i)
            if s.crate in kit.TABLES and s.at(p, "<") and s.at(s.before(p), ":"):
                s.write(s.before(s.before(s.before(p))), step, "a step with an order")


def cut_rule_arguments(s, found, ghosts):
    """`shared.fetch_or::<SetsDead>(..)`: the rule's event goes, and a ghost parameter beside it."""
    for i in range(len(s)):
        if s.at(i, "<") and s.at(s.before(i), ":") and (end := s.angle(i)):
            parts = s.parts(i, end)
            cut_parts(s, i, [part for part in parts if s.code(*part[:2]) in ghosts | found.ghost_names(s, i)], parts)
