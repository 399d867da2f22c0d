"""Tries the edits of one crate, many in one check, and reports for each what refused it."""

import sys
import time

from wrong_bodies_parts.files import CannotApply, Texts
from wrong_bodies_parts.functions import functions_of
from wrong_bodies_parts.reasons import Kind, reasons_in, telling


class Answer:
    def __init__(self, edit, passed, text):
        self.edit, self.passed, self.text = edit, passed, text


class Placed:
    """An edit with the functions that it stands in."""

    def __init__(self, edit, texts, functions):
        self.edit, self.functions, self.rows = edit, [], set()
        # Whether it may change what the proofs of other functions read, and whether it stands in no function.
        self.is_alone = self.is_anywhere = False
        for pair in edit.pairs:
            self.put(pair, texts.row(pair), functions)
            texts = texts.with_pair(pair)

    def put(self, pair, row, functions):
        inside = [it for it in functions if it.file == pair.file and it.has_row(row)]
        bodies = [it for it in inside if it.has_in_body(row) and not it.is_alone]
        self.rows.add((pair.file, row))
        self.functions += [it for it in inside if it not in self.functions]
        self.is_alone = self.is_alone or not bodies
        self.is_anywhere = self.is_anywhere or not inside

    def names(self):
        """What a check has to look at, or None for all of the crate."""
        names = {it.only for it in self.functions}
        return None if self.is_anywhere or "" in names else names

    def own(self, reasons):
        """The reasons that are this edit's: those of its functions, or any where it stands in none."""
        if self.is_anywhere:
            return reasons
        return [it for it in reasons if any(it.is_of(function) for function in self.functions)]

    def is_unread(self, reasons):
        spans = [(it.file, it.first, it.last) for it in self.functions]
        spans += [(file, row, row) for file, row in self.rows]
        unread = [it for it in reasons if it.kind is Kind.UNREAD]
        return any(it.file == file and first <= it.row <= last for it in unread for file, first, last in spans)


def names_of(placed):
    """What a check of these edits has to look at: nothing named is all of the crate."""
    names = [it.names() for it in placed]
    return set() if None in names else set().union(*names)


def shown(reason):
    return reason.line.removeprefix("note: ").removeprefix("./")[:200]


class Trial:
    def __init__(self, prover, edits, jobs, alone):
        self.prover, self.edits, self.jobs = prover, edits, jobs
        self.texts, self.alone = Texts(prover.crate.folder), alone
        self.answers, self.unread, self.checks = {}, [], 0

    def check(self, edited, placed):
        """Checks the crate with these edits, as far as those that were placed ask for it."""
        self.checks += 1
        began = time.monotonic()
        ran = self.prover.check(self.made(edited), names_of(placed), self.jobs())
        name, what = self.prover.crate.name, ", ".join(it.edit.name for it in edited) or "no edit"
        print(f"{name}, {time.monotonic() - began:.0f} s: {what}", file=sys.stderr, flush=True)
        return ran

    def answer(self, placed, passed, text):
        self.answers[placed.edit] = Answer(placed.edit, passed, text)

    def run(self, is_known_proved=False):
        """An answer for each edit, in their order. That the crate is proved without edits may be known."""
        functions, ready = functions_of(self.prover.crate.folder), []
        for edit in self.edits:
            try:
                self.texts.with_edit(edit)
                ready.append(Placed(edit, self.texts, functions))
            except CannotApply as why:
                self.answers[edit] = Answer(edit, False, f"can't be applied: {why}")
        if ready and (is_known_proved or self.is_proved(ready)):
            self.try_all(ready)
        return [self.answers[it] for it in self.edits]

    def is_proved(self, ready):
        """Whether the crate is proved without edits: else no refusal says anything."""
        ran = self.check([], ready)
        if not ran.is_proved:
            first = next((shown(it) for it in reasons_in(ran.said)), ran.said[-300:])
            for it in ready:
                self.answer(it, False, f"not tried, since the crate itself is not proved: {first}")
        return ran.is_proved

    def try_all(self, ready):
        """First all in as few checks as can tell them apart, then again those that weren't shown to be refused: what
        they call may have been edited too. What is still in doubt is tried by itself."""
        # Of two that are in doubt, a check of both would seldom spare one.
        for few in () if self.alone else (1, 2):
            if len(ready) > few:
                ready = [it for batch in self.batches(ready) for it in self.try_batch(batch)]
        for it in [*ready, *self.unread]:
            self.try_batch([it])

    def batches(self, ready):
        """Edits for one check each: no two of them in one function, and none that may change what another's proof reads."""
        batches = []
        for it in ready:
            for batch in batches:
                if not it.is_alone and self.fits(it, batch):
                    batch.append(it)
                    break
            else:
                batches.append([it])
        return batches

    def fits(self, placed, batch):
        if any(it.is_alone or {*it.functions} & {*placed.functions} for it in batch):
            return False
        try:
            self.made([*batch, placed])
        except CannotApply:
            return False
        return True

    def made(self, batch):
        texts = self.texts
        for it in batch:
            texts = texts.with_edit(it.edit)
        return texts

    def try_batch(self, batch):
        """Tries edits in one check, and returns those that it leaves in doubt."""
        ran = self.check(batch, batch)
        reasons = reasons_in(ran.said)
        if len(batch) == 1:
            self.judge(batch[0], ran, reasons)
            return []
        if not ran.is_read:
            return self.try_without_unread(batch, reasons)
        doubtful = []
        for it in batch:
            told = telling(it.own(reasons))
            if told:
                self.answer(it, True, f"refused: {shown(told)}")
            else:
                doubtful.append(it)
        return doubtful

    def try_without_unread(self, batch, reasons):
        """Leaves out the edits at which the front end stopped, or half of a batch where its errors tell none."""
        unread = [it for it in batch if it.is_unread(reasons)]
        half = [] if unread else batch[len(batch) // 2 :]
        self.unread += unread
        rest = [it for it in batch if it not in unread and it not in half]
        return [*half, *(self.try_batch(rest) if len(rest) > 1 else rest)]

    def judge(self, placed, ran, reasons):
        """The answer to an edit that was tried by itself."""
        own = placed.own(reasons)
        told = telling(own) if ran.is_read else None
        if ran.is_proved:
            self.answer(placed, False, "NOT REFUSED: the crate is still proved with this edit")
        elif told:
            self.answer(placed, True, f"refused: {shown(told)}")
        elif own or reasons:
            first = (own or reasons)[0]
            self.answer(placed, False, f"refused for no contract ({first.kind.value}): {shown(first)}")
        else:
            self.answer(placed, False, f"not judged: {ran.said[-300:]}")
