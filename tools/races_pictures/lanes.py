"""Draws a schedule as lanes, one for each actor, with its steps and their replies. Shading shows what an actor holds and owes. Next to
the lanes are the words of the gate, with their values between the steps. The release is marked."""

import re

from machines.gate import BIAS
from races_pictures.states import bias_told
from races_pictures.svg import Page, width_of

SIZE, SMALL = 13, 12
ROW, BOX = 44, 26
TOP, EDGE, GAP, INNER = 64, 16, 10, 12


class Column:
    """A lane, or a word with all that it holds in turn, from x on."""

    def __init__(self, name, x, wide, held=()):
        self.name, self.x, self.wide, self.held = name, x, wide, held
        self.middle, self.end = x + wide / 2, x + wide


def with_bias(text):
    """A reply or an end with the bias of the shared word by its name."""
    found = re.match(r"(end )?(zero|dead|live) ([0-9]{15,})\b", text)
    return text[: found.start(3)] + bias_told(int(found[3]) - BIAS) + text[found.end() :] if found else text


def reply_of(row):
    """A reply as its box shows it; the shared word's is told with the bias by its name."""
    return row.reply.split(" ", 2)[2] if row.is_stuck else with_bias(row.reply)


def name_of(actor):
    return "control" if actor == "c" else f"pass {actor}"


class Lanes:
    def __init__(self, title, name, schedule):
        self.title, self.name, self.schedule = title, name, schedule
        self.moments = [schedule.start] + [row.moment for row in schedule.rows]
        self.page = Page(title, self.told())
        self.place()

    def told(self):
        """The picture in words."""
        who = {"c": "the control"}
        steps = [f"{who.get(row.step.actor, name_of(row.step.actor))}: {row.step.text}, {row.reply}" for row in self.schedule.rows]
        return f"{'; '.join(steps)}; {self.schedule.end}"

    def place(self):
        """The columns, each as wide as the longest of its texts."""
        x = EDGE
        self.lanes, self.words = {}, {}
        for actor in self.schedule.actors:
            self.lanes[actor] = Column(name_of(actor), x, self.wide_of(actor) + 2 * INNER)
            x = self.lanes[actor].end + GAP
        x += GAP
        for held in self.shown_words():
            wide = max(width_of(text, SMALL) for text in [*self.texts_of(held), held[0].name]) + 14
            self.words[held[0].kind, held[0].at] = column = Column(held[0].name, x, wide, held)
            x = column.end + GAP
        head, end = width_of(self.title, 15) + 14 + width_of(self.name, SMALL), width_of(with_bias(self.schedule.end), SIZE)
        self.wide = max(x - GAP, EDGE + head, EDGE + end) + EDGE

    def wide_of(self, actor):
        """How wide the longest text of a lane is."""
        steps = [f"{row.step.text}   {reply_of(row)}" for row in self.schedule.rows if self.lane_of(row.step) == actor]
        small = [moment.standing(actor).told for moment in self.moments]
        return max([width_of(text, SIZE) for text in steps] + [width_of(text, SMALL) for text in small] + [90])

    def lane_of(self, step):
        """The lane of a step's actor; where there is no such actor, the control's."""
        return step.actor if step.actor in self.schedule.actors else "c"

    def shown_words(self):
        """The words that the picture has, each with all that it holds in turn. Where there is nothing to be seen in any word of a kind,
        as in slots that were never open, these are left out."""
        words = list(zip(*(moment.words for moment in self.moments)))
        seen = {word.kind for held in words for word in held if not word.is_idle}
        return [held for held in words if held[0].kind in seen]

    def texts_of(self, held):
        """The texts of a word, with room for its marks in front if it has any."""
        room = " " * (max(len(" ".join(word.marks)) for word in held) + 3) if held[0].kind == "shared" else ""
        return [room + word.text for word in held]

    def y_of(self, row):
        """The middle of a step's row; the gate stands between -1 and 0 as it starts."""
        return TOP + ROW * (row + 1)

    def drawn(self):
        last = self.y_of(len(self.schedule.rows)) + 6
        self.draw_heads(last)
        for actor in self.lanes:
            self.draw_shades(actor)
        for column in self.words.values():
            self.draw_word(column, last)
        for index, row in enumerate(self.schedule.rows):
            self.draw_step(index, row)
        for actor in self.lanes:
            self.draw_standing(actor)
        self.page.text(EDGE, last + 14, with_bias(self.schedule.end), "ink", SIZE, bold=True)
        self.draw_legend(last + 34)
        return self.page.made(self.wide, last + 58)

    def draw_heads(self, last):
        self.page.text(EDGE, 24, self.title, "ink", 15, bold=True)
        self.page.text(EDGE + width_of(self.title, 15) + 14, 24, self.name, "dim", SMALL)
        for column in self.lanes.values():
            self.page.box(column.x, TOP - 22, column.wide, last - TOP + 8, "panel", round_by=6)
            self.page.text(column.middle, TOP - 6, column.name, "ink", SIZE, "middle", True)
        for column in self.words.values():
            self.page.text(column.middle, TOP - 6, column.name, "dim", SMALL, "middle")

    def draw_shades(self, actor):
        """What an actor holds and owes, from the step that changes it to the next that does."""
        column, parts, since = self.lanes[actor], [moment.standing(actor) for moment in self.moments], 0
        for index in range(1, len(parts) + 1):
            if index < len(parts) and parts[index] == parts[since]:
                continue
            above = self.y_of(since - 1) if since else TOP
            below = self.y_of(index - 1) if index < len(parts) else self.y_of(index - 1) - 14
            holds, owes, _ = parts[since]
            if holds or owes:
                self.page.box(column.x, above, column.wide, below - above, "hold" if holds else "owe")
                if holds and owes:
                    self.page.box(column.end - INNER, above, INNER, below - above, "owe")
            since = index

    def draw_standing(self, actor):
        """The words for what an actor holds and owes, under the step that changed it."""
        column, before = self.lanes[actor], None
        for index, moment in enumerate(self.moments):
            told = moment.standing(actor).told
            if told != before and told:
                y = self.y_of(index - 1) + ROW / 2 + 4 if index else TOP + ROW / 2 - 2
                self.page.text(column.middle, y, told, "ink", SMALL, "middle")
            before = told

    def draw_step(self, index, row):
        """A step's box with its reply, and the line to the word that it is taken on."""
        column, y = self.lanes[self.lane_of(row.step)], self.y_of(index)
        reply, kind = reply_of(row), self.kind_of(row)
        self.draw_reach(index, row, column, y)
        x, wide = column.x + 4, column.wide - 8
        if kind == "done":
            self.page.box(x, y - BOX / 2, wide, BOX, "done", "done", 5)
        else:
            line = "warn" if kind == "warn" else "dim"
            self.page.box(x, y - BOX / 2, wide, BOX, "ground", line, 5, row.is_stuck)
        ink = "on" if kind == "done" else "ink"
        self.page.text(x + 8, y + 4.5, row.step.text, ink, SIZE)
        self.page.text(x + wide - 8, y + 4.5, reply, {"done": "on", "warn": "warn"}.get(kind, "dim"), SIZE, "end", kind == "done")

    def kind_of(self, row):
        answer = row.reply.split(", ")[-1]
        if row.is_stuck or answer in ("refused", "lost", "to mark", "not zero"):
            return "warn"
        return "done" if answer == "last" else "plain"

    def draw_reach(self, index, row, column, y):
        """The line to the word that a step is taken on, with a dot on it."""
        word = self.words.get(row.target)
        if word is None or row.is_stuck:
            return
        is_changed = word.held[index].told() != word.held[index + 1].told()
        kind = "done" if self.kind_of(row) == "done" else "dim"
        self.page.line([(column.end - 4, y), (word.middle, y)], kind, dashed=not is_changed)
        self.page.dot(word.middle, y, kind, hollow=not is_changed)

    def draw_word(self, column, last):
        """What a word holds: told after each step that changes it."""
        self.page.line([(column.middle, TOP + ROW / 2 - 6), (column.middle, last - 14)], "rule")
        before = None
        for index, word in enumerate(column.held):
            if word.told() != before:
                self.draw_chip(column, word, self.y_of(index - 1) + ROW / 2 if index else TOP + ROW / 2 - 6)
            before = word.told()

    def draw_chip(self, column, word, y):
        self.page.box(column.x, y - 10, column.wide, 20, "ground", "rule", 4)
        if word.kind != "shared":
            self.page.text(column.middle, y + 4, word.text, "ink", SMALL, "middle")
            return
        x = column.x + 3
        for mark in word.marks:
            wide = width_of(mark, SMALL) + 8
            self.page.box(x, y - 8, wide, 16, "done" if mark == "ZERO" else "mark", round_by=3)
            self.page.text(x + 4, y + 4, mark, "on", SMALL, bold=True)
            x += wide + 3
        self.page.text(column.end - 7, y + 4, word.text, "ink", SMALL, "end")

    def draw_legend(self, y):
        x = EDGE
        for fill, words in (("hold", "holds"), ("owe", "a step is pending"), ("done", "the release")):
            self.page.box(x, y - 9, 14, 12, fill, round_by=2)
            self.page.text(x + 20, y + 1, words, "dim", SMALL)
            x += 20 + width_of(words, SMALL) + 18
        for hollow, words in ((False, "changes the word"), (True, "only looks, or has lost")):
            self.page.dot(x + 6, y - 3, "dim", hollow)
            self.page.text(x + 16, y + 1, words, "dim", SMALL)
            x += 16 + width_of(words, SMALL) + 18
        self.wide = max(self.wide, x)


def draw(title, name, schedule):
    return Lanes(title, name, schedule).drawn()
