"""Cuts an input down to few lines and short words, as long as a condition still holds for it."""

import time

# Up to so many lines, two that stand anywhere are left out together: a freeze and its thaw, say.
PAIRS = 16


class OutOfTime(Exception):
    """There is no time left for cutting."""


class Cutter:
    """An input as lines, and a question that it answers with yes: so does each shorter one that is kept."""

    def __init__(self, data, holds, seconds):
        self.lines, self.holds, self.answered_no = data.split(b"\n"), holds, set()
        self.until = time.monotonic() + seconds
        self.is_whole = False

    def bytes(self):
        return b"\n".join(self.lines)

    def cut(self):
        """Cuts until nothing more can be left out, or the time is up."""
        try:
            before = None
            while before != self.lines:
                before = list(self.lines)
                self.leave_out_parts()
                self.leave_out_pairs()
                self.shorten_words()
            self.is_whole = True
        except OutOfTime:
            pass
        return self.bytes()

    def keeps(self, lines):
        """Whether these lines do as well; then they are kept."""
        data = b"\n".join(lines)
        if data in self.answered_no:
            return False
        if time.monotonic() > self.until:
            raise OutOfTime
        if not self.holds(data):
            self.answered_no.add(data)
            return False
        self.lines = lines
        return True

    def leave_out_parts(self):
        """Leaves out halves, quarters, .. and single lines; the last ones come first, as nothing depends on them."""
        size = max(1, len(self.lines) // 2)
        while True:
            was_cut, end = False, len(self.lines)
            while end > 0:
                begin = max(0, end - size)
                was_cut |= self.keeps(self.lines[:begin] + self.lines[end:])
                end = begin
            if size == 1 and not was_cut:
                return
            size = max(1, size // 2)

    def leave_out_pairs(self):
        first = 0
        while first < len(self.lines) <= PAIRS:
            second = first + 1
            while second < len(self.lines):
                rest = self.lines[:first] + self.lines[first + 1 : second] + self.lines[second + 1 :]
                second = first + 1 if self.keeps(rest) else second + 1
            first += 1

    def shorten_words(self):
        for at in range(len(self.lines)):
            self.keeps_words(at, self.lines[at].split())
            for place in range(len(self.lines[at].split())):
                self.shorten_word(at, place)

    def keeps_words(self, at, words):
        """Whether a line of these words does as well."""
        line = b" ".join(words)
        return line != self.lines[at] and self.keeps(self.lines[:at] + [line] + self.lines[at + 1 :])

    def shorten_word(self, at, place):
        """Puts the first of the shorter words that does in a word's place, until none does."""
        is_shorter = True
        while is_shorter:
            words = self.lines[at].split()
            if place >= len(words):
                return
            tried = (words[:place] + [word] + words[place + 1 :] for word in shorter(words[place]))
            is_shorter = any(self.keeps_words(at, words) for words in tried)


def shorter(word):
    """Words that say less than this: smaller numbers, and of a pattern less."""
    digits = word.removeprefix(b"-")
    if digits.isdigit() and len(digits) <= 20:
        number = int(digits)
        smaller = sorted({0, 1, number // 2, number - 1, number})
        return [b"%d" % less for less in smaller if 0 <= less <= number and b"%d" % less != word]
    is_pattern = len(word) >= 4 and len(word) % 2 == 0 and all(letter in b"0123456789abcdefABCDEF" for letter in word)
    return [word[:2], word[: len(word) // 4 * 2], word[:-2]] if is_pattern else []
