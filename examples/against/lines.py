"""Lines, words and numbers as docs/FORMATS.md has them, and what may be wrong with a text."""

import re

MOST_BYTES = 1_048_576


class Fault(Exception):
    """What is wrong with a text, and on which line."""

    def __init__(self, line, why):
        super().__init__(f"line {line}: {why}")


class Line:
    """A line that says something: its number and its words, which are read from left to right."""

    def __init__(self, number, words):
        self.number, self.words, self.read = number, words, 0

    def fault(self, why):
        return Fault(self.number, why)

    def word(self, known=None):
        """The next word, which has to be one of those known."""
        if self.read == len(self.words):
            raise self.fault("missing word")
        word = self.words[self.read]
        if known is not None and word not in known:
            raise self.fault("unknown word")
        self.read += 1
        return word

    def has_words(self, count):
        """Nothing where the line has so many words in all."""
        if len(self.words) != count:
            raise self.fault("missing word" if len(self.words) < count else "extra word")

    def number_in(self, low, high, sign=""):
        """The next word as a number from low to high."""
        word = self.word()
        if not re.fullmatch(sign + "[0-9]{1,20}", word):
            raise self.fault("bad number")
        if not low <= int(word) <= high:
            raise self.fault("out of range")
        return int(word)

    def pattern(self):
        """The next word as 1 to 64 bytes in hexadecimal digits."""
        word = self.word()
        if not re.fullmatch("([0-9a-fA-F]{2}){1,64}", word):
            raise self.fault("bad hex")
        return bytes.fromhex(word)


class Text:
    """The lines of a text that say something, one after another: a fault is told of the first line that has one."""

    def __init__(self, data):
        if len(data) > MOST_BYTES:
            raise Fault(1, "too long")
        lines = data.split(b"\n")
        self.lines = lines if lines[-1] else lines[:-1]
        self.at = 0

    def __iter__(self):
        return self

    def __next__(self):
        while self.at < len(self.lines):
            self.at += 1
            try:
                line = self.lines[self.at - 1].removesuffix(b"\r").decode()
            except UnicodeDecodeError:
                raise Fault(self.at, "not utf-8") from None
            words = [word for word in re.split("[ \t]", line) if word]
            if words and not words[0].startswith("#"):
                return Line(self.at, words)
        raise StopIteration

    def head(self, begins, why):
        """The next line, which has to begin so; where it is missing, the fault is that of the line after the last."""
        line = next(self, Line(len(self.lines) + 1, []))
        if not begins(line.words):
            raise line.fault(why)
        return line
