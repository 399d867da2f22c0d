"""Prints a difference on standard output, and the progress on standard error."""

import sys
import threading

# How much of a line is shown, and of how many lines an answer is shown whole.
WIDTH = 140
LINES = 60


class Progress:
    """Says on standard error, once a second, how far the work is."""

    def __init__(self):
        self.text, self.over = None, threading.Event()
        self.thread = threading.Thread(target=self.run, daemon=True)

    def of(self, text):
        """From now on says what this function gives."""
        self.text = text

    def __enter__(self):
        self.thread.start()
        return self

    def __exit__(self, *_):
        self.over.set()
        self.thread.join()

    def run(self):
        while not self.over.wait(1):
            if self.text:
                print(f"tools/against: {self.text()}", file=sys.stderr, flush=True)


def shown(line, at=0):
    """A line as it is shown: what can't be printed as a backslash and its number, and of a long one the part round a place."""
    text = line.decode(errors="backslashreplace")
    is_plain = [letter.isprintable() or letter == "\t" for letter in text]
    text = "".join(one if plain else one.encode("unicode_escape").decode() for one, plain in zip(text, is_plain))
    begin = max(0, at - WIDTH // 2) if len(text) > WIDTH else 0
    end = begin + WIDTH
    return (".." if begin else "") + text[begin:end] + (f".. ({len(text)} letters)" if end < len(text) else "")


def lines_of(data):
    return data.split(b"\n")[: -1 if data.endswith(b"\n") else None] if data else []


def shown_lines(data, at=0):
    """The lines of an answer, of a long one those round a place."""
    lines = lines_of(data)
    begin = max(0, min(at - LINES // 2, len(lines) - LINES))
    chosen = [f"    {shown(line)}" for line in lines[begin : begin + LINES]]
    if begin > 0:
        chosen.insert(0, f"    .. ({begin} lines)")
    if begin + LINES < len(lines):
        chosen.append(f"    .. ({len(lines) - begin - LINES} lines)")
    return chosen


def first_difference(mine, theirs):
    """The number of the first line in which two answers differ, from 1, and the two lines, None where there is none; None
    where they don't differ."""
    mine, theirs = lines_of(mine), lines_of(theirs)
    for at in range(max(len(mine), len(theirs))):
        pair = [lines[at] if at < len(lines) else None for lines in (mine, theirs)]
        if pair[0] != pair[1]:
            return at + 1, *pair
    return None


def letter_of_difference(one, other):
    """How many bytes two lines have in common at their beginnings."""
    common = 0
    while common < min(len(one), len(other)) and one[common] == other[common]:
        common += 1
    return common


def told_outcome(name, outcome, at):
    """What a program did, as lines."""
    head = f"{name}: {outcome.ended}"
    if not outcome.answer:
        head += ", no answer"
    fault = [f"    (on standard error) {shown(outcome.fault.encode())}"] if outcome.fault else []
    return [head, *shown_lines(outcome.answer, at), *fault]


def told_difference(names, wanted, given):
    """The first thing in which two outcomes differ, as lines."""
    found = first_difference(wanted.answer, given.answer)
    if found is None or given.ended != wanted.ended and not (given.answer and wanted.answer):
        pairs = ((wanted.ended, given.ended), (wanted.fault, given.fault))
        one, other = next((pair for pair in pairs if pair[0] != pair[1]), ("all", "a last line feed less or more"))
        return ["the first difference:", f"    {names[0]}: {one}", f"    {names[1]}: {other}"]
    number, one, other = found
    at = letter_of_difference(one or b"", other or b"")
    said = ["no such line" if line is None else shown(line, at) for line in (one, other)]
    width = max(len(name) for name in names)
    return [f"the first line that differs is line {number} of the answer:"] + [
        f"    {name:{width}}  {line}" for name, line in zip(names, said)
    ]


def told(data, names, wanted, given):
    """A difference, whole: the input, what both programs did, and the first line in which they differ."""
    found = first_difference(wanted.answer, given.answer)
    at = found[0] - 1 if found else 0
    lines = ["the input:", *(f"    {shown(line)}" for line in lines_of(data))]
    lines += told_outcome(names[0], wanted, at) + told_outcome(names[1], given, at)
    return "\n".join(lines + told_difference(names, wanted, given))
