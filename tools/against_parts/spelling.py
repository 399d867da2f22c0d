"""Spells the lines of an input, with odd blanks, line ends and numbers, and sometimes with a fault."""

MOST_BYTES = 1_048_576

ODD_NUMBERS = (
    *("-1", "+1", "-0", "1x", "0x1", "1_0", "1.0", "\u0661", "0", "00000000000000000001", "000000000000000000001"),
    *("65535", "65536", "4294967295", "4294967296", "18446744073709551615", "18446744073709551616"),
    *("99999999999999999999", "100000000000000000000"),
)
ODD_PATTERNS = ("0", "000", "0g", "0x00", "-1", "ab" * 64, "ab" * 65, "a" * 127, "\u0661\u0661")
ODD_BYTES = (b"\xff", b"\xc3", b"\xed\xa0\x80", b"\0", b"\x0b", b"\x0c", b"\r", b"\r", b"\r\r", b"#", b" #", b"\n#")
ODD_BYTES += (b"\xc2\xa0", b"\xe2\x80\xa8", b"\xef\xbb\xbf")
BLANKS = (" ", "  ", "\t", " \t ")
COMMENTS = ("", "#", "# a note", "#read 0 1", "  # \u00e9", "\t")


def once_in(pick, times):
    """True once in so many times."""
    return pick.randrange(times) == 0


def drop_word(pick, lines, known):
    words = pick.choice(lines)
    if words:
        words.pop(pick.randrange(len(words)))


def add_word(pick, lines, known):
    words = pick.choice(lines)
    words.insert(pick.randint(0, len(words)), pick.choice((*known, *ODD_NUMBERS)))


def change_word(pick, lines, known):
    words = pick.choice(lines)
    if words:
        words[pick.randrange(len(words))] = pick.choice((*known, *ODD_NUMBERS, *ODD_PATTERNS))


def change_number(pick, lines, known):
    """Puts an odd number where there is a number."""
    places = [(words, at) for words in lines for at, word in enumerate(words) if word.isdecimal()]
    if places:
        words, at = pick.choice(places)
        words[at] = pick.choice(ODD_NUMBERS)


def change_pattern(pick, lines, known):
    places = [words for words in lines if words[:1] == ["write"] and len(words) == 4]
    if places:
        pick.choice(places)[3] = pick.choice(ODD_PATTERNS)


def change_case(pick, lines, known):
    words = pick.choice(lines)
    if words:
        words[0] = words[0].upper()


def repeat_head(pick, lines, known):
    lines.insert(pick.randint(0, len(lines)), list(lines[pick.randrange(min(2, len(lines)))]))


def lose_head(pick, lines, known):
    lines.pop(pick.randrange(min(2, len(lines))))


def change_version(pick, lines, known):
    lines[0] = pick.choice(("blkq 3", "blkq 01", "blkq", "blkq 1 1", "gate 2", "gate 1 1", "gate 01", "Blkq 1")).split()


def add_words(pick, lines, known):
    words = pick.choice(lines)
    words += [pick.choice(("0", "1"))] * pick.randint(1, 9)


def add_line(pick, lines, known):
    """A line that belongs into another version, or only to the beginning."""
    others = ("set physical_sectors 2", "blkq 1", "disk 4 hw 4", "gate 1", "world 1 1 slots 0")
    line = pick.choice((*others, "set", "c", "0 add", "mode"))
    lines.insert(pick.randint(min(2, len(lines)), len(lines)), line.split())


def cut_short(pick, lines, known):
    del lines[pick.randrange(3) :]


def kind_of(words, at):
    """What a word is: its line's name, which stands behind an actor, and its place."""
    return (words[1] if words[0].isdecimal() or words[0] == "c" else words[0]), at


def at_edge(pick, lines, range_of):
    """The lines with a number put at an end of its range, or beside that, or spelled in a way that is odd."""
    lines = [list(words) for words in lines]
    places = [(words, at) for words in lines for at in range(len(words)) if range_of(words, at)]
    # One kind of number as often as another, however many there are of it.
    kinds = sorted({kind_of(*place) for place in places})
    if kinds:
        kind = pick.choice(kinds)
        words, at = pick.choice([place for place in places if kind_of(*place) == kind])
        least, most = range_of(words, at)
        edge = str(pick.choice((least - 1, least, most, most + 1)))
        words[at] = pick.choice((edge, edge, edge, "+" + words[at].lstrip("-"), words[at].zfill(21), pick.choice(ODD_NUMBERS)))
    return lines


FAULTS = (
    *(drop_word, add_word, change_word, change_word, change_number, change_number, change_number, change_pattern),
    *(add_words, add_line, change_case, repeat_head, lose_head, change_version, change_version, cut_short),
)


def spoiled(pick, lines, known):
    """The lines, which are lists of words, with a fault or two; at times one that is none."""
    lines = [list(words) for words in lines]
    for _ in range(pick.choice((1, 1, 1, 2))):
        if lines:
            pick.choice(FAULTS)(pick, lines, known)
    return lines


def spelled(pick, words):
    """A line with odd blanks, numbers and letters, which mean the same."""
    words = list(words)
    for at, word in enumerate(words):
        if at > 0 and word.isdecimal() and once_in(pick, 3) and words[0] not in ("blkq", "gate"):
            words[at] = word.zfill(pick.choice((min(20, len(word) + 1), 20)))
        if at == 3 and words[0] == "write":
            words[at] = word.upper()
    blanks = [pick.choice(BLANKS) for _ in words]
    text = "".join(word + blank for word, blank in zip(words, blanks))
    return pick.choice(("", "", " ", "\t")) + (text if once_in(pick, 2) else text.rstrip())


def with_odd_bytes(pick, text):
    """A text with bytes that mean something else at a line's edge than within it."""
    ends = [at for at, byte in enumerate(text) if byte == 10]
    edges = [0, len(text), *ends, *(at + 1 for at in ends)]
    at = pick.choice(edges) if once_in(pick, 2) else pick.randint(0, len(text))
    return text[:at] + pick.choice(ODD_BYTES) + text[at:]


def text_of(pick, lines, known, range_of):
    """The bytes of an input of these lines, each a list of words: mostly plain, at times oddly spelled, and at times with
    a fault. range_of gives the range of a line's word of some place, or None where it is no number."""
    if once_in(pick, 7):
        lines = spoiled(pick, lines, known)
    elif once_in(pick, 5):
        lines = at_edge(pick, lines, range_of)
    is_odd, end = once_in(pick, 4), pick.choice(("\n", "\n", "\n", "\r\n"))
    texts = []
    for words in lines:
        if is_odd and once_in(pick, 5):
            texts.append(pick.choice(COMMENTS))
        texts.append(spelled(pick, words) if is_odd and once_in(pick, 3) else " ".join(words))
    text = end.join(texts).encode() + (b"" if once_in(pick, 8) else end.encode())
    if once_in(pick, 12):
        text = with_odd_bytes(pick, text)
    if once_in(pick, 150):
        text += b"#" * (MOST_BYTES - len(text) + pick.choice((0, 1)))
    return text
