"""Computes the pieces of a request; written only from docs/FORMATS.md."""


def reach(start, limits):
    """The greatest length from start on that is at most max and has no multiple of the chunk strictly inside."""
    most, chunk, _ = limits
    return most if chunk == 0 else min(most, chunk - start % chunk)


def pieces(start, count, limits):
    """The lengths of the pieces of count sectors from start on, under limits (max, chunk, physical)."""
    found, end, physical = [], start + count, limits[2]
    while start < end:
        length = reach(start, limits)
        if end - start <= length:
            length = end - start
        else:
            block_end = (start + length) // physical * physical
            if block_end > start:
                length = block_end - start
        found.append(length)
        start += length
    return found


def watched(path):
    """What a watched server wrote down: for each request start, count, pieces, and its first and last limits."""
    with open(path, encoding="ascii") as file:
        for line in file:
            start, count, listed, *limits = line.split()
            numbers = tuple(map(int, limits))
            yield int(start), int(count), list(map(int, listed.split("+"))), numbers[:3], numbers[3:]
