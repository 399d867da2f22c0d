"""Parses the outcomes of a race as gate_races prints them (docs/races/README.md)."""

from typing import NamedTuple


class Outcome(NamedTuple):
    told: tuple  # a line for each actor, and the figures of the gate at the end
    schedule: list  # its lines, each step followed by its reply


def figures_of(line):
    """The figures of the line '# end MARK V front F kills K releases R held H' that distinguish outcomes: all except V."""
    if not line.startswith("# end "):
        raise ValueError(line)
    words = line.split()[1:]
    return (words[1], *(int(words[at]) for at in (4, 6, 8, 10)))


def steps_of(schedule):
    """The number of steps after the lines of the version and of the world."""
    return sum(not line.startswith(("#", "world")) for line in schedule[1:])


def outcome_of(lines, number):
    """Parses an outcome; its first line has its number, and the number of steps of its schedule."""
    head, begin = lines[0].split(), lines.index("gate 1")
    schedule = lines[begin:]
    deadlock = ["deadlock"] if any("waits for " in line for line in lines[1:begin]) else []
    if head != ["outcome", str(number), "steps", str(steps_of(schedule)), *deadlock]:
        raise ValueError(lines[0])
    return Outcome((*lines[1:begin], figures_of(schedule[-1])), schedule)


def outcomes_of(text):
    """The outcomes of an answer, each once, in the order of the length of their schedules."""
    first, *lines = text.splitlines()
    heads = [at for at, line in enumerate(lines) if line.startswith("outcome")]
    found = [outcome_of(lines[at:end], number) for number, (at, end) in enumerate(zip(heads, heads[1:]), 1)]
    lengths, different = [steps_of(it.schedule) for it in found], {it.told for it in found}
    if (first, lines[-1], len(found)) != ("races 1", f"outcomes {len(different)}", len(different)):
        raise ValueError(lines[-1])
    if lengths != sorted(lengths):
        raise ValueError(f"the steps of schedules: {lengths}")
    return found


def counted(text):
    """The number of steps to each outcome, by its account."""
    return {it.told: steps_of(it.schedule) for it in outcomes_of(text)}
