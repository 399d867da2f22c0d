"""Compares the outcomes of races on the kernel's percpu_ref, in all orders, with those of gate_races; goes through a slice of all races,
and keeps its progress."""

import collections
import json
import os
import re
import subprocess
import time

from kernel.races import Race, races

# The same words for both: our refused try that is last counts as refused, and our revival says what it found.
WORDS = {"refused last": "refused", "at zero": "ok", "held": "ok", "last": "put", "not last": "put"}
SAME = "the same outcomes"
MORE = "more of ours, each with a refused try that counts for a moment"
OPEN = "more of ours, one with a live try that is given on a slot which is still open, behind one that was refused"
EARLY = "more of Linux's, each ours with one reference more until a grace period ends"
GIVEN_UP = "given up"
KEPT_EACH = 5


def said(line):
    """An actor's line, in words that both have."""
    actor, _, rest = line.partition(" ")
    return (actor, *(WORDS.get(it, it) for it in rest.split(" / ") if it))


def kernel_outcomes(lines):
    """The outcomes that the explorer printed."""
    found, actors = set(), []
    for line in lines:
        if line.startswith("outcome "):
            actors = []
        elif line.startswith("end "):
            found.add((*actors, re.sub(r" stuck$", ", and an actor never goes on", line)))
        elif " " in line:
            actors.append(said(line))
    return found


END = re.compile(r"# end (\w+) .*kills (\d+) releases (\d+) held (\d+)")


def our_outcomes(text):
    """The outcomes that gate_races printed."""
    found, actors, is_head = set(), [], False
    for line in text.split("\n"):
        if line.startswith("outcome "):
            actors, is_head = [], True
        elif line == "gate 1":
            is_head = False
        elif is_head and " " in line:
            actors.append(said(line))
        elif line.startswith("# end "):
            found.add((*actors, "end {} kills {} releases {} held {}".format(*END.match(line).groups())))
    return found


def shown(outcome):
    return "; ".join(it if isinstance(it, str) else f"{it[0]} {' / '.join(it[1:])}" for it in outcome)


def held_longer(race):
    """The race with one more pass for each possible switch from slots: Linux's switch holds a reference of its own until
    its grace period ends, and doesn't wait for that."""
    more = min(2, sum(it in ("kill", "atomic") for it in race.control))
    return Race(race.slots, race.start, race.passes + (("live 0", "put 0 1"),) * more, race.control), more


def without(outcomes, first, more):
    """The outcomes in which the passes from the first on got their references, without these passes."""
    found = set()
    for outcome in outcomes:
        if all(outcome[it][1] == "given" for it in range(first, first + more)):
            found.add((*outcome[:first], *outcome[first + more :]))
    return found


def is_given_later(race, outcome):
    """Whether a live try of a pass is given after one that was refused, although nothing was revived."""
    of = {it[0]: it[1:] for it in outcome[:-1]}
    if any(call in ("reinit", "resurrect") and answer == "ok" for call, answer in zip(race.control, of.get("c", ()))):
        return False
    for at, calls in enumerate(race.passes):
        answers = of[str(at)]
        live = [(it, answer) for it, (call, answer) in enumerate(zip(calls, answers)) if call.startswith("live")]
        if any(one < other for one, said in live if said == "refused" for other, then in live if then == "given"):
            return True
    return False


class Orders:
    """Both explorers: the kernel's, which goes on from race to race, and gate_races, which runs for each."""

    def __init__(self, explorer, gate_races, most):
        self.gate_races = gate_races
        self.process = subprocess.Popen([explorer, str(most)], stdin=subprocess.PIPE, stdout=subprocess.PIPE, text=True)

    def end(self):
        self.process.stdin.close()
        self.process.wait()

    def kernel(self, race):
        """The outcomes by the kernel, the number of moments, and other output."""
        self.process.stdin.write(race.text() + "run\n")
        self.process.stdin.flush()
        lines = []
        while not (line := self.process.stdout.readline()).startswith("outcomes "):
            if not line:
                return set(), 0, "the explorer ended"
            lines.append(line.rstrip("\n"))
        words = line.split(None, 4)
        return kernel_outcomes(lines), int(words[3].rstrip(",")), words[4].strip() if len(words) > 4 else ""

    def ours(self, race):
        run = subprocess.run([self.gate_races], input="races 1\n" + race.text(), capture_output=True, text=True, check=True)
        return our_outcomes(run.stdout)

    def judged(self, race):
        """The class of a race, its number of moments, and the outcomes that only one of the two has."""
        kernel, moments, what = self.kernel(race)
        if what == "given up":
            return GIVEN_UP, moments, []
        ours = self.ours(race)
        alone = [f"Linux alone: {shown(it)}" for it in sorted(kernel - ours, key=str)]
        alone += [f"ours alone: {shown(it)}" for it in sorted(ours - kernel, key=str)]
        if what:
            return f"a difference: {what}", moments, alone
        if kernel == ours:
            return SAME, moments, []
        if not all("refused" in str(it) for it in ours - kernel):
            return "a difference", moments, alone
        if kernel < ours:
            return OPEN if any(is_given_later(race, it) for it in ours - kernel) else MORE, moments, alone
        longer, more = held_longer(race)
        is_longer = kernel - ours <= without(self.ours(longer), len(race.passes), more)
        return EARLY if is_longer else "a difference", moments, alone


class Part:
    """A slice of the races, and the file that keeps how far it is."""

    def __init__(self, folder, number, of, version):
        self.path = os.path.join(folder, f"part-{number}-of-{of}.json")
        self.kept = {"version": version, "next": {"1": 0, "2": 0}, "tally": {}, "moments": 0, "seconds": 0, "shown": {}}
        os.makedirs(folder, exist_ok=True)
        if os.path.isfile(self.path):
            with open(self.path, encoding="utf-8") as it:
                self.kept = json.load(it)

    def add(self, race, how, moments, alone):
        tally, shown_ones = self.kept["tally"], self.kept["shown"].setdefault(how, []) if how != SAME else []
        key = f"{race.slots} slots, {how}" if race.slots > 1 else f"1 slot, {how}"
        tally[key] = tally.get(key, 0) + 1
        self.kept["moments"] += moments
        if how != SAME and len(shown_ones) < KEPT_EACH:
            shown_ones.append([race.short(), *alone[:4]])

    def save(self):
        with open(self.path + ".new", "w", encoding="utf-8") as it:
            json.dump(self.kept, it, indent=1)
        os.replace(self.path + ".new", self.path)


def run_slice(orders, part, number, of, most_calls, say):
    """Goes through a slice of the races of up to this many calls, resuming where it was left, and saves the progress every few seconds."""
    began = spoken = time.monotonic()
    before = part.kept["seconds"]
    try:
        for slots in (1, 2):
            for at, race in enumerate(races(slots)):
                if len(race.control) + sum(map(len, race.passes)) > most_calls:
                    break
                if at % of != number - 1 or at < part.kept["next"][str(slots)]:
                    continue
                part.add(race, *orders.judged(race))
                part.kept["next"][str(slots)] = at + 1
                if time.monotonic() - spoken > 5:
                    spoken = time.monotonic()
                    part.kept["seconds"] = before + spoken - began
                    part.save()
                    say(f"slice {number}/{of}: {sum(part.kept['tally'].values()):,} races, at {race.short()}")
    finally:
        part.kept["seconds"] = before + time.monotonic() - began
        part.save()


def summary(folder):
    """The results of all parts in a folder."""
    tally, moments, seconds, examples, versions = collections.Counter(), 0, 0, {}, set()
    for name in sorted(os.listdir(folder)):
        if not re.fullmatch(r"part-\d+-of-\d+\.json", name):
            continue
        with open(os.path.join(folder, name), encoding="utf-8") as it:
            kept = json.load(it)
        tally.update(kept["tally"])
        versions.add(kept["version"])
        moments, seconds = moments + kept["moments"], seconds + kept["seconds"]
        for how, found in kept["shown"].items():
            examples.setdefault(how, []).extend(found[: KEPT_EACH - len(examples.get(how, []))])
    lines = [f"Linux {', '.join(sorted(versions))}: {sum(tally.values()):,} races, {moments:,} moments, {seconds:,.0f} seconds"]
    lines += [f"  {how}: {count:,}" for how, count in sorted(tally.items())]
    for how, found in ((how, found) for how, found in examples.items() if found):
        lines += [f"{how}, for example:"] + ["    " + "\n        ".join(it) for it in found]
    return "\n".join(lines), any("a difference" in how for how in tally)
