"""Plants mistakes in the kernel's percpu_ref, freeze and splitter. tests/linux/against has to find each within 100,000 calls, cut down to ten
lines; it has to find those of the file `races` in a race of up to four calls that begins on slots. The source is the first of Debian's that is
installed."""

import os
import pathlib
import shutil
import sys

sys.path.insert(0, str(pathlib.Path(__file__).resolve().parents[1] / "linux"))

from counts import program_of
from kernel.building import Builder
from kernel.comparing import compare, kinds_of
from kernel.orders import Orders
from kernel.races import races
from kernel.source import FILES, Source, archives, source_of
from sources.mistakes import Bad

CALLS, MOST_LINES = 100_000, 10


def first_difference(orders):
    """The first such race with different outcomes, and the difference."""
    for race in races(1):
        if len(race.control) + sum(map(len, race.passes)) > 4:
            return None
        if race.start == "slots":
            how, _, alone = orders.judged(race)
            if how.startswith("a difference"):
                return "\n".join([f"{how}: {race.short()}", *(f"    {it}" for it in alone[:2])])


class Kind:
    MOST_JOBS = 1

    def __init__(self, work):
        self.work, self.source = work, source_of(archives()[0])
        builder = Builder(self.source, f"{work}/ours")
        self.ours = {kind: builder.ours(kind) for kind in ("gate", "queue")}

    def as_it_is(self, chosen):
        """tests/linux/run tries what is right."""
        return []

    def found_by(self, mistake):
        copy = self.work / mistake.name.replace(" ", "_")
        for file in FILES:
            path = pathlib.Path(self.source.root, file)
            if path.is_file():
                os.makedirs((copy / file).parent, exist_ok=True)
                shutil.copy(path, copy / file)
        with mistake.planted(copy):
            builder = Builder(Source(str(copy)), f"{copy}-built")
            return self.by_race(builder) if mistake.kind == "races" else self.by_calls(mistake, builder)

    def by_calls(self, mistake, builder):
        driver = "queue" if mistake.kind == "split" else mistake.kind
        kind = kinds_of(builder, [mistake.kind], {driver: (builder.kernel(driver), self.ours[driver])})[0]
        _, found = compare(kind, CALLS, 1, lambda _: None)
        if not found:
            return None
        found = kind.cut(found)
        if len(found.lines) > MOST_LINES:
            raise Bad(f"cut down to {len(found.lines)} lines:\n{found.shown()}")
        return f"cut down to {len(found.lines)} lines:\n{found.shown()}"

    def by_race(self, builder):
        orders = Orders(builder.orders(), program_of("gate_races"), 1_000_000)
        try:
            return first_difference(orders)
        finally:
            orders.end()
