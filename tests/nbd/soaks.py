"""Runs many rounds of soak.py, and can be resumed: soaks.py FILTER FILE [SECONDS [ROUND]]. The default is an hour in rounds of ten minutes.

FILE gets a line for each round that passed: its seconds, and what soak.py counted. A later run with the same FILE does the missing
rounds. A round that nbdkit 1.32 itself aborts doesn't count. The status is 0 once all rounds have passed, and 1 if a round fails."""

import os
import re
import subprocess
import sys
import time

ABORTED = "raw_send_socket: Assertion"
SOAK = os.path.join(os.path.dirname(__file__), "soak.py")


def rounds_of(path):
    """The rounds that have passed."""
    if not os.path.exists(path):
        return []
    with open(path, encoding="ascii") as file:
        return [dict(zip(words[::2], map(int, words[1::2]))) for words in map(str.split, file)]


def run(served, path, seconds):
    """Runs a round, and notes it if it passes. Returns whether it failed."""
    seed = str(time.time_ns())
    told = subprocess.run([sys.executable, SOAK, served, str(seconds), seed], stdout=subprocess.PIPE, stderr=subprocess.STDOUT, check=False)
    said = told.stdout.decode(errors="replace")
    if told.returncode != 0:
        print("aborted by nbdkit" if ABORTED in said else said, flush=True)
        return ABORTED not in said
    counted = re.search(r"^at rest after \d+ s: ([^;]*);", said, flags=re.M)[1]
    with open(path, "a", encoding="ascii") as file:
        file.write(f"seconds {seconds} {counted}\n")
    return False


def main(served, path, seconds=3600, each=600):
    while sum(it["seconds"] for it in rounds_of(path)) < seconds:
        if run(served, path, each):
            return 1
    rounds = rounds_of(path)
    print(f"{len(rounds)} rounds:", *(f"{name} {sum(it[name] for it in rounds)}" for name in rounds[0]))
    return 0


if __name__ == "__main__":
    sys.exit(main(*sys.argv[1:3], *map(int, sys.argv[3:])))
