"""Lists the freezes: who holds them, since when, and until when."""

import json
import re

LINE = re.compile(r"(?P<number>\d+) (?P<verb>\w+) (?P<state>\w+) (?P<seconds>[\d.]+) pid (?P<pid>\d+) uid (?P<uid>\d+) "
                  r"ends (?P<ends>[\d.]+|-) label (?P<label>.*)")


def held(line):
    """A line of the server, as a dictionary."""
    found = LINE.fullmatch(line).groupdict()
    ends = None if found["ends"] == "-" else float(found["ends"])
    numbers = {name: int(found[name]) for name in ("number", "pid", "uid")}
    return {**found, **numbers, "seconds": float(found["seconds"]), "ends": ends}


def shown(it):
    ends = "" if it["ends"] is None else f" ends in {it['ends']:.0f}s"
    label = f" \"{it['label']}\"" if it["label"] else ""
    return f"{it['number']} {it['verb']} {it['state']} {it['seconds']:.0f}s pid {it['pid']} uid {it['uid']}{label}{ends}"


def holders(server, as_json):
    """Prints a line for each freeze."""
    found = [held(line) for line in server.list("holders")[:-1]]
    print(json.dumps(found) if as_json else "\n".join(map(shown, found)), end="\n" if found or as_json else "")


REQUEST = re.compile(r"(?P<operation>\w+) (?P<length>\d+) at (?P<offset>\d+) (?P<seconds>[\d.]+)")


def requests(server, as_json):
    """Prints a line for each request in flight, the oldest first."""
    found = server.list("requests")[:-1]
    if as_json:
        split = (REQUEST.fullmatch(line).groupdict() for line in found)
        found = [json.dumps([{**it, "length": int(it["length"]), "offset": int(it["offset"]), "seconds": float(it["seconds"])} for it in split])]
    print("\n".join(found), end="\n" if found else "")
