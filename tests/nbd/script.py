"""Runs a script of examples/ on a watched server, request after request: script.py PLUGIN SCRIPT ANSWER fails if the replies
aren't those of the file ANSWER."""

import sys

import nbd

from pieces import watched
from server import Server

SECTOR = 512


def runs(data):
    """The maximal runs of equal bytes."""
    found = []
    for byte in data:
        if found and found[-1][0] == byte:
            found[-1][1] += 1
        else:
            found.append([byte, 1])
    return ",".join(f"{byte:02x}*{times}" for byte, times in found)


class Player:
    """Runs the lines of a script on a server's disk and queue."""

    def __init__(self, server, sectors, version):
        self.server, self.sectors, self.version = server, sectors, version
        self.client, self.control = server.client(), server.control()
        self.past_end = 0

    def request(self, words):
        """The reply to a read or write."""
        start, count = int(words[1]), int(words[2])
        depth = self.control.ask("stat").split()[10]
        if depth == "0" and start + count > self.sectors:
            self.past_end += 1  # nbdkit refuses it before the plugin is asked
            return "EIO"
        try:
            shown = self.done(words[0], start, count, bytes.fromhex(words[3]) if words[0] == "write" else b"")
        except nbd.Error:
            return "EAGAIN"
        listed = [found[2] for found in watched(self.server.watched)][-1]
        return f"ok {'+'.join(map(str, listed))}{shown}"

    def done(self, operation, start, count, pattern):
        length = count * SECTOR
        if operation == "read":
            return " " + runs(self.client.pread(length, start * SECTOR))
        self.client.pwrite((pattern * (length // len(pattern) + 1))[:length], start * SECTOR)
        return ""

    def reply(self, line):
        words = line.split()
        if words[0] in ("read", "write"):
            return self.request(words)
        reply = self.control.ask(line)
        if words == ["stat"]:
            found = reply.split()
            found[8] = str(int(found[8]) + self.past_end)
            del found[19:]  # the state, which a script's has not
            if self.version == "1":
                del found[15:17]
            reply = " ".join(found)
        return reply

    def disk(self):
        while self.control.ask("thaw") != "not frozen":
            pass
        return runs(self.client.pread(self.sectors * SECTOR, 0))


def play(plugin, lines):
    """The lines of the answer."""
    said = [(number, line) for number, line in enumerate(lines, 1) if line.split() and line.split()[0][0] != "#"]
    version = said[0][1].split()[1]
    _, sectors, _, hardware = said[1][1].split()
    parameters = f"size={int(sectors) * SECTOR}", f"hardware_sectors={hardware}", "nowait=true"
    with Server(plugin, *parameters) as server:
        player = Player(server, int(sectors), version)
        for number, line in said[2:]:
            yield f"{number} {player.reply(line)}"
        yield f"disk {player.disk()}"
        player.control.close()


if __name__ == "__main__":
    with open(sys.argv[2], encoding="utf-8") as script, open(sys.argv[3], encoding="utf-8") as answer:
        wanted = answer.read().splitlines()
        found = list(play(sys.argv[1], script.read().split("\n")))
    for ours, theirs in zip(found, wanted):
        assert ours == theirs, f"{ours}, and not {theirs}"
    assert len(found) == len(wanted), f"{len(found)} lines, and not {len(wanted)}"
