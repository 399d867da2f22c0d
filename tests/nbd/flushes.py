"""Tests the flush of a quiesce: flushes.py FILTER NAME runs one test."""

import threading
from contextlib import closing, contextmanager

import nbd

from controls import depth_of, soon
from gates import done_by, is_answered, shell, write
from server import Server, run_test
from tries import done


def begun(server, name, count=1):
    """Waits until the backend has begun this many calls of a name."""
    soon(lambda: len(done_by(server, name)) >= count, f"no {name} in the backend")


def quiescing(server):
    """A controller whose quiesce has drained the queue and is flushing."""
    control = server.control()
    before = len(done_by(server, "flush"))
    control.at.sendall(b"quiesce\n")
    begun(server, "flush", before + 1)
    return control


@contextmanager
def flush_is_held(served):
    """A server, a controller, and a client that wrote and whose flush the backend holds up."""
    with Server(served, backend=shell()) as server, closing(server.control()) as control:
        client = server.client()
        client.pwrite(bytes(512), 0)
        write(server, "held", "flush")
        yield server, control, client


def of_each(served):
    """Each connection that wrote is flushed once, even if it only made a trim or a zero. Connections that only read aren't."""
    with Server(served, backend=shell()) as server, closing(server.control()) as control:
        clients = [server.client() for _ in range(5)]
        clients[0].pwrite(bytes(512), 0)
        clients[1].trim(512, 512)
        clients[2].zero(512, 1024)
        clients[3].pread(512, 1536)
        clients[4].cache(512, 2048)
        places = {it[2]: it[1] for it in done_by(server, "pwrite", "trim", "zero", "pread", "cache")}
        control.need("quiesce", "depth 1")
        wrote = sorted(places[place] for place in (0, 512, 1024))
        assert sorted(it[1] for it in done_by(server, "flush")) == wrote, done_by(server, "flush")
        control.need("quiesce", "depth 2")
        assert len(done_by(server, "flush")) == 3, "a connection is flushed again that wrote nothing"
        control.need("thaw all", "depth 0")
        clients[1].zero(512, 512, nbd.CMD_FLAG_NO_HOLE)
        control.need("quiesce", "depth 1")
        assert [it[1] for it in done_by(server, "flush")][3:] == [places[512]]
        control.need("thaw", "depth 0")


def that_fails(served):
    """A quiesce is refused if the flush of any connection fails, and the next quiesce tries that connection again."""
    with Server(served, backend=shell()) as server, closing(server.control()) as control:
        clients = [server.client() for _ in range(3)]
        for number, client in enumerate(clients):
            client.pwrite(bytes(512), number * 512)
        names = [it[1] for it in done_by(server, "pwrite")]
        for failing in range(3):
            for number, client in enumerate(clients):
                client.pwrite(bytes(512), number * 512)
            write(server, "unflushed", names[failing])
            control.need("quiesce", "flush: No space left on device")
            assert depth_of(server) == 0, "a quiesce that was refused leaves a freeze"
            write(server, "unflushed")
            before = len(done_by(server, "flush"))
            control.need("quiesce", "depth 1")
            assert [it[1] for it in done_by(server, "flush")][before:] == [names[failing]]
            control.need("thaw", "depth 0")


def by_its_client(served):
    """A connection that its client flushed isn't flushed again, unless that flush failed or the client has written since."""
    with Server(served, backend=shell()) as server, closing(server.control()) as control:
        client = server.client()
        client.pwrite(bytes(512), 0)
        client.flush()
        control.need("quiesce", "depth 1")
        control.need("thaw", "depth 0")
        assert len(done_by(server, "flush")) == 1
        client.pwrite(bytes(512), 0)
        write(server, "unflushed", done_by(server, "pwrite")[0][1])
        assert done([client], [client.aio_flush()]) != [0]
        control.need("quiesce", "flush: No space left on device")
        write(server, "unflushed")
        control.need("quiesce", "depth 1")
        assert len(done_by(server, "flush")) == 4
        control.need("thaw", "depth 0")


def of_the_lost(served):
    """A flush that fails while its connection closes is reported to the next quiesce, once."""
    with Server(served, backend=shell()) as server, closing(server.control()) as control:
        client = server.client()
        control.need("quiesce", "depth 1")
        control.need("thaw", "depth 0")
        client.pwrite(bytes(512), 0)
        write(server, "unflushed", done_by(server, "pwrite")[0][1])
        for _ in range(2):
            control.need("quiesce", "flush: No space left on device")
        server.clients.remove(client)
        client.shutdown()
        begun(server, "flush", 3)
        control.need("quiesce", "flush: No space left on device")
        control.need("quiesce", "depth 1")
        assert len(done_by(server, "flush")) == 3


def slow(served):
    """A long flush delays only its own controller, and the queue goes on at once when that controller goes."""
    with Server(served, backend=shell()) as server, closing(server.control()) as control:
        client, other = server.client(), server.client()
        client.pwrite(bytes(512), 0)
        write(server, "held", "flush")
        with closing(quiescing(server)):
            cookie = other.aio_pread(nbd.Buffer(512), 0)
            control.need("thaw", "not yours")
            control.need("freeze", "depth 2")
            control.need("thaw", "depth 1")
        assert done([other], [cookie]) == [0]
        write(server, "held")
        control.need("quiesce", "depth 1")
        control.need("thaw", "depth 0")


def begun_before(served):
    """A flush that began before a quiesce doesn't count for it: writes may have come in between."""
    with flush_is_held(served) as (server, control, client):
        with closing(quiescing(server)) as first, closing(server.control()) as second:
            control.need("thaw all", "depth 0")
            assert first.replies.readline() == "thawed\n"
            client.pwrite(bytes(512), 512)
            second.at.sendall(b"quiesce\n")
            soon(lambda: depth_of(server) == 1, "the second quiesce doesn't begin")
            write(server, "held")
            assert second.replies.readline() == "depth 1\n"
            found = [it[0] for it in done_by(server, "pwrite", "flush")]
            assert found == ["pwrite", "flush", "pwrite", "flush"], found


def behind_the_drain(served):
    """The flush begins once the queue is drained: it reaches the writes that were in flight."""
    with Server(served, backend=shell()) as server, closing(server.control()) as control:
        client = server.client()
        write(server, "held", "pwrite")
        cookie = client.aio_pwrite(nbd.Buffer(512), 0)
        begun(server, "pwrite")
        control.at.sendall(b"quiesce\n")
        soon(lambda: depth_of(server) == 1, "no freeze")
        assert not is_answered(control, 0.5), "a quiesce is answered before it is drained"
        write(server, "held")
        assert control.replies.readline() == "depth 1\n"
        assert [it[0] for it in done_by(server, "pwrite", "flush")] == ["pwrite", "flush"]
        assert done([client], [cookie]) == [0]


def thawed(served):
    """`thaw all` ends a quiesce that is flushing. Its controller is told, and nothing is frozen when the flush ends."""
    with flush_is_held(served) as (server, control, client):
        with closing(quiescing(server)) as quiesced:
            assert not is_answered(quiesced, 0.3), "a quiesce is answered before its flush is done"
            control.need("thaw all", "depth 0")
            assert quiesced.replies.readline() == "thawed\n"
            assert len(client.pread(512, 0)) == 512
            write(server, "held")
            client.pwrite(bytes(512), 0)
            control.need("quiesce", "depth 1")  # behind the first flush, which is done by now
            control.need("thaw", "depth 0")
            assert not is_answered(quiesced, 0.1), "a line is answered twice"
            quiesced.need("thaw", "not frozen")
            quiesced.need("freeze", "depth 1")


def coming_and_going(served):
    """Clients connect and disconnect while the flush of another hangs, also once the flush is given up. The client whose connection is flushed
    leaves when the flush is done."""
    with flush_is_held(served) as (server, control, client):
        old = [server.client() for _ in range(2)]
        with closing(quiescing(server)) as quiesced:
            for leaving in old:
                moves = [threading.Thread(target=server.client), threading.Thread(target=leaving.shutdown)]
                server.clients.remove(leaving)
                for move in moves:
                    move.start()
                soon(lambda: not any(move.is_alive() for move in moves), "a client can't come or go while another is flushed")
                control.need("thaw all", "depth 0")
            assert quiesced.replies.readline() == "thawed\n"
        server.clients.remove(client)
        gone = threading.Thread(target=client.shutdown)
        gone.start()
        gone.join(0.5)
        assert gone.is_alive(), "a connection is closed while it is flushed"
        write(server, "held")
        gone.join()
        control.need("quiesce", "depth 1")
        control.need("thaw", "depth 0")


def of_a_leaving(served):
    """A quiesce waits for the flush of a closing connection, whose writes may not be on disk yet."""
    with flush_is_held(served) as (server, control, leaving):
        server.clients.remove(leaving)
        gone = threading.Thread(target=leaving.shutdown)
        gone.start()
        begun(server, "flush")
        control.at.sendall(b"quiesce\n")
        assert not is_answered(control, 1), "a quiesce is answered while a connection is flushed"
        write(server, "held")
        assert control.replies.readline() == "depth 1\n"
        gone.join()


def one_at_a_time(served):
    """A backend that does one request at a time isn't called during a quiesce's flush, though `thaw all` lets requests pass."""
    alone = 'mkdir {folder}/inside || echo $1 >>{folder}/overlaps; '
    left = "rmdir {folder}/inside 2>/dev/null; "
    calls = {name: alone + left for name in ("pread", "pwrite")}
    backend = shell(model="serialize_all_requests", flush=left, **calls)
    backend = [word.replace("echo flush", alone + "echo flush", 1) for word in backend]
    backend = [word.replace("open=", f"open={alone}{left}", 1) for word in backend]
    with Server(served, backend=backend) as server, closing(server.control()) as control:
        client, other = server.client(), server.client()
        client.pwrite(bytes(512), 0)
        write(server, "held", "flush")
        with closing(quiescing(server)):
            control.need("thaw all", "depth 0")
            cookie = other.aio_pread(nbd.Buffer(512), 0)
            coming = threading.Thread(target=server.client)
            coming.start()
            other.poll(1000)
            write(server, "held")
            assert done([other], [cookie]) == [0]
            coming.join()
        found = open_lines(server, "overlaps")
        assert not found, f"calls at one time: {found}"


def open_lines(server, name):
    try:
        with open(server.path(name), encoding="ascii") as file:
            return file.read().split()
    except FileNotFoundError:
        return []


if __name__ == "__main__":
    run_test(globals())
