"""Tests the pieces of each kind of request: cuts.py SERVED NAME runs one test."""

import errno
from contextlib import closing

import nbd

from controls import metrics_of
from filters import logged, with_log
from gates import done_by, shell, write
from pieces import pieces
from server import Server, run_test
from tries import done

SECTOR = 512
CALLS = {"Read": "pread", "Write": "pwrite", "Trim": "trim", "Zero": "zero", "Cache": "cache"}  # of the log, of libnbd


def ask(client, name, count, offset, flags=0):
    """Begins a request, and returns its cookie."""
    if name == "Read":
        return client.aio_pread(nbd.Buffer(count), offset)
    if name == "Write":
        return client.aio_pwrite(nbd.Buffer.from_bytearray(bytearray(b"w" * count)), offset, flags=flags)
    return getattr(client, f"aio_{CALLS[name]}")(count, offset, flags=flags)


def do(client, name, count, offset, flags=0):
    assert done([client], [ask(client, name, count, offset, flags)]) == [0], name


def cut(offset, count, limits):
    """The pieces of a request in bytes, as (place, length): those of the sectors that it touches, without its ends."""
    start, end, found = offset // SECTOR, (offset + count - 1) // SECTOR + 1, []
    for length in pieces(start, end - start, limits):
        place, next_place = max(offset, start * SECTOR), min(offset + count, (start + length) * SECTOR)
        found.append((place, next_place - place))
        start += length
    return found


# ---- What is done ----


def each_kind(served):
    """Reads, writes, trims, zeros and cache requests have the pieces of the limits, in their order."""
    limits, count = (6, 10, 4), 20000
    parameters = [f"{name}_sectors={value}" for name, value in zip(("max", "chunk", "physical"), limits)]
    with with_log(served, *parameters, backend=("memory", "1M")) as server, closing(server.control()) as control:
        client = server.client()
        for number, name in enumerate(CALLS):
            offset = 700 + number * 30000
            do(client, name, count, offset)
            assert [it[:2] for it in logged(server, name)] == cut(offset, count, limits), name
            found = metrics_of(control)
            label = f'{{operation="{CALLS[name].removeprefix("p")}"}}'
            assert found[f"blkq_pieces_total{label}"] == len(cut(offset, count, limits)), name
            assert found[f"blkq_bytes_total{label}"] == count, name


def no_more(served):
    """A trim and a zero that are cut clear exactly their own bytes."""
    size, begin, count = 1 << 17, 3 * SECTOR, 41 * SECTOR
    with Server(served, "size=128K", "max_sectors=3", "chunk_sectors=7") as server:
        client = server.client()
        for name in ("Zero", "Trim"):
            client.pwrite(b"x" * size, 0)
            do(client, name, count, begin)
            wanted = b"x" * begin + bytes(count) + b"x" * (size - begin - count)
            assert client.pread(size, 0) == wanted, name


def through(served):
    """FUA: if the backend writes through itself, each piece of a write, trim or zero has it. If nbdkit flushes after it, the last piece
    has it. No piece has it unless the client asks for it."""
    for mode, wanted in (("native", [True] * 4), ("emulate", [False] * 3 + [True])):
        with with_log(served, "max_sectors=2", backend=["--filter=fua", "memory", "1M", f"fuamode={mode}"]) as server:
            client = server.client()
            for name in ("Write", "Trim", "Zero"):
                do(client, name, 4096, 0)
                do(client, name, 4096, 8192, nbd.CMD_FLAG_FUA)
                for place, has in ((0, [False] * 4), (8192, wanted)):
                    flags = [it[2] for it in logged(server, name) if place <= it[0] < place + 4096]
                    assert ["fua=1" in it for it in flags] == has, (mode, name, flags)


def no_hole(served):
    """Each piece of a zero has the flag that a hole may be made, unless the client asks for none."""
    with with_log(served, "max_sectors=2", backend=("memory", "1M")) as server:
        client = server.client()
        do(client, "Zero", 4096, 0)
        do(client, "Zero", 4096, 8192, nbd.CMD_FLAG_NO_HOLE)
        found = ["trim=1" in it[2] for it in logged(server, "Zero")]
        assert found == [True] * 4 + [False] * 4, logged(server, "Zero")


def smallest(served):
    """No piece of any kind is below the backend's smallest block, or ends inside one."""
    below = ["--filter=blocksize-policy", "memory", "1M", "blocksize-error-policy=error", "blocksize-minimum=4096",
             "blocksize-preferred=8192", "blocksize-maximum=1M"]
    for limits, wanted in ((["max_sectors=1"], [4096] * 8), (["chunk_sectors=20"], [4096, 8192, 8192, 4096, 8192]), (["max_sectors=17"], [8192] * 4)):
        with with_log(served, *limits, backend=below) as server:
            client = server.client()
            for name in CALLS:
                do(client, name, 32768, 8192)
                found = logged(server, name)
                assert [it[0] for it in found] == [8192 + sum(wanted[:n]) for n in range(len(wanted))], (limits, name, found)
                assert [it[1] for it in found] == wanted, (limits, name, found)


# ---- What fails, and what is set ----


def piece_fails(served):
    """The error of a piece in the middle is the request's error. Later pieces aren't done, and the request counts only as failed."""
    with Server(served, "max_sectors=2", backend=shell()) as server, closing(server.control()) as control:
        client = server.client()
        write(server, "full", *(f"{name} 3072" for name in CALLS.values()))
        for name, call in CALLS.items():
            assert done([client], [ask(client, name, 4096, 1024)]) == [errno.ENOSPC], name
            places = [it[2] for it in done_by(server, call)]
            assert places == [1024, 2048, 3072], (name, places)
            found, label = metrics_of(control), f'{{operation="{call.removeprefix("p")}"}}'
            counted = [found[f"blkq_{it}_total{label}"] for it in ("errors", "requests", "bytes", "pieces")]
            assert counted == [1, 0, 0, 2], (name, counted)
        assert control.ask("stat").startswith("stat reads 0 writes 0 again 0 eio 5 ")
        control.need("freeze", "depth 1")


def set_frozen(served):
    """Limits that are set while the queue is frozen hold at once for a client that connects, and for the requests after the thaw."""
    with Server(served, "size=1M") as server, closing(server.control()) as control:
        control.need("freeze", "depth 1")
        for physical in (32, 16, 8):
            control.need(f"set physical_sectors {physical} max_sectors 12", "ok")
            assert f" max 12 chunk 0 physical {physical} " in control.ask("stat")
            assert server.client().get_block_size(nbd.SIZE_PREFERRED) == max(4096, physical * SECTOR), physical
        client = server.client()
        cookie = client.aio_pread(nbd.Buffer(26 * SECTOR), 0)
        control.need("thaw", "depth 0")
        assert done([client], [cookie]) == [0]
        assert metrics_of(control)['blkq_pieces_total{operation="read"}'] == len(pieces(0, 26, (12, 0, 8))) == 3


if __name__ == "__main__":
    run_test(globals())
