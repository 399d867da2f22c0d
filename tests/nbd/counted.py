"""Tests what the metrics count: counted.py SERVED NAME runs one test."""

import errno
import json
import re
import sys
import time
from contextlib import closing, suppress

import nbd

from controls import metrics_of, slow, soon
from copies import blkqctl
from cuts import do
from gates import Paused, done_by, shell, write
from flushes import quiescing
from server import Server, run_test
from tries import done, fio, run

OPERATIONS = ("read", "write", "trim", "zero", "cache", "extents", "flush")
BOUNDS = [*(f"{2**n / 1e6:.9g}" for n in range(24)), "+Inf"]


def cumulative(found, name, operation):
    return [found[f'blkq_{name}_seconds_bucket{{operation="{operation}",le="{bound}"}}'] for bound in BOUNDS]


def text(served):
    """The text has the form that Prometheus reads: the help and type of a name come before its lines, and each histogram has its buckets in
    order, its sum and its count."""
    sample = re.compile(r'(blkq_\w+)\{disk="d b"(,\w+="[^"]+"(,le="[^"]+")?)?\} [0-9.]+(e-\d+)?')
    with Server(served, "name=d b") as server, closing(server.control()) as control:
        lines, name, kind = control.lines("metrics"), None, None
        for number, line in enumerate(lines[:-1]):
            if line.startswith("# HELP "):
                name, kind = line.split()[2], lines[number + 1].split()[3]
                assert lines[number + 1] == f"# TYPE {name} {kind}" and kind in ("counter", "gauge", "histogram"), line
            elif not line.startswith("# TYPE "):
                found = sample.fullmatch(line)
                ends = {"histogram": ("_bucket", "_sum", "_count"), "counter": ("_total",), "gauge": ("",)}[kind]
                assert found and found[1] in [name + end for end in ends], line
        for name in ("latency", "waiting"):
            wanted = [line for it in OPERATIONS for line in (
                *(f'blkq_{name}_seconds_bucket{{disk="d b",operation="{it}",le="{bound}"}} 0' for bound in BOUNDS),
                f'blkq_{name}_seconds_sum{{disk="d b",operation="{it}"}} 0.000000000',
                f'blkq_{name}_seconds_count{{disk="d b",operation="{it}"}} 0')]
            assert [line for line in lines if line.startswith(f"blkq_{name}_seconds")] == wanted, name


def parsed(served):
    """OpenMetrics' own parser takes the text, and two disks' samples on one host have no name and labels in common."""
    from prometheus_client.openmetrics.parser import text_string_to_metric_families

    found = []
    for name in ({}, {"name": "wal"}):
        with Server(served, *(f"{key}={value}" for key, value in name.items())) as server, closing(server.control()) as control:
            server.client().pwrite(bytes(512), 0)
            control.need("freeze", "depth 1")
            text = blkqctl(server, "metrics")
            samples = [it for family in text_string_to_metric_families(text) for it in family.samples]
            assert {it.labels["disk"] for it in samples} == {name.get("name", server.control_path)}
            values = {(it.name, it.labels.get("operation") or it.labels.get("state")): it.value for it in samples}
            assert values["blkq_requests_total", "write"] == 1 == values["blkq_state", "held"] and values["blkq_state", "running"] == 0
            found.append({(it.name, *sorted(it.labels.items())) for it in samples})
    assert len(found[0]) == len(found[1]) > 300 and not found[0] & found[1]


def of_freezes(served):
    """The metrics have the state, and since when the queue has been frozen. A failed flush stays visible although the next quiesce succeeds."""
    with Server(served, backend=shell()) as server, closing(server.control()) as control:
        assert metrics_of(control)["blkq_oldest_hold_seconds"] == 0 == metrics_of(control)["blkq_flush_lost"]
        control.need("freeze", "depth 1")
        time.sleep(0.2)
        control.need("freeze", "depth 2")
        found = metrics_of(control)
        assert found["blkq_oldest_hold_seconds"] >= 0.2 and found['blkq_state{state="held"}'] == 1
        control.need("thaw all", "depth 0")
        client = server.client()
        client.pwrite(bytes(512), 0)
        write(server, "unflushed", done_by(server, "pwrite")[0][1])
        control.need("quiesce", "flush: No space left on device")
        assert metrics_of(control)["blkq_flush_lost"] == 1
        write(server, "unflushed")
        control.need("quiesce", "depth 1")
        found = metrics_of(control)
        assert found["blkq_flush_lost"] == 1 and found['blkq_state{state="held"}'] == 1 and found['blkq_state{state="running"}'] == 0
    with Server(served, backend=shell()) as server, closing(server.control()) as control:
        client = server.client()
        client.pwrite(bytes(512), 0)
        write(server, "unflushed", done_by(server, "pwrite")[0][1])
        assert done([client], [client.aio_flush()]) != [0]
        assert metrics_of(control)["blkq_flush_lost"] == 1


def logged(served):
    """A failed request is logged with its operation, place and errno. Of many at once, ten are logged, and the number of the others."""
    with Server(served, backend=["--filter=error", "memory", "1M", "error=ENOSPC", "error-rate=100%"]) as server:
        client = server.client()
        for number, call in enumerate((lambda: client.pread(512, 512), lambda: client.pwrite(bytes(1024), 1024),
                                       lambda: client.trim(2048, 1536))):
            with suppress(nbd.Error):
                call()
                assert False, number
        for _ in range(139):
            assert done([client], [client.aio_pread(nbd.Buffer(512), 512)]) == [errno.ENOSPC]
        found = logged_of(server)
        for line in ("read of 512 bytes at 512", "write of 1024 bytes at 1024", "trim of 2048 bytes at 1536"):
            assert f"{line}: No space left on device ({errno.ENOSPC})" in found, found
        lines = len([line for line in found if " of " in line])
        time.sleep(11)
        assert done([client], [client.aio_pread(nbd.Buffer(512), 512)]) == [errno.ENOSPC]
        left_out = [int(line.split()[0]) for line in logged_of(server) if "not logged" in line]
        assert 10 <= lines < 142 and sum(left_out) == 142 - lines, (lines, left_out)


def logged_of(server):
    """The filter's own lines of the log."""
    return [line.split("error: blkq: ")[1] for line in server.said().splitlines() if "error: blkq: " in line]


def by_operation(served):
    """Each request is counted under its own operation, in each count and histogram."""
    with Server(served, backend=["memory", "1M"]) as server, closing(server.control()) as control:
        client = nbd.NBD()
        client.add_meta_context("base:allocation")
        client.connect_unix(server.socket)
        for times, name in enumerate(("Read", "Write", "Trim", "Zero", "Cache"), 1):
            for _ in range(times):
                do(client, name, 512 * times, 0)
        for _ in range(6):
            client.block_status(512, 0, lambda *_: 0)
        for _ in range(7):
            client.flush()
        client.shutdown()
        found = metrics_of(control)
        for times, name in enumerate(OPERATIONS, 1):
            label = f'{{operation="{name}"}}'
            counted = [found[f"blkq_{it}{label}"] for it in ("requests_total", "latency_seconds_count", "pieces_total")]
            assert counted == [times] * 3 and cumulative(found, "latency", name)[-1] == times, (name, counted)
            assert times > 5 or found[f"blkq_bytes_total{label}"] == 512 * times * times, name
            assert found[f"blkq_latency_seconds_sum{label}"] > 0 == found[f"blkq_errors_total{label}"], name
            assert found[f"blkq_waits_total{label}"] == found[f"blkq_waiting_seconds_sum{label}"] == 0, name


def of_many(served):
    """No request is missed if many threads make requests at the same time."""
    with Server(served, "size=32M") as server, closing(server.control()) as control:
        told = run(*fio(server, 8, bs="512", size="4m", offset_increment="4m", **{"output-format": "json"}))
        job = json.loads(told[told.index(b"{") :])["jobs"][0]
        found = metrics_of(control)
        for name in ("read", "write"):
            counted = [found[f'blkq_{it}_total{{operation="{name}"}}'] for it in ("requests", "pieces", "bytes")]
            made = job[name]["total_ios"]
            assert made > 16000 and counted == [made, made, 512 * made], (name, made, counted)
            assert cumulative(found, "latency", name)[-1] == made, name


def is_in_its_bucket(found, before, name):
    """Whether the one read between two texts is counted in the bucket of its duration, which is the growth of the sum, and in all above."""
    total = f'blkq_{name}_seconds_sum{{operation="read"}}'
    took = found[total] - before[total]
    grown = [now - then for now, then in zip(cumulative(found, name, "read"), cumulative(before, name, "read"))]
    wanted = [float(float(bound.replace("+", "")) >= took) for bound in BOUNDS]
    return grown == wanted or print(name, took, grown, file=sys.stderr)


def sums(served):
    """A histogram's sum is that of its durations in seconds, and a duration is counted in its own bucket and all above."""
    with slow(served, 0.1) as server, closing(server.control()) as control:
        client, began, found = server.client(), time.monotonic(), metrics_of(control)
        for _ in range(3):
            before = found
            client.pread(512, 0)
            found = metrics_of(control)
            assert is_in_its_bucket(found, before, "latency")
        took = time.monotonic() - began
        assert 0.3 <= found['blkq_latency_seconds_sum{operation="read"}'] <= took
        buckets = cumulative(found, "latency", "read")
        assert buckets[:17] == [0] * 17 and buckets[-1] == 3, buckets  # up to 0.065536 s
        control.need("freeze", "depth 1")
        began = time.monotonic()
        cookie = client.aio_pread(nbd.Buffer(512), 0)
        soon(lambda: metrics_of(control)["blkq_waiting"] == 1, "a request that waits isn't counted")
        time.sleep(0.3)
        control.need("thaw", "depth 0")
        assert done([client], [cookie]) == [0]
        took, before, found = time.monotonic() - began, found, metrics_of(control)
        waited = found['blkq_waiting_seconds_sum{operation="read"}']
        latency = found['blkq_latency_seconds_sum{operation="read"}'] - before['blkq_latency_seconds_sum{operation="read"}']
        assert 0.3 <= waited <= latency - 0.1 and latency <= took, (waited, latency, took)
        assert is_in_its_bucket(found, before, "waiting") and is_in_its_bucket(found, before, "latency")


def tag_waits(served):
    """If all tags are out, a request waits for a tag, is counted as waiting, and continues when a tag comes back."""
    with Server(served, "size=1M", "tags=1") as server, closing(server.control()) as control:
        clients = [server.client() for _ in range(3)]
        control.need("freeze", "depth 1")
        cookies = [client.aio_pread(nbd.Buffer(512), 0) for client in clients]
        soon(lambda: metrics_of(control)["blkq_waiting"] == 3, "not all wait")
        assert metrics_of(control)["blkq_tags_out"] == 1
        time.sleep(3)  # each has looked whether its client is still there: after a second, on a slow machine later
        leaving, kept = clients[2], clients[:2]
        server.drop(leaving)
        control.need("thaw", "depth 0")
        assert done(kept, cookies[:2]) == [0, 0]
        soon(lambda: metrics_of(control)["blkq_waiting"] == 0, "a request waits for a tag that is there")
        soon(lambda: metrics_of(control)["blkq_tags_out"] == 0, "a tag is out")
        found = metrics_of(control)  # anew, since the request of the client that left may have been counted meanwhile
        assert 2 <= found['blkq_waits_total{operation="read"}'] <= 3
        kept[0].pread(512, 0)
        assert metrics_of(control)['blkq_waits_total{operation="read"}'] == found['blkq_waits_total{operation="read"}']


def tag_in_flight(served):
    """A request waits for the tag of a request in flight. The server's end doesn't wait for waiting requests."""
    with Paused(served, "tags=1") as server, closing(server.control()) as control:
        first, second = server.client(), server.client()
        server.tell(b"p")
        cookies = [first.aio_pread(nbd.Buffer(512), 0)]
        soon(lambda: metrics_of(control)["blkq_tags_out"] == 1, "the request isn't in flight")
        cookies.append(second.aio_pwrite(nbd.Buffer(512), 0))
        soon(lambda: metrics_of(control)["blkq_waiting"] == 1, "a request that has no tag doesn't wait")
        server.tell(b"r")
        assert done([first, second], cookies) == [0, 0]
        found = metrics_of(control)
        for name, count in (("read", 0), ("write", 1)):
            assert found[f'blkq_waits_total{{operation="{name}"}}'] == count, name
            assert (found[f'blkq_waiting_seconds_sum{{operation="{name}"}}'] > 0) == (count > 0), name


def stages(served):
    """The metrics show where the time of a quiesce goes: the drain, the flush, and how long the queue was frozen in all."""
    with Server(served, backend=shell()) as server, closing(server.control()) as control:
        client, began = server.client(), time.monotonic()
        client.pwrite(bytes(512), 0)
        write(server, "held", "flush", "pread")
        cookie = client.aio_pread(nbd.Buffer(512), 0)
        soon(lambda: metrics_of(control)["blkq_tags_out"] == 1, "the request isn't in flight")
        with closing(server.control()) as draining:
            draining.at.sendall(b"freeze\n")
            soon(lambda: metrics_of(control)["blkq_freeze_depth"] == 1, "no freeze")
            time.sleep(0.2)
            write(server, "held", "flush")
            assert draining.replies.readline() == "depth 1\n"
            draining.need("thaw", "depth 0")
        assert done([client], [cookie]) == [0]
        first = metrics_of(control)
        assert 0.2 <= first["blkq_drain_seconds_total"] <= first["blkq_frozen_seconds_total"] <= time.monotonic() - began
        assert first["blkq_flush_seconds_total"] == 0
        with closing(quiescing(server)) as flushing:
            time.sleep(0.2)
            write(server, "held")
            assert flushing.replies.readline() == "depth 1\n"
            second = metrics_of(control)
        grown = {name: second[name] - first[name] for name in second}
        assert 0.2 <= grown["blkq_flush_seconds_total"] <= grown["blkq_frozen_seconds_total"]
        assert grown["blkq_drain_seconds_total"] <= grown["blkq_frozen_seconds_total"] - grown["blkq_flush_seconds_total"]


if __name__ == "__main__":
    run_test(globals())
