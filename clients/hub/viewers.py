"""Viewers: those who look at the page of metrics, and mean harm or not."""

import collections
import os
import random
import signal
import socket
import struct
import subprocess
import threading
import time

from hubs import HEAD, HOLDING, Client, Fault, Hub, processor_time, want, wait_until
from pages import GOOD, all_of, asked, connect, page

from tools.model.frames import CALLS  # noqa: E402

STATUS, FLUSH = (1, "status", ()), (1, "flush", ())
POOL = "synced_group syncing_group middle_group open_group dirty_bytes free_bytes available_bytes".split()


def a_page_at_any_time(tests):
    """The pool is asked also while a client holds the turn. If it doesn't answer within a second, the page is without
    its numbers."""
    hub = Hub(tests, has_metrics=True)
    one = hub.client()
    one.ask(STATUS, kind=HOLDING)
    one.answers()
    begun = time.monotonic()
    want(page(hub.metrics)["ztxg_up",] == 1, "a turn keeps the page waiting")
    want(time.monotonic() - begun < 5, "the page took", time.monotonic() - begun)
    one.ask(FLUSH)
    one.answers()
    os.kill(hub.server, signal.SIGSTOP)
    one.ask((1, "transact", [("c", 1, 0, b"")]))
    begun = time.monotonic()
    for _ in range(2):
        samples = page(hub.metrics)
        want(samples["ztxg_up",] == 0 and samples["ztxg_waiting_frames",] == 1, "the page is", samples)
        want(not any((f"ztxg_{name}",) in samples for name in POOL), "old numbers of the pool are told")
    want(1.9 < time.monotonic() - begun < 20, "the pages took", time.monotonic() - begun)
    waiting = connect(hub.metrics)
    waiting.sendall(GOOD)
    waiting.shutdown(socket.SHUT_WR)
    os.kill(hub.server, signal.SIGCONT)
    want(one.answers()[0].came == 1, "the client isn't answered")
    want(b"ztxg_commits_total" in all_of(waiting), "a viewer that ended its output gets no page")
    want(page(hub.metrics)["ztxg_up",] == 1, "the pool isn't asked any more")
    os.kill(hub.server, signal.SIGSTOP)
    waiting = connect(hub.metrics)
    waiting.sendall(GOOD)
    time.sleep(0.2)
    os.kill(hub.server, signal.SIGKILL)
    want(b"ztxg_up 0" in all_of(waiting), "a viewer isn't told at the server's end")
    hub.ends(128 + 9)


def a_refused_batch_with_a_look(tests):
    """The hub asks again for the pool's numbers if the server had no memory for them beside a client's frame."""
    program, record = tests.recorder(0.3)
    refusal = 'if content[8] > 1: tell(bytes.fromhex("0c0000000100030001000000")); continue'
    before = "    server.stdin.write(content)"
    program.write_text(program.read_text().replace(before, f"    {refusal}\n{before}"))
    hub = Hub(tests, program=program, has_metrics=True)
    one, two = hub.client(), hub.client()
    one.ask(FLUSH)
    wait_until(record.exists, "the first frame")
    two.ask(FLUSH)
    viewer = connect(hub.metrics)
    viewer.sendall(GOOD)
    for client in (one, two):
        want(client.answers()[0].came == 8, "a client isn't answered")
    want(b"\nztxg_up " in all_of(viewer), "there is no page")
    wait_until(lambda: page(hub.metrics)["ztxg_up",] == 1, "the pool's numbers")
    want("2" in record.read_text().split(), "the requests went one by one")
    numbers = one.numbers()
    want((numbers["frames"], numbers["requests"][CALLS["flush"] - 1]) == (2, 2), "the numbers are", numbers)
    hub.end()


# Requests, and the statuses of their answers.
REQUESTS = [
    (GOOD, 200),
    (b"GET /metrics HTTP/1.0\r\n\r\n", 200),
    (b"GET /metrics HTTP/1.0\n\n", 200),
    (b"GET /metrics?name[]=ztxg_up HTTP/1.1\r\nHost: x\r\nAccept: */*\r\n\r\n", 200),
    (GOOD + b"surplus" * 1_000, 200),
    (b"GET /metrics HTTP/1.1\r\n" + b"X: y\r\n" * 1_300 + b"\r\n", 200),
    (b"GET / HTTP/1.1\r\n\r\n", 404),
    (b"GET /metricsx HTTP/1.1\r\n\r\n", 404),
    (b"GET /metrics/ HTTP/1.1\r\n\r\n", 404),
    (b"GET /metric HTTP/1.1\r\n\r\n", 404),
    (b"GET  /metrics HTTP/1.1\r\n\r\n", 404),
    (b"HEAD /metrics HTTP/1.1\r\n\r\n", 405),
    (b"POST /metrics HTTP/1.1\r\nContent-Length: 3\r\n\r\nabc", 405),
    (b"get /metrics HTTP/1.1\r\n\r\n", 405),
    (b"GETT /metrics HTTP/1.1\r\n\r\n", 405),
    (b"GET /metrics HTTP/2.0\r\n\r\n", 400),
    (b"GET /metrics HTTP/1.2\r\n\r\n", 400),
    (b"GET /metrics HTTP/1.11\r\n\r\n", 400),
    (b"GET /metrics\r\n\r\n", 400),
    (b"GET HTTP/1.1\r\n\r\n", 400),
    (b" HTTP/1.1\r\n\r\n", 400),
    (b"\r\n", 400),
    (b"\n", 400),
    (b"\0\n\n", 400),
    (b"\0" * 100 + b"\n\n", 400),
    (b"GET /met\0rics HTTP/1.1\n\n", 404),
    (b"x" * 2_047 + b"\n\n", 400),
    (b"x" * 2_049, None),
    (b"GET /metrics HTTP/1.1\r\n" + b"x" * 2_100 + b"\r\n\r\n", None),
    (b"GET /metrics HTTP/1.1\r\n" + b"X: y\r\n" * 1_400 + b"\r\n", None),
    (struct.pack("<IHHI", HEAD, 1, 8, 0), None),
    (b"", None),
    (b"GET /metrics HTTP/1.1\r\n", None),
]


def requests_of_viewers(tests):
    hub = Hub(tests, has_metrics=True)
    for request, wanted in REQUESTS:
        begun = time.monotonic()
        status, fields, body = asked(hub.metrics, request)
        want(status == wanted, request[:60], "is answered", status, "and not", wanted)
        want(bool(body) == (status == 200), "the body of", request[:60], "is", body[:100])
        want((status == 405) == ("Allow" in fields), "the fields are", fields)
        want(time.monotonic() - begun < 20, "it took", time.monotonic() - begun)
    viewer = connect(hub.metrics)
    for at in range(len(GOOD)):
        viewer.sendall(GOOD[at : at + 1])
        time.sleep(0.002)
    want(b"200 OK" in all_of(viewer), "a request byte by byte isn't answered")
    viewer = connect(hub.metrics)
    begun = time.monotonic()
    try:
        while time.monotonic() - begun < 20:
            viewer.sendall(b"X")
            time.sleep(0.1)
        raise Fault("a request has any time")
    except OSError:
        pass
    want(time.monotonic() - begun > 0.8, "a request has", time.monotonic() - begun, "seconds")
    hub.end()


def hostile_viewers(tests):
    """A thousand connections, some that never read, and bytes by chance hurt no client and no later viewer."""
    hub, chance = Hub(tests, has_metrics=True), random.Random(tests.chosen.seed)
    good, end = hub.client(), time.monotonic() + 6
    good.one("transact", [("c", 1, 0, b"")])
    faults, counts = [], collections.Counter()

    def harm(chance):
        try:
            while time.monotonic() < end:
                content = chance.choice([GOOD, GOOD[: chance.randrange(40)], chance.randbytes(chance.randrange(9_000))])
                with socket.socket(socket.AF_UNIX) as viewer:
                    viewer.settimeout(chance.choice([0.05, 0.5]))
                    try:
                        viewer.connect(str(hub.metrics))
                        viewer.sendall(content)
                        if chance.random() < 0.5:
                            viewer.recv(chance.choice([1, 100_000]))
                        counts["requests"] += 1
                    except OSError:
                        pass
        except BaseException as fault:  # noqa: B902
            faults.append(fault)

    threads = [threading.Thread(target=harm, args=(random.Random(f"{tests.chosen.seed} {at}"),)) for at in range(4)]
    for thread in threads:
        thread.start()
    waiting, turned = [], 0
    for at in range(1_000):
        viewer = socket.socket(socket.AF_UNIX)
        viewer.setblocking(False)
        try:
            viewer.connect(str(hub.metrics))
            if at % 3 == 0:
                viewer.sendall(GOOD)  # it never reads
            waiting.append(viewer)
        except OSError:
            turned += 1
            viewer.close()
    longest, count = 0, 0
    while time.monotonic() < end:
        begun = time.monotonic()
        want(good.one("transact_durably", [("w", 1, count % 90, b"x")])[0] == 2, "a client isn't answered")
        longest, count = max(longest, time.monotonic() - begun), count + 1
    for thread in threads:
        thread.join()
    want(not faults, faults)
    for viewer in waiting:
        viewer.close()
    want(len(waiting) > 16 and turned, "there were", len(waiting), "viewers at once, and", turned, "turned away")
    want(count > 5 and longest < 20, "the client was answered", count, "times, at the longest after", longest)
    samples = page(hub.metrics)
    want(samples["ztxg_durable_commits_total",] == count and samples["ztxg_up",] == 1, "the page is", samples)
    silent = [connect(hub.metrics) for _ in range(20)]
    before = processor_time(hub.process.pid)
    time.sleep(0.8)
    want(processor_time(hub.process.pid) - before < 0.3, "the hub works while viewers wait")
    begun = time.monotonic()
    want(page(hub.metrics)["ztxg_up",] == 1, "the page is without the pool")
    want(time.monotonic() - begun < 20, "silent viewers keep another one waiting:", time.monotonic() - begun)
    want([all_of(viewer) for viewer in silent] == [b""] * 20, "a silent viewer is told something")
    print(f"{counts['requests']} hostile requests, {len(waiting)} viewers at once, {count} commits")
    hub.end()


def users_of_metrics(tests):
    """Those who may come as clients may look."""
    if os.geteuid():
        return "it needs root"
    for options, wanted in (([], 403), (["--user", "12345"], 200)):
        hub = Hub(tests, "--mode", "666", *options, has_metrics=True)
        for folder in (hub.folder, hub.folder.parent):
            folder.chmod(0o755)
        status = as_user(12345, hub.metrics)
        want(status == wanted, "the user is told", status, "and not", wanted)
        want(asked(hub.metrics)[0] == 200, "root isn't told")
        hub.end()


def as_user(user, path):
    """The status of the answer to a user."""
    source, sink = os.pipe()
    child = os.fork()
    if not child:
        try:
            os.setgroups([])
            os.setgid(user)
            os.setuid(user)
            os.write(sink, str(asked(path)[0]).encode())
        finally:
            os._exit(0)
    os.close(sink)
    os.waitpid(child, 0)
    said = os.read(source, 1_000).decode()
    os.close(source)
    return int(said)


def sockets_of_metrics(tests):
    hub = Hub(tests, has_metrics=True)
    want(hub.metrics.stat().st_mode & 0o777 == 0o600, "the mode is", oct(hub.metrics.stat().st_mode))
    other = Hub(tests, "--metrics", hub.metrics)
    want(other.process.wait() == 3 and "a process listens on it" in other.said(), other.said())
    want(not other.path.exists(), "a socket was left")
    path = tests.folder / "same"
    same = Hub(tests, "--socket", path, "--metrics", path)
    want(same.process.wait() == 3 and "a process listens on it" in same.said(), same.said())
    want(not path.exists(), "a socket was left")
    hub.kill()
    want(hub.metrics.exists(), "there is no dead socket")
    hub = Hub(tests, "--mode", "660", "--wait", "60", folder=hub.folder, has_metrics=True)
    want(hub.metrics.stat().st_mode & 0o777 == 0o660, "the mode is", oct(hub.metrics.stat().st_mode))
    want(page(hub.metrics)["ztxg_clients",] == 0, "there are clients")
    hub.end()
    without = Hub(tests)
    want(not without.metrics.exists(), "there is a socket of metrics")
    without.end()


def begin_given(tests, hub, names):
    """A hub with given sockets of these names, and the paths of these."""
    paths = [hub.folder / f"given {at} of {' '.join(names)}" for at in range(len(names))]
    given = [socket.socket(socket.AF_UNIX) for _ in names]
    for file, path in zip(given, paths):
        file.bind(str(path))
        file.listen()

    def give():
        for at, file in enumerate(given):
            os.dup2(file.fileno(), 30 + at)
        for at in range(len(given)):
            os.dup2(30 + at, 3 + at)

    script = f'LISTEN_FDS={len(names)} LISTEN_FDNAMES={":".join(names)} LISTEN_PID=$$ exec "$0" "$@"'
    words = ["sh", "-c", script, str(tests.hub), str(hub.file), "--program", tests.program, "--socket", str(hub.path)]
    process = subprocess.Popen(words, preexec_fn=give, close_fds=False, stderr=subprocess.PIPE, text=True)
    for file in given:
        file.close()
    return process, paths


def given_sockets(tests):
    """Socket activation: the socket with the name metrics is for viewers, at either place."""
    hub = Hub(tests)
    hub.end()
    for names in (["metrics", "hub.socket"], ["hub.socket", "metrics"], ["metrics"]):
        process, paths = begin_given(tests, hub, names)
        of = dict(zip(names, paths))
        if len(names) == 1:
            wait_until(hub.path.exists, "the hub's socket")
        want(Client(of.get("hub.socket", hub.path)).one("flush")[0] == 8, "a client isn't answered")
        want(page(of["metrics"])["ztxg_up",] == 1, "a viewer isn't answered")
        process.terminate()
        process.communicate()
        want(process.returncode == 0 and all(path.exists() for path in paths), "a given socket was removed")
        want(not hub.path.exists(), "the hub's own socket is still there")
    twice = "two sockets are given for one purpose"
    for names, cause in ((["one", "other"], twice), (["metrics"] * 2, twice), (["one"] * 3, "one or two have to be")):
        process, _ = begin_given(tests, hub, names)
        said = process.communicate()[1]
        want(process.returncode == 3 and cause in said, names, "are taken:", process.returncode, said)


TESTS = [
    a_page_at_any_time,
    a_refused_batch_with_a_look,
    requests_of_viewers,
    hostile_viewers,
    users_of_metrics,
    sockets_of_metrics,
    given_sockets,
]
