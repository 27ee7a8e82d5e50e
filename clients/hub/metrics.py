"""The numbers that a hub counts: as a client asks for them, as ztxg-ctl prints them, and as the page tells them."""

import json
import re
import signal
import socket
import struct
import subprocess
import threading
import time

from hubs import HEAD, TIMED, TOP, Client, Hub, want, wait_until
from pages import BOUNDS, asked, histogram, page, read_page

from tools.model.frames import CALLS, Opened, Server, opened_frame  # noqa: E402

FLUSH = (1, "flush", ())
REFUSALS = "NoMemory CutOff BadLength BadVersion BadKind BadCall BadRecord Surplus AnswersTooLong".split()
COUNTERS = """frames server_frames commits durable_commits undurable_commits read_bytes written_bytes connections
turned_away""".split()


def ctl(tests, hub, *words, **how):
    return tests.run(tests.ctl, hub.path, *words, **how).stdout.decode()


def stat(tests, hub):
    return json.loads(ctl(tests, hub, "stat", "--json"))


def numbers_by_themselves(tests):
    """check_numbers, and the page of long numbers that it prints."""
    program = tests.hub.parent / "check_numbers"
    if not program.exists():
        return "make tests builds it"
    text = tests.run(program).stdout.decode()
    samples, kinds = read_page(text)
    want(len(text) < 20_000 and len(kinds) == 29, "the page has", len(text), "bytes and", len(kinds), "names")
    counts = histogram(samples, "commit")
    want(counts == list(range(1_000, 1_026)), "the counts are", counts)
    want('ztxg_call_seconds_count{kind="commit"} 26325\n' in text, "the count isn't that of all calls")
    want('ztxg_longest_call_seconds{kind="durable_commit"} 18446744073.709551615\n' in text, "the last line is missing")
    want("ztxg_free_bytes 9223372036854775808\n" in text, "the free bytes")


def a_few_calls_by_hand(tests):
    """Frames, requests, refusals and bytes of some calls, as three readers tell them."""
    hub = Hub(tests, "--dirty", str(8 << 20), has_metrics=True)
    client = hub.client()
    before, begun = client.numbers(), time.monotonic()
    client.one("transact", [("c", 1, 0, b""), ("w", 1, 0, b"three"), ("w", 1, 9, b"more")])
    client.one("transact_durably", [("w", 1, 2, b"x" * 1_000), ("n", None, 0, b"pail"), ("l", 1, 90, b"")])
    client.ask((1, "read", (1, 0, 50)), (2, "read", (1, 80, 200)), (3, "read", (9, 0, 1)), (4, "length", (1,)))
    client.answers()
    client.one("transact", [("c", 1, 0, b"")])  # it exists
    client.one("transact_durably", [("w", 9, 0, b"lost")])  # no such object
    client.ask()
    client.answers()
    (synced,) = struct.unpack("<Q", client.one("sync")[1])
    first = client.opening.synced
    client.send(struct.pack("<IHHI", HEAD, 1, 9, 0))
    want(client.answers() == 5, "a frame of numbers isn't refused")
    for count, surplus, refusal in ((1, b"", 2), (0, b"\0", 8)):
        client.send(struct.pack("<IHHI", HEAD + len(surplus), 1, 8, count) + surplus)
        want(client.answers() == refusal, "a wrong question isn't refused", refusal)
    now = client.numbers()
    requests = dict(transact=2, transact_durably=2, read=3, length=1, sync=1)
    wanted = dict(
        frames=7, server_frames=7, most_shared_frames=1, commits=1, durable_commits=1, undurable_commits=0,
        read_bytes=60, written_bytes=1_009, syncs=synced - first, dirty_limit=8 << 20, clients=1, waiting_frames=0,
        requests=[requests.get(name, 0) for name in CALLS],
        refused_requests=[2 * (at == 9) + (at == 10) for at in range(1, 24)],
        refused_frames=[int(at in (2, 5, 8)) for at in range(1, 10)],
    )  # fmt: skip
    for name, value in wanted.items():
        want(now[name] == value, name, "is", now[name], "and not", value)
    want([sum(now[kind]["counts"]) for kind in TIMED] == [3, 2, 2], "the calls are", [now[kind] for kind in TIMED])
    took = 1e9 * (time.monotonic() - begun)
    want(0 < now["commit"]["sum"] + now["durable_commit"]["sum"] < took, "one after the other took", took, now)
    for name in ("connections", "most_clients", "turned_away"):
        want(now[name] == before[name], name, "changed")
    want(0 < now["age"] - before["age"] < 120e9, "the age is", now["age"])
    as_page(hub, now, first)
    as_json(tests, hub, now, first)
    as_lines(tests, hub, now, first)
    hub.end()


def as_page(hub, now, first):
    """The page has these numbers, and to look at it changes none."""
    for _ in range(2):
        samples = page(hub.metrics)
        for name in COUNTERS:
            want(samples[f"ztxg_{name}_total",] == now[name], name, "is", samples[f"ztxg_{name}_total",])
        for call, value in zip(CALLS, now["requests"]):
            want(samples["ztxg_requests_total", f"kind={call}"] == value, call, "isn't", value)
        for name, value in zip(REFUSALS, now["refused_frames"]):
            want(samples["ztxg_refused_frames_total", f"refusal={name}"] == value, name, "isn't", value)
        want(samples["ztxg_refused_requests_total", "refusal=NoObject"] == 2, "NoObject")
        want(samples["ztxg_refused_requests_total", "refusal=Exists"] == 1, "Exists")
        for kind in TIMED:
            want(histogram(samples, kind) == now[kind]["counts"], "the times of", kind, "are", histogram(samples, kind))
            seconds = samples["ztxg_call_seconds_sum", f"kind={kind}"]
            want(abs(seconds - now[kind]["sum"] / 1e9) < 1e-8, "the sum of", kind, "is", seconds)
            longest = samples["ztxg_longest_call_seconds", f"kind={kind}"]
            want(abs(longest - now[kind]["longest"] / 1e9) < 1e-8, "the longest", kind, "is", longest)
        want(samples["ztxg_up",] == 1 and samples["ztxg_dirty_limit_bytes",] == 8 << 20, "the pool's numbers")
        want(samples["ztxg_syncs_total",] == samples["ztxg_synced_group",] - first > 0, "the synced groups")
        want(samples["ztxg_free_bytes",] % 4_096 == 0, "the free blocks are", samples["ztxg_free_bytes",] / 4_096)


def as_json(tests, hub, now, first):
    """The numbers of ztxg-ctl. It asks for the pool's first, and another program's do nothing meanwhile."""
    said = stat(tests, hub)
    changed = {"clients", "most_clients", "connections", "frames", "server_frames", "age", "syncs"}
    for name in now.keys() - changed - set(TIMED) - {"requests", "refused_requests", "refused_frames"}:
        want(said[name] == now[name], name, "is", said[name], "and not", now[name])
    want(said["frames"] == now["frames"] + 1 and said["clients"] == 2, "ztxg-ctl itself isn't counted")
    want(said["syncs"] == said["synced"] - first > 0 and said["seconds"] > now["age"] / 1e9, "the groups are", said)
    want(list(said["requests"]) == list(CALLS) and said["requests"]["status"] == 1, "requests", said["requests"])
    want(list(said["refused_frames"]) == REFUSALS, "the names are", list(said["refused_frames"]))
    for name in ("refused_requests", "refused_frames"):
        want(list(said[name].values()) == now[name], name, "are", said[name])
    for kind in TIMED:
        times, counted = said["times"][kind], now[kind]
        want(times["counts"] == counted["counts"] and times["calls"] == sum(counted["counts"]), kind, times)
        want(0 <= times["longest_us"] * 1_000 - counted["longest"] < 1_000, "the longest is", times["longest_us"])
        for name, part in (("median_us", 0.5), ("percentile_99_us", 0.99)):
            want(times[name] == percentile(counted, part), name, "of", kind, "is", times[name])


def percentile(times, part):
    """The bound of the first bucket below which so many lie, or the longest time if that is less."""
    longest = -(-times["longest"] // 1_000)
    below, needed = 0, sum(times["counts"]) * part
    for bound, count in zip(BOUNDS, times["counts"]):
        below += count
        if below >= needed:
            return min(bound, longest)
    return longest


def as_lines(tests, hub, now, first):
    """Lines of a path and a number, without the refusals that never came."""
    lines = dict(line.split(" ", 1) for line in ctl(tests, hub, "stat").splitlines())
    for name, value in (("commits", 1), ("written_bytes", 1_009), ("dirty_limit", 8 << 20)):
        want(lines[name] == str(value), name, "is", lines[name])
    want(int(lines["syncs"]) == int(lines["synced"]) - first, "syncs is", lines["syncs"])
    refused = {name: value for name, value in lines.items() if name.startswith("refused")}
    wanted = {"refused_requests.NoObject": "2", "refused_requests.Exists": "1"}
    wanted |= {f"refused_frames.{name}": "1" for name in ("CutOff", "BadKind", "Surplus")}
    want(refused == wanted, "the refusals are", refused)
    counts = [int(word) for word in lines["times.commit.counts"].split()]
    want(counts == now["commit"]["counts"] and lines["times.commit.calls"] == "2", "the times are", counts)


def a_shared_frame(tests):
    """Each commit is counted once, though two clients share a frame to the server. Its time is from its whole frame
    on."""
    program, record = tests.recorder(0.5)
    hub = Hub(tests, program=program, has_metrics=True)
    clients = [hub.client() for _ in range(4)]
    clients[0].ask(FLUSH)
    wait_until(record.exists, "the first frame")
    clients[1].ask((1, "transact_durably", [("c", 1, 0, b""), ("w", 1, 0, b"12345")]))
    durable = [("c", 3, 0, b""), ("w", 3, 5, b"678")]
    clients[2].ask((1, "transact", [("c", 2, 0, b"")]), (2, "transact_durably", durable))
    wait_until(lambda: clients[3].numbers()["waiting_frames"] == 3, "the frames")
    for client in clients[:3]:
        client.answers()
    now = clients[3].numbers()
    wanted = dict(
        frames=3, server_frames=2, most_shared_frames=2, commits=1, durable_commits=2, written_bytes=8,
        waiting_frames=0, clients=4,
    )  # fmt: skip
    for name, value in wanted.items():
        want(now[name] == value, name, "is", now[name], "and not", value)
    for kind, count in (("commit", 1), ("durable_commit", 2)):
        times = now[kind]
        want(sum(times["counts"]) == count and not any(times["counts"][:19]), "the times of", kind, "are", times)
        want(times["longest"] >= 4.9e8 and times["sum"] >= count * 4.9e8, "the times of", kind, "are", times)
    clients[1].close()
    want(page(hub.metrics)["ztxg_durable_commits_total",] == 2, "the page has another number")
    hub.end()


def a_gone_client_is_counted(tests):
    """What was asked is made, and counted, also if its client is gone."""
    program, record = tests.recorder(0.3)
    hub = Hub(tests, program=program)
    one, other = hub.client(), hub.client()
    one.ask((1, "transact", [("c", 1, 0, b""), ("w", 1, 0, b"12345")]))
    wait_until(record.exists, "the first frame")
    one.close()
    wait_until(lambda: other.numbers()["clients"] == 1, "the end of the client")
    now = other.numbers()
    want((now["commits"], now["written_bytes"], now["requests"][0]) == (1, 5, 1), "the numbers are", now)
    hub.end()


def limits_are_counted(tests):
    hub = Hub(tests, "--max-clients", "2")
    one, two = hub.client(), hub.client()
    before = one.numbers()
    for _ in range(3):
        Client(hub.path).close()
    now = one.numbers()
    want(now["turned_away"] == before["turned_away"] + 3 and now["connections"] == before["connections"], now)
    want((now["clients"], now["most_clients"]) == (2, 2), now)
    two.close()
    wait_until(lambda: one.numbers()["clients"] == 1, "the end of the client")
    want(one.numbers()["most_clients"] == 2, "the most clients are forgotten")
    hub.end()


def stat_again_and_again(tests):
    """--watch prints rates since the last time, until a signal or the hub's end."""
    hub = Hub(tests)
    words = [str(tests.ctl), str(hub.path), "stat", "--watch", "0.5"]
    begin = lambda *more: subprocess.Popen([*words, *more], stdout=subprocess.PIPE, stderr=subprocess.PIPE, text=True)
    rows, objects = begin(), begin("--json")
    client = hub.client()
    objects.stdout.readline()
    client.one("transact", [("c", 1, 0, b"")])
    for at in range(10):
        client.one("transact_durably", [("w", 1, at, b"x" * 100)])
        client.one("read", 1, 0, 50)
    wanted = dict(commits=1, durable_commits=10, reads=10, read_bytes=500, written_bytes=1_000)
    found = dict.fromkeys(wanted, 0.0)
    for row in range(100):
        if row >= 4 and found["durable_commits"] > 9.8:
            break
        rates = json.loads(objects.stdout.readline())["rates"]
        for name in found:
            found[name] += rates[name] * rates["seconds"]
        for kind, rate in (("commit", "commits"), ("durable_commit", "durable_commits"), ("read", "reads")):
            times = rates[kind]
            want((times["median_us"] is None) == (rates[rate] == 0), "the times are", times, "at", rates[rate])
            if times["median_us"]:
                want(0 < times["median_us"] <= times["percentile_99_us"], "the times are", times)
    want(all(abs(found[name] / wanted[name] - 1) < 0.02 for name in wanted), "the rates are those of", found)
    objects.terminate()
    want(objects.wait() == -signal.SIGTERM, "a signal doesn't end it")
    hub.end()
    said, errors = rows.communicate(timeout=60)
    want(rows.returncode == 3 and "ended" in errors, "it ends with", rows.returncode, errors)
    head, *lines = said.splitlines()
    want(len(head.split()) == 13 and len(lines) >= 2, "it prints", said)
    want(all(len(line.split()) == 13 for line in lines), "it prints", said)
    for words, text in ((["--watch", "0"], "above 0"), (["--watch", "x"], "above 0"), (["-l"], "other words")):
        want(text in tests.run(tests.ctl, hub.path, "stat", *words, status=2).stderr.decode(), words)
    for command in (["status", "--json"], ["ls", "--watch", "1"]):
        want(b"other words" in tests.run(tests.ctl, hub.path, *command, status=2).stderr, command)


def an_older_hub(tests):
    """One that refuses the question for its numbers."""
    path, server = tests.folder / "older", Server()
    listener = socket.socket(socket.AF_UNIX)
    listener.bind(str(path))
    listener.listen()

    def serve():
        client, _ = listener.accept()
        with client, client.makefile("rb") as source:
            client.sendall(opened_frame(Opened(77, 8, 0)))
            while head := source.read(4):
                client.sendall(server.answer(head + source.read(int.from_bytes(head, "little") - 4)))

    thread = threading.Thread(target=serve, daemon=True)
    thread.start()
    ran = tests.run(tests.ctl, path, "stat", status=3)
    want(b"the hub is older than ztxg-ctl" in ran.stderr and not ran.stdout, ran)
    thread.join()
    listener.close()


def other_answers(tests):
    """A commit that couldn't be made durable, and a pool that refuses to tell its numbers."""
    program, _ = tests.recorder(0)
    change = r"""    answer = frame(server.stdout)
    content, refusal = answer[20:], b"\5" + bytes(16)
    if content[:1] == b"\2":
        content = b"\x0b" + content[1:] + refusal
    if content[:1] == b"\6":
        content = b"\0" + refusal
    tell((20 + len(content)).to_bytes(4, "little") + answer[4:20] + content)
server"""
    text = program.read_text()
    program.write_text(text.replace("    tell(frame(server.stdout))\nserver", change))
    want(program.read_text() != text, "the program wasn't changed")
    hub = Hub(tests, program=program, has_metrics=True)
    client = hub.client()
    client.one("transact", [("c", 1, 0, b"")])
    want(client.one("transact_durably", [("w", 1, 0, b"four")])[0] == 11, "the answer isn't changed")
    want(client.one("status")[0] == 0, "the answer isn't changed")
    now = client.numbers()
    found = [now[name] for name in ("commits", "durable_commits", "undurable_commits", "written_bytes", "syncs")]
    want(found == [1, 0, 1, 4, 0], "the numbers are", found)
    want(now["refused_requests"] == [int(at == 5) for at in range(1, 24)], "refused are", now["refused_requests"])
    want(sum(now["durable_commit"]["counts"]) == 1, "the times are", now["durable_commit"])
    samples = page(hub.metrics)
    want(samples["ztxg_up",] == 0 and samples["ztxg_undurable_commits_total",] == 1, "the page is", samples)
    ran = tests.run(tests.ctl, hub.path, "stat", status=1)
    want(b"refused 5 Suspended" in ran.stderr and not ran.stdout, ran)
    hub.end()


def keys_are_documented(tests):
    """The man pages have each key of ztxg-ctl and each name of the page."""
    hub = Hub(tests, has_metrics=True)
    page_text = asked(hub.metrics)[2].decode()
    man = {name: (TOP / f"docs/{name}.1").read_text().replace("\\-", "-") for name in ("ztxg-hub", "ztxg-ctl")}
    for name in read_page(page_text)[1]:
        want(name.removeprefix("ztxg_") in man["ztxg-hub"], "ztxg-hub.1 doesn't have", name)

    def keys(said):
        for key, value in said.items():
            yield key
            yield from keys(value) if isinstance(value, dict) else ()

    said = stat(tests, hub)
    for key in keys({**said, "requests": {}, "refused_requests": {}, "refused_frames": {}}):
        want(re.search(rf"\b{key}\b", man["ztxg-ctl"]), "ztxg-ctl.1 doesn't have", key)
    hub.end()


TESTS = [
    numbers_by_themselves,
    a_few_calls_by_hand,
    a_shared_frame,
    a_gone_client_is_counted,
    limits_are_counted,
    other_answers,
    stat_again_and_again,
    an_older_hub,
    keys_are_documented,
]
