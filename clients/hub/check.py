#!/usr/bin/env python3
"""Tests of ztxg-hub and ztxg-ctl on a program: `check.py --bin FOLDER --program PROGRAM [TEST ..]`. FOLDER has both."""

import argparse
import os
import pathlib
import shutil
import signal
import socket
import struct
import subprocess
import sys
import threading
import time

from hubs import HOLDING, READING_ON, TOP, Client, Fault, Hub, Tests, processor_time, want, wait_until
import hostile
import kills
import metrics
import viewers

from tools.model.frames import Server, Unopened  # noqa: E402
from topzerad import Ended, FileForbidden, FileInUse, FileMissing, Pool, create, set_length, write  # noqa: E402

MIB = 1 << 20
STATUS, FLUSH = (1, "status", ()), (1, "flush", ())


def clients_share_a_pool(tests):
    """The numbers of requests are each client's own, and what one commits the other reads."""
    hub = Hub(tests)
    one, other = hub.client(), hub.client()
    for client in (one, other):
        client.ask((5, "length", (1,)), (2**64 - 1, "name", ()), (5, "status", ()))
    for client in (one, other):
        want([answer.number for answer in client.answers()] == [5, 2**64 - 1, 5], "numbers")
    came, _ = one.one("transact_durably", [("c", 1, 0, b""), ("w", 1, 0, b"one")])
    want(came == 2, "it isn't committed", came)
    want(other.one("read", 1, 0, 100) == (3, struct.pack("<I", 3) + b"one"), "it isn't read")
    one.ask()
    want(one.answers() == [], "an empty frame")
    one.close()
    want(other.one("length", 1) == (4, struct.pack("<Q", 3)), "the other one isn't answered any more")
    hub.end()


def frames_that_wait_share_a_flush(tests):
    """While the server works, frames gather. They go in the order in which they came, as many as fit."""
    program, record = tests.recorder(0.5)
    hub = Hub(tests, program=program)
    clients = [hub.client() for _ in range(7)]
    clients[0].ask(FLUSH)
    wait_until(record.exists, "the first frame")
    for at, client in enumerate(clients[1:], 1):
        client.ask((at, "transact_durably", [("c", at, 0, b"")]), STATUS)
        time.sleep(0.01)
    for client in clients:
        client.answers()
    want(record.read_text().split() == ["1", "12"], "frames of", record.read_text().split(), "requests")
    record.unlink()
    clients[0].ask(FLUSH)
    wait_until(record.exists, "the first frame")
    for client in clients[1:3]:
        client.ask((1, "read", (1, 0, 3 * MIB)))
        time.sleep(0.01)
    for client in clients[:3]:
        client.answers()
    want(record.read_text().split() == ["1", "1", "1"], "the answers of a frame may be too long for one frame")
    hub.end()


def a_turn_is_held(tests):
    """No frame comes before the next one of the client that holds the turn, unless that takes too long."""
    program, record = tests.recorder(0.1)
    hub = Hub(tests, "--timeout", "5", program=program)
    one, other = hub.client(), hub.client()

    def order():
        """The requests of frames: a frame of the first client has two, and of the other three."""
        return record.read_text().split()

    one.ask((1, "transact", [("c", 1, 0, b""), ("l", 1, 9, b"")]), STATUS, kind=HOLDING)
    wait_until(record.exists, "the first frame")
    other.ask(FLUSH, FLUSH, FLUSH)
    one.answers()
    time.sleep(0.3)
    want(order() == ["2"], "another client's frame came between:", order())
    one.ask(STATUS, (1, "read", (1, 3, 9)), kind=READING_ON)
    one.answers()
    one.ask(STATUS, (1, "read", (1, 3, 10)), kind=READING_ON)
    one.answers()
    other.answers()
    want(order() == ["2", "2", "2", "3"], "the order is", order())
    one.ask(STATUS, STATUS, kind=HOLDING)
    one.answers()
    other.ask(FLUSH, FLUSH, FLUSH)
    other.answers()
    want(one.is_ended() and "held the turn too long" in hub.said(), "the turn has no end", hub.said())
    one = hub.client()
    one.ask(STATUS, STATUS, kind=HOLDING)
    one.answers()
    one.close()
    other.ask(FLUSH, FLUSH, FLUSH)
    other.answers()
    hub.end()


def reads_are_of_one_moment(tests):
    """A read of several pieces, while another client changes both ends of the object at once."""
    hub = Hub(tests)
    length, is_over = 3 * MIB, threading.Event()
    get = [tests.ctl, hub.path, "get", "3"]

    def change():
        with Pool(socket=hub.path) as pool:
            at = 0
            while not is_over.is_set():
                at = at % 250 + 1
                pool.transact([write(3, 0, bytes([at])), write(3, length - 1, bytes([at]))])

    with Pool(socket=hub.path) as pool:
        pool.transact([create(3), set_length(3, length)])
        thread = threading.Thread(target=change)
        thread.start()
        try:
            for at in range(20):
                content = tests.run(*get).stdout if at % 2 else pool.read(3)
                want(content[0] == content[-1], "the ends are", content[0], content[-1])
        finally:
            is_over.set()
            thread.join()
        want(content[0] > 0, "nothing changed")
    hub.end()


def names_of_several_clients(tests):
    """Clients put the same names, and remove some. Each name has one object, and each object one client's bytes."""
    hub, faults = Hub(tests), []

    def put(at):
        try:
            with Pool(socket=hub.path) as pool:
                for turn in range(6):
                    pool.put(f"own {at} {turn}", bytes([at]) * 10)
                    pool.put("shared", bytes([at]) * 50_000)
                    tests.run(tests.ctl, hub.path, "put", "@shared", input=bytes([at + 10]) * 50_000)
                    tests.run(tests.ctl, hub.path, "put", f"@own {at} {turn}", input=bytes([at]) * 10)
                    if turn % 2:
                        pool.remove(f"own {at} {turn}")
        except Exception as fault:
            faults.append(fault)

    threads = [threading.Thread(target=put, args=(at,)) for at in range(1, 5)]
    for thread in threads:
        thread.start()
    for thread in threads:
        thread.join()
    want(not faults, faults)
    with Pool(socket=hub.path) as pool:
        wanted = {"shared", *(f"own {at} {turn}" for at in range(1, 5) for turn in (0, 2, 4))}
        want(set(pool.names()) == wanted, "the names are", sorted(pool.names()))
        for name in wanted - {"shared"}:
            want(pool.get(name) == bytes([int(name.split()[1])]) * 10, name, "has other bytes")
        content = pool.get("shared")
        want(len(content) == 50_000 and len(set(content)) == 1, "the shared one is mixed")
    hub.end()


def a_refused_batch(tests):
    """A server without memory for a frame of several clients is asked by each client's alone."""
    program, record = tests.recorder(0.3)
    refusal = 'if content[8] > 1: tell(bytes.fromhex("0c0000000100030001000000")); continue'
    before = "    server.stdin.write(content)"
    program.write_text(program.read_text().replace(before, f"    {refusal}\n{before}"))
    hub = Hub(tests, program=program)
    clients = [hub.client() for _ in range(4)]
    clients[0].ask(FLUSH)
    wait_until(record.exists, "the first frame")
    clients[1].ask(FLUSH)
    clients[2].ask(FLUSH, kind=HOLDING)
    clients[3].ask(FLUSH, FLUSH)
    time.sleep(0.1)
    for client in clients[:3]:
        want(client.answers()[0].came == 8, "a frame alone isn't answered")
    clients[2].ask(FLUSH)
    want(clients[2].answers()[0].came == 8, "the one that holds the turn isn't answered")
    want(clients[3].answers() == 1, "a frame that is refused alone isn't refused")
    want(clients[3].one("flush")[0] == 8, "its client isn't answered any more")
    hub.end()


def a_server_that_stops(tests):
    """Clients that give up leave the others' frames and their own, and the hub waits without work."""
    hub = Hub(tests)
    one, two, three = (hub.client() for _ in range(3))
    server = hub.server
    os.kill(server, signal.SIGSTOP)
    for at, client in enumerate((one, two, three), 1):
        client.ask((1, "transact", [("c", at, 0, b"")]))
        time.sleep(0.05)
    one.close()
    two.close()
    late = hub.client()
    begun = processor_time(hub.process.pid)
    time.sleep(1)
    want(processor_time(hub.process.pid) - begun < 0.2, "the hub works while it waits")
    os.kill(server, signal.SIGCONT)
    want(three.answers()[0].came == 1, "the last one isn't answered")
    want(late.one("objects", 0, 9)[1] == struct.pack("<IIQIQIQ", 3, 1, 0, 2, 0, 3, 0), "a frame wasn't made")
    hub.end()


def few_files(tests):
    """A hub without numbers for files lets clients in later, and waits for that without work."""
    import resource

    hub = Hub(tests, preexec_fn=lambda: resource.setrlimit(resource.RLIMIT_NOFILE, (20, 20)))
    good, waiting = hub.client(), []
    for _ in range(30):
        waiting.append(socket.socket(socket.AF_UNIX))
        waiting[-1].connect(str(hub.path))
    begun = processor_time(hub.process.pid)
    time.sleep(1)
    want(processor_time(hub.process.pid) - begun < 0.2, "the hub works while it waits")
    want(good.one("flush")[0] == 8, "a client isn't answered")
    for client in waiting:
        client.close()
    want(hub.client().one("flush")[0] == 8, "no client is let in any more")
    hub.end()


def limits_of_clients(tests):
    hub = Hub(tests, "--max-clients", "2")
    one, two = hub.client(), hub.client()
    opening = Client(hub.path).opening
    cause = "the hub has 2 clients, as many as it may have"
    want(opening == Unopened(0, 0, 0, 11, cause), "the third one is told", opening)
    try:
        Pool(socket=hub.path)
        raise Fault("a third client came in")
    except FileInUse as error:
        want(cause in str(error), error)
    one.close()
    wait_until(hub.is_listening, "room for a client")
    want(two.one("flush")[0] == 8, "the second one is gone")
    hub.end()


def as_user(user, path):
    """Why a user isn't let in to a hub, or None. A child asks as that user."""
    source, sink = os.pipe()
    child = os.fork()
    if not child:
        try:
            os.setgroups([])
            os.setgid(user)
            os.setuid(user)
            Pool(socket=path).name()
            os.write(sink, b"let in")
        except FileForbidden as error:
            os.write(sink, error.strerror.encode())
        finally:
            os._exit(0)
    os.close(sink)
    os.waitpid(child, 0)
    said = os.read(source, 1_000).decode()
    os.close(source)
    return None if said == "let in" else said


def users(tests):
    """Only root and the hub's own user may come in, unless it says others."""
    if os.geteuid():
        return "it needs root"
    for options, cause in [
        (["--mode", "666"], "the hub lets no user 12345 in"),
        (["--mode", "666", "--user", "12345"], None),
        ([], "Permission denied"),
    ]:
        hub = Hub(tests, *options)
        for folder in (hub.folder, hub.folder.parent):
            folder.chmod(0o755)
        want(as_user(12345, hub.path) == cause, "the user is told", as_user(12345, hub.path), "and not", cause)
        want(hub.client().one("flush")[0] == 8, "root isn't let in")
        hub.end()


def slow_clients(tests):
    """One that reads no answer, one that sends half a frame, and one that sends byte by byte, hurt no other."""
    hub = Hub(tests, "--timeout", "4")
    deaf, half, slow, good = (hub.client() for _ in range(4))
    good.one("transact", [("c", 1, 0, b""), ("l", 1, 4 * MIB, b"")])
    for _ in range(3):
        deaf.ask((1, "read", (1, 0, 4_000_000)))
    half.send(b"\x20\0\0\0\1")
    begun, answered = time.monotonic(), 0
    while time.monotonic() < begun + 6:
        want(good.one("transact", [("w", 1, answered, b"x")])[0] == 1, "the good one isn't answered")
        answered += 1
        try:
            slow.send(b"\x0c" if answered == 1 else b"\0" if answered < 4 else b"")
        except OSError:
            pass
        time.sleep(0.05)
    want(answered >= 5, "the good one was answered", answered, "times alone")
    for client in (half, slow):
        want(client.answers() == 2 and client.is_ended(), "it isn't refused 2 and ended")
    want("its answer wasn't read in time" in hub.said() and "the frame came too slowly" in hub.said(), hub.said())
    cut = hub.client()
    cut.send(b"\x20\0\0\0\1")
    cut.socket.shutdown(socket.SHUT_WR)
    want(cut.answers() == 2 and cut.is_ended(), "one that is cut off isn't refused 2")
    last = hub.client()
    last.ask(FLUSH)
    last.socket.shutdown(socket.SHUT_WR)
    want(last.answers()[0].came == 8 and last.is_ended(), "the last frame isn't answered")
    hub.end()


def hostile_frames(tests):
    """Each is refused as by the server, beside good ones. After a length that is no frame's the client is closed."""
    hub = Hub(tests)
    good, bad = hub.client(), hub.client()
    for content in hostile.frames():
        good.ask(FLUSH)
        bad.send(content)
        wanted = Server().answer(content)
        want(bad.receive() == wanted, "the answer to", content[:60].hex(), "isn't", wanted.hex())
        want(good.answers()[0].came == 8, "the good one isn't answered")
    for length in (0, 11, 4_194_305, 2**32 - 1):
        bad = hub.client()
        bad.send(struct.pack("<I", length) + bytes(100))
        want(bad.answers() == 2 and bad.is_ended(), "a length of", length)
    hub.end()


def signals(tests):
    """What is under way is answered, and the pool is synced."""
    for number in (signal.SIGTERM, signal.SIGINT, signal.SIGHUP):
        program, record = tests.recorder(0.3)
        hub = Hub(tests, program=program)
        idle, asked, waits, half = (hub.client() for _ in range(4))
        asked.ask((1, "transact", [("c", 1, 0, b"")]))
        wait_until(record.exists, "the first frame")
        waits.ask((1, "transact", [("c", 2, 0, b"")]))
        half.send(b"\x15\0\0\0\1\0\1\0\1\0\0\0")
        time.sleep(0.1)
        hub.process.send_signal(number)
        want(idle.is_ended(), "one without a frame isn't ended")
        half.send(struct.pack("<QB", 1, 8))
        for client, came in ((asked, 1), (waits, 1), (half, 8)):
            want(client.answers()[0].came == came and client.is_ended(), "a frame under way isn't answered")
        hub.ends(0)
        record.unlink()
        with Pool(tests.program, hub.file) as pool:
            want(pool.objects() == {1: 0, 2: 0} and pool.opened.records == 0, "the pool wasn't synced")
    hub = Hub(tests)
    asked = hub.client()
    hub.process.send_signal(signal.SIGSTOP)
    asked.ask(FLUSH)
    hub.process.terminate()
    hub.process.send_signal(signal.SIGCONT)
    want(asked.answers()[0].came == 8 and asked.is_ended(), "a frame that was sent before the signal isn't answered")
    hub.ends(0)
    hub = Hub(tests)
    half = hub.client()
    half.send(b"\x15")
    hub.process.terminate()
    time.sleep(0.2)
    hub.end()
    want(half.is_ended(), "a second signal waits for a frame")


def deaths(tests):
    """Of the server, and of the hub."""
    hub = Hub(tests)
    raw, pool = hub.client(), Pool(socket=hub.path)
    pool.transact_durably([create(1)])
    os.kill(hub.server, signal.SIGKILL)
    for call in (pool.flush, pool.close):
        try:
            call()
            raise Fault("a call is answered without a server")
        except Ended:
            pass
    want(raw.is_ended(), "a client isn't told")
    hub.ends(128 + 9)
    want("the server was ended by signal 9" in hub.said(), hub.said())
    hub = Hub(tests, "--wait", "60", folder=hub.folder)
    pool = Pool(socket=hub.path)
    want(pool.objects() == {1: 0}, "a durable commit is lost")
    pool.transact([create(2)])
    hub.kill()
    try:
        pool.flush()
        raise Fault("a call is answered without a hub")
    except Ended:
        pass
    with Pool(tests.program, hub.file, wait=60) as pool:
        want(pool.objects() == {1: 0, 2: 0}, "the server didn't sync at the hub's death")
    script, _ = tests.recorder(0)
    answer = r"frame(sys.stdin.buffer); tell(b'\x0c\0\0\0\1\0\2\0\0\0\0\0'); sys.stdin.buffer.read()"
    script.write_text(script.read_text().replace("while True:", answer + "\nwhile False:"))
    hub = Hub(tests, program=script)
    client = hub.client()
    client.ask(FLUSH)
    want(client.is_ended(), "a client isn't told")
    hub.ends(3)
    want("what is no answer" in hub.said(), hub.said())


def sockets(tests):
    hub = Hub(tests)
    want(hub.path.stat().st_mode & 0o777 == 0o600, "the mode is", oct(hub.path.stat().st_mode))
    other = Hub(tests, "--socket", hub.path)
    want(other.process.wait() == 3 and "a process listens on it" in other.said(), other.said())
    want(hub.client().one("flush")[0] == 8, "the first hub was harmed")
    hub.kill()
    want(hub.path.exists(), "there is no dead socket")
    hub = Hub(tests, "--mode", "660", "--wait", "60", folder=hub.folder)
    want(hub.path.stat().st_mode & 0o777 == 0o660, "the mode is", oct(hub.path.stat().st_mode))
    hub.end()
    hub.path.write_text("bytes")
    other = Hub(tests, "--socket", hub.path)
    want(other.process.wait() == 3 and "is no socket" in other.said(), other.said())
    want(hub.path.read_text() == "bytes", "a file was removed")
    hub.path.unlink()
    hub.path.symlink_to(hub.folder / "elsewhere")
    want(Hub(tests, "--socket", hub.path).process.wait() == 3 and hub.path.is_symlink(), "a link was removed")
    moved = Hub(tests)
    moved.path.unlink()
    moved.path.write_text("another's")
    moved.process.terminate()
    want(moved.process.wait() == 0 and moved.path.read_text() == "another's", "another's file was removed")
    long = Hub(tests, "--socket", tests.folder / ("x" * 108))
    want(long.process.wait() == 3 and "name too long" in long.said(), long.said())


def a_given_socket(tests):
    """Socket activation, as systemd's."""
    listener = socket.socket(socket.AF_UNIX)
    path = tests.folder / "given"
    listener.bind(str(path))
    listener.listen()
    hub = Hub(tests)
    hub.end()

    def give():
        os.dup2(listener.fileno(), 3)
        os.set_inheritable(3, True)
        os.environ["LISTEN_FDS"], os.environ["LISTEN_PID"] = "1", str(os.getpid())

    script = 'LISTEN_FDS=1 LISTEN_PID=$$ exec "$0" "$@"'
    words = ["sh", "-c", script, str(tests.hub), str(hub.file), "--program", tests.program]
    process = subprocess.Popen(words, preexec_fn=give, close_fds=False)
    client = Client(path)
    want(client.one("flush")[0] == 8, "it isn't answered")
    process.terminate()
    want(process.wait() == 0 and path.exists(), "a given socket was removed")
    process = subprocess.run(["sh", "-c", script, *words[3:]], capture_output=True, text=True, stdin=subprocess.DEVNULL)
    want(process.returncode == 3 and "no Unix socket" in process.stderr, process.stderr)


def command_lines(tests):
    rows = [
        (["--help"], 0, ""),
        (["--version"], 0, ""),
        ([], 2, "one FILE is wanted"),
        (["a", "b"], 2, "one FILE is wanted"),
        (["a"], 2, "--socket PATH is wanted"),
        (["a", "--max-clients", "0"], 2, "1 to 256"),
        (["a", "--max-clients", "257"], 2, "1 to 256"),
        (["a", "--timeout", "-1"], 2, "1 to 86400"),
        (["a", "--mode", "8"], 2, "0 to 777"),
        (["a", "--user", "no such one"], 2, "there is no such user"),
        (["a", "--what"], 2, "unrecognized option"),
        (["file", "--socket", "s", "--metrics", "file"], 3, "is no socket"),
        (["file", "--socket", "s", "--metrics", "x" * 108], 3, "name too long"),
        (["no such file", "--socket", "s"], 3, "cannot use no such file"),
        (["file", "--socket", "s"], 1, "refused 8"),
        (["file", "--socket", "no/folder/s", "--program", "/none"], 3, "can't be started"),
        (["file", "--socket", "s", "--program", "false"], 3, "status 1 before it said"),
    ]
    (tests.folder / "file").write_text("no pool")
    for words, status, text in rows:
        program = [] if "--program" in words else ["--program", tests.program]
        ran = tests.run(tests.hub, *words, *program, status=status, cwd=tests.folder)
        want(text.encode() in ran.stderr, words, "prints", ran.stderr)
    want(not (tests.folder / "s").exists(), "a socket was left")


def looks_and_changes(tests):
    """ztxg-ctl, whose output is that of the program's commands."""
    hub = Hub(tests)

    def ctl(*words, out=None, given=b"", status=0, errors=""):
        ran = tests.run(tests.ctl, hub.path, *words, input=given, status=status)
        want(out is None or ran.stdout == out.encode(), words, "prints", ran.stdout)
        text = "".join(f"ztxg-ctl: {line}\n" for line in errors.splitlines())
        want(ran.stderr.decode() == text, words, "prints", ran.stderr)
        return ran.stdout.decode()

    ctl("ls", out="")
    ctl("put", "1", given=b"hello\n", out="put 6 bytes in 1 transactions\n")
    ctl("put", "1", "--offset", "6", given=b"more\n", out="put 5 bytes in 1 transactions\n")
    ctl("get", "1", out="hello\nmore\n")
    ctl("get", "1", "--offset", "2", "--length", "3", out="llo")
    ctl("put", "@a name", given=bytes(200_000), out="put 200000 bytes in 4 transactions\n")
    ctl("put", "@other", "--offset", "1K", given=b"x", out="put 1 bytes in 1 transactions\n")
    ctl("ls", out="0 1024\n1 11\n2 200000 a name\n3 1025 other\n")
    ctl("ls", "-l", out="0 1024 2\n1 11 2\n2 200000 51\n3 1025 2\n")
    listed = [(0, 1024, 2), (1, 11, 2), (2, 200_000, 51), (3, 1025, 2)]
    text = ",".join('{"object":%d,"length":%d,"blocks":%d}' % row for row in listed)
    ctl("ls", "--json", out=f'{{"objects":[{text}]}}\n')
    ctl("rm", "@other", out="removed 3\n")
    ctl("put", "9", given=b"", out="put 0 bytes in 1 transactions\n")
    ctl("put", "9", "--offset", "4", given=b"", out="put 0 bytes in 0 transactions\n")
    ctl("rm", "9", out="removed 9\n")
    ctl("rm", "9", status=1, errors="refused 9 NoObject\ncause: there is no such object")
    ctl("rm", "9", "-q", status=1, errors="refused 9 NoObject")
    ctl("get", "@b", status=1, errors='refused 9 NoObject\ncause: no object has the name "b"')
    cause = 'object name "a/\\\\": 1 to 254 bytes of UTF-8, no control characters, no /'
    ctl("get", "@a/\\", status=1, errors=f"refused 11 BadRange\ncause: {cause}")
    ctl("get", "5292", status=1, errors="refused 11 BadRange\ncause: object 5292: numbers go to 5291")
    ctl("get", "x", status=2, errors="x: a number below 2^32, or a name after an @")
    ctl("check", status=2, errors="check: no frame asks for it: end the hub, and run ztxg check")
    want(ctl("status").splitlines()[:2] == ["name tank", "guid 77"], "status")
    names = [line.split()[0] for line in ctl("stat").splitlines()]
    want(names[:7] == ["synced", "syncing", "middle", "open", "dirty", "free", "available"], "stat prints", names)
    with Pool(socket=hub.path) as pool:
        pool.transact([set_length(0, 1)])
    ctl("ls", out="0 1\n1 11\n2 200000\n")
    ctl("get", "@a name", status=1, errors="refused 11 BadRange\ncause: object 0 is no table of names")
    ran = subprocess.run([tests.ctl, hub.path, "ls"], stdout=open("/dev/full", "w"))
    want(ran.returncode == 3, "output to a full device ends with", ran.returncode)
    hub.end()
    ctl("ls", status=3, errors=f"cannot use {hub.path}\ncause: No such file or directory (os error 2)")
    try:
        Pool(socket=hub.path)
        raise Fault("there is no hub")
    except FileMissing:
        pass


def refusal_names(tests):
    """The names of refusals are those of the page of formats."""
    from tools.repository.client_texts import document_names

    source = (TOP / "clients/hub/numbers.c").read_text()
    source = source.partition("refusal_names[LAST_REFUSAL + 1] = {")[2].partition("};")[0]
    found = [word.strip(' "\n') for word in source.split(",")][1:-1]
    wanted = document_names((TOP / "docs/FORMATS.md").read_text())
    want(found == [wanted[number] for number in range(1, 24)], "the names are", found)


def of_library(tests, command, words, **more):
    """Runs a client's tests over the socket of a hub."""
    if not shutil.which(command):
        return f"{command} not installed"
    hub = Hub(tests)
    environment = {**os.environ, **{name: str(value).replace("SOCKET", str(hub.path)) for name, value in more.items()}}
    words = [str(word).replace("SOCKET", str(hub.path)).replace("PID", str(hub.process.pid)) for word in words]
    tests.run(*words, cwd=TOP / "clients", env=environment)
    hub.end()


def the_library_in_c(tests):
    build = ["make", "-s", "-C", TOP / "clients/c", f"OUT={tests.folder}/c"]
    tests.run(*build, f"{tests.folder}/c/check", f"{tests.folder}/c/check_names", env={**os.environ, "MAKEFLAGS": ""})
    for name in ("check_names", "check"):
        fault = of_library(tests, "cc", [tests.folder / "c" / name, "--socket", "SOCKET", "PID"])
        if fault:
            return fault


def the_package_in_python(tests):
    of_hub = ["Calls", "Names", "Ends.test_a_child_of_a_fork", "Ends.test_a_process_that_was_killed"]
    words = [sys.executable, TOP / "clients/python/test_topzerad.py", tests.program, *of_hub]
    tests.run(*words, env={**os.environ, "TOPZERAD_HUB": str(tests.hub)})


def the_crate_in_rust(tests):
    words = ["cargo", "test", "--quiet", "--offline", "--manifest-path", "rust/Cargo.toml", "--test", "calls"]
    target = tests.chosen.target or tests.folder / "rust"
    return of_library(tests, "cargo", words, TOPZERAD_SOCKET="SOCKET", CARGO_TARGET_DIR=target)


TESTS = [
    clients_share_a_pool,
    frames_that_wait_share_a_flush,
    a_turn_is_held,
    a_refused_batch,
    a_server_that_stops,
    few_files,
    reads_are_of_one_moment,
    names_of_several_clients,
    limits_of_clients,
    users,
    slow_clients,
    hostile_frames,
    signals,
    deaths,
    sockets,
    a_given_socket,
    command_lines,
    looks_and_changes,
    refusal_names,
    *metrics.TESTS,
    *viewers.TESTS,
    hostile.chance,
    kills.kills,
    the_library_in_c,
    the_package_in_python,
    the_crate_in_rust,
]


def run_test(test, chosen):
    """Runs a test, and returns whether it didn't fail."""
    name, tests = f"hub: {test.__name__.replace('_', ' ')}", Tests(chosen)
    try:
        fault = test(tests)
    except Exception as error:
        print(f"FAILED {name}: {type(error).__name__}: {error}", flush=True)
        for hub in tests.hubs:
            print(hub.said(), end="", flush=True)
        return False
    finally:
        tests.end()
    print(f"skipped {name}: {fault}" if fault else f"passed {name}", flush=True)
    return True


def main():
    parser = argparse.ArgumentParser(description=__doc__.splitlines()[0])
    parser.add_argument("--bin", type=lambda word: pathlib.Path(word).resolve(), required=True)
    parser.add_argument("--program", default=str(TOP / "clients/stand_in"))
    parser.add_argument("--kills", type=int, default=20, help="at so many moments processes are killed (20)")
    parser.add_argument("--seconds", type=float, default=20, help="of hostile clients by chance (20)")
    parser.add_argument("--seed", type=int, default=1)
    parser.add_argument("--without", nargs="*", default=[], help="tests that aren't run")
    parser.add_argument("--target", help="the folder that cargo builds in")
    parser.add_argument("tests", metavar="TEST", nargs="*", help="their names begin so (all)")
    chosen = parser.parse_args()
    # Whoever started this may have had them ignored, and processes below would keep that.
    for number in (signal.SIGHUP, signal.SIGINT, signal.SIGTERM):
        if signal.getsignal(number) is signal.SIG_IGN:
            signal.signal(number, signal.SIG_DFL)
    chosen.program = os.path.realpath(shutil.which(chosen.program) or chosen.program)
    failed = 0
    for test in TESTS:
        is_chosen = not chosen.tests or any(test.__name__.startswith(word) for word in chosen.tests)
        if is_chosen and test.__name__ not in chosen.without:
            failed += not run_test(test, chosen)
    return 1 if failed else 0


if __name__ == "__main__":
    sys.exit(main())
