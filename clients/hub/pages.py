"""Pages of metrics: they are asked for by HTTP, and read by the rules of Prometheus' text format."""

import re
import socket

from hubs import want

GOOD = b"GET /metrics HTTP/1.1\r\nHost: x\r\n\r\n"
BOUNDS = [2**at for at in range(25)]  # microseconds


def connect(path):
    viewer = socket.socket(socket.AF_UNIX)
    viewer.settimeout(60)
    viewer.connect(str(path))
    return viewer


def all_of(viewer):
    """What a viewer is told until the end."""
    told = b""
    try:
        while more := viewer.recv(65_536):
            told += more
    except ConnectionResetError:
        pass  # it sent more than was read
    viewer.close()
    return told


def asked(path, request=GOOD):
    """The status of an answer, its header and its body. The status is None if there is no answer."""
    viewer = connect(path)
    try:
        viewer.sendall(request)
    except (BrokenPipeError, ConnectionResetError):
        pass
    told = all_of(viewer)
    if not told:
        return None, {}, b""
    header, _, body = told.partition(b"\r\n\r\n")
    first, *lines = header.decode().split("\r\n")
    fields = dict(line.split(": ", 1) for line in lines)
    want(first.startswith("HTTP/1.1 "), "the status line is", first)
    want(int(fields["Content-Length"]) == len(body), "the length is", fields["Content-Length"], "and not", len(body))
    return int(first.split()[1]), fields, body


NAME, LABEL = re.compile(r"[a-zA-Z_:][a-zA-Z0-9_:]*"), re.compile(r'([a-zA-Z_][a-zA-Z0-9_]*)="((?:[^"\\\n]|\\.)*)"')
SAMPLE = re.compile(rf"({NAME.pattern})(?:\{{([^}}]*)\}})? (\+Inf|[0-9]+(?:\.[0-9]+)?)")
TYPES = {"counter": "_total", "gauge": "", "histogram": "_seconds"}


def read_page(text):
    """The samples of a page by their names and labels. Each line is checked by the rules of the format."""
    samples, kinds, helped = {}, {}, set()
    want(text.endswith("\n"), "the last line has no end")
    for line in text.splitlines():
        if line.startswith("# HELP "):
            name, said = line[7:].split(" ", 1)
            want(name not in helped and said.endswith("."), "the help is", line)
            helped.add(name)
            continue
        if line.startswith("# TYPE "):
            name, kind = line[7:].split(" ")
            want(name in helped and name not in kinds and NAME.fullmatch(name), "the type is", line)
            want(name.startswith("ztxg_") and name.endswith(TYPES[kind]), "the name of a", kind, "is", name)
            want(kind == "counter" or not name.endswith("_total"), "the name of a", kind, "is", name)
            kinds[name], current = kind, name
            continue
        found = SAMPLE.fullmatch(line)
        want(found, "the line is", line)
        name, labels, value = found.groups()
        pairs = LABEL.findall(labels or "")
        want(",".join(f'{key}="{said}"' for key, said in pairs) == (labels or ""), "the labels are", labels)
        parts = [current + end for end in ("_bucket", "_sum", "_count")] if kinds[current] == "histogram" else [current]
        want(name in parts, "a sample of", name, "stands below", current)
        key = (name, *(f"{key}={said}" for key, said in pairs))
        want(key not in samples, "twice:", key)
        samples[key] = float(value)
    want(kinds.keys() == helped, "without a type:", helped - kinds.keys())
    return samples, kinds


def page(path):
    status, fields, body = asked(path)
    want(status == 200, "the status is", status)
    want(fields["Content-Type"] == "text/plain; version=0.0.4; charset=utf-8", fields)
    return read_page(body.decode())[0]


def histogram(samples, kind):
    """The counts of a histogram, of which each is without the shorter ones. They add up."""
    name = "ztxg_call_seconds"
    bounds = [f"{bound / 1e6:.6f}" for bound in BOUNDS] + ["+Inf"]
    counts = [samples[name + "_bucket", f"kind={kind}", f"le={bound}"] for bound in bounds]
    want(counts == sorted(counts), "a bucket has fewer than the one before")
    want(counts[-1] == samples[name + "_count", f"kind={kind}"], "the count isn't that of the last bucket")
    return [int(count - before) for before, count in zip([0, *counts], counts)]
