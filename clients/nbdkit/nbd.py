"""A connection to a disk by the protocol of network block devices, as much of it as check.py needs:
https://github.com/NetworkBlockDevice/nbd/blob/master/doc/proto.md"""

import socket
import struct

READ, WRITE, DISCONNECT, FLUSH, TRIM, WRITE_ZEROES = 0, 1, 2, 3, 4, 6
FUA = 1
OPTION_GO, REPLY_ACK, REPLY_INFO = 7, 1, 3
OPTION_MAGIC, OPTION_REPLY, REQUEST, REPLY = b"IHAVEOPT", 0x3E889045565A9, 0x25609513, 0x67446698


class Refused(Exception):
    """The server refused a request, with this error number."""

    def __init__(self, number):
        super().__init__(f"refused with error number {number}")
        self.number = number


class Disk:
    """An open connection. One thread may use it. A connection that breaks raises `OSError`."""

    def __init__(self, path):
        self.socket = socket.socket(socket.AF_UNIX)
        try:
            self.socket.settimeout(60)
            self.socket.connect(str(path))
            self._agree()
        except BaseException:
            self.socket.close()
            raise

    def _agree(self):
        magic, option_magic, _ = struct.unpack(">8s8sH", self._take(18))
        if (magic, option_magic) != (b"NBDMAGIC", OPTION_MAGIC):
            raise OSError("no server of network block devices")
        go = struct.pack(">IH", 0, 0)
        self.socket.sendall(struct.pack(">I", 3) + OPTION_MAGIC + struct.pack(">II", OPTION_GO, len(go)) + go)
        kind = REPLY_INFO
        while kind == REPLY_INFO:
            magic, _, kind, length = struct.unpack(">QIII", self._take(20))
            content = self._take(length)
            if kind == REPLY_INFO and content[:2] == b"\0\0":
                self.size, self.flags = struct.unpack_from(">QH", content, 2)
        if magic != OPTION_REPLY or kind != REPLY_ACK:
            raise OSError("the server refused to open the disk")

    def read(self, offset, count):
        self._ask(READ, offset, count)
        return self._take(count)

    def write(self, offset, content, fua=False):
        self._ask(WRITE, offset, len(content), FUA if fua else 0, content)

    def zero(self, offset, count, fua=False):
        self._ask(WRITE_ZEROES, offset, count, FUA if fua else 0)

    def trim(self, offset, count):
        self._ask(TRIM, offset, count)

    def flush(self):
        self._ask(FLUSH, 0, 0)

    def close(self):
        try:
            self.socket.sendall(struct.pack(">IHHQQI", REQUEST, 0, DISCONNECT, 0, 0, 0))
        except OSError:
            pass  # the server is gone
        self.socket.close()

    def _ask(self, kind, offset, count, flags=0, content=b""):
        self.socket.sendall(struct.pack(">IHHQQI", REQUEST, flags, kind, 0, offset, count) + content)
        magic, error, _ = struct.unpack(">IIQ", self._take(16))
        if magic != REPLY:
            raise OSError("the server answered what is no reply")
        if error:
            raise Refused(error)

    def _take(self, count):
        parts = []
        while count:
            parts.append(self.socket.recv(min(count, 1 << 20)))
            if not parts[-1]:
                raise OSError("the server ended")
            count -= len(parts[-1])
        return b"".join(parts)
