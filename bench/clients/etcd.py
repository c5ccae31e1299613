"""Puts keys into etcd, in gRPC over a socket: HTTP/2 with what gRPC needs of it."""
import json
import os
import shutil
import socket
import struct
import subprocess
import urllib.request

import servers

NAME, PACKAGE = "etcd", "etcd-server"
DATA, HEADERS, RESET, SETTINGS, PING, GOAWAY, WINDOW = 0, 1, 3, 4, 6, 7, 8
END_STREAM, END_HEADERS, IS_ANSWER = 1, 4, 1
ROOM = 65_535


def version():
    """Returns which it is, or None where it isn't installed."""
    if not shutil.which("etcd"):
        return None
    return subprocess.run(["etcd", "--version"], stdout=subprocess.PIPE, text=True, check=True).stdout.split()[2]


def begin(them, nodes):
    """Starts so many members, and returns the port of the one that leads."""
    ports = [(servers.free_port(), servers.free_port()) for _ in range(nodes)]
    at = "http://127.0.0.1"
    cluster = ",".join(f"m{number}={at}:{peer}" for number, (_, peer) in enumerate(ports, 1))
    for number, (client, peer) in enumerate(ports, 1):
        words = {
            "name": f"m{number}",
            "data-dir": f"{them.room}/data-{number}",
            "listen-client-urls": f"{at}:{client}",
            "advertise-client-urls": f"{at}:{client}",
            "listen-peer-urls": f"{at}:{peer}",
            "initial-advertise-peer-urls": f"{at}:{peer}",
            "initial-cluster": cluster,
            "logger": "zap",
            "log-level": "error",
        }
        # Debian's package sets words of its own for its service.
        where = {key: value for key, value in os.environ.items() if not key.startswith("ETCD_")}
        them.begin(["etcd", *(f"--{key}={value}" for key, value in words.items())], env=where)
    return servers.waited("a leader of etcd", lambda: leading(client for client, _ in ports))


def leading(ports):
    """Returns the port of the member that leads, or None."""
    for port in ports:
        asked = urllib.request.Request(f"http://127.0.0.1:{port}/v3/maintenance/status", b"{}")
        with urllib.request.urlopen(asked, timeout=5) as answer:
            told = json.load(answer)
        if told.get("leader") == told["header"]["member_id"]:
            return port
    return None


def text_of(number, text):
    """Returns a field of a message, as protocol buffers encode it. A size has seven bits a byte."""
    size, left = [], len(text)
    while left > 127:
        size.append(left & 127 | 128)
        left >>= 7
    return bytes([number << 3 | 2, *size, left]) + text


def header(name, value):
    """Returns a header that no table keeps (HPACK)."""
    return b"\0" + bytes([len(name)]) + name + bytes([len(value)]) + value


class Client:
    """A connection. Each put is a stream of its own."""

    HEAD = b"".join(
        header(name, value)
        for name, value in (
            (b":method", b"POST"),
            (b":scheme", b"http"),
            (b":path", b"/etcdserverpb.KV/Put"),
            (b":authority", b"127.0.0.1"),
            (b"content-type", b"application/grpc"),
            (b"te", b"trailers"),
        )
    )

    def __init__(self, port, _nodes):
        self.socket = socket.create_connection(("127.0.0.1", port), 30)
        self.socket.setsockopt(socket.IPPROTO_TCP, socket.TCP_NODELAY, 1)
        self.waiting, self.bytes, self.stream, self.room = [], b"", -1, ROOM
        self.with_data, self.answered = set(), 0
        self.waiting.append(b"PRI * HTTP/2.0\r\n\r\nSM\r\n\r\n")
        self.frame(SETTINGS, 0, 0, b"")
        # What comes has room for all that is measured.
        self.frame(WINDOW, 0, 0, struct.pack(">I", (1 << 31) - 1 - ROOM))
        self.flush()

    def frame(self, kind, flags, stream, text):
        self.waiting += [struct.pack(">IBI", len(text) << 8 | kind, flags, stream), text]

    def flush(self):
        self.socket.sendall(b"".join(self.waiting))
        self.waiting = []

    def send(self, body):
        self.stream += 2
        message = text_of(1, b"%010d" % self.stream) + text_of(2, body)
        text = b"\0" + struct.pack(">I", len(message)) + message
        while self.room < len(text):
            self.flush()
            self.frames()
        self.room -= len(text)
        self.frame(HEADERS, END_HEADERS, self.stream, self.HEAD)
        self.frame(DATA, END_STREAM, self.stream, text)

    def wait(self):
        """Returns how many more are answered, at least one. An error has no data before its end."""
        while not self.answered:
            self.frames()
            self.flush()
        count, self.answered = self.answered, 0
        return count

    def frames(self):
        piece = self.socket.recv(1 << 16)
        if not piece:
            raise ConnectionError("etcd has closed the connection")
        self.bytes += piece
        place = 0
        while len(self.bytes) >= place + 9:
            size, flags, stream = struct.unpack_from(">IBI", self.bytes, place)
            kind, size = size & 255, size >> 8
            if len(self.bytes) < place + 9 + size:
                break
            self.take(kind, flags, stream, self.bytes[place + 9 : place + 9 + size])
            place += 9 + size
        self.bytes = self.bytes[place:]

    def take(self, kind, flags, stream, text):
        if kind == WINDOW and stream == 0:
            self.room += struct.unpack(">I", text)[0]
        elif kind in (SETTINGS, PING) and not flags & IS_ANSWER:
            self.frame(kind, IS_ANSWER, 0, text if kind == PING else b"")
        elif kind == DATA:
            self.with_data.add(stream)
        elif kind in (RESET, GOAWAY) or kind == HEADERS and flags & END_STREAM and stream not in self.with_data:
            raise ConnectionError(f"etcd has refused a put: {text!r}")
        elif kind == HEADERS and flags & END_STREAM:
            self.with_data.remove(stream)
            self.answered += 1

    def close(self):
        self.socket.close()
