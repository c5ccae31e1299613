"""Publishes with confirms to a quorum queue of RabbitMQ, in AMQP 0-9-1 over a socket."""
import os
import socket
import struct

import servers

NAME, PACKAGE = "RabbitMQ", "rabbitmq-server"
SCRIPT = "/usr/lib/rabbitmq/lib/rabbitmq_server-*/sbin/rabbitmq-server"
QUEUE = b"orders"
METHOD, HEADER, BODY, END = 1, 2, 3, b"\xce"
ACK = (60, 80)
PERSISTENT = 0x1000, 2


def version():
    """Returns which it is, or None where it isn't installed."""
    found = servers.newest(SCRIPT)
    return found and found.split("/")[5].partition("-")[2]


def begin(them, nodes):
    """Starts so many nodes as one cluster, and returns where a client finds the first."""
    room, epmd = them.room, servers.free_port()
    # The Erlang nodes find each other by this.
    them.begin(["epmd", "-port", str(epmd), "-address", "127.0.0.1"])
    names = [f"bench{number}@localhost" for number in range(1, nodes + 1)]
    ports = [servers.free_port() for _ in names]
    with open(f"{room}/plugins", "w", encoding="ascii") as file:
        file.write("[].\n")
    with open(f"{room}/rabbitmq.conf", "w", encoding="ascii") as file:
        file.write("cluster_formation.peer_discovery_backend = rabbit_peer_discovery_classic_config\n")
        file.writelines(f"cluster_formation.classic_config.nodes.{at} = {it}\n" for at, it in enumerate(names, 1))
    for name, port in zip(names, ports):
        mine = {
            "NODENAME": name,
            "NODE_IP_ADDRESS": "127.0.0.1",
            "NODE_PORT": str(port),
            "DIST_PORT": str(servers.free_port()),
            "MNESIA_BASE": f"{room}/data",
            "LOG_BASE": f"{room}/logs",
            "CONFIG_FILE": f"{room}/rabbitmq.conf",
            "ENABLED_PLUGINS_FILE": f"{room}/plugins",
            "CONF_ENV_FILE": os.devnull,
        }
        where = {f"RABBITMQ_{key}": value for key, value in mine.items()}
        them.begin(
            [servers.newest(SCRIPT)], env={**os.environ, **where, "HOME": room, "ERL_EPMD_PORT": str(epmd)}
        )
        servers.waited(name, lambda at=port: is_there(at))
    return ports[0]


def is_there(port):
    Client(port, None).close()
    return True


def short(text):
    return bytes([len(text)]) + text


def long(text):
    return struct.pack(">I", len(text)) + text


class Client:
    """A connection with one channel, to a queue over as many nodes; or to none."""

    def __init__(self, port, nodes):
        self.socket = socket.create_connection(("127.0.0.1", port), 30)
        self.socket.setsockopt(socket.IPPROTO_TCP, socket.TCP_NODELAY, 1)
        self.waiting, self.bytes, self.sent, self.open = [], b"", 0, set()
        self.socket.sendall(b"AMQP\0\0\x09\x01")
        self.answer((10, 10))
        self.call(0, (10, 11), long(b"") + short(b"PLAIN") + long(b"\0guest\0guest") + short(b"en_US"), (10, 30))
        self.method(0, (10, 31), struct.pack(">HIH", 1, 131_072, 0))
        self.call(0, (10, 40), short(b"/") + short(b"") + b"\0", (10, 41))
        if nodes:
            self.call(1, (20, 10), short(b""), (20, 11))
            kind = short(b"x-queue-type") + b"S" + long(b"quorum")
            group = short(b"x-quorum-initial-group-size") + b"I" + struct.pack(">i", nodes)
            # It is durable.
            self.call(1, (50, 10), b"\0\0" + short(QUEUE) + b"\x02" + long(kind + group), (50, 11))
            self.call(1, (85, 10), b"\0", (85, 11))

    def frame(self, kind, channel, text):
        self.waiting += [struct.pack(">BHI", kind, channel, len(text)), text, END]

    def method(self, channel, number, text):
        self.frame(METHOD, channel, struct.pack(">HH", *number) + text)

    def call(self, channel, number, text, answer):
        self.method(channel, number, text)
        self.flush()
        self.answer(answer)

    def flush(self):
        self.socket.sendall(b"".join(self.waiting))
        self.waiting = []

    def methods(self):
        """Returns the methods that have come, at least one."""
        found = []
        while not found:
            piece = self.socket.recv(1 << 16)
            if not piece:
                raise ConnectionError("RabbitMQ has closed the connection")
            self.bytes += piece
            place = 0
            while len(self.bytes) >= place + 8:
                kind, _, size = struct.unpack_from(">BHI", self.bytes, place)
                if len(self.bytes) < place + size + 8:
                    break
                text = self.bytes[place + 7 : place + 7 + size]
                place += size + 8
                if kind == METHOD:
                    found.append((struct.unpack_from(">HH", text), text[4:]))
            self.bytes = self.bytes[place:]
        return found

    def answer(self, wanted):
        ((number, text),) = self.methods()
        if number != wanted:
            raise ConnectionError(f"RabbitMQ has answered {number}, and not {wanted}: {text!r}")

    def send(self, body):
        self.sent += 1
        self.open.add(self.sent)
        self.method(1, (60, 40), b"\0\0" + short(b"") + short(QUEUE) + b"\0")
        self.frame(HEADER, 1, struct.pack(">HHQHB", 60, 0, len(body), *PERSISTENT))
        self.frame(BODY, 1, body)

    def wait(self):
        """Returns how many more are confirmed, at least one. An acknowledgement is of one, or of all up to it."""
        before = len(self.open)
        for number, text in self.methods():
            if number != ACK:
                raise ConnectionError(f"RabbitMQ has answered {number}: {text!r}")
            tag, is_many = struct.unpack(">QB", text)
            self.open = {it for it in self.open if it > tag} if is_many else self.open - {tag}
        return before - len(self.open)

    def close(self):
        self.socket.close()
