"""Connections to a box: as bytes (Peer), and held to the model (Client)."""
import socket

import messages
import model
from held import PATIENCE, Failed, Lost, hold, same, shortly
from messages import tree
from program import KEY

NO_READINGS = bytes(model.READINGS)


class Peer:
    """A connection as bytes. One that is reset counts as closed, and `reset` says so."""

    def __init__(self, address):
        self.socket = socket.create_connection(address, PATIENCE)
        self.socket.setsockopt(socket.IPPROTO_TCP, socket.TCP_NODELAY, 1)
        self.reset = False

    def __enter__(self):
        return self

    def __exit__(self, *_):
        self.close()

    def send(self, data):
        """Whether all of it could be sent."""
        try:
            self.socket.sendall(data)
            return True
        except (BrokenPipeError, ConnectionResetError):
            self.reset = True
            return False

    def bytes(self, count):
        """The next bytes, fewer where the connection was closed before."""
        got = b""
        while len(got) < count:
            try:
                more = self.socket.recv(count - len(got))
            except ConnectionResetError:
                more, self.reset = b"", True
            except socket.timeout:
                raise Failed(f"{len(got)} of {count} bytes came within {self.socket.gettimeout()} seconds: {shortly(got)}") from None
            if not more:
                break
            got += more
        return got

    def frame(self):
        """The next frame; b"" where the connection was closed before it."""
        head = self.bytes(9)
        length = int.from_bytes(head[1:5], "big") + int.from_bytes(head[5:9], "big")
        hold(f"a reply of {length} bytes", length <= model.ROOM)
        data = head + self.bytes(length)
        if len(data) not in (0, 9 + length):
            raise Lost("a reply that is cut")
        return data

    def rest(self, most=1 << 20):
        """All that comes until the other side closes."""
        return self.bytes(most)

    def shut(self):
        """Says that no more is sent."""
        self.socket.shutdown(socket.SHUT_WR)

    def close(self):
        self.socket.close()


def command_of(reply):
    return model.decode("Reply", model.decode("Message", model.framed(reply)[1])[7])


def code_of(reply):
    """The status code of a reply."""
    return command_of(reply)[3][1]


def number_of(reply):
    """The connection's number, as a reply has it."""
    return command_of(reply)[1][3]


def value_of(reply):
    return model.framed(reply)[2]


# ---- Bodies of requests

def pair(key, version=None, old=None, tag=None, algorithm=None, metadata=None, force=None):
    return tree((1, tree((2, version), (3, key), (4, old), (5, tag), (6, algorithm), (7, metadata), (8, force))))


def span(start, end, first=1, last=1, most=None, reverse=None):
    return tree((2, tree((1, start), (2, end), (3, first), (4, last), (5, most), (6, reverse))))


def setup(version=None):
    return tree((3, tree((1, version))))


def all_scope(**given):
    return model.Scope(frozenset(model.PERMISSIONS), **given)


class Client:
    """A client that is held to the model: what it sends goes to both, and each reply must be the model's, byte for byte. Clients of one server share a box
    of the model."""

    def __init__(self, address, box, identity=1, key=KEY, protected=False, readings=NO_READINGS):
        self.peer, self.box, self.identity, self.key, self.readings = Peer(address), box, identity, key, readings
        self.unread, self.sequence, self.replies = b"", 0, 0
        first = self.request("NOOP", number=0, sequence=99).bytes()
        self.peer.send(first)
        reply = self.peer.frame()
        if not reply:
            raise Lost("no reply to the first NOOP")
        self.number = number_of(reply)
        self.connection = model.Connection(self.number, protected)
        same("reply to the first NOOP", reply, b"".join(self.told(first)))

    def __enter__(self):
        return self

    def __exit__(self, *_):
        self.peer.close()

    def request(self, kind, body=None, value=b"", **given):
        """A request with the next sequence, signed by this client if not said otherwise."""
        self.sequence += "sequence" not in given
        cluster = model.table_of(self.box.record).cluster or None
        known = {"identity": self.identity, "key": self.key, "sequence": self.sequence, "cluster": cluster}
        if "number" not in given:
            known["number"] = self.number
        return messages.request(kind, body, value, **{**known, **given})

    def told(self, data):
        """What the model answers to bytes behind those that it has not taken yet, a reply each."""
        self.unread += data
        replies = []
        while self.unread:
            got = model.answer(self.box, self.connection, self.readings, self.unread)
            if got.refusal:
                hold(f"the model refuses with {got.refusal}", got.refusal in (model.REFUSALS["MORE"], model.REFUSALS["CLOSED"]))
                break
            replies.append(got.reply)
            self.unread = self.unread[got.taken:]
        self.replies += len(replies)
        return replies

    def hear(self, what, wanted):
        """The next bytes must be these replies; after a closing one no more may come."""
        try:
            got = self.peer.bytes(len(b"".join(wanted)))
        except Failed as why:
            raise Failed(f"reply to {what}: {why}\n  wanted {shortly(b''.join(wanted))}") from None
        same(f"reply to {what}", got, b"".join(wanted))
        if self.connection.closed:
            same(f"after the closing reply to {what}", self.peer.rest(), b"")
        return wanted[-1] if wanted else b""

    def say(self, what, data):
        """Sends bytes; the replies must be the model's. Gives the last of them."""
        self.peer.send(data)
        return self.hear(what, self.told(data))

    def ask(self, kind, body=None, value=b"", **given):
        """Sends a request; gives the code of the reply."""
        return code_of(self.say(kind, self.request(kind, body, value, **given).bytes()))

    def put(self, key, value, version=None, old=None, **given):
        return self.ask("PUT", pair(key, version, old, **given), value)

    def finished(self, what):
        """No more is sent; nothing more may come."""
        self.peer.shut()
        same(f"after {what}, with no request left", self.peer.rest(), b"")
        self.peer.close()
