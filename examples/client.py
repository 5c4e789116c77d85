#!/usr/bin/env python3
"""client.py HOST:PORT IDENTITY KEY-FILE put KEY VALUE | get KEY | keys START END

A client of a box with Python's standard library alone, as docs/CLIENTS.md explains it. Ends with 1 and a message where it was refused.
"""
import hashlib
import hmac
import socket
import sys

GET, PUT, GETKEYRANGE, NOOP = 2, 4, 12, 30
SUCCESS, INVALID_REQUEST, HMACAUTH, SHA1 = 1, 16, 1, 1


def varint(number):
    """Seven bits a byte, the lowest first; a negative number is its two's complement in 64 bits."""
    number &= (1 << 64) - 1
    data = b""
    while number > 127:
        data, number = data + bytes([number & 127 | 128]), number >> 7
    return data + bytes([number])


def message(*fields):
    """Fields given as (number, content); the content is a number or bytes."""
    return b"".join(varint(n << 3) + varint(x) if isinstance(x, int) else varint(n << 3 | 2) + varint(len(x)) + x for n, x in fields)


def read_varint(data, at):
    number = shift = 0
    while data[at] > 127:
        number, shift, at = number | (data[at] & 127) << shift, shift + 7, at + 1
    return number | data[at] << shift, at + 1


def fields(data):
    """The contents of a message's fields, a list for each number; numbers are 64-bit two's complement."""
    found, at = {}, 0
    while at < len(data):
        tag, at = read_varint(data, at)
        content, at = read_varint(data, at)
        if tag & 7 == 2:
            content, at = data[at:at + content], at + content
        else:
            content -= (content >> 63) << 64
        found.setdefault(tag >> 3, []).append(content)
    return found


class Client:
    def __init__(self, address, identity, key):
        host, port = address.rsplit(":", 1)
        self.stream = socket.create_connection((host, int(port)), 60).makefile("rwb")
        self.identity, self.key, self.number, self.sequence = identity, key, 0, 0
        self.number = self.ask(NOOP, wanted=INVALID_REQUEST)[0]  # refused, since the number is not known yet; the reply has it

    def request(self, kind, body, value):
        command = message((1, message((3, self.number), (4, self.sequence), (7, kind))), (2, body))
        auth = message((1, self.identity), (2, hmac.digest(self.key, command, "sha1")))
        data = message((4, HMACAUTH), (5, auth), (7, command))
        return b"F" + len(data).to_bytes(4, "big") + len(value).to_bytes(4, "big") + data + value

    def ask(self, kind, body=b"", value=b"", wanted=SUCCESS):
        """Connection number, body and value of the reply, which is believed only if it is signed and to this request."""
        self.sequence += 1
        self.stream.write(self.request(kind, body, value))
        self.stream.flush()
        head = self.stream.read(9)
        data, value = self.stream.read(int.from_bytes(head[1:5], "big")), self.stream.read(int.from_bytes(head[5:9], "big"))
        reply = fields(data)
        if reply.get(4) != [HMACAUTH]:
            raise SystemExit("the box closed the connection")
        if not hmac.compare_digest(fields(reply[5][0])[2][0], hmac.digest(self.key, reply[7][0], "sha1")):
            raise SystemExit("the reply is not signed with this key")
        command = fields(reply[7][0])
        header, status = fields(command[1][0]), fields(command[3][0])[1][0]
        if header.get(6) != [self.sequence] or status == SUCCESS and header[3] != [self.number] or status != wanted:
            raise SystemExit(f"the box answered {status}")
        return header[3][0], fields(command.get(2, [b""])[0]), value


def main(address, identity, key_file, command, first, second=""):
    with open(key_file, "rb") as file:
        client = Client(address, int(identity), file.read().removesuffix(b"\n"))
    first, second = first.encode(), second.encode()
    if command == "put":
        client.ask(PUT, message((1, message((3, first), (5, hashlib.sha1(second).digest()), (6, SHA1), (8, 1)))), second)
    elif command == "get":
        _, body, value = client.ask(GET, message((1, message((3, first)))))
        if fields(body[1][0]).get(5) != [hashlib.sha1(value).digest()]:
            raise SystemExit("the value is not the one that was put")
        print(value.decode(errors="backslashreplace"))
    elif command == "keys":
        _, body, _ = client.ask(GETKEYRANGE, message((2, message((1, first), (2, second), (3, 1), (4, 1)))))
        print(*(key.decode(errors="backslashreplace") for key in fields(body[2][0]).get(8, [])), sep="\n")


if __name__ == "__main__":
    main(*sys.argv[1:])
