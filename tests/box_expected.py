#!/usr/bin/env python3
"""The lines that examples/box.c must print, from document 01 and change requests 1, 2, 5 and 6 alone: W1, W2 and "Replies", with Python's hmac."""
import hashlib
import hmac

KEY = b"ridgeladle"
W1 = bytes.fromhex("0A 06 18 01 30 02 38 1D 1A 02 08 01")  # the reply's command, as document 01 prints it
W2 = bytes.fromhex("46 00 00 00 0C 00 00 00 00 20 03 3A 08 0A 02 18 01 1A 02 08 14")  # the closing reply with code 20, likewise
COMMAND = bytes.fromhex("0A 06 18 01 20 02 38 1E")  # header: connection 1, sequence 2, type 30
GET_LOG = bytes.fromhex("0A 06 18 01 20 03 38 18 12 08 32 06 08 00 08 01 08 02")  # sequence 3, type 24; body 6 with types 0, 1, 2
# The reply's command: header; body 6 with EN0 at 0.25, HDA at 36.5, board at 98.6 Fahrenheit, which is 37 (98.6 in f32 less 32 is 66.6, five times
# that 333 when rounded), and a capacity of 4,096 bytes with nothing used; status.
LOG = bytes.fromhex("0A 06 18 01 30 03 38 17" "12 32 32 30"
                    "12 0A 0A 03 45 4E 30 15 00 00 80 3E" "1A 0A 0A 03 48 44 41 15 00 00 12 42" "1A 0C 0A 05 62 6F 61 72 64 15 00 00 14 42"
                    "22 08 20 80 20 2D 00 00 00 00" "1A 02 08 01")

# Key timer1 or timer2 in a keyValue, in a body; PUT's reply has an empty keyValue. SUCCESS.
TIMER1 = bytes.fromhex("12 0A 0A 08 1A 06 74 69 6D 65 72 31")
TIMER2 = bytes.fromhex("12 0A 0A 08 1A 06 74 69 6D 65 72 32")
PUT_BODY, SUCCESS = bytes.fromhex("12 02 0A 00"), bytes.fromhex("1A 02 08 01")


def framed(command, value=b""):
    """Message 4 = 1, HMACauth with identity 1, 7; in a frame with the value part."""
    digest = hmac.new(KEY, command, hashlib.sha1).digest()
    auth = b"\x08\x01\x12\x14" + digest
    message = b"\x20\x01\x2a" + bytes([len(auth)]) + auth + b"\x3a" + bytes([len(command)]) + command
    return b"F" + len(message).to_bytes(4, "big") + len(value).to_bytes(4, "big") + message + value


def show(name, data):
    print(name, data.hex(" ").upper())


def counted(taken, reply):
    print(f"answer 0, taken {taken}, written {len(reply)}")


def answered(taken, reply):
    counted(taken, reply)
    show("reply", reply)


def connection(closed, seen, last):
    show("connection", (1).to_bytes(8, "big") + bytes([0, closed, seen]) + bytes(5) + last.to_bytes(8, "big") + bytes(8))


def header(field, sequence, kind):
    """Connection 1, the sequence (field 4 of a request, 6 of a reply), messageType."""
    return bytes([0x0A, 6, 0x18, 1, field * 8, sequence, 0x38, kind])


def rescue():
    """Two PUTs (type 4, reply 3); the first of eight blocks is damaged; a GET (2, reply 1) gives the second."""
    for sequence, body, value in (1, TIMER1, b"12.07 s"), (2, TIMER2, b"11.93 s"):
        counted(len(framed(header(4, sequence, 4) + body, value)), framed(header(6, sequence, 3) + PUT_BODY + SUCCESS))
    print("answer 2\nfind 2\nrescue 8\nrescue 0")
    show("report", bytes([2, 1, 0, 0, 0, 0, 0, 0]))
    answered(len(framed(header(4, 3, 2) + TIMER2)), framed(header(6, 3, 1) + TIMER2 + SUCCESS, b"11.93 s"))
    print("find 0, 11.93 s")


def main():
    request = framed(COMMAND)
    reply = framed(W1)
    assert (len(reply) - 9, len(reply)) == (42, 51)
    again = framed(W1[:-1] + b"\x10")  # status INVALID_REQUEST (16)

    print("format 0")
    connection(0, 0, 0)
    print("answer 5")
    answered(len(request), reply)
    connection(0, 1, 2)
    answered(len(request), again)
    request = framed(GET_LOG)
    print("answer 7")
    answered(len(request), framed(LOG))
    answered(len(request), W2)
    connection(1, 1, 3)
    print("answer 4")
    print("find 1")
    rescue()


if __name__ == "__main__":
    main()
