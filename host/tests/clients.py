"""What docs/CLIENTS.md tells the writer of another client: its bytes are the model's, and examples/client.py, which it explains, works.

`clients.py` alone prints the two blocks of bytes.
"""
import hashlib
import importlib.util
import pathlib
import re
import subprocess
import sys

if __name__ == "__main__":
    sys.path.append(str(pathlib.Path(__file__).resolve().parent.parent.parent / "conformance"))

import messages
import model
from held import hold, same
from messages import tree
from program import KEY, TOP
from values import Proxy, turned
from wire import NO_READINGS, all_scope

CLIENT = TOP / "examples" / "client.py"
MINUTES = 180
NUMBER, TIMER, SECRET = -0x123456789abcdf0, 7, b"furnace 7"
PUT_KEY, VALUE = b"timer/7/0001", b"WBGT 31.4 C"
SCOPE = model.Scope(frozenset({model.READ, model.WRITE, model.RANGE}), 0, b"timer/")
TABLE = model.Table(0, (model.Acl(1, KEY, (all_scope(),)), model.Acl(TIMER, SECRET, (SCOPE,))))

# Document 003's names of the fields that the example has, by the way to them.
NAMES = {(4,): "authType", (5,): "hmacAuth", (5, 1): "identity", (5, 2): "hmac", (7,): "commandBytes", (7, 1): "header", (7, 1, 3): "connectionID",
         (7, 1, 4): "sequence", (7, 1, 6): "ackSequence", (7, 1, 7): "messageType", (7, 2): "body", (7, 2, 1): "keyValue", (7, 2, 1, 3): "key",
         (7, 2, 1, 5): "tag", (7, 2, 1, 6): "algorithm", (7, 2, 1, 8): "force", (7, 3): "status", (7, 3, 1): "code"}
MESSAGES = {(5,), (7,), (7, 1), (7, 2), (7, 2, 1), (7, 3)}
SAID = {((4,), 1): "HMACAUTH", ((7, 1, 7), 4): "PUT", ((7, 1, 7), 3): "PUT_RESPONSE", ((7, 2, 1, 6), 1): "SHA1", ((7, 2, 1, 8), 1): "true",
        ((7, 3, 1), 1): "SUCCESS"}


def put():
    """The request of the example."""
    pair = tree((3, PUT_KEY), (5, hashlib.sha1(VALUE).digest()), (6, 1), (8, 1))
    return messages.request("PUT", tree((1, pair)), VALUE, TIMER, SECRET, NUMBER, 2).bytes()


def reply():
    """The model's reply to it."""
    box, connection = model.Box(bytes(model.BLOCK), model.record_of(TABLE)), model.Connection(NUMBER, False)
    return model.answer(box, connection, NO_READINGS, put()).reply


def digits(data):
    return data.hex(" ")


def explained(data, way=()):
    """A message's fields, a line each: its bytes, and what they are. The bytes of long contents follow in lines of their own."""
    at = 0
    while at < len(data):
        start = at
        tag, at = model.read_varint(data, at)
        number, at = model.read_varint(data, at)
        here, indent = (*way, tag >> 3), "  " * len(way)
        name = f"{tag >> 3} {NAMES[here]}"
        if tag & 7 == 0:
            signed = number - (number >> 63 << 64)
            yield indent + digits(data[start:at]), indent + f"{name} = {signed}" + (f", {SAID[here, signed]}" if (here, signed) in SAID else "")
            continue
        content = data[at:at + number]
        yield indent + digits(data[start:at]), indent + f"{name}, {number} byte{'s' if number != 1 else ''}"
        yield from explained(content, here) if here in MESSAGES else whole(content, indent + "  ")
        at += number


def whole(content, indent):
    """Bytes as they are, twelve a line; text beside those that are text."""
    for at in range(0, len(content), 12):
        part = content[at:at + 12]
        yield indent + digits(part), indent + (f'"{part.decode()}"' if content.isascii() and content.decode().isprintable() else "")


def block(frame):
    """The lines of a frame."""
    message, value = frame[9:9 + int.from_bytes(frame[1:5], "big")], frame[9 + int.from_bytes(frame[1:5], "big"):]
    lines = [(digits(frame[:1]), "the first byte of every frame"), (digits(frame[1:5]), f"length of the message, {len(message)}"),
             (digits(frame[5:9]), f"length of the value, {len(value)}"), *explained(message), *whole(value, "")]
    return "".join(f"{left:48}{right}".rstrip() + "\n" for left, right in lines)


def clients_bytes(site):
    """The bytes in docs/CLIENTS.md are those of conformance/messages.py and of the model's reply, and examples/client.py sends the same."""
    blocks = re.findall(r"```\n(46 .*?)```", (TOP / "docs" / "CLIENTS.md").read_text(), re.S)
    same("the blocks of docs/CLIENTS.md", blocks, [block(put()), block(reply())])
    spec = importlib.util.spec_from_file_location("example_client", CLIENT)
    example = importlib.util.module_from_spec(spec)
    spec.loader.exec_module(example)
    client = object.__new__(example.Client)
    client.identity, client.key, client.number, client.sequence = TIMER, SECRET, NUMBER, 2
    pair = example.message((3, PUT_KEY), (5, hashlib.sha1(VALUE).digest()), (6, 1), (8, 1))
    same("the PUT of examples/client.py", client.request(example.PUT, example.message((1, pair)), VALUE), put())
    proto = (TOP / "tests" / "kinetic.proto").read_text()
    missing = [name for way, name in NAMES.items() if not re.search(rf"\b{name} = {way[-1]};", proto)]
    same("names and numbers that tests/kinetic.proto lacks", missing, [])
    return f"{len(put())} bytes of a PUT and {len(reply())} of its reply"


def example(server, identity, key, *words):
    """Runs examples/client.py, without the folder's modules beside it."""
    words = [sys.executable, "-I", CLIENT, "%s:%d" % server, str(identity), key, *words]
    done = subprocess.run(words, capture_output=True, text=True, timeout=MINUTES, check=False)
    return done.returncode, done.stdout, done.stderr


def clients_example(site):
    """examples/client.py against the server: a PUT is what the box then holds, what it reads is what was put, refusals are told, a changed value is refused."""
    source = CLIENT.read_text()
    hold("a client of under 100 lines", len(source.splitlines()) < 100)
    known = set(re.findall(r"^(?:import|from) (\w+)", source, re.M))
    hold(f"the standard library alone: {known}", known <= sys.stdlib_module_names)
    key, wrong = site.write("timer.key", SECRET + b"\n"), site.write("wrong.key", b"wrong")
    path = site.image(model.Box(bytes(2 * model.BLOCK), model.record_of(TABLE)))
    server = site.serve(path)
    at, name = server.address, PUT_KEY.decode()
    same("put", example(at, TIMER, key, "put", name, VALUE.decode()), (0, "", ""))
    done = site.run("get", name, "--server", "%s:%d" % at, "--key-file", "key")
    same("get by the program", done, (0, b"key timer/7/0001\ntag right\nalgorithm SHA1\nvalue WBGT 31.4 C\n", ""))
    same("get", example(at, TIMER, key, "get", name), (0, VALUE.decode() + "\n", ""))
    same("put over it", example(at, TIMER, key, "put", name, "WBGT 31,4 °C"), (0, "", ""))
    same("get of it", example(at, TIMER, key, "get", name), (0, "WBGT 31,4 °C\n", ""))
    same("put of an empty value", example(at, TIMER, key, "put", "timer/8", ""), (0, "", ""))
    same("keys", example(at, TIMER, key, "keys", "timer/", "timer/~"), (0, "timer/7/0001\ntimer/8\n", ""))
    for words, code in (["get", "timer/9"], 7), (["get", "other"], 3), (["put", "other", "x"], 3), (["put", "timer/9", "x"], 14), \
            (["put", "timer/8", "x" * 385], 16):
        same(f"{words[:2]}", example(at, TIMER, key, *words), (1, "", f"the box answered {code}\n"))
    same("a wrong key", example(at, TIMER, wrong, "get", name), (1, "", "the box closed the connection\n"))
    site.run("put", name, "WBGT 31.4 C", "--force", "--server", "%s:%d" % at, "--key-file", "key")
    proxy = Proxy(at, back=turned)
    same("a value that is changed on its way", example(("127.0.0.1", proxy.port), TIMER, key, "get", name), (1, "", "the value is not the one that was put\n"))
    return "15 runs of examples/client.py"


TESTS = [clients_bytes, clients_example]

if __name__ == "__main__":
    print(block(put()) + "\n" + block(reply()), end="")
