"""The recipe for TLS in docs/OPERATING.md, played with Debian's stunnel4: a TlsRequired scope works through it, and not beside it."""
import re
import socket
import subprocess
import time

import model
from client import Commands
from held import hold, same
from program import KEY, LOOPBACK, TOP, within
from wire import all_scope

MINUTES = 180
TABLET = b"the tablet's key"
ENTRY = model.Entry(b"timer/7/0001", value=b"WBGT 31.4 C")
ACLS = model.Acl(1, KEY, (all_scope(),)), model.Acl(20, TABLET, (model.Scope(frozenset({model.READ}), value=b"timer/", tls=True),))


class Stunnel:
    """stunnel4 with a configuration of the recipe, its files in the site's folder and its addresses others."""

    def __init__(self, site, name, text):
        options = "foreground = yes\npid =\nsyslog = no\n"
        path = site.write(f"{name}.conf", (options + text).encode())
        self.log = site.path(f"{name}.log")
        with open(self.log, "wb") as log:
            self.process = subprocess.Popen(["stunnel4", path], stdin=subprocess.DEVNULL, stdout=log, stderr=log, cwd=site.folder)

    def ready(self, port):
        waiting = within(MINUTES)
        while waiting() and not taken(port) and self.process.poll() is None:
            time.sleep(.02)
        hold(f"stunnel is not there: {self.log.read_text()}", self.process.poll() is None and taken(port))

    def end(self):
        self.process.kill()
        self.process.wait(MINUTES)


def free_ports(*names):
    """Ports that nobody listens on, each another."""
    listeners = [socket.create_server((LOOPBACK, 0)) for _ in names]
    ports = {name: listener.getsockname()[1] for name, listener in zip(names, listeners)}
    for listener in listeners:
        listener.close()
    return ports


def taken(port):
    """Whether somebody listens there."""
    with socket.socket() as probe:
        return probe.connect_ex((LOOPBACK, port)) == 0


def recipe(site, addresses):
    """The recipe's command, and its configurations by name, with files in the site's folder and these addresses."""
    text = (TOP / "docs" / "OPERATING.md").read_text()
    text = text[text.index("\n## TLS\n"):].split("\n## ")[1].replace("/etc/stunnel/", f"{site.folder}/")
    for written, address in addresses.items():
        hold(f"{written} is not in the recipe", f" {written}" in text)
        text = text.replace(f" {written}", f" {address}")
    blocks = ["\n".join(line[4:] for line in block.splitlines()) for block in re.findall(r"(?:^    .*\n)+", text, re.M)]
    return blocks[0], {re.match(r"\[(\w+)\]", block)[1]: block + "\n" for block in blocks[1:]}


def looked(run, port):
    return run.site.run("get", ENTRY.key.decode(), "--server", f"{LOOPBACK}:{port}", "--identity", "20", "--key-file", "tablet.key", seconds=MINUTES)


def wrong_ways(run, configurations, ports):
    """Without TLS to the terminator, beside it, and with a terminator that another certificate speaks for."""
    done = looked(run, run.server.address[1])
    same(f"beside the terminator: exit code and output, with {done.err!r}", done[:2], (3, b""))
    done = looked(run, ports["box"])
    same(f"without TLS: exit code and output, with {done.err!r}", done[:2], (69, b""))
    other = configurations["tablet"].replace("box.crt", "other.crt").replace(str(ports["tablet"]), str(ports["other"]))
    stranger = Stunnel(run.site, "other", other)
    try:
        stranger.ready(ports["other"])
        done = looked(run, ports["other"])
        same(f"with another certificate: exit code and output, with {done.err!r}", done[:2], (69, b""))
    finally:
        stranger.end()


def tls(site):
    """stunnel4 as docs/OPERATING.md says: a TlsRequired scope works through it, not on the plain listener, nor without TLS, nor with another certificate."""
    for command, package in ("stunnel4", "stunnel4"), ("openssl", "openssl"):
        subprocess.run([TOP / "tests" / "need", command, package], check=True, timeout=MINUTES)
    site.write("tablet.key", TABLET)
    run = Commands(site, model.Box(model.store_of([ENTRY], model.BLOCK), model.record_of(model.Table(0, ACLS))), "--protected-listen", f"{LOOPBACK}:0")
    ports = free_ports("box", "tablet", "other")
    addresses = {"0.0.0.0:8443": f"{LOOPBACK}:{ports['box']}", "127.0.0.1:8124": f"{LOOPBACK}:{run.server.protected[1]}",
                 "127.0.0.1:8125": f"{LOOPBACK}:{ports['tablet']}", "box:8443": f"{LOOPBACK}:{ports['box']}"}
    command, configurations = recipe(site, addresses)
    for words in command, command.replace("box.", "other."):
        subprocess.run(["sh", "-c", words], check=True, capture_output=True, timeout=MINUTES)
    same("mode of the key", site.path("box.key").stat().st_mode & 0o777, 0o600)
    ends = []
    try:
        for name, text in configurations.items():
            ends.append(Stunnel(site, name, text))
            ends[-1].ready(ports[name])
        done = looked(run, ports["tablet"])
        same("through the terminator", done, (0, b"key timer/7/0001\nvalue WBGT 31.4 C\n", ""))
        wrong_ways(run, configurations, ports)
    finally:
        for end in ends:
            end.end()
    return "through stunnel4, and 3 ways that are refused"


TESTS = [tls]
