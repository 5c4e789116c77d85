"""`make install` in an empty DESTDIR: what is there, and that it works from there."""
import os
import re
import shutil
import stat
import subprocess

import layout
from held import hold, same
from manual import version_of
from program import KEY, TOP

MINUTES = 180
MODES = {"bin/ridgeladle": 0o755, "lib/libridgeladle.a": 0o644, "include/ridgeladle.h": 0o644, "lib/pkgconfig/ridgeladle.pc": 0o644,
         "share/man/man1/ridgeladle.1": 0o644, "lib/systemd/system/ridgeladle.service": 0o644, "lib/sysusers.d/ridgeladle.conf": 0o644}
PROGRAM = b"""#include <ridgeladle.h>
#include <stdio.h>
#include <string.h>

int main(int count, char **words) {
    static uint8_t store[RIDGELADLE_BLOCK], record[RIDGELADLE_RECORD];
    if (count != 2 || ridgeladle_version() != RIDGELADLE_VERSION_NUMBER) return 2;
    uint32_t refused = ridgeladle_format(store, sizeof store, record, (const uint8_t *)words[1], strlen(words[1]));
    if (refused != 0) return 3;
    printf("%s %u\\n", RIDGELADLE_VERSION, (unsigned)ridgeladle_version());
    fwrite(record, 1, sizeof record, stdout);
    return 0;
}
"""


def made(words, **given):
    """Runs a command that must end well; gives what it printed."""
    done = subprocess.run(words, capture_output=True, timeout=MINUTES, check=False, **given)
    same(f"exit code of {words}, with {done.stderr.decode()!r}", done.returncode, 0)
    return done.stdout


def install(site, prefix, destination=""):
    made(["make", "-s", "install", f"PREFIX={prefix}", f"DESTDIR={destination}"], cwd=TOP, env={**os.environ, "PROGRAM": str(site.program)})


def links(site, destination, at):
    """A program in C, and the same as C++, built by pkg-config's words alone, do what the box's format does."""
    given = {**os.environ, "PKG_CONFIG_LIBDIR": str(at / "lib" / "pkgconfig"), "PKG_CONFIG_SYSROOT_DIR": str(destination)}
    subprocess.run([TOP / "tests" / "need", "pkg-config", "pkg-config"], check=True, timeout=MINUTES)
    words = made(["pkg-config", "--cflags", "--libs", "ridgeladle"], env=given).decode().split()
    version = made(["pkg-config", "--modversion", "ridgeladle"], env=given).decode().strip()
    number = version_of("include/ridgeladle.h", r"VERSION_NUMBER (\d+)$")
    site.write("program.c", PROGRAM)
    for language in ["-xc", "-std=c99"], ["-xc++", "-std=c++11"]:
        made(["gcc", *language, "-Wall", "-Wextra", "-Wpedantic", "-Werror", "-o", site.path("linked"), site.path("program.c"), "-xnone", *words])
        first, record = made([site.path("linked"), KEY]).split(b"\n", 1)
        same("what the linked program says", first.decode(), f"{version} {number}")
        same("the record that it made", record, layout.formatted(KEY, 1).record)
    return version


def service(destination, at, prefix):
    """The unit starts what is installed, as a user of its own that sysusers makes, again where it ended."""
    unit = (at / "lib/systemd/system/ridgeladle.service").read_text()
    start = re.search(r"^ExecStart=(\S+) serve --image (\S+)", unit, re.M)
    same("what ExecStart starts", start[1], f"{prefix}/bin/ridgeladle")
    hold("what it starts is not there", (destination / start[1].lstrip("/")).is_file())
    user = re.search(r"^User=(\S+)$", unit, re.M)[1]
    hold(f"the unit:\n{unit}", re.search(r"^Restart=always$", unit, re.M) and user != "root" and start[2].startswith(f"/var/lib/{user}/"))
    hold("sysusers does not make the user", re.search(rf"^u {user} ", (at / "lib/sysusers.d/ridgeladle.conf").read_text(), re.M))


def installed(site):
    """`make install` with PREFIX and DESTDIR: these files and no others, a program that runs, a library that links by its pkg-config file, and a service
    unit."""
    for prefix in "/usr", "/opt/the box":
        destination = site.path("destination")
        at = destination / prefix.lstrip("/")
        install(site, prefix, destination)
        there = {str(path.relative_to(at)): stat.S_IMODE(path.stat().st_mode) for path in at.rglob("*") if path.is_file()}
        same(f"files and modes under {prefix}", there, MODES)
        same("files elsewhere", sum(path.is_file() for path in destination.rglob("*")), len(MODES))
        hold("a place that was not filled in", not any(b"@" in (at / name).read_bytes() for name in MODES if name.startswith(("lib/p", "lib/s", "share"))))
        if " " not in prefix:
            version = links(site, destination, at)
            same("the installed program's version", made([at / "bin/ridgeladle", "--version"]).decode(), f"ridgeladle {version}, Kinetic 3.1.0\n")
            service(destination, at, prefix)
        shutil.rmtree(destination)
    if shutil.which("systemd-analyze"):
        install(site, site.path("prefix"))
        made(["systemd-analyze", "verify", "--man=no", site.path("prefix/lib/systemd/system/ridgeladle.service")])
    return f"{len(MODES)} files under each of two prefixes; linked as C and as C++"


TESTS = [installed]
