"""What the program says of itself: help, the version and the man page, each true of the commands that there are."""
import re
import subprocess

from held import hold, same
from program import TOP

PAGE = TOP / "host" / "packaging" / "ridgeladle.1"
MINUTES = 180


def commands(text):
    """The commands of the help, each with its options."""
    paragraphs = re.findall(r"^  ridgeladle (\S+)(.*\n(?:   .*\n)*)", text, re.M)
    return {name: set(re.findall(r"--[a-z-]+", words)) for name, words in paragraphs}


def version_of(path, pattern):
    return re.search(pattern, (TOP / path).read_text(), re.M)[1]


def manual_help(site):
    """`COMMAND --help` prints the command's paragraph of the help, wherever it stands among the words; every option that it names is one."""
    text = site.run("help").out.decode()
    known, count = commands(text), 0
    same("help, by its other names", [site.run(*words).out.decode() for words in ([], ["--help"], ["-h"])], [text] * 3)
    common = set(re.findall(r"--[a-z-]+", re.search(r"its clients, each (.*\n.*\n)", text)[1]))
    clients = set(commands(text[text.index("its clients"):]))
    hold(f"the commands of the help: {known}", len(known) >= 17 and {"serve", "put", "status"} <= set(known))
    for name, options in known.items():
        done = site.run(name, "--help")
        same(f"{name} --help: exit code and error", (done.code, done.err), (0, ""))
        hold(f"{name} --help: {done.out!r}", done.out.startswith(f"ridgeladle {name}".encode()) and done.out.count(b"ridgeladle ") == 1)
        options |= common if name in clients else set()
        same(f"options that {name} --help names", set(re.findall(r"--[a-z-]+", done.out.decode())), options)
        same(f"{name} with --help behind other words", site.run(name, "one", "--strange", "--help").out, done.out)
        for option in options:
            said = site.run(name, option).err
            hold(f"{name} {option}: {said!r}", "is not an option" not in said and said)
            count += 1
    hold("--help behind --", b"--force" not in site.run("get", "--", "--help", "more").out)
    same("strange --help", site.run("strange", "--help").code, 64)
    return f"{len(known)} commands and {count} options"


def manual_version(site):
    """`--version`, the header's macro and number, and the package's version are one."""
    package = version_of("host/Cargo.toml", r'^version = "(.*)"$')
    same("ridgeladle --version", site.run("--version"), (0, f"ridgeladle {package}, Kinetic 3.1.0\n".encode(), ""))
    same("RIDGELADLE_VERSION", version_of("include/ridgeladle.h", r'^#define RIDGELADLE_VERSION "(.*)"$'), package)
    first, second, third = map(int, package.split("."))
    number = version_of("include/ridgeladle.h", r"^#define RIDGELADLE_VERSION_NUMBER (\d+)$")
    same("RIDGELADLE_VERSION_NUMBER", int(number), 10000 * first + 100 * second + third)
    return f"version {package}"


def manual_page(site):
    """The man page is set without a warning, and has every command with its options, and every exit code of docs/OPERATING.md."""
    subprocess.run([TOP / "tests" / "need", "groff", "groff-base"], check=True, timeout=MINUTES)
    done = subprocess.run(["groff", "-man", "-Tascii", "-P-cbou", "-ww", PAGE], capture_output=True, text=True, timeout=MINUTES, check=False)
    same("groff's exit code and warnings", (done.returncode, done.stderr), (0, ""))
    page = re.sub(r"-\n *", "-", done.stdout)
    known = commands(site.run("help").out.decode())
    for name, options in known.items():
        paragraph = re.search(rf"^       {name}\b((?:.*\n)(?:       .*\n)*)", page, re.M)
        hold(f"{name} is not in the man page", paragraph)
        missing = {option for option in options if not re.search(rf"{option}(?![a-z-])", paragraph[1])}
        same(f"options of {name} that the man page lacks", missing, set())
    codes = set(re.findall(r"^\| (\d\d)(?= \|)", (TOP / "docs" / "OPERATING.md").read_text(), re.M))
    hold(f"exit codes of docs/OPERATING.md: {codes}", {"64", "65", "69", "74", "75"} <= codes)
    same("exit codes that the man page lacks", {code for code in codes if not re.search(rf"^       {code}\b", page, re.M)}, set())
    return f"{len(known)} commands, {len(codes)} exit codes, no warning of groff's"


TESTS = [manual_help, manual_version, manual_page]
