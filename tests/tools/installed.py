"""Tests of what is installed: the package in an empty folder, the commands of the units, and manual pages.

Without `dpkg-deb`, `make`, `systemd-analyze` or `groff` a line says what is skipped.
"""
import importlib.util
import os
import re
import shutil
import subprocess
import tempfile
import time
from importlib.machinery import SourceFileLoader

from checks import TOP
from feed.played import PAIR, Router
from pcep.beside import Client
from pcep.played import request
from program.serving import PATIENCE
from tools.completions import completions
from tools.kept import started
from tools.fronts import Connection

from routed.pcep.wire import pack
from routed.tools import TOOLS as NAMES

DEPLOY = os.path.join(TOP, "deploy")
UNITS = sorted(name for name in os.listdir(DEPLOY) if name.endswith((".service", ".socket", ".timer")))
CONFIGURED = [f"etc/routed/{name}.conf" for name in ("feed", "page", "pcep", "serve", "solve")]
MOST_EXPOSED = 4.0  # of systemd-analyze security
FILES = """bin/routed bin/routed-tools lib/python3/dist-packages/routed/front/listen.py lib/python3/dist-packages/routed/feed/ospf/ospf.py
lib/routed/keep lib/routed/serve lib/routed/fed lib/systemd/system/routed-serve.service lib/systemd/system/routed-feed.service
lib/systemd/system/routed-pcep.service lib/systemd/system/routed-roll.timer lib/python3/dist-packages/routed/pcep/front.py
lib/systemd/system/routed-page.service lib/python3/dist-packages/routed/page/front.py
lib/python3/dist-packages/routed/page/static/page.html lib/python3/dist-packages/routed/page/static/page.js
lib/python3/dist-packages/routed/page/static/page.css
lib/systemd/system/routed-solve.socket lib/systemd/system/routed-solve@.service lib/sysusers.d/routed.conf lib/tmpfiles.d/routed.conf
lib/systemd/system/routed-serve.service.d/port.conf.example lib/systemd/system/routed-roll.service
share/man/man1/routed.1.gz share/man/man1/routed-tools.1.gz share/man/man5/routed-formats.5.gz share/man/man5/routed.conf.5.gz
share/man/man7/routed-service.7.gz
share/doc/routed/docs/run/OPERATORS.md share/doc/routed/docs/run/PAGE.md share/doc/routed/docs/run/page-50.png
share/routed/examples/nsfnet.journal share/routed/alarms.yml share/routed/dashboard.json share/doc/routed/copyright
share/bash-completion/completions/routed-tools share/zsh/vendor-completions/_routed-tools
share/fish/vendor_completions.d/routed-tools.fish share/doc/routed/SECURITY.md share/doc/routed/NEWS.gz
share/doc/routed/changelog.gz""".split()


SECTIONS = {"routed.1": "NAME, SYNOPSIS, DESCRIPTION, EXAMPLES, FILES, ENVIRONMENT, EXIT STATUS, SEE ALSO",
            "routed-tools.1": "NAME, SYNOPSIS, DESCRIPTION, EXAMPLES, FILES, ENVIRONMENT, EXIT STATUS, SEE ALSO",
            "routed.conf.5": "NAME, SYNOPSIS, DESCRIPTION, FILES, EXAMPLES, ENVIRONMENT, EXIT STATUS, SEE ALSO"}


def skipped(*tools):
    """Says in one line which of these aren't there; whether one isn't."""
    absent = [tool for tool in tools if not shutil.which(tool)]
    if absent:
        print(f"skipped: what needs {absent[0]}, since there is none")
    return bool(absent)


# ---- the package


def package(program, checks):
    if skipped("dpkg-deb", "make"):
        return
    with tempfile.TemporaryDirectory() as room:
        made = subprocess.run(["make", "-s", "deb", f"PROGRAM={program.path}", f"OUT={room}", "COMPRESS=-Znone"], cwd=TOP,
                              capture_output=True, text=True, timeout=300)
        found = [name for name in os.listdir(room) if name.endswith(".deb")]
        checks.true("make deb makes a package", made.returncode == 0 and len(found) == 1, made.stderr[-1000:])
        deb, empty = os.path.join(room, found[0]), os.path.join(room, "empty")
        subprocess.run(["dpkg-deb", "-x", deb, empty], check=True)
        said = {field: subprocess.run(["dpkg-deb", "-f", deb, field], capture_output=True, text=True).stdout
                for field in ("Package", "Depends", "Version")}
        checks.same("its name", said["Package"], "routed\n")
        checks.same("what it depends on", re.sub(r" \(.*?\)", "", said["Depends"]), "libc6, python3\n")
        checks.same("its version is that of the tree", said["Version"], text_of("VERSION"))
        held = subprocess.run(["dpkg-deb", "-c", deb], capture_output=True, text=True).stdout.splitlines()
        checks.same("files of root alone", [line for line in held if line.split()[1] != "root/root"], [])
        checks.same("no unit is enabled", [line for line in held if ".wants/" in line], [])
        checks.same("its configuration", sorted(line.split("./")[1] for line in held if "./etc" in line and line[0] == "-"), CONFIGURED)
        told = subprocess.run(["dpkg-deb", "-I", deb, "conffiles"], capture_output=True, text=True).stdout.split()
        checks.same("an upgrade keeps what was changed there", told, [f"/{name}" for name in CONFIGURED])
        for name in FILES:
            checks.true(f"it has {name}", os.path.isfile(os.path.join(empty, "usr", name)))
        checks.same("no file of Python's cache", [line for line in held if "__pycache__" in line], [])
        modules = {name for name in files_below(os.path.join(TOP, "python/routed")) if name.endswith((".py", ".c")) or "/static/" in name}
        installed = files_below(os.path.join(empty, "usr/lib/python3/dist-packages/routed"))
        checks.same("all modules are installed, each in its folder", installed, modules)
        unpacked(program, checks, room, os.path.join(empty, "usr"))


def files_below(folder):
    """The files of a folder and its folders, by their paths from there."""
    return {os.path.relpath(os.path.join(at, name), folder) for at, _, names in os.walk(folder) for name in names}


def text_of(name):
    with open(os.path.join(TOP, name), encoding="utf-8") as file:
        return file.read()


def unpacked(program, checks, room, top):
    """The programs and the units' commands, with PATH and PYTHONPATH to the unpacked package, in a folder of nothing else."""
    home = os.path.join(room, "home")
    os.makedirs(home)
    env = {"PATH": f"{top}/bin:/usr/bin:/bin", "PYTHONPATH": f"{top}/lib/python3/dist-packages", "PYTHONDONTWRITEBYTECODE": "1",
           "HOME": home}

    def run(*words, rows=""):
        ran = subprocess.run(words, input=rows, env=env, cwd=home, capture_output=True, text=True, timeout=PATIENCE)
        return ran.returncode, ran.stdout, ran.stderr

    rows = text_of("examples/abilene.rows")
    wanted = program.solve(rows)
    checks.same("routed solve", run("routed", "solve", rows=rows), (wanted[0], wanted[1].decode(), ""))
    checks.true("it answers", wanted[1].startswith(b"version 1\nask 1 v1 route "), wanted[1][:100])
    journal, requests = (os.path.join(top, f"share/routed/examples/nsfnet.{kind}") for kind in ("journal", "requests"))
    status, out, err = run("routed-tools", "sweep", journal, requests)
    checks.true("routed-tools sweep finds routed on the path", (status, err) == (0, "") and "network version=10 routers=14 links=42" in out,
                (status, out[:300], err))
    status, out, err = run("routed-tools", "draw", journal)
    checks.true("routed-tools draw", (status, err) == (0, "") and out.count('class="circuit"') == 21, (status, err))
    status, _, err = run("routed-tools", "why", "cost")
    checks.true("routed-tools why says what is missing", status == 2 and "--frr DIR" in err, err)
    for words, status in ((("routed-tools", "--help"), 0), (("routed-tools",), 2), (("routed-tools", "nothing"), 2)):
        checks.same(f"the status of {' '.join(words)}", run(*words)[0], status)
    with started(["routed-tools", "listen", "--journal", "day.journal", "--ask", "./ask", "--updates", "./updates"], env=env,
                 cwd=home) as listening:
        checks.same("routed-tools listen", listening.stdout.readline(), "ready\n")
        checks.same("routed-tools connect brings updates",
                    run("routed-tools", "connect", "./updates", rows=text_of("examples/nsfnet.journal"))[1].splitlines()[-1:],
                    ["version 10"])
        listening.terminate()
        checks.same("its status after a signal", listening.wait(PATIENCE), 143)
    units(checks, home, top, env)


def command_of(unit, top, env, folder):
    """The words of a unit's ExecStart, with the variables of its example of a file in /etc/routed, in an unpacked package and a folder."""
    given = dict(env)
    text = text_of(f"deploy/{unit}")
    for path in re.findall(r"(?m)^EnvironmentFile=/etc/(.*)$", text):
        for name, value in re.findall(r"(?m)^(\w+)=(.*)$", text_of(f"deploy/etc/{path}")):
            given[name] = re.sub(r"/(run|var/lib)/routed", folder, value)
    words = re.search(r"(?m)^ExecStart=(.*)$", text)[1].split()
    return [part for word in words for part in (given[word.strip("${}")].split() if word[0] == "$"
                                                else [re.sub("^/usr", top, word)])], given


def units(checks, home, top, env):
    os.makedirs(os.path.join(home, "updates"))
    words, given = command_of("routed-serve.service", top, env, home)
    with open(os.path.join(home, "said"), "w+", encoding="utf-8") as said, started(words, env=given, stderr=said) as server:
        checks.same("the command of routed-serve.service", (server.stdout.readline(), server.stdout.readline()), ("run 1\n", "ready\n"))
        said.seek(0)
        checks.true("a first start says that its network is empty", "keep: 000001 begins with an empty network\n" in said.read())
        modes = [oct(os.stat(os.path.join(home, name)).st_mode & 0o777) for name in ("ask", "updates/socket")]
        checks.same("the modes of its sockets", modes, ["0o660"] * 2)
        router = Router()
        words, given = command_of("routed-feed.service", top, env, home)
        with started([*words, "--port", str(router.port), "--collect", "0"], env=given, stdin=subprocess.DEVNULL,
                     stderr=subprocess.DEVNULL):
            router.accept()
            router.send(PAIR)
            asking, line, end = Connection(os.path.join(home, "ask")), " v0 ", time.monotonic() + PATIENCE
            while " v0 " in line and time.monotonic() < end:
                line = asking.talk("ask,1,1.1.1.1,2.2.2.2,0,1,0x0,0x0,0x0,\n")
                time.sleep(0.02)
            checks.true("the command of routed-feed.service brings the network", re.fullmatch(r"ask 1 v[12] .*\n", line), line)
            words, given = command_of("routed-pcep.service", top, env, home)
            with started([*words, "--port", "0"], env=given, stderr=subprocess.DEVNULL) as answering:
                router_of = Client(int(answering.stdout.readline().split(":")[1]))
                answering.stdout.readline()
                router_of.open()
                ends = pack(4, bytes([1] * 4 + [2] * 4), must=True)
                found, end = "", time.monotonic() + PATIENCE
                while not found.startswith("PCRep") and time.monotonic() < end:
                    found = router_of.ask(request(ends=ends))
                checks.true("the command of routed-pcep.service answers a router", found.startswith("PCRep "), found)
                answering.terminate()
                checks.same("its status after a signal", answering.wait(PATIENCE), 0)
            words, given = command_of("routed-page.service", top, env, home)
            with started([*words, "--at", os.path.join(home, "page")], env=given, stderr=subprocess.DEVNULL) as page:
                checks.same("the command of routed-page.service", page.stdout.readline(), "ready\n")
                made = Connection(os.path.join(home, "page"))
                made.say("GET /page.js HTTP/1.1\r\nHost: localhost\r\n\r\n")
                checks.true("it has its files", made.rest().startswith("HTTP/1.1 200 OK\r\n"))
                page.terminate()
                checks.same("its status after a signal", page.wait(PATIENCE), 0)
        server.terminate()
        checks.same("the server's status after a signal", server.wait(PATIENCE), 143)
    words, given = command_of("routed-solve@.service", top, env, home)
    ran = subprocess.run(words, env=given, input="end,1,0\nend,3,0\n", capture_output=True, text=True, timeout=PATIENCE)
    checks.same("the command of routed-solve@.service", (ran.returncode, ran.stdout), (2, "version 1\nbatch 3 refused: expected 2\n"))


# ---- what other programs say of the units and pages


def hardened(_, checks):
    checks.same("the units", UNITS, ["routed-feed.service", "routed-page.service", "routed-pcep.service", "routed-roll.service",
                                     "routed-roll.timer", "routed-serve.service", "routed-solve.socket", "routed-solve@.service"])
    for unit in UNITS:
        text = text_of(f"deploy/{unit}")
        checks.same(f"{unit} has no condition but being enabled", re.findall("(?m)^(?:Condition|Assert).*", text), [])
        if not unit.endswith(".timer"):
            checks.true(f"{unit} may fail however often", "\nStartLimitIntervalSec=0\n" in text.partition("\n[Service]")[0])
        if "\nRestart=" in text:
            checks.true(f"{unit} starts again after 5 seconds", "\nRestartSec=5\n" in text)
    for unit in ("routed-feed.service", "routed-page.service", "routed-pcep.service", "routed-serve.service"):
        checks.true(f"{unit} says when it is ready, and that its loop turns",
                    re.search(r"(?m)^Type=notify\n(.*\n)*WatchdogSec=\d+\n", text_of(f"deploy/{unit}")))
    if skipped("systemd-analyze"):
        return
    for unit in UNITS:
        if unit.endswith(".service"):
            rated(checks, unit, ["--offline=true", os.path.join(DEPLOY, unit)])
    with tempfile.TemporaryDirectory() as room:
        units_of = os.path.join(room, "etc/systemd/system")
        os.makedirs(os.path.join(units_of, "routed-serve.service.d"))
        shutil.copy(os.path.join(DEPLOY, "routed-serve.service"), units_of)
        shutil.copy(os.path.join(DEPLOY, "routed-serve.service.d/port.conf.example"), f"{units_of}/routed-serve.service.d/port.conf")
        rated(checks, "routed-serve.service with ports", ["--offline=true", f"--root={room}", "routed-serve.service"])
    ran = subprocess.run(["systemd-analyze", "verify", "--man=no", *(os.path.join(DEPLOY, unit) for unit in UNITS)], capture_output=True,
                         text=True)
    said = [line for line in ran.stderr.splitlines() if re.search("routed", line) and "is not executable" not in line]
    checks.same("systemd-analyze verify", said, [])


def rated(checks, name, words):
    ran = subprocess.run(["systemd-analyze", "security", "--no-pager", *words], capture_output=True, text=True)
    found = re.search(r"Overall exposure level for \S+: (\d+\.\d)", ran.stdout)
    checks.true(f"the exposure of {name}", found and float(found[1]) < MOST_EXPOSED, found[0] if found else ran.stderr)


def manual(program, checks):
    """The manual pages are what man/make writes now, and are set without a warning."""
    path = os.path.join(TOP, "man/make")
    loader = SourceFileLoader("make", path)
    make = importlib.util.module_from_spec(importlib.util.spec_from_loader("make", loader))
    loader.exec_module(make)
    made = make.pages(program.path)
    for name, sections in SECTIONS.items():
        found = re.findall("(?m)^\\.SH (.*)$", made[name])
        checks.same(f"man/{name} has its sections", [section for section in sections.split(", ") if section not in found], [])
    usage = re.findall(r"(?m)^\\fCusage: (routed\S*tools \S+(?: bgpls)?)", made["routed-tools.1"].replace("\\-", "-"))
    tools = [name for tool in NAMES for name in make.PARTS.get(tool, [tool])]
    checks.same("the helps name the installed commands", usage, [f"routed-tools {name}" for name in tools])
    for name, text in made.items():
        of_tree = re.findall(r"(?<![\w./])tools/routed\S*|crates/\S+", text.replace("\\-", "-"))
        checks.same(f"man/{name} names no command of the source tree", of_tree, [])
        examples = re.findall(r"(?m)^(?:\\fC)?(\S+)", text.partition(".SH EXAMPLES\n")[2].partition("\n.SH ")[0].replace("\\-", "-"))
        if name in SECTIONS and name.endswith(".1"):
            commands = [word for word in examples if not word.startswith(".") and word in ("routed", "routed-tools", "export")]
            checks.true(f"man/{name} has examples", len(commands) > 3, examples)
        checks.same(f"man/{name} is what man/make writes", text_of(f"man/{name}") == text, True)
        if shutil.which("groff"):
            ran = subprocess.run(["groff", "-t", "-man", "-ww", "-Tutf8", "-rLL=100n", os.path.join(TOP, "man", name)], capture_output=True,
                                 text=True)
            checks.same(f"man/{name} is set", (ran.returncode, ran.stderr), (0, ""))
    skipped("groff")
    pages = text_of("man/routed.1") + text_of("man/routed-tools.1")
    for setting in re.findall(r"(?m)^\w+=.*$", "".join(text_of(f"deploy/{name}") for name in CONFIGURED)):
        checks.true(f"routed.conf(5) has {setting}", setting.replace("-", "\\-") in made["routed.conf.5"])
    for word in ("put,router,local", "--accept-torn", "--explain", "--begin FILE", "draw-failures", "ROUTED_PROGRAM",
                 "systemctl enable --now routed-serve"):
        checks.true(f"a manual page has {word}", word.replace("-", "\\-") in pages)


def installed(program, checks):
    checks.parts((hardened, manual, completions, package), program, checks)
