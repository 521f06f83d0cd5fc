"""Tests of the package on a booted Debian: it is installed, used, upgraded, killed, filled up, rolled, removed and purged, by the commands
that docs/run/OPERATORS.md and docs/run/WATCHING.md quote, and routed-service(7) with them. The state after each step is compared.

It needs root, systemd-nspawn and a folder with a base system, which `tests/booted --make` makes by debootstrap from Debian's archive.
Without these a line says that it is skipped. The booted system has no network.
"""
import contextlib
import glob
import os
import re
import shutil
import signal
import subprocess
import tempfile
import time

from tools.installed import text_of
from tools.packaged import LATER, made

BASE = os.environ.get("ROUTED_BASE", "/var/cache/routed-tests/bookworm")
RELEASE, INCLUDED = "bookworm", "systemd,systemd-sysv,dbus,python3,procps"
BOOTED, SOON = 90, 60  # seconds that a system has to boot, and a state to come
KILLS = 10
OTHER = "192.0.2.7"  # an address of the system that isn't localhost
SIZE = "1536k"  # of the disk that is filled
ROUTE = "ask 1 v{} route cost=4200 hops=3 again=no ero=001c140101080a020402200001080a040b02200001080a0b0d022000"
PAGES, MANUAL = ("docs/run/OPERATORS.md", "docs/run/WATCHING.md"), "man/routed-service.7"


def booted(program, checks):
    why = missing()
    if why:
        print(f"skipped: booted, since there is {why}")
        return
    with tempfile.TemporaryDirectory() as room:
        first, second = made(program, room)
        folders = [os.path.join(room, "packages", name) for name in ("first", "second")]
        for folder, package, version in zip(folders, (first, second), (text_of("VERSION").strip(), LATER)):
            os.makedirs(folder)
            shutil.copy(package, os.path.join(folder, f"routed_{version}_amd64.deb"))
        with machine(room) as system:
            steps = Steps(system, checks)
            for step in (steps.install, steps.start, steps.ports, steps.solve, steps.upgrade, steps.kills, steps.full_disk, steps.renewal,
                         steps.roll, steps.remove, steps.purge):
                checks.part(f"booted: {step.__name__}", step)


def missing():
    """What isn't there."""
    if os.geteuid():
        return "no root"
    if not shutil.which("systemd-nspawn") or not shutil.which("nsenter"):
        return "no systemd-nspawn (Debian's systemd-container)"
    if not os.path.isdir(os.path.join(BASE, "usr/lib/systemd")):
        return f"no base system {BASE} (tests/booted --make makes it, by debootstrap)"
    return None


def make():
    """Makes the base system. This needs the network."""
    os.makedirs(os.path.dirname(BASE), exist_ok=True)
    part = f"{BASE}.part"
    shutil.rmtree(part, ignore_errors=True)
    status = subprocess.call(["debootstrap", "--variant=minbase", f"--include={INCLUDED}", RELEASE, part])
    if not status:
        os.rename(part, BASE)
    return status


# ---- the system


class System:
    """A system that is booted, and commands in it."""

    def __init__(self, child):
        self.child, self.leader = child, 0

    def boot(self):
        end = time.monotonic() + BOOTED
        while time.monotonic() < end and self.child.poll() is None:
            self.leader = leader_of(self.child.pid)
            if self.leader and self.run("systemctl is-system-running")[1].strip() in ("running", "degraded"):
                return True
            time.sleep(0.3)
        return False

    def run(self, command, folder="/"):
        """The status and what was printed, on both streams."""
        ran = subprocess.run(["nsenter", "--target", str(self.leader), "--mount", "--uts", "--ipc", "--net", "--pid", "--", "/bin/sh", "-c",
                              f"cd {folder} && {command}"], env={"PATH": "/usr/sbin:/usr/bin:/sbin:/bin", "LC_ALL": "C",
                                                                 "DEBIAN_FRONTEND": "noninteractive"},
                             stdin=subprocess.DEVNULL, stdout=subprocess.PIPE, stderr=subprocess.STDOUT, text=True, timeout=180)
        return ran.returncode, ran.stdout

    def said(self, command):
        return self.run(command)[1].strip()

    def has_address(self, address):
        """Gives the system an address, by the `ip` of this machine."""
        return bool(shutil.which("ip")) and not subprocess.run(["nsenter", "--target", str(self.leader), "--net", "ip", "address", "add",
                                                                f"{address}/32", "dev", "lo"]).returncode


def leader_of(number):
    """The process below this one that is the first of its system."""
    with contextlib.suppress(OSError, IndexError, ValueError):
        with open(f"/proc/{number}/status", encoding="ascii") as file:
            numbers = re.search(r"(?m)^NSpid:\s+(.*)$", file.read())[1].split()
        if len(numbers) > 1 and numbers[-1] == "1":
            return number
        with open(f"/proc/{number}/task/{number}/children", encoding="ascii") as file:
            for child in file.read().split():
                if found := leader_of(int(child)):
                    return found
    return 0


def groups():
    """The control groups that systemd-nspawn makes where no systemd runs."""
    tops = [at for name in ("payload", "supervisor") for at in glob.glob(f"/sys/fs/cgroup/{name}") + glob.glob(f"/sys/fs/cgroup/*/{name}")]
    return {at for top in tops for at, _, _ in os.walk(top)}


@contextlib.contextmanager
def machine(room):
    """A copy of the base system, booted."""
    top = os.path.join(room, "system")
    subprocess.run(["cp", "-a", "--reflink=auto", BASE, top], check=True)
    with open(os.path.join(top, "etc/apt/apt.conf.d/test"), "w", encoding="ascii") as file:
        file.write('APT::Get::Assume-Yes "true";\nDpkg::Options { "--force-confold"; };\n')
    before = groups()
    words = ["systemd-nspawn", "--quiet", f"--directory={top}", "--boot", "--private-network", "--register=no", "--keep-unit",
             "--console=pipe", "--capability=CAP_BPF", "--system-call-filter=bpf", f"--machine=routed-test-{os.getpid()}",
             f"--bind-ro={room}/packages:/packages"]
    with open(os.path.join(room, "console"), "wb") as console:
        env = {**os.environ, "SYSTEMD_NSPAWN_UNIFIED_HIERARCHY": "1"}  # which IPAddressDeny needs
        with subprocess.Popen(words, env=env, stdin=subprocess.DEVNULL, stdout=console, stderr=subprocess.STDOUT) as child:
            system = System(child)
            try:
                if not system.boot():
                    with open(console.name, encoding="utf-8", errors="replace") as file:
                        raise RuntimeError(f"the system hasn't booted: {file.read()[-1500:]}")
                yield system
            finally:
                if child.poll() is None:
                    if system.leader:
                        with contextlib.suppress(subprocess.TimeoutExpired):
                            os.kill(system.leader, signal.SIGRTMIN + 14)  # a power off without waiting
                            child.wait(10)
                    child.kill()
                    child.wait()
                for group in sorted(groups() - before, reverse=True):  # those inside first
                    with contextlib.suppress(OSError):
                        os.rmdir(group)


# ---- the steps


class Steps:
    """What is done with the package, in turn."""

    def __init__(self, system, checks):
        self.system, self.checks = system, checks
        self.pages = [text_of(name) for name in PAGES]
        self.manual = text_of(MANUAL).replace("\\fC", "").replace("\\fR", "").replace("\\-", "-")

    def quoted(self, command):
        """A command that a page and the manual page quote."""
        self.checks.true(f"a page quotes {command}", any(f"\n    {command}\n" in page for page in self.pages))
        self.checks.true(f"the manual page quotes {command}", f"\n{command}\n" in self.manual)
        return command

    def does(self, name, command, wanted=0, **where):
        status, said = self.system.run(command, **where)
        self.checks.true(name, status == wanted, f"{command}: {status}: {said[-1000:]}")
        return said

    def state(self, unit="routed-serve"):
        return self.system.said(f"systemctl is-active {unit}"), self.system.said(f"systemctl is-enabled {unit}")

    def eventually(self, name, find, wanted):
        end = time.monotonic() + SOON
        while (found := find()) != wanted and time.monotonic() < end:
            time.sleep(0.5)
        self.checks.same(name, found, wanted)

    def asked(self):
        """The line of a request, without the version."""
        line = self.system.said(self.ask)
        return re.sub(r"^ask 1 v\d+ ", "ask 1 v{} ", line)

    def run_number(self):
        """The number of the run, as the status line of the unit has it; 0 if the unit doesn't run."""
        found = re.match(r"StatusText=run (\d+), ", self.system.said("systemctl show -p StatusText routed-serve"))
        return int(found[1]) if found and self.state()[0] == "active" else 0

    def set(self, name, value, file="serve.conf"):
        self.does(f"{name} is set", f"sed -i 's|^{name}=.*|{name}={value}|' /etc/routed/{file}")

    def update(self, rows):
        return self.system.said(f"printf '{rows}' | routed-tools connect /run/routed/updates/socket")

    def install(self):
        self.does("the package is installed", self.quoted("apt-get install ./routed_*_amd64.deb"), folder="/packages/first")
        units = ["routed-serve.service", "routed-feed.service", "routed-pcep.service", "routed-page.service", "routed-solve.socket",
                 "routed-roll.timer"]
        self.checks.same("no unit is active or enabled", [self.state(unit) for unit in units], [("inactive", "disabled")] * len(units))
        self.checks.same("the folders", self.system.said("stat -c '%n %a %U %G' /var/lib/routed /run/routed /run/routed/*/").splitlines(),
                         ["/var/lib/routed 750 routed routed", "/run/routed 755 routed routed",
                          "/run/routed/placements/ 2750 routed routed-placements", "/run/routed/updates/ 2750 routed routed-updates"])

    def start(self):
        """A start returns once programs can connect."""
        enabled = self.quoted("systemctl enable --now routed-serve")
        self.does("it starts, and a program connects at once", f"{enabled} && echo | routed-tools connect /run/routed/ask")
        self.checks.same("it is active and enabled", self.state(), ("active", "enabled"))
        brought = self.quoted("routed-tools connect /run/routed/updates/socket < /usr/share/routed/examples/nsfnet.journal | tail -n 1")
        self.checks.same("a network is brought", self.system.said(brought), "version 10")
        self.ask = self.quoted("head -n 1 /usr/share/routed/examples/nsfnet.requests | routed-tools connect /run/routed/ask")
        self.checks.same("a route is asked for", self.system.said(self.ask), ROUTE.format(10))
        self.checks.true("figures at a path", "version            10, " in self.does(
            "status at a path", self.quoted("routed-tools status /run/routed/metrics")))
        self.checks.same("the modes of the sockets",
                         self.system.said("cd /run/routed && stat -c '%n %a %U %G' ask metrics updates/socket watch").splitlines(),
                         [f"{name} 660 routed {group}" for name, group in (("ask", "routed"), ("metrics", "routed"),
                                                                           ("updates/socket", "routed-updates"), ("watch", "routed"))])
        self.does("pcep starts by being enabled", "systemctl enable --now routed-pcep")
        self.eventually("its status line", lambda: self.system.said("systemctl show -p StatusText routed-pcep"),
                        "StatusText=version 10, 0 sessions")
        self.does("the page starts by being enabled", "systemctl enable --now routed-page")
        self.eventually("its status line", lambda: self.system.said("systemctl show -p StatusText routed-page"),
                        "StatusText=version 10, 0 pages")

    def ports(self):
        """Figures are read at a port from outside the unit."""
        self.set("ROUTED_OPTIONS", "--watch /run/routed/watch --metrics 0.0.0.0:4190")
        for line in ("install -D -m 644 /usr/lib/systemd/system/routed-serve.service.d/port.conf.example "
                     "/etc/systemd/system/routed-serve.service.d/port.conf", "systemctl daemon-reload", "systemctl restart routed-serve"):
            self.does(line.split()[0], self.quoted(line))
        said = self.does("figures at a port", self.quoted("routed-tools status 4190"))
        self.checks.true("they are of the second run", re.search(r"(?m)^version +\d, ", said), said)
        self.checks.same("the network has outlived the restart", self.asked(), ROUTE)
        filters = self.system.run("systemd-run --wait --quiet --property=IPAddressDeny=any timeout 5 routed-tools status 4190")[0]
        if filters and self.system.has_address(OTHER):
            status, said = self.system.run(f"timeout 5 routed-tools status {OTHER}:4190")
            self.checks.true("an address that isn't localhost reads none", status and "version" not in said, said)
        else:
            print("skipped: what another address reads, since this container doesn't filter addresses, or there is no ip")
        rated = self.system.said("systemd-analyze security --no-pager routed-serve")
        found = re.search(r"Overall exposure level for \S+: (\d+\.\d)", rated)
        self.checks.true("the unit's exposure with ports", found and float(found[1]) < 4, found and found[0])

    def solve(self):
        """However many connect at once, the socket goes on."""
        self.does("the socket", "systemctl enable --now routed-solve.socket")
        rows = "end,1,0\\nend,2,0\\n"
        one = f"printf '{rows}' | routed-tools connect /run/routed/solve"
        self.checks.same("a connection of its own", self.system.said(one), "version 1\nversion 2")
        self.system.run("python3 -c \"import socket\nfor at in range(600):\n made = socket.socket(socket.AF_UNIX)\n try:\n"
                        "  made.connect('/run/routed/solve')\n except OSError: pass\n made.close()\"")
        self.eventually("after 600 connections", lambda: self.system.said(one), "version 1\nversion 2")
        self.checks.same("the socket is active", self.state("routed-solve.socket"), ("active", "enabled"))

    def upgrade(self):
        """An upgrade restarts what runs, and keeps what was changed."""
        before = {unit: self.system.said(f"systemctl show -p MainPID --value {unit}") for unit in ("routed-serve", "routed-pcep")}
        configured = self.system.said("cat /etc/routed/serve.conf")
        number = self.run_number()
        said = self.does("a later package", self.quoted("apt-get install ./routed_*_amd64.deb"), folder="/packages/second")
        after = {unit: self.system.said(f"systemctl show -p MainPID --value {unit}") for unit in before}
        self.checks.true("both are other processes", all(after[unit] not in (before[unit], "0", "") for unit in before),
                         (before, after, said))
        self.checks.same("both run", [self.state(unit) for unit in before], [("active", "enabled")] * 2)
        self.checks.same("a file that was changed stays", self.system.said("cat /etc/routed/serve.conf"), configured)
        self.checks.same("a new run", self.run_number(), number + 1)
        self.checks.same("the network is there", self.asked(), ROUTE)
        self.checks.same("a unit that was off stays off", self.state("routed-feed"), ("inactive", "disabled"))

    def kills(self):
        for _ in range(KILLS):
            self.system.run("systemctl kill -s KILL routed-serve")
            time.sleep(1)
        self.eventually("it is active after ten kills in ten seconds", self.state, ("active", "enabled"))
        self.checks.same("and has the network", self.asked(), ROUTE)
        self.checks.same("pcep is active", self.state("routed-pcep"), ("active", "enabled"))

    def fill(self):
        self.system.run("dd if=/dev/zero of=/var/lib/routed/filled bs=1k count=4096; sync")

    def full_disk(self):
        """A server that can't begin for want of room begins once there is some."""
        self.does("a small disk", "systemctl stop routed-serve && mkdir /old && cp -a /var/lib/routed/. /old && "
                  f"mount -t tmpfs -o size={SIZE},mode=750 tmpfs /var/lib/routed && chown routed:routed /var/lib/routed && "
                  "cp -a $(ls -d /old/*.journal | tail -n 1) /var/lib/routed/ && systemctl start routed-serve")
        self.checks.same("the server on it", self.asked(), ROUTE)
        self.fill()
        self.system.run("systemctl kill -s KILL routed-serve")
        time.sleep(32)  # more than five starts
        self.checks.true("it isn't given up", self.system.said("systemctl show -p SubState --value routed-serve") in
                         ("auto-restart", "start"), self.system.said("systemctl status routed-serve"))
        self.does("room is made", "rm /var/lib/routed/filled")
        self.eventually("it begins by itself", self.state, ("active", "enabled"))
        self.checks.same("with the network", self.asked(), ROUTE)

    def renewal(self):
        """A journal that fails in a run: asks are answered, and with room a new run begins."""
        version = int(re.search(r" v(\d+) ", self.system.said(self.ask))[1])
        number, row = self.run_number(), "node,203.0.113.1,{}\\nend,{},1\\n"
        self.fill()
        refused, at = "", version
        for _ in range(2000):
            at += 1
            refused = self.update(row.format(at % 2, at))
            if "refused" in refused:
                break
        self.checks.true("a batch is refused", re.match(rf"batch {at} refused: (journal|stopped)", refused), refused)
        self.checks.true("requests are answered", self.system.said(self.ask).startswith("ask 1 v"))
        self.eventually("the unit's status line says so", lambda: "refused: journal" in self.system.said(
            "systemctl show -p StatusText routed-serve"), True)
        time.sleep(8)
        self.checks.same("without room the run goes on", self.run_number(), number)
        self.does("room is made", "rm /var/lib/routed/filled")
        self.eventually("a new run begins by itself", lambda: self.run_number() > number, True)
        version = int(re.search(r" v(\d+) ", self.system.said(self.ask))[1])
        self.checks.same("which takes batches", self.update(row.format(0, version + 1)), f"version {version + 1}")

    def roll(self):
        self.set("ROUTED_KEEP", "--journals 2")
        number = self.run_number()
        self.does("a time that comes soon", "mkdir -p /etc/systemd/system/routed-roll.timer.d && printf '[Timer]\\nOnActiveSec=3\\n"
                  "AccuracySec=100ms\\n' > /etc/systemd/system/routed-roll.timer.d/soon.conf && systemctl daemon-reload")
        self.does("the timer", self.quoted("systemctl enable --now routed-roll.timer"))
        self.eventually("the timer has a new run begin", self.run_number, number + 1)
        self.checks.same("the network is there", self.asked()[:15], "ask 1 v{} route"[:15])
        self.checks.same("the journals that stay", self.system.said("ls /var/lib/routed | grep journal").split(),
                         [f"{at:06}.journal" for at in range(number - 1, number + 2)])

    def remove(self):
        self.does("a removal", self.quoted("apt-get remove routed"))
        units = ["routed-serve", "routed-pcep", "routed-page", "routed-solve.socket", "routed-roll.timer"]
        self.checks.same("nothing runs", [self.state(unit)[0] for unit in units], ["inactive"] * len(units))
        self.checks.same("nothing of it is a process", self.system.said("pgrep -u routed -a"), "")
        self.checks.same("nothing is enabled", self.system.said("find /etc/systemd -name 'routed*' -type l"), "")
        self.checks.same("the configuration stays", self.system.said("ls /etc/routed").split(),
                         ["feed.conf", "page.conf", "pcep.conf", "serve.conf", "serve.conf.dpkg-dist",  # of the later package
                          "solve.conf"])

    def purge(self):
        said = self.does("a purge", self.quoted("apt-get purge routed"))
        self.checks.same("what it says", [line for line in said.splitlines() if line.startswith("routed: ")],
                         ["routed: /var/lib/routed stays, since it has files",
                          "routed: /etc/systemd/system/routed-roll.timer.d stays, since it is no file of the package",
                          "routed: /etc/systemd/system/routed-serve.service.d stays, since it is no file of the package",
                          "routed: the user routed and the groups routed, routed-updates and routed-placements stay"])
        self.checks.same("files of it that are left", self.system.said(
            "find / -xdev -name '*routed*' -not -path '/proc/*' -not -path '/packages*' -not -path '/var/log/*' | sort").splitlines(),
            ["/etc/systemd/system/routed-roll.timer.d", "/etc/systemd/system/routed-serve.service.d", "/var/lib/routed"])
        self.checks.true("journals stay", self.system.said("ls /var/lib/routed"))
