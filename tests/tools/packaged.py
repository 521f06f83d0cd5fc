"""Tests of the package's scripts: dpkg installs, upgrades, removes and purges it below an empty root, with a `systemctl` that notes its
calls. What is there after each step is compared. On a booted system `tests/booted` does the same.

Without dpkg, make or Debian's helpers for units a line says that it is skipped.
"""
import os
import re
import shutil
import subprocess
import tempfile

from checks import TOP
from tools.installed import CONFIGURED, files_below, skipped, text_of

UNITS = ["routed-serve.service", "routed-feed.service", "routed-pcep.service", "routed-page.service", "routed-solve.socket",
         "routed-roll.timer"]
LATER = "99.0.0"  # the version of a later package
# Notes the words that it is called with, below the root.
NOTED = """#!/bin/sh
echo "${0##*/} $*" >>"$NOTES"
case "$0 $1" in
*/systemctl\\ enable | */systemctl\\ disable) exit 1 ;; # no script decides that without the helper
*/systemd-tmpfiles*) mkdir -p "$DPKG_ROOT/var/lib/routed" "$DPKG_ROOT/run/routed/updates" ;;
esac
"""
MADE_BY_OTHERS = ("var/lib/dpkg", "var/lib/systemd", "run/systemd")


class Root:
    """A folder in which dpkg installs, as on a system that runs."""

    def __init__(self, room):
        self.room, self.top, self.notes, self.bin = room, *(os.path.join(room, name) for name in ("root", "notes", "bin"))
        for folder in ("var/lib/dpkg/info", "var/lib/dpkg/updates", "run/systemd/system", "usr/lib", "etc/systemd/system"):
            os.makedirs(os.path.join(self.top, folder))
        os.symlink("usr/lib", os.path.join(self.top, "lib"))
        self.write("var/lib/dpkg/status", "")
        os.makedirs(self.bin)
        for name in ("systemctl", "systemd-sysusers", "systemd-tmpfiles"):
            with open(os.path.join(self.bin, name), "w", encoding="ascii") as script:
                script.write(NOTED)
            os.chmod(script.name, 0o755)

    def write(self, name, text):
        with open(os.path.join(self.top, name), "w", encoding="utf-8") as file:
            file.write(text)

    def read(self, name):
        with open(os.path.join(self.top, name), encoding="utf-8") as file:
            return file.read()

    def dpkg(self, *words):
        """The status, the lines of the package's scripts, and what they called."""
        with open(self.notes, "w", encoding="ascii"):
            pass
        env = {"PATH": f"{self.bin}:/usr/sbin:/usr/bin:/sbin:/bin", "NOTES": self.notes, "LC_ALL": "C", "DEBIAN_FRONTEND": "noninteractive"}
        ran = subprocess.run(["dpkg", f"--root={self.top}", "--force-script-chrootless", "--force-not-root", "--force-depends",
                              "--force-confdef", "--force-confold", "--no-triggers", *words],
                             env=env, stdin=subprocess.DEVNULL, capture_output=True, text=True, timeout=120)
        with open(self.notes, encoding="ascii") as notes:
            called = notes.read().splitlines()
        said = [line for line in ran.stderr.splitlines() if line.startswith("routed: ")]
        return ran.returncode, said, [line for line in called if line.startswith("systemctl ")]

    def enable(self, unit, folder="multi-user.target.wants"):
        """As `systemctl enable` does."""
        os.makedirs(os.path.join(self.top, "etc/systemd/system", folder), exist_ok=True)
        os.symlink(f"/lib/systemd/system/{unit}", os.path.join(self.top, "etc/systemd/system", folder, unit))

    def links(self):
        """The units that are enabled."""
        return sorted(os.path.basename(name) for name in files_below(os.path.join(self.top, "etc/systemd/system")) if ".wants/" in name)

    def left(self):
        """The files that are there, without those of dpkg and systemd."""
        return sorted(name for name in files_below(self.top) if not name.startswith(MADE_BY_OTHERS) and name != "lib")


def packaged(program, checks):
    if skipped("dpkg", "dpkg-deb", "make", "deb-systemd-helper", "deb-systemd-invoke"):
        return
    with tempfile.TemporaryDirectory() as room:
        first, second = made(program, room)
        checks.parts_in(room, (steps, empty, without_documents), checks, first, second)
        library(program, checks, room)
        virtual(checks, room)
        linted(checks, room)


def made(program, room, *words):
    """The package of this tree, and a later one that has another serve.conf."""
    out = os.path.join(room, "out")
    subprocess.run(["make", "-s", "deb", f"PROGRAM={program.path}", f"OUT={out}", "COMPRESS=-Znone", *words], cwd=TOP, check=True,
                   capture_output=True, timeout=300)
    first = next(os.path.join(out, name) for name in os.listdir(out) if name.startswith("routed_"))
    control = os.path.join(out, "deb/DEBIAN/control")
    with open(control, encoding="utf-8") as file:
        text = file.read()
    with open(control, "w", encoding="utf-8") as file:
        file.write(re.sub("(?m)^Version: .*", f"Version: {LATER}", text))
    with open(os.path.join(out, "deb/etc/routed/serve.conf"), "a", encoding="utf-8") as file:
        file.write("# A line of the later package.\n")
    second = os.path.join(room, "later.deb")
    subprocess.run(["dpkg-deb", "--root-owner-group", "-Znone", "--build", os.path.join(out, "deb"), second], check=True,
                   capture_output=True)
    return first, second


def steps(checks, first, second, room):
    root = Root(room)
    reload, restarts = "systemctl --system daemon-reload", [f"systemctl try-restart {unit}" for unit in UNITS]
    checks.same("an installation starts and enables nothing", (root.dpkg("-i", first), root.links()), ((0, [], [reload]), []))
    checks.same("its configuration is there", [name for name in root.left() if name.startswith("etc/")], CONFIGURED)
    root.enable("routed-serve.service")
    root.enable("routed-roll.timer", "timers.target.wants")
    root.write("etc/routed/serve.conf", "ROUTED_FOLDER=/srv/routed\n")
    root.write("etc/routed/feed.conf", text_of("deploy/etc/routed/feed.conf"))
    root.write("etc/routed/keys", "10.0.0.1 secret\n")
    os.makedirs(os.path.join(root.top, "etc/systemd/system/routed-serve.service.d"))
    root.write("etc/systemd/system/routed-serve.service.d/port.conf", "[Service]\nPrivateNetwork=no\n")
    enabled = ["routed-roll.timer", "routed-serve.service"]
    checks.same("an upgrade restarts what runs, by try-restart alone", (root.dpkg("-i", second), root.links()),
                ((0, [], [reload, *restarts]), enabled))
    checks.same("a file that was changed stays", root.read("etc/routed/serve.conf"), "ROUTED_FOLDER=/srv/routed\n")
    checks.same("what an upgrade leaves to dpkg", [name for name in root.left() if name.endswith((".dpkg-new", ".dpkg-old"))], [])
    root.write("var/lib/routed/000001.journal", "")
    root.write("var/lib/routed/lock", "")
    status, said, called = root.dpkg("-r", "routed")
    checks.same("a removal", (status, said), (0, []))
    words = called[0].split() if called else []
    checks.same("it stops all units, and connections of routed-solve.socket", (words[:2], sorted(words[2:])),
                (["systemctl", "stop"], sorted([*UNITS, "routed-solve@*.service"])))
    checks.same("it disables them", root.links(), [])
    checks.same("it keeps the configuration and journals",
                [name for name in root.left() if name.startswith("etc/routed/") and name.split(".")[-1] in ("conf", "keys")]
                + sorted(os.listdir(os.path.join(root.top, "var/lib/routed"))),
                CONFIGURED + ["000001.journal", "lock"])
    status, said, called = root.dpkg("-P", "routed")
    checks.same("a purge says what stays", (status, said),
                (0, ["routed: /var/lib/routed stays, since it has files",
                     "routed: /etc/systemd/system/routed-serve.service.d stays, since it is no file of the package",
                     "routed: the user routed and the groups routed, routed-updates and routed-placements stay"]))
    checks.same("a purge leaves nothing else", root.left(),
                ["etc/systemd/system/routed-serve.service.d/port.conf", "var/lib/routed/000001.journal"])
    checks.true("nor its folders", not any(os.path.exists(os.path.join(root.top, name)) for name in ("etc/routed", "run/routed")))
    state = os.path.join(root.top, "var/lib/systemd")
    checks.same("nor the helper's notes", [name for name in files_below(state) if "routed" in name], [])


def empty(checks, first, _, room):
    """A purge where no server ever ran."""
    root = Root(room)
    root.dpkg("-i", first)
    checks.same("a purge of what never ran", root.dpkg("-P", "routed")[:2],
                (0, ["routed: the user routed and the groups routed, routed-updates and routed-placements stay"]))
    checks.same("nothing is left", (root.left(), os.path.exists(os.path.join(root.top, "var/lib/routed"))), ([], False))


def without_documents(checks, first, _, room):
    """An installation without /usr/share/doc, as in images of containers, has all that OPERATORS.md and the units name."""
    root = Root(room)
    checks.same("it is installed without documents", root.dpkg("--path-exclude=/usr/share/doc/*", "-i", first)[0], 0)
    checks.same("no document is there", [name for name in root.left() if name.startswith("usr/share/doc")], [])
    page = text_of("docs/run/OPERATORS.md").partition("## Running it\n")[2].partition("\n## ")[0]
    first_block = re.search(r"(?m)(?:^    .*\n)+", page)[0]
    checks.same("the first command of Running it", first_block, "    systemctl enable --now routed-serve\n")
    named = sorted(set(re.findall(r"(?<![\w.])/(?:usr/(?:share|lib)|etc/routed)/[\w./@-]*\w", page)))
    own = "/etc/systemd/system/"
    checks.true("it names files of the package", len(named) >= 3, named)
    checks.same("files that the page names and the package lacks",
                [name for name in named if not name.startswith(own) and not os.path.exists(root.top + name)], [])
    for name in files_below(os.path.join(root.top, "usr/lib/systemd/system")):
        text = root.read(os.path.join("usr/lib/systemd/system", name))
        wanted = re.findall(r"(?m)^(?:EnvironmentFile|ExecStart)=(\S+)", text)
        checks.same(f"files that {name} needs", [path for path in wanted if path != "/bin/systemctl"
                                                 and not os.path.exists(root.top + path)], [])


# ---- the library for C

STANDS_IN = {"libcspf_c.a": "int taken(void);\nint routed_stand_in(void) { return taken() + 1; }\n",
             "liblibc_c.a": "int taken(void) { return 41; }\n"}
CALLER = "#include <routed.h>\n#include <stdio.h>\nint routed_stand_in(void);\nint main(void) { printf(\"%d\\n\", routed_stand_in()); }\n"


def library(program, checks, room):
    """Archives that stand in for those of `.ci/run --library` are installed, and a program is built by the words of the file routed.pc."""
    if skipped("cc", "ar"):
        return
    for name, text in STANDS_IN.items():
        path = os.path.join(room, name)
        with open(f"{path}.c", "w", encoding="ascii") as file:
            file.write(text)
        subprocess.run(["cc", "-c", "-o", f"{path}.o", f"{path}.c"], check=True)
        subprocess.run(["ar", "rc", path, f"{path}.o"], check=True)
    words = [f"LIBRARY={room}/libcspf_c.a", f"KIT_LIBRARY={room}/liblibc_c.a", f"PROGRAM={program.path}"]
    top = os.path.join(room, "local")
    subprocess.run(["make", "-s", "install", f"DESTDIR={top}", *words], cwd=TOP, check=True, capture_output=True)
    subprocess.run(["make", "-s", "install", f"DESTDIR={top}-without", f"PROGRAM={program.path}", "LIBRARY="], cwd=TOP, check=True,
                   capture_output=True)
    of_library = {f"usr/local/{name}" for name in ("include/routed.h", "lib/libcspf_c.a", "lib/liblibc_c.a", "lib/pkgconfig/routed.pc")}
    checks.same("make install has the library if it is there", files_below(top) - files_below(f"{top}-without"), of_library)
    with open(os.path.join(top, "usr/local/lib/pkgconfig/routed.pc"), encoding="ascii") as file:
        told = file.read()
    checks.true("routed.pc names the version", f"\nVersion: {text_of('VERSION')}" in told, told)
    values = {"prefix": f"{top}/usr/local"}
    for name in ("libdir", "includedir"):
        values[name] = re.search(f"(?m)^{name}=(.*)$", told)[1].replace("${prefix}", values["prefix"])
    flags = " ".join(re.search(f"(?m)^{name}: (.*)$", told)[1] for name in ("Cflags", "Libs"))
    for name, value in values.items():
        flags = flags.replace(f"${{{name}}}", value)
    source, made_ = os.path.join(room, "caller.c"), os.path.join(room, "caller")
    with open(source, "w", encoding="ascii") as file:
        file.write(CALLER)
    compiled = subprocess.run(["cc", "-o", made_, source, *flags.split()], capture_output=True, text=True)
    checks.same("a program is built by the words of routed.pc", (compiled.returncode, compiled.stderr), (0, ""))
    checks.same("it calls both archives", subprocess.run([made_], capture_output=True, text=True).stdout, "42\n")
    shutil.rmtree(os.path.join(room, "out"))
    made(program, room, *words[:2])
    held = {re.sub(r"_.*", "", name): name for name in os.listdir(os.path.join(room, "out")) if name.endswith(".deb")}
    checks.same("the packages", sorted(held), ["routed", "routed-dev"])
    listed = subprocess.run(["dpkg-deb", "-c", os.path.join(room, "out", held.get("routed-dev", ""))], capture_output=True, text=True)
    found = {line.split("./")[1] for line in listed.stdout.splitlines() if line[0] == "-" and "/doc/" not in line}
    checks.same("the files of routed-dev", found, {name.replace("usr/local", "usr") for name in of_library})


# ---- the tools by pip, and what lintian finds


def virtual(checks, room):
    """In a virtual environment that sees Debian's setuptools and wheel, pip installs the tools without a network."""
    debian = "/usr/bin/python3"
    if subprocess.run([debian, "-c", "import setuptools, wheel, venv, ensurepip"], capture_output=True).returncode:
        print("skipped: pip, since Debian's python3-venv, python3-setuptools or python3-wheel isn't there")
        return
    place, source = os.path.join(room, "environment"), os.path.join(room, "python")
    subprocess.run([debian, "-m", "venv", "--system-site-packages", place], check=True, capture_output=True)
    shutil.copytree(os.path.join(TOP, "python"), source, ignore=shutil.ignore_patterns("__pycache__"))  # pip builds beside its source
    env = {"PATH": "/usr/bin:/bin", "HOME": room, "PIP_NO_INDEX": "1", "PIP_DISABLE_PIP_VERSION_CHECK": "1"}
    ran = subprocess.run([os.path.join(place, "bin/pip"), "install", "--no-build-isolation", source], env=env, capture_output=True,
                         text=True)
    checks.true("pip install --no-build-isolation ./python", ran.returncode == 0, ran.stdout[-500:] + ran.stderr[-500:])
    checks.true("OPERATORS.md quotes it", "`pip install --no-build-isolation ./python`" in text_of("docs/run/OPERATORS.md"))
    ran = subprocess.run([os.path.join(place, "bin/routed-tools"), "listen", "--help"], env=env, capture_output=True, text=True, cwd=room)
    checks.same("routed-tools of the environment", (ran.returncode, ran.stdout[:27]), (0, "usage: routed-tools listen "))


def linted(checks, room):
    """lintian finds nothing but what the overrides list, each with its reason."""
    if skipped("lintian"):
        return
    package = os.path.join(room, "routed.deb")
    subprocess.run(["dpkg-deb", "--root-owner-group", "-Zxz", "-z0", "--build", os.path.join(room, "out/deb"), package], check=True,
                   capture_output=True)
    ran = subprocess.run(["lintian", "--allow-root", "--fail-on", "error,warning", package], capture_output=True, text=True)
    checks.same("what lintian finds", (ran.returncode, [line for line in ran.stdout.splitlines() if line[:2] in ("E:", "W:")]), (0, []))
    lines = text_of("deploy/debian/routed.lintian-overrides").splitlines()
    bare = [line for before, line in zip(["", *lines], lines) if line and line[0] != "#" and not before.startswith("# ")]
    checks.same("overrides without a reason before them", bare, [])
