"""The six routers of the lab: FRR's `zebra` and `ospfd`, each in a network namespace, with circuits as pairs of virtual interfaces.

With a PCE they have segment routing, and router 1 has `pathd`, a head-end whose LSPs the PCE places."""
import os
import shutil
import subprocess
import time

DAEMONS, MODULES = "/usr/lib/frr", "/usr/lib/*/frr/modules"
ROOM = "/var/tmp/frr"  # FRR's own folder; the lab has one to itself
PATIENCE = 30.0  # seconds that a daemon has to come up
FREE = 125_000_000  # unreserved bytes per second of each circuit, at each priority
COUNT = 6
# Two routers, and the cost of both directions. From 1 to 6 the least route is 1 2 4 6 of cost 30; without the circuit
# 2-4 it is 1 3 4 6 of cost 35, and without router 4 it is 1 3 5 6 of cost 45.
CIRCUITS = [(1, 2, 10), (2, 4, 10), (4, 6, 10), (1, 3, 15), (3, 4, 10), (3, 5, 15), (5, 6, 15)]
FAST_LSAS = """timers throttle lsa all 0
timers lsa min-arrival 0
"""
# A control packet each 50 ms, and a neighbor is gone behind three that are missing.
BFDD_CONF = """bfd
profile lab
receive-interval 50
transmit-interval 50
detect-multiplier 3
"""
BFD = ["ip ospf bfd", "ip ospf bfd profile lab"]
HEAD, TAIL, PCE = 1, 6, 5  # the head-end, the end of its LSPs, and the router beside which the PCE runs
LSPS = [("blue", 1_000_000), ("green", 2_500_000), ("red", 100_000_000)]  # of the head-end, and their bytes per second
COUNTED = [("blue", 1_000_000), ("green", 100_000_000), ("red", 100_000_000)]  # where a book counts: two ways, or one is uncounted
MADE = "gold", 1_000  # one that the PCE makes


def router_id(router):
    return f"10.0.0.{router}"


def address(router, neighbor):
    """The address of a router at its circuit to a neighbor."""
    low, high = sorted((router, neighbor))
    return f"10.0.{low}{high}.{1 if router == low else 2}"


def interface(router, neighbor):
    return f"r{router}-r{neighbor}"


def neighbors(router):
    """The neighbors of a router, and the costs."""
    return [(b if a == router else a, cost) for a, b, cost in CIRCUITS if router in (a, b)]


def zebra_conf(router):
    # without an address of IPv6, pathd waits for one before it connects
    lines = ["interface lo", f"ip address {router_id(router)}/32", f"ipv6 address 2001:db8::{router}/128", "exit"]
    for neighbor, _ in neighbors(router):
        # the default of the bandwidths comes from the interface, and none may be above the maximum: that one first
        lines += [f"interface {interface(router, neighbor)}", f"ip address {address(router, neighbor)}/30", "link-params", "enable",
                  f"max-bw {2 * FREE}", f"max-rsv-bw {FREE}", *(f"unrsv-bw {priority} {FREE}" for priority in range(8)), "admin-grp 0x1",
                  "exit-link-params", "exit"]
    return "\n".join([*lines, "ip forwarding", ""])


def timers(dead):
    """A neighbor is gone so many seconds behind its last hello: 1, with five hellos a second, or more, with one. None: OSPF's defaults."""
    if dead is None:
        return []
    one = ["ip ospf dead-interval minimal hello-multiplier 5"]
    return [*(one if dead == 1 else ["ip ospf hello-interval 1", f"ip ospf dead-interval {dead}"]), "ip ospf retransmit-interval 1"]


def ospfd_conf(router, dead, has_bfd=False, has_pce=False):
    lines = ["interface lo", "ip ospf area 0", "exit"]
    for neighbor, cost in neighbors(router):
        lines += [f"interface {interface(router, neighbor)}", "ip ospf area 0", "ip ospf network point-to-point", f"ip ospf cost {cost}",
                  *timers(dead), *BFD * has_bfd, "exit"]
    return "\n".join([*lines, "router ospf", f"ospf router-id {router_id(router)}", "capability opaque", "mpls-te on",
                      f"mpls-te router-address {router_id(router)}", *["segment-routing on"] * has_pce,
                      *FAST_LSAS.splitlines() * (dead is not None), "exit", ""])


def pathd_conf(lsps):
    """A policy with a dynamic candidate for each LSP: the PCE gives its path. What the PCE makes gets color 1."""
    lines = ["segment-routing", "traffic-eng"]
    for color, (name, bandwidth) in enumerate(lsps, 2):
        lines += [f"policy color {color} endpoint {router_id(TAIL)}", f"name {name}", "candidate-path preference 100 name lab dynamic",
                  f"bandwidth {bandwidth}", "exit", "exit"]
    return "\n".join([*lines, "pcep", "pce lab", f"address ip {router_id(PCE)}", f"source-address ip {router_id(HEAD)}",
                      "pce-initiated", "exit", "pcc", "peer lab precedence 10", "exit", "exit", "exit", "exit", ""])


def command(*words):
    """Runs one to its end; what it says is the fault where it fails."""
    ran = subprocess.run(words, capture_output=True, text=True)
    if ran.returncode:
        raise OSError(f"{' '.join(words)}: {(ran.stderr or ran.stdout).strip()}")
    return ran.stdout


def within(router):
    """The words before a command that runs in a router's namespace."""
    return ["ip", "netns", "exec", f"lab-{router}"]


def await_file(path, process, what, said=os.devnull):
    """Waits for a file that a process makes; else the last line of what it said is the fault."""
    end = time.monotonic() + PATIENCE
    while not os.path.exists(path):
        if process.poll() is not None or time.monotonic() > end:
            with open(said, encoding="utf-8", errors="replace") as file:
                why = file.read().strip().splitlines()[-1:]
            raise OSError(": ".join([f"{what} doesn't come up", *why]))
        time.sleep(0.01)


class Routers:
    """The running routers. Nothing ends them: they end with the process namespace that they are in."""

    def __init__(self, dead, has_bfd, has_pce=False, lsps=LSPS):
        self.ospfd = {}
        for router in range(1, COUNT + 1):
            command("ip", "netns", "add", f"lab-{router}")
            command("ip", "-n", f"lab-{router}", "link", "set", "lo", "up")
        for a, b, _ in CIRCUITS:
            command("ip", "link", "add", interface(a, b), "netns", f"lab-{a}", "type", "veth",
                    "peer", "name", interface(b, a), "netns", f"lab-{b}")
            self.link(a, b, "up")
            self.link(b, a, "up")
        for router in range(1, COUNT + 1):
            daemons = [("zebra", zebra_conf(router), []), ("bfdd", BFDD_CONF, ["--bfdctl", f"{ROOM}/{router}/bfdd.sock"]),
                       ("ospfd", ospfd_conf(router, dead, has_bfd, has_pce), ["-a"]), ("pathd", pathd_conf(lsps), ["-M", "pathd_pcep"])]
            left_out = {"bfdd": not has_bfd, "pathd": not has_pce or router != HEAD}
            self.start(router, [daemon for daemon in daemons if not left_out.get(daemon[0])])

    def start(self, router, daemons):
        folder = os.path.join(ROOM, str(router))
        os.makedirs(folder)
        shutil.chown(folder, "frr", "frr")
        for daemon, text, more in daemons:
            conf = os.path.join(folder, f"{daemon}.conf")
            with open(conf, "w", encoding="ascii") as file:
                file.write(text)
            words = [os.path.join(DAEMONS, daemon), "-z", f"{folder}/zserv.api", "--vty_socket", folder,
                     "-i", f"{folder}/{daemon}.pid", "-P", "0", "--log", f"file:{folder}/{daemon}.log", "-f", conf, *more]
            with open(os.path.join(folder, f"{daemon}.out"), "wb") as said:
                process = subprocess.Popen([*within(router), *words], stdin=subprocess.DEVNULL, stdout=said, stderr=said)
            await_file(f"{folder}/{daemon}.vty", process, f"{daemon} of router {router}", said.name)
            if daemon == "ospfd":
                self.ospfd[router] = process

    def link(self, router, neighbor, state):
        """Sets the interface of a router up or down, by which the other end loses or gets its carrier."""
        command("ip", "-n", f"lab-{router}", "link", "set", interface(router, neighbor), state)

    def lose(self, a, b):
        """A circuit that loses all that it is sent; both ends keep their carrier."""
        for router, neighbor in ((a, b), (b, a)):
            command("tc", "-n", f"lab-{router}", "qdisc", "add", "dev", interface(router, neighbor), "root", "blackhole")

    def keep(self, a, b):
        """A circuit that loses nothing any more."""
        for router, neighbor in ((a, b), (b, a)):
            command("tc", "-n", f"lab-{router}", "qdisc", "del", "dev", interface(router, neighbor), "root")

    def configure(self, router, *lines):
        """What an operator would type behind `configure terminal`."""
        words = [word for line in ("configure terminal", *lines) for word in ("-c", line)]
        said = command("vtysh", "--vty_socket", os.path.join(ROOM, str(router)), *words)
        if said.strip():
            raise OSError(f"{lines[-1]}: {said.strip()}")

    def signal(self, router, number):
        """Stops the `ospfd` of a router, or lets it go on."""
        self.ospfd[router].send_signal(number)
