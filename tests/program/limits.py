"""Streams at the limits of the formats, and the memory that a stream takes."""
import array
import fcntl
import re
import subprocess
import termios
import time

from program.built import CIRCUIT, FREE, LINK, MASKS


def address(top, number):
    return f"{top}.{number >> 16 & 255}.{number >> 8 & 255}.{number & 255}"


def limits(program, checks):
    """A full table, the most changes, the longest routes and the most rows."""
    def puts(first, end):
        return "".join(f"put,1.1.1.1,{address(0, n)},2.2.2.2,10.0.12.2,10,0x1,{FREE}\n" for n in range(first, end))

    load = "".join(puts(at * 4096, (at + 1) * 4096) + f"end,{at + 1},4096\n" for at in range(4))
    versions = "".join(f"version {at}\n" for at in range(1, 5))
    one_more, first = puts(16384, 16385), f"drop,1.1.1.1,{address(0, 0)}\n"
    checks.same("a full table", program.solve(load + one_more + "end,5,1\n" + first + one_more + "end,5,2\n"),
                (2, (versions + "batch 5 refused: full\nversion 5\n").encode(), b""))
    checks.same("4,097 changes", program.solve(puts(0, 4097) + "end,1,4097\n" + "end,1,0\n"),
                (2, b"batch 1 refused: long\nversion 1\n", b""))
    mark = [f"node,{address(3, n)},0\n" for n in range(1025)]
    most, free = "".join(mark[:1024]) + "end,1,1024\n", mark[0].replace(",0\n", ",1\n")
    checks.same("1,024 marks", program.solve(most + mark[1024] + "end,2,1\n" + mark[0] + "end,2,1\n" + free + mark[1024] + "end,3,2\n"),
                (2, b"version 1\nbatch 2 refused: marks\nversion 2\nversion 3\n", b""))
    checks.same("1,025 marks", program.solve("".join(mark) + "end,1,1025\n" + most), (2, b"batch 1 refused: marks\nversion 1\n", b""))
    drop = "drop,1.1.1.1,10.0.0.1\n"
    checks.same("1,000,000 rows", program.solve(drop * 1_000_000), (2, b"unended 1000000\n", b""))
    checks.same("1,000,001 rows", program.solve(drop * 1_000_001), (2, b"too many rows\n", b""))
    checks.same("a count of 999,999", program.solve(drop * 999_999 + "end,1,5\n"), (2, b"batch 1 refused: counted 999999\n", b""))


def chain(program, checks):
    """1,024 routers in a row, with links in both directions: the longest least routes, and a router above the limit."""
    def link(start, local, end, remote):
        return f"put,{start},{local},{end},{remote},4294967295,0x1,{FREE}\n"

    routers = [address(2, n) for n in range(1024)]
    rows, last = [], []
    for n in range(1023):
        local, remote = address(10, n), address(11, n + 1)
        pair = [link(routers[n], local, routers[n + 1], remote), link(routers[n + 1], remote, routers[n], local)]
        rows += pair
        if n == 1022:
            last = [f"drop,{routers[n]},{local}\n", f"drop,{routers[n + 1]},{remote}\n"]
    batch = "".join(rows) + "end,1,2046\n"
    ask = f"ask,1,{routers[0]},{routers[1023]},0,1,{MASKS},"
    there_and_back = " ".join([f"{routers[1023]}/32l", f"{routers[0]}/32l"] * 3)
    beyond = link(routers[0], "10.1.0.0", "2.0.4.0", "11.1.0.0")
    stream = (batch + f"{ask}\n{ask}{there_and_back}\n" + beyond + "end,2,1\n"
              + "".join(last) + beyond + f"end,2,3\n{ask}\n")
    status, out, err = program.solve(stream)
    lines = out.decode().splitlines()
    heads = [re.sub(r"(ero=.{8}).*", r"\1", line) for line in lines]
    checks.same("a chain of 1,024 routers", (status, heads, err), (2, [
        "version 1",
        "ask 1 v1 route cost=4393751542785 hops=1023 again=no ero=1ffc1401",
        "ask 1 v1 route cost=30756260799495 hops=7161 again=yes ero=dfcc1401",
        "batch 2 refused: routers",
        "version 2",
        "ask 1 v2 unknown-to",
    ], b""))
    sizes = [len(line.split("ero=")[1]) // 2 for line in lines[1:3]]
    checks.same("the sizes of their objects", sizes, [4 + 8 * 1023, 4 + 8 * 7161])
    hops = bytes.fromhex(lines[1].split("ero=")[1])[4:]
    wanted = b"".join(bytes([1, 8, 11, 0, n >> 8, n & 255, 32, 0]) for n in range(1, 1024))
    checks.true("each hop of the first", hops == wanted)


def kilobytes(process, file, field):
    """A figure that a running process has in a file of /proc, in kilobytes. It is 0 once the process is gone."""
    try:
        with open(f"/proc/{process}/{file}", encoding="ascii") as lines:
            return next((int(line.split()[1]) for line in lines if line.startswith(f"{field}:")), 0)
    except (FileNotFoundError, ProcessLookupError):
        return 0


def high_water(process):
    """The most kilobytes that a running process has had resident. Linux counts pages on each processor and adds them up later, so this
    may be wrong by half a megabyte."""
    return kilobytes(process, "status", "VmHWM")


def own(process):
    """The kilobytes of a running process that are backed by no file, to the page."""
    return kilobytes(process, "smaps_rollup", "Anonymous")


def memory(program, checks):
    """However long a stream is, it takes little memory, which its longest record alone decides."""
    def megabytes(figure, rows, *words):
        """A figure of the program once it waits for more rows than these, in megabytes."""
        child = subprocess.Popen([program.path, "solve", *words], stdin=subprocess.PIPE, stdout=subprocess.DEVNULL)
        child.stdin.write(rows)
        child.stdin.flush()
        end = time.monotonic() + 300
        while child.poll() is None and not waits(child) and time.monotonic() < end:
            time.sleep(0.001)
        found = figure(child.pid)
        child.stdin.close()
        child.wait()
        return found / 1024

    def waits(child):
        """Whether it has read all that was written, and sleeps."""
        left = array.array("i", [0])
        fcntl.ioctl(child.stdin.fileno(), termios.FIONREAD, left)
        with open(f"/proc/{child.pid}/stat") as stat:
            return left[0] == 0 and stat.read().rpartition(")")[2].split()[0] == "S"

    mark = megabytes(high_water, LINK.encode() * 1_000_000)
    checks.true("a million open puts in 16 MB", 0 < mark < 16, f"{mark:.1f} MB")
    mark = megabytes(high_water, b"foo," * 250_000 + b"\n")
    checks.true("a row of a megabyte in 16 MB", 0 < mark < 16, f"{mark:.1f} MB")
    # 3,000 sets of administrative groups, each asked for as often as pays for a tree
    rows = CIRCUIT + "".join(f"ask,7,1.1.1.1,2.2.2.2,0,1000,0x{2 * groups:x},0x0,0x0,\n" * 40 for groups in range(3000))
    none, one, many = (megabytes(own, rows.encode(), "--trees", most) for most in ("0", "1", "64"))
    checks.true("no tree, a megabyte of trees, and more", none < one + 0.5 < none + 2 < none + 8 < many,
                f"{none:.1f}, {one:.1f} and {many:.1f} MB")
