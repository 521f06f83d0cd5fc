"""`routed serve --clients-from`: the clients of a file, and which files are refused."""
import os
import subprocess

from program.serving import CLIENTS, PATIENCE

LONGEST = 1 << 20  # the most bytes of the file
PAIR, COUNT = "routed: a client is IN=OUT\n", "routed: there are 1 to 64 clients\n"


def listed(program, checks, room):
    """The clients of a file are answered, those of `--client` count first, and a refusal makes nothing."""
    for number in range(CLIENTS + 1):
        with open(os.path.join(room, f"rows{number}"), "w", encoding="ascii") as file:
            file.write(f"ask,{number},1.1.1.1,2.2.2.2,0,5,0x0,0x0,0x0,\n")
    for name in "abc":
        os.mkdir(os.path.join(room, name))
    there = {*os.listdir(room), "from"}

    def serve(text, *words, rows=b""):
        """Status, standard error, and what is made by a run over a file of this text, which is removed again."""
        with open(os.path.join(room, "from"), "wb") as file:
            file.write(text)
        given = [program.path, "serve", "--journal", "journal", *words]
        ran = subprocess.run(given, input=rows, cwd=room, capture_output=True, timeout=PATIENCE)
        made = {}
        for name in set(os.listdir(room)) - there:
            path = os.path.join(room, name)
            with open(path, encoding="ascii") as file:
                made[name] = file.read()
            os.remove(path)
        return ran.returncode, ran.stderr.decode(), made

    def answered(*numbers):
        return 0, "", {"journal": "", **{f"lines{number}": f"ask {number} v0 unknown-from\n" for number in numbers}}

    def pairs(first, behind):
        return "".join(f"rows{number}=lines{number}\n" for number in range(first, behind)).encode()

    given, one = ["--clients-from", "from"], ["--client", "rows0=lines0"]
    for name, text, words, numbers in [
        ("alone", pairs(1, 3), given, [1, 2]), ("behind --client", pairs(1, 3), [*one, *given], [0, 1, 2]),
        ("without its last line feed", pairs(1, 3)[:-1], given, [1, 2]), ("with carriage returns", b"rows1=lines1\r\n", given, [1]),
        ("empty beside --client", b"", [*given, *one], [0]), ("of 64", pairs(1, CLIENTS + 1), given, range(1, CLIENTS + 1)),
        ("of 63 beside --client", pairs(1, CLIENTS), [*given, *one], range(CLIENTS)),
    ]:
        checks.same(f"a file of clients {name}", serve(text, *words), answered(*numbers))
    answer = "ask 1 v0 unknown-from\n"
    for name, text, made in [("two =", b"rows1=a=b\n", "a=b"), ("a carriage return and no line feed", b"rows1=a\r", "a\r")]:
        checks.same(f"a line with {name}", serve(text, *given), (0, "", {"journal": "", made: answer}))
    checks.same("clients of a pipe", serve(b"", "--clients-from", "/dev/stdin", rows=pairs(1, 3)), answered(1, 2))
    ends = "".join(f"routed: client {number}: {name}: a read failed\n" for number, name in enumerate("abc", 1))
    checks.same("the order of clients", serve(b"b=2\nc=3\n", *given, "--client", "a=1", "--explain")[:2], (0, ends))
    for name, text, words, said in [
        ("without =", b"rows1\n", given, PAIR), ("without IN", b"=lines1\n", given, PAIR), ("without OUT", b"rows1=\n", given, PAIR),
        ("blank", b"\n", given, PAIR), ("blank between others", b"rows1=lines1\n\nrows2=lines2\n", given, PAIR),
        ("blank behind others", b"rows1=lines1\n\n", given, PAIR), ("blank but for a carriage return", b"\r\n", given, PAIR),
        ("bad beside --client", b"rows1\n", [*one, *given], PAIR),
        ("in no file", b"", given, COUNT), ("of 65", pairs(0, CLIENTS + 1), given, COUNT),
        ("of 64 beside --client", pairs(1, CLIENTS + 1), [*one, *given], COUNT),
        ("of --client again", pairs(0, 1), [*one, *given], "routed: a file is named twice: rows0\n"),
        ("that is no text", b"rows1=\xff\n", given, "routed: clients-from from: no text\n"),
        ("with a zero byte", b"rows1=\0\n", given, "routed: clients-from from: no text\n"),
        ("of the most bytes", b"r" * LONGEST, given, PAIR),
        ("of too many bytes", b"r" * (LONGEST + 1), given, f"routed: clients-from from: more than {LONGEST} bytes\n"),
        ("of too many characters", "\xe9".encode() * (LONGEST // 2 + 1), given, f"routed: clients-from from: more than {LONGEST} bytes\n"),
        ("of a file whose name is no text", b"", ["--clients-from", b"\xff"], "routed: the command line is no text\n"),
        ("of no end", b"", ["--clients-from", "/dev/zero"], f"routed: clients-from /dev/zero: more than {LONGEST} bytes\n"),
    ]:
        checks.same(f"lines {name}", serve(text, *words), (1, said, {}))
    for path, why in [("none", "open: No such file or directory (os error 2)"), ("-", "open: No such file or directory (os error 2)"),
                      ("a", "read: Is a directory (os error 21)")]:
        for more, said in [([], ""), (["--explain"], f"routed: clients-from {path}: {why}\n")]:
            checks.same(f"clients from {path} {more}", serve(b"", "--clients-from", path, *one, *more), (3, f"{said}routed: stopped\n", {}))
    status, errors, made = serve(b"", *given, *given, *one)
    checks.same("two files of clients", (status, errors.split("\n")[0], made),
                (1, "error: the argument '--clients-from <FILE>' cannot be used multiple times", {}))
