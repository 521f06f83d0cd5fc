"""Runs of `routed serve --book` that concern the program alone: more rows than other streams may have, and files and words that are
refused."""
import os
import tempfile

from program.compact_books import latin
from program.known_books import BASE, DIRECT, held, place
from program.known_compacts import SECOND, WRITTEN
from program.known_served_books import left, put
from program.served_calls import Served

STOPPED = b"routed: stopped\n"


# ---- many rows


def served_large(program, checks):
    """A beginning of the most changes is published as five batches; and any number of rows is read."""
    puts = [put(left(at % 7, 5), f"1.1.{at >> 13}.{at >> 5 & 255},10.{at >> 16}.{at >> 8 & 255}.{at & 255},2.2.2.2,10.9.9.9", at)
            for at in range(16_384)]
    rows = [*puts, *(f"node,3.0.{at >> 8}.{at & 255},0\n" for at in range(1024))]
    batches = [rows[at:at + 4096] for at in range(0, len(rows), 4096)]
    text = "".join(f"{''.join(batch)}end,{at},{len(batch)}\n" for at, batch in enumerate(batches, 1))
    begin = "".join(f"{''.join(batch[::-1])}end,{at},{len(batch)}\n" for at, batch in enumerate(batches, 1))
    with tempfile.TemporaryDirectory() as room:
        served = Served(program, room)
        checks.same("a beginning of the most changes", served.run("end,6,0\nshow,1\n", begin),
                    (2, b"base 6 v6\nshow 1 refused: absent\n", b"", b"end,6,0\n", latin(f"{text}end,6,0\n")))
        shown = "show 1 refused: absent\n"
        checks.same("1,000,001 rows before a base", served.run("show,1\n" * 1_000_001 + BASE + place(1)),
                    (2, latin(f"{shown * 1_000_001}base 1 v1\nplace 1 v2 {DIRECT}\n"), b"", latin(WRITTEN + place(1)),
                     latin(f"{WRITTEN}{put(left(999))}end,2,1\n")))
        change = "drop,1.1.1.1,10.0.0.1\n"
        begin = BASE + place(2) + place(1) + "release,2\n"
        checks.same("a beginning of 1,000,001 changes", served.run(BASE, begin + change * 1_000_001),
                    (2, b"unended 1000001\n", b"", b"", b""))
        checks.same("a beginning of 1,000,001 rows", served.run(place(2), begin + "show,1\n" * 1_000_001),
                    (0, latin(f"place 2 v2 {DIRECT}\n"), b"", latin(place(2)),
                     latin(f"{put(left(999))}{SECOND}end,1,2\n{put(left(998))}end,2,1\n")))


# ---- files and words


def served_files(program, checks):
    """Files that are there already or can't be had, and words that are refused: nothing is read then, and no file changes."""
    with tempfile.TemporaryDirectory() as room:
        there, new, other = (os.path.join(room, name) for name in ("there", "new", "other"))
        given = {"--keep": new, "--journal": other, "--client": f"/dev/null={room}/out"}

        def serve(*words, **files):
            chosen = {**given, **{f"--{name}": path for name, path in files.items()}}
            found = program.run(["serve", "--book", *words, *(word for pair in chosen.items() if pair[1] for word in pair)], BASE)
            made = {name: held(os.path.join(room, name)) for name in os.listdir(room)}
            for name in made:
                os.remove(os.path.join(room, name))
            return found, {name: text for name, text in made.items() if text}

        for name in ("keep", "journal"):
            for words, said in [([], ""), (["--explain"], f"routed: {name} {{}}: open: {{}}\n")]:
                with open(there, "wb") as file:
                    file.write(b"kept\n")
                checks.same(f"serve --book: a file of --{name} that is there {words}", serve(*words, **{name: there}),
                            ((3, b"", said.format(there, "File exists (os error 17)").encode() + STOPPED), {"there": b"kept\n"}))
                path = f"{room}/none/file"
                checks.same(f"serve --book: a file of --{name} in no folder {words}", serve(*words, **{name: path}),
                            ((3, b"", said.format(path, "No such file or directory (os error 2)").encode() + STOPPED), {}))
        twice = "routed: a file is named twice: {}\n".format
        checks.same("serve --book: the file of --keep is the journal by another name", serve(journal=f"{room}/./new"),
                    ((1, b"", twice(new).encode()), {}))
        with open(there, "w", encoding="ascii") as file:
            file.write(BASE)
        checks.same("serve --book: the file of --keep is the beginning", serve(keep=there, begin=there),
                    ((1, b"", twice(there).encode()), {"there": latin(BASE)}))
        for path in (f"{room}/none", room):
            status, out, err = serve(begin=path)[0]
            checks.true(f"serve --book: a beginning that can't be read: {os.path.basename(path)}", (status, out) == (3, b"")
                        and err.endswith(STOPPED), (status, out, err))
        for words, files in [([], {"keep": None}), ([], {"journal": None}), ([], {"client": None}), (["--keep"], {"keep": None}),
                             (["more"], {}), (["--begin"], {}), (["--accept-torn"], {}), (["--compact"], {}), (["--workers", "2"], {}),
                             ([], {"keep": other}), ([], {"journal": new})]:
            (status, out, err), made = serve(*words, **files)
            checks.true(f"serve --book: refused words {words} {files}", (status, out, made) == (1, b"", {}) and err,
                        (status, out, err, made))
        for words in (["--keep", new], ["--begin", "/dev/null"]):
            found = program.run(["serve", "--journal", other, "--client", f"/dev/null={room}/out", *words], BASE)
            checks.true(f"serve without --book: {words}", found[:2] == (1, b"") and found[2] and not os.path.exists(other), found)
    text = b" ".join(program.run(["serve", "--help"])[2].split())
    for word in (b"--book", b"--keep", b"--begin"):
        checks.true(f"help of serve names {word.decode()}", word in text, text)


PARTS = served_large, served_files
