"""Clients that ask all the while, for bench/serve and bench/book: their times, and what these don't exceed."""
import array
import itertools
import math
import multiprocessing
import os
import select
import sys
import time

from streams import stop  # beside this file

DRIVERS = 4  # processes that ask
WARMING = 0.5  # seconds before times are taken


def ask_all(streams, rows, begin, until, told):
    """Asks on these streams, on each as soon as it is answered, and tells the seconds of what is answered between the two times."""
    poll, times, asked = select.epoll(), array.array("d"), {}
    for at, stream in enumerate(streams):
        poll.register(stream.lines, select.EPOLLIN)
        asked[stream.lines] = [stream, itertools.cycle(rows[at::len(streams)]), 0.0]
    for each in asked.values():
        each[2] = time.perf_counter()
        each[0].say(next(each[1]))
    while asked:
        for file, _ in poll.poll():
            stream, rest, sent = each = asked[file]
            if not (line := stream.line()).startswith(b"ask"):
                stop(f"an ask is answered by {line[:80]}")
            now = time.perf_counter()
            if begin <= now < until:
                times.append(now - sent)
            if now >= until:
                poll.unregister(file)
                del asked[file]
                continue
            row = next(rest)
            each[2] = time.perf_counter()
            stream.say(row)
    told.send_bytes(times.tobytes())


def flood(streams, rows, begin, until, told):
    """Writes rows to these streams as fast as they are taken, reads their lines, and tells how many came between the two times."""
    poll, text, count, left = select.epoll(), b"".join(rows), 0, {}
    for stream in streams:
        for file, event in ((stream.rows, select.EPOLLOUT), (stream.lines, select.EPOLLIN)):
            os.set_blocking(file, False)
            left[file], before = left.get(file, 0) | event, file in left
            poll.modify(file, left[file]) if before else poll.register(file, left[file])
    rest, by_rows = {stream.rows: text for stream in streams}, {stream.rows for stream in streams}
    while (now := time.perf_counter()) < until:
        for file, events in poll.poll(0.1):
            if events & select.EPOLLIN and (data := os.read(file, 1 << 18)) and begin <= now:
                count += data.count(b"\n")
            if events & select.EPOLLOUT and file in by_rows:
                try:
                    rest[file] = rest[file][os.write(file, rest[file][:1 << 16]):] or text
                except BlockingIOError:
                    pass
    for stream in streams:
        stream.close()
    told.send_bytes(array.array("d", [count]).tobytes())


def ask(streams, rows, seconds, meanwhile):
    """The seconds of each ask, by some processes, while something is done up to a time."""
    begin = time.perf_counter() + WARMING
    until, parts, context = begin + seconds, [], multiprocessing.get_context("fork")
    count = min(DRIVERS, len(streams))
    for at in range(count):
        heard, told = context.Pipe(False)
        process = context.Process(target=ask_all, args=(streams[at::count], rows[at::count], begin, until, told))
        process.start()
        told.close()
        parts.append((process, heard))
    done, times = meanwhile(begin, until), array.array("d")
    for process, heard in parts:
        try:
            times.frombytes(heard.recv_bytes())
        except EOFError:  # it has said why
            sys.exit(1)
        process.join()
    return times, done


def load(stream, rows):
    """Puts the network, batch by batch."""
    puts = []
    for row in rows:
        puts.append(row)
        if row.startswith("end,"):
            stream.say("".join(puts).encode())
            if not (line := stream.line()).startswith(b"version"):
                stop(f"a batch of the network is answered by {line}")
            puts = []


def at_most(times, share):
    """What this share of the times doesn't exceed, in microseconds."""
    return sorted(times)[math.ceil(len(times) * share) - 1] * 1e6 if times else float("nan")
