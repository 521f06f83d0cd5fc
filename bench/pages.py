"""Pages of routed-tools page that are told each version, for bench/serve --pages."""
import contextlib
import multiprocessing
import os
import re
import selectors
import socket
import subprocess
import urllib.request


@contextlib.contextmanager
def opened(words, room, count):
    """A run of these words, which begin routed-tools page, on the places of listen in a folder, with so many pages, whose events are
    read and dropped."""
    places = [word for name in ("journal", "ask", "watch") for word in (f"--{name}", os.path.join(room, name))]
    with subprocess.Popen([*words, *places, "--at", "0"], stdout=subprocess.PIPE) as page:
        try:
            address = "127.0.0.1", int(page.stdout.readline().rpartition(b":")[2])
            with urllib.request.urlopen("http://%s:%d/" % address) as answer:
                token = re.search("[0-9a-f]{32}", answer.read().decode())[0]
            pages = [socket.create_connection(address) for _ in range(count)]
            for one in pages:
                one.sendall(f"GET /events?token={token} HTTP/1.1\r\nHost: localhost\r\n\r\n".encode())
            multiprocessing.get_context("fork").Process(target=read, args=(pages,)).start()
            yield
        finally:
            page.terminate()


def read(sockets):
    """Drops what comes, until all of them have ended."""
    waiting = selectors.DefaultSelector()
    for one in sockets:
        waiting.register(one, selectors.EVENT_READ)
    while waiting.get_map():
        for key, _ in waiting.select():
            with contextlib.suppress(ConnectionError):
                if key.fileobj.recv(1 << 16):
                    continue
            waiting.unregister(key.fileobj)
